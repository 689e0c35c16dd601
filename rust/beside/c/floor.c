/* The requests of a call, one function each, with the state in place. */
#include "steps.h"

cattlecleat_offset floor_push_frame(cattlecleat_state *s, uint64_t *words, size_t words_len, uint64_t *cells, size_t cells_len,
                                    const cattlecleat_push *q) {
    if (is_broken_state(s, words_len, cells_len))
        return (cattlecleat_offset){9, 0};
    plan p = judge_push(s, words, q);
    if (p.number)
        return (cattlecleat_offset){p.number, 0};
    step_push(s, words, cells, q, p);
    return (cattlecleat_offset){0, p.start};
}

cattlecleat_frame floor_pop_frame(cattlecleat_state *s, const uint64_t *words, size_t words_len, const uint64_t *cells, size_t cells_len,
                                  uint64_t instance) {
    (void)cells;
    if (is_broken_state(s, words_len, cells_len))
        return (cattlecleat_frame){9, 0, 0, 0};
    plan p = judge_pop(s, words);
    return p.number ? (cattlecleat_frame){p.number, 0, 0, 0} : step_pop(s, words, instance);
}

cattlecleat_offset floor_replace_frame(cattlecleat_state *s, uint64_t *words, size_t words_len, uint64_t *cells, size_t cells_len,
                                       const cattlecleat_replace *q) {
    if (is_broken_state(s, words_len, cells_len))
        return (cattlecleat_offset){9, 0};
    plan p = judge_replace(s, words, q);
    if (p.number)
        return (cattlecleat_offset){p.number, 0};
    step_replace(s, words, cells, q, p);
    return (cattlecleat_offset){0, p.start};
}

cattlecleat_hosted floor_prepare_host_frame(cattlecleat_state *s, uint64_t *words, size_t words_len, uint64_t *cells, size_t cells_len,
                                            const cattlecleat_host *q) {
    (void)cells;
    if (is_broken_state(s, words_len, cells_len))
        return (cattlecleat_hosted){.number = 9};
    plan p = judge_host(s, words, q);
    if (p.number)
        return (cattlecleat_hosted){.number = p.number};
    step_host(s, words, q, p);
    size_t start = p.start + q->head;
    return (cattlecleat_hosted){0, p.start, {start, start + larger(q->params, q->results), q->params, q->results}};
}

cattlecleat_returned floor_return_prepare_host_frame(cattlecleat_state *s, const uint64_t *words, size_t words_len, uint64_t *cells,
                                                     size_t cells_len, const cattlecleat_return_host *q) {
    if (is_broken_state(s, words_len, cells_len))
        return (cattlecleat_returned){.number = 9};
    plan p = judge_return_host(s, words, q);
    if (p.number)
        return (cattlecleat_returned){.number = p.number};
    cattlecleat_frame below = step_return_host(s, words, cells, q, p);
    size_t size = larger(q->params, q->results);
    cattlecleat_returned out = {below.number, below.offset, below.ip, below.instance, {0, 0, 0, 0}};
    if (size > 0)
        out.host = (cattlecleat_host_frame){p.start, p.start + size, q->params, q->results};
    return out;
}
