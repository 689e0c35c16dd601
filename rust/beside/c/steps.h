/* Document 01's requests of a call: each judged in full, in the document's order, and then done. A judgement changes nothing; a step asks
 * nothing. All of it is inlined, into the functions in place and into the loop of replay alike. */
#ifndef FLOOR_STEPS_H
#define FLOOR_STEPS_H

#include "floor.h"

#include <string.h>

#define INLINE static inline __attribute__((always_inline))

enum { MAX_DEPTH = 65536, MAX_CELLS = 1048576, FEW_CELLS = 8 };

/* The words of a frame. */
enum { IP, START, DEBT_FLAG, DEBT, FRAME_WORDS };

/* What a request that is judged comes to: its number; the top start, or the new frame's; and `len` after it. */
typedef struct plan {
    uint64_t number;
    size_t start;
    size_t len;
} plan;

INLINE plan refused(uint64_t number) {
    return (plan){number, 0, 0};
}

/* 9 of everything but the frames. */
INLINE int is_broken_state(const cattlecleat_state *s, size_t words_len, size_t cells_len) {
    return s->words != words_len || s->cells != cells_len || s->depth > MAX_DEPTH || s->height > MAX_CELLS || s->cells > MAX_CELLS
        || s->words / FRAME_WORDS < s->depth || s->count > s->depth || s->len > s->cells || s->len > s->height;
}

/* 9 of a frame that is read. */
INLINE int is_broken_row(const uint64_t *row, size_t len) {
    return row[START] > len || row[DEBT_FLAG] > 1 || (row[DEBT_FLAG] == 0 && row[DEBT] != 0);
}

/* Where the newest frame lies in the words, where there is one. */
INLINE size_t top_at(const cattlecleat_state *s) {
    return FRAME_WORDS * (s->count - 1);
}

/* The top start, 0 without frames; 9. */
INLINE plan judge_top(const cattlecleat_state *s, const uint64_t *words) {
    if (s->count == 0)
        return (plan){0, 0, s->len};
    const uint64_t *top = words + top_at(s);
    return is_broken_row(top, s->len) ? refused(9) : (plan){0, top[START], s->len};
}

/* Growing to so many cells: 2, 3. */
INLINE plan judge_growth(const cattlecleat_state *s, size_t start, size_t needed) {
    if (needed > s->height)
        return refused(2);
    if (needed > s->cells)
        return refused(3);
    return (plan){0, start, needed > s->len ? needed : s->len};
}

INLINE int is_disordered(uint16_t params, uint16_t locals, uint16_t slots) {
    return params > locals || locals > slots;
}

INLINE size_t larger(uint16_t params, uint16_t results) {
    return params > results ? params : results;
}

INLINE void clear(uint64_t *cells, size_t from, size_t to) {
    if (from < to)
        memset(cells + from, 0, (to - from) * sizeof *cells);
}

/* Copies cells downwards, or to where they are: so each is read before it is overwritten. Few are copied one by one; the empty asm keeps
 * the compiler from making a call of that, or a loop over vectors. */
INLINE void copy(uint64_t *cells, size_t from, size_t to, size_t count) {
    if (count > FEW_CELLS) {
        memmove(cells + to, cells + from, count * sizeof *cells);
        return;
    }
    for (size_t n = 0; n < count; n++) {
        cells[to + n] = cells[from + n];
        __asm__ volatile("");
    }
}

/* ---- push: 9, 2 (depth), 4 or 6, 5, 2, 3 */

INLINE plan judge_push(const cattlecleat_state *s, const uint64_t *words, const cattlecleat_push *q) {
    plan top = judge_top(s, words);
    if (top.number)
        return top;
    if (s->count == s->depth)
        return refused(2);
    if (q->caller_flag ? s->count == 0 : s->count != 0)
        return refused(q->caller_flag ? 4 : 6);
    if (is_disordered(q->params, q->locals, q->slots))
        return refused(5);
    if (q->slots == 0)
        return q->head ? refused(5) : top;
    size_t start = top.start + q->head;
    return judge_growth(s, start, start + q->slots);
}

INLINE uint64_t push_cost(const cattlecleat_push *q) {
    return 1 + (uint64_t)(q->locals - q->params);
}

INLINE void step_push(cattlecleat_state *s, uint64_t *words, uint64_t *cells, const cattlecleat_push *q, plan p) {
    uint64_t *row = words + FRAME_WORDS * s->count;
    int owes = s->current_flag && q->instance_flag && s->current != q->instance;
    if (q->caller_flag)
        row[IP - FRAME_WORDS] = q->caller;
    row[IP] = q->callee;
    row[START] = p.start;
    row[DEBT_FLAG] = (uint64_t)owes;
    row[DEBT] = owes ? s->current : 0;
    if (q->instance_flag) {
        s->current_flag = 1;
        s->current = q->instance;
    }
    s->count++;
    s->len = p.len;
    clear(cells, p.start + q->params, p.start + q->locals);
}

/* ---- pop: 9, 4 */

/* The top start, for return-host. Without frames there is no row to be broken. */
INLINE plan judge_pop(const cattlecleat_state *s, const uint64_t *words) {
    if (s->count == 0)
        return refused(4);
    if (s->count > 1 && is_broken_row(words + top_at(s) - FRAME_WORDS, s->len))
        return refused(9);
    return judge_top(s, words);
}

INLINE cattlecleat_frame step_pop(cattlecleat_state *s, const uint64_t *words, uint64_t instance) {
    const uint64_t *gone = words + top_at(s), *below = gone - FRAME_WORDS;
    s->count--;
    if (s->count == 0)
        return (cattlecleat_frame){1, 0, 0, 0};
    if (gone[DEBT_FLAG]) {
        instance = gone[DEBT];
        s->current_flag = 1;
        s->current = instance;
    }
    return (cattlecleat_frame){0, below[START], below[IP], instance};
}

/* ---- replace: 9, 4, 5, 2, 3, 7 */

/* The parameters lie below `len` as it is after growth. */
INLINE plan judge_replace(const cattlecleat_state *s, const uint64_t *words, const cattlecleat_replace *q) {
    if (s->count == 0)
        return refused(4);
    plan top = judge_top(s, words);
    if (top.number)
        return top;
    if (is_disordered(q->params, q->locals, q->slots))
        return refused(5);
    if (q->slots == 0)
        return top;
    plan p = judge_growth(s, top.start, top.start + q->slots);
    return p.number == 0 && top.start + q->head + q->params > p.len ? refused(7) : p;
}

INLINE uint64_t replace_cost(const cattlecleat_replace *q) {
    return 1 + (uint64_t)q->locals;
}

/* Without slots there are no parameters and no locals, and no cell is touched. */
INLINE void step_replace(cattlecleat_state *s, uint64_t *words, uint64_t *cells, const cattlecleat_replace *q, plan p) {
    uint64_t *top = words + top_at(s);
    top[IP] = q->callee;
    if (q->instance_flag) {
        if (top[DEBT_FLAG] == 0 && s->current_flag && s->current != q->instance) {
            top[DEBT_FLAG] = 1;
            top[DEBT] = s->current;
        }
        s->current_flag = 1;
        s->current = q->instance;
    }
    s->len = p.len;
    copy(cells, p.start + q->head, p.start, q->params);
    clear(cells, p.start + q->params, p.start + q->locals);
}

/* ---- host: 9, 4, 2, 3 */

INLINE plan judge_host(const cattlecleat_state *s, const uint64_t *words, const cattlecleat_host *q) {
    plan top = judge_top(s, words);
    if (top.number)
        return top;
    if (s->count == 0 && q->caller_flag)
        return refused(4);
    return judge_growth(s, top.start, top.start + q->head + larger(q->params, q->results));
}

INLINE void step_host(cattlecleat_state *s, uint64_t *words, const cattlecleat_host *q, plan p) {
    if (q->caller_flag)
        words[top_at(s) + IP] = q->caller;
    s->len = p.len;
}

/* ---- return-host: 9, 4, 7, 2, 3 */

/* The parameters lie below `len` as it is before growth. */
INLINE plan judge_return_host(const cattlecleat_state *s, const uint64_t *words, const cattlecleat_return_host *q) {
    plan top = judge_pop(s, words);
    size_t size = larger(q->params, q->results);
    if (top.number || size == 0)
        return top;
    if (top.start + q->head + q->params > s->len)
        return refused(7);
    return judge_growth(s, top.start, top.start + size);
}

INLINE uint64_t return_host_cost(const cattlecleat_return_host *q) {
    return 1 + (uint64_t)q->params;
}

INLINE cattlecleat_frame step_return_host(cattlecleat_state *s, const uint64_t *words, uint64_t *cells,
                                          const cattlecleat_return_host *q, plan p) {
    s->len = p.len;
    copy(cells, p.start + q->head, p.start, q->params);
    return step_pop(s, words, q->instance);
}

#endif
