/* Records of all nine kinds, replayed in a loop as far as the fuel goes. */
#include "steps.h"

/* A record as it lies: kind, flags, head, params and locals in the first word, slots and results in the second. */
typedef struct record {
    uint64_t front;
    uint64_t counts;
    uint64_t caller;
    uint64_t callee;
    uint64_t instance;
} record;

#define KIND UINT64_C(0xff)
#define CALLER_GIVEN UINT64_C(0x100)
#define INSTANCE_GIVEN UINT64_C(0x200)
#define HEAD UINT64_C(0xffff0000)
#define PARAMS UINT64_C(0xffff00000000)
#define LOCALS UINT64_C(0xffff000000000000)
#define SLOTS UINT64_C(0xffff)
#define RESULTS UINT64_C(0xffff0000)

/* What the loop carries: of the state it changes a copy, which the compiler keeps in registers. */
typedef struct world {
    cattlecleat_state s;
    uint64_t *words;
    uint64_t *cells;
} world;

/* A word whose flag is clear has to be 0. */
INLINE uint64_t unless(const record *r, uint64_t given, uint64_t word) {
    return r->front & given ? 0 : word;
}

INLINE uint16_t head(const record *r) {
    return (uint16_t)(r->front >> 16);
}

INLINE uint16_t params(const record *r) {
    return (uint16_t)(r->front >> 32);
}

INLINE uint16_t locals(const record *r) {
    return (uint16_t)(r->front >> 48);
}

INLINE uint16_t slots(const record *r) {
    return (uint16_t)r->counts;
}

INLINE uint16_t results(const record *r) {
    return (uint16_t)(r->counts >> 16);
}

/* Each of the following gives what a record of its kind costs: 1 where it is refused, with 10 or by its judgement. It is done where the
 * fuel left covers that; else the world is as before. */

INLINE uint64_t turn_push(world *w, const record *r, uint64_t left) {
    if ((r->front & ~(KIND | CALLER_GIVEN | INSTANCE_GIVEN | HEAD | PARAMS | LOCALS)) | (r->counts & ~SLOTS)
        | unless(r, CALLER_GIVEN, r->caller) | unless(r, INSTANCE_GIVEN, r->instance))
        return 1;
    cattlecleat_push q = {head(r), params(r), locals(r), slots(r), r->front & CALLER_GIVEN, r->caller, r->callee, r->front & INSTANCE_GIVEN,
                    r->instance};
    plan p = judge_push(&w->s, w->words, &q);
    uint64_t cost = p.number ? 1 : push_cost(&q);
    if (p.number == 0 && cost <= left)
        step_push(&w->s, w->words, w->cells, &q, p);
    return cost;
}

INLINE uint64_t turn_pop(world *w, const record *r, uint64_t left) {
    if ((r->front ^ (CATTLECLEAT_POP | INSTANCE_GIVEN)) | r->counts | r->caller | r->callee)
        return 1;
    plan p = judge_pop(&w->s, w->words);
    if (p.number == 0 && left > 0)
        step_pop(&w->s, w->words, r->instance);
    return 1;
}

INLINE uint64_t turn_replace(world *w, const record *r, uint64_t left) {
    if ((r->front & ~(KIND | INSTANCE_GIVEN | HEAD | PARAMS | LOCALS)) | (r->counts & ~SLOTS) | r->caller
        | unless(r, INSTANCE_GIVEN, r->instance))
        return 1;
    cattlecleat_replace q = {head(r), params(r), locals(r), slots(r), r->callee, r->front & INSTANCE_GIVEN, r->instance};
    plan p = judge_replace(&w->s, w->words, &q);
    uint64_t cost = p.number ? 1 : replace_cost(&q);
    if (p.number == 0 && cost <= left)
        step_replace(&w->s, w->words, w->cells, &q, p);
    return cost;
}

INLINE uint64_t turn_host(world *w, const record *r, uint64_t left) {
    if ((r->front & ~(KIND | CALLER_GIVEN | HEAD | PARAMS)) | (r->counts & ~RESULTS) | unless(r, CALLER_GIVEN, r->caller) | r->callee
        | r->instance)
        return 1;
    cattlecleat_host q = {head(r), params(r), results(r), r->front & CALLER_GIVEN, r->caller};
    plan p = judge_host(&w->s, w->words, &q);
    if (p.number == 0 && left > 0)
        step_host(&w->s, w->words, &q, p);
    return 1;
}

INLINE uint64_t turn_return_host(world *w, const record *r, uint64_t left) {
    if (((r->front & ~(HEAD | PARAMS)) ^ (CATTLECLEAT_RETURN_HOST | INSTANCE_GIVEN)) | (r->counts & ~RESULTS) | r->caller | r->callee)
        return 1;
    cattlecleat_return_host q = {head(r), params(r), results(r), r->instance};
    plan p = judge_return_host(&w->s, w->words, &q);
    uint64_t cost = p.number ? 1 : return_host_cost(&q);
    if (p.number == 0 && cost <= left)
        step_return_host(&w->s, w->words, w->cells, &q, p);
    return cost;
}

/* Sync: 9, 4. */
INLINE uint64_t turn_sync(world *w, const record *r, uint64_t left) {
    if ((r->front ^ CATTLECLEAT_SYNC) | r->counts | r->callee | r->instance)
        return 1;
    if (w->s.count > 0 && judge_top(&w->s, w->words).number == 0 && left > 0)
        w->words[top_at(&w->s) + IP] = r->caller;
    return 1;
}

/* Reset: 9, which the state alone can give. */
INLINE uint64_t turn_reset(world *w, const record *r, uint64_t left) {
    if ((r->front ^ CATTLECLEAT_RESET) | r->counts | r->caller | r->callee | r->instance || left == 0)
        return 1;
    w->s.count = 0;
    w->s.len = 0;
    w->s.current_flag = 0;
    w->s.current = 0;
    w->s.regs = (cattlecleat_registers){0, 0, 0};
    return 1;
}

/* Set: 9, 4, 7. */
INLINE uint64_t turn_set(world *w, const record *r, uint64_t left) {
    if (((r->front & ~HEAD) ^ CATTLECLEAT_SET) | r->counts | r->caller | r->instance)
        return 1;
    plan top = judge_top(&w->s, w->words);
    size_t at = top.start + head(r);
    if (w->s.count > 0 && top.number == 0 && at < w->s.len && left > 0)
        w->cells[at] = r->callee;
    return 1;
}

/* A restore changes nothing, and so does what is no record. */
INLINE uint64_t turn(world *w, const record *r, uint64_t left) {
    switch (r->front & KIND) {
    case CATTLECLEAT_PUSH:
        return turn_push(w, r, left);
    case CATTLECLEAT_POP:
        return turn_pop(w, r, left);
    case CATTLECLEAT_REPLACE:
        return turn_replace(w, r, left);
    case CATTLECLEAT_HOST:
        return turn_host(w, r, left);
    case CATTLECLEAT_RETURN_HOST:
        return turn_return_host(w, r, left);
    case CATTLECLEAT_SYNC:
        return turn_sync(w, r, left);
    case CATTLECLEAT_RESET:
        return turn_reset(w, r, left);
    case CATTLECLEAT_SET:
        return turn_set(w, r, left);
    default:
        return 1;
    }
}

/* No record makes a sound state broken, so that it is asked for once; on a broken one every record is refused and costs 1. */
cattlecleat_run floor_replay(cattlecleat_run run, uint64_t *words, size_t words_len, uint64_t *cells, size_t cells_len,
                             const uint8_t *trace, size_t trace_len) {
    if (run.stop_flag)
        return run;
    world w = {run.state, words, cells};
    int sound = !is_broken_state(&w.s, words_len, cells_len);
    uint64_t given = run.fuel < run.spent ? 0 : run.fuel - run.spent, left = given, number = run.number;
    for (size_t at = 0; at < trace_len; at += CATTLECLEAT_RECORD_BYTES) {
        uint64_t cost = 1;
        if (sound && trace_len - at >= CATTLECLEAT_RECORD_BYTES) {
            record r;
            memcpy(&r, trace + at, sizeof r);
            cost = turn(&w, &r, left);
        }
        if (cost > left) {
            run.stop_flag = 1;
            run.cost = cost;
            break;
        }
        left -= cost;
        number++;
    }
    run.state = w.s;
    run.number = number;
    run.spent += given - left;
    return run;
}
