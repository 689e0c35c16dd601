/* A test of the C face: document 01's example, some of its edge cases, and each function of the header, on the linked archive.
 * Prints one line, `c: N checks, 0 failed`; the exit status is 1 where one failed. */
#include "cattlecleat.h"

#include <stdio.h>
#include <string.h>

#define DEPTH 64
#define WORDS (CATTLECLEAT_FRAME_WORDS * DEPTH)
#define CELLS 4096
#define RECORDS 5

typedef struct world {
    cattlecleat_state state;
    uint64_t words[WORDS];
    uint64_t cells[CELLS];
} world;

static world w;
static unsigned checks, failed;

static void check(int good, int line, const char *what) {
    checks++;
    if (good)
        return;
    failed++;
    fprintf(stderr, "test.c:%d: not so: %s\n", line, what);
}

#define CHECK(good) check((good), __LINE__, #good)

static const cattlecleat_request P = {.kind = CATTLECLEAT_PUSH, .callee = 100, .locals = 2, .slots = 4, .instance_flag = 1, .instance = 1};
static const cattlecleat_request Q = {.kind = CATTLECLEAT_PUSH,
                                      .head = 2,
                                      .params = 1,
                                      .locals = 2,
                                      .slots = 3,
                                      .caller_flag = 1,
                                      .caller = 101,
                                      .callee = 200,
                                      .instance_flag = 1,
                                      .instance = 2};
static const cattlecleat_request POP_2 = {.kind = CATTLECLEAT_POP, .instance_flag = 1, .instance = 2};
static const cattlecleat_request RESTORE = {.kind = CATTLECLEAT_RESTORE};
static const cattlecleat_request RESET = {.kind = CATTLECLEAT_RESET};

static void open_world(void) {
    memset(&w, 0xAB, sizeof w);
    cattlecleat_answer a = cattlecleat_open(32768, DEPTH, w.words, WORDS, w.cells, CELLS);
    CHECK(a.number == 0);
    w.state = a.state;
}

static cattlecleat_answer ask(cattlecleat_request q) {
    cattlecleat_answer a = cattlecleat_ask(w.state, w.words, WORDS, w.cells, CELLS, q);
    w.state = a.state;
    return a;
}

static uint32_t bits32(float f) {
    uint32_t bits;
    memcpy(&bits, &f, sizeof bits);
    return bits;
}

static uint64_t bits64(double f) {
    uint64_t bits;
    memcpy(&bits, &f, sizeof bits);
    return bits;
}

static int same_regs(cattlecleat_registers a, cattlecleat_registers b) {
    return a.ireg == b.ireg && bits32(a.freg32) == bits32(b.freg32) && bits64(a.freg64) == bits64(b.freg64);
}

/* Field by field: a struct's padding is nobody's. */
static int same_state(cattlecleat_state a, cattlecleat_state b) {
    return a.depth == b.depth && a.height == b.height && a.words == b.words && a.cells == b.cells && a.count == b.count && a.len == b.len
        && a.current_flag == b.current_flag && a.current == b.current && same_regs(a.regs, b.regs);
}

static int same_request(cattlecleat_request a, cattlecleat_request b) {
    return a.kind == b.kind && a.head == b.head && a.params == b.params && a.locals == b.locals && a.slots == b.slots
        && a.results == b.results && a.caller_flag == b.caller_flag && a.caller == b.caller && a.callee == b.callee
        && a.instance_flag == b.instance_flag && a.instance == b.instance;
}

static void check_line(cattlecleat_request q, uint64_t number, size_t offset, size_t depth, size_t len) {
    cattlecleat_answer a = ask(q);
    CHECK(a.number == number && a.offset == offset && a.state.count == depth && a.state.len == len);
}

/* The sizes that rust/cattlecleat has too. */
static void check_sizes(void) {
    CHECK(sizeof(cattlecleat_registers) == 24 && sizeof(cattlecleat_host_frame) == 24 && sizeof(cattlecleat_state) == 88);
    CHECK(sizeof(cattlecleat_request) == 64 && sizeof(cattlecleat_answer) == 168 && sizeof(cattlecleat_part) == 32);
    CHECK(sizeof(cattlecleat_run) == 128 && sizeof(cattlecleat_read) == 72 && sizeof(cattlecleat_aligned) == 16);
    CHECK(sizeof(cattlecleat_tape) == 184 && sizeof(cattlecleat_fed) == 192);
    CHECK(sizeof(cattlecleat_reason) == 16 && sizeof(cattlecleat_done) == 40);
    CHECK(sizeof(cattlecleat_push) == 48 && sizeof(cattlecleat_replace) == 32 && sizeof(cattlecleat_host) == 24);
    CHECK(sizeof(cattlecleat_return_host) == 16 && sizeof(cattlecleat_offset) == 16 && sizeof(cattlecleat_frame) == 32);
    CHECK(sizeof(cattlecleat_hosted) == 40 && sizeof(cattlecleat_returned) == 56);
}

static void check_opening(void) {
    const cattlecleat_state zeros = {0};
    cattlecleat_answer a = cattlecleat_open(8388609, DEPTH, w.words, WORDS, w.cells, CELLS);
    CHECK(a.number == 14 && same_state(a.state, zeros));
    CHECK(cattlecleat_open(80, DEPTH, w.words, WORDS - 1, w.cells, CELLS).number == 14);
    CHECK(cattlecleat_open(15, 0, w.words, 0, w.cells, 0).state.height == 1);
}

static void check_example(void) {
    open_world();
    check_line(P, 0, 0, 1, 4);
    check_line(Q, 0, 2, 2, 5);
    check_line(POP_2, 0, 0, 1, 5);
    check_line(POP_2, 1, 0, 0, 5);
    check_line(POP_2, 4, 0, 0, 5);
}

/* K2. */
static void check_call_and_return(void) {
    const uint64_t rows[2 * CATTLECLEAT_FRAME_WORDS] = {101, 0, 0, 0, 200, 2, 1, 1};
    open_world();
    ask(P);
    ask(Q);
    CHECK(memcmp(w.words, rows, sizeof rows) == 0);
    CHECK(w.cells[2] == 0xABABABABABABABAB && w.cells[3] == 0);
    CHECK(w.state.current_flag == 1 && w.state.current == 2);
    cattlecleat_answer a = ask(POP_2);
    CHECK(a.number == 0 && a.ip == 101 && a.offset == 0 && a.instance == 1);
    CHECK(w.state.current == 1 && w.state.len == 5);
}

static void check_refusal(cattlecleat_request q, uint64_t number) {
    static world before;
    memcpy(&before, &w, sizeof w);
    cattlecleat_answer a = ask(q);
    CHECK(a.number == number && a.offset == 0 && a.ip == 0 && a.instance == 0 && a.host.end == 0);
    CHECK(same_state(w.state, before.state));
    CHECK(memcmp(w.words, before.words, sizeof w.words) == 0 && memcmp(w.cells, before.cells, sizeof w.cells) == 0);
}

static void check_refusals(void) {
    cattlecleat_request none = P, counts = Q, high = Q, far = {.kind = CATTLECLEAT_SET, .head = 4, .callee = 1};
    none.kind = 10;
    counts.params = 3;
    high.slots = 4095;
    open_world();
    check_refusal(POP_2, 4);
    ask(P);
    check_refusal(P, 6);
    check_refusal(counts, 5);
    check_refusal(high, 2);
    check_refusal(far, 7);
    check_refusal(none, 10);
    w.state.current_flag = 7; /* reads as given, and comes back as 7 */
    check_refusal(far, 7);
    check_refusal(none, 10);
    w.state.len = CELLS + 1;
    check_refusal(RESET, 9);
}

/* A struct that breaks the rules of its kind is not written: a flag that the kind lacks or does not have, a number that it does not use,
 * one beside a clear flag. Any flag but 0 is given. */
static void check_unlawful(void) {
    const cattlecleat_request bad[] = {
        {.kind = CATTLECLEAT_POP, .head = 5},
        {.kind = CATTLECLEAT_POP, .instance = 2},
        {.kind = CATTLECLEAT_POP, .head = 1, .instance_flag = 1},
        {.kind = CATTLECLEAT_SYNC, .caller_flag = 1, .caller = 5},
        {.kind = CATTLECLEAT_PUSH, .caller = 1},
        {.kind = CATTLECLEAT_PUSH, .results = 1},
        {.kind = CATTLECLEAT_REPLACE, .instance = 1},
        {.kind = CATTLECLEAT_RESET, .instance_flag = 1},
        {.kind = 256 + CATTLECLEAT_RESET},
    };
    uint8_t trace[CATTLECLEAT_RECORD_BYTES], before[sizeof trace];
    memset(trace, 0xAB, sizeof trace);
    memcpy(before, trace, sizeof trace);
    for (size_t n = 0; n < sizeof bad / sizeof bad[0]; n++)
        CHECK(cattlecleat_write_record(trace, sizeof trace, 0, bad[n]) == 10 && memcmp(trace, before, sizeof trace) == 0);
    const cattlecleat_request pop = {.kind = CATTLECLEAT_POP, .instance_flag = 7, .instance = 2};
    CHECK(cattlecleat_write_record(trace, sizeof trace, 0, pop) == 0);
    CHECK(same_request(cattlecleat_read_record(trace, sizeof trace, 0).request, POP_2));
}

/* What a trace leaves as it was comes back number for number. */
static void check_handed_back(void) {
    uint8_t trace[2 * CATTLECLEAT_RECORD_BYTES] = {0};
    open_world();
    cattlecleat_run came = {.state = w.state, .fuel = 9, .cost = 5};
    came.state.current_flag = 2;
    came.state.current = 7;
    CHECK(cattlecleat_write_record(trace, sizeof trace, CATTLECLEAT_RECORD_BYTES, P) == 0);
    cattlecleat_run run = cattlecleat_replay(came, w.words, WORDS, w.cells, CELLS, trace, CATTLECLEAT_RECORD_BYTES);
    CHECK(run.number == 1 && run.spent == 1 && run.stop_flag == 0 && run.cost == 5 && same_state(run.state, came.state));
    run = cattlecleat_replay(came, w.words, WORDS, w.cells, CELLS, trace, 0);
    CHECK(run.number == 0 && run.fuel == 9 && run.spent == 0 && run.cost == 5 && same_state(run.state, came.state));
    run = cattlecleat_replay(came, w.words, WORDS, w.cells, CELLS, trace, sizeof trace);
    CHECK(run.number == 2 && run.spent == 4 && run.state.current_flag == 1 && run.state.current == 1 && run.cost == 5);
    came.stop_flag = 3;
    run = cattlecleat_replay(came, w.words, WORDS, w.cells, CELLS, trace, sizeof trace);
    CHECK(run.number == 0 && run.spent == 0 && run.stop_flag == 3 && run.cost == 5 && same_state(run.state, came.state));
}

static void check_records(void) {
    const cattlecleat_request requests[RECORDS] = {P, Q, POP_2, POP_2, POP_2};
    uint8_t trace[RECORDS * CATTLECLEAT_RECORD_BYTES], before[sizeof trace];
    for (size_t n = 0; n < RECORDS; n++) {
        CHECK(cattlecleat_write_record(trace, sizeof trace, n * CATTLECLEAT_RECORD_BYTES, requests[n]) == 0);
        cattlecleat_read r = cattlecleat_read_record(trace, sizeof trace, n * CATTLECLEAT_RECORD_BYTES);
        CHECK(r.number == 0 && same_request(r.request, requests[n]));
    }
    memcpy(before, trace, sizeof trace);
    CHECK(cattlecleat_write_record(trace, sizeof trace, 161, P) == 10 && memcmp(trace, before, sizeof trace) == 0);
    CHECK(cattlecleat_read_record(trace, sizeof trace, 161).number == 10);
    CHECK(cattlecleat_read_record(trace, sizeof trace, SIZE_MAX).number == 10);

    open_world();
    cattlecleat_run run = {.state = w.state, .fuel = 1000000};
    run = cattlecleat_replay(run, w.words, WORDS, w.cells, CELLS, trace, sizeof trace);
    CHECK(run.spent == 8 && run.number == 5 && run.stop_flag == 0 && run.state.count == 0 && run.state.len == 5);
    open_world();
    cattlecleat_run poor = {.state = w.state, .fuel = 4};
    poor = cattlecleat_replay(poor, w.words, WORDS, w.cells, CELLS, trace, sizeof trace);
    CHECK(poor.spent == 3 && poor.number == 1 && poor.stop_flag == 1 && poor.cost == 2 && poor.state.count == 1);
}

static int same_run(cattlecleat_run a, cattlecleat_run b) {
    return same_state(a.state, b.state) && a.number == b.number && a.fuel == b.fuel && a.spent == b.spent && a.stop_flag == b.stop_flag
        && a.cost == b.cost;
}

static int same_tape(cattlecleat_tape a, cattlecleat_tape b) {
    return same_run(a.run, b.run) && memcmp(a.kept, b.kept, sizeof a.kept) == 0 && a.held == b.held && a.end_flag == b.end_flag;
}

static cattlecleat_tape begun(uint64_t fuel) {
    open_world();
    cattlecleat_tape t = {.run = {.state = w.state, .fuel = fuel}};
    return t;
}

static cattlecleat_fed feed(cattlecleat_tape t, const uint8_t *block, size_t block_len) {
    return cattlecleat_feed(t, w.words, WORDS, w.cells, CELLS, block, block_len);
}

static cattlecleat_tape finish(cattlecleat_tape t) {
    return cattlecleat_finish(t, w.words, WORDS, w.cells, CELLS);
}

/* P and half of Q, which is a short record: what comes of them at once. */
#define TAPE_BYTES (CATTLECLEAT_RECORD_BYTES + 20)

static void write_tape(uint8_t *trace) {
    uint8_t whole[2 * CATTLECLEAT_RECORD_BYTES];
    CHECK(cattlecleat_write_record(whole, sizeof whole, 0, P) == 0);
    CHECK(cattlecleat_write_record(whole, sizeof whole, CATTLECLEAT_RECORD_BYTES, Q) == 0);
    memcpy(trace, whole, TAPE_BYTES);
}

/* Cut anywhere, blocks and an end come to what the trace comes to at once. */
static void check_blocks(void) {
    const uint8_t zeros[CATTLECLEAT_RECORD_BYTES] = {0};
    uint8_t trace[TAPE_BYTES];
    write_tape(trace);
    cattlecleat_run at_once = cattlecleat_replay(begun(9).run, w.words, WORDS, w.cells, CELLS, trace, sizeof trace);
    CHECK(at_once.number == 2 && at_once.spent == 4 && at_once.stop_flag == 0 && at_once.state.len == 4);
    for (size_t cut = 0; cut <= sizeof trace; cut++) {
        cattlecleat_fed a = feed(begun(9), trace, cut);
        CHECK(a.number == 0 && a.tape.run.number == cut / 40 && a.tape.held == cut % 40);
        CHECK(memcmp(a.tape.kept, trace + cut - cut % 40, cut % 40) == 0);
        a = feed(a.tape, trace + cut, sizeof trace - cut);
        CHECK(a.number == 0 && a.tape.run.number == 1 && a.tape.held == 20 && a.tape.end_flag == 0);
        cattlecleat_tape t = finish(a.tape);
        CHECK(same_run(t.run, at_once) && memcmp(t.kept, zeros, sizeof zeros) == 0 && t.held == 0 && t.end_flag == 1);
        CHECK(w.words[0] == 100 && w.cells[1] == 0 && w.cells[2] == 0xABABABABABABABAB);
    }
}

/* After an end: a second one and an empty block change nothing, another block is 22. */
static void check_ended(void) {
    uint8_t trace[TAPE_BYTES];
    write_tape(trace);
    cattlecleat_tape t = finish(feed(begun(9), trace, sizeof trace).tape);
    t.end_flag = 7; /* reads as told, and comes back as 7 */
    t.held = SIZE_MAX;
    CHECK(same_tape(finish(t), t));
    cattlecleat_fed a = feed(t, trace, 0);
    CHECK(a.number == 0 && same_tape(a.tape, t));
    a = feed(t, trace, 1);
    CHECK(a.number == 22 && same_tape(a.tape, t) && same_tape(finish(a.tape), t));
}

/* After a stop nothing is held, and blocks and ends only say it again: in a block, and at the end. */
static void check_stopped(void) {
    uint8_t trace[TAPE_BYTES];
    write_tape(trace);
    cattlecleat_fed a = feed(begun(2), trace, sizeof trace);
    CHECK(a.number == 0 && a.tape.run.number == 0 && a.tape.run.stop_flag == 1 && a.tape.run.cost == 3 && a.tape.held == 0);
    CHECK(same_tape(finish(a.tape), a.tape) && same_tape(feed(a.tape, trace, 5).tape, a.tape));
    a = feed(begun(3), trace, sizeof trace);
    CHECK(a.number == 0 && a.tape.run.stop_flag == 0 && a.tape.held == 20);
    cattlecleat_tape t = finish(a.tape);
    CHECK(t.run.number == 1 && t.run.spent == 3 && t.run.stop_flag == 1 && t.run.cost == 1 && t.held == 0);
    a = feed(t, trace, sizeof trace);
    CHECK(a.number == 0 && same_tape(a.tape, t) && same_tape(finish(t), t));
}

/* More than 39 held count as 39. */
static void check_held(void) {
    uint8_t record[CATTLECLEAT_RECORD_BYTES];
    cattlecleat_tape t = begun(9);
    CHECK(cattlecleat_write_record(record, sizeof record, 0, P) == 0);
    memcpy(t.kept, record, sizeof record);
    t.held = SIZE_MAX;
    CHECK(finish(t).run.number == 1 && finish(t).run.spent == 1 && finish(t).run.state.count == 0 && finish(t).held == 0);
    t.kept[39] = 0xAB;
    cattlecleat_fed a = feed(t, record + 39, 1);
    CHECK(a.number == 0 && a.tape.run.number == 1 && a.tape.run.spent == 3 && a.tape.run.state.current == 1);
    CHECK(a.tape.held == 0 && a.tape.kept[0] == 0 && a.tape.kept[39] == 0);
}

/* K10, and its refusals. */
static void check_align(void) {
    CHECK(cattlecleat_align(1003, 1000).address == 1008 && cattlecleat_align(1008, 1000).address == 1008);
    CHECK(cattlecleat_align(1009, 1000).address == 1016 && cattlecleat_align(1009, 1000).number == 0);
    CHECK(cattlecleat_align(999, 1000).number == 15 && cattlecleat_align(999, 1000).address == 0);
    CHECK(cattlecleat_align(UINT64_MAX, 8).number == 15 && cattlecleat_align(UINT64_MAX, 7).address == UINT64_MAX);
}

static void check_slot(void) {
    const cattlecleat_reason empty = {0}, returned = {CATTLECLEAT_RETURNED, 7}, fuel = {CATTLECLEAT_OUT_OF_FUEL, 9};
    CHECK(cattlecleat_take_done_reason(empty).number == 13);
    cattlecleat_done d = cattlecleat_done_with(empty, returned);
    CHECK(d.number == 0 && d.slot.kind == CATTLECLEAT_RETURNED && d.slot.amount == 7 && d.reason.kind == 0);
    d = cattlecleat_done_with(d.slot, fuel);
    CHECK(d.number == 12 && d.slot.kind == CATTLECLEAT_RETURNED && d.slot.amount == 7);
    const cattlecleat_reason any = {7, 8}, beside = {0, 5};
    CHECK(cattlecleat_done_with(any, fuel).slot.kind == 7 && cattlecleat_done_with(any, fuel).slot.amount == 8);
    CHECK(cattlecleat_take_done_reason(beside).number == 13 && cattlecleat_take_done_reason(beside).slot.amount == 5);
    d = cattlecleat_take_done_reason(d.slot);
    CHECK(d.number == 0 && d.reason.kind == CATTLECLEAT_RETURNED && d.reason.amount == 7 && d.slot.kind == 0);
}

static void check_conversions(void) {
    const uint64_t minus_one = (uint64_t)-1;
    CHECK(cattlecleat_to_register(CATTLECLEAT_I8, minus_one) == 255 && cattlecleat_to_register(CATTLECLEAT_I16, minus_one) == 65535);
    CHECK(cattlecleat_to_register(CATTLECLEAT_I32, minus_one) == UINT32_MAX);
    CHECK(cattlecleat_to_register(CATTLECLEAT_I64, minus_one) == minus_one && cattlecleat_to_register(10, minus_one) == minus_one);
    CHECK((int64_t)cattlecleat_from_register(CATTLECLEAT_I8, 255) == -1 && cattlecleat_from_register(CATTLECLEAT_U8, 511) == 255);
    CHECK((int64_t)cattlecleat_from_register(CATTLECLEAT_I16, 0x8000) == INT16_MIN);
    CHECK((int64_t)cattlecleat_from_register(CATTLECLEAT_I32, 0x80000000) == INT32_MIN);
    CHECK(cattlecleat_from_register(CATTLECLEAT_I8, 127) == 127 && cattlecleat_from_register(CATTLECLEAT_U16, 0x18000) == 0x8000);
    CHECK(cattlecleat_to_register(CATTLECLEAT_BOOL, 256) == 1 && cattlecleat_from_register(CATTLECLEAT_BOOL, 0) == 0);
}

/* Signalling NaNs of both signs come back with their bits, and a reset leaves zeros. */
static void check_registers(void) {
    const uint32_t single = 0xFF800001;
    const uint64_t twice = 0x7FF0000000000001;
    const cattlecleat_registers zeros = {0};
    cattlecleat_registers regs = {.ireg = 7};
    memcpy(&regs.freg32, &single, sizeof single);
    memcpy(&regs.freg64, &twice, sizeof twice);
    open_world();
    ask(P);
    w.state = cattlecleat_sync_registers(w.state, w.words, WORDS, w.cells, CELLS, regs).state;
    ask(Q);
    ask(POP_2);
    cattlecleat_answer a = ask(RESTORE);
    CHECK(a.number == 0 && a.ip == 101 && a.offset == 0 && a.instance == 1 && same_regs(a.regs, regs));
    CHECK(same_regs(cattlecleat_read_registers(w.state), regs));
    CHECK(cattlecleat_sync_registers(w.state, w.words, WORDS - 1, w.cells, CELLS, zeros).number == 9);
    CHECK(ask(RESET).number == 0 && same_regs(cattlecleat_read_registers(w.state), zeros));
}

/* 0.0 and -0.0, and quiet and signalling NaNs of both signs, with payloads. */
#define PATTERNS 6
static const uint32_t SINGLES[PATTERNS] = {0, 0x80000000, 0x7FE12345, 0xFFC00000, 0x7F800001, 0xFFA5A5A5};
static const uint64_t DOUBLES[PATTERNS]
    = {0, 0x8000000000000000, 0x7FF8000000000000, 0xFFFC0123456789AB, 0x7FF5A5A5A5A5A5A5, 0xFFF0000000000001};

static float single(size_t n) {
    float f;
    memcpy(&f, &SINGLES[n], sizeof f);
    return f;
}

static double twice(size_t n) {
    double f;
    memcpy(&f, &DOUBLES[n], sizeof f);
    return f;
}

static int has(const cattlecleat_registers *r, uint64_t ireg, size_t freg32, size_t freg64) {
    return r->ireg == ireg && bits32(r->freg32) == SINGLES[freg32] && bits64(r->freg64) == DOUBLES[freg64];
}

/* Each function changes what it names in this record, and keeps the rest. */
static void check_puts(cattlecleat_registers *r, size_t n) {
    const uint64_t high = UINT64_MAX - n;
    const size_t m = (n + 1) % PATTERNS;
    cattlecleat_put_registers(r, high, single(n), twice(n));
    CHECK(has(r, high, n, n));
    cattlecleat_put_ireg(r, n);
    CHECK(has(r, n, n, n));
    cattlecleat_put_freg32(r, single(m));
    CHECK(has(r, n, m, n));
    cattlecleat_put_freg64(r, twice(m));
    CHECK(has(r, n, m, m));
    cattlecleat_zero_registers(r);
    CHECK(has(r, 0, 0, 0));
}

/* In a record by itself, and in a state's, whose other numbers stay. */
static void check_in_place(void) {
    cattlecleat_registers alone;
    memset(&alone, 0xAB, sizeof alone);
    open_world();
    ask(P);
    cattlecleat_state before = w.state;
    for (size_t n = 0; n < PATTERNS; n++) {
        check_puts(&alone, n);
        check_puts(&w.state.regs, n);
        CHECK(same_state(w.state, before));
    }
    cattlecleat_put_freg32(&w.state.regs, single(5));
    cattlecleat_answer a = ask(RESTORE);
    CHECK(a.number == 0 && has(&a.regs, 0, 5, 0) && has(&w.state.regs, 0, 5, 0));
}

static void check_host(void) {
    const cattlecleat_request host = {.kind = CATTLECLEAT_HOST, .head = 3, .params = 1, .results = 3};
    const cattlecleat_request tail = {.kind = CATTLECLEAT_RETURN_HOST, .head = 1, .params = 2, .results = 1, .instance = 9};
    open_world();
    ask(P);
    cattlecleat_answer a = ask(host);
    CHECK(a.number == 0 && a.host.start == 3 && a.host.end == 6 && a.host.params == 1 && a.host.results == 3 && a.state.len == 6);
    cattlecleat_part part = cattlecleat_host_part(w.state, w.words, WORDS, w.cells, CELLS, a.host);
    CHECK(part.number == 0 && part.offset == 3 && part.params == 1 && part.results == 3);
    a.host.end = 7;
    part = cattlecleat_host_part(w.state, w.words, WORDS, w.cells, CELLS, a.host);
    CHECK(part.number == 11 && part.offset == 0 && part.params == 0 && part.results == 0);
    w.cells[1] = 11;
    w.cells[2] = 12;
    a = ask(tail);
    CHECK(a.number == 1 && a.host.start == 0 && a.host.end == 2 && w.cells[0] == 11 && w.cells[1] == 12);
}

/* A world of which the state is lent: beside w, it is asked for the same, and answers and holds the same. */
static world v;

static int same_host(cattlecleat_host_frame a, cattlecleat_host_frame b) {
    return a.start == b.start && a.end == b.end && a.params == b.params && a.results == b.results;
}

static int same_offset(cattlecleat_offset a, cattlecleat_answer b) {
    return a.number == b.number && a.offset == b.offset && b.ip == 0 && b.instance == 0 && b.host.end == 0;
}

static int same_frame(cattlecleat_frame a, cattlecleat_answer b) {
    return a.number == b.number && a.offset == b.offset && a.ip == b.ip && a.instance == b.instance;
}

static int same_worlds(void) {
    return same_state(w.state, v.state) && memcmp(w.words, v.words, sizeof w.words) == 0 && memcmp(w.cells, v.cells, sizeof w.cells) == 0;
}

static void check_pushed(cattlecleat_request q) {
    const cattlecleat_push push = {q.head, q.params, q.locals, q.slots, q.caller_flag, q.caller, q.callee, q.instance_flag, q.instance};
    CHECK(same_offset(cattlecleat_push_frame(&v.state, v.words, WORDS, v.cells, CELLS, &push), ask(q)) && same_worlds());
}

static void check_popped(uint64_t instance) {
    const cattlecleat_request q = {.kind = CATTLECLEAT_POP, .instance = instance};
    CHECK(same_frame(cattlecleat_pop_frame(&v.state, v.words, WORDS, v.cells, CELLS, instance), ask(q)) && same_worlds());
}

static void check_replaced(cattlecleat_request q) {
    const cattlecleat_replace replace = {q.head, q.params, q.locals, q.slots, q.callee, q.instance_flag, q.instance};
    CHECK(same_offset(cattlecleat_replace_frame(&v.state, v.words, WORDS, v.cells, CELLS, &replace), ask(q)) && same_worlds());
}

static void check_hosted(cattlecleat_request q) {
    const cattlecleat_host host = {q.head, q.params, q.results, q.caller_flag, q.caller};
    const cattlecleat_hosted a = cattlecleat_prepare_host_frame(&v.state, v.words, WORDS, v.cells, CELLS, &host);
    const cattlecleat_answer b = ask(q);
    CHECK(a.number == b.number && a.offset == b.offset && same_host(a.host, b.host) && same_worlds());
    const cattlecleat_part part = cattlecleat_host_part_in_place(&v.state, v.words, WORDS, v.cells, CELLS, &a.host);
    CHECK(part.number == 0 && part.offset == b.host.start && part.params == q.params && part.results == q.results);
}

static void check_returned(cattlecleat_request q) {
    const cattlecleat_return_host host = {q.head, q.params, q.results, q.instance};
    const cattlecleat_returned a = cattlecleat_return_prepare_host_frame(&v.state, v.words, WORDS, v.cells, CELLS, &host);
    const cattlecleat_answer b = ask(q);
    const cattlecleat_frame frame = {a.number, a.offset, a.ip, a.instance};
    CHECK(same_frame(frame, b) && same_host(a.host, b.host) && same_worlds());
}

static void check_synced(uint64_t ip) {
    const cattlecleat_request q = {.kind = CATTLECLEAT_SYNC, .caller = ip};
    CHECK(same_offset(cattlecleat_sync_ip(&v.state, v.words, WORDS, v.cells, CELLS, ip), ask(q)) && same_worlds());
}

static void check_restored(void) {
    const cattlecleat_answer b = ask(RESTORE);
    CHECK(same_frame(cattlecleat_restore_frame(&v.state, v.words, WORDS, v.cells, CELLS), b) && same_worlds());
    CHECK(b.number >= 2 || same_regs(v.state.regs, b.regs));
}

static void check_set(uint16_t head, uint64_t cell) {
    const cattlecleat_request q = {.kind = CATTLECLEAT_SET, .head = head, .callee = cell};
    CHECK(same_offset(cattlecleat_set(&v.state, v.words, WORDS, v.cells, CELLS, head, cell), ask(q)) && same_worlds());
}

static void check_stored(size_t n) {
    const cattlecleat_registers regs = {.ireg = n, .freg32 = single(n), .freg64 = twice(n)};
    cattlecleat_answer b = cattlecleat_sync_registers(w.state, w.words, WORDS, w.cells, CELLS, regs);
    w.state = b.state;
    CHECK(cattlecleat_sync_registers_in_place(&v.state, v.words, WORDS, v.cells, CELLS, &regs) == b.number && same_worlds());
}

static void check_reset(void) {
    CHECK(cattlecleat_reset(&v.state, v.words, WORDS, v.cells, CELLS) == ask(RESET).number && same_worlds());
}

/* Every request in place, accepted and refused, with the state by value beside it. */
static void check_lent(void) {
    const cattlecleat_request tail = {.kind = CATTLECLEAT_REPLACE, .head = 1, .params = 1, .locals = 2, .slots = 3, .callee = 300};
    const cattlecleat_request host = {.kind = CATTLECLEAT_HOST, .head = 3, .params = 1, .results = 3, .caller_flag = 1, .caller = 102};
    const cattlecleat_request last = {.kind = CATTLECLEAT_RETURN_HOST, .head = 1, .params = 2, .results = 1, .instance = 9};
    open_world();
    memcpy(&v, &w, sizeof w);
    check_popped(2);
    check_restored();
    check_pushed(P);
    check_pushed(P);
    check_stored(5);
    check_pushed(Q);
    check_synced(201);
    check_restored();
    check_set(1, 9);
    check_set(3, 9);
    check_replaced(tail);
    check_hosted(host);
    check_returned(last);
    check_returned(last);
    check_popped(2);
    check_reset();
    check_pushed(P);
    w.state.len = v.state.len = CELLS + 1;
    check_popped(2);
    check_stored(1);
    check_reset();
}

/* What a request does not move stays as it came, flags too. */
static void check_not_written(void) {
    const cattlecleat_host host = {.results = 5};
    const cattlecleat_push push = {.slots = 1, .caller_flag = 7};
    open_world();
    ask(P);
    w.state.current_flag = 7;
    cattlecleat_state before = w.state;
    CHECK(cattlecleat_prepare_host_frame(&w.state, w.words, WORDS, w.cells, CELLS, &host).number == 0);
    before.len = 5;
    CHECK(same_state(w.state, before));
    CHECK(cattlecleat_push_frame(&w.state, w.words, WORDS, w.cells, CELLS, &push).number == 0);
    before.count = 2;
    before.current_flag = 1;
    CHECK(same_state(w.state, before));
    w.state.current_flag = before.current_flag = 0;
    CHECK(cattlecleat_pop_frame(&w.state, w.words, WORDS, w.cells, CELLS, 1).number == 0);
    before.count = 1;
    CHECK(same_state(w.state, before));
}

int main(void) {
    check_sizes();
    check_opening();
    check_example();
    check_call_and_return();
    check_refusals();
    check_records();
    check_unlawful();
    check_handed_back();
    check_blocks();
    check_ended();
    check_stopped();
    check_held();
    check_align();
    check_slot();
    check_conversions();
    check_registers();
    check_in_place();
    check_host();
    check_lent();
    check_not_written();
    printf("c: %u checks, %u failed\n", checks, failed);
    return failed != 0;
}
