/* Cattlecleat: the C face of the proved call stack. For x86-64-v2 and above with the System V calling convention only. C99, and C++ as well.
 * `./cattlecleat archive`, in the repository, proves the archive and writes target/lib/libcattlecleat.a, with this header beside it; a
 * program links it and the C library alone: cc -I target/lib program.c target/lib/libcattlecleat.a
 * The words and numbers are those of document 01, 'The rules and what will be built'; 22 is document 02's, 'Later customer requests'.
 *
 * Asked of the caller, of each function alike, and nothing else:
 *   - a pointer and its length tell the truth: so many uint64_t (or bytes) may be read there, and written where the pointer is not const;
 *     a pointer without a length is to one struct;
 *   - a pointer is aligned for its type, and never null, even for length 0;
 *   - two buffers of one call do not overlap.
 * Every state, request, number, byte and content of a buffer gets an answer. Nothing is kept between calls, and no memory is allocated.
 *
 * The state goes in by value and comes back with the answer, or it is lent and stays where it is: each request has a function of both
 * sorts, and the second is faster. Frames lie in `words`, CATTLECLEAT_FRAME_WORDS words per frame, oldest first: ip, start,
 * debt flag (0 or 1) and debt instance. In a struct, a flag of 0 reads as none whatever the number beside it, any other as given. A refusal
 * hands state, slot and tape back number for number as they came, and a replay hands back as it came whatever the trace left as it was;
 * else a flag that comes back is 0 or 1, and a 0 stands beside a 0.
 *
 * Answer numbers. On 2 and above the state, the done slot, the tape and all buffers are unchanged, and every other number handed back is 0.
 *    0  done
 *    1  done, and the last frame is gone
 *    2  push with frame count = D; or a needed length above M
 *    3  needed length at most M but above L
 *    4  no frame, for pop, replace, return-host, sync, restore, set; or push or host gives a caller ip without a frame
 *    5  push or replace without params <= locals <= slots; push with slots 0 and head not 0
 *    6  push without caller ip over a frame
 *    7  parameters (or a set cell) lie beyond `len`
 *    8  restore without current instance
 *    9  lent lengths differ from the state's, a limit is broken, CATTLECLEAT_FRAME_WORDS * D exceeds the frame words, count > D, `len` above
 *       L or M, or a frame read has start > `len`, a flag above 1, or flag 0 with a nonzero instance
 *   10  trace record, read or to be written, that breaks the rules of its kind, or fewer than 40 bytes for it; a request of no kind
 *   11  host frame with end above `len`, end below start, or end minus start not max(params, results)
 *   12  done slot already filled
 *   13  nothing to take
 *   14  opening beyond the limits, or too few frame words
 *   15  ip below base, or the aligned address above the largest uint64_t
 *   22  a nonempty block after an end without a stop
 * D is the depth limit, at most 65,536 frames; M the height limit, at most 8,388,608 bytes, kept in cells of 8 bytes; L the number of cells
 * lent, at most 1,048,576.
 */
#ifndef CATTLECLEAT_H
#define CATTLECLEAT_H

#include <stddef.h>
#include <stdint.h>

#ifdef __cplusplus
extern "C" {
#endif

/* The words of a frame. */
#define CATTLECLEAT_FRAME_WORDS 4

/* The bytes of a trace record. */
#define CATTLECLEAT_RECORD_BYTES 40

/* The kinds of requests. */
enum {
    CATTLECLEAT_PUSH = 1,
    CATTLECLEAT_POP = 2,
    CATTLECLEAT_REPLACE = 3,
    CATTLECLEAT_HOST = 4,
    CATTLECLEAT_RETURN_HOST = 5,
    CATTLECLEAT_SYNC = 6,
    CATTLECLEAT_RESTORE = 7,
    CATTLECLEAT_RESET = 8,
    CATTLECLEAT_SET = 9
};

/* The types of numbers that a register converts from and to. */
enum {
    CATTLECLEAT_U8 = 1,
    CATTLECLEAT_U16 = 2,
    CATTLECLEAT_U32 = 3,
    CATTLECLEAT_U64 = 4,
    CATTLECLEAT_I8 = 5,
    CATTLECLEAT_I16 = 6,
    CATTLECLEAT_I32 = 7,
    CATTLECLEAT_I64 = 8,
    CATTLECLEAT_BOOL = 9
};

/* The reasons why an execution halted. A slot of kind 0 is empty; a kind above 3 reads as an error and is taken out as 4. */
enum {
    CATTLECLEAT_RETURNED = 1,
    CATTLECLEAT_HOST_ERROR = 2,
    CATTLECLEAT_OUT_OF_FUEL = 3,
    CATTLECLEAT_ERROR = 4
};

/* The three registers, kept bit for bit, NaNs too. */
typedef struct cattlecleat_registers {
    uint64_t ireg;
    float freg32;
    double freg64;
} cattlecleat_registers;

/* A host's frame: its cells from start up to, not including, end, and its counts. */
typedef struct cattlecleat_host_frame {
    size_t start;
    size_t end;
    uint16_t params;
    uint16_t results;
} cattlecleat_host_frame;

/* What a stack knows of itself, beside its two lent buffers. */
typedef struct cattlecleat_state {
    size_t depth;          /* the depth limit D, in frames */
    size_t height;         /* the height limit M, in cells */
    size_t words;          /* how many frame words are lent */
    size_t cells;          /* how many cells are lent, L */
    size_t count;          /* how many frames there are */
    size_t len;            /* how long the cells in use are */
    uint64_t current_flag; /* whether there is a current instance */
    uint64_t current;      /* the current instance */
    cattlecleat_registers regs;
} cattlecleat_state;

/* A request by its kind. Asked for, what the kind does not use is not looked at; written as a record, it has to be 0. */
typedef struct cattlecleat_request {
    uint64_t kind;          /* CATTLECLEAT_PUSH to CATTLECLEAT_SET */
    uint16_t head;          /* from the top start to the callee's cells, the parameters, or the cell to set */
    uint16_t params;        /* push, replace, host, return-host */
    uint16_t locals;        /* push, replace: the parameters among them */
    uint16_t slots;         /* push, replace: the locals among them */
    uint16_t results;       /* host, return-host */
    uint64_t caller_flag;   /* whether a caller ip is given: push, host */
    uint64_t caller;        /* the caller ip; the ip of a sync */
    uint64_t callee;        /* the callee ip: push, replace; the cell of a set */
    uint64_t instance_flag; /* whether an instance is given: push, replace */
    uint64_t instance;      /* the instance; for pop and return-host always given */
} cattlecleat_request;

/* An answer number, every number that some request hands back (0 where this one does not), and the state after it. */
typedef struct cattlecleat_answer {
    uint64_t number;
    size_t offset;
    uint64_t ip;                 /* pop, return-host, restore */
    uint64_t instance;           /* pop, return-host, restore */
    cattlecleat_host_frame host; /* host, return-host */
    cattlecleat_registers regs;  /* restore */
    cattlecleat_state state;
} cattlecleat_answer;

/* What a host is lent: two parts of the cells that begin at one offset. */
typedef struct cattlecleat_part {
    uint64_t number;
    size_t offset;
    size_t params;  /* cells that hold parameters */
    size_t results; /* cells for results: all from host start to end */
} cattlecleat_part;

/* What the requests in place are given: as in cattlecleat_request. */
typedef struct cattlecleat_push {
    uint16_t head;
    uint16_t params;
    uint16_t locals;
    uint16_t slots;
    uint64_t caller_flag;
    uint64_t caller;
    uint64_t callee;
    uint64_t instance_flag;
    uint64_t instance;
} cattlecleat_push;

typedef struct cattlecleat_replace {
    uint16_t head;
    uint16_t params;
    uint16_t locals;
    uint16_t slots;
    uint64_t callee;
    uint64_t instance_flag;
    uint64_t instance;
} cattlecleat_replace;

typedef struct cattlecleat_host {
    uint16_t head;
    uint16_t params;
    uint16_t results;
    uint64_t caller_flag;
    uint64_t caller;
} cattlecleat_host;

typedef struct cattlecleat_return_host {
    uint16_t head;
    uint16_t params;
    uint16_t results;
    uint64_t instance;
} cattlecleat_return_host;

/* What they answer: a number, and of what requests hand back what this one does; 0 with a refusal. */
typedef struct cattlecleat_offset {
    uint64_t number;
    size_t offset;
} cattlecleat_offset;

typedef struct cattlecleat_frame {
    uint64_t number;
    size_t offset; /* the start of the frame to go on in */
    uint64_t ip;
    uint64_t instance;
} cattlecleat_frame;

typedef struct cattlecleat_hosted {
    uint64_t number;
    size_t offset;
    cattlecleat_host_frame host;
} cattlecleat_hosted;

typedef struct cattlecleat_returned {
    uint64_t number;
    size_t offset;
    uint64_t ip;
    uint64_t instance;
    cattlecleat_host_frame host;
} cattlecleat_returned;

/* A replay in its course. To begin one: an opened state, the fuel, and 0 for the rest. */
typedef struct cattlecleat_run {
    cattlecleat_state state;
    uint64_t number;    /* of the next record */
    uint64_t fuel;      /* the fuel given */
    uint64_t spent;     /* the sum of the costs so far */
    uint64_t stop_flag; /* whether it has stopped */
    uint64_t cost;      /* of the record that it stopped before */
} cattlecleat_run;

/* A replay in its course whose trace arrives in blocks. To begin one: a run that begins, and 0 for the rest. */
typedef struct cattlecleat_tape {
    cattlecleat_run run;
    uint8_t kept[CATTLECLEAT_RECORD_BYTES]; /* the bytes of an unfinished record; behind those held they are not looked at */
    size_t held;                            /* how many bytes of it are held; more than 39 count as 39 */
    uint64_t end_flag;                      /* whether the end was told */
} cattlecleat_tape;

/* A number, and the tape after it. */
typedef struct cattlecleat_fed {
    uint64_t number;
    cattlecleat_tape tape;
} cattlecleat_fed;

/* What was read at a place of a trace. */
typedef struct cattlecleat_read {
    uint64_t number;
    cattlecleat_request request;
} cattlecleat_read;

/* An aligned address. */
typedef struct cattlecleat_aligned {
    uint64_t number;
    uint64_t address;
} cattlecleat_aligned;

/* A reason, or a slot for at most one: the offset of a return, or the amount of fuel needed; 0 with the two errors. */
typedef struct cattlecleat_reason {
    uint64_t kind;
    uint64_t amount;
} cattlecleat_reason;

/* The slot after a call on it, and the reason that was taken out of it. */
typedef struct cattlecleat_done {
    uint64_t number;
    cattlecleat_reason reason;
    cattlecleat_reason slot;
} cattlecleat_done;

/* Opens a stack without frame or instance, `len` and registers 0, touching no buffer. The height limit is given in bytes and divided by 8
 * rounding down; the depth limit is in frames, and at least CATTLECLEAT_FRAME_WORDS words are lent for each. Answers 0; 14 with a state of
 * zeros. */
cattlecleat_answer cattlecleat_open(size_t bytes, size_t depth, const uint64_t *words, size_t words_len, const uint64_t *cells,
                                    size_t cells_len);

/* Asks for one of the nine requests; a kind that is none of them gives 10. What each answers, and its refusals in their order:
 *   push         0: the callee's frame stands, offset its start.   9, 2 (depth), 4 or 6, 5, 2, 3
 *   pop          0: ip, start (the offset) and instance of the frame below; 1: the last frame is gone, and all numbers are 0.   9, 4
 *   replace      0: the callee has the frame, offset its start.   9, 4, 5, 2, 3, 7
 *   host         0: the host frame; offset the top start.   9, 4, 2, 3
 *   return-host  0 or 1 as pop, with the host frame.   9, 4, 7, 2, 3
 *   sync         0: the ip is stored in the top frame, offset its start.   9, 4
 *   restore      0: ip, start (the offset), current instance and registers.   9, 4, 8
 *   reset        0: no frame, no instance, `len` and registers 0.   9
 *   set          0: one cell is written at top start + head, offset that index.   9, 4, 7 */
cattlecleat_answer cattlecleat_ask(cattlecleat_state s, uint64_t *words, size_t words_len, uint64_t *cells, size_t cells_len,
                                   cattlecleat_request q);

/* Stores all three registers. Answers 0; 9. */
cattlecleat_answer cattlecleat_sync_registers(cattlecleat_state s, const uint64_t *words, size_t words_len, const uint64_t *cells,
                                              size_t cells_len, cattlecleat_registers regs);

/* The three registers of any state. */
cattlecleat_registers cattlecleat_read_registers(cattlecleat_state s);

/* Registers in place, in the record that is lent, a state's `regs` among them. Each changes what it names, and keeps the rest bit for bit;
 * none refuses. */
void cattlecleat_put_ireg(cattlecleat_registers *r, uint64_t v);
void cattlecleat_put_freg32(cattlecleat_registers *r, float v);
void cattlecleat_put_freg64(cattlecleat_registers *r, double v);

/* All three, and all three to zeros. */
void cattlecleat_put_registers(cattlecleat_registers *r, uint64_t ireg, float freg32, double freg64);
void cattlecleat_zero_registers(cattlecleat_registers *r);

/* Where a host's cells lie: `params` cells from `offset` on hold its parameters, and `results` cells from there on, up to the frame's end,
 * take its results. A frame with both counts 0 gets the empty part. Answers 0; 9, 11. */
cattlecleat_part cattlecleat_host_part(cattlecleat_state s, const uint64_t *words, size_t words_len, const uint64_t *cells,
                                       size_t cells_len, cattlecleat_host_frame frame);

/* The same requests with the state in place, what they are given behind a pointer, and small answers. Each answers the numbers that
 * cattlecleat_ask answers, with the same refusals in the same order, and leaves words, cells and a state that say the same. Of the state it
 * writes only what it moves, and a refusal nothing: an accepted push, pop, replace or return-host writes `count`, `len` and, where there is
 * a current instance, a `current_flag` of 1 and `current`; a host writes `len`. To the others but reset and register sync it is const.
 * What lies between the members of a struct may be anything, and is anything afterwards. */

/* Push, and replace. */
cattlecleat_offset cattlecleat_push_frame(cattlecleat_state *s, uint64_t *words, size_t words_len, uint64_t *cells, size_t cells_len,
                                          const cattlecleat_push *q);
cattlecleat_offset cattlecleat_replace_frame(cattlecleat_state *s, uint64_t *words, size_t words_len, uint64_t *cells, size_t cells_len,
                                             const cattlecleat_replace *q);

/* Pop, giving an instance. */
cattlecleat_frame cattlecleat_pop_frame(cattlecleat_state *s, const uint64_t *words, size_t words_len, const uint64_t *cells,
                                        size_t cells_len, uint64_t instance);

/* Host, and return-host. */
cattlecleat_hosted cattlecleat_prepare_host_frame(cattlecleat_state *s, uint64_t *words, size_t words_len, uint64_t *cells,
                                                  size_t cells_len, const cattlecleat_host *q);
cattlecleat_returned cattlecleat_return_prepare_host_frame(cattlecleat_state *s, const uint64_t *words, size_t words_len, uint64_t *cells,
                                                           size_t cells_len, const cattlecleat_return_host *q);

/* Sync, giving an ip. */
cattlecleat_offset cattlecleat_sync_ip(const cattlecleat_state *s, uint64_t *words, size_t words_len, const uint64_t *cells,
                                       size_t cells_len, uint64_t ip);

/* Restore: the registers are in the state. */
cattlecleat_frame cattlecleat_restore_frame(const cattlecleat_state *s, const uint64_t *words, size_t words_len, const uint64_t *cells,
                                            size_t cells_len);

/* Set, giving a head and a cell. */
cattlecleat_offset cattlecleat_set(const cattlecleat_state *s, const uint64_t *words, size_t words_len, uint64_t *cells, size_t cells_len,
                                   uint16_t head, uint64_t cell);

/* Reset: `count`, `len`, `current_flag`, `current` and every bit of the registers are 0. Hands back the number. */
uint64_t cattlecleat_reset(cattlecleat_state *s, const uint64_t *words, size_t words_len, const uint64_t *cells, size_t cells_len);

/* Register sync: the registers of the state are those given, bit for bit. Hands back the number. */
uint64_t cattlecleat_sync_registers_in_place(cattlecleat_state *s, const uint64_t *words, size_t words_len, const uint64_t *cells,
                                             size_t cells_len, const cattlecleat_registers *regs);

/* The host part, as by cattlecleat_host_part. */
cattlecleat_part cattlecleat_host_part_in_place(const cattlecleat_state *s, const uint64_t *words, size_t words_len, const uint64_t *cells,
                                                size_t cells_len, const cattlecleat_host_frame *frame);

/* Replays the records of a trace one after another, and stops before a record whose cost exceeds the fuel left. Each record is answered as
 * by cattlecleat_ask, or with 10 where it breaks the rules; a tail of 1 to 39 bytes is such a record. It costs 1, plus cells zeroed or
 * copied if accepted. What the trace leaves as it was comes back number for number: the state where no record was accepted, the current
 * instance with its flag where it is the same afterwards, the stop with its flag where the run had stopped or does not stop, and so a
 * stopped run whole. A stop that is new, and a current instance that is another, have a flag of 1; none in place of one is 0 and 0. */
cattlecleat_run cattlecleat_replay(cattlecleat_run run, uint64_t *words, size_t words_len, uint64_t *cells, size_t cells_len,
                                   const uint8_t *trace, size_t trace_len);

/* Replays the next block of a trace, which may be of any length and cut a record anywhere. In this order:
 *   - the run has stopped: nothing is done, and the tape says the stop again;
 *   - the block is empty: nothing is done;
 *   - the end was told: 22;
 *   - else the bytes held and those of the block are taken together. Their whole records are replayed, as by cattlecleat_replay, and the
 *     bytes left over, at most 39, are held for the next block; where the run stops, none are held.
 * So whatever the cuts, blocks and an end leave the words and cells that cattlecleat_replay of the whole trace leaves, and a run that says
 * the same; a short record, and a stop before it, come at the end alone. A tape that nothing moves comes back number for number. Else its
 * run comes back as from cattlecleat_replay, the bytes behind those held are 0, and `end_flag` is as it came. Answers 0; 22. */
cattlecleat_fed cattlecleat_feed(cattlecleat_tape t, uint64_t *words, size_t words_len, uint64_t *cells, size_t cells_len,
                                 const uint8_t *block, size_t block_len);

/* Tells that the trace has ended: bytes held are a short record, which is replayed, and none are held any more. After a stop, and after an
 * earlier end, nothing is done, and the tape comes back number for number; else its run comes back as from cattlecleat_replay, `kept` and
 * `held` are 0, and `end_flag` is 1. An end that itself stops the run is a stop: blocks and ends after it only say it again. */
cattlecleat_tape cattlecleat_finish(cattlecleat_tape t, uint64_t *words, size_t words_len, uint64_t *cells, size_t cells_len);

/* The request of the record that begins at `at`, which may lie anywhere, beyond the end too. Answers 0; 10 with a request of zeros. */
cattlecleat_read cattlecleat_read_record(const uint8_t *bytes, size_t bytes_len, size_t at);

/* Writes the record that the numbers spell at `at`: each in the field of its name, and a bit for each flag that is not 0. Answers 0; 10,
 * with no byte changed, where that record breaks the rules of its kind or fewer than 40 bytes are left. It breaks them where
 *   - the kind is none of the nine;
 *   - a flag is given that the kind does not have: a caller ip's but for push and host, an instance's but for push, pop, replace and
 *     return-host; or pop's or return-host's instance flag is not given;
 *   - a number that the kind does not use is not 0, or one beside a flag of 0 that the kind has. A sync's ip has no flag. */
uint64_t cattlecleat_write_record(uint8_t *bytes, size_t bytes_len, size_t at, cattlecleat_request q);

/* The register of a number of a type: the number's bits, zero-extended; of a bool 0 or 1. Bits beyond the type are not looked at, so that a
 * signed one may be given with its sign: (uint64_t)-1 as CATTLECLEAT_I8 is 255. A type that is none of the nine is taken as
 * CATTLECLEAT_U64. */
uint64_t cattlecleat_to_register(uint64_t type, uint64_t number);

/* The number of a register: its low bits, read as two's complement where the type is signed, and handed back with the sign in all 64 bits;
 * for a bool, 1 if the register is nonzero. A type that is none of the nine is taken as CATTLECLEAT_U64. */
uint64_t cattlecleat_from_register(uint64_t type, uint64_t reg);

/* Base plus the distance of ip from it, rounded up to a multiple of 8. Answers 0; 15. */
cattlecleat_aligned cattlecleat_align(uint64_t ip, uint64_t base);

/* Fills the slot with a reason. Answers 0; 12, and the slot keeps the reason that it had. A reason of kind 0 is an error. */
cattlecleat_done cattlecleat_done_with(cattlecleat_reason slot, cattlecleat_reason reason);

/* Takes the reason out of the slot. Answers 0; 13. */
cattlecleat_done cattlecleat_take_done_reason(cattlecleat_reason slot);

#ifdef __cplusplus
}
#endif

#endif
