/* C by hand: what the requests of a call, and a replay, cost a C programmer who makes every check of document 01; the benchmark measures
 * ours beside it. The shapes, the numbers and what is asked of the caller are those of cattlecleat.h. For x86-64 alone: a record's words
 * are read as they lie. */
#ifndef FLOOR_H
#define FLOOR_H

#include "cattlecleat.h"

/* The requests of a call. Each changes the state where it lies, and nothing at all where it refuses. */
cattlecleat_offset floor_push_frame(cattlecleat_state *s, uint64_t *words, size_t words_len, uint64_t *cells, size_t cells_len,
                                    const cattlecleat_push *q);
cattlecleat_frame floor_pop_frame(cattlecleat_state *s, const uint64_t *words, size_t words_len, const uint64_t *cells, size_t cells_len,
                                  uint64_t instance);
cattlecleat_offset floor_replace_frame(cattlecleat_state *s, uint64_t *words, size_t words_len, uint64_t *cells, size_t cells_len,
                                       const cattlecleat_replace *q);
cattlecleat_hosted floor_prepare_host_frame(cattlecleat_state *s, uint64_t *words, size_t words_len, uint64_t *cells, size_t cells_len,
                                            const cattlecleat_host *q);
cattlecleat_returned floor_return_prepare_host_frame(cattlecleat_state *s, const uint64_t *words, size_t words_len, uint64_t *cells,
                                                     size_t cells_len, const cattlecleat_return_host *q);

/* Replays a whole trace, of all nine kinds, or up to where the fuel does not cover a record. */
cattlecleat_run floor_replay(cattlecleat_run run, uint64_t *words, size_t words_len, uint64_t *cells, size_t cells_len,
                             const uint8_t *trace, size_t trace_len);

#endif
