/* README.md's block of C, word for word (tools/snippets), and what its comments claim. The exit status is 1 where one is not so. */
#include "cattlecleat.h"

#include <stdio.h>

static int wrong;

static void expect(const char *what, uint64_t is, uint64_t claimed) {
    if (is == claimed)
        return;
    fprintf(stderr, "readme.c: %s is %llu, and README.md says %llu\n", what, (unsigned long long)is, (unsigned long long)claimed);
    wrong = 1;
}

int main(void) {
    uint64_t words[3 * CATTLECLEAT_FRAME_WORDS] = {0}, cells[10] = {0};
    cattlecleat_answer a = cattlecleat_open(80, 3, words, 3 * CATTLECLEAT_FRAME_WORDS, cells, 10);
    cattlecleat_request q = {.kind = CATTLECLEAT_PUSH, .callee = 100, .locals = 2, .slots = 4,
                             .instance_flag = 1, .instance = 1};
    a = cattlecleat_ask(a.state, words, 3 * CATTLECLEAT_FRAME_WORDS, cells, 10, q);
    /* a.number 0: done; a.offset 0: the start of the new frame; a.state.len 4 */
    cattlecleat_state s = a.state;
    cattlecleat_frame f = cattlecleat_pop_frame(&s, words, 3 * CATTLECLEAT_FRAME_WORDS, cells, 10,
                                                1);
    /* f.number 1: done, and the last frame is gone; s.count 0 */
    expect("a.number", a.number, 0);
    expect("a.offset", a.offset, 0);
    expect("a.state.len", a.state.len, 4);
    expect("f.number", f.number, 1);
    expect("s.count", s.count, 0);
    return wrong;
}
