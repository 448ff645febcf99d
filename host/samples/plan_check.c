/* Plans "0 or not 0, and 1 from 0", document 01's example, and checks four candidates in a series. */
#include <stdio.h>
#include <stdlib.h>
#include "tight.h"

enum { STAMP = 7, ATOMS = 2, NODES = 6, OPERANDS = 2, ROOTS = 2 };

static const uint32_t nodes[] = {
    TIGHT_NODE_ATOM, 0, 0,    /* 0 */
    TIGHT_NODE_ATOM, 1, 0,    /* 1 */
    TIGHT_NODE_IMPLIES, 0, 1, /* 2: 1 from 0 */
    TIGHT_NODE_FALSE, 0, 0,   /* 3 */
    TIGHT_NODE_IMPLIES, 0, 3, /* 4: not 0 */
    TIGHT_NODE_OR, 0, 2       /* 5: 0 or not 0 */
};
static const uint32_t operands[] = {0, 4};
static const uint32_t roots[] = {5, 2};

static uint32_t *producers, *ranks, *kept, *work;
static uint64_t *readers;

static size_t least(int buffer) { return tight_least_length(buffer, ATOMS, NODES, OPERANDS, ROOTS); }

/* A zeroed buffer of its least length, or of one word: a slice of length 0 is not NULL either. */
static void *zeroed(int buffer, size_t word) {
    void *words = calloc(least(buffer) == 0 ? 1 : least(buffer), word);
    if (words == NULL) {
        exit(2);
    }
    return words;
}

static uint64_t plan(void) {
    return tight_plan(STAMP, ATOMS, NODES, OPERANDS, ROOTS, nodes, least(TIGHT_BUFFER_NODES), operands,
                      least(TIGHT_BUFFER_OPERANDS), roots, least(TIGHT_BUFFER_ROOTS), producers,
                      least(TIGHT_BUFFER_PRODUCERS), ranks, least(TIGHT_BUFFER_RANKS), readers,
                      least(TIGHT_BUFFER_READERS), work, least(TIGHT_BUFFER_WORK));
}

static uint64_t check(size_t plan_producers, const uint64_t *candidate) {
    return tight_check(STAMP, ATOMS, NODES, OPERANDS, ROOTS, STAMP, plan_producers, STAMP, candidate,
                       least(TIGHT_BUFFER_CANDIDATE), nodes, least(TIGHT_BUFFER_NODES), operands,
                       least(TIGHT_BUFFER_OPERANDS), roots, least(TIGHT_BUFFER_ROOTS), producers,
                       least(TIGHT_BUFFER_PRODUCERS), readers, least(TIGHT_BUFFER_READERS), kept,
                       least(TIGHT_BUFFER_KEPT));
}

static int refused(uint64_t answer) {
    if (tight_refusal(answer) == 0) {
        return 0;
    }
    printf("refused %d %u", tight_refusal(answer), (unsigned)tight_place(answer));
    if (tight_refusal(answer) == TIGHT_UNSUPPORTED_BODY) {
        printf(" %u", (unsigned)tight_body(answer));
    }
    printf("\n");
    return 1;
}

static void print_check(size_t number, uint64_t answer) {
    static const char *const verdicts[] = {"stable", "notmodel", "residual"};
    int verdict = tight_verdict(answer);
    printf("%u %s ", (unsigned)number, verdicts[verdict]);
    if (verdict == TIGHT_STABLE) {
        printf("-");
    } else {
        printf("%u", (unsigned)tight_root_or_atom(answer));
    }
    printf(" %u\n", (unsigned)tight_visited(answer));
}

int main(void) {
    /* {1}, {0, 1}, {0} and {}: bit i of a word is atom i */
    static const uint64_t candidates[] = {2, 3, 1, 0};
    uint64_t planned;
    size_t i;
    producers = (uint32_t *)zeroed(TIGHT_BUFFER_PRODUCERS, sizeof *producers);
    ranks = (uint32_t *)zeroed(TIGHT_BUFFER_RANKS, sizeof *ranks);
    readers = (uint64_t *)zeroed(TIGHT_BUFFER_READERS, sizeof *readers);
    kept = (uint32_t *)zeroed(TIGHT_BUFFER_KEPT, sizeof *kept);
    work = (uint32_t *)zeroed(TIGHT_BUFFER_WORK, sizeof *work);
    planned = plan();
    if (refused(planned)) {
        return 1;
    }
    printf("th %u atoms %u nodes %u roots %u producers %u\nranks", (unsigned)STAMP, (unsigned)ATOMS,
           (unsigned)NODES, (unsigned)ROOTS, (unsigned)tight_producers(planned));
    for (i = 0; i < ATOMS; i++) {
        printf(" %u", (unsigned)ranks[i]);
    }
    printf("\n");
    for (i = 0; i < sizeof candidates / sizeof candidates[0]; i++) {
        uint64_t answer = check(tight_producers(planned), &candidates[i]);
        if (refused(answer)) {
            return 1;
        }
        print_check(i, answer);
    }
    return 0;
}
