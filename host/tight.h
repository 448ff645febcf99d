/* The tight check for C and C++ on x86-64 Linux: link with libtight.a, and for tight_run with
   libtight_file.a; host/staticlib.sh writes them to target/staticlib. samples/plan_check.c plans and
   checks a theory, samples/run.c runs a file.

   A slice is a pointer and its length in elements. The pointer is aligned for its element and not
   NULL, for a slice of length 0 too, though nothing is read or written through that one. A slice
   that a call writes (its pointer is not const) overlaps no other slice of the call.
   Every call accepts every content and length, ends, and writes nothing but what is named here.
   The libraries write no memory of their own: calls on different threads may run at the same time,
   as long as no slice that one of them writes is lent to another.
   tight_plan, tight_certify and tight_check take about 1 KiB of stack each (1,024 bytes at most,
   measured with the older kit), so that the least stack of a thread, 16 KiB, is enough. */
#ifndef TIGHT_H
#define TIGHT_H

#include <stddef.h>
#include <stdint.h>

#ifdef __cplusplus
extern "C" {
#endif

/* The most of each count. */
enum {
    TIGHT_MOST_ATOMS = 65536,
    TIGHT_MOST_NODES = 262144,
    TIGHT_MOST_OPERANDS = 1048576,
    TIGHT_MOST_ROOTS = 262144
};

/* The first of a node's three words. The other two: the atom, 0; 0, 0; left, right; and for And and
   Or the start and count of its operands, each span beginning where the last one ended. */
enum {
    TIGHT_NODE_ATOM = 0,
    TIGHT_NODE_FALSE = 1,
    TIGHT_NODE_IMPLIES = 2,
    TIGHT_NODE_AND = 3,
    TIGHT_NODE_OR = 4
};

/* The refusals, each with what its place is. tight_plan can answer 1, 3 to 7 and 9 to 12,
   tight_certify 1, 3 to 7, 9 to 11, 13 and 14, tight_check 3, 9 and 15 to 17; the text of a theory
   file can tell 1 to 12. */
enum {
    TIGHT_BAD_KIND = 1,          /* kind unknown, or a mark or record out of order: node or record */
    TIGHT_CUT_RECORD = 2,        /* record cut: record */
    TIGHT_PAST_LIMIT = 3,        /* limit passed: 0 atoms, 1 nodes, 2 operands, 3 roots; or record */
    TIGHT_BAD_ATOM = 4,          /* atom not below `atoms`: node or record */
    TIGHT_BAD_OPERAND = 5,       /* operand no lower node, or span not as listed: node or record */
    TIGHT_NO_OPERANDS = 6,       /* And or Or without operands: node or record */
    TIGHT_BAD_ROOT = 7,          /* root no node: root position or record */
    TIGHT_NOT_RISING = 8,        /* candidate's atoms not rising: record */
    TIGHT_SHORT_BUFFER = 9,      /* buffer shorter than its least length: its number */
    TIGHT_UNSUPPORTED_ROOT = 10, /* root that is no head: the root's node */
    TIGHT_UNSUPPORTED_BODY = 11, /* body that is Opaque: the root's node, and the body's */
    TIGHT_POSITIVE_CYCLE = 12,   /* no ranks: the lowest atom on or behind a positive cycle */
    TIGHT_RANK_SHAPE = 13,       /* proposed ranks not `atoms` many, or one not below `atoms`: 0 */
    TIGHT_RANK_ORDER = 14,       /* proposed ranks do not rise into a head: the head */
    TIGHT_FOREIGN_STAMP = 15,    /* stamp of plan or candidate not the theory's: 0 */
    TIGHT_STRAY_BIT = 16,        /* candidate bit at or above `atoms`: the lowest such */
    TIGHT_BAD_ENTRY = 17         /* entry met not as planned: the node being read, else 0 */
};

/* The verdicts. The atom that a residual names is the lowest that can be taken out alone: the
 * candidate without it satisfies the candidate's reduct. */
enum {
    TIGHT_STABLE = 0,   /* a stable model */
    TIGHT_NOTMODEL = 1, /* no model; names the first false root in root order, by its node */
    TIGHT_RESIDUAL = 2  /* a model that is not stable; names the lowest atom that nothing produces */
};

/* The buffers by their numbers, which refusal 9 names. */
enum {
    TIGHT_BUFFER_CANDIDATE = 0, /* uint64_t; atom 0 is the lowest bit of word 0 */
    TIGHT_BUFFER_NODES = 1,
    TIGHT_BUFFER_OPERANDS = 2,
    TIGHT_BUFFER_ROOTS = 3,
    TIGHT_BUFFER_PRODUCERS = 4, /* four words each: head; body + 1, or 0; root's node; 1 if a choice */
    TIGHT_BUFFER_RANKS = 5,
    TIGHT_BUFFER_READERS = 6, /* uint64_t */
    TIGHT_BUFFER_KEPT = 7,
    TIGHT_BUFFER_WORK = 8
};

/* The least length of a buffer, in elements, for a theory of these counts. It cannot wrap: 0 if a
   count passes its limit (a call then refuses 3 and looks at no buffer) or for another number. */
static inline size_t tight_least_length(int buffer, size_t atoms, size_t node_count, size_t operand_count,
                                        size_t root_count) {
    if (atoms > TIGHT_MOST_ATOMS || node_count > TIGHT_MOST_NODES || operand_count > TIGHT_MOST_OPERANDS ||
        root_count > TIGHT_MOST_ROOTS) {
        return 0;
    }
    switch (buffer) {
    case TIGHT_BUFFER_CANDIDATE: return (atoms + 63) / 64;
    case TIGHT_BUFFER_NODES: return 3 * node_count;
    case TIGHT_BUFFER_OPERANDS: return operand_count;
    case TIGHT_BUFFER_ROOTS: return root_count;
    case TIGHT_BUFFER_PRODUCERS: return 4 * root_count;
    case TIGHT_BUFFER_RANKS: return atoms;
    case TIGHT_BUFFER_READERS: return 2 + atoms + 4 * node_count + operand_count + 2 * root_count;
    case TIGHT_BUFFER_KEPT: return 16 + 2 * node_count + 3 * atoms + root_count;
    case TIGHT_BUFFER_WORK:
        return 16 + 5 * (atoms + node_count) + 3 * (operand_count + node_count + root_count);
    default: return 0;
    }
}

/* An answer of tight_plan, tight_certify and tight_check is one number:
   bits 0 to 7    the refusal's number; 0 if the call was not refused
   refused        8 to 39 the place, 40 to 63 the body (of 11, else 0)
   planned        8 to 39 the number of producers, the rest 0
   checked        8 to 15 the verdict, 16 to 39 the root's node or the atom that it names (else 0),
                  40 to 63 the nodes visited */
static inline int tight_refusal(uint64_t answer) { return (int)(answer & 0xff); }
static inline uint32_t tight_place(uint64_t answer) { return (uint32_t)(answer >> 8); }
static inline uint32_t tight_body(uint64_t answer) { return (uint32_t)(answer >> 40); }
static inline size_t tight_producers(uint64_t answer) { return (uint32_t)(answer >> 8); }
static inline int tight_verdict(uint64_t answer) { return (int)(answer >> 8 & 0xff); }
static inline uint32_t tight_root_or_atom(uint64_t answer) { return (uint32_t)(answer >> 16 & 0xffffff); }
static inline uint32_t tight_visited(uint64_t answer) { return (uint32_t)(answer >> 40); }

/* What a refused call alters: a planning call zeroes `work`, as an accepted one does; a check refused
   17 zeroes the listed words of `kept` (their number is its least length), so that the next check is
   fresh. Nothing else is altered. Words past a buffer's least length are ignored and never altered,
   but in `work`: all its words, however many, are zero after every planning call. */

/* Plans a theory of these counts: writes producers, ranks and readers. */
uint64_t tight_plan(uint32_t stamp, size_t atoms, size_t node_count, size_t operand_count, size_t root_count,
                    const uint32_t *nodes, size_t nodes_len, const uint32_t *operands, size_t operands_len,
                    const uint32_t *roots, size_t roots_len, uint32_t *producers, size_t producers_len,
                    uint32_t *ranks, size_t ranks_len, uint64_t *readers, size_t readers_len,
                    uint32_t *work, size_t work_len);

/* The same with proposed ranks, which are copied to `ranks` once accepted. */
uint64_t tight_certify(uint32_t stamp, size_t atoms, size_t node_count, size_t operand_count, size_t root_count,
                       const uint32_t *nodes, size_t nodes_len, const uint32_t *operands, size_t operands_len,
                       const uint32_t *roots, size_t roots_len, const uint32_t *proposed, size_t proposed_len,
                       uint32_t *producers, size_t producers_len, uint32_t *ranks, size_t ranks_len,
                       uint64_t *readers, size_t readers_len, uint32_t *work, size_t work_len);

/* Checks a candidate by a plan: the theory's stamp and the number of producers that planning
   answered, with producers and readers as it wrote them. `kept`, all zero before the first check,
   holds the evaluation from one check to the next. */
uint64_t tight_check(uint32_t stamp, size_t atoms, size_t node_count, size_t operand_count, size_t root_count,
                     uint32_t plan_stamp, size_t plan_producers, uint32_t candidate_stamp,
                     const uint64_t *candidate, size_t candidate_len, const uint32_t *nodes, size_t nodes_len,
                     const uint32_t *operands, size_t operands_len, const uint32_t *roots, size_t roots_len,
                     const uint32_t *producers, size_t producers_len, const uint64_t *readers,
                     size_t readers_len, uint32_t *kept, size_t kept_len);

/* The text of a theory file, at the front of `out`; answers its length.
   0 if it does not fit, and then `out` is unaltered; no text is empty. It takes less than 200 KiB of
   stack (180 KiB measured with the older kit). */
size_t tight_run(const uint8_t *file, size_t file_len, uint8_t *out, size_t out_len);

#ifdef __cplusplus
}
#endif

#endif
