/* Balecreak: shrinks an objective over 0/1 decisions exactly, and grows the answers of the small
 * objective back into full plans that cost the same.
 *
 * Link with libbalecreak.a (made by `bindings/archive`). The library is proved: for every
 * length and every value it gives what its rules say, and it ends. It keeps no state, takes no
 * memory from the heap, and may be called from any number of threads at once.
 *
 * A list is a pointer and the number of its elements. A pointer may be NULL where the number is 0.
 * What a call writes must not overlap anything else that it is given. A call that does not answer
 * BALECREAK_OK has changed nothing.
 */
#ifndef BALECREAK_H
#define BALECREAK_H

#include <stddef.h>
#include <stdint.h>

#ifdef __cplusplus
extern "C" {
#endif

#define BALECREAK_VERSION "0.1.0"

/* ---- what a call answers. Where several hold, the one that stands first in this list is given. */
enum balecreak_answer {
    BALECREAK_OK = 0,
    BALECREAK_TOO_MANY_DECISIONS = 1, /* n is over 64 */
    BALECREAK_LENGTHS = 2,            /* weights or fixings not n long; term lists of unequal length or
                                         over 4,096; linear not 64, edges not 4,096 or counts not 14 long */
    BALECREAK_TERM_INDEX = 3,         /* a term's decision is n or more */
    BALECREAK_FIXING_BYTE = 4,        /* a fixing byte over 2 */
    BALECREAK_SWITCH = 5,             /* a switch bit above bit 3 */
    BALECREAK_SIZE = 6,               /* the absolute values of all weights total over 2^40 */
    BALECREAK_BLOCK_LENGTH = 9,       /* the record block, read or written, is not 512 bytes long */
    BALECREAK_BLOCK_CHECK = 10,       /* its check is wrong: it was damaged, or is no record block */
    BALECREAK_BLOCK_EDITION = 11,     /* it is of another edition */
    BALECREAK_BLOCK_BODY = 12,        /* its check is right, and its body is none that a reduction writes */
    BALECREAK_PLAN_LENGTH = 7,        /* answer or plan of the wrong length, or its output not n long */
    BALECREAK_PLAN_BYTE = 8           /* an answer or plan byte over 1 */
};

/* ---- lengths */
#define BALECREAK_MOST_DECISIONS 64
#define BALECREAK_MOST_TERMS 4096
#define BALECREAK_LINEAR 64
#define BALECREAK_EDGES 4096
#define BALECREAK_BLOCK 512
#define BALECREAK_COUNTS 14

/* ---- a decision's fixing byte */
#define BALECREAK_FREE 2 /* 0 and 1 fix it to that value */

/* ---- switches: which reductions a run may use */
#define BALECREAK_LOW_DEGREE 1u
#define BALECREAK_DEGREE_THREE 2u /* only with low degree */
#define BALECREAK_DOMINANT_EDGE 4u
#define BALECREAK_SMALL_BLOCK 8u
#define BALECREAK_ALL 15u

/* ---- the places of the counts */
enum balecreak_count {
    BALECREAK_ELIMINATED,
    BALECREAK_DEGREE_THREE_ELIMINATED,
    BALECREAK_DEGREE_THREE_SKIPPED,
    BALECREAK_CONTRACTED,
    BALECREAK_WEAK_CONTRACTIONS,
    BALECREAK_ADDITIONAL_FIXED, /* always 0 */
    BALECREAK_REMAINING,        /* decisions that are left: the length of an answer */
    BALECREAK_PASSES,
    BALECREAK_BLOCKS_ELIMINATED,
    BALECREAK_BLOCK_VARIABLES,
    BALECREAK_TAKES,
    BALECREAK_BLOCKS,
    BALECREAK_UNITS,   /* takes and blocks: the budget that was used */
    BALECREAK_COMPLETE /* 1: the run came to its end; 0: it was cut short by the budget */
};

/* Reduces the objective with the cost: the sum of weights[i] x[i], and of term_weights[k]
 * x[firsts[k]] x[seconds[k]]. Repeated pairs add up; a pair of the same decision adds to its weight.
 *
 *   linear  64 long: the weight of each remaining decision, ascending, then zeros.
 *   edges   4,096 long: the weight of places i and j at 64 i + j, both ways round, zeros elsewhere.
 *   block   512 long: the record. Keep it: it is all that growing back needs.
 *   counts  14 long, see above.
 *
 * One unit of the budget is used by each decision taken from the queue and each block eliminated.
 * A run that is cut short is still exact. Answers 0 to 6 and 9. */
uint32_t balecreak_reduce(uint32_t n,
                          const int64_t *weights, size_t weights_len,
                          const uint32_t *firsts, size_t firsts_len,
                          const uint32_t *seconds, size_t seconds_len,
                          const int64_t *term_weights, size_t term_weights_len,
                          const uint8_t *fixings, size_t fixings_len,
                          uint32_t switches, uint32_t budget,
                          int64_t *linear, size_t linear_len,
                          int64_t *edges, size_t edges_len,
                          uint8_t *block, size_t block_len,
                          uint32_t *counts, size_t counts_len);

/* Whether a block can be read. Answers 0 and 9 to 12. One or two changed bytes never pass. */
uint32_t balecreak_check(const uint8_t *block, size_t block_len);

/* Reads a block and writes the record that it holds anew, with its own check, into an output of 512
 * bytes: as balecreak_check and a copy in one, from a buffer that you do not trust into memory that
 * you do. After BALECREAK_OK the output holds the same bytes as the block; a block that cannot be
 * read never gets there. Answers 0 and 9 to 12: 9 where either is not 512 long. */
uint32_t balecreak_copy(const uint8_t *block, size_t block_len, uint8_t *out, size_t out_len);

/* Grows an answer (a byte 0 or 1 for each remaining decision, ascending) back into a plan n long
 * that costs, in the objective as it was given, what the answer costs in the reduced one.
 * Answers 0 and 9 to 12, 7, 8. */
uint32_t balecreak_grow_back(const uint8_t *block, size_t block_len,
                             const uint8_t *answer, size_t answer_len,
                             uint8_t *plan, size_t plan_len);

/* Writes a plan's entries for the remaining decisions, ascending, at the front of an output n long,
 * then zeros. Answers 0 and 9 to 12, 7, 8. */
uint32_t balecreak_project(const uint8_t *block, size_t block_len,
                           const uint8_t *plan, size_t plan_len,
                           uint8_t *out, size_t out_len);

/* ---- reading a block that balecreak_reduce or balecreak_copy wrote or balecreak_check passed */

/* n: the length of a plan */
static inline size_t balecreak_decisions(const uint8_t *block) { return block[1]; }

/* what every plan costs besides what is left */
static inline int64_t balecreak_constant(const uint8_t *block) {
    uint64_t v = 0;
    for (int k = 7; k >= 0; k--) v = v << 8 | block[4 + k];
    return v < UINT64_C(1) << 63 ? (int64_t)v : -(int64_t)(UINT64_MAX - v) - 1;
}

/* what became of a decision below n: 0 or 1 fixed, 2 remaining, 3 eliminated */
static inline uint8_t balecreak_state(const uint8_t *block, size_t decision) { return block[12 + decision]; }

#ifdef __cplusplus
}
#endif

#endif
