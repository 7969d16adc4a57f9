/* A small hall: ten seat blocks in two rows of five. Opening a block earns its takings (a negative
 * weight); two neighbouring blocks that are both open need one more steward; one pair is cheaper
 * together. Block 9 is already sold. Which blocks are opened? */
#include "balecreak.h"
#include <stdio.h>
#include <string.h>

enum { N = 10, TERMS = 14 };

static const int64_t takings[N] = {-7, -5, -8, -4, -6, -9, -3, -7, -5, -8};
static const uint32_t firsts[TERMS] = {0, 1, 2, 3, 5, 6, 7, 8, 0, 1, 2, 3, 4, 2};
static const uint32_t seconds[TERMS] = {1, 2, 3, 4, 6, 7, 8, 9, 5, 6, 7, 8, 9, 6};
static const int64_t stewards[TERMS] = {6, 5, 7, 4, 6, 5, 6, 7, 4, 3, 6, 5, 4, -2};
static const uint8_t fixings[N] = {2, 2, 2, 2, 2, 2, 2, 2, 2, 1};

static int64_t full_cost(const uint8_t *plan) {
    int64_t cost = 0;
    for (int i = 0; i < N; i++) cost += takings[i] * plan[i];
    for (int k = 0; k < TERMS; k++) cost += stewards[k] * plan[firsts[k]] * plan[seconds[k]];
    return cost;
}

static int64_t linear[BALECREAK_LINEAR], edges[BALECREAK_EDGES];

static int64_t reduced_cost(const uint8_t *block, const uint8_t *answer, uint32_t r) {
    int64_t cost = balecreak_constant(block);
    for (uint32_t i = 0; i < r; i++) {
        cost += linear[i] * answer[i];
        for (uint32_t j = 0; j < i; j++) cost += edges[64 * i + j] * answer[i] * answer[j];
    }
    return cost;
}

static uint32_t reduce(uint32_t switches, uint32_t budget, uint8_t *block, size_t block_len, uint32_t *counts) {
    return balecreak_reduce(N, takings, N, firsts, TERMS, seconds, TERMS, stewards, TERMS, fixings, N, switches,
                            budget, linear, BALECREAK_LINEAR, edges, BALECREAK_EDGES, block, block_len, counts,
                            BALECREAK_COUNTS);
}

static int failures = 0;

static void expect(int held, const char *what) {
    if (!held) {
        failures++;
        printf("FAILED: %s\n", what);
    }
}

/* Reduces, tries every answer of what is left, grows the best one back; gives its cost. */
static int64_t solve(uint32_t switches, uint32_t budget) {
    uint8_t block[BALECREAK_BLOCK], stored[BALECREAK_BLOCK], best[N] = {0}, plan[N], again[N];
    uint32_t counts[BALECREAK_COUNTS];
    if (reduce(switches, budget, block, sizeof block, counts) != BALECREAK_OK) return INT64_MAX;
    uint32_t r = counts[BALECREAK_REMAINING];
    int64_t least = INT64_MAX;
    for (uint32_t m = 0; m < 1u << r; m++) {
        uint8_t answer[N] = {0};
        for (uint32_t i = 0; i < r; i++) answer[i] = m >> i & 1;
        int64_t cost = reduced_cost(block, answer, r);
        if (cost < least) {
            least = cost;
            memcpy(best, answer, sizeof best);
        }
    }
    expect(balecreak_check(block, sizeof block) == BALECREAK_OK, "the block passes its check");
    expect(balecreak_copy(block, sizeof block, stored, sizeof stored) == BALECREAK_OK, "copied");
    expect(memcmp(stored, block, sizeof block) == 0, "the copy is the block");
    expect(balecreak_grow_back(stored, sizeof stored, best, r, plan, N) == BALECREAK_OK, "grown back");
    expect(full_cost(plan) == least, "the plan costs what its answer costs");
    expect(plan[9] == 1, "the fixed block stays sold");
    expect(balecreak_project(stored, sizeof stored, plan, N, again, N) == BALECREAK_OK, "projected");
    expect(memcmp(again, best, r) == 0, "the projected plan is the answer");
    printf("switches %2u budget %3u: %u of %d left, constant %3lld, least cost %lld, open:", switches, budget, r, N,
           (long long)balecreak_constant(block), (long long)least);
    for (int i = 0; i < N; i++)
        if (plan[i]) printf(" %d", i);
    printf("%s\n", counts[BALECREAK_COMPLETE] ? "" : " (cut short)");
    return least;
}

int main(void) {
    /* Nothing switched on: the solver gets the whole hall, and its cost is the one to compare with. */
    int64_t whole = solve(0, 100);
    expect(solve(BALECREAK_ALL, 100) == whole, "all reductions");
    expect(solve(BALECREAK_LOW_DEGREE, 100) == whole, "low degree");
    expect(solve(BALECREAK_DOMINANT_EDGE, 100) == whole, "dominant edge");
    expect(solve(BALECREAK_SMALL_BLOCK, 100) == whole, "small block");
    for (uint32_t budget = 0; budget < 12; budget++) expect(solve(BALECREAK_ALL, budget) == whole, "any budget");

    /* A refusal changes nothing. */
    uint8_t block[BALECREAK_BLOCK], kept[BALECREAK_BLOCK];
    uint32_t counts[BALECREAK_COUNTS];
    memset(block, 7, sizeof block);
    memcpy(kept, block, sizeof kept);
    expect(reduce(16, 100, block, sizeof block, counts) == BALECREAK_SWITCH, "a switch above bit 3");
    expect(reduce(15, 100, block, 511, counts) == BALECREAK_BLOCK_LENGTH, "a block of 511 bytes");
    expect(memcmp(block, kept, sizeof kept) == 0, "the block is as it was");
    expect(balecreak_reduce(0, NULL, 0, NULL, 0, NULL, 0, NULL, 0, NULL, 0, 15, 0, NULL, 0, NULL, 0, NULL, 0, NULL, 0) ==
               BALECREAK_LENGTHS,
           "no outputs");
    expect(balecreak_check(block, sizeof block) == BALECREAK_BLOCK_CHECK, "no record");
    expect(balecreak_check(NULL, 0) == BALECREAK_BLOCK_LENGTH, "no block");

    /* One byte of a record changed anywhere is found, and never copied. */
    uint8_t stored[BALECREAK_BLOCK];
    memcpy(stored, kept, sizeof stored);
    expect(reduce(15, 100, block, sizeof block, counts) == BALECREAK_OK, "reduced");
    for (int k = 0; k < BALECREAK_BLOCK; k++) {
        block[k] ^= 1;
        expect(balecreak_check(block, sizeof block) == BALECREAK_BLOCK_CHECK, "a changed byte");
        expect(balecreak_copy(block, sizeof block, stored, sizeof stored) == BALECREAK_BLOCK_CHECK,
               "a changed byte is not copied");
        block[k] ^= 1;
    }
    expect(balecreak_copy(block, sizeof block, stored, 511) == BALECREAK_BLOCK_LENGTH, "an output of 511 bytes");
    expect(balecreak_copy(block, 511, stored, sizeof stored) == BALECREAK_BLOCK_LENGTH, "511 bytes are not copied");
    expect(balecreak_copy(NULL, 0, NULL, 0) == BALECREAK_BLOCK_LENGTH, "no bytes are not copied");
    expect(memcmp(stored, kept, sizeof kept) == 0, "the output is as it was");
    printf("%s\n", failures ? "FAILED" : "all as expected");
    return failures != 0;
}
