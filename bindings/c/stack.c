/* Measures the stack that each call needs: a thread runs it on a stack that was painted before, and
 * the paint that is gone was used. An empty thread is measured too and taken off. */
#define _DEFAULT_SOURCE
#include "balecreak.h"
#include <pthread.h>
#include <stdio.h>
#include <stdlib.h>
#include <string.h>
#include <sys/mman.h>

enum { SIZE = 1 << 20, PAINT = 0xA5, N = 64 };
enum call { REDUCE, CHECK, COPY, GROW_BACK, PROJECT, NOTHING };

static int64_t weights[N], term_weights[BALECREAK_MOST_TERMS], linear[BALECREAK_LINEAR], edges[BALECREAK_EDGES];
static uint32_t firsts[BALECREAK_MOST_TERMS], seconds[BALECREAK_MOST_TERMS], counts[BALECREAK_COUNTS];
static uint8_t fixings[N], block[BALECREAK_BLOCK], stored[BALECREAK_BLOCK], plan[N], answer[N];
static size_t terms;
static uint32_t switches;

static void *run(void *which) {
    switch (*(enum call *)which) {
    case REDUCE:
        balecreak_reduce(N, weights, N, firsts, terms, seconds, terms, term_weights, terms, fixings, N, switches,
                         UINT32_MAX, linear, BALECREAK_LINEAR, edges, BALECREAK_EDGES, block, BALECREAK_BLOCK, counts,
                         BALECREAK_COUNTS);
        break;
    case CHECK: balecreak_check(block, BALECREAK_BLOCK); break;
    case COPY: balecreak_copy(block, BALECREAK_BLOCK, stored, BALECREAK_BLOCK); break;
    case GROW_BACK: balecreak_grow_back(block, BALECREAK_BLOCK, answer, counts[BALECREAK_REMAINING], plan, N); break;
    case PROJECT: balecreak_project(block, BALECREAK_BLOCK, plan, N, answer, N); break;
    case NOTHING: break;
    }
    return NULL;
}

static size_t used_by(enum call which) {
    unsigned char *stack = mmap(NULL, SIZE, PROT_READ | PROT_WRITE, MAP_PRIVATE | MAP_ANONYMOUS, -1, 0);
    if (stack == MAP_FAILED) exit(2);
    memset(stack, PAINT, SIZE);
    pthread_attr_t attributes;
    pthread_t thread;
    pthread_attr_init(&attributes);
    pthread_attr_setstack(&attributes, stack, SIZE);
    if (pthread_create(&thread, &attributes, run, &which) != 0) exit(2);
    pthread_join(thread, NULL);
    size_t left = 0;
    while (left < SIZE && stack[left] == PAINT) left++;
    munmap(stack, SIZE);
    return SIZE - left;
}

static int64_t drawn(void) { return rand() % 201 - 100; }

/* 96 or 192 terms, or every pair. */
static void draw(int kind) {
    terms = 0;
    for (uint32_t i = 0; i < N; i++) {
        weights[i] = drawn();
        fixings[i] = rand() % 8 ? BALECREAK_FREE : (uint8_t)(rand() % 2);
        for (uint32_t j = i + 1; kind == 2 && j < N; j++) firsts[terms] = i, seconds[terms] = j, terms++;
    }
    for (; kind < 2 && terms < (kind ? 192 : 96); terms++) firsts[terms] = rand() % N, seconds[terms] = rand() % N;
    for (size_t k = 0; k < terms; k++) term_weights[k] = drawn();
}

int main(void) {
    static const char *names[] = {"reduce", "check", "copy", "grow_back", "project"};
    size_t most[NOTHING] = {0}, empty = used_by(NOTHING);
    for (int k = 0; k < 120; k++) {
        draw(k % 3);
        switches = k % 2 ? BALECREAK_ALL : (uint32_t)k / 2 % 16;
        for (enum call which = REDUCE; which < NOTHING; which++) {
            size_t used = used_by(which) - empty;
            if (used > most[which]) most[which] = used;
        }
    }
    for (int k = 0; k < NOTHING; k++) printf("balecreak_%s: %zu bytes of stack\n", names[k], most[k]);
    return 0;
}
