/* Times a register turned for an archive, and turned back, beside the same two loops in C and beside memcpy of as many bytes. */
#include <stdint.h>
#include <stdio.h>
#include <string.h>
#include <time.h>

#include "toastlagoon.h"

enum { HEAD = TL_REGISTER_RECORDS_AT, ROWS = TL_MAX_RECORDS, WIDTH = TL_HELD_SIZE, BATCHES = 41, CALLS = 200 };

static uint8_t from[TL_REGISTER_SIZE], to[TL_REGISTER_SIZE], other[TL_REGISTER_SIZE];

static double now(void) {
    struct timespec t;
    clock_gettime(CLOCK_MONOTONIC, &t);
    return (double)t.tv_sec * 1e9 + (double)t.tv_nsec;
}

static void c_columns(void) {
    memcpy(other, from, HEAD);
    for (int j = 0; j < WIDTH; j++)
        for (int i = 0; i < ROWS; i++) other[HEAD + ROWS * j + i] = from[HEAD + WIDTH * i + j];
}

static void c_uncolumns(void) {
    memcpy(other, from, HEAD);
    for (int i = 0; i < ROWS; i++)
        for (int j = 0; j < WIDTH; j++) other[HEAD + WIDTH * i + j] = from[HEAD + ROWS * j + i];
}

static void copy(void) { memcpy(other, from, sizeof from); }

static void columns(void) { tl_register_columns(from, sizeof from, to, sizeof to); }

static void uncolumns(void) { tl_register_uncolumns(from, sizeof from, to, sizeof to); }

/* The least time of a call, over batches. */
static double least(void (*call)(void)) {
    double best = 1e18;
    for (int b = 0; b < BATCHES; b++) {
        double start = now();
        for (int k = 0; k < CALLS; k++) {
            call();
            __asm__ volatile("" : : "r"(to), "r"(other), "r"(from) : "memory");
        }
        double took = (now() - start) / CALLS;
        if (took < best) best = took;
    }
    return best;
}

static void row(const char *what, void (*ours)(void), void (*theirs)(void)) {
    ours();
    theirs();
    int same = memcmp(to, other, sizeof to) == 0;
    double a = least(ours), b = least(theirs), c = least(copy);
    printf("| %s | %.0f | %.0f | %.0f | %.2f |%s\n", what, a, b, c, a / b, same ? "" : " DIFFERENT");
}

int main(void) {
    for (size_t k = 0; k < sizeof from; k++) from[k] = (uint8_t)(k * 2654435761u >> 13);
    printf("| | ours, ns | two loops in C, ns | memcpy, ns | ours / C |\n|---|---|---|---|---|\n");
    row("columns", columns, c_columns);
    row("turned back", uncolumns, c_uncolumns);
    return 0;
}
