/* Times a join of two registers, and what one lacks of another, beside the test of both registers, which is what a conviction of an engine
 * that there is none of takes. */
#include <stdint.h>
#include <stdio.h>
#include <stdlib.h>
#include <string.h>
#include <time.h>

#include "toastlagoon.h"

enum { BATCHES = 60, CALLS = 50 };

static uint8_t one[TL_REGISTER_SIZE], two[TL_REGISTER_SIZE], memory[TL_REGISTER_SIZE], out[TL_REGISTER_SIZE];

static void put(uint8_t *at, int size, uint64_t value) {
    for (int i = 0; i < size; i++) at[i] = (uint8_t)(value >> 8 * i);
}

static uint64_t scattered(uint64_t x) { return x * 0x9E3779B97F4A7C15u; }

/* A record of 24 tags, of which another differs in its first bytes, or in its last alone. */
static void write_record(uint8_t r[TL_RECORD_SIZE], uint64_t x, int alike) {
    memset(r, 0, TL_RECORD_SIZE);
    if (!alike) put(r, 8, scattered(x));
    r[TL_RECORD_MESSAGE_LENGTH_AT] = 7;
    r[TL_RECORD_TAG_COUNT_AT] = TL_MAX_TAGS;
    for (int i = 0; i < TL_MAX_TAGS; i++) put(r + TL_RECORD_TAGS_AT + TL_TAG_SIZE * i, TL_TAG_SIZE, (uint64_t)i + 1);
    put(r + TL_RECORD_SIZE - 8, 8, x);
}

/* Every other of so many records from one on, signed by an engine, and so many summaries from one on. */
static void fill(uint8_t m[TL_REGISTER_SIZE], uint32_t engine, int first, int records, int said, int summaries, int alike) {
    uint8_t r[TL_RECORD_SIZE], inputs[32];
    memset(m, 0, TL_REGISTER_SIZE);
    for (int i = 0; i < records; i++) {
        write_record(r, (uint64_t)(first + 2 * i), alike);
        if (tl_register_report(m, TL_REGISTER_SIZE, engine, r, sizeof r) != TL_OK) exit(1);
    }
    for (int i = said; i < said + summaries; i++) {
        memset(inputs, 7, sizeof inputs);
        put(inputs, 8, scattered((uint64_t)i));
        if (tl_register_summary(m, TL_REGISTER_SIZE, (uint32_t)i / 64, (uint32_t)i % 64, 0, inputs, sizeof inputs) != TL_OK) exit(1);
    }
}

static void test_both(void) {
    tl_register_conviction(TL_MANAGER, one, sizeof one, 99);
    tl_register_conviction(TL_MANAGER, two, sizeof two, 99);
}

static void copy(void) { memcpy(memory, one, sizeof memory); }

static void join(void) {
    memcpy(memory, one, sizeof memory);
    if (tl_register_join(memory, sizeof memory, two, sizeof two) != TL_OK) exit(1);
}

static void lacks(void) {
    if (tl_register_lacks(one, sizeof one, two, sizeof two, out, sizeof out) != TL_OK) exit(1);
}

static double now(void) {
    struct timespec t;
    clock_gettime(CLOCK_PROCESS_CPUTIME_ID, &t);
    return (double)t.tv_sec * 1e9 + (double)t.tv_nsec;
}

/* The least time of a call, over batches. */
static double least(void (*call)(void)) {
    double best = 1e18;
    for (int b = 0; b < BATCHES; b++) {
        double start = now();
        for (int k = 0; k < CALLS; k++) {
            call();
            __asm__ volatile("" : : "r"(memory), "r"(out), "r"(one) : "memory");
        }
        double took = (now() - start) / CALLS;
        if (took < best) best = took;
    }
    return best;
}

static void row(const char *what) {
    double test = least(test_both), joined = least(join) - least(copy), lacking = least(lacks);
    printf("| %s | %.0f | %.0f (%.2f) | %.0f (%.2f) |\n", what, test, joined, joined / test, lacking, lacking / test);
}

int main(void) {
    printf("| registers | the test of both, ns | join, ns (of the test) | what is lacking, ns (of the test) |\n|---|---|---|---|\n");
    for (int alike = 0; alike < 2; alike++) {
        const char *words[] = {"full, other signers", "full, the same", "halves with nothing in common"};
        const char *more = alike ? "; records alike but for the last bytes" : "";
        char what[120];
        for (int k = 0; k < 3; k++) {
            fill(one, 3, 0, k < 2 ? 96 : 48, 0, k < 2 ? 256 : 128, alike);
            fill(two, k == 0 ? 5 : 3, k < 2 ? 0 : 1, k < 2 ? 96 : 48, k < 2 ? 0 : 128, k < 2 ? 256 : 128, alike);
            snprintf(what, sizeof what, "%s%s", words[k], more);
            row(what);
        }
    }
    return 0;
}
