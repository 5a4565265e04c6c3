// Times a board of the register on standard input: nanoseconds, the least of 41 batches of 100 calls.
#include <stdint.h>
#include <stdio.h>
#include <time.h>
#include "toastlagoon.h"

static uint8_t memory[TL_REGISTER_SIZE], out[16384];

static double now(void) {
    struct timespec t;
    clock_gettime(CLOCK_MONOTONIC, &t);
    return t.tv_sec * 1e9 + t.tv_nsec;
}

int main(void) {
    if (fread(memory, 1, sizeof memory, stdin) != sizeof memory) return 1;
    double least = 1e18;
    for (int k = 0; k < 41; k++) {
        double start = now();
        for (int i = 0; i < 100; i++)
            if (tl_board(memory, sizeof memory, out, sizeof out) < 46) return 1;
        double took = (now() - start) / 100;
        if (took < least) least = took;
    }
    printf("%.0f\n", least);
    return 0;
}
