/* Chi-squares in other floating-point environments than the one that a thread begins with, and a call that puts that one back first. */
#include <fenv.h>
#include <xmmintrin.h>

#include "records.h"

#define FLUSH_TO_ZERO 0x8000u
#define DENORMALS_ARE_ZERO 0x0040u

/* What tl_agreement answers, and the bits of the chi-square; 0 where there is none. */
struct seen {
    uint32_t outcome;
    uint64_t bits;
};

/* Two fixes, `step` 1e-7 degree apart, under one variance for all axes. */
static struct seen agreement(int32_t step, double variance) {
    double chi2, limit;
    struct seen s = {0, 0};
    s.outcome = tl_agreement(0, 0, true, 1500, variance, 0, 0, variance, 0, variance, step, 0, true, 1500, variance, 0, 0, variance, 0, variance,
                             &chi2, &limit);
    if (s.outcome != TL_UNMEASURABLE) memcpy(&s.bits, &chi2, sizeof s.bits);
    return s;
}

/* What a caller does who cannot be sure of the environment. */
static struct seen agreement_guarded(int32_t step, double variance) {
    fenv_t found;
    fegetenv(&found);
    fesetenv(FE_DFL_ENV);
    struct seen s = agreement(step, variance);
    fesetenv(&found);
    return s;
}

static const struct pair {
    int32_t step;
    double variance;
} pairs[] = {{5400, 100.0}, {0, 1e-310}};

/* The outcome, and the chi-square where it is what a thread begins with; `usual` is what is seen there. */
static void print_one(struct seen s, struct seen usual) {
    switch (s.outcome) {
    case TL_INSIDE: printf(" inside"); break;
    case TL_OUTSIDE: printf(" outside"); break;
    case TL_UNMEASURABLE: printf(" unmeasurable"); return;
    default: printf(" no outcome"); return;
    }
    if (s.bits == usual.bits)
        printf(" %016" PRIx64, s.bits);
    else
        printf(" another");
}

static void print(const char *name, struct seen (*of)(int32_t, double)) {
    printf("%s:", name);
    for (int i = 0; i < 2; i++) {
        struct seen s = of(pairs[i].step, pairs[i].variance);
        unsigned found = _mm_getcsr();
        fesetenv(FE_DFL_ENV);
        if (i > 0) printf(",");
        print_one(s, agreement(pairs[i].step, pairs[i].variance));
        _mm_setcsr(found);
    }
    printf("\n");
}

int main(void) {
    print("as a thread begins", agreement);
    fesetround(FE_UPWARD);
    print("rounding upward", agreement);
    print("rounding upward, put back", agreement_guarded);
    fesetround(FE_TONEAREST);
    _mm_setcsr(_mm_getcsr() | FLUSH_TO_ZERO | DENORMALS_ARE_ZERO);
    print("denormals as zero", agreement);
    print("denormals as zero, put back", agreement_guarded);
    return 0;
}
