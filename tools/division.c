/* One absorb of the division engine in C, three ways, for comparison: W holds 128 blocks, and the divisor's coefficients are bits. */
#include <stdint.h>
#include <stdio.h>
#include <stdlib.h>
#include <string.h>
#include <time.h>

typedef unsigned __int128 block;

enum { DEGREE = 128 };

static block coefficients;     /* the coefficient of t^j in bit 127 - j */
static block masks[DEGREE];    /* all ones where the coefficient is one */
static uint8_t places[DEGREE]; /* the places of the ones */
static int weight;

/* Every coefficient moves up, and a bit is tested for each. */
static void by_bits(block *w, block p) {
    w[0] ^= p;
    block top = w[DEGREE - 1], below = 0;
    for (int j = 0; j < DEGREE; j++) {
        block here = w[j];
        w[j] = below ^ (top & -((coefficients >> (127 - j)) & 1));
        below = here;
    }
}

/* The same with masks made once. */
static void by_masks(block *w, block p) {
    w[0] ^= p;
    block top = w[DEGREE - 1], below = 0;
    for (int j = 0; j < DEGREE; j++) {
        block here = w[j];
        w[j] = below ^ (top & masks[j]);
        below = here;
    }
}

/* As the library does: W in a ring, so that nothing moves; only the places of the ones are touched. */
static unsigned base;
static void in_ring(block *w, block p) {
    w[base] ^= p;
    base = (base + DEGREE - 1) % DEGREE;
    block top = w[base];
    w[base] = 0;
    for (int k = 0; k < weight; k++) w[(base + places[k]) % DEGREE] ^= top;
}

static void measure(const char *name, void (*absorb)(block *, block), long count) {
    static block w[DEGREE];
    struct timespec from, to;
    memset(w, 0, sizeof w);
    base = 0;
    clock_gettime(CLOCK_MONOTONIC, &from);
    for (long i = 0; i < count; i++) absorb(w, (block)i * 0x9e3779b97f4a7c15u);
    clock_gettime(CLOCK_MONOTONIC, &to);
    double nanos = (to.tv_sec - from.tv_sec) * 1e9 + (to.tv_nsec - from.tv_nsec);
    block sum = 0;
    for (int j = 0; j < DEGREE; j++) sum ^= w[j];
    printf("C, %s: %.0f ns an absorb, coefficients add up to %016llx%016llx\n", name, nanos / count,
           (unsigned long long)(sum >> 64), (unsigned long long)sum);
}

int main(int argc, char **argv) {
    long count = argc > 1 ? atol(argv[1]) : 200000;
    coefficients = (block)0xb1c1646dba79fe53 << 64 | 0xd38c59c8fe2422cc;
    for (int j = 0; j < DEGREE; j++) {
        int one = (int)((coefficients >> (127 - j)) & 1);
        masks[j] = one ? ~(block)0 : 0;
        if (one) places[weight++] = (uint8_t)j;
    }
    measure("a bit tested for each", by_bits, count);
    measure("masks made once", by_masks, count);
    measure("in a ring", in_ring, count);
    return 0;
}
