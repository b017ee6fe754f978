/* The block product by shift and reduce, once with branches and once with masks, for comparison. */
#include <stdint.h>
#include <stdio.h>
#include <stdlib.h>
#include <time.h>

typedef unsigned __int128 block;

static const block REDUCTION = (block)0xe1 << 120;

static block branching(block a, block b) {
    block sum = 0;
    for (int k = 0; k < 128; k++) {
        if ((a >> (127 - k)) & 1) sum ^= b;
        int low = (int)(b & 1);
        b >>= 1;
        if (low) b ^= REDUCTION;
    }
    return sum;
}

static block masked(block a, block b) {
    block sum = 0;
    for (int k = 0; k < 128; k++) {
        sum ^= b & -((a >> (127 - k)) & 1);
        b = (b >> 1) ^ (REDUCTION & -(b & 1));
    }
    return sum;
}

static void measure(const char *name, block (*product)(block, block), long count) {
    block value = (block)0x0388dace60b6a392 << 64 | 0xf328c2b971b2fe78;
    block key = (block)0x66e94bd4ef8a2c3b << 64 | 0x884cfa59ca342b2e;
    struct timespec from, to;
    clock_gettime(CLOCK_MONOTONIC, &from);
    for (long i = 0; i < count; i++) value = product(value, key);
    clock_gettime(CLOCK_MONOTONIC, &to);
    double nanos = (to.tv_sec - from.tv_sec) * 1e9 + (to.tv_nsec - from.tv_nsec);
    printf("%s %.0f ns a product, ending at %016llx%016llx\n", name, nanos / count,
           (unsigned long long)(value >> 64), (unsigned long long)value);
}

int main(int argc, char **argv) {
    long count = argc > 1 ? atol(argv[1]) : 1000000;
    measure("C, branching", branching, count);
    measure("C, masked", masked, count);
    return 0;
}
