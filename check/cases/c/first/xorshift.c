// accepted; args 1 10 | 42 500 | 99999 1000
/* Monte Carlo pi in integers: xorshift in each child. */
#include "tapir.h"
#define CHILDREN 8
int64_t hits[CHILDREN];

int64_t kernel(int64_t seed, int64_t tries) {
    REQUIRES(0 <= tries && tries <= 1000);
    PARALLEL_FOR(c, 0, CHILDREN) {
        uint64_t state = (uint64_t)seed * 2654435761u + c + 1;
        int64_t in = 0;
        for (int64_t k = 0; k < tries; k++) {
            state ^= state << 13;
            state ^= state >> 7;
            state ^= state << 17;
            int64_t x = state & 0xffff, y = (state >> 16) & 0xffff;
            if (x * x + y * y < (1LL << 32)) in++;
        }
        hits[c] = in;
    }
    int64_t sum = 0;
    for (int64_t c = 0; c < CHILDREN; c++) sum += hits[c];
    return sum;
}
