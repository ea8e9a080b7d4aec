// accepted; args 0 | 3 | 8
/* A stencil over two buffers, a child for each cell; t times there and back. */
#include "tapir.h"
int64_t a[64], b[64];
static void step(const int64_t p[restrict static 64], int64_t q[restrict static 64]) {
    q[0] = p[0];
    q[63] = p[63];
    PARALLEL_FOR(i, 1, 63)
        q[i] = p[i - 1] + 2 * p[i] + p[i + 1];
}
int64_t kernel(int64_t t) {
    REQUIRES(t >= 0 && t <= 8);
    for (int64_t i = 0; i < t; i++) {
        step(a, b);
        step(b, a);
    }
    return a[32];
}

#ifdef NATIVE
#include <stdio.h>
int main(void) {
    a[32] = 1;
    printf("%lld\n", (long long)kernel(8));
}
#endif
