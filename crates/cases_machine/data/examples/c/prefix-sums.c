// accepted
/* Prefix sums: each child its own part, then all parts by what stands before them. */
#include "tapir.h"
int64_t a[64], total[8];
int64_t kernel(void) {
    PARALLEL_FOR(c, 0, 8) {
        int64_t s = 0;
        for (int64_t j = 8 * c; j < 8 * c + 8; j++)
            a[j] = s += a[j];
        total[c] = s;
    }
    int64_t sum = 0;
    for (int64_t i = 0; i < 8; i++) {
        int64_t t = total[i];
        total[i] = sum;
        sum += t;
    }
    PARALLEL_FOR(d, 0, 8)
        for (int64_t j = 8 * d; j < 8 * d + 8; j++)
            a[j] += total[d];
    return sum;
}

#ifdef NATIVE
#include <stdio.h>
int main(void) {
    for (int i = 0; i < 64; i++) a[i] = i;
    printf("%lld\n", (long long)kernel());
}
#endif
