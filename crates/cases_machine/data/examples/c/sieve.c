// accepted
/* The primes below 64: children strike out multiples by adding. */
#include "tapir.h"
int64_t hits[64];
int64_t kernel(void) {
    for (int64_t i = 0; i < 64; i++)
        hits[i] = 0;
    PARALLEL_FOR(step, 2, 8)
        for (int64_t j = step + step; j < 64; j += step)
            ADD(&hits[j], 1);
    int64_t primes = 0;
    for (int64_t i = 2; i < 64; i++)
        if (hits[i] == 0)
            primes++;
    return primes;
}

#ifdef NATIVE
#include <stdio.h>
int main(void) {
    printf("%lld\n", (long long)kernel());
}
#endif
