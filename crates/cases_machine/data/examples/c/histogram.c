// accepted
/* A histogram: children add to cells that they share. */
#include "tapir.h"
int64_t in[64], bins[16];
int64_t kernel(void) {
    for (int64_t k = 0; k < 16; k++)
        bins[k] = 0;
    PARALLEL_FOR(chunk, 0, 8)
        for (int64_t j = 8 * chunk; j < 8 * chunk + 8; j++)
            ADD(&bins[in[j] & 15], 1);
    return bins[0];
}

#ifdef NATIVE
#include <stdio.h>
int main(void) {
    for (int i = 0; i < 64; i++) in[i] = i * i;
    printf("%lld\n", (long long)kernel());
}
#endif
