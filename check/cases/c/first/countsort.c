// accepted; args 0 | 128 | 77
#include "tapir.h"
int64_t in[128], out[128], count[17];
int64_t kernel(int64_t n) {
    REQUIRES(n >= 0 && n <= 128);
    for (int i = 0; i <= 16; i++)
        count[i] = 0;
    for (int64_t i = 0; i < n; i++)
        count[(in[i] & 15) + 1]++;
    for (int i = 0; i < 16; i++)
        count[i + 1] += count[i];
    for (int64_t i = 0; i < n; i++) {
        int64_t k = in[i] & 15, p = count[k];
        if (p >= 0 && p < 128)
            out[p] = in[i];
        count[k] = p + 1;
    }
    return out[0];
}
