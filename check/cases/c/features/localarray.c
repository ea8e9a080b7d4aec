// accepted
#include "tapir.h"
int64_t out[16];
static int64_t median(int64_t i) {
    REQUIRES(0 <= i && i <= 15);
    int64_t t[4] = {0};
    for (int j = 0; j < 4; j++)
        t[j] = (i * 7 + j * 5) % 11;
    for (int j = 0; j < 3; j++)
        for (int k = 0; k < 3 - j; k++)
            if (t[k] > t[k + 1]) { int64_t x = t[k]; t[k] = t[k + 1]; t[k + 1] = x; }
    return t[1] + t[2];
}
int64_t kernel(void) {
    PARALLEL_FOR_HALVES(i, 0, 16)
        out[i] = median(i);
    return out[3];
}
