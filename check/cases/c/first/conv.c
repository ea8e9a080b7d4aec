// accepted
#include "tapir.h"
#define N 128
#define K 5
int64_t x[N], h[K], y[N];
int64_t kernel(void) {
    PARALLEL_FOR_HALVES(i, 0, N - K + 1) {
        int64_t s = 0;
        for (int k = 0; k < K; k++)
            s += x[i + k] * h[k];
        y[i] = s;
    }
    return y[0];
}
