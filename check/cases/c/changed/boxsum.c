// accepted
#include "tapir.h"
#define N 200
#define R 4
int64_t x[N], p[N + 1], y[N];
int64_t kernel(void) {
    p[0] = 0;
    for (int i = 0; i < N; i++)
        p[i + 1] = p[i] + x[i];
    PARALLEL_FOR(i, 0, N) {
        int64_t lo = i - R < 0 ? 0 : i - R, hi = i + R + 1 > N ? N : i + R + 1;
        if (lo < hi)
            y[i] = (p[hi] - p[lo]) / (hi - lo);
    }
    return y[7];
}
