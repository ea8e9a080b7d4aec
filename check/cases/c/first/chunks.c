// accepted; args 0 | 1000 | 4096
/* Histogram over n values, a child for each chunk of 256. */
#include "tapir.h"
enum { N = 4096, BINS = 64, CHUNK = 256 };
int data[N];
int64_t bins[BINS];

int64_t kernel(int64_t n) {
    REQUIRES(n >= 0 && n <= N);
    for (int i = 0; i < BINS; i++) bins[i] = 0;
    int64_t chunks = (n + CHUNK - 1) / CHUNK;
    PARALLEL_FOR(c, 0, chunks) {
        int64_t end = (c + 1) * CHUNK;
        if (end > n) end = n;
        for (int64_t i = c * CHUNK; i < end; i++) {
            int v = data[i];
            if (v < 0) v = 0;
            if (v >= BINS) v = BINS - 1;
            ADD(&bins[v], 1);
        }
    }
    int64_t max = 0;
    for (int i = 1; i < BINS; i++)
        if (bins[i] > bins[max]) max = i;
    return max;
}
