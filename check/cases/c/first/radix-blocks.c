// accepted; args 0 0 | 300 4 | 512 8; cells 0 4095
/* One pass of a radix sort in blocks: counts by block in parallel, prefix sums, scatter by block into a checked place. */
#include "tapir.h"
#define N 512
#define R 16
#define BLOCKS 8
#define SIZE (N / BLOCKS)
int64_t in[N], out[N], count[BLOCKS][R];

int64_t kernel(int64_t n, int64_t shift) {
    REQUIRES(0 <= n && n <= N && 0 <= shift && shift < 60);
    PARALLEL_FOR(b, 0, BLOCKS) {
        for (int64_t r = 0; r < R; r++) count[b][r] = 0;
        for (int64_t i = b * SIZE; i < (b + 1) * SIZE && i < n; i++)
            count[b][(in[i] >> shift) & (R - 1)]++;
    }
    int64_t sum = 0;
    for (int64_t r = 0; r < R; r++)
        for (int64_t b = 0; b < BLOCKS; b++) {
            int64_t c = count[b][r];
            count[b][r] = sum;
            sum += c;
        }
    for (int64_t b = 0; b < BLOCKS; b++)
        for (int64_t i = b * SIZE; i < (b + 1) * SIZE && i < n; i++) {
            int64_t place = count[b][(in[i] >> shift) & (R - 1)]++;
            if (place >= 0 && place < N)
                out[place] = in[i];
        }
    return sum;
}
