// accepted; args 0 | 3 | 8
#include "tapir.h"
int64_t m[8][8];
/* the zones are of a row, by its name */
static void fill(int64_t i, int64_t n) {
    REQUIRES(0 <= i && i < 8 && 0 <= n && n <= 8);
    WRITES(m[i], 0, n);
    for (int64_t j = 0; j < n; j++)
        m[i][j] += i * j;
}
int64_t kernel(int64_t n) {
    REQUIRES(0 <= n && n <= 8);
    PARALLEL_FOR(i, 0, 8) {
        WRITES(m[i], 0, 8);
        fill(i, n);
    }
    return m[7][1] + n;
}
