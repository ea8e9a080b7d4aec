// accepted; args 0 0 | 4611686018427387904 -5 | 9223372036854775807 9223372036854775807 | 0 -9223372036854775808
#include "tapir.h"
int64_t a[4];
/* what wraps is no sum: of n >= 0 it does not follow that n + 1 or 2 * n is, and a half of x + y may lie outside of them */
int64_t kernel(int64_t n, int64_t x) {
    REQUIRES(n >= 0);
    uint64_t next = (uint64_t)n + 1, twice = (uint64_t)n * 2, back = (uint64_t)n - 1;
    int64_t y = x, sum = (int64_t)((uint64_t)x + (uint64_t)y);
    for (int i = 0; i < 4; i++)
        a[i] = 0;
    if (next == 0) a[0] = 1;
    if (twice != 0) a[1] = 1;
    if (back == 0) a[2] = 1;
    if (x <= y && sum >= 0) a[3] = sum / 2;
    return a[0] + a[1] + (int64_t)(next + twice);
}
