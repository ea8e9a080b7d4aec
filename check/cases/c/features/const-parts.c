// accepted; args 0 | 3 | 1
#include "tapir.h"
static const int64_t none[4] = {0};
const unsigned mask = 0xff0000ffu;
const int64_t big[2][2] = {{[1] = 7}, {9}};
int64_t a[4];
static int64_t read(const int64_t t[static 4], int64_t k) { REQUIRES(0 <= k && k < 4); return t[k]; }
int64_t kernel(int64_t n) {
    REQUIRES(0 <= n && n < 4);
    a[n] = mask;
    return read(none, n) + big[0][1] * 10 + big[1][n & 1] + 0;
}
