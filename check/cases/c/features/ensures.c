// accepted; args -5 | 3 | 99
#include "tapir.h"
int64_t a[64];
static int64_t clamp(int64_t x) {
    ENSURES(RESULT >= 0 && RESULT <= 63);
    return x < 0 ? 0 : x > 63 ? 63 : x;
}
int64_t kernel(int64_t n) { return a[clamp(n)]; }
