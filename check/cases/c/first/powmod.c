// accepted; args 3 1000 7919 | 0 0 1 | 999999 999999 1000000
#include "tapir.h"
int64_t kernel(int64_t b, int64_t e, int64_t m) {
    REQUIRES(b >= 0 && b <= 1000000 && e >= 0 && e <= 1000000 && m >= 1 && m <= 1000000);
    int64_t r = 1;
    b %= m;
    while (e > 0) {
        if (e & 1)
            r = r * b % m;
        b = b * b % m;
        e >>= 1;
    }
    return r % m;
}
