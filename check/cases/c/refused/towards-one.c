// refused 702 line 6
#include "tapir.h"
int64_t kernel(int64_t n, int64_t k) {
    REQUIRES(-8 <= n && n <= 64 && 1 <= k && k <= 64);
    int64_t rounds = 0;
    while (n != 1) {
        INVARIANT(-8 <= n && n <= 64);
        n = n < 1 ? n + 1 : n - 1;
        rounds += k;
    }
    return rounds;
}
