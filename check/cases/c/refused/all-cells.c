// refused 602 line 6
#include "tapir.h"
int64_t a[64], b[64];
int64_t kernel(int64_t k) {
    REQUIRES(0 <= k && k < 64);
    PARALLEL_FOR(i, 0, 64)
        a[b[i] & 63] = i;
    return a[0];
}
