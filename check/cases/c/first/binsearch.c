// accepted; args -3 | 0 | 5
#include "tapir.h"
int64_t a[64];
int64_t kernel(int64_t key) {
    int64_t lo = 0, hi = 64;
    while (lo < hi) {
        int64_t mid = lo + (hi - lo) / 2;
        if (a[mid] < key)
            lo = mid + 1;
        else
            hi = mid;
    }
    return lo;
}
