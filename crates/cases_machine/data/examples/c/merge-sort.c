// accepted; args 1 | 37 | 64
/* Merge sort: one half by a child, the other by a call. */
#include "tapir.h"
int64_t a[64], spare[64];
static void merge(int64_t lo, int64_t mid, int64_t hi) {
    REQUIRES(lo >= 0 && lo <= mid && mid <= hi && hi <= 64);
    int64_t i = lo, j = mid;
    for (int64_t k = lo; k < hi; k++) {
        INVARIANT(lo <= i && i <= mid && mid <= j && j <= hi && k + mid == i + j);
        if (i < mid && (j >= hi || a[i] <= a[j]))
            spare[k] = a[i++];
        else
            spare[k] = a[j++];
    }
    for (int64_t k = lo; k < hi; k++)
        a[k] = spare[k];
}
static void sort(int64_t lo, int64_t hi, int64_t depth) {
    REQUIRES(lo >= 0 && lo <= hi && hi <= 64 && depth >= 0 && depth <= 6);
    if (depth == 0) return;
    int64_t mid = lo + (hi - lo) / 2;
    SPAWN { sort(lo, mid, depth - 1); }
    sort(mid, hi, depth - 1);
    SYNC;
    merge(lo, mid, hi);
}
int64_t kernel(int64_t n) {
    REQUIRES(n >= 0 && n <= 64);
    sort(0, n, 6);
    return n;
}

#ifdef NATIVE
#include <stdio.h>
int main(void) {
    for (int i = 0; i < 64; i++) a[i] = (i * 37) % 64;
    printf("%lld\n", (long long)kernel(64));
}
#endif
