// accepted; args 0 | 37 | 128
/* Heap sort. */
#include "tapir.h"
#define N 128
int64_t a[N];

static void sift(int64_t root, int64_t n) {
    REQUIRES(0 <= root && root <= n && n <= N);
    WHILE_AT_MOST(8, 2 * root + 1 < n) {
        int64_t child = 2 * root + 1;
        if (child + 1 < n && a[child + 1] > a[child]) child++;
        if (a[root] >= a[child]) break;
        int64_t t = a[root];
        a[root] = a[child];
        a[child] = t;
        root = child;
    }
}

int64_t kernel(int64_t n) {
    REQUIRES(0 <= n && n <= N);
    for (int64_t i = n / 2 - 1; i >= 0; i--)
        sift(i, n);
    for (int64_t end = n - 1; end > 0; end--) {
        int64_t t = a[0];
        a[0] = a[end];
        a[end] = t;
        sift(0, end);
    }
    return n;
}
