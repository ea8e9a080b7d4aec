// accepted; args 0 | 5 | 63
#include "tapir.h"
#include <string.h>
int64_t a[64];
static int64_t halvings(int64_t n) {
    REQUIRES(0 <= n && n <= 63);
    BUDGET(0, 2000);
    int64_t k = 0;
    while (n) {
        n /= 2;
        k++;
    }
    return k;
}
static int64_t changed(int64_t n) {
    SPAWN { n = ~n; }
    SYNC;
    return +n;
}
int64_t kernel(int64_t n) {
    memset(a, 0, sizeof a);
    int64_t k = n & 63;
    KEEPS(k <= 63);
    a[k] = changed(n) + halvings(k);
    _Bool is_set = !(n > 3), is_not = !is_set;
    return a[5] + is_set + 2 * is_not + !n;
}
