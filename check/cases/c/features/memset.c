// accepted; args 0 | 3 | 7
#include "tapir.h"
#include <string.h>
int64_t a[8], m[4][4];
int b[8];
/* a whole array is cleared, by its name, by its address and by a parameter; the size is in bytes */
static void clear(int64_t p[static 8], int64_t k) {
    REQUIRES(0 <= k && k < 8);
    memset(p, 0, 8 * sizeof *p);
    p[k] = k;
}
int64_t kernel(int64_t n) {
    REQUIRES(0 <= n && n < 8);
    int64_t own[8];
    memset(own, 0, sizeof own);
    memset(m, 0, sizeof m);
    memset(&b, 0, 8 * sizeof b[0]);
    clear(a, n);
    own[n] = 1;
    b[n] = -1;
    m[n & 3][1] = 5;
    return own[3] + a[3] + b[1] + m[3][1];
}
