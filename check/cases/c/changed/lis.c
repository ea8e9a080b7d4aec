// accepted; args 1 | 60 | 33
#include "tapir.h"
int64_t a[60], len[60];
static void longest(int64_t i) {
    REQUIRES(i >= 0 && i <= 59);
    len[i] = 1;
    for (int64_t j = 0; j < i; j++)
        if (a[j] < a[i] && len[j] + 1 > len[i])
            len[i] = len[j] + 1;
}
int64_t kernel(int64_t n) {
    REQUIRES(n >= 1 && n <= 60);
    int64_t best = 0;
    for (int64_t i = 0; i < n; i++) {
        longest(i);
        if (len[i] > best)
            best = len[i];
    }
    return best;
}
