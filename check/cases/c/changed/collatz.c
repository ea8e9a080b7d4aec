// accepted
#include "tapir.h"
int64_t len[100];
int64_t kernel(void) {
    PARALLEL_FOR(i, 1, 100) {
        int64_t n = i, k = 0;
        for (; k < 200 && n != 1; k++)
            n = n % 2 ? 3 * n + 1 : n / 2;
        len[i] = k;
    }
    return len[27];
}
