// refused 702 line 5
#include "tapir.h"
int64_t len[100];
int64_t kernel(void) {
    PARALLEL_FOR(i, 1, 100) {
        int64_t n = i, k = 0;
        while (n != 1) {
            n = n % 2 ? 3 * n + 1 : n / 2;
            k++;
        }
        len[i] = k;
    }
    return len[27];
}
