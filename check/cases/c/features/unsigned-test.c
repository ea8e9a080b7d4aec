// accepted; args -20 | -1 | -7
#include "tapir.h"
int64_t kernel(int64_t n) {
    REQUIRES(-20 <= n && n <= -1);
    uint64_t most = -1;
    int64_t i = n, k = 0;
    while (i <= most) {
        if (i >= 0) {
            k = 100;
            break;
        }
        i += 1;
        k += 1;
    }
    return k;
}
