// accepted; args 1 | -4 | 9
#include "tapir.h"
int64_t a[4];
int64_t kernel(int64_t n) {
    SPAWN {
        SPAWN { a[0] = n; }
        a[1] = n + 1;
        SYNC;
        a[2] = a[0] + a[1];
    }
    a[3] = n + 3;
    SYNC;
    return a[2] + a[3];
}
