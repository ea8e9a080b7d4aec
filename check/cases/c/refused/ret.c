// error line 5
#include "tapir.h"
int64_t a[64];
int64_t kernel(int64_t n) {
    SPAWN { a[0] = 1; if (n) return 3; }
    SYNC;
    return n;
}
