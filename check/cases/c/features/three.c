// accepted; args 3 | 8 | -1
#include "tapir.h"
/* three children whose results are locals */
static int64_t square(int64_t x) { return (int64_t)((uint64_t)x * (uint64_t)x); }
int64_t kernel(int64_t n) {
    int64_t x, y, z;
    SPAWN { x = square(n); }
    SPAWN { y = square(n - 1); }
    SPAWN { if (n > 3) z = 1; else z = 2; }
    SYNC;
    return x + y + z;
}
