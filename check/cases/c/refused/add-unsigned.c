// error line 6; says write int64_t
#include "tapir.h"
unsigned count[4];
int64_t kernel(void) {
    PARALLEL_FOR(i, 0, 8)
        ADD(&count[i & 3], 1);
    return count[0];
}
