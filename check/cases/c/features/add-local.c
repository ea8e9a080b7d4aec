// accepted
#include "tapir.h"
int64_t kernel(void) {
    int64_t s = 0;
    PARALLEL_FOR(i, 0, 8)
        ADD(&s, i);
    return s;
}
