// refused 501 line 6
#include "tapir.h"
int64_t a[8];
int64_t kernel(void) {
    int64_t s = 0;
    for (unsigned long i = 0; i < 8; i++) s += a[i];
    return s;
}
