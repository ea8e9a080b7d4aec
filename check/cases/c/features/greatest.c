// accepted
#include "tapir.h"
#define MAX(a, b) ((a) > (b) ? (a) : (b))
int64_t a[16];
int64_t kernel(void) {
    int64_t m = a[0];
    for (int i = 1; i < 16; i++)
        m = MAX(m, a[i]);
    return m;
}
