// accepted; args 0 | 1 | 2147483647
#include "tapir.h"
int64_t a[256];
int64_t kernel(int64_t seed) {
    for (int i = 0; i < 256; i++) {
        seed = (seed * 1103515245 + 12345) & 0x7fffffff;
        a[i] = seed >> 16;
    }
    return a[255];
}
