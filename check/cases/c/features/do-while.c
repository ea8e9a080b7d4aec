// accepted; args 0 | 5 | -7
#include "tapir.h"
int64_t a[8];
int64_t kernel(int64_t n) {
    int64_t i = 0;
    do {
        a[i] = n;
        i++;
    } while (i < 8);
    return a[3];
}
