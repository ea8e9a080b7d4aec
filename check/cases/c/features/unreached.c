// accepted; args 0 | 5 | -7
#include "tapir.h"
int64_t a[8];
int64_t kernel(int64_t n) {
    if (0)
        for (int64_t i = 0; i < 8; i++)
            a[i] = n;
    return n + a[1];
    while (n > 0)
        n--;
}
