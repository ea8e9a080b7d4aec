// accepted; args 0 | 5 | -7
#include "tapir.h"
int64_t kernel(int64_t n) {
    if (n > 3) goto out;
    n = 3;
out:
    return n;
}
