// accepted; args 0 | 5 | 10
#include "tapir.h"
int64_t kernel(int64_t n) {
    REQUIRES(n >= 0 && n <= 10);
    return n ? kernel(n - 1) + 1 : 0;
}
