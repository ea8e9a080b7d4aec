// accepted; args 0 | 5 | -7
#include "tapir.h"
int64_t kernel(int64_t n) {
    return (n > 0) + (n < 5) * 2 + !n;
}
