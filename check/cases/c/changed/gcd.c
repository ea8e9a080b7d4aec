// accepted; args 0 5 | 12 18 | 1000 377
#include "tapir.h"
int64_t kernel(int64_t a, int64_t b) {
    REQUIRES(a >= 0 && a <= 1000 && b >= 0 && b <= 1000);
    WHILE_AT_MOST(20, b > 0) {
        int64_t t = a % b;
        a = b;
        b = t;
    }
    return a;
}
