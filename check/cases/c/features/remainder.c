// accepted; args 0 | -50 | 9223372036854775807
#include "tapir.h"
int64_t kernel(int64_t n) {
    return n % 7 + n / 7;
}
