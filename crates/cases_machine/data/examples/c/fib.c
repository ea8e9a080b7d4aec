// accepted; args 0 | 1 | 17
/* The Fibonacci numbers, each call by a child and a call. */
#include "tapir.h"
static int64_t fib(int64_t n) {
    REQUIRES(n >= 0 && n <= 30);
    int64_t x, y;
    if (n < 2) return n;
    SPAWN { x = fib(n - 1); }
    y = fib(n - 2);
    SYNC;
    return x + y;
}
int64_t kernel(int64_t n) {
    REQUIRES(n >= 0 && n <= 30);
    return fib(n);
}

#ifdef NATIVE
#include <stdio.h>
int main(void) {
    printf("%lld\n", (long long)kernel(20));
}
#endif
