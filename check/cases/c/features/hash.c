// accepted; args 1 | 7 | 64
#include "tapir.h"
int64_t table[64];
/* the rest by a register lies in the table */
int64_t kernel(int64_t n) {
    REQUIRES(1 <= n && n <= 64);
    for (int64_t i = 0; i < 200; i++)
        table[i * 37 % n] += i;
    return table[0];
}
