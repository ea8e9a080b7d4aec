// accepted; args 0 | 32 | 9
#include "tapir.h"
#include <stdbool.h>
int code[32];
int64_t stack[8];
/* a small stack machine; the top is bounded by tests */
int64_t kernel(int64_t n) {
    REQUIRES(n >= 0 && n <= 32);
    int64_t top = 0;
    for (int i = 0; i < 8; i++) stack[i] = 0;
    for (int64_t pc = 0; pc < n; pc++) {
        INVARIANT(top >= 0 && top <= 7);
        bool two = top >= 2;
        switch (code[pc] & 3) {
        case 0:
            if (top < 7) stack[top++] = pc;
            break;
        case 1:
            if (two && top >= 2) { stack[top - 2] ^= stack[top - 1]; top--; }
            break;
        case 2:
            if (top >= 1) stack[top - 1] += 3;
            break;
        default:
            break;
        }
    }
    return stack[0];
}
