// accepted; args 0 | 3 | 8
#include "tapir.h"
#include <stdbool.h>
int64_t board[8], kept[8];
static bool is_free(int64_t cell, bool strict) { return strict ? cell == 0 : cell <= 0; }
static bool any(bool a, bool b) { return a || b; }
int64_t kernel(int64_t n) {
    REQUIRES(n >= 0 && n <= 8);
    bool found = false;
    for (int64_t i = 0; i < n; i++) {
        if (is_free(board[i], i % 2))
            kept[i] = i;
        found = any(found, board[i] > 7);
    }
    return found ? kept[1] : -1;
}
