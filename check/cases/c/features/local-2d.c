// accepted; args 0 | 5 | -7
#include "tapir.h"
int64_t kernel(int64_t n) {
    int64_t m[4][4];
    for (int i = 0; i < 4; i++)
        for (int j = 0; j < 4; j++)
            m[i][j] = i * j + n;
    return m[2][3];
}
