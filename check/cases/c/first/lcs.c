// accepted; args 0 0 | 32 32 | 5 30; cells 0 3
#include "tapir.h"
#define N 32
int64_t s[N], t[N], L[N + 1][N + 1];
int64_t kernel(int64_t n, int64_t m) {
    REQUIRES(n >= 0 && n <= N && m >= 0 && m <= N);
    for (int64_t i = 0; i <= n; i++)
        L[i][0] = 0;
    for (int64_t j = 0; j <= m; j++)
        L[0][j] = 0;
    for (int64_t i = 1; i <= n; i++)
        for (int64_t j = 1; j <= m; j++)
            if (s[i - 1] == t[j - 1])
                L[i][j] = L[i - 1][j - 1] + 1;
            else
                L[i][j] = L[i - 1][j] > L[i][j - 1] ? L[i - 1][j] : L[i][j - 1];
    return L[n][m];
}
