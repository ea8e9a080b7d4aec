// accepted; args 0 0 | 20 100 | 7 33; cells 0 30
#include "tapir.h"
int64_t best[101], weight[20], value[20];
int64_t kernel(int64_t n, int64_t cap) {
    REQUIRES(n >= 0 && n <= 20 && cap >= 0 && cap <= 100);
    for (int64_t w = 0; w <= cap; w++)
        best[w] = 0;
    for (int64_t i = 0; i < n; i++)
        for (int64_t w = cap; w >= weight[i] && w >= 0; w--) {
            int64_t from = w - weight[i];
            if (from >= 0 && from <= cap && best[from] + value[i] > best[w])
                best[w] = best[from] + value[i];
        }
    return best[cap];
}
