// accepted; args 0 10 | 10 50 | 20 100; cells 1 30
/* 0-1 knapsack, two rows that take turns; a row's cells at once. */
#include "tapir.h"
#define ITEMS 20
#define CAP 100
int64_t w[ITEMS], v[ITEMS], even[CAP + 1], odd[CAP + 1];

static void item(int64_t i, int64_t cap, const int64_t from[restrict static CAP + 1], int64_t to[restrict static CAP + 1]) {
    REQUIRES(0 <= i && i < ITEMS && 0 <= cap && cap <= CAP);
    PARALLEL_FOR(c, 0, cap + 1) {
        int64_t b = from[c];
        if (w[i] >= 0 && w[i] <= c && from[c - w[i]] + v[i] > b)
            b = from[c - w[i]] + v[i];
        to[c] = b;
    }
}

int64_t kernel(int64_t n, int64_t cap) {
    REQUIRES(0 <= n && n <= ITEMS && 0 <= cap && cap <= CAP);
    for (int64_t c = 0; c <= cap; c++) even[c] = 0;
    for (int64_t i = 0; i < n; i++)
        if (i % 2)
            item(i, cap, odd, even);
        else
            item(i, cap, even, odd);
    return n % 2 ? odd[cap] : even[cap];
}
