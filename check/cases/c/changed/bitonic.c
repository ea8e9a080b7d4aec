// accepted
#include "tapir.h"
#define N 64
int64_t a[N];
int64_t kernel(void) {
    for (int p = 1; p <= 6; p++)
        for (int q = p - 1; q >= 0; q--)
            for (int i = 0; i < N; i++) {
                int k = 1 << p, l = i ^ (1 << q);
                if (l > i && l < N) {
                    if (((i & k) == 0 && a[i] > a[l]) || ((i & k) != 0 && a[i] < a[l])) {
                        int64_t t = a[i];
                        a[i] = a[l];
                        a[l] = t;
                    }
                }
            }
    return a[0];
}
