// refused 501 line 17
/* One pass of a radix sort, by 4 bits from `shift` on; stable. */
#include "tapir.h"
#define N 512
#define R 16
int64_t in[N], out[N], start[R + 1];

int64_t kernel(int64_t n, int64_t shift) {
    REQUIRES(0 <= n && n <= N && 0 <= shift && shift < 60);
    for (int64_t r = 0; r <= R; r++) start[r] = 0;
    for (int64_t i = 0; i < n; i++)
        start[((in[i] >> shift) & (R - 1)) + 1]++;
    for (int64_t r = 0; r < R; r++)
        start[r + 1] += start[r];
    for (int64_t i = 0; i < n; i++) {
        int64_t digit = (in[i] >> shift) & (R - 1);
        out[start[digit]++] = in[i];
    }
    return start[R];
}
