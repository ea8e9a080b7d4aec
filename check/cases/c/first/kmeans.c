// accepted; args 0 1 | 100 4 | 256 8
/* One assignment step of k-means in the plane, and the sums for the new centres. */
#include "tapir.h"
#define N 256
#define K 8
int64_t px[N], py[N], cx[K], cy[K];
int64_t label[N], sumx[K], sumy[K], count[K];

static int64_t distance(int64_t ax, int64_t ay, int64_t bx, int64_t by) {
    int64_t dx = ax - bx, dy = ay - by;
    return dx * dx + dy * dy;
}

static int64_t nearest(int64_t i, int64_t k) {
    REQUIRES(0 <= i && i < N && 1 <= k && k <= K);
    int64_t best = 0, least = distance(px[i], py[i], cx[0], cy[0]);
    for (int64_t c = 1; c < k; c++) {
        int64_t d = distance(px[i], py[i], cx[c], cy[c]);
        if (d < least) {
            least = d;
            best = c;
        }
    }
    return best;
}

int64_t kernel(int64_t n, int64_t k) {
    REQUIRES(0 <= n && n <= N && 1 <= k && k <= K);
    for (int64_t c = 0; c < k; c++)
        sumx[c] = sumy[c] = count[c] = 0;
    PARALLEL_FOR(i, 0, n) {
        int64_t c = nearest(i, k);
        label[i] = c;
        ADD(&sumx[c], px[i]);
        ADD(&sumy[c], py[i]);
        ADD(&count[c], 1);
    }
    int64_t moved = 0;
    for (int64_t c = 0; c < k; c++)
        if (count[c] > 0) {
            int64_t nx = sumx[c] / count[c], ny = sumy[c] / count[c];
            if (nx != cx[c] || ny != cy[c]) moved++;
            cx[c] = nx;
            cy[c] = ny;
        }
    return moved;
}
