// accepted; args 0 | 3 | 9
#include "tapir.h"
#define W 16
static const int64_t N = 24, SHIFT = -1, NONE = 0;
static const int dy[4] = {0, 1, 0, -1}, dx[4] = {1, 0, -1, 0};
const int64_t weight[2][3] = {{1, 2}, {1 << 3, N, -7}};
const int64_t few[8] = {5, 6};
int64_t grid[24][W], out[24][W];
int64_t kernel(int64_t n) {
    REQUIRES(0 <= n && n < 10);
    PARALLEL_FOR(y, NONE, N)
        for (int64_t x = 0; x < W; x++) {
            int64_t s = 0;
            for (int64_t k = 0; k < 4; k++) {
                int64_t ny = y + dy[k], nx = x + dx[k];
                if (ny >= 0 && ny < N && nx >= 0 && nx < W)
                    s += grid[ny][nx] * weight[k & 1][k >> 1];
            }
            out[y][x] = s + few[n & 7] + SHIFT;
        }
    return out[3][n] + few[1] + weight[1][2];
}
