// accepted; args 0 | 1 | 5; cells 0 1
/* Game of life on a torus, one child per row. */
#include "tapir.h"
#define W 32
#define H 24
int grid[H][W], next[H][W];

static int neighbours(int y, int x) {
    REQUIRES(y >= 0 && y < H && x >= 0 && x < W);
    int n = 0;
    for (int dy = -1; dy <= 1; dy++)
        for (int dx = -1; dx <= 1; dx++)
            if (dx || dy)
                n += grid[(y + dy + H) % H][(x + dx + W) % W];
    return n;
}

static void step(void) {
    PARALLEL_FOR(y, 0, H)
        for (int x = 0; x < W; x++) {
            int n = neighbours(y, x);
            next[y][x] = n == 3 || (n == 2 && grid[y][x]);
        }
    PARALLEL_FOR(y, 0, H)
        for (int x = 0; x < W; x++)
            grid[y][x] = next[y][x];
}

int64_t kernel(int64_t steps) {
    REQUIRES(0 <= steps && steps <= 10);
    for (int64_t t = 0; t < steps; t++)
        step();
    int64_t alive = 0;
    for (int y = 0; y < H; y++)
        for (int x = 0; x < W; x++)
            alive += grid[y][x];
    return alive;
}
