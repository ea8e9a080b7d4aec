// accepted
#include "tapir.h"
#define N 32
int64_t adj[N][4], dist[N], queue[N];
int64_t kernel(void) {
    for (int i = 0; i < N; i++)
        dist[i] = -1;
    int64_t head = 0, tail = 1;
    queue[0] = 0;
    dist[0] = 0;
    while (head < tail) {
        int64_t u = queue[head++] & (N - 1);
        for (int k = 0; k < 4; k++) {
            int64_t v = adj[u][k] & (N - 1);
            if (dist[v] < 0 && tail < N) {
                dist[v] = dist[u] + 1;
                queue[tail++] = v;
            }
        }
    }
    return tail;
}
