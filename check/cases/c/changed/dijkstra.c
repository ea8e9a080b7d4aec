// accepted; args 0 | 3 | 23; cells 0 99
/* Dijkstra on a dense graph, the relaxations of one node at once. */
#include "tapir.h"
#define V 24
#define FAR 1000000
int64_t weight[V][V], dist[V];
int done[V];

int64_t kernel(int64_t source) {
    REQUIRES(0 <= source && source < V);
    for (int v = 0; v < V; v++) {
        dist[v] = FAR;
        done[v] = 0;
    }
    dist[source] = 0;
    for (int round = 0; round < V; round++) {
        int u = -1;
        for (int v = 0; v < V; v++)
            if (!done[v] && (u < 0 || dist[v] < dist[u])) u = v;
        if (u < 0) break;
        done[u] = 1;
        int64_t du = dist[u];
        PARALLEL_FOR(v, 0, V) {
            int64_t through = du + weight[u][v];
            if (!done[v] && through < dist[v]) dist[v] = through;
        }
    }
    int64_t sum = 0;
    for (int v = 0; v < V; v++) sum += dist[v];
    return sum;
}
