// accepted; args 0 | 5 | 31; cells 0 31; sorted row 0 128
/* Levels of a breadth-first search: each node looks at its neighbours' levels (pull). */
#include "tapir.h"
#define V 32
#define E 128
int64_t row[V + 1], edge[E], level[V], fresh[V];

int64_t kernel(int64_t source) {
    REQUIRES(0 <= source && source < V);
    for (int64_t v = 0; v < V; v++) level[v] = -1;
    level[source] = 0;
    int64_t depth = 0;
    bool changed = true;
    WHILE_AT_MOST(V, changed) {
        PARALLEL_FOR(v, 0, V) {
            fresh[v] = 0;
            if (level[v] < 0)
                for (int64_t k = row[v]; k >= 0 && k < E && k < row[v + 1]; k++)
                    if (level[edge[k] & 31] == depth)
                        fresh[v] = 1;
        }
        changed = false;
        depth++;
        for (int64_t v = 0; v < V; v++)
            if (fresh[v]) {
                level[v] = depth;
                changed = true;
            }
    }
    return depth;
}
