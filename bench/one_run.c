/* One kernel, run serially or on threads of a host in C: the least time of so many runs, in milliseconds.
 *
 * Usage: one_run FILE TIMES WORKERS ARGUMENT..  (0 workers: serially)
 * Ends with status 1 where a run has another answer than the first one. */
#include "tapirvm_threads.h"

#include <inttypes.h>
#include <stdio.h>
#include <stdlib.h>
#include <string.h>
#include <time.h>

enum { MOST_BYTES = (1 << 20) + 1, MOST_ARGUMENTS = 16 };

static uint8_t text[MOST_BYTES];

static double milliseconds(void) {
    struct timespec now;
    clock_gettime(CLOCK_MONOTONIC, &now);
    return (double)now.tv_sec * 1e3 + (double)now.tv_nsec / 1e6;
}

int main(int count, char **words) {
    struct tapirvm_handle kernel = TAPIRVM_NOTHING;
    struct tapirvm_stop nobody = TAPIRVM_NOTHING;
    struct tapirvm_verdict verdict = {0};
    struct tapirvm_outcome wanted = {0}, outcome = {0};
    int64_t arguments[MOST_ARGUMENTS];
    FILE *file = count >= 4 && count - 4 <= MOST_ARGUMENTS ? fopen(words[1], "rb") : NULL;
    if (file == NULL) return 2;
    size_t length = fread(text, 1, sizeof text, file), workers = strtoul(words[3], NULL, 10), given = (size_t)count - 4;
    fclose(file);
    for (size_t k = 0; k < given; k++) arguments[k] = strtoll(words[k + 4], NULL, 10);
    tapirvm_open(text, length, 1, 2, TAPIRVM_UNBOUNDED, &verdict, &kernel);
    if (verdict.status != TAPIRVM_DONE) return 2;
    size_t bytes = verdict.cells * sizeof(int64_t);
    int64_t *cells = calloc(verdict.cells + 1, sizeof *cells), *first = calloc(verdict.cells + 1, sizeof *first);
    if (cells == NULL || first == NULL) return 3;
    tapirvm_run(&kernel, TAPIRVM_UNBOUNDED, &nobody, arguments, given, first, verdict.cells, &wanted);
    double least = 0;
    for (long time = strtol(words[2], NULL, 10); time > 0; time--) {
        memset(cells, 0, bytes);
        double start = milliseconds();
        if (workers == 0) tapirvm_run(&kernel, TAPIRVM_UNBOUNDED, &nobody, arguments, given, cells, verdict.cells, &outcome);
        else tapirvm_run_threads(&kernel, workers, TAPIRVM_UNBOUNDED, &nobody, arguments, given, cells, verdict.cells, &outcome);
        double took = milliseconds() - start;
        least = least == 0 || took < least ? took : least;
        if (outcome.status != wanted.status || outcome.result != wanted.result || outcome.instructions != wanted.instructions || memcmp(cells, first, bytes) != 0)
            return 1;
    }
    printf("%.1f %" PRId64 "\n", least, outcome.result);
    tapirvm_close(&kernel);
    free(cells);
    free(first);
    return 0;
}
