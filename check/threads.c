/* One module that several threads run, each by a handle of its own.
 *
 * Usage: threads FILE RUNS THREADS ARGUMENT..
 * Prints for each thread what its last run came to, from cells that are 0. */
#include "tapirvm.h"

#include <inttypes.h>
#include <pthread.h>
#include <stdio.h>
#include <stdlib.h>
#include <string.h>

enum { MOST_THREADS = 16, MOST_ARGUMENTS = 16 };

static uint8_t text[1 << 20];
static int64_t arguments[MOST_ARGUMENTS];
static size_t argument_count, cell_count;
static long runs;

struct worker {
    struct tapirvm_handle handle;
    struct tapirvm_outcome outcome;
};

static void *work(void *given) {
    struct worker *worker = given;
    struct tapirvm_stop nobody = TAPIRVM_NOTHING;
    int64_t *cells = malloc((cell_count + 1) * sizeof *cells);
    for (long run = 0; run < runs; run++) {
        memset(cells, 0, cell_count * sizeof *cells);
        tapirvm_run(&worker->handle, TAPIRVM_UNBOUNDED, &nobody, arguments, argument_count, cells, cell_count, &worker->outcome);
    }
    free(cells);
    tapirvm_close(&worker->handle);
    return NULL;
}

int main(int count, char **words) {
    if (count < 4 || count - 4 > MOST_ARGUMENTS) return 2;
    FILE *file = fopen(words[1], "rb");
    if (file == NULL) return 2;
    size_t length = fread(text, 1, sizeof text, file);
    fclose(file);
    runs = strtol(words[2], NULL, 10);
    int threads = atoi(words[3]);
    if (threads < 1 || threads > MOST_THREADS) return 2;
    argument_count = (size_t)count - 4;
    for (size_t k = 0; k < argument_count; k++) arguments[k] = strtoll(words[k + 4], NULL, 10);

    static struct worker workers[MOST_THREADS];
    pthread_t ids[MOST_THREADS];
    struct tapirvm_verdict verdict = {0};
    tapirvm_open(text, length, 1, 2, UINT64_C(1000000000), &verdict, &workers[0].handle);
    if (verdict.status != TAPIRVM_DONE) return 2;
    cell_count = (size_t)verdict.cells;
    for (int k = 1; k < threads; k++)
        if (tapirvm_share(&workers[0].handle, &workers[k].handle) != TAPIRVM_DONE) return 2;
    for (int k = 0; k < threads; k++)
        if (pthread_create(&ids[k], NULL, work, &workers[k]) != 0) return 2;
    for (int k = 0; k < threads; k++) pthread_join(ids[k], NULL);
    for (int k = 0; k < threads; k++)
        printf("status %" PRIu32 " result %" PRId64 " instructions %" PRIu64 "\n", workers[k].outcome.status, workers[k].outcome.result,
               workers[k].outcome.instructions);
    return 0;
}
