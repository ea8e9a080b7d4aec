/* A batch service in C: judges each text once and runs what is accepted over many rows of arguments and cells, on threads of its own.
 *
 * Usage: batch LIST ROWS THREADS
 * Each line of LIST is a text's path, the number of its arguments, and the least and the greatest argument of a row. */
#include "tapirvm.h"

#include <inttypes.h>
#include <pthread.h>
#include <stdatomic.h>
#include <stdio.h>
#include <stdlib.h>
#include <sys/random.h>
#include <sys/resource.h>
#include <time.h>

enum { MOST_BYTES = (1 << 20) + 1, MOST_JOBS = 4096, MOST_THREADS = 64 };

/* what this service pays for: steps of search for a verdict, instructions of a run, frames, and cells */
static const uint64_t MOST_STEPS = 1000000000, MOST_INSTRUCTIONS = 1000000, MOST_FRAMES = 1000, MOST_CELLS = 65536;

struct job {
    char path[512];
    size_t arguments;
    int64_t least, most;
};

/* how texts and rows ended, and what the rows came to */
struct totals {
    atomic_ullong refused, dear, undecided, done, unmet, failed, instructions, digest;
};

static struct job jobs[MOST_JOBS];
static size_t job_count, row_count;
static atomic_size_t next_job;
static struct totals totals;
static uint64_t seed[2];

static void *room(size_t count, size_t size) {
    void *found = calloc(count + 1, size);
    if (found == NULL) exit(3);
    return found;
}

/* the same numbers in each run, whatever the thread */
static uint64_t drawn(uint64_t *state) {
    *state = *state * 6364136223846793005u + 1442695040888963407u;
    return *state >> 33;
}

static void run_rows(struct tapirvm_handle *kernel, const struct job *job, size_t cells, uint64_t state) {
    int64_t *arguments = room(row_count * job->arguments, sizeof *arguments), *row = room(row_count * cells, sizeof *row);
    struct tapirvm_outcome *outcomes = room(row_count, sizeof *outcomes);
    for (size_t k = 0; k < row_count * job->arguments; k++)
        arguments[k] = job->least + (int64_t)(drawn(&state) % (uint64_t)(job->most - job->least + 1));
    for (size_t k = 0; k < row_count * cells; k++) row[k] = (int64_t)(k * 7 % 16);
    struct tapirvm_stop nobody = TAPIRVM_NOTHING;
    tapirvm_rows(kernel, MOST_INSTRUCTIONS, &nobody, job->arguments, arguments, row_count * job->arguments, cells, row, row_count * cells, outcomes, row_count);
    for (size_t k = 0; k < row_count; k++) {
        if (outcomes[k].status == TAPIRVM_DONE) {
            totals.done++;
            totals.instructions += outcomes[k].instructions;
            totals.digest += (uint64_t)outcomes[k].result * (k + 1);
        } else if (outcomes[k].status == TAPIRVM_BAD_ARGUMENTS) {
            totals.unmet++;
        } else {
            totals.failed++;
        }
    }
    free(arguments);
    free(row);
    free(outcomes);
}

static void do_job(size_t number, uint8_t *text) {
    const struct job *job = &jobs[number];
    FILE *file = fopen(job->path, "rb");
    if (file == NULL) exit(2);
    size_t length = fread(text, 1, MOST_BYTES, file);
    fclose(file);
    struct tapirvm_handle kernel = TAPIRVM_NOTHING;
    struct tapirvm_verdict verdict = {0};
    tapirvm_open(text, length, seed[0], seed[1], MOST_STEPS, &verdict, &kernel);
    if (verdict.status == TAPIRVM_REFUSED) {
        totals.refused++;
    } else if (verdict.status != TAPIRVM_DONE) {
        totals.undecided++;
    } else if (verdict.budget > MOST_INSTRUCTIONS || verdict.depth > MOST_FRAMES || verdict.cells > MOST_CELLS) {
        totals.dear++;
    } else {
        run_rows(&kernel, job, verdict.cells, number + 1);
    }
    tapirvm_close(&kernel);
}

static void *work(void *unused) {
    (void)unused;
    uint8_t *text = room(MOST_BYTES, 1);
    for (size_t number = next_job++; number < job_count; number = next_job++) do_job(number, text);
    free(text);
    return NULL;
}

static double seconds(void) {
    struct timespec now;
    clock_gettime(CLOCK_MONOTONIC, &now);
    return (double)now.tv_sec + (double)now.tv_nsec / 1e9;
}

int main(int count, char **words) {
    FILE *list = count == 4 ? fopen(words[1], "r") : NULL;
    if (list == NULL || getentropy(seed, sizeof seed) != 0 || tapirvm_abi() != TAPIRVM_MAJOR) return 2;
    struct job *job = jobs;
    while (job_count < MOST_JOBS && fscanf(list, "%511s %zu %" SCNd64 " %" SCNd64, job->path, &job->arguments, &job->least, &job->most) == 4)
        job = &jobs[++job_count];
    fclose(list);
    row_count = strtoull(words[2], NULL, 10);
    size_t threads = strtoull(words[3], NULL, 10);
    if (threads < 1 || threads > MOST_THREADS) return 2;
    pthread_t others[MOST_THREADS];
    double start = seconds();
    for (size_t k = 0; k < threads; k++)
        if (pthread_create(&others[k], NULL, work, NULL) != 0) return 3;
    for (size_t k = 0; k < threads; k++) pthread_join(others[k], NULL);
    double took = seconds() - start;
    struct rusage used;
    getrusage(RUSAGE_SELF, &used);
    printf("texts %zu refused %llu dear %llu undecided %llu\n", job_count, totals.refused, totals.dear, totals.undecided);
    printf("rows %llu failed %llu\n", totals.done + totals.unmet + totals.failed, totals.failed);
    printf("done %llu instructions %llu digest %llu\n", totals.done, totals.instructions, totals.digest);
    fprintf(stderr, "%.2f s, %ld MB\n", took, used.ru_maxrss / 1024);
    return 0;
}
