/* Runs on threads by bindings/c/tapirvm_threads.c, each compared with the serial run: result, instructions, peak and cells.
 *
 * Usage: crews TIMES SCHEDULES WORKERS.. < CASES (host_cases.h)
 * Each case runs so often on each number of workers, and the schedules of as many of these runs are replayed. */
#include "host_cases.h"
#include "tapirvm_threads.h"

static struct tapirvm_stop nobody = TAPIRVM_NOTHING;
static long runs, replays, wrong;

static void differs(const struct host_case *it, size_t workers, const char *what, const struct tapirvm_outcome *said) {
    printf("%s on %zu workers, %s: status %" PRIu32 " result %" PRId64 " instructions %" PRIu64 " peak %" PRIu64 "\n", it->path, workers, what,
           said->status, said->result, said->instructions, said->peak);
    wrong++;
}

static void run(struct host_case *it, size_t workers, int64_t *cells) {
    struct tapirvm_outcome outcome = {0};
    memcpy(cells, it->begin, it->cell_count * sizeof *cells);
    tapirvm_run_threads(&it->kernel, workers, TAPIRVM_UNBOUNDED, &nobody, it->arguments, it->argument_count, cells, it->cell_count, &outcome);
    runs++;
    if (!is_serial(it, &outcome, cells)) differs(it, workers, "a run", &outcome);
}

/* The same in steps, with the schedule, which is replayed. */
static void replay(struct host_case *it, size_t workers, int64_t *cells) {
    static uint8_t schedule[1 << 20];
    struct tapirvm_crew crew = {0};
    struct tapirvm_outcome outcome = {0};
    size_t needed = 0;
    tapirvm_crew_open(&it->kernel, workers, TAPIRVM_UNBOUNDED, &nobody, it->arguments, it->argument_count, it->begin, it->cell_count, &outcome, &crew);
    if (outcome.status != TAPIRVM_DONE) return;
    uint32_t ended = tapirvm_crew_run(&crew), told = tapirvm_board_schedule(&crew.board, schedule, sizeof schedule, &needed);
    tapirvm_board_finish(&crew.board, cells, it->cell_count, &outcome);
    tapirvm_crew_close(&crew);
    if (ended != TAPIRVM_DONE || !is_serial(it, &outcome, cells)) differs(it, workers, "a run in steps", &outcome);
    if (told == TAPIRVM_LONG_SCHEDULE) return;
    replays++;
    memcpy(cells, it->begin, it->cell_count * sizeof *cells);
    tapirvm_replay(&it->kernel, it->arguments, it->argument_count, cells, it->cell_count, workers, schedule, needed, &outcome);
    if (told != TAPIRVM_DONE || !is_serial(it, &outcome, cells)) differs(it, workers, "its schedule", &outcome);
}

int main(int count, char **words) {
    if (count < 4) return 2;
    long times = strtol(words[1], NULL, 10), schedules = strtol(words[2], NULL, 10), cases = 0;
    for (struct host_case it; next_case(stdin, &it); end_case(&it), cases++) {
        int64_t *cells = new_cells(it.cell_count);
        for (int k = 3; k < count; k++) {
            size_t workers = strtoull(words[k], NULL, 10);
            for (long time = 0; time < times; time++) run(&it, workers, cells);
            for (long time = 0; time < schedules; time++) replay(&it, workers, cells);
        }
        free(cells);
    }
    printf("%ld cases, %ld runs on threads, %ld schedules replayed, %ld differences\n", cases, runs, replays, wrong);
    return wrong != 0 || runs == 0 || (schedules > 0 && replays == 0);
}
