/* Stops from another thread, and runs that go on after a stop or with more fuel.
 *
 * Usage: stops LONG FILE ARGUMENT..
 * LONG is a module whose @main(n) takes n instructions of a parent and a child at the least, for n to 100,000,000,000. FILE is a kernel of some hundred
 * thousand instructions. */
#include "host_cases.h"
#include "tapirvm_threads.h"

#include <pthread.h>
#include <time.h>

/* a stop is heard within a tenth of a second: in one of so many tries, as others may have the processors meanwhile */
enum { TRIES = 8, MOST_OVER = 67000, PART = 20000 };

static const double MOST_SECONDS = 0.1;
static long asked, wrong;

static void want(const char *what, bool holds) {
    asked++;
    if (holds) return;
    printf("%s: not so\n", what);
    wrong++;
}

static double seconds(void) {
    struct timespec now;
    clock_gettime(CLOCK_MONOTONIC, &now);
    return (double)now.tv_sec + (double)now.tv_nsec / 1e9;
}

static void nap(long milliseconds) { nanosleep(&(struct timespec){.tv_nsec = milliseconds * 1000000}, NULL); }

/* Sets a stop after a while. */
struct setter {
    struct tapirvm_stop stop;
    long milliseconds;
    double at;
};

static void *set_later(void *given) {
    struct setter *setter = given;
    nap(setter->milliseconds);
    setter->at = seconds();
    tapirvm_stop_set(&setter->stop);
    tapirvm_stop_close(&setter->stop);
    return NULL;
}

/* How long a run of the long module goes on after its stop is set: serially on 0 workers. */
static double seconds_after_stop(struct tapirvm_handle *kernel, size_t workers) {
    struct tapirvm_stop stop = TAPIRVM_NOTHING;
    struct tapirvm_outcome outcome = {0};
    struct setter setter = {.milliseconds = 20};
    int64_t argument = INT64_C(100000000000), cells[1] = {0};
    pthread_t thread;
    if (tapirvm_stop_open(&stop) || tapirvm_stop_share(&stop, &setter.stop) || pthread_create(&thread, NULL, set_later, &setter)) exit(3);
    if (workers == 0) tapirvm_run(kernel, TAPIRVM_UNBOUNDED, &stop, &argument, 1, cells, 0, &outcome);
    else tapirvm_run_threads(kernel, workers, TAPIRVM_UNBOUNDED, &stop, &argument, 1, cells, 0, &outcome);
    double end = seconds();
    pthread_join(thread, NULL);
    want("a run is stopped", outcome.status == TAPIRVM_STOPPED && tapirvm_stop_is_set(&stop));
    tapirvm_stop_close(&stop);
    return end - setter.at;
}

static void stop_runs(const char *path) {
    struct tapirvm_handle kernel = TAPIRVM_NOTHING;
    static const size_t crews[] = {0, 1, 2, 4, 16};
    open_file(path, &kernel);
    for (size_t k = 0; k < sizeof crews / sizeof *crews; k++) {
        bool is_heard = false;
        for (int try = 0; try < TRIES && !is_heard; try++) is_heard = seconds_after_stop(&kernel, crews[k]) < MOST_SECONDS;
        want("a stop is heard within a tenth of a second", is_heard);
    }
    tapirvm_close(&kernel);
}

/* Serial runs of the case whose fuel is spent among its first or its last instructions: in the middle of blocks, between two that are one code, at borders. */
static void cut_short(struct host_case *it) {
    struct tapirvm_stop nobody = TAPIRVM_NOTHING;
    struct tapirvm_outcome outcome = {0};
    int64_t *cells = new_cells(it->cell_count);
    uint64_t all = it->serial.instructions;
    memcpy(cells, it->begin, it->cell_count * sizeof *cells);
    for (uint64_t k = 0; k < 96 && k < all; k++) {
        uint64_t fuel = k < 48 ? k : all - (k - 47);
        tapirvm_run(&it->kernel, fuel, &nobody, it->arguments, it->argument_count, cells, it->cell_count, &outcome);
        want("with less fuel than it does there is no answer", outcome.status == TAPIRVM_OUT_OF_FUEL);
        want("and cells are kept", memcmp(cells, it->begin, it->cell_count * sizeof *cells) == 0);
    }
    tapirvm_run(&it->kernel, all, &nobody, it->arguments, it->argument_count, cells, it->cell_count, &outcome);
    want("with as much as it does there is one", is_serial(it, &outcome, cells));
    free(cells);
}

/* A run of the case that gets its fuel in parts. */
static void go_on_with_fuel(struct host_case *it, size_t workers) {
    struct tapirvm_stop nobody = TAPIRVM_NOTHING;
    struct tapirvm_outcome outcome = {0};
    struct tapirvm_crew crew = {0};
    int64_t *cells = new_cells(it->cell_count);
    uint64_t granted = PART;
    uint32_t status;
    long parts = 0;
    tapirvm_crew_open(&it->kernel, workers, PART, &nobody, it->arguments, it->argument_count, it->begin, it->cell_count, &outcome, &crew);
    while ((status = tapirvm_crew_run(&crew)) == TAPIRVM_OUT_OF_FUEL && parts < 1000000) {
        tapirvm_board_finish(&crew.board, cells, it->cell_count, &outcome);
        want("out of fuel, and not at the end", outcome.status == TAPIRVM_NOT_ENDED);
        want("as much is done as was granted", outcome.instructions >= granted);
        want("and what one meeting brought beyond it", outcome.instructions <= granted + MOST_OVER);
        tapirvm_board_fuel(&crew.board, PART);
        granted += PART;
        parts++;
    }
    tapirvm_board_finish(&crew.board, cells, it->cell_count, &outcome);
    want("it goes on in parts", parts > 2);
    want("to the serial answer", status == TAPIRVM_DONE && is_serial(it, &outcome, cells));
    tapirvm_crew_close(&crew);
    memcpy(cells, it->begin, it->cell_count * sizeof *cells);
    tapirvm_run_threads(&it->kernel, workers, PART, &nobody, it->arguments, it->argument_count, cells, it->cell_count, &outcome);
    want("without more fuel there is no answer", outcome.status == TAPIRVM_OUT_OF_FUEL);
    want("and cells are kept", memcmp(cells, it->begin, it->cell_count * sizeof *cells) == 0);
    tapirvm_run_threads(&it->kernel, workers, it->serial.instructions, &nobody, it->arguments, it->argument_count, cells, it->cell_count, &outcome);
    want("with as much fuel as it does there is one", is_serial(it, &outcome, cells));
    free(cells);
}

/* A run of the case that is stopped again and again. */
static void go_on_after_stops(struct host_case *it, size_t workers) {
    struct tapirvm_stop stop = TAPIRVM_NOTHING, own = TAPIRVM_NOTHING;
    struct tapirvm_outcome outcome = {0};
    struct tapirvm_crew crew = {0};
    int64_t *cells = new_cells(it->cell_count);
    uint32_t status;
    long stops = 0;
    if (tapirvm_stop_open(&own) || tapirvm_stop_share(&own, &stop)) exit(3);
    tapirvm_stop_set(&own);
    tapirvm_crew_open(&it->kernel, workers, TAPIRVM_UNBOUNDED, &stop, it->arguments, it->argument_count, it->begin, it->cell_count, &outcome, &crew);
    while ((status = tapirvm_crew_run(&crew)) == TAPIRVM_STOPPED && stops < 1000) {
        struct setter setter = {.milliseconds = 1};
        pthread_t thread;
        tapirvm_stop_clear(&own);
        stops++;
        if (stops < 5 && tapirvm_stop_share(&own, &setter.stop) == TAPIRVM_DONE && pthread_create(&thread, NULL, set_later, &setter) == 0) {
            status = tapirvm_crew_run(&crew);
            pthread_join(thread, NULL);
            if (status == TAPIRVM_DONE) break;
        }
    }
    tapirvm_board_finish(&crew.board, cells, it->cell_count, &outcome);
    want("it is stopped, and goes on", stops > 0);
    want("to the serial answer", status == TAPIRVM_DONE && is_serial(it, &outcome, cells));
    tapirvm_crew_close(&crew);
    tapirvm_stop_close(&stop);
    tapirvm_stop_close(&own);
    free(cells);
}

int main(int count, char **words) {
    if (count < 3 || count - 3 > MOST_ARGUMENTS) return 2;
    char line[1024];
    int length = snprintf(line, sizeof line, "%s %d", words[2], count - 3);
    for (int k = 3; k < count; k++) length += snprintf(line + length, sizeof line - (size_t)length, " %s", words[k]);
    snprintf(line + length, sizeof line - (size_t)length, " 0\n");
    FILE *list = fmemopen(line, strlen(line), "r");
    struct host_case it;
    if (list == NULL || !next_case(list, &it)) return 2;
    fclose(list);
    stop_runs(words[1]);
    cut_short(&it);
    for (size_t workers = 1; workers <= 8; workers *= 2) {
        go_on_with_fuel(&it, workers);
        go_on_after_stops(&it, workers);
    }
    end_case(&it);
    printf("%ld facts of stops and fuel, %ld not so\n", asked, wrong);
    return wrong != 0;
}
