/* The threads and the lock of a run, by POSIX. Nothing here is proved, and nothing here can make an answer wrong: see tapirvm_threads.h. */
#include "tapirvm_threads.h"

#include <pthread.h>
#include <sched.h>
#include <signal.h>
#include <stdatomic.h>
#include <string.h>
#include <time.h>

/* An idle worker pauses so often, then yields so often, then sleeps for at most a millisecond: to be woken takes longer than some hundred pauses. */
enum { LOCK_TRIES = 24, IDLE_PAUSES = 64, IDLE_YIELDS = 256, NAP_NANOSECONDS = 1000000 };

struct run {
    struct tapirvm_crew *crew;
    pthread_mutex_t lock; /* of the board, of `sleepers` and of `status` */
    pthread_cond_t bell;
    size_t sleepers;
    uint32_t status;   /* why the run is over */
    atomic_uint rings; /* counts offers, and the end */
    atomic_bool is_over;
};

struct seat {
    struct run *run;
    size_t number;
    pthread_t thread;
    bool has_thread;
    bool is_alone; /* of the first one: the others, which stand behind it, have no threads yet */
};

static void pause_for(unsigned turns) {
    for (unsigned turn = 0; turn < turns; turn++) {
#if defined(__x86_64__) || defined(__i386__)
        __builtin_ia32_pause();
#else
        atomic_signal_fence(memory_order_seq_cst);
#endif
    }
}

/* The lock is held for some microseconds at most, so it is tried for a while before the thread sleeps. */
static void take(struct run *run) {
    for (unsigned tries = 0; tries < LOCK_TRIES; tries++) {
        if (pthread_mutex_trylock(&run->lock) == 0) return;
        pause_for(tries < 5 ? 1u << tries : 32);
    }
    pthread_mutex_lock(&run->lock);
}

/* Under the lock: so many sleepers look at the board again. */
static void ring(struct run *run, size_t offered) {
    atomic_fetch_add(&run->rings, 1);
    for (size_t k = 0; k < offered && k < run->sleepers; k++) pthread_cond_signal(&run->bell);
}

/* Under the lock: nobody begins anything more. The first reason stands. */
static void end(struct run *run, uint32_t status) {
    if (!atomic_exchange(&run->is_over, true)) run->status = status;
    ring(run, run->sleepers);
}

static void leave(struct run *run, uint32_t status) {
    take(run);
    end(run, status);
    pthread_mutex_unlock(&run->lock);
}

/* The worker meets the board, and sleepers hear what it offers. */
static uint32_t meet(struct run *run, size_t number, size_t *offered) {
    struct tapirvm_worker *worker = &run->crew->workers[number];
    *offered = 0;
    take(run);
    uint32_t status = worker->live ? TAPIRVM_DONE : tapirvm_worker_open(&run->crew->board, (uint8_t)number, worker);
    if (status == TAPIRVM_DONE) status = tapirvm_meet(&run->crew->board, worker, offered);
    if (*offered > 0) ring(run, *offered);
    if (status != TAPIRVM_WORK && status != TAPIRVM_IDLE) end(run, status);
    pthread_mutex_unlock(&run->lock);
    return status;
}

static bool has_news(struct run *run, unsigned heard) { return atomic_load(&run->rings) != heard; }

/* Sleeps until tasks are offered, but not for long. */
static void nap(struct run *run, unsigned heard) {
    struct timespec end;
    clock_gettime(CLOCK_MONOTONIC, &end);
    end.tv_nsec += NAP_NANOSECONDS;
    if (end.tv_nsec >= 1000000000) end.tv_sec++, end.tv_nsec -= 1000000000;
    take(run);
    run->sleepers++;
    if (!has_news(run, heard)) pthread_cond_timedwait(&run->bell, &run->lock, &end);
    run->sleepers--;
    pthread_mutex_unlock(&run->lock);
}

/* Until tasks are offered, or for a while. */
static void rest(struct run *run, unsigned heard) {
    for (int k = 0; k < IDLE_PAUSES + IDLE_YIELDS; k++) {
        if (has_news(run, heard)) return;
        if (k < IDLE_PAUSES) pause_for(16);
        else sched_yield();
    }
    nap(run, heard);
}

static void *work(void *given);

/* The workers behind the first one get their threads. Signals are for the host's own. One that has begun something has to go on; of the others there may
 * be fewer. */
static void start_others(struct seat *seats) {
    struct tapirvm_crew *crew = seats->run->crew;
    sigset_t all, before;
    seats->is_alone = false;
    sigfillset(&all);
    pthread_sigmask(SIG_SETMASK, &all, &before);
    for (size_t k = 1; k < crew->count; k++) {
        bool has_begun = crew->workers[k].live;
        seats[k] = (struct seat){.run = seats->run, .number = k};
        seats[k].has_thread = pthread_create(&seats[k].thread, NULL, work, &seats[k]) == 0;
        if (has_begun && !seats[k].has_thread) leave(seats->run, TAPIRVM_OUT_OF_MEMORY);
    }
    pthread_sigmask(SIG_SETMASK, &before, NULL);
}

static void *work(void *given) {
    struct seat *seat = given;
    struct run *run = seat->run;
    while (!atomic_load(&run->is_over)) {
        unsigned heard = atomic_load(&run->rings);
        size_t offered;
        uint32_t status = meet(run, seat->number, &offered);
        if (seat->is_alone && offered > 0) start_others(seat);
        if (status == TAPIRVM_IDLE) rest(run, heard);
        if (status == TAPIRVM_WORK && (status = tapirvm_turn(&run->crew->workers[seat->number])) != TAPIRVM_DONE) leave(run, status);
    }
    return NULL;
}

/* Whether another worker than the first has begun something: in a run that goes on. */
static bool is_shared(const struct tapirvm_crew *crew) {
    for (size_t k = 1; k < crew->count; k++)
        if (crew->workers[k].live) return true;
    return false;
}

uint32_t tapirvm_crew_run(struct tapirvm_crew *crew) {
    if (crew->count == 0) return TAPIRVM_CLOSED;
    struct run run = {.crew = crew};
    struct seat seats[TAPIRVM_MOST_WORKERS] = {{.run = &run, .is_alone = true}};
    pthread_condattr_t clock;
    pthread_mutex_init(&run.lock, NULL);
    pthread_condattr_init(&clock);
    pthread_condattr_setclock(&clock, CLOCK_MONOTONIC);
    pthread_cond_init(&run.bell, &clock);
    pthread_condattr_destroy(&clock);
    if (is_shared(crew)) start_others(seats);
    work(seats);
    for (size_t k = 1; k < crew->count; k++)
        if (seats[k].has_thread) pthread_join(seats[k].thread, NULL);
    pthread_cond_destroy(&run.bell);
    pthread_mutex_destroy(&run.lock);
    return run.status;
}

void tapirvm_crew_open(struct tapirvm_handle *handle, size_t workers, uint64_t fuel, struct tapirvm_stop *stop, const int64_t *arguments,
                       size_t argument_count, const int64_t *cells, size_t cell_count, struct tapirvm_outcome *outcome, struct tapirvm_crew *crew) {
    tapirvm_crew_close(crew);
    tapirvm_board_open(handle, fuel, stop, arguments, argument_count, cells, cell_count, workers, outcome, &crew->board);
    crew->count = outcome->status == TAPIRVM_DONE ? workers : 0;
}

void tapirvm_crew_close(struct tapirvm_crew *crew) {
    for (size_t k = 0; k < crew->count; k++) tapirvm_worker_close(&crew->workers[k]);
    tapirvm_board_close(&crew->board);
    crew->count = 0;
}

void tapirvm_run_threads(struct tapirvm_handle *handle, size_t workers, uint64_t fuel, struct tapirvm_stop *stop, const int64_t *arguments,
                         size_t argument_count, int64_t *cells, size_t cell_count, struct tapirvm_outcome *outcome) {
    struct tapirvm_crew crew = {.count = 0};
    tapirvm_crew_open(handle, workers, fuel, stop, arguments, argument_count, cells, cell_count, outcome, &crew);
    if (outcome->status != TAPIRVM_DONE) return;
    uint32_t status = tapirvm_crew_run(&crew);
    tapirvm_board_finish(&crew.board, cells, cell_count, outcome);
    if (outcome->status == TAPIRVM_NOT_ENDED) outcome->status = status;
    tapirvm_crew_close(&crew);
}
