/* Times the calls of goodlock.h and goodlock_names.h, beside a mutex that no other thread wants, and prints a table;
 * with a number that row alone, from 0. bench/library.sh says how it is run.
 *
 * Each row is measured in a process of its own. In one process a row would tell of those before it: lists that grow
 * are copied once malloc has given memory back to the system, and grow in place before. */
#include "goodlock_names.h"

#include <malloc.h>
#include <pthread.h>
#include <sched.h>
#include <stdatomic.h>
#include <stdio.h>
#include <stdlib.h>
#include <sys/wait.h>
#include <time.h>
#include <unistd.h>

enum { PAIRS = 2000000, ALONE = 1000, ALONE_ROUNDS = 500, TOGETHER = 500000 };

static void check(uint32_t code)
{
    if (code != GOODLOCK_OK) {
        fprintf(stderr, "library.c: %s\n", goodlock_says(code));
        exit(1);
    }
}

static double now(void)
{
    struct timespec time;
    clock_gettime(CLOCK_MONOTONIC, &time);
    return (double)time.tv_sec * 1e9 + (double)time.tv_nsec;
}

static uint64_t next_session(void)
{
    static uint64_t last;
    return ++last;
}

static void open_one(goodlock_session *session, goodlock_lane *lane, uint32_t ring)
{
    uint32_t thread;
    session->at = lane->at = NULL;
    check(goodlock_open(next_session(), 1, ring, session));
    check(goodlock_lane_open(session, lane, &thread));
}

static void close_one(goodlock_session *session, goodlock_lane *lane)
{
    goodlock_lane_free(lane);
    goodlock_session_free(session);
}

static void pull_all(goodlock_session *session)
{
    goodlock_pulled pulled;
    do
        check(goodlock_pull(session, 100000, &pulled));
    while (pulled.events > 0);
}

static double mutex_pair(int pairs)
{
    pthread_mutex_t mutex = PTHREAD_MUTEX_INITIALIZER;
    const double start = now();
    for (int i = 0; i < pairs; i++) {
        pthread_mutex_lock(&mutex);
        pthread_mutex_unlock(&mutex);
    }
    return (now() - start) / pairs;
}

static int is_longer(const void *one, const void *other)
{
    const double a = *(const double *)one, b = *(const double *)other;
    return (a > b) - (a < b);
}

static double median(double *times, int count)
{
    qsort(times, (size_t)count, sizeof *times, is_longer);
    return times[count / 2];
}

static size_t memory(void)
{
    const struct mallinfo2 now = mallinfo2();
    return now.uordblks + now.hblkhd;
}

/* Acquires and releases of one more lock by a thread that holds so many, and pulls of both: nanoseconds, what is kept,
 * and the mutex pair. Each round has all of them. A record and a pair are the medians of the rounds, which other
 * programs don't change; a pull is the mean, as now and then it has a list that grows. */
static void record_alone(uint32_t others)
{
    static double recording[ALONE_ROUNDS], pair[ALONE_ROUNDS];
    goodlock_session session;
    goodlock_lane lane;
    goodlock_pulled pulled;
    double pulling = 0, kept;
    size_t before;
    open_one(&session, &lane, 2 * ALONE + 100);
    for (uint32_t lock = 1; lock <= others; lock++)
        check(goodlock_acquire(&lane, lock, 0));
    pull_all(&session);
    before = memory();
    for (int i = 0; i < ALONE_ROUNDS; i++) {
        double start = now();
        for (int k = 0; k < ALONE; k++) {
            check(goodlock_acquire(&lane, 0, 0));
            check(goodlock_release(&lane, 0, 0));
        }
        recording[i] = (now() - start) / (2 * ALONE);
        pair[i] = mutex_pair(ALONE);
        start = now();
        check(goodlock_pull_lane(&session, 0, 2 * ALONE, &pulled));
        pulling += now() - start;
        if (pulled.events != 2 * ALONE)
            check(GOODLOCK_BROKEN);
    }
    kept = (double)(memory() - before);
    close_one(&session, &lane);
    printf("| %u other locks held: a record, nobody pulls; a pull of it; what the session keeps of it; beside them the "
           "mutex pair | %.0f ns; %.0f ns; %.0f bytes; %.0f ns |\n",
           others, median(recording, ALONE_ROUNDS), pulling / ALONE_ROUNDS / (2 * ALONE),
           kept / ALONE_ROUNDS / (2 * ALONE), median(pair, ALONE_ROUNDS));
}

/* ---- With a collector beside it */

struct beside {
    goodlock_session *session;
    _Atomic bool is_over;
    unsigned sleep; /* nanoseconds while there is nothing to pull; 0: yield */
};

static void *collect(void *argument)
{
    struct beside *beside = argument;
    goodlock_pulled pulled;
    while (!beside->is_over) {
        check(goodlock_pull(beside->session, 4096, &pulled));
        if (pulled.events == 0 && beside->sleep > 0)
            nanosleep(&(struct timespec){0, beside->sleep}, NULL);
        else if (pulled.events == 0)
            sched_yield();
    }
    return NULL;
}

static void work(double nanoseconds)
{
    if (nanoseconds > 0)
        for (const double end = now() + nanoseconds; now() < end;)
            ;
}

/* Pairs of a lock and an unlock with so much work between them: nanoseconds of a pair, waits for room. */
static double paced(goodlock_lane *lane, double pace, unsigned long *waits)
{
    pthread_mutex_t mutex = PTHREAD_MUTEX_INITIALIZER;
    const int pairs = pace > 0 ? TOGETHER / 4 : TOGETHER;
    const double start = now();
    for (int i = 0; i < pairs; i++) {
        if (lane != NULL)
            for (; goodlock_acquire(lane, 0, 0) == GOODLOCK_FULL; ++*waits)
                sched_yield();
        pthread_mutex_lock(&mutex);
        if (lane != NULL)
            for (; goodlock_release(lane, 0, 0) == GOODLOCK_FULL; ++*waits)
                sched_yield();
        pthread_mutex_unlock(&mutex);
        work(pace);
    }
    return (now() - start) / pairs;
}

/* The least of three, with the mutex pair between them. */
static void record_beside(const char *name, double pace, uint32_t ring, unsigned sleep)
{
    double plain = 1e9, recorded = 1e9, pair = 1e9;
    unsigned long waits = 0;
    for (int round = 0; round < 3; round++) {
        goodlock_session session;
        goodlock_lane lane;
        struct beside beside = {.session = &session, .sleep = sleep};
        pthread_t collector;
        unsigned long waited = 0;
        const double alone = paced(NULL, pace, &waited), mutex = mutex_pair(TOGETHER);
        double together;
        open_one(&session, &lane, ring);
        pthread_create(&collector, NULL, collect, &beside);
        together = paced(&lane, pace, &waited);
        beside.is_over = true;
        pthread_join(collector, NULL);
        close_one(&session, &lane);
        plain = alone < plain ? alone : plain;
        pair = mutex < pair ? mutex : pair;
        if (together < recorded) {
            recorded = together;
            waits = waited;
        }
    }
    printf("| %s, a ring of %u; beside it the mutex pair | %.0f ns more for a pair, %lu waits for room; %.0f ns |\n",
           name, ring, recorded - plain, waits, pair);
}

/* ---- Memory and reports */

static void bytes_of_a_lane(uint32_t ring)
{
    goodlock_session session = {NULL};
    const size_t before = memory();
    check(goodlock_open(next_session(), 64, ring, &session));
    printf("| a lane with a ring of %u | %.1f KB |\n", ring, (double)(memory() - before) / 64 / 1000);
    goodlock_session_free(&session);
}

static void report_over(uint32_t events)
{
    goodlock_session session;
    goodlock_lane lane;
    goodlock_report report = {NULL};
    double start;
    open_one(&session, &lane, 65536);
    for (uint32_t i = 0; i < events / 4; i++) {
        check(goodlock_acquire(&lane, i % 100, 0));
        check(goodlock_acquire(&lane, 100 + i % 99, 0));
        check(goodlock_release(&lane, 100 + i % 99, 0));
        check(goodlock_release(&lane, i % 100, 0));
        if (i % 10000 == 0)
            pull_all(&session);
    }
    pull_all(&session);
    start = now();
    check(goodlock_report_so_far(&session, GOODLOCK_FULL_MODE, 4, 1000, &report));
    printf("| the report so far of %u events | %.1f ms |\n", events, (now() - start) / 1e6);
    goodlock_report_free(&report);
    close_one(&session, &lane);
}

/* ---- Numbers of names */

enum { NAMES = 100, NAMED = 20000 };

/* Mentions of so many names that are known, in turn: nanoseconds of each by its address, as a literal, by its bytes;
 * the least of three, with the mutex pair between them. */
static void names_known(void)
{
    static char literals[NAMES][24];
    static pthread_mutex_t mutexes[NAMES];
    double least[4] = {1e9, 1e9, 1e9, 1e9};
    goodlock_names names = {NULL};
    uint32_t number, sum = 0;
    check(goodlock_names_open(3 * NAMES, &names));
    for (int i = 0; i < NAMES; i++)
        snprintf(literals[i], sizeof literals[i], "source/bank.c:%d", 1000 + i); /* 18 bytes */
    for (int round = 0; round < 3; round++) {
        double start[5];
        start[0] = now();
        for (int i = 0; i < NAMES * NAMED; i++) {
            check(goodlock_names_at(&names, &mutexes[i % NAMES], (const uint8_t *)"account", 7, &number));
            sum += number;
        }
        start[1] = now();
        for (int i = 0; i < NAMES * NAMED; i++) {
            check(goodlock_names_literal(&names, literals[i % NAMES], &number));
            sum += number;
        }
        start[2] = now();
        for (int i = 0; i < NAMES * NAMED; i++) {
            check(goodlock_names_of(&names, (const uint8_t *)literals[i % NAMES], 18, &number));
            sum += number;
        }
        start[3] = now();
        start[4] = start[3] + mutex_pair(PAIRS) * NAMES * NAMED;
        for (int way = 0; way < 4; way++) {
            const double taken = (start[way + 1] - start[way]) / (NAMES * NAMED);
            least[way] = taken < least[way] ? taken : least[way];
        }
    }
    if (goodlock_names_count(&names) != 2 * NAMES || sum == 0)
        check(GOODLOCK_BROKEN);
    goodlock_names_free(&names);
    printf("| the number of a name that is known: by an address; a literal; 18 bytes; beside them the mutex pair "
           "| %.1f ns; %.1f ns; %.1f ns; %.1f ns |\n",
           least[0], least[1], least[2], least[3]);
}

/* ---- The table */

enum { ROWS = 14 };

static void measure(int row)
{
    switch (row) {
    case 0:
        printf("| an uncontended pthread mutex, locked and unlocked | %.0f ns |\n", mutex_pair(PAIRS));
        break;
    case 1:
        record_alone(0);
        break;
    case 2:
        record_alone(1);
        break;
    case 3:
        record_alone(2);
        break;
    case 4:
        record_alone(32);
        break;
    case 5:
        record_alone(63);
        break;
    case 6:
        record_beside("lock and unlock at full speed, a collector beside it", 0, 4096, 20000);
        break;
    case 7:
        record_beside("with 1 microsecond of work, a collector that sleeps 20 microseconds", 1000, 256, 20000);
        break;
    case 8:
        record_beside("with 1 microsecond of work, a collector that sleeps 20 microseconds", 1000, 4096, 20000);
        break;
    case 9:
        record_beside("with 1 microsecond of work, a collector that yields", 1000, 4096, 0);
        break;
    case 10:
        bytes_of_a_lane(256);
        break;
    case 11:
        bytes_of_a_lane(4096);
        break;
    case 12:
        report_over(2000000);
        break;
    case 13:
        names_known();
        break;
    default:
        fprintf(stderr, "library.c: rows are 0 to %d\n", ROWS - 1);
        exit(2);
    }
}

static void *idle(void *argument)
{
    for (;;)
        pause();
    return argument;
}

/* Until a process has a second thread, glibc's mutexes and malloc go without atomic operations, and a mutex pair takes
 * much less. Only programs with threads record deadlocks, so whatever is measured has a thread beside it that does
 * nothing. */
static void start_idle_thread(void)
{
    pthread_t thread;
    if (pthread_create(&thread, NULL, idle, NULL) != 0) {
        perror("library.c: pthread_create");
        exit(1);
    }
}

/* Runs this program for one row; whether that ended well. */
static bool run_row(const char *program, int row)
{
    char number[12];
    int status = 0;
    pid_t child;
    snprintf(number, sizeof number, "%d", row);
    fflush(stdout);
    child = fork();
    if (child == 0) {
        execl("/proc/self/exe", program, number, (char *)NULL);
        _exit(127);
    }
    return child > 0 && waitpid(child, &status, 0) == child && WIFEXITED(status) && WEXITSTATUS(status) == 0;
}

int main(int count, char **words)
{
    if (count == 2) {
        start_idle_thread();
        measure(atoi(words[1]));
        return 0;
    }
    puts("| What | Measured |\n|---|---|");
    for (int row = 0; row < ROWS; row++)
        if (!run_row(words[0], row)) {
            fprintf(stderr, "library.c: row %d isn't measured\n", row);
            return 1;
        }
    return 0;
}
