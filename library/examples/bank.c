/* A bank that predicts its own deadlock: two threads move money between two accounts, in opposite directions. The run
 * ends well, as the second thread starts when the first one is done; no event tells so, and another run deadlocks.
 *
 *     cc -Ilibrary library/examples/bank.c prebuilt/libgoodlock.a -lpthread -o bank
 *     ./bank
 */
#define _POSIX_C_SOURCE 200809L /* nanosleep, with -std=c11, too */
#include "goodlock.h"

#include <pthread.h>
#include <sched.h>
#include <semaphore.h>
#include <stdio.h>
#include <stdlib.h>
#include <string.h>
#include <time.h>

enum { MAIN, SAVER, SPENDER, THREADS };
enum { RING = 256 };

/* A lock has its number beside it. */
struct account {
    pthread_mutex_t mutex;
    uint32_t lock;
    int balance;
};

struct teller {
    goodlock_lane *lane;
    struct account *from, *to;
    sem_t *is_done;
};

static struct account savings = {PTHREAD_MUTEX_INITIALIZER, 0, 100};
static struct account current = {PTHREAD_MUTEX_INITIALIZER, 0, 100};
static uint32_t first_place, second_place, end_place, start_place, wait_place;

static void check(uint32_t code)
{
    if (code != GOODLOCK_OK) {
        fprintf(stderr, "bank: %s\n", goodlock_says(code));
        exit(1);
    }
}

/* Records an event, as soon as there is room for it. */
static void record(goodlock_lane *lane, uint32_t kind, uint32_t operand, uint32_t place)
{
    uint32_t at, code;
    while ((code = goodlock_record(lane, kind, operand, place, &at)) == GOODLOCK_FULL)
        sched_yield(); /* until the collecting thread pulls */
    check(code);
}

/* The wrappers: an acquire is recorded before the call that may wait, a release before the lock is given up. */
static void take(goodlock_lane *lane, struct account *account, uint32_t place)
{
    record(lane, GOODLOCK_ACQUIRE, account->lock, place);
    pthread_mutex_lock(&account->mutex);
}

static void give(goodlock_lane *lane, struct account *account, uint32_t place)
{
    record(lane, GOODLOCK_RELEASE, account->lock, place);
    pthread_mutex_unlock(&account->mutex);
}

static void transfer(goodlock_lane *lane, struct account *from, struct account *to, int amount)
{
    take(lane, from, first_place);
    take(lane, to, second_place);
    from->balance -= amount;
    to->balance += amount;
    give(lane, to, end_place);
    give(lane, from, end_place);
}

static void close_lane(goodlock_lane *lane)
{
    uint32_t code;
    while ((code = goodlock_close(lane)) == GOODLOCK_FULL)
        sched_yield();
    check(code);
}

static void *tell(void *argument)
{
    struct teller *teller = argument;
    for (int i = 0; i < 1000; i++)
        transfer(teller->lane, teller->from, teller->to, i % 2 ? -1 : 1);
    close_lane(teller->lane);
    sem_post(teller->is_done);
    return NULL;
}

/* The collecting thread: pulls until every lane has ended, with short sleeps while all are empty. A pull may take what
 * all rings hold, so that a busy thread keeps no other one waiting. */
static void *collect(void *argument)
{
    goodlock_session *session = argument;
    goodlock_pulled pulled;
    for (uint32_t ended = 0; ended < THREADS; ended += pulled.ended) {
        check(goodlock_pull(session, THREADS * RING, &pulled));
        if (pulled.events == 0)
            nanosleep(&(struct timespec){0, 20000}, NULL);
    }
    return NULL;
}

static uint32_t place(goodlock_session *session, const char *name)
{
    uint32_t number;
    check(goodlock_place(session, (const uint8_t *)name, strlen(name), &number));
    return number;
}

static void name_all(goodlock_session *session)
{
    check(goodlock_lock(session, (const uint8_t *)"savings", 7, &savings.lock));
    check(goodlock_lock(session, (const uint8_t *)"current", 7, &current.lock));
    first_place = place(session, "transfer, first");
    second_place = place(session, "transfer, second");
    end_place = place(session, "transfer, end");
    start_place = place(session, "main, start");
    wait_place = place(session, "main, wait");
}

/* Prints the report of all that was recorded. */
static void print_report(goodlock_session *session)
{
    goodlock_report report = {0};
    uint8_t none, *text;
    size_t size;
    check(goodlock_settled_report(session, GOODLOCK_FULL_MODE, 4, 1000, &report));
    check(goodlock_text(session, &report, &none, 0, &size));
    text = malloc(size);
    if (text == NULL)
        check(GOODLOCK_MEMORY);
    check(goodlock_text(session, &report, text, size, &size));
    fwrite(text, 1, size, stdout);
    free(text);
    goodlock_report_free(&report);
}

int main(void)
{
    goodlock_session session = {0};
    goodlock_lane lanes[THREADS] = {{0}};
    pthread_t collector, threads[THREADS];
    sem_t is_done;
    struct teller tellers[THREADS] = {
        {0}, {&lanes[SAVER], &current, &savings, &is_done}, {&lanes[SPENDER], &savings, &current, &is_done}};
    uint32_t number, missing;
    sem_init(&is_done, 0, 0);
    check(goodlock_open(1, THREADS, RING, &session));
    name_all(&session);
    for (int i = 0; i < THREADS; i++)
        check(goodlock_lane_open(&session, &lanes[i], &number)); /* number is i */
    pthread_create(&collector, NULL, collect, &session);         /* the session is the collector's from here */

    for (uint32_t i = SAVER; i <= SPENDER; i++) {
        record(&lanes[MAIN], GOODLOCK_FORK, i, start_place);
        pthread_create(&threads[i], NULL, tell, &tellers[i]);
        sem_wait(&is_done);
    }
    for (uint32_t i = SAVER; i <= SPENDER; i++) {
        pthread_join(threads[i], NULL);
        record(&lanes[MAIN], GOODLOCK_JOIN, i, wait_place);
    }
    close_lane(&lanes[MAIN]);

    pthread_join(collector, NULL); /* .. and ours again */
    for (int i = 0; i < THREADS; i++)
        check(goodlock_hand_in(&session, &lanes[i]));
    check(goodlock_settle(&session, &missing));
    print_report(&session);
    goodlock_session_free(&session);
    return savings.balance + current.balance == 200 ? 0 : 1;
}
