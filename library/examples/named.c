/* Threads that name their own locks and places while they run: nothing is numbered before, and no thread waits for
 * another to number it. Two clerks of a store move goods between two shelves, the second one in the opposite direction.
 * The run ends well, as the second clerk begins when the first one is done; no event tells so, and another run
 * deadlocks.
 *
 *     cc -Ilibrary library/examples/named.c prebuilt/libgoodlock.a -lpthread -o named
 *     ./named
 */
#include "goodlock_names.h"

#include <pthread.h>
#include <sched.h>
#include <semaphore.h>
#include <stdio.h>

enum { CLERKS = 2, ROUNDS = 100, RING = 64 };

/* A lock needs no number beside it: its address is enough. */
struct shelf {
    pthread_mutex_t mutex;
    int goods;
};

struct clerk {
    goodlock_lane lane;
    struct shelf *from, *to;
    sem_t *may_begin, *is_done;
};

static goodlock_names locks, places; /* all zero until main opens them */

static void check(uint32_t code)
{
    if (code != GOODLOCK_OK) {
        fprintf(stderr, "named: %s\n", goodlock_says(code));
        exit(1);
    }
}

/* Records an event, as soon as there is room for it. */
static void record(goodlock_lane *lane, uint32_t kind, struct shelf *shelf, const char *place)
{
    uint32_t lock, number, at, code;
    check(goodlock_names_at(&locks, shelf, (const uint8_t *)"shelf", 5, &lock));
    check(goodlock_names_literal(&places, place, &number));
    while ((code = goodlock_record(lane, kind, lock, number, &at)) == GOODLOCK_FULL)
        sched_yield(); /* until the collecting thread pulls */
    check(code);
}

static void take(goodlock_lane *lane, struct shelf *shelf, const char *place)
{
    record(lane, GOODLOCK_ACQUIRE, shelf, place);
    pthread_mutex_lock(&shelf->mutex);
}

static void give(goodlock_lane *lane, struct shelf *shelf, const char *place)
{
    record(lane, GOODLOCK_RELEASE, shelf, place);
    pthread_mutex_unlock(&shelf->mutex);
}

/* Packs a parcel in a box that is there for this call only: another lock each time, at the same address. */
static void pack(goodlock_lane *lane, struct shelf *shelf)
{
    struct shelf box = {PTHREAD_MUTEX_INITIALIZER, 0};
    take(lane, &box, GOODLOCK_LINE);
    take(lane, shelf, GOODLOCK_LINE);
    shelf->goods--;
    box.goods++;
    give(lane, shelf, GOODLOCK_LINE);
    give(lane, &box, GOODLOCK_LINE);
    pthread_mutex_destroy(&box.mutex);
    goodlock_names_forget(&locks, &box);
}

static void *work(void *argument)
{
    struct clerk *clerk = argument;
    uint32_t code;
    sem_wait(clerk->may_begin);
    for (int i = 0; i < ROUNDS; i++) {
        take(&clerk->lane, clerk->from, "move, from");
        take(&clerk->lane, clerk->to, "move, to");
        clerk->from->goods--;
        clerk->to->goods++;
        give(&clerk->lane, clerk->to, "move, end");
        give(&clerk->lane, clerk->from, "move, end");
        if (i % 10 == 0)
            pack(&clerk->lane, clerk->to);
    }
    while ((code = goodlock_close(&clerk->lane)) == GOODLOCK_FULL)
        sched_yield();
    check(code);
    sem_post(clerk->is_done);
    return NULL;
}

/* Tells the session what was named, and prints the report of all that was recorded. */
static void print_report(goodlock_session *session)
{
    goodlock_report report = {0};
    uint32_t told_locks = 0, told_places = 0;
    uint8_t text[1000];
    size_t size;
    check(goodlock_settled_report(session, GOODLOCK_FULL_MODE, 4, 1000, &report));
    check(goodlock_tell_locks(session, &locks, &told_locks));
    check(goodlock_tell_places(session, &places, &told_places));
    check(goodlock_text(session, &report, text, sizeof text, &size));
    if (size > sizeof text)
        check(GOODLOCK_RANGE);
    fwrite(text, 1, size, stdout);
    printf("locks: %u, places: %u\n", told_locks, told_places);
    goodlock_report_free(&report);
}

int main(void)
{
    struct shelf left = {PTHREAD_MUTEX_INITIALIZER, 1000}, right = {PTHREAD_MUTEX_INITIALIZER, 1000};
    struct shelf *const shelves[] = {&left, &right};
    goodlock_session session = {0};
    goodlock_pulled pulled;
    pthread_t threads[CLERKS];
    struct clerk clerks[CLERKS] = {{{0}, 0, 0, 0, 0}};
    sem_t turns[CLERKS + 1];
    uint32_t number, missing;
    for (int i = 0; i <= CLERKS; i++)
        sem_init(&turns[i], 0, i == 0); /* the first clerk may begin */
    check(goodlock_names_open(100, &locks));
    check(goodlock_names_open(100, &places));
    check(goodlock_open(1, CLERKS, RING, &session));
    for (int i = 0; i < CLERKS; i++) {
        clerks[i] = (struct clerk){{0}, shelves[i], shelves[1 - i], &turns[i], &turns[i + 1]};
        check(goodlock_lane_open(&session, &clerks[i].lane, &number));
    }
    for (int i = 0; i < CLERKS; i++)
        pthread_create(&threads[i], NULL, work, &clerks[i]);

    for (uint32_t ended = 0; ended < CLERKS; ended += pulled.ended) { /* main collects */
        check(goodlock_pull(&session, CLERKS * RING, &pulled)); /* what all rings hold: nobody waits for another */
        if (pulled.events == 0)
            sched_yield();
    }
    for (int i = 0; i < CLERKS; i++) {
        pthread_join(threads[i], NULL);
        check(goodlock_hand_in(&session, &clerks[i].lane));
    }
    check(goodlock_settle(&session, &missing));
    print_report(&session);
    goodlock_session_free(&session);
    goodlock_names_free(&locks);
    goodlock_names_free(&places);
    return left.goods + right.goods == 2000 - CLERKS * ROUNDS / 10 ? 0 : 1;
}
