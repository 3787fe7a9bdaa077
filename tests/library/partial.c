/* What comes of sessions in which not all is recorded: where a lane was full and events were left out, and where
 * threads go from one session to the next. docs/EMBEDDING.md says what a program does then.
 *
 *     library_partial scenes     sections that are left out, locks and threads from a session before
 *     library_partial full       a release that has no room is recorded before the thread's next event
 *
 * What isn't as it has to be is told on standard output; the last line is how many checks passed and failed. */
#include "checks.h"
#include "goodlock.h"

#include <stdio.h>
#include <string.h>

enum { THREADS = 2 };

/* Steps of a settled session, as "0+a": the thread's number, what it does, and the lock's or the other thread's name.
 * + acquires, - releases, = releases what isn't held, ? tries, % tries as a reader, / acquires as a reader, < joins. */
static const struct scene {
    const char *name;
    const char *steps;
    size_t cycles;
} scenes[] = {
    /* Thread 0 holds a before b, and thread 1 holds b and a together. */
    {"all is recorded", "0+a 0-a 0+b 0-b 1+b 1+a 1-a 1-b", 0},
    {"a release is left out: a deadlock that can't happen", "0+a 0+b 0-b 1+b 1+a 1-a 1-b", 1},
    {"an acquire and its release are left out", "0+b 0-b 1+b 1+a 1-a 1-b", 0},
    /* g keeps the two from deadlocking. */
    {"all is recorded, with a gate", "0+g 0+a 0+b 0-b 0-a 0-g 1+g 1+b 1+a 1-a 1-b 1-g", 0},
    {"the gate alone is left out: a deadlock that can't happen", "0+a 0+b 0-b 0-a 1+g 1+b 1+a 1-a 1-b 1-g", 1},
    {"what is within the gate is left out with it", "1+g 1+b 1+a 1-a 1-b 1-g", 0},
    {"what is within the gate is left out alone", "0+g 0-g 1+g 1+b 1+a 1-a 1-b 1-g", 0},
    /* Thread 0 has a from the session before. */
    {"a lock from before isn't told: the cycle isn't seen", "0+b 0-b 0=a 1+b 1+a 1-a 1-b", 0},
    {"a lock from before is told by a try", "0?a 0+b 0-b 0-a 1+b 1+a 1-a 1-b", 1},
    {"it was acquired twice and is told once", "0?a 0-a 0+b 0-b 0=a 1+b 1+a 1-a 1-b", 0},
    {"it was acquired twice and is told twice", "0?a 0?a 0-a 0+b 0-b 0-a 1+b 1+a 1-a 1-b", 1},
    {"a reader's lock from before", "0%a 0+b 0-b 0-a 1+b 1+a 1-a 1-b", 1},
    {"a reader's lock from before, and another reader", "0%a 0+b 0-b 0-a 1+b 1/a 1-a 1-b", 0},
    {"a gate from before isn't told: a deadlock that can't happen", "0+a 0+b 0-b 0-a 0=g 1+g 1+b 1+a 1-a 1-b 1-g", 1},
    {"a gate from before is told by a try", "0?g 0+a 0+b 0-b 0-a 0-g 1+g 1+b 1+a 1-a 1-b 1-g", 0},
    /* The same cycle with a part in either session. */
    {"the first session has the one part", "0+a 1+b 1+a 1-a 1-b", 0},
    {"the second session has the other part", "0?a 0+b 0-b 0-a", 0},
    {"both parts are in one session", "0+a 0+b 0-b 0-a 1+b 1+a 1-a 1-b", 1},
    /* Thread 1 has ended before thread 0 goes on. */
    {"the join is in the session before: a deadlock that can't happen", "1+b 1+a 1-a 1-b 0+a 0+b 0-b 0-a", 1},
    {"the join is in the session of both", "1+b 1+a 1-a 1-b 0<1 0+a 0+b 0-b 0-a", 0},
};
enum { SCENES = sizeof scenes / sizeof *scenes };

static uint32_t locks_number(char name)
{
    return (uint32_t)(name - 'a');
}

static uint32_t take(goodlock_lane *lane, const char *step)
{
    const uint32_t lock = locks_number(step[2]);
    switch (step[1]) {
    case '+':
        return goodlock_acquire(lane, lock, 0);
    case '/':
        return goodlock_acquire_shared(lane, lock, 0);
    case '?':
        return goodlock_try_acquire(lane, lock, 0);
    case '%':
        return goodlock_try_acquire_shared(lane, lock, 0);
    case '-':
        return goodlock_release(lane, lock, 0);
    case '=':
        return goodlock_release(lane, lock, 0) == GOODLOCK_NOT_HELD ? GOODLOCK_OK : GOODLOCK_BROKEN;
    default:
        return goodlock_join(lane, (uint32_t)(step[2] - '0'), 0);
    }
}

static void begin(goodlock_session *session, goodlock_lane *lanes, uint32_t ring)
{
    static uint64_t last;
    uint32_t thread;
    session->at = NULL;
    expect("open", goodlock_open(++last, THREADS, ring, session), GOODLOCK_OK);
    for (uint32_t i = 0; i < THREADS; i++) {
        lanes[i].at = NULL;
        expect("lane", goodlock_lane_open(session, &lanes[i], &thread), GOODLOCK_OK);
    }
}

/* Settles the session; how many cycles its report has. */
static size_t end(goodlock_session *session, goodlock_lane *lanes)
{
    goodlock_report report = {NULL};
    goodlock_pulled pulled;
    uint32_t missing;
    size_t cycles = 99;
    bool more;
    for (uint32_t i = 0; i < THREADS; i++) {
        expect("close", goodlock_close(&lanes[i]), GOODLOCK_OK);
        expect("pull", goodlock_pull(session, 1000, &pulled), GOODLOCK_OK);
        expect("hand_in", goodlock_hand_in(session, &lanes[i]), GOODLOCK_OK);
    }
    expect("settle", goodlock_settle(session, &missing), GOODLOCK_OK);
    expect("report", goodlock_settled_report(session, GOODLOCK_FULL_MODE, 4, 10, &report), GOODLOCK_OK);
    expect("cycles", goodlock_cycles(&report, &cycles, &more), GOODLOCK_OK);
    goodlock_report_free(&report);
    goodlock_session_free(session);
    return cycles;
}

static void play_scenes(void)
{
    for (uint32_t i = 0; i < SCENES; i++) {
        goodlock_session session;
        goodlock_lane lanes[THREADS];
        const char *step = scenes[i].steps;
        size_t cycles;
        char text[200];
        begin(&session, lanes, 100);
        for (; step != NULL; step = strchr(step, ' ')) {
            step += *step == ' ';
            expect(scenes[i].name, take(&lanes[*step - '0'], step), GOODLOCK_OK);
        }
        cycles = end(&session, lanes);
        snprintf(text, sizeof text, "%s: %zu cycles, and %zu are right", scenes[i].name, cycles, scenes[i].cycles);
        check(cycles == scenes[i].cycles, text);
    }
}

static void record(goodlock_session *session, goodlock_lane *lane, const char *step)
{
    goodlock_pulled pulled;
    expect(step, take(lane, step), GOODLOCK_OK);
    expect("pull", goodlock_pull(session, 10, &pulled), GOODLOCK_OK);
}

/* The lane of thread 0 is full when it releases a. The release is recorded before its next event, or it never is. */
static size_t release_later(bool is_kept)
{
    static const char *const others[] = {"1+b", "1+a", "1-a", "1-b"};
    goodlock_session session;
    goodlock_lane lanes[THREADS];
    goodlock_pulled pulled;
    begin(&session, lanes, 1);
    expect("an acquire", take(&lanes[0], "0+a"), GOODLOCK_OK);
    expect("a release without room", take(&lanes[0], "0-a"), GOODLOCK_FULL);
    for (uint32_t i = 0; i < 4; i++)
        record(&session, &lanes[1], others[i]);
    expect("pull", goodlock_pull(&session, 10, &pulled), GOODLOCK_OK);
    if (is_kept)
        record(&session, &lanes[0], "0-a");
    record(&session, &lanes[0], "0+b");
    record(&session, &lanes[0], "0-b");
    return end(&session, lanes);
}

int main(int count, char **arguments)
{
    const char *const word = count == 2 ? arguments[1] : "";
    if (strcmp(word, "scenes") == 0) {
        play_scenes();
    } else if (strcmp(word, "full") == 0) {
        check(release_later(true) == 0, "a release that is recorded before the next event: no cycle");
        check(release_later(false) == 1, "a release that is left out: a cycle");
    } else {
        fputs("library_partial scenes|full\n", stderr);
        return 2;
    }
    printf("%u passed, %u failed\n", passed, failed);
    return failed == 0 ? 0 : 1;
}
