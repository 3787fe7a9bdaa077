/* goodlock.h: predicts deadlocks of the running program, from the locks that its threads take.
 *
 * A session has a lane for each thread that is recorded. The thread records its events into its lane, which never waits
 * and takes no memory; one collecting thread pulls them off all lanes while the program runs. From what was pulled
 * comes a report of the deadlocks that another schedule of the same events could lead to: so far, at any time, or
 * settled, once every lane was closed and handed in, when no event is missing. It lists cycles, or findings: cycles
 * that were made at the same places are one finding.
 *
 *     goodlock_session session = {0};                           // the collecting thread
 *     goodlock_open(1, 2, 256, &session);
 *     goodlock_lane lane = {0};
 *     goodlock_lane_open(&session, &lane, &thread);             // .. one for each thread, given to it
 *     goodlock_lock(&session, "savings", 7, &savings);          // once for each lock; keep the number beside it
 *     goodlock_place(&session, "bank.c:10", 9, &place);         // once for each place in the source
 *
 *     goodlock_acquire(&lane, savings, place);                  // the thread whose lane it is
 *     pthread_mutex_lock(&mutex);
 *     ..
 *     goodlock_release(&lane, savings, place);
 *     pthread_mutex_unlock(&mutex);
 *     goodlock_close(&lane);                                    // at its end
 *
 *     goodlock_pull(&session, 1000, &pulled);                   // the collecting thread, again and again
 *     goodlock_report_so_far(&session, GOODLOCK_FULL_MODE, 4, 1000, &report);
 *     goodlock_text(&session, &report, buffer, sizeof buffer, &needed);
 *
 * (Names are `const uint8_t *`: bytes of any kind.) Whole programs of this kind are in library/examples/, a wrapper for
 * C++ in goodlock.hpp, numbers for names on any thread in goodlock_names.h, and docs/EMBEDDING.md goes from the link
 * line to the report.
 *
 * ---- When an event is recorded
 *
 * acquire   BEFORE the call that may wait for the lock: a run that hangs then has its deadlock in the lists. Where the
 *           call fails, record a release.
 * try       AFTER an attempt that succeeded and couldn't have waited for ever (trylock, a timed lock).
 * release   beside the call that gives the lock up, before it or after it: only the order of the thread's own events
 *           counts.
 * fork      before the thread starts.
 * join      after the thread was waited for.
 * A wait for a condition is a release of its mutex and an acquire, both before the wait.
 *
 * ---- What the caller promises
 *
 * What a call answers, and that it never touches memory that isn't its own, holds where (a build with -DGOODLOCK_DEBUG
 * checks most of it: goodlock_debug.h):
 * - A handle is all zero before the call that opens it, and then changed by these calls alone. It may be moved to
 *   another place in memory, but is never copied for a second use: the old bytes are dead.
 * - A handle is given to one call at a time. Where it goes from one thread to another, something orders the two
 *   calls: a lock, a join, the start of a thread. Two threads may be in calls on different handles at once.
 * - Each session of a process is opened with a number of its own.
 * - No call is made from a signal handler, or in the child of a fork(), which has a part of the threads only: it
 *   calls _exit or exec.
 * - A wrapper of the memory allocator doesn't record: goodlock_pull and others take memory, and would come back to it.
 * - A pointer that is handed over isn't null (nor where its size is 0), and stands for as many bytes as are said.
 *   What is written to overlaps with nothing else that is handed over.
 *
 * What isn't recorded isn't seen: a lock that is taken past these calls, a fork or join that isn't told. Of an acquire
 * that is left out its release is left out, too, and with them whatever the thread acquires between the two. Without a
 * release, without a lock that others are recorded within, and without a fork or join the report may list a deadlock
 * that can't happen.
 *
 * ---- What it costs
 *
 * goodlock_record   a look through the at most 64 locks that the thread holds, and one push into its ring: tens of
 *                   nanoseconds. It never waits, takes no memory and makes no system call.
 * goodlock_pull     the same look, and two lists that grow: some 60 nanoseconds for an event at most. It takes memory
 *                   for what it keeps: 38 bytes for each event, and up to twice that where a list has just grown.
 *
 * So a session grows as long as it runs. A lane takes 4 KB, and 16 bytes for each note of its ring. bench/library.sh
 * measures these. What the other calls cost is said of each. */
#ifndef GOODLOCK_H
#define GOODLOCK_H

#include <stddef.h>
#include <stdint.h>
#ifndef __cplusplus
#include <stdbool.h>
#endif

#ifdef __cplusplus
extern "C" {
#endif

/* ---- Handles. Each is one pointer, which is the library's alone: all zero before it is opened and after it is freed.
 */

/* The collector, the names, and the lanes that were handed in. One thread at a time works with it: the collecting
 * thread. */
typedef struct goodlock_session {
    void *at;
} goodlock_session;

/* The recorder of one thread; after goodlock_close its receipt, to be handed in. */
typedef struct goodlock_lane {
    void *at;
} goodlock_lane;

/* A report that was made. It doesn't change any more. */
typedef struct goodlock_report {
    void *at;
} goodlock_report;

/* ---- What a call answers (a uint32_t). goodlock_says has words for it. Unless a call says otherwise, what it would
   write is as it was where it doesn't answer OK. */
enum {
    GOODLOCK_OK = 0,
    GOODLOCK_MEMORY = 1,  /* memory was refused; nothing was done, unless the call says what stands */
    GOODLOCK_FULL = 2,    /* the lane has no room: nothing was done; call again once the session has pulled */
    GOODLOCK_MISUSE = 3,  /* not a handle that this call works on: never opened, freed, closed, settled, or in use */
    GOODLOCK_RANGE = 4,   /* a number is out of its range */
    GOODLOCK_NO_LANE = 5, /* all lanes were given out */
    GOODLOCK_UNCONFIRMED = 6,   /* the session was freed before the lane was closed */
    GOODLOCK_STRANGE = 7,       /* the lane is of another session, or of a thread whose lane was handed in already */
    GOODLOCK_MISSING = 8,       /* a thread's lane was not handed in, or not all of it was pulled */
    GOODLOCK_BROKEN = 9,        /* the next note of a lane may not come next: not where handles were used as promised */
    GOODLOCK_INCONSISTENT = 10, /* forks and joins order a part of a thread before itself */
    GOODLOCK_NAMES = 11,        /* there are as many names as there may be: 4,294,967,295 */
    GOODLOCK_UNNAMED = 12,      /* a lock or a place has no name */
    /* Refusals of an event, in the order in which they are tried: nothing was recorded. */
    GOODLOCK_EVENTS_FULL = 20,    /* the thread has as many events as there may be: 4,000,000,000 */
    GOODLOCK_NO_SUCH_THREAD = 21, /* a fork or join of a thread that the session doesn't have */
    GOODLOCK_ON_ITSELF = 22,      /* a fork or join of the thread itself */
    GOODLOCK_NOT_HELD = 23,       /* a release of a lock that the thread doesn't hold */
    GOODLOCK_HELD_FULL = 24,      /* an acquire of one more lock where the thread holds 64 */
    GOODLOCK_DEPTH_FULL = 25,     /* an acquire of a lock that the thread has acquired 1,000,000 times */
    GOODLOCK_UPGRADE = 26         /* an exclusive acquire of a lock that the thread holds in shared mode */
};

/* ---- Kinds of event. The operand is a lock's number, or a thread's for the last two.
   A lock may be acquired again while it is held, and stays held in the mode of the outermost acquire; a release of
   either mode takes one acquire back. */
enum {
    GOODLOCK_ACQUIRE = 0, /* recorded before the call that may wait */
    GOODLOCK_ACQUIRE_SHARED = 1,
    GOODLOCK_RELEASE = 2, /* recorded before the call that gives the lock up, or after it */
    GOODLOCK_RELEASE_SHARED = 3,
    GOODLOCK_TRY_ACQUIRE = 4, /* recorded after a try that succeeded */
    GOODLOCK_TRY_ACQUIRE_SHARED = 5,
    GOODLOCK_FORK = 6, /* recorded before the thread starts */
    GOODLOCK_JOIN = 7  /* recorded after the thread was waited for */
};

/* ---- Modes of a report: which lists of edges count as a deadlock (docs/RULES.md). */
enum {
    GOODLOCK_BASIC = 0,    /* every cycle of threads of which each wants what the next one holds */
    GOODLOCK_GUARDED = 1,  /* without those that a lock held by two of them makes impossible */
    GOODLOCK_FULL_MODE = 2 /* and without those whose parts forks and joins keep apart */
};

/* What a pull did. */
typedef struct goodlock_pulled {
    uint32_t events; /* events that were pulled */
    uint32_t ended;  /* end marks of lanes that were pulled */
} goodlock_pulled;

/* ---- The session. These calls are made one at a time for a session, by whichever thread: the collecting one,
   or under a lock of yours. They wait for nobody. */

/* Opens a session with lanes for `threads` threads (1 to 1,024), each with a ring of `ring` notes (1 to
   65,536): what a thread may be ahead of the collecting one. `number` tells sessions of one process apart:
   never the same one twice. All the memory that threads record into is taken here. A step for each slot of the rings.
   OK: free it in the end. RANGE, MEMORY, MISUSE (*session isn't all zero): *session is as it was. */
uint32_t goodlock_open(uint64_t number, uint32_t threads, uint32_t ring, goodlock_session *session);

/* Gives out the lane of the next thread, and the thread's number: 0, 1, .. in the order of these calls. Reports
   name the threads T0, T1, .. by it. The lane is yours to hand to the thread, and to free where it isn't handed
   in. A lane is given out once: one that was handed in isn't given out again, so `threads` is how many threads the
   session has in its life. A few steps, and 1.7 KB of memory more for the lane, until it is handed in or freed.
   OK, NO_LANE, MEMORY, MISUSE (the session isn't open, or *lane isn't all zero). */
uint32_t goodlock_lane_open(goodlock_session *session, goodlock_lane *lane, uint32_t *thread);

/* The number of the lock with this name: a new one for a new name, 0, 1, .. in the order in which they were
   told, and the same one for a name that was told before. The name is copied. Locks in a program often have no
   names: make one of what they are of, as "account 17". A lock of a number that was given no name is recorded
   like any other, and has an empty name in reports. A text prints a name's bytes as they are, so one with a line end
   in it looks like two lines there; JSON escapes it. Numbers order the edges of a report: where two runs shall list
   the same cycles in the same order, number locks in an order that doesn't change between runs, or ask for the report
   by mention.
   OK, NAMES, MEMORY, MISUSE. A step for each byte of the name. */
uint32_t goodlock_lock(goodlock_session *session, const uint8_t *name, size_t length, uint32_t *lock);

/* The same for places in the source, which have numbers of their own: "bank.c:10". Number a place once, not at
   each pass. */
uint32_t goodlock_place(goodlock_session *session, const uint8_t *name, size_t length, uint32_t *place);

/* Pulls at most `most` notes (events and end marks) off the lanes, each lane in turn from thread 0, and off
   none more than its ring holds: with `most` the rings of all lanes, or more, a busy one doesn't keep the others
   waiting. (With less it may, for as long as it is busy: then pull off lane after lane by goodlock_pull_lane.)
   *pulled says how many of either, in every case; none at all, where it answers OK and `most` isn't 0: each
   lane was empty when its turn came, or has ended. What it costs is said above; a lane that is empty is a look.
   OK. MEMORY: what was pulled before stands, nothing is lost; call again. BROKEN: what was pulled before stands. The
   note stays in its lane, so that each later call that comes to it answers BROKEN, and comes to no lane behind it.
   Which lane that is goodlock_pull_lane tells of each thread, and still pulls off the others. Reports are of what was
   pulled; the session can't be settled any more. MISUSE. */
uint32_t goodlock_pull(goodlock_session *session, uint32_t most, goodlock_pulled *pulled);

/* The same off one thread's lane: at most `most` notes, also more than its ring holds where the thread goes on. A note
   costs what it costs goodlock_pull, in steps and in memory; it doesn't look at other lanes.
   RANGE: there is no such thread. */
uint32_t goodlock_pull_lane(goodlock_session *session, uint32_t thread, uint32_t most, goodlock_pulled *pulled);

/* Makes the report of all that was pulled so far: its mode, the greatest length of a cycle (2 to 16), and the
   most cycles that it lists (1 to 100,000). It may list a cycle that the settled report drops, as where the
   join that keeps two threads apart comes later. The session is as it was, and threads may record meanwhile; but
   nobody pulls while it is made, so a ring holds what a thread records for as long, or is full. It costs what a run of
   `goodlock predict` costs on that much.
   OK: free the report in the end. RANGE, MEMORY, MISUSE (*report isn't all zero, or the session isn't open or is
   settled): *report is as it was. INCONSISTENT: the same, in each mode: a thread joined another one before it was
   forked, say. Of which thread that is isn't told, and as what was pulled stays, each later report of the session
   answers so. */
uint32_t goodlock_report_so_far(goodlock_session *session, uint32_t mode, uint32_t length, uint32_t number,
                                goodlock_report *report);

/* The same, of findings: at most `number` of them are listed, in place of cycles. A finding is all cycles whose edges
   were made at the same pairs of places, one after the other round the cycle, whatever their threads and locks, and is
   shown by the first of these cycles: so it is what somebody has to look at, where threads that run the same code over
   many locks have thousands of cycles. Two places are the same where they have one number. Such a report is printed,
   counted and freed as others are. It costs what a run of `goodlock predict --findings` costs on that much: with many
   pairs of places it may be far more than cycles cost, the more the greater `length` is (docs/USAGE.md). Answers as
   goodlock_report_so_far. */
uint32_t goodlock_findings_so_far(goodlock_session *session, uint32_t mode, uint32_t length, uint32_t number,
                                  goodlock_report *report);

/* Takes back a lane that was closed. A look at each lane that was handed in before, and 48 bytes of memory, or up to
   twice that where the list of them has just grown; the 1.7 KB of the lane are given back.
   OK: the lane is all zero. MISUSE (a lane that isn't closed, or a session that is settled, too), MEMORY, STRANGE: it
   is as it was. */
uint32_t goodlock_hand_in(goodlock_session *session, goodlock_lane *lane);

/* Settles the session: each of its lanes was given out, closed, pulled to its end mark, and handed in. (Lanes that
   nobody used, too: open, close, pull and hand in what is left, until goodlock_lane_open answers NO_LANE. A lane whose
   thread never starts is closed by who has it.) For each lane a look at those that were handed in, so about a
   million for 1,024 threads, whatever they recorded. It takes no memory, and gives back the rings where it answers OK.
   OK: nothing that the threads recorded is missing; the session records no more, and answers
   goodlock_settled_report. MISSING: *thread is the first one whose lane wasn't handed in, or else the first one
   that wasn't pulled to its end; *thread is written with MISSING only. STRANGE, MISUSE. Unless OK the session is as it
   was. */
uint32_t goodlock_settle(goodlock_session *session, uint32_t *thread);

/* The report of a settled session: of all that its threads recorded. Answers as goodlock_report_so_far does, but MISUSE
   where the session isn't settled. */
uint32_t goodlock_settled_report(goodlock_session *session, uint32_t mode, uint32_t length, uint32_t number,
                                 goodlock_report *report);

/* The same, of findings. Costs and answers as goodlock_findings_so_far does, but MISUSE where the session isn't
   settled. */
uint32_t goodlock_settled_findings(goodlock_session *session, uint32_t mode, uint32_t length, uint32_t number,
                                   goodlock_report *report);

/* The report of a settled session, with locks and places numbered by first mention: thread 0's list first, event by
   event, then thread 1's, and so on; each new name gets the next number, of an event its lock's before its place's. So
   where the threads of two runs did the same, by names, the two reports are the same, in whichever order the names were
   told. (Names that tell equal ones apart by a run's own order, as goodlock_names.h makes "shelf" and "shelf#2", may be
   swapped in another run, and in its report.) The report keeps its names: it is printed by them. A step for each event
   and for each byte of a name more than goodlock_settled_report.
   OK, RANGE, INCONSISTENT, MEMORY, MISUSE as above. UNNAMED: a number of a lock or of a place was recorded that was
   given no name (that alone: it is told before memory is asked for); *report is as it was. */
uint32_t goodlock_report_by_mention(goodlock_session *session, uint32_t mode, uint32_t length, uint32_t number,
                                    goodlock_report *report);

/* The same, of findings, as goodlock_findings_so_far has them. Answers as goodlock_report_by_mention. */
uint32_t goodlock_findings_by_mention(goodlock_session *session, uint32_t mode, uint32_t length, uint32_t number,
                                      goodlock_report *report);

/* The text of a report of this session, as `goodlock predict` prints it, or of findings `goodlock predict --findings`,
   in `buffer` of `size` bytes: all of it where *needed <= size, else nothing. *needed is its length in bytes; there is
   no zero at the end. (With size 0 it asks for the length; the buffer isn't null then either: a byte of yours will do.)
   Names that are told after the report are known, too. The session was not freed, also where the report has its own
   names. A step for each byte of the text, also where it doesn't fit: it is made in memory of its own, of up to three
   times its length, which is given back before the call returns. Of findings the text tells how many threads and locks
   there are at their places: each edge of the report is looked at for that, in a finding or not, and 40 to 140 bytes
   for each are taken and given back, too.
   OK (also where it didn't fit), MEMORY, MISUSE. */
uint32_t goodlock_text(goodlock_session *session, goodlock_report *report, uint8_t *buffer, size_t size,
                       size_t *needed);

/* The same as one line of JSON, as `goodlock predict --json` prints it, or of findings `goodlock predict --findings
   --json`: docs/report.schema.json, formats 2 and 3. It has each edge of the report, in a cycle or not, so it may be
   long where there are no cycles. A step for each byte, and some 24 requests for memory for each edge, about ten times
   as much as the line is long, which is given back before the call returns. */
uint32_t goodlock_json(goodlock_session *session, goodlock_report *report, uint8_t *buffer, size_t size,
                       size_t *needed);

/* How many cycles the report lists, or findings, and whether there are more. One step, and no memory. No session is
   asked: this call and goodlock_report_free are made on any thread, one at a time for a report, while others work with
   the session and after it was freed.
   OK, MISUSE. */
uint32_t goodlock_cycles(goodlock_report *report, size_t *cycles, bool *more);

/* Give back what a handle has; it is all zero then, and may be opened again. One that is all zero already stays
   so. A session may be freed while threads record: their calls go on answering, a record FULL in the end and for ever,
   and a close UNCONFIRMED. Whoever waits for room for an event asks something of its own whether the session is still
   there. A lane may be freed at any time; the session can't be settled then.
   They take no memory. A session: a step for each thread and for each name; a lane: a few steps. Of a session that is
   freed and a lane of it that is closed or freed the later call takes a step for each note that is left in the ring,
   too, and gives that back. A report: a step for each of its edges and of its cycles. What the allocator and the system
   do with long lists comes on top. */
void goodlock_session_free(goodlock_session *session);
void goodlock_lane_free(goodlock_lane *lane);
void goodlock_report_free(goodlock_report *report);

/* ---- The lane. These calls are made on the thread whose lane it is (or one at a time: see the promises). They
   never wait, take no memory and make no system call, but for a close that answers UNCONFIRMED. */

/* Records the thread's next event. *at is its place in the thread's list: how many were recorded before. Where the
   event may not come next, and where there is no room, it is the place that it would have had; RANGE and MISUSE
   leave *at as it was.
   OK. RANGE (the kind), a refusal: the event may not come next. FULL. MISUSE. Unless OK nothing was recorded.
   What may not come next is tried before whether there is room. FULL: record it again before the thread's next event,
   once the session has pulled; or leave it out with all that is said above: a release is never left out alone. */
uint32_t goodlock_record(goodlock_lane *lane, uint32_t kind, uint32_t operand, uint32_t place, uint32_t *at);

/* Ends the recording.
   OK: the thread records no more; hand the lane in. FULL: call again once the session has pulled. UNCONFIRMED: the
   session is gone, whether there was room or not, and the thread records no more; free the lane. The ring is given back
   then: a step for each note that is left in it, and what the allocator and the system do with it. MISUSE. */
uint32_t goodlock_close(goodlock_lane *lane);

#ifdef __cplusplus
}
#endif

#ifdef GOODLOCK_DEBUG /* the calls above and below check what their caller promised */
#include "goodlock_debug.h"
#endif

/* ---- In short: goodlock_record with each kind. */

/* Before the call that may wait for the lock. */
static inline uint32_t goodlock_acquire(goodlock_lane *lane, uint32_t lock, uint32_t place)
{
    uint32_t at = 0;
    return goodlock_record(lane, GOODLOCK_ACQUIRE, lock, place, &at);
}

/* Before the call that may wait for the lock as a reader. */
static inline uint32_t goodlock_acquire_shared(goodlock_lane *lane, uint32_t lock, uint32_t place)
{
    uint32_t at = 0;
    return goodlock_record(lane, GOODLOCK_ACQUIRE_SHARED, lock, place, &at);
}

/* After a try that succeeded. */
static inline uint32_t goodlock_try_acquire(goodlock_lane *lane, uint32_t lock, uint32_t place)
{
    uint32_t at = 0;
    return goodlock_record(lane, GOODLOCK_TRY_ACQUIRE, lock, place, &at);
}

/* After a try as a reader that succeeded. */
static inline uint32_t goodlock_try_acquire_shared(goodlock_lane *lane, uint32_t lock, uint32_t place)
{
    uint32_t at = 0;
    return goodlock_record(lane, GOODLOCK_TRY_ACQUIRE_SHARED, lock, place, &at);
}

/* Before the call that gives the lock up, or after it. */
static inline uint32_t goodlock_release(goodlock_lane *lane, uint32_t lock, uint32_t place)
{
    uint32_t at = 0;
    return goodlock_record(lane, GOODLOCK_RELEASE, lock, place, &at);
}

/* Before the call that gives a reader's lock up, or after it. */
static inline uint32_t goodlock_release_shared(goodlock_lane *lane, uint32_t lock, uint32_t place)
{
    uint32_t at = 0;
    return goodlock_record(lane, GOODLOCK_RELEASE_SHARED, lock, place, &at);
}

/* Before the thread of this number starts. */
static inline uint32_t goodlock_fork(goodlock_lane *lane, uint32_t thread, uint32_t place)
{
    uint32_t at = 0;
    return goodlock_record(lane, GOODLOCK_FORK, thread, place, &at);
}

/* After the thread of this number was waited for. */
static inline uint32_t goodlock_join(goodlock_lane *lane, uint32_t thread, uint32_t place)
{
    uint32_t at = 0;
    return goodlock_record(lane, GOODLOCK_JOIN, thread, place, &at);
}

/* What an answer means, in words: where a line of a trace is refused for the same, in those of docs/USAGE.md. */
static inline const char *goodlock_says(uint32_t code)
{
    switch (code) {
    case GOODLOCK_OK:
        return "done";
    case GOODLOCK_MEMORY:
        return "out of memory";
    case GOODLOCK_FULL:
        return "the lane is full until the session pulls";
    case GOODLOCK_MISUSE:
        return "the handle isn't one that this call works on";
    case GOODLOCK_RANGE:
        return "a number is out of its range";
    case GOODLOCK_NO_LANE:
        return "all lanes were given out";
    case GOODLOCK_UNCONFIRMED:
        return "the session is gone";
    case GOODLOCK_STRANGE:
        return "the lane isn't one that this session waits for";
    case GOODLOCK_MISSING:
        return "a thread's lane isn't handed in or not pulled to its end";
    case GOODLOCK_BROKEN:
        return "a note may not come next: a handle was used twice at once";
    case GOODLOCK_INCONSISTENT:
        return "forks and joins order a part of a thread before itself";
    case GOODLOCK_NAMES:
        return "too many names";
    case GOODLOCK_UNNAMED:
        return "a lock or a place has no name";
    case GOODLOCK_EVENTS_FULL:
        return "too many events";
    case GOODLOCK_NO_SUCH_THREAD:
        return "there is no such thread";
    case GOODLOCK_ON_ITSELF:
        return "thread forks or joins itself";
    case GOODLOCK_NOT_HELD:
        return "the thread doesn't hold the lock";
    case GOODLOCK_HELD_FULL:
        return "too many locks held";
    case GOODLOCK_DEPTH_FULL:
        return "lock taken too often";
    case GOODLOCK_UPGRADE:
        return "shared lock taken exclusively";
    default:
        return "no answer of goodlock";
    }
}

#endif
