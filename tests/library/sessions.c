/* Runs random sessions of goodlock.h in running threads, and compares each answer with an independent model.
 *
 *     library SEED FIRST LAST FOLDER
 *
 * Sessions FIRST to LAST - 1 of the seed. What each thread does is planned before: events of which a model in this file
 * says whether they may come next, or else by which code they are refused. The threads record all of it, into rings
 * that are often full, while the main thread pulls. What was pulled goes to FOLDER as a trace, NAME.std, and each
 * report of it as two files, NAME.text and NAME.json, what the library says. For a report a line on standard output has
 * its name, the trace's, `cycles` or `findings`, the mode, the length, the number, the code, how many are listed and
 * whether there are more. What isn't as it has to be is told on standard error; the status is 1 then. A session that
 * takes more than a minute ends the program by a signal.
 *
 * Reports list edges by the numbers of threads and locks, and a trace numbers both by first mention. So each trace
 * begins with a thread N that takes and releases each lock alone and forks each thread, in the order of their numbers:
 * it has no edge, and orders nothing among the others. In the trace of a report by mention it forks the threads alone.
 *
 * In some sessions threads hold as many locks as they may. Each acquire that may wait makes an edge for each of
 * them then, and each of these names all of them: a few of these sessions have such reports, of megabytes; in the
 * others most acquires are tried, which makes no edge, and names of locks are short. */
#include "goodlock.h"

#include <pthread.h>
#include <sched.h>
#include <stdarg.h>
#include <stdatomic.h>
#include <stdio.h>
#include <stdlib.h>
#include <string.h>
#include <unistd.h>

#define MAX_THREADS 64
#define MAX_LOCKS 80
#define MAX_PLACES 12
#define MAX_NAME 400

struct name {
    uint8_t bytes[MAX_NAME];
    size_t length;
};

struct event {
    uint32_t kind, operand, place;
    uint32_t code; /* what the model says */
};

struct list {
    struct event *events;
    size_t count, lawful;
};

/* What the model knows of a thread: depth and mode of each lock. */
struct model {
    uint32_t thread, threads;
    uint32_t depth[MAX_LOCKS];
    bool is_shared[MAX_LOCKS];
    unsigned held;
};

struct session {
    const char *folder;
    uint64_t number;
    uint32_t threads, ring, locks, places;
    uint32_t mode, length, most;
    enum { NO_LINKS, A_TREE, WILD } links;
    bool is_deep, is_ample, by_lane, is_idle; /* is_ample: not deep, or with a report of megabytes */
    struct name lock_names[MAX_LOCKS], place_names[MAX_PLACES];
    struct list lists[MAX_THREADS];
    goodlock_session handle;
    goodlock_lane lanes[MAX_THREADS];
    uint32_t pulled[MAX_THREADS]; /* where it is known */
    unsigned files;               /* traces and reports that have a name */
    size_t longest;               /* how long the longest text is so far */
};

static _Atomic unsigned faults;
static uint64_t state;

/* A fault, of which the first twenty are told. */
static void fault(const struct session *session, const char *format, ...)
{
    va_list words;
    if (atomic_fetch_add(&faults, 1) >= 20)
        return;
    va_start(words, format);
    fprintf(stderr, "session %llu: ", (unsigned long long)session->number);
    vfprintf(stderr, format, words);
    fputc('\n', stderr);
    va_end(words);
}

static void expect(const struct session *session, const char *what, uint32_t got, uint32_t right)
{
    if (got != right)
        fault(session, "%s answers %u (%s), and %u (%s) is right", what, got, goodlock_says(got), right,
              goodlock_says(right));
}

/* ---- Chance: splitmix64 */

static uint64_t next_random(uint64_t *at)
{
    uint64_t z = (*at += 0x9e3779b97f4a7c15U);
    z = (z ^ (z >> 30)) * 0xbf58476d1ce4e5b9U;
    z = (z ^ (z >> 27)) * 0x94d049bb133111ebU;
    return z ^ (z >> 31);
}

static uint32_t below(uint32_t limit)
{
    return (uint32_t)(next_random(&state) % limit);
}

static bool chance(uint32_t percent)
{
    return below(100) < percent;
}

/* ---- The model */

/* Whether the event may come next, which takes it, or why not. */
static uint32_t judge(struct model *model, uint32_t kind, uint32_t operand)
{
    const bool is_shared = kind == GOODLOCK_ACQUIRE_SHARED || kind == GOODLOCK_TRY_ACQUIRE_SHARED;
    switch (kind) {
    case GOODLOCK_FORK:
    case GOODLOCK_JOIN:
        if (operand >= model->threads)
            return GOODLOCK_NO_SUCH_THREAD;
        return operand == model->thread ? GOODLOCK_ON_ITSELF : GOODLOCK_OK;
    case GOODLOCK_RELEASE:
    case GOODLOCK_RELEASE_SHARED:
        if (model->depth[operand] == 0)
            return GOODLOCK_NOT_HELD;
        if (--model->depth[operand] == 0)
            model->held--;
        return GOODLOCK_OK;
    case GOODLOCK_ACQUIRE:
    case GOODLOCK_ACQUIRE_SHARED:
    case GOODLOCK_TRY_ACQUIRE:
    case GOODLOCK_TRY_ACQUIRE_SHARED:
        if (model->depth[operand] == 0 && model->held == 64)
            return GOODLOCK_HELD_FULL;
        if (model->depth[operand] > 0 && model->is_shared[operand] && !is_shared)
            return GOODLOCK_UPGRADE;
        if (model->depth[operand]++ == 0) {
            model->is_shared[operand] = is_shared;
            model->held++;
        }
        return GOODLOCK_OK;
    default:
        return GOODLOCK_RANGE;
    }
}

/* ---- The plan */

static uint32_t a_held_lock(const struct session *session, const struct model *model)
{
    uint32_t lock = below(session->locks);
    while (model->depth[lock] == 0)
        lock = (lock + 1) % session->locks;
    return lock;
}

static uint32_t an_acquire(const struct session *session)
{
    static const uint32_t kinds[] = {GOODLOCK_ACQUIRE,        GOODLOCK_ACQUIRE,     GOODLOCK_ACQUIRE,
                                     GOODLOCK_ACQUIRE_SHARED, GOODLOCK_TRY_ACQUIRE, GOODLOCK_TRY_ACQUIRE_SHARED};
    return !session->is_ample && chance(85) ? kinds[4 + below(2)] : kinds[below(6)];
}

/* An event of any kind, lawful or not. */
static void plan_any(const struct session *session, struct event *event)
{
    event->kind = chance(90) ? below(8) : chance(50) ? 8 + below(100) : UINT32_MAX - below(3);
    event->operand = event->kind < GOODLOCK_FORK ? below(session->locks) : below(session->threads + 2);
    if (event->kind >= GOODLOCK_FORK && session->links != WILD)
        event->operand = chance(50) ? session->threads + below(3) : UINT32_MAX - below(2);
}

static void plan_lawful(const struct session *session, const struct model *model, struct event *event)
{
    const uint32_t depth = session->is_deep ? 64 : 2 + below(4);
    if (session->links == WILD && chance(6)) {
        event->kind = chance(50) ? GOODLOCK_FORK : GOODLOCK_JOIN;
        event->operand = below(session->threads);
    } else if (model->held > 0 && (model->held >= depth ? chance(70) : chance(session->is_deep ? 5 : 40))) {
        event->kind = chance(70) ? GOODLOCK_RELEASE : GOODLOCK_RELEASE_SHARED;
        event->operand = a_held_lock(session, model);
    } else {
        event->kind = an_acquire(session);
        event->operand = below(session->locks);
    }
}

static void add(struct list *list, struct model *model, struct event event)
{
    event.code = judge(model, event.kind, event.operand);
    list->lawful += event.code == GOODLOCK_OK;
    list->events[list->count++] = event;
}

/* A fork or join of a tree in which each thread forks the ones of the double of its number, and joins some. */
static void plan_link(const struct session *session, struct list *list, struct model *model, uint32_t kind)
{
    for (uint32_t child = 2 * model->thread + 1; child <= 2 * model->thread + 2; child++)
        if (child < session->threads && (kind == GOODLOCK_FORK || chance(60)))
            add(list, model, (struct event){kind, child, below(session->places), 0});
}

static void plan_list(const struct session *session, uint32_t thread)
{
    struct list *list = (struct list *)&session->lists[thread];
    struct model model = {.thread = thread, .threads = session->threads};
    const size_t count = session->is_idle && chance(30) ? 0 : below(session->is_deep ? 300 : 50);
    const size_t fork_at = count ? below((uint32_t)count) : 0,
                 join_at = count ? fork_at + below((uint32_t)(count - fork_at)) : 0;
    list->events = calloc(count + 4, sizeof *list->events);
    for (size_t i = 0; i < count; i++) {
        struct event event = {.place = below(session->places)};
        if (session->links == A_TREE && i == fork_at)
            plan_link(session, list, &model, GOODLOCK_FORK);
        if (chance(8))
            plan_any(session, &event);
        else
            plan_lawful(session, &model, &event);
        add(list, &model, event);
        if (session->links == A_TREE && i == join_at)
            plan_link(session, list, &model, GOODLOCK_JOIN);
    }
}

/* A name that is no other's, of bytes that a trace can hold. */
static void plan_name(struct name *name, char sort, uint32_t number, bool is_ample)
{
    const char *const free = " abz09@#:;.,<>()[]\"\\'/\x01\x7f\x80\xc3\xa9\xff";
    name->length = (size_t)snprintf((char *)name->bytes, MAX_NAME, "%c%u", sort, number);
    if (!is_ample || chance(70))
        return;
    name->bytes[name->length++] = '.'; /* no digit, so that it is no other's name */
    for (uint32_t more = chance(90) ? below(12) : below(MAX_NAME - 20); more > 0; more--)
        name->bytes[name->length++] = (uint8_t)free[below((uint32_t)strlen(free))];
}

static void plan(struct session *session)
{
    session->is_deep = chance(5);
    session->is_ample = !session->is_deep || chance(10);
    session->threads = session->is_deep ? 1 + below(2) : chance(80) ? 1 + below(6) : 1 + below(MAX_THREADS);
    session->ring = chance(50) ? 1 + below(4) : 1 + below(256);
    session->locks = session->is_deep ? MAX_LOCKS : 1 + below(chance(50) ? 4 : 12);
    session->places = 1 + below(MAX_PLACES);
    session->mode = chance(60) ? GOODLOCK_FULL_MODE : below(2);
    session->length = session->is_deep || session->threads > 16 ? 2 : 2 + below(chance(90) ? 3 : 15);
    session->most = chance(60) ? 1000 : 1 + below(3);
    session->links = chance(40) ? NO_LINKS : chance(75) ? A_TREE : WILD;
    session->by_lane = chance(50);
    session->is_idle = chance(30);
    for (uint32_t i = 0; i < session->locks; i++)
        plan_name(&session->lock_names[i], 'l', i, session->is_ample);
    for (uint32_t i = 0; i < session->places; i++)
        plan_name(&session->place_names[i], 'p', i, true);
    if (chance(20))
        session->place_names[0].length = 0;
    for (uint32_t t = 0; t < session->threads; t++)
        plan_list(session, t);
}

/* ---- The trace of what was pulled */

static void write_name(FILE *file, const struct name *name)
{
    fwrite(name->bytes, 1, name->length, file);
}

static void write_event(FILE *file, const struct session *session, uint32_t thread, const struct event *event)
{
    static const char *const words[] = {"acq", "racq", "rel", "rrel", "tryacq", "tryracq", "fork", "join"};
    fprintf(file, "T%u|%s(", thread, words[event->kind]);
    if (event->kind >= GOODLOCK_FORK)
        fprintf(file, "T%u", event->operand);
    else
        write_name(file, &session->lock_names[event->operand]);
    fputs(")|", file);
    write_name(file, &session->place_names[event->place]);
    fputc('\n', file);
}

static void write_trace(FILE *file, const struct session *session, bool is_by_mention)
{
    for (uint32_t i = 0; i < session->locks && !is_by_mention; i++)
        for (int k = 0; k < 2; k++) {
            fputs(k == 0 ? "N|acq(" : "N|rel(", file);
            write_name(file, &session->lock_names[i]);
            fputs(")|\n", file);
        }
    for (uint32_t t = 0; t < session->threads; t++)
        fprintf(file, "N|fork(T%u)|\n", t);
    for (uint32_t t = 0; t < session->threads; t++) {
        uint32_t left = session->pulled[t];
        for (const struct event *event = session->lists[t].events; left > 0; event++)
            if (event->code == GOODLOCK_OK) {
                write_event(file, session, t, event);
                left--;
            }
    }
}

struct file_name {
    char text[64];
};

static struct file_name next_name(struct session *session)
{
    struct file_name name;
    snprintf(name.text, sizeof name.text, "%llu-%u", (unsigned long long)session->number, session->files++);
    return name;
}

static FILE *created(const struct session *session, const char *name, const char *ending)
{
    char path[4096];
    FILE *file;
    snprintf(path, sizeof path, "%s/%s.%s", session->folder, name, ending);
    file = fopen(path, "wb");
    if (file == NULL) {
        perror(path);
        exit(2);
    }
    return file;
}

/* Writes what was pulled by now as a trace; its name. */
static struct file_name save_trace(struct session *session, bool is_by_mention)
{
    const struct file_name name = next_name(session);
    FILE *file = created(session, name.text, "std");
    write_trace(file, session, is_by_mention);
    fclose(file);
    return name;
}

/* ---- Reports */

typedef uint32_t reporting(goodlock_session *, uint32_t, uint32_t, uint32_t, goodlock_report *);
typedef uint32_t writing(goodlock_session *, goodlock_report *, uint8_t *, size_t, size_t *);

struct written {
    uint8_t *bytes;
    size_t size;
};

typedef struct written printing(struct session *, writing *, goodlock_report *);

/* The text of a report, in a buffer that is a little too short first, and stays as it was. */
static struct written text_of(struct session *session, writing *write, goodlock_report *report)
{
    struct written text = {NULL, 0};
    size_t needed = 0;
    uint8_t none;
    expect(session, "the length of a text", write(&session->handle, report, &none, 0, &text.size), GOODLOCK_OK);
    if (text.size == 0)
        fault(session, "an empty text");
    text.bytes = calloc(text.size + 1, 1);
    expect(session, "a short text", write(&session->handle, report, text.bytes, text.size - 1, &needed), GOODLOCK_OK);
    for (size_t i = 0; i < text.size; i++)
        if (text.bytes[i] != 0)
            fault(session, "a text that doesn't fit was written");
    if (needed != text.size)
        fault(session, "a text has two lengths");
    expect(session, "a text", write(&session->handle, report, text.bytes, text.size, &needed), GOODLOCK_OK);
    if (text.bytes[text.size] != 0)
        fault(session, "a text was written beyond its end");
    return text;
}

/* The same in a buffer that is mostly long enough, as it is for the session's longest text: else it is made twice. */
static struct written text_at_once(struct session *session, writing *write, goodlock_report *report)
{
    const size_t room = session->longest + 1000;
    struct written text = {malloc(room), 0};
    expect(session, "a text", write(&session->handle, report, text.bytes, room, &text.size), GOODLOCK_OK);
    if (text.size > room) {
        free(text.bytes);
        text = text_of(session, write, report);
    }
    return text;
}

static void save(const struct session *session, const char *name, const char *ending, struct written text)
{
    FILE *file = created(session, name, ending);
    fwrite(text.bytes, 1, text.size, file);
    fclose(file);
}

/* Makes a report of what this trace has, and writes it; the text, for comparison. */
static struct written make_report(struct session *session, const struct file_name *trace, const char *listed,
                                  reporting *make)
{
    goodlock_report report = {NULL};
    struct written text = {NULL, 0}, json;
    const struct file_name name = next_name(session);
    printing *const print = make == goodlock_report_so_far ? text_of : text_at_once;
    size_t count = 0;
    bool more = false;
    const uint32_t code = make(&session->handle, session->mode, session->length, session->most, &report);
    if (code == GOODLOCK_OK) {
        text = print(session, goodlock_text, &report);
        json = print(session, goodlock_json, &report);
        expect(session, "cycles", goodlock_cycles(&report, &count, &more), GOODLOCK_OK);
        save(session, name.text, "text", text);
        save(session, name.text, "json", json);
        session->longest = json.size > session->longest ? json.size : session->longest;
        free(json.bytes);
        goodlock_report_free(&report);
    } else if (code != GOODLOCK_INCONSISTENT) {
        expect(session, "a report", code, GOODLOCK_OK);
    }
    if (report.at != NULL)
        fault(session, "a report isn't all zero after all");
    printf("%s %s %s %u %u %u %u %zu %d\n", name.text, trace->text, listed, session->mode, session->length,
           session->most, code, count, more);
    return text;
}

/* The same of cycles, and of findings; the text of cycles. */
static struct written make_reports(struct session *session, const struct file_name *trace, reporting *of_cycles,
                                   reporting *of_findings)
{
    const struct written text = make_report(session, trace, "cycles", of_cycles);
    free(make_report(session, trace, "findings", of_findings).bytes);
    return text;
}

/* ---- The run */

struct running {
    struct session *session;
    uint32_t thread;
};

static void *record_all(void *argument)
{
    const struct running *running = argument;
    struct session *session = running->session;
    const struct list *list = &session->lists[running->thread];
    goodlock_lane *lane = &session->lanes[running->thread];
    uint32_t taken = 0, at, code;
    for (size_t i = 0; i < list->count; i++) {
        const struct event *event = &list->events[i];
        for (;;) {
            code = goodlock_record(lane, event->kind, event->operand, event->place, &at);
            if (code != GOODLOCK_FULL || event->code != GOODLOCK_OK)
                break;
            sched_yield();
        }
        if (code != event->code)
            fault(session, "event %zu of thread %u (kind %u of %u) answers %u, and %u is right", i, running->thread,
                  event->kind, event->operand, code, event->code);
        else if (code == GOODLOCK_OK && at != taken++)
            fault(session, "event %zu of thread %u has place %u, not %u", i, running->thread, at, taken - 1);
    }
    while ((code = goodlock_close(lane)) == GOODLOCK_FULL)
        sched_yield();
    expect(session, "close", code, GOODLOCK_OK);
    expect(session, "a second close", goodlock_close(lane), GOODLOCK_MISUSE);
    expect(session, "a record after close", goodlock_acquire(lane, 0, 0), GOODLOCK_MISUSE);
    return NULL;
}

/* Pulls for a while, in one of two ways; how many lanes have ended. */
static uint32_t pull_some(struct session *session)
{
    goodlock_pulled pulled = {7, 7};
    const uint32_t thread = below(session->threads), most = chance(70) ? 1 + below(300) : below(4);
    if (!session->by_lane) {
        expect(session, "pull", goodlock_pull(&session->handle, most, &pulled), GOODLOCK_OK);
        if (session->threads == 1)
            session->pulled[0] += pulled.events;
    } else {
        expect(session, "pull of a lane", goodlock_pull_lane(&session->handle, thread, most, &pulled), GOODLOCK_OK);
        session->pulled[thread] += pulled.events;
        if (pulled.ended > 1)
            fault(session, "a lane ended %u times", pulled.ended);
    }
    if (pulled.events + pulled.ended > most)
        fault(session, "%u events and %u ends were pulled, of %u at most", pulled.events, pulled.ended, most);
    return pulled.ended;
}

static void start(struct session *session, pthread_t *threads, struct running *running)
{
    for (uint32_t t = 0; t < session->threads; t++) {
        running[t] = (struct running){session, t};
        if (pthread_create(&threads[t], NULL, record_all, &running[t]) != 0) {
            perror("pthread_create");
            exit(2);
        }
    }
}

/* Pulls until all lanes have ended, with some reports in between where it is known what was pulled. */
static void collect(struct session *session)
{
    unsigned reports = chance(20) ? 1 + below(2) : 0;
    for (uint32_t ended = 0; ended < session->threads;) {
        ended += pull_some(session);
        if (reports > 0 && (session->by_lane || session->threads == 1) && chance(20)) {
            const struct file_name trace = save_trace(session, false);
            reports--;
            free(make_reports(session, &trace, goodlock_report_so_far, goodlock_findings_so_far).bytes);
        }
        if (chance(10))
            sched_yield();
    }
}

static void name_all(struct session *session)
{
    uint32_t number;
    for (uint32_t i = 0; i < session->locks; i++) {
        const struct name *name = &session->lock_names[i];
        expect(session, "lock", goodlock_lock(&session->handle, name->bytes, name->length, &number), GOODLOCK_OK);
        if (number != i)
            fault(session, "lock %u has number %u", i, number);
    }
    for (uint32_t i = 0; i < session->places; i++) {
        const struct name *name = &session->place_names[i];
        expect(session, "place", goodlock_place(&session->handle, name->bytes, name->length, &number), GOODLOCK_OK);
        if (number != i)
            fault(session, "place %u has number %u", i, number);
    }
}

/* The reports of all that was recorded, before the session is settled and after: the same. */
static void settle_with_reports(struct session *session)
{
    uint32_t thread;
    const struct file_name trace = save_trace(session, false), by_mention = save_trace(session, true);
    const struct written so_far = make_reports(session, &trace, goodlock_report_so_far, goodlock_findings_so_far);
    struct written settled;
    expect(session, "settle", goodlock_settle(&session->handle, &thread), GOODLOCK_OK);
    settled = make_reports(session, &trace, goodlock_settled_report, goodlock_settled_findings);
    if (so_far.size != settled.size || (so_far.size > 0 && memcmp(so_far.bytes, settled.bytes, so_far.size) != 0))
        fault(session, "the settled report isn't the one so far");
    free(so_far.bytes);
    free(settled.bytes);
    free(make_report(session, &by_mention, "findings", goodlock_findings_by_mention).bytes);
}

/* Settles the session, which is refused while a lane is missing. */
static void settle(struct session *session)
{
    uint32_t thread = UINT32_MAX;
    const uint32_t last = below(session->threads);
    for (uint32_t t = 0; t < session->threads; t++) {
        session->pulled[t] = (uint32_t)session->lists[t].lawful;
        if (t != last)
            expect(session, "hand_in", goodlock_hand_in(&session->handle, &session->lanes[t]), GOODLOCK_OK);
    }
    expect(session, "an early settle", goodlock_settle(&session->handle, &thread), GOODLOCK_MISSING);
    if (thread != last)
        fault(session, "thread %u is missing, not %u", last, thread);
    expect(session, "the last hand_in", goodlock_hand_in(&session->handle, &session->lanes[last]), GOODLOCK_OK);
    settle_with_reports(session);
}

static void run(struct session *session)
{
    pthread_t threads[MAX_THREADS];
    struct running running[MAX_THREADS];
    uint32_t number;
    expect(session, "open", goodlock_open(session->number + 1, session->threads, session->ring, &session->handle),
           GOODLOCK_OK);
    name_all(session);
    for (uint32_t t = 0; t < session->threads; t++) {
        expect(session, "lane", goodlock_lane_open(&session->handle, &session->lanes[t], &number), GOODLOCK_OK);
        if (number != t)
            fault(session, "lane %u has number %u", t, number);
    }
    start(session, threads, running);
    collect(session);
    for (uint32_t t = 0; t < session->threads; t++)
        pthread_join(threads[t], NULL);
    settle(session);
    for (uint32_t t = 0; t < session->threads; t++) {
        if (session->lanes[t].at != NULL)
            fault(session, "a lane that was handed in isn't all zero");
        free(session->lists[t].events);
    }
    goodlock_session_free(&session->handle);
    if (session->handle.at != NULL)
        fault(session, "the freed session isn't all zero");
}

int main(int count, char **words)
{
    if (count != 5) {
        fputs("library SEED FIRST LAST FOLDER\n", stderr);
        return 2;
    }
    const uint64_t seed = strtoull(words[1], NULL, 10), last = strtoull(words[3], NULL, 10);
    for (uint64_t number = strtoull(words[2], NULL, 10); number < last; number++) {
        struct session *session = calloc(1, sizeof *session);
        session->folder = words[4];
        session->number = number;
        state = seed * 1000003 + number;
        alarm(300); /* only a run that hangs takes so long */
        plan(session);
        run(session);
        free(session);
    }
    return faults == 0 ? 0 : 1;
}
