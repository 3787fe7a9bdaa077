/* Tests goodlock_debug.h and goodlock_names_debug.h: each promise is broken by each call, in a process of its own, of
 * which the line on standard error and the signal are compared; and what may be done is done without a word.
 *
 *     library_debug broken     one promise after the other, by all calls
 *     library_debug right      what keeps the promises
 *
 * It is linked with debug_other.cc, the other file of the program, and with --wrap of malloc, calloc, realloc,
 * aligned_alloc and free: so a call can be met, by its own thread or another one, while it takes or gives back memory.
 * What isn't as it has to be is told on standard output; the last line is how many checks passed and failed. */
#include "checks.h"
#include "debug_other.h"
#include "goodlock.h"
#include "goodlock_names.h"

#include <pthread.h>
#include <signal.h>
#include <stdio.h>
#include <stdlib.h>
#include <string.h>
#include <sys/mman.h>
#include <sys/resource.h>
#include <sys/wait.h>
#include <unistd.h>

#ifndef GOODLOCK_DEBUG
#error "this is a test of GOODLOCK_DEBUG"
#endif

#define IS_STRICT (GOODLOCK_DEBUG + 0 > 1)
#define COUNT(list) (sizeof(list) / sizeof *(list))

enum { POINTERS = 4, LINE = 400, LANES = 600 };

/* ---- What is done while a call takes or gives back memory */

static __thread void (*hook)(void);
static __thread unsigned hook_after; /* how many times it isn't called before */

static __thread bool is_refused; /* whether memory is refused once */

static void come_by(void)
{
    void (*const own)(void) = hook;
    if (own == NULL || hook_after-- > 0)
        return;
    hook = NULL;
    own();
}

static void (*meanwhile)(void); /* what another thread does while a call is made */

static void *do_meanwhile(void *unused)
{
    (void)unused;
    meanwhile();
    return NULL;
}

static void meet(void)
{
    pthread_t thread;
    if (pthread_create(&thread, NULL, do_meanwhile, NULL) == 0)
        pthread_join(thread, NULL);
}

/* Another thread does this, and is through with it, when the next call takes or gives back memory. */
static void meet_with(void (*other)(void))
{
    meanwhile = other;
    hook = meet;
}

#ifdef __cplusplus
extern "C" {
#endif
void *__real_malloc(size_t size);
void *__real_calloc(size_t count, size_t size);
void *__real_realloc(void *old, size_t size);
void *__real_aligned_alloc(size_t alignment, size_t size);
void __real_free(void *old);
void *__wrap_malloc(size_t size);
void *__wrap_calloc(size_t count, size_t size);
void *__wrap_realloc(void *old, size_t size);
void *__wrap_aligned_alloc(size_t alignment, size_t size);
void __wrap_free(void *old);

void *__wrap_malloc(size_t size)
{
    come_by();
    return __real_malloc(size);
}

void *__wrap_calloc(size_t count, size_t size)
{
    const bool is_refused_now = is_refused;
    come_by();
    is_refused = false;
    return is_refused_now ? NULL : __real_calloc(count, size);
}

void *__wrap_realloc(void *old, size_t size)
{
    come_by();
    return __real_realloc(old, size);
}

void *__wrap_aligned_alloc(size_t alignment, size_t size)
{
    come_by();
    return __real_aligned_alloc(alignment, size);
}

void __wrap_free(void *old)
{
    come_by();
    __real_free(old);
}
#ifdef __cplusplus
}
#endif

/* ---- A session with a lane, which is closed, and a report; a table of one name */

static struct world {
    goodlock_session session;
    goodlock_lane lane;
    goodlock_report report;
    goodlock_names names;
    uint8_t name[8], buffer[8];
    uint32_t thread, lock, place, at, number, told;
    goodlock_pulled pulled;
    size_t needed, cycles;
    bool more;
} world;

static void begin(void)
{
    expect("open", goodlock_open(7, 2, 8, &world.session), GOODLOCK_OK);
    expect("lane", goodlock_lane_open(&world.session, &world.lane, &world.thread), GOODLOCK_OK);
    expect("close", goodlock_close(&world.lane), GOODLOCK_OK);
    expect("report", goodlock_report_so_far(&world.session, GOODLOCK_FULL_MODE, 4, 10, &world.report), GOODLOCK_OK);
    expect("table", goodlock_names_open(4, &world.names), GOODLOCK_OK);
    expect("name", goodlock_names_of(&world.names, world.name, sizeof world.name, &world.number), GOODLOCK_OK);
}

static void end(void)
{
    goodlock_names_free(&world.names);
    goodlock_report_free(&world.report);
    goodlock_lane_free(&world.lane);
    goodlock_session_free(&world.session);
}

static void *pointer_of(const char *word)
{
    const struct {
        const char *word;
        void *at;
    } all[] = {
        {"session", &world.session}, {"lane", &world.lane},     {"report", &world.report}, {"name", world.name},
        {"buffer", world.buffer},    {"thread", &world.thread}, {"lock", &world.lock},     {"place", &world.place},
        {"at", &world.at},           {"pulled", &world.pulled}, {"needed", &world.needed}, {"cycles", &world.cycles},
        {"more", &world.more},       {"names", &world.names},   {"number", &world.number}, {"told", &world.told}};
    for (size_t i = 0; i < COUNT(all); i++)
        if (strcmp(all[i].word, word) == 0)
            return all[i].at;
    abort();
}

/* ---- All calls, by what is handed to them */

static void make_open(void **at)
{
    goodlock_open(8, 2, 8, (goodlock_session *)at[0]);
}

static void make_lane_open(void **at)
{
    goodlock_lane_open((goodlock_session *)at[0], (goodlock_lane *)at[1], (uint32_t *)at[2]);
}

static void make_lock(void **at)
{
    goodlock_lock((goodlock_session *)at[0], (const uint8_t *)at[1], 8, (uint32_t *)at[2]);
}

static void make_place(void **at)
{
    goodlock_place((goodlock_session *)at[0], (const uint8_t *)at[1], 8, (uint32_t *)at[2]);
}

static void make_pull(void **at)
{
    goodlock_pull((goodlock_session *)at[0], 10, (goodlock_pulled *)at[1]);
}

static void make_pull_lane(void **at)
{
    goodlock_pull_lane((goodlock_session *)at[0], 0, 10, (goodlock_pulled *)at[1]);
}

static void make_report_so_far(void **at)
{
    goodlock_report_so_far((goodlock_session *)at[0], 2, 4, 10, (goodlock_report *)at[1]);
}

static void make_findings_so_far(void **at)
{
    goodlock_findings_so_far((goodlock_session *)at[0], 2, 4, 10, (goodlock_report *)at[1]);
}

static void make_settled_report(void **at)
{
    goodlock_settled_report((goodlock_session *)at[0], 2, 4, 10, (goodlock_report *)at[1]);
}

static void make_settled_findings(void **at)
{
    goodlock_settled_findings((goodlock_session *)at[0], 2, 4, 10, (goodlock_report *)at[1]);
}

static void make_report_by_mention(void **at)
{
    goodlock_report_by_mention((goodlock_session *)at[0], 2, 4, 10, (goodlock_report *)at[1]);
}

static void make_findings_by_mention(void **at)
{
    goodlock_findings_by_mention((goodlock_session *)at[0], 2, 4, 10, (goodlock_report *)at[1]);
}

static void make_hand_in(void **at)
{
    goodlock_hand_in((goodlock_session *)at[0], (goodlock_lane *)at[1]);
}

static void make_settle(void **at)
{
    goodlock_settle((goodlock_session *)at[0], (uint32_t *)at[1]);
}

static void make_text(void **at)
{
    goodlock_text((goodlock_session *)at[0], (goodlock_report *)at[1], (uint8_t *)at[2], 8, (size_t *)at[3]);
}

static void make_json(void **at)
{
    goodlock_json((goodlock_session *)at[0], (goodlock_report *)at[1], (uint8_t *)at[2], 8, (size_t *)at[3]);
}

static void make_cycles(void **at)
{
    goodlock_cycles((goodlock_report *)at[0], (size_t *)at[1], (bool *)at[2]);
}

static void make_session_free(void **at)
{
    goodlock_session_free((goodlock_session *)at[0]);
}

static void make_lane_free(void **at)
{
    goodlock_lane_free((goodlock_lane *)at[0]);
}

static void make_report_free(void **at)
{
    goodlock_report_free((goodlock_report *)at[0]);
}

static void make_record(void **at)
{
    goodlock_record((goodlock_lane *)at[0], GOODLOCK_ACQUIRE, 0, 0, (uint32_t *)at[1]);
}

static void make_close(void **at)
{
    goodlock_close((goodlock_lane *)at[0]);
}

static void make_names_open(void **at)
{
    goodlock_names_open(4, (goodlock_names *)at[0]);
}

static void make_names_free(void **at)
{
    goodlock_names_free((goodlock_names *)at[0]);
}

static void make_names_of(void **at)
{
    goodlock_names_of((goodlock_names *)at[0], (const uint8_t *)at[1], 8, (uint32_t *)at[2]);
}

static void make_names_at(void **at)
{
    goodlock_names_at((goodlock_names *)at[0], NULL, (const uint8_t *)at[1], 8, (uint32_t *)at[2]);
}

static void make_names_literal(void **at)
{
    goodlock_names_literal((goodlock_names *)at[0], NULL, (uint32_t *)at[1]);
}

static void make_names_forget(void **at)
{
    goodlock_names_forget((goodlock_names *)at[0], NULL);
}

static void make_names_count(void **at)
{
    goodlock_names_count((goodlock_names *)at[0]);
}

static void make_tell_locks(void **at)
{
    goodlock_tell_locks((goodlock_session *)at[0], (goodlock_names *)at[1], (uint32_t *)at[2]);
}

static void make_tell_places(void **at)
{
    goodlock_tell_places((goodlock_session *)at[0], (goodlock_names *)at[1], (uint32_t *)at[2]);
}

static const struct call {
    const char *name;
    void (*make)(void **at);
    const char *words[POINTERS];
} CALLS[] = {
    {"goodlock_open", make_open, {"session", NULL, NULL, NULL}},
    {"goodlock_lane_open", make_lane_open, {"session", "lane", "thread", NULL}},
    {"goodlock_lock", make_lock, {"session", "name", "lock", NULL}},
    {"goodlock_place", make_place, {"session", "name", "place", NULL}},
    {"goodlock_pull", make_pull, {"session", "pulled", NULL, NULL}},
    {"goodlock_pull_lane", make_pull_lane, {"session", "pulled", NULL, NULL}},
    {"goodlock_report_so_far", make_report_so_far, {"session", "report", NULL, NULL}},
    {"goodlock_findings_so_far", make_findings_so_far, {"session", "report", NULL, NULL}},
    {"goodlock_settled_report", make_settled_report, {"session", "report", NULL, NULL}},
    {"goodlock_settled_findings", make_settled_findings, {"session", "report", NULL, NULL}},
    {"goodlock_report_by_mention", make_report_by_mention, {"session", "report", NULL, NULL}},
    {"goodlock_findings_by_mention", make_findings_by_mention, {"session", "report", NULL, NULL}},
    {"goodlock_hand_in", make_hand_in, {"session", "lane", NULL, NULL}},
    {"goodlock_settle", make_settle, {"session", "thread", NULL, NULL}},
    {"goodlock_text", make_text, {"session", "report", "buffer", "needed"}},
    {"goodlock_json", make_json, {"session", "report", "buffer", "needed"}},
    {"goodlock_cycles", make_cycles, {"report", "cycles", "more", NULL}},
    {"goodlock_session_free", make_session_free, {"session", NULL, NULL, NULL}},
    {"goodlock_lane_free", make_lane_free, {"lane", NULL, NULL, NULL}},
    {"goodlock_report_free", make_report_free, {"report", NULL, NULL, NULL}},
    {"goodlock_record", make_record, {"lane", "at", NULL, NULL}},
    {"goodlock_close", make_close, {"lane", NULL, NULL, NULL}},
    {"goodlock_names_open", make_names_open, {"names", NULL, NULL, NULL}},
    {"goodlock_names_free", make_names_free, {"names", NULL, NULL, NULL}},
    {"goodlock_names_of", make_names_of, {"names", "name", "number", NULL}},
    {"goodlock_names_at", make_names_at, {"names", "name", "number", NULL}},
    {"goodlock_names_literal", make_names_literal, {"names", "number", NULL, NULL}},
    {"goodlock_names_forget", make_names_forget, {"names", NULL, NULL, NULL}},
    {"goodlock_names_count", make_names_count, {"names", NULL, NULL, NULL}},
    {"goodlock_tell_locks", make_tell_locks, {"session", "names", "told", NULL}},
    {"goodlock_tell_places", make_tell_places, {"session", "names", "told", NULL}},
};

/* ---- A trial: a process that breaks a promise, or none */

static struct trial {
    const char *name;
    void (*run)(void);
    const struct call *call;
    unsigned one, two;   /* which of its pointers */
    void *at[POINTERS];  /* what is handed over */
    const char *promise; /* that its line tells, or NULL */
    char happened[LINE]; /* .. and this */
} trial;

static char *shared; /* what a trial knows better than this process */

static void fill(void)
{
    for (unsigned i = 0; i < POINTERS && trial.call->words[i] != NULL; i++)
        trial.at[i] = pointer_of(trial.call->words[i]);
}

static void make_it(void)
{
    trial.call->make(trial.at);
}

/* The process of a trial. */
static void child(int errors)
{
    const struct rlimit none = {0, 0};
    setrlimit(RLIMIT_CORE, &none);
    dup2(errors, STDERR_FILENO);
    passed = failed = 0;
    trial.run();
    exit(failed == 0 ? 0 : 1);
}

/* Runs the trial; its status, and what it wrote to standard error. */
static int run_trial(char *line, size_t size)
{
    int ends[2], status = -1;
    size_t length = 0;
    ssize_t got;
    pid_t process;
    fflush(NULL);
    if (pipe(ends) != 0 || (process = fork()) < 0) {
        perror("library_debug");
        exit(2);
    }
    if (process == 0)
        child(ends[1]);
    close(ends[1]);
    while (length < size - 1 && (got = read(ends[0], line + length, size - 1 - length)) > 0)
        length += (size_t)got;
    line[length] = '\0';
    close(ends[0]);
    waitpid(process, &status, 0);
    return status;
}

/* Runs the trial and compares it. */
static void try_it(void)
{
    char line[4 * LINE], right[2 * LINE] = "", text[8 * LINE];
    int status;
    shared[0] = '\0';
    status = run_trial(line, sizeof line);
    if (trial.promise != NULL)
        snprintf(right, sizeof right, "goodlock: %s: %s: %s\n", trial.call == NULL ? trial.name : trial.call->name,
                 trial.promise, shared[0] != '\0' ? shared : trial.happened);
    snprintf(text, sizeof text, "%s (%s): another line:\n%sright is\n%s", trial.name,
             trial.call == NULL ? "alone" : trial.call->name, line, right);
    check(strcmp(line, right) == 0, text);
    snprintf(text, sizeof text, "%s (%s): status %d", trial.name, trial.call == NULL ? "alone" : trial.call->name,
             status);
    check(trial.promise == NULL ? status == 0 : WIFSIGNALED(status) && WTERMSIG(status) == SIGABRT, text);
}

/* ---- Promises that each call may break */

static const char *const NULLS = "no pointer that is handed over is null";
static const char *const APART = "what is written to overlaps with nothing else that is handed over";
static const char *const SIZES = "a pointer stands for as many bytes as are said";
static const char *const ZERO = "a handle is all zero until it is opened, and changed by these calls alone";
static const char *const BACK = "a handle isn't used after it was given back, nor is a copy of it";
static const char *const ALONE = "a handle is given to one call at a time";
static const char *const INSIDE = "no call is made within another one, as by a signal handler or an allocator";
static const char *const CHILD = "no call is made in the child of a fork";

static void hand_over_null(void)
{
    begin();
    fill();
    trial.at[trial.one] = NULL;
    make_it();
}

static void hand_over_twice(void)
{
    begin();
    fill();
    trial.at[trial.one] = trial.at[trial.two];
    make_it();
}

/* What a handle holds, of whichever kind. */
static void *held(const void *handle)
{
    void *at;
    memcpy(&at, handle, sizeof at);
    return at;
}

/* Frees the handle of this kind. */
static void give_back(const char *word)
{
    if (strcmp(word, "session") == 0)
        goodlock_session_free(&world.session);
    else if (strcmp(word, "lane") == 0)
        goodlock_lane_free(&world.lane);
    else if (strcmp(word, "report") == 0)
        goodlock_report_free(&world.report);
    else
        goodlock_names_free(&world.names);
}

/* The handle was never set to zero. */
static void hand_over_rubbish(void)
{
    void *rubbish = &rubbish;
    begin();
    fill();
    trial.at[trial.one] = &rubbish;
    make_it();
}

/* The handle is of another kind. */
static void hand_over_another(void)
{
    void *other;
    begin();
    fill();
    other = trial.at[trial.one] == &world.session ? world.lane.at : world.session.at;
    trial.at[trial.one] = &other;
    make_it();
}

/* The handle is a copy of one that was given back. */
static void hand_over_the_rest(void)
{
    void *rest;
    begin();
    fill();
    rest = held(trial.at[trial.one]);
    give_back(trial.call->words[trial.one]);
    trial.at[trial.one] = &rest;
    make_it();
}

/* Makes a call on the handle of this kind, in which the hook is called. */
static void be_busy(const char *word)
{
    uint32_t number;
    if (strcmp(word, "session") == 0)
        goodlock_lock(&world.session, (const uint8_t *)"new", 3, &number);
    else
        give_back(word);
}

/* Another thread is in a call on the handle. */
static void hand_over_a_busy_one(void)
{
    begin();
    fill();
    meet_with(make_it);
    be_busy(trial.call->words[trial.one]);
}

/* Another thread is in a call on the handle of which this is a copy. */
static void hand_over_a_busy_ones_copy(void)
{
    void *copy;
    begin();
    fill();
    copy = held(trial.at[trial.one]);
    trial.at[trial.one] = &copy;
    meet_with(make_it);
    be_busy(trial.call->words[trial.one]);
}

/* This thread is in a call. */
static void call_within_a_call(void)
{
    begin();
    fill();
    hook = make_it;
    be_busy("session");
}

static void call_in_a_child(void)
{
    pid_t process;
    int status = 0;
    begin();
    fill();
    process = fork();
    if (process == 0) {
        snprintf(shared, LINE, "this is process %ld, and the first call was made in process %ld", (long)getpid(),
                 (long)getppid());
        make_it();
        _exit(0);
    }
    if (waitpid(process, &status, 0) == process && WIFSIGNALED(status))
        raise(WTERMSIG(status));
    _exit(0);
}

/* The call, and others after it. */
static void go_on_after_the_call(void)
{
    begin();
    fill();
    make_it();
    make_it();
    end();
}

static bool is_handle(const char *word)
{
    return strcmp(word, "session") == 0 || strcmp(word, "lane") == 0 || strcmp(word, "report") == 0 ||
           strcmp(word, "names") == 0;
}

static void begin_trial(const char *name, void (*run)(void), const char *promise)
{
    memset(&trial, 0, sizeof trial);
    trial.name = name;
    trial.run = run;
    trial.promise = promise;
}

/* All that may be wrong with the handle that is pointer `one` of the call. */
static void try_handle(const struct call *call, unsigned one)
{
    const char *const word = call->words[one];
    const bool is_session = strcmp(word, "session") == 0, is_lane = strcmp(word, "lane") == 0;
    const bool is_table = strcmp(word, "names") == 0;
    const char *const own = is_session ? "session 7"
                            : is_lane  ? "lane 0 of session 7"
                            : is_table ? "a table of names"
                                       : "a report of session 7";
    char none[LINE], back[LINE], busy[LINE];
    const struct {
        const char *name, *promise, *happened;
        void (*run)(void);
    } all[] = {{"rubbish", ZERO, none, hand_over_rubbish},
               {"another kind", ZERO, none, hand_over_another},
               {"given back", BACK, back, hand_over_the_rest},
               {"busy", ALONE, busy, hand_over_a_busy_one},
               {"a busy one's copy", ALONE, busy, hand_over_a_busy_ones_copy}};
    snprintf(none, LINE, "what this %s holds is of none that is open", is_table ? "table" : word);
    snprintf(back, LINE, "%s was given back by goodlock_%s_free", own, word);
    snprintf(busy, LINE, "another thread is in goodlock_%s%s with %s", is_session ? "lock" : word,
             is_session ? "" : "_free", own);
    for (size_t i = 0; i < COUNT(all); i++) {
        begin_trial(all[i].name, all[i].run, all[i].promise);
        trial.call = call;
        trial.one = one;
        snprintf(trial.happened, LINE, "%s", all[i].happened);
        try_it();
    }
}

/* Two pointers of the call are one. */
static void try_pair(const struct call *call, unsigned one, unsigned two)
{
    begin_trial("one for two", hand_over_twice, APART);
    trial.call = call;
    trial.one = one;
    trial.two = two;
    snprintf(trial.happened, LINE, "`%s` and `%s` overlap", call->words[two], call->words[one]);
    try_it();
}

/* All that may be wrong with pointer `one` of the call. */
static void try_pointer(const struct call *call, unsigned one)
{
    begin_trial("null", hand_over_null, NULLS);
    trial.call = call;
    trial.one = one;
    snprintf(trial.happened, LINE, "`%s` is", call->words[one]);
    try_it();
    for (unsigned two = 0; two < one; two++)
        try_pair(call, one, two);
    if (is_handle(call->words[one]))
        try_handle(call, one);
}

static void try_call(const struct call *call)
{
    begin_trial("within a call", call_within_a_call, INSIDE);
    trial.call = call;
    snprintf(trial.happened, LINE, "this thread is in goodlock_lock");
    try_it();
    begin_trial("no promise is broken", go_on_after_the_call, NULL);
    trial.call = call;
    try_it();
    begin_trial("in a child", call_in_a_child, CHILD);
    trial.call = call;
    try_it();
    for (unsigned one = 0; one < POINTERS && call->words[one] != NULL; one++)
        try_pointer(call, one);
}

/* ---- Promises that some calls may break */

static goodlock_session second;

/* Begins, and settles the session; there is no report then. */
static void settle_all(void)
{
    begin();
    expect("hand in", goodlock_hand_in(&world.session, &world.lane), GOODLOCK_OK);
    expect("lane", goodlock_lane_open(&world.session, &world.lane, &world.thread), GOODLOCK_OK);
    expect("close", goodlock_close(&world.lane), GOODLOCK_OK);
    expect("pull", goodlock_pull(&world.session, 10, &world.pulled), GOODLOCK_OK);
    expect("hand in", goodlock_hand_in(&world.session, &world.lane), GOODLOCK_OK);
    expect("settle", goodlock_settle(&world.session, &world.thread), GOODLOCK_OK);
    goodlock_report_free(&world.report);
}

static void open_the_same_number(void)
{
    begin();
    goodlock_open(7, 1, 1, &second);
}

static void open_the_same_number_later(void)
{
    begin();
    end();
    goodlock_open(7, 1, 1, &second);
}

static void open_second(void)
{
    goodlock_open(7, 1, 1, &second);
}

/* Another session of this number is opened while this one is: after the memory that the check takes. */
static void open_the_same_number_at_once(void)
{
    meet_with(open_second);
    hook_after = 3;
    goodlock_open(7, 2, 8, &world.session);
}

static void open_the_first(void)
{
    goodlock_open(9, 1, 1, &world.session);
}

/* Another thread opens the same handle. */
static void open_at_once(void)
{
    meet_with(open_the_first);
    hook_after = 3;
    goodlock_open(7, 2, 8, &world.session);
}

/* The first memory that a call takes which opens is that of the check. */
static void call_within_the_check(void)
{
    hook = open_second;
    goodlock_open(8, 2, 8, &world.session);
}

static void use_what_was_handed_in(void)
{
    goodlock_lane copy;
    begin();
    copy = world.lane;
    expect("hand in", goodlock_hand_in(&world.session, &world.lane), GOODLOCK_OK);
    goodlock_lane_free(&copy);
}

static goodlock_session many[2];
static goodlock_lane many_lanes[2 * LANES];

static void open_many_lanes(void)
{
    uint32_t thread;
    expect("open", goodlock_open(10, LANES, 1, &many[0]), GOODLOCK_OK);
    expect("open", goodlock_open(11, LANES, 1, &many[1]), GOODLOCK_OK);
    for (unsigned i = 0; i < 2 * LANES; i++)
        expect("lane", goodlock_lane_open(&many[i / LANES], &many_lanes[i], &thread), GOODLOCK_OK);
}

/* Opens lanes, more than are remembered, and frees them; the first one, and the last one, as they were. */
static void open_and_free_many(goodlock_lane *first, goodlock_lane *last)
{
    open_many_lanes();
    *first = many_lanes[0];
    *last = many_lanes[2 * LANES - 1];
    for (unsigned i = 0; i < 2 * LANES; i++) {
        goodlock_close(&many_lanes[i]);
        goodlock_lane_free(&many_lanes[i]);
    }
}

static void use_the_oldest_rest(void)
{
    goodlock_lane first, last;
    open_and_free_many(&first, &last);
    goodlock_close(&first);
}

static void use_the_latest_rest(void)
{
    goodlock_lane first, last;
    open_and_free_many(&first, &last);
    goodlock_close(&last);
}

static void print_by_another_session(void)
{
    begin();
    expect("open", goodlock_open(8, 1, 1, &second), GOODLOCK_OK);
    goodlock_text(&second, &world.report, world.buffer, sizeof world.buffer, &world.needed);
}

static void print_findings_by_another_session(void)
{
    begin();
    goodlock_report_free(&world.report);
    expect("findings", goodlock_findings_so_far(&world.session, 2, 4, 10, &world.report), GOODLOCK_OK);
    expect("open", goodlock_open(8, 1, 1, &second), GOODLOCK_OK);
    goodlock_json(&second, &world.report, world.buffer, sizeof world.buffer, &world.needed);
}

static void print_settled_findings_by_another_session(void)
{
    settle_all();
    expect("findings", goodlock_settled_findings(&world.session, 2, 4, 10, &world.report), GOODLOCK_OK);
    expect("open", goodlock_open(8, 1, 1, &second), GOODLOCK_OK);
    goodlock_text(&second, &world.report, world.buffer, sizeof world.buffer, &world.needed);
}

static void count_cycles(void)
{
    goodlock_cycles(&world.report, &world.cycles, &world.more);
}

/* Another thread has the report as its second handle. */
static void count_while_it_prints(void)
{
    begin();
    meet_with(count_cycles);
    goodlock_text(&world.session, &world.report, world.buffer, sizeof world.buffer, &world.needed);
}

static void tell_places_to_another(void)
{
    goodlock_tell_places(&second, &world.names, &world.at);
}

/* Two threads tell names of one table, each to a session of its own. */
static void tell_while_it_tells(void)
{
    begin();
    expect("open", goodlock_open(8, 1, 1, &second), GOODLOCK_OK);
    meet_with(tell_places_to_another);
    goodlock_tell_locks(&world.session, &world.names, &world.told);
}

static void free_the_table(void)
{
    goodlock_names_free(&world.names);
}

static void free_while_it_tells(void)
{
    begin();
    meet_with(free_the_table);
    goodlock_tell_locks(&world.session, &world.names, &world.told);
}

static void free_while_it_names(void)
{
    begin();
    meet_with(free_the_table);
    goodlock_names_of(&world.names, (const uint8_t *)"new", 3, &world.number);
}

static void write_beyond_the_buffer(void)
{
    union {
        size_t needed;
        uint8_t bytes[16];
    } both;
    begin();
    goodlock_text(&world.session, &world.report, both.bytes + 1, 15, &both.needed);
}

/* More bytes than anything in C has. */
static const size_t ALL_BYTES = SIZE_MAX, TOO_MANY_BYTES = (size_t)PTRDIFF_MAX + 1;

static void name_a_lock_of_all_bytes(void)
{
    begin();
    goodlock_lock(&world.session, world.name, ALL_BYTES, &world.lock);
}

static void name_a_place_of_too_many_bytes(void)
{
    begin();
    goodlock_place(&world.session, world.name, TOO_MANY_BYTES, &world.place);
}

static void mention_all_bytes(void)
{
    begin();
    goodlock_names_of(&world.names, world.name, ALL_BYTES, &world.number);
}

static void mention_too_many_bytes(void)
{
    begin();
    goodlock_names_at(&world.names, &world, world.name, TOO_MANY_BYTES, &world.number);
}

static void print_into_all_bytes(void)
{
    begin();
    goodlock_text(&world.session, &world.report, world.buffer, ALL_BYTES, &world.needed);
}

static void print_json_into_too_many_bytes(void)
{
    begin();
    goodlock_json(&world.session, &world.report, world.buffer, TOO_MANY_BYTES, &world.needed);
}

/* A lane that is full isn't closed by the call that says so. */
static void leave_all(void)
{
    static goodlock_lane full;
    begin();
    expect("lane", goodlock_lane_open(&world.session, &full, &world.thread), GOODLOCK_OK);
    for (unsigned i = 0; i < 8; i++)
        expect("record", goodlock_acquire(&full, 0, 0), GOODLOCK_OK);
    expect("close", goodlock_close(&full), GOODLOCK_FULL);
}

static void leave_a_lane(void)
{
    begin();
    goodlock_names_free(&world.names);
    goodlock_report_free(&world.report);
    goodlock_session_free(&world.session);
}

static void leave_a_report(void)
{
    begin();
    goodlock_names_free(&world.names);
    goodlock_lane_free(&world.lane);
    goodlock_session_free(&world.session);
}

static void leave_a_table(void)
{
    begin();
    goodlock_report_free(&world.report);
    goodlock_lane_free(&world.lane);
    goodlock_session_free(&world.session);
}

/* What this file breaks, the other one is told, and the other way. */
static void pull_there_what_was_freed_here(void)
{
    goodlock_session copy;
    begin();
    copy = world.session;
    goodlock_session_free(&world.session);
    other_pull(&copy);
}

static void pull_here_what_was_freed_there(void)
{
    goodlock_session own = {NULL}, copy;
    other_open(7, &own);
    copy = own;
    other_free(&own);
    goodlock_pull(&copy, 1, &world.pulled);
}

static void pull_there(void)
{
    other_pull(&world.session);
}

static void call_there_within_a_call_here(void)
{
    begin();
    hook = pull_there;
    be_busy("session");
}

static void try_alone(const char *call, void (*run)(void), const char *promise, const char *happened)
{
    begin_trial(call, run, promise);
    snprintf(trial.happened, LINE, "%s", happened);
    try_it();
}

static void try_rest(void)
{
    const char *const number = "each session of a process has a number of its own";
    const char *const given = "number 7 was given to another one", *const leave = "the end of the program";
    const char *const rest = "what was opened is given back";
    try_alone("goodlock_open", open_the_same_number, number, given);
    try_alone("goodlock_open", open_the_same_number_later, number, given);
    try_alone("goodlock_open", open_the_same_number_at_once, number, given);
    try_alone("goodlock_open", open_at_once, ALONE, "another thread is in goodlock_open with this session");
    try_alone("goodlock_open", call_within_the_check, INSIDE, "this thread is in goodlock_open");
    try_alone("goodlock_lane_free", use_what_was_handed_in, BACK,
              "lane 0 of session 7 was given back by goodlock_hand_in");
    try_alone("goodlock_close", use_the_oldest_rest, ZERO, "what this lane holds is of none that is open");
    try_alone("goodlock_close", use_the_latest_rest, BACK,
              "lane 599 of session 11 was given back by goodlock_lane_free");
    try_alone("goodlock_text", print_by_another_session, "the text of a report is made by its own session",
              "a report of session 7 was given to session 8");
    try_alone("goodlock_json", print_findings_by_another_session, "the text of a report is made by its own session",
              "a report of session 7 was given to session 8");
    try_alone("goodlock_text", print_settled_findings_by_another_session,
              "the text of a report is made by its own session", "a report of session 7 was given to session 8");
    try_alone("goodlock_cycles", count_while_it_prints, ALONE,
              "another thread is in goodlock_text with a report of session 7");
    try_alone("goodlock_tell_places", tell_while_it_tells, ALONE,
              "another thread is in goodlock_tell_locks with a table of names");
    try_alone("goodlock_names_free", free_while_it_tells, ALONE,
              "another thread is in goodlock_tell_locks with a table of names");
    try_alone("goodlock_names_free", free_while_it_names, ALONE,
              "another thread is in goodlock_names_of with a table of names");
    try_alone("goodlock_text", write_beyond_the_buffer, APART, "`buffer` and `needed` overlap");
    try_alone(leave, leave_all, rest,
              "left are sessions: 1, lanes: 2 (not closed: 1), reports: 1, tables: 1; the first is session 7");
    try_alone(
        leave, leave_a_lane, rest,
        "left are sessions: 0, lanes: 1 (not closed: 0), reports: 0, tables: 0; the first is lane 0 of session 7");
    try_alone(
        leave, leave_a_report, rest,
        "left are sessions: 0, lanes: 0 (not closed: 0), reports: 1, tables: 0; the first is a report of session 7");
    try_alone(leave, leave_a_table, rest,
              "left are sessions: 0, lanes: 0 (not closed: 0), reports: 0, tables: 1; the first is a table of names");
    try_alone("goodlock_pull", pull_there_what_was_freed_here, BACK,
              "session 7 was given back by goodlock_session_free");
    try_alone("goodlock_pull", pull_here_what_was_freed_there, BACK,
              "session 7 was given back by goodlock_session_free");
    try_alone("goodlock_pull", call_there_within_a_call_here, INSIDE, "this thread is in goodlock_lock");
}

static void try_sizes(void)
{
    try_alone("goodlock_lock", name_a_lock_of_all_bytes, SIZES, "`name` can't for 18446744073709551615");
    try_alone("goodlock_place", name_a_place_of_too_many_bytes, SIZES, "`name` can't for 9223372036854775808");
    try_alone("goodlock_names_of", mention_all_bytes, SIZES, "`name` can't for 18446744073709551615");
    try_alone("goodlock_names_at", mention_too_many_bytes, SIZES, "`name` can't for 9223372036854775808");
    try_alone("goodlock_text", print_into_all_bytes, SIZES, "`buffer` can't for 18446744073709551615");
    try_alone("goodlock_json", print_json_into_too_many_bytes, SIZES, "`buffer` can't for 9223372036854775808");
}

/* ---- What is told with GOODLOCK_DEBUG=2 alone */

/* Two copies of a lane take turns. */
static void take_turns(void)
{
    goodlock_lane copy;
    begin();
    copy = world.lane;
    expect("a lane that was moved", goodlock_close(&copy), GOODLOCK_MISUSE);
    expect("a lane that was moved back", goodlock_close(&world.lane), GOODLOCK_MISUSE);
    end();
}

/* The fifth place before is forgotten, the fourth isn't. */
static void go_far(unsigned places)
{
    goodlock_lane on_the_way[6];
    begin();
    on_the_way[0] = world.lane;
    for (unsigned i = 0; i < places; i++) {
        on_the_way[i] = world.lane;
        expect("a lane that was moved", goodlock_close(&on_the_way[i]), GOODLOCK_MISUSE);
    }
    expect("a lane that was moved back", goodlock_close(&world.lane), GOODLOCK_MISUSE);
    end();
}

static void go_four_places(void)
{
    go_far(4);
}

static void go_five_places(void)
{
    go_far(5);
}

static void free_what_is_not_closed(void)
{
    goodlock_lane open = {NULL};
    begin();
    expect("lane", goodlock_lane_open(&world.session, &open, &world.thread), GOODLOCK_OK);
    goodlock_lane_free(&open);
    end();
}

/* A lane may outlive its session, and can't be closed then. */
static void free_after_the_session(void)
{
    goodlock_lane open = {NULL};
    begin();
    expect("lane", goodlock_lane_open(&world.session, &open, &world.thread), GOODLOCK_OK);
    end();
    goodlock_lane_free(&open);
}

/* Tried with both: where it isn't strict, they are right. */
static void try_strict(void)
{
    const char *const moved = IS_STRICT ? "a handle isn't used where it was before it was moved" : NULL;
    const char *const closed = IS_STRICT ? "a lane is closed before it is freed" : NULL;
    const char *const meanwhile = "lane 0 of session 7 was used elsewhere meanwhile";
    try_alone("goodlock_close", take_turns, moved, meanwhile);
    try_alone("goodlock_close", go_four_places, moved, meanwhile);
    try_alone("goodlock_close", go_five_places, NULL, "");
    try_alone("goodlock_lane_free", free_what_is_not_closed, closed, "lane 1 of session 7 is not");
    try_alone("goodlock_lane_free", free_after_the_session, NULL, "");
}

/* ---- What keeps the promises, in processes that write nothing */

/* What has a code is answered. */
static void misuse(void)
{
    goodlock_lane copy;
    begin();
    copy = world.lane;
    expect("open twice", goodlock_open(7, 1, 1, &world.session), GOODLOCK_MISUSE);
    expect("a lane in use", goodlock_lane_open(&world.session, &copy, &world.at), GOODLOCK_MISUSE);
    expect("closed twice", goodlock_close(&copy), GOODLOCK_MISUSE);
    expect("a report twice", goodlock_report_so_far(&world.session, 2, 4, 10, &world.report), GOODLOCK_MISUSE);
    expect("hand in", goodlock_hand_in(&world.session, &copy), GOODLOCK_OK);
    world.lane.at = NULL;
    expect("hand in of nothing", goodlock_hand_in(&world.session, &world.lane), GOODLOCK_MISUSE);
    end();
    end();
    expect("pull of nothing", goodlock_pull(&world.session, 1, &world.pulled), GOODLOCK_MISUSE);
    expect("record of nothing", goodlock_acquire(&world.lane, 0, 0), GOODLOCK_MISUSE);
}

/* A number that wasn't used may be used, whatever was refused before. */
static void open_after_a_failure(void)
{
    expect("no lanes", goodlock_open(7, 0, 1, &world.session), GOODLOCK_RANGE);
    expect("no rings", goodlock_open(7, 1, 0, &world.session), GOODLOCK_RANGE);
    begin();
    expect("no mode", goodlock_report_so_far(&world.session, 3, 4, 10, (goodlock_report *)&second), GOODLOCK_RANGE);
    expect("open twice", goodlock_open(8, 1, 1, &world.session), GOODLOCK_MISUSE);
    expect("open", goodlock_open(8, 1, 1, &second), GOODLOCK_OK);
    goodlock_session_free(&second);
    expect("a number of the same bucket", goodlock_open(7 + (UINT64_C(1) << 40), 1, 1, &second), GOODLOCK_OK);
    goodlock_session_free(&second);
    end();
}

/* Handles of one address, one after the other; sessions of many numbers. */
static void open_again_and_again(void)
{
    begin();
    for (uint64_t i = 0; i < 5000; i++) {
        goodlock_report_free(&world.report);
        expect("report", goodlock_report_so_far(&world.session, 2, 4, 10, &world.report), GOODLOCK_OK);
        expect("open", goodlock_open(1000 + i, 1, 1, &second), GOODLOCK_OK);
        goodlock_session_free(&second);
    }
    end();
}

static void open_many(void)
{
    goodlock_lane first, last;
    open_and_free_many(&first, &last);
    goodlock_session_free(&many[0]);
    goodlock_session_free(&many[1]);
}

/* The first memory that a call takes which opens is that of the check: where it is refused, nothing was done. */
static void refuse_memory(void)
{
    goodlock_lane lane = {NULL};
    goodlock_report report = {NULL};
    is_refused = true;
    expect("open", goodlock_open(7, 2, 8, &world.session), GOODLOCK_MEMORY);
    check(world.session.at == NULL && !is_refused, "a session was opened, or no memory was asked for");
    is_refused = true;
    expect("table", goodlock_names_open(4, &world.names), GOODLOCK_MEMORY);
    check(world.names.at == NULL && !is_refused, "a table was opened, or no memory was asked for");
    begin();
    is_refused = true;
    expect("lane", goodlock_lane_open(&world.session, &lane, &world.at), GOODLOCK_MEMORY);
    is_refused = true;
    expect("report", goodlock_report_so_far(&world.session, 2, 4, 10, &report), GOODLOCK_MEMORY);
    is_refused = true;
    expect("findings", goodlock_findings_so_far(&world.session, 2, 4, 10, &report), GOODLOCK_MEMORY);
    check(lane.at == NULL && report.at == NULL, "what was refused was opened");
    expect("lane", goodlock_lane_open(&world.session, &lane, &world.at), GOODLOCK_OK);
    check(world.at == 1, "a lane that was refused was given out");
    expect("close", goodlock_close(&lane), GOODLOCK_OK);
    goodlock_lane_free(&lane);
    end();
}

static goodlock_lane busy_lane;
static bool has_met;

static void record_there(void)
{
    has_met = true;
    expect("a record while a name is told", goodlock_acquire(&busy_lane, 0, 0), GOODLOCK_OK);
    expect("a close while a name is told", goodlock_close(&busy_lane), GOODLOCK_OK);
}

/* Two threads are in calls at once, on a session and on its lane. */
static void work_side_by_side(void)
{
    begin();
    expect("lane", goodlock_lane_open(&world.session, &busy_lane, &world.thread), GOODLOCK_OK);
    meet_with(record_there);
    be_busy("session");
    check(has_met, "the other thread worked meanwhile");
    expect("hand in", goodlock_hand_in(&world.session, &busy_lane), GOODLOCK_OK);
    end();
}

static void name_there(void)
{
    uint32_t number, told = 0;
    has_met = true;
    expect("a name while one is told", goodlock_names_of(&world.names, (const uint8_t *)"other", 5, &number),
           GOODLOCK_OK);
    expect("an address while one is told", goodlock_names_at(&world.names, &number, (const uint8_t *)"at", 2, &number),
           GOODLOCK_OK);
    expect("telling while one is told", goodlock_tell_places(&second, &world.names, &told), GOODLOCK_OK);
    check(goodlock_names_count(&world.names) == 3 && told == 3, "the other thread's names");
}

/* Two threads are in calls at once on one table. */
static void name_side_by_side(void)
{
    begin();
    expect("open", goodlock_open(8, 1, 1, &second), GOODLOCK_OK);
    meet_with(name_there);
    expect("a name", goodlock_names_of(&world.names, (const uint8_t *)"new", 3, &world.number), GOODLOCK_OK);
    check(has_met && world.number == 3, "the other thread named meanwhile");
    goodlock_session_free(&second);
    end();
}

static pthread_barrier_t is_over, is_done;

/* A call far down the stack, where nothing is written over it afterwards. */
static void be_busy_below(void)
{
    volatile uint8_t room[20000];
    room[0] = 1;
    be_busy("session");
    room[1] = room[0];
}

static void *work_and_wait(void *unused)
{
    (void)unused;
    meet_with(record_there);
    be_busy_below();
    pthread_barrier_wait(&is_over);
    pthread_barrier_wait(&is_done);
    return NULL;
}

/* A call that began before another one and ended after it is over, while its thread still stands. */
static void work_after_both(void)
{
    pthread_t thread;
    begin();
    expect("lane", goodlock_lane_open(&world.session, &busy_lane, &world.thread), GOODLOCK_OK);
    pthread_barrier_init(&is_over, NULL, 2);
    pthread_barrier_init(&is_done, NULL, 2);
    if (pthread_create(&thread, NULL, work_and_wait, NULL) != 0)
        abort();
    pthread_barrier_wait(&is_over);
    expect("pull", goodlock_pull(&world.session, 10, &world.pulled), GOODLOCK_OK);
    expect("hand in", goodlock_hand_in(&world.session, &busy_lane), GOODLOCK_OK);
    pthread_barrier_wait(&is_done);
    pthread_join(thread, NULL);
    check(has_met, "a third thread worked meanwhile");
    end();
}

/* A report with its own names is printed by any session. */
static void print_by_mention(void)
{
    settle_all();
    expect("report", goodlock_report_by_mention(&world.session, 2, 4, 10, &world.report), GOODLOCK_OK);
    expect("open", goodlock_open(8, 1, 1, &second), GOODLOCK_OK);
    expect("text", goodlock_text(&second, &world.report, world.buffer, 0, &world.needed), GOODLOCK_OK);
    check(world.needed == strlen("cycles: 0\n"), "the report's length");
    goodlock_report_free(&world.report);
    expect("findings", goodlock_findings_by_mention(&world.session, 2, 4, 10, &world.report), GOODLOCK_OK);
    expect("text", goodlock_text(&second, &world.report, world.buffer, 0, &world.needed), GOODLOCK_OK);
    check(world.needed == strlen("findings: 0\n"), "the length of findings");
    goodlock_session_free(&second);
    end();
}

/* No bytes overlap with none: a buffer of size 0 may be anywhere. */
static void write_nothing(void)
{
    begin();
    expect("text", goodlock_text(&world.session, &world.report, (uint8_t *)&world.needed + 1, 0, &world.needed),
           GOODLOCK_OK);
    expect("lock", goodlock_lock(&world.session, (uint8_t *)&world.lock + 1, 0, &world.lock), GOODLOCK_OK);
    end();
}

static void open_there(void)
{
    expect("open", other_open(7, &second), GOODLOCK_OK);
    expect("pull", goodlock_pull(&second, 1, &world.pulled), GOODLOCK_OK);
    expect("pull", other_pull(&second), GOODLOCK_OK);
    other_free(&second);
}

/* A static object gives back its session after main. */
static void leave_to_a_destructor(void)
{
    expect("open", goodlock_open(7, 1, 1, other_session()), GOODLOCK_OK);
}

/* A child that makes no call leaves in either way. */
static void leave_a_child(void)
{
    int status = -1;
    pid_t process;
    begin();
    fflush(NULL);
    process = fork();
    if (process == 0)
        exit(0);
    check(waitpid(process, &status, 0) == process && status == 0, "the child leaves without a word");
    end();
}

static void leave_in_mid_course(void)
{
    begin();
    fflush(NULL);
    _exit(0);
}

static void try_right(void)
{
    try_alone("misuse", misuse, NULL, "");
    try_alone("failures", open_after_a_failure, NULL, "");
    try_alone("again", open_again_and_again, NULL, "");
    try_alone("many", open_many, NULL, "");
    try_alone("memory", refuse_memory, NULL, "");
    try_alone("side by side", work_side_by_side, NULL, "");
    try_alone("names side by side", name_side_by_side, NULL, "");
    try_alone("after both", work_after_both, NULL, "");
    try_alone("by mention", print_by_mention, NULL, "");
    try_alone("nothing", write_nothing, NULL, "");
    try_alone("the other file", open_there, NULL, "");
    try_alone("a destructor", leave_to_a_destructor, NULL, "");
    try_alone("a child", leave_a_child, NULL, "");
    try_alone("_exit", leave_in_mid_course, NULL, "");
}

int main(int count, char **words)
{
    const char *const word = count == 2 ? words[1] : "";
    shared = (char *)mmap(NULL, LINE, PROT_READ | PROT_WRITE, MAP_SHARED | MAP_ANONYMOUS, -1, 0);
    alarm(400); /* only a run that hangs takes so long */
    if (strcmp(word, "broken") == 0) {
        for (size_t i = 0; i < COUNT(CALLS); i++)
            try_call(&CALLS[i]);
        try_rest();
        try_sizes();
    } else if (strcmp(word, "right") == 0) {
        try_strict();
        try_right();
    } else {
        fputs("library_debug broken|right\n", stderr);
        return 2;
    }
    printf("%u passed, %u failed\n", passed, failed);
    return failed == 0 ? 0 : 1;
}
