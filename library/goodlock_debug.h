/* goodlock_debug.h: checks what goodlock.h has its caller promise, in a build that is made for it.
 *
 *     cc -DGOODLOCK_DEBUG bank.c -lgoodlock -lpthread
 *
 * goodlock.h includes this file where GOODLOCK_DEBUG is defined, and then each of its calls is looked at before it is
 * made and after, and each of goodlock_names.h (by goodlock_names_debug.h). Where a promise is broken, one line on
 * standard error names the call, the promise and what happened, as
 *
 *     goodlock: goodlock_pull: a handle is given to one call at a time: another thread is in goodlock_lock with session
 * 7
 *
 * and abort() ends the program before the call is made. A call that keeps the promises answers as ever, with whatever
 * code.
 *
 * ---- What is checked
 *
 * - A handle is all zero or of something that is open, of the right kind, when a call is given it: not one that was
 *   never set to zero, nor the rest of one that was given back (freed, or handed in).
 * - No two calls at once on one handle, or on two copies of it. (On a table of goodlock_names.h: none beside one that
 *   opens or frees it, and no two that tell.)
 * - Each session is opened with a number that no other one had, also one that was freed.
 * - No call on a thread that is in a call: from a signal handler, from a memory allocator.
 * - No call in the child of a fork(), where a call was made before in the parent.
 * - No pointer is null, or said to stand for more bytes than anything in C has, as by a length of -1.
 * - What is written to doesn't overlap with anything else that is handed over.
 * - A report's text is made by its own session, unless the report has its own names (goodlock_report_by_mention,
 *   goodlock_findings_by_mention).
 * - At the end of the program, after its atexit handlers and the destructors of its static objects: all that was opened
 *   was given back. (Not where it ends by _exit or a signal, nor in a child of fork().)
 *
 * With -DGOODLOCK_DEBUG=2 also what goodlock.h allows, but few programs mean to do:
 *
 * - A handle isn't used where it was before it was moved (the last four places): so copies that take turns are told.
 * Not for programs that move handles to and fro, as where one is an argument and then a result.
 * - A lane is closed before it is freed, if its session is open.
 *
 * ---- What isn't
 *
 * - Two calls that nothing orders, but that didn't meet in this run. (Nor does ThreadSanitizer tell of as many races in
 *   this build: the checks order all calls.)
 * - A copy of a handle that was given back, once the memory of that one is another handle's: a copy is then taken for
 *   that handle, moved. In which call a handle was given back is kept for the last 1,024 lanes, reports and tables,
 *   and for all sessions.
 * - A call from a signal handler that interrupts no call, and a fork() before the first call.
 * - That an address is forgotten between its lock's last mention and the next one's first.
 *
 * ---- What it costs
 *
 * Each call takes a lock of all handles twice and asks for the process id: about 150 nanoseconds where nobody else
 * calls, more where many threads record at once. A call that opens something takes memory by calloc (MEMORY, if it is
 * refused), which it keeps for each session that was ever opened. Waiting for the lock, threads yield.
 *
 * ---- How a program is built with it
 *
 * All files that use goodlock.h are compiled with GOODLOCK_DEBUG, in C or C++, by gcc or clang: a handle that another
 * file opened isn't known here. Nothing is linked: what the files share, a table of handles, is a weak symbol in each
 * of them, of which the linker takes one (also for a program and the shared libraries that it is linked with, but not
 * for those that dlopen loads where the program doesn't show its symbols). Calls have other names here, by macros, so
 * pointers to them are of the checked ones. Without GOODLOCK_DEBUG this file isn't read. */
#ifndef GOODLOCK_DEBUG_H
#define GOODLOCK_DEBUG_H

#if !defined(GOODLOCK_H) || !defined(GOODLOCK_DEBUG)
#error "goodlock.h includes this file: include that one, and compile with -DGOODLOCK_DEBUG"
#endif

#include <sched.h>
#include <stdarg.h>
#include <stdio.h>
#include <stdlib.h>
#include <string.h>
#include <unistd.h>

#ifdef __cplusplus
extern "C" {
#endif

/* ---- What ends in an underscore is this file's alone: all of it. */

#define GOODLOCK_DEBUG_SHARED_ __attribute__((weak, visibility("default")))
#define GOODLOCK_DEBUG_IS_STRICT_ (GOODLOCK_DEBUG + 0 > 1)

/* A cast, one that takes the bytes for another type's, and a null pointer, as C and C++ each have them. */
#ifdef __cplusplus
#define GOODLOCK_DEBUG_AS_(type, value) static_cast<type>(value)
#define GOODLOCK_DEBUG_POINTER_AS_(type, value) reinterpret_cast<type>(value)
#define GOODLOCK_DEBUG_NULL_ nullptr
#else
#define GOODLOCK_DEBUG_AS_(type, value) ((type)(value))
#define GOODLOCK_DEBUG_POINTER_AS_(type, value) ((type)(value))
#define GOODLOCK_DEBUG_NULL_ NULL
#endif

enum {
    GOODLOCK_DEBUG_BUCKETS_ = 4096,
    GOODLOCK_DEBUG_REMEMBERED_ = 1024, /* lanes, reports and tables that were given back */
    GOODLOCK_DEBUG_LEFT_ = 4,
    GOODLOCK_DEBUG_SPANS_ = 4,
    GOODLOCK_DEBUG_HANDLES_ = 2,
    GOODLOCK_DEBUG_WORDS_ = 80,
    GOODLOCK_DEBUG_LINE_ = 400
};

enum {
    GOODLOCK_DEBUG_SESSION_,
    GOODLOCK_DEBUG_LANE_,
    GOODLOCK_DEBUG_REPORT_,
    GOODLOCK_DEBUG_TABLE_, /* of goodlock_names.h */
    GOODLOCK_DEBUG_KINDS_
};

/* What is behind a handle, or was. */
struct goodlock_debug_entry_ {
    void *at;                               /* what the handle holds */
    void *place;                            /* where the handle is */
    void *left[GOODLOCK_DEBUG_LEFT_];       /* where it was before, the last place first */
    const char *given_back;                 /* by which call; NULL: it is open */
    struct goodlock_debug_entry_ *older;    /* in its bucket by `at` */
    struct goodlock_debug_entry_ *next;     /* that was given back after it */
    struct goodlock_debug_entry_ *numbered; /* in its bucket by number: a session */
    uint64_t number;                        /* of the session */
    uint64_t turn;                          /* of its opening */
    uint32_t thread;                        /* of a lane */
    int kind;
    bool is_claimed;   /* a session that is open, was, or is being opened */
    bool is_closed;    /* a lane */
    bool is_mentioned; /* a report with its own names */
};

/* A pointer that is handed over. */
struct goodlock_debug_span_ {
    const char *word;
    const void *at;
    size_t size;
    bool is_written;
};

/* A handle that is handed over. */
struct goodlock_debug_handle_ {
    void **place;
    void *before; /* what it held then */
    int kind;
    bool is_shared;                      /* with other calls to which it is, too */
    struct goodlock_debug_entry_ *entry; /* NULL: it was all zero */
};

/* A call that is made. */
struct goodlock_debug_call_ {
    const char *name;
    struct goodlock_debug_span_ spans[GOODLOCK_DEBUG_SPANS_];
    unsigned span_count;
    struct goodlock_debug_handle_ handles[GOODLOCK_DEBUG_HANDLES_];
    unsigned handle_count;
    struct goodlock_debug_entry_ *made;  /* for what it opens */
    struct goodlock_debug_entry_ *spare; /* to be freed after the call */
    struct goodlock_debug_call_ *before, *after;
    uint64_t number; /* of the session that it opens */
    uint32_t thread; /* of the lane that it opened */
    bool opens, opens_session, opens_mentioned, has_closed, frees_lane, prints, tells;
};

/* What all files share: all zero at first. */
struct goodlock_debug_all_ {
    int lock;
    int files;    /* that include this one, and weren't left yet */
    long process; /* that made the first call */
    void *teller; /* the thread that tells of a fault */
    struct goodlock_debug_call_ *calls;
    struct goodlock_debug_entry_ *buckets[GOODLOCK_DEBUG_BUCKETS_];
    struct goodlock_debug_entry_ *numbers[GOODLOCK_DEBUG_BUCKETS_];
    struct goodlock_debug_entry_ *first_back, *last_back; /* lanes, reports and tables that were given back */
    unsigned back_count;
    uint64_t turns;
};

extern struct goodlock_debug_all_ goodlock_debug_all_;
extern __thread const char *goodlock_debug_inside_; /* the call that this thread is in */
GOODLOCK_DEBUG_SHARED_ struct goodlock_debug_all_ goodlock_debug_all_;
GOODLOCK_DEBUG_SHARED_ __thread const char *goodlock_debug_inside_;

/* ---- Telling */

/* Writes the line and ends the program. Of threads that come here at once one writes. */
static inline __attribute__((noreturn, format(printf, 3, 4))) void
goodlock_debug_tell_(const char *call, const char *promise, const char *format, ...)
{
    char happened[GOODLOCK_DEBUG_LINE_ / 2], line[GOODLOCK_DEBUG_LINE_];
    void *teller = GOODLOCK_DEBUG_NULL_, *const own = &goodlock_debug_inside_;
    va_list words;
    if (__atomic_compare_exchange_n(&goodlock_debug_all_.teller, &teller, own, 0, __ATOMIC_ACQ_REL, __ATOMIC_ACQUIRE)) {
        va_start(words, format);
        vsnprintf(happened, sizeof happened, format, words);
        va_end(words);
        snprintf(line, sizeof line, "goodlock: %s: %s: %s\n", call, promise, happened);
        if (write(STDERR_FILENO, line, strlen(line)) < 0)
            abort();
    } else if (teller != own) {
        sleep(1);
    }
    abort();
}

static inline const char *goodlock_debug_kind_(int kind)
{
    static const char *const words[GOODLOCK_DEBUG_KINDS_] = {"session", "lane", "report", "table"};
    return words[kind];
}

/* Words for what is behind a handle. */
static inline const char *goodlock_debug_words_(const struct goodlock_debug_entry_ *entry,
                                                char words[GOODLOCK_DEBUG_WORDS_])
{
    const unsigned long long number = entry->number;
    if (entry->kind == GOODLOCK_DEBUG_SESSION_)
        snprintf(words, GOODLOCK_DEBUG_WORDS_, "session %llu", number);
    else if (entry->kind == GOODLOCK_DEBUG_LANE_)
        snprintf(words, GOODLOCK_DEBUG_WORDS_, "lane %lu of session %llu",
                 GOODLOCK_DEBUG_AS_(unsigned long, entry->thread), number);
    else if (entry->kind == GOODLOCK_DEBUG_REPORT_)
        snprintf(words, GOODLOCK_DEBUG_WORDS_, "a report of session %llu", number);
    else
        snprintf(words, GOODLOCK_DEBUG_WORDS_, "a table of names");
    return words;
}

/* ---- The table, under its lock */

static inline void goodlock_debug_lock_(void)
{
    while (__atomic_exchange_n(&goodlock_debug_all_.lock, 1, __ATOMIC_ACQUIRE) != 0)
        sched_yield();
}

static inline void goodlock_debug_unlock_(void)
{
    __atomic_store_n(&goodlock_debug_all_.lock, 0, __ATOMIC_RELEASE);
}

static inline struct goodlock_debug_entry_ **goodlock_debug_bucket_(const void *at)
{
    return &goodlock_debug_all_.buckets[(GOODLOCK_DEBUG_POINTER_AS_(uintptr_t, at) >> 4) % GOODLOCK_DEBUG_BUCKETS_];
}

static inline struct goodlock_debug_entry_ *goodlock_debug_find_(const void *at)
{
    struct goodlock_debug_entry_ *entry = *goodlock_debug_bucket_(at);
    while (entry && entry->at != at)
        entry = entry->older;
    return entry;
}

/* Takes the entry out of its bucket, where it is there. */
static inline void goodlock_debug_unlink_(const struct goodlock_debug_entry_ *entry)
{
    struct goodlock_debug_entry_ **link = goodlock_debug_bucket_(entry->at);
    while (*link && *link != entry)
        link = &(*link)->older;
    if (*link)
        *link = entry->older;
}

/* The session that was given this number, or NULL. */
static inline struct goodlock_debug_entry_ *goodlock_debug_numbered_(uint64_t number)
{
    struct goodlock_debug_entry_ *entry = goodlock_debug_all_.numbers[number % GOODLOCK_DEBUG_BUCKETS_];
    while (entry && entry->number != number)
        entry = entry->numbered;
    return entry;
}

/* Gives the session that is opened its number. One that failed to open is used again. */
static inline void goodlock_debug_claim_(struct goodlock_debug_call_ *call)
{
    struct goodlock_debug_entry_ **const bucket = &goodlock_debug_all_.numbers[call->number % GOODLOCK_DEBUG_BUCKETS_];
    struct goodlock_debug_entry_ *const known = goodlock_debug_numbered_(call->number);
    if (known && known->is_claimed)
        goodlock_debug_tell_(call->name, "each session of a process has a number of its own",
                             "number %llu was given to another one",
                             GOODLOCK_DEBUG_AS_(unsigned long long, call->number));
    if (known) {
        call->spare = call->made;
        call->made = known;
    } else {
        call->made->number = call->number;
        call->made->numbered = *bucket;
        *bucket = call->made;
    }
    call->made->is_claimed = true;
}

/* Keeps what a call opened. What was at that address before is no more. */
static inline void goodlock_debug_keep_(struct goodlock_debug_call_ *call, const struct goodlock_debug_handle_ *handle,
                                        void *now)
{
    struct goodlock_debug_entry_ *const own = call->made, *const old = goodlock_debug_find_(now);
    const struct goodlock_debug_entry_ *const session = call->handles[0].entry;
    struct goodlock_debug_entry_ **const bucket = goodlock_debug_bucket_(now);
    call->made = GOODLOCK_DEBUG_NULL_;
    if (!own)
        return;
    if (old)
        goodlock_debug_unlink_(old);
    own->at = now;
    own->place = handle->place;
    own->kind = handle->kind;
    own->number = session ? session->number : call->number;
    own->thread = call->thread;
    own->turn = ++goodlock_debug_all_.turns;
    own->is_mentioned = call->opens_mentioned;
    own->older = *bucket;
    *bucket = own;
}

/* Keeps that it was given back, and for all but sessions forgets the oldest one of which that is kept. */
static inline void goodlock_debug_give_back_(struct goodlock_debug_call_ *call, struct goodlock_debug_entry_ *entry)
{
    struct goodlock_debug_all_ *const all = &goodlock_debug_all_;
    entry->given_back = call->name;
    if (entry->kind == GOODLOCK_DEBUG_SESSION_)
        return;
    if (!all->last_back)
        all->first_back = entry;
    else
        all->last_back->next = entry;
    all->last_back = entry;
    if (++all->back_count <= GOODLOCK_DEBUG_REMEMBERED_)
        return;
    call->spare = all->first_back;
    all->first_back = call->spare->next;
    all->back_count--;
    goodlock_debug_unlink_(call->spare);
}

/* ---- Before a call: what is handed over */

static inline void goodlock_debug_new_(struct goodlock_debug_call_ *call, const char *name)
{
    memset(call, 0, sizeof *call);
    call->name = name;
}

static inline void goodlock_debug_over_(struct goodlock_debug_call_ *call, const char *word, const void *at,
                                        size_t size, bool is_written)
{
    struct goodlock_debug_span_ *const span = &call->spans[call->span_count++];
    span->word = word;
    span->at = at;
    span->size = size;
    span->is_written = is_written;
}

/* A handle is a struct of one pointer. */
static inline void goodlock_debug_given_(struct goodlock_debug_call_ *call, int kind, void *handle)
{
    struct goodlock_debug_handle_ *const own = &call->handles[call->handle_count++];
    own->place = GOODLOCK_DEBUG_AS_(void **, handle);
    own->kind = kind;
    goodlock_debug_over_(call, goodlock_debug_kind_(kind), handle, sizeof(void *), true);
}

/* Checks that this pointer isn't null, that there can be as many bytes as are said, and that none of them is an earlier
 * one's. */
static inline void goodlock_debug_apart_(const struct goodlock_debug_call_ *call, unsigned own)
{
    const struct goodlock_debug_span_ *const one = &call->spans[own];
    const uintptr_t begin = GOODLOCK_DEBUG_POINTER_AS_(uintptr_t, one->at), end = begin + one->size;
    if (begin == 0)
        goodlock_debug_tell_(call->name, "no pointer that is handed over is null", "`%s` is", one->word);
    if (one->size > GOODLOCK_DEBUG_AS_(size_t, PTRDIFF_MAX))
        goodlock_debug_tell_(call->name, "a pointer stands for as many bytes as are said", "`%s` can't for %zu",
                             one->word, one->size);
    for (unsigned i = 0; i < own; i++) {
        const struct goodlock_debug_span_ *const two = &call->spans[i];
        const uintptr_t at = GOODLOCK_DEBUG_POINTER_AS_(uintptr_t, two->at);
        const bool has_bytes = one->size > 0 && two->size > 0;
        if (has_bytes && (one->is_written || two->is_written) && begin < at + two->size && at < end)
            goodlock_debug_tell_(call->name, "what is written to overlaps with nothing else that is handed over",
                                 "`%s` and `%s` overlap", two->word, one->word);
    }
}

static inline void goodlock_debug_pointers_(const struct goodlock_debug_call_ *call)
{
    for (unsigned i = 0; i < call->span_count; i++)
        goodlock_debug_apart_(call, i);
}

/* Checks that the thread is in no call, and the process the one of the first call. */
static inline void goodlock_debug_where_(const struct goodlock_debug_call_ *call)
{
    const long process = GOODLOCK_DEBUG_AS_(long, getpid());
    long first = 0;
    if (goodlock_debug_inside_)
        goodlock_debug_tell_(call->name, "no call is made within another one, as by a signal handler or an allocator",
                             "this thread is in %s", goodlock_debug_inside_);
    if (__atomic_compare_exchange_n(&goodlock_debug_all_.process, &first, process, 0, __ATOMIC_RELAXED,
                                    __ATOMIC_RELAXED))
        first = process;
    if (first != process)
        goodlock_debug_tell_(call->name, "no call is made in the child of a fork",
                             "this is process %ld, and the first call was made in process %ld", process, first);
}

/* ---- Before a call: its handles, under the lock */

/* Checks that another call isn't on the same handle. */
static inline void goodlock_debug_meet_(const struct goodlock_debug_call_ *call,
                                        const struct goodlock_debug_handle_ *handle,
                                        const struct goodlock_debug_call_ *other)
{
    char words[GOODLOCK_DEBUG_WORDS_];
    for (unsigned i = 0; i < other->handle_count; i++) {
        const struct goodlock_debug_handle_ *const its = &other->handles[i];
        const bool is_copy = its->before && its->before == handle->before;
        const bool is_shared = its->is_shared && handle->is_shared && !(call->tells && other->tells);
        if ((its->place != handle->place && !is_copy) || is_shared)
            continue;
        snprintf(words, sizeof words, "this %s", goodlock_debug_kind_(handle->kind));
        goodlock_debug_tell_(call->name, "a handle is given to one call at a time", "another thread is in %s with %s",
                             other->name, its->entry ? goodlock_debug_words_(its->entry, words) : words);
    }
}

static inline void goodlock_debug_alone_(const struct goodlock_debug_call_ *call,
                                         const struct goodlock_debug_handle_ *handle)
{
    for (const struct goodlock_debug_call_ *other = goodlock_debug_all_.calls; other; other = other->after)
        goodlock_debug_meet_(call, handle, other);
}

/* Keeps where the handle is now. */
static inline void goodlock_debug_move_(const struct goodlock_debug_call_ *call, struct goodlock_debug_entry_ *entry,
                                        void *place)
{
    char words[GOODLOCK_DEBUG_WORDS_];
    for (unsigned i = 0; GOODLOCK_DEBUG_IS_STRICT_ && i < GOODLOCK_DEBUG_LEFT_; i++)
        if (entry->left[i] == place)
            goodlock_debug_tell_(call->name, "a handle isn't used where it was before it was moved",
                                 "%s was used elsewhere meanwhile", goodlock_debug_words_(entry, words));
    memmove(&entry->left[1], &entry->left[0], sizeof entry->left - sizeof entry->left[0]);
    entry->left[0] = entry->place;
    entry->place = place;
}

/* Finds what the handle is of, and checks that it is open. */
static inline void goodlock_debug_look_(const struct goodlock_debug_call_ *call, struct goodlock_debug_handle_ *handle)
{
    struct goodlock_debug_entry_ *entry;
    char words[GOODLOCK_DEBUG_WORDS_];
    handle->before = __atomic_load_n(handle->place, __ATOMIC_RELAXED);
    goodlock_debug_alone_(call, handle);
    if (!handle->before)
        return;
    entry = goodlock_debug_find_(handle->before);
    if (!entry || entry->kind != handle->kind)
        goodlock_debug_tell_(call->name, "a handle is all zero until it is opened, and changed by these calls alone",
                             "what this %s holds is of none that is open", goodlock_debug_kind_(handle->kind));
    if (entry->given_back)
        goodlock_debug_tell_(call->name, "a handle isn't used after it was given back, nor is a copy of it",
                             "%s was given back by %s", goodlock_debug_words_(entry, words), entry->given_back);
    if (entry->place != handle->place)
        goodlock_debug_move_(call, entry, handle->place);
    handle->entry = entry;
}

/* Checks what a call has its handles be beyond that. */
static inline void goodlock_debug_fit_(const struct goodlock_debug_call_ *call)
{
    const struct goodlock_debug_entry_ *const one = call->handles[0].entry, *const two = call->handles[1].entry,
                                              *session;
    char words[GOODLOCK_DEBUG_WORDS_];
    if (call->prints && one && two && one->number != two->number && !two->is_mentioned)
        goodlock_debug_tell_(call->name, "the text of a report is made by its own session",
                             "%s was given to session %llu", goodlock_debug_words_(two, words),
                             GOODLOCK_DEBUG_AS_(unsigned long long, one->number));
    if (!GOODLOCK_DEBUG_IS_STRICT_ || !call->frees_lane || !one || one->is_closed)
        return;
    session = goodlock_debug_numbered_(one->number);
    if (session && !session->given_back)
        goodlock_debug_tell_(call->name, "a lane is closed before it is freed", "%s is not",
                             goodlock_debug_words_(one, words));
}

/* ---- A call */

/* Checks the call before it is made. False: memory for what it opens was refused, and it isn't made. */
static inline bool goodlock_debug_enter_(struct goodlock_debug_call_ *call)
{
    struct goodlock_debug_all_ *const all = &goodlock_debug_all_;
    goodlock_debug_where_(call);
    goodlock_debug_pointers_(call);
    goodlock_debug_inside_ = call->name;
    if (call->opens) {
        call->made = GOODLOCK_DEBUG_AS_(struct goodlock_debug_entry_ *, calloc(1, sizeof *call->made));
        if (!call->made) {
            goodlock_debug_inside_ = GOODLOCK_DEBUG_NULL_;
            return false;
        }
    }
    goodlock_debug_lock_();
    for (unsigned i = 0; i < call->handle_count; i++)
        goodlock_debug_look_(call, &call->handles[i]);
    goodlock_debug_fit_(call);
    if (call->opens_session && !call->handles[0].before)
        goodlock_debug_claim_(call);
    call->after = all->calls;
    if (call->after)
        call->after->before = call;
    all->calls = call;
    goodlock_debug_unlock_();
    return true;
}

/* The call is over. */
static inline void goodlock_debug_end_(struct goodlock_debug_call_ *call)
{
    if (!call->before)
        goodlock_debug_all_.calls = call->after;
    else
        call->before->after = call->after;
    if (call->after)
        call->after->before = call->before;
}

/* Keeps what a call did to a handle. */
static inline void goodlock_debug_done_(struct goodlock_debug_call_ *call, struct goodlock_debug_handle_ *handle)
{
    void *const now = __atomic_load_n(handle->place, __ATOMIC_RELAXED);
    if (!handle->before && now)
        goodlock_debug_keep_(call, handle, now);
    if (handle->entry && !now)
        goodlock_debug_give_back_(call, handle->entry);
    if (handle->entry && call->has_closed)
        handle->entry->is_closed = true;
}

/* Keeps what the call did. An entry that it didn't need is freed, but for a number's, which stays in the table. */
static inline void goodlock_debug_leave_(struct goodlock_debug_call_ *call)
{
    goodlock_debug_lock_();
    goodlock_debug_end_(call);
    for (unsigned i = 0; i < call->handle_count; i++)
        goodlock_debug_done_(call, &call->handles[i]);
    if (call->made && call->made->is_claimed) {
        call->made->is_claimed = false;
        call->made = GOODLOCK_DEBUG_NULL_;
    }
    goodlock_debug_unlock_();
    free(call->made);
    free(call->spare);
    goodlock_debug_inside_ = GOODLOCK_DEBUG_NULL_;
}

/* ---- The end of the program */

struct goodlock_debug_rest_ {
    unsigned long open[GOODLOCK_DEBUG_KINDS_], unclosed;
    const struct goodlock_debug_entry_ *first;
};

/* Counts what of a bucket is open. */
static inline void goodlock_debug_count_(struct goodlock_debug_rest_ *rest, const struct goodlock_debug_entry_ *entry)
{
    for (; entry; entry = entry->older) {
        if (entry->given_back)
            continue;
        rest->open[entry->kind]++;
        rest->unclosed += entry->kind == GOODLOCK_DEBUG_LANE_ && !entry->is_closed;
        if (!rest->first || entry->turn < rest->first->turn)
            rest->first = entry;
    }
}

/* Checks that all was given back. */
static inline void goodlock_debug_last_(void)
{
    struct goodlock_debug_all_ *const all = &goodlock_debug_all_;
    struct goodlock_debug_rest_ rest;
    char words[GOODLOCK_DEBUG_WORDS_];
    memset(&rest, 0, sizeof rest);
    if (goodlock_debug_inside_ ||
        __atomic_load_n(&all->process, __ATOMIC_RELAXED) != GOODLOCK_DEBUG_AS_(long, getpid()))
        return;
    goodlock_debug_lock_();
    for (unsigned i = 0; i < GOODLOCK_DEBUG_BUCKETS_; i++)
        goodlock_debug_count_(&rest, all->buckets[i]);
    if (rest.first)
        goodlock_debug_tell_("the end of the program", "what was opened is given back",
                             "left are sessions: %lu, lanes: %lu (not closed: %lu), reports: %lu, tables: %lu; "
                             "the first is %s",
                             rest.open[GOODLOCK_DEBUG_SESSION_], rest.open[GOODLOCK_DEBUG_LANE_], rest.unclosed,
                             rest.open[GOODLOCK_DEBUG_REPORT_], rest.open[GOODLOCK_DEBUG_TABLE_],
                             goodlock_debug_words_(rest.first, words));
    goodlock_debug_unlock_();
}

/* The last file that is left checks it: by its priority, after the destructors of static objects. */
static __attribute__((constructor(101))) void goodlock_debug_arrive_(void)
{
    __atomic_add_fetch(&goodlock_debug_all_.files, 1, __ATOMIC_RELAXED);
}

static __attribute__((destructor(101))) void goodlock_debug_depart_(void)
{
    if (__atomic_sub_fetch(&goodlock_debug_all_.files, 1, __ATOMIC_RELAXED) == 0)
        goodlock_debug_last_();
}

/* ---- The calls of goodlock.h, checked */

static inline uint32_t goodlock_debug_open_(uint64_t number, uint32_t threads, uint32_t ring, goodlock_session *session)
{
    struct goodlock_debug_call_ call;
    uint32_t code;
    goodlock_debug_new_(&call, "goodlock_open");
    goodlock_debug_given_(&call, GOODLOCK_DEBUG_SESSION_, session);
    call.opens = call.opens_session = true;
    call.number = number;
    if (!goodlock_debug_enter_(&call))
        return GOODLOCK_MEMORY;
    code = goodlock_open(number, threads, ring, session);
    goodlock_debug_leave_(&call);
    return code;
}

static inline uint32_t goodlock_debug_lane_open_(goodlock_session *session, goodlock_lane *lane, uint32_t *thread)
{
    struct goodlock_debug_call_ call;
    uint32_t code;
    goodlock_debug_new_(&call, "goodlock_lane_open");
    goodlock_debug_given_(&call, GOODLOCK_DEBUG_SESSION_, session);
    goodlock_debug_given_(&call, GOODLOCK_DEBUG_LANE_, lane);
    goodlock_debug_over_(&call, "thread", thread, sizeof *thread, true);
    call.opens = true;
    if (!goodlock_debug_enter_(&call))
        return GOODLOCK_MEMORY;
    code = goodlock_lane_open(session, lane, thread);
    if (code == GOODLOCK_OK)
        call.thread = *thread;
    goodlock_debug_leave_(&call);
    return code;
}

typedef uint32_t goodlock_debug_naming_(goodlock_session *, const uint8_t *, size_t, uint32_t *);

static inline uint32_t goodlock_debug_name_(const char *words, const char *word, goodlock_debug_naming_ *call_by,
                                            goodlock_session *session, const uint8_t *name, size_t length,
                                            uint32_t *number)
{
    struct goodlock_debug_call_ call;
    uint32_t code;
    goodlock_debug_new_(&call, words);
    goodlock_debug_given_(&call, GOODLOCK_DEBUG_SESSION_, session);
    goodlock_debug_over_(&call, "name", name, length, false);
    goodlock_debug_over_(&call, word, number, sizeof *number, true);
    goodlock_debug_enter_(&call);
    code = call_by(session, name, length, number);
    goodlock_debug_leave_(&call);
    return code;
}

static inline uint32_t goodlock_debug_lock_of_(goodlock_session *session, const uint8_t *name, size_t length,
                                               uint32_t *lock)
{
    return goodlock_debug_name_("goodlock_lock", "lock", goodlock_lock, session, name, length, lock);
}

static inline uint32_t goodlock_debug_place_(goodlock_session *session, const uint8_t *name, size_t length,
                                             uint32_t *place)
{
    return goodlock_debug_name_("goodlock_place", "place", goodlock_place, session, name, length, place);
}

static inline uint32_t goodlock_debug_pull_(goodlock_session *session, uint32_t most, goodlock_pulled *pulled)
{
    struct goodlock_debug_call_ call;
    uint32_t code;
    goodlock_debug_new_(&call, "goodlock_pull");
    goodlock_debug_given_(&call, GOODLOCK_DEBUG_SESSION_, session);
    goodlock_debug_over_(&call, "pulled", pulled, sizeof *pulled, true);
    goodlock_debug_enter_(&call);
    code = goodlock_pull(session, most, pulled);
    goodlock_debug_leave_(&call);
    return code;
}

static inline uint32_t goodlock_debug_pull_lane_(goodlock_session *session, uint32_t thread, uint32_t most,
                                                 goodlock_pulled *pulled)
{
    struct goodlock_debug_call_ call;
    uint32_t code;
    goodlock_debug_new_(&call, "goodlock_pull_lane");
    goodlock_debug_given_(&call, GOODLOCK_DEBUG_SESSION_, session);
    goodlock_debug_over_(&call, "pulled", pulled, sizeof *pulled, true);
    goodlock_debug_enter_(&call);
    code = goodlock_pull_lane(session, thread, most, pulled);
    goodlock_debug_leave_(&call);
    return code;
}

typedef uint32_t goodlock_debug_reporting_(goodlock_session *, uint32_t, uint32_t, uint32_t, goodlock_report *);

/* Makes a report: its mode, the greatest length of a cycle, and the most cycles or findings. */
static inline uint32_t goodlock_debug_report_(const char *words, goodlock_debug_reporting_ *call_by, bool is_mentioned,
                                              goodlock_session *session, const uint32_t asked[3],
                                              goodlock_report *report)
{
    struct goodlock_debug_call_ call;
    uint32_t code;
    goodlock_debug_new_(&call, words);
    goodlock_debug_given_(&call, GOODLOCK_DEBUG_SESSION_, session);
    goodlock_debug_given_(&call, GOODLOCK_DEBUG_REPORT_, report);
    call.opens = true;
    call.opens_mentioned = is_mentioned;
    if (!goodlock_debug_enter_(&call))
        return GOODLOCK_MEMORY;
    code = call_by(session, asked[0], asked[1], asked[2], report);
    goodlock_debug_leave_(&call);
    return code;
}

static inline uint32_t goodlock_debug_report_so_far_(goodlock_session *session, uint32_t mode, uint32_t length,
                                                     uint32_t number, goodlock_report *report)
{
    const uint32_t asked[3] = {mode, length, number};
    return goodlock_debug_report_("goodlock_report_so_far", goodlock_report_so_far, false, session, asked, report);
}

static inline uint32_t goodlock_debug_findings_so_far_(goodlock_session *session, uint32_t mode, uint32_t length,
                                                       uint32_t number, goodlock_report *report)
{
    const uint32_t asked[3] = {mode, length, number};
    return goodlock_debug_report_("goodlock_findings_so_far", goodlock_findings_so_far, false, session, asked, report);
}

static inline uint32_t goodlock_debug_settled_report_(goodlock_session *session, uint32_t mode, uint32_t length,
                                                      uint32_t number, goodlock_report *report)
{
    const uint32_t asked[3] = {mode, length, number};
    return goodlock_debug_report_("goodlock_settled_report", goodlock_settled_report, false, session, asked, report);
}

static inline uint32_t goodlock_debug_settled_findings_(goodlock_session *session, uint32_t mode, uint32_t length,
                                                        uint32_t number, goodlock_report *report)
{
    const uint32_t asked[3] = {mode, length, number};
    return goodlock_debug_report_("goodlock_settled_findings", goodlock_settled_findings, false, session, asked,
                                  report);
}

static inline uint32_t goodlock_debug_report_by_mention_(goodlock_session *session, uint32_t mode, uint32_t length,
                                                         uint32_t number, goodlock_report *report)
{
    const uint32_t asked[3] = {mode, length, number};
    return goodlock_debug_report_("goodlock_report_by_mention", goodlock_report_by_mention, true, session, asked,
                                  report);
}

static inline uint32_t goodlock_debug_findings_by_mention_(goodlock_session *session, uint32_t mode, uint32_t length,
                                                           uint32_t number, goodlock_report *report)
{
    const uint32_t asked[3] = {mode, length, number};
    return goodlock_debug_report_("goodlock_findings_by_mention", goodlock_findings_by_mention, true, session, asked,
                                  report);
}

static inline uint32_t goodlock_debug_hand_in_(goodlock_session *session, goodlock_lane *lane)
{
    struct goodlock_debug_call_ call;
    uint32_t code;
    goodlock_debug_new_(&call, "goodlock_hand_in");
    goodlock_debug_given_(&call, GOODLOCK_DEBUG_SESSION_, session);
    goodlock_debug_given_(&call, GOODLOCK_DEBUG_LANE_, lane);
    goodlock_debug_enter_(&call);
    code = goodlock_hand_in(session, lane);
    goodlock_debug_leave_(&call);
    return code;
}

static inline uint32_t goodlock_debug_settle_(goodlock_session *session, uint32_t *thread)
{
    struct goodlock_debug_call_ call;
    uint32_t code;
    goodlock_debug_new_(&call, "goodlock_settle");
    goodlock_debug_given_(&call, GOODLOCK_DEBUG_SESSION_, session);
    goodlock_debug_over_(&call, "thread", thread, sizeof *thread, true);
    goodlock_debug_enter_(&call);
    code = goodlock_settle(session, thread);
    goodlock_debug_leave_(&call);
    return code;
}

typedef uint32_t goodlock_debug_printing_(goodlock_session *, goodlock_report *, uint8_t *, size_t, size_t *);

static inline uint32_t goodlock_debug_print_(const char *words, goodlock_debug_printing_ *call_by,
                                             goodlock_session *session, goodlock_report *report, uint8_t *buffer,
                                             size_t size, size_t *needed)
{
    struct goodlock_debug_call_ call;
    uint32_t code;
    goodlock_debug_new_(&call, words);
    goodlock_debug_given_(&call, GOODLOCK_DEBUG_SESSION_, session);
    goodlock_debug_given_(&call, GOODLOCK_DEBUG_REPORT_, report);
    goodlock_debug_over_(&call, "buffer", buffer, size, true);
    goodlock_debug_over_(&call, "needed", needed, sizeof *needed, true);
    call.prints = true;
    goodlock_debug_enter_(&call);
    code = call_by(session, report, buffer, size, needed);
    goodlock_debug_leave_(&call);
    return code;
}

static inline uint32_t goodlock_debug_text_(goodlock_session *session, goodlock_report *report, uint8_t *buffer,
                                            size_t size, size_t *needed)
{
    return goodlock_debug_print_("goodlock_text", goodlock_text, session, report, buffer, size, needed);
}

static inline uint32_t goodlock_debug_json_(goodlock_session *session, goodlock_report *report, uint8_t *buffer,
                                            size_t size, size_t *needed)
{
    return goodlock_debug_print_("goodlock_json", goodlock_json, session, report, buffer, size, needed);
}

static inline uint32_t goodlock_debug_cycles_(goodlock_report *report, size_t *cycles, bool *more)
{
    struct goodlock_debug_call_ call;
    uint32_t code;
    goodlock_debug_new_(&call, "goodlock_cycles");
    goodlock_debug_given_(&call, GOODLOCK_DEBUG_REPORT_, report);
    goodlock_debug_over_(&call, "cycles", cycles, sizeof *cycles, true);
    goodlock_debug_over_(&call, "more", more, sizeof *more, true);
    goodlock_debug_enter_(&call);
    code = goodlock_cycles(report, cycles, more);
    goodlock_debug_leave_(&call);
    return code;
}

static inline void goodlock_debug_session_free_(goodlock_session *session)
{
    struct goodlock_debug_call_ call;
    goodlock_debug_new_(&call, "goodlock_session_free");
    goodlock_debug_given_(&call, GOODLOCK_DEBUG_SESSION_, session);
    goodlock_debug_enter_(&call);
    goodlock_session_free(session);
    goodlock_debug_leave_(&call);
}

static inline void goodlock_debug_lane_free_(goodlock_lane *lane)
{
    struct goodlock_debug_call_ call;
    goodlock_debug_new_(&call, "goodlock_lane_free");
    goodlock_debug_given_(&call, GOODLOCK_DEBUG_LANE_, lane);
    call.frees_lane = true;
    goodlock_debug_enter_(&call);
    goodlock_lane_free(lane);
    goodlock_debug_leave_(&call);
}

static inline void goodlock_debug_report_free_(goodlock_report *report)
{
    struct goodlock_debug_call_ call;
    goodlock_debug_new_(&call, "goodlock_report_free");
    goodlock_debug_given_(&call, GOODLOCK_DEBUG_REPORT_, report);
    goodlock_debug_enter_(&call);
    goodlock_report_free(report);
    goodlock_debug_leave_(&call);
}

static inline uint32_t goodlock_debug_record_(goodlock_lane *lane, uint32_t kind, uint32_t operand, uint32_t place,
                                              uint32_t *at)
{
    struct goodlock_debug_call_ call;
    uint32_t code;
    goodlock_debug_new_(&call, "goodlock_record");
    goodlock_debug_given_(&call, GOODLOCK_DEBUG_LANE_, lane);
    goodlock_debug_over_(&call, "at", at, sizeof *at, true);
    goodlock_debug_enter_(&call);
    code = goodlock_record(lane, kind, operand, place, at);
    goodlock_debug_leave_(&call);
    return code;
}

static inline uint32_t goodlock_debug_close_(goodlock_lane *lane)
{
    struct goodlock_debug_call_ call;
    uint32_t code;
    goodlock_debug_new_(&call, "goodlock_close");
    goodlock_debug_given_(&call, GOODLOCK_DEBUG_LANE_, lane);
    goodlock_debug_enter_(&call);
    code = goodlock_close(lane);
    call.has_closed = code == GOODLOCK_OK || code == GOODLOCK_UNCONFIRMED;
    goodlock_debug_leave_(&call);
    return code;
}

#ifdef __cplusplus
}
#endif

#define goodlock_open goodlock_debug_open_
#define goodlock_lane_open goodlock_debug_lane_open_
#define goodlock_lock goodlock_debug_lock_of_
#define goodlock_place goodlock_debug_place_
#define goodlock_pull goodlock_debug_pull_
#define goodlock_pull_lane goodlock_debug_pull_lane_
#define goodlock_report_so_far goodlock_debug_report_so_far_
#define goodlock_findings_so_far goodlock_debug_findings_so_far_
#define goodlock_settled_report goodlock_debug_settled_report_
#define goodlock_settled_findings goodlock_debug_settled_findings_
#define goodlock_report_by_mention goodlock_debug_report_by_mention_
#define goodlock_findings_by_mention goodlock_debug_findings_by_mention_
#define goodlock_hand_in goodlock_debug_hand_in_
#define goodlock_settle goodlock_debug_settle_
#define goodlock_text goodlock_debug_text_
#define goodlock_json goodlock_debug_json_
#define goodlock_cycles goodlock_debug_cycles_
#define goodlock_session_free goodlock_debug_session_free_
#define goodlock_lane_free goodlock_debug_lane_free_
#define goodlock_report_free goodlock_debug_report_free_
#define goodlock_record goodlock_debug_record_
#define goodlock_close goodlock_debug_close_

#endif
