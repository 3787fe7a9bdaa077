/* Threads: their state, how they begin and end, and the calls that make and join them. */
#define _GNU_SOURCE
#include <errno.h>
#include <limits.h>
#include <signal.h>
#include <string.h>
#include <sys/mman.h>
#include <sys/resource.h>
#include <sys/syscall.h>
#include <unistd.h>

#include "confirm.h"
#include "process.h"
#include "real.h"

#define SLAB_BYTES (1u << 20)
#define CHUNK_DOUBLINGS 8

/* The thread's record stays after its state is given back: calls that come later still, from the
 * destructors of other keys, are recorded under the same number. */
static __thread struct thread_record *own_record;

static pthread_key_t exit_key;
static int exit_key_made;

/* --- State of a thread ---------------------------------------------------------------------------------- */

static struct thread *thread_pages(void)
{
    struct thread *thread = process.free_threads;
    if (thread) {
        process.free_threads = thread->next_free;
        memset(thread, 0, sizeof *thread);
        return thread;
    }
    size_t bytes = (sizeof *thread + 63) & ~(size_t)63;
    if (!process.thread_slab || process.thread_slab_used + bytes > SLAB_BYTES) {
        process.thread_slab = pages_new_wiped(SLAB_BYTES);
        process.thread_slab_used = 0;
    }
    if (!process.thread_slab)
        return NULL;
    thread = (struct thread *)(process.thread_slab + process.thread_slab_used);
    process.thread_slab_used += bytes;
    return thread;
}

/* Chunks grow; where there is no room for a large one it is a small one. */
static int thread_chunk(struct thread *thread)
{
    uint64_t order = thread->record->chunks;
    uint32_t bytes = CHUNK_UNIT << (order < CHUNK_DOUBLINGS ? order : CHUNK_DOUBLINGS);
    struct chunk *chunk = NULL;
    for (; !chunk && bytes >= CHUNK_UNIT; bytes /= 2)
        chunk = chunk_new(CHUNK_EVENTS, thread->number, (uint32_t)order, bytes);
    if (!chunk) {
        loss_begins();
        return 0;
    }
    thread->record->chunks++;
    thread->news++; /* what was stored before isn't left out any more */
    thread->chunk = chunk;
    return 1;
}

/* The C++ library runs an object whose class, and perhaps a function pointer in it, tell what the thread
 * runs. Its size isn't known; reading on to the end of its page does no harm. */
static void object_copy(uint64_t *words, const void *object)
{
    uintptr_t start = (uintptr_t)object;
    size_t room = (CHUNK_UNIT - start % CHUNK_UNIT) / sizeof(uint64_t);
    if (start % sizeof(uint64_t) == 0)
        for (size_t i = 0; i < OBJECT_WORDS && i < room; i++)
            words[i] = ((const uint64_t *)object)[i];
}

static struct thread_record *thread_record_new(uint64_t parent, uint64_t child, uint64_t routine, void *argument)
{
    int object = argument && runs_object(routine); /* may write records itself */
    struct thread_record *record = record_new(RECORD_THREAD, sizeof *record);
    if (!record)
        return NULL;
    record->thread = process.next_thread++;
    record->parent = parent;
    record->child = child;
    record->routine = routine;
    if (object)
        object_copy(record->object, argument);
    record_done(record);
    return record;
}

static void thread_map(pthread_t handle, uint64_t number)
{
    struct slot *slot = table_place(&process.threads, (uint64_t)handle);
    if (slot)
        __atomic_store_n(&slot->value, number + 1, __ATOMIC_RELEASE);
}

/* A thread that no recorded call made: the first one, or one that a library made by itself. */
static struct thread_record *thread_record_found(void)
{
    int first = process.next_thread == 0 && syscall(SYS_gettid) == getpid();
    if (process.next_thread == 0 && !first)
        process.next_thread = 1; /* 0 is kept for the first thread */
    struct thread_record *record = thread_record_new(first ? 0 : THREAD_FOREIGN, 0, 0, NULL);
    if (record)
        thread_map(pthread_self(), record->thread);
    return record;
}

/* The stack of the first thread. Where it may grow without end it is taken for one of this size: what lies deeper
 * counts as elsewhere. */
#define STACK_USUAL (1ul << 26)

extern void *__libc_stack_end;

static void stack_of_first(struct thread *thread)
{
    struct rlimit limit;
    if (getrlimit(RLIMIT_STACK, &limit) != 0)
        return;
    uintptr_t bytes = limit.rlim_cur < STACK_USUAL ? limit.rlim_cur : STACK_USUAL;
    thread->stack_to = (uintptr_t)__libc_stack_end;
    thread->stack_from = thread->stack_to > bytes ? thread->stack_to - bytes : 0;
}

static struct thread *thread_start(void)
{
    if (!own_record)
        own_record = thread_record_found();
    struct thread *thread = own_record ? thread_pages() : NULL;
    if (!thread)
        return NULL;
    thread->record = own_record;
    thread->number = (uint32_t)own_record->thread;
    thread->keys = thread->first_keys;
    thread->key_mask = KEYS_FIRST - 1;
    if (thread->number == 0)
        stack_of_first(thread);
    return thread_chunk(thread) ? thread : NULL;
}

struct thread *thread_enter(void)
{
    if (slow_inside())
        return NULL;
    if (current_thread != &thread_none)
        thread_forget(); /* wiped by a fork that went past the handlers */
    if (!process_ready())
        return NULL;
    if (process.full) {
        count_loss(own_record ? &own_record->lost : &process.losses->events);
        return NULL;
    }
    struct slow_state state;
    slow_enter(&state);
    struct thread *thread = thread_start();
    process.full = thread == NULL;
    state.thread = thread ? thread : &thread_none;
    slow_leave(&state);
    if (thread && exit_key_made)
        pthread_setspecific(exit_key, thread);
    return thread;
}

void thread_forget(void)
{
    current_thread = &thread_none;
    own_record = NULL;
}

int thread_is_watched(const struct thread *thread)
{
    return own_record && own_record->parent != THREAD_FOREIGN && thread->exit_rounds < PTHREAD_DESTRUCTOR_ITERATIONS;
}

/* Runs when the thread ends, with the destructors of other keys, which may still take locks and release them: so it
 * asks to be called again as often as the system allows, and gives the state back in the last round. A thread that
 * holds locks even then keeps it, and its end is told, as nobody else releases them. */
static void thread_exit(void *value)
{
    struct thread *thread = value;
    if (thread != current_thread)
        return;
    if (++thread->exit_rounds < PTHREAD_DESTRUCTOR_ITERATIONS) {
        pthread_setspecific(exit_key, thread);
        return;
    }
    confirm_end(thread);
    struct slow_state state;
    slow_enter(&state);
    if (thread->number != 0 && thread->stack_from < thread->stack_to) /* that of the first one stays */
        memory_end_inside(thread->stack_from, thread->stack_to);
    if (thread->held_count > 0) {
        number_note(RECORD_ENDED, thread->number);
        slow_leave(&state);
        return;
    }
    if (thread->keys != thread->first_keys)
        pages_drop(thread->keys, sizeof *thread->keys * (thread->key_mask + 1));
    thread->next_free = process.free_threads;
    process.free_threads = thread;
    state.thread = &thread_none;
    slow_leave(&state);
}

__attribute__((constructor(102))) static void exit_key_start(void)
{
    exit_key_made = pthread_key_create(&exit_key, thread_exit) == 0;
    if (exit_key_made && current_thread != &thread_none) /* the first thread was there before the key */
        pthread_setspecific(exit_key, current_thread);
}

/* --- Words where the chunk is full ------------------------------------------------------------------------ */

void words_zero_further(struct stored stored, uint64_t first)
{
    uint64_t room = chunk_room(stored.chunk);
    for (uint64_t place = stored.used < room ? stored.used : room; --place > first;)
        *(volatile uint64_t *)&stored.chunk->words[place] = 0;
}

/* A full chunk counts more words than it holds, for ever, once another one follows it: so nobody who still has it in
 * hand finds room in it, or sets the count back. */
uint64_t *word_store_slow(struct thread *thread, struct chunk *full, uint64_t word)
{
    if (thread->chunk == full && !process.full) {
        struct slow_state state;
        slow_enter(&state);
        if (thread->chunk == full) /* else a signal handler came first */
            process.full = !thread_chunk(thread);
        slow_leave(&state);
    }
    if (thread->chunk != full)
        return word_store(thread, word);
    full->used = chunk_room(full); /* and no more, as no word is stored */
    thread->record->lost++;
    thread->sink = word;
    return &thread->sink;
}

/* --- Making threads --------------------------------------------------------------------------------------- */

/* What the new thread needs to begin. Its handle is entered by whoever comes first, the maker or the
 * thread itself: the maker may be so late that the handle belongs to another thread already. */
struct beginning {
    void *(*routine)(void *);
    thrd_start_t c11_routine;
    void *argument;
    size_t stack_bytes;
    uint64_t signals;     /* the maker's mask */
    int signals_shut_out; /* whether the thread is made under another one, and has to put on the maker's itself */
    struct thread_record *record;
    int mapped;
    int users;
    struct beginning *next_free;
};

static struct beginning *free_beginnings;

static struct beginning *beginning_new(void)
{
    if (!free_beginnings) {
        struct beginning *pages = pages_new(CHUNK_UNIT);
        if (!pages)
            return NULL;
        for (size_t i = 0; i < CHUNK_UNIT / sizeof *pages; i++) {
            pages[i].next_free = free_beginnings;
            free_beginnings = &pages[i];
        }
    }
    struct beginning *beginning = free_beginnings;
    free_beginnings = beginning->next_free;
    memset(beginning, 0, sizeof *beginning);
    beginning->users = 2;
    return beginning;
}

static void beginning_drop(struct beginning *beginning)
{
    if (--beginning->users == 0) {
        beginning->next_free = free_beginnings;
        free_beginnings = beginning;
    }
}

/* Until the thread itself was here, none of the program's code ran in it: so where the handle is is still there. After
 * that the thread may have given back that memory. */
static void beginning_map(struct beginning *beginning, const pthread_t *handle)
{
    struct slow_state state;
    slow_enter(&state);
    if (!beginning->mapped)
        thread_map(*handle, beginning->record->thread);
    beginning->mapped = 1;
    beginning_drop(beginning);
    slow_leave(&state);
}

static struct beginning *beginning_plan(struct thread *thread, uint64_t routine, void *argument)
{
    struct slow_state state;
    if (argument)
        module_meet(routine, 1);
    slow_enter(&state);
    struct beginning *beginning = beginning_new();
    if (beginning) {
        beginning->argument = argument;
        beginning->record = thread_record_new(thread->number, thread->record->children + 1, routine, argument);
    }
    if (beginning && !beginning->record) {
        loss_begins();
        count_loss(&process.losses->threads);
        beginning->users = 1;
        beginning_drop(beginning);
        beginning = NULL;
    }
    if (beginning)
        thread->record->children++;
    slow_leave(&state);
    return beginning;
}

/* The thread wasn't made: its number is void, and the next one made is that child of its parent. */
static void beginning_undo(struct thread *thread, struct beginning *beginning, uint64_t *place,
                           const struct segment *before)
{
    struct slow_state state;
    slow_enter(&state);
    word_take_back(thread, place);
    segment_go_on(thread, before);
    beginning->record->unmade = 1;
    thread->record->children--;
    beginning->users = 1;
    beginning_drop(beginning);
    slow_leave(&state);
    count_other(thread);
}

/* How much stack a thread has that is made so. */
static size_t stack_bytes_of(const pthread_attr_t *attributes)
{
    pthread_attr_t usual;
    size_t bytes = 0;
    if (attributes) {
        pthread_attr_getstacksize(attributes, &bytes);
    } else if (pthread_attr_init(&usual) == 0) {
        pthread_attr_getstacksize(&usual, &bytes);
        pthread_attr_destroy(&usual);
    }
    return bytes;
}

/* At its other end a stack has a page that is never used, or less is taken for its own than is. */
#define STACK_MARGIN CHUNK_UNIT

/* The frames of what the thread runs lie below the one here. Its thread-locals lie above that, and below what its
 * handle is the address of (of other machines than x86-64 that isn't so). Above that is what else belongs to its stack.
 */
static void thread_stack(size_t stack_bytes, void *frame)
{
    struct thread *thread = recording_thread();
    if (!thread)
        return;
#ifdef __x86_64__
    thread->stack_to = (uintptr_t)pthread_self();
#else
    thread->stack_to = (uintptr_t)frame;
#endif
    thread->stack_from = thread->stack_to - stack_bytes + STACK_MARGIN;
    (void)frame;
}

/* Up to here no signal comes: its handler would find a thread that nobody made. Then the thread has its maker's mask,
 * as without the recorder. */
static void thread_adopt(struct beginning *beginning, void *frame)
{
    pthread_t self = pthread_self();
    size_t stack_bytes = beginning->stack_bytes;
    uint64_t signals = beginning->signals;
    int shut_out = beginning->signals_shut_out;
    own_record = beginning->record;
    beginning_map(beginning, &self);
    thread_stack(stack_bytes, frame);
    if (shut_out)
        signals_follow(signals);
}

static void *thread_begin(void *value)
{
    struct beginning *beginning = value;
    void *(*routine)(void *) = beginning->routine;
    void *argument = beginning->argument;
    thread_adopt(beginning, __builtin_frame_address(0));
    return routine(argument);
}

static int thread_begin_c11(void *value)
{
    struct beginning *beginning = value;
    thrd_start_t routine = beginning->c11_routine;
    void *argument = beginning->argument;
    thread_adopt(beginning, __builtin_frame_address(0));
    return routine(argument);
}

/* Before the thread is made, so that no event of it is there without its fork. */
static uint64_t *fork_write(struct thread *thread, struct beginning *beginning, uint32_t site, struct segment *before)
{
    uint32_t outside = change_begin(thread);
    segment_end(thread, before);
    uint64_t *place = word_store(thread, event_word(EVENT_FORK, site, (uint32_t)beginning->record->thread));
    change_end(thread, outside);
    return place;
}

/* The thread was made: the fork stays. */
static void fork_done(struct thread *thread, struct beginning *beginning, const pthread_t *handle,
                      const struct segment *before)
{
    uint32_t outside = change_begin(thread);
    words_keep(thread);
    change_end(thread, outside);
    segment_drop(thread, before);
    beginning_map(beginning, handle);
}

/* A new thread has the signals shut out that its maker has, so all of them, until it puts on the right mask itself.
 * Where its attributes have a mask of their own, it begins with that one, whatever is done here. */
static void making_begin(struct beginning *beginning, const pthread_attr_t *attributes)
{
    sigset_t mask;
    beginning->stack_bytes = stack_bytes_of(attributes);
    beginning->signals_shut_out =
        !attributes || !real.pthread_attr_getsigmask_np || real.pthread_attr_getsigmask_np(attributes, &mask) != 0;
    if (beginning->signals_shut_out)
        signals_shut_out(&beginning->signals);
}

/* The thread may run already, but its maker still has the beginning, too. */
static void making_end(const struct beginning *beginning)
{
    if (beginning->signals_shut_out)
        signals_let_in(&beginning->signals);
}

EXPORTED int pthread_create(pthread_t *handle, const pthread_attr_t *attributes, void *(*routine)(void *),
                            void *argument)
{
    struct thread *thread = recording_thread();
    uint32_t site = thread ? CALLER_SITE() : 0;
    struct beginning *beginning = thread ? beginning_plan(thread, (uint64_t)(uintptr_t)routine, argument) : NULL;
    if (!beginning)
        return real.pthread_create(handle, attributes, routine, argument);
    beginning->routine = routine;
    struct segment before;
    uint64_t *place = fork_write(thread, beginning, site, &before);
    making_begin(beginning, attributes);
    int result = real.pthread_create(handle, attributes, thread_begin, beginning);
    making_end(beginning);
    if (result == 0)
        fork_done(thread, beginning, handle, &before);
    else
        beginning_undo(thread, beginning, place, &before);
    return result;
}

EXPORTED int thrd_create(thrd_t *handle, thrd_start_t routine, void *argument)
{
    struct thread *thread = recording_thread();
    uint32_t site = thread ? CALLER_SITE() : 0;
    struct beginning *beginning = thread ? beginning_plan(thread, (uint64_t)(uintptr_t)routine, argument) : NULL;
    if (!beginning)
        return real.thrd_create(handle, routine, argument);
    beginning->c11_routine = routine;
    struct segment before;
    uint64_t *place = fork_write(thread, beginning, site, &before);
    making_begin(beginning, NULL);
    int result = real.thrd_create(handle, thread_begin_c11, beginning);
    making_end(beginning);
    if (result == thrd_success)
        fork_done(thread, beginning, handle, &before);
    else
        beginning_undo(thread, beginning, place, &before);
    return result;
}

/* --- Joining threads -------------------------------------------------------------------------------------- */

/* The number of the thread, plus one; 0 if it isn't known. Asked before the join: afterwards the handle may belong
 * to another thread. */
static uint64_t joined_number(pthread_t handle)
{
    struct slot *slot = table_find(&process.threads, (uint64_t)handle);
    return slot ? __atomic_load_n(&slot->value, __ATOMIC_ACQUIRE) : 0;
}

static void join_write(struct thread *thread, uint64_t number, uint32_t site, int joined)
{
    if (!joined || number == 0) {
        count_other(thread);
        return;
    }
    struct segment before;
    uint32_t outside = change_begin(thread);
    segment_end(thread, &before);
    segment_drop(thread, &before);
    word_store(thread, event_word(EVENT_JOIN, site, (uint32_t)(number - 1)));
    words_keep(thread);
    change_end(thread, outside);
}

/* Also where the thread is cancelled in the join. */
static void join_leave(struct thread_record **record)
{
    if (*record)
        __atomic_store_n(&(*record)->joins, 0, __ATOMIC_RELEASE);
}

/* Tells who looks at the process that the thread waits for another one's end: for ever, or, if `limited`, not so. */
static struct thread_record *join_enter(struct thread *thread, uint64_t number, uint32_t site, int limited)
{
    if (limited || number == 0)
        return NULL;
    __atomic_store_n(&thread->record->joins, event_word(EVENT_JOIN, site, (uint32_t)(number - 1)), __ATOMIC_RELEASE);
    return thread->record;
}

#define JOIN(handle, success, limited, call) \
    struct thread *thread = recording_thread(); \
    if (!thread) \
        return call; \
    uint32_t site = CALLER_SITE(); \
    uint64_t number = joined_number((pthread_t)(handle)); \
    struct thread_record *joining __attribute__((cleanup(join_leave), unused)) = \
        join_enter(thread, number, site, limited); \
    int result = call; \
    join_write(thread, number, site, result == (success)); \
    return result

EXPORTED int pthread_join(pthread_t handle, void **value)
{
    JOIN(handle, 0, 0, real.pthread_join(handle, value));
}

EXPORTED int pthread_tryjoin_np(pthread_t handle, void **value)
{
    JOIN(handle, 0, 1, real.pthread_tryjoin_np(handle, value));
}

EXPORTED int pthread_timedjoin_np(pthread_t handle, void **value, deadline_t deadline)
{
    JOIN(handle, 0, deadline != NULL, real.pthread_timedjoin_np(handle, value, deadline));
}

EXPORTED int pthread_clockjoin_np(pthread_t handle, void **value, clockid_t clock, deadline_t deadline)
{
    JOIN(handle, 0, deadline != NULL, real.pthread_clockjoin_np(handle, value, clock, deadline));
}

EXPORTED int thrd_join(thrd_t handle, int *value)
{
    JOIN(handle, thrd_success, 0, real.thrd_join(handle, value));
}
