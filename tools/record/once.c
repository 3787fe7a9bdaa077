/* What is run once under a lock: routines of pthread_once and call_once, initialisations of static variables; and the
 * calls that change a process's user or root. */
#define _GNU_SOURCE
#include <dlfcn.h>
#include <limits.h>
#include <string.h>
#include <unistd.h>

#include "confirm.h"
#include "process.h"
#include "real.h"

/* --- Routines ---------------------------------------------------------------------------------------------- */

/* Runs also where the routine is left by an exception or by cancellation, and in a child that the routine forked. */
static void once_end(uint64_t *word)
{
    struct thread *thread = *word ? recording_thread() : NULL;
    if (thread)
        release_write(thread, *word);
}

/* While a cycle is to be brought about: who runs the routine waits no longer. */
static __thread void (*once_routine)(void);

static void once_begin(void)
{
    struct thread *thread = recording_thread();
    if (thread)
        confirm_after(thread);
    once_routine();
}

/* Who comes second waits until the routine has ended. Whether it has is up to the schedule: so the lock is taken each
 * time. */
#define ONCE(once, routine, call) \
    struct thread *thread = recording_thread(); \
    uint64_t word __attribute__((cleanup(once_end))) = 0; \
    if (likely(thread != NULL)) \
        word = call_word(thread, once, LOCK_ONCE, CALLER); \
    if (word_object(word) == LOCK_IGNORED) \
        word = 0; \
    if (unlikely(confirming && word)) { \
        confirm_before(thread, word | EVENT_ACQUIRE, once, (uintptr_t)__builtin_return_address(0), 0); \
        once_routine = routine; \
        routine = once_begin; \
    } \
    if (word) \
        acquire_write(thread, EVENT_ACQUIRE, word, 1); \
    call; \
    if (unlikely(confirming && word)) \
    confirm_after(thread)

EXPORTED int pthread_once(pthread_once_t *once, void (*routine)(void))
{
    ONCE(once, routine, int result = real.pthread_once(once, routine));
    return result;
}

OLDER_NAME(pthread_once);

EXPORTED void call_once(once_flag *once, void (*routine)(void))
{
    ONCE(once, routine, real.call_once(once, routine));
}

/* --- Static variables -------------------------------------------------------------------------------------- */

/* The functions of the C++ library, which a program in C may have loaded for a plugin alone; where there is none, as
 * for a plugin with a library of its own, these here do the same. */
static void guard_leave(uint64_t *guard)
{
    __atomic_store_n((unsigned char *)guard + 1, 0, __ATOMIC_RELEASE);
    word_wake(guard, INT_MAX);
}

static int guard_take(uint64_t *guard)
{
    unsigned char *done = (unsigned char *)guard, *taken = done + 1;
    const int *both = (const void *)guard;
    for (;;) {
        int before = __atomic_load_n(both, __ATOMIC_ACQUIRE);
        if (__atomic_load_n(done, __ATOMIC_ACQUIRE))
            return 0;
        if (__atomic_exchange_n(taken, 1, __ATOMIC_ACQUIRE)) {
            word_wait(both, before);
        } else {
            if (!__atomic_load_n(done, __ATOMIC_ACQUIRE))
                return 1;
            guard_leave(guard);
        }
    }
}

static void guard_finish(uint64_t *guard)
{
    __atomic_store_n((unsigned char *)guard, 1, __ATOMIC_RELEASE);
    guard_leave(guard);
}

static struct {
    int (*acquire)(uint64_t *);
    void (*release)(uint64_t *);
    void (*abort)(uint64_t *);
    int stay_open; /* the upper half of a guard is ours, see below */
} guards;

static int guards_from(void *library)
{
    void *acquire = dlsym(library, "__cxa_guard_acquire"), *release = dlsym(library, "__cxa_guard_release");
    void *leave = dlsym(library, "__cxa_guard_abort");
    if (!acquire || !release || !leave)
        return 0;
    Dl_info place;
    guards.release = (void (*)(uint64_t *))release;
    guards.abort = (void (*)(uint64_t *))leave;
    guards.stay_open = dladdr(acquire, &place) && place.dli_fname && strstr(place.dli_fname, "libstdc++.so");
    __atomic_store_n(&guards.acquire, (int (*)(uint64_t *))acquire, __ATOMIC_RELEASE);
    return 1;
}

/* Where the C++ library is there at the start: what dlerror tells later is of the program's own calls. */
void guards_start(void)
{
    guards_from(RTLD_NEXT);
    faults_forget();
}

static void guards_find(void)
{
    static const char *const names[] = {"libstdc++.so.6", "libc++abi.so.1"};
    if (__atomic_load_n(&guards.acquire, __ATOMIC_ACQUIRE) || guards_from(RTLD_NEXT))
        return;
    for (size_t i = 0; i < sizeof names / sizeof names[0]; i++) {
        void *library = dlopen(names[i], RTLD_LAZY | RTLD_NOLOAD);
        if (library && guards_from(library))
            return;
    }
    guards.release = guard_finish;
    guards.abort = guard_leave;
    guards.stay_open = 1;
    __atomic_store_n(&guards.acquire, guard_take, __ATOMIC_RELEASE);
}

/*
 * The compiler looks at the guard's first byte, and calls nothing once it is set: whoever comes later leaves no event,
 * though a thread that comes while the initialisation runs has to wait for it. So the byte stays zero, and that the
 * variable is initialised stands in the guard's upper half, of which GNU's C++ library makes no use: each visit comes
 * here, and takes the lock for a moment. After many visits the byte is set, so that a variable that is used all the
 * time costs what it does without the recorder.
 */
#define GUARD_DONE 0x80000000u
#define GUARD_VISITS 0x10000u

static inline uint32_t *guard_mark(uint64_t *guard)
{
    return (uint32_t *)guard + 1;
}

static int guard_is_done(uint64_t *guard)
{
    return guards.stay_open && (__atomic_load_n(guard_mark(guard), __ATOMIC_ACQUIRE) & GUARD_DONE) != 0;
}

/* A visit after the initialisation. */
static void guard_visit(uint64_t *guard)
{
    uint32_t visits = __atomic_add_fetch(guard_mark(guard), 1, __ATOMIC_RELAXED) & ~GUARD_DONE;
    if (unlikely(visits >= GUARD_VISITS))
        __atomic_store_n((unsigned char *)guard, 1, __ATOMIC_RELEASE);
}

/* Whether the present thread has to initialise the variable. Who waited is let in when it is done, as after one that
 * failed. */
static int guard_enter(uint64_t *guard)
{
    if (guard_is_done(guard)) {
        guard_visit(guard);
        return 0;
    }
    int result = guards.acquire(guard);
    if (result && guard_is_done(guard)) {
        guards.abort(guard);
        return 0;
    }
    return result;
}

EXPORTED int __cxa_guard_acquire(uint64_t *guard);
EXPORTED void __cxa_guard_release(uint64_t *guard);
EXPORTED void __cxa_guard_abort(uint64_t *guard);

int __cxa_guard_acquire(uint64_t *guard)
{
    struct thread *thread = recording_thread();
    guards_find();
    if (unlikely(!thread))
        return guard_enter(guard);
    uint64_t word = call_word(thread, guard, LOCK_STATIC, CALLER);
    if (unlikely(confirming))
        confirm_before(thread, word | EVENT_ACQUIRE, guard, (uintptr_t)__builtin_return_address(0), 0);
    acquire_write(thread, EVENT_ACQUIRE, word, 1);
    int result = guard_enter(guard);
    if (unlikely(confirming))
        confirm_after(thread);
    if (!result)
        release_write(thread, word);
    return result;
}

#define GUARD_END(guard, call) \
    struct thread *thread = recording_thread(); \
    guards_find(); \
    uint64_t word = thread ? call_word(thread, guard, LOCK_STATIC, CALLER) : 0; \
    call; \
    if (likely(thread != NULL)) \
    release_write(thread, word)

/* In a process that isn't recorded, or by another library, the first byte is set at once. */
static void guard_end(uint64_t *guard, int is_recorded)
{
    if (!is_recorded || !guards.stay_open) {
        guards.release(guard);
        return;
    }
    __atomic_store_n(guard_mark(guard), GUARD_DONE, __ATOMIC_RELEASE);
    guards.abort(guard);
}

void __cxa_guard_release(uint64_t *guard)
{
    GUARD_END(guard, guard_end(guard, thread != NULL));
}

void __cxa_guard_abort(uint64_t *guard)
{
    GUARD_END(guard, guards.abort(guard));
}

/* --- Users and roots --------------------------------------------------------------------------------------- */

EXPORTED int setuid(uid_t user)
{
    real_find();
    user_directory(user);
    return real.setuid(user);
}

EXPORTED int seteuid(uid_t user)
{
    real_find();
    user_directory(user);
    return real.seteuid(user);
}

EXPORTED int setreuid(uid_t user, uid_t effective)
{
    real_find();
    user_directory(effective);
    return real.setreuid(user, effective);
}

EXPORTED int setresuid(uid_t user, uid_t effective, uid_t saved)
{
    real_find();
    user_directory(effective);
    return real.setresuid(user, effective, saved);
}

/* Of a library that is first met afterwards no file is found. */
EXPORTED int chroot(const char *path)
{
    real_find();
    modules_meet();
    return real.chroot(path);
}
