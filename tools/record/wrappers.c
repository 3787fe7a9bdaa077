/* The functions that stand before those of the C library. */
#define _GNU_SOURCE
#include <errno.h>

#include "confirm.h"
#include "real.h"

/* Also where the lock's owner died: the lock is held, and no longer by that thread. */
static inline int took(const pthread_mutex_t *lock, int result)
{
    if (unlikely(result == EOWNERDEAD))
        lock_owner_died(lock);
    return result == 0 || result == EOWNERDEAD;
}

/* Each macro below is the body of a wrapper: `lock` is the lock, `call` the real call, and `good` says of
 * the variable `result` whether the call did what it was asked to. */

/* Whether a thread that holds the mutex and locks it again waits for itself. */
static inline int is_plain(const pthread_mutex_t *lock)
{
    int type = lock->__data.__kind & 3;
    return type != PTHREAD_MUTEX_RECURSIVE_NP && type != PTHREAD_MUTEX_ERRORCHECK_NP;
}

/* A call that may wait for ever: the acquire is written before it. If that of a plain mutex which the thread holds
 * comes back, another thread had unlocked it: it is held as before. */
#define ACQUIRE(lock, class, kind, plain, good, call) \
    struct thread *thread = recording_thread(); \
    if (unlikely(!thread)) \
        return call; \
    uint64_t word = call_word(thread, lock, class, CALLER); \
    if (unlikely(confirming)) \
        confirm_before(thread, word | kind, lock, (uintptr_t)__builtin_return_address(0), 0); \
    uint64_t *place = acquire_write(thread, kind, word, plain); \
    int result = call; \
    if (unlikely(confirming)) \
        confirm_after(thread); \
    if (unlikely(!(good) || word_kind(*place) == EVENT_AGAIN)) \
        acquire_take_back(thread, place); \
    return result

/* A call that can't wait for ever: the acquire is written after it. */
#define TRY_ACQUIRE(lock, class, kind, good, call) \
    struct thread *thread = recording_thread(); \
    if (unlikely(!thread)) \
        return call; \
    int result = call; \
    if (good) \
        acquire_write(thread, kind, call_word(thread, lock, class, CALLER), 0); \
    else \
        count_other(thread); \
    return result

/* The lock's number is asked for before: once released, another thread may destroy the lock. */
#define RELEASE(lock, class, good, call) \
    struct thread *thread = recording_thread(); \
    if (unlikely(!thread)) \
        return call; \
    uint64_t word = call_word(thread, lock, class, CALLER); \
    int result = call; \
    if (good) \
        release_write(thread, word); \
    else \
        count_other(thread); \
    return result

#define MAKE(lock, class, good, call) \
    struct thread *thread = recording_thread(); \
    if (unlikely(!thread)) \
        return call; \
    int result = call; \
    if (good) { \
        lock_let_go(thread, lock); \
        lock_number_new(thread, lock, class, LOCK_MADE, CALLER_SITE()); \
    } \
    count_other(thread); \
    return result

#define DESTROY(lock, call) \
    struct thread *thread = recording_thread(); \
    if (unlikely(!thread)) \
        return call; \
    int result = call; \
    if (result == 0) { \
        lock_let_go(thread, lock); \
        lock_forget(lock); \
    } \
    count_other(thread); \
    return result

/* --- Mutexes ---------------------------------------------------------------------------------------------- */

EXPORTED int pthread_mutex_init(pthread_mutex_t *lock, const pthread_mutexattr_t *attributes)
{
    MAKE(lock, LOCK_MUTEX, result == 0, real.pthread_mutex_init(lock, attributes));
}

EXPORTED int pthread_mutex_destroy(pthread_mutex_t *lock)
{
    DESTROY(lock, real.pthread_mutex_destroy(lock));
}

EXPORTED int pthread_mutex_lock(pthread_mutex_t *lock)
{
    ACQUIRE(lock, LOCK_MUTEX, EVENT_ACQUIRE, is_plain(lock), took(lock, result), real.pthread_mutex_lock(lock));
}

EXPORTED int pthread_mutex_trylock(pthread_mutex_t *lock)
{
    TRY_ACQUIRE(lock, LOCK_MUTEX, EVENT_TRY_ACQUIRE, took(lock, result), real.pthread_mutex_trylock(lock));
}

EXPORTED int pthread_mutex_timedlock(pthread_mutex_t *lock, deadline_t deadline)
{
    TRY_ACQUIRE(lock, LOCK_MUTEX, EVENT_TRY_ACQUIRE, took(lock, result), real.pthread_mutex_timedlock(lock, deadline));
}

EXPORTED int pthread_mutex_clocklock(pthread_mutex_t *lock, clockid_t clock, deadline_t deadline)
{
    TRY_ACQUIRE(lock, LOCK_MUTEX, EVENT_TRY_ACQUIRE, took(lock, result),
                real.pthread_mutex_clocklock(lock, clock, deadline));
}

EXPORTED int pthread_mutex_unlock(pthread_mutex_t *lock)
{
    RELEASE(lock, LOCK_MUTEX, result == 0, real.pthread_mutex_unlock(lock));
}

/* --- Reader-writer locks ---------------------------------------------------------------------------------- */

EXPORTED int pthread_rwlock_init(pthread_rwlock_t *lock, const pthread_rwlockattr_t *attributes)
{
    MAKE(lock, LOCK_RWLOCK, result == 0, real.pthread_rwlock_init(lock, attributes));
}

EXPORTED int pthread_rwlock_destroy(pthread_rwlock_t *lock)
{
    DESTROY(lock, real.pthread_rwlock_destroy(lock));
}

EXPORTED int pthread_rwlock_rdlock(pthread_rwlock_t *lock)
{
    ACQUIRE(lock, LOCK_RWLOCK, EVENT_SHARED_ACQUIRE, 0, result == 0, real.pthread_rwlock_rdlock(lock));
}

EXPORTED int pthread_rwlock_tryrdlock(pthread_rwlock_t *lock)
{
    TRY_ACQUIRE(lock, LOCK_RWLOCK, EVENT_TRY_SHARED_ACQUIRE, result == 0, real.pthread_rwlock_tryrdlock(lock));
}

EXPORTED int pthread_rwlock_timedrdlock(pthread_rwlock_t *lock, deadline_t deadline)
{
    TRY_ACQUIRE(lock, LOCK_RWLOCK, EVENT_TRY_SHARED_ACQUIRE, result == 0,
                real.pthread_rwlock_timedrdlock(lock, deadline));
}

EXPORTED int pthread_rwlock_clockrdlock(pthread_rwlock_t *lock, clockid_t clock, deadline_t deadline)
{
    TRY_ACQUIRE(lock, LOCK_RWLOCK, EVENT_TRY_SHARED_ACQUIRE, result == 0,
                real.pthread_rwlock_clockrdlock(lock, clock, deadline));
}

EXPORTED int pthread_rwlock_wrlock(pthread_rwlock_t *lock)
{
    ACQUIRE(lock, LOCK_RWLOCK, EVENT_ACQUIRE, 0, result == 0, real.pthread_rwlock_wrlock(lock));
}

EXPORTED int pthread_rwlock_trywrlock(pthread_rwlock_t *lock)
{
    TRY_ACQUIRE(lock, LOCK_RWLOCK, EVENT_TRY_ACQUIRE, result == 0, real.pthread_rwlock_trywrlock(lock));
}

EXPORTED int pthread_rwlock_timedwrlock(pthread_rwlock_t *lock, deadline_t deadline)
{
    TRY_ACQUIRE(lock, LOCK_RWLOCK, EVENT_TRY_ACQUIRE, result == 0, real.pthread_rwlock_timedwrlock(lock, deadline));
}

EXPORTED int pthread_rwlock_clockwrlock(pthread_rwlock_t *lock, clockid_t clock, deadline_t deadline)
{
    TRY_ACQUIRE(lock, LOCK_RWLOCK, EVENT_TRY_ACQUIRE, result == 0,
                real.pthread_rwlock_clockwrlock(lock, clock, deadline));
}

EXPORTED int pthread_rwlock_unlock(pthread_rwlock_t *lock)
{
    RELEASE(lock, LOCK_RWLOCK, result == 0, real.pthread_rwlock_unlock(lock));
}

/* --- Spin locks ------------------------------------------------------------------------------------------- */

EXPORTED int pthread_spin_init(pthread_spinlock_t *lock, int shared)
{
    MAKE((const void *)lock, LOCK_SPIN, result == 0, real.pthread_spin_init(lock, shared));
}

EXPORTED int pthread_spin_destroy(pthread_spinlock_t *lock)
{
    DESTROY((const void *)lock, real.pthread_spin_destroy(lock));
}

EXPORTED int pthread_spin_lock(pthread_spinlock_t *lock)
{
    ACQUIRE((const void *)lock, LOCK_SPIN, EVENT_ACQUIRE, 1, result == 0, real.pthread_spin_lock(lock));
}

EXPORTED int pthread_spin_trylock(pthread_spinlock_t *lock)
{
    TRY_ACQUIRE((const void *)lock, LOCK_SPIN, EVENT_TRY_ACQUIRE, result == 0, real.pthread_spin_trylock(lock));
}

EXPORTED int pthread_spin_unlock(pthread_spinlock_t *lock)
{
    RELEASE((const void *)lock, LOCK_SPIN, result == 0, real.pthread_spin_unlock(lock));
}

/* --- Waiting for conditions ------------------------------------------------------------------------------- */

/* A wait releases the mutex and takes it again. Both are written before the call, as it may hang while it takes
 * the mutex again. A call that will be refused writes nothing: one with a wrong deadline or clock, or by a
 * thread that doesn't hold the mutex. */
static int deadline_good(deadline_t deadline)
{
    return deadline->tv_nsec >= 0 && deadline->tv_nsec < 1000000000;
}

static int clock_good(clockid_t clock)
{
    return clock == CLOCK_REALTIME || clock == CLOCK_MONOTONIC;
}

static inline void wait_write(struct thread *thread, uint64_t word, int good)
{
    if (!good || !held_find(thread, word_object(word))) {
        count_other(thread);
        return;
    }
    release_write(thread, word);
    acquire_write(thread, EVENT_ACQUIRE, word, 0);
}

#define WAIT(lock, good, call) \
    struct thread *thread = recording_thread(); \
    if (unlikely(!thread)) \
        return call; \
    uint64_t word = call_word(thread, lock, LOCK_MUTEX, CALLER); \
    if (unlikely(confirming)) \
        confirm_before(thread, word | EVENT_ACQUIRE, lock, (uintptr_t)__builtin_return_address(0), 1); \
    wait_write(thread, word, good); \
    int result = call; \
    took((const pthread_mutex_t *)lock, result); \
    if (unlikely(confirming)) \
        confirm_after(thread); \
    return result

EXPORTED int pthread_cond_wait(pthread_cond_t *condition, pthread_mutex_t *lock)
{
    WAIT(lock, 1, real.pthread_cond_wait(condition, lock));
}

EXPORTED int pthread_cond_timedwait(pthread_cond_t *condition, pthread_mutex_t *lock, deadline_t deadline)
{
    WAIT(lock, deadline_good(deadline), real.pthread_cond_timedwait(condition, lock, deadline));
}

EXPORTED int pthread_cond_clockwait(pthread_cond_t *condition, pthread_mutex_t *lock, clockid_t clock,
                                    deadline_t deadline)
{
    WAIT(lock, clock_good(clock) && deadline_good(deadline),
         real.pthread_cond_clockwait(condition, lock, clock, deadline));
}

EXPORTED int cnd_wait(cnd_t *condition, mtx_t *lock)
{
    WAIT(lock, 1, real.cnd_wait(condition, lock));
}

EXPORTED int cnd_timedwait(cnd_t *condition, mtx_t *lock, deadline_t deadline)
{
    WAIT(lock, deadline_good(deadline), real.cnd_timedwait(condition, lock, deadline));
}

/* --- Mutexes of C11 --------------------------------------------------------------------------------------- */

EXPORTED int mtx_init(mtx_t *lock, int type)
{
    MAKE(lock, LOCK_MUTEX, result == thrd_success, real.mtx_init(lock, type));
}

EXPORTED void mtx_destroy(mtx_t *lock)
{
    struct thread *thread = recording_thread();
    real.mtx_destroy(lock);
    if (!thread)
        return;
    lock_let_go(thread, lock);
    lock_forget(lock);
    count_other(thread);
}

EXPORTED int mtx_lock(mtx_t *lock)
{
    ACQUIRE(lock, LOCK_MUTEX, EVENT_ACQUIRE, is_plain((const pthread_mutex_t *)lock), result == thrd_success,
            real.mtx_lock(lock));
}

EXPORTED int mtx_trylock(mtx_t *lock)
{
    TRY_ACQUIRE(lock, LOCK_MUTEX, EVENT_TRY_ACQUIRE, result == thrd_success, real.mtx_trylock(lock));
}

EXPORTED int mtx_timedlock(mtx_t *lock, deadline_t deadline)
{
    TRY_ACQUIRE(lock, LOCK_MUTEX, EVENT_TRY_ACQUIRE, result == thrd_success, real.mtx_timedlock(lock, deadline));
}

EXPORTED int mtx_unlock(mtx_t *lock)
{
    RELEASE(lock, LOCK_MUTEX, result == thrd_success, real.mtx_unlock(lock));
}

/* --- Older names ------------------------------------------------------------------------------------------ */

OLDER_NAME(pthread_mutex_init);
OLDER_NAME(pthread_mutex_destroy);
OLDER_NAME(pthread_mutex_lock);
OLDER_NAME(pthread_mutex_trylock);
OLDER_NAME(pthread_mutex_unlock);
OLDER_NAME(pthread_rwlock_init);
OLDER_NAME(pthread_rwlock_destroy);
OLDER_NAME(pthread_rwlock_rdlock);
OLDER_NAME(pthread_rwlock_tryrdlock);
OLDER_NAME(pthread_rwlock_wrlock);
OLDER_NAME(pthread_rwlock_trywrlock);
OLDER_NAME(pthread_rwlock_unlock);
