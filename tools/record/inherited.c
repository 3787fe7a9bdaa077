/* Locks that a forked child has from its parent: whether a thread holds one that was in its parent alone, and so never
 * releases it here. */
#define _GNU_SOURCE
#include <errno.h>
#include <sys/syscall.h>
#include <unistd.h>

#include "process.h"

#define SHARED_BY_PROCESSES 128 /* in a mutex's kind */

/* The thread that holds the lock, as the system counts them; 0 where none does, where that can't be told, and where a
 * thread of another process may release it. */
static int owner_of(const void *address, enum lock_class class)
{
    if (class == LOCK_MUTEX) {
        const pthread_mutex_t *mutex = address;
        return mutex->__data.__kind & SHARED_BY_PROCESSES ? 0 : mutex->__data.__owner;
    }
    if (class == LOCK_RWLOCK) {
        const pthread_rwlock_t *lock = address;
        return lock->__data.__shared ? 0 : (int)lock->__data.__cur_writer;
    }
    return 0;
}

static int is_here(int thread)
{
    return syscall(SYS_tgkill, getpid(), thread, 0) == 0 || errno != ESRCH;
}

/* Looks at each inherited lock once, before the first call with it: what a thread of this process does with it comes
 * later. */
void inherited_check(struct thread *thread, const void *address, enum lock_class class)
{
    uint32_t lock = lock_number(thread, address, class);
    if (lock == 0 || lock >= process.record->first_lock)
        return;
    struct slow_state state;
    slow_enter(&state);
    if (!process.inherited)
        process.inherited = pages_new((process.record->first_lock / 64 + 1) * sizeof *process.inherited);
    uint64_t bit = 1ull << lock % 64;
    if (process.inherited && !(process.inherited[lock / 64] & bit)) {
        process.inherited[lock / 64] |= bit;
        int owner = owner_of(address, class);
        if (owner > 0 && !is_here(owner))
            number_note(RECORD_LEFT_LOCKED, lock);
    }
    slow_leave(&state);
}
