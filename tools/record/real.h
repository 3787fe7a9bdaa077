/* The functions that the recorder stands before: one name of each, and how they are found. */
#ifndef GOODLOCK_REAL_H
#define GOODLOCK_REAL_H

#include <pthread.h>
#include <signal.h>
#include <stddef.h>
#include <sys/types.h>
#include <threads.h>
#include <time.h>

typedef const struct timespec *deadline_t;

/* X(result, name, parameters) for each function. */
#define REAL_FUNCTIONS(X) \
    X(int, pthread_mutex_init, (pthread_mutex_t *, const pthread_mutexattr_t *)) \
    X(int, pthread_mutex_destroy, (pthread_mutex_t *)) \
    X(int, pthread_mutex_lock, (pthread_mutex_t *)) \
    X(int, pthread_mutex_trylock, (pthread_mutex_t *)) \
    X(int, pthread_mutex_timedlock, (pthread_mutex_t *, deadline_t)) \
    X(int, pthread_mutex_clocklock, (pthread_mutex_t *, clockid_t, deadline_t)) \
    X(int, pthread_mutex_unlock, (pthread_mutex_t *)) \
    X(int, pthread_rwlock_init, (pthread_rwlock_t *, const pthread_rwlockattr_t *)) \
    X(int, pthread_rwlock_destroy, (pthread_rwlock_t *)) \
    X(int, pthread_rwlock_rdlock, (pthread_rwlock_t *)) \
    X(int, pthread_rwlock_tryrdlock, (pthread_rwlock_t *)) \
    X(int, pthread_rwlock_timedrdlock, (pthread_rwlock_t *, deadline_t)) \
    X(int, pthread_rwlock_clockrdlock, (pthread_rwlock_t *, clockid_t, deadline_t)) \
    X(int, pthread_rwlock_wrlock, (pthread_rwlock_t *)) \
    X(int, pthread_rwlock_trywrlock, (pthread_rwlock_t *)) \
    X(int, pthread_rwlock_timedwrlock, (pthread_rwlock_t *, deadline_t)) \
    X(int, pthread_rwlock_clockwrlock, (pthread_rwlock_t *, clockid_t, deadline_t)) \
    X(int, pthread_rwlock_unlock, (pthread_rwlock_t *)) \
    X(int, pthread_spin_init, (pthread_spinlock_t *, int)) \
    X(int, pthread_spin_destroy, (pthread_spinlock_t *)) \
    X(int, pthread_spin_lock, (pthread_spinlock_t *)) \
    X(int, pthread_spin_trylock, (pthread_spinlock_t *)) \
    X(int, pthread_spin_unlock, (pthread_spinlock_t *)) \
    X(int, pthread_cond_wait, (pthread_cond_t *, pthread_mutex_t *)) \
    X(int, pthread_cond_timedwait, (pthread_cond_t *, pthread_mutex_t *, deadline_t)) \
    X(int, pthread_cond_clockwait, (pthread_cond_t *, pthread_mutex_t *, clockid_t, deadline_t)) \
    X(int, pthread_create, (pthread_t *, const pthread_attr_t *, void *(*)(void *), void *)) \
    X(int, pthread_join, (pthread_t, void **)) \
    X(int, pthread_tryjoin_np, (pthread_t, void **)) \
    X(int, pthread_timedjoin_np, (pthread_t, void **, deadline_t)) \
    X(int, pthread_clockjoin_np, (pthread_t, void **, clockid_t, deadline_t)) \
    X(int, mtx_init, (mtx_t *, int)) \
    X(int, mtx_lock, (mtx_t *)) \
    X(int, mtx_trylock, (mtx_t *)) \
    X(int, mtx_timedlock, (mtx_t *, deadline_t)) \
    X(int, mtx_unlock, (mtx_t *)) \
    X(void, mtx_destroy, (mtx_t *)) \
    X(int, cnd_wait, (cnd_t *, mtx_t *)) \
    X(int, cnd_timedwait, (cnd_t *, mtx_t *, deadline_t)) \
    X(int, thrd_create, (thrd_t *, thrd_start_t, void *)) \
    X(int, thrd_join, (thrd_t, int *)) \
    X(void, free, (void *)) \
    X(void *, realloc, (void *, size_t)) \
    X(int, munmap, (void *, size_t)) \
    X(void *, mmap, (void *, size_t, int, int, int, off_t)) \
    X(void *, mremap, (void *, size_t, size_t, int, void *)) \
    X(void *, shmat, (int, const void *, int)) \
    X(int, shmdt, (const void *)) \
    X(int, dlclose, (void *)) \
    X(int, setuid, (uid_t)) \
    X(int, seteuid, (uid_t)) \
    X(int, setreuid, (uid_t, uid_t)) \
    X(int, setresuid, (uid_t, uid_t, uid_t)) \
    X(int, chroot, (const char *)) \
    X(void, _exit, (int)) \
    X(void, _Exit, (int)) \
    X(int, daemon, (int, int)) \
    X(int, execve, (const char *, char *const[], char *const[])) \
    X(int, execv, (const char *, char *const[])) \
    X(int, execvp, (const char *, char *const[])) \
    X(int, execvpe, (const char *, char *const[], char *const[])) \
    X(int, fexecve, (int, char *const[], char *const[])) \
    X(int, execveat, (int, const char *, char *const[], char *const[], int)) \
    X(int, pthread_once, (pthread_once_t *, void (*)(void))) \
    X(void, call_once, (once_flag *, void (*)(void)))

#pragma GCC visibility push(hidden)

struct real_functions {
#define REAL_MEMBER(result, name, parameters) result(*name) parameters;
    REAL_FUNCTIONS(REAL_MEMBER)
#undef REAL_MEMBER
    size_t (*malloc_usable_size)(void *); /* of the library that frees; NULL: it has none */
    int (*owns)(const volatile void *);   /* of a sanitizer that frees: whether it gave a block out; else NULL */
    int (*pthread_attr_getsigmask_np)(const pthread_attr_t *, sigset_t *); /* NULL: attributes have no mask */
    void (*look_away[2])(const char *, int); /* of ThreadSanitizer, where its library watches the program; else NULL */
    void (*look_back[2])(const char *, int);
};

extern struct real_functions real;
extern int real_found;

/* These two are jumped to alone (endings.c). */
extern void *real_vfork, *real_clone;

/* Finds the functions, the first time; whether they are found. Until then, and where there is none, a stand-in
 * is called that does nothing. */
int real_find(void);

int are_of_one_library(const void *one, const void *other);

/* At the start, or at the first call of one: finds C++'s operators new and delete (operators.c). */
void operators_find(void);

/* What isn't there is no fault of the program's. To be told of it once isn't enough: up to the second time the C
 * library keeps its text, which a leak checker finds where the first thread ends before the others. */
void faults_forget(void);

#pragma GCC visibility pop

#endif
