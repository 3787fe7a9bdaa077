/* A library that stands before the C library where a program waits for conditions, and tells how often it was called.
 */
#define _GNU_SOURCE
#include <dlfcn.h>
#include <pthread.h>
#include <stdio.h>

static int waits, timed_waits;

int pthread_cond_wait(pthread_cond_t *condition, pthread_mutex_t *lock)
{
    int (*next)(pthread_cond_t *, pthread_mutex_t *) = dlvsym(RTLD_NEXT, "pthread_cond_wait", "GLIBC_2.3.2");
    waits++;
    return next(condition, lock);
}

int pthread_cond_timedwait(pthread_cond_t *condition, pthread_mutex_t *lock, const struct timespec *deadline)
{
    int (*next)(pthread_cond_t *, pthread_mutex_t *, const struct timespec *) =
        dlvsym(RTLD_NEXT, "pthread_cond_timedwait", "GLIBC_2.3.2");
    timed_waits++;
    return next(condition, lock, deadline);
}

__attribute__((destructor)) static void tell(void)
{
    fprintf(stderr, "waits: %d, with a deadline: %d\n", waits, timed_waits);
}
