/* Calls the C library by the names that it keeps for what was linked before 2021, of which it has a version for old programs
 * alone. A mark as in `@name` in a comment stands for its line in the expected trace. */
#include <pthread.h>

#define OLDER(result, name, parameters) \
    __asm__(".symver older_" #name ", __pthread_" #name "@GLIBC_2.2.5"); \
    extern result older_##name parameters

OLDER(int, mutex_init, (pthread_mutex_t *, const pthread_mutexattr_t *));
OLDER(int, mutex_destroy, (pthread_mutex_t *));
OLDER(int, mutex_lock, (pthread_mutex_t *));
OLDER(int, mutex_trylock, (pthread_mutex_t *));
OLDER(int, mutex_unlock, (pthread_mutex_t *));
OLDER(int, rwlock_init, (pthread_rwlock_t *, const pthread_rwlockattr_t *));
OLDER(int, rwlock_destroy, (pthread_rwlock_t *));
OLDER(int, rwlock_rdlock, (pthread_rwlock_t *));
OLDER(int, rwlock_tryrdlock, (pthread_rwlock_t *));
OLDER(int, rwlock_wrlock, (pthread_rwlock_t *));
OLDER(int, rwlock_trywrlock, (pthread_rwlock_t *));
OLDER(int, rwlock_unlock, (pthread_rwlock_t *));
OLDER(int, once, (pthread_once_t *, void (*)(void)));

static pthread_mutex_t mutex;
static pthread_rwlock_t rwlock;
static pthread_once_t once = PTHREAD_ONCE_INIT;

static void mutexes(void)
{
    older_mutex_init(&mutex, NULL);
    older_mutex_lock(&mutex); /* @lock */
    older_mutex_unlock(&mutex); /* @unlock */
    older_mutex_destroy(&mutex);
    older_mutex_init(&mutex, NULL);
    older_mutex_trylock(&mutex); /* @trylock */
    older_mutex_unlock(&mutex); /* @unlock_again */
}

static void readers_and_writers(void)
{
    older_rwlock_init(&rwlock, NULL);
    older_rwlock_rdlock(&rwlock); /* @rdlock */
    older_rwlock_unlock(&rwlock); /* @unlock_read */
    older_rwlock_wrlock(&rwlock); /* @wrlock */
    older_rwlock_unlock(&rwlock); /* @unlock_written */
    older_rwlock_destroy(&rwlock);
    older_rwlock_init(&rwlock, NULL);
    older_rwlock_tryrdlock(&rwlock); /* @tryrdlock */
    older_rwlock_unlock(&rwlock); /* @unlock_tried */
    older_rwlock_trywrlock(&rwlock); /* @trywrlock */
    older_rwlock_unlock(&rwlock); /* @unlock_tried_again */
}

static void nothing(void)
{
}

int main(void)
{
    mutexes();
    readers_and_writers();
    older_once(&once, nothing); /* @once */
    return 0;
}
