/* Programs for the recorder's tests: the first argument names one. A mark as in `@name` in a comment stands for its
 * line in the expected traces. */
#define _GNU_SOURCE
#include <alloca.h>
#include <errno.h>
#include <limits.h>
#include <pthread.h>
#include <semaphore.h>
#include <signal.h>
#include <stdint.h>
#include <stdio.h>
#include <stdlib.h>
#include <string.h>
#include <sys/resource.h>
#include <sys/stat.h>
#include <sys/syscall.h>
#include <sys/time.h>
#include <sys/wait.h>
#include <threads.h>
#include <time.h>
#include <unistd.h>

#include "turns.h"

/* A failed expectation is a status that no test waits for. */
#define MUST(condition)                                                        \
    do {                                                                       \
        if (!(condition)) {                                                    \
            fprintf(stderr, "locks.c:%d: not so: %s\n", __LINE__, #condition); \
            _exit(99);                                                         \
        }                                                                      \
    } while (0)

static pthread_mutex_t a = PTHREAD_MUTEX_INITIALIZER;
static pthread_mutex_t b = PTHREAD_MUTEX_INITIALIZER;
static pthread_mutex_t checked = PTHREAD_ERRORCHECK_MUTEX_INITIALIZER_NP;
static pthread_mutex_t again = PTHREAD_RECURSIVE_MUTEX_INITIALIZER_NP;
static pthread_mutex_t left;
static pthread_mutex_t fixed = PTHREAD_MUTEX_INITIALIZER;
static pthread_mutex_t many[70];
static pthread_rwlock_t rw = PTHREAD_RWLOCK_INITIALIZER;
static sem_t step, other_step;

static struct timespec after(clockid_t clock, long milliseconds)
{
    struct timespec time;
    clock_gettime(clock, &time);
    time.tv_nsec += milliseconds * 1000000;
    time.tv_sec += time.tv_nsec / 1000000000;
    time.tv_nsec %= 1000000000;
    return time;
}

static void mutexes(void)
{
    struct timespec real_time = after(CLOCK_REALTIME, 1000), monotonic = after(CLOCK_MONOTONIC, 1000);
    struct timespec past = {0, 0};
    pthread_mutex_lock(&a);                                                    /* @mutex_lock */
    MUST(pthread_mutex_trylock(&b) == 0);                                      /* @mutex_try */
    MUST(pthread_mutex_trylock(&b) == EBUSY);
    MUST(pthread_mutex_timedlock(&b, &past) == ETIMEDOUT);
    MUST(pthread_mutex_clocklock(&b, CLOCK_MONOTONIC, &past) == ETIMEDOUT);
    pthread_mutex_unlock(&b);                                                  /* @mutex_unlock_b */
    MUST(pthread_mutex_timedlock(&b, &real_time) == 0);                        /* @mutex_timed */
    pthread_mutex_unlock(&b);                                                  /* @mutex_unlock_b2 */
    MUST(pthread_mutex_clocklock(&b, CLOCK_MONOTONIC, &monotonic) == 0);       /* @mutex_clock */
    pthread_mutex_unlock(&a);                                                  /* @mutex_unlock_a */
    pthread_mutex_unlock(&b);                                                  /* @mutex_unlock_b3 */
}

static void failing(void)
{
    MUST(pthread_mutex_unlock(&checked) == EPERM);
    pthread_mutex_lock(&checked);                                              /* @failing_lock */
    MUST(pthread_mutex_lock(&checked) == EDEADLK);
    pthread_mutex_lock(&a);                                                    /* @failing_a */
    pthread_mutex_unlock(&a);                                                  /* @failing_a_end */
    pthread_mutex_unlock(&checked);                                            /* @failing_unlock */
}

static void recursive(void)
{
    pthread_mutex_lock(&again);                                                /* @recursive_1 */
    pthread_mutex_lock(&again);                                                /* @recursive_2 */
    pthread_mutex_unlock(&again);                                              /* @recursive_3 */
    pthread_mutex_lock(&a);                                                    /* @recursive_4 */
    pthread_mutex_unlock(&a);                                                  /* @recursive_5 */
    pthread_mutex_unlock(&again);                                              /* @recursive_6 */
}

static void robust(void)
{
    pthread_mutexattr_t attributes;
    pthread_mutex_t lock;
    pthread_mutexattr_init(&attributes);
    pthread_mutexattr_setrobust(&attributes, PTHREAD_MUTEX_ROBUST);
    pthread_mutexattr_setpshared(&attributes, PTHREAD_PROCESS_PRIVATE);
    pthread_mutex_init(&lock, &attributes);                                    /* @robust_made */
    pthread_mutex_lock(&lock);                                                 /* @robust_lock */
    pthread_mutex_unlock(&lock);                                               /* @robust_unlock */
}

static void *dies_holding(void *lock)
{
    pthread_mutex_lock(lock);                                                  /* @dead_lock */
    return NULL;
}

static void owner_died(void)
{
    pthread_mutexattr_t attributes;
    pthread_t thread;
    pthread_mutexattr_init(&attributes);
    pthread_mutexattr_setrobust(&attributes, PTHREAD_MUTEX_ROBUST);
    pthread_mutex_init(&left, &attributes);
    pthread_create(&thread, NULL, dies_holding, &left);                        /* @dead_fork */
    pthread_join(thread, NULL);                                                /* @dead_join */
    MUST(pthread_mutex_lock(&left) == EOWNERDEAD);                             /* @dead_next */
    pthread_mutex_consistent(&left);
    pthread_mutex_unlock(&left);                                               /* @dead_unlock */
}

static pthread_mutex_t *make(void)
{
    pthread_mutex_t *lock = malloc(sizeof *lock);
    pthread_mutex_init(lock, NULL);                                            /* @make */
    return lock;
}

/* A lock that is destroyed and made again at its address is another one. */
static void made_again(void)
{
    pthread_mutex_t *one = make(), *two = make();
    pthread_mutex_lock(two);                                                   /* @made_two */
    pthread_mutex_lock(one);                                                   /* @made_one */
    pthread_mutex_unlock(one);                                                 /* @made_one_end */
    pthread_mutex_unlock(two);                                                 /* @made_two_end */
    pthread_mutex_destroy(one);
    pthread_mutex_init(one, NULL);                                             /* @made_again */
    pthread_mutex_lock(one);                                                   /* @made_third */
    pthread_mutex_unlock(one);                                                 /* @made_third_end */
    pthread_mutex_lock(&fixed);                                                /* @made_fixed */
    pthread_mutex_unlock(&fixed);                                              /* @made_fixed_end */
    pthread_mutex_destroy(&fixed);
    pthread_mutex_init(&fixed, NULL);
    pthread_mutex_lock(&fixed);                                                /* @made_fixed_2 */
    pthread_mutex_unlock(&fixed);                                              /* @made_fixed_2_end */
}

static void rwlocks(void)
{
    struct timespec real_time = after(CLOCK_REALTIME, 1000), monotonic = after(CLOCK_MONOTONIC, 1000);
    struct timespec past = {0, 0};
    pthread_rwlock_t *made = malloc(sizeof *made);
    pthread_rwlock_init(made, NULL);                                           /* @rw_made */
    pthread_rwlock_rdlock(&rw);                                                /* @rw_read */
    pthread_rwlock_rdlock(&rw);                                                /* @rw_read_2 */
    MUST(pthread_rwlock_trywrlock(&rw) == EBUSY);
    MUST(pthread_rwlock_timedwrlock(&rw, &past) == ETIMEDOUT);
    MUST(pthread_rwlock_clockwrlock(&rw, CLOCK_MONOTONIC, &past) == ETIMEDOUT);
    pthread_rwlock_unlock(&rw);                                                /* @rw_read_2_end */
    pthread_rwlock_wrlock(made);                                               /* @rw_write */
    MUST(pthread_rwlock_rdlock(made) == EDEADLK);
    MUST(pthread_rwlock_tryrdlock(made) == EBUSY);
    pthread_rwlock_unlock(made);                                               /* @rw_write_end */
    pthread_rwlock_unlock(&rw);                                                /* @rw_read_end */
    MUST(pthread_rwlock_tryrdlock(&rw) == 0);                                  /* @rw_tryread */
    pthread_rwlock_unlock(&rw);                                                /* @rw_tryread_end */
    MUST(pthread_rwlock_timedrdlock(&rw, &real_time) == 0);                    /* @rw_timedread */
    pthread_rwlock_unlock(&rw);                                                /* @rw_timedread_end */
    MUST(pthread_rwlock_clockrdlock(&rw, CLOCK_MONOTONIC, &monotonic) == 0);   /* @rw_clockread */
    pthread_rwlock_unlock(&rw);                                                /* @rw_clockread_end */
    MUST(pthread_rwlock_trywrlock(&rw) == 0);                                  /* @rw_trywrite */
    pthread_rwlock_unlock(&rw);                                                /* @rw_trywrite_end */
    MUST(pthread_rwlock_timedwrlock(&rw, &real_time) == 0);                    /* @rw_timedwrite */
    pthread_rwlock_unlock(&rw);                                                /* @rw_timedwrite_end */
    MUST(pthread_rwlock_clockwrlock(&rw, CLOCK_MONOTONIC, &monotonic) == 0);   /* @rw_clockwrite */
    pthread_rwlock_unlock(&rw);                                                /* @rw_clockwrite_end */
    pthread_rwlock_destroy(made);
    pthread_rwlock_init(made, NULL);                                           /* @rw_made_2 */
    pthread_rwlock_wrlock(made);                                               /* @rw_write_2 */
    pthread_rwlock_unlock(made);                                               /* @rw_write_2_end */
}

static void spins(void)
{
    pthread_spinlock_t *spin = malloc(64);
    pthread_spin_init(spin, PTHREAD_PROCESS_PRIVATE);                          /* @spin_made */
    pthread_spin_lock(spin);                                                   /* @spin_lock */
    MUST(pthread_spin_trylock(spin) == EBUSY);
    pthread_spin_unlock(spin);                                                 /* @spin_unlock */
    MUST(pthread_spin_trylock(spin) == 0);                                     /* @spin_try */
    pthread_spin_unlock(spin);                                                 /* @spin_unlock_2 */
    pthread_spin_destroy(spin);
    pthread_spin_init(spin, PTHREAD_PROCESS_PRIVATE);                          /* @spin_made_2 */
    pthread_spin_lock(spin);                                                   /* @spin_lock_2 */
    pthread_spin_unlock(spin);                                                 /* @spin_unlock_3 */
}

/* --- C11 ------------------------------------------------------------------------------------------------ */

static mtx_t plain;
static cnd_t condition11;
static int ready11;

static int c11_worker(void *unused)
{
    (void)unused;
    mtx_lock(&plain);                                                          /* @c11_worker_lock */
    ready11 = 1;
    cnd_signal(&condition11);
    mtx_unlock(&plain);                                                        /* @c11_worker_unlock */
    return 7;
}

static void c11(void)
{
    struct timespec soon = after(CLOCK_REALTIME, 20), later = after(CLOCK_REALTIME, 1000);
    thrd_t thread;
    mtx_t timed;
    int value;
    mtx_init(&plain, mtx_plain);
    mtx_init(&timed, mtx_timed);                                               /* @c11_made */
    cnd_init(&condition11);
    MUST(mtx_trylock(&timed) == thrd_success);                                 /* @c11_try */
    MUST(mtx_trylock(&timed) == thrd_busy);
    mtx_unlock(&timed);                                                        /* @c11_unlock */
    MUST(mtx_timedlock(&timed, &later) == thrd_success);                       /* @c11_timed */
    mtx_unlock(&timed);                                                        /* @c11_unlock_2 */
    mtx_destroy(&timed);
    mtx_init(&timed, mtx_plain);                                               /* @c11_made_2 */
    mtx_lock(&timed);                                                          /* @c11_lock_2 */
    mtx_unlock(&timed);                                                        /* @c11_unlock_3 */
    mtx_lock(&plain);                                                          /* @c11_lock */
    MUST(cnd_timedwait(&condition11, &plain, &soon) == thrd_timedout);         /* @c11_timedwait */
    thrd_create(&thread, c11_worker, NULL);                                    /* @c11_create */
    while (!ready11)
        cnd_wait(&condition11, &plain);                                        /* @c11_wait */
    mtx_unlock(&plain);                                                        /* @c11_unlock_4 */
    thrd_join(thread, &value);                                                 /* @c11_join */
    MUST(value == 7);
}

/* --- Conditions ----------------------------------------------------------------------------------------- */

static pthread_cond_t condition = PTHREAD_COND_INITIALIZER;
static int ready;

static void *signaller(void *unused)
{
    pthread_mutex_lock(&a);                                                    /* @signaller_lock */
    ready = 1;
    pthread_cond_signal(&condition);
    pthread_mutex_unlock(&a);                                                  /* @signaller_unlock */
    return unused;
}

static void conditions(void)
{
    pthread_t thread;
    struct timespec real_time = after(CLOCK_REALTIME, 20), monotonic = after(CLOCK_MONOTONIC, 20);
    struct timespec wrong = {real_time.tv_sec, 1000000000};
    pthread_mutex_lock(&a);                                                    /* @cond_lock */
    MUST(pthread_cond_timedwait(&condition, &a, &wrong) == EINVAL);
    MUST(pthread_cond_timedwait(&condition, &a, &real_time) == ETIMEDOUT);     /* @cond_timed */
    MUST(pthread_cond_clockwait(&condition, &a, CLOCK_MONOTONIC, &monotonic) == ETIMEDOUT); /* @cond_clock */
    pthread_create(&thread, NULL, signaller, NULL);                            /* @cond_create */
    while (!ready)
        pthread_cond_wait(&condition, &a);                                     /* @cond_wait */
    pthread_mutex_unlock(&a);                                                  /* @cond_unlock */
    pthread_join(thread, NULL);                                                /* @cond_join */
}

static void unlock_b(void *unused)
{
    (void)unused;
    pthread_mutex_unlock(&b);                                                  /* @cancel_unlock */
}

static void *cancelled(void *unused)
{
    pthread_mutex_lock(&b);                                                    /* @cancel_lock */
    pthread_cleanup_push(unlock_b, NULL);
    sem_post(&step);
    for (;;)
        pthread_cond_wait(&condition, &b);                                     /* @cancel_wait */
    pthread_cleanup_pop(0);
    return unused;
}

static void cancel(void)
{
    pthread_t thread;
    void *value;
    pthread_create(&thread, NULL, cancelled, NULL);                            /* @cancel_create */
    sem_wait(&step);
    wait_for_others();
    pthread_cancel(thread);
    pthread_join(thread, &value);                                              /* @cancel_join */
    MUST(value == PTHREAD_CANCELED);
}

/* --- Threads -------------------------------------------------------------------------------------------- */

static void *quick(void *unused)
{
    return unused;
}

static void *leaves(void *unused)
{
    (void)unused;
    pthread_mutex_lock(&a);                                                    /* @leaves_lock */
    pthread_mutex_unlock(&a);                                                  /* @leaves_unlock */
    pthread_exit((void *)3);
}

static void *parent(void *unused)
{
    pthread_t child;
    pthread_create(&child, NULL, leaves, NULL);                                /* @parent_create */
    pthread_join(child, NULL);                                                 /* @parent_join */
    return unused;
}

static void *detached(void *unused)
{
    pthread_mutex_lock(&b);                                                    /* @detached_lock */
    pthread_mutex_unlock(&b);                                                  /* @detached_unlock */
    sem_post(&step);
    return unused;
}

static void threads(void)
{
    struct timespec later = after(CLOCK_REALTIME, 300000), monotonic = after(CLOCK_MONOTONIC, 300000), past = {0, 0};
    pthread_t first, second, third, fourth, fifth;
    pthread_attr_t attributes;
    pthread_attr_init(&attributes);
    MUST(pthread_attr_setstacksize(&attributes, (size_t)1 << 46) == 0);
    MUST(pthread_create(&first, &attributes, quick, NULL) != 0);
    pthread_create(&first, NULL, parent, NULL);                                /* @threads_1 */
    pthread_create(&second, NULL, quick, NULL);                                /* @threads_2 */
    pthread_join(first, NULL);                                                 /* @threads_3 */
    while (pthread_tryjoin_np(second, NULL) != 0)                              /* @threads_4 */
        usleep(1000);
    pthread_create(&third, NULL, (void *(*)(void *))(uintptr_t)sem_wait, &other_step); /* @threads_5 */
    MUST(pthread_timedjoin_np(third, NULL, &past) == ETIMEDOUT);
    sem_post(&other_step);
    MUST(pthread_timedjoin_np(third, NULL, &later) == 0);                      /* @threads_6 */
    pthread_create(&fourth, NULL, quick, NULL);                                /* @threads_7 */
    MUST(pthread_clockjoin_np(fourth, NULL, CLOCK_MONOTONIC, &monotonic) == 0); /* @threads_8 */
    pthread_attr_init(&attributes);
    pthread_attr_setdetachstate(&attributes, PTHREAD_CREATE_DETACHED);
    pthread_create(&fifth, &attributes, detached, NULL);                       /* @threads_9 */
    sem_wait(&step);
}

static void *maker(void *unused)
{
    pthread_t children[20];
    for (int i = 0; i < 20; i++)
        pthread_create(&children[i], NULL, quick, NULL);                       /* @maker_create */
    for (int i = 0; i < 20; i++)
        pthread_join(children[i], NULL);                                       /* @maker_join */
    return unused;
}

static void two_makers(void)
{
    pthread_t first, second;
    pthread_create(&first, NULL, maker, NULL);                                 /* @makers_1 */
    pthread_create(&second, NULL, maker, NULL);                                /* @makers_2 */
    pthread_join(first, NULL);                                                 /* @makers_3 */
    pthread_join(second, NULL);                                                /* @makers_4 */
}

/* Locks in fresh memory that nobody made, used by racing threads. */
struct node {
    pthread_mutex_t lock;
    struct node *next;
};
static struct node *nodes;

static void *walker(void *unused)
{
    sem_wait(&step);
    for (struct node *node = nodes; node; node = node->next) {
        pthread_mutex_lock(&node->lock);                                       /* @walker_lock */
        pthread_mutex_unlock(&node->lock);                                     /* @walker_unlock */
    }
    return unused;
}

static void racing(void)
{
    pthread_t first, second;
    for (int i = 0; i < 3; i++) {
        struct node *node = calloc(1, sizeof *node);
        node->next = nodes;
        nodes = node;
    }
    pthread_create(&first, NULL, walker, NULL);                                /* @racing_1 */
    pthread_create(&second, NULL, walker, NULL);                               /* @racing_2 */
    sem_post(&step);
    sem_post(&step);
    pthread_join(first, NULL);                                                 /* @racing_3 */
    pthread_join(second, NULL);                                                /* @racing_4 */
}

/* --- Endings -------------------------------------------------------------------------------------------- */

static void *other_way(void *unused)
{
    pthread_mutex_lock(&b);                                                    /* @dead_b */
    sem_post(&step);
    sem_wait(&other_step);
    pthread_mutex_lock(&a);                                                    /* @dead_ba */
    return unused;
}

/* Hangs: the test kills it. */
static void deadlock(void)
{
    pthread_t thread;
    pthread_create(&thread, NULL, other_way, NULL);                            /* @dead_create */
    pthread_mutex_lock(&a);                                                    /* @dead_a */
    sem_wait(&step);
    sem_post(&other_step);
    say_ready();
    pthread_mutex_lock(&b);                                                    /* @dead_ab */
}

static void one_pair(void)
{
    pthread_mutex_lock(&a);                                                    /* @pair_lock */
    pthread_mutex_unlock(&a);                                                  /* @pair_unlock */
}

static void aborts(void)
{
    one_pair();
    abort();
}

static void leaves_at_once(void)
{
    one_pair();
    _exit(5);
}

static void upgrade(void)
{
    pthread_mutex_lock(&a);                                                    /* @upgrade_a */
    pthread_rwlock_rdlock(&rw);                                                /* @upgrade_read */
    say_ready();
    pthread_rwlock_wrlock(&rw);                                                /* @upgrade_write */
}

/* A plain mutex, locked by the thread that holds it. It hangs, as `upgrade` does: the test ends it. */
static void again_plain(void)
{
    pthread_mutex_lock(&a);                                                    /* @again_a */
    say_ready();
    pthread_mutex_lock(&a);                                                    /* @again_twice */
}

static void *unlocks_a(void *unused)
{
    pthread_mutex_unlock(&a);                                                  /* @handed_unlock */
    return unused;
}

/* The mutex that the thread locks twice was unlocked by another one in between. */
static void handed_over(void)
{
    pthread_t thread;
    pthread_mutex_lock(&a);                                                    /* @handed_first */
    pthread_create(&thread, NULL, unlocks_a, NULL);                            /* @handed_fork */
    pthread_join(thread, NULL);                                                /* @handed_join */
    pthread_mutex_lock(&a);
    pthread_mutex_unlock(&a);                                                  /* @handed_end */
}

static void beyond(void)
{
    for (int i = 0; i < 66; i++)
        pthread_mutex_lock(&many[i]);                                          /* @beyond_lock */
    for (int i = 66; i-- > 0;)
        pthread_mutex_unlock(&many[i]);                                        /* @beyond_unlock */
    one_pair();
}

/* As where a release is forgotten: the thread never has to wait for itself. */
static void leaks(void)
{
    pthread_mutex_t lock = PTHREAD_RECURSIVE_MUTEX_INITIALIZER_NP;
    for (int i = 0; i < 1000002; i++)
        pthread_mutex_lock(&lock);                                             /* @leaks_lock */
    for (int i = 0; i < 1000002; i++)
        pthread_mutex_unlock(&lock);                                           /* @leaks_unlock */
}

static void stray(void)
{
    pthread_mutex_unlock(&a);                                                  /* @stray */
    one_pair();
}

/* --- Late and early events ------------------------------------------------------------------------------ */

static pthread_key_t key;

static void key_end(void *value)
{
    pthread_mutex_lock(&b);                                                    /* @key_lock */
    pthread_mutex_unlock(&b);                                                  /* @key_unlock */
    if ((intptr_t)value > 1)
        pthread_setspecific(key, (void *)((intptr_t)value - 1));
}

static void *uses_key(void *unused)
{
    pthread_setspecific(key, (void *)1);
    return unused;
}

/* Its destructor runs in every round that there is. */
static void *uses_key_long(void *unused)
{
    pthread_setspecific(key, (void *)100);
    return unused;
}

static void keys(void)
{
    pthread_t thread;
    pthread_key_create(&key, key_end);
    pthread_create(&thread, NULL, uses_key, NULL);                             /* @keys_1 */
    pthread_join(thread, NULL);                                                /* @keys_2 */
    pthread_create(&thread, NULL, uses_key_long, NULL);                        /* @keys_3 */
    pthread_join(thread, NULL);                                                /* @keys_4 */
}

static void on_signal(int number)
{
    (void)number;
    pthread_mutex_lock(&b);                                                    /* @signal_lock */
    pthread_mutex_unlock(&b);                                                  /* @signal_unlock */
}

static void signals(void)
{
    signal(SIGUSR1, on_signal);
    pthread_mutex_lock(&a);                                                    /* @signals_lock */
    raise(SIGUSR1);
    pthread_mutex_unlock(&a);                                                  /* @signals_unlock */
}

/* Signals come at any instruction of the recorder's. */
static void signal_storm(void)
{
    struct itimerval often = {{0, 200}, {0, 200}};
    signal(SIGALRM, on_signal);
    setitimer(ITIMER_REAL, &often, NULL);
    for (long i = 0; i < 2000000; i++) {
        pthread_mutex_lock(&a);
        pthread_mutex_lock(&many[0]);
        pthread_mutex_unlock(&many[0]);
        pthread_mutex_unlock(&a);
    }
}

/* --- Repeats -------------------------------------------------------------------------------------------- */

static void both(void)
{
    pthread_mutex_lock(&a);                                                    /* @both_a */
    pthread_mutex_lock(&b);                                                    /* @both_b */
    pthread_mutex_unlock(&b);                                                  /* @both_b_end */
    pthread_mutex_unlock(&a);                                                  /* @both_a_end */
}

static void repeats(void)
{
    pthread_t thread;
    for (int i = 0; i < 5; i++) {
        both();
        one_pair();
    }
    pthread_create(&thread, NULL, quick, NULL);                                /* @repeats_1 */
    for (int i = 0; i < 3; i++)
        both();
    pthread_join(thread, NULL);                                                /* @repeats_2 */
    both();
}

/* 200,000 events, no two stretches of one pass alike: 50,000 nested pairs of locks, twice. */
static void volume(void)
{
    enum { SIDE = 224 };
    pthread_mutex_t *outer = calloc(SIDE, sizeof *outer), *inner = calloc(SIDE, sizeof *inner);
    for (int pass = 0; pass < 2; pass++)
        for (int i = 0; i < SIDE * SIDE; i++) {
            pthread_mutex_lock(&outer[i / SIDE]);
            pthread_mutex_lock(&inner[i % SIDE]);
            pthread_mutex_unlock(&inner[i % SIDE]);
            pthread_mutex_unlock(&outer[i / SIDE]);
        }
}

/* --- What comes round ------------------------------------------------------------------------------------- */

/* Walks around four locks, and holds one all the time. */
static void ring(void)
{
    pthread_mutex_lock(&many[0]);                                              /* @ring */
    for (int i = 0; i < 200001; i++) {
        pthread_mutex_lock(&many[(i + 1) % 4]);                                /* @ring_next */
        pthread_mutex_unlock(&many[i % 4]);                                    /* @ring_last */
    }
    pthread_mutex_unlock(&many[1]);                                            /* @ring_end */
}

/* Walks around two locks and then around two others, in turn. */
static void two_rings(void)
{
    pthread_mutex_lock(&many[0]);
    for (int i = 0; i < 400000; i++) {
        int here = i / 1000 % 2 * 2 + i % 2, next = (i + 1) / 1000 % 2 * 2 + (i + 1) % 2;
        pthread_mutex_lock(&many[next]);
        pthread_mutex_unlock(&many[here]);
    }
    pthread_mutex_unlock(&many[0]);
}

/* Asks again and again for a lock that it has, and isn't deeper in it than before. */
static void deeper(void)
{
    pthread_mutex_lock(&again);                                                /* @deeper */
    for (int i = 0; i < 100000; i++) {
        pthread_mutex_lock(&again);                                            /* @deeper_again */
        pthread_mutex_unlock(&again);                                          /* @deeper_back */
    }
    pthread_mutex_unlock(&again);                                              /* @deeper_end */
}

static void no_thread(void)
{
    pthread_attr_t too_large;
    pthread_t thread;
    pthread_attr_init(&too_large);
    pthread_attr_setstacksize(&too_large, (size_t)1 << 46);
    MUST(pthread_create(&thread, &too_large, quick, NULL) == EAGAIN);
}

/* Threads that can't be made, with locks held and without. */
static void no_threads(void)
{
    for (int i = 0; i < 1500; i++) {
        no_thread();
        pthread_mutex_lock(&a);                                                /* @no_threads_a */
        no_thread();
        pthread_mutex_lock(&b);                                                /* @no_threads_b */
        no_thread();
        pthread_mutex_unlock(&a);                                              /* @no_threads_a_end */
        pthread_mutex_unlock(&b);                                              /* @no_threads_b_end */
    }
}

/* The same where many events are known. */
static void no_threads_amid_many(void)
{
    for (int i = 0; i < 20; i++) {
        no_thread();
        for (int k = 0; k < 34 * 34; k++) {
            pthread_mutex_lock(&many[k / 34]);
            pthread_mutex_lock(&many[34 + k % 34]);
            pthread_mutex_unlock(&many[34 + k % 34]);
            pthread_mutex_unlock(&many[k / 34]);
        }
    }
}

/* The last thread comes when there may be no room left. */
static void volume_and_thread(void)
{
    pthread_t thread;
    volume();
    pthread_create(&thread, NULL, leaves, NULL);
    pthread_join(thread, NULL);
}

static void volume_and_wait(void)
{
    volume();
    one_pair();
    say_ready();
    pause();
}

/* Fills all the room that there is, without a file for more. */
static void *takes_all_room(void *unused)
{
    static pthread_mutex_t crowd[40000];
    pthread_mutex_lock(&a);                                                    /* @takes_all_room */
    pthread_mutex_unlock(&a);
    for (int i = 0; i < 40000; i++)
        pthread_mutex_unlock(&crowd[i]);
    return unused;
}

/* Repeats something at each place of its chunk, up to the last one, behind which there is the other thread's. */
/* How much memory the process has mapped. */
static unsigned long bytes_mapped(void)
{
    unsigned long pages = 0;
    FILE *file = fopen("/proc/self/statm", "r");
    if (!file || fscanf(file, "%lu", &pages) != 1)
        _exit(99);
    fclose(file);
    return pages * (unsigned long)sysconf(_SC_PAGESIZE);
}

/* Files of 256 KB can still be mapped, and none that is larger. What is needed once is there before that. */
static void confined(void)
{
    struct rlimit limit;
    one_pair();
    bytes_mapped();
    limit.rlim_cur = limit.rlim_max = bytes_mapped() + (1000ul << 10);
    setrlimit(RLIMIT_AS, &limit);
    for (int i = 1; i < 40000; i++)
        one_pair();
}

static void no_files(void)
{
    static pthread_mutex_t crowd[1000];
    struct rlimit none = {0, 0};
    pthread_t thread;
    MUST(setrlimit(RLIMIT_NOFILE, &none) == 0);
    pthread_create(&thread, NULL, takes_all_room, NULL);
    pthread_join(thread, NULL);
    for (int i = 0; i < 1000; i++) {
        pthread_mutex_lock(&a);
        pthread_mutex_lock(&b);
        pthread_mutex_unlock(&b);
        pthread_mutex_unlock(&a);
        pthread_mutex_unlock(&crowd[i]);
    }
}

static void many_threads(void)
{
    for (int i = 0; i < 1100; i++) {
        pthread_t thread;
        pthread_create(&thread, NULL, quick, NULL);
        pthread_join(thread, NULL);
    }
    one_pair();
}

/* --- Processes ------------------------------------------------------------------------------------------ */

static void *child_thread(void *unused)
{
    one_pair();
    return unused;
}

static void forks(void)
{
    pthread_mutex_t *made = make();
    pthread_mutex_lock(made);                                                  /* @forks_made */
    pid_t child = fork();
    if (child == 0) {
        pthread_t thread;
        pthread_mutex_lock(&b);                                                /* @forks_child_b */
        pthread_mutex_unlock(&b);                                              /* @forks_child_b_end */
        pthread_mutex_unlock(made);                                            /* @forks_child_made */
        pthread_create(&thread, NULL, child_thread, NULL);                     /* @forks_child_1 */
        pthread_join(thread, NULL);                                            /* @forks_child_2 */
        _exit(0);
    }
    printf("%d\n", child);
    waitpid(child, NULL, 0);
    pthread_mutex_unlock(made);                                                /* @forks_made_end */
}

static pthread_mutex_t *find(void)
{
    pthread_mutex_t *lock = malloc(sizeof *lock);
    *lock = (pthread_mutex_t)PTHREAD_MUTEX_INITIALIZER;
    return lock;
}

static void *takes(void *lock)
{
    pthread_mutex_lock(lock);                                                  /* @takes */
    pthread_mutex_unlock(lock);                                                /* @takes_end */
    return NULL;
}

/* After the fork the parent does what its child does. */
static void parent_goes_on(void)
{
    pthread_mutex_t *met = find(), *later = find();
    pthread_t thread;
    pthread_create(&thread, NULL, takes, met);                                 /* @goes_on_1 */
    pthread_join(thread, NULL);                                                /* @goes_on_2 */
    pid_t child = fork();
    takes(later);
    takes(met);
    takes(&b);
    takes(make());
    if (child == 0)
        _exit(0);
    printf("%d\n", child);
    waitpid(child, NULL, 0);
}

/* A child that no handler of a fork sees. */
static void raw_fork(void)
{
    pthread_mutex_lock(&a);                                                    /* @raw_lock */
    pid_t child = (pid_t)syscall(SYS_fork);
    if (child == 0) {
        pthread_mutex_lock(&b);                                                /* @raw_child */
        pthread_mutex_unlock(&b);                                              /* @raw_child_end */
        _exit(0);
    }
    printf("%d\n", child);
    waitpid(child, NULL, 0);
    pthread_mutex_unlock(&a);                                                  /* @raw_unlock */
}

static pid_t forked;
static volatile sig_atomic_t has_forked; /* in both processes */

static void forks_here(int number)
{
    (void)number;
    forked = fork();
    has_forked = 1;
}

/* Holds the lock, and meanwhile sends a signal to the thread that waits for it. */
static void *holds_and_signals(void *waiting)
{
    pthread_mutex_lock(&a);
    sem_post(&step);
    wait_for_others();
    pthread_kill(*(pthread_t *)waiting, SIGUSR1);
    sem_wait(&other_step);
    pthread_mutex_unlock(&a);
    return NULL;
}

/* A child of a signal handler goes on in the call that the handler came in. */
static void forks_in_handler(void)
{
    pthread_t thread, own = pthread_self();
    int status;
    signal(SIGUSR1, forks_here);
    pthread_mutex_lock(&b);                                                    /* @handler_b */
    pthread_create(&thread, NULL, holds_and_signals, &own);                    /* @handler_fork */
    sem_wait(&step);
    while (!has_forked) {
        struct timespec soon = after(CLOCK_REALTIME, 200);
        MUST(pthread_mutex_timedlock(&a, &soon) == ETIMEDOUT);
    }
    pthread_mutex_lock(&many[0]);                                              /* @handler_many */
    pthread_mutex_unlock(&many[0]);                                            /* @handler_many_end */
    pthread_mutex_unlock(&b);                                                  /* @handler_b_end */
    if (forked == 0)
        _exit(0);
    printf("%d\n", forked);
    MUST(waitpid(forked, &status, 0) == forked && status == 0);
    sem_post(&other_step);
    pthread_join(thread, NULL);                                                /* @handler_join */
}

static char *program;

/* Before its first lock: the program's file is out of reach then. */
static void changes_root(void)
{
    MUST(mkdir("root", 0700) == 0 && chroot("root") == 0);
    one_pair();
}

static void executes(void)
{
    one_pair();
    printf("%d\n", getpid());
    fflush(stdout);
    execl(program, program, "mutexes", (char *)NULL);
}

static void clears_environment(void)
{
    clearenv();
    one_pair();
}

/* Processes each of which ends as soon as it has made the next one, as those of a server that goes into the background. The last one
 * stays until standard input ends. */
static void forks_away(void)
{
    const char *count = getenv("FORKS");
    char byte;
    one_pair();
    for (int i = count ? atoi(count) : 40; i > 0; i--)
        if (fork() > 0)
            _exit(0);
    MUST(read(0, &byte, 1) == 0);
    one_pair();
}

/* Outlives its parent, until standard input ends. */
static void goes_to_background(void)
{
    char unused;
    one_pair();
    if (fork() == 0) {
        setsid();
        while (read(0, &unused, 1) > 0)
            continue;
        both();
        _exit(0);
    }
    _exit(0);
}

/* Goes on when the first thread has ended. */
static void *runs_on(void *unused)
{
    wait_for_first_to_end();
    one_pair();
    say_ready();
    fclose(stdout);
    pause();
    return unused;
}

/* The same, until standard input ends. */
static void *reads_on(void *unused)
{
    char byte;
    wait_for_first_to_end();
    one_pair();
    say_ready();
    fclose(stdout);
    while (read(0, &byte, 1) > 0)
        continue;
    both();
    return unused;
}

static void ends_before(void *(*routine)(void *))
{
    pthread_t thread;
    pthread_create(&thread, NULL, routine, NULL);                              /* @first_fork */
    pthread_exit(NULL);
}

static void first_thread_ends(void)
{
    ends_before(runs_on);
}

static void first_thread_ends_before_the_program(void)
{
    ends_before(reads_on);
}

static void first_thread_ends_in_background(void)
{
    if (fork() == 0)
        ends_before(reads_on);
    fclose(stdout);
}

/* Many events, and then no rights to make files in the directory of the recording. */
static void gives_up_root(void)
{
    one_pair();
    MUST(setuid(65534) == 0);
    volume();
}

/* With so much left of the stack as one path may have. */
static void *gives_up_root_here(void *unused)
{
    pthread_attr_t attributes;
    void *lowest = NULL;
    size_t bytes = 0;
    char here;
    pthread_getattr_np(pthread_self(), &attributes);
    pthread_attr_getstack(&attributes, &lowest, &bytes);
    volatile char *filled = alloca((size_t)(&here - (char *)lowest) - 4096);
    filled[0] = 1;
    MUST(setuid(65534) == 0);
    one_pair();
    return unused;
}

static void gives_up_root_on_a_small_stack(void)
{
    pthread_attr_t attributes;
    pthread_t thread;
    one_pair();
    pthread_attr_init(&attributes);
    pthread_attr_setstacksize(&attributes, PTHREAD_STACK_MIN);
    pthread_create(&thread, &attributes, gives_up_root_here, NULL);
    pthread_join(thread, NULL);
}

static void cancelled_here(void)
{
    sem_post(&step);
    pause();
}

static pthread_once_t never_done = PTHREAD_ONCE_INIT;

static void *runs_once(void *unused)
{
    pthread_once(&never_done, cancelled_here);                                /* @cancelled_once */
    return unused;
}

/* A thread that is cancelled in what it runs once. */
static void cancelled_in_once(void)
{
    pthread_t thread;
    sem_init(&step, 0, 0);
    pthread_create(&thread, NULL, runs_once, NULL);                            /* @cancelled_fork */
    sem_wait(&step);
    pthread_cancel(thread);
    pthread_join(thread, NULL);                                                /* @cancelled_join */
}

/* What it makes is open to nobody; so is what its child makes. */
static void hides_its_files(void)
{
    umask(0777);
    MUST(chdir("/") == 0);
    volume();
    pid_t child = fork();
    if (child == 0) {
        one_pair();
        _exit(0);
    }
    waitpid(child, NULL, 0);
}

/* As many locks as this, each taken once. */
static void many_locks(void)
{
    pthread_mutex_t *locks = calloc(20000, sizeof *locks);
    for (int i = 0; i < 20000; i++) {
        pthread_mutex_lock(&locks[i]);
        pthread_mutex_unlock(&locks[i]);
    }
}

/* Outlives its parent, and ends by the signal. */
static void waits_in_background(void)
{
    one_pair();
    if (fork() == 0) {
        one_pair();
        printf("%d\n", getpid());
        fflush(stdout);
        fclose(stdout);
        close(2);
        pause();
    }
    fclose(stdout);
}

static void waits_for_signal(void)
{
    one_pair();
    say_ready();
    pause();
}

/* Takes a lock under four functions, for the callers. */
static __attribute__((noinline)) void inner(void)
{
    pthread_mutex_lock(&a);                                                    /* @frames_lock */
    __asm__ volatile("");
}

static __attribute__((noinline)) void outer(int way)
{
    if (way == 1)
        inner();                                                               /* @frames_1 */
    else
        inner();                                                               /* @frames_2 */
    pthread_mutex_unlock(&a);                                                  /* @frames_unlock */
}

static void frames(void)
{
    outer(1);                                                                  /* @frames_outer_1 */
    outer(2);                                                                  /* @frames_outer_2 */
}

/* Its frame has another size each time. */
static __attribute__((noinline)) void varies(size_t size)
{
    volatile char *room = __builtin_alloca(size);
    room[0] = room[size - 1] = 1;
    inner();                                                                   /* @varies */
    pthread_mutex_unlock(&a);                                                  /* @varies_unlock */
}

static void frames_vary(void)
{
    for (int i = 0; i < 40; i++) {
        varies(16 + 112 * (size_t)(i % 7));                                    /* @vary_one */
        varies(16 + 240 * (size_t)(i % 5));                                    /* @vary_two */
    }
}

static void table(void)
{
    pthread_mutex_lock(&many[3]);                                              /* @table */
    pthread_mutex_unlock(&many[3]);                                            /* @table_end */
}

static void nothing(void)
{
}

static const struct {
    const char *name;
    void (*run)(void);
} programs[] = {
    {"mutexes", mutexes}, {"failing", failing}, {"recursive", recursive}, {"robust", robust},
    {"owner_died", owner_died}, {"made_again", made_again}, {"rwlocks", rwlocks}, {"spins", spins}, {"c11", c11},
    {"conditions", conditions}, {"cancel", cancel}, {"threads", threads}, {"two_makers", two_makers},
    {"racing", racing}, {"deadlock", deadlock}, {"aborts", aborts}, {"leaves_at_once", leaves_at_once},
    {"upgrade", upgrade}, {"again_plain", again_plain}, {"handed_over", handed_over}, {"beyond", beyond}, {"leaks", leaks}, {"gives_up_root", gives_up_root},
    {"gives_up_root_on_a_small_stack", gives_up_root_on_a_small_stack},
    {"hides_its_files", hides_its_files}, {"cancelled_in_once", cancelled_in_once},
    {"many_locks", many_locks}, {"waits_in_background", waits_in_background}, {"stray", stray}, {"keys", keys}, {"signals", signals}, {"signal_storm", signal_storm},
    {"ring", ring}, {"two_rings", two_rings}, {"deeper", deeper}, {"no_threads", no_threads},
    {"no_threads_amid_many", no_threads_amid_many},
    {"repeats", repeats}, {"volume", volume}, {"volume_and_wait", volume_and_wait}, {"volume_and_thread", volume_and_thread},
    {"confined", confined}, {"no_files", no_files}, {"many_threads", many_threads}, {"forks", forks},
    {"parent_goes_on", parent_goes_on}, {"raw_fork", raw_fork}, {"forks_in_handler", forks_in_handler}, {"changes_root", changes_root}, {"executes", executes}, {"clears_environment", clears_environment},
    {"goes_to_background", goes_to_background}, {"forks_away", forks_away}, {"first_thread_ends", first_thread_ends},
    {"first_thread_ends_in_background", first_thread_ends_in_background},
    {"first_thread_ends_before_the_program", first_thread_ends_before_the_program}, {"waits_for_signal", waits_for_signal}, {"frames", frames}, {"frames_vary", frames_vary},
    {"table", table}, {"nothing", nothing},
};

int main(int count, char **arguments)
{
    program = arguments[0];
    for (size_t i = 0; count > 1 && i < sizeof programs / sizeof programs[0]; i++)
        if (strcmp(programs[i].name, arguments[1]) == 0) {
            programs[i].run();                                                 /* @frames_main */
            return 0;
        }
    return 98;
}
