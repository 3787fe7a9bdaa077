/* Programs with a predicted cycle, for goodlock-confirm: the first argument names one. The runs end well by themselves, as the
 * threads come one after the other; of those whose names begin with `false_` no schedule deadlocks. */
#define _GNU_SOURCE
#include <pthread.h>
#include <semaphore.h>
#include <stdio.h>
#include <stdlib.h>
#include <string.h>
#include <unistd.h>

#include "turns.h"

static pthread_mutex_t a = PTHREAD_MUTEX_INITIALIZER, b = PTHREAD_MUTEX_INITIALIZER, gate = PTHREAD_MUTEX_INITIALIZER;
static pthread_mutex_t ring[3] = {PTHREAD_MUTEX_INITIALIZER, PTHREAD_MUTEX_INITIALIZER, PTHREAD_MUTEX_INITIALIZER};
static pthread_rwlock_t reads = PTHREAD_RWLOCK_INITIALIZER;
static pthread_cond_t condition = PTHREAD_COND_INITIALIZER;
static sem_t first_done;
static int ready, done;

static void run_threads(void *(*const *routines)(void *), int count)
{
    pthread_t threads[8];
    for (int i = 0; i < count; i++) {
        pthread_create(&threads[i], NULL, routines[i], (void *)(long)i);
        wait_for_others();
    }
    for (int i = 0; i < count; i++)
        pthread_join(threads[i], NULL);
}

static void both(pthread_mutex_t *first, pthread_mutex_t *second)
{
    pthread_mutex_lock(first);
    pthread_mutex_lock(second);
    pthread_mutex_unlock(second);
    pthread_mutex_unlock(first);
}

/* Two threads, two orders. */
static void *one_way(void *unused)
{
    pthread_mutex_lock(&a);   /* @one_a */
    pthread_mutex_lock(&b);   /* @one_b */
    pthread_mutex_unlock(&b);
    pthread_mutex_unlock(&a);
    return unused;
}

static void *other_way(void *unused)
{
    pthread_mutex_lock(&b);   /* @other_b */
    pthread_mutex_lock(&a);   /* @other_a */
    pthread_mutex_unlock(&a);
    pthread_mutex_unlock(&b);
    return unused;
}

static void opposite(void)
{
    run_threads((void *(*[])(void *)){one_way, other_way}, 2);
}

/* The same two, after more threads than there are at once anywhere. */
static void *passes_by(void *unused)
{
    pthread_mutex_lock(&gate);
    pthread_mutex_unlock(&gate);
    return unused;
}

static void after_others(void)
{
    for (int i = 0; i < 2100; i++) {
        pthread_t thread;
        pthread_create(&thread, NULL, passes_by, NULL);
        pthread_join(thread, NULL);
    }
    opposite();
}

/* The same two in a forked process, whose parent was at their places. */
static void after_fork(void)
{
    one_way(NULL);
    other_way(NULL);
    if (fork() == 0)
        opposite();
}

static void after_fork_without_variables(void)
{
    clearenv();
    after_fork();
}

/* Three threads that run the same lines. */
static void *philosopher(void *number)
{
    both(&ring[(long)number], &ring[((long)number + 1) % 3]);
    return NULL;
}

static void philosophers(void)
{
    run_threads((void *(*[])(void *)){philosopher, philosopher, philosopher}, 3);
}

/* Readers and a writer. */
static void *reader(void *unused)
{
    pthread_rwlock_rdlock(&reads);
    pthread_mutex_lock(&a);
    pthread_mutex_unlock(&a);
    pthread_rwlock_unlock(&reads);
    return unused;
}

static void *writer(void *unused)
{
    pthread_mutex_lock(&a);
    pthread_rwlock_wrlock(&reads);
    pthread_rwlock_unlock(&reads);
    pthread_mutex_unlock(&a);
    return unused;
}

static void readers(void)
{
    run_threads((void *(*[])(void *)){reader, reader, writer}, 3);
}

/* The one holds a lock while it waits for the condition, the other one takes that lock after it gave the signal. */
static void *waits(void *unused)
{
    pthread_mutex_lock(&a);
    pthread_mutex_lock(&b);
    while (!ready)
        pthread_cond_wait(&condition, &b);
    pthread_mutex_unlock(&b);
    pthread_mutex_unlock(&a);
    return unused;
}

static void *signals(void *unused)
{
    if (done)
        return unused;
    pthread_mutex_lock(&b);
    ready = 1;
    pthread_cond_signal(&condition);
    if (pthread_mutex_trylock(&a) == 0)
        pthread_mutex_unlock(&a);
    pthread_mutex_unlock(&b);
    return unused;
}

static void *wants_later(void *unused)
{
    wait_for_others();
    both(&b, &a);
    return unused;
}

static void conditions(void)
{
    run_threads((void *(*[])(void *)){waits, signals, wants_later}, 3);
}

/* The lock is asked for again within the wait, after the signal, while the one who gave it wants the other lock. */
static void *sleeps(void *unused)
{
    pthread_mutex_lock(&b);
    pthread_mutex_lock(&a);
    while (!ready)
        pthread_cond_wait(&condition, &b);
    pthread_mutex_unlock(&b);
    pthread_mutex_unlock(&a);
    return unused;
}

static void *takes_both(void *unused)
{
    both(&b, &a);
    return unused;
}

/* ORDER says when the signal comes: `late`, when the other thread has the lock already and waits for the second one; `never`;
 * else before that thread begins. */
static void wakes(void)
{
    const char *order = getenv("ORDER") ? getenv("ORDER") : "first";
    pthread_t sleeper, other;
    pthread_create(&sleeper, NULL, sleeps, NULL);
    wait_for_others();
    if (strcmp(order, "first") == 0) {
        ready = 1;
        pthread_cond_signal(&condition);
        wait_for_others();
    }
    pthread_create(&other, NULL, takes_both, NULL);
    wait_for_others();
    if (strcmp(order, "late") == 0) {
        ready = 1;
        pthread_cond_signal(&condition);
    }
    pthread_join(sleeper, NULL);
    pthread_join(other, NULL);
}

/* A pool whose workers take tasks; two tasks have opposite orders. Workers in step would give all of them to one worker: so the
   one with the first such task keeps it until another one has the first task of the other order. By themselves workers come
   into these tasks one after the other, however slow they are: one waits until no other is there, or until that one has gone to
   sleep there ten times, so that who holds one of them up has them meet. */
static int next_task;
static long who_is_there; /* a thread's number, or 0 */

static int comes_first(long own)
{
    long none = 0;
    return __atomic_compare_exchange_n(&who_is_there, &none, own, 0, __ATOMIC_SEQ_CST, __ATOMIC_SEQ_CST);
}

static void both_in_turn(pthread_mutex_t *first, pthread_mutex_t *second)
{
    long own = syscall(SYS_gettid), other = 0, sleeps = 0;
    while (!comes_first(own)) {
        long now = __atomic_load_n(&who_is_there, __ATOMIC_SEQ_CST);
        if (now != other)
            sleeps = sleeps_of(now);
        else if (sleeps_of(now) >= sleeps + 10)
            break;
        other = now;
        usleep(1000);
    }
    both(first, second);
    __atomic_compare_exchange_n(&who_is_there, &own, 0, 0, __ATOMIC_SEQ_CST, __ATOMIC_SEQ_CST);
}

static void *worker(void *unused)
{
    int task;
    while ((task = __atomic_fetch_add(&next_task, 1, __ATOMIC_RELAXED)) < 40) {
        usleep(2000);
        if (task % 8 == 3)
            both_in_turn(&a, &b);
        while (task == 3 && __atomic_load_n(&next_task, __ATOMIC_RELAXED) <= 7)
            usleep(100);
        if (task % 8 == 7)
            both_in_turn(&b, &a);
    }
    return unused;
}

static void pool(void)
{
    run_threads((void *(*[])(void *)){worker, worker, worker, worker}, 4);
}

/* The second thread begins only when the first one has finished: nothing that the analysis knows of. */
static void *posts(void *unused)
{
    one_way(NULL);
    sem_post(&first_done);
    return unused;
}

static void *waits_for_post(void *unused)
{
    sem_wait(&first_done);
    other_way(NULL);
    return unused;
}

static void false_semaphore(void)
{
    run_threads((void *(*[])(void *)){posts, waits_for_post}, 2);
}

/* A flag under a lock decides that the other order comes later. */
static void *sets_flag(void *unused)
{
    one_way(NULL);
    pthread_mutex_lock(&gate);
    done = 1;
    pthread_mutex_unlock(&gate);
    return unused;
}

static void *waits_for_flag(void *unused)
{
    for (int seen = 0; !seen; usleep(1000)) {
        pthread_mutex_lock(&gate);
        seen = done;
        pthread_mutex_unlock(&gate);
    }
    other_way(NULL);
    return unused;
}

static void false_flag(void)
{
    run_threads((void *(*[])(void *)){sets_flag, waits_for_flag}, 2);
}

/* The same lines with other locks in each thread. */
static void *own_locks(void *number)
{
    static pthread_mutex_t locks[2][2];
    both(&locks[(long)number][0], &locks[(long)number][1]);
    both(&locks[(long)number][1], &locks[(long)number][0]);
    if ((long)number == 0)
        one_way(NULL), sem_post(&first_done);
    else
        sem_wait(&first_done), other_way(NULL);
    return NULL;
}

static void false_own_locks(void)
{
    run_threads((void *(*[])(void *)){own_locks, own_locks}, 2);
}

/* A mutex that another thread unlocks than has locked it: the first one doesn't hold it any more, though it never unlocked it. */
static sem_t taken, given, other_holds;

static void *locks_only(void *unused)
{
    pthread_mutex_lock(&gate);
    sem_post(&taken);
    sem_wait(&given);
    usleep(100000);
    pthread_mutex_lock(&a);
    pthread_mutex_unlock(&a);
    return unused;
}

static void *unlocks_first(void *unused)
{
    sem_wait(&taken);
    pthread_mutex_unlock(&gate);
    sem_wait(&other_holds);
    pthread_mutex_lock(&a);
    sem_post(&given);
    pthread_mutex_lock(&gate);
    pthread_mutex_unlock(&gate);
    pthread_mutex_unlock(&a);
    return unused;
}

static void *holds_long(void *unused)
{
    pthread_mutex_lock(&gate);
    sem_post(&other_holds);
    usleep(1500000);
    pthread_mutex_unlock(&gate);
    return unused;
}

static void false_handed_over(void)
{
    run_threads((void *(*[])(void *)){locks_only, unlocks_first, holds_long}, 3);
}

int main(int count, char **arguments)
{
    static const struct {
        const char *name;
        void (*run)(void);
    } programs[] = {
        {"opposite", opposite}, {"philosophers", philosophers}, {"readers", readers}, {"conditions", conditions},
        {"wakes", wakes}, {"pool", pool}, {"false_semaphore", false_semaphore}, {"false_flag", false_flag},
        {"false_own_locks", false_own_locks}, {"false_handed_over", false_handed_over},
        {"after_others", after_others}, {"after_fork", after_fork},
        {"after_fork_without_variables", after_fork_without_variables},
    };
    for (size_t i = 0; count > 1 && i < sizeof programs / sizeof programs[0]; i++)
        if (strcmp(programs[i].name, arguments[1]) == 0) {
            programs[i].run();
            return 0;
        }
    return 98;
}
