/* Random lock events of one thread, the same ones for the same seed: random SEED TURNS. It forks and joins
 * threads while it holds locks, releases in any order, and does small things again and again. */
#include <pthread.h>
#include <stdlib.h>

enum { MUTEXES = 4, RWLOCKS = 2, DEPTH = 3 };

static pthread_mutex_t m[MUTEXES];
static pthread_rwlock_t r[RWLOCKS];
static int depths[MUTEXES];
static int modes[RWLOCKS]; /* 0: not held, 1: shared, 2: exclusive */

static void *quick(void *unused)
{
    return unused;
}

static void mutex_turn(int way, int i)
{
    if (way == 0 && depths[i] < DEPTH) {
        pthread_mutex_lock(&m[i]);
        depths[i]++;
    } else if (way == 1 && depths[i] < DEPTH) {
        pthread_mutex_lock(&m[i]);
        depths[i]++;
    } else if (way == 2 && depths[i] < DEPTH) {
        pthread_mutex_trylock(&m[i]);
        depths[i]++;
    } else if (depths[i] > 0) {
        pthread_mutex_unlock(&m[i]);
        depths[i]--;
    }
}

static void rwlock_turn(int way, int i)
{
    if (way == 0 && modes[i] == 0) {
        pthread_rwlock_rdlock(&r[i]);
        modes[i] = 1;
    } else if (way == 1 && modes[i] == 0) {
        pthread_rwlock_wrlock(&r[i]);
        modes[i] = 2;
    } else if (modes[i] != 0) {
        pthread_rwlock_unlock(&r[i]);
        modes[i] = 0;
    }
}

static void thread_turn(void)
{
    pthread_t thread;
    pthread_create(&thread, NULL, quick, NULL);
    pthread_join(thread, NULL);
}

static void release_all(void)
{
    for (int i = 0; i < MUTEXES; i++)
        for (; depths[i] > 0; depths[i]--)
            pthread_mutex_unlock(&m[i]);
    for (int i = 0; i < RWLOCKS; i++)
        if (modes[i] != 0)
            rwlock_turn(2, i);
}

int main(int count, char **arguments)
{
    unsigned seed = count > 1 ? (unsigned)atoi(arguments[1]) : 1;
    long turns = count > 2 ? atol(arguments[2]) : 100;
    pthread_mutexattr_t attributes;
    pthread_mutexattr_init(&attributes);
    pthread_mutexattr_settype(&attributes, PTHREAD_MUTEX_RECURSIVE);
    for (int i = 0; i < MUTEXES; i++)
        pthread_mutex_init(&m[i], &attributes);
    for (int i = 0; i < RWLOCKS; i++)
        pthread_rwlock_init(&r[i], NULL);
    for (long turn = 0; turn < turns; turn++) {
        int what = rand_r(&seed) % 1000;
        if (what < 600)
            mutex_turn(rand_r(&seed) % 7, rand_r(&seed) % MUTEXES);
        else if (what < 900)
            rwlock_turn(rand_r(&seed) % 4, rand_r(&seed) % RWLOCKS);
        else if (what < 990)
            release_all();
        else if (what < 992)
            thread_turn();
    }
    return 0;
}
