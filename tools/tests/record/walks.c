/* Threads that do short lists of random things with a few locks again and again, the same ones for the same seed:
 * walks SEED THREADS. Each runs while no other does. Most of the time one holds a lock: it takes the next one before it
 * releases the last, asks for locks that it has, changes from one list to another and back, and, seldom, makes threads. */
#include <pthread.h>
#include <stdlib.h>

enum { MUTEXES = 3, RWLOCKS = 2, LOCKS = MUTEXES + RWLOCKS, DEPTH = 3, LISTS = 3, STEPS = 12, TURNS = 12 };

struct step {
    int what, lock, place;
};

static pthread_mutex_t m[MUTEXES];
static pthread_rwlock_t r[RWLOCKS];
static pthread_spinlock_t s[2];
static pthread_cond_t condition = PTHREAD_COND_INITIALIZER;
static int depths[LOCKS];

static void *quick(void *unused)
{
    return unused;
}

static void mutex_take(pthread_mutex_t *mutex, int place)
{
    if (place == 0)
        pthread_mutex_lock(mutex);
    else if (place == 1)
        pthread_mutex_lock(mutex);
    else
        pthread_mutex_trylock(mutex);
}

static void rwlock_take(pthread_rwlock_t *rwlock, int place)
{
    if (place == 0)
        pthread_rwlock_rdlock(rwlock);
    else if (place == 1)
        pthread_rwlock_wrlock(rwlock);
    else
        pthread_rwlock_tryrdlock(rwlock);
}

static void take(int lock, int place)
{
    if (depths[lock] >= (lock < MUTEXES ? DEPTH : 1))
        return;
    if (lock < MUTEXES)
        mutex_take(&m[lock], place);
    else
        rwlock_take(&r[lock - MUTEXES], place);
    depths[lock]++;
}

static void drop(int lock)
{
    if (depths[lock] == 0)
        return;
    if (lock < MUTEXES)
        pthread_mutex_unlock(&m[lock]);
    else
        pthread_rwlock_unlock(&r[lock - MUTEXES]);
    depths[lock]--;
}

/* Takes this lock, and releases what it holds of another one. */
static void move_on(int lock, int place)
{
    take(lock, place);
    for (int other = (lock + 1) % LOCKS; other != lock; other = (other + 1) % LOCKS)
        if (depths[other] > 0) {
            drop(other);
            return;
        }
}

/* Releases a lock that nobody holds, waits for a moment, or makes a thread, or none. */
static void seldom(int lock, int place, pthread_attr_t *too_large)
{
    static const struct timespec long_ago = {1, 0};
    pthread_t thread;
    if (place == 0)
        pthread_spin_unlock(&s[lock % 2]);
    else if (place == 1 && lock < MUTEXES && depths[lock] == 1)
        pthread_cond_timedwait(&condition, &m[lock], &long_ago);
    else if (lock > 0)
        pthread_create(&thread, too_large, quick, NULL);
    else if (pthread_create(&thread, NULL, quick, NULL) == 0)
        pthread_join(thread, NULL);
}

static void *walk(void *argument)
{
    unsigned seed = (unsigned)(size_t)argument;
    struct step lists[LISTS][STEPS];
    pthread_attr_t too_large;
    pthread_attr_init(&too_large);
    pthread_attr_setstacksize(&too_large, (size_t)1 << 46);
    for (int i = 0; i < LISTS * STEPS; i++)
        lists[i / STEPS][i % STEPS] = (struct step){rand_r(&seed) % 40, rand_r(&seed) % LOCKS, rand_r(&seed) % 3};
    for (int turn = 0; turn < TURNS; turn++) {
        const struct step *list = lists[rand_r(&seed) % LISTS];
        int steps = 1 + rand_r(&seed) % STEPS;
        for (int times = 1 + rand_r(&seed) % 10; times > 0; times--)
            for (const struct step *step = list; step < list + steps; step++)
                if (step->what == 0)
                    seldom(step->lock, step->place, &too_large);
                else if (step->what < 20)
                    move_on(step->lock, step->place);
                else if (step->what < 30)
                    take(step->lock, step->place);
                else
                    drop(step->lock);
    }
    for (int lock = 0; lock < LOCKS; lock++)
        while (depths[lock] > 0)
            drop(lock);
    return NULL;
}

int main(int count, char **arguments)
{
    size_t seed = count > 1 ? (size_t)atoi(arguments[1]) : 1;
    size_t threads = count > 2 ? (size_t)atoi(arguments[2]) : 100;
    pthread_mutexattr_t attributes;
    pthread_mutexattr_init(&attributes);
    pthread_mutexattr_settype(&attributes, PTHREAD_MUTEX_RECURSIVE);
    for (int i = 0; i < MUTEXES; i++)
        pthread_mutex_init(&m[i], &attributes);
    for (int i = 0; i < RWLOCKS; i++)
        pthread_rwlock_init(&r[i], NULL);
    for (int i = 0; i < 2; i++)
        pthread_spin_init(&s[i], 0);
    for (size_t i = 0; i < threads; i++) {
        pthread_t thread;
        pthread_create(&thread, NULL, walk, (void *)(seed * 1000 + i));
        pthread_join(thread, NULL);
    }
    return 0;
}
