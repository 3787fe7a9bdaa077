/* Threads that come and go, make locks and walk around them hand over hand, and make threads in between. Each also loads one of
 * the libraries that are given. No thread reads what another one writes. */
#include <dlfcn.h>
#include <pthread.h>
#include <sched.h>
#include <stddef.h>
#include <stdlib.h>

#define LOCKS 40
#define THREADS 4

static pthread_mutex_t locks[THREADS][LOCKS];
static char **libraries; /* the last of them is followed by NULL */
static size_t turn;      /* whose it is to make a thread: in this order, which orders nothing else */

static void loads(char *name)
{
    void *library = dlopen(name, RTLD_NOW);
    void (*run)(void);
    if (!library)
        abort();
    *(void **)&run = dlsym(library, "run");
    run();
}

static void *walks_a_step(void *ring)
{
    pthread_mutex_t *locks_of_ring = ring;
    pthread_mutex_lock(&locks_of_ring[0]);
    pthread_mutex_lock(&locks_of_ring[1]);
    pthread_mutex_unlock(&locks_of_ring[0]);
    pthread_mutex_unlock(&locks_of_ring[1]);
    return NULL;
}

static void *walks(void *number)
{
    pthread_mutex_t *ring = locks[(size_t)number];
    pthread_t thread;
    for (int i = 0; i < LOCKS; i++)
        pthread_mutex_init(&ring[i], NULL);
    pthread_mutex_lock(&ring[0]);
    for (int i = 1; i < LOCKS; i++) {
        pthread_mutex_lock(&ring[i]);
        pthread_mutex_unlock(&ring[i - 1]);
    }
    while (__atomic_load_n(&turn, __ATOMIC_RELAXED) != (size_t)number)
        sched_yield();
    if (pthread_create(&thread, NULL, walks_a_step, ring) != 0 || pthread_join(thread, NULL) != 0)
        abort();
    __atomic_store_n(&turn, (size_t)number + 1, __ATOMIC_RELAXED);
    pthread_mutex_unlock(&ring[LOCKS - 1]);
    if ((size_t)number == 0 && libraries[0])
        loads(libraries[0]);
    if ((size_t)number == 1 && libraries[0] && libraries[1])
        loads(libraries[1]);
    return NULL;
}

int main(int count, char **words)
{
    libraries = words + (count > 0);
    for (int round = 0; round < 3; round++) {
        pthread_t threads[THREADS];
        turn = 0;
        for (size_t i = 0; i < THREADS; i++)
            if (pthread_create(&threads[i], NULL, walks, (void *)i) != 0)
                abort();
        for (int i = 0; i < THREADS; i++)
            pthread_join(threads[i], NULL);
    }
    return 0;
}
