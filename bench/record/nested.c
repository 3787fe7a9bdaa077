/* Four threads that do nothing but take and release two nested locks of their own, a million times each (or as often
 * as the argument says). */
#include <pthread.h>
#include <stdlib.h>

enum { THREADS = 4 };

static struct pair {
    pthread_mutex_t outer, inner;
    char apart[128]; /* keeps the threads' locks out of each other's cache lines */
} pairs[THREADS];

static long turns = 1000000;

static void *work(void *argument)
{
    struct pair *pair = argument;
    for (long turn = 0; turn < turns; turn++) {
        pthread_mutex_lock(&pair->outer);
        pthread_mutex_lock(&pair->inner);
        pthread_mutex_unlock(&pair->inner);
        pthread_mutex_unlock(&pair->outer);
    }
    return NULL;
}

int main(int count, char **arguments)
{
    pthread_t threads[THREADS];
    if (count > 1)
        turns = atol(arguments[1]);
    for (int i = 0; i < THREADS; i++) {
        pthread_mutex_init(&pairs[i].outer, NULL);
        pthread_mutex_init(&pairs[i].inner, NULL);
        pthread_create(&threads[i], NULL, work, &pairs[i]);
    }
    for (int i = 0; i < THREADS; i++)
        pthread_join(threads[i], NULL);
    return 0;
}
