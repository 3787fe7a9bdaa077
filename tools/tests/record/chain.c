/* So many threads, of which each makes the next one and ends, each by a call of its own: every third one makes another before. */
#include <pthread.h>
#include <stdlib.h>
#include <unistd.h>

static pthread_mutex_t lock = PTHREAD_MUTEX_INITIALIZER;
static long most, ended, others;

static void *other(void *unused)
{
    return unused;
}

static void starts(void *(*routine)(void *), void *argument)
{
    pthread_attr_t detached;
    pthread_t thread;
    pthread_attr_init(&detached);
    pthread_attr_setdetachstate(&detached, PTHREAD_CREATE_DETACHED);
    if (pthread_create(&thread, &detached, routine, argument) != 0)
        _exit(99);
}

static void *link_of(void *value)
{
    long number = (long)value;
    pthread_mutex_lock(&lock);
    pthread_mutex_unlock(&lock);
    if (others && number % 3 == 0)
        starts(other, NULL);
    if (number < most)
        starts(link_of, (void *)(number + 1));
    else
        __atomic_store_n(&ended, 1, __ATOMIC_RELEASE);
    return NULL;
}

int main(int count, char **arguments)
{
    most = count > 1 ? atol(arguments[1]) : 1;
    others = count > 2;
    starts(link_of, (void *)1);
    while (!__atomic_load_n(&ended, __ATOMIC_ACQUIRE))
        usleep(1000);
    return 0;
}
