/* A thread takes so many new locks that the recorder needs new files: it has the smallest stack that there may be, of which it uses a
 * part; or, with an argument, it is to be cancelled, but does nothing at which that may happen. */
#include <limits.h>
#include <pthread.h>
#include <stdio.h>
#include <string.h>
#include <sys/resource.h>
#include <unistd.h>

#define LOCKS 30000
#define USED 6000

static pthread_mutex_t locks[LOCKS], other = PTHREAD_MUTEX_INITIALIZER;
static int taken;

static void take_all(void)
{
    for (; taken < LOCKS; taken++) {
        pthread_mutex_lock(&locks[taken]);
        pthread_mutex_unlock(&locks[taken]);
    }
}

static void *on_small_stack(void *unused)
{
    volatile char room[USED];
    memset((char *)room, 1, sizeof room);
    take_all();
    return room[USED / 2] ? unused : NULL;
}

static void *to_be_cancelled(void *unused)
{
    pthread_cancel(pthread_self());
    take_all();
    pthread_testcancel();
    return unused;
}

int main(int count, char **arguments)
{
    struct rlimit limit = {10, 10}; /* seconds of a processor: then it hangs */
    pthread_attr_t small;
    pthread_t thread;
    (void)arguments;
    setrlimit(RLIMIT_CPU, &limit);
    pthread_attr_init(&small);
    if (count == 1 && pthread_attr_setstacksize(&small, PTHREAD_STACK_MIN) != 0)
        _exit(99);
    if (pthread_create(&thread, &small, count == 1 ? on_small_stack : to_be_cancelled, NULL) != 0)
        _exit(98);
    pthread_join(thread, NULL);
    pthread_mutex_lock(&other);
    pthread_mutex_unlock(&other);
    printf("%d taken\n", taken);
    return 0;
}
