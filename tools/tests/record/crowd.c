/* So many threads, one after the other, each with a lock of its own: the first and the last one take two locks in opposite orders.
 * With a second argument they don't wait for each other. */
#include <pthread.h>
#include <stdlib.h>
#include <unistd.h>

static pthread_mutex_t a = PTHREAD_MUTEX_INITIALIZER, b = PTHREAD_MUTEX_INITIALIZER;
static int stage;

static void next_stage(void)
{
    __atomic_add_fetch(&stage, 1, __ATOMIC_SEQ_CST);
}

static void *first(void *unused)
{
    pthread_mutex_lock(&a); /* @first_a */
    pthread_mutex_lock(&b); /* @first_b */
    pthread_mutex_unlock(&b);
    pthread_mutex_unlock(&a);
    next_stage();
    return unused;
}

static void *other(void *own)
{
    pthread_mutex_lock(own);
    pthread_mutex_unlock(own);
    next_stage();
    return NULL;
}

static void *last(void *unused)
{
    pthread_mutex_lock(&b); /* @last_b */
    pthread_mutex_lock(&a); /* @last_a */
    pthread_mutex_unlock(&a);
    pthread_mutex_unlock(&b);
    next_stage();
    return unused;
}

int main(int argc, char **arguments)
{
    int count = atoi(arguments[1]), together = argc > 2;
    pthread_mutex_t *own = calloc((size_t)count, sizeof *own);
    for (int i = 0; i < count; i++) {
        pthread_t thread;
        pthread_mutex_init(&own[i], NULL);
        pthread_create(&thread, NULL, i == 0 ? first : i == count - 1 ? last : other, &own[i]);
        pthread_detach(thread);
        while (!together && __atomic_load_n(&stage, __ATOMIC_SEQ_CST) <= i)
            usleep(20);
    }
    while (__atomic_load_n(&stage, __ATOMIC_SEQ_CST) < count)
        usleep(20);
    return 0;
}
