/* Takes a lock while the loader asks which function stands for another one, before thread-locals are there, and once more in
 * main. */
#include <pthread.h>

static pthread_mutex_t a = PTHREAD_MUTEX_INITIALIZER;

static void does_nothing(void)
{
}

static void (*which(void))(void)
{
    if (pthread_mutex_lock(&a) != 0 || pthread_mutex_unlock(&a) != 0)
        __builtin_trap();
    return does_nothing;
}

static void one_of_many(void) __attribute__((ifunc("which")));

int main(void)
{
    one_of_many();
    pthread_mutex_lock(&a);                                                    /* @later */
    pthread_mutex_unlock(&a);                                                  /* @later_end */
    return 0;
}
