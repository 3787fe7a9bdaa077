/* Takes a lock before all constructors, of the program and of its libraries, and once more in main. */
#include <pthread.h>

static pthread_mutex_t a = PTHREAD_MUTEX_INITIALIZER;

static void before_all(int count, char **words, char **variables)
{
    (void)count, (void)words, (void)variables;
    pthread_mutex_lock(&a);                                                    /* @earliest */
    pthread_mutex_unlock(&a);                                                  /* @earliest_end */
}

__attribute__((section(".preinit_array"), used)) static void (*first)(int, char **, char **) = before_all;

int main(void)
{
    pthread_mutex_lock(&a);                                                    /* @later */
    pthread_mutex_unlock(&a);                                                  /* @later_end */
    return 0;
}
