/* Gives a block back twice, after a lock was met. */
#include <pthread.h>
#include <stdlib.h>

static pthread_mutex_t a = PTHREAD_MUTEX_INITIALIZER;

int main(void)
{
    void *volatile block = malloc(100);
    pthread_mutex_lock(&a);
    pthread_mutex_unlock(&a);
    free(block);
    free(block);
    return 0;
}
