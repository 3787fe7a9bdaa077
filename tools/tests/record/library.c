/* A library that takes a lock before main and after it. */
#include <pthread.h>

pthread_mutex_t library_lock = PTHREAD_MUTEX_INITIALIZER;

__attribute__((constructor)) static void library_start(void)
{
    pthread_mutex_lock(&library_lock);   /* @library_lock */
    pthread_mutex_unlock(&library_lock); /* @library_unlock */
}

__attribute__((destructor)) static void library_end(void)
{
    pthread_mutex_lock(&library_lock);   /* @library_lock_2 */
    pthread_mutex_unlock(&library_lock); /* @library_unlock_2 */
}
