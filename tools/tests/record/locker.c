/* A library that has a lock and no code: built twice, with another NAME each time. */
#include <pthread.h>

#define JOINED(a, b) a##b
#define LOCK_OF(name) JOINED(lock_of_, name)

pthread_mutex_t LOCK_OF(NAME) = PTHREAD_MUTEX_INITIALIZER;
