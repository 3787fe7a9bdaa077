/* A library whose lock and lines have another name each time it is built: NAME is one or two. */
#include <pthread.h>

#define JOINED(name) lock_of_##name
#define LOCK(name) JOINED(name)

pthread_mutex_t LOCK(NAME) = PTHREAD_MUTEX_INITIALIZER;

void run(void);

#line LINE
void run(void) { pthread_mutex_lock(&LOCK(NAME)); pthread_mutex_unlock(&LOCK(NAME)); }
