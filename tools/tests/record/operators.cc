/* Locks whose names differ in a mark that stands between the parts of a line. */
#include <pthread.h>

struct Set {
};

static pthread_mutex_t *operator|(Set, Set)
{
    static pthread_mutex_t guard = PTHREAD_MUTEX_INITIALIZER;
    return &guard;
}

static pthread_mutex_t *operator!(Set)
{
    static pthread_mutex_t guard = PTHREAD_MUTEX_INITIALIZER;
    return &guard;
}

int main()
{
    pthread_mutex_lock(Set() | Set());
    pthread_mutex_lock(!Set());
    pthread_mutex_unlock(!Set());
    pthread_mutex_unlock(Set() | Set());
    return 0;
}
