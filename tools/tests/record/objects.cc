// Two threads, two orders, in functions without names of their own: in a lambda, and in an object that is called.
#include <pthread.h>

#include "turns.h"

static pthread_mutex_t a = PTHREAD_MUTEX_INITIALIZER, b = PTHREAD_MUTEX_INITIALIZER;

static void both(pthread_mutex_t *first, pthread_mutex_t *second)
{
    pthread_mutex_lock(first);
    pthread_mutex_lock(second);
    pthread_mutex_unlock(second);
    pthread_mutex_unlock(first);
}

static void *one_way(void *unused)
{
    [](int) { both(&a, &b); }(1);           // @in_a_lambda
    return unused;
}

struct Called {
    void operator()() { both(&b, &a); }     // @in_an_object
};

static void *other_way(void *unused)
{
    Called()();
    return unused;
}

int main()
{
    pthread_t one, other;
    pthread_create(&one, nullptr, one_way, nullptr);
    wait_for_others();
    pthread_create(&other, nullptr, other_way, nullptr);
    pthread_join(one, nullptr);
    pthread_join(other, nullptr);
}
