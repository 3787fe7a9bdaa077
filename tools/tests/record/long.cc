/* Names that are longer than a line may be, as templates in templates have them. Those of the two locks begin alike. */
#include <pthread.h>
#include <semaphore.h>

template <class A, class B> struct Pair {
};

template <int N> struct Tree {
    using T = Pair<typename Tree<N - 1>::T, typename Tree<N - 1>::T>;
};

template <> struct Tree<0> {
    using T = int;
};

template <class A, class B> struct Holder {
    static pthread_mutex_t guard;
};

template <class A, class B> pthread_mutex_t Holder<A, B>::guard = PTHREAD_MUTEX_INITIALIZER;

using Long = Tree<14>::T;

static sem_t turn; /* is no event */

static void take(pthread_mutex_t *one, pthread_mutex_t *other)
{
    pthread_mutex_lock(one);   /* @one */
    pthread_mutex_lock(other); /* @other */
    pthread_mutex_unlock(other);
    pthread_mutex_unlock(one);
}

template <class A> static void *begins(void *unused)
{
    take(&Holder<A, int>::guard, &Holder<A, char>::guard);
    sem_post(&turn);
    return unused;
}

static void *goes_on(void *unused)
{
    sem_wait(&turn);
    take(&Holder<Long, char>::guard, &Holder<Long, int>::guard);
    return unused;
}

int main()
{
    pthread_t first, second;
    sem_init(&turn, 0, 0);
    pthread_create(&first, nullptr, begins<Long>, nullptr);
    pthread_create(&second, nullptr, goes_on, nullptr);
    pthread_join(first, nullptr);
    pthread_join(second, nullptr);
    return 0;
}
