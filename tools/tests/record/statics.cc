// Visits of static variables that are initialised already: the first argument names a program.
#include <cstdlib>
#include <cstring>
#include <mutex>
#include <pthread.h>
#include <thread>
#include <unistd.h>

#include "turns.h"

static pthread_mutex_t a = PTHREAD_MUTEX_INITIALIZER;
static int initialisations;
static int has_ended;
static long first_number;

static void begins()
{
    __atomic_store_n(&first_number, syscall(SYS_gettid), __ATOMIC_RELAXED);
}

// Until the first thread has come to its end, however slow the machine is; or until it has gone to sleep twenty times, where somebody
// holds it up.
static void wait_for_first()
{
    while (!__atomic_load_n(&has_ended, __ATOMIC_RELAXED)) {
        long number = __atomic_load_n(&first_number, __ATOMIC_RELAXED);
        if (number != 0 && sleeps_of(number) >= 20)
            break;
        usleep(1000);
    }
}

struct Takes {
    Takes()
    {
        pthread_mutex_lock(&a);                                 // @takes_a
        __atomic_add_fetch(&initialisations, 1, __ATOMIC_SEQ_CST);
        usleep(20000);
        pthread_mutex_unlock(&a);                               // @takes_a_end
    }
    int value = 7;
};

static int has_static()
{
    static Takes variable;                                      // @static
    return variable.value;
}

static void *initialises(void *)
{
    begins();
    has_static();
    __atomic_store_n(&has_ended, 1, __ATOMIC_RELAXED);
    return nullptr;
}

static void *visits(void *)
{
    pthread_mutex_lock(&a);                                     // @visit_lock
    has_static();
    pthread_mutex_unlock(&a);                                   // @visit_unlock
    return nullptr;
}

// The second thread comes when the first one has long ended, and neither is joined before.
static void visited_later()
{
    pthread_t first, second;
    pthread_create(&first, nullptr, initialises, nullptr);      // @first_fork
    wait_for_first();
    pthread_create(&second, nullptr, visits, nullptr);          // @second_fork
    pthread_join(first, nullptr);                               // @first_join
    pthread_join(second, nullptr);                              // @second_join
}

static pthread_once_t control = PTHREAD_ONCE_INIT;

static void uses_a()
{
    pthread_mutex_lock(&a);
    usleep(20000);
    pthread_mutex_unlock(&a);
}

static void *runs_routine(void *)
{
    begins();
    pthread_once(&control, uses_a);
    __atomic_store_n(&has_ended, 1, __ATOMIC_RELAXED);
    return nullptr;
}

static void *comes_second(void *)
{
    pthread_mutex_lock(&a);
    pthread_once(&control, uses_a);
    pthread_mutex_unlock(&a);
    return nullptr;
}

// The same with a routine that runs once.
static void routine_later()
{
    pthread_t first, second;
    pthread_create(&first, nullptr, runs_routine, nullptr);
    wait_for_first();
    pthread_create(&second, nullptr, comes_second, nullptr);
    pthread_join(first, nullptr);
    pthread_join(second, nullptr);
}

static void visited_often()
{
    for (int i = 0; i < 70000; i++)
        has_static();
}

static int wrong;

static void *crowd(void *barrier)
{
    pthread_barrier_wait(static_cast<pthread_barrier_t *>(barrier));
    for (int i = 0; i < 100; i++)
        if (has_static() != 7)
            wrong = 1;
    return nullptr;
}

// Many come while the variable is initialised. The status says whether that happened once, before all of them saw it.
static int visited_by_a_crowd()
{
    enum { THREADS = 40 };
    pthread_t threads[THREADS];
    pthread_barrier_t barrier;
    pthread_barrier_init(&barrier, nullptr, THREADS);
    for (auto &thread : threads)
        pthread_create(&thread, nullptr, crowd, &barrier);
    for (auto &thread : threads)
        pthread_join(thread, nullptr);
    return wrong ? 98 : initialisations;
}

int main(int, char **arguments)
{
    const char *name = arguments[1];
    if (std::strcmp(name, "later") == 0)
        visited_later();
    else if (std::strcmp(name, "routine") == 0)
        routine_later();
    else if (std::strcmp(name, "often") == 0)
        visited_often();
    else if (std::strcmp(name, "crowd") == 0)
        return visited_by_a_crowd();
    else
        return 99;
    return 0;
}
