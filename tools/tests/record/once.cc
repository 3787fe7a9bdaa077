// Routines and initialisations that run once, under a lock: the first argument names a program.
#include <cstring>
#include <mutex>
#include <pthread.h>
#include <semaphore.h>

#include "turns.h"

static pthread_mutex_t a = PTHREAD_MUTEX_INITIALIZER;
static pthread_once_t control = PTHREAD_ONCE_INIT;
static std::once_flag flag;
static sem_t initialising;

static void use_a()
{
    pthread_mutex_lock(&a);                                     // @use_a
    pthread_mutex_unlock(&a);                                   // @use_a_end
}

// The routine takes the lock; later the lock is held where the routine could still have to run.
static void routine()
{
    pthread_once(&control, use_a);                              // @once_first
    pthread_mutex_lock(&a);                                     // @once_lock
    pthread_once(&control, use_a);                              // @once_second
    pthread_mutex_unlock(&a);                                   // @once_unlock
}

static void throws()
{
    try {
        std::call_once(flag, [] { use_a(); throw 1; });         // @call_first
    } catch (int) {
    }
    std::call_once(flag, use_a);                                // @call_second
}

struct Takes {
    explicit Takes(int fails)
    {
        sem_post(&initialising);
        use_a();
        if (fails)
            throw 1;
    }
};

static void has_static(int fails)
{
    try {
        static Takes variable(fails);                           // @static
        (void)variable;
    } catch (int) {
    }
}

static void initialises()
{
    has_static(1);
    has_static(0);
}

// One thread initialises while it waits for the lock, the other one holds the lock and waits for the initialisation. It hangs: the test
// ends it.
static void *other_way(void *)
{
    pthread_mutex_lock(&a);                                     // @hang_lock
    sem_wait(&initialising);
    has_static(0);
    return nullptr;
}

static void hangs()
{
    pthread_t thread;
    pthread_create(&thread, nullptr, other_way, nullptr);       // @hang_fork
    wait_for_others();
    say_ready();
    has_static(0);
}

int main(int, char **arguments)
{
    static const struct {
        const char *name;
        void (*run)();
    } programs[] = {{"routine", routine}, {"throws", throws}, {"initialises", initialises}, {"hangs", hangs}};
    for (auto &program : programs)
        if (std::strcmp(program.name, arguments[1]) == 0) {
            program.run();
            return 0;
        }
    return 98;
}
