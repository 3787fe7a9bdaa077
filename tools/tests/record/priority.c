/* A thread of real-time priority and one without any share a processor: whoever waits for the other one has to let it run. */
#define _GNU_SOURCE
#include <dlfcn.h>
#include <pthread.h>
#include <sched.h>
#include <stdint.h>
#include <string.h>
#include <sys/wait.h>
#include <time.h>
#include <unistd.h>

#define NO_PRIORITY 77
#define TURNS 100
#define FORKS 150
#define LIMIT 20 /* seconds: by then SIGALRM ends it */
#define WAITED 1 /* status: the urgent thread took a second of the processor, as it waited without a sleep */

static int is_over;

static void makes_a_lock(void)
{
    pthread_mutex_t lock;
    pthread_mutex_init(&lock, NULL);
    pthread_mutex_lock(&lock);
    pthread_mutex_unlock(&lock);
    pthread_mutex_destroy(&lock);
}

static void loads_a_library(void)
{
    void *library = dlopen("./plugin-one.so", RTLD_NOW);
    if (library)
        dlclose(library);
}

static void *again_and_again(void *does)
{
    while (!__atomic_load_n(&is_over, __ATOMIC_ACQUIRE))
        (*(void (**)(void))does)();
    return NULL;
}

/* What this thread took of the processor, in seconds. */
static double taken(void)
{
    struct timespec moment;
    clock_gettime(CLOCK_THREAD_CPUTIME_ID, &moment);
    return (double)moment.tv_sec + (double)moment.tv_nsec / 1e9;
}

static void sleeps(void)
{
    nanosleep(&(struct timespec){0, 1000000}, NULL);
}

static int takes_priority(int policy, int priority)
{
    return pthread_setschedparam(pthread_self(), policy, &(struct sched_param){priority}) == 0;
}

/* All threads that are made from here on are bound to the processor that this one is on. */
static int stays_on_one_processor(void)
{
    cpu_set_t processors;
    CPU_ZERO(&processors);
    CPU_SET(sched_getcpu(), &processors);
    return sched_setaffinity(0, sizeof processors, &processors) == 0;
}

static int locks(void)
{
    for (int turn = 0; turn < TURNS; turn++) {
        sleeps();
        makes_a_lock();
    }
    return 0;
}

static int forks(void)
{
    int status = 0;
    for (int turn = 0; turn < FORKS; turn++) {
        sleeps();
        pid_t child = fork();
        if (child == 0)
            _exit(0);
        if (waitpid(child, &status, 0) != child || status != 0)
            return 2;
    }
    return 0;
}

/* A guard of a static variable, as a compiler sees it: there is no C++ library here. */
extern int __cxa_guard_acquire(uint64_t *guard) __attribute__((weak));
extern void __cxa_guard_release(uint64_t *guard) __attribute__((weak));
static uint64_t guards[5];

static void makes_a_variable(void)
{
    static size_t next;
    if (next == sizeof guards / sizeof *guards) {
        sleeps();
    } else if (__cxa_guard_acquire(&guards[next])) {
        for (double began = taken(); taken() - began < 0.2;)
            ;
        __cxa_guard_release(&guards[next]);
        __atomic_store_n(&next, next + 1, __ATOMIC_RELEASE);
    }
}

static int statics(void)
{
    for (size_t i = 0; i < sizeof guards / sizeof *guards; i++) {
        while (!((volatile unsigned char *)&guards[i])[1]) /* it is about to be made */
            sleeps();
        if (__cxa_guard_acquire(&guards[i]))
            return 2;
    }
    return 0;
}

static const struct {
    const char *name;
    int (*urgent)(void);
    void (*other)(void);
} programs[] = {{"locks", locks, makes_a_lock}, {"forks", forks, loads_a_library}, {"statics", statics, makes_a_variable}};

int main(int count, char **arguments)
{
    for (size_t i = 0; count > 1 && i < sizeof programs / sizeof *programs; i++)
        if (strcmp(programs[i].name, arguments[1]) == 0) {
            pthread_t other;
            alarm(LIMIT);
            if (!stays_on_one_processor() ||
                pthread_create(&other, NULL, again_and_again, (void *)&programs[i].other) != 0)
                return 98;
            if (!takes_priority(SCHED_FIFO, 1))
                return NO_PRIORITY;
            int status = programs[i].urgent();
            if (status == 0 && taken() > 1)
                status = WAITED;
            takes_priority(SCHED_OTHER, 0);
            __atomic_store_n(&is_over, 1, __ATOMIC_RELEASE);
            pthread_join(other, NULL);
            return status;
        }
    return 98;
}
