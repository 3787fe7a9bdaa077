/* A program whose threads get a signal as they begin, before anything of the program runs in them, and whose handler
 * locks. Each thread is asked whether it begins with the signals shut out that it should. */
#define _GNU_SOURCE
#include <pthread.h>
#include <sched.h>
#include <signal.h>
#include <stdlib.h>
#include <string.h>
#include <threads.h>
#include <unistd.h>

#define TURNS 10

static pthread_mutex_t books = PTHREAD_MUTEX_INITIALIZER, pages = PTHREAD_MUTEX_INITIALIZER;
static pthread_mutex_t count = PTHREAD_MUTEX_INITIALIZER;
static sigset_t expected;

static void counts(int number)
{
    (void)number;
    pthread_mutex_lock(&count);   /* @counts_lock */
    pthread_mutex_unlock(&count); /* @counts_unlock */
}

static void *reads(void *unused)
{
    sigset_t found;
    pthread_sigmask(SIG_BLOCK, NULL, &found);
    for (int number = 1; number < SIGRTMAX; number++)
        if (sigismember(&found, number) != sigismember(&expected, number))
            _exit(1);
    pthread_mutex_lock(&books);   /* @reads_books */
    pthread_mutex_lock(&pages);   /* @reads_pages */
    pthread_mutex_unlock(&pages); /* @reads_pages_unlock */
    pthread_mutex_unlock(&books); /* @reads_books_unlock */
    return unused;
}

static int reads_c11(void *unused)
{
    reads(unused);
    return 0;
}

/* All threads have one processor: so a thread that was made waits until its maker waits, and the signal is there when
 * it begins. */
static void one_processor(void)
{
    cpu_set_t one;
    CPU_ZERO(&one);
    CPU_SET((size_t)sched_getcpu(), &one);
    if (sched_setaffinity(0, sizeof one, &one) != 0)
        _exit(2);
}

static void interrupted(void)
{
    for (int turn = 0; turn < TURNS; turn++) {
        pthread_t thread;
        thrd_t other;
        pthread_create(&thread, NULL, reads, NULL); /* @makes */
        pthread_kill(thread, SIGUSR2);
        pthread_join(thread, NULL);           /* @joins */
        thrd_create(&other, reads_c11, NULL); /* @makes_c11 */
        pthread_kill(other, SIGUSR2);
        thrd_join(other, NULL); /* @joins_c11 */
    }
}

/* With signals shut out by the maker, and by the attributes of the thread. */
static void with_masks(void)
{
    pthread_t thread;
    sigset_t before;
    pthread_attr_t attributes;
    sigemptyset(&expected);
    sigaddset(&expected, SIGTERM);
    sigaddset(&expected, SIGRTMIN + 1);
    pthread_sigmask(SIG_SETMASK, &expected, &before);
    pthread_create(&thread, NULL, reads, NULL);
    pthread_join(thread, NULL);
    pthread_attr_init(&attributes);
    for (int all = 0; all < 2; all++) {
        (all ? sigfillset : sigemptyset)(&expected);
        pthread_attr_setsigmask_np(&attributes, &expected);
        sigdelset(&expected, SIGKILL);
        sigdelset(&expected, SIGSTOP);
        pthread_create(&thread, &attributes, reads, NULL);
        pthread_join(thread, NULL);
    }
    pthread_attr_destroy(&attributes);
    sigset_t now;
    pthread_sigmask(SIG_SETMASK, &before, &now);
    if (sigismember(&now, SIGTERM) != 1 || sigismember(&now, SIGUSR2) != 0)
        _exit(3);
}

int main(int argument_count, char **arguments)
{
    signal(SIGUSR2, counts);
    one_processor();
    if (argument_count > 1 && strcmp(arguments[1], "masks") == 0)
        with_masks();
    else
        interrupted();
    pthread_mutex_lock(&pages); /* nobody else is there */
    pthread_mutex_lock(&books);
    pthread_mutex_unlock(&books);
    pthread_mutex_unlock(&pages);
    return 0;
}
