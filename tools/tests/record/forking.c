/* Threads that fork at once, every second one with a signal blocked: each keeps the signals that it blocks, and its child has them. */
#include <pthread.h>
#include <signal.h>
#include <stdio.h>
#include <sys/wait.h>
#include <unistd.h>

#define THREADS 4
#define TURNS 40

static long wrong_parents, wrong_children;

static int is_blocked(void)
{
    sigset_t signals;
    pthread_sigmask(SIG_BLOCK, NULL, &signals);
    return sigismember(&signals, SIGUSR2);
}

static void fork_once(int blocked)
{
    int status;
    pid_t child = fork();
    if (child == 0)
        _exit(is_blocked() != blocked);
    if (is_blocked() != blocked)
        __atomic_add_fetch(&wrong_parents, 1, __ATOMIC_RELAXED);
    if (waitpid(child, &status, 0) == child && status != 0)
        __atomic_add_fetch(&wrong_children, 1, __ATOMIC_RELAXED);
}

static void *forks(void *number)
{
    int blocked = (long)number % 2 == 1;
    sigset_t signals;
    sigemptyset(&signals);
    sigaddset(&signals, SIGUSR2);
    if (blocked)
        pthread_sigmask(SIG_BLOCK, &signals, NULL);
    for (int i = 0; i < TURNS; i++)
        fork_once(blocked);
    return NULL;
}

int main(void)
{
    pthread_t threads[THREADS];
    for (long i = 0; i < THREADS; i++)
        pthread_create(&threads[i], NULL, forks, (void *)i);
    for (int i = 0; i < THREADS; i++)
        pthread_join(threads[i], NULL);
    printf("%ld parents and %ld children with others' signals\n", wrong_parents, wrong_children);
    return 0;
}
