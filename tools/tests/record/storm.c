/* Walks around four locks hand over hand for two seconds, while signals come as often as they can, each of which takes
 * locks of its own, some of them hand over hand, too. */
#define _GNU_SOURCE
#include <pthread.h>
#include <signal.h>
#include <sys/time.h>
#include <time.h>

static pthread_mutex_t ring[4], own[6];
static unsigned signals;

static void handler(int number)
{
    unsigned turn = signals++ + 0 * (unsigned)number;
    pthread_mutex_t *first = &own[turn % 3], *second = &own[3 + turn / 3 % 3];
    if (turn % 2) {
        pthread_mutex_lock(first);
        pthread_mutex_lock(second);
        pthread_mutex_unlock(first);
    } else {
        pthread_mutex_lock(second);
    }
    pthread_mutex_unlock(second);
}

/* By two timers, so that one signal may come while another one is answered. */
static void signals_begin(void)
{
    struct sigaction action = {.sa_handler = handler};
    struct sigevent event = {.sigev_notify = SIGEV_SIGNAL, .sigev_signo = SIGUSR1};
    struct itimerval often = {{0, 37}, {0, 37}};
    struct itimerspec also = {{0, 23000}, {0, 23000}};
    timer_t timer;
    sigfillset(&action.sa_mask);
    sigaction(SIGPROF, &action, NULL);
    sigaction(SIGUSR1, &action, NULL);
    setitimer(ITIMER_PROF, &often, NULL);
    timer_create(CLOCK_MONOTONIC, &event, &timer);
    timer_settime(timer, 0, &also, NULL);
}

int main(void)
{
    sigset_t all;
    for (int i = 0; i < 4; i++)
        pthread_mutex_init(&ring[i], NULL);
    for (int i = 0; i < 6; i++)
        pthread_mutex_init(&own[i], NULL);
    signals_begin();
    pthread_mutex_lock(&ring[0]);
    unsigned turn = 0;
    for (time_t end = time(NULL) + 2; turn % 64 != 0 || time(NULL) < end; turn++) {
        pthread_mutex_lock(&ring[(turn + 1) % 4]);
        pthread_mutex_unlock(&ring[turn % 4]);
    }
    sigfillset(&all);
    sigprocmask(SIG_BLOCK, &all, NULL);
    pthread_mutex_unlock(&ring[turn % 4]);
    return 0;
}
