/* Puts a signal between two instructions of lock calls, at one place after the other:
 *
 *     interrupted STRETCH FORM FILL FURTHER STRIDE LAST
 *
 * A thread does a stretch a few times, so that all of it is known and left out. Then it does it one instruction after
 * the other, and after so many of them a signal comes, whose handler takes locks in this form. Then, or before, it does
 * it once more, and calls the handler itself wherever a signal may have come: so all threads do the same, but for where
 * the signal came. That is after STRIDE more instructions in each, until the stretch is over or LAST is reached; in the
 * first one there is none. FILL: before, so many words of events are written that stay, so that the chunk runs full
 * meanwhile. FURTHER: so many instructions after the signal another one comes, which may interrupt its handler; -1:
 * none does; -2, -3 and so on: it comes so many less two after the handler of the first one has come back. */
#define _GNU_SOURCE
#include <pthread.h>
#include <signal.h>
#include <stddef.h>
#include <stdlib.h>
#include <string.h>
#include <sys/ptrace.h>
#include <sys/user.h>
#include <sys/wait.h>
#include <unistd.h>

enum { FILLERS = 300, NO_TRACING = 77 };
enum { WALK, NESTED, ALONE, MAKES }; /* forms: hand over hand, one within the other, one; a thread is made and joined */
enum { KNOWN = 150 };                /* so many acquires take a larger table */

static pthread_mutex_t ring[3], own[4], filler[FILLERS];
static pthread_mutex_t broken, broken_bytes, whole_bytes;
static pthread_spinlock_t stray;
static int form, fill, stepping, probing;
static volatile int depth;

/* The tracer reads these, and writes `over`: the stretch ended before so many instructions. */
static volatile long wanted = -1, further, over;

/* --- What the threads do ---------------------------------------------------------------------------------- */

static void handler(int number);

static void *nothing(void *unused)
{
    return unused;
}

static void make_and_join(void)
{
    pthread_t thread;
    if (pthread_create(&thread, NULL, nothing, NULL) == 0)
        pthread_join(thread, NULL);
}

/* Where a second signal may come in. */
static void amid_handler(void)
{
    if (probing && further >= 0 && depth == 1)
        handler(0);
}

/* A handler that interrupts another one has locks of its own. */
static void handler(int number)
{
    pthread_mutex_t *first = &own[depth++ ? 2 : 0], *second = first + 1;
    (void)number;
    if (form == MAKES) {
        make_and_join();
        return;
    }
    amid_handler();
    pthread_mutex_lock(first);
    amid_handler();
    if (form != ALONE) {
        pthread_mutex_lock(second);
        amid_handler();
        pthread_mutex_unlock(form == WALK ? first : second);
        amid_handler();
    }
    pthread_mutex_unlock(form == WALK ? second : first);
    amid_handler();
    depth--;
}

/* Where a signal may come in. */
static void between(void)
{
    if (probing)
        handler(0);
}

/* Around what is done one instruction after the other. */
static void mark(void)
{
    if (stepping)
        raise(SIGUSR2);
}

static void nested(void)
{
    mark();
    pthread_mutex_lock(&ring[1]);
    between();
    pthread_mutex_lock(&ring[2]);
    between();
    pthread_mutex_unlock(&ring[2]);
    between();
    pthread_mutex_unlock(&ring[1]);
    mark();
    between();
}

static void within(void)
{
    pthread_mutex_lock(&ring[1]);
    mark();
    pthread_mutex_lock(&ring[2]);
    pthread_mutex_unlock(&ring[2]);
    mark();
    pthread_mutex_unlock(&ring[1]);
}

/* Hand over hand. */
static void walk(void)
{
    mark();
    pthread_mutex_lock(&ring[1]);
    between();
    pthread_mutex_unlock(&ring[0]);
    between();
    pthread_mutex_lock(&ring[0]);
    between();
    pthread_mutex_unlock(&ring[1]);
    mark();
    between();
}

/* One call of it. */
static void walk_on(void)
{
    pthread_mutex_lock(&ring[1]);
    between();
    mark();
    pthread_mutex_unlock(&ring[0]);
    mark();
    between();
    pthread_mutex_lock(&ring[0]);
    pthread_mutex_unlock(&ring[1]);
}

static void know_much(void)
{
    for (int i = 0; i < KNOWN; i++) {
        pthread_mutex_lock(&filler[i]);
        pthread_mutex_unlock(&filler[i]);
    }
}

/* Two calls in a thread that knows much. */
static void much(void)
{
    know_much();
    pthread_mutex_lock(&ring[1]);
    mark();
    pthread_mutex_lock(&ring[2]);
    pthread_mutex_unlock(&ring[1]);
    mark();
    pthread_mutex_unlock(&ring[2]);
}

/* A release there, before the thread makes another one. */
static void give(void)
{
    know_much();
    pthread_mutex_lock(&ring[1]);
    mark();
    pthread_mutex_unlock(&ring[1]);
    mark();
    if (stepping)
        make_and_join();
    pthread_mutex_lock(&ring[1]);
    pthread_mutex_lock(&ring[2]);
    pthread_mutex_unlock(&ring[2]);
    pthread_mutex_unlock(&ring[1]);
}

/* A lock that can't be had at first. */
static void fail(void)
{
    broken = probing ? whole_bytes : broken_bytes;
    mark();
    if (pthread_mutex_lock(&broken) == 0) {
        between();
        pthread_mutex_unlock(&broken);
    }
    mark();
    between();
}

/* What is known ends with a fork or join, so the handler is called on both sides of each. */
static void make(void)
{
    pthread_t thread;
    handler(0);
    mark();
    pthread_create(&thread, NULL, nothing, NULL);
    mark();
    handler(0);
    pthread_join(thread, NULL);
    handler(0);
}

static void join(void)
{
    pthread_t thread;
    handler(0);
    pthread_create(&thread, NULL, nothing, NULL);
    handler(0);
    mark();
    pthread_join(thread, NULL);
    mark();
    handler(0);
}

enum probes { NEVER, BEFORE, AFTER };

static const struct stretch {
    const char *name;
    void (*run)(void);
    int held;           /* whether the first lock of the ring is held around it */
    enum probes probes; /* when the handler is called in it without a signal */
} stretches[] = {
    {"nested", nested, 0, AFTER},   {"within", within, 0, NEVER},  {"walk", walk, 1, AFTER},
    {"walk_on", walk_on, 1, AFTER}, {"known", walk_on, 1, BEFORE}, {"fail", fail, 1, AFTER},
    {"make", make, 1, AFTER},       {"join", join, 1, AFTER},      {"much", much, 0, NEVER},
    {"give", give, 0, NEVER},
};

static void *worker(void *value)
{
    const struct stretch *stretch = value;
    if (fill % 2)
        pthread_spin_unlock(&stray);
    for (int i = 0; i < fill / 2; i++) {
        pthread_mutex_lock(&filler[i]);
        pthread_mutex_unlock(&filler[i]);
    }
    probing = 0;
    if (form != MAKES)
        handler(0);
    if (stretch->held)
        pthread_mutex_lock(&ring[0]);
    probing = stretch->probes == BEFORE;
    for (int i = 0; i < 4; i++, probing = 0)
        stretch->run();
    stepping = 1;
    stretch->run();
    stepping = 0;
    probing = stretch->probes == AFTER;
    stretch->run();
    if (stretch->held)
        pthread_mutex_unlock(&ring[0]);
    return NULL;
}

/* --- A mutex that can't be had: its owner died, and the next one gave it up --------------------------------- */

static void *dies(void *unused)
{
    pthread_mutex_lock(&broken);
    return unused;
}

static void broken_make(void)
{
    pthread_mutexattr_t robust;
    pthread_t thread;
    pthread_mutexattr_init(&robust);
    pthread_mutexattr_setrobust(&robust, PTHREAD_MUTEX_ROBUST);
    pthread_mutex_init(&broken, &robust);
    whole_bytes = broken;
    pthread_create(&thread, NULL, dies, NULL);
    pthread_join(thread, NULL);
    pthread_mutex_lock(&broken);
    pthread_mutex_unlock(&broken);
    broken_bytes = broken;
}

/* --- The tracer -------------------------------------------------------------------------------------------- */

static pid_t child;
static int child_status;

/* The thread that stops next, and the signal that it stops at; 0: the process has ended. */
static pid_t next_stop(int *number)
{
    int status;
    for (pid_t thread; (thread = waitpid(-1, &status, __WALL)) > 0;) {
        if (WIFSTOPPED(status)) {
            *number = WSTOPSIG(status);
            return thread;
        }
        if (thread == child) {
            child_status = WIFEXITED(status) ? WEXITSTATUS(status) : 128 + WTERMSIG(status);
            return 0;
        }
    }
    return 0;
}

/* Threads stop for the tracer alone when they begin and when they make others. */
static void go_on(pid_t thread, int number)
{
    ptrace(PTRACE_CONT, thread, 0, number == SIGTRAP || number == SIGSTOP ? 0 : number);
}

/* What this thread stops at next, while the others go on. */
static int next_stop_of(pid_t thread)
{
    int number;
    for (pid_t stopped; (stopped = next_stop(&number)) != 0; go_on(stopped, number))
        if (stopped == thread)
            return number;
    return 0;
}

/* Hands a signal to the thread and lets it do so many instructions; whether it did no more before the mark. */
static int steps(pid_t thread, int signal, long count)
{
    for (; count > 0; count--) {
        ptrace(PTRACE_SINGLESTEP, thread, 0, signal);
        signal = 0;
        if (next_stop_of(thread) != SIGTRAP)
            return 0;
    }
    return 1;
}

/* Hands a signal to the thread and lets its handler come back, and so many instructions more; whether it did no more
 * before the mark. */
static int steps_back(pid_t thread, int signal, long count)
{
    struct user_regs_struct before, now;
    ptrace(PTRACE_GETREGS, thread, 0, &before);
    do {
        if (!steps(thread, signal, 1))
            return 0;
        signal = 0;
        ptrace(PTRACE_GETREGS, thread, 0, &now);
    } while (now.rip != before.rip || now.rsp != before.rsp);
    return steps(thread, 0, count);
}

/* From the mark at the stretch's begin to the one at its end. */
static void stretch_follow(pid_t thread)
{
    long before = ptrace(PTRACE_PEEKDATA, thread, &wanted, 0), after = ptrace(PTRACE_PEEKDATA, thread, &further, 0);
    int number = before < 0 ? 0 : SIGUSR1;
    if (before > 0 && !steps(thread, 0, before)) {
        ptrace(PTRACE_POKEDATA, thread, &over, 1);
        return;
    }
    if (number && after != -1) {
        if (!(after >= 0 ? steps(thread, number, after + 1) : steps_back(thread, number, -2 - after)))
            return;
        number = SIGALRM;
    }
    do
        go_on(thread, number);
    while ((number = next_stop_of(thread)) != SIGUSR2 && number != 0);
}

static int follow(void)
{
    int number;
    waitpid(child, &child_status, 0);
    if (!WIFSTOPPED(child_status))
        return NO_TRACING;
    ptrace(PTRACE_SETOPTIONS, child, 0, PTRACE_O_TRACECLONE | PTRACE_O_EXITKILL);
    go_on(child, 0);
    for (pid_t thread; (thread = next_stop(&number)) != 0; go_on(thread, number == SIGUSR2 ? 0 : number))
        if (number == SIGUSR2)
            stretch_follow(thread);
    return child_status;
}

int main(int count, char **arguments)
{
    const struct stretch *stretch = stretches;
    if (count != 7)
        return 2;
    while (strcmp(stretch->name, arguments[1]) != 0)
        stretch++;
    form = atoi(arguments[2]);
    fill = atoi(arguments[3]);
    further = atol(arguments[4]);
    long stride = atol(arguments[5]), last = atol(arguments[6]);
    child = fork();
    if (child != 0)
        return follow();
    struct sigaction action = {.sa_handler = handler};
    sigaction(SIGUSR1, &action, NULL);
    sigaction(SIGALRM, &action, NULL);
    broken_make();
    if (ptrace(PTRACE_TRACEME, 0, 0, 0) != 0)
        return NO_TRACING;
    raise(SIGSTOP);
    while (!over && wanted <= last) {
        pthread_t thread;
        pthread_create(&thread, NULL, worker, (void *)stretch);
        pthread_join(thread, NULL);
        wanted += wanted < 0 ? 1 : stride;
    }
    return 0;
}
