/* Programs for goodlock-record --live: the first argument names one. What each is predicted to do stands in
 * tools/tests/live. */
#define _GNU_SOURCE
#include <fcntl.h>
#include <pthread.h>
#include <semaphore.h>
#include <signal.h>
#include <stdio.h>
#include <stdlib.h>
#include <string.h>
#include <sys/mman.h>
#include <sys/syscall.h>
#include <sys/wait.h>
#include <threads.h>
#include <time.h>
#include <unistd.h>

#include "turns.h"

static pthread_mutex_t a = PTHREAD_MUTEX_INITIALIZER, b = PTHREAD_MUTEX_INITIALIZER, gate = PTHREAD_MUTEX_INITIALIZER;
static int number;

static void both(pthread_mutex_t *first, pthread_mutex_t *second)
{
    pthread_mutex_lock(first);  /* @first */
    pthread_mutex_lock(second); /* @second */
    pthread_mutex_unlock(second);
    pthread_mutex_unlock(first);
}

static void *one_way(void *unused)
{
    both(&a, &b);
    return unused;
}

static void *other_way(void *unused)
{
    both(&b, &a);
    return unused;
}

/* One after the other, so that the run ends well; no event tells so. */
static void in_turn(void *(*first)(void *), void *(*second)(void *))
{
    pthread_t threads[2];
    pthread_create(&threads[0], NULL, first, NULL);
    wait_for_others();
    pthread_create(&threads[1], NULL, second, NULL);
    for (int i = 0; i < 2; i++)
        pthread_join(threads[i], NULL);
}

static void waits(void)
{
    in_turn(one_way, other_way);
    both(&gate, &b);
    say_ready();
    pause();
}

/* A cycle, and when a line is read an edge that is in none. */
static void goes_on(void)
{
    char line[16];
    in_turn(one_way, other_way);
    say_ready();
    if (fgets(line, sizeof line, stdin))
        both(&gate, &b);
    pause();
}

/* The second order comes when a line is read. */
static void comes_later(void)
{
    char line[16];
    pthread_t thread;
    pthread_create(&thread, NULL, one_way, NULL);
    wait_for_others();
    say_ready();
    if (!fgets(line, sizeof line, stdin))
        return;
    other_way(NULL);
    pause();
}

static void *short_lived(void *unused)
{
    pthread_mutex_lock(&gate);
    pthread_mutex_unlock(&gate);
    return unused;
}

static pthread_barrier_t each_holds_one;

static void *holds(void *order)
{
    pthread_mutex_lock(order ? &a : &b);
    pthread_barrier_wait(&each_holds_one);
    pthread_mutex_lock(order ? &b : &a); /* @second_of_two */
    return NULL;
}

static void *keeps(void *lock)
{
    pthread_mutex_lock(lock);
    return NULL;
}

/* A thread waits for a lock of one that has ended: it was joined, detached, or the first one, and in the last case the program ends.
 * When a line is read another one waits for it too. */
enum { JOINED, DETACHED, MAIN, ENDS };

static void holder_ended(void)
{
    char line[16];
    pthread_t threads[3];
    if (number == MAIN)
        keeps(&a);
    else
        pthread_create(&threads[0], NULL, keeps, &a);
    if (number == DETACHED)
        pthread_detach(threads[0]);
    else if (number != MAIN)
        pthread_join(threads[0], NULL);
    wait_for_others();
    pthread_create(&threads[1], NULL, one_way, NULL);
    wait_for_others();
    if (number == ENDS)
        return;
    say_ready();
    if (number == MAIN)
        pthread_exit(NULL);
    if (fgets(line, sizeof line, stdin))
        pthread_create(&threads[2], NULL, one_way, NULL);
    pause();
}

static pthread_mutex_t robust;
static pthread_cond_t changed = PTHREAD_COND_INITIALIZER;

static void *dies(void *unused)
{
    pthread_mutex_lock(&robust);
    pthread_cond_signal(&changed);
    return unused;
}

/* Gets the lock of a thread that ended, and has no event for a while. */
static void *takes_over(void *waits)
{
    pthread_mutex_lock(&robust);
    if (waits)
        pthread_cond_wait(&changed, &robust);
    pthread_mutex_consistent(&robust);
    sleep(2);
    pthread_mutex_unlock(&robust);
    return NULL;
}

/* Nobody hangs: the first argument tells whether the lock is got by a wait for a condition. */
static void owner_died(void)
{
    pthread_mutexattr_t attributes;
    pthread_t threads[2];
    pthread_mutexattr_init(&attributes);
    pthread_mutexattr_setrobust(&attributes, PTHREAD_MUTEX_ROBUST);
    pthread_mutex_init(&robust, &attributes);
    void *(*const runs[])(void *) = {number ? takes_over : dies, number ? dies : takes_over};
    for (int i = 0; i < 2; i++) {
        pthread_create(&threads[i], NULL, runs[i], number ? &robust : NULL);
        wait_for_others();
    }
    pthread_mutex_lock(&robust);
    pthread_mutex_unlock(&robust);
    for (int i = 0; i < 2; i++)
        pthread_join(threads[i], NULL);
}

static sem_t others_wait;

static void *waits_later(void *unused)
{
    sem_wait(&others_wait);
    return short_lived(unused);
}

/* Two threads wait for each other, and when a line is read a third one waits for the first one's lock. With an argument another one, which
 * is older than they are, waits for a thread that has ended before; it does so once they wait. */
static void hangs(void)
{
    char line[16];
    pthread_t threads[3];
    if (number) {
        pthread_create(&threads[0], NULL, keeps, &gate);
        pthread_join(threads[0], NULL);
        pthread_create(&threads[0], NULL, waits_later, NULL);
    }
    pthread_barrier_init(&each_holds_one, NULL, 2);
    for (long i = 0; i < 2; i++)
        pthread_create(&threads[i], NULL, holds, (void *)i);
    wait_for_others();
    sem_post(&others_wait);
    say_ready();
    if (fgets(line, sizeof line, stdin))
        pthread_create(&threads[2], NULL, other_way, NULL);
    pause();
}

static pthread_barrier_t each_of_others_holds_one;

static void *holds_another(void *order)
{
    pthread_mutex_lock(order ? &gate : &robust);
    pthread_barrier_wait(&each_of_others_holds_one);
    pthread_mutex_lock(order ? &robust : &gate); /* @second_of_two_others */
    return NULL;
}

/* Two threads wait for each other, and so do two others: at once, or with an argument when a line is read. */
static void hangs_twice(void)
{
    char line[16];
    pthread_t thread;
    pthread_barrier_init(&each_holds_one, NULL, 2);
    pthread_barrier_init(&each_of_others_holds_one, NULL, 2);
    for (long i = 0; i < 2; i++)
        pthread_create(&thread, NULL, holds, (void *)i);
    say_ready();
    if (number && !fgets(line, sizeof line, stdin))
        return;
    for (long i = 0; i < 2; i++)
        pthread_create(&thread, NULL, holds_another, (void *)i);
    pause();
}

static pthread_t joined;

static void *takes_a(void *unused)
{
    pthread_mutex_lock(&a); /* @takes_a */
    pthread_mutex_unlock(&a);
    return unused;
}

static void unlocks_later(void *lock)
{
    sleep(2);
    pthread_mutex_unlock(lock);
}

/* How a thread joins another one, which waits for the lock that it holds. The first ones wait for ever, the last ones don't. */
enum { PLAINLY, WITHOUT_DEADLINE, BY_A_CLOCK_WITHOUT_DEADLINE, BY_C11, WITH_DEADLINE, CANCELLED };

static void *joins_holding(void *unused)
{
    struct timespec deadline;
    pthread_mutex_lock(&a);
    pthread_cleanup_push(unlocks_later, &a);
    pthread_create(&joined, NULL, takes_a, NULL);
    clock_gettime(CLOCK_REALTIME, &deadline);
    deadline.tv_sec += 2;
    switch (number) {
    case PLAINLY: case CANCELLED: pthread_join(joined, NULL); break; /* @joins_0 */
    case WITHOUT_DEADLINE: pthread_timedjoin_np(joined, NULL, NULL); break; /* @joins_1 */
    case BY_A_CLOCK_WITHOUT_DEADLINE: pthread_clockjoin_np(joined, NULL, CLOCK_MONOTONIC, NULL); break; /* @joins_2 */
    case BY_C11: thrd_join(joined, NULL); break; /* @joins_3 */
    case WITH_DEADLINE: pthread_timedjoin_np(joined, NULL, &deadline); break;
    }
    pthread_cleanup_pop(1);
    return unused;
}

static void joins(void)
{
    pthread_t thread;
    pthread_create(&thread, NULL, joins_holding, NULL);
    wait_for_others();
    if (number == CANCELLED)
        pthread_cancel(thread);
    else
        say_ready();
    pthread_join(thread, NULL);
    if (number >= WITH_DEADLINE)
        pthread_join(joined, NULL);
}

/* Main holds the lock that main.1 wants, and joins main.2, which joins main.1. */
static void *joins_another(void *unused)
{
    pthread_join(joined, NULL); /* @joins_inner */
    return unused;
}

static void joins_in_a_row(void)
{
    pthread_t thread;
    pthread_mutex_lock(&a);
    pthread_create(&joined, NULL, takes_a, NULL);
    pthread_create(&thread, NULL, joins_another, NULL);
    say_ready();
    pthread_join(thread, NULL); /* @joins_outer */
}

static pthread_rwlock_t shared_lock = PTHREAD_RWLOCK_INITIALIZER;
static pthread_mutex_t *between;

/* What a child has of its parent's locks: those that a thread holds which it doesn't have, as a mutex and for writing; and those
 * that it gets, as it makes them anew, as its own thread held them, or as they are those of both processes. */
enum { MUTEX_OF_A_THREAD, WRITER, MADE_ANEW, OF_THE_FORKING_THREAD, OF_BOTH };

static void *holds_for_a_while(void *unused)
{
    if (number == WRITER)
        pthread_rwlock_wrlock(&shared_lock);
    else
        pthread_mutex_lock(between);
    sleep(number <= WRITER ? 0 : 2);
    if (number <= WRITER)
        pause();
    pthread_mutex_unlock(between);
    return unused;
}

static void makes_anew(void)
{
    pthread_mutex_init(&a, NULL);
}

static void *takes_it(void *unused)
{
    if (number == WRITER) {
        pthread_rwlock_rdlock(&shared_lock); /* @inherits_shared */
        return unused;
    }
    pthread_mutex_lock(between); /* @inherits */
    sleep(2);
    pthread_mutex_unlock(between);
    return unused;
}

static void in_the_child(void)
{
    pthread_t thread;
    say_ready();
    if (number != OF_THE_FORKING_THREAD) {
        takes_it(NULL);
        return;
    }
    pthread_create(&thread, NULL, takes_it, NULL);
    sleep(2);
    pthread_mutex_unlock(between);
    pthread_join(thread, NULL);
}

static void inherits(void)
{
    pthread_t thread;
    pthread_mutexattr_t of_both;
    between = number == OF_BOTH ? mmap(NULL, 4096, PROT_READ | PROT_WRITE, MAP_SHARED | MAP_ANONYMOUS, -1, 0) : &a;
    if (number == OF_BOTH) {
        pthread_mutexattr_init(&of_both);
        pthread_mutexattr_setpshared(&of_both, PTHREAD_PROCESS_SHARED);
        pthread_mutex_init(between, &of_both);
    }
    if (number == MADE_ANEW)
        pthread_atfork(NULL, NULL, makes_anew);
    if (number == OF_THE_FORKING_THREAD)
        pthread_mutex_lock(between);
    else
        pthread_create(&thread, NULL, holds_for_a_while, NULL);
    wait_for_others();
    if (fork() == 0) {
        in_the_child();
        _exit(0);
    }
    wait(NULL);
}

static const char *own_file;

/* Hangs, and its file is gone before the first event. */
static void deletes_itself(void)
{
    unlink(own_file);
    hangs();
}

static void *waits_on(void *unused)
{
    wait_for_first_to_end();
    waits();
    return unused;
}

static void *hangs_on(void *unused)
{
    wait_for_first_to_end();
    deletes_itself();
    return unused;
}

/* A process whose first thread has ended: it waits, or hangs. */
static void first_thread_ends(void)
{
    pthread_t thread;
    pthread_create(&thread, NULL, number ? hangs_on : waits_on, NULL);
    number = 0;
    pthread_exit(NULL);
}

/* So many threads one after the other, each with its own lock and the next one's. */
static pthread_mutex_t forks_of[16];

static void *dines(void *place)
{
    long own = (long)place;
    both(&forks_of[own], &forks_of[(own + 1) % number]);
    return NULL;
}

static void ring(void)
{
    pthread_t threads[16];
    for (long i = 0; i < number; i++) {
        pthread_create(&threads[i], NULL, dines, (void *)i);
        wait_for_others();
    }
    for (int i = 0; i < number; i++)
        pthread_join(threads[i], NULL);
}

/* Opposite orders below a gate, of some locks and of others in turn. The locks aren't released in the order in which they were
 * taken: so what is left out is a whole round at once. */
enum { MANY = 20 };

static pthread_mutex_t many[2][MANY];

static int rounds[2]; /* that each thread has made */

static void *gated(void *order)
{
    for (int i = 0; i < __atomic_load_n(&number, __ATOMIC_RELAXED); i++) {
        pthread_mutex_lock(&gate);
        for (int j = 0; j < MANY; j++)
            pthread_mutex_lock(&many[i % 2][order ? j : MANY - 1 - j]);
        for (int j = 0; j < MANY; j++)
            pthread_mutex_unlock(&many[i % 2][order ? j : MANY - 1 - j]);
        pthread_mutex_unlock(&gate);
        __atomic_store_n(&rounds[(long)order], i + 1, __ATOMIC_RELAXED);
    }
    return NULL;
}

static void gates(void)
{
    pthread_t threads[2];
    for (long i = 0; i < 2; i++)
        pthread_create(&threads[i], NULL, gated, (void *)i);
    for (int i = 0; i < 2; i++)
        pthread_join(threads[i], NULL);
}

/* The same until standard input ends, from when each thread has taken some locks and the others. */
static void gates_until_told(void)
{
    char line[16];
    pthread_t threads[2];
    number = 2000000000;
    for (long i = 0; i < 2; i++)
        pthread_create(&threads[i], NULL, gated, (void *)i);
    for (int i = 0; i < 2; i++)
        while (__atomic_load_n(&rounds[i], __ATOMIC_RELAXED) < 2)
            usleep(1000);
    say_ready();
    while (fgets(line, sizeof line, stdin))
        continue;
    __atomic_store_n(&number, 0, __ATOMIC_RELAXED);
    for (int i = 0; i < 2; i++)
        pthread_join(threads[i], NULL);
}

static void come_and_go(void)
{
    for (int i = 0; i < number; i++) {
        pthread_t thread;
        pthread_create(&thread, NULL, short_lived, NULL);
        pthread_join(thread, NULL);
    }
}

/* So many threads come and go, and then two with opposite orders. */
static void churn(void)
{
    come_and_go();
    in_turn(one_way, other_way);
}

static void *gated_way(void *unused)
{
    both(&gate, &b);
    return unused;
}

/* A cycle comes when a line is read, and another one at the next line. */
static void comes_twice(void)
{
    char line[16];
    void *(*const runs[])(void *) = {one_way, gated_way};
    pthread_t thread;
    for (int i = 0; i < 2; i++) {
        pthread_create(&thread, NULL, runs[i], NULL);
        wait_for_others();
    }
    say_ready();
    for (int i = 0; i < 2 && fgets(line, sizeof line, stdin); i++)
        both(&b, i == 0 ? &a : &gate);
    pause();
}

/* The first and the last thread take two locks in opposite orders. So many others come and go in between that do the same with locks
 * of which they make no cycle. Then it waits until standard input ends. */
static void far_apart(void)
{
    char line[16];
    pthread_t first, other;
    pthread_create(&first, NULL, one_way, NULL);
    wait_for_others();
    for (int i = 0; i <= number; i++) {
        pthread_create(&other, NULL, i < number ? gated_way : other_way, NULL);
        pthread_join(other, NULL);
    }
    pthread_join(first, NULL);
    say_ready();
    while (fgets(line, sizeof line, stdin))
        continue;
}

/* The same with many locks below a gate. */
static void churn_and_gates(void)
{
    come_and_go();
    number = 1;
    gates();
}

/* One fault: some threads take the two locks of each pair in one order, and as many others in the other one. */
enum { PAIRS = 7 };

static pthread_mutex_t books[PAIRS], pages[PAIRS];

static void *writes(void *unused)
{
    for (int i = 0; i < PAIRS; i++) {
        pthread_mutex_lock(&books[i]); /* @writes_first */
        pthread_mutex_lock(&pages[i]); /* @writes_second */
        pthread_mutex_unlock(&pages[i]);
        pthread_mutex_unlock(&books[i]);
    }
    return unused;
}

static void *reads(void *unused)
{
    for (int i = 0; i < PAIRS; i++) {
        pthread_mutex_lock(&pages[i]); /* @reads_first */
        pthread_mutex_lock(&books[i]); /* @reads_second */
        pthread_mutex_unlock(&books[i]);
        pthread_mutex_unlock(&pages[i]);
    }
    return unused;
}

static void one_fault(void)
{
    pthread_t threads[2][100];
    for (int i = 0; i < 2 * number; i++) {
        pthread_create(&threads[i / number][i % number], NULL, i < number ? writes : reads, NULL);
        wait_for_others();
    }
    for (int i = 0; i < 2 * number; i++)
        pthread_join(threads[i / number][i % number], NULL);
}

static void fault_stays(void)
{
    one_fault();
    say_ready();
    pause();
}

static void *takes_elsewhere(void *unused)
{
    pthread_mutex_lock(&b); /* @elsewhere_first */
    pthread_mutex_lock(&gate); /* @elsewhere_second */
    pthread_mutex_unlock(&gate);
    pthread_mutex_unlock(&b);
    return unused;
}

/* There is a cycle. When a line is read another one comes, of another lock at the same places, and at the next line one at other
 * places. */
static void comes_elsewhere(void)
{
    char line[16];
    pthread_t thread;
    pthread_create(&thread, NULL, gated_way, NULL);
    in_turn(one_way, other_way);
    say_ready();
    if (fgets(line, sizeof line, stdin))
        both(&b, &gate);
    if (!fgets(line, sizeof line, stdin))
        return;
    pthread_create(&thread, NULL, takes_elsewhere, NULL);
    pause();
}

/* One thread of either kind, and again at the end, where the other one is first. So many of the first kind come and go in between,
 * while no other one runs. */
static void twice_in_a_crowd(void)
{
    pthread_t thread;
    in_turn(writes, reads);
    for (int i = 0; i < number; i++) {
        pthread_create(&thread, NULL, writes, NULL);
        pthread_join(thread, NULL);
    }
    in_turn(reads, writes);
}

static volatile sig_atomic_t taken;

static void takes(int unused)
{
    (void)unused;
    taken++;
}

/* Takes the signal that goodlock-record takes too, and as many of its own as it sends itself. */
static void own_signal(void)
{
    signal(SIGUSR1, takes);
    in_turn(one_way, other_way);
    for (int i = 0; i < 3; i++)
        raise(SIGUSR1);
    printf("taken %d\n", (int)taken);
    fflush(stdout);
    pause();
}

/* The child has a cycle, its parent none. */
static void forks(void)
{
    both(&a, &b);
    if (fork() == 0) {
        in_turn(one_way, other_way);
        say_ready();
    }
    pause();
}

static void *turns(void *order)
{
    for (int i = 0; i < number; i++)
        both(order ? &a : &gate, &b);
    return NULL;
}

/* The same again and again. */
static void repeats(void)
{
    pthread_t threads[2];
    for (long i = 0; i < 2; i++)
        pthread_create(&threads[i], NULL, turns, (void *)i);
    for (int i = 0; i < 2; i++)
        pthread_join(threads[i], NULL);
    say_ready();
    pause();
}

/* Ends itself by a signal that can't be caught. */
static void killed(void)
{
    come_and_go();
    in_turn(one_way, other_way);
    raise(SIGKILL);
}

/* The ways in which a process ends, in the order of test_live_ends.py. */
enum {
    RETURNS, EXITS, EXITS_AT_ONCE, EXITS_BY_C, EXITS_QUICKLY, LAST_THREAD_ENDS, EXECUTES, EXECUTES_BY_WORDS, EXECUTES_FROM_FOLDER,
    BECOMES_A_DAEMON, EXITS_BY_NUMBER, IS_KILLED, ABORTS, FAILS_TO_EXECUTE, LENDS_ITS_MEMORY
};

static void end_somehow(void)
{
    char *const arguments[] = {"true", NULL};
    switch (number) {
    case EXITS: exit(3);
    case EXITS_AT_ONCE: _exit(3);
    case EXITS_BY_C: _Exit(3);
    case EXITS_QUICKLY: quick_exit(3);
    case LAST_THREAD_ENDS: pthread_exit(NULL);
    case EXECUTES: execv("/bin/true", arguments); break;
    case EXECUTES_BY_WORDS: execle("/bin/sh", "sh", "-c", "test $0$way = 12 || kill -9 $$", "1", NULL, (char *[]){"way=2", NULL}); break;
    case EXECUTES_FROM_FOLDER: execveat(AT_FDCWD, "/bin/true", arguments, environ, 0); break;
    case BECOMES_A_DAEMON: if (daemon(1, 1)) raise(SIGKILL); both(&gate, &b); break;
    case EXITS_BY_NUMBER: syscall(SYS_exit_group, 3); break;
    case IS_KILLED: raise(SIGKILL); break;
    case ABORTS: abort();
    case FAILS_TO_EXECUTE: execv("/nowhere", arguments); raise(SIGKILL); break;
    case LENDS_ITS_MEMORY: if (vfork() == 0) _exit(3); raise(SIGKILL); break;
    }
}

static void ends(void)
{
    in_turn(one_way, other_way);
    end_somehow();
}

/* A child of it ends so, and it waits for that. */
static void child_ends(void)
{
    both(&a, &b);
    if (fork() == 0)
        ends();
    else
        wait(NULL);
}

/* Random events. Against the order of the locks one is only tried, so that no run hangs. */
static void *random_thread(void *seed)
{
    static pthread_mutex_t locks[5] = {PTHREAD_MUTEX_INITIALIZER, PTHREAD_MUTEX_INITIALIZER, PTHREAD_MUTEX_INITIALIZER,
                                       PTHREAD_MUTEX_INITIALIZER, PTHREAD_MUTEX_INITIALIZER};
    static pthread_rwlock_t shared = PTHREAD_RWLOCK_INITIALIZER;
    unsigned state = (unsigned)(size_t)seed;
    for (int i = 0; i < 200; i++) {
        int first = rand_r(&state) % 5, second = rand_r(&state) % 5, what = rand_r(&state) % 8;
        pthread_t thread;
        if (what == 0 && first != second) {
            pthread_mutex_lock(&locks[first]);
            if (pthread_mutex_trylock(&locks[second]) == 0)
                pthread_mutex_unlock(&locks[second]);
            pthread_mutex_unlock(&locks[first]);
        } else if (what == 1) {
            pthread_rwlock_rdlock(&shared);
            pthread_mutex_lock(&locks[first]);
            pthread_mutex_unlock(&locks[first]);
            pthread_rwlock_unlock(&shared);
        } else if (what == 2 && i % 50 == 0) {
            pthread_create(&thread, NULL, short_lived, NULL);
            pthread_join(thread, NULL);
        } else if (first < second) {
            both(&locks[first], &locks[second]);
        }
    }
    both(&locks[state % 2], &locks[2 + state % 3]);
    return NULL;
}

/* Threads with random events, which race; then it waits to be killed. */
static void races(void)
{
    pthread_t threads[6];
    for (int i = 0; i < 6; i++)
        pthread_create(&threads[i], NULL, random_thread, (void *)(size_t)(number * 6 + i));
    for (int i = 0; i < 6; i++)
        pthread_join(threads[i], NULL);
    in_turn(one_way, other_way);
    say_ready();
    pause();
}

/* Fills one of two buffers and then the other, and always holds the one that it fills. */
static void two_buffers(void)
{
    pthread_mutex_t *buffers[] = {&a, &b};
    pthread_mutex_lock(&a);
    say_ready();
    for (unsigned turn = 0;; turn++) {
        pthread_mutex_lock(buffers[(turn + 1) % 2]);
        pthread_mutex_unlock(buffers[turn % 2]);
    }
}

int main(int count, char **arguments)
{
    static const struct {
        const char *name;
        void (*run)(void);
    } programs[] = {
        {"waits", waits}, {"first_thread_ends", first_thread_ends}, {"goes_on", goes_on}, {"comes_later", comes_later}, {"gates", gates}, {"gates_until_told", gates_until_told}, {"churn", churn},
        {"own_signal", own_signal}, {"forks", forks}, {"repeats", repeats}, {"killed", killed}, {"races", races},
        {"hangs", hangs}, {"holder_ended", holder_ended}, {"owner_died", owner_died}, {"ring", ring}, {"deletes_itself", deletes_itself},
        {"inherits", inherits}, {"joins", joins}, {"joins_in_a_row", joins_in_a_row}, {"ends", ends}, {"child_ends", child_ends},
        {"churn_and_gates", churn_and_gates}, {"two_buffers", two_buffers}, {"hangs_twice", hangs_twice},
        {"comes_twice", comes_twice}, {"far_apart", far_apart}, {"one_fault", one_fault}, {"fault_stays", fault_stays},
        {"comes_elsewhere", comes_elsewhere}, {"twice_in_a_crowd", twice_in_a_crowd},
    };
    own_file = arguments[0];
    number = count > 2 ? atoi(arguments[2]) : 0;
    for (size_t i = 0; count > 1 && i < sizeof programs / sizeof programs[0]; i++)
        if (strcmp(programs[i].name, arguments[1]) == 0) {
            programs[i].run();
            return 0;
        }
    return 98;
}
