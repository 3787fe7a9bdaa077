/*
 * Brings a predicted cycle about: `goodlock-confirm` runs the program with a plan, which has the places of the cycle's
 * edges.
 *
 * A thread that holds a lock acquired at the first place of an edge, and is about to acquire at the second one, is held
 * back, until a thread stands at each edge of the cycle and each one wants the lock that the next one holds; or for a
 * moment. So when they are let go, each waits for the next. What each thread waits for stands in a file, which
 * goodlock-confirm looks at: whether they really do is decided there.
 */
#define _GNU_SOURCE
#include <errno.h>
#include <fcntl.h>
#include <signal.h>
#include <stdio.h>
#include <stdlib.h>
#include <string.h>
#include <sys/stat.h>
#include <sys/syscall.h>
#include <time.h>
#include <unistd.h>

#include "confirm.h"
#include "process.h"

#define EDGE_LIMIT 16
#define WANTED_ROLES 0xffffu
#define ROLE_SITES (1u << 20)
#define WAITERS 256
#define HOLDS_IN_VAIN 6
#define STACK_LIMIT 16

int confirming;

/* --- The plan --------------------------------------------------------------------------------------------- */

/* Lines: first `EDGES MILLISECONDS`, then `ROLE OFFSET BYTES PATH` for each place, the offset in hexadecimal, and how
 * many bytes the path has, of which one may be the end of a line. The role is the edge's number for the place where its
 * lock is wanted, and 16 more for the one where the held lock was acquired. */
static char *plan;
static unsigned plan_edges, plan_milliseconds;
static uint32_t *roles;

static char *file_read(const char *path)
{
    int file = open(path, O_RDONLY | O_CLOEXEC);
    struct stat status;
    char *text = NULL;
    if (file >= 0 && fstat(file, &status) == 0 && (text = pages_new((size_t)status.st_size + 1)) != NULL &&
        read(file, text, (size_t)status.st_size) != status.st_size)
        text = NULL;
    if (file >= 0)
        close(file);
    return text;
}

void confirm_site(uint64_t site, const char *path, uint64_t offset)
{
    char *end = strchr(plan, '\n');
    while (end && end[0] == '\n' && end[1] && site < ROLE_SITES) {
        unsigned role = (unsigned)strtoul(end + 1, &end, 10);
        uint64_t wanted = strtoull(end, &end, 16);
        size_t length = strtoull(end, &end, 10);
        const char *its = end + 1;
        if (role < 2 * EDGE_LIMIT && wanted == offset && strlen(path) == length && memcmp(path, its, length) == 0)
            roles[site] |= 1u << role;
        end += 1 + length;
    }
}

static uint32_t roles_of(uint64_t word)
{
    uint64_t site = word >> SITE_SHIFT & (SITE_LIMIT - 1);
    return site < ROLE_SITES ? roles[site] : 0;
}

/* --- The lock of what follows ------------------------------------------------------------------------------- */

static int waiters_lock;

/* Shuts signal handlers out, too: one that locks at an edge would wait here for the thread that it interrupts. Gives
 * the signals that were shut out before. */
static uint64_t waiters_enter(void)
{
    uint64_t every = ~0ull, before = 0;
    syscall(SYS_rt_sigprocmask, SIG_BLOCK, &every, &before, sizeof before);
    inner_take(&waiters_lock);
    return before;
}

static void waiters_leave(uint64_t signals)
{
    inner_leave(&waiters_lock);
    syscall(SYS_rt_sigprocmask, SIG_SETMASK, &signals, NULL, sizeof signals);
}

/* --- What threads wait for ---------------------------------------------------------------------------------- */

/* confirm.py reads the same layout. */
struct wait {
    uint64_t turns; /* counts waits */
    uint64_t task;
    uint64_t wanted; /* the word of the acquire; 0: the thread doesn't wait */
    uint64_t address;
    uint64_t condition;
    uint64_t held_count;
    uint64_t thread;
    uint64_t held[HELD_LIMIT];
    uint64_t wanted_stack[STACK_LIMIT];
    uint64_t held_stacks[EDGE_LIMIT][STACK_LIMIT];
};

#define WAIT_SLOTS 2048

static struct wait *waits;
static uint8_t is_taken[WAIT_SLOTS];

/* A thread has a place from its first call until it ends: however many come and go, those that are there have one. */
static struct wait *wait_of(struct thread *thread)
{
    if (thread->wait)
        return thread->wait;
    uint64_t signals = waiters_enter();
    for (size_t i = 0; i < WAIT_SLOTS && !thread->wait; i++)
        if (!is_taken[i]) {
            is_taken[i] = 1;
            waits[i].thread = thread->number;
            thread->wait = &waits[i];
        }
    waiters_leave(signals);
    return thread->wait;
}

static void wait_begin(struct thread *thread, struct wait *wait, uint64_t word, const void *lock, int condition)
{
    wait->task = (uint64_t)syscall(SYS_gettid);
    wait->address = (uint64_t)(uintptr_t)lock;
    wait->condition = (uint64_t)condition;
    uint32_t count = 0;
    for (uint32_t i = 0; i < thread->held_count; i++)
        if (word_object(thread->held[i].word) != word_object(word))
            wait->held[count++] = thread->held[i].word;
    wait->held_count = count;
    __atomic_store_n(&wait->turns, wait->turns + 1, __ATOMIC_RELEASE);
    __atomic_store_n(&wait->wanted, word, __ATOMIC_RELEASE);
}

/* --- Holding back ------------------------------------------------------------------------------------------- */

struct waiter {
    struct thread *thread; /* NULL: free */
    uint32_t wanted;
    uint32_t held[EDGE_LIMIT]; /* by edge: the lock that the thread holds; 0: it isn't at this edge */
    int go;
};

static struct waiter waiters[WAITERS];

static void waiter_drop(struct thread *thread)
{
    uint64_t signals = waiters_enter();
    for (size_t i = 0; i < WAITERS; i++)
        if (waiters[i].thread == thread)
            waiters[i].thread = NULL;
    waiters_leave(signals);
}

/* Enters the thread, if it stands at an edge. */
static struct waiter *waiter_new(struct thread *thread, uint64_t word)
{
    struct waiter here = {thread, word_object(word), {0}, 0};
    int edges = 0;
    for (uint32_t i = 0; i < thread->held_count; i++) {
        uint32_t both = roles_of(word) & roles_of(thread->held[i].word) >> EDGE_LIMIT & WANTED_ROLES;
        for (unsigned edge = 0; edge < plan_edges; edge++)
            if (both >> edge & 1 && word_object(thread->held[i].word) != here.wanted) {
                here.held[edge] = word_object(thread->held[i].word);
                edges++;
            }
    }
    if (edges == 0)
        return NULL;
    for (size_t i = 0; i < WAITERS; i++)
        if (!waiters[i].thread) {
            waiters[i] = here;
            return &waiters[i];
        }
    return NULL;
}

/* Whether waiters after this one close the cycle that began at `first`; those in it are let go. */
static int cycle_closes(struct waiter *first, unsigned first_edge, struct waiter *last, unsigned count)
{
    unsigned edge = (first_edge + count) % plan_edges;
    if (count == plan_edges) {
        if (last->wanted != first->held[first_edge])
            return 0;
        return first->go = last->go = 1;
    }
    for (struct waiter *next = waiters; next < waiters + WAITERS; next++)
        if (next->thread && !next->go && next->held[edge] == last->wanted && next != first &&
            next->thread != last->thread && cycle_closes(first, first_edge, next, count + 1))
            return next->go = 1;
    return 0;
}

static void cycle_look(struct waiter *own)
{
    for (unsigned edge = 0; edge < plan_edges && !own->go; edge++)
        if (own->held[edge])
            cycle_closes(own, edge, own, 1);
}

static uint64_t milliseconds(void)
{
    struct timespec now;
    clock_gettime(CLOCK_MONOTONIC, &now);
    return (uint64_t)now.tv_sec * 1000 + (uint64_t)now.tv_nsec / 1000000;
}

/* A thread that waits for a condition isn't stopped, but stands at its edge until it has its lock again. */
static void hold_back(struct thread *thread, uint64_t word, int condition)
{
    uint64_t signals = waiters_enter();
    struct waiter *own = thread->holds < HOLDS_IN_VAIN ? waiter_new(thread, word) : NULL;
    if (own)
        cycle_look(own);
    waiters_leave(signals);
    if (!own || condition)
        return;
    uint64_t end = milliseconds() + plan_milliseconds;
    while (!__atomic_load_n(&own->go, __ATOMIC_ACQUIRE) && milliseconds() < end)
        nanosleep(&(struct timespec){0, 1000000}, NULL);
    if (!own->go)
        thread->holds++;
    waiter_drop(thread);
}

static void stacks_note(struct wait *wait, uint32_t role, uintptr_t return_address)
{
    uint64_t stack[STACK_LIMIT] = {0};
    stack_copy(return_address, stack, STACK_LIMIT);
    memcpy(wait->wanted_stack, stack, sizeof stack);
    for (unsigned edge = 0; edge < plan_edges; edge++)
        if (role >> EDGE_LIMIT >> edge & 1)
            memcpy(wait->held_stacks[edge], stack, sizeof stack);
}

void confirm_before(struct thread *thread, uint64_t word, const void *lock, uintptr_t return_address, int condition)
{
    int error = errno;
    uint32_t role = roles_of(word);
    struct wait *wait = wait_of(thread);
    if (role && wait)
        stacks_note(wait, role, return_address);
    if (role & WANTED_ROLES && thread->held_count > 0)
        hold_back(thread, word, condition);
    if (wait)
        wait_begin(thread, wait, word, lock, condition);
    errno = error;
}

void confirm_after(struct thread *thread)
{
    struct wait *wait = thread->wait;
    if (wait && wait->condition)
        waiter_drop(thread);
    if (wait)
        __atomic_store_n(&wait->wanted, 0, __ATOMIC_RELEASE);
}

void confirm_end(struct thread *thread)
{
    struct wait *wait = thread->wait;
    if (!wait)
        return;
    waiter_drop(thread);
    __atomic_store_n(&wait->wanted, 0, __ATOMIC_RELEASE);
    uint64_t signals = waiters_enter();
    is_taken[wait - waits] = 0;
    thread->wait = NULL;
    waiters_leave(signals);
}

/* --- Start -------------------------------------------------------------------------------------------------- */

/* A forked process has its parent's plan, whatever became of its variables. */
static int has_plan(void)
{
    const char *path = plan ? NULL : variable("GOODLOCK_CONFIRM_PLAN");
    if (path && (plan = file_read(path)) != NULL &&
        (sscanf(plan, "%u %u", &plan_edges, &plan_milliseconds) != 2 || plan_edges < 1 || plan_edges > EDGE_LIMIT))
        plan = NULL;
    return plan != NULL;
}

/* Where it has its parent's numbers of sites, it has their roles, too. */
static int has_roles(void)
{
    if (roles && process.next_site == 1)
        memset(roles, 0, ROLE_SITES * sizeof *roles);
    else if (!roles)
        roles = pages_new(ROLE_SITES * sizeof *roles);
    return roles != NULL;
}

void confirm_start(void)
{
    confirming = 0;
    if (!has_plan() || !has_roles())
        return;
    waits = own_file_map("waits", WAIT_SLOTS * sizeof *waits);
    memset(waiters, 0, sizeof waiters);
    memset(is_taken, 0, sizeof is_taken);
    waiters_lock = 0;
    confirming = waits != NULL;
}
