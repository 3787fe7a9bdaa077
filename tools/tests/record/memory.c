/* Memory that is given back with locks in it, which nobody destroyed: the first argument names a program. */
#define _GNU_SOURCE
#include <dlfcn.h>
#include <errno.h>
#include <link.h>
#include <malloc.h>
#include <pthread.h>
#include <stdint.h>
#include <stdio.h>
#include <stdlib.h>
#include <string.h>
#include <sys/mman.h>
#include <sys/resource.h>
#include <sys/shm.h>
#include <threads.h>
#include <ucontext.h>
#include <unistd.h>

#define MUST(condition)                                                         \
    do {                                                                        \
        if (!(condition)) {                                                     \
            fprintf(stderr, "memory.c:%d: not so: %s\n", __LINE__, #condition); \
            _exit(99);                                                          \
        }                                                                       \
    } while (0)

static pthread_mutex_t b = PTHREAD_MUTEX_INITIALIZER;

struct node {
    char text[72];
    pthread_mutex_t lock;
};

/* The second node's lock, at the address of the first one's, is taken the other way round. */
static void freed(void)
{
    struct node *node = calloc(1, sizeof *node);
    uintptr_t address = (uintptr_t)node;
    pthread_mutex_lock(&node->lock);   /* @freed_first */
    pthread_mutex_lock(&b);            /* @freed_first_b */
    pthread_mutex_unlock(&b);          /* @freed_first_b_end */
    pthread_mutex_unlock(&node->lock); /* @freed_first_end */
    free(node);
    node = malloc(sizeof *node);
    MUST((uintptr_t)node == address);
    memset(node, 0, sizeof *node);
    pthread_mutex_lock(&b);            /* @freed_second_b */
    pthread_mutex_lock(&node->lock);   /* @freed_second */
    pthread_mutex_unlock(&node->lock); /* @freed_second_end */
    pthread_mutex_unlock(&b);          /* @freed_second_b_end */
}

/* Memory is given back with a lock in it that is held: nobody holds it any more. */
static void freed_held(void)
{
    struct node *node = calloc(1, sizeof *node);
    pthread_mutex_lock(&node->lock); /* @held */
    free(node);
    pthread_mutex_lock(&b);   /* @held_b */
    pthread_mutex_unlock(&b); /* @held_b_end */
}

static void use(pthread_mutex_t *lock)
{
    pthread_mutex_lock(lock);   /* @use */
    pthread_mutex_unlock(lock); /* @use_end */
}

/* Large blocks, that the system takes back, and one that moves. A block that stays keeps its lock. */
static void moved(void)
{
    struct node *nodes = calloc(2, sizeof *nodes);
    static void *volatile other;
    other = malloc(3000); /* stands behind it */
    use(&nodes[1].lock);
    nodes = realloc(nodes, 2 * sizeof *nodes);
    use(&nodes[1].lock);
    uintptr_t address = (uintptr_t)nodes;
    struct node *far = realloc(nodes, 100000);
    MUST((uintptr_t)far != address);
    nodes = malloc(2 * sizeof *nodes);
    MUST((uintptr_t)nodes == address);
    memset(nodes, 0, 2 * sizeof *nodes);
    use(&nodes[1].lock);
    free(other);
    mallopt(M_MMAP_THRESHOLD, 1 << 17); /* and not higher later */
    struct node *large = calloc(100000, sizeof *large);
    address = (uintptr_t)large;
    use(&large[99999].lock);
    free(large);
    large = calloc(100000, sizeof *large);
    MUST((uintptr_t)large == address);
    use(&large[99999].lock);
}

static pthread_spinlock_t made_spin;

/* A lock that nobody makes is as one that was made elsewhere. */
static void spin(char *place)
{
    pthread_spinlock_t *lock = (pthread_spinlock_t *)place;
    memcpy(place, (const void *)&made_spin, sizeof made_spin);
    pthread_spin_lock(lock);   /* @spin */
    pthread_spin_unlock(lock); /* @spin_end */
}

enum { FEW = 24 }; /* of these 24 bytes the last ones are the next block's head */

static void spin_around(char *block)
{
    spin(block - 12); /* the last of the block before */
    spin(block);
    spin(block + FEW - 4);
    spin(block + FEW + 8); /* the first of the block behind */
}

/* The smallest locks, at both ends of blocks that are given back and beside them. These blocks lie at all places where
 * the recorder's own way of keeping places may have an end. */
static void edges(void)
{
    char *blocks[60];
    pthread_spin_init(&made_spin, 0);
    for (int i = 0; i < 60; i++) {
        blocks[i] = calloc(1, FEW);
        MUST(i == 0 || blocks[i] == blocks[i - 1] + FEW + 8);
    }
    for (int i = 1; i < 59; i += 3) {
        spin_around(blocks[i]);
        free(blocks[i]);
        MUST(malloc(FEW) == blocks[i]);
        spin_around(blocks[i]);
    }
}

static void unmapped(void)
{
    char *pages = mmap(NULL, 1 << 20, PROT_READ | PROT_WRITE, MAP_PRIVATE | MAP_ANONYMOUS, -1, 0);
    use((pthread_mutex_t *)(pages + 500000));
    use((pthread_mutex_t *)(pages + 1000000));
    munmap(pages + (1 << 19), 1 << 19);
    char *again = mmap(pages + (1 << 19), 1 << 19, PROT_READ | PROT_WRITE, MAP_PRIVATE | MAP_ANONYMOUS | MAP_FIXED, -1, 0);
    MUST(again == pages + (1 << 19));
    use((pthread_mutex_t *)(pages + 500000));
    use((pthread_mutex_t *)(pages + 1000000));
}

static void hold(pthread_mutex_t *lock)
{
    pthread_mutex_lock(lock); /* @hold */
    use(&b);
}

static void let_go(pthread_mutex_t *lock)
{
    use(&b);
    pthread_mutex_unlock(lock); /* @let_go */
}

/* Calls that fail give nothing back: the locks in that memory are as they were, and held. */
static void failing(void)
{
    enum { SIZE = 1 << 16 };
    char *pages = mmap(NULL, SIZE, PROT_READ | PROT_WRITE, MAP_PRIVATE | MAP_ANONYMOUS, -1, 0);
    pthread_mutex_t *lock = (pthread_mutex_t *)(pages + SIZE / 2);
    volatile size_t too_much = PTRDIFF_MAX;
    hold(lock);
    MUST(munmap(pages + 1, SIZE) == -1 && errno == EINVAL);
    MUST(mmap(pages, SIZE, PROT_READ, MAP_PRIVATE | MAP_FIXED, -1, 0) == MAP_FAILED && errno == EBADF);
    MUST(mremap(pages, SIZE, SIZE / 4, MREMAP_FIXED, pages) == MAP_FAILED && errno == EINVAL);
    let_go(lock);
    struct node *nodes = calloc(2, sizeof *nodes);
    hold(&nodes[1].lock);
    MUST(realloc(nodes, too_much) == NULL && errno == ENOMEM);
    let_go(&nodes[1].lock);
}

/* Where a segment was that is gone, whoever lets it go once more doesn't end what is there now. */
static void detached_twice(void)
{
    int segment = shmget(IPC_PRIVATE, 1 << 16, IPC_CREAT | 0600);
    char *pages = shmat(segment, NULL, 0);
    shmctl(segment, IPC_RMID, NULL);
    MUST(pages != (char *)-1);
    use((pthread_mutex_t *)pages);
    MUST(shmdt(pages) == 0);
    MUST(mmap(pages, 1 << 16, PROT_READ | PROT_WRITE, MAP_PRIVATE | MAP_ANONYMOUS | MAP_FIXED, -1, 0) == pages);
    hold((pthread_mutex_t *)pages);
    MUST(shmdt(pages) == -1 && errno == EINVAL);
    let_go((pthread_mutex_t *)pages);
}

static struct node *old_block;

/* Of the library moves.c: is called when a block has moved, and before realloc comes back. */
void block_moved(void *block)
{
    static int moves;
    if (block != old_block || moves++ > 0)
        return;
    memset(block, 0, sizeof *old_block);
    hold(&old_block->lock);
}

/* Another one has the old block before the call has come back that moved it. (It is the same thread here, which has no
 * part in how the recorder tells the two locks.) */
static void taken_early(void)
{
    old_block = calloc(1, sizeof *old_block);
    use(&old_block->lock);
    struct node *lock_of_old = old_block;
    MUST(realloc(lock_of_old, 100000) != NULL);
    let_go(&old_block->lock);
}

static pthread_mutex_t made_twice = PTHREAD_MUTEX_INITIALIZER;
static pthread_rwlock_t gone = PTHREAD_RWLOCK_INITIALIZER;
static mtx_t gone_too;

/* Locks that are made anew, or destroyed, while they are held. */
static void remade(void)
{
    pthread_mutex_lock(&made_twice); /* @remade */
    pthread_mutex_init(&made_twice, NULL);
    use(&b);
    use(&made_twice);
    for (int i = 0; i < 2; i++)
        pthread_rwlock_rdlock(&gone); /* @gone */
    MUST(pthread_rwlock_destroy(&gone) == 0);
    use(&b);
    MUST(mtx_init(&gone_too, mtx_plain) == thrd_success);
    mtx_lock(&gone_too); /* @gone_too */
    mtx_destroy(&gone_too);
    use(&b);
}

static uintptr_t stack_lock;

static void *uses_stack(void *unused)
{
    pthread_mutex_t lock = PTHREAD_MUTEX_INITIALIZER;
    MUST(stack_lock == 0 || stack_lock == (uintptr_t)&lock);
    stack_lock = (uintptr_t)&lock;
    pthread_mutex_lock(&lock);   /* @stack */
    pthread_mutex_unlock(&lock); /* @stack_end */
    return unused;
}

/* The second thread has the stack of the first one. */
static void stacks(void)
{
    for (int i = 0; i < 2; i++) {
        pthread_t thread;
        pthread_create(&thread, NULL, uses_stack, NULL); /* @stack_fork */
        pthread_join(thread, NULL);                      /* @stack_join */
    }
}

static pthread_mutex_t kept[2] = {PTHREAD_MUTEX_INITIALIZER, PTHREAD_MUTEX_INITIALIZER};

static void *keeps(void *lock)
{
    pthread_mutex_lock(lock); /* @keeps */
    return uses_stack(NULL);
}

/* The same, where each thread ends with a lock that it holds. */
static void keepers(void)
{
    for (int i = 0; i < 2; i++) {
        pthread_t thread;
        pthread_create(&thread, NULL, keeps, &kept[i]); /* @keeps_fork */
        pthread_join(thread, NULL);                     /* @keeps_join */
    }
}

static uintptr_t lent_place;

static void *uses_lent(void *lock)
{
    use(lock);
    return NULL;
}

static void *lends(void *unused)
{
    pthread_mutex_t lock = PTHREAD_MUTEX_INITIALIZER;
    pthread_t thread;
    MUST(lent_place == 0 || lent_place == (uintptr_t)&lock);
    lent_place = (uintptr_t)&lock;
    pthread_create(&thread, NULL, uses_lent, &lock); /* @lent_fork */
    pthread_join(thread, NULL);                      /* @lent_join */
    return unused;
}

/* A lock on a thread's stack is used by a thread of its own alone; the second one's lies where the first one's was. */
static void lent(void)
{
    for (int i = 0; i < 2; i++) {
        pthread_t thread;
        pthread_create(&thread, NULL, lends, NULL); /* @lends_fork */
        pthread_join(thread, NULL);                 /* @lends_join */
    }
}

static __thread pthread_mutex_t own_lock = PTHREAD_MUTEX_INITIALIZER;
static uintptr_t own_place;

static void *uses_own(void *unused)
{
    MUST(own_place == 0 || own_place == (uintptr_t)&own_lock);
    own_place = (uintptr_t)&own_lock;
    pthread_mutex_lock(&own_lock);   /* @own */
    pthread_mutex_unlock(&own_lock); /* @own_end */
    return unused;
}

/* The second thread's thread-local lock lies where the first one's was. */
static void owns(void)
{
    for (int i = 0; i < 2; i++) {
        pthread_t thread;
        pthread_create(&thread, NULL, uses_own, NULL); /* @own_fork */
        pthread_join(thread, NULL);                    /* @own_join */
    }
}

static char *other_stack;
static struct node *above;
static ucontext_t thread_context, other_context;

static void uses_above(void)
{
    use(&above->lock);
}

static void *goes_elsewhere(void *unused)
{
    getcontext(&other_context);
    other_context.uc_stack.ss_sp = other_stack;
    other_context.uc_stack.ss_size = 1 << 16;
    other_context.uc_link = &thread_context;
    makecontext(&other_context, uses_above, 0);
    swapcontext(&thread_context, &other_context);
    return unused;
}

/* A thread that runs on a stack from the heap comes upon a lock that lies above: this is on no stack, and stays. */
static void elsewhere(void)
{
    other_stack = malloc(1 << 16);
    above = calloc(1, sizeof *above);
    MUST((uintptr_t)above > (uintptr_t)other_stack);
    pthread_t thread;
    pthread_create(&thread, NULL, goes_elsewhere, NULL); /* @elsewhere_fork */
    pthread_join(thread, NULL);                          /* @elsewhere_join */
    use(&above->lock);
}

struct job {
    pthread_t handle;
    char room[1 << 18];
};

static int jobs_done;

static void *gives_job_back(void *job)
{
    munmap(job, sizeof(struct job));
    __atomic_fetch_add(&jobs_done, 1, __ATOMIC_RELEASE);
    return NULL;
}

/* Threads that give back the memory in which their handles are, as soon as they run. */
static void handles(void)
{
    pthread_attr_t detached;
    pthread_attr_init(&detached);
    pthread_attr_setdetachstate(&detached, PTHREAD_CREATE_DETACHED);
    for (int i = 0; i < 1000; i++) {
        struct job *job = mmap(NULL, sizeof *job, PROT_READ | PROT_WRITE, MAP_PRIVATE | MAP_ANONYMOUS, -1, 0);
        MUST(pthread_create(&job->handle, &detached, gives_job_back, job) == 0);
        while (__atomic_load_n(&jobs_done, __ATOMIC_ACQUIRE) < i - 4)
            usleep(100);
    }
    while (__atomic_load_n(&jobs_done, __ATOMIC_ACQUIRE) < 1000)
        usleep(100);
}

/* Two libraries, one after the other at the same place. */
static void plugins(void)
{
    static const char *const names[] = {"./plugin-one.so", "./plugin-two.so"};
    for (int i = 0; i < 2; i++) {
        void *library = dlopen(names[i], RTLD_NOW);
        MUST(library != NULL);
        void (*run)(void) = (void (*)(void))(uintptr_t)dlsym(library, "run");
        static uintptr_t place;
        MUST(place == 0 || place == (uintptr_t)run);
        place = (uintptr_t)run;
        run();
        MUST(dlclose(library) == 0);
    }
}

/* The same, of libraries whose locks are used by others alone. */
static void lockers(void)
{
    static const char *const names[] = {"./locker-one.so", "./locker-two.so"};
    for (int i = 0; i < 2; i++) {
        void *library = dlopen(names[i], RTLD_NOW);
        MUST(library != NULL);
        pthread_mutex_t *lock = dlsym(library, i == 0 ? "lock_of_one" : "lock_of_two");
        static pthread_mutex_t *place;
        MUST(lock != NULL && (place == NULL || place == lock));
        place = lock;
        use(lock);
        MUST(dlclose(library) == 0);
    }
}

/* A library whose path is relative to where the process isn't any more. */
static void wanders(void)
{
    MUST(chdir("..") == 0);
    char *path = getenv("PLUGIN");
    void *library = dlopen(path, RTLD_NOW);
    MUST(library != NULL && chdir("/") == 0);
    ((void (*)(void))(uintptr_t)dlsym(library, "run"))();
}

static int visits_stop;

static int visit(struct dl_phdr_info *info, size_t size, void *unused)
{
    (void)info, (void)size, (void)unused;
    struct node *node = calloc(1, sizeof *node);
    use(&node->lock);
    free(node);
    return 0;
}

static void *visits_libraries(void *unused)
{
    while (!__atomic_load_n(&visits_stop, __ATOMIC_ACQUIRE)) {
        dl_iterate_phdr(visit, NULL);
        usleep(100); /* lets the other one in */
    }
    return unused;
}

/* While one thread unloads libraries another one goes through all that there are, and takes a new lock at each. */
static void visits(void)
{
    struct rlimit limit = {10, 10}; /* seconds of a processor: then it hangs */
    pthread_t thread;
    setrlimit(RLIMIT_CPU, &limit);
    MUST(pthread_create(&thread, NULL, visits_libraries, NULL) == 0);
    for (int i = 0; i < 500; i++) {
        void *library = dlopen("./plugin-one.so", RTLD_NOW);
        MUST(library != NULL);
        ((void (*)(void))(uintptr_t)dlsym(library, "run"))();
        MUST(dlclose(library) == 0);
    }
    __atomic_store_n(&visits_stop, 1, __ATOMIC_RELEASE);
    pthread_join(thread, NULL);
}

int main(int count, char **arguments)
{
    static const struct {
        const char *name;
        void (*run)(void);
    } programs[] = {
        {"freed", freed},         {"freed_held", freed_held}, {"moved", moved},         {"unmapped", unmapped}, {"stacks", stacks},   {"keepers", keepers}, {"lent", lent},     {"owns", owns},
        {"edges", edges}, {"failing", failing}, {"detached_twice", detached_twice}, {"taken_early", taken_early}, {"remade", remade}, {"elsewhere", elsewhere}, {"handles", handles}, {"plugins", plugins}, {"lockers", lockers}, {"wanders", wanders}, {"visits", visits},
    };
    for (size_t i = 0; count > 1 && i < sizeof programs / sizeof programs[0]; i++)
        if (strcmp(programs[i].name, arguments[1]) == 0) {
            programs[i].run();
            return 0;
        }
    return 98;
}
