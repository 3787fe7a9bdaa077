/* Memory that is mapped over, moved or made smaller with locks in it: the first argument names a program. */
#define _GNU_SOURCE
#include <pthread.h>
#include <string.h>
#include <sys/mman.h>
#include <sys/shm.h>
#include <unistd.h>

#define PAGE 4096u

static void use(pthread_mutex_t *lock)
{
    pthread_mutex_lock(lock);   /* @use */
    pthread_mutex_unlock(lock); /* @use_end */
}

static char *pages(void *start, size_t count, int flags)
{
    return mmap(start, count * PAGE, PROT_READ | PROT_WRITE, MAP_PRIVATE | MAP_ANONYMOUS | flags, -1, 0);
}

/* The second page is replaced, the first one stays. */
static void mapped_over(char *start)
{
    use((pthread_mutex_t *)start);
    use((pthread_mutex_t *)(start + PAGE));
    pages(start + PAGE, 1, MAP_FIXED);
    use((pthread_mutex_t *)start);
    use((pthread_mutex_t *)(start + PAGE));
}

/* Moved onto the third page, which has a lock, too. Then other memory comes to the old place. */
static void moved(char *start)
{
    use((pthread_mutex_t *)start);
    use((pthread_mutex_t *)(start + 2 * PAGE));
    if (mremap(start, PAGE, PAGE, MREMAP_MAYMOVE | MREMAP_FIXED, start + 2 * PAGE) != start + 2 * PAGE)
        _exit(99);
    use((pthread_mutex_t *)(start + 2 * PAGE));
    pages(start, 1, MAP_FIXED_NOREPLACE);
    use((pthread_mutex_t *)start);
}

static void made_smaller(char *start)
{
    use((pthread_mutex_t *)start);
    use((pthread_mutex_t *)(start + PAGE));
    mremap(start, 3 * PAGE, PAGE, 0);
    pages(start + PAGE, 1, MAP_FIXED_NOREPLACE);
    use((pthread_mutex_t *)start);
    use((pthread_mutex_t *)(start + PAGE));
}

/* Two segments of shared memory, one after the other at the same place. */
static void attached(char *start)
{
    munmap(start, 3 * PAGE);
    for (int i = 0; i < 2; i++) {
        int segment = shmget(IPC_PRIVATE, 2 * PAGE, 0600);
        if (shmat(segment, start, 0) != start)
            _exit(97);
        shmctl(segment, IPC_RMID, NULL);
        use((pthread_mutex_t *)(start + PAGE));
        if (shmdt(start) != 0)
            _exit(96);
    }
}

int main(int count, char **arguments)
{
    char *start = pages(NULL, 3, 0);
    if (count < 2 || start == MAP_FAILED)
        return 98;
    if (strcmp(arguments[1], "over") == 0)
        mapped_over(start);
    else if (strcmp(arguments[1], "moved") == 0)
        moved(start);
    else if (strcmp(arguments[1], "smaller") == 0)
        made_smaller(start);
    else
        attached(start);
    return 0;
}
