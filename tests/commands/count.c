/* A preload library that counts what the program it is loaded into asks for.

   COUNT_TO   a file descriptor to which a line goes at the end: how many threads were started, and how many bytes of
              memory were asked for in all */

#define _GNU_SOURCE
#include <dlfcn.h>
#include <pthread.h>
#include <stdio.h>
#include <stdlib.h>
#include <string.h>
#include <sys/syscall.h>
#include <unistd.h>

#define OPEN __attribute__((visibility("default")))

static long threads, bytes;

static void *real(void **known, const char *name)
{
    if (*known == NULL)
        *known = dlsym(RTLD_NEXT, name);
    return *known;
}

OPEN int pthread_create(pthread_t *thread, const pthread_attr_t *settings, void *(*run)(void *), void *argument)
{
    static void *known;
    __atomic_add_fetch(&threads, 1, __ATOMIC_RELAXED);
    return ((__typeof__(&pthread_create))real(&known, "pthread_create"))(thread, settings, run, argument);
}

OPEN void *malloc(size_t size)
{
    static void *known;
    __atomic_add_fetch(&bytes, (long)size, __ATOMIC_RELAXED);
    return ((__typeof__(&malloc))real(&known, "malloc"))(size);
}

OPEN int posix_memalign(void **result, size_t alignment, size_t size)
{
    static void *known;
    __atomic_add_fetch(&bytes, (long)size, __ATOMIC_RELAXED);
    return ((__typeof__(&posix_memalign))real(&known, "posix_memalign"))(result, alignment, size);
}

OPEN void *aligned_alloc(size_t alignment, size_t size)
{
    static void *known;
    __atomic_add_fetch(&bytes, (long)size, __ATOMIC_RELAXED);
    return ((__typeof__(&aligned_alloc))real(&known, "aligned_alloc"))(alignment, size);
}

__attribute__((destructor)) static void tell(void)
{
    const char *to = getenv("COUNT_TO");
    char line[64];
    if (to == NULL)
        return;
    int size = snprintf(line, sizeof line, "%ld %ld\n", threads, bytes);
    syscall(SYS_write, atoi(to), line, (long)size);
}

/* The end that runs no destructors. */
OPEN void _exit(int status)
{
    tell();
    for (;;)
        syscall(SYS_exit_group, status);
}
