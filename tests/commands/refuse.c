/* A preload library that refuses calls of the program that it is loaded into.

   REFUSE_CALLS   memory, read, write, thread or random: of which sort the refused calls are
   REFUSE_HOW     once; onwards (a call and all after it); or, of reads and writes, interrupted (once, by EINTR) and
                  nothing (once, by the answer that no byte was moved)
   REFUSE_SHORT   if set, each read and write moves one byte at most
   REFUSE_SWEEP   how many seconds a run may take; without it nothing is refused

   The process makes all runs of a sweep: in the first one the first call of the sort is refused, in the second one
   the second, until a run makes too few calls or takes too long. Each run is a child that goes on from before the
   program's first instruction, with pipes for its input, which is what the process reads, and for its output and
   errors. Of each run standard output gets a line with its status (that of a signal below zero) and three sizes, and
   then the bytes that these are of: its output, its errors, and a sign for each refused call. That is the descriptor
   that a read or write was on, as a digit; of memory how many threads had been started by then, as a letter (`a`
   none, `b` one, and so on, `z` all beyond); of a thread `t`, of random bytes `n`.

   A refused call does nothing else. Memory that the C library takes for itself isn't counted. */

#define _GNU_SOURCE
#include <dlfcn.h>
#include <errno.h>
#include <pthread.h>
#include <signal.h>
#include <stdarg.h>
#include <stddef.h>
#include <stdio.h>
#include <stdlib.h>
#include <string.h>
#include <sys/mman.h>
#include <sys/syscall.h>
#include <sys/uio.h>
#include <sys/wait.h>
#include <unistd.h>

#define OPEN __attribute__((visibility("default")))

static const char *calls = "", *how = "once";
static long at, made, started;
static int tells = -1, is_short;

/* ---- sweeps */

struct text {
    size_t size;
    char bytes[65536]; /* a pipe holds no more */
};

/* What stands between a sweep and its runs is no answer of the program's: it ends the sweep. */
static void need(int is_so, const char *what)
{
    if (is_so)
        return;
    perror(what);
    _exit(120);
}

static void take_all(int file, struct text *text)
{
    ssize_t more = 1;
    for (text->size = 0; more > 0; text->size += (size_t)more) {
        more = syscall(SYS_read, file, text->bytes + text->size, sizeof text->bytes - text->size);
        need(more >= 0 && text->size + (size_t)more < sizeof text->bytes, "refuse.c: a text for a pipe");
    }
}

static void give_all(int file, const char *bytes, size_t size)
{
    while (size > 0) {
        long given = syscall(SYS_write, file, bytes, size);
        need(given > 0, "refuse.c: writing");
        bytes += given;
        size -= (size_t)given;
    }
}

/* In the child: its ends of the pipes are its standard files, and the one that refused calls are told to. */
static void become_a_run(int pipes[4][2], unsigned seconds)
{
    for (int i = 0; i < 3; i++)
        dup2(pipes[i][i > 0], i);
    tells = dup(pipes[3][1]);
    for (int i = 0; i < 4; i++) {
        close(pipes[i][0]);
        close(pipes[i][1]);
    }
    alarm(seconds);
}

/* Tells of a run that has ended; whether another one is to be made. */
static int is_told(int pipes[4][2], int status)
{
    static struct text texts[4];
    char line[100];
    for (int i = 1; i < 4; i++)
        take_all(pipes[i][0], &texts[i]);
    const int told = WIFSIGNALED(status) ? -WTERMSIG(status) : WEXITSTATUS(status);
    const int size = snprintf(line, sizeof line, "%d %zu %zu %zu\n", told, texts[1].size, texts[2].size, texts[3].size);
    give_all(1, line, (size_t)size);
    for (int i = 1; i < 4; i++)
        give_all(1, texts[i].bytes, texts[i].size);
    return texts[3].size > 0 && told != -SIGALRM;
}

/* Makes one run after the other. It returns in the child that is a run, and ends the process behind the last one. */
static void sweep(unsigned seconds)
{
    static struct text input;
    take_all(0, &input);
    for (at = 1;; at++) {
        int pipes[4][2], status; /* input, output, errors, refused calls */
        for (int i = 0; i < 4; i++)
            need(pipe(pipes[i]) == 0, "refuse.c: pipe");
        give_all(pipes[0][1], input.bytes, input.size);
        const pid_t child = fork();
        need(child >= 0, "refuse.c: fork");
        if (child == 0) {
            become_a_run(pipes, seconds);
            return;
        }
        for (int i = 0; i < 4; i++)
            close(pipes[i][1]);
        need(waitpid(child, &status, 0) == child, "refuse.c: waitpid");
        if (!is_told(pipes, status))
            _exit(0);
        for (int i = 0; i < 4; i++)
            close(pipes[i][0]);
    }
}

/* Before the program begins. A sweep's own calls are made without any settings. */
__attribute__((constructor)) static void read_settings(void)
{
    const char *value;
    if ((value = getenv("REFUSE_SWEEP")) != NULL)
        sweep((unsigned)atoi(value));
    is_short = getenv("REFUSE_SHORT") != NULL;
    if ((value = getenv("REFUSE_HOW")) != NULL)
        how = value;
    if (at > 0 && (value = getenv("REFUSE_CALLS")) != NULL)
        calls = value;
}

/* ---- which calls are refused */

static int is_how(const char *word)
{
    return strcmp(how, word) == 0;
}

/* Whether this call is refused. */
static int refuses(const char *sort, char sign)
{
    if (strcmp(calls, sort) != 0)
        return 0;
    long call = __atomic_add_fetch(&made, 1, __ATOMIC_RELAXED);
    if (call < at || (call > at && !is_how("onwards")))
        return 0;
    if (tells >= 0)
        syscall(SYS_write, tells, &sign, 1L);
    return 1;
}

static int refuses_memory(void)
{
    long threads = __atomic_load_n(&started, __ATOMIC_RELAXED);
    if (!refuses("memory", (char)('a' + (threads < 25 ? threads : 25))))
        return 0;
    errno = ENOMEM;
    return 1;
}

/* The C library's function of this name. Where looking it up asks for memory, there is none for it. */
static void *real(void **known, const char *name)
{
    static __thread int is_looking;
    if (*known == NULL && !is_looking) {
        is_looking = 1;
        *known = dlsym(RTLD_NEXT, name);
        is_looking = 0;
    }
    return *known;
}

#define REAL(name) \
    static void *known; \
    __typeof__(&name) real_##name = (__typeof__(&name))real(&known, #name)

/* ---- memory */

OPEN void *malloc(size_t size)
{
    REAL(malloc);
    return real_malloc == NULL || refuses_memory() ? NULL : real_malloc(size);
}

OPEN void *calloc(size_t count, size_t size)
{
    REAL(calloc);
    return real_calloc == NULL || refuses_memory() ? NULL : real_calloc(count, size);
}

OPEN void *realloc(void *old, size_t size)
{
    REAL(realloc);
    return real_realloc == NULL || refuses_memory() ? NULL : real_realloc(old, size);
}

OPEN void *reallocarray(void *old, size_t count, size_t size)
{
    REAL(reallocarray);
    return real_reallocarray == NULL || refuses_memory() ? NULL : real_reallocarray(old, count, size);
}

OPEN void *memalign(size_t alignment, size_t size)
{
    REAL(memalign);
    return real_memalign == NULL || refuses_memory() ? NULL : real_memalign(alignment, size);
}

OPEN void *aligned_alloc(size_t alignment, size_t size)
{
    REAL(aligned_alloc);
    return real_aligned_alloc == NULL || refuses_memory() ? NULL : real_aligned_alloc(alignment, size);
}

OPEN int posix_memalign(void **result, size_t alignment, size_t size)
{
    REAL(posix_memalign);
    return real_posix_memalign == NULL || refuses_memory() ? ENOMEM : real_posix_memalign(result, alignment, size);
}

OPEN void *mmap(void *where, size_t size, int protection, int flags, int file, off_t offset)
{
    if (refuses_memory())
        return MAP_FAILED;
    return (void *)syscall(SYS_mmap, where, size, protection, flags, file, offset);
}

OPEN void *mmap64(void *where, size_t size, int protection, int flags, int file, off_t offset)
{
    return mmap(where, size, protection, flags, file, offset);
}

OPEN void *mremap(void *old, size_t old_size, size_t size, int flags, ...)
{
    va_list rest;
    va_start(rest, flags);
    void *where = flags & MREMAP_FIXED ? va_arg(rest, void *) : NULL;
    va_end(rest);
    if (refuses_memory())
        return MAP_FAILED;
    return (void *)syscall(SYS_mremap, old, old_size, size, flags, where);
}

/* ---- random bytes */

OPEN int getentropy(void *bytes, size_t size)
{
    REAL(getentropy);
    if (real_getentropy != NULL && !refuses("random", 'n'))
        return real_getentropy(bytes, size);
    errno = EIO;
    return -1;
}

/* ---- reading and writing */

/* Whether this call moves no byte; what it answers then. */
static int refuses_bytes(const char *sort, int file, ssize_t *answer)
{
    if (!refuses(sort, file >= 0 && file <= 9 ? (char)('0' + file) : '?'))
        return 0;
    *answer = is_how("nothing") ? 0 : -1;
    errno = is_how("interrupted") ? EINTR : EIO;
    return 1;
}

OPEN ssize_t read(int file, void *bytes, size_t size)
{
    ssize_t answer;
    if (refuses_bytes("read", file, &answer))
        return answer;
    return syscall(SYS_read, file, bytes, is_short && size > 1 ? 1 : size);
}

OPEN ssize_t write(int file, const void *bytes, size_t size)
{
    ssize_t answer;
    if (refuses_bytes("write", file, &answer))
        return answer;
    return syscall(SYS_write, file, bytes, is_short && size > 1 ? 1 : size);
}

OPEN ssize_t __write(int file, const void *bytes, size_t size)
{
    return write(file, bytes, size);
}

OPEN ssize_t readv(int file, const struct iovec *parts, int count)
{
    ssize_t answer;
    if (refuses_bytes("read", file, &answer))
        return answer;
    for (int i = 0; is_short && i < count; i++)
        if (parts[i].iov_len > 0)
            return syscall(SYS_read, file, parts[i].iov_base, 1L);
    return syscall(SYS_readv, file, parts, count);
}

OPEN ssize_t writev(int file, const struct iovec *parts, int count)
{
    ssize_t answer;
    if (refuses_bytes("write", file, &answer))
        return answer;
    for (int i = 0; is_short && i < count; i++)
        if (parts[i].iov_len > 0)
            return syscall(SYS_write, file, parts[i].iov_base, 1L);
    return syscall(SYS_writev, file, parts, count);
}

/* ---- threads */

OPEN int pthread_create(pthread_t *thread, const pthread_attr_t *settings, void *(*run)(void *), void *argument)
{
    REAL(pthread_create);
    if (real_pthread_create == NULL || refuses("thread", 't'))
        return EAGAIN;
    int answer = real_pthread_create(thread, settings, run, argument);
    if (answer == 0)
        __atomic_add_fetch(&started, 1, __ATOMIC_RELAXED);
    return answer;
}
