/* A process's files, the way into the slow parts, and what a fork does. */
#define _GNU_SOURCE
#include <errno.h>
#include <fcntl.h>
#include <limits.h>
#include <linux/futex.h>
#include <signal.h>
#include <stdio.h>
#include <stdlib.h>
#include <string.h>
#include <sys/mman.h>
#include <sys/resource.h>
#include <sys/stat.h>
#include <sys/syscall.h>
#include <unistd.h>

#include "confirm.h"
#include "process.h"
#include "real.h"

#ifndef MADV_POPULATE_WRITE
#define MADV_POPULATE_WRITE 23
#endif

#define TABLE_CHUNK_BYTES (16 * CHUNK_UNIT)
#define NUMBER_APART 200 /* the least number by which the recorder has a file open */
#define FILE_TRIES 4     /* how often a file is made where its number is taken away */

extern void *__libc_stack_end;

struct process process;
struct thread thread_none;
__thread struct thread *current_thread = &thread_none;
static __thread int in_slow_part;

/* --- Waiting for other threads -------------------------------------------------------------------------- */

/* Who waits sleeps. Were it to yield its processor instead, again and again, a thread of a lower priority that runs on
 * the same one would never come to what is waited for: to yield gives way to no lower priority. */
void word_wait(const void *word, int value)
{
    int error = errno;
    syscall(SYS_futex, word, FUTEX_WAIT_PRIVATE, value, NULL, NULL, 0);
    errno = error;
}

void word_wake(const void *word, int count)
{
    int error = errno;
    syscall(SYS_futex, word, FUTEX_WAKE_PRIVATE, count, NULL, NULL, 0);
    errno = error;
}

enum { INNER_FREE = 0, INNER_TAKEN = 1, INNER_AWAITED = 2 };

void inner_take(int *lock)
{
    int found = INNER_FREE;
    if (likely(__atomic_compare_exchange_n(lock, &found, INNER_TAKEN, 0, __ATOMIC_ACQUIRE, __ATOMIC_RELAXED)))
        return;
    while (__atomic_exchange_n(lock, INNER_AWAITED, __ATOMIC_ACQUIRE) != INNER_FREE)
        word_wait(lock, INNER_AWAITED);
}

void inner_leave(int *lock)
{
    if (unlikely(__atomic_exchange_n(lock, INNER_FREE, __ATOMIC_RELEASE) == INNER_AWAITED))
        word_wake(lock, 1);
}

/* --- Slow parts ----------------------------------------------------------------------------------------- */

static void signals_set(int how, const uint64_t *set, uint64_t *old)
{
    syscall(SYS_rt_sigprocmask, how, set, old, sizeof *set);
}

void signals_shut_out(uint64_t *before)
{
    uint64_t every = ~0ull;
    signals_set(SIG_BLOCK, &every, before);
}

void signals_let_in(const uint64_t *before)
{
    signals_set(SIG_SETMASK, before, NULL);
}

/* Those that can't be shut out, and the two that the C library keeps for itself: no program's mask has these. */
#define SIGNALS_APART (1ull << (SIGKILL - 1) | 1ull << (SIGSTOP - 1) | 3ull << (32 - 1))

void signals_follow(uint64_t mask)
{
    uint64_t now = 0;
    signals_set(SIG_BLOCK, NULL, &now);
    mask &= ~SIGNALS_APART;
    if ((now | SIGNALS_APART) == ~0ull)
        signals_let_in(&mask);
}

/* ThreadSanitizer doesn't see that slow parts come one after the other, and would tell of races in them. */
static void watcher_turns(void (*const calls[2])(const char *, int))
{
    calls[0](__FILE__, __LINE__);
    calls[1](__FILE__, __LINE__);
}

/* While a thread is in a slow part it has no current thread: a lock that a library takes on the
 * recorder's behalf isn't recorded. Nor is it cancelled where the recorder opens a file, as it would be in no call of a
 * lock. */
void slow_enter(struct slow_state *state)
{
    state->error = errno;
    signals_shut_out(&state->signals);
    pthread_setcancelstate(PTHREAD_CANCEL_DISABLE, &state->cancel_state);
    inner_take(&process.slow_lock);
    state->thread = current_thread;
    current_thread = &thread_none;
    in_slow_part = 1;
    state->looks_away = real.look_away[0] && thread_is_watched(state->thread);
    if (unlikely(state->looks_away))
        watcher_turns(real.look_away);
}

void slow_leave(struct slow_state *state)
{
    if (unlikely(state->looks_away))
        watcher_turns(real.look_back);
    current_thread = state->thread;
    in_slow_part = 0;
    inner_leave(&process.slow_lock);
    signals_let_in(&state->signals);
    errno = state->error;
    pthread_setcancelstate(state->cancel_state, NULL);
}

int slow_inside(void)
{
    return in_slow_part;
}

/* While a thread visits all modules no other one forks: the loader's lock would be taken in the child for ever. And no
 * signal comes, as its handler may fork. */
static void visitors_add(int count)
{
    struct slow_state state;
    slow_enter(&state);
    process.visitors += count;
    slow_leave(&state);
}

void visit_begin(uint64_t *signals)
{
    signals_shut_out(signals);
    visitors_add(1);
}

void visit_end(const uint64_t *signals)
{
    visitors_add(-1);
    word_wake(&process.visitors, INT_MAX);
    signals_let_in(signals);
}

/* Into a slow part in which nobody visits. */
static void slow_enter_alone(struct slow_state *state)
{
    int visitors;
    for (slow_enter(state); (visitors = process.visitors) > 0; slow_enter(state)) {
        slow_leave(state);
        word_wait(&process.visitors, visitors);
    }
}

/* --- Memory and files ----------------------------------------------------------------------------------- */

/* What the recorder maps holds no locks, and is mapped past its own function. A sanitizer doesn't see it either: it
 * would take what lies there later for what the thread wrote that mapped this. */
void *file_pages(int file, size_t bytes, int protection, int flags)
{
    return (void *)syscall(SYS_mmap, NULL, bytes, protection, flags, file, 0);
}

void *pages_new(size_t bytes)
{
    void *pages = file_pages(-1, bytes, PROT_READ | PROT_WRITE, MAP_PRIVATE | MAP_ANONYMOUS);
    return pages == MAP_FAILED ? NULL : pages;
}

void pages_drop(void *pages, size_t bytes)
{
    syscall(SYS_munmap, pages, bytes);
}

/* Makes pages zero in a forked child; whether that can be done. A kernel before 4.14 can't; the handlers of a fork
 * don't need it. */
static int wipe_on_fork(void *pages, size_t bytes)
{
#ifdef MADV_WIPEONFORK
    return madvise(pages, bytes, MADV_WIPEONFORK) == 0;
#else
    (void)pages, (void)bytes;
    return 0;
#endif
}

void *pages_new_wiped(size_t bytes)
{
    void *pages = pages_new(bytes);
    if (pages)
        wipe_on_fork(pages, bytes);
    return pages;
}

/* Whether a number is that of the file with this path's last part, as far as that can be told. */
static int is_file_of(int file, const char *path)
{
    static char named[4096]; /* not on the stack, of which a thread may have little */
    char link[32], digits[DIGITS];
    text_join(link, sizeof link, "/proc/self/fd/", digits_of((uint64_t)file, digits), NULL);
    ssize_t length = link_read(link, named, sizeof named - 1);
    if (length < 0)
        return 1;
    named[length] = 0;
    return strcmp(strrchr(named, '/') ? strrchr(named, '/') : named, strrchr(path, '/')) == 0;
}

/* The file by a greater number: other threads may close all numbers, and then open files of their own, which get the
 * least ones that are free. -1 where that has happened: the number is another file's, and nothing was done to it. */
static int file_apart(int file, const char *path)
{
    int apart = fcntl(file, F_DUPFD_CLOEXEC, NUMBER_APART);
    if (apart < 0)
        return errno == EBADF || !is_file_of(file, path) ? -1 : file; /* there is no such number */
    int is_own = is_file_of(apart, path);
    close(is_own ? file : apart);
    return is_own ? apart : -1;
}

/* Makes a new file that its owner may read and write, whatever the program's umask is. Until then it is empty. */
static int file_new(const char *path)
{
    for (int tries = 0; tries < FILE_TRIES; tries++) {
        int file = open(path, O_RDWR | O_CREAT | O_EXCL | O_CLOEXEC | O_NOFOLLOW, 0600);
        if (file < 0)
            return file;
        int apart = file_apart(file, path);
        if (apart >= 0) {
            fchmod(apart, 0600);
            return apart;
        }
        unlink(path);
    }
    errno = EBADF;
    return -1;
}

/* Opens a new file of this process, whose name begins with its number and that of its image: in the recording's
 * directory, or, where the user that this process became may not make files there, in the directory that was made for
 * that user. */
static int own_file_new(char *path, size_t size, uint64_t image, const char *last)
{
    char digits[3][DIGITS];
    const char *pid = digits_of(process.pid, digits[0]), *images = digits_of(image, digits[1]);
    text_join(path, size, process.directory, "/", pid, ".", images, ".", last, NULL);
    int file = file_new(path);
    if (file < 0 && errno == EACCES) {
        const char *user = digits_of(geteuid(), digits[2]);
        text_join(path, size, process.directory, "/u", user, "/", pid, ".", images, ".", last, NULL);
        file = file_new(path);
    }
    return file;
}

/* Gives the file its room on the disk now: were it missing when a word is stored, the program would end with SIGBUS. */
static int file_fill(int file, uint64_t bytes)
{
    static const char zeros[CHUNK_UNIT];
    if (fallocate(file, 0, 0, (off_t)bytes) == 0)
        return 1;
    if (errno != EOPNOTSUPP && errno != ENOSYS)
        return 0;
    for (uint64_t place = 0; place < bytes; place += sizeof zeros)
        if (pwrite(file, zeros, sizeof zeros, (off_t)place) != (ssize_t)sizeof zeros)
            return 0;
    return 1;
}

void *own_file_map(const char *last, uint64_t bytes)
{
    static char path[4096]; /* not on the stack, of which a thread may have little */
    int file = own_file_new(path, sizeof path, process.image, last);
    void *pages = MAP_FAILED;
    if (file >= 0 && file_fill(file, bytes))
        pages = file_pages(file, bytes, PROT_READ | PROT_WRITE, MAP_SHARED);
    if (file >= 0)
        close(file);
    return pages == MAP_FAILED ? NULL : pages;
}

/* Extents grow, but stay below the limit of a file's size: at it the system would end the program with SIGXFSZ. */
static uint64_t extent_bytes(uint64_t number)
{
    uint64_t bytes = number < 4 ? (uint64_t)EXTENT_FIRST_BYTES << 2 * number : EXTENT_BYTES;
    struct rlimit limit;
    if (getrlimit(RLIMIT_FSIZE, &limit) == 0 && limit.rlim_cur < bytes)
        bytes = limit.rlim_cur / CHUNK_UNIT * CHUNK_UNIT;
    return bytes;
}

/* Maps the file with room for so many bytes, or for as many as the disk has, and as the process may map, but no fewer
 * than the least. */
static void *file_fit(int file, uint64_t *bytes, uint64_t least)
{
    errno = ENOSPC; /* where the limit of a file's size leaves too little */
    for (; *bytes >= least && *bytes > 0; *bytes = *bytes / 4 / CHUNK_UNIT * CHUNK_UNIT) {
        if (!file_fill(file, *bytes)) {
            errno = ENOSPC;
            continue;
        }
        void *pages = file_pages(file, *bytes, PROT_READ | PROT_WRITE, MAP_SHARED);
        if (pages != MAP_FAILED)
            return pages;
        if (ftruncate(file, 0) != 0)
            break;
        errno = ENOMEM;
    }
    return MAP_FAILED;
}

/* Creates an extent's file with room for so many bytes at least, and maps it; NULL if that fails, with EEXIST in errno
 * if there is such a file. */
static char *extent_map(uint64_t image, uint64_t number, uint64_t least)
{
    static char path[4096]; /* not on the stack, of which a thread may have little */
    char digits[DIGITS];
    int file = own_file_new(path, sizeof path, image, digits_of(number, digits));
    if (file < 0)
        return NULL;
    uint64_t bytes = extent_bytes(number);
    void *pages = file_fit(file, &bytes, least);
    int error = errno;
    close(file);
    if (pages == MAP_FAILED) {
        unlink(path);
        errno = error;
        return NULL;
    }
    process.extent_bytes = bytes;
    return pages;
}

/* Some file systems find out only here that there is no room. An old kernel doesn't know the request. */
static int populate(void *start, size_t bytes)
{
    return madvise(start, bytes, MADV_POPULATE_WRITE) == 0 || errno == EINVAL;
}

struct chunk *chunk_new(uint32_t magic, uint32_t thread, uint32_t order, uint32_t bytes)
{
    if (!process.extent || process.extent_used + bytes > process.extent_bytes) {
        char *extent = extent_map(process.image, process.extents, bytes);
        if (!extent)
            return NULL;
        process.extent = extent;
        process.extent_used = 0;
        process.extents++;
    }
    struct chunk *chunk = (struct chunk *)(process.extent + process.extent_used);
    if (!populate(chunk, bytes))
        return NULL;
    process.extent_used += bytes;
    chunk->thread = thread;
    chunk->order = order;
    chunk->bytes = bytes;
    __atomic_store_n(&chunk->magic, magic, __ATOMIC_RELEASE);
    return chunk;
}

/* A chunk of the tables, a small one where there is no room for more. */
static struct chunk *table_chunk_new(void)
{
    struct chunk *chunk = NULL;
    for (uint32_t bytes = TABLE_CHUNK_BYTES; !chunk && bytes >= CHUNK_UNIT; bytes /= 4)
        chunk = chunk_new(CHUNK_TABLE, 0, (uint32_t)process.table_chunks, bytes);
    if (!chunk)
        return NULL;
    process.table_chunks++;
    process.table_chunk = chunk;
    process.table_room = (chunk->bytes - sizeof *chunk) / 8;
    return chunk;
}

void *record_new(enum record_kind kind, size_t bytes)
{
    uint64_t words = (bytes + 7) / 8;
    struct chunk *chunk = process.table_chunk;
    if (!chunk || chunk->used + words > process.table_room)
        chunk = table_chunk_new();
    if (!chunk || words > process.table_room)
        return NULL;
    uint64_t *record = &chunk->words[chunk->used];
    record[0] = (uint64_t)kind | words << 32;
    return record;
}

void record_done(void *record)
{
    uint64_t words = *(uint64_t *)record >> 32;
    struct chunk *chunk = process.table_chunk;
    __atomic_store_n(&chunk->used, chunk->used + words, __ATOMIC_RELEASE);
}

void number_note(enum record_kind kind, uint64_t number)
{
    struct number_record *record = record_new(kind, sizeof *record);
    if (!record)
        return;
    record->number = number;
    record_done(record);
}

/* --- Tables --------------------------------------------------------------------------------------------- */

struct slot *table_find_further(struct address_table *table, uint64_t key)
{
    for (unsigned level = 0; level < TABLE_LEVELS; level++) {
        struct slot *slots = __atomic_load_n(&table->levels[level], __ATOMIC_ACQUIRE);
        if (!slots)
            return NULL;
        unsigned bits = TABLE_FIRST_BITS + 2 * level;
        uint64_t place = mix(key) >> (64 - bits);
        for (unsigned i = 0; i < TABLE_WINDOW; i++) {
            struct slot *slot = &slots[(place + i) & ((1u << bits) - 1)];
            uint64_t present = __atomic_load_n(&slot->key, __ATOMIC_ACQUIRE);
            if (present == key)
                return slot;
            if (!present)
                return NULL;
        }
    }
    return NULL;
}

struct slot *table_place(struct address_table *table, uint64_t key)
{
    for (unsigned level = 0; level < TABLE_LEVELS; level++) {
        unsigned bits = TABLE_FIRST_BITS + 2 * level;
        if (!table->levels[level]) {
            void *pages = pages_new(sizeof(struct slot) << bits);
            if (!pages)
                return NULL;
            __atomic_store_n(&table->levels[level], pages, __ATOMIC_RELEASE);
        }
        uint64_t place = mix(key) >> (64 - bits);
        for (unsigned i = 0; i < TABLE_WINDOW; i++) {
            struct slot *slot = &table->levels[level][(place + i) & ((1u << bits) - 1)];
            if (!slot->key)
                __atomic_store_n(&slot->key, key, __ATOMIC_RELEASE);
            if (slot->key == key)
                return slot;
        }
    }
    return NULL;
}

/* --- Start ---------------------------------------------------------------------------------------------- */

static void command_read(char *command, size_t size)
{
    int file = open("/proc/self/cmdline", O_RDONLY | O_CLOEXEC);
    ssize_t length = file < 0 ? 0 : read(file, command, size - 1);
    if (file >= 0)
        close(file);
    if (length < 0)
        length = 0;
    for (ssize_t i = 0; i + 1 < length; i++)
        if (command[i] == 0)
            command[i] = ' ';
    command[length] = 0;
}

/* When this process began, in the kernel's ticks: field 22, counted behind the name in brackets. */
static uint64_t process_moment(void)
{
    char text[1024];
    int file = open("/proc/self/stat", O_RDONLY | O_CLOEXEC);
    ssize_t length = file < 0 ? 0 : read(file, text, sizeof text - 1);
    if (file >= 0)
        close(file);
    text[length > 0 ? length : 0] = 0;
    char *at = strrchr(text, ')');
    for (int field = 2; at && field < 22; field++)
        at = strchr(at + 1, ' ');
    return at ? strtoull(at + 1, NULL, 10) : 0;
}

/* The records of the process itself. They fit into the smallest chunk. */
static int process_describe(const struct process *parent)
{
    char command[512];
    command_read(command, sizeof command);
    struct process_record *record = record_new(RECORD_PROCESS, sizeof *record + strlen(command) + 1);
    if (!record)
        return 0;
    record->version = LAYOUT_VERSION;
    record->pid = process.pid;
    record->image = process.image;
    record->parent_pid = parent ? parent->pid : 0;
    record->parent_image = parent ? parent->image : 0;
    record->first_lock = process.next_lock;
    record->first_site = process.next_site;
    record->frames = process.frames;
    strcpy(record->command, command);
    record_done(record);
    process.record = record;
    struct start_record *start = record_new(RECORD_START, sizeof *start);
    start->moment = process_moment();
    record_done(start);
    process.losses = record_new(RECORD_LOSSES, sizeof *process.losses);
    record_done(process.losses);
    process.end = record_new(RECORD_END, sizeof *process.end);
    record_done(process.end);
    return 1;
}

/* Opens the first extent under the first image number that is free. */
static int process_open(void)
{
    for (uint64_t image = 0; image < 100000; image++) {
        process.extent = extent_map(image, 0, CHUNK_UNIT);
        if (process.extent) {
            process.image = image;
            process.extents = 1;
            return 1;
        }
        if (errno != EEXIST)
            return 0;
    }
    return 0;
}

/* There is no room for this process's files: it is counted in the mark that the launcher made (recording.py). */
#define MARK_BYTES 4096
#define UNRECORDED_PLACE 64

static void process_unrecorded(void)
{
    char path[4096];
    snprintf(path, sizeof path, "%s/recording", process.directory);
    int file = open(path, O_RDWR | O_CLOEXEC | O_NOFOLLOW | O_NONBLOCK);
    struct stat status;
    if (file < 0)
        return;
    char *mark = MAP_FAILED;
    if (fstat(file, &status) == 0 && S_ISREG(status.st_mode) && status.st_size == MARK_BYTES)
        mark = file_pages(file, MARK_BYTES, PROT_READ | PROT_WRITE, MAP_SHARED);
    close(file);
    if (mark == MAP_FAILED)
        return;
    __atomic_fetch_add((uint64_t *)(mark + UNRECORDED_PLACE), 1, __ATOMIC_RELAXED);
    pages_drop(mark, MARK_BYTES);
}

/* The program's variables as the system left them on its stack: how many words there are, these and a null, and then
 * the variables. */
static char **variables_given(void)
{
    char **words = (char **)__libc_stack_end + 1;
    uintptr_t count = *(const uintptr_t *)__libc_stack_end;
    return words[count] ? NULL : words + count + 1;
}

/* Before all constructors (.preinit_array) the C library has no variables yet. */
const char *variable(const char *name)
{
    size_t length = strlen(name);
    for (char **at = environ ? environ : variables_given(); at && *at; at++)
        if (strncmp(*at, name, length) == 0 && (*at)[length] == '=')
            return *at + length + 1;
    return NULL;
}

static void process_settings(void)
{
    const char *directory = variable("GOODLOCK_RECORD_DIRECTORY");
    const char *frames = variable("GOODLOCK_RECORD_FRAMES");
    process.all = variable("GOODLOCK_RECORD_ALL") != NULL;
    if (directory && strlen(directory) < sizeof process.directory)
        strcpy(process.directory, directory);
    process.frames = frames ? (unsigned)atoi(frames) : 1;
    if (process.frames < 1)
        process.frames = 1;
    if (process.frames > FRAMES_LIMIT)
        process.frames = FRAMES_LIMIT;
}

/* Begins the files of this process. A forked child keeps its parent's numbers of locks and sites. */
static void process_start(const struct process *parent)
{
    if (!wipe_on_fork(&process, sizeof process))
        pid_in_doubt = 1; /* a child may be forked past the handlers */
    process.pid = (uint64_t)getpid();
    process.next_lock = parent ? parent->next_lock : 1;
    process.next_site = parent ? parent->next_site : 1;
    if (parent) {
        process.locks = parent->locks;
        process.sites = parent->sites;
        process.callers = parent->callers;
        process.lock_pages = parent->lock_pages;
        process.segments = parent->segments;
        process.frames = parent->frames;
        process.all = parent->all;
        strcpy(process.directory, parent->directory);
    } else {
        process_settings();
    }
    int opened = process.directory[0] && process_open() && process_describe(parent);
    process.state = opened ? PROCESS_RECORDED : PROCESS_OFF;
    if (opened)
        confirm_start();
    if (!opened && process.directory[0])
        process_unrecorded();
}

/* --- Other users ---------------------------------------------------------------------------------------- */

/* A process that gives up root's rights may make no more files in root's directory: it gets one of its own in there, as
 * long as this process may make it. */
void user_directory(uid_t user)
{
    static char path[4096]; /* not on the stack, of which a thread may have little */
    char digits[DIGITS];
    struct slow_state state;
    if (user == 0 || user == (uid_t)-1 || geteuid() != 0 || slow_inside() || !process_ready())
        return;
    slow_enter(&state);
    text_join(path, sizeof path, process.directory, "/u", digits_of(user, digits), NULL);
    if (chmod(process.directory, 0711) == 0 && mkdir(path, 0700) == 0 &&
        (chmod(path, 0700) != 0 || chown(path, user, (gid_t)-1) != 0))
        rmdir(path);
    slow_leave(&state);
}

/* --- Fork ----------------------------------------------------------------------------------------------- */

/* What the child needs of its parent, kept where a fork doesn't wipe it; and of whoever forks now, which only that one
 * writes, between slow_enter and slow_leave: others may be about to fork, too. */
static struct process parent_process;
static struct thread *parent_thread;
static struct held parent_held[HELD_LIMIT];
static uint32_t parent_held_count;
static uintptr_t parent_stack[2];
static struct slow_state fork_state;

static void fork_prepare(void)
{
    struct thread *thread = process.state == PROCESS_RECORDED ? recording_thread() : NULL;
    struct slow_state state;
    slow_enter_alone(&state);
    fork_state = state;
    if (process.record)
        process.record->forks++;
    parent_process = process;
    parent_thread = thread;
    parent_held_count = thread ? thread->held_count : 0;
    if (thread)
        memcpy(parent_held, thread->held, sizeof parent_held);
    parent_stack[0] = thread ? thread->stack_from : 0;
    parent_stack[1] = thread ? thread->stack_to : 0;
}

static void fork_in_parent(void)
{
    struct slow_state state = fork_state;
    slow_leave(&state);
}

/* The child has one thread, on the stack of the forking one. It holds what that held, and never asked for it. Its state
 * has the place of that of the forking thread: where a signal handler forked, the call that it came in goes on with
 * that. */
static void fork_in_child(void)
{
    struct slow_state state = fork_state;
    if (parent_process.state == PROCESS_RECORDED) {
        memset(&process, 0, sizeof process); /* done by the kernel, if it is not an old one */
        process_start(&parent_process);
        if (parent_thread)
            parent_thread->next_free = NULL;
        process.free_threads = parent_thread;
    }
    thread_forget();
    state.thread = &thread_none;
    slow_leave(&state);
    struct thread *thread = process.state == PROCESS_RECORDED ? recording_thread() : NULL;
    if (thread) {
        thread->stack_from = parent_stack[0];
        thread->stack_to = parent_stack[1];
    }
    for (uint32_t i = 0; thread && i < parent_held_count; i++) {
        struct held *held = &parent_held[i];
        enum event_kind kind = is_shared(held->word) ? EVENT_TRY_SHARED_ACQUIRE : EVENT_TRY_ACQUIRE;
        for (uint64_t depth = 0; depth < held->depth; depth++)
            acquire_write(thread, kind, held->word - word_kind(held->word), 0);
    }
}

/* At the first call of all, so that the handlers of allocators come later: then these take their locks before the
 * recorder shuts other threads out, and give them back after it has let them in again. */
static void fork_handlers_set(void)
{
    static int set;
    if (!set && process.state == PROCESS_RECORDED)
        set = pthread_atfork(fork_prepare, fork_in_parent, fork_in_child) == 0;
}

/* --- The way in ----------------------------------------------------------------------------------------- */

int process_ready(void)
{
    if (unlikely(process.state == PROCESS_NEW)) {
        int error = errno;
        if (!real_find())
            return 0;
        in_slow_part = 1;
        program_find();
        guards_start();
        unwinder_start();
        process_start(NULL);
        fork_handlers_set();
        endings_start();
        in_slow_part = 0;
        errno = error;
    }
    return process.state == PROCESS_RECORDED;
}

__attribute__((constructor(101))) static void recorder_start(void)
{
    operators_find();
    if (process_ready())
        recording_thread();
}
