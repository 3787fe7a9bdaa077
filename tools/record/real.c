#define _GNU_SOURCE
#include "real.h"

#include "recorder.h"

#include <dlfcn.h>
#include <errno.h>
#include <gnu/libc-version.h>
#include <string.h>

static int finding;
int real_found;
void *real_vfork, *real_clone;

/* dlsym may allocate, and an allocator may take a lock. It comes here before its lock's function is found
 * (`finding`); no second thread runs that early, so the lock may be passed over. The same where the program's ifuncs
 * are resolved, before there are thread-locals: then dlsym can't be asked yet. */
static int stand_in(void)
{
    return finding || !current_thread ? 0 : ENOSYS;
}

struct real_functions real = {
#define REAL_STAND_IN(result, name, parameters) .name = (result(*) parameters)(void (*)(void))stand_in,
    REAL_FUNCTIONS(REAL_STAND_IN)
#undef REAL_STAND_IN
};

int are_of_one_library(const void *one, const void *other)
{
    Dl_info place, other_place;
    return dladdr(one, &place) && dladdr(other, &other_place) && place.dli_fbase == other_place.dli_fbase;
}

#ifdef __x86_64__

/* The next function of this name that has to do with blocks. The library by which the C library's blocks are checked
 * (libc_malloc_debug.so) has old versions of these alone, which dlsym passes over: it would give those of the C library
 * itself, which end the program for a block that isn't theirs. */
static void *next_of_blocks(const char *name)
{
    void *function = dlsym(RTLD_NEXT, name), *versioned = dlvsym(RTLD_NEXT, name, "GLIBC_2.2.5");
    return versioned && are_of_one_library(function, (void *)gnu_get_libc_version) ? versioned : function;
}

#else

static void *next_of_blocks(const char *name)
{
    return dlsym(RTLD_NEXT, name);
}

#endif

/* The next function of this name, if it is of the same library as this one that frees blocks; else NULL. */
static void *beside_free(void *frees, const char *name)
{
    void *function = next_of_blocks(name);
    return function && are_of_one_library(frees, function) ? function : NULL;
}

/* A sanitizer's, where the loader has found one. To look up what isn't there takes memory, for the text that tells so:
 * an allocator that begins just now, and gives back what it has too much, may wait for itself then. */
__attribute__((weak)) int __sanitizer_get_ownership(const volatile void *);
__attribute__((weak)) void AnnotateIgnoreReadsBegin(const char *, int);

static void blocks_find(struct real_functions *all)
{
    all->free = (void (*)(void *))next_of_blocks("free");
    all->realloc = (void *(*)(void *, size_t))next_of_blocks("realloc");
    all->malloc_usable_size = (size_t(*)(void *))beside_free((void *)all->free, "malloc_usable_size");
    if (__sanitizer_get_ownership)
        all->owns = (int (*)(const volatile void *))beside_free((void *)all->free, "__sanitizer_get_ownership");
}

#ifdef __x86_64__

/* The C library has two versions of these; dlsym may give the old one, which has another condition type. A library that
 * stands before it, as a sanitizer's, has one that dlvsym passes over: that one is called. */
static void *wait_of(void *function, const char *name)
{
    void *newer = dlvsym(RTLD_NEXT, name, "GLIBC_2.3.2");
    return newer && (!function || are_of_one_library(function, newer)) ? newer : function;
}

#endif

/* By which ThreadSanitizer is told to look away from a thread, and to look again. Only where it is the library that has
 * the locks: one that Clang links into the program knows its threads too late. */
static void watcher_find(struct real_functions *all)
{
    static const char *const names[2][2] = {{"AnnotateIgnoreReadsBegin", "AnnotateIgnoreWritesBegin"},
                                            {"AnnotateIgnoreWritesEnd", "AnnotateIgnoreReadsEnd"}};
    void *found[2][2];
    for (int i = 0; i < 4; i++) {
        void *function = found[i / 2][i % 2] = dlsym(RTLD_NEXT, names[i / 2][i % 2]);
        if (!function || !are_of_one_library(function, (void *)all->pthread_mutex_lock))
            return;
    }
    memcpy(all->look_away, found[0], sizeof found[0]);
    memcpy(all->look_back, found[1], sizeof found[1]);
}

void faults_forget(void)
{
    dlerror();
    dlerror();
}

int real_find(void)
{
    if (real_found || finding)
        return real_found;
    finding = 1;
    /* All at once, so that no lock is really taken while its release isn't found yet. */
    struct real_functions all = real;
    void *function;
#define REAL_FIND(result, name, parameters) \
    function = dlsym(RTLD_NEXT, #name); \
    if (function) \
        all.name = (result(*) parameters)function;
    REAL_FUNCTIONS(REAL_FIND)
#undef REAL_FIND
#ifdef __x86_64__
    void *wait = wait_of(dlsym(RTLD_NEXT, "pthread_cond_wait"), "pthread_cond_wait");
    void *timed_wait = wait_of(dlsym(RTLD_NEXT, "pthread_cond_timedwait"), "pthread_cond_timedwait");
    if (wait)
        all.pthread_cond_wait = (int (*)(pthread_cond_t *, pthread_mutex_t *))wait;
    if (timed_wait)
        all.pthread_cond_timedwait = (int (*)(pthread_cond_t *, pthread_mutex_t *, deadline_t))timed_wait;
#endif
    blocks_find(&all);
    real_vfork = dlsym(RTLD_NEXT, "vfork");
    real_clone = dlsym(RTLD_NEXT, "clone");
    function = dlsym(RTLD_NEXT, "pthread_attr_getsigmask_np");
    all.pthread_attr_getsigmask_np = (int (*)(const pthread_attr_t *, sigset_t *))function;
    if (AnnotateIgnoreReadsBegin)
        watcher_find(&all);
    faults_forget();
    real = all;
    real_found = 1;
    finding = 0;
    return 1;
}
