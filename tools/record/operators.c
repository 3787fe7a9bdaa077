/*
 * C++'s operators new and delete, of whichever library has them. Those of the C++ library come to malloc and free,
 * which are seen; those of an allocator are another way to its memory. Where it has free as well, it tells the size of
 * a block that is given back, and this is looked at as in `free`. Else a block is looked at when it is given out, as
 * its size is told then.
 */
#define _GNU_SOURCE
#include <dlfcn.h>
#include <link.h>
#include <stdlib.h>
#include <sys/mman.h>
#include <unistd.h>

#include "process.h"
#include "real.h"

/* X(name, parameters, arguments) for each form, by the name that the compilers have for it where size_t is a long. */
#define NEW_OPERATORS(X) \
    X(_Znwm, (size_t bytes), (bytes)) \
    X(_Znam, (size_t bytes), (bytes)) \
    X(_ZnwmRKSt9nothrow_t, (size_t bytes, const void *no_throw), (bytes, no_throw)) \
    X(_ZnamRKSt9nothrow_t, (size_t bytes, const void *no_throw), (bytes, no_throw)) \
    X(_ZnwmSt11align_val_t, (size_t bytes, size_t aligned), (bytes, aligned)) \
    X(_ZnamSt11align_val_t, (size_t bytes, size_t aligned), (bytes, aligned)) \
    X(_ZnwmSt11align_val_tRKSt9nothrow_t, (size_t bytes, size_t aligned, const void *no_throw), \
      (bytes, aligned, no_throw)) \
    X(_ZnamSt11align_val_tRKSt9nothrow_t, (size_t bytes, size_t aligned, const void *no_throw), \
      (bytes, aligned, no_throw))

#define DELETE_OPERATORS(X) \
    X(_ZdlPv, (void *block), (block)) \
    X(_ZdaPv, (void *block), (block)) \
    X(_ZdlPvm, (void *block, size_t bytes), (block, bytes)) \
    X(_ZdaPvm, (void *block, size_t bytes), (block, bytes)) \
    X(_ZdlPvRKSt9nothrow_t, (void *block, const void *no_throw), (block, no_throw)) \
    X(_ZdaPvRKSt9nothrow_t, (void *block, const void *no_throw), (block, no_throw)) \
    X(_ZdlPvSt11align_val_t, (void *block, size_t aligned), (block, aligned)) \
    X(_ZdaPvSt11align_val_t, (void *block, size_t aligned), (block, aligned)) \
    X(_ZdlPvmSt11align_val_t, (void *block, size_t bytes, size_t aligned), (block, bytes, aligned)) \
    X(_ZdaPvmSt11align_val_t, (void *block, size_t bytes, size_t aligned), (block, bytes, aligned)) \
    X(_ZdlPvSt11align_val_tRKSt9nothrow_t, (void *block, size_t aligned, const void *no_throw), \
      (block, aligned, no_throw)) \
    X(_ZdaPvSt11align_val_tRKSt9nothrow_t, (void *block, size_t aligned, const void *no_throw), \
      (block, aligned, no_throw))

/* There is none behind the recorder's where a library's constructor loads C++ for a program that has none, before the
 * recorder is asked for anything. Whatever is asked for these, it is aligned. */
#define WELL_ALIGNED 64

static void *give_out(size_t bytes)
{
    void *block = NULL;
    if (posix_memalign(&block, WELL_ALIGNED, bytes) != 0)
        abort();
    return block;
}

static void give_back(void *block)
{
    free(block);
}

static struct {
#define NEW_MEMBER(name, parameters, arguments) void *(*name)parameters;
    NEW_OPERATORS(NEW_MEMBER)
#undef NEW_MEMBER
#define DELETE_MEMBER(name, parameters, arguments) void(*name) parameters;
    DELETE_OPERATORS(DELETE_MEMBER)
#undef DELETE_MEMBER
} operators = {
#define NEW_STAND_IN(name, parameters, arguments) .name = (void *(*)parameters)(void (*)(void))give_out,
    NEW_OPERATORS(NEW_STAND_IN)
#undef NEW_STAND_IN
#define DELETE_STAND_IN(name, parameters, arguments) .name = (void(*) parameters)(void (*)(void))give_back,
        DELETE_OPERATORS(DELETE_STAND_IN)
#undef DELETE_STAND_IN
};

static int found;
static enum { LOOK_NEVER, LOOK_AT_NEW, LOOK_AT_DELETE } look;

/* --- The operators ---------------------------------------------------------------------------------------- */

#define NEW_OPERATOR(name, parameters, arguments) \
    EXPORTED void *name parameters; \
    void *name parameters \
    { \
        if (unlikely(!found)) \
            operators_find(); \
        if (likely(look != LOOK_AT_NEW)) \
            return operators.name arguments; \
        void *block = operators.name arguments; \
        block_begin(block, bytes); \
        return block; \
    }

#define DELETE_OPERATOR(name, parameters, arguments) \
    EXPORTED void name parameters; \
    void name parameters \
    { \
        if (unlikely(!found)) \
            operators_find(); \
        if (look == LOOK_AT_DELETE) \
            block_end(block); \
        operators.name arguments; \
    }

NEW_OPERATORS(NEW_OPERATOR)
DELETE_OPERATORS(DELETE_OPERATOR)

/* --- Those behind them ------------------------------------------------------------------------------------ */

typedef ElfW(Sym) symbol;

/* The entry of this library's table of symbols that has this function; NULL: it isn't told. */
static symbol *symbol_of(void (*function)(void))
{
    Dl_info place;
    void *entry = NULL;
    int is_told = dladdr1((void *)function, &place, &entry, RTLD_DL_SYMENT);
    return is_told && place.dli_saddr == (void *)function ? entry : NULL;
}

/*
 * Takes the operators out of this library's table of symbols. A program without C++ may load libraries of it later, and
 * these have operators from each other, by the order in which the loader goes through them. Nobody else can tell whose
 * operators a library would have: so they must not find these.
 */
static void operators_hide(void)
{
    void (*const functions[])(void) = {
#define FUNCTION(name, parameters, arguments) (void (*)(void)) name,
        NEW_OPERATORS(FUNCTION) DELETE_OPERATORS(FUNCTION)
#undef FUNCTION
    };
    enum { COUNT = sizeof functions / sizeof functions[0] };
    symbol *symbols[COUNT], *first = NULL, *last = NULL;
    for (size_t i = 0; i < COUNT; i++) {
        symbols[i] = symbol_of(functions[i]);
        if (!symbols[i])
            return;
        first = !first || symbols[i] < first ? symbols[i] : first;
        last = !last || symbols[i] > last ? symbols[i] : last;
    }
    uintptr_t page = (uintptr_t)sysconf(_SC_PAGESIZE);
    char *from = (char *)((uintptr_t)first & -page);
    size_t bytes = (size_t)((char *)(last + 1) - from);
    if (mprotect(from, bytes, PROT_READ | PROT_WRITE) != 0)
        return;
    for (size_t i = 0; i < COUNT; i++)
        symbols[i]->st_value = 0; /* what has no place is passed over */
    mprotect(from, bytes, PROT_READ);
}

static int operators_take(void)
{
    const void *plain = dlsym(RTLD_NEXT, "_ZdlPv");
    if (!plain)
        return 0;
    void *function;
#define NEW_FIND(name, parameters, arguments) \
    function = dlsym(RTLD_NEXT, #name); \
    if (function) \
        operators.name = (void *(*)parameters)function;
    NEW_OPERATORS(NEW_FIND)
#undef NEW_FIND
#define DELETE_FIND(name, parameters, arguments) \
    function = dlsym(RTLD_NEXT, #name); \
    if (function) \
        operators.name = (void(*) parameters)function;
    DELETE_OPERATORS(DELETE_FIND)
#undef DELETE_FIND
    if (are_of_one_library(plain, (const void *)real.free))
        look = LOOK_AT_DELETE;
    else if (!are_of_one_library(plain, dlsym(RTLD_NEXT, "_ZSt9terminatev"))) /* which the C++ library has */
        look = LOOK_AT_NEW;
    return 1;
}

void operators_find(void)
{
    if (found || !real_find())
        return;
    if (!operators_take())
        operators_hide();
    faults_forget();
    found = 1;
}
