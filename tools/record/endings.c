/* How a process ends by itself: by exit in all its forms, or as it becomes another program. Each is marked in its file,
 * so that who reads it later knows these from an end by a signal, which leaves no mark. */
#define _GNU_SOURCE
#include <stdarg.h>
#include <stdlib.h>
#include <sys/syscall.h>
#include <unistd.h>

#include "process.h"
#include "real.h"

/* --- Which process this is ------------------------------------------------------------------------------------ */

/* A child of vfork or clone calls from its parent's memory, whose mark isn't its own. The system is asked which process
 * this is only where there may be such a child: who has forbidden itself system calls would be ended for it. So these
 * two functions, which may return twice, put down that they are called, and jump to those of the C library, with the
 * stack and the registers as they were. On other machines the system is asked each time. */
#ifdef __x86_64__

uint32_t pid_in_doubt;

#define PUTS_DOWN(name) \
    __asm__(".pushsection .text\n" \
            ".globl " #name "\n" \
            ".type " #name ", @function\n" #name ":\n" \
            "    endbr64\n" \
            "    movl $1, pid_in_doubt(%rip)\n" \
            "    cmpl $0, real_found(%rip)\n" \
            "    jne 1f\n" \
            "    pushq %rdi\n" \
            "    pushq %rsi\n" \
            "    pushq %rdx\n" \
            "    pushq %rcx\n" \
            "    pushq %r8\n" \
            "    pushq %r9\n" \
            "    subq $8, %rsp\n" \
            "    call real_find\n" \
            "    addq $8, %rsp\n" \
            "    popq %r9\n" \
            "    popq %r8\n" \
            "    popq %rcx\n" \
            "    popq %rdx\n" \
            "    popq %rsi\n" \
            "    popq %rdi\n" \
            "1:  jmp *real_" #name "(%rip)\n" \
            ".size " #name ", . - " #name "\n" \
            ".popsection\n")

PUTS_DOWN(vfork);
PUTS_DOWN(clone);

#else

uint32_t pid_in_doubt = 1;

#endif

static void end_mark(enum end_kind how)
{
    struct end_record *end = process.end;
    if (end && (!pid_in_doubt || process.pid == (uint64_t)getpid()))
        __atomic_store_n(&end->how, (uint64_t)how, __ATOMIC_RELEASE);
}

/* --- Exit --------------------------------------------------------------------------------------------------- */

static void marks_exit(void *unused)
{
    (void)unused;
    end_mark(END_EXIT);
}

static void marks_quick_exit(void)
{
    end_mark(END_EXIT);
}

extern int __cxa_atexit(void (*function)(void *), void *argument, void *module);

/* Handlers run in the reverse of the order in which they are set: these two after those of the program and the
 * destructors of all libraries. They are of no module, as those of one run with its destructors. */
void endings_start(void)
{
    static int set;
    if (!set)
        set = __cxa_atexit(marks_exit, NULL, NULL) == 0 && at_quick_exit(marks_quick_exit) == 0;
}

#define EXIT(call, status) \
    if (unlikely(!real_found)) \
        real_find(); \
    end_mark(END_EXIT); \
    call; \
    for (;;) \
    syscall(SYS_exit_group, status)

EXPORTED void _exit(int status)
{
    EXIT(real._exit(status), status);
}

EXPORTED void _Exit(int status)
{
    EXIT(real._Exit(status), status);
}

/* --- Calls that come back only if they fail ------------------------------------------------------------------- */

#define ENDING(how, call) \
    if (unlikely(!real_found)) \
        real_find(); \
    end_mark(how); \
    int result = call; \
    end_mark(END_UNKNOWN); \
    return result

/* The parent ends within the call. In the child, where it comes back too, the mark is the child's own. */
EXPORTED int daemon(int stays, int keeps_files)
{
    ENDING(END_EXIT, real.daemon(stays, keeps_files));
}

EXPORTED int execve(const char *path, char *const arguments[], char *const environment[])
{
    ENDING(END_EXEC, real.execve(path, arguments, environment));
}

EXPORTED int execv(const char *path, char *const arguments[])
{
    ENDING(END_EXEC, real.execv(path, arguments));
}

EXPORTED int execvp(const char *name, char *const arguments[])
{
    ENDING(END_EXEC, real.execvp(name, arguments));
}

EXPORTED int execvpe(const char *name, char *const arguments[], char *const environment[])
{
    ENDING(END_EXEC, real.execvpe(name, arguments, environment));
}

EXPORTED int fexecve(int file, char *const arguments[], char *const environment[])
{
    ENDING(END_EXEC, real.fexecve(file, arguments, environment));
}

/* The C library has it since 2021. */
EXPORTED int execveat(int folder, const char *path, char *const arguments[], char *const environment[], int flags)
{
    ENDING(END_EXEC, real.execveat(folder, path, arguments, environment, flags));
}

/* Makes `arguments` of the words of a call that has them one by one, and `environment` of what comes behind them. */
#define ARGUMENTS(first, environment) \
    va_list words; \
    size_t count = 1; \
    va_start(words, first); \
    while (va_arg(words, char *)) \
        count++; \
    va_end(words); \
    char *arguments[count + 1]; \
    arguments[0] = (char *)(uintptr_t)first; \
    va_start(words, first); \
    for (size_t i = 1; i <= count; i++) \
        arguments[i] = va_arg(words, char *); \
    environment; \
    va_end(words)

EXPORTED int execl(const char *path, const char *first, ...)
{
    ARGUMENTS(first, );
    ENDING(END_EXEC, real.execv(path, arguments));
}

EXPORTED int execlp(const char *name, const char *first, ...)
{
    ARGUMENTS(first, );
    ENDING(END_EXEC, real.execvp(name, arguments));
}

EXPORTED int execle(const char *path, const char *first, ...)
{
    ARGUMENTS(first, char *const *environment = va_arg(words, char *const *));
    ENDING(END_EXEC, real.execve(path, arguments, environment));
}
