/* What is done with texts, past what a sanitizer looks at: the recorder's own, which nobody outside sees. A sanitizer
 * stands before the C library's functions, also where Clang puts it into the program. It knows nothing of how slow
 * parts come one after the other, and would take two of them that use one text for a race of the program. */
#define _GNU_SOURCE
#include <fcntl.h>
#include <stdarg.h>
#include <sys/syscall.h>
#include <unistd.h>

#include "process.h"

/* The compiler makes no call of these here of a loop that has this in it. */
#define NO_CALL __asm__ volatile("" : : : "memory")

size_t strlen(const char *text)
{
    size_t length = 0;
    while (text[length]) {
        length++;
        NO_CALL;
    }
    return length;
}

char *strcpy(char *restrict to, const char *restrict from)
{
    return memcpy(to, from, strlen(from) + 1);
}

static int compared(const char *one, const char *other, size_t most)
{
    for (; most > 0; one++, other++, most--) {
        if (*one != *other || !*one)
            return (unsigned char)*one - (unsigned char)*other;
        NO_CALL;
    }
    return 0;
}

int strncmp(const char *one, const char *other, size_t most)
{
    return compared(one, other, most);
}

int strcmp(const char *one, const char *other)
{
    return compared(one, other, SIZE_MAX);
}

char *strchr(const char *text, int mark)
{
    for (; *text != (char)mark; text++) {
        if (!*text)
            return NULL;
        NO_CALL;
    }
    return (char *)text;
}

char *strrchr(const char *text, int mark)
{
    const char *found = NULL;
    for (;; text++) {
        if (*text == (char)mark)
            found = text;
        if (!*text)
            return (char *)found;
        NO_CALL;
    }
}

void text_join(char *to, size_t size, ...)
{
    va_list texts;
    va_start(texts, size);
    for (const char *text; (text = va_arg(texts, const char *)) != NULL;)
        for (; *text && size > 1; size--) {
            *to++ = *text++;
            NO_CALL;
        }
    va_end(texts);
    *to = 0;
}

const char *digits_of(uint64_t number, char digits[DIGITS])
{
    char *at = digits + DIGITS - 1;
    *at = 0;
    do {
        *--at = (char)('0' + number % 10);
        number /= 10;
    } while (number > 0);
    return at;
}

ssize_t bytes_read(int file, void *to, size_t size)
{
    return syscall(SYS_read, file, to, size);
}

ssize_t link_read(const char *path, char *to, size_t size)
{
#ifdef SYS_readlink
    return syscall(SYS_readlink, path, to, size);
#else
    return syscall(SYS_readlinkat, AT_FDCWD, path, to, size);
#endif
}
