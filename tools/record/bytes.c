/* What the compiler and the other files call to move and to set bytes: the recorder's own, which nobody outside sees. A
 * sanitizer stands before those of the C library. It knows nothing of how the recorder hands memory from thread to
 * thread, and would take that for a race of the program. */
#include <stddef.h>
#include <stdint.h>

typedef uint64_t __attribute__((may_alias, aligned(1))) any_word;

/* The compiler makes no call of these here of a loop that has this in it. */
#define NO_CALL __asm__ volatile("" : : : "memory")

/* Some bytes, the first ones first, which takes less than to begin what moves many. */
#define FEW 256

static void move_few(unsigned char *to, const unsigned char *from, size_t count)
{
    for (; count >= sizeof(any_word); count -= sizeof(any_word)) {
        *(any_word *)to = *(const any_word *)from;
        to += sizeof(any_word);
        from += sizeof(any_word);
        NO_CALL;
    }
    for (; count > 0; count--) {
        *to++ = *from++;
        NO_CALL;
    }
}

#ifdef __x86_64__

void *memset(void *to, int byte, size_t count)
{
    void *at = to;
    __asm__ volatile("rep stosb" : "+D"(at), "+c"(count) : "a"(byte) : "memory");
    return to;
}

static void move_up(void *to, const void *from, size_t count)
{
    if (count <= FEW)
        move_few(to, from, count);
    else
        __asm__ volatile("rep movsb" : "+D"(to), "+S"(from), "+c"(count) : : "memory");
}

static void move_down(unsigned char *to, const unsigned char *from, size_t count)
{
    const unsigned char *last = from + count - 1;
    unsigned char *at = to + count - 1;
    __asm__ volatile("std; rep movsb; cld" : "+D"(at), "+S"(last), "+c"(count) : : "memory", "cc");
}

#else

void *memset(void *to, int byte, size_t count)
{
    for (unsigned char *at = to; count > 0; count--) {
        *at++ = (unsigned char)byte;
        NO_CALL;
    }
    return to;
}

static void move_up(void *to, const void *from, size_t count)
{
    move_few(to, from, count);
}

static void move_down(unsigned char *to, const unsigned char *from, size_t count)
{
    for (; count > 0; count--) {
        to[count - 1] = from[count - 1];
        NO_CALL;
    }
}

#endif

void *memcpy(void *restrict to, const void *restrict from, size_t count)
{
    move_up(to, from, count);
    return to;
}

void *memmove(void *to, const void *from, size_t count)
{
    if ((uintptr_t)to - (uintptr_t)from >= count) /* it doesn't begin amid what is moved */
        move_up(to, from, count);
    else
        move_down(to, from, count);
    return to;
}
