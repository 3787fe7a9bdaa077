/* Refuses memory to the thread that is counted: the request of a number, or each from there on. It is linked with
 * --wrap of malloc, calloc, realloc and aligned_alloc. */
#ifndef REFUSING_H
#define REFUSING_H

#include <stdbool.h>
#include <stddef.h>

static __thread bool is_counted; /* whether this thread is in a call that is tested */
static __thread long requests, refuse_at;
static __thread bool is_onwards, was_refused;
static __thread void (*when_asked)(void); /* what this thread does first when it is asked for memory, or NULL */

static bool refuses(void)
{
    if (when_asked != NULL)
        when_asked();
    if (!is_counted)
        return false;
    requests++;
    if (refuse_at == 0 || requests < refuse_at || (requests > refuse_at && !is_onwards))
        return false;
    was_refused = true;
    return true;
}

#ifdef __cplusplus
extern "C" {
#endif
void *__real_malloc(size_t size);
void *__real_calloc(size_t count, size_t size);
void *__real_realloc(void *old, size_t size);
void *__real_aligned_alloc(size_t alignment, size_t size);
void *__wrap_malloc(size_t size);
void *__wrap_calloc(size_t count, size_t size);
void *__wrap_realloc(void *old, size_t size);
void *__wrap_aligned_alloc(size_t alignment, size_t size);

void *__wrap_malloc(size_t size)
{
    return refuses() ? NULL : __real_malloc(size);
}

void *__wrap_calloc(size_t count, size_t size)
{
    return refuses() ? NULL : __real_calloc(count, size);
}

void *__wrap_realloc(void *old, size_t size)
{
    return refuses() ? NULL : __real_realloc(old, size);
}

void *__wrap_aligned_alloc(size_t alignment, size_t size)
{
    return refuses() ? NULL : __real_aligned_alloc(alignment, size);
}
#ifdef __cplusplus
}
#endif

#endif
