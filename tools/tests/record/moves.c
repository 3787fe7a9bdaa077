/* A library whose realloc moves each block, and tells the program while it is at work. */
#include <stdlib.h>
#include <string.h>

void *realloc(void *block, size_t bytes);
void block_moved(void *block) __attribute__((weak));
size_t malloc_usable_size(void *block);

void *realloc(void *block, size_t bytes)
{
    void *result = malloc(bytes);
    size_t old_bytes = block ? malloc_usable_size(block) : 0;
    if (!result)
        return NULL;
    if (block)
        memcpy(result, block, old_bytes < bytes ? old_bytes : bytes);
    if (block && block_moved)
        block_moved(block); /* which isn't given back, so that it is the program's */
    return result;
}
