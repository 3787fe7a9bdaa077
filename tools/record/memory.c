/*
 * Memory that is given back. A lock in it is at its end, though nobody destroyed it: what is made later at its address
 * is another lock. So is what is made on a thread's stack, or as a thread-local, where one was that has ended.
 *
 * Each page of memory in which a lock was met has a map of the places where one is; a filter of bytes says fast of most
 * pages that there is none. Places are set and cleared in slow parts, and read by anybody.
 */
#define _GNU_SOURCE
#include <dlfcn.h>
#include <errno.h>
#include <stdarg.h>
#include <stdlib.h>
#include <sys/mman.h>
#include <sys/shm.h>
#include <sys/syscall.h>
#include <unistd.h>

#include "process.h"
#include "real.h"

#define PAGE_BITS 12
#define PAGE_BYTES (1ul << PAGE_BITS)
#define PLACE_BYTES 4ul /* as a spin lock */
#define WORD_BYTES (64 * PLACE_BYTES)
#define PAGE_WORDS (PAGE_BYTES / WORD_BYTES)
#define FILTER_BITS 14

struct lock_page {
    uintptr_t page;
    struct lock_page *next;
    uint64_t places[PAGE_WORDS];
};

/* Kept over forks, as the addresses of locks are. */
static struct lock_page *lock_pages;
static uint64_t lock_page_count;
static struct lock_page *page_room;
static size_t page_room_count;
static uint8_t page_filter[1 << FILTER_BITS];

static inline uint8_t *filter_of(uintptr_t page)
{
    return &page_filter[mix(page) >> (64 - FILTER_BITS)];
}

static struct lock_page *page_find(uintptr_t page)
{
    struct slot *slot = table_find(&process.lock_pages, page);
    return slot ? (struct lock_page *)__atomic_load_n(&slot->value, __ATOMIC_ACQUIRE) : NULL;
}

static struct lock_page *page_new(uintptr_t page)
{
    struct slot *slot = table_place(&process.lock_pages, page);
    if (!slot)
        return NULL;
    if (slot->value)
        return (struct lock_page *)slot->value;
    if (page_room_count == 0) {
        page_room = pages_new(16 * CHUNK_UNIT);
        page_room_count = page_room ? 16 * CHUNK_UNIT / sizeof *page_room : 0;
    }
    if (page_room_count == 0)
        return NULL;
    struct lock_page *made = &page_room[--page_room_count];
    made->page = page;
    made->next = lock_pages;
    lock_pages = made;
    lock_page_count++;
    __atomic_store_n(&slot->value, (uint64_t)(uintptr_t)made, __ATOMIC_RELEASE);
    __atomic_store_n(filter_of(page), 1, __ATOMIC_RELEASE);
    return made;
}

void memory_note(uintptr_t address)
{
    uintptr_t page = address >> PAGE_BITS;
    struct lock_page *found = page_find(page);
    if (!found)
        found = page_new(page);
    size_t place = address % PAGE_BYTES / PLACE_BYTES;
    if (found)
        __atomic_fetch_or(&found->places[place / 64], 1ull << place % 64, __ATOMIC_RELEASE);
}

void memory_forget(uintptr_t address)
{
    struct lock_page *page = page_find(address >> PAGE_BITS);
    size_t place = address % PAGE_BYTES / PLACE_BYTES;
    if (page)
        __atomic_fetch_and(&page->places[place / 64], ~(1ull << place % 64), __ATOMIC_RELEASE);
}

/* How many of a word's places, from the first one at this address on, lie before the end. */
static unsigned places_before(uintptr_t first, uintptr_t end)
{
    uintptr_t count = end > first ? (end - first + PLACE_BYTES - 1) / PLACE_BYTES : 0;
    return count < 64 ? (unsigned)count : 64;
}

static uint64_t first_places(unsigned count)
{
    return count < 64 ? (1ull << count) - 1 : ~0ull;
}

/* Those of a word's places that lie in the range. */
static uint64_t places_within(const struct lock_page *page, size_t word, uintptr_t start, uintptr_t end)
{
    uint64_t places = __atomic_load_n(&page->places[word], __ATOMIC_ACQUIRE);
    uintptr_t first = (page->page << PAGE_BITS) + word * WORD_BYTES;
    return places & first_places(places_before(first, end)) & ~first_places(places_before(first, start));
}

/* Most blocks lie in a few words of a page. */
static int page_holds(const struct lock_page *page, uintptr_t start, uintptr_t end)
{
    uintptr_t first = page->page << PAGE_BITS;
    size_t word = start > first ? (start - first) / WORD_BYTES : 0;
    for (; word < PAGE_WORDS && first + word * WORD_BYTES < end; word++)
        if (places_within(page, word, start, end))
            return 1;
    return 0;
}

static void page_end(struct lock_page *page, uintptr_t start, uintptr_t end)
{
    for (size_t word = 0; word < PAGE_WORDS; word++)
        for (uint64_t places = places_within(page, word, start, end); places; places &= places - 1) {
            uintptr_t first = (page->page << PAGE_BITS) + word * WORD_BYTES;
            lock_forget((const void *)(first + (unsigned)__builtin_ctzll(places) * PLACE_BYTES));
        }
}

/* Calls `use` for the pages of a range that have ever held a lock, until it says yes. */
#define FOR_PAGES(start, end, use) \
    uintptr_t from = (start) >> PAGE_BITS, to = ((end)-1) >> PAGE_BITS; \
    if (to - from < lock_page_count) { \
        for (uintptr_t at = from; at <= to; at++) { \
            struct lock_page *page = *filter_of(at) ? page_find(at) : NULL; \
            if (page) { \
                use; \
            } \
        } \
    } else { \
        struct lock_page *page = __atomic_load_n(&lock_pages, __ATOMIC_ACQUIRE); \
        for (; page; page = page->next) \
            if (page->page >= from && page->page <= to) { \
                use; \
            } \
    }

static struct held *held_in_page(struct thread *thread, const struct lock_page *page, uintptr_t start, uintptr_t end)
{
    for (size_t word = 0; word < PAGE_WORDS; word++)
        for (uint64_t places = places_within(page, word, start, end); places; places &= places - 1) {
            uintptr_t first = (page->page << PAGE_BITS) + word * WORD_BYTES;
            struct slot *slot = table_find(&process.locks, first + (unsigned)__builtin_ctzll(places) * PLACE_BYTES);
            struct held *held = slot && slot->value ? held_find(thread, (uint32_t)slot->value) : NULL;
            if (held)
                return held;
        }
    return NULL;
}

/* A lock in the range that the thread holds, or NULL. */
static struct held *held_in(struct thread *thread, uintptr_t start, uintptr_t end)
{
    struct held *held = NULL;
    FOR_PAGES(start, end, held = held_in_page(thread, page, start, end); if (held) return held)
    return NULL;
}

/* What the present thread holds there it holds no longer: nobody will wait for that any more. */
static void held_end(uintptr_t start, uintptr_t end)
{
    struct thread *thread = current_thread;
    if (!thread->chunk)
        return;
    for (struct held *held; thread->held_count > 0 && (held = held_in(thread, start, end)) != NULL;)
        held_let_go(thread, word_object(held->word));
}

static int range_holds(uintptr_t start, uintptr_t end)
{
    FOR_PAGES(start, end, if (page_holds(page, start, end)) return 1)
    return 0;
}

void memory_end_inside(uintptr_t start, uintptr_t end)
{
    FOR_PAGES(start, end, page_end(page, start, end))
}

/* Whether there are locks in the range that may be at their end. */
static int may_end(uintptr_t start, uintptr_t end)
{
    return lock_page_count > 0 && start < end && !slow_inside() && process.state == PROCESS_RECORDED &&
           range_holds(start, end);
}

void memory_end(uintptr_t start, uintptr_t end)
{
    if (!may_end(start, end))
        return;
    held_end(start, end);
    struct slow_state state;
    slow_enter(&state);
    memory_end_inside(start, end);
    slow_leave(&state);
}

/* --- Memory that may be given back ------------------------------------------------------------------------ */

struct left_lock {
    uintptr_t address;
    uint64_t number;
};

#define LEFT_FEW 16

/*
 * The locks in memory that a call is about to give back. While it is at work they have no numbers: once the memory is
 * free another thread may get it, before the call has come back, and what that makes there is another lock. Where the
 * call fails, and in what stays, they get their numbers again.
 */
struct left {
    struct left_lock few[LEFT_FEW];
    struct left_lock *locks;
    size_t count, room;
};

static size_t range_count(uintptr_t start, uintptr_t end)
{
    size_t count = 0;
    FOR_PAGES(start, end,
              for (size_t word = 0; word < PAGE_WORDS; word++) count +=
              (size_t)__builtin_popcountll(places_within(page, word, start, end)))
    return count;
}

/* Those for which there is no room are at their end. */
static void page_leave(struct left *left, const struct lock_page *page, uintptr_t start, uintptr_t end)
{
    for (size_t word = 0; word < PAGE_WORDS; word++)
        for (uint64_t places = places_within(page, word, start, end); places; places &= places - 1) {
            uintptr_t first = (page->page << PAGE_BITS) + word * WORD_BYTES;
            uintptr_t address = first + (unsigned)__builtin_ctzll(places) * PLACE_BYTES;
            struct slot *slot = table_find(&process.locks, address);
            if (slot && slot->value && left->count < left->room)
                left->locks[left->count++] = (struct left_lock){address, slot->value};
            lock_forget((const void *)address);
        }
}

static void left_begin(struct left *left, uintptr_t start, uintptr_t end)
{
    left->count = 0;
    left->room = LEFT_FEW;
    left->locks = left->few;
    if (!may_end(start, end))
        return;
    struct slow_state state;
    slow_enter(&state);
    size_t count = range_count(start, end);
    struct left_lock *locks = count > LEFT_FEW ? pages_new(count * sizeof *locks) : NULL;
    if (locks) {
        left->locks = locks;
        left->room = count;
    }
    FOR_PAGES(start, end, page_leave(left, page, start, end))
    slow_leave(&state);
}

/* Those of memory that stays have their numbers again; others the thread holds no longer. */
static void left_end(struct left *left, uintptr_t from, uintptr_t to)
{
    if (left->count == 0)
        return;
    struct slow_state state;
    slow_enter(&state);
    for (size_t i = 0; i < left->count; i++) {
        struct left_lock *lock = &left->locks[i];
        struct slot *slot = table_find(&process.locks, lock->address);
        if (lock->address < from || lock->address >= to || !slot || slot->value)
            continue;
        __atomic_store_n(&slot->value, lock->number, __ATOMIC_RELEASE);
        memory_note(lock->address);
        lock->number = 0;
    }
    slow_leave(&state);
    for (size_t i = 0; i < left->count; i++)
        if (left->locks[i].number)
            held_let_go(current_thread, (uint32_t)left->locks[i].number);
    if (left->locks != left->few)
        pages_drop(left->locks, left->room * sizeof *left->locks);
}

/* Of a call that gives back all of it, or fails and gives back nothing. */
static void left_end_all(struct left *left, uintptr_t start, uintptr_t end, int given_back)
{
    left_end(left, start, given_back ? start : end);
}

/* --- The functions that give memory back ---------------------------------------------------------------- */

/* The sizes of blocks are asked of the library that frees them. A sanitizer would tell of that question, and not of
 * what the program does, where that gives a block back twice. */
static size_t block_size(void *block)
{
    int is_known = real.malloc_usable_size && (!real.owns || real.owns(block));
    return is_known ? real.malloc_usable_size(block) : 1;
}

/* Of most blocks the filter says at once that no lock is in their pages. */
static inline int pages_may_hold(uintptr_t start, uintptr_t end)
{
    uintptr_t first = start >> PAGE_BITS, last = (end - 1) >> PAGE_BITS;
    return last - first > 1 || *filter_of(first) || *filter_of(last);
}

void block_end(void *block)
{
    if (lock_page_count == 0 || !block)
        return;
    uintptr_t start = (uintptr_t)block, end = start + block_size(block);
    if (unlikely(pages_may_hold(start, end)))
        memory_end(start, end);
}

void block_begin(const void *block, size_t bytes)
{
    uintptr_t start = (uintptr_t)block, end = start + bytes;
    if (lock_page_count > 0 && block && unlikely(pages_may_hold(start, end)))
        memory_end(start, end);
}

EXPORTED void free(void *block)
{
    if (unlikely(!real_found))
        real_find();
    block_end(block);
    real.free(block);
}

/* A block that moves or becomes smaller ends the locks in what is left of the old one. */
static void *realloc_with_locks(void *block, size_t size, size_t bytes)
{
    struct left left;
    uintptr_t start = (uintptr_t)block, kept = start + size;
    left_begin(&left, start, start + size);
    void *result = real.realloc(block, bytes);
    if (result == block && result)
        kept = start + block_size(result);
    else if (result || bytes == 0)
        kept = start;
    left_end(&left, start, kept);
    return result;
}

EXPORTED void *realloc(void *block, size_t bytes)
{
    if (unlikely(!real_found))
        real_find();
    size_t size = lock_page_count > 0 && block ? block_size(block) : 0;
    if (unlikely(size > 0 && pages_may_hold((uintptr_t)block, (uintptr_t)block + size)))
        return realloc_with_locks(block, size, bytes);
    return real.realloc(block, bytes);
}

EXPORTED int munmap(void *start, size_t bytes)
{
    if (unlikely(!real_found))
        real_find();
    struct left left;
    uintptr_t from = (uintptr_t)start;
    left_begin(&left, from, from + bytes);
    int result = real.munmap(start, bytes);
    left_end_all(&left, from, from + bytes, result == 0);
    return result;
}

/* What is mapped over other memory takes its place. Called very early by some allocators, before the functions are
 * found. */
EXPORTED void *mmap(void *start, size_t bytes, int protection, int flags, int file, off_t offset)
{
    if (unlikely(!real_found))
        return (void *)syscall(SYS_mmap, start, bytes, protection, flags, file, offset);
    if (likely(!(flags & MAP_FIXED)))
        return real.mmap(start, bytes, protection, flags, file, offset);
    struct left left;
    uintptr_t from = (uintptr_t)start;
    left_begin(&left, from, from + bytes);
    void *result = real.mmap(start, bytes, protection, flags, file, offset);
    left_end_all(&left, from, from + bytes, result != MAP_FAILED);
    return result;
}

EXPORTED void *mmap64(void *start, size_t bytes, int protection, int flags, int file, off_t offset)
    __attribute__((alias("mmap")));

/* The last parameter is there with MREMAP_FIXED alone. */
EXPORTED void *mremap(void *start, size_t bytes, size_t new_bytes, int flags, ...)
{
    va_list further;
    va_start(further, flags);
    void *wanted = flags & MREMAP_FIXED ? va_arg(further, void *) : NULL;
    va_end(further);
    if (unlikely(!real_found))
        return (void *)syscall(SYS_mremap, start, bytes, new_bytes, flags, wanted);
    struct left left, target;
    uintptr_t from = (uintptr_t)start, to = (uintptr_t)wanted;
    left_begin(&left, from, from + bytes);
    left_begin(&target, to, wanted ? to + new_bytes : to);
    void *result = real.mremap(start, bytes, new_bytes, flags, wanted);
    int moved = result != MAP_FAILED && result != start;
    left_end(&left, from, moved ? from : from + (result == start ? new_bytes : bytes));
    left_end_all(&target, to, to + new_bytes, result != MAP_FAILED);
    return result;
}

static void segment_note(void *start, size_t bytes)
{
    struct slow_state state;
    slow_enter(&state);
    struct slot *slot = table_place(&process.segments, (uint64_t)(uintptr_t)start);
    if (slot)
        __atomic_store_n(&slot->value, bytes, __ATOMIC_RELEASE);
    slow_leave(&state);
}

/* How long a segment is, is asked while it is attached: who lets it go doesn't tell. */
EXPORTED void *shmat(int segment, const void *start, int flags)
{
    if (unlikely(!real_found))
        real_find();
    void *result = real.shmat(segment, start, flags);
    int error = errno;
    struct shmid_ds about;
    if (result != (void *)-1 && process.state == PROCESS_RECORDED && !slow_inside() &&
        shmctl(segment, IPC_STAT, &about) == 0) {
        if (flags & SHM_REMAP)
            memory_end((uintptr_t)result, (uintptr_t)result + about.shm_segsz);
        segment_note(result, about.shm_segsz);
    }
    errno = error;
    return result;
}

EXPORTED int shmdt(const void *start)
{
    if (unlikely(!real_found))
        real_find();
    struct slot *slot = table_find(&process.segments, (uint64_t)(uintptr_t)start);
    uint64_t bytes = slot ? __atomic_exchange_n(&slot->value, 0, __ATOMIC_ACQ_REL) : 0;
    struct left left;
    uintptr_t from = (uintptr_t)start;
    left_begin(&left, from, from + bytes);
    int result = real.shmdt(start);
    left_end_all(&left, from, from + bytes, result == 0);
    if (slot && result != 0)
        __atomic_store_n(&slot->value, bytes, __ATOMIC_RELEASE);
    return result;
}

EXPORTED int dlclose(void *handle)
{
    int result = real.dlclose(handle);
    if (result == 0 && process.state == PROCESS_RECORDED && !slow_inside())
        modules_check();
    return result;
}
