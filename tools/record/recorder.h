/*
 * The recorder's state, and the short path of an event.
 *
 * Everything that happens at each lock call is in this header and takes no lock, makes no system call and
 * allocates nothing: find the lock's number, find the call's number, store a word. What happens once per
 * lock, call or thread is in the .c files and runs between slow_enter and slow_leave, which shut out
 * other threads and signal handlers.
 */
#ifndef GOODLOCK_RECORDER_H
#define GOODLOCK_RECORDER_H

#include <errno.h>
#include <pthread.h>
#include <stddef.h>
#include <stdint.h>
#include <string.h>

#include "layout.h"

#pragma GCC visibility push(hidden)

#define likely(x) __builtin_expect(!!(x), 1)
#define unlikely(x) __builtin_expect(!!(x), 0)
#define EXPORTED __attribute__((visibility("default")))

/* The same function by the name that the C library keeps for what was linked before 2021. */
#define OLDER_NAME(name) EXPORTED extern __typeof__(name) __##name __attribute__((alias(#name), copy(name)))

/* --- Tables from addresses to numbers --------------------------------------------------------------- */

/* A table is a row of levels, each four times as large as the one before. A key stands in the first level
 * whose window for it has room; keys are never taken out, so a window that was full stays full, and reading
 * needs no lock. Only slow code writes keys. */
#define TABLE_LEVELS 12
#define TABLE_FIRST_BITS 14
#define TABLE_WINDOW 8

struct slot {
    uint64_t key;
    uint64_t value;
};

struct address_table {
    struct slot *levels[TABLE_LEVELS];
};

static inline uint64_t mix(uint64_t value)
{
    return value * 0x9e3779b97f4a7c15u;
}

struct slot *table_find_further(struct address_table *table, uint64_t key);

/* The key's slot, or NULL. Most keys stand where they are looked for first. */
static inline struct slot *table_find(struct address_table *table, uint64_t key)
{
    struct slot *slots = __atomic_load_n(&table->levels[0], __ATOMIC_ACQUIRE);
    if (likely(slots != NULL)) {
        struct slot *slot = &slots[mix(key) >> (64 - TABLE_FIRST_BITS)];
        if (likely(__atomic_load_n(&slot->key, __ATOMIC_ACQUIRE) == key))
            return slot;
    }
    return table_find_further(table, key);
}

/* Slow: the key's slot, made if need be; NULL if memory was refused. */
struct slot *table_place(struct address_table *table, uint64_t key);

/* --- The process -------------------------------------------------------------------------------------- */

enum process_state { PROCESS_NEW = 0, PROCESS_RECORDED = 1, PROCESS_OFF = 2 };

/* Is zero in a forked child, so that no child writes into its parent's files; the handlers of a fork fill it anew. */
struct process {
    int state;
    int slow_lock;
    int visitors; /* threads that visit all modules, see visit_begin */
    uint64_t pid, image;
    struct address_table locks;      /* address of a lock: its number, 0 after it was destroyed */
    struct address_table sites;      /* return address: its site or step to the caller, see sites.c */
    struct address_table callers;    /* sites of several callers: their struct callers */
    struct address_table threads;    /* pthread_t: number of the thread, plus one */
    struct address_table lock_pages; /* pages of memory: where locks are in them, see memory.c */
    struct address_table segments;   /* where a segment of shared memory was attached: its size */
    uint64_t generation; /* counts what ends known calls: locks made and destroyed, steps up the stack that vary */
    uint64_t next_lock, next_site, next_thread;
    char *extent;
    uint64_t extent_used, extent_bytes, extents;
    struct chunk *table_chunk;
    uint64_t table_room, table_chunks;
    uint64_t modules;
    char *thread_slab;
    uint64_t thread_slab_used;
    struct thread *free_threads;
    int full; /* there is no room for more events */
    int all;  /* nothing is to be left out */
    unsigned frames;
    struct process_record *record;
    struct losses_record *losses;
    struct end_record *end;
    uint64_t *inherited; /* as bits: the parent's locks that were looked at (inherited.c) */
    char directory[3000];
} __attribute__((aligned(4096))); /* on pages of its own, which the kernel empties in a forked child */

extern struct process process;

struct slow_state {
    struct thread *thread;
    int error;
    int cancel_state;
    int looks_away; /* whether ThreadSanitizer was told to look away */
    uint64_t signals;
};

/* Shuts out signal handlers, cancellation and other threads' slow parts; keeps errno. */
void slow_enter(struct slow_state *state);
void slow_leave(struct slow_state *state);

/* The rest of this section is called between slow_enter and slow_leave. */

/* Room in the files, or NULL. */
struct chunk *chunk_new(uint32_t magic, uint32_t thread, uint32_t order, uint32_t bytes);
/* A record of this kind and size in bytes, all zero after its head; it is in the file after record_done. NULL: no
 * room. */
void *record_new(enum record_kind kind, size_t bytes);
void record_done(void *record);
void *pages_new(size_t bytes);
void pages_drop(void *pages, size_t bytes);

/* --- Threads -------------------------------------------------------------------------------------------- */

#define HELD_LIMIT 64
#define DEPTH_LIMIT 1000000 /* goodlock takes no more acquires of a lock by a thread that holds it */

struct held {
    uint64_t word;     /* of the acquire that opened it */
    uint64_t identity; /* that word, mixed with the number of each segment that it was held at the start of */
    uint64_t context;  /* the key of all identities up to this one */
    uint64_t depth;
};

/* Where the number of held locks last became one more than this level's index. */
struct level {
    uint64_t *place;   /* of the acquire; NULL: a lock of a lower level had an event since */
    uint64_t news;     /* the thread's news before the acquire */
    uint64_t has_past; /* whether its past, see below, began since */
};

/* A moment just after a release. */
struct moment {
    uint64_t *place; /* of the word that comes next; NULL: there is none */
    uint64_t state;  /* what the thread held, see held_state */
};

/* Moments at which the thread held as many locks as now, with no fewer and no news since. */
struct past {
    uint64_t news;
    struct moment first;
    struct moment later;         /* moves on, each time twice as far */
    uint64_t releases, distance; /* releases since it moved, and after how many it moves again */
};

/* The return addresses further up the stack that tell a site: each lies so far above the one before it. Is never
 * changed. */
struct caller {
    uintptr_t address;
    uint64_t step;
};

struct callers {
    size_t count;
    uint64_t distance; /* up to the last one, where a frame may have another size at each call; else 0 */
    struct caller further[];
};

/* What is known of a call of a lock function: its site and lock, as parts of a word. */
struct known_call {
    uint64_t address; /* of the lock; 0: nothing is known */
    uint64_t return_address;
    uint64_t word;
    uint64_t generation;
    const struct callers *callers; /* NULL: the return address alone tells the site */
};

#define KNOWN_CALL_BITS 9

#define KEYS_FIRST 256u
#define KEYS_LIMIT (1u << 22)

struct thread {
    struct chunk *chunk; /* NULL: not ready */
    uint64_t news;       /* counts what was not known in this segment, forks, joins and chunks */
    uint64_t segments;   /* counts forks, joins, and forks that failed */
    uint64_t *keys;      /* the known acquires of this segment, see key_of */
    uint32_t key_mask, key_count;
    uint32_t changing; /* a table of this thread's is being changed: a signal handler leaves it alone */
    uint32_t inside;   /* how many changes of words and held locks are at work: more than one in a signal handler */
    union {
        struct {
            uint32_t held_count, held_adds; /* how many locks are held, and how often one was added */
        };
        uint64_t held_now; /* both of them */
    };
    uint32_t renews; /* a segment ended amid a change, see segment_end */
    struct thread_record *record;
    uint32_t number;
    uint32_t exit_rounds;
    uint32_t holds;                 /* how often it was held back in vain (confirm.c) */
    struct wait *wait;              /* where it tells what it waits for; NULL: nowhere yet (confirm.c) */
    uintptr_t stack_from, stack_to; /* its own stack lies between these, with its thread-locals; 0, 0: not known */
    struct thread *next_free;
    uint64_t sink; /* takes what there is no room for */
    struct held held[HELD_LIMIT];
    struct level levels[HELD_LIMIT];
    struct past pasts[HELD_LIMIT];
    struct known_call known_calls[1 << KNOWN_CALL_BITS];
    uint64_t first_keys[KEYS_FIRST];
};

/* How much of the thread's own stack lies above this place in it. Of a place elsewhere none, as on a stack that the
 * program made for a coroutine or for signals: nobody knows where that ends. */
static inline uint64_t stack_above(const struct thread *thread, uintptr_t place)
{
    return place >= thread->stack_from && place < thread->stack_to ? thread->stack_to - place : 0;
}

/* Stands for a thread that isn't ready, or is in a slow part: it has no chunk. */
extern struct thread thread_none;

extern __thread struct thread *current_thread;

/* The present thread made ready to record; NULL if its calls aren't recorded. */
struct thread *thread_enter(void);

static inline struct thread *recording_thread(void)
{
    struct thread *thread = current_thread;
    if (unlikely(!thread)) /* the program's ifuncs are resolved, and thread-locals are all zero */
        return NULL;
    if (likely(thread->chunk != NULL))
        return thread;
    return thread_enter();
}

/* --- Words of events ------------------------------------------------------------------------------------ */

/* `used` of a chunk, and how much a thread holds, are changed by the thread alone, but a signal handler may come
 * between any two instructions. These two are one instruction each. */
static inline uint64_t used_take(uint64_t *used)
{
#ifdef __x86_64__
    uint64_t one = 1;
    __asm__ volatile("xaddq %0, %1" : "+r"(one), "+m"(*used) : : "memory", "cc");
    return one;
#else
    return __atomic_fetch_add(used, 1, __ATOMIC_RELAXED);
#endif
}

/* Whether it was `from`, and is `to` now. */
static inline int is_set(uint64_t *value, uint64_t from, uint64_t to)
{
    uint64_t found = from;
#ifdef __x86_64__
    __asm__ volatile("cmpxchgq %2, %1" : "+a"(found), "+m"(*value) : "r"(to) : "memory", "cc");
#else
    __atomic_compare_exchange_n(value, &found, to, 0, __ATOMIC_RELAXED, __ATOMIC_RELAXED);
#endif
    return found == from;
}

static inline uint64_t event_word(enum event_kind kind, uint32_t site, uint32_t object)
{
    return (uint64_t)kind | (uint64_t)site << SITE_SHIFT | (uint64_t)object << OBJECT_SHIFT;
}

/* How many words a chunk holds. The chunk itself tells it: a signal handler that fills the thread's chunk puts another,
 * larger one in its place, while the call that it interrupted still has the full one in hand. */
static inline uint64_t chunk_room(const struct chunk *chunk)
{
    return (chunk->bytes - sizeof *chunk) / 8;
}

/* Stores a word where this chunk is full. */
uint64_t *word_store_slow(struct thread *thread, struct chunk *full, uint64_t word);

static inline uint64_t *word_store(struct thread *thread, uint64_t word)
{
    struct chunk *chunk = thread->chunk;
    uint64_t place = used_take(&chunk->used);
    if (unlikely(place >= chunk_room(chunk)))
        return word_store_slow(thread, chunk, word);
    chunk->words[place] = word;
    return &chunk->words[place];
}

/* Takes a stored word back: its call failed. Words that a signal handler stored behind it stay. Whether there are none.
 */
static inline int word_take_back(struct thread *thread, uint64_t *place)
{
    struct chunk *chunk = thread->chunk;
    *place = 0;
    if (place < chunk->words || place >= chunk->words + chunk_room(chunk))
        return 0;
    uint64_t index = (uint64_t)(place - chunk->words);
    return is_set(&chunk->used, index + 1, index);
}

/* The words that a thread's chunk has at a moment. */
struct stored {
    struct chunk *chunk;
    uint64_t used;
};

/* Is asked before it is looked at what may be left out: so what a signal handler stores after the look lies behind
 * these words, and stays, and what it stored before the look is in what is looked at, as news. */
static inline struct stored stored_now(const struct thread *thread)
{
    struct stored stored = {__atomic_load_n(&thread->chunk, __ATOMIC_RELAXED), 0};
    stored.used = __atomic_load_n(&stored.chunk->used, __ATOMIC_RELAXED);
    __atomic_signal_fence(__ATOMIC_SEQ_CST);
    return stored;
}

static inline int is_stored(struct stored stored, const uint64_t *place)
{
    return place >= stored.chunk->words && place < stored.chunk->words + stored.used;
}

/* Zeroes the words from behind the first one on, the last one first. The chunk may have been found full. */
void words_zero_further(struct stored stored, uint64_t first);

/* Takes these words away, from `start` on. Zero first: should the process be killed in between, zeros stand for no
 * events. The last word first, and then the count of what was left out: so a reader of the running process finds a list
 * that was there once, or another count (convert/live.c). Where a signal handler has stored words behind them, zeros
 * stay in between. */
static inline void words_leave_out(struct thread *thread, struct stored stored, uint64_t *start)
{
    uint64_t first = (uint64_t)(start - stored.chunk->words);
    if (unlikely(stored.used - first > 1))
        words_zero_further(stored, first);
    *(volatile uint64_t *)start = 0;
    is_set(&stored.chunk->used, stored.used, first);
    thread->record->left_out += stored.used - first;
}

static inline unsigned word_kind(uint64_t word)
{
    return word & ((1u << SITE_SHIFT) - 1);
}

static inline uint32_t word_object(uint64_t word)
{
    return (uint32_t)(word >> OBJECT_SHIFT);
}

/* --- What is known already --------------------------------------------------------------------------------- */

/*
 * An acquire tells goodlock something new only if it is the first one in its segment (between forks and joins of its
 * thread) of this lock at this place while these locks are held, each acquired at its place. A key stands for all that;
 * the thread keeps the keys of its segment. When the thread holds as many locks again as before an acquire, all since
 * then is left out, if there was no news and no event of a lock that was held before.
 *
 * A thread that never lets go of all (hand over hand, a lock of two) has events of such locks for ever. So all since a
 * moment is left out, too, if the thread holds again what it held then: the same locks, of acquires at the same places
 * in the same order, of the same segments and as deep; and if there was no news since. This loses no edge, as each
 * acquire among it that makes edges has a key, and the first one of that key was news: it stays, and so does all in
 * front of it, in which the held locks were acquired. The first of equal edges is one of news, as all that makes an
 * edge, and its places, is in the key; so the samples stay, and what stays keeps its order. The list is lawful: what is
 * behind the gap finds the thread as it was in front of it. Forks, joins and strays count as news, and so are never
 * among what is left out.
 *
 * Of the moments at each number of held locks two are remembered (locks.c): the first one since the number was less,
 * since the last news or the chunk's begin; and one that moves on. What was acquired while fewer were held would be
 * left out with its level. A thread that comes back to the first moment leaves no more than one way around; one
 * that doesn't, as it walks in another ring now, comes back to the moving one as soon as that moves no sooner than
 * after a whole round. Nothing of this is looked at where the last lock is released, as most are.
 *
 * A signal handler may come while a word is stored, and what is held changed, of the call that it interrupts: between
 * these the two don't fit. There it looks for no moments, but what it does itself from its first acquire to its last
 * release is left out if all of that is known: then it counts as done before the change, or after it. What isn't known
 * stays, and no key of it is put down: the words in front of it may say that other locks are held than the key does,
 * and the first acquire of a key has to be in the list with just these.
 */
static inline uint64_t key_of(uint64_t context, uint64_t word)
{
    uint64_t key = context + word;
    key = (key ^ key >> 32) * 0xd6e8feb86659fd93u;
    key = (key ^ key >> 32) * 0xd6e8feb86659fd93u;
    return (key ^ key >> 32) | 2; /* never 0 or 1 */
}

/* A key that was taken away. */
#define KEY_GONE 1

/* Between these two the words and what is held don't fit, see above. */
static inline uint32_t change_begin(struct thread *thread)
{
    uint32_t outside = thread->inside;
    thread->inside = outside + 1;
    __atomic_signal_fence(__ATOMIC_SEQ_CST);
    return outside;
}

static inline void change_end(struct thread *thread, uint32_t outside)
{
    __atomic_signal_fence(__ATOMIC_SEQ_CST);
    thread->inside = outside;
}

/* Within a change: whether it is that of a signal handler that came amid another one. */
static inline int is_amid_change(const struct thread *thread)
{
    return thread->inside > 1;
}

/* Within a change: what the thread has stored so far won't be left out any more. Amid another change this isn't told
 * yet, as that one may be leaving words out. */
static inline void words_keep(struct thread *thread)
{
    struct chunk *chunk = thread->chunk;
    if (!is_amid_change(thread))
        __atomic_store_n(&chunk->kept, chunk->used, __ATOMIC_RELEASE);
}

/* News: the locks that are held now were acquired before it, and so all these words stay. */
static inline void news_add(struct thread *thread)
{
    thread->news++;
    words_keep(thread);
}

/* Whether it isn't among the keys of this segment; it is afterwards. Where nothing is to be left out, all is news. */
int key_is_news_further(struct thread *thread, uint64_t key);

static inline int key_is_news(struct thread *thread, uint64_t key)
{
    if (likely(thread->keys[key >> 8 & thread->key_mask] == key))
        return 0;
    return key_is_news_further(thread, key);
}

/* A segment that is over, unless the fork that ended it fails. */
struct segment {
    uint64_t news, number;
    uint64_t *keys; /* NULL: it ended amid a change */
    uint32_t key_mask, key_count, held_count;
    uint64_t identities[HELD_LIMIT];
    uint64_t first_keys[KEYS_FIRST];
};

/* Within a change: a fork or join. What comes after is another segment. The one before is dropped then, or, in a slow
 * part, goes on. A signal handler's, amid a change that may be looking into the keys or moving what is held, empties
 * the keys where they are and leaves what is held alone: nothing is known until a change comes that is amid no other
 * one, and renews it all. */
void segment_end(struct thread *thread, struct segment *before);
void segment_drop(struct thread *thread, const struct segment *before);
void segment_go_on(struct thread *thread, const struct segment *before);

/* --- Locks ---------------------------------------------------------------------------------------------- */

/* The number of locks whose calls aren't recorded: those by which the unwinder of the compiler's library starts. */
#define LOCK_IGNORED UINT32_MAX

/* Slow inside: a number for a lock that is made here, or that is met for the first time. */
uint32_t lock_number_new(struct thread *thread, const void *address, enum lock_class class, enum lock_origin origin,
                         uint32_t site);

static inline uint32_t lock_number(struct thread *thread, const void *address, enum lock_class class)
{
    struct slot *slot = table_find(&process.locks, (uint64_t)(uintptr_t)address);
    if (likely(slot != NULL)) {
        uint64_t number = __atomic_load_n(&slot->value, __ATOMIC_ACQUIRE);
        if (likely(number != 0))
            return (uint32_t)number;
    }
    return lock_number_new(thread, address, class, LOCK_FOUND, 0);
}

/* Where locks are in memory (memory.c). */
void memory_note(uintptr_t address);
void memory_forget(uintptr_t address);

/* Slow inside: the lock was taken though a thread had ended that held it. */
void lock_owner_died(const void *address);

static inline void lock_forget(const void *address)
{
    memory_forget((uintptr_t)address);
    struct slot *slot = table_find(&process.locks, (uint64_t)(uintptr_t)address);
    if (slot)
        __atomic_store_n(&slot->value, 0, __ATOMIC_RELEASE);
    __atomic_fetch_add(&process.generation, 1, __ATOMIC_RELEASE);
}

/* --- Sites ---------------------------------------------------------------------------------------------- */

/* A value in the table of sites is either SITE_PLAIN + the site's number, or, for a call inside a wrapper of the C++
 * library, the distance from the stack pointer at the call to that at the call of the wrapper. */
#define SITE_PLAIN (1ull << 62)

/* `callers`: those by which the site is known again; NULL where it isn't. */
uint32_t site_slow(uintptr_t return_address, uintptr_t stack, const struct callers **callers);

/* `stack`: the stack pointer just before the call pushed `return_address`. */
static inline uint32_t site_number(uintptr_t return_address, uintptr_t stack)
{
    const struct callers *callers;
    if (unlikely(process.frames > 1))
        return site_slow(return_address, stack, &callers);
    struct slot *slot = table_find(&process.sites, return_address);
    if (likely(slot && (slot->value & SITE_PLAIN)))
        return (uint32_t)slot->value;
    return site_slow(return_address, stack, &callers);
}

/* Whether the call has these callers. None is looked for beyond the end of the stack. */
static inline int has_callers(const struct thread *thread, const struct callers *callers, uintptr_t stack)
{
    if (callers->distance > 0 && callers->distance > stack_above(thread, stack))
        return 0;
    for (size_t i = 0; i < callers->count; i++) {
        stack += callers->further[i].step;
        if (((uintptr_t *)stack)[-1] != callers->further[i].address)
            return 0;
    }
    return 1;
}

#define CALLER (uintptr_t) __builtin_return_address(0), (uintptr_t)__builtin_dwarf_cfa()
#define CALLER_SITE() site_number(CALLER)

/* In a forked child: before the first call with a lock that its parent had. */
void inherited_check(struct thread *thread, const void *address, enum lock_class class);

uint64_t call_word_slow(struct thread *thread, const void *address, enum lock_class class, uintptr_t return_address,
                        uintptr_t stack);

static inline uint64_t known_call_place(uint64_t lock, uintptr_t return_address)
{
    return mix(lock + return_address) >> (64 - KNOWN_CALL_BITS);
}

static inline int known_call_is(const struct thread *thread, const struct known_call *known, uint64_t lock,
                                uintptr_t return_address, uintptr_t stack, uint64_t generation)
{
    return known->address == lock && known->return_address == return_address && known->generation == generation &&
           (likely(!known->callers) || has_callers(thread, known->callers, stack));
}

/* Site and lock of a call, as parts of a word. A signal handler's call may take the place between any two of these
 * reads: the word is that of the call only if it is the same before and after the others. */
static inline __attribute__((always_inline)) uint64_t
call_word(struct thread *thread, const void *address, enum lock_class class, uintptr_t return_address, uintptr_t stack)
{
    uint64_t lock = (uint64_t)(uintptr_t)address;
    struct known_call *known = &thread->known_calls[known_call_place(lock, return_address)];
    uint64_t generation = __atomic_load_n(&process.generation, __ATOMIC_ACQUIRE);
    uint64_t word = known->word;
    __atomic_signal_fence(__ATOMIC_SEQ_CST);
    if (likely(known_call_is(thread, known, lock, return_address, stack, generation))) {
        __atomic_signal_fence(__ATOMIC_SEQ_CST);
        if (likely(known->word == word))
            return word;
    }
    if (unlikely(process.record->first_lock > 1))
        inherited_check(thread, address, class);
    return call_word_slow(thread, address, class, return_address, stack);
}

/* --- Acquires and releases ------------------------------------------------------------------------------ */

static inline struct held *held_find(struct thread *thread, uint32_t lock)
{
    for (struct held *held = thread->held + thread->held_count; held-- > thread->held;)
        if (word_object(held->word) == lock)
            return held;
    return NULL;
}

static inline int is_shared(uint64_t word)
{
    return word_kind(word) == EVENT_SHARED_ACQUIRE || word_kind(word) == EVENT_TRY_SHARED_ACQUIRE;
}

/* Acquires of a lock that is held already, or where too many are held. */
uint64_t *acquire_write_further(struct thread *thread, uint64_t word, struct held *held, int plain);

/* These as one word, as they lie in memory. */
static inline uint64_t held_now_of(uint32_t count, uint32_t adds)
{
    const uint32_t both[] = {count, adds};
    uint64_t now;
    memcpy(&now, both, sizeof now);
    return now;
}

/* Adds a held lock behind so many, unless a signal handler has put a lock of its own there meanwhile; whether it is
 * added. That lock is over when the handler ends, but counts as added: so the next handler never finds it there. */
static inline int held_add(struct thread *thread, uint32_t count, uint64_t word, uint64_t context)
{
    uint32_t adds = __atomic_load_n(&thread->held_adds, __ATOMIC_RELAXED);
    __atomic_signal_fence(__ATOMIC_SEQ_CST);
    thread->held[count] = (struct held){word, word, context, 1};
    return is_set(&thread->held_now, held_now_of(count, adds), held_now_of(count + 1, adds + 1));
}

/* Writes an acquire; gives its place. `call` has site and lock, `kind` is one of the four acquires; `plain`: a thread
 * that holds the lock would wait for itself. The lock counts as held before the word is stored, so that a signal
 * handler's events lie between its acquire and release. */
static inline __attribute__((always_inline)) uint64_t *acquire_add(struct thread *thread, enum event_kind kind,
                                                                   uint64_t call, int plain)
{
    uint64_t word = call | kind, context;
    uint32_t count;
    do {
        count = __atomic_load_n(&thread->held_count, __ATOMIC_RELAXED);
        context = 0;
        if (count > 0) {
            struct held *held = held_find(thread, word_object(word));
            if (unlikely(held != NULL || count == HELD_LIMIT))
                return acquire_write_further(thread, word, held, plain);
            context = thread->held[count - 1].context;
        }
        context = key_of(context, word);
    } while (unlikely(!held_add(thread, count, word, context)));
    thread->levels[count] = (struct level){NULL, thread->news, 0};
    if (key_is_news(thread, context))
        news_add(thread);
    return thread->levels[count].place = word_store(thread, word);
}

static inline __attribute__((always_inline)) uint64_t *acquire_write(struct thread *thread, enum event_kind kind,
                                                                     uint64_t call, int plain)
{
    uint32_t outside = change_begin(thread);
    uint64_t *place = acquire_add(thread, kind, call, plain);
    change_end(thread, outside);
    return place;
}

/* Takes the acquire at this place back: its call failed. */
void acquire_take_back(struct thread *thread, uint64_t *place);

/* Releases of other locks than the last one held, or where nothing is left out. */
void release_write_further(struct thread *thread, uint64_t call);

/* Writes a release, after it was done; or leaves it out, with all since the thread last held as many locks as
 * afterwards. */
static inline __attribute__((always_inline)) void release_write(struct thread *thread, uint64_t call)
{
    uint32_t outside = change_begin(thread);
    struct stored stored = stored_now(thread);
    uint32_t last = thread->held_count - 1;
    uint64_t *start;
    if (likely(thread->held_count > 0 && word_object(thread->held[last].word) == word_object(call) &&
               thread->held[last].depth == 1 && thread->levels[last].news == thread->news &&
               is_stored(stored, start = __atomic_load_n(&thread->levels[last].place, __ATOMIC_RELAXED)))) {
        words_leave_out(thread, stored, start);
        thread->record->left_out++;
        thread->held_count = last;
    } else {
        release_write_further(thread, call);
    }
    change_end(thread, outside);
}

/* What ends while the thread holds it is held no longer, as nobody will wait for it any more: the lock of this number,
 * or the one at this address, which another one follows. */
void held_let_go(struct thread *thread, uint32_t lock);
void lock_let_go(struct thread *thread, const void *address);

/* Counts what there was no room for. */
static inline void count_loss(uint64_t *losses)
{
    __atomic_fetch_add(losses, 1, __ATOMIC_RELAXED);
}

/* Why there is no room: the errno of what was just refused, if it is the first. */
static inline void loss_begins(void)
{
    if (process.losses->reason == 0)
        process.losses->reason = (uint64_t)errno;
}

static inline void count_other(struct thread *thread)
{
    thread->record->others++;
}

#pragma GCC visibility pop

#endif
