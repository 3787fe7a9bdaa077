/* goodlock_names.h: numbers for the names of locks and of places, on the thread that comes upon them.
 *
 * goodlock_lock and goodlock_place (goodlock.h) number a name where the session is worked with: on the collecting
 * thread, or under a lock of yours. A table of names gives the number on any thread, at any time, while others ask it,
 * too: without a lock, and for what it knows already without memory and without a system call. The collecting thread
 * tells the session the names afterwards, so that the session's numbers are the table's.
 *
 *     goodlock_names locks = {0}, places = {0};                      // before the threads start
 *     goodlock_names_open(1000, &locks);                             // for at most 1,000 locks
 *     goodlock_names_open(1000, &places);
 *
 *     goodlock_names_at(&locks, &mutex, "savings", 7, &lock);        // any thread, at each pass
 *     goodlock_names_literal(&places, GOODLOCK_LINE, &place);
 *     goodlock_acquire(&lane, lock, place);
 *     pthread_mutex_lock(&mutex);
 *     ..
 *     goodlock_names_forget(&locks, &mutex);                         // where the mutex is destroyed
 *
 *     uint32_t told_locks = 0, told_places = 0;                      // the collecting thread, for each session
 *     goodlock_pull(&session, 1000, &pulled);
 *     goodlock_report_so_far(&session, GOODLOCK_FULL_MODE, 4, 1000, &report);
 *     goodlock_tell_locks(&session, &locks, &told_locks);            // before the text is made
 *     goodlock_tell_places(&session, &places, &told_places);
 *     goodlock_text(&session, &report, buffer, sizeof buffer, &needed);
 *
 * (Names are `const uint8_t *`: bytes of any kind.) library/examples/named.c is a whole program. All of this stands in
 * this file, for C (C99 and later) and C++ (C++11 and later), by gcc's and clang's __atomic functions; it links with
 * libgoodlock for the two goodlock_tell_.. alone.
 *
 * ---- Which number a name has
 *
 * Numbers are 0, 1, 2, .. without a gap, in the order in which the names were first mentioned: two threads that mention
 * one new name at once get the same number, and no number is given twice. That order may be another one in each run,
 * and numbers order the edges of a report: a report that is the same for each run of the same events is made by
 * goodlock_report_by_mention, or of findings goodlock_findings_by_mention, where the names are all different.
 *
 * A table serves the locks of a session, or its places; one session after the other, too, which then have the same
 * numbers. Nobody else numbers names of that kind in the session.
 *
 * Locks often have one name: then the later numbers are told with "#2", "#3", .. behind it, in the order of their
 * numbers. Where that is a name of the table already, the next one is taken. So two runs that mention locks (or
 * places) of one name in another order may swap "shelf" and "shelf#2", in a report by mention, too: locks that are to
 * be told apart in the same way by each run have names of their own.
 *
 * ---- What the caller promises
 *
 * What goodlock.h says of handles and pointers, but that many threads may be in calls on one table at once (a build
 * with -DGOODLOCK_DEBUG checks most of it: goodlock_names_debug.h). Two calls are made alone: goodlock_names_open comes
 * before all others, and goodlock_names_free after them, which something orders: the start of a thread, a join. For one
 * address, goodlock_names_forget comes after all mentions of the lock that was there and before all of the next one:
 * whoever destroys a mutex sees to that already. The calls that tell are made by one thread at a time for a table.
 *
 * ---- What it costs
 *
 * A mention of what is known takes a few nanoseconds by the address of a lock or of a literal, however long the name
 * is: less than half of what a mutex takes that nobody else wants, locked and unlocked. By its bytes it takes a step
 * for each eight of them, and one or two such mutexes for 18 (bench/library.sh measures it). It is wait-free: some
 * reads, and nothing is written that another thread reads, so that no thread slows another.
 *
 * A first mention takes memory (malloc, once or twice) and some compare-and-swaps. It is lock-free: others that are new
 * may make it go round once more, but a thread that is stopped anywhere in a call, or is gone, keeps nobody waiting. It
 * waits for nobody, but for what malloc waits for.
 *
 * A table takes its memory when it is opened: 88 to 168 bytes for each name that it is made for, which most systems
 * give as they are touched. It has a fixed size and never moves. The hash has no seed: names that somebody chooses to
 * collide cost a look at each. A name that was told for an address which another thread gave a number first, by another
 * name, keeps its slot: where threads race so again and again, a table answers GOODLOCK_NAMES before it is full. */
#ifndef GOODLOCK_NAMES_H
#define GOODLOCK_NAMES_H

#include "goodlock.h"

#include <stdlib.h>
#include <string.h>

/* What a test of this file does before each step that other threads can see. Nothing in programs. */
#ifndef GOODLOCK_NAMES_STEP
#define GOODLOCK_NAMES_STEP() ((void)0)
#endif

/* The line of the source as a literal: "bank.c:10". */
#define GOODLOCK_LINE __FILE__ ":" GOODLOCK_NAMES_TEXT_(__LINE__)

/* ---- What ends in an underscore is this file's alone, up to the calls. */

/* A cast, one that takes the bytes for another type's, and a null pointer, as C and C++ each have them. */
#ifdef __cplusplus
#define GOODLOCK_NAMES_AS_(type, value) static_cast<type>(value)
#define GOODLOCK_NAMES_POINTER_AS_(type, value) reinterpret_cast<type>(value)
#define GOODLOCK_NAMES_NULL_ nullptr
#else
#define GOODLOCK_NAMES_AS_(type, value) ((type)(value))
#define GOODLOCK_NAMES_POINTER_AS_(type, value) ((type)(value))
#define GOODLOCK_NAMES_NULL_ NULL
#endif

#define GOODLOCK_NAMES_TEXT_(number) GOODLOCK_NAMES_WORD_(number)
#define GOODLOCK_NAMES_WORD_(word) #word

#define GOODLOCK_NAMES_LOAD_(at) (GOODLOCK_NAMES_STEP(), __atomic_load_n((at), __ATOMIC_ACQUIRE))
#define GOODLOCK_NAMES_STORE_(at, value) (GOODLOCK_NAMES_STEP(), __atomic_store_n((at), (value), __ATOMIC_RELEASE))
/* Whether *at was *old and is the value now; else *old is what it was. */
#define GOODLOCK_NAMES_SWAP_(at, old, value) \
    (GOODLOCK_NAMES_STEP(), __atomic_compare_exchange_n((at), (old), (value), 0, __ATOMIC_ACQ_REL, __ATOMIC_ACQUIRE))

enum {
    GOODLOCK_NAMES_MOST_ = 1 << 24,
    GOODLOCK_NAMES_PROBES_ = 16, /* for a literal's address; then it goes by its bytes */
    GOODLOCK_NAMES_SUFFIX_ = 11  /* bytes of the longest suffix, "#4294967295" */
};

/* What has no number yet. */
#define GOODLOCK_NAMES_NONE_ UINT32_MAX

/* A name, or the lock at an address. It is written before others see it, but for the last three. */
struct goodlock_names_entry_ {
    struct goodlock_names_entry_ *name;  /* whose bytes its name is: a name's own, behind it, with room for a suffix */
    struct goodlock_names_entry_ *older; /* all entries of the table hang together, to be freed */
    uint64_t hash;
    size_t length;
    uint32_t number; /* atomic, written once */
    uint32_t suffix; /* of the telling thread: 1: it was told by its name, 2: with "#2", ..; 0: not yet */
    uint32_t uses;   /* of the telling thread, for a name: the greatest suffix that it was told with */
};

/* Of whom an address is. It is atomic: the address once, the entry again where the address was forgotten. */
struct goodlock_names_slot_ {
    uintptr_t address;
    struct goodlock_names_entry_ *entry;
};

/* An address or a name has the first slot from its hash on that was free when it came. No slot is free again, so that
 * whoever looks for it meets it before a free one, and two that claim a slot for it at once meet there. There are twice
 * as many slots as there may be numbers. */
struct goodlock_names_table_ {
    uint32_t most;                                    /* how many numbers there may be */
    uint32_t mask;                                    /* how many slots there are, less 1 */
    uint32_t shift;                                   /* from a hash to its slot */
    uint32_t next;                                    /* atomic: those below are given, and their entries know it */
    struct goodlock_names_entry_ **names, **numbered; /* atomic: slots of the names; entries by their numbers */
    struct goodlock_names_slot_ *addresses, *literals;
    struct goodlock_names_entry_ *made; /* atomic: the entry that was made last */
};

#define GOODLOCK_NAMES_MIX_ UINT64_C(0x9E3779B97F4A7C15)

static inline uint64_t goodlock_names_hash_(const uint8_t *name, size_t length)
{
    uint64_t hash = length * GOODLOCK_NAMES_MIX_, word;
    for (; length >= sizeof word; name += sizeof word, length -= sizeof word) {
        memcpy(&word, name, sizeof word);
        hash = (hash ^ word) * GOODLOCK_NAMES_MIX_;
        hash ^= hash >> 32;
    }
    for (word = 0; length > 0; length--)
        word = word << 8 | *name++;
    hash = (hash ^ word) * GOODLOCK_NAMES_MIX_;
    hash ^= hash >> 29;
    return hash * GOODLOCK_NAMES_MIX_;
}

static inline uint8_t *goodlock_names_bytes_(struct goodlock_names_entry_ *name)
{
    return GOODLOCK_NAMES_POINTER_AS_(uint8_t *, name + 1);
}

/* Hangs an entry that others can see to the others. */
static inline void goodlock_names_keep_(struct goodlock_names_table_ *table, struct goodlock_names_entry_ *entry)
{
    entry->older = GOODLOCK_NAMES_LOAD_(&table->made);
    while (!GOODLOCK_NAMES_SWAP_(&table->made, &entry->older, entry))
        ;
}

/* The number of an entry, the next one where it has none: OK, NAMES.
 *
 * A number is given by the swap that puts an entry at its place in `numbered`. `next` goes on only once that place is
 * taken and its entry knows the number, whoever told it. So an entry that doesn't know a number, after `next` was read,
 * is at no place below that; and it is at no place above while that one is free, as nobody has read a greater `next` by
 * then. So a swap succeeds only for an entry that has no place, and no entry has two. */
static inline uint32_t goodlock_names_number_(struct goodlock_names_table_ *table, struct goodlock_names_entry_ *entry,
                                              uint32_t *number)
{
    for (;;) {
        uint32_t next = GOODLOCK_NAMES_LOAD_(&table->next); /* before the entry's number */
        const uint32_t own = GOODLOCK_NAMES_LOAD_(&entry->number);
        struct goodlock_names_entry_ *there = GOODLOCK_NAMES_NULL_;
        if (own != GOODLOCK_NAMES_NONE_) {
            *number = own;
            return GOODLOCK_OK;
        }
        if (next == table->most)
            return GOODLOCK_NAMES;
        if (GOODLOCK_NAMES_SWAP_(&table->numbered[next], &there, entry))
            there = entry;
        GOODLOCK_NAMES_STORE_(&there->number, next);
        (void)GOODLOCK_NAMES_SWAP_(&table->next, &next, next + 1);
    }
}

/* The same of an entry that mostly has one. */
static inline uint32_t goodlock_names_numbered_(struct goodlock_names_table_ *table,
                                                struct goodlock_names_entry_ *entry, uint32_t *number)
{
    const uint32_t own = GOODLOCK_NAMES_LOAD_(&entry->number);
    if (own == GOODLOCK_NAMES_NONE_)
        return goodlock_names_number_(table, entry, number);
    *number = own;
    return GOODLOCK_OK;
}

static inline bool goodlock_names_is_(struct goodlock_names_entry_ *entry, uint64_t hash, const uint8_t *name,
                                      size_t length)
{
    return entry->hash == hash && entry->length == length &&
           (length == 0 || memcmp(goodlock_names_bytes_(entry), name, length) == 0);
}

/* An entry that nobody sees yet, with a copy of the name. */
static inline struct goodlock_names_entry_ *goodlock_names_new_(const uint8_t *name, size_t length, uint64_t hash)
{
    struct goodlock_names_entry_ *const own =
        GOODLOCK_NAMES_AS_(struct goodlock_names_entry_ *, malloc(sizeof *own + length + GOODLOCK_NAMES_SUFFIX_));
    if (!own)
        return GOODLOCK_NAMES_NULL_;
    memset(own, 0, sizeof *own);
    own->name = own;
    own->hash = hash;
    own->length = length;
    own->number = GOODLOCK_NAMES_NONE_;
    if (length > 0)
        memcpy(goodlock_names_bytes_(own), name, length);
    return own;
}

/* The entry of a name, a new one for a new name: OK, NAMES, MEMORY. */
static inline uint32_t goodlock_names_named_(struct goodlock_names_table_ *table, const uint8_t *name, size_t length,
                                             struct goodlock_names_entry_ **entry)
{
    const uint64_t hash = goodlock_names_hash_(name, length);
    struct goodlock_names_entry_ *own = GOODLOCK_NAMES_NULL_;
    uint32_t at = GOODLOCK_NAMES_AS_(uint32_t, hash >> table->shift), left;
    for (left = table->mask + 1; left > 0; left--, at = (at + 1) & table->mask) {
        struct goodlock_names_entry_ *found = GOODLOCK_NAMES_LOAD_(&table->names[at]);
        if (!found) {
            if (!own && GOODLOCK_NAMES_LOAD_(&table->next) == table->most) {
                found = GOODLOCK_NAMES_LOAD_(&table->names[at]); /* it may be what filled the table */
                if (!found)
                    return GOODLOCK_NAMES;
            }
        }
        if (!found) {
            if (!own)
                own = goodlock_names_new_(name, length, hash);
            if (!own)
                return GOODLOCK_MEMORY;
            if (GOODLOCK_NAMES_SWAP_(&table->names[at], &found, own)) {
                goodlock_names_keep_(table, own);
                *entry = own;
                return GOODLOCK_OK;
            }
        }
        if (goodlock_names_is_(found, hash, name, length)) {
            if (own)
                free(own);
            *entry = found;
            return GOODLOCK_OK;
        }
    }
    free(own);
    return GOODLOCK_NAMES;
}

/* The slot that this address has, or gets where it is claimed. NULL: it has none, or none is free in so many probes. */
static inline struct goodlock_names_slot_ *goodlock_names_slot_of_(const struct goodlock_names_table_ *table,
                                                                   struct goodlock_names_slot_ *slots,
                                                                   const void *address, uint32_t probes,
                                                                   bool is_claimed)
{
    const uintptr_t own = GOODLOCK_NAMES_POINTER_AS_(uintptr_t, address);
    uint32_t at = GOODLOCK_NAMES_AS_(uint32_t, (own * GOODLOCK_NAMES_MIX_) >> table->shift);
    for (; probes > 0; probes--, at = (at + 1) & table->mask) {
        uintptr_t found = GOODLOCK_NAMES_LOAD_(&slots[at].address);
        if (found == own)
            return &slots[at];
        if (found == 0) {
            if (!is_claimed)
                return GOODLOCK_NAMES_NULL_;
            if (GOODLOCK_NAMES_SWAP_(&slots[at].address, &found, own) || found == own)
                return &slots[at];
        }
    }
    return GOODLOCK_NAMES_NULL_;
}

/* The entry that the address has now, or NULL. */
static inline struct goodlock_names_entry_ *goodlock_names_known_(const struct goodlock_names_table_ *table,
                                                                  struct goodlock_names_slot_ *slots,
                                                                  const void *address, uint32_t probes)
{
    struct goodlock_names_slot_ *const slot = goodlock_names_slot_of_(table, slots, address, probes, false);
    return slot ? GOODLOCK_NAMES_LOAD_(&slot->entry) : GOODLOCK_NAMES_NULL_;
}

/* The entry of a lock at an address that had none: OK, NAMES, MEMORY. All memory is taken before the address has its
 * slot. */
static inline uint32_t goodlock_names_new_at_(struct goodlock_names_table_ *table, const void *address,
                                              const uint8_t *name, size_t length, struct goodlock_names_entry_ **entry)
{
    struct goodlock_names_entry_ *own;
    struct goodlock_names_slot_ *slot = GOODLOCK_NAMES_NULL_;
    uint32_t code;
    if (GOODLOCK_NAMES_LOAD_(&table->next) == table->most)
        return GOODLOCK_NAMES;
    own = GOODLOCK_NAMES_AS_(struct goodlock_names_entry_ *, calloc(1, sizeof *own));
    if (!own)
        return GOODLOCK_MEMORY;
    own->number = GOODLOCK_NAMES_NONE_;
    code = goodlock_names_named_(table, name, length, &own->name);
    if (code == GOODLOCK_OK) {
        slot = goodlock_names_slot_of_(table, table->addresses, address, table->mask + 1, true);
        code = slot ? GOODLOCK_OK : GOODLOCK_NAMES;
    }
    if (code == GOODLOCK_OK && GOODLOCK_NAMES_SWAP_(&slot->entry, entry, own)) {
        goodlock_names_keep_(table, own);
        *entry = own;
    } else {
        free(own);
    }
    return code;
}

/* A literal that isn't known by its address. The slot is a short cut: the same whoever writes it. */
static inline uint32_t goodlock_names_new_literal_(struct goodlock_names_table_ *table, const char *literal,
                                                   uint32_t *number)
{
    struct goodlock_names_entry_ *entry = GOODLOCK_NAMES_NULL_;
    struct goodlock_names_slot_ *slot;
    uint32_t code =
        goodlock_names_named_(table, GOODLOCK_NAMES_POINTER_AS_(const uint8_t *, literal), strlen(literal), &entry);
    if (code == GOODLOCK_OK)
        code = goodlock_names_numbered_(table, entry, number);
    if (code != GOODLOCK_OK)
        return code;
    slot = goodlock_names_slot_of_(table, table->literals, literal, GOODLOCK_NAMES_PROBES_, true);
    if (slot)
        GOODLOCK_NAMES_STORE_(&slot->entry, entry);
    return GOODLOCK_OK;
}

/* Writes the suffix of this number behind a name, and answers the length of both. */
static inline size_t goodlock_names_suffixed_(struct goodlock_names_entry_ *name, uint32_t suffix)
{
    uint8_t digits[GOODLOCK_NAMES_SUFFIX_], *at = goodlock_names_bytes_(name) + name->length;
    size_t count = 0;
    if (suffix == 1)
        return name->length;
    for (; suffix > 0; suffix /= 10)
        digits[count++] = GOODLOCK_NAMES_AS_(uint8_t, '0' + suffix % 10);
    *at++ = '#';
    while (count > 0)
        *at++ = digits[--count];
    return GOODLOCK_NAMES_AS_(size_t, at - goodlock_names_bytes_(name));
}

typedef uint32_t goodlock_names_call_(goodlock_session *, const uint8_t *, size_t, uint32_t *);

/* Tells one entry, which is to have this number. A name that the session has with a lower one is another entry's. */
static inline uint32_t goodlock_names_tell_one_(goodlock_session *session, struct goodlock_names_entry_ *entry,
                                                uint32_t right, goodlock_names_call_ *call)
{
    struct goodlock_names_entry_ *const name = entry->name;
    uint32_t suffix = entry->suffix > 0 ? entry->suffix : name->uses + 1;
    for (;; suffix++) {
        const size_t length = goodlock_names_suffixed_(name, suffix);
        uint32_t number = 0;
        const uint32_t code = call(session, goodlock_names_bytes_(name), length, &number);
        if (code != GOODLOCK_OK)
            return code;
        if (number > right)
            return GOODLOCK_MISUSE;
        if (number == right)
            break;
    }
    entry->suffix = suffix;
    if (name->uses < suffix)
        name->uses = suffix;
    return GOODLOCK_OK;
}

/* ---- The table: a handle of one pointer, all zero before it is opened and after it is freed. */

typedef struct goodlock_names {
    struct goodlock_names_table_ *at;
} goodlock_names;

/* Opens a table for at most so many numbers (1 to 16,777,216), and takes its memory. It is alone: before any other
   call on this table.
   OK: free it in the end. RANGE, MEMORY, MISUSE (*names isn't all zero): *names is as it was. */
static inline uint32_t goodlock_names_open(uint32_t most, goodlock_names *names)
{
    struct goodlock_names_table_ *table;
    uint32_t bits = 1;
    size_t slots, bytes;
    if (names->at)
        return GOODLOCK_MISUSE;
    if (most < 1 || most > GOODLOCK_NAMES_MOST_)
        return GOODLOCK_RANGE;
    while (UINT32_C(1) << bits < 2 * most)
        bits++;
    slots = GOODLOCK_NAMES_AS_(size_t, 1) << bits;
    bytes = slots * (sizeof *table->names + 2 * sizeof *table->addresses) + most * sizeof *table->numbered;
    table = GOODLOCK_NAMES_AS_(struct goodlock_names_table_ *, calloc(1, sizeof *table + bytes));
    if (!table)
        return GOODLOCK_MEMORY;
    table->addresses = GOODLOCK_NAMES_POINTER_AS_(struct goodlock_names_slot_ *, table + 1);
    table->literals = table->addresses + slots;
    table->names = GOODLOCK_NAMES_POINTER_AS_(struct goodlock_names_entry_ **, table->literals + slots);
    table->numbered = table->names + slots;
    table->most = most;
    table->mask = GOODLOCK_NAMES_AS_(uint32_t, slots) - 1;
    table->shift = 64 - bits;
    names->at = table;
    return GOODLOCK_OK;
}

/* Gives back what the table has; it is all zero then, and may be opened again. One that is all zero already stays so.
   It is alone: after all other calls on this table. Sessions that were told its names have copies of them. */
static inline void goodlock_names_free(goodlock_names *names)
{
    struct goodlock_names_table_ *const table = names->at;
    struct goodlock_names_entry_ *entry = table ? table->made : GOODLOCK_NAMES_NULL_;
    while (entry) {
        struct goodlock_names_entry_ *const older = entry->older;
        free(entry);
        entry = older;
    }
    free(table);
    names->at = GOODLOCK_NAMES_NULL_;
}

/* ---- Mentions. These calls are made on any thread, by many at once. What is known is known however full the table is.
   Unless OK, nothing was done that a later call could tell, and *number is UINT32_MAX, which is no table's number: an
   event may have it as its place.
   OK. NAMES: it is new, and as many names were mentioned as the table is for. MEMORY: it is new, and malloc refused;
   call again. MISUSE: the table isn't open. */

/* The number of the name with these bytes, which are copied at the first mention. It isn't one of the locks that are
   mentioned by an address, whatever name they were given. A step for each eight bytes of the name. */
static inline uint32_t goodlock_names_of(const goodlock_names *names, const uint8_t *name, size_t length,
                                         uint32_t *number)
{
    struct goodlock_names_entry_ *entry = GOODLOCK_NAMES_NULL_;
    uint32_t code;
    *number = GOODLOCK_NAMES_NONE_;
    if (!names->at)
        return GOODLOCK_MISUSE;
    code = goodlock_names_named_(names->at, name, length, &entry);
    return code == GOODLOCK_OK ? goodlock_names_numbered_(names->at, entry, number) : code;
}

/* The number of the lock at this address: a new one at its first mention, and at the first one after
   goodlock_names_forget. Each address is a lock of its own, also where two are given one name. The name is that of the
   first mention, and is copied then; later it isn't looked at. (MISUSE is also the answer of a null address.) */
static inline uint32_t goodlock_names_at(const goodlock_names *names, const void *address, const uint8_t *name,
                                         size_t length, uint32_t *number)
{
    struct goodlock_names_table_ *const table = names->at;
    struct goodlock_names_entry_ *entry;
    *number = GOODLOCK_NAMES_NONE_;
    if (!table || !address)
        return GOODLOCK_MISUSE;
    entry = goodlock_names_known_(table, table->addresses, address, table->mask + 1);
    if (!entry) {
        uint32_t code = goodlock_names_new_at_(table, address, name, length, &entry);
        if (code == GOODLOCK_NAMES) /* it may be what filled the table */
            entry = goodlock_names_known_(table, table->addresses, address, table->mask + 1);
        if (!entry)
            return code;
    }
    return goodlock_names_numbered_(table, entry, number);
}

/* The number of the name that this literal has: that of goodlock_names_of with its bytes up to its zero. They are read
   at the first mention of its address, and aren't read again: so they don't change while the table stands, and nothing
   else comes to stand there, as where a library is unloaded. GOODLOCK_LINE is one: the line of the source. (Where there
   are more literals than the table has names for, some are read each time.) */
static inline uint32_t goodlock_names_literal(const goodlock_names *names, const char *literal, uint32_t *number)
{
    struct goodlock_names_table_ *const table = names->at;
    struct goodlock_names_entry_ *entry;
    *number = GOODLOCK_NAMES_NONE_;
    if (!table || !literal)
        return GOODLOCK_MISUSE;
    entry = goodlock_names_known_(table, table->literals, literal, GOODLOCK_NAMES_PROBES_);
    return entry ? goodlock_names_numbered_(table, entry, number) : goodlock_names_new_literal_(table, literal, number);
}

/* The lock at this address is no more: the next one that is mentioned there is a new lock, with a number of its own.
   The number of the one that was there stays its own, and counts. Nothing where no lock is known there. It is made on
   any thread, between the last mention of the one and the first mention of the next. It never takes memory or waits. */
static inline void goodlock_names_forget(const goodlock_names *names, const void *address)
{
    struct goodlock_names_table_ *const table = names->at;
    struct goodlock_names_slot_ *slot;
    if (!table || !address)
        return;
    slot = goodlock_names_slot_of_(table, table->addresses, address, table->mask + 1, false);
    if (slot)
        GOODLOCK_NAMES_STORE_(&slot->entry, GOODLOCK_NAMES_AS_(struct goodlock_names_entry_ *, GOODLOCK_NAMES_NULL_));
}

/* How many numbers were given: 0 where the table isn't open. Any thread. */
static inline uint32_t goodlock_names_count(const goodlock_names *names)
{
    struct goodlock_names_table_ *const table = names->at;
    uint32_t count = table ? GOODLOCK_NAMES_LOAD_(&table->next) : 0;
    while (table && count < table->most && GOODLOCK_NAMES_LOAD_(&table->numbered[count]))
        count++;
    return count;
}

/* ---- The joining, on the collecting thread: a call on the session, and by one thread at a time for a table. */

static inline uint32_t goodlock_names_tell_(goodlock_session *session, const goodlock_names *names, uint32_t *told,
                                            goodlock_names_call_ *call)
{
    struct goodlock_names_table_ *const table = names->at;
    if (!table || *told > table->most)
        return GOODLOCK_MISUSE;
    for (; *told < table->most; ++*told) {
        struct goodlock_names_entry_ *const entry = GOODLOCK_NAMES_LOAD_(&table->numbered[*told]);
        uint32_t code;
        if (!entry)
            break;
        code = goodlock_names_tell_one_(session, entry, *told, call);
        if (code != GOODLOCK_OK)
            return code;
    }
    return GOODLOCK_OK;
}

/* Tells the session the locks of the table from number *told on, in the order of their numbers, by goodlock_lock. *told
   is 0 at the first call for a session, and how many are told after each: keep it for the next one. All that was pulled
   before the call has its names then; a report asks for them only when its text or its JSON is made.
   OK: the session's numbers are the table's. MEMORY: what *told says was told stands; call again. MISUSE: the session
   or the table isn't open, *told is too great, or a new name has another number in the session than in the table, as
   somebody else numbers locks there: its reports would tell wrong names from *told on. With nothing to tell the session
   isn't looked at. */
static inline uint32_t goodlock_tell_locks(goodlock_session *session, const goodlock_names *names, uint32_t *told)
{
    return goodlock_names_tell_(session, names, told, goodlock_lock);
}

/* The same for places, by goodlock_place. */
static inline uint32_t goodlock_tell_places(goodlock_session *session, const goodlock_names *names, uint32_t *told)
{
    return goodlock_names_tell_(session, names, told, goodlock_place);
}

#ifdef GOODLOCK_DEBUG /* the calls above check what their caller promised */
#include "goodlock_names_debug.h"
#endif

#endif
