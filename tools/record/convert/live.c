/*
 * Reads the events of processes that still run. live.py runs it:
 *
 *     goodlock_live copy COPY < REQUEST    copies all events into a file, each thread's as they were at one moment
 *     goodlock_live report    < REQUEST    makes reports of a copy's events, by libgoodlock
 *
 * Requests are as those of goodlock_lines (request.h). That of `copy`:
 *
 *     number of processes;   each: number of its extents, and the path of each as a text
 *
 * It answers, for each process: the number of chunks of tables, each: order, extent, offset of the chunk; the number of
 * chunks of events, each: thread, offset in the copy, number of words; a hash of the events that stay, which changes
 * with each that is news; the number of threads that wait for each other, circle after circle, each: thread, the word
 * of the acquire or join that waits, the thread that has the lock or is joined, whether that one has ended (2: it is a
 * thread of the parent, that held the lock at the fork), and two numbers that tell how far the thread is.
 * That of `report`:
 *
 *     number of files;   a text each: the path
 *     number of locks that turned out to be none;   each: its number
 *     for locks and places: number of texts;   each: its number, a text
 *     mode, most edges of a cycle, and most cycles or findings, as goodlock.h has them
 *     number of reports;   each: a text, the path of its file, the sum of the ways below, and as follows
 *     for threads: number of texts;   each: its number, a text
 *     number of chunks;  each: file, thread, offset of its words in the file, how many
 *
 * It answers, for each report: what the library answered (WITHOUT_EVENTS: it was asked for nothing), how many cycles or
 * findings are listed, and whether there are more.
 */
#define _GNU_SOURCE
#include <stdbool.h>
#include <stddef.h>
#include <sys/mman.h>

#include "goodlock.h"
#include "request.h"

#define WAY_JSON 1u      /* as JSON, else as text */
#define WAY_SETTLED 2u   /* of a process that has ended */
#define WAY_SHORT 4u     /* of the JSON's edges only those of the cycles that it lists, or by which it shows findings */
#define WAY_COUNT 8u     /* none of these: how many cycles or findings there are is all that is asked for */
#define WAY_FINDINGS 16u /* findings in place of cycles */
#define WITHOUT_EVENTS 1000u

#define RING 256u
#define TRIES 1000

/* --- What a thread holds ---------------------------------------------------------------------------------- */

#define HELD_LIMIT 64

struct held_lock {
    uint32_t lock, depth;
    int shared;
};

struct holding {
    struct held_lock held[HELD_LIMIT];
    unsigned count;
    uint64_t last; /* the latest word, if it may wait for a lock that the thread doesn't hold yet */
};

static struct held_lock *holding_find(struct holding *holding, uint32_t lock)
{
    for (unsigned i = holding->count; i-- > 0;)
        if (holding->held[i].lock == lock)
            return &holding->held[i];
    return NULL;
}

static void holding_release(struct holding *holding, struct held_lock *held)
{
    if (--held->depth == 0) {
        size_t later = (size_t)(holding->held + holding->count - held) - 1;
        memmove(held, held + 1, later * sizeof *held);
        holding->count--;
    }
}

static void holding_acquire(struct holding *holding, uint64_t word, unsigned kind)
{
    uint32_t lock = (uint32_t)(word >> OBJECT_SHIFT);
    struct held_lock *held = holding_find(holding, lock);
    if (held) {
        held->depth++;
        return;
    }
    if (kind == EVENT_ACQUIRE || kind == EVENT_SHARED_ACQUIRE)
        holding->last = word;
    int shared = kind == EVENT_SHARED_ACQUIRE || kind == EVENT_TRY_SHARED_ACQUIRE;
    if (holding->count < HELD_LIMIT)
        holding->held[holding->count++] = (struct held_lock){lock, 1, shared};
}

/* Goes on by a word; whether goodlock takes it: strays and the recorder's own kinds are skipped. */
static int holding_step(struct holding *holding, uint64_t word)
{
    unsigned kind = word % KINDS;
    struct held_lock *held;
    if (word == 0)
        return 0;
    holding->last = 0;
    switch (kind) {
    case EVENT_ACQUIRE:
    case EVENT_SHARED_ACQUIRE:
    case EVENT_TRY_ACQUIRE:
    case EVENT_TRY_SHARED_ACQUIRE:
        holding_acquire(holding, word, kind);
        return 1;
    case EVENT_RELEASE:
    case EVENT_SHARED_RELEASE:
        held = holding_find(holding, (uint32_t)(word >> OBJECT_SHIFT));
        if (held)
            holding_release(holding, held);
        return held != NULL;
    case EVENT_UPGRADE:
    case EVENT_AGAIN:
        holding->last = word;
        return 0;
    default:
        return kind == EVENT_FORK || kind == EVENT_JOIN;
    }
}

/* --- Chunks of a running process -------------------------------------------------------------------------- */

struct place {
    const struct chunk *chunk;
    uint64_t room; /* words of it that are in the file */
    uint64_t extent, offset;
};

struct row {
    struct place *places;
    size_t count, room;
};

struct recorded {
    struct row events, tables;
    const struct thread_record **threads;
    uint64_t thread_count;
    struct locks ended, owner_died; /* threads that ended and held locks; locks that were taken from such */
    struct locks left;              /* locks that a thread of the parent held at the fork */
};

static void row_add(struct row *row, struct place place)
{
    if (row->count == row->room) {
        row->room = 2 * row->room + 64;
        row->places = memory(row->places, row->room * sizeof *row->places);
    }
    row->places[row->count++] = place;
}

/* The chunks of an extent, as far as there are any now: they follow one another, as recording.read_chunks has it. */
static void extent_read(struct recorded *recorded, uint64_t extent, const char *bytes, size_t size)
{
    size_t at = 0;
    while (at + sizeof(struct chunk) <= size) {
        const struct chunk *chunk = (const struct chunk *)(bytes + at);
        uint32_t magic = __atomic_load_n(&chunk->magic, __ATOMIC_ACQUIRE);
        uint64_t length = chunk->bytes;
        if (magic != CHUNK_EVENTS && magic != CHUNK_TABLE) {
            if (magic == 0 && length == 0)
                return;
            at += CHUNK_UNIT;
            continue;
        }
        if (length > size - at)
            length = size - at;
        struct place place = {chunk, (length - sizeof *chunk) / 8, extent, at};
        if (length > sizeof *chunk)
            row_add(magic == CHUNK_EVENTS ? &recorded->events : &recorded->tables, place);
        at += length < CHUNK_UNIT ? CHUNK_UNIT : length;
    }
}

static void extent_map(struct recorded *recorded, uint64_t extent, struct text path)
{
    char *name = strndup(path.bytes, path.size);
    int file = open(name, O_RDONLY | O_CLOEXEC | O_NOFOLLOW | O_NONBLOCK);
    struct stat status;
    free(name);
    if (file < 0)
        return;
    void *bytes = MAP_FAILED;
    if (fstat(file, &status) == 0 && S_ISREG(status.st_mode) && status.st_size > 0)
        bytes = mmap(NULL, (size_t)status.st_size, PROT_READ, MAP_SHARED, file, 0);
    close(file);
    if (bytes != MAP_FAILED)
        extent_read(recorded, extent, bytes, (size_t)status.st_size);
}

static void thread_note(struct recorded *recorded, const struct thread_record *record)
{
    uint64_t number = record->thread;
    if (number >= recorded->thread_count) {
        uint64_t count = number + number / 2 + 64;
        recorded->threads = memory(recorded->threads, count * sizeof *recorded->threads);
        for (; recorded->thread_count < count; recorded->thread_count++)
            recorded->threads[recorded->thread_count] = NULL;
    }
    recorded->threads[number] = record;
}

static void record_note(struct recorded *recorded, const uint64_t *record, uint64_t size)
{
    uint32_t kind = (uint32_t)*record;
    if (size < 2 || record[1] > UINT32_MAX)
        return;
    if (kind == RECORD_THREAD && size * 8 >= offsetof(struct thread_record, joins))
        thread_note(recorded, (const struct thread_record *)record);
    else if (kind == RECORD_ENDED)
        locks_add(&recorded->ended, record[1]);
    else if (kind == RECORD_OWNER_DIED)
        locks_add(&recorded->owner_died, record[1]);
    else if (kind == RECORD_LEFT_LOCKED)
        locks_add(&recorded->left, record[1]);
}

/* The threads' records. Each was in its table before its thread had a chunk. */
static void tables_read(struct recorded *recorded)
{
    for (size_t i = 0; i < recorded->tables.count; i++) {
        const struct place *place = &recorded->tables.places[i];
        uint64_t used = __atomic_load_n(&place->chunk->used, __ATOMIC_ACQUIRE);
        uint64_t end = used < place->room ? used : place->room;
        for (uint64_t at = 0; at < end;) {
            const uint64_t *record = &place->chunk->words[at];
            uint64_t size = *record >> 32;
            if (size == 0 || size > end - at)
                break;
            record_note(recorded, record, size);
            at += size;
        }
    }
}

static void tables_put(const struct recorded *recorded)
{
    uint64_t count = recorded->tables.count;
    output_put((const char *)&count, sizeof count);
    for (size_t i = 0; i < count; i++) {
        const struct place *place = &recorded->tables.places[i];
        uint64_t answer[] = {place->chunk->order, place->extent, place->offset};
        output_put((const char *)answer, sizeof answer);
    }
}

/* The latest thread first: a child's events are copied before its parent's, and so the fork is in each copy that has
 * any. */
static int by_thread(const void *one, const void *other)
{
    const struct chunk *a = ((const struct place *)one)->chunk, *b = ((const struct place *)other)->chunk;
    if (a->thread != b->thread)
        return a->thread < b->thread ? 1 : -1;
    return a->order < b->order ? -1 : a->order > b->order;
}

/* Changes with each word that is taken back, after it and before the next one that is stored. */
static uint64_t version_of(const struct thread_record *record)
{
    return __atomic_load_n(&record->left_out, __ATOMIC_ACQUIRE) + __atomic_load_n(&record->others, __ATOMIC_ACQUIRE);
}

/* How far a thread is. The two are the same at two looks only if it had no event in between: each one that is stored
 * adds to the one, and each that is taken back or lost to the other. */
struct progress {
    uint64_t stored, gone;
};

/* The join that a thread waits in; 0: none. */
static uint64_t joins_of(const struct thread_record *record)
{
    int has_joins = record && (*(const uint64_t *)record >> 32) * 8 >= sizeof *record;
    uint64_t word = has_joins ? __atomic_load_n(&record->joins, __ATOMIC_ACQUIRE) : 0;
    return word % KINDS == EVENT_JOIN ? word : 0;
}

/* Copies the words of a thread's latest chunk as they were at one moment; how many. The words in front stay for ever;
 * those behind may be taken back and stored anew meanwhile, which the version tells: then they are read again. Should
 * that not end, what stays is the copy. `stay`: how many of the words stay. */
static uint64_t words_copy(const struct place *place, const struct thread_record *record, uint64_t *copy,
                           uint64_t *stay, struct progress *progress)
{
    const struct chunk *chunk = place->chunk;
    uint64_t done = 0;
    for (int i = 0; i < TRIES; i++) {
        uint64_t lost = record ? __atomic_load_n(&record->lost, __ATOMIC_ACQUIRE) : 0;
        uint64_t version = record ? version_of(record) : 0;
        progress->gone = lost + version;
        uint64_t kept = __atomic_load_n(&chunk->kept, __ATOMIC_ACQUIRE);
        uint64_t used = __atomic_load_n(&chunk->used, __ATOMIC_ACQUIRE);
        if (used > place->room)
            used = place->room;
        for (uint64_t at = done; at < used; at++)
            copy[at] = __atomic_load_n(&chunk->words[at], __ATOMIC_ACQUIRE);
        if (kept > done && kept <= used)
            done = kept;
        *stay = done;
        if (record && version_of(record) == version)
            return used;
    }
    return done;
}

/* --- Waiting threads -------------------------------------------------------------------------------------- */

struct hold {
    uint32_t lock, thread;
    int shared;
};

struct wait {
    uint64_t word;
    uint32_t thread, on;
    int stays, begins; /* begins: the first one of a round */
    uint64_t walk;     /* which one came here first; 0: none */
    struct progress progress;
};

struct waits {
    struct hold *holds;
    struct wait *waits;
    size_t hold_count, hold_room, wait_count, wait_room;
    struct locks strays;     /* that some thread released which didn't hold it: so nobody knows who has it */
    struct locks ended;      /* threads that never release what they hold, and don't wait */
    struct locks owner_died; /* locks that are taken though a thread has ended that held them */
    struct locks left, used; /* locks that a thread of the parent held at the fork; those that were had since */
};

/* A thread of the parent, which is none of this process. */
#define NOBODY UINT32_MAX

static int never_releases(const struct waits *waits, uint32_t thread)
{
    return thread == NOBODY || locks_have(&waits->ended, thread);
}

/* `joins`: the join that the thread waits in, which comes after all that it did before. */
static void waits_add(struct waits *waits, const struct holding *holding, uint32_t thread, uint64_t joins,
                      const struct progress *progress)
{
    uint64_t last = locks_have(&waits->ended, thread) ? 0 : joins ? joins : holding->last;
    uint32_t wanted = (uint32_t)(last >> OBJECT_SHIFT);
    unsigned kind = last % KINDS;
    for (unsigned i = 0; i < holding->count; i++) {
        if (last && (kind == EVENT_ACQUIRE || kind == EVENT_SHARED_ACQUIRE) && holding->held[i].lock == wanted)
            continue;
        if (waits->hold_count == waits->hold_room) {
            waits->hold_room = 2 * waits->hold_room + 64;
            waits->holds = memory(waits->holds, waits->hold_room * sizeof *waits->holds);
        }
        waits->holds[waits->hold_count++] = (struct hold){holding->held[i].lock, thread, holding->held[i].shared};
    }
    if (!last)
        return;
    if (waits->wait_count == waits->wait_room) {
        waits->wait_room = 2 * waits->wait_room + 64;
        waits->waits = memory(waits->waits, waits->wait_room * sizeof *waits->waits);
    }
    waits->waits[waits->wait_count++] =
        (struct wait){.word = last, .thread = thread, .stays = 1, .progress = *progress};
}

static struct wait *wait_of(struct waits *waits, uint32_t thread)
{
    for (size_t i = 0; i < waits->wait_count; i++)
        if (waits->waits[i].thread == thread)
            return &waits->waits[i];
    return NULL;
}

/* Whether the thread that this one joins waits itself. One that has ended is joined at once. */
static int join_is_kept_up(struct waits *waits, struct wait *wait)
{
    wait->on = (uint32_t)(wait->word >> OBJECT_SHIFT);
    struct wait *other = wait_of(waits, wait->on);
    return other && other->stays;
}

/* A thread that has what this one waits for, and waits itself or has ended; whether there is one. */
static int wait_is_kept_up(struct waits *waits, struct wait *wait)
{
    unsigned kind = wait->word % KINDS;
    if (kind == EVENT_JOIN)
        return join_is_kept_up(waits, wait);
    int itself = kind == EVENT_AGAIN || kind == EVENT_UPGRADE;
    uint32_t lock = (uint32_t)(wait->word >> OBJECT_SHIFT);
    if (locks_have(&waits->left, lock) && !locks_have(&waits->used, lock)) {
        wait->on = NOBODY;
        return 1;
    }
    for (size_t i = 0; i < waits->hold_count; i++) {
        const struct hold *hold = &waits->holds[i];
        if (hold->lock != lock || (hold->thread == wait->thread) != itself)
            continue;
        int has_ended = locks_have(&waits->ended, hold->thread);
        if (locks_have(&waits->strays, hold->lock) || (has_ended && locks_have(&waits->owner_died, hold->lock)))
            continue;
        if (kind == EVENT_SHARED_ACQUIRE && hold->shared)
            continue;
        struct wait *other = wait_of(waits, hold->thread);
        if ((other && other->stays) || has_ended) {
            wait->on = hold->thread;
            return 1;
        }
    }
    return 0;
}

/* Leaves out those that wait for somebody who doesn't, until all that are left wait for each other or for a thread that
 * has ended. */
static void waits_settle(struct waits *waits)
{
    for (int changed = 1; changed;) {
        changed = 0;
        for (size_t i = 0; i < waits->wait_count; i++)
            if (waits->waits[i].stays && !wait_is_kept_up(waits, &waits->waits[i])) {
                waits->waits[i].stays = 0;
                changed = 1;
            }
    }
}

/* Goes where the waits lead to from this one, by ways that no other walk went: to one of a round, or NULL. */
static struct wait *round_found(struct waits *waits, struct wait *wait, uint64_t walk)
{
    while (wait->walk == 0 && !never_releases(waits, wait->on)) {
        wait->walk = walk;
        wait = wait_of(waits, wait->on);
    }
    return wait->walk == walk ? wait : NULL;
}

/* The first thread, by birth, of a round. */
static struct wait *round_first(struct waits *waits, struct wait *wait)
{
    struct wait *first = wait;
    for (struct wait *other = wait_of(waits, wait->on); other != wait; other = wait_of(waits, other->on))
        if (other->thread < first->thread)
            first = other;
    return first;
}

/* Marks the first threads of all rounds that wait for each other; else of those that wait for a thread that has ended
 * the first one, which is a round of itself. However many others wait for these, they are the same. */
static void rounds_find(struct waits *waits)
{
    struct wait *ended = NULL;
    int found = 0;
    for (size_t i = 0; i < waits->wait_count; i++) {
        struct wait *wait = &waits->waits[i];
        struct wait *of_round = wait->stays ? round_found(waits, wait, i + 1) : NULL;
        if (of_round) {
            round_first(waits, of_round)->begins = 1;
            found = 1;
        }
        if (wait->stays && never_releases(waits, wait->on) && (!ended || wait->thread < ended->thread))
            ended = wait;
    }
    if (!found && ended)
        ended->begins = 1;
}

/* The one after this in its round that begins with the first; NULL at the end. */
static struct wait *round_next(struct waits *waits, const struct wait *first, const struct wait *wait)
{
    struct wait *next = never_releases(waits, wait->on) ? NULL : wait_of(waits, wait->on);
    return next == first ? NULL : next;
}

static void wait_put(const struct waits *waits, const struct wait *wait)
{
    uint64_t has_ended = wait->on == NOBODY ? 2 : (uint64_t)locks_have(&waits->ended, wait->on);
    uint64_t answer[] = {wait->thread, wait->word, wait->on, has_ended, wait->progress.stored, wait->progress.gone};
    output_put((const char *)answer, sizeof answer);
}

/* Writes the rounds, in the order of their first threads, by birth. */
static void waits_put(struct waits *waits)
{
    uint64_t count = 0;
    waits_settle(waits);
    rounds_find(waits);
    for (size_t i = 0; i < waits->wait_count; i++)
        for (struct wait *first = &waits->waits[i], *wait = first->begins ? first : NULL; wait;
             wait = round_next(waits, first, wait))
            count++;
    output_put((const char *)&count, sizeof count);
    for (size_t i = waits->wait_count; i-- > 0;) /* they were added in the reverse order of births */
        for (struct wait *first = &waits->waits[i], *wait = first->begins ? first : NULL; wait;
             wait = round_next(waits, first, wait))
            wait_put(waits, wait);
}

/* --- Copying ---------------------------------------------------------------------------------------------- */

static int copy_file;
static uint64_t copy_size;

static void copy_put(const uint64_t *words, uint64_t count)
{
    const char *bytes = (const char *)words;
    for (size_t done = 0, size = count * sizeof *words; done < size;) {
        ssize_t put = write(copy_file, bytes + done, size - done);
        if (put < 0)
            fail("copying");
        done += (size_t)put;
    }
    copy_size += count * sizeof *words;
}

static uint64_t hash_step(uint64_t hash, uint64_t word)
{
    hash = (hash ^ word) * 0x9e3779b97f4a7c15u;
    return hash ^ hash >> 29;
}

struct copied {
    uint64_t hash;
    uint64_t *words; /* of the present chunk */
    uint64_t room;
    struct holding holding; /* and how far it is: of the present thread */
    struct progress progress;
    uint64_t before; /* the present thread's latest word, where a lock was left locked */
    struct waits waits;
};

/* Which of the locks that were left locked some thread had all the same, as that of the parent's held it no longer: all
 * that have an event, but for an acquire that is the last one of its thread. */
static void uses_note(struct copied *copied, uint64_t count, int is_last)
{
    uint64_t *before = &copied->before;
    for (uint64_t at = 0; at < count && copied->waits.left.words > 0; at++) {
        if (*before && copied->words[at] && !is_of_thread(*before))
            locks_add(&copied->waits.used, *before >> OBJECT_SHIFT);
        if (copied->words[at])
            *before = copied->words[at];
    }
    unsigned kind = *before % KINDS;
    if (is_last && *before && !is_of_thread(*before) && kind != EVENT_ACQUIRE && kind != EVENT_SHARED_ACQUIRE)
        locks_add(&copied->waits.used, *before >> OBJECT_SHIFT);
    if (is_last)
        *before = 0;
}

static void chunk_copy(const struct recorded *recorded, size_t i, struct copied *copied)
{
    const struct place *place = &recorded->events.places[i];
    uint32_t thread = place->chunk->thread;
    if (place->room > copied->room)
        copied->words = memory(copied->words, (copied->room = place->room) * 8);
    const struct thread_record *record = thread < recorded->thread_count ? recorded->threads[thread] : NULL;
    uint64_t offset = copy_size, stay = 0;
    uint64_t count = words_copy(place, record, copied->words, &stay, &copied->progress);
    int is_last = i + 1 == recorded->events.count || recorded->events.places[i + 1].chunk->thread != thread;
    copy_put(copied->words, count);
    uint64_t answer[] = {thread, offset, count};
    output_put((const char *)answer, sizeof answer);
    uses_note(copied, count, is_last);
    for (uint64_t at = 0; at < count; at++) {
        if (at < stay || !is_last)
            copied->hash = hash_step(copied->hash, copied->words[at]);
        unsigned kind = copied->words[at] % KINDS;
        if (!holding_step(&copied->holding, copied->words[at]) &&
            (kind == EVENT_RELEASE || kind == EVENT_SHARED_RELEASE))
            locks_add(&copied->waits.strays, copied->words[at] >> OBJECT_SHIFT);
    }
    copied->hash = hash_step(copied->hash, (uint64_t)thread << 32 | stay);
    copied->progress.stored += count;
    if (is_last) {
        waits_add(&copied->waits, &copied->holding, thread, joins_of(record), &copied->progress);
        memset(&copied->holding, 0, sizeof copied->holding);
        memset(&copied->progress, 0, sizeof copied->progress);
    }
}

static void process_copy(struct request *request)
{
    struct recorded recorded;
    struct copied copied;
    memset(&recorded, 0, sizeof recorded);
    memset(&copied, 0, sizeof copied);
    uint64_t extents = next_word(request);
    for (uint64_t extent = 0; extent < extents; extent++)
        extent_map(&recorded, extent, next_text(request));
    tables_read(&recorded);
    tables_put(&recorded);
    copied.waits.ended = recorded.ended;
    copied.waits.owner_died = recorded.owner_died;
    copied.waits.left = recorded.left;
    if (recorded.events.count > 0)
        qsort(recorded.events.places, recorded.events.count, sizeof *recorded.events.places, by_thread);
    uint64_t count = recorded.events.count;
    output_put((const char *)&count, sizeof count);
    for (size_t i = 0; i < recorded.events.count; i++)
        chunk_copy(&recorded, i, &copied);
    output_put((const char *)&copied.hash, sizeof copied.hash);
    waits_put(&copied.waits);
    free(recorded.events.places);
    free(recorded.tables.places);
    free(recorded.threads);
    free(copied.words);
    free(copied.waits.holds);
    free(copied.waits.waits);
    free(copied.waits.strays.bits);
    free(copied.waits.ended.bits);
    free(copied.waits.owner_died.bits);
    free(copied.waits.left.bits);
    free(copied.waits.used.bits);
}

static void copy_all(struct request *request, const char *path)
{
    copy_file = open(path, O_WRONLY | O_CREAT | O_TRUNC | O_CLOEXEC | O_NOFOLLOW, 0600);
    if (copy_file < 0)
        fail(path);
    for (uint64_t left = next_word(request); left > 0; left--)
        process_copy(request);
    if (close(copy_file) != 0)
        fail("copying");
}

/* --- A session -------------------------------------------------------------------------------------------- */

#define NO_NUMBER UINT32_MAX

/* From the recording's numbers to those of the session. */
struct numbers {
    uint32_t *of;
    uint64_t count, used;
};

static uint32_t *number_at(struct numbers *numbers, uint64_t number)
{
    if (number >= numbers->count) {
        uint64_t count = number + number / 2 + 64;
        numbers->of = memory(numbers->of, count * sizeof *numbers->of);
        for (; numbers->count < count; numbers->count++)
            numbers->of[numbers->count] = NO_NUMBER;
    }
    return &numbers->of[number];
}

static uint32_t number_of(const struct numbers *numbers, uint64_t number)
{
    return number < numbers->count ? numbers->of[number] : NO_NUMBER;
}

/* What the reports are to list. */
struct question {
    uint32_t mode, length, most;
};

struct report {
    struct question question;
    struct texts locks, places, threads;
    struct numbers lock_numbers, place_numbers, lanes_of;
    uint64_t *thread_of; /* of each lane */
    struct holding holding;
    uint64_t thread;
    goodlock_session session;
    goodlock_lane *lanes;
    uint32_t code;
};

static uint32_t sessions;

static void thread_mention(struct report *report, uint64_t thread)
{
    uint32_t *lane = number_at(&report->lanes_of, thread);
    if (*lane != NO_NUMBER)
        return;
    *lane = (uint32_t)report->lanes_of.used++;
    report->thread_of = memory(report->thread_of, report->lanes_of.used * sizeof *report->thread_of);
    report->thread_of[*lane] = thread;
}

static int is_told(const struct report *report, uint64_t word)
{
    return !is_of_thread(word) || has_text(&report->threads, word >> OBJECT_SHIFT);
}

/* The threads have their lanes in the order in which `goodlock predict` would read of them. */
static void mention_use(void *state, uint64_t thread, const uint64_t *words, size_t count)
{
    struct report *report = state;
    if (thread != report->thread)
        memset(&report->holding, 0, sizeof report->holding);
    report->thread = thread;
    for (size_t i = 0; i < count; i++) {
        if (!is_told(report, words[i]) || !holding_step(&report->holding, words[i]))
            continue;
        thread_mention(report, thread);
        if (is_of_thread(words[i]))
            thread_mention(report, words[i] >> OBJECT_SHIFT);
    }
}

static struct text text_at(const struct texts *texts, uint64_t number)
{
    return has_text(texts, number) ? texts->of[number] : (struct text){"?", 1};
}

static uint32_t lock_told(struct report *report, uint64_t lock)
{
    uint32_t *number = number_at(&report->lock_numbers, lock);
    struct text text = text_at(&report->locks, lock);
    if (*number == NO_NUMBER && report->code == GOODLOCK_OK)
        report->code = goodlock_lock(&report->session, (const uint8_t *)text.bytes, text.size, number);
    return *number;
}

static uint32_t place_told(struct report *report, uint64_t place)
{
    uint32_t *number = number_at(&report->place_numbers, place);
    struct text text = text_at(&report->places, place);
    if (*number == NO_NUMBER && report->code == GOODLOCK_OK)
        report->code = goodlock_place(&report->session, (const uint8_t *)text.bytes, text.size, number);
    return *number;
}

static const uint32_t kinds[KINDS] = {
    [EVENT_ACQUIRE] = GOODLOCK_ACQUIRE,
    [EVENT_RELEASE] = GOODLOCK_RELEASE,
    [EVENT_SHARED_ACQUIRE] = GOODLOCK_ACQUIRE_SHARED,
    [EVENT_SHARED_RELEASE] = GOODLOCK_RELEASE_SHARED,
    [EVENT_TRY_ACQUIRE] = GOODLOCK_TRY_ACQUIRE,
    [EVENT_TRY_SHARED_ACQUIRE] = GOODLOCK_TRY_ACQUIRE_SHARED,
    [EVENT_FORK] = GOODLOCK_FORK,
    [EVENT_JOIN] = GOODLOCK_JOIN,
};

static void lane_pull(struct report *report, uint32_t lane)
{
    goodlock_pulled pulled = {1, 0};
    while (report->code == GOODLOCK_OK && pulled.events + pulled.ended > 0)
        report->code = goodlock_pull_lane(&report->session, lane, RING, &pulled);
}

static void word_record(struct report *report, uint32_t lane, uint64_t word)
{
    uint64_t object = word >> OBJECT_SHIFT;
    uint32_t operand = is_of_thread(word) ? number_of(&report->lanes_of, object) : lock_told(report, object);
    uint32_t place = place_told(report, word >> SITE_SHIFT & (SITE_LIMIT - 1));
    uint32_t at = 0, code = report->code;
    if (code == GOODLOCK_OK)
        code = goodlock_record(&report->lanes[lane], kinds[word % KINDS], operand, place, &at);
    if (code == GOODLOCK_FULL) {
        lane_pull(report, lane);
        code = report->code;
        if (code == GOODLOCK_OK)
            code = goodlock_record(&report->lanes[lane], kinds[word % KINDS], operand, place, &at);
    }
    report->code = code;
}

static void record_use(void *state, uint64_t thread, const uint64_t *words, size_t count)
{
    struct report *report = state;
    if (thread != report->thread)
        memset(&report->holding, 0, sizeof report->holding);
    report->thread = thread;
    uint32_t lane = number_of(&report->lanes_of, thread);
    for (size_t i = 0; i < count && report->code == GOODLOCK_OK; i++)
        if (is_told(report, words[i]) && holding_step(&report->holding, words[i]))
            word_record(report, lane, words[i]);
    if (lane != NO_NUMBER)
        lane_pull(report, lane);
}

static void session_open(struct report *report)
{
    uint32_t count = (uint32_t)report->lanes_of.used, number = 0;
    report->lanes = memory(NULL, count * sizeof *report->lanes);
    memset(report->lanes, 0, count * sizeof *report->lanes);
    report->code = goodlock_open(++sessions, count, RING, &report->session);
    for (uint32_t i = 0; i < count && report->code == GOODLOCK_OK; i++)
        report->code = goodlock_lane_open(&report->session, &report->lanes[i], &number);
}

/* All lanes end; the session is settled. */
static void session_settle(struct report *report)
{
    uint32_t count = (uint32_t)report->lanes_of.used, missing = 0;
    for (uint32_t i = 0; i < count && report->code == GOODLOCK_OK; i++) {
        report->code = goodlock_close(&report->lanes[i]);
        lane_pull(report, i);
        if (report->code == GOODLOCK_OK)
            report->code = goodlock_hand_in(&report->session, &report->lanes[i]);
    }
    if (report->code == GOODLOCK_OK)
        report->code = goodlock_settle(&report->session, &missing);
}

static void session_end(struct report *report)
{
    for (uint32_t i = 0; i < (uint32_t)report->lanes_of.used; i++)
        goodlock_lane_free(&report->lanes[i]);
    goodlock_session_free(&report->session);
    free(report->lanes);
    free(report->thread_of);
    free(report->lanes_of.of);
    free(report->lock_numbers.of);
    free(report->place_numbers.of);
    texts_drop(&report->threads);
}

/* --- The report's text, with the threads' own names ------------------------------------------------------- */

/* A name as JSON has it: what isn't printable, and a backslash, as \x and two digits. */
static void put_json_name(struct text text)
{
    for (size_t i = 0; i < text.size; i++) {
        unsigned char byte = (unsigned char)text.bytes[i];
        char escape[8];
        if (byte == '"')
            output_put("\\\"", 2);
        else if (byte < ' ' || byte > '~' || byte == '\\')
            output_put(escape, (size_t)snprintf(escape, sizeof escape, "\\\\x%02x", byte));
        else
            output_put(text.bytes + i, 1);
    }
}

/* Puts bytes; a T with a lane's number that follows this mark as the name of the lane's thread. */
static void put_named(const struct report *report, const char *bytes, size_t size, const char *mark, int json)
{
    const char *end = bytes + size;
    while (bytes < end) {
        const char *found = memmem(bytes, (size_t)(end - bytes), mark, strlen(mark));
        const char *upto = found ? found + strlen(mark) : end;
        output_put(bytes, (size_t)(upto - bytes));
        bytes = upto;
        uint64_t lane = 0;
        const char *digits = bytes + 1; /* behind the T */
        while (digits < end && *digits >= '0' && *digits <= '9')
            lane = 10 * lane + (uint64_t)(*digits++ - '0');
        if (!found || digits == bytes + 1 || lane >= report->lanes_of.used)
            continue;
        struct text name = text_at(&report->threads, report->thread_of[lane]);
        if (json)
            put_json_name(name);
        else
            output_put(name.bytes, name.size);
        bytes = digits;
    }
}

/* Where an object ends that begins here. */
static const char *object_end(const char *at, const char *end)
{
    int inside = 0;
    for (at++; at < end && (inside || *at != '}'); at++) {
        if (inside && *at == '\\')
            at++;
        else if (*at == '"')
            inside = !inside;
    }
    return at + 1;
}

static const char before_edges[] = "],\"edges\":[", before_trim[] = "\"trim\":";
static const char first_edges[] = "{\"edges\":[", before_findings[] = "],\"findings\":[";
static const char before_format[] = "],\"format\":";

static const char *found_in(const char *at, const char *end, const char *mark)
{
    const char *found = memmem(at, (size_t)(end - at), mark, strlen(mark));
    if (!found) {
        errno = EINVAL;
        fail("report");
    }
    return found;
}

/* Marks the edges of cycles whose positions stand here. */
static void positions_mark(struct numbers *kept, const char *at, const char *end)
{
    for (; at < end; at++)
        if (*at >= '0' && *at <= '9')
            *number_at(kept, strtoull(at, (char **)&at, 10)) = 0;
}

/* Numbers the edges that are marked anew; gives the end of all edges. */
static const char *edges_number(struct numbers *kept, const char *at, const char *end)
{
    for (uint64_t i = 0; *at != ']'; i++) {
        if (number_of(kept, i) != NO_NUMBER)
            kept->of[i] = (uint32_t)kept->used++;
        at = object_end(at, end);
        at += *at == ',';
    }
    return at;
}

static void put_positions(const struct numbers *kept, const char *at, const char *end)
{
    while (at < end) {
        char digits[24];
        if (*at >= '0' && *at <= '9')
            output_put(digits, (size_t)snprintf(digits, sizeof digits, "%u", kept->of[strtoull(at, (char **)&at, 10)]));
        else
            output_put(at++, 1);
    }
}

static void put_edges(const struct report *report, const struct numbers *kept, const char *at, const char *end)
{
    uint64_t left = kept->used;
    for (uint64_t i = 0; left > 0; i++) {
        const char *after = object_end(at, end);
        if (number_of(kept, i) != NO_NUMBER) {
            put_named(report, at, (size_t)(after - at), "\"thread\":\"", 1);
            if (--left > 0)
                output_put(",", 1);
        }
        at = after + 1;
    }
}

/* A JSON report with those edges only that stand in a cycle. Its keys are in order: cycles, edges, .., trim. */
static void put_short(const struct report *report, const char *json, size_t size)
{
    struct numbers kept = {NULL, 0, 0};
    const char *end = json + size, *edges = found_in(json, end, before_edges) + strlen(before_edges);
    positions_mark(&kept, json, edges);
    const char *rest = edges_number(&kept, edges, end);
    put_positions(&kept, json, edges);
    put_edges(report, &kept, edges, end);
    const char *trim = found_in(rest, end, before_trim) + strlen(before_trim);
    output_put(rest, (size_t)(trim - rest));
    output_put(*trim == '[' ? "[]}\n" : "null}\n", *trim == '[' ? 4 : 6);
    free(kept.of);
}

/* The same of findings, with the edges of the cycles that show them. Its keys are edges, findings, format, .. */
static void put_short_findings(const struct report *report, const char *json, size_t size)
{
    struct numbers kept = {NULL, 0, 0};
    const char *end = json + size, *edges = found_in(json, end, first_edges) + strlen(first_edges);
    const char *findings = found_in(edges, end, before_findings);
    const char *rest = found_in(findings + strlen(before_findings), end, before_format);
    positions_mark(&kept, findings, rest);
    edges_number(&kept, edges, end);
    output_put(first_edges, strlen(first_edges));
    put_edges(report, &kept, edges, end);
    put_positions(&kept, findings, rest);
    output_put(rest, (size_t)(end - rest));
    free(kept.of);
}

static void report_write(struct report *report, goodlock_report *made, uint64_t ways, const char *path)
{
    uint32_t (*print)(goodlock_session *, goodlock_report *, uint8_t *, size_t, size_t *) =
        ways & WAY_JSON ? goodlock_json : goodlock_text;
    uint8_t none;
    size_t size = 0;
    report->code = print(&report->session, made, &none, 0, &size);
    uint8_t *bytes = memory(NULL, size + 1);
    if (report->code == GOODLOCK_OK)
        report->code = print(&report->session, made, bytes, size, &size);
    output_flush();
    int answers = output_file;
    output_file = open(path, O_WRONLY | O_APPEND | O_CLOEXEC);
    if (output_file < 0)
        fail(path);
    if (report->code == GOODLOCK_OK && ways & WAY_SHORT)
        (ways & WAY_FINDINGS ? put_short_findings : put_short)(report, (const char *)bytes, size);
    else if (report->code == GOODLOCK_OK)
        put_named(report, (const char *)bytes, size, ways & WAY_JSON ? "\"thread\":\"" : "\n  ", ways & WAY_JSON);
    output_flush();
    if (close(output_file) != 0)
        fail("writing");
    output_file = answers;
    free(bytes);
}

/* Makes the report of what was recorded. */
static uint32_t report_of(struct report *report, uint64_t ways, goodlock_report *made)
{
    typedef uint32_t making(goodlock_session *, uint32_t, uint32_t, uint32_t, goodlock_report *);
    static making *const calls[2][2] = {{goodlock_report_so_far, goodlock_findings_so_far},
                                        {goodlock_settled_report, goodlock_settled_findings}};
    const struct question *question = &report->question;
    return calls[(ways & WAY_SETTLED) != 0][(ways & WAY_FINDINGS) != 0](&report->session, question->mode,
                                                                        question->length, question->most, made);
}

/* Records all events, and makes and writes the report. */
static void report_session(struct request *request, struct report *report, const int *files, uint64_t ways,
                           const char *path, uint64_t *answer)
{
    goodlock_report made = {NULL};
    size_t count = 0;
    bool more = false;
    session_open(report);
    report->thread = NO_THREAD;
    events_read(request, files, record_use, report);
    if (ways & WAY_SETTLED)
        session_settle(report);
    if (report->code == GOODLOCK_OK)
        report->code = report_of(report, ways, &made);
    if (report->code == GOODLOCK_OK)
        report->code = goodlock_cycles(&made, &count, &more);
    if (report->code == GOODLOCK_OK && !(ways & WAY_COUNT))
        report_write(report, &made, ways, path);
    goodlock_report_free(&made);
    answer[1] = count;
    answer[2] = more;
}

static void report_make(struct request *request, struct report *report, const int *files)
{
    struct text path = next_text(request);
    char *name = strndup(path.bytes, path.size);
    uint64_t ways = next_word(request), answer[3] = {0, 0, 0};
    report->threads = next_texts(request);
    uint64_t at = request->at;
    report->thread = NO_THREAD;
    report->code = WITHOUT_EVENTS;
    events_read(request, files, mention_use, report);
    if (report->lanes_of.used > 0) {
        request->at = at;
        report_session(request, report, files, ways, name, answer);
    }
    session_end(report);
    answer[0] = report->code;
    output_put((const char *)answer, sizeof answer);
    free(name);
}

static void report_all(struct request *request)
{
    int *files = files_open(request);
    no_locks_read(request);
    struct texts locks = next_texts(request), places = next_texts(request);
    struct question question;
    question.mode = (uint32_t)next_word(request);
    question.length = (uint32_t)next_word(request);
    question.most = (uint32_t)next_word(request);
    for (uint64_t left = next_word(request); left > 0; left--) {
        struct report *report = memory(NULL, sizeof *report);
        memset(report, 0, sizeof *report);
        report->question = question;
        report->locks = locks;
        report->places = places;
        report_make(request, report, files);
        free(report);
    }
}

int main(int count, char **arguments)
{
    int copies = count == 3 && strcmp(arguments[1], "copy") == 0;
    if (!copies && (count != 2 || strcmp(arguments[1], "report") != 0)) {
        fprintf(stderr, "usage: goodlock_live copy COPY < REQUEST\n       goodlock_live report < REQUEST\n");
        return 2;
    }
    struct request request = request_read();
    if (copies)
        copy_all(&request, arguments[2]);
    else
        report_all(&request);
    output_flush();
    return 0;
}
