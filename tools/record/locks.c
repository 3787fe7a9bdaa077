/* Numbers of locks, what a thread holds, and what is known already. */
#define _GNU_SOURCE
#include <string.h>

#include "process.h"

/* --- Locks ---------------------------------------------------------------------------------------------- */

/* Without a record it still has a number of its own. */
static void lock_tell(struct thread *thread, uint64_t number, const void *address, enum lock_class class,
                      enum lock_origin origin, uint32_t site)
{
    struct lock_record *record = record_new(RECORD_LOCK, sizeof *record);
    if (!record) {
        loss_begins();
        count_loss(&process.losses->locks);
        return;
    }
    record->lock = number;
    record->class_and_origin = (uint64_t) class | (uint64_t)origin << 32;
    record->address = (uint64_t)(uintptr_t)address;
    record->site = site;
    record->thread_and_order = thread->number | thread->record->made << 32;
    if (origin == LOCK_MADE)
        thread->record->made++;
    record_done(record);
}

uint32_t lock_number_new(struct thread *thread, const void *address, enum lock_class class, enum lock_origin origin,
                         uint32_t site)
{
    struct slow_state state;
    int in_module = module_meet((uintptr_t)address, class == LOCK_ONCE);
    slow_enter(&state);
    if (in_module)
        modules_tell();
    uint64_t number = 0;
    struct slot *slot = table_place(&process.locks, (uint64_t)(uintptr_t)address);
    if (slot && slot->value && origin == LOCK_FOUND) {
        number = slot->value; /* another thread was faster */
    } else if (slot && class == LOCK_ONCE && in_compiler_module((uintptr_t)address)) {
        slot->value = number = LOCK_IGNORED;
    } else if (slot) {
        number = process.next_lock++;
        lock_tell(thread, number, address, class, origin, site);
        __atomic_store_n(&slot->value, number, __ATOMIC_RELEASE);
        memory_note((uintptr_t)address);
    } else {
        loss_begins();
        count_loss(&process.losses->locks);
    }
    if (number != LOCK_IGNORED && origin == LOCK_MADE)
        __atomic_fetch_add(&process.generation, 1, __ATOMIC_RELEASE);
    slow_leave(&state);
    return (uint32_t)number;
}

/* Calls of one lock by one return address, as in a wrapper of the C++ library, may have many callers: each of these has
 * its place among the neighbours. */
#define NEIGHBOURS 8u

static uint64_t neighbour_word(const struct thread *thread, uint64_t key, uintptr_t return_address, uintptr_t stack,
                               uint64_t generation)
{
    uint64_t first = known_call_place(key, return_address);
    for (unsigned i = 1; i < NEIGHBOURS; i++) {
        const struct known_call *known = &thread->known_calls[first ^ i];
        uint64_t word = known->word;
        __atomic_signal_fence(__ATOMIC_SEQ_CST);
        int is_this = known->callers && known_call_is(thread, known, key, return_address, stack, generation);
        __atomic_signal_fence(__ATOMIC_SEQ_CST);
        if (is_this && known->word == word)
            return word;
    }
    return 0;
}

static void call_keep(struct thread *thread, struct known_call call)
{
    struct known_call *known = &thread->known_calls[known_call_place(call.address, call.return_address)];
    if (call.callers && known->address == call.address && known->return_address == call.return_address &&
        known->generation == call.generation) /* of other callers */
        known =
            &thread->known_calls[(known - thread->known_calls) ^ (1 + (call.word >> SITE_SHIFT) % (NEIGHBOURS - 1))];
    uint64_t address = call.address;
    call.address = 0; /* a signal handler finds nothing here, or all */
    thread->changing = 1;
    known->address = 0;
    __atomic_signal_fence(__ATOMIC_SEQ_CST);
    *known = call;
    __atomic_signal_fence(__ATOMIC_SEQ_CST);
    known->address = address;
    __atomic_signal_fence(__ATOMIC_SEQ_CST);
    thread->changing = 0;
}

uint64_t call_word_slow(struct thread *thread, const void *address, enum lock_class class, uintptr_t return_address,
                        uintptr_t stack)
{
    uint64_t generation = __atomic_load_n(&process.generation, __ATOMIC_ACQUIRE);
    uint64_t key = (uint64_t)(uintptr_t)address;
    uint64_t word = neighbour_word(thread, key, return_address, stack, generation);
    if (word)
        return word;
    uint32_t lock = lock_number(thread, address, class);
    const struct callers *callers = NULL;
    word = event_word(0, site_slow(return_address, stack, &callers), lock);
    struct slot *slot = process.frames == 1 ? table_find(&process.sites, return_address) : NULL;
    int plain = slot && (slot->value & SITE_PLAIN); /* else the return address alone doesn't tell the site */
    if (lock != 0 && (plain || callers) && !thread->changing)
        call_keep(thread, (struct known_call){key, return_address, word, generation, plain ? NULL : callers});
    return word;
}

void lock_owner_died(const void *address)
{
    struct slow_state state;
    slow_enter(&state);
    struct slot *slot = table_find(&process.locks, (uint64_t)(uintptr_t)address);
    if (slot && slot->value)
        number_note(RECORD_OWNER_DIED, slot->value);
    slow_leave(&state);
}

/* --- Held locks ----------------------------------------------------------------------------------------- */

/* This lock has an event: what lies in the levels above isn't left out by itself. */
static void keep_above(struct thread *thread, const struct held *held)
{
    for (uint32_t level = (uint32_t)(held - thread->held) + 1; level < thread->held_count; level++)
        thread->levels[level].place = NULL;
}

uint64_t *acquire_write_further(struct thread *thread, uint64_t word, struct held *held, int plain)
{
    uint64_t call = word - word_kind(word);
    uint64_t context = thread->held[thread->held_count - 1].context;
    if (!held)
        word = call | EVENT_BEYOND;
    else if (is_shared(held->word) && !is_shared(word))
        word = call | EVENT_UPGRADE;
    else if (plain)
        word = call | EVENT_AGAIN;
    else if (held->depth == DEPTH_LIMIT)
        word = call | EVENT_BEYOND;
    else
        held->depth++;
    if (held)
        keep_above(thread, held);
    if (key_is_news(thread, key_of(context, word)))
        news_add(thread);
    return word_store(thread, word);
}

/* From this lock on, those held have new contexts. */
static void contexts_renew(struct thread *thread, struct held *held)
{
    for (; held < thread->held + thread->held_count; held++)
        held->context = key_of(held > thread->held ? held[-1].context : 0, held->identity);
}

/* Takes a lock out of the list of those held. If it wasn't acquired last, the later ones have new contexts. */
static void held_remove(struct thread *thread, struct held *held)
{
    struct held *end = thread->held + thread->held_count - 1;
    keep_above(thread, held);
    memmove(held, held + 1, (size_t)(end - held) * sizeof *held);
    thread->held_count--;
    contexts_renew(thread, held);
}

/* Its key isn't known after all. */
static void key_take_away(struct thread *thread, uint64_t key)
{
    for (uint32_t place = key >> 8 & thread->key_mask; thread->keys[place]; place = (place + 1) & thread->key_mask)
        if (thread->keys[place] == key)
            thread->keys[place] = KEY_GONE;
}

static void keys_forget(struct thread *thread);

/* A signal handler that came while the call waited has stored words behind that of its acquire, which now aren't words
 * of a thread that holds the lock: so all keys go. */
void acquire_take_back(struct thread *thread, uint64_t *place)
{
    uint32_t outside = change_begin(thread);
    unsigned kind = word_kind(*place);
    struct held *held = held_find(thread, word_object(*place));
    if (kind == EVENT_UPGRADE || kind == EVENT_BEYOND || kind == EVENT_AGAIN)
        held = NULL;
    int removes = held && held->depth == 1;
    if (removes) {
        if (thread->levels[held - thread->held].news != thread->news)
            key_take_away(thread, held->context);
        held_remove(thread, held);
    } else if (held) {
        held->depth--;
    }
    if (!word_take_back(thread, place) && removes && !is_amid_change(thread))
        keys_forget(thread);
    change_end(thread, outside);
    count_other(thread);
}

/* --- Moments to come back to ------------------------------------------------------------------------------ */

/* What the thread holds: the key of all held locks, with the depths of those that were acquired more than once. */
static uint64_t held_state(const struct thread *thread)
{
    uint64_t state = thread->held[thread->held_count - 1].context;
    for (uint32_t i = 0; i < thread->held_count; i++)
        if (thread->held[i].depth > 1)
            state = key_of(state, thread->held[i].depth * HELD_LIMIT + i);
    return state;
}

static void moment_set(struct thread *thread, struct moment *moment, uint64_t state)
{
    struct stored stored = stored_now(thread);
    moment->state = state;
    moment->place = stored.used < chunk_room(stored.chunk) ? &stored.chunk->words[stored.used] : NULL;
}

/* What is news when the place is asked for lies in front of it: a signal handler's news in between ends this past. */
static void past_begin(struct thread *thread, struct level *level, struct past *past, uint64_t state)
{
    past->news = thread->news;
    __atomic_signal_fence(__ATOMIC_SEQ_CST);
    past->later.place = NULL;
    past->releases = 0;
    past->distance = 1;
    moment_set(thread, &past->first, state);
    level->has_past = 1;
}

/* After a release, amid no other change: leaves out all since a moment at which the thread held what it holds now. */
static void past_look(struct thread *thread)
{
    struct stored stored = stored_now(thread);
    struct level *level = &thread->levels[thread->held_count - 1];
    struct past *past = &thread->pasts[thread->held_count - 1];
    uint64_t state = held_state(thread);
    if (!level->has_past || past->news != thread->news || !is_stored(stored, past->first.place)) {
        past_begin(thread, level, past, state);
    } else if (past->first.state == state) {
        past->later.place = NULL;
        past->releases = 0;
        past->distance = 1;
        words_leave_out(thread, stored, past->first.place);
    } else if (past->later.state == state && is_stored(stored, past->later.place)) {
        past->releases = 0;
        words_leave_out(thread, stored, past->later.place);
    } else if (++past->releases >= past->distance) {
        past->releases = 0;
        past->distance *= 2;
        moment_set(thread, &past->later, state);
    }
}

/* --- Releases --------------------------------------------------------------------------------------------- */

static void stray_write(struct thread *thread, uint64_t word)
{
    if (!key_is_news(thread, key_of(0, word))) {
        thread->record->left_out++;
        return;
    }
    news_add(thread);
    word_store(thread, word);
}

void release_write_further(struct thread *thread, uint64_t call)
{
    struct held *held = held_find(thread, word_object(call));
    if (!held) {
        stray_write(thread, call | EVENT_RELEASE);
        return;
    }
    word_store(thread, call | (is_shared(held->word) ? EVENT_SHARED_RELEASE : EVENT_RELEASE));
    if (--held->depth == 0)
        held_remove(thread, held);
    else
        keep_above(thread, held);
    if (thread->held_count > 0 && !is_amid_change(thread))
        past_look(thread);
}

void held_let_go(struct thread *thread, uint32_t lock)
{
    struct held *held = thread->chunk ? held_find(thread, lock) : NULL;
    if (!held)
        return;
    uint64_t call = held->word - word_kind(held->word);
    for (uint64_t depth = held->depth; depth > 0; depth--)
        release_write(thread, call);
}

void lock_let_go(struct thread *thread, const void *address)
{
    struct slot *slot = thread->held_count > 0 ? table_find(&process.locks, (uint64_t)(uintptr_t)address) : NULL;
    if (slot && slot->value)
        held_let_go(thread, (uint32_t)slot->value);
}

/* --- Keys ----------------------------------------------------------------------------------------------- */

static void key_insert(struct thread *thread, uint64_t key)
{
    uint32_t place = key >> 8 & thread->key_mask;
    while (thread->keys[place])
        place = (place + 1) & thread->key_mask;
    thread->keys[place] = key;
    thread->key_count++;
}

/* A signal handler finds no table with a mask that is too large for it. */
static void keys_set(struct thread *thread, uint64_t *keys, uint32_t mask)
{
    thread->key_mask = KEYS_FIRST - 1;
    __atomic_signal_fence(__ATOMIC_SEQ_CST);
    thread->keys = keys;
    __atomic_signal_fence(__ATOMIC_SEQ_CST);
    thread->key_mask = mask;
}

static void keys_drop(struct thread *thread, uint64_t *keys, uint32_t mask)
{
    if (keys != thread->first_keys)
        pages_drop(keys, sizeof *keys * (mask + 1));
}

static void keys_forget(struct thread *thread)
{
    uint64_t *keys = thread->keys;
    uint32_t mask = thread->key_mask;
    thread->changing = 1;
    __atomic_signal_fence(__ATOMIC_SEQ_CST);
    keys_set(thread, thread->first_keys, KEYS_FIRST - 1);
    memset(thread->first_keys, 0, sizeof thread->first_keys);
    thread->key_count = 0;
    keys_drop(thread, keys, mask);
    __atomic_signal_fence(__ATOMIC_SEQ_CST);
    thread->changing = 0;
}

static void keys_grow(struct thread *thread)
{
    uint64_t *old = thread->keys;
    uint32_t size = thread->key_mask + 1;
    uint64_t *larger = size < KEYS_LIMIT ? pages_new(2 * (size_t)size * sizeof *larger) : NULL;
    if (!larger)
        return;
    keys_set(thread, larger, 2 * size - 1);
    thread->key_count = 0;
    for (uint32_t i = 0; i < size; i++)
        if (old[i] > KEY_GONE)
            key_insert(thread, old[i]);
    if (thread->renews) /* these were put down after a signal handler had emptied it */
        memset(larger, 0, 2 * (size_t)size * sizeof *larger);
    keys_drop(thread, old, size - 1);
}

static void identities_renew(struct thread *thread, uint64_t *before);

/* After a segment ended amid a change: what is held now was acquired in an earlier one. */
static void segment_renew(struct thread *thread)
{
    thread->renews = 0;
    __atomic_signal_fence(__ATOMIC_SEQ_CST);
    thread->segments++;
    identities_renew(thread, NULL);
    keys_forget(thread);
}

int key_is_news_further(struct thread *thread, uint64_t key)
{
    if (thread->changing || process.all)
        return 1;
    if (unlikely(thread->renews) && !is_amid_change(thread)) {
        segment_renew(thread);
        return 1;
    }
    for (uint32_t place = key >> 8 & thread->key_mask; thread->keys[place]; place = (place + 1) & thread->key_mask)
        if (thread->keys[place] == key)
            return 0;
    if (is_amid_change(thread))
        return 1;
    thread->changing = 1;
    __atomic_signal_fence(__ATOMIC_SEQ_CST);
    if (2 * thread->key_count > thread->key_mask)
        keys_grow(thread);
    if (2 * thread->key_count <= thread->key_mask)
        key_insert(thread, key);
    __atomic_signal_fence(__ATOMIC_SEQ_CST);
    thread->changing = 0;
    return 1;
}

/* --- Segments ------------------------------------------------------------------------------------------- */

/* Locks that stay held were acquired in an earlier segment: they get other identities than the same locks
 * acquired from now on. `before`: those that they had; NULL: nobody asks. */
static void identities_renew(struct thread *thread, uint64_t *before)
{
    for (uint32_t i = 0; i < thread->held_count; i++) {
        if (before)
            before[i] = thread->held[i].identity;
        thread->held[i].identity = key_of(thread->held[i].identity, thread->segments);
    }
    contexts_renew(thread, thread->held);
}

static void segment_end_amid(struct thread *thread, struct segment *before)
{
    before->keys = NULL;
    thread->renews = 1;
    memset(thread->keys, 0, sizeof *thread->keys * (thread->key_mask + 1));
    thread->key_count = 0;
}

void segment_end(struct thread *thread, struct segment *before)
{
    before->news = thread->news++;
    before->number = ++thread->segments;
    if (is_amid_change(thread)) {
        segment_end_amid(thread, before);
        return;
    }
    thread->renews = 0;
    before->keys = thread->keys;
    before->key_mask = thread->key_mask;
    before->key_count = thread->key_count;
    before->held_count = thread->held_count;
    identities_renew(thread, before->identities);
    if (thread->key_count == 0 && thread->keys == thread->first_keys)
        return;
    thread->changing = 1;
    __atomic_signal_fence(__ATOMIC_SEQ_CST);
    keys_set(thread, thread->first_keys, KEYS_FIRST - 1);
    memcpy(before->first_keys, thread->first_keys, sizeof thread->first_keys);
    memset(thread->first_keys, 0, sizeof thread->first_keys);
    thread->key_count = 0;
    __atomic_signal_fence(__ATOMIC_SEQ_CST);
    thread->changing = 0;
}

void segment_drop(struct thread *thread, const struct segment *before)
{
    if (before->keys)
        keys_drop(thread, before->keys, before->key_mask);
}

/* In a slow part. What was news in between stays so: its words were kept. Where another segment ended meanwhile, all
 * that was known is over. */
void segment_go_on(struct thread *thread, const struct segment *before)
{
    if (!before->keys || thread->renews || thread->segments != before->number) {
        segment_drop(thread, before);
        return;
    }
    for (uint32_t i = 0; i < before->held_count && i < thread->held_count; i++)
        thread->held[i].identity = before->identities[i];
    contexts_renew(thread, thread->held);
    if (thread->news == before->news + 1)
        thread->news = before->news;
    if (before->key_count == 0 && thread->key_count == 0 && before->keys == thread->keys)
        return;
    keys_drop(thread, thread->keys, thread->key_mask);
    if (before->key_count > 0)
        memcpy(thread->first_keys, before->first_keys, sizeof thread->first_keys);
    else
        memset(thread->first_keys, 0, sizeof thread->first_keys);
    keys_set(thread, before->keys, before->key_mask);
    thread->key_count = before->key_count;
}
