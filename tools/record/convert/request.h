/*
 * What the programs that read a recording's events share: their request, which comes on standard input, the events of
 * its chunks, and what they write. lines.c and live.c say what their requests have; all is words of 8 bytes in the
 * machine's byte order, and a text is its length in bytes and then its bytes, filled up with zeros to a whole word.
 */
#ifndef GOODLOCK_REQUEST_H
#define GOODLOCK_REQUEST_H

#include <errno.h>
#include <fcntl.h>
#include <signal.h>
#include <stdio.h>
#include <stdlib.h>
#include <string.h>
#include <sys/stat.h>
#include <unistd.h>

#include "../layout.h"

#define KINDS 32
#define PIECE_WORDS (1u << 17)
#define OUTPUT_BYTES (1u << 20)
#define NO_THREAD UINT64_MAX

static inline void fail(const char *what)
{
    fprintf(stderr, "%s: %s\n", what, strerror(errno));
    exit(1);
}

static inline void *memory(void *old, size_t bytes)
{
    void *now = realloc(old, bytes);
    if (!now)
        fail("memory");
    return now;
}

/* --- The request ------------------------------------------------------------------------------------------ */

struct text {
    const char *bytes;
    size_t size;
};

struct texts {
    struct text *of;
    uint64_t count;
};

struct request {
    uint64_t *words;
    size_t count, at;
};

/* What comes first in each program. A limit of file sizes is an error of writing, and no end by a signal. */
static inline struct request request_read(void)
{
    signal(SIGXFSZ, SIG_IGN);
    struct request request = {NULL, 0, 0};
    size_t room = 0, size = 0;
    ssize_t got = 1;
    while (got > 0) {
        if (room - size < OUTPUT_BYTES)
            request.words = memory(request.words, room = 2 * room + 2 * OUTPUT_BYTES);
        got = read(0, (char *)request.words + size, room - size);
        if (got < 0)
            fail("request");
        size += (size_t)got;
    }
    request.count = size / sizeof *request.words;
    return request;
}

static inline uint64_t next_word(struct request *request)
{
    if (request->at >= request->count) {
        errno = EINVAL;
        fail("request");
    }
    return request->words[request->at++];
}

static inline struct text next_text(struct request *request)
{
    uint64_t size = next_word(request);
    uint64_t words = (size + 7) / 8;
    if (words > request->count - request->at) {
        errno = EINVAL;
        fail("request");
    }
    struct text text = {(const char *)&request->words[request->at], (size_t)size};
    request->at += words;
    return text;
}

static inline struct texts next_texts(struct request *request)
{
    struct texts texts = {NULL, 0};
    for (uint64_t left = next_word(request); left > 0; left--) {
        uint64_t number = next_word(request);
        if (number >= texts.count) {
            uint64_t count = number + number / 2 + 16;
            texts.of = memory(texts.of, count * sizeof *texts.of);
            for (; texts.count < count; texts.count++)
                texts.of[texts.count] = (struct text){NULL, 0};
        }
        texts.of[number] = next_text(request);
    }
    return texts;
}

static inline int has_text(const struct texts *texts, uint64_t number)
{
    return number < texts->count && texts->of[number].bytes;
}

static inline void texts_drop(struct texts *texts)
{
    free(texts->of);
    *texts = (struct texts){NULL, 0};
}

/* --- Events ----------------------------------------------------------------------------------------------- */

static inline int *files_open(struct request *request)
{
    uint64_t count = next_word(request);
    int *files = memory(NULL, (count + 1) * sizeof *files);
    for (uint64_t i = 0; i < count; i++) {
        struct text path = next_text(request);
        char *name = strndup(path.bytes, path.size);
        files[i] = open(name, O_RDONLY | O_CLOEXEC | O_NOFOLLOW | O_NONBLOCK);
        if (files[i] < 0)
            fail(name);
        free(name);
    }
    return files;
}

/* A set of locks, as bits. */
struct locks {
    uint64_t *bits;
    uint64_t words;
};

static inline int locks_have(const struct locks *locks, uint64_t lock)
{
    return lock / 64 < locks->words && (locks->bits[lock / 64] >> lock % 64 & 1);
}

static inline void locks_add(struct locks *locks, uint64_t lock)
{
    uint64_t place = lock / 64;
    if (place >= locks->words) {
        uint64_t count = place + place / 2 + 64;
        locks->bits = memory(locks->bits, count * sizeof *locks->bits);
        memset(locks->bits + locks->words, 0, (count - locks->words) * sizeof *locks->bits);
        locks->words = count;
    }
    locks->bits[place] |= 1ull << lock % 64;
}

static struct locks no_locks;

static inline void no_locks_read(struct request *request)
{
    for (uint64_t left = next_word(request); left > 0; left--)
        locks_add(&no_locks, next_word(request));
}

static inline int is_of_thread(uint64_t word)
{
    return word % KINDS == EVENT_FORK || word % KINDS == EVENT_JOIN;
}

/* Events of locks that are none become zeros, which stand for no event. */
static inline void no_locks_leave_out(uint64_t *words, size_t count)
{
    for (size_t i = 0; no_locks.words > 0 && i < count; i++)
        if (!is_of_thread(words[i]) && locks_have(&no_locks, words[i] >> OBJECT_SHIFT))
            words[i] = 0;
}

/* Calls `use` with the words of each chunk, in pieces. */
static inline void events_read(struct request *request, const int *files,
                               void (*use)(void *, uint64_t, const uint64_t *, size_t), void *state)
{
    static uint64_t piece[PIECE_WORDS];
    for (uint64_t left = next_word(request); left > 0; left--) {
        uint64_t file = next_word(request), thread = next_word(request);
        uint64_t offset = next_word(request), words = next_word(request);
        while (words > 0) {
            size_t wanted = (words < PIECE_WORDS ? words : PIECE_WORDS) * sizeof piece[0];
            ssize_t got = pread(files[file], piece, wanted, (off_t)offset);
            if (got < 0)
                fail("events");
            if (got < (ssize_t)sizeof piece[0])
                break;
            size_t count = (size_t)got / sizeof piece[0];
            no_locks_leave_out(piece, count);
            use(state, thread, piece, count);
            offset += count * sizeof piece[0];
            words -= count;
        }
    }
}

/* --- Output ----------------------------------------------------------------------------------------------- */

static char output[OUTPUT_BYTES];
static size_t output_used;
static int output_file = 1;

static inline void output_flush(void)
{
    for (size_t done = 0; done < output_used;) {
        ssize_t put = write(output_file, output + done, output_used - done);
        if (put < 0)
            fail("writing");
        done += (size_t)put;
    }
    output_used = 0;
}

static inline void output_put(const char *bytes, size_t size)
{
    while (size > OUTPUT_BYTES - output_used) {
        size_t part = OUTPUT_BYTES - output_used;
        memcpy(output + output_used, bytes, part);
        output_used = OUTPUT_BYTES;
        output_flush();
        bytes += part;
        size -= part;
    }
    memcpy(output + output_used, bytes, size);
    output_used += size;
}

#endif
