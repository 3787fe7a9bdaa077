/*
 * Reads the events of a recording, in memory that doesn't grow with their number. convert.py runs it twice:
 *
 *     goodlock_lines scan  < REQUEST     which events there are, and where each lock is used first
 *     goodlock_lines write < REQUEST     the lines of traces
 *
 * A request is a row of words of 8 bytes in the machine's byte order; a text is its length in bytes and then its bytes,
 * filled up with zeros to a whole word:
 *
 *     number of files;   a text each: the path
 *     number of locks that turned out to be none: their events don't count;   each: its number
 *     `write` alone, for locks and places: number of texts;   each: its number, a text
 *     `write` alone: number of traces;   each: a text, the path of its file, and as follows
 *     `write` alone, for threads: number of texts;   each: its number, a text
 *     number of chunks;  each: file, thread, offset of its words in the file, how many
 *
 * `write` leaves out forks and joins of threads without a text. `scan` answers, for each thread in the order of the
 * chunks, its number and how many events of each of the 32 kinds it has, then a row of NO_THREAD words of the same
 * length, then for each lock the thread and word of its first event.
 */
#define _GNU_SOURCE
#include "request.h"

/* --- Scanning --------------------------------------------------------------------------------------------- */

struct scan {
    struct locks met;
    uint64_t *firsts;
    size_t first_count, first_room;
    uint64_t thread, counts[KINDS];
};

static void scan_thread_end(struct scan *scan)
{
    if (scan->thread != NO_THREAD) {
        output_put((const char *)&scan->thread, sizeof scan->thread);
        output_put((const char *)scan->counts, sizeof scan->counts);
    }
    memset(scan->counts, 0, sizeof scan->counts);
}

static void scan_lock(struct scan *scan, uint64_t word)
{
    if (locks_have(&scan->met, word >> OBJECT_SHIFT))
        return;
    locks_add(&scan->met, word >> OBJECT_SHIFT);
    if (scan->first_count + 2 > scan->first_room) {
        scan->first_room = 2 * scan->first_room + 1024;
        scan->firsts = memory(scan->firsts, scan->first_room * sizeof *scan->firsts);
    }
    scan->firsts[scan->first_count++] = scan->thread;
    scan->firsts[scan->first_count++] = word;
}

static void scan_use(void *state, uint64_t thread, const uint64_t *words, size_t count)
{
    struct scan *scan = state;
    if (thread != scan->thread) {
        scan_thread_end(scan);
        scan->thread = thread;
    }
    for (size_t i = 0; i < count; i++) {
        unsigned kind = words[i] % KINDS;
        if (words[i] == 0)
            continue;
        scan->counts[kind]++;
        if (!is_of_thread(words[i]))
            scan_lock(scan, words[i]);
    }
}

static void scan_all(struct request *request)
{
    struct scan scan = {.thread = NO_THREAD};
    int *files = files_open(request);
    no_locks_read(request);
    events_read(request, files, scan_use, &scan);
    scan_thread_end(&scan);
    uint64_t end[KINDS + 1];
    memset(end, 0xff, sizeof end);
    output_put((const char *)end, sizeof end);
    output_put((const char *)scan.firsts, scan.first_count * sizeof *scan.firsts);
}

/* --- Lines ------------------------------------------------------------------------------------------------ */

static const char *const operations[KINDS] = {
    [EVENT_ACQUIRE] = "|acq(",         [EVENT_RELEASE] = "|rel(",        [EVENT_SHARED_ACQUIRE] = "|racq(",
    [EVENT_SHARED_RELEASE] = "|rrel(", [EVENT_TRY_ACQUIRE] = "|tryacq(", [EVENT_TRY_SHARED_ACQUIRE] = "|tryracq(",
    [EVENT_FORK] = "|fork(",           [EVENT_JOIN] = "|join(",          [EVENT_UPGRADE] = "|upgrade(",
    [EVENT_BEYOND] = "|beyond(",       [EVENT_AGAIN] = "|again(",
};

struct lines {
    struct texts locks, places, threads;
};

static void put_text(const struct texts *texts, uint64_t number)
{
    struct text text = has_text(texts, number) ? texts->of[number] : (struct text){"?", 1};
    output_put(text.bytes, text.size);
}

static void lines_use(void *state, uint64_t thread, const uint64_t *words, size_t count)
{
    struct lines *lines = state;
    for (size_t i = 0; i < count; i++) {
        uint64_t word = words[i];
        const char *operation = operations[word % KINDS];
        if (!operation)
            continue;
        if (is_of_thread(word) && !has_text(&lines->threads, word >> OBJECT_SHIFT))
            continue;
        put_text(&lines->threads, thread);
        output_put(operation, strlen(operation));
        put_text(is_of_thread(word) ? &lines->threads : &lines->locks, word >> OBJECT_SHIFT);
        output_put(")|", 2);
        put_text(&lines->places, word >> SITE_SHIFT & (SITE_LIMIT - 1));
        output_put("\n", 1);
    }
}

static void lines_all(struct request *request)
{
    struct lines lines;
    int *files = files_open(request);
    no_locks_read(request);
    lines.locks = next_texts(request);
    lines.places = next_texts(request);
    for (uint64_t left = next_word(request); left > 0; left--) {
        struct text path = next_text(request);
        char *name = strndup(path.bytes, path.size);
        output_file = open(name, O_WRONLY | O_CLOEXEC);
        if (output_file < 0)
            fail(name);
        free(name);
        lines.threads = next_texts(request);
        events_read(request, files, lines_use, &lines);
        texts_drop(&lines.threads);
        output_flush();
        if (close(output_file) != 0)
            fail("writing");
    }
}

int main(int count, char **arguments)
{
    int scans = count == 2 && strcmp(arguments[1], "scan") == 0;
    if (!scans && (count != 2 || strcmp(arguments[1], "write") != 0)) {
        fprintf(stderr, "usage: goodlock_lines scan|write < REQUEST\n");
        return 2;
    }
    struct request request = request_read();
    if (scans)
        scan_all(&request);
    else
        lines_all(&request);
    output_flush();
    return 0;
}
