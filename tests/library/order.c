/* Tells the same of two threads to goodlock.h with locks and places numbered in opposite orders: reports by mention are
 * alike, byte for byte, of cycles and of findings.
 *
 *     library_order same       texts and JSON of both orders, against each other and against a text by hand
 *     library_order refused    what stands against such a report: no session, not settled, a number, no name
 *
 * What isn't as it has to be is told on standard output; the last line is how many checks passed and failed. */
#include "checks.h"
#include "goodlock.h"

#include <stdio.h>
#include <string.h>

/* ---- What the threads do */

enum { LOCKS = 4, PLACES = 8, PAIRS = 2, UNTOLD = 99 };

static const char *const lock_names[LOCKS] = {"door", "key", "lamp", "bell"};
static const char *const place_names[PLACES] = {"hall:1", "hall:2", "hall:3", "hall:4",
                                                "yard:1", "yard:2", "yard:3", "yard:4"};

/* For each thread the locks that it takes, one while it holds the other, and where: by their places in these lists. */
static const struct {
    int outer, inner, since, at;
} pairs[2][PAIRS] = {{{0, 1, 0, 1}, {2, 3, 2, 3}}, {{3, 2, 4, 5}, {1, 0, 6, 7}}};

/* By mention the locks are numbered door, key, lamp, bell, so thread 0's edge from the door comes first. */
static const char BY_MENTION[] = "cycle 1: 2 edges\n"
                                 "  T0 holds door since hall:1 wants key at hall:2\n"
                                 "  T1 holds key since yard:3 wants door at yard:4\n"
                                 "cycle 2: 2 edges\n"
                                 "  T0 holds lamp since hall:3 wants bell at hall:4\n"
                                 "  T1 holds bell since yard:1 wants lamp at yard:2\n"
                                 "cycles: 2\n";

/* Where the bell was told first and the door last, that edge comes behind the one from the lamp. */
static const char BELL_FIRST[] = "cycle 1: 2 edges\n"
                                 "  T0 holds lamp since hall:3 wants bell at hall:4\n"
                                 "  T1 holds bell since yard:1 wants lamp at yard:2\n"
                                 "cycle 2: 2 edges\n"
                                 "  T0 holds door since hall:1 wants key at hall:2\n"
                                 "  T1 holds key since yard:3 wants door at yard:4\n"
                                 "cycles: 2\n";

/* Findings, in the same orders: each has two places of its own for either thread. */
static const char FINDINGS_BY_MENTION[] = "finding 1: 2 edges\n"
                                          "  T0 holds door since hall:1 wants key at hall:2\n"
                                          "    threads: 1, locks: 2\n"
                                          "  T1 holds key since yard:3 wants door at yard:4\n"
                                          "    threads: 1, locks: 2\n"
                                          "finding 2: 2 edges\n"
                                          "  T0 holds lamp since hall:3 wants bell at hall:4\n"
                                          "    threads: 1, locks: 2\n"
                                          "  T1 holds bell since yard:1 wants lamp at yard:2\n"
                                          "    threads: 1, locks: 2\n"
                                          "findings: 2\n";

static const char FINDINGS_BELL_FIRST[] = "finding 1: 2 edges\n"
                                          "  T0 holds lamp since hall:3 wants bell at hall:4\n"
                                          "    threads: 1, locks: 2\n"
                                          "  T1 holds bell since yard:1 wants lamp at yard:2\n"
                                          "    threads: 1, locks: 2\n"
                                          "finding 2: 2 edges\n"
                                          "  T0 holds door since hall:1 wants key at hall:2\n"
                                          "    threads: 1, locks: 2\n"
                                          "  T1 holds key since yard:3 wants door at yard:4\n"
                                          "    threads: 1, locks: 2\n"
                                          "findings: 2\n";

/* ---- A session */

typedef struct told {
    goodlock_session session;
    goodlock_lane lanes[2];
    uint32_t locks[LOCKS], places[PLACES];
} told;

static void tell(told *all, uint32_t (*call)(goodlock_session *, const uint8_t *, size_t, uint32_t *), const char *name,
                 uint32_t *number)
{
    expect(name, call(&all->session, (const uint8_t *)name, strlen(name), number), GOODLOCK_OK);
}

/* Opens it, with names told in the order of the lists, or backwards. */
static void open_told(told *all, bool is_backwards)
{
    static uint64_t last;
    uint32_t thread;
    memset(all, 0, sizeof *all);
    expect("open", goodlock_open(++last, 2, 64, &all->session), GOODLOCK_OK);
    for (int i = 0; i < LOCKS; i++) {
        const int at = is_backwards ? LOCKS - 1 - i : i;
        tell(all, goodlock_lock, lock_names[at], &all->locks[at]);
    }
    for (int i = 0; i < PLACES; i++) {
        const int at = is_backwards ? PLACES - 1 - i : i;
        tell(all, goodlock_place, place_names[at], &all->places[at]);
    }
    for (int i = 0; i < 2; i++)
        expect("lane", goodlock_lane_open(&all->session, &all->lanes[i], &thread), GOODLOCK_OK);
}

static void record_pairs(told *all)
{
    for (int thread = 0; thread < 2; thread++) {
        for (int i = 0; i < PAIRS; i++) {
            goodlock_lane *lane = &all->lanes[thread];
            const uint32_t outer = all->locks[pairs[thread][i].outer], inner = all->locks[pairs[thread][i].inner];
            const uint32_t since = all->places[pairs[thread][i].since], at = all->places[pairs[thread][i].at];
            expect("acquire", goodlock_acquire(lane, outer, since), GOODLOCK_OK);
            expect("acquire", goodlock_acquire(lane, inner, at), GOODLOCK_OK);
            expect("release", goodlock_release(lane, inner, at), GOODLOCK_OK);
            expect("release", goodlock_release(lane, outer, since), GOODLOCK_OK);
        }
    }
}

static void settle(told *all)
{
    goodlock_pulled pulled;
    uint32_t thread;
    for (int i = 0; i < 2; i++)
        expect("close", goodlock_close(&all->lanes[i]), GOODLOCK_OK);
    do {
        expect("pull", goodlock_pull(&all->session, 100, &pulled), GOODLOCK_OK);
    } while (pulled.events + pulled.ended > 0);
    for (int i = 0; i < 2; i++)
        expect("hand_in", goodlock_hand_in(&all->session, &all->lanes[i]), GOODLOCK_OK);
    expect("settle", goodlock_settle(&all->session, &thread), GOODLOCK_OK);
}

static bool is_text(told *all, goodlock_report *report, const char *right)
{
    uint8_t buffer[1000];
    size_t size = 0;
    return goodlock_text(&all->session, report, buffer, sizeof buffer, &size) == GOODLOCK_OK && size == strlen(right) &&
           memcmp(buffer, right, size) == 0;
}

/* ---- The same report */

enum { BUFFER = 8000 };

typedef uint32_t reporting(goodlock_session *, uint32_t, uint32_t, uint32_t, goodlock_report *);

/* What is listed, cycles or findings: the calls, and the texts by mention and by numbers that were told backwards. */
static const struct listing {
    reporting *by_mention, *settled;
    const char *text, *text_backwards;
} listings[] = {{goodlock_report_by_mention, goodlock_settled_report, BY_MENTION, BELL_FIRST},
                {goodlock_findings_by_mention, goodlock_settled_findings, FINDINGS_BY_MENTION, FINDINGS_BELL_FIRST}};

/* One session's report by mention; its JSON, and how long that is. */
static size_t make(const struct listing *listing, bool is_backwards, uint8_t *json)
{
    const char *const own_text = is_backwards ? listing->text_backwards : listing->text;
    told all;
    goodlock_report report = {NULL}, own = {NULL};
    size_t size = 0, count = 0;
    uint32_t late;
    bool more = true;
    open_told(&all, is_backwards);
    record_pairs(&all);
    settle(&all);
    expect("by mention", listing->by_mention(&all.session, GOODLOCK_FULL_MODE, 4, 1000, &report), GOODLOCK_OK);
    check(is_text(&all, &report, listing->text), "the text by mention");
    expect("cycles", goodlock_cycles(&report, &count, &more), GOODLOCK_OK);
    check(count == 2 && !more, "there are two");
    expect("JSON", goodlock_json(&all.session, &report, json, BUFFER, &size), GOODLOCK_OK);
    check(size <= BUFFER, "the JSON fits");
    expect("settled", listing->settled(&all.session, GOODLOCK_FULL_MODE, 4, 1000, &own), GOODLOCK_OK);
    check(is_text(&all, &own, own_text), "the text by the session's numbers");
    tell(&all, goodlock_lock, "late", &late);
    check(is_text(&all, &report, listing->text), "the text by mention, once more names were told");
    check(is_text(&all, &own, own_text), "the other text, once more names were told");
    goodlock_report_free(&report);
    goodlock_report_free(&own);
    expect("one at most", listing->by_mention(&all.session, GOODLOCK_FULL_MODE, 4, 1, &report), GOODLOCK_OK);
    expect("cycles", goodlock_cycles(&report, &count, &more), GOODLOCK_OK);
    check(count == 1 && more, "one is listed, and there are more");
    goodlock_report_free(&report);
    goodlock_session_free(&all.session);
    return size;
}

static void same(void)
{
    static uint8_t forwards[BUFFER], backwards[BUFFER];
    for (int i = 0; i < 2; i++) {
        const size_t size = make(&listings[i], false, forwards);
        const size_t other = make(&listings[i], true, backwards);
        check(size == other && size > 0 && memcmp(forwards, backwards, size) == 0,
              "the JSON is the same, byte for byte");
    }
}

/* ---- What stands against it */

static void refuse(told *all, const char *what, uint32_t mode, uint32_t length, uint32_t most, uint32_t right)
{
    goodlock_report report = {NULL};
    for (int i = 0; i < 2; i++) {
        expect(what, listings[i].by_mention(&all->session, mode, length, most, &report), right);
        check(report.at == NULL, "a report that isn't made is all zero");
    }
}

/* A session in which thread 0 mentions this lock at this place. */
static void unnamed(const char *what, uint32_t lock, uint32_t place)
{
    told all;
    goodlock_report report = {NULL};
    open_told(&all, false);
    record_pairs(&all);
    expect("acquire", goodlock_acquire(&all.lanes[0], lock, place), GOODLOCK_OK);
    settle(&all);
    refuse(&all, what, GOODLOCK_FULL_MODE, 4, 1000, GOODLOCK_UNNAMED);
    for (int i = 0; i < 2; i++) {
        expect("settled", listings[i].settled(&all.session, GOODLOCK_FULL_MODE, 4, 1000, &report), GOODLOCK_OK);
        check(is_text(&all, &report, listings[i].text), "the settled report wants no names");
        goodlock_report_free(&report);
    }
    goodlock_session_free(&all.session);
}

static void refused(void)
{
    told all;
    goodlock_report report = {NULL};
    memset(&all, 0, sizeof all);
    refuse(&all, "no session", GOODLOCK_FULL_MODE, 4, 1000, GOODLOCK_MISUSE);
    open_told(&all, false);
    record_pairs(&all);
    refuse(&all, "before it is settled", GOODLOCK_FULL_MODE, 4, 1000, GOODLOCK_MISUSE);
    settle(&all);
    refuse(&all, "a mode", 3, 4, 1000, GOODLOCK_RANGE);
    refuse(&all, "a length", GOODLOCK_FULL_MODE, 1, 1000, GOODLOCK_RANGE);
    refuse(&all, "a length", GOODLOCK_FULL_MODE, 17, 1000, GOODLOCK_RANGE);
    refuse(&all, "no cycles", GOODLOCK_FULL_MODE, 4, 0, GOODLOCK_RANGE);
    expect("by mention", goodlock_report_by_mention(&all.session, GOODLOCK_FULL_MODE, 4, 1000, &report), GOODLOCK_OK);
    expect("over a report", goodlock_report_by_mention(&all.session, GOODLOCK_FULL_MODE, 4, 1000, &report),
           GOODLOCK_MISUSE);
    check(is_text(&all, &report, BY_MENTION), "the report stays as it was");
    goodlock_report_free(&report);
    goodlock_session_free(&all.session);
    unnamed("a lock without a name", LOCKS, 0);
    unnamed("a place without a name", 0, PLACES);
    unnamed("neither has a name", UNTOLD, UNTOLD);
    check(strcmp(goodlock_says(GOODLOCK_UNNAMED), "a lock or a place has no name") == 0, "UNNAMED in words");
}

int main(int count, char **words)
{
    if (count == 2 && strcmp(words[1], "same") == 0) {
        same();
    } else if (count == 2 && strcmp(words[1], "refused") == 0) {
        refused();
    } else {
        fprintf(stderr, "library_order same | refused\n");
        return 2;
    }
    printf("%u passed, %u failed\n", passed, failed);
    return failed > 0;
}
