/* Uses goodlock.h wrongly, leaves its sessions in mid-course, and refuses it memory.
 *
 *     library_misuse misuse     each call on handles and numbers that it doesn't take
 *     library_misuse limits     64 locks, 1,000,000 acquires, 1,024 threads, names, a pull of more than a ring holds, a
 *                               thousand cycles that are one finding
 *     library_misuse memory     one session, in which the first request for memory is refused, then the second ..; it
 *                               pulls off all lanes, and again off one lane after the other. The same of each call that
 *                               makes findings, with what prints them
 *     library_misuse fork       children that are forked while another thread records, and leave by _exit
 *     library_misuse exit       main returns while a thread records
 *
 * Memory is refused by the linker's --wrap of malloc, calloc, realloc and aligned_alloc. What isn't as it has to be is
 * told on standard output; the last line is how many checks passed and failed. */
#include "checks.h"
#include "goodlock.h"
#include "refusing.h"

#include <limits.h>
#include <pthread.h>
#include <sched.h>
#include <stdio.h>
#include <stdlib.h>
#include <string.h>
#include <sys/wait.h>
#include <unistd.h>

/* Makes a call; where memory is refused in it, and it says so, once more with ample memory. */
#define TRY(call) \
    do { \
        uint32_t code; \
        is_counted = true; \
        code = (call); \
        is_counted = false; \
        if (code == GOODLOCK_MEMORY) { \
            check(was_refused, #call ": MEMORY without a refusal"); \
            told++; \
            refuse_at = 0; \
            code = (call); \
        } else if (was_refused) { \
            refuse_at = 0; \
        } \
        expect(#call, code, GOODLOCK_OK); \
    } while (0)

/* ---- A session of two threads in opposite orders, on one thread */

static const char EXPECTED[] = "cycle 1: 2 edges\n"
                               "  T0 holds a since here wants b at there\n"
                               "  T1 holds b since here wants a at there\n"
                               "cycles: 1\n";

static const char *const NO_CYCLE = "cycles: 0\n";

/* Both threads hold a lock since `here` and want one at `there`. */
static const char FINDING[] = "finding 1: 2 edges\n"
                              "  T0 holds a since here wants b at there\n"
                              "    threads: 2, locks: 2\n"
                              "  T1 holds b since here wants a at there\n"
                              "    threads: 2, locks: 2\n"
                              "findings: 1\n";
static const char FINDING_JSON_END[] =
    "\"findings\":[[0,1]],\"format\":3,\"len\":4,\"max\":1000,\"mode\":\"full\",\"more\":false}\n";

/* The calls that make reports and findings, and what they say of the two threads. */
static const struct maker {
    const char *name;
    uint32_t (*make)(goodlock_session *, uint32_t, uint32_t, uint32_t, goodlock_report *);
    bool is_of_settled;
    const char *text;
} MAKERS[] = {{"report so far", goodlock_report_so_far, false, EXPECTED},
              {"settled report", goodlock_settled_report, true, EXPECTED},
              {"report by mention", goodlock_report_by_mention, true, EXPECTED},
              {"findings so far", goodlock_findings_so_far, false, FINDING},
              {"settled findings", goodlock_settled_findings, true, FINDING},
              {"findings by mention", goodlock_findings_by_mention, true, FINDING}};
enum { COUNT_OF_MAKERS = sizeof MAKERS / sizeof *MAKERS };

static uint32_t number(uint32_t (*call)(goodlock_session *, const uint8_t *, size_t, uint32_t *),
                       goodlock_session *session, const char *name, uint32_t *number)
{
    return call(session, (const uint8_t *)name, strlen(name), number);
}

static uint64_t next_session(void)
{
    static uint64_t last;
    return ++last;
}

static bool is_text(goodlock_session *session, goodlock_report *report, const char *right)
{
    uint8_t buffer[1000];
    size_t size = 0;
    return goodlock_text(session, report, buffer, sizeof buffer, &size) == GOODLOCK_OK && size == strlen(right) &&
           memcmp(buffer, right, size) == 0;
}

static void acquire_two(goodlock_lane *lane, uint32_t first, uint32_t second)
{
    expect("acquire", goodlock_acquire(lane, first, 0), GOODLOCK_OK);
    expect("acquire", goodlock_acquire(lane, second, 1), GOODLOCK_OK);
}

static void release_two(goodlock_lane *lane, uint32_t first, uint32_t second)
{
    expect("release", goodlock_release(lane, first, 1), GOODLOCK_OK);
    expect("release", goodlock_release(lane, second, 0), GOODLOCK_OK);
}

static void name_two(goodlock_session *session)
{
    uint32_t at;
    number(goodlock_lock, session, "a", &at);
    number(goodlock_lock, session, "b", &at);
    number(goodlock_place, session, "here", &at);
    number(goodlock_place, session, "there", &at);
}

/* A session with all names told and two lanes. */
static void open_two(goodlock_session *session, goodlock_lane *lanes, uint32_t ring)
{
    uint32_t thread;
    session->at = lanes[0].at = lanes[1].at = NULL;
    expect("open", goodlock_open(next_session(), 2, ring, session), GOODLOCK_OK);
    name_two(session);
    for (uint32_t i = 0; i < 2; i++) {
        expect("lane", goodlock_lane_open(session, &lanes[i], &thread), GOODLOCK_OK);
        check(thread == i, "lanes have the numbers 0 and 1");
    }
}

static void pull_all(goodlock_session *session)
{
    goodlock_pulled pulled;
    do {
        expect("pull", goodlock_pull(session, 100, &pulled), GOODLOCK_OK);
    } while (pulled.events + pulled.ended > 0);
}

static void end_lane(goodlock_session *session, goodlock_lane *lane)
{
    expect("close", goodlock_close(lane), GOODLOCK_OK);
    pull_all(session);
    expect("hand_in", goodlock_hand_in(session, lane), GOODLOCK_OK);
    check(lane->at == NULL, "a lane that was handed in is all zero");
}

/* A session whose threads took two locks in opposite orders. */
static void record_opposite(goodlock_session *session, goodlock_lane *lanes)
{
    open_two(session, lanes, 8);
    acquire_two(&lanes[0], 0, 1);
    acquire_two(&lanes[1], 1, 0);
    pull_all(session);
}

static void settle_two(goodlock_session *session, goodlock_lane *lanes)
{
    uint32_t thread;
    for (int i = 0; i < 2; i++)
        end_lane(session, &lanes[i]);
    expect("settle", goodlock_settle(session, &thread), GOODLOCK_OK);
}

/* How often a pull was refused memory. */
static unsigned refused_pulls;

/* Pulls off all lanes, or off one: what was pulled by then is told where memory is refused, too. */
static void pull_refused(goodlock_session *session, bool by_lane, uint32_t thread, uint32_t *events, uint32_t *ended)
{
    goodlock_pulled pulled = {9, 9};
    uint32_t code;
    is_counted = true;
    code = by_lane ? goodlock_pull_lane(session, thread, 100, &pulled) : goodlock_pull(session, 100, &pulled);
    is_counted = false;
    *events += pulled.events;
    *ended += pulled.ended;
    if (code == GOODLOCK_MEMORY) {
        check(was_refused, "pull: MEMORY without a refusal");
        refused_pulls++;
    } else {
        expect("pull", code, GOODLOCK_OK);
    }
    if (was_refused)
        refuse_at = 0;
}

/* The whole session; how often a call told that memory was refused. */
static unsigned whole_session(bool by_lane)
{
    goodlock_session session = {NULL};
    goodlock_lane lanes[2] = {{NULL}, {NULL}};
    goodlock_report report = {NULL};
    goodlock_pulled pulled;
    uint8_t buffer[2000];
    uint32_t at, a, b, here, there, events = 0, ended = 0;
    size_t size, cycles;
    bool more;
    unsigned told = 0;
    long before;
    const uint64_t own = next_session();
    refused_pulls = 0;
    TRY(goodlock_open(own, 2, 3, &session));
    TRY(number(goodlock_lock, &session, "a", &a));
    TRY(number(goodlock_lock, &session, "b", &b));
    TRY(number(goodlock_place, &session, "here", &here));
    TRY(number(goodlock_place, &session, "there", &there));
    check(a == 0 && b == 1 && here == 0 && there == 1, "names are numbered 0 and 1");
    for (int i = 0; i < 2; i++)
        TRY(goodlock_lane_open(&session, &lanes[i], &at));
    for (int i = 0; i < 2; i++) {
        const uint32_t first = i == 0 ? a : b, second = i == 0 ? b : a;
        before = requests;
        TRY(goodlock_record(&lanes[i], GOODLOCK_ACQUIRE, first, here, &at));
        TRY(goodlock_record(&lanes[i], GOODLOCK_ACQUIRE, second, there, &at));
        TRY(goodlock_record(&lanes[i], GOODLOCK_RELEASE, second, there, &at));
        expect("a full lane", goodlock_record(&lanes[i], GOODLOCK_RELEASE, first, there, &at), GOODLOCK_FULL);
        expect("a full lane, an unlawful event", goodlock_release(&lanes[i], 9, there), GOODLOCK_NOT_HELD);
        expect("a full lane's close", goodlock_close(&lanes[i]), GOODLOCK_FULL);
        check(requests == before, "records take no memory");
        for (int k = 0; k < 4; k++)
            pull_refused(&session, by_lane, (uint32_t)(i + k) % 2, &events, &ended);
        TRY(goodlock_record(&lanes[i], GOODLOCK_RELEASE, first, there, &at));
        TRY(goodlock_close(&lanes[i]));
    }
    check(events == 7 && ended == 1, "all but the last event and end were pulled");
    do {
        at = goodlock_pull(&session, 100, &pulled);
        events += pulled.events;
        ended += pulled.ended;
    } while (at == GOODLOCK_MEMORY || pulled.events + pulled.ended > 0);
    check(events == 8 && ended == 2, "eight events and two ends were pulled");
    for (int i = 0; i < 2; i++)
        TRY(goodlock_hand_in(&session, &lanes[i]));
    TRY(goodlock_report_so_far(&session, GOODLOCK_FULL_MODE, 4, 1000, &report));
    TRY(goodlock_text(&session, &report, buffer, sizeof buffer, &size));
    check(size == strlen(EXPECTED) && memcmp(buffer, EXPECTED, size) == 0, "the text so far");
    goodlock_report_free(&report);
    before = requests;
    TRY(goodlock_settle(&session, &at));
    check(requests == before, "settling takes no memory");
    TRY(goodlock_settled_report(&session, GOODLOCK_FULL_MODE, 4, 1000, &report));
    TRY(goodlock_json(&session, &report, buffer, sizeof buffer, &size));
    check(size < sizeof buffer && buffer[0] == '{' && buffer[size - 1] == '\n', "the JSON is a line");
    TRY(goodlock_text(&session, &report, buffer, sizeof buffer, &size));
    check(size == strlen(EXPECTED) && memcmp(buffer, EXPECTED, size) == 0, "the settled text");
    goodlock_report_free(&report);
    TRY(goodlock_report_by_mention(&session, GOODLOCK_FULL_MODE, 4, 1000, &report));
    TRY(goodlock_text(&session, &report, buffer, sizeof buffer, &size));
    check(size == strlen(EXPECTED) && memcmp(buffer, EXPECTED, size) == 0, "the text by mention");
    before = requests;
    TRY(goodlock_cycles(&report, &cycles, &more));
    check(cycles == 1 && !more, "there is one cycle");
    is_counted = true;
    goodlock_report_free(&report);
    goodlock_session_free(&session);
    is_counted = false;
    check(requests == before, "to count cycles takes no memory, nor does what frees");
    check(session.at == NULL && report.at == NULL, "what was freed is all zero");
    return told + refused_pulls;
}

/* Refuses the first request of the session, then the second .., alone or with all that follow in the call. */
static void refuse_each(bool onwards, bool by_lane)
{
    unsigned told = 0, pulls = 0;
    long calls = 0;
    for (long at = 1;; at++) {
        is_onwards = onwards;
        requests = 0;
        was_refused = false;
        refuse_at = at;
        told += whole_session(by_lane);
        pulls += refused_pulls;
        if (!was_refused)
            break;
        calls++;
    }
    refuse_at = 0;
    printf("memory %s, pulls %s: %ld requests refused, %u told, %u of them by pulls\n", onwards ? "onwards" : "once",
           by_lane ? "off a lane" : "off all lanes", calls, told, pulls);
    check(calls > 5 && told > pulls, "memory was asked for and refused");
    check(pulls > 1, "pulls asked for memory that was refused");
}

/* Findings of a session that stands, printed in both ways; how often a call told that memory was refused. */
static unsigned whole_findings(goodlock_session *session, const struct maker *maker)
{
    const size_t end = strlen(FINDING_JSON_END);
    goodlock_report report = {NULL};
    uint8_t buffer[2000];
    size_t size = 0, count = 0;
    bool more = true;
    unsigned told = 0;
    long before;
    TRY(maker->make(session, GOODLOCK_FULL_MODE, 4, 1000, &report));
    TRY(goodlock_text(session, &report, buffer, sizeof buffer, &size));
    check(size == strlen(FINDING) && memcmp(buffer, FINDING, size) == 0, "the text of findings");
    TRY(goodlock_json(session, &report, buffer, sizeof buffer, &size));
    check(size < sizeof buffer && size > end && memcmp(buffer + size - end, FINDING_JSON_END, end) == 0,
          "the JSON of findings");
    before = requests;
    TRY(goodlock_cycles(&report, &count, &more));
    check(count == 1 && !more, "there is one finding");
    is_counted = true;
    goodlock_report_free(&report);
    is_counted = false;
    check(requests == before && report.at == NULL, "to count findings takes no memory, nor does what frees them");
    return told;
}

/* Refuses the first request of these calls, then the second .., alone or with all that follow in the call. */
static void refuse_each_of_findings(goodlock_session *session, const struct maker *maker, bool onwards)
{
    unsigned told = 0;
    long calls = 0;
    for (long at = 1;; at++) {
        is_onwards = onwards;
        requests = 0;
        was_refused = false;
        refuse_at = at;
        told += whole_findings(session, maker);
        if (!was_refused)
            break;
        calls++;
    }
    refuse_at = 0;
    printf("memory %s, %s: %ld requests refused, %u told\n", onwards ? "onwards" : "once", maker->name, calls, told);
    check(calls > 5 && told > 5, "findings asked for memory, which was refused");
}

static void refuse_findings_at(goodlock_session *session, bool is_settled)
{
    for (unsigned i = 0; i < COUNT_OF_MAKERS; i++)
        for (int way = 0; way < 2; way++)
            if (MAKERS[i].text == FINDING && MAKERS[i].is_of_settled == is_settled)
                refuse_each_of_findings(session, &MAKERS[i], way == 1);
}

static void refuse_memory(void)
{
    goodlock_session session;
    goodlock_lane lanes[2];
    for (int way = 0; way < 4; way++)
        refuse_each(way % 2 == 1, way / 2 == 1);
    record_opposite(&session, lanes);
    refuse_findings_at(&session, false);
    settle_two(&session, lanes);
    refuse_findings_at(&session, true);
    goodlock_session_free(&session);
}

/* ---- Misuse */

static void on_nothing(void)
{
    goodlock_session session = {NULL};
    goodlock_lane lane = {NULL};
    goodlock_report report = {NULL};
    goodlock_pulled pulled;
    uint32_t at;
    size_t size;
    bool more;
    uint8_t buffer[10];
    expect("lane of no session", goodlock_lane_open(&session, &lane, &at), GOODLOCK_MISUSE);
    expect("lock of no session", number(goodlock_lock, &session, "a", &at), GOODLOCK_MISUSE);
    expect("place of no session", number(goodlock_place, &session, "a", &at), GOODLOCK_MISUSE);
    expect("pull of no session", goodlock_pull(&session, 1, &pulled), GOODLOCK_MISUSE);
    expect("pull of no session's lane", goodlock_pull_lane(&session, 0, 1, &pulled), GOODLOCK_MISUSE);
    for (unsigned i = 0; i < COUNT_OF_MAKERS; i++)
        expect(MAKERS[i].name, MAKERS[i].make(&session, 2, 4, 10, &report), GOODLOCK_MISUSE);
    expect("hand_in to no session", goodlock_hand_in(&session, &lane), GOODLOCK_MISUSE);
    expect("settle of no session", goodlock_settle(&session, &at), GOODLOCK_MISUSE);
    expect("text of no session", goodlock_text(&session, &report, buffer, 10, &size), GOODLOCK_MISUSE);
    expect("JSON of no session", goodlock_json(&session, &report, buffer, 10, &size), GOODLOCK_MISUSE);
    expect("cycles of no report", goodlock_cycles(&report, &size, &more), GOODLOCK_MISUSE);
    expect("record of no lane", goodlock_acquire(&lane, 0, 0), GOODLOCK_MISUSE);
    expect("close of no lane", goodlock_close(&lane), GOODLOCK_MISUSE);
    goodlock_session_free(&session);
    goodlock_lane_free(&lane);
    goodlock_report_free(&report);
    check(session.at == NULL && lane.at == NULL && report.at == NULL, "nothing stays nothing");
}

static void out_of_range(void)
{
    static const uint32_t bad[][2] = {{0, 1}, {1025, 1}, {1, 0}, {1, 65537}, {UINT32_MAX, UINT32_MAX}, {0, 0}};
    goodlock_session session = {NULL};
    goodlock_lane lanes[2], third = {NULL};
    goodlock_pulled pulled;
    uint32_t at;
    for (unsigned i = 0; i < sizeof bad / sizeof *bad; i++) {
        expect("open", goodlock_open(next_session(), bad[i][0], bad[i][1], &session), GOODLOCK_RANGE);
        check(session.at == NULL, "a session that isn't opened is all zero");
    }
    open_two(&session, lanes, 4);
    expect("open twice", goodlock_open(next_session(), 2, 4, &session), GOODLOCK_MISUSE);
    expect("a third lane", goodlock_lane_open(&session, &third, &at), GOODLOCK_NO_LANE);
    check(third.at == NULL, "a lane that isn't opened is all zero");
    expect("pull of a third lane", goodlock_pull_lane(&session, 2, 1, &pulled), GOODLOCK_RANGE);
    expect("pull of nothing", goodlock_pull(&session, 0, &pulled), GOODLOCK_OK);
    check(pulled.events == 0 && pulled.ended == 0, "nothing is pulled");
    expect("a kind", goodlock_record(&lanes[0], 8, 0, 0, &at), GOODLOCK_RANGE);
    expect("a kind", goodlock_record(&lanes[0], UINT32_MAX, 0, 0, &at), GOODLOCK_RANGE);
    expect("itself", goodlock_fork(&lanes[0], 0, 0), GOODLOCK_ON_ITSELF);
    expect("no thread", goodlock_join(&lanes[0], 2, 0), GOODLOCK_NO_SUCH_THREAD);
    goodlock_lane_free(&lanes[0]);
    goodlock_lane_free(&lanes[1]);
    check(lanes[0].at == NULL, "a freed lane is all zero");
    expect("record of a freed lane", goodlock_acquire(&lanes[0], 0, 0), GOODLOCK_MISUSE);
    goodlock_session_free(&session);
    expect("pull of a freed session", goodlock_pull(&session, 1, &pulled), GOODLOCK_MISUSE);
    expect("opened again", goodlock_open(next_session(), 1, 1, &session), GOODLOCK_OK);
    goodlock_session_free(&session);
}

/* What is refused before and after a session is settled. */
static void settling(void)
{
    goodlock_session session = {NULL}, other = {NULL};
    goodlock_lane lanes[2], others[2], used;
    goodlock_report report = {NULL}, second = {NULL};
    goodlock_pulled pulled;
    uint32_t at = 77;
    open_two(&session, lanes, 8);
    open_two(&other, others, 8);
    used = lanes[0];
    expect("lane into one in use", goodlock_lane_open(&session, &used, &at), GOODLOCK_MISUSE);
    expect("hand_in while it records", goodlock_hand_in(&session, &lanes[0]), GOODLOCK_MISUSE);
    expect("settle of running threads", goodlock_settle(&session, &at), GOODLOCK_MISSING);
    check(at == 0, "thread 0 is missing first");
    expect("settled report before", goodlock_settled_report(&session, 2, 4, 10, &report), GOODLOCK_MISUSE);
    acquire_two(&lanes[0], 0, 1);
    expect("close", goodlock_close(&lanes[0]), GOODLOCK_OK);
    expect("close again", goodlock_close(&lanes[0]), GOODLOCK_MISUSE);
    expect("record after close", goodlock_acquire(&lanes[0], 0, 0), GOODLOCK_MISUSE);
    expect("hand_in to another session", goodlock_hand_in(&other, &lanes[0]), GOODLOCK_STRANGE);
    check(lanes[0].at != NULL, "a strange lane stays");
    expect("hand_in", goodlock_hand_in(&session, &lanes[0]), GOODLOCK_OK);
    expect("hand_in again", goodlock_hand_in(&session, &lanes[0]), GOODLOCK_MISUSE);
    expect("settle without thread 1", goodlock_settle(&session, &at), GOODLOCK_MISSING);
    check(at == 1, "thread 1 isn't handed in, which comes before what isn't pulled");
    acquire_two(&lanes[1], 1, 0);
    expect("close", goodlock_close(&lanes[1]), GOODLOCK_OK);
    expect("hand_in", goodlock_hand_in(&session, &lanes[1]), GOODLOCK_OK);
    expect("settle before all is pulled", goodlock_settle(&session, &at), GOODLOCK_MISSING);
    check(at == 0, "thread 0 isn't pulled to its end");
    expect("pull of lane 0", goodlock_pull_lane(&session, 0, 100, &pulled), GOODLOCK_OK);
    check(pulled.events == 2 && pulled.ended == 1, "lane 0 has two events and its end");
    expect("settle before thread 1 is pulled", goodlock_settle(&session, &at), GOODLOCK_MISSING);
    check(at == 1, "thread 1 isn't pulled to its end");
    expect("report so far", goodlock_report_so_far(&session, 2, 4, 10, &report), GOODLOCK_OK);
    check(is_text(&session, &report, NO_CYCLE), "one thread makes no cycle");
    expect("report over a report", goodlock_report_so_far(&session, 2, 4, 10, &report), GOODLOCK_MISUSE);
    pull_all(&session);
    expect("settle", goodlock_settle(&session, &at), GOODLOCK_OK);
    expect("settle again", goodlock_settle(&session, &at), GOODLOCK_MISUSE);
    expect("pull after settle", goodlock_pull(&session, 1, &pulled), GOODLOCK_MISUSE);
    expect("lane after settle", goodlock_lane_open(&session, &lanes[0], &at), GOODLOCK_NO_LANE);
    expect("report so far after settle", goodlock_report_so_far(&session, 2, 4, 10, &second), GOODLOCK_MISUSE);
    expect("settled report", goodlock_settled_report(&session, 2, 4, 10, &second), GOODLOCK_OK);
    check(is_text(&session, &second, EXPECTED), "the settled text");
    check(is_text(&session, &report, NO_CYCLE), "an earlier report stays as it was");
    goodlock_report_free(&report);
    goodlock_report_free(&second);
    goodlock_session_free(&session);
    for (int i = 0; i < 2; i++)
        goodlock_lane_free(&others[i]);
    goodlock_session_free(&other);
}

/* Reports and findings of a session, each call with numbers out of their range, over a report, and at a stage that
 * isn't its own. */
static void made_at(goodlock_session *session, bool is_settled)
{
    static const uint32_t asked[][3] = {{3, 4, 10}, {2, 1, 10},     {2, 17, 10},
                                        {2, 4, 0},  {2, 4, 100001}, {UINT32_MAX, 2, 1}};
    for (unsigned i = 0; i < COUNT_OF_MAKERS; i++) {
        const struct maker *maker = &MAKERS[i];
        const bool is_right = maker->is_of_settled == is_settled;
        goodlock_report report = {NULL};
        for (unsigned k = 0; k < sizeof asked / sizeof *asked; k++) {
            expect(maker->name, maker->make(session, asked[k][0], asked[k][1], asked[k][2], &report), GOODLOCK_RANGE);
            check(report.at == NULL, "what isn't made is all zero");
        }
        expect(maker->name, maker->make(session, 2, 4, 10, &report), is_right ? GOODLOCK_OK : GOODLOCK_MISUSE);
        check((report.at != NULL) == is_right, "reports and findings are made where they are asked for at their stage");
        if (!is_right)
            continue;
        check(is_text(session, &report, maker->text), "the text of a report or of findings");
        for (unsigned k = 0; k < COUNT_OF_MAKERS; k++)
            expect("over a report", MAKERS[k].make(session, 2, 4, 10, &report), GOODLOCK_MISUSE);
        check(is_text(session, &report, maker->text), "it stays as it was");
        goodlock_report_free(&report);
        check(report.at == NULL, "what was freed is all zero");
    }
}

static void made(void)
{
    goodlock_session session;
    goodlock_lane lanes[2];
    record_opposite(&session, lanes);
    made_at(&session, false);
    settle_two(&session, lanes);
    made_at(&session, true);
    goodlock_session_free(&session);
    for (unsigned i = 0; i < COUNT_OF_MAKERS; i++) {
        goodlock_report report = {NULL};
        expect("report of a freed session", MAKERS[i].make(&session, 2, 4, 10, &report), GOODLOCK_MISUSE);
        check(report.at == NULL, "a report of a freed session is all zero");
    }
}

/* The place that is told: what an event that isn't recorded would have had, and none where there is no such event. */
static void places(void)
{
    goodlock_session session;
    goodlock_lane lanes[2];
    uint32_t at = 77;
    open_two(&session, lanes, 2);
    expect("a kind", goodlock_record(&lanes[0], 8, 0, 0, &at), GOODLOCK_RANGE);
    check(at == 77, "no event has no place");
    expect("a release first", goodlock_record(&lanes[0], GOODLOCK_RELEASE, 0, 0, &at), GOODLOCK_NOT_HELD);
    check(at == 0, "the place of a refused event, the first");
    acquire_two(&lanes[0], 0, 1);
    expect("a full lane", goodlock_record(&lanes[0], GOODLOCK_RELEASE, 1, 1, &at), GOODLOCK_FULL);
    check(at == 2, "the place of an event that has no room");
    at = 77;
    expect("a full lane, itself", goodlock_record(&lanes[0], GOODLOCK_FORK, 0, 0, &at), GOODLOCK_ON_ITSELF);
    check(at == 2, "the place of a refused event that has no room");
    pull_all(&session);
    expect("a release", goodlock_record(&lanes[0], GOODLOCK_RELEASE, 1, 1, &at), GOODLOCK_OK);
    check(at == 2, "the place of an event that has room now");
    expect("a second release", goodlock_record(&lanes[0], GOODLOCK_RELEASE, 1, 1, &at), GOODLOCK_NOT_HELD);
    check(at == 3, "the place of a refused event");
    expect("close", goodlock_close(&lanes[0]), GOODLOCK_OK);
    at = 77;
    expect("record after close", goodlock_record(&lanes[0], GOODLOCK_RELEASE, 0, 0, &at), GOODLOCK_MISUSE);
    check(at == 77, "an event of a closed lane has no place");
    goodlock_lane_free(&lanes[0]);
    expect("record of a freed lane", goodlock_record(&lanes[0], GOODLOCK_ACQUIRE, 0, 0, &at), GOODLOCK_MISUSE);
    check(at == 77, "an event of no lane has no place");
    goodlock_lane_free(&lanes[1]);
    goodlock_session_free(&session);
}

/* Lanes that outlive their session. */
static void orphans(void)
{
    goodlock_session session;
    goodlock_lane lanes[2];
    open_two(&session, lanes, 2);
    acquire_two(&lanes[1], 0, 1);
    goodlock_session_free(&session);
    expect("a full lane of a freed session", goodlock_release(&lanes[1], 1, 0), GOODLOCK_FULL);
    expect("a close of it", goodlock_close(&lanes[1]), GOODLOCK_UNCONFIRMED);
    expect("a record after it", goodlock_release(&lanes[1], 1, 0), GOODLOCK_MISUSE);
    expect("a record of a freed session's lane", goodlock_acquire(&lanes[0], 0, 0), GOODLOCK_OK);
    expect("a close of a freed session's lane", goodlock_close(&lanes[0]), GOODLOCK_UNCONFIRMED);
    expect("a close of a lane that is gone", goodlock_close(&lanes[0]), GOODLOCK_MISUSE);
    goodlock_lane_free(&lanes[0]);
    goodlock_lane_free(&lanes[1]);
}

/* Lanes that nobody used are ended, too, before a session is settled; none is given out twice. */
static void unused_lanes(void)
{
    goodlock_session session = {NULL};
    goodlock_lane lane = {NULL};
    uint32_t thread, count = 0, missing = 77;
    expect("open", goodlock_open(next_session(), 5, 1, &session), GOODLOCK_OK);
    expect("lane", goodlock_lane_open(&session, &lane, &thread), GOODLOCK_OK);
    end_lane(&session, &lane);
    expect("settle with four lanes left", goodlock_settle(&session, &missing), GOODLOCK_MISSING);
    check(missing == 1, "thread 1 has no lane yet");
    while (goodlock_lane_open(&session, &lane, &thread) == GOODLOCK_OK) {
        check(thread == ++count, "the lanes that are left are those of the next threads");
        end_lane(&session, &lane);
    }
    check(count == 4, "four lanes were left");
    expect("a sixth lane", goodlock_lane_open(&session, &lane, &thread), GOODLOCK_NO_LANE);
    missing = 77;
    expect("settle", goodlock_settle(&session, &missing), GOODLOCK_OK);
    check(missing == 77, "no thread is missing");
    goodlock_session_free(&session);
}

/* What a call would write is as it was where it isn't done. */
static void nothing_written(void)
{
    goodlock_session session, none = {NULL};
    goodlock_lane lanes[2], third = {NULL};
    goodlock_report report = {NULL};
    goodlock_pulled pulled = {7, 7};
    uint32_t at = 77;
    size_t size = 77;
    bool more = true;
    uint8_t buffer[100] = {77};
    open_two(&session, lanes, 4);
    expect("a third lane", goodlock_lane_open(&session, &third, &at), GOODLOCK_NO_LANE);
    expect("a lane in use", goodlock_lane_open(&session, &lanes[0], &at), GOODLOCK_MISUSE);
    expect("a lock", number(goodlock_lock, &none, "a", &at), GOODLOCK_MISUSE);
    expect("a place", number(goodlock_place, &none, "a", &at), GOODLOCK_MISUSE);
    expect("settle of no session", goodlock_settle(&none, &at), GOODLOCK_MISUSE);
    check(at == 77, "no number is written");
    expect("text of no report", goodlock_text(&session, &report, buffer, sizeof buffer, &size), GOODLOCK_MISUSE);
    expect("JSON of no report", goodlock_json(&session, &report, buffer, sizeof buffer, &size), GOODLOCK_MISUSE);
    expect("cycles of no report", goodlock_cycles(&report, &size, &more), GOODLOCK_MISUSE);
    check(size == 77 && more && buffer[0] == 77, "no text and no size is written");
    expect("report", goodlock_report_so_far(&session, 2, 4, 10, &report), GOODLOCK_OK);
    size = 77;
    expect("text of no session", goodlock_text(&none, &report, buffer, sizeof buffer, &size), GOODLOCK_MISUSE);
    check(size == 77 && buffer[0] == 77, "no text is written");
    expect("text that doesn't fit", goodlock_text(&session, &report, buffer, 9, &size), GOODLOCK_OK);
    check(size == 10 && buffer[0] == 77, "a text that doesn't fit isn't written, and its length is");
    expect("pull of no session", goodlock_pull(&none, 1, &pulled), GOODLOCK_MISUSE);
    check(pulled.events == 0 && pulled.ended == 0, "how many were pulled is written in every case");
    pulled.events = pulled.ended = 7;
    expect("pull of no lane", goodlock_pull_lane(&session, 2, 1, &pulled), GOODLOCK_RANGE);
    check(pulled.events == 0 && pulled.ended == 0, "how many were pulled off a lane is written in every case");
    acquire_two(&lanes[0], 0, 1);
    expect("pull of nothing", goodlock_pull(&session, 0, &pulled), GOODLOCK_OK);
    check(pulled.events == 0 && pulled.ended == 0, "none was asked for, and none is pulled, though there are some");
    goodlock_report_free(&report);
    goodlock_lane_free(&lanes[0]);
    goodlock_lane_free(&lanes[1]);
    goodlock_session_free(&session);
}

/* No report any more, in no mode. */
static void inconsistent_at(goodlock_session *session, bool is_settled)
{
    goodlock_report report = {NULL};
    for (uint32_t mode = 0; mode < 3; mode++)
        for (unsigned i = 0; i < COUNT_OF_MAKERS; i++)
            if (MAKERS[i].is_of_settled == is_settled)
                expect(MAKERS[i].name, MAKERS[i].make(session, mode, 4, 10, &report), GOODLOCK_INCONSISTENT);
    check(report.at == NULL, "there is no report");
}

/* Forks and joins that order a thread before itself. */
static void inconsistent(void)
{
    goodlock_session session;
    goodlock_lane lanes[2];
    uint32_t at;
    open_two(&session, lanes, 8);
    expect("join", goodlock_join(&lanes[0], 1, 0), GOODLOCK_OK);
    expect("fork", goodlock_fork(&lanes[0], 1, 0), GOODLOCK_OK);
    pull_all(&session);
    inconsistent_at(&session, false);
    acquire_two(&lanes[1], 0, 1);
    for (int i = 0; i < 2; i++)
        end_lane(&session, &lanes[i]);
    inconsistent_at(&session, false);
    expect("settle", goodlock_settle(&session, &at), GOODLOCK_OK);
    inconsistent_at(&session, true);
    goodlock_session_free(&session);
}

struct counted {
    goodlock_report report;
    size_t cycles;
    uint32_t code;
};

static void *count_and_free(void *argument)
{
    struct counted *const counted = (struct counted *)argument;
    bool more;
    counted->code = goodlock_cycles(&counted->report, &counted->cycles, &more);
    goodlock_report_free(&counted->report);
    return NULL;
}

/* Reports without their session: they are counted and freed on another thread, but have no text. */
static void reports_alone(void)
{
    goodlock_session session;
    goodlock_lane lanes[2];
    struct counted reports[COUNT_OF_MAKERS];
    uint8_t buffer[1000];
    size_t size;
    unsigned count = 0;
    record_opposite(&session, lanes);
    settle_two(&session, lanes);
    for (unsigned i = 0; i < COUNT_OF_MAKERS; i++) {
        struct counted *const counted = &reports[count];
        *counted = (struct counted){{NULL}, 0, 99};
        if (MAKERS[i].is_of_settled) {
            expect(MAKERS[i].name, MAKERS[i].make(&session, 2, 4, 10, &counted->report), GOODLOCK_OK);
            count++;
        }
    }
    goodlock_session_free(&session);
    for (unsigned i = 0; i < count; i++) {
        pthread_t thread;
        expect("text", goodlock_text(&session, &reports[i].report, buffer, sizeof buffer, &size), GOODLOCK_MISUSE);
        check(pthread_create(&thread, NULL, count_and_free, &reports[i]) == 0, "a thread is started");
        pthread_join(thread, NULL);
        expect("cycles on another thread", reports[i].code, GOODLOCK_OK);
        check(reports[i].cycles == 1 && reports[i].report.at == NULL, "it has one cycle or finding, and is freed");
    }
}

/* ---- Limits */

static void held_locks(void)
{
    goodlock_session session;
    goodlock_lane lanes[2];
    open_two(&session, lanes, 1000);
    for (uint32_t lock = 0; lock < 64; lock++)
        expect("64 locks", goodlock_try_acquire(&lanes[0], lock, 0), GOODLOCK_OK);
    expect("one lock more", goodlock_acquire(&lanes[0], 64, 0), GOODLOCK_HELD_FULL);
    expect("one lock more, tried", goodlock_try_acquire_shared(&lanes[0], 64, 0), GOODLOCK_HELD_FULL);
    expect("one of them again", goodlock_acquire(&lanes[0], 63, 0), GOODLOCK_OK);
    expect("release", goodlock_release_shared(&lanes[0], 5, 0), GOODLOCK_OK);
    expect("one lock more", goodlock_acquire_shared(&lanes[0], 64, 0), GOODLOCK_OK);
    expect("upgrade", goodlock_try_acquire(&lanes[0], 64, 0), GOODLOCK_UPGRADE);
    expect("the other thread", goodlock_acquire(&lanes[1], 64, 0), GOODLOCK_OK);
    goodlock_lane_free(&lanes[0]);
    goodlock_lane_free(&lanes[1]);
    goodlock_session_free(&session);
}

static void deep_lock(void)
{
    goodlock_session session;
    goodlock_lane lanes[2];
    goodlock_pulled pulled;
    uint32_t at = 0, wrong = 0;
    open_two(&session, lanes, 5000);
    for (uint32_t i = 0; i < 1000000; i++) {
        wrong += goodlock_record(&lanes[0], GOODLOCK_ACQUIRE_SHARED, 0, 0, &at) != GOODLOCK_OK || at != i;
        if (i % 5000 == 4999)
            wrong += goodlock_pull(&session, 5000, &pulled) != GOODLOCK_OK || pulled.events != 5000;
    }
    check(wrong == 0, "a million acquires, each at its place");
    expect("one more", goodlock_acquire_shared(&lanes[0], 0, 0), GOODLOCK_DEPTH_FULL);
    expect("one more, exclusively", goodlock_acquire(&lanes[0], 0, 0), GOODLOCK_DEPTH_FULL);
    expect("release", goodlock_release(&lanes[0], 0, 0), GOODLOCK_OK);
    expect("exclusively", goodlock_acquire(&lanes[0], 0, 0), GOODLOCK_UPGRADE);
    expect("again", goodlock_acquire_shared(&lanes[0], 0, 0), GOODLOCK_OK);
    for (int i = 0; i < 2; i++)
        end_lane(&session, &lanes[i]);
    expect("settle", goodlock_settle(&session, &at), GOODLOCK_OK);
    goodlock_session_free(&session);
}

/* More than 2^16 notes, nearly all of one thread, and both reports of them. */
static void many_notes(void)
{
    goodlock_session session;
    goodlock_lane lanes[2];
    goodlock_report report = {NULL};
    uint32_t at = 0, wrong = 0;
    open_two(&session, lanes, 4000);
    for (uint32_t i = 0; i < 20000; i++) {
        wrong += goodlock_acquire(&lanes[0], 0, 0) != GOODLOCK_OK;
        wrong += goodlock_acquire(&lanes[0], 1, 1) != GOODLOCK_OK;
        wrong += goodlock_release(&lanes[0], 1, 1) != GOODLOCK_OK;
        wrong += goodlock_release(&lanes[0], 0, 0) != GOODLOCK_OK;
        if (i % 1000 == 999)
            pull_all(&session);
    }
    check(wrong == 0, "80,000 events are recorded");
    acquire_two(&lanes[1], 1, 0);
    release_two(&lanes[1], 0, 1);
    pull_all(&session);
    expect("report so far", goodlock_report_so_far(&session, 2, 4, 10, &report), GOODLOCK_OK);
    check(is_text(&session, &report, EXPECTED), "the report so far of 80,004 events");
    goodlock_report_free(&report);
    for (int i = 0; i < 2; i++)
        end_lane(&session, &lanes[i]);
    expect("settle", goodlock_settle(&session, &at), GOODLOCK_OK);
    expect("settled report", goodlock_settled_report(&session, 2, 4, 10, &report), GOODLOCK_OK);
    check(is_text(&session, &report, EXPECTED), "the settled report of 80,004 events");
    goodlock_report_free(&report);
    goodlock_session_free(&session);
}

static void many_threads(void)
{
    static goodlock_lane lanes[1024];
    goodlock_session session = {NULL};
    uint32_t at = 0, wrong = 0;
    expect("open 1,024", goodlock_open(next_session(), 1024, 1, &session), GOODLOCK_OK);
    for (uint32_t i = 0; i < 1024; i++)
        wrong += goodlock_lane_open(&session, &lanes[i], &at) != GOODLOCK_OK || at != i;
    for (uint32_t i = 0; i < 1024; i++)
        wrong += goodlock_close(&lanes[i]) != GOODLOCK_OK;
    pull_all(&session);
    for (uint32_t i = 1024; i-- > 0;)
        wrong += goodlock_hand_in(&session, &lanes[i]) != GOODLOCK_OK;
    check(wrong == 0, "each of 1,024 lanes is given out, closed and handed in");
    expect("settle 1,024", goodlock_settle(&session, &at), GOODLOCK_OK);
    goodlock_session_free(&session);
}

/* Names: the same number for the same name, of locks and of places apart; none at all. */
static void names(void)
{
    static const char *const right = "cycle 1: 2 edges\n"
                                     "  T0 holds  since  wants  at \n"
                                     "  T1 holds  since  wants  at \n"
                                     "cycles: 1\n";
    goodlock_session session = {NULL};
    goodlock_lane lanes[2] = {{NULL}, {NULL}};
    goodlock_report report = {NULL};
    uint32_t at, wrong = 0;
    expect("open", goodlock_open(next_session(), 2, 16, &session), GOODLOCK_OK);
    for (uint32_t i = 0; i < 5000; i++) {
        char name[20];
        snprintf(name, sizeof name, "%x", i * 7919);
        wrong += number(goodlock_lock, &session, name, &at) != GOODLOCK_OK || at != i;
        if (i % 3 == 0)
            wrong += number(goodlock_place, &session, name, &at) != GOODLOCK_OK || at != i / 3;
    }
    for (uint32_t i = 5000; i-- > 0;) {
        char name[20];
        snprintf(name, sizeof name, "%x", i * 7919);
        wrong += number(goodlock_lock, &session, name, &at) != GOODLOCK_OK || at != i;
    }
    check(wrong == 0, "5,000 names have their numbers");
    wrong += goodlock_lock(&session, (const uint8_t *)"\0\0", 2, &at) != GOODLOCK_OK || at != 5000;
    wrong += goodlock_lock(&session, (const uint8_t *)"\0", 1, &at) != GOODLOCK_OK || at != 5001;
    wrong += goodlock_lock(&session, (const uint8_t *)"\0\0", 2, &at) != GOODLOCK_OK || at != 5000;
    check(wrong == 0, "a name is its bytes");
    for (int i = 0; i < 2; i++) {
        expect("lane", goodlock_lane_open(&session, &lanes[i], &at), GOODLOCK_OK);
        expect("no name", goodlock_acquire(&lanes[i], 7000 + (uint32_t)i, UINT32_MAX), GOODLOCK_OK);
        expect("no name", goodlock_acquire(&lanes[i], 7001 - (uint32_t)i, 4000), GOODLOCK_OK);
    }
    pull_all(&session);
    expect("report", goodlock_report_so_far(&session, 2, 4, 10, &report), GOODLOCK_OK);
    check(is_text(&session, &report, right), "what has no name is shown by an empty one");
    goodlock_report_free(&report);
    for (int i = 0; i < 2; i++)
        goodlock_lane_free(&lanes[i]);
    goodlock_session_free(&session);
}

/* Places that were given no name are told apart by their numbers: two findings, of which nothing is shown but what is
 * counted. */
static void places_without_names(void)
{
    static const char *const right = "finding 1: 2 edges\n"
                                     "  T0 holds a since  wants b at \n"
                                     "    threads: 2, locks: 2\n"
                                     "  T1 holds b since  wants a at \n"
                                     "    threads: 2, locks: 2\n"
                                     "finding 2: 2 edges\n"
                                     "  T0 holds  since  wants  at \n"
                                     "    threads: 2, locks: 2\n"
                                     "  T1 holds  since  wants  at \n"
                                     "    threads: 2, locks: 2\n"
                                     "findings: 2\n";
    goodlock_session session;
    goodlock_lane lanes[2];
    goodlock_report report = {NULL};
    open_two(&session, lanes, 16);
    for (uint32_t i = 0; i < 2; i++)
        for (uint32_t k = 0; k < 2; k++) {
            expect("acquire", goodlock_acquire(&lanes[i], 2 * k + i, 100 + k), GOODLOCK_OK);
            expect("acquire", goodlock_acquire(&lanes[i], 2 * k + 1 - i, 200), GOODLOCK_OK);
            expect("release", goodlock_release(&lanes[i], 2 * k + 1 - i, 0), GOODLOCK_OK);
            expect("release", goodlock_release(&lanes[i], 2 * k + i, 0), GOODLOCK_OK);
        }
    pull_all(&session);
    expect("findings", goodlock_findings_so_far(&session, 2, 4, 10, &report), GOODLOCK_OK);
    check(is_text(&session, &report, right), "places are told apart by their numbers");
    goodlock_report_free(&report);
    for (int i = 0; i < 2; i++)
        goodlock_lane_free(&lanes[i]);
    goodlock_session_free(&session);
}

/* One fault in threads that run the same code: half of them take two locks of each pair in one order, the others in the
 * other one. */
enum { SIDES = 2, CLERKS = 12, LEDGERS = 7 };

static void record_ledgers(goodlock_lane *lane, uint32_t side)
{
    uint32_t wrong = 0;
    for (uint32_t pair = 0; pair < LEDGERS; pair++) {
        const uint32_t first = 2 * pair + side, second = 2 * pair + 1 - side, at = 2 * side;
        wrong += goodlock_acquire(lane, first, at) != GOODLOCK_OK;
        wrong += goodlock_acquire(lane, second, at + 1) != GOODLOCK_OK;
        wrong += goodlock_release(lane, second, at + 1) != GOODLOCK_OK;
        wrong += goodlock_release(lane, first, at) != GOODLOCK_OK;
    }
    check(wrong == 0, "a thread's events are recorded");
}

/* A session in which they did so, with names told. */
static void open_ledgers(goodlock_session *session, goodlock_lane *lanes)
{
    static const char *const places[] = {"first:1", "first:2", "other:1", "other:2"};
    char name[20];
    uint32_t at;
    session->at = NULL;
    expect("open", goodlock_open(next_session(), SIDES * CLERKS, 64, session), GOODLOCK_OK);
    for (uint32_t i = 0; i < 2 * LEDGERS; i++) {
        snprintf(name, sizeof name, "%s-%u", i % 2 == 0 ? "book" : "page", i / 2);
        expect("lock", number(goodlock_lock, session, name, &at), GOODLOCK_OK);
    }
    for (uint32_t i = 0; i < 4; i++)
        expect("place", number(goodlock_place, session, places[i], &at), GOODLOCK_OK);
    for (uint32_t i = 0; i < SIDES * CLERKS; i++) {
        lanes[i].at = NULL;
        expect("lane", goodlock_lane_open(session, &lanes[i], &at), GOODLOCK_OK);
        record_ledgers(&lanes[i], i / CLERKS);
    }
    pull_all(session);
}

/* 12 threads against 12 in each of 7 pairs have 1,008 cycles, and are one finding. */
static void one_fault(void)
{
    static const char *const right = "finding 1: 2 edges\n"
                                     "  T0 holds book-0 since first:1 wants page-0 at first:2\n"
                                     "    threads: 12, locks: 14\n"
                                     "  T12 holds page-0 since other:1 wants book-0 at other:2\n"
                                     "    threads: 12, locks: 14\n"
                                     "findings: 1\n";
    goodlock_session session;
    goodlock_lane lanes[SIDES * CLERKS];
    goodlock_report report = {NULL};
    size_t count = 0;
    bool more = true;
    open_ledgers(&session, lanes);
    expect("cycles", goodlock_report_so_far(&session, 2, 4, 2000, &report), GOODLOCK_OK);
    expect("cycles", goodlock_cycles(&report, &count, &more), GOODLOCK_OK);
    check(count == CLERKS * CLERKS * LEDGERS && !more, "there are 1,008 cycles");
    goodlock_report_free(&report);
    expect("findings", goodlock_findings_so_far(&session, 2, 4, 1, &report), GOODLOCK_OK);
    expect("cycles", goodlock_cycles(&report, &count, &more), GOODLOCK_OK);
    check(count == 1 && !more, "there is one finding");
    check(is_text(&session, &report, right), "the finding");
    goodlock_report_free(&report);
    for (int i = 0; i < SIDES * CLERKS; i++)
        goodlock_lane_free(&lanes[i]);
    goodlock_session_free(&session);
}

/* ---- Leaving in mid-course */

enum { LONG_RING = 16384, FORKS = 5 };

/* A thread that records while the main thread forks or pulls. */
struct beside {
    goodlock_lane *lane;
    _Atomic bool is_over;
    _Atomic unsigned recorded, full, wrong; /* full: how often its lane had no room */
    _Atomic unsigned most;                  /* it waits when it has recorded so many, until this grows or all is over */
};

/* Acquires b and then a, again and again, and closes its lane in the end. */
static void *record_beside(void *argument)
{
    static const uint32_t steps[][3] = {
        {GOODLOCK_ACQUIRE, 1, 0}, {GOODLOCK_ACQUIRE, 0, 1}, {GOODLOCK_RELEASE, 0, 1}, {GOODLOCK_RELEASE, 1, 0}};
    struct beside *beside = argument;
    uint32_t code, at;
    while (!beside->is_over)
        for (int i = 0; i < 4; i++) {
            while (beside->recorded >= beside->most && !beside->is_over)
                sched_yield();
            while ((code = goodlock_record(beside->lane, steps[i][0], steps[i][1], steps[i][2], &at)) ==
                   GOODLOCK_FULL) {
                beside->full++;
                sched_yield();
            }
            beside->wrong += code != GOODLOCK_OK || at != beside->recorded;
            beside->recorded++;
        }
    while ((code = goodlock_close(beside->lane)) == GOODLOCK_FULL)
        sched_yield();
    beside->wrong += code != GOODLOCK_OK;
    return NULL;
}

/* Pulls what is there now, which is bounded while another thread records. */
static goodlock_pulled pull_once(goodlock_session *session)
{
    goodlock_pulled pulled = {0, 0};
    expect("pull", goodlock_pull(session, 2 * LONG_RING, &pulled), GOODLOCK_OK);
    return pulled;
}

static struct beside *beside_forks; /* who records while the main thread forks */

/* Within a fork, before the child is made and afterwards. There is room, as the lane was pulled off before the fork. */
static void let_it_record(void)
{
    const unsigned before = beside_forks->recorded;
    beside_forks->most = before + LONG_RING / 4;
    while (beside_forks->recorded == before)
        sched_yield();
}

/* Forks some times, and the other thread records meanwhile; how many events were pulled before. */
static unsigned fork_beside(goodlock_session *session)
{
    unsigned events = 0;
    int status = 0;
    check(pthread_atfork(let_it_record, let_it_record, NULL) == 0, "something is done within forks");
    for (int i = 0; i < FORKS; i++) {
        events += pull_once(session).events;
        const pid_t child = fork();
        if (child == 0)
            _exit(7);
        check(waitpid(child, &status, 0) == child && WIFEXITED(status) && WEXITSTATUS(status) == 7, "the child leaves");
    }
    return events;
}

static void in_a_child(void)
{
    goodlock_session session;
    goodlock_lane lanes[2];
    goodlock_report report = {NULL};
    goodlock_pulled pulled;
    struct beside beside = {.lane = &lanes[1], .most = 1};
    pthread_t thread;
    unsigned events;
    uint32_t at, ended = 0;
    open_two(&session, lanes, LONG_RING);
    acquire_two(&lanes[0], 0, 1);
    fflush(NULL);
    check(pthread_create(&thread, NULL, record_beside, &beside) == 0, "a thread is started");
    while (beside.recorded == 0)
        sched_yield();
    beside_forks = &beside;
    events = fork_beside(&session);
    release_two(&lanes[0], 1, 0);
    expect("close", goodlock_close(&lanes[0]), GOODLOCK_OK);
    beside.is_over = true;
    while (ended < 2) {
        pulled = pull_once(&session);
        events += pulled.events;
        ended += pulled.ended;
        sched_yield();
    }
    pthread_join(thread, NULL);
    check(beside.wrong == 0, "the other thread records as ever");
    check(events == beside.recorded + 4, "all that was recorded is pulled");
    for (int i = 0; i < 2; i++)
        expect("hand_in", goodlock_hand_in(&session, &lanes[i]), GOODLOCK_OK);
    expect("settle", goodlock_settle(&session, &at), GOODLOCK_OK);
    expect("report", goodlock_settled_report(&session, 2, 4, 10, &report), GOODLOCK_OK);
    check(is_text(&session, &report, EXPECTED), "the parent goes on");
    goodlock_report_free(&report);
    goodlock_session_free(&session);
}

static struct beside *pulled_off; /* whose lane, which was full, is pulled off */
static bool has_gone_on;          /* whether it recorded in the middle of the pull */

/* In the middle of the pull this thread waits until the other one has recorded what there is room for. Where its lane
 * is full for two records, the second of which began after this call, there is none. */
static void let_it_go_on(void)
{
    const unsigned full = pulled_off->full;
    while (pulled_off->full < full + 2)
        sched_yield();
    has_gone_on |= pulled_off->recorded > LONG_RING;
}

/* A pull off one lane takes more than its ring holds where the thread goes on meanwhile: as it does here whenever the
 * pull asks for memory, which it does again and again for so many events. */
static void beyond_a_ring(void)
{
    goodlock_session session;
    goodlock_lane lanes[2];
    goodlock_pulled pulled = {0, 0};
    struct beside beside = {.lane = &lanes[1], .most = UINT_MAX};
    pthread_t thread;
    unsigned events, wrong = 0;
    open_two(&session, lanes, LONG_RING);
    check(pthread_create(&thread, NULL, record_beside, &beside) == 0, "a thread is started");
    while (beside.recorded < LONG_RING)
        sched_yield();
    pulled_off = &beside;
    when_asked = let_it_go_on;
    expect("pull", goodlock_pull_lane(&session, 1, 2 * LONG_RING, &pulled), GOODLOCK_OK);
    when_asked = NULL;
    events = pulled.events;
    check(has_gone_on, "a thread records while a pull off its lane asks for memory");
    check(events > LONG_RING, "a lane whose thread goes on gives more than its ring holds");
    beside.is_over = true;
    while (pulled.ended == 0) {
        wrong += goodlock_pull_lane(&session, 1, 2 * LONG_RING, &pulled) != GOODLOCK_OK;
        events += pulled.events;
        sched_yield();
    }
    pthread_join(thread, NULL);
    check(wrong == 0 && beside.wrong == 0 && events == beside.recorded, "all that was recorded is pulled off the lane");
    goodlock_lane_free(&lanes[0]);
    goodlock_lane_free(&lanes[1]);
    goodlock_session_free(&session);
}

static void *record_for_ever(void *argument)
{
    goodlock_lane *lane = argument;
    for (;;) {
        goodlock_acquire(lane, 0, 0);
        goodlock_release(lane, 0, 0);
        sched_yield();
    }
    return NULL;
}

static void start_and_leave(void)
{
    static goodlock_session session;
    static goodlock_lane lanes[2];
    pthread_t thread;
    open_two(&session, lanes, 8);
    check(pthread_create(&thread, NULL, record_for_ever, &lanes[0]) == 0, "a thread is started");
    pull_all(&session);
}

int main(int count, char **words)
{
    const char *const word = count == 2 ? words[1] : "";
    alarm(400); /* only a run that hangs takes so long */
    if (strcmp(word, "misuse") == 0) {
        on_nothing();
        out_of_range();
        settling();
        made();
        places();
        orphans();
        unused_lanes();
        nothing_written();
        inconsistent();
        reports_alone();
    } else if (strcmp(word, "limits") == 0) {
        held_locks();
        deep_lock();
        many_notes();
        many_threads();
        names();
        places_without_names();
        one_fault();
        beyond_a_ring();
    } else if (strcmp(word, "memory") == 0) {
        refuse_memory();
    } else if (strcmp(word, "fork") == 0) {
        in_a_child();
    } else if (strcmp(word, "exit") == 0) {
        start_and_leave();
    } else {
        fputs("library_misuse misuse|limits|memory|fork|exit\n", stderr);
        return 2;
    }
    printf("%u passed, %u failed\n", passed, failed);
    return failed == 0 ? 0 : 1;
}
