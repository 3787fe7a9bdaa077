/* Tests what goodlock.h has of its own: its short forms, and its words for answers. Kinds, modes and answers are
 * written out here as the numbers that the header's text gives them; none of its constants is used for them.
 *
 *     library_header forms      what each short form hands to goodlock_record, and that it answers what that answers
 *     library_header reports    threads recorded by short forms and by numbers: the same answers, texts and JSON, of
 *                               cycles and of findings
 *     library_header words      the words for each answer
 *
 * goodlock_record is listened to by the linker's --wrap. What isn't as it has to be is told on standard output; the
 * last line is how many checks passed and failed. */
#include "checks.h"
#include "goodlock.h"

#include <stdio.h>
#include <string.h>

/* ---- The short forms, by the numbers of their kinds */

enum { KINDS = 8 };

typedef uint32_t short_form(goodlock_lane *lane, uint32_t operand, uint32_t place);

static const struct {
    uint32_t kind;
    const char *name;
    short_form *call;
} forms[KINDS] = {
    {0, "goodlock_acquire", goodlock_acquire},
    {1, "goodlock_acquire_shared", goodlock_acquire_shared},
    {2, "goodlock_release", goodlock_release},
    {3, "goodlock_release_shared", goodlock_release_shared},
    {4, "goodlock_try_acquire", goodlock_try_acquire},
    {5, "goodlock_try_acquire_shared", goodlock_try_acquire_shared},
    {6, "goodlock_fork", goodlock_fork},
    {7, "goodlock_join", goodlock_join},
};

/* What goodlock_record was given last. */
static struct {
    goodlock_lane *lane;
    uint32_t kind, operand, place, *at;
} heard;

static uint32_t made_up; /* what it answers, where the library isn't asked */
static bool is_made_up;

#ifdef __cplusplus
extern "C" {
#endif
uint32_t __real_goodlock_record(goodlock_lane *lane, uint32_t kind, uint32_t operand, uint32_t place, uint32_t *at);
uint32_t __wrap_goodlock_record(goodlock_lane *lane, uint32_t kind, uint32_t operand, uint32_t place, uint32_t *at);

uint32_t __wrap_goodlock_record(goodlock_lane *lane, uint32_t kind, uint32_t operand, uint32_t place, uint32_t *at)
{
    heard.lane = lane;
    heard.kind = kind;
    heard.operand = operand;
    heard.place = place;
    heard.at = at;
    return is_made_up ? made_up : __real_goodlock_record(lane, kind, operand, place, at);
}
#ifdef __cplusplus
}
#endif

static void test_forms(void)
{
    goodlock_lane lanes[KINDS];
    is_made_up = true;
    for (uint32_t i = 0; i < KINDS; i++) {
        char text[200];
        memset(&heard, 0, sizeof heard);
        made_up = 1000 + i;
        expect(forms[i].name, forms[i].call(&lanes[i], 50 + i, 60 + i), 1000 + i);
        snprintf(text, sizeof text, "%s records kind %u, operand %u, place %u, and %u, %u, %u is right", forms[i].name,
                 heard.kind, heard.operand, heard.place, i, 50 + i, 60 + i);
        check(heard.kind == forms[i].kind && heard.operand == 50 + i && heard.place == 60 + i, text);
        snprintf(text, sizeof text, "%s records into its lane, and has room for the event's place", forms[i].name);
        check(heard.lane == &lanes[i] && heard.at != NULL, text);
    }
    is_made_up = false;
}

/* ---- Two threads, whose reports tell the kinds apart */

enum { THREADS = 2, STEPS = 8, BUFFER = 4000 };

/* Locks 0, 1 and 2 are a, b and c; the places of the steps are @1, @2, .. in their order. Lock 1 isn't used, so that a
 * fork or join of thread 1 that is taken for an event of a lock leaves a and c alone. */
struct step {
    uint32_t thread, kind, operand;
};

static const char NO_CYCLE[] = "cycles: 0\n";
static const char A_CYCLE[] = "cycle 1: 2 edges\n"
                              "  T0 holds a since @1 wants c at @2\n"
                              "  T1 holds c since @3 wants a at @4\n"
                              "cycles: 1\n";

static const char NO_FINDING[] = "findings: 0\n";
static const char A_FINDING[] = "finding 1: 2 edges\n"
                                "  T0 holds a since @1 wants c at @2\n"
                                "    threads: 1, locks: 2\n"
                                "  T1 holds c since @3 wants a at @4\n"
                                "    threads: 1, locks: 2\n"
                                "findings: 1\n";

static const struct scene {
    const char *name;
    const char *text;
    size_t count;
    struct step steps[STEPS];
} scenes[] = {
    {"opposite orders", A_CYCLE, 4, {{0, 0, 0}, {0, 0, 2}, {1, 0, 2}, {1, 0, 0}}},
    {"the other thread starts afterwards",
     NO_CYCLE,
     7,
     {{0, 0, 0}, {0, 0, 2}, {0, 2, 2}, {0, 2, 0}, {0, 6, 1}, {1, 0, 2}, {1, 0, 0}}},
    {"the other thread has ended before", NO_CYCLE, 5, {{0, 7, 1}, {0, 0, 0}, {0, 0, 2}, {1, 0, 2}, {1, 0, 0}}},
    {"released before", NO_CYCLE, 5, {{0, 0, 0}, {0, 2, 0}, {0, 0, 2}, {1, 0, 2}, {1, 0, 0}}},
    {"released before by a reader", NO_CYCLE, 5, {{0, 1, 0}, {0, 3, 0}, {0, 0, 2}, {1, 0, 2}, {1, 0, 0}}},
    {"both are readers", NO_CYCLE, 4, {{0, 1, 0}, {0, 0, 2}, {1, 0, 2}, {1, 1, 0}}},
    {"a writer waits for a reader", A_CYCLE, 4, {{0, 1, 0}, {0, 0, 2}, {1, 0, 2}, {1, 0, 0}}},
    {"a reader waits for a writer", A_CYCLE, 4, {{0, 0, 0}, {0, 1, 2}, {1, 0, 2}, {1, 0, 0}}},
    {"the inner lock is tried", NO_CYCLE, 4, {{0, 0, 0}, {0, 4, 2}, {1, 0, 2}, {1, 0, 0}}},
    {"the inner lock is tried by a reader", NO_CYCLE, 4, {{0, 0, 0}, {0, 5, 2}, {1, 0, 2}, {1, 0, 0}}},
    {"a reader waits for what was tried", A_CYCLE, 4, {{0, 4, 0}, {0, 0, 2}, {1, 0, 2}, {1, 1, 0}}},
    {"a reader doesn't wait for a reader who tried", NO_CYCLE, 4, {{0, 5, 0}, {0, 0, 2}, {1, 0, 2}, {1, 1, 0}}},
    {"a writer waits for a reader who tried", A_CYCLE, 4, {{0, 5, 0}, {0, 0, 2}, {1, 0, 2}, {1, 0, 0}}},
};
enum { SCENES = sizeof scenes / sizeof *scenes };

/* A report, of cycles or of findings, and what is written of it. */
struct written {
    uint32_t code;
    size_t text_size, json_size;
    uint8_t text[BUFFER], json[BUFFER];
};

/* What a scene came to: the answers of its steps, and the reports. */
struct outcome {
    uint32_t steps[STEPS];
    struct written reports[2];
};

static bool is_same_report(const struct written *one, const struct written *other)
{
    return one->code == other->code && one->text_size == other->text_size &&
           memcmp(one->text, other->text, one->text_size) == 0 && one->json_size == other->json_size &&
           memcmp(one->json, other->json, one->json_size) == 0;
}

static bool is_same(const struct outcome *one, const struct outcome *other)
{
    return memcmp(one->steps, other->steps, sizeof one->steps) == 0 &&
           is_same_report(&one->reports[0], &other->reports[0]) && is_same_report(&one->reports[1], &other->reports[1]);
}

static void open_scene(goodlock_session *session, goodlock_lane *lanes)
{
    static const char *const locks[] = {"a", "b", "c"};
    static uint64_t last;
    uint32_t number, wrong = 0;
    session->at = lanes[0].at = lanes[1].at = NULL;
    wrong += goodlock_open(++last, THREADS, STEPS, session);
    for (uint32_t i = 0; i < 3; i++)
        wrong += goodlock_lock(session, (const uint8_t *)locks[i], 1, &number);
    for (uint32_t i = 0; i < STEPS; i++) {
        const uint8_t name[] = {'@', (uint8_t)('1' + i)};
        wrong += goodlock_place(session, name, sizeof name, &number);
    }
    for (uint32_t i = 0; i < THREADS; i++)
        wrong += goodlock_lane_open(session, &lanes[i], &number);
    check(wrong == 0, "a session is opened");
}

static void make_report(goodlock_session *session, bool is_of_findings, struct written *written)
{
    goodlock_report report = {NULL};
    written->code = (is_of_findings ? goodlock_findings_so_far : goodlock_report_so_far)(session, 2, 4, 1000, &report);
    if (written->code != 0)
        return;
    expect("text", goodlock_text(session, &report, written->text, BUFFER, &written->text_size), 0);
    expect("JSON", goodlock_json(session, &report, written->json, BUFFER, &written->json_size), 0);
    check(written->text_size <= BUFFER && written->json_size <= BUFFER, "text and JSON fit");
    goodlock_report_free(&report);
}

/* Records a scene by short forms, or by numbers with one kind in place of another. */
static void play(const struct scene *scene, bool is_by_forms, uint32_t kind, uint32_t in_its_place,
                 struct outcome *outcome)
{
    goodlock_session session;
    goodlock_lane lanes[THREADS];
    goodlock_pulled pulled;
    memset(outcome, 0, sizeof *outcome);
    open_scene(&session, lanes);
    for (uint32_t i = 0; i < scene->count; i++) {
        const struct step *step = &scene->steps[i];
        goodlock_lane *lane = &lanes[step->thread];
        const uint32_t number = step->kind == kind ? in_its_place : step->kind;
        uint32_t at;
        outcome->steps[i] = is_by_forms ? forms[step->kind].call(lane, step->operand, i)
                                        : goodlock_record(lane, number, step->operand, i, &at);
    }
    expect("pull", goodlock_pull(&session, 1000, &pulled), 0);
    for (int i = 0; i < 2; i++)
        make_report(&session, i == 1, &outcome->reports[i]);
    for (uint32_t i = 0; i < THREADS; i++)
        goodlock_lane_free(&lanes[i]);
    goodlock_session_free(&session);
}

/* Whether some scene comes to something else with another kind in place of this one. */
static bool are_told_apart(uint32_t kind, uint32_t other)
{
    static struct outcome right, wrong;
    for (uint32_t i = 0; i < SCENES; i++) {
        play(&scenes[i], false, kind, kind, &right);
        play(&scenes[i], false, kind, other, &wrong);
        if (!is_same(&right, &wrong))
            return true;
    }
    return false;
}

/* Whether the report has this text, and a JSON. */
static void check_report(const char *scene, const struct written *report, const char *right)
{
    char text[BUFFER + 200];
    snprintf(text, sizeof text, "%s: another text:\n%.*s", scene, (int)report->text_size, (const char *)report->text);
    check(report->text_size == strlen(right) && memcmp(report->text, right, report->text_size) == 0, text);
    check(report->json_size > 0, "the JSON isn't empty");
}

static void test_reports(void)
{
    static struct outcome by_numbers, by_forms;
    char text[200];
    for (uint32_t i = 0; i < SCENES; i++) {
        const struct scene *scene = &scenes[i];
        play(scene, false, 0, 0, &by_numbers);
        play(scene, true, 0, 0, &by_forms);
        for (uint32_t k = 0; k < scene->count; k++)
            expect(scene->name, by_numbers.steps[k], 0);
        check_report(scene->name, &by_numbers.reports[0], scene->text);
        check_report(scene->name, &by_numbers.reports[1], scene->text == A_CYCLE ? A_FINDING : NO_FINDING);
        snprintf(text, sizeof text, "%s: by short forms it comes to something else than by numbers", scene->name);
        check(is_same(&by_numbers, &by_forms), text);
    }
    /* A release of either mode takes one acquire back, so no report tells these two apart: `forms` does. */
    for (uint32_t kind = 0; kind < KINDS; kind++)
        for (uint32_t other = 0; other < KINDS; other++)
            if (kind != other && !(kind + other == 5 && (kind == 2 || kind == 3))) {
                snprintf(text, sizeof text, "no scene tells kind %u from kind %u", kind, other);
                check(are_told_apart(kind, other), text);
            }
}

/* ---- Words */

static const struct {
    uint32_t code;
    const char *text;
} words[] = {
    {0, "done"},
    {1, "out of memory"},
    {2, "the lane is full until the session pulls"},
    {3, "the handle isn't one that this call works on"},
    {4, "a number is out of its range"},
    {5, "all lanes were given out"},
    {6, "the session is gone"},
    {7, "the lane isn't one that this session waits for"},
    {8, "a thread's lane isn't handed in or not pulled to its end"},
    {9, "a note may not come next: a handle was used twice at once"},
    {10, "forks and joins order a part of a thread before itself"},
    {11, "too many names"},
    {12, "a lock or a place has no name"},
    {20, "too many events"},
    {21, "there is no such thread"},
    {22, "thread forks or joins itself"},
    {23, "the thread doesn't hold the lock"},
    {24, "too many locks held"},
    {25, "lock taken too often"},
    {26, "shared lock taken exclusively"},
};
enum { WORDS = sizeof words / sizeof *words, CODES = 40 };

static void says(uint32_t code, const char *right)
{
    char text[300];
    const char *const got = goodlock_says(code);
    snprintf(text, sizeof text, "of %u it says `%s`, and `%s` is right", code, got, right);
    check(strcmp(got, right) == 0, text);
}

static void test_words(void)
{
    for (uint32_t code = 0; code < CODES; code++) {
        const char *right = "no answer of goodlock";
        for (uint32_t i = 0; i < WORDS; i++)
            if (words[i].code == code)
                right = words[i].text;
        says(code, right);
    }
    says(UINT32_MAX, "no answer of goodlock");
}

int main(int count, char **arguments)
{
    const char *const word = count == 2 ? arguments[1] : "";
    if (strcmp(word, "forms") == 0) {
        test_forms();
    } else if (strcmp(word, "reports") == 0) {
        test_reports();
    } else if (strcmp(word, "words") == 0) {
        test_words();
    } else {
        fputs("library_header forms|reports|words\n", stderr);
        return 2;
    }
    printf("%u passed, %u failed\n", passed, failed);
    return failed == 0 ? 0 : 1;
}
