/* Tests goodlock_names.h, as C and as C++.
 *
 *     library_names numbers     which number a name, an address and a literal have; full tables; misuse
 *     library_names memory      the first request for memory is refused, then the second ..; what is known asks none
 *     library_names quiet       what is known, where the kernel ends a process that makes a system call
 *     library_names report      sessions that are told: known reports, the names by their numbers, foreign names
 *     library_names threads     many threads that mention the same names at once, and one that tells them
 *     library_names schedules   two and three threads, step by step, in every order with two to four switches
 *
 * Memory is refused by the linker's --wrap of malloc, calloc, realloc and aligned_alloc. What isn't as it has to be is
 * told on standard output; the last line is how many checks passed and failed. */
#define GOODLOCK_NAMES_STEP() step()
static void step(void);
#include "goodlock_names.h"

#include "checks.h"
#include "refusing.h"

#include <errno.h>
#include <linux/seccomp.h>
#include <pthread.h>
#include <sched.h>
#include <stdio.h>
#include <sys/prctl.h>
#include <sys/syscall.h>
#include <sys/wait.h>
#include <ucontext.h>
#include <unistd.h>

/* ---- Mentions, as they are asked for below */

static const goodlock_names nothing = {NULL};
static const uint32_t NONE = UINT32_MAX;

static const uint8_t *bytes(const char *text)
{
    return (const uint8_t *)text;
}

static goodlock_names opened(uint32_t most)
{
    goodlock_names names = {NULL};
    expect("open", goodlock_names_open(most, &names), GOODLOCK_OK);
    return names;
}

/* The number, or NONE with any answer but OK. */
static uint32_t of(const goodlock_names *names, const char *name)
{
    uint32_t number = 77;
    return goodlock_names_of(names, bytes(name), strlen(name), &number) == GOODLOCK_OK ? number : NONE;
}

static uint32_t at(const goodlock_names *names, const void *address, const char *name)
{
    uint32_t number = 77;
    return goodlock_names_at(names, address, bytes(name), strlen(name), &number) == GOODLOCK_OK ? number : NONE;
}

static uint32_t literal(const goodlock_names *names, const char *text)
{
    uint32_t number = 77;
    return goodlock_names_literal(names, text, &number) == GOODLOCK_OK ? number : NONE;
}

static uint64_t next_session(void)
{
    static uint64_t last;
    return ++last;
}

static goodlock_session open_session(uint32_t threads)
{
    goodlock_session session = {NULL};
    expect("a session", goodlock_open(next_session(), threads, 64, &session), GOODLOCK_OK);
    return session;
}

/* The session's number of a lock's name, which gets one if it has none. */
static uint32_t lock_of(goodlock_session *session, const char *name)
{
    uint32_t number = 77;
    return goodlock_lock(session, bytes(name), strlen(name), &number) == GOODLOCK_OK ? number : NONE;
}

static uint32_t place_of(goodlock_session *session, const char *name)
{
    uint32_t number = 77;
    return goodlock_place(session, bytes(name), strlen(name), &number) == GOODLOCK_OK ? number : NONE;
}

/* ---- Numbers */

static void names_by_bytes(void)
{
    static const uint8_t zeros[] = {0, 0, 0};
    goodlock_names names = opened(5000);
    char name[3000];
    uint32_t number = 0, wrong = 0;
    check(goodlock_names_count(&names) == 0, "nothing is numbered yet");
    for (uint32_t i = 0; i < 4000; i++) {
        snprintf(name, sizeof name, "%x", i * 7919);
        wrong += of(&names, name) != i || goodlock_names_count(&names) != i + 1;
        memset(name, 'x', sizeof name); /* the name was copied */
    }
    for (uint32_t i = 4000; i-- > 0;) {
        snprintf(name, sizeof name, "%x", i * 7919);
        wrong += of(&names, name) != i;
    }
    check(wrong == 0, "4,000 names have their numbers, each time");
    check(of(&names, "a name") == 4000 && of(&names, "a nam") == 4001 && of(&names, "a name ") == 4002,
          "a beginning is another name");
    check(of(&names, "12345678") == 4003 && of(&names, "123456781") == 4004 && of(&names, "1234567812345678") == 4005,
          "names of eight bytes and more");
    for (uint32_t i = 0; i < 4; i++)
        wrong += goodlock_names_of(&names, zeros, i % 4, &number) != GOODLOCK_OK || number != 4006 + i;
    check(wrong == 0, "a name is its bytes and its length");
    for (size_t i = 0; i < 100; i++) { /* at each position one other byte */
        memset(name, 'x', sizeof name);
        name[29 * i] = 'y';
        wrong += goodlock_names_of(&names, bytes(name), sizeof name, &number) != GOODLOCK_OK || number != 4010 + i;
    }
    check(wrong == 0, "long names are compared whole");
    check(of(&names, "a nam") == 4001 && of(&names, "") == 4006, "the earlier ones are as they were");
    check(goodlock_names_count(&names) == 4110, "each name was counted once");
    goodlock_names_free(&names);
}

static void names_by_literal(void)
{
    static char here[] = "bank.c:10", there[] = "bank.c:10", other[] = "bank.c:11";
    goodlock_names names = opened(100);
    char line[400];
    const char *const own = GOODLOCK_LINE;
    const int own_line = __LINE__ - 1;
    snprintf(line, sizeof line, "%s:%d", __FILE__, own_line);
    check(strcmp(line, own) == 0, "GOODLOCK_LINE is the file and the line");
    check(literal(&names, here) == 0 && literal(&names, other) == 1, "literals are numbered in order");
    check(literal(&names, here) == 0 && literal(&names, there) == 0, "one text at two addresses is one name");
    check(of(&names, "bank.c:10") == 0 && of(&names, "bank.c:12") == 2, "a literal is its bytes");
    check(literal(&names, "bank.c:12") == 2, "and bytes are the literal");
    memset(here, '?', sizeof here - 1);
    check(literal(&names, here) == 0, "a known address isn't read");
    check(goodlock_names_count(&names) == 3, "three names");
    goodlock_names_free(&names);
}

static void names_by_address(void)
{
    static char memory[3000];
    goodlock_names names = opened(6000);
    char name[20];
    uint32_t wrong = 0;
    for (uint32_t i = 0; i < sizeof memory; i++) {
        snprintf(name, sizeof name, "lock %u", i);
        wrong += at(&names, &memory[i], name) != i;
        memset(name, 0, sizeof name);
    }
    for (uint32_t i = sizeof memory; i-- > 0;)
        wrong += at(&names, &memory[i], "another name") != i;
    check(wrong == 0, "3,000 addresses have their numbers, each time");
    check(of(&names, "lock 7") == 3000, "a name alone is none of a lock at an address");
    check(at(&names, &wrong, "lock 7") == 3001, "a lock of a name that is another's has its own number");
    for (uint32_t i = 0; i < sizeof memory; i += 3)
        goodlock_names_forget(&names, &memory[i]);
    goodlock_names_forget(&names, &names); /* never mentioned */
    goodlock_names_forget(&names, NULL);
    goodlock_names_forget(&names, &memory[0]);
    for (uint32_t i = sizeof memory; i-- > 0;)
        if (i % 3 != 0)
            wrong += at(&names, &memory[i], "x") != i;
    for (uint32_t i = 0; i < sizeof memory; i += 3)
        wrong += at(&names, &memory[i], "x") != 3002 + i / 3;
    for (uint32_t i = 0; i < sizeof memory; i += 3)
        wrong += at(&names, &memory[i], "x") != 3002 + i / 3;
    check(wrong == 0, "what was forgotten is new once, and nothing else is");
    check(goodlock_names_count(&names) == 4002, "each lock was counted once");
    goodlock_names_free(&names);
}

/* Full tables of addresses that meet at slots; half of them are forgotten, and the others stay known. */
static void forgotten_neighbours(void)
{
    static char memory[100000];
    uint32_t wrong = 0;
    for (uint32_t stride = 1; stride <= 1000; stride += 9) {
        goodlock_names names = opened(64);
        for (uint32_t i = 0; i < 64; i++)
            wrong += at(&names, &memory[i * stride], "x") != i;
        for (uint32_t i = 0; i < 64; i += 2)
            goodlock_names_forget(&names, &memory[i * stride]);
        for (uint32_t i = 1; i < 64; i += 2)
            wrong += at(&names, &memory[i * stride], "x") != i || at(&names, &memory[(i - 1) * stride], "x") != NONE;
        goodlock_names_free(&names);
    }
    check(wrong == 0, "an address that was forgotten hides no other one");
}

/* Tables of each small size, filled in each of three ways; what was given stays. */
static void full_tables(void)
{
    static char memory[80], texts[80][4];
    uint32_t wrong = 0, number;
    for (uint32_t most = 1; most <= 40; most++) {
        for (uint32_t way = 0; way < 3; way++) {
            goodlock_names names = opened(most);
            for (uint32_t round = 0; round < 2; round++) {
                for (uint32_t i = 0; i < 80; i++) {
                    snprintf(texts[i], sizeof texts[i], "%u", i);
                    number = 77;
                    const uint32_t code =
                        way == 0   ? goodlock_names_of(&names, bytes(texts[i]), strlen(texts[i]), &number)
                        : way == 1 ? goodlock_names_at(&names, &memory[i], bytes("account"), i % 8, &number)
                                   : goodlock_names_literal(&names, texts[i], &number);
                    wrong += code != (i < most ? GOODLOCK_OK : GOODLOCK_NAMES) || number != (i < most ? i : NONE);
                }
            }
            wrong += goodlock_names_count(&names) != most;
            if (way == 1) {
                goodlock_names_forget(&names, &memory[0]);
                wrong += at(&names, &memory[0], "account") != NONE;
                wrong += most > 1 && at(&names, &memory[most - 1], "account") != most - 1;
            }
            goodlock_names_free(&names);
        }
    }
    check(wrong == 0, "a full table answers NAMES to what is new, and its number to what is known");
}

/* More literals than a table has slots for: a few texts at many addresses. */
static void many_literals(void)
{
    static char texts[500][2];
    goodlock_names names = opened(3);
    uint32_t wrong = 0;
    for (uint32_t round = 0; round < 3; round++) {
        for (uint32_t i = 0; i < 500; i++) {
            texts[i][0] = (char)('a' + i % 3);
            wrong += literal(&names, texts[i]) != i % 3;
        }
    }
    check(wrong == 0, "500 literals of three texts, in a table for three names");
    goodlock_names_free(&names);
}

static void used_wrongly(void)
{
    goodlock_names names = {NULL};
    uint32_t number = 77;
    expect("no names", goodlock_names_open(0, &names), GOODLOCK_RANGE);
    expect("too many names", goodlock_names_open((1 << 24) + 1, &names), GOODLOCK_RANGE);
    expect("far too many names", goodlock_names_open(UINT32_MAX, &names), GOODLOCK_RANGE);
    check(names.at == NULL, "a table that isn't opened is all zero");
    expect("a name in no table", goodlock_names_of(&nothing, bytes("a"), 1, &number), GOODLOCK_MISUSE);
    expect("an address in no table", goodlock_names_at(&nothing, &number, bytes("a"), 1, &number), GOODLOCK_MISUSE);
    expect("a literal in no table", goodlock_names_literal(&nothing, "a", &number), GOODLOCK_MISUSE);
    goodlock_names_forget(&nothing, &number);
    check(goodlock_names_count(&nothing) == 0, "no table has no names");
    goodlock_names_free(&names);
    names = opened(2);
    expect("open twice", goodlock_names_open(2, &names), GOODLOCK_MISUSE);
    expect("no address", goodlock_names_at(&names, NULL, bytes("a"), 1, &number), GOODLOCK_MISUSE);
    expect("no literal", goodlock_names_literal(&names, NULL, &number), GOODLOCK_MISUSE);
    check(goodlock_names_count(&names) == 0 && number == NONE, "nothing was done");
    goodlock_names_free(&names);
    check(names.at == NULL, "a freed table is all zero");
    goodlock_names_free(&names);
    expect("a name in a freed table", goodlock_names_of(&names, bytes("a"), 1, &number), GOODLOCK_MISUSE);
    names = opened(1 << 20);
    check(of(&names, "a") == 0, "opened again, and large");
    goodlock_names_free(&names);
}

/* ---- Memory */

/* A call once more where memory was refused in it. What is new isn't known before. */
#define TRY(call, names, before) \
    do { \
        uint32_t code; \
        is_counted = true; \
        code = (call); \
        is_counted = false; \
        if (code == GOODLOCK_MEMORY) { \
            check(requests >= refuse_at, #call ": MEMORY without a refusal"); \
            check(goodlock_names_count(names) == (before), #call ": a number was given"); \
            told++; \
            code = (call); \
        } \
        expect(#call, code, GOODLOCK_OK); \
    } while (0)

static unsigned mentions(void)
{
    static char memory[3], text[] = "here";
    goodlock_names names = {NULL};
    goodlock_session session = open_session(1);
    uint32_t number = 77, told_locks = 0;
    unsigned told = 0;
    long before;
    TRY(goodlock_names_open(20, &names), &names, 0);
    TRY(goodlock_names_of(&names, bytes("savings"), 7, &number), &names, 0);
    check(number == 0, "the first name");
    TRY(goodlock_names_at(&names, &memory[0], bytes("savings"), 7, &number), &names, 1);
    check(number == 1, "the first address");
    TRY(goodlock_names_at(&names, &memory[1], bytes("current"), 7, &number), &names, 2);
    check(number == 2, "the second address");
    TRY(goodlock_names_literal(&names, text, &number), &names, 3);
    check(number == 3, "the literal");
    goodlock_names_forget(&names, &memory[1]);
    TRY(goodlock_names_at(&names, &memory[1], bytes("new"), 3, &number), &names, 4);
    check(number == 4, "the new lock");
    before = requests;
    TRY(goodlock_names_of(&names, bytes("savings"), 7, &number), &names, 5);
    TRY(goodlock_names_at(&names, &memory[1], bytes("savings"), 7, &number), &names, 5);
    TRY(goodlock_names_literal(&names, text, &number), &names, 5);
    goodlock_names_forget(&names, &memory[1]);
    check(requests == before, "what is known asks for no memory");
    while (told_locks < 5) {
        const uint32_t was = told_locks;
        uint32_t code;
        is_counted = true;
        code = goodlock_tell_locks(&session, &names, &told_locks);
        is_counted = false;
        if (code == GOODLOCK_OK)
            break;
        expect("telling", code, GOODLOCK_MEMORY);
        check(requests >= refuse_at && told_locks >= was, "what was told stands");
        told++;
    }
    check(told_locks == 5, "all are told");
    check(lock_of(&session, "savings#2") == 1 && lock_of(&session, "current") == 2 && lock_of(&session, "here") == 3 &&
              lock_of(&session, "new") == 4 && lock_of(&session, "end") == 5,
          "the names are told by their numbers");
    goodlock_names_free(&names);
    goodlock_session_free(&session);
    return told;
}

static void refuse_memory(void)
{
    unsigned told = 0, calls = 0;
    for (refuse_at = 1;; refuse_at++) {
        requests = 0;
        told += mentions();
        if (requests < refuse_at)
            break;
        calls++;
    }
    refuse_at = 0;
    printf("memory: %u requests refused, %u told\n", calls, told);
    check(calls >= 9 && told >= 9, "memory was asked for and refused");
}

/* ---- No system calls */

static void in_a_quiet_child(void)
{
    static char text[] = "here";
    goodlock_names names = opened(10);
    int status = 0;
    pid_t child;
    check(of(&names, "savings") == 0 && at(&names, &status, "savings") == 1 && literal(&names, text) == 2, "numbers");
    fflush(NULL);
    child = fork();
    if (child == 0) { /* from here to the exit the kernel ends it for any other system call */
        uint32_t wrong = 0;
        if (prctl(PR_SET_SECCOMP, SECCOMP_MODE_STRICT) != 0)
            _exit(9);
        for (int i = 0; i < 10000; i++)
            wrong += of(&names, "savings") != 0 || at(&names, &status, "savings") != 1 || literal(&names, text) != 2;
        goodlock_names_forget(&names, &status);
        syscall(SYS_exit, wrong == 0 ? 7 : 8);
    }
    check(waitpid(child, &status, 0) == child, "the child is waited for");
    if (WIFEXITED(status) && WEXITSTATUS(status) == 9)
        printf("system calls can't be forbidden here, so that none is made isn't tested\n");
    else
        check(WIFEXITED(status) && WEXITSTATUS(status) == 7, "what is known makes no system call");
    goodlock_names_free(&names);
}

/* ---- Sessions that are told */

static const char REPORT[] = "cycle 1: 2 edges\n"
                             "  T0 holds account since here wants account#2 at there\n"
                             "  T1 holds account#2 since here wants account at there\n"
                             "cycles: 1\n";

static bool is_text(goodlock_session *session, goodlock_report *report, const char *right)
{
    uint8_t buffer[1000];
    size_t size = 0;
    return goodlock_text(session, report, buffer, sizeof buffer, &size) == GOODLOCK_OK && size == strlen(right) &&
           memcmp(buffer, right, size) == 0;
}

/* Two threads in opposite orders, whose locks and places are numbered while they record; two sessions after each other
 * with one table. */
static void reported(void)
{
    static int mutexes[2];
    goodlock_names locks = opened(10), places = opened(10);
    for (int round = 0; round < 2; round++) {
        goodlock_session session = open_session(2);
        goodlock_report report = {NULL};
        goodlock_pulled pulled;
        uint32_t told_locks = 0, told_places = 0, thread;
        for (int i = 0; i < 2; i++) {
            goodlock_lane lane = {NULL};
            expect("lane", goodlock_lane_open(&session, &lane, &thread), GOODLOCK_OK);
            expect("acquire", goodlock_acquire(&lane, at(&locks, &mutexes[i], "account"), literal(&places, "here")),
                   GOODLOCK_OK);
            expect("acquire",
                   goodlock_acquire(&lane, at(&locks, &mutexes[1 - i], "account"), literal(&places, "there")),
                   GOODLOCK_OK);
            expect("pull", goodlock_pull(&session, 100, &pulled), GOODLOCK_OK);
            goodlock_lane_free(&lane);
        }
        expect("report", goodlock_report_so_far(&session, GOODLOCK_FULL_MODE, 4, 10, &report), GOODLOCK_OK);
        expect("telling locks", goodlock_tell_locks(&session, &locks, &told_locks), GOODLOCK_OK);
        expect("telling places", goodlock_tell_places(&session, &places, &told_places), GOODLOCK_OK);
        check(told_locks == 2 && told_places == 2, "two locks and two places were told");
        check(is_text(&session, &report, REPORT), "the text has the names of the tables");
        expect("telling nothing new", goodlock_tell_locks(&session, &locks, &told_locks), GOODLOCK_OK);
        check(told_locks == 2 && lock_of(&session, "another") == 2, "nothing more was told");
        goodlock_report_free(&report);
        goodlock_session_free(&session);
    }
    goodlock_names_free(&locks);
    goodlock_names_free(&places);
}

/* The text by mention of two threads in opposite orders, where each did the same whichever lock was mentioned first. */
static bool is_by_mention(const char *one, const char *other, bool is_other_first, const char *right)
{
    static int mutexes[2];
    goodlock_names locks = opened(2), places = opened(1);
    goodlock_session session = open_session(2);
    goodlock_report report = {NULL};
    goodlock_pulled pulled;
    const char *const names[] = {one, other};
    uint32_t told_locks = 0, told_places = 0, thread;
    bool is_right;
    at(&locks, &mutexes[is_other_first], names[is_other_first]);
    for (int i = 0; i < 2; i++) {
        const uint32_t first = at(&locks, &mutexes[i], names[i]), second = at(&locks, &mutexes[1 - i], names[1 - i]);
        goodlock_lane lane = {NULL};
        expect("lane", goodlock_lane_open(&session, &lane, &thread), GOODLOCK_OK);
        expect("acquire", goodlock_acquire(&lane, first, literal(&places, "here")), GOODLOCK_OK);
        expect("acquire", goodlock_acquire(&lane, second, literal(&places, "here")), GOODLOCK_OK);
        expect("close", goodlock_close(&lane), GOODLOCK_OK);
        expect("pull", goodlock_pull(&session, 100, &pulled), GOODLOCK_OK);
        expect("hand_in", goodlock_hand_in(&session, &lane), GOODLOCK_OK);
    }
    expect("settle", goodlock_settle(&session, &thread), GOODLOCK_OK);
    expect("telling locks", goodlock_tell_locks(&session, &locks, &told_locks), GOODLOCK_OK);
    expect("telling places", goodlock_tell_places(&session, &places, &told_places), GOODLOCK_OK);
    expect("by mention", goodlock_report_by_mention(&session, GOODLOCK_FULL_MODE, 4, 10, &report), GOODLOCK_OK);
    is_right = is_text(&session, &report, right);
    goodlock_report_free(&report);
    goodlock_session_free(&session);
    goodlock_names_free(&locks);
    goodlock_names_free(&places);
    return is_right;
}

/* A report by mention is the same in whichever order names were mentioned to the table, but where two are equal. */
static void other_orders(void)
{
    static const char left_first[] = "cycle 1: 2 edges\n"
                                     "  T0 holds left since here wants right at here\n"
                                     "  T1 holds right since here wants left at here\n"
                                     "cycles: 1\n";
    static const char equal[] = "cycle 1: 2 edges\n"
                                "  T0 holds shelf since here wants shelf#2 at here\n"
                                "  T1 holds shelf#2 since here wants shelf at here\n"
                                "cycles: 1\n";
    static const char swapped[] = "cycle 1: 2 edges\n"
                                  "  T0 holds shelf#2 since here wants shelf at here\n"
                                  "  T1 holds shelf since here wants shelf#2 at here\n"
                                  "cycles: 1\n";
    check(is_by_mention("left", "right", false, left_first), "names that differ");
    check(is_by_mention("left", "right", true, left_first), "names that differ, in the other order");
    check(is_by_mention("shelf", "shelf", false, equal), "equal names");
    check(is_by_mention("shelf", "shelf", true, swapped), "equal names, in the other order");
}

/* Suffixes that are names already; told in two parts, and to a second session and as places at once. */
static void suffixes(void)
{
    static const char *const right[] = {"x", "x#2", "x#3", "x#4", "x#4#2", "", "#2", "y", "x#5", "#3"};
    enum { COUNT = sizeof right / sizeof *right };
    static char memory[COUNT];
    goodlock_names names = opened(COUNT);
    goodlock_session first = open_session(1), second = open_session(1);
    uint32_t told = 0, told_second = 0, told_places = 0, wrong = 0;
    wrong += at(&names, &memory[0], "x") != 0;
    wrong += of(&names, "x#2") != 1;
    wrong += at(&names, &memory[2], "x") != 2;
    wrong += of(&names, "x") != 3;
    wrong += of(&names, "x#4") != 4;
    expect("telling", goodlock_tell_locks(&first, &names, &told), GOODLOCK_OK);
    check(told == 5, "five are told");
    wrong += of(&names, "") != 5;
    wrong += at(&names, &memory[6], "") != 6;
    wrong += of(&names, "y") != 7;
    wrong += at(&names, &memory[8], "x") != 8;
    wrong += at(&names, &memory[9], "") != 9;
    expect("telling the rest", goodlock_tell_locks(&first, &names, &told), GOODLOCK_OK);
    expect("telling all", goodlock_tell_locks(&second, &names, &told_second), GOODLOCK_OK);
    expect("telling places", goodlock_tell_places(&second, &names, &told_places), GOODLOCK_OK);
    check(told == COUNT && told_second == COUNT && told_places == COUNT, "all are told");
    told = 0;
    expect("telling again from 0", goodlock_tell_locks(&first, &names, &told), GOODLOCK_OK);
    for (uint32_t i = 0; i < COUNT; i++)
        wrong += lock_of(&first, right[i]) != i || lock_of(&second, right[i]) != i || place_of(&second, right[i]) != i;
    check(wrong == 0, "each name is told with its number, and told from others by its suffix");
    goodlock_names_free(&names);
    goodlock_session_free(&first);
    goodlock_session_free(&second);
}

static void many_of_one_name(void)
{
    static char memory[20000];
    goodlock_names names = opened(sizeof memory);
    goodlock_session session = open_session(1);
    uint32_t told = 0, wrong = 0;
    char name[30];
    for (uint32_t i = 0; i < sizeof memory; i++)
        wrong += at(&names, &memory[i], "account") != i;
    expect("telling", goodlock_tell_locks(&session, &names, &told), GOODLOCK_OK);
    check(told == sizeof memory, "all are told");
    for (uint32_t i = 1; i < sizeof memory; i++) {
        snprintf(name, sizeof name, "account#%u", i + 1);
        wrong += lock_of(&session, name) != i;
    }
    check(wrong == 0 && lock_of(&session, "account") == 0, "20,000 locks of one name are 20,000 names");
    goodlock_names_free(&names);
    goodlock_session_free(&session);
}

static void foreign_names(void)
{
    goodlock_names names = opened(10);
    goodlock_session session = open_session(1), none = {NULL};
    uint32_t told = 0;
    expect("nothing to tell", goodlock_tell_locks(&session, &names, &told), GOODLOCK_OK);
    expect("no table", goodlock_tell_locks(&session, &nothing, &told), GOODLOCK_MISUSE);
    check(of(&names, "a") == 0 && of(&names, "b") == 1, "two names");
    expect("no session", goodlock_tell_locks(&none, &names, &told), GOODLOCK_MISUSE);
    told = 11;
    expect("more told than there may be", goodlock_tell_locks(&session, &names, &told), GOODLOCK_MISUSE);
    told = 0;
    check(lock_of(&session, "foreign") == 0, "somebody numbers a name");
    expect("a foreign name before", goodlock_tell_locks(&session, &names, &told), GOODLOCK_MISUSE);
    check(told == 0, "nothing was told");
    expect("places are apart", goodlock_tell_places(&session, &names, &told), GOODLOCK_OK);
    check(told == 2 && place_of(&session, "foreign") == 2, "places are told, and somebody numbers one more");
    check(of(&names, "c") == 2, "a third name");
    expect("a foreign place between", goodlock_tell_places(&session, &names, &told), GOODLOCK_MISUSE);
    check(told == 2, "what was told stands");
    goodlock_names_free(&names);
    goodlock_session_free(&session);
}

/* What a full table refused isn't told. */
static void full_and_told(void)
{
    goodlock_names names = opened(2);
    goodlock_session session = open_session(1);
    uint32_t told = 0;
    check(of(&names, "a") == 0 && at(&names, &told, "a") == 1 && of(&names, "b") == NONE, "a table of two");
    expect("telling", goodlock_tell_locks(&session, &names, &told), GOODLOCK_OK);
    check(told == 2 && lock_of(&session, "c") == 2, "two are told, and no third");
    goodlock_names_free(&names);
    goodlock_session_free(&session);
}

/* ---- Many threads */

enum { THREADS = 8, ROUNDS = 60, BY_NAME = 60, BY_ADDRESS = 60, BY_LITERAL = 40, OWN = 20 };
enum { SHARED = BY_NAME + BY_ADDRESS + BY_LITERAL, KEYS = SHARED + THREADS * OWN };

/* Texts of literals, two of each at different addresses. */
static char literals[2][BY_LITERAL][16];

struct round {
    goodlock_names names;
    goodlock_session session;
    uint32_t told;
    char memory[BY_ADDRESS];
    pthread_barrier_t begin;
    uint32_t running; /* atomic */
};

struct worker {
    struct round *round;
    uint32_t thread, seed, refused;
    uint32_t numbers[2][KEYS]; /* at the first and the second mention; NONE: NAMES */
    bool is_asked[KEYS];
};

static uint32_t random_below(uint32_t *seed, uint32_t limit)
{
    *seed = *seed * 1664525 + 1013904223;
    return (uint32_t)((uint64_t)*seed * limit >> 32);
}

static uint32_t mention(struct worker *worker, uint32_t key)
{
    struct round *const round = worker->round;
    uint32_t number = 77, code;
    char name[40];
    if (key < BY_NAME || key >= SHARED) {
        snprintf(name, sizeof name, "name %u", key);
        code = goodlock_names_of(&round->names, bytes(name), strlen(name), &number);
    } else if (key < BY_NAME + BY_ADDRESS) {
        snprintf(name, sizeof name, "lock %u", key % 7);
        code = goodlock_names_at(&round->names, &round->memory[key - BY_NAME], bytes(name), strlen(name), &number);
    } else {
        const uint32_t text = key - BY_NAME - BY_ADDRESS;
        code = goodlock_names_literal(&round->names, literals[worker->thread % 2][text], &number);
    }
    memset(name, '?', sizeof name);
    worker->refused += code == GOODLOCK_NAMES;
    if (code != GOODLOCK_OK && code != GOODLOCK_NAMES)
        worker->refused += 1000000;
    return code == GOODLOCK_OK ? number : NONE;
}

/* Mentions all shared keys in an order of its own, and keys of its own in between, in their order; then all again. */
static void *mention_all(void *argument)
{
    struct worker *const worker = (struct worker *)argument;
    uint32_t order[SHARED], own = SHARED + worker->thread * OWN;
    for (uint32_t i = 0; i < SHARED; i++) {
        const uint32_t to = random_below(&worker->seed, i + 1);
        order[i] = order[to];
        order[to] = i;
    }
    pthread_barrier_wait(&worker->round->begin);
    for (uint32_t i = 0; i < SHARED; i++) {
        worker->numbers[0][order[i]] = mention(worker, order[i]);
        if (i % (SHARED / OWN) == 0 && own < SHARED + (worker->thread + 1) * OWN) {
            worker->numbers[0][own] = mention(worker, own);
            own++;
        }
        if (random_below(&worker->seed, 50) == 0)
            sched_yield();
    }
    for (uint32_t key = 0; key < KEYS; key++) {
        worker->is_asked[key] = key < SHARED || (key - SHARED) / OWN == worker->thread;
        if (worker->is_asked[key])
            worker->numbers[1][key] = mention(worker, key);
    }
    __atomic_fetch_sub(&worker->round->running, 1, __ATOMIC_ACQ_REL);
    return NULL;
}

static void *tell_all(void *argument)
{
    struct round *const round = (struct round *)argument;
    bool is_last;
    uintptr_t faults = 0;
    pthread_barrier_wait(&round->begin);
    do {
        is_last = __atomic_load_n(&round->running, __ATOMIC_ACQUIRE) == 0;
        faults += goodlock_tell_locks(&round->session, &round->names, &round->told) != GOODLOCK_OK;
        sched_yield();
    } while (!is_last);
    return (void *)faults;
}

/* What all threads were answered, together. */
static void judge(struct round *round, struct worker *workers, uint32_t most)
{
    static bool is_given[KEYS];
    uint32_t wrong = 0, given = 0;
    char name[40];
    memset(is_given, 0, sizeof is_given);
    for (uint32_t key = 0; key < KEYS; key++) {
        uint32_t number = NONE;
        bool is_first = true;
        for (uint32_t t = 0; t < THREADS; t++) {
            if (!workers[t].is_asked[key])
                continue;
            if (is_first)
                number = workers[t].numbers[0][key];
            is_first = false;
            wrong += workers[t].numbers[0][key] != number || workers[t].numbers[1][key] != number;
        }
        if (number == NONE)
            continue;
        if (number >= most || is_given[number]) {
            wrong++;
            continue;
        }
        is_given[number] = true;
        given++;
        if (key < BY_NAME || key >= SHARED) {
            snprintf(name, sizeof name, "name %u", key);
            wrong += lock_of(&round->session, name) != number;
        } else if (key >= BY_NAME + BY_ADDRESS) {
            wrong += lock_of(&round->session, literals[0][key - BY_NAME - BY_ADDRESS]) != number;
        }
    }
    check(wrong == 0, "each thread has the same number for a name, and no other name has it");
    check(given == most && goodlock_names_count(&round->names) == most, "numbers have no gap");
    check(round->told == most && lock_of(&round->session, "end") == most, "all are told, and nothing else");
    wrong = 0;
    for (uint32_t t = 0; t < THREADS; t++) {
        for (uint32_t own = SHARED + t * OWN + 1; own < SHARED + (t + 1) * OWN; own++)
            wrong += workers[t].numbers[0][own] != NONE && workers[t].numbers[0][own - 1] > workers[t].numbers[0][own];
        wrong += workers[t].refused >= 1000000 || (most == KEYS && workers[t].refused > 0);
    }
    check(wrong == 0, "a thread's own names have numbers in the order of their mentions");
}

static void threads_at_once(uint32_t most, uint32_t seed)
{
    static struct round round;
    static struct worker workers[THREADS];
    pthread_t threads[THREADS], collector;
    void *faults;
    memset(workers, 0, sizeof workers);
    round.names = opened(most);
    round.session = open_session(1);
    round.told = 0;
    round.running = THREADS;
    pthread_barrier_init(&round.begin, NULL, THREADS + 1);
    for (uint32_t t = 0; t < THREADS; t++) {
        workers[t].round = &round;
        workers[t].thread = t;
        workers[t].seed = seed * 1000 + t * 7919;
        if (pthread_create(&threads[t], NULL, mention_all, &workers[t]) != 0)
            abort();
    }
    if (pthread_create(&collector, NULL, tell_all, &round) != 0)
        abort();
    for (uint32_t t = 0; t < THREADS; t++)
        pthread_join(threads[t], NULL);
    pthread_join(collector, &faults);
    check(faults == NULL, "telling answers OK each time");
    judge(&round, workers, most);
    pthread_barrier_destroy(&round.begin);
    goodlock_names_free(&round.names);
    goodlock_session_free(&round.session);
}

/* Each thread has locks of its own at addresses that it uses again and again, as a stack does. */
static void *forget_again(void *argument)
{
    struct worker *const worker = (struct worker *)argument;
    uint32_t last = 0;
    for (uint32_t i = 0; i < 200; i++) {
        char *const mine = &worker->round->memory[(worker->thread * 3 + i % 3) % BY_ADDRESS];
        const uint32_t number = at(&worker->round->names, mine, "local");
        worker->refused += number == NONE || (i > 0 && number <= last) || at(&worker->round->names, mine, "") != number;
        last = number;
        goodlock_names_forget(&worker->round->names, mine);
    }
    return NULL;
}

static void forget_at_once(void)
{
    static struct round round;
    static struct worker workers[THREADS];
    pthread_t threads[THREADS];
    uint32_t wrong = 0;
    round.names = opened(THREADS * 200);
    for (uint32_t t = 0; t < THREADS; t++) {
        workers[t].round = &round;
        workers[t].thread = t;
        if (pthread_create(&threads[t], NULL, forget_again, &workers[t]) != 0)
            abort();
    }
    for (uint32_t t = 0; t < THREADS; t++) {
        pthread_join(threads[t], NULL);
        wrong += workers[t].refused;
    }
    check(wrong == 0 && goodlock_names_count(&round.names) == THREADS * 200, "each forgotten address is a new lock");
    goodlock_names_free(&round.names);
}

static void many_threads(void)
{
    for (uint32_t i = 0; i < BY_LITERAL; i++) {
        snprintf(literals[0][i], sizeof literals[0][i], "place %u", i);
        snprintf(literals[1][i], sizeof literals[1][i], "place %u", i);
    }
    for (uint32_t round = 0; round < ROUNDS; round++)
        threads_at_once(round % 3 == 0 ? KEYS / 2 : KEYS, round + 1);
    forget_at_once();
}

/* ---- Schedules: threads that are coroutines here, of which one goes on at each step */

enum { MAX_RUNNING = 3, MAX_ASKED = 3, MAX_STEPS = 1000 };
enum kind { NO_MENTION, OF, AT, LITERAL, FORGET };

struct asked {
    enum kind kind;
    uint32_t key;     /* what has one number */
    const char *name; /* of OF and AT */
    uint32_t address; /* of AT, LITERAL and FORGET */
};

struct scenario {
    const char *name;
    uint32_t most, keys, switches; /* how often a thread that could go on doesn't */
    struct asked asked[MAX_RUNNING][MAX_ASKED];
};

/* clang-format off */
static const struct scenario scenarios[] = {
    {"one new name", 4, 1, 2, {{{OF, 0, "a", 0}}, {{OF, 0, "a", 0}}, {{OF, 0, "a", 0}}}},
    {"three new names", 4, 3, 2, {{{OF, 0, "a", 0}}, {{OF, 1, "b", 0}}, {{OF, 2, "c", 0}}}},
    {"two names, crosswise", 4, 2, 3, {{{OF, 0, "a", 0}, {OF, 1, "b", 0}}, {{OF, 1, "b", 0}, {OF, 0, "a", 0}}}},
    {"names in few slots", 2, 2, 3, {{{OF, 0, "a", 0}, {OF, 1, "b", 0}}, {{OF, 1, "b", 0}, {OF, 0, "a", 0}}}},
    {"one new address", 4, 1, 2, {{{AT, 0, "a", 0}}, {{AT, 0, "b", 0}}, {{AT, 0, "a", 0}}}},
    {"three new addresses of one name", 4, 3, 2, {{{AT, 0, "a", 0}}, {{AT, 1, "a", 1}}, {{AT, 2, "a", 2}}}},
    {"two addresses, crosswise", 2, 2, 3, {{{AT, 0, "a", 0}, {AT, 1, "b", 1}}, {{AT, 1, "b", 1}, {AT, 0, "a", 0}}}},
    {"a literal and its bytes", 4, 1, 3,
     {{{LITERAL, 0, "a", 0}, {LITERAL, 0, "a", 0}}, {{OF, 0, "a", 0}, {LITERAL, 0, "a", 0}}}},
    {"one name, room for one", 1, 1, 4, {{{OF, 0, "a", 0}}, {{OF, 0, "a", 0}}}},
    {"two names, room for one", 1, 2, 2,
     {{{OF, 0, "a", 0}, {OF, 0, "a", 0}}, {{OF, 1, "b", 0}, {OF, 1, "b", 0}}, {{OF, 0, "a", 0}}}},
    {"one address, room for one", 1, 1, 4, {{{AT, 0, "a", 0}}, {{AT, 0, "b", 0}}}},
    {"two addresses, room for one", 1, 2, 3, {{{AT, 0, "a", 0}, {AT, 0, "a", 0}}, {{AT, 1, "a", 1}, {AT, 0, "a", 0}}}},
    {"one literal, room for one", 1, 1, 4, {{{LITERAL, 0, "a", 0}}, {{LITERAL, 0, "a", 0}}}},
    {"forgotten beside another", 4, 4, 3,
     {{{AT, 0, "a", 0}, {FORGET, 0, "", 0}, {AT, 1, "a", 0}}, {{AT, 2, "a", 1}, {OF, 3, "a", 0}}}},
};
/* clang-format on */

static struct {
    const struct scenario *scenario;
    goodlock_names names;
    ucontext_t back, threads[MAX_RUNNING];
    bool is_running[MAX_RUNNING], is_counted; /* whether the count had each number that was answered */
    uint32_t current, switches, steps;        /* the thread that goes on; switches that are left; steps so far */
    uint32_t codes[MAX_RUNNING][MAX_ASKED], numbers[MAX_RUNNING][MAX_ASKED];
} now;

static __thread bool is_stepped; /* whether this thread is in a coroutine */
static char locks_at[3];
static char text_at[1][2] = {"a"};
static char stacks[MAX_RUNNING][64 * 1024];

static void mention_asked(int thread)
{
    for (uint32_t i = 0; i < MAX_ASKED; i++) {
        const struct asked *const asked = &now.scenario->asked[thread][i];
        uint32_t *const code = &now.codes[thread][i], *const number = &now.numbers[thread][i];
        if (asked->kind == OF)
            *code = goodlock_names_of(&now.names, bytes(asked->name), strlen(asked->name), number);
        else if (asked->kind == AT)
            *code = goodlock_names_at(&now.names, &locks_at[asked->address], bytes(asked->name), strlen(asked->name),
                                      number);
        else if (asked->kind == LITERAL)
            *code = goodlock_names_literal(&now.names, text_at[asked->address], number);
        else if (asked->kind == FORGET)
            goodlock_names_forget(&now.names, &locks_at[asked->address]);
        is_stepped = false;
        now.is_counted = now.is_counted && (asked->kind == NO_MENTION || asked->kind == FORGET || *number == NONE ||
                                            goodlock_names_count(&now.names) > *number);
        is_stepped = true;
    }
    now.is_running[thread] = false;
}

/* The schedule: which of the threads that could go on does, and of how many, at each step with a choice. */
static struct {
    uint32_t chosen[MAX_STEPS], of[MAX_STEPS], known, made;
} schedule;

/* The threads that may go on, the one that did so last at first; how many. */
static uint32_t may_go_on(uint32_t *threads)
{
    uint32_t count = 0;
    const bool goes_on = now.current != NONE && now.is_running[now.current];
    if (goes_on)
        threads[count++] = now.current;
    for (uint32_t t = 0; t < MAX_RUNNING; t++)
        if (now.is_running[t] && t != now.current && (!goes_on || now.switches > 0))
            threads[count++] = t;
    return count;
}

/* The thread that goes on: by the schedule as far as it is known, and then without switches. NONE once all have come to
   an end, or where they take too many steps. */
static uint32_t next_thread(void)
{
    uint32_t threads[MAX_RUNNING], choice = 0;
    const uint32_t count = may_go_on(threads);
    if (count == 0 || now.steps == MAX_STEPS)
        return NONE;
    now.steps++;
    if (count > 1) {
        if (schedule.made == schedule.known)
            schedule.chosen[schedule.known++] = 0;
        choice = schedule.chosen[schedule.made];
        schedule.of[schedule.made++] = count;
    }
    now.switches -= choice > 0 && threads[0] == now.current;
    return now.current = threads[choice];
}

/* A thread that goes on itself is not left for it, which takes most of the time. */
static void step(void)
{
    const uint32_t own = now.current, next = is_stepped ? next_thread() : own;
    if (next != own)
        swapcontext(&now.threads[own], next == NONE ? &now.back : &now.threads[next]);
}

static void start(uint32_t thread)
{
    ucontext_t *const context = &now.threads[thread];
    now.is_running[thread] = now.scenario->asked[thread][0].kind != NO_MENTION;
    getcontext(context);
    context->uc_stack.ss_sp = stacks[thread];
    context->uc_stack.ss_size = sizeof stacks[thread];
    context->uc_link = &now.back;
    makecontext(context, (void (*)(void))mention_asked, 1, (int)thread);
}

/* Runs the scenario by the schedule; whether it came to an end. */
static bool run_once(void)
{
    now.names = nothing;
    if (goodlock_names_open(now.scenario->most, &now.names) != GOODLOCK_OK)
        return false;
    now.is_counted = true;
    memset(now.numbers, 0xff, sizeof now.numbers);
    for (uint32_t t = 0; t < MAX_RUNNING; t++)
        start(t);
    schedule.made = now.steps = 0;
    now.switches = now.scenario->switches;
    now.current = NONE;
    for (uint32_t next; (next = next_thread()) != NONE;) {
        is_stepped = true;
        swapcontext(&now.back, &now.threads[next]);
        is_stepped = false;
    }
    return now.steps < MAX_STEPS;
}

/* The next schedule in order; whether there is one. */
static bool next_schedule(void)
{
    while (schedule.made > 0 && schedule.chosen[schedule.made - 1] + 1 == schedule.of[schedule.made - 1])
        schedule.made--;
    schedule.known = schedule.made;
    if (schedule.made > 0)
        schedule.chosen[schedule.made - 1]++;
    return schedule.made > 0;
}

/* What is wrong with what the threads were answered. */
static const char *fault_of_run(void)
{
    const struct scenario *const scenario = now.scenario;
    const uint32_t given = scenario->keys < scenario->most ? scenario->keys : scenario->most;
    uint32_t numbers[4], told = 0, number, has[4] = {0, 0, 0, 0};
    goodlock_session session = {NULL};
    const char *fault = NULL;
    if (goodlock_open(next_session(), 1, 1, &session) != GOODLOCK_OK ||
        goodlock_tell_locks(&session, &now.names, &told) != GOODLOCK_OK)
        fault = "the session isn't told";
    if (!now.is_counted || told != given || goodlock_names_count(&now.names) != given)
        fault = "another count of numbers";
    memset(numbers, 0x77, sizeof numbers);
    for (uint32_t t = 0; t < MAX_RUNNING; t++) {
        for (uint32_t i = 0; i < MAX_ASKED; i++) {
            const struct asked *const asked = &scenario->asked[t][i];
            if (asked->kind == NO_MENTION || asked->kind == FORGET)
                continue;
            if (now.codes[t][i] != (now.numbers[t][i] == NONE ? GOODLOCK_NAMES : GOODLOCK_OK))
                fault = "another answer";
            if (numbers[asked->key] == 0x77777777U)
                numbers[asked->key] = now.numbers[t][i];
            if (numbers[asked->key] != now.numbers[t][i])
                fault = "two numbers of one name";
            if (asked->kind != AT && now.numbers[t][i] != NONE && scenario->most > 1 && scenario->keys < 4 &&
                (goodlock_lock(&session, bytes(asked->name), 1, &number) != GOODLOCK_OK || number != now.numbers[t][i]))
                fault = "another name was told";
        }
    }
    for (uint32_t key = 0; key < scenario->keys; key++) {
        if (numbers[key] == NONE)
            continue;
        if (numbers[key] >= given || has[numbers[key]]++ > 0)
            fault = "a number is given twice, or too great";
    }
    goodlock_session_free(&session);
    goodlock_names_free(&now.names);
    return fault;
}

static void schedules(void)
{
    unsigned all = 0;
    for (uint32_t i = 0; i < sizeof scenarios / sizeof *scenarios; i++) {
        const char *fault = NULL;
        unsigned runs = 0;
        char text[200];
        now.scenario = &scenarios[i];
        schedule.known = 0;
        do {
            fault = run_once() ? fault_of_run() : "a thread waits for one that doesn't go on";
            runs++;
        } while (fault == NULL && next_schedule());
        snprintf(text, sizeof text, "%s: %s, in schedule %u", now.scenario->name, fault == NULL ? "" : fault, runs);
        check(fault == NULL, text);
        all += runs;
    }
    printf("schedules: %u\n", all);
}

int main(int count, char **words)
{
    const char *const word = count == 2 ? words[1] : "";
    alarm(400); /* only a run that hangs takes so long */
    if (strcmp(word, "numbers") == 0) {
        names_by_bytes();
        names_by_literal();
        names_by_address();
        forgotten_neighbours();
        full_tables();
        many_literals();
        used_wrongly();
    } else if (strcmp(word, "memory") == 0) {
        refuse_memory();
    } else if (strcmp(word, "quiet") == 0) {
        in_a_quiet_child();
    } else if (strcmp(word, "report") == 0) {
        reported();
        other_orders();
        suffixes();
        many_of_one_name();
        foreign_names();
        full_and_told();
    } else if (strcmp(word, "threads") == 0) {
        many_threads();
    } else if (strcmp(word, "schedules") == 0) {
        schedules();
    } else {
        fputs("library_names numbers|memory|quiet|report|threads|schedules\n", stderr);
        return 2;
    }
    printf("%u passed, %u failed\n", passed, failed);
    return failed == 0 ? 0 : 1;
}
