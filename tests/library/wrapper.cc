// Tests goodlock.hpp: each kind of lock, with std's helpers, and what is done where there is no session or no lane.
//
//     library_wrapper locks       known reports of each kind of lock
//     library_wrapper names       locks of one name, and of a name that tells such ones apart
//     library_wrapper findings    reports of findings, so far and at the end
//     library_wrapper unstarted   a session whose collecting thread is refused memory
//     library_wrapper memory      locks that get no number, and a thread that gets no lane, as memory is refused
//     library_wrapper thrown      locks whose name or place is refused memory by C++, which throws
//     library_wrapper texts       reports whose text is refused memory by C++
//     library_wrapper signals     signals of the process are for the program's own threads
//     library_wrapper elsewhere   another thread than main's ends the recording
//     library_wrapper threads     many threads with small rings, of which some have no lane
//     library_wrapper ends        what is locked at a thread's end, by destructors of thread_locals and of keys
//     library_wrapper leave       main returns without finish(), while a thread records
//
// Memory is refused by the linker's --wrap of malloc, calloc, realloc and aligned_alloc, and of operator new. What
// isn't as it has to be is told; the last line is how many checks passed and failed.
#include "checks.hpp"
#include "refusing.h"

#include <condition_variable>
#include <csignal>
#include <cstring>
#include <memory>
#include <new>
#include <unistd.h>

// How many requests of C++ this thread is granted yet; less than 0: all.
static thread_local long granted = -1;

extern "C" void *__real__Znwm(std::size_t size);
extern "C" void *__wrap__Znwm(std::size_t size);

// In place of operator new.
void *__wrap__Znwm(std::size_t size)
{
    if (granted == 0)
        throw std::bad_alloc();
    if (granted > 0)
        granted--;
    return __real__Znwm(size);
}

// Locks and unlocks before the session and after it are std's.
static void without_a_session()
{
    goodlock::mutex lock;
    goodlock::recursive_mutex again;
    lock.lock();
    check(!lock.try_lock(), "a mutex that is held");
    lock.unlock();
    again.lock();
    check(again.try_lock(), "a recursive mutex again");
    again.unlock();
    again.unlock();
    goodlock::thread thread([&] { goodlock::guard<goodlock::mutex> hold(lock); });
    thread.join();
    check(goodlock::report_so_far().code == GOODLOCK_MISUSE, "no report without a session");
}

// One thread after the other, so that no run deadlocks.
template <class F> static void in_a_thread(F work)
{
    goodlock::thread thread(work);
    thread.join();
}

static const char *const RIGHT = "cycle 1: 2 edges\n"
                                 "  T1 holds a since wrapper:2 wants b at wrapper:3\n"
                                 "  T2 holds b since wrapper:2 wants a at wrapper:3\n"
                                 "cycle 2: 2 edges\n"
                                 "  T5 holds r since wrapper:4 wants w at wrapper:5\n"
                                 "  T6 holds w since wrapper:6 wants r at wrapper:7\n"
                                 "cycles: 2\n";

static const char *const TOLD_APART = "cycle 1: 2 edges\n"
                                      "  T1 holds shelf#2 since wrapper:2 wants shelf#2#2 at wrapper:3\n"
                                      "  T2 holds shelf#2#2 since wrapper:2 wants shelf#2 at wrapper:3\n"
                                      "cycle 2: 2 edges\n"
                                      "  T3 holds shelf#3 since wrapper:2 wants shelf#4 at wrapper:3\n"
                                      "  T4 holds shelf#4 since wrapper:2 wants shelf#3 at wrapper:3\n"
                                      "cycles: 2\n";

static const char *const OF_TWO = "cycle 1: 2 edges\n"
                                  "  T3 holds c since wrapper:2 wants d at wrapper:3\n"
                                  "  T4 holds d since wrapper:2 wants c at wrapper:3\n"
                                  "cycles: 1\n";

template <class M, class N> static void opposite(M &one, N &other)
{
    one_by_one(
        [&] {
#line 2 "wrapper"
            goodlock::guard<M> first(one);
            other.lock();
            other.unlock();
        },
        [&] {
#line 2 "wrapper"
            goodlock::guard<N> first(other);
            one.lock();
            one.unlock();
        });
}
#line 81 "tests/library/wrapper.cc"

static void locks()
{
    without_a_session();
    goodlock::mutex early("early");
    early.lock();
    check(goodlock::start(24, 8) == GOODLOCK_OK, "start");
    check(goodlock::start(24, 8) == GOODLOCK_MISUSE, "a second start");
    early.unlock(); // is refused: nobody saw it locked
    goodlock::mutex a("a"), b("b"), namesake("a");
    opposite(a, b);
    {
        // Tries can't wait, and a thread that is over when another starts is no danger.
        one_by_one(
            [&] {
                std::lock_guard<goodlock::mutex> first(a);
                check(namesake.try_lock(), "a mutex that is free");
                namesake.unlock();
            },
            [&] {
                std::unique_lock<goodlock::mutex> first(namesake);
                check(a.try_lock(), "a mutex that is free");
                a.unlock();
            });
    }
    goodlock::shared_mutex r("r"), w("w");
    one_by_one(
        [&] {
#line 4 "wrapper"
            goodlock::shared_guard<goodlock::shared_mutex> first(r);
            w.lock_shared();
            w.unlock_shared();
        },
        [&] {
#line 6 "wrapper"
            goodlock::guard<goodlock::shared_mutex> first(w);
            r.lock();
            r.unlock();
#line 120 "tests/library/wrapper.cc"
        });
    goodlock::recursive_mutex x, y;
    in_a_thread([&] { std::lock_guard<goodlock::recursive_mutex> first(x), again(x), second(y); });
    in_a_thread([&] { std::scoped_lock both(y, x); });
    std::condition_variable_any is_ready;
    bool ready = false;
    goodlock::thread waiting([&] {
        std::unique_lock<goodlock::mutex> hold(a);
        is_ready.wait(hold, [&] { return ready; });
    });
    {
        goodlock::guard<goodlock::mutex> hold(a);
        ready = true;
    }
    is_ready.notify_one();
    waiting.join();
    const goodlock::result result = goodlock::finish();
    check(result.code == GOODLOCK_OK && result.is_settled, "the report is settled");
    check(result.unrecorded == 1, "one event wasn't recorded");
    check(result.cycles == 2 && !result.more, "there are two cycles");
    check(result.text == RIGHT, "another text:\n" + result.text);
    check(goodlock::finish().code == GOODLOCK_MISUSE, "a second end");
    goodlock::guard<goodlock::mutex> hold(a);
}

// Locks of one name are told apart by what is set behind it, which no other lock has as its name.
static void names()
{
    check(goodlock::start(24, 64) == GOODLOCK_OK, "start");
    goodlock::mutex one("shelf"), two("shelf"), given("shelf#2"), three("shelf#3"), four("shelf");
    for (goodlock::mutex *lock : {&one, &two, &given, &three, &four}) // a lock has its name from its first use on
        goodlock::guard<goodlock::mutex> hold(*lock);
    opposite(two, given);
    opposite(three, four);
    const goodlock::result result = goodlock::finish();
    check(result.code == GOODLOCK_OK && result.is_settled && result.unrecorded == 0, "the report is settled");
    check(result.cycles == 2, "there are two cycles");
    check(result.text == TOLD_APART, "another text:\n" + result.text);
}

// Both pairs of locks are taken at the same two lines.
static const char *const A_FINDING = "finding 1: 2 edges\n"
                                     "  T3 holds a since wrapper:2 wants b at wrapper:3\n"
                                     "    threads: 4, locks: 4\n"
                                     "  T4 holds b since wrapper:2 wants a at wrapper:3\n"
                                     "    threads: 4, locks: 4\n"
                                     "findings: 1\n";

// The findings so far, once all that was recorded is pulled.
static goodlock::result findings_once_pulled()
{
    const auto end = std::chrono::steady_clock::now() + std::chrono::seconds(60);
    goodlock::result result = goodlock::findings_so_far();
    while (result.text != A_FINDING && std::chrono::steady_clock::now() < end) {
        std::this_thread::sleep_for(std::chrono::milliseconds(10));
        result = goodlock::findings_so_far();
    }
    return result;
}

// Below a gate a cycle counts in basic mode alone. Its places are its own, so there it is another finding.
static void below_a_gate()
{
    goodlock::mutex gate("gate"), one("e"), other("f");
    const auto take_all = [&gate](goodlock::mutex &first, goodlock::mutex &second) {
        goodlock::guard<goodlock::mutex> outer(gate), inner(first), innermost(second);
    };
    one_by_one([&] { take_all(one, other); }, [&] { take_all(other, one); });
}

static void findings()
{
    check(goodlock::findings_so_far().code == GOODLOCK_MISUSE, "no findings without a session");
    check(goodlock::finish_with_findings().code == GOODLOCK_MISUSE, "no end without a session");
    check(goodlock::start(24, 64) == GOODLOCK_OK, "start");
    goodlock::mutex a("a"), b("b"), c("c"), d("d");
    below_a_gate();
    opposite(a, b);
    opposite(c, d);
    const goodlock::result so_far = findings_once_pulled();
    check(so_far.code == GOODLOCK_OK && !so_far.is_settled, "findings so far aren't settled");
    check(so_far.cycles == 1 && !so_far.more, "there is one finding");
    check(so_far.text == A_FINDING, "another text so far:\n" + so_far.text);
    check(goodlock::findings_so_far(3).code == GOODLOCK_RANGE, "findings of no mode");
    check(goodlock::findings_so_far(GOODLOCK_BASIC, 17).code == GOODLOCK_RANGE, "findings of no length");
    check(goodlock::findings_so_far(GOODLOCK_BASIC, 2, 0).code == GOODLOCK_RANGE, "no findings at all");
    check(goodlock::report_so_far().cycles == 2, "there are two cycles");
    check(goodlock::findings_so_far(GOODLOCK_BASIC).cycles == 2, "there are two findings where gates don't count");
    const goodlock::result result = goodlock::finish_with_findings(GOODLOCK_BASIC, 2, 1);
    check(result.code == GOODLOCK_OK && result.is_settled && result.unrecorded == 0, "the findings are settled");
    check(result.cycles == 1 && result.more, "one finding is listed, and there are more");
    check(result.text.find("finding 1: 2 edges\n  T1 holds e since ") == 0, "another text:\n" + result.text);
}

static void take_both(goodlock::mutex &first, goodlock::mutex &second)
{
#line 2 "wrapper"
    goodlock::guard<goodlock::mutex> outer(first);
    goodlock::guard<goodlock::mutex> inner(second);
}
#line 240 "tests/library/wrapper.cc"

// A thread without memory for its lane isn't recorded later either: that it began after main had taken the two locks in
// the other order isn't known then.
static void thread_without_a_lane()
{
    goodlock::mutex one("e"), two("f");
    take_both(one, two);
    requests = 0;
    refuse_at = 1;
    is_onwards = was_refused = false;
    is_counted = true;
    goodlock::thread thread([&] { take_both(two, one); });
    is_counted = false;
    check(was_refused, "memory is refused to a thread's lane");
    thread.join();
}

// A session whose collecting thread there is no memory for is closed: what is locked then is as without one.
static void unstarted()
{
    without_a_session();
    granted = 0; // of what C++ asks for in start the collecting thread is the first
    check(goodlock::start(24, 64) == GOODLOCK_MEMORY, "start without memory for the collecting thread");
    granted = -1;
    check(goodlock::start(24, 64) == GOODLOCK_MISUSE, "start once more");
    without_a_session();
    check(goodlock::finish().text.empty(), "a report without a session");
}

// Two locks that got no number aren't one lock: they aren't recorded, which is told. Others are.
static void memory()
{
    check(goodlock::start(24, 64) == GOODLOCK_OK, "start");
    goodlock::mutex one("one"), two("two"), c("c"), d("d");
    is_onwards = true;
    for (goodlock::mutex *lock : {&one, &two}) {
        requests = 0;
        refuse_at = 1;
        was_refused = false;
        is_counted = true;
        lock->lock();
        is_counted = false;
        lock->unlock();
        check(was_refused, "memory is refused to the name of a lock");
    }
    opposite(one, two);
    opposite(c, d);
    thread_without_a_lane();
    const goodlock::result result = goodlock::finish();
    check(result.code == GOODLOCK_OK && result.is_settled, "the report is settled");
    check(result.unrecorded == 16, std::to_string(result.unrecorded) + " events weren't recorded, and 16 are right");
    check(result.text == OF_TWO, "another text:\n" + result.text);
}

// Does this with so many requests of C++ granted, and tells whether nothing was thrown.
template <class F> static bool goes_on(long requests_granted, F work)
{
    bool is_right = true;
    granted = requests_granted;
    try {
        work();
    } catch (const std::bad_alloc &) {
        is_right = false;
    }
    granted = -1;
    return is_right;
}

static const std::string LONG(100, 'n');

// Places that no pass has named yet.
static goodlock::line new_line()
{
    static unsigned number;
    return {LONG.c_str(), ++number};
}

// Whether no thread has the mutex.
static bool is_free(goodlock::mutex &lock)
{
    bool is_taken = false;
    in_a_thread([&] {
        is_taken = lock.try_lock();
        if (is_taken)
            lock.unlock();
    });
    return is_taken;
}

// A lock whose name or place has no memory is locked and unlocked all the same: else a try that threw would leave it
// locked, and an unlock in a destructor would end the program. Of a lock that has a number no release is missing.
static void thrown()
{
    check(goodlock::start(64, 64) == GOODLOCK_OK, "start");
    goodlock::mutex c("c"), d("d");
    for (long request = 0; request < 8; request++) {
        const std::string number = std::to_string(request);
        goodlock::mutex tried(LONG + "t" + number), locked(LONG + "l" + number);
        const goodlock::line lines[] = {new_line(), new_line(), new_line(), new_line()};
        bool is_taken = false;
        check(goes_on(request, [&] { is_taken = tried.try_lock(lines[0]); }), "a try throws at request " + number);
        check(is_taken, "a try takes no lock at request " + number);
        check(goes_on(request, [&] { tried.unlock(lines[1]); }), "an unlock throws at request " + number);
        check(is_free(tried), "a lock is left locked at request " + number);
        check(goes_on(request, [&] { locked.lock(lines[2]); }), "a lock throws at request " + number);
        check(goes_on(request, [&] { locked.unlock(lines[3]); }), "an unlock throws at request " + number);
        check(is_free(locked), "a lock is left locked at request " + number);
        take_both(d, c);
    }
    in_a_thread([&] { take_both(c, d); });
    const goodlock::result result = goodlock::finish();
    check(result.code == GOODLOCK_OK && result.is_settled, "the report is settled");
    check(result.unrecorded > 0 && result.unrecorded % 2 == 0, std::to_string(result.unrecorded) + " unrecorded");
    check(result.text == "cycles: 0\n", "another text:\n" + result.text);
}

// A report whose text has no memory answers so, and is given back, which AddressSanitizer and GOODLOCK_DEBUG look
// after. So is the session at the end.
static void texts()
{
    check(goodlock::start(24, 64) == GOODLOCK_OK, "start");
    unsigned refused = 0;
    goodlock::result result;
    for (long request = 0; result.code != GOODLOCK_OK && request < 8; request++) {
        check(goes_on(request, [&] { result = goodlock::report_so_far(); }),
              "a report throws at request " + std::to_string(request));
        check(result.code == GOODLOCK_OK || (result.code == GOODLOCK_MEMORY && result.text.empty()),
              "a report answers " + std::to_string(result.code));
        refused += result.code == GOODLOCK_MEMORY;
    }
    check(refused > 0 && result.text == "cycles: 0\n", std::to_string(refused) + " reports are refused memory");
    check(goes_on(0, [&] { result = goodlock::finish(); }), "finish() throws");
    check(result.code == GOODLOCK_MEMORY && result.text.empty(), "finish() without memory for the text");
    check(goodlock::finish().code == GOODLOCK_MISUSE, "a second end");
}

// A signal that each thread of the program's own blocks waits until one of them asks for it: the collecting thread
// takes none, though it was started before they were blocked. It runs once more was pulled than a ring holds.
static void signals()
{
    sigset_t own, none;
    sigemptyset(&none);
    sigemptyset(&own);
    sigaddset(&own, SIGTERM);
    check(pthread_sigmask(SIG_SETMASK, &none, nullptr) == 0, "no signal is blocked");
    check(goodlock::start(4, 64) == GOODLOCK_OK, "start");
    goodlock::mutex lock;
    for (int i = 0; i < 100; i++)
        goodlock::guard<goodlock::mutex> hold(lock);
    sigset_t after;
    check(pthread_sigmask(SIG_BLOCK, &own, &after) == 0, "a signal is blocked");
    check(sigismember(&after, SIGTERM) == 0 && sigismember(&after, SIGINT) == 0, "start() leaves signals blocked");
    check(kill(getpid(), SIGTERM) == 0, "a signal is sent");
    const timespec limit = {60, 0};
    check(sigtimedwait(&own, nullptr, &limit) == SIGTERM, "the signal is taken by who waits for it");
    check(goodlock::finish().is_settled, "the report is settled");
}

// main's thread has a lane then, which ends with the program: GOODLOCK_DEBUG looks after it.
static void elsewhere()
{
    check(goodlock::start(4, 64) == GOODLOCK_OK, "start");
    goodlock::mutex lock;
    goodlock::guard<goodlock::mutex> hold(lock);
    std::thread([] { check(!goodlock::finish().is_settled, "a report so far, as main's thread goes on"); }).join();
}

static void threads()
{
    check(goodlock::start(10, 2) == GOODLOCK_OK, "start");
    std::vector<std::unique_ptr<goodlock::mutex>> locks;
    for (int i = 0; i < 5; i++)
        locks.emplace_back(new goodlock::mutex);
    std::vector<goodlock::thread> running;
    std::atomic<long> count{0};
    for (int i = 0; i < 20; i++)
        running.emplace_back([&count, &locks, i] {
            for (int k = 0; k < 200; k++) {
                goodlock::guard<goodlock::mutex> first(*locks[static_cast<std::size_t>(i + k) % 4]);
                goodlock::guard<goodlock::mutex> second(*locks[4]);
                count++;
            }
        });
    for (int i = 0; i < 5; i++)
        check(goodlock::report_so_far().code == GOODLOCK_OK, "a report so far");
    for (goodlock::thread &thread : running)
        thread.join();
    const goodlock::result result = goodlock::finish();
    check(count == 20 * 200, "all threads worked");
    check(result.code == GOODLOCK_OK && result.is_settled && result.cycles == 0, "a settled report without a cycle");
    check(result.text == "cycles: 0\n", result.text);
    // Nine threads have lanes; the others' events aren't recorded.
    check(result.unrecorded == 11 * 200 * 4, std::to_string(result.unrecorded) + " events weren't recorded");
}

// Two locks that are taken at a thread's end.
struct taken_at_end {
    goodlock::mutex *first, *second;
    ~taken_at_end()
    {
        if (first != nullptr)
            take_both(*first, *second);
    }
};

static thread_local taken_at_end thread_local_pair{nullptr, nullptr};
static pthread_key_t early_key, late_key;

static void key_ends(void *pair)
{
    delete static_cast<taken_at_end *>(pair);
}

// One thread after the other, of whose forks nothing is known.
template <class F> static void in_a_plain_thread(F work)
{
    std::thread thread(work);
    thread.join();
}

static void with_a_key(pthread_key_t key, goodlock::mutex &one, goodlock::mutex &other)
{
    in_a_plain_thread([&] { check(pthread_setspecific(key, new taken_at_end{&one, &other}) == 0, "a key's value"); });
    in_a_plain_thread([&] { take_both(other, one); });
}

static const char *const AT_THE_END = "cycle 1: 2 edges\n"
                                      "  T1 holds a since wrapper:2 wants b at wrapper:3\n"
                                      "  T2 holds b since wrapper:2 wants a at wrapper:3\n"
                                      "cycle 2: 2 edges\n"
                                      "  T3 holds c since wrapper:2 wants d at wrapper:3\n"
                                      "  T4 holds d since wrapper:2 wants c at wrapper:3\n"
                                      "cycle 3: 2 edges\n"
                                      "  T5 holds e since wrapper:2 wants f at wrapper:3\n"
                                      "  T6 holds f since wrapper:2 wants e at wrapper:3\n"
                                      "cycles: 3\n";

// A thread_local that was built before the thread had a lane; keys that were made before the session and after it, in
// threads that lock nothing else. What a key's destructor locks once the lane is closed isn't recorded, which is told.
static void ends()
{
    check(pthread_key_create(&early_key, key_ends) == 0, "a key before the session");
    check(goodlock::start(24, 64) == GOODLOCK_OK, "start");
    check(pthread_key_create(&late_key, key_ends) == 0, "a key after it");
    goodlock::mutex a("a"), b("b"), c("c"), d("d"), e("e"), f("f");
    in_a_plain_thread([&] {
        thread_local_pair.first = &a;
        thread_local_pair.second = &b;
        goodlock::guard<goodlock::mutex> hold(a);
    });
    in_a_plain_thread([&] { take_both(b, a); });
    with_a_key(early_key, c, d);
    with_a_key(late_key, e, f);
    in_a_plain_thread([&] {
        goodlock::guard<goodlock::mutex> hold(a);
        check(pthread_setspecific(late_key, new taken_at_end{&f, &a}) == 0, "a key's value");
    });
    const goodlock::result result = goodlock::finish();
    check(result.code == GOODLOCK_OK && result.is_settled, "the report is settled");
    check(result.unrecorded == 4, std::to_string(result.unrecorded) + " events weren't recorded, and 4 are right");
    check(result.text == AT_THE_END, "another text:\n" + result.text);
}

static void leave()
{
    check(goodlock::start() == GOODLOCK_OK, "start");
    static goodlock::mutex lock("left");
    goodlock::thread([] {
        for (;;)
            goodlock::guard<goodlock::mutex> hold(lock);
    }).detach();
    for (int i = 0; i < 100; i++)
        goodlock::guard<goodlock::mutex> hold(lock);
}

int main(int count, char **words)
{
    const std::string word = count == 2 ? words[1] : "";
    if (word == "locks")
        locks();
    else if (word == "names")
        names();
    else if (word == "findings")
        findings();
    else if (word == "unstarted")
        unstarted();
    else if (word == "memory")
        memory();
    else if (word == "thrown")
        thrown();
    else if (word == "texts")
        texts();
    else if (word == "signals")
        signals();
    else if (word == "elsewhere")
        elsewhere();
    else if (word == "threads")
        threads();
    else if (word == "ends")
        ends();
    else if (word == "leave")
        leave();
    std::printf("%u passed, %u failed\n", passed, failed);
    return failed == 0 && passed > 0 ? 0 : 1;
}
