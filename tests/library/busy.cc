// Tests goodlock.hpp where threads record more than the collecting thread can pull, and where they go on while the
// session ends.
//
//     library_busy turns      lanes that are always full are pulled in turn
//     library_busy asked      who asks for the session's mutex gets it from a collecting thread that always has notes
//     library_busy finish     finish() beside threads that record for ever
//     library_busy filled     lanes that are full when finish() begins are in the settled report
//     library_busy dropped    a thread of whose events one is dropped ends before the report is made
//     library_busy late       a thread begins after finish()
//     library_busy full       a thread ends while finish() runs, and its lane is full
//
// Calls that pull or close and nanosleep go through this file, by the linker's --wrap: time is counted in notes and in
// pulls, so that slow machines and busy ones see the same. What isn't as it has to be is told; the last line is how
// many checks passed and failed.
#include "checks.hpp"

#include <fstream>
#include <sched.h>
#include <sys/syscall.h>
#include <unistd.h>

static goodlock::detail::world &world = goodlock::detail::world::get();
static const std::thread::id main_thread = std::this_thread::get_id();
static std::atomic<uint64_t> notes{0}, late_notes{0}, pulls{0}; // late: once recording has stopped
static std::atomic<uint64_t> early_pulls{0};                    // the main thread's, while threads record
static std::atomic<uint64_t> last_note{UINT64_MAX};             // after which is_over is set
static std::atomic<unsigned> feigned{0};                        // so many pulls find what isn't there
static std::atomic<bool> is_blind{false}, is_slow{false}, is_over{false};
static std::atomic<pid_t> asker{0};                         // the thread that goes to ask for the session's mutex
static std::atomic<bool> is_held{false}, is_holding{false}; // pulls, and whether there is one that is held
static std::atomic<bool> is_patient{false};                 // who sleeps to let the asker go first
static std::atomic<bool> is_ending{false};                  // the asker asks once recording has stopped
static std::atomic<unsigned> late_closes{0};                // once recording has stopped

constexpr uint32_t BUSY = 12, LAST = BUSY + 1; // threads, and the lane of the last one beside them and the main thread

// What is pulled off each lane between two looks at the last one, and the most of it.
static std::atomic<bool> is_counted{false};
static uint64_t looks_at_last = 0, since[LAST] = {}, most_since = 0;

static void count_look(uint32_t lane, uint32_t found)
{
    if (!is_counted)
        return;
    if (lane == LAST) {
        looks_at_last++;
        std::fill(since, since + LAST, 0);
    } else
        most_since = std::max(most_since, since[lane] += found);
}

static pid_t own_number()
{
    return static_cast<pid_t>(syscall(SYS_gettid));
}

// As the system tells it: R where the thread runs or could, S where it sleeps, and X where it has ended.
static char state_of(pid_t thread)
{
    std::ifstream file("/proc/self/task/" + std::to_string(thread) + "/stat");
    std::string text; // none where the thread ends meanwhile: then the file can't be read
    std::getline(file, text);
    const std::size_t name_end = text.rfind(')');
    return name_end == std::string::npos ? 'X' : text[name_end + 2];
}

static void wait_until(bool is_asked(), const char *what)
{
    const auto end = std::chrono::steady_clock::now() + std::chrono::seconds(60);
    while (!is_asked() && std::chrono::steady_clock::now() < end)
        std::this_thread::yield();
    check(is_asked(), what);
}

// A pull that finds what isn't there, so much that its thread gives the mutex up, and doesn't sleep.
static uint32_t feign_a_pull(goodlock_pulled *pulled)
{
    const auto end = std::chrono::steady_clock::now() + std::chrono::microseconds(20);
    while (std::chrono::steady_clock::now() < end)
        ;
    feigned--;
    pulled->events = 4096;
    return GOODLOCK_OK;
}

// Who pulls has the session's mutex, so a pull that is held until the asker sleeps is there when that waits for the
// mutex. Or else until it has tried to close its lane, twice, once recording has stopped: so it goes on trying.
static void hold()
{
    for (; is_held; std::this_thread::yield()) {
        is_holding = true;
        const char state = asker == 0 || (is_ending && world.is_open()) ? 'R' : state_of(asker);
        is_held = state != 'S' && state != 'X' && late_closes < 2;
    }
    is_holding = false;
}

static void hold_the_next_pull()
{
    is_held = true;
    wait_until([] { return is_holding.load(); }, "nobody pulls");
}

template <class F> static uint32_t pull_by(F pull, goodlock_pulled *pulled)
{
    *pulled = {0, 0};
    pulls++;
    early_pulls += std::this_thread::get_id() == main_thread && world.is_open();
    hold();
    if (feigned > 0)
        return feign_a_pull(pulled);
    if (is_blind && world.is_open())
        return GOODLOCK_OK;
    if (is_slow)
        std::this_thread::sleep_for(std::chrono::milliseconds(1));
    const uint32_t code = pull(), found = pulled->events + pulled->ended;
    late_notes += world.is_open() ? 0 : found;
    if ((notes += found) > last_note)
        is_over = true;
    return code;
}

extern "C" {
uint32_t __real_goodlock_pull(goodlock_session *session, uint32_t most, goodlock_pulled *pulled);
uint32_t __real_goodlock_pull_lane(goodlock_session *session, uint32_t thread, uint32_t most, goodlock_pulled *pulled);

uint32_t __wrap_goodlock_pull(goodlock_session *session, uint32_t most, goodlock_pulled *pulled)
{
    const uint32_t code = pull_by([=] { return __real_goodlock_pull(session, most, pulled); }, pulled);
    count_look(0, pulled->events + pulled->ended); // as if all were off one lane
    return code;
}

uint32_t __wrap_goodlock_pull_lane(goodlock_session *session, uint32_t thread, uint32_t most, goodlock_pulled *pulled)
{
    const uint32_t code = pull_by([=] { return __real_goodlock_pull_lane(session, thread, most, pulled); }, pulled);
    count_look(thread, pulled->events + pulled->ended);
    return code;
}

uint32_t __real_goodlock_close(goodlock_lane *lane);

uint32_t __wrap_goodlock_close(goodlock_lane *lane)
{
    late_closes += !world.is_open();
    return __real_goodlock_close(lane);
}

int __real_nanosleep(const timespec *time, timespec *rest);

// However late the system lets the asker run: until it has the mutex, or has ended.
int __wrap_nanosleep(const timespec *time, timespec *rest)
{
    const auto end = std::chrono::steady_clock::now() + std::chrono::seconds(60);
    while (is_patient && asker != 0 && state_of(asker) != 'X' && std::chrono::steady_clock::now() < end)
        std::this_thread::yield();
    return __real_nanosleep(time, rest);
}
}

// Locks and unlocks a lock of its own as often as it may.
template <class F> static void turns_while(F may_go_on)
{
    goodlock::mutex own;
    for (unsigned long count = 0; may_go_on(count); count++)
        goodlock::guard<goodlock::mutex> hold(own);
}

// Pulls take so long that lanes are always full. Between two looks at the lane of a thread that makes few turns, no
// more than a ring is pulled off any other.
static void turns()
{
    const uint32_t ring = 4096;
    std::vector<goodlock::thread> busy;
    is_slow = true;
    check(goodlock::start(BUSY + 2, ring) == GOODLOCK_OK, "start");
    for (uint32_t i = 0; i < BUSY; i++)
        busy.emplace_back([] {
            while (!is_counted)
                std::this_thread::yield();
            turns_while([](unsigned long count) { return is_counted && count < 10 * ring; });
        });
    goodlock::thread last([] {
        is_counted = true;
        turns_while([](unsigned long count) { return count < ring; });
        is_counted = false;
    });
    last.join();
    is_slow = false;
    for (goodlock::thread &thread : busy)
        thread.join();
    check(looks_at_last > 1, std::to_string(looks_at_last) + " looks at the last thread's lane");
    check(most_since <= ring, std::to_string(most_since) + " notes are pulled off a lane between two looks at another");
    const goodlock::result result = goodlock::finish();
    check(result.code == GOODLOCK_OK && result.is_settled && result.unrecorded == 0, "the report is settled");
}

// All on one processor, where a thread that wakes up doesn't run before the others have had their time.
static void share_a_processor()
{
    cpu_set_t set;
    const sched_param none = {};
    CPU_ZERO(&set);
    CPU_SET(sched_getcpu(), &set);
    check(sched_setaffinity(0, sizeof set, &set) == 0, "one processor");
    check(sched_setscheduler(0, SCHED_BATCH, &none) == 0, "as a batch");
}

// Each time while the collecting thread, which always finds something, is in a pull. Those are counted that come while
// this thread waits.
static void asked()
{
    const unsigned locks = 10, most = 20 * locks;
    uint64_t taken = 0;
    share_a_processor();
    check(goodlock::start(1, 4 * locks) == GOODLOCK_OK, "start");
    feigned = 50 * most;
    is_patient = true;
    for (unsigned i = 0; i < locks; i++) {
        hold_the_next_pull();
        const uint64_t before = pulls;
        asker = own_number();
        turns_while([](unsigned long count) { return count < 1; });
        asker = 0;
        taken += pulls - before;
    }
    feigned = 0;
    check(taken < most, std::to_string(locks) + " locks have their numbers after " + std::to_string(taken) + " pulls");
    const goodlock::result result = goodlock::finish();
    check(result.code == GOODLOCK_OK && result.is_settled && result.unrecorded == 0, "the report is settled");
}

// Pulls take so long that lanes are never all empty. Once recording has stopped, a ring of each lane is left to pull,
// and what was being pulled.
static void finish()
{
    const uint32_t ring = 4096, lanes = BUSY + 1;
    const uint64_t most = 1000000;
    std::atomic<uint32_t> running{0};
    std::vector<goodlock::thread> busy;
    check(goodlock::start(lanes + 3, ring) == GOODLOCK_OK, "start");
    for (uint32_t i = 0; i < BUSY; i++)
        busy.emplace_back([&] {
            turns_while([&](unsigned long count) {
                running += count == ring;
                return !is_over;
            });
        });
    while (running < BUSY)
        std::this_thread::yield();
    is_slow = true;
    last_note = notes + most;
    const goodlock::result result = goodlock::finish();
    check(!is_over, "finish() waits as long as threads record");
    check(early_pulls == 0, "finish() pulls " + std::to_string(early_pulls) + " times while threads record");
    is_over = true;
    for (goodlock::thread &thread : busy)
        thread.join();
    check(late_notes <= 2 * lanes * ring, std::to_string(late_notes) + " notes are pulled once recording has stopped");
    check(result.code == GOODLOCK_OK && !result.is_settled, "a report so far of threads that go on");
    check(result.text == "cycles: 0\n", "another text:\n" + result.text);
}

// Nothing is pulled before finish(), and the last events of each thread are those that make the cycle.
static void filled()
{
    goodlock::mutex one("one"), other("other");
    const auto fill = [](goodlock::mutex &first, goodlock::mutex &second) {
        turns_while([](unsigned long count) { return count < 13; });
        goodlock::guard<goodlock::mutex> outer(first), inner(second);
    };
    is_blind = true;
    check(goodlock::start(5, 31) == GOODLOCK_OK, "start"); // 30 events and the end mark
    one_by_one([&] { fill(one, other); }, [&] { fill(other, one); });
    const goodlock::result result = goodlock::finish();
    check(late_notes == 4 + 1 + 2 * 31 + 2, std::to_string(late_notes) + " notes are pulled at the end");
    check(result.code == GOODLOCK_OK && result.is_settled && result.unrecorded == 0, "the report is settled");
    check(result.cycles == 1, "another text:\n" + result.text);
}

// Ends the session beside a thread, while the first pull of that is held for the asker: however it sleeps before that.
static goodlock::result finish_beside(goodlock::thread &thread)
{
    feigned = 1;
    is_ending = true;
    hold_the_next_pull();
    const goodlock::result result = goodlock::finish();
    thread.join();
    return result;
}

// The collecting thread is held until a thread whose last turn was dropped has asked for the session's mutex, and lets
// it go first: so it is there before finish() has it. A lane is left to pull, that of another thread.
static void dropped()
{
    static std::atomic<pid_t> number{0};
    check(goodlock::start(4, 64) == GOODLOCK_OK, "start");
    goodlock::thread thread([] {
        turns_while([](unsigned long count) {
            number = count == 1 ? own_number() : 0;
            while (count == 1 && world.is_open())
                std::this_thread::yield();
            return count < 2;
        });
    });
    goodlock::thread([] { turns_while([](unsigned long count) { return count < 1; }); }).join();
    wait_until([] { return number != 0; }, "the thread doesn't record");
    asker = number.load();
    goodlock::detail::mine::finish();
    is_patient = true;
    const goodlock::result result = finish_beside(thread);
    check(result.code == GOODLOCK_OK && !result.is_settled, "a report without what was dropped isn't settled");
}

// What a thread runs: it takes until is_over to come there.
struct slow {
    slow() = default;
    slow(const slow &other) : maker(other.maker)
    {
        while (std::this_thread::get_id() != maker && !is_over)
            std::this_thread::yield();
    }
    void operator()() const
    {
        turns_while([](unsigned long count) { return count < 1; });
    }

    std::thread::id maker = std::this_thread::get_id();
};

// Its lane is given back: AddressSanitizer and GOODLOCK_DEBUG look after it.
static void late()
{
    check(goodlock::start(4, 64) == GOODLOCK_OK, "start");
    goodlock::thread thread{slow()};
    const goodlock::result result = goodlock::finish();
    is_over = true;
    thread.join();
    check(result.code == GOODLOCK_OK && !result.is_settled, "a report so far, as a thread is to come");
}

// Nothing is pulled before finish(), and the lane of a thread is as full as it may be when that ends. It closes its
// lane all the same, once finish() pulls, before it gives it back: GOODLOCK_DEBUG=2 looks after that.
static void full()
{
    static std::atomic<pid_t> number{0};
    is_blind = true;
    check(goodlock::start(2, 4) == GOODLOCK_OK, "start");
    goodlock::thread thread([] {
        turns_while([](unsigned long count) { return count < 2; });
        number = own_number();
    });
    wait_until([] { return number != 0; }, "the thread doesn't record");
    asker = number.load();
    goodlock::detail::mine::finish();
    const goodlock::result result = finish_beside(thread);
    check(result.code == GOODLOCK_OK && !result.is_settled, "a report beside a thread that hasn't ended isn't settled");
}

int main(int count, char **words)
{
    const std::string word = count == 2 ? words[1] : "";
    if (word == "turns")
        turns();
    else if (word == "asked")
        asked();
    else if (word == "finish")
        finish();
    else if (word == "filled")
        filled();
    else if (word == "dropped")
        dropped();
    else if (word == "late")
        late();
    else if (word == "full")
        full();
    std::printf("%u passed, %u failed\n", passed, failed);
    return failed == 0 && passed > 0 ? 0 : 1;
}
