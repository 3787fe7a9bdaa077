// goodlock.hpp: mutexes and threads of C++ (11 and later, with exceptions) that predict their deadlocks, by goodlock.h.
//
//     goodlock::start();                                    // in main, before threads are started
//     goodlock::mutex savings("savings");                   // in place of std::mutex
//     goodlock::thread saver([] { .. });                    // in place of std::thread
//     goodlock::guard<goodlock::mutex> hold(savings);       // as std::lock_guard, and keeps the line of the source
//     saver.join();
//     std::cout << goodlock::finish().text;                 // at the end: the report of all that was recorded
//
// One session serves the process. start() opens it and starts a thread of its own that collects, with all signals blocked; each
// thread has a lane from its start (goodlock::thread) or from its first lock (any other thread, whose fork isn't known then),
// until it ends.
// Before start() and after finish() all of this works as std's does, and nothing is recorded.
//
// - goodlock::mutex, recursive_mutex, timed_mutex, recursive_timed_mutex and shared_mutex may be used with std::lock_guard,
//   unique_lock, shared_lock, scoped_lock and condition_variable_any; places are then lines of the standard library's headers.
//   guard<M> (and shared_guard<M>) or lock() itself have yours. A lock with a limit of time is recorded as a try, if it is
//   taken. What is done by native_handle() isn't recorded.
// - Each lock has a name, by which reports tell it: the one it is made with (a second lock of that name is "name#2", or "name#3"
//   where a lock has that name already, and so on), or else where it was made, as "mutex@bank.cc:17#1".
// - A record costs what goodlock_record costs and a look-up of the place in a table of the thread. The first pass of a thread
//   at a place, the first lock of a mutex and the start of a thread wait for the session's own mutex. Where a lane
//   is full the thread yields until the collecting thread has pulled: a larger ring makes that rare. It pulls off each lane
//   in turn, so where many threads record more than it can pull, all of them go at its pace.
// - What can't be recorded (more threads than lanes, an event that is refused, as the unlock of a mutex that was locked before
//   start(), a lock at whose first use there is no memory for its name) is counted in `unrecorded`, and the lock works all the same.
// - A thread's lane ends among the destructors of its pthread keys: what destructors of its thread_locals lock is recorded, and what
//   those of keys lock is, or is counted in `unrecorded` where they come later. (A thread whose first lock of all is taken in the last
//   round of such destructors keeps its lane, and the report isn't settled.)
// - finish() may be called while threads record: what they do from then on isn't recorded, and the report isn't settled.
// - finish_with_findings() and findings_so_far() list findings in place of cycles: where threads that run the same code over many
//   locks have thousands of cycles, each fault once.
// - A program and the shared libraries that it is linked with have one session, however they are built. So have libraries that
//   it opens by dlopen, where it uses goodlock.hpp itself and is linked with -rdynamic; else the locks of each of these are std's
//   alone, and no report tells.
// - After fork() in the child: none of this, only _exit or exec. Not from signal handlers, nor in a memory allocator.
#ifndef GOODLOCK_HPP
#define GOODLOCK_HPP

#include "goodlock.h"

#include <algorithm>
#include <atomic>
#include <bitset>
#include <chrono>
#include <csignal>
#include <cstdint>
#include <cstdlib>
#include <exception>
#include <mutex>
#include <new>
#include <pthread.h>
#include <string>
#include <system_error>
#include <thread>
#include <type_traits>
#include <unordered_map>
#include <utility>
#include <vector>

// The line of the source that calls, as a parameter that is left out.
#define GOODLOCK_HERE goodlock::line here = goodlock::line::now()

// Before a function whose static variable there is once in the process, whichever part of it asks: also where a part is built
// with -fvisibility=hidden or -fvisibility-inlines-hidden.
#define GOODLOCK_ONCE __attribute__((visibility("default")))

namespace goodlock {

// A line of the source.
struct line {
    const char *file;
    unsigned number;
    static constexpr line now(const char *file = __builtin_FILE(), unsigned number = __builtin_LINE()) {
        return {file, number};
    }
    bool operator==(const line &other) const { return file == other.file && number == other.number; }
};

// A report.
struct result {
    uint32_t code = GOODLOCK_MISUSE; // GOODLOCK_OK: the rest is right. GOODLOCK_MISUSE: there is no session
    bool is_settled = false;         // no event of a recorded thread is missing but what `unrecorded` counts; else it is the report so far
    std::string text;                // as `goodlock predict` prints it, or `goodlock predict --findings`
    std::size_t cycles = 0;          // how many it lists, or findings
    bool more = false;               // whether there are more than were asked for
    uint64_t unrecorded = 0;         // events that couldn't be recorded
};

namespace detail {

constexpr uint32_t NONE = UINT32_MAX;

struct line_hash {
    std::size_t operator()(const line &at) const { return std::hash<const void *>()(at.file) * 31 + at.number; }
};

// What a report is to list.
struct question {
    bool of_findings; // in place of cycles
    uint32_t mode, length, number;
};

inline std::string text(const line &at) { return std::string(at.file) + ":" + std::to_string(at.number); }

// A mutex that one thread asks for again and again: by lock_last(), which lets those go first who wait already. With
// lock() it would mostly have the mutex again before a waiting thread has woken up.
class session_mutex {
public:
    void lock() {
        asked++;
        inner.lock();
        served++;
    }
    void unlock() { inner.unlock(); }

    // For a moment only, as a thread that waits may be one that the system keeps from running.
    void lock_last() {
        const uint64_t before = asked;
        for (int i = 0; i < 5 && served < before; i++)
            std::this_thread::sleep_for(std::chrono::microseconds(50));
        inner.lock();
    }

private:
    std::mutex inner;
    std::atomic<uint64_t> asked{0}, served{0};
};

// While it stands its thread takes no signal, nor does one that it starts.
class without_signals {
public:
    without_signals() {
        sigset_t all;
        sigfillset(&all);
        pthread_sigmask(SIG_SETMASK, &all, &before);
    }
    ~without_signals() { pthread_sigmask(SIG_SETMASK, &before, nullptr); }
    without_signals(const without_signals &) = delete;
    without_signals &operator=(const without_signals &) = delete;

private:
    sigset_t before;
};

// The session of the process. It is never destroyed, as threads may outlive main.
class world {
public:
    GOODLOCK_ONCE static world &get() {
        static world *const only = new world;
        return *only;
    }

    bool is_open() const { return open.load(std::memory_order_acquire); }

    // `at_thread_end`: ends what a thread has.
    uint32_t start(uint64_t number, uint32_t threads, uint32_t ring, void (*at_thread_end)(void *)) {
        std::lock_guard<session_mutex> hold(mutex);
        if (has_started)
            return GOODLOCK_MISUSE;
        if (!has_key && pthread_key_create(&key, at_thread_end) != 0)
            return GOODLOCK_MEMORY;
        has_key = true;
        const uint32_t code = goodlock_open(number, threads, ring, &session);
        if (code != GOODLOCK_OK)
            return code;
        has_started = true; // also where it fails: a number is given to one session
        try {
            const without_signals blocked; // they are for the program's own threads
            collector = std::thread(&world::collect, this);
        } catch (const std::exception &) { // there is no memory for it, or there are as many threads as there may be
            goodlock_session_free(&session);
            return GOODLOCK_MEMORY;
        }
        open.store(true, std::memory_order_release);
        return code;
    }

    // The next lane and its number; NONE where there is none.
    uint32_t lane(goodlock_lane &lane) {
        std::lock_guard<session_mutex> hold(mutex);
        return next_lane(lane);
    }

    uint32_t lock(const std::string &name) {
        std::lock_guard<session_mutex> hold(mutex);
        std::string own = name;
        while (!names.insert({own, 1}).second)
            own = name + "#" + std::to_string(++names[name]);
        uint32_t number = NONE;
        goodlock_lock(&session, bytes(own), own.size(), &number);
        return number;
    }

    uint32_t place(const line &at) {
        const std::string name = text(at);
        std::lock_guard<session_mutex> hold(mutex);
        uint32_t number = NONE;
        goodlock_place(&session, bytes(name), name.size(), &number);
        return number;
    }

    // Ends a lane: closes it once there is room, which finish() makes, too, and hands it in. Not where recording has stopped
    // before: what its thread did since then is missing, so the session may not be settled with this lane.
    void end(goodlock_lane &lane) {
        uint32_t code;
        bool is_whole = is_open();
        while ((code = goodlock_close(&lane)) == GOODLOCK_FULL) {
            std::this_thread::yield();
            is_whole = is_open();
        }
        std::lock_guard<session_mutex> hold(mutex);
        if (code == GOODLOCK_OK && is_whole)
            goodlock_hand_in(&session, &lane);
        goodlock_lane_free(&lane);
    }

    result so_far(const question &asked) {
        std::lock_guard<session_mutex> hold(mutex);
        return made_report(asked, false);
    }

    // The calling thread's lane has ended. Recording stops first, so that what is left to pull comes to an end.
    result finish(const question &asked) {
        if (!open.exchange(false))
            return result();
        is_ending = true;
        collector.join();
        std::lock_guard<session_mutex> hold(mutex);
        end_unused();
        pull_rest();
        uint32_t missing;
        const bool is_settled = goodlock_settle(&session, &missing) == GOODLOCK_OK;
        const result answer = made_report(asked, is_settled);
        goodlock_session_free(&session);
        return answer;
    }

    std::atomic<uint64_t> unrecorded{0};
    std::atomic<uint32_t> made{0}; // locks without a name
    pthread_key_t key;             // of what each thread has, once there is a session

private:
    world() = default;

    static const uint8_t *bytes(const std::string &name) { return reinterpret_cast<const uint8_t *>(name.data()); }

    // These five are called by who has the mutex.

    uint32_t next_lane(goodlock_lane &lane) {
        uint32_t number = NONE;
        if (goodlock_lane_open(&session, &lane, &number) != GOODLOCK_OK)
            return NONE;
        given = number + 1;
        return number;
    }

    // Ends the lanes that no thread has.
    void end_unused() {
        goodlock_lane unused = {nullptr};
        while (next_lane(unused) != NONE) {
            if (goodlock_close(&unused) == GOODLOCK_OK)
                goodlock_hand_in(&session, &unused);
            goodlock_lane_free(&unused);
        }
    }

    // Pulls what the lanes hold, once recording has stopped: of none more than its ring.
    void pull_rest() {
        goodlock_pulled pulled = {0, 0};
        while (goodlock_pull(&session, UINT32_MAX, &pulled) == GOODLOCK_MEMORY && pulled.events + pulled.ended > 0)
            ;
    }

    // Pulls a share of what a lane holds, and answers how many notes. Where memory is refused, the next round tries again.
    uint32_t pull(uint32_t lane) {
        goodlock_pulled pulled = {0, 0};
        if (!has_ended[lane])
            goodlock_pull_lane(&session, lane, 1024, &pulled);
        if (pulled.ended > 0)
            has_ended.set(lane);
        return pulled.events + pulled.ended;
    }

    result made_report(const question &asked, bool is_settled) {
        goodlock_report report = {nullptr};
        const auto make_so_far = asked.of_findings ? goodlock_findings_so_far : goodlock_report_so_far;
        const auto make_settled = asked.of_findings ? goodlock_settled_findings : goodlock_settled_report;
        const auto make = is_settled ? make_settled : make_so_far;
        const uint32_t code = make(&session, asked.mode, asked.length, asked.number, &report);
        return told(code, report, is_settled);
    }

    // The collecting thread's. The longer nothing comes, the longer it sleeps, up to 3 milliseconds: a program that does nothing
    // isn't woken thousands of times a second.
    void collect() {
        for (unsigned idle = 0; !is_ending;) {
            idle = pull_round() ? 0 : std::min(idle + 1, 6 * 32U);
            if (idle > 0)
                std::this_thread::sleep_for(std::chrono::microseconds(50U << idle / 32));
        }
    }

    // Pulls off each lane in turn, so that a busy one doesn't keep others waiting, and gives the mutex up now and then.
    // Whether there was a note.
    bool pull_round() {
        bool is_any = false, is_over = false;
        for (uint32_t lane = 0; !is_over;) {
            mutex.lock_last();
            std::lock_guard<session_mutex> hold(mutex, std::adopt_lock);
            uint32_t notes = 0;
            for (; lane < given && notes < 4096; lane++)
                notes += pull(lane);
            is_any = is_any || notes > 0;
            is_over = lane == given;
        }
        return is_any;
    }

    // What the report says. Where memory is refused to C++ for it, that is the answer: the report is given back all the same.
    result told(uint32_t code, goodlock_report &report, bool is_settled) {
        result answer;
        answer.is_settled = is_settled;
        answer.unrecorded = unrecorded;
        try {
            if (code == GOODLOCK_OK)
                code = copy_text(report, answer.text);
        } catch (const std::bad_alloc &) {
            code = GOODLOCK_MEMORY;
        }
        if (code == GOODLOCK_OK)
            code = goodlock_cycles(&report, &answer.cycles, &answer.more);
        goodlock_report_free(&report);
        answer.code = code;
        return answer;
    }

    uint32_t copy_text(goodlock_report &report, std::string &text) {
        std::size_t size = 0;
        std::vector<uint8_t> bytes(1);
        uint32_t code = goodlock_text(&session, &report, bytes.data(), 0, &size);
        bytes.resize(size + 1);
        if (code == GOODLOCK_OK)
            code = goodlock_text(&session, &report, bytes.data(), size, &size);
        if (code == GOODLOCK_OK)
            text.assign(bytes.begin(), bytes.begin() + static_cast<std::ptrdiff_t>(size));
        return code;
    }

    session_mutex mutex; // of the session, its lanes and the names: one call at a time
    goodlock_session session = {nullptr};
    uint32_t given = 0;                              // how many lanes were given out
    std::bitset<1024> has_ended;                     // the lanes, as many as there may be, whose end mark was pulled
    std::unordered_map<std::string, unsigned> names; // of locks, and the last number that was set behind each
    std::thread collector;
    bool has_key = false, has_started = false;
    std::atomic<bool> open{false}, is_ending{false};
};

// What a thread has: its lane and the numbers of the places that it passed. It ends with the thread's keys, which come after
// its thread_locals: so what the destructors of these lock is recorded, whichever was built first.
class mine {
public:
    // Nothing where the thread isn't recorded.
    static mine *get() {
        if (!world::get().is_open() || is_over())
            return nullptr;
        mine *const own = current() != nullptr ? current() : begun();
        return own == nullptr || own->lane.at == nullptr ? nullptr : own;
    }

    // Gives the thread the lane that was opened for it. Where recording has stopped since, the lane ends.
    static void adopt(goodlock_lane lane) {
        given() = lane;
        if (get() != nullptr)
            return;
        leave_out();
        world::get().end(given());
    }

    // The thread gets no lane, now or later: its fork isn't recorded, and without that what it does would seem to happen
    // beside all that was done before it.
    static void leave_out() { is_left_out() = true; }

    static void finish() {
        if (get() == nullptr)
            return;
        pthread_setspecific(world::get().key, nullptr);
        end(current());
    }

    // At the thread's end.
    static void end(void *value) {
        mine *const own = static_cast<mine *>(value);
        is_over() = true;
        current() = nullptr;
        if (own->lane.at != nullptr)
            world::get().end(own->lane);
        delete own;
    }

    // At the end of the program, of whose thread no key is destroyed: what it still has ends once the recording has.
    static void end_last() {
        if (world::get().is_open() || current() == nullptr)
            return;
        pthread_setspecific(world::get().key, nullptr);
        end(current());
    }

    // Where memory is refused there is no place, but the event is recorded; the next pass asks again.
    uint32_t place(const line &at) {
        const auto found = places.find(at);
        if (found != places.end())
            return found->second;
        try {
            const uint32_t number = world::get().place(at);
            places[at] = number;
            return number;
        } catch (const std::bad_alloc &) {
            return NONE;
        }
    }

    goodlock_lane lane = {nullptr};

private:
    mine() = default;

    // Keeps the library loaded that this is part of: by a thread_local whose destructor is to come. In what GCC makes the
    // static objects of inline functions do so.
    static void keep_loaded() {
#ifdef __clang__
        struct kept {
            ~kept() {}
        };
        static thread_local kept library;
        (void)library;
#endif
    }

    static mine *begun() {
        keep_loaded();
        mine *const own = new (std::nothrow) mine;
        if (own == nullptr || pthread_setspecific(world::get().key, own) != 0) {
            delete own;
            return nullptr;
        }
        current() = own;
        own->lane = given();
        if (own->lane.at == nullptr && !is_left_out())
            world::get().lane(own->lane);
        return own;
    }

    GOODLOCK_ONCE static mine *&current() {
        static thread_local mine *own = nullptr;
        return own;
    }
    GOODLOCK_ONCE static bool &is_over() {
        static thread_local bool over = false;
        return over;
    }
    GOODLOCK_ONCE static goodlock_lane &given() {
        static thread_local goodlock_lane lane = {nullptr};
        return lane;
    }
    GOODLOCK_ONCE static bool &is_left_out() {
        static thread_local bool left_out = false;
        return left_out;
    }

    std::unordered_map<line, uint32_t, line_hash> places;
};

// Places of forks and joins aren't shown in reports, so they have none.
inline void record(uint32_t kind, uint32_t operand, const line *here) {
    world &all = world::get();
    if (!all.is_open())
        return;
    mine *const own = mine::get();
    uint32_t code = GOODLOCK_NO_LANE;
    if (own != nullptr) {
        const uint32_t place = here == nullptr ? NONE : own->place(*here);
        uint32_t at;
        while ((code = goodlock_record(&own->lane, kind, operand, place, &at)) == GOODLOCK_FULL && all.is_open())
            std::this_thread::yield();
    }
    if (code != GOODLOCK_OK)
        all.unrecorded++;
}

// A lock's name, and its number from its first use on: NONE where memory was refused then. It isn't recorded in that case,
// as no lock may have the number of another one. Nothing is thrown: what is locked or unlocked goes on.
class numbered {
public:
    numbered(std::string given) : name(std::move(given)) {}
    numbered(const line &here) : name("mutex@" + text(here) + "#" + std::to_string(++world::get().made)) {}

    void record(uint32_t kind, const line &here) {
        if (!world::get().is_open())
            return;
        if (get() == NONE)
            world::get().unrecorded++;
        else
            detail::record(kind, number, &here);
    }

private:
    uint32_t get() {
        std::call_once(once, [this] {
            try {
                number = world::get().lock(name);
            } catch (const std::bad_alloc &) {
            }
        });
        return number;
    }

    std::string name;
    std::once_flag once;
    uint32_t number = NONE;
};

// As std::shared_mutex, which is there from C++17 on.
class shared_lock {
public:
    using native_handle_type = pthread_rwlock_t *;
    shared_lock() = default;
    ~shared_lock() { pthread_rwlock_destroy(&inner); }
    shared_lock(const shared_lock &) = delete;
    shared_lock &operator=(const shared_lock &) = delete;

    void lock() { check(pthread_rwlock_wrlock(&inner)); }
    bool try_lock() { return pthread_rwlock_trywrlock(&inner) == 0; }
    void unlock() { pthread_rwlock_unlock(&inner); }
    void lock_shared() { check(pthread_rwlock_rdlock(&inner)); }
    bool try_lock_shared() { return pthread_rwlock_tryrdlock(&inner) == 0; }
    void unlock_shared() { pthread_rwlock_unlock(&inner); }
    native_handle_type native_handle() { return &inner; }

private:
    static void check(int error) {
        if (error != 0)
            throw std::system_error(error, std::generic_category());
    }

    pthread_rwlock_t inner = PTHREAD_RWLOCK_INITIALIZER;
};

// A lock of std, and its native_handle() where it has one: the timed ones of LLVM's library have none.
template <class...> struct types {
    using none = void;
};
template <class M, class = void> class holder {
protected:
    M inner;
};
template <class M> class holder<M, typename types<typename M::native_handle_type>::none> {
public:
    using native_handle_type = typename M::native_handle_type;
    native_handle_type native_handle() { return inner.native_handle(); }

protected:
    M inner;
};

// A lock of std with its number.
template <class M> class recorded : public holder<M> {
public:
    recorded(GOODLOCK_HERE) : number(here) {}
    explicit recorded(const std::string &name) : number(name) {}
    recorded(const recorded &) = delete;
    recorded &operator=(const recorded &) = delete;

    void lock(GOODLOCK_HERE) {
        number.record(GOODLOCK_ACQUIRE, here);
        try {
            this->inner.lock();
        } catch (...) {
            number.record(GOODLOCK_RELEASE, here);
            throw;
        }
    }
    bool try_lock(GOODLOCK_HERE) {
        const bool is_taken = this->inner.try_lock();
        if (is_taken)
            number.record(GOODLOCK_TRY_ACQUIRE, here);
        return is_taken;
    }
    void unlock(GOODLOCK_HERE) {
        number.record(GOODLOCK_RELEASE, here);
        this->inner.unlock();
    }

protected:
    numbered number;
};

// One that may be asked for with a limit of time.
template <class M> class recorded_timed : public recorded<M> {
public:
    recorded_timed(GOODLOCK_HERE) : recorded<M>(here) {}
    explicit recorded_timed(const std::string &name) : recorded<M>(name) {}

    template <class R, class P> bool try_lock_for(const std::chrono::duration<R, P> &time, GOODLOCK_HERE) {
        return tried(this->inner.try_lock_for(time), here);
    }
    template <class C, class D> bool try_lock_until(const std::chrono::time_point<C, D> &time, GOODLOCK_HERE) {
        return tried(this->inner.try_lock_until(time), here);
    }

private:
    bool tried(bool is_taken, const line &here) {
        if (is_taken)
            this->number.record(GOODLOCK_TRY_ACQUIRE, here);
        return is_taken;
    }
};

} // namespace detail

// Opens the session of the process, once: lanes for so many threads, each with a ring of so many notes. The calling thread is
// T0 in reports. The number is the session's, where the process has others by goodlock_open. It answers as goodlock_open does;
// where the collecting thread can't be had GOODLOCK_MEMORY, and the session is closed then: nothing is recorded.
inline uint32_t start(uint32_t threads = 64, uint32_t ring = 4096, uint64_t number = 1) {
    const uint32_t code = detail::world::get().start(number, threads, ring, detail::mine::end);
    if (code == GOODLOCK_OK) {
        detail::mine::get();
        std::atexit(detail::mine::end_last); // where it can't be kept, a lane is left at most
    }
    return code;
}

// The report of what was pulled so far. Threads go on; those whose lane is full wait for it.
inline result report_so_far(uint32_t mode = GOODLOCK_FULL_MODE, uint32_t length = 4, uint32_t number = 1000) {
    return detail::world::get().so_far({false, mode, length, number});
}

// The same, of findings: cycles that were made at the same places are one.
inline result findings_so_far(uint32_t mode = GOODLOCK_FULL_MODE, uint32_t length = 4, uint32_t number = 1000) {
    return detail::world::get().so_far({true, mode, length, number});
}

// Ends the recording and answers its report: settled where all threads that were recorded have ended, but for the
// calling one, else of what was recorded so far. It doesn't wait for other threads. Once, by one thread; the session is
// closed then.
inline result finish(uint32_t mode = GOODLOCK_FULL_MODE, uint32_t length = 4, uint32_t number = 1000) {
    detail::mine::finish();
    return detail::world::get().finish({false, mode, length, number});
}

// The same, of findings.
inline result finish_with_findings(uint32_t mode = GOODLOCK_FULL_MODE, uint32_t length = 4, uint32_t number = 1000) {
    detail::mine::finish();
    return detail::world::get().finish({true, mode, length, number});
}

using mutex = detail::recorded<std::mutex>;
using recursive_mutex = detail::recorded<std::recursive_mutex>;
using timed_mutex = detail::recorded_timed<std::timed_mutex>;
using recursive_timed_mutex = detail::recorded_timed<std::recursive_timed_mutex>;

// A lock that readers share.
class shared_mutex : public detail::recorded<detail::shared_lock> {
public:
    shared_mutex(GOODLOCK_HERE) : recorded(here) {}
    explicit shared_mutex(const std::string &name) : recorded(name) {}

    void lock_shared(GOODLOCK_HERE) {
        number.record(GOODLOCK_ACQUIRE_SHARED, here);
        try {
            inner.lock_shared();
        } catch (...) {
            number.record(GOODLOCK_RELEASE_SHARED, here);
            throw;
        }
    }
    bool try_lock_shared(GOODLOCK_HERE) {
        const bool is_taken = inner.try_lock_shared();
        if (is_taken)
            number.record(GOODLOCK_TRY_ACQUIRE_SHARED, here);
        return is_taken;
    }
    void unlock_shared(GOODLOCK_HERE) {
        number.record(GOODLOCK_RELEASE_SHARED, here);
        inner.unlock_shared();
    }
};

// Holds a lock as a reader while it stands.
template <class M> class shared_guard {
public:
    explicit shared_guard(M &lock, GOODLOCK_HERE) : held(lock), at(here) { held.lock_shared(here); }
    ~shared_guard() { held.unlock_shared(at); }
    shared_guard(const shared_guard &) = delete;
    shared_guard &operator=(const shared_guard &) = delete;

private:
    M &held;
    const line at;
};

// Holds a lock while it stands, as std::lock_guard does.
template <class M> class guard {
public:
    explicit guard(M &lock, GOODLOCK_HERE) : held(lock), at(here) { held.lock(here); }
    ~guard() { held.unlock(at); }
    guard(const guard &) = delete;
    guard &operator=(const guard &) = delete;

private:
    M &held;
    const line at;
};

// A std::thread whose start and end are recorded. It runs what can be called with the arguments (no pointers to members).
class thread {
public:
    using id = std::thread::id;
    using native_handle_type = std::thread::native_handle_type;

    thread() = default;
    template <class F, class... Arguments,
              class = typename std::enable_if<!std::is_same<typename std::decay<F>::type, thread>::value>::type>
    explicit thread(F &&f, Arguments &&...arguments) {
        goodlock_lane lane = {nullptr};
        const bool is_open = detail::world::get().is_open();
        if (is_open)
            number = detail::world::get().lane(lane);
        if (number != detail::NONE)
            detail::record(GOODLOCK_FORK, number, nullptr);
        try {
            inner = std::thread(run<typename std::decay<F>::type, typename std::decay<Arguments>::type...>, is_open, lane,
                                std::forward<F>(f), std::forward<Arguments>(arguments)...);
        } catch (...) {
            if (number != detail::NONE)
                detail::world::get().end(lane);
            throw;
        }
    }

    void join() {
        inner.join();
        if (number != detail::NONE)
            detail::record(GOODLOCK_JOIN, number, nullptr);
    }
    void detach() { inner.detach(); }
    bool joinable() const { return inner.joinable(); }
    id get_id() const { return inner.get_id(); }
    native_handle_type native_handle() { return inner.native_handle(); }
    static unsigned hardware_concurrency() { return std::thread::hardware_concurrency(); }
    void swap(thread &other) {
        inner.swap(other.inner);
        std::swap(number, other.number);
    }
    friend void swap(thread &one, thread &other) { one.swap(other); }

private:
    template <class F, class... Arguments>
    static void run(bool is_recorded, goodlock_lane lane, F f, Arguments... arguments) {
        if (lane.at != nullptr)
            detail::mine::adopt(lane);
        else if (is_recorded)
            detail::mine::leave_out();
        std::move(f)(std::move(arguments)...);
    }

    std::thread inner;
    uint32_t number = detail::NONE;
};

} // namespace goodlock

#undef GOODLOCK_HERE
#undef GOODLOCK_ONCE

#endif
