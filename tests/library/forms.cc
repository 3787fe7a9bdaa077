// Tests that the locks and threads of goodlock.hpp have the forms of std's, in C++11 and later: how they are made,
// native_handle, limits of time, readers, and a thread's id, swap and handle.
//
// What isn't as it has to be is told; the last line is how many checks passed and failed.
#include "checks.hpp"

struct account {
    goodlock::mutex mutex;
    goodlock::timed_mutex timed;
    goodlock::shared_mutex shared;
    int balance;
};

template <class M, class N> static void same_handle(M &lock, const char *what)
{
    static_assert(std::is_same<typename M::native_handle_type, typename N::native_handle_type>::value, "as std's");
    check(lock.native_handle() != nullptr, what);
}

static void made()
{
    account one{}, two[2] = {};
    goodlock::mutex lock = {};
    goodlock::recursive_mutex again;
    goodlock::recursive_timed_mutex again_timed;
    one.balance = two[1].balance;
    same_handle<goodlock::mutex, std::mutex>(lock, "the handle of a mutex");
    same_handle<goodlock::recursive_mutex, std::recursive_mutex>(again, "the handle of a recursive mutex");
#ifndef _LIBCPP_VERSION // of LLVM, whose timed mutexes have none
    same_handle<goodlock::timed_mutex, std::timed_mutex>(one.timed, "the handle of a timed mutex");
    same_handle<goodlock::recursive_timed_mutex, std::recursive_timed_mutex>(again_timed, "the handle of such a mutex");
#endif
    check(pthread_rwlock_trywrlock(one.shared.native_handle()) == 0, "the handle of a shared mutex");
    check(!one.shared.try_lock() && !one.shared.try_lock_shared(), "a shared mutex that is held by its handle");
    one.shared.unlock();
}

static const char *const RIGHT = "cycle 1: 2 edges\n"
                                 "  T1 holds timed since forms:2 wants c at forms:3\n"
                                 "  T2 holds c since forms:4 wants timed at forms:5\n"
                                 "cycle 2: 2 edges\n"
                                 "  T4 holds r since forms:6 wants w at forms:7\n"
                                 "  T5 holds w since forms:8 wants r at forms:9\n"
                                 "cycles: 2\n";

// What a limit of time is set to can't hang: it is held, and asked for by nobody.
static void with_limits(goodlock::timed_mutex &timed, goodlock::recursive_timed_mutex &again, goodlock::mutex &c)
{
    const std::chrono::milliseconds moment(1), long_time(60000);
    one_by_one(
        [&] {
#line 2 "forms"
            check(timed.try_lock_for(long_time), "a timed mutex that is free");
            goodlock::guard<goodlock::mutex> inner(c);
            timed.unlock();
        },
        [&] {
#line 4 "forms"
            goodlock::guard<goodlock::mutex> outer(c);
            goodlock::guard<goodlock::timed_mutex> inner(timed);
        });
#line 61 "tests/library/forms.cc"
    goodlock::guard<goodlock::timed_mutex> outer(timed);
    std::unique_lock<goodlock::recursive_timed_mutex> first(again, moment),
        second(again, std::chrono::steady_clock::now());
    check(first.owns_lock() && second.owns_lock(), "a recursive timed mutex, twice");
    goodlock::thread other([&] {
        check(!timed.try_lock_for(moment), "a timed mutex that another thread holds");
        check(!again.try_lock_until(std::chrono::system_clock::now() + moment), "a recursive one");
    });
    other.join();
}

static void with_readers(goodlock::shared_mutex &r, goodlock::shared_mutex &w)
{
    one_by_one(
        [&] {
#line 6 "forms"
            goodlock::shared_guard<goodlock::shared_mutex> first(r);
            goodlock::shared_guard<goodlock::shared_mutex> second(w);
        },
        [&] {
#line 8 "forms"
            goodlock::guard<goodlock::shared_mutex> first(w);
            goodlock::guard<goodlock::shared_mutex> second(r);
        });
#line 86 "tests/library/forms.cc"
    goodlock::shared_guard<goodlock::shared_mutex> reader(r);
    check(r.try_lock_shared(), "a second reader");
    check(!r.try_lock(), "no writer beside readers");
    r.unlock_shared();
}

// A join is that of the thread which the object has by now: without it a cycle would be listed.
static void swapped(goodlock::mutex &one, goodlock::mutex &other)
{
    pthread_t itself{};
    goodlock::thread first([&] {
        itself = pthread_self();
        goodlock::guard<goodlock::mutex> outer(one), inner(other);
    });
    const goodlock::thread::id number = first.get_id();
    const goodlock::thread::native_handle_type handle = first.native_handle();
    goodlock::thread second, third;
    swap(first, second);
    second.swap(third);
    check(third.get_id() == number && third.joinable(), "the thread is the third one's");
    check(second.get_id() == goodlock::thread::id() && !first.joinable(), "the others have none");
    third.join();
    check(pthread_equal(itself, handle) != 0, "the thread's handle");
    goodlock::thread last([&] { goodlock::guard<goodlock::mutex> outer(other), inner(one); });
    last.join();
}

int main()
{
    made();
    check(goodlock::thread::hardware_concurrency() == std::thread::hardware_concurrency(), "the number of processors");
    check(goodlock::start() == GOODLOCK_OK, "start");
    goodlock::timed_mutex timed("timed");
    goodlock::recursive_timed_mutex again("again");
    goodlock::mutex c("c"), d("d"), e("e");
    goodlock::shared_mutex r("r"), w("w");
    with_limits(timed, again, c);
    with_readers(r, w);
    swapped(d, e);
    check(goodlock::findings_so_far().code == GOODLOCK_OK, "findings so far");
    const goodlock::result result = goodlock::finish();
    check(result.code == GOODLOCK_OK && result.is_settled && result.unrecorded == 0, "the report is settled");
    check(result.text == RIGHT, "another text:\n" + result.text);
    std::printf("%u passed, %u failed\n", passed, failed);
    return failed == 0 ? 0 : 1;
}
