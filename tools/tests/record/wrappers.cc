/* Locks and threads by way of the C++ library. */
#include <condition_variable>
#include <memory>
#include <mutex>
#include <optional>
#include <shared_mutex>
#include <thread>
#include <vector>

static std::mutex a;
static std::mutex b;
static std::recursive_mutex again;
static std::timed_mutex timed;
static std::shared_mutex shared;
static std::condition_variable condition;
static bool ready;

struct Late {
    ~Late()
    {
        b.lock();   // @late_lock
        b.unlock(); // @late_unlock
    }
};
static thread_local Late late;

namespace bank {
struct Account {
    static std::mutex guard;
};
std::mutex Account::guard;
}

static void signaller(int)
{
    std::lock_guard<std::mutex> hold(a);              // @signaller
    ready = true;
    condition.notify_one();
}                                                     // @signaller_end

static void user()
{
    Late *touched = &late;
    (void)touched;
}

int main()
{
    a.lock();                                         // @lock
    if (b.try_lock())                                 // @try
        b.unlock();                                   // @unlock_b
    a.unlock();                                       // @unlock
    {
        std::lock_guard<std::mutex> hold(a);          // @guard
        std::unique_lock<std::mutex> more(b);         // @unique
        more.unlock();                                // @unique_end
    }                                                 // @guard_end
    {
        std::scoped_lock<std::mutex> hold(a);         // @scoped
    }                                                 // @scoped_end
    again.lock();                                     // @again
    again.unlock();                                   // @again_end
    if (timed.try_lock_for(std::chrono::seconds(1)))  // @timed
        timed.unlock();                               // @timed_end
    shared.lock_shared();                             // @shared
    shared.unlock_shared();                           // @shared_end
    {
        std::shared_lock<std::shared_mutex> hold(shared); // @shared_guard
    }                                                 // @shared_guard_end
    {
        std::lock_guard<std::mutex> hold(bank::Account::guard); // @bank
    }                                                 // @bank_end
    std::lock(a, b);                                  // @lock_both
    a.unlock();                                       // @both_a
    b.unlock();                                       // @both_b
    {
        std::scoped_lock<std::mutex, std::mutex> hold(a, b); // @scoped_both
    }                                                 // @scoped_both_end
    std::unique_lock<std::mutex> hold(a);             // @hold
    std::thread first(signaller, 7);                  // @first
    condition.wait(hold, [] { return ready; });       // @wait
    hold.unlock();                                    // @hold_end
    first.join();                                     // @first_join
    std::thread second([] {                           // @second
        a.lock();                                     // @lambda_lock
        a.unlock();                                   // @lambda_unlock
    });                                               // @second_end
    second.join();                                    // @second_join
    std::thread third(user);                          // @third
    third.join();                                     // @third_join
    std::vector<std::unique_lock<std::mutex>> many;
    many.emplace_back(a);                             // @many_first
    many.emplace_back(b);                             // @many_second
    for (std::unique_lock<std::mutex> &one : many)
        one.unlock();                                 // @many_end
    auto made = std::make_unique<std::lock_guard<std::mutex>>(a); // @made
    made.reset();                                     // @made_end
    std::optional<std::shared_lock<std::shared_mutex>> perhaps;
    perhaps.emplace(shared);                          // @perhaps
    perhaps.reset();                                  // @perhaps_end
    std::vector<std::thread> workers;
    workers.emplace_back(user);                       // @worker
    workers.back().join();                            // @worker_join
}
