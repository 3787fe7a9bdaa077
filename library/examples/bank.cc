// A bank that predicts its own deadlock: two threads move money between two accounts, in opposite directions. The run
// ends well, as the second thread starts when the first one is done; no event tells so, and another run deadlocks.
//
//     g++ -std=c++11 -Ilibrary library/examples/bank.cc prebuilt/libgoodlock.a -lpthread -o bank
//     ./bank
#include "goodlock.hpp"

#include <future>
#include <iostream>

struct Account {
    explicit Account(const char *name) : mutex(name)
    {
    }
    goodlock::mutex mutex;
    int balance = 100;
};

static Account savings("savings");
static Account current("current");

static void transfer(Account &from, Account &to, int amount)
{
    goodlock::guard<goodlock::mutex> first(from.mutex);
    goodlock::guard<goodlock::mutex> second(to.mutex);
    from.balance -= amount;
    to.balance += amount;
}

static void tell(Account &from, Account &to, std::promise<void> &is_done)
{
    for (int i = 0; i < 1000; i++)
        transfer(from, to, i % 2 ? -1 : 1);
    is_done.set_value();
}

int main()
{
    if (goodlock::start() != GOODLOCK_OK)
        return 1;
    std::promise<void> saver_is_done, spender_is_done;
    goodlock::thread saver(tell, std::ref(current), std::ref(savings), std::ref(saver_is_done));
    saver_is_done.get_future().wait();
    goodlock::thread spender(tell, std::ref(savings), std::ref(current), std::ref(spender_is_done));
    saver.join();
    spender.join();

    const goodlock::result result = goodlock::finish();
    std::cout << result.text;
    return result.is_settled && result.unrecorded == 0 && savings.balance + current.balance == 200 ? 0 : 1;
}
