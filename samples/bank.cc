// Two tellers move money between two accounts, in opposite directions. Runs end well, but another schedule deadlocks.
//
//     g++ -g -pthread samples/bank.cc -o bank
//     tools/goodlock-record -o bank.std ./bank
//     ./goodlock predict < bank.std
#include <mutex>
#include <thread>

struct Account {
    std::mutex mutex;
    int balance = 100;
};

Account savings;
Account current;

void transfer(Account &from, Account &to, int amount) {
    std::lock_guard<std::mutex> first(from.mutex);
    std::lock_guard<std::mutex> second(to.mutex);
    from.balance -= amount;
    to.balance += amount;
}

int main() {
    std::thread saver([] { transfer(current, savings, 10); });
    std::this_thread::sleep_for(std::chrono::milliseconds(20)); // by then saver is done, mostly
    std::thread spender([] { transfer(savings, current, 5); });
    saver.join();
    spender.join();
    return savings.balance + current.balance == 200 ? 0 : 1;
}
