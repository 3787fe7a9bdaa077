// What the tests of goodlock.hpp share: they count their checks, and tell on standard output what isn't as it has to be.
#ifndef CHECKS_HPP
#define CHECKS_HPP

#include "goodlock.hpp"

#include <cstdio>

static unsigned passed, failed;

static inline void check(bool is_right, const std::string &what)
{
    if (is_right) {
        passed++;
        return;
    }
    failed++;
    std::printf("%s\n", what.c_str());
}

// Threads that all start before any of them works: joins and forks keep none of them apart.
template <class F, class G> static void one_by_one(F first, G second)
{
    std::atomic<int> turn{0};
    goodlock::thread one([&] {
        first();
        turn = 1;
    });
    goodlock::thread other([&] {
        while (turn != 1)
            std::this_thread::yield();
        second();
    });
    one.join();
    other.join();
}

#endif
