// Threads that are given functions in all the ways that there are, for their names. Behind each object of the program, as behind
// what a thread is given, lies the address of a function that no thread runs, as if others had left it there.
#include <algorithm>
#include <cstdlib>
#include <functional>
#include <future>
#include <new>
#include <thread>

static void left_behind()
{
}

void *operator new(std::size_t bytes)
{
    const std::size_t words = bytes / sizeof(void *) + 8;
    void **block = static_cast<void **>(std::malloc(words * sizeof(void *)));
    if (block == nullptr)
        std::abort();
    std::fill(block, block + words, reinterpret_cast<void *>(left_behind));
    return block;
}

void operator delete(void *block) noexcept
{
    std::free(block);
}

void operator delete(void *block, std::size_t) noexcept
{
    std::free(block);
}

static void counts(int)
{
}

struct Worker {
    int turns = 0;
    void works()
    {
        turns++;
    }
    void operator()()
    {
        turns++;
    }
};

int main()
{
    Worker worker;
    std::thread(counts, 1).join();
    std::thread(&Worker::works, &worker).join();
    std::thread(std::bind(counts, 1)).join();
    std::thread(std::function<void(int)>(counts), 1).join();
    std::thread(std::function<void()>([] {})).join();
    std::thread([] {}).join();
    std::async(std::launch::async, [] {}).get();
    std::async(std::launch::async, counts, 1).get();
    std::thread(worker).join();
    std::thread(std::ref(worker)).join();
}
