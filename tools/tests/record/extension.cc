// A library of C++ that a program of C loads. It has operators new and delete of its own, which the C++ library takes,
// too, as nobody else has some: a block of theirs is none of malloc's.
#include <cstdlib>
#include <new>
#include <pthread.h>
#include <string>

static int given_out, given_back;
static pthread_mutex_t lock_of_extension = PTHREAD_MUTEX_INITIALIZER;

const std::size_t HEAD = 64;

void *operator new(std::size_t bytes)
{
    given_out++;
    return static_cast<char *>(std::malloc(bytes + HEAD)) + HEAD;
}

void operator delete(void *block) noexcept
{
    given_back += block != nullptr;
    std::free(block == nullptr ? nullptr : static_cast<char *>(block) - HEAD);
}

void operator delete(void *block, std::size_t) noexcept
{
    ::operator delete(block);
}

extern "C" void run()
{
    {
        std::string text(1000, 'a');
        text.append(5000, 'b'); // in the C++ library
        text.shrink_to_fit();
    }
    if (given_out < 2 || given_out != given_back)
        std::abort();
    pthread_mutex_lock(&lock_of_extension);   // @extension
    pthread_mutex_unlock(&lock_of_extension); // @extension_end
}
