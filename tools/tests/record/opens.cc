/* Says what dlerror tells: at first, and of a library that isn't there, once a static variable was initialised. */
#include <cstdio>
#include <dlfcn.h>
#include <mutex>

static std::mutex a;

static const char *told()
{
    const char *text = dlerror();
    return text ? text : "nothing";
}

static int made()
{
    return 1;
}

int main()
{
    std::puts(told());
    a.lock();
    a.unlock();
    dlopen("./no-such-library.so", RTLD_NOW);
    static const int variable = made();
    std::puts(told());
    return variable - 1;
}
