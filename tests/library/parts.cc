// A program and a shared library that both use goodlock.hpp: they have one session, whose report is of both.
//
//     parts LIBRARY       opens it by dlopen
#include "checks.hpp"

#include <dlfcn.h>

int main(int count, char **words)
{
    void *const library = dlopen(count == 2 ? words[1] : "", RTLD_NOW | RTLD_LOCAL);
    void *const found = library == nullptr ? nullptr : dlsym(library, "part_takes_both");
    if (found == nullptr) {
        std::printf("%s\n", dlerror());
        return 1;
    }
    const auto takes_both = reinterpret_cast<void (*)(bool)>(found);
    goodlock::mutex own("own");
    check(goodlock::start() == GOODLOCK_OK, "start");
    one_by_one(
        [&] {
            goodlock::guard<goodlock::mutex> hold(own);
            takes_both(false);
        },
        [&] { takes_both(true); });
    const goodlock::result result = goodlock::finish();
    check(result.code == GOODLOCK_OK && result.is_settled && result.unrecorded == 0, "the report is settled");
    check(result.cycles == 1, "the cycle of the library's locks is listed:\n" + result.text);
    std::printf("%u passed, %u failed\n", passed, failed);
    return failed == 0 && passed > 0 ? 0 : 1;
}
