// A shared library that takes locks of goodlock.hpp, in the program of parts.cc.
#include "goodlock.hpp"

extern "C" __attribute__((visibility("default"))) void part_takes_both(bool is_turned)
{
    static goodlock::mutex books("books"), pages("pages");
    goodlock::guard<goodlock::mutex> outer(is_turned ? pages : books);
    goodlock::guard<goodlock::mutex> inner(is_turned ? books : pages);
}
