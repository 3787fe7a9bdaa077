// Functions with all kinds of names, each of which takes a lock.
#include <mutex>

static std::mutex m;

#define TAKE m.lock(), m.unlock()

static void plain(int)
{
    TAKE;                                                       // @plain
}

namespace {
template <typename Type, int NUMBER> void of_a_template(Type)
{
    TAKE;                                                       // @template
}
} // namespace

namespace space {
struct Kind {
    Kind() { TAKE; }                                            // @made
    bool operator<(const Kind &) const { return TAKE, false; }  // @less
    void operator()(int) const { TAKE; }                        // @called
    operator bool() const { return TAKE, true; }                // @bool
};
} // namespace space

int main()
{
    plain(0);
    of_a_template<void (*)(int), 3>(plain);
    space::Kind kind;
    (void)(kind < kind);
    kind(1);
    (void)static_cast<bool>(kind);
    [](int) { TAKE; }(2);                                       // @lambda
    return 0;
}
