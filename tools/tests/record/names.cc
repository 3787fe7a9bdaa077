// Locks in functions and namespaces with all kinds of names, each taken once.
#include <mutex>

namespace {
std::mutex unnamed;
}

namespace space {
template <typename Type> struct Kind {
    static std::mutex of_a_class;
    std::mutex &operator()(int) const
    {
        static std::mutex called;
        return called;
    }
    std::mutex &operator<(int) const
    {
        static std::mutex less;
        return less;
    }
};
template <typename Type> std::mutex Kind<Type>::of_a_class;
} // namespace space

static std::mutex &plain(int, void (*)(int))
{
    static std::mutex of_a_function;
    return of_a_function;
}

template <typename Type> std::mutex &of_a_template(Type)
{
    static std::mutex of_a_template;
    return of_a_template;
}

static void take(std::mutex &mutex)
{
    mutex.lock();
    mutex.unlock();
}

int main()
{
    auto lambda = [](int) -> std::mutex & {
        static std::mutex of_a_lambda;
        return of_a_lambda;
    };
    space::Kind<void (*)(int, char)> kind;
    take(unnamed);
    take(kind.of_a_class);
    take(kind(1));
    take(kind < 1);
    take(plain(1, nullptr));
    take(of_a_template('a'));
    take(of_a_template(lambda));
    take(lambda(1));
    return 0;
}
