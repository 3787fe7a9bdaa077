// Locks, which nobody destroyed, in memory that the operators new give out and the operators delete give back: the first
// argument names what is done.
#include <cstdio>
#include <cstdlib>
#include <cstring>
#include <new>
#include <pthread.h>
#include <string>

static pthread_mutex_t b = PTHREAD_MUTEX_INITIALIZER;

struct Node {
    char text[72];
    pthread_mutex_t lock;
};

const std::size_t BYTES = sizeof(Node);
const std::align_val_t ALIGNED{64};

static void use(pthread_mutex_t *lock)
{
    pthread_mutex_lock(lock);   // @use
    pthread_mutex_unlock(lock); // @use_end
}

static Node *made_in(void *block)
{
    return static_cast<Node *>(std::memset(block, 0, BYTES));
}

template <typename New, typename Delete> static void twice(New make, Delete give_back)
{
    void *first = make();
    use(&made_in(first)->lock);
    give_back(first);
    void *second = make();
    if (second != first)
        std::abort();
    use(&made_in(second)->lock);
    give_back(second);
}

#define TWICE(make, give_back) twice([] { return make; }, [](void *block) { give_back; })

static void forms()
{
    TWICE(::operator new(BYTES), ::operator delete(block));
    TWICE(::operator new(BYTES), ::operator delete(block, BYTES));
    TWICE(::operator new(BYTES, std::nothrow), ::operator delete(block, std::nothrow));
    TWICE(::operator new(BYTES, ALIGNED), ::operator delete(block, ALIGNED));
    TWICE(::operator new(BYTES, ALIGNED), ::operator delete(block, BYTES, ALIGNED));
    TWICE(::operator new(BYTES, ALIGNED, std::nothrow), ::operator delete(block, ALIGNED, std::nothrow));
    TWICE(::operator new[](BYTES), ::operator delete[](block));
    TWICE(::operator new[](BYTES), ::operator delete[](block, BYTES));
    TWICE(::operator new[](BYTES, std::nothrow), ::operator delete[](block, std::nothrow));
    TWICE(::operator new[](BYTES, ALIGNED), ::operator delete[](block, ALIGNED));
    TWICE(::operator new[](BYTES, ALIGNED), ::operator delete[](block, BYTES, ALIGNED));
    TWICE(::operator new[](BYTES, ALIGNED, std::nothrow), ::operator delete[](block, ALIGNED, std::nothrow));
}

// Memory is given back, and out again, with a lock in it that is held: nobody holds it any more.
static void held()
{
    Node *node = made_in(::operator new(BYTES));
    pthread_mutex_lock(&node->lock); // @held
    ::operator delete(node);
    if (::operator new(BYTES) != node)
        std::abort();
    use(&b);
}

// A block that isn't the lock's own leaves it as it is; so does one that there isn't.
static void beside()
{
    Node *before = made_in(::operator new(BYTES)), *node = made_in(::operator new(BYTES));
    Node *behind = made_in(::operator new(BYTES));
    pthread_mutex_lock(&node->lock); // @beside
    ::operator delete(before);
    ::operator delete(behind);
    ::operator delete(static_cast<void *>(nullptr));
    if (::operator new(BYTES) != behind || ::operator new(BYTES) != before)
        std::abort();
    use(&b);
    pthread_mutex_unlock(&node->lock); // @beside_end
}

static void refused()
{
    volatile std::size_t too_much = std::size_t(1) << 60;
    try {
        use(static_cast<pthread_mutex_t *>(::operator new(too_much)));
    } catch (const std::bad_alloc &) {
        if (::operator new(too_much, std::nothrow) != nullptr)
            std::abort();
        use(&b);
    }
}

int main(int, char **arguments)
{
    const std::string name = arguments[1];
    name == "forms" ? forms() : name == "held" ? held() : name == "beside" ? beside() : refused();
    std::fflush(stdout);
    return 0;
}
