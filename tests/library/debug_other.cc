// Another file of the program of debug.c, in C++: what it opens is known there, and what debug.c opens here.
#include "goodlock.h"

#include "debug_other.h"

// Its destructor is registered before main, and gives back what main left.
struct holder {
    goodlock_session session = {nullptr};
    ~holder()
    {
        if (session.at != nullptr)
            goodlock_session_free(&session);
    }
};

static holder held;

goodlock_session *other_session(void)
{
    return &held.session;
}

uint32_t other_open(uint64_t number, goodlock_session *session)
{
    return goodlock_open(number, 2, 8, session);
}

void other_free(goodlock_session *session)
{
    goodlock_session_free(session);
}

uint32_t other_pull(goodlock_session *session)
{
    goodlock_pulled pulled;
    return goodlock_pull(session, 10, &pulled);
}
