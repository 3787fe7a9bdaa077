/* goodlock_names_debug.h: checks what goodlock_names.h has its caller promise, as goodlock_debug.h does for goodlock.h.
 *
 * goodlock_names.h includes this file where GOODLOCK_DEBUG is defined. A null address of a lock, and a null literal,
 * have an answer, as ever: any other pointer is checked. The tables are handles of goodlock_debug.h's, and a mention
 * costs what it says of a call, a system call and a lock too. */
#ifndef GOODLOCK_NAMES_DEBUG_H
#define GOODLOCK_NAMES_DEBUG_H

#if !defined(GOODLOCK_NAMES_H) || !defined(GOODLOCK_DEBUG)
#error "goodlock_names.h includes this file: include that one, and compile with -DGOODLOCK_DEBUG"
#endif

/* ---- What ends in an underscore is this file's alone: all of it. */

static inline void goodlock_names_debug_given_(struct goodlock_debug_call_ *call, const goodlock_names *names,
                                               bool is_shared)
{
    const uintptr_t address = GOODLOCK_DEBUG_POINTER_AS_(uintptr_t, names);
    goodlock_debug_given_(call, GOODLOCK_DEBUG_TABLE_, GOODLOCK_DEBUG_POINTER_AS_(void *, address));
    call->handles[call->handle_count - 1].is_shared = is_shared;
    call->spans[call->span_count - 1].word = "names";
}

static inline uint32_t goodlock_names_debug_open_(uint32_t most, goodlock_names *names)
{
    struct goodlock_debug_call_ call;
    uint32_t code;
    goodlock_debug_new_(&call, "goodlock_names_open");
    goodlock_names_debug_given_(&call, names, false);
    call.opens = true;
    if (!goodlock_debug_enter_(&call))
        return GOODLOCK_MEMORY;
    code = goodlock_names_open(most, names);
    goodlock_debug_leave_(&call);
    return code;
}

static inline void goodlock_names_debug_free_(goodlock_names *names)
{
    struct goodlock_debug_call_ call;
    goodlock_debug_new_(&call, "goodlock_names_free");
    goodlock_names_debug_given_(&call, names, false);
    goodlock_debug_enter_(&call);
    goodlock_names_free(names);
    goodlock_debug_leave_(&call);
}

static inline uint32_t goodlock_names_debug_of_(const goodlock_names *names, const uint8_t *name, size_t length,
                                                uint32_t *number)
{
    struct goodlock_debug_call_ call;
    uint32_t code;
    goodlock_debug_new_(&call, "goodlock_names_of");
    goodlock_names_debug_given_(&call, names, true);
    goodlock_debug_over_(&call, "name", name, length, false);
    goodlock_debug_over_(&call, "number", number, sizeof *number, true);
    goodlock_debug_enter_(&call);
    code = goodlock_names_of(names, name, length, number);
    goodlock_debug_leave_(&call);
    return code;
}

static inline uint32_t goodlock_names_debug_at_(const goodlock_names *names, const void *address, const uint8_t *name,
                                                size_t length, uint32_t *number)
{
    struct goodlock_debug_call_ call;
    uint32_t code;
    goodlock_debug_new_(&call, "goodlock_names_at");
    goodlock_names_debug_given_(&call, names, true);
    goodlock_debug_over_(&call, "name", name, length, false);
    goodlock_debug_over_(&call, "number", number, sizeof *number, true);
    goodlock_debug_enter_(&call);
    code = goodlock_names_at(names, address, name, length, number);
    goodlock_debug_leave_(&call);
    return code;
}

static inline uint32_t goodlock_names_debug_literal_(const goodlock_names *names, const char *literal, uint32_t *number)
{
    struct goodlock_debug_call_ call;
    uint32_t code;
    goodlock_debug_new_(&call, "goodlock_names_literal");
    goodlock_names_debug_given_(&call, names, true);
    goodlock_debug_over_(&call, "number", number, sizeof *number, true);
    goodlock_debug_enter_(&call);
    code = goodlock_names_literal(names, literal, number);
    goodlock_debug_leave_(&call);
    return code;
}

static inline void goodlock_names_debug_forget_(const goodlock_names *names, const void *address)
{
    struct goodlock_debug_call_ call;
    goodlock_debug_new_(&call, "goodlock_names_forget");
    goodlock_names_debug_given_(&call, names, true);
    goodlock_debug_enter_(&call);
    goodlock_names_forget(names, address);
    goodlock_debug_leave_(&call);
}

static inline uint32_t goodlock_names_debug_count_(const goodlock_names *names)
{
    struct goodlock_debug_call_ call;
    uint32_t count;
    goodlock_debug_new_(&call, "goodlock_names_count");
    goodlock_names_debug_given_(&call, names, true);
    goodlock_debug_enter_(&call);
    count = goodlock_names_count(names);
    goodlock_debug_leave_(&call);
    return count;
}

/* Leaves the session, the first handle of the call, to the calls that tell it. */
static inline void goodlock_names_debug_tell_it_(struct goodlock_debug_call_ *call)
{
    goodlock_debug_lock_();
    call->handles[0] = call->handles[1];
    call->handle_count = 1;
    goodlock_debug_unlock_();
    goodlock_debug_inside_ = GOODLOCK_DEBUG_NULL_;
}

typedef uint32_t goodlock_names_debug_telling_(goodlock_session *, const goodlock_names *, uint32_t *);

static inline uint32_t goodlock_names_debug_tell_(const char *words, goodlock_names_debug_telling_ *call_by,
                                                  goodlock_session *session, const goodlock_names *names,
                                                  uint32_t *told)
{
    struct goodlock_debug_call_ call;
    uint32_t code;
    goodlock_debug_new_(&call, words);
    goodlock_debug_given_(&call, GOODLOCK_DEBUG_SESSION_, session);
    goodlock_names_debug_given_(&call, names, true);
    goodlock_debug_over_(&call, "told", told, sizeof *told, true);
    call.tells = true;
    goodlock_debug_enter_(&call);
    goodlock_names_debug_tell_it_(&call);
    code = call_by(session, names, told);
    goodlock_debug_leave_(&call);
    return code;
}

static inline uint32_t goodlock_names_debug_tell_locks_(goodlock_session *session, const goodlock_names *names,
                                                        uint32_t *told)
{
    return goodlock_names_debug_tell_("goodlock_tell_locks", goodlock_tell_locks, session, names, told);
}

static inline uint32_t goodlock_names_debug_tell_places_(goodlock_session *session, const goodlock_names *names,
                                                         uint32_t *told)
{
    return goodlock_names_debug_tell_("goodlock_tell_places", goodlock_tell_places, session, names, told);
}

#define goodlock_names_open goodlock_names_debug_open_
#define goodlock_names_free goodlock_names_debug_free_
#define goodlock_names_of goodlock_names_debug_of_
#define goodlock_names_at goodlock_names_debug_at_
#define goodlock_names_literal goodlock_names_debug_literal_
#define goodlock_names_forget goodlock_names_debug_forget_
#define goodlock_names_count goodlock_names_debug_count_
#define goodlock_tell_locks goodlock_names_debug_tell_locks_
#define goodlock_tell_places goodlock_names_debug_tell_places_

#endif
