/* The library's calls that make a report and its text, where memory is refused at the first call of each. It is linked
 * with --wrap of goodlock_settled_report and goodlock_text. */
#include "goodlock.h"

uint32_t __real_goodlock_settled_report(goodlock_session *session, uint32_t mode, uint32_t length, uint32_t number,
                                        goodlock_report *report);
uint32_t __wrap_goodlock_settled_report(goodlock_session *session, uint32_t mode, uint32_t length, uint32_t number,
                                        goodlock_report *report);
uint32_t __real_goodlock_text(goodlock_session *session, goodlock_report *report, uint8_t *buffer, size_t size,
                              size_t *needed);
uint32_t __wrap_goodlock_text(goodlock_session *session, goodlock_report *report, uint8_t *buffer, size_t size,
                              size_t *needed);

uint32_t __wrap_goodlock_settled_report(goodlock_session *session, uint32_t mode, uint32_t length, uint32_t number,
                                        goodlock_report *report)
{
    static bool was_refused;
    const uint32_t code = __real_goodlock_settled_report(session, mode, length, number, report);
    if (code != GOODLOCK_OK || was_refused)
        return code;
    goodlock_report_free(report);
    was_refused = true;
    return GOODLOCK_MEMORY;
}

uint32_t __wrap_goodlock_text(goodlock_session *session, goodlock_report *report, uint8_t *buffer, size_t size,
                              size_t *needed)
{
    static bool was_refused;
    if (was_refused)
        return __real_goodlock_text(session, report, buffer, size, needed);
    was_refused = true;
    return GOODLOCK_MEMORY;
}
