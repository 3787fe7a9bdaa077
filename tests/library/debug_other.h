/* What debug.c calls of debug_other.cc. */
#ifndef DEBUG_OTHER_H
#define DEBUG_OTHER_H

#include "goodlock.h"

#ifdef __cplusplus
extern "C" {
#endif
goodlock_session *other_session(void); /* all zero at first; it is freed after main */
uint32_t other_open(uint64_t number, goodlock_session *session);
void other_free(goodlock_session *session);
uint32_t other_pull(goodlock_session *session);
#ifdef __cplusplus
}
#endif

#endif
