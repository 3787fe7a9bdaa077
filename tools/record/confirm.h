/* Holding threads back where a predicted cycle needs them: see confirm.c. */
#ifndef GOODLOCK_CONFIRM_H
#define GOODLOCK_CONFIRM_H

#include "recorder.h"

#pragma GCC visibility push(hidden)

/* Whether this run is to bring a cycle about. */
extern int confirming;

/* Slow: reads the plan, when the process begins. */
void confirm_start(void);

/* Slow: a new site, whose call lies at this offset in the module's file. */
void confirm_site(uint64_t site, const char *path, uint64_t offset);

/* Before and after a call that may wait for ever for a lock. `word`: of the acquire; `condition`: the thread waits for
 * a condition first. */
void confirm_before(struct thread *thread, uint64_t word, const void *lock, uintptr_t return_address, int condition);
void confirm_after(struct thread *thread);

/* The thread is about to end. */
void confirm_end(struct thread *thread);

/* The return addresses of the frames from this one on; how many. */
size_t stack_copy(uintptr_t return_address, uint64_t *addresses, size_t most);

#pragma GCC visibility pop

#endif
