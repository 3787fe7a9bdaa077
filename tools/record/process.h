/* What the recorder's slow parts share. */
#ifndef GOODLOCK_PROCESS_H
#define GOODLOCK_PROCESS_H

#include <sys/types.h>

#include "recorder.h"

#define FRAMES_LIMIT 16

#pragma GCC visibility push(hidden)

/* Whether this process is recorded; begins its files if it has none yet. */
int process_ready(void);

/* The value of a variable of the program's environment, or NULL. */
const char *variable(const char *name);

/* At the start: finds how static variables are initialised. */
void guards_start(void);

/* Sees to it that the end of this process is marked in its file. */
void endings_start(void);

/* Whether a process of another number may call from this memory. */
extern uint32_t pid_in_doubt;

/* Before this process becomes that user. */
void user_directory(uid_t user);

/* Whether the present thread is between slow_enter and slow_leave. */
int slow_inside(void);

/* Sleeps while the word of 32 bits has this value, or shorter; wakes so many of those that sleep there. */
void word_wait(const void *word, int value);
void word_wake(const void *word, int count);

/* A lock of the recorder's own, which is zero at first. */
void inner_take(int *lock);
void inner_leave(int *lock);

/* Shut all signals out, and let in again those that were let in before. */
void signals_shut_out(uint64_t *before);
void signals_let_in(const uint64_t *before);

/* In a new thread whose maker had all signals shut out: puts on this mask. Where the thread has another one, of the
 * usual attributes of threads, that stays. */
void signals_follow(uint64_t mask);

/* Before and after a visit to all modules by the loader, outside of slow parts: nobody forks in between, and no signal
 * comes. */
void visit_begin(uint64_t *signals);
void visit_end(const uint64_t *signals);

/* Texts (texts.c): puts some, up to a NULL, one behind the other into so much room, and leaves out what has none; and a
 * number as a text, at the end of these digits. What a file has, and where a link leads to, as read and readlink tell.
 */
#define DIGITS 21
void text_join(char *to, size_t size, ...) __attribute__((sentinel));
const char *digits_of(uint64_t number, char digits[DIGITS]);
ssize_t bytes_read(int file, void *to, size_t size);
ssize_t link_read(const char *path, char *to, size_t size);

/* So many bytes of a file, mapped; MAP_FAILED where they can't be. */
void *file_pages(int file, size_t bytes, int protection, int flags);

/* A new file of this process with room for so many bytes, mapped; NULL if there is none. The last part of its name is
 * told. */
void *own_file_map(const char *last, uint64_t bytes);

/* A record of a thread or lock that has nothing but its number. Called between slow_enter and slow_leave. */
void number_note(enum record_kind kind, uint64_t number);

/* Pages that are zero in a forked child. */
void *pages_new_wiped(size_t bytes);

/* Before a slow part: makes the module that lies at an address known; whether there is one. Where that can't be told
 * without a visit to all modules, they are visited if `otherwise` is 1. */
int module_meet(uintptr_t address, int otherwise);

/* Makes all modules known, outside of slow parts: before their files may be out of reach. */
void modules_meet(void);

/* At the start: where the program's file is, for when /proc doesn't tell. */
void program_find(void);

/* Writes the modules that are known to this process's file. Called between slow_enter and slow_leave. */
void modules_tell(void);

/* Whether a thread's start routine is one of the C++ library, which runs the object that it is given. Called between
 * slow_enter and slow_leave, after module_meet. */
int runs_object(uint64_t routine);

/* After a library may have gone: ends what is known of those that have. */
void modules_check(void);

/* Ends the locks in this range of memory; `_inside` between slow_enter and slow_leave. */
void memory_end(uintptr_t start, uintptr_t end);
void memory_end_inside(uintptr_t start, uintptr_t end);

/* Ends the locks in a block that is about to be given back; and those in one of so many bytes that was just given out:
 * whoever had it before gave it back by ways that aren't seen. */
void block_end(void *block);
void block_begin(const void *block, size_t bytes);

/* Makes the recorder's unwinder ready. Called between slow_enter and slow_leave. */
void unwinder_start(void);

/* Whether the address lies in the compiler's own library. Called between slow_enter and slow_leave, after module_meet.
 */
int in_compiler_module(uint64_t address);

/* In a forked child: the present thread is the first thread of the new process. */
void thread_forget(void);

/* Whether a sanitizer knows the present thread, whose state this is: not one that was made past its calls, nor one that
 * is about to be gone. */
int thread_is_watched(const struct thread *thread);

#pragma GCC visibility pop

#endif
