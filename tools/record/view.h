/* The files of programs and libraries, mapped to be read. All of this is called between slow_enter and slow_leave. */
#ifndef GOODLOCK_VIEW_H
#define GOODLOCK_VIEW_H

#include <link.h>
#include <stddef.h>

#pragma GCC visibility push(hidden)

struct view {
    int file;
    const char *bytes;
    size_t size;
};

/* Opens a regular file; whether there is one, and something in it. */
int view_open(struct view *view, const char *path);
void view_close(const struct view *view);

/* The first section of this kind, with this name where one is asked for, that lies within the file; NULL: it has none.
 */
const ElfW(Shdr) * view_section(const struct view *view, unsigned kind, const char *name);

/* The section that another one names by its number; NULL where there is none within the file. */
const ElfW(Shdr) * view_linked(const struct view *view, const ElfW(Shdr) * section);

/* Opens the separate debug file of a file that has no symbols; whether there is one. `path`: that file's, where the
 * system doesn't tell it. */
int view_open_debug(struct view *debug, const struct view *view, const char *path);

#pragma GCC visibility pop

#endif
