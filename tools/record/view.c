/* The files of programs and libraries: their sections, and the separate debug files that some have. These are looked
 * for as gdb does, and as symbols.py. */
#define _GNU_SOURCE
#include <elf.h>
#include <fcntl.h>
#include <sys/mman.h>
#include <sys/stat.h>
#include <unistd.h>

#include "process.h"
#include "view.h"

#define DEBUG_FILES "/usr/lib/debug"

int view_open(struct view *view, const char *path)
{
    struct stat status;
    view->file = open(path, O_RDONLY | O_CLOEXEC | O_NONBLOCK);
    if (view->file < 0)
        return 0;
    const char *bytes = MAP_FAILED;
    if (fstat(view->file, &status) == 0 && S_ISREG(status.st_mode) && status.st_size > 0)
        bytes = file_pages(view->file, (size_t)status.st_size, PROT_READ, MAP_PRIVATE);
    if (bytes == MAP_FAILED) {
        close(view->file);
        return 0;
    }
    view->bytes = bytes;
    view->size = (size_t)status.st_size;
    return 1;
}

void view_close(const struct view *view)
{
    pages_drop((void *)view->bytes, view->size);
    close(view->file);
}

/* --- Sections --------------------------------------------------------------------------------------------- */

static const ElfW(Shdr) * sections_of(const struct view *view, unsigned *count)
{
    const ElfW(Ehdr) *head = (const ElfW(Ehdr) *)view->bytes;
    *count = 0;
    if (view->size < sizeof *head || memcmp(head->e_ident, ELFMAG, SELFMAG) != 0 ||
        head->e_shentsize != sizeof(ElfW(Shdr)) || head->e_shoff > view->size ||
        head->e_shnum * sizeof(ElfW(Shdr)) > view->size - head->e_shoff)
        return NULL;
    *count = head->e_shnum;
    return (const ElfW(Shdr) *)(view->bytes + head->e_shoff);
}

static int is_within(const struct view *view, const ElfW(Shdr) * section)
{
    return section->sh_type != SHT_NOBITS && section->sh_offset <= view->size &&
           section->sh_size <= view->size - section->sh_offset;
}

/* That of this number, if it has texts in it, which end with a zero. */
static const ElfW(Shdr) * texts_section(const struct view *view, unsigned number)
{
    unsigned count;
    const ElfW(Shdr) *section = sections_of(view, &count);
    if (!section || number >= count || !is_within(view, section += number) || section->sh_size == 0 ||
        view->bytes[section->sh_offset + section->sh_size - 1] != 0)
        return NULL;
    return section;
}

const ElfW(Shdr) * view_linked(const struct view *view, const ElfW(Shdr) * section)
{
    return texts_section(view, section->sh_link);
}

static int has_name(const struct view *view, const ElfW(Shdr) * section, const char *name)
{
    const ElfW(Shdr) *names = texts_section(view, ((const ElfW(Ehdr) *)view->bytes)->e_shstrndx);
    return names && section->sh_name < names->sh_size &&
           strcmp(view->bytes + names->sh_offset + section->sh_name, name) == 0;
}

const ElfW(Shdr) * view_section(const struct view *view, unsigned kind, const char *name)
{
    unsigned count;
    const ElfW(Shdr) *sections = sections_of(view, &count);
    for (unsigned i = 0; i < count; i++)
        if (sections[i].sh_type == kind && is_within(view, &sections[i]) &&
            (!name || has_name(view, &sections[i], name)))
            return &sections[i];
    return NULL;
}

/* --- Debug files ------------------------------------------------------------------------------------------ */

/* The number of a file's build, as so many bytes; NULL where it has none. */
static const unsigned char *build_of(const struct view *view, size_t *count)
{
    const ElfW(Shdr) *section = view_section(view, SHT_NOTE, ".note.gnu.build-id");
    const ElfW(Nhdr) *note = section ? (const ElfW(Nhdr) *)(view->bytes + section->sh_offset) : NULL;
    size_t before = sizeof *note + sizeof ELF_NOTE_GNU;
    if (!note || section->sh_size < before || note->n_namesz != sizeof ELF_NOTE_GNU ||
        note->n_type != NT_GNU_BUILD_ID || note->n_descsz > section->sh_size - before || note->n_descsz < 2)
        return NULL;
    *count = note->n_descsz;
    return (const unsigned char *)note + before;
}

/* Where the debug file of this build lies. */
static void path_of_build(char *path, size_t size, const unsigned char *build, size_t count)
{
    static const char marks[] = "0123456789abcdef";
    char digits[2 * 64 + 2], *at = digits;
    for (size_t i = 0; i < count && i < 64; i++) {
        *at++ = marks[build[i] >> 4];
        *at++ = marks[build[i] & 15];
        if (i == 0)
            *at++ = '/';
    }
    *at = 0;
    text_join(path, size, DEBUG_FILES "/.build-id/", digits, ".debug", NULL);
}

/* As the file that names a debug file has it: CRC-32. */
static uint32_t checksum_of(const struct view *view)
{
    static uint32_t table[256];
    for (uint32_t i = 0; i < 256; i++) {
        table[i] = i;
        for (int bit = 0; bit < 8; bit++)
            table[i] = table[i] >> 1 ^ (table[i] & 1 ? 0xedb88320u : 0);
    }
    uint32_t sum = ~0u;
    for (size_t i = 0; i < view->size; i++)
        sum = sum >> 8 ^ table[(sum ^ (unsigned char)view->bytes[i]) & 255];
    return ~sum;
}

/* Whether this is the debug file: the one of the same build, or where that isn't told, with this checksum. */
static int is_debug_of(const struct view *debug, const struct view *view, uint32_t checksum)
{
    size_t count = 0, other = 0;
    const unsigned char *build = build_of(view, &count), *its = build_of(debug, &other);
    if (!view_section(debug, SHT_SYMTAB, NULL))
        return 0;
    if (build && its)
        return count == other && memcmp(build, its, count) == 0;
    return checksum_of(debug) == checksum;
}

static int opens_debug(struct view *debug, const char *path, const struct view *view, uint32_t checksum)
{
    if (!view_open(debug, path))
        return 0;
    if (is_debug_of(debug, view, checksum))
        return 1;
    view_close(debug);
    return 0;
}

/* The folder in which a file really lies, with the mark behind it. */
static void folder_of(const struct view *view, const char *path, char *folder, size_t size)
{
    char link[32], digits[DIGITS];
    text_join(link, sizeof link, "/proc/self/fd/", digits_of((uint64_t)view->file, digits), NULL);
    ssize_t length = link_read(link, folder, size - 1);
    if (length > 0)
        folder[length] = 0;
    else
        text_join(folder, size, path, NULL);
    char *last = strrchr(folder, '/');
    last = last ? last + 1 : folder;
    *last = 0;
}

/* By the name that the file tells: beside it, in a folder beside it, and below that of all debug files. */
static int opens_named(struct view *debug, const struct view *view, const char *path)
{
    static char folder[4096], place[2 * 4096]; /* not on the stack, of which a thread may have little */
    const ElfW(Shdr) *section = view_section(view, SHT_PROGBITS, ".gnu_debuglink");
    const char *name = section ? view->bytes + section->sh_offset : NULL;
    size_t length = name ? strnlen(name, section->sh_size) : 0;
    size_t before = (length + 4) / 4 * 4;
    uint32_t checksum;
    if (length == 0 || section->sh_size < before + sizeof checksum)
        return 0;
    memcpy(&checksum, name + before, sizeof checksum);
    folder_of(view, path, folder, sizeof folder);
    text_join(place, sizeof place, folder, name, NULL);
    if (opens_debug(debug, place, view, checksum))
        return 1;
    text_join(place, sizeof place, folder, ".debug/", name, NULL);
    if (opens_debug(debug, place, view, checksum))
        return 1;
    text_join(place, sizeof place, DEBUG_FILES, folder, name, NULL);
    return opens_debug(debug, place, view, checksum);
}

int view_open_debug(struct view *debug, const struct view *view, const char *path)
{
    char place[sizeof DEBUG_FILES + 256];
    size_t count;
    const unsigned char *build = build_of(view, &count);
    if (build) {
        path_of_build(place, sizeof place, build, count);
        if (opens_debug(debug, place, view, 0))
            return 1;
    }
    return opens_named(debug, view, path);
}
