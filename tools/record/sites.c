/*
 * Sites: where calls come from.
 *
 * A site is a return address. A call from inside a wrapper of the C++ library (std::mutex::lock, lock_guard, ..)
 * stands for the call of the wrapper, so the recorder walks up the stack past wrappers. Wrappers are known by
 * the names of their functions. How far up the stack the next return address lies is the same at each visit of
 * one return address, as wrappers have frames of fixed sizes: it is found once by unwinding and kept.
 */
#define _GNU_SOURCE
#include <dlfcn.h>
#include <elf.h>
#include <fcntl.h>
#include <link.h>
#include <stdio.h>
#include <stdlib.h>
#include <string.h>
#include <sys/auxv.h>
#include <unistd.h>
#include <unwind.h>

#include "confirm.h"
#include "process.h"
#include "view.h"

#define WALK_LIMIT 24

/* --- Modules -------------------------------------------------------------------------------------------- */

struct range {
    uintptr_t start, end;
    int runs_object; /* no wrapper, but what a thread of LLVM's C++ library begins with */
};

struct module {
    uintptr_t bias, start, end;
    int all_wrappers; /* the C++ library itself */
    int gone;         /* unloaded */
    uint64_t seen;    /* the last look that found it */
    struct range *wrappers;
    size_t wrapper_count, wrapper_room;
    char path[1024];
};

/* Kept over forks: a child has the same modules. `process.modules` counts those in this process's file. One that was
 * unloaded stays until another one has its place, so a program may load and unload as often as it likes. */
#define MODULE_LIMIT 2048
static struct module *modules[MODULE_LIMIT];
static size_t module_count;

/* Is called in slow parts and outside of them. */
static struct module *module_of(uintptr_t address)
{
    for (size_t i = __atomic_load_n(&module_count, __ATOMIC_ACQUIRE); i-- > 0;)
        if (!__atomic_load_n(&modules[i]->gone, __ATOMIC_ACQUIRE) && address >= modules[i]->start &&
            address < modules[i]->end)
            return modules[i];
    return NULL;
}

/* --- Wrappers by name ------------------------------------------------------------------------------------- */

static int contains(const char *name, size_t length, const char *part)
{
    return memmem(name, length, part, strlen(part)) != NULL;
}

/* One part of a mangled name: its length in decimal, then the name. Gives the end of the part, or NULL. */
static const char *name_part(const char *at, const char **name, size_t *length)
{
    size_t value = 0;
    const char *digit = at;
    while (*digit >= '0' && *digit <= '9' && value < 10000)
        value = 10 * value + (size_t)(*digit++ - '0');
    if (digit == at || strnlen(digit, value) < value)
        return NULL;
    *name = digit;
    *length = value;
    return digit + value;
}

static int is_inner_namespace(const char *name, size_t length)
{
    return (length == 3 && memcmp(name, "_V2", 3) == 0) || (length == 3 && memcmp(name, "__1", 3) == 0) ||
           (length == 8 && memcmp(name, "__detail", 8) == 0) || (length == 7 && memcmp(name, "__cxx11", 7) == 0);
}

/* What is behind this front of a text, or NULL. */
static const char *behind(const char *text, const char *front)
{
    size_t length = strlen(front);
    return strncmp(text, front, length) == 0 ? text + length : NULL;
}

/* Whether the arguments of a template begin with a lock holder or thread of the C++ library, or an allocator of such:
 * then it makes one, as make_unique and emplace_back do, and none of the program's functions is a part of it. (LLVM's
 * library has them in a namespace that was named before.) */
static int is_of_holders(const char *arguments)
{
    static const char *const holders[] = {"10lock_guardI",  "11unique_lockI", "11shared_lockI",
                                          "11scoped_lockI", "6thread",        "7jthread"};
    static const char *const allocators[] = {"SaI", "NS_9allocatorI"}, *const spaces[] = {"St", "NS_"};
    if (*arguments++ != 'I')
        return 0;
    for (size_t library = 0; library < 2; library++) {
        const char *inner = behind(arguments, allocators[library]);
        const char *name = behind(inner ? inner : arguments, spaces[library]);
        for (size_t i = 0; name && i < sizeof holders / sizeof *holders; i++)
            if (behind(name, holders[i]))
                return 1;
    }
    return 0;
}

/* Of std::thread only what makes or joins threads is a wrapper: the rest runs the program's functions. */
static int is_thread_wrapper(const char *rest)
{
    return strncmp(rest, "C1", 2) == 0 || strncmp(rest, "C2", 2) == 0 || strncmp(rest, "4join", 5) == 0 ||
           strncmp(rest, "15_M_start_thread", 17) == 0;
}

/* What the C++ library's threads begin with. */
#define THREAD_ROUTINE "execute_native_thread_routine"

/* What ThreadSanitizer, where Clang links it into the program, has around a wait for a condition. */
static int is_of_wait(const char *symbol)
{
    static const char own[] = "_ZN6__tsan", waits[] = "_ZZ9cond_waitIZ";
    return strncmp(symbol, own, sizeof own - 1) == 0 || strncmp(symbol, waits, sizeof waits - 1) == 0;
}

/* What a sanitizer that Clang links into the program has before the functions of the C library: two underscores or
 * more, and then this. */
static int is_interceptor_name(const char *symbol)
{
    static const char mark[] = "interceptor_";
    size_t front = strspn(symbol, "_");
    return (front >= 2 && strncmp(symbol + front, mark, sizeof mark - 1) == 0) || is_of_wait(symbol);
}

/* A scoped_lock of several locks gives them up in a lambda, which functions of the library run that are made for it. */
static int is_of_scoped_lock(const char *symbol)
{
    static const char mark[] = "ZNSt11scoped_lockI";
    const char *found = strncmp(symbol, "_ZSt", 4) == 0 ? strstr(symbol, mark) : symbol + 2;
    return strncmp(symbol, "_Z", 2) == 0 && found && strncmp(found, mark, sizeof mark - 1) == 0;
}

static int is_wrapper_name(const char *symbol)
{
    if ((strncmp(symbol, "_ZL", 3) == 0 && strstr(symbol, "__gthread_")) || strcmp(symbol, THREAD_ROUTINE) == 0)
        return 1;
    if (is_interceptor_name(symbol) || is_of_scoped_lock(symbol))
        return 1;
    const char *at = symbol;
    if (strncmp(at, "_ZN", 3) == 0)
        at += at[3] == 'K' ? 4 : 3;
    else if (strncmp(at, "_Z", 2) == 0)
        at += 2;
    else
        return 0;
    static const char extensions[] = "9__gnu_cxx";
    if (strncmp(at, "St", 2) == 0)
        at += at[2] == 'L' ? 3 : 2; /* L: not visible to other modules */
    else if (strncmp(at, extensions, sizeof extensions - 1) == 0)
        at += sizeof extensions - 1;
    else
        return 0;
    const char *name;
    size_t length;
    do {
        at = name_part(at, &name, &length);
    } while (at && is_inner_namespace(name, length));
    if (!at)
        return 0;
    if (length == 6 && memcmp(name, "thread", 6) == 0)
        return is_thread_wrapper(at);
    return contains(name, length, "mutex") || contains(name, length, "lock") || contains(name, length, "call_once") ||
           contains(name, length, "condition_variable") || (length == 7 && memcmp(name, "jthread", 7) == 0) ||
           behind(name, "__libcpp_") || is_of_holders(at);
}

/* What threads of LLVM's C++ library begin with. The program's function may be a part of it. */
static int is_routine_name(const char *symbol)
{
    return behind(symbol, "_ZNSt3__114__thread_proxy") != NULL;
}

/* --- Wrappers of a module --------------------------------------------------------------------------------- */

/* Collects the wrappers among the symbols of one table; counts them only where `ranges` is NULL. */
static size_t wrappers_among(const struct view *file, const ElfW(Shdr) * table, const ElfW(Shdr) * strings,
                             uintptr_t bias, struct range *ranges)
{
    const ElfW(Sym) *symbols = (const ElfW(Sym) *)(file->bytes + table->sh_offset);
    const char *names = file->bytes + strings->sh_offset;
    size_t found = 0;
    for (size_t i = 0; i < table->sh_size / sizeof *symbols; i++) {
        const ElfW(Sym) *symbol = &symbols[i];
        if (ELF64_ST_TYPE(symbol->st_info) != STT_FUNC || symbol->st_size == 0 || symbol->st_name >= strings->sh_size)
            continue;
        int runs_object = is_routine_name(names + symbol->st_name);
        if (!runs_object && !is_wrapper_name(names + symbol->st_name))
            continue;
        uintptr_t start = bias + symbol->st_value;
        if (ranges)
            ranges[found] = (struct range){start, start + symbol->st_size, runs_object};
        found++;
    }
    return found;
}

/* That of the module before in this place, if there are as many: another thread may still be reading it. */
static struct range *wrappers_room(struct module *module, size_t count)
{
    if (count > module->wrapper_room) {
        struct range *ranges = pages_new(count * sizeof *ranges);
        if (!ranges)
            return NULL;
        module->wrappers = ranges;
        module->wrapper_room = count;
    }
    return module->wrappers;
}

/* Whether the file has symbols. */
static int module_read_wrappers(struct module *module, const struct view *file)
{
    const ElfW(Shdr) *table = view_section(file, SHT_SYMTAB, NULL);
    const ElfW(Shdr) *strings = table ? view_linked(file, table) : NULL;
    if (!strings)
        return 0;
    size_t count = wrappers_among(file, table, strings, module->bias, NULL);
    struct range *ranges = wrappers_room(module, count);
    if (ranges) {
        wrappers_among(file, table, strings, module->bias, ranges);
        module->wrapper_count = count;
    }
    return 1;
}

static void module_find_wrappers(struct module *module, const char *path)
{
    struct view file, debug;
    if (!view_open(&file, path))
        return;
    if (!module_read_wrappers(module, &file) && view_open_debug(&debug, &file, module->path)) {
        module_read_wrappers(module, &debug);
        view_close(&debug);
    }
    view_close(&file);
}

/* That of a module in which an address lies, or NULL. */
static const struct range *range_of(const struct module *module, uintptr_t address)
{
    for (size_t i = 0; i < module->wrapper_count; i++)
        if (address >= module->wrappers[i].start && address < module->wrappers[i].end)
            return &module->wrappers[i];
    return NULL;
}

static int is_wrapper(uintptr_t return_address)
{
    uintptr_t address = return_address - 1;
    struct module *module = module_of(address);
    if (!module || module->all_wrappers)
        return module != NULL;
    const struct range *range = range_of(module, address);
    return range && !range->runs_object;
}

/* --- Finding modules -------------------------------------------------------------------------------------- */

static int module_describe(const struct module *module)
{
    struct module_record *record = record_new(RECORD_MODULE, sizeof *record + strlen(module->path) + 1);
    if (!record)
        return 0;
    record->bias = module->bias;
    record->start = module->start;
    record->end = module->end;
    strcpy(record->path, module->path);
    record_done(record);
    return 1;
}

static char program_path[1024];

void program_find(void)
{
    const char *path = (const char *)getauxval(AT_EXECFN);
    if (program_path[0] || !path)
        return;
    size_t length = 0;
    if (path[0] != '/' && getcwd(program_path, sizeof program_path / 2)) {
        length = strlen(program_path);
        program_path[length++] = '/';
    }
    snprintf(program_path + length, sizeof program_path - length, "%s", path);
}

/* The path that stands in this line of /proc/self/maps, if it is of what is mapped at this address. */
static const char *path_in_line(const char *line, uintptr_t start)
{
    return strtoull(line, NULL, 16) == start ? strchr(line, '/') : NULL;
}

/* The whole path of what is mapped at this address; whether it could be told. Called in slow parts alone. */
static int path_mapped(uintptr_t start, char *path, size_t size)
{
    static char text[2 * 4096 + 256]; /* not on the stack, of which a thread may have little */
    int file = open("/proc/self/maps", O_RDONLY | O_CLOEXEC);
    const char *found = NULL;
    size_t kept = 0;
    ssize_t length;
    while (file >= 0 && !found && (length = bytes_read(file, text + kept, sizeof text - 1 - kept)) > 0) {
        char *line = text, *end;
        text[kept + (size_t)length] = 0;
        for (; !found && (end = strchr(line, '\n')) != NULL; line = end + 1) {
            *end = 0;
            found = path_in_line(line, start);
        }
        if (found)
            text_join(path, size, found, NULL);
        kept = strlen(line);
        memmove(text, line, kept);
    }
    if (file >= 0)
        close(file);
    return found != NULL;
}

/* What the loader was given may be relative to a folder in which the process, or who reads this, isn't any more. Gives
 * the path by which the file is read. */
static const char *library_file(struct module *module, const char *name)
{
    if (name[0] == '/' || !strchr(name, '/') || !path_mapped(module->start, module->path, sizeof module->path))
        text_join(module->path, sizeof module->path, name, NULL);
    return module->path;
}

/* Where the loader was run as a program, with the program as its argument, the system takes the loader for the program.
 * It then has told the loader of no other one. */
static int is_run_by_loader(void)
{
    return getauxval(AT_BASE) == 0;
}

static const char *program_file(struct module *module)
{
    static const char program[] = "/proc/self/exe"; /* is there also where the file was deleted */
    ssize_t length = is_run_by_loader() ? 0 : link_read(program, module->path, sizeof module->path - 1);
    if (length > 0) {
        module->path[length] = 0;
        return program;
    }
    if (!path_mapped(module->start, module->path, sizeof module->path))
        text_join(module->path, sizeof module->path, program_path, NULL);
    return module->path;
}

static void module_forget(struct module *module);

/* Where a new module lies no other one is any more: the C library unloads some by itself. Locks that were met there
 * since are the new one's. */
static void modules_forget_within(uintptr_t start, uintptr_t end)
{
    for (size_t i = 0; i < module_count; i++)
        if (!modules[i]->gone && modules[i]->start < end && start < modules[i]->end)
            module_forget(modules[i]);
}

/* The place of one that was unloaded, else a new one behind all others; MODULE_LIMIT where there is none. */
static size_t module_place(void)
{
    for (size_t i = 0; i < module_count; i++)
        if (modules[i]->gone)
            return i;
    if (module_count < MODULE_LIMIT)
        modules[module_count] = pages_new(sizeof *modules[0]);
    return module_count < MODULE_LIMIT && modules[module_count] ? module_count : MODULE_LIMIT;
}

static void module_fill(struct module *module, const struct dl_phdr_info *info, uintptr_t start, uintptr_t end)
{
    module->bias = info->dlpi_addr;
    module->start = start;
    module->end = end;
    module->wrapper_count = 0;
    int is_program = !info->dlpi_name || !info->dlpi_name[0];
    const char *file = is_program ? program_file(module) : library_file(module, info->dlpi_name);
    const char *base = strrchr(module->path, '/');
    base = base ? base + 1 : module->path;
    module->all_wrappers = strncmp(base, "libstdc++.so", 12) == 0 || strncmp(base, "libc++.so", 9) == 0;
    if (!module->all_wrappers)
        module_find_wrappers(module, file);
}

/* One in the place of another one is told at once, as that one was. */
static void module_add(const struct dl_phdr_info *info, uintptr_t start, uintptr_t end, uint64_t look)
{
    modules_forget_within(start, end);
    size_t place = module_place();
    if (place == MODULE_LIMIT)
        return;
    struct module *module = modules[place];
    module_fill(module, info, start, end);
    module->seen = look;
    __atomic_store_n(&module->gone, 0, __ATOMIC_RELEASE);
    if (place < process.modules)
        module_describe(module);
    if (place == module_count)
        __atomic_store_n(&module_count, module_count + 1, __ATOMIC_RELEASE);
}

/* The range of addresses that a module's parts lie in; whether there is one. */
static int module_range(const struct dl_phdr_info *info, uintptr_t *start, uintptr_t *end)
{
    *start = UINTPTR_MAX, *end = 0;
    for (unsigned i = 0; i < info->dlpi_phnum; i++) {
        const ElfW(Phdr) *part = &info->dlpi_phdr[i];
        if (part->p_type != PT_LOAD)
            continue;
        uintptr_t from = info->dlpi_addr + part->p_vaddr;
        if (from < *start)
            *start = from;
        if (from + part->p_memsz > *end)
            *end = from + part->p_memsz;
    }
    return *end != 0;
}

static int module_visit(struct dl_phdr_info *info, size_t size, void *value)
{
    uint64_t look = *(uint64_t *)value;
    struct slow_state state;
    uintptr_t start, end;
    (void)size;
    if (!module_range(info, &start, &end))
        return 0;
    slow_enter(&state);
    struct module *known = module_of(start);
    if (!known || known->start != start || known->end != end || known->bias != info->dlpi_addr)
        module_add(info, start, end, look);
    else if (known->seen < look)
        known->seen = look;
    slow_leave(&state);
    return 0;
}

/* Makes all modules known that there are; gives the number of this look. While it visits them nobody else may: a
 * callback of the program's that visits them, too, may wait for the end of a slow part. So this isn't called in slow
 * parts, but has some itself. */
static uint64_t modules_look(void)
{
    static uint64_t looks;
    uint64_t look = __atomic_add_fetch(&looks, 1, __ATOMIC_RELAXED);
    uint64_t signals;
    visit_begin(&signals);
    dl_iterate_phdr(module_visit, &look);
    visit_end(&signals);
    return look;
}

void modules_meet(void)
{
    if (!slow_inside() && process_ready())
        modules_look();
}

/* What lies nowhere in a module, as in the heap, is found out without a visit by the C library of 2022 and later. Of an
 * earlier one `otherwise` is the answer. */
static int is_in_some_module(uintptr_t address, int otherwise)
{
#ifdef DLFO_STRUCT_HAS_EH_DBASE
    struct dl_find_object found;
    (void)otherwise;
    return _dl_find_object((void *)address, &found) == 0;
#else
    (void)address;
    return otherwise;
#endif
}

int module_meet(uintptr_t address, int otherwise)
{
    if (!module_of(address) && is_in_some_module(address, otherwise))
        modules_look();
    return module_of(address) != NULL;
}

void modules_tell(void)
{
    while (process.modules < module_count) {
        struct module *module = modules[process.modules];
        if (!module->gone && !module_describe(module))
            return;
        process.modules++;
    }
}

/* The module that holds an address, if it was met. All that are known are written to this process's file. */
static struct module *module_known(uintptr_t address)
{
    modules_tell();
    return module_of(address);
}

int in_compiler_module(uint64_t address)
{
    struct module *module = module_known(address);
    const char *base = module ? strrchr(module->path, '/') : NULL;
    int own = module && module == module_known((uintptr_t)&process); /* has a copy of it */
    return own || (base && strncmp(base, "/libgcc_s.so", 12) == 0);
}

/* --- Unloading -------------------------------------------------------------------------------------------- */

/* Counts unloads: sites of several callers from before are other ones. */
static uint64_t unloads;

static void sites_end(const struct module *module)
{
    for (unsigned level = 0; level < TABLE_LEVELS && process.sites.levels[level]; level++)
        for (size_t i = 0; i < (size_t)1 << (TABLE_FIRST_BITS + 2 * level); i++) {
            struct slot *slot = &process.sites.levels[level][i];
            if (slot->key >= module->start && slot->key <= module->end)
                __atomic_store_n(&slot->value, 0, __ATOMIC_RELEASE);
        }
}

static void module_forget(struct module *module)
{
    struct unloaded_record *record = record_new(RECORD_UNLOADED, sizeof *record);
    if (record) {
        record->start = module->start;
        record_done(record);
    }
    module->gone = 1;
    unloads++;
    sites_end(module);
    __atomic_fetch_add(&process.generation, 1, __ATOMIC_RELEASE);
}

static void module_end(struct module *module)
{
    module_forget(module);
    memory_end_inside(module->start, module->end);
}

void modules_check(void)
{
    struct slow_state state;
    uint64_t look = modules_look();
    slow_enter(&state);
    modules_tell();
    for (size_t i = 0; i < module_count; i++)
        if (!modules[i]->gone && modules[i]->seen < look)
            module_end(modules[i]);
    slow_leave(&state);
}

/* Also where that library is linked into the program: no other wrapper there is a start routine. */
int runs_object(uint64_t routine)
{
    struct module *module = module_known(routine);
    return module && (module->all_wrappers || range_of(module, routine));
}

/* --- Walking ---------------------------------------------------------------------------------------------- */

struct walk {
    uintptr_t wanted; /* the frame that returns here is the first one asked for */
    size_t count;
    uintptr_t addresses[WALK_LIMIT];
    uintptr_t stacks[WALK_LIMIT];
    uint32_t interrupted; /* a bit for each frame that a signal interrupted: what called it may be on another stack */
};

static _Unwind_Reason_Code walk_step(struct _Unwind_Context *context, void *value)
{
    struct walk *walk = value;
    int interrupted = 0;
    uintptr_t address = _Unwind_GetIPInfo(context, &interrupted);
    if (walk->count == 0 && address != walk->wanted)
        return _URC_NO_REASON;
    if (walk->count == WALK_LIMIT || address == 0)
        return _URC_END_OF_STACK;
    walk->addresses[walk->count] = address;
    walk->stacks[walk->count] = _Unwind_GetCFA(context);
    walk->interrupted |= (uint32_t)(interrupted != 0) << walk->count;
    walk->count++;
    return _URC_NO_REASON;
}

static void walk_from(struct walk *walk, uintptr_t return_address)
{
    walk->wanted = return_address;
    walk->count = 0;
    walk->interrupted = 0;
    _Unwind_Backtrace(walk_step, walk);
}

/* The same, outside of a slow part: the modules of all addresses are met then. */
static void walk_and_meet(struct walk *walk, uintptr_t return_address)
{
    struct slow_state state;
    slow_enter(&state);
    walk_from(walk, return_address);
    slow_leave(&state);
    module_meet(return_address, 1);
    for (size_t i = 0; i < walk->count; i++)
        module_meet(walk->addresses[i], 1);
}

static _Unwind_Reason_Code walk_stop(struct _Unwind_Context *context, void *unused)
{
    (void)context, (void)unused;
    return _URC_END_OF_STACK;
}

/* The recorder has an unwinder of its own, which is ready after its first walk. Were it not, a thread that is
 * cancelled, or an exception, could not go past a wrapper that has something to do then: the program would be aborted.
 */
void unwinder_start(void)
{
    _Unwind_Backtrace(walk_stop, NULL);
}

/* --- Sites ------------------------------------------------------------------------------------------------ */

static uint32_t site_new(struct slot *slot, const uintptr_t *callers, size_t count)
{
    for (size_t i = 0; i < count; i++)
        module_known(callers[i]); /* its record stands before the site's */
    struct site_record *record = NULL;
    if (process.next_site < SITE_LIMIT)
        record = record_new(RECORD_SITE, sizeof *record + count * sizeof callers[0]);
    if (!record) {
        loss_begins();
        count_loss(&process.losses->places);
        __atomic_store_n(&slot->value, SITE_PLAIN, __ATOMIC_RELEASE);
        return 0;
    }
    record->site = process.next_site++;
    for (size_t i = 0; i < count; i++)
        record->callers[i] = callers[i];
    record_done(record);
    struct module *module = confirming ? module_of(callers[0] - 1) : NULL;
    if (module)
        confirm_site(record->site, module->path, callers[0] - 1 - module->bias);
    __atomic_store_n(&slot->value, SITE_PLAIN | record->site, __ATOMIC_RELEASE);
    return (uint32_t)record->site;
}

#ifdef __x86_64__
/* Room for callers, which is never given back, and which a forked child has too. */
static void *callers_room(size_t bytes)
{
    static char *room;
    static size_t left;
    if (bytes > left) {
        room = pages_new(16 * CHUNK_UNIT);
        left = room ? 16 * CHUNK_UNIT : 0;
    }
    if (bytes > left)
        return NULL;
    left -= bytes;
    room += bytes;
    return room - bytes;
}

/* The distance to the caller's stack pointer if this is a call inside a wrapper, else 0. */
static uint64_t step_of(uintptr_t return_address, uintptr_t stack)
{
    struct walk walk;
    if (!module_known(return_address) || !is_wrapper(return_address))
        return 0;
    walk_from(&walk, return_address);
    if (walk.count < 2 || walk.stacks[0] != stack || walk.stacks[1] <= stack ||
        ((uintptr_t *)walk.stacks[1])[-1] != walk.addresses[1])
        return 0;
    return walk.stacks[1] - stack;
}

static uint64_t site_value_new(uintptr_t return_address, uintptr_t stack)
{
    struct slow_state state;
    module_meet(return_address, 1);
    slow_enter(&state);
    struct slot *slot = table_place(&process.sites, return_address);
    uint64_t value = slot ? slot->value : SITE_PLAIN;
    if (value == 0) {
        value = step_of(return_address, stack);
        if (value)
            __atomic_store_n(&slot->value, value, __ATOMIC_RELEASE);
        else
            value = SITE_PLAIN | site_new(slot, &return_address, 1);
    }
    slow_leave(&state);
    return value;
}

/* The callers that lead to a site, as they are kept: one row for each site and first return address. */
static const struct callers *callers_known(uint32_t site, uintptr_t return_address, const struct caller *further,
                                           size_t count)
{
    uint64_t key = mix(return_address) ^ site;
    struct slot *slot = table_find(&process.callers, key);
    const struct callers *known = slot ? (const struct callers *)__atomic_load_n(&slot->value, __ATOMIC_ACQUIRE) : NULL;
    if (known || site == 0 || count == 0)
        return known;
    struct slow_state state;
    slow_enter(&state);
    slot = table_place(&process.callers, key);
    size_t bytes = sizeof *known + count * sizeof *further;
    if (slot && !slot->value) {
        struct callers *made = callers_room(bytes);
        if (made) {
            made->count = count;
            made->distance = 0;
            for (size_t i = 0; process.frames > 1 && i < count; i++)
                made->distance += further[i].step;
            memcpy(made->further, further, count * sizeof *further);
            __atomic_store_n(&slot->value, (uint64_t)(uintptr_t)made, __ATOMIC_RELEASE);
        }
    }
    known = slot ? (const struct callers *)slot->value : NULL;
    slow_leave(&state);
    return known;
}

static uint32_t site_single(uintptr_t return_address, uintptr_t stack, const struct callers **callers)
{
    struct caller further[WALK_LIMIT];
    uintptr_t first = return_address;
    for (unsigned i = 0; i < WALK_LIMIT; i++) {
        struct slot *slot = table_find(&process.sites, return_address);
        uint64_t value = slot ? __atomic_load_n(&slot->value, __ATOMIC_ACQUIRE) : 0;
        if (value == 0)
            value = site_value_new(return_address, stack);
        if (value & SITE_PLAIN) {
            *callers = callers_known((uint32_t)value, first, further, i);
            return (uint32_t)value;
        }
        stack += value;
        return_address = ((uintptr_t *)stack)[-1];
        further[i] = (struct caller){return_address, value};
    }
    return 0;
}
#endif

/*
 * Sites of several callers, and of machines where return addresses don't lie at the ends of frames: the stack is
 * unwound. The site's key is a mix of its addresses, told from a single address by its top bit.
 *
 * Unwinding is slow, so the table of sites also has what was found at each return address: how far up the next one
 * lies, and whether this is a call inside a wrapper. Following these steps leads to a site that is known, or the stack
 * is unwound again. An address at which two distances were found (of a function whose frame has no fixed size) is never
 * used so, nor is a frame that a signal interrupted. No step leads out of the thread's own stack: who comes there with
 * a frame of another size than before may have less stack above than the step is long. On another stack, of which
 * nobody knows where it ends, each call is unwound.
 */
#define STEP_KNOWN 1u
#define STEP_WRAPPER 2u
#define STEP_LAST 4u
#define STEP_VARIES 8u
#define STEP_SHIFT 8
#define STEP_LIMIT (1u << 20)

static uint64_t key_of_walk(uint64_t key, uintptr_t address)
{
    return mix(key + address);
}

#ifdef __x86_64__
static uint32_t site_of_steps(uintptr_t return_address, uintptr_t stack, const struct callers **callers)
{
    struct caller further[WALK_LIMIT];
    uintptr_t first = return_address;
    uint64_t key = unloads;
    unsigned count = 0;
    for (unsigned i = 0; i < WALK_LIMIT; i++) {
        struct slot *slot = table_find(&process.sites, return_address);
        uint64_t value = slot ? __atomic_load_n(&slot->value, __ATOMIC_ACQUIRE) : 0;
        if (!(value & STEP_KNOWN) || value & STEP_VARIES)
            return 0;
        if (count > 0 || !(value & STEP_WRAPPER)) {
            key = key_of_walk(key, return_address);
            count++;
        }
        if (count == process.frames || value & STEP_LAST) {
            slot = table_find(&process.sites, key | 1ull << 63);
            uint32_t site = slot ? (uint32_t)__atomic_load_n(&slot->value, __ATOMIC_ACQUIRE) : 0;
            *callers = callers_known(site, first, further, i);
            return site;
        }
        uint64_t step = value >> STEP_SHIFT;
        if (step > stack_above(current_thread, stack))
            return 0;
        stack += step;
        return_address = ((uintptr_t *)stack)[-1];
        further[i] = (struct caller){return_address, step};
    }
    return 0;
}

/* Keeps the steps of a walk. */
static void steps_learn(const struct walk *walk)
{
    for (size_t i = 0; i < walk->count; i++) {
        uintptr_t address = walk->addresses[i];
        uint64_t value = STEP_KNOWN | (is_wrapper(address) ? STEP_WRAPPER : 0);
        uint64_t step = i + 1 < walk->count ? walk->stacks[i + 1] - walk->stacks[i] : 0;
        if (i + 1 == walk->count)
            value |= walk->count < WALK_LIMIT ? STEP_LAST : STEP_VARIES;
        else if (step == 0 || step > STEP_LIMIT || walk->interrupted >> i & 3 ||
                 ((uintptr_t *)walk->stacks[i + 1])[-1] != walk->addresses[i + 1])
            value |= STEP_VARIES;
        else
            value |= step << STEP_SHIFT;
        struct slot *slot = table_place(&process.sites, address);
        if (slot && slot->value && slot->value != value)
            value = STEP_KNOWN | STEP_VARIES;
        int varies_now = slot && slot->value && slot->value != value;
        if (slot)
            __atomic_store_n(&slot->value, value, __ATOMIC_RELEASE);
        if (varies_now)
            __atomic_fetch_add(&process.generation, 1, __ATOMIC_RELEASE);
    }
}
#endif

static uint32_t site_of_walk(uintptr_t return_address)
{
    struct slow_state state;
    struct walk walk;
    walk_and_meet(&walk, return_address);
    slow_enter(&state);
    size_t first = 0;
    while (first < walk.count && module_known(walk.addresses[first]) && is_wrapper(walk.addresses[first]))
        first++;
    if (first == walk.count) {
        first = 0;
        walk.count = 1;
        walk.addresses[0] = return_address;
    }
    size_t count = 0;
    uint64_t key = unloads;
    for (; count < process.frames && first + count < walk.count; count++)
        key = key_of_walk(key, walk.addresses[first + count]);
    struct slot *slot = table_place(&process.sites, key | 1ull << 63);
    uint32_t site = 0;
    if (slot)
        site = slot->value ? (uint32_t)slot->value : site_new(slot, &walk.addresses[first], count);
#ifdef __x86_64__
    steps_learn(&walk);
#endif
    slow_leave(&state);
    return site;
}

uint32_t site_slow(uintptr_t return_address, uintptr_t stack, const struct callers **callers)
{
    *callers = NULL;
#ifdef __x86_64__
    if (process.frames == 1)
        return site_single(return_address, stack, callers);
    uint32_t site = site_of_steps(return_address, stack, callers);
    if (site)
        return site;
#else
    (void)stack;
#endif
    return site_of_walk(return_address);
}

size_t stack_copy(uintptr_t return_address, uint64_t *addresses, size_t most)
{
    struct slow_state state;
    struct walk walk;
    walk_and_meet(&walk, return_address);
    slow_enter(&state);
    size_t count = 0, first = 0;
    while (first < walk.count && module_known(walk.addresses[first]) && is_wrapper(walk.addresses[first]))
        first++;
    for (; count < most && first + count < walk.count; count++) {
        addresses[count] = walk.addresses[first + count];
        module_known(addresses[count]);
    }
    slow_leave(&state);
    return count;
}
