// A library with operators new and delete of its own, over memory of its own. With BLOCKS it has malloc and free as well,
// which its operators don't call, as an allocator has them.
#include <cstddef>
#include <cstdlib>
#include <cstring>
#include <new>
#include <sys/mman.h>

namespace {

struct alignas(64) Head {
    std::size_t bytes;
    Head *next;
};

const std::size_t CLASSES = 1024, ROOM = 1 << 20;
char *room;
std::size_t used;
Head *given_back[CLASSES]; // by size: what was given back last is given out first

// As an allocator begins, which takes more and gives the rest back. Whoever comes back here meanwhile would find it locked.
void begin()
{
    static bool has_begun;
    if (has_begun)
        std::abort();
    has_begun = true;
    void *pages = mmap(nullptr, 2 * ROOM, PROT_READ | PROT_WRITE, MAP_PRIVATE | MAP_ANONYMOUS, -1, 0);
    munmap(static_cast<char *>(pages) + ROOM, ROOM);
    room = static_cast<char *>(pages);
}

void *give_out(std::size_t bytes)
{
    const std::size_t size = (bytes + sizeof(Head) - 1) / sizeof(Head);
    if (size < CLASSES && given_back[size] != nullptr) {
        Head *head = given_back[size];
        given_back[size] = head->next;
        return head + 1;
    }
    if (room == nullptr)
        begin();
    if (size >= CLASSES || ROOM - used < (size + 1) * sizeof(Head))
        return nullptr;
    Head *head = new (room + used) Head{size * sizeof(Head), nullptr};
    used += (size + 1) * sizeof(Head);
    return head + 1;
}

void give_back(void *block)
{
    if (block == nullptr)
        return;
    Head *head = static_cast<Head *>(block) - 1;
    head->next = given_back[head->bytes / sizeof(Head)];
    given_back[head->bytes / sizeof(Head)] = head;
}

void *give_out_or_throw(std::size_t bytes)
{
    void *block = give_out(bytes);
    if (block == nullptr)
        throw std::bad_alloc();
    return block;
}

} // namespace

// clang-format off
void *operator new(std::size_t bytes) { return give_out_or_throw(bytes); }
void *operator new[](std::size_t bytes) { return give_out_or_throw(bytes); }
void *operator new(std::size_t bytes, const std::nothrow_t &) noexcept { return give_out(bytes); }
void *operator new[](std::size_t bytes, const std::nothrow_t &) noexcept { return give_out(bytes); }
void *operator new(std::size_t bytes, std::align_val_t) { return give_out_or_throw(bytes); }
void *operator new[](std::size_t bytes, std::align_val_t) { return give_out_or_throw(bytes); }
void *operator new(std::size_t bytes, std::align_val_t, const std::nothrow_t &) noexcept { return give_out(bytes); }
void *operator new[](std::size_t bytes, std::align_val_t, const std::nothrow_t &) noexcept { return give_out(bytes); }
void operator delete(void *block) noexcept { give_back(block); }
void operator delete[](void *block) noexcept { give_back(block); }
void operator delete(void *block, std::size_t) noexcept { give_back(block); }
void operator delete[](void *block, std::size_t) noexcept { give_back(block); }
void operator delete(void *block, const std::nothrow_t &) noexcept { give_back(block); }
void operator delete[](void *block, const std::nothrow_t &) noexcept { give_back(block); }
void operator delete(void *block, std::align_val_t) noexcept { give_back(block); }
void operator delete[](void *block, std::align_val_t) noexcept { give_back(block); }
void operator delete(void *block, std::size_t, std::align_val_t) noexcept { give_back(block); }
void operator delete[](void *block, std::size_t, std::align_val_t) noexcept { give_back(block); }
void operator delete(void *block, std::align_val_t, const std::nothrow_t &) noexcept { give_back(block); }
void operator delete[](void *block, std::align_val_t, const std::nothrow_t &) noexcept { give_back(block); }
// clang-format on

#ifdef BLOCKS

extern "C" {

std::size_t malloc_usable_size(void *block)
{
    return block == nullptr ? 0 : (static_cast<Head *>(block) - 1)->bytes;
}

void *malloc(std::size_t bytes)
{
    return give_out(bytes);
}

void free(void *block)
{
    give_back(block);
}

void *calloc(std::size_t count, std::size_t bytes)
{
    void *block = give_out(count * bytes);
    return block == nullptr ? nullptr : std::memset(block, 0, count * bytes);
}

void *realloc(void *block, std::size_t bytes)
{
    const std::size_t old_bytes = malloc_usable_size(block);
    void *moved = give_out(bytes);
    if (moved != nullptr && block != nullptr)
        std::memcpy(moved, block, old_bytes < bytes ? old_bytes : bytes);
    if (moved != nullptr)
        give_back(block);
    return moved;
}
}

#endif
