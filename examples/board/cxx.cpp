// What C++ asks of a board that has no C++ library: memory for objects, which a program may have otherwise, and an end
// for a call of a pure virtual function.
#include <new>
#include <stdlib.h>

#define WEAK __attribute__((weak))

static void *taken(size_t size) {
    void *memory = malloc(size ? size : 1);
    if (!memory)
        abort();
    return memory;
}

WEAK void *operator new(size_t size) { return taken(size); }
WEAK void *operator new[](size_t size) { return taken(size); }
WEAK void *operator new(size_t size, const std::nothrow_t &) noexcept { return malloc(size ? size : 1); }
WEAK void *operator new[](size_t size, const std::nothrow_t &) noexcept { return malloc(size ? size : 1); }
WEAK void operator delete(void *memory) noexcept { free(memory); }
WEAK void operator delete[](void *memory) noexcept { free(memory); }
WEAK void operator delete(void *memory, size_t) noexcept { free(memory); }
WEAK void operator delete[](void *memory, size_t) noexcept { free(memory); }
WEAK void operator delete(void *memory, const std::nothrow_t &) noexcept { free(memory); }
WEAK void operator delete[](void *memory, const std::nothrow_t &) noexcept { free(memory); }
const std::nothrow_t std::nothrow;

extern "C" void __cxa_pure_virtual() { abort(); }
