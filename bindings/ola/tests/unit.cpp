// The unit tests of the stand-in, with a heap for the C library that counts blocks. The argument is the length of the
// long test.
#include "checks.hpp"
#include "messages.hpp"

#include <atomic>
#include <cstdlib>
#include <malloc.h>

namespace tests {

std::atomic<std::size_t> blocks = 0;
bool is_heap_full = false;

namespace {

// How many bytes of heap the process uses.
std::size_t heap_bytes() {
    return mallinfo2().uordblks;
}

} // namespace
} // namespace tests

extern "C" {

struct block {
    bool is_there;
    unsigned char *at;
};

static block given(void *at) {
    static unsigned char none;
    return {at != nullptr, at != nullptr ? static_cast<unsigned char *>(at) : &none};
}

block rattle_alloc(std::size_t size, std::size_t align) {
    if (tests::is_heap_full) {
        return given(nullptr);
    }
    tests::blocks++;
    return given(std::malloc(size > 0 ? size : align));
}

block rattle_realloc(unsigned char *at, std::size_t, std::size_t size, std::size_t) {
    return given(tests::is_heap_full ? nullptr : std::realloc(at, size > 0 ? size : 1));
}

void rattle_dealloc(unsigned char *at) {
    tests::blocks--;
    std::free(at);
}
}

int main(int, char **arguments) {
    const unsigned long length = std::strtoul(arguments[1], nullptr, 10);
    tests::keep_messages();
    tests::test_settings();
    tests::test_requests();
    tests::test_statuses();
    tests::test_discoveries();
    tests::test_ends();
    tests::test_stops();
    tests::test_adapters();
    tests::test_lines();
    tests::test_steps();
    tests::test_threads();
    tests::test_wild_layers();
    tests::test_moments();
    tests::test_own();
    tests::test_lost_parts(length / 100);
    tests::forget_messages();
    const std::size_t before = tests::heap_bytes();
    CHECK(tests::blocks == 0);
    tests::test_length(length);
    CHECK(tests::blocks == 0 && tests::heap_bytes() <= before + 1024);
    std::printf("%u passed, %u failed\n", tests::passed, tests::failed);
    return tests::failed > 0;
}
