// What the tests of the log share: a folder, a disk that can be full or slow, and
// a thread without memory.
#ifndef WURSTLINEN_OLA_TESTS_LOG_SUPPORT_HPP
#define WURSTLINEN_OLA_TESTS_LOG_SUPPORT_HPP

#include "../checks.hpp"
#include "../messages.hpp"

#include <atomic>
#include <functional>
#include <string>
#include <vector>

namespace tests {

// What calls of write() do.
struct Disk {
    // Bytes that fit, if it isn't negative. Then it is full: a write takes what fits, and the next one fails.
    std::atomic<long> space{-1};
    // Is called before a write fails.
    std::function<void()> when_full;
    // Each write waits while this is set.
    std::atomic<bool> is_stuck{false};
    std::atomic<unsigned int> writes{0};
};
extern Disk disk;

// Whether allocations fail on all threads except the main one.
extern std::atomic<bool> has_thread_no_memory;

// Whether no thread can be started. Sanitizers start threads themselves.
extern std::atomic<bool> has_no_threads;
#if defined(__SANITIZE_ADDRESS__) || defined(__SANITIZE_THREAD__)
constexpr bool MAY_LACK_THREADS = false;
#else
constexpr bool MAY_LACK_THREADS = true;
#endif

// A new folder, which is removed with what is in it.
class Folder {
public:
    Folder();
    ~Folder();
    std::string path(const std::string &name = "log") const { return path_ + '/' + name; }

private:
    std::string path_;
};

std::string text_of(const std::string &path);
std::vector<std::string> lines_of(const std::string &path);
void write_text(const std::string &path, const std::string &text);
// Waits until this holds, for ten seconds at most.
bool becomes(const std::function<bool()> &holds);
double seconds();

void test_settings();
void test_files();
void test_writers();
void test_runs();

} // namespace tests

#endif
