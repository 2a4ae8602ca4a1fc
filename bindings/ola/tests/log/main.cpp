// The tests of the settings, the messages and the log's writer, on a disk that can be full or slow.
#include "support.hpp"

#include <algorithm>
#include <cerrno>
#include <chrono>
#include <cstdio>
#include <cstdlib>
#include <dlfcn.h>
#include <fstream>
#include <new>
#include <pthread.h>
#include <sstream>
#include <sys/syscall.h>
#include <thread>
#include <unistd.h>

namespace tests {

Disk disk;
std::atomic<bool> has_thread_no_memory{false};
std::atomic<bool> has_no_threads{false};

namespace {

constexpr double MOST_SECONDS = 10;
const std::thread::id main_thread = std::this_thread::get_id();

} // namespace

Folder::Folder() {
    char name[] = "/tmp/wurstlinen.XXXXXX";
    path_ = mkdtemp(name) != nullptr ? name : "";
}

Folder::~Folder() {
    if (std::system(("rm -rf '" + path_ + "'").c_str()) != 0) {
        std::printf("%s can't be removed\n", path_.c_str());
    }
}

std::string text_of(const std::string &path) {
    std::ifstream file(path);
    std::ostringstream text;
    text << file.rdbuf();
    return text.str();
}

std::vector<std::string> lines_of(const std::string &path) {
    std::ifstream file(path);
    std::vector<std::string> lines;
    for (std::string line; std::getline(file, line);) {
        lines.push_back(line);
    }
    return lines;
}

void write_text(const std::string &path, const std::string &text) { std::ofstream(path) << text; }

double seconds() {
    const auto now = std::chrono::steady_clock::now().time_since_epoch();
    return std::chrono::duration<double>(now).count();
}

bool becomes(const std::function<bool()> &holds) {
    const double end = seconds() + MOST_SECONDS;
    while (!holds() && seconds() < end) {
        std::this_thread::sleep_for(std::chrono::milliseconds(1));
    }
    return holds();
}

} // namespace tests

#if !defined(__SANITIZE_ADDRESS__) && !defined(__SANITIZE_THREAD__)
// In place of the system's.
extern "C" int pthread_create(pthread_t *thread, const pthread_attr_t *how, void *(*run)(void *),
                              void *argument) noexcept {
    static const auto own = reinterpret_cast<decltype(&pthread_create)>(dlsym(RTLD_NEXT, "pthread_create"));
    return tests::has_no_threads ? EAGAIN : own(thread, how, run, argument);
}
#endif

// In place of the system's: only the code under test calls it here.
extern "C" ssize_t write(int file, const void *bytes, size_t count) {
    tests::disk.writes++;
    while (tests::disk.is_stuck) {
        std::this_thread::sleep_for(std::chrono::milliseconds(1));
    }
    const long space = tests::disk.space;
    if (space == 0) {
        if (tests::disk.when_full) {
            tests::disk.when_full();
        }
        errno = ENOSPC;
        return -1;
    }
    const std::size_t fits = space < 0 ? count : std::min<std::size_t>(count, static_cast<std::size_t>(space));
    const auto written = syscall(SYS_write, file, bytes, fits);
    if (space > 0 && written > 0) {
        tests::disk.space -= written;
    }
    return written;
}

// In place of the library's.
void *operator new(std::size_t size) {
    const bool is_refused = tests::has_thread_no_memory && std::this_thread::get_id() != tests::main_thread;
    void *const made = is_refused ? nullptr : std::malloc(size > 0 ? size : 1);
    if (made == nullptr) {
        throw std::bad_alloc();
    }
    return made;
}
void operator delete(void *at) noexcept { std::free(at); }
void operator delete(void *at, std::size_t) noexcept { std::free(at); }

int main() {
    tests::keep_messages();
    tests::test_settings();
    tests::test_files();
    tests::test_writers();
    tests::test_runs();
    std::printf("%u passed, %u failed\n", tests::passed, tests::failed);
    return tests::failed > 0;
}
