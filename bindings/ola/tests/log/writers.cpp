// The log's writer: nobody waits for the disk, and each line is written or counted.
#include "../../log_writer.hpp"
#include "support.hpp"

#include <csignal>
#include <sys/stat.h>
#include <sys/wait.h>
#include <unistd.h>

namespace tests {
namespace {

using stand_in::LogWriter;

constexpr std::chrono::milliseconds SECOND{1000};
constexpr std::size_t QUEUE_BYTES = 4096;

std::string line(unsigned int number) { return "{\"line\":" + std::to_string(number) + "}\n"; }

// The count that a record of lost lines has; 0 if it is another line.
unsigned long lost_in(const std::string &text) {
    const std::string key = "\"lost\":";
    const auto at = text.find(key);
    return at == text.npos ? 0 : std::strtoul(text.c_str() + at + key.size(), nullptr, 10);
}

unsigned long lost_in(const std::vector<std::string> &lines) {
    unsigned long lost = 0;
    for (const auto &each : lines) {
        lost += lost_in(each);
    }
    return lost;
}

bool is_each_whole(const std::vector<std::string> &lines) {
    bool all = true;
    for (const auto &each : lines) {
        all &= each.size() > 2 && each.front() == '{' && each.back() == '}' && each.find('{', 1) == each.npos;
    }
    return all;
}

void test_order() {
    const Folder folder;
    {
        LogWriter writer({folder.path()});
        for (unsigned int i = 0; i < 5000; i++) {
            writer.add(line(i));
        }
    }
    const auto lines = lines_of(folder.path());
    bool is_ordered = lines.size() == 5000;
    for (unsigned int i = 0; i < lines.size(); i++) {
        is_ordered &= lines[i] + '\n' == line(i);
    }
    CHECK(is_ordered);
}

void test_many_threads() {
    const Folder folder;
    {
        LogWriter writer({folder.path()});
        std::vector<std::thread> threads;
        for (unsigned int i = 0; i < 4; i++) {
            threads.emplace_back([&writer] {
                for (unsigned int number = 0; number < 1000; number++) {
                    writer.add(line(number));
                }
            });
        }
        for (auto &each : threads) {
            each.join();
        }
        writer.flush(10 * SECOND);
        CHECK(lines_of(folder.path()).size() == 4000);
    }
    CHECK(lines_of(folder.path()).size() == 4000 && is_each_whole(lines_of(folder.path())));
}

// Lines that are added while a write is stuck don't wait, up to the queue's end. Those behind it are counted.
void test_stuck_disk() {
    const Folder folder;
    LogWriter writer({folder.path(), 0, QUEUE_BYTES});
    disk.writes = 0;
    disk.is_stuck = true;
    writer.add(line(1000));
    CHECK(becomes([] { return disk.writes > 0; }));
    const double began = seconds();
    for (unsigned int i = 1001; i < 2000; i++) {
        writer.add(line(i));
    }
    CHECK(seconds() - began < 5);
    const double flushed = seconds();
    writer.flush(SECOND);
    CHECK(seconds() - flushed > 0.9 && seconds() - flushed < 5);
    disk.is_stuck = false;
    writer.flush(10 * SECOND);
    writer.add(line(2000));
    writer.flush(10 * SECOND);
    const auto lines = lines_of(folder.path());
    const std::size_t fitted = QUEUE_BYTES / line(1000).size();
    CHECK(lines.size() == fitted + 3 && is_each_whole(lines));
    CHECK(lost_in(lines[fitted + 1]) == 999 - fitted && lost_in(lines) == 999 - fitted);
    CHECK(lines[fitted] + '\n' == line(1000 + static_cast<unsigned int>(fitted)) && lines.back() + '\n' == line(2000));
}

// Behind a lost line, one that would fit is lost too, so that lines are missing in one place.
void test_short_line_behind_a_lost_one() {
    const Folder folder;
    const std::string half = "{\"x\":\"" + std::string(QUEUE_BYTES / 2, 'x') + "\"}\n";
    LogWriter writer({folder.path(), 0, QUEUE_BYTES});
    disk.writes = 0;
    disk.is_stuck = true;
    writer.add(line(1));
    CHECK(becomes([] { return disk.writes > 0; }));
    for (const auto &each : {half, half, line(2)}) {
        writer.add(each);
    }
    disk.is_stuck = false;
    writer.flush(10 * SECOND);
    const auto lines = lines_of(folder.path());
    CHECK(lines.size() == 3 && lines[1] + '\n' == half && lost_in(lines[2]) == 2);
}

void test_full_disk() {
    const Folder folder;
    LogWriter writer({folder.path()});
    writer.add(line(1));
    writer.flush(10 * SECOND);
    disk.space = 5;
    for (unsigned int i = 2; i <= 40; i++) {
        writer.add(line(i));
        writer.flush(10 * SECOND);
    }
    CHECK(text_of(folder.path()) == line(1));
    disk.space = -1;
    writer.add(line(41));
    writer.flush(10 * SECOND);
    const auto lines = lines_of(folder.path());
    CHECK(lines.size() == 3 && is_each_whole(lines) && lost_in(lines[1]) == 39 && lines[2] + '\n' == line(41));
}

// Each line is in the file or counted, whenever the disk is full.
void test_disk_that_is_full_at_each_byte() {
    for (long space = 0; space < 120; space++) {
        const Folder folder;
        {
            LogWriter writer({folder.path()});
            disk.space = space;
            for (unsigned int i = 0; i < 10; i++) {
                writer.add(line(i));
            }
            writer.flush(10 * SECOND);
            disk.space = -1;
            writer.add(line(10));
        }
        const auto lines = lines_of(folder.path());
        const std::size_t records = lost_in(lines) > 0;
        CHECK(is_each_whole(lines) && lines.size() - records + lost_in(lines) == 11);
    }
}

// Lines for which the writer's thread has no memory are counted, and the next ones are written.
void test_no_memory() {
    const Folder folder;
    LogWriter writer({folder.path()});
    writer.add(line(1));
    writer.flush(10 * SECOND);
    const double began = seconds();
    has_thread_no_memory = true;
    for (int i = 0; i < 10; i++) {
        writer.add("{\"x\":\"" + std::string(200, 'x') + "\"}\n");
        writer.flush(10 * SECOND);
    }
    has_thread_no_memory = false;
    writer.add(line(2));
    writer.flush(10 * SECOND);
    const auto lines = lines_of(folder.path());
    CHECK(lines.size() == 3 && is_each_whole(lines) && lost_in(lines[1]) == 10 && lines[2] + '\n' == line(2));
    CHECK(seconds() - began < 9);
}

// Without a thread all is lost, which is said once. It is tried again with each line.
void test_no_thread() {
    const Folder folder;
    LogWriter writer({folder.path()});
    forget_messages();
    has_no_threads = true;
    writer.add(line(1));
    writer.add(line(2));
    CHECK(messages().size() == 1 && messages_with("no thread to write it") == 1);
    has_no_threads = false;
    writer.add(line(3));
    writer.flush(10 * SECOND);
    writer.add(line(4));
    writer.flush(10 * SECOND);
    const auto lines = lines_of(folder.path());
    CHECK(lines.size() == 2 && lost_in(lines[0]) == 3 && lines[1] + '\n' == line(4));
}

void test_rotation() {
    const Folder folder;
    {
        LogWriter writer({folder.path(), 1000});
        for (unsigned int i = 1000; i < 2000; i++) {
            writer.add(line(i));
        }
    }
    auto lines = lines_of(folder.path() + ".1");
    const auto last = lines_of(folder.path());
    lines.insert(lines.end(), last.begin(), last.end());
    CHECK(text_of(folder.path() + ".1").size() <= 1000 && text_of(folder.path()).size() <= 1000);
    bool is_end = lines.size() >= 1000 / line(1000).size();
    for (std::size_t i = 0; i < lines.size(); i++) {
        is_end &= lines[i] + '\n' == line(static_cast<unsigned int>(2000 - lines.size() + i));
    }
    CHECK(is_end);
}

// The writer's thread takes no signal from OLA's.
void test_signals() {
    const Folder folder;
    LogWriter writer({folder.path()});
    writer.add(line(1));
    sigset_t all, before, pending;
    sigfillset(&all);
    pthread_sigmask(SIG_SETMASK, &all, &before);
    CHECK(!sigismember(&before, SIGTERM) && !sigismember(&before, SIGHUP));
    for (const int number : {SIGTERM, SIGHUP, SIGINT, SIGUSR1}) {
        kill(getpid(), number);
    }
    writer.add(line(2));
    writer.flush(10 * SECOND);
    sigpending(&pending);
    for (const int number : {SIGTERM, SIGHUP, SIGINT, SIGUSR1}) {
        int taken = 0;
        sigset_t one;
        sigemptyset(&one);
        sigaddset(&one, number);
        CHECK(sigismember(&pending, number) && sigwait(&one, &taken) == 0 && taken == number);
    }
    pthread_sigmask(SIG_SETMASK, &before, nullptr);
}

// A child process writes its own lines only, although the parent's thread isn't there.
void test_fork() {
    const Folder folder;
    LogWriter writer({folder.path()});
    disk.writes = 0;
    disk.is_stuck = true;
    writer.add(line(1));
    CHECK(becomes([] { return disk.writes > 0; }));
    writer.add(line(2));
    const pid_t child = fork();
    if (child == 0) {
        disk.is_stuck = false;
        writer.forget();
        writer.add(line(3));
        writer.flush(10 * SECOND);
        _exit(0);
    }
    int status = -1;
    CHECK(waitpid(child, &status, 0) == child && status == 0);
    CHECK(text_of(folder.path()) == line(3));
    disk.is_stuck = false;
    writer.flush(10 * SECOND);
    CHECK(text_of(folder.path()) == line(3) + line(1) + line(2));
}

void test_unused() {
    const Folder folder;
    struct stat made {};
    {
        const LogWriter writer({folder.path()});
        writer.flush(SECOND);
    }
    CHECK(stat(folder.path().c_str(), &made) != 0);
}

} // namespace

void test_writers() {
    test_order();
    test_many_threads();
    test_stuck_disk();
    test_short_line_behind_a_lost_one();
    test_full_disk();
    test_disk_that_is_full_at_each_byte();
    test_no_memory();
    if (MAY_LACK_THREADS) {
        test_no_thread();
    }
    test_rotation();
    test_signals();
    test_fork();
    test_unused();
}

} // namespace tests
