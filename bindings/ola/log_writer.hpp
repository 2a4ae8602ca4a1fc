// The log's writer: a bounded queue and one thread, so that no caller waits for a disk.
#pragma once
#include "log_file.hpp"
#include <atomic>
#include <chrono>
#include <condition_variable>
#include <cstdint>
#include <mutex>
#include <string>
#include <string_view>
#include <thread>

namespace stand_in {

// What a log has: records, one in each line; or runs, which have several lines.
enum class Content { Records, Runs };

class LogWriter {
public:
    struct Options {
        std::string name;                          // of the file
        std::uint64_t most_bytes = 0;              // that the file may have; 0: no limit
        std::size_t queue_bytes = 4UL * 1024 * 1024; // of records or runs that wait
        Content content = Content::Records;
    };

    explicit LogWriter(Options options);
    // Waits until all is written.
    ~LogWriter();
    LogWriter(const LogWriter &) = delete;
    LogWriter &operator=(const LogWriter &) = delete;

    // Queues a record or a run, which ends with a newline, on any thread. The first one starts the writer's thread. If
    // the queue is full, or if there is no memory, it is lost and counted. The count is written as a record where
    // records are missing. That of lost runs is reported with the next one that is written.
    void add(const std::string &lines);
    // Counts a record or a run that its maker has lost.
    void lose();
    // Waits until what was added has been written or lost, but at most this long. It takes no lock, so it can be called
    // in each state of the process.
    void flush(std::chrono::milliseconds most) const;
    // In a child process after a fork: the writer's thread isn't there, and the parent writes what was queued.
    void forget();

private:
    // What the thread takes out of the queue at once.
    struct Taken {
        std::string lines;
        std::uint64_t lost = 0;
        std::uint64_t count = 0;
    };
    struct State {
        explicit State(const Options &options);

        std::mutex guard;
        std::condition_variable wake;
        std::string queue;
        std::uint64_t lost = 0; // records or runs since the queue's last one
        bool is_ending = false;
        bool has_told = false;
        std::thread thread;
        std::atomic<std::uint64_t> added{0}; // records or runs
        std::atomic<std::uint64_t> done{0};  // those that are written or lost
        // The thread's own, which it has from the start: an exception there would end the process.
        const std::string setting;
        const Content content;
        LogFile file;
        Taken taken;
    };

    static bool is_started(State &state);
    static void run(State &state);
    static bool take(State &state);
    static bool write(State &state, std::uint64_t lost, std::string_view lines, std::string &text);
    static void write_taken(State &state, std::uint64_t &lost, std::string &text);

    const Options options_;
    State *state_;
};
} // namespace stand_in
