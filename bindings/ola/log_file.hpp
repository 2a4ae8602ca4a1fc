// A log's file, which gets whole lines.
#pragma once
#include <chrono>
#include <cstdint>
#include <optional>
#include <string>
#include <sys/stat.h>
#include <sys/types.h>

namespace stand_in {

// Used by one thread. The file is opened when the first lines are added, and again if it was renamed or removed.
class LogFile {
public:
    using Clock = std::chrono::steady_clock;

    // If lines would make the file longer than `most_bytes`, it is first renamed to NAME.1. 0: no limit. If the name is
    // a symbolic link, that happens to the file that it names. A disk that is full now and then is reported once in
    // this time. `variable` names the file in messages.
    LogFile(std::string name, std::uint64_t most_bytes, Clock::duration between_messages = std::chrono::minutes(1),
            const char *variable = "WURSTLINEN_LOG");
    ~LogFile();
    LogFile(const LogFile &) = delete;
    LogFile &operator=(const LogFile &) = delete;

    // Adds lines: all of them, or none. False: the file can't be written now. One of several failures in a row is
    // reported: the first, unless another one was reported shortly before.
    bool add(const std::string &lines);

private:
    bool prepare(std::size_t bytes);
    bool open();
    bool mend(off_t size);
    void close();
    bool is_open_file_at_name() const;
    bool make_room(std::size_t bytes);
    int write_whole(const std::string &text);
    void take_back(std::size_t bytes);
    bool fail(const std::string &why);
    void succeed();

    const std::string name_;
    const std::uint64_t most_bytes_;
    const Clock::duration between_messages_;
    const std::string setting_;
    int file_ = -1;
    // The file may end within a line, so the next one begins with a newline.
    bool is_torn_ = false;
    // Whether it was reported that it can't be written.
    bool is_told_ = false;
    std::optional<Clock::time_point> last_told_;
};
} // namespace stand_in
