// Files may be larger than 2 GiB on 32-bit systems too.
#define _FILE_OFFSET_BITS 64
#include "log_file.hpp"
#include "journal.hpp"
#include <algorithm>
#include <cerrno>
#include <cstdio>
#include <cstdlib>
#include <cstring>
#include <fcntl.h>
#include <memory>
#include <new>
#include <system_error>
#include <unistd.h>
#include <utility>

namespace stand_in {

// The records have the values of all parameters, so other users can't read them.
constexpr mode_t MODE = 0640;
constexpr int HOW = O_WRONLY | O_APPEND | O_CREAT | O_NONBLOCK | O_CLOEXEC | O_NOCTTY;
// No line of a log of runs is longer.
constexpr off_t MOST_LINE = 131072;

LogFile::LogFile(std::string name, std::uint64_t most_bytes, Clock::duration between_messages, const char *variable)
    : name_(std::move(name)), most_bytes_(most_bytes), between_messages_(between_messages),
      setting_(variable + ('=' + name_)) {}

LogFile::~LogFile() { close(); }

bool LogFile::add(const std::string &lines) {
    if (!prepare(lines.size() + 1)) {
        return false;
    }
    const int fault = is_torn_ ? write_whole('\n' + lines) : write_whole(lines);
    if (fault != 0) {
        return fail(std::generic_category().message(fault));
    }
    succeed();
    return true;
}

bool LogFile::prepare(std::size_t bytes) {
    return (is_open_file_at_name() || open()) && make_room(bytes);
}

// False if the file was renamed or removed, as programs that rotate logs do.
bool LogFile::is_open_file_at_name() const {
    struct stat ours {};
    struct stat named {};
    return file_ >= 0 && fstat(file_, &ours) == 0 && stat(name_.c_str(), &named) == 0 && ours.st_dev == named.st_dev
        && ours.st_ino == named.st_ino;
}

// What a file has after its last newline: nothing if it isn't torn. A file that can't be read may be torn anywhere.
struct Rest {
    bool is_torn = true;
    off_t at = 0;
    std::string begin;
};

// Reads where the last line begins. If it is longer than any of a log, it isn't known.
static Rest rest_of(const char *name, off_t size) {
    Rest rest;
    const off_t first = size > MOST_LINE ? size - MOST_LINE : 0;
    std::string last(static_cast<std::size_t>(size - first), '\0');
    const int file = ::open(name, O_RDONLY | O_NONBLOCK | O_CLOEXEC | O_NOCTTY);
    const bool is_read = file >= 0 && pread(file, &last[0], last.size(), first) == static_cast<ssize_t>(last.size());
    if (file >= 0) {
        ::close(file);
    }
    if (!is_read) {
        return rest;
    }
    const std::size_t newline = last.rfind('\n');
    rest.is_torn = newline + 1 != last.size();
    if (newline != std::string::npos || first == 0) {
        const std::size_t begin = newline == std::string::npos ? 0 : newline + 1;
        rest.at = first + static_cast<off_t>(begin);
        rest.begin = last.substr(begin);
    }
    return rest;
}

// Whether this is how a line of a log of runs begins, or as much of it as there is.
static bool is_of_runs(const std::string &line) {
    const auto begins = [&](const std::string &text) {
        const std::size_t count = std::min(line.size(), text.size());
        return line.compare(0, count, text, 0, count) == 0;
    };
    return !line.empty() && (begins("{\"entry\":\"") || begins("{\"number\":"));
}

// Only a regular file is opened: another one may block, or may do something else than keep bytes.
bool LogFile::open() {
    struct stat found {};
    close();
    if (stat(name_.c_str(), &found) == 0 && !S_ISREG(found.st_mode)) {
        return fail("it isn't a regular file");
    }
    file_ = ::open(name_.c_str(), HOW, MODE);
    if (file_ < 0) {
        return fail(std::generic_category().message(errno));
    }
    if (fstat(file_, &found) != 0 || !S_ISREG(found.st_mode)) {
        close();
        return fail("it isn't a regular file");
    }
    // If there is no memory to look, it may be torn.
    is_torn_ = found.st_size > 0;
    is_torn_ = is_torn_ && !mend(found.st_size);
    return true;
}

// Half a line of a log of runs, which a crash has left, would end each reading of the file. It is removed, unless
// another process has added to it meanwhile. False: the file still ends within a line.
bool LogFile::mend(off_t size) {
    const Rest rest = rest_of(name_.c_str(), size);
    if (!rest.is_torn) {
        return true;
    }
    struct stat now {};
    return is_of_runs(rest.begin) && fstat(file_, &now) == 0 && now.st_size == size && ftruncate(file_, rest.at) == 0;
}

void LogFile::close() {
    if (file_ >= 0) {
        ::close(file_);
        file_ = -1;
    }
}

// The file's own name, if this is a symbolic link to it.
static std::string real_name(const std::string &name) {
    const std::unique_ptr<char, decltype(&std::free)> real(realpath(name.c_str(), nullptr), std::free);
    return real ? real.get() : name;
}

bool LogFile::make_room(std::size_t bytes) {
    struct stat now {};
    if (most_bytes_ == 0 || (fstat(file_, &now) == 0 && (now.st_size == 0 || now.st_size + bytes <= most_bytes_))) {
        return true;
    }
    const std::string real = real_name(name_);
    if (std::rename(real.c_str(), (real + ".1").c_str()) != 0) {
        return fail("it has reached its limit, and can't be renamed: " + std::generic_category().message(errno));
    }
    return open();
}

// 0, or the number of the fault. A part that was written is taken back.
int LogFile::write_whole(const std::string &text) {
    std::size_t done = 0;
    while (done < text.size()) {
        const ssize_t count = ::write(file_, text.data() + done, text.size() - done);
        if (count < 0 && errno != EINTR) {
            const int fault = errno;
            take_back(done);
            return fault;
        }
        done += count > 0 ? static_cast<std::size_t>(count) : 0;
    }
    is_torn_ = false;
    return 0;
}

// If another process has added to the file meanwhile, nothing is taken back, since its lines aren't ours.
void LogFile::take_back(std::size_t bytes) {
    const off_t end = lseek(file_, 0, SEEK_CUR);
    struct stat now {};
    if (bytes == 0) {
        return;
    }
    const bool is_last = end >= 0 && fstat(file_, &now) == 0 && now.st_size == end;
    if (!is_last || ftruncate(file_, end - static_cast<off_t>(bytes)) != 0) {
        is_torn_ = true;
    }
}

bool LogFile::fail(const std::string &why) {
    const auto now = Clock::now();
    if (!is_told_ && (!last_told_ || now - *last_told_ >= between_messages_)) {
        tell(setting_, Level::Warn, why, "; records are lost until it can be written");
        last_told_ = now;
        is_told_ = true;
    }
    return false;
}

void LogFile::succeed() {
    // The lines are written. If this can't be reported, the next ones try again.
    is_told_ = is_told_ && !tell(setting_, Level::Inform, "it is written again");
}
} // namespace stand_in
