// The log's file: whole lines on a full disk, rotation, and names that aren't regular files.
#include "../../log_file.hpp"
#include "support.hpp"

#include <algorithm>
#include <csignal>
#include <fcntl.h>
#include <poll.h>
#include <sys/resource.h>
#include <sys/stat.h>
#include <thread>
#include <unistd.h>

namespace tests {
namespace {

using stand_in::LogFile;

const std::string LINE = "{\"a line\":\"of 28 bytes\"}\n";

void test_whole_lines_on_a_full_disk() {
    const Folder folder;
    LogFile file(folder.path(), 0);
    forget_messages();
    CHECK(file.add(LINE));
    disk.space = 10;
    for (int i = 0; i < 5; i++) {
        CHECK(!file.add(LINE) && text_of(folder.path()) == LINE);
    }
    CHECK(messages().size() == 1 && messages_with("WARN ") == 1);
    CHECK(messages_with("WURSTLINEN_LOG=" + folder.path() + ": No space left on device") == 1);
    disk.space = -1;
    CHECK(file.add(LINE) && text_of(folder.path()) == LINE + LINE);
    CHECK(messages().size() == 2 && messages_with("INFO ") == 1 && messages_with("it is written again") == 1);
}

// A disk that is full now and then doesn't fill OLA's log too.
void test_full_now_and_then() {
    const Folder folder;
    LogFile file(folder.path(), 0);
    forget_messages();
    for (int i = 0; i < 20; i++) {
        disk.space = 0;
        CHECK(!file.add(LINE));
        disk.space = -1;
        CHECK(file.add(LINE));
    }
    CHECK(messages_with("WARN ") == 1 && messages_with("INFO ") == 1);
}

// Each time it is full is reported once, however often it can't be written then.
void test_full_twice() {
    const Folder folder;
    LogFile file(folder.path(), 0, LogFile::Clock::duration::zero());
    forget_messages();
    for (unsigned int outage = 1; outage <= 2; outage++) {
        disk.space = 0;
        for (int i = 0; i < 5; i++) {
            CHECK(!file.add(LINE) && messages_with("WARN ") == outage);
        }
        disk.space = -1;
        CHECK(file.add(LINE) && file.add(LINE) && messages_with("INFO ") == outage);
    }
}

// A disk that is soon full again, and stays so, is reported again after a while.
void test_full_for_good() {
    const Folder folder;
    const std::chrono::milliseconds between{3000};
    LogFile file(folder.path(), 0, between);
    forget_messages();
    disk.space = 0;
    CHECK(!file.add(LINE));
    disk.space = -1;
    CHECK(file.add(LINE));
    disk.space = 0;
    CHECK(!file.add(LINE) && messages_with("WARN ") == 1);
    std::this_thread::sleep_for(between);
    CHECK(!file.add(LINE) && !file.add(LINE) && messages_with("WARN ") == 2);
    disk.space = -1;
    CHECK(file.add(LINE) && messages_with("INFO ") == 2);
}

// If another process has added to the file meanwhile, nothing is taken back. The next line is whole.
void test_torn_line() {
    const Folder folder;
    LogFile file(folder.path(), 0);
    CHECK(file.add(LINE));
    const int other = open(folder.path().c_str(), O_WRONLY | O_APPEND);
    disk.space = 10;
    disk.when_full = [&] { CHECK(pwrite(other, "other\n", 6, 0) == 6); };
    CHECK(!file.add(LINE));
    disk.when_full = nullptr;
    disk.space = -1;
    CHECK(file.add(LINE) && file.add(LINE));
    CHECK(text_of(folder.path()) == LINE + LINE.substr(0, 10) + "other\n\n" + LINE + LINE);
    close(other);
}

// What a crash has left of a line is ended.
void test_torn_before() {
    const Folder folder;
    write_text(folder.path(), LINE + "{\"half");
    LogFile torn(folder.path(), 0);
    CHECK(torn.add(LINE) && torn.add(LINE));
    CHECK(text_of(folder.path()) == LINE + "{\"half\n" + LINE + LINE);
    LogFile whole(folder.path(), 0);
    CHECK(whole.add(LINE) && text_of(folder.path()) == LINE + "{\"half\n" + LINE + LINE + LINE);
}

// Half a line of a log of runs is removed, since it would end each reading of the file. Any other text stays.
void test_half_a_line_of_runs() {
    const std::string run = "{\"number\":0,\"operation\":\"unmute\",\"frame\":\"cc\",\"reply\":\"\"}\n";
    const std::string opening = "{\"entry\":\"opening\",\"source\":\"7a70:00000100\"}\n";
    for (const auto &line : {run, opening}) {
        for (std::size_t count = 1; count < line.size(); count++) {
            const Folder folder;
            write_text(folder.path(), run + line.substr(0, count));
            LogFile file(folder.path(), 0);
            CHECK(file.add(LINE) && text_of(folder.path()) == run + LINE);
        }
        const Folder folder;
        write_text(folder.path(), line.substr(0, line.size() - 1));
        LogFile file(folder.path(), 0);
        CHECK(file.add(LINE) && text_of(folder.path()) == LINE);
    }
    const std::string long_line = "{\"number\":" + std::string(200000, '0');
    for (const auto &other : {std::string("[1, 2]"), std::string("{\"scene\":{}}"), std::string("\0", 1), long_line}) {
        const Folder folder;
        write_text(folder.path(), other);
        LogFile file(folder.path(), 0);
        CHECK(file.add(LINE) && text_of(folder.path()) == other + "\n" + LINE);
    }
}

// The system's limit of a file's size sends a signal that would end the process.
void test_limit_of_the_system() {
    const Folder folder;
    LogFile file(folder.path(), 0);
    rlimit before{};
    sigset_t signals, old;
    sigemptyset(&signals);
    sigaddset(&signals, SIGXFSZ);
    pthread_sigmask(SIG_BLOCK, &signals, &old);
    CHECK(getrlimit(RLIMIT_FSIZE, &before) == 0);
    const rlimit small{LINE.size() * 3 + 5, before.rlim_max};
    CHECK(setrlimit(RLIMIT_FSIZE, &small) == 0);
    CHECK(file.add(LINE) && file.add(LINE) && file.add(LINE) && !file.add(LINE) && !file.add(LINE));
    CHECK(setrlimit(RLIMIT_FSIZE, &before) == 0);
    CHECK(text_of(folder.path()) == LINE + LINE + LINE && file.add(LINE));
    const timespec none{};
    CHECK(sigtimedwait(&signals, nullptr, &none) == SIGXFSZ);
    pthread_sigmask(SIG_SETMASK, &old, nullptr);
}

// Nothing is written to them, and nothing waits.
void test_other_kinds_of_files() {
    const Folder folder;
    const double began = seconds();
    CHECK(mkfifo(folder.path("fifo").c_str(), 0600) == 0);
    const std::string names[] = {folder.path("fifo"), "/dev/full", "/dev/null", folder.path("."),
                                 folder.path("no/log")};
    for (const auto &name : names) {
        forget_messages();
        LogFile file(name, 0);
        CHECK(!file.add(LINE) && !file.add(LINE));
        CHECK(messages().size() == 1 && messages_with("WARN ") == 1 && messages_with("WURSTLINEN_LOG=" + name) == 1);
    }
    // A reader would notice if somebody had opened the other end.
    pollfd reader{open(folder.path("fifo").c_str(), O_RDONLY | O_NONBLOCK), POLLIN, 0};
    LogFile file(folder.path("fifo"), 0);
    CHECK(!file.add(LINE) && poll(&reader, 1, 0) == 0 && close(reader.fd) == 0);
    CHECK(seconds() - began < 5);
}

// A folder that is made later, as one that is mounted.
void test_folder_made_later() {
    const Folder folder;
    LogFile file(folder.path("later/log"), 0);
    CHECK(!file.add(LINE));
    CHECK(mkdir(folder.path("later").c_str(), 0700) == 0);
    CHECK(file.add(LINE) && text_of(folder.path("later/log")) == LINE);
}

void test_rotation() {
    const Folder folder;
    const std::size_t most = LINE.size() * 4 + 3;
    LogFile file(folder.path(), most);
    for (unsigned int i = 1; i <= 50; i++) {
        CHECK(file.add(LINE));
        CHECK(text_of(folder.path()).size() <= most && text_of(folder.path() + ".1").size() <= most);
        const std::size_t kept = lines_of(folder.path()).size() + lines_of(folder.path() + ".1").size();
        CHECK(kept >= std::min<std::size_t>(i, 4) && kept <= 8);
    }
}

// The file is renamed, and not the link to it.
void test_rotation_behind_a_link() {
    const Folder folder;
    CHECK(mkdir(folder.path("disk").c_str(), 0700) == 0);
    CHECK(symlink("disk/real", folder.path().c_str()) == 0);
    LogFile file(folder.path(), LINE.size() + 1);
    for (int i = 0; i < 3; i++) {
        struct stat named {};
        CHECK(file.add(LINE) && lstat(folder.path().c_str(), &named) == 0 && S_ISLNK(named.st_mode));
        CHECK(text_of(folder.path("disk/real")) == LINE);
        CHECK(text_of(folder.path("disk/real.1")) == (i > 0 ? LINE : ""));
    }
}

// A log that can't be renamed stays within its limit.
void test_no_rotation() {
    const Folder folder;
    CHECK(mkdir((folder.path() + ".1").c_str(), 0700) == 0 && mkdir((folder.path() + ".1/x").c_str(), 0700) == 0);
    LogFile file(folder.path(), LINE.size() + 1);
    forget_messages();
    CHECK(file.add(LINE) && !file.add(LINE) && !file.add(LINE) && text_of(folder.path()) == LINE);
    CHECK(messages().size() == 1 && messages_with("it has reached its limit, and can't be renamed") == 1);
}

// Another program renames the file.
void test_renamed() {
    const Folder folder;
    LogFile file(folder.path(), 0);
    CHECK(file.add(LINE) && rename(folder.path().c_str(), folder.path("old").c_str()) == 0);
    CHECK(file.add(LINE) && text_of(folder.path()) == LINE && text_of(folder.path("old")) == LINE);
    CHECK(unlink(folder.path().c_str()) == 0 && file.add(LINE) && text_of(folder.path()) == LINE);
}

void test_mode() {
    const Folder folder;
    const mode_t before = umask(0);
    LogFile file(folder.path(), 0);
    struct stat made {};
    CHECK(file.add(LINE) && stat(folder.path().c_str(), &made) == 0 && (made.st_mode & 0777) == 0640);
    umask(before);
}

} // namespace

void test_files() {
    test_whole_lines_on_a_full_disk();
    test_full_now_and_then();
    test_full_twice();
    test_full_for_good();
    test_torn_line();
    test_torn_before();
    test_half_a_line_of_runs();
    test_limit_of_the_system();
    test_other_kinds_of_files();
    test_folder_made_later();
    test_rotation();
    test_rotation_behind_a_link();
    test_no_rotation();
    test_renamed();
    test_mode();
}

} // namespace tests
