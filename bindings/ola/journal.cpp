#include "journal.hpp"
#include "log_writer.hpp"
#include <ola/Logging.h>
#include <cstdlib>
#include <ctime>
#include <pthread.h>

namespace stand_in {

constexpr std::chrono::seconds MOST_TO_FLUSH{1};
// Of what OLA's logging adds to a message.
constexpr std::size_t MOST_OWN_TEXT = 200;

// OLA's line is written by a destructor, from which an exception would end the process. So whether there is memory for
// its parts is asked here.
void write_message(std::string_view adapter, Level level, const std::string &text) {
    std::string().reserve(8 * (adapter.size() + text.size() + MOST_OWN_TEXT));
    if (level == Level::Warn) {
        OLA_WARN << "wurstlinen: " << adapter << ": " << text;
    } else {
        OLA_INFO << "wurstlinen: " << adapter << ": " << text;
    }
}

std::string json(const std::string &text) { return '"' + text + '"'; }
std::string json(std::uint64_t number) { return std::to_string(number); }
std::string json(const ola::rdm::UID &uid) { return json(uid.ToString()); }

std::string json(wurst::Bytes bytes) {
    static const char digits[] = "0123456789abcdef";
    std::string hex;
    for (const std::uint8_t each : bytes) {
        hex += digits[each >> 4];
        hex += digits[each & 15];
    }
    return json(hex);
}

template <typename Devices> std::string list_of(const Devices &devices) {
    std::string all;
    for (const wurst::Device &each : devices) {
        all += (all.empty() ? "" : ",") + json(each.uid.text());
    }
    return '[' + all + ']';
}

std::string json(const std::vector<wurst::Device> &devices) { return list_of(devices); }
std::string json(wurst::Devices devices) { return list_of(devices); }

static std::uint64_t microseconds(clockid_t clock) {
    timespec now{};
    clock_gettime(clock, &now);
    return std::uint64_t(now.tv_sec) * 1000000 + std::uint64_t(now.tv_nsec) / 1000;
}

std::uint64_t clock_time() { return microseconds(CLOCK_REALTIME); }

std::string stamp() {
    return "{\"microseconds\":" + json(clock_time()) + ",\"monotonic\":"
        + json(microseconds(CLOCK_MONOTONIC));
}

template <Content CONTENT> LogWriter *new_writer();

// It is never destroyed, since other threads may still use it when the process ends.
template <Content CONTENT> LogWriter &writer() {
    static LogWriter &made = *new_writer<CONTENT>();
    return made;
}

template <Content CONTENT> LogWriter *new_writer() {
    std::atexit([] { writer<CONTENT>().flush(MOST_TO_FLUSH); });
    pthread_atfork(nullptr, nullptr, [] { writer<CONTENT>().forget(); });
    LogWriter::Options options;
    options.content = CONTENT;
    options.name = CONTENT == Content::Records ? settings().log : settings().runs;
    options.most_bytes = settings().log_bytes;
    return new LogWriter(options);
}

void write_record(unsigned int controller, std::initializer_list<std::string> fields) {
    std::string line = stamp() + ",\"controller\":" + json(controller);
    bool is_key = true;
    for (const auto &each : fields) {
        line += (is_key ? ',' : ':') + each;
        is_key = !is_key;
    }
    writer<Content::Records>().add(line + "}\n");
}

void write_run(const std::string &lines) { writer<Content::Runs>().add(lines); }

template <Content CONTENT> void lose() noexcept {
    try {
        writer<CONTENT>().lose();
    } catch (const std::exception &) {
        // There isn't even memory for the writer. It has no file yet, in which a number would be missing.
    }
}

void lose_record() noexcept { lose<Content::Records>(); }
void lose_run() noexcept { lose<Content::Runs>(); }
} // namespace stand_in
