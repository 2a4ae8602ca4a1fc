// What OLA's log got, for the tests of messages.
#ifndef WURSTLINEN_OLA_TESTS_MESSAGES_HPP
#define WURSTLINEN_OLA_TESTS_MESSAGES_HPP

#include <ola/Logging.h>

#include <mutex>
#include <string>
#include <vector>

namespace tests {

inline std::mutex messages_guard;
inline std::vector<std::string> all_messages;

class Kept : public ola::LogDestination {
public:
    void Write(ola::log_level level, const std::string &line) override {
        const std::lock_guard<std::mutex> locked(messages_guard);
        all_messages.push_back((level == ola::OLA_LOG_WARN ? "WARN " : "INFO ") + line);
    }
};

// From now on, messages from the level INFO are kept.
inline void keep_messages() { ola::InitLogging(ola::OLA_LOG_INFO, new Kept); }

inline std::vector<std::string> messages() {
    const std::lock_guard<std::mutex> locked(messages_guard);
    return all_messages;
}

inline void forget_messages() {
    const std::lock_guard<std::mutex> locked(messages_guard);
    all_messages.clear();
}

// How many messages have this text.
inline unsigned int messages_with(const std::string &text) {
    unsigned int count = 0;
    for (const auto &each : messages()) {
        count += each.find(text) != each.npos;
    }
    return count;
}

} // namespace tests

#endif
