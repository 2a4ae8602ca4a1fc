#include "settings.hpp"
#include "journal.hpp"
#include <cerrno>
#include <cstdlib>
#include <unistd.h>

namespace stand_in {

constexpr std::uint64_t MOST_SECONDS = 86400;
constexpr std::uint64_t MOST_LOG_MB = 1000000;
constexpr std::uint64_t LOG_MB = 100;
constexpr std::uint64_t BYTES_IN_MB = 1000000;

static std::string working_folder() {
    char *const path = getcwd(nullptr, 0);
    std::string folder = path != nullptr ? path : "";
    std::free(path);
    return folder;
}

// When the library is loaded, since a daemon may change to another folder afterwards. It is never destroyed, since
// other threads may still use it when the process ends.
static const std::string &folder_at_start = *new std::string(working_folder());

// A variable's value; nothing if it is empty.
static std::string setting(const char *name) {
    // olad sets no variable.
    const char *text = std::getenv(name); // NOLINT(concurrency-mt-unsafe)
    return text != nullptr ? text : "";
}

static void refuse(const char *name, const std::string &text, const std::string &why) {
    tell(name + ("=" + text), Level::Warn, why);
}

// Whether a variable has the second of two values. The first is used if it has neither.
static bool is_second(const char *name, const std::string &first, const std::string &second) {
    const std::string text = setting(name);
    if (!text.empty() && text != first && text != second) {
        refuse(name, text, "it is " + first + " or " + second + "; " + first + " is used");
    }
    return text == second;
}

// The least and the greatest number that a variable may have.
struct Range {
    std::uint64_t least;
    std::uint64_t most;
};

// A variable's number in this range, or `otherwise`. `meaning` says what the number is.
static std::uint64_t number(const char *name, Range range, std::uint64_t otherwise, const char *meaning) {
    const std::string text = setting(name);
    errno = 0;
    const unsigned long long value = std::strtoull(text.c_str(), nullptr, 10);
    if (text.empty()) {
        return otherwise;
    }
    const bool is_number = text.find_first_not_of("0123456789") == text.npos && errno == 0;
    if (is_number && value >= range.least && value <= range.most) {
        return value;
    }
    refuse(name, text, "it is " + std::string(meaning) + "; the default is used");
    return otherwise;
}

static std::string path(const char *variable) {
    const std::string name = setting(variable);
    return name.empty() || name[0] == '/' ? name : folder_at_start + '/' + name;
}

Settings read_settings() {
    Settings found;
    found.is_proved_discovery = !is_second("WURSTLINEN_DISCOVERY", "proved", "adapter");
    found.search = is_second("WURSTLINEN_SEARCH", "quick", "steady") ? WURST_STEADY : WURST_QUICK;
    found.budget = number("WURSTLINEN_BUDGET", {1, UINT64_MAX}, found.budget, "a number of frames, from 1");
    found.seconds = number("WURSTLINEN_SECONDS", {1, MOST_SECONDS}, 0, "a number of seconds, 1 to 86400");
    found.log = path("WURSTLINEN_LOG");
    found.runs = path("WURSTLINEN_RUNS");
    found.log_bytes = BYTES_IN_MB
        * number("WURSTLINEN_LOG_MB", {0, MOST_LOG_MB}, LOG_MB, "a number of megabytes, 0 to 1000000");
    return found;
}

const Settings &settings() {
    static const Settings &found = *new Settings(read_settings());
    return found;
}
} // namespace stand_in
