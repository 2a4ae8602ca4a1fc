// Settings that can be used and those that can't, and the messages about them.
#include "../../journal.hpp"
#include "../../own.hpp"
#include "../../settings.hpp"
#include "support.hpp"

#include <ola/Logging.h>
#include <ola/base/Version.h>

#include <cstdlib>
#include <unistd.h>

namespace tests {
namespace {

using stand_in::Level;
using stand_in::Settings;
using stand_in::read_settings;

constexpr std::uint64_t MOST_SECONDS = 86400;

Settings read_with(const char *name, const std::string &value) {
    forget_messages();
    setenv(name, value.c_str(), 1);
    const Settings found = read_settings();
    unsetenv(name);
    return found;
}

bool is_only_warning(const std::string &text) {
    return messages().size() == 1 && messages_with("WARN ") == 1 && messages_with(text) == 1;
}

void test_absent() {
    for (const char *name : {"DISCOVERY", "SEARCH", "BUDGET", "SECONDS", "LOG", "RUNS", "LOG_MB"}) {
        const Settings found = read_with((std::string("WURSTLINEN_") + name).c_str(), "");
        CHECK(messages().empty() && found.is_proved_discovery && found.search == WURST_QUICK);
        CHECK(found.budget == WURST_DEFAULT_BUDGET && found.seconds == 0);
        CHECK(found.log.empty() && found.runs.empty() && found.log_bytes == 100000000);
    }
}

void test_good() {
    CHECK(!read_with("WURSTLINEN_DISCOVERY", "adapter").is_proved_discovery && messages().empty());
    CHECK(read_with("WURSTLINEN_SEARCH", "steady").search == WURST_STEADY && messages().empty());
    CHECK(read_with("WURSTLINEN_BUDGET", "18446744073709551615").budget == UINT64_MAX && messages().empty());
    CHECK(read_with("WURSTLINEN_SECONDS", "1").seconds == 1 && messages().empty());
    CHECK(read_with("WURSTLINEN_SECONDS", "86400").seconds == MOST_SECONDS && messages().empty());
    CHECK(read_with("WURSTLINEN_LOG_MB", "0").log_bytes == 0 && messages().empty());
    CHECK(read_with("WURSTLINEN_LOG_MB", "1").log_bytes == 1000000 && messages().empty());
    CHECK(read_with("WURSTLINEN_LOG_MB", "1000000").log_bytes == 1000000000000 && messages().empty());
    CHECK(read_with("WURSTLINEN_LOG", "/a/log").log == "/a/log" && messages().empty());
    CHECK(read_with("WURSTLINEN_RUNS", "/a/runs").runs == "/a/runs" && messages().empty());
}

void test_bad() {
    CHECK(read_with("WURSTLINEN_SEARCH", "fast").search == WURST_QUICK);
    CHECK(is_only_warning("wurstlinen: WURSTLINEN_SEARCH=fast: it is quick or steady"));
    for (const std::string value : {"0", "-1", "1.5", " 7", "7 ", "x", "18446744073709551616"}) {
        CHECK(read_with("WURSTLINEN_BUDGET", value).budget == WURST_DEFAULT_BUDGET);
        CHECK(is_only_warning("WURSTLINEN_BUDGET=" + value + ": it is a number of frames"));
    }
    for (const std::string value : {"0", "86401", "1h", "18446744073709551616"}) {
        CHECK(read_with("WURSTLINEN_SECONDS", value).seconds == 0);
        CHECK(is_only_warning("WURSTLINEN_SECONDS=" + value + ": it is a number of seconds"));
    }
    for (const std::string value : {"-1", "1000001", "1k"}) {
        CHECK(read_with("WURSTLINEN_LOG_MB", value).log_bytes == 100000000);
        CHECK(is_only_warning("WURSTLINEN_LOG_MB=" + value + ": it is a number of megabytes"));
    }
}

// A relative path belongs to the folder in which the process was started.
void test_relative_log() {
    char *const before = getcwd(nullptr, 0);
    CHECK(chdir("/") == 0);
    CHECK(read_with("WURSTLINEN_LOG", "log").log == std::string(before) + "/log");
    CHECK(read_with("WURSTLINEN_RUNS", "runs").runs == std::string(before) + "/runs");
    CHECK(chdir(before) == 0);
    std::free(before);
}

void test_messages() {
    forget_messages();
    stand_in::tell("454e:00000001", Level::Inform, "one");
    stand_in::tell("454e:00000001", Level::Warn, "two");
    CHECK(messages().size() == 2 && messages_with("wurstlinen: 454e:00000001: one\n") == 1);
    CHECK(messages_with("INFO ") == 1 && messages_with("WARN ") == 1);
    ola::SetLogLevel(ola::OLA_LOG_WARN);
    stand_in::tell("454e:00000001", Level::Inform, "three");
    ola::SetLogLevel(ola::OLA_LOG_INFO);
    CHECK(messages().size() == 2);
}

// The first call says which OLA the library was built for.
void test_version() {
    forget_messages();
    CHECK(stand_in::may_replace() && stand_in::may_replace());
    CHECK(messages().size() == 1 && messages_with("INFO ") == 1);
    CHECK(messages_with("built for OLA " + ola::base::Version::GetVersion()) == 1);
}

} // namespace

void test_settings() {
    test_absent();
    test_good();
    test_bad();
    test_relative_log();
    test_messages();
    test_version();
}

} // namespace tests
