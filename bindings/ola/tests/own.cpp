// When OLA's functions are replaced: not in another version, and not if one of them isn't there.
#include "../own.hpp"
#include "checks.hpp"
#include "messages.hpp"

#include <ola/base/Version.h>

#include <set>

namespace tests {
namespace {

using stand_in::Own;
using stand_in::REPLACED;
using stand_in::Replaced;


// An OLA without these symbols, and with this revision.
Own look_up(const std::set<std::string> &absent, unsigned int revision = OLA_VERSION_REVISION) {
    static unsigned int given;
    given = revision;
    return stand_in::look_up([&](const char *symbol) -> void * {
        if (absent.count(symbol) > 0) {
            return nullptr;
        }
        const std::string name(symbol);
        unsigned int (*number)() = [] { return given; };
        if (name.find("GetMajor") != name.npos) {
            number = [] { return static_cast<unsigned int>(OLA_VERSION_MAJOR); };
        } else if (name.find("GetMinor") != name.npos) {
            number = [] { return static_cast<unsigned int>(OLA_VERSION_MINOR); };
        }
        return reinterpret_cast<void *>(number);
    });
}

std::string symbol(std::size_t number) { return stand_in::symbol_of(static_cast<Replaced>(number)); }

} // namespace

void test_own() {
    CHECK(look_up({}).fault.empty());
    for (std::size_t i = 0; i < REPLACED; i++) {
        CHECK(look_up({symbol(i)}).fault == "OLA has no " + symbol(i));
    }
    // Without its plugin.
    const auto first = static_cast<std::size_t>(Replaced::StopArduino);
    CHECK(look_up({symbol(first), symbol(first + 1), symbol(first + 2), symbol(first + 3)}).fault.empty());
    CHECK(look_up({}, OLA_VERSION_REVISION + 1).fault
          == "this is OLA " + std::to_string(OLA_VERSION_MAJOR) + "." + std::to_string(OLA_VERSION_MINOR) + "."
              + std::to_string(OLA_VERSION_REVISION + 1));
    CHECK(look_up({"_ZN3ola4base7Version8GetMajorEv"}).fault == "this is OLA of an unknown version");
    // Those of the library that this program was built with.
    CHECK(stand_in::may_replace());
    for (std::size_t i = 0; i < first; i++) {
        CHECK(stand_in::own_address(static_cast<Replaced>(i)) != nullptr);
    }
}

} // namespace tests
