// OLA's own definitions of the functions that this library replaces, and whether it may replace them. It relies on the
// layout of OLA's objects. So if it was built for another version, or if one of the functions isn't there, each call is
// handed on to OLA's own.
#pragma once
#include <array>
#include <functional>
#include <string>
#include <typeinfo>

namespace stand_in {

// The functions that are replaced.
enum class Replaced {
    MakeQueue, EndQueue, Pause, Resume, Send, MakeDiscoverableQueue, FullDiscovery, IncrementalDiscovery, Abort,
    StopArduino, StopDmxter, StopDmxTri, StopRobe
};
constexpr std::size_t REPLACED = 13;

struct Own {
    std::array<void *, REPLACED> functions{};
    // Why nothing is replaced; empty: there is no reason.
    std::string fault;
};

// Looks OLA's functions and version up: `find` returns the address of a symbol, or null. The functions by which a
// plugin stops its adapters may all be absent, since the plugin may be.
Own look_up(const std::function<void *(const char *)> &find);

const char *symbol_of(Replaced function);

// Whether OLA's functions are replaced in this process. The first call reports it to OLA's logging.
bool may_replace();

// Whether OLA's own function that stops adapters of this class is known, if it is one that is replaced.
bool can_stop(const std::type_info &adapter);

// OLA's own function. `caller` is an address in the library that wants it. Null: OLA doesn't have it.
void *own_address(Replaced function, const void *caller = nullptr);

// OLA's own function, as one of this type: a member's first argument is its object.
template <typename Function> Function *own(Replaced function) {
    return reinterpret_cast<Function *>(own_address(function));
}
} // namespace stand_in
