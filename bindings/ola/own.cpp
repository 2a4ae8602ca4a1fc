#include "own.hpp"
#include "journal.hpp"
#include <ola/base/Version.h>
#include <algorithm>
#include <dlfcn.h>
#include <sys/mman.h>
#include <unistd.h>

namespace stand_in {

#define TEXT_OF(number) #number
#define VERSION_TEXT(major, minor, revision) TEXT_OF(major) "." TEXT_OF(minor) "." TEXT_OF(revision)
#define BUILT_VERSION VERSION_TEXT(OLA_VERSION_MAJOR, OLA_VERSION_MINOR, OLA_VERSION_REVISION)
// `wurstlinen --check-ola` looks for this text in the library's file, so it has to stay in one piece.
[[gnu::used]] static const char BUILT_FOR[] = "built for OLA " BUILT_VERSION;

// By the number of the function. Complete objects and those of a base class have the same constructor and destructor.
constexpr std::array<const char *, REPLACED> SYMBOLS{
    "_ZN3ola3rdm21QueueingRDMControllerC1EPNS0_22RDMControllerInterfaceEj",
    "_ZN3ola3rdm21QueueingRDMControllerD1Ev",
    "_ZN3ola3rdm21QueueingRDMController5PauseEv",
    "_ZN3ola3rdm21QueueingRDMController6ResumeEv",
    "_ZN3ola3rdm21QueueingRDMController14SendRDMRequestEPNS0_10RDMRequestEPNS_13BaseCallback1IvPNS0_8RDMReplyEEE",
    "_ZN3ola3rdm33DiscoverableQueueingRDMControllerC1EPNS0_34DiscoverableRDMControllerInterfaceEj",
    "_ZN3ola3rdm33DiscoverableQueueingRDMController16RunFullDiscoveryEPNS_13BaseCallback1IvRKNS0_6UIDSetEEE",
    "_ZN3ola3rdm33DiscoverableQueueingRDMController23RunIncrementalDiscoveryEPNS_13BaseCallback1IvRKNS0_6UIDSetEEE",
    "_ZN3ola3rdm14DiscoveryAgent5AbortEv",
    "_ZN3ola6plugin6usbpro17ArduinoWidgetImpl4StopEv",
    "_ZN3ola6plugin6usbpro16DmxterWidgetImpl4StopEv",
    "_ZN3ola6plugin6usbpro16DmxTriWidgetImpl4StopEv",
    "_ZN3ola6plugin6usbpro14RobeWidgetImpl4StopEv"};
constexpr std::size_t FIRST_STOP = static_cast<std::size_t>(Replaced::StopArduino);

// ola::base::Version::GetMajor, GetMinor and GetRevision.
constexpr std::array<const char *, 3> VERSION{
    "_ZN3ola4base7Version8GetMajorEv", "_ZN3ola4base7Version8GetMinorEv", "_ZN3ola4base7Version11GetRevisionEv"};

const char *symbol_of(Replaced function) { return SYMBOLS.at(static_cast<std::size_t>(function)); }

// The version of OLA that runs.
static std::string running_version(const std::function<void *(const char *)> &find) {
    std::string version;
    for (const char *symbol : VERSION) {
        const auto number = reinterpret_cast<unsigned int (*)()>(find(symbol));
        if (number == nullptr) {
            return "of an unknown version";
        }
        version += (version.empty() ? "" : ".") + std::to_string(number());
    }
    return version;
}

Own look_up(const std::function<void *(const char *)> &find) {
    Own own;
    std::transform(SYMBOLS.begin(), SYMBOLS.end(), own.functions.begin(), find);
    const auto stops = own.functions.begin() + FIRST_STOP;
    const bool has_plugin = std::any_of(stops, own.functions.end(), [](void *each) { return each != nullptr; });
    const auto end = has_plugin ? own.functions.end() : stops;
    const auto absent = std::find(own.functions.begin(), end, nullptr);
    const std::string version = running_version(find);
    if (version != BUILT_VERSION) {
        own.fault = "this is OLA " + version;
    } else if (absent != end) {
        own.fault = std::string("OLA has no ") + SYMBOLS[absent - own.functions.begin()];
    }
    return own;
}

// OLA's version may be another library's, which was loaded before this one. Its functions stand behind this library's.
static void *find(const char *symbol) {
    const bool is_version = std::find(VERSION.begin(), VERSION.end(), std::string(symbol)) != VERSION.end();
    return dlsym(is_version ? RTLD_DEFAULT : RTLD_NEXT, symbol);
}

// Shows the fault among the mappings of the process, where `wurstlinen --check-ola` finds it. The mapping is there when
// a daemon has gone into the background, which closes its files.
static void show(const std::string &fault) {
    const int file = memfd_create(("wurstlinen-ola: " + fault).c_str(), MFD_CLOEXEC);
    if (file >= 0) {
        // Without it the fault is only in the log.
        static_cast<void>(mmap(nullptr, 1, PROT_NONE, MAP_PRIVATE, file, 0));
        close(file);
    }
}

static Own look_up_at_start() {
    Own own = look_up(find);
    if (!own.fault.empty()) {
        show(own.fault);
    }
    return own;
}

// When the library is loaded, so that `wurstlinen --check-ola` knows it before there is an adapter. It is never
// destroyed, since other threads may still use it when the process ends.
static const Own &at_start = *new Own(look_up_at_start());

static bool tell_whether() {
    if (at_start.fault.empty()) {
        tell("the library", Level::Inform, BUILT_FOR);
        return true;
    }
    tell("the library", Level::Warn, BUILT_FOR, ", but ", at_start.fault,
         ": OLA's own controllers are used. Build it again for this OLA");
    return false;
}

bool may_replace() {
    static const bool is_replaced = tell_whether();
    return is_replaced;
}

bool can_stop(const std::type_info &adapter) {
    // A class in namespaces has the name N..E.
    const std::string name = adapter.name();
    const auto symbol = std::find(SYMBOLS.begin() + FIRST_STOP, SYMBOLS.end(),
                                  "_Z" + name.substr(0, name.size() - 1) + "4StopEv");
    return symbol == SYMBOLS.end() || own_address(static_cast<Replaced>(symbol - SYMBOLS.begin())) != nullptr;
}

// A library that was loaded by dlopen isn't among the next ones. It has its own functions itself.
static void *find_in_library_of(const void *address, const char *symbol) {
    Dl_info info{};
    void *const library = address != nullptr && dladdr(address, &info) != 0
        ? dlopen(info.dli_fname, RTLD_LAZY | RTLD_NOLOAD) : nullptr;
    if (library == nullptr) {
        return nullptr;
    }
    void *const found = dlsym(library, symbol);
    dlclose(library);
    return found;
}

void *own_address(Replaced function, const void *caller) {
    void *const known = at_start.functions[static_cast<std::size_t>(function)];
    void *const next = known != nullptr ? known : find(symbol_of(function));
    return next != nullptr ? next : find_in_library_of(caller, symbol_of(function));
}
} // namespace stand_in
