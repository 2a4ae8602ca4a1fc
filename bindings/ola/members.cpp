// New definitions of functions of OLA's two queueing classes. The dynamic linker prefers them to those in OLA's
// library. Each call for an object without a stand-in is handed on to OLA's own function.
#include "members.hpp"
#include "journal.hpp"
#include "own.hpp"
#include "stand_in.hpp"
#include <ola/rdm/DiscoveryAgent.h>
#include <exception>
#include <map>
#include <memory>
#include <mutex>
#include <new>
#include <utility>

// OLA's header, with other names for its classes: objects with the layout of OLA's, whose virtual functions are here.
#define QueueingRDMController QueueInPlace
#define DiscoverableQueueingRDMController DiscoverableQueueInPlace
#include <ola/rdm/QueueingRDMController.h>
#undef QueueingRDMController
#undef DiscoverableQueueingRDMController

using namespace ola::rdm;
using stand_in::Replaced;
using stand_in::StandIn;
using stand_in::own;

namespace {

// By the address of OLA's object, whose layout can't be changed. OLA makes and ends its objects on several threads.
struct StandIns {
    std::mutex guard;
    std::map<const void *, std::shared_ptr<StandIn>> by_object;
    // By the addresses of the object of an adapter's class: of the whole, and of the target of its own discovery.
    std::map<const void *, const void *> objects_by_adapter;
};

// Never destroyed, since OLA's objects may live longer.
StandIns &stand_ins() {
    static auto &all = *new StandIns;
    return all;
}

// Shared, since a callback may destroy OLA's object. Null if OLA's own functions serve it.
std::shared_ptr<StandIn> of(const void *object) {
    const std::lock_guard<std::mutex> locked(stand_ins().guard);
    const auto found = stand_ins().by_object.find(object);
    return found != stand_ins().by_object.end() ? found->second : nullptr;
}

// Null if there is none.
std::shared_ptr<StandIn> over(const void *adapter) {
    const std::lock_guard<std::mutex> locked(stand_ins().guard);
    const auto found = stand_ins().objects_by_adapter.find(adapter);
    return found != stand_ins().objects_by_adapter.end() ? stand_ins().by_object.at(found->second) : nullptr;
}

void remove(const void *object) {
    const std::lock_guard<std::mutex> locked(stand_ins().guard);
    auto &adapters = stand_ins().objects_by_adapter;
    for (auto each = adapters.begin(); each != adapters.end();) {
        each = each->second == object ? adapters.erase(each) : std::next(each);
    }
    stand_ins().by_object.erase(object);
}

void add(const void *object, RDMControllerInterface *lower, unsigned int places) {
    const auto made = std::make_shared<StandIn>(lower, places);
    const void *const target = dynamic_cast<DiscoveryTargetInterface *>(lower);
    const void *const whole = dynamic_cast<void *>(lower);
    const std::lock_guard<std::mutex> locked(stand_ins().guard);
    stand_ins().by_object[object] = made;
    for (const void *adapter : {target, whole}) {
        if (adapter != nullptr) {
            stand_ins().objects_by_adapter[adapter] = object;
        }
    }
}

// Makes a stand-in for an object. False: OLA's own functions serve it, since this library may not, or can't.
bool try_add(const void *object, RDMControllerInterface *lower, unsigned int places) noexcept {
    if (!stand_in::may_replace()) {
        return false;
    }
    const char *fault = "OLA's own function that stops it isn't found";
    try {
        if (lower == nullptr || stand_in::can_stop(typeid(*lower))) {
            add(object, lower, places);
            return true;
        }
    } catch (const std::exception &) {
        fault = "out of memory";
        remove(object);
    }
    stand_in::tell("an adapter", stand_in::Level::Warn, fault, ": OLA's own controller is used for it");
    return false;
}

// While OLA's constructor of the one class runs, it calls that of the other, which is replaced too.
thread_local bool is_handing_on = false;

class HandingOn {
public:
    HandingOn() : was_handing_on_(std::exchange(is_handing_on, true)) {}
    ~HandingOn() { is_handing_on = was_handing_on_; }
    HandingOn(const HandingOn &) = delete;
    HandingOn &operator=(const HandingOn &) = delete;

private:
    const bool was_handing_on_;
};

template <typename InPlace, typename Lower>
void make(Replaced constructor, void *object, Lower *lower, unsigned int places) {
    if (!is_handing_on && try_add(object, lower, places)) {
        try {
            new (object) InPlace(lower, places);
        } catch (...) {
            // Nobody destroys what wasn't constructed.
            remove(object);
            throw;
        }
        return;
    }
    const HandingOn handing_on;
    own<void(void *, Lower *, unsigned int)>(constructor)(object, lower, places);
}

} // namespace

void stand_in::stop(const void *widget, const std::function<void()> &own_stop) {
    const auto found = over(widget);
    if (found) {
        found->expect_abort();
    }
    own_stop();
    if (found) {
        found->abort();
    }
}

namespace ola::rdm {

// An adapter's class calls this when it stops: on OLA's thread, while OLA's ports exist.
void DiscoveryAgent::Abort() {
    if (const auto found = stand_in::may_replace() ? over(m_target) : nullptr) {
        found->abort();
    }
    own<void(DiscoveryAgent *)>(Replaced::Abort)(this);
}

QueueInPlace::QueueInPlace(RDMControllerInterface *controller, unsigned int max_queue_size)
    : m_controller(controller), m_max_queue_size(max_queue_size), m_rdm_request_pending(false), m_active(true) {}

QueueInPlace::~QueueInPlace() {
    of(this)->end();
    remove(this);
}

void QueueInPlace::SendRDMRequest(RDMRequest *request, RDMCallback *callback) { of(this)->send(request, callback); }

// Nobody calls these, but OLA's header declares them virtual.
void QueueInPlace::TakeNextAction() {}
bool QueueInPlace::CheckForBlockingCondition() { return false; }

DiscoverableQueueInPlace::DiscoverableQueueInPlace(DiscoverableRDMControllerInterface *controller,
                                                   unsigned int max_queue_size)
    : QueueInPlace(controller, max_queue_size), m_discoverable_controller(controller) {}

void DiscoverableQueueInPlace::TakeNextAction() {}
bool DiscoverableQueueInPlace::CheckForBlockingCondition() { return false; }

} // namespace ola::rdm

// What the dynamic linker finds in place of OLA's functions. Complete objects and those of a base class have the same
// constructor and destructor.
#define NAMED(symbol) __asm__(symbol)
#define QUEUE "_ZN3ola3rdm21QueueingRDMController"
#define DISCOVERABLE_QUEUE "_ZN3ola3rdm33DiscoverableQueueingRDMController"
#define DISCOVERY "EPNS_13BaseCallback1IvRKNS0_6UIDSetEEE"

extern "C" {
void make_queue(void *, RDMControllerInterface *, unsigned int) NAMED(QUEUE "C1EPNS0_22RDMControllerInterfaceEj");
void make_base_queue(void *, RDMControllerInterface *, unsigned int) NAMED(QUEUE "C2EPNS0_22RDMControllerInterfaceEj");
void end_queue(void *) NAMED(QUEUE "D1Ev");
void end_base_queue(void *) NAMED(QUEUE "D2Ev");
void pause_queue(void *) NAMED(QUEUE "5PauseEv");
void resume_queue(void *) NAMED(QUEUE "6ResumeEv");
void send_request(void *, RDMRequest *, RDMCallback *)
    NAMED(QUEUE "14SendRDMRequestEPNS0_10RDMRequestEPNS_13BaseCallback1IvPNS0_8RDMReplyEEE");
void make_discoverable(void *, DiscoverableRDMControllerInterface *, unsigned int)
    NAMED(DISCOVERABLE_QUEUE "C1EPNS0_34DiscoverableRDMControllerInterfaceEj");
void make_base_discoverable(void *, DiscoverableRDMControllerInterface *, unsigned int)
    NAMED(DISCOVERABLE_QUEUE "C2EPNS0_34DiscoverableRDMControllerInterfaceEj");
void run_full_discovery(void *, RDMDiscoveryCallback *) NAMED(DISCOVERABLE_QUEUE "16RunFullDiscovery" DISCOVERY);
void run_incremental_discovery(void *, RDMDiscoveryCallback *)
    NAMED(DISCOVERABLE_QUEUE "23RunIncrementalDiscovery" DISCOVERY);
}

void make_queue(void *object, RDMControllerInterface *lower, unsigned int places) {
    make<QueueInPlace>(Replaced::MakeQueue, object, lower, places);
}
void make_base_queue(void *object, RDMControllerInterface *lower, unsigned int places) {
    make_queue(object, lower, places);
}

void make_discoverable(void *object, DiscoverableRDMControllerInterface *lower, unsigned int places) {
    make<DiscoverableQueueInPlace>(Replaced::MakeDiscoverableQueue, object, lower, places);
}
void make_base_discoverable(void *object, DiscoverableRDMControllerInterface *lower, unsigned int places) {
    make_discoverable(object, lower, places);
}

// An object that OLA's code ends by its own class has that class's virtual functions already.
void end_queue(void *object) {
    if (of(object)) {
        static_cast<QueueInPlace *>(object)->QueueInPlace::~QueueInPlace();
    } else {
        own<void(void *)>(Replaced::EndQueue)(object);
    }
}
void end_base_queue(void *object) { end_queue(object); }

void pause_queue(void *object) {
    const auto mine = of(object);
    mine ? mine->pause() : own<void(void *)>(Replaced::Pause)(object);
}

void resume_queue(void *object) {
    const auto mine = of(object);
    mine ? mine->resume() : own<void(void *)>(Replaced::Resume)(object);
}

void send_request(void *object, RDMRequest *request, RDMCallback *callback) {
    const auto mine = of(object);
    mine ? mine->send(request, callback)
         : own<void(void *, RDMRequest *, RDMCallback *)>(Replaced::Send)(object, request, callback);
}

void run_full_discovery(void *object, RDMDiscoveryCallback *callback) {
    const auto mine = of(object);
    mine ? mine->discover(WURST_FULL_DISCOVERY, callback)
         : own<void(void *, RDMDiscoveryCallback *)>(Replaced::FullDiscovery)(object, callback);
}

void run_incremental_discovery(void *object, RDMDiscoveryCallback *callback) {
    const auto mine = of(object);
    mine ? mine->discover(WURST_INCREMENTAL, callback)
         : own<void(void *, RDMDiscoveryCallback *)>(Replaced::IncrementalDiscovery)(object, callback);
}
