// The worst moments: each callable that the stand-in calls throws, and each of its allocations fails, one at a time. A
// controller ends on another thread at each place where it waits. Afterwards all callbacks have run once, and the next
// request and the next discovery are served.
#include "checks.hpp"

#include <ola/Logging.h>

#include <algorithm>
#include <chrono>
#include <new>
#include <thread>

namespace tests {
namespace {

// What a callable throws.
struct Thrown {};

// With sanitizers, which take much longer, only some allocations fail.
#if defined(__SANITIZE_ADDRESS__) || defined(__SANITIZE_THREAD__)
constexpr unsigned int ALLOCATIONS_AT_ONCE = 5;
#else
constexpr unsigned int ALLOCATIONS_AT_ONCE = 1;
#endif

// Which call of a callable throws, and which allocation fails, counted from 1; 0: none.
struct Moment {
    unsigned int throws = 0;
    unsigned int fails = 0;
    unsigned int calls = 0;
    unsigned int allocations = 0;
};
Moment moment;
// Whether this thread is in the code under test.
thread_local bool is_armed = false;

class Armed {
public:
    explicit Armed(bool armed) : was_armed_(std::exchange(is_armed, armed)) {}
    ~Armed() { is_armed = was_armed_; }
    Armed(const Armed &) = delete;
    Armed &operator=(const Armed &) = delete;

private:
    const bool was_armed_;
};

void called() {
    if (++moment.calls == moment.throws) {
        throw Thrown();
    }
}

// Runs what the layer below was given, in which allocations may fail.
class Relay : public RDMCallback,
              public DiscoveryTargetInterface::BranchCallback,
              public DiscoveryTargetInterface::UnMuteDeviceCallback,
              public RDMDiscoveryCallback {
public:
    template <typename Callback> explicit Relay(Callback *callback) {
        if constexpr (std::is_same_v<Callback, RDMCallback>) {
            replied_ = callback;
        } else if constexpr (std::is_same_v<Callback, DiscoveryTargetInterface::BranchCallback>) {
            branched_ = callback;
        } else if constexpr (std::is_same_v<Callback, DiscoveryTargetInterface::UnMuteDeviceCallback>) {
            unmuted_ = callback;
        } else {
            found_ = callback;
        }
    }

    void Run(RDMReply *reply) override { run([&] { replied_->Run(reply); }); }
    void Run(const std::uint8_t *data, unsigned int length) override { run([&] { branched_->Run(data, length); }); }
    void Run() override { run([&] { unmuted_->Run(); }); }
    void Run(const UIDSet &devices) override { run([&] { found_->Run(devices); }); }

private:
    // What a client's callback throws comes through here, to the layer below.
    template <typename Callback> static void run(Callback callback) {
        const Armed armed(true);
        try {
            callback();
        } catch (const Thrown &) {
        }
    }

    RDMCallback *replied_ = nullptr;
    DiscoveryTargetInterface::BranchCallback *branched_ = nullptr;
    DiscoveryTargetInterface::UnMuteDeviceCallback *unmuted_ = nullptr;
    RDMDiscoveryCallback *found_ = nullptr;
};

// A layer below that throws before it sends something, or after that.
template <typename L> class Throwing : public L {
public:
    void SendRDMRequest(RDMRequest *taken, RDMCallback *callback) override {
        const Armed armed(false);
        std::unique_ptr<RDMRequest> owned(taken);
        around([&] { L::SendRDMRequest(owned.release(), relay(callback)); });
    }
    void RunFullDiscovery(RDMDiscoveryCallback *callback) override {
        const Armed armed(false);
        around([&] { L::RunFullDiscovery(relay(callback)); });
    }
    void RunIncrementalDiscovery(RDMDiscoveryCallback *callback) override {
        const Armed armed(false);
        around([&] { L::RunIncrementalDiscovery(relay(callback)); });
    }

protected:
    template <typename Callback> Relay *relay(Callback *callback) {
        relays_.push_back(std::make_unique<Relay>(callback));
        return relays_.back().get();
    }
    template <typename Call> static void around(Call call) {
        called();
        call();
        called();
    }

private:
    std::vector<std::unique_ptr<Relay>> relays_;
};

class ThrowingTarget : public Throwing<TargetLower> {
public:
    void UnMuteAll(UnMuteDeviceCallback *callback) override {
        const Armed armed(false);
        around([&] { TargetLower::UnMuteAll(relay(callback)); });
    }
    void Branch(const UID &lower, const UID &upper, BranchCallback *callback) override {
        const Armed armed(false);
        around([&] { TargetLower::Branch(lower, upper, relay(callback)); });
    }
};

// By its name, it sends a discovery's frames as requests.
namespace named {
class DmxterWidgetImpl : public Throwing<Lower> {};
} // namespace named

// A client whose callbacks throw.
class Caller {
public:
    unsigned int replies = 0;
    unsigned int sets = 0;
    RDMStatusCode status = RDM_COMPLETED_OK;
    UIDSet found;

    RDMCallback *callback() { return callback_.get(); }
    RDMDiscoveryCallback *discovery() { return discovery_.get(); }

private:
    void replied(RDMReply *reply) {
        const Armed armed(false);
        replies++;
        status = reply->StatusCode();
        called();
    }
    void discovered(const UIDSet &set) {
        const Armed armed(false);
        sets++;
        found = set;
        called();
    }

    std::unique_ptr<RDMCallback> callback_{ola::NewCallback(this, &Caller::replied)};
    std::unique_ptr<RDMDiscoveryCallback> discovery_{ola::NewCallback(this, &Caller::discovered)};
};

// A life of a queue over such a layer.
template <typename L> class Day {
public:
    explicit Day(When when) {
        lower_.when = when;
        lower_.wire.fixtures = fixtures(1);
    }

    // Everything that a client may ask for, while the queue runs and while it is paused.
    void run() {
        request(get());
        request(NewMuteRequest(CLIENT, DEVICE, 1));
        request(set());
        for (int i = 0; i < 3; i++) {
            discover(i == 1);
            discover(false);
        }
        answer_all();
        // After an answer of another exchange, the next discovery checks the line first.
        lower_.answers = [](const RDMRequest &) { return std::make_unique<RDMReply>(RDM_TRANSACTION_MISMATCH); };
        request(get());
        answer_all();
        lower_.answers = nullptr;
        discover(false);
        answer_all();
        act([&] { queue_->Pause(); });
        request(get());
        discover(true);
        act([&] { queue_->Resume(); });
        answer_all();
    }

    // So many answers, and nothing more is awaited if there are fewer.
    bool answer(unsigned int answers) {
        for (unsigned int i = 0; i < answers && lower_.awaits(); i++) {
            lower_.answer();
        }
        return lower_.awaits();
    }

    void answer_all() { answer(~0U); }

    bool has_called_all() const {
        bool all = has_replied_to_all();
        for (const auto &each : discoveries_) {
            all &= each->sets == 1;
        }
        return all;
    }

    // Whether the next request and the next discovery are served.
    bool goes_on() {
        request(get());
        answer_all();
        const bool has_replied = requests_.back()->replies == 1 && requests_.back()->status == RDM_COMPLETED_OK;
        discover(true);
        answer_all();
        return has_replied && discoveries_.back()->sets == 1 && discoveries_.back()->found == uids_of(lower_.wire);
    }

    // Ends the queue on another thread. It may call no discovery's callback there. False: it didn't end at once.
    bool end_elsewhere() {
        const auto began = std::chrono::steady_clock::now();
        std::thread([this] { queue_.reset(); }).join();
        const auto took = std::chrono::steady_clock::now() - began;
        return took < std::chrono::seconds(1) && has_replied_to_all();
    }

    // Ends the queue. What callbacks throw meanwhile goes nowhere.
    void end() { act([&] { queue_.reset(); }); }

    bool has_replied_to_all() const {
        return std::all_of(requests_.begin(), requests_.end(), [](const auto &each) { return each->replies == 1; });
    }

    void request(RDMRequest *request) {
        requests_.push_back(std::make_unique<Caller>());
        act([&] { queue_->SendRDMRequest(request, requests_.back()->callback()); });
    }
    void discover(bool is_full) {
        discoveries_.push_back(std::make_unique<Caller>());
        auto *const callback = discoveries_.back()->discovery();
        act([&] { is_full ? queue_->RunFullDiscovery(callback) : queue_->RunIncrementalDiscovery(callback); });
    }
    std::size_t found() const {
        std::size_t all = 0;
        for (const auto &each : discoveries_) {
            all += each->sets;
        }
        return all;
    }

private:
    // A call of OLA's. Nothing but a client's exception comes out of it.
    template <typename Call> static void act(Call call) {
        const Armed armed(true);
        try {
            call();
        } catch (const Thrown &) {
        }
    }

    L lower_;
    std::vector<std::unique_ptr<Caller>> requests_;
    std::vector<std::unique_ptr<Caller>> discoveries_;
    std::unique_ptr<Queue> queue_{std::make_unique<Queue>(&lower_, 20)};
};

// A day with each moment in turn, until there are no more. `which` is what is counted.
template <typename L> void test_each(When when, unsigned int Moment::*which, unsigned int Moment::*count) {
    const unsigned int step = which == &Moment::fails ? ALLOCATIONS_AT_ONCE : 1;
    for (unsigned int number = 1;; number += step) {
        Day<L> day(when);
        // An exception in OLA's own logging ends the process, since it writes in a destructor.
        ola::SetLogLevel(which == &Moment::fails ? ola::OLA_LOG_NONE : ola::OLA_LOG_INFO);
        moment = {};
        moment.*which = number;
        day.run();
        const bool is_over = moment.*count < number;
        moment = {};
        ola::SetLogLevel(ola::OLA_LOG_INFO);
        CHECK(day.has_called_all());
        CHECK(day.goes_on());
        CHECK(day.has_called_all());
        if (is_over) {
            CHECK(number > 20);
            return;
        }
    }
}

// A controller ends on another thread, with each number of answers before.
template <typename L> void test_ends_elsewhere() {
    bool is_at_end = false;
    for (unsigned int answers = 0; !is_at_end; answers++) {
        Day<L> day(When::Later);
        day.request(get());
        day.request(NewMuteRequest(CLIENT, DEVICE, 1));
        day.discover(true);
        day.discover(false);
        is_at_end = !day.answer(answers);
        const auto found = day.found();
        CHECK(day.end_elsewhere());
        CHECK(day.found() == found);
    }
}

// A controller ends, and each of the callbacks that this runs throws: the others run all the same.
template <typename L> void test_throws_at_its_end() {
    for (const unsigned int number : {1, 2, 3}) {
        Day<L> day(When::Later);
        moment = {};
        for (int i = 0; i < 3; i++) {
            day.request(get());
        }
        moment = {};
        moment.throws = number;
        day.end();
        CHECK(moment.calls >= number && day.has_replied_to_all());
        moment = {};
    }
}

// Each discovery's callback runs on the thread that asked for it, or never.
void test_threads_of_discoveries() {
    TargetLower lower;
    lower.when = When::Later;
    lower.wire.fixtures = fixtures(2);
    Client first, second;
    Queue queue(&lower, 20);
    queue.RunFullDiscovery(first.discovery());
    std::thread([&] { queue.RunIncrementalDiscovery(second.discovery()); }).join();
    lower.answer_all();
    CHECK(first.sets.size() == 1 && first.sets[0] == uids_of(lower.wire));
    CHECK(second.sets.empty());
}

// A controller for which there is no memory is OLA's own, and serves its client all the same.
void test_no_memory_to_begin() {
    for (bool is_over = false; !is_over;) {
        TargetLower lower;
        lower.wire.fixtures = fixtures(1);
        Client client;
        std::unique_ptr<Queue> queue;
        const unsigned int number = moment.fails + 1;
        moment = {};
        moment.fails = number;
        const Armed armed(true);
        try {
            queue = std::make_unique<Queue>(&lower, 20);
        } catch (const std::bad_alloc &) {
            continue;
        }
        is_armed = false;
        is_over = moment.allocations < number;
        queue->SendRDMRequest(get(), client.callback());
        queue->RunFullDiscovery(client.discovery());
        CHECK(client.got.size() == 1 && client.last() == RDM_COMPLETED_OK);
        CHECK(client.sets.size() == 1 && client.sets[0] == uids_of(lower.wire));
        CHECK(!is_over || number > 5);
    }
    moment = {};
}

template <typename L> void test_layer() {
    for (const When when : {When::Inside, When::Later}) {
        test_each<L>(when, &Moment::throws, &Moment::calls);
        test_each<L>(when, &Moment::fails, &Moment::allocations);
    }
    test_ends_elsewhere<L>();
    test_throws_at_its_end<L>();
}

} // namespace

// A record of the log that there is no memory for is lost, and nothing else is.
void test_records() { test_each<ThrowingTarget>(When::Inside, &Moment::fails, &Moment::allocations); }

void test_moments() {
    test_layer<Throwing<Lower>>();
    test_layer<ThrowingTarget>();
    test_layer<named::DmxterWidgetImpl>();
    test_threads_of_discoveries();
    test_no_memory_to_begin();
}

} // namespace tests

// In place of the library's.
void *operator new(std::size_t size) {
    const bool is_refused = tests::is_armed && ++tests::moment.allocations == tests::moment.fails;
    void *const made = is_refused ? nullptr : std::malloc(size > 0 ? size : 1);
    if (made == nullptr) {
        throw std::bad_alloc();
    }
    return made;
}
// Not inlined: the compiler would take its own call of free for a mismatched one.
[[gnu::noinline]] void operator delete(void *at) noexcept { std::free(at); }
[[gnu::noinline]] void operator delete(void *at, std::size_t) noexcept { std::free(at); }
