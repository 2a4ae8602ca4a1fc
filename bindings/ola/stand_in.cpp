#include "stand_in.hpp"
#include "journal.hpp"
#include <algorithm>

namespace stand_in {
using namespace ola::rdm;

// The controller's UID in the core's frames. E1.20 leaves its manufacturer to prototypes. So no reply to the adapter's
// or a client's own UID looks like a reply to a frame of the core.
constexpr wurst::Uid SOURCE{0x7ff0, 0x00000001};
// So many silences in a row show that a range is empty. A run that hears nothing ends with the last of them.
constexpr unsigned int SILENT_BRANCHES = 5;
// How often a GET is made again whose answer may lack its first parts.
constexpr unsigned int MOST_REPEATS = 5;
// How often a discovery is made again in which an answer was that of an earlier frame.
constexpr unsigned int MOST_MORE_RUNS = 16;
constexpr const char *STOPPED = "the adapter was stopped";
constexpr const char *DISCOVERY_BY_BRIDGE[] = {
    "the proved discovery, by the adapter's discovery calls and requests",
    "the proved discovery, by the adapter's requests", "the adapter's own discovery, which isn't proved",
    "no discovery"};

template <typename Devices> std::shared_ptr<const UIDSet> set_of(const Devices &devices) {
    const auto set = std::make_shared<UIDSet>();
    for (const wurst::Device &each : devices) {
        set->AddUID(UID(each.uid.manufacturer(), each.uid.device()));
    }
    return set;
}

StandIn::StandIn(RDMControllerInterface *lower, unsigned int places)
    : Below(lower), controller_(++controllers_), places_asked_(places),
      places_(std::clamp<unsigned int>(places, 1, UINT8_MAX)),
      core_(SOURCE, places_, settings().budget, settings().search), client_(core_.join(places_)),
      data_(new std::uint8_t[WURST_MOST_JOINED_BYTES]), forms_(new wurst_device[WURST_MOST_DEVICES]),
      given_(std::make_shared<UIDSet>()) {
    record(controller_, "call", "open", "places", places_);
}

// Many controllers are never used, and some only for requests. So they say nothing until then.
void StandIn::introduce(bool discovers) {
    if (!std::exchange(is_used_, true) && places_ != places_asked_) {
        tell(name(), Level::Warn, "its queue has ", int{places_}, " places, not ", places_asked_);
    }
    if (discovers && !std::exchange(has_discovered_, true)) {
        tell(name(), Level::Inform, DISCOVERY_BY_BRIDGE[static_cast<int>(bridge())]);
    }
}

void StandIn::pause() {
    record(controller_, "call", "pause");
    if (!std::exchange(is_paused_, true)) {
        paused_ = Clock::now();
    }
    core_.pause();
}

void StandIn::resume() {
    record(controller_, "call", "resume");
    if (std::exchange(is_paused_, false)) {
        run_.began += Clock::now() - paused_;
    }
    core_.resume();
    within([this] {
        if (const auto step = std::exchange(run_.held_step, nullptr)) {
            is_aborted_ ? fail(STOPPED) : step();
        }
    });
    pass_on();
}

void StandIn::send(RDMRequest *taken, RDMCallback *callback) {
    std::unique_ptr<RDMRequest> owned(taken);
    introduce(false);
    const auto order = requests_made_++;
    const bool is_cores = is_for_core(*taken);
    const wurst_request form = form_of(*taken);
    const wurst::Bytes data(taken->ParamData(), taken->ParamDataSize());
    record(controller_, "call", is_cores ? "request" : "handed down", "request", order, "target",
           taken->DestinationUID(), "class", taken->CommandClass(), "sub_device", form.sub_device, "pid", form.pid,
           "data", data);
    Requests one;
    try {
        one.push_back({order, std::move(owned), callback, {}});
        if (is_cores) {
            core_.submit(client_, form, data);
        } else if (has_ended_ || handed_.size() >= places_) {
            throw wurst::Fault(WURST_FULL);
        }
    } catch (const std::exception &fault) {
        refuse(callback, fault.what());
        return pass_on();
    }
    Requests &queue = is_cores ? requests_ : handed_;
    queue.splice(queue.end(), one);
    pump();
    pass_on();
}

void StandIn::refuse(RDMCallback *callback, const char *why) {
    record(controller_, "result", "refused", "why", why);
    keep_thrown([=] {
        if (callback != nullptr) {
            RunRDMCallback(callback, RDM_FAILED_TO_SEND);
        }
    });
}

void StandIn::discover(wurst_kind kind, RDMDiscoveryCallback *callback) {
    introduce(true);
    record(controller_, "call", kind == WURST_FULL_DISCOVERY ? "full discovery" : "incremental discovery");
    const Asked asked{callback, std::this_thread::get_id()};
    const bool is_over = is_aborted_ || has_ended_;
    DiscoveryList one;
    try {
        one.push_back({kind, {asked}, 0});
    } catch (const std::bad_alloc &) {
        keep_thrown([&] { callback != nullptr ? callback->Run(is_over ? UIDSet() : *given_) : void(); });
        return pass_on();
    }
    if (is_over) {
        run(one.front().asked, UIDSet());
        return pass_on();
    }
    if (bridge() == Bridge::Own || !ask(one)) {
        wait(one);
    }
    pump();
    pass_on();
}

// Asks the core for a discovery. False: the client has reached the core's limit of outstanding discoveries, or the core
// is closed.
bool StandIn::ask(DiscoveryList &one) {
    try {
        core_.discover(client_, one.front().kind);
    } catch (const std::exception &) {
        return false;
    }
    discoveries_.splice(discoveries_.end(), one);
    return true;
}

// Adds a discovery to those that wait, which are full if one of them is.
void StandIn::wait(DiscoveryList &one) {
    if (waiting_.empty()) {
        return waiting_.splice(waiting_.end(), one);
    }
    Discoveries &all = waiting_.front();
    all.kind = one.front().kind == WURST_FULL_DISCOVERY ? WURST_FULL_DISCOVERY : all.kind;
    all.asked.splice(all.asked.end(), one.front().asked);
}

// Does work that may run callbacks, and then sends what there is to send. Nested calls, from callbacks, don't send.
template <typename Work> void StandIn::within(Work work) {
    const auto self = shared_from_this();
    const bool was_within = std::exchange(is_within_, true);
    keep_thrown(work);
    keep_thrown([&] {
        while (!was_within && !has_ended_ && !is_paused_ && !is_busy() && send_next()) {
        }
    });
    is_within_ = was_within;
}

// Keeps the first exception, until it is passed on. The others are dropped.
template <typename Work> void StandIn::keep_thrown(Work work) noexcept {
    try {
        work();
    } catch (...) {
        thrown_ = thrown_ ? thrown_ : std::current_exception();
    }
}

void StandIn::pass_on() {
    if (!is_within_ && thrown_) {
        std::rethrow_exception(std::exchange(thrown_, nullptr));
    }
}

void StandIn::pump() { within([] {}); }

bool StandIn::send_next() {
    if (is_handed_down_next()) {
        record(controller_, "sent", "handed down", "request", handed_.front().order);
        hand_down(std::move(handed_.front().request));
    } else if (bridge() == Bridge::Own && is_aborted_ && !waiting_.empty()) {
        run(std::exchange(waiting_, {}).front().asked, UIDSet());
    } else if (bridge() == Bridge::Own && !is_under_way_ && !waiting_.empty()) {
        record(controller_, "sent", "the adapter's own discovery");
        discoveries_.splice(discoveries_.end(), waiting_);
        discover_below(discoveries_.front().kind == WURST_FULL_DISCOVERY);
    } else if (const auto frame = core_.take()) {
        record(controller_, "sent", "frame", "frame", wurst::Bytes(*frame));
        const bool is_first = !std::exchange(is_under_way_, true);
        if (is_request(*frame)) {
            send_down(*frame, requests_.front().request.get());
        } else {
            continue_run(*frame, is_first);
        }
    } else {
        return false;
    }
    return true;
}

// Discoveries go first, and then requests in their order.
bool StandIn::is_handed_down_next() const {
    return !handed_.empty() && !is_under_way_ && discoveries_.empty() && waiting_.empty()
        && (requests_.empty() || handed_.front().order < requests_.front().order);
}

void StandIn::heard(const Heard &heard, const RDMReply *reply) {
    record(controller_, "heard", heard.failure != nullptr ? "failed" : "reply", "reply", wurst::Bytes(heard.bytes),
           "status_below", heard.status);
    if (sent().kind == WURST_REQUEST) {
        Request &request = requests_.front();
        if (reply != nullptr) {
            request.frames.insert(request.frames.end(), reply->Frames().begin(), reply->Frames().end());
            request.message_count = reply->Response() != nullptr ? reply->Response()->MessageCount() : 0;
        }
        request.status = heard.status;
        request.replies++;
    }
    within([&] { deliver(heard); });
}

// A few devices, of which one is still there, unless the rig was changed.
static std::vector<UID> some_of(const std::vector<wurst::Device> &devices) {
    const std::size_t count = std::min<std::size_t>(devices.size(), 4);
    std::vector<UID> some;
    // The device that answered last is added to them, without an allocation that might fail.
    some.reserve(count + 1);
    for (std::size_t i = 0; i < count; i++) {
        some.emplace_back(devices[i].uid.manufacturer(), devices[i].uid.device());
    }
    return some;
}

// The core's run serves all discoveries that it was asked for before, and is full if one of them is.
void StandIn::begin_run() {
    run_ = {};
    run_.began = Clock::now();
    if (settings().runs.empty()) {
        return;
    }
    const bool is_full = std::any_of(discoveries_.begin(), discoveries_.end(), [](const Discoveries &each) {
        return each.kind == WURST_FULL_DISCOVERY;
    });
    const auto kind = is_full ? WURST_FULL_DISCOVERY : WURST_INCREMENTAL;
    try {
        const auto known = is_full ? std::vector<wurst::Device>() : core_.devices();
        run_log_.begin({SOURCE, settings().budget, settings().search, kind, known});
    } catch (const std::bad_alloc &) {
        run_log_.lose();
    }
}

// Sends a frame of a run. The first one may have to wait for a check of the line.
void StandIn::continue_run(const wurst::Frame &frame, bool is_first) {
    if (is_first) {
        begin_run();
    }
    run_log_.sent(frame);
    if (is_aborted_) {
        fail(STOPPED);
    } else if (!is_first || std::exchange(is_behind_, false) || !is_in_doubt()) {
        send_down(frame, nullptr);
    } else {
        run_.held_frame = frame;
        check_line();
    }
}

void StandIn::check_line() {
    std::vector<UID> devices;
    try {
        devices = some_of(core_.devices());
    } catch (const std::bad_alloc &) {
        run_.held_frame.reset();
        return fail(NO_MEMORY);
    }
    if (!check_answers(std::move(devices))) {
        // The run itself has to show it.
        send_held();
    }
}

void StandIn::deliver(const Heard &heard) {
    const bool is_run = sent().kind != WURST_REQUEST;
    const char *const failure = is_run ? failure_of(heard) : heard.failure;
    if (failure != nullptr) {
        run_.is_behind = failure == OUT_OF_STEP;
        fail(failure);
    } else if (is_run && is_emptied_in_doubt(heard)) {
        fail(OUT_OF_STEP);
    } else if (is_run && is_last_silence(heard)) {
        proceed([this] { check_adapter(); });
    } else {
        give(heard.bytes);
    }
}

void StandIn::give(wurst::Bytes bytes) {
    run_log_.came(bytes);
    core_.deliver(bytes);
    collect();
}

void StandIn::fail(const char *why) {
    failure_ = why;
    run_log_.failed();
    core_.fail();
    collect();
}

const char *StandIn::failure_of(const Heard &heard) const {
    if (is_aborted_) {
        return STOPPED;
    }
    const bool is_too_long = settings().seconds > 0
        && Clock::now() - run_.began >= std::chrono::seconds(settings().seconds);
    return heard.failure == nullptr && is_too_long ? "it took longer than WURSTLINEN_SECONDS" : heard.failure;
}

// A run that has heard nothing says that there is no device. But an adapter that doesn't send is silent too.
bool StandIn::is_last_silence(const Heard &heard) {
    run_.is_silent &= heard.bytes.empty();
    run_.silent_branches += sent().kind == WURST_BRANCH ? 1 : 0;
    return run_.is_silent && run_.silent_branches == SILENT_BRANCHES;
}

// The core takes a range for empty after five silences in a row, and no run ends well without such a range. But while
// answers may be those of earlier frames, silences show nothing.
bool StandIn::is_emptied_in_doubt(const Heard &heard) {
    if (sent().kind != WURST_BRANCH) {
        return false;
    }
    const bool is_same_range = sent().lo == run_.lo && sent().hi == run_.hi;
    run_.lo = sent().lo;
    run_.hi = sent().hi;
    run_.silences = heard.bytes.empty() ? (is_same_range ? run_.silences : 0) + 1 : 0;
    return is_in_doubt() && run_.silences >= SILENT_BRANCHES;
}

// The line was checked: before a run, or before the end of a silent one. If no known device answers any more, the run
// itself has to show whether answers are those of their own frames.
void StandIn::checked(const Heard &heard) {
    record(controller_, "heard", heard.failure == nullptr ? "check" : "failed check", "status_below", heard.status);
    within([&] {
        if (const char *const failure = failure_of(heard)) {
            fail(failure);
        } else if (run_.held_frame) {
            proceed([this] { send_held(); });
        } else {
            give({});
        }
    });
}

void StandIn::check_more() {
    proceed([this] { check_next(); });
}

void StandIn::send_held() { send_down(*std::exchange(run_.held_frame, std::nullopt), nullptr); }

// Takes a step of a run, which sends something, now or when the queue is resumed.
void StandIn::proceed(std::function<void()> step) {
    if (is_paused_) {
        run_.held_step = std::move(step);
    } else {
        step();
    }
}

// Runs the callbacks of all requests and discoveries that have ended.
void StandIn::collect() {
    while (const auto kind = core_.oldest(client_)) {
        is_under_way_ = false;
        if (*kind == WURST_REQUEST_OUTCOME) {
            finish(*core_.next_completion(client_, data_.get(), WURST_MOST_JOINED_BYTES));
        } else {
            answer(*core_.next_discovery(client_, forms_.get(), WURST_MOST_DEVICES));
        }
    }
}

// Asks again for an answer that may lack its first parts, behind all that waits. False: that can't be done, or was done
// often enough.
bool StandIn::ask_again(const wurst::CompletionView &done) {
    Request &oldest = requests_.front();
    if (oldest.repeats == MOST_REPEATS) {
        tell(name(), Level::Warn, oldest.request->DestinationUID(),
             " gave no whole answer to a GET, as others of the same, or over 1,024 others, break off again and again");
        return false;
    }
    Requests again;
    try {
        again.push_back({oldest.order, repeated(*oldest.request), oldest.callback, {}});
        const RDMRequest &request = *again.front().request;
        core_.submit(client_, form_of(request), {request.ParamData(), request.ParamDataSize()});
    } catch (const std::exception &) {
        return false;
    }
    again.front().repeats = oldest.repeats + 1;
    record(controller_, "result", "asked again", "request", oldest.order, "data", done.data);
    requests_.pop_front();
    requests_.splice(requests_.end(), again);
    return true;
}

void StandIn::finish(const wurst::CompletionView &done) {
    if (done.may_be_incomplete() && ask_again(done)) {
        return;
    }
    const Request request = std::move(requests_.front());
    requests_.pop_front();
    const RDMStatusCode status = status_of(done, request.status, request.replies);
    record(controller_, "result", "request", "request", request.order, "status", done.head.status, "status_given",
           status, "data", done.data);
    std::optional<RDMReply> reply;
    try {
        reply.emplace(status, response_to(*request.request, done, request.message_count).release(), request.frames);
    } catch (const std::bad_alloc &) {
        reply.emplace(status_of(WURST_NO_MEMORY));
    }
    keep_thrown([&] {
        if (request.callback != nullptr) {
            request.callback->Run(&*reply);
        }
    });
}

void StandIn::answer(const wurst::DiscoveryView &done) {
    run_log_.end();
    if (repeat(done)) {
        return;
    }
    const Devices devices = devices_to_give(done);
    record(controller_, "result", "discovery", "run", done.end.run, "fault", done.end.fault, "found", done.devices,
           "given", devices->Size());
    const bool is_told = is_aborted_ || has_ended_ || run_told_ == done.end.run;
    if (done.fault() != WURST_NO_FAULT && !is_told) {
        run_told_ = done.end.run;
        tell_fault(done, *devices);
    }
    answer_oldest(*devices);
}

StandIn::Devices StandIn::devices_to_give(const wurst::DiscoveryView &done) {
    const bool is_good = has_searched(done.fault()) || core_.devices_run() == 0;
    try {
        if (is_aborted_) {
            return std::make_shared<UIDSet>();
        }
        given_ = is_good ? set_of(done.devices) : set_of(core_.devices());
    } catch (const std::bad_alloc &) {
        tell(name(), Level::Warn, NO_MEMORY, ": OLA is given the devices of the discovery before");
    }
    return given_;
}

void StandIn::tell_fault(const wurst::DiscoveryView &done, const UIDSet &devices) noexcept {
    try {
        // Another run may have begun since.
        const auto bad = core_.bad_uids_run() == done.end.run ? core_.bad_uids() : wurst::BadUids();
        const std::string why = done.fault() == WURST_LINE_FAILED ? failure_ : text_of(done.end);
        tell(name(), Level::Warn, "discovery failed: ", why, text_of(bad, done.end), "; it found ", done.end.count,
             " devices until then, and OLA is given ", devices.Size());
    } catch (const std::exception &) {
        // OLA gets the devices all the same.
    }
}

// A daemon that stood still hears a good answer as late as that of an adapter that hangs, and nobody repeats its first
// discovery. So if nothing else was wrong, the same discovery is asked for once more. After an answer to an earlier
// frame, it is asked for several times: a run begins with an unmute, during which EnttecPortImpl drops responses that
// were due. False: it isn't.
bool StandIn::repeat(const wurst::DiscoveryView &done) {
    const unsigned int most = run_.is_behind ? MOST_MORE_RUNS : failure_ == LATE ? 1 : 0;
    const unsigned int repeats = discoveries_.front().repeats;
    if (done.fault() != WURST_LINE_FAILED || is_aborted_ || has_ended_ || repeats >= most) {
        return false;
    }
    DiscoveryList oldest;
    oldest.splice(oldest.end(), discoveries_, discoveries_.begin());
    if (!ask(oldest)) {
        discoveries_.splice(discoveries_.begin(), oldest);
        return false;
    }
    discoveries_.back().repeats++;
    is_behind_ = run_.is_behind;
    record(controller_, "result", "repeated discovery", "run", done.end.run, "found", done.devices);
    if (std::exchange(run_told_, done.end.run) != done.end.run && repeats == 0) {
        tell(name(), Level::Warn, "discovery is repeated: ", is_behind_ ? "an answer was an earlier frame's" : LATE);
    }
    return true;
}

void StandIn::answer_oldest(const UIDSet &devices) {
    DiscoveryList oldest;
    oldest.splice(oldest.end(), discoveries_, discoveries_.begin());
    if (bridge() != Bridge::Own && !waiting_.empty()) {
        ask(waiting_);
    }
    run(oldest.front().asked, devices);
}

// OLA's adapters end on another thread, when its ports are gone. Some of them answer then. OLA's own class would run
// the callbacks.
void StandIn::run(const std::list<Asked> &asked, const UIDSet &devices) {
    for (const Asked &each : asked) {
        if (each.callback != nullptr && each.thread == std::this_thread::get_id()) {
            keep_thrown([&] { each.callback->Run(devices); });
        }
    }
}

void StandIn::handed_back(RDMReply *reply) {
    const Request request = std::move(handed_.front());
    handed_.pop_front();
    record(controller_, "result", "handed down", "request", request.order, "status_given", reply->StatusCode());
    within([&] {
        if (request.callback != nullptr) {
            request.callback->Run(reply);
        }
    });
}

void StandIn::found(const UIDSet &devices) {
    record(controller_, "result", "the adapter's own discovery", "given", devices.Size());
    try {
        given_ = std::make_shared<UIDSet>(devices);
    } catch (const std::bad_alloc &) {
        // OLA gets these devices all the same.
    }
    within([&] { answer_oldest(devices); });
}

void StandIn::found_none() {
    const Devices before = given_;
    found(*before);
}

void StandIn::abort() {
    is_aborted_ = true;
    if (!has_ended_) {
        record(controller_, "call", "abort");
        close(true);
    }
    pass_on();
}

// Called by destructors: what is thrown here, for want of memory, may end the process.
// NOLINTNEXTLINE(bugprone-exception-escape)
void StandIn::end() noexcept {
    record(controller_, "call", "close");
    close(false);
    if (!is_within_ && std::exchange(thrown_, nullptr)) {
        tell(name(), Level::Warn, "a client's callback has thrown an exception at the controller's end");
    }
}

// All callbacks of discoveries, in the order of their calls. No later answer runs one of them.
std::list<StandIn::Asked> StandIn::taken_callbacks() {
    std::list<Asked> all;
    for (auto *discoveries : {&discoveries_, &waiting_}) {
        for (auto &each : *discoveries) {
            all.splice(all.end(), each.asked);
        }
    }
    waiting_.clear();
    return all;
}

// Ends all that is outstanding, without a call of the layer below. What callbacks ask for then ends at once.
void StandIn::close(bool answers_discoveries) {
    has_ended_ = true;
    forget();
    run_.held_step = nullptr;
    within([=] {
        const auto asked = taken_callbacks();
        if (answers_discoveries) {
            run(asked, UIDSet());
        }
        core_.close();
        if (core_.awaits()) {
            run_log_.failed();
            core_.fail();
        }
        collect();
        // The core doesn't know of the rest. Callbacks may add to it.
        while (!handed_.empty()) {
            auto *const callback = handed_.front().callback;
            handed_.pop_front();
            refuse(callback, "the controller has ended");
        }
    });
}
} // namespace stand_in
