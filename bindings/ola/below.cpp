#include "below.hpp"
#include "journal.hpp"
#include <algorithm>
#include <cstdlib>
#include <cxxabi.h>
#include <new>
#include <typeinfo>

namespace stand_in {
using namespace ola::rdm;
using namespace std::chrono_literals;

// The controller's UID, see stand_in.cpp. No device has it.
const UID CONTROLLER(0x7ff0, 0x00000001);

// These classes report for each request whether it failed, or nothing came. Their discovery calls, if they have any,
// report both alike. No interface of OLA shows that they send a discovery's frames as requests.
constexpr const char *SENDS_DISCOVERY[] = {"DmxterWidgetImpl", "JaRulePortHandleImpl", "RobeWidgetImpl"};
// This class reads each answer later. So if it answers a discovery call at once, it couldn't send.
constexpr const char *ANSWERS_LATER = "EnttecPortImpl";
// This class reports success without bytes if nothing came after a branch.
constexpr const char *SILENT_SUCCESS = "JaRulePortHandleImpl";

// Silence takes an adapter milliseconds. OLA's watchdog gives up an adapter at the second of two ticks, which come each
// second, but may be delayed.
constexpr auto LONGEST_SILENCE = 900ms;

// A late answer has come, and was dropped, if nothing was sent for so long, and then something was answered promptly.
constexpr auto LONG_IDLE = 2s;
constexpr auto PROMPT = 200ms;

// The command class's place in a frame, the length's in a response, and what the length doesn't count: the checksum
// (E1.20, packet format).
constexpr std::size_t COMMAND_CLASS_AT = 20;
constexpr std::size_t LENGTH_AT = 2;
constexpr std::size_t CHECKSUM_BYTES = 2;

// The exchanges with one device that bring answers in step with their frames, and how many are made at most. If several
// answers are owed, attempts that are all alike might go on for ever.
constexpr wurst_command_kind STEPS[] = {
    WURST_UNMUTE, WURST_BRANCH, WURST_MUTE,
    WURST_UNMUTE, WURST_BRANCH, WURST_BRANCH, WURST_MUTE,
    WURST_UNMUTE, WURST_BRANCH, WURST_BRANCH, WURST_MUTE};
constexpr unsigned int MOST_STEPS = 4 * std::size(STEPS);

// How many exchanges have to come between an answer and its repetition until that is no longer recognized.
constexpr std::size_t REMEMBERED = 64;

// One exchange, and the callbacks for its answer. The layer below may run one of them, now or later, again, or never.
class Below::Exchange final : public RDMCallback,
                              public Target::BranchCallback,
                              public Target::UnMuteDeviceCallback,
                              public RDMDiscoveryCallback {
public:
    explicit Exchange(Below *below) : below_(below) {}

    void Run(RDMReply *reply) override {
        below_->end(this, [=](Below &below) { below.replied(reply); });
    }
    void Run(const std::uint8_t *data, unsigned int length) override {
        const auto size = data != nullptr ? std::min<unsigned int>(length, WURST_MOST_FRAME_BYTES) : 0;
        below_->end(this, [=](Below &below) { below.branched(hear_branch({data, data + size})); });
    }
    void Run() override {
        below_->end(this, [](Below &below) { below.heard(below.judged(Heard()), nullptr); });
    }
    void Run(const UIDSet &devices) override {
        below_->end(this, [&](Below &below) { below.found(devices); });
    }

private:
    Below *const below_;
};

// The command in the core's own frame.
static wurst_command read(const wurst::Frame &frame) {
    wurst_command command{};
    std::array<std::uint8_t, WURST_MOST_PARAMETER_BYTES> data{};
    wurst::check(wurst_command_read(frame.data(), frame.size(), &command, data.data(), data.size()));
    return command;
}

static UID uid_of(std::uint64_t number) {
    return UID(static_cast<std::uint16_t>(number >> 32), static_cast<std::uint32_t>(number));
}

// The name of an adapter's class, without namespaces.
static std::string class_of(const RDMControllerInterface *lower) {
    if (lower == nullptr) {
        return "no adapter";
    }
    int status = 0;
    const std::unique_ptr<char, decltype(&std::free)> whole(
        abi::__cxa_demangle(typeid(*lower).name(), nullptr, nullptr, &status), std::free);
    const std::string name = whole ? whole.get() : typeid(*lower).name();
    return name.substr(name.rfind(':') + 1);
}

Below::Below(RDMControllerInterface *lower)
    : lower_(lower), discoverable_(dynamic_cast<DiscoverableRDMControllerInterface *>(lower)),
      target_(dynamic_cast<Target *>(lower)), class_(class_of(lower)), bridge_(choose()), name_(class_),
      source_(CONTROLLER), own_uid_(CONTROLLER), muted_(CONTROLLER) {}

Below::~Below() = default;

bool Below::is_request(const wurst::Frame &frame) {
    return frame.data()[COMMAND_CLASS_AT] != RDMCommand::DISCOVER_COMMAND;
}

Bridge Below::choose() const {
    const bool is_proved = settings().is_proved_discovery;
    const auto *const found = std::find(std::begin(SENDS_DISCOVERY), std::end(SENDS_DISCOVERY), class_);
    if (is_proved && found != std::end(SENDS_DISCOVERY)) {
        return Bridge::Requests;
    }
    if (is_proved && target_ != nullptr) {
        return Bridge::Target;
    }
    return discoverable_ != nullptr ? Bridge::Own : Bridge::None;
}

// The layer below keeps the exchange's callbacks until it runs one of them. So only exchanges that it has answered are
// used again, and late: it may repeat an answer.
Below::Exchange *Below::begin() {
    if (answered_.size() > REMEMBERED) {
        awaited_ = answered_.front();
        answered_.pop_front();
    } else {
        exchanges_.push_back(std::make_unique<Exchange>(this));
        awaited_ = exchanges_.back().get();
    }
    began_ = Clock::now();
    return awaited_;
}

// Makes a call of the layer below. If that throws, the frame counts as not sent, unless it was answered before.
template <typename Call> void Below::call(Kind kind, Call call) {
    Exchange *exchange = nullptr;
    kind_ = kind;
    try {
        exchange = begin();
        call(exchange);
    } catch (...) {
        if (exchange == awaited_) {
            awaited_ = nullptr;
            ended_ = Clock::now();
            fail(NOT_SENT, RDM_FAILED_TO_SEND);
        }
    }
}

// Passes on an exchange's answer, if it is the awaited one.
template <typename Answer> void Below::end(Exchange *exchange, Answer answer) {
    if (exchange != awaited_) {
        return;
    }
    const auto self = kept();
    awaited_ = nullptr;
    ended_ = Clock::now();
    try {
        answer(*this);
    } catch (const std::bad_alloc &) {
        fail(NO_MEMORY, RDM_INVALID_RESPONSE);
    }
    remember(exchange);
    pass_on();
}

// Not earlier than at the end of an answer: the layer below may repeat it as soon as its call returns. An exchange that
// there is no memory for isn't used again.
void Below::remember(Exchange *exchange) noexcept {
    try {
        answered_.push_back(exchange);
    } catch (const std::bad_alloc &) {
    }
}

// The exchange has no answer, for a reason of ours.
void Below::fail(const char *why, RDMStatusCode status) {
    Heard heard;
    heard.failure = why;
    heard.status = status;
    RDMReply reply(status);
    switch (kind_) {
    case Kind::Frame:
        return this->heard(heard, nullptr);
    case Kind::HandedDown:
        return handed_back(&reply);
    case Kind::Check:
        return checked(heard);
    case Kind::Step:
        return stepped(heard);
    case Kind::Devices:
        return found_none();
    }
}

void Below::send_down(const wurst::Frame &frame, const RDMRequest *request) {
    sent_ = read(frame);
    if (sent_.kind == WURST_UNMUTE) {
        last_muted_.reset();
    }
    const bool was_sending = std::exchange(is_sending_, true);
    call(Kind::Frame, [&](Exchange *exchange) {
        if (bridge_ == Bridge::Target && sent_.kind == WURST_UNMUTE) {
            target_->UnMuteAll(exchange);
        } else if (bridge_ == Bridge::Target && sent_.kind == WURST_BRANCH) {
            target_->Branch(uid_of(sent_.lo), uid_of(sent_.hi), exchange);
        } else {
            const auto size = static_cast<unsigned int>(frame.size());
            auto *const sent = sent_.kind == WURST_REQUEST
                ? request->Duplicate() : RDMRequest::InflateFromData(frame.data() + 1, size - 1);
            source_ = sent->SourceUID();
            lower_->SendRDMRequest(sent, exchange);
        }
    });
    is_sending_ = was_sending;
}

void Below::hand_down(std::unique_ptr<RDMRequest> request) {
    sent_ = {};
    sent_.kind = WURST_REQUEST;
    source_ = request->SourceUID();
    call(Kind::HandedDown, [&](Exchange *exchange) { lower_->SendRDMRequest(request.release(), exchange); });
}

bool Below::check_answers(std::vector<UID> devices) {
    was_idle_ = Clock::now() - ended_ >= LONG_IDLE;
    unchecked_ = std::move(devices);
    if (known_) {
        unchecked_.push_back(*known_);
    }
    if (unchecked_.empty() && !was_idle_) {
        return false;
    }
    check_device();
    return true;
}

void Below::check_next() { broken_ ? step() : check_device(); }

void Below::check_device() {
    const UID next = unchecked_.empty() ? own_uid_ : unchecked_.back();
    if (!unchecked_.empty()) {
        unchecked_.pop_back();
    }
    mute_down(next);
}

void Below::check_adapter() {
    unchecked_.clear();
    mute_down(own_uid_);
}

void Below::mute_down(const UID &uid) {
    sent_ = {};
    sent_.kind = WURST_MUTE;
    source_ = CONTROLLER;
    call(Kind::Check, [&](Exchange *exchange) {
        lower_->SendRDMRequest(NewMuteRequest(CONTROLLER, uid, 0), exchange);
    });
}

// A response with a wrong length is followed by label 12, which EnttecPortImpl takes for the next frame's answer. Then
// each answer is an earlier frame's. Here the unmute ends by label 12, and the branch by the unmute's acknowledgement.
// The branch's own reply is dropped: by the branch if the firmware ends branches by label 12, else by the mute, which
// waits for a response. So the mute has its own answer. If the device goes on sending broken ones, another one is used.
void Below::step() {
    const UID device = steps_ < std::size(STEPS) ? muted_ : last_muted_.value_or(muted_);
    sent_ = {};
    sent_.kind = STEPS[steps_++ % std::size(STEPS)];
    source_ = CONTROLLER;
    call(Kind::Step, [&](Exchange *exchange) {
        if (sent_.kind == WURST_BRANCH) {
            target_->Branch(device, device, exchange);
        } else {
            const auto make = sent_.kind == WURST_MUTE ? &NewMuteRequest : &NewUnMuteRequest;
            lower_->SendRDMRequest(make(CONTROLLER, device, 0, 1), exchange);
        }
    });
}

// Only the mute's own acknowledgement shows that no answer is owed any more. Its device is muted then, and the core
// gets the broken reply. If there is none, or an exchange fails, the run fails.
void Below::stepped(const Heard &heard) {
    const bool is_in_step = sent_.kind == WURST_MUTE && heard.is_matched;
    const bool has_failed = heard.failure != nullptr && heard.failure != OUT_OF_STEP;
    is_in_doubt_ = !is_in_step;
    if (!is_in_step && !has_failed && steps_ < MOST_STEPS) {
        return check_more();
    }
    Heard broken = std::move(*broken_);
    broken_.reset();
    kind_ = Kind::Frame;
    if (!is_in_step) {
        broken.failure = has_failed ? heard.failure : OUT_OF_STEP;
    }
    this->heard(broken, nullptr);
}

// Whether a reply to the core's mute isn't as long as it says.
bool Below::may_owe(const RDMReply &reply) const {
    if (class_ != ANSWERS_LATER || kind_ != Kind::Frame || sent_.kind != WURST_MUTE || reply.Frames().empty()) {
        return false;
    }
    const auto &raw = reply.Frames().back().data;
    return raw.size() <= LENGTH_AT || raw.size() != raw[LENGTH_AT] + CHECKSUM_BYTES;
}

void Below::discover_below(bool is_full) {
    call(Kind::Devices, [&](Exchange *exchange) {
        is_full ? discoverable_->RunFullDiscovery(exchange) : discoverable_->RunIncrementalDiscovery(exchange);
    });
}

// What the time of an answer says. After a discovery's frame no bytes aren't silence if the adapter may have hung, or
// if the frame couldn't be sent.
Heard Below::judged(Heard heard) {
    const bool is_silent = heard.bytes.empty() && !heard.is_matched;
    heard.took = ended_ - began_;
    heard.is_late |= is_silent && heard.took >= LONGEST_SILENCE;
    const bool is_unexplained = heard.failure == nullptr || heard.status == RDM_FAILED_TO_SEND;
    if (is_silent && is_unexplained && sent_.kind != WURST_REQUEST) {
        if (heard.is_late) {
            heard.failure = LATE;
        } else if (is_sending_ && class_ == ANSWERS_LATER) {
            heard.failure = NOT_SENT;
        }
    }
    is_in_doubt_ = heard.is_late || (is_in_doubt_ && !heard.is_matched);
    return heard;
}

// The same for a check. Without a matching response it only ends the doubt after a long time without frames.
Heard Below::judged_check(Heard heard) {
    heard = judged(std::move(heard));
    is_in_doubt_ &= !(heard.failure == nullptr && was_idle_ && heard.took < PROMPT);
    return heard;
}

// Most adapters replace a request's source UID by their own, so a reply shows it.
void Below::learn(const RDMReply &reply) {
    const auto *const response = reply.Response();
    if (reply.StatusCode() == RDM_COMPLETED_OK && response != nullptr) {
        known_ = response->SourceUID();
        if (response->DestinationUID() != source_ && response->DestinationUID() != own_uid_) {
            own_uid_ = response->DestinationUID();
            name_ = own_uid_.ToString();
        }
    }
}

void Below::replied(RDMReply *reply) {
    learn(*reply);
    if (kind_ == Kind::HandedDown) {
        judged(hear_status(*reply));
        return handed_back(reply);
    }
    Heard answer = hear(*reply, sent_);
    if (class_ == SILENT_SUCCESS && answer.status == RDM_DUB_RESPONSE && reply->Frames().empty()) {
        answer.bytes.clear();
    }
    if (kind_ == Kind::Check) {
        answer = judged_check(std::move(answer));
        const bool shows_nothing = answer.failure == nullptr && is_in_doubt_;
        shows_nothing && !unchecked_.empty() ? check_more() : checked(answer);
    } else if (kind_ == Kind::Step) {
        stepped(judged(std::move(answer)));
    } else if (may_owe(*reply)) {
        broken_ = judged(std::move(answer));
        muted_ = uid_of(sent_.target);
        steps_ = 0;
        check_more();
    } else {
        if (sent_.kind == WURST_MUTE && answer.is_matched) {
            last_muted_ = uid_of(sent_.target);
        }
        heard(judged(std::move(answer)), sent_.kind == WURST_REQUEST ? reply : nullptr);
    }
}

void Below::branched(Heard heard) {
    heard = judged(std::move(heard));
    kind_ == Kind::Step ? stepped(heard) : this->heard(heard, nullptr);
}
} // namespace stand_in
