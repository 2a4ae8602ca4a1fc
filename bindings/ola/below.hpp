// The layer below: an adapter's class of OLA, which gets frames as requests and discovery calls.
#pragma once
#include "answers.hpp"
#include <ola/Callback.h>
#include <ola/rdm/DiscoveryAgent.h>
#include <ola/rdm/RDMControllerInterface.h>
#include <chrono>
#include <deque>
#include <optional>
#include <string>

namespace stand_in {

using Clock = std::chrono::steady_clock;

// How a discovery's frames are sent: branches and unmutes as discovery calls, and mutes as requests; all as requests;
// or not at all, since the adapter makes its own discovery, or none.
enum class Bridge { Target, Requests, Own, None };

// One exchange at a time. Its answer may come within the call that begins it, later, or never. Any other answer is
// dropped.
class Below {
protected:
    // `lower` isn't owned, and may be gone before this object is.
    explicit Below(ola::rdm::RDMControllerInterface *lower);
    virtual ~Below();

    Bridge bridge() const { return bridge_; }
    bool is_busy() const { return awaited_ != nullptr; }
    // The adapter's UID if a reply has shown it, else the name of its class.
    const std::string &name() const { return name_; }
    // What the last frame of the core was.
    const wurst_command &sent() const { return sent_; }
    static bool is_request(const wurst::Frame &frame);

    // Sends the core's frame. If the frame is a request's, `request` is the client's request, of which a copy is sent.
    void send_down(const wurst::Frame &frame, const ola::rdm::RDMRequest *request);
    // Sends a request that the core can't send.
    void hand_down(std::unique_ptr<ola::rdm::RDMRequest> request);
    // Whether answers may be those of earlier frames. An answer that was compared with its request says no.
    bool is_in_doubt() const { return is_in_doubt_; }
    // Checks by mutes of these devices, and of the one that answered last, whether answers are those of their own
    // frames. If none of them answers, that stays in doubt. False: there is none to check.
    bool check_answers(std::vector<ola::rdm::UID> devices);
    void check_next();
    // Checks by a mute that no device answers whether the adapter still sends.
    void check_adapter();
    // Begins the adapter's own discovery.
    void discover_below(bool is_full);
    // Stops waiting: a later answer is dropped.
    void forget() { awaited_ = nullptr; }

    // The answers to these calls, within the call of the layer below. `reply` is null unless a client's
    // request was sent. These calls throw only before they have changed anything.
    virtual void heard(const Heard &heard, const ola::rdm::RDMReply *reply) = 0;
    virtual void handed_back(ola::rdm::RDMReply *reply) = 0;
    virtual void checked(const Heard &heard) = 0;
    // An exchange has shown nothing, and `check_next` sends another one.
    virtual void check_more() = 0;
    virtual void found(const ola::rdm::UIDSet &devices) = 0;
    // The adapter's own discovery has no answer.
    virtual void found_none() = 0;
    // Passes on what a client's callback has thrown, if no other call of this object is under way.
    virtual void pass_on() = 0;
    // Keeps this object until the call of the layer below has returned.
    virtual std::shared_ptr<void> kept() = 0;

private:
    enum class Kind { Frame, HandedDown, Check, Step, Devices };
    using Target = ola::rdm::DiscoveryTargetInterface;
    class Exchange;

    Bridge choose() const;
    Exchange *begin();
    template <typename Call> void call(Kind kind, Call call);
    template <typename Answer> void end(Exchange *exchange, Answer answer);
    void remember(Exchange *exchange) noexcept;
    void fail(const char *why, ola::rdm::RDMStatusCode status);
    void mute_down(const ola::rdm::UID &uid);
    void check_device();
    void step();
    void stepped(const Heard &heard);
    bool may_owe(const ola::rdm::RDMReply &reply) const;
    Heard judged(Heard heard);
    Heard judged_check(Heard heard);
    void learn(const ola::rdm::RDMReply &reply);
    void replied(ola::rdm::RDMReply *reply);
    void branched(Heard heard);

    ola::rdm::RDMControllerInterface *lower_;
    ola::rdm::DiscoverableRDMControllerInterface *discoverable_;
    Target *target_;
    const std::string class_;
    const Bridge bridge_;
    std::string name_;
    // UIDs: of the last request's source; of the adapter, or the controller until that is known; and of the device that
    // answered last.
    ola::rdm::UID source_;
    ola::rdm::UID own_uid_;
    std::optional<ola::rdm::UID> known_;
    std::vector<ola::rdm::UID> unchecked_;
    // The broken reply to a mute that waits until answers are in step again, the mute's device, and how many exchanges
    // were made for that. The device that has acknowledged a mute of the run last.
    std::optional<Heard> broken_;
    ola::rdm::UID muted_;
    unsigned int steps_ = 0;
    std::optional<ola::rdm::UID> last_muted_;
    Kind kind_ = Kind::Frame;
    wurst_command sent_{};
    Clock::time_point began_{};
    Clock::time_point ended_{};
    bool is_sending_ = false;
    bool is_in_doubt_ = false;
    bool was_idle_ = false;
    // The exchange under way, all that the layer below may still answer, and those that it has answered, oldest first.
    Exchange *awaited_ = nullptr;
    std::vector<std::unique_ptr<Exchange>> exchanges_;
    std::deque<Exchange *> answered_;
};
} // namespace stand_in
