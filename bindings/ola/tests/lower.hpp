// Layers below for the unit tests: adapters' classes with simulated fixtures. The tests choose their answers and when
// these come.
#ifndef WURSTLINEN_OLA_TESTS_LOWER_HPP
#define WURSTLINEN_OLA_TESTS_LOWER_HPP

#include <wurstlinen.hpp>

#include <ola/rdm/DiscoveryAgent.h>
#include <ola/rdm/RDMCommandSerializer.h>
#include <ola/rdm/RDMControllerInterface.h>

#include <deque>
#include <functional>
#include <memory>
#include <vector>

namespace tests {

using namespace ola::rdm;

enum class When { Inside, InsideTwice, Later };

inline const UID ADAPTER(0x454e, 0x01020304);

inline std::uint64_t number_of(const UID &uid) {
    return std::uint64_t{uid.ManufacturerId()} << 32 | uid.DeviceId();
}

inline RDMFrame frame_of(const RDMCommand &command) {
    ola::io::ByteString bytes;
    RDMCommandSerializer::PackWithStartCode(command, &bytes);
    return RDMFrame(bytes);
}

struct Fixture {
    UID uid;
    bool is_muted = false;
    bool obeys_mutes = true;
};

// The wire: what fixtures do with a command.
class Wire {
public:
    std::vector<Fixture> fixtures;
    unsigned int unmutes = 0;
    unsigned int branches = 0;
    unsigned int mutes = 0;

    std::vector<std::uint8_t> branch(std::uint64_t lo, std::uint64_t hi) {
        std::vector<std::uint8_t> all;
        branches++;
        for (const auto &each : fixtures) {
            if (!each.is_muted && lo <= number_of(each.uid) && number_of(each.uid) <= hi) {
                std::vector<std::uint8_t> reply(WURST_BRANCH_REPLY_BYTES);
                std::size_t len = 0;
                wurst_branch_reply_write(number_of(each.uid), 7, reply.data(), reply.size(), &len);
                all.resize(len);
                for (std::size_t i = 0; i < len; i++) {
                    all[i] = static_cast<std::uint8_t>(all[i] | reply[i]);
                }
            }
        }
        return all;
    }

    void unmute() {
        unmutes++;
        for (auto &each : fixtures) {
            each.is_muted = false;
        }
    }

    bool mute(const UID &uid) {
        mutes++;
        return obey(uid, true);
    }

    // The reply that an adapter's class makes of what fixtures do with a request: to a GET or SET, its own data.
    std::unique_ptr<RDMReply> reply_to(const RDMRequest &request) {
        if (request.CommandClass() == RDMCommand::DISCOVER_COMMAND) {
            return discovered(request);
        }
        const std::unique_ptr<RDMResponse> response(
            GetResponseFromData(&request, request.ParamData(), request.ParamDataSize()));
        return std::unique_ptr<RDMReply>(RDMReply::FromFrame(frame_of(*response), &request));
    }

private:
    // A mute or an unmute of one fixture. False: there is none.
    bool obey(const UID &uid, bool is_mute) {
        for (auto &each : fixtures) {
            if (each.uid == uid) {
                each.is_muted = is_mute && each.obeys_mutes;
                return true;
            }
        }
        return false;
    }

    std::unique_ptr<RDMReply> discovered(const RDMRequest &request) {
        const bool is_mute = request.ParamId() == PID_DISC_MUTE;
        const UID target = request.DestinationUID();
        if (request.ParamId() == PID_DISC_UN_MUTE && target.IsBroadcast()) {
            unmute();
            return std::make_unique<RDMReply>(RDM_WAS_BROADCAST);
        }
        if (request.ParamId() == PID_DISC_UNIQUE_BRANCH) {
            const UID lower(request.ParamData()), upper(request.ParamData() + UID::UID_SIZE);
            const auto bytes = branch(number_of(lower), number_of(upper));
            return std::unique_ptr<RDMReply>(bytes.empty() ? new RDMReply(RDM_TIMEOUT)
                : RDMReply::DUBReply(RDMFrame(bytes.data(), static_cast<unsigned int>(bytes.size()))));
        }
        if (!(is_mute ? mute(target) : obey(target, false))) {
            return std::make_unique<RDMReply>(RDM_TIMEOUT);
        }
        const std::uint8_t control[] = {0, 4};
        const std::unique_ptr<RDMResponse> response(GetResponseFromData(&request, control, sizeof control));
        return std::unique_ptr<RDMReply>(RDMReply::FromFrame(frame_of(*response), &request));
    }
};

// A layer that only sends requests.
class Lower : public DiscoverableRDMControllerInterface {
public:
    using Reply = std::unique_ptr<RDMReply>;

    Wire wire;
    When when = When::Inside;
    // As in most adapters' classes, it replaces the source UID and the transaction number by its own.
    bool rewrites = true;
    // Replies that replace the wire's, if this returns one.
    std::function<Reply(const RDMRequest &)> answers;
    // The requests as they were sent. Long tests don't keep them.
    std::vector<std::unique_ptr<RDMRequest>> sent;
    bool keeps = true;
    unsigned int own_full = 0;
    unsigned int own_incremental = 0;

    bool awaits() const { return static_cast<bool>(pending_); }

    // Gives the answer that is awaited.
    void answer() {
        const auto pending = std::exchange(pending_, nullptr);
        last_ = pending;
        pending();
    }
    // Gives the last answer once more.
    void answer_again() { last_(); }
    // The last answer, and the one that is awaited, to be given again later.
    std::function<void()> last() const { return last_; }
    std::function<void()> last_awaited() const { return pending_; }
    void answer_all() {
        while (awaits()) {
            answer();
        }
    }
    // From now on the wire does nothing, and nothing is answered.
    void forget() { pending_ = nullptr; }

    void SendRDMRequest(RDMRequest *taken, RDMCallback *callback) override {
        std::shared_ptr<RDMRequest> request(taken->Duplicate());
        sent.emplace_back(taken);
        if (!keeps) {
            sent.clear();
        }
        if (rewrites) {
            request->SetSourceUID(ADAPTER);
            request->SetTransactionNumber(transaction_++);
            request->SetPortId(1);
        }
        begin([this, request, callback] {
            const Reply reply = reply_to(*request);
            callback->Run(reply.get());
        });
    }

    void RunFullDiscovery(RDMDiscoveryCallback *callback) override {
        own_full++;
        own_discovery(callback);
    }

    void RunIncrementalDiscovery(RDMDiscoveryCallback *callback) override {
        own_incremental++;
        own_discovery(callback);
    }

protected:
    void begin(std::function<void()> answer) {
        if (when == When::Later) {
            pending_ = std::move(answer);
            return;
        }
        answer();
        if (when == When::InsideTwice) {
            answer();
        }
    }

private:
    void own_discovery(RDMDiscoveryCallback *callback) {
        begin([this, callback] {
            UIDSet set;
            for (const auto &each : wire.fixtures) {
                set.AddUID(each.uid);
            }
            callback->Run(set);
        });
    }

    Reply reply_to(const RDMRequest &request) {
        Reply reply = answers ? answers(request) : nullptr;
        return reply ? std::move(reply) : wire.reply_to(request);
    }

    std::uint8_t transaction_ = 77;
    std::function<void()> pending_;
    std::function<void()> last_;
};

// By its name, it sends a discovery's frames as requests.
class DmxterWidgetImpl : public Lower {};

// A layer that also has discovery calls.
class TargetLower : public Lower, public DiscoveryTargetInterface {
public:
    void MuteDevice(const UID &, MuteDeviceCallback *callback) override { callback->Run(false); }

    void UnMuteAll(UnMuteDeviceCallback *callback) override {
        begin([this, callback] {
            wire.unmute();
            callback->Run();
        });
    }

    void Branch(const UID &lower, const UID &upper, BranchCallback *callback) override {
        begin([this, lower, upper, callback] {
            const auto bytes = wire.branch(number_of(lower), number_of(upper));
            callback->Run(bytes.empty() ? nullptr : bytes.data(), static_cast<unsigned int>(bytes.size()));
        });
    }
};

} // namespace tests

#endif
