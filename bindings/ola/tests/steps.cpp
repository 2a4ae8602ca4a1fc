// Acknowledgements with a wrong length, over a model of OLA's class for Enttec's adapters: answers fall out of
// step with their frames, and the same run goes on when they are in step again.
#include "checks.hpp"
#include "messages.hpp"

#include <random>

namespace tests {
namespace {

// OLA begins a discovery with three unmutes.
constexpr unsigned int UNMUTES = 3;

enum class Firmware { EndsBranches, Newer };
constexpr Firmware FIRMWARES[] = {Firmware::EndsBranches, Firmware::Newer};

// E1.20, packet format: where the length and the source are, and what the length doesn't count.
constexpr std::size_t LENGTH = 2;
constexpr std::size_t SOURCE = 9;
constexpr std::size_t CHECKSUM_BYTES = 2;

namespace enttec {

// plugins/usbpro/EnttecUsbProWidget.cpp, which gives each message of the adapter to what it awaits: an unmute, a branch
// or a request. Before firmware 4.15, label 12 ends a branch also after a reply.
class EnttecPortImpl : public DiscoverableRDMControllerInterface, public DiscoveryTargetInterface {
public:
    // The bytes of a label 5, without its status; none are label 12.
    using Message = std::vector<std::uint8_t>;

    explicit EnttecPortImpl(Firmware firmware) : firmware_(firmware) {}

    Wire wire;
    // What becomes of an acknowledgement, and of a branch's reply.
    std::function<void(Message &)> damage = [](Message &) {};
    std::function<void(Message &)> lose = [](Message &) {};
    bool is_open = true;
    unsigned int single_unmutes = 0;

    bool awaits() const { return unmuted_ != nullptr || branched_ != nullptr || replied_ != nullptr; }
    void read_all() {
        while (!messages_.empty()) {
            read_one();
        }
    }
    void read_one() {
        const Message oldest = std::exchange(messages_.front(), {});
        messages_.pop_front();
        oldest.empty() ? read_end() : read_response(oldest);
    }

    void SendRDMRequest(RDMRequest *taken, RDMCallback *callback) override {
        std::unique_ptr<RDMRequest> request(taken);
        if (replied_ != nullptr || !is_open) {
            return RunRDMCallback(callback, RDM_FAILED_TO_SEND);
        }
        request->SetSourceUID(ADAPTER);
        request->SetTransactionNumber(transaction_++);
        single_unmutes += request->ParamId() == PID_DISC_UN_MUTE;
        answer(*wire.reply_to(*request));
        request_ = std::move(request);
        replied_ = callback;
    }
    void MuteDevice(const UID &, MuteDeviceCallback *callback) override { callback->Run(false); }
    void UnMuteAll(UnMuteDeviceCallback *callback) override {
        wire.unmute();
        messages_.emplace_back();
        unmuted_ = callback;
    }
    void Branch(const UID &lower, const UID &upper, BranchCallback *callback) override {
        Message reply = wire.branch(number_of(lower), number_of(upper));
        lose(reply);
        const bool has_end = !reply.empty() && firmware_ == Firmware::EndsBranches;
        messages_.push_back(std::move(reply));
        if (has_end) {
            messages_.emplace_back();
        }
        branched_ = callback;
    }
    void RunFullDiscovery(RDMDiscoveryCallback *) override {}
    void RunIncrementalDiscovery(RDMDiscoveryCallback *) override {}

private:
    // Label 12 follows what isn't as long as it says.
    void answer(const RDMReply &reply) {
        Message response;
        if (reply.Response() != nullptr) {
            const auto bytes = frame_of(*reply.Response()).data;
            response.assign(bytes.begin(), bytes.end());
            damage(response);
        }
        const bool is_whole = response.size() > LENGTH && response.size() == response[LENGTH] + CHECKSUM_BYTES;
        const bool has_end = !response.empty() && !is_whole;
        messages_.push_back(std::move(response));
        if (has_end) {
            messages_.emplace_back();
        }
    }

    void read_end() {
        if (unmuted_ != nullptr) {
            std::exchange(unmuted_, nullptr)->Run();
        } else if (branched_ != nullptr) {
            const Message reply = std::exchange(stored_, {});
            std::exchange(branched_, nullptr)->Run(reply.empty() ? nullptr : reply.data(),
                                                   static_cast<unsigned int>(reply.size()));
        } else if (replied_ != nullptr) {
            end_request(std::make_unique<RDMReply>(RDM_TIMEOUT));
        }
    }

    void read_response(const Message &bytes) {
        if (branched_ != nullptr) {
            stored_ = stored_.empty() ? bytes : stored_;
            firmware_ == Firmware::Newer ? read_end() : void();
        } else if (replied_ != nullptr && bytes[0] == RDMCommand::START_CODE) {
            const RDMFrame frame(bytes.data(), static_cast<unsigned int>(bytes.size()));
            end_request(std::unique_ptr<RDMReply>(RDMReply::FromFrame(frame, request_.get())));
        }
    }

    void end_request(const std::unique_ptr<RDMReply> &reply) {
        auto *const callback = std::exchange(replied_, nullptr);
        callback->Run(reply.get());
    }

    const Firmware firmware_;
    std::deque<Message> messages_;
    Message stored_;
    std::uint8_t transaction_ = 77;
    std::unique_ptr<RDMRequest> request_;
    RDMCallback *replied_ = nullptr;
    UnMuteDeviceCallback *unmuted_ = nullptr;
    BranchCallback *branched_ = nullptr;
};

} // namespace enttec

using Message = enttec::EnttecPortImpl::Message;

void change_length(Message &bytes) { bytes[LENGTH] ^= 8; }

// An adapter with a queue over it.
struct Line {
    enttec::EnttecPortImpl lower;
    Client client;
    std::unique_ptr<Queue> queue = std::make_unique<Queue>(&lower, 20);

    explicit Line(Firmware firmware, unsigned int count) : lower(firmware) { lower.wire.fixtures = fixtures(count); }
    void begin() {
        forget_messages();
        queue->RunFullDiscovery(client.discovery());
    }
    void discover() {
        begin();
        lower.read_all();
    }
    // Damages the acknowledgement in this place, and so many after it.
    void damage(unsigned int place, unsigned int count, const std::function<void(Message &)> &how = change_length) {
        lower.damage = [=](Message &bytes) mutable {
            if (place > 0) {
                place--;
            } else if (count > 0) {
                count--;
                how(bytes);
            }
        };
    }
    bool is_exact(std::size_t runs = 1) const {
        return client.sets.size() == runs && client.sets.back() == uids_of(lower.wire) && !lower.awaits();
    }
    // Whether no run was given up.
    bool is_quiet() const { return messages_with("discovery ") == messages_with("proved discovery"); }
};

// One damaged acknowledgement costs an unmute, a branch and two mutes: one that brings answers in step, and the core's.
void test_one_acknowledgement() {
    for (const auto firmware : FIRMWARES) {
        Line clean(firmware, 15);
        clean.discover();
        CHECK(clean.is_exact() && clean.lower.wire.mutes == 15 && clean.lower.wire.unmutes == UNMUTES);
        for (unsigned int place = 0; place < 15; place++) {
            Line line(firmware, 15);
            line.damage(place, 1);
            line.discover();
            const Wire &wire = line.lower.wire;
            CHECK(line.is_exact() && line.is_quiet() && wire.unmutes == UNMUTES);
            CHECK(line.lower.single_unmutes == 1 && wire.mutes == 17);
            CHECK(wire.branches == clean.lower.wire.branches + 1);
        }
    }
}

// Bytes that are cut off or added, and several damaged acknowledgements in a row, also of those that bring answers in
// step. A whole one that has more bytes is taken.
void test_more_damage() {
    const auto cut = [](std::size_t size) { return [=](Message &bytes) { bytes.resize(size); }; };
    for (const auto firmware : FIRMWARES) {
        for (unsigned int place = 0; place < 5; place++) {
            for (unsigned int count = 2; count < 7; count++) {
                Line line(firmware, 5);
                line.damage(place, count);
                line.discover();
                CHECK(line.is_exact() && line.is_quiet() && line.lower.wire.unmutes == UNMUTES);
            }
            for (const std::size_t size : {1, 2, 3, 20, 27, 29}) {
                Line line(firmware, 5);
                line.damage(place, 1, cut(size));
                line.discover();
                CHECK(line.is_exact() && line.is_quiet() && line.lower.single_unmutes == 1);
                CHECK(line.lower.wire.mutes == (size == 29 ? 6U : 7U));
            }
        }
    }
}

// If no acknowledgement is whole any more, the discovery fails, and OLA gets what the last good one found.
void test_endless_damage() {
    for (const auto firmware : FIRMWARES) {
        Line line(firmware, 3);
        line.discover();
        const UIDSet good = uids_of(line.lower.wire);
        CHECK(line.is_exact());
        line.lower.wire.fixtures.pop_back();
        line.damage(1, UINT32_MAX);
        line.discover();
        CHECK(line.client.sets.size() == 2 && line.client.sets.back() == good && !line.lower.awaits());
        CHECK(messages_with("discovery failed: the adapter's answers may be those of earlier frames") == 1);
        line.lower.damage = [](Message &) {};
        line.discover();
        CHECK(line.is_exact(3) && line.is_quiet());
    }
}

// One fixture's acknowledgements are always broken: all others are found. Only beside the first one nothing shows that
// answers are in step, and the discovery fails.
void test_broken_fixture() {
    for (const auto firmware : FIRMWARES) {
        for (unsigned int broken = 0; broken < 5; broken++) {
            Line line(firmware, 5);
            UIDSet others = uids_of(line.lower.wire);
            const UID uid = line.lower.wire.fixtures[broken].uid;
            others.RemoveUID(uid);
            line.lower.damage = [&](Message &bytes) { UID(&bytes[SOURCE]) == uid ? change_length(bytes) : void(); };
            line.discover();
            const bool is_first = broken == 0;
            CHECK(line.client.sets.size() == 1 && line.client.sets.back() == (is_first ? UIDSet() : others));
            CHECK(!line.lower.awaits() && line.is_quiet() == !is_first);
            CHECK(messages_with("discovery failed: the adapter's answers may be") == (is_first ? 1U : 0U));
        }
    }
}

// One reply in ten is lost, at most four in a row, and one acknowledgement in ten has a wrong length: each set is exact
// at the first try.
void test_damage_by_chance() {
    for (unsigned int seed = 0; seed < 40; seed++) {
        Line line(FIRMWARES[seed % 2], 15);
        std::mt19937 chance(seed);
        unsigned int lost = 0;
        line.lower.lose = [&](Message &bytes) {
            lost = !bytes.empty() && lost < 4 && chance() % 10 == 0 ? lost + 1 : 0;
            bytes.resize(lost > 0 ? 0 : bytes.size());
        };
        line.lower.damage = [&](Message &bytes) {
            line.lower.lose(bytes);
            lost == 0 && chance() % 10 == 0 ? change_length(bytes) : void();
        };
        line.discover();
        CHECK(line.is_exact() && line.is_quiet());
    }
}

// The queue is paused, the adapter unplugged, or the queue ended, before each of the answers to damage.
void test_interrupted_steps() {
    for (unsigned int answers = 0; answers < 20; answers++) {
        for (const auto firmware : FIRMWARES) {
            Line line(firmware, 3);
            line.discover();
            const UIDSet good = uids_of(line.lower.wire);
            line.lower.wire.fixtures.pop_back();
            line.damage(0, 2);
            const auto advance = [&] {
                for (unsigned int i = 0; i < answers; i++) {
                    line.lower.read_one();
                }
            };
            line.begin();
            advance();
            line.queue->Pause();
            line.lower.read_all();
            CHECK(line.client.sets.size() == 1 && !line.lower.awaits());
            line.queue->Resume();
            line.lower.read_all();
            CHECK(line.is_exact(2) && line.is_quiet());
            line.lower.wire.fixtures.pop_back();
            line.damage(0, 2);
            line.begin();
            advance();
            line.lower.is_open = false;
            line.lower.read_all();
            CHECK(line.client.sets.size() == 3);
            line.lower.is_open = true;
            line.damage(0, 2);
            line.begin();
            advance();
            line.queue.reset();
        }
    }
}

} // namespace

void test_steps() {
    test_one_acknowledgement();
    test_more_damage();
    test_endless_damage();
    test_broken_fixture();
    test_damage_by_chance();
    test_interrupted_steps();
}

} // namespace tests
