// Lines that fail, hang and answer late: a discovery is exact, or OLA gets what the last good one found.
#include "adapters.hpp"
#include "messages.hpp"

#include <sys/wait.h>
#include <unistd.h>

#include <cstdlib>

namespace tests {
namespace {

using namespace std::chrono_literals;

constexpr auto LATE_ENOUGH = 950ms;

// A discovery is repeated 16 times at most while answers are those of earlier frames.
constexpr unsigned int MOST_RUNS = 17;

// A queue whose first discovery has found three fixtures.
template <typename L> struct Known {
    L lower;
    UIDSet good;
    Client client;
    std::unique_ptr<Queue> queue;

    Known() {
        lower.wire.fixtures = fixtures(3);
        good = uids_of(lower.wire);
        queue = std::make_unique<Queue>(&lower, 20);
    }
    bool has_found(const UIDSet &wanted, std::size_t runs) const {
        return client.sets.size() == runs && client.sets.back() == wanted;
    }
};

struct KnownEnttec : Known<EnttecPortImpl> {
    KnownEnttec() {
        discover();
        CHECK(has_found(good, 1));
    }
    void discover() {
        queue->RunFullDiscovery(client.discovery());
        lower.answer();
    }
};

// OLA's watchdog runs a discovery call's callback as if nothing had come. If it comes again, the discovery has failed.
void test_hung_adapter() {
    KnownEnttec known;
    known.lower.wire.fixtures.pop_back();
    forget_messages();
    known.queue->RunFullDiscovery(known.client.discovery());
    for (int time = 0; time < 2; time++) {
        CHECK(known.client.sets.size() == 1 && messages_with("WARN ") == (time == 0 ? 0U : 1U));
        for (int i = 0; i < 3; i++) {
            known.lower.answer_one();
        }
        std::this_thread::sleep_for(LATE_ENOUGH);
        known.lower.fire_watchdog();
    }
    CHECK(known.has_found(known.good, 2) && !known.lower.awaits());
    const std::string late = "the adapter didn't answer for a second";
    CHECK(messages().size() == 2 && messages_with("discovery is repeated: " + late) == 1);
    CHECK(messages_with("discovery failed: " + late) == 1);
    known.queue->SendRDMRequest(get(), known.client.callback());
    known.lower.answer();
    CHECK(known.client.got.size() == 1 && known.client.last() == RDM_COMPLETED_OK);
}

// Gives one answer late, in this place, and the others at once.
void answer_with_one_late(EnttecPortImpl &lower, unsigned int place) {
    for (unsigned int i = 0; i < place; i++) {
        lower.answer_one();
    }
    std::this_thread::sleep_for(LATE_ENOUGH);
    lower.answer();
}

// A daemon that stood still reads the good answer late. Discoveries are exact all the same, the first one too.
void test_still_daemon() {
    for (unsigned int place : {0U, 2U, 4U, 8U, 12U}) {
        EnttecPortImpl lower;
        lower.wire.fixtures = fixtures(3);
        Client client;
        Queue queue(&lower, 20);
        for (std::size_t runs = 1; runs <= 2; runs++) {
            queue.RunFullDiscovery(client.discovery());
            answer_with_one_late(lower, place);
            CHECK(client.sets.size() == runs && client.sets.back() == uids_of(lower.wire));
            lower.wire.fixtures.pop_back();
        }
    }
}

// Without any device, nothing can show that answers are those of their own frames.
void test_still_daemon_without_devices() {
    EnttecPortImpl lower;
    Client client;
    Queue queue(&lower, 20);
    forget_messages();
    queue.RunFullDiscovery(client.discovery());
    answer_with_one_late(lower, 1);
    CHECK(client.sets.size() == 1 && client.sets[0].Size() == 0 && lower.wire.unmutes == 5);
    CHECK(messages_with("discovery failed: the adapter's answers may be those of earlier frames") == 1);
}

// Discoveries that wait meanwhile are served by the repeated run.
void test_still_daemon_with_many() {
    KnownEnttec known;
    known.lower.wire.fixtures.pop_back();
    const auto unmutes = known.lower.wire.unmutes;
    std::vector<Client> clients(9);
    for (auto &each : clients) {
        known.queue->RunFullDiscovery(each.discovery());
    }
    answer_with_one_late(known.lower, 1);
    for (const auto &each : clients) {
        CHECK(each.sets.size() == 1 && each.sets[0] == uids_of(known.lower.wire));
    }
    CHECK(known.lower.wire.unmutes >= unmutes + 5 && known.lower.wire.unmutes <= unmutes + 8);
}

// The adapter is stopped in each place of the repeated run.
void test_stop_of_a_repeated_run() {
    for (unsigned int place = 0; place < 9; place += 2) {
        KnownEnttec known;
        known.queue->RunFullDiscovery(known.client.discovery());
        known.queue->RunFullDiscovery(known.client.discovery());
        std::this_thread::sleep_for(LATE_ENOUGH);
        for (unsigned int i = 0; i <= place; i++) {
            known.lower.answer_one();
        }
        CHECK(known.client.sets.size() == 1);
        known.lower.Stop();
        CHECK(known.has_found(UIDSet(), 3));
        known.lower.answer();
        known.queue.reset();
        CHECK(known.client.sets.size() == 3);
    }
}

// A frame that can't be sent ends a discovery call at once. It happens at each point of a run.
void test_unsent_frames() {
    for (unsigned int sent = 0; sent < 30; sent++) {
        KnownEnttec known;
        known.queue->RunFullDiscovery(known.client.discovery());
        for (unsigned int i = 0; i < sent; i++) {
            known.lower.answer_one();
        }
        known.lower.is_open = false;
        known.lower.answer();
        CHECK(known.has_found(known.good, 2));
    }
}

// After a run that has heard nothing, one mute shows whether the adapter still sends.
template <typename L> void test_silent_run() {
    L lower;
    Client client;
    Queue queue(&lower, 20);
    const auto mutes = [&] { return lower.wire.mutes; };
    queue.RunFullDiscovery(client.discovery());
    CHECK(client.sets.size() == 1 && client.sets[0].Size() == 0 && mutes() == 1 && lower.wire.branches == 5);
    CHECK(lower.sent.back()->ParamId() == PID_DISC_MUTE && lower.sent.back()->DestinationUID() == UID(0x7ff0, 1));
    lower.wire.fixtures = fixtures(2);
    queue.RunFullDiscovery(client.discovery());
    const UIDSet good = uids_of(lower.wire);
    CHECK(client.sets.back() == good && lower.sent.back()->DestinationUID() != UID(0x7ff0, 1));
    lower.wire.fixtures.clear();
    lower.answers = [](const RDMRequest &request) {
        return std::make_unique<RDMReply>(request.ParamId() == PID_DISC_MUTE ? RDM_FAILED_TO_SEND : RDM_TIMEOUT);
    };
    queue.RunFullDiscovery(client.discovery());
    CHECK(client.sets.back() == good && lower.sent.back()->DestinationUID() == ADAPTER);
    lower.answers = nullptr;
    queue.RunIncrementalDiscovery(client.discovery());
    CHECK(client.sets.size() == 4 && client.sets.back().Size() == 0);
    CHECK(lower.sent.back()->DestinationUID() == ADAPTER);
}

// A mute's reply with the number or a UID of another exchange, and a response after a branch.
void test_late_answers() {
    for (const auto status : {RDM_TRANSACTION_MISMATCH, RDM_SRC_UID_MISMATCH, RDM_DEST_UID_MISMATCH}) {
        Known<TargetLower> known;
        known.queue->RunFullDiscovery(known.client.discovery());
        unsigned int late = MOST_RUNS;
        known.lower.answers = [&](const RDMRequest &request) -> Lower::Reply {
            const bool is_late = request.ParamId() == PID_DISC_MUTE && late > 0;
            late -= is_late ? 1 : 0;
            return is_late ? std::make_unique<RDMReply>(status) : nullptr;
        };
        const auto mutes = known.lower.wire.mutes;
        known.queue->RunFullDiscovery(known.client.discovery());
        CHECK(known.has_found(known.good, 2) && known.lower.wire.mutes == mutes);
        // The next run begins with a mute whose answer shows that answers are those of their own frames again.
        const auto sent = known.lower.sent.size();
        const auto before = known.lower.wire.unmutes;
        known.queue->RunFullDiscovery(known.client.discovery());
        CHECK(known.has_found(known.good, 3) && known.lower.sent[sent]->ParamId() == PID_DISC_MUTE);
        CHECK(known.lower.wire.unmutes == before + 3);
        // If that is late too, nothing is sent.
        late = MOST_RUNS + 1;
        const auto unmutes = known.lower.wire.unmutes;
        known.queue->RunFullDiscovery(known.client.discovery());
        known.queue->RunFullDiscovery(known.client.discovery());
        CHECK(known.has_found(known.good, 5) && known.lower.wire.unmutes == unmutes + 3 * MOST_RUNS);
        // After fewer, what is there now is found at once.
        known.queue->RunFullDiscovery(known.client.discovery());
        known.lower.wire.fixtures.pop_back();
        for (const unsigned int fewer : {1U, MOST_RUNS - 1}) {
            forget_messages();
            late = fewer;
            known.queue->RunFullDiscovery(known.client.discovery());
            CHECK(known.client.sets.back() == uids_of(known.lower.wire) && messages_with("failed: ") == 0);
            CHECK(messages_with("discovery is repeated: an answer was an earlier frame's") == 1);
        }
    }
}

// What is handed down shows late answers too, and so do GETs.
void test_late_answers_to_clients() {
    for (const bool is_handed_down : {true, false}) {
        Known<TargetLower> known;
        known.queue->RunFullDiscovery(known.client.discovery());
        known.lower.answers = [](const RDMRequest &) { return std::make_unique<RDMReply>(RDM_SRC_UID_MISMATCH); };
        known.queue->SendRDMRequest(is_handed_down ? NewMuteRequest(CLIENT, DEVICE, 1) : get(), nullptr);
        known.lower.answers = nullptr;
        const auto sent = known.lower.sent.size();
        known.queue->RunFullDiscovery(known.client.discovery());
        CHECK(known.has_found(known.good, 2) && known.lower.sent[sent]->ParamId() == PID_DISC_MUTE);
        const auto mutes = known.lower.sent.size() - sent;
        known.queue->RunFullDiscovery(known.client.discovery());
        CHECK(known.has_found(known.good, 3) && known.lower.sent.size() == sent + mutes + mutes - 1);
    }
}

void test_response_after_branch() {
    Known<DmxterWidgetImpl> known;
    known.queue->RunFullDiscovery(known.client.discovery());
    unsigned int late = MOST_RUNS;
    known.lower.answers = [&](const RDMRequest &request) -> Lower::Reply {
        if (request.ParamId() != PID_DISC_UNIQUE_BRANCH || late == 0) {
            return nullptr;
        }
        late--;
        const RDMGetResponse response(DEVICE, ADAPTER, 3, RDM_ACK, 0, 0, PID_DEVICE_LABEL, nullptr, 0);
        return Lower::Reply(RDMReply::DUBReply(frame_of(response)));
    };
    known.lower.wire.fixtures.pop_back();
    known.queue->RunFullDiscovery(known.client.discovery());
    CHECK(known.has_found(known.good, 2));
    known.queue->RunFullDiscovery(known.client.discovery());
    CHECK(known.has_found(uids_of(known.lower.wire), 3));
}

// Adapters that report for each request whether it failed.
template <typename A> void test_failing_requests() {
    A adapter;
    adapter.wire.fixtures = fixtures(3);
    Client client;
    Queue queue(&adapter, 20);
    queue.RunFullDiscovery(client.discovery());
    adapter.answer();
    const UIDSet good = uids_of(adapter.wire);
    CHECK(client.sets.size() == 1 && client.sets[0] == good);
    adapter.wire.fixtures.clear();
    queue.RunFullDiscovery(client.discovery());
    for (int i = 0; i < 4; i++) {
        adapter.answer_one();
    }
    adapter.is_open = false;
    adapter.answer();
    CHECK(client.sets.size() == 2 && client.sets[1] == good);
    adapter.is_open = true;
    queue.RunFullDiscovery(client.discovery());
    adapter.answer();
    CHECK(client.sets.size() == 3 && client.sets[2].Size() == 0);
}

// An adapter that answers each frame in its order, while OLA's watchdog has given up one of them. EnttecPortImpl gives
// each answer to whatever it awaits: HandleRDMTimeout, HandleIncomingDataMessage.
class Shifted : public EnttecPortImpl {
public:
    // Gives the oldest answer, which may be that of an earlier frame, and is dropped if nothing is awaited.
    void answer_oldest() {
        const Answer oldest = std::exchange(unread_.front(), {});
        unread_.pop_front();
        if (drops_responses && oldest.response && unmuted_ != nullptr) {
            return;
        }
        if (branched_ != nullptr) {
            std::exchange(branched_, nullptr)->Run(oldest.bytes.empty() ? nullptr : oldest.bytes.data(),
                                                   static_cast<unsigned int>(oldest.bytes.size()));
        } else if (unmuted_ != nullptr) {
            std::exchange(unmuted_, nullptr)->Run();
        } else if (replied != nullptr) {
            // Only responses are looked at.
            end_request(oldest.response ? RDMReply_of(oldest) : std::make_unique<RDMReply>(RDM_TIMEOUT));
        }
    }
    void answer_all() {
        while (!unread_.empty()) {
            answer_oldest();
        }
    }
    void give_up() {
        if (branched_ != nullptr) {
            std::exchange(branched_, nullptr)->Run(nullptr, 0);
        } else if (unmuted_ != nullptr) {
            std::exchange(unmuted_, nullptr)->Run();
        } else if (replied != nullptr) {
            end_request(std::make_unique<RDMReply>(RDM_FAILED_TO_SEND));
        }
    }
    // A response doesn't end an unmute, as in OLA 0.10.9.
    bool drops_responses = false;
    bool is_waiting() const { return branched_ != nullptr || unmuted_ != nullptr || replied != nullptr; }

    // The next response has a wrong length. The adapter reports it, and then that nothing else came (label 12), which
    // is the next frame's answer for EnttecPortImpl.
    void damage_next() { damages_ = true; }

    void SendRDMRequest(RDMRequest *taken, RDMCallback *callback) override {
        EnttecPortImpl::SendRDMRequest(taken, callback);
        const std::unique_ptr<RDMReply> reply = wire.reply_to(*request);
        Answer answer;
        if (reply->Response() != nullptr) {
            answer.response.reset(reply->Response()->Duplicate());
            answer.is_damaged = std::exchange(damages_, false);
        }
        unread_.push_back(answer);
        if (answer.is_damaged) {
            unread_.push_back({});
        }
    }
    void UnMuteAll(UnMuteDeviceCallback *callback) override {
        unmuted_ = callback;
        wire.unmute();
        unread_.push_back({});
    }
    void Branch(const UID &lower, const UID &upper, BranchCallback *callback) override {
        branched_ = callback;
        unread_.push_back({wire.branch(number_of(lower), number_of(upper)), nullptr, false});
    }

private:
    struct Answer {
        std::vector<std::uint8_t> bytes;
        std::shared_ptr<RDMResponse> response;
        bool is_damaged = false;
    };

    std::unique_ptr<RDMReply> RDMReply_of(const Answer &answer) {
        RDMFrame frame = frame_of(*answer.response);
        frame.data[2] ^= answer.is_damaged ? 8 : 0;
        return std::unique_ptr<RDMReply>(RDMReply::FromFrame(frame, request.get()));
    }

    std::deque<Answer> unread_;
    bool damages_ = false;
    UnMuteDeviceCallback *unmuted_ = nullptr;
    BranchCallback *branched_ = nullptr;
};

// The watchdog gives up one frame, and its answer comes later: in each place of a run, and with or without devices.
void test_shifted_answers() {
    for (unsigned int place : {0U, 1U, 3U, 4U, 6U}) {
        Shifted lower;
        lower.wire.fixtures = fixtures(3);
        Client client;
        Queue queue(&lower, 20);
        queue.RunFullDiscovery(client.discovery());
        lower.answer_all();
        const UIDSet good = uids_of(lower.wire);
        CHECK(client.sets.size() == 1 && client.sets[0] == good);
        queue.RunFullDiscovery(client.discovery());
        for (unsigned int i = 0; i < place; i++) {
            lower.answer_oldest();
        }
        std::this_thread::sleep_for(LATE_ENOUGH);
        // The given up frame's answer is still to come, when the discovery is repeated.
        lower.give_up();
        CHECK(client.sets.size() == 1 && lower.is_waiting());
        lower.wire.fixtures.pop_back();
        lower.answer_all();
        CHECK(client.sets.size() == 2 && client.sets[1] == good);
        for (int i = 0; i < 3; i++) {
            queue.RunFullDiscovery(client.discovery());
            lower.answer_all();
        }
        CHECK(client.sets.size() == 5 && client.sets[4] == uids_of(lower.wire));
    }
}

// A response is damaged, so that later answers are those of earlier frames, and then all fixtures are replaced. So none
// that is known shows that answers are those of their own frames. Discoveries and requests are right all the same.
void test_damaged_response() {
    for (const bool is_full : {true, false}) {
        Shifted lower;
        lower.wire.fixtures = fixtures(3);
        Client client;
        Queue queue(&lower, 20);
        const auto run = [&] {
            is_full ? queue.RunFullDiscovery(client.discovery()) : queue.RunIncrementalDiscovery(client.discovery());
            lower.answer_all();
        };
        run();
        forget_messages();
        lower.damage_next();
        run();
        CHECK(messages_with("the adapter's answers may be those of earlier frames") == 1);
        CHECK(client.sets.size() == 2 && client.sets[0] == uids_of(lower.wire) && client.sets[1] == client.sets[0]);
        lower.wire.fixtures = {{OTHER}, {UID(0x4321, 5)}, {UID(0x4321, 6)}, {UID(0x7a70, 1)}};
        forget_messages();
        for (std::size_t runs = 3; runs <= 5; runs++) {
            run();
            CHECK(client.sets.size() == runs && client.sets.back() == uids_of(lower.wire));
        }
        CHECK(messages_with("discovery failed: ") == 0);
        for (std::uint8_t value = 1; value <= 3; value++) {
            queue.SendRDMRequest(get(PID_DEVICE_LABEL, OTHER, 0, {value}), client.callback());
            lower.answer_all();
            const bool has_response = client.got.size() == value && client.got.back().response;
            CHECK(has_response && data_of(*client.got.back().response) == Data{value});
        }
    }
}

// If OLA's class drops what comes during an unmute, the repeated run is exact, the first one too.
void test_dropped_response() {
    for (const unsigned int place : {0U, 4U, 8U, 12U}) {
        Shifted lower;
        lower.drops_responses = true;
        lower.wire.fixtures = fixtures(3);
        Client client;
        Queue queue(&lower, 20);
        for (std::size_t runs = 1; runs <= 2; runs++) {
            forget_messages();
            queue.RunFullDiscovery(client.discovery());
            for (unsigned int i = 0; i < place; i++) {
                lower.answer_oldest();
            }
            lower.damage_next();
            lower.answer_all();
            CHECK(client.sets.size() == runs && client.sets.back() == uids_of(lower.wire));
            CHECK(messages_with("discovery is repeated: ") == 1 && messages_with("discovery failed: ") == 0);
            lower.wire.fixtures.pop_back();
        }
    }
}

// Without a device that is known, a long time without frames has to show it.
void test_shifted_silence() {
    Shifted lower;
    Client client;
    Queue queue(&lower, 20);
    queue.RunFullDiscovery(client.discovery());
    std::this_thread::sleep_for(LATE_ENOUGH);
    forget_messages();
    lower.give_up();
    lower.wire.fixtures = fixtures(2);
    // The repeated run hears silences of earlier frames.
    lower.answer_all();
    CHECK(client.sets.size() == 1 && !lower.is_waiting() && messages_with("discovery failed: ") == 1);
    // The first answer has to come within 0.2 s, which a busy machine may miss.
    for (int tries = 0; tries < 3 && client.sets.back() != uids_of(lower.wire); tries++) {
        forget_messages();
        std::this_thread::sleep_for(2050ms);
        queue.RunFullDiscovery(client.discovery());
        lower.answer_all();
    }
    CHECK(client.sets.back() == uids_of(lower.wire) && messages_with("discovery failed: ") == 0);
}

// The same in each place of the first run, before a device is known: no wrong set is taken for a good one.
void test_shifted_first_run() {
    for (unsigned int count = 1; count <= 3; count++) {
        for (unsigned int place = 0; place < 3; place++) {
            Shifted lower;
            lower.wire.fixtures = fixtures(count);
            Client client;
            Queue queue(&lower, 20);
            forget_messages();
            queue.RunFullDiscovery(client.discovery());
            for (unsigned int i = 0; i < place; i++) {
                lower.answer_oldest();
            }
            std::this_thread::sleep_for(LATE_ENOUGH);
            lower.give_up();
            lower.answer_all();
            CHECK(client.sets.size() == 1 && messages_with("discovery failed: ") == 1);
            CHECK(messages_with("discovery is repeated: ") == 1);
        }
    }
}

// An answer that comes again, any number of exchanges later, is dropped.
void test_repeated_answers() {
    for (unsigned int later = 1; later < 40; later++) {
        Lower lower;
        lower.when = When::Later;
        std::vector<Client> clients(later + 1);
        Queue queue(&lower, 50);
        for (unsigned int i = 0; i <= later; i++) {
            queue.SendRDMRequest(get(PID_DEVICE_LABEL, DEVICE, 3, {static_cast<std::uint8_t>(i)}),
                                 clients[i].callback());
        }
        lower.answer();
        const auto first = lower.last();
        for (unsigned int i = 1; i < later; i++) {
            lower.answer();
        }
        first();
        CHECK(clients[later].calls() == 0 && clients[0].calls() == 1);
        lower.answer();
        CHECK(clients[later].calls() == 1 && data_of(*clients[later].got[0].response)[0] == later);
    }
}

// With WURSTLINEN_SECONDS=1.
void test_seconds() {
    Known<TargetLower> known;
    known.queue->RunFullDiscovery(known.client.discovery());
    CHECK(known.has_found(known.good, 1));
    known.lower.when = When::Later;
    known.lower.wire.fixtures.pop_back();
    const UIDSet rest = uids_of(known.lower.wire);
    known.queue->RunFullDiscovery(known.client.discovery());
    // Pauses don't count.
    known.queue->Pause();
    known.lower.answer();
    std::this_thread::sleep_for(1100ms);
    known.queue->Resume();
    known.lower.answer_all();
    CHECK(known.has_found(rest, 2));
    known.lower.wire.fixtures.pop_back();
    known.queue->RunFullDiscovery(known.client.discovery());
    known.queue->SendRDMRequest(get(), known.client.callback());
    // The fourth answer comes after more than a second. A busy machine may bring an earlier one so late.
    unsigned int answers = 0;
    while (known.client.sets.size() == 2 && answers < 4) {
        std::this_thread::sleep_for(300ms);
        known.lower.answer();
        answers++;
    }
    CHECK(answers >= 2 && known.has_found(rest, 3) && known.client.got.empty());
    known.lower.answer_all();
    CHECK(known.client.got.size() == 1 && known.client.last() == RDM_COMPLETED_OK);
}

} // namespace

// Settings are read once in a process.
void test_with(const char *name, const char *value, void (*test)()) {
    const pid_t child = fork();
    if (child == 0) {
        setenv(name, value, 1);
        failed = 0;
        test();
        std::fflush(stdout);
        _exit(failed > 0);
    }
    int status = 1;
    CHECK(child > 0 && waitpid(child, &status, 0) == child && status == 0);
}

void test_settings() {
    test_with("WURSTLINEN_SECONDS", "1", &test_seconds);
    test_with("WURSTLINEN_SEARCH", "steady", &test_silent_run<TargetLower>);
    test_with("WURSTLINEN_SEARCH", "steady", &test_shifted_first_run);
    // It is no file, so that nothing is left of the log.
    test_with("WURSTLINEN_LOG", "/dev/null", &test_records);
}

void test_lines() {
    test_hung_adapter();
    test_still_daemon();
    test_still_daemon_without_devices();
    test_still_daemon_with_many();
    test_stop_of_a_repeated_run();
    test_unsent_frames();
    test_silent_run<TargetLower>();
    test_silent_run<DmxterWidgetImpl>();
    test_late_answers();
    test_late_answers_to_clients();
    test_response_after_branch();
    test_failing_requests<RobeWidgetImpl>();
    test_failing_requests<JaRulePortHandleImpl>();
    test_failing_requests<EnttecPortImpl>();
    test_shifted_answers();
    test_damaged_response();
    test_dropped_response();
    test_shifted_silence();
    test_shifted_first_run();
    test_repeated_answers();
}

} // namespace tests
