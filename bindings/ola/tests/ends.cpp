// Ends at each point. Destruction runs the callbacks of all requests once, and those of no discovery, as in OLA. An
// abort runs the callbacks of all requests and discoveries. The layer below isn't called.
#include "checks.hpp"

namespace tests {
namespace {

// A layer below with OLA's agent, which aborts discoveries.
class AgentLower : public TargetLower {
public:
    DiscoveryAgent agent{this};
};

// Everything that a client may have outstanding at once, over a layer below of this kind.
template <typename L> struct Scene {
    L lower;
    std::vector<std::unique_ptr<Client>> requests;
    std::vector<std::unique_ptr<Client>> discoveries;
    std::unique_ptr<Queue> queue;
    unsigned int parts = 0;

    Scene() {
        lower.when = When::Later;
        lower.wire.fixtures = fixtures(2);
        lower.answers = [this](const RDMRequest &request) -> Lower::Reply {
            if (request.ParamId() != PID_SUPPORTED_PARAMETERS || ++parts % 3 == 0) {
                return nullptr;
            }
            const RDMGetResponse response(DEVICE, request.SourceUID(), request.TransactionNumber(), ACK_OVERFLOW, 0,
                                          request.SubDevice(), request.ParamId(), nullptr, 0);
            return Lower::Reply(RDMReply::FromFrame(frame_of(response), &request));
        };
        queue = std::make_unique<Queue>(&lower, 20);
        queue->SendRDMRequest(get(PID_SUPPORTED_PARAMETERS), added(requests).callback());
        queue->SendRDMRequest(NewMuteRequest(CLIENT, DEVICE, 1), added(requests).callback());
        queue->SendRDMRequest(set(), added(requests).callback());
        for (int i = 0; i < 6; i++) {
            queue->RunFullDiscovery(added(discoveries).discovery());
            queue->RunIncrementalDiscovery(added(discoveries).discovery());
        }
        queue->SendRDMRequest(get(), nullptr);
        queue->RunIncrementalDiscovery(nullptr);
    }

    static Client &added(std::vector<std::unique_ptr<Client>> &clients) {
        clients.push_back(std::make_unique<Client>());
        return *clients.back();
    }

    static bool is_each_called(const std::vector<std::unique_ptr<Client>> &clients, std::size_t least) {
        bool all = true;
        for (const auto &each : clients) {
            all &= each->calls() >= least && each->calls() <= 1;
        }
        return all;
    }

    // Whether everything outstanding has ended as it has to when the queue is destroyed.
    bool is_ended(std::size_t answered) const {
        return is_each_called(requests, 1) && is_each_called(discoveries, 0) && found() == answered;
    }

    // How many discoveries were answered.
    std::size_t found() const {
        std::size_t all = 0;
        for (const auto &each : discoveries) {
            all += each->calls();
        }
        return all;
    }

    std::size_t calls() const {
        std::size_t all = found();
        for (const auto &each : requests) {
            all += each->calls();
        }
        return all;
    }

    // Gives so many answers. False: no more were awaited.
    bool answer(unsigned int places) {
        for (unsigned int i = 0; i < places && lower.awaits(); i++) {
            lower.answer();
        }
        return lower.awaits();
    }
};

// Destruction after each number of answers, with the layer below alive or already gone.
template <typename L> void test_after_answers(bool is_lower_gone) {
    bool is_at_end = false;
    unsigned int places = 0;
    while (!is_at_end) {
        auto scene = std::make_unique<Scene<L>>();
        is_at_end = !scene->answer(places);
        const auto sent = scene->lower.sent.size();
        const auto unmutes = scene->lower.wire.unmutes;
        const auto answered = scene->found();
        if (is_lower_gone) {
            scene->lower.~L();
        }
        scene->queue.reset();
        CHECK(scene->is_ended(answered));
        if (is_lower_gone) {
            new (&scene->lower) L;
        } else {
            CHECK(scene->lower.sent.size() == sent && scene->lower.wire.unmutes == unmutes);
        }
        places++;
    }
    CHECK(places > 5);
}

// Destruction within each callback.
template <typename L> void test_in_callbacks() {
    for (std::size_t which = 1; which <= 15; which++) {
        Scene<L> scene;
        std::size_t sent = 0, answered = 0;
        const auto then = [&] {
            if (scene.calls() == which) {
                answered = scene.found();
                scene.queue.reset();
                sent = scene.lower.sent.size();
            }
        };
        for (auto *clients : {&scene.requests, &scene.discoveries}) {
            for (auto &each : *clients) {
                each->then = then;
            }
        }
        scene.lower.answer_all();
        // One run answers several discoveries, whose callbacks run one after the other.
        CHECK(!scene.queue && scene.lower.sent.size() == sent);
        CHECK(Scene<L>::is_each_called(scene.requests, 1) && Scene<L>::is_each_called(scene.discoveries, 0));
        CHECK(scene.found() >= answered);
    }
}

// Calls that callbacks make while the queue is destroyed are answered too.
void test_calls_at_the_end() {
    Client late;
    Scene<TargetLower> scene;
    QueueingRDMController *const queue = scene.queue.get();
    scene.requests[0]->then = [&] {
        queue->SendRDMRequest(get(), late.callback());
        queue->SendRDMRequest(NewMuteRequest(CLIENT, DEVICE, 1), late.callback());
        queue->Pause();
        queue->Resume();
    };
    const auto sent = scene.lower.sent.size();
    scene.queue.reset();
    CHECK(late.got.size() == 2 && late.got[0].status == RDM_FAILED_TO_SEND && late.last() == RDM_FAILED_TO_SEND);
    CHECK(scene.is_ended(0) && scene.lower.sent.size() == sent);
}

// An abort after each number of answers: all discoveries end at once, with no devices, and so do all requests. Later
// calls end at once too, and nothing more is sent.
void test_abort_after_answers() {
    bool is_at_end = false;
    for (unsigned int places = 0; !is_at_end; places++) {
        Scene<AgentLower> scene;
        is_at_end = !scene.answer(places);
        const auto answered = scene.found();
        const auto ended = scene.calls() - answered;
        const auto sent = scene.lower.sent.size();
        const auto unmutes = scene.lower.wire.unmutes;
        scene.lower.agent.Abort();
        CHECK(Scene<AgentLower>::is_each_called(scene.discoveries, 1));
        CHECK(Scene<AgentLower>::is_each_called(scene.requests, 1));
        for (std::size_t i = answered; i < scene.discoveries.size(); i++) {
            CHECK(scene.discoveries[i]->sets[0].Size() == 0);
        }
        for (std::size_t i = ended; i < scene.requests.size(); i++) {
            CHECK(scene.requests[i]->last() == RDM_FAILED_TO_SEND);
        }
        Client late;
        scene.queue->RunFullDiscovery(late.discovery());
        CHECK(late.sets.size() == 1 && late.sets[0].Size() == 0);
        scene.queue->SendRDMRequest(get(), late.callback());
        scene.queue->SendRDMRequest(NewMuteRequest(CLIENT, DEVICE, 1), late.callback());
        CHECK(late.got.size() == 2 && late.got[0].status == RDM_FAILED_TO_SEND && late.last() == RDM_FAILED_TO_SEND);
        const auto branches = scene.lower.wire.branches;
        scene.lower.answer_all();
        CHECK(scene.lower.wire.branches <= branches + 1);
        scene.lower.agent.Abort();
        scene.queue.reset();
        CHECK(scene.lower.sent.size() == sent && scene.lower.wire.unmutes <= unmutes + 1);
        CHECK(scene.calls() == scene.discoveries.size() + scene.requests.size());
    }
}

// An abort while the queue is paused, as in a Ja Rule's destructor: nothing more is sent.
void test_abort_while_paused() {
    for (unsigned int places = 0; places < 12; places++) {
        Scene<AgentLower> scene;
        scene.answer(places);
        scene.queue->Pause();
        const auto sent = scene.lower.sent.size();
        const auto unmutes = scene.lower.wire.unmutes;
        scene.lower.agent.Abort();
        CHECK(Scene<AgentLower>::is_each_called(scene.discoveries, 1));
        CHECK(scene.lower.sent.size() == sent && scene.lower.wire.unmutes == unmutes);
        scene.queue.reset();
        CHECK(Scene<AgentLower>::is_each_called(scene.requests, 1));
    }
}

// Callbacks of an abort may destroy the queue, and ask for more.
void test_calls_in_an_abort() {
    Scene<AgentLower> scene;
    Client late;
    scene.answer(4);
    scene.discoveries[0]->then = [&] {
        scene.queue->RunIncrementalDiscovery(late.discovery());
        scene.queue->SendRDMRequest(get(), late.callback());
    };
    scene.discoveries[5]->then = [&] { scene.queue.reset(); };
    scene.lower.agent.Abort();
    CHECK(late.sets.size() == 1 && late.sets[0].Size() == 0 && late.got.size() == 1);
    CHECK(Scene<AgentLower>::is_each_called(scene.discoveries, 1) && scene.requests[2]->calls() == 1);
}

// Agents that belong to no queue abort their own discovery alone.
void test_other_agents() {
    struct Alone : TargetLower {
        DiscoveryAgent agent{this};
        unsigned int calls = 0;
        bool is_good = true;
        void complete(bool good, const UIDSet &devices) {
            calls++;
            is_good = good || devices.Size() > 0;
        }
    } lower;
    lower.when = When::Later;
    lower.agent.StartFullDiscovery(ola::NewSingleCallback(&lower, &Alone::complete));
    Scene<AgentLower> other;
    lower.agent.Abort();
    CHECK(lower.calls == 1 && !lower.is_good && other.found() == 0);
    lower.agent.Abort();
    CHECK(lower.calls == 1);
    lower.forget();
}

void test_unused() {
    Lower lower;
    auto queue = std::make_unique<Queue>(&lower, 20);
    queue->Pause();
    queue.reset();
    const QueueingRDMController alone(&lower, 20);
    CHECK(lower.sent.empty() && lower.own_full == 0);
}

// OLA's other class, which has no discovery.
void test_queue_alone() {
    struct RequestsOnly : RDMControllerInterface {
        void SendRDMRequest(RDMRequest *request, RDMCallback *callback) override {
            delete request;
            RunRDMCallback(callback, RDM_UNKNOWN_UID);
        }
    } lower;
    Client client;
    QueueingRDMController queue(&lower, 20);
    queue.SendRDMRequest(get(), client.callback());
    CHECK(client.got.size() == 1 && client.last() == RDM_UNKNOWN_UID);
}

} // namespace

void test_ends() {
    for (const bool is_lower_gone : {false, true}) {
        test_after_answers<Lower>(is_lower_gone);
        test_after_answers<TargetLower>(is_lower_gone);
        test_after_answers<DmxterWidgetImpl>(is_lower_gone);
    }
    test_in_callbacks<Lower>();
    test_in_callbacks<TargetLower>();
    test_calls_at_the_end();
    test_abort_after_answers();
    test_abort_while_paused();
    test_calls_in_an_abort();
    test_other_agents();
    test_unused();
    test_queue_alone();
}

} // namespace tests
