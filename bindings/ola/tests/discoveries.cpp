// Discoveries over each bridge, beside requests, many at once, and with faults.
#include "checks.hpp"

namespace tests {
namespace {

// This class reports success without bytes if nothing came after a branch.
class JaRulePortHandleImpl : public Lower {
public:
    JaRulePortHandleImpl() {
        answers = [this](const RDMRequest &request) {
            Reply reply = request.ParamId() == PID_DISC_UNIQUE_BRANCH ? wire.reply_to(request) : nullptr;
            const bool is_silent = reply && reply->StatusCode() == RDM_TIMEOUT;
            return is_silent ? std::make_unique<RDMReply>(RDM_DUB_RESPONSE) : std::move(reply);
        };
    }
};

template <typename L> void test_exact(When when, unsigned int count) {
    L lower;
    lower.when = when;
    lower.wire.fixtures = fixtures(count);
    Client client;
    Queue queue(&lower, 20);
    queue.RunFullDiscovery(client.discovery());
    lower.answer_all();
    CHECK(client.sets.size() == 1 && client.sets[0] == uids_of(lower.wire) && client.sets[0].Size() == count);
    CHECK(lower.wire.unmutes == (when == When::InsideTwice ? 6U : 3U) && lower.own_full == 0);
    lower.wire.fixtures.pop_back();
    queue.RunIncrementalDiscovery(client.discovery());
    lower.answer_all();
    CHECK(client.sets.size() == 2 && client.sets[1] == uids_of(lower.wire) && lower.own_incremental == 0);
}

// Each reply is lost four times in a row before one comes.
template <typename L> void test_losses() {
    struct Losing : L {
        unsigned int losses = 0;
    } lower;
    lower.wire.fixtures = fixtures(3);
    lower.answers = [&](const RDMRequest &request) -> Lower::Reply {
        const bool is_lost = ++lower.losses % 5 != 0 && request.ParamId() != PID_DISC_UN_MUTE;
        return is_lost ? std::make_unique<RDMReply>(RDM_TIMEOUT) : nullptr;
    };
    Client client;
    Queue queue(&lower, 20);
    queue.RunFullDiscovery(client.discovery());
    CHECK(client.sets.size() == 1 && client.sets[0] == uids_of(lower.wire));
}

// Mutes are sent as requests, and so are branches if there is no call for them.
void test_bridges() {
    TargetLower target;
    DmxterWidgetImpl requests;
    for (Lower *lower : std::initializer_list<Lower *>{&target, &requests}) {
        lower->wire.fixtures = fixtures(2);
    }
    Client client;
    Queue first(&target, 20), second(&requests, 20);
    first.RunFullDiscovery(client.discovery());
    second.RunFullDiscovery(client.discovery());
    CHECK(target.sent.size() == target.wire.mutes && target.wire.mutes >= 2);
    CHECK(target.sent[0]->ParamId() == PID_DISC_MUTE);
    CHECK(requests.sent.size() == requests.wire.mutes + requests.wire.branches + 3);
    CHECK(requests.sent[0]->ParamId() == PID_DISC_UN_MUTE && requests.sent[0]->DestinationUID() == UID::AllDevices());
    CHECK(requests.sent[3]->ParamId() == PID_DISC_UNIQUE_BRANCH && requests.sent[3]->ParamDataSize() == 12);
}

void test_own_discovery() {
    Lower lower;
    lower.when = When::Later;
    lower.wire.fixtures = fixtures(4);
    Client client;
    Queue queue(&lower, 20);
    queue.RunIncrementalDiscovery(client.discovery());
    CHECK(lower.own_incremental == 1);
    queue.RunIncrementalDiscovery(client.discovery());
    queue.RunFullDiscovery(client.discovery());
    queue.SendRDMRequest(get(), client.callback());
    CHECK(lower.own_full == 0 && lower.sent.empty());
    lower.answer();
    CHECK(client.sets.size() == 1 && lower.own_full == 1 && lower.own_incremental == 1 && lower.sent.empty());
    lower.answer_again();
    CHECK(client.sets.size() == 1);
    lower.answer();
    CHECK(client.sets.size() == 3 && client.sets[2] == uids_of(lower.wire) && lower.sent.size() == 1);
    lower.answer();
    CHECK(client.got.size() == 1);
}

// A discovery waits for the exchange under way, and requests for the discovery.
void test_beside_requests() {
    TargetLower lower;
    lower.when = When::Later;
    lower.wire.fixtures = fixtures(3);
    Client client;
    Queue queue(&lower, 20);
    queue.SendRDMRequest(get(), client.callback());
    queue.SendRDMRequest(set(), client.callback());
    queue.RunFullDiscovery(client.discovery());
    queue.SendRDMRequest(NewMuteRequest(CLIENT, DEVICE, 1), client.callback());
    CHECK(lower.wire.unmutes == 0 && lower.sent.size() == 1);
    lower.answer();
    CHECK(client.got.size() == 1 && client.sets.empty());
    while (client.sets.empty() && lower.awaits()) {
        CHECK(client.got.size() == 1);
        lower.answer();
    }
    CHECK(client.sets.size() == 1 && client.sets[0] == uids_of(lower.wire));
    lower.answer_all();
    CHECK(client.got.size() == 3 && client.last() == RDM_COMPLETED_OK && lower.sent.back()->ParamId() == PID_DISC_MUTE);
}

void test_fifty(unsigned int of_which_full) {
    TargetLower lower;
    lower.when = When::Later;
    lower.wire.fixtures = fixtures(5);
    std::vector<Client> clients(50);
    Queue queue(&lower, 20);
    for (unsigned int i = 0; i < clients.size(); i++) {
        if (i < of_which_full) {
            queue.RunFullDiscovery(clients[i].discovery());
        } else {
            queue.RunIncrementalDiscovery(clients[i].discovery());
        }
    }
    lower.answer_all();
    bool all = true;
    for (const auto &each : clients) {
        all &= each.sets.size() == 1 && each.sets[0] == uids_of(lower.wire);
    }
    CHECK(all && lower.wire.unmutes == 6);
    lower.answer_again();
    CHECK(!lower.awaits());
}

// Callbacks that ask for another discovery.
void test_asking_again() {
    TargetLower lower;
    lower.wire.fixtures = fixtures(2);
    Client client;
    Queue queue(&lower, 20);
    client.then = [&] {
        if (client.calls() < 40) {
            queue.RunIncrementalDiscovery(client.discovery());
            queue.SendRDMRequest(get(), nullptr);
        }
    };
    queue.RunFullDiscovery(client.discovery());
    CHECK(client.sets.size() == 40 && lower.wire.unmutes == 120);
}

// Beside a bad device OLA gets what the run has found. If the line fails, it gets what the last good run found.
void test_faults() {
    TargetLower lower;
    lower.wire.fixtures = fixtures(3);
    const UIDSet good = uids_of(lower.wire);
    lower.wire.fixtures.push_back({UID(0xffff, 0xfffffffe), false, false});
    Client client;
    Queue queue(&lower, 20);
    queue.RunFullDiscovery(client.discovery());
    CHECK(client.sets.size() == 1 && client.sets[0] == uids_of(lower.wire));
    const auto bad = lower.wire.fixtures.back();
    lower.wire.fixtures.pop_back();
    queue.RunFullDiscovery(client.discovery());
    CHECK(client.sets.size() == 2 && client.sets[1] == good);
    const auto absent = lower.wire.fixtures.front();
    lower.wire.fixtures.front() = bad;
    queue.RunFullDiscovery(client.discovery());
    CHECK(client.sets.size() == 3 && client.sets[2] == uids_of(lower.wire));
    lower.wire.fixtures.front() = absent;
    lower.wire.fixtures.erase(lower.wire.fixtures.begin());
    lower.answers = [](const RDMRequest &) { return std::make_unique<RDMReply>(RDM_FAILED_TO_SEND); };
    queue.RunFullDiscovery(client.discovery());
    CHECK(client.sets.size() == 4 && client.sets[3] == good);
    queue.RunIncrementalDiscovery(client.discovery());
    CHECK(client.sets.size() == 5 && client.sets[4] == good);
}

// A status without bytes isn't silence, and a status that can't occur ends the run.
void test_branches_without_bytes() {
    DmxterWidgetImpl lower;
    lower.wire.fixtures = fixtures(1);
    Client client;
    Queue queue(&lower, 20);
    bool is_first = true;
    lower.answers = [&](const RDMRequest &request) -> Lower::Reply {
        const bool is_branch = request.ParamId() == PID_DISC_UNIQUE_BRANCH;
        return is_branch && std::exchange(is_first, false) ? std::make_unique<RDMReply>(RDM_INVALID_RESPONSE) : nullptr;
    };
    queue.RunFullDiscovery(client.discovery());
    CHECK(client.sets.size() == 1 && client.sets[0] == uids_of(lower.wire) && lower.wire.branches > 1);
    lower.answers = [](const RDMRequest &) { return std::make_unique<RDMReply>(RDM_PLUGIN_DISCOVERY_NOT_SUPPORTED); };
    lower.wire.fixtures.clear();
    queue.RunFullDiscovery(client.discovery());
    CHECK(client.sets.size() == 2 && client.sets[1] == client.sets[0]);
}

// A run that has begun waits while the queue is paused.
void test_pause() {
    TargetLower lower;
    lower.when = When::Later;
    lower.wire.fixtures = fixtures(2);
    Client client;
    Queue queue(&lower, 20);
    queue.RunFullDiscovery(client.discovery());
    lower.answer();
    lower.answer();
    queue.Pause();
    lower.answer();
    CHECK(!lower.awaits() && client.calls() == 0);
    queue.Resume();
    lower.answer_all();
    CHECK(client.sets.size() == 1 && client.sets[0] == uids_of(lower.wire) && lower.wire.unmutes == 3);
}

// Nothing is sent while the queue is paused, also between the checks of the line before a run.
void test_pause_within_checks() {
    for (unsigned int absent = 0; absent < 3; absent++) {
        TargetLower lower;
        lower.wire.fixtures = fixtures(3);
        Client client;
        Queue queue(&lower, 20);
        queue.RunFullDiscovery(client.discovery());
        lower.answers = [](const RDMRequest &) { return std::make_unique<RDMReply>(RDM_SRC_UID_MISMATCH); };
        queue.SendRDMRequest(get(), nullptr);
        lower.answers = nullptr;
        // Checks begin with the device that answered last, and go on to the one that was found last.
        const UID left = lower.wire.fixtures[absent].uid;
        lower.wire.fixtures = {{left}};
        lower.when = When::Later;
        queue.RunFullDiscovery(client.discovery());
        while (client.sets.size() < 2 && lower.awaits()) {
            queue.Pause();
            lower.answer();
            CHECK(!lower.awaits());
            queue.Resume();
        }
        CHECK(client.sets.size() == 2 && client.sets[1] == set_of({left}));
    }
}

// The same before the last mute of a silent run, and if the adapter is stopped, or the queue ends, meanwhile.
void test_pause_before_the_last_check() {
    struct AgentLower : TargetLower {
        DiscoveryAgent agent{this};
    };
    for (const bool is_stopped : {false, true}) {
        AgentLower lower;
        lower.when = When::Later;
        Client client;
        auto queue = std::make_unique<Queue>(&lower, 20);
        queue->RunFullDiscovery(client.discovery());
        while (lower.wire.branches < 5) {
            queue->Pause();
            lower.answer();
            CHECK(!lower.awaits());
            if (lower.wire.branches < 5) {
                queue->Resume();
            }
        }
        CHECK(lower.wire.mutes == 0 && client.sets.empty());
        if (is_stopped) {
            lower.agent.Abort();
            CHECK(client.sets.size() == 1);
        }
        queue->Resume();
        lower.answer_all();
        CHECK(client.sets.size() == 1 && lower.wire.mutes == (is_stopped ? 0U : 1U));
    }
}

} // namespace

void test_discoveries() {
    for (const auto when : {When::Inside, When::InsideTwice, When::Later}) {
        test_exact<TargetLower>(when, 5);
        test_exact<DmxterWidgetImpl>(when, 5);
        test_exact<JaRulePortHandleImpl>(when, 5);
    }
    test_exact<TargetLower>(When::Inside, 200);
    test_losses<TargetLower>();
    test_losses<DmxterWidgetImpl>();
    test_bridges();
    test_own_discovery();
    test_beside_requests();
    test_fifty(50);
    test_fifty(0);
    test_fifty(7);
    test_asking_again();
    test_faults();
    test_branches_without_bytes();
    test_pause();
    test_pause_within_checks();
    test_pause_before_the_last_check();
}

} // namespace tests
