// A layer below that does anything, at random: it answers within the call, later, twice, again much later, or never,
// with any status; clients' callbacks call the queue, OLA aborts, and destroys.
#include "checks.hpp"

#include <random>

namespace tests {
namespace {

using Random = std::minstd_rand;

std::size_t below(Random &random, std::size_t limit) { return random() % limit; }

// A layer below whose answers are given in any order, and more than once.
class Wild : public TargetLower {
public:
    DiscoveryAgent agent{this};
    Random random;
    std::vector<std::function<void()>> given;

    explicit Wild(unsigned int seed) : random(seed) {
        wire.fixtures = fixtures(3);
        answers = [this](const RDMRequest &) -> Reply {
            const auto status = static_cast<RDMStatusCode>(below(random, RDM_DUB_RESPONSE + 1));
            return below(random, 4) > 0 ? nullptr : std::make_unique<RDMReply>(status);
        };
        keeps = false;
    }

    // Gives one of the answers that are awaited, or were given before.
    void answer_any() {
        if (awaits() && below(random, 5) > 0) {
            given.push_back(last_awaited());
            return answer();
        }
        if (!given.empty()) {
            given[below(random, given.size())]();
        }
    }
};

// One life of a queue. A request's callback runs once, and a discovery's at most once.
class Life {
public:
    explicit Life(unsigned int seed) : lower_(seed), queue_(std::make_unique<Queue>(&lower_, 1 + seed % 20)) {}

    void run() {
        for (int step = 0; step < 200 && queue_; step++) {
            lower_.when = static_cast<When>(below(lower_.random, 3));
            act();
        }
        queue_.reset();
        for (const auto &each : clients_) {
            CHECK(each->sets.size() <= 1 && each->got.size() == (each->is_requests ? 1 : 0));
            CHECK(each->sets.size() == 1 || each->is_requests || !was_aborted_);
        }
    }

private:
    struct Caller : Client {
        bool is_requests = false;
    };

    Caller &added(bool is_requests) {
        clients_.push_back(std::make_unique<Caller>());
        clients_.back()->is_requests = is_requests;
        clients_.back()->then = [this] {
            if (queue_ && below(lower_.random, 3) == 0) {
                act();
            }
        };
        return *clients_.back();
    }

    void act() {
        switch (below(lower_.random, 20)) {
        case 0: return queue_->RunFullDiscovery(added(false).discovery());
        case 1: return queue_->RunIncrementalDiscovery(added(false).discovery());
        case 2: return queue_->SendRDMRequest(get(), added(true).callback());
        case 3: return queue_->SendRDMRequest(set(), added(true).callback());
        case 4: return queue_->SendRDMRequest(NewMuteRequest(CLIENT, DEVICE, 1), added(true).callback());
        case 5: return queue_->Pause();
        case 6: return queue_->Resume();
        case 7: return rarely();
        default: return lower_.answer_any();
        }
    }

    void rarely() {
        switch (below(lower_.random, 20)) {
        case 0: return queue_.reset();
        case 1:
            was_aborted_ = true;
            return lower_.agent.Abort();
        default: return;
        }
    }

    Wild lower_;
    std::vector<std::unique_ptr<Caller>> clients_;
    std::unique_ptr<Queue> queue_;
    bool was_aborted_ = false;
};

} // namespace

void test_wild_layers() {
    for (unsigned int seed = 1; seed <= 400; seed++) {
        Life(seed).run();
    }
}

} // namespace tests
