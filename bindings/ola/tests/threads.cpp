// OLA's detector makes and deletes controllers on its own thread, while others are used on the main thread.
#include "checks.hpp"

#include <atomic>
#include <thread>

namespace tests {
namespace {

// Makes and deletes controllers, with requests and discoveries outstanding.
void come_and_go(const std::atomic<bool> &is_over, unsigned int &made) {
    while (!is_over) {
        TargetLower lower;
        lower.when = When::Later;
        Client client;
        Queue queue(&lower, 20);
        queue.RunFullDiscovery(client.discovery());
        queue.SendRDMRequest(get(), client.callback());
        made++;
    }
}

} // namespace

void test_threads() {
    std::atomic<bool> is_over{false};
    std::array<unsigned int, 2> made{};
    std::thread first(come_and_go, std::cref(is_over), std::ref(made[0]));
    std::thread second(come_and_go, std::cref(is_over), std::ref(made[1]));
    TargetLower lower;
    DiscoveryAgent agent(&lower);
    Client client;
    Queue queue(&lower, 20);
    lower.keeps = false;
    for (int i = 0; i < 2000; i++) {
        queue.SendRDMRequest(get(), client.callback());
        if (i % 100 == 0) {
            queue.RunIncrementalDiscovery(client.discovery());
        }
    }
    agent.Abort();
    is_over = true;
    first.join();
    second.join();
    CHECK(client.got.size() == 2000 && client.sets.size() == 20 && made[0] > 0 && made[1] > 0);
}

} // namespace tests
