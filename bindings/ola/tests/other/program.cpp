// Calls of the other OLA: they have to reach it, whatever is preloaded. The argument is the plugin's library.
#include "ola.hpp"

#include <cstdio>
#include <dlfcn.h>
#include <memory>

static unsigned int passed = 0;
static unsigned int failed = 0;

static void check(bool holds, const char *text, const std::string &found) {
    (holds ? passed : failed)++;
    if (!holds) {
        std::printf("failed: %s: %s\n", text, found.c_str());
    }
}

static void call(ola::rdm::QueueingRDMController &queue) {
    queue.before_all();
    queue.Pause();
    queue.Resume();
    queue.SendRDMRequest(nullptr, nullptr);
}

int main(int, char **arguments) {
    std::string ends;
    auto whole = std::make_unique<ola::rdm::DiscoverableQueueingRDMController>(nullptr, 3);
    whole->ends = &ends;
    call(*whole);
    whole->RunFullDiscovery(nullptr);
    whole->RunIncrementalDiscovery(nullptr);
    check(whole->calls == "make 3 discoverable before pause resume send full incremental ", "a queue", whole->calls);
    whole.reset();
    {
        ola::rdm::QueueingRDMController alone(nullptr, 4);
        alone.ends = &ends;
        call(alone);
        check(alone.calls == "make 4 before pause resume send ", "a queue without discovery", alone.calls);
    }
    check(ends == "end end ", "destructors", ends);
    ola::rdm::DiscoveryAgent agent;
    agent.Abort();
    check(agent.calls == "abort ", "an agent", agent.calls);
    void *const plugin = dlopen(arguments[1], RTLD_NOW | RTLD_LOCAL);
    void *const stop = plugin != nullptr ? dlsym(plugin, "stop_once") : nullptr;
    const int stops = stop != nullptr ? reinterpret_cast<int (*)()>(stop)() : 0;
    check(stops == 1, "an adapter of a plugin", std::to_string(stops));
    std::printf("%u passed, %u failed\n", passed, failed);
    return failed > 0;
}
