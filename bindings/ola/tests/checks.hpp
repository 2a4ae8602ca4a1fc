// What the unit tests share: counted checks, and clients that keep what their callbacks got.
#ifndef WURSTLINEN_OLA_TESTS_CHECKS_HPP
#define WURSTLINEN_OLA_TESTS_CHECKS_HPP

#include "lower.hpp"

#include <ola/Callback.h>
#include <ola/rdm/QueueingRDMController.h>

#include <atomic>
#include <cstdio>
#include <functional>
#include <memory>
#include <string>
#include <vector>

namespace tests {

inline unsigned int passed = 0;
inline unsigned int failed = 0;

inline void check_that(bool holds, const char *text, const char *file, int line) {
    (holds ? passed : failed)++;
    if (!holds) {
        std::printf("%s:%d: failed: %s\n", file, line, text);
    }
}

#define CHECK(condition) tests::check_that((condition), #condition, __FILE__, __LINE__)

using Queue = DiscoverableQueueingRDMController;
using Data = std::vector<std::uint8_t>;

inline const UID CLIENT(0x7a70, 0x00000005);
inline const UID DEVICE(0x1234, 0x00000007);
inline const UID OTHER(0x1234, 0x00000008);
constexpr std::uint8_t CLIENTS_NUMBER = 201;

// What a callback got.
struct Got {
    RDMStatusCode status;
    std::unique_ptr<RDMResponse> response;
    RDMFrames frames;
};

// A client, whose callbacks may do something more. It keeps them, since a discovery's may never run.
class Client {
public:
    std::vector<Got> got;
    std::vector<UIDSet> sets;
    std::function<void()> then = [] {};

    RDMCallback *callback() { return callback_.get(); }
    RDMDiscoveryCallback *discovery() { return discovery_.get(); }
    std::size_t calls() const { return got.size() + sets.size(); }
    RDMStatusCode last() const { return got.back().status; }

private:
    void replied(RDMReply *reply) {
        got.push_back({reply->StatusCode(), nullptr, reply->Frames()});
        if (reply->Response() != nullptr) {
            got.back().response.reset(reply->Response()->Duplicate());
        }
        then();
    }

    void found(const UIDSet &set) {
        sets.push_back(set);
        then();
    }

    std::unique_ptr<RDMCallback> callback_{ola::NewCallback(this, &Client::replied)};
    std::unique_ptr<RDMDiscoveryCallback> discovery_{ola::NewCallback(this, &Client::found)};
};

inline RDMRequest *get(std::uint16_t pid = PID_DEVICE_LABEL, const UID &to = DEVICE, std::uint16_t sub_device = 3,
                       const Data &data = {9, 8}) {
    return new RDMGetRequest(CLIENT, to, CLIENTS_NUMBER, 1, sub_device, pid, data.data(),
                             static_cast<unsigned int>(data.size()));
}

inline RDMRequest *set(std::uint16_t pid = PID_DMX_START_ADDRESS, const UID &to = DEVICE, std::uint16_t sub_device = 3,
                       const Data &data = {1, 2}) {
    return new RDMSetRequest(CLIENT, to, CLIENTS_NUMBER, 1, sub_device, pid, data.data(),
                             static_cast<unsigned int>(data.size()));
}

inline Data data_of(const RDMCommand &command) {
    return Data(command.ParamData(), command.ParamData() + command.ParamDataSize());
}

inline UIDSet set_of(const std::vector<UID> &uids) {
    UIDSet set;
    for (const auto &each : uids) {
        set.AddUID(each);
    }
    return set;
}

inline std::vector<Fixture> fixtures(unsigned int count) {
    std::vector<Fixture> made;
    for (unsigned int i = 0; i < count; i++) {
        made.push_back({UID(static_cast<std::uint16_t>(0x1234 + i % 3), 7 + i * i * 1000003)});
    }
    return made;
}

inline UIDSet uids_of(const Wire &wire) {
    UIDSet set;
    for (const auto &each : wire.fixtures) {
        set.AddUID(each.uid);
    }
    return set;
}

void test_requests();
void test_statuses();
void test_discoveries();
void test_ends();
void test_stops();
void test_adapters();
void test_lines();
void test_steps();
void test_settings();
void test_threads();
void test_wild_layers();
void test_moments();
void test_records();
void test_own();
void test_lost_parts(unsigned long runs);
void test_length(unsigned long requests);

// How many blocks of the C library's heap are allocated, and whether allocations fail.
extern std::atomic<std::size_t> blocks;
extern bool is_heap_full;

} // namespace tests

#endif
