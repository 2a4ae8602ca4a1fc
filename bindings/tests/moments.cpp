// The worst moments of the C++ headers: each callable that they call throws, and each allocation fails, one at a time.
// Afterwards the next request is served, and nothing that was collected is lost.
#include "tests.h"
#include <cstdlib>
#include <deque>
#include <new>
#include <vector>
#include <wurstlinen_ask.hpp>

using std::chrono::milliseconds;
using Data = std::vector<std::uint8_t>;
using Reply = std::optional<Data>;

static const wurst::Uid source(0x7a70, 1), device(0x1234, 7);
static constexpr std::uint16_t label = 0x0082, hours = 0x0400, status = 0x0030;

// Which call of a callable throws, and which allocation fails, counted from 1; 0: none.
static unsigned int throws = 0, calls = 0, fails = 0, allocations = 0;
static bool is_armed = false;

void *operator new(std::size_t size) {
    const bool is_refused = is_armed && ++allocations == fails;
    void *const made = is_refused ? nullptr : std::malloc(size > 0 ? size : 1);
    if (made == nullptr) {
        throw std::bad_alloc();
    }
    return made;
}
// Not inlined: the compiler would take its own call of free for a mismatched one.
[[gnu::noinline]] void operator delete(void *at) noexcept { std::free(at); }
[[gnu::noinline]] void operator delete(void *at, std::size_t) noexcept { std::free(at); }

struct Thrown {};

// A callable of the caller's, in which no allocation fails.
class Called {
public:
    Called() : was_armed_(std::exchange(is_armed, false)) {
        if (++calls == throws) {
            is_armed = was_armed_;
            throw Thrown();
        }
    }
    ~Called() { is_armed = was_armed_; }
    Called(const Called &) = delete;
    Called &operator=(const Called &) = delete;

private:
    const bool was_armed_;
};

struct Said {
    std::uint8_t type;
    std::uint16_t pid;
    Data data;
};

// The reply to a command that has this type, PID and data.
static Data reply_to(const std::uint8_t *command, const Said &said) {
    Data copy(command, command + 257), reply(257);
    copy[20] = 0x20;
    copy[21] = static_cast<std::uint8_t>(said.pid >> 8);
    copy[22] = static_cast<std::uint8_t>(said.pid);
    const wurst::Bytes data(said.data);
    reply.resize(answer(copy.data(), said.type, data.data, static_cast<std::uint8_t>(data.size), reply.data()));
    return reply;
}

static bool is_discovery(const wurst::Frame &frame) { return frame.data()[20] == 0x10; }

// A device that acknowledges its mute, is silent to other discovery commands, and answers a GET by its label.
static Reply prompt(const wurst::Frame &frame) {
    const std::uint8_t *command = frame.data();
    const std::uint8_t control[] = {0, 4};
    Data reply;
    if (command[20] == 0x20) {
        return reply_to(command, {WURST_ACK, label, {'L'}});
    }
    if (command[22] == 2) {
        reply.resize(257);
        reply.resize(answer(command, 0, control, 2, reply.data()));
    } else if (command[22] == 1) {
        reply.resize(WURST_BRANCH_REPLY_BYTES);
        std::size_t len = 0;
        wurst_branch_reply_write(device.number(), 7, reply.data(), reply.size(), &len);
    }
    return reply;
}

template <typename Queue> static bool is_served(Queue &queue, std::uint8_t client) {
    const auto number = queue.get(client, device, label);
    queue.run(prompt);
    const auto done = queue.next_completion(client);
    return done && done->number() == number && done->data == Data{'L'} && !queue.awaits();
}

// How many of a client's outcomes failed, and how many there were.
template <typename Queue> static std::pair<int, int> collected(Queue &queue, std::uint8_t client) {
    std::pair<int, int> counts;
    while (const auto kind = queue.oldest(client)) {
        const bool has_failed = *kind == WURST_REQUEST_OUTCOME
            ? queue.next_completion(client)->status() == WURST_FAILED_TO_SEND
            : queue.next_discovery(client)->fault() == WURST_LINE_FAILED;
        counts.first += has_failed;
        counts.second++;
    }
    return counts;
}

// A line that throws at each exchange in turn, or returns more than a reply has.
template <typename Queue> static void runs(Queue queue) {
    const auto client = queue.join(3);
    bool is_over = false;
    for (throws = 1; !is_over; throws++) {
        calls = 0;
        queue.get(client, device, label);
        queue.discover(client);
        bool has_thrown = false;
        try {
            queue.run([](const wurst::Frame &frame) {
                const Called called;
                return prompt(frame);
            });
            is_over = true;
        } catch (const Thrown &) {
            has_thrown = true;
        }
        CHECK(has_thrown != is_over && !queue.awaits());
        queue.run(prompt);
        CHECK(collected(queue, client) == std::make_pair(has_thrown ? 1 : 0, 2));
        CHECK(is_served(queue, client));
    }
    CHECK(throws > 20);
    throws = 0;
    queue.get(client, device, label);
    std::uint32_t fault = WURST_DONE;
    try {
        queue.run([](const wurst::Frame &) { return Reply(Data(WURST_MOST_FRAME_BYTES + 1)); });
    } catch (const wurst::Fault &refused) {
        fault = refused.status();
    }
    CHECK(fault == WURST_REPLY_TOO_LONG && !queue.awaits());
    CHECK(queue.next_completion(client)->status() == WURST_FAILED_TO_SEND && is_served(queue, client));
}

// An outcome stays until there is memory for it.
static void outcomes() {
    wurst::Controller queue(source);
    const auto client = queue.join(2);
    for (unsigned int number = 1; number <= 3; number++) {
        queue.get(client, device, label);
        queue.discover(client);
        queue.run(prompt);
        bool was_refused = false;
        while (const auto kind = queue.oldest(client)) {
            allocations = 0;
            fails = was_refused ? 0 : number;
            is_armed = true;
            try {
                if (*kind == WURST_REQUEST_OUTCOME) {
                    CHECK(queue.next_completion(client)->data.size() == 1);
                } else {
                    CHECK(queue.next_discovery(client)->devices.size() == 1);
                }
            } catch (const std::bad_alloc &) {
                was_refused = true;
            }
            is_armed = false;
        }
        CHECK(was_refused == (number <= 2));
    }
    fails = 0;
}

// A clock that only moves when somebody sleeps.
struct TestTime {
    milliseconds *at;

    milliseconds now() const {
        const Called called;
        return *at;
    }
    void sleep(milliseconds time) const {
        const Called called;
        *at += time;
    }
};

static const std::deque<Said> messages{{WURST_ACK_TIMER, label, {0, 1}}, {WURST_ACK, hours, {0, 0, 0, 9}},
                                       {WURST_ACK, label, {'L', 'a', 'm', 'p'}},
                                       {WURST_ACK, status, {0, 0, 4, 0, 0x21, 0, 5, 0, 0}}, {WURST_ACK, status, {}}};

static bool is_said(const wurst::Completion &completion, const Said &said) {
    return completion.head.has_head && completion.head.ack == said.type && completion.head.pid == said.pid
        && completion.data == said.data;
}

// How often this was handed out.
static std::size_t count(const wurst::Answer &answer, const Said &said) {
    std::size_t found = is_said(answer.completion, said);
    for (const auto &each : answer.queued) {
        found += is_said(each, said);
    }
    for (const auto &each : answer.earlier) {
        const auto *const completion = std::get_if<wurst::Completion>(&each);
        found += completion != nullptr && is_said(*completion, said);
    }
    return found;
}

// How many discoveries were handed out.
static std::size_t discoveries(const wurst::Answer &answer) {
    std::size_t found = 0;
    for (const auto &each : answer.earlier) {
        found += std::holds_alternative<wurst::Discovery>(each);
    }
    return found;
}

// An asker at one moment, of a client that has a discovery outstanding. False: the moment didn't come.
static bool asks() {
    milliseconds at(100000);
    std::deque<Said> says = messages;
    wurst::Controller queue(source);
    bool is_muted = false;
    auto exchange = [&says, &is_muted](const wurst::Frame &frame) {
        const Called called;
        if (is_discovery(frame)) {
            const bool is_mute = frame.data()[22] == 2;
            return std::exchange(is_muted, is_muted || is_mute) ? Reply(Data()) : prompt(frame);
        }
        const Said said = says.front();
        // After an exchange that failed, a GET of the same is made twice.
        if (says.size() > 1) {
            says.pop_front();
        }
        return Reply(reply_to(frame.data(), said));
    };
    const auto client = queue.join(4);
    queue.discover(client);
    wurst::Asker asker(queue, client, exchange, milliseconds(10000), TestTime{&at});
    calls = allocations = 0;
    is_armed = true;
    bool has_come = true;
    try {
        const auto answer = asker.get(device, label);
        has_come = false;
        is_armed = false;
        CHECK(answer.completion.data == messages[2].data && answer.queued.size() == 2);
        CHECK(answer.earlier.size() == 1 && std::get<wurst::Discovery>(answer.earlier[0]).devices.size() == 1);
    } catch (const Thrown &) {
    } catch (const std::bad_alloc &) {
    }
    is_armed = false;
    const std::size_t said = messages.size() - says.size();
    says = {{WURST_ACK, label, {'n', 'e', 'w'}}};
    calls = throws;
    const auto next = asker.get(device, label);
    CHECK(next.completion.data == Data({'n', 'e', 'w'}) && !queue.awaits());
    CHECK(discoveries(next) == (has_come ? 1 : 0));
    // The last message only says that there are no more.
    for (std::size_t i = 0; has_come && i + 1 < messages.size(); i++) {
        CHECK(count(next, messages[i]) == (i < said ? 1 : 0));
    }
    return has_come;
}

int main() {
    // A steady search soon gives up on a device that doesn't mute.
    runs(wurst::Controller(source, WURST_MOST_PLACES, WURST_DEFAULT_BUDGET, WURST_STEADY));
    runs(wurst::Session(source, 10000, WURST_MOST_PLACES, WURST_DEFAULT_BUDGET, WURST_STEADY));
    outcomes();
    for (throws = 1; asks(); throws++) {
    }
    CHECK(throws > 10);
    throws = 0;
    for (fails = 1; asks(); fails++) {
    }
    CHECK(fails > 10);
    return report();
}
