// The C++ header that asks devices which need time, with devices that answer by tables.
#include "tests.h"
#include <array>
#include <cstdio>
#include <cstdlib>
#include <deque>
#include <memory>
#include <numeric>
#include <random>
#include <string>
#include <vector>
#include <wurstlinen_ask.hpp>

using std::chrono::milliseconds;
using Data = std::vector<std::uint8_t>;

static const wurst::Uid source(0x7a70, 1), device(0x1234, 7), slow_device(0x1234, 8);
static constexpr std::uint16_t label = 0x0082, hours = 0x0400, queued = 0x0020, status = 0x0030;
static const Data lamp{'L', 'a', 'm', 'p'};

// A clock that only moves when somebody sleeps. Its copies are one clock.
struct TestTime {
    std::shared_ptr<milliseconds> at = std::make_shared<milliseconds>(100000);
    std::shared_ptr<std::vector<milliseconds>> naps = std::make_shared<std::vector<milliseconds>>();

    milliseconds now() const { return *at; }
    void sleep(milliseconds time) const {
        naps->push_back(time);
        *at += time;
    }
    milliseconds slept() const {
        return std::accumulate(naps->begin(), naps->end(), milliseconds());
    }
};

// What a device says: its response type, PID, data and class, or nothing at all.
struct Said {
    std::uint8_t type;
    std::uint16_t pid;
    Data data;
    bool is_set = false;
    bool is_silence = false;
};

static const Said silence{0, 0, {}, false, true};
static const Said empty{WURST_ACK, status, {}};
static const Said reported{WURST_ACK, status, {0, 0, 4, 0, 0x21, 0, 5, 0, 0}};

static Said timer(std::uint16_t pid, std::uint8_t tenths, bool is_set = false) {
    return {WURST_ACK_TIMER, pid, {0, tenths}, is_set};
}

// A device that says these things one after another, and then the last one for ever.
struct Device {
    std::deque<Said> says;
    std::vector<std::pair<std::uint16_t, Data>> asked{};

    std::optional<Data> exchange(const wurst::Frame &frame) {
        const std::uint8_t *command = frame.data();
        const auto pid = static_cast<std::uint16_t>(command[21] << 8 | command[22]);
        asked.push_back({pid, Data(command + 24, command + 24 + command[23])});
        const Said said = says.front();
        if (says.size() > 1) {
            says.pop_front();
        }
        if (said.is_silence) {
            return Data();
        }
        Data copy(frame.begin(), frame.end());
        copy[20] = said.is_set ? 0x30 : 0x20;
        copy[21] = static_cast<std::uint8_t>(said.pid >> 8);
        copy[22] = static_cast<std::uint8_t>(said.pid);
        const wurst::Bytes data(said.data);
        Data reply(257);
        reply.resize(
            answer(copy.data(), said.type, data.data, static_cast<std::uint8_t>(data.size), reply.data()));
        return reply;
    }

    std::size_t count(std::uint16_t pid) const {
        return static_cast<std::size_t>(
            std::count_if(asked.begin(), asked.end(), [pid](const auto &each) { return each.first == pid; }));
    }
};

// The answer to a GET of the label, or to a SET of it.
static wurst::Answer ask(Device &line, const TestTime &time, bool is_set = false,
                         milliseconds wait = milliseconds(10000)) {
    wurst::Controller queue(source);
    auto exchange = [&line](const wurst::Frame &frame) { return line.exchange(frame); };
    wurst::Asker asker(queue, queue.join(1), exchange, wait, time);
    return is_set ? asker.set(device, label, lamp) : asker.get(device, label);
}

static void needs_no_time() {
    TestTime time;
    Device prompt{{{WURST_ACK, label, lamp}}};
    const auto answer = ask(prompt, time);
    CHECK(!answer.is_late() && answer.completion.data == lamp && answer.queued.empty() && answer.earlier.empty());
    CHECK(prompt.asked.size() == 1 && time.naps->empty());
    Device absent{{silence}};
    CHECK(ask(absent, time).completion.status() == WURST_TIMEOUT && time.naps->empty());
}

static void waits_as_long_as_it_says() {
    TestTime time;
    Device slow{{timer(label, 3), {WURST_ACK, label, lamp}, empty}};
    const auto answer = ask(slow, time);
    CHECK(answer.completion.data == lamp && answer.queued.empty());
    CHECK(time.naps->size() == 1 && time.slept() == milliseconds(300));
    CHECK(slow.asked.size() == 3 && slow.asked[1].first == queued && slow.asked[1].second == Data{4});

    Device endless{{{WURST_ACK_TIMER, label, {0xff, 0xff}}, empty}};
    TestTime other;
    CHECK(ask(endless, other).is_late() && other.slept() == milliseconds(10000));
    Device impatient{{timer(label, 3)}};
    CHECK(ask(impatient, other, false, milliseconds(0)).is_late() && impatient.asked.size() == 1);
}

static void sends_a_set_once() {
    for (const Said &last : {empty, Said{WURST_NACK, queued, {0, 0}}}) {
        TestTime time;
        Device forgetful{{timer(label, 1, true), last}};
        CHECK(ask(forgetful, time, true).is_late() && forgetful.count(label) == 1);
        CHECK(time.slept() == milliseconds(10000));
    }
    TestTime time;
    Device refusing{{timer(label, 1, true), {WURST_NACK, label, {0, 6}, true}, empty}};
    const auto answer = ask(refusing, time, true);
    CHECK(!answer.is_late() && answer.completion.head.ack == WURST_NACK && answer.completion.data == Data({0, 6}));
}

static void asks_again() {
    TestTime time;
    Device without_queue{{timer(label, 2), {WURST_NACK, queued, {0, 0}}, timer(label, 2), {WURST_ACK, label, lamp}}};
    CHECK(ask(without_queue, time).completion.data == lamp && without_queue.count(queued) == 1);
    Device forgetful{{timer(label, 2), empty, empty, {WURST_ACK, label, lamp}}};
    CHECK(ask(forgetful, time).completion.data == lamp && forgetful.count(label) == 2);
}

static void keeps_other_messages() {
    TestTime time;
    Device busy{{timer(label, 1), {WURST_ACK, hours, Data(4)}, {WURST_ACK, label, {'o', 'l', 'd'}},
                 {WURST_ACK, label, {}, true}, {WURST_ACK, label, lamp}, reported, empty}};
    const auto answer = ask(busy, time);
    CHECK(answer.completion.data == lamp && answer.queued.size() == 4);
    CHECK(answer.queued[0].head.pid == hours && answer.queued[1].head.response_class == WURST_SET_RESPONSE);
    CHECK(answer.queued[2].data == Data({'o', 'l', 'd'}) && answer.queued[3].data == reported.data);
}

static void knows_whose_sensor_it_is() {
    TestTime time;
    Device line{{timer(0x0201, 1), {WURST_ACK, 0x0201, {2, 7}}, {WURST_ACK, 0x0201, {1, 8}}, empty}};
    wurst::Controller queue(source);
    auto exchange = [&line](const wurst::Frame &frame) { return line.exchange(frame); };
    wurst::Asker asker(queue, queue.join(1), exchange, milliseconds(10000), time);
    const auto answer = asker.get(device, 0x0201, Data{2});
    CHECK(answer.completion.data == Data({2, 7}) && answer.queued.size() == 1);
}

static void is_bounded() {
    for (std::uint8_t tenths : {0, 1, 3}) {
        TestTime time;
        Device always_slow{{timer(label, tenths)}};
        CHECK(ask(always_slow, time).is_late() && always_slow.asked.size() < 250);
        CHECK(time.slept() == milliseconds(10000));
    }
    TestTime time;
    Device talkative{{timer(label, 1, true), {WURST_ACK, hours, {}}}};
    CHECK(ask(talkative, time, true).is_late() && talkative.asked.size() <= 1001);
}

static void repeats_what_was_lost() {
    TestTime time;
    const Said old{WURST_ACK, label, {'o', 'l', 'd'}}, is_lamp{WURST_ACK, label, lamp};
    // The first repeated message may lack its first parts.
    Device lossy{{timer(label, 1), {WURST_ACK, hours, Data(4)}, silence, is_lamp, is_lamp, empty}};
    const auto answer = ask(lossy, time);
    CHECK(answer.completion.data == lamp && answer.queued.size() == 1);
    CHECK(lossy.asked.size() == 6 && lossy.asked[3].second == Data{1} && lossy.asked[4].second == Data{1});
    CHECK(lossy.asked[5].second == Data{4});

    // It isn't known here whether the repeated message is the lost one or an older one.
    Device unknown{{timer(label, 1), silence, old, old, empty, empty, is_lamp}};
    const auto other = ask(unknown, time);
    CHECK(other.completion.data == lamp && other.queued.size() == 1);

    // A repeated report is kept once.
    Device reporting{{timer(label, 1), silence, reported, reported, is_lamp, empty}};
    const auto third = ask(reporting, time);
    CHECK(third.completion.data == lamp && third.queued.size() == 1 && third.queued[0].data == reported.data);

    // The command was lost, and the device repeats what came before.
    Device line{{timer(label, 1), old, empty, timer(label, 1), silence, old, old, is_lamp, empty}};
    wurst::Controller queue(source);
    auto exchange = [&line](const wurst::Frame &frame) { return line.exchange(frame); };
    wurst::Asker asker(queue, queue.join(1), exchange, milliseconds(10000), time);
    CHECK(asker.get(device, label).completion.data == Data({'o', 'l', 'd'}));
    const auto second = asker.get(device, label);
    CHECK(second.completion.data == lamp && second.queued.empty());
}

static void fails() {
    TestTime time;
    Device line{{timer(label, 1)}};
    wurst::Session queue(source, 100);
    const auto client = queue.join(3);
    auto unplugged = [&line](const wurst::Frame &frame) {
        return line.asked.empty() ? line.exchange(frame) : std::optional<Data>();
    };
    wurst::Asker asker(queue, client, unplugged, milliseconds(10000), time);
    CHECK(asker.get(device, label).completion.status() == WURST_FAILED_TO_SEND);

    Device slow{{{WURST_ACK, hours, {}}, timer(label, 1), {WURST_ACK, label, lamp}, empty}};
    auto exchange = [&slow](const wurst::Frame &frame) { return slow.exchange(frame); };
    const auto began = wurst::SteadyTime().now();
    queue.get(client, slow_device, hours);
    const auto answer = wurst::ask(queue, client, exchange, {slow_device.number(), WURST_GET, 0, label});
    CHECK(answer.completion.data == lamp && answer.earlier.size() == 1);
    CHECK(std::get<wurst::Completion>(answer.earlier[0]).head.pid == hours);
    CHECK(wurst::SteadyTime().now() - began >= milliseconds(100));
    queue.pause();
    try {
        wurst::ask(queue, client, exchange, {device.number(), WURST_GET, 0, label});
        CHECK(false);
    } catch (const wurst::Unserved &) {
        CHECK(slow.asked.size() == 4);
    }
}

struct Unplugged {};

// A line to a device that throws once, after so many exchanges.
struct Throwing {
    Device &device;
    std::size_t exchanges;

    std::optional<Data> operator()(const wurst::Frame &frame) {
        if (device.asked.size() == exchanges) {
            exchanges = ~std::size_t{};
            throw Unplugged();
        }
        return device.exchange(frame);
    }
};

static void keeps_what_was_collected() {
    for (std::size_t kept : {0, 1, 2}) {
        TestTime time;
        Device line{{{WURST_ACK, hours, {}}, timer(label, 1), {WURST_ACK, hours, Data(4)}, {WURST_ACK, label, lamp},
                     reported, empty}};
        wurst::Controller queue(source);
        const auto client = queue.join(4);
        queue.get(client, device, hours);
        wurst::Asker asker(queue, client, Throwing{line, 2 + kept}, milliseconds(10000), time);
        try {
            asker.get(device, label);
            CHECK(false);
        } catch (const Unplugged &) {
            CHECK(!queue.awaits());
        }
        line.says = {{WURST_ACK, label, lamp}};
        const auto answer = asker.get(device, label);
        CHECK(answer.completion.data == lamp && answer.queued.size() == kept);
        CHECK(kept < 1 || answer.queued[0].data == Data(4));
        CHECK(kept < 2 || answer.queued[1].data == lamp);
        // How the label's request ended, and the request that failed, after the one from before.
        CHECK(answer.earlier.size() == 3 && std::get<wurst::Completion>(answer.earlier[0]).head.pid == hours);
        CHECK(std::get<wurst::Completion>(answer.earlier[1]).head.ack == WURST_ACK_TIMER);
        CHECK(std::get<wurst::Completion>(answer.earlier[2]).status() == WURST_FAILED_TO_SEND);
        const auto next = asker.get(device, label);
        CHECK(next.queued.empty() && next.earlier.empty());
    }
}

static void hands_over_what_was_collected() {
    Device line{{{WURST_ACK, hours, {7}}}};
    wurst::Controller queue(source);
    const auto client = queue.join(2);
    auto exchange = [&line](const wurst::Frame &frame) { return line.exchange(frame); };
    queue.get(client, device, hours);
    queue.run(exchange);
    queue.pause();
    try {
        wurst::ask(queue, client, exchange, {device.number(), WURST_GET, 0, label});
        CHECK(false);
    } catch (const wurst::Unserved &unserved) {
        CHECK(unserved.queued.empty() && unserved.earlier.size() == 1);
        CHECK(std::get<wurst::Completion>(unserved.earlier[0]).data == Data{7});
    }
    queue.resume();
    TestTime time;
    line.says = {{WURST_ACK, label, {}}, timer(label, 1), {WURST_ACK, hours, Data(4)}, {WURST_ACK, label, lamp}, empty};
    auto pausing = [&line, &queue](const wurst::Frame &frame) {
        if (line.asked.size() == 4) {
            queue.pause();
        }
        return line.exchange(frame);
    };
    wurst::Asker asker(queue, client, pausing, milliseconds(10000), time);
    try {
        asker.get(device, label);
        CHECK(false);
    } catch (const wurst::Unserved &unserved) {
        CHECK(unserved.queued.size() == 2 && unserved.queued[1].data == lamp);
        CHECK(unserved.earlier.size() == 2);
        CHECK(std::get<wurst::Completion>(unserved.earlier[1]).head.ack == WURST_ACK_TIMER);
    }
}

static void keeps_an_answer_before_the_line_fails() {
    TestTime time;
    Device line{{timer(label, 1), {WURST_ACK, label, lamp}, empty}};
    wurst::Controller queue(source);
    auto unplugged = [&line](const wurst::Frame &frame) {
        return line.asked.size() < 2 ? line.exchange(frame) : std::optional<Data>();
    };
    wurst::Asker asker(queue, queue.join(1), unplugged, milliseconds(10000), time);
    const auto answer = asker.get(device, label);
    CHECK(answer.completion.status() == WURST_FAILED_TO_SEND && answer.queued.size() == 1);
    CHECK(answer.queued[0].data == lamp);
}

static void waits_for_queued_messages() {
    TestTime time;
    Device line{{timer(queued, 5), timer(queued, 7), {WURST_ACK, label, lamp}}};
    wurst::Controller queue(source);
    auto exchange = [&line](const wurst::Frame &frame) { return line.exchange(frame); };
    wurst::Asker asker(queue, queue.join(1), exchange, milliseconds(10000), time);
    const auto answer = asker.get(device, queued, Data{4});
    CHECK(!answer.is_late() && answer.completion.data == lamp && answer.queued.empty());
    CHECK(line.count(queued) == 3 && time.slept() == milliseconds(1200));
}

static void fetches_for_two_seconds_at_most() {
    TestTime time;
    Device line{{timer(label, 1, true), {WURST_ACK, hours, {}}}};
    wurst::Controller queue(source);
    auto slow = [&line, &time](const wurst::Frame &frame) {
        *time.at += milliseconds(1000);
        return line.exchange(frame);
    };
    wurst::Asker asker(queue, queue.join(1), slow, milliseconds(10000), time);
    CHECK(asker.set(device, label, lamp).is_late());
    CHECK(*time.at < milliseconds(100000 + 13500));
}

// A device whose label has these three parts. If a part is lost, it goes on behind it.
struct InParts {
    static constexpr std::array<const char *, 3> parts{"front ", "of the ", "stage"};
    static inline const Data whole{'f', 'r', 'o', 'n', 't', ' ', 'o', 'f', ' ', 't', 'h', 'e', ' ', 's', 't', 'a',
                                   'g', 'e'};
    // The exchanges whose replies are lost.
    std::vector<std::size_t> lost;
    std::size_t exchanges = 0;
    std::size_t next = 0;

    std::optional<Data> exchange(const wurst::Frame &frame) {
        const std::size_t part = std::exchange(next, (next + 1) % parts.size());
        const std::string text = parts[part];
        Data reply(257);
        reply.resize(answer(frame.data(), part + 1 < parts.size() ? WURST_ACK_OVERFLOW : WURST_ACK,
                            reinterpret_cast<const std::uint8_t *>(text.data()), text.size(), reply.data()));
        const bool is_lost = std::find(lost.begin(), lost.end(), exchanges) != lost.end();
        exchanges++;
        return is_lost ? Data() : reply;
    }
};

// Another client's GET loses its first, its second or its last part. An answer after the last one is whole, but that
// isn't known.
static void gives_whole_answers() {
    for (std::size_t lost : {0, 1, 2}) {
        InParts line{{lost}};
        wurst::Controller queue(source);
        auto exchange = [&line](const wurst::Frame &frame) { return line.exchange(frame); };
        const auto other = queue.join(1), client = queue.join(1);
        queue.get(other, device, label);
        TestTime time;
        wurst::Asker asker(queue, client, exchange, milliseconds(10000), time);
        const auto answer = asker.get(device, label);
        CHECK(answer.completion.data == InParts::whole && !answer.completion.may_be_incomplete());
        CHECK(answer.queued.empty() && answer.earlier.empty() && time.naps->empty());
        CHECK(queue.next_completion(other)->status() == WURST_TIMEOUT);
        // What the device still had to give, and all of it.
        CHECK(line.exchanges == lost + 1 + (lost == 2 ? 3 : 2 - lost) + 3);
        CHECK(asker.get(device, label).completion.data == InParts::whole);
    }
}

// Its own GET loses a part. It says so, and the next one gives all parts.
static void says_what_broke_off() {
    InParts line{{1}};
    wurst::Controller queue(source);
    auto exchange = [&line](const wurst::Frame &frame) { return line.exchange(frame); };
    wurst::Asker asker(queue, queue.join(1), exchange, milliseconds(10000), TestTime());
    CHECK(asker.get(device, label).completion.status() == WURST_TIMEOUT);
    const auto next = asker.get(device, label);
    CHECK(next.completion.data == InParts::whole && next.earlier.empty());
}

// Before each of its GETs, another client's loses the second part.
static void gives_no_rest() {
    InParts line{{}};
    wurst::Controller queue(source);
    const auto other = queue.join(20), client = queue.join(2);
    bool is_others = true;
    auto exchange = [&](const wurst::Frame &frame) {
        if (is_others && line.next == 1) {
            line.lost = {line.exchanges};
            is_others = false;
        } else if (!is_others && line.next == 2) {
            // The client gets the last part only. Before it asks again, the other one does.
            is_others = true;
            queue.get(other, device, label);
        }
        return line.exchange(frame);
    };
    queue.get(client, device, hours);
    queue.run([&line](const wurst::Frame &frame) { return line.exchange(frame); });
    queue.get(other, device, label);
    wurst::Asker asker(queue, client, exchange, milliseconds(10000), TestTime());
    try {
        asker.get(device, label);
        CHECK(false);
    } catch (const wurst::Incomplete &incomplete) {
        CHECK(incomplete.queued.empty() && incomplete.earlier.size() == 1);
    }
    std::size_t broken = 0;
    while (const auto done = queue.next_completion(other)) {
        broken += done->status() == WURST_TIMEOUT;
    }
    // The last one follows the client's last GET.
    CHECK(broken == 7);
}

// A message breaks off. GET_LAST_MESSAGE gets what is left of it, and then all of it.
static void takes_whole_messages() {
    TestTime time;
    Device line{{timer(label, 1), {WURST_ACK_OVERFLOW, label, {'L', 'a'}}, silence, {WURST_ACK, label, {'m', 'p'}},
                 {WURST_ACK_OVERFLOW, label, {'L', 'a'}}, {WURST_ACK, label, {'m', 'p'}}, empty, empty,
                 {WURST_ACK, label, lamp}}};
    const auto answer = ask(line, time);
    CHECK(answer.completion.data == lamp);
    CHECK(answer.queued.size() == 1 && answer.queued[0].data == lamp);
    CHECK(line.asked[3].second == Data{1} && line.asked[4].second == Data{1} && line.asked[6].second == Data{4});

    // The caller asks for a message that another client's GET has broken off: it isn't dropped for the next one.
    Device other{{silence, {WURST_ACK, label, {'m', 'p'}}, {WURST_ACK, label, lamp}, {WURST_ACK, hours, {}}}};
    wurst::Controller queue(source);
    auto exchange = [&other](const wurst::Frame &frame) { return other.exchange(frame); };
    const auto first = queue.join(1), second = queue.join(1);
    queue.get(first, device, queued, Data{4});
    wurst::Asker asker(queue, second, exchange, milliseconds(10000), time);
    CHECK(asker.get(device, queued, Data{4}).completion.data == lamp);
    CHECK(other.asked.size() == 3 && other.asked[1].second == Data{4} && other.asked[2].second == Data{1});
}

// One in so many replies is lost. 0: only the first loss, which is at each part in turn.
static constexpr std::array<unsigned int, 4> rates{0, 50, 10, 3};

// What came of trials with a rate: of the clients that collect answers as they are, and of those that ask.
struct Results {
    unsigned long whole = 0, rests = 0, needless = 0, broken = 0;
    unsigned long asks = 0, whole_asks = 0, broken_asks = 0, added = 0;
};
static std::array<Results, rates.size()> results;

// A request at the device: the part that it began with, and whether a reply was lost.
struct Exchanges {
    std::size_t begin;
    bool is_lost = false;
    bool is_over = false;
};

// Two to sixteen clients want the same while parts are lost.
class Trial {
public:
    explicit Trial(unsigned int seed)
        : chance_(seed), rate_(chance_() % rates.size()), first_loss_(seed / 15 % InParts::parts.size()) {
        const unsigned int clients = 2 + seed % 15;
        for (unsigned int i = clients / 2; i < clients; i++) {
            plain_.push_back(queue_.join(40));
        }
        submit();
        for (unsigned int i = 0; i < clients / 2; i++) {
            asks(queue_.join(1));
        }
        queue_.run([this](const wurst::Frame &frame) { return exchange(frame); });
        collect();
        results[rate_].added += requests_.size() - submitted_ - clients / 2;
    }

private:
    void submit() {
        queue_.get(plain_[chance_() % plain_.size()], device, label);
        submitted_++;
    }

    // Before each exchange a client may ask for the same.
    std::optional<Data> exchange(const wurst::Frame &frame) {
        if (submitted_ < 30 && chance_() % 4 == 0) {
            submit();
        }
        if (requests_.empty() || requests_.back().is_over) {
            requests_.push_back({line_.next});
        }
        const bool is_first_loss = line_.next == first_loss_;
        first_loss_ = is_first_loss ? InParts::parts.size() : first_loss_;
        const bool is_lost = is_first_loss || (rates[rate_] > 0 && chance_() % rates[rate_] == 0);
        const auto reply = line_.exchange(frame);
        requests_.back().is_lost = is_lost;
        requests_.back().is_over = is_lost || line_.next == 0;
        return is_lost ? Data() : reply;
    }

    void asks(std::uint8_t client) {
        Results &sum = results[rate_];
        auto exchange = [this](const wurst::Frame &frame) { return this->exchange(frame); };
        wurst::Asker asker(queue_, client, exchange, milliseconds(10000), TestTime());
        sum.asks++;
        try {
            const auto done = asker.get(device, label).completion;
            const bool is_lost = requests_[done.number()].is_lost;
            CHECK(is_lost ? done.status() == WURST_TIMEOUT : done.data == InParts::whole && !done.may_be_incomplete());
            (is_lost ? sum.broken_asks : sum.whole_asks)++;
        } catch (const wurst::Incomplete &) {
        }
    }

    // Requests were sent in the order of their numbers.
    void collect() {
        std::vector<bool> flags;
        bool is_open = false;
        for (const Exchanges &each : requests_) {
            flags.push_back(is_open && !each.is_lost);
            is_open = each.is_lost;
        }
        for (const auto client : plain_) {
            while (const auto done = queue_.next_completion(client)) {
                compare(*done, requests_[done->number()], flags[done->number()]);
            }
        }
    }

    // What a client has got, and what the device has sent.
    void compare(const wurst::Completion &done, const Exchanges &sent, bool flag) {
        Results &sum = results[rate_];
        CHECK(done.may_be_incomplete() == flag && (flag || sent.is_lost || sent.begin == 0));
        std::string data;
        for (std::size_t part = sent.begin; part < InParts::parts.size() && !sent.is_lost; part++) {
            data += InParts::parts[part];
        }
        CHECK(done.data == Data(data.begin(), data.end()));
        CHECK(done.status() == (sent.is_lost ? WURST_TIMEOUT : WURST_COMPLETED));
        (sent.is_lost ? sum.broken : !flag ? sum.whole : sent.begin > 0 ? sum.rests : sum.needless)++;
    }

    std::mt19937 chance_;
    std::size_t rate_;
    std::size_t first_loss_;
    InParts line_{{}};
    wurst::Controller queue_{source};
    std::vector<std::uint8_t> plain_;
    std::vector<Exchanges> requests_;
    std::size_t submitted_ = 0;
};

// The argument is the number of trials, whose results are printed then.
int main(int count, char **arguments) {
    for (unsigned int seed = 0; seed < (count > 1 ? std::strtoul(arguments[1], nullptr, 10) : 500); seed++) {
        Trial trial(seed);
    }
    for (std::size_t i = 0; i < rates.size() && count > 1; i++) {
        const Results &sum = results[i];
        std::printf("1 in %u lost: %lu whole, %lu rests, %lu whole with a flag, %lu broken off; ", rates[i], sum.whole,
                    sum.rests, sum.needless, sum.broken);
        std::printf("%lu asked: %lu whole, %lu broken off, %lu GETs more\n", sum.asks, sum.whole_asks,
                    sum.broken_asks, sum.added);
    }
    needs_no_time();
    waits_as_long_as_it_says();
    sends_a_set_once();
    asks_again();
    keeps_other_messages();
    knows_whose_sensor_it_is();
    is_bounded();
    repeats_what_was_lost();
    fails();
    keeps_what_was_collected();
    hands_over_what_was_collected();
    keeps_an_answer_before_the_line_fails();
    waits_for_queued_messages();
    fetches_for_two_seconds_at_most();
    gives_whole_answers();
    says_what_broke_off();
    gives_no_rest();
    takes_whole_messages();
    return report();
}
