// The C++ header: ownership, optional answers, faults.
#include "tests.h"
#include <vector>
#include <wurstlinen.hpp>

static_assert(!std::is_copy_constructible<wurst::Controller>::value, "a controller is moved alone");
static_assert(!std::is_copy_constructible<wurst::Session>::value, "a session is moved alone");
static_assert(!std::is_copy_constructible<wurst::Log>::value, "a log is moved alone");
static_assert(!std::is_copy_constructible<wurst::Agent>::value, "an agent is moved alone");

template <typename Call> static std::uint32_t fault_of(const Call &call) {
    try {
        call();
    } catch (const wurst::Fault &fault) {
        return fault.status();
    }
    return WURST_DONE;
}

static const wurst::Uid source(0x7a70, 1), device(0x1234, 7);

// A device's acknowledgement of its mute, with the control field 0004, and silence to all else.
static std::optional<std::vector<std::uint8_t>> acknowledged(wurst::Bytes frame) {
    std::vector<std::uint8_t> reply;
    if (frame.data[20] == 0x10 && frame.data[22] == 2) {
        const std::uint8_t control[] = {0, 4};
        reply.resize(257);
        reply.resize(answer(frame.data, 0, control, 2, reply.data()));
    }
    return reply;
}

// What calls write into the caller's memory.
static void views() {
    wurst::Agent agent(source, WURST_INCREMENTAL, {device}, 1000);
    while (const auto asked = agent.next()) {
        agent.hear(*acknowledged(asked->second));
    }
    wurst_device forms[4];
    const wurst::Devices found = agent.devices(forms, 4);
    CHECK(found.size() == 1 && !found.empty() && found[0].uid == device && forms[0].uid == device.number());
    for (const wurst::Device &each : found) {
        CHECK(each.control == 4 && !each.binding);
    }
    auto first = found.begin();
    CHECK((*first++).uid == device && first == found.end());
    CHECK(agent.devices().size() == 1 && agent.fault() == WURST_NO_FAULT);

    wurst::Controller queue(source);
    const auto client = queue.join(1);
    std::uint8_t data[4], reply[257], five[] = {'1', '2', '3', '4', '5'};
    queue.get(client, device, 0x0060);
    const auto frame = queue.take();
    queue.deliver(wurst::Bytes(reply, answer(frame->data(), 0, five, 5, reply)));
    try {
        queue.next_completion(client, data, 4);
        CHECK(false);
    } catch (const wurst::Fault &fault) {
        CHECK(fault.status() == WURST_BUFFER_TOO_SMALL);
    }
    const auto done = queue.next_completion(client, reply, sizeof reply);
    CHECK(done && done->status() == WURST_COMPLETED && done->data.data == reply && done->data.size == 5);
    CHECK(!queue.next_completion(client, reply, sizeof reply));
    queue.discover(client);
    queue.run(acknowledged);
    const auto ended = queue.next_discovery(client, forms, 0);
    CHECK(ended && ended->fault() == WURST_NO_FAULT && ended->end.run == 1 && ended->devices.empty());
    CHECK(!queue.next_discovery(client, forms, 0));
    CHECK(queue.devices(forms, 0).empty() && queue.devices_run() == 1);
    CHECK(queue.bad_uids().uids.empty() && !queue.bad_uids().has_more && queue.bad_uids_run() == 1);
}

// A device that is a part of another one says so when it is muted, to an agent and to a queue.
static void parts_of_devices() {
    const auto part = [](wurst::Bytes frame) {
        std::vector<std::uint8_t> reply;
        if (frame.data[20] == 0x10 && frame.data[22] == 2) {
            const std::uint8_t data[] = {0, 6, 0x12, 0x34, 0, 0, 0, 1};
            reply.resize(257);
            reply.resize(answer(frame.data, 0, data, sizeof data, reply.data()));
        }
        return std::optional(std::move(reply));
    };
    wurst::Agent agent(source, WURST_INCREMENTAL, {device}, 1000);
    while (const auto asked = agent.next()) {
        agent.hear(*part(asked->second));
    }
    const auto found = agent.devices();
    CHECK(found.size() == 1 && found[0].uid == device && found[0].control == 6);
    CHECK(found[0].binding && *found[0].binding == wurst::Uid(0x1234, 1));
    CHECK(found[0].form().has_binding && found[0].form().binding == UINT64_C(0x123400000001));
}

// An answer that is longer than the first buffer loses nothing.
static void long_answers() {
    wurst::Controller queue(source);
    const auto client = queue.join(1);
    queue.get(client, device, 0x0060);
    std::vector<std::uint8_t> wanted;
    for (std::uint8_t length : {231, 231, 10}) {
        std::vector<std::uint8_t> data(length), reply(257);
        for (std::uint8_t &byte : data) {
            byte = static_cast<std::uint8_t>(wanted.size());
            wanted.push_back(byte);
        }
        reply.resize(answer(queue.take()->data(), length == 231 ? 3 : 0, data.data(), length, reply.data()));
        queue.deliver(reply);
    }
    const auto done = queue.next_completion(client);
    CHECK(done && done->status() == WURST_COMPLETED && done->data == wanted && done->data.size() == 472);
    CHECK(!queue.next_completion(client));
}

// Whether a frame is a branch of a range that has the device.
static bool is_branch_of_device(wurst::Bytes frame) {
    std::uint64_t first = 0, last = 0;
    for (std::size_t at = 24; frame.data[22] == 1 && at < 30; at++) {
        first = first << 8 | frame.data[at];
        last = last << 8 | frame.data[at + 6];
    }
    return first <= device.number() && device.number() <= last;
}

// Garbage to each branch of a range that has the device, and silence to all else. The last one is that UID alone.
static std::optional<std::vector<std::uint8_t>> garbled(wurst::Bytes frame) {
    return std::vector<std::uint8_t>(is_branch_of_device(frame), 0xff);
}

// The UID of a corrupt range, from an agent and from a queue.
static void corrupt_ranges() {
    wurst::Agent agent(source);
    CHECK(fault_of([] { wurst::Agent(source).corrupt(); }) == WURST_NOT_ENDED);
    while (const auto asked = agent.next()) {
        agent.hear(*garbled(asked->second));
    }
    CHECK(agent.fault() == WURST_CORRUPT && agent.corrupt() == device);
    CHECK(agent.bad_uids().uids == std::vector<wurst::Uid>{device} && !agent.bad_uids().has_more);

    wurst::Controller queue(source);
    const auto client = queue.join(1);
    queue.discover(client);
    queue.run(garbled);
    const auto ended = queue.next_discovery(client);
    CHECK(ended && ended->fault() == WURST_CORRUPT && ended->end.corrupt == device.number());
    CHECK(queue.bad_uids().uids == std::vector<wurst::Uid>{device} && queue.bad_uids_run() == 1);

    wurst::Agent stopped(source);
    stopped.stop();
    CHECK(stopped.fault() == WURST_ABORTED && !stopped.corrupt());
    wurst::Agent failed(source);
    failed.next();
    failed.fail();
    CHECK(failed.fault() == WURST_LINE_FAILED && !failed.next());
}

static void sessions() {
    wurst::Session first(source, 100, 10, 1000);
    wurst::Session session(std::move(first));
    const auto client = session.join(2);
    CHECK(session.free_entries() == 99 && session.entry_count() == 1);
    session.set(client, device, 0x0082, std::vector<std::uint8_t>{65, 66});
    std::uint8_t bytes[WURST_MOST_FRAME_BYTES];
    const auto accepted = session.entry(1, bytes, sizeof bytes);
    CHECK(accepted.kind() == WURST_ENTRY_ACCEPT && accepted.entry.target == device.number());
    CHECK(accepted.bytes.data == bytes && is_same(bytes, accepted.bytes.size, "4142"));
    CHECK(fault_of([] { wurst::Session(source, WURST_MOST_ENTRIES + 1); }) == WURST_TOO_MANY_ENTRIES);
    try {
        session.rotate(100);
        CHECK(false);
    } catch (const wurst::Fault &fault) {
        CHECK(fault.status() == WURST_NOT_IDLE);
    }
    CHECK(session.run([](wurst::Bytes) { return std::optional<std::vector<std::uint8_t>>(); }) == 1);
    CHECK(session.next_completion(client)->status() == WURST_FAILED_TO_SEND);
    wurst::Log log = session.rotate(50);
    CHECK(session.free_entries() == 50 && session.entry_count() == 0 && log.entry_count() == 6);
    CHECK(log.entry(3, bytes, sizeof bytes).entry.has_failed);
    log = session.rotate(50);
    CHECK(log.entry_count() == 0);
}

// Silence to a line's frames, except that the device is found.
static auto with_device() {
    return [is_muted = false](wurst::Bytes frame) mutable {
        auto heard = acknowledged(frame);
        if (is_branch_of_device(frame) && !is_muted) {
            std::size_t size = 0;
            heard->resize(WURST_BRANCH_REPLY_BYTES);
            wurst_branch_reply_write(device.number(), 7, heard->data(), heard->size(), &size);
        }
        is_muted |= frame.data[22] == 2;
        return heard;
    };
}

// Each call of a kind of queue, where no other one gives the same.
template <typename Queue> static void each_call(Queue queue) {
    const auto client = queue.join(2);
    queue.pause();
    CHECK(queue.is_idle() && queue.is_paused() && !queue.is_closed() && !queue.awaits());
    CHECK(queue.get(client, device, 0x0060) == 0 && !queue.take() && !queue.is_idle());
    queue.resume();
    std::uint8_t reply[257], four[] = {'f', 'o', 'u', 'r'};
    const auto frame = queue.take();
    CHECK(frame && queue.awaits() && !queue.is_paused() && !queue.oldest(client));
    queue.deliver(wurst::Bytes(reply, answer(frame->data(), 0, four, 4, reply)));
    CHECK(queue.oldest(client) == WURST_REQUEST_OUTCOME && !queue.is_idle());
    const auto done = queue.next_completion(client, reply, sizeof reply);
    CHECK(done && done->data.size == 4 && !done->may_be_incomplete() && queue.is_idle());

    queue.discover(client);
    CHECK(queue.run(with_device()) > 5);
    queue.discover(client, WURST_INCREMENTAL);
    queue.take();
    queue.fail();
    wurst_device forms[2];
    CHECK(queue.oldest(client) == WURST_DISCOVERY_OUTCOME && queue.devices(forms, 2)[0].uid == device);
    const auto view = queue.next_discovery(client, forms, 2);
    CHECK(view && view->fault() == WURST_NO_FAULT && view->devices.size() == 1 && view->devices[0].uid == device);
    const auto failed = queue.next_discovery(client);
    CHECK(failed && failed->number() == 1 && failed->fault() == WURST_LINE_FAILED && failed->devices.empty());
    CHECK(queue.devices_run() == 1 && queue.bad_uids_run() == 2 && queue.bad_uids().uids.empty());
    queue.discover(client);
    queue.run(garbled);
    CHECK(queue.bad_uids().uids == std::vector<wurst::Uid>{device} && queue.bad_uids_run() == 3);
    CHECK(queue.devices().size() == 1 && queue.devices_run() == 1);
    queue.close();
    CHECK(queue.is_closed() && !queue.is_paused() && !queue.is_idle());
}

static void keeps_nothing() {
    wurst::Session session(source, wurst::WithoutLog(), 10, 1000, WURST_QUICK);
    const auto client = session.join(2);
    session.get(client, device, 0x0082);
    CHECK(session.run([](wurst::Bytes) { return std::optional<std::vector<std::uint8_t>>(); }) == 1);
    CHECK(session.next_completion(client)->status() == WURST_FAILED_TO_SEND);
    wurst::Log page;
    CHECK(session.entry_count() == 0 && session.drain(page, 20) == 6 && page.entry_count() == 0);
}

static void drains() {
    wurst::Session session(source, 100);
    const auto client = session.join(2);
    session.get(client, device, 0x0082);
    wurst::Log page;
    CHECK(fault_of([&page] { page.entry_count(); }) == WURST_NOT_OPEN);
    CHECK(fault_of([&] { session.drain(page, 1); }) == WURST_LOG_FULL && session.entry_count() == 2);
    CHECK(session.drain(page, 50) == 0 && page.entry_count() == 2 && session.entry_count() == 0);
    std::uint8_t bytes[WURST_MOST_FRAME_BYTES];
    CHECK(page.entry(1, bytes, sizeof bytes).kind() == WURST_ENTRY_ACCEPT && session.free_entries() == 48);
    CHECK(session.run([](wurst::Bytes) { return std::optional<std::vector<std::uint8_t>>(); }) == 1);
    CHECK(session.drain(page, 0) == 2 && page.entry_count() == 3 && session.free_entries() == 99);
    CHECK(session.next_completion(client)->status() == WURST_FAILED_TO_SEND);
    CHECK(session.drain(page, 0) == 5 && page.entry_count() == 1);
}

int main() {
    CHECK(wurst::Uid::parse("7a70:00000001") == source && source.text() == "7a70:00000001");
    CHECK(!wurst::Uid::from_number(UINT64_C(1) << 48) && wurst::Uid::all().is_broadcast());
    CHECK(source.manufacturer() == 0x7a70 && source.device() == 1 && source != device);
    CHECK(fault_of([] { wurst::Uid::parse("7a70"); }) == WURST_UID_LENGTH);
    CHECK(fault_of([] { wurst::Controller queue(wurst::Uid::all()); }) == WURST_BROADCAST_UID);

    wurst::Controller first(source, 10, 1000);
    wurst::Controller queue(std::move(first));
    const auto client = queue.join(2);
    CHECK(!queue.take() && !queue.oldest(client) && !queue.next_completion(client));
    CHECK(queue.get(client, device, 0x0060) == 0);
    CHECK(queue.set(client, device, 0x0082, std::vector<std::uint8_t>{65}) == 1);
    const auto frame = queue.take();
    CHECK(frame
          && is_same(frame->data(), frame->size(), "cc0118 123400000007 7a7000000001 00 01 00 0000 20 0060 00 029e"));
    std::uint8_t reply[257];
    std::uint8_t four[] = {'f', 'o', 'u', 'r'};
    queue.deliver(wurst::Bytes(reply, answer(frame->data(), 0, four, 4, reply)));
    CHECK(queue.oldest(client) == WURST_REQUEST_OUTCOME);
    const auto done = queue.next_completion(client);
    CHECK(done && done->status() == WURST_COMPLETED && done->data == std::vector<std::uint8_t>(four, four + 4));
    CHECK(queue.run([](wurst::Bytes) { return std::optional<std::vector<std::uint8_t>>(); }) == 1);
    CHECK(queue.next_completion(client)->status() == WURST_FAILED_TO_SEND);
    CHECK(queue.is_idle() && !queue.is_paused() && !queue.is_closed() && !queue.awaits());
    CHECK(queue.devices().empty() && queue.devices_run() == 0);
    CHECK(queue.bad_uids().uids.empty() && queue.bad_uids_run() == 0);
    queue.close();
    CHECK(queue.is_closed());
    queue = wurst::Controller(source);
    CHECK(!queue.is_closed());

    views();
    parts_of_devices();
    long_answers();
    corrupt_ranges();
    sessions();
    each_call(wurst::Controller(source));
    each_call(wurst::Session(source, 1000));
    keeps_nothing();
    drains();

    wurst::Agent agent(source, WURST_INCREMENTAL, {device}, 4);
    while (agent.next()) {
        agent.hear({});
    }
    CHECK(agent.frames() == 4 && agent.fault() == WURST_EXHAUSTED && agent.devices().empty());
    return report();
}
