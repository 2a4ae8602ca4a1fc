// Requests: answers at different times, parts, pauses, the queue's limit, and what is handed down.
#include "checks.hpp"
#include "messages.hpp"

#include <array>
#include <deque>
#include <random>

namespace tests {
namespace {

void test_answer(When when) {
    Lower lower;
    lower.when = when;
    Client client;
    Queue queue(&lower, 20);
    queue.SendRDMRequest(get(), client.callback());
    queue.SendRDMRequest(set(), client.callback());
    lower.answer_all();
    CHECK(client.got.size() == 2 && lower.sent.size() == 2);
    const std::unique_ptr<RDMRequest> first(get());
    CHECK(*lower.sent[0] == *first && lower.sent[0]->SourceUID() == CLIENT);
    const Got &got = client.got[0];
    CHECK(got.status == RDM_COMPLETED_OK && got.response && got.frames.size() == 1);
    CHECK(got.response->SourceUID() == DEVICE && got.response->DestinationUID() == CLIENT);
    CHECK(got.response->TransactionNumber() == CLIENTS_NUMBER && got.response->SubDevice() == 3);
    CHECK(got.response->CommandClass() == RDMCommand::GET_COMMAND_RESPONSE);
    CHECK(got.response->ParamId() == PID_DEVICE_LABEL && got.response->ResponseType() == RDM_ACK);
    CHECK(data_of(*got.response) == Data({9, 8}));
    const RDMResponse &second = *client.got[1].response;
    CHECK(second.CommandClass() == RDMCommand::SET_COMMAND_RESPONSE && second.ParamId() == PID_DMX_START_ADDRESS);
    CHECK(data_of(second) == Data({1, 2}));
}

// The second answer to an exchange comes while the next one is under way, and isn't taken for that one's.
void test_second_answer() {
    Lower lower;
    lower.when = When::Later;
    Client client;
    Queue queue(&lower, 20);
    queue.SendRDMRequest(get(PID_DEVICE_LABEL, DEVICE), client.callback());
    queue.SendRDMRequest(get(PID_DEVICE_LABEL, OTHER), client.callback());
    lower.answer();
    CHECK(client.got.size() == 1 && lower.sent.size() == 2);
    lower.answer_again();
    CHECK(client.got.size() == 1);
    lower.answer();
    CHECK(client.got.size() == 2 && client.got[1].response && client.got[1].response->SourceUID() == OTHER);
    lower.answer_again();
    CHECK(client.got.size() == 2);
}

// One part of an answer to a request, which may be the last one.
Lower::Reply part(const RDMRequest &request, const Data &data, bool is_last, const UID &source = DEVICE) {
    const RDMGetResponse response(source, request.SourceUID(), request.TransactionNumber(),
                                  is_last ? std::uint8_t{RDM_ACK} : ACK_OVERFLOW, is_last ? 6 : 0, request.SubDevice(),
                                  request.ParamId(), data.data(), static_cast<unsigned int>(data.size()));
    return Lower::Reply(RDMReply::FromFrame(frame_of(response), &request));
}

void test_parts() {
    Lower lower;
    lower.when = When::Later;
    unsigned int parts = 0;
    lower.answers = [&](const RDMRequest &request) {
        parts++;
        return part(request, Data(200, static_cast<std::uint8_t>(parts)), parts == 3);
    };
    Client client;
    Queue queue(&lower, 20);
    queue.SendRDMRequest(get(), client.callback());
    lower.answer();
    queue.Pause();
    queue.SendRDMRequest(set(), client.callback());
    queue.RunFullDiscovery(client.discovery());
    CHECK(lower.sent.size() == 2);
    lower.answer();
    CHECK(client.calls() == 0 && lower.sent.size() == 2 && !lower.awaits());
    queue.Resume();
    CHECK(lower.sent.size() == 3 && *lower.sent[2] == *lower.sent[0]);
    lower.answer();
    CHECK(client.got.size() == 1 && client.got[0].frames.size() == 3);
    const RDMResponse &response = *client.got[0].response;
    CHECK(response.ParamDataSize() == 600 && response.ParamData()[399] == 2 && response.ParamData()[400] == 3);
    CHECK(response.ResponseType() == RDM_ACK && response.MessageCount() == 6);
    CHECK(lower.own_full == 1);
    lower.answer();
    CHECK(client.sets.size() == 1 && lower.sent.size() == 4);
}

// The status of a request whose first part is followed by this reply.
RDMStatusCode status_after_part(Lower::Reply (*second)(const RDMRequest &), std::size_t frames) {
    Lower lower;
    bool is_first = true;
    lower.answers = [&](const RDMRequest &request) {
        return std::exchange(is_first, false) ? part(request, {1}, false) : second(request);
    };
    Client client;
    Queue queue(&lower, 20);
    queue.SendRDMRequest(get(), client.callback());
    CHECK(client.got.size() == 1 && !client.got[0].response && client.got[0].frames.size() == frames);
    return client.last();
}

// A reply from a layer below that doesn't compare replies with requests.
template <typename Response> Lower::Reply uncompared(const RDMRequest &request, const UID &source) {
    auto *const response = new Response(source, request.SourceUID(), request.TransactionNumber(), RDM_ACK, 0,
                                        request.SubDevice(), request.ParamId(), nullptr, 0);
    return std::make_unique<RDMReply>(RDM_COMPLETED_OK, response);
}

void test_parts_that_fail() {
    CHECK(status_after_part([](const RDMRequest &) { return std::make_unique<RDMReply>(RDM_TIMEOUT); }, 1)
          == RDM_TIMEOUT);
    CHECK(status_after_part([](const RDMRequest &) { return std::make_unique<RDMReply>(RDM_COMPLETED_OK); }, 1)
          == RDM_TIMEOUT);
    CHECK(status_after_part([](const RDMRequest &request) { return part(request, {2}, true, OTHER); }, 2)
          == RDM_TRANSACTION_MISMATCH);
    // The same as OLA's own class reports.
    CHECK(status_after_part([](const RDMRequest &request) { return uncompared<RDMGetResponse>(request, OTHER); }, 1)
          == RDM_INVALID_RESPONSE);
    CHECK(status_after_part([](const RDMRequest &request) { return uncompared<RDMSetResponse>(request, DEVICE); }, 1)
          == RDM_COMMAND_CLASS_MISMATCH);
}

// A device whose answer has three parts, one after another, whatever comes in between.
struct InParts {
    static inline const Data whole{1, 1, 2, 2, 3, 3};
    unsigned int requests = 0;
    unsigned int parts = 0;

    // The next part, unless that is lost.
    Lower::Reply reply(const RDMRequest &request, bool is_lost) {
        requests++;
        parts = parts % 3 + 1;
        return is_lost ? std::make_unique<RDMReply>(RDM_TIMEOUT)
                       : part(request, Data(2, static_cast<std::uint8_t>(parts)), parts == 3);
    }
};

// A client's GET loses a part. The next client is given all of them, behind what was asked meanwhile.
void test_rest(unsigned int lost) {
    Lower lower;
    lower.when = When::Later;
    InParts device;
    lower.answers = [&](const RDMRequest &request) {
        const bool is_get = request.CommandClass() == RDMCommand::GET_COMMAND;
        return is_get ? device.reply(request, device.requests == lost) : nullptr;
    };
    Client first, second;
    Queue queue(&lower, 20);
    queue.SendRDMRequest(get(), first.callback());
    queue.SendRDMRequest(get(), second.callback());
    queue.SendRDMRequest(set(), second.callback());
    lower.answer_all();
    CHECK(first.got.size() == 1 && first.last() == RDM_TIMEOUT && !first.got[0].response);
    CHECK(second.got.size() == 2 && second.got[0].response->CommandClass() == RDMCommand::SET_COMMAND_RESPONSE);
    const Got &got = second.got[1];
    CHECK(got.status == RDM_COMPLETED_OK && data_of(*got.response) == InParts::whole && got.frames.size() == 3);
    CHECK(device.requests == lost + 1 + (lost == 2 ? 3 : 2 - lost) + 3);
    queue.SendRDMRequest(get(), second.callback());
    lower.answer_all();
    CHECK(second.got.size() == 3 && data_of(*second.got[2].response) == InParts::whole);
}

// Before each GET of the second client, the first one's breaks off.
void test_endless_rests() {
    forget_messages();
    Lower lower;
    lower.when = When::Later;
    InParts device;
    Client first, second;
    Queue queue(&lower, 2);
    bool is_firsts = true;
    lower.answers = [&](const RDMRequest &request) {
        const bool is_lost = is_firsts && device.parts == 1;
        const bool is_rest = !is_firsts && device.parts == 2;
        if (is_rest) {
            queue.SendRDMRequest(get(), first.callback());
        }
        is_firsts = is_firsts ? !is_lost : is_rest;
        return device.reply(request, is_lost);
    };
    queue.SendRDMRequest(get(), first.callback());
    queue.SendRDMRequest(get(), second.callback());
    lower.answer_all();
    CHECK(second.got.size() == 1 && second.last() == RDM_INVALID_RESPONSE && !second.got[0].response);
    // Five times it was asked again, behind the first client's.
    CHECK(first.got.size() == 7 && first.last() == RDM_TIMEOUT);
    CHECK(messages_with("gave no whole answer to a GET") == 1);
    queue.SendRDMRequest(get(), second.callback());
    lower.answers = nullptr;
    lower.answer_all();
    CHECK(second.got.size() == 2 && second.last() == RDM_COMPLETED_OK);
}

// Each of 100 fixtures times out once. Then a GET of each waits, and is asked again once.
void test_many_rests() {
    constexpr unsigned int fixtures = 100;
    Lower lower;
    lower.when = When::Later;
    lower.answers = [&](const RDMRequest &request) {
        return lower.sent.size() <= fixtures ? std::make_unique<RDMReply>(RDM_TIMEOUT)
                                             : part(request, {7}, true, request.DestinationUID());
    };
    Client client;
    Queue queue(&lower, fixtures);
    for (const RDMStatusCode expected : {RDM_TIMEOUT, RDM_COMPLETED_OK}) {
        client.got.clear();
        for (unsigned int i = 0; i < fixtures; i++) {
            queue.SendRDMRequest(get(PID_DEVICE_LABEL, UID(0x1234, i)), client.callback());
        }
        lower.answer_all();
        CHECK(client.got.size() == fixtures);
        for (const Got &got : client.got) {
            CHECK(got.status == expected);
        }
    }
    CHECK(lower.sent.size() == 3 * fixtures);
}

// A message that broke off is asked for once more, and not the one after it.
void test_rest_of_message() {
    Lower lower;
    lower.when = When::Later;
    std::size_t replies = 0;
    lower.answers = [&](const RDMRequest &request) {
        return ++replies == 1 ? std::make_unique<RDMReply>(RDM_TIMEOUT) : part(request, {7}, true);
    };
    Client client;
    Queue queue(&lower, 20);
    for (int i = 0; i < 2; i++) {
        queue.SendRDMRequest(get(PID_QUEUED_MESSAGE, DEVICE, 0, {STATUS_ERROR}), client.callback());
    }
    lower.answer();
    lower.answer();
    queue.Pause();
    lower.answer();
    CHECK(client.got.size() == 2 && client.last() == RDM_COMPLETED_OK && lower.sent.size() == 3);
    CHECK(data_of(*lower.sent[1]) == Data{STATUS_ERROR} && data_of(*lower.sent[2]) == Data{STATUS_GET_LAST_MESSAGE});
    CHECK(client.got[1].response->TransactionNumber() == CLIENTS_NUMBER);
}

void test_pauses() {
    Lower lower;
    lower.when = When::Later;
    Client client;
    Queue queue(&lower, 20);
    queue.Pause();
    queue.SendRDMRequest(get(), client.callback());
    queue.RunIncrementalDiscovery(client.discovery());
    CHECK(lower.sent.empty() && lower.own_incremental == 0);
    queue.Resume();
    queue.Resume();
    CHECK(lower.own_incremental == 1 && lower.sent.empty());
    queue.Pause();
    lower.answer();
    CHECK(client.sets.size() == 1 && lower.sent.empty());
    queue.Pause();
    queue.Resume();
    CHECK(lower.sent.size() == 1);
    queue.Pause();
    lower.answer();
    CHECK(client.got.size() == 1 && client.last() == RDM_COMPLETED_OK);
}

void test_limits() {
    Lower lower;
    lower.when = When::Later;
    Client client;
    Queue queue(&lower, 3), wide(&lower, 1000), none(&lower, 0);
    for (int i = 0; i < 5; i++) {
        queue.SendRDMRequest(get(), client.callback());
    }
    CHECK(client.got.size() == 2 && client.got[0].status == RDM_FAILED_TO_SEND && lower.sent.size() == 1);
    queue.SendRDMRequest(get(), nullptr);
    // The queue has a free slot again when the request's callback runs.
    client.then = [&, is_first = true]() mutable {
        if (std::exchange(is_first, false)) {
            queue.SendRDMRequest(get(), client.callback());
        }
    };
    lower.answer();
    CHECK(client.got.size() == 3 && client.last() == RDM_COMPLETED_OK);
    lower.answer_all();
    CHECK(client.got.size() == 6 && client.last() == RDM_COMPLETED_OK);
    Client many;
    for (int i = 0; i < 256; i++) {
        wide.SendRDMRequest(get(), many.callback());
    }
    CHECK(many.got.size() == 1);
    lower.answer_all();
    CHECK(many.got.size() == 256);
    none.SendRDMRequest(get(), client.callback());
    CHECK(client.got.size() == 6);
    lower.answer();
    CHECK(client.got.size() == 7 && client.last() == RDM_COMPLETED_OK);
    queue.SendRDMRequest(get(PID_DEVICE_LABEL, DEVICE, 0, Data(232, 1)), client.callback());
    CHECK(client.got.size() == 8 && client.last() == RDM_FAILED_TO_SEND && !lower.awaits());
}

void test_null_callbacks() {
    Lower lower;
    lower.when = When::Later;
    Queue queue(&lower, 20);
    for (int i = 0; i < 2; i++) {
        queue.SendRDMRequest(get(), nullptr);
        queue.SendRDMRequest(NewMuteRequest(CLIENT, DEVICE, 1), nullptr);
        queue.RunFullDiscovery(nullptr);
        if (i == 0) {
            lower.answer_all();
        }
    }
    CHECK(lower.sent.size() == 3 && lower.own_full == 1);
}

RDMRequest *with_overrides(int which) {
    RDMRequest::OverrideOptions options;
    switch (which) {
    case 0: options.SetMessageLength(99); break;
    case 1: options.SetChecksum(0xbeef); break;
    case 2: options.sub_start_code = 7; break;
    default: options.message_count = 5;
    }
    return new RDMGetRequest(CLIENT, DEVICE, CLIENTS_NUMBER, 1, 3, PID_DEVICE_LABEL, nullptr, 0, options);
}

// What the core can't send is handed down unchanged, and its reply is returned unchanged, in the order of all requests.
void test_handed_down() {
    Lower lower;
    lower.when = When::Later;
    Client client;
    Queue queue(&lower, 8);
    lower.wire.fixtures = {{DEVICE}};
    queue.SendRDMRequest(get(), client.callback());
    for (int which = 0; which < 4; which++) {
        queue.SendRDMRequest(with_overrides(which), client.callback());
    }
    queue.SendRDMRequest(NewMuteRequest(CLIENT, DEVICE, 1), client.callback());
    queue.SendRDMRequest(set(), client.callback());
    queue.RunFullDiscovery(client.discovery());
    CHECK(lower.sent.size() == 1);
    lower.answer();
    CHECK(lower.own_full == 1 && lower.sent.size() == 1);
    lower.answer();
    CHECK(lower.sent.size() == 2 && lower.sent[1]->MessageLength() == 99);
    lower.answer_all();
    CHECK(lower.sent.size() == 7 && client.got.size() == 7);
    CHECK(lower.sent[2]->Checksum(1) == 0xbeef && lower.sent[3]->SubStartCode() == 7);
    CHECK(lower.sent[4]->MessageCount() == 5 && lower.sent[5]->ParamId() == PID_DISC_MUTE);
    CHECK(lower.sent[6]->CommandClass() == RDMCommand::SET_COMMAND);
    CHECK(client.got[5].response && client.got[5].response->DestinationUID() == ADAPTER);
    CHECK(client.got[5].response->CommandClass() == RDMCommand::DISCOVER_COMMAND_RESPONSE);
    for (int i = 0; i < 9; i++) {
        queue.SendRDMRequest(NewMuteRequest(CLIENT, DEVICE, 1), client.callback());
    }
    CHECK(client.got.size() == 8 && client.last() == RDM_FAILED_TO_SEND);
    lower.answer_all();
    CHECK(client.got.size() == 16);
}

} // namespace

void test_requests() {
    test_answer(When::Inside);
    test_answer(When::InsideTwice);
    test_answer(When::Later);
    test_second_answer();
    test_parts();
    test_parts_that_fail();
    for (unsigned int lost : {0, 1, 2}) {
        test_rest(lost);
    }
    test_endless_rests();
    test_many_rests();
    test_rest_of_message();
    test_pauses();
    test_limits();
    test_null_callbacks();
    test_handed_down();
}

// Two to sixteen clients ask three times for the same, while parts are lost: the first one at each part in turn, and
// then one in so many. Each is given all parts, or a fault.
static void test_lost_parts_of(unsigned int seed) {
    constexpr std::array<unsigned int, 4> rates{0, 50, 10, 3};
    std::mt19937 chance(seed);
    const unsigned int rate = rates[chance() % rates.size()];
    Lower lower;
    lower.when = When::Later;
    InParts device;
    lower.answers = [&](const RDMRequest &request) {
        const bool is_first_loss = device.requests == seed / 15 % 3;
        return device.reply(request, is_first_loss || (rate > 0 && chance() % rate == 0));
    };
    std::deque<Client> clients(2 + seed % 15);
    Queue queue(&lower, 60);
    for (std::size_t i = 0; i < 3 * clients.size(); i++) {
        queue.SendRDMRequest(get(), clients[i % clients.size()].callback());
    }
    lower.answer_all();
    for (const Client &client : clients) {
        CHECK(client.got.size() == 3);
        for (const Got &got : client.got) {
            const bool is_fault = got.status == RDM_TIMEOUT || got.status == RDM_INVALID_RESPONSE;
            CHECK(got.response ? data_of(*got.response) == InParts::whole : is_fault);
        }
    }
}

void test_lost_parts(unsigned long runs) {
    for (unsigned int seed = 0; seed < runs; seed++) {
        test_lost_parts_of(seed);
    }
}

// This many requests, each sent by the callback of the previous one. Neither the stack nor the heap may grow.
void test_length(unsigned long requests) {
    Lower lower;
    lower.keeps = false;
    Client client;
    Queue queue(&lower, 20);
    unsigned long done = 0;
    std::size_t blocks_before = 0;
    client.then = [&] {
        client.got.clear();
        blocks_before = done == 100 ? blocks.load() : blocks_before;
        if (++done < requests) {
            queue.SendRDMRequest(done % 2 == 0 ? get() : set(), client.callback());
        }
    };
    queue.SendRDMRequest(get(), client.callback());
    CHECK(done == requests && blocks == blocks_before);
}

} // namespace tests
