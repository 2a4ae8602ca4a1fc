// Each row of the table of statuses, with bytes, and with only the status of the layer below.
#include "checks.hpp"

namespace tests {
namespace {

// A change of the response's bytes, in a reply that the layer below hasn't compared with the request.
using Change = std::function<void(Data &)>;

void sum_again(Data &frame) {
    unsigned int sum = 0;
    for (std::size_t i = 0; i + 2 < frame.size(); i++) {
        sum += frame[i];
    }
    frame[frame.size() - 2] = static_cast<std::uint8_t>(sum >> 8);
    frame[frame.size() - 1] = static_cast<std::uint8_t>(sum);
}

// The status that a client gets if the layer below reports `status` for the right reply with this change.
RDMStatusCode status_of(RDMStatusCode status, const Change &change, std::uint16_t pid = PID_DEVICE_LABEL) {
    Lower lower;
    lower.answers = [&](const RDMRequest &request) {
        const std::unique_ptr<RDMResponse> response(GetResponseFromData(&request, nullptr, 0));
        const RDMFrame right = frame_of(*response);
        Data bytes(right.data.begin(), right.data.end());
        change(bytes);
        const RDMFrame frame(bytes.data(), static_cast<unsigned int>(bytes.size()));
        return std::make_unique<RDMReply>(status, nullptr, RDMFrames{frame});
    };
    Client client;
    Queue queue(&lower, 20);
    queue.SendRDMRequest(get(pid), client.callback());
    CHECK(client.got.size() == 1 && (client.last() == RDM_COMPLETED_OK) == static_cast<bool>(client.got[0].response));
    CHECK(client.got[0].frames.size() == 1);
    return client.last();
}

Change with(std::size_t at, std::uint8_t value) {
    return [=](Data &frame) {
        frame[at] = value;
        sum_again(frame);
    };
}

void test_bytes() {
    const auto ok = RDM_COMPLETED_OK;
    CHECK(status_of(ok, [](Data &) {}) == RDM_COMPLETED_OK);
    CHECK(status_of(ok, with(16, RDM_ACK_TIMER)) == RDM_COMPLETED_OK);
    CHECK(status_of(ok, with(16, RDM_NACK_REASON)) == RDM_COMPLETED_OK);
    CHECK(status_of(ok, with(22, 0x83)) == RDM_INVALID_RESPONSE);
    CHECK(status_of(ok, with(22, 0x83), PID_QUEUED_MESSAGE) == RDM_COMPLETED_OK);
    CHECK(status_of(RDM_PACKET_LENGTH_MISMATCH, [](Data &frame) { frame.resize(25); }) == RDM_PACKET_TOO_SHORT);
    CHECK(status_of(RDM_INVALID_RESPONSE, [](Data &frame) { frame.resize(1); }) == RDM_PACKET_TOO_SHORT);
    CHECK(status_of(ok, with(0, 0xcd)) == RDM_INVALID_RESPONSE);
    CHECK(status_of(ok, with(1, 2)) == RDM_WRONG_SUB_START_CODE);
    CHECK(status_of(ok, with(2, 25)) == RDM_PACKET_LENGTH_MISMATCH);
    CHECK(status_of(ok, with(23, 1)) == RDM_PARAM_LENGTH_MISMATCH);
    CHECK(status_of(ok, [](Data &frame) { frame[10]++; }) == RDM_CHECKSUM_INCORRECT);
    CHECK(status_of(ok, with(20, 0x20)) == RDM_INVALID_COMMAND_CLASS);
    CHECK(status_of(ok, with(16, 9)) == RDM_INVALID_RESPONSE_TYPE);
    CHECK(status_of(ok, with(19, 4)) == RDM_SUB_DEVICE_MISMATCH);
    CHECK(status_of(ok, with(14, 9)) == RDM_SRC_UID_MISMATCH);
    CHECK(status_of(ok, with(20, 0x31)) == RDM_COMMAND_CLASS_MISMATCH);
    CHECK(status_of(ok, with(20, 0x11)) == RDM_COMMAND_CLASS_MISMATCH);
    // The core's first frame has the number 0. If the layer below has compared without success, nothing is readdressed.
    CHECK(status_of(RDM_TRANSACTION_MISMATCH, [](Data &) {}) == RDM_TRANSACTION_MISMATCH);
    CHECK(status_of(RDM_DEST_UID_MISMATCH, with(15, 0)) == RDM_DEST_UID_MISMATCH);
    CHECK(status_of(RDM_SRC_UID_MISMATCH, [](Data &frame) { frame[15] = 0; frame[14] = 9; sum_again(frame); })
          == RDM_SRC_UID_MISMATCH);
    // Some adapters add bytes.
    CHECK(status_of(ok, [](Data &frame) { frame.resize(frame.size() + 4); }) == RDM_COMPLETED_OK);
    CHECK(status_of(ok, [](Data &frame) { frame.resize(300); }) == RDM_COMPLETED_OK);
}

// The status that a client gets if the layer below doesn't pass on the bytes.
RDMStatusCode status_without_bytes(RDMStatusCode status, RDMRequest *request) {
    Lower lower;
    lower.answers = [&](const RDMRequest &) { return std::make_unique<RDMReply>(status); };
    Client client;
    Queue queue(&lower, 20);
    queue.SendRDMRequest(request, client.callback());
    CHECK(client.got.size() == 1 && !client.got[0].response && client.got[0].frames.empty());
    return client.last();
}

void test_statuses_alone() {
    for (int status = RDM_COMPLETED_OK; status <= RDM_INVALID_RESPONSE_TYPE; status++) {
        const auto each = static_cast<RDMStatusCode>(status);
        if (each != RDM_WAS_BROADCAST) {
            CHECK(status_without_bytes(each, get()) == each);
            CHECK(status_without_bytes(each, set()) == each);
            CHECK(status_without_bytes(each, get(PID_QUEUED_MESSAGE)) == each || each == RDM_SUB_DEVICE_MISMATCH);
        }
    }
    const UID all = UID::AllDevices();
    CHECK(status_without_bytes(RDM_WAS_BROADCAST, set(PID_DEVICE_LABEL, all)) == RDM_WAS_BROADCAST);
    CHECK(status_without_bytes(RDM_TIMEOUT, set(PID_DEVICE_LABEL, all)) == RDM_WAS_BROADCAST);
    CHECK(status_without_bytes(RDM_FAILED_TO_SEND, set(PID_DEVICE_LABEL, all)) == RDM_FAILED_TO_SEND);
    CHECK(status_without_bytes(RDM_WAS_BROADCAST, get()) == RDM_TIMEOUT);
    CHECK(status_without_bytes(RDM_PLUGIN_DISCOVERY_NOT_SUPPORTED, get()) == RDM_INVALID_RESPONSE);
    CHECK(status_without_bytes(RDM_DUB_RESPONSE, get()) == RDM_INVALID_RESPONSE);
    // A queued message may come from any sub-device, so the core can't detect this fault. It still isn't accepted.
    CHECK(status_without_bytes(RDM_SUB_DEVICE_MISMATCH, get(PID_QUEUED_MESSAGE)) == RDM_INVALID_RESPONSE);
    CHECK(status_without_bytes(RDM_SUB_DEVICE_MISMATCH, set(PID_DEVICE_LABEL, DEVICE, ALL_RDM_SUBDEVICES))
          == RDM_INVALID_RESPONSE);
}

// A layer below that has a response, but no raw bytes, or incomplete ones.
void test_response_alone(const RDMFrames &frames) {
    Lower lower;
    lower.answers = [&](const RDMRequest &request) {
        const std::uint8_t data[] = {5, 6, 7};
        auto *const response = GetResponseFromData(&request, data, sizeof data);
        return std::make_unique<RDMReply>(RDM_COMPLETED_OK, response, frames);
    };
    Client client;
    Queue queue(&lower, 20);
    queue.SendRDMRequest(get(), client.callback());
    CHECK(client.last() == RDM_COMPLETED_OK && client.got[0].frames == frames);
    CHECK(data_of(*client.got[0].response) == Data({5, 6, 7}));
}

void test_no_memory() {
    Lower lower;
    Client client;
    Queue queue(&lower, 20);
    is_heap_full = true;
    queue.SendRDMRequest(get(), client.callback());
    is_heap_full = false;
    CHECK(client.last() == RDM_INVALID_RESPONSE && !client.got[0].response);
    queue.SendRDMRequest(get(), client.callback());
    CHECK(client.last() == RDM_COMPLETED_OK);
}

} // namespace

void test_statuses() {
    test_bytes();
    test_statuses_alone();
    test_response_alone({});
    const std::uint8_t two[] = {1, 2};
    test_response_alone({RDMFrame(two, sizeof two)});
    test_no_memory();
}

} // namespace tests
