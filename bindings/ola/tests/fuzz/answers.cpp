// libFuzzer over the reader of answers: what an adapter's class of OLA hands up, as bytes, statuses and responses. What
// the reader makes of it always fits into a reply of the core, which takes it.
#include "../../answers.hpp"

#include <ola/rdm/RDMCommand.h>
#include <ola/rdm/RDMReply.h>

#include <cstdlib>

namespace {

using namespace ola::rdm;

const wurst::Uid SOURCE(0x7ff0, 1), DEVICE(0x1234, 7);
constexpr std::size_t HEADER_BYTES = 8;
constexpr std::uint8_t LEAST_LENGTH = 24;

void need(bool holds) {
    if (!holds) {
        std::abort();
    }
}

// A core that awaits the reply to such a frame, and what that frame is.
struct Core {
    wurst::Controller queue{SOURCE};
    wurst::Controller::Client client{queue.join(1)};
    wurst_command sent{};

    explicit Core(std::uint8_t kind) {
        if (kind % 4 == WURST_REQUEST) {
            queue.get(client, DEVICE, kind & 4 ? PID_QUEUED_MESSAGE : PID_DEVICE_LABEL);
        } else {
            queue.discover(client);
        }
        std::array<std::uint8_t, WURST_MOST_PARAMETER_BYTES> data{};
        while (const auto frame = queue.take()) {
            need(wurst_command_read(frame->data(), frame->size(), &sent, data.data(), data.size()) == WURST_DONE);
            if (sent.kind == kind % 4 || sent.kind == WURST_REQUEST) {
                return;
            }
            answer();
        }
    }

    // One device answers each branch, so that it is muted.
    void answer() {
        std::vector<std::uint8_t> reply(WURST_BRANCH_REPLY_BYTES);
        std::size_t len = 0;
        if (sent.kind == WURST_BRANCH) {
            wurst_branch_reply_write(DEVICE.number(), 0, reply.data(), reply.size(), &len);
        }
        reply.resize(len);
        queue.deliver(reply);
    }
};

std::unique_ptr<RDMReply> reply_of(std::uint8_t status, std::uint8_t kind, const std::uint8_t *data,
                                   unsigned int size) {
    const std::uint8_t asked[] = {9};
    const RDMGetRequest request(UID(0x454e, 1), UID(0x1234, 7), 77, 1, 0, PID_DEVICE_LABEL, asked, sizeof asked);
    // OLA 0.10.9's own reader reads beyond its bytes if the message length is below that of a header.
    const bool is_long = size > 2 && data[1] >= LEAST_LENGTH && data[2] >= LEAST_LENGTH;
    if (is_long && (kind & 8)) {
        return std::unique_ptr<RDMReply>(RDMReply::FromFrame(RDMFrame(data, size), kind & 16 ? &request : nullptr));
    }
    RDMFrames frames;
    for (int i = kind & 1; i < 2; i++) {
        frames.push_back(RDMFrame(data, size));
    }
    RDMStatusCode code = RDM_COMPLETED_OK;
    RDMResponse *const response
        = is_long && (kind & 2) ? RDMResponse::InflateFromData(data, size, &code, &request) : nullptr;
    const auto given = static_cast<RDMStatusCode>(status % (RDM_DUB_RESPONSE + 1));
    return std::make_unique<RDMReply>(given, response, kind & 32 ? RDMFrames() : frames);
}

} // namespace

extern "C" int LLVMFuzzerTestOneInput(const std::uint8_t *data, std::size_t size) {
    if (size < HEADER_BYTES) {
        return 0;
    }
    Core core(data[0]);
    const std::uint8_t *const bytes = data + HEADER_BYTES;
    const auto length = static_cast<unsigned int>(size - HEADER_BYTES);
    const auto reply = reply_of(data[1], data[2], bytes, length);
    const auto heard = stand_in::hear(*reply, core.sent);
    need(heard.bytes.size() <= WURST_MOST_FRAME_BYTES);
    need(heard.failure == nullptr || heard.bytes.empty() || heard.is_late);
    const auto branch = stand_in::hear_branch({bytes, bytes + std::min<unsigned int>(length, WURST_MOST_FRAME_BYTES)});
    need((branch.failure != nullptr) == branch.is_late);
    if (core.queue.awaits()) {
        core.queue.deliver(heard.bytes);
    }
    if (core.queue.oldest(core.client) == WURST_REQUEST_OUTCOME) {
        const auto done = core.queue.next_completion(core.client);
        const RDMGetRequest request(UID(0x7a70, 5), UID(0x1234, 7), 1, 1, 0, PID_DEVICE_LABEL, nullptr, 0);
        const wurst::CompletionView view{done->head, done->data};
        const auto response = stand_in::response_to(request, view, data[3]);
        need((response != nullptr) == (done->status() == WURST_COMPLETED && done->head.has_head));
        stand_in::status_of(done->head.status);
    }
    return 0;
}
