#include "answers.hpp"
#include <ola/rdm/RDMCommandSerializer.h>
#include <ola/rdm/RDMEnums.h>
#include <algorithm>
#include <array>

namespace stand_in {
using namespace ola::rdm;

using Bytes = std::vector<std::uint8_t>;

// Bits to change in a byte of a packet without data, so that the core judges it like this. The checksum is adjusted
// (E1.20, packet format).
struct Change {
    RDMStatusCode status;
    std::size_t at;
    std::uint8_t bits;
};

constexpr Change CHANGES[] = {
    {RDM_WRONG_SUB_START_CODE, 1, 2}, {RDM_PACKET_LENGTH_MISMATCH, 2, 1}, {RDM_DEST_UID_MISMATCH, 8, 1},
    {RDM_SRC_UID_MISMATCH, 14, 1}, {RDM_TRANSACTION_MISMATCH, 15, 1}, {RDM_INVALID_RESPONSE_TYPE, 16, 0x0c},
    {RDM_SUB_DEVICE_MISMATCH, 19, 1}, {RDM_INVALID_COMMAND_CLASS, 20, 1}, {RDM_PARAM_LENGTH_MISMATCH, 23, 1},
    {RDM_CHECKSUM_INCORRECT, 25, 1}};

// By the number of the core's status. OLA has no code for a wrong start code (6). If there was no memory for the data
// (18), the device still carried out the request. So that isn't "failed to send", after which a client may send it
// again.
constexpr std::array<RDMStatusCode, 19> STATUSES{
    RDM_COMPLETED_OK, RDM_WAS_BROADCAST, RDM_FAILED_TO_SEND, RDM_TIMEOUT, RDM_INVALID_RESPONSE, RDM_PACKET_TOO_SHORT,
    RDM_INVALID_RESPONSE, RDM_WRONG_SUB_START_CODE, RDM_PACKET_LENGTH_MISMATCH, RDM_PARAM_LENGTH_MISMATCH,
    RDM_CHECKSUM_INCORRECT, RDM_INVALID_COMMAND_CLASS, RDM_INVALID_RESPONSE_TYPE, RDM_TRANSACTION_MISMATCH,
    RDM_SUB_DEVICE_MISMATCH, RDM_SRC_UID_MISMATCH, RDM_DEST_UID_MISMATCH, RDM_COMMAND_CLASS_MISMATCH,
    RDM_INVALID_RESPONSE};

constexpr unsigned int HEADER_BYTES = 24;
constexpr std::size_t LEAST_RESPONSE_BYTES = 26;
// More than one device replied to a branch, or the reply can't be read.
const Bytes COLLISION{0};

bool is_for_core(const RDMRequest &request) {
    const auto length = static_cast<std::uint8_t>(HEADER_BYTES + request.ParamDataSize());
    return (request.CommandClass() == RDMCommand::GET_COMMAND || request.CommandClass() == RDMCommand::SET_COMMAND)
        && request.SubStartCode() == SUB_START_CODE && request.MessageLength() == length
        && request.MessageCount() == 0 && request.Checksum(0) == 0 && request.Checksum(1) == 1;
}

wurst_request form_of(const RDMRequest &request) {
    const auto command_class = request.CommandClass() == RDMCommand::SET_COMMAND ? WURST_SET : WURST_GET;
    const wurst::Uid target(request.DestinationUID().ManufacturerId(), request.DestinationUID().DeviceId());
    return {target.number(), command_class, request.SubDevice(), request.ParamId()};
}

std::unique_ptr<RDMRequest> repeated(const RDMRequest &request) {
    if (request.ParamId() != PID_QUEUED_MESSAGE && request.ParamId() != PID_STATUS_MESSAGES) {
        return std::unique_ptr<RDMRequest>(request.Duplicate());
    }
    const std::uint8_t last = STATUS_GET_LAST_MESSAGE;
    return std::make_unique<RDMGetRequest>(request.SourceUID(), request.DestinationUID(), request.TransactionNumber(),
                                           request.PortId(), request.SubDevice(), request.ParamId(), &last, 1U);
}

// The raw bytes of the last reply. If a good reply has none, or too few for a response, the response is serialized.
static Bytes bytes_of(const RDMReply &reply) {
    auto raw = reply.Frames().empty() ? ola::io::ByteString() : reply.Frames().back().data;
    if (reply.StatusCode() == RDM_COMPLETED_OK && raw.size() < LEAST_RESPONSE_BYTES) {
        raw.clear();
        if (reply.Response() != nullptr) {
            RDMCommandSerializer::PackWithStartCode(*reply.Response(), &raw);
        }
    }
    // Some adapters add bytes after the checksum.
    raw.resize(std::min<std::size_t>(raw.size(), WURST_MOST_FRAME_BYTES));
    return Bytes(raw.begin(), raw.end());
}

static Bytes written(const wurst_response &response, const wurst::Bytes &data) {
    Bytes frame(WURST_MOST_FRAME_BYTES);
    std::size_t len = 0;
    wurst::check(wurst_response_write(&response, data.data, response.len, frame.data(), frame.size(), &len));
    frame.resize(len);
    return frame;
}

// The reply as if the core's own frame had been sent. Bytes that aren't a response are unchanged.
static Bytes readdressed(const Bytes &bytes, const wurst_command &sent) {
    const wurst::Bytes raw(bytes);
    wurst_response response{};
    std::array<std::uint8_t, WURST_MOST_PARAMETER_BYTES> data{};
    if (wurst_response_read(raw.data, raw.size, &response, data.data(), data.size()) != WURST_DONE) {
        return bytes;
    }
    response.dest = sent.source;
    response.tn = sent.tn;
    return written(response, data);
}

// A response with a single fault, for which the core checks last. It ends a request as InvalidResponse.
static wurst_response wrong_response(const wurst_command &sent) {
    if (sent.command_class == WURST_GET && sent.pid != PID_QUEUED_MESSAGE) {
        const auto other_pid = static_cast<std::uint16_t>(sent.pid ^ 1);
        return {sent.target, sent.source, 0, WURST_ACK, WURST_GET_RESPONSE, sent.sub_device, other_pid, sent.tn, 0};
    }
    return {sent.target, sent.source, 0, WURST_ACK_OVERFLOW, WURST_SET_RESPONSE, sent.sub_device, sent.pid, sent.tn, 0};
}

// The layer below has judged bytes without passing them on. These are bytes that the core judges in the same way.
static Bytes judged_as(RDMStatusCode status, const wurst_command &sent) {
    wurst_response response = wrong_response(sent);
    if (status == RDM_COMMAND_CLASS_MISMATCH) {
        response.response_class = WURST_DISCOVERY_RESPONSE;
    }
    Bytes frame = written(response, {});
    const std::size_t sum = frame.size() - 2;
    for (const auto &each : CHANGES) {
        if (each.status == status) {
            const int difference = (frame[each.at] ^ each.bits) - frame[each.at];
            const int changed = (frame[sum] << 8 | frame[sum + 1]) + difference;
            frame[each.at] = static_cast<std::uint8_t>(frame[each.at] ^ each.bits);
            frame[sum] = static_cast<std::uint8_t>(changed >> 8);
            frame[sum + 1] = static_cast<std::uint8_t>(changed);
        }
    }
    frame.resize(status == RDM_PACKET_TOO_SHORT ? frame.size() - 1 : frame.size());
    return frame;
}

// What the core gets if a reply has no bytes.
static Bytes bytes_for(RDMStatusCode status, const wurst_command &sent) {
    const bool is_silence = status == RDM_TIMEOUT || status == RDM_WAS_BROADCAST || status == RDM_UNKNOWN_UID;
    if (sent.kind == WURST_BRANCH) {
        return is_silence ? Bytes() : COLLISION;
    }
    const bool is_fault = !is_silence && status != RDM_COMPLETED_OK;
    return sent.kind == WURST_REQUEST && is_fault ? judged_as(status, sent) : Bytes();
}

// Whether a response has the fields of another exchange.
static bool is_of_other_exchange(RDMStatusCode status) {
    return status == RDM_TRANSACTION_MISMATCH || status == RDM_SRC_UID_MISMATCH || status == RDM_DEST_UID_MISMATCH;
}

static const char *failure_of(RDMStatusCode status, const wurst_command &sent) {
    if (status == RDM_FAILED_TO_SEND) {
        return NOT_SENT;
    }
    if (status == RDM_PLUGIN_DISCOVERY_NOT_SUPPORTED && sent.kind != WURST_REQUEST) {
        return "the adapter doesn't send a discovery's frames";
    }
    return sent.kind == WURST_MUTE && is_of_other_exchange(status) ? OUT_OF_STEP : nullptr;
}

Heard hear_branch(Bytes bytes) {
    Heard heard;
    wurst_response response{};
    std::array<std::uint8_t, WURST_MOST_PARAMETER_BYTES> data{};
    const wurst::Bytes raw(bytes);
    // No device answers a branch with a response.
    heard.is_late = wurst_response_read(raw.data, raw.size, &response, data.data(), data.size()) == WURST_DONE;
    heard.failure = heard.is_late ? OUT_OF_STEP : nullptr;
    heard.bytes = std::move(bytes);
    return heard;
}

Heard hear_status(const RDMReply &reply) {
    Heard heard;
    heard.status = reply.StatusCode();
    heard.is_matched = heard.status == RDM_COMPLETED_OK && reply.Response() != nullptr;
    heard.is_late = is_of_other_exchange(heard.status);
    return heard;
}

Heard hear(const RDMReply &reply, const wurst_command &sent) {
    Heard heard = hear_status(reply);
    heard.failure = failure_of(heard.status, sent);
    if (heard.failure != nullptr) {
        return heard;
    }
    heard.bytes = bytes_of(reply);
    if (heard.bytes.empty()) {
        heard.bytes = bytes_for(heard.status, sent);
    } else if (sent.kind == WURST_BRANCH) {
        heard = hear_branch(std::move(heard.bytes));
        heard.status = reply.StatusCode();
    } else if (heard.status == RDM_COMPLETED_OK) {
        heard.bytes = readdressed(heard.bytes, sent);
    }
    return heard;
}

bool has_searched(wurst_fault fault) {
    return fault == WURST_NO_FAULT || fault == WURST_CORRUPT || fault == WURST_TOO_MANY;
}

std::string text_of(const wurst_end &end) {
    static const char *const faults[] = {
        "no fault", " alone answered its branch, but isn't a new device", "more than 1,024 devices answered",
        "the run has used up its budget of frames", "the line failed", "it was aborted"};
    return (end.fault == WURST_CORRUPT ? wurst::Uid::from_number(end.corrupt)->text() : "") + faults[end.fault];
}

std::string text_of(const wurst::BadUids &bad, const wurst_end &end) {
    std::string others;
    for (const wurst::Uid &uid : bad.uids) {
        if (end.fault != WURST_CORRUPT || uid.number() != end.corrupt) {
            others += (others.empty() ? "; answered badly: " : ", ") + uid.text();
        }
    }
    return others + (bad.has_more ? " and more" : "");
}

RDMStatusCode status_of(std::uint32_t status) { return STATUSES.at(status); }

RDMStatusCode status_of(const wurst::CompletionView &done, RDMStatusCode below, unsigned int replies) {
    if (done.status() == WURST_TIMEOUT && below == RDM_UNKNOWN_UID) {
        return RDM_UNKNOWN_UID;
    }
    if (done.status() == WURST_TIMEOUT && below == RDM_COMPLETED_OK && replies == 1) {
        return RDM_COMPLETED_OK;
    }
    const bool is_later_source = done.status() == WURST_SOURCE_MISMATCH && replies > 1;
    // There was no memory for a reply that came.
    const bool is_lost = done.status() == WURST_FAILED_TO_SEND && below == RDM_INVALID_RESPONSE;
    const bool is_without_answer = is_later_source || is_lost || done.may_be_incomplete();
    return is_without_answer ? RDM_INVALID_RESPONSE : status_of(done.head.status);
}

std::unique_ptr<RDMResponse> response_to(const RDMRequest &request, const wurst::CompletionView &done,
                                         std::uint8_t message_count) {
    const auto &head = done.head;
    if (done.status() != WURST_COMPLETED || !head.has_head || done.may_be_incomplete()) {
        return nullptr;
    }
    const bool is_set = head.response_class == WURST_SET_RESPONSE;
    const auto command_class = is_set ? RDMCommand::SET_COMMAND_RESPONSE : RDMCommand::GET_COMMAND_RESPONSE;
    return std::make_unique<RDMResponse>(
        request.DestinationUID(), request.SourceUID(), request.TransactionNumber(), head.ack, message_count,
        head.sub_device, command_class, head.pid, done.data.data,
        static_cast<unsigned int>(done.data.size));
}
} // namespace stand_in
