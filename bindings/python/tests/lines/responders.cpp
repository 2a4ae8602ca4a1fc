// The responders of OLA's library as a line as text: hexadecimal frames on standard input, and replies on standard
// output. Each answers mutes and branches by rules of E1.20 that are written here, and GETs and SETs by OLA's code.
#include <cstdint>
#include <iostream>
#include <memory>
#include <ola/Callback.h>
#include <ola/Clock.h>
#include <ola/Logging.h>
#include <ola/rdm/AckTimerResponder.h>
#include <ola/rdm/AdvancedDimmerResponder.h>
#include <ola/rdm/DimmerResponder.h>
#include <ola/rdm/DummyResponder.h>
#include <ola/rdm/MovingLightResponder.h>
#include <ola/rdm/NetworkResponder.h>
#include <ola/rdm/RDMCommand.h>
#include <ola/rdm/RDMCommandSerializer.h>
#include <ola/rdm/RDMReply.h>
#include <ola/rdm/SensorResponder.h>
#include <string>
#include <vector>

using ola::rdm::UID;
using Bytes = std::vector<std::uint8_t>;

struct Responder {
    UID uid;
    std::unique_ptr<ola::rdm::RDMControllerInterface> device;
    bool is_muted = false;
};

static Bytes answer;

static void keep(ola::rdm::RDMReply *reply) {
    ola::io::ByteString packed;
    const auto *response = reply->Response();
    if (response != nullptr && ola::rdm::RDMCommandSerializer::PackWithStartCode(*response, &packed)) {
        answer.assign(packed.begin(), packed.end());
    }
}

static Bytes doubled(const Bytes &bytes) {
    Bytes coded;
    for (std::uint8_t byte : bytes) {
        coded.push_back(byte | 0xaa);
        coded.push_back(byte | 0x55);
    }
    return coded;
}

static Bytes sum_of(const Bytes &bytes) {
    unsigned sum = 0;
    for (std::uint8_t byte : bytes) {
        sum += byte;
    }
    return {static_cast<std::uint8_t>(sum >> 8), static_cast<std::uint8_t>(sum)};
}

static Bytes branch_reply(const UID &uid) {
    Bytes text(6);
    uid.Pack(text.data(), 6);
    const Bytes coded = doubled(text), sum = doubled(sum_of(coded));
    Bytes reply(7, 0xfe);
    reply.push_back(0xaa);
    reply.insert(reply.end(), coded.begin(), coded.end());
    reply.insert(reply.end(), sum.begin(), sum.end());
    return reply;
}

static Bytes branched(const std::vector<Responder> &responders, const Bytes &frame) {
    const UID low(frame.data() + 24), high(frame.data() + 30);
    Bytes reply;
    for (const Responder &each : responders) {
        if (!each.is_muted && !(each.uid < low) && !(high < each.uid)) {
            // A collision is anything that nobody can read.
            reply = reply.empty() ? branch_reply(each.uid) : Bytes(24, 0xff);
        }
    }
    return reply;
}

static Bytes muted(std::vector<Responder> &responders, const Bytes &frame) {
    const UID target(frame.data() + 3);
    for (Responder &each : responders) {
        if (!target.DirectedToUID(each.uid)) {
            continue;
        }
        each.is_muted = frame[22] == 2;
        if (target == each.uid) {
            Bytes reply = frame;
            reply[2] = 26;
            std::copy(frame.begin() + 3, frame.begin() + 9, reply.begin() + 9);
            std::copy(frame.begin() + 9, frame.begin() + 15, reply.begin() + 3);
            reply[16] = 0;
            reply[20] = 0x11;
            reply[23] = 2;
            reply.resize(24);
            reply.insert(reply.end(), {0, 0});
            const Bytes sum = sum_of(reply);
            reply.insert(reply.end(), sum.begin(), sum.end());
            return reply;
        }
    }
    return {};
}

static Bytes requested(std::vector<Responder> &responders, const Bytes &frame) {
    answer.clear();
    for (Responder &each : responders) {
        auto *request = ola::rdm::RDMRequest::InflateFromData(frame.data() + 1, frame.size() - 1);
        if (request != nullptr && request->DestinationUID().DirectedToUID(each.uid)) {
            each.device->SendRDMRequest(request, ola::NewSingleCallback(&keep));
        } else {
            delete request;
        }
    }
    return answer;
}

static Bytes bytes_of(const std::string &text) {
    Bytes bytes;
    for (std::size_t at = 0; at + 1 < text.size(); at += 2) {
        bytes.push_back(static_cast<std::uint8_t>(std::stoul(text.substr(at, 2), nullptr, 16)));
    }
    return bytes;
}

template <typename Device, typename... Arguments>
static void add(std::vector<Responder> &responders, std::uint32_t number, Arguments... arguments) {
    const UID uid(0x7a70, number);
    responders.push_back({uid, std::make_unique<Device>(uid, arguments...), false});
}

int main() {
    ola::InitLogging(ola::OLA_LOG_NONE, ola::OLA_LOG_NULL);
    std::vector<Responder> responders;
    add<ola::rdm::AckTimerResponder>(responders, 1);
    add<ola::rdm::AdvancedDimmerResponder>(responders, 2);
    add<ola::rdm::DimmerResponder>(responders, 3, static_cast<std::uint16_t>(2));
    add<ola::rdm::DummyResponder>(responders, 4);
    add<ola::rdm::MovingLightResponder>(responders, 5);
    add<ola::rdm::NetworkResponder>(responders, 6);
    add<ola::rdm::SensorResponder>(responders, 7);
    std::string text;
    while (std::getline(std::cin, text)) {
        const Bytes frame = bytes_of(text);
        const bool is_discovery = frame.at(20) == 0x10;
        const Bytes reply = !is_discovery ? requested(responders, frame)
                            : frame[22] == 1 ? branched(responders, frame)
                                             : muted(responders, frame);
        std::string line;
        for (std::uint8_t byte : reply) {
            line += "0123456789abcdef"[byte >> 4];
            line += "0123456789abcdef"[byte & 15];
        }
        std::cout << line << std::endl;
    }
}
