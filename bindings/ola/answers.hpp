// What replies of the layer below mean to the core, and what the core's results mean to clients of OLA.
#pragma once
#include <wurstlinen.hpp>
#include <ola/rdm/RDMReply.h>
#include <chrono>
#include <memory>
#include <string>
#include <vector>

namespace stand_in {

// Why the line failed, where it is said in several places.
constexpr const char *NOT_SENT = "the adapter couldn't send a frame";
constexpr const char *NO_MEMORY = "out of memory";
// These two are compared by their addresses.
inline constexpr char OUT_OF_STEP[] = "the adapter's answers may be those of earlier frames";
inline constexpr char LATE[] = "the adapter didn't answer for a second";

// What the core gets after a frame: the bytes that came (none are silence), or that the line failed.
struct Heard {
    std::vector<std::uint8_t> bytes;
    const char *failure = nullptr; // why the line failed, or null
    ola::rdm::RDMStatusCode status = ola::rdm::RDM_COMPLETED_OK; // of the layer below
    bool is_matched = false; // a response, which the layer below has compared with the request
    bool is_late = false;    // this may be an earlier frame's answer, or the frame's own answer may still come
    std::chrono::steady_clock::duration took{};
};

// Whether the core can send a request: it takes no DISCOVERY requests, and sets all other fields itself.
bool is_for_core(const ola::rdm::RDMRequest &request);

wurst_request form_of(const ola::rdm::RDMRequest &request);

// A request for the same answer once more, also if the device took it out of its messages.
std::unique_ptr<ola::rdm::RDMRequest> repeated(const ola::rdm::RDMRequest &request);

// What a reply means for the frame that was sent. `sent` is the frame as the core wrote it. The layer below has sent
// its own source UID and transaction number instead, and has compared them only if its status is RDM_COMPLETED_OK.
Heard hear(const ola::rdm::RDMReply &reply, const wurst_command &sent);

// OLA's callback has no argument for a fault. Beside a device that can't be muted, or with one too many, OLA gets what
// the run has found. After any other fault most may be missing, and OLA gets what the last run without a fault found.
bool has_searched(wurst_fault fault);

// Why a discovery ended early.
std::string text_of(const wurst_end &end);

// Which other bad UIDs its run had; empty if there are none.
std::string text_of(const wurst::BadUids &bad, const wurst_end &end);

// What a reply says without its bytes.
Heard hear_status(const ola::rdm::RDMReply &reply);

// What the bytes after a branch mean.
Heard hear_branch(std::vector<std::uint8_t> bytes);

// The status that a client gets for the core's status.
ola::rdm::RDMStatusCode status_of(std::uint32_t status);

// The status that OLA's client gets. The core can't know some of them. `below` is the last one of the layer below.
ola::rdm::RDMStatusCode status_of(const wurst::CompletionView &done, ola::rdm::RDMStatusCode below,
                                  unsigned int replies);

// The response to a client's request, with the joined data; null unless the device answered, with all parts.
// `message_count` is that of the last reply.
std::unique_ptr<ola::rdm::RDMResponse> response_to(const ola::rdm::RDMRequest &request,
                                                   const wurst::CompletionView &done, std::uint8_t message_count);
} // namespace stand_in
