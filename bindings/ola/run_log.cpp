#include "run_log.hpp"
#include <ola/rdm/RDMEnums.h>
#include <exception>
#include <utility>

namespace stand_in {

// The low byte of the PID in a frame (E1.20, packet format).
constexpr std::size_t PID_AT = 22;
// A run of this size is written. About 20,000 exchanges have it, and the writer's queue takes it.
constexpr std::size_t MOST_BYTES = 3UL * 1024 * 1024;

static std::string operation_of(wurst::Bytes frame) {
    switch (frame.data[PID_AT]) {
    case ola::rdm::PID_DISC_UNIQUE_BRANCH:
        return "branch";
    case ola::rdm::PID_DISC_MUTE:
        return "mute";
    default:
        return "unmute";
    }
}

// Without memory for a part of it, the run is lost.
template <typename Work> void RunLog::guarded(Work work) noexcept {
    try {
        work();
    } catch (const std::exception &) {
        lose();
    }
}

void RunLog::lose() noexcept {
    text_.clear();
    frame_.clear();
    is_lost_ = true;
}

void RunLog::begin(const RunOpening &opening) noexcept {
    // cppcheck-suppress throwInNoexceptFunction ; it is caught there
    guarded([&] {
        const std::string search = opening.search == WURST_STEADY ? "steady" : "quick";
        const std::string kind = opening.kind == WURST_FULL_DISCOVERY ? "full" : "incremental";
        opening_ = "{\"entry\":\"opening\",\"source\":" + json(opening.source.text()) + ",\"budget\":"
            + json(opening.budget) + ",\"search\":" + json(search) + ",\"discover\":" + json(kind) + ",\"known\":"
            + json(opening.known) + "}\n";
        text_ = opening_;
        frame_.clear();
        exchanges_ = 0;
    });
}

void RunLog::sent(wurst::Bytes frame) noexcept {
    if (!text_.empty()) {
        guarded([&] {
            frame_ = "{\"number\":" + json(exchanges_) + ",\"operation\":" + json(operation_of(frame))
                + ",\"frame\":" + json(frame);
        });
    }
}

void RunLog::came(wurst::Bytes reply) noexcept {
    guarded([&] { add("\"reply\":" + json(reply)); });
}

void RunLog::failed() noexcept {
    guarded([&] { add("\"failed\":true"); });
}

void RunLog::add(const std::string &event) {
    if (frame_.empty()) {
        return;
    }
    const std::string line = std::exchange(frame_, "") + ',' + event + ",\"microseconds\":" + json(now_()) + "}\n";
    if (text_.size() + line.size() > MOST_BYTES) {
        write_(std::exchange(text_, opening_));
    }
    text_ += line;
    exchanges_++;
}

void RunLog::end() noexcept {
    if (!text_.empty()) {
        guarded([&] { write_(std::exchange(text_, "")); });
    }
    if (std::exchange(is_lost_, false)) {
        lose_();
    }
}
} // namespace stand_in
