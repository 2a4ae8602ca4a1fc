// The log of a controller's runs, with the lines that the program writes by `discover --log`, and with times.
#pragma once
#include "journal.hpp"
#include <functional>

namespace stand_in {

// What begins each run, and each part of a long one.
struct RunOpening {
    wurst::Uid source;
    std::uint64_t budget;
    wurst_search search;
    wurst_kind kind;
    std::vector<wurst::Device> known; // before the run, ascending by UID
};

// The text of one run at a time. It is written when the run has ended, as a whole, since the runs of several adapters
// may be under way at once. A run that is very long is written in parts, each of which begins with the opening.
class RunLog {
public:
    // `write` gets the lines of each run or part. `lose` is called at the end of one that there is no memory for.
    explicit RunLog(std::function<void(const std::string &)> write = write_run, void (*lose)() = lose_run,
                    std::uint64_t (*now)() = clock_time)
        : write_(std::move(write)), lose_(lose), now_(now) {}

    void begin(const RunOpening &opening) noexcept;
    // A frame of the run, and then either what came after it or that the exchange failed. Without a frame before, these
    // two have no effect.
    void sent(wurst::Bytes frame) noexcept;
    void came(wurst::Bytes reply) noexcept;
    void failed() noexcept;
    // Writes it. Without effect if none has begun since.
    void end() noexcept;
    // What has begun, or is to begin, is lost.
    void lose() noexcept;

private:
    template <typename Work> void guarded(Work work) noexcept;
    void add(const std::string &event);

    const std::function<void(const std::string &)> write_;
    void (*const lose_)();
    std::uint64_t (*const now_)();
    std::string opening_;
    std::string text_;
    // The frame that awaits its answer, without the line's end; empty if there is none.
    std::string frame_;
    std::uint64_t exchanges_ = 0;
    bool is_lost_ = false;
};
} // namespace stand_in
