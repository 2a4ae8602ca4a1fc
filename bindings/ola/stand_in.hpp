// The replacement for one queueing controller of OLA: a proved controller, with OLA's callbacks and the layer below.
#pragma once
#include "below.hpp"
#include "run_log.hpp"
#include <atomic>
#include <exception>
#include <functional>
#include <list>
#include <memory>
#include <optional>
#include <thread>

namespace stand_in {

// Calls are made one at a time, but OLA makes and ends objects on another thread than it uses them on. Each callback
// runs once, within the layer's call that brings the answer. But as in OLA, no callback of a discovery runs from `end`,
// since what it belongs to may be gone by then. Callbacks may call this object, and may end it. What a callback throws
// passes through when everything else is done. What the layer below throws counts as a frame that wasn't sent.
class StandIn : public std::enable_shared_from_this<StandIn>, private Below {
public:
    StandIn(ola::rdm::RDMControllerInterface *lower, unsigned int places);

    // Nothing is sent until `resume`, not even the next frame of a discovery that has begun.
    void pause();
    void resume();
    // Takes ownership of the request. The callback may be null here and in `discover`.
    void send(ola::rdm::RDMRequest *taken, ola::rdm::RDMCallback *callback);
    void discover(wurst_kind kind, ola::rdm::RDMDiscoveryCallback *callback);
    // OLA stops the adapter, on its own thread, and what callbacks belong to still exists: ends all discoveries, with
    // the empty set as in OLA, and all requests, since `end` may come on another thread. Later ones end at once.
    void abort();
    // The same if the layer below is about to answer what is under way.
    void expect_abort() { is_aborted_ = true; }
    // Runs the callbacks of all outstanding requests, and no others, without a call of the layer below. What they throw
    // is dropped, since a destructor calls this.
    void end() noexcept; // NOLINT(bugprone-exception-escape)

private:
    // A client's request, until its result.
    struct Request {
        std::uint64_t order;
        std::unique_ptr<ola::rdm::RDMRequest> request;
        ola::rdm::RDMCallback *callback;
        // Of the replies so far: raw frames and how many; of the last one: the message count, and the status of the
        // layer below.
        ola::rdm::RDMFrames frames;
        unsigned int replies = 0;
        std::uint8_t message_count = 0;
        ola::rdm::RDMStatusCode status = ola::rdm::RDM_COMPLETED_OK;
        // How often it was made again.
        unsigned int repeats = 0;
    };

    // A discovery's callback, which runs on no other thread than that which asked for it.
    struct Asked {
        ola::rdm::RDMDiscoveryCallback *callback;
        std::thread::id thread;
    };

    // Discoveries that are answered together.
    struct Discoveries {
        wurst_kind kind = WURST_INCREMENTAL;
        std::list<Asked> asked;
        // How many runs have failed by answers that were late or those of earlier frames.
        unsigned int repeats = 0;
    };

    // Lists, whose elements move from one to the other without memory.
    using Requests = std::list<Request>;
    using DiscoveryList = std::list<Discoveries>;
    using Devices = std::shared_ptr<const ola::rdm::UIDSet>;

    void heard(const Heard &heard, const ola::rdm::RDMReply *reply) override;
    void handed_back(ola::rdm::RDMReply *reply) override;
    void checked(const Heard &heard) override;
    void check_more() override;
    void found(const ola::rdm::UIDSet &devices) override;
    void found_none() override;
    void pass_on() override;
    std::shared_ptr<void> kept() override { return shared_from_this(); }

    template <typename Work> void within(Work work);
    template <typename Work> void keep_thrown(Work work) noexcept;
    void pump();
    bool send_next();
    void begin_run();
    bool is_handed_down_next() const;
    void continue_run(const wurst::Frame &frame, bool is_first);
    void check_line();
    void deliver(const Heard &heard);
    void give(wurst::Bytes bytes);
    void fail(const char *why);
    bool is_last_silence(const Heard &heard);
    bool is_emptied_in_doubt(const Heard &heard);
    const char *failure_of(const Heard &heard) const;
    void proceed(std::function<void()> step);
    void send_held();
    void collect();
    bool ask_again(const wurst::CompletionView &done);
    void finish(const wurst::CompletionView &done);
    void answer(const wurst::DiscoveryView &done);
    bool repeat(const wurst::DiscoveryView &done);
    Devices devices_to_give(const wurst::DiscoveryView &done);
    void tell_fault(const wurst::DiscoveryView &done, const ola::rdm::UIDSet &devices) noexcept;
    void answer_oldest(const ola::rdm::UIDSet &devices);
    void run(const std::list<Asked> &asked, const ola::rdm::UIDSet &devices);
    bool ask(DiscoveryList &one);
    void wait(DiscoveryList &one);
    std::list<Asked> taken_callbacks();
    void close(bool answers_discoveries);
    void refuse(ola::rdm::RDMCallback *callback, const char *why);
    void introduce(bool discovers);

    // The core's run. Its first frame is held until the line was checked, if that is in doubt.
    struct Run {
        Clock::time_point began{};
        unsigned int silent_branches = 0;
        bool is_silent = true;
        // It failed by an answer that was that of an earlier frame.
        bool is_behind = false;
        std::optional<wurst::Frame> held_frame;
        // What waits until the queue is resumed.
        std::function<void()> held_step;
        // The last branch's range, and how often it was silent in a row.
        std::uint64_t lo = 0;
        std::uint64_t hi = 0;
        unsigned int silences = 0;
    };

    static inline std::atomic<unsigned int> controllers_{0};
    const unsigned int controller_;
    const unsigned int places_asked_;
    const std::uint8_t places_;
    wurst::Controller core_;
    const wurst::Controller::Client client_;
    // What the core's outcomes are written into, so that collecting one needs no memory.
    const std::unique_ptr<std::uint8_t[]> data_;
    const std::unique_ptr<wurst_device[]> forms_;
    // The core's requests, and those that are handed down, each in order.
    Requests requests_;
    Requests handed_;
    std::uint64_t requests_made_ = 0;
    // Discoveries that the core or the adapter has begun or queued, and those that wait until they can be passed on,
    // which are answered together.
    DiscoveryList discoveries_;
    DiscoveryList waiting_;
    // What OLA was given last. It gets that again if there is no memory for what was found.
    Devices given_;
    Run run_;
    RunLog run_log_;
    // The first exception of a client's callback that isn't passed on yet.
    std::exception_ptr thrown_;
    const char *failure_ = nullptr;
    std::uint64_t run_told_ = 0;
    Clock::time_point paused_{};
    // The core's oldest request or its run has begun, and hasn't ended.
    bool is_under_way_ = false;
    bool is_used_ = false;
    bool has_discovered_ = false;
    // The next run begins without a check of the line.
    bool is_behind_ = false;
    bool is_paused_ = false;
    bool is_within_ = false;
    bool is_aborted_ = false;
    bool has_ended_ = false;
};
} // namespace stand_in
