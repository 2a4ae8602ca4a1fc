// wurst::Agent, which wurstlinen.hpp includes.
#ifndef WURSTLINEN_AGENT_HPP
#define WURSTLINEN_AGENT_HPP

#include "wurstlinen.hpp"

namespace wurst {

// A single discovery run, on a line of the caller's own.
class Agent {
public:
    explicit Agent(Uid source, wurst_kind kind = WURST_FULL_DISCOVERY, const std::vector<Uid> &known = {},
                   std::uint64_t budget = WURST_DEFAULT_BUDGET, wurst_search search = WURST_QUICK,
                   std::uint8_t tn = 0) {
        std::vector<std::uint64_t> numbers;
        numbers.reserve(known.size() + 1);
        for (Uid uid : known) {
            numbers.push_back(uid.number());
        }
        const wurst_start start{source.number(), budget, static_cast<std::uint32_t>(kind),
                                static_cast<std::uint32_t>(search), tn};
        check(wurst_agent_start(handle_.get(), &start, numbers.data(), numbers.size()));
    }

    // What the run asks next, and its frame; nullopt: it has ended.
    std::optional<std::pair<wurst_operation, Frame>> next() {
        std::optional<std::pair<wurst_operation, Frame>> asked(std::in_place);
        std::uint32_t operation = 0;
        Frame &frame = asked->second;
        if (!detail::given(wurst_agent_next(handle_.get(), &operation, frame.data(), Frame::room, frame.length()))) {
            return std::nullopt;
        }
        asked->first = static_cast<wurst_operation>(operation);
        return asked;
    }

    void hear(Bytes reply) { check(wurst_agent_hear(handle_.get(), reply.data, reply.size)); }
    void fail() { check(wurst_agent_fail(handle_.get())); }
    void stop() { check(wurst_agent_stop(handle_.get())); }

    // The devices found so far.
    std::vector<Device> devices() {
        std::vector<wurst_device> forms(WURST_MOST_DEVICES);
        return detail::copied(devices(forms.data(), forms.size()));
    }

    // The same, in the caller's array. Throws WURST_BUFFER_TOO_SMALL.
    Devices devices(wurst_device *forms, std::size_t room) {
        std::size_t count = 0;
        check(wurst_agent_devices(handle_.get(), forms, room, &count));
        return Devices(forms, count);
    }

    // The bad UIDs so far.
    BadUids bad_uids() { return detail::bad_uids(handle_.get(), wurst_agent_bad_uids); }

    // Why it ended early. Throws WURST_NOT_ENDED before the end.
    wurst_fault fault() { return static_cast<wurst_fault>(fault_and_uid().first); }

    // The UID of WURST_CORRUPT; nullopt after any other end. Throws WURST_NOT_ENDED before the end.
    std::optional<Uid> corrupt() {
        const auto [fault, number] = fault_and_uid();
        return fault == WURST_CORRUPT ? Uid::from_number(number) : std::nullopt;
    }

    std::uint64_t frames() {
        std::uint64_t frames = 0;
        check(wurst_agent_frames(handle_.get(), &frames));
        return frames;
    }

private:
    std::pair<std::uint32_t, std::uint64_t> fault_and_uid() {
        std::pair<std::uint32_t, std::uint64_t> both{};
        check(wurst_agent_fault(handle_.get(), &both.first, &both.second));
        return both;
    }

    detail::Handle<wurst_agent, wurst_agent_dispose> handle_;
};

} // namespace wurst

#endif
