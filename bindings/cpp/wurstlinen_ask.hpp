// Asks devices, and waits for those that need time. Such a device answers ACK_TIMER, and queues its answer. E1.20,
// queued message: the controller waits as long as the device says, and then takes messages until none is left. Here all
// of that goes through a client of a wurst::Controller or a wurst::Session. A GET whose answer may lack its first parts
// is made again. For C++17, header only.
#ifndef WURSTLINEN_ASK_HPP
#define WURSTLINEN_ASK_HPP

#include "wurstlinen.hpp"

#include <algorithm>
#include <chrono>
#include <functional>
#include <map>
#include <optional>
#include <stdexcept>
#include <thread>
#include <utility>
#include <variant>
#include <vector>

namespace wurst {

// This machine's time. Any class with these two calls can take its place.
struct SteadyTime {
    std::chrono::milliseconds now() const {
        return std::chrono::duration_cast<std::chrono::milliseconds>(
            std::chrono::steady_clock::now().time_since_epoch());
    }
    void sleep(std::chrono::milliseconds time) const { std::this_thread::sleep_for(time); }
};

// How a request ended, after a wait if the device asked for one.
struct Answer {
    // The device's answer. It is still the ACK_TIMER if the answer didn't come in time.
    Completion completion;
    // The other messages that the device had queued, oldest first.
    std::vector<Completion> queued;
    // The client's outcomes from before this request, oldest first. After an exception, how that request has ended.
    std::vector<std::variant<Completion, Discovery>> earlier;

    // Whether the answer didn't come in time.
    bool is_late() const { return completion.head.has_head && completion.head.ack == WURST_ACK_TIMER; }
};

// There is no answer.
class Unanswered : public std::runtime_error {
public:
    Unanswered(const char *why, std::vector<Completion> queued_so_far,
               std::vector<std::variant<Completion, Discovery>> earlier_outcomes)
        : std::runtime_error(why), queued(std::move(queued_so_far)), earlier(std::move(earlier_outcomes)) {}

    // What was collected, as an Answer has it.
    std::vector<Completion> queued;
    std::vector<std::variant<Completion, Discovery>> earlier;
};

// The request wasn't sent, because the queue is paused, or a reply is awaited. It is still queued.
class Unserved : public Unanswered {
public:
    Unserved(std::vector<Completion> queued_so_far, std::vector<std::variant<Completion, Discovery>> earlier_outcomes)
        : Unanswered("the request wasn't sent: the queue is paused, or a reply is awaited", std::move(queued_so_far),
                     std::move(earlier_outcomes)) {}
};

// A GET was made six times, and each answer may lack its first parts: before each, another GET of the same broke off,
// or more than 1,024 others had.
class Incomplete : public Unanswered {
public:
    Incomplete(std::vector<Completion> queued_so_far, std::vector<std::variant<Completion, Discovery>> earlier_outcomes)
        : Unanswered("no whole answer came: other GETs of the same, or over 1,024 others, break off again and again",
                     std::move(queued_so_far), std::move(earlier_outcomes)) {}
};

namespace detail {

using namespace std::chrono_literals;

constexpr std::uint16_t queued_message = 0x0020;
constexpr std::uint16_t status_messages = 0x0030;
constexpr std::uint16_t status_id_description = 0x0031;
constexpr std::uint16_t first_manufacturers_pid = 0x8000;
constexpr std::uint16_t all_sub_devices = 0xffff;
// E1.20, status types. With ERROR, a device without messages reports nothing but errors.
constexpr std::uint8_t get_last_message = 0x01;
constexpr std::uint8_t error_status = 0x04;
constexpr std::chrono::milliseconds tenth = 100ms;
// What a device that never ends its messages, or loses them, can cost.
constexpr int most_messages = 256;
constexpr int most_losses = 5;
constexpr int most_exchanges = 1000;
// How often a GET is made again whose answer may lack its first parts.
constexpr int most_repeats = 5;
constexpr std::chrono::milliseconds fetch_time = 5s;
// What of that may be after the end of the wait.
constexpr std::chrono::milliseconds last_fetch_time = 2s;

// The time that a device asks for; nullopt if it doesn't. A time of another size counts as none.
inline std::optional<std::chrono::milliseconds> delay_of(const Completion &completion) {
    if (!completion.head.has_head || completion.head.ack != WURST_ACK_TIMER) {
        return std::nullopt;
    }
    const auto &data = completion.data;
    return data.size() == 2 ? (data[0] << 8 | data[1]) * tenth : 0 * tenth;
}

inline bool is_same(const Completion &a, const Completion &b) {
    return a.head.ack == b.head.ack && a.head.response_class == b.head.response_class && a.head.pid == b.head.pid
        && a.head.sub_device == b.head.sub_device && a.data == b.data;
}

// Whether a message has status messages.
inline bool is_report(const Completion &message) {
    return message.head.pid == status_messages && message.head.ack == WURST_ACK && !message.data.empty();
}

// Whether the answer begins with the request's data: the standards' GETs by a number return that number first.
inline bool is_echoed(const wurst_request &request) {
    return request.command_class == WURST_GET && request.pid < first_manufacturers_pid && request.pid != queued_message
        && request.pid != status_messages && request.pid != status_id_description;
}

// Whether a device takes what it answers out of its messages. GET_LAST_MESSAGE has it answer the same again.
inline bool takes_message(const wurst_request &request) {
    return request.pid == queued_message || request.pid == status_messages;
}

// Whether a message answers a request, as far as it shows.
inline bool is_answer(const Completion &message, const wurst_request &request, Bytes data) {
    const wurst_completion &head = message.head;
    const bool is_from_root = request.sub_device == all_sub_devices && head.sub_device == 0;
    const bool is_class = head.response_class == request.command_class + 1;
    if (head.pid != request.pid || !is_class || (head.sub_device != request.sub_device && !is_from_root)) {
        return false;
    }
    return head.ack == WURST_NACK || !is_echoed(request)
        || (message.data.size() >= data.size && std::equal(data.begin(), data.end(), message.data.begin()));
}

} // namespace detail

// Asks devices over a client that has no other requests outstanding. `Exchange` is a callable as Queue::run has it. The
// queue has to outlive the asker.
template <typename Queue, typename Exchange, typename Time = SteadyTime> class Asker {
public:
    using Client = typename Queue::Client;

    // `wait`: the longest wait for an answer. What a device has queued may take 2 seconds more.
    Asker(Queue &queue, Client client, Exchange exchange,
          std::chrono::milliseconds wait = std::chrono::seconds(10), Time time = {})
        : queue_(queue), client_(client), exchange_(std::move(exchange)), wait_(wait), time_(std::move(time)) {}

    Answer get(Uid target, std::uint16_t pid, Bytes data = {}, std::uint16_t sub_device = 0) {
        return ask({target.number(), WURST_GET, sub_device, pid}, data);
    }

    Answer set(Uid target, std::uint16_t pid, Bytes data = {}, std::uint16_t sub_device = 0) {
        return ask({target.number(), WURST_SET, sub_device, pid}, data);
    }

    // The answer to a request, with all its parts. Faults of the queue, exceptions of the line and those of the time
    // pass through, and the next answer has what was collected until then. After an exception of the line the exchange
    // has failed. Throws Unserved or Incomplete.
    Answer ask(const wurst_request &request, Bytes data = {}) {
        begin(request, data);
        try {
            return waited(request, data);
        } catch (...) {
            keep_ended();
            throw;
        }
    }

private:
    // The answer, after waits if the device asked for them. After every second wait without an answer, a GET is asked
    // again. A SET isn't, since it may do something.
    Answer waited(const wurst_request &request, Bytes data) {
        using std::chrono::milliseconds;
        ended_ = whole(request, data);
        auto delay = detail::delay_of(*ended_);
        for (int waits = 1; delay && pause(*delay); waits++) {
            if (auto found = has_queue_ ? fetched() : std::nullopt) {
                return answer(std::move(*found));
            }
            delay = std::max(2 * *delay, detail::tenth);
            if (request.command_class == WURST_GET && (waits % 2 == 0 || !has_queue_)) {
                ended_ = whole(request, data);
                delay = detail::delay_of(*ended_);
                delay = delay ? std::optional(std::max<milliseconds>(*delay, detail::tenth)) : std::nullopt;
            }
        }
        return answer(std::move(*ended_));
    }

    // How a request ends, once its answer can't lack its first parts.
    Completion whole(const wurst_request &request, Bytes data) {
        const std::uint8_t last = detail::get_last_message;
        Completion completion = exchanged(request, data);
        for (int repeats = 0; completion.may_be_incomplete(); repeats++) {
            if (repeats == detail::most_repeats) {
                give_up<Incomplete>();
            }
            completion = exchanged(request, detail::takes_message(request) ? Bytes(&last, 1) : data);
        }
        return completion;
    }

    // Throws with all that was collected.
    template <typename Why> [[noreturn]] void give_up() {
        keep_found();
        keep_ended();
        throw Why(std::exchange(queued_, {}), std::exchange(earlier_, {}));
    }

    // Memory for so many more, so that adding them can't fail once they are collected.
    template <typename T> static void make_room(std::vector<T> &outcomes, std::size_t more) {
        if (outcomes.capacity() - outcomes.size() < more) {
            outcomes.reserve(2 * outcomes.size() + more);
        }
    }

    void begin(const wurst_request &request, Bytes data) {
        request_ = request;
        data_ = data;
        deadline_ = time_.now() + wait_;
        exchanges_ = 0;
        // A queued message that isn't ready is asked for again.
        has_queue_ = request.pid != detail::queued_message;
        has_found_ = false;
        ended_.reset();
    }

    // An answer with all that was collected.
    Answer answer(Completion completion) {
        return {std::move(completion), std::exchange(queued_, {}), std::exchange(earlier_, {})};
    }

    // Waits, but not beyond the deadline. False if there is nothing left to wait or to ask with.
    bool pause(std::chrono::milliseconds delay) {
        const auto left = deadline_ - time_.now();
        if (left.count() <= 0 || exchanges_ >= detail::most_exchanges) {
            return false;
        }
        time_.sleep(std::min(delay, left));
        return true;
    }

    // Takes messages until none is left. The newest answer counts, since older ones may be to older requests. nullopt:
    // no answer is among them. If the line fails, that counts, and an answer from before is kept.
    std::optional<Completion> fetched() {
        std::optional<Completion> failed;
        try {
            failed = take_messages();
        } catch (...) {
            keep_found();
            throw;
        }
        if (failed || !has_found_) {
            keep_found();
            return failed;
        }
        return std::move(found_);
    }

    // Takes those messages. Returns how the request for one ended, if the line failed.
    std::optional<Completion> take_messages() {
        const auto now = time_.now();
        const auto until = std::min(now + detail::fetch_time, std::max(now + detail::last_fetch_time, deadline_));
        bool is_lost = false;
        int losses = 0;
        for (int count = 0; count < detail::most_messages; count++) {
            Completion message = queued(is_lost ? detail::get_last_message : detail::error_status);
            if (message.status() == WURST_FAILED_TO_SEND) {
                return message;
            }
            const bool is_silence = !message.head.has_head;
            // Of a message that may lack its first parts, all of it is asked for.
            const bool was_lost = std::exchange(is_lost, is_silence || message.may_be_incomplete());
            losses += is_silence;
            if (!is_lost && !keep(message, was_lost)) {
                break;
            }
            if (losses >= detail::most_losses || exchanges_ >= detail::most_exchanges || time_.now() > until) {
                break;
            }
        }
        return std::nullopt;
    }

    // Keeps a message. False: it was the last one.
    bool keep(Completion &message, bool was_lost) {
        try {
            if (!was_lost && is_end(message)) {
                return false;
            }
            sort(message, was_lost);
            return true;
        } catch (...) {
            // There is no memory for a copy.
            queued_.push_back(std::move(message));
            throw;
        }
    }

    // Keeps the newest answer so far as one of the other messages.
    void keep_found() {
        if (std::exchange(has_found_, false)) {
            queued_.push_back(std::move(found_));
        }
    }

    // Keeps how the request ended as an earlier outcome. There is memory for it since it was collected.
    void keep_ended() {
        if (ended_) {
            earlier_.push_back(std::move(*ended_));
            ended_.reset();
        }
    }

    // The reply to a GET of QUEUED_MESSAGE. There is memory to keep it, and an answer from before.
    Completion queued(std::uint8_t status_type) {
        make_room(queued_, 2);
        return exchanged({request_.target, WURST_GET, 0, detail::queued_message}, Bytes(&status_type, 1));
    }

    // Whether the device has no more messages now. Status messages, which it sends then, are kept.
    bool is_end(const Completion &message) {
        const wurst_completion &head = message.head;
        if (head.pid == detail::queued_message) {
            has_queue_ = head.ack != WURST_NACK;
            return true;
        }
        keep_report(message);
        return head.pid == detail::status_messages || head.ack == WURST_ACK_TIMER;
    }

    // Keeps status messages.
    void keep_report(const Completion &message) {
        if (detail::is_report(message)) {
            queued_.push_back(message);
        }
    }

    // Keeps a message, as the newest answer if it is one. If a reply was lost, the device was asked to repeat it. The
    // repeated message is an answer only if it is known not to be an older one.
    void sort(Completion &message, bool is_repeated) {
        const wurst_completion &head = message.head;
        if (is_repeated && (head.pid == detail::status_messages || head.pid == detail::queued_message)) {
            keep_report(message);
            return;
        }
        const auto before = newest_.find(request_.target);
        const bool is_known = before != newest_.end();
        if (is_repeated && is_known && detail::is_same(before->second, message)) {
            return;
        }
        const bool is_answer = detail::is_answer(message, request_, data_) && (!is_repeated || is_known);
        Completion copy = message;
        newest_.insert_or_assign(request_.target, std::move(copy));
        if (!is_answer) {
            queued_.push_back(std::move(message));
            return;
        }
        keep_found();
        found_ = std::move(message);
        has_found_ = true;
    }

    // How a request ends.
    Completion exchanged(const wurst_request &request, Bytes data) {
        const std::uint64_t number = queue_.submit(client_, request, data);
        exchanges_++;
        queue_.run(std::ref(exchange_));
        while (const auto kind = queue_.oldest(client_)) {
            // One more than is added here, for how the request ended.
            make_room(earlier_, 2);
            if (*kind == WURST_DISCOVERY_OUTCOME) {
                earlier_.push_back(*queue_.next_discovery(client_));
                continue;
            }
            Completion completion = *queue_.next_completion(client_);
            if (completion.number() == number) {
                return completion;
            }
            earlier_.push_back(std::move(completion));
        }
        give_up<Unserved>();
    }

    Queue &queue_;
    Client client_;
    Exchange exchange_;
    std::chrono::milliseconds wait_;
    Time time_;
    // The newest message of each device, which GET_LAST_MESSAGE repeats.
    std::map<std::uint64_t, Completion> newest_;
    // The request that is being asked, until when its answer is waited for, and what it has cost.
    wurst_request request_{};
    Bytes data_;
    std::chrono::milliseconds deadline_{};
    int exchanges_ = 0;
    bool has_queue_ = true;
    // How the request ended, the newest answer among a device's messages, the other ones, and the client's earlier
    // outcomes.
    std::optional<Completion> ended_;
    bool has_found_ = false;
    Completion found_{};
    std::vector<Completion> queued_;
    std::vector<std::variant<Completion, Discovery>> earlier_;
};

// The answer to a single request. If the line throws, what was collected for it is lost: an Asker would keep it.
template <typename Queue, typename Exchange>
Answer ask(Queue &queue, typename Queue::Client client, Exchange exchange, const wurst_request &request,
           Bytes data = {}, std::chrono::milliseconds wait = std::chrono::seconds(10)) {
    return Asker<Queue, Exchange>(queue, client, std::move(exchange), wait).ask(request, data);
}

} // namespace wurst

#endif
