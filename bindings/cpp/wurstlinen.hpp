// Wurstlinen for C++17: header only, over wurstlinen.h. Controllers, sessions, logs and agents are move-only, and free
// what they hold. Calls that can be refused throw wurst::Fault, but if the refusal is a normal result they return a
// std::optional. Calls that get memory from the caller return a view of it: they copy and allocate nothing. As in C,
// calls on one object are made one at a time.
#ifndef WURSTLINEN_HPP
#define WURSTLINEN_HPP

#include "wurstlinen.h"

#include <array>
#include <cstddef>
#include <cstdint>
#include <iterator>
#include <optional>
#include <stdexcept>
#include <string>
#include <string_view>
#include <utility>
#include <vector>

namespace wurst {

// The caller's bytes, which have to outlive the call.
struct Bytes {
    const std::uint8_t *data;
    std::size_t size;

    Bytes() : data(&none), size(0) {}
    Bytes(const std::uint8_t *at, std::size_t length) : data(length > 0 ? at : &none), size(length) {}
    Bytes(const std::vector<std::uint8_t> &bytes) : Bytes(bytes.data(), bytes.size()) {}
    template <std::size_t N> Bytes(const std::array<std::uint8_t, N> &bytes) : Bytes(bytes.data(), N) {}

    const std::uint8_t *begin() const { return data; }
    const std::uint8_t *end() const { return data + size; }

private:
    static inline const std::uint8_t none = 0;
};

// A refusal: its status, an enum wurst_status.
class Fault : public std::runtime_error {
public:
    explicit Fault(std::uint32_t why) : std::runtime_error(wurst_text(why)), status_(why) {}
    std::uint32_t status() const { return status_; }

private:
    std::uint32_t status_;
};

inline void check(std::uint32_t status) {
    if (status != WURST_DONE) {
        throw Fault(status);
    }
}

// A UID: 16 bits of manufacturer, 32 of device. A number of 2^48 or more can't be made.
class Uid {
public:
    constexpr Uid(std::uint16_t manufacturer, std::uint32_t device)
        : number_(std::uint64_t{manufacturer} << 32 | device) {}

    static std::optional<Uid> from_number(std::uint64_t number) {
        if (number >> 48 != 0) {
            return std::nullopt;
        }
        return Uid(static_cast<std::uint16_t>(number >> 32), static_cast<std::uint32_t>(number));
    }

    // Throws WURST_UID_LENGTH, WURST_UID_SEPARATOR, WURST_UID_DIGIT or WURST_NOT_TEXT.
    static Uid parse(std::string_view text) {
        std::uint64_t number = 0;
        Bytes bytes(reinterpret_cast<const std::uint8_t *>(text.data()), text.size());
        check(wurst_uid_read(bytes.data, bytes.size, &number));
        return *from_number(number);
    }

    static constexpr Uid all() { return Uid(0xffff, 0xffffffff); }

    constexpr std::uint64_t number() const { return number_; }
    constexpr std::uint16_t manufacturer() const { return static_cast<std::uint16_t>(number_ >> 32); }
    constexpr std::uint32_t device() const { return static_cast<std::uint32_t>(number_); }
    constexpr bool is_broadcast() const { return device() == 0xffffffff; }

    std::string text() const {
        std::array<std::uint8_t, WURST_UID_TEXT_BYTES> bytes{};
        check(wurst_uid_write(number_, bytes.data(), bytes.size()));
        return std::string(bytes.begin(), bytes.end());
    }

    friend constexpr bool operator==(Uid a, Uid b) { return a.number_ == b.number_; }
    friend constexpr bool operator!=(Uid a, Uid b) { return a.number_ != b.number_; }
    friend constexpr bool operator<(Uid a, Uid b) { return a.number_ < b.number_; }

private:
    std::uint64_t number_;
};

struct Device {
    Uid uid;
    std::uint16_t control = 0;
    std::optional<Uid> binding;

    static Device of(const wurst_device &form) {
        Device device{*Uid::from_number(form.uid), form.control, std::nullopt};
        if (form.has_binding) {
            device.binding = Uid::from_number(form.binding);
        }
        return device;
    }

    wurst_device form() const {
        return {uid.number(), binding ? binding->number() : 0, control, binding.has_value()};
    }
};

// One frame, in its own memory.
class Frame {
public:
    std::uint8_t *data() { return bytes_.data(); }
    const std::uint8_t *data() const { return bytes_.data(); }
    std::size_t size() const { return size_; }
    const std::uint8_t *begin() const { return data(); }
    const std::uint8_t *end() const { return data() + size_; }
    operator Bytes() const { return Bytes(data(), size_); }

    std::size_t *length() { return &size_; }
    static constexpr std::size_t room = WURST_MOST_FRAME_BYTES;

private:
    std::array<std::uint8_t, WURST_MOST_FRAME_BYTES> bytes_{};
    std::size_t size_ = 0;
};

struct Completion {
    wurst_completion head{};
    std::vector<std::uint8_t> data;

    std::uint64_t number() const { return head.number; }
    wurst_request_status status() const { return static_cast<wurst_request_status>(head.status); }
    // Whether its first parts may be missing, since a GET of it, or over 1,024 others, broke off. Then GET it again.
    bool may_be_incomplete() const { return head.may_be_incomplete; }
};

struct Discovery {
    wurst_end end{};
    std::vector<Device> devices;

    std::uint64_t number() const { return end.number; }
    wurst_fault fault() const { return static_cast<wurst_fault>(end.fault); }
};

// The bad UIDs of a run: those that it has set apart, the newest first, because each, asked alone, was answered badly.
struct BadUids {
    std::vector<Uid> uids;
    bool has_more = false; // it gave up more
};

// A view of devices that a call wrote into the caller's memory. It makes a Device for each access.
class Devices {
public:
    class iterator {
    public:
        using iterator_category = std::input_iterator_tag;
        using value_type = Device;
        using difference_type = std::ptrdiff_t;
        using pointer = const Device *;
        using reference = Device;

        explicit iterator(const wurst_device *at) : at_(at) {}
        Device operator*() const { return Device::of(*at_); }
        iterator &operator++() {
            ++at_;
            return *this;
        }
        iterator operator++(int) { return iterator(at_++); }
        bool operator==(iterator other) const { return at_ == other.at_; }
        bool operator!=(iterator other) const { return at_ != other.at_; }

    private:
        const wurst_device *at_;
    };

    Devices(const wurst_device *at, std::size_t size) : at_(at), size_(size) {}
    std::size_t size() const { return size_; }
    bool empty() const { return size_ == 0; }
    Device operator[](std::size_t index) const { return Device::of(at_[index]); }
    iterator begin() const { return iterator(at_); }
    iterator end() const { return iterator(at_ + size_); }

private:
    const wurst_device *at_;
    std::size_t size_;
};

// The same as Completion and Discovery, in the caller's memory.
struct CompletionView {
    wurst_completion head;
    Bytes data;

    wurst_request_status status() const { return static_cast<wurst_request_status>(head.status); }
    bool may_be_incomplete() const { return head.may_be_incomplete; }
};

struct DiscoveryView {
    wurst_end end;
    Devices devices;

    wurst_fault fault() const { return static_cast<wurst_fault>(end.fault); }
};

// An entry of a log, with its bytes in the caller's memory.
struct EntryView {
    wurst_entry entry;
    Bytes bytes;

    wurst_entry_kind kind() const { return static_cast<wurst_entry_kind>(entry.kind); }
};

namespace detail {

// Whether there was something to return. Throws on any other refusal.
inline bool given(std::uint32_t status) {
    if (status == WURST_NOTHING) {
        return false;
    }
    check(status);
    return true;
}

// A handle, which can only be moved, and is disposed of by the destructor.
template <typename Form, void (*dispose)(Form *)> class Handle {
public:
    Handle() = default;
    ~Handle() { dispose(&form_); }
    Handle(const Handle &) = delete;
    Handle &operator=(const Handle &) = delete;
    Handle(Handle &&other) noexcept : form_(std::exchange(other.form_, {})) {}
    Handle &operator=(Handle &&other) noexcept {
        if (this != &other) {
            dispose(&form_);
            form_ = std::exchange(other.form_, {});
        }
        return *this;
    }

    Form *get() { return &form_; }

private:
    Form form_{};
};

inline std::vector<Device> copied(Devices devices) {
    return std::vector<Device>(devices.begin(), devices.end());
}

template <typename Form>
BadUids bad_uids(Form *form, std::uint32_t (*call)(Form *, std::uint64_t *, std::size_t, std::size_t *, bool *)) {
    std::array<std::uint64_t, WURST_MOST_BAD_UIDS> numbers{};
    std::size_t count = 0;
    BadUids bad;
    check(call(form, numbers.data(), numbers.size(), &count, &bad.has_more));
    for (std::size_t i = 0; i < count; i++) {
        bad.uids.push_back(*Uid::from_number(numbers[i]));
    }
    return bad;
}

struct ControllerCalls {
    using Form = wurst_controller;
    static constexpr auto dispose = wurst_controller_dispose;
    static constexpr auto join = wurst_controller_join;
    static constexpr auto submit = wurst_controller_submit;
    static constexpr auto discover = wurst_controller_discover;
    static constexpr auto pause = wurst_controller_pause;
    static constexpr auto resume = wurst_controller_resume;
    static constexpr auto close = wurst_controller_close;
    static constexpr auto take = wurst_controller_take;
    static constexpr auto deliver = wurst_controller_deliver;
    static constexpr auto fail = wurst_controller_fail;
    static constexpr auto oldest = wurst_controller_oldest;
    static constexpr auto next_completion = wurst_controller_next_completion;
    static constexpr auto next_discovery = wurst_controller_next_discovery;
    static constexpr auto devices = wurst_controller_devices;
    static constexpr auto devices_run = wurst_controller_devices_run;
    static constexpr auto bad_uids = wurst_controller_bad_uids;
    static constexpr auto bad_uids_run = wurst_controller_bad_uids_run;
    static constexpr auto is_idle = wurst_controller_is_idle;
    static constexpr auto is_paused = wurst_controller_is_paused;
    static constexpr auto is_closed = wurst_controller_is_closed;
    static constexpr auto awaits = wurst_controller_awaits;
};

struct SessionCalls {
    using Form = wurst_session;
    static constexpr auto dispose = wurst_session_dispose;
    static constexpr auto join = wurst_session_join;
    static constexpr auto submit = wurst_session_submit;
    static constexpr auto discover = wurst_session_discover;
    static constexpr auto pause = wurst_session_pause;
    static constexpr auto resume = wurst_session_resume;
    static constexpr auto close = wurst_session_close;
    static constexpr auto take = wurst_session_take;
    static constexpr auto deliver = wurst_session_deliver;
    static constexpr auto fail = wurst_session_fail;
    static constexpr auto oldest = wurst_session_oldest;
    static constexpr auto next_completion = wurst_session_next_completion;
    static constexpr auto next_discovery = wurst_session_next_discovery;
    static constexpr auto devices = wurst_session_devices;
    static constexpr auto devices_run = wurst_session_devices_run;
    static constexpr auto bad_uids = wurst_session_bad_uids;
    static constexpr auto bad_uids_run = wurst_session_bad_uids_run;
    static constexpr auto is_idle = wurst_session_is_idle;
    static constexpr auto is_paused = wurst_session_is_paused;
    static constexpr auto is_closed = wurst_session_is_closed;
    static constexpr auto awaits = wurst_session_awaits;
};

// What controllers and sessions have in common: the queue of requests and discoveries on one line.
template <typename Calls> class Queue {
public:
    using Client = std::uint8_t;

    Client join(std::uint8_t places) {
        Client client = 0;
        check(Calls::join(handle_.get(), places, &client));
        return client;
    }

    std::uint64_t submit(Client client, const wurst_request &request, Bytes param = {}) {
        std::uint64_t number = 0;
        check(Calls::submit(handle_.get(), client, &request, param.data, param.size, &number));
        return number;
    }

    std::uint64_t get(Client client, Uid target, std::uint16_t pid, Bytes param = {}, std::uint16_t sub_device = 0) {
        return submit(client, {target.number(), WURST_GET, sub_device, pid}, param);
    }

    std::uint64_t set(Client client, Uid target, std::uint16_t pid, Bytes param = {}, std::uint16_t sub_device = 0) {
        return submit(client, {target.number(), WURST_SET, sub_device, pid}, param);
    }

    std::uint64_t discover(Client client, wurst_kind kind = WURST_FULL_DISCOVERY) {
        std::uint64_t number = 0;
        check(Calls::discover(handle_.get(), client, static_cast<std::uint32_t>(kind), &number));
        return number;
    }

    void pause() { check(Calls::pause(handle_.get())); }
    void resume() { check(Calls::resume(handle_.get())); }
    void close() { check(Calls::close(handle_.get())); }

    // The next frame for the line; nullopt while a reply is awaited, or if nothing is to be sent.
    std::optional<Frame> take() {
        std::optional<Frame> frame(std::in_place);
        if (!given(Calls::take(handle_.get(), frame->data(), Frame::room, frame->length()))) {
            frame.reset();
        }
        return frame;
    }

    void deliver(Bytes reply) { check(Calls::deliver(handle_.get(), reply.data, reply.size)); }
    void fail() { check(Calls::fail(handle_.get())); }

    // nullopt: the client has no outcome.
    std::optional<wurst_outcome> oldest(Client client) {
        std::uint32_t kind = 0;
        if (!given(Calls::oldest(handle_.get(), client, &kind))) {
            return std::nullopt;
        }
        return static_cast<wurst_outcome>(kind);
    }

    // nullopt: no outcome. Throws WURST_OTHER_OUTCOME if the oldest is a discovery's.
    std::optional<Completion> next_completion(Client client) {
        std::optional<Completion> done(std::in_place);
        auto &data = done->data;
        data.resize(WURST_MOST_PARAMETER_BYTES);
        auto status = Calls::next_completion(handle_.get(), client, &done->head, data.data(), data.size());
        if (status == WURST_BUFFER_TOO_SMALL) {
            data.resize(done->head.len);
            status = Calls::next_completion(handle_.get(), client, &done->head, data.data(), data.size());
        }
        if (!given(status)) {
            return std::nullopt;
        }
        data.resize(done->head.len);
        return done;
    }

    // The same, with the data in the caller's buffer. Throws WURST_BUFFER_TOO_SMALL, and the outcome stays.
    std::optional<CompletionView> next_completion(Client client, std::uint8_t *buffer, std::size_t room) {
        wurst_completion head{};
        if (!given(Calls::next_completion(handle_.get(), client, &head, buffer, room))) {
            return std::nullopt;
        }
        return CompletionView{head, Bytes(buffer, head.len)};
    }

    // nullopt: no outcome. Throws WURST_OTHER_OUTCOME if the oldest is a request's.
    std::optional<Discovery> next_discovery(Client client) {
        // A discovery without devices fits. Otherwise memory comes first, so that no outcome is lost without it.
        wurst_device none{};
        Discovery discovery;
        auto status = Calls::next_discovery(handle_.get(), client, &discovery.end, &none, 0);
        if (status == WURST_BUFFER_TOO_SMALL) {
            std::vector<wurst_device> forms(discovery.end.count);
            discovery.devices.reserve(forms.size());
            status = Calls::next_discovery(handle_.get(), client, &discovery.end, forms.data(), forms.size());
            for (const Device &each : Devices(forms.data(), status == WURST_DONE ? forms.size() : 0)) {
                discovery.devices.push_back(each);
            }
        }
        return given(status) ? std::optional(std::move(discovery)) : std::nullopt;
    }

    // The same, with the devices in the caller's array. Throws WURST_BUFFER_TOO_SMALL, and the outcome stays.
    std::optional<DiscoveryView> next_discovery(Client client, wurst_device *forms, std::size_t room) {
        wurst_end end{};
        if (!given(Calls::next_discovery(handle_.get(), client, &end, forms, room))) {
            return std::nullopt;
        }
        return DiscoveryView{end, Devices(forms, end.count)};
    }

    // The devices that the last run without fault found.
    std::vector<Device> devices() {
        std::vector<wurst_device> forms(WURST_MOST_DEVICES);
        return copied(devices(forms.data(), forms.size()));
    }

    // The same, in the caller's array. Throws WURST_BUFFER_TOO_SMALL.
    Devices devices(wurst_device *forms, std::size_t room) {
        std::size_t count = 0;
        check(Calls::devices(handle_.get(), forms, room, &count));
        return Devices(forms, count);
    }

    std::uint64_t devices_run() { return asked<std::uint64_t>(Calls::devices_run); }

    // Those of the run that began last, open or ended, and the number of that run, 0 before the first.
    BadUids bad_uids() { return detail::bad_uids(handle_.get(), Calls::bad_uids); }
    std::uint64_t bad_uids_run() { return asked<std::uint64_t>(Calls::bad_uids_run); }

    bool is_idle() { return asked<bool>(Calls::is_idle); }
    bool is_paused() { return asked<bool>(Calls::is_paused); }
    bool is_closed() { return asked<bool>(Calls::is_closed); }
    bool awaits() { return asked<bool>(Calls::awaits); }

    // Sends frames until there is none. `exchange` gets a Frame and returns a std::optional of the bytes that came
    // (nullopt: the line failed). Returns how many exchanges were made. If `exchange` throws, or returns more than
    // WURST_MOST_FRAME_BYTES, the line has failed at that frame: the exception passes through, and the next call of run
    // goes on.
    template <typename Exchange> std::uint64_t run(Exchange exchange) {
        std::uint64_t exchanges = 0;
        while (auto frame = take()) {
            try {
                auto reply = exchange(*frame);
                if (reply) {
                    deliver(*reply);
                } else {
                    fail();
                }
            } catch (...) {
                give_up();
                throw;
            }
            exchanges++;
        }
        return exchanges;
    }

protected:
    Queue() = default;

    Handle<typename Calls::Form, Calls::dispose> handle_;

private:
    // If a reply is awaited, nobody will deliver it. Faults are ignored: the exception under way says more.
    void give_up() noexcept {
        bool is_awaited = false;
        if (Calls::awaits(handle_.get(), &is_awaited) == WURST_DONE && is_awaited) {
            Calls::fail(handle_.get());
        }
    }

    template <typename Answer> Answer asked(std::uint32_t (*call)(typename Calls::Form *, Answer *)) {
        Answer answer{};
        check(call(handle_.get(), &answer));
        return answer;
    }
};

// What both sessions and logs have in common: entries, which are read from a handle by these calls.
template <typename Form> struct Entries {
    std::uint32_t (*count_of)(Form *, std::size_t *);
    std::uint32_t (*read)(Form *, std::size_t, wurst_entry *, std::uint8_t *, std::size_t);

    std::size_t count(Form *form) const {
        std::size_t count = 0;
        check(count_of(form, &count));
        return count;
    }

    EntryView entry(Form *form, std::size_t index, std::uint8_t *buffer, std::size_t room) const {
        wurst_entry entry{};
        check(read(form, index, &entry, buffer, room));
        return EntryView{entry, Bytes(buffer, entry.len)};
    }
};

} // namespace detail

// A queue without a log, which can run for years.
class Controller : public detail::Queue<detail::ControllerCalls> {
public:
    explicit Controller(Uid source, std::uint16_t places = WURST_MOST_PLACES,
                        std::uint64_t budget = WURST_DEFAULT_BUDGET, wurst_search search = WURST_QUICK) {
        const wurst_setup setup{source.number(), budget, static_cast<std::uint32_t>(search), places};
        check(wurst_controller_open(handle_.get(), &setup));
    }
};

// The log of a session that continued with a fresh one, or what a session has handed out of its log.
class Log {
public:
    // Holds nothing, until Session::drain fills it: other calls throw WURST_NOT_OPEN.
    Log() = default;

    std::size_t entry_count() { return entries.count(handle_.get()); }

    // The entry of this index, with its bytes in the caller's buffer; WURST_MOST_FRAME_BYTES are enough. Throws
    // WURST_NO_ENTRY or WURST_BUFFER_TOO_SMALL.
    EntryView entry(std::size_t index, std::uint8_t *buffer, std::size_t room) {
        return entries.entry(handle_.get(), index, buffer, room);
    }

private:
    friend class Session;

    static constexpr detail::Entries<wurst_log> entries{wurst_log_entry_count, wurst_log_entry};
    detail::Handle<wurst_log, wurst_log_dispose> handle_;
};

// In place of a capacity: the log keeps nothing, so that the session can last for years.
struct WithoutLog {};

// A queue with a log of all that it does.
class Session : public detail::Queue<detail::SessionCalls> {
public:
    // `entries`: the log's capacity.
    Session(Uid source, std::size_t entries, std::uint16_t places = WURST_MOST_PLACES,
            std::uint64_t budget = WURST_DEFAULT_BUDGET, wurst_search search = WURST_QUICK) {
        const wurst_setup setup{source.number(), budget, static_cast<std::uint32_t>(search), places};
        check(wurst_session_open(handle_.get(), &setup, entries));
    }

    Session(Uid source, WithoutLog, std::uint16_t places = WURST_MOST_PLACES,
            std::uint64_t budget = WURST_DEFAULT_BUDGET, wurst_search search = WURST_QUICK) {
        const wurst_setup setup{source.number(), budget, static_cast<std::uint32_t>(search), places};
        check(wurst_session_open_without_log(handle_.get(), &setup));
    }

    std::size_t free_entries() {
        std::size_t count = 0;
        check(wurst_session_free_entries(handle_.get(), &count));
        return count;
    }

    std::size_t entry_count() { return log_entries.count(handle_.get()); }

    // As Log::entry.
    EntryView entry(std::size_t index, std::uint8_t *buffer, std::size_t room) {
        return log_entries.entry(handle_.get(), index, buffer, room);
    }

    // Continues with a fresh log with capacity for this many entries, and returns the old one. Throws WURST_NOT_IDLE,
    // WURST_LOG_FULL, WURST_TOO_MANY_ENTRIES or WURST_OUT_OF_MEMORY.
    Log rotate(std::size_t entries) {
        Log log;
        check(wurst_session_rotate(handle_.get(), entries, log.handle_.get()));
        return log;
    }

    // As wurst_session_drain: hands out all that the log stores to `log`. Returns the number of the first entry.
    std::uint64_t drain(Log &log, std::size_t entries) {
        std::uint64_t first = 0;
        check(wurst_session_drain(handle_.get(), entries, log.handle_.get(), &first));
        return first;
    }

private:
    static constexpr detail::Entries<wurst_session> log_entries{wurst_session_entry_count, wurst_session_entry};
};

} // namespace wurst

#include "wurstlinen_agent.hpp"

#endif
