// Stubs of six of OLA's adapters, which call back in the order of OLA 0.10.9's source, and without its serial lines,
// USB and sockets. The names of their classes are OLA's, since the stand-in goes by them.
#ifndef WURSTLINEN_OLA_TESTS_ADAPTERS_HPP
#define WURSTLINEN_OLA_TESTS_ADAPTERS_HPP

#include "checks.hpp"

#ifndef WURSTLINEN_OWN
#include "../members.hpp"
#endif

#include <thread>

namespace tests {

// The stand-in's library has these classes' functions Stop in place of OLA's.
#ifdef WURSTLINEN_OWN
constexpr bool IS_OWN = true;
inline void stop_by(const void *, const std::function<void()> &own_stop) { own_stop(); }
#else
constexpr bool IS_OWN = false;
inline void stop_by(const void *whole, const std::function<void()> &own_stop) { stand_in::stop(whole, own_stop); }
#endif

// What all stubs have: a wire, a descriptor that may be closed, and what is sent, but not yet answered.
class Stub : public DiscoverableRDMControllerInterface {
public:
    Wire wire;
    bool is_open = true;
    // The answer that is awaited.
    std::unique_ptr<RDMRequest> request;
    RDMCallback *replied = nullptr;

    virtual bool awaits() const { return replied != nullptr; }
    virtual void answer_one() { answer_request(); }
    // Answers what was sent until nothing is awaited.
    void answer() {
        while (awaits()) {
            answer_one();
        }
    }

    void SendRDMRequest(RDMRequest *taken, RDMCallback *callback) override {
        std::unique_ptr<RDMRequest> sent(taken);
        if (replied != nullptr || !is_open) {
            return RunRDMCallback(callback, RDM_FAILED_TO_SEND);
        }
        sent->SetSourceUID(ADAPTER);
        sent->SetTransactionNumber(transaction_++);
        request = std::move(sent);
        replied = callback;
    }

protected:
    using Reply = std::unique_ptr<RDMReply>;

    // Runs a request's callback, which is no longer awaited then.
    void end_request(const Reply &reply) {
        auto *const callback = std::exchange(replied, nullptr);
        request.reset();
        callback->Run(reply.get());
    }

    void time_out() {
        if (replied != nullptr) {
            end_request(std::make_unique<RDMReply>(RDM_TIMEOUT));
        }
    }

    void answer_request() {
        if (replied != nullptr) {
            end_request(wire.reply_to(*request));
        }
    }

private:
    std::uint8_t transaction_ = 77;
};

// An adapter with OLA's own discovery, of which the stand-in uses the steps.
class Discovering : public Stub, public DiscoveryTargetInterface {
public:
    Discovering() : agent_(this) {}

    void RunFullDiscovery(RDMDiscoveryCallback *callback) override {
        agent_.StartFullDiscovery(ola::NewSingleCallback(this, &Discovering::complete, callback));
    }
    void RunIncrementalDiscovery(RDMDiscoveryCallback *callback) override {
        agent_.StartIncrementalDiscovery(ola::NewSingleCallback(this, &Discovering::complete, callback));
    }

    void MuteDevice(const UID &uid, MuteDeviceCallback *callback) override {
        send([=] { callback->Run(wire.mute(uid)); }, [=] { callback->Run(false); });
    }
    void UnMuteAll(UnMuteDeviceCallback *callback) override {
        send([=] { wire.unmute(); callback->Run(); }, [=] { callback->Run(); });
    }
    void Branch(const UID &lower, const UID &upper, BranchCallback *callback) override {
        send([=] {
            const auto bytes = wire.branch(number_of(lower), number_of(upper));
            callback->Run(bytes.empty() ? nullptr : bytes.data(), static_cast<unsigned int>(bytes.size()));
        }, [=] { callback->Run(nullptr, 0); });
    }

    bool awaits() const override { return step_.answer || replied != nullptr; }
    void answer_one() override { step_.answer ? std::exchange(step_, {}).answer() : answer_request(); }

protected:
    // One of the three steps: what its answer does, and what its failure.
    struct Step {
        std::function<void()> answer;
        std::function<void()> fail;
    };

    void send(const std::function<void()> &answer, const std::function<void()> &fail) {
        if (!is_open) {
            return fail();
        }
        step_ = {answer, fail};
    }

    Step step_;
    DiscoveryAgent agent_;

private:
    void complete(RDMDiscoveryCallback *callback, bool, const UIDSet &devices) {
        if (callback != nullptr) {
            callback->Run(devices);
        }
    }
};

// plugins/usbpro/EnttecUsbProWidget.cpp. A request that is outstanding isn't answered by Stop.
class EnttecPortImpl : public Discovering {
public:
    void Stop() { agent_.Abort(); }

    // WatchdogFired: one to two seconds after the last frame.
    void fire_watchdog() {
        if (step_.fail) {
            std::exchange(step_, {}).fail();
        } else if (replied != nullptr) {
            end_request(std::make_unique<RDMReply>(RDM_FAILED_TO_SEND));
        }
    }
};

// plugins/usbpro/RobeWidget.cpp.
class RobeWidgetImpl : public Discovering {
public:
    void Stop() {
        stop_by(this, [this] {
            time_out();
            agent_.Abort();
        });
    }
};

// libs/usb/JaRulePortHandleImpl.cpp: the destructor aborts, and then cancels all commands (JaRuleWidgetPort.cpp,
// CancelAll). RDMComplete runs a request's callback twice after a failure, since it lacks a return.
class JaRulePortHandleImpl : public Discovering {
public:
    ~JaRulePortHandleImpl() override {
        agent_.Abort();
        is_open = false;
        if (step_.fail) {
            std::exchange(step_, {}).fail();
        }
        if (replied != nullptr) {
            auto *const callback = replied;
            end_request(std::make_unique<RDMReply>(RDM_FAILED_TO_SEND));
            RunRDMCallback(callback, RDM_FAILED_TO_SEND);
        }
    }
};

// An adapter that makes its own discovery.
class OnItsOwn : public Stub {
public:
    RDMDiscoveryCallback *discovered = nullptr;
    UIDSet known;

    void RunFullDiscovery(RDMDiscoveryCallback *callback) override { discover(callback); }
    void RunIncrementalDiscovery(RDMDiscoveryCallback *callback) override { discover(callback); }

    bool awaits() const override { return discovered != nullptr || replied != nullptr; }
    void answer_one() override {
        known = uids_of(wire);
        discovered != nullptr ? end_discovery(known) : answer_request();
    }

protected:
    virtual void discover(RDMDiscoveryCallback *callback) {
        discovered = callback;
        if (!is_open) {
            end_discovery(known);
        }
    }

    void end_discovery(const UIDSet &devices) {
        if (discovered != nullptr) {
            std::exchange(discovered, nullptr)->Run(devices);
        }
    }
};

// plugins/usbpro/DmxTriWidget.cpp. Stop runs the discovery's callback with what is known. A discovery that is begun
// then waits for the answer to the command under way, also if nothing can be sent.
class DmxTriWidgetImpl : public OnItsOwn {
public:
    ~DmxTriWidgetImpl() override { Stop(); }

    void Stop() {
        stop_by(this, [this] {
            time_out();
            end_discovery(known);
        });
    }
};

namespace serial {
// plugins/usbpro/DmxterWidget.cpp.
class DmxterWidgetImpl : public OnItsOwn {
public:
    ~DmxterWidgetImpl() override { Stop(); }

    void Stop() {
        stop_by(this, [this] {
            time_out();
            end_discovery(UIDSet());
        });
    }
};
} // namespace serial

// plugins/artnet/ArtNetNode.cpp. Stop works once. There is no thread, and no descriptor that fails.
class ArtNetNodeImplRDMWrapper : public OnItsOwn {
public:
    ~ArtNetNodeImplRDMWrapper() override { Stop(); }

    void Stop() {
        if (std::exchange(is_running_, false)) {
            end_discovery(known);
            time_out();
        }
    }

private:
    bool is_running_ = true;
};

} // namespace tests

#endif
