// The ends of OLA's adapters: which callbacks run, when, on which thread, and with what. The same scenes run with OLA's
// own class, if this is compiled with WURSTLINEN_OWN and without the stand-in.
#include "adapters.hpp"

namespace tests {
namespace {

// What callbacks did: those of a port's own discovery, of a tool's, and of a request.
class Story {
public:
    bool has_port = true;
    std::string text;

    RDMDiscoveryCallback *discovery(const std::string &who) {
        discoveries_.emplace_back(ola::NewCallback(this, &Story::found, who));
        return discoveries_.back().get();
    }
    RDMCallback *request(const std::string &who) {
        requests_.emplace_back(ola::NewCallback(this, &Story::replied, who));
        return requests_.back().get();
    }
    void tell(const std::string &what) { text += what + ". "; }

private:
    // A callback keeps what it passes as its function takes it, so `who` is a value.
    // cppcheck-suppress passedByValue
    void found(std::string who, const UIDSet &devices) {
        tell(who + " " + std::to_string(devices.Size()) + where() + (has_port ? "" : " WITHOUT A PORT"));
    }
    // cppcheck-suppress passedByValue
    void replied(std::string who, RDMReply *reply) {
        tell(who + " " + (reply->StatusCode() == RDM_TIMEOUT ? "timeout" : "failed") + where());
    }
    std::string where() const { return std::this_thread::get_id() == main_ ? "" : " elsewhere"; }

    std::thread::id main_ = std::this_thread::get_id();
    std::vector<std::unique_ptr<RDMDiscoveryCallback>> discoveries_;
    std::vector<std::unique_ptr<RDMCallback>> requests_;
};

// An adapter with its controller, as OLA's widgets and nodes hold them.
template <typename A> struct Held {
    std::unique_ptr<A> adapter = std::make_unique<A>();
    std::unique_ptr<Queue> queue = std::make_unique<Queue>(adapter.get(), 20);
};

// UsbSerialPlugin.cpp, DeleteDevice: the widget is stopped, the device's ports end, the descriptor is closed, and the
// detector's thread deletes the widget (WidgetDetectorThread.cpp, FreeWidget and InternalFreeWidget).
template <typename A> void end_serial(Held<A> &held, Story &story, void (*destroy)(Held<A> &)) {
    held.adapter->Stop();
    story.tell("Ports end");
    story.has_port = false;
    held.adapter->is_open = false;
    std::thread(destroy, std::ref(held)).join();
}

// EnttecUsbProWidgetImpl's destructor: it stops, and deletes the controllers first.
void destroy(Held<EnttecPortImpl> &held) {
    held.adapter->Stop();
    held.queue.reset();
    held.adapter.reset();
}

// The destructors of RobeWidget, DmxterWidget and DmxTriWidget: the controller is deleted last.
template <typename A> void destroy(Held<A> &held) {
    held.adapter.reset();
    held.queue.reset();
}

template <typename A> void end(Held<A> &held, Story &story) { end_serial<A>(held, story, &destroy); }

// olad/plugin_api/Device.cpp, Stop, over JaRuleOutputPort.cpp and JaRulePortHandle.cpp: a port's destructor releases
// the handle, whose destructor pauses the queue. What callbacks belong to still exists.
void end(Held<JaRulePortHandleImpl> &held, Story &story) {
    held.queue->Pause();
    held.adapter.reset();
    held.queue.reset();
    story.tell("Ports end");
}

// ArtNetDevice.cpp, PrePortStop and PostPortStop, and ArtNetNode's destructor.
void end(Held<ArtNetNodeImplRDMWrapper> &held, Story &story) {
    held.adapter->Stop();
    story.tell("Ports end");
    story.has_port = false;
    held.queue.reset();
    held.adapter.reset();
}

enum class What { Discovery, Request };

// What happens if an adapter ends while a port's discovery or a request is outstanding, and more of both wait.
// `is_unplugged`: nothing can be sent any more when OLA notices. Else OLA stops the adapter by itself.
template <typename A> std::string story_of(What first, bool is_unplugged) {
    Story story;
    Held<A> held;
    held.adapter->wire.fixtures = fixtures(3);
    held.queue->RunFullDiscovery(nullptr);
    held.adapter->answer();
    if (first == What::Request) {
        held.queue->SendRDMRequest(get(), story.request("First request"));
    }
    held.queue->RunIncrementalDiscovery(story.discovery("Port"));
    held.queue->RunFullDiscovery(story.discovery("Tool"));
    held.queue->SendRDMRequest(get(), story.request("Request"));
    held.queue->SendRDMRequest(set(), story.request("Last"));
    held.adapter->is_open = !is_unplugged;
    end(held, story);
    return story.text;
}

void expect(const std::string &got, const std::string &wanted, const char *scene) {
    if (got != wanted) {
        std::printf("%s: %s\n  wanted: %s\n", scene, got.c_str(), wanted.c_str());
    }
    CHECK(got == wanted);
}

#define SCENE(adapter, first, is_unplugged, ours, own) \
    expect(story_of<adapter>(What::first, is_unplugged), IS_OWN ? (own) : (ours), #adapter " " #first " " #is_unplugged)

// Enttec, whose agent OLA aborts. OLA's class then begins what waits: if nothing can be sent any more, it ends at once,
// else when the widget is deleted, without a port. While a request is outstanding, it has nothing to abort, and loses
// what waits. Its requests end on the detector's thread, at the same time as OLA ends their clients' connections.
void test_enttec() {
    const std::string at_once = "Port 0. Tool 0. Request failed. Last failed. Ports end. ";
    SCENE(EnttecPortImpl, Discovery, true, at_once, at_once);
    SCENE(EnttecPortImpl, Discovery, false, at_once,
          "Port 0. Ports end. Tool 0 elsewhere WITHOUT A PORT. Request failed elsewhere. Last failed elsewhere. ");
    for (const bool is_unplugged : {true, false}) {
        SCENE(EnttecPortImpl, Request, is_unplugged,
              "Port 0. Tool 0. First request failed. Request failed. Last failed. Ports end. ",
              "Ports end. First request failed elsewhere. Request failed elsewhere. Last failed elsewhere. ");
    }
}

// Robe: the same, but a request that is outstanding times out first.
void test_robe() {
    const std::string at_once = "Port 0. Tool 0. Request failed. Last failed. Ports end. ";
    SCENE(RobeWidgetImpl, Discovery, true, at_once, at_once);
    SCENE(RobeWidgetImpl, Discovery, false, at_once,
          "Port 0. Ports end. Tool 0 elsewhere WITHOUT A PORT. Request failed elsewhere. Last failed elsewhere. ");
    SCENE(RobeWidgetImpl, Request, true, "First request timeout. " + at_once, "First request timeout. " + at_once);
    SCENE(RobeWidgetImpl, Request, false, "First request timeout. " + at_once,
          "First request timeout. Port 0. Tool 0. Ports end. Request failed elsewhere. Last failed elsewhere. ");
}

// Ja Rule: all on one thread, in the port's destructor. OLA's class has been paused, and loses what waits.
void test_ja_rule() {
    for (const bool is_unplugged : {true, false}) {
        SCENE(JaRulePortHandleImpl, Discovery, is_unplugged,
              "Port 0. Tool 0. Request failed. Last failed. Ports end. ",
              "Port 0. Request failed. Last failed. Ports end. ");
        SCENE(JaRulePortHandleImpl, Request, is_unplugged,
              "Port 0. Tool 0. First request failed. Request failed. Last failed. Ports end. ",
              "First request failed. Request failed. Last failed. Ports end. ");
    }
}

// DMXter, whose Stop answers its own discovery with no devices. If nothing can be sent, it gives what it knows.
void test_dmxter() {
    const std::string at_once = "Port 0. Tool 0. Request failed. Last failed. Ports end. ";
    SCENE(serial::DmxterWidgetImpl, Discovery, true, at_once,
          "Port 0. Tool 3. Request failed. Last failed. Ports end. ");
    SCENE(serial::DmxterWidgetImpl, Discovery, false, at_once,
          "Port 0. Ports end. Tool 0 elsewhere WITHOUT A PORT. Request failed elsewhere. Last failed elsewhere. ");
    SCENE(serial::DmxterWidgetImpl, Request, true, "First request timeout. " + at_once,
          "First request timeout. Port 3. Tool 3. Request failed. Last failed. Ports end. ");
    SCENE(serial::DmxterWidgetImpl, Request, false, "First request timeout. " + at_once,
          "First request timeout. Port 0. Tool 0. Ports end. Request timeout elsewhere. Last failed elsewhere. ");
}

// DMX-TRI, whose Stop answers its own discovery with what it knows.
void test_dmx_tri() {
    const std::string failed = "Request failed. Last failed. Ports end. ";
    SCENE(DmxTriWidgetImpl, Discovery, true, "Port 3. Tool 0. " + failed, "Port 3. Tool 3. " + failed);
    SCENE(DmxTriWidgetImpl, Discovery, false, "Port 3. Tool 0. " + failed,
          "Port 3. Ports end. Tool 3 elsewhere WITHOUT A PORT. Request failed elsewhere. Last failed elsewhere. ");
    SCENE(DmxTriWidgetImpl, Request, true, "First request timeout. Port 0. Tool 0. " + failed,
          "First request timeout. Port 3. Tool 3. " + failed);
    SCENE(DmxTriWidgetImpl, Request, false, "First request timeout. Port 0. Tool 0. " + failed,
          "First request timeout. Port 3. Tool 3. Ports end. Request timeout elsewhere. Last failed elsewhere. ");
}

// Art-Net: all on one thread. Its Stop answers its own discovery, and what waits is lost, as in OLA.
void test_art_net() {
    const std::string discovery = "Port 3. Ports end. Request failed. Last failed. ";
    const std::string request = "First request timeout. Ports end. Request failed. Last failed. ";
    SCENE(ArtNetNodeImplRDMWrapper, Discovery, false, discovery, discovery);
    SCENE(ArtNetNodeImplRDMWrapper, Request, false, request, request);
}

} // namespace

void test_adapters() {
    test_enttec();
    test_robe();
    test_ja_rule();
    test_dmxter();
    test_dmx_tri();
    test_art_net();
}

} // namespace tests
