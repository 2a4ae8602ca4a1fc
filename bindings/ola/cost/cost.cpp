// The cost of a request in OLA's controller, or in ours under LD_PRELOAD: nanoseconds of processor time, with a layer
// below that answers at once.
//   c++ -std=c++17 -O2 bindings/ola/cost/cost.cpp -o cost -lola -lolacommon
#include <ola/Callback.h>
#include <ola/rdm/QueueingRDMController.h>
#include <ola/rdm/RDMCommandSerializer.h>
#include <ola/rdm/UID.h>

#include <cstdio>
#include <ctime>
#include <memory>

namespace {

using namespace ola::rdm;

constexpr int ROUNDS = 200000;
const UID DEVICE(0x1234, 7), CLIENT(0x7a70, 1);

class Lower : public DiscoverableRDMControllerInterface {
public:
    void SendRDMRequest(RDMRequest *taken, RDMCallback *callback) override {
        const std::unique_ptr<RDMRequest> request(taken);
        request->SetSourceUID(UID(0x454e, 1));
        const std::unique_ptr<RDMResponse> response(GetResponseFromData(taken, data_, sizeof data_));
        ola::io::ByteString bytes;
        RDMCommandSerializer::PackWithStartCode(*response, &bytes);
        const std::unique_ptr<RDMReply> reply(RDMReply::FromFrame(RDMFrame(bytes), taken));
        callback->Run(reply.get());
    }
    void RunFullDiscovery(RDMDiscoveryCallback *) override {}
    void RunIncrementalDiscovery(RDMDiscoveryCallback *) override {}

private:
    const std::uint8_t data_[2] = {0, 1};
};

RDMRequest *request() { return new RDMGetRequest(CLIENT, DEVICE, 0, 1, 0, PID_DMX_START_ADDRESS, nullptr, 0); }

unsigned long answered = 0;

void count(RDMReply *reply) { answered += reply->StatusCode() == RDM_COMPLETED_OK && reply->Response() != nullptr; }

double now() {
    timespec time{};
    clock_gettime(CLOCK_PROCESS_CPUTIME_ID, &time);
    return static_cast<double>(time.tv_sec) * 1e9 + static_cast<double>(time.tv_nsec);
}

} // namespace

int main() {
    Lower lower;
    DiscoverableQueueingRDMController queue(&lower, 20);
    const std::unique_ptr<RDMCallback> callback(ola::NewCallback(count));
    const double began = now();
    for (int round = 0; round < ROUNDS; round++) {
        queue.SendRDMRequest(request(), callback.get());
    }
    const double ended = now();
    const double below = now();
    for (int round = 0; round < ROUNDS; round++) {
        lower.SendRDMRequest(request(), callback.get());
    }
    std::printf("%.0f, of which below %.0f\n", (ended - began) / ROUNDS, (now() - below) / ROUNDS);
    return answered == 2 * ROUNDS ? 0 : 1;
}
