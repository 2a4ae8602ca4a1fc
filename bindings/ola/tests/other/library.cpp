// Each call is written down in the object that it is for.
#include "ola.hpp"

namespace ola {

unsigned int base::Version::GetMajor() { return 0; }
unsigned int base::Version::GetMinor() { return 11; }
unsigned int base::Version::GetRevision() { return 0; }

namespace rdm {

void DiscoveryAgent::Abort() { calls += "abort "; }

QueueingRDMController::QueueingRDMController(RDMControllerInterface *, unsigned int places)
    : calls("make " + std::to_string(places) + ' '), ends(nullptr) {}

QueueingRDMController::~QueueingRDMController() { *ends += "end "; }

void QueueingRDMController::before_all() { calls += "before "; }
void QueueingRDMController::Pause() { calls += "pause "; }
void QueueingRDMController::Resume() { calls += "resume "; }
void QueueingRDMController::SendRDMRequest(RDMRequest *, BaseCallback1<void, RDMReply *> *) { calls += "send "; }

DiscoverableQueueingRDMController::DiscoverableQueueingRDMController(DiscoverableRDMControllerInterface *,
                                                                     unsigned int places)
    : QueueingRDMController(nullptr, places), more() {
    calls += "discoverable ";
}

DiscoverableQueueingRDMController::~DiscoverableQueueingRDMController() { *ends += more; }

void DiscoverableQueueingRDMController::RunFullDiscovery(BaseCallback1<void, const UIDSet &> *) { calls += "full "; }

void DiscoverableQueueingRDMController::RunIncrementalDiscovery(BaseCallback1<void, const UIDSet &> *) {
    calls += "incremental ";
}

} // namespace rdm
} // namespace ola
