// A stand-in for another version of OLA: classes with OLA's names, but with another layout and other virtual functions.
#ifndef WURSTLINEN_OLA_TESTS_OTHER_OLA_HPP
#define WURSTLINEN_OLA_TESTS_OTHER_OLA_HPP

#include <string>

namespace ola {

template <typename Result, typename Argument> class BaseCallback1;

namespace base {
class Version {
public:
    static unsigned int GetMajor();
    static unsigned int GetMinor();
    static unsigned int GetRevision();
};
} // namespace base

namespace rdm {

class RDMRequest;
struct RDMReply;
class UIDSet;
class RDMControllerInterface;
class DiscoverableRDMControllerInterface;

class DiscoveryAgent {
public:
    void Abort();
    std::string calls;
};

class QueueingRDMController {
public:
    QueueingRDMController(RDMControllerInterface *lower, unsigned int places);
    virtual void before_all();
    virtual ~QueueingRDMController();
    void Pause();
    void Resume();
    virtual void SendRDMRequest(RDMRequest *request, BaseCallback1<void, RDMReply *> *callback);

    std::string calls;
    // Its destructor adds to this.
    std::string *ends;
};

class DiscoverableQueueingRDMController : public QueueingRDMController {
public:
    DiscoverableQueueingRDMController(DiscoverableRDMControllerInterface *lower, unsigned int places);
    ~DiscoverableQueueingRDMController() override;
    void RunFullDiscovery(BaseCallback1<void, const UIDSet &> *callback);
    void RunIncrementalDiscovery(BaseCallback1<void, const UIDSet &> *callback);

    char more[4096];
};

} // namespace rdm
} // namespace ola

#endif
