// Discovers the fixtures of a line that is simulated here, twice: by a controller, and by an agent.
#include <cstdio>
#include <map>
#include <optional>
#include <vector>
#include <wurstlinen.hpp>

namespace {

using wurst::Bytes;
using wurst::Uid;

// Fixtures, and whether each is muted.
class Line {
public:
    explicit Line(std::initializer_list<Uid> uids) {
        for (Uid uid : uids) {
            muted_[uid] = false;
        }
    }

    // The reply to a frame; no bytes are silence.
    std::optional<std::vector<std::uint8_t>> exchange(Bytes frame) {
        wurst_command asked{};
        std::uint8_t param[WURST_MOST_PARAMETER_BYTES];
        std::vector<std::uint8_t> reply;
        if (wurst_command_read(frame.data, frame.size, &asked, param, sizeof param) != WURST_DONE) {
            return reply;
        }
        for (auto &[uid, muted] : muted_) {
            if (asked.kind == WURST_UNMUTE) {
                muted = false;
            } else if (asked.kind == WURST_MUTE && asked.target == uid.number()) {
                muted = true;
                acknowledge(uid, asked, reply);
            } else if (asked.kind == WURST_BRANCH && !muted && asked.lo <= uid.number() && uid.number() <= asked.hi) {
                add(uid, reply);
            }
        }
        return reply;
    }

private:
    static void acknowledge(Uid uid, const wurst_command &asked, std::vector<std::uint8_t> &reply) {
        const wurst_device device = wurst::Device{uid, 0, std::nullopt}.form();
        std::size_t len = 0;
        reply.resize(WURST_MOST_FRAME_BYTES);
        wurst::check(wurst_mute_ack_write(&device, asked.source, asked.tn, reply.data(), reply.size(), &len));
        reply.resize(len);
    }

    // Several replies at once overlap.
    static void add(Uid uid, std::vector<std::uint8_t> &reply) {
        std::uint8_t one[WURST_BRANCH_REPLY_BYTES];
        std::size_t len = 0;
        wurst::check(wurst_branch_reply_write(uid.number(), 7, one, sizeof one, &len));
        reply.resize(len);
        for (std::size_t i = 0; i < len; i++) {
            reply[i] |= one[i];
        }
    }

    std::map<Uid, bool> muted_;
};

void print(const char *who, const std::vector<wurst::Device> &devices) {
    std::printf("%s:", who);
    for (const auto &device : devices) {
        std::printf(" %s", device.uid.text().c_str());
    }
    std::printf("\n");
}

} // namespace

int main() {
    try {
        const Uid source = Uid::parse("7a70:00000100");
        Line line{Uid(0x1234, 1), Uid(0x1234, 2), Uid(0x4321, 0xfffffffe)};

        wurst::Controller queue(source);
        const auto client = queue.join(4);
        queue.discover(client);
        queue.run([&](Bytes frame) { return line.exchange(frame); });
        const auto found = queue.next_discovery(client);
        print("controller", found->devices);

        wurst::Agent agent(source);
        while (const auto asked = agent.next()) {
            agent.hear(*line.exchange(asked->second));
        }
        print("agent", agent.devices());
        return agent.fault() == WURST_NO_FAULT && found->fault() == WURST_NO_FAULT ? 0 : 1;
    } catch (const wurst::Fault &fault) {
        std::fprintf(stderr, "%s\n", fault.what());
        return 1;
    }
}
