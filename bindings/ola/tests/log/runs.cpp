// The log of runs: the lines of `discover --log`, whose texts are those of the program (docs/FORMATS.md, the log as
// text; cases/logs.txt), with times, and whole runs in the file.
#include "../../log_writer.hpp"
#include "../../run_log.hpp"
#include "support.hpp"

namespace tests {
namespace {

using stand_in::Content;
using stand_in::LogWriter;
using stand_in::RunLog;
using stand_in::RunOpening;

using Bytes = std::vector<std::uint8_t>;

constexpr std::chrono::milliseconds SECONDS_10{10000};
constexpr std::size_t QUEUE_BYTES = 4096;
const wurst::Uid SOURCE{0x7a70, 0x00000100};

constexpr std::uint64_t NOW = 1796014800123456;
const std::string TIME = ",\"microseconds\":1796014800123456}\n";

// What the program writes, with times.
const std::string FULL = "{\"entry\":\"opening\",\"source\":\"7a70:00000100\",\"budget\":384008,"
                         "\"search\":\"steady\",\"discover\":\"full\",\"known\":[]}\n";
const std::string INCREMENTAL = "{\"entry\":\"opening\",\"source\":\"7a70:00000100\",\"budget\":1,"
                                "\"search\":\"quick\",\"discover\":\"incremental\","
                                "\"known\":[\"1234:00000001\",\"9abc:00000002\"]}\n";
const std::string UNMUTED = "{\"number\":0,\"operation\":\"unmute\","
                            "\"frame\":\"cc0118ffffffffffff7a700000010000010000001000030007de\",\"reply\":\"\"" + TIME;
const std::string FAILED = "{\"number\":1,\"operation\":\"unmute\","
                           "\"frame\":\"cc0118ffffffffffff7a700000010001010000001000030007df\",\"failed\":true" + TIME;

// The bytes of the frame in such a line.
Bytes frame_in(const std::string &line) {
    const std::string key = "\"frame\":\"";
    const std::size_t from = line.find(key) + key.size();
    Bytes bytes;
    for (std::size_t at = from; line[at] != '"'; at += 2) {
        bytes.push_back(static_cast<std::uint8_t>(std::stoul(line.substr(at, 2), nullptr, 16)));
    }
    return bytes;
}

// A line with another number.
std::string numbered(const std::string &line, unsigned int number) {
    const std::string start = "{\"number\":";
    return start + std::to_string(number) + line.substr(line.find(','));
}

// A log that gives its lines to `take`.
template <typename Take> RunLog log_of(Take take) {
    return RunLog(take, stand_in::lose_run, [] { return NOW; });
}

RunOpening full() { return {SOURCE, 384008, WURST_STEADY, WURST_FULL_DISCOVERY, {}}; }

void exchange(RunLog &log, const Bytes &frame, const Bytes &reply) {
    log.sent(frame);
    log.came(reply);
}

void test_texts() {
    std::string text;
    RunLog log = log_of([&](const std::string &lines) { text += lines; });
    log.begin(full());
    exchange(log, frame_in(UNMUTED), {});
    log.sent(frame_in(FAILED));
    log.failed();
    CHECK(text.empty());
    log.end();
    CHECK(text == FULL + UNMUTED + FAILED);
    text.clear();
    const wurst::Device first{wurst::Uid(0x1234, 1), 0, std::nullopt}, second{wurst::Uid(0x9abc, 2), 4, first.uid};
    log.begin({SOURCE, 1, WURST_QUICK, WURST_INCREMENTAL, {first, second}});
    exchange(log, frame_in(UNMUTED), {});
    log.end();
    CHECK(text == INCREMENTAL + UNMUTED);
}

// The operation is that of the PID, and all bytes are written.
void test_operations() {
    Bytes frame(38);
    std::string text;
    RunLog log = log_of([&](const std::string &lines) { text += lines; });
    log.begin(full());
    frame[22] = 1;
    exchange(log, frame, {0xfe, 0xaa, 0x0b});
    frame[22] = 2;
    exchange(log, frame, Bytes(257, 0xff));
    frame[22] = 3;
    exchange(log, frame, {});
    log.end();
    const auto line = [](unsigned int number, const std::string &operation, const std::string &pid,
                         const std::string &reply) {
        return "{\"number\":" + std::to_string(number) + ",\"operation\":\"" + operation + "\",\"frame\":\""
            + std::string(44, '0') + pid + std::string(30, '0') + "\",\"reply\":\"" + reply + '"' + TIME;
    };
    CHECK(text == FULL + line(0, "branch", "01", "feaa0b") + line(1, "mute", "02", std::string(514, 'f'))
                      + line(2, "unmute", "03", ""));
}

// Answers of requests' frames, and frames outside of a run, aren't part of it.
void test_other_answers() {
    std::string text;
    RunLog log = log_of([&](const std::string &lines) { text += lines; });
    exchange(log, frame_in(UNMUTED), {});
    log.end();
    log.begin(full());
    log.came({});
    log.failed();
    exchange(log, frame_in(UNMUTED), {});
    log.came({});
    log.failed();
    log.end();
    log.end();
    exchange(log, frame_in(UNMUTED), {});
    log.end();
    CHECK(text == FULL + UNMUTED);
}

// A frame without an answer isn't part of a run, and not of the next one either.
void test_unanswered() {
    std::string text;
    RunLog log = log_of([&](const std::string &lines) { text += lines; });
    log.begin(full());
    log.sent(frame_in(UNMUTED));
    log.end();
    log.begin(full());
    log.came({});
    exchange(log, frame_in(UNMUTED), {});
    log.end();
    CHECK(text == FULL + FULL + UNMUTED);
}

// A long run is written in parts. Each begins with the opening, and the numbers go on.
void test_parts() {
    std::vector<std::string> parts;
    RunLog log = log_of([&](const std::string &lines) { parts.push_back(lines); });
    log.begin(full());
    for (unsigned int i = 0; i < 60000; i++) {
        exchange(log, frame_in(UNMUTED), {});
    }
    log.end();
    CHECK(parts.size() > 1);
    std::string all;
    for (const auto &each : parts) {
        CHECK(each.size() <= 3 * 1024 * 1024 && each.compare(0, FULL.size(), FULL) == 0);
        all += each.substr(FULL.size());
    }
    std::string wanted;
    for (unsigned int i = 0; i < 60000; i++) {
        wanted += numbered(UNMUTED, i);
    }
    CHECK(all == wanted);
}

LogWriter::Options of_runs(const Folder &folder, std::uint64_t most_bytes = 0) {
    return {folder.path(), most_bytes, QUEUE_BYTES, Content::Runs};
}

// Runs that are lost leave nothing in the file, and are reported with the next one.
void test_lost_runs() {
    const Folder folder;
    LogWriter writer(of_runs(folder));
    const std::string run = FULL + UNMUTED + FAILED;
    forget_messages();
    disk.writes = 0;
    disk.is_stuck = true;
    writer.add(run);
    CHECK(becomes([] { return disk.writes > 0; }));
    const auto fitted = static_cast<unsigned int>(QUEUE_BYTES / (run.size() + 1));
    for (unsigned int i = 0; i < fitted + 3; i++) {
        writer.add(run);
    }
    disk.is_stuck = false;
    writer.flush(SECONDS_10);
    std::string wanted;
    for (unsigned int i = 0; i < fitted + 1; i++) {
        wanted += run;
    }
    CHECK(text_of(folder.path()) == wanted && messages().empty());
    writer.add(run);
    writer.flush(SECONDS_10);
    CHECK(text_of(folder.path()) == wanted + run && messages().size() == 1);
    CHECK(messages_with("wurstlinen: WURSTLINEN_RUNS=" + folder.path() + ": lost runs: 3") == 1);
}

// A disk that becomes full within a run keeps none of its lines.
void test_full_disk() {
    const std::string run = FULL + UNMUTED;
    for (long space = 0; space < static_cast<long>(run.size()); space += 7) {
        const Folder folder;
        LogWriter writer(of_runs(folder));
        forget_messages();
        writer.add(run);
        writer.flush(SECONDS_10);
        disk.space = space;
        writer.add(run);
        writer.flush(SECONDS_10);
        CHECK(text_of(folder.path()) == run && messages_with("WURSTLINEN_RUNS=") == 1 && messages_with("WARN ") == 1);
        disk.space = -1;
        writer.add(run);
        writer.flush(SECONDS_10);
        CHECK(text_of(folder.path()) == run + run && messages_with(": lost runs: 1") == 1);
    }
}

// A file that has reached its limit ends with a whole run.
void test_rotated_runs() {
    const Folder folder;
    const std::string run = FULL + UNMUTED + FAILED;
    {
        LogWriter writer(of_runs(folder, 2 * run.size() + 1));
        for (int i = 0; i < 5; i++) {
            writer.add(run);
            writer.flush(SECONDS_10);
        }
    }
    CHECK(text_of(folder.path() + ".1") == run + run && text_of(folder.path()) == run);
}

} // namespace

void test_runs() {
    test_texts();
    test_operations();
    test_other_answers();
    test_unanswered();
    test_parts();
    test_lost_runs();
    test_full_disk();
    test_rotated_runs();
}

} // namespace tests
