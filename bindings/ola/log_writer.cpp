#include "log_writer.hpp"
#include "journal.hpp"
#include <csignal>
#include <exception>
#include <initializer_list>
#include <new>
#include <string_view>
#include <utility>

namespace stand_in {

constexpr std::chrono::milliseconds BETWEEN_LOOKS{1};
constexpr std::chrono::minutes BETWEEN_MESSAGES{1};
// Ends a run in the queue, and isn't written. No line has it.
constexpr char END_OF_RUN = '\0';

static const char *variable_of(Content content) {
    return content == Content::Records ? "WURSTLINEN_LOG" : "WURSTLINEN_RUNS";
}

LogWriter::State::State(const Options &options)
    : setting(variable_of(options.content) + ('=' + options.name)), content(options.content),
      file(options.name, options.most_bytes, BETWEEN_MESSAGES, variable_of(options.content)) {
    queue.reserve(options.queue_bytes);
    taken.lines.reserve(options.queue_bytes);
}

LogWriter::LogWriter(Options options) : options_(std::move(options)), state_(new State(options_)) {}

LogWriter::~LogWriter() {
    {
        const std::lock_guard<std::mutex> locked(state_->guard);
        state_->is_ending = true;
    }
    state_->wake.notify_one();
    if (state_->thread.joinable()) {
        state_->thread.join();
    }
    delete state_;
}

// After a lost record all are lost until the thread has taken the queue, so they are missing in one place.
void LogWriter::add(const std::string &lines) {
    State &state = *state_;
    const std::size_t end = state.content == Content::Runs ? 1 : 0;
    const std::lock_guard<std::mutex> locked(state.guard);
    state.added++;
    if (!is_started(state) || state.lost > 0 || state.queue.size() + lines.size() + end > options_.queue_bytes) {
        state.lost++;
    } else {
        state.queue += lines;
        state.queue.append(end, END_OF_RUN);
    }
    state.wake.notify_one();
}

void LogWriter::lose() {
    State &state = *state_;
    const std::lock_guard<std::mutex> locked(state.guard);
    is_started(state);
    state.added++;
    state.lost++;
    state.wake.notify_one();
}

void LogWriter::flush(std::chrono::milliseconds most) const {
    const auto end = std::chrono::steady_clock::now() + most;
    const std::uint64_t wanted = state_->added;
    while (state_->done < wanted && std::chrono::steady_clock::now() < end) {
        std::this_thread::sleep_for(BETWEEN_LOOKS);
    }
}

// The old state stays allocated: it can't be destroyed, since its thread and perhaps its lock are the parent's.
void LogWriter::forget() { state_ = new State(options_); }

// All signals that don't come from a fault of the thread itself go to OLA's threads.
static sigset_t other_signals() {
    sigset_t all;
    sigfillset(&all);
    for (const int own : {SIGSEGV, SIGBUS, SIGFPE, SIGILL}) {
        sigdelset(&all, own);
    }
    return all;
}

// Starts the thread when it is first needed, since a daemon forks before.
bool LogWriter::is_started(State &state) {
    if (state.thread.joinable()) {
        return true;
    }
    const sigset_t blocked = other_signals();
    sigset_t before;
    pthread_sigmask(SIG_SETMASK, &blocked, &before);
    try {
        state.thread = std::thread([&state] { run(state); });
    } catch (const std::exception &fault) {
        if (!state.has_told) {
            state.has_told = true;
            tell(state.setting, Level::Warn, "no thread to write it: ", fault.what());
        }
    }
    pthread_sigmask(SIG_SETMASK, &before, nullptr);
    return state.thread.joinable();
}

static std::string lost_record(std::uint64_t lost) { return stamp() + ",\"lost\":" + json(lost) + "}\n"; }

// Adds a record, a run or nothing, when so many were lost before it. A log of runs has nothing else. `text` is used for
// that. False: the file can't be written now, or there is no memory, or the count of lost runs waits for the next one.
bool LogWriter::write(State &state, std::uint64_t lost, std::string_view lines, std::string &text) {
    const bool has_runs = state.content == Content::Runs;
    try {
        text = lost > 0 && !has_runs ? lost_record(lost) : "";
        text += lines;
        if (text.empty() || !state.file.add(text)) {
            return false;
        }
    } catch (const std::bad_alloc &) {
        return false;
    }
    if (lost > 0 && has_runs) {
        // If this can't be told, the run is written all the same.
        tell(state.setting, Level::Warn, "lost runs: ", lost);
    }
    return true;
}

// Adds what was taken, one by one. `lost` counts what couldn't be written since the last one that could.
void LogWriter::write_taken(State &state, std::uint64_t &lost, std::string &text) {
    const std::string_view all = state.taken.lines;
    const bool has_runs = state.content == Content::Runs;
    for (std::size_t at = 0; at < all.size();) {
        const std::size_t end = has_runs ? all.find(END_OF_RUN, at) : all.find('\n', at) + 1;
        lost = write(state, lost, all.substr(at, end - at), text) ? 0 : lost + 1;
        at = has_runs ? end + 1 : end;
    }
}

void LogWriter::run(State &state) {
    // OLA's threads may have a real-time policy, which the disk doesn't need.
    const sched_param none{};
    pthread_setschedparam(pthread_self(), SCHED_OTHER, &none);
    std::string text;
    std::uint64_t lost = 0;
    while (take(state)) {
        write_taken(state, lost, text);
        lost += state.taken.lost;
        if (lost > 0 && write(state, lost, "", text)) {
            lost = 0;
        }
        state.done += state.taken.count;
    }
}

// Waits for records or runs. False: there are none, and there won't be more.
bool LogWriter::take(State &state) {
    Taken &taken = state.taken;
    std::unique_lock<std::mutex> locked(state.guard);
    const auto has_lines = [&state] { return !state.queue.empty() || state.lost > 0; };
    state.wake.wait(locked, [&] { return has_lines() || state.is_ending; });
    if (!has_lines()) {
        return false;
    }
    taken.lines.clear();
    taken.lines.swap(state.queue);
    taken.lost = std::exchange(state.lost, 0);
    taken.count = state.added - state.done;
    return true;
}
} // namespace stand_in
