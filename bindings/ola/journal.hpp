// Messages through OLA's logging, the records of the log, and the log of runs.
#pragma once
#include "settings.hpp"
#include <ola/rdm/UID.h>
#include <exception>
#include <initializer_list>
#include <sstream>
#include <string>
#include <string_view>
#include <vector>

namespace stand_in {

enum class Level { Inform, Warn };

void write_message(std::string_view adapter, Level level, const std::string &text);

// Gives a message about an adapter, or about something else with a name, to OLA's logging. False: it can't be given
// now, for instance since there is no memory.
template <typename... Parts> bool tell(std::string_view adapter, Level level, const Parts &...parts) noexcept {
    try {
        std::ostringstream text;
        (text << ... << parts);
        write_message(adapter, level, text.str());
        return true;
    } catch (...) {
        return false;
    }
}

// The log's keys and values. No text has a character that JSON escapes.
std::string json(const std::string &text);
std::string json(std::uint64_t number);
std::string json(const ola::rdm::UID &uid);
std::string json(wurst::Bytes bytes);
std::string json(const std::vector<wurst::Device> &devices);
std::string json(wurst::Devices devices);
void write_record(unsigned int controller, std::initializer_list<std::string> fields);
// Counts a record or a run that there is no memory for.
void lose_record() noexcept;
void lose_run() noexcept;

// The microseconds since 1970, by the clock, which may be set.
std::uint64_t clock_time();

// What each line of the log begins with: the time of the clock, and the time since the system's start, which only goes
// forward.
std::string stamp();

// Adds a line to the log, if there is one: a JSON object with these keys and values, one after the other. It doesn't
// wait for the file. If there is no memory, the line is lost.
template <typename... Fields> void record(unsigned int controller, const Fields &...fields) noexcept {
    try {
        if (!settings().log.empty()) {
            write_record(controller, {json(fields)...});
        }
    } catch (const std::exception &) {
        lose_record();
    }
}

// Adds lines to the log of runs, all of them or none. It doesn't wait for the file.
void write_run(const std::string &lines);
} // namespace stand_in
