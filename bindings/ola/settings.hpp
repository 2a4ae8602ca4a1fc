// The settings of a process, from its environment.
#pragma once
#include <wurstlinen.hpp>
#include <string>

namespace stand_in {

struct Settings {
    bool is_proved_discovery = true;             // WURSTLINEN_DISCOVERY: proved, or adapter for the adapters' own
    wurst_search search = WURST_QUICK;           // WURSTLINEN_SEARCH: quick or steady
    std::uint64_t budget = WURST_DEFAULT_BUDGET; // WURSTLINEN_BUDGET: frames that a discovery may take, from 1
    std::uint64_t seconds = 0;                   // WURSTLINEN_SECONDS: that a discovery may take; 0: no limit
    std::string log;                             // WURSTLINEN_LOG: the path of a file to add to; empty: none
    std::string runs;                            // WURSTLINEN_RUNS: the same for the log of runs
    std::uint64_t log_bytes = 100000000;         // WURSTLINEN_LOG_MB: that each may have, in bytes; 0: no limit
};

// Reads the environment. A value that can't be used is reported, and the default is used.
Settings read_settings();

// Those of this process, read once.
const Settings &settings();
} // namespace stand_in
