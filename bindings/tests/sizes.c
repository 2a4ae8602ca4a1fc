/* No clause can say that a call runs out of memory only if there is none. So each call that may is made with each size,
 * depth, length and budget up to 300, and around each power of two and each limit above, and there is memory enough. */
#include "tests.h"
#include <inttypes.h>

/* More bytes, or known devices, than any call takes. */
#define MOST_TRIED 70000

static uint8_t frame[WURST_MOST_FRAME_BYTES], reply[WURST_MOST_FRAME_BYTES], data[MOST_TRIED + 1];
static uint8_t joined[WURST_MOST_JOINED_BYTES];
static uint64_t known[MOST_TRIED + 1];
static size_t len;

static void one(uint64_t value, void (*tried)(uint64_t)) {
    const int failed = checks_failed;
    tried(value);
    if (checks_failed > failed) {
        printf("... with the value %" PRIu64 "\n", value);
    }
}

/* Tries a value and its two neighbours, as far as they are at most `most`. */
static void around(uint64_t value, uint64_t most, void (*tried)(uint64_t)) {
    for (int i = -1; i <= 1; i++) {
        const uint64_t near = value + (uint64_t)(int64_t)i;
        if (near <= most) {
            one(near, tried);
        }
    }
}

/* Tries the values from 0 to 300, those around the powers of two above, and those around the call's limit. None of them
 * is more than `most`, which is tried too. */
static void each(uint64_t most, uint64_t limit, void (*tried)(uint64_t)) {
    for (uint64_t value = 0; value <= 300 && value <= most; value++) {
        one(value, tried);
    }
    for (int power = 9; power < 64; power++) {
        around(UINT64_C(1) << power, most, tried);
    }
    around(limit, most, tried);
    one(most, tried);
}

#define QUEUE controller
#define HANDLE struct wurst_controller
#define OPEN(handle, setup) wurst_controller_open(handle, setup)
#include "sizes.h"
#undef QUEUE
#undef HANDLE
#undef OPEN

#define QUEUE session
#define HANDLE struct wurst_session
#define OPEN(handle, setup) wurst_session_open(handle, setup, 2000)
#include "sizes.h"
#undef QUEUE
#undef HANDLE
#undef OPEN

static void places_without_log(uint64_t places) {
    struct wurst_session queue = {0};
    struct wurst_setup tried = setup;
    tried.places = (uint16_t)places;
    const uint32_t wanted = places <= WURST_MOST_PLACES ? WURST_DONE : WURST_TOO_MANY_PLACES;
    CHECK(wurst_session_open_without_log(&queue, &tried) == wanted);
    wurst_session_dispose(&queue);
}

static void budget_without_log(uint64_t budget) {
    struct wurst_session queue = {0};
    struct wurst_setup tried = setup;
    tried.budget = budget;
    CHECK(wurst_session_open_without_log(&queue, &tried) == (budget > 0 ? WURST_DONE : WURST_NO_BUDGET));
    wurst_session_dispose(&queue);
}

static uint32_t status_of_entries(uint64_t entries) {
    return entries <= WURST_MOST_ENTRIES ? WURST_DONE : WURST_TOO_MANY_ENTRIES;
}

static void entries_of_a_session(uint64_t entries) {
    struct wurst_session queue = {0};
    CHECK(wurst_session_open(&queue, &setup, entries) == status_of_entries(entries));
    wurst_session_dispose(&queue);
}

static void entries_of_a_rotation(uint64_t entries) {
    struct wurst_session queue = {0};
    struct wurst_log log = {0};
    CHECK(wurst_session_open(&queue, &setup, 10) == WURST_DONE);
    const uint32_t status = wurst_session_rotate(&queue, entries, &log);
    CHECK(status == (entries < WURST_LEAST_FREE ? WURST_LOG_FULL : status_of_entries(entries)));
    wurst_session_dispose(&queue);
    wurst_log_dispose(&log);
}

/* Drains an idle session, and then one in which a request waits for its reply, into the memory that was handed out. */
static void entries_of_a_drain(uint64_t entries) {
    struct wurst_session queue = {0};
    struct wurst_log log = {0};
    uint8_t client;
    uint64_t number, first;
    CHECK(wurst_session_open(&queue, &setup, 10) == WURST_DONE);
    const uint32_t status = wurst_session_drain(&queue, entries, &log, &first);
    CHECK(status == status_of_entries(entries));
    if (status == WURST_DONE && entries > 10) {
        CHECK(wurst_session_join(&queue, 10, &client) == WURST_DONE);
        CHECK(wurst_session_submit(&queue, client, &device_info, no_bytes, 0, &number) == WURST_DONE);
        CHECK(wurst_session_take(&queue, frame, sizeof frame, &len) == WURST_DONE);
        CHECK(wurst_session_drain(&queue, entries, &log, &first) == WURST_DONE);
    }
    wurst_session_dispose(&queue);
    wurst_log_dispose(&log);
}

static void to_start(struct wurst_start start, size_t count, uint32_t wanted) {
    for (int i = 0; i < 4; i++) {
        struct wurst_agent agent = {0};
        start.search = i % 2 == 0 ? WURST_STEADY : WURST_QUICK;
        start.kind = i < 2 ? WURST_FULL_DISCOVERY : WURST_INCREMENTAL;
        CHECK(wurst_agent_start(&agent, &start, known, count) == wanted);
        wurst_agent_dispose(&agent);
    }
}

static void known_devices(uint64_t count) {
    const struct wurst_start start = {setup.source, 1000, WURST_INCREMENTAL, WURST_STEADY, 0};
    to_start(start, count, count <= WURST_MOST_DEVICES ? WURST_DONE : WURST_TOO_MANY_DEVICES);
}

static void budget_of_a_run(uint64_t budget) {
    const struct wurst_start start = {setup.source, budget, WURST_INCREMENTAL, WURST_STEADY, 0};
    to_start(start, 1, WURST_DONE);
}

int main(void) {
    for (uint64_t i = 0; i <= MOST_TRIED; i++) {
        known[i] = UINT64_C(0x123400000000) + i;
    }
    tries_controller_all();
    tries_session_all();
    each(UINT16_MAX, WURST_MOST_PLACES, places_without_log);
    each(UINT64_MAX, WURST_DEFAULT_BUDGET, budget_without_log);
    each(SIZE_MAX, WURST_MOST_ENTRIES, entries_of_a_session);
    each(SIZE_MAX, WURST_MOST_ENTRIES, entries_of_a_rotation);
    each(SIZE_MAX, WURST_MOST_ENTRIES, entries_of_a_drain);
    each(MOST_TRIED, WURST_MOST_DEVICES, known_devices);
    each(UINT64_MAX, WURST_DEFAULT_BUDGET, budget_of_a_run);
    return report();
}
