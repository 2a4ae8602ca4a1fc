/* Handles of another kind, by a cast: each call returns WURST_NOT_OPEN, and nothing changes. */
#include "tests.h"

enum kind { CONTROLLER = 1, SESSION = 2, LOG = 3, AGENT = 4, KINDS = 4 };

/* One handle of each kind, which all have one layout. */
static struct wurst_controller controller;
static struct wurst_session session;
static struct wurst_log pages;
static struct wurst_agent agent;
static const struct wurst_start begin = {UINT64_C(0x7a7000000001), 1000, WURST_FULL_DISCOVERY, WURST_STEADY, 250};

static void *handle_of(enum kind kind) {
    void *const handles[] = {NULL, &controller, &session, &pages, &agent};
    return handles[kind];
}

/* What a call may write. Before each call it is full of one byte. */
static struct {
    uint8_t client, buffer[257];
    bool answer;
    uint32_t kind, operation;
    uint64_t number, corrupt, uids[WURST_MOST_BAD_UIDS];
    size_t len;
    struct wurst_completion completion;
    struct wurst_end end;
    struct wurst_entry entry;
    struct wurst_device devices[2];
} out;

static struct wurst_log closed_log;

#define FRAME out.buffer, sizeof out.buffer, &out.len

/* Both kinds that have a queue have these calls. */
#define QUEUE_CALLS(name) \
    switch (call) { \
    case 0: return wurst_##name##_join(h, 1, &out.client); \
    case 1: return wurst_##name##_submit(h, 0, &device_info, no_bytes, 0, &out.number); \
    case 2: return wurst_##name##_discover(h, 0, WURST_FULL_DISCOVERY, &out.number); \
    case 3: return wurst_##name##_pause(h); \
    case 4: return wurst_##name##_resume(h); \
    case 5: return wurst_##name##_close(h); \
    case 6: return wurst_##name##_take(h, FRAME); \
    case 7: return wurst_##name##_deliver(h, no_bytes, 0); \
    case 8: return wurst_##name##_fail(h); \
    case 9: return wurst_##name##_oldest(h, 0, &out.kind); \
    case 10: return wurst_##name##_next_completion(h, 0, &out.completion, out.buffer, sizeof out.buffer); \
    case 11: return wurst_##name##_next_discovery(h, 0, &out.end, out.devices, 2); \
    case 12: return wurst_##name##_devices(h, out.devices, 2, &out.len); \
    case 13: return wurst_##name##_devices_run(h, &out.number); \
    case 14: return wurst_##name##_bad_uids(h, out.uids, WURST_MOST_BAD_UIDS, &out.len, &out.answer); \
    case 15: return wurst_##name##_bad_uids_run(h, &out.number); \
    case 16: return wurst_##name##_is_idle(h, &out.answer); \
    case 17: return wurst_##name##_is_paused(h, &out.answer); \
    case 18: return wurst_##name##_is_closed(h, &out.answer); \
    case 19: return wurst_##name##_awaits(h, &out.answer); \
    default: break; \
    }

static uint32_t call_controller(struct wurst_controller *h, int call) {
    QUEUE_CALLS(controller)
    return WURST_DONE;
}

static uint32_t call_session(struct wurst_session *h, int call) {
    QUEUE_CALLS(session)
    switch (call) {
    case 20: return wurst_session_free_entries(h, &out.len);
    case 21: return wurst_session_entry_count(h, &out.len);
    case 22: return wurst_session_entry(h, 0, &out.entry, out.buffer, sizeof out.buffer);
    case 23: return wurst_session_rotate(h, 50, &closed_log);
    case 24: return wurst_session_drain(h, 50, &closed_log, &out.number);
    default: return WURST_DONE;
    }
}

static uint32_t call_log(struct wurst_log *h, int call) {
    switch (call) {
    case 0: return wurst_log_entry_count(h, &out.len);
    case 1: return wurst_log_entry(h, 0, &out.entry, out.buffer, sizeof out.buffer);
    default: return WURST_DONE;
    }
}

static uint32_t call_agent(struct wurst_agent *h, int call) {
    switch (call) {
    case 0: return wurst_agent_next(h, &out.operation, FRAME);
    case 1: return wurst_agent_hear(h, no_bytes, 0);
    case 2: return wurst_agent_fail(h);
    case 3: return wurst_agent_stop(h);
    case 4: return wurst_agent_devices(h, out.devices, 2, &out.len);
    case 5: return wurst_agent_fault(h, &out.kind, &out.corrupt);
    case 6: return wurst_agent_frames(h, &out.number);
    case 7: return wurst_agent_bad_uids(h, out.uids, WURST_MOST_BAD_UIDS, &out.len, &out.answer);
    default: return WURST_DONE;
    }
}

static const int calls_of[] = {0, 20, 25, 2, 8};

static uint32_t call_as(enum kind kind, void *handle, int call) {
    switch (kind) {
    case CONTROLLER: return call_controller(handle, call);
    case SESSION: return call_session(handle, call);
    case LOG: return call_log(handle, call);
    default: return call_agent(handle, call);
    }
}

static void dispose_as(enum kind kind, void *handle) {
    switch (kind) {
    case CONTROLLER: wurst_controller_dispose(handle); break;
    case SESSION: wurst_session_dispose(handle); break;
    case LOG: wurst_log_dispose(handle); break;
    default: wurst_agent_dispose(handle); break;
    }
}

static void open_all(void) {
    uint64_t number;
    CHECK(wurst_controller_open(&controller, &setup) == WURST_DONE);
    CHECK(wurst_controller_join(&controller, 1, &out.client) == WURST_DONE);
    CHECK(wurst_session_open(&session, &setup, 50) == WURST_DONE);
    CHECK(wurst_session_join(&session, 1, &out.client) == WURST_DONE);
    CHECK(wurst_session_drain(&session, 50, &pages, &number) == WURST_DONE);
    CHECK(wurst_agent_start(&agent, &begin, &number, 0) == WURST_DONE);
    CHECK(controller.kind == CONTROLLER && session.kind == SESSION && pages.kind == LOG && agent.kind == AGENT);
}

/* What each handle holds, as far as a call shows it. */
static void nothing_changed(void) {
    uint64_t frames = 99;
    size_t count = 99;
    bool is_idle = false, is_paused = true;
    CHECK(wurst_controller_is_idle(&controller, &is_idle) == WURST_DONE && is_idle);
    CHECK(wurst_controller_is_paused(&controller, &is_paused) == WURST_DONE && !is_paused);
    CHECK(wurst_session_entry_count(&session, &count) == WURST_DONE && count == 0);
    CHECK(wurst_log_entry_count(&pages, &count) == WURST_DONE && count == 1);
    CHECK(wurst_agent_frames(&agent, &frames) == WURST_DONE && frames == 0);
}

/* Each call on an open handle of each other kind. */
static void refuses_other_kinds(void) {
    unsigned char before[sizeof controller], written[sizeof out], log_before[sizeof closed_log];
    for (int kind = CONTROLLER; kind <= KINDS; kind++) {
        for (int other = CONTROLLER; other <= KINDS; other++) {
            void *handle = handle_of((enum kind)other);
            for (int call = 0; kind != other && call < calls_of[kind]; call++) {
                memset(&out, 0x5a, sizeof out);
                out.answer = true;
                memcpy(before, handle, sizeof before);
                memcpy(written, &out, sizeof written);
                memcpy(log_before, &closed_log, sizeof log_before);
                CHECK(call_as((enum kind)kind, handle, call) == WURST_NOT_OPEN);
                CHECK(memcmp(before, handle, sizeof before) == 0);
                CHECK(memcmp(written, &out, sizeof written) == 0);
                CHECK(memcmp(log_before, &closed_log, sizeof log_before) == 0);
            }
        }
    }
    nothing_changed();
}

/* _open, _start and _dispose, and a handle of another kind in place of a log: also the session's own, passed twice. */
static void opens_and_disposes_of_none(void) {
    unsigned char before[sizeof controller];
    uint64_t number = 99;
    for (int other = CONTROLLER; other <= KINDS; other++) {
        void *handle = handle_of((enum kind)other);
        memcpy(before, handle, sizeof before);
        CHECK(wurst_controller_open(handle, &setup) == WURST_ALREADY_OPEN);
        CHECK(wurst_session_open(handle, &setup, 50) == WURST_ALREADY_OPEN);
        CHECK(wurst_session_open_without_log(handle, &setup) == WURST_ALREADY_OPEN);
        CHECK(wurst_agent_start(handle, &begin, &number, 0) == WURST_ALREADY_OPEN);
        for (int kind = CONTROLLER; kind <= KINDS; kind++) {
            if (kind != other) {
                dispose_as((enum kind)kind, handle);
            }
        }
        CHECK(wurst_session_rotate(&session, 50, handle) == WURST_ALREADY_OPEN);
        if (other != LOG) {
            CHECK(wurst_session_drain(&session, 50, handle, &number) == WURST_NOT_OPEN && number == 99);
        }
        CHECK(memcmp(before, handle, sizeof before) == 0);
    }
    nothing_changed();
}

int main(void) {
    open_all();
    refuses_other_kinds();
    opens_and_disposes_of_none();
    for (int kind = CONTROLLER; kind <= KINDS; kind++) {
        struct wurst_controller *handle = handle_of((enum kind)kind);
        dispose_as((enum kind)kind, handle);
        CHECK(!handle->is_open);
    }
    return report();
}
