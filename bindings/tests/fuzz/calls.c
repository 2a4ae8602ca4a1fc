/* libFuzzer over all calls of the C library, in any order, with allocations that fail. An input is a program: one byte
 * chooses a call, and the next ones its arguments. Each buffer has exactly the size that the call gets. At the end
 * each handle is disposed of, and no block is left. The library isn't instrumented: which status follows on which is
 * what counts as coverage. */
#include <stdbool.h>
#include <stdint.h>
#include <stdlib.h>
#include <string.h>
#include <wurstlinen.h>

#define MOST_BYTES 300
#define MOST_FORMS 64
#define COUNTERS 65536

__attribute__((section("__libfuzzer_extra_counters"))) static uint8_t counters[COUNTERS];

/* The heap of the library: how many blocks there are, and after how many allocations one fails; 0: none. */
static size_t blocks = 0;
static unsigned failing = 0;

struct block {
    bool is_there;
    uint8_t *at;
};

static struct block given(void *at) {
    static uint8_t none;
    struct block block = {at != NULL, at != NULL ? at : &none};
    return block;
}

static bool fails(void) { return failing > 0 && --failing == 0; }

struct block rattle_alloc(size_t size, size_t align) {
    void *const at = fails() ? NULL : malloc(size > 0 ? size : align);
    blocks += at != NULL;
    return given(at);
}

struct block rattle_realloc(uint8_t *at, size_t old_size, size_t size, size_t align) {
    (void)old_size;
    return given(fails() ? NULL : realloc(at, size > 0 ? size : align));
}

void rattle_dealloc(uint8_t *at) {
    blocks--;
    free(at);
}

/* What is left of the input. */
static const uint8_t *input;
static size_t left;

static uint8_t byte(void) {
    if (left == 0) {
        return 0;
    }
    left--;
    return *input++;
}

/* UIDs that meet again, bounds, and any number. */
static uint64_t number(void) {
    static const uint64_t known[] = {UINT64_C(0x123400000001), UINT64_C(0x123400000002), UINT64_C(0x7a7000000001),
                                     WURST_BROADCAST, 0, UINT64_MAX};
    const uint8_t choice = byte();
    uint64_t raw = choice;
    if (choice < sizeof known / sizeof known[0]) {
        return known[choice];
    }
    for (int i = 0; choice >= 0xf0 && i < 7; i++) {
        raw = raw << 8 | byte();
    }
    return raw;
}

static uint32_t small(void) {
    const uint8_t choice = byte();
    return choice < 250 ? choice % 5 : choice * UINT32_C(0x01010101);
}

/* Memory of exactly this size, which is freed after the call. */
static void *owned[8];
static unsigned owns = 0;

static void *memory(size_t size) {
    owned[owns] = malloc(size > 0 ? size : 1);
    return owned[owns++];
}

static size_t room(size_t enough) {
    const uint8_t choice = byte();
    return choice < 240 ? enough : choice % 16;
}

static const uint8_t *bytes(size_t *len) {
    const size_t wanted = byte() + (byte() > 250 ? MOST_BYTES - 255u : 0u);
    uint8_t *const made = memory(wanted);
    *len = wanted;
    for (size_t i = 0; i < wanted; i++) {
        made[i] = byte();
    }
    return made;
}

/* What calls write into. */
static uint64_t numbers[2];
static uint32_t words[1];
static uint8_t client;
static size_t count;
static bool flag;
static struct wurst_completion completion;
static struct wurst_end end;
static struct wurst_entry entry;
static struct wurst_response response;
static struct wurst_command command;
static struct wurst_mute_ack ack;

static struct wurst_request request(void) {
    const struct wurst_request made = {number(), small(), (uint16_t)small(), (uint16_t)(byte() << 8 | byte())};
    return made;
}

static struct wurst_setup setup(void) {
    const struct wurst_setup made = {number(), number(), small(), (uint16_t)(byte() << 4)};
    return made;
}

/* The reply of the devices 1234:00000001 and 1234:00000002 to a frame, or another one. */
static size_t reply_to(const uint8_t *frame, size_t len, uint8_t *reply) {
    static const uint8_t data[WURST_MOST_PARAMETER_BYTES] = {0, 5};
    uint8_t param[WURST_MOST_PARAMETER_BYTES];
    struct wurst_device device = {number(), 0, 4, false};
    size_t size = 0;
    if (wurst_command_read(frame, len, &command, param, sizeof param) != WURST_DONE) {
        abort();
    }
    if (command.kind == WURST_BRANCH) {
        wurst_branch_reply_write(device.uid, byte() % 8, reply, MOST_BYTES, &size);
    } else if (command.kind == WURST_MUTE) {
        device.uid = command.target;
        wurst_mute_ack_write(&device, command.source, command.tn, reply, MOST_BYTES, &size);
    } else if (command.kind == WURST_REQUEST) {
        const struct wurst_response made = {command.target, command.source, 0, small() % 4, command.command_class + 1,
                                            command.sub_device, command.pid, command.tn, 0};
        wurst_response_write(&made, data, byte() % sizeof data, reply, MOST_BYTES, &size);
    }
    if (byte() > 240 && size > 0) {
        reply[byte() % size] ^= byte();
    }
    return size;
}

/* The calls that controllers and sessions have in common, and an exchange with those devices. */
#define QUEUE(KIND)                                                                                                    \
    static uint32_t KIND##_outcome(struct wurst_##KIND *handle, uint8_t call) {                                        \
        const size_t forms = room(MOST_FORMS), size = room(WURST_MOST_JOINED_BYTES);                                   \
        switch (call) {                                                                                                \
        case 0: return wurst_##KIND##_oldest(handle, byte() % 3, words);                                               \
        case 1: return wurst_##KIND##_next_completion(handle, byte() % 3, &completion, memory(size), size);            \
        case 2: return wurst_##KIND##_next_discovery(handle, byte() % 3, &end,                                         \
                                                     memory(forms * sizeof(struct wurst_device)), forms);              \
        case 3:                                                                                                        \
            /* The inputs that were found have no other number for these calls. */                                     \
            if (forms % 2 == 1) {                                                                                      \
                return wurst_##KIND##_bad_uids(handle, memory(forms * sizeof *numbers), forms, &count, &flag);         \
            }                                                                                                          \
            return wurst_##KIND##_devices(handle, memory(forms * sizeof(struct wurst_device)), forms, &count);         \
        case 4: return (forms % 2 == 1 ? wurst_##KIND##_bad_uids_run : wurst_##KIND##_devices_run)(handle, numbers);   \
        case 5: return wurst_##KIND##_is_idle(handle, &flag);                                                          \
        case 6: return wurst_##KIND##_is_paused(handle, &flag);                                                        \
        case 7: return wurst_##KIND##_is_closed(handle, &flag);                                                        \
        default: return wurst_##KIND##_awaits(handle, &flag);                                                          \
        }                                                                                                              \
    }                                                                                                                  \
    static uint32_t KIND##_exchange(struct wurst_##KIND *handle) {                                                     \
        uint8_t frame[WURST_MOST_FRAME_BYTES], reply[MOST_BYTES];                                                      \
        size_t len = 0;                                                                                                \
        const uint32_t taken = wurst_##KIND##_take(handle, frame, sizeof frame, &len);                                 \
        if (taken != WURST_DONE) {                                                                                     \
            return taken;                                                                                              \
        }                                                                                                              \
        len = reply_to(frame, len, reply);                                                                             \
        return wurst_##KIND##_deliver(handle, reply, byte() > 200 ? 0 : len);                                          \
    }                                                                                                                  \
    static uint32_t KIND##_call(struct wurst_##KIND *handle, uint8_t call) {                                           \
        size_t len = 0;                                                                                                \
        const struct wurst_request asked = request();                                                                  \
        const uint8_t *const given_bytes = call == 2 || call == 8 ? bytes(&len) : NULL;                                \
        const size_t size = room(WURST_MOST_FRAME_BYTES);                                                              \
        switch (call) {                                                                                                \
        case 0: wurst_##KIND##_dispose(handle); return WURST_DONE;                                                     \
        case 1: return wurst_##KIND##_join(handle, byte(), &client);                                                   \
        case 2: return wurst_##KIND##_submit(handle, byte() % 3, &asked, given_bytes, len, numbers);                   \
        case 3: return wurst_##KIND##_discover(handle, byte() % 3, small(), numbers);                                  \
        case 4: return wurst_##KIND##_pause(handle);                                                                   \
        case 5: return wurst_##KIND##_resume(handle);                                                                  \
        case 6: return wurst_##KIND##_close(handle);                                                                   \
        case 7: return wurst_##KIND##_take(handle, memory(size), size, &count);                                        \
        case 8: return wurst_##KIND##_deliver(handle, given_bytes, len);                                               \
        case 9: return wurst_##KIND##_fail(handle);                                                                    \
        case 10: return KIND##_exchange(handle);                                                                       \
        default: return KIND##_outcome(handle, call - 11);                                                             \
        }                                                                                                              \
    }

QUEUE(controller)
QUEUE(session)

static struct wurst_controller controllers[2];
static struct wurst_session sessions[2];
static struct wurst_log logs[2];
static struct wurst_agent agents[2];

static uint32_t log_call(uint8_t call) {
    struct wurst_session *const session = &sessions[byte() % 2];
    struct wurst_log *const log = &logs[byte() % 2];
    const struct wurst_setup made = setup();
    const size_t entries = byte() * (byte() > 250 ? 10000u : 1u), size = room(WURST_MOST_FRAME_BYTES);
    switch (call) {
    case 0:
        return size % 2 == 0 ? wurst_session_open_without_log(session, &made)
                             : wurst_session_open(session, &made, entries);
    case 1: return wurst_session_free_entries(session, &count);
    case 2: return wurst_session_entry_count(session, &count);
    case 3: return wurst_session_entry(session, entries, &entry, memory(size), size);
    case 4: return wurst_session_rotate(session, entries, log);
    case 5: return wurst_session_drain(session, entries, log, numbers);
    case 6: return wurst_log_entry_count(log, &count);
    case 7: return wurst_log_entry(log, entries, &entry, memory(size), size);
    case 8: wurst_log_dispose(log); return WURST_DONE;
    case 9: return wurst_controller_open(&controllers[byte() % 2], &made);
    default: failing = byte(); return WURST_DONE;
    }
}

static uint32_t agent_call(uint8_t call) {
    struct wurst_agent *const agent = &agents[byte() % 2];
    const struct wurst_start start = {number(), number(), small(), small(), byte()};
    const uint64_t known[] = {number(), number()};
    const size_t forms = room(MOST_FORMS), size = room(WURST_MOST_FRAME_BYTES);
    uint8_t frame[WURST_MOST_FRAME_BYTES], reply[MOST_BYTES];
    switch (call) {
    case 0: return wurst_agent_start(agent, &start, known, byte() % 3);
    case 1: return wurst_agent_next(agent, words, memory(size), size, &count);
    case 2: return wurst_agent_fail(agent);
    case 3: return wurst_agent_stop(agent);
    case 4:
        if (forms % 2 == 1) {
            return wurst_agent_bad_uids(agent, memory(forms * sizeof *numbers), forms, &count, &flag);
        }
        return wurst_agent_devices(agent, memory(forms * sizeof(struct wurst_device)), forms, &count);
    case 5: return wurst_agent_fault(agent, words, numbers);
    case 6: return wurst_agent_frames(agent, numbers);
    case 7: wurst_agent_dispose(agent); return WURST_DONE;
    default:
        if (wurst_agent_next(agent, words, frame, sizeof frame, &count) != WURST_DONE) {
            return wurst_agent_hear(agent, reply, 0);
        }
        return wurst_agent_hear(agent, reply, byte() > 200 ? 0 : reply_to(frame, count, reply));
    }
}

static uint32_t reader_call(uint8_t call) {
    size_t len = 0;
    const uint8_t *const text = bytes(&len);
    const size_t size = room(WURST_MOST_PARAMETER_BYTES);
    uint8_t *const param = memory(size);
    switch (call) {
    case 0: return wurst_uid_read(text, len, numbers);
    case 1: return wurst_branch_reply_read(text, len, words, numbers);
    case 2: return wurst_response_read(text, len, &response, param, size);
    case 3: return wurst_mute_ack_read(number(), number(), byte(), text, len, &ack);
    case 4: return wurst_command_read(text, len, &command, param, size);
    default: return wurst_version() == WURST_VERSION ? WURST_DONE : UINT32_MAX;
    }
}

static uint32_t writer_call(uint8_t call) {
    size_t len = 0;
    const size_t size = room(WURST_MOST_FRAME_BYTES);
    uint8_t *const frame = memory(size);
    const uint8_t *const data = bytes(&len);
    const struct wurst_request asked = request();
    const struct wurst_response made = {number(), number(), 0, small(), small(), 0, 0x60, byte(), byte()};
    const struct wurst_device device = {number(), number(), 4, byte() % 2 == 1};
    switch (call) {
    case 0: return wurst_uid_write(number(), frame, size);
    case 1: return wurst_branch_reply_write(number(), byte(), frame, size, &count);
    case 2: return wurst_request_write(&asked, data, len, number(), byte(), frame, size, &count);
    case 3: return wurst_unmute_write(number(), byte(), frame, size, &count);
    case 4: return wurst_mute_write(number(), number(), byte(), frame, size, &count);
    case 5: return wurst_branch_write(number(), number(), number(), byte(), frame, size, &count);
    case 6: return wurst_response_write(&made, data, len, frame, size, &count);
    default: return wurst_mute_ack_write(&device, number(), byte(), frame, size, &count);
    }
}

static uint32_t any_call(uint8_t call) {
    if (call < 80) {
        return controller_call(&controllers[call / 40], call % 20);
    }
    if (call < 160) {
        return session_call(&sessions[call / 40 % 2], call % 20);
    }
    if (call < 190) {
        return log_call(call % 11);
    }
    if (call < 220) {
        return agent_call(call % 9);
    }
    return call < 236 ? reader_call(call % 6) : writer_call(call % 8);
}

static void dispose_all(void) {
    for (int i = 0; i < 2; i++) {
        wurst_controller_dispose(&controllers[i]);
        wurst_session_dispose(&sessions[i]);
        wurst_log_dispose(&logs[i]);
        wurst_agent_dispose(&agents[i]);
    }
}

int LLVMFuzzerTestOneInput(const uint8_t *data, size_t size) {
    uint32_t before = 0;
    input = data;
    left = size;
    failing = 0;
    while (left > 0) {
        const uint8_t call = byte();
        const uint32_t status = any_call(call);
        while (owns > 0) {
            free(owned[--owns]);
        }
        if (strcmp(wurst_text(status), "no such status") == 0) {
            abort();
        }
        counters[(before * 257 + call * 64 + status) % COUNTERS]++;
        before = call * 64 + status;
    }
    dispose_all();
    if (blocks != 0) {
        abort();
    }
    return 0;
}
