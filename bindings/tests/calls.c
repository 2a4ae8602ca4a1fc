/* Each call of the C library: worked examples, and refusals. */
#include "tests.h"

/* The sizes of the structs in the library, whose proof checks the same numbers. */
_Static_assert(sizeof(struct wurst_controller) == 16, "handles have 16 bytes");
_Static_assert(sizeof(struct wurst_session) == 16, "handles have 16 bytes");
_Static_assert(sizeof(struct wurst_log) == 16, "handles have 16 bytes");
_Static_assert(sizeof(struct wurst_agent) == 16, "handles have 16 bytes");
_Static_assert(sizeof(struct wurst_setup) == 24, "wurst_setup");
_Static_assert(sizeof(struct wurst_request) == 16, "wurst_request");
_Static_assert(sizeof(struct wurst_completion) == 40, "wurst_completion");
_Static_assert(sizeof(struct wurst_end) == 40, "wurst_end");
_Static_assert(sizeof(struct wurst_device) == 24, "wurst_device");
_Static_assert(sizeof(struct wurst_entry) == 88, "wurst_entry");
_Static_assert(sizeof(struct wurst_response) == 40, "wurst_response");
_Static_assert(sizeof(struct wurst_command) == 56, "wurst_command");
_Static_assert(sizeof(struct wurst_mute_ack) == 16, "wurst_mute_ack");
_Static_assert(sizeof(struct wurst_start) == 32, "wurst_start");

static uint8_t frame[WURST_MOST_FRAME_BYTES], reply[WURST_MOST_FRAME_BYTES + 1], buffer[WURST_MOST_JOINED_BYTES];
static struct wurst_device devices[WURST_MOST_DEVICES];
static struct wurst_completion done;
static struct wurst_end end;
static size_t len;
static uint64_t number, uids[WURST_MOST_BAD_UIDS];
static uint32_t kind;
static bool answered;

/* A line with one device: its reply to a frame. */
static size_t one_device(uint8_t *to_reply) {
    static const uint8_t control[2] = {0, 4};
    /* E1.20, discovery unique branch: 7 preamble bytes, the separator, 1234:00000007 and its sum, each byte as two. */
    static const char branch[] = "fefefefefefefe aa ba57 be75 aa55 aa55 aa55 af57 ae57 ef57";
    static bool muted;
    uint64_t lo = 0, hi = 0;
    if (frame[21] == 0 && frame[22] == 3) {
        muted = false;
    } else if (frame[22] == 2 && memcmp(frame + 3, "\x12\x34\x00\x00\x00\x07", 6) == 0) {
        muted = true;
        return answer(frame, 0, control, 2, to_reply);
    } else if (frame[22] == 1 && !muted) {
        for (int i = 0; i < 6; i++) {
            lo = lo << 8 | frame[24 + i];
            hi = hi << 8 | frame[30 + i];
        }
        if (lo <= device_info.target && device_info.target <= hi) {
            return bytes_of(branch, to_reply);
        }
    }
    return 0;
}

/* The same, but the device neither acknowledges a mute nor obeys it. */
static size_t one_bad_device(uint8_t *to_reply) {
    const bool is_mute = frame[21] == 0 && frame[22] == 2;
    return is_mute ? 0 : one_device(to_reply);
}

/* The calls that both kinds of queue have. */
#define QUEUE controller
#define HANDLE struct wurst_controller
#define OPEN(handle, setup) wurst_controller_open(handle, setup)
#include "queue.h"
#undef QUEUE
#undef HANDLE
#undef OPEN
#define QUEUE session
#define HANDLE struct wurst_session
#define OPEN(handle, setup) wurst_session_open(handle, setup, 10000)
#include "queue.h"
#undef QUEUE
#undef HANDLE
#undef OPEN

static void reads_and_writes_uids(void) {
    uint64_t uid = 5;
    uint8_t text[13];
    CHECK(wurst_uid_read((const uint8_t *)"7A70:0000000a", 13, &uid) == WURST_DONE);
    CHECK(uid == UINT64_C(0x7a700000000a));
    CHECK(wurst_uid_read((const uint8_t *)"7a70:0000000", 12, &uid) == WURST_UID_LENGTH);
    CHECK(wurst_uid_read((const uint8_t *)"7a70.00000001", 13, &uid) == WURST_UID_SEPARATOR);
    CHECK(wurst_uid_read((const uint8_t *)"7a70:0000000g", 13, &uid) == WURST_UID_DIGIT);
    CHECK(wurst_uid_read((const uint8_t *)"7a70:000000\xff\xff", 13, &uid) == WURST_NOT_TEXT);
    CHECK(uid == UINT64_C(0x7a700000000a));
    CHECK(wurst_uid_write(uid, text, sizeof text) == WURST_DONE && memcmp(text, "7a70:0000000a", 13) == 0);
    CHECK(wurst_uid_write(UINT64_C(0x7a70000000ab), text, 13) == WURST_DONE && memcmp(text, "7a70:000000ab", 13) == 0);
    CHECK(wurst_uid_write((UINT64_C(1) << 48) - 1, text, 13) == WURST_DONE && memcmp(text, "ffff:ffffffff", 13) == 0);
    CHECK(wurst_uid_read((const uint8_t *)"ffff:FFFFffff", 13, &uid) == WURST_DONE && uid == WURST_BROADCAST);
    CHECK(wurst_uid_read((const uint8_t *)"7A70:00000001", 13, &uid) == WURST_DONE && uid == UINT64_C(0x7a7000000001));
    CHECK(wurst_uid_write(uid, text, 12) == WURST_BUFFER_TOO_SMALL);
    CHECK(wurst_uid_write(UINT64_C(0x1000000000000), text, 13) == WURST_BAD_UID);
}

static void reads_and_writes_branch_replies(void) {
    static const char text[] = "fefefefefefefe aa ba57 be75 aa55 aa55 aa55 af57 ae57 ef57";
    uint64_t uid = 0;
    len = bytes_of(text, buffer);
    CHECK(wurst_branch_reply_read(buffer, len, &kind, &uid) == WURST_DONE);
    CHECK(kind == WURST_ONE && uid == device_info.target);
    CHECK(wurst_branch_reply_read(buffer, 0, &kind, &uid) == WURST_DONE && kind == WURST_SILENT);
    CHECK(wurst_branch_reply_read(buffer + 9, len - 9, &kind, &uid) == WURST_DONE && kind == WURST_COLLISION);
    CHECK(wurst_branch_reply_write(uid, 7, reply, 24, &len) == WURST_DONE && is_same(reply, len, text));
    CHECK(wurst_branch_reply_write(uid, 0, reply, 24, &len) == WURST_DONE && is_same(reply, len, text + 15));
    CHECK(wurst_branch_reply_write(UINT64_C(0x7a70ffffffff), 0, reply, 24, &len) == WURST_DONE);
    CHECK(is_same(reply, len, "aafa7ffa75ffffffffffffffffaa5feaf5"));
    CHECK(wurst_branch_reply_write(uid, 8, reply, 24, &len) == WURST_BAD_PREAMBLE);
    CHECK(wurst_branch_reply_write(uid, 7, reply, 23, &len) == WURST_BUFFER_TOO_SMALL);
    CHECK(wurst_branch_reply_write(UINT64_C(0x1000000000000), 7, reply, 24, &len) == WURST_BAD_UID);
}

static void writes_commands(void) {
    const uint64_t source = setup.source, uid = device_info.target, far = UINT64_C(0x1000000000000);
    CHECK(wurst_request_write(&device_info, no_bytes, 0, source, 0, frame, 257, &len) == WURST_DONE);
    CHECK(is_same(frame, len, "cc0118 123400000007 7a7000000001 00 01 00 0000 20 0060 00 029e"));
    CHECK(wurst_request_write(&device_info, buffer, 231, source, 0, frame, 257, &len) == WURST_DONE && len == 257);
    CHECK(wurst_request_write(&device_info, no_bytes, 0, far, 0, frame, 257, &len) == WURST_BAD_UID);
    CHECK(wurst_request_write(&device_info, no_bytes, 0, source, 0, frame, 256, &len) == WURST_BUFFER_TOO_SMALL);
    CHECK(wurst_unmute_write(source, 1, frame, 257, &len) == WURST_DONE);
    CHECK(is_same(frame, len, "cc0118 ffffffffffff 7a7000000001 01 01 00 0000 10 0003 00 07df"));
    CHECK(wurst_unmute_write(far, 1, frame, 257, &len) == WURST_BAD_UID);
    CHECK(wurst_mute_write(uid, source, 2, frame, 257, &len) == WURST_DONE);
    CHECK(is_same(frame, len, "cc0118 123400000007 7a7000000001 02 01 00 0000 10 0002 00 0232"));
    CHECK(wurst_mute_write(WURST_BROADCAST, source, 2, frame, 257, &len) == WURST_BROADCAST_UID);
    CHECK(wurst_mute_write(uid, far, 2, frame, 257, &len) == WURST_BAD_UID);
    CHECK(wurst_branch_write(0, uid, source, 3, frame, 257, &len) == WURST_DONE);
    CHECK(is_same(frame, len, "cc0124 ffffffffffff 7a7000000001 03 01 00 0000 10 0001 0c "
                              "000000000000 123400000007 0844"));
    CHECK(wurst_branch_write(uid, 0, source, 3, frame, 257, &len) == WURST_BAD_RANGE);
    CHECK(wurst_branch_write(far, 0, source, 3, frame, 257, &len) == WURST_BAD_UID);
}

static void reads_commands(void) {
    struct wurst_command command;
    CHECK(wurst_mute_write(device_info.target, setup.source, 9, frame, 257, &len) == WURST_DONE);
    CHECK(wurst_command_read(frame, len, &command, buffer, 230) == WURST_BUFFER_TOO_SMALL);
    CHECK(wurst_command_read(frame, len, &command, buffer, 231) == WURST_DONE);
    CHECK(command.kind == WURST_MUTE && command.target == device_info.target && command.tn == 9);
    CHECK(command.source == setup.source && command.len == 0 && command.lo == 0 && command.hi == 0);
    frame[len - 1]++;
    CHECK(wurst_command_read(frame, len, &command, buffer, 231) == WURST_NOTHING);
    CHECK(wurst_request_write(&device_info, (const uint8_t *)"ab", 2, setup.source, 4, frame, 257, &len) == WURST_DONE);
    CHECK(wurst_command_read(frame, len, &command, buffer, 231) == WURST_DONE && command.kind == WURST_REQUEST);
    CHECK(command.len == 2 && memcmp(buffer, "ab", 2) == 0 && command.pid == 0x0060 && command.command_class == 0);
    CHECK(wurst_branch_write(3, 5, setup.source, 4, frame, 257, &len) == WURST_DONE);
    CHECK(wurst_command_read(frame, len, &command, buffer, 231) == WURST_DONE && command.kind == WURST_BRANCH);
    CHECK(command.lo == 3 && command.hi == 5);
}

static void reads_and_writes_responses(void) {
    struct wurst_response response, again;
    struct wurst_mute_ack ack;
    size_t written = 0;
    struct wurst_device device = {device_info.target, UINT64_C(0x123400000001), 4, true};
    CHECK(wurst_request_write(&device_info, no_bytes, 0, setup.source, 5, frame, 257, &len) == WURST_DONE);
    len = answer(frame, 2, (const uint8_t *)"\0\6", 2, reply);
    CHECK(wurst_response_read(reply, len, &response, buffer, 230) == WURST_BUFFER_TOO_SMALL);
    CHECK(wurst_response_read(reply, len, &response, buffer, 231) == WURST_DONE);
    CHECK(response.source == device_info.target && response.dest == setup.source && response.tn == 5);
    CHECK(response.ack == WURST_NACK && response.response_class == WURST_GET_RESPONSE && response.len == 2);
    CHECK(wurst_response_write(&response, buffer, 2, frame, 257, &written) == WURST_DONE);
    CHECK(written == len && memcmp(frame, reply, len) == 0);
    CHECK(wurst_response_read(reply, 25, &again, buffer, 231) == WURST_TOO_SHORT);
    reply[len - 1]++;
    CHECK(wurst_response_read(reply, len, &again, buffer, 231) == WURST_WRONG_CHECKSUM);
    reply[23]++;
    CHECK(wurst_response_read(reply, len, &again, buffer, 231) == WURST_PARAM_LENGTH_MISMATCH);
    reply[2] = 23;
    CHECK(wurst_response_read(reply, len, &again, buffer, 231) == WURST_LENGTH_MISMATCH);
    reply[1]++;
    CHECK(wurst_response_read(reply, len, &again, buffer, 231) == WURST_WRONG_SUB_START);
    reply[0]++;
    CHECK(wurst_response_read(reply, len, &again, buffer, 231) == WURST_WRONG_START);
    again = response;
    again.ack = 4;
    CHECK(wurst_response_write(&again, buffer, 2, frame, 257, &len) == WURST_BAD_RESPONSE_TYPE);
    again.ack = 0;
    again.response_class = 3;
    CHECK(wurst_response_write(&again, buffer, 2, frame, 257, &len) == WURST_BAD_CLASS);
    CHECK(wurst_response_write(&response, buffer, 232, frame, 257, &len) == WURST_DATA_TOO_LONG);
    CHECK(wurst_mute_ack_write(&device, setup.source, 6, frame, 257, &len) == WURST_DONE);
    CHECK(is_same(frame, len, "cc0120 7a7000000001 123400000007 06 00 00 0000 11 0002 08 0004 123400000001 0291"));
    CHECK(wurst_mute_ack_read(device.uid, setup.source, 6, frame, len, &ack) == WURST_DONE);
    CHECK(ack.control == 4 && ack.has_binding && ack.binding == device.binding);
    CHECK(wurst_mute_ack_read(device.uid, setup.source, 7, frame, len, &ack) == WURST_NOTHING);
    device.uid = WURST_BROADCAST;
    CHECK(wurst_mute_ack_write(&device, setup.source, 6, frame, 257, &len) == WURST_BROADCAST_UID);
}

static void runs_an_agent(void) {
    struct wurst_agent agent = {0};
    struct wurst_start start = {UINT64_C(0x7a7000000001), 1000, WURST_FULL_DISCOVERY, WURST_STEADY, 250};
    const uint64_t known[2] = {device_info.target, WURST_BROADCAST};
    uint32_t operation = 9, fault = 9;
    uint64_t corrupt = 9;
    CHECK(wurst_agent_next(&agent, &operation, frame, 257, &len) == WURST_NOT_OPEN);
    CHECK(wurst_agent_hear(&agent, reply, 0) == WURST_NOT_OPEN && wurst_agent_fail(&agent) == WURST_NOT_OPEN);
    CHECK(wurst_agent_stop(&agent) == WURST_NOT_OPEN);
    CHECK(wurst_agent_fault(&agent, &fault, &corrupt) == WURST_NOT_OPEN);
    CHECK(wurst_agent_frames(&agent, &number) == WURST_NOT_OPEN);
    CHECK(wurst_agent_devices(&agent, devices, 1, &len) == WURST_NOT_OPEN);
    CHECK(wurst_agent_bad_uids(&agent, uids, WURST_MOST_BAD_UIDS, &len, &answered) == WURST_NOT_OPEN);
    CHECK(wurst_agent_start(&agent, &start, known, 2) == WURST_BROADCAST_UID);
    start.kind = 2;
    CHECK(wurst_agent_start(&agent, &start, known, 0) == WURST_BAD_KIND);
    start.kind = WURST_INCREMENTAL;
    start.search = 2;
    CHECK(wurst_agent_start(&agent, &start, known, 0) == WURST_BAD_SEARCH);
    start.search = WURST_STEADY;
    CHECK(wurst_agent_start(&agent, &start, known, 1) == WURST_DONE);
    CHECK(wurst_agent_start(&agent, &start, known, 1) == WURST_ALREADY_OPEN);
    CHECK(wurst_agent_next(&agent, &operation, frame, 256, &len) == WURST_BUFFER_TOO_SMALL);
    CHECK(wurst_agent_next(&agent, &operation, frame, 257, &len) == WURST_DONE && operation == WURST_UNMUTE_ALL);
    CHECK(is_same(frame, len, "cc0118 ffffffffffff 7a7000000001 fa 01 00 0000 10 0003 00 08d8"));
    CHECK(wurst_agent_fault(&agent, &fault, &corrupt) == WURST_NOT_ENDED);
    while (wurst_agent_next(&agent, &operation, frame, 257, &len) == WURST_DONE) {
        CHECK(wurst_agent_hear(&agent, reply, one_device(reply)) == WURST_DONE);
    }
    CHECK(wurst_agent_hear(&agent, reply, 0) == WURST_HAS_ENDED && wurst_agent_fail(&agent) == WURST_HAS_ENDED);
    CHECK(wurst_agent_fault(&agent, &fault, &corrupt) == WURST_DONE && fault == WURST_NO_FAULT && corrupt == 0);
    CHECK(wurst_agent_devices(&agent, devices, 0, &len) == WURST_BUFFER_TOO_SMALL && len == 1);
    CHECK(wurst_agent_devices(&agent, devices, 1, &len) == WURST_DONE && devices[0].uid == device_info.target);
    answered = true;
    CHECK(wurst_agent_bad_uids(&agent, uids, 0, &len, &answered) == WURST_DONE && len == 0 && !answered);
    /* Three unmutes, the mute of the known device, and five silences. */
    CHECK(wurst_agent_frames(&agent, &number) == WURST_DONE && number == 9);
    wurst_agent_dispose(&agent);
    wurst_agent_dispose(&agent);
    CHECK(!agent.is_open);
    start.kind = WURST_FULL_DISCOVERY;
    CHECK(wurst_agent_start(&agent, &start, known, 0) == WURST_DONE);
    CHECK(wurst_agent_stop(&agent) == WURST_DONE);
    CHECK(wurst_agent_fault(&agent, &fault, &corrupt) == WURST_DONE && fault == WURST_ABORTED);
    wurst_agent_dispose(&agent);
    CHECK(wurst_agent_start(&agent, &start, known, 0) == WURST_DONE && wurst_agent_fail(&agent) == WURST_DONE);
    CHECK(wurst_agent_fault(&agent, &fault, &corrupt) == WURST_DONE && fault == WURST_LINE_FAILED);
    wurst_agent_dispose(&agent);
    start.search = WURST_QUICK;
    CHECK(wurst_agent_start(&agent, &start, known, 0) == WURST_DONE);
    while (wurst_agent_next(&agent, &operation, frame, 257, &len) == WURST_DONE) {
        CHECK(wurst_agent_hear(&agent, reply, one_bad_device(reply)) == WURST_DONE);
    }
    CHECK(wurst_agent_fault(&agent, &fault, &corrupt) == WURST_DONE && fault == WURST_CORRUPT);
    uids[0] = 0;
    answered = true;
    CHECK(wurst_agent_bad_uids(&agent, uids, 0, &len, &answered) == WURST_BUFFER_TOO_SMALL);
    CHECK(len == 1 && uids[0] == 0 && answered);
    CHECK(wurst_agent_bad_uids(&agent, uids, 1, &len, &answered) == WURST_DONE && len == 1 && !answered);
    CHECK(uids[0] == device_info.target && corrupt == device_info.target);
    wurst_agent_dispose(&agent);
}

/* What the archive needs, and heap.c has. */
struct block {
    bool is_there;
    uint8_t *at;
};
struct block rattle_alloc(size_t size, size_t align);
struct block rattle_realloc(uint8_t *at, size_t kept, size_t size, size_t align);
void rattle_dealloc(uint8_t *at);

static void grows_and_shrinks_blocks(void) {
    struct block block = rattle_alloc(0, 8);
    CHECK(block.is_there);
    memcpy(block.at, "12345678", 8);
    block = rattle_realloc(block.at, 8, 100000, 8);
    CHECK(block.is_there && memcmp(block.at, "12345678", 8) == 0);
    block = rattle_realloc(block.at, 0, 0, 16);
    CHECK(block.is_there && block.at != NULL);
    rattle_dealloc(block.at);
}

int main(void) {
    CHECK(wurst_version() == WURST_VERSION);
    CHECK(strcmp(wurst_text(WURST_NOT_TEXT), "the bytes aren't UTF-8") == 0);
    tests_controller_all();
    tests_session_all();
    reads_and_writes_uids();
    reads_and_writes_branch_replies();
    writes_commands();
    reads_commands();
    reads_and_writes_responses();
    runs_an_agent();
    grows_and_shrinks_blocks();
    return report();
}
