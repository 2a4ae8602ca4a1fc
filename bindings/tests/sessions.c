/* The log of a session: each kind of entry, a full log, and a fresh one. What is expected was worked out by hand from
 * docs/FORMATS.md and the comments in crates/rdm_log/src. */
#include "tests.h"

static uint8_t frame[WURST_MOST_FRAME_BYTES], reply[WURST_MOST_FRAME_BYTES], buffer[WURST_MOST_FRAME_BYTES];
static struct wurst_device devices[8];
static struct wurst_completion done;
static struct wurst_end end;
static size_t len, count;
static uint64_t number;
static uint8_t client;

/* A SET of the sub-device 0203, with 3 bytes: no two of its fields are the same. */
static const struct wurst_request label = {UINT64_C(0x123400000007), WURST_SET, 0x0203, 0x8123};
#define LABEL_OF(uid) .target = uid, .command_class = WURST_SET, .sub_device = 0x0203, .pid = 0x8123
#define OF_CLIENT(its) .client = its, .has_client = true

static bool is_equal(const struct wurst_entry *a, const struct wurst_entry *b) {
    return a->number == b->number && a->run == b->run && a->corrupt == b->corrupt && a->target == b->target &&
           a->len == b->len && a->joined == b->joined && a->kind == b->kind && a->call == b->call &&
           a->owner == b->owner && a->discovery == b->discovery && a->status == b->status && a->fault == b->fault &&
           a->command_class == b->command_class && a->sub_device == b->sub_device && a->pid == b->pid &&
           a->client == b->client && a->places == b->places && a->cause == b->cause &&
           a->has_client == b->has_client && a->has_failed == b->has_failed;
}

/* Whether the log's entry of this index is this one, with these bytes. */
static bool has_entry(struct wurst_session *session, size_t index, struct wurst_entry wanted, const char *digits) {
    struct wurst_entry entry;
    wanted.len = bytes_of(digits, reply);
    return wurst_session_entry(session, index, &entry, buffer, wanted.len) == WURST_DONE &&
           is_equal(&entry, &wanted) && is_same(buffer, wanted.len, digits);
}

#define ENTRY(index, digits, ...) CHECK(has_entry(&session, index, (struct wurst_entry){__VA_ARGS__}, digits))

static size_t free_entries(struct wurst_session *session) {
    CHECK(wurst_session_free_entries(session, &count) == WURST_DONE);
    return count;
}

static size_t entries(struct wurst_session *session) {
    CHECK(wurst_session_entry_count(session, &count) == WURST_DONE);
    return count;
}

/* A request from its refusals to its collect. */
static void logs_a_request(void) {
    struct wurst_session session = {0};
    struct wurst_request lamp = label;
    lamp.target = UINT64_C(0x567800000009);
    CHECK(wurst_session_open(&session, &setup, 100) == WURST_DONE);
    /* The capacity is 101, and one is reserved for the close. */
    CHECK(free_entries(&session) == 100 && entries(&session) == 0);
    CHECK(wurst_session_join(&session, 2, &client) == WURST_DONE && client == 0);
    CHECK(wurst_session_join(&session, 3, &client) == WURST_DONE && client == 1);
    CHECK(wurst_session_join(&session, 6, &client) == WURST_NO_PLACES && client == 1);
    CHECK(wurst_session_submit(&session, 5, &lamp, (const uint8_t *)"ab", 2, &number) == WURST_UNKNOWN_CLIENT);
    CHECK(wurst_session_submit(&session, 1, &label, (const uint8_t *)"xyz", 3, &number) == WURST_DONE && number == 0);
    /* Reserved are the close, and two for the request. */
    CHECK(free_entries(&session) == 101 - 5 - 3);
    CHECK(wurst_session_pause(&session) == WURST_DONE && wurst_session_pause(&session) == WURST_DONE);
    CHECK(wurst_session_take(&session, frame, sizeof frame, &len) == WURST_NOTHING);
    CHECK(wurst_session_resume(&session) == WURST_DONE && wurst_session_resume(&session) == WURST_DONE);
    CHECK(wurst_session_take(&session, frame, sizeof frame, &len) == WURST_DONE);
    /* The reply is reserved too. */
    CHECK(free_entries(&session) == 101 - 8 - 4);
    CHECK(wurst_session_deliver(&session, reply, answer(frame, 0, (const uint8_t *)"four", 4, reply)) == WURST_DONE);
    CHECK(free_entries(&session) == 101 - 10 - 2);
    CHECK(wurst_session_next_completion(&session, 1, &done, buffer, sizeof buffer) == WURST_DONE && done.len == 4);
    CHECK(free_entries(&session) == 101 - 11 - 1 && entries(&session) == 11);

    ENTRY(0, "", .kind = WURST_ENTRY_JOIN, OF_CLIENT(0), .places = 2);
    ENTRY(1, "", .kind = WURST_ENTRY_JOIN, OF_CLIENT(1), .places = 3);
    ENTRY(2, "", .kind = WURST_ENTRY_REFUSE, .call = WURST_CALL_JOIN, .cause = 3, .places = 6);
    ENTRY(3, "6162", .kind = WURST_ENTRY_REFUSE, .call = WURST_CALL_SUBMIT, .cause = 2, OF_CLIENT(5),
          LABEL_OF(lamp.target));
    ENTRY(4, "78797a", .kind = WURST_ENTRY_ACCEPT, OF_CLIENT(1), .number = 0, LABEL_OF(label.target));
    ENTRY(5, "", .kind = WURST_ENTRY_PAUSE);
    ENTRY(6, "", .kind = WURST_ENTRY_RESUME);
    /* E1.20, packet format; the sums are those of the bytes before them. */
    ENTRY(7, "cc011b 123400000007 7a7000000001 00 01 00 0203 30 8123 03 78797a 0468", .kind = WURST_ENTRY_SEND,
          .owner = WURST_OF_REQUEST, .number = 0);
    ENTRY(8, "cc011c 7a7000000001 123400000007 00 00 00 0203 31 8123 04 666f7572 04bb", .kind = WURST_ENTRY_CAME);
    ENTRY(9, "", .kind = WURST_ENTRY_FINISH, .number = 0, .status = WURST_COMPLETED, .joined = 4);
    ENTRY(10, "", .kind = WURST_ENTRY_COLLECT, OF_CLIENT(1));
    wurst_session_dispose(&session);
}

/* Discoveries that a failing line and a close end, and a request that they end too. */
static void logs_discoveries(void) {
    struct wurst_session session = {0};
    CHECK(wurst_session_open(&session, &setup, 100) == WURST_DONE);
    CHECK(wurst_session_join(&session, 1, &client) == WURST_DONE);
    CHECK(wurst_session_discover(&session, 9, WURST_INCREMENTAL, &number) == WURST_UNKNOWN_CLIENT);
    CHECK(wurst_session_discover(&session, 0, WURST_INCREMENTAL, &number) == WURST_DONE && number == 0);
    CHECK(wurst_session_take(&session, frame, sizeof frame, &len) == WURST_DONE);
    CHECK(wurst_session_deliver(&session, reply, 0) == WURST_DONE);
    CHECK(wurst_session_take(&session, frame, sizeof frame, &len) == WURST_DONE);
    CHECK(wurst_session_fail(&session) == WURST_DONE);
    CHECK(wurst_session_discover(&session, 0, WURST_FULL_DISCOVERY, &number) == WURST_DONE && number == 1);
    CHECK(wurst_session_submit(&session, 0, &label, no_bytes, 0, &number) == WURST_DONE && number == 0);
    CHECK(wurst_session_close(&session) == WURST_DONE && wurst_session_close(&session) == WURST_DONE);
    CHECK(wurst_session_join(&session, 0, &client) == WURST_CLOSED);
    CHECK(wurst_session_discover(&session, 0, WURST_FULL_DISCOVERY, &number) == WURST_CLOSED);

    ENTRY(1, "", .kind = WURST_ENTRY_REFUSE, .call = WURST_CALL_DISCOVER, .cause = 2, OF_CLIENT(9),
          .discovery = WURST_INCREMENTAL);
    ENTRY(2, "", .kind = WURST_ENTRY_ASK, OF_CLIENT(0), .number = 0, .discovery = WURST_INCREMENTAL);
    ENTRY(3, "cc0118 ffffffffffff 7a7000000001 00 01 00 0000 10 0003 00 07de", .kind = WURST_ENTRY_SEND,
          .owner = WURST_OF_RUN, .run = 1);
    ENTRY(4, "", .kind = WURST_ENTRY_CAME);
    ENTRY(5, "cc0118 ffffffffffff 7a7000000001 01 01 00 0000 10 0003 00 07df", .kind = WURST_ENTRY_SEND,
          .owner = WURST_OF_RUN, .run = 1);
    ENTRY(6, "", .kind = WURST_ENTRY_CAME, .has_failed = true);
    ENTRY(7, "", .kind = WURST_ENTRY_ANSWER, .number = 0, .run = 1, .fault = WURST_LINE_FAILED);
    ENTRY(8, "", .kind = WURST_ENTRY_ASK, OF_CLIENT(0), .number = 1, .discovery = WURST_FULL_DISCOVERY);
    ENTRY(9, "", .kind = WURST_ENTRY_ACCEPT, OF_CLIENT(0), .number = 0, LABEL_OF(label.target));
    ENTRY(10, "", .kind = WURST_ENTRY_CLOSE);
    /* What waited ends at once, in an order that no page promises. */
    ENTRY(13, "", .kind = WURST_ENTRY_REFUSE, .call = WURST_CALL_JOIN, .cause = 1);
    ENTRY(14, "", .kind = WURST_ENTRY_REFUSE, .call = WURST_CALL_DISCOVER, .cause = 1, OF_CLIENT(0));
    CHECK(entries(&session) == 15);
    CHECK(wurst_session_next_discovery(&session, 0, &end, devices, 8) == WURST_DONE && end.number == 0);
    wurst_session_dispose(&session);
}

/* A device that answers branches that include its UID with bytes that no device sends. */
static size_t noise(void) {
    uint64_t lo = 0, hi = 0;
    if (frame[21] != 0 || frame[22] != 1) {
        return 0;
    }
    for (int i = 0; i < 6; i++) {
        lo = lo << 8 | frame[24 + i];
        hi = hi << 8 | frame[30 + i];
    }
    memset(reply, 0x55, 20);
    return lo <= label.target && label.target <= hi ? 20 : 0;
}

static void logs_a_corrupt_run(void) {
    struct wurst_session session = {0};
    struct wurst_entry entry;
    CHECK(wurst_session_open(&session, &setup, 3000) == WURST_DONE);
    CHECK(wurst_session_join(&session, 0, &client) == WURST_DONE);
    CHECK(wurst_session_discover(&session, 0, WURST_FULL_DISCOVERY, &number) == WURST_DONE);
    while (wurst_session_take(&session, frame, sizeof frame, &len) == WURST_DONE) {
        CHECK(wurst_session_deliver(&session, reply, noise()) == WURST_DONE);
    }
    CHECK(wurst_session_entry(&session, entries(&session) - 1, &entry, buffer, 0) == WURST_DONE);
    CHECK(entry.kind == WURST_ENTRY_ANSWER && entry.fault == WURST_CORRUPT && entry.corrupt == label.target);
    CHECK(entry.number == 0 && entry.run == 1);
    wurst_session_dispose(&session);
}

/* A small buffer, an index beyond the log, and each call on closed handles. */
static void refuses_reads(void) {
    struct wurst_session session = {0};
    struct wurst_log log = {0};
    struct wurst_entry entry = {.number = 77, .kind = 99};
    CHECK(wurst_session_free_entries(&session, &count) == WURST_NOT_OPEN);
    CHECK(wurst_session_entry_count(&session, &count) == WURST_NOT_OPEN);
    CHECK(wurst_session_entry(&session, 0, &entry, buffer, sizeof buffer) == WURST_NOT_OPEN);
    CHECK(wurst_session_rotate(&session, 100, &log) == WURST_NOT_OPEN && !log.is_open);
    CHECK(wurst_log_entry_count(&log, &count) == WURST_NOT_OPEN);
    CHECK(wurst_log_entry(&log, 0, &entry, buffer, sizeof buffer) == WURST_NOT_OPEN);
    wurst_log_dispose(&log);
    CHECK(wurst_session_open(&session, &setup, WURST_MOST_ENTRIES + 1) == WURST_TOO_MANY_ENTRIES && !session.is_open);
    CHECK(wurst_session_open(&session, &setup, 100) == WURST_DONE);
    CHECK(wurst_session_entry(&session, 0, &entry, buffer, sizeof buffer) == WURST_NO_ENTRY);
    CHECK(wurst_session_join(&session, 1, &client) == WURST_DONE);
    CHECK(wurst_session_submit(&session, 0, &label, (const uint8_t *)"xyz", 3, &number) == WURST_DONE);
    buffer[0] = 9;
    CHECK(wurst_session_entry(&session, 1, &entry, buffer, 2) == WURST_BUFFER_TOO_SMALL);
    CHECK(entry.len == 3 && entry.number == 77 && entry.kind == 99 && buffer[0] == 9);
    CHECK(wurst_session_entry(&session, 2, &entry, buffer, sizeof buffer) == WURST_NO_ENTRY);
    CHECK(wurst_session_entry(&session, SIZE_MAX, &entry, buffer, sizeof buffer) == WURST_NO_ENTRY);
    CHECK(entry.len == 3 && entry.kind == 99 && buffer[0] == 9);
    wurst_session_dispose(&session);
}

static void fills_its_log(void) {
    struct wurst_session session = {0};
    struct wurst_log log = {0};
    CHECK(wurst_session_open(&session, &setup, 3) == WURST_DONE);
    CHECK(wurst_session_join(&session, 1, &client) == WURST_DONE && free_entries(&session) == 2);
    CHECK(wurst_session_join(&session, 1, &client) == WURST_LOG_FULL);
    CHECK(wurst_session_submit(&session, 0, &label, no_bytes, 0, &number) == WURST_LOG_FULL);
    CHECK(wurst_session_submit(&session, 0, &label, buffer, 232, &number) == WURST_DATA_TOO_LONG);
    CHECK(wurst_session_discover(&session, 0, 0, &number) == WURST_LOG_FULL);
    CHECK(wurst_session_discover(&session, 0, 2, &number) == WURST_BAD_KIND);
    CHECK(wurst_session_pause(&session) == WURST_LOG_FULL && wurst_session_resume(&session) == WURST_LOG_FULL);
    CHECK(wurst_session_take(&session, frame, sizeof frame, &len) == WURST_LOG_FULL);
    CHECK(wurst_session_take(&session, frame, 256, &len) == WURST_BUFFER_TOO_SMALL);
    CHECK(entries(&session) == 1);
    CHECK(wurst_session_rotate(&session, 3, &log) == WURST_DONE && free_entries(&session) == 3);
    wurst_log_dispose(&log);
    CHECK(wurst_session_submit(&session, 0, &label, no_bytes, 0, &number) == WURST_DONE);
    CHECK(wurst_session_take(&session, frame, sizeof frame, &len) == WURST_LOG_FULL);
    CHECK(wurst_session_close(&session) == WURST_DONE && entries(&session) == 3);
    CHECK(wurst_session_next_completion(&session, 0, &done, buffer, 0) == WURST_DONE);
    wurst_session_dispose(&session);
}

/* What a rotation preserves, and the old log beside the fresh one. */
static void rotates(void) {
    struct wurst_session session = {0};
    struct wurst_log log = {0}, second = {0};
    struct wurst_entry entry;
    bool is_paused = false;
    CHECK(wurst_session_open(&session, &setup, 100) == WURST_DONE);
    CHECK(wurst_session_join(&session, 2, &client) == WURST_DONE);
    CHECK(wurst_session_submit(&session, 0, &label, (const uint8_t *)"xyz", 3, &number) == WURST_DONE);
    CHECK(wurst_session_rotate(&session, WURST_MOST_ENTRIES + 1, &log) == WURST_TOO_MANY_ENTRIES);
    CHECK(wurst_session_rotate(&session, 2, &log) == WURST_LOG_FULL);
    CHECK(wurst_session_rotate(&session, 50, &log) == WURST_NOT_IDLE && !log.is_open && entries(&session) == 2);
    CHECK(wurst_session_take(&session, frame, sizeof frame, &len) == WURST_DONE);
    CHECK(wurst_session_fail(&session) == WURST_DONE);
    CHECK(wurst_session_rotate(&session, 50, &log) == WURST_NOT_IDLE);
    CHECK(wurst_session_next_completion(&session, 0, &done, buffer, 0) == WURST_DONE);
    CHECK(wurst_session_pause(&session) == WURST_DONE);
    CHECK(wurst_session_rotate(&session, 50, &log) == WURST_DONE && log.is_open);
    CHECK(free_entries(&session) == 50 && entries(&session) == 0);
    CHECK(wurst_session_is_paused(&session, &is_paused) == WURST_DONE && is_paused);
    CHECK(wurst_session_resume(&session) == WURST_DONE);
    /* Numbers, clients and transaction numbers continue. */
    CHECK(wurst_session_submit(&session, 0, &label, no_bytes, 0, &number) == WURST_DONE && number == 1);
    CHECK(wurst_session_take(&session, frame, sizeof frame, &len) == WURST_DONE && frame[15] == 1);
    CHECK(wurst_session_deliver(&session, reply, 0) == WURST_DONE);
    CHECK(wurst_session_next_completion(&session, 0, &done, buffer, 0) == WURST_DONE && done.number == 1);
    CHECK(wurst_session_rotate(&session, 50, &log) == WURST_ALREADY_OPEN && entries(&session) == 6);
    CHECK(wurst_session_rotate(&session, 50, &second) == WURST_DONE);
    wurst_session_dispose(&session);
    /* The first log has a Join, an Accept, a Send, a Came, a Finish, a Collect and a Pause. */
    CHECK(wurst_log_entry_count(&log, &count) == WURST_DONE && count == 7);
    CHECK(wurst_log_entry(&log, 1, &entry, buffer, 3) == WURST_DONE);
    CHECK(entry.kind == WURST_ENTRY_ACCEPT && entry.number == 0 && is_same(buffer, entry.len, "78797a"));
    CHECK(wurst_log_entry(&log, 1, &entry, buffer, 2) == WURST_BUFFER_TOO_SMALL && entry.len == 3);
    CHECK(wurst_log_entry(&log, 4, &entry, buffer, 0) == WURST_DONE && entry.status == WURST_FAILED_TO_SEND);
    CHECK(wurst_log_entry(&log, 6, &entry, buffer, 0) == WURST_DONE && entry.kind == WURST_ENTRY_PAUSE);
    CHECK(wurst_log_entry(&log, 7, &entry, buffer, 0) == WURST_NO_ENTRY);
    CHECK(wurst_log_entry_count(&second, &count) == WURST_DONE && count == 6);
    CHECK(wurst_log_entry(&second, 4, &entry, buffer, 0) == WURST_DONE && entry.status == WURST_TIMEOUT);
    wurst_log_dispose(&log);
    wurst_log_dispose(&log);
    CHECK(!log.is_open && wurst_log_entry_count(&log, &count) == WURST_NOT_OPEN);
    wurst_log_dispose(&second);
}

/* Drains while a request waits, while its reply is awaited, while its outcome isn't collected, and afterwards. */
static void drains(void) {
    struct wurst_session session = {0};
    struct wurst_log log = {0}, second = {0};
    struct wurst_entry entry;
    uint64_t first = 99;
    CHECK(wurst_session_drain(&session, 50, &log, &first) == WURST_NOT_OPEN && !log.is_open && first == 99);
    CHECK(wurst_session_open(&session, &setup, 50) == WURST_DONE);
    CHECK(wurst_session_join(&session, 2, &client) == WURST_DONE);
    CHECK(wurst_session_submit(&session, 0, &label, (const uint8_t *)"xyz", 3, &number) == WURST_DONE);
    /* Three entries are reserved: for a close, the request's end and its collect. */
    CHECK(wurst_session_drain(&session, 1, &log, &first) == WURST_LOG_FULL && !log.is_open);
    CHECK(wurst_session_drain(&session, WURST_MOST_ENTRIES + 1, &log, &first) == WURST_TOO_MANY_ENTRIES);
    CHECK(wurst_session_drain(&session, SIZE_MAX, &log, &first) == WURST_TOO_MANY_ENTRIES);
    CHECK(first == 99 && entries(&session) == 2 && free_entries(&session) == 46);
    CHECK(wurst_session_drain(&session, 20, &log, &first) == WURST_DONE && first == 0 && log.is_open);
    CHECK(entries(&session) == 0 && free_entries(&session) == 18);
    CHECK(wurst_log_entry_count(&log, &count) == WURST_DONE && count == 2);
    CHECK(wurst_log_entry(&log, 1, &entry, buffer, 3) == WURST_DONE);
    CHECK(entry.kind == WURST_ENTRY_ACCEPT && entry.number == 0 && is_same(buffer, entry.len, "78797a"));
    CHECK(wurst_session_take(&session, frame, sizeof frame, &len) == WURST_DONE);
    /* The open log had memory for 51 entries, of which 4 are reserved now. */
    CHECK(wurst_session_drain(&session, SIZE_MAX, &log, &first) == WURST_DONE && first == 2);
    CHECK(entries(&session) == 0 && free_entries(&session) == 47);
    CHECK(wurst_log_entry_count(&log, &count) == WURST_DONE && count == 1);
    CHECK(wurst_log_entry(&log, 0, &entry, buffer, sizeof buffer) == WURST_DONE && entry.kind == WURST_ENTRY_SEND);
    CHECK(wurst_log_entry(&log, 1, &entry, buffer, sizeof buffer) == WURST_NO_ENTRY);
    CHECK(wurst_session_fail(&session) == WURST_DONE);
    CHECK(wurst_session_drain(&session, 0, &log, &first) == WURST_DONE && first == 3 && free_entries(&session) == 19);
    CHECK(wurst_log_entry_count(&log, &count) == WURST_DONE && count == 2);
    CHECK(wurst_log_entry(&log, 1, &entry, buffer, 0) == WURST_DONE && entry.status == WURST_FAILED_TO_SEND);
    CHECK(wurst_session_next_completion(&session, 0, &done, buffer, 0) == WURST_DONE && done.number == 0);
    CHECK(wurst_session_entry(&session, 0, &entry, buffer, 0) == WURST_DONE && entry.kind == WURST_ENTRY_COLLECT);
    CHECK(wurst_session_drain(&session, 0, &second, &first) == WURST_DONE && first == 5 && free_entries(&session) == 0);
    CHECK(wurst_session_submit(&session, 0, &label, no_bytes, 0, &number) == WURST_LOG_FULL);
    CHECK(wurst_session_drain(&session, 0, &second, &first) == WURST_DONE && first == 6);
    CHECK(wurst_log_entry_count(&second, &count) == WURST_DONE && count == 0);
    CHECK(wurst_session_submit(&session, 0, &label, no_bytes, 0, &number) == WURST_DONE && number == 1);
    /* The second log now has memory for one entry. */
    CHECK(wurst_session_drain(&session, 50, &second, &first) == WURST_LOG_FULL && first == 6 && entries(&session) == 1);
    CHECK(wurst_session_close(&session) == WURST_DONE);
    CHECK(wurst_session_drain(&session, 50, &log, &first) == WURST_DONE && first == 6);
    CHECK(wurst_log_entry_count(&log, &count) == WURST_DONE && count == 3);
    /* After a rotation, entries are numbered from 0 again. */
    CHECK(wurst_session_next_completion(&session, 0, &done, buffer, 0) == WURST_DONE && done.number == 1);
    wurst_log_dispose(&second);
    CHECK(wurst_session_rotate(&session, 50, &second) == WURST_DONE);
    CHECK(wurst_log_entry_count(&second, &count) == WURST_DONE && count == 1);
    CHECK(wurst_session_drain(&session, 50, &log, &first) == WURST_DONE && first == 0);
    wurst_session_dispose(&session);
    wurst_log_dispose(&log);
    wurst_log_dispose(&second);
}

/* A log that keeps nothing counts its entries. Its first drain hands out none, and from then on it keeps entries. */
static void keeps_nothing(void) {
    struct wurst_session session = {0};
    struct wurst_log log = {0};
    const struct wurst_setup broadcast = {.source = WURST_BROADCAST, .places = 10, .budget = 1000};
    uint64_t first = 99;
    CHECK(wurst_session_open_without_log(&session, &broadcast) == WURST_BROADCAST_UID && !session.is_open);
    CHECK(wurst_session_open_without_log(&session, &setup) == WURST_DONE);
    CHECK(wurst_session_open_without_log(&session, &setup) == WURST_ALREADY_OPEN);
    const size_t most = free_entries(&session);
    CHECK(most == ((size_t)1 << 62) - 1);
    CHECK(wurst_session_join(&session, 2, &client) == WURST_DONE);
    CHECK(wurst_session_submit(&session, 0, &label, no_bytes, 0, &number) == WURST_DONE && number == 0);
    CHECK(wurst_session_take(&session, frame, sizeof frame, &len) == WURST_DONE);
    CHECK(wurst_session_fail(&session) == WURST_DONE);
    CHECK(wurst_session_next_completion(&session, 0, &done, buffer, 0) == WURST_DONE);
    CHECK(done.number == 0 && done.status == WURST_FAILED_TO_SEND);
    /* Join, Accept, Send, Came, Finish and Collect. */
    CHECK(entries(&session) == 0 && free_entries(&session) == most - 6);
    CHECK(wurst_session_drain(&session, 20, &log, &first) == WURST_DONE && first == 6 && free_entries(&session) == 20);
    CHECK(wurst_log_entry_count(&log, &count) == WURST_DONE && count == 0);
    CHECK(wurst_session_pause(&session) == WURST_DONE && entries(&session) == 1);
    /* The log that was handed out has no memory. */
    CHECK(wurst_session_drain(&session, 20, &log, &first) == WURST_LOG_FULL && first == 6 && entries(&session) == 1);
    wurst_log_dispose(&log);
    CHECK(wurst_session_drain(&session, 20, &log, &first) == WURST_DONE && first == 6);
    CHECK(wurst_log_entry_count(&log, &count) == WURST_DONE && count == 1);
    wurst_session_dispose(&session);
    wurst_log_dispose(&log);
}

int main(void) {
    logs_a_request();
    logs_discoveries();
    logs_a_corrupt_run();
    refuses_reads();
    fills_its_log();
    rotates();
    drains();
    keeps_nothing();
    return report();
}
