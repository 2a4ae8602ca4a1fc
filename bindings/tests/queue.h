/* Tests of the calls that controllers and sessions have in common: worked examples, and refusals. calls.c includes this
 * file once for each, with QUEUE, HANDLE and OPEN for it. */
#define PASTED(first, second, third) first##second##_##third
#define PASTE(first, second, third) PASTED(first, second, third)
#define CALL(name) PASTE(wurst_, QUEUE, name)
#define TEST(name) PASTE(tests_, QUEUE, name)

static void TEST(opens)(void) {
    HANDLE queue = {0};
    struct wurst_setup bad = setup;
    bad.source = UINT64_C(0x1000000000000);
    CHECK(OPEN(&queue, &bad) == WURST_BAD_UID);
    bad.source = UINT64_C(0x7a70ffffffff);
    CHECK(OPEN(&queue, &bad) == WURST_BROADCAST_UID);
    bad = setup;
    bad.places = 4081;
    CHECK(OPEN(&queue, &bad) == WURST_TOO_MANY_PLACES);
    bad = setup;
    bad.budget = 0;
    CHECK(OPEN(&queue, &bad) == WURST_NO_BUDGET);
    bad = setup;
    bad.search = 2;
    CHECK(OPEN(&queue, &bad) == WURST_BAD_SEARCH);
    CHECK(!queue.is_open);
    CHECK(OPEN(&queue, &setup) == WURST_DONE);
    CHECK(OPEN(&queue, &setup) == WURST_ALREADY_OPEN);
    CALL(dispose)(&queue);
    CHECK(!queue.is_open);
    CALL(dispose)(&queue);
    CHECK(OPEN(&queue, &setup) == WURST_DONE);
    CALL(dispose)(&queue);
}

static void TEST(is_closed_handle)(void) {
    HANDLE queue = {0};
    uint8_t client = 0;
    CHECK(CALL(join)(&queue, 1, &client) == WURST_NOT_OPEN);
    CHECK(CALL(submit)(&queue, 0, &device_info, no_bytes, 0, &number) == WURST_NOT_OPEN);
    CHECK(CALL(discover)(&queue, 0, 0, &number) == WURST_NOT_OPEN);
    CHECK(CALL(pause)(&queue) == WURST_NOT_OPEN);
    CHECK(CALL(resume)(&queue) == WURST_NOT_OPEN);
    CHECK(CALL(close)(&queue) == WURST_NOT_OPEN);
    CHECK(CALL(take)(&queue, frame, sizeof frame, &len) == WURST_NOT_OPEN);
    CHECK(CALL(deliver)(&queue, reply, 0) == WURST_NOT_OPEN);
    CHECK(CALL(fail)(&queue) == WURST_NOT_OPEN);
    CHECK(CALL(oldest)(&queue, 0, &kind) == WURST_NOT_OPEN);
    CHECK(CALL(next_completion)(&queue, 0, &done, buffer, sizeof buffer) == WURST_NOT_OPEN);
    CHECK(CALL(next_discovery)(&queue, 0, &end, devices, WURST_MOST_DEVICES) == WURST_NOT_OPEN);
    CHECK(CALL(devices)(&queue, devices, WURST_MOST_DEVICES, &len) == WURST_NOT_OPEN);
    CHECK(CALL(devices_run)(&queue, &number) == WURST_NOT_OPEN);
    CHECK(CALL(bad_uids)(&queue, uids, WURST_MOST_BAD_UIDS, &len, &answered) == WURST_NOT_OPEN);
    CHECK(CALL(bad_uids_run)(&queue, &number) == WURST_NOT_OPEN);
    CHECK(CALL(is_idle)(&queue, &answered) == WURST_NOT_OPEN);
    CHECK(CALL(is_paused)(&queue, &answered) == WURST_NOT_OPEN);
    CHECK(CALL(is_closed)(&queue, &answered) == WURST_NOT_OPEN);
    CHECK(CALL(awaits)(&queue, &answered) == WURST_NOT_OPEN);
}

static void TEST(serves_a_request)(void) {
    HANDLE queue = {0};
    uint8_t client = 99;
    CHECK(OPEN(&queue, &setup) == WURST_DONE);
    CHECK(CALL(join)(&queue, 11, &client) == WURST_NO_PLACES && client == 99);
    CHECK(CALL(join)(&queue, 1, &client) == WURST_DONE && client == 0);
    CHECK(CALL(take)(&queue, frame, sizeof frame, &len) == WURST_NOTHING);
    number = 99;
    CHECK(CALL(submit)(&queue, client, &device_info, no_bytes, 0, &number) == WURST_DONE && number == 0);
    CHECK(CALL(submit)(&queue, client, &device_info, no_bytes, 0, &number) == WURST_FULL && number == 0);
    CHECK(CALL(take)(&queue, frame, 256, &len) == WURST_BUFFER_TOO_SMALL);
    CHECK(CALL(take)(&queue, frame, sizeof frame, &len) == WURST_DONE);
    /* E1.20, packet format: its sum is 029e. */
    CHECK(is_same(frame, len, "cc0118 123400000007 7a7000000001 00 01 00 0000 20 0060 00 029e"));
    CHECK(CALL(take)(&queue, frame, sizeof frame, &len) == WURST_NOTHING);
    CHECK(CALL(awaits)(&queue, &answered) == WURST_DONE && answered);
    CHECK(CALL(deliver)(&queue, reply, 258) == WURST_REPLY_TOO_LONG);
    CHECK(CALL(awaits)(&queue, &answered) == WURST_DONE && answered);
    CHECK(CALL(deliver)(&queue, reply, answer(frame, 0, (const uint8_t *)"four", 4, reply)) == WURST_DONE);
    CHECK(CALL(deliver)(&queue, reply, 0) == WURST_NOT_ASKED);
    CHECK(CALL(oldest)(&queue, client, &kind) == WURST_DONE && kind == WURST_REQUEST_OUTCOME);
    end.number = 99;
    devices[0].uid = 88;
    CHECK(CALL(next_discovery)(&queue, client, &end, devices, 1) == WURST_OTHER_OUTCOME);
    CHECK(CALL(next_discovery)(&queue, 1, &end, devices, 1) == WURST_UNKNOWN_CLIENT);
    CHECK(end.number == 99 && devices[0].uid == 88);
    done.len = 0;
    done.number = 99;
    buffer[0] = 88;
    CHECK(CALL(next_completion)(&queue, client, &done, buffer, 3) == WURST_BUFFER_TOO_SMALL);
    CHECK(done.len == 4 && done.number == 99 && buffer[0] == 88);
    CHECK(CALL(next_completion)(&queue, client, &done, buffer, 4) == WURST_DONE);
    CHECK(done.number == 0 && done.len == 4 && done.status == WURST_COMPLETED && done.has_head);
    CHECK(done.ack == WURST_ACK && done.response_class == WURST_GET_RESPONSE && done.pid == 0x0060);
    CHECK(done.sub_device == 0 && memcmp(buffer, "four", 4) == 0);
    CHECK(CALL(next_completion)(&queue, client, &done, buffer, 4) == WURST_NOTHING);
    CHECK(CALL(is_idle)(&queue, &answered) == WURST_DONE && answered);
    CALL(dispose)(&queue);
}

static void TEST(joins_parts)(void) {
    HANDLE queue = {0};
    uint8_t client = 0, part[231];
    memset(part, 7, sizeof part);
    CHECK(OPEN(&queue, &setup) == WURST_DONE);
    CHECK(CALL(join)(&queue, 1, &client) == WURST_DONE);
    CHECK(CALL(submit)(&queue, client, &device_info, no_bytes, 0, &number) == WURST_DONE);
    for (int i = 0; i < 3; i++) {
        CHECK(CALL(take)(&queue, frame, sizeof frame, &len) == WURST_DONE);
        CHECK(CALL(deliver)(&queue, reply, answer(frame, i < 2 ? 3 : 0, part, 231, reply)) == WURST_DONE);
    }
    CHECK(CALL(next_completion)(&queue, client, &done, buffer, 692) == WURST_BUFFER_TOO_SMALL);
    CHECK(done.len == 693);
    CHECK(CALL(next_completion)(&queue, client, &done, buffer, 693) == WURST_DONE && done.len == 693);
    CALL(dispose)(&queue);
}

/* Makes one exchange: the device answers with this type and these data, or is silent without data. */
static void TEST(exchange)(HANDLE *queue, uint8_t type, const char *data) {
    size_t size = strlen(data);
    CHECK(CALL(take)(queue, frame, sizeof frame, &len) == WURST_DONE);
    CHECK(CALL(deliver)(queue, reply, size == 0 ? 0 : answer(frame, type, (const uint8_t *)data, size, reply))
          == WURST_DONE);
}

/* Client 0 loses the last part of an answer. Client 1 gets only that part, and then all of it. */
static void TEST(says_what_may_be_incomplete)(void) {
    HANDLE queue = {0};
    uint8_t client = 0;
    CHECK(OPEN(&queue, &setup) == WURST_DONE);
    CHECK(CALL(join)(&queue, 1, &client) == WURST_DONE && CALL(join)(&queue, 2, &client) == WURST_DONE);
    CHECK(CALL(submit)(&queue, 0, &device_info, no_bytes, 0, &number) == WURST_DONE);
    CHECK(CALL(submit)(&queue, 1, &device_info, no_bytes, 0, &number) == WURST_DONE);
    CHECK(CALL(submit)(&queue, 1, &device_info, no_bytes, 0, &number) == WURST_DONE);
    TEST(exchange)(&queue, 3, "first");
    TEST(exchange)(&queue, 0, "");
    TEST(exchange)(&queue, 0, "last");
    TEST(exchange)(&queue, 3, "first");
    TEST(exchange)(&queue, 0, "last");
    CHECK(CALL(next_completion)(&queue, 0, &done, buffer, sizeof buffer) == WURST_DONE);
    CHECK(done.status == WURST_TIMEOUT && !done.may_be_incomplete);
    CHECK(CALL(next_completion)(&queue, 1, &done, buffer, sizeof buffer) == WURST_DONE);
    CHECK(done.status == WURST_COMPLETED && done.len == 4 && done.may_be_incomplete);
    CHECK(CALL(next_completion)(&queue, 1, &done, buffer, sizeof buffer) == WURST_DONE);
    CHECK(done.status == WURST_COMPLETED && done.len == 9 && !done.may_be_incomplete);
    CALL(dispose)(&queue);
}

/* A packet of 257 bytes, the longest, fills its buffer. */
static void TEST(fills_a_frame)(void) {
    static const struct wurst_request label = {UINT64_C(0x123400000007), WURST_SET, 0x0203, 0x0082};
    HANDLE queue = {0};
    uint8_t client = 0, data[231];
    memset(data, 7, sizeof data);
    CHECK(OPEN(&queue, &setup) == WURST_DONE);
    CHECK(CALL(join)(&queue, 1, &client) == WURST_DONE);
    CHECK(CALL(submit)(&queue, client, &label, data, sizeof data, &number) == WURST_DONE);
    CHECK(CALL(take)(&queue, frame, 257, &len) == WURST_DONE && len == 257);
    /* E1.20, packet format: 24 bytes, the data, and the sum of them all, 0af4. */
    CHECK(is_same(frame, 24, "cc01ff 123400000007 7a7000000001 00 01 00 0203 30 0082 e7"));
    CHECK(memcmp(frame + 24, data, sizeof data) == 0 && frame[255] == 0x0a && frame[256] == 0xf4);
    CALL(dispose)(&queue);
}

static void TEST(refuses)(void) {
    HANDLE queue = {0};
    struct wurst_request bad = device_info;
    uint8_t client = 0;
    CHECK(OPEN(&queue, &setup) == WURST_DONE);
    CHECK(CALL(join)(&queue, 2, &client) == WURST_DONE);
    bad.target = UINT64_C(0x1000000000000);
    CHECK(CALL(submit)(&queue, client, &bad, no_bytes, 0, &number) == WURST_BAD_UID);
    bad = device_info;
    bad.command_class = 2;
    CHECK(CALL(submit)(&queue, client, &bad, no_bytes, 0, &number) == WURST_BAD_CLASS);
    CHECK(CALL(submit)(&queue, client, &device_info, buffer, 232, &number) == WURST_DATA_TOO_LONG);
    CHECK(CALL(submit)(&queue, 1, &device_info, no_bytes, 0, &number) == WURST_UNKNOWN_CLIENT);
    CHECK(CALL(discover)(&queue, client, 2, &number) == WURST_BAD_KIND);
    CHECK(CALL(discover)(&queue, 1, 0, &number) == WURST_UNKNOWN_CLIENT);
    CHECK(CALL(oldest)(&queue, 1, &kind) == WURST_UNKNOWN_CLIENT);
    CHECK(CALL(oldest)(&queue, client, &kind) == WURST_NOTHING);
    CHECK(CALL(next_completion)(&queue, 1, &done, buffer, 0) == WURST_UNKNOWN_CLIENT);
    CHECK(CALL(next_discovery)(&queue, 1, &end, devices, 0) == WURST_UNKNOWN_CLIENT);
    CHECK(CALL(next_discovery)(&queue, client, &end, devices, 0) == WURST_NOTHING);
    CHECK(CALL(fail)(&queue) == WURST_NOT_ASKED);
    for (int i = 0; i < 4; i++) {
        CHECK(CALL(discover)(&queue, client, 0, &number) == WURST_DONE);
    }
    CHECK(CALL(discover)(&queue, client, 0, &number) == WURST_FULL);
    for (int i = 1; i < 16; i++) {
        CHECK(CALL(join)(&queue, 0, &client) == WURST_DONE && client == i);
    }
    CHECK(CALL(join)(&queue, 0, &client) == WURST_TOO_MANY_CLIENTS);
    CHECK(CALL(join)(&queue, 1, &client) == WURST_TOO_MANY_CLIENTS);
    CALL(dispose)(&queue);
}

static void TEST(pauses_and_closes)(void) {
    HANDLE queue = {0};
    uint8_t client = 0;
    CHECK(OPEN(&queue, &setup) == WURST_DONE);
    CHECK(CALL(join)(&queue, 4, &client) == WURST_DONE);
    CHECK(CALL(pause)(&queue) == WURST_DONE);
    CHECK(CALL(is_paused)(&queue, &answered) == WURST_DONE && answered);
    CHECK(CALL(submit)(&queue, client, &device_info, no_bytes, 0, &number) == WURST_DONE);
    CHECK(CALL(take)(&queue, frame, sizeof frame, &len) == WURST_NOTHING);
    CHECK(CALL(resume)(&queue) == WURST_DONE);
    CHECK(CALL(is_paused)(&queue, &answered) == WURST_DONE && !answered);
    CHECK(CALL(take)(&queue, frame, sizeof frame, &len) == WURST_DONE);
    CHECK(CALL(fail)(&queue) == WURST_DONE);
    CHECK(CALL(next_completion)(&queue, client, &done, buffer, 0) == WURST_DONE);
    CHECK(done.status == WURST_FAILED_TO_SEND && !done.has_head && done.len == 0);
    CHECK(CALL(submit)(&queue, client, &device_info, no_bytes, 0, &number) == WURST_DONE && number == 1);
    CHECK(CALL(discover)(&queue, client, 0, &number) == WURST_DONE && number == 0);
    CHECK(CALL(close)(&queue) == WURST_DONE);
    CHECK(CALL(is_closed)(&queue, &answered) == WURST_DONE && answered);
    CHECK(CALL(submit)(&queue, client, &device_info, no_bytes, 0, &number) == WURST_CLOSED);
    CHECK(CALL(discover)(&queue, client, 0, &number) == WURST_CLOSED);
    CHECK(CALL(join)(&queue, 0, &client) == WURST_CLOSED);
    CHECK(CALL(next_completion)(&queue, client, &done, buffer, 0) == WURST_DONE);
    CHECK(done.number == 1 && done.status == WURST_FAILED_TO_SEND);
    CHECK(CALL(next_completion)(&queue, client, &done, buffer, 0) == WURST_OTHER_OUTCOME);
    CHECK(CALL(next_discovery)(&queue, client, &end, devices, 0) == WURST_DONE);
    CHECK(end.number == 0 && end.run == 0 && end.fault == WURST_ABORTED && end.count == 0);
    CALL(dispose)(&queue);
}

static void TEST(discovers)(void) {
    HANDLE queue = {0};
    uint8_t client = 0;
    CHECK(OPEN(&queue, &setup) == WURST_DONE);
    CHECK(CALL(join)(&queue, 0, &client) == WURST_DONE);
    CHECK(CALL(discover)(&queue, client, WURST_FULL_DISCOVERY, &number) == WURST_DONE && number == 0);
    while (CALL(take)(&queue, frame, sizeof frame, &len) == WURST_DONE) {
        CHECK(CALL(deliver)(&queue, reply, one_device(reply)) == WURST_DONE);
    }
    CHECK(CALL(oldest)(&queue, client, &kind) == WURST_DONE && kind == WURST_DISCOVERY_OUTCOME);
    CHECK(CALL(next_completion)(&queue, client, &done, buffer, 0) == WURST_OTHER_OUTCOME);
    CHECK(CALL(next_discovery)(&queue, client, &end, devices, 0) == WURST_BUFFER_TOO_SMALL);
    CHECK(end.count == 1);
    CHECK(CALL(next_discovery)(&queue, client, &end, devices, 1) == WURST_DONE);
    CHECK(end.number == 0 && end.run == 1 && end.fault == WURST_NO_FAULT && end.count == 1);
    CHECK(devices[0].uid == device_info.target && devices[0].control == 4 && !devices[0].has_binding);
    CHECK(CALL(devices)(&queue, devices, 0, &len) == WURST_BUFFER_TOO_SMALL && len == 1);
    devices[0].uid = 0;
    CHECK(CALL(devices)(&queue, devices, 1, &len) == WURST_DONE && len == 1);
    CHECK(devices[0].uid == device_info.target);
    CHECK(CALL(devices_run)(&queue, &number) == WURST_DONE && number == 1);
    answered = true;
    CHECK(CALL(bad_uids)(&queue, uids, 0, &len, &answered) == WURST_DONE && len == 0 && !answered);
    CHECK(CALL(bad_uids_run)(&queue, &number) == WURST_DONE && number == 1);
    CALL(dispose)(&queue);
}

static void TEST(lists_bad_uids)(void) {
    HANDLE queue = {0};
    struct wurst_setup quick = setup;
    uint8_t client = 0;
    quick.search = WURST_QUICK;
    CHECK(OPEN(&queue, &quick) == WURST_DONE);
    CHECK(CALL(bad_uids)(&queue, uids, 0, &len, &answered) == WURST_DONE && len == 0 && !answered);
    CHECK(CALL(bad_uids_run)(&queue, &number) == WURST_DONE && number == 0);
    CHECK(CALL(join)(&queue, 0, &client) == WURST_DONE);
    CHECK(CALL(discover)(&queue, client, WURST_FULL_DISCOVERY, &number) == WURST_DONE);
    while (CALL(take)(&queue, frame, sizeof frame, &len) == WURST_DONE) {
        CHECK(CALL(deliver)(&queue, reply, one_bad_device(reply)) == WURST_DONE);
    }
    CHECK(CALL(next_discovery)(&queue, client, &end, devices, 0) == WURST_DONE && end.count == 0);
    CHECK(end.fault == WURST_CORRUPT && end.corrupt == device_info.target);
    uids[0] = 0;
    answered = true;
    CHECK(CALL(bad_uids)(&queue, uids, 0, &len, &answered) == WURST_BUFFER_TOO_SMALL);
    CHECK(len == 1 && uids[0] == 0 && answered);
    CHECK(CALL(bad_uids)(&queue, uids, 1, &len, &answered) == WURST_DONE && len == 1 && !answered);
    CHECK(uids[0] == device_info.target);
    CHECK(CALL(bad_uids_run)(&queue, &number) == WURST_DONE && number == end.run);
    CALL(dispose)(&queue);
}

static void TEST(all)(void) {
    TEST(opens)();
    TEST(is_closed_handle)();
    TEST(serves_a_request)();
    TEST(joins_parts)();
    TEST(says_what_may_be_incomplete)();
    TEST(fills_a_frame)();
    TEST(refuses)();
    TEST(pauses_and_closes)();
    TEST(discovers)();
    TEST(lists_bad_uids)();
}

#undef PASTED
#undef PASTE
#undef CALL
#undef TEST
