/* The sizes, depths and lengths that both controllers and sessions are given. sizes.c includes this file once for each,
 * with QUEUE, HANDLE and OPEN for it. */
#define PASTED(first, second, third) first##second##_##third
#define PASTE(first, second, third) PASTED(first, second, third)
#define CALL(name) PASTE(wurst_, QUEUE, name)
#define TEST(name) PASTE(tries_, QUEUE, name)

static void TEST(to_open)(struct wurst_setup tried, uint32_t wanted) {
    for (uint32_t search = WURST_STEADY; search <= WURST_QUICK; search++) {
        HANDLE queue = {0};
        tried.search = search;
        CHECK(OPEN(&queue, &tried) == wanted);
        CALL(dispose)(&queue);
    }
}

static void TEST(places)(uint64_t places) {
    struct wurst_setup tried = setup;
    tried.places = (uint16_t)places;
    TEST(to_open)(tried, places <= WURST_MOST_PLACES ? WURST_DONE : WURST_TOO_MANY_PLACES);
}

static void TEST(budget)(uint64_t budget) {
    struct wurst_setup tried = setup;
    tried.budget = budget;
    TEST(to_open)(tried, budget > 0 ? WURST_DONE : WURST_NO_BUDGET);
}

/* As many clients as may join, each with this queue depth, and as much work as the last of them may have. */
static void TEST(depth)(uint64_t places) {
    HANDLE queue = {0};
    struct wurst_setup roomy = setup;
    uint8_t client = 0;
    uint64_t number;
    roomy.places = WURST_MOST_PLACES;
    CHECK(OPEN(&queue, &roomy) == WURST_DONE);
    for (int i = 0; i < WURST_MOST_CLIENTS; i++) {
        CHECK(CALL(join)(&queue, (uint8_t)places, &client) == WURST_DONE && client == i);
    }
    for (uint64_t i = 0; i <= places; i++) {
        const uint32_t status = CALL(submit)(&queue, client, &device_info, no_bytes, 0, &number);
        CHECK(status == (i < places ? WURST_DONE : WURST_FULL));
    }
    for (int i = 0; i <= WURST_MOST_DISCOVERIES; i++) {
        const uint32_t status = CALL(discover)(&queue, client, WURST_FULL_DISCOVERY, &number);
        CHECK(status == (i < WURST_MOST_DISCOVERIES ? WURST_DONE : WURST_FULL));
    }
    CALL(dispose)(&queue);
}

static void TEST(begin)(HANDLE *queue) {
    uint8_t client = 0;
    CHECK(OPEN(queue, &setup) == WURST_DONE);
    CHECK(CALL(join)(queue, 1, &client) == WURST_DONE && client == 0);
}

/* A request whose parameter data have this length. */
static void TEST(parameter)(uint64_t length) {
    HANDLE queue = {0};
    uint64_t number;
    TEST(begin)(&queue);
    const uint32_t status = CALL(submit)(&queue, 0, &device_info, data, length, &number);
    CHECK(status == (length <= WURST_MOST_PARAMETER_BYTES ? WURST_DONE : WURST_DATA_TOO_LONG));
    CALL(dispose)(&queue);
}

/* A request whose answer has this length, in parts of this many bytes. */
static void TEST(answer)(uint64_t length, uint64_t part) {
    HANDLE queue = {0};
    struct wurst_completion done = {0};
    uint64_t number, sent = 0;
    const uint64_t parts = length == 0 ? 1 : (length + part - 1) / part;
    const bool fits = length <= WURST_MOST_JOINED_BYTES && parts <= 512;
    TEST(begin)(&queue);
    CHECK(CALL(submit)(&queue, 0, &device_info, no_bytes, 0, &number) == WURST_DONE);
    while (CALL(take)(&queue, frame, sizeof frame, &len) == WURST_DONE) {
        const uint64_t now = length - sent < part ? length - sent : part;
        sent += now;
        const uint8_t type = sent < length ? WURST_ACK_OVERFLOW : WURST_ACK;
        CHECK(CALL(deliver)(&queue, reply, answer(frame, type, data, (uint8_t)now, reply)) == WURST_DONE);
    }
    CHECK(CALL(next_completion)(&queue, 0, &done, joined, sizeof joined) == WURST_DONE);
    CHECK(done.status == (fits ? WURST_COMPLETED : WURST_INVALID_RESPONSE) && done.len == (fits ? length : 0));
    CALL(dispose)(&queue);
}

static void TEST(length)(uint64_t length) {
    TEST(answer)(length, WURST_MOST_PARAMETER_BYTES);
}

static void TEST(parts)(uint64_t parts) {
    TEST(answer)(parts, 1);
}

/* A reply of this many bytes, which are no packet. */
static void TEST(garbage)(uint64_t length) {
    HANDLE queue = {0};
    struct wurst_completion done = {0};
    uint64_t number;
    TEST(begin)(&queue);
    CHECK(CALL(submit)(&queue, 0, &device_info, no_bytes, 0, &number) == WURST_DONE);
    CHECK(CALL(take)(&queue, frame, sizeof frame, &len) == WURST_DONE);
    const uint32_t status = CALL(deliver)(&queue, data, length);
    CHECK(status == (length <= WURST_MOST_FRAME_BYTES ? WURST_DONE : WURST_REPLY_TOO_LONG));
    if (status == WURST_DONE) {
        CHECK(CALL(next_completion)(&queue, 0, &done, joined, 0) == WURST_DONE && done.status != WURST_NO_MEMORY);
    }
    CALL(dispose)(&queue);
}

static void TEST(all)(void) {
    each(UINT16_MAX, WURST_MOST_PLACES, TEST(places));
    each(UINT64_MAX, WURST_DEFAULT_BUDGET, TEST(budget));
    each(UINT8_MAX, UINT8_MAX, TEST(depth));
    each(MOST_TRIED, WURST_MOST_PARAMETER_BYTES, TEST(parameter));
    each(MOST_TRIED, WURST_MOST_JOINED_BYTES, TEST(length));
    each(1000, 512, TEST(parts));
    each(MOST_TRIED, WURST_MOST_FRAME_BYTES, TEST(garbage));
}

#undef PASTED
#undef PASTE
#undef CALL
#undef TEST
