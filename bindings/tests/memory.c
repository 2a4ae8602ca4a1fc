/* The heap: each allocation fails in turn, after 1,000,000 requests as much memory is allocated as at the start, and
 * each call takes as much as the page says whose path is this program's argument, docs/MEMORY.md. This program has a
 * heap of its own in place of heap.c. */
#include "tests.h"
#include <stdlib.h>

struct block {
    bool is_there;
    unsigned char *at;
};

struct block rattle_alloc(size_t size, size_t align);
struct block rattle_realloc(unsigned char *at, size_t kept, size_t size, size_t align);
void rattle_dealloc(unsigned char *at);

/* What precedes each block: how many bytes it has. It is as large as a block's alignment. */
#define HEAD 16

static unsigned char no_block;
static size_t blocks = 0, bytes = 0;
/* How many allocations are left before one fails; SIZE_MAX: none fails. */
static size_t left = SIZE_MAX;

static bool is_refused(void) {
    if (left == SIZE_MAX) {
        return false;
    }
    return left-- == 0;
}

static size_t size_of(const unsigned char *at) {
    size_t size;
    memcpy(&size, at - HEAD, sizeof size);
    return size;
}

/* A block at this place, if there is memory. */
static struct block made(unsigned char *head, size_t size) {
    struct block block = {head != NULL, &no_block};
    if (head != NULL) {
        memcpy(head, &size, sizeof size);
        block.at = head + HEAD;
        bytes += size;
    }
    return block;
}

struct block rattle_alloc(size_t size, size_t align) {
    const size_t wanted = size > 0 ? size : align;
    const struct block block = made(is_refused() ? NULL : malloc(HEAD + wanted), wanted);
    blocks += block.is_there;
    return block;
}

struct block rattle_realloc(unsigned char *at, size_t kept, size_t size, size_t align) {
    const size_t wanted = size > 0 ? size : align, before = size_of(at);
    const struct block block = made(is_refused() ? NULL : realloc(at - HEAD, HEAD + wanted), wanted);
    (void)kept;
    bytes -= block.is_there ? before : 0;
    return block;
}

void rattle_dealloc(unsigned char *at) {
    blocks--;
    bytes -= size_of(at);
    free(at - HEAD);
}

static uint8_t frame[257], reply[258], data[64];
static size_t len;

/* One request from open to dispose. Returns DONE, or the first other status of a call. Also writes whether an
 * allocation failed. */
static uint32_t one_request(bool *lacked_memory) {
    struct wurst_controller queue = {0};
    struct wurst_completion done = {0};
    uint8_t client = 0;
    uint64_t number;
    uint32_t status = wurst_controller_open(&queue, &setup);
    if (status == WURST_DONE) status = wurst_controller_join(&queue, 10, &client);
    if (status == WURST_DONE) status = wurst_controller_submit(&queue, client, &device_info, no_bytes, 0, &number);
    if (status == WURST_DONE) status = wurst_controller_take(&queue, frame, sizeof frame, &len);
    if (status == WURST_DONE) {
        status = wurst_controller_deliver(&queue, reply, answer(frame, 0, (const uint8_t *)"four", 4, reply));
    }
    if (status == WURST_DONE) status = wurst_controller_next_completion(&queue, client, &done, data, sizeof data);
    *lacked_memory = status == WURST_OUT_OF_MEMORY || done.status == WURST_NO_MEMORY;
    wurst_controller_dispose(&queue);
    return status;
}

/* The same with a session, which continues with a fresh log at the end. */
static uint32_t one_rotation(bool *lacked_memory) {
    struct wurst_session queue = {0};
    struct wurst_log log = {0};
    struct wurst_completion done = {0};
    uint8_t client = 0;
    uint64_t number;
    size_t count = 0;
    uint32_t status = wurst_session_open(&queue, &setup, 20);
    if (status == WURST_DONE) status = wurst_session_join(&queue, 10, &client);
    if (status == WURST_DONE) status = wurst_session_submit(&queue, client, &device_info, no_bytes, 0, &number);
    if (status == WURST_DONE) status = wurst_session_take(&queue, frame, sizeof frame, &len);
    if (status == WURST_DONE) {
        status = wurst_session_deliver(&queue, reply, answer(frame, 0, (const uint8_t *)"four", 4, reply));
    }
    if (status == WURST_DONE) status = wurst_session_next_completion(&queue, client, &done, data, sizeof data);
    if (status == WURST_DONE) {
        status = wurst_session_rotate(&queue, 30, &log);
        /* A rotation that lacks memory changes nothing. */
        CHECK(log.is_open == (status == WURST_DONE));
        CHECK(wurst_session_entry_count(&queue, &count) == WURST_DONE && count == (status == WURST_DONE ? 0 : 6));
        CHECK(wurst_session_submit(&queue, client, &device_info, no_bytes, 0, &number) == WURST_DONE && number == 1);
    }
    *lacked_memory = status == WURST_OUT_OF_MEMORY || done.status == WURST_NO_MEMORY;
    wurst_session_dispose(&queue);
    wurst_log_dispose(&log);
    return status;
}

/* A session whose log is drained while a request waits, first into new memory, and then into the memory that it had. */
static uint32_t one_drain(bool *lacked_memory) {
    struct wurst_session queue = {0};
    struct wurst_log log = {0};
    uint8_t client = 0;
    uint64_t number, first = 99;
    size_t count = 0;
    uint32_t status = wurst_session_open(&queue, &setup, 20);
    if (status == WURST_DONE) status = wurst_session_join(&queue, 10, &client);
    if (status == WURST_DONE) status = wurst_session_submit(&queue, client, &device_info, no_bytes, 0, &number);
    if (status == WURST_DONE) {
        status = wurst_session_drain(&queue, 30, &log, &first);
        /* A drain that lacks memory changes nothing. */
        CHECK(log.is_open == (status == WURST_DONE) && first == (status == WURST_DONE ? 0 : 99));
        CHECK(wurst_session_entry_count(&queue, &count) == WURST_DONE && count == (status == WURST_DONE ? 0 : 2));
    }
    if (status == WURST_DONE) {
        const size_t before = bytes;
        left = 0;
        CHECK(wurst_session_drain(&queue, 30, &log, &first) == WURST_DONE && first == 2 && bytes == before);
        left = SIZE_MAX;
    }
    *lacked_memory = status == WURST_OUT_OF_MEMORY;
    wurst_session_dispose(&queue);
    wurst_log_dispose(&log);
    return status;
}

/* A session whose log keeps nothing, and its first drain. */
static uint32_t one_without_log(bool *lacked_memory) {
    struct wurst_session queue = {0};
    struct wurst_log log = {0};
    uint8_t client = 0;
    uint64_t number, first = 99;
    uint32_t status = wurst_session_open_without_log(&queue, &setup);
    CHECK(queue.is_open == (status == WURST_DONE));
    if (status == WURST_DONE) status = wurst_session_join(&queue, 10, &client);
    if (status == WURST_DONE) status = wurst_session_submit(&queue, client, &device_info, no_bytes, 0, &number);
    if (status == WURST_DONE) {
        status = wurst_session_drain(&queue, 30, &log, &first);
        CHECK(log.is_open == (status == WURST_DONE) && first == (status == WURST_DONE ? 2 : 99));
    }
    *lacked_memory = status == WURST_OUT_OF_MEMORY;
    wurst_session_dispose(&queue);
    wurst_log_dispose(&log);
    return status;
}

/* Lets each allocation fail in turn, until none is left to fail. */
static void refuses_each(uint32_t (*scene)(bool *), const char *name) {
    size_t allocations = 0;
    bool lacked_memory = true;
    while (lacked_memory) {
        left = allocations;
        const uint32_t status = scene(&lacked_memory);
        left = SIZE_MAX;
        CHECK(blocks == 0 && bytes == 0);
        CHECK(status == WURST_OUT_OF_MEMORY || status == WURST_DONE);
        allocations++;
    }
    printf("allocations of %s: %zu\n", name, allocations - 1);
    CHECK(allocations > 5);
}

/* Without memory for its data, a request ends with status 18. */
static void ends_without_memory(void) {
    struct wurst_controller queue = {0};
    struct wurst_completion done = {0};
    uint8_t client = 0;
    uint64_t number;
    CHECK(wurst_controller_open(&queue, &setup) == WURST_DONE);
    CHECK(wurst_controller_join(&queue, 1, &client) == WURST_DONE);
    CHECK(wurst_controller_submit(&queue, client, &device_info, no_bytes, 0, &number) == WURST_DONE);
    CHECK(wurst_controller_take(&queue, frame, sizeof frame, &len) == WURST_DONE);
    len = answer(frame, 0, (const uint8_t *)"four", 4, reply);
    left = 0;
    CHECK(wurst_controller_deliver(&queue, reply, len) == WURST_DONE);
    left = SIZE_MAX;
    CHECK(wurst_controller_next_completion(&queue, client, &done, data, sizeof data) == WURST_DONE);
    CHECK(done.status == 18 && done.len == 0);
    wurst_controller_dispose(&queue);
}

static void refuses_an_agent(void) {
    const struct wurst_start start = {setup.source, 1000, WURST_FULL_DISCOVERY, WURST_STEADY, 0};
    struct wurst_agent agent = {0};
    left = 0;
    CHECK(wurst_agent_start(&agent, &start, (const uint64_t *)frame, 0) == WURST_OUT_OF_MEMORY);
    CHECK(!agent.is_open && blocks == 0 && bytes == 0);
    left = SIZE_MAX;
    CHECK(wurst_agent_start(&agent, &start, (const uint64_t *)frame, 0) == WURST_DONE && blocks == 1);
    wurst_agent_dispose(&agent);
    CHECK(blocks == 0 && bytes == 0);
}

static void serves_a_million(void) {
    struct wurst_controller queue = {0};
    struct wurst_completion done;
    uint8_t client = 0;
    uint64_t number = 0;
    size_t completed = 0, before;
    CHECK(wurst_controller_open(&queue, &setup) == WURST_DONE);
    CHECK(wurst_controller_join(&queue, 10, &client) == WURST_DONE);
    before = bytes;
    for (uint64_t i = 0; i < 1000000; i++) {
        if (wurst_controller_submit(&queue, client, &device_info, no_bytes, 0, &number) != WURST_DONE || number != i) {
            break;
        }
        wurst_controller_take(&queue, frame, sizeof frame, &len);
        wurst_controller_deliver(&queue, reply, answer(frame, 0, (const uint8_t *)"four", 4, reply));
        wurst_controller_next_completion(&queue, client, &done, data, sizeof data);
        completed += done.status == WURST_COMPLETED && done.len == 4 && done.number == i;
    }
    CHECK(completed == 1000000);
    CHECK(bytes == before);
    wurst_controller_dispose(&queue);
    CHECK(blocks == 0 && bytes == 0);
}

/* No call but a delivery allocates, and what that allocates is freed by the collect. */
static void keeps_nothing_of_a_million(void) {
    struct wurst_session queue = {0};
    struct wurst_completion done;
    uint8_t client = 0;
    uint64_t number = 0;
    size_t completed = 0, count = 99;
    CHECK(wurst_session_open_without_log(&queue, &setup) == WURST_DONE);
    CHECK(wurst_session_join(&queue, 10, &client) == WURST_DONE);
    const size_t before = bytes;
    for (uint64_t i = 0; i < 1000000; i++) {
        wurst_session_submit(&queue, client, &device_info, no_bytes, 0, &number);
        wurst_session_take(&queue, frame, sizeof frame, &len);
        wurst_session_deliver(&queue, reply, answer(frame, 0, (const uint8_t *)"four", 4, reply));
        wurst_session_next_completion(&queue, client, &done, data, sizeof data);
        completed += done.status == WURST_COMPLETED && done.len == 4 && done.number == i;
    }
    CHECK(completed == 1000000 && bytes == before);
    CHECK(wurst_session_entry_count(&queue, &count) == WURST_DONE && count == 0);
    wurst_session_dispose(&queue);
    CHECK(blocks == 0 && bytes == 0);
}

static void rotates_a_thousand_times(void) {
    struct wurst_session queue = {0};
    struct wurst_log log = {0};
    size_t rotated = 0;
    CHECK(wurst_session_open(&queue, &setup, 100) == WURST_DONE);
    const size_t before = bytes;
    for (int i = 0; i < 1000; i++) {
        rotated += wurst_session_rotate(&queue, 100, &log) == WURST_DONE;
        wurst_log_dispose(&log);
    }
    CHECK(rotated == 1000 && bytes == before);
    wurst_session_dispose(&queue);
    CHECK(blocks == 0 && bytes == 0);
}

/* A session that never ends, whose log is drained before its replies come. No drain but the first allocates. */
static void drains_a_thousand_times(void) {
    struct wurst_session queue = {0};
    struct wurst_log log = {0};
    struct wurst_completion done;
    uint8_t client = 0;
    uint64_t number, first = 0, next = 1;
    size_t count, drained = 0;
    CHECK(wurst_session_open(&queue, &setup, 20) == WURST_DONE);
    CHECK(wurst_session_join(&queue, 10, &client) == WURST_DONE);
    CHECK(wurst_session_drain(&queue, 20, &log, &first) == WURST_DONE && first == 0);
    const size_t before = bytes;
    for (int i = 0; i < 1000; i++) {
        wurst_session_submit(&queue, client, &device_info, no_bytes, 0, &number);
        wurst_session_take(&queue, frame, sizeof frame, &len);
        drained += wurst_session_drain(&queue, 0, &log, &first) == WURST_DONE && first == next;
        wurst_log_entry_count(&log, &count);
        next = first + count;
        wurst_session_deliver(&queue, reply, answer(frame, 0, (const uint8_t *)"four", 4, reply));
        wurst_session_next_completion(&queue, client, &done, data, sizeof data);
    }
    /* A request has five entries. The last three are still stored. */
    CHECK(drained == 1000 && bytes == before && next == 1 + 1000 * 5 - 3);
    wurst_session_dispose(&queue);
    wurst_log_dispose(&log);
    CHECK(blocks == 0 && bytes == 0);
}

/* The digits of a text as one number, whatever separates them. */
static size_t number_in(const char *text) {
    size_t number = 0;
    for (; *text != '\0'; text++) {
        number = *text >= '0' && *text <= '9' ? number * 10 + (size_t)(*text - '0') : number;
    }
    return number;
}

/* The number in the page's first line that begins like this; 0 if there is none. */
static size_t page_says(FILE *page, const char *row) {
    char line[300];
    const size_t length = strlen(row);
    rewind(page);
    while (fgets(line, sizeof line, page) != NULL) {
        if (strncmp(line, row, length) == 0) {
            return number_in(line + length);
        }
    }
    return 0;
}

/* The page has what a call takes at most, by any compiler, and at most a tenth more than that. */
static void takes(FILE *page, const char *row, size_t taken) {
    const size_t said = page_says(page, row);
    printf("%s %zu bytes taken, and the page says %zu\n", row, taken, said);
    CHECK(taken <= said && said - said / 10 <= taken);
}

/* How many bytes a session takes with a log for this many entries, and one more. */
static size_t session_of(size_t entries) {
    struct wurst_session queue = {0};
    CHECK(wurst_session_open(&queue, &setup, entries) == WURST_DONE);
    const size_t taken = bytes;
    wurst_session_dispose(&queue);
    return taken;
}

/* How many bytes a client of this queue depth takes. */
static size_t client_of(struct wurst_controller *queue, uint8_t places) {
    uint8_t client;
    const size_t before = bytes;
    CHECK(wurst_controller_join(queue, places, &client) == WURST_DONE);
    return bytes - before;
}

static void takes_what_the_page_says(FILE *page) {
    const struct wurst_start start = {setup.source, 1000, WURST_FULL_DISCOVERY, WURST_STEADY, 0};
    struct wurst_setup roomy = setup;
    struct wurst_controller queue = {0};
    struct wurst_session session = {0};
    struct wurst_agent agent = {0};
    CHECK(wurst_agent_start(&agent, &start, (const uint64_t *)frame, 0) == WURST_DONE);
    takes(page, "| an agent |", bytes);
    wurst_agent_dispose(&agent);
    CHECK(wurst_session_open_without_log(&session, &setup) == WURST_DONE);
    const size_t without_log = bytes;
    wurst_session_dispose(&session);
    CHECK(session_of(0) - without_log == (session_of(1000) - session_of(0)) / 1000);
    takes(page, "| each entry of a log |", (session_of(1000) - session_of(0)) / 1000);
    roomy.places = WURST_MOST_PLACES;
    CHECK(wurst_controller_open(&queue, &roomy) == WURST_DONE);
    takes(page, "| a controller |", bytes);
    takes(page, "| a session,", without_log);
    const size_t client = client_of(&queue, 0);
    takes(page, "| a client |", client);
    takes(page, "| each request of its queue depth |", (client_of(&queue, 200) - client) / 200);
    wurst_controller_dispose(&queue);
    CHECK(blocks == 0 && bytes == 0);
}

int main(int count, char **arguments) {
    FILE *page = count == 2 ? fopen(arguments[1], "r") : NULL;
    if (page == NULL) {
        puts("usage: memory PAGE\n0 passed, 1 failed");
        return 1;
    }
    refuses_each(one_request, "a controller with one request");
    refuses_each(one_rotation, "a session with one request and a rotation");
    refuses_each(one_drain, "a session with one request and two drains");
    refuses_each(one_without_log, "a session without a log");
    ends_without_memory();
    refuses_an_agent();
    serves_a_million();
    keeps_nothing_of_a_million();
    rotates_a_thousand_times();
    drains_a_thousand_times();
    takes_what_the_page_says(page);
    fclose(page);
    return report();
}
