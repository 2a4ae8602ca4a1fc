/* Measures what a request costs in C, as crates/rdm_bench does in Rattle for `queue 16`: sixteen requests wait, from as
 * many clients; one is taken, answered by two bytes and collected, and another submitted. Each line has the processor
 * time of that in picoseconds: the sample in the middle of 21, and the fastest one. Like rdm_bench, it writes to the
 * log's memory before, so none is taken from the system during a sample: its heap writes to each large block. */
#define _POSIX_C_SOURCE 199309L
#include "tests.h"
#include <stdlib.h>
#include <string.h>
#include <time.h>

#define CLIENTS 16
#define ROUNDS 1000
#define SAMPLES 21
/* A request has five entries, and 13,000 stay unused, as in rdm_bench. */
#define ENTRIES (5 * (ROUNDS * SAMPLES + CLIENTS) + 13000)
#define LARGE (1 << 20)

struct wurst_block {
    bool is_there;
    unsigned char *at;
};

static unsigned char no_block;

struct wurst_block rattle_alloc(size_t size, size_t align) {
    unsigned char *at = malloc(size > 0 ? size : align);
    if (at != NULL && size >= LARGE) {
        memset(at, 1, size);
    }
    return (struct wurst_block){at != NULL, at != NULL ? at : &no_block};
}

struct wurst_block rattle_realloc(unsigned char *at, size_t kept, size_t size, size_t align) {
    (void)kept;
    unsigned char *moved = realloc(at, size > 0 ? size : align);
    return (struct wurst_block){moved != NULL, moved != NULL ? moved : &no_block};
}

void rattle_dealloc(unsigned char *at) {
    free(at);
}

static const struct wurst_setup whole_setup = {UINT64_C(0x7a7000000100), WURST_DEFAULT_BUDGET, WURST_STEADY,
                                               WURST_MOST_PLACES};
static const struct wurst_request request = {UINT64_C(0x123400000001), WURST_GET, 1, 0x0060};
static const uint8_t param[1] = {1};

static uint64_t now(void) {
    struct timespec time;
    clock_gettime(CLOCK_PROCESS_CPUTIME_ID, &time);
    return (uint64_t)time.tv_sec * 1000000000 + (uint64_t)time.tv_nsec;
}

static int compare(const void *a, const void *b) {
    const uint64_t first = *(const uint64_t *)a, second = *(const uint64_t *)b;
    return (first > second) - (first < second);
}

/* Times a kind of queue: a function that makes one turn of a client, and fails by returning false. */
static bool time_turns(const char *name, bool (*turn)(uint8_t client)) {
    uint64_t times[SAMPLES], turns = 0;
    for (int i = 0; i < SAMPLES; i++) {
        const uint64_t began = now();
        for (int round = 0; round < ROUNDS; round++) {
            if (!turn((uint8_t)(turns++ % CLIENTS))) {
                return false;
            }
        }
        times[i] = (now() - began) * 1000 / ROUNDS;
    }
    qsort(times, SAMPLES, sizeof times[0], compare);
    printf("%s in C: %llu ps each, %llu at least\n", name, (unsigned long long)times[SAMPLES / 2],
           (unsigned long long)times[0]);
    return true;
}

static uint8_t frame[WURST_MOST_FRAME_BYTES], reply[WURST_MOST_FRAME_BYTES], buffer[WURST_MOST_PARAMETER_BYTES];
static uint8_t kept[WURST_MOST_FRAME_BYTES];
static size_t len, kept_len;
static uint64_t number;

/* The kept reply with this frame's transaction number, and its checksum. */
static size_t renumbered(void) {
    memcpy(reply, kept, kept_len);
    const unsigned sum = (unsigned)(reply[kept_len - 2] << 8 | reply[kept_len - 1]) - reply[15] + frame[15];
    reply[15] = frame[15];
    reply[kept_len - 2] = (uint8_t)(sum >> 8);
    reply[kept_len - 1] = (uint8_t)sum;
    return kept_len;
}

static struct wurst_controller controller = {0};
static struct wurst_session session = {0};

static bool turn_without_log(uint8_t client) {
    struct wurst_completion done;
    return wurst_controller_take(&controller, frame, sizeof frame, &len) == WURST_DONE &&
           wurst_controller_deliver(&controller, reply, renumbered()) == WURST_DONE &&
           wurst_controller_next_completion(&controller, client, &done, buffer, sizeof buffer) == WURST_DONE &&
           done.len == 2 &&
           wurst_controller_submit(&controller, client, &request, param, 1, &number) == WURST_DONE;
}

static bool turn_with_log(uint8_t client) {
    struct wurst_completion done;
    return wurst_session_take(&session, frame, sizeof frame, &len) == WURST_DONE &&
           wurst_session_deliver(&session, reply, renumbered()) == WURST_DONE &&
           wurst_session_next_completion(&session, client, &done, buffer, sizeof buffer) == WURST_DONE &&
           done.len == 2 && wurst_session_submit(&session, client, &request, param, 1, &number) == WURST_DONE;
}

static bool starts(void) {
    uint8_t client = 0;
    bool is_done = wurst_controller_open(&controller, &whole_setup) == WURST_DONE &&
                   wurst_session_open(&session, &whole_setup, ENTRIES) == WURST_DONE;
    for (int i = 0; i < CLIENTS; i++) {
        is_done = is_done && wurst_controller_join(&controller, 255, &client) == WURST_DONE &&
                  wurst_session_join(&session, 255, &client) == WURST_DONE;
    }
    for (uint8_t i = 0; i < CLIENTS; i++) {
        is_done = is_done && wurst_controller_submit(&controller, i, &request, param, 1, &number) == WURST_DONE &&
                  wurst_session_submit(&session, i, &request, param, 1, &number) == WURST_DONE;
    }
    return is_done && wurst_request_write(&request, param, 1, whole_setup.source, 0, frame, sizeof frame, &len) == 0;
}

int main(void) {
    if (!starts()) {
        return 1;
    }
    kept_len = answer(frame, 0, (const uint8_t *)"\0\1", 2, kept);
    const bool is_done = time_turns("queue without log", turn_without_log) &&
                         time_turns("queue with log", turn_with_log);
    wurst_controller_dispose(&controller);
    wurst_session_dispose(&session);
    return is_done ? 0 : 1;
}
