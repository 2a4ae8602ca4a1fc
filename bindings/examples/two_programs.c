/* Two parts of a program share a line through one controller: the console asks a fixture for its label, and the planner
 * discovers the fixtures. The line is simulated here, by the library's readers and writers. */
#include <stdio.h>
#include <string.h>
#include <wurstlinen.h>

#define DEVICE_LABEL 0x0082
#define FIXTURES 2

struct fixture {
    uint64_t uid;
    const char *label;
    bool is_muted;
};

static struct fixture fixtures[FIXTURES] = {{UINT64_C(0x123400000001), "Stage1", false},
                                            {UINT64_C(0x123400000002), "Stage2", false}};

static const uint64_t source = UINT64_C(0x7a7000000100);

static bool is_addressed(const struct fixture *fixture, uint64_t target) {
    return target == fixture->uid || target == WURST_BROADCAST;
}

/* The fixtures' reply to a branch. If several reply, their bytes overlap. */
static size_t reply_to_branch(const struct wurst_command *asked, uint8_t *reply) {
    uint8_t one[WURST_BRANCH_REPLY_BYTES];
    size_t len = 0;
    memset(reply, 0, sizeof one);
    for (int i = 0; i < FIXTURES; i++) {
        const struct fixture *fixture = &fixtures[i];
        if (fixture->is_muted || fixture->uid < asked->lo || fixture->uid > asked->hi) {
            continue;
        }
        wurst_branch_reply_write(fixture->uid, 7, one, sizeof one, &len);
        for (size_t at = 0; at < len; at++) {
            reply[at] |= one[at];
        }
    }
    return len;
}

static size_t reply_to_request(const struct fixture *fixture, const struct wurst_command *asked, uint8_t *reply) {
    const struct wurst_response response = {fixture->uid, asked->source, 0, WURST_ACK, WURST_GET_RESPONSE, 0,
                                            asked->pid, asked->tn, 0};
    size_t len = 0;
    wurst_response_write(&response, (const uint8_t *)fixture->label, strlen(fixture->label), reply,
                         WURST_MOST_FRAME_BYTES, &len);
    return len;
}

/* The reply to a frame. No bytes are silence. */
static size_t exchange(const uint8_t *frame, size_t frame_len, uint8_t *reply) {
    struct wurst_command asked;
    uint8_t param[WURST_MOST_PARAMETER_BYTES];
    size_t len = 0;
    if (wurst_command_read(frame, frame_len, &asked, param, sizeof param) != WURST_DONE) {
        return 0;
    }
    if (asked.kind == WURST_BRANCH) {
        return reply_to_branch(&asked, reply);
    }
    for (int i = 0; i < FIXTURES; i++) {
        struct fixture *fixture = &fixtures[i];
        if (asked.kind == WURST_UNMUTE) {
            fixture->is_muted = false;
        } else if (is_addressed(fixture, asked.target) && asked.kind == WURST_MUTE) {
            const struct wurst_device device = {fixture->uid, 0, 0, false};
            fixture->is_muted = true;
            wurst_mute_ack_write(&device, asked.source, asked.tn, reply, WURST_MOST_FRAME_BYTES, &len);
        } else if (is_addressed(fixture, asked.target) && asked.pid == DEVICE_LABEL) {
            len = reply_to_request(fixture, &asked, reply);
        }
    }
    return len;
}

static uint32_t serve(struct wurst_controller *queue) {
    uint8_t frame[WURST_MOST_FRAME_BYTES], reply[WURST_MOST_FRAME_BYTES];
    size_t len = 0;
    uint32_t status = wurst_controller_take(queue, frame, sizeof frame, &len);
    while (status == WURST_DONE) {
        status = wurst_controller_deliver(queue, reply, exchange(frame, len, reply));
        if (status == WURST_DONE) {
            status = wurst_controller_take(queue, frame, sizeof frame, &len);
        }
    }
    return status == WURST_NOTHING ? WURST_DONE : status;
}

static uint32_t report_console(struct wurst_controller *queue, uint8_t client) {
    struct wurst_completion done;
    uint8_t label[WURST_MOST_JOINED_BYTES];
    const uint32_t status = wurst_controller_next_completion(queue, client, &done, label, sizeof label);
    if (status == WURST_DONE && done.status == WURST_COMPLETED) {
        printf("console: Completed, %zu bytes: %.*s\n", done.len, (int)done.len, (const char *)label);
    }
    return status;
}

static uint32_t report_planner(struct wurst_controller *queue, uint8_t client) {
    struct wurst_end end;
    struct wurst_device devices[WURST_MOST_DEVICES];
    const uint32_t status =
        wurst_controller_next_discovery(queue, client, &end, devices, WURST_MOST_DEVICES);
    if (status == WURST_DONE && end.fault == WURST_NO_FAULT) {
        printf("planner: %zu fixtures in run %llu\n", end.count, (unsigned long long)end.run);
    }
    return status;
}

static uint32_t run(struct wurst_controller *queue) {
    const struct wurst_setup setup = {source, WURST_DEFAULT_BUDGET, WURST_STEADY, 8};
    const struct wurst_request label = {fixtures[0].uid, WURST_GET, 0, DEVICE_LABEL};
    const uint8_t no_data[1] = {0};
    uint8_t console = 0, planner = 0;
    uint64_t number = 0;
    uint32_t status = wurst_controller_open(queue, &setup);
    if (status == WURST_DONE) status = wurst_controller_join(queue, 4, &console);
    if (status == WURST_DONE) status = wurst_controller_join(queue, 4, &planner);
    if (status == WURST_DONE) status = wurst_controller_submit(queue, console, &label, no_data, 0, &number);
    if (status == WURST_DONE) status = wurst_controller_discover(queue, planner, WURST_FULL_DISCOVERY, &number);
    if (status == WURST_DONE) status = serve(queue);
    if (status == WURST_DONE) status = report_console(queue, console);
    if (status == WURST_DONE) status = report_planner(queue, planner);
    return status;
}

int main(void) {
    struct wurst_controller queue = {0};
    const uint32_t status = run(&queue);
    wurst_controller_dispose(&queue);
    if (status != WURST_DONE) {
        fprintf(stderr, "%s\n", wurst_text(status));
        return 1;
    }
    return 0;
}
