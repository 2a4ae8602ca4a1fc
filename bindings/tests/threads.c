/* Two threads share a controller with a mutex of their own, while a third one serves its line. */
#include "tests.h"
#include <pthread.h>

#define REQUESTS 2000

static struct wurst_controller queue = {0};
static pthread_mutex_t lock = PTHREAD_MUTEX_INITIALIZER;
static bool is_over = false;

struct work {
    uint8_t client;
    int completed;
};

static void *ask(void *given) {
    struct work *work = given;
    struct wurst_completion done;
    uint8_t data[8];
    uint64_t number;
    int accepted = 0;
    while (work->completed < REQUESTS) {
        pthread_mutex_lock(&lock);
        if (accepted < REQUESTS &&
            wurst_controller_submit(&queue, work->client, &device_info, no_bytes, 0, &number) == WURST_DONE) {
            accepted++;
        }
        if (wurst_controller_next_completion(&queue, work->client, &done, data, sizeof data) == WURST_DONE) {
            work->completed += done.status == WURST_COMPLETED && done.len == 4;
        }
        pthread_mutex_unlock(&lock);
    }
    return NULL;
}

static void *serve(void *unused) {
    uint8_t frame[257], reply[257];
    size_t len;
    bool goes_on = true;
    (void)unused;
    while (goes_on) {
        pthread_mutex_lock(&lock);
        const uint32_t status = wurst_controller_take(&queue, frame, sizeof frame, &len);
        goes_on = !is_over;
        pthread_mutex_unlock(&lock);
        if (status == WURST_DONE) {
            len = answer(frame, 0, (const uint8_t *)"four", 4, reply);
            pthread_mutex_lock(&lock);
            wurst_controller_deliver(&queue, reply, len);
            pthread_mutex_unlock(&lock);
        }
    }
    return NULL;
}

int main(void) {
    struct work works[2] = {{0, 0}, {0, 0}};
    pthread_t server, askers[2];
    bool is_idle = false;
    CHECK(wurst_controller_open(&queue, &setup) == WURST_DONE);
    for (int i = 0; i < 2; i++) {
        CHECK(wurst_controller_join(&queue, 5, &works[i].client) == WURST_DONE);
    }
    CHECK(pthread_create(&server, NULL, serve, NULL) == 0);
    for (int i = 0; i < 2; i++) {
        CHECK(pthread_create(&askers[i], NULL, ask, &works[i]) == 0);
    }
    for (int i = 0; i < 2; i++) {
        pthread_join(askers[i], NULL);
        CHECK(works[i].completed == REQUESTS);
    }
    pthread_mutex_lock(&lock);
    is_over = true;
    pthread_mutex_unlock(&lock);
    pthread_join(server, NULL);
    CHECK(wurst_controller_is_idle(&queue, &is_idle) == WURST_DONE && is_idle);
    wurst_controller_dispose(&queue);
    return report();
}
