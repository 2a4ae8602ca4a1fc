/* What the tests in C share: checks that are counted, and a device that answers with bytes made by the test. */
#ifndef WURSTLINEN_TESTS_H
#define WURSTLINEN_TESTS_H

#include <stdint.h>
#include <stdio.h>
#include <string.h>
#include <wurstlinen.h>

static int checks_passed = 0;
static int checks_failed = 0;

#define CHECK(condition) check_that((condition), #condition, __FILE__, __LINE__)

static inline void check_that(bool holds, const char *text, const char *file, int line) {
    if (holds) {
        checks_passed++;
    } else {
        checks_failed++;
        printf("%s:%d: failed: %s\n", file, line, text);
    }
}

static inline int report(void) {
    printf("%d passed, %d failed\n", checks_passed, checks_failed);
    return checks_failed > 0;
}

/* The bytes that hexadecimal digits spell, spaces aside. */
static inline size_t bytes_of(const char *digits, uint8_t *bytes) {
    size_t len = 0;
    unsigned byte;
    while (*digits != '\0') {
        if (*digits == ' ') {
            digits++;
        } else if (sscanf(digits, "%2x", &byte) == 1) {
            bytes[len++] = (uint8_t)byte;
            digits += 2;
        }
    }
    return len;
}

static inline bool is_same(const uint8_t *bytes, size_t len, const char *digits) {
    uint8_t wanted[1024];
    return len == bytes_of(digits, wanted) && memcmp(bytes, wanted, len) == 0;
}

/* E1.20: the response of the device that a command goes to, with the sum of its bytes at the end. */
static inline size_t answer(const uint8_t *command, uint8_t type, const uint8_t *data, uint8_t len, uint8_t *reply) {
    unsigned sum = 0;
    memcpy(reply, command, 24);
    reply[2] = (uint8_t)(24 + len);
    memcpy(reply + 3, command + 9, 6);
    memcpy(reply + 9, command + 3, 6);
    reply[16] = type;
    reply[20] = (uint8_t)(command[20] + 1);
    reply[23] = len;
    memcpy(reply + 24, data, len);
    for (size_t i = 0; i < 24u + len; i++) {
        sum += reply[i];
    }
    reply[24 + len] = (uint8_t)(sum >> 8);
    reply[25 + len] = (uint8_t)sum;
    return 26u + len;
}

static const struct wurst_setup setup = {UINT64_C(0x7a7000000001), 1000, WURST_STEADY, 10};
static const struct wurst_request device_info = {UINT64_C(0x123400000007), WURST_GET, 0, 0x0060};
static const uint8_t no_bytes[1] = {0};

#endif
