// Watches a part of a program, from one reading of the clock to the next. COPY_WATCH is the number of the first
// reading, counted from 1.
//
// It replaces the C library's memcpy, memmove and memset, and counts the calls for 2,048 bytes or more. If COPY_STEPS
// is set, it also steps through the program's instructions, and counts them. When the program ends, it writes four
// numbers to the file descriptor in COPY_REPORT: the copies, how many of them have 32,768 bytes or more, the fills, and
// the instructions.
//
// Copies inside the C library aren't seen, such as that of a block that realloc moves.
#define _GNU_SOURCE
#include <signal.h>
#include <stdbool.h>
#include <stddef.h>
#include <stdio.h>
#include <stdlib.h>
#include <sys/syscall.h>
#include <time.h>
#include <ucontext.h>
#include <unistd.h>

// The least number of bytes that is counted, and the size of a set of 1,024 devices.
enum { LARGE = 2048, SET = 32768 };
// The flag of the processor that makes it stop after each instruction.
enum { TRAP_FLAG = 0x100 };

static unsigned long readings;
static unsigned long watched;
static unsigned long copies;
static unsigned long sets;
static unsigned long fills;
static unsigned long instructions;
static bool is_stepping;
static volatile bool watches;
// Whether the instructions are this library's own.
static volatile bool is_inside;

static void step(int number, siginfo_t *info, void *context) {
    greg_t *flags = &((ucontext_t *)context)->uc_mcontext.gregs[REG_EFL];
    bool steps = watches && !is_inside;
    (void)number;
    (void)info;
    instructions += steps;
    *flags = steps ? *flags | TRAP_FLAG : *flags & ~TRAP_FLAG;
}

// Turns stepping off, and on again.
static void enter(void) {
    is_inside = true;
}

static void leave(void) {
    is_inside = false;
    if (watches && is_stepping) {
        raise(SIGTRAP);
    }
}

__attribute__((constructor)) static void begin(void) {
    const char *number = getenv("COPY_WATCH");
    struct sigaction action = {.sa_sigaction = step, .sa_flags = SA_SIGINFO};
    watched = number == NULL ? 0 : strtoul(number, NULL, 10);
    is_stepping = getenv("COPY_STEPS") != NULL;
    sigaction(SIGTRAP, &action, NULL);
}

__attribute__((destructor)) static void end(void) {
    const char *report = getenv("COPY_REPORT");
    if (report != NULL) {
        dprintf(atoi(report), "%lu %lu %lu %lu\n", copies, sets, fills, instructions);
    }
}

// A program with threads ends by this call, without destructors.
void _exit(int status) {
    watches = false;
    end();
    syscall(SYS_exit_group, status);
    __builtin_unreachable();
}

int clock_gettime(clockid_t clock, struct timespec *time) {
    readings++;
    watches = false;
    int status = (int)syscall(SYS_clock_gettime, clock, time);
    if (readings == watched) {
        watches = true;
        leave();
    }
    return status;
}

static void count_copy(size_t size) {
    if (watches) {
        copies += size >= LARGE;
        sets += size >= SET;
    }
}

// The bytes are volatile, since a compiler would turn the loops into calls of these same functions.
static void copy_up(volatile unsigned char *to, const volatile unsigned char *from, size_t size) {
    for (size_t at = 0; at < size; at++) {
        to[at] = from[at];
    }
}

static void copy_down(volatile unsigned char *to, const volatile unsigned char *from, size_t size) {
    for (size_t at = size; at > 0; at--) {
        to[at - 1] = from[at - 1];
    }
}

void *memmove(void *to, const void *from, size_t size) {
    enter();
    count_copy(size);
    if (to < from) {
        copy_up(to, from, size);
    } else {
        copy_down(to, from, size);
    }
    leave();
    return to;
}

void *memcpy(void *to, const void *from, size_t size) {
    return memmove(to, from, size);
}

void *memset(void *to, int byte, size_t size) {
    volatile unsigned char *bytes = to;
    enter();
    if (watches) {
        fills += size >= LARGE;
    }
    for (size_t at = 0; at < size; at++) {
        bytes[at] = (unsigned char)byte;
    }
    leave();
    return to;
}
