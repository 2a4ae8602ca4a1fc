/* Preloaded into the daemon under test, before the library. It changes nothing without these variables:
 *   TEST_SCAN_MS      the detector looks for adapters this often, not every 20 seconds
 *   TEST_STUCK_FILE   each write to a file with this name
 *   TEST_STUCK_MS     takes this long
 *   TEST_REVISION     OLA's version has this revision
 *   TEST_SENDS        if set, it is reported when another thread than the main one answers a client */
#define _GNU_SOURCE
#include <dlfcn.h>
#include <errno.h>
#include <stdio.h>
#include <stdlib.h>
#include <string.h>
#include <sys/socket.h>
#include <sys/syscall.h>
#include <time.h>
#include <unistd.h>

#define SCAN_MS 20000
#define PATH_BYTES 4096

static unsigned int number(const char *name, unsigned int otherwise) {
    const char *const text = getenv(name);
    return text != NULL ? (unsigned int)strtoul(text, NULL, 10) : otherwise;
}

/* ola::io::SelectServer::RegisterRepeatingTimeout(unsigned int, ola::Callback0<bool> *) */
void *_ZN3ola2io12SelectServer24RegisterRepeatingTimeoutEjPNS_9Callback0IbEE(void *server, unsigned int ms,
                                                                              void *callback) {
    void *(*const next)(void *, unsigned int, void *) =
        dlsym(RTLD_NEXT, "_ZN3ola2io12SelectServer24RegisterRepeatingTimeoutEjPNS_9Callback0IbEE");
    return next(server, ms == SCAN_MS ? number("TEST_SCAN_MS", ms) : ms, callback);
}

/* ola::base::Version::GetRevision() */
unsigned int _ZN3ola4base7Version11GetRevisionEv(void) {
    unsigned int (*const next)(void) = dlsym(RTLD_NEXT, "_ZN3ola4base7Version11GetRevisionEv");
    return number("TEST_REVISION", next());
}

static int is_stuck(int file) {
    const char *const stuck = getenv("TEST_STUCK_FILE");
    char link[64];
    char path[PATH_BYTES];
    ssize_t size;
    if (stuck == NULL) {
        return 0;
    }
    snprintf(link, sizeof link, "/proc/self/fd/%d", file);
    size = readlink(link, path, sizeof path - 1);
    if (size < 0) {
        return 0;
    }
    path[size] = '\0';
    return strcmp(path, stuck) == 0;
}

ssize_t write(int file, const void *bytes, size_t count) {
    ssize_t (*const next)(int, const void *, size_t) = dlsym(RTLD_NEXT, "write");
    const int before = errno;
    if (is_stuck(file)) {
        const unsigned int ms = number("TEST_STUCK_MS", 0);
        const struct timespec wait = {ms / 1000, (long)(ms % 1000) * 1000000};
        nanosleep(&wait, NULL);
    }
    errno = before;
    return next(file, bytes, count);
}

/* OLA answers its clients by this call. */
ssize_t send(int socket, const void *bytes, size_t count, int flags) {
    ssize_t (*const next)(int, const void *, size_t, int) = dlsym(RTLD_NEXT, "send");
    if (getenv("TEST_SENDS") != NULL && syscall(SYS_gettid) != getpid()) {
        fprintf(stderr, "a client is answered on another thread\n");
    }
    return next(socket, bytes, count, flags);
}
