/* Preloaded after the library under test, whose first look-up of the symbol TEST_NO_SYMBOL then finds nothing. */
#define _GNU_SOURCE
#include <dlfcn.h>
#include <stdbool.h>
#include <stdlib.h>
#include <string.h>

/* Of the system's function, on the machines that Debian knows. */
static const char *const versions[] = {"GLIBC_2.34", "GLIBC_2.17", "GLIBC_2.4", "GLIBC_2.2.5", "GLIBC_2.0"};

void *dlsym(void *handle, const char *symbol) {
    static bool is_hidden = false;
    const char *const absent = getenv("TEST_NO_SYMBOL");
    void *(*next)(void *, const char *) = NULL;
    if (absent != NULL && !is_hidden && strcmp(symbol, absent) == 0) {
        is_hidden = true;
        return NULL;
    }
    for (size_t i = 0; next == NULL && i < sizeof versions / sizeof versions[0]; i++) {
        next = dlvsym(RTLD_NEXT, "dlsym", versions[i]);
    }
    return next != NULL ? next(handle, symbol) : NULL;
}
