/* The arguments of the process, and errno, for a program that is compiled for another kind of machine. The kit has
 * these four functions for x86-64 only, as objects, so here they are by the contracts of its crate os. The gate
 * compares both. */
#include <errno.h>
#include <stddef.h>
#include <sys/types.h>

size_t rattle_arg_count(void);
ssize_t rattle_arg(size_t i, unsigned char *buf, size_t len);
int rattle_errno(void);
void rattle_set_errno(int error);

static int count;
static char **words;

/* glibc calls this before main, with main's arguments. */
__attribute__((constructor)) static void keep(int argc, char **argv) {
    count = argc;
    words = argv;
}

size_t rattle_arg_count(void) {
    return (size_t)count;
}

/* Puts argument i at the start of buf, and returns its length. -1: there is no such argument. -2: it doesn't fit, and
 * buf is full of its beginning. */
ssize_t rattle_arg(size_t i, unsigned char *buf, size_t len) {
    if (i >= (size_t)count || words[i] == NULL)
        return -1;
    const char *word = words[i];
    size_t at = 0;
    for (; word[at] != '\0'; at++) {
        if (at == len)
            return -2;
        buf[at] = (unsigned char)word[at];
    }
    return (ssize_t)at;
}

int rattle_errno(void) {
    return errno;
}

void rattle_set_errno(int error) {
    errno = error;
}
