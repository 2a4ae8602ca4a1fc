/* Compares bindings/c/arguments.c with the kit's own objects, on x86-64, where both run. Those have kit_ before the
 * names of their functions here. */
#include <errno.h>
#include <stdio.h>
#include <string.h>
#include <sys/types.h>

#define MOST_BYTES 304
#define FIRST_ERROR (-5)
#define LAST_ERROR 200

size_t rattle_arg_count(void);
size_t kit_rattle_arg_count(void);
ssize_t rattle_arg(size_t i, unsigned char *buf, size_t len);
ssize_t kit_rattle_arg(size_t i, unsigned char *buf, size_t len);
int rattle_errno(void);
int kit_rattle_errno(void);
void rattle_set_errno(int error);
void kit_rattle_set_errno(int error);

static long compared, differ;

static void compare(int is_same) {
    compared++;
    differ += !is_same;
}

/* An argument, or one that isn't there, into buffers of each length. */
static void compare_argument(size_t i) {
    for (size_t len = 0; len < MOST_BYTES; len++) {
        unsigned char ours[MOST_BYTES], kits[MOST_BYTES];
        memset(ours, 7, MOST_BYTES);
        memset(kits, 7, MOST_BYTES);
        ssize_t result = rattle_arg(i, ours, len);
        compare(result == kit_rattle_arg(i, kits, len) && memcmp(ours, kits, MOST_BYTES) == 0);
    }
}

static void compare_errors(void) {
    for (int error = FIRST_ERROR; error < LAST_ERROR; error++) {
        rattle_set_errno(error);
        compare(kit_rattle_errno() == error && errno == error);
        kit_rattle_set_errno(error + 1);
        compare(rattle_errno() == error + 1);
    }
}

int main(void) {
    compare(rattle_arg_count() == kit_rattle_arg_count());
    for (size_t i = 0; i < rattle_arg_count() + 3; i++)
        compare_argument(i);
    compare_argument((size_t)-1);
    compare_argument((size_t)1 << 63);
    compare_argument((size_t)1 << 32);
    compare_errors();
    printf("%ld passed, %ld failed\n", compared - differ, differ);
    return differ != 0;
}
