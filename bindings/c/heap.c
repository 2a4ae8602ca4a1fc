/* The heap of libwurstlinen: the functions that its archive needs from the program that it is linked into, over malloc,
 * realloc and free. A program that defines these three functions itself chooses its own heap. Blocks are aligned to 16
 * bytes, or to each power of two that divides their size. */
#include <stdbool.h>
#include <stddef.h>
#include <stdlib.h>

/* Whether there was memory, and where it is. The pointer is never null. */
struct wurst_block {
    bool is_there;
    unsigned char *at;
};

struct wurst_block rattle_alloc(size_t size, size_t align);
struct wurst_block rattle_realloc(unsigned char *at, size_t kept, size_t size, size_t align);
void rattle_dealloc(unsigned char *at);

static unsigned char no_block;

static struct wurst_block block_at(void *at) {
    struct wurst_block block = {at != NULL, at != NULL ? at : &no_block};
    return block;
}

struct wurst_block rattle_alloc(size_t size, size_t align) {
    return block_at(malloc(size > 0 ? size : align));
}

struct wurst_block rattle_realloc(unsigned char *at, size_t kept, size_t size, size_t align) {
    (void)kept;
    return block_at(realloc(at, size > 0 ? size : align));
}

void rattle_dealloc(unsigned char *at) {
    free(at);
}
