// Replaces the C library's allocator, and lets an allocation of the program fail: the one whose number is in the
// environment variable FAILING_ALLOCATION, counted from 1. If FAILURES is set, that many allocations fail, from that
// one on. The file whose descriptor is in FAILURE_REPORT gets a struct report.
//
// Only calls that the program's own code makes are counted. Those of the C library itself, for a thread's stack or for
// standard output, aren't.
#define _GNU_SOURCE
#include <errno.h>
#include <link.h>
#include <stdatomic.h>
#include <stdbool.h>
#include <stddef.h>
#include <stdint.h>
#include <stdlib.h>
#include <sys/mman.h>
#include <unistd.h>

extern void *__libc_malloc(size_t size);
extern void *__libc_calloc(size_t count, size_t size);
extern void *__libc_realloc(void *old, size_t size);
extern void *__libc_memalign(size_t alignment, size_t size);

static uintptr_t program_begin;
static uintptr_t program_end;
static unsigned long failing;
static unsigned long failures = 1;
static atomic_ulong allocations;

// Whether the allocation that has to fail was reached, and how many bytes all others asked for.
struct report {
    atomic_ulong is_reached;
    atomic_ulong bytes;
};

static struct report unread;
static struct report *report = &unread;

// The program is the first object in the list.
static int find_program(struct dl_phdr_info *info, size_t size, void *data) {
    (void)size;
    (void)data;
    program_begin = UINTPTR_MAX;
    for (size_t at = 0; at < info->dlpi_phnum; at++) {
        if (info->dlpi_phdr[at].p_type != PT_LOAD) {
            continue;
        }
        uintptr_t begin = info->dlpi_addr + info->dlpi_phdr[at].p_vaddr;
        uintptr_t end = begin + info->dlpi_phdr[at].p_memsz;
        program_begin = begin < program_begin ? begin : program_begin;
        program_end = end > program_end ? end : program_end;
    }
    return 1;
}

__attribute__((constructor)) static void begin(void) {
    const char *number = getenv("FAILING_ALLOCATION");
    const char *descriptor = getenv("FAILURE_REPORT");
    if (descriptor != NULL) {
        int file = atoi(descriptor);
        bool is_sized = ftruncate(file, sizeof *report) == 0;
        report = mmap(NULL, sizeof *report, PROT_READ | PROT_WRITE, MAP_SHARED, file, 0);
        if (!is_sized || report == MAP_FAILED) {
            abort();
        }
    }
    failing = number == NULL ? 0 : strtoul(number, NULL, 10);
    const char *count = getenv("FAILURES");
    failures = count == NULL ? 1 : strtoul(count, NULL, 10);
    dl_iterate_phdr(find_program, NULL);
}

static bool fails(void *caller, size_t size) {
    uintptr_t at = (uintptr_t)caller;
    if (at < program_begin || at >= program_end) {
        return false;
    }
    unsigned long number = atomic_fetch_add(&allocations, 1) + 1;
    if (failing == 0 || number < failing || number - failing >= failures) {
        atomic_fetch_add(&report->bytes, size);
        return false;
    }
    atomic_store(&report->is_reached, 1);
    errno = ENOMEM;
    return true;
}

void *malloc(size_t size) {
    return fails(__builtin_return_address(0), size) ? NULL : __libc_malloc(size);
}

void *calloc(size_t count, size_t size) {
    return fails(__builtin_return_address(0), count * size) ? NULL : __libc_calloc(count, size);
}

void *realloc(void *old, size_t size) {
    return fails(__builtin_return_address(0), size) ? NULL : __libc_realloc(old, size);
}

void *aligned_alloc(size_t alignment, size_t size) {
    return fails(__builtin_return_address(0), size) ? NULL : __libc_memalign(alignment, size);
}

int posix_memalign(void **made, size_t alignment, size_t size) {
    if (fails(__builtin_return_address(0), size)) {
        return ENOMEM;
    }
    void *block = __libc_memalign(alignment, size);
    if (block == NULL) {
        return ENOMEM;
    }
    *made = block;
    return 0;
}
