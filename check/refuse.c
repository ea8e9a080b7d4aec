/* Preloaded, it refuses the program's request for memory whose number REFUSE_AT says (from 1), and makes the file REFUSE_MARK where it does.
 * Requests of the C library and of the loader do not count. */
#define _GNU_SOURCE
#include <dlfcn.h>
#include <errno.h>
#include <fcntl.h>
#include <link.h>
#include <stdatomic.h>
#include <stdint.h>
#include <stdlib.h>
#include <unistd.h>

static void *(*next_malloc)(size_t), *(*next_realloc)(void *, size_t);
static uintptr_t first, last;
static unsigned long refused;
static atomic_ulong count;
static const char *mark;

/* the program is the first object that the loader tells of */
static int program_range(struct dl_phdr_info *info, size_t size, void *data) {
    (void)size, (void)data;
    first = UINTPTR_MAX;
    for (int k = 0; k < info->dlpi_phnum; k++) {
        const ElfW(Phdr) *part = &info->dlpi_phdr[k];
        if (part->p_type != PT_LOAD) continue;
        uintptr_t start = info->dlpi_addr + part->p_vaddr;
        if (start < first) first = start;
        if (start + part->p_memsz > last) last = start + part->p_memsz;
    }
    return 1;
}

__attribute__((constructor)) static void begin(void) {
    next_malloc = dlsym(RTLD_NEXT, "malloc");
    next_realloc = dlsym(RTLD_NEXT, "realloc");
    const char *at = getenv("REFUSE_AT");
    mark = getenv("REFUSE_MARK");
    dl_iterate_phdr(program_range, NULL);
    refused = at ? strtoul(at, NULL, 10) : 0;
}

static int is_refused(void *caller) {
    uintptr_t at = (uintptr_t)caller;
    if (!refused || at < first || at >= last || atomic_fetch_add(&count, 1) + 1 != refused) return 0;
    int file = mark ? open(mark, O_CREAT | O_WRONLY, 0600) : -1;
    if (file >= 0) close(file);
    errno = ENOMEM;
    return 1;
}

void *malloc(size_t size) {
    if (!next_malloc) begin();
    return is_refused(__builtin_return_address(0)) ? NULL : next_malloc(size);
}

void *realloc(void *block, size_t size) {
    if (!next_realloc) begin();
    return is_refused(__builtin_return_address(0)) ? NULL : next_realloc(block, size);
}
