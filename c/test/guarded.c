#define _GNU_SOURCE
#include "guarded.h"
#include <string.h>
#include <sys/mman.h>
#include <unistd.h>

enum { FRONT = 64 };

/* Maps the memory of a file between two pages that nobody may touch. */
static uint8_t *mapped(int file, size_t size, size_t page, int protection) {
    uint8_t *at = mmap(NULL, size + 2 * page, PROT_NONE, MAP_PRIVATE | MAP_ANONYMOUS, -1, 0);
    if (at == MAP_FAILED) return NULL;
    return mmap(at + page, size, protection, MAP_SHARED | MAP_FIXED, file, 0) == MAP_FAILED ? NULL : at + page;
}

bool guarded_make(guarded *g, size_t size) {
    size_t page = (size_t)sysconf(_SC_PAGESIZE);
    int file = memfd_create("guarded", 0);
    g->size = (size + FRONT + page - 1) / page * page;
    if (file < 0 || ftruncate(file, (off_t)g->size)) return false;
    g->writable = mapped(file, g->size, page, PROT_READ | PROT_WRITE);
    g->readable = mapped(file, g->size, page, PROT_READ);
    close(file);
    return g->writable && g->readable;
}

const void *guarded_in(const guarded *g, const void *bytes, size_t count) {
    if (count) memcpy(g->writable + g->size - count, bytes, count);
    return g->readable + g->size - count;
}

void *guarded_out(const guarded *g, size_t count) {
    uint8_t *at = g->writable + g->size - count;
    memset(at - FRONT, GUARDED_FILL, count + FRONT);
    return at;
}

bool guarded_front(const guarded *g, size_t count) {
    const uint8_t *at = g->readable + g->size - count;
    for (size_t i = 1; i <= FRONT; i++)
        if (at[-(ptrdiff_t)i] != GUARDED_FILL) return false;
    return true;
}

bool guarded_rest(const guarded *g, size_t from, size_t count) {
    const uint8_t *at = g->readable + g->size - count;
    for (size_t i = from; i < count; i++)
        if (at[i] != GUARDED_FILL) return false;
    return true;
}
