#define _GNU_SOURCE
#include <bpfs/pmem.h>
#include <errno.h>
#include <fcntl.h>
#include <libpmem.h>
#include <sys/mman.h>
#include <unistd.h>
#ifdef __SSE2__
#include <emmintrin.h>
#endif

enum { LINE_WORDS = 8 };

static uint64_t *line_of(uint64_t *word) {
    return (uint64_t *)((uintptr_t)word & ~(uintptr_t)63);
}

static void flush_line(bpfs_pmem *pmem) {
    if (pmem->line) pmem_flush(pmem->line, 64);
    pmem->line = NULL;
}

/* Stores words of one cache line. The line is flushed when the next one begins: stores of an epoch
 * are often in one line. */
static void put_in_line(bpfs_pmem *pmem, uint64_t *to, const uint64_t *values, size_t count) {
    if (line_of(to) != pmem->line) flush_line(pmem);
    pmem->line = line_of(to);
    for (size_t i = 0; i < count; i++) __atomic_store_n(to + i, values[i], __ATOMIC_RELAXED);
}

/* Stores a whole cache line, past the caches where the processor can do that, which takes half of
 * the time. Two words are moved at once; that each of them reaches the memory whole or not at all
 * is trusted. */
static void put_line(bpfs_pmem *pmem, uint64_t *to, const uint64_t *values) {
#if defined(__SSE2__) && defined(__x86_64__) && !defined(BPFS_NO_STREAM)
    if (to == pmem->line) flush_line(pmem); /* so that an earlier store to it stays the earlier one */
    pmem->streamed = true;
    for (size_t i = 0; i < LINE_WORDS; i += 2) {
        __m128i two = _mm_loadu_si128((const __m128i *)(values + i));
        _mm_stream_si128((__m128i *)(to + i), two);
    }
#else
    put_in_line(pmem, to, values, LINE_WORDS);
#endif
}

static int put(bpfs_carrier *carrier, uint64_t word, const uint64_t *values, size_t count) {
    bpfs_pmem *pmem = (bpfs_pmem *)carrier;
    if (carrier->error) return errno = carrier->error, -1;
    if (word > pmem->count || count > pmem->count - word) return errno = EFBIG, -1;
    pmem->owes = true;
    for (uint64_t *to = pmem->words + word; count;) {
        size_t n = (size_t)(line_of(to) + LINE_WORDS - to);
        if (n > count) n = count;
        if (n == LINE_WORDS) put_line(pmem, to, values);
        else put_in_line(pmem, to, values, n);
        to += n, values += n, count -= n;
    }
    return 0;
}

static int barrier(bpfs_carrier *carrier) {
    bpfs_pmem *pmem = (bpfs_pmem *)carrier;
    if (!pmem->owes) return 0;
    pmem->owes = false;
    flush_line(pmem);
#ifdef __SSE2__
    if (pmem->streamed) _mm_sfence(); /* for the stores past the caches, whatever pmem_drain is on this machine */
    pmem->streamed = false;
#endif
    pmem_drain();
    return 0;
}

/* ---- opening */

static void begin(bpfs_pmem *pmem) {
    *pmem = (bpfs_pmem){.carrier = {.put = put, .barrier = barrier, .settle = barrier}, .file = {.fd = -1}};
}

static int give_up(bpfs_pmem *pmem) {
    int why = errno;
    bpfs_pmem_close(pmem);
    return errno = why, -1;
}

/* Maps the open file. Its holes get their room first: a store to one that has none would kill the
 * process. */
static int map(bpfs_pmem *pmem, const char *path) {
    size_t length = 0;
    int is_pmem = 0;
    if (pmem->file.words == 0) return 0; /* which no mount takes */
    int code = posix_fallocate(pmem->file.fd, 0, (off_t)(8 * pmem->file.words));
    if (code) return errno = code, give_up(pmem);
    if (bpfs_file_sync(&pmem->file)) return give_up(pmem);
    pmem->words = pmem_map_file(path, 0, 0, 0, &length, &is_pmem);
    if (!pmem->words) return give_up(pmem);
    pmem->count = length / 8;
    if (!is_pmem) return errno = ENOTSUP, give_up(pmem);
    pmem_persist(pmem->words, length);
    return 0;
}

int bpfs_pmem_create(bpfs_pmem *pmem, const char *path, uint32_t blocks, uint32_t version) {
    begin(pmem);
    int code = bpfs_file_create(&pmem->file, path, blocks, version, BPFS_FILE_WAITS);
    if (code || map(pmem, path) == 0) return code;
    int why = errno;
    unlink(path);
    return errno = why, -1;
}

int bpfs_pmem_open(bpfs_pmem *pmem, const char *path) {
    begin(pmem);
    return bpfs_file_open(&pmem->file, path, BPFS_FILE_WAITS) ? -1 : map(pmem, path);
}

int bpfs_pmem_open_read(bpfs_pmem *pmem, const char *path) {
    begin(pmem);
    if (bpfs_file_open_read(&pmem->file, path)) return -1;
    size_t length = 8 * (size_t)pmem->file.words;
    void *words = length ? mmap(NULL, length, PROT_READ, MAP_SHARED, pmem->file.fd, 0) : NULL;
    if (words == MAP_FAILED) return give_up(pmem);
    pmem->words = words, pmem->count = length / 8;
    pmem->carrier.error = EROFS;
    if (words) pmem_persist(words, length);
    return 0;
}

/* ---- mounting and closing */

int bpfs_pmem_mount(bpfs *fs, bpfs_pmem *pmem, bpfs_fault *fault) {
    barrier(&pmem->carrier);
    int code = (int)bpfs_mount(fs, pmem->words, pmem->count, fault);
    return code || pmem->carrier.error ? code : bpfs_bind(fs, &pmem->carrier);
}

int bpfs_pmem_close(bpfs_pmem *pmem) {
    if (pmem->words && pmem->carrier.error == EROFS) munmap(pmem->words, 8 * pmem->count);
    else if (pmem->words) pmem_unmap(pmem->words, 8 * pmem->count);
    pmem->words = NULL, pmem->count = 0;
    return bpfs_file_close(&pmem->file);
}
