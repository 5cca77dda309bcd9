/* waits.c - how often a carry of appends to an image file waits for the disk, and how long it
 * takes: file.h beside redo.h.
 *
 *     waits FOLDER        a table; FOLDER has to be on a disk
 *
 * Link with -Wl,--wrap=fdatasync, by which the waits are counted. Times are of several carries: the
 * least and the median.
 */
#define _GNU_SOURCE
#include <bpfs/file.h>
#include <bpfs/redo.h>
#include <stdio.h>
#include <stdlib.h>
#include <time.h>
#include <unistd.h>

enum { BLOCKS = 8192, FILES = 64, SIZE = 64, TIMES = 15 };

#define MUST(it) must((it), #it, __LINE__)

static uint8_t bytes[SIZE];
static uint64_t state = 1, ends[FILES]; /* the sizes of the files */
static long waits;
static bpfs_lack lack;

static void must(bool it, const char *what, int line) {
    if (it) return;
    fprintf(stderr, "waits.c:%d: %s\n", line, what);
    exit(1);
}

int __real_fdatasync(int fd);

int __wrap_fdatasync(int fd) {
    waits++;
    return __real_fdatasync(fd);
}

static uint32_t draw(uint32_t below) {
    state = state * 6364136223846793005u + 1442695040888963407u;
    return (uint32_t)((state >> 33) % below);
}

static double now(void) {
    struct timespec t;
    clock_gettime(CLOCK_MONOTONIC, &t);
    return 1e3 * (double)t.tv_sec + 1e-6 * (double)t.tv_nsec;
}

static size_t path_of(uint32_t file, uint8_t path[16]) {
    return (size_t)snprintf((char *)path, 16, "/f%02u", file);
}

static void make_files(bpfs *fs, bpfs_carrier *carrier) {
    uint8_t path[16];
    for (uint32_t i = 0; i < FILES; i++) {
        size_t length = path_of(i, path);
        MUST(bpfs_create(fs, path, length, &lack) == BPFS_OK);
        ends[i] = 0;
    }
    MUST(bpfs_carry(fs, carrier) == 0);
}

/* Appends to one of the files. */
static void call(bpfs *fs) {
    uint8_t path[16];
    uint32_t file = draw(FILES);
    size_t length = path_of(file, path);
    for (int i = 0; i < SIZE; i++) bytes[i] = (uint8_t)draw(256);
    MUST(bpfs_write(fs, path, length, ends[file], bytes, SIZE, &lack) == BPFS_OK);
    ends[file] += SIZE;
}

static int by_time(const void *a, const void *b) {
    double x = *(const double *)a, y = *(const double *)b;
    return x < y ? -1 : x > y;
}

static void row(const char *name, bpfs *fs, bpfs_carrier *carrier, uint32_t calls, int times) {
    static double took[TIMES];
    long before = waits, most = 0;
    size_t events = 0;
    for (int i = 0; i < times; i++) {
        for (uint32_t k = 0; k < calls; k++) call(fs);
        events += bpfs_event_count(fs);
        long first = waits;
        double start = now();
        MUST(bpfs_carry(fs, carrier) == 0);
        took[i] = now() - start;
        if (waits - first > most) most = waits - first;
    }
    qsort(took, (size_t)times, sizeof *took, by_time);
    printf("| %s | %u | %zu | %.1f | %ld | %.2f | %.2f |\n", name, calls, events / (size_t)times, (double)(waits - before) / times, most, took[0],
           took[times / 2]);
    fflush(stdout);
}

static void rows(const char *name, bpfs *fs, bpfs_carrier *carrier) {
    make_files(fs, carrier);
    row(name, fs, carrier, 1, TIMES);
    row(name, fs, carrier, 100, TIMES);
    row(name, fs, carrier, 3000, 3);
}

int main(int argc, char **argv) {
    char path[1000];
    bpfs_file file;
    bpfs_redo redo;
    bpfs fs = BPFS_CLOSED;
    bpfs_fault fault;
    if (argc != 2) return fprintf(stderr, "usage: waits FOLDER\n"), 2;
    printf("| carrier | calls a carry | events | fdatasyncs, mean | most | least ms | median ms |\n|---|---|---|---|---|---|---|\n");
    snprintf(path, sizeof path, "%s/waits.file", argv[1]);
    MUST(bpfs_file_create(&file, path, BLOCKS, 2, BPFS_FILE_WAITS) == 0 && bpfs_file_mount(&fs, &file, &fault) == 0);
    rows("file.h", &fs, &file.carrier);
    MUST(bpfs_close(&fs) == BPFS_OK && bpfs_file_close(&file) == 0 && unlink(path) == 0);
    snprintf(path, sizeof path, "%s/waits.image", argv[1]);
    MUST(bpfs_redo_create(&redo, path, BLOCKS, 2, BPFS_FILE_WAITS) == 0 && bpfs_redo_mount(&fs, &redo, &fault) == 0);
    rows("redo.h", &fs, &redo.carrier);
    MUST(bpfs_close(&fs) == BPFS_OK && bpfs_redo_close(&redo) == 0 && unlink(path) == 0);
    snprintf(path, sizeof path, "%s/waits.image-redo", argv[1]);
    return unlink(path);
}
