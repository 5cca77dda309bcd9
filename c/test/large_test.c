/* large_test.c - an image of the maximum size, 256 GiB, in a sparse file and in sparse memory, and a mount of a large image.
 *
 *     large_test FOLDER BLOCKS
 *
 * The sparse image is created, formatted and mapped. Each carrier to a file, and a follower, stores words past the first
 * 2^32 and up to the last one; a journal with such words is applied. The image uses little room on the disk.
 *
 * The image in memory is in a mapping that takes pages as they are written. It is mounted where it is (bpfs_mount_at), files are
 * made, the log is carried to another such mapping, and that is mounted in turn. Both together take little memory, which is
 * printed. If the system does not give address space for that, this is left out.
 *
 * bpfs_mount copies all words of an image, so the third image has BLOCKS blocks only. It is filled with one file, which is
 * read back, and read back again after another mount. It needs 4 KiB of memory and of the disk for each block; if there
 * is not twice that memory, the mount is left out.
 *
 * The status is 1 if something is wrong.
 */
#define _GNU_SOURCE
#include <bpfs/file.h>
#include <bpfs/follow.h>
#include <bpfs/redo.h>
#include <errno.h>
#include <fcntl.h>
#include <stdio.h>
#include <stdlib.h>
#include <string.h>
#include <sys/mman.h>
#include <sys/stat.h>
#include <time.h>
#include <unistd.h>

#define PATH(text) (const uint8_t *)(text), sizeof(text) - 1
#define IS(wanted, call) is((uint64_t)(wanted), (uint64_t)(call), #call, __LINE__)
/* The call returns -1 with this errno. */
#define FAILS(error, call) is((uint64_t)(error), (uint64_t)((call) == -1 ? errno : -2), #call, __LINE__)

enum { COUNT = 4, PLACES = 4, PART = BPFS_MAX_WRITE_2, EVENTS = 16 };

static const uint64_t all_words = (uint64_t)BPFS_MAX_BLOCKS * BPFS_BLOCK_WORDS;
/* Where words are stored: before word 2^32, across it, past it, and at the end of the image. */
static const uint64_t places[PLACES] = {(1ull << 32) - COUNT, (1ull << 32) - 1, (1ull << 34) + 12345, (uint64_t)BPFS_MAX_BLOCKS * BPFS_BLOCK_WORDS - COUNT};

static char image[4096], journal[4096];
static bpfs_fault fault;
static bpfs_lack lack;
static int wrong, checks;

static void is(uint64_t wanted, uint64_t found, const char *call, int line) {
    checks++;
    if (wanted == found) return;
    fprintf(stderr, "large_test.c:%d: %s: %lld instead of %lld\n", line, call, (long long)found, (long long)wanted);
    wrong = 1;
}

/* ---- the image of the maximum size */

static const uint64_t *words; /* of the mapped file */

/* False: the file system has no files of this size. */
static bool creates(void) {
    bpfs_file file;
    struct stat it;
    int code = bpfs_file_create(&file, image, BPFS_MAX_BLOCKS, 2, BPFS_FILE_WAITS);
    if (code == -1 && errno == EFBIG) return false;
    IS(0, code);
    IS(all_words, file.words);
    IS(0, bpfs_file_close(&file));
    if (stat(image, &it)) return perror(image), exit(2), false;
    IS(8 * all_words, it.st_size);
    IS(true, it.st_blocks < 2048);
    return true;
}

static void maps(void) {
    int fd = open(image, O_RDONLY | O_CLOEXEC);
    void *at = fd < 0 ? MAP_FAILED : mmap(NULL, 8 * all_words, PROT_READ, MAP_SHARED | MAP_NORESERVE, fd, 0);
    if (at == MAP_FAILED) perror(image), exit(2);
    close(fd);
    words = at;
}

/* The mapped words are those of the format. */
static void is_formatted(void) {
    bpfs_event events[EVENTS];
    size_t count = 0;
    uint64_t first = 0;
    IS(BPFS_OK, bpfs_format_events(BPFS_MAX_BLOCKS, 2, events, EVENTS, &count));
    for (size_t i = 0; i < count; i++) {
        if (events[i].kind == BPFS_STORE && events[i].word == 0) first = events[i].value;
        else if (events[i].kind == BPFS_STORE) IS(events[i].value, words[events[i].word]);
    }
    IS(first, words[0]);
    IS(BPFS_MAX_BLOCKS, words[1]);
    IS(0, words[all_words - 1]);
}

static void put_all(bpfs_carrier *carrier, uint64_t value) {
    for (uint64_t i = 0; i < PLACES; i++) {
        const uint64_t values[COUNT] = {value + 10 * i, value + 10 * i + 1, value + 10 * i + 2, value + 10 * i + 3};
        IS(0, carrier->put(carrier, places[i], values, COUNT));
        IS(0, carrier->barrier(carrier));
    }
    IS(0, carrier->settle(carrier));
}

/* Places 0 and 1 overlap: of place 0 the first three words stay. */
static void have_all(uint64_t value) {
    for (uint64_t i = 0; i < PLACES; i++)
        for (uint64_t k = 0; k < (i ? COUNT : COUNT - 1); k++) IS(value + 10 * i + k, words[places[i] + k]);
    for (int i = 0; i < PLACES; i++) IS(0, words[(uint32_t)places[i] + 5000]); /* where 32 bits of the place would lead */
    IS(BPFS_MAX_BLOCKS, words[1]);
}

static void past_the_end(bpfs_carrier *carrier) {
    const uint64_t values[COUNT] = {0};
    FAILS(EFBIG, carrier->put(carrier, all_words - 1, values, 2));
    FAILS(EFBIG, carrier->put(carrier, all_words + 1, values, 1));
    FAILS(EFBIG, carrier->put(carrier, UINT64_MAX, values, 2));
}

static void by_file(void) {
    bpfs_file file;
    IS(0, bpfs_file_open(&file, image, BPFS_FILE_WAITS));
    put_all(&file.carrier, 1000);
    have_all(1000);
    past_the_end(&file.carrier);
    IS(0, bpfs_file_close(&file));
}

static void clear_places(void) {
    const uint64_t zeros[COUNT] = {0};
    int fd = open(image, O_WRONLY | O_CLOEXEC);
    for (int i = 0; i < PLACES; i++)
        if (pwrite(fd, zeros, sizeof zeros, (off_t)(8 * places[i])) != sizeof zeros) perror(image), exit(2);
    close(fd);
}

/* After a power failure the image lacks words that the journal has. */
static void by_redo(void) {
    bpfs_redo redo;
    struct stat it;
    IS(0, bpfs_redo_open(&redo, image, BPFS_FILE_WAITS));
    put_all(&redo.carrier, 2000);
    have_all(2000);
    past_the_end(&redo.carrier);
    redo.carrier.error = EIO; /* as if the process were killed */
    FAILS(EIO, bpfs_redo_close(&redo));
    clear_places();
    IS(0, words[places[3]]);
    IS(0, bpfs_redo_open(&redo, image, BPFS_FILE_WAITS));
    have_all(2000);
    IS(0, bpfs_redo_close(&redo));
    IS(0, stat(journal, &it));
    IS(0, it.st_size);
}

static int follow(void *to, const uint64_t *frame, size_t count) {
    return bpfs_follow(to, frame, 8 * count);
}

static void by_follower(void) {
    bpfs_file file;
    bpfs_stream stream;
    bpfs_follower follower;
    const uint64_t value = 1;
    IS(0, bpfs_file_open(&file, image, BPFS_FILE_WAITS));
    IS(0, bpfs_follower_resume(&follower, &file.carrier, file.fd));
    IS(BPFS_MAX_BLOCKS, follower.blocks);
    bpfs_stream_to(&stream, follow, &follower, follower.number);
    put_all(&stream.carrier, 3000);
    have_all(3000);
    IS(PLACES, follower.number);
    FAILS(EFBIG, stream.carrier.put(&stream.carrier, 1ull << BPFS_PLACE_BITS, &value, 1));
    IS(0, stream.carrier.put(&stream.carrier, all_words, &value, 1));
    FAILS(EBADMSG, stream.carrier.barrier(&stream.carrier));
    bpfs_stream_close(&stream);
    bpfs_follower_close(&follower);
    IS(0, bpfs_file_close(&file));
}

/* A mount would copy 256 GiB. A system without that memory refuses it before the file is read. */
static void is_not_mounted(void) {
    bpfs fs = BPFS_CLOSED;
    bpfs_file file;
    struct stat it;
    void *memory = mmap(NULL, 8 * all_words, PROT_READ | PROT_WRITE, MAP_PRIVATE | MAP_ANONYMOUS, -1, 0);
    IS(0, bpfs_file_open(&file, image, BPFS_FILE_CACHED));
    if (memory == MAP_FAILED) IS(BPFS_NO_MEMORY, bpfs_file_mount(&fs, &file, &fault));
    else munmap(memory, 8 * all_words);
    IS(0, ftruncate(file.fd, (off_t)(8 * all_words + 4096)));
    IS(BPFS_BAD_SIZE, bpfs_file_mount(&fs, &file, &fault));
    IS(8 * all_words + 4096, fault.found);
    IS(8 * all_words, fault.wanted);
    IS(0, bpfs_file_close(&file));
    if (stat(image, &it)) perror(image), exit(2);
    IS(true, it.st_blocks < 2048); /* no hole has got room */
}

static bool largest(void) {
    if (!creates()) return false;
    maps();
    is_formatted();
    by_file();
    by_redo();
    by_follower();
    is_not_mounted();
    if (munmap((void *)(uintptr_t)words, 8 * all_words)) perror("munmap"), exit(2);
    unlink(image);
    unlink(journal);
    return true;
}

/* ---- a mount of the maximum size, in sparse memory */

static uint8_t bytes[PART], read_back[PART];

static void fill(uint64_t at) {
    for (size_t i = 0; i < PART; i += 8) {
        uint64_t value = at + i + 1;
        memcpy(bytes + i, &value, 8);
    }
}

enum { FILES = 2000, PARTS = 64, RESIDENT = 1 << 30 };

/* Words of a sparse mapping, the medium to which the log is carried, and its carrier. */
static uint64_t *medium;

static int put_words(bpfs_carrier *carrier, uint64_t word, const uint64_t *values, size_t count) {
    (void)carrier;
    memcpy(medium + word, values, 8 * count);
    return 0;
}

static int waits_for_nothing(bpfs_carrier *carrier) {
    (void)carrier;
    return 0;
}

/* Memory whose pages come as they are written, and for which no memory is reserved. NULL: the system refuses it. */
static uint64_t *sparse(void) {
    void *at = mmap(NULL, 8 * all_words, PROT_READ | PROT_WRITE, MAP_PRIVATE | MAP_ANONYMOUS | MAP_NORESERVE, -1, 0);
    return at == MAP_FAILED ? NULL : at;
}

static void format_words(uint64_t *into) {
    bpfs_event events[EVENTS];
    size_t count = 0;
    IS(BPFS_OK, bpfs_format_events(BPFS_MAX_BLOCKS, 2, events, EVENTS, &count));
    for (size_t i = 0; i < count; i++)
        if (events[i].kind == BPFS_STORE) into[events[i].word] = events[i].value;
}

/* The memory of this process that is in use, in bytes. */
static uint64_t resident(void) {
    unsigned long long size, pages = 0;
    FILE *it = fopen("/proc/self/statm", "r");
    if (!it || fscanf(it, "%llu %llu", &size, &pages) != 2) perror("/proc/self/statm"), exit(2);
    fclose(it);
    return pages * (uint64_t)sysconf(_SC_PAGESIZE);
}

static double seconds(void) {
    struct timespec now;
    clock_gettime(CLOCK_MONOTONIC, &now);
    return (double)now.tv_sec + 1e-9 * (double)now.tv_nsec;
}

static uint32_t mounts_words(bpfs *fs, uint64_t *words_there) {
    bpfs_lent lent = {words_there, all_words, true};
    uint32_t code = bpfs_mount_at(fs, &lent, &fault);
    IS(code != BPFS_OK, lent.is_there);
    if (code) IS(true, lent.words == words_there && lent.count == all_words);
    return code;
}

static void closes_words(bpfs *fs, const uint64_t *words_there) {
    bpfs_lent lent = {NULL, 0, false};
    IS(BPFS_OK, bpfs_close_at(fs, &lent));
    IS(true, lent.is_there && lent.words == words_there && lent.count == all_words);
}

static size_t name_file(char *path, int i) {
    return (size_t)snprintf(path, 32, "/files/%d", i);
}

/* Small files, a file of PARTS MiB, one that ends at 2^50 bytes and has holes, and one of one block. */
static void makes_files(bpfs *fs, bpfs_carrier *carrier) {
    const uint64_t word = 77;
    char path[32];
    IS(BPFS_OK, bpfs_mkdir(fs, PATH("/files"), &lack));
    for (int i = 0; i < FILES; i++) {
        size_t length = name_file(path, i);
        IS(BPFS_OK, bpfs_create(fs, (const uint8_t *)path, length, &lack));
        fill((uint64_t)i);
        IS(BPFS_OK, bpfs_write(fs, (const uint8_t *)path, length, 0, bytes, 100, &lack));
    }
    IS(BPFS_OK, bpfs_create(fs, PATH("/a"), &lack));
    for (uint64_t at = 0; at < PARTS * (uint64_t)PART; at += PART) {
        fill(at);
        IS(BPFS_OK, bpfs_write(fs, PATH("/a"), at, bytes, PART, &lack));
        IS(0, bpfs_carry(fs, carrier));
    }
    IS(BPFS_OK, bpfs_create(fs, PATH("/holes"), &lack));
    IS(BPFS_OK, bpfs_write(fs, PATH("/holes"), (1ull << 50) - 8, (const uint8_t *)&word, 8, &lack));
    IS(BPFS_OK, bpfs_create(fs, PATH("/last"), &lack));
    fill(12345);
    IS(BPFS_OK, bpfs_write(fs, PATH("/last"), 0, bytes, 4096, &lack));
    IS(0, bpfs_carry(fs, carrier));
}

static void has_files(bpfs *fs) {
    char path[32];
    size_t count = 0;
    bpfs_found found;
    bpfs_sums sums;
    bpfs_blocks blocks;
    uint64_t word = 0;
    for (int i = 0; i < FILES; i++) {
        size_t length = name_file(path, i);
        fill((uint64_t)i);
        IS(BPFS_OK, bpfs_read(fs, (const uint8_t *)path, length, 0, read_back, PART, &count));
        IS(true, count == 100 && !memcmp(bytes, read_back, count));
    }
    for (uint64_t at = 0; at < PARTS * (uint64_t)PART; at += PART) {
        fill(at);
        IS(BPFS_OK, bpfs_read(fs, PATH("/a"), at, read_back, PART, &count));
        IS(true, count == PART && !memcmp(bytes, read_back, count));
    }
    IS(BPFS_OK, bpfs_stat(fs, PATH("/holes"), &found));
    IS(1ull << 50, found.size);
    IS(BPFS_OK, bpfs_read(fs, PATH("/holes"), (1ull << 50) - 8, (uint8_t *)&word, 8, &count));
    IS(77, word);
    IS(BPFS_OK, bpfs_read(fs, PATH("/holes"), 1ull << 49, (uint8_t *)&word, 8, &count));
    IS(0, word);
    fill(12345);
    IS(BPFS_OK, bpfs_read(fs, PATH("/last"), 0, read_back, PART, &count));
    IS(true, count == 4096 && !memcmp(bytes, read_back, count));
    IS(BPFS_OK, bpfs_list(fs, PATH("/files"), &count));
    IS(FILES, count);
    IS(BPFS_OK, bpfs_totals(fs, &sums));
    IS(FILES + 3, sums.files);
    IS(2, sums.dirs);
    IS(BPFS_OK, bpfs_space(fs, &blocks));
    IS(BPFS_MAX_BLOCKS - 1, (uint64_t)blocks.free + blocks.live);
    IS(sums.live, blocks.live);
    IS(true, blocks.live < 20000);
}

/* Moves the block of /last to the last block of the image: such an image can be, and its words have numbers above 2^34. */
static void moves_last(uint64_t *image_words) {
    uint64_t block = 1, used = 40000, *pointer = NULL;
    fill(12345);
    while (block < used && memcmp(image_words + block * BPFS_BLOCK_WORDS, bytes, 4096)) block++;
    for (uint64_t i = BPFS_BLOCK_WORDS; i + 2 < used * BPFS_BLOCK_WORDS; i++)
        if (image_words[i] == 1 && image_words[i + 1] == block << 12 && image_words[i + 2] == 4096) pointer = image_words + i + 1;
    if (!pointer) return IS(true, false);
    memcpy(image_words + all_words - BPFS_BLOCK_WORDS, bytes, 4096);
    memset(image_words + block * BPFS_BLOCK_WORDS, 255, 4096);
    *pointer = (BPFS_MAX_BLOCKS - 1ull) << 12;
}

/* False: the system refuses the address space. */
static bool in_memory(void) {
    bpfs fs = BPFS_CLOSED;
    bpfs_carrier carrier = {.put = put_words, .barrier = waits_for_nothing, .settle = waits_for_nothing};
    const uint64_t word = 4711;
    uint64_t before = resident(), *memory = sparse();
    medium = sparse();
    bool is_there = memory && medium;
    double start = seconds(), mounted, called;
    if (is_there) {
        format_words(memory);
        format_words(medium);
        is_there = mounts_words(&fs, memory) == BPFS_OK;
    }
    if (is_there) {
        mounted = seconds();
        uint64_t at_mount = resident() - before;
        IS(0, bpfs_bind(&fs, &carrier));
        makes_files(&fs, &carrier);
        has_files(&fs);
        IS(0, bpfs_carry(&fs, &carrier));
        called = seconds();
        closes_words(&fs, memory);
        moves_last(medium);
        IS(BPFS_OK, mounts_words(&fs, medium));
        has_files(&fs);
        IS(BPFS_OK, bpfs_write(&fs, PATH("/last"), 4088, (const uint8_t *)&word, 8, &lack));
        IS(word, medium[all_words - 1]);
        uint64_t in_use = resident() - before;
        closes_words(&fs, medium);
        IS(true, in_use < RESIDENT);
        printf("an image of 256 GiB in memory: mounted in %.3f s with %llu MiB, files made in %.3f s, mounted again; %llu MiB in the end\n",
               mounted - start, (unsigned long long)at_mount >> 20, called - mounted, (unsigned long long)in_use >> 20);
    }
    if (memory) munmap(memory, 8 * all_words);
    if (medium) munmap(medium, 8 * all_words);
    return is_there;
}

/* ---- a mount */

/* The available memory in bytes, or UINT64_MAX if that is not known. */
static uint64_t available(void) {
    unsigned long long kilobytes = UINT64_MAX >> 10;
    char line[256];
    FILE *it = fopen("/proc/meminfo", "r");
    while (it && fgets(line, sizeof line, it))
        if (sscanf(line, "MemAvailable: %llu", &kilobytes) == 1) break;
    if (it) fclose(it);
    return (uint64_t)kilobytes << 10;
}

/* Writes a file until no block is free. Returns its size. */
static uint64_t writes(bpfs *fs, bpfs_carrier *carrier) {
    uint32_t code;
    uint64_t at = 0;
    IS(BPFS_OK, bpfs_create(fs, PATH("/a"), &lack));
    for (;; at += PART) {
        fill(at);
        if ((code = bpfs_write(fs, PATH("/a"), at, bytes, PART, &lack)) != BPFS_OK) break;
        if (bpfs_carry(fs, carrier)) return perror(image), exit(2), 0;
    }
    IS(BPFS_NO_SPACE, code);
    IS(true, lack.free < lack.need && lack.need < 300);
    return at;
}

static void reads(bpfs *fs, uint64_t size) {
    bpfs_found found;
    IS(BPFS_OK, bpfs_stat(fs, PATH("/a"), &found));
    IS(size, found.size);
    for (uint64_t at = 0; at < size; at += PART) {
        size_t count = 0;
        fill(at);
        uint32_t code = bpfs_read(fs, PATH("/a"), at, read_back, PART, &count);
        if (code || count != PART || memcmp(bytes, read_back, PART)) {
            IS(at, size); /* wrong bytes from here on */
            return;
        }
    }
}

static uint64_t mounts(uint32_t blocks) {
    bpfs fs = BPFS_CLOSED;
    bpfs_file file;
    bpfs_blocks count;
    IS(0, bpfs_file_create(&file, image, blocks, 2, BPFS_FILE_CACHED));
    IS(BPFS_OK, bpfs_file_mount(&fs, &file, &fault));
    uint64_t size = writes(&fs, &file.carrier);
    reads(&fs, size);
    IS(0, bpfs_carry(&fs, &file.carrier));
    IS(BPFS_OK, bpfs_space(&fs, &count));
    IS(blocks - 1, count.free + count.live);
    IS(BPFS_OK, bpfs_close(&fs));
    IS(BPFS_OK, bpfs_file_mount(&fs, &file, &fault));
    reads(&fs, size);
    IS(BPFS_OK, bpfs_close(&fs));
    IS(0, bpfs_file_close(&file));
    unlink(image);
    return size;
}

int main(int argc, char **argv) {
    unsigned long blocks = argc == 3 ? strtoul(argv[2], NULL, 10) : 0;
    if (blocks < BPFS_MIN_BLOCKS || blocks > BPFS_MAX_BLOCKS) return fprintf(stderr, "usage: large_test FOLDER BLOCKS\n"), 2;
    snprintf(image, sizeof image, "%s/large", argv[1]);
    snprintf(journal, sizeof journal, "%s/large-redo", argv[1]);
    if (!largest()) puts("left out: an image of 256 GiB (the file system has no such files)");
    if (!in_memory()) puts("left out: an image of 256 GiB in memory (the system refuses address space for it)");
    if (available() / 8192 < blocks) puts("left out: a mount of a large image (too little memory)");
    else printf("an image of %lu blocks, full of a file of %llu bytes; ", blocks, (unsigned long long)mounts((uint32_t)blocks));
    printf("large: %d checks%s\n", checks, wrong ? ", some FAILED" : "");
    return wrong;
}
