/* carriers_test.c - what carry.h, file.h, redo.h and pmem.h say of their functions: each result,
 * and each error with its cause.
 *
 *     carriers_test FOLDER
 *
 * The status is 1 if something is wrong.
 */
#define _GNU_SOURCE
#include <bpfs/file.h>
#include <bpfs/redo.h>
#ifdef HAS_PMEM
#include <bpfs/pmem.h>
#endif
#include <errno.h>
#include <fcntl.h>
#include <stdio.h>
#include <stdlib.h>
#include <string.h>
#include <sys/stat.h>
#include <unistd.h>

#define PATH(text) (const uint8_t *)(text), sizeof(text) - 1
#define IS(wanted, call) is((uint64_t)(wanted), (uint64_t)(call), #call, __LINE__)
/* The call returns -1 with this errno. */
#define FAILS(error, call) is((uint64_t)(error), (uint64_t)((call) == -1 ? errno : -2), #call, __LINE__)

enum { BLOCKS = 64, WORDS = BLOCKS * BPFS_BLOCK_WORDS, UNSET = 99 };

static char image[4096], other[4096], journal[4096], kept[4096];
static bpfs_fault fault;
static bpfs_lack lack;
static int wrong, checks;

static void is(uint64_t wanted, uint64_t found, const char *call, int line) {
    checks++;
    if (wanted == found) return;
    fprintf(stderr, "carriers_test.c:%d: %s: %lld instead of %lld\n", line, call, (long long)found, (long long)wanted);
    wrong = 1;
}

/* ---- a medium in memory */

typedef struct memory {
    bpfs_carrier carrier;
    uint64_t words[WORDS];
    long puts;
} memory;

static memory one, two;

static int put(bpfs_carrier *carrier, uint64_t word, const uint64_t *values, size_t count) {
    memory *it = (memory *)carrier;
    it->puts++;
    memcpy(it->words + word, values, 8 * count);
    return 0;
}

static int nothing(bpfs_carrier *carrier) {
    (void)carrier;
    return 0;
}

static void clear(memory *it) {
    memset(it, 0, sizeof *it);
    it->carrier = (bpfs_carrier){.put = put, .barrier = nothing, .settle = nothing};
}

static void mount_memory(bpfs *fs, memory *it) {
    clear(it);
    IS(0, bpfs_format(&it->carrier, BLOCKS, 2));
    IS(BPFS_OK, bpfs_mount(fs, it->words, WORDS, &fault));
    IS(0, bpfs_bind(fs, &it->carrier));
}

static bool has_words(bpfs *fs, const memory *it) {
    static uint64_t words[WORDS];
    return bpfs_words(fs, 0, words, WORDS) == BPFS_OK && memcmp(words, it->words, sizeof words) == 0;
}

/* ---- binding */

static void bindings(void) {
    bpfs fs = BPFS_CLOSED, more = BPFS_CLOSED;
    clear(&one);
    FAILS(EINVAL, bpfs_bind(&fs, &one.carrier));
    FAILS(EINVAL, bpfs_carry(&fs, &one.carrier));
    mount_memory(&fs, &one);
    mount_memory(&more, &two);
    IS(true, bpfs_tag(&fs) != bpfs_tag(&more) && bpfs_tag(&fs) && bpfs_tag(&more));
    IS(BPFS_OK, bpfs_create(&fs, PATH("/a"), &lack));
    FAILS(EBUSY, bpfs_bind(&fs, &one.carrier));
    long puts = two.puts;
    FAILS(EINVAL, bpfs_carry(&fs, &two.carrier)); /* another volume's carrier */
    FAILS(EINVAL, bpfs_carry_on(&fs, &two.carrier));
    bpfs_carrier *const both[] = {&one.carrier, &two.carrier};
    long first_puts = one.puts;
    FAILS(EINVAL, bpfs_carry_all(&fs, both, 2));
    FAILS(EINVAL, bpfs_carry_all(&fs, both, 0));
    IS(puts, two.puts);
    IS(first_puts, one.puts);
    IS(0, bpfs_carry(&fs, &one.carrier));
    IS(true, has_words(&fs, &one));
    IS(BPFS_OK, bpfs_close(&fs));
    FAILS(EINVAL, bpfs_carry(&fs, &one.carrier)); /* its volume is closed */
    IS(BPFS_OK, bpfs_mount(&fs, one.words, WORDS, &fault));
    IS(BPFS_OK, bpfs_create(&fs, PATH("/b"), &lack));
    FAILS(EINVAL, bpfs_carry(&fs, &one.carrier)); /* mounted again: another volume */
    IS(BPFS_PENDING, bpfs_close(&fs));
    IS(BPFS_OK, bpfs_discard(&fs));
    IS(BPFS_OK, bpfs_close(&more));
}

/* ---- the position of a carrier */

static void positions(void) {
    bpfs fs = BPFS_CLOSED;
    mount_memory(&fs, &one);
    IS(BPFS_OK, bpfs_create(&fs, PATH("/a"), &lack));
    IS(0, bpfs_carry_on(&fs, &one.carrier));
    IS(true, bpfs_event_count(&fs) > 0);
    IS(BPFS_OK, bpfs_drain(&fs));
    IS(BPFS_OK, bpfs_create(&fs, PATH("/b"), &lack)); /* is not skipped after the drain */
    IS(0, bpfs_carry(&fs, &one.carrier));
    IS(true, has_words(&fs, &one));
    IS(one.carrier.next, bpfs_drained(&fs));
    IS(BPFS_OK, bpfs_create(&fs, PATH("/c"), &lack));
    IS(BPFS_OK, bpfs_drain(&fs)); /* which nobody has carried */
    long puts = one.puts;
    FAILS(ESTALE, bpfs_carry(&fs, &one.carrier));
    IS(BPFS_OK, bpfs_create(&fs, PATH("/d"), &lack));
    FAILS(ESTALE, bpfs_carry_on(&fs, &one.carrier));
    IS(puts, one.puts);
    IS(BPFS_OK, bpfs_drain(&fs));
    IS(0, bpfs_copy_image(&fs, &one.carrier));
    IS(true, has_words(&fs, &one));
    IS(BPFS_OK, bpfs_create(&fs, PATH("/e"), &lack));
    IS(0, bpfs_carry(&fs, &one.carrier));
    IS(true, has_words(&fs, &one));
    one.carrier.error = EIO;
    FAILS(EIO, bpfs_carry(&fs, &one.carrier));
    FAILS(EIO, bpfs_bind(&fs, &one.carrier));
    FAILS(EIO, bpfs_copy_image(&fs, &one.carrier));
    FAILS(EIO, bpfs_format(&one.carrier, BLOCKS, 1));
    IS(BPFS_OK, bpfs_close(&fs));
}

/* ---- copies */

static void copies(void) {
    bpfs fs = BPFS_CLOSED;
    clear(&two);
    FAILS(EINVAL, bpfs_copy_image(&fs, &two.carrier));
    mount_memory(&fs, &one);
    IS(BPFS_OK, bpfs_close(&fs));
    one.words[BPFS_REDO_WORD] = one.words[BPFS_NOTE_WORD] = 5;
    IS(BPFS_OK, bpfs_mount(&fs, one.words, WORDS, &fault));
    IS(0, bpfs_copy_image(&fs, &two.carrier));
    IS(0, two.words[BPFS_REDO_WORD] | two.words[BPFS_NOTE_WORD]);
    IS(0, memcmp(one.words, two.words, 8 * BPFS_REDO_WORD));
    IS(0, memcmp(one.words + BPFS_BLOCK_WORDS, two.words + BPFS_BLOCK_WORDS, sizeof one.words - 8 * BPFS_BLOCK_WORDS));
    IS(BPFS_OK, bpfs_create(&fs, PATH("/a"), &lack));
    FAILS(EBUSY, bpfs_copy_image(&fs, &two.carrier));
    IS(0, bpfs_carry(&fs, &two.carrier)); /* the copy has bound it */
    IS(BPFS_OK, bpfs_close(&fs));
}

/* ---- files */

static int64_t size_of(const char *path) {
    struct stat it;
    return stat(path, &it) ? -1 : (int64_t)it.st_size;
}

static void write_to(const char *path, uint64_t at, const void *bytes, size_t count) {
    int fd = open(path, O_RDWR | O_CREAT, 0644);
    if (pwrite(fd, bytes, count, (off_t)at) != (ssize_t)count || close(fd)) exit(2);
}

static void copy(const char *from, const char *to) {
    static char bytes[BLOCKS * 4096];
    int fd = open(from, O_RDONLY);
    ssize_t n = read(fd, bytes, sizeof bytes);
    if (n < 0 || close(fd)) exit(2);
    unlink(to);
    write_to(to, 0, bytes, (size_t)n);
}

static void create_files(void) {
    bpfs_file file, second;
    bpfs fs = BPFS_CLOSED;
    FAILS(ENOENT, bpfs_file_open(&file, image, BPFS_FILE_WAITS));
    FAILS(ENOENT, bpfs_file_open_read(&file, image));
    IS(-1, size_of(image));
    IS(BPFS_OUT_OF_RANGE, bpfs_file_create(&file, image, BPFS_MIN_BLOCKS - 1, 2, BPFS_FILE_WAITS));
    IS(BPFS_OUT_OF_RANGE, bpfs_file_create(&file, image, BLOCKS, 4, BPFS_FILE_WAITS));
    IS(-1, size_of(image));
    FAILS(ENOENT, bpfs_file_create(&file, "/nowhere/image", BLOCKS, 2, BPFS_FILE_WAITS));
    IS(0, bpfs_file_close(&file));
    IS(0, bpfs_file_create(&file, image, BLOCKS, 2, BPFS_FILE_WAITS));
    IS(BLOCKS * 4096, size_of(image));
    FAILS(EEXIST, bpfs_file_create(&second, image, BLOCKS, 2, BPFS_FILE_WAITS));
    FAILS(EWOULDBLOCK, bpfs_file_open(&second, image, BPFS_FILE_WAITS));
    FAILS(EWOULDBLOCK, bpfs_file_open_read(&second, image));
    FAILS(EFBIG, file.carrier.put(&file.carrier, WORDS - 1, &(const uint64_t[2]){0}[0], 2));
    IS(BPFS_OK, bpfs_file_mount(&fs, &file, &fault));
    IS(BPFS_HAS_ONE, bpfs_file_mount(&fs, &file, &fault));
    IS(BPFS_OK, bpfs_create(&fs, PATH("/a"), &lack));
    IS(0, bpfs_carry(&fs, &file.carrier));
    IS(BPFS_OK, bpfs_close(&fs));
    IS(0, bpfs_file_close(&file));
    IS(0, bpfs_file_close(&file));
    FAILS(EEXIST, bpfs_file_create(&second, image, BLOCKS, 2, BPFS_FILE_WAITS));
    IS(BLOCKS * 4096, size_of(image));
}

static void read_files(void) {
    bpfs_file file, second, writer;
    bpfs fs = BPFS_CLOSED;
    bpfs_found found;
    IS(0, bpfs_file_open_read(&file, image));
    IS(0, bpfs_file_open_read(&second, image));
    FAILS(EWOULDBLOCK, bpfs_file_open(&writer, image, BPFS_FILE_CACHED));
    IS(BPFS_OK, bpfs_file_mount(&fs, &file, &fault));
    IS(BPFS_OK, bpfs_stat(&fs, PATH("/a"), &found));
    IS(BPFS_OK, bpfs_create(&fs, PATH("/b"), &lack));
    FAILS(EROFS, bpfs_carry(&fs, &file.carrier));
    IS(BPFS_OK, bpfs_discard(&fs));
    IS(0, bpfs_file_close(&file));
    IS(0, bpfs_file_close(&second));
}

static void wrong_sizes(void) {
    const size_t sizes[] = {0, 1, 4095, BPFS_MIN_BLOCKS * 4096 - 1, BLOCKS * 4096 + 7};
    const uint64_t wanted[] = {8 * 4096, 8 * 4096, 8 * 4096, 8 * 4096, BLOCKS * 4096};
    for (size_t i = 0; i < sizeof sizes / sizeof *sizes; i++) {
        bpfs_file file;
        bpfs fs = BPFS_CLOSED;
        fault = (bpfs_fault){.found = UNSET, .wanted = UNSET};
        copy(image, other);
        if (truncate(other, (off_t)sizes[i])) exit(2);
        IS(0, bpfs_file_open(&file, other, BPFS_FILE_CACHED));
        IS(BPFS_BAD_SIZE, bpfs_file_mount(&fs, &file, &fault));
        IS(BPFS_BAD_SIZE, bpfs_file_mount(&fs, &file, NULL));
        IS(sizes[i], fault.found);
        IS(wanted[i], fault.wanted);
        IS(sizes[i], size_of(other));
        IS(0, bpfs_file_close(&file));
    }
    unlink(other);
}

/* A file without a format gets a copy of an image, and then another name. */
static void renames(void) {
    bpfs_file file, blank, second;
    bpfs fs = BPFS_CLOSED, more = BPFS_CLOSED;
    IS(0, bpfs_file_open(&file, image, BPFS_FILE_WAITS));
    IS(BPFS_OK, bpfs_file_mount(&fs, &file, &fault));
    IS(0, bpfs_file_make(&blank, other, BLOCKS, BPFS_FILE_WAITS));
    FAILS(EEXIST, bpfs_file_make(&second, image, BLOCKS, BPFS_FILE_WAITS));
    IS(BPFS_NOT_FORMATTED, bpfs_file_mount(&more, &blank, &fault));
    IS(0, bpfs_copy_image(&fs, &blank.carrier));
    FAILS(ENOENT, bpfs_file_rename(&blank, image, other));
    IS(0, bpfs_file_rename(&blank, other, image));
    IS(-1, size_of(other));
    IS(BPFS_OK, bpfs_file_mount(&more, &blank, &fault));
    IS(BPFS_OK, bpfs_close(&more));
    IS(BPFS_OK, bpfs_close(&fs));
    IS(0, bpfs_file_close(&blank));
    IS(0, bpfs_file_close(&file));
}

/* ---- a journal */

static void carry_one(bpfs *fs, bpfs_carrier *carrier, const uint8_t *path) {
    IS(BPFS_OK, bpfs_create(fs, path, 2, &lack));
    IS(0, bpfs_carry(fs, carrier));
}

/* What a killed process leaves: handles and memory are gone, the image keeps its journal. */
static void drop(bpfs *fs, bpfs_redo *redo) {
    IS(BPFS_OK, bpfs_discard(fs));
    redo->carrier.error = EIO;
    FAILS(EIO, bpfs_redo_close(redo));
}

static bool has_file(bpfs *fs, const uint8_t *path) {
    bpfs_found found;
    return bpfs_stat(fs, path, 2, &found) == BPFS_OK;
}

static void journals(void) {
    bpfs_redo redo;
    bpfs_file file;
    bpfs fs = BPFS_CLOSED;
    IS(0, bpfs_redo_open(&redo, image, BPFS_FILE_WAITS));
    IS(BPFS_OK, bpfs_redo_mount(&fs, &redo, &fault));
    IS(-1, size_of(journal));
    carry_one(&fs, &redo.carrier, (const uint8_t *)"/1");
    IS(true, size_of(journal) > 0);
    FAILS(EWOULDBLOCK, bpfs_file_open(&file, image, BPFS_FILE_CACHED));
    drop(&fs, &redo);
    FAILS(EUCLEAN, bpfs_file_open(&file, image, BPFS_FILE_CACHED));
    FAILS(EUCLEAN, bpfs_file_open_read(&file, image));
    IS(0, bpfs_redo_open(&redo, image, BPFS_FILE_WAITS));
    IS(BPFS_OK, bpfs_redo_mount(&fs, &redo, &fault));
    IS(true, has_file(&fs, (const uint8_t *)"/1"));
    carry_one(&fs, &redo.carrier, (const uint8_t *)"/2");
    IS(BPFS_OK, bpfs_close(&fs));
    IS(0, bpfs_redo_close(&redo));
    IS(0, bpfs_redo_close(&redo));
    IS(0, size_of(journal));
    IS(0, bpfs_file_open(&file, image, BPFS_FILE_CACHED));
    IS(BPFS_OK, bpfs_file_mount(&fs, &file, &fault));
    IS(true, has_file(&fs, (const uint8_t *)"/2"));
    IS(BPFS_OK, bpfs_close(&fs));
    IS(0, bpfs_file_close(&file));
}

/* ---- a journal of an earlier version */

enum { OLD_HEAD = 6, OLD_SUM = 5 };

static const uint64_t old_magic = 0x4f44455253465042; /* "BPFSREDO" */

static uint64_t old_sum(const uint64_t *entry, size_t count) {
    uint64_t a = 0x9e3779b97f4a7c15u, b = 0;
    for (size_t i = 0; i < count; i++) {
        if (i == OLD_SUM) continue;
        a = (a ^ entry[i]) * 0x9e3779b97f4a7c15u;
        a ^= a >> 29;
        b += a;
    }
    return b ^ (b >> 32) ^ a;
}

/* Writes the sum of an entry, and the entry to the journal. Returns the note of an image that has the entry. */
static uint64_t write_old(int fd, uint64_t *entry, size_t count, off_t at) {
    entry[OLD_SUM] = old_sum(entry, count);
    if (pwrite(fd, entry, 8 * count, at) != (ssize_t)(8 * count)) perror(journal), exit(2);
    return 0x52444full << 40 | entry[OLD_SUM] >> 24;
}

static uint64_t word_of_image(uint64_t word) {
    uint64_t value = UNSET;
    int fd = open(image, O_RDONLY);
    if (fd < 0 || pread(fd, &value, sizeof value, (off_t)(8 * word)) != sizeof value) perror(image), exit(2);
    close(fd);
    return value;
}

static void set_word_of_image(uint64_t word, uint64_t value) {
    int fd = open(image, O_WRONLY);
    if (fd < 0 || pwrite(fd, &value, sizeof value, (off_t)(8 * word)) != sizeof value) perror(image), exit(2);
    close(fd);
}

/* Leaves an image with a note, and a journal with a word that the image lacks: 32 bits are the place of a run, and 32
 * bits its count. */
static void leave_old_journal(uint64_t value) {
    struct stat it;
    int fd = open(journal, O_WRONLY | O_CREAT | O_TRUNC, 0666);
    if (fd < 0 || stat(image, &it)) perror(journal), exit(2);
    uint64_t first[OLD_HEAD] = {old_magic, 12345, 1, it.st_ino, 0};
    uint64_t note = write_old(fd, first, OLD_HEAD, 0);
    uint64_t second[OLD_HEAD + 2] = {old_magic, note, 2, it.st_ino, 2, 0, BPFS_NOTE_WORD | 1ull << 32, value};
    write_old(fd, second, OLD_HEAD + 2, 4096);
    close(fd);
    set_word_of_image(BPFS_REDO_WORD, note);
    set_word_of_image(BPFS_NOTE_WORD, 0);
}

static void journals_of_an_earlier_version(void) {
    const uint64_t note = 78;
    bpfs_redo redo;
    leave_old_journal(77);
    int code = bpfs_redo_open(&redo, image, BPFS_FILE_WAITS);
    IS(0, code);
    if (code) return;
    IS(77, word_of_image(BPFS_NOTE_WORD));
    IS(0, redo.carrier.put(&redo.carrier, BPFS_NOTE_WORD, &note, 1)); /* an entry of this version follows */
    IS(0, redo.carrier.settle(&redo.carrier));
    redo.carrier.error = EIO;
    FAILS(EIO, bpfs_redo_close(&redo));
    set_word_of_image(BPFS_NOTE_WORD, 0);
    IS(0, bpfs_redo_open(&redo, image, BPFS_FILE_WAITS));
    IS(78, word_of_image(BPFS_NOTE_WORD));
    IS(0, bpfs_redo_close(&redo));
    IS(0, size_of(journal));
    leave_old_journal(79);
    set_word_of_image(BPFS_REDO_WORD, 0x52444full << 40 | 1); /* the note of another journal */
    FAILS(ESTALE, bpfs_redo_open(&redo, image, BPFS_FILE_WAITS));
    IS(0, word_of_image(BPFS_NOTE_WORD));
    set_word_of_image(BPFS_REDO_WORD, 0);
    unlink(journal);
}

/* A follower may be mounted between two epochs: a mount shows what was put and not settled. */
static void mounts_with_words_that_wait(void) {
    const uint64_t note = 7;
    uint64_t found = 0;
    bpfs_redo redo;
    bpfs fs = BPFS_CLOSED;
    IS(0, bpfs_redo_open(&redo, image, BPFS_FILE_WAITS));
    IS(0, redo.carrier.put(&redo.carrier, BPFS_NOTE_WORD, &note, 1));
    IS(BPFS_OK, bpfs_redo_mount(&fs, &redo, &fault));
    IS(BPFS_OK, bpfs_words(&fs, BPFS_NOTE_WORD, &found, 1));
    IS(7, found);
    IS(BPFS_OK, bpfs_close(&fs));
    IS(0, bpfs_redo_close(&redo));
}

/* An older copy, another image, and no journal: each is refused, and nothing is changed. */
static void foreign_journals(void) {
    bpfs_redo redo;
    bpfs fs = BPFS_CLOSED;
    copy(image, other);
    IS(0, bpfs_redo_open(&redo, image, BPFS_FILE_WAITS));
    IS(BPFS_OK, bpfs_redo_mount(&fs, &redo, &fault));
    carry_one(&fs, &redo.carrier, (const uint8_t *)"/3");
    drop(&fs, &redo);
    if (rename(image, kept) || rename(other, image)) exit(2);
    FAILS(ESTALE, bpfs_redo_open(&redo, image, BPFS_FILE_WAITS));
    copy(journal, other);
    unlink(journal);
    if (rename(kept, image)) exit(2);
    FAILS(ENOENT, bpfs_redo_open(&redo, image, BPFS_FILE_WAITS));
    IS(-1, size_of(journal));
    write_to(journal, 0, "", 0);
    FAILS(ENOENT, bpfs_redo_open(&redo, image, BPFS_FILE_WAITS));
    unlink(journal);
    if (rename(other, journal)) exit(2);
    IS(0, bpfs_redo_open(&redo, image, BPFS_FILE_WAITS));
    IS(BPFS_OK, bpfs_redo_mount(&fs, &redo, &fault));
    IS(true, has_file(&fs, (const uint8_t *)"/3"));
    IS(BPFS_OK, bpfs_close(&fs));
    IS(0, bpfs_redo_close(&redo));
}

/* A copy of the image that was made while an earlier journal was in use. */
static void older_journals(void) {
    bpfs_redo redo;
    bpfs fs = BPFS_CLOSED;
    IS(0, bpfs_redo_open(&redo, image, BPFS_FILE_WAITS));
    IS(BPFS_OK, bpfs_redo_mount(&fs, &redo, &fault));
    carry_one(&fs, &redo.carrier, (const uint8_t *)"/4");
    copy(image, other);
    IS(BPFS_OK, bpfs_close(&fs));
    IS(0, bpfs_redo_close(&redo));
    IS(0, bpfs_redo_open(&redo, image, BPFS_FILE_WAITS));
    IS(BPFS_OK, bpfs_redo_mount(&fs, &redo, &fault));
    carry_one(&fs, &redo.carrier, (const uint8_t *)"/5");
    drop(&fs, &redo);
    if (rename(image, kept) || rename(other, image)) exit(2);
    FAILS(ESTALE, bpfs_redo_open(&redo, image, BPFS_FILE_WAITS));
    if (rename(kept, image)) exit(2);
    IS(0, bpfs_redo_open(&redo, image, BPFS_FILE_WAITS));
    IS(0, bpfs_redo_close(&redo));
}

/* Opening and closing a file that is no image changes nothing. */
static void no_images(void) {
    static const char text[] = "a text";
    bpfs_redo redo;
    bpfs fs = BPFS_CLOSED;
    unlink(journal);
    write_to(other, 0, text, sizeof text);
    FAILS(ENOENT, bpfs_redo_open(&redo, kept, BPFS_FILE_WAITS));
    IS(0, bpfs_redo_open(&redo, other, BPFS_FILE_WAITS));
    IS(BPFS_BAD_SIZE, bpfs_redo_mount(&fs, &redo, &fault));
    IS(0, bpfs_redo_close(&redo));
    IS(sizeof text, size_of(other));
    unlink(other);
    FAILS(EEXIST, bpfs_redo_create(&redo, image, BLOCKS, 2, BPFS_FILE_WAITS));
    IS(BLOCKS * 4096, size_of(image));
    IS(0, bpfs_redo_create(&redo, other, BLOCKS, 2, BPFS_FILE_WAITS));
    IS(BPFS_OK, bpfs_redo_mount(&fs, &redo, &fault));
    IS(BPFS_OK, bpfs_close(&fs));
    IS(0, bpfs_redo_close(&redo));
    unlink(other);
}

/* ---- persistent memory */

#ifdef HAS_PMEM
static void mapped_files(void) {
    bpfs_pmem pmem, second;
    bpfs_file file;
    bpfs fs = BPFS_CLOSED;
    unlink(image);
    FAILS(ENOENT, bpfs_pmem_open(&pmem, image));
    IS(-1, size_of(image));
    IS(BPFS_OUT_OF_RANGE, bpfs_pmem_create(&pmem, image, 7, 2));
    IS(0, bpfs_pmem_create(&pmem, image, BLOCKS, 2));
    FAILS(EEXIST, bpfs_pmem_create(&second, image, BPFS_MIN_BLOCKS, 2));
    FAILS(EWOULDBLOCK, bpfs_pmem_open(&second, image));
    FAILS(EWOULDBLOCK, bpfs_file_open(&file, image, BPFS_FILE_CACHED));
    IS(BPFS_OK, bpfs_pmem_mount(&fs, &pmem, &fault));
    carry_one(&fs, &pmem.carrier, (const uint8_t *)"/1");
    IS(BPFS_OK, bpfs_close(&fs));
    IS(0, bpfs_pmem_close(&pmem));
    IS(0, bpfs_pmem_close(&pmem));
    IS(0, bpfs_pmem_open_read(&pmem, image));
    IS(0, bpfs_pmem_open_read(&second, image));
    IS(BPFS_OK, bpfs_pmem_mount(&fs, &pmem, &fault));
    IS(true, has_file(&fs, (const uint8_t *)"/1"));
    FAILS(EROFS, bpfs_carry(&fs, &pmem.carrier));
    IS(BPFS_OK, bpfs_discard(&fs));
    IS(0, bpfs_pmem_close(&pmem));
    IS(0, bpfs_pmem_close(&second));
    IS(BLOCKS * 4096, size_of(image));
    if (truncate(image, 0)) exit(2);
    IS(0, bpfs_pmem_open(&pmem, image));
    IS(BPFS_BAD_SIZE, bpfs_pmem_mount(&fs, &pmem, &fault));
    IS(0, bpfs_pmem_close(&pmem));
    IS(0, size_of(image));
}
#endif

int main(int argc, char **argv) {
    if (argc != 2) return fprintf(stderr, "usage: carriers_test FOLDER\n"), 2;
    snprintf(image, sizeof image, "%s/carriers", argv[1]);
    snprintf(other, sizeof other, "%s/carriers-other", argv[1]);
    snprintf(kept, sizeof kept, "%s/carriers-kept", argv[1]);
    snprintf(journal, sizeof journal, "%s/carriers-redo", argv[1]);
    bindings();
    positions();
    copies();
    create_files();
    read_files();
    wrong_sizes();
    renames();
    journals();
    mounts_with_words_that_wait();
    foreign_journals();
    older_journals();
    journals_of_an_earlier_version();
    no_images();
#ifdef HAS_PMEM
    mapped_files();
#endif
    unlink(image);
    if (!wrong) printf("carriers: %d results\n", checks);
    return wrong;
}
