/* calls_test.c - each call of the library once with each answer that it may give, and the rules of the header that a program can break.
 *
 *     calls_test
 *
 * It carries nothing: volumes are in memory alone. The status is 1 where an answer is wrong.
 */
#include <bpfs/carry.h>
#include <stdio.h>
#include <stdlib.h>
#include <string.h>

#define PATH(text) (const uint8_t *)(text), sizeof(text) - 1
#define IS(wanted, call) is((uint64_t)(wanted), (uint64_t)(call), #call, __LINE__)

enum { BLOCKS = 64, WORDS = BLOCKS * BPFS_BLOCK_WORDS };

static uint64_t words[WORDS];
static bpfs fs;
static bpfs_lack lack;
static bpfs_fault fault;
static int wrong, checks;

static void is(uint64_t wanted, uint64_t found, const char *call, int line) {
    checks++;
    if (wanted == found) return;
    fprintf(stderr, "calls_test.c:%d: %s: %llu, and %llu was wanted\n", line, call, (unsigned long long)found, (unsigned long long)wanted);
    wrong = 1;
}

/* A carrier to the words in memory. */
static int put(bpfs_carrier *carrier, uint64_t word, const uint64_t *values, size_t count) {
    (void)carrier;
    memcpy(words + word, values, 8 * count);
    return 0;
}

static int nothing(bpfs_carrier *carrier) {
    (void)carrier;
    return 0;
}

static bpfs_carrier carrier = {.put = put, .barrier = nothing, .settle = nothing};

static void make(uint32_t version) {
    memset(words, 0xa5, sizeof words);
    IS(BPFS_OK, bpfs_format(&carrier, BLOCKS, version));
    IS(BPFS_OK, bpfs_mount(&fs, words, WORDS, &fault));
    IS(0, bpfs_bind(&fs, &carrier));
}

static void formats(void) {
    bpfs_event events[20];
    size_t count = 99;
    IS(BPFS_OUT_OF_RANGE, bpfs_format_events(BPFS_MIN_BLOCKS - 1, 1, events, 20, &count));
    IS(BPFS_OUT_OF_RANGE, bpfs_format_events(BPFS_MAX_BLOCKS + 1, 1, events, 20, &count));
    IS(BPFS_OUT_OF_RANGE, bpfs_format_events(BLOCKS, 0, events, 20, &count));
    IS(BPFS_OUT_OF_RANGE, bpfs_format_events(BLOCKS, 4, events, 20, &count));
    IS(99, count);
    IS(BPFS_OK, bpfs_format_events(BLOCKS, 1, events, 20, &count));
    IS(11, count);
    IS(BPFS_OK, bpfs_format_events(BLOCKS, 2, events, 20, &count));
    IS(13, count);
    IS(BPFS_OK, bpfs_format_events(BLOCKS, 3, events, 20, &count));
    IS(18, count);
    IS(BPFS_OK, bpfs_format_events(BPFS_MAX_BLOCKS, 1, events, 3, &count));
    IS(3, count);
    IS(BPFS_OK, bpfs_format_events(BLOCKS, 1, NULL, 0, &count));
    IS(0, count);
}

static void mounts(void) {
    make(1);
    IS(BPFS_HAS_ONE, bpfs_mount(&fs, words, WORDS, &fault));
    IS(BPFS_OK, bpfs_close(&fs));
    IS(BPFS_HAS_NONE, bpfs_close(&fs));
    IS(BPFS_HAS_NONE, bpfs_discard(&fs));
    IS(BPFS_BAD_SIZE, bpfs_mount(&fs, words, WORDS - 1, &fault));
    IS((WORDS - 1) * 8, fault.found);
    IS(WORDS * 8, fault.wanted);
    IS(BPFS_BAD_SIZE, bpfs_mount(&fs, NULL, 0, &fault));
    IS(0, fault.found);
    IS(BPFS_MIN_BLOCKS * 4096, fault.wanted);
    IS(BPFS_BAD_SIZE, bpfs_mount(&fs, words, WORDS / 2, &fault));
    IS(WORDS / 2 * 8, fault.found);
    IS(WORDS * 8, fault.wanted);
    words[2] ^= 8; /* a bit of the root word that has to be 0 */
    IS(BPFS_DAMAGED, bpfs_mount(&fs, words, WORDS, &fault));
    IS(2, fault.check);
    IS(2, fault.place);
    words[0] = 0;
    IS(BPFS_NOT_FORMATTED, bpfs_mount(&fs, words, WORDS, &fault));
    IS(false, fs.is_open);
}

/* A handle keeps its volume while the log has events, also where they are the marker of a refused call. */
static void closes(void) {
    bpfs_about about = {0, 0, 0, 0, true};
    make(2);
    IS(BPFS_OK, bpfs_info(&fs, &about));
    IS(true, about.version == 2 && about.blocks == BLOCKS && !about.has_snapshot);
    IS(2 * BPFS_LOG_ROOM, about.capacity);
    IS(about.capacity, about.room);
    IS(BPFS_EXISTS, bpfs_create(&fs, PATH("/"), &lack));
    IS(1, bpfs_event_count(&fs));
    IS(BPFS_PENDING, bpfs_close(&fs));
    IS(BPFS_OK, bpfs_create(&fs, PATH("/a"), &lack));
    IS(BPFS_PENDING, bpfs_close(&fs));
    IS(true, fs.is_open);
    IS(BPFS_OK, bpfs_stat(&fs, PATH("/a"), NULL));
    IS(BPFS_OK, bpfs_snap(&fs));
    IS(BPFS_OK, bpfs_info(&fs, &about));
    IS(true, about.has_snapshot);
    IS(about.capacity - bpfs_event_count(&fs), about.room);
    IS(0, bpfs_carry(&fs, &carrier));
    IS(BPFS_OK, bpfs_stat(&fs, PATH("/a"), NULL)); /* adds no event */
    IS(BPFS_OK, bpfs_close(&fs));
    IS(false, fs.is_open);
    IS(BPFS_OK, bpfs_mount(&fs, words, WORDS, &fault));
    IS(BPFS_OK, bpfs_stat(&fs, PATH("/a"), NULL));
    IS(BPFS_OK, bpfs_create(&fs, PATH("/b"), &lack));
    IS(BPFS_OK, bpfs_discard(&fs)); /* so /b is lost */
    IS(false, fs.is_open);
    IS(BPFS_HAS_NONE, bpfs_info(&fs, &about));
    IS(BPFS_OK, bpfs_mount(&fs, words, WORDS, &fault));
    IS(BPFS_NOT_FOUND, bpfs_stat(&fs, PATH("/b"), NULL));
    IS(BPFS_OK, bpfs_discard(&fs));
}

/* The number of the inode at a path, which has to be there. */
static uint32_t inode(const char *path) {
    uint32_t ino = 0;
    IS(BPFS_OK, bpfs_inode(&fs, (const uint8_t *)path, strlen(path), &ino));
    return ino;
}

/* All links of a file have one number, which stays. */
static void inodes(void) {
    uint32_t ino = 99;
    make(2);
    IS(BPFS_OK, bpfs_mkdir(&fs, PATH("/d"), &lack));
    IS(BPFS_OK, bpfs_create(&fs, PATH("/a"), &lack));
    IS(BPFS_OK, bpfs_create(&fs, PATH("/b"), &lack));
    IS(BPFS_OK, bpfs_link(&fs, PATH("/a"), PATH("/d/a"), &lack));
    size_t events = bpfs_event_count(&fs);
    uint32_t a = inode("/a"), b = inode("/b"), d = inode("/d"), root = inode("/");
    IS(true, a && b && d && root && a != b && a != d && b != d && root != a && root != b && root != d);
    IS(a, inode("/d/a"));
    IS(BPFS_NOT_FOUND, bpfs_inode(&fs, PATH("/none"), &ino));
    IS(BPFS_NOT_DIR, bpfs_inode(&fs, PATH("/a/b"), &ino));
    IS(BPFS_BAD_PATH, bpfs_inode(&fs, PATH("a"), &ino));
    IS(BPFS_OK, bpfs_inode(&fs, PATH("/a"), NULL));
    IS(99, ino);
    IS(events, bpfs_event_count(&fs));
    IS(BPFS_OK, bpfs_unlink(&fs, PATH("/a"), &lack));
    IS(BPFS_OK, bpfs_rename(&fs, PATH("/d"), PATH("/e"), &lack));
    IS(BPFS_OK, bpfs_rename(&fs, PATH("/e/a"), PATH("/c"), &lack));
    IS(a, inode("/c"));
    IS(d, inode("/e"));
    IS(BPFS_OK, bpfs_discard(&fs));
}

/* The memory is ours, and it is this. */
static void is_lent(const bpfs_lent *lent, const uint64_t *at, size_t count) {
    IS(true, lent->is_there);
    IS(true, lent->words == at);
    IS(count, lent->count);
}

static void mounts_lent_words(void) {
    bpfs_lent lent = {words, WORDS, true};
    make(1);
    IS(BPFS_HAS_ONE, bpfs_mount_at(&fs, &lent, &fault));
    is_lent(&lent, words, WORDS);
    IS(BPFS_OK, bpfs_close(&fs));
    IS(BPFS_HAS_NONE, bpfs_close_at(&fs, &lent));
    is_lent(&lent, words, WORDS);
    IS(BPFS_OK, bpfs_mount_at(&fs, &lent, &fault));
    IS(false, lent.is_there);
    IS(BPFS_OK, bpfs_create(&fs, PATH("/a"), &lack)); /* the words change with no carry */
    IS(BPFS_OK, bpfs_close_at(&fs, &lent));
    is_lent(&lent, words, WORDS);
    IS(BPFS_OK, bpfs_mount(&fs, words, WORDS, &fault));
    IS(BPFS_OK, bpfs_stat(&fs, PATH("/a"), NULL));
    IS(BPFS_OK, bpfs_close_at(&fs, &lent)); /* these are of malloc */
    IS(true, lent.is_there && lent.words != words && lent.count == WORDS);
    IS(0, memcmp(lent.words, words, sizeof words));
    free(lent.words);
    lent = (bpfs_lent){words, WORDS, true};
    IS(BPFS_OK, bpfs_mount_at(&fs, &lent, NULL));
    IS(BPFS_OK, bpfs_close(&fs)); /* frees no memory that was lent */
    lent = (bpfs_lent){words, WORDS - 1, true};
    IS(BPFS_BAD_SIZE, bpfs_mount_at(&fs, &lent, &fault));
    IS((WORDS - 1) * 8, fault.found);
    is_lent(&lent, words, WORDS - 1);
    words[2] ^= 8;
    lent.count = WORDS;
    IS(BPFS_DAMAGED, bpfs_mount_at(&fs, &lent, &fault));
    IS(2, fault.place);
    is_lent(&lent, words, WORDS);
    words[0] = 0;
    IS(BPFS_NOT_FORMATTED, bpfs_mount_at(&fs, &lent, NULL));
    is_lent(&lent, words, WORDS);
    lent.is_there = false;
    IS(BPFS_OUT_OF_RANGE, bpfs_mount_at(&fs, &lent, &fault));
    IS(false, lent.is_there || fs.is_open);
}

static void closed_handles(void) {
    uint8_t bytes[4];
    size_t count;
    uint32_t names;
    uint64_t value = 99;
    bool is_dir;
    bpfs_found found;
    bpfs_blocks blocks;
    bpfs_sums sums;
    bpfs_run run;
    IS(BPFS_HAS_NONE, bpfs_create(&fs, PATH("/a"), &lack));
    IS(BPFS_HAS_NONE, bpfs_mkdir(&fs, PATH("/a"), &lack));
    IS(BPFS_HAS_NONE, bpfs_unlink(&fs, PATH("/a"), &lack));
    IS(BPFS_HAS_NONE, bpfs_rmdir(&fs, PATH("/a"), &lack));
    IS(BPFS_HAS_NONE, bpfs_rename(&fs, PATH("/a"), PATH("/b"), &lack));
    IS(BPFS_HAS_NONE, bpfs_link(&fs, PATH("/a"), PATH("/b"), &lack));
    IS(BPFS_HAS_NONE, bpfs_write(&fs, PATH("/a"), 0, PATH("x"), &lack));
    IS(BPFS_HAS_NONE, bpfs_batch(&fs, NULL, 0, NULL, 0, &lack));
    IS(BPFS_HAS_NONE, bpfs_truncate(&fs, PATH("/a"), 0, &lack));
    IS(BPFS_HAS_NONE, bpfs_set_attribute(&fs, PATH("/a"), 0, 1, &lack));
    IS(BPFS_OUT_OF_RANGE, bpfs_set_attribute(&fs, PATH("/a"), BPFS_ATTRIBUTES, 1, &lack));
    IS(BPFS_HAS_NONE, bpfs_upgrade(&fs));
    IS(BPFS_HAS_NONE, bpfs_upgrade_to_three(&fs));
    IS(BPFS_HAS_NONE, bpfs_snap(&fs));
    IS(BPFS_HAS_NONE, bpfs_unsnap(&fs));
    IS(BPFS_HAS_NONE, bpfs_snap_read(&fs, PATH("/a"), 0, bytes, sizeof bytes, &count));
    IS(BPFS_HAS_NONE, bpfs_snap_stat(&fs, PATH("/a"), &found));
    IS(BPFS_HAS_NONE, bpfs_snap_list(&fs, PATH("/"), &count));
    IS(BPFS_HAS_NONE, bpfs_read(&fs, PATH("/a"), 0, bytes, sizeof bytes, &count));
    IS(BPFS_HAS_NONE, bpfs_stat(&fs, PATH("/a"), &found));
    IS(BPFS_HAS_NONE, bpfs_links(&fs, PATH("/a"), &names));
    IS(BPFS_HAS_NONE, bpfs_inode(&fs, PATH("/a"), &names));
    IS(BPFS_HAS_NONE, bpfs_attribute(&fs, PATH("/a"), 0, &value));
    IS(BPFS_OUT_OF_RANGE, bpfs_attribute(&fs, PATH("/a"), BPFS_ATTRIBUTES, &value));
    IS(99, value);
    IS(BPFS_HAS_NONE, bpfs_list(&fs, PATH("/"), &count));
    IS(BPFS_HAS_NONE, bpfs_listed(&fs, 0, bytes, sizeof bytes, &count, &is_dir));
    IS(BPFS_HAS_NONE, bpfs_space(&fs, &blocks));
    IS(BPFS_HAS_NONE, bpfs_totals(&fs, &sums));
    IS(BPFS_HAS_NONE, bpfs_words(&fs, 0, words, 1));
    IS(BPFS_HAS_NONE, bpfs_drain(&fs));
    IS(0, bpfs_event_count(&fs));
    IS(0, bpfs_events(&fs, 0, NULL, 0));
    IS(0, bpfs_run_at(&fs, 0, &run, words, 1));
}

static void changes(void) {
    make(1);
    IS(BPFS_OK, bpfs_mkdir(&fs, PATH("/d"), &lack));
    IS(BPFS_EXISTS, bpfs_mkdir(&fs, PATH("/d"), &lack));
    IS(BPFS_OK, bpfs_create(&fs, PATH("/d/a"), &lack));
    IS(BPFS_EXISTS, bpfs_create(&fs, PATH("/d/a"), &lack));
    IS(BPFS_EXISTS, bpfs_create(&fs, PATH("/"), &lack));
    IS(BPFS_NOT_FOUND, bpfs_create(&fs, PATH("/e/a"), &lack));
    IS(BPFS_NOT_DIR, bpfs_create(&fs, PATH("/d/a/b"), &lack));
    IS(BPFS_BAD_PATH, bpfs_create(&fs, PATH("a"), &lack));
    IS(BPFS_BAD_PATH, bpfs_create(&fs, PATH("/d/"), &lack));
    IS(BPFS_BAD_PATH, bpfs_create(&fs, PATH("/d/.."), &lack));
    IS(BPFS_BAD_PATH, bpfs_create(&fs, NULL, 0, &lack));
    IS(BPFS_IS_DIR, bpfs_unlink(&fs, PATH("/d"), &lack));
    IS(BPFS_NOT_EMPTY, bpfs_rmdir(&fs, PATH("/d"), &lack));
    IS(BPFS_IS_ROOT, bpfs_rmdir(&fs, PATH("/"), &lack));
    IS(BPFS_INTO_SELF, bpfs_rename(&fs, PATH("/d"), PATH("/d/e"), &lack));
    IS(BPFS_IS_ROOT, bpfs_rename(&fs, PATH("/"), PATH("/e"), &lack));
    IS(BPFS_OK, bpfs_link(&fs, PATH("/d/a"), PATH("/b"), &lack));
    IS(BPFS_EXISTS, bpfs_link(&fs, PATH("/d/a"), PATH("/b"), &lack));
    IS(BPFS_IS_DIR, bpfs_link(&fs, PATH("/d"), PATH("/c"), &lack));
    IS(BPFS_OK, bpfs_rename(&fs, PATH("/b"), PATH("/c"), &lack));
    IS(BPFS_OK, bpfs_unlink(&fs, PATH("/c"), &lack));
    IS(BPFS_OK, bpfs_truncate(&fs, PATH("/d/a"), 100, &lack));
    IS(BPFS_TOO_BIG, bpfs_truncate(&fs, PATH("/d/a"), (1ull << 39) + 1, &lack));
    IS(BPFS_IS_DIR, bpfs_truncate(&fs, PATH("/d"), 1, &lack));
}

static void writes(void) {
    static uint8_t big[BPFS_MAX_WRITE_2 + 1];
    IS(BPFS_OK, bpfs_write(&fs, PATH("/d/a"), 0, NULL, 0, &lack));
    IS(BPFS_OK, bpfs_write(&fs, PATH("/d/a"), 3, PATH("hello"), &lack));
    IS(BPFS_TOO_LONG, bpfs_write(&fs, PATH("/d/a"), 0, big, BPFS_MAX_WRITE + 1, &lack));
    IS(BPFS_TOO_BIG, bpfs_write(&fs, PATH("/d/a"), 1ull << 39, big, 1, &lack));
    lack = (bpfs_lack){0, 0};
    IS(BPFS_OK, bpfs_upgrade(&fs));
    IS(BPFS_TOO_LONG, bpfs_write(&fs, PATH("/d/a"), 0, big, BPFS_MAX_WRITE_2 + 1, &lack));
    IS(0, lack.need + lack.free);
    IS(BPFS_NO_SPACE, bpfs_write(&fs, PATH("/d/a"), 0, big, BPFS_MAX_WRITE_2, &lack));
    IS(true, lack.free < lack.need);
    IS(BPFS_OK, bpfs_upgrade(&fs));
}

static void batches(void) {
    const uint8_t text[] = "/d/aXY/d/z";
    bpfs_piece pieces[BPFS_MAX_PIECES + 1] = {{0, 4, 1, 4, 1}, {0, 4, 98, 5, 1}};
    uint8_t byte;
    size_t count;
    IS(BPFS_OK, bpfs_batch(&fs, text, 6, pieces, 2, &lack));
    IS(BPFS_OK, bpfs_read(&fs, PATH("/d/a"), 98, &byte, 1, &count));
    IS('Y', byte);
    IS(BPFS_OK, bpfs_batch(&fs, NULL, 0, NULL, 0, &lack));
    pieces[1].offset = 100;
    IS(BPFS_PAST_END, bpfs_batch(&fs, text, 6, pieces, 2, &lack));
    pieces[1] = (bpfs_piece){6, 4, 0, 5, 1};
    IS(BPFS_NOT_FOUND, bpfs_batch(&fs, text, sizeof text - 1, pieces, 2, &lack));
    size_t events = bpfs_event_count(&fs);
    IS(BPFS_OUT_OF_RANGE, bpfs_batch(&fs, text, 6, pieces, 2, &lack));
    pieces[1] = (bpfs_piece){0, 4, 0, UINT32_MAX, UINT32_MAX};
    IS(BPFS_OUT_OF_RANGE, bpfs_batch(&fs, text, 6, pieces, 2, &lack));
    IS(BPFS_OUT_OF_RANGE, bpfs_batch(&fs, text, 6, pieces, BPFS_MAX_PIECES + 1, &lack));
    IS(events, bpfs_event_count(&fs));
}

static void reads(void) {
    uint8_t bytes[8];
    size_t count = 99;
    uint32_t names = 0;
    bpfs_found found;
    bpfs_blocks blocks;
    bpfs_sums sums;
    uint64_t word;
    IS(BPFS_OK, bpfs_read(&fs, PATH("/d/a"), 3, bytes, 5, &count));
    IS(5, count);
    IS(0, memcmp(bytes, "hello", 5));
    IS(BPFS_OK, bpfs_read(&fs, PATH("/d/a"), 98, bytes, 8, &count));
    IS(2, count);
    IS(BPFS_OK, bpfs_read(&fs, PATH("/d/a"), 1000, bytes, 8, &count));
    IS(0, count);
    IS(BPFS_OK, bpfs_read(&fs, PATH("/d/a"), 0, NULL, 0, &count));
    count = 99;
    IS(BPFS_IS_DIR, bpfs_read(&fs, PATH("/d"), 0, bytes, 8, &count));
    IS(99, count);
    IS(BPFS_OK, bpfs_stat(&fs, PATH("/d/a"), &found));
    IS(100, found.size);
    IS(BPFS_OK, bpfs_stat(&fs, PATH("/"), &found));
    IS(true, found.is_dir && found.size == 1);
    IS(BPFS_OK, bpfs_links(&fs, PATH("/d/a"), &names));
    IS(1, names);
    IS(BPFS_IS_DIR, bpfs_links(&fs, PATH("/d"), &names));
    IS(BPFS_OK, bpfs_space(&fs, &blocks));
    IS(BLOCKS - 1, blocks.free + blocks.live);
    IS(BPFS_OK, bpfs_totals(&fs, &sums));
    IS(true, sums.files == 1 && sums.dirs == 2 && sums.bytes == 100 && sums.bytes_above == 0 && sums.live == blocks.live);
    IS(BPFS_OK, bpfs_words(&fs, 1, &word, 1));
    IS(BLOCKS, word);
    IS(BPFS_OK, bpfs_words(&fs, WORDS, NULL, 0));
    IS(BPFS_OUT_OF_RANGE, bpfs_words(&fs, WORDS, &word, 1));
}

static void lists(void) {
    uint8_t name[BPFS_MAX_NAME];
    size_t count = 99, length;
    bool is_dir;
    IS(BPFS_NOT_DIR, bpfs_list(&fs, PATH("/d/a"), &count));
    IS(BPFS_OUT_OF_RANGE, bpfs_listed(&fs, 0, name, sizeof name, &length, &is_dir));
    IS(BPFS_OK, bpfs_list(&fs, PATH("/"), &count));
    IS(1, count);
    IS(BPFS_OK, bpfs_listed(&fs, 0, name, sizeof name, &length, &is_dir));
    IS(true, length == 1 && name[0] == 'd' && is_dir);
    IS(BPFS_OUT_OF_RANGE, bpfs_listed(&fs, 1, name, sizeof name, &length, &is_dir));
    IS(BPFS_OUT_OF_RANGE, bpfs_listed(&fs, 0, NULL, 0, &length, &is_dir));
}

/* Where words are told that stand in the superblock, behind it, or across its end. */
static void tells_words(void) {
    static uint64_t all[WORDS], some[16];
    IS(BPFS_OK, bpfs_words(&fs, 0, all, WORDS));
    for (uint64_t first = 0; first < 12; first++)
        for (size_t count = 0; count <= 16; count++) {
            IS(BPFS_OK, bpfs_words(&fs, first, some, count));
            IS(0, memcmp(some, all + first, 8 * count));
        }
}

/* The medium has what the volume has. */
static void are_carried(void) {
    static uint64_t now[WORDS];
    IS(BPFS_OK, bpfs_words(&fs, 0, now, WORDS));
    IS(0, memcmp(now, words, sizeof words));
}

static int fail_or_not(bpfs_carrier *it) {
    static int turn;
    (void)it;
    return ++turn % 3 ? -1 : 0;
}

static int fail_or_put(bpfs_carrier *it, uint64_t word, const uint64_t *values, size_t count) {
    return fail_or_not(it) ? -1 : put(it, word, values, count);
}

/* Runs and single events tell the same, with room for any number of values; and both make the words what they are. */
static void runs(void) {
    static bpfs_event events[4096];
    static uint64_t values[600];
    size_t count = bpfs_events(&fs, 0, events, 4096);
    IS(count, bpfs_event_count(&fs));
    for (size_t room = 1; room <= 600; room += 599)
        for (size_t at = 0, n; at < count; at += n) {
            bpfs_run run;
            n = bpfs_run_at(&fs, at, &run, values, room);
            if (n == 0 || n > count - at) {
                IS(1, n);
                return;
            }
            if (run.kind != BPFS_STORE) IS(true, n == 1 && events[at].kind == run.kind);
            bool same = true;
            for (size_t i = 0; run.kind == BPFS_STORE && i < n; i++)
                same = same && events[at + i].kind == BPFS_STORE && events[at + i].word == run.word + i && events[at + i].value == values[i];
            if (!same) IS(at, count);
        }
    bpfs_run run;
    IS(0, bpfs_run_at(&fs, count, &run, values, 1));
    IS(0, bpfs_events(&fs, count, events, 10));
    IS(0, bpfs_events(&fs, 0, NULL, 0));
    IS(0, bpfs_carry(&fs, &carrier));
    IS(0, bpfs_event_count(&fs));
    are_carried();
}

/* A carrier that fails two times in three, and is called again, carries everything. */
static void failing_carriers(void) {
    static uint8_t bytes[10000];
    bpfs_carrier failing = {.put = fail_or_put, .barrier = fail_or_not, .settle = fail_or_not};
    int failures = 0;
    IS(0, bpfs_bind(&fs, &failing));
    IS(BPFS_OK, bpfs_write(&fs, PATH("/d/a"), 3, bytes, sizeof bytes, &lack));
    IS(BPFS_OK, bpfs_create(&fs, PATH("/d/b"), &lack));
    while (bpfs_carry(&fs, &failing) && failures < 1000) failures++;
    IS(true, failures > 10 && failures < 1000);
    IS(0, bpfs_event_count(&fs));
    are_carried();
    IS(0, bpfs_bind(&fs, &carrier));
}

/* A file changes and leaves; its snapshot stays, and gives its blocks back at its end. */
static void snapshots(void) {
    static uint8_t bytes[4096];
    bpfs_found found;
    bpfs_blocks before, kept, after;
    size_t count = 99, length;
    bool is_dir;
    make(1);
    IS(BPFS_OLD_VERSION, bpfs_snap(&fs));
    IS(BPFS_NO_SNAP, bpfs_unsnap(&fs));
    IS(BPFS_NO_SNAP, bpfs_snap_read(&fs, PATH("/a"), 0, bytes, 1, &count));
    IS(BPFS_NO_SNAP, bpfs_snap_stat(&fs, PATH("/a"), &found));
    IS(BPFS_NO_SNAP, bpfs_snap_list(&fs, PATH("/"), &count));
    IS(99, count);
    IS(BPFS_OK, bpfs_upgrade(&fs));
    IS(BPFS_OK, bpfs_create(&fs, PATH("/a"), &lack));
    IS(BPFS_OK, bpfs_write(&fs, PATH("/a"), 0, PATH("hi"), &lack));
    IS(BPFS_OK, bpfs_space(&fs, &before));
    IS(BPFS_OK, bpfs_snap(&fs));
    IS(BPFS_HAS_SNAP, bpfs_snap(&fs));
    IS(BPFS_OK, bpfs_space(&fs, &kept));
    IS(before.free, kept.free);
    IS(BPFS_OK, bpfs_write(&fs, PATH("/a"), 0, PATH("y"), &lack));
    IS(BPFS_OK, bpfs_space(&fs, &kept));
    IS(before.free - 2, kept.free); /* copies of the file's block, and of the block of inodes that leads to it */
    IS(BPFS_OK, bpfs_create(&fs, PATH("/b"), &lack));
    IS(BPFS_OK, bpfs_unlink(&fs, PATH("/a"), &lack));
    IS(BPFS_OK, bpfs_snap_read(&fs, PATH("/a"), 0, bytes, sizeof bytes, &count));
    IS(true, count == 2 && memcmp(bytes, "hi", 2) == 0);
    IS(BPFS_OK, bpfs_snap_stat(&fs, PATH("/a"), &found));
    IS(true, found.size == 2 && !found.is_dir);
    IS(BPFS_NOT_FOUND, bpfs_snap_stat(&fs, PATH("/b"), &found));
    IS(BPFS_BAD_PATH, bpfs_snap_stat(&fs, PATH("a"), &found));
    IS(BPFS_NOT_DIR, bpfs_snap_stat(&fs, PATH("/a/b"), &found));
    IS(BPFS_IS_DIR, bpfs_snap_read(&fs, PATH("/"), 0, bytes, 1, &count));
    IS(BPFS_NOT_DIR, bpfs_snap_list(&fs, PATH("/a"), &count));
    IS(BPFS_OK, bpfs_snap_list(&fs, PATH("/"), &count));
    IS(1, count);
    IS(BPFS_OK, bpfs_listed(&fs, 0, bytes, sizeof bytes, &length, &is_dir));
    IS(true, length == 1 && bytes[0] == 'a' && !is_dir);
    IS(0, bpfs_carry(&fs, &carrier));
    IS(BPFS_OK, bpfs_close(&fs));
    IS(BPFS_OK, bpfs_mount(&fs, words, WORDS, &fault)); /* it stays */
    IS(BPFS_OK, bpfs_snap_stat(&fs, PATH("/"), &found));
    IS(BPFS_OK, bpfs_unsnap(&fs));
    IS(BPFS_NO_SNAP, bpfs_snap_stat(&fs, PATH("/"), &found));
    IS(BPFS_OK, bpfs_space(&fs, &after));
    IS(before.free + 1, after.free); /* the file's block is free too */
}

/* Where no block is free, a snapshot leaves none to a write below the size, and none to a removal. */
static void full_snapshots(void) {
    static uint8_t bytes[BPFS_MAX_WRITE];
    bpfs_blocks blocks;
    uint64_t size = 0;
    for (size_t count = sizeof bytes; count; count /= 2)
        while (bpfs_write(&fs, PATH("/b"), size, bytes, count, &lack) == BPFS_OK) size += count;
    IS(BPFS_OK, bpfs_space(&fs, &blocks));
    IS(0, blocks.free);
    IS(BPFS_OK, bpfs_snap(&fs));
    IS(BPFS_NO_SPACE, bpfs_write(&fs, PATH("/b"), 0, PATH("y"), &lack));
    IS(true, lack.free == 0 && 0 < lack.need);
    IS(BPFS_NO_SPACE, bpfs_unlink(&fs, PATH("/b"), &lack));
    IS(BPFS_OK, bpfs_unsnap(&fs));
    IS(BPFS_OK, bpfs_unlink(&fs, PATH("/b"), &lack));
    IS(BPFS_OK, bpfs_discard(&fs));
}

static void full_logs(void) {
    static uint8_t bytes[BPFS_MAX_WRITE];
    uint32_t code = BPFS_OK, number;
    bpfs_about about;
    bpfs_found found;
    uint64_t value;
    size_t count;
    while (code == BPFS_OK) code = bpfs_write(&fs, PATH("/d/a"), 0, bytes, sizeof bytes, &lack);
    IS(BPFS_LOG_FULL, code);
    size_t events = bpfs_event_count(&fs);
    IS(true, events > BPFS_LOG_ROOM);
    IS(BPFS_LOG_FULL, bpfs_unlink(&fs, PATH("/none"), &lack));
    IS(BPFS_LOG_FULL, bpfs_set_attribute(&fs, PATH("/none"), 0, 1, &lack));
    IS(BPFS_LOG_FULL, bpfs_snap(&fs));
    IS(BPFS_LOG_FULL, bpfs_unsnap(&fs));
    IS(BPFS_OK, bpfs_read(&fs, PATH("/d/a"), 0, bytes, 1, &count)); /* reads need no room */
    IS(BPFS_OK, bpfs_stat(&fs, PATH("/d/a"), &found));
    IS(BPFS_OK, bpfs_links(&fs, PATH("/d/a"), &number));
    IS(BPFS_OK, bpfs_inode(&fs, PATH("/d/a"), &number));
    IS(BPFS_OLD_VERSION, bpfs_attribute(&fs, PATH("/d/a"), 0, &value));
    IS(BPFS_OUT_OF_RANGE, bpfs_attribute(&fs, PATH("/none"), BPFS_ATTRIBUTES, &value));
    IS(BPFS_OK, bpfs_list(&fs, PATH("/"), &count));
    IS(BPFS_NO_SNAP, bpfs_snap_read(&fs, PATH("/d/a"), 0, bytes, 1, &count));
    IS(BPFS_NO_SNAP, bpfs_snap_stat(&fs, PATH("/d/a"), &found));
    IS(BPFS_NO_SNAP, bpfs_snap_list(&fs, PATH("/"), &count));
    IS(BPFS_OK, bpfs_info(&fs, &about));
    IS(2 * BPFS_LOG_ROOM - events, about.room);
    IS(events, bpfs_event_count(&fs));
    IS(BPFS_PENDING, bpfs_close(&fs));
    IS(0, bpfs_carry(&fs, &carrier));
    IS(BPFS_OK, bpfs_write(&fs, PATH("/d/a"), 0, bytes, sizeof bytes, &lack));
    IS(-1, bpfs_copy_image(&fs, &carrier));
    IS(BPFS_OK, bpfs_discard(&fs));
}

/* The attribute of a path, which has to be there. */
static uint64_t attribute(const char *path, uint64_t number) {
    uint64_t value = 99;
    IS(BPFS_OK, bpfs_attribute(&fs, (const uint8_t *)path, strlen(path), number, &value));
    return value;
}

/* In versions 1 and 2 no call has an effect; the version counts before the path is looked up, and after it is parsed. */
static void no_attributes(uint32_t version) {
    uint64_t value = 99;
    make(version);
    IS(BPFS_OK, bpfs_create(&fs, PATH("/a"), &lack));
    IS(0, bpfs_carry(&fs, &carrier));
    IS(BPFS_OLD_VERSION, bpfs_set_attribute(&fs, PATH("/a"), 0, 1, &lack));
    IS(BPFS_OLD_VERSION, bpfs_set_attribute(&fs, PATH("/none"), 0, 1, &lack));
    IS(BPFS_BAD_PATH, bpfs_set_attribute(&fs, PATH("a"), 0, 1, &lack));
    IS(BPFS_OUT_OF_RANGE, bpfs_set_attribute(&fs, PATH("a"), BPFS_ATTRIBUTES, 1, &lack));
    IS(3, bpfs_event_count(&fs)); /* the markers of three calls */
    IS(BPFS_OLD_VERSION, bpfs_attribute(&fs, PATH("/a"), 0, &value));
    IS(BPFS_OLD_VERSION, bpfs_attribute(&fs, PATH("/none"), 0, &value));
    IS(BPFS_BAD_PATH, bpfs_attribute(&fs, PATH("a"), 0, &value));
    IS(BPFS_OUT_OF_RANGE, bpfs_attribute(&fs, PATH("a"), UINT64_MAX, &value));
    IS(3, bpfs_event_count(&fs)); /* reads add none */
    IS(99, value);
    are_carried(); /* no word has changed */
    IS(BPFS_OK, bpfs_upgrade(&fs)); /* makes version 2 */
    IS(BPFS_OLD_VERSION, bpfs_set_attribute(&fs, PATH("/a"), 0, 1, &lack));
    IS(BPFS_OK, bpfs_discard(&fs));
}

/* Each has attributes of its own, which all other calls keep. */
static void attributes(void) {
    uint64_t value = 99;
    make(3);
    IS(BPFS_OK, bpfs_mkdir(&fs, PATH("/d"), &lack));
    IS(BPFS_OK, bpfs_create(&fs, PATH("/a"), &lack));
    for (uint64_t i = 0; i < BPFS_ATTRIBUTES; i++) {
        IS(0, attribute("/", i) | attribute("/d", i) | attribute("/a", i));
        IS(BPFS_OK, bpfs_set_attribute(&fs, PATH("/"), i, UINT64_MAX - i, &lack));
        IS(BPFS_OK, bpfs_set_attribute(&fs, PATH("/d"), i, 10 + i, &lack));
        IS(BPFS_OK, bpfs_set_attribute(&fs, PATH("/a"), i, 20 + i, &lack));
    }
    size_t events = bpfs_event_count(&fs);
    IS(BPFS_OUT_OF_RANGE, bpfs_set_attribute(&fs, PATH("/a"), BPFS_ATTRIBUTES, 1, &lack));
    IS(BPFS_OUT_OF_RANGE, bpfs_set_attribute(&fs, PATH("/a"), UINT64_MAX, 1, &lack));
    IS(BPFS_OUT_OF_RANGE, bpfs_attribute(&fs, PATH("/a"), BPFS_ATTRIBUTES, &value));
    IS(events, bpfs_event_count(&fs));
    IS(BPFS_NOT_FOUND, bpfs_set_attribute(&fs, PATH("/b"), 0, 1, &lack));
    IS(BPFS_NOT_FOUND, bpfs_attribute(&fs, PATH("/b"), 0, &value));
    IS(BPFS_NOT_DIR, bpfs_set_attribute(&fs, PATH("/a/b"), 0, 1, &lack));
    IS(BPFS_NOT_DIR, bpfs_attribute(&fs, PATH("/a/b"), 0, &value));
    IS(BPFS_BAD_PATH, bpfs_set_attribute(&fs, NULL, 0, 0, 1, &lack));
    IS(BPFS_BAD_PATH, bpfs_attribute(&fs, NULL, 0, 0, &value));
    IS(99, value);
    IS(BPFS_OK, bpfs_link(&fs, PATH("/a"), PATH("/d/b"), &lack)); /* two names of one file */
    IS(BPFS_OK, bpfs_set_attribute(&fs, PATH("/d/b"), 1, 77, &lack));
    IS(77, attribute("/a", 1));
    IS(BPFS_OK, bpfs_unlink(&fs, PATH("/a"), &lack));
    IS(BPFS_OK, bpfs_rename(&fs, PATH("/d"), PATH("/e"), &lack));
    IS(BPFS_OK, bpfs_rename(&fs, PATH("/e/b"), PATH("/c"), &lack));
    IS(BPFS_OK, bpfs_write(&fs, PATH("/c"), 5000, PATH("hello"), &lack));
    IS(BPFS_OK, bpfs_truncate(&fs, PATH("/c"), 1, &lack));
    IS(BPFS_OK, bpfs_batch(&fs, (const uint8_t *)"/cX", 3, &(bpfs_piece){0, 2, 0, 2, 1}, 1, &lack));
    IS(BPFS_OK, bpfs_upgrade(&fs));
    IS(0, bpfs_carry(&fs, &carrier));
    are_carried();
    IS(BPFS_OK, bpfs_close(&fs));
    IS(BPFS_OK, bpfs_mount(&fs, words, WORDS, &fault));
    IS(0, bpfs_bind(&fs, &carrier));
    for (uint64_t i = 0; i < BPFS_ATTRIBUTES; i++) {
        IS(UINT64_MAX - i, attribute("/", i));
        IS(10 + i, attribute("/e", i));
        IS(i == 1 ? 77 : 20 + i, attribute("/c", i));
    }
    IS(BPFS_OK, bpfs_unlink(&fs, PATH("/c"), &lack)); /* the next file gets its inode */
    IS(BPFS_OK, bpfs_create(&fs, PATH("/c"), &lack));
    IS(0, attribute("/c", 0) | attribute("/c", 1) | attribute("/c", 2));
}

/* A snapshot keeps the block of inodes as it is, so the first value that is set takes a block for its copy. */
static void snapshots_of_attributes(void) {
    bpfs_blocks before, after;
    IS(BPFS_OK, bpfs_space(&fs, &before));
    IS(BPFS_OK, bpfs_snap(&fs));
    IS(BPFS_OK, bpfs_set_attribute(&fs, PATH("/e"), 0, 55, &lack));
    IS(BPFS_OK, bpfs_set_attribute(&fs, PATH("/e"), 0, 56, &lack));
    IS(BPFS_OK, bpfs_space(&fs, &after));
    IS(before.free - 1, after.free);
    IS(56, attribute("/e", 0));
    IS(11, attribute("/e", 1));
    IS(BPFS_OK, bpfs_unsnap(&fs));
    IS(BPFS_OK, bpfs_space(&fs, &after));
    IS(before.free, after.free);
    IS(56, attribute("/e", 0));
    IS(0, bpfs_carry(&fs, &carrier));
}

/* Power fails after any event of some calls: each value is that of before its call, or that of after it. */
static void cut_attributes(bool has_snapshot) {
    static bpfs_event events[4096];
    static uint64_t medium[WORDS];
    bpfs cut = BPFS_CLOSED;
    uint64_t value = 99, seen = 0;
    memcpy(medium, words, sizeof words);
    IS(BPFS_OK, bpfs_set_attribute(&fs, PATH("/e"), 2, 0, &lack));
    if (has_snapshot) IS(BPFS_OK, bpfs_snap(&fs));
    for (uint64_t i = 1; i <= 4; i++) IS(BPFS_OK, bpfs_set_attribute(&fs, PATH("/e"), 2, i, &lack));
    size_t count = bpfs_events(&fs, 0, events, 4096), calls = 0, before = has_snapshot ? 2 : 1;
    IS(count, bpfs_event_count(&fs));
    for (size_t i = 0; i < count; i++) {
        if (events[i].kind == BPFS_STORE) medium[events[i].word] = events[i].value;
        if (events[i].kind == BPFS_MARK) calls++;
        if (calls < before) continue;
        IS(BPFS_OK, bpfs_mount(&cut, medium, WORDS, &fault));
        IS(BPFS_OK, bpfs_attribute(&cut, PATH("/e"), 2, &value));
        IS(true, calls - before <= value && value <= calls - before + 1 && seen <= value);
        seen = value;
        IS(BPFS_OK, bpfs_attribute(&cut, PATH("/e"), 0, &value));
        IS(56, value);
        IS(BPFS_OK, bpfs_close(&cut));
    }
    IS(4, seen);
    if (has_snapshot) IS(BPFS_OK, bpfs_unsnap(&fs));
    IS(0, bpfs_carry(&fs, &carrier));
}

/* Where no block is free, a snapshot leaves none to a value that is set, and nothing changes. */
static void full_attributes(void) {
    static uint8_t bytes[BPFS_MAX_WRITE];
    uint64_t size = 0;
    for (size_t count = sizeof bytes; count; count /= 2)
        while (bpfs_write(&fs, PATH("/c"), size, bytes, count, &lack) == BPFS_OK) size += count;
    IS(BPFS_OK, bpfs_set_attribute(&fs, PATH("/c"), 0, 5, &lack));
    IS(BPFS_OK, bpfs_snap(&fs));
    lack = (bpfs_lack){0, 0};
    IS(BPFS_NO_SPACE, bpfs_set_attribute(&fs, PATH("/c"), 0, 6, &lack));
    IS(true, lack.free == 0 && lack.need == 1);
    IS(5, attribute("/c", 0));
    IS(BPFS_OK, bpfs_unsnap(&fs));
    IS(BPFS_OK, bpfs_set_attribute(&fs, PATH("/c"), 0, 6, &lack));
    IS(6, attribute("/c", 0));
    IS(BPFS_OK, bpfs_discard(&fs));
}

/* The words of a block of inodes that version 3 makes attributes are dead before, and may be anything. */
static void upgrades(uint32_t version) {
    make(version);
    IS(BPFS_OK, bpfs_create(&fs, PATH("/a"), &lack));
    IS(0, bpfs_carry(&fs, &carrier));
    IS(BPFS_OK, bpfs_close(&fs));
    for (size_t i = 0; i < 64; i++)
        for (size_t j = 3; j < 6; j++) words[BPFS_BLOCK_WORDS + 8 * i + j] = i + j;
    IS(BPFS_OK, bpfs_mount(&fs, words, WORDS, &fault));
    IS(0, bpfs_bind(&fs, &carrier));
    if (version == 2) {
        IS(BPFS_OK, bpfs_snap(&fs));
        IS(BPFS_HAS_SNAP, bpfs_upgrade_to_three(&fs));
        IS(BPFS_OK, bpfs_unsnap(&fs));
    }
    IS(BPFS_AGAIN, bpfs_upgrade_to_three(&fs));
    IS(BPFS_OLD_VERSION, bpfs_set_attribute(&fs, PATH("/a"), 0, 1, &lack));
    size_t events = bpfs_event_count(&fs);
    IS(BPFS_OK, bpfs_upgrade_to_three(&fs));
    IS(events + 8, bpfs_event_count(&fs)); /* five stores, two barriers and a marker */
    IS(0, attribute("/", 0) | attribute("/", 1) | attribute("/", 2) | attribute("/a", 0) | attribute("/a", 1) | attribute("/a", 2));
    IS(BPFS_OK, bpfs_set_attribute(&fs, PATH("/a"), 0, 1, &lack));
    IS(BPFS_OK, bpfs_snap(&fs));
    IS(BPFS_OK, bpfs_upgrade_to_three(&fs)); /* nothing is left to do */
    IS(0, bpfs_carry(&fs, &carrier));
    are_carried();
    IS(BPFS_OK, bpfs_close(&fs));
    IS(BPFS_OK, bpfs_mount(&fs, words, WORDS, &fault));
    IS(1, attribute("/a", 0));
    IS(BPFS_OK, bpfs_close(&fs));
}

/* A pointer to a single result may be NULL. */
static void unwanted_results(void) {
    uint8_t bytes[BPFS_MAX_NAME];
    static uint8_t big[BPFS_MAX_WRITE_2];
    IS(BPFS_OK, bpfs_format_events(BLOCKS, 2, NULL, 0, NULL));
    make(2);
    IS(BPFS_OK, bpfs_close(&fs));
    IS(BPFS_BAD_SIZE, bpfs_mount(&fs, words, WORDS - 1, NULL));
    IS(BPFS_OK, bpfs_mount(&fs, words, WORDS, NULL));
    IS(0, bpfs_bind(&fs, &carrier));
    IS(BPFS_OK, bpfs_create(&fs, PATH("/a"), NULL));
    IS(BPFS_OK, bpfs_mkdir(&fs, PATH("/d"), NULL));
    IS(BPFS_OK, bpfs_write(&fs, PATH("/a"), 0, PATH("hello"), NULL));
    IS(BPFS_NO_SPACE, bpfs_write(&fs, PATH("/a"), 0, big, sizeof big, NULL));
    IS(BPFS_OK, bpfs_batch(&fs, (const uint8_t *)"/aX", 3, &(bpfs_piece){0, 2, 1, 2, 1}, 1, NULL));
    IS(BPFS_OK, bpfs_read(&fs, PATH("/a"), 0, bytes, 5, NULL));
    IS(0, memcmp(bytes, "hXllo", 5));
    IS(BPFS_OK, bpfs_link(&fs, PATH("/a"), PATH("/b"), NULL));
    IS(BPFS_OK, bpfs_links(&fs, PATH("/a"), NULL));
    IS(BPFS_OK, bpfs_stat(&fs, PATH("/a"), NULL));
    IS(BPFS_NOT_FOUND, bpfs_stat(&fs, PATH("/c"), NULL));
    IS(BPFS_OK, bpfs_list(&fs, PATH("/"), NULL));
    IS(BPFS_OK, bpfs_listed(&fs, 2, bytes, sizeof bytes, NULL, NULL));
    IS('d', bytes[0]);
    IS(BPFS_OK, bpfs_snap(&fs));
    IS(BPFS_OK, bpfs_snap_read(&fs, PATH("/a"), 0, bytes, 1, NULL));
    IS(BPFS_OK, bpfs_snap_stat(&fs, PATH("/a"), NULL));
    IS(BPFS_OK, bpfs_snap_list(&fs, PATH("/"), NULL));
    IS(BPFS_OK, bpfs_rename(&fs, PATH("/b"), PATH("/c"), NULL));
    IS(BPFS_OK, bpfs_truncate(&fs, PATH("/a"), 1, NULL));
    IS(BPFS_OK, bpfs_unlink(&fs, PATH("/c"), NULL));
    IS(BPFS_OK, bpfs_rmdir(&fs, PATH("/d"), NULL));
    IS(BPFS_OK, bpfs_space(&fs, NULL));
    IS(BPFS_OK, bpfs_totals(&fs, NULL));
    IS(true, bpfs_run_at(&fs, 0, NULL, words, 8) > 0);
    IS(BPFS_OK, bpfs_info(&fs, NULL));
    IS(BPFS_OK, bpfs_inode(&fs, PATH("/a"), NULL));
    IS(BPFS_OK, bpfs_discard(&fs));
    IS(BPFS_HAS_NONE, bpfs_stat(&fs, PATH("/a"), NULL));
    make(3);
    IS(BPFS_OK, bpfs_set_attribute(&fs, PATH("/"), 0, 1, NULL));
    IS(BPFS_OK, bpfs_attribute(&fs, PATH("/"), 0, NULL));
    IS(BPFS_OK, bpfs_discard(&fs));
}

int main(void) {
    formats();
    mounts();
    closes();
    inodes();
    mounts_lent_words();
    closed_handles();
    changes();
    writes();
    batches();
    reads();
    lists();
    tells_words();
    runs();
    failing_carriers();
    full_logs();
    snapshots();
    full_snapshots();
    no_attributes(1);
    no_attributes(2);
    upgrades(1);
    upgrades(2);
    attributes();
    snapshots_of_attributes();
    cut_attributes(false);
    cut_attributes(true);
    full_attributes();
    unwanted_results();
    printf("%d answers\n", checks);
    return wrong;
}
