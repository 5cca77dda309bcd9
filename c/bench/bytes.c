/* bytes.c - how many bytes of the stream of epochs (stream.h) a call makes.
 *
 *     bytes        a table: the call, its epochs, its stores, its bytes
 */
#include <bpfs/stream.h>
#include <stdio.h>
#include <stdlib.h>
#include <string.h>

enum { BLOCKS = 4096, FILE_SIZE = 1 << 20, TIMES = 200, EARLIER = 2000 };

#define PATH(text) (const uint8_t *)(text), sizeof(text) - 1
#define MUST(it) must((it), #it, __LINE__)

static uint64_t words[BLOCKS * BPFS_BLOCK_WORDS];
static uint8_t bytes[BPFS_MAX_WRITE_2];
static bpfs fs;
static bpfs_stream stream;
static bpfs_lack lack;
static uint64_t state = 1;

static void must(bool it, const char *what, int line) {
    if (it) return;
    fprintf(stderr, "bytes.c:%d: %s\n", line, what);
    exit(1);
}

static uint32_t draw(uint32_t below) {
    state = state * 6364136223846793005u + 1442695040888963407u;
    return (uint32_t)((state >> 33) % below);
}

static int let_go(void *to, const uint64_t *frame, size_t count) {
    (void)to, (void)frame, (void)count;
    return 0;
}

/* ---- calls, each for the i-th time */

static size_t name_of(char *name, int i) {
    return (size_t)snprintf(name, 32, "/d/name%d", i);
}

static uint32_t create(int i) {
    char name[32];
    return bpfs_create(&fs, (uint8_t *)name, name_of(name, i), &lack);
}

static uint32_t rename_it(int i) {
    char name[32], other[32];
    size_t length = name_of(name, i), second = name_of(other, 1000 + i);
    return bpfs_rename(&fs, (uint8_t *)name, length, (uint8_t *)other, second, &lack);
}

static uint32_t unlink_it(int i) {
    char name[32];
    return bpfs_unlink(&fs, (uint8_t *)name, name_of(name, 1000 + i), &lack);
}

static uint32_t write_at(uint64_t at, uint32_t count) {
    for (uint32_t i = 0; i < count; i++) bytes[i] = (uint8_t)draw(256);
    return bpfs_write(&fs, PATH("/file"), at, bytes, count, &lack);
}

static uint32_t write_word(int i) {
    (void)i;
    return write_at(draw(FILE_SIZE / 8) * 8, 8);
}

static uint32_t write_64(int i) {
    (void)i;
    return write_at(draw(FILE_SIZE / 64) * 64, 64);
}

static uint32_t write_page(int i) {
    (void)i;
    return write_at(draw(FILE_SIZE / 4096) * 4096, 4096);
}

static uint32_t write_64k(int i) {
    (void)i;
    return write_at(draw(FILE_SIZE / 65536) * 65536, 65536);
}

static uint32_t append_200(int i) {
    for (int k = 0; k < 200; k++) bytes[k] = (uint8_t)draw(256);
    return bpfs_write(&fs, PATH("/log"), 200 * (uint64_t)i, bytes, 200, &lack);
}

/* ---- the table */

static void row(const char *name, uint32_t (*call)(int)) {
    uint64_t number = stream.number, sent = stream.bytes;
    size_t events = 0;
    for (int i = 0; i < TIMES; i++) {
        MUST(call(i) == BPFS_OK);
        events += bpfs_event_count(&fs);
        MUST(bpfs_carry(&fs, &stream.carrier) == 0);
    }
    printf("| %s | %.1f | %.1f | %.0f |\n", name, (double)(stream.number - number) / TIMES, (double)events / TIMES,
           (double)(stream.bytes - sent) / TIMES);
}

/* Makes calls that are not counted: a block that was copied before has an older version, to which its next copy goes. */
static void make_earlier(uint32_t (*call)(int)) {
    for (int i = 0; i < EARLIER; i++) MUST(call(i) == BPFS_OK && bpfs_carry(&fs, &stream.carrier) == 0);
}

static void begin(void) {
    bpfs_event events[16];
    size_t count;
    bpfs_fault fault;
    MUST(bpfs_format_events(BLOCKS, 2, events, 16, &count) == BPFS_OK);
    for (size_t i = 0; i < count; i++)
        if (events[i].kind == BPFS_STORE) words[events[i].word] = events[i].value;
    MUST(bpfs_mount(&fs, words, BLOCKS * BPFS_BLOCK_WORDS, &fault) == BPFS_OK);
    MUST(bpfs_mkdir(&fs, PATH("/d"), &lack) == BPFS_OK && bpfs_create(&fs, PATH("/file"), &lack) == BPFS_OK);
    MUST(bpfs_create(&fs, PATH("/log"), &lack) == BPFS_OK);
    MUST(write_at(0, FILE_SIZE) == BPFS_OK);
    bpfs_drain(&fs);
    bpfs_stream_to(&stream, let_go, NULL, 0);
    MUST(bpfs_bind(&fs, &stream.carrier) == 0);
}

int main(void) {
    begin();
    printf("| call, the mean of %d | epochs | events | bytes of the stream |\n|---|---|---|---|\n", TIMES);
    row("write of one word", write_word);
    row("write of 64 bytes, mostly the first in its block", write_64);
    make_earlier(write_64);
    row("write of 64 bytes, behind others in its block", write_64);
    row("write of 4,096 bytes", write_page);
    row("write of 65,536 bytes", write_64k);
    row("append of 200 bytes", append_200);
    row("create", create);
    row("rename in a directory", rename_it);
    row("unlink", unlink_it);
    bpfs_close(&fs);
    bpfs_stream_close(&stream);
    return 0;
}
