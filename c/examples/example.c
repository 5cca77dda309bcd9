/* example.c - creates an image file, writes two files, carries the log, and reads all of it back.
 *
 *     example IMAGE
 */
#include <bpfs/file.h>
#include <stdio.h>
#include <stdlib.h>

#define PATH(text) (const uint8_t *)(text), sizeof(text) - 1
#define MUST(call) must((int)(call), #call, __LINE__)

static bpfs fs;
static bpfs_file file;

static void must(int code, const char *call, int line) {
    if (code == 0) return;
    fprintf(stderr, "example.c:%d: %s: %d\n", line, call, code);
    exit(1);
}

static void write_files(void) {
    bpfs_lack lack;
    MUST(bpfs_mkdir(&fs, PATH("/etc"), &lack));
    MUST(bpfs_create(&fs, PATH("/etc/motd"), &lack));
    MUST(bpfs_write(&fs, PATH("/etc/motd"), 0, PATH("hello"), &lack));
    MUST(bpfs_create(&fs, PATH("/log"), &lack));
    MUST(bpfs_write(&fs, PATH("/log"), 10000, PATH("end"), &lack));
    printf("%zu events, ", bpfs_event_count(&fs));
    MUST(bpfs_carry(&fs, &file.carrier));
    printf("%zu after the drain\n", bpfs_event_count(&fs));
}

static void fill_up(void) {
    static uint8_t zeros[BPFS_MAX_WRITE];
    bpfs_lack lack = {0, 0};
    uint64_t at = 0;
    uint32_t code;
    MUST(bpfs_create(&fs, PATH("/big"), &lack));
    while ((code = bpfs_write(&fs, PATH("/big"), at, zeros, sizeof zeros, &lack)) == BPFS_OK) {
        at += sizeof zeros;
        MUST(bpfs_carry(&fs, &file.carrier));
    }
    printf("full after %llu bytes: %u, need %u free %u\n", (unsigned long long)at, code, lack.need, lack.free);
    MUST(bpfs_carry(&fs, &file.carrier));
}

static void read_back(void) {
    uint8_t name[BPFS_MAX_NAME], bytes[16];
    size_t count, length;
    bool is_dir;
    MUST(bpfs_list(&fs, PATH("/"), &count));
    for (size_t i = 0; i < count; i++) {
        MUST(bpfs_listed(&fs, i, name, sizeof name, &length, &is_dir));
        printf("%s %.*s\n", is_dir ? "dir " : "file", (int)length, (const char *)name);
    }
    MUST(bpfs_read(&fs, PATH("/etc/motd"), 1, bytes, sizeof bytes, &count));
    printf("%.*s\n", (int)count, (const char *)bytes);
}

static void print_sums(void) {
    bpfs_sums sums;
    bpfs_blocks blocks;
    MUST(bpfs_totals(&fs, &sums));
    MUST(bpfs_space(&fs, &blocks));
    printf("files %llu dirs %llu bytes %llu live %u free %u\n", (unsigned long long)sums.files, (unsigned long long)sums.dirs,
           (unsigned long long)sums.bytes, blocks.live, blocks.free);
}

int main(int argc, char **argv) {
    bpfs_fault fault;
    if (argc != 2) return fprintf(stderr, "usage: example IMAGE\n"), 2;
    MUST(bpfs_file_create(&file, argv[1], 64, 1, BPFS_FILE_WAITS));
    MUST(bpfs_file_mount(&fs, &file, &fault));
    write_files();
    fill_up();
    MUST(bpfs_close(&fs));
    MUST(bpfs_file_mount(&fs, &file, &fault));
    read_back();
    print_sums();
    MUST(bpfs_close(&fs));
    MUST(bpfs_file_close(&file));
    return 0;
}
