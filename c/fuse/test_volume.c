#define _GNU_SOURCE
#include "test_volume.h"
#include "hidden.h"
#include "times.h"
#include <errno.h>
#include <stdio.h>
#include <stdlib.h>
#include <string.h>

enum { MOST_BLOCKS = 2048 };

static uint64_t words[MOST_BLOCKS * BPFS_BLOCK_WORDS];
static size_t block_count;
size_t test_stores;

void must(bool it, const char *what) {
    if (it) return;
    fprintf(stderr, "%s: %s\n", program_invocation_short_name, what);
    exit(2);
}

/* ---- the volume */

static int put(bpfs_carrier *carrier, uint64_t word, const uint64_t *values, size_t count) {
    (void)carrier;
    for (size_t i = 0; i < count && test_stores; i++, test_stores--) words[word + i] = values[i];
    return 0;
}

static int nothing(bpfs_carrier *carrier) {
    (void)carrier;
    return 0;
}

static bpfs_carrier medium = {.put = put, .barrier = nothing, .settle = nothing};

void test_format(uint32_t blocks, uint32_t version) {
    bpfs_event events[32];
    size_t count = 0;
    block_count = blocks;
    memset(words, 0, sizeof words);
    must(bpfs_format_events(blocks, version, events, 32, &count) == BPFS_OK, "no format");
    for (size_t i = 0; i < count; i++)
        if (events[i].kind == BPFS_STORE) words[events[i].word] = events[i].value;
    volume.max_write = BPFS_MAX_WRITE;
    volume.keeps = version == 3;
}

void test_mount(void) {
    bpfs_fault fault;
    test_stores = SIZE_MAX;
    must(bpfs_mount(&volume.fs, words, block_count * BPFS_BLOCK_WORDS, &fault) == BPFS_OK,
         "no mount");
    must(bpfs_bind(&volume.fs, &medium) == 0, "not bound");
    volume.carriers[0] = &medium, volume.carrier_count = 1;
    times_begin();
    hidden_begin();
    files_begin();
    must(volume_carry() == 0, "not carried");
}

void test_lose(void) {
    must(bpfs_discard(&volume.fs) == BPFS_OK, "not closed");
    nodes_clear();
}

/* ---- files */

node *test_parent(const char *at, const char **name) {
    char first[BPFS_MAX_NAME + 1];
    const char *last = strrchr(at, '/');
    node *dir = NULL;
    *name = last ? last + 1 : at;
    if (!last) return nodes_root();
    snprintf(first, sizeof first, "%.*s", (int)(last - at), at);
    must(files_lookup(nodes_root(), first, &dir) == 0, "no directory");
    return dir;
}

node *test_find(const char *at) {
    const char *name;
    node *dir = test_parent(at, &name), *it = NULL;
    return files_lookup(dir, name, &it) ? NULL : it;
}

node *test_make(const char *at, const char *text) {
    const char *name;
    node *dir = test_parent(at, &name), *it = NULL;
    must(files_make(dir, name, (attributes){S_IFREG | 0644, 0, 0}, &it) == 0, "no file");
    must(files_write(it, text, strlen(text), 0) == (int)strlen(text), "not written");
    return it;
}

bool test_has(const char *at, const char *text) {
    char bytes[128];
    node *it = test_find(at);
    if (!it) return false;
    int count = files_read(it, bytes, sizeof bytes, 0);
    return count == (int)strlen(text) && memcmp(bytes, text, (size_t)count) == 0;
}
