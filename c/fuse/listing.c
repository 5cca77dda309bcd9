#define _GNU_SOURCE
#include "listing.h"
#include "calls.h"
#include <stdlib.h>

void listing_clear(listing *it) {
    free(it->starts);
    free(it->text);
    *it = (listing){0};
}

/* Copies the names of the library's listing. */
static int copy(listing *it) {
    size_t length, end = 0;
    bool is_dir;
    for (size_t i = 0; i < it->count; i++) {
        uint8_t *name = (uint8_t *)it->text + end + 1;
        if (bpfs_listed(&volume.fs, i, name, BPFS_MAX_NAME, &length, &is_dir)) return -EIO;
        it->text[end] = is_dir ? '/' : ' ';
        name[length] = 0;
        it->starts[i] = end;
        end += length + 2;
    }
    char *text = realloc(it->text, end + 1);
    if (text) it->text = text;
    return 0;
}

int listing_take(listing *it, const path *at) {
    listing taken = {0};
    int code = LOOK(bpfs_list(&volume.fs, P(*at), &taken.count));
    if (code) return code;
    taken.starts = malloc(taken.count * sizeof *taken.starts + 1);
    taken.text = malloc(taken.count * (BPFS_MAX_NAME + 2) + 1);
    code = taken.starts && taken.text ? copy(&taken) : -ENOMEM;
    if (code) return listing_clear(&taken), code;
    listing_clear(it);
    *it = taken;
    return 0;
}

const char *listing_name(const listing *it, size_t index, bool *is_dir) {
    const char *entry = it->text + it->starts[index];
    *is_dir = *entry == '/';
    return entry + 1;
}
