#define _GNU_SOURCE
#include "hidden.h"
#include "calls.h"
#include "listing.h"
#include <stdio.h>

enum { TEXT_ROOM = 32, PLACES = 16 /* of a block of a directory */, SPARE_BLOCKS = 2 };
enum { MANY_PLACES = 256, MANY_BLOCKS = 1024 /* of which 16 are few */ };

static const char own_name[] = ".bpfs_fuse";
static node *own; /* NULL: the directory may be missing */

/* The directory has so many places without a further block, and so many links. */
static size_t places, links;

bool hidden_is(const node *dir, const char *text) {
    return dir == nodes_root() && strcmp(text, own_name) == 0;
}

node *hidden_directory(void) {
    return own;
}

const char *hidden_name(const node *it) {
    return nodes_name_in(it, own);
}

static int make_directory(void) {
    uint32_t number;
    path at;
    if (own) return 0;
    int code = nodes_path_in(nodes_root(), own_name, &at);
    if (!code) code = CHANGE(bpfs_mkdir(&volume.fs, P(at), NULL));
    if (code == -EEXIST) code = 0;
    if (!code) code = error_of(bpfs_inode(&volume.fs, P(at), &number));
    if (code) return code;
    own = nodes_get(number, nodes_root(), own_name);
    return own ? 0 : -ENOMEM;
}

/* ---- files in the directory */

/* What could not be deleted may have such a name, and then the next one is tried. */
static void next_name(char text[TEXT_ROOM]) {
    static unsigned long long last;
    snprintf(text, TEXT_ROOM, "%llu", ++last);
}

int hidden_create(path *into) {
    char text[TEXT_ROOM];
    int code = make_directory();
    if (code) return code;
    do {
        next_name(text);
        code = nodes_path_in(own, text, into);
        if (!code) code = CHANGE(bpfs_create(&volume.fs, P(*into), NULL));
    } while (code == -EEXIST);
    return code;
}

int hidden_add(node *it, const path *at) {
    char text[TEXT_ROOM];
    struct name *added = NULL;
    path to;
    int code = make_directory();
    if (code) return code;
    do {
        nodes_free_name(added);
        next_name(text);
        added = nodes_new_name(own, text);
        code = added ? nodes_path_in(own, text, &to) : -ENOMEM;
        if (!code) code = CHANGE(bpfs_link(&volume.fs, P(*at), P(to), NULL));
    } while (code == -EEXIST);
    if (code) return nodes_free_name(added), code;
    nodes_add_name(it, added);
    it->is_hidden = true;
    if (++links > places) places = links;
    return 0;
}

void hidden_removed(void) {
    links--;
}

/* ---- room for links */

/* A name of the directory that no link has. */
static int spare_name(size_t number, path *into) {
    char text[TEXT_ROOM];
    snprintf(text, TEXT_ROOM, "spare%zu", number);
    return nodes_path_in(own, text, into);
}

/* Gives a new file so many links, and deletes them again: an entry of a directory keeps its place.
 * Returns how many it had. */
static size_t make_places(size_t wanted) {
    path first, at;
    size_t made = 0;
    if (make_directory() || spare_name(0, &first)) return 0;
    if (CHANGE(bpfs_create(&volume.fs, P(first), NULL)) == 0) made++;
    while (made && made < wanted && spare_name(made, &at) == 0 &&
           CHANGE(bpfs_link(&volume.fs, P(first), P(at), NULL)) == 0)
        made++;
    for (size_t i = made; i-- > 0;)
        if (spare_name(i, &at) == 0) (void)CHANGE(bpfs_unlink(&volume.fs, P(at), NULL));
    return made;
}

bool hidden_reserve(size_t more) {
    bpfs_blocks blocks;
    size_t wanted = places ? places : PLACES;
    if (links + more <= places) return true;
    while (wanted < links + more) wanted *= 2; /* so that few calls of this one make places */
    if (bpfs_space(&volume.fs, &blocks) || blocks.free < (wanted - places) / PLACES + SPARE_BLOCKS)
        return false;
    size_t made = links + make_places(wanted - links);
    if (made > places) places = made;
    return links + more <= places;
}

/* ---- the beginning and the end of a mount */

static void delete_files(const path *at) {
    listing left = {0};
    int code = listing_take(&left, at);
    if (code == -ENOTDIR)
        report("%s in the image is a file: it is kept, but not shown. Until it has another name, "
               "symbolic links can't "
               "be made, and open files can't be deleted: unmount, and rename it with the program "
               "bpfs",
               at->text);
    else if (code && code != -ENOENT)
        report("%s: not searched for deleted files: %s", at->text, strerror(-code));
    for (size_t i = 0; i < left.count; i++) {
        char file[BPFS_MAX_NAME + sizeof own_name + 3];
        bool is_dir;
        int length =
            snprintf(file, sizeof file, "%s/%s", at->text, listing_name(&left, i, &is_dir));
        code = CHANGE(bpfs_unlink(&volume.fs, (const uint8_t *)file, (size_t)length, NULL));
        if (code) report("%s: not deleted: %s", file, strerror(-code));
    }
    listing_clear(&left);
}

void hidden_begin(void) {
    bpfs_blocks blocks = {0};
    path at;
    own = NULL;
    places = links = 0;
    nodes_path_in(nodes_root(), own_name, &at);
    delete_files(&at);
    if (make_places(1)) places = PLACES; /* those of the first block */
    bpfs_space(&volume.fs, &blocks);
    if (blocks.free >= MANY_BLOCKS) hidden_reserve(MANY_PLACES);
}

void hidden_end(void) {
    path at;
    nodes_path_in(nodes_root(), own_name, &at);
    delete_files(&at);
    (void)CHANGE(bpfs_rmdir(&volume.fs, P(at), NULL));
    if (own) nodes_forget(own, 1);
    own = NULL;
}
