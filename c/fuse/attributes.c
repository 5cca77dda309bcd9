#define _GNU_SOURCE
#include "attributes.h"
#include "calls.h"
#include <sys/stat.h>

enum {
    NUMBER = 0,
    MODE_BITS = 16,
    ID_BITS = 24,
    MODE_MASK = (1 << MODE_BITS) - 1,
    ID_MASK = (1 << ID_BITS) - 1
};

static attributes defaults(bool is_dir) {
    return (attributes){is_dir ? S_IFDIR | 0755 : S_IFREG | 0644, volume.owner, volume.group};
}

/* The attributes in a word. The kind of a directory is never in doubt; a file is a symbolic link if
 * the word says so. */
static attributes of_word(uint64_t word, bool is_dir) {
    mode_t mode = word & MODE_MASK, kind = is_dir ? S_IFDIR : S_ISLNK(mode) ? S_IFLNK : S_IFREG;
    if (!mode) return defaults(is_dir);
    return (attributes){kind | (mode & 07777), word >> MODE_BITS & ID_MASK,
                        word >> (MODE_BITS + ID_BITS)};
}

static uint64_t word_of(const attributes *it) {
    return it->mode | (uint64_t)it->owner << MODE_BITS |
           (uint64_t)it->group << (MODE_BITS + ID_BITS);
}

int attributes_get(const path *at, bool is_dir, attributes *found) {
    uint64_t word = 0;
    int code = volume.keeps ? LOOK(bpfs_attribute(&volume.fs, P(*at), NUMBER, &word)) : 0;
    *found = of_word(word, is_dir);
    return code;
}

int attributes_inherit(const node *dir, attributes *of_new) {
    attributes above;
    path at;
    int code = nodes_path(dir, &at);
    if (!code) code = attributes_get(&at, true, &above);
    if (code || !(above.mode & S_ISGID)) return code;
    of_new->group = above.group;
    if (S_ISDIR(of_new->mode)) of_new->mode |= S_ISGID;
    return 0;
}

int attributes_set(const path *at, const attributes *wanted) {
    attributes usual = defaults(S_ISDIR(wanted->mode));
    bool same =
        wanted->mode == usual.mode && wanted->owner == usual.owner && wanted->group == usual.group;
    bool fits = wanted->owner <= ID_MASK && wanted->group <= ID_MASK;
    if (volume.keeps && fits)
        return CHANGE(bpfs_set_attribute(&volume.fs, P(*at), NUMBER, word_of(wanted), NULL));
    if (volume.quiet || (same && !volume.keeps)) return 0;
    return volume.keeps ? -EOVERFLOW : -EPERM;
}
