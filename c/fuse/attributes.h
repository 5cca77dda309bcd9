/* attributes.h - modes and owners. In version 3 of the format, they are attribute 0 of each file
 * and directory (docs/format.md). Earlier versions keep none.
 */
#ifndef BPFS_ATTRIBUTES_H
#define BPFS_ATTRIBUTES_H
#include "nodes.h"
#include <stdbool.h>
#include <sys/types.h>

typedef struct attributes {
    mode_t mode; /* the kind, and the permissions */
    uid_t owner;
    gid_t group;
} attributes;

/* Gets the attributes of the file or directory at a path. If none were set, they are 0755 for a
 * directory, 0644 for a file, and the user who mounted. 0, or a negative errno. */
int attributes_get(const path *at, bool is_dir, attributes *found);

/* Changes the attributes of a new file or directory to what its directory hands down: if that has
 * the set-group-ID bit, its group, and to a directory that bit, too. 0, or a negative errno. */
int attributes_inherit(const node *dir, attributes *of_new);

/* Sets them. -EPERM: the version keeps none, and others are in effect. -EOVERFLOW: an owner or a
 * group needs more than 24 bits. With `quiet`, what is not kept succeeds. */
int attributes_set(const path *at, const attributes *wanted);
#endif
