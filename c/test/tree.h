/* tree.h - files, directories and hard links in plain C, which know nothing of the library: what the
 * calls of bpfs.h return and do, if there is always space. For tests.
 *
 * A tree that is held does not change. A call is made on a copy, which shares with it what stays the
 * same: so a test keeps the trees before and after many calls.
 */
#ifndef BPFS_TREE_H
#define BPFS_TREE_H
#include <bpfs.h>

#ifdef __cplusplus
extern "C" {
#endif

enum { TREE_NODES = 256, TREE_PAGE = 4096, TREE_PATH_NAMES = BPFS_MAX_PATH / 2 };

typedef struct tree_name {
    struct tree_name *next; /* of all names with one hash */
    size_t length;
    uint8_t bytes[BPFS_MAX_NAME];
} tree_name;

/* 4,096 bytes of a file. Those past its size are 0. */
typedef struct tree_page {
    unsigned holders;
    uint8_t bytes[TREE_PAGE];
} tree_page;

/* A part of a node: page number `index` of a file. Those that are not there are zeros. */
typedef struct tree_part {
    uint64_t index;
    tree_page *page;
} tree_part;

typedef struct tree_entry {
    const tree_name *name;
    int node;
} tree_entry;

/* A file or a directory: `count` parts by their index, or entries by the bytes of their names. */
typedef struct tree_node {
    unsigned holders;
    bool is_dir;
    uint32_t links;
    uint64_t size;
    uint64_t attributes[BPFS_ATTRIBUTES];
    size_t count, room;
    tree_part *parts;
    tree_entry *entries;
} tree_node;

/* Node 0 is the root. */
typedef struct tree {
    unsigned holders;
    int top; /* the nodes from this one on are NULL */
    tree_node *nodes[TREE_NODES];
} tree;

/* A path, taken apart; no names: the root. */
typedef struct tree_path {
    size_t count;
    const tree_name *names[TREE_PATH_NAMES];
} tree_path;

/* Takes a path apart. Whether it is one. */
bool tree_parse(tree_path *path, const uint8_t *bytes, size_t length);

tree *tree_empty(void);
tree *tree_copy(const tree *t);
tree *tree_hold(tree *t);
void tree_drop(tree *t);

/* How many nodes more it may have. */
int tree_spare(const tree *t);

/* The node at a path, or a result. */
uint32_t tree_find(const tree *t, const tree_path *path, int *node);

/* The greatest size of a file in a version. */
uint64_t tree_most(uint32_t version);

/* Calls on a copy that nobody else holds. If one does not return BPFS_OK, drop the copy. */
uint32_t tree_make(tree *t, const tree_path *path, bool is_dir);
uint32_t tree_unlink(tree *t, const tree_path *path);
uint32_t tree_rmdir(tree *t, const tree_path *path);
uint32_t tree_rename(tree *t, const tree_path *from, const tree_path *to);
uint32_t tree_link(tree *t, const tree_path *from, const tree_path *to);
uint32_t tree_write(tree *t, const tree_path *path, uint64_t offset, const uint8_t *bytes, size_t count, uint32_t version);
uint32_t tree_patch(tree *t, const tree_path *path, uint64_t offset, const uint8_t *bytes, size_t count); /* a piece of a batch */
uint32_t tree_truncate(tree *t, const tree_path *path, uint64_t size, uint32_t version);
uint32_t tree_set_attribute(tree *t, const tree_path *path, uint64_t number, uint64_t value, uint32_t version);

/* Whether files and directories have attributes in a version. */
bool tree_has_attributes(uint32_t version);

/* Reads bytes of a file, and returns how many. */
size_t tree_read(const tree *t, int node, uint64_t offset, uint8_t *into, size_t capacity);

/* The totals, except the blocks in use. */
bpfs_sums tree_sums(const tree *t);

#ifdef __cplusplus
}
#endif
#endif
