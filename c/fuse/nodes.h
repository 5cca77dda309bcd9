/* nodes.h - the files and directories that the kernel knows, and their names.
 *
 * The kernel refers to a file by a number, and the library finds it by a path. A node is in
 * between: one inode of the image, however many links it has, so the kernel has one cache for all
 * of them. Its path is made when a call needs it. So the rename of a directory changes one name
 * only, and with it the paths of everything below.
 *
 * A node stays in memory while the kernel knows it (`lookups`), a program has it open (`opens`), a
 * node below it is there (`below`), or its time is not stored yet (times.h). The root always stays.
 */
#ifndef BPFS_NODES_H
#define BPFS_NODES_H
#include <bpfs.h>
#include <stdbool.h>
#include <stddef.h>
#include <stdint.h>
#include <sys/types.h>
#include <time.h>

typedef struct node {
    struct node *next;   /* in its chain of the table */
    struct name *names;  /* those that are known: a file may have more of them */
    uint32_t number;     /* of its inode */
    uint32_t name_count; /* of `names` */
    uint32_t opens;
    uint32_t maps;       /* of `opens`: those that read and write, so that they may map the file */
    uint32_t below;
    uint64_t lookups;
    uint64_t generation; /* no two nodes have the same one */
    bool is_deleted; /* the inode is gone, and another one may get its number, with another node */
    bool is_hidden;      /* one of its links is in the directory of the mount (hidden.h) */

    /* Set by files.c: how many blocks have bytes of the file, if that is known. */
    bool has_blocks;
    uint64_t blocks;

    /* Of a directory that is deleted: a program may still be in it. `mode` is 0 for others. */
    mode_t mode;
    uid_t owner;
    gid_t group;

    /* Set by times.c. */
    bool has_time;
    struct timespec time;
    struct node *after, **before; /* in the list of nodes with a time */
} node;

/* An absolute path, made by the functions below. Do not copy it. */
typedef struct path {
    const char *text;
    size_t length;
    char bytes[BPFS_MAX_PATH + 1];
} path;

node *nodes_root(void);

/* The number by which the kernel refers to a node, and the node with such a number. */
uint64_t nodes_id(const node *it);
node *nodes_of(uint64_t id);

/* Returns the node of an inode, or NULL if nothing refers to that inode. */
node *nodes_find(uint32_t number);

/* Returns the node of the inode that has this name in a directory, and adds one to `lookups`. NULL:
 * no memory. */
node *nodes_get(uint32_t number, node *dir, const char *text);

/* Subtracts from `lookups`. */
void nodes_forget(node *it, uint64_t lookups);

/* Frees the node, and those above it, if nothing needs them any more. */
void nodes_drop(node *it);

/* Makes the path of a node, or of a name in a directory. 0; -ENAMETOOLONG; -ESTALE: no name of the
 * node is known, as after its deletion. The kernel looks up the name again at ESTALE. */
int nodes_path(const node *it, path *into);
int nodes_path_in(const node *dir, const char *text, path *into);

/* A name that a node will get. Make it before the call of the library that makes the link, so that
 * no memory is short after it. NULL: no memory. */
struct name *nodes_new_name(node *dir, const char *text);
void nodes_free_name(struct name *it);
void nodes_add_name(node *it, struct name *name);

/* Removes a name, if the node has it. */
void nodes_remove_name(node *it, const node *dir, const char *text);

/* Whether the node has a name besides this one. */
bool nodes_has_other_name(const node *it, const node *dir, const char *text);

/* Returns the directory that has a directory; that of the root is the root itself. */
const node *nodes_parent(const node *dir);

/* Returns a name that the node has in a directory, or NULL. */
const char *nodes_name_in(const node *it, const node *dir);

/* Notes that the inode is gone. */
void nodes_delete(node *it);

/* The number of nodes in memory, without the root. */
size_t nodes_count(void);

/* Frees all nodes, at the end of a mount. */
void nodes_clear(void);
#endif
