/* hidden.h - a directory of the mount's own, with links to files that programs should not find by a
 * name.
 *
 * A file that is deleted while a program has it open gets a link there first, and so does one that
 * is replaced. It loses the link when the kernel forgets it, after the last close. A symbolic link
 * is made there, and moved when it is whole. What a killed mount leaves there is deleted by the
 * next one. So the names that programs see change in one call of the library, and a power failure
 * leaves the old name or the new one.
 */
#ifndef BPFS_HIDDEN_H
#define BPFS_HIDDEN_H
#include "nodes.h"

/* Deletes what is in the directory, or makes it, with room for 16 links, or for 256 if many blocks
 * are free. */
void hidden_begin(void);

/* Deletes the directory. */
void hidden_end(void);

/* Makes room for so many more links, if there are blocks for it. False: there is less room. */
bool hidden_reserve(size_t links);

/* Notes that a link of the directory was removed, by others than the functions here. */
void hidden_removed(void);

/* Whether a name is that of the directory. Programs can't find it, nor make it. */
bool hidden_is(const node *dir, const char *text);

/* Makes an empty file there, and its path. 0, or a negative errno. */
int hidden_create(path *into);

/* Adds a link there to the file at a path, and its name to the node. 0, or a negative errno. */
int hidden_add(node *it, const path *at);

/* The directory, and the name that a hidden node has there. */
node *hidden_directory(void);
const char *hidden_name(const node *it);
#endif
