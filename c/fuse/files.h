/* files.h - what programs do with files and directories, as calls of the library on `volume`
 * (volume.h).
 *
 * Each function returns 0 (or a number of bytes), or a negative errno: then the tree is unchanged,
 * unless the comment says more.
 */
#ifndef BPFS_FILES_H
#define BPFS_FILES_H
#include "attributes.h"
#include "nodes.h"
#include <sys/stat.h>
#include <sys/statvfs.h>

/* Counts the files and directories, for files_space. Call it when the volume is mounted, and after
 * hidden_begin. */
void files_begin(void);

/* ---- looking */

/* Finds what has a name in a directory: its node has one lookup more then. */
int files_lookup(node *dir, const char *text, node **found);

int files_stat(node *it, struct stat *st);
int files_space(struct statvfs *st);

/* Gets the kind and the inode of a name in a directory, in st_mode and st_ino. */
int files_entry(const node *dir, const char *text, bool is_dir, struct stat *st);

int files_read(const node *it, char *into, size_t size, off_t offset);

/* Returns the first place from `offset` on that is no hole, or that is one (`to_hole`). While a
 * program may have mapped the file to write, none of it counts as a hole. */
off_t files_seek(const node *it, off_t offset, bool to_hole);

/* Reads the target of a symbolic link, with a 0 after it. */
int files_readlink(const node *it, char *into, size_t size);

/* ---- names */

/* Makes an empty file or directory, or a symbolic link, with these attributes. Its node has one
 * lookup. */
int files_make(node *dir, const char *text, attributes wanted, node **made);
int files_symlink(const char *target, node *dir, const char *text, attributes wanted, node **made);

/* Adds a link to a file: its node has one lookup more then. */
int files_link(node *it, node *dir, const char *text);

int files_unlink(node *dir, const char *text);
int files_rmdir(node *dir, const char *text);
int files_rename(node *from_dir, const char *from, node *to_dir, const char *to, unsigned flags);

/* ---- contents and attributes */

/* A program opens a file, or closes it. If it reads and writes, it may map the file, and the kernel
 * may have bytes that are not written yet. */
int files_open(node *it, bool maps);
void files_close(node *it, bool maps);

/* The kernel forgets a node, as it does when the last program has closed a file without a name. If
 * it has a hidden link (hidden.h), that is removed. */
void files_forget(node *it, uint64_t lookups);

/* Some bytes may be written if fewer are returned. */
int files_write(node *it, const char *bytes, size_t size, off_t offset);
int files_truncate(node *it, off_t size);

/* Copies some bytes, fewer than `size` if there are fewer, or if there are many. */
int files_copy(const node *from, off_t offset, node *to, off_t to_offset, size_t size);

/* Sets the permissions, the owner and the group, in one call: (mode_t)-1, (uid_t)-1, (gid_t)-1
 * leave one as it is. */
int files_set_attributes(const node *it, mode_t mode, uid_t owner, gid_t group);
#endif
