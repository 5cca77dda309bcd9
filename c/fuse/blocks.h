/* blocks.h - which parts of a file have blocks in the image, and which are holes.
 *
 * The library does not report it. So these functions follow the pointers of the image, as
 * docs/format.md defines them, and read its words by bpfs_words: all calls so far are in them. They
 * read the interior nodes of a tree only, and pass over a null pointer at once.
 */
#ifndef BPFS_BLOCKS_H
#define BPFS_BLOCKS_H
#include <stdbool.h>
#include <stdint.h>
#include <sys/types.h>

/* A tree of bytes: its root word and its size. */
typedef struct content {
    uint64_t root, size;
} content;

/* Gets the tree of a file by the number of its inode. 0, or a negative errno. */
int blocks_of(uint32_t inode, content *it);

/* Returns how many blocks with bytes from `first` on, before `end`, are there. */
uint64_t blocks_count(const content *it, uint64_t first, uint64_t end);

/* Returns the first place from `first` on that is in a block, or in a hole. The end of the file is
 * a hole. -ENXIO: there is no block up to the end, or `first` is not before the end. */
off_t blocks_seek(const content *it, uint64_t first, bool to_hole);
#endif
