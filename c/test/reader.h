/* reader.h - reads the words of an image as docs/format.md defines it, with nothing of the library,
 * and compares them with trees. For tests.
 */
#ifndef BPFS_READER_H
#define BPFS_READER_H
#include "tree.h"

#ifdef __cplusplus
extern "C" {
#endif

/* Whether an image of a version has the files and directories of these trees. `kept` is that of the
 * snapshot, or NULL. Sets *live to the number of blocks in use. */
bool reader_shows(const uint64_t *image, uint32_t blocks, uint32_t version, const tree *now, const tree *kept, uint32_t *live);

/* How many words of the inodes of an image are not 0 that version 3 makes attributes. */
size_t reader_unclear(const uint64_t *image, uint32_t blocks);

#ifdef __cplusplus
}
#endif
#endif
