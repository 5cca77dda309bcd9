/* test_volume.h - a volume in memory, whose power can fail, for tests that call files.h without the
 * kernel. */
#ifndef BPFS_TEST_VOLUME_H
#define BPFS_TEST_VOLUME_H
#include "files.h"
#include "volume.h"

/* How many more stores become durable. */
extern size_t test_stores;

/* Prints what is wrong, and ends the test. */
void must(bool it, const char *what);

/* Makes an empty image. */
void test_format(uint32_t blocks, uint32_t version);

/* Mounts what is durable, as bpfs_fuse does. */
void test_mount(void);

/* Ends a mount without a carry: what is durable remains. */
void test_lose(void);

/* The node of a path of one or two names, or NULL. It keeps the lookup. */
node *test_find(const char *path);

/* Makes a file with this text. Its node keeps the lookup. */
node *test_make(const char *path, const char *text);

/* Whether what is at a path is a file with this text. */
bool test_has(const char *path, const char *text);

/* The directory of a path, and its last name. */
node *test_parent(const char *path, const char **name);
#endif
