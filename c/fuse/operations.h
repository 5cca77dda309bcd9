/* operations.h - the requests of the kernel, as calls of files.h. */
#ifndef BPFS_OPERATIONS_H
#define BPFS_OPERATIONS_H
#define FUSE_USE_VERSION 35
#include <fuse3/fuse_lowlevel.h>

extern const struct fuse_lowlevel_ops operations;
#endif
