#define _GNU_SOURCE
#include "calls.h"

int error_of(uint32_t code) {
    switch (code) {
    case BPFS_OK: return 0;
    case BPFS_BAD_PATH: return -EINVAL; /* the length is checked before (nodes_path_in) */
    case BPFS_NOT_FOUND: return -ENOENT;
    case BPFS_NOT_DIR: return -ENOTDIR;
    case BPFS_IS_DIR: return -EISDIR;
    case BPFS_EXISTS: return -EEXIST;
    case BPFS_NOT_EMPTY: return -ENOTEMPTY;
    case BPFS_INTO_SELF: return -EINVAL;
    case BPFS_IS_ROOT: return -EBUSY;
    case BPFS_TOO_LONG: return -EINVAL;
    case BPFS_TOO_BIG: return -EFBIG;
    case BPFS_NO_SPACE: return -ENOSPC;
    case BPFS_NO_MEMORY: return -ENOMEM;
    default: return -EIO;
    }
}
