/* strerror.c - a text for each result of a call, and the version. */
#include <bpfs.h>

const char *bpfs_strerror(uint32_t result) {
    switch (result) {
    case BPFS_OK: return "success";
    case BPFS_BAD_PATH: return "not a valid path";
    case BPFS_NOT_FOUND: return "no such file or directory";
    case BPFS_NOT_DIR: return "not a directory";
    case BPFS_IS_DIR: return "is a directory";
    case BPFS_EXISTS: return "the name exists";
    case BPFS_NOT_EMPTY: return "the directory is not empty";
    case BPFS_INTO_SELF: return "a directory cannot move below itself";
    case BPFS_IS_ROOT: return "the root directory cannot be removed or moved";
    case BPFS_TOO_LONG: return "too many bytes for one call";
    case BPFS_TOO_BIG: return "past the maximum file size";
    case BPFS_NO_SPACE: return "not enough free blocks";
    case BPFS_NO_MEMORY: return "out of memory";
    case BPFS_NO_SNAP: return "there is no snapshot";
    case BPFS_HAS_SNAP: return "there is a snapshot";
    case BPFS_OLD_VERSION: return "the version of the image's format has no snapshots, or no attributes";
    case BPFS_PAST_END: return "a piece of the batch ends past the end of its file";
    case BPFS_HAS_NONE: return "the handle is closed";
    case BPFS_HAS_ONE: return "the handle is open already";
    case BPFS_LOG_FULL: return "the log is full: carry, drain, and call again";
    case BPFS_NOT_FORMATTED: return "not an image: no magic number";
    case BPFS_BAD_SIZE: return "the size of the image is wrong";
    case BPFS_DAMAGED: return "the image is damaged";
    case BPFS_OUT_OF_RANGE: return "an argument is out of range, or an array is too short";
    case BPFS_AGAIN: return "a part is done: carry, drain, and call again";
    case BPFS_PENDING: return "the log has events: carry them and drain, or discard them";
    default: return "unknown result";
    }
}

#define TEXT(number) #number
#define DOTTED(major, minor, patch) TEXT(major) "." TEXT(minor) "." TEXT(patch)

const char *bpfs_version(void) {
    return DOTTED(BPFS_VERSION_MAJOR, BPFS_VERSION_MINOR, BPFS_VERSION_PATCH);
}
