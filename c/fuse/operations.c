#define _GNU_SOURCE
#include "operations.h"
#include "files.h"
#include "hidden.h"
#include "listing.h"
#include "times.h"
#include "volume.h"
#include <errno.h>
#include <fcntl.h>
#include <limits.h>
#include <stdlib.h>
#include <unistd.h>

/* Seconds for which the kernel keeps names, also those that are not there, and attributes. It sees
 * all changes, and has one inode for all links of a file. So they would stay right, except after an
 * operation that fails when half of it is done. */
static const double timeout = 1;

/* ---- replies */

static void reply(fuse_req_t request, int code) {
    fuse_reply_err(request, -code);
}

static int get_entry(node *it, struct fuse_entry_param *entry) {
    *entry = (struct fuse_entry_param){.ino = nodes_id(it), .generation = it->generation};
    entry->attr_timeout = entry->entry_timeout = timeout;
    return files_stat(it, &entry->attr);
}

/* Replies with a node, which has one lookup for this reply. */
static void reply_entry(fuse_req_t request, int code, node *it) {
    struct fuse_entry_param entry;
    if (code) {
        reply(request, code);
        return;
    }
    code = get_entry(it, &entry);
    if (code) reply(request, code);
    if (code || fuse_reply_entry(request, &entry)) files_forget(it, 1);
}

static void reply_attributes(fuse_req_t request, int code, node *it) {
    struct stat st;
    if (!code) code = files_stat(it, &st);
    if (code) reply(request, code);
    else fuse_reply_attr(request, &st, timeout);
}

/* ---- names */

static void do_lookup(fuse_req_t request, fuse_ino_t dir, const char *name) {
    node *it = NULL;
    int code = files_lookup(nodes_of(dir), name, &it);
    if (code == -ENOENT)
        fuse_reply_entry(request, &(struct fuse_entry_param){.entry_timeout = timeout});
    else reply_entry(request, code, it);
}

static void do_forget(fuse_req_t request, fuse_ino_t id, uint64_t lookups) {
    files_forget(nodes_of(id), lookups);
    fuse_reply_none(request);
}

/* A file of this kind, with the caller as its owner. */
static attributes of_caller(fuse_req_t request, mode_t mode) {
    const struct fuse_ctx *caller = fuse_req_ctx(request);
    return (attributes){mode, caller->uid, caller->gid};
}

static void do_mkdir(fuse_req_t request, fuse_ino_t dir, const char *name, mode_t mode) {
    node *it = NULL;
    int code = files_make(nodes_of(dir), name, of_caller(request, S_IFDIR | (mode & 07777)), &it);
    reply_entry(request, code, it);
}

static void do_mknod(fuse_req_t request, fuse_ino_t dir, const char *name, mode_t mode,
                     dev_t device) {
    (void)device;
    node *it = NULL;
    int code = S_ISREG(mode) ? files_make(nodes_of(dir), name,
                                          of_caller(request, S_IFREG | (mode & 07777)), &it)
                             : -EPERM;
    reply_entry(request, code, it);
}

static void do_symlink(fuse_req_t request, const char *target, fuse_ino_t dir, const char *name) {
    node *it = NULL;
    int code = files_symlink(target, nodes_of(dir), name, of_caller(request, S_IFLNK | 0777), &it);
    reply_entry(request, code, it);
}

static void do_link(fuse_req_t request, fuse_ino_t id, fuse_ino_t dir, const char *name) {
    node *it = nodes_of(id);
    reply_entry(request, files_link(it, nodes_of(dir), name), it);
}

static void do_unlink(fuse_req_t request, fuse_ino_t dir, const char *name) {
    reply(request, files_unlink(nodes_of(dir), name));
}

static void do_rmdir(fuse_req_t request, fuse_ino_t dir, const char *name) {
    reply(request, files_rmdir(nodes_of(dir), name));
}

static void do_rename(fuse_req_t request, fuse_ino_t from_dir, const char *from, fuse_ino_t to_dir,
                      const char *to, unsigned flags) {
    reply(request, files_rename(nodes_of(from_dir), from, nodes_of(to_dir), to, flags));
}

static void do_readlink(fuse_req_t request, fuse_ino_t id) {
    char target[PATH_MAX]; /* the kernel takes no more */
    int code = files_readlink(nodes_of(id), target, sizeof target);
    if (code) reply(request, code);
    else fuse_reply_readlink(request, target);
}

/* ---- attributes */

static void do_getattr(fuse_req_t request, fuse_ino_t id, struct fuse_file_info *info) {
    (void)info;
    reply_attributes(request, 0, nodes_of(id));
}

static int set_attributes(const node *it, const struct stat *st, int which) {
    if (!(which & (FUSE_SET_ATTR_MODE | FUSE_SET_ATTR_UID | FUSE_SET_ATTR_GID))) return 0;
    return files_set_attributes(it, which & FUSE_SET_ATTR_MODE ? st->st_mode : (mode_t)-1,
                                which & FUSE_SET_ATTR_UID ? st->st_uid : (uid_t)-1,
                                which & FUSE_SET_ATTR_GID ? st->st_gid : (gid_t)-1);
}

static int set_time(node *it, const struct stat *st, int which) {
    if (which & FUSE_SET_ATTR_MTIME_NOW) return times_set(it, times_now());
    return which & FUSE_SET_ATTR_MTIME ? times_set(it, st->st_mtim) : 0;
}

static void do_setattr(fuse_req_t request, fuse_ino_t id, struct stat *st, int which,
                       struct fuse_file_info *info) {
    (void)info;
    node *it = nodes_of(id);
    int code = set_attributes(it, st, which);
    if (!code && which & FUSE_SET_ATTR_SIZE) code = files_truncate(it, st->st_size);
    if (!code) code = set_time(it, st, which);
    reply_attributes(request, code, it);
}

static void do_statfs(fuse_req_t request, fuse_ino_t id) {
    (void)id;
    struct statvfs st;
    int code = files_space(&st);
    if (code) reply(request, code);
    else fuse_reply_statfs(request, &st);
}

/* ---- files */

/* Only a descriptor that reads and writes can be mapped to write. */
static bool may_map(const struct fuse_file_info *info) {
    return (info->flags & O_ACCMODE) == O_RDWR;
}

/* The kernel's cache of a file's bytes stays right: it has one for all links. */
static int open_node(node *it, struct fuse_file_info *info) {
    info->keep_cache = true;
    return files_open(it, may_map(info));
}

static void do_open(fuse_req_t request, fuse_ino_t id, struct fuse_file_info *info) {
    node *it = nodes_of(id);
    int code = info->flags & O_TRUNC ? files_truncate(it, 0) : 0;
    if (!code) code = open_node(it, info);
    if (code) reply(request, code);
    else if (fuse_reply_open(request, info)) files_close(it, may_map(info)); /* interrupted */
}

static void do_create(fuse_req_t request, fuse_ino_t dir, const char *name, mode_t mode,
                      struct fuse_file_info *info) {
    struct fuse_entry_param entry;
    node *it = NULL;
    int code = files_make(nodes_of(dir), name, of_caller(request, S_IFREG | (mode & 07777)), &it);
    if (code) {
        reply(request, code);
        return;
    }
    code = get_entry(it, &entry);
    if (!code) code = open_node(it, info);
    if (code) {
        reply(request, code);
        files_forget(it, 1);
    } else if (fuse_reply_create(request, &entry, info)) {
        files_close(it, may_map(info));
        files_forget(it, 1);
    }
}

static void do_release(fuse_req_t request, fuse_ino_t id, struct fuse_file_info *info) {
    files_close(nodes_of(id), may_map(info));
    reply(request, 0);
}

static void do_read(fuse_req_t request, fuse_ino_t id, size_t size, off_t offset,
                    struct fuse_file_info *info) {
    (void)info;
    char *bytes = malloc(size + 1);
    int count = bytes ? files_read(nodes_of(id), bytes, size, offset) : -ENOMEM;
    if (count < 0) reply(request, count);
    else fuse_reply_buf(request, bytes, (size_t)count);
    free(bytes);
}

static void do_write(fuse_req_t request, fuse_ino_t id, const char *bytes, size_t size,
                     off_t offset, struct fuse_file_info *info) {
    (void)info;
    int count = files_write(nodes_of(id), bytes, size, offset);
    if (count < 0) reply(request, count);
    else fuse_reply_write(request, (size_t)count);
}

static void do_lseek(fuse_req_t request, fuse_ino_t id, off_t offset, int whence,
                     struct fuse_file_info *info) {
    (void)info;
    if (whence != SEEK_DATA && whence != SEEK_HOLE) {
        reply(request, -EINVAL);
        return;
    }
    off_t found = files_seek(nodes_of(id), offset, whence == SEEK_HOLE);
    if (found < 0) reply(request, (int)found);
    else fuse_reply_lseek(request, found);
}

static void do_copy_file_range(fuse_req_t request, fuse_ino_t id, off_t offset,
                               struct fuse_file_info *info, fuse_ino_t to, off_t to_offset,
                               struct fuse_file_info *to_info, size_t size, int flags) {
    (void)info, (void)to_info;
    if (flags) {
        reply(request, -EINVAL);
        return;
    }
    int count = files_copy(nodes_of(id), offset, nodes_of(to), to_offset, size);
    if (count < 0) reply(request, count);
    else fuse_reply_write(request, (size_t)count);
}

static void do_fsync(fuse_req_t request, fuse_ino_t id, int data, struct fuse_file_info *info) {
    (void)id, (void)data, (void)info;
    reply(request, volume_carry() ? -EIO : 0);
}

/* ---- directories */

static listing *listing_of(const struct fuse_file_info *info) {
    return (listing *)(uintptr_t)info->fh;
}

static void do_opendir(fuse_req_t request, fuse_ino_t id, struct fuse_file_info *info) {
    (void)id;
    listing *it = calloc(1, sizeof *it);
    if (!it) {
        reply(request, -ENOMEM);
        return;
    }
    info->fh = (uintptr_t)it;
    if (fuse_reply_open(request, info)) free(it);
}

static void do_releasedir(fuse_req_t request, fuse_ino_t id, struct fuse_file_info *info) {
    (void)id;
    listing_clear(listing_of(info));
    free(listing_of(info));
    reply(request, 0);
}

/* A reply to readdir that grows. */
typedef struct page {
    fuse_req_t request;
    char *bytes;
    size_t size, used;
    bool plus; /* it is for readdirplus: with attributes, and a lookup of each name */
} page;

/* Adds an entry, after which the directory goes on at `next`. False: no room. */
static bool add(page *into, const char *name, const struct fuse_entry_param *entry, off_t next) {
    char *at = into->bytes + into->used;
    size_t room = into->size - into->used, size;
    if (into->plus) size = fuse_add_direntry_plus(into->request, at, room, name, entry, next);
    else size = fuse_add_direntry(into->request, at, room, name, &entry->attr, next);
    if (size > room) return false;
    into->used += size;
    return true;
}

/* Adds "." or "..": the kernel does not look them up. */
static bool add_directory(page *into, const char *name, const node *it, off_t next) {
    struct fuse_entry_param entry = {.attr = {.st_ino = it->number, .st_mode = S_IFDIR}};
    return add(into, name, &entry, next);
}

/* A name that is gone meanwhile is left out. */
static bool add_name(page *into, node *dir, const char *name, bool is_dir, off_t next) {
    struct fuse_entry_param entry = {0};
    node *it = NULL;
    if (!into->plus)
        return files_entry(dir, name, is_dir, &entry.attr) || add(into, name, &entry, next);
    if (files_lookup(dir, name, &it)) return true;
    if (get_entry(it, &entry) == 0 && add(into, name, &entry, next)) return true;
    files_forget(it, 1);
    return false;
}

/* Adds what comes at an offset: 0 and 1 for "." and "..", then the names. False: no room, or no
 * more. */
static bool add_at(page *into, node *dir, const listing *names, off_t offset) {
    bool is_dir;
    if (offset == 0) return add_directory(into, ".", dir, 1);
    if (offset == 1) return add_directory(into, "..", nodes_parent(dir), 2);
    size_t index = (size_t)(offset - 2);
    if (index >= names->count) return false;
    const char *name = listing_name(names, index, &is_dir);
    return hidden_is(dir, name) || add_name(into, dir, name, is_dir, offset + 1);
}

/* The names are those of when the directory is read from its beginning. So an offset means the same
 * until then. */
static int take_names(const node *dir, listing *names, off_t offset) {
    path at;
    if (offset > 0 && names->text) return 0;
    int code = nodes_path(dir, &at);
    return code ? code : listing_take(names, &at);
}

static void read_directory(page *into, fuse_ino_t id, off_t offset, struct fuse_file_info *info) {
    node *dir = nodes_of(id);
    int code = take_names(dir, listing_of(info), offset);
    if (!code) into->bytes = malloc(into->size);
    if (!code && !into->bytes) code = -ENOMEM;
    if (code) {
        reply(into->request, code);
        return;
    }
    while (add_at(into, dir, listing_of(info), offset)) offset++;
    fuse_reply_buf(into->request, into->bytes, into->used);
    free(into->bytes);
}

static void do_readdir(fuse_req_t request, fuse_ino_t id, size_t size, off_t offset,
                       struct fuse_file_info *info) {
    read_directory(&(page){.request = request, .size = size}, id, offset, info);
}

static void do_readdirplus(fuse_req_t request, fuse_ino_t id, size_t size, off_t offset,
                           struct fuse_file_info *info) {
    read_directory(&(page){.request = request, .size = size, .plus = true}, id, offset, info);
}

/* ---- all of them */

static void do_init(void *data, struct fuse_conn_info *connection) {
    (void)data;
    connection->max_write = (unsigned)volume.max_write;
    connection->want &=
        ~(unsigned)FUSE_CAP_HANDLE_KILLPRIV; /* the kernel clears set-user-ID bits, by chmod */
    connection->want &=
        ~(unsigned)FUSE_CAP_AUTO_INVAL_DATA; /* a new time says nothing: the kernel saw the write */
}

const struct fuse_lowlevel_ops operations = {
    .init = do_init,
    .lookup = do_lookup,
    .forget = do_forget,
    .getattr = do_getattr,
    .setattr = do_setattr,
    .readlink = do_readlink,
    .mknod = do_mknod,
    .mkdir = do_mkdir,
    .unlink = do_unlink,
    .rmdir = do_rmdir,
    .symlink = do_symlink,
    .rename = do_rename,
    .link = do_link,
    .open = do_open,
    .read = do_read,
    .write = do_write,
    .release = do_release,
    .fsync = do_fsync,
    .opendir = do_opendir,
    .readdir = do_readdir,
    .readdirplus = do_readdirplus,
    .releasedir = do_releasedir,
    .fsyncdir = do_fsync,
    .statfs = do_statfs,
    .create = do_create,
    .lseek = do_lseek,
    .copy_file_range = do_copy_file_range,
};
