#define _GNU_SOURCE
#include "medium.h"
#include "model.h"
#include <errno.h>
#include <fcntl.h>
#include <stdarg.h>
#include <stdio.h>
#include <stdlib.h>
#include <string.h>
#include <sys/file.h>
#include <sys/mman.h>
#include <sys/stat.h>
#include <unistd.h>

enum { FILES = 8, HANDLES = 16, CHANGES = 32, FIRST_FD = 1 << 20, FOLDER = FILES, NAME = 48 };
enum { SPACE = 64 << 20, SECTOR = 512, SECTORS = SPACE / SECTOR, LINE = 64, LINES = 1 << 14, FLUSHES = 4096 };

typedef enum state { CLEAN, DIRTY } state;

typedef struct file {
    bool used, mapped, is_pmem; /* mapped: stores come without calls; is_pmem: only pmem_drain makes them durable */
    uint8_t *now, *disk;           /* the cache, and what is durable */
    uint64_t size, disk_size, cut_at; /* cut_at: the least size since the size was durable; past it nothing old is left */
    uint8_t state[SECTORS];
    uint32_t touched[SECTORS], touches; /* the sectors that were ever written */
    bool was_touched[SECTORS];
    uint8_t *left; /* of a mapped file, at the end: the cache */
} file;

typedef struct names {
    char name[FILES][NAME]; /* of each file; empty: none */
} names;

/* A change of the folder that is not durable yet: this file gets this name. */
typedef struct change {
    int file;
    char name[NAME];
} change;

typedef struct handle {
    bool open;
    int file, lock;
} handle;

/* A cache line that was flushed, and waits for a drain. */
typedef struct flush {
    file *of;
    uint64_t at;
    uint8_t bytes[LINE];
} flush;

static struct {
    file files[FILES];
    names now, disk;
    change changes[CHANGES];
    handle handles[HANDLES];
    flush flushes[FLUSHES];
    size_t change_count, flush_count;
    uint64_t random, end_in, fail_in, syncs;
    medium_end how;
    bool ended, failed;
} it;

static void must(bool right, const char *what) {
    if (right) return;
    fprintf(stderr, "medium: %s\n", what);
    exit(2);
}

static bool chance(uint32_t of, uint32_t in) {
    return draw(&it.random, in) < of;
}

/* ---- what is durable */

static void write_back(file *f, uint32_t sector) {
    memcpy(f->disk + (size_t)sector * SECTOR, f->now + (size_t)sector * SECTOR, SECTOR);
    f->state[sector] = CLEAN;
}

static void touch(file *f, uint64_t at, uint64_t count) {
    for (uint64_t s = at / SECTOR; count && s <= (at + count - 1) / SECTOR; s++) {
        f->state[s] = DIRTY;
        if (f->was_touched[s]) continue;
        f->was_touched[s] = true;
        f->touched[f->touches++] = (uint32_t)s;
    }
}

/* The size becomes durable, and with it that what was cut off is gone. */
static void sync_size(file *f) {
    for (uint32_t i = 0; i < f->touches; i++) {
        uint64_t at = (uint64_t)f->touched[i] * SECTOR;
        if (at >= f->cut_at && f->state[f->touched[i]] == CLEAN) memcpy(f->disk + at, f->now + at, SECTOR);
    }
    f->disk_size = f->cut_at = f->size;
}

static void sync_file(file *f) {
    sync_size(f);
    for (uint32_t i = 0; i < f->touches; i++)
        if (f->state[f->touched[i]] == DIRTY) write_back(f, f->touched[i]);
    if (f->mapped && !f->is_pmem) memcpy(f->disk, f->now, f->size);
}

/* A sync fails: some sectors are written, and the kernel forgets of the others that they are not.
 */
static void lose_dirty(file *f) {
    for (uint32_t i = 0; i < f->touches; i++) {
        if (f->state[f->touched[i]] == DIRTY && chance(1, 2)) write_back(f, f->touched[i]);
        f->state[f->touched[i]] = CLEAN;
    }
}

static void apply_change(names *to, const change *c) {
    for (int i = 0; i < FILES; i++)
        if (!strcmp(to->name[i], c->name)) to->name[i][0] = 0;
    if (c->file >= 0) strcpy(to->name[c->file], c->name);
}

static void sync_names(void) {
    it.disk = it.now;
    it.change_count = 0;
}

static void change_name(int file, const char *name) {
    must(it.change_count < CHANGES, "too many changes of names");
    change *c = &it.changes[it.change_count++];
    c->file = file;
    strcpy(c->name, name);
    apply_change(&it.now, c);
}

/* Now and then something becomes durable by itself. */
static void drift(void) {
    if (!chance(1, 4)) return;
    for (int i = 0; i < FILES; i++) {
        file *f = &it.files[i];
        for (uint32_t n = draw(&it.random, 4); f->touches && n > 0; n--) {
            uint32_t sector = f->touched[draw(&it.random, f->touches)];
            if (f->state[sector] == DIRTY) write_back(f, sector);
        }
        if (f->used && chance(1, 16)) sync_size(f);
    }
    if (chance(1, 16)) sync_names();
}

/* Lines of mapped memory leave the caches by themselves: any of those that differ. */
static void evict(void) {
    if (!chance(1, 16)) return;
    for (int i = 0; i < FILES; i++) {
        file *f = &it.files[i];
        for (uint64_t at = 0; f->mapped && at < f->size; at += LINE) {
            if (!memcmp(f->now + at, f->disk + at, LINE) || !chance(1, 3)) continue;
            memcpy(f->disk + at, f->now + at, LINE);
            for (size_t k = 0; k < it.flush_count; k++)
                if (it.flushes[k].of == f && it.flushes[k].at == at) it.flushes[k].of = NULL;
        }
    }
}

/* ---- ends */

static void lose_words(file *f, uint32_t kept) {
    for (uint64_t at = 0; at < f->size; at += 8) {
        if (!memcmp(f->now + at, f->disk + at, 8)) continue;
        if (chance(kept, 4)) memcpy(f->disk + at, f->now + at, 8);
        else memcpy(f->now + at, f->disk + at, 8);
    }
}

static void lose_sectors(file *f, uint32_t kept) {
    for (uint32_t i = 0; i < f->touches; i++) {
        uint32_t s = f->touched[i];
        if (f->state[s] == DIRTY && chance(kept, 4)) write_back(f, s);
        memcpy(f->now + (size_t)s * SECTOR, f->disk + (size_t)s * SECTOR, SECTOR);
        f->state[s] = CLEAN;
    }
}

static void lose_size(file *f, uint32_t kept) {
    if (chance(kept, 4)) sync_size(f);
    for (uint32_t i = 0; i < f->touches; i++) {
        uint64_t first = (uint64_t)f->touched[i] * SECTOR, from = first < f->disk_size ? f->disk_size : first;
        if (from >= first + SECTOR) continue;
        memset(f->now + from, 0, first + SECTOR - from);
        memset(f->disk + from, 0, first + SECTOR - from);
    }
    f->size = f->cut_at = f->disk_size;
}

static void lose_names(uint32_t kept) {
    for (size_t i = 0; i < it.change_count; i++)
        if (chance(kept, 4)) apply_change(&it.disk, &it.changes[i]);
    it.now = it.disk;
    it.change_count = 0;
}

/* Power fails: `kept` quarters of what is not synced become durable. */
static void lose_power(uint32_t kept) {
    for (int i = 0; i < FILES; i++) {
        file *f = &it.files[i];
        if (!f->used) continue;
        if (f->mapped) lose_words(f, kept);
        lose_size(f, kept);
        lose_sectors(f, kept);
    }
    lose_names(kept);
    it.flush_count = 0;
}

void medium_end_now(medium_end how) {
    if (it.ended) return;
    it.ended = true;
    if (how != MEDIUM_KILL) lose_power(how == MEDIUM_LOSES ? 0 : draw(&it.random, 4));
    for (int i = 0; i < FILES; i++) {
        file *f = &it.files[i];
        if (!f->mapped || !f->used) continue;
        f->left = malloc(f->size + 1);
        must(f->left != NULL, "no memory");
        memcpy(f->left, f->now, f->size);
    }
}

void medium_restart(void) {
    for (int i = 0; i < FILES; i++) {
        file *f = &it.files[i];
        if (f->left) memcpy(f->now, f->left, f->size);
        free(f->left);
        f->left = NULL;
    }
    memset(it.handles, 0, sizeof it.handles);
    it.end_in = it.fail_in = 0;
    it.ended = it.failed = false;
}

/* ---- the plan */

void medium_end_after(uint64_t steps, medium_end how) {
    it.end_in = steps, it.how = how;
}

void medium_fail_after(uint64_t steps) {
    it.fail_in = steps;
}

bool medium_has_ended(void) {
    return it.ended;
}

bool medium_has_failed(void) {
    return it.failed;
}

uint64_t medium_syncs(void) {
    return it.syncs;
}

typedef enum luck { WORKS, FAILS, ENDS, HAS_ENDED } luck;

/* What becomes of the call that is made now. */
static luck step(bool can_fail) {
    if (it.ended) return HAS_ENDED;
    drift();
    if (it.end_in && --it.end_in == 0) return ENDS;
    if (!can_fail || !it.fail_in || --it.fail_in) return WORKS;
    it.failed = true;
    return FAILS;
}

/* The end of a call that does not work. */
static int finish(luck l) {
    if (l == WORKS) return 0;
    if (l == ENDS) medium_end_now(it.how);
    errno = l == FAILS && chance(1, 2) ? ENOSPC : EIO;
    return -1;
}

/* ---- files and handles */

static void clear_file(file *f) {
    for (uint32_t i = 0; i < f->touches; i++) {
        f->state[f->touched[i]] = CLEAN;
        f->was_touched[f->touched[i]] = false;
    }
    madvise(f->now, SPACE, MADV_DONTNEED);
    madvise(f->disk, SPACE, MADV_DONTNEED);
    free(f->left);
    f->used = f->mapped = f->is_pmem = false, f->left = NULL;
    f->size = f->disk_size = f->cut_at = f->touches = 0;
}

static uint8_t *reserve(void) {
    void *at = mmap(NULL, SPACE, PROT_READ | PROT_WRITE, MAP_PRIVATE | MAP_ANONYMOUS | MAP_NORESERVE, -1, 0);
    must(at != MAP_FAILED, "no memory");
    return at;
}

void medium_clear(uint64_t seed) {
    for (int i = 0; i < FILES; i++) {
        if (!it.files[i].now) it.files[i].now = reserve(), it.files[i].disk = reserve();
        if (it.files[i].used) clear_file(&it.files[i]);
    }
    memset(&it.now, 0, sizeof it.now);
    memset(&it.disk, 0, sizeof it.disk);
    it.change_count = it.flush_count = 0;
    it.random = seed, it.syncs = 0;
    medium_restart();
}

static bool is_here(const char *path) {
    return !strncmp(path, MEDIUM, strlen(MEDIUM)) || !strcmp(path, "/medium");
}

static const char *name_of(const char *path) {
    must(strlen(path) < NAME, "too long a name");
    return path + strlen(MEDIUM);
}

/* The file of a name, or -1. */
static int find(const char *name) {
    for (int i = 0; i < FILES; i++)
        if (name[0] && !strcmp(it.now.name[i], name)) return i;
    return -1;
}

static bool is_held(int f) {
    for (int i = 0; i < HANDLES; i++)
        if (it.handles[i].open && it.handles[i].file == f) return true;
    for (size_t i = 0; i < it.change_count; i++)
        if (it.changes[i].file == f) return true;
    return it.now.name[f][0] || it.disk.name[f][0];
}

static int new_file(const char *name) {
    int f = 0;
    while (f < FILES && it.files[f].used && is_held(f)) f++;
    must(f < FILES, "too many files");
    clear_file(&it.files[f]);
    it.files[f].used = true;
    change_name(f, name);
    return f;
}

static handle *handle_of(int fd) {
    return fd >= FIRST_FD && fd < FIRST_FD + HANDLES && it.handles[fd - FIRST_FD].open ? &it.handles[fd - FIRST_FD] : NULL;
}

static int new_handle(int f) {
    for (int i = 0; i < HANDLES; i++) {
        if (it.handles[i].open) continue;
        it.handles[i] = (handle){.open = true, .file = f};
        return FIRST_FD + i;
    }
    must(false, "too many handles");
    return -1;
}

/* The file of mapped memory, or NULL. */
static file *file_at(const void *at) {
    for (int i = 0; i < FILES; i++)
        if ((const uint8_t *)at >= it.files[i].now && (const uint8_t *)at < it.files[i].now + SPACE) return &it.files[i];
    return NULL;
}

void medium_make(const char *path) {
    new_file(name_of(path));
    sync_names();
}

int64_t medium_size(const char *path) {
    int f = find(name_of(path));
    return f < 0 ? -1 : (int64_t)it.files[f].size;
}

/* ---- the system's calls */

int __real_open(const char *path, int flags, ...);
int __real_close(int fd);
ssize_t __real_pread(int fd, void *into, size_t count, off_t at);
ssize_t __real_pwrite(int fd, const void *from, size_t count, off_t at);
int __real_fsync(int fd);
int __real_fdatasync(int fd);
int __real_ftruncate(int fd, off_t size);
int __real_posix_fallocate(int fd, off_t at, off_t count);
int __real_fstat(int fd, struct stat *st);
int __real_stat(const char *path, struct stat *st);
int __real_flock(int fd, int how);
void *__real_mmap(void *at, size_t length, int prot, int flags, int fd, off_t offset);
int __real_munmap(void *at, size_t length);
int __real_rename(const char *from, const char *to);
int __real_unlink(const char *path);

int __wrap_open(const char *path, int flags, ...) {
    va_list rest;
    va_start(rest, flags);
    unsigned mode = flags & O_CREAT ? va_arg(rest, unsigned) : 0;
    va_end(rest);
    if (!is_here(path)) return __real_open(path, flags, mode);
    if (it.ended) return errno = EIO, -1;
    if (!strcmp(path, "/medium")) return new_handle(FOLDER);
    int f = find(name_of(path));
    if (f >= 0 && flags & O_EXCL) return errno = EEXIST, -1;
    if (f < 0 && !(flags & O_CREAT)) return errno = ENOENT, -1;
    if (f >= 0) return new_handle(f);
    luck l = step(true);
    if (l == WORKS || (l == ENDS && chance(1, 2))) f = new_file(name_of(path));
    return finish(l) ? -1 : new_handle(f);
}

int __wrap_close(int fd) {
    handle *h = handle_of(fd);
    if (!h) return fd >= FIRST_FD ? errno = EBADF, -1 : __real_close(fd);
    h->open = false;
    return 0;
}

ssize_t __wrap_pread(int fd, void *into, size_t count, off_t at) {
    handle *h = handle_of(fd);
    if (!h) return fd >= FIRST_FD ? errno = EBADF, -1 : __real_pread(fd, into, count, at);
    if (it.ended) return errno = EIO, -1;
    const file *f = &it.files[h->file];
    if ((uint64_t)at >= f->size) return 0;
    if (count > f->size - (uint64_t)at) count = f->size - (uint64_t)at;
    memcpy(into, f->now + at, count);
    return (ssize_t)count;
}

/* A write that ends or fails in between has written some of its words, from the first one on. */
ssize_t __wrap_pwrite(int fd, const void *from, size_t count, off_t at) {
    handle *h = handle_of(fd);
    if (!h) return fd >= FIRST_FD ? errno = EBADF, -1 : __real_pwrite(fd, from, count, at);
    luck l = step(true);
    size_t n = l == WORKS ? count : l == HAS_ENDED ? 0 : 8 * draw(&it.random, (uint32_t)(count / 8 + 1));
    file *f = &it.files[h->file];
    must((uint64_t)at + count <= SPACE, "too long a file");
    if (n) memcpy(f->now + at, from, n);
    touch(f, (uint64_t)at, n);
    if (n && (uint64_t)at + n > f->size) f->size = (uint64_t)at + n;
    return finish(l) ? -1 : (ssize_t)n;
}

static int sync_fd(handle *h) {
    luck l = step(true);
    it.syncs++;
    if (l == WORKS && h->file == FOLDER) sync_names();
    if (l == WORKS && h->file != FOLDER) sync_file(&it.files[h->file]);
    if (l == FAILS && h->file != FOLDER) lose_dirty(&it.files[h->file]);
    if (l == FAILS) errno = EIO;
    return l == FAILS ? -1 : finish(l);
}

int __wrap_fsync(int fd) {
    handle *h = handle_of(fd);
    if (h) return sync_fd(h);
    return fd >= FIRST_FD ? errno = EBADF, -1 : __real_fsync(fd);
}

int __wrap_fdatasync(int fd) {
    handle *h = handle_of(fd);
    if (h) return sync_fd(h);
    return fd >= FIRST_FD ? errno = EBADF, -1 : __real_fdatasync(fd);
}

/* What is cut off is gone at once in the cache, and on the disk together with the size. */
static void set_size(file *f, uint64_t size) {
    must(size <= SPACE, "too long a file");
    for (uint32_t i = 0; i < f->touches; i++) {
        uint64_t first = (uint64_t)f->touched[i] * SECTOR, from = first < size ? size : first;
        if (from >= first + SECTOR) continue;
        memset(f->now + from, 0, first + SECTOR - from);
        f->state[f->touched[i]] = first < size ? DIRTY : CLEAN;
    }
    f->size = size;
    if (f->cut_at > size) f->cut_at = size;
}

int __wrap_ftruncate(int fd, off_t size) {
    handle *h = handle_of(fd);
    if (!h) return fd >= FIRST_FD ? errno = EBADF, -1 : __real_ftruncate(fd, size);
    luck l = step(true);
    if (l == WORKS || (l == ENDS && chance(1, 2))) set_size(&it.files[h->file], (uint64_t)size);
    return finish(l);
}

int __wrap_posix_fallocate(int fd, off_t at, off_t count) {
    handle *h = handle_of(fd);
    if (!h) return fd >= FIRST_FD ? EBADF : __real_posix_fallocate(fd, at, count);
    luck l = step(true);
    file *f = &it.files[h->file];
    if (l == WORKS && (uint64_t)(at + count) > f->size) set_size(f, (uint64_t)(at + count));
    return finish(l) ? errno : 0;
}

static void fill_stat(int f, struct stat *st) {
    memset(st, 0, sizeof *st);
    st->st_mode = S_IFREG | 0644;
    st->st_dev = FIRST_FD, st->st_ino = (ino_t)f + 1;
    st->st_size = (off_t)it.files[f].size;
}

int __wrap_fstat(int fd, struct stat *st) {
    handle *h = handle_of(fd);
    if (!h) return fd >= FIRST_FD ? errno = EBADF, -1 : __real_fstat(fd, st);
    return it.ended ? errno = EIO, -1 : (fill_stat(h->file, st), 0);
}

int __wrap_stat(const char *path, struct stat *st) {
    if (!is_here(path)) return __real_stat(path, st);
    int f = find(name_of(path));
    if (it.ended || f < 0) return errno = it.ended ? EIO : ENOENT, -1;
    return fill_stat(f, st), 0;
}

int __wrap_flock(int fd, int how) {
    handle *h = handle_of(fd);
    if (!h) return fd >= FIRST_FD ? errno = EBADF, -1 : __real_flock(fd, how);
    for (int i = 0; i < HANDLES; i++) {
        handle *o = &it.handles[i];
        if (o == h || !o->open || o->file != h->file || !o->lock) continue;
        if (how & LOCK_EX || o->lock == LOCK_EX) return errno = EWOULDBLOCK, -1;
    }
    h->lock = how & (LOCK_EX | LOCK_SH);
    return 0;
}

void *__wrap_mmap(void *at, size_t length, int prot, int flags, int fd, off_t offset) {
    handle *h = handle_of(fd);
    if (!h) return __real_mmap(at, length, prot, flags, fd, offset);
    if (it.ended) return errno = EIO, MAP_FAILED;
    file *f = &it.files[h->file];
    must(flags & MAP_SHARED && offset == 0, "no such mapping");
    if (prot & PROT_WRITE) f->mapped = true;
    return f->now;
}

int __wrap_munmap(void *at, size_t length) {
    return file_at(at) ? 0 : __real_munmap(at, length);
}

int __wrap_rename(const char *from, const char *to) {
    if (!is_here(from)) return __real_rename(from, to);
    int f = find(name_of(from));
    if (!it.ended && f < 0) return errno = ENOENT, -1;
    luck l = step(true);
    if (l == WORKS || (l == ENDS && chance(1, 2))) change_name(f, name_of(to));
    return finish(l);
}

int __wrap_unlink(const char *path) {
    if (!is_here(path)) return __real_unlink(path);
    if (!it.ended && find(name_of(path)) < 0) return errno = ENOENT, -1;
    luck l = step(true);
    if (l == WORKS || (l == ENDS && chance(1, 2))) change_name(-1, name_of(path));
    return finish(l);
}

/* ---- libpmem */

#ifdef HAS_PMEM
#include <libpmem.h>

void *__real_pmem_map_file(const char *path, size_t length, int flags, mode_t mode, size_t *mapped, int *is_pmem);
int __real_pmem_unmap(void *at, size_t length);
void __real_pmem_flush(const void *at, size_t length);
void __real_pmem_drain(void);
void __real_pmem_persist(const void *at, size_t length);

void *__wrap_pmem_map_file(const char *path, size_t length, int flags, mode_t mode, size_t *mapped, int *is_pmem) {
    if (!is_here(path)) return __real_pmem_map_file(path, length, flags, mode, mapped, is_pmem);
    int f = find(name_of(path));
    if (it.ended) return errno = EIO, NULL;
    if (f < 0 && !(flags & PMEM_FILE_CREATE)) return errno = ENOENT, NULL;
    if (f < 0) f = new_file(name_of(path));
    if (flags & PMEM_FILE_CREATE) set_size(&it.files[f], length);
    it.files[f].mapped = it.files[f].is_pmem = true;
    *mapped = it.files[f].size, *is_pmem = 1;
    return it.files[f].now;
}

int __wrap_pmem_unmap(void *at, size_t length) {
    return file_at(at) ? 0 : __real_pmem_unmap(at, length);
}

static void flush_line(file *f, uint64_t at) {
    must(it.flush_count < FLUSHES, "too many flushes");
    flush *one = &it.flushes[it.flush_count++];
    *one = (flush){.of = f, .at = at};
    memcpy(one->bytes, f->now + at, LINE);
}

static void drain(void) {
    for (size_t i = 0; i < it.flush_count; i++)
        if (it.flushes[i].of) memcpy(it.flushes[i].of->disk + it.flushes[i].at, it.flushes[i].bytes, LINE);
    it.flush_count = 0;
    it.syncs++;
}

void __wrap_pmem_flush(const void *at, size_t length) {
    file *f = file_at(at);
    if (!f) {
        __real_pmem_flush(at, length);
        return;
    }
    luck l = step(false);
    if (l == WORKS) evict();
    uint64_t first = (uint64_t)((const uint8_t *)at - f->now);
    for (uint64_t line = first / LINE * LINE; l == WORKS && line < first + length; line += LINE) flush_line(f, line);
    finish(l);
}

void __wrap_pmem_drain(void) {
    luck l = step(false);
    if (l == WORKS) drain();
    finish(l);
    __real_pmem_drain();
}

void __wrap_pmem_persist(const void *at, size_t length) {
    file *f = file_at(at);
    if (!f) {
        __real_pmem_persist(at, length);
        return;
    }
    luck l = step(false);
    if (l == WORKS) memcpy(f->disk + ((const uint8_t *)at - f->now), at, length);
    finish(l);
}
#endif
