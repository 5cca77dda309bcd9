/* fsx_test.c - pseudo-random system calls on a mounted volume and on a normal folder, with the same
 * results.
 *
 *     fsx_test MOUNTED NORMAL SEED COUNT [MOUNTPOINT]
 *
 * Both folders are empty. Each call is made in both: it has to return the same number, errno and
 * bytes. There are few names, so files get several links, are renamed over each other, and are
 * deleted while they are open or mapped.
 */
#define _GNU_SOURCE
#include <dirent.h>
#include <errno.h>
#include <fcntl.h>
#include <stdbool.h>
#include <stdint.h>
#include <stdio.h>
#include <stdlib.h>
#include <string.h>
#include <sys/mman.h>
#include <sys/mount.h>
#include <sys/stat.h>
#include <unistd.h>

enum {
    SIDES = 2,
    FILES = 6,
    DIRS = 4,
    OPEN = 6,
    MAPS = 4,
    MOST = 1 << 17,
    MAP_LENGTH = 1 << 16,
    ROOM = 32,
    HISTORY = 40
};

static const char *const dirs[DIRS] = {".", "d", "d/e", "g"};
static int folders[SIDES];
static const char *mountpoint;
static uint64_t state;
static long calls;
static char history[HISTORY][160];

typedef struct opened {
    int fd[SIDES];
    bool appends;
} opened;

typedef struct mapped {
    int fd[SIDES];
    uint8_t *at[SIDES]; /* NULL: not mapped */
} mapped;

static opened files[OPEN];
static mapped maps[MAPS];

/* ---- differences */

static uint64_t number(uint64_t below) {
    state ^= state << 13, state ^= state >> 7, state ^= state << 17;
    return state % below;
}

static void differ(const char *what) {
    for (long i = calls < HISTORY ? 0 : calls - HISTORY; i < calls; i++)
        fprintf(stderr, "%ld: %s\n", i, history[i % HISTORY]);
    fprintf(stderr, "fsx_test: call %ld: %s\n", calls, what);
    exit(1);
}

#define NOTE(...) snprintf(history[calls++ % HISTORY], sizeof *history, __VA_ARGS__)

/* The results of a call on both sides, and its errors. */
typedef struct results {
    long value[SIDES];
    int error[SIDES];
} results;

static void set(results *it, int side, long value) {
    it->value[side] = value;
    it->error[side] = value == -1 ? errno : 0;
}

static bool same(const results *it) {
    char text[160];
    if (it->value[0] == it->value[1] && it->error[0] == it->error[1]) return it->value[0] != -1;
    snprintf(text, sizeof text, "%ld (%s) on the mount, %ld (%s) in the folder", it->value[0],
             strerror(it->error[0]), it->value[1], strerror(it->error[1]));
    differ(text);
    return false;
}

#define BOTH(call)                                                                                 \
    do {                                                                                           \
        results it;                                                                                \
        for (int side = 0; side < SIDES; side++) set(&it, side, (call));                           \
        same(&it);                                                                                 \
    } while (0)

static void same_stat(const struct stat *a, const struct stat *b) {
    if ((a->st_mode & S_IFMT) != (b->st_mode & S_IFMT)) differ("another kind");
    if (S_ISDIR(a->st_mode)) return;
    if (a->st_size != b->st_size) differ("another size");
    if (a->st_nlink != b->st_nlink) differ("another number of links");
}

/* ---- names */

static const char *random_file(char path[ROOM]) {
    snprintf(path, ROOM, "%s/%c", dirs[number(DIRS)], (char)('p' + number(FILES)));
    return path;
}

static const char *random_dir(void) {
    return dirs[1 + number(DIRS - 1)];
}

static void do_link(void) {
    char from[ROOM], to[ROOM];
    NOTE("link %s %s", random_file(from), random_file(to));
    BOTH(linkat(folders[side], from, folders[side], to, 0));
}

static void do_rename(void) {
    char from[ROOM], to[ROOM];
    NOTE("rename %s %s", random_file(from), random_file(to));
    BOTH(renameat(folders[side], from, folders[side], to));
}

static void do_rename_dir(void) {
    const char *from = random_dir(), *to = random_dir();
    NOTE("rename %s %s", from, to);
    BOTH(renameat(folders[side], from, folders[side], to));
}

static void do_unlink(void) {
    char path[ROOM];
    NOTE("unlink %s", random_file(path));
    BOTH(unlinkat(folders[side], path, 0));
}

static void do_mkdir(void) {
    const char *path = random_dir();
    NOTE("mkdir %s", path);
    BOTH(mkdirat(folders[side], path, 0755));
}

static void do_rmdir(void) {
    const char *path = random_dir();
    NOTE("rmdir %s", path);
    BOTH(unlinkat(folders[side], path, AT_REMOVEDIR));
}

static void do_symlink(void) {
    char path[ROOM], target[2] = {(char)('p' + number(FILES)), 0};
    NOTE("symlink %s %s", target, random_file(path));
    BOTH(symlinkat(target, folders[side], path));
}

static void do_stat(void) {
    char path[ROOM];
    struct stat st[SIDES];
    results it;
    NOTE("stat %s", random_file(path));
    for (int side = 0; side < SIDES; side++)
        set(&it, side, fstatat(folders[side], path, &st[side], AT_SYMLINK_NOFOLLOW));
    if (same(&it)) same_stat(&st[0], &st[1]);
}

/* Two names are of one inode on both sides, or on none. */
static void do_compare(void) {
    char one[ROOM], other[ROOM];
    bool is_one[SIDES];
    NOTE("compare %s %s", random_file(one), random_file(other));
    for (int side = 0; side < SIDES; side++) {
        struct stat a, b;
        if (fstatat(folders[side], one, &a, AT_SYMLINK_NOFOLLOW)) return;
        if (fstatat(folders[side], other, &b, AT_SYMLINK_NOFOLLOW)) return;
        is_one[side] = a.st_ino == b.st_ino;
    }
    if (is_one[0] != is_one[1]) differ("st_ino says something else");
}

/* The names of a directory with their kinds, in order. NULL: no such directory. */
static char *names_of(int folder, const char *path) {
    char *text = calloc(1, 4096), *names[64];
    size_t count = 0;
    int fd = openat(folder, path, O_RDONLY | O_DIRECTORY);
    DIR *dir = fd < 0 ? NULL : fdopendir(fd);
    if (!dir) return free(text), NULL;
    for (struct dirent *it; (it = readdir(dir));) {
        size_t at = 0;
        if (asprintf(&names[count], "%s %d\n", it->d_name, it->d_type) < 0) exit(2);
        while (at < count && strcmp(names[at], names[count]) < 0) at++;
        char *name = names[count];
        memmove(names + at + 1, names + at, (count++ - at) * sizeof *names);
        names[at] = name;
    }
    closedir(dir);
    for (size_t i = 0; i < count; i++) strcat(text, names[i]), free(names[i]);
    return text;
}

static void compare_names(const char *path) {
    char *names[SIDES];
    for (int side = 0; side < SIDES; side++) names[side] = names_of(folders[side], path);
    if (!names[0] != !names[1] || (names[0] && strcmp(names[0], names[1]))) {
        fprintf(stderr, "on the mount:\n%sin the folder:\n%s", names[0] ? names[0] : "",
                names[1] ? names[1] : "");
        differ("other names");
    }
    for (int side = 0; side < SIDES; side++) free(names[side]);
}

static void do_list(void) {
    const char *path = dirs[number(DIRS)];
    NOTE("list %s", path);
    compare_names(path);
}

/* ---- open files */

static opened *random_open(void) {
    opened *it = &files[number(OPEN)];
    return it->fd[0] >= 0 ? it : NULL;
}

static void close_both(int fd[SIDES]) {
    for (int side = 0; side < SIDES; side++) {
        close(fd[side]);
        fd[side] = -1;
    }
}

static void do_open(void) {
    static const int flags[] = {O_RDWR,
                                O_RDWR | O_CREAT,
                                O_RDWR | O_CREAT,
                                O_RDWR | O_CREAT,
                                O_RDWR | O_CREAT | O_EXCL,
                                O_RDWR | O_TRUNC,
                                O_RDWR | O_CREAT | O_TRUNC,
                                O_RDWR | O_CREAT | O_APPEND,
                                O_RDWR | O_APPEND};
    char path[ROOM];
    opened *at = &files[number(OPEN)];
    int with = flags[number(sizeof flags / sizeof *flags)];
    results it;
    if (at->fd[0] >= 0) close_both(at->fd);
    NOTE("open %s %o as %ld", random_file(path), with, (long)(at - files));
    for (int side = 0; side < SIDES; side++) {
        at->fd[side] = openat(folders[side], path, with, 0644);
        set(&it, side, at->fd[side] < 0 ? -1 : 0);
    }
    at->appends = with & O_APPEND;
    same(&it);
}

static void do_close(void) {
    opened *at = random_open();
    if (!at) return;
    NOTE("close %ld", (long)(at - files));
    close_both(at->fd);
}

static void fill(uint8_t *bytes, size_t count) {
    uint8_t first = (uint8_t)number(256);
    for (size_t i = 0; i < count; i++) bytes[i] = (uint8_t)(first + i * 7 + i / 256);
}

static void do_write(void) {
    static uint8_t bytes[MOST];
    opened *at = random_open();
    size_t count = number(number(4) ? 5000 : MOST / 2);
    off_t offset = (off_t)number(MOST / 2);
    if (!at) return;
    NOTE("%s %ld at %ld, %zu bytes", at->appends ? "append" : "write", (long)(at - files),
         (long)offset, count);
    fill(bytes, count);
    struct stat st;
    if (at->appends && fstat(at->fd[1], &st) == 0 && st.st_size > MOST) return;
    BOTH(at->appends ? write(at->fd[side], bytes, count)
                     : pwrite(at->fd[side], bytes, count, offset));
}

static void compare_read(const int fd[SIDES], off_t offset, size_t count) {
    static uint8_t bytes[SIDES][2 * MOST];
    results it;
    for (int side = 0; side < SIDES; side++)
        set(&it, side, pread(fd[side], bytes[side], count, offset));
    if (same(&it) && memcmp(bytes[0], bytes[1], (size_t)it.value[0])) differ("other bytes");
}

static void do_read(void) {
    opened *at = random_open();
    size_t count = number(20000);
    off_t offset = (off_t)number(MOST);
    if (!at) return;
    NOTE("read %ld at %ld, %zu bytes", (long)(at - files), (long)offset, count);
    compare_read(at->fd, offset, count);
}

static void do_fstat(void) {
    opened *at = random_open();
    struct stat st[SIDES];
    if (!at) return;
    NOTE("fstat %ld", (long)(at - files));
    BOTH(fstat(at->fd[side], &st[side]));
    same_stat(&st[0], &st[1]);
}

static void do_ftruncate(void) {
    opened *at = random_open();
    off_t size = (off_t)number(MOST);
    if (!at) return;
    NOTE("ftruncate %ld to %ld", (long)(at - files), (long)size);
    BOTH(ftruncate(at->fd[side], size));
}

static void do_fsync(void) {
    opened *at = random_open();
    if (!at || number(8)) return;
    NOTE("fsync %ld", (long)(at - files));
    BOTH(fsync(at->fd[side]));
}

/* All bytes of what is reported as a hole are 0, on the mount. */
static void look_at_holes(int fd) {
    static uint8_t bytes[2 * MOST];
    off_t size = lseek(fd, 0, SEEK_END), data = 0;
    for (off_t hole = 0; hole < size; hole = lseek(fd, data, SEEK_HOLE)) {
        data = lseek(fd, hole, SEEK_DATA);
        if (data < 0 && errno == ENXIO) data = size;
        if (hole < 0 || data < hole) differ("SEEK_DATA or SEEK_HOLE fails");
        if (pread(fd, bytes, (size_t)(data - hole), hole) != data - hole)
            differ("a hole is not read");
        for (off_t i = 0; i < data - hole; i++)
            if (bytes[i]) differ("a hole has bytes");
        if (data == size) break;
    }
}

/* All bytes of a file, by a new descriptor. */
static void compare_file(const char *path) {
    int fd[SIDES];
    results it;
    for (int side = 0; side < SIDES; side++) {
        fd[side] = openat(folders[side], path, O_RDONLY);
        set(&it, side, fd[side] < 0 ? -1 : 0);
    }
    if (!same(&it)) return;
    compare_read(fd, 0, 2 * MOST);
    look_at_holes(fd[0]);
    close_both(fd);
}

static void do_read_path(void) {
    char path[ROOM];
    NOTE("read %s", random_file(path));
    compare_file(path);
}

/* ---- maps */

static void unmap(mapped *it) {
    if (!it->at[0]) return;
    for (int side = 0; side < SIDES; side++) {
        munmap(it->at[side], MAP_LENGTH);
        it->at[side] = NULL;
    }
    close_both(it->fd);
}

static void do_map(void) {
    mapped *to = &maps[number(MAPS)];
    opened *at = random_open();
    results it;
    unmap(to);
    if (!at) return;
    NOTE("map %ld as %ld", (long)(at - files), (long)(to - maps));
    for (int side = 0; side < SIDES; side++) {
        to->fd[side] = dup(at->fd[side]);
        to->at[side] = mmap(NULL, MAP_LENGTH, PROT_READ | PROT_WRITE, MAP_SHARED, at->fd[side], 0);
        set(&it, side, to->at[side] == MAP_FAILED ? -1 : 0);
    }
    if (!same(&it)) to->at[0] = NULL;
}

static void do_unmap(void) {
    mapped *at = &maps[number(MAPS)];
    NOTE("unmap %ld", (long)(at - maps));
    unmap(at);
}

/* A random part of a map, that the file has. False: there is none. */
static bool part_of(const mapped *it, size_t *first, size_t *count) {
    struct stat st;
    if (!it->at[0] || fstat(it->fd[1], &st) || st.st_size == 0) return false;
    size_t size = st.st_size < MAP_LENGTH ? (size_t)st.st_size : MAP_LENGTH;
    *first = number(size), *count = number(size - *first) + 1;
    return true;
}

static void do_write_map(void) {
    mapped *at = &maps[number(MAPS)];
    size_t first, count;
    if (!part_of(at, &first, &count)) return;
    NOTE("write map %ld at %zu, %zu bytes", (long)(at - maps), first, count);
    fill(at->at[0] + first, count);
    memcpy(at->at[1] + first, at->at[0] + first, count);
    if (number(4) == 0) BOTH(msync(at->at[side], MAP_LENGTH, MS_SYNC));
}

static void do_read_map(void) {
    mapped *at = &maps[number(MAPS)];
    size_t first, count;
    if (!part_of(at, &first, &count)) return;
    NOTE("read map %ld at %zu, %zu bytes", (long)(at - maps), first, count);
    if (memcmp(at->at[0] + first, at->at[1] + first, count)) differ("other bytes");
}

/* ---- all of it */

/* Lets the kernel forget all names of the mount that are not in use, so that they are looked up
 * again. Only root can do it. */
static void do_forget(void) {
    if (!mountpoint) return;
    NOTE("forget");
    mount(NULL, mountpoint, NULL, MS_REMOUNT | MS_NOSUID | MS_NODEV, NULL);
}

static const struct call {
    void (*it)(void);
    unsigned weight;
} all[] = {
    {do_open, 10}, {do_close, 4},   {do_write, 12},     {do_read, 8},      {do_read_path, 6},
    {do_fstat, 4}, {do_stat, 8},    {do_compare, 4},    {do_list, 3},      {do_ftruncate, 3},
    {do_fsync, 1}, {do_map, 4},     {do_unmap, 2},      {do_write_map, 8}, {do_read_map, 8},
    {do_link, 8},  {do_rename, 8},  {do_rename_dir, 2}, {do_unlink, 6},    {do_mkdir, 3},
    {do_rmdir, 2}, {do_symlink, 1}, {do_forget, 2},
};

static void one_call(void) {
    unsigned sum = 0, at = 0;
    for (size_t i = 0; i < sizeof all / sizeof *all; i++) sum += all[i].weight;
    for (sum = (unsigned)number(sum); sum >= all[at].weight; at++) sum -= all[at].weight;
    all[at].it();
}

static void compare_all(void) {
    char path[ROOM];
    NOTE("compare all");
    for (size_t dir = 0; dir < DIRS; dir++) {
        compare_names(dirs[dir]);
        for (int file = 0; file < FILES; file++) {
            snprintf(path, ROOM, "%s/%c", dirs[dir], (char)('p' + file));
            compare_file(path);
        }
    }
}

int main(int argc, char **argv) {
    if (argc < 5)
        return fprintf(stderr, "usage: fsx_test MOUNTED NORMAL SEED COUNT [MOUNTPOINT]\n"), 2;
    mountpoint = argv[5];
    state = strtoull(argv[3], NULL, 10) * 0x9e3779b97f4a7c15u + 1;
    for (int side = 0; side < SIDES; side++) {
        folders[side] = open(argv[1 + side], O_RDONLY | O_DIRECTORY);
        if (folders[side] < 0) return perror(argv[1 + side]), 2;
    }
    for (size_t i = 0; i < OPEN; i++) files[i].fd[0] = -1;
    for (long i = atol(argv[4]); i > 0; i--) one_call();
    compare_all();
    for (size_t i = 0; i < MAPS; i++) unmap(&maps[i]);
    for (size_t i = 0; i < OPEN; i++)
        if (files[i].fd[0] >= 0) close_both(files[i].fd);
    compare_all();
    return 0;
}
