/* mounted_test.c - system calls on a mounted volume, each with the result that README.md states.
 *
 *     mounted_test calls FOLDER VERSION   a series of system calls; FOLDER is empty, and on a
 *                                         mount of this version
 *     mounted_test others FOLDER          calls of other users, on a mount with allow_other
 *     mounted_test looks FOLDER COUNT     COUNT times statx of one file, not from a cache
 *     mounted_test many FOLDER COUNT      makes COUNT files of 1,000 bytes, syncs the last one, and
 *                                         prints both times
 *     mounted_test appends FOLDER COUNT   two processes append COUNT lines each, by two names
 *     mounted_test opens FOLDER COUNT     a process opens a file COUNT times, which another one
 *                                         replaces by renames meanwhile
 *     mounted_test forgets FOLDER COUNT   looks up names COUNT times, and lets the kernel forget
 *                                         them. FOLDER is a mount point. Without root: makes COUNT
 *                                         files, one after the other, and deletes each
 *     mounted_test removes FOLDER COUNT   opens COUNT files, fills the volume, and deletes them all
 *     mounted_test replaces FOLDER SIZE   replaces an open file by renames until a call fails. It
 *                                         has SIZE equal bytes
 *     mounted_test whole FOLDER SIZE      whether that file has SIZE equal bytes
 */
#define _GNU_SOURCE
#include <errno.h>
#include <fcntl.h>
#include <grp.h>
#include <signal.h>
#include <stdbool.h>
#include <stdio.h>
#include <stdlib.h>
#include <string.h>
#include <sys/mman.h>
#include <sys/mount.h>
#include <sys/stat.h>
#include <sys/statvfs.h>
#include <sys/wait.h>
#include <sys/xattr.h>
#include <time.h>
#include <unistd.h>

#define WORKS(call) is(0, (call) == -1 ? errno : 0, #call, __LINE__)
#define FAILS(why, call) is(why, (call) == -1 ? errno : 0, #call, __LINE__)
#define IS(wanted, found) is((long)(wanted), (long)(found), #found, __LINE__)

static int wrong, checks;

static void is(long wanted, long found, const char *call, int line) {
    checks++;
    if (wanted == found) return;
    fprintf(stderr, "mounted_test.c:%d: %s: %ld, expected %ld\n", line, call, found, wanted);
    wrong = 1;
}

static int make(const char *path, const char *text) {
    int fd = open(path, O_RDWR | O_CREAT | O_TRUNC, 0644);
    if (fd >= 0 && write(fd, text, strlen(text)) != (ssize_t)strlen(text)) errno = EIO, fd = -1;
    return fd;
}

static long size_of(const char *path) {
    struct stat it;
    return stat(path, &it) ? -1 : (long)it.st_size;
}

static long names_of(const char *path) {
    struct stat it;
    return stat(path, &it) ? -1 : (long)it.st_nlink;
}

/* Whether a file holds this text, of less than 64 bytes. */
static int has(const char *path, const char *text) {
    char bytes[64] = {0};
    int fd = open(path, O_RDONLY);
    ssize_t n = read(fd, bytes, sizeof bytes);
    close(fd);
    return n == (ssize_t)strlen(text) && memcmp(bytes, text, (size_t)n) == 0;
}

static void files(void) {
    int fd = make("a", "hello");
    WORKS(fd);
    WORKS(fsync(fd));
    WORKS(fdatasync(fd));
    IS(5, size_of("a"));
    FAILS(EEXIST, open("a", O_CREAT | O_EXCL | O_WRONLY, 0644));
    FAILS(ENOENT, open("b", O_RDONLY));
    FAILS(ENOTDIR, open("a/b", O_RDONLY));
    IS(3, pwrite(fd, "end", 3, 10000));
    IS(10003, size_of("a"));
    WORKS(ftruncate(fd, 4));
    IS(1, has("a", "hell"));
    IS(2, pread(fd, (char[8]){0}, 8, 2));
    FAILS(EFBIG, truncate("a", 1L << 62));
    close(fd);
    close(open("a", O_WRONLY | O_TRUNC));
    IS(0, size_of("a"));
    fd = open("a", O_WRONLY | O_APPEND);
    IS(2, write(fd, "xy", 2));
    IS(2, write(fd, "zz", 2));
    close(fd);
    IS(1, has("a", "xyzz"));
    WORKS(unlink("a"));
}

static void directories(void) {
    WORKS(mkdir("d", 0755));
    FAILS(EEXIST, mkdir("d", 0755));
    close(make("d/a", "a"));
    FAILS(ENOTEMPTY, rmdir("d"));
    FAILS(EISDIR, unlink("d"));
    FAILS(EINVAL, rename("d", "d/e"));
    WORKS(rename("d", "e"));
    IS(1, has("e/a", "a"));
    WORKS(mkdir("d", 0755));
    FAILS(ENOTEMPTY, rename("d", "e"));
    FAILS(EISDIR, rename("e/a", "d"));
    FAILS(ENOTDIR, rename("d", "e/a"));
    WORKS(rename("e", "d"));
    int fd = open("d", O_RDONLY | O_DIRECTORY);
    WORKS(fsync(fd));
    close(fd);
    WORKS(unlink("d/a"));
    WORKS(rmdir("d"));
}

static void renames(void) {
    close(make("a", "one"));
    close(make("b", "two"));
    FAILS(EEXIST, renameat2(AT_FDCWD, "a", AT_FDCWD, "b", RENAME_NOREPLACE));
    FAILS(EINVAL, renameat2(AT_FDCWD, "a", AT_FDCWD, "b", RENAME_EXCHANGE));
    WORKS(renameat2(AT_FDCWD, "a", AT_FDCWD, "c", RENAME_NOREPLACE));
    WORKS(rename("c", "b"));
    IS(1, has("b", "one"));
    WORKS(unlink("b"));
}

static long inode_of(const char *path) {
    struct stat it;
    return stat(path, &it) ? -1 : (long)it.st_ino;
}

/* All names, descriptors and maps of a file show the same, also those from before a link. */
static void links(void) {
    char bytes[8] = {0};
    int fd = make("a", "one");
    char *map = mmap(NULL, 4096, PROT_READ | PROT_WRITE, MAP_SHARED, fd, 0);
    IS(1, map != MAP_FAILED);
    WORKS(link("a", "b"));
    FAILS(EEXIST, link("a", "b"));
    IS(2, names_of("a"));
    IS(2, names_of("b"));
    IS(inode_of("a"), inode_of("b"));
    int other = open("b", O_RDWR);
    IS(3, pwrite(other, "two", 3, 3));
    IS(6, size_of("a"));
    IS(1, has("a", "onetwo"));
    IS(6, pread(fd, bytes, 8, 0));
    IS(0, memcmp(bytes, "onetwo", 6));
    IS(0, memcmp(map, "onetwo", 6));
    memcpy(map, "ONE", 3);
    IS(1, has("b", "ONEtwo"));
    WORKS(msync(map, 4096, MS_SYNC));
    IS(1, has("b", "ONEtwo"));
    WORKS(munmap(map, 4096));
    WORKS(rename("a", "b")); /* POSIX: it does nothing */
    IS(2, names_of("a"));
    IS(1, has("b", "ONEtwo"));
    WORKS(unlink("a"));
    IS(1, names_of("b"));
    IS(3, pwrite(fd, "yes", 3, 0));
    IS(1, has("b", "yestwo"));
    close(other);
    close(fd);
    WORKS(unlink("b"));
    FAILS(EPERM, mknod("p", S_IFIFO | 0644, 0));
}

/* ---- holes, and copies within the kernel */

static long blocks_of(const char *path) {
    struct stat it;
    return stat(path, &it) ? -1 : (long)it.st_blocks;
}

static void holes(void) {
    enum { AT = 5 << 20, SIZE = 1 << 30, BLOCK = 4096, SECTORS = BLOCK / 512 };
    close(make("a", ""));
    WORKS(truncate("a", SIZE));
    IS(0, blocks_of("a"));
    int reader = open("a", O_RDONLY);
    FAILS(ENXIO, lseek(reader, 0, SEEK_DATA));
    IS(0, lseek(reader, 0, SEEK_HOLE));
    int fd = open("a", O_WRONLY);
    IS(1, pwrite(fd, "x", 1, AT));
    IS(SECTORS, blocks_of("a"));
    IS(AT, lseek(reader, 0, SEEK_DATA));
    IS(AT + 7, lseek(reader, AT + 7, SEEK_DATA));
    IS(AT + BLOCK, lseek(reader, AT, SEEK_HOLE));
    IS(AT + BLOCK + 1, lseek(reader, AT + BLOCK + 1, SEEK_HOLE));
    FAILS(ENXIO, lseek(reader, AT + BLOCK, SEEK_DATA));
    FAILS(ENXIO, lseek(reader, SIZE, SEEK_DATA));
    FAILS(ENXIO, lseek(reader, SIZE, SEEK_HOLE));
    IS(2 * BLOCK, pwrite(fd, (char[2 * BLOCK]){1}, 2 * BLOCK, AT + BLOCK));
    IS(3 * SECTORS, blocks_of("a"));
    IS(AT + 3 * BLOCK, lseek(reader, AT, SEEK_HOLE));
    WORKS(ftruncate(fd, AT + BLOCK));
    IS(SECTORS, blocks_of("a"));
    IS(AT + BLOCK, lseek(reader, AT, SEEK_HOLE)); /* the end */
    close(fd);
    close(reader);
    WORKS(unlink("a"));
}

/* The kernel hands over mapped bytes later. Until then, no hole is reported where they may be. */
static void holes_that_are_mapped(void) {
    enum { AT = 8192, SIZE = 1 << 20 };
    close(make("a", ""));
    WORKS(truncate("a", SIZE));
    int fd = open("a", O_RDWR), reader = open("a", O_RDONLY);
    char *map = mmap(NULL, SIZE, PROT_READ | PROT_WRITE, MAP_SHARED, fd, 0);
    IS(1, map != MAP_FAILED);
    close(fd);
    map[AT] = 'x';
    IS(0, lseek(reader, 0, SEEK_DATA));
    IS(SIZE, lseek(reader, 0, SEEK_HOLE));
    WORKS(munmap(map, SIZE));
    for (int i = 0; i < 100 && lseek(reader, 0, SEEK_DATA) != AT; i++) usleep(10000);
    IS(AT, lseek(reader, 0, SEEK_DATA));
    IS(AT + 4096, lseek(reader, AT, SEEK_HOLE));
    close(reader);
    WORKS(unlink("a"));
}

static void copies_of_ranges(void) {
    off_t from = 2, to = 100000;
    int in = make("a", "some bytes"), out = make("b", "");
    IS(8, copy_file_range(in, &from, out, &to, 1000, 0));
    IS(10, from);
    IS(100008, to);
    IS(100008, size_of("b"));
    IS(0, copy_file_range(in, &from, out, &to, 1000, 0));
    char bytes[16] = {0};
    IS(8, pread(out, bytes, 16, 100000));
    IS(0, memcmp(bytes, "me bytes", 8));
    WORKS(unlink("a")); /* it is open */
    from = 0, to = 0;
    IS(4, copy_file_range(in, &from, out, &to, 4, 0));
    IS(4, pread(out, bytes, 4, 0));
    IS(0, memcmp(bytes, "some", 4));
    FAILS(EOPNOTSUPP, fallocate(out, 0, 0, 4096));
    FAILS(EOPNOTSUPP, fallocate(out, FALLOC_FL_PUNCH_HOLE | FALLOC_FL_KEEP_SIZE, 0, 4096));
    close(in);
    close(out);
    WORKS(unlink("b"));
}

static void long_names(void) {
    char name[300];
    memset(name, 'n', sizeof name);
    name[240] = 0;
    close(make(name, "x"));
    IS(1, size_of(name));
    WORKS(unlink(name));
    name[240] = 'n', name[255] = 0;
    FAILS(ENAMETOOLONG, open(name, O_RDONLY));
    FAILS(ENAMETOOLONG, open(name, O_WRONLY | O_CREAT, 0644));
    name[241] = 0;
    FAILS(ENAMETOOLONG, open(name, O_RDONLY));
    FAILS(ENAMETOOLONG, mkdir(name, 0755));
    FAILS(ENAMETOOLONG, stat(name, &(struct stat){0}));
    close(make("a", "x"));
    FAILS(ENAMETOOLONG, rename("a", name));
    FAILS(ENAMETOOLONG, link("a", name));
    WORKS(unlink("a"));
}

static long links_of(int fd) {
    struct stat it;
    return fstat(fd, &it) ? -1 : (long)it.st_nlink;
}

static void deleted_while_open(void) {
    char bytes[8] = {0}, again[64];
    int fd = make("a", "kept");
    WORKS(unlink("a"));
    FAILS(ENOENT, stat("a", &(struct stat){0}));
    IS(0, links_of(fd));
    snprintf(again, sizeof again, "/proc/self/fd/%d", fd);
    FAILS(ENOENT, linkat(AT_FDCWD, again, AT_FDCWD, "b", AT_SYMLINK_FOLLOW));
    IS(1, has(again, "kept"));
    IS(4, pread(fd, bytes, 8, 0));
    IS(0, memcmp(bytes, "kept", 4));
    IS(4, pwrite(fd, "more", 4, 4));
    WORKS(fchmod(fd, 0644));
    WORKS(ftruncate(fd, 2));
    IS(2, pread(fd, bytes, 8, 0));
    close(fd);
    fd = make("a", "old");
    close(make("b", "new"));
    WORKS(rename("b", "a"));
    IS(0, links_of(fd));
    IS(3, pread(fd, bytes, 8, 0));
    IS(0, memcmp(bytes, "old", 3));
    close(fd);
    IS(1, has("a", "new"));
    WORKS(unlink("a"));
    WORKS(mkdir("d", 0755));
    fd = make("d/a", "kept");
    int dir = open("d", O_RDONLY | O_DIRECTORY);
    WORKS(unlink("d/a"));
    WORKS(rmdir("d"));
    FAILS(ENOENT, openat(dir, "a", O_WRONLY | O_CREAT, 0644));
    IS(0, links_of(dir));
    close(dir);
    IS(4, pread(fd, bytes, 8, 0));
    close(fd);
}

/* A file is read through its descriptor after its directory and a directory above that got other
 * names. */
static void renamed_while_open(void) {
    char bytes[8] = {0};
    WORKS(mkdir("d", 0755));
    WORKS(mkdir("d/e", 0755));
    int fd = make("d/e/a", "one");
    WORKS(rename("d/e", "f"));
    WORKS(rename("d", "f/d"));
    WORKS(rename("f", "g"));
    IS(3, pwrite(fd, "two", 3, 3));
    IS(6, pread(fd, bytes, 8, 0));
    IS(1, has("g/a", "onetwo"));
    WORKS(rename("g/a", "g/d/b"));
    IS(3, pwrite(fd, "ONE", 3, 0));
    IS(1, has("g/d/b", "ONEtwo"));
    close(fd);
    WORKS(unlink("g/d/b"));
    WORKS(rmdir("g/d"));
    WORKS(rmdir("g"));
}

/* ---- what version 2 does not keep, and version 3 does */

static void before_version_3(void) {
    struct stat it;
    struct timespec when[2] = {{1000, 0}, {1000, 0}};
    close(make("a", "x"));
    WORKS(chmod("a", 0644));
    FAILS(EPERM, chmod("a", 0600));
    WORKS(chown("a", getuid(), getgid()));
    FAILS(EPERM, chown("a", getuid() + 1, (gid_t)-1));
    FAILS(EPERM, symlink("a", "s"));
    WORKS(utimensat(AT_FDCWD, "a", when, 0));
    WORKS(stat("a", &it));
    IS(1000, it.st_mtime);
    WORKS(rename("a", "b"));
    WORKS(stat("b", &it));
    IS(1000, it.st_mtime);
    close(make("b", "y"));
    WORKS(stat("b", &it));
    IS(1, it.st_mtime > time(NULL) - 10);
    WORKS(unlink("b"));
}

static struct stat look(const char *path) {
    struct stat it = {0};
    if (lstat(path, &it)) it.st_mode = 0;
    return it;
}

static long mode_of(const char *path) {
    return look(path).st_mode & 07777;
}

static void modes(void) {
    umask(027);
    close(open("a", O_WRONLY | O_CREAT, 0666));
    IS(0640, mode_of("a"));
    WORKS(mknod("b", S_IFREG | 0600, 0));
    IS(0600, mode_of("b"));
    WORKS(mkdir("d", 0777));
    IS(0750, mode_of("d"));
    IS(S_IFDIR, look("d").st_mode & S_IFMT);
    umask(022);
    for (unsigned mode = 0; mode <= 07777; mode += 0111) {
        WORKS(chmod("a", mode));
        IS(mode, mode_of("a"));
    }
    WORKS(chmod("d", 01777));
    IS(01777, mode_of("d"));
    WORKS(chmod("a", 07777));
    WORKS(rename("a", "d/a"));
    IS(07777, mode_of("d/a"));
    IS(S_IFREG, look("d/a").st_mode & S_IFMT);
    WORKS(unlink("b"));
    WORKS(unlink("d/a"));
    WORKS(rmdir("d"));
    int fd = open("a", O_RDWR | O_CREAT | O_EXCL, 0);
    IS(1, write(fd, "x", 1));
    close(fd);
    IS(0, mode_of("a"));
    IS(1, look("a").st_size);
    WORKS(unlink("a"));
}

static void owners(void) {
    close(make("a", "x"));
    IS(getuid(), look("a").st_uid);
    IS(getegid(), look("a").st_gid);
    WORKS(chown("a", (uid_t)-1, (gid_t)-1));
    if (getuid() == 0) {
        WORKS(chown("a", 1000, 1001));
        IS(1000, look("a").st_uid);
        IS(1001, look("a").st_gid);
        WORKS(chown("a", (uid_t)-1, (1 << 24) - 1));
        IS(1000, look("a").st_uid);
        IS((1 << 24) - 1, look("a").st_gid);
        FAILS(EOVERFLOW, chown("a", 1 << 24, (gid_t)-1));
        FAILS(EOVERFLOW, chown("a", (uid_t)-1, 1 << 24));
        WORKS(mkdir("d", 0755));
        WORKS(chown("d", 5, 6));
        WORKS(chmod("d", 02775));
        WORKS(mkdir("d/e", 0755));
        IS(02755, mode_of("d/e"));
        IS(6, look("d/e").st_gid);
        close(make("d/e/a", "x"));
        IS(6, look("d/e/a").st_gid);
        IS(0, look("d/e/a").st_uid);
        WORKS(symlink("a", "d/s"));
        IS(6, look("d/s").st_gid);
        WORKS(lchown("d/s", 7, 8));
        IS(7, look("d/s").st_uid);
        IS(0, look("d/e/a").st_uid);
        WORKS(unlink("d/s"));
        WORKS(unlink("d/e/a"));
        WORKS(rmdir("d/e"));
        WORKS(rmdir("d"));
    }
    WORKS(unlink("a"));
}

static int set_time(const char *path, time_t seconds, long nanoseconds) {
    struct timespec when[2] = {{0, UTIME_OMIT}, {seconds, nanoseconds}};
    return utimensat(AT_FDCWD, path, when, AT_SYMLINK_NOFOLLOW);
}

static void has_time(const char *path, time_t seconds, long nanoseconds, int line) {
    struct stat it = look(path);
    is((long)seconds, (long)it.st_mtim.tv_sec, path, line);
    is(nanoseconds, it.st_mtim.tv_nsec, path, line);
}

static int is_new(const char *path) {
    return labs((long)(look(path).st_mtime - time(NULL))) < 10;
}

static void times(void) {
    static const struct timespec whens[] = {
        {1000000000, 123456789}, {1, 0},           {0, 1},
        {-1, 999999999},         {-1000000000, 5}, {9000000000, 0}};
    close(make("a", "x"));
    WORKS(mkdir("d", 0755));
    for (size_t i = 0; i < sizeof whens / sizeof *whens; i++) {
        WORKS(set_time("a", whens[i].tv_sec, whens[i].tv_nsec));
        has_time("a", whens[i].tv_sec, whens[i].tv_nsec, __LINE__);
        WORKS(set_time("d", whens[i].tv_sec, whens[i].tv_nsec));
        has_time("d", whens[i].tv_sec, whens[i].tv_nsec, __LINE__);
    }
    WORKS(set_time("a", 0, 0)); /* README.md: 1 nanosecond */
    has_time("a", 0, 1, __LINE__);
    WORKS(set_time("a", 20000000000, 5));
    IS(1, look("a").st_mtime > 9000000000);
    WORKS(set_time("a", 0, UTIME_OMIT));
    IS(1, look("a").st_mtime > 9000000000);
    WORKS(set_time("a", 0, UTIME_NOW));
    IS(1, is_new("a"));
    WORKS(set_time("d", 3000, 9));
    WORKS(mkdir("d/e", 0755));
    IS(1, is_new("d"));
    WORKS(set_time("d", 3000, 9));
    WORKS(rmdir("d/e"));
    IS(1, is_new("d"));
    WORKS(rmdir("d"));
    WORKS(unlink("a"));
}

static void times_of_names(void) {
    close(make("a", "x"));
    WORKS(mkdir("d", 0755));
    WORKS(set_time("a", 1000, 7));
    WORKS(rename("a", "d/b"));
    has_time("d/b", 1000, 7, __LINE__);
    IS(1, is_new("d"));
    WORKS(chmod("d/b", 0600));
    has_time("d/b", 1000, 7, __LINE__);
    WORKS(link("d/b", "c"));
    has_time("c", 1000, 7, __LINE__);
    int fd = open("c", O_WRONLY);
    IS(1, write(fd, "y", 1));
    close(fd);
    IS(1, is_new("d/b"));
    WORKS(set_time("d/b", 2000, 8));
    has_time("c", 2000, 8, __LINE__);
    WORKS(truncate("c", 0));
    IS(1, is_new("d/b"));
    WORKS(unlink("c"));
    WORKS(unlink("d/b"));
    WORKS(rmdir("d"));
}

static int leads_to(const char *path, const char *target) {
    char bytes[4200];
    ssize_t n = readlink(path, bytes, sizeof bytes);
    return n == (ssize_t)strlen(target) && memcmp(bytes, target, (size_t)n) == 0 &&
           look(path).st_size == n && look(path).st_mode == (S_IFLNK | 0777);
}

static void symbolic_links(void) {
    char target[4097];
    close(make("a", "text"));
    WORKS(mkdir("d", 0755));
    WORKS(symlink("a", "s"));
    IS(1, leads_to("s", "a"));
    IS(1, has("s", "text"));
    FAILS(EEXIST, symlink("b", "s"));
    FAILS(EEXIST, symlink("b", "d"));
    FAILS(ENOENT, symlink("b", "none/s"));
    FAILS(ENOTDIR, symlink("b", "a/s"));
    FAILS(EINVAL, readlink("a", target, sizeof target));
    FAILS(ELOOP, open("s", O_RDONLY | O_NOFOLLOW));
    WORKS(symlink("../a", "d/up"));
    IS(1, has("d/up", "text"));
    WORKS(symlink("d", "to-d"));
    IS(1, has("to-d/up", "text"));
    WORKS(symlink("none", "dangling"));
    FAILS(ENOENT, open("dangling", O_RDONLY));
    WORKS(symlink("loop", "loop"));
    FAILS(ELOOP, open("loop", O_RDONLY));
    memset(target, 't', sizeof target);
    target[4095] = 0;
    WORKS(symlink(target, "long"));
    IS(1, leads_to("long", target));
    WORKS(link("s", "t"));
    IS(1, leads_to("t", "a"));
    IS(2, look("s").st_nlink);
    WORKS(rename("s", "t"));
    WORKS(rename("dangling", "s"));
    IS(1, leads_to("s", "none"));
    WORKS(set_time("to-d", 1000, 1));
    has_time("to-d", 1000, 1, __LINE__);
    IS(1, is_new("d"));
    WORKS(unlink("to-d"));
    for (const char *const *it = (const char *const[]){"a", "s", "t", "loop", "long", "d/up", NULL};
         *it; it++)
        unlink(*it);
    WORKS(rmdir("d"));
}

static void from_version_3_on(void) {
    modes();
    owners();
    times();
    times_of_names();
    symbolic_links();
}

/* A close returns before the mount has freed the blocks of a deleted file. */
static long free_blocks(long wanted) {
    struct statvfs it = {0};
    for (int i = 0; i < 100; i++) {
        WORKS(statvfs(".", &it));
        if ((long)it.f_bfree == wanted) break;
        usleep(10000);
    }
    return (long)it.f_bfree;
}

static void space(void) {
    struct statvfs before, after;
    static char bytes[1 << 20];
    memset(bytes, 'x', sizeof bytes);
    WORKS(statvfs(".", &before));
    IS(240, before.f_namemax);
    int fd = make("a", "");
    IS(sizeof bytes, write(fd, bytes, sizeof bytes));
    WORKS(statvfs(".", &after));
    IS(1, before.f_bfree - after.f_bfree >= 256);
    IS(1, after.f_files - after.f_ffree - (before.f_files - before.f_ffree));
    ssize_t n;
    while ((n = write(fd, bytes, sizeof bytes)) > 0) {}
    FAILS(ENOSPC, n);
    WORKS(unlink("a")); /* though it is open, and no block is free */
    close(fd);
    IS(before.f_bfree, free_blocks((long)before.f_bfree));
    WORKS(statvfs(".", &after));
    IS(before.f_files - before.f_ffree, after.f_files - after.f_ffree);
}

/* ---- other users */

/* Becomes another user in a child, whose checks are counted as failed or not. */
static void as_user(uid_t uid, gid_t gid, void (*act)(void)) {
    int status = 0;
    pid_t pid = fork();
    if (pid == 0) {
        if (setgroups(0, NULL) || setgid(gid) || setuid(uid)) _exit(1);
        act();
        _exit(wrong);
    }
    waitpid(pid, &status, 0);
    IS(0, status);
}

static void owner_of_a(void) {
    IS(1, has("a", "text"));
    WORKS(chmod("a", 0640));
    FAILS(EPERM, chown("a", 0, (gid_t)-1));
    FAILS(EACCES, open("b", O_RDONLY));
    FAILS(EPERM, chmod("b", 0644));
    FAILS(EACCES, open("new", O_WRONLY | O_CREAT, 0644));
    FAILS(EACCES, unlink("a"));
    FAILS(EACCES, symlink("a", "s"));
    FAILS(EACCES, open("closed/a", O_RDONLY));
    int fd = open("open/mine", O_WRONLY | O_CREAT, 0600);
    WORKS(fd);
    close(fd);
    IS(1000, look("open/mine").st_uid);
    IS(1001, look("open/mine").st_gid);
    FAILS(EPERM, unlink("open/root's"));
    WORKS(symlink("mine", "open/s"));
    IS(1000, look("open/s").st_uid);
}

static void in_the_group_of_a(void) {
    IS(1, has("a", "text"));
    FAILS(EACCES, open("a", O_WRONLY));
    FAILS(EACCES, open("open/mine", O_RDONLY));
    int fd = open("open/set", O_WRONLY);
    IS(1, write(fd, "x", 1));
    close(fd);
    IS(0777, mode_of("open/set")); /* a write by another user clears the set-user-ID bit */
}

static void stranger(void) {
    FAILS(EACCES, open("a", O_RDONLY));
    WORKS(access("open", W_OK));
    FAILS(EACCES, access("closed", X_OK));
}

static int others(void) {
    close(make("a", "text"));
    WORKS(chown("a", 1000, 1001));
    WORKS(chmod("a", 0600));
    close(make("b", "text"));
    WORKS(chmod("b", 0600));
    WORKS(mkdir("closed", 0700));
    close(make("closed/a", "text"));
    WORKS(mkdir("open", 0755));
    WORKS(chmod("open", 01777));
    close(make("open/root's", "text"));
    close(make("open/set", "text"));
    WORKS(chmod("open/set", 06777));
    as_user(1000, 1001, owner_of_a);
    as_user(1002, 1001, in_the_group_of_a);
    as_user(1003, 1003, stranger);
    printf("%d results of system calls\n", checks);
    return wrong;
}

/* ---- all of them */

static int calls(int version) {
    files();
    directories();
    renames();
    links();
    holes();
    holes_that_are_mapped();
    copies_of_ranges();
    long_names();
    deleted_while_open();
    renamed_while_open();
    FAILS(EOPNOTSUPP, setxattr(".", "user.x", "y", 1, 0));
    if (version < 3) before_version_3();
    else from_version_3_on();
    space();
    printf("%d results of system calls\n", checks);
    return wrong;
}

/* Each statx is a request to the mount, which must never run out of room in its log. */
static int looks(long count) {
    struct statx it;
    long failed = 0;
    int fd = make("looked-at", "x");
    for (long i = 0; i < count; i++)
        failed += statx(fd, "", AT_EMPTY_PATH | AT_STATX_FORCE_SYNC, STATX_ALL, &it) != 0;
    close(fd);
    if (failed) fprintf(stderr, "%ld of %ld calls of statx failed\n", failed, count);
    return failed != 0;
}

static double seconds(void) {
    struct timespec it;
    clock_gettime(CLOCK_MONOTONIC, &it);
    return (double)it.tv_sec + (double)it.tv_nsec / 1e9;
}

static int many(long count) {
    static char bytes[1000], name[32];
    int fd = -1;
    double began = seconds();
    memset(bytes, 'x', sizeof bytes);
    for (long i = 0; i < count; i++) {
        if (fd >= 0) close(fd);
        snprintf(name, sizeof name, "f%ld", i);
        fd = open(name, O_WRONLY | O_CREAT | O_EXCL, 0644);
        if (fd < 0 || write(fd, bytes, sizeof bytes) != sizeof bytes) return perror(name), 1;
    }
    double made = seconds();
    if (fsync(fd)) return perror("fsync"), 1;
    printf("%ld files: %.3f s; fsync: %.3f s\n", count, made - began, seconds() - made);
    return 0;
}

/* Starts a process that acts until it ends or is killed. */
static pid_t starts(int (*act)(long), long count) {
    pid_t pid = fork();
    if (pid == 0) _exit(act(count));
    return pid;
}

/* One of the processes keeps its descriptor, and the other one opens the file for each line. */
static int append_by_a(long count) {
    int fd = open("a", O_WRONLY | O_APPEND);
    for (long i = 0; i < count; i++)
        if (write(fd, "line by a\n", 10) != 10) return 1;
    return 0;
}

static int append_by_b(long count) {
    for (long i = 0; i < count; i++) {
        int fd = open("b", O_WRONLY | O_APPEND);
        if (write(fd, "line by b\n", 10) != 10) return 1;
        close(fd);
    }
    return 0;
}

static int appends(long count) {
    char line[10];
    long by_a = 0, by_b = 0;
    close(make("a", ""));
    WORKS(link("a", "b"));
    pid_t pids[] = {starts(append_by_a, count), starts(append_by_b, count)};
    for (size_t i = 0; i < 2; i++) {
        int status = 1;
        waitpid(pids[i], &status, 0);
        IS(0, status);
    }
    int fd = open("a", O_RDONLY);
    while (read(fd, line, 10) == 10) {
        by_a += memcmp(line, "line by a\n", 10) == 0;
        by_b += memcmp(line, "line by b\n", 10) == 0;
    }
    close(fd);
    IS(20 * count, size_of("b"));
    IS(count, by_a);
    IS(count, by_b);
    return wrong;
}

static int replace(long count) {
    (void)count;
    for (;;) {
        close(make("new", "text"));
        if (rename("new", "current")) return 1;
    }
}

/* The name is always there. */
static int opens(long count) {
    long failed = 0;
    close(make("current", "text"));
    pid_t pid = starts(replace, 0);
    for (long i = 0; i < count; i++) failed += !has("current", "text");
    IS(0, failed);
    kill(pid, SIGKILL);
    waitpid(pid, NULL, 0);
    unlink("new");
    return wrong;
}

/* A file of `size` bytes, all of one value. */
static int make_whole(const char *path, int value, long size) {
    char bytes[65536];
    memset(bytes, value, sizeof bytes);
    int fd = open(path, O_RDWR | O_CREAT | O_TRUNC, 0644);
    if (fd >= 0 && write(fd, bytes, (size_t)size) != size) close(fd), fd = -1;
    return fd;
}

/* Fills the volume, up to the last byte. */
static void fill_volume(void) {
    static char bytes[1 << 20];
    int fd = open("filler", O_WRONLY | O_CREAT, 0644);
    ssize_t n = -1;
    memset(bytes, 'x', sizeof bytes);
    for (size_t size = sizeof bytes; size; size = n < 0 ? size / 2 : size)
        n = write(fd, bytes, size);
    FAILS(ENOSPC, n);
    close(fd);
}

static void numbered(char name[32], const char *kind, long number) {
    snprintf(name, 32, "%s%ld", kind, number);
}

/* Whatever is open was opened when there were free blocks: then no deletion fails. */
static int removes(long count) {
    char name[32], bytes[8];
    int fds[4096];
    for (long i = 0; i < count; i++) {
        numbered(name, "f", i);
        fds[i] = make(name, "text");
        WORKS(fds[i]);
    }
    fill_volume();
    for (long i = 0; i < count; i++) {
        numbered(name, "f", i);
        WORKS(unlink(name));
    }
    for (long i = 0; i < count; i++) IS(4, pread(fds[i], bytes, 8, 0));
    for (long i = 0; i < count; i++) IS(0, links_of(fds[i]));
    for (long i = 0; i < count; i++) close(fds[i]);
    WORKS(unlink("filler"));
    return wrong;
}

static int replaces(long size) {
    close(make_whole("current", 'a', size));
    for (int value = 'a';; value = value == 'z' ? 'a' : value + 1) {
        int old = open("current", O_RDONLY), new = make_whole("new", value, size);
        if (old < 0 || new < 0 || rename("new", "current") || (value == 'k' && fsync(new)))
            return 0;
        close(old);
        close(new);
    }
}

static int whole(long size) {
    char bytes[65536] = {0};
    int fd = open("current", O_RDONLY);
    IS(size, read(fd, bytes, sizeof bytes));
    for (long i = 1; i < size; i++) wrong |= bytes[i] != bytes[0];
    return wrong;
}

static int forgets(long count) {
    enum { FILES = 1000 };
    char name[32];
    bool can_forget = geteuid() == 0;
    for (long i = 0; i < count; i++) {
        snprintf(name, sizeof name, "f%ld", i % FILES);
        if (i < FILES || !can_forget) close(make(name, ""));
        if (!can_forget) WORKS(unlink(name));
        else WORKS(stat(name, &(struct stat){0}));
        if (can_forget && i % FILES == FILES - 1)
            WORKS(mount(NULL, ".", NULL, MS_REMOUNT | MS_NOSUID | MS_NODEV, NULL));
    }
    return wrong;
}

int main(int argc, char **argv) {
    static const struct {
        const char *name;
        int (*it)(long count);
    } counted[] = {{"looks", looks},     {"many", many},       {"appends", appends},
                   {"opens", opens},     {"forgets", forgets}, {"replaces", replaces},
                   {"removes", removes}, {"whole", whole}};
    if (argc >= 3 && chdir(argv[2]) == 0) {
        if (argc == 4 && strcmp(argv[1], "calls") == 0) return calls(atoi(argv[3]));
        if (argc == 3 && strcmp(argv[1], "others") == 0) return others();
        for (size_t i = 0; argc == 4 && i < sizeof counted / sizeof *counted; i++)
            if (strcmp(argv[1], counted[i].name) == 0) return counted[i].it(atol(argv[3]));
    }
    fprintf(stderr, "usage: mounted_test calls FOLDER VERSION, others FOLDER, or NAME FOLDER COUNT "
                    "(see mounted_test.c)\n");
    return 2;
}
