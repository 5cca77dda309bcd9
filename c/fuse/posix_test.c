/* posix_test.c - what POSIX and Linux say of system calls on files, on a mount or on any other file
 * system.
 *
 *     posix_test FOLDER             each case in a new folder within FOLDER
 *     posix_test FOLDER mount       the same; a case that README.md excepts has its answer there
 *     posix_test FOLDER prepare     makes what the cases of a read-only file system need
 *     posix_test FOLDER read-only   those cases, in FOLDER itself
 *
 * Prints the number of cases, and a line for each that differs. The status is 1 if one does. Only
 * root runs the cases of other users. Without `mount`, all of this has to hold on tmpfs: a case
 * that differs there is wrong itself.
 */
#define _GNU_SOURCE
#include <dirent.h>
#include <errno.h>
#include <fcntl.h>
#include <ftw.h>
#include <grp.h>
#include <limits.h>
#include <stdbool.h>
#include <stdio.h>
#include <stdlib.h>
#include <string.h>
#include <sys/mman.h>
#include <sys/socket.h>
#include <sys/stat.h>
#include <sys/un.h>
#include <sys/xattr.h>
#include <time.h>
#include <unistd.h>

enum { USER = 1000, OTHER = 1001, NAME = 64 };

static char top[PATH_MAX];
static uid_t self; /* who runs this */
static long cases, differ;
static bool on_mount, case_differs;

/* ---- cases */

/* A case is one call in a new folder, whose errno is as wanted (0: it succeeds). */
#define CASE(wanted, call) AFTER(0, wanted, call)

/* The same after a call that has to succeed. */
#define AFTER(first, wanted, call) BY(self, first, wanted, call)

/* The same by another user, after a call by root. A file that the call opens is closed with the
 * case. */
#define BY(user, first, wanted, call)                                                              \
    do {                                                                                           \
        begin_case();                                                                              \
        is(0, (first) < 0 ? errno : 0, #first, __LINE__);                                          \
        become(user);                                                                              \
        is(wanted, (call) == -1 ? errno : 0, #call, __LINE__);                                     \
        end_case();                                                                                \
    } while (0)

/* Within a case */
#define WORKS(call) is(0, (call) == -1 ? errno : 0, #call, __LINE__)
#define FAILS(why, call) is(why, (call) == -1 ? errno : 0, #call, __LINE__)
#define IS(wanted, found) is((long)(wanted), (long)(found), #found, __LINE__)

static void is(long wanted, long found, const char *call, int line) {
    if (wanted == found) return;
    printf("posix_test.c:%d: %s: %ld, expected %ld\n", line, call, found, wanted);
    case_differs = true;
}

/* What POSIX says, or what README.md says of a mount. */
static long or_on_mount(long usual, long documented) {
    return on_mount ? documented : usual;
}

static void stop(const char *what) {
    perror(what);
    exit(2);
}

static void become(uid_t user) {
    if (geteuid() == user) return;
    if (geteuid() != self && seteuid(self)) stop("seteuid");
    if (setegid(user) || seteuid(user)) stop("seteuid");
}

static int make(const char *path, const char *text) {
    int fd = open(path, O_RDWR | O_CREAT | O_TRUNC, 0644);
    if (fd >= 0 && write(fd, text, strlen(text)) != (ssize_t)strlen(text)) errno = EIO, fd = -1;
    return fd;
}

/* What each case finds in its folder. */
static void prepare(void) {
    close(make("f", "text"));
    close(make("g", "other"));
    close(open("run", O_WRONLY | O_CREAT, 0755));
    if (mkdir("d", 0755) || mkdir("full", 0755) || symlink("f", "s") || symlink("d", "sd"))
        stop("prepare");
    if (symlink("none", "dangling") || symlink("loop", "loop")) stop("prepare");
    close(make("full/x", "x"));
}

static int remove_one(const char *path, const struct stat *st, int kind, struct FTW *at) {
    (void)st, (void)kind, (void)at;
    return remove(path);
}

static void begin_case(void) {
    case_differs = false;
    if (chdir(top) || mkdir("case", 0777) || chmod("case", 0777) || chdir("case")) stop("case");
    prepare();
}

static void count_case(void) {
    cases++;
    differ += case_differs;
    case_differs = false;
}

/* A case leaves its descriptors open, and its folder to be removed. */
static void end_case(void) {
    become(self);
    umask(022);
    close_range(3, ~0U, 0);
    if (chdir(top) || nftw("case", remove_one, 16, FTW_DEPTH | FTW_PHYS))
        stop("a case is not removed");
    count_case();
}

/* ---- what a file is */

static struct stat look(const char *path) {
    struct stat it = {0};
    if (lstat(path, &it)) it.st_mode = 0;
    return it;
}

static long mode_of(const char *path) {
    return look(path).st_mode & 07777;
}

static bool has(const char *path, const char *text) {
    char bytes[NAME] = {0};
    int fd = open(path, O_RDONLY);
    ssize_t n = read(fd, bytes, sizeof bytes);
    close(fd);
    return n == (ssize_t)strlen(text) && memcmp(bytes, text, (size_t)n) == 0;
}

static int set_time(const char *path, time_t seconds, long nanoseconds) {
    struct timespec when[2] = {{seconds, nanoseconds}, {seconds, nanoseconds}};
    return utimensat(AT_FDCWD, path, when, AT_SYMLINK_NOFOLLOW);
}

static bool is_new(const char *path) {
    return labs((long)(look(path).st_mtime - time(NULL))) < 10;
}

/* A name of so many bytes */
static const char *name_of(size_t length) {
    static char name[PATH_MAX + 2];
    memset(name, 'n', length);
    name[length] = 0;
    return name;
}

/* A path to `f` of so many bytes: ././ .. f, or .//./ .. f */
static const char *path_of(size_t length) {
    static char path[PATH_MAX + 2];
    for (size_t i = 0; i < length; i++) path[i] = i % 2 ? '/' : '.';
    if (length % 2 == 0) path[length - 2] = '/';
    path[length - 1] = 'f';
    path[length] = 0;
    return path;
}

static int stat_of(const char *path) {
    return stat(path, &(struct stat){0});
}

static int lstat_of(const char *path) {
    return lstat(path, &(struct stat){0});
}

/* ---- one call each: open, creat, read, write */

static void opens(void) {
    CASE(0, open("f", O_RDWR));
    CASE(0, open("new", O_WRONLY | O_CREAT, 0644));
    CASE(0, open("new", O_WRONLY | O_CREAT | O_EXCL, 0644));
    CASE(ENOENT, open("none", O_RDONLY));
    CASE(ENOENT, open("none/a", O_WRONLY | O_CREAT, 0644));
    CASE(ENOENT, open("", O_RDONLY));
    CASE(ENOENT, open("dangling", O_RDONLY));
    CASE(0, open("dangling", O_WRONLY | O_CREAT, 0644));
    CASE(ENOTDIR, open("f/a", O_RDONLY));
    CASE(ENOTDIR, open("f/a", O_WRONLY | O_CREAT, 0644));
    CASE(ENOTDIR, open("f", O_RDONLY | O_DIRECTORY));
    CASE(ENOTDIR, open("f/", O_RDONLY));
    CASE(ENOTDIR, open("f/.", O_RDONLY));
    CASE(0, open("d", O_RDONLY | O_DIRECTORY));
    CASE(0, open("d/", O_RDONLY));
    CASE(0, open("sd", O_RDONLY | O_DIRECTORY));
    CASE(EISDIR, open("d", O_WRONLY));
    CASE(EISDIR, open("d", O_RDWR));
    CASE(EISDIR, open("d", O_RDONLY | O_CREAT, 0644));
    CASE(EISDIR, open("d", O_RDONLY | O_TRUNC));
    CASE(EISDIR, open("new/", O_WRONLY | O_CREAT, 0644));
    CASE(EEXIST, open("f", O_WRONLY | O_CREAT | O_EXCL, 0644));
    CASE(EEXIST, open("d", O_RDONLY | O_CREAT | O_EXCL, 0644));
    CASE(EEXIST, open("s", O_WRONLY | O_CREAT | O_EXCL, 0644));
    CASE(EEXIST, open("dangling", O_WRONLY | O_CREAT | O_EXCL, 0644));
    CASE(ELOOP, open("s", O_RDONLY | O_NOFOLLOW));
    CASE(ELOOP, open("loop", O_RDONLY));
    CASE(ELOOP, open("loop/a", O_RDONLY));
    CASE(0, open("s", O_PATH | O_NOFOLLOW));
    CASE(ENOTDIR, open("sd", O_RDONLY | O_DIRECTORY | O_NOFOLLOW));
    CASE(0, open(name_of(240), O_WRONLY | O_CREAT, 0644));
    CASE(or_on_mount(0, ENAMETOOLONG), open(name_of(241), O_WRONLY | O_CREAT, 0644));
    CASE(or_on_mount(0, ENAMETOOLONG), open(name_of(255), O_WRONLY | O_CREAT, 0644));
    CASE(ENAMETOOLONG, open(name_of(256), O_WRONLY | O_CREAT, 0644));
    CASE(ENAMETOOLONG, open(name_of(256), O_RDONLY));
    CASE(0, open(path_of(PATH_MAX - 1), O_RDONLY));
    CASE(ENAMETOOLONG, open(path_of(PATH_MAX), O_RDONLY));
    CASE(EFAULT, open((const char *)1, O_RDONLY)); /* no address of this process */
    CASE(0, creat("f", 0644));
    CASE(EISDIR, creat("d", 0644));
    CASE(ENOTDIR, openat(open("f", O_RDONLY), "a", O_RDONLY));
    CASE(EBADF, openat(-1, "a", O_RDONLY));
}

static void descriptors(void) {
    char bytes[8] = {0}, *volatile nowhere = (char *)1; /* volatile: the compiler would warn */
    CASE(EBADF, read(open("f", O_WRONLY), bytes, 8));
    CASE(EBADF, write(open("f", O_RDONLY), bytes, 8));
    CASE(EISDIR, read(open("d", O_RDONLY), bytes, 8));
    CASE(EBADF, write(open("d", O_RDONLY), bytes, 8));
    CASE(EBADF, write(open("f", O_PATH), bytes, 8));
    CASE(EINVAL, pread(open("f", O_RDONLY), bytes, 8, -1));
    CASE(EINVAL, pwrite(open("f", O_WRONLY), bytes, 8, -1));
    CASE(EINVAL, lseek(open("f", O_RDONLY), -1, SEEK_SET));
    CASE(EINVAL, lseek(open("f", O_RDONLY), -5, SEEK_END));
    CASE(0, lseek(open("f", O_RDONLY), 1000, SEEK_END));
    CASE(ENXIO, lseek(open("f", O_RDONLY), 4, SEEK_DATA));
    CASE(ENXIO, lseek(open("f", O_RDONLY), 5, SEEK_HOLE));
    CASE(EFAULT, write(open("f", O_WRONLY), nowhere, 8));
    CASE(0, fsync(open("f", O_RDONLY)));
    CASE(0, fdatasync(open("f", O_WRONLY)));
    CASE(0, fsync(open("d", O_RDONLY)));
    CASE(0, syncfs(open("d", O_RDONLY)));
    CASE(EBADF, fsync(-1));
    CASE(or_on_mount(0, EOPNOTSUPP), fallocate(open("f", O_WRONLY), 0, 0, 8192));
    CASE(EBADF, fallocate(open("f", O_RDONLY), 0, 0, 8192));
}

/* ---- unlink, rmdir, mkdir */

static void removals(void) {
    CASE(0, unlink("f"));
    CASE(0, unlink("s"));
    CASE(0, unlink("dangling"));
    CASE(0, unlink("loop"));
    CASE(ENOENT, unlink("none"));
    CASE(ENOENT, unlink(""));
    CASE(ENOENT, unlink("none/a"));
    CASE(ENOENT, unlink("d/none"));
    CASE(EISDIR, unlink("d"));
    CASE(EISDIR, unlink("d/"));
    CASE(EISDIR, unlink("."));
    CASE(EISDIR, unlink("d/.."));
    CASE(ENOTDIR, unlink("f/"));
    CASE(ENOTDIR, unlink("f/a"));
    CASE(ENOTDIR, unlink("sd/"));
    CASE(ELOOP, unlink("loop/a"));
    CASE(ENAMETOOLONG, unlink(name_of(256)));
    CASE(ENOENT, unlink(name_of(240)));
    CASE(0, rmdir("d"));
    CASE(0, rmdir("d/"));
    CASE(ENOTEMPTY, rmdir("full"));
    CASE(ENOTEMPTY, rmdir("full/"));
    CASE(ENOENT, rmdir("none"));
    CASE(ENOENT, rmdir("none/a"));
    CASE(ENOTDIR, rmdir("f"));
    CASE(ENOTDIR, rmdir("f/a"));
    CASE(ENOTDIR, rmdir("sd"));
    CASE(ENOTDIR, rmdir("sd/"));
    CASE(ENOTDIR, rmdir("dangling"));
    CASE(EINVAL, rmdir("d/."));
    CASE(EINVAL, rmdir("."));
    CASE(ENOTEMPTY, rmdir("d/.."));
    CASE(ELOOP, rmdir("loop/a"));
    CASE(ENAMETOOLONG, rmdir(name_of(256)));
    CASE(0, unlinkat(AT_FDCWD, "d", AT_REMOVEDIR));
    CASE(ENOTDIR, unlinkat(AT_FDCWD, "f", AT_REMOVEDIR));
    CASE(EINVAL, unlinkat(AT_FDCWD, "f", 1 << 30));
}

static void directories(void) {
    CASE(0, mkdir("new", 0755));
    CASE(0, mkdir("new/", 0755));
    CASE(ENOENT, mkdir("new/.", 0755));
    CASE(EEXIST, mkdir("d/.", 0755));
    CASE(EEXIST, mkdir(".", 0755));
    CASE(EEXIST, mkdir("d/..", 0755));
    CASE(EEXIST, mkdir("d", 0755));
    CASE(EEXIST, mkdir("f", 0755));
    CASE(EEXIST, mkdir("s", 0755));
    CASE(EEXIST, mkdir("dangling", 0755));
    CASE(ENOENT, mkdir("none/a", 0755));
    CASE(ENOENT, mkdir("", 0755));
    CASE(ENOTDIR, mkdir("f/a", 0755));
    CASE(ELOOP, mkdir("loop/a", 0755));
    CASE(0, mkdir(name_of(240), 0755));
    CASE(or_on_mount(0, ENAMETOOLONG), mkdir(name_of(255), 0755));
    CASE(ENAMETOOLONG, mkdir(name_of(256), 0755));
    CASE(0, mkdir("sd/a", 0755));
}

/* ---- rename */

static void renames(void) {
    CASE(0, rename("f", "new"));
    CASE(0, rename("f", "g"));
    CASE(0, rename("f", "d/f"));
    CASE(0, rename("f", "f"));
    CASE(0, rename("d", "d"));
    CASE(0, rename("full", "d"));
    CASE(0, rename("full", "d/"));
    CASE(0, rename("full/", "new/"));
    CASE(0, rename("s", "f"));
    CASE(0, rename("f", "dangling"));
    CASE(ENOENT, rename("none", "new"));
    CASE(ENOENT, rename("f", "none/a"));
    CASE(ENOENT, rename("", "new"));
    CASE(ENOENT, rename("f", ""));
    CASE(ENOTDIR, rename("f/a", "new"));
    CASE(ENOTDIR, rename("f", "g/a"));
    CASE(ENOTDIR, rename("d", "f"));
    CASE(ENOTDIR, rename("d", "s"));
    CASE(ENOTDIR, rename("d", "sd"));
    CASE(EISDIR, rename("f", "d"));
    CASE(EISDIR, rename("s", "d"));
    CASE(ENOTDIR, rename("f", "new/"));
    CASE(ENOTDIR, rename("f/", "new"));
    CASE(ENOTDIR, rename("sd/", "new"));
    CASE(ENOTEMPTY, rename("d", "full"));
    CASE(EISDIR, rename("f", "full"));
    CASE(EINVAL, rename("d", "d/a"));
    AFTER(mkdir("d/a", 0755), EINVAL, rename("d", "d/a/b"));
    AFTER(mkdir("d/a", 0755), ENOTEMPTY, rename("d/a", "d"));
    CASE(ENOTEMPTY, rename("full/x", "full"));
    CASE(EBUSY, rename("d/.", "new"));
    CASE(EBUSY, rename("d/..", "new"));
    CASE(EBUSY, rename("d", "full/."));
    CASE(EBUSY, rename(".", "new"));
    CASE(ELOOP, rename("loop/a", "new"));
    CASE(ELOOP, rename("f", "loop/a"));
    CASE(0, rename("f", name_of(240)));
    CASE(or_on_mount(0, ENAMETOOLONG), rename("f", name_of(255)));
    CASE(ENAMETOOLONG, rename("f", name_of(256)));
    CASE(ENAMETOOLONG, rename(name_of(256), "new"));
    CASE(EXDEV, rename("f", "/proc/f"));
    CASE(EEXIST, renameat2(AT_FDCWD, "f", AT_FDCWD, "g", RENAME_NOREPLACE));
    CASE(EEXIST, renameat2(AT_FDCWD, "f", AT_FDCWD, "f", RENAME_NOREPLACE));
    CASE(0, renameat2(AT_FDCWD, "f", AT_FDCWD, "new", RENAME_NOREPLACE));
    CASE(or_on_mount(0, EINVAL), renameat2(AT_FDCWD, "f", AT_FDCWD, "d", RENAME_EXCHANGE));
    CASE(EINVAL, renameat2(AT_FDCWD, "f", AT_FDCWD, "g", RENAME_EXCHANGE | RENAME_NOREPLACE));
}

/* ---- link, symlink, readlink, mkfifo */

static void links(void) {
    CASE(0, link("f", "new"));
    CASE(0, link("f", "d/f"));
    CASE(0, link("s", "new"));
    CASE(0, linkat(AT_FDCWD, "s", AT_FDCWD, "new", AT_SYMLINK_FOLLOW));
    CASE(EPERM, link("d", "new"));
    CASE(EEXIST, link("f", "g"));
    CASE(EEXIST, link("f", "f"));
    CASE(EEXIST, link("f", "d"));
    CASE(EEXIST, link("f", "dangling"));
    CASE(ENOENT, link("none", "new"));
    CASE(ENOENT, link("f", "none/a"));
    CASE(ENOENT, link("f", "new/"));
    CASE(ENOTDIR, link("f/a", "new"));
    CASE(ENOTDIR, link("f/", "new"));
    CASE(ENOTDIR, link("f", "g/a"));
    CASE(ELOOP, link("f", "loop/a"));
    CASE(ENAMETOOLONG, link("f", name_of(256)));
    CASE(or_on_mount(0, ENAMETOOLONG), link("f", name_of(255)));
    CASE(EXDEV, link("/proc/version", "new"));
    CASE(EINVAL, linkat(AT_FDCWD, "f", AT_FDCWD, "new", 1 << 30));
}

static void symbolic_links(void) {
    char bytes[8];
    CASE(0, symlink("any", "new"));
    CASE(0, symlink(name_of(PATH_MAX - 1), "new"));
    CASE(ENAMETOOLONG, symlink(name_of(PATH_MAX), "new"));
    CASE(ENOENT, symlink("", "new"));
    CASE(ENOENT, symlink("any", ""));
    CASE(EEXIST, symlink("any", "f"));
    CASE(EEXIST, symlink("any", "d"));
    CASE(EEXIST, symlink("any", "dangling"));
    CASE(EEXIST, symlink("any", "."));
    CASE(ENOENT, symlink("any", "none/a"));
    CASE(ENOENT, symlink("any", "new/"));
    CASE(ENOTDIR, symlink("any", "f/a"));
    CASE(ELOOP, symlink("any", "loop/a"));
    CASE(ENAMETOOLONG, symlink("any", name_of(256)));
    CASE(0, readlink("s", bytes, 8));
    CASE(0, readlink("loop", bytes, 8));
    CASE(EINVAL, readlink("f", bytes, 8));
    CASE(EINVAL, readlink("d", bytes, 8));
    CASE(EINVAL, readlink("s", bytes, 0));
    CASE(ENOENT, readlink("none", bytes, 8));
    CASE(ENOTDIR, readlink("f/a", bytes, 8));
    CASE(EINVAL, readlink("sd/", bytes, 8));
    CASE(0, stat_of("s"));
    CASE(ENOENT, stat_of("dangling"));
    CASE(0, lstat_of("dangling"));
    CASE(ELOOP, stat_of("loop"));
    CASE(ENOTDIR, stat_of("s/"));
    CASE(ENOTDIR, lstat_of("f/"));
    CASE(ENOTDIR, lstat_of("f/.."));
    CASE(ENOENT, lstat_of("none/.."));
    CASE(0, lstat_of("d/../f"));
}

static int make_socket(const char *path) {
    struct sockaddr_un at = {.sun_family = AF_UNIX};
    snprintf(at.sun_path, sizeof at.sun_path, "%s", path);
    return bind(socket(AF_UNIX, SOCK_STREAM, 0), (struct sockaddr *)&at, sizeof at);
}

static void special_files(void) {
    CASE(or_on_mount(0, EPERM), mkfifo("new", 0644));
    CASE(EEXIST, mkfifo("f", 0644));
    CASE(ENOENT, mkfifo("none/a", 0644));
    CASE(ENOTDIR, mkfifo("f/a", 0644));
    CASE(ENAMETOOLONG, mkfifo(name_of(256), 0644));
    CASE(0, mknod("new", S_IFREG | 0644, 0));
    CASE(EEXIST, mknod("f", S_IFREG | 0644, 0));
    CASE(EPERM, mknod("new", S_IFDIR | 0755, 0));
    CASE(or_on_mount(0, EPERM), make_socket("new"));
    CASE(EADDRINUSE, make_socket("f"));
}

/* ---- truncate, chmod, chown, utimensat */

static void sizes(void) {
    CASE(0, truncate("f", 0));
    CASE(0, truncate("s", 1000000));
    CASE(EINVAL, truncate("f", -1));
    CASE(EISDIR, truncate("d", 0));
    CASE(ENOENT, truncate("none", 0));
    CASE(ENOENT, truncate("dangling", 0));
    CASE(ENOTDIR, truncate("f/a", 0));
    CASE(ELOOP, truncate("loop", 0));
    CASE(ENAMETOOLONG, truncate(name_of(256), 0));
    CASE(EINVAL, ftruncate(open("f", O_RDONLY), 0));
    CASE(EINVAL, ftruncate(open("f", O_WRONLY), -1));
    CASE(0, ftruncate(open("f", O_WRONLY), 5000));
    CASE(EBADF, ftruncate(-1, 0));
}

static void attributes(void) {
    static const struct timespec wrong[2] = {{1, 1000000000}, {1, -1}};
    CASE(0, chmod("f", 07777));
    CASE(0, chmod("s", 0600));
    CASE(0, fchmod(open("f", O_RDONLY), 0));
    CASE(ENOENT, chmod("none", 0600));
    CASE(ENOENT, chmod("dangling", 0600));
    CASE(ENOTDIR, chmod("f/a", 0600));
    CASE(ELOOP, chmod("loop", 0600));
    CASE(ENAMETOOLONG, chmod(name_of(256), 0600));
    CASE(EBADF, fchmod(open("f", O_PATH), 0600));
    CASE(ENOENT, chown("none", 1, 1));
    CASE(ENOENT, chown("dangling", 1, 1));
    CASE(0, lchown("dangling", (uid_t)-1, (gid_t)-1));
    CASE(ENOTDIR, chown("f/a", 1, 1));
    CASE(ELOOP, chown("loop", 1, 1));
    CASE(ENAMETOOLONG, chown(name_of(256), 1, 1));
    CASE(EINVAL, utimensat(AT_FDCWD, "f", wrong, 0));
    CASE(0, set_time("dangling", 5, 5));
    CASE(ENOENT, utimensat(AT_FDCWD, "none", NULL, 0));
    CASE(ENOTDIR, utimensat(AT_FDCWD, "f/a", NULL, 0));
    CASE(ELOOP, utimensat(AT_FDCWD, "loop", NULL, 0));
    CASE(0, futimens(open("f", O_RDONLY), NULL));
    CASE(EACCES, access("f", X_OK));
    CASE(0, access("run", X_OK));
    CASE(0, access("f", R_OK | W_OK));
}

/* ---- calls of other users */

static int give(const char *path, mode_t mode) {
    return chown(path, USER, USER) || chmod(path, mode) ? -1 : 0;
}

/* A sticky directory of root, with a file of USER and one of root */
static int make_sticky(void) {
    close(make("d/theirs", "x"));
    close(make("d/root's", "x"));
    return give("d/theirs", 0666) || chmod("d", 01777) ? -1 : 0;
}

static void permissions(void) {
    BY(USER, chmod("f", 0600), EACCES, open("f", O_RDONLY));
    BY(USER, chmod("f", 0604), 0, open("f", O_RDONLY));
    BY(USER, 0, EACCES, open("f", O_WRONLY));
    BY(USER, 0, EACCES, open("f", O_RDONLY | O_TRUNC));
    BY(USER, give("f", 0077), EACCES, open("f", O_RDONLY));
    BY(USER, chmod("full", 0700), EACCES, open("full/x", O_RDONLY));
    BY(USER, chmod("full", 0744), EACCES, stat_of("full/x"));
    BY(USER, chmod("full", 0711), 0, open("full/x", O_RDONLY));
    BY(USER, chmod("full", 0711), EACCES, open("full", O_RDONLY));
    BY(USER, 0, EACCES, open("d/a", O_WRONLY | O_CREAT, 0644));
    BY(USER, 0, 0, open("full/x", O_RDONLY | O_CREAT, 0644));
    BY(USER, 0, EACCES, mkdir("d/a", 0755));
    BY(USER, 0, EACCES, mkfifo("d/a", 0755));
    BY(USER, 0, EACCES, symlink("any", "d/a"));
    BY(USER, give("f", 0644), EACCES, link("f", "d/a"));
    BY(USER, 0, EACCES, unlink("full/x"));
    BY(USER, mkdir("d/a", 0777), EACCES, rmdir("d/a"));
    BY(USER, 0, EACCES, rename("f", "d/a"));
    BY(USER, 0, EACCES, rename("full/x", "a"));
    BY(USER, give("f", 0644), 0, rename("f", "new"));
    BY(USER, mkdir("d/a", 0755) + chmod("d", 0777), EACCES, rename("d/a", "a"));
    BY(USER, 0, EACCES, truncate("f", 0));
    BY(USER, chmod("f", 0666), 0, truncate("f", 0));
    BY(USER, 0, EPERM, chmod("f", 0666));
    BY(USER, give("f", 0600), 0, chmod("f", 0666));
    BY(USER, chmod("full", 0700), EACCES, chmod("full/x", 0666));
    BY(USER, 0, EPERM, chown("f", USER, USER));
    BY(USER, give("f", 0644), EPERM, chown("f", OTHER, (gid_t)-1));
    BY(USER, give("f", 0644), EPERM, chown("f", (uid_t)-1, OTHER));
    BY(USER, give("f", 0644), 0, chown("f", USER, USER));
    BY(USER, chmod("full", 0700), EACCES, chown("full/x", USER, USER));
    BY(USER, 0, EACCES, utimensat(AT_FDCWD, "f", NULL, 0));
    BY(USER, chmod("f", 0666), 0, utimensat(AT_FDCWD, "f", NULL, 0));
    BY(USER, chmod("f", 0666), EPERM, set_time("f", 5, 5));
    BY(USER, give("f", 0444), 0, set_time("f", 5, 5));
    BY(USER, chmod("full", 0700), EACCES, readlink("full/x", (char[8]){0}, 8));
    BY(USER, make_sticky(), EPERM, unlink("d/root's"));
    BY(USER, make_sticky(), 0, unlink("d/theirs"));
    BY(OTHER, make_sticky(), EPERM, unlink("d/theirs"));
    BY(OTHER, make_sticky(), EPERM, rename("d/theirs", "d/new"));
    BY(USER, make_sticky(), EPERM, rename("d/theirs", "d/root's"));
    BY(USER, make_sticky(), 0, rename("d/theirs", "d/new"));
    BY(OTHER, make_sticky() + mkdir("d/a", 0777), EPERM, rmdir("d/a"));
    BY(USER, make_sticky() + chown("d", USER, USER), 0, unlink("d/root's"));
}

/* A change by a user who is not root clears set-user-ID bits. */
static void clears_set_user_id(void) {
    WORKS(chmod("f", 06777));
    become(USER);
    IS(1, write(open("f", O_WRONLY), "x", 1));
    become(0);
    IS(0777, mode_of("f"));
    WORKS(chmod("f", 06777));
    become(USER);
    WORKS(truncate("f", 1));
    become(0);
    IS(0777, mode_of("f"));
    WORKS(chmod("f", 06777));
    WORKS(chown("f", 5, 6));
    IS(0777, mode_of("f"));
    IS(5, look("f").st_uid);
    IS(6, look("f").st_gid);
}

/* The owner of a file who is not in its group can't set its set-group-ID bit. */
static void refuses_set_group_id(void) {
    WORKS(chown("f", USER, OTHER));
    become(USER);
    WORKS(chmod("f", 02755));
    become(0);
    IS(0755, mode_of("f"));
}

/* ---- longer cases */

static void set_group_id_directory(void) {
    WORKS(chown("d", (uid_t)-1, 7));
    WORKS(chmod("d", 02775));
    close(make("d/a", ""));
    WORKS(mkdir("d/b", 0755));
    WORKS(symlink("a", "d/s"));
    IS(7, look("d/a").st_gid);
    IS(7, look("d/b").st_gid);
    IS(7, look("d/s").st_gid);
    IS(02755, mode_of("d/b"));
    IS(0644, mode_of("d/a"));
}

static void kept_after_unlink(void) {
    int fd = open("f", O_RDWR);
    struct stat it;
    WORKS(unlink("f"));
    FAILS(ENOENT, lstat_of("f"));
    IS(4, pwrite(fd, "more", 4, 4));
    WORKS(fstat(fd, &it));
    IS(0, it.st_nlink);
    IS(8, it.st_size);
    WORKS(ftruncate(fd, 2));
    WORKS(fchmod(fd, 0600));
    close(make("f", "new"));
    IS(2, pread(fd, (char[8]){0}, 8, 0));
    IS(1, has("f", "new"));
}

static void kept_after_rename(void) {
    int fd = open("g", O_RDONLY);
    char bytes[8] = {0};
    struct stat it;
    WORKS(rename("f", "g"));
    IS(5, read(fd, bytes, 8));
    IS(0, memcmp(bytes, "other", 5));
    WORKS(fstat(fd, &it));
    IS(0, it.st_nlink);
    IS(1, has("g", "text"));
}

static void mapped_after_unlink(void) {
    int fd = open("f", O_RDWR);
    char *map = mmap(NULL, 4096, PROT_READ | PROT_WRITE, MAP_SHARED, fd, 0);
    close(fd);
    IS(1, map != MAP_FAILED);
    WORKS(unlink("f"));
    IS(0, memcmp(map, "text", 5));
    map[0] = 'n';
    WORKS(msync(map, 4096, MS_SYNC));
    IS(0, memcmp(map, "next", 5));
    WORKS(munmap(map, 4096));
}

static void links_of_a_file(void) {
    WORKS(link("f", "a"));
    WORKS(link("a", "d/b"));
    IS(3, look("f").st_nlink);
    IS(look("f").st_ino, look("d/b").st_ino);
    WORKS(unlink("f"));
    IS(2, look("a").st_nlink);
    WORKS(rename("g", "a"));
    IS(1, look("d/b").st_nlink);
    IS(1, has("d/b", "text"));
}

static void renamed_to_its_link(void) {
    WORKS(link("f", "a"));
    WORKS(rename("f", "a"));
    IS(2, look("f").st_nlink);
    IS(look("f").st_ino, look("a").st_ino);
    WORKS(link("f", "d/a"));
    WORKS(rename("d/a", "f"));
    IS(3, look("d/a").st_nlink);
}

static void links_of_a_directory(void) {
    IS(2, look("d").st_nlink);
    WORKS(mkdir("d/a", 0755));
    IS(or_on_mount(3, 2), look("d").st_nlink);
    WORKS(rename("d/a", "full/a"));
    IS(2, look("d").st_nlink);
    IS(or_on_mount(3, 2), look("full").st_nlink);
}

static void link_of_a_deleted_file(void) {
    char path[NAME];
    snprintf(path, sizeof path, "/proc/self/fd/%d", open("f", O_RDWR));
    WORKS(unlink("f"));
    FAILS(ENOENT, linkat(AT_FDCWD, path, AT_FDCWD, "a", AT_SYMLINK_FOLLOW));
}

static void in_a_deleted_directory(void) {
    int dir = open("d", O_RDONLY | O_DIRECTORY);
    struct stat it;
    WORKS(chdir("d"));
    WORKS(rmdir("../d"));
    FAILS(ENOENT, open("a", O_WRONLY | O_CREAT, 0644));
    FAILS(ENOENT, mkdir("a", 0755));
    FAILS(ENOENT, openat(dir, "a", O_WRONLY | O_CREAT, 0644));
    FAILS(ENOENT, symlink("any", "a"));
    WORKS(fstat(dir, &it));
    IS(0, it.st_nlink);
    DIR *list = fdopendir(dir);
    errno = 0;
    IS(1, list && !readdir(list));
    if (list) closedir(list);
}

static void flags_of_open(void) {
    int fd = open("f", O_WRONLY | O_APPEND);
    IS(0, lseek(fd, 0, SEEK_SET));
    IS(1, write(fd, "1", 1));
    IS(1, write(open("f", O_WRONLY | O_APPEND), "2", 1));
    IS(1, write(fd, "3", 1));
    IS(1, has("f", "text123"));
    WORKS(open("f", O_RDONLY));
    IS(1, has("f", "text123"));
    WORKS(open("f", O_WRONLY | O_TRUNC));
    IS(0, look("f").st_size);
    IS(1, write(fd, "4", 1));
    IS(1, has("f", "4"));
    WORKS(open("g", O_WRONLY | O_CREAT, 0600));
    IS(0644, mode_of("g"));
    IS(1, has("g", "other"));
}

static void dangling_is_created(void) {
    close(make("dangling", "text"));
    IS(1, has("none", "text"));
    IS(S_IFLNK, look("dangling").st_mode & S_IFMT);
}

static void holes(void) {
    char bytes[4] = {1, 1, 1, 1};
    int fd = open("f", O_RDWR);
    WORKS(ftruncate(fd, 2));
    WORKS(ftruncate(fd, 6));
    IS(4, pread(fd, bytes, 4, 2));
    IS(0, memcmp(bytes, "\0\0\0", 4));
    IS(1, pwrite(fd, "x", 1, 100000));
    IS(100001, look("f").st_size);
    IS(4, pread(fd, bytes, 4, 50000));
    IS(0, memcmp(bytes, "\0\0\0", 4));
    IS(0, pread(fd, bytes, 4, 100001));
    IS(1, pread(fd, bytes, 4, 100000));
}

static void umask_of_new_files(void) {
    umask(077);
    WORKS(open("a", O_WRONLY | O_CREAT, 0666));
    WORKS(mkdir("b", 0777));
    IS(0600, mode_of("a"));
    IS(0700, mode_of("b"));
    umask(0);
    WORKS(open("c", O_WRONLY | O_CREAT, 0));
    IS(0, mode_of("c"));
    WORKS(mkdir("e", 01777));
    IS(01777, mode_of("e"));
    WORKS(symlink("f", "t"));
    IS(0777, mode_of("t"));
}

static void chmod_follows(void) {
    WORKS(chmod("s", 0600));
    IS(0600, mode_of("f"));
    IS(0777, mode_of("s"));
    WORKS(chmod("sd", 0700));
    IS(0700, mode_of("d"));
}

/* Linux follows 40 links. */
static void many_symbolic_links(void) {
    char from[NAME], to[NAME] = "f";
    for (int i = 1; i <= 41; i++) {
        snprintf(from, sizeof from, "s%d", i);
        WORKS(symlink(to, from));
        memcpy(to, from, sizeof to);
    }
    WORKS(stat_of("s40"));
    FAILS(ELOOP, stat_of("s41"));
}

static void many_links(void) {
    char name[NAME];
    for (int i = 0; i < 1000; i++) {
        snprintf(name, sizeof name, "d/n%d", i);
        WORKS(link("f", name));
    }
    IS(1001, look("f").st_nlink);
    WORKS(unlink("f"));
    IS(1, has("d/n0", "text"));
    IS(1000, look("d/n999").st_nlink);
}

/* A name is of any bytes but 0 and `/`. */
static void any_bytes_in_a_name(void) {
    char name[] = "d/\001";
    for (int byte = 1; byte < 256; byte++) {
        name[2] = (char)byte;
        if (byte != '/' && byte != '.') close(make(name, "x"));
        if (byte != '/' && byte != '.') IS(1, has(name, "x"));
    }
    WORKS(lstat_of("d/a"));
    WORKS(unlink("d/A"));
    FAILS(ENOENT, lstat_of("d/A"));
    WORKS(lstat_of("d/a"));
}

static void copies_a_range(void) {
    int fd = open("f", O_RDONLY);
    off_t from = 1, to = 2;
    IS(3, copy_file_range(fd, &from, open("g", O_RDWR), &to, 10, 0));
    IS(1, has("g", "otext"));
}

static void readlink_cuts(void) {
    char bytes[4] = "zzz";
    IS(3, readlink("dangling", bytes, 3));
    IS(0, memcmp(bytes, "non", 4));
    IS(4, look("dangling").st_size);
}

/* ---- times */

/* Sets the time of a directory, calls, and looks whether the directory is new. */
#define TOUCHES(wanted, path, call)                                                                \
    do {                                                                                           \
        WORKS(set_time(path, 1000, 0));                                                            \
        WORKS(call);                                                                               \
        IS(wanted, is_new(path));                                                                  \
    } while (0)

static void times_of_parents(void) {
    TOUCHES(1, "d", open("d/a", O_WRONLY | O_CREAT, 0644));
    TOUCHES(0, "d", open("d/a", O_WRONLY | O_CREAT, 0644));
    TOUCHES(0, "d", write(open("d/a", O_WRONLY), "x", 1));
    TOUCHES(1, "d", mkdir("d/b", 0755));
    TOUCHES(1, "d", rmdir("d/b"));
    TOUCHES(1, "d", link("d/a", "d/c"));
    TOUCHES(1, "d", symlink("a", "d/s"));
    TOUCHES(1, "d", unlink("d/c"));
    TOUCHES(1, "d", rename("d/a", "d/b"));
    TOUCHES(1, "full", rename("d/b", "full/b"));
    TOUCHES(1, "d", rename("full/b", "d/b"));
    TOUCHES(1, "full", rename("full/x", "d/x"));
    TOUCHES(0, "d", chmod("d/b", 0600));
    WORKS(set_time("d", 1000, 0));
    FAILS(EEXIST, mkdir("d/b", 0755));
    IS(0, is_new("d"));
}

static void times_of_files(void) {
    TOUCHES(1, "f", write(open("f", O_WRONLY), "x", 1));
    TOUCHES(1, "f", truncate("f", 100));
    TOUCHES(1, "f", open("f", O_WRONLY | O_TRUNC));
    TOUCHES(0, "f", chmod("f", 0600));
    TOUCHES(0, "f", link("f", "a"));
    TOUCHES(0, "f", rename("f", "b") || rename("b", "f") ? -1 : 0);
    TOUCHES(0, "f", read(open("f", O_RDONLY), (char[8]){0}, 8));
    TOUCHES(0, "f", write(open("f", O_WRONLY), "", 0));
    TOUCHES(1, "f", utimensat(AT_FDCWD, "f", NULL, 0));
    WORKS(set_time("f", -5, 999999999));
    IS(-5, look("f").st_mtim.tv_sec);
    IS(999999999, look("f").st_mtim.tv_nsec);
}

/* README.md: on a mount the change time is the time of the last change of the bytes. */
static void change_times(void) {
    WORKS(set_time("f", 1000, 0));
    WORKS(chmod("f", 0600));
    IS(or_on_mount(1, 0), labs((long)(look("f").st_ctime - time(NULL))) < 10);
    IS(1, write(open("f", O_WRONLY), "x", 1));
    IS(1, labs((long)(look("f").st_ctime - time(NULL))) < 10);
    WORKS(set_time("d", 1000, 0));
    WORKS(mkdir("d/a", 0755));
    IS(1, labs((long)(look("d").st_ctime - time(NULL))) < 10);
}

static void omitted_times(void) {
    struct timespec when[2] = {{5, 0}, {0, UTIME_OMIT}};
    WORKS(set_time("f", 1000, 7));
    WORKS(utimensat(AT_FDCWD, "f", when, 0));
    IS(1000, look("f").st_mtim.tv_sec);
    when[1].tv_nsec = UTIME_NOW;
    WORKS(utimensat(AT_FDCWD, "f", when, 0));
    IS(1, is_new("f"));
    WORKS(set_time("s", 2000, 1));
    IS(1, is_new("f"));
    IS(2000, look("s").st_mtime);
}

/* ---- directories that are read */

enum { MANY = 500 };

static void make_many(void) {
    char path[NAME];
    for (int i = 0; i < MANY; i++) {
        snprintf(path, sizeof path, "d/n%d", i);
        close(make(path, ""));
    }
}

/* Marks a name n0, n1, ..; false if it was there before */
static bool mark(bool *seen, const char *name) {
    int number = atoi(name + 1);
    if (*name != 'n' || number < 0 || number >= MANY || seen[number]) return *name == '.';
    seen[number] = true;
    return true;
}

static long read_all(DIR *dir, bool *seen) {
    long twice = 0;
    for (const struct dirent *it; (it = readdir(dir));) twice += !mark(seen, it->d_name);
    return twice;
}

static long count(const bool *seen, int from, int step) {
    long found = 0;
    for (int i = from; i < MANY; i += step) found += seen[i];
    return found;
}

static void reads_all_names(void) {
    bool seen[MANY] = {0};
    make_many();
    DIR *dir = opendir("d");
    IS(0, read_all(dir, seen));
    IS(MANY, count(seen, 0, 1));
    rewinddir(dir);
    memset(seen, 0, sizeof seen);
    WORKS(unlink("d/n7"));
    IS(0, read_all(dir, seen));
    IS(MANY - 1, count(seen, 0, 1));
    closedir(dir);
}

/* Each name that stays is read once, while others come and go. */
static void reads_while_names_change(void) {
    bool seen[MANY] = {0};
    char path[NAME];
    make_many();
    DIR *dir = opendir("d");
    long twice = 0;
    for (int i = 1; i < MANY; i += 2) {
        const struct dirent *it = readdir(dir);
        if (it) twice += !mark(seen, it->d_name);
        snprintf(path, sizeof path, "d/n%d", i);
        WORKS(unlink(path));
        snprintf(path, sizeof path, "d/.%d", i);
        close(make(path, ""));
    }
    IS(0, twice + read_all(dir, seen));
    IS(MANY / 2, count(seen, 0, 2));
    closedir(dir);
}

/* rm -r: all names are removed while they are read. */
static void removes_while_reading(void) {
    char path[NAME * 5];
    make_many();
    DIR *dir = opendir("d");
    for (const struct dirent *it; (it = readdir(dir));) {
        if (*it->d_name == '.') continue;
        snprintf(path, sizeof path, "d/%s", it->d_name);
        WORKS(unlink(path));
    }
    closedir(dir);
    WORKS(rmdir("d"));
}

static void seeks_in_a_directory(void) {
    static long places[MANY + 3];
    static char names[MANY + 3][NAME];
    int n = 0;
    make_many();
    DIR *dir = opendir("d");
    for (const struct dirent *it; places[n] = telldir(dir), (it = readdir(dir)); n++)
        snprintf(names[n], NAME, "%.63s", it->d_name);
    IS(MANY + 2, n);
    for (int i = n - 1; i >= 0; i -= 7) {
        seekdir(dir, places[i]);
        const struct dirent *it = readdir(dir);
        IS(0, it ? strcmp(it->d_name, names[i]) : 1);
    }
    closedir(dir);
}

static void kinds_in_a_directory(void) {
    DIR *dir = opendir(".");
    long right = 0;
    for (const struct dirent *it; (it = readdir(dir));) {
        struct stat st = look(it->d_name);
        mode_t kind = DTTOIF(it->d_type);
        if (*it->d_name != '.') right += it->d_ino == st.st_ino && kind == (st.st_mode & S_IFMT);
    }
    IS(9, right);
    closedir(dir);
}

/* A directory that is open shows a name that comes before it is read. */
static void reads_a_late_name(void) {
    bool seen[MANY] = {0};
    DIR *dir = opendir("d");
    close(make("d/n3", ""));
    IS(0, read_all(dir, seen));
    IS(1, count(seen, 0, 1));
    closedir(dir);
}

/* Two readers of a directory have a place each. */
static void two_readers(void) {
    bool seen[MANY] = {0}, too[MANY] = {0};
    make_many();
    DIR *dir = opendir("d"), *other = opendir("d");
    for (int i = 0; i < MANY / 2; i++) mark(seen, readdir(dir)->d_name);
    IS(0, read_all(other, too));
    IS(0, read_all(dir, seen));
    IS(MANY, count(seen, 0, 1));
    IS(MANY, count(too, 0, 1));
    closedir(dir);
    closedir(other);
}

/* A directory's `..` follows it. */
static void parent_of_a_moved_directory(void) {
    WORKS(rename("d", "full/d"));
    WORKS(chdir("full/d"));
    WORKS(lstat_of("../x"));
    IS(look("..").st_ino, look("../../full").st_ino);
    WORKS(rename("../../full", "../../other"));
    WORKS(lstat_of("../x"));
    WORKS(lstat_of("../../other/d"));
}

/* ---- what README.md excepts */

static void extended_attributes(void) {
    FAILS(or_on_mount(0, EOPNOTSUPP), setxattr("f", "trusted.x", "y", 1, 0));
    FAILS(or_on_mount(0, EOPNOTSUPP), removexattr("f", "trusted.x"));
}

static void temporary_file(void) {
    int fd = open(".", O_RDWR | O_TMPFILE, 0600);
    if (on_mount) FAILS(EOPNOTSUPP, fd);
    else IS(1, write(fd, "x", 1));
}

static const struct {
    void (*run)(void);
    bool by_root; /* it changes owners, or is by another user */
} longer[] = {
    {clears_set_user_id, true},
    {refuses_set_group_id, true},
    {set_group_id_directory, true},
    {extended_attributes, true},
    {kept_after_unlink, false},
    {kept_after_rename, false},
    {mapped_after_unlink, false},
    {links_of_a_file, false},
    {renamed_to_its_link, false},
    {links_of_a_directory, false},
    {link_of_a_deleted_file, false},
    {in_a_deleted_directory, false},
    {flags_of_open, false},
    {dangling_is_created, false},
    {holes, false},
    {umask_of_new_files, false},
    {chmod_follows, false},
    {readlink_cuts, false},
    {times_of_parents, false},
    {times_of_files, false},
    {many_symbolic_links, false},
    {many_links, false},
    {any_bytes_in_a_name, false},
    {copies_a_range, false},
    {reads_a_late_name, false},
    {two_readers, false},
    {change_times, false},
    {omitted_times, false},
    {reads_all_names, false},
    {reads_while_names_change, false},
    {removes_while_reading, false},
    {seeks_in_a_directory, false},
    {kinds_in_a_directory, false},
    {parent_of_a_moved_directory, false},
    {temporary_file, false},
};

static void all_cases(void) {
    opens();
    descriptors();
    removals();
    directories();
    renames();
    links();
    symbolic_links();
    special_files();
    sizes();
    attributes();
    if (self == 0) permissions();
    for (size_t i = 0; i < sizeof longer / sizeof *longer; i++) {
        if (longer[i].by_root && self) continue;
        begin_case();
        longer[i].run();
        end_case();
    }
}

/* ---- a read-only file system */

#define READ_ONLY(wanted, call)                                                                    \
    (is(wanted, (call) == -1 ? errno : 0, #call, __LINE__), count_case())

static void read_only_cases(void) {
    READ_ONLY(0, open("f", O_RDONLY));
    READ_ONLY(0, open("f", O_RDONLY | O_CREAT, 0644));
    READ_ONLY(EROFS, open("f", O_WRONLY));
    READ_ONLY(EROFS, open("f", O_RDONLY | O_TRUNC));
    READ_ONLY(EROFS, open("new", O_WRONLY | O_CREAT, 0644));
    READ_ONLY(ENOENT, open("new", O_RDONLY));
    READ_ONLY(EROFS, mkdir("new", 0755));
    READ_ONLY(EEXIST, mkdir("d", 0755));
    READ_ONLY(EROFS, rmdir("d"));
    READ_ONLY(EROFS, unlink("f"));
    READ_ONLY(EROFS, rename("f", "new"));
    READ_ONLY(EROFS, link("f", "new"));
    READ_ONLY(EROFS, symlink("f", "new"));
    READ_ONLY(EROFS, mkfifo("new", 0644));
    READ_ONLY(EROFS, truncate("f", 0));
    READ_ONLY(EROFS, chmod("f", 0600));
    READ_ONLY(EROFS, chown("f", 1, 1));
    READ_ONLY(EROFS, utimensat(AT_FDCWD, "f", NULL, 0));
    READ_ONLY(EROFS, access("f", W_OK));
    READ_ONLY(0, access("f", R_OK));
    READ_ONLY(0, readlink("s", (char[8]){0}, 8));
    READ_ONLY(0, has("full/x", "x") - 1);
}

int main(int argc, char **argv) {
    const char *what = argc == 3 ? argv[2] : "";
    bool is_known =
        !*what || !strcmp(what, "mount") || !strcmp(what, "prepare") || !strcmp(what, "read-only");
    if (argc < 2 || argc > 3 || !is_known || chdir(argv[1]) || !getcwd(top, sizeof top)) {
        fprintf(stderr, "usage: posix_test FOLDER [mount | prepare | read-only]\n");
        return 2;
    }
    umask(022);
    self = geteuid();
    if (self == 0 && setgroups(0, NULL)) stop("setgroups");
    on_mount = strcmp(what, "mount") == 0;
    if (strcmp(what, "prepare") == 0) return prepare(), 0;
    if (strcmp(what, "read-only") == 0) read_only_cases();
    else all_cases();
    printf("%ld cases, %ld differ\n", cases, differ);
    return differ != 0;
}
