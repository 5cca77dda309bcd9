/* killed_test.c - the name of an open file after a kill of the mount at each of its system calls,
 * while the file is replaced.
 *
 *     killed_test BPFS_FUSE IMAGE MOUNTPOINT SWEEPS
 *
 * One sweep: a program has a file open, renames another one over it, and syncs. The mount is killed
 * when it enters its first system call for that, when it leaves it, and so on, each time from the
 * beginning, until the program has come to its end. After each kill, the next mount has to show the
 * old bytes under the name, or the new ones; the new ones, if the sync had returned. Each sweep has
 * another length of both files. It uses ptrace(2), and needs root.
 */
#define _GNU_SOURCE
#include <errno.h>
#include <fcntl.h>
#include <signal.h>
#include <stdbool.h>
#include <stdio.h>
#include <stdlib.h>
#include <string.h>
#include <sys/mount.h>
#include <sys/ptrace.h>
#include <sys/stat.h>
#include <sys/wait.h>
#include <unistd.h>

enum { MOST = 60000, WAITS = 2000, STOPPED = SIGTRAP | 0x80, RENAMED = 1, SYNCED = 2 };

static const char *program, *image, *mountpoint;
static pid_t daemon_pid;
static unsigned long kills;

static void must(bool it, const char *what) {
    if (it) return;
    fprintf(stderr, "killed_test: kill %lu: %s (%s)\n", kills, what, strerror(errno));
    if (daemon_pid) kill(daemon_pid, SIGKILL);
    umount2(mountpoint, MNT_DETACH);
    exit(1);
}

/* ---- the mount */

static void mounts(void) {
    struct stat it, above;
    daemon_pid = fork();
    must(daemon_pid >= 0, "no fork");
    if (daemon_pid == 0) {
        execl(program, program, image, mountpoint, "-f", "-o", "quiet,format=1024", (char *)NULL);
        _exit(127);
    }
    for (int i = 0; i < WAITS; i++) {
        must(waitpid(daemon_pid, NULL, WNOHANG) == 0, "the mount ends");
        if (stat(mountpoint, &it) == 0 && stat("/", &above) == 0 && it.st_ino == 1) break;
        usleep(1000);
    }
    must(chdir(mountpoint) == 0 && it.st_ino == 1, "no mount");
}

static void kills_it(void) {
    kill(daemon_pid, SIGKILL);
    while (waitpid(daemon_pid, NULL, __WALL) < 0 && errno == EINTR) {}
    daemon_pid = 0;
    must(chdir("/") == 0 && umount2(mountpoint, MNT_DETACH) == 0, "no unmount");
    kills++;
}

/* ---- the files */

/* Makes a file of `size` bytes that are all `value`. Returns its descriptor. */
static int make(const char *name, int value, size_t size) {
    char bytes[MOST];
    int fd = open(name, O_RDWR | O_CREAT | O_TRUNC, 0644);
    memset(bytes, value, size);
    must(fd >= 0 && write(fd, bytes, size) == (ssize_t)size, name);
    return fd;
}

static bool has(const char *name, int value, size_t size) {
    char bytes[MOST + 1];
    int fd = open(name, O_RDONLY);
    ssize_t count = read(fd, bytes, sizeof bytes);
    close(fd);
    for (ssize_t i = 0; i < count; i++)
        if (bytes[i] != value) return false;
    return count == (ssize_t)size;
}

/* ---- one kill */

/* The program. Its status tells how far it came. */
static pid_t starts(void) {
    pid_t pid = fork();
    if (pid) return pid;
    int folder = open(".", O_RDONLY | O_DIRECTORY);
    if (rename("new", "current")) _exit(0);
    _exit(fsync(folder) ? RENAMED : RENAMED | SYNCED);
}

/* Lets the mount serve up to its stop number `stop`, or until the program ends. Returns whether it
 * ended before; its status is in *status then. */
static bool serves(pid_t client, unsigned long stop, int *status) {
    unsigned long stops = 0;
    for (int how; stops < stop;) {
        pid_t pid = waitpid(-1, &how, __WALL);
        must(pid > 0, "no wait");
        if (pid == client) return *status = how, true;
        must(WIFSTOPPED(how), "the mount ends while it serves");
        stops += WSTOPSIG(how) == STOPPED;
        if (stops < stop) must(ptrace(PTRACE_SYSCALL, pid, 0, 0) == 0, "no step");
    }
    return false;
}

/* Kills the mount at stop number `stop`, and looks at the file. Returns whether the program had
 * come to its end. */
static bool kill_at(unsigned long stop, int old, int new, size_t size) {
    int status = 0;
    int fd = make("current", old, size);
    close(make("new", new, size / 2 + 1));
    must(fsync(fd) == 0, "no sync");
    must(ptrace(PTRACE_SEIZE, daemon_pid, 0, PTRACE_O_TRACESYSGOOD) == 0, "no trace");
    must(ptrace(PTRACE_INTERRUPT, daemon_pid, 0, 0) == 0, "no stop");
    pid_t client = starts();
    bool ended = serves(client, stop, &status);
    kills_it();
    if (!ended) must(waitpid(client, &status, 0) == client, "the program is lost");
    close(fd);
    must(WIFEXITED(status), "the program was killed");
    mounts();
    bool is_old = has("current", old, size), is_new = has("current", new, size / 2 + 1);
    must(is_old || is_new, "the file has neither old nor new bytes");
    must(is_new || !(WEXITSTATUS(status) & SYNCED), "the file has old bytes after a sync");
    must(is_new || has("new", new, size / 2 + 1), "the new file is lost");
    must(!ended || WEXITSTATUS(status) == (RENAMED | SYNCED), "the program failed");
    return ended;
}

int main(int argc, char **argv) {
    if (argc != 5)
        return fprintf(stderr, "usage: killed_test BPFS_FUSE IMAGE MOUNTPOINT SWEEPS\n"), 2;
    program = argv[1], image = argv[2], mountpoint = argv[3];
    long sweeps = atol(argv[4]);
    unsigned long least = -1ul, most = 0;
    mounts();
    for (long sweep = 0; sweep < sweeps; sweep++) {
        size_t size = 1 + (size_t)sweep * 7919 % MOST;
        unsigned long stop = 1;
        while (!kill_at(stop, 'a' + (int)(kills % 26), 'A' + (int)(kills % 26), size)) stop++;
        least = stop < least ? stop : least, most = stop > most ? stop : most;
    }
    kills_it();
    printf("%ld sweeps of %lu to %lu kills each, %lu in all: the old bytes or the new ones\n",
           sweeps, least, most, kills);
    return 0;
}
