/* bpfs_fuse.c - mounts an image as a file system.
 *
 *     bpfs_fuse IMAGE MOUNTPOINT [-f] [-o OPTION,..]
 *
 * README.md has the options, what an operation guarantees, and what a volume does not have.
 */
#define _GNU_SOURCE
#include <bpfs/redo.h>
#include <bpfs/stream.h>
#include "files.h"
#include "hidden.h"
#include "operations.h"
#include "times.h"
#include "volume.h"
#include <errno.h>
#include <poll.h>
#include <signal.h>
#include <stddef.h>
#include <stdio.h>
#include <stdlib.h>
#include <string.h>
#include <sys/socket.h>
#include <sys/stat.h>
#include <sys/wait.h>
#include <syslog.h>
#include <unistd.h>

enum { OK = 0, FAILED = 1, USAGE = 2, NO_IMAGE = 7 };
enum { VERSION = 3 };
enum { TRIES = 20, TRY_DELAY = 100000000 }; /* to open an image that is in use; nanoseconds */
/* The last two bytes of magic numbers (docs/format.md). */
enum { MAGIC_1 = 0x3130, MAGIC_3A = 0x4133, MAGIC_3B = 0x4233 };

static struct options {
    unsigned blocks, version;
    char *follower;
    int cached, quiet, read_only;
} options;

/* IMAGE is open in one of these two: in the second one if nothing waits for the disk, or if it is
 * only read. */
static bpfs_redo image = {.fd = -1, .image = {.fd = -1}};
static bpfs_file file = {.fd = -1};
static bpfs_stream stream;

static bool had_journal; /* the image had one before this mount */
static bool is_made;     /* this mount has made the image */
static bool is_begun;    /* the tree has the directory of the mount (hidden.h) */
static bool is_served;   /* programs may use it: a new image stays */

/* ---- opening */

static const char *what_is_missing(const char *path) {
    if (access(path, F_OK) == 0) return "its journal, IMAGE-redo, is missing or damaged";
    return options.blocks ? "no such folder" : "no such image; -o format=N makes a new one";
}

static const char *why_not(int error, const char *path) {
    switch (error) {
    case EWOULDBLOCK: return "in use by another process";
    case ENOENT: return what_is_missing(path);
    case EUCLEAN: return "the journal is not empty: mount the image once without ro";
    case ESTALE:
        return "the journal IMAGE-redo belongs to another image, or to another copy of this one";
    default: return strerror(error);
    }
}

static int opening_failed(const char *path) {
    report("%s: %s", path, why_not(errno, path));
    return NO_IMAGE;
}

/* Reports the fault of an image that does not mount. */
static int mounting_failed(const char *path, int code, const bpfs_fault *fault) {
    unsigned long long found = fault->found, wanted = fault->wanted, place = fault->place;
    if (code == BPFS_BAD_SIZE)
        report("%s: it has %llu bytes, and an image would have %llu", path, found, wanted);
    else if (code == BPFS_NOT_FORMATTED) report("%s: not an image", path);
    else if (code == BPFS_DAMAGED)
        report("%s: damaged: check %u fails at word %llu", path, fault->check, place);
    else if (code == BPFS_NO_MEMORY) report("%s: out of memory", path);
    else report("%s: not mounted (%d)", path, code);
    return NO_IMAGE;
}

static int mount_to_read(const char *path, bpfs_fault *fault) {
    if (bpfs_file_open_read(&file, path)) return -1;
    return bpfs_file_mount(&volume.fs, &file, fault);
}

/* The path from the root. In the background, the working directory is another one. NULL, with
 * errno: there is none. */
static char *whole_path(const char *path) {
    char *folder = *path == '/' ? NULL : getcwd(NULL, 0), *whole = NULL;
    if (*path == '/') return strdup(path);
    if (folder && asprintf(&whole, "%s/%s", folder, path) < 0) whole = NULL;
    free(folder);
    return whole;
}

/* Opens an image without a journal. One that an earlier mount left is applied first. */
static int open_file(const char *path) {
    if (bpfs_file_open(&file, path, BPFS_FILE_CACHED) == 0) return 0;
    if (errno != EUCLEAN) return -1;
    if (bpfs_redo_open(&image, path, BPFS_FILE_WAITS) || bpfs_redo_close(&image)) return -1;
    return bpfs_file_open(&file, path, BPFS_FILE_CACHED);
}

static int mount_cached(const char *path, bool is_new, bpfs_fault *fault) {
    int code =
        is_new ? bpfs_file_create(&file, path, options.blocks, options.version, BPFS_FILE_CACHED)
               : open_file(path);
    volume.carriers[0] = &file.carrier;
    is_made = is_new && code == 0;
    return code ? code : bpfs_file_mount(&volume.fs, &file, fault);
}

static int mount_with_journal(const char *path, bool is_new, bpfs_fault *fault) {
    int code =
        is_new ? bpfs_redo_create(&image, path, options.blocks, options.version, BPFS_FILE_WAITS)
               : bpfs_redo_open(&image, path, BPFS_FILE_WAITS);
    volume.carriers[0] = &image.carrier;
    is_made = is_new && code == 0, had_journal = image.fd >= 0;
    return code ? code : bpfs_redo_mount(&volume.fs, &image, fault);
}

/* Only an image that does not exist is made. */
static int mount_to_write(const char *path, bpfs_fault *fault) {
    bool is_new = options.blocks && access(path, F_OK) && errno == ENOENT;
    volume.carrier_count = 1;
    return options.cached ? mount_cached(path, is_new, fault)
                          : mount_with_journal(path, is_new, fault);
}

/* Starts the follower with a socket as its standard input and output, and gives it a copy of the
 * image. */
static int begin_to_lead(void) {
    int ends[2];
    if (socketpair(AF_UNIX, SOCK_STREAM | SOCK_CLOEXEC, 0, ends)) return -1;
    pid_t pid = fork();
    if (pid == 0) {
        signal(SIGINT, SIG_IGN); /* it gets the last calls of a mount that a terminal interrupts */
        dup2(ends[1], STDIN_FILENO);
        dup2(ends[1], STDOUT_FILENO);
        execl("/bin/sh", "sh", "-c", options.follower, (char *)NULL);
        _exit(127);
    }
    close(ends[1]);
    if (pid < 0 || bpfs_stream_of(&stream, ends[0], ends[0], 0)) return -1;
    if (bpfs_copy_image(&volume.fs, &stream.carrier)) return -1;
    volume.carriers[volume.carrier_count++] = &stream.carrier;
    return 0;
}

/* Reports why options exclude each other. */
static int check_options(void) {
    if (options.read_only && (options.blocks || options.follower))
        return report("ro excludes format and follower"), USAGE;
    if (options.version && !options.blocks) return report("version needs format"), USAGE;
    if (!options.version) options.version = VERSION;
    return OK;
}

static int mount_image(const char *path, bpfs_fault *fault) {
    return options.read_only ? mount_to_read(path, fault) : mount_to_write(path, fault);
}

/* umount(2) returns before the mount that ends has closed its image. So an image that is in use is
 * tried again for a while. */
static int mount_patiently(const char *path, bpfs_fault *fault) {
    int code = mount_image(path, fault);
    for (int i = 0; i < TRIES && code < 0 && errno == EWOULDBLOCK; i++) {
        nanosleep(&(struct timespec){0, TRY_DELAY}, NULL);
        code = mount_image(path, fault);
    }
    return code;
}

/* Opens and mounts the image. Nothing is written yet, unless the image is new, or has a journal. */
static int open_image(const char *path) {
    bpfs_fault fault = {0};
    uint64_t magic = 0;
    int code = check_options();
    if (code) return code;
    code = mount_patiently(path, &fault);
    if (code < 0) return opening_failed(path);
    if (code == BPFS_OUT_OF_RANGE) {
        report("format=%u, version=%u: an image has %d to %d blocks, and version 1 to %d",
               options.blocks, options.version, BPFS_MIN_BLOCKS, BPFS_MAX_BLOCKS, VERSION);
        return USAGE;
    }
    if (code) return mounting_failed(path, code, &fault);
    bpfs_words(&volume.fs, 0, &magic, 1);
    volume.max_write = magic >> 48 == MAGIC_1 ? BPFS_MAX_WRITE : BPFS_MAX_WRITE_2;
    volume.keeps = magic >> 48 == MAGIC_3A || magic >> 48 == MAGIC_3B;
    if (options.follower && begin_to_lead()) {
        report("the follower has not taken its copy: %s", strerror(errno));
        return NO_IMAGE;
    }
    return OK;
}

/* Prepares the tree, once the mount is made. This is the first change of an image that was
 * there. */
static int begin_to_serve(void) {
    times_begin();
    if (!options.read_only) hidden_begin();
    files_begin();
    if (!options.read_only && volume_carry()) return NO_IMAGE;
    is_begun = !options.read_only;
    return OK;
}

/* ---- serving */

/* Takes one request, if there is one, and answers it. False: there will be no more. */
static bool serve_one(struct fuse_session *session, struct fuse_buf *buffer) {
    struct timespec began = volume_now();
    int length = fuse_session_receive_buf(session, buffer);
    if (length == -EINTR || length == -EAGAIN) return true;
    if (length < 0) report("no more requests come: %s", strerror(-length));
    if (length <= 0) return false;
    fuse_session_process_buf(session, buffer);
    volume_served(began);
    return true;
}

/* Serves requests one by one. Between two of them, whether they come or not, the log is carried
 * when its time has come. */
static void serve(struct fuse_session *session) {
    struct fuse_buf buffer = {0};
    struct pollfd at = {fuse_session_fd(session), POLLIN, 0};
    while (!fuse_session_exited(session)) {
        int ready = poll(&at, 1, volume_wait());
        if (ready < 0 && errno != EINTR) {
            report("no more requests come: %s", strerror(errno));
            break;
        }
        if (ready > 0 && !serve_one(session, &buffer)) break;
        volume_carry_if_due();
    }
    free(buffer.mem);
}

/* Goes to the background, and serves until the unmount. */
static int serve_session(struct fuse_session *session, bool foreground) {
    if (fuse_daemonize(foreground))
        return report("can't go to the background: %s", strerror(errno)), FAILED;
    is_served = true;
    volume.daemon = !foreground;
    fuse_set_signal_handlers(session);
    serve(session);
    fuse_remove_signal_handlers(session);
    return OK;
}

static int serve_at(struct fuse_args *args, const char *mountpoint, bool foreground) {
    /* The kernel checks permissions, if they are kept. */
    if (volume.keeps && fuse_opt_add_arg(args, "-odefault_permissions")) return FAILED;
    struct fuse_session *session = fuse_session_new(args, &operations, sizeof operations, NULL);
    if (!session) return FAILED; /* libfuse has printed why */
    if (fuse_session_mount(session, mountpoint)) return fuse_session_destroy(session), FAILED;
    int code = begin_to_serve();
    if (code == OK) code = serve_session(session, foreground);
    fuse_session_unmount(session);
    fuse_session_destroy(session);
    return code;
}

/* ---- closing */

/* Removes the files that a mount that failed has made. The lock on the image is still held, so they
 * are nobody else's. */
static void unmake(const char *path) {
    bool made_journal = image.fd >= 0 && !had_journal;
    if (is_made) unlink(path);
    if (made_journal && (is_made || !image.begun)) unlink(image.name);
}

/* Carries what is left and closes all. Returns `code`, or FAILED if something is not durable. */
static int close_image(const char *path, int code) {
    if (is_begun) {
        times_store();
        hidden_end();
        if (volume_carry()) code = FAILED;
    }
    nodes_clear();
    if (!is_served) unmake(path);
    if (code == OK && bpfs_close(&volume.fs)) {
        report("%s: the last calls are not durable", path);
        code = FAILED;
    }
    /* After a failure, events that could not be carried go with the volume. */
    bpfs_discard(&volume.fs);
    bpfs_stream_close(&stream);
    if (stream.send) close(stream.fd);
    if (bpfs_redo_close(&image) || bpfs_file_close(&file)) {
        report("%s: not closed cleanly: %s", path, strerror(errno));
        if (code == OK) code = FAILED;
    }
    return code;
}

/* ---- the program */

static const struct fuse_opt known[] = {
    {"format=%u", offsetof(struct options, blocks), 0},
    {"version=%u", offsetof(struct options, version), 0},
    {"cached", offsetof(struct options, cached), 1},
    {"follower=%s", offsetof(struct options, follower), 0},
    {"quiet", offsetof(struct options, quiet), 1},
    {"ro", offsetof(struct options, read_only), 1},
    FUSE_OPT_KEY("ro", FUSE_OPT_KEY_KEEP), /* libfuse has to see it, too */
    FUSE_OPT_END,
};

/* What /proc/mounts shows of the mount: the image, and the type fuse.bpfs. These options come
 * before those of the user, which may replace them. False: no memory. */
static bool name_mount(struct fuse_args *args, const char *path) {
    char *name = NULL, *escaped = NULL, *all = NULL;
    bool done = asprintf(&name, "fsname=%s", path) >= 0 &&
                fuse_opt_add_opt_escaped(&escaped, name) == 0 &&
                asprintf(&all, "-osubtype=bpfs,%s", escaped) >= 0 &&
                fuse_opt_insert_arg(args, 1, all) == 0;
    free(name);
    free(escaped);
    free(all);
    return done;
}

static int usage(void) {
    fprintf(stderr, "usage: bpfs_fuse IMAGE MOUNTPOINT [-f] "
                    "[-o format=N,version=N,cached,follower=COMMAND,quiet,ro,..]\n");
    return USAGE;
}

int main(int argc, char **argv) {
    if (argc < 3) return usage();
    char *path = whole_path(argv[1]);
    if (!path) return report("%s: %s", argv[1], strerror(errno)), NO_IMAGE;
    argv[1] = argv[0];
    struct fuse_args args = FUSE_ARGS_INIT(argc - 1, argv + 1);
    struct fuse_cmdline_opts line = {0};
    if (fuse_opt_parse(&args, &options, known, NULL)) return usage();
    if (!name_mount(&args, path)) return report("out of memory"), FAILED;
    if (fuse_parse_cmdline(&args, &line) || !line.mountpoint) return usage();
    volume.owner = getuid(), volume.group = getgid(), volume.quiet = options.quiet;
    int code = open_image(path);
    if (code == OK) code = serve_at(&args, line.mountpoint, line.foreground);
    code = close_image(path, code);
    free(path);
    free(line.mountpoint);
    free(options.follower);
    fuse_opt_free_args(&args);
    return code;
}
