/* follower.c - follows a leader on standard input to an image file, and answers on standard output.
 *
 *     follower IMAGE BLOCKS [cached]
 *
 * The leader begins with a copy of its image (bpfs_copy_image), as epochs from number 1 on. The copy goes to IMAGE.new,
 * which takes the name IMAGE when it is complete: until then IMAGE stays as it was. From then on each answer makes all
 * epochs so far durable as one step (redo.h). With `cached` an answer means that the kernel has them.
 *
 * IMAGE and IMAGE.new are locked, except for a moment while IMAGE.new gets the name. If the follower finds a complete IMAGE.new, it gives it the name first.
 * After the end of the stream it prints what it has.
 *
 * Exit status: 0: the stream ended; 1: the stream was refused; 2: usage; 7: an image can't be opened or written.
 */
#define _GNU_SOURCE
#include <bpfs/follow.h>
#include <bpfs/redo.h>
#include <errno.h>
#include <poll.h>
#include <signal.h>
#include <stdio.h>
#include <stdlib.h>
#include <string.h>
#include <sys/stat.h>
#include <unistd.h>

enum { OK = 0, REFUSED = 1, USAGE = 2, NO_IMAGE = 7, IDLE = 100 /* milliseconds */ };

static const char *path;
static char fresh[4096]; /* IMAGE.new */
static bpfs_file_barrier barrier;
static bpfs_file copy = {.fd = -1};                       /* IMAGE.new */
static bpfs_redo image = {.fd = -1, .image = {.fd = -1}}; /* IMAGE */
static bpfs_follower follower;
static bool is_copying; /* IMAGE.new is open */
static bool has_made;   /* this process made it */

static int failed(const char *name) {
    const char *why = errno == EWOULDBLOCK ? "in use by another process"
                    : errno == ESTALE      ? "its journal belongs to another image"
                                           : strerror(errno);
    fprintf(stderr, "follower: %s: %s\n", name, why);
    return NO_IMAGE;
}

/* ---- the two files */

static bool is_missing(const char *name) {
    struct stat it;
    return stat(name, &it) && errno == ENOENT;
}

/* Opens IMAGE, if it exists, so that nobody else uses it. */
static int open_image(void) {
    if (is_missing(path)) return OK;
    return bpfs_redo_open(&image, path, barrier) ? failed(path) : OK;
}

/* Gives IMAGE.new the name IMAGE, durably, and goes on over it with a journal. */
static int take_name(void) {
    if (bpfs_redo_close(&image)) return failed(path);
    if (bpfs_file_rename(&copy, fresh, path) || bpfs_file_close(&copy)) return failed(fresh);
    is_copying = false;
    follower.target = &image.carrier;
    return open_image();
}

/* Whether IMAGE.new has its first word, which comes last. */
static bool has_first_word(void) {
    uint64_t word = 0;
    return pread(copy.fd, &word, sizeof word, 0) == sizeof word && word;
}

/* Takes the name if IMAGE.new is complete: it has its first word. */
static int take_name_if_complete(void) {
    bpfs fs = BPFS_CLOSED;
    bpfs_fault fault;
    if (!has_first_word()) return OK;
    int code = bpfs_file_mount(&fs, &copy, &fault);
    if (code < 0) return failed(fresh);
    if (code) return fprintf(stderr, "follower: %s: not an image (%d): look at it, then delete it\n", fresh, code), NO_IMAGE;
    bpfs_close(&fs);
    return take_name();
}

/* An earlier follower may have been stopped before IMAGE.new had its name: then it is newer than IMAGE. */
static int finish_earlier_copy(void) {
    if (is_missing(fresh)) return OK;
    if (bpfs_file_open(&copy, fresh, barrier)) return failed(fresh);
    is_copying = true;
    int code = take_name_if_complete();
    if (code || !is_copying) return code;
    if (unlink(fresh) || bpfs_file_close(&copy)) return failed(fresh);
    return OK;
}

static int begin(uint32_t blocks) {
    is_copying = has_made = false;
    int code = open_image();
    if (code == OK) code = finish_earlier_copy();
    if (code) return code;
    if (bpfs_file_make(&copy, fresh, blocks, barrier)) return failed(fresh);
    is_copying = has_made = true;
    bpfs_follower_of(&follower, &copy.carrier, blocks, 0);
    return OK;
}

/* ---- the stream */

/* Makes what was applied durable, and answers if the leader has asked. A leader that is gone hears nothing. */
static int settle(void) {
    if (bpfs_follower_settle(&follower)) return failed(is_copying ? fresh : path);
    int code = is_copying ? take_name_if_complete() : OK;
    if (code || !follower.asked) return code;
    follower.asked = false;
    if (write(STDOUT_FILENO, &follower.number, sizeof follower.number) < 0 && errno != EPIPE && errno != ECONNRESET)
        return failed("standard output");
    return OK;
}

/* Whether to settle now: the leader asks, or sends nothing for a while. */
static bool is_time(uint64_t settled) {
    struct pollfd in = {STDIN_FILENO, POLLIN, 0};
    return follower.asked || (follower.number > settled && poll(&in, 1, IDLE) == 0);
}

/* Follows to the end of the stream. */
static int follow(void) {
    uint64_t settled = 0;
    long n;
    int code;
    while ((n = bpfs_follow_fd(&follower, STDIN_FILENO)) > 0) {
        if (!is_time(settled)) continue;
        if ((code = settle())) return code;
        settled = follower.number;
    }
    if (n < 0 && !follower.refused) return failed(is_copying ? fresh : path);
    if (n < 0) fprintf(stderr, "follower: the stream is refused after epoch %llu\n", (unsigned long long)follower.number);
    code = settle();
    return code ? code : n < 0 ? REFUSED : OK;
}

/* ---- the end */

static void print_totals(void) {
    bpfs fs = BPFS_CLOSED;
    bpfs_fault fault;
    bpfs_sums sums;
    if (is_copying) {
        fprintf(stderr, "follower: the stream ended before the copy was complete\n");
        return;
    }
    if (bpfs_redo_mount(&fs, &image, &fault) || bpfs_totals(&fs, &sums)) return;
    fprintf(stderr, "follower: epoch %llu, %llu files, %llu directories, %llu bytes\n", (unsigned long long)follower.number,
            (unsigned long long)sums.files, (unsigned long long)sums.dirs, (unsigned long long)sums.bytes);
    bpfs_close(&fs);
}

static int end(int code) {
    if (code == OK) print_totals();
    bpfs_follower_close(&follower);
    if (is_copying && has_made && !has_first_word()) unlink(fresh);
    if (bpfs_file_close(&copy) && code == OK) code = failed(fresh);
    if (bpfs_redo_close(&image) && code == OK) code = failed(path);
    return code;
}

int main(int argc, char **argv) {
    unsigned long blocks = argc > 2 ? strtoul(argv[2], NULL, 10) : 0;
    if (argc < 3 || argc > 4 || blocks < BPFS_MIN_BLOCKS || blocks > BPFS_MAX_BLOCKS || (argc == 4 && strcmp(argv[3], "cached")))
        return fprintf(stderr, "usage: follower IMAGE BLOCKS [cached]\n"), USAGE;
    path = argv[1];
    barrier = argc == 4 ? BPFS_FILE_CACHED : BPFS_FILE_WAITS;
    if (snprintf(fresh, sizeof fresh, "%s.new", path) >= (int)sizeof fresh) return errno = ENAMETOOLONG, failed(path);
    signal(SIGPIPE, SIG_IGN);
    int code = begin((uint32_t)blocks);
    return end(code ? code : follow());
}
