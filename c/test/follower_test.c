/* follower_test.c - the program follower: its files, the order of its syncs and answers, and how it goes on.
 *
 *     follower_test FOLDER
 *
 * The follower's main is linked in as follower_main, and runs in a child process. Its system calls are noted in order.
 */
#define _GNU_SOURCE
#include <bpfs/file.h>
#include <bpfs/follow.h>
#include <bpfs/redo.h>
#include <errno.h>
#include <fcntl.h>
#include <signal.h>
#include <stdio.h>
#include <stdlib.h>
#include <string.h>
#include <sys/mman.h>
#include <sys/socket.h>
#include <sys/stat.h>
#include <sys/wait.h>
#include <unistd.h>

enum { BLOCKS = 1024, FILES = 1000, MOST_NOTES = 1 << 16, PATIENCE = 60, OPENED = 7 };

#define P(text) (const uint8_t *)(text), strlen(text)

int follower_main(int argc, char **argv);

static char path[1000], fresh[1010], journal[1010];
static int wrong, cases;

/* The system calls of the follower: r rename, F fsync of a folder, s any other sync, A an answer. */
static struct notes {
    volatile size_t count;
    volatile char of[MOST_NOTES];
} *notes;

static void is(bool it, const char *what) {
    cases++;
    if (it) return;
    fprintf(stderr, "follower_test: %s\n", what);
    wrong = 1;
}

static void must(bool it, const char *what) {
    if (it) return;
    perror(what);
    exit(2);
}

/* ---- noted system calls */

static void note(char what) {
    if (notes->count < MOST_NOTES) notes->of[notes->count++] = what;
}

int __real_rename(const char *from, const char *to);
int __real_fsync(int fd);
int __real_fdatasync(int fd);
ssize_t __real_write(int fd, const void *from, size_t count);
int __wrap_rename(const char *from, const char *to);
int __wrap_fsync(int fd);
int __wrap_fdatasync(int fd);
ssize_t __wrap_write(int fd, const void *from, size_t count);

int __wrap_rename(const char *from, const char *to) {
    note('r');
    return __real_rename(from, to);
}

int __wrap_fsync(int fd) {
    struct stat it;
    note(fstat(fd, &it) == 0 && S_ISDIR(it.st_mode) ? 'F' : 's');
    return __real_fsync(fd);
}

int __wrap_fdatasync(int fd) {
    note('s');
    return __real_fdatasync(fd);
}

ssize_t __wrap_write(int fd, const void *from, size_t count) {
    if (fd == STDOUT_FILENO && count == 8) note('A');
    return __real_write(fd, from, count);
}

/* Where a note is next, from `at` on; or the number of notes. */
static size_t next(char what, size_t at) {
    while (at < notes->count && notes->of[at] != what) at++;
    return at;
}

/* How many notes of this kind there are from `at` on. */
static size_t how_many(char what, size_t at) {
    size_t count = 0;
    for (; at < notes->count; at++) count += notes->of[at] == what;
    return count;
}

/* ---- the follower as a process */

static pid_t child;

/* Starts it, and returns the leader's end of its socket. */
static int start(void) {
    int ends[2];
    must(socketpair(AF_UNIX, SOCK_STREAM | SOCK_CLOEXEC, 0, ends) == 0, "no socket");
    notes->count = 0;
    child = fork();
    must(child >= 0, "no fork");
    if (child == 0) {
        char blocks[16], *argv[] = {"follower", path, blocks, NULL};
        snprintf(blocks, sizeof blocks, "%d", BLOCKS);
        must(dup2(ends[1], STDIN_FILENO) == 0 && dup2(ends[1], STDOUT_FILENO) == 1, "no standard input");
        must(freopen("/dev/null", "w", stderr) != NULL, "no standard error");
        close(ends[0]), close(ends[1]);
        _exit(follower_main(3, argv));
    }
    close(ends[1]);
    return ends[0];
}

/* Ends the stream, and returns the follower's exit status. */
static int finish(int fd) {
    int status;
    shutdown(fd, SHUT_WR);
    must(waitpid(child, &status, 0) == child, "no child");
    close(fd);
    return WIFEXITED(status) ? WEXITSTATUS(status) : -1;
}

static void kill_it(int fd) {
    kill(child, SIGKILL);
    must(waitpid(child, NULL, 0) == child, "no child");
    close(fd);
}

/* A follower of a stream that has nothing. */
static int run(void) {
    return finish(start());
}

/* ---- images */

static void remove_all(void) {
    unlink(path), unlink(fresh), unlink(journal);
}

/* Makes an image that has one file. */
static void make_image(const char *at, const char *name) {
    bpfs fs = BPFS_CLOSED;
    bpfs_file file;
    bpfs_fault fault;
    bpfs_lack lack;
    must(bpfs_file_create(&file, at, BLOCKS, 2, BPFS_FILE_CACHED) == 0 && bpfs_file_mount(&fs, &file, &fault) == 0, at);
    must(bpfs_create(&fs, P(name), &lack) == 0 && bpfs_carry(&fs, &file.carrier) == 0, at);
    bpfs_close(&fs);
    bpfs_file_close(&file);
}

/* Whether the image has a file of this name. It is opened without its journal: so it must be complete by itself. */
static bool has(const char *at, const char *name) {
    bpfs fs = BPFS_CLOSED;
    bpfs_file file;
    bpfs_fault fault;
    bpfs_found found;
    if (bpfs_file_open(&file, at, BPFS_FILE_CACHED)) return false;
    bool it = bpfs_file_mount(&fs, &file, &fault) == 0 && bpfs_stat(&fs, P(name), &found) == BPFS_OK;
    bpfs_close(&fs);
    bpfs_file_close(&file);
    return it;
}

static bool is_there(const char *at) {
    return access(at, F_OK) == 0;
}

/* ---- a leader over a volume in memory */

static void lead(bpfs *fs, bpfs_stream *stream, int fd) {
    static uint64_t words[BLOCKS * BPFS_BLOCK_WORDS];
    bpfs_event events[16];
    bpfs_fault fault;
    size_t count = 0;
    memset(words, 0, sizeof words);
    must(bpfs_format_events(BLOCKS, 2, events, 16, &count) == BPFS_OK, "no format");
    for (size_t i = 0; i < count; i++)
        if (events[i].kind == BPFS_STORE) words[events[i].word] = events[i].value;
    must(bpfs_mount(fs, words, BLOCKS * BPFS_BLOCK_WORDS, &fault) == BPFS_OK, "no volume");
    must(bpfs_stream_of(stream, fd, fd, 0) == 0, "no stream");
    must(bpfs_copy_image(fs, &stream->carrier) == 0, "no copy");
}

static void make_files(bpfs *fs, int count) {
    char name[32];
    bpfs_lack lack;
    for (int i = 0; i < count; i++) {
        snprintf(name, sizeof name, "/f%d", i);
        must(bpfs_create(fs, P(name), &lack) == BPFS_OK, name);
    }
}

/* ---- cases */

/* The name is durable before the first answer. A carry of many epochs waits for the disk twice at most. What was answered is
 * there when the follower is killed. */
static void copies_and_follows(void) {
    bpfs fs = BPFS_CLOSED;
    bpfs_stream stream;
    remove_all();
    make_image(path, "/old");
    int fd = start();
    lead(&fs, &stream, fd);
    size_t renamed = next('r', 0), synced = next('F', renamed), answered = next('A', 0);
    is(answered < notes->count && synced < answered, "the folder is synced after the rename and before the first answer");
    is(next('s', 0) < renamed, "the copy is synced before the rename");
    size_t before = notes->count;
    make_files(&fs, FILES);
    must(bpfs_carry(&fs, &stream.carrier) == 0, "no carry");
    is(how_many('A', before) == 1, "one answer to a carry");
    is(how_many('s', before) >= 1 && how_many('s', before) <= 2, "one or two syncs for a carry of 1,000 new files");
    kill_it(fd);
    is(run() == 0, "a killed follower goes on");
    is(!has(path, "/old") && has(path, "/f0") && has(path, "/f999"), "all that was answered is there");
    bpfs_close(&fs);
    bpfs_stream_close(&stream);
}

/* A complete copy was perhaps answered: a power failure can undo a rename whose folder was not synced. */
static void complete_copy_is_kept(void) {
    remove_all();
    make_image(path, "/old");
    make_image(fresh, "/new");
    is(run() == 0, "a complete copy");
    is(has(path, "/new") && !is_there(fresh), "a complete copy takes the name");
    remove_all();
    make_image(fresh, "/new");
    is(run() == 0 && has(path, "/new"), "a complete copy is the only one");
}

static void incomplete_copy_is_replaced(void) {
    bpfs_file file;
    const uint64_t value = 5;
    remove_all();
    make_image(path, "/old");
    must(bpfs_file_make(&file, fresh, BLOCKS, BPFS_FILE_CACHED) == 0, fresh);
    must(file.carrier.put(&file.carrier, 77, &value, 1) == 0 && bpfs_file_close(&file) == 0, fresh);
    is(run() == 0 && has(path, "/old"), "the image stays until the copy is complete");
    is(!is_there(fresh), "an incomplete copy is deleted at the end of the stream");
    remove_all();
    is(run() == 0 && !is_there(path) && !is_there(fresh), "no image without a complete copy");
}

static void damaged_copy_is_left(void) {
    bpfs_file file;
    const uint64_t value = 5;
    remove_all();
    make_image(path, "/old");
    must(bpfs_file_make(&file, fresh, BLOCKS, BPFS_FILE_CACHED) == 0, fresh);
    must(file.carrier.put(&file.carrier, 0, &value, 1) == 0 && bpfs_file_close(&file) == 0, fresh);
    is(run() == OPENED && has(path, "/old") && is_there(fresh), "a copy that does not mount is left, and reported");
}

static void used_images_are_refused(void) {
    bpfs_file file;
    remove_all();
    make_image(path, "/old");
    must(bpfs_file_open(&file, path, BPFS_FILE_CACHED) == 0, path);
    is(run() == OPENED && !is_there(fresh), "an image in use");
    bpfs_file_close(&file);
    make_image(fresh, "/new");
    must(bpfs_file_open(&file, fresh, BPFS_FILE_CACHED) == 0, fresh);
    is(run() == OPENED, "a copy in use");
    bpfs_file_close(&file);
    is(has(path, "/old") && has(fresh, "/new"), "images in use stay as they are");
}

static void wrong_stream_is_refused(void) {
    bpfs fs = BPFS_CLOSED;
    bpfs_stream stream;
    remove_all();
    int fd = start();
    lead(&fs, &stream, fd);
    make_files(&fs, 1);
    must(bpfs_carry(&fs, &stream.carrier) == 0, "no carry");
    must(send(fd, "this is no frame at all.", 24, 0) == 24, "no bytes");
    is(finish(fd) == 1 && has(path, "/f0"), "bytes that are no frame are refused, and what was there stays");
    bpfs_close(&fs);
    bpfs_stream_close(&stream);
}

int main(int argc, char **argv) {
    if (argc != 2) return fprintf(stderr, "usage: follower_test FOLDER\n"), 2;
    alarm(PATIENCE);
    snprintf(path, sizeof path, "%.900s/followed", argv[1]);
    snprintf(fresh, sizeof fresh, "%s.new", path);
    snprintf(journal, sizeof journal, "%s-redo", path);
    notes = mmap(NULL, sizeof *notes, PROT_READ | PROT_WRITE, MAP_SHARED | MAP_ANONYMOUS, -1, 0);
    must(notes != MAP_FAILED, "no memory");
    copies_and_follows();
    complete_copy_is_kept();
    incomplete_copy_is_replaced();
    damaged_copy_is_left();
    used_images_are_refused();
    wrong_stream_is_refused();
    remove_all();
    printf("follower: %d checks of files, syncs and answers%s\n", cases, wrong ? ", some FAILED" : "");
    return wrong;
}
