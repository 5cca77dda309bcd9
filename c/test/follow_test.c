/* follow_test.c - followers of a leader that is killed, and of streams that end, are changed, or have a gap.
 *
 *     follow_test FOLDER ROUNDS SEED
 *
 * First a leader process is killed while it sends, over a socket with answers, to a follower in this process, which mounts
 * between frames and after the end of the stream. Then a leader's stream is kept as bytes: it is ended at any byte, one bit
 * of it is flipped, a frame is left out, and followers are stopped at any store. Each follower must have the tree after a
 * prefix of the leader's calls, with all that it answered.
 *
 * Exit status: 0: all is right; 1: a tree is not; 2: the test could not go on.
 */
#define _GNU_SOURCE
#include <bpfs/file.h>
#include <bpfs/follow.h>
#include "model.h"
#include <bpfs/redo.h>
#include "shuffle.h"
#include <errno.h>
#include <signal.h>
#include <stdio.h>
#include <stdlib.h>
#include <string.h>
#include <sys/mman.h>
#include <sys/socket.h>
#include <sys/wait.h>
#include <unistd.h>

enum { CALLS = 300, LIVE_CALLS = 2000, GROUP = 7, BLOCKS = MODEL_BLOCKS, IMAGE_BYTES = BLOCKS * 8 * BPFS_BLOCK_WORDS };
enum { SHORT_WAIT = 1000, LONG_WAIT = 30000, PATIENCE = 100000, BROKEN = 2 };

static uint64_t state;
static char path[1024];

/* The bytes of a stream that ended by itself, and how many of them each call ends at. */
static struct {
    uint8_t *bytes;
    size_t count, capacity, ends[CALLS + 1];
} kept;

/* The words of that stream's leader at its end. */
static uint64_t last_words[IMAGE_BYTES / 8];

/* Shared with the leader process: how many calls it has begun, and how many the follower has answered. */
static struct shared {
    volatile uint32_t begun, durable;
} *shared;

static void stop(const char *what) {
    fprintf(stderr, "follow_test: %s\n", what);
    exit(BROKEN);
}

static bool complain(const char *what) {
    fprintf(stderr, "%s\n", what);
    return false;
}

static void must(bool it, const char *what) {
    if (!it) stop(what);
}

/* ---- followers */

/* A follower that keeps its image in a file. While a leader leads, it carries by file.c or by redo.c; a stream that is kept
 * goes to the mapped words, store by store, in any order within an epoch. */
typedef struct follower {
    bpfs_carrier mapped;
    bpfs_file file;
    bpfs_redo redo;
    bpfs_shuffle shuffle;
    bpfs_follower of;
    uint64_t *words;
} follower;

typedef enum way { BY_WORDS, BY_FILE, BY_REDO } way;

static int put(bpfs_carrier *carrier, uint64_t word, const uint64_t *values, size_t count) {
    memcpy(((follower *)carrier)->words + word, values, 8 * count);
    return 0;
}

static int nothing(bpfs_carrier *carrier) {
    (void)carrier;
    return 0;
}

/* Opens the file of a follower, of zeros if it is new. Returns its descriptor. */
static int open_medium(follower *it, way how) {
    bpfs_file *file = how == BY_REDO ? &it->redo.image : &it->file;
    if (access(path, F_OK)) {
        must(bpfs_file_make(file, path, BLOCKS, BPFS_FILE_CACHED) == 0 && bpfs_file_close(file) == 0, "no new file");
    }
    int code = how == BY_REDO ? bpfs_redo_open(&it->redo, path, BPFS_FILE_CACHED) : bpfs_file_open(file, path, BPFS_FILE_CACHED);
    must(code == 0, "no file for the follower");
    return file->fd;
}

/* Goes on with the image that is in the file, or begins with an empty one. */
static void begin_follower(follower *it, bool fresh, way how) {
    memset(it, 0, sizeof *it);
    it->file.fd = it->redo.fd = it->redo.image.fd = -1;
    if (fresh) unlink(path);
    int fd = open_medium(it, how);
    it->words = mmap(NULL, IMAGE_BYTES, PROT_READ | PROT_WRITE, MAP_SHARED, fd, 0);
    must(it->words != MAP_FAILED, "no map for the follower");
    it->mapped = (bpfs_carrier){.put = put, .barrier = nothing, .settle = nothing};
    bpfs_shuffle_of(&it->shuffle, &it->mapped, false, draw(&state, 1u << 31));
    bpfs_carrier *targets[] = {&it->shuffle.carrier, &it->file.carrier, &it->redo.carrier};
    must(bpfs_follower_resume(&it->of, targets[how], fd) == 0, "the follower does not resume");
}

static void end_follower(follower *it) {
    bpfs_follower_close(&it->of);
    bpfs_shuffle_close(&it->shuffle);
    munmap(it->words, IMAGE_BYTES);
    must(bpfs_file_close(&it->file) == 0 && bpfs_redo_close(&it->redo) == 0, "the follower's file is not closed");
}

/* Whether the follower's image is that of a prefix of the calls, of `least` to `most`. *made: of how many. */
static bool has_prefix(follower *it, model *tree, uint32_t *made, uint32_t least, uint32_t most, const char *what) {
    bpfs fs = BPFS_CLOSED;
    bpfs_fault fault = {0};
    uint32_t code = bpfs_mount(&fs, it->words, (size_t)BLOCKS * BPFS_BLOCK_WORDS, &fault);
    if (code == BPFS_NOT_FORMATTED && least == 0) return true; /* not all epochs of the format have come */
    if (code) return fprintf(stderr, "%s: the follower does not mount: %u, check %u at word %llu\n", what, code, fault.check, (unsigned long long)fault.place), false;
    bpfs_found found;
    bool begun = bpfs_stat(&fs, (const uint8_t *)"/d1", 3, &found) == BPFS_OK;
    bool right = !begun && least == 0;
    for (; begun && *made < least; ++*made) model_call(tree, NULL);
    if (begun) right = model_finds(tree, &fs, made, most);
    if (!right) fprintf(stderr, "%s: the follower has no prefix of %u to %u calls\n", what, least, most);
    bpfs_close(&fs);
    return right;
}

/* ---- a leader that is killed */

/* Makes a volume in a file, and leads: the follower gets a copy of the image, and then the epochs of the calls. */
static void lead(int fd, model *tree) {
    static char own[1100];
    bpfs fs = BPFS_CLOSED;
    bpfs_fault fault;
    bpfs_file file;
    bpfs_stream stream;
    snprintf(own, sizeof own, "%s.leader", path);
    unlink(own); /* a killed leader may have left it */
    bpfs_carrier *both[2] = {&stream.carrier, &file.carrier};
    if (bpfs_stream_of(&stream, fd, fd, 0) || bpfs_file_create(&file, own, BLOCKS, 1, BPFS_FILE_CACHED)) _exit(3);
    if (bpfs_file_mount(&fs, &file, &fault)) _exit(3);
    unlink(own);
    if (model_begin(&fs) || bpfs_carry(&fs, &file.carrier) || bpfs_copy_image(&fs, &stream.carrier)) _exit(3);
    for (uint32_t i = 0; i < LIVE_CALLS; i++) {
        shared->begun = i + 1;
        if (!model_call(tree, &fs)) _exit(4);
        if ((i + 1) % GROUP && i + 1 < LIVE_CALLS) continue;
        if (bpfs_carry_all(&fs, both, 2)) _exit(5);
        shared->durable = i + 1;
    }
    _exit(0);
}

static void answer(follower *it, int fd) {
    must(bpfs_follower_settle(&it->of) == 0, "not settled");
    it->of.asked = false;
    if (send(fd, &it->of.number, sizeof it->of.number, MSG_NOSIGNAL) < 0 && errno != EPIPE) stop("no answer");
}

/* Takes what comes, answers when it is asked, and looks at the image now and then. */
static bool follow_live(follower *it, int fd, model *tree, uint32_t *made, long *looks) {
    long n;
    while ((n = bpfs_follow_fd(&it->of, fd)) > 0) {
        if (it->of.asked) answer(it, fd);
        if (it->of.number == 0 || draw(&state, 16)) continue;
        ++*looks;
        if (!has_prefix(it, tree, made, *made, shared->begun, "live")) return false;
    }
    return n == 0 || complain("live: a frame was refused");
}

/* Kills the leader some time after it has begun `calls` calls; if none, perhaps before it leads. */
static void kill_after(pid_t leader, uint32_t calls) {
    for (int i = 0; shared->begun < calls && i < PATIENCE; i++) usleep(100);
    usleep(draw(&state, calls ? SHORT_WAIT : LONG_WAIT));
    kill(leader, SIGKILL);
    _exit(0);
}

static bool kill_a_leader(long *looks, long *lost) {
    static model tree;
    follower it;
    int ends[2];
    uint32_t made = 0;
    model_clear(&tree, draw(&state, 1u << 31));
    must(socketpair(AF_UNIX, SOCK_STREAM, 0, ends) == 0, "no socket");
    shared->begun = shared->durable = 0;
    pid_t leader = fork();
    must(leader >= 0, "no fork");
    if (leader == 0) {
        close(ends[0]);
        lead(ends[1], &tree);
    }
    close(ends[1]);
    uint32_t calls = draw(&state, 8) ? draw(&state, LIVE_CALLS) : 0;
    pid_t killer = fork();
    if (killer == 0) kill_after(leader, calls);
    begin_follower(&it, true, draw(&state, 2) ? BY_FILE : BY_REDO);
    bool right = follow_live(&it, ends[0], &tree, &made, looks);
    int status = 0;
    must(waitpid(killer, NULL, 0) == killer && waitpid(leader, &status, 0) == leader, "no child");
    if (WIFEXITED(status) && WEXITSTATUS(status)) fprintf(stderr, "the leader ended with status %d\n", WEXITSTATUS(status));
    must(!WIFEXITED(status) || WEXITSTATUS(status) == 0, "the leader failed");
    uint32_t durable = shared->durable, begun = shared->begun;
    if (right) right = has_prefix(&it, &tree, &made, durable > made ? durable : made, begun, "the leader is gone");
    *lost += made < begun;
    end_follower(&it);
    close(ends[0]);
    return right;
}

/* ---- a stream that is kept */

static int keep(void *to, const uint64_t *frame, size_t count) {
    (void)to;
    if (kept.count + 8 * count > kept.capacity) {
        kept.capacity = 2 * (kept.count + 8 * count);
        kept.bytes = realloc(kept.bytes, kept.capacity);
        must(kept.bytes != NULL, "no memory");
    }
    memcpy(kept.bytes + kept.count, frame, 8 * count);
    kept.count += 8 * count;
    return 0;
}

/* Makes the stream of a format and some calls. */
static void make_stream(model *tree) {
    bpfs fs = BPFS_CLOSED;
    bpfs_fault fault;
    bpfs_stream stream;
    uint64_t *words = calloc((size_t)BLOCKS * BPFS_BLOCK_WORDS, 8);
    bpfs_event events[16];
    size_t count = 0;
    must(words && bpfs_format_events(BLOCKS, 2, events, 16, &count) == BPFS_OK, "no format");
    for (size_t i = 0; i < count; i++)
        if (events[i].kind == BPFS_STORE) words[events[i].word] = events[i].value;
    kept.count = 0;
    bpfs_stream_to(&stream, keep, NULL, 0);
    must(bpfs_format(&stream.carrier, BLOCKS, 2) == 0, "no format");
    must(bpfs_mount(&fs, words, (size_t)BLOCKS * BPFS_BLOCK_WORDS, &fault) == BPFS_OK, "no volume");
    must(bpfs_bind(&fs, &stream.carrier) == 0 && model_begin(&fs) == BPFS_OK, "no volume");
    for (int i = 0; i <= CALLS; i++) {
        must(bpfs_carry(&fs, &stream.carrier) == 0, "no carry");
        kept.ends[i] = kept.count;
        if (i < CALLS) must(model_call(tree, &fs), "the model gives another result");
    }
    must(bpfs_words(&fs, 0, last_words, IMAGE_BYTES / 8) == BPFS_OK, "no words");
    bpfs_close(&fs);
    bpfs_stream_close(&stream);
    free(words);
}

/* How many whole calls are in the first `bytes` bytes of the stream. */
static uint32_t calls_in(size_t bytes) {
    uint32_t calls = 0;
    while (calls < CALLS && kept.ends[calls + 1] <= bytes) calls++;
    return bytes < kept.ends[0] ? 0 : calls;
}

/* Gives a follower bytes of the stream in pieces of any length. Whether it takes all. */
static bool give(follower *it, const uint8_t *bytes, size_t count) {
    for (size_t at = 0; at < count;) {
        size_t n = 1 + draw(&state, 1u << draw(&state, 17));
        if (n > count - at) n = count - at;
        if (bpfs_follow(&it->of, bytes + at, n)) return false;
        at += n;
    }
    return true;
}

static size_t any_byte(void) {
    return draw(&state, (uint32_t)kept.count);
}

static bool cut_off(const model *first) {
    static model tree;
    follower it;
    uint32_t made = 0;
    size_t cut = any_byte();
    tree = *first;
    begin_follower(&it, true, BY_WORDS);
    must(give(&it, kept.bytes, cut), "the follower refused a right stream");
    bool right = has_prefix(&it, &tree, &made, calls_in(cut), CALLS, "cut off");
    end_follower(&it);
    return right;
}

/* Most flips are refused. A flip in a count of words makes the follower wait for more. None may be applied. */
static bool flip_a_bit(const model *first, long *refused) {
    static model tree;
    follower it;
    uint32_t made = 0;
    size_t at = any_byte();
    uint8_t bit = (uint8_t)(1u << draw(&state, 8));
    tree = *first;
    begin_follower(&it, true, BY_WORDS);
    kept.bytes[at] ^= bit;
    bool all = give(&it, kept.bytes, kept.count);
    kept.bytes[at] ^= bit;
    *refused += !all;
    bool right = has_prefix(&it, &tree, &made, calls_in(at), CALLS, "flipped");
    if (made > calls_in(at) + 1) right = complain("flipped: something after the flip was applied");
    end_follower(&it);
    return right;
}

/* Whether a follower of the whole stream has the leader's words, except its note. */
static bool has_last_words(follower *it) {
    last_words[BPFS_NOTE_WORD] = it->words[BPFS_NOTE_WORD];
    return memcmp(it->words, last_words, IMAGE_BYTES) == 0 || complain("gone on: the follower has other words than the leader");
}

/* Stops a follower between two stores of an epoch, which come in any order. Another one goes on from the note. */
static bool stop_and_go_on(const model *first) {
    static model tree;
    follower it;
    uint32_t made = 0;
    tree = *first;
    begin_follower(&it, true, BY_WORDS);
    it.shuffle.left = draw(&state, 20000);
    bool all = give(&it, kept.bytes, kept.count);
    bool right = has_prefix(&it, &tree, &made, all ? CALLS : 0, CALLS, "stopped");
    end_follower(&it);
    begin_follower(&it, false, BY_WORDS);
    must(give(&it, kept.bytes, kept.count), "the follower refused a stream that it had begun with");
    right = right && has_prefix(&it, &tree, &made, CALLS, CALLS, "gone on") && has_last_words(&it);
    end_follower(&it);
    return right;
}

/* A stream that lacks a frame is refused at that place. */
static bool leave_a_frame_out(const model *first) {
    static model tree;
    follower it;
    uint32_t made = 0, call = draw(&state, CALLS - 1);
    while (call < CALLS - 1 && kept.ends[call + 1] == kept.ends[call]) call++;
    size_t from = kept.ends[call], to = kept.ends[call + 1];
    tree = *first;
    begin_follower(&it, true, BY_WORDS);
    must(give(&it, kept.bytes, from), "the follower refused a right stream");
    bool refused = !give(&it, kept.bytes + to, kept.count - to);
    bool right = has_prefix(&it, &tree, &made, call, call, "left out");
    if (from < to && to < kept.count && !refused) right = complain("left out: nothing was refused");
    end_follower(&it);
    return right;
}

int main(int argc, char **argv) {
    static model first, tree;
    if (argc != 4) stop("follow_test FOLDER ROUNDS SEED");
    snprintf(path, sizeof path, "%s/follower", argv[1]);
    int rounds = atoi(argv[2]);
    long looks = 0, lost = 0, refused = 0;
    state = strtoull(argv[3], NULL, 10);
    shared = mmap(NULL, sizeof *shared, PROT_READ | PROT_WRITE, MAP_SHARED | MAP_ANONYMOUS, -1, 0);
    must(shared != MAP_FAILED, "no memory");
    for (int i = 0; i < rounds; i++)
        if (!kill_a_leader(&looks, &lost)) return 1;
    for (int i = 0; i < rounds; i++) {
        if (i % 50 == 0) {
            model_clear(&first, draw(&state, 1u << 31));
            tree = first;
            make_stream(&tree);
        }
        if (!cut_off(&first) || !flip_a_bit(&first, &refused) || !stop_and_go_on(&first) || !leave_a_frame_out(&first)) return 1;
    }
    unlink(path);
    free(kept.bytes);
    printf("%d leaders killed, %ld looks while they led, %ld with calls lost; ", rounds, looks, lost);
    printf("%d streams cut, %d flipped (%ld refused), %d stopped, %d with a gap\n", rounds, rounds, refused, rounds, rounds);
    return 0;
}
