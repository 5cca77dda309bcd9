/* follower_restart_test.c - kills the program follower, and fails power, at any of its calls, on a simulated disk (medium.h).
 *
 *     follower_restart_test CUTS SEED
 *
 * The follower's main is linked in as follower_main. It gets a stream that a leader made earlier, and ends at some call. Then
 * it starts again, mostly more than once. In the end IMAGE must have the old tree, if the copy was not answered, or the
 * leader's tree after a prefix of the calls, with all that were answered.
 *
 * Exit status: 0: all is right; 1: a tree is not; 2: the test could not go on.
 */
#define _GNU_SOURCE
#include <bpfs/follow.h>
#include "medium.h"
#include "model.h"
#include <bpfs/redo.h>
#include <errno.h>
#include <fcntl.h>
#include <stdio.h>
#include <stdlib.h>
#include <string.h>
#include <sys/mman.h>
#include <unistd.h>

enum { BLOCKS = MODEL_BLOCKS, GROUPS = 20, GROUP = 4, CALLS = GROUPS * GROUP, FRESH = 40 /* rounds with one stream */ };

#define IMAGE MEDIUM "image"
#define P(text) (const uint8_t *)(text), strlen(text)

int follower_main(int argc, char **argv);

static uint64_t state;
static bpfs_lack lack;

/* A leader's stream: a copy, and groups of calls, each with a question after it. */
static struct {
    int fd;
    uint64_t copied, ends[GROUPS]; /* the numbers of the epochs that are asked for */
} made;

static struct {
    long kills, failures, answered, lost;
} counts;

static void must(bool it, const char *what) {
    if (it) return;
    perror(what);
    exit(2);
}

/* ---- the leader */

static int keep(void *to, const uint64_t *frame, size_t count) {
    (void)to;
    return write(made.fd, frame, 8 * count) == (ssize_t)(8 * count) ? 0 : -1;
}

static uint64_t ask(const bpfs_stream *stream) {
    uint64_t frame[BPFS_FRAME_HEAD] = {BPFS_FRAME_MARK, stream->number, 0};
    frame[2] = bpfs_stream_sum(frame, 0);
    must(keep(NULL, frame, BPFS_FRAME_HEAD) == 0, "no question");
    return stream->number;
}

static void make_stream(model *tree) {
    static uint64_t words[BLOCKS * BPFS_BLOCK_WORDS];
    bpfs fs = BPFS_CLOSED;
    bpfs_fault fault;
    bpfs_stream stream;
    bpfs_event events[16];
    size_t count = 0;
    if (made.fd) close(made.fd);
    made.fd = memfd_create("stream", 0);
    must(made.fd >= 0 && bpfs_format_events(BLOCKS, 2, events, 16, &count) == BPFS_OK, "no format");
    memset(words, 0, sizeof words);
    for (size_t i = 0; i < count; i++)
        if (events[i].kind == BPFS_STORE) words[events[i].word] = events[i].value;
    must(bpfs_mount(&fs, words, BLOCKS * BPFS_BLOCK_WORDS, &fault) == BPFS_OK, "no volume");
    must(model_begin(&fs) == BPFS_OK && bpfs_drain(&fs) == BPFS_OK, "no folders");
    bpfs_stream_to(&stream, keep, NULL, 0);
    must(bpfs_copy_image(&fs, &stream.carrier) == 0, "no copy");
    made.copied = ask(&stream);
    for (int i = 0; i < CALLS; i++) {
        must(model_call(tree, &fs), "the model returns something else");
        if ((i + 1) % GROUP) continue;
        must(bpfs_carry(&fs, &stream.carrier) == 0, "no carry");
        made.ends[i / GROUP] = ask(&stream);
    }
    bpfs_close(&fs);
    bpfs_stream_close(&stream);
}

/* How many calls have an answer. */
static uint32_t calls_in(uint64_t answered) {
    uint32_t groups = 0;
    while (groups < GROUPS && made.ends[groups] <= answered) groups++;
    return answered < made.copied ? 0 : groups * GROUP;
}

/* ---- the follower */

static int saved[3];

/* Runs the follower with a file as its input, and another one for its answers. Returns its status. */
static int run(int in, uint64_t *answered) {
    int out = memfd_create("answers", 0), null = open("/dev/null", O_WRONLY);
    char blocks[16], *argv[] = {"follower", IMAGE, blocks, NULL};
    snprintf(blocks, sizeof blocks, "%d", BLOCKS);
    must(out >= 0 && null >= 0 && lseek(in, 0, SEEK_SET) == 0, "no files");
    must(dup2(in, 0) == 0 && dup2(out, 1) == 1 && dup2(null, 2) == 2, "no standard files");
    int status = follower_main(3, argv);
    for (int i = 0; i < 3; i++) must(dup2(saved[i], i) == i, "no standard files");
    off_t size = lseek(out, 0, SEEK_END);
    if (size >= 8) must(pread(out, answered, 8, size - 8) == 8, "no answer");
    close(out);
    close(null);
    return status;
}

static int run_without_stream(void) {
    uint64_t answered = 0;
    int in = open("/dev/null", O_RDONLY);
    must(in >= 0, "/dev/null");
    int status = run(in, &answered);
    close(in);
    return status;
}

/* ---- rounds */

static void make_old_image(void) {
    bpfs fs = BPFS_CLOSED;
    bpfs_redo redo;
    bpfs_fault fault;
    must(bpfs_redo_create(&redo, IMAGE, BLOCKS, 2, BPFS_FILE_WAITS) == 0 && bpfs_redo_mount(&fs, &redo, &fault) == 0, IMAGE);
    must(bpfs_create(&fs, P("/old"), &lack) == BPFS_OK && bpfs_carry(&fs, &redo.carrier) == 0, IMAGE);
    bpfs_close(&fs);
    must(bpfs_redo_close(&redo) == 0, IMAGE);
}

static bool complain(const char *what, uint64_t answered) {
    fprintf(stderr, "%s: epoch %llu was answered, of %llu of the copy\n", what, (unsigned long long)answered,
            (unsigned long long)made.copied);
    return false;
}

/* Whether IMAGE shows what it may show after these answers. */
static bool is_right(bool had_old, uint64_t answered, const model *first) {
    static model tree;
    bpfs fs = BPFS_CLOSED;
    bpfs_redo redo;
    bpfs_fault fault;
    bpfs_found found;
    uint32_t calls = 0;
    bool may_be_old = answered < made.copied;
    if (medium_size(IMAGE) < 0) return (may_be_old && !had_old) || complain("there is no image", answered);
    if (bpfs_redo_open(&redo, IMAGE, BPFS_FILE_WAITS)) return complain("the image can't be opened", answered);
    int code = bpfs_redo_mount(&fs, &redo, &fault);
    bool right = code == 0 || complain("the image does not mount", answered);
    if (right && bpfs_stat(&fs, P("/old"), &found) == BPFS_OK) {
        right = may_be_old || complain("the image is the old one", answered);
    } else if (right) {
        tree = *first;
        for (; calls < calls_in(answered); calls++) model_repeat(&tree, calls);
        right = model_finds(&tree, &fs, &calls, CALLS) || complain("the image shows no prefix", answered);
        counts.lost += calls < CALLS;
    }
    bpfs_close(&fs);
    must(bpfs_redo_close(&redo) == 0, "not closed");
    return right;
}

/* Plans an end at one of the follower's next calls. Of a whole run there are some 5,000. */
static void plan_an_end(void) {
    medium_end how = (medium_end[]){MEDIUM_KILL, MEDIUM_POWER, MEDIUM_LOSES}[draw(&state, 3)];
    *(how == MEDIUM_KILL ? &counts.kills : &counts.failures) += 1;
    medium_end_after(1 + draw(&state, draw(&state, 2) ? 5000 : 1u << draw(&state, 11)), how);
}

static bool cut(const model *first) {
    bool had_old = draw(&state, 8);
    uint64_t answered = 0;
    medium_clear(draw(&state, 1u << 31));
    if (had_old) make_old_image();
    plan_an_end();
    int status = run(made.fd, &answered);
    if (status && !medium_has_ended()) return complain("the follower failed", answered);
    for (uint32_t i = draw(&state, 3); i > 0 && medium_has_ended(); i--) {
        medium_restart();
        plan_an_end();
        run_without_stream();
    }
    if (!medium_has_ended()) medium_end_now(MEDIUM_LOSES);
    medium_restart();
    if (run_without_stream()) return complain("the follower does not start again", answered);
    medium_end_now(MEDIUM_LOSES);
    medium_restart();
    counts.answered += answered > 0;
    return is_right(had_old, answered, first);
}

int main(int argc, char **argv) {
    static model first, tree;
    if (argc != 3) return fprintf(stderr, "usage: follower_restart_test CUTS SEED\n"), 2;
    long cuts = atol(argv[1]);
    state = strtoull(argv[2], NULL, 10);
    for (int i = 0; i < 3; i++) must((saved[i] = dup(i)) >= 0, "no standard files");
    for (long i = 0; i < cuts; i++) {
        if (i % FRESH == 0) {
            model_clear(&first, draw(&state, 1u << 31));
            tree = first;
            make_stream(&tree);
        }
        if (!cut(&first)) return fprintf(stderr, "in round %ld\n", i), 1;
    }
    printf("follower: %ld kills and %ld power failures, ", counts.kills, counts.failures);
    printf("%ld rounds with answers, %ld with calls lost, none answered\n", counts.answered, counts.lost);
    return 0;
}
