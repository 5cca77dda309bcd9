/* kill_test.c - kills a writer at random moments, and checks that its image has the tree after a
 * prefix of its calls, with all that were carried.
 *
 *     kill_test IMAGE ROUNDS SEED ordered|shuffled|redo|mapped|careless GROUP [CHECKER]
 *
 * A child mounts IMAGE, makes random calls, and carries the log after each GROUP of them. It is
 * killed by its parent after some time, or by itself between two stores. It carries by the file's
 * carrier (ordered), by that with the stores of each epoch in any order (shuffled), through a
 * journal (redo), by libpmem to the mapped file (mapped), or by a carrier that ignores barriers,
 * which has to be found (careless).
 *
 * The tree that is left is compared with a plain model (model.h). CHECKER is the program bpfs,
 * which checks the image too. The status is 0 if each tree is right, 1 if one is not, and 2 if the
 * test itself could not go on.
 */
#define _GNU_SOURCE
#include <bpfs/file.h>
#include "model.h"
#ifdef HAS_PMEM
#include <bpfs/pmem.h>
#endif
#include <bpfs/redo.h>
#include "shuffle.h"
#include <fcntl.h>
#include <signal.h>
#include <stdio.h>
#include <stdlib.h>
#include <string.h>
#include <sys/mman.h>
#include <sys/wait.h>
#include <unistd.h>

enum { CALLS = 3000, LONGEST_WAIT = 30000, MOST_STORES = 60000, PATIENCE = 100000, WRONG = 1, BROKEN = 2 };

typedef enum order { ORDERED, SHUFFLED, REDO, MAPPED, CARELESS, NO_ORDER } order;

static const char *const orders[] = {"ordered", "shuffled", "redo", "mapped", "careless"};

/* What the writer reports to its parent: how many calls it has begun, and how many of them it knows
 * to be durable. */
typedef struct report {
    volatile uint32_t begun, durable;
} report;

typedef struct test {
    const char *image, *checker;
    order order;
    uint32_t group;
    uint64_t state;
    report *report;
    model tree;
    long killed, ended, open, lost, calls;
} test;

static void end(int status, const char *what) {
    fprintf(stderr, "kill_test: %s\n", what);
    exit(status);
}

static void stop(const char *what) {
    end(BROKEN, what);
}

static void die(void) {
    kill(getpid(), SIGKILL);
}

/* ---- the writer */

static bpfs_carrier *open_mapped(test *t, bpfs *fs, bpfs_fault *fault) {
#ifdef HAS_PMEM
    static bpfs_pmem pmem;
    if (bpfs_pmem_open(&pmem, t->image) == 0 && bpfs_pmem_mount(fs, &pmem, fault) == 0) return &pmem.carrier;
#else
    (void)fs, (void)fault;
#endif
    fprintf(stderr, "kill_test: %s is not persistent memory\n", t->image);
    _exit(BROKEN);
}

/* The carrier that the test is of, with its volume mounted. */
static bpfs_carrier *open_medium(test *t, bpfs *fs, bool counted) {
    static bpfs_file file;
    static bpfs_redo redo;
    static bpfs_shuffle shuffle;
    bpfs_fault fault;
    if (t->order == MAPPED) return open_mapped(t, fs, &fault);
    if (t->order == REDO) {
        if (bpfs_redo_open(&redo, t->image, BPFS_FILE_CACHED) || bpfs_redo_mount(fs, &redo, &fault)) _exit(3);
        return &redo.carrier;
    }
    if (bpfs_file_open(&file, t->image, BPFS_FILE_CACHED) || bpfs_file_mount(fs, &file, &fault)) _exit(3);
    if (t->order == ORDERED) return &file.carrier;
    bpfs_shuffle_of(&shuffle, &file.carrier, t->order == CARELESS, t->state);
    shuffle.end = die;
    if (counted) shuffle.left = draw(&t->state, MOST_STORES);
    if (bpfs_bind(fs, &shuffle.carrier)) _exit(3);
    return &shuffle.carrier;
}

/* Makes the calls, in the child. */
static void write_on(test *t, bool counted) {
    bpfs fs = BPFS_CLOSED;
    bpfs_carrier *carrier = open_medium(t, &fs, counted);
    for (uint32_t i = 0; i < CALLS; i++) {
        t->report->begun = i + 1;
        if (!model_call(&t->tree, &fs)) _exit(4);
        if ((i + 1) % t->group && i + 1 < CALLS && bpfs_event_count(&fs) < BPFS_LOG_ROOM) continue;
        if (bpfs_carry(&fs, carrier)) _exit(5);
        t->report->durable = i + 1;
    }
    _exit(0);
}

static void kill_a_writer(test *t) {
    bool counted = (t->order == SHUFFLED || t->order == CARELESS) && draw(&t->state, 2);
    bool late = draw(&t->state, 8); /* most are killed after their mount */
    uint32_t wait = draw(&t->state, LONGEST_WAIT);
    t->report->begun = t->report->durable = 0;
    pid_t pid = fork();
    if (pid < 0) stop("no fork");
    if (pid == 0) write_on(t, counted);
    int status;
    for (int i = 0; late && !t->report->begun && i < PATIENCE; i++) usleep(100);
    if (!counted) {
        usleep(wait);
        kill(pid, SIGKILL);
    }
    if (waitpid(pid, &status, 0) != pid) stop("no child");
    if (WIFEXITED(status) && WEXITSTATUS(status)) end(WRONG, "a call or a carry of the writer did not return what it has to");
    if (WIFEXITED(status)) t->ended++;
    else t->killed++;
}

/* ---- what is left */

/* Whether the volume shows a prefix of the calls, of at least `least`; it is closed again. */
static bool shows_prefix(test *t, bpfs *fs, int code, uint32_t *made, uint32_t least, int round) {
    uint32_t begun = t->report->begun;
    for (; !code && *made < least; ++*made) model_call(&t->tree, NULL);
    bool found = !code && model_finds(&t->tree, fs, made, begun);
    if (code) fprintf(stderr, "round %d: what is left does not mount: %d\n", round, code);
    else if (!found) fprintf(stderr, "round %d: no prefix of %u to %u calls\n", round, least, begun);
    if (!code) bpfs_close(fs);
    return found;
}

/* Mounts the words of the image as they are, without its journal. */
static int mount_bare(bpfs *fs, const char *image) {
    size_t length = (size_t)MODEL_BLOCKS * 8 * BPFS_BLOCK_WORDS;
    bpfs_fault fault;
    int fd = open(image, O_RDONLY);
    void *words = mmap(NULL, length, PROT_READ, MAP_SHARED, fd, 0);
    if (fd < 0 || words == MAP_FAILED) stop("no file");
    int code = (int)bpfs_mount(fs, words, length / 8, &fault);
    munmap(words, length);
    close(fd);
    return code;
}

/* Opens the image by its journal, which puts it right, and closes it. */
static bool look_by_journal(test *t, uint32_t *made, int round) {
    bpfs_redo redo;
    bpfs fs = BPFS_CLOSED;
    bpfs_fault fault;
    if (bpfs_redo_open(&redo, t->image, BPFS_FILE_CACHED)) stop("the journal does not open");
    bool found = shows_prefix(t, &fs, bpfs_redo_mount(&fs, &redo, &fault), made, *made, round);
    if (bpfs_redo_close(&redo)) stop("the journal does not close");
    return found;
}

/* Whether what is left is right. */
static bool look(test *t, int round) {
    bpfs fs = BPFS_CLOSED;
    uint32_t begun = t->report->begun, durable = t->report->durable, made = 0;
    bool found = shows_prefix(t, &fs, mount_bare(&fs, t->image), &made, durable, round);
    if (found && t->order == REDO) found = look_by_journal(t, &made, round);
    t->open += durable < begun, t->lost += made < begun, t->calls += made;
    return found;
}

static bool checker_takes_it(const test *t, int round) {
    if (!t->checker) return true;
    pid_t pid = fork();
    if (pid == 0) {
        if (!freopen("/dev/null", "w", stdout)) _exit(BROKEN);
        execl(t->checker, t->checker, "check", t->image, (char *)NULL);
        _exit(BROKEN);
    }
    int status = 0;
    if (pid < 0 || waitpid(pid, &status, 0) != pid) stop("no checker");
    if (status) fprintf(stderr, "round %d: %s refuses it\n", round, t->checker);
    return status == 0;
}

static void begin(test *t) {
    bpfs_file file;
    bpfs fs = BPFS_CLOSED;
    bpfs_fault fault;
    uint32_t version = 1 + draw(&t->state, 6) / 2; /* each of the three, by the seeds of test.sh */
    unlink(t->image);
    if (bpfs_file_create(&file, t->image, MODEL_BLOCKS, version, BPFS_FILE_CACHED)) stop("no image");
    if (bpfs_file_mount(&fs, &file, &fault) || model_begin(&fs) || bpfs_carry(&fs, &file.carrier)) stop("no volume");
    if (bpfs_close(&fs) || bpfs_file_close(&file)) stop("no close");
    model_clear(&t->tree, t->state);
    t->tree.has_attributes = version == 3;
}

static order order_of(const char *name) {
    order it = 0;
    while (it < NO_ORDER && strcmp(orders[it], name)) it++;
    if (it == NO_ORDER) stop("ordered, shuffled, redo, mapped or careless?");
    return it;
}

int main(int argc, char **argv) {
    static test t;
    if (argc < 6) stop("usage: kill_test IMAGE ROUNDS SEED ordered|shuffled|redo|mapped|careless GROUP [CHECKER]");
    t.image = argv[1], t.order = order_of(argv[4]), t.group = (uint32_t)atoi(argv[5]), t.checker = argc > 6 ? argv[6] : NULL;
    t.state = strtoull(argv[3], NULL, 10);
    t.report = mmap(NULL, sizeof *t.report, PROT_READ | PROT_WRITE, MAP_SHARED | MAP_ANONYMOUS, -1, 0);
    if (t.report == MAP_FAILED || t.group == 0) stop("no memory, or a group of none");
    begin(&t);
    int rounds = atoi(argv[2]);
    for (int round = 0; round < rounds; round++) {
        kill_a_writer(&t);
        if (!look(&t, round) || !checker_takes_it(&t, round)) return WRONG;
    }
    unlink(t.image);
    printf("%s, by %u: %ld killed, %ld ended; ", argv[4], t.group, t.killed, t.ended);
    printf("%ld with calls open, of which %ld lost some; %ld calls\n", t.open, t.lost, t.calls);
    return 0;
}
