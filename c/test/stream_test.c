/* stream_test.c - what a leader makes of answers, and what a follower refuses.
 *
 * A child process is the follower at the other end of a socket; it answers what a case wants. The test fails if both ends
 * wait for each other.
 */
#define _GNU_SOURCE
#include <bpfs/follow.h>
#include <errno.h>
#include <signal.h>
#include <stdio.h>
#include <stdlib.h>
#include <string.h>
#include <sys/socket.h>
#include <sys/wait.h>
#include <unistd.h>

enum { PATIENCE = 20, MANY = 20000, BLOCKS = 8 };

static int wrong, cases;

static void is(bool it, const char *what) {
    cases++;
    if (it) return;
    fprintf(stderr, "stream_test: %s\n", what);
    wrong = 1;
}

static void must(bool it, const char *what) {
    if (it) return;
    perror(what);
    exit(2);
}

/* ---- the follower's end */

static void answer_bytes(int fd, uint64_t number, size_t from, size_t count) {
    must(write(fd, (const char *)&number + from, count) == (ssize_t)count, "no answer");
}

static void answer(int fd, uint64_t number) {
    answer_bytes(fd, number, 0, sizeof number);
}

/* Reads one frame. Returns the number of its epoch, or 0 at the end of the stream. */
static uint64_t next_frame(int fd, size_t *payload) {
    static uint64_t rest[BPFS_FRAME_MOST];
    uint64_t head[BPFS_FRAME_HEAD];
    if (recv(fd, head, sizeof head, MSG_WAITALL) != sizeof head) return 0;
    *payload = (size_t)(head[0] >> 32);
    if (*payload && recv(fd, rest, 8 * *payload, MSG_WAITALL) != (ssize_t)(8 * *payload)) return 0;
    return head[1];
}

/* Reads frames up to the first question. Returns the number in it. */
static uint64_t next_question(int fd) {
    size_t payload = 1;
    uint64_t number = 0;
    while (payload) number = next_frame(fd, &payload);
    return number;
}

static void in_two_parts(int fd) {
    uint64_t number = next_question(fd);
    answer_bytes(fd, number, 0, 3);
    usleep(50000);
    answer_bytes(fd, number, 3, 5);
}

static void byte_by_byte(int fd) {
    uint64_t number = next_question(fd);
    for (size_t i = 0; i < sizeof number; i++) answer_bytes(fd, number, i, 1);
}

static void greatest(int fd) {
    next_question(fd);
    answer(fd, UINT64_MAX);
    pause();
}

static void one_too_high(int fd) {
    answer(fd, next_question(fd) + 1);
    pause();
}

static void backwards(int fd) {
    answer(fd, next_question(fd));
    answer(fd, next_question(fd) - 2);
    pause();
}

static void step_by_step(int fd) {
    uint64_t number = next_question(fd);
    for (uint64_t i = 1; i <= number; i++) answer(fd, i);
}

static void part_and_end(int fd) {
    answer_bytes(fd, next_question(fd), 0, 5);
}

static void at_once_the_end(int fd) {
    (void)fd;
}

/* Answers each epoch, though nobody asks, and waits until each answer is taken by the kernel. */
static void answers_each(int fd) {
    size_t payload;
    uint64_t number;
    while ((number = next_frame(fd, &payload))) answer(fd, number);
}

/* ---- the leader's end */

static pid_t child;

static int begin(bpfs_stream *stream, void (*peer)(int fd)) {
    int ends[2];
    must(socketpair(AF_UNIX, SOCK_STREAM, 0, ends) == 0, "no socket");
    child = fork();
    must(child >= 0, "no fork");
    if (child == 0) {
        close(ends[0]);
        peer(ends[1]);
        _exit(0);
    }
    close(ends[1]);
    must(bpfs_stream_of(stream, ends[0], ends[0], 0) == 0, "no stream");
    return ends[0];
}

static void end(bpfs_stream *stream, int fd) {
    bpfs_stream_close(stream);
    close(fd);
    kill(child, SIGKILL);
    must(waitpid(child, NULL, 0) == child, "no child");
}

/* Puts one word, as an epoch of its own. */
static int send_epoch(bpfs_stream *stream) {
    const uint64_t value = 7;
    return stream->carrier.put(&stream->carrier, 20, &value, 1) || stream->carrier.barrier(&stream->carrier) ? -1 : 0;
}

static int settle(bpfs_stream *stream) {
    return stream->carrier.settle(&stream->carrier);
}

static void takes(void (*peer)(int fd), const char *what) {
    bpfs_stream stream;
    int fd = begin(&stream, peer);
    for (int i = 0; i < 3; i++) is(send_epoch(&stream) == 0, what);
    is(settle(&stream) == 0 && stream.heard == 3, what);
    end(&stream, fd);
}

/* The first settle succeeds if `good`. The next one fails with `why`, and so does all after it. */
static void refuses(void (*peer)(int fd), bool good, int why, const char *what) {
    bpfs_stream stream;
    int fd = begin(&stream, peer);
    is(send_epoch(&stream) == 0 && send_epoch(&stream) == 0, what);
    if (good) is(settle(&stream) == 0 && send_epoch(&stream) == 0, what);
    is(settle(&stream) == -1 && errno == why, what);
    is(settle(&stream) == -1 && errno == why, what);
    is(send_epoch(&stream) == -1 && errno == why, what);
    is(stream.heard <= stream.number, what);
    end(&stream, fd);
}

/* Neither end may wait for the other one for ever. */
static void sends_many(void) {
    bpfs_stream stream;
    int fd = begin(&stream, answers_each);
    bool right = true;
    for (int i = 0; i < MANY && right; i++) right = send_epoch(&stream) == 0;
    is(right && settle(&stream) == 0 && stream.heard == MANY, "answers that nobody asked for");
    end(&stream, fd);
}

/* Sending to a follower that is gone is an error, and no signal. */
static void peer_is_gone(void) {
    bpfs_stream stream;
    int fd = begin(&stream, at_once_the_end);
    int code = 0;
    for (int i = 0; i < MANY && code == 0; i++) code = send_epoch(&stream) ? -1 : settle(&stream);
    is(code == -1 && (errno == EPIPE || errno == ECONNRESET), "a follower that is gone");
    end(&stream, fd);
}

static int fails_once(void *to, const uint64_t *frame, size_t count) {
    (void)frame, (void)count;
    return ++*(int *)to == 1 ? (errno = ENOLINK, -1) : 0;
}

static void send_fails(void) {
    bpfs_stream stream;
    int calls = 0;
    bpfs_stream_to(&stream, fails_once, &calls, 0);
    is(send_epoch(&stream) == -1 && errno == ENOLINK, "a send that fails");
    is(send_epoch(&stream) == -1 && errno == ENOLINK && calls == 1, "after a send that failed");
    bpfs_stream_close(&stream);
}

static void epoch_is_too_long(void) {
    static const uint64_t values[BPFS_FRAME_MOST / 2];
    bpfs_stream stream;
    int calls = 1;
    bpfs_stream_to(&stream, fails_once, &calls, 0);
    is(stream.carrier.put(&stream.carrier, 0, values, BPFS_FRAME_MOST / 2) == 0, "half of the longest epoch");
    is(stream.carrier.put(&stream.carrier, 0, values, BPFS_FRAME_MOST / 2) == -1 && errno == EMSGSIZE, "an epoch that is too long");
    bpfs_stream_close(&stream);
}

/* ---- a follower */

static uint64_t image[BLOCKS * BPFS_BLOCK_WORDS];
static int stores, syncs;

static int put_word(bpfs_carrier *carrier, uint64_t word, const uint64_t *values, size_t count) {
    (void)carrier;
    memcpy(image + word, values, 8 * count);
    stores++;
    return 0;
}

static int nothing(bpfs_carrier *carrier) {
    (void)carrier;
    return 0;
}

static bpfs_carrier medium = {.put = put_word, .barrier = nothing, .settle = nothing};

/* Gives a new follower one frame with one run. Whether it refuses it, and stores nothing. */
static bool is_refused(uint64_t word, size_t count, uint64_t number) {
    uint64_t frame[BPFS_FRAME_HEAD + 1 + 8] = {0};
    bpfs_follower follower;
    frame[0] = BPFS_FRAME_MARK | (uint64_t)(1 + count) << 32;
    frame[1] = number;
    frame[3] = word | (uint64_t)count << BPFS_PLACE_BITS;
    frame[2] = bpfs_stream_sum(frame, 1 + count);
    bpfs_follower_of(&follower, &medium, BLOCKS, 0);
    stores = 0;
    bool refused = bpfs_follow(&follower, frame, 8 * (BPFS_FRAME_HEAD + 1 + count)) == -1 && errno == EBADMSG && stores == 0;
    bpfs_follower_close(&follower);
    return refused;
}

static void follower_refuses(void) {
    is(!is_refused(5, 8, 1), "a right frame");
    is(!is_refused(BPFS_REDO_WORD - 8, 8, 1), "the words before those of the medium");
    is(is_refused(BPFS_REDO_WORD, 1, 1), "a store to the word of the journal");
    is(is_refused(BPFS_NOTE_WORD, 1, 1), "a store to the note");
    is(is_refused(BPFS_REDO_WORD - 4, 8, 1), "a run over both words");
    is(is_refused(BLOCKS * BPFS_BLOCK_WORDS - 1, 2, 1), "a word past the image");
    is(is_refused(5, 1, 2), "a number that leaves a gap");
}

/* A question is no epoch. One about an epoch that has not come is refused. */
static void follower_is_asked(void) {
    uint64_t frame[BPFS_FRAME_HEAD] = {BPFS_FRAME_MARK, 0, 0};
    bpfs_follower follower;
    bpfs_follower_of(&follower, &medium, BLOCKS, 0);
    frame[2] = bpfs_stream_sum(frame, 0);
    is(bpfs_follow(&follower, frame, sizeof frame) == 0 && follower.asked && follower.number == 0, "a question");
    frame[1] = 1, frame[2] = bpfs_stream_sum(frame, 0);
    is(bpfs_follow(&follower, frame, sizeof frame) == -1 && errno == EBADMSG, "a question about an epoch that has not come");
    bpfs_follower_close(&follower);
}

int __real_fsync(int fd);
int __wrap_fsync(int fd);

int __wrap_fsync(int fd) {
    syncs++;
    return __real_fsync(fd);
}

/* What a killed follower left in the page cache is synced before the next one goes on from it. */
static void follower_resumes(void) {
    char name[] = "/tmp/stream_test-XXXXXX";
    bpfs_follower follower;
    const uint64_t note = 42;
    int fd = mkstemp(name);
    must(fd >= 0 && unlink(name) == 0 && ftruncate(fd, 8 * 4096) == 0, name);
    must(pwrite(fd, &note, sizeof note, 8 * BPFS_NOTE_WORD) == sizeof note, name);
    syncs = 0;
    is(bpfs_follower_resume(&follower, &medium, fd) == 0 && syncs == 1, "a resumed follower syncs the image");
    is(follower.number == 42 && follower.blocks == 8, "a resumed follower takes the note and the size");
    bpfs_follower_close(&follower);
    must(ftruncate(fd, 100) == 0, name);
    is(bpfs_follower_resume(&follower, &medium, fd) == -1 && errno == EINVAL, "a file that is too short for a note");
    close(fd);
}

static void waits_too_long(int number) {
    (void)number;
    static const char text[] = "stream_test: both ends wait\n";
    _exit(write(STDERR_FILENO, text, sizeof text - 1) < 0 ? 2 : 1);
}

int main(void) {
    signal(SIGALRM, waits_too_long);
    alarm(PATIENCE);
    takes(in_two_parts, "an answer in two parts");
    takes(byte_by_byte, "an answer byte by byte");
    takes(step_by_step, "an answer for each epoch");
    refuses(greatest, false, EBADMSG, "the answer 2^64 - 1");
    refuses(one_too_high, false, EBADMSG, "an answer above what was sent");
    refuses(backwards, true, EBADMSG, "an answer below the last one");
    refuses(part_and_end, false, EPIPE, "a connection that ends within an answer");
    sends_many();
    peer_is_gone();
    send_fails();
    epoch_is_too_long();
    follower_refuses();
    follower_is_asked();
    follower_resumes();
    printf("stream: %d checks of answers, frames and failures%s\n", cases, wrong ? ", some FAILED" : "");
    return wrong;
}
