#define _GNU_SOURCE
#include <bpfs/stream.h>
#include <errno.h>
#include <fcntl.h>
#include <poll.h>
#include <stdlib.h>
#include <string.h>
#include <sys/socket.h>
#include <sys/stat.h>
#include <unistd.h>

_Static_assert(__BYTE_ORDER__ == __ORDER_LITTLE_ENDIAN__, "the words of a frame are little endian: swap them here");
_Static_assert(BPFS_FRAME_MOST < 1 << (64 - BPFS_PLACE_BITS), "a run may have as many words as a payload");

/* Each step is one-to-one in the word and in the sum so far, so a change of one word always changes the sum. */
static uint64_t mix(uint64_t sum, uint64_t word) {
    sum = (sum ^ word) * 0x9e3779b97f4a7c15u;
    return sum ^ (sum >> 29);
}

uint64_t bpfs_stream_sum(const uint64_t *frame, size_t payload) {
    uint64_t sum = mix(mix(0, frame[0]), frame[1]);
    for (size_t i = 0; i < payload; i++) sum = mix(sum, frame[BPFS_FRAME_HEAD + i]);
    return sum;
}

/* Ends the stream. */
static int fail(bpfs_stream *stream, int why) {
    stream->carrier.error = why;
    return errno = why, -1;
}

/* ---- the carrier */

/* Makes room for `count` more words in the frame. */
static int reserve(bpfs_stream *stream, size_t count) {
    size_t wanted = stream->count + count;
    if (wanted > BPFS_FRAME_HEAD + (size_t)BPFS_FRAME_MOST) return fail(stream, EMSGSIZE);
    if (wanted <= stream->capacity) return 0;
    uint64_t *frame = realloc(stream->frame, 2 * wanted * sizeof *frame);
    if (!frame) return errno = ENOMEM, -1;
    stream->frame = frame, stream->capacity = 2 * wanted;
    return 0;
}

static int put(bpfs_carrier *carrier, uint64_t word, const uint64_t *values, size_t count) {
    bpfs_stream *stream = (bpfs_stream *)carrier;
    if (carrier->error) return errno = carrier->error, -1;
    if (word >> BPFS_PLACE_BITS) return errno = EFBIG, -1;
    if (reserve(stream, 1 + count)) return -1;
    stream->frame[stream->count++] = word | (uint64_t)count << BPFS_PLACE_BITS;
    memcpy(stream->frame + stream->count, values, 8 * count);
    stream->count += count;
    return 0;
}

/* Writes the head of a frame, and sends it. */
static int send_frame(bpfs_stream *stream, uint64_t *frame, size_t payload, uint64_t number) {
    frame[0] = BPFS_FRAME_MARK | (uint64_t)payload << 32;
    frame[1] = number;
    frame[2] = bpfs_stream_sum(frame, payload);
    if (stream->send(stream->to, frame, BPFS_FRAME_HEAD + payload)) return fail(stream, errno);
    stream->bytes += 8 * (BPFS_FRAME_HEAD + payload);
    return 0;
}

static int barrier(bpfs_carrier *carrier) {
    bpfs_stream *stream = (bpfs_stream *)carrier;
    if (carrier->error) return errno = carrier->error, -1;
    size_t payload = stream->count - BPFS_FRAME_HEAD;
    if (!payload) return 0;
    if (send_frame(stream, stream->frame, payload, stream->number + 1)) return -1;
    stream->number++;
    stream->count = BPFS_FRAME_HEAD;
    return 0;
}

/* ---- answers */

/* Takes one answer. It can't be lower than the last one, nor name an epoch that was not sent. */
static int hear(bpfs_stream *stream) {
    uint64_t number;
    memcpy(&number, stream->answer, sizeof number);
    stream->answer_length = 0;
    if (number < stream->heard || number > stream->number) return errno = EBADMSG, -1;
    stream->heard = number;
    return 0;
}

/* Takes the answers that have come, and keeps a part of one for the next time. The end of the connection is an error
 * only if nothing came before it. */
static int hear_all(bpfs_stream *stream) {
    for (bool any = false;; any = true) {
        size_t missing = sizeof stream->answer - stream->answer_length;
        ssize_t n = read(stream->answers, stream->answer + stream->answer_length, missing);
        if (n == 0) return any ? 0 : (errno = EPIPE, -1);
        if (n < 0) return errno == EAGAIN || errno == EINTR ? 0 : -1;
        stream->answer_length += (size_t)n;
        if (stream->answer_length == sizeof stream->answer && hear(stream)) return -1;
    }
}

/* Waits until answers come, or until `fd` (-1: none) takes more bytes. A follower that waits for its answers to be
 * read would read nothing itself, so they are read while a frame is sent, too. */
static int wait_for(bpfs_stream *stream, int fd) {
    struct pollfd on[2] = {{stream->answers, POLLIN, 0}, {fd, POLLOUT, 0}};
    if (poll(on, 2, -1) < 0) return errno == EINTR ? 0 : -1;
    return on[0].revents ? hear_all(stream) : 0;
}

/* Asks for the answer to the last epoch, and waits for it, if answers come. */
static int settle(bpfs_carrier *carrier) {
    bpfs_stream *stream = (bpfs_stream *)carrier;
    uint64_t question[BPFS_FRAME_HEAD];
    if (barrier(carrier)) return -1;
    if (stream->answers < 0 || stream->heard == stream->number) return 0;
    if (send_frame(stream, question, 0, stream->number)) return -1;
    while (stream->heard < stream->number)
        if (wait_for(stream, -1)) return fail(stream, errno);
    return 0;
}

/* ---- sending */

/* A closed socket is an error and no signal. (For a pipe, ignore SIGPIPE.) */
static ssize_t send_some(bpfs_stream *stream, const char *from, size_t count) {
    return stream->is_socket ? send(stream->fd, from, count, MSG_NOSIGNAL) : write(stream->fd, from, count);
}

static int send_to_fd(void *to, const uint64_t *frame, size_t count) {
    bpfs_stream *stream = to;
    const char *from = (const char *)frame;
    for (size_t left = 8 * count; left;) {
        ssize_t n = send_some(stream, from, left);
        if (n >= 0) from += n, left -= (size_t)n;
        else if (errno == EAGAIN ? wait_for(stream, stream->fd) : errno != EINTR) return -1;
    }
    return 0;
}

static int make_non_blocking(int fd) {
    int flags = fcntl(fd, F_GETFL);
    return flags < 0 ? -1 : fcntl(fd, F_SETFL, flags | O_NONBLOCK);
}

/* ---- beginning and end */

void bpfs_stream_to(bpfs_stream *stream, bpfs_stream_send *send, void *to, uint64_t number) {
    *stream = (bpfs_stream){.carrier = {.put = put, .barrier = barrier, .settle = settle}, .send = send, .to = to};
    stream->fd = stream->answers = -1;
    stream->number = stream->heard = number;
    stream->count = BPFS_FRAME_HEAD;
}

int bpfs_stream_of(bpfs_stream *stream, int fd, int answers, uint64_t number) {
    struct stat it;
    bpfs_stream_to(stream, send_to_fd, stream, number);
    if (fstat(fd, &it) || make_non_blocking(fd) || (answers >= 0 && make_non_blocking(answers))) return -1;
    stream->fd = fd, stream->answers = answers;
    stream->is_socket = S_ISSOCK(it.st_mode);
    return 0;
}

void bpfs_stream_close(bpfs_stream *stream) {
    free(stream->frame);
    stream->frame = NULL, stream->count = stream->capacity = 0;
}
