#define _GNU_SOURCE
#include <bpfs/follow.h>
#include <errno.h>
#include <poll.h>
#include <stdlib.h>
#include <string.h>
#include <sys/stat.h>
#include <unistd.h>

enum { PART = 1 << 16 };

static uint32_t low(uint64_t word) {
    return (uint32_t)word;
}

static uint32_t high(uint64_t word) {
    return (uint32_t)(word >> 32);
}

/* The place of a run's first word. */
static uint64_t place_of(uint64_t run) {
    return run & ((1ull << BPFS_PLACE_BITS) - 1);
}

static size_t count_of(uint64_t run) {
    return (size_t)(run >> BPFS_PLACE_BITS);
}

static bool has_word(uint64_t first, uint64_t length, uint64_t word) {
    return first <= word && word < first + length;
}

/* Whether the runs of a payload fill it, and each is in the image and spares the medium's own words. */
static bool runs_are_right(const bpfs_follower *follower, const uint64_t *payload, size_t count) {
    uint64_t words = (uint64_t)follower->blocks * BPFS_BLOCK_WORDS;
    for (size_t at = 0; at < count;) {
        uint64_t first = place_of(payload[at]), length = count_of(payload[at]);
        if (length == 0 || length > count - at - 1 || first + length > words) return false;
        if (has_word(first, length, BPFS_NOTE_WORD) || has_word(first, length, BPFS_REDO_WORD)) return false;
        at += 1 + length;
    }
    return true;
}

/* Puts the runs of a frame, and the number of the epoch before it, as one epoch. */
static int apply(bpfs_follower *follower, const uint64_t *payload, size_t count) {
    bpfs_carrier *target = follower->target;
    for (size_t at = 0; at < count;) {
        size_t length = count_of(payload[at]);
        if (target->put(target, place_of(payload[at]), payload + at + 1, length)) return -1;
        at += 1 + length;
    }
    if (target->put(target, BPFS_NOTE_WORD, &follower->number, 1)) return -1;
    if (target->barrier(target)) return -1;
    follower->number++;
    return 0;
}

/* Takes the frame at the start of `words`, of which `there` have come. Returns its length; 0: it is not whole; -1: it is
 * refused, or its words could not be put. */
static long take_frame(bpfs_follower *follower, const uint64_t *words, size_t there) {
    if (there < BPFS_FRAME_HEAD) return 0;
    size_t payload = high(words[0]);
    if (low(words[0]) != BPFS_FRAME_MARK || payload > BPFS_FRAME_MOST) return errno = EBADMSG, -1;
    if (there < BPFS_FRAME_HEAD + payload) return 0;
    uint64_t next = follower->number + (payload > 0); /* a frame without payload is a question, and no epoch */
    if (words[2] != bpfs_stream_sum(words, payload) || words[1] > next) return errno = EBADMSG, -1;
    if (payload == 0) {
        follower->asked = true;
    } else if (words[1] == next) {
        if (!runs_are_right(follower, words + BPFS_FRAME_HEAD, payload)) return errno = EBADMSG, -1;
        if (apply(follower, words + BPFS_FRAME_HEAD, payload)) return -1;
    }
    return (long)(BPFS_FRAME_HEAD + payload);
}

/* Appends the bytes to those of a frame that has come in part. */
static int keep(bpfs_follower *follower, const void *bytes, size_t count) {
    size_t wanted = follower->bytes + count;
    if (wanted > follower->capacity) {
        uint64_t *words = realloc(follower->words, 2 * wanted);
        if (!words) return errno = ENOMEM, -1;
        follower->words = words, follower->capacity = 2 * wanted;
    }
    memcpy((char *)follower->words + follower->bytes, bytes, count);
    follower->bytes = wanted;
    return 0;
}

int bpfs_follow(bpfs_follower *follower, const void *bytes, size_t count) {
    if (follower->refused) return errno = EBADMSG, -1;
    if (count && keep(follower, bytes, count)) return -1;
    size_t there = follower->bytes / 8, done = 0;
    long length = 0;
    while ((length = take_frame(follower, follower->words + done, there - done)) > 0) done += (size_t)length;
    int why = errno;
    follower->bytes -= 8 * done;
    if (done) memmove(follower->words, follower->words + done, follower->bytes);
    if (length == 0) return 0;
    if (why == EBADMSG) follower->refused = true;
    return errno = why, -1;
}

/* Whether a read that failed may be repeated: now, or when bytes have come. */
static bool may_repeat(int fd) {
    struct pollfd in = {fd, POLLIN, 0};
    return errno == EINTR || (errno == EAGAIN && (poll(&in, 1, -1) >= 0 || errno == EINTR));
}

long bpfs_follow_fd(bpfs_follower *follower, int fd) {
    char bytes[PART];
    ssize_t n;
    do n = read(fd, bytes, sizeof bytes);
    while (n < 0 && may_repeat(fd));
    if (n > 0 && bpfs_follow(follower, bytes, (size_t)n)) return -1;
    return n < 0 && errno == ECONNRESET ? 0 : n; /* a killed leader left answers unread */
}

int bpfs_follower_settle(bpfs_follower *follower) {
    return follower->target->settle(follower->target);
}

void bpfs_follower_of(bpfs_follower *follower, bpfs_carrier *target, uint32_t blocks, uint64_t noted) {
    *follower = (bpfs_follower){.target = target, .blocks = blocks, .number = noted};
}

int bpfs_follower_resume(bpfs_follower *follower, bpfs_carrier *target, int fd) {
    struct stat it;
    uint64_t noted;
    if (fsync(fd) || fstat(fd, &it)) return -1;
    ssize_t n = pread(fd, &noted, sizeof noted, 8 * BPFS_NOTE_WORD);
    if (n != sizeof noted) return n < 0 ? -1 : (errno = EINVAL, -1);
    uint64_t blocks = (uint64_t)it.st_size / 8 / BPFS_BLOCK_WORDS;
    if (blocks > BPFS_MAX_BLOCKS) return errno = EFBIG, -1;
    bpfs_follower_of(follower, target, (uint32_t)blocks, noted);
    return 0;
}

void bpfs_follower_close(bpfs_follower *follower) {
    free(follower->words);
    follower->words = NULL, follower->bytes = follower->capacity = 0;
}
