/* stream.h - a carrier that sends the log to a follower (follow.h), as frames over a pipe, a socket or a queue.
 *
 * Each epoch that stores something is one frame:
 *
 *     word 0      BPFS_FRAME_MARK in its low half, the number of words of the payload in its high half
 *     word 1      the number of the epoch: one more than in the frame before
 *     word 2      the checksum of words 0 and 1 and the payload
 *     payload     runs: a word with the place of the first word in its low 41 bits (BPFS_PLACE_BITS) and their count
 *                 in its high 23 bits, then the values
 *
 * Words are little endian. (Frames of earlier versions have another BPFS_FRAME_MARK, and 32 bits for each of place and
 * count: neither end takes those of the other.) A frame without payload, with the number of the last epoch, asks for an answer. An answer is one
 * word: the number of the last epoch that is durable at the follower.
 *
 * What this carrier relies on:
 * - The connection delivers a prefix of what was sent, in order. The checksum finds every change of a single word, and
 *   others with probability 1 - 2^-64. It does not authenticate.
 * - With answers, bpfs_carry asks once and returns when the follower has answered the last epoch. It waits as long as
 *   the connection lasts: detect a dead peer by the means of the connection.
 * - Without answers, bpfs_carry returns when the kernel has the bytes.
 *
 * Any failure except ENOMEM ends the stream, since part of a frame may have been sent. Begin another one then.
 */
#ifndef BPFS_STREAM_H
#define BPFS_STREAM_H
#include "carry.h"

#ifdef __cplusplus
extern "C" {
#endif

enum {
    BPFS_FRAME_MARK = 0x32435045, /* "EPC2" */
    BPFS_FRAME_HEAD = 3,
    BPFS_FRAME_MOST = 1 << 20, /* words of a payload */
    BPFS_PLACE_BITS = 41,
};

/* Sends one frame: 0, or -1 with errno. */
typedef int bpfs_stream_send(void *to, const uint64_t *frame, size_t count);

typedef struct bpfs_stream {
    bpfs_carrier carrier;
    bpfs_stream_send *send;
    void *to;
    uint64_t number; /* of the last epoch that was sent */
    uint64_t heard;  /* of the last epoch that was answered */
    uint64_t bytes;  /* sent so far */

    /* Of bpfs_stream_of. */
    int fd, answers; /* -1: none */
    bool is_socket;
    uint8_t answer[8]; /* an answer that has come in part */
    size_t answer_length;

    uint64_t *frame; /* the epoch so far; its head is written last */
    size_t count, capacity;
} bpfs_stream;

/* Returns the checksum of a frame's first two words and its payload. */
uint64_t bpfs_stream_sum(const uint64_t *frame, size_t payload);

/* Begins a stream to `fd`, after epoch `number` (0: none yet), with answers from `answers` (-1: none come). Makes both
 * descriptors non-blocking, and closes neither. 0, or -1 with errno. */
int bpfs_stream_of(bpfs_stream *stream, int fd, int answers, uint64_t number);

/* Begins a stream to a function: a message of a queue, an entry of a log, a row of a table. An epoch is durable when
 * the function has returned 0. */
void bpfs_stream_to(bpfs_stream *stream, bpfs_stream_send *send, void *to, uint64_t number);

/* Frees the stream's memory. What was put and not settled is lost. */
void bpfs_stream_close(bpfs_stream *stream);

#ifdef __cplusplus
}
#endif
#endif
