/* redis.h - the stream of epochs as a Redis stream. An epoch is one entry, with the id NUMBER-0 and the frame as the value
 * of its one field.
 *
 * The Redis stream is the truth. A leader first follows it to its end, into a medium of its own, and mounts that. Then it
 * adds each epoch to the stream, and applies the epoch to its own medium when Redis has it. Redis refuses an id that is
 * not above all ids before it: of two leaders, one gets EPROTO, and must stop.
 *
 * What this relies on: an entry stays once Redis has answered. That depends on the server's configuration:
 * - `appendonly yes`, `appendfsync always`: the entry survives a power failure of the server.
 * - `appendfsync everysec`: up to a second of entries is lost then.
 * - A failover loses what the new server had not received. WAIT makes that rarer, and does not exclude it.
 * A follower that has applied a lost epoch must begin again with a copy.
 */
#ifndef BPFS_REDIS_H
#define BPFS_REDIS_H
#include <bpfs/follow.h>
#include <hiredis/hiredis.h>

#ifdef __cplusplus
extern "C" {
#endif

typedef struct bpfs_redis {
    redisContext *at;
    const char *key;
    bpfs_follower *own; /* applies each epoch that was added; NULL: none does */
} bpfs_redis;

/* Adds a frame to the stream: the bpfs_stream_send of bpfs_stream_to, with a bpfs_redis as `to`. 0, or -1 with errno:
 * EPROTO: Redis refused the entry, which is not in the stream.
 * EIO: no answer came; whether the entry is in the stream is open. Begin again by following the stream. */
int bpfs_redis_send(void *redis, const uint64_t *frame, size_t count);

/* Applies the next epochs of the stream. Returns how many; 0: there are none now; -1 with errno: EPROTO, EIO as above, or
 * that of bpfs_follow. */
long bpfs_redis_follow(bpfs_redis *redis, bpfs_follower *follower);

#ifdef __cplusplus
}
#endif
#endif
