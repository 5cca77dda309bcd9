#include "redis.h"
#include <errno.h>
#include <inttypes.h>

/* Whether Redis answered, and not with an error. Otherwise sets errno. */
static bool has_answered(const redisReply *reply) {
    if (!reply) return errno = EIO, false;
    if (reply->type == REDIS_REPLY_ERROR) return errno = EPROTO, false;
    return true;
}

int bpfs_redis_send(void *to, const uint64_t *frame, size_t count) {
    bpfs_redis *redis = to;
    redisReply *reply =
        redisCommand(redis->at, "XADD %s %" PRIu64 "-0 epoch %b", redis->key, frame[1], frame, 8 * count);
    bool added = has_answered(reply);
    int why = errno;
    freeReplyObject(reply);
    if (!added) return errno = why, -1;
    return redis->own ? bpfs_follow(redis->own, frame, 8 * count) : 0;
}

/* Element `index` of an array of `count` elements at least, or NULL. */
static const redisReply *element(const redisReply *array, size_t count, size_t index) {
    return array && array->type == REDIS_REPLY_ARRAY && array->elements >= count ? array->element[index] : NULL;
}

/* An entry is its id and its fields, and the fields are a name and the frame. It has exactly the next epoch. */
static int apply_entry(bpfs_follower *follower, const redisReply *entry) {
    uint64_t before = follower->number;
    const redisReply *frame = element(element(entry, 2, 1), 2, 1);
    if (!frame || frame->type != REDIS_REPLY_STRING) return errno = EBADMSG, -1;
    if (bpfs_follow(follower, frame->str, frame->len)) return -1;
    return follower->number == before + 1 ? 0 : (errno = EBADMSG, -1);
}

/* The reply is a list of streams, of which one was asked for: its name and its entries. Nil: there are no entries. */
static long apply_entries(bpfs_follower *follower, const redisReply *reply) {
    if (!has_answered(reply)) return -1;
    if (reply->type == REDIS_REPLY_NIL) return 0;
    const redisReply *entries = element(element(reply, 1, 0), 2, 1);
    if (!entries || entries->type != REDIS_REPLY_ARRAY) return errno = EPROTO, -1;
    for (size_t i = 0; i < entries->elements; i++)
        if (apply_entry(follower, entries->element[i])) return -1;
    return (long)entries->elements;
}

long bpfs_redis_follow(bpfs_redis *redis, bpfs_follower *follower) {
    redisReply *reply =
        redisCommand(redis->at, "XREAD COUNT 64 STREAMS %s %" PRIu64 "-0", redis->key, follower->number);
    long count = apply_entries(follower, reply);
    int why = errno;
    freeReplyObject(reply);
    return errno = why, count;
}
