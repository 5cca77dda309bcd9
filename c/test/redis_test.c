/* redis_test.c - leaders over a Redis stream are killed, and so is Redis. Followers have the tree after a prefix of the calls.
 *
 *     redis_test FOLDER ROUNDS SEED
 *
 * It starts a redis-server in FOLDER, on a socket there, which syncs each entry. In each round a leader process follows the
 * stream to its end, must find the tree at which the last round ended, makes calls, and is killed. Then a follower goes on
 * from its note. In some rounds Redis is killed first.
 *
 * Exit status: 0: all is right; 1: a tree is not; 2: the test could not go on.
 */
#define _GNU_SOURCE
#include <bpfs/file.h>
#include "model.h"
#include "redis.h"
#include <errno.h>
#include <signal.h>
#include <stdio.h>
#include <stdlib.h>
#include <string.h>
#include <sys/mman.h>
#include <sys/prctl.h>
#include <sys/wait.h>
#include <unistd.h>

enum { CALLS = 400, GROUP = 3, BLOCKS = MODEL_BLOCKS, LONGEST_WAIT = 100000, PATIENCE = 100, BROKEN = 2 };

static const char *folder;
static uint64_t state;
static pid_t server;
static bpfs_redis redis = {.key = "bpfs"};

/* Shared with the leader process: how many calls it has begun, and how many Redis has. */
static struct shared {
    volatile uint32_t begun, durable;
} *shared;

static void stop(const char *what) {
    fprintf(stderr, "redis_test: %s\n", what);
    if (server > 0) kill(server, SIGKILL);
    exit(BROKEN);
}

static void must(bool it, const char *what) {
    if (!it) stop(what);
}

static const char *in_folder(const char *name) {
    static char path[1100];
    snprintf(path, sizeof path, "%s/%s", folder, name);
    return path;
}

/* ---- Redis */

static void start_redis(void) {
    server = fork();
    must(server >= 0, "no fork");
    if (server == 0) {
        prctl(PR_SET_PDEATHSIG, SIGKILL);
        if (!freopen("/dev/null", "w", stdout)) _exit(BROKEN);
        execlp("redis-server", "redis-server", "--port", "0", "--unixsocket", in_folder("socket"), "--dir", folder, "--save", "",
               "--appendonly", "yes", "--appendfsync", "always", (char *)NULL);
        _exit(BROKEN);
    }
}

/* A connection, when Redis has read its file. */
static redisContext *connect_redis(void) {
    for (int i = 0; i < PATIENCE; i++) {
        redisContext *at = redisConnectUnix(in_folder("socket"));
        redisReply *reply = at && !at->err ? redisCommand(at, "PING") : NULL;
        bool ready = reply && reply->type == REDIS_REPLY_STATUS;
        freeReplyObject(reply);
        if (ready) return at;
        redisFree(at);
        usleep(50000);
    }
    stop("no Redis");
    return NULL;
}

static void kill_redis(void) {
    kill(server, SIGKILL);
    must(waitpid(server, NULL, 0) == server, "no server");
}

/* ---- a medium that follows the stream */

typedef struct medium {
    bpfs_file file;
    bpfs_follower follower;
} medium;

/* Opens a medium, of zeros if it is new, and resumes at its note. */
static void open_medium(medium *it, const char *name) {
    const char *path = in_folder(name);
    if (access(path, F_OK)) must(bpfs_file_make(&it->file, path, BLOCKS, BPFS_FILE_CACHED) == 0 && bpfs_file_close(&it->file) == 0, "no file");
    must(bpfs_file_open(&it->file, path, BPFS_FILE_CACHED) == 0, "no file");
    must(bpfs_follower_resume(&it->follower, &it->file.carrier, it->file.fd) == 0, "no note");
}

static void catch_up(medium *it) {
    long n;
    while ((n = bpfs_redis_follow(&redis, &it->follower)) > 0) {}
    must(n == 0, "the stream is refused");
}

static void close_medium(medium *it) {
    bpfs_follower_close(&it->follower);
    bpfs_file_close(&it->file);
}

/* ---- rounds */

static void lead(model *tree, bool first) {
    medium own;
    bpfs_stream stream;
    bpfs fs = BPFS_CLOSED;
    bpfs_fault fault;
    redis.at = connect_redis();
    open_medium(&own, "leader");
    catch_up(&own);
    redis.own = &own.follower;
    bpfs_stream_to(&stream, bpfs_redis_send, &redis, own.follower.number);
    if (first && bpfs_format(&stream.carrier, BLOCKS, 2)) _exit(3);
    if (bpfs_file_mount(&fs, &own.file, &fault) || bpfs_bind(&fs, &stream.carrier)) _exit(3);
    if (first && (model_begin(&fs) || bpfs_carry(&fs, &stream.carrier))) _exit(3);
    if (!model_is_shown(tree, &fs)) _exit(6);
    bpfs_carry(&fs, &stream.carrier);
    for (uint32_t i = 0; i < CALLS; i++) {
        shared->begun = i + 1;
        if (!model_call(tree, &fs)) _exit(4);
        if ((i + 1) % GROUP && i + 1 < CALLS) continue;
        if (bpfs_carry(&fs, &stream.carrier)) _exit(5);
        shared->durable = i + 1;
    }
    _exit(0);
}

static void kill_a_leader(model *tree, bool first) {
    shared->begun = shared->durable = 0;
    pid_t leader = fork();
    must(leader >= 0, "no fork");
    if (leader == 0) lead(tree, first);
    for (int i = 0; !shared->begun && i < 100 * PATIENCE; i++) usleep(1000);
    usleep(draw(&state, LONGEST_WAIT));
    kill(leader, SIGKILL);
    int status;
    must(waitpid(leader, &status, 0) == leader, "no child");
    if (WIFEXITED(status) && WEXITSTATUS(status)) fprintf(stderr, "the leader ended with status %d\n", WEXITSTATUS(status));
    must(!WIFEXITED(status) || WEXITSTATUS(status) == 0, "the leader failed");
}

static bool look(model *tree, int round, long *lost) {
    medium it;
    bpfs fs = BPFS_CLOSED;
    bpfs_fault fault;
    uint32_t made = 0, durable = shared->durable, begun = shared->begun;
    open_medium(&it, "follower");
    catch_up(&it);
    must(bpfs_file_mount(&fs, &it.file, &fault) == BPFS_OK, "the follower does not mount");
    for (; made < durable; made++) model_call(tree, NULL);
    bool right = model_finds(tree, &fs, &made, begun);
    if (!right) fprintf(stderr, "round %d: no prefix of %u to %u calls\n", round, durable, begun);
    *lost += made < begun;
    bpfs_close(&fs);
    close_medium(&it);
    return right;
}

/* A leader with an old number is refused, and the stream stays as it is. */
static bool is_fenced(void) {
    medium it;
    bpfs_stream stream;
    uint64_t value = 1;
    open_medium(&it, "follower");
    bpfs_stream_to(&stream, bpfs_redis_send, &redis, it.follower.number ? it.follower.number - 1 : 0);
    must(stream.carrier.put(&stream.carrier, BPFS_REDO_WORD - 1, &value, 1) == 0, "no put");
    bool refused = stream.carrier.barrier(&stream.carrier) == -1 && errno == EPROTO;
    if (!refused) fprintf(stderr, "a second leader is not refused\n");
    bpfs_stream_close(&stream);
    close_medium(&it);
    return refused;
}

int main(int argc, char **argv) {
    static model tree;
    if (argc != 4) stop("redis_test FOLDER ROUNDS SEED");
    folder = argv[1];
    state = strtoull(argv[3], NULL, 10);
    shared = mmap(NULL, sizeof *shared, PROT_READ | PROT_WRITE, MAP_SHARED | MAP_ANONYMOUS, -1, 0);
    must(shared != MAP_FAILED, "no memory");
    model_clear(&tree, state);
    start_redis();
    long lost = 0, kills = 0;
    bool right = true;
    int rounds = atoi(argv[2]);
    for (int round = 0; round < rounds && right; round++) {
        redisFree(connect_redis());
        kill_a_leader(&tree, round == 0);
        if (round % 3 == 1) {
            kill_redis();
            start_redis();
            kills++;
        }
        redis.at = connect_redis();
        right = look(&tree, round, &lost) && is_fenced();
        redisFree(redis.at);
    }
    kill_redis();
    if (!right) return 1;
    printf("%d leaders over a Redis stream killed, %ld of them with calls lost; ", rounds, lost);
    printf("Redis killed %ld times; old leaders refused\n", kills);
    return 0;
}
