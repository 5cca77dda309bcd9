/* bench.c - times small durable updates of a file: by bpfs with each carrier, by libpmemobj, by pwrite and by SQLite.
 *
 *     PMEM_IS_PMEM_FORCE=1 bench FOLDER [ROUNDS [CORE [WAY UPDATE]]]
 *
 * Prints a Markdown table with a row for each way and a column for each update. An update changes some bytes of a file of 1 MiB,
 * or appends them to a file that was empty. It is atomic and durable before the next one begins, if the row says nothing else.
 * A figure is the wall time of one update in nanoseconds: the minimum of ROUNDS (50) rounds of 2,000 updates, on one core (CORE,
 * or the last one). The ways take turns, round by round. With WAY and UPDATE, numbers from 0, only that figure is measured.
 *
 * FOLDER should be in memory (/dev/shm): then a wait for the medium takes no time, and the figures are the work of the software
 * and the processor's flushes and fences. On a disk the waits are most of each figure; use few rounds there.
 * PMEM_IS_PMEM_FORCE=1 makes libpmem take FOLDER for persistent memory.
 *
 * Each update has new random bytes. SQLite updates or adds one row with as many bytes, by a prepared statement outside of any
 * transaction, with synchronous=FULL and locking_mode=EXCLUSIVE: bpfs locks its file for the whole time, too.
 *
 * Instructions of 2,000 updates in user space (libpmem, libpmemobj and the last row make no system call in a round):
 *     valgrind --tool=callgrind --toggle-collect=round_of_updates bench FOLDER 1 CORE WAY UPDATE
 */
#define _GNU_SOURCE
#include <bpfs/file.h>
#include <bpfs/redo.h>
#include <fcntl.h>
#include <sched.h>
#include <stdio.h>
#include <stdlib.h>
#include <string.h>
#include <time.h>
#include <unistd.h>
#ifdef HAS_PMEM
#include <bpfs/pmem.h>
#endif
#ifdef HAS_OBJ
#include <libpmemobj.h>
#endif
#ifdef HAS_SQLITE
#include <sqlite3.h>
#endif

enum { BLOCKS = 1024, FILE_SIZE = 1 << 20, POOL_SIZE = 16 << 20, STEPS = 2000, GROUP = 100, NOISE = 1 << 16, MOST = 256 };

#define FILE_PATH (const uint8_t *)"/file", 5
#define MUST(it) must((it), #it, __LINE__)

typedef struct update {
    const char *name;
    uint32_t size;
    bool aligned, appends;
} update;

static const update updates[] = {
    {"8 bytes, one word", 8, true, false},   {"8 bytes, anywhere", 8, false, false}, {"64 bytes, aligned", 64, true, false},
    {"200 bytes, aligned", 200, true, false}, {"64 bytes, appended", 64, false, true}, {"200 bytes, appended", 200, false, true},
};

enum { UPDATES = sizeof updates / sizeof *updates };

static const char *folder;
static uint64_t state = 1;
static uint8_t noise[NOISE];
static bpfs_lack lack;

static void must(bool it, const char *what, int line) {
    if (it) return;
    fprintf(stderr, "bench.c:%d: %s\n", line, what);
    exit(1);
}

static uint32_t draw(uint32_t below) {
    state = state * 6364136223846793005u + 1442695040888963407u;
    return (uint32_t)((state >> 33) % below);
}

static double now(void) {
    struct timespec t;
    clock_gettime(CLOCK_MONOTONIC, &t);
    return 1e9 * (double)t.tv_sec + (double)t.tv_nsec;
}

/* Returns the path of a file in FOLDER, in which no such file is left. */
static const char *fresh(const char *name) {
    static char path[1100];
    snprintf(path, sizeof path, "%s/%s", folder, name);
    unlink(path);
    return path;
}

/* ---- bpfs */

typedef struct volume {
    bpfs fs;
    bpfs_carrier *carrier; /* NULL: nothing is carried */
} volume;

static void carry(volume *v) {
    if (v->carrier) MUST(bpfs_carry(&v->fs, v->carrier) == 0);
    else bpfs_drain(&v->fs);
}

static void write_bytes(volume *v, uint64_t at, const uint8_t *bytes, uint32_t size) {
    MUST(bpfs_write(&v->fs, FILE_PATH, at, bytes, size, &lack) == BPFS_OK);
}

static void prepare_volume(volume *v, const update *of) {
    MUST(bpfs_truncate(&v->fs, FILE_PATH, 0, &lack) == BPFS_OK);
    for (uint64_t at = 0; !of->appends && at < FILE_SIZE; at += NOISE) write_bytes(v, at, noise, NOISE);
    carry(v);
}

static void create_file(volume *v) {
    MUST(bpfs_create(&v->fs, FILE_PATH, &lack) == BPFS_OK);
    carry(v);
}

static volume uncarried, filed, redone;
static bpfs_file unused, file;
static bpfs_redo redo;

static void begin_uncarried(void) {
    bpfs_fault fault;
    MUST(bpfs_file_create(&unused, fresh("bench.unused"), BLOCKS, 2, BPFS_FILE_CACHED) == 0);
    MUST(bpfs_file_mount(&uncarried.fs, &unused, &fault) == 0);
    create_file(&uncarried);
}

static void prepare_uncarried(const update *of) { prepare_volume(&uncarried, of); }

static void update_uncarried(uint64_t at, const uint8_t *bytes, uint32_t size) {
    write_bytes(&uncarried, at, bytes, size);
    bpfs_drain(&uncarried.fs);
}

static void end_uncarried(void) { MUST(bpfs_discard(&uncarried.fs) == BPFS_OK && bpfs_file_close(&unused) == 0); }

static void begin_file(void) {
    bpfs_fault fault;
    MUST(bpfs_file_create(&file, fresh("bench.file"), BLOCKS, 2, BPFS_FILE_WAITS) == 0);
    MUST(bpfs_file_mount(&filed.fs, &file, &fault) == 0);
    filed.carrier = &file.carrier;
    create_file(&filed);
}

static void prepare_file(const update *of) { prepare_volume(&filed, of); }

static void update_file(uint64_t at, const uint8_t *bytes, uint32_t size) {
    write_bytes(&filed, at, bytes, size);
    carry(&filed);
}

static void end_file(void) { MUST(bpfs_close(&filed.fs) == BPFS_OK && bpfs_file_close(&file) == 0); }

static void begin_redo(void) {
    bpfs_fault fault;
    fresh("bench.redo-redo");
    MUST(bpfs_redo_create(&redo, fresh("bench.redo"), BLOCKS, 2, BPFS_FILE_WAITS) == 0);
    MUST(bpfs_redo_mount(&redone.fs, &redo, &fault) == 0);
    redone.carrier = &redo.carrier;
    create_file(&redone);
}

static void prepare_redo(const update *of) { prepare_volume(&redone, of); }

static void update_redo(uint64_t at, const uint8_t *bytes, uint32_t size) {
    write_bytes(&redone, at, bytes, size);
    carry(&redone);
}

static void end_redo(void) { MUST(bpfs_close(&redone.fs) == BPFS_OK && bpfs_redo_close(&redo) == 0); }

#ifdef HAS_PMEM
static volume mapped;
static bpfs_pmem pmem;

static void begin_pmem(void) {
    bpfs_fault fault;
    if (mapped.fs.is_open) return;
    MUST(bpfs_pmem_create(&pmem, fresh("bench.pmem"), BLOCKS, 2) == 0);
    MUST(bpfs_pmem_mount(&mapped.fs, &pmem, &fault) == 0);
    mapped.carrier = &pmem.carrier;
    create_file(&mapped);
}

static void prepare_pmem(const update *of) { prepare_volume(&mapped, of); }

static void update_pmem(uint64_t at, const uint8_t *bytes, uint32_t size) {
    write_bytes(&mapped, at, bytes, size);
    carry(&mapped);
}

/* A round has a whole number of groups. */
static void update_in_groups(uint64_t at, const uint8_t *bytes, uint32_t size) {
    static int count;
    write_bytes(&mapped, at, bytes, size);
    if (++count % GROUP == 0) carry(&mapped);
}

static void end_pmem(void) {
    if (mapped.fs.is_open) MUST(bpfs_close(&mapped.fs) == BPFS_OK && bpfs_pmem_close(&pmem) == 0);
}
#endif

/* ---- libpmemobj: the bytes of the file, with its size before them */

#ifdef HAS_OBJ
static PMEMobjpool *pool;
static uint8_t *root;
static bool pool_appends;

static void begin_pool(void) {
    pool = pmemobj_create(fresh("bench.pool"), "bench", POOL_SIZE, 0644);
    MUST(pool != NULL);
    root = pmemobj_direct(pmemobj_root(pool, FILE_SIZE + 64));
}

static void prepare_pool(const update *of) { pool_appends = of->appends; }

/* Past the size no old bytes have to be kept. */
static void update_pool(uint64_t at, const uint8_t *bytes, uint32_t size) {
    TX_BEGIN(pool) {
        if (pool_appends) {
            pmemobj_tx_add_range_direct(root, 8);
            pmemobj_tx_xadd_range_direct(root + 64 + at, size, POBJ_XADD_NO_SNAPSHOT);
            *(uint64_t *)(void *)root = at + size;
        } else {
            pmemobj_tx_add_range_direct(root + 64 + at, size);
        }
        memcpy(root + 64 + at, bytes, size);
    }
    TX_ONABORT { MUST(false); }
    TX_END
}

static void end_pool(void) { pmemobj_close(pool); }
#endif

/* ---- pwrite and fdatasync, which are not atomic */

static int plain;

static void begin_plain(void) {
    plain = open(fresh("bench.plain"), O_RDWR | O_CREAT, 0644);
    MUST(plain >= 0);
}

static void prepare_plain(const update *of) {
    MUST(ftruncate(plain, 0) == 0);
    for (off_t at = 0; !of->appends && at < FILE_SIZE; at += NOISE) MUST(pwrite(plain, noise, NOISE, at) == NOISE);
    MUST(fdatasync(plain) == 0);
}

static void update_plain(uint64_t at, const uint8_t *bytes, uint32_t size) {
    MUST(pwrite(plain, bytes, size, (off_t)at) == (ssize_t)size && fdatasync(plain) == 0);
}

static void end_plain(void) { close(plain); }

/* ---- SQLite: rows of as many bytes as an update has, 1 MiB in all */

#ifdef HAS_SQLITE
typedef struct base {
    sqlite3 *db;
    sqlite3_stmt *update, *insert;
    bool appends;
} base;

static base wal, journal;

static void sql(sqlite3 *db, const char *text) {
    MUST(sqlite3_exec(db, text, NULL, NULL, NULL) == SQLITE_OK);
}

static void begin_base(base *b, const char *name, const char *mode) {
    MUST(sqlite3_open(fresh(name), &b->db) == SQLITE_OK);
    sql(b->db, "PRAGMA locking_mode=EXCLUSIVE; PRAGMA synchronous=FULL;");
    sql(b->db, mode);
    sql(b->db, "CREATE TABLE file(id INTEGER PRIMARY KEY, bytes BLOB);");
    MUST(sqlite3_prepare_v2(b->db, "UPDATE file SET bytes=?1 WHERE id=?2", -1, &b->update, NULL) == SQLITE_OK);
    MUST(sqlite3_prepare_v2(b->db, "INSERT INTO file(bytes, id) VALUES(?1, ?2)", -1, &b->insert, NULL) == SQLITE_OK);
}

static void bind_and_step(sqlite3_stmt *statement, uint64_t id, const uint8_t *bytes, uint32_t size) {
    MUST(sqlite3_bind_blob(statement, 1, bytes, (int)size, SQLITE_STATIC) == SQLITE_OK);
    MUST(sqlite3_bind_int64(statement, 2, (sqlite3_int64)id) == SQLITE_OK);
    MUST(sqlite3_step(statement) == SQLITE_DONE && sqlite3_reset(statement) == SQLITE_OK);
}

static void prepare_base(base *b, const update *of) {
    b->appends = of->appends;
    sql(b->db, "BEGIN; DELETE FROM file;");
    for (uint64_t id = 0; !of->appends && id <= FILE_SIZE / of->size; id++) bind_and_step(b->insert, id, noise, of->size);
    sql(b->db, "COMMIT;");
}

static void update_base(base *b, uint64_t at, const uint8_t *bytes, uint32_t size) {
    bind_and_step(b->appends ? b->insert : b->update, at / size, bytes, size);
}

static void end_base(base *b) {
    sqlite3_finalize(b->update), sqlite3_finalize(b->insert);
    MUST(sqlite3_close(b->db) == SQLITE_OK);
}

static void begin_wal(void) { begin_base(&wal, "bench.wal", "PRAGMA journal_mode=WAL;"); }
static void prepare_wal(const update *of) { prepare_base(&wal, of); }
static void update_wal(uint64_t at, const uint8_t *bytes, uint32_t size) { update_base(&wal, at, bytes, size); }
static void end_wal(void) { end_base(&wal); }

static void begin_journal(void) { begin_base(&journal, "bench.journal", "PRAGMA journal_mode=DELETE;"); }
static void prepare_journal(const update *of) { prepare_base(&journal, of); }
static void update_journal(uint64_t at, const uint8_t *bytes, uint32_t size) { update_base(&journal, at, bytes, size); }
static void end_journal(void) { end_base(&journal); }
#endif

/* ---- measuring */

typedef struct way {
    const char *name;
    void (*begin)(void);
    void (*prepare)(const update *of); /* fills or empties the file */
    void (*update)(uint64_t at, const uint8_t *bytes, uint32_t size);
    void (*end)(void);
} way;

static const way ways[] = {
#ifdef HAS_PMEM
    {"bpfs, libpmem", begin_pmem, prepare_pmem, update_pmem, end_pmem},
    {"bpfs, libpmem, durable after each 100", begin_pmem, prepare_pmem, update_in_groups, end_pmem},
#endif
#ifdef HAS_OBJ
    {"libpmemobj, a transaction", begin_pool, prepare_pool, update_pool, end_pool},
#endif
    {"bpfs, redo carrier", begin_redo, prepare_redo, update_redo, end_redo},
    {"bpfs, file carrier", begin_file, prepare_file, update_file, end_file},
#ifdef HAS_SQLITE
    {"SQLite, write-ahead log", begin_wal, prepare_wal, update_wal, end_wal},
    {"SQLite, rollback journal", begin_journal, prepare_journal, update_journal, end_journal},
#endif
    {"`pwrite` and `fdatasync`, not atomic", begin_plain, prepare_plain, update_plain, end_plain},
    {"bpfs, not carried: not durable", begin_uncarried, prepare_uncarried, update_uncarried, end_uncarried},
};

enum { WAYS = sizeof ways / sizeof *ways };

/* Makes a round of updates. It is not inlined, so that a profiler can be limited to it. */
__attribute__((noinline)) static void round_of_updates(const way *by, const update *of) {
    uint64_t at = 0;
    for (int i = 0; i < STEPS; i++) {
        if (!of->appends) at = draw(FILE_SIZE - of->size) & (of->aligned ? ~7ull : ~0ull);
        by->update(at, noise + draw(NOISE - MOST), of->size);
        if (of->appends) at += of->size;
    }
}

/* Returns nanoseconds of an update. */
static double measure(const way *by, const update *of, bool first) {
    if (first || of->appends) by->prepare(of);
    double start = now();
    round_of_updates(by, of);
    return (now() - start) / STEPS;
}

static void choose_core(int core) {
    cpu_set_t set;
    MUST(sched_getaffinity(0, sizeof set, &set) == 0);
    for (int i = CPU_SETSIZE - 1; core < 0 && i >= 0; i--)
        if (CPU_ISSET(i, &set)) core = i;
    CPU_ZERO(&set);
    CPU_SET(core, &set);
    MUST(sched_setaffinity(0, sizeof set, &set) == 0);
}

static void print_table(double found[WAYS][UPDATES]) {
    printf("| ns an update |");
    for (int u = 0; u < UPDATES; u++) printf(" %s |", updates[u].name);
    printf("\n|---|");
    for (int u = 0; u < UPDATES; u++) printf("---:|");
    for (int w = 0; w < WAYS; w++) {
        printf("\n| %s |", ways[w].name);
        for (int u = 0; u < UPDATES; u++) printf(" %.0f |", found[w][u]);
    }
    printf("\n");
}

int main(int argc, char **argv) {
    static double found[WAYS][UPDATES];
    if (argc < 2 || argc == 5 || argc > 6) return fprintf(stderr, "usage: bench FOLDER [ROUNDS [CORE [WAY UPDATE]]]\n"), 2;
    folder = argv[1];
    int rounds = argc > 2 ? atoi(argv[2]) : 50, only_way = argc > 5 ? atoi(argv[4]) : -1, only_update = argc > 5 ? atoi(argv[5]) : -1;
    choose_core(argc > 3 ? atoi(argv[3]) : -1);
    for (int i = 0; i < NOISE; i++) noise[i] = (uint8_t)draw(256);
    for (int w = 0; w < WAYS; w++) ways[w].begin();
    for (int u = 0; u < UPDATES; u++)
        for (int i = 0; i < rounds; i++)
            for (int w = 0; w < WAYS; w++) {
                if (only_way >= 0 && (w != only_way || u != only_update)) continue;
                double took = measure(&ways[w], &updates[u], i == 0);
                if (i == 0 || took < found[w][u]) found[w][u] = took;
            }
    for (int w = 0; w < WAYS; w++) ways[w].end();
    print_table(found);
    static const char *const names[] = {"bench.unused", "bench.file", "bench.redo", "bench.redo-redo", "bench.pmem", "bench.pool",
                                        "bench.plain",  "bench.wal",  "bench.wal-wal", "bench.journal", "bench.journal-journal"};
    for (size_t i = 0; i < sizeof names / sizeof *names; i++) fresh(names[i]);
    return 0;
}
