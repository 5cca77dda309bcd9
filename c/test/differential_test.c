/* differential_test.c - pseudo-random calls of all functions of bpfs.h, whose results are compared
 * with those of a model of files in plain C (tree.h).
 *
 *     differential_test COUNT SEED [PLANT [RESULTS]]
 *
 * It makes COUNT calls. One in some hundred is more than a call: the volume is mounted once more
 * from a copy of its words, or the power fails at any event, and the whole tree is compared, as the
 * library shows it and as the words have it (reader.h). A volume lives for some thousand calls; its
 * size, its version and how it is mounted are drawn.
 *
 * Each buffer that a call gets ends at a page that nobody may touch (guarded.h). What the model
 * cannot foresee is whether space lacks: where BPFS_NO_SPACE is possible it is accepted, and nothing
 * may have changed. Some allocations of the library fail. The status is 1 at the first difference.
 * With PLANT above 0, bytes that are read are falsified after that many calls, which has to be such
 * a difference. With RESULTS, any text, it prints how often each kind of call had each result.
 */
#include "guarded.h"
#include "model.h"
#include "reader.h"
#include "tree.h"
#include <signal.h>
#include <stdio.h>
#include <stdlib.h>
#include <string.h>
#include <unistd.h>

enum {
    MOST_BLOCKS = 2048,
    MOST_WORDS = MOST_BLOCKS * BPFS_BLOCK_WORDS,
    LOG_EVENTS = 2 * BPFS_LOG_ROOM,
    CHUNK = 8192,      /* events or words of one call */
    MOST_TEXT = 80000, /* of a batch */
    FEW_NODES = 8,     /* no new node if the tree may have fewer more */
    MOST_BARRIERS = 10,
    RESULTS = 41,
};

/* The trees after a call, of which `end` is the number of events since the last drain. */
typedef struct moment {
    size_t end;
    tree *now, *kept;
    uint32_t version;
} moment;

typedef struct path {
    uint8_t bytes[BPFS_MAX_PATH + 300];
    size_t length;
} path;

/* Results: those of the call, and what the model knows of them. */
static struct {
    uint64_t state, seed, call, calls, plant;
    uint32_t kind;
    uint32_t fills; /* for so many calls more, writes are long and nothing is drained: the log becomes full */
    const char *name;
    uint64_t met[RESULTS][RESULTS]; /* by kinds of calls and their results */
} run;

static bpfs *fs; /* the handle, guarded */
static uint32_t blocks;
static size_t words;
static moment present;              /* what the volume has to show */
static moment *past;                /* and had to, since the last drain */
static size_t past_count, past_room;
static uint64_t *shadow, *durable;  /* the words now, and at the last drain */
static bpfs_event *events;          /* those since the last drain */
static size_t event_count;
static uint64_t drained, tag;
static bool is_lent;                /* the volume is over words that were lent */
static const tree_name **listed;    /* the last listing */
static bool *listed_dirs;
static size_t listed_count, listed_room;
static bool is_listed;

static guarded in_path, in_other, in_bytes, in_pieces, in_words;
static guarded out_handle, out_temporary, out_bytes, out_words, out_values, out_events, out_lent;
static guarded out_count, out_lack, out_fault, out_found, out_flag, out_sums, out_blocks, out_links, out_attribute, out_run, out_lent_words;
static guarded out_ino, out_about;

/* ---- memory that lacks ---- */

static uint32_t starves_at; /* that one of the next allocations fails, and those after it; 0: none */
static bool is_starved;     /* one has failed */

void *__real_malloc(size_t size);
void *__real_realloc(void *memory, size_t size);
void *__wrap_malloc(size_t size);
void *__wrap_realloc(void *memory, size_t size);

static bool starves(void) {
    if (starves_at > 1) starves_at--;
    else if (starves_at == 1) is_starved = true;
    return starves_at == 1 && is_starved;
}

void *__wrap_malloc(size_t size) {
    return starves() ? NULL : __real_malloc(size);
}

void *__wrap_realloc(void *memory, size_t size) {
    return starves() ? NULL : __real_realloc(memory, size);
}

static void starve(uint32_t at) {
    starves_at = at;
    is_starved = false;
}

static void feed(void) {
    starves_at = 0;
}

/* ---- differences ---- */

static void differ(const char *what, uint64_t found, uint64_t wanted) {
    fprintf(stderr, "differential_test: seed %llu, call %llu, %s: %s: %llu, and %llu was wanted\n", (unsigned long long)run.seed,
            (unsigned long long)run.call, run.name, what, (unsigned long long)found, (unsigned long long)wanted);
    exit(1);
}

static void is(const char *what, uint64_t found, uint64_t wanted) {
    if (found != wanted) differ(what, found, wanted);
}

/* Compares the result of a call. */
static void returns(uint32_t found, uint32_t wanted) {
    is("the result", found, wanted);
    run.met[run.kind][found < RESULTS ? found : 0]++;
}

static void holds(const char *what, bool found) {
    if (!found) differ(what, 0, 1);
}

static void faulted(int signal_number) {
    char text[160];
    int length = snprintf(text, sizeof text, "differential_test: seed %llu, call %llu, %s: signal %d\n", (unsigned long long)run.seed,
                          (unsigned long long)run.call, run.name, signal_number);
    if (write(2, text, (size_t)length) < 0) _exit(2);
    _exit(1);
}

static uint32_t any(uint32_t below) {
    return draw(&run.state, below);
}

static uint64_t any_number(void) {
    return ((uint64_t)any(1u << 31) << 33) ^ ((uint64_t)any(1u << 31) << 11) ^ any(1u << 11);
}

/* A number that is close to another one. */
static uint64_t around(uint64_t number) {
    return number + any(9) - 4;
}

/* Whether a result pointer shall be NULL. */
static bool unwanted(void) {
    return any(16) == 0;
}

/* A result of some type: the memory for it, all of whose bytes are GUARDED_FILL. */
#define RESULT(type, memory) ((type *)guarded_out(&memory, sizeof(type)))
#define UNLESS(is_unwanted, pointer) ((is_unwanted) ? NULL : (pointer))

/* The result keeps its value. */
static void keeps(const guarded *memory, size_t size) {
    holds("a result of a call that is refused is unchanged", guarded_rest(memory, 0, size));
}

static void fronts_are_kept(void) {
    const struct { const guarded *memory; size_t size; } results[] = {
        {&out_count, sizeof(size_t)}, {&out_lack, sizeof(bpfs_lack)}, {&out_fault, sizeof(bpfs_fault)}, {&out_found, sizeof(bpfs_found)},
        {&out_flag, sizeof(bool)}, {&out_sums, sizeof(bpfs_sums)}, {&out_blocks, sizeof(bpfs_blocks)}, {&out_links, sizeof(uint32_t)},
        {&out_attribute, sizeof(uint64_t)}, {&out_run, sizeof(bpfs_run)}, {&out_handle, sizeof(bpfs)}, {&out_lent, sizeof(bpfs_lent)},
        {&out_ino, sizeof(uint32_t)}, {&out_about, sizeof(bpfs_about)},
    };
    for (size_t i = 0; i < sizeof results / sizeof *results; i++)
        holds("the bytes before a result are unchanged", guarded_front(results[i].memory, results[i].size));
}

/* ---- paths ---- */

static void add_bytes(path *p, const void *bytes, size_t length) {
    if (p->length + length > sizeof p->bytes) return;
    memcpy(p->bytes + p->length, bytes, length);
    p->length += length;
}

/* A valid name of any bytes. */
static void add_odd_name(path *p, size_t length) {
    uint8_t name[BPFS_MAX_NAME + 1];
    for (size_t i = 0; i < length; i++) {
        name[i] = (uint8_t)(1 + any(255));
        if (name[i] == '/' || name[i] == '.') name[i] = 'x';
    }
    add_bytes(p, name, length);
}

/* One of a few names, so that calls meet. */
static void add_name(path *p) {
    static const char *const names[] = {"a", "b", "c", "dd", "d0", "...", ".a", "a ", "\xff", "\x80\x01", "ab", "A"};
    uint8_t same[BPFS_MAX_NAME];
    uint32_t which = any(96);
    if (which == 0) add_odd_name(p, 1 + any(BPFS_MAX_NAME));
    else if (which < 5) {
        memset(same, 'n' + (int)any(2), sizeof same);
        add_bytes(p, same, sizeof same - any(2));
    } else if (which < 7) {
        for (int i = 0; i < 128; i++) same[i] = (uint8_t)((which == 5 ? 1 : 128) + i);
        same['/' - 1] = which == 5 ? '0' : same['/' - 1];
        add_bytes(p, same, which == 5 ? 127 : 128);
    } else add_bytes(p, names[which % 12], strlen(names[which % 12]));
}

/* Spoils a path, or makes it as long as a path may be, or longer. */
static void spoil(path *p) {
    static const char *const ends[] = {"/", "//a", "/.", "/..", "/./a", "/../a", "/a/", "a"};
    uint32_t which = any(14);
    if (which < 8) add_bytes(p, ends[which], strlen(ends[which]));
    else if (which == 8) p->length = 0;
    else if (which == 9) p->bytes[0] = 'a';
    else if (which == 10) p->bytes[any((uint32_t)p->length)] = 0;
    else if (which == 11) {
        add_bytes(p, "/", 1);
        add_odd_name(p, BPFS_MAX_NAME + any(2));
    } else {
        size_t length = BPFS_MAX_PATH + any(2);
        while (p->length + 2 <= length) add_bytes(p, "/a", 2);
        if (p->length < length) add_bytes(p, "b", 1);
    }
}

/* A path: most often of what is there, or next to it. */
static void any_path(path *p, const tree *t, bool is_new) {
    int node = 0;
    p->length = 0;
    for (uint32_t depth = any(5); depth || p->length == 0; depth--) {
        const tree_node *dir = node < 0 ? NULL : t->nodes[node];
        if (p->length == 0 && any(60) == 0) break;
        add_bytes(p, "/", 1);
        if (dir && dir->is_dir && dir->count && any(4)) {
            const tree_entry *entry = &dir->entries[any((uint32_t)dir->count)];
            if (is_new && (depth == 0 || !t->nodes[entry->node]->is_dir)) {
                add_name(p);
                return;
            }
            add_bytes(p, entry->name->bytes, entry->name->length);
            node = entry->node;
            if (!t->nodes[node]->is_dir && any(12)) return;
        } else {
            add_name(p);
            if (any(12)) return;
            node = -1;
        }
        if (depth == 0) break;
    }
    if (p->length == 0) add_bytes(p, "/", 1);
}

/* The path of a file, if there is one: other calls would meet few. */
static void any_file(path *p, const tree *t) {
    tree_path names;
    int node;
    for (int i = 0; i < 6; i++) {
        any_path(p, t, false);
        if (tree_parse(&names, p->bytes, p->length) && !tree_find(t, &names, &node) && !t->nodes[node]->is_dir) break;
    }
    if (any(40) == 0) any_path(p, t, false);
}

static void draw_path(path *p, const tree *t, bool of_file) {
    if (of_file) any_file(p, t);
    else any_path(p, t, any(2));
    if (any(24) == 0) spoil(p);
}

/* Gives a path to the call that comes next, for which memory may lack. */
static const uint8_t *given(const guarded *memory, const path *p) {
    starve(any(8) ? 0 : 1 + any(3));
    return p->length || any(2) ? guarded_in(memory, p->bytes, p->length) : NULL;
}

/* ---- the log ---- */

static bool is_full(void) {
    return event_count > BPFS_LOG_ROOM;
}

static void is_event(const bpfs_event *found, const bpfs_event *wanted) {
    is("the kind of an event", found->kind, wanted->kind);
    is("the word of an event", found->word, wanted->word);
    is("the value of an event", found->value, wanted->value);
}

static void apply(uint64_t *to, const bpfs_event *event) {
    if (event->kind != BPFS_STORE) {
        is("the word and the value of an event that is no store", event->word | event->value, 0);
        return;
    }
    holds("a store is within the image", event->word < words);
    holds("no store goes to a word that carriers use", event->word < 8 || event->word >= BPFS_BLOCK_WORDS);
    to[event->word] = event->value;
}

/* Reads the events from number `first` on to the end. */
static void fetch(size_t first, size_t count) {
    while (first < count) {
        size_t capacity = any(8) ? (count - first < CHUNK ? count - first : CHUNK) : 1 + any(CHUNK);
        bpfs_event *into = guarded_out(&out_events, capacity * sizeof *into);
        size_t got = bpfs_events(fs, first, into, capacity);
        is("the number of events", got, count - first < capacity ? count - first : capacity);
        holds("the events past those are unchanged", guarded_rest(&out_events, got * sizeof *into, capacity * sizeof *into));
        for (size_t i = 0; i < got; i++) {
            events[first + i] = into[i];
            apply(shadow, &into[i]);
        }
        first += got;
    }
}

/* The events that the last call added: some, one marker alone, or none. */
static void follow(bool adds, bool changes) {
    size_t first = event_count, count = bpfs_event_count(fs), barriers = 0, last_store = 0, last_barrier = 0;
    feed();
    holds("the log has room for all events", count <= LOG_EVENTS);
    if (!adds || !changes) is("the number of events after the call", count, first + adds);
    fetch(first, count);
    event_count = count;
    for (size_t i = first; i < count; i++) {
        if (events[i].kind == BPFS_STORE) last_store = i + 1;
        if (events[i].kind == BPFS_BARRIER) last_barrier = i + 1, barriers++;
        holds("the kind of an event", events[i].kind <= BPFS_MARK);
        is("the end-of-call marker is the last event", events[i].kind == BPFS_MARK, i + 1 == count);
    }
    if (adds) holds("a call adds a marker", count > first);
    if (last_store) holds("a barrier follows the last store", last_barrier > last_store);
    holds("a call has few barriers", barriers <= MOST_BARRIERS);
}

static void let_go(moment *m) {
    tree_drop(m->now);
    tree_drop(m->kept);
}

/* Keeps the trees that there are from now on. */
static void remember(void) {
    if (past_count == past_room) {
        past_room = 2 * past_room + 64;
        past = realloc(past, past_room * sizeof *past);
        if (!past) exit(2);
    }
    past[past_count++] = (moment){event_count, tree_hold(present.now), tree_hold(present.kept), present.version};
}

/* All events are durable. */
static void forget(void) {
    for (size_t i = 0; i < past_count; i++) let_go(&past[i]);
    past_count = 0;
    event_count = 0;
    remember();
}

/* ---- calls that change the tree ---- */

/* Compares what a call returned. `next` is the tree after it; space may lack or not. */
static void changed(uint32_t code, uint32_t wanted, tree *next, bool may_lack, bool lack_is_unwanted) {
    const bpfs_lack *lack = (const bpfs_lack *)(out_lack.readable + out_lack.size - sizeof *lack);
    bool lacks = code == BPFS_NO_SPACE && wanted == BPFS_OK && may_lack && !is_full();
    uint32_t free_blocks = lacks && !lack_is_unwanted ? lack->free : 0;
    if (is_full()) wanted = BPFS_LOG_FULL;
    returns(code, lacks ? BPFS_NO_SPACE : wanted);
    if (lacks && !lack_is_unwanted) holds("a call that lacks space needs more than is free", lack->need > lack->free && lack->need < 1000);
    if (!lacks) keeps(&out_lack, sizeof *lack);
    follow(wanted != BPFS_LOG_FULL, code == BPFS_OK);
    if (code == BPFS_OK) {
        tree_drop(present.now);
        present.now = next;
        remember();
        return;
    }
    tree_drop(next);
    if (!lacks || lack_is_unwanted) return;
    bpfs_blocks *space = RESULT(bpfs_blocks, out_blocks);
    is("bpfs_space", bpfs_space(fs, space), BPFS_OK);
    is("the free blocks of a lack", free_blocks, space->free);
}

static void call_make(void) {
    path p;
    tree_path names;
    bool is_dir = any(3) == 0, no_lack = unwanted();
    uint32_t (*make)(bpfs *, const uint8_t *, size_t, bpfs_lack *) = is_dir ? bpfs_mkdir_any : bpfs_create_any;
    draw_path(&p, present.now, false);
    tree *next = tree_copy(present.now);
    uint32_t wanted = tree_parse(&names, p.bytes, p.length) ? tree_make(next, &names, is_dir) : BPFS_BAD_PATH;
    guarded_out(&out_lack, sizeof(bpfs_lack));
    uint32_t code = make(fs, given(&in_path, &p), p.length, UNLESS(no_lack, RESULT(bpfs_lack, out_lack)));
    changed(code, wanted, next, true, no_lack);
}

static void call_remove(void) {
    path p;
    tree_path names;
    bool of_dir = any(4) == 0, no_lack = unwanted();
    uint32_t (*remove_it)(bpfs *, const uint8_t *, size_t, bpfs_lack *) = of_dir ? bpfs_rmdir_any : bpfs_unlink_any;
    draw_path(&p, present.now, !of_dir && any(2));
    tree *next = tree_copy(present.now);
    uint32_t wanted = BPFS_BAD_PATH;
    if (tree_parse(&names, p.bytes, p.length)) wanted = of_dir ? tree_rmdir(next, &names) : tree_unlink(next, &names);
    guarded_out(&out_lack, sizeof(bpfs_lack));
    uint32_t code = remove_it(fs, given(&in_path, &p), p.length, UNLESS(no_lack, RESULT(bpfs_lack, out_lack)));
    changed(code, wanted, next, present.kept, no_lack);
}

/* Whether two paths find one node. */
static bool find_one(const tree *t, const tree_path *from, const tree_path *to) {
    int node, other;
    return !tree_find(t, from, &node) && !tree_find(t, to, &other) && node == other;
}

static void call_two(void) {
    static tree_path from, to;
    path p, q;
    bool links = any(3) == 0, no_lack = unwanted(), may_lack = true;
    draw_path(&p, present.now, links);
    draw_path(&q, present.now, false);
    if (any(24) == 0) q = p;
    if (any(24) == 0 && p.length > 1) { /* below itself */
        q = p;
        add_bytes(&q, "/a", 2);
    }
    tree *next = tree_copy(present.now);
    uint32_t wanted = BPFS_BAD_PATH;
    if (tree_parse(&from, p.bytes, p.length) && tree_parse(&to, q.bytes, q.length)) {
        wanted = links ? tree_link(next, &from, &to) : tree_rename(next, &from, &to);
        may_lack = links || !find_one(present.now, &from, &to);
    }
    uint32_t (*call)(bpfs *, const uint8_t *, size_t, const uint8_t *, size_t, bpfs_lack *) = links ? bpfs_link_any : bpfs_rename_any;
    guarded_out(&out_lack, sizeof(bpfs_lack));
    uint32_t code = call(fs, given(&in_path, &p), p.length, given(&in_other, &q), q.length, UNLESS(no_lack, RESULT(bpfs_lack, out_lack)));
    changed(code, wanted, next, may_lack, no_lack);
}

static uint64_t size_at(const tree *t, const path *p) {
    static tree_path names;
    int node;
    if (!tree_parse(&names, p->bytes, p->length) || tree_find(t, &names, &node)) return 0;
    return t->nodes[node]->is_dir ? 0 : t->nodes[node]->size;
}

/* An offset or a size: in the file, at its end, at a limit, or any. */
static uint64_t any_offset(uint64_t size) {
    static const int bits[] = {12, 16, 20, 21, 30, 39, 48, 57};
    switch (any(20)) {
    case 0: return around((uint64_t)1 << bits[any(8)]);
    case 1: return around(tree_most(present.version));
    case 2: return any_number();
    case 3: return any_number() % tree_most(present.version);
    case 4: return any_number() >> any(64);
    case 5: case 6: return around(size);
    case 7: case 8: return 8 * (uint64_t)any(5000);
    case 9: return around(4096 * (uint64_t)any(20));
    case 10: return 0;
    case 11: case 12: return size;
    case 13: case 14: return size ? any_number() % size : 0;
    default: return any(20000);
    }
}

static uint32_t any_count(void) {
    static const uint32_t limits[] = {BPFS_MAX_WRITE, BPFS_MAX_WRITE + 1, BPFS_MAX_WRITE_2, BPFS_MAX_WRITE_2 + 1, BPFS_MAX_WRITE - 1};
    uint32_t which = any(200);
    if (which == 0 || (run.fills && which < 150)) return limits[any(5)];
    if (which < 8) return 1 + any(BPFS_MAX_WRITE);
    if (which < 16) return 4096 * any(6);
    if (which < 24) return 0;
    if (which < 60) return 1 + any(6000);
    if (which < 90) return 1 + any(16);
    return 1 + any(300);
}

static void fill(uint8_t *bytes, size_t count) {
    uint64_t x = any_number();
    for (size_t i = 0; i < count; i++) {
        if (i % 8 == 0) x = x * 6364136223846793005u + 1442695040888963407u;
        bytes[i] = (uint8_t)(x >> 8 * (i % 8));
    }
}

static void call_write(void) {
    static uint8_t bytes[BPFS_MAX_WRITE_2 + 1];
    tree_path names;
    path p;
    bool no_lack = unwanted();
    draw_path(&p, present.now, true);
    uint64_t offset = any_offset(size_at(present.now, &p));
    uint32_t count = any_count();
    if (any(30)) fill(bytes, count);
    else memset(bytes, 0, count);
    tree *next = tree_copy(present.now);
    uint32_t wanted = BPFS_BAD_PATH;
    if (tree_parse(&names, p.bytes, p.length)) wanted = tree_write(next, &names, offset, bytes, count, present.version);
    const uint8_t *from = count || any(2) ? guarded_in(&in_bytes, bytes, count) : NULL;
    guarded_out(&out_lack, sizeof(bpfs_lack));
    uint32_t code = bpfs_write(fs, given(&in_path, &p), p.length, offset, from, count, UNLESS(no_lack, RESULT(bpfs_lack, out_lack)));
    changed(code, wanted, next, count, no_lack);
}

static void call_truncate(void) {
    tree_path names;
    path p;
    bool no_lack = unwanted();
    draw_path(&p, present.now, true);
    uint64_t old = size_at(present.now, &p), size = any_offset(old);
    tree *next = tree_copy(present.now);
    uint32_t wanted = BPFS_BAD_PATH;
    if (tree_parse(&names, p.bytes, p.length)) wanted = tree_truncate(next, &names, size, present.version);
    guarded_out(&out_lack, sizeof(bpfs_lack));
    uint32_t code = bpfs_truncate(fs, given(&in_path, &p), p.length, size, UNLESS(no_lack, RESULT(bpfs_lack, out_lack)));
    changed(code, wanted, next, size > old || (size < old && present.kept), no_lack);
}

/* The number of an attribute, or of none. */
static uint64_t any_attribute(void) {
    if (any(10)) return any(BPFS_ATTRIBUTES);
    return any(2) ? BPFS_ATTRIBUTES + any(3) : any_number();
}

static void call_set_attribute(void) {
    tree_path names;
    path p;
    bool no_lack = unwanted();
    uint64_t number = any_attribute(), value = any(8) ? any_number() : any(2);
    draw_path(&p, present.now, any(2));
    tree *next = tree_copy(present.now);
    uint32_t wanted = BPFS_BAD_PATH;
    if (number >= BPFS_ATTRIBUTES) wanted = BPFS_OUT_OF_RANGE;
    else if (tree_parse(&names, p.bytes, p.length)) wanted = tree_set_attribute(next, &names, number, value, present.version);
    guarded_out(&out_lack, sizeof(bpfs_lack));
    uint32_t code = bpfs_set_attribute(fs, given(&in_path, &p), p.length, number, value, UNLESS(no_lack, RESULT(bpfs_lack, out_lack)));
    if (wanted != BPFS_OUT_OF_RANGE) {
        changed(code, wanted, next, present.kept, no_lack);
        return;
    }
    returns(code, wanted);
    keeps(&out_lack, sizeof(bpfs_lack));
    follow(false, false);
    tree_drop(next);
}

/* Adds a piece, with a path and bytes of its own, to a text that has `*length` bytes. */
static void any_piece(bpfs_piece *piece, uint8_t *text, size_t *length) {
    path p;
    draw_path(&p, present.now, true);
    uint64_t size = size_at(present.now, &p);
    uint32_t count = any(20) ? any(40) : 1 + any(5000);
    if (any(80) == 0) count = BPFS_MAX_BATCH - 1 + any(3);
    else if (size < count && any(8)) count = size ? any((uint32_t)(size < 40 ? size : 40)) : 0;
    uint64_t offset = size >= count ? any_number() % (size - count + 1) : 0;
    if (any(40) == 0) offset = any_offset(size);
    if (*length + p.length + count > MOST_TEXT) p.length = count = 0;
    *piece = (bpfs_piece){(uint32_t)*length, (uint32_t)p.length, offset, (uint32_t)(*length + p.length), count};
    memcpy(text + *length, p.bytes, p.length);
    fill(text + *length + p.length, count);
    *length += p.length + count;
}

static bool is_within(uint32_t at, uint32_t length, size_t text) {
    return (uint64_t)at + length <= text;
}

static uint32_t batch_wanted(tree *next, const uint8_t *text, size_t length, const bpfs_piece *pieces, size_t count, uint64_t *in_all) {
    static tree_path names;
    *in_all = 0;
    if (count > BPFS_MAX_PIECES) return BPFS_OUT_OF_RANGE;
    for (size_t i = 0; i < count; i++) {
        if (!is_within(pieces[i].path_at, pieces[i].path_length, length)) return BPFS_OUT_OF_RANGE;
        if (!is_within(pieces[i].bytes_at, pieces[i].bytes_length, length)) return BPFS_OUT_OF_RANGE;
        *in_all += pieces[i].bytes_length;
    }
    for (size_t i = 0; i < count; i++)
        if (!tree_parse(&names, text + pieces[i].path_at, pieces[i].path_length)) return BPFS_BAD_PATH;
    if (*in_all > BPFS_MAX_BATCH) return BPFS_TOO_LONG;
    for (size_t i = 0; i < count; i++) {
        tree_parse(&names, text + pieces[i].path_at, pieces[i].path_length);
        uint32_t code = tree_patch(next, &names, pieces[i].offset, text + pieces[i].bytes_at, pieces[i].bytes_length);
        if (code) return code;
    }
    return BPFS_OK;
}

/* Lets a part of a piece be anywhere, or past the end of the text. */
static void spoil_piece(bpfs_piece *piece, size_t length) {
    uint32_t *fields[] = {&piece->path_at, &piece->path_length, &piece->bytes_at, &piece->bytes_length};
    uint32_t which = any(4);
    *fields[which] = any(3) ? any((uint32_t)length + 3) : UINT32_MAX - any(3);
}

static void call_batch(void) {
    static uint8_t text[MOST_TEXT];
    bpfs_piece pieces[BPFS_MAX_PIECES + 1];
    size_t length = 0, count = any(3) ? any(4) : any(BPFS_MAX_PIECES + 2);
    bool no_lack = unwanted();
    uint64_t in_all;
    for (size_t i = 0; i < count; i++) any_piece(&pieces[i], text, &length);
    if (count && any(16) == 0) spoil_piece(&pieces[any((uint32_t)count)], length);
    tree *next = tree_copy(present.now);
    uint32_t wanted = batch_wanted(next, text, length, pieces, count, &in_all);
    const uint8_t *of_text = length || any(2) ? guarded_in(&in_bytes, text, length) : NULL;
    const bpfs_piece *of_pieces = count || any(2) ? guarded_in(&in_pieces, pieces, count * sizeof *pieces) : NULL;
    guarded_out(&out_lack, sizeof(bpfs_lack));
    uint32_t code = bpfs_batch(fs, of_text, length, of_pieces, count, UNLESS(no_lack, RESULT(bpfs_lack, out_lack)));
    if (wanted != BPFS_OUT_OF_RANGE) {
        changed(code, wanted, next, in_all, no_lack);
        return;
    }
    returns(code, wanted);
    keeps(&out_lack, sizeof(bpfs_lack));
    follow(false, false);
    tree_drop(next);
}

static void call_snap(void) {
    uint32_t wanted = present.version == 1 ? BPFS_OLD_VERSION : present.kept ? BPFS_HAS_SNAP : BPFS_OK;
    uint32_t code = bpfs_snap(fs);
    returns(code, is_full() ? BPFS_LOG_FULL : wanted);
    follow(code != BPFS_LOG_FULL, code == BPFS_OK);
    if (code) return;
    present.kept = tree_hold(present.now);
    remember();
}

static void call_unsnap(void) {
    uint32_t code = bpfs_unsnap(fs);
    returns(code, is_full() ? BPFS_LOG_FULL : present.kept ? BPFS_OK : BPFS_NO_SNAP);
    follow(code != BPFS_LOG_FULL, code == BPFS_OK);
    if (code) return;
    tree_drop(present.kept);
    present.kept = NULL;
    remember();
}

static void call_upgrade(void) {
    uint32_t code = bpfs_upgrade(fs);
    returns(code, is_full() ? BPFS_LOG_FULL : BPFS_OK);
    follow(!code, !code);
    if (code) return;
    if (present.version == 1) present.version = 2;
    remember();
}

/* While there are words to clear, the call clears some and has to be repeated. */
static void call_upgrade_to_three(void) {
    size_t unclear = present.version < 3 && !present.kept ? reader_unclear(shadow, blocks) : 0;
    uint32_t wanted = present.version == 3 ? BPFS_OK : present.kept ? BPFS_HAS_SNAP : unclear ? BPFS_AGAIN : BPFS_OK;
    uint32_t code = bpfs_upgrade_to_three(fs);
    returns(code, is_full() ? BPFS_LOG_FULL : wanted);
    follow(code != BPFS_LOG_FULL, code == BPFS_OK || code == BPFS_AGAIN);
    if (code == BPFS_AGAIN) holds("words are cleared", reader_unclear(shadow, blocks) < unclear);
    if (code == BPFS_OK) present.version = 3;
    if (code == BPFS_OK || code == BPFS_AGAIN) remember();
}

/* ---- calls that change nothing ---- */

/* The node that a call has to find, or its result. */
static uint32_t look(const tree *t, const path *p, int *node) {
    static tree_path names;
    if (!tree_parse(&names, p->bytes, p->length)) return BPFS_BAD_PATH;
    return t ? tree_find(t, &names, node) : BPFS_NO_SNAP;
}

/* Compares the result of such a call, which adds no event, also where the log is full. */
static void looked(uint32_t code, uint32_t wanted) {
    returns(code, wanted);
    follow(false, false);
}

static void call_read(void) {
    static uint8_t wanted_bytes[BPFS_MAX_WRITE_2 + 1];
    path p;
    int node = 0;
    bool of_snap = any(4) == 0, no_count = unwanted();
    const tree *t = of_snap ? present.kept : present.now;
    draw_path(&p, of_snap && t ? t : present.now, true);
    uint64_t offset = any_offset(t ? size_at(t, &p) : 0);
    uint32_t capacity = any(50) ? any(5000) : any_count(), wanted = look(t, &p, &node);
    if (!wanted && t->nodes[node]->is_dir) wanted = BPFS_IS_DIR;
    size_t count_wanted = wanted ? 0 : tree_read(t, node, offset, wanted_bytes, capacity);
    uint8_t *into = guarded_out(&out_bytes, capacity);
    size_t *count = RESULT(size_t, out_count);
    uint32_t (*reads)(bpfs *, const uint8_t *, size_t, uint64_t, uint8_t *, size_t, size_t *) = of_snap ? bpfs_snap_read_any : bpfs_read_any;
    uint8_t *given_into = capacity || any(2) ? into : NULL;
    uint32_t code = reads(fs, given(&in_path, &p), p.length, offset, given_into, capacity, UNLESS(no_count, count));
    if (run.plant && run.call >= run.plant && count_wanted) into[any((uint32_t)count_wanted)] ^= 1;
    looked(code, wanted);
    if (code || no_count) keeps(&out_count, sizeof *count);
    else is("the number of bytes", *count, count_wanted);
    holds("the bytes", memcmp(into, wanted_bytes, count_wanted) == 0);
    holds("the bytes past the number", guarded_rest(&out_bytes, count_wanted, capacity) && guarded_front(&out_bytes, capacity));
}

static void call_stat(void) {
    path p;
    int node = 0;
    bool of_snap = any(4) == 0, no_found = unwanted();
    const tree *t = of_snap ? present.kept : present.now;
    draw_path(&p, of_snap && t ? t : present.now, false);
    uint32_t wanted = look(t, &p, &node);
    uint32_t (*stats)(bpfs *, const uint8_t *, size_t, bpfs_found *) = of_snap ? bpfs_snap_stat_any : bpfs_stat_any;
    bpfs_found *found = RESULT(bpfs_found, out_found);
    uint32_t code = stats(fs, given(&in_path, &p), p.length, UNLESS(no_found, found));
    looked(code, wanted);
    if (code || no_found) {
        keeps(&out_found, sizeof *found);
        return;
    }
    is("the kind", found->is_dir, t->nodes[node]->is_dir);
    is("the size", found->size, found->is_dir ? t->nodes[node]->count : t->nodes[node]->size);
}

static void call_links(void) {
    path p;
    int node = 0;
    bool no_links = unwanted();
    draw_path(&p, present.now, any(2));
    uint32_t wanted = look(present.now, &p, &node);
    if (!wanted && present.now->nodes[node]->is_dir) wanted = BPFS_IS_DIR;
    uint32_t *links = RESULT(uint32_t, out_links);
    uint32_t code = bpfs_links(fs, given(&in_path, &p), p.length, UNLESS(no_links, links));
    looked(code, wanted);
    if (code || no_links) keeps(&out_links, sizeof *links);
    else is("the number of links", *links, present.now->nodes[node]->links);
}

/* Of two paths. The numbers are one if the paths find one node. */
static void call_inode(void) {
    uint32_t found[2] = {0, 0};
    int nodes[2] = {-1, -1};
    for (int i = 0; i < 2; i++) {
        path p;
        int node = 0;
        bool no_ino = unwanted();
        draw_path(&p, present.now, any(2));
        uint32_t wanted = look(present.now, &p, &node);
        uint32_t *ino = RESULT(uint32_t, out_ino);
        uint32_t code = bpfs_inode(fs, given(&in_path, &p), p.length, UNLESS(no_ino, ino));
        looked(code, wanted);
        if (code || no_ino) keeps(&out_ino, sizeof *ino);
        else found[i] = *ino, nodes[i] = node;
    }
    if (nodes[0] < 0 || nodes[1] < 0) return;
    holds("the number of an inode", found[0] >= 1 && found[1] >= 1);
    is("two inodes have one number", found[0] == found[1], nodes[0] == nodes[1]);
}

static void call_attribute(void) {
    path p;
    int node = 0;
    bool no_value = unwanted();
    uint64_t number = any_attribute();
    draw_path(&p, present.now, any(2));
    uint32_t wanted = look(present.now, &p, &node);
    if (wanted != BPFS_BAD_PATH && !tree_has_attributes(present.version)) wanted = BPFS_OLD_VERSION;
    if (number >= BPFS_ATTRIBUTES) wanted = BPFS_OUT_OF_RANGE;
    uint64_t *value = RESULT(uint64_t, out_attribute);
    uint32_t code = bpfs_attribute(fs, given(&in_path, &p), p.length, number, UNLESS(no_value, value));
    looked(code, wanted);
    if (code || no_value) keeps(&out_attribute, sizeof *value);
    else is("the value of the attribute", *value, present.now->nodes[node]->attributes[number]);
}

static void keep_listing(const tree *t, const tree_node *dir) {
    if (listed_room < dir->count) {
        listed_room = 2 * dir->count;
        listed = realloc(listed, listed_room * sizeof *listed);
        listed_dirs = realloc(listed_dirs, listed_room * sizeof *listed_dirs);
        if (!listed || !listed_dirs) exit(2);
    }
    for (size_t i = 0; i < dir->count; i++) {
        listed[i] = dir->entries[i].name;
        listed_dirs[i] = t->nodes[dir->entries[i].node]->is_dir;
    }
    listed_count = dir->count;
    is_listed = true;
}

static void call_list(void) {
    path p;
    int node = 0;
    bool of_snap = any(4) == 0, no_count = unwanted();
    const tree *t = of_snap ? present.kept : present.now;
    draw_path(&p, of_snap && t ? t : present.now, false);
    uint32_t wanted = look(t, &p, &node);
    if (!wanted && !t->nodes[node]->is_dir) wanted = BPFS_NOT_DIR;
    uint32_t (*lists)(bpfs *, const uint8_t *, size_t, size_t *) = of_snap ? bpfs_snap_list_any : bpfs_list_any;
    size_t *count = RESULT(size_t, out_count);
    uint32_t code = lists(fs, given(&in_path, &p), p.length, UNLESS(no_count, count));
    if (!wanted && is_starved && code == BPFS_NO_MEMORY) wanted = BPFS_NO_MEMORY;
    looked(code, wanted);
    if (code || no_count) keeps(&out_count, sizeof *count);
    else is("the number of names", *count, t->nodes[node]->count);
    if (!code) keep_listing(t, t->nodes[node]);
}

static void call_listed(void) {
    size_t index = any(10) ? any((uint32_t)listed_count + 2) : (size_t)any_number();
    const tree_name *name = is_listed && index < listed_count ? listed[index] : NULL;
    size_t capacity = any(2) ? BPFS_MAX_NAME : any(4) || !name ? any(BPFS_MAX_NAME + 20) : name->length - any(2);
    bool no_length = unwanted(), no_kind = unwanted();
    uint8_t *into = guarded_out(&out_bytes, capacity);
    size_t *length = RESULT(size_t, out_count);
    bool *is_dir = RESULT(bool, out_flag);
    uint32_t code = bpfs_listed(fs, index, capacity || any(2) ? into : NULL, capacity, UNLESS(no_length, length), UNLESS(no_kind, is_dir));
    bool fits = name && name->length <= capacity;
    returns(code, fits ? BPFS_OK : BPFS_OUT_OF_RANGE);
    follow(false, false);
    holds("the bytes past the name", guarded_rest(&out_bytes, fits ? name->length : 0, capacity) && guarded_front(&out_bytes, capacity));
    if (!fits || no_length) keeps(&out_count, sizeof *length);
    else is("the length of the name", *length, name->length);
    if (!fits || no_kind) keeps(&out_flag, sizeof *is_dir);
    else is("the kind", *is_dir, listed_dirs[index]);
    if (fits) holds("the name", memcmp(into, name->bytes, name->length) == 0);
}

/* What a volume is, and its log. */
static void shows_info(bpfs *of, const moment *m) {
    bpfs_about *about = RESULT(bpfs_about, out_about);
    is("bpfs_info", bpfs_info(of, about), BPFS_OK);
    is("the version", about->version, m->version);
    is("the number of blocks", about->blocks, blocks);
    is("whether there is a snapshot", about->has_snapshot, m->kept != NULL);
    is("the events that the log can hold", about->capacity, LOG_EVENTS);
    is("the room of the log", about->room, LOG_EVENTS - bpfs_event_count(of));
}

static void call_info(void) {
    shows_info(fs, &present);
    is("bpfs_info", bpfs_info(fs, NULL), BPFS_OK);
    follow(false, false);
}

/* Both kinds of numbers of blocks, and the totals of the tree. */
static void shows_totals(bpfs *of, const moment *m, uint32_t *free_blocks) {
    bpfs_blocks *space = RESULT(bpfs_blocks, out_blocks);
    bpfs_sums *sums = RESULT(bpfs_sums, out_sums), wanted = tree_sums(m->now);
    is("bpfs_space", bpfs_space(of, space), BPFS_OK);
    is("bpfs_totals", bpfs_totals(of, sums), BPFS_OK);
    is("the blocks in all", space->free + space->live, blocks - 1);
    is("the files", sums->files, wanted.files);
    is("the directories", sums->dirs, wanted.dirs);
    is("the bytes", sums->bytes, wanted.bytes);
    is("the bytes above", sums->bytes_above, wanted.bytes_above);
    is("the blocks in use", sums->live, space->live);
    *free_blocks = space->free;
}

static void call_totals(void) {
    uint32_t unused;
    shows_totals(fs, &present, &unused);
    is("bpfs_space", bpfs_space(fs, NULL), BPFS_OK);
    is("bpfs_totals", bpfs_totals(fs, NULL), BPFS_OK);
    follow(false, false);
}

static void call_words(void) {
    uint64_t first = any(6) ? any((uint32_t)words + 20) : any_number() >> any(64);
    size_t count = any(5) ? any(1200) : any(CHUNK);
    if (any(3) == 0) first = any(20), count = any(20);
    if (any(4) == 0) first = around(words - count);
    uint64_t *into = guarded_out(&out_words, 8 * count);
    uint32_t code = bpfs_words(fs, first, count || any(2) ? into : NULL, count);
    bool has = first <= words && count <= words - first;
    returns(code, has ? BPFS_OK : BPFS_OUT_OF_RANGE);
    if (has) holds("the words", memcmp(into, shadow + first, 8 * count) == 0);
    else holds("the words are unchanged", guarded_rest(&out_words, 0, 8 * count));
    holds("the words before", guarded_front(&out_words, 8 * count));
    follow(false, false);
}

/* ---- calls of the log ---- */

static size_t any_event(void) {
    if (any(12) == 0) return any(2) ? (size_t)any_number() : (size_t)around(event_count);
    return event_count ? any((uint32_t)event_count) : 0;
}

static void call_events(void) {
    size_t first = any_event(), capacity = any(3) ? any(40) : any(CHUNK);
    bpfs_event *into = guarded_out(&out_events, capacity * sizeof *into);
    size_t wanted = first < event_count ? event_count - first : 0;
    if (wanted > capacity) wanted = capacity;
    size_t got = bpfs_events(fs, first, capacity || any(2) ? into : NULL, capacity);
    is("the number of events", got, wanted);
    for (size_t i = 0; i < got; i++) is_event(&into[i], &events[first + i]);
    holds("the events past those", guarded_rest(&out_events, got * sizeof *into, capacity * sizeof *into));
    holds("the events before", guarded_front(&out_events, capacity * sizeof *into));
    is("the number of all events", bpfs_event_count(fs), event_count);
}

/* The length of the run that begins with an event. */
static size_t run_length(size_t first, size_t capacity) {
    size_t count = 1;
    if (first >= event_count) return 0;
    if (events[first].kind != BPFS_STORE) return 1;
    while (count < capacity && first + count < event_count && events[first + count].kind == BPFS_STORE &&
           events[first + count].word == events[first].word + count) count++;
    return count < capacity ? count : capacity;
}

static void call_run(void) {
    size_t first = any_event(), capacity = any(3) ? any(20) : any(CHUNK), wanted = run_length(first, capacity);
    bool no_run = unwanted();
    uint64_t *values = guarded_out(&out_values, 8 * capacity);
    bpfs_run *found = RESULT(bpfs_run, out_run);
    size_t got = bpfs_run_at(fs, first, UNLESS(no_run, found), capacity || any(2) ? values : NULL, capacity);
    is("the number of events", got, wanted);
    if (no_run || first >= event_count) keeps(&out_run, sizeof *found);
    else {
        is("the kind", found->kind, events[first].kind);
        is("the first word", found->word, events[first].word);
    }
    bool stores = first < event_count && events[first].kind == BPFS_STORE;
    for (size_t i = 0; stores && i < got; i++) is("a value", values[i], events[first + i].value);
    holds("the values past those", guarded_rest(&out_values, stores ? 8 * got : 0, 8 * capacity) && guarded_front(&out_values, 8 * capacity));
}

static void call_tag(void) {
    is("the tag", bpfs_tag(fs), tag);
    if (any(2)) tag = any_number();
    returns(bpfs_set_tag(fs, tag), BPFS_OK);
    is("the tag", bpfs_tag(fs), tag);
    is("the drained events", bpfs_drained(fs), drained);
    follow(false, false);
}

static void call_drain(void) {
    for (size_t i = 0; i < event_count; i++) apply(durable, &events[i]);
    returns(bpfs_drain(fs), BPFS_OK);
    drained += event_count;
    forget();
    is("the number of events", bpfs_event_count(fs), 0);
    is("the drained events", bpfs_drained(fs), drained);
}

static void call_texts(void) {
    char version[40];
    snprintf(version, sizeof version, "%d.%d.%d", BPFS_VERSION_MAJOR, BPFS_VERSION_MINOR, BPFS_VERSION_PATCH);
    holds("the version", strcmp(bpfs_version(), version) == 0);
    holds("a text", strlen(bpfs_strerror((uint32_t)(any_number() >> any(64)))) > 0);
}

static void call_format(void) {
    uint32_t count = any(2) ? 8 + any(3000) : any(2) ? (uint32_t)around(any(2) ? 8 : BPFS_MAX_BLOCKS) : (uint32_t)any_number();
    uint32_t version = any(8) ? 1 + any(3) : any(2) ? 4 : 0;
    size_t capacity = any(25), made = version == 1 ? 11 : version == 2 ? 13 : 18;
    bool can = count >= BPFS_MIN_BLOCKS && count <= BPFS_MAX_BLOCKS && version >= 1 && version <= 3, no_count = unwanted();
    bpfs_event *into = guarded_out(&out_events, capacity * sizeof *into);
    size_t *got = RESULT(size_t, out_count);
    starve(any(4) ? 0 : 1 + any(3));
    uint32_t code = bpfs_format_events(count, version, capacity || any(2) ? into : NULL, capacity, UNLESS(no_count, got));
    feed();
    bool lacks = can && is_starved && code == BPFS_NO_MEMORY;
    returns(code, lacks ? BPFS_NO_MEMORY : can ? BPFS_OK : BPFS_OUT_OF_RANGE);
    if (lacks) can = false;
    if (made > capacity) made = capacity;
    if (!can || no_count) keeps(&out_count, sizeof *got);
    else is("the number of events", *got, made);
    holds("the events past those", guarded_rest(&out_events, can ? made * sizeof *into : 0, capacity * sizeof *into));
}

/* A handle that is open opens no more. */
static void call_mount(void) {
    bpfs_fault *fault = RESULT(bpfs_fault, out_fault);
    bpfs_lent *lent = RESULT(bpfs_lent, out_lent);
    bpfs_lent mine = {shadow, words, any(2)};
    *lent = mine;
    returns(bpfs_mount(fs, any(2) ? NULL : shadow, 0, UNLESS(unwanted(), fault)), BPFS_HAS_ONE);
    returns(bpfs_mount_at(fs, lent, UNLESS(unwanted(), fault)), BPFS_HAS_ONE);
    holds("the memory stays lent or not", lent->words == mine.words && lent->count == mine.count && lent->is_there == mine.is_there);
    keeps(&out_fault, sizeof *fault);
    follow(false, false);
}

/* ---- whole trees ---- */

typedef struct view {
    bpfs *fs;
    const tree *t;
    uint32_t version;
    bool of_snap;
    path p;
    uint32_t inos[TREE_NODES]; /* the numbers of the inodes of the nodes that were shown; 0: not yet */
} view;

static void shows_file(view *v, int node) {
    static uint8_t wanted[TREE_PAGE];
    uint8_t *found = guarded_out(&out_bytes, TREE_PAGE);
    const tree_node *file = v->t->nodes[node];
    uint32_t (*reads)(bpfs *, const uint8_t *, size_t, uint64_t, uint8_t *, size_t, size_t *) = v->of_snap ? bpfs_snap_read_any : bpfs_read_any;
    uint32_t links;
    size_t count;
    if (!v->of_snap) {
        is("bpfs_links of the whole tree", bpfs_links(v->fs, v->p.bytes, v->p.length, &links), BPFS_OK);
        is("the links in the whole tree", links, file->links);
    }
    for (size_t i = 0; i < file->count + 3; i++) { /* each part, the last bytes, and any two places */
        uint64_t offset = i < file->count ? file->parts[i].index * TREE_PAGE : file->size - (file->size < 10 ? file->size : 10);
        if (i > file->count) offset = file->size ? any_number() % file->size : 0;
        is("bpfs_read of the whole tree", reads(v->fs, v->p.bytes, v->p.length, offset, found, TREE_PAGE, &count), BPFS_OK);
        is("the number of bytes in the whole tree", count, tree_read(v->t, node, offset, wanted, sizeof wanted));
        holds("the bytes in the whole tree", memcmp(found, wanted, count) == 0);
    }
}

static void shows_node(view *v, int node);

static void shows_dir(view *v, int node) {
    const tree_node *dir = v->t->nodes[node];
    size_t count, length, before = v->p.length;
    uint8_t name[BPFS_MAX_NAME];
    bool is_dir;
    uint32_t code = (v->of_snap ? bpfs_snap_list_any : bpfs_list_any)(v->fs, v->p.bytes, v->p.length, &count);
    is("bpfs_list of the whole tree", code, BPFS_OK);
    is("the names in the whole tree", count, dir->count);
    for (size_t i = 0; i < count; i++) {
        const tree_entry *entry = &dir->entries[i];
        is("bpfs_listed of the whole tree", bpfs_listed(v->fs, i, name, sizeof name, &length, &is_dir), BPFS_OK);
        holds("a name in the whole tree", length == entry->name->length && memcmp(name, entry->name->bytes, length) == 0);
        is("a kind in the whole tree", is_dir, v->t->nodes[entry->node]->is_dir);
    }
    for (size_t i = 0; i < dir->count; i++) {
        const tree_name *at = dir->entries[i].name;
        v->p.length = before == 1 ? 0 : before;
        if (v->p.length + 1 + at->length <= BPFS_MAX_PATH) {
            add_bytes(&v->p, "/", 1);
            add_bytes(&v->p, at->bytes, at->length);
            shows_node(v, dir->entries[i].node);
        }
    }
    v->p.bytes[0] = '/';
    v->p.length = before;
}

/* No call returns those of the snapshot: reader_shows looks at their words. */
static void shows_attributes(view *v, const tree_node *it) {
    uint64_t value = 0;
    bool has = tree_has_attributes(v->version);
    for (uint64_t i = 0; i < BPFS_ATTRIBUTES; i++) {
        uint32_t code = bpfs_attribute(v->fs, v->p.bytes, v->p.length, i, &value);
        is("bpfs_attribute of the whole tree", code, has ? BPFS_OK : BPFS_OLD_VERSION);
        is("an attribute in the whole tree", value, has ? it->attributes[i] : 0);
    }
}

/* All links of a file have one number, and no other file or directory has it. */
static void shows_inode(view *v, int node) {
    uint32_t ino = 0;
    is("bpfs_inode of the whole tree", bpfs_inode(v->fs, v->p.bytes, v->p.length, &ino), BPFS_OK);
    for (int i = 0; i < TREE_NODES; i++)
        if (v->inos[i]) is("two inodes of the whole tree have one number", v->inos[i] == ino, i == node);
    v->inos[node] = ino;
    holds("the number of an inode of the whole tree", ino >= 1);
}

static void shows_node(view *v, int node) {
    const tree_node *it = v->t->nodes[node];
    bpfs_found found;
    uint32_t code = (v->of_snap ? bpfs_snap_stat_any : bpfs_stat_any)(v->fs, v->p.bytes, v->p.length, &found);
    is("bpfs_stat of the whole tree", code, BPFS_OK);
    is("the kind in the whole tree", found.is_dir, it->is_dir);
    is("the size in the whole tree", found.size, it->is_dir ? it->count : it->size);
    if (!v->of_snap) shows_attributes(v, it);
    if (!v->of_snap) shows_inode(v, node);
    if (it->is_dir) shows_dir(v, node);
    else shows_file(v, node);
}

/* The volume shows these trees and nothing else, and so do its words. */
static void shows(bpfs *of, const moment *m, const uint64_t *image) {
    view v = {of, m->now, m->version, false, {"/", 1}, {0}};
    uint32_t live, free_blocks;
    uint64_t magic;
    bpfs_found unused;
    is("bpfs_words", bpfs_words(of, 0, &magic, 1), BPFS_OK);
    is("the version of the image", magic >> 56, m->version == 3 ? 'A' : '0' + m->version);
    shows_node(&v, 0);
    v.t = m->kept;
    v.of_snap = true;
    if (m->kept) shows_node(&v, 0);
    else is("bpfs_snap_stat with no snapshot", bpfs_snap_stat(of, (const uint8_t *)"/", 1, &unused), BPFS_NO_SNAP);
    shows_info(of, m);
    shows_totals(of, m, &free_blocks);
    holds("the words are those of the tree", reader_shows(image, blocks, m->version, m->now, m->kept, &live));
    is("the free blocks", free_blocks, blocks - 1 - live);
}

/* Where `count` words end at the guarded page. */
static uint64_t *words_at(const guarded *memory, size_t count) {
    return (uint64_t *)(void *)(memory->writable + memory->size) - count;
}

/* Opens a handle over these words: over a copy, or over a copy where it is. */
static uint32_t open_words(bpfs *of, const uint64_t *image, size_t count, bool lends, bpfs_fault *fault) {
    if (!lends) return bpfs_mount(of, guarded_in(&in_words, image, 8 * count), count, fault);
    bpfs_lent *lent = RESULT(bpfs_lent, out_lent);
    *lent = (bpfs_lent){words_at(&out_lent_words, count), count, true};
    bpfs_lent mine = *lent;
    memcpy(lent->words, image, 8 * count);
    uint32_t code = bpfs_mount_at(of, lent, fault);
    is("the memory is lent", lent->is_there, code != BPFS_OK);
    if (code) holds("the memory is the same", lent->words == mine.words && lent->count == mine.count && memcmp(mine.words, image, 8 * count) == 0);
    return code;
}

/* Closes a handle whose words are these. While its log has events, bpfs_close does nothing. */
static void close_words(bpfs *of, const uint64_t *image, bool was_lent) {
    bpfs_lent *lent = RESULT(bpfs_lent, out_lent);
    size_t pending = bpfs_event_count(of);
    if (pending && any(2)) {
        is("bpfs_close with events", bpfs_close(of), BPFS_PENDING);
        is("the events are kept", bpfs_event_count(of), pending);
        holds("the handle is open", of->is_open);
    }
    if (any(2)) {
        is("bpfs_close_at", bpfs_close_at(of, lent), BPFS_OK);
        is("the memory is there", lent->is_there, true);
        is("the number of its words", lent->count, words);
        if (was_lent) holds("the memory is that which was lent", lent->words == words_at(&out_lent_words, words));
        holds("the words are those of the volume", memcmp(lent->words, image, 8 * words) == 0);
        if (!was_lent) free(lent->words);
    } else if (pending || any(2)) is("bpfs_discard", bpfs_discard(of), BPFS_OK);
    else is("bpfs_close", bpfs_close(of), BPFS_OK);
    holds("the handle is closed", !of->is_open);
    guarded_out(&out_lent, sizeof *lent);
    is("bpfs_close_at of a closed handle", bpfs_close_at(of, lent), BPFS_HAS_NONE);
    is("bpfs_close of a closed handle", bpfs_close(of), BPFS_HAS_NONE);
    is("bpfs_discard of a closed handle", bpfs_discard(of), BPFS_HAS_NONE);
    keeps(&out_lent, sizeof *lent);
}

static bpfs *temporary(void) {
    bpfs *of = RESULT(bpfs, out_temporary);
    *of = (bpfs)BPFS_CLOSED;
    return of;
}

/* Mounts a copy of the words once more. The main volume may have the memory that is lent: then they are copied. */
static void call_remount(void) {
    static uint64_t now[MOST_WORDS];
    bool lends = !is_lent && any(2);
    bpfs *of = temporary();
    is("bpfs_words", bpfs_words(fs, 0, now, words), BPFS_OK);
    holds("all words follow from the events", memcmp(now, shadow, 8 * words) == 0);
    for (int i = present.version == 3 ? 8 : 6; i < BPFS_BLOCK_WORDS; i++) now[i] = any_number(); /* no image uses them */
    is("a mount of the words", open_words(of, now, words, lends, RESULT(bpfs_fault, out_fault)), BPFS_OK);
    keeps(&out_fault, sizeof(bpfs_fault));
    shows(of, &present, now);
    close_words(of, now, lends);
}

/* ---- power failures ---- */

/* Applies the stores that are durable when power fails, and returns the number of the first event that is lost. */
static size_t lose(uint64_t *medium) {
    size_t most = any((uint32_t)event_count + 1), epoch = 0, lost = event_count, barriers = 0;
    uint32_t part = any(5);
    for (size_t i = 0; i < most; i++) barriers += events[i].kind == BPFS_BARRIER;
    uint32_t last = any(3) ? (uint32_t)barriers : any((uint32_t)barriers + 1);
    for (size_t i = 0; i < event_count; i++) {
        if (events[i].kind == BPFS_BARRIER) epoch++;
        if (events[i].kind != BPFS_STORE) continue;
        bool is_durable = i < most && (epoch < last || (epoch == last && any(4) < part));
        if (is_durable) apply(medium, &events[i]);
        else if (lost == event_count) lost = i;
    }
    return lost;
}

static void begin_with(const uint64_t *image, moment m, bool lends);

/* Power fails, and the tree is that after the calls that were whole. */
static void call_cut(void) {
    static uint64_t medium[MOST_WORDS];
    bpfs *of = temporary();
    size_t at = past_count - 1;
    memcpy(medium, durable, 8 * words);
    size_t lost = lose(medium);
    while (past[at].end > lost) at--;
    is("a mount after a power failure", open_words(of, medium, words, !is_lent && any(2), RESULT(bpfs_fault, out_fault)), BPFS_OK);
    shows(of, &past[at], medium);
    is("bpfs_close", bpfs_close(of), BPFS_OK);
    if (any(3)) return;
    moment m = past[at];
    tree_hold(m.now);
    tree_hold(m.kept);
    close_words(fs, shadow, is_lent);
    begin_with(medium, m, any(2));
}

/* Words that may be no image: both mounts say the same. */
static void call_damage(void) {
    static uint64_t image[MOST_WORDS];
    size_t count = any(4) ? words : any(2) ? (size_t)around(words) : any((uint32_t)words + 1), wanted = (8 * count + 4095) / 4096 * 4096;
    bpfs_fault first, second;
    bpfs *of = temporary();
    if (is_lent) return;
    if (count > MOST_WORDS) count = MOST_WORDS;
    memset(&first, 0, sizeof first);
    memset(&second, 0, sizeof second);
    memcpy(image, shadow, 8 * words);
    for (uint32_t i = any(4); i; i--) image[any(2) ? any((uint32_t)words) : any(2048)] ^= any(2) ? any_number() : (uint64_t)1 << any(64);
    uint32_t code = open_words(of, image, count, false, &first);
    if (!code) is("bpfs_close", bpfs_close(of), BPFS_OK);
    is("the result of a mount where the words are", open_words(of, image, count, true, &second), code);
    if (!code) is("bpfs_close", bpfs_close(of), BPFS_OK);
    is("the check", second.check, first.check);
    is("the place", second.place, first.place);
    is("the size", second.found, first.found);
    is("the size that is wanted", second.wanted, first.wanted);
    holds("a result of a mount", code == BPFS_OK || (code >= BPFS_NOT_FORMATTED && code <= BPFS_DAMAGED));
    if (code == BPFS_DAMAGED) holds("a place and a check", first.place < words && first.check >= 1 && first.check <= 13);
    if (wanted < 8 * 4096) wanted = 8 * 4096;
    if (8 * count == wanted) return;
    is("the result for a size that no image has", code, BPFS_BAD_SIZE);
    is("the size", first.found, 8 * count);
    is("the size of an image", first.wanted, wanted);
}

/* A mount for which each allocation fails in turn. */
static void call_starve(void) {
    bool lends = !is_lent && any(2);
    for (uint32_t at = 1; at < 2 || is_starved; at++) {
        bpfs *of = temporary();
        bpfs_fault *fault = RESULT(bpfs_fault, out_fault);
        starve(at);
        uint32_t code = open_words(of, shadow, words, lends, fault);
        feed();
        if (!is_starved || code != BPFS_NO_MEMORY) is("a mount when memory lacks", code, BPFS_OK);
        is("the handle is open", of->is_open, code == BPFS_OK);
        keeps(&out_fault, sizeof *fault);
        run.met[run.kind][code]++;
        if (code == BPFS_OK) shows(of, &present, shadow);
        is("bpfs_close", bpfs_close(of), code == BPFS_OK ? BPFS_OK : BPFS_HAS_NONE);
    }
}

/* ---- volumes ---- */

/* Calls of a closed handle. */
static void is_closed(void) {
    const uint8_t *p = (const uint8_t *)"/a";
    bpfs_lack *lack = RESULT(bpfs_lack, out_lack);
    size_t *count = RESULT(size_t, out_count);
    uint8_t *into = guarded_out(&out_bytes, 8);
    uint32_t codes[] = {
        bpfs_create(fs, p, 2, lack), bpfs_mkdir(fs, p, 2, lack), bpfs_unlink(fs, p, 2, lack), bpfs_rmdir(fs, p, 2, lack),
        bpfs_rename(fs, p, 2, p, 2, lack), bpfs_link(fs, p, 2, p, 2, lack), bpfs_write(fs, p, 2, 0, p, 1, lack), bpfs_truncate(fs, p, 2, 1, lack),
        bpfs_batch(fs, NULL, 0, NULL, 0, lack), bpfs_upgrade(fs), bpfs_upgrade_to_three(fs), bpfs_snap(fs), bpfs_unsnap(fs), bpfs_read(fs, p, 2, 0, into, 8, count),
        bpfs_set_attribute(fs, p, 2, 0, 1, lack), bpfs_attribute(fs, p, 2, 0, NULL), bpfs_stat(fs, p, 2, NULL), bpfs_links(fs, p, 2, NULL),
        bpfs_list(fs, p, 1, count), bpfs_snap_read(fs, p, 2, 0, into, 8, count),
        bpfs_snap_stat(fs, p, 2, NULL), bpfs_snap_list(fs, p, 1, count), bpfs_listed(fs, 0, into, 8, count, NULL), bpfs_space(fs, NULL),
        bpfs_totals(fs, NULL), bpfs_words(fs, 0, NULL, 0), bpfs_drain(fs), bpfs_set_tag(fs, 1),
        bpfs_inode(fs, p, 2, NULL), bpfs_info(fs, NULL), bpfs_close(fs), bpfs_discard(fs),
    };
    for (size_t i = 0; i < sizeof codes / sizeof *codes; i++) is("a call of a closed handle", codes[i], BPFS_HAS_NONE);
    is("counts of a closed handle", bpfs_event_count(fs) + bpfs_events(fs, 0, NULL, 0) + bpfs_run_at(fs, 0, NULL, NULL, 0), 0);
    is("numbers of a closed handle", bpfs_drained(fs) | bpfs_tag(fs), 0);
    keeps(&out_lack, sizeof *lack);
    keeps(&out_count, sizeof *count);
    keeps(&out_bytes, 8);
}

/* Mounts an image that has to show these trees, which it takes. */
static void begin_with(const uint64_t *image, moment m, bool lends) {
    let_go(&present);
    present = m;
    is_lent = lends;
    is_listed = false;
    drained = tag = 0;
    listed_count = 0;
    if (image != shadow) memcpy(shadow, image, 8 * words);
    memcpy(durable, image, 8 * words);
    is_closed();
    is("a mount", open_words(fs, shadow, words, lends, UNLESS(unwanted(), RESULT(bpfs_fault, out_fault))), BPFS_OK);
    forget();
    is("the events of a new volume", bpfs_event_count(fs), 0);
}

/* Formats words of any content, and mounts them. */
static void begin(void) {
    static uint64_t image[MOST_WORDS];
    static const uint32_t spans[] = {16, 40, 100, 300, 1000, MOST_BLOCKS - BPFS_MIN_BLOCKS + 1};
    static const uint32_t versions[] = {1, 2, 3, 3};
    moment m = {0, tree_empty(), NULL, versions[any(4)]};
    bpfs_event made[20];
    size_t count;
    blocks = BPFS_MIN_BLOCKS + any(spans[any(any(4) ? 4 : 6)]);
    words = (size_t)blocks * BPFS_BLOCK_WORDS;
    for (size_t i = 0; i < words; i++) image[i] = i * 0x9e3779b97f4a7c15u ^ run.state;
    is("bpfs_format_events", bpfs_format_events(blocks, m.version, made, 20, &count), BPFS_OK);
    for (size_t i = 0; i < count; i++) apply(image, &made[i]);
    begin_with(image, m, any(2));
}

/* The end of a volume, which shows its tree once more. */
static void finish(void) {
    run.name = "the end of a volume";
    shows(fs, &present, shadow);
    close_words(fs, shadow, is_lent);
}

/* Mounts the words of now, as after a carry. */
static void call_reopen(void) {
    moment m = {0, tree_hold(present.now), tree_hold(present.kept), present.version};
    close_words(fs, shadow, is_lent);
    begin_with(shadow, m, any(2));
}

static void call_make_or_remove(void) {
    if (tree_spare(present.now) < FEW_NODES) call_remove();
    else call_make();
}

static const struct {
    const char *name;
    void (*call)(void);
    uint32_t weight;
    bool drains; /* the log is empty after it */
} kinds[] = {
    {"bpfs_create or bpfs_mkdir", call_make_or_remove, 120, false}, {"bpfs_unlink or bpfs_rmdir", call_remove, 70, false},
    {"bpfs_rename or bpfs_link", call_two, 100, false}, {"bpfs_write", call_write, 180, false}, {"bpfs_truncate", call_truncate, 60, false},
    {"bpfs_set_attribute", call_set_attribute, 50, false},
    {"bpfs_batch", call_batch, 70, false}, {"bpfs_snap", call_snap, 8, false}, {"bpfs_unsnap", call_unsnap, 6, false},
    {"bpfs_upgrade", call_upgrade, 1, false}, {"bpfs_upgrade_to_three", call_upgrade_to_three, 1, false}, {"bpfs_read", call_read, 90, false}, {"bpfs_stat", call_stat, 60, false},
    {"bpfs_links", call_links, 30, false}, {"bpfs_inode", call_inode, 30, false}, {"bpfs_attribute", call_attribute, 30, false},
    {"bpfs_list", call_list, 30, false}, {"bpfs_listed", call_listed, 40, false},
    {"bpfs_totals", call_totals, 10, false}, {"bpfs_info", call_info, 10, false}, {"bpfs_words", call_words, 20, false}, {"bpfs_events", call_events, 20, false},
    {"bpfs_run_at", call_run, 50, false}, {"bpfs_tag", call_tag, 6, false}, {"bpfs_drain", call_drain, 12, true},
    {"bpfs_strerror", call_texts, 3, false},
    {"bpfs_format_events", call_format, 6, false}, {"bpfs_mount of an open handle", call_mount, 3, false}, {"a second mount", call_remount, 2, false},
    {"a mount when memory lacks", call_starve, 1, false},
    {"a power failure", call_cut, 6, true}, {"a mount of any words", call_damage, 2, false}, {"a close and a mount", call_reopen, 1, true},
};

enum { KINDS = sizeof kinds / sizeof *kinds, LIFE = 3000, FILLS = 3000 };

static void step(uint32_t weights) {
    uint32_t which = any(weights);
    if (run.fills) run.fills--;
    else if (any(FILLS) == 0 && blocks > 500) run.fills = 400;
    for (run.kind = 0; which >= kinds[run.kind].weight; run.kind++) which -= kinds[run.kind].weight;
    if (run.fills && kinds[run.kind].drains && !(is_full() && any(4) == 0)) return;
    run.name = kinds[run.kind].name;
    kinds[run.kind].call();
    fronts_are_kept();
}

/* Prints how many results each kind of call had. */
static void print_met(void) {
    for (int i = 0; i < KINDS; i++) {
        fprintf(stderr, "%s:", kinds[i].name);
        for (int j = 0; j < RESULTS; j++)
            if (run.met[i][j]) fprintf(stderr, " %d (%llu)", j, (unsigned long long)run.met[i][j]);
        fprintf(stderr, "\n");
    }
}

static bool make_memory(void) {
    guarded *small[] = {&out_handle, &out_temporary, &out_lent, &out_count, &out_lack, &out_fault, &out_found, &out_flag, &out_sums,
                        &out_blocks, &out_links, &out_attribute, &out_run, &out_ino, &out_about, &in_pieces};
    bool made = true;
    for (size_t i = 0; i < sizeof small / sizeof *small; i++) {
        made = made && guarded_make(small[i], 1000);
        if (made) guarded_out(small[i], 100);
    }
    made = made && guarded_make(&in_path, sizeof(path)) && guarded_make(&in_other, sizeof(path));
    made = made && guarded_make(&in_bytes, BPFS_MAX_WRITE_2 + 1) && guarded_make(&out_bytes, BPFS_MAX_WRITE_2 + 1);
    made = made && guarded_make(&in_words, 8 * MOST_WORDS) && guarded_make(&out_lent_words, 8 * MOST_WORDS);
    made = made && guarded_make(&out_words, 8 * CHUNK) && guarded_make(&out_values, 8 * CHUNK);
    made = made && guarded_make(&out_events, sizeof(bpfs_event) * CHUNK);
    shadow = malloc(8 * MOST_WORDS);
    durable = malloc(8 * MOST_WORDS);
    events = malloc(LOG_EVENTS * sizeof *events);
    return made && shadow && durable && events;
}

static void end(void) {
    finish();
    for (size_t i = 0; i < past_count; i++) let_go(&past[i]);
    let_go(&present);
    free(past);
    free(shadow);
    free(durable);
    free(events);
    free(listed);
    free(listed_dirs);
}

int main(int argc, char **argv) {
    uint32_t weights = 0;
    if (argc < 3 || !make_memory()) {
        fprintf(stderr, "usage: differential_test COUNT SEED [PLANT [RESULTS]]\n");
        return 2;
    }
    run.calls = strtoull(argv[1], NULL, 10);
    run.seed = run.state = strtoull(argv[2], NULL, 10);
    run.plant = argc > 3 ? strtoull(argv[3], NULL, 10) : 0;
    run.name = "the first mount";
    signal(SIGSEGV, faulted);
    signal(SIGBUS, faulted);
    signal(SIGILL, faulted);
    for (int i = 0; i < KINDS; i++) weights += kinds[i].weight;
    fs = RESULT(bpfs, out_handle);
    *fs = (bpfs)BPFS_CLOSED;
    begin();
    for (run.call = 1; run.call <= run.calls; run.call++) {
        step(weights);
        if (run.fills || any(LIFE)) continue;
        finish();
        begin();
    }
    end();
    if (argc > 4) print_met();
    printf("differential_test: seed %llu, %llu calls, 0 differences\n", (unsigned long long)run.seed, (unsigned long long)run.calls);
    return 0;
}
