#include "checker.h"
#include "medium.h"
#include "model.h"
#include <errno.h>
#include <stdarg.h>
#include <stdio.h>
#include <stdlib.h>
#include <string.h>

enum { MOST_CALLS = 80, LIVES = 40, LEAST_BLOCKS = 12, MOST_BLOCKS = 120, OTHER_BLOCKS = 16, UNSET = 99 };

#define IMAGE MEDIUM "image"

/* Where a life stands: it goes on, its process has ended or has to, or something is wrong. */
typedef enum turn { GOES_ON, IS_OVER, IS_WRONG } turn;

typedef struct check {
    const bpfs_tested *of;
    bpfs_carrier *it;
    bpfs fs;
    uint64_t state;
    uint32_t blocks, version;
    model tree, ahead, before;              /* after all calls; after those that an image has shown; at the last mount */
    bool refused[MOST_CALLS];  /* the calls without space */
    bool ends[MOST_CALLS + 1]; /* the numbers of calls after which a carry ended */
    uint32_t begun, durable, attempts;      /* calls since the last mount */
    medium_end how;
    bpfs_tested_counts *counts;
    int code;
} check;

/* ---- reports */

static turn wrong(check *c, const char *format, ...) {
    va_list rest;
    va_start(rest, format);
    fprintf(stderr, "%s: ", c->of->name);
    vfprintf(stderr, format, rest);
    fprintf(stderr, " (cut %ld)\n", c->counts->kills + c->counts->power_failures + 1);
    va_end(rest);
    c->code = 1;
    return IS_WRONG;
}

/* A call of the carrier failed: it may, if the medium did. */
static turn failed(check *c, const char *what, int code) {
    if (medium_has_ended() || medium_has_failed()) return IS_OVER;
    return wrong(c, "%s returns %d: %s", what, code, code == -1 ? strerror(errno) : "a BPFS_ number");
}

static bool chance(check *c, uint32_t of, uint32_t in) {
    return draw(&c->state, in) < of;
}

/* ---- another volume, in memory */

static uint64_t other_words[OTHER_BLOCKS * BPFS_BLOCK_WORDS];

static int put_other(bpfs_carrier *carrier, uint64_t word, const uint64_t *values, size_t count) {
    (void)carrier;
    memcpy(other_words + word, values, 8 * count);
    return 0;
}

static int nothing(bpfs_carrier *carrier) {
    (void)carrier;
    return 0;
}

/* Carries another volume's calls: that has to be refused. */
static turn carry_other(check *c) {
    bpfs_carrier carrier = {.put = put_other, .barrier = nothing, .settle = nothing};
    bpfs other = BPFS_CLOSED;
    bpfs_fault fault;
    if (bpfs_format(&carrier, OTHER_BLOCKS, 2)) return c->code = 2, IS_WRONG;
    if (bpfs_mount(&other, other_words, sizeof other_words / 8, &fault) || model_begin(&other)) return c->code = 2, IS_WRONG;
    int code = bpfs_carry(&other, c->it);
    bpfs_discard(&other);
    return code ? GOES_ON : wrong(c, "the events of another volume were carried");
}

/* ---- what an image shows */

/* Whether the volume shows the tree after some of the calls, from `least` on. */
static bool shows(check *c, uint32_t *made, uint32_t least) {
    for (;; model_repeat(&c->ahead, (*made)++)) {
        bool can_be = *made >= least && (!c->of->is_atomic || *made == c->durable || c->ends[*made]);
        if (can_be && model_is_shown(&c->ahead, &c->fs)) return true;
        if (*made >= c->begun) return false;
    }
}

/* Says what is wrong with a tree that is not one of those that may be there. */
static turn complain(check *c) {
    uint32_t made = 0;
    c->ahead = c->before;
    while (made < c->begun && !model_is_shown(&c->ahead, &c->fs)) model_repeat(&c->ahead, made++);
    if (!model_is_shown(&c->ahead, &c->fs)) return wrong(c, "the image shows no prefix of the %u calls", c->begun);
    if (made < c->durable) return wrong(c, "the image shows %u of %u calls that were durable", made, c->durable);
    return wrong(c, "the image shows a part of a carry: %u of %u calls", made, c->begun);
}

/* Looks at the tree that was mounted. It is the base of the calls to come. */
static turn look(check *c) {
    uint32_t made = 0;
    c->before = c->ahead;
    if (!shows(c, &made, c->durable)) return complain(c);
    c->counts->lost_calls += c->begun - made;
    c->tree = c->ahead;
    c->tree.refusals = NULL;
    c->begun = c->durable = 0;
    memset(c->ends, 0, sizeof c->ends);
    return GOES_ON;
}

/* ---- opening */

/* A second open fails while the first one is there. */
static turn open_twice(check *c) {
    void *second = calloc(1, c->of->size);
    if (!second) return c->code = 2, IS_WRONG;
    int code = c->of->open(second, IMAGE);
    c->of->close(second);
    free(second);
    return code ? GOES_ON : wrong(c, "an image that is open was opened again");
}

static turn open_image(check *c) {
    memset(c->it, 0, c->of->size);
    int code = c->of->open(c->it, IMAGE);
    if (code) return failed(c, "open", code);
    if (medium_has_ended()) return IS_OVER;
    if (medium_size(IMAGE) != (int64_t)c->blocks * 8 * BPFS_BLOCK_WORDS) return wrong(c, "open has changed the image's size");
    return chance(c, 1, 8) ? open_twice(c) : GOES_ON;
}

static turn mount_image(check *c) {
    bpfs_fault fault = {0};
    int code = c->of->mount(&c->fs, c->it, &fault);
    if (code == -1 || medium_has_ended()) return code ? failed(c, "mount", code) : IS_OVER;
    if (code) return wrong(c, "what is left does not mount: %d, check %u at word %llu", code, fault.check,
                           (unsigned long long)fault.place);
    c->counts->mounts++;
    return look(c);
}

/* Opens a name that is missing, and a file that is empty. */
static turn open_nothing(check *c) {
    bpfs_fault fault = {.found = UNSET, .wanted = UNSET};
    memset(c->it, 0, c->of->size);
    int code = c->of->open(c->it, MEDIUM "none");
    c->of->close(c->it);
    if (code == 0 || medium_size(MEDIUM "none") >= 0) return wrong(c, "a name that is missing was opened");
    medium_make(MEDIUM "empty");
    code = c->of->open(c->it, MEDIUM "empty");
    if (code == 0) code = c->of->mount(&c->fs, c->it, &fault);
    c->of->close(c->it);
    if (code == BPFS_BAD_SIZE && (fault.found != 0 || fault.wanted == UNSET)) return wrong(c, "an empty file leaves fault unset");
    return code == BPFS_BAD_SIZE || code == -1 ? GOES_ON : wrong(c, "a mount of an empty file returns %d", code);
}

/* ---- calls */

/* Carries in one go, or by bpfs_carry_on and bpfs_drain. */
static turn carry_calls(check *c) {
    c->ends[c->begun] = true;
    c->counts->carries++;
    bool in_parts = chance(c, 1, 4);
    int code = in_parts ? bpfs_carry_on(&c->fs, c->it) : bpfs_carry(&c->fs, c->it);
    if (medium_has_ended()) return IS_OVER;
    if (code) return medium_has_failed() ? GOES_ON : failed(c, "carry", code);
    if (in_parts) bpfs_drain(&c->fs);
    c->durable = c->begun;
    return chance(c, 1, 32) ? carry_other(c) : GOES_ON;
}

static turn make_calls(check *c) {
    while (c->begun < MOST_CALLS) {
        if (!model_call(&c->tree, &c->fs)) return c->code = 2, fprintf(stderr, "checker: the model differs\n"), IS_WRONG;
        c->refused[c->begun++] = c->tree.refused;
        c->counts->calls++;
        if (chance(c, 1, 3)) continue;
        turn t = carry_calls(c);
        if (t != GOES_ON) return t;
    }
    return GOES_ON;
}

/* ---- one process */

/* Plans how the process ends. After a call that failed only a power failure is fair: a kernel may
 * have forgotten words. */
static void plan(check *c, uint32_t most) {
    bool fails = chance(c, 1, 6);
    c->how = fails ? MEDIUM_POWER : (medium_end)draw(&c->state, 3);
    uint64_t steps = 1 + draw(&c->state, 1 + draw(&c->state, most));
    medium_end_after(fails ? 2 * steps : steps, c->how);
    medium_fail_after(fails ? 1 + draw(&c->state, (uint32_t)steps) : 0);
}

/* Ends the process if it has not ended yet: closed, or not. */
static turn end_life(check *c, turn t) {
    bpfs_discard(&c->fs);
    bool can_close = t == GOES_ON && !medium_has_ended() && !medium_has_failed();
    if (can_close && chance(c, 1, 2)) {
        int code = c->of->close(c->it);
        if (code) t = failed(c, "close", code);
    }
    c->counts->failed_calls += medium_has_failed();
    medium_end_now(c->how);
    c->of->close(c->it);
    c->counts->kills += c->how == MEDIUM_KILL, c->counts->power_failures += c->how != MEDIUM_KILL;
    medium_restart();
    return t == IS_WRONG ? IS_WRONG : GOES_ON;
}

static turn live(check *c) {
    plan(c, 400);
    turn t = open_image(c);
    if (t == GOES_ON) t = mount_image(c);
    if (t == GOES_ON) t = make_calls(c);
    return end_life(c, t);
}

/* Creates an image, in a process that may end meanwhile. IS_OVER: there is none. */
static turn create(check *c) {
    medium_clear(c->state);
    memset(c->it, 0, c->of->size);
    c->counts->images++;
    c->blocks = LEAST_BLOCKS + draw(&c->state, MOST_BLOCKS - LEAST_BLOCKS + 1);
    turn t = open_nothing(c);
    if (t != GOES_ON) return t;
    plan(c, 100);
    c->version = 1 + draw(&c->state, 3);
    int code = c->of->create(c->it, IMAGE, c->blocks, c->version);
    if (code || medium_has_ended()) return code ? failed(c, "create", code) : IS_OVER;
    return GOES_ON;
}

/* Goes on with what a create has left that ended in between. IS_OVER: it does not open, or does not
 * mount. */
static turn adopt(check *c) {
    memset(c->it, 0, c->of->size);
    plan(c, 100);
    return c->of->open(c->it, IMAGE) ? IS_OVER : GOES_ON;
}

/* Makes the first directories, in a process that goes on to its end. */
static turn begin(check *c, bool can_fail) {
    bpfs_fault fault;
    if (medium_has_ended()) return IS_OVER;
    medium_end_after(0, MEDIUM_KILL);
    medium_fail_after(0);
    int code = c->of->mount(&c->fs, c->it, &fault);
    if (code) return can_fail ? IS_OVER : failed(c, "mount", code);
    if (model_begin(&c->fs) || (code = bpfs_carry(&c->fs, c->it))) return failed(c, "carry", code);
    model_clear(&c->tree, draw(&c->state, 1u << 31));
    c->tree.has_attributes = c->version == 3;
    c->tree.span = c->blocks * 300;
    c->ahead = c->tree;
    c->ahead.refusals = c->refused;
    c->begun = c->durable = 0;
    return GOES_ON;
}

/* ---- all of it */

int bpfs_check_carrier(const bpfs_tested *tested, long cuts, uint64_t seed, bpfs_tested_counts *counts) {
    check *c = calloc(1, sizeof *c);
    bpfs_carrier *it = calloc(1, tested->size);
    turn t = GOES_ON;
    memset(counts, 0, sizeof *counts);
    if (c && it) *c = (check){.of = tested, .it = it, .fs = BPFS_CLOSED, .state = seed, .counts = counts};
    else t = IS_WRONG;
    while (t != IS_WRONG && counts->kills + counts->power_failures < cuts) {
        t = create(c);
        bool is_whole = t == GOES_ON;
        if (t == IS_OVER && (t = end_life(c, t)) == GOES_ON) t = adopt(c);
        if (t == GOES_ON) t = begin(c, !is_whole);
        bool is_there = t == GOES_ON;
        t = end_life(c, t);
        for (int i = 0; is_there && i < LIVES && t != IS_WRONG; i++) t = live(c);
    }
    int code = c && it ? c->code : 2;
    free(c), free(it);
    return code;
}
