#define _GNU_SOURCE
#include "times.h"
#include "calls.h"
#include <stdint.h>

enum { NUMBER = 1, BILLION = 1000000000 };

static node *all; /* those with a time */
static struct timespec begun;

/* ---- nodes with a time */

static void enter(node *it, struct timespec when) {
    it->time = when;
    if (it->has_time) return;
    it->has_time = true, it->after = all, it->before = &all;
    if (all) all->before = &it->after;
    all = it;
}

static void take_out(node *it) {
    if (!it->has_time) return;
    it->has_time = false;
    *it->before = it->after;
    if (it->after) it->after->before = it->before;
}

void times_forget(node *it) {
    take_out(it);
    nodes_drop(it);
}

/* ---- attributes */

/* Nanoseconds since 1970, as a signed number. 0 says that no time was set: the time 0 is 1
 * there. */
static uint64_t word_of(struct timespec when) {
    const int64_t last = INT64_MAX / BILLION - 1;
    int64_t seconds = when.tv_sec > last ? last : when.tv_sec < -last ? -last : when.tv_sec;
    int64_t word = seconds * BILLION + when.tv_nsec;
    return word ? (uint64_t)word : 1;
}

static struct timespec of_word(uint64_t word) {
    int64_t it = (int64_t)word, seconds = it / BILLION - (it % BILLION < 0);
    return (struct timespec){seconds, it - seconds * BILLION};
}

static int store(const node *it, struct timespec when) {
    path at;
    int code = nodes_path(it, &at);
    return code ? code : CHANGE(bpfs_set_attribute(&volume.fs, P(at), NUMBER, word_of(when), NULL));
}

/* ---- times */

struct timespec times_now(void) {
    struct timespec it;
    clock_gettime(CLOCK_REALTIME, &it);
    return it;
}

void times_begin(void) {
    all = NULL;
    begun = times_now();
}

struct timespec times_of(const node *it) {
    uint64_t word = 0;
    path at;
    if (it->has_time) return it->time;
    if (!volume.keeps || nodes_path(it, &at)) return begun;
    if (LOOK(bpfs_attribute(&volume.fs, P(at), NUMBER, &word))) return begun;
    return word ? of_word(word) : begun;
}

int times_set(node *it, struct timespec when) {
    if (!volume.keeps) return enter(it, when), 0;
    int code = store(it, when);
    if (!code) take_out(it);
    return code;
}

void times_touch(node *it) {
    if (!it->is_deleted) enter(it, times_now());
}

/* Without a name, the time is lost. So an operation that removes the last known name calls this
 * before. */
void times_store_of(node *it) {
    if (!volume.keeps || !it->has_time) return;
    int code = store(it, it->time);
    if (!code || code == -ESTALE) times_forget(it);
}

void times_store(void) {
    node *after;
    for (node *it = all; it; it = after) {
        after = it->after;
        times_store_of(it);
    }
}

bool times_wait(void) {
    return volume.keeps && all;
}
