#include <bpfs/carry.h>
#include <errno.h>
#include <stdatomic.h>

enum { PART = 4096, FEW = 32, FORMAT_EVENTS = 18, COPY_EPOCH = 1 << 18 };

static int fail(int why) {
    errno = why;
    return -1;
}

/* ---- one run of the log */

static int carry_run(bpfs_carrier *carrier, bpfs_run run, const uint64_t *values, size_t count) {
    if (run.kind == BPFS_STORE) return carrier->put(carrier, run.word, values, count);
    if (run.kind == BPFS_BARRIER) return carrier->barrier(carrier);
    return 0;
}

/* Finds the run at the start of `events`, of which there is at least one. Returns how many events
 * it has. */
static size_t first_run(const bpfs_event *events, size_t count, bpfs_run *run, uint64_t *values) {
    size_t at = 0;
    *run = (bpfs_run){events->kind, events->word};
    do {
        values[at] = events[at].value;
        at++;
    } while (at < count && run->kind == BPFS_STORE && events[at].kind == BPFS_STORE && events[at].word == run->word + at);
    return at;
}

/* ---- all that is new in the log */

/* The index in the log of the first event that the carrier has not carried. */
static size_t place_in(bpfs *fs, const bpfs_carrier *carrier) {
    return (size_t)(carrier->next - bpfs_drained(fs));
}

/* A short log is copied at once: asking for each run of it would take longer than carrying it. */
static int carry_few(bpfs *fs, bpfs_carrier *carrier) {
    bpfs_event events[FEW];
    uint64_t values[FEW];
    bpfs_run run;
    size_t end = bpfs_events(fs, place_in(fs, carrier), events, FEW);
    for (size_t i = 0, count; i < end; i += count) {
        count = first_run(events + i, end - i, &run, values);
        if (carry_run(carrier, run, values, count)) return -1;
        carrier->next += count;
    }
    return 0;
}

/* A long log is read run by run. */
static int carry_many(bpfs *fs, bpfs_carrier *carrier) {
    uint64_t values[PART];
    bpfs_run run;
    size_t count, place = place_in(fs, carrier);
    while ((count = bpfs_run_at(fs, place, &run, values, PART)) > 0) {
        if (carry_run(carrier, run, values, count)) return -1;
        place += count;
        carrier->next += count;
    }
    return 0;
}

/* Carries to a carrier that `check` has passed. */
static int carry_new(bpfs *fs, bpfs_carrier *carrier) {
    size_t left = bpfs_event_count(fs) - place_in(fs, carrier);
    if (left > FEW ? carry_many(fs, carrier) : carry_few(fs, carrier)) return -1;
    return carrier->settle(carrier);
}

/* ---- binding and carrying */

/* Whether the carrier can take the next events of this volume's log. */
static int check(bpfs *fs, const bpfs_carrier *carrier) {
    if (carrier->error) return fail(carrier->error);
    if (carrier->volume == 0 || carrier->volume != bpfs_tag(fs)) return fail(EINVAL);
    return carrier->next < bpfs_drained(fs) ? fail(ESTALE) : 0;
}

int bpfs_bind(bpfs *fs, bpfs_carrier *carrier) {
    static _Atomic uint64_t tags;
    uint64_t tag = bpfs_tag(fs);
    if (carrier->error) return fail(carrier->error);
    if (bpfs_event_count(fs)) return fail(EBUSY);
    if (tag == 0 && bpfs_set_tag(fs, tag = ++tags)) return fail(EINVAL);
    carrier->volume = tag;
    carrier->next = bpfs_drained(fs);
    return 0;
}

int bpfs_carry_on(bpfs *fs, bpfs_carrier *carrier) {
    return check(fs, carrier) ? -1 : carry_new(fs, carrier);
}

int bpfs_carry_all(bpfs *fs, bpfs_carrier *const *carriers, size_t count) {
    if (count == 0) return fail(EINVAL);
    for (size_t i = 0; i < count; i++)
        if (check(fs, carriers[i])) return -1;
    for (size_t i = 0; i < count; i++)
        if (carry_new(fs, carriers[i])) return -1;
    bpfs_drain(fs);
    return 0;
}

int bpfs_carry(bpfs *fs, bpfs_carrier *carrier) {
    return bpfs_carry_all(fs, &carrier, 1);
}

/* ---- whole images */

int bpfs_format(bpfs_carrier *carrier, uint32_t blocks, uint32_t version) {
    bpfs_event events[FORMAT_EVENTS];
    size_t count = 0;
    uint32_t code = bpfs_format_events(blocks, version, events, FORMAT_EVENTS, &count);
    if (code) return (int)code;
    if (carrier->error) return fail(carrier->error);
    carrier->volume = 0;
    for (size_t i = 0; i < count; i++)
        if (carry_run(carrier, (bpfs_run){events[i].kind, events[i].word}, &events[i].value, 1)) return -1;
    return carrier->settle(carrier);
}

/* Puts the words from `first` up to `end` as they are now, with a barrier now and then, so that no
 * epoch gets too long. */
static int put_words(bpfs *fs, bpfs_carrier *carrier, uint64_t first, uint64_t end) {
    uint64_t values[PART];
    while (first < end) {
        size_t count = end - first < PART ? (size_t)(end - first) : PART;
        if (bpfs_words(fs, first, values, count)) return fail(EINVAL);
        if (carrier->put(carrier, first, values, count)) return -1;
        first += count;
        if (first % COPY_EPOCH < count && carrier->barrier(carrier)) return -1;
    }
    return 0;
}

int bpfs_copy_image(bpfs *fs, bpfs_carrier *carrier) {
    const uint64_t none = 0;
    uint64_t blocks;
    if (carrier->error) return fail(carrier->error);
    if (bpfs_event_count(fs)) return fail(EBUSY);
    if (bpfs_words(fs, 1, &blocks, 1)) return fail(EINVAL);
    carrier->volume = 0;
    if (carrier->put(carrier, 0, &none, 1) || carrier->barrier(carrier)) return -1;
    if (put_words(fs, carrier, 1, BPFS_REDO_WORD)) return -1;
    if (put_words(fs, carrier, BPFS_NOTE_WORD + 1, blocks * BPFS_BLOCK_WORDS)) return -1;
    if (carrier->barrier(carrier) || put_words(fs, carrier, 0, 1) || carrier->barrier(carrier)) return -1;
    return carrier->settle(carrier) ? -1 : bpfs_bind(fs, carrier);
}
