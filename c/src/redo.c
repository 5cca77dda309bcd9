#define _GNU_SOURCE
#include <bpfs/redo.h>
#include <errno.h>
#include <fcntl.h>
#include <stdlib.h>
#include <string.h>
#include <sys/random.h>
#include <sys/stat.h>
#include <unistd.h>

/* The journal has two halves. Entries follow each other in one half; once that has BPFS_REDO_FULL
 * bytes, the next entry begins the other half, after a sync of the image. So the entries that the
 * image may still need are never overwritten.
 *
 * An entry: a magic word; the note (BPFS_REDO_WORD) of the image before it; its number; the inode
 * number of the image; the words of its payload; a sum over all of these. Then runs: a word with
 * the place of the first word in its low 41 bits and their count in its high 23 bits, and the
 * values. The sum also gives the note of the image after the entry. Entries begin at multiples of
 * 4,096 bytes.
 *
 * Entries of earlier versions have another magic word, and 32 bits for each of place and count.
 * They are still applied, but not written any more.
 *
 * The first entry of a journal has no words. Once it is durable with the next one, the image gets
 * its note. Before a clean close empties the journal, an entry that is marked as closing says that
 * the image has all of it; then the image loses its note. */
enum { MAGIC, BEFORE, NUMBER, INODE, LENGTH, SUM, HEAD };
enum { PLACE_BITS = 41, OLD_PLACE_BITS = 32 };
enum { MOST = 1 << 20 /* words of a payload: twice the log, so that a carry fits whatever its runs are */, ALIGN = 4096 };

#ifndef BPFS_REDO_HALF
#define BPFS_REDO_HALF (16 << 20) /* bytes between the starts of the halves: more than the longest entry and a full half */
#endif
#ifndef BPFS_REDO_FULL
#define BPFS_REDO_FULL (1 << 20) /* bytes of a half after which the next entry begins the other one */
#endif

static const uint64_t magic = 0x3244455253465042;     /* "BPFSRED2" */
static const uint64_t old_magic = 0x4f44455253465042; /* "BPFSREDO" */
static const uint64_t closing = 1ull << 63;           /* in LENGTH */

_Static_assert(MOST < 1 << (64 - PLACE_BITS), "a run may have as many words as a payload");

static uint64_t sum_of(const uint64_t *entry, size_t count) {
    uint64_t a = 0x9e3779b97f4a7c15u, b = 0;
    for (size_t i = 0; i < count; i++) {
        if (i == SUM) continue;
        a = (a ^ entry[i]) * 0x9e3779b97f4a7c15u;
        a ^= a >> 29;
        b += a;
    }
    return b ^ (b >> 32) ^ a;
}

/* The note of an image that has this entry: bpfs_needs_journal is true of it. */
static uint64_t note_after(const uint64_t *entry) {
    return 0x52444full << 40 | entry[SUM] >> 24;
}

static uint64_t place_of(uint64_t run, int bits) {
    return run & ((1ull << bits) - 1);
}

static size_t count_of(uint64_t run, int bits) {
    return (size_t)(run >> bits);
}

static uint64_t aligned(size_t words) {
    return (8 * words + ALIGN - 1) / ALIGN * ALIGN;
}

static int fail(bpfs_redo *redo, int why) {
    return errno = redo->carrier.error = why, -1;
}

/* ---- files */

static int write_all(int fd, const void *bytes, size_t count, uint64_t at) {
    const char *from = bytes;
    while (count) {
        ssize_t n = pwrite(fd, from, count, (off_t)at);
        if (n == 0) errno = EIO;
        if (n == 0 || (n < 0 && errno != EINTR)) return -1;
        if (n > 0) from += n, at += (uint64_t)n, count -= (size_t)n;
    }
    return 0;
}

/* Reads up to `count` bytes. How many there are, or -1. */
static ssize_t read_all(int fd, void *into, size_t count, uint64_t at) {
    size_t done = 0;
    while (done < count) {
        ssize_t n = pread(fd, (char *)into + done, count - done, (off_t)(at + done));
        if (n < 0 && errno != EINTR) return -1;
        if (n == 0) break;
        if (n > 0) done += (size_t)n;
    }
    return (ssize_t)done;
}

static int sync_journal(bpfs_redo *redo) {
    if (redo->image.barrier == BPFS_FILE_CACHED) return 0;
    return fdatasync(redo->fd) ? fail(redo, EIO) : 0;
}

static int sync_image(bpfs_redo *redo) {
    return bpfs_file_sync(&redo->image) ? fail(redo, errno) : 0;
}

static int write_note(bpfs_redo *redo, uint64_t note) {
    return write_all(redo->image.fd, &note, sizeof note, 8 * BPFS_REDO_WORD);
}

/* ---- the next entry */

static int reserve(bpfs_redo *redo, size_t words) {
    if (words <= redo->capacity) return 0;
    uint64_t *entry = realloc(redo->entry, 2 * words * sizeof *entry);
    if (!entry) return errno = ENOMEM, -1;
    redo->entry = entry, redo->capacity = 2 * words;
    return 0;
}

static void begin_entry(bpfs_redo *redo) {
    redo->count = HEAD, redo->run = 0, redo->waiting = 0;
    redo->written = false;
}

/* Writes the runs of an entry to the image, in their order, and then its note. */
static int apply(bpfs_redo *redo, const uint64_t *entry, size_t count) {
    int bits = entry[MAGIC] == old_magic ? OLD_PLACE_BITS : PLACE_BITS;
    for (size_t i = HEAD, run; i < count; i += 1 + run) {
        uint64_t word = place_of(entry[i], bits);
        run = count_of(entry[i], bits);
        if (run > count - i - 1 || word > redo->image.words || run > redo->image.words - word) return errno = ESTALE, -1;
        if (write_all(redo->image.fd, entry + i + 1, 8 * run, 8 * word)) return -1;
    }
    return write_note(redo, note_after(entry));
}

/* Writes an entry to the journal, as the next one. */
static int write_entry(bpfs_redo *redo, uint64_t *entry, size_t count, uint64_t mark) {
    entry[MAGIC] = magic, entry[BEFORE] = redo->last, entry[NUMBER] = redo->number + 1, entry[INODE] = redo->inode;
    entry[LENGTH] = (count - HEAD) | mark;
    entry[SUM] = sum_of(entry, count);
    return write_all(redo->fd, entry, 8 * count, redo->half * BPFS_REDO_HALF + redo->at);
}

/* Goes on past an entry that the journal has. */
static void pass_entry(bpfs_redo *redo, const uint64_t *entry, size_t count) {
    redo->last = note_after(entry), redo->number = entry[NUMBER];
    redo->at += aligned(count);
}

/* Gives both halves their bytes, so that no later entry makes the file longer: the disk would have
 * more to write. */
static int make_whole(bpfs_redo *redo) {
    static const char zeros[ALIGN];
    if (ftruncate(redo->fd, 0)) return -1;
    for (uint64_t half = 0; half < 2; half++)
        for (uint64_t at = 0; at < BPFS_REDO_FULL; at += sizeof zeros)
            if (write_all(redo->fd, zeros, sizeof zeros, half * BPFS_REDO_HALF + at)) return -1;
    return 0;
}

/* Begins the journal of an image that is complete, and has no note, with an entry without words. */
static int begin_journal(bpfs_redo *redo) {
    uint64_t entry[HEAD];
    if (redo->image.words <= BPFS_REDO_WORD) return errno = EFBIG, -1;
    if (redo->fd < 0) redo->fd = open(redo->name, O_RDWR | O_CREAT | O_CLOEXEC, 0666);
    if (redo->fd < 0 || make_whole(redo)) return -1;
    if (getrandom(&redo->last, sizeof redo->last, 0) != sizeof redo->last) return -1;
    redo->number = redo->half = redo->at = 0;
    if (write_entry(redo, entry, HEAD, 0)) return -1;
    pass_entry(redo, entry, HEAD);
    return 0;
}

/* Gives the image the note of the journal's first entry. From then on the image needs its journal.
 */
static int mark_image(bpfs_redo *redo) {
    if (redo->image.barrier == BPFS_FILE_WAITS && bpfs_sync_folder(redo->name)) return -1;
    if (write_note(redo, redo->last) || sync_image(redo)) return -1;
    redo->begun = true;
    return 0;
}

/* Begins the other half once this one is full. */
static int make_room(bpfs_redo *redo) {
    if (redo->at == 0 || redo->at + 8 * redo->count <= BPFS_REDO_FULL) return 0;
    if (sync_image(redo)) return -1;
    redo->half ^= 1, redo->at = 0;
    return 0;
}

/* Brings the entry to the journal, and waits until it is durable there. */
static int log_entry(bpfs_redo *redo) {
    if (redo->begun ? make_room(redo) : begin_journal(redo)) return -1;
    if (write_entry(redo, redo->entry, redo->count, 0) || sync_journal(redo)) return -1;
    if (!redo->begun && mark_image(redo)) return -1;
    redo->written = true;
    return 0;
}

/* Brings the entry to the journal, and then to the image. If it fails, it can be called again. */
static int commit(bpfs_redo *redo) {
    if (redo->carrier.error) return errno = redo->carrier.error, -1;
    if (redo->count == HEAD) return 0;
    if (!redo->written && log_entry(redo)) return -1;
    if (apply(redo, redo->entry, redo->count)) return -1;
    pass_entry(redo, redo->entry, redo->count);
    begin_entry(redo);
    return 0;
}

/* Adds words to the entry: to its last run, or as a new one. There is room in the payload. */
static int add(bpfs_redo *redo, uint64_t word, const uint64_t *values, size_t count) {
    if (reserve(redo, redo->count + count + 1)) return -1;
    uint64_t *run = redo->run ? redo->entry + redo->run : NULL;
    if (run && place_of(*run, PLACE_BITS) + count_of(*run, PLACE_BITS) == word) *run += (uint64_t)count << PLACE_BITS;
    else redo->run = redo->count, redo->entry[redo->count++] = word | (uint64_t)count << PLACE_BITS;
    memcpy(redo->entry + redo->count, values, 8 * count);
    redo->count += count, redo->waiting += count;
    return 0;
}

static int put(bpfs_carrier *carrier, uint64_t word, const uint64_t *values, size_t count) {
    bpfs_redo *redo = (bpfs_redo *)carrier;
    if (carrier->error) return errno = carrier->error, -1;
    if (word > redo->image.words || count > redo->image.words - word) return errno = EFBIG, -1;
    if (word + count > 1ull << PLACE_BITS) return errno = EFBIG, -1;
    if (redo->written && commit(redo)) return -1;
    while (count) {
        size_t room = HEAD + MOST - redo->count, part = count < room ? count : room - 1;
        if (room < 2) {
            if (commit(redo)) return -1;
            continue;
        }
        if (add(redo, word, values, part)) return -1;
        word += part, values += part, count -= part;
    }
    return 0;
}

/* The words of an entry become durable together, and reach the image in their order: only a run may
 * not cross a barrier. */
static int barrier(bpfs_carrier *carrier) {
    ((bpfs_redo *)carrier)->run = 0;
    return 0;
}

static int settle(bpfs_carrier *carrier) {
    return commit((bpfs_redo *)carrier);
}

/* ---- the entries of a journal that is opened */

/* What a half of the journal has from its start on. */
typedef struct chain {
    uint64_t before, after;  /* the note before the first entry and after the last one */
    uint64_t number, inode;  /* of the last entry */
    bool any, has_note, has_words, is_closing;
} chain;

/* Reads the entry at a place. How many words it has, 0 if none is whole there, or -1. */
static long read_entry(bpfs_redo *redo, uint64_t at) {
    uint64_t head[HEAD];
    ssize_t n = read_all(redo->fd, head, sizeof head, at);
    if (n != sizeof head) return n < 0 ? -1 : 0;
    size_t length = (size_t)(head[LENGTH] & ~closing), count = HEAD + length;
    if ((head[MAGIC] != magic && head[MAGIC] != old_magic) || length > MOST) return 0;
    if (reserve(redo, count)) return -1;
    n = read_all(redo->fd, redo->entry, 8 * count, at);
    if (n != (ssize_t)(8 * count)) return n < 0 ? -1 : 0;
    return sum_of(redo->entry, count) == redo->entry[SUM] ? (long)count : 0;
}

/* Adds an entry that follows. */
static void add_link(chain *it, const uint64_t *entry, uint64_t note) {
    if (!it->any) it->before = entry[BEFORE];
    it->any = true;
    it->after = note_after(entry), it->number = entry[NUMBER], it->inode = entry[INODE];
    it->has_note |= it->after == note;
    it->has_words |= (entry[LENGTH] & ~closing) > 0;
    it->is_closing = entry[LENGTH] & closing;
}

/* Reads the entries of a half that follow each other; applies each of them where `applied`. */
static int read_half(bpfs_redo *redo, uint64_t half, uint64_t note, bool applied, chain *it) {
    uint64_t at = half * BPFS_REDO_HALF;
    long count;
    *it = (chain){0};
    while ((count = read_entry(redo, at)) > 0) {
        const uint64_t *entry = redo->entry;
        if (it->any && (entry[BEFORE] != it->after || entry[NUMBER] != it->number + 1)) break;
        if (applied && apply(redo, entry, (size_t)count)) return -1;
        add_link(it, entry, note);
        at += aligned((size_t)count);
    }
    return count < 0 ? -1 : 0;
}

/* Applies the half that has the image's note, and the other one if it goes on from there. To apply
 * entries again brings old words back for a while, so the first half has to be durable before the
 * image gets a note of the other one. */
static int replay(bpfs_redo *redo, uint64_t note, const chain *halves) {
    uint64_t first = halves[0].has_note || (!halves[1].has_note && halves[0].any && halves[0].before == note) ? 0 : 1;
    const chain *it = &halves[first], *other = &halves[first ^ 1];
    chain again;
    if (!it->any || (!it->has_note && it->before != note)) return errno = ESTALE, -1;
    bool goes_on = other->any && other->before == it->after;
    if (other->any && !goes_on && other->number > it->number) return errno = ESTALE, -1;
    if (read_half(redo, first, note, true, &again)) return -1;
    if (goes_on && (sync_image(redo) || read_half(redo, first ^ 1, note, true, &again))) return -1;
    redo->last = again.after, redo->number = again.number;
    redo->half = goes_on ? first : first ^ 1, redo->at = 0;
    return sync_image(redo);
}

/* Whether a journal has calls that an image without a note may lack. It has none if it was about to
 * be emptied; or if it just begins, and this image, which was to get its note, has not got it: no
 * carry has returned 0 then. */
static bool is_needed(const bpfs_redo *redo, const chain *halves) {
    const chain *last = halves[0].number > halves[1].number ? &halves[0] : &halves[1];
    bool just_begins = halves[0].number == 2 && !halves[1].any && halves[0].inode == redo->inode;
    return (halves[0].has_words || halves[1].has_words) && !last->is_closing && !just_begins;
}

/* Empties a journal that is not needed any more, if an interrupted close has not done that. It has
 * to be durable before a new journal begins: parts of both could look like the journal of another
 * image. */
static int drop_journal(bpfs_redo *redo) {
    struct stat it;
    if (fstat(redo->fd, &it)) return -1;
    if (it.st_size == 0) return 0;
    return ftruncate(redo->fd, 0) ? -1 : sync_journal(redo);
}

/* Opens the journal of the open image, and brings both to one state. Nothing is written if there is
 * no journal. */
static int open_journal(bpfs_redo *redo) {
    uint64_t note = 0;
    chain halves[2];
    struct stat it;
    if (fstat(redo->image.fd, &it) || read_all(redo->image.fd, &note, sizeof note, 8 * BPFS_REDO_WORD) < 0) return -1;
    redo->inode = it.st_ino;
    redo->begun = bpfs_needs_journal(note);
    redo->fd = open(redo->name, O_RDWR | O_CLOEXEC);
    if (redo->fd < 0) return errno == ENOENT && !redo->begun ? 0 : -1;
    if (sync_journal(redo)) return -1;
    for (uint64_t half = 0; half < 2; half++)
        if (read_half(redo, half, note, false, &halves[half])) return -1;
    if (!redo->begun) return is_needed(redo, halves) ? errno = ESTALE, -1 : drop_journal(redo);
    return halves[0].any || halves[1].any ? replay(redo, note, halves) : (errno = ENOENT, -1);
}

/* ---- opening, mounting, closing */

static const bpfs_redo closed = {.carrier = {.put = put, .barrier = barrier, .settle = settle}, .image = {.fd = -1}, .fd = -1};

static void close_both(bpfs_redo *redo) {
    int why = errno;
    if (redo->fd >= 0) close(redo->fd);
    bpfs_file_close(&redo->image);
    free(redo->entry);
    free(redo->name);
    redo->entry = NULL, redo->name = NULL, redo->capacity = 0, redo->fd = -1;
    if (!redo->carrier.error) redo->carrier.error = EBADF; /* nothing can be carried to a closed image */
    errno = why;
}

/* Adds its journal to the image that was opened. */
static int attach(bpfs_redo *redo, const char *path) {
    static const char end[] = "-redo";
    size_t length = strlen(path);
    redo->name = malloc(length + sizeof end);
    if (redo->name) memcpy(mempcpy(redo->name, path, length), end, sizeof end);
    if (!redo->name || open_journal(redo) || reserve(redo, HEAD)) return close_both(redo), -1;
    begin_entry(redo);
    return 0;
}

int bpfs_redo_open(bpfs_redo *redo, const char *path, bpfs_file_barrier barrier) {
    *redo = closed;
    return bpfs_file_open_any(&redo->image, path, barrier) ? -1 : attach(redo, path);
}

int bpfs_redo_create(bpfs_redo *redo, const char *path, uint32_t blocks, uint32_t version, bpfs_file_barrier barrier) {
    *redo = closed;
    int code = bpfs_file_create(&redo->image, path, blocks, version, barrier);
    if (code || attach(redo, path) == 0) return code;
    int why = errno;
    unlink(path);
    return errno = why, -1;
}

int bpfs_redo_mount(bpfs *fs, bpfs_redo *redo, bpfs_fault *fault) {
    if (commit(redo)) return -1; /* what was put and not settled: the image is read below */
    int code = bpfs_file_mount(fs, &redo->image, fault);
    if (code) return code;
    redo->image.carrier.volume = 0;
    return bpfs_bind(fs, &redo->carrier);
}

/* Empties the journal, once the image has all of it. */
static int empty_journal(bpfs_redo *redo) {
    uint64_t entry[HEAD];
    if (redo->carrier.error) return errno = redo->carrier.error, -1;
    if (redo->written && commit(redo)) return -1;
    if (sync_image(redo) || write_entry(redo, entry, HEAD, closing) || sync_journal(redo)) return -1;
    if (write_note(redo, 0) || sync_image(redo)) return -1;
    return ftruncate(redo->fd, 0) ? -1 : sync_journal(redo);
}

int bpfs_redo_close(bpfs_redo *redo) {
    if (redo->image.fd < 0) return 0;
    int code = redo->begun ? empty_journal(redo) : 0;
    close_both(redo);
    return code;
}
