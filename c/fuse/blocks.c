#define _GNU_SOURCE
#include "blocks.h"
#include "calls.h"

enum { SLOTS = BPFS_BLOCK_WORDS, INODE_WORDS = 8, HEIGHT = 7 /* bits of a root word */ };
enum { ROOT = 2, SECOND_ROOT = 6, MAGIC_3B = 0x4233 };

static const uint64_t none = UINT64_MAX;

/* Bytes of a tree, of which a part is looked for. */
typedef struct range {
    uint64_t first, end;
} range;

/* A node: the pointer to it, the level, and the first byte that it covers. */
typedef struct place {
    uint64_t pointer, first;
    unsigned level;
} place;

static uint64_t span(unsigned level) {
    return (uint64_t)4096 << (9 * level);
}

static uint64_t later(uint64_t a, uint64_t b) {
    return a > b ? a : b;
}

static place top_of(const content *it) {
    return (place){it->root & ~(uint64_t)0xfff, 0, it->root & HEIGHT};
}

/* Whether a node covers bytes of a range. */
static bool is_in(const place *node, const range *in) {
    return node->first < in->end && node->first + span(node->level) > in->first;
}

static int read_words(uint64_t pointer, uint64_t slot, uint64_t *into, size_t count) {
    return error_of(bpfs_words(&volume.fs, (pointer >> 12) * SLOTS + slot, into, count));
}

static size_t first_slot(const place *node, const range *in) {
    return in->first > node->first ? (in->first - node->first) / span(node->level - 1) : 0;
}

static place child(const place *node, const uint64_t *slots, size_t slot) {
    unsigned level = node->level - 1;
    return (place){slots[slot], node->first + slot * span(level), level};
}

/* ---- what a tree has */

static uint64_t count_below(place node, const range *in) {
    uint64_t slots[SLOTS], count = 0;
    if (!node.pointer || !is_in(&node, in)) return 0;
    if (node.level == 0) return 1;
    if (read_words(node.pointer, 0, slots, SLOTS)) return 0;
    for (size_t i = first_slot(&node, in); i < SLOTS; i++) {
        place next = child(&node, slots, i);
        if (next.first >= in->end) break;
        count += next.level || !next.pointer ? count_below(next, in) : 1;
    }
    return count;
}

/* The first place of a node that is in the range, and in a block or in a hole. */
static uint64_t seek_below(place node, const range *in, bool to_hole) {
    uint64_t slots[SLOTS], found = none;
    if (!is_in(&node, in)) return none;
    if (node.level == 0 || !node.pointer)
        return to_hole == !node.pointer ? later(node.first, in->first) : none;
    if (read_words(node.pointer, 0, slots, SLOTS))
        return to_hole ? none : later(node.first, in->first);
    for (size_t i = first_slot(&node, in); i < SLOTS && found == none; i++)
        found = seek_below(child(&node, slots, i), in, to_hole);
    return found;
}

/* Reads words of a tree, which are all in one leaf. */
static int read_tree(const content *it, uint64_t byte, uint64_t *into, size_t count) {
    place node = top_of(it);
    for (; node.level; node.level--) {
        uint64_t slot = byte / span(node.level - 1) % SLOTS;
        int code = read_words(node.pointer, slot, &node.pointer, 1);
        if (code) return code;
    }
    return read_words(node.pointer, byte % 4096 / 8, into, count);
}

/* ---- files */

int blocks_of(uint32_t inode, content *it) {
    uint64_t head[8], words[INODE_WORDS];
    int code = error_of(bpfs_words(&volume.fs, 0, head, 8));
    if (code) return code;
    const uint64_t *root = head + (head[0] >> 48 == MAGIC_3B ? SECOND_ROOT : ROOT);
    code = read_tree(&(content){root[0], root[1]}, (uint64_t)inode * INODE_WORDS * 8, words,
                     INODE_WORDS);
    *it = (content){words[1], words[2]};
    return code;
}

uint64_t blocks_count(const content *it, uint64_t first, uint64_t end) {
    range in = {first, end < it->size ? end : it->size};
    return in.first < in.end ? count_below(top_of(it), &in) : 0;
}

off_t blocks_seek(const content *it, uint64_t first, bool to_hole) {
    range in = {first, it->size};
    if (first >= it->size) return -ENXIO;
    uint64_t found = seek_below(top_of(it), &in, to_hole);
    if (found == none) return to_hole ? (off_t)it->size : -ENXIO;
    return (off_t)found;
}
