#include "reader.h"
#include <string.h>

enum { MOST_BLOCKS = 65536, ENTRY_WORDS = 32, INODE_WORDS = 8, ATTRIBUTE_WORD = 3, MOST_HEIGHT = 5, VERSIONS = 3 };

static const uint64_t magic[VERSIONS] = {0x3130535253465042u, 0x3230535253465042u, 0x4133535253465042u};

/* A tree of blocks, by its root word and its size; and the image. */
typedef struct content {
    uint64_t root, size;
} content;

static const uint64_t *words;
static uint32_t block_count, version_of_image;
static uint8_t is_live[MOST_BLOCKS], nodes_met[TREE_NODES];
static uint32_t inode_of[TREE_NODES];
static bool is_sound;

static uint64_t span(uint64_t level) {
    return (uint64_t)4096 << (9 * level);
}

/* The words of a block, or NULL for a null pointer. */
static const uint64_t *block_at(uint64_t pointer) {
    uint64_t block = pointer >> 12;
    if (block < block_count) return block ? words + BPFS_BLOCK_WORDS * block : NULL;
    is_sound = false;
    return NULL;
}

/* Marks the nodes of a tree below a pointer, which covers the bytes from `first` on. */
static void mark(uint64_t pointer, uint64_t level, uint64_t first, uint64_t size) {
    const uint64_t *block = first < size ? block_at(pointer) : NULL; /* a pointer past the size may be anything */
    if (!block) return;
    is_live[pointer >> 12] = 1;
    for (uint64_t slot = 0; level && slot < BPFS_BLOCK_WORDS; slot++) mark(block[slot], level - 1, first + slot * span(level - 1), size);
}

static void mark_all(content c) {
    uint64_t height = c.root & 7;
    if (c.size == 0) return;
    if (height > MOST_HEIGHT || c.size > span(height)) is_sound = false;
    else mark(c.root & ~(uint64_t)0xfff, height, 0, c.size);
}

/* The leaf with a byte of a tree, or NULL if it is zeros. */
static const uint64_t *leaf_of(content c, uint64_t byte) {
    uint64_t pointer = c.root & ~(uint64_t)0xfff;
    for (uint64_t level = c.root & 7; level; level--) {
        const uint64_t *block = block_at(pointer);
        if (!block) return NULL;
        pointer = block[byte / span(level - 1) % BPFS_BLOCK_WORDS];
    }
    return block_at(pointer);
}

/* The words of a tree from a byte on, up to the end of its leaf. */
static const uint64_t *words_of(content c, uint64_t byte) {
    static const uint64_t zeros[BPFS_BLOCK_WORDS];
    const uint64_t *leaf = byte < c.size ? leaf_of(c, byte) : NULL;
    if (!leaf) is_sound = false;
    return leaf ? leaf + byte % 4096 / 8 : zeros;
}

static bool is_file(const tree_node *file, content c) {
    static const uint8_t zeros[TREE_PAGE];
    for (size_t i = 0; i < file->count; i++) {
        uint64_t first = file->parts[i].index * TREE_PAGE, left = c.size - first;
        if (first >= c.size) continue;
        const uint64_t *leaf = leaf_of(c, first);
        if (memcmp(leaf ? (const void *)leaf : zeros, file->parts[i].page->bytes, left < TREE_PAGE ? (size_t)left : TREE_PAGE)) return false;
    }
    return true;
}

static bool is_node(const tree *t, int node, content inodes, uint64_t ino);

/* An entry has a name of the directory, which leads to the same. */
static bool is_entry(const tree *t, const tree_node *dir, content inodes, const uint64_t *entry) {
    for (size_t i = 0; i < dir->count; i++) {
        const tree_name *name = dir->entries[i].name;
        if (name->length == entry[1] && memcmp(name->bytes, entry + 2, name->length) == 0)
            return is_node(t, dir->entries[i].node, inodes, entry[0]);
    }
    return false;
}

static bool is_node(const tree *t, int node, content inodes, uint64_t ino) {
    const tree_node *it = t->nodes[node];
    const uint64_t *inode = words_of(inodes, ino * INODE_WORDS * 8);
    content c = {inode[1], inode[2]};
    if (nodes_met[node]) return inode_of[node] == ino; /* by another link */
    nodes_met[node] = 1;
    inode_of[node] = (uint32_t)ino;
    if (!is_sound || inode[0] != (it->is_dir ? 2 : 1)) return false;
    if (tree_has_attributes(version_of_image) && memcmp(inode + ATTRIBUTE_WORD, it->attributes, sizeof it->attributes)) return false;
    mark_all(c);
    if (!it->is_dir) return c.size == it->size && is_file(it, c);
    size_t names = 0;
    for (uint64_t at = 0; at < c.size; at += ENTRY_WORDS * 8) {
        const uint64_t *entry = words_of(c, at);
        if (entry[0] == 0) continue;
        names++;
        if (!is_entry(t, it, inodes, entry)) return false;
    }
    return names == it->count;
}

static bool is_tree(const tree *t, content inodes) {
    memset(nodes_met, 0, sizeof nodes_met);
    mark_all(inodes);
    return is_node(t, 0, inodes, 1) && is_sound;
}

bool reader_shows(const uint64_t *image, uint32_t blocks, uint32_t version, const tree *now, const tree *kept, uint32_t *live) {
    words = image;
    block_count = blocks;
    version_of_image = version;
    is_sound = blocks <= MOST_BLOCKS;
    memset(is_live, 0, sizeof is_live);
    if (!is_sound || version < 1 || version > VERSIONS || image[0] != magic[version - 1] || image[1] != blocks) return false;
    if ((version > 1 && image[5] > 0) != (kept != NULL)) return false;
    if (!is_tree(now, (content){image[2], image[3]})) return false;
    if (kept && !is_tree(kept, (content){image[4], image[5]})) return false;
    *live = 0;
    for (uint32_t i = 0; i < blocks; i++) *live += is_live[i];
    return true;
}

size_t reader_unclear(const uint64_t *image, uint32_t blocks) {
    content inodes = {image[2], image[3]};
    size_t count = 0;
    words = image;
    block_count = blocks;
    for (uint64_t at = 0; at < inodes.size; at += INODE_WORDS * 8) {
        const uint64_t *inode = words_of(inodes, at);
        for (int i = 0; i < BPFS_ATTRIBUTES; i++) count += inode[ATTRIBUTE_WORD + i] != 0;
    }
    return count;
}
