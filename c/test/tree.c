#include "tree.h"
#include <stdio.h>
#include <stdlib.h>
#include <string.h>

enum { HASHES = 4096 };

static void *grown(void *memory, size_t size) {
    void *more = realloc(memory, size);
    if (!more) {
        perror("tree.c");
        exit(2);
    }
    return more;
}

/* ---- names and paths ---- */

/* The name with these bytes: each has one address. */
static const tree_name *name_of(const uint8_t *bytes, size_t length) {
    static tree_name *known[HASHES];
    uint32_t hash = 2166136261u;
    for (size_t i = 0; i < length; i++) hash = (hash ^ bytes[i]) * 16777619u;
    tree_name **first = &known[hash % HASHES];
    for (tree_name *name = *first; name; name = name->next)
        if (name->length == length && memcmp(name->bytes, bytes, length) == 0) return name;
    tree_name *name = grown(NULL, sizeof *name);
    *name = (tree_name){*first, length, {0}};
    memcpy(name->bytes, bytes, length);
    return *first = name;
}

static int name_order(const tree_name *a, const tree_name *b) {
    size_t both = a->length < b->length ? a->length : b->length;
    int order = memcmp(a->bytes, b->bytes, both);
    return order ? order : (a->length > b->length) - (a->length < b->length);
}

static bool is_name(const uint8_t *bytes, size_t length) {
    if (length == 0 || length > BPFS_MAX_NAME || memchr(bytes, 0, length)) return false;
    return bytes[0] != '.' || (length != 1 && (length != 2 || bytes[1] != '.'));
}

bool tree_parse(tree_path *path, const uint8_t *bytes, size_t length) {
    path->count = 0;
    if (length == 0 || length > BPFS_MAX_PATH || bytes[0] != '/') return false;
    if (length == 1) return true;
    for (size_t at = 1, end; at <= length; at = end + 1) {
        const uint8_t *slash = at < length ? memchr(bytes + at, '/', length - at) : NULL;
        end = slash ? (size_t)(slash - bytes) : length;
        if (!is_name(bytes + at, end - at)) return false;
        path->names[path->count++] = name_of(bytes + at, end - at);
    }
    return true;
}

/* ---- nodes ---- */

static void drop_node(tree_node *node) {
    if (--node->holders) return;
    for (size_t i = 0; !node->is_dir && i < node->count; i++)
        if (--node->parts[i].page->holders == 0) free(node->parts[i].page);
    free(node->parts);
    free(node->entries);
    free(node);
}

static tree_node *new_node(bool is_dir) {
    tree_node *node = grown(NULL, sizeof *node);
    *node = (tree_node){.holders = 1, .is_dir = is_dir};
    return node;
}

static void make_room(tree_node *node) {
    if (node->count < node->room) return;
    node->room = 2 * node->room + 4;
    if (node->is_dir) node->entries = grown(node->entries, node->room * sizeof *node->entries);
    else node->parts = grown(node->parts, node->room * sizeof *node->parts);
}

/* A node of the tree that no other tree has. */
static tree_node *own(tree *t, int at) {
    tree_node *old = t->nodes[at];
    if (old->holders == 1) return old;
    tree_node *node = grown(NULL, sizeof *node);
    *node = *old;
    node->holders = 1;
    node->entries = NULL;
    node->parts = NULL;
    if (node->room && node->is_dir) {
        node->entries = grown(NULL, node->room * sizeof *node->entries);
        memcpy(node->entries, old->entries, node->count * sizeof *node->entries);
    } else if (node->room) {
        node->parts = grown(NULL, node->room * sizeof *node->parts);
        memcpy(node->parts, old->parts, node->count * sizeof *node->parts);
        for (size_t i = 0; i < node->count; i++) node->parts[i].page->holders++;
    }
    drop_node(old);
    return t->nodes[at] = node;
}

/* ---- trees ---- */

tree *tree_empty(void) {
    tree *t = grown(NULL, sizeof *t);
    memset(t, 0, sizeof *t);
    t->holders = 1;
    t->top = 1;
    t->nodes[0] = new_node(true);
    return t;
}

tree *tree_copy(const tree *t) {
    tree *copy = grown(NULL, sizeof *copy);
    memcpy(copy, t, sizeof *copy);
    copy->holders = 1;
    for (int i = 0; i < t->top; i++)
        if (t->nodes[i]) t->nodes[i]->holders++;
    return copy;
}

tree *tree_hold(tree *t) {
    if (t) t->holders++;
    return t;
}

void tree_drop(tree *t) {
    if (!t || --t->holders) return;
    for (int i = 0; i < t->top; i++)
        if (t->nodes[i]) drop_node(t->nodes[i]);
    free(t);
}

int tree_spare(const tree *t) {
    int spare = TREE_NODES - t->top;
    for (int i = 0; i < t->top; i++) spare += !t->nodes[i];
    return spare;
}

static int add_node(tree *t, bool is_dir) {
    int at = 0;
    while (at < t->top && t->nodes[at]) at++;
    t->nodes[at] = new_node(is_dir);
    if (at == t->top) t->top++;
    return at;
}

/* The place of a name among a directory's entries, and whether it is there. */
static bool entry_of(const tree_node *dir, const tree_name *name, size_t *at) {
    size_t low = 0, high = dir->count;
    while (low < high) {
        size_t middle = (low + high) / 2;
        if (name_order(dir->entries[middle].name, name) < 0) low = middle + 1;
        else high = middle;
    }
    *at = low;
    return low < dir->count && dir->entries[low].name == name;
}

/* Follows the first `count` names of a path. */
static uint32_t walk(const tree *t, const tree_path *path, size_t count, int *node) {
    *node = 0;
    for (size_t i = 0, at; i < count; i++) {
        const tree_node *dir = t->nodes[*node];
        if (!dir->is_dir) return BPFS_NOT_DIR;
        if (!entry_of(dir, path->names[i], &at)) return BPFS_NOT_FOUND;
        *node = dir->entries[at].node;
    }
    return BPFS_OK;
}

/* Follows a path that is not the root to the directory of its last name. */
static uint32_t walk_to_parent(const tree *t, const tree_path *path, int *node) {
    uint32_t code = walk(t, path, path->count - 1, node);
    if (code) return code;
    return t->nodes[*node]->is_dir ? BPFS_OK : BPFS_NOT_DIR;
}

uint32_t tree_find(const tree *t, const tree_path *path, int *node) {
    return walk(t, path, path->count, node);
}

/* Follows a path to a file. */
static uint32_t find_file(const tree *t, const tree_path *path, int *node) {
    uint32_t code = tree_find(t, path, node);
    if (code) return code;
    return t->nodes[*node]->is_dir ? BPFS_IS_DIR : BPFS_OK;
}

static const tree_name *last(const tree_path *path) {
    return path->names[path->count - 1];
}

static void add_entry(tree *t, int dir, const tree_name *name, int node) {
    tree_node *d = own(t, dir);
    size_t at;
    entry_of(d, name, &at);
    make_room(d);
    memmove(d->entries + at + 1, d->entries + at, (d->count - at) * sizeof *d->entries);
    d->entries[at] = (tree_entry){name, node};
    d->count++;
    own(t, node)->links++;
}

/* Removes a name, and the file or directory with its last one. */
static void remove_entry(tree *t, int dir, const tree_name *name) {
    tree_node *d = own(t, dir);
    size_t at;
    entry_of(d, name, &at);
    int node = d->entries[at].node;
    d->count--;
    memmove(d->entries + at, d->entries + at + 1, (d->count - at) * sizeof *d->entries);
    if (--own(t, node)->links) return;
    drop_node(t->nodes[node]);
    t->nodes[node] = NULL;
}

/* ---- the calls ---- */

uint32_t tree_make(tree *t, const tree_path *path, bool is_dir) {
    int dir;
    size_t at;
    if (path->count == 0) return BPFS_EXISTS;
    uint32_t code = walk_to_parent(t, path, &dir);
    if (code) return code;
    if (entry_of(t->nodes[dir], last(path), &at)) return BPFS_EXISTS;
    add_entry(t, dir, last(path), add_node(t, is_dir));
    return BPFS_OK;
}

uint32_t tree_unlink(tree *t, const tree_path *path) {
    int node, dir;
    uint32_t code = find_file(t, path, &node);
    if (code) return code;
    walk_to_parent(t, path, &dir);
    remove_entry(t, dir, last(path));
    return BPFS_OK;
}

uint32_t tree_rmdir(tree *t, const tree_path *path) {
    int node, dir;
    if (path->count == 0) return BPFS_IS_ROOT;
    uint32_t code = tree_find(t, path, &node);
    if (code) return code;
    if (!t->nodes[node]->is_dir) return BPFS_NOT_DIR;
    if (t->nodes[node]->count) return BPFS_NOT_EMPTY;
    walk_to_parent(t, path, &dir);
    remove_entry(t, dir, last(path));
    return BPFS_OK;
}

/* Whether the first path leads to the directory of the second one, or above it. */
static bool is_above(const tree_path *a, const tree_path *b) {
    if (a->count >= b->count) return false;
    return memcmp(a->names, b->names, a->count * sizeof *a->names) == 0;
}

/* Whether one node may take the place of another one. */
static uint32_t replaces(const tree_node *node, const tree_node *other) {
    if (!node->is_dir) return other->is_dir ? BPFS_IS_DIR : BPFS_OK;
    if (!other->is_dir) return BPFS_NOT_DIR;
    return other->count ? BPFS_NOT_EMPTY : BPFS_OK;
}

uint32_t tree_rename(tree *t, const tree_path *from, const tree_path *to) {
    int node, dir, to_dir;
    size_t at;
    if (from->count == 0 || to->count == 0) return BPFS_IS_ROOT;
    uint32_t code = tree_find(t, from, &node);
    if (!code) code = walk_to_parent(t, to, &to_dir);
    if (code) return code;
    if (is_above(from, to)) return BPFS_INTO_SELF;
    if (entry_of(t->nodes[to_dir], last(to), &at)) {
        int other = t->nodes[to_dir]->entries[at].node;
        if (other == node) return BPFS_OK;
        code = replaces(t->nodes[node], t->nodes[other]);
        if (code) return code;
        remove_entry(t, to_dir, last(to));
    }
    walk_to_parent(t, from, &dir);
    add_entry(t, to_dir, last(to), node);
    remove_entry(t, dir, last(from));
    return BPFS_OK;
}

uint32_t tree_link(tree *t, const tree_path *from, const tree_path *to) {
    int node, dir;
    size_t at;
    uint32_t code = find_file(t, from, &node);
    if (code) return code;
    if (to->count == 0) return BPFS_EXISTS;
    code = walk_to_parent(t, to, &dir);
    if (code) return code;
    if (entry_of(t->nodes[dir], last(to), &at)) return BPFS_EXISTS;
    add_entry(t, dir, last(to), node);
    return BPFS_OK;
}

uint64_t tree_most(uint32_t version) {
    return (uint64_t)1 << (version == 1 ? 39 : 57);
}

/* The place of a page among a file's parts, and whether it is there. */
static bool part_of(const tree_node *file, uint64_t index, size_t *at) {
    size_t low = 0, high = file->count;
    while (low < high) {
        size_t middle = (low + high) / 2;
        if (file->parts[middle].index < index) low = middle + 1;
        else high = middle;
    }
    *at = low;
    return low < file->count && file->parts[low].index == index;
}

/* A page of a file that no other file has. */
static uint8_t *own_page(tree_node *file, uint64_t index) {
    size_t at;
    bool is_there = part_of(file, index, &at);
    if (is_there && file->parts[at].page->holders == 1) return file->parts[at].page->bytes;
    tree_page *page = grown(NULL, sizeof *page);
    page->holders = 1;
    if (is_there) {
        memcpy(page->bytes, file->parts[at].page->bytes, TREE_PAGE);
        file->parts[at].page->holders--;
    } else {
        memset(page->bytes, 0, TREE_PAGE);
        make_room(file);
        memmove(file->parts + at + 1, file->parts + at, (file->count - at) * sizeof *file->parts);
        file->count++;
    }
    file->parts[at] = (tree_part){index, page};
    return page->bytes;
}

static void put_bytes(tree_node *file, uint64_t offset, const uint8_t *bytes, size_t count) {
    for (size_t n; count; offset += n, bytes += n, count -= n) {
        size_t within = offset % TREE_PAGE;
        n = TREE_PAGE - within < count ? TREE_PAGE - within : count;
        memcpy(own_page(file, offset / TREE_PAGE) + within, bytes, n);
    }
    if (file->size < offset) file->size = offset;
}

uint32_t tree_write(tree *t, const tree_path *path, uint64_t offset, const uint8_t *bytes, size_t count, uint32_t version) {
    int node;
    if (count > (version == 1 ? BPFS_MAX_WRITE : BPFS_MAX_WRITE_2)) return BPFS_TOO_LONG;
    uint32_t code = find_file(t, path, &node);
    if (code || count == 0) return code;
    if (offset > tree_most(version) || tree_most(version) - offset < count) return BPFS_TOO_BIG;
    put_bytes(own(t, node), offset, bytes, count);
    return BPFS_OK;
}

uint32_t tree_patch(tree *t, const tree_path *path, uint64_t offset, const uint8_t *bytes, size_t count) {
    int node;
    uint32_t code = find_file(t, path, &node);
    if (code) return code;
    uint64_t size = t->nodes[node]->size;
    if (offset > size || size - offset < count) return BPFS_PAST_END;
    if (count) put_bytes(own(t, node), offset, bytes, count);
    return BPFS_OK;
}

uint32_t tree_truncate(tree *t, const tree_path *path, uint64_t size, uint32_t version) {
    int node;
    uint32_t code = find_file(t, path, &node);
    if (code) return code;
    if (size > tree_most(version)) return BPFS_TOO_BIG;
    tree_node *file = own(t, node);
    file->size = size;
    while (file->count && file->parts[file->count - 1].index > size / TREE_PAGE)
        if (--file->parts[--file->count].page->holders == 0) free(file->parts[file->count].page);
    if (file->count && file->parts[file->count - 1].index == size / TREE_PAGE) {
        uint8_t *page = own_page(file, size / TREE_PAGE);
        memset(page + size % TREE_PAGE, 0, TREE_PAGE - size % TREE_PAGE);
    }
    return BPFS_OK;
}

bool tree_has_attributes(uint32_t version) {
    return version == 3;
}

uint32_t tree_set_attribute(tree *t, const tree_path *path, uint64_t number, uint64_t value, uint32_t version) {
    int node;
    if (!tree_has_attributes(version)) return BPFS_OLD_VERSION;
    uint32_t code = tree_find(t, path, &node);
    if (code) return code;
    own(t, node)->attributes[number] = value;
    return BPFS_OK;
}

size_t tree_read(const tree *t, int node, uint64_t offset, uint8_t *into, size_t capacity) {
    const tree_node *file = t->nodes[node];
    if (offset >= file->size) return 0;
    size_t count = file->size - offset < capacity ? (size_t)(file->size - offset) : capacity;
    for (size_t done = 0, n, at; done < count; done += n) {
        size_t within = (offset + done) % TREE_PAGE;
        n = TREE_PAGE - within < count - done ? TREE_PAGE - within : count - done;
        if (part_of(file, (offset + done) / TREE_PAGE, &at)) memcpy(into + done, file->parts[at].page->bytes + within, n);
        else memset(into + done, 0, n);
    }
    return count;
}

bpfs_sums tree_sums(const tree *t) {
    bpfs_sums sums = {0, 0, 0, 0, 0};
    for (int i = 0; i < t->top; i++) {
        const tree_node *node = t->nodes[i];
        if (!node) continue;
        if (node->is_dir) sums.dirs++;
        else {
            sums.files++;
            sums.bytes += node->size;
            sums.bytes_above += sums.bytes < node->size;
        }
    }
    return sums;
}
