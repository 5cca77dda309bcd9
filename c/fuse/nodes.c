#define _GNU_SOURCE
#include "nodes.h"
#include <errno.h>
#include <stdlib.h>
#include <string.h>

/* NAMES bounds how long a file with very many links takes to find one of them. What is not
 * remembered is looked up. */
enum { PLACES = 1 << 16, NAMES = 16, ROOT_ID = 1 /* FUSE_ROOT_ID */ };

typedef struct name {
    struct name *next;
    node *parent;
    char text[];
} name;

static node root = {.number = 1};
static node *chains[PLACES];
static size_t count;

node *nodes_root(void) {
    return &root;
}

size_t nodes_count(void) {
    return count;
}

/* The address: while the kernel knows a node, no other one has it. */
uint64_t nodes_id(const node *it) {
    return it == &root ? ROOT_ID : (uint64_t)(uintptr_t)it;
}

node *nodes_of(uint64_t id) {
    return id == ROOT_ID ? &root : (node *)(uintptr_t)id;
}

/* ---- names */

name *nodes_new_name(node *dir, const char *text) {
    name *it = malloc(sizeof *it + strlen(text) + 1);
    if (!it) return NULL;
    it->parent = dir;
    dir->below++;
    strcpy(it->text, text);
    return it;
}

void nodes_free_name(name *it) {
    if (!it) return;
    node *parent = it->parent;
    free(it);
    parent->below--;
    nodes_drop(parent);
}

static bool is_name(const name *it, const node *dir, const char *text) {
    return it->parent == dir && strcmp(it->text, text) == 0;
}

static void remove_at(node *it, name **at) {
    name *gone = *at;
    *at = gone->next;
    it->name_count--;
    nodes_free_name(gone);
}

void nodes_remove_name(node *it, const node *dir, const char *text) {
    name **at = &it->names;
    while (*at && !is_name(*at, dir, text)) at = &(*at)->next;
    if (*at) remove_at(it, at);
}

/* A hidden name has to be remembered: no lookup finds it again. */
static void remove_oldest_name(node *it) {
    name **at = &it->names;
    if (it->is_hidden) return;
    while ((*at)->next) at = &(*at)->next;
    remove_at(it, at);
}

void nodes_add_name(node *it, name *added) {
    added->next = it->names;
    it->names = added;
    if (++it->name_count > NAMES) remove_oldest_name(it);
}

static bool has_name(const node *it, const node *dir, const char *text) {
    const name *at = it->names;
    while (at && !is_name(at, dir, text)) at = at->next;
    return at;
}

bool nodes_has_other_name(const node *it, const node *dir, const char *text) {
    return it->name_count > has_name(it, dir, text);
}

const char *nodes_name_in(const node *it, const node *dir) {
    const name *at = it->names;
    while (at && at->parent != dir) at = at->next;
    return at ? at->text : NULL;
}

const node *nodes_parent(const node *dir) {
    return dir->names ? dir->names->parent : &root;
}

/* ---- the table */

node *nodes_find(uint32_t number) {
    node *it = chains[number % PLACES];
    while (it && (it->number != number || it->is_deleted)) it = it->next;
    return it;
}

static node *make(uint32_t number) {
    static uint64_t made;
    node *it = calloc(1, sizeof *it), **chain = &chains[number % PLACES];
    if (!it) return NULL;
    it->number = number, it->generation = ++made, it->next = *chain;
    *chain = it;
    count++;
    return it;
}

static void take_out(const node *it) {
    node **at = &chains[it->number % PLACES];
    while (*at != it) at = &(*at)->next;
    *at = it->next;
}

node *nodes_get(uint32_t number, node *dir, const char *text) {
    node *it = nodes_find(number);
    if (!it) it = make(number);
    if (!it) return NULL;
    it->lookups++;
    if (has_name(it, dir, text)) return it;
    name *added = nodes_new_name(dir, text);
    if (!added) return nodes_forget(it, 1), NULL;
    nodes_add_name(it, added);
    return it;
}

void nodes_forget(node *it, uint64_t lookups) {
    it->lookups -= lookups;
    nodes_drop(it);
}

void nodes_drop(node *it) {
    if (it->lookups || it->opens || it->below || it->has_time || it == &root) return;
    take_out(it);
    while (it->names) remove_at(it, &it->names);
    free(it);
    count--;
}

void nodes_delete(node *it) {
    it->is_deleted = true;
    while (it->names) remove_at(it, &it->names);
    nodes_drop(it);
}

static void free_all(node *it) {
    for (name *gone; (gone = it->names); free(gone)) it->names = gone->next;
    free(it);
}

void nodes_clear(void) {
    for (size_t i = 0; i < PLACES; i++)
        for (node *it; (it = chains[i]); free_all(it)) chains[i] = it->next;
    root = (node){.number = 1};
    count = 0;
}

/* ---- paths */

/* Writes `/` and a name before `at`. NULL: no room. */
static char *put_before(char *at, const char *text, const path *into) {
    size_t length = strlen(text);
    if ((size_t)(at - into->bytes) <= length) return NULL;
    at -= length;
    memcpy(at, text, length);
    *--at = '/';
    return at;
}

int nodes_path_in(const node *dir, const char *text, path *into) {
    char *end = into->bytes + BPFS_MAX_PATH, *at = end;
    if (strlen(text) > BPFS_MAX_NAME) return -ENAMETOOLONG;
    *at = 0;
    while ((at = put_before(at, text, into))) {
        into->text = at, into->length = (size_t)(end - at);
        if (dir == &root) return 0;
        if (!dir->names) return -ESTALE;
        text = dir->names->text, dir = dir->names->parent;
    }
    return -ENAMETOOLONG;
}

int nodes_path(const node *it, path *into) {
    if (it != &root)
        return it->names ? nodes_path_in(it->names->parent, it->names->text, into) : -ESTALE;
    into->text = "/", into->length = 1;
    return 0;
}
