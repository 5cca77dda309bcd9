/* nodes_test.c - the table of nodes: its paths after renames, and how many nodes remain when the
 * kernel forgets them. */
#define _GNU_SOURCE
#include "hidden.h"
#include "test_volume.h"
#include "times.h"
#include <errno.h>
#include <stdio.h>
#include <string.h>

enum { LOOKUPS = 100000, FILES = 1000, BLOCKS = 1024 };

static const attributes of_file = {S_IFREG | 0644, 0, 0}, of_directory = {S_IFDIR | 0755, 0, 0};

static bool is_at(const node *it, const char *wanted) {
    path at;
    return nodes_path(it, &at) == 0 && strcmp(at.text, wanted) == 0 && at.length == strlen(wanted);
}

static node *make(node *dir, const char *name, attributes of) {
    node *it;
    must(files_make(dir, name, of, &it) == 0, name);
    return it;
}

/* Lets go of nodes that have one lookup each. */
static void forget(node *const *nodes, size_t count) {
    for (size_t i = 0; i < count; i++) nodes_forget(nodes[i], 1);
}

static void paths(void) {
    path at;
    node *root = nodes_root(), *a = make(root, "a", of_directory), *b = make(a, "b", of_directory),
         *c = make(b, "c", of_file);
    must(is_at(root, "/") && is_at(a, "/a") && is_at(c, "/a/b/c"), "a wrong path");
    must(files_rename(a, "b", root, "d", 0) == 0 && is_at(c, "/d/c"),
         "a wrong path after a rename");
    must(files_link(c, a, "e") == 0 && files_unlink(b, "c") == 0 && is_at(c, "/a/e"),
         "a wrong path after an unlink");
    must(files_rename(root, "a", root, "f", 0) == 0 && is_at(c, "/f/e"),
         "a wrong path after another rename");
    must(files_unlink(a, "e") == 0, "not deleted");
    must(nodes_path(c, &at) == -ESTALE && files_open(c, false) == -ESTALE,
         "a path after the deletion");
    must(files_rmdir(root, "d") == 0 && files_rmdir(root, "f") == 0, "not deleted");
    must(nodes_path(b, &at) == -ESTALE && files_make(b, "c", of_file, &c) == -ENOENT,
         "a path after the deletion");
    forget((node *[]){a, b, c, c}, 4);
}

/* A chain of directories, down to where a path has more than BPFS_MAX_PATH bytes. */
static void long_paths(void) {
    char name[BPFS_MAX_NAME + 2];
    node *dirs[32], *dir = nodes_root(), *it;
    size_t depth = 0;
    memset(name, 'n', sizeof name);
    name[BPFS_MAX_NAME + 1] = 0;
    must(files_make(dir, name, of_file, &it) == -ENAMETOOLONG &&
             files_lookup(dir, name, &it) == -ENAMETOOLONG,
         "a long name");
    for (name[BPFS_MAX_NAME] = 0; files_make(dir, name, of_directory, &it) == 0;
         dir = dirs[depth++] = it) {}
    must(depth == BPFS_MAX_PATH / (BPFS_MAX_NAME + 1), "a wrong greatest depth");
    must(files_make(dir, name, of_directory, &it) == -ENAMETOOLONG, "not too long");
    while (depth--) {
        must(files_rmdir(depth ? dirs[depth - 1] : nodes_root(), name) == 0, "not deleted");
        nodes_forget(dirs[depth], 1);
    }
}

/* A file with more names than are remembered is one node with one inode, and is found by each
 * name. */
static void many_names(void) {
    char name[16];
    struct stat st;
    node *root = nodes_root(), *it = make(root, "0", of_file), *found;
    for (int i = 1; i < 100; i++) {
        snprintf(name, sizeof name, "%d", i);
        must(files_link(it, root, name) == 0, "no link");
    }
    must(files_open(it, false) == 0, "not open");
    for (int i = 0; i < 100; i++) {
        snprintf(name, sizeof name, "%d", i);
        must(files_lookup(root, name, &found) == 0 && found == it, "another node");
        must(files_unlink(root, name) == 0, "not deleted");
        must(files_stat(it, &st) == 0 && st.st_nlink == (nlink_t)(99 - i),
             "a wrong number of links");
    }
    must(files_write(it, "x", 1, 0) == 1, "not written");
    files_close(it, false);
    files_forget(it, 200);
}

/* Numbers of inodes that are used again belong to other nodes. */
static void numbers(void) {
    node *root = nodes_root(), *old = make(root, "a", of_file);
    uint32_t number = old->number;
    must(files_unlink(root, "a") == 0, "not deleted");
    node *new = make(root, "b", of_file);
    must(new->number == number &&new != old &&new->generation != old->generation,
         "one node for two files");
    must(files_unlink(root, "b") == 0, "not deleted");
    forget((node *[]){old, new}, 2);
}

/* The kernel looks up many names, in two directories, and forgets them. */
static void lookups(void) {
    char name[16];
    size_t most = 0;
    node *root = nodes_root(), *dir = make(root, "d", of_directory), *it;
    for (int i = 0; i < FILES; i++) {
        snprintf(name, sizeof name, "%d", i);
        nodes_forget(make(i % 2 ? root : dir, name, of_file), 1);
    }
    times_store();
    for (int i = 0; i < LOOKUPS; i++) {
        snprintf(name, sizeof name, "%d", i % FILES);
        must(files_lookup(i % 2 ? root : dir, name, &it) == 0, "not found");
        most = nodes_count() > most ? nodes_count() : most;
        nodes_forget(it, 1);
    }
    nodes_forget(dir, 1);
    must(most <= 3, "nodes that were forgotten are there");
    printf("%d lookups: at most %zu nodes\n", LOOKUPS, most);
}

int main(void) {
    test_format(BLOCKS, 3);
    test_mount();
    paths();
    long_paths();
    many_names();
    numbers();
    lookups();
    must(volume_carry() == 0 && nodes_count() == 1,
         "nodes are left"); /* that of the hidden directory remains */
    hidden_end();
    must(nodes_count() == 0, "nodes are left at the end");
    test_lose();
    printf("paths, names and numbers of nodes: ok\n");
    return 0;
}
