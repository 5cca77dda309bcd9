/* listing.h - the names of a directory at one time. */
#ifndef BPFS_LISTING_H
#define BPFS_LISTING_H
#include "nodes.h"

typedef struct listing {
    size_t count;
    size_t *starts; /* where the entries begin in `text` */
    char *text;     /* of each entry, '/' for a directory or ' ' for a file, its name, and 0 */
} listing;

/* Replaces a listing by one of the directory at a path. 0, or a negative errno: the listing is as
 * it was. */
int listing_take(listing *it, const path *at);

/* Gets a name by its index, and whether it is that of a directory. */
const char *listing_name(const listing *it, size_t index, bool *is_dir);

/* Frees what a listing has. It is empty then. */
void listing_clear(listing *it);
#endif
