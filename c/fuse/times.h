/* times.h - when files and directories were changed.
 *
 * Version 3 of the format keeps a time as attribute 1 (docs/format.md). It is not stored at each
 * write: the node has the new time until the log is carried. Earlier versions keep none, and a node
 * has its time as long as the mount lasts.
 */
#ifndef BPFS_TIMES_H
#define BPFS_TIMES_H
#include "nodes.h"
#include <stdbool.h>
#include <time.h>

/* No node has a time, and everything was changed now. */
void times_begin(void);

struct timespec times_now(void);

struct timespec times_of(const node *it);

/* Sets a time, at once. 0, or a negative errno. */
int times_set(node *it, struct timespec when);

/* Sets the time to now. */
void times_touch(node *it);

/* Forgets a time that is not stored. */
void times_forget(node *it);

/* Stores the times of all nodes, or of one, if the version keeps them. One that can't be stored now
 * remains. */
void times_store(void);
void times_store_of(node *it);

/* Whether there are times to store. */
bool times_wait(void);
#endif
