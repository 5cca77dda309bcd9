/* calls.h - calls of the library on `volume` (volume.h), and their results as error numbers. */
#ifndef BPFS_CALLS_H
#define BPFS_CALLS_H
#include "nodes.h"
#include "volume.h"
#include <errno.h>
#include <string.h>

/* A path (nodes.h), as the library takes it. */
#define P(path) (const uint8_t *)(path).text, (path).length

/* One call of the library: 0, or a negative errno. LOOK is for calls that change nothing: they add
 * nothing to the log, so they go on when it is full, and after a failure. CHANGE makes room in the
 * log first. An operation that makes several calls uses one of these for each. */
#define LOOK(call) error_of(call)
#define CHANGE(call) (volume_has_room() ? error_of(call) : -EIO)

/* The error of a call with this result. */
int error_of(uint32_t code);
#endif
