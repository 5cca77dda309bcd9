/* guarded.h - memory for the arguments of calls that ends at a page which nobody may touch, so that
 * one byte too many is a fault. For tests.
 */
#ifndef BPFS_GUARDED_H
#define BPFS_GUARDED_H
#include <stdbool.h>
#include <stddef.h>
#include <stdint.h>

#ifdef __cplusplus
extern "C" {
#endif

enum { GUARDED_FILL = 0xc7 };

/* One memory at two addresses: one to write through, and one that cannot be written through. */
typedef struct guarded {
    uint8_t *writable, *readable;
    size_t size;
} guarded;

/* Maps memory for at least `size` bytes. Whether it succeeds. */
bool guarded_make(guarded *g, size_t size);

/* The last `count` bytes, with a copy of `bytes`, which nobody can write. */
const void *guarded_in(const guarded *g, const void *bytes, size_t count);

/* The last `count` bytes, which are GUARDED_FILL, as are some before them. */
void *guarded_out(const guarded *g, size_t count);

/* Whether the bytes before the last `count` are as guarded_out left them. */
bool guarded_front(const guarded *g, size_t count);

/* Whether the bytes from number `from` on, of the last `count`, are as guarded_out left them. */
bool guarded_rest(const guarded *g, size_t from, size_t count);

#ifdef __cplusplus
}
#endif
#endif
