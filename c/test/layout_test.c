/* layout_test.c - the sizes and offsets that docs/api.md ("Binary compatibility") promises, and BPFS_CLOSED. It is compiled only, in
 * C99, C11 and C++17. */
#include <bpfs.h>
#include <bpfs/carry.h>
#include <bpfs/file.h>
#include <bpfs/follow.h>
#include <bpfs/redo.h>
#include <bpfs/stream.h>

/* Declares an array of -1 elements unless both numbers are the same. */
#define IS(wanted, number) extern int same[(wanted) == (number) ? 1 : -1]
#define HAS(type, size) IS(size, sizeof(type))
#define AT(type, field, offset) IS(offset, offsetof(type, field))

HAS(bpfs, 16);
AT(bpfs, volume, 0);
AT(bpfs, is_open, 8);

HAS(bpfs_lent, 24);
AT(bpfs_lent, words, 0);
AT(bpfs_lent, count, 8);
AT(bpfs_lent, is_there, 16);

HAS(bpfs_lack, 8);
AT(bpfs_lack, need, 0);
AT(bpfs_lack, free, 4);

HAS(bpfs_fault, 32);
AT(bpfs_fault, check, 0);
AT(bpfs_fault, place, 8);
AT(bpfs_fault, found, 16);
AT(bpfs_fault, wanted, 24);

HAS(bpfs_event, 24);
AT(bpfs_event, kind, 0);
AT(bpfs_event, word, 8);
AT(bpfs_event, value, 16);

HAS(bpfs_run, 16);
AT(bpfs_run, kind, 0);
AT(bpfs_run, word, 8);

HAS(bpfs_found, 16);
AT(bpfs_found, size, 0);
AT(bpfs_found, is_dir, 8);

HAS(bpfs_piece, 24);
AT(bpfs_piece, path_at, 0);
AT(bpfs_piece, path_length, 4);
AT(bpfs_piece, offset, 8);
AT(bpfs_piece, bytes_at, 16);
AT(bpfs_piece, bytes_length, 20);

HAS(bpfs_blocks, 8);
AT(bpfs_blocks, free, 0);
AT(bpfs_blocks, live, 4);

HAS(bpfs_about, 32);
AT(bpfs_about, version, 0);
AT(bpfs_about, blocks, 4);
AT(bpfs_about, capacity, 8);
AT(bpfs_about, room, 16);
AT(bpfs_about, has_snapshot, 24);

HAS(bpfs_sums, 40);
AT(bpfs_sums, files, 0);
AT(bpfs_sums, dirs, 8);
AT(bpfs_sums, bytes, 16);
AT(bpfs_sums, bytes_above, 24);
AT(bpfs_sums, live, 32);

HAS(bpfs_carrier, 48);
AT(bpfs_carrier, put, 0);
AT(bpfs_carrier, barrier, 8);
AT(bpfs_carrier, settle, 16);
AT(bpfs_carrier, volume, 24);
AT(bpfs_carrier, next, 32);
AT(bpfs_carrier, error, 40);

/* These may grow at their end. */
AT(bpfs_file, carrier, 0);
AT(bpfs_redo, carrier, 0);
AT(bpfs_stream, carrier, 0);

IS(0, BPFS_OK);
IS(16, BPFS_PAST_END);
IS(32, BPFS_HAS_NONE);
IS(38, BPFS_OUT_OF_RANGE);
IS(40, BPFS_PENDING);

/* A closed handle, at file scope and within structures. */
bpfs layout_static = BPFS_CLOSED;
bpfs layout_several[2] = {BPFS_CLOSED, BPFS_CLOSED};
bool layout_local(void);

bool layout_local(void) {
    bpfs fs = BPFS_CLOSED, other = BPFS_CLOSED;
    return fs.is_open || other.is_open || layout_static.is_open;
}
