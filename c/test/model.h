/* model.h - a plain tree of arrays, which knows nothing of the library, and random calls made on it
 * and on a volume.
 *
 * Calls follow from a state, a number: the same state makes the same calls again, on the model
 * only. That is how a test finds which prefix of the calls an image shows. A volume may refuse a
 * call with BPFS_NO_SPACE, which the model cannot foresee: it records that in `refused`, and
 * repeats it by `refusals`.
 */
#ifndef BPFS_MODEL_H
#define BPFS_MODEL_H
#include <bpfs.h>

#ifdef __cplusplus
extern "C" {
#endif

enum { MODEL_NAMES = 8, MODEL_FILES = MODEL_NAMES, MODEL_SIZE = 40000, MODEL_DIRS = 2, MODEL_BLOCKS = 512 };
enum { MODEL_OWNERS = MODEL_NAMES + MODEL_DIRS + 2 }; /* of attributes: the names and the directories */

typedef struct model_file {
    int names; /* 0: no such file */
    uint32_t size;
    uint64_t attributes[BPFS_ATTRIBUTES];
    uint8_t bytes[MODEL_SIZE]; /* 0 past the size */
} model_file;

/* Names 0 to 7 are in the directories /d0 and /d1, by turns. Beside them there is an empty
 * directory, or none. */
typedef struct model {
    int file_of[MODEL_NAMES]; /* the file that a name has, or -1 */
    model_file files[MODEL_FILES];
    bool has_dir;
    uint64_t of_dirs[MODEL_OWNERS - MODEL_NAMES][BPFS_ATTRIBUTES]; /* of /d0 and /d1, of the root, of the empty directory */
    uint64_t state;
    bool has_attributes;  /* whether the volume has version 3; false at first */
    uint32_t span;        /* no file gets longer; MODEL_SIZE at first */
    bool refused;         /* whether the volume had no space for the last call */
    const bool *refusals; /* of the calls that are repeated without a volume; NULL: none */
} model;

/* A number below `below`, drawn from a state. */
uint32_t draw(uint64_t *state, uint32_t below);

/* The tree of a volume that model_begin has made, before the first call. */
void model_clear(model *m, uint64_t state);
uint32_t model_begin(bpfs *fs);

/* Makes the next call on the model, and on the volume if there is one. Whether both return the
 * same. */
bool model_call(model *m, bpfs *fs);

/* Makes call number `at` once more, on the model only. */
void model_repeat(model *m, uint32_t at);

/* Whether the volume shows the model's tree. */
bool model_is_shown(const model *m, bpfs *fs);

/* Repeats calls on the model until the volume shows its tree: from *made calls on, up to `most`.
 * Whether it comes to that. */
bool model_finds(model *m, bpfs *fs, uint32_t *made, uint32_t most);

#ifdef __cplusplus
}
#endif
#endif
