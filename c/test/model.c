#include "model.h"
#include <stdio.h>
#include <string.h>

enum { LONG_WRITE = MODEL_SIZE / 2, SHORT_WRITE = 200 };

/* What a call is made of: the model, the volume or NULL, what the volume returns and what the model wants it to. */
typedef struct turn {
    model *m;
    bpfs *fs;
    uint32_t code, wanted;
    bpfs_lack lack;
} turn;

typedef struct path {
    uint8_t text[16];
    size_t length;
} path;

static const path empty_dir = {"/d0/empty", 9};

uint32_t draw(uint64_t *state, uint32_t below) {
    *state = *state * 6364136223846793005u + 1442695040888963407u;
    return (uint32_t)((*state >> 33) % below);
}

static path path_of(int name) {
    path it;
    it.length = (size_t)snprintf((char *)it.text, sizeof it.text, "/d%d/f%d", name % MODEL_DIRS, name / MODEL_DIRS);
    return it;
}

/* The path of a name or of a directory. */
static path path_of_owner(int owner) {
    path it = {"/", 1};
    int dir = owner - MODEL_NAMES;
    if (dir < 0) return path_of(owner);
    if (dir > MODEL_DIRS) return empty_dir;
    if (dir < MODEL_DIRS) it.length = (size_t)snprintf((char *)it.text, sizeof it.text, "/d%d", dir);
    return it;
}

void model_clear(model *m, uint64_t state) {
    memset(m, 0, sizeof *m);
    m->state = state;
    m->span = MODEL_SIZE;
    for (int i = 0; i < MODEL_NAMES; i++) m->file_of[i] = -1;
}

uint32_t model_begin(bpfs *fs) {
    bpfs_lack lack;
    uint32_t code = bpfs_mkdir(fs, (const uint8_t *)"/d0", 3, &lack);
    return code ? code : bpfs_mkdir(fs, (const uint8_t *)"/d1", 3, &lack);
}

/* Whether there is no space for the call. */
static bool is_refused(turn *t) {
    if (t->fs) t->m->refused = t->code == BPFS_NO_SPACE;
    if (t->m->refused) t->wanted = BPFS_NO_SPACE;
    return t->m->refused;
}

/* The file of a name, or NULL. */
static model_file *file_of(model *m, int name) {
    return m->file_of[name] < 0 ? NULL : &m->files[m->file_of[name]];
}

/* The attributes of a name or of a directory, or NULL if it is not there. */
static uint64_t *attributes_of(model *m, int owner) {
    int dir = owner - MODEL_NAMES;
    if (dir >= 0) return dir <= MODEL_DIRS || m->has_dir ? m->of_dirs[dir] : NULL;
    return file_of(m, owner) ? file_of(m, owner)->attributes : NULL;
}

static void name_goes(model *m, int name) {
    model_file *file = file_of(m, name);
    if (file && --file->names == 0) memset(file, 0, sizeof *file);
    m->file_of[name] = -1;
}

static void name_comes(model *m, int name, int file) {
    m->file_of[name] = file;
    m->files[file].names++;
}

static int free_file(const model *m) {
    for (int i = 0; i < MODEL_FILES; i++)
        if (m->files[i].names == 0) return i;
    return -1;
}

static void create(turn *t, int name) {
    path at = path_of(name);
    if (t->fs) t->code = bpfs_create(t->fs, at.text, at.length, &t->lack);
    if (is_refused(t)) return;
    t->wanted = file_of(t->m, name) ? BPFS_EXISTS : BPFS_OK;
    if (!t->wanted) name_comes(t->m, name, free_file(t->m));
}

static void unlink_name(turn *t, int name) {
    path at = path_of(name);
    if (t->fs) t->code = bpfs_unlink(t->fs, at.text, at.length, &t->lack);
    if (is_refused(t)) return;
    t->wanted = file_of(t->m, name) ? BPFS_OK : BPFS_NOT_FOUND;
    name_goes(t->m, name);
}

static void rename_name(turn *t, int name, int to) {
    path at = path_of(name), other = path_of(to);
    if (t->fs) t->code = bpfs_rename(t->fs, at.text, at.length, other.text, other.length, &t->lack);
    if (is_refused(t)) return;
    int file = t->m->file_of[name];
    t->wanted = file < 0 ? BPFS_NOT_FOUND : BPFS_OK;
    if (file < 0 || file == t->m->file_of[to]) return; /* two names of one file stay both */
    name_goes(t->m, to);
    name_comes(t->m, to, file);
    name_goes(t->m, name);
}

static void link_name(turn *t, int name, int to) {
    path at = path_of(name), other = path_of(to);
    if (t->fs) t->code = bpfs_link(t->fs, at.text, at.length, other.text, other.length, &t->lack);
    if (is_refused(t)) return;
    int file = t->m->file_of[name];
    t->wanted = file < 0 ? BPFS_NOT_FOUND : t->m->file_of[to] < 0 ? BPFS_OK : BPFS_EXISTS;
    if (!t->wanted) name_comes(t->m, to, file);
}

static void truncate_file(turn *t, int name, uint32_t size) {
    path at = path_of(name);
    if (t->fs) t->code = bpfs_truncate(t->fs, at.text, at.length, size, &t->lack);
    if (is_refused(t)) return;
    model_file *file = file_of(t->m, name);
    t->wanted = file ? BPFS_OK : BPFS_NOT_FOUND;
    if (!file) return;
    if (size < file->size) memset(file->bytes + size, 0, file->size - size);
    file->size = size;
}

static void make_or_remove_dir(turn *t) {
    bool has = t->m->has_dir;
    if (t->fs && has) t->code = bpfs_rmdir(t->fs, empty_dir.text, empty_dir.length, &t->lack);
    if (t->fs && !has) t->code = bpfs_mkdir(t->fs, empty_dir.text, empty_dir.length, &t->lack);
    if (is_refused(t)) return;
    t->m->has_dir = !has;
    memset(t->m->of_dirs[MODEL_DIRS + 1], 0, sizeof t->m->of_dirs[MODEL_DIRS + 1]);
}

static void set_attribute(turn *t, int owner) {
    path at = path_of_owner(owner);
    uint32_t number = draw(&t->m->state, BPFS_ATTRIBUTES);
    uint64_t value = draw(&t->m->state, 1u << 31);
    value = value << 33 | draw(&t->m->state, 1u << 31);
    if (t->fs) t->code = bpfs_set_attribute(t->fs, at.text, at.length, number, value, &t->lack);
    if (is_refused(t)) return;
    uint64_t *attributes = attributes_of(t->m, owner);
    t->wanted = attributes ? BPFS_OK : BPFS_NOT_FOUND;
    if (attributes) attributes[number] = value;
}

static void fill(uint64_t *state, uint8_t *bytes, uint32_t count) {
    for (uint32_t i = 0; i < count; i++) bytes[i] = (uint8_t)draw(state, 256);
}

static void write_file(turn *t, int name) {
    static uint8_t bytes[LONG_WRITE];
    path at = path_of(name);
    uint32_t most = t->m->span / 2;
    if (draw(&t->m->state, 3)) most = SHORT_WRITE;
    uint32_t count = 1 + draw(&t->m->state, most), offset = draw(&t->m->state, t->m->span - count);
    fill(&t->m->state, bytes, count);
    if (t->fs) t->code = bpfs_write(t->fs, at.text, at.length, offset, bytes, count, &t->lack);
    if (is_refused(t)) return;
    model_file *file = file_of(t->m, name);
    t->wanted = file ? BPFS_OK : BPFS_NOT_FOUND;
    if (!file) return;
    memcpy(file->bytes + offset, bytes, count);
    if (file->size < offset + count) file->size = offset + count;
}

/* Writes two pieces to two names: both are there after it, or none. */
static void write_batch(turn *t, int name, int other) {
    uint8_t text[2 * (sizeof(path) + SHORT_WRITE)];
    bpfs_piece pieces[2];
    int names[2] = {name, other};
    uint32_t length = 0;
    for (int i = 0; i < 2; i++) {
        path at = path_of(names[i]);
        uint32_t count = draw(&t->m->state, SHORT_WRITE), offset = draw(&t->m->state, t->m->span / 4);
        pieces[i] = (bpfs_piece){length, (uint32_t)at.length, offset, length + (uint32_t)at.length, count};
        memcpy(text + length, at.text, at.length);
        length += (uint32_t)at.length;
        fill(&t->m->state, text + length, count);
        length += count;
    }
    if (t->fs) t->code = bpfs_batch(t->fs, text, length, pieces, 2, &t->lack);
    if (is_refused(t)) return;
    uint32_t in_all = pieces[0].bytes_length + pieces[1].bytes_length;
    for (int i = 0; i < 2 && !t->wanted; i++) {
        model_file *file = file_of(t->m, names[i]);
        if (!file) t->wanted = BPFS_NOT_FOUND;
        else if (pieces[i].offset + pieces[i].bytes_length > file->size) t->wanted = BPFS_PAST_END;
    }
    if (t->wanted || !in_all) return;
    for (int i = 0; i < 2; i++) memcpy(file_of(t->m, names[i])->bytes + pieces[i].offset, text + pieces[i].bytes_at, pieces[i].bytes_length);
}

bool model_call(model *m, bpfs *fs) {
    turn t = {.m = m, .fs = fs};
    int name = (int)draw(&m->state, MODEL_NAMES), other = (int)draw(&m->state, MODEL_NAMES);
    switch (draw(&m->state, m->has_attributes ? 18 : 16)) {
    case 0: case 1: create(&t, name); break;
    case 2: unlink_name(&t, name); break;
    case 3: rename_name(&t, name, other); break;
    case 4: link_name(&t, name, other); break;
    case 5: truncate_file(&t, name, draw(&m->state, m->span)); break;
    case 6: make_or_remove_dir(&t); break;
    case 7: case 8: write_batch(&t, name, other); break;
    case 16: case 17: set_attribute(&t, (int)draw(&m->state, MODEL_OWNERS)); break;
    default: write_file(&t, name);
    }
    return !fs || t.code == t.wanted;
}

static bool attributes_are_shown(const model *m, bpfs *fs, int owner) {
    path at = path_of_owner(owner);
    const uint64_t *attributes = attributes_of((model *)m, owner);
    uint64_t value = 0;
    if (!m->has_attributes) return bpfs_attribute(fs, at.text, at.length, 0, &value) == BPFS_OLD_VERSION;
    for (int i = 0; i < BPFS_ATTRIBUTES; i++) {
        uint32_t code = bpfs_attribute(fs, at.text, at.length, (uint64_t)i, &value);
        if (!attributes) return code == BPFS_NOT_FOUND;
        if (code || value != attributes[i]) return false;
    }
    return true;
}

static bool file_is_shown(const model_file *file, bpfs *fs, path at) {
    static uint8_t bytes[MODEL_SIZE];
    bpfs_found found;
    size_t count = 0;
    uint32_t names = 0;
    uint32_t code = bpfs_stat(fs, at.text, at.length, &found);
    if (!file) return code == BPFS_NOT_FOUND;
    if (code || found.is_dir || found.size != file->size) return false;
    if (bpfs_links(fs, at.text, at.length, &names) || names != (uint32_t)file->names) return false;
    if (bpfs_read(fs, at.text, at.length, 0, bytes, sizeof bytes, &count) || count != file->size) return false;
    return memcmp(bytes, file->bytes, count) == 0;
}

bool model_is_shown(const model *m, bpfs *fs) {
    bpfs_found found;
    if (bpfs_stat(fs, empty_dir.text, empty_dir.length, &found) != (m->has_dir ? BPFS_OK : BPFS_NOT_FOUND)) return false;
    for (int i = 0; i < MODEL_OWNERS; i++)
        if (!attributes_are_shown(m, fs, i)) return false;
    for (int i = 0; i < MODEL_NAMES; i++)
        if (!file_is_shown(m->file_of[i] < 0 ? NULL : &m->files[m->file_of[i]], fs, path_of(i))) return false;
    return true;
}

void model_repeat(model *m, uint32_t at) {
    m->refused = m->refusals && m->refusals[at];
    model_call(m, NULL);
}

bool model_finds(model *m, bpfs *fs, uint32_t *made, uint32_t most) {
    while (!model_is_shown(m, fs)) {
        if (*made >= most) return false;
        model_repeat(m, *made);
        ++*made;
    }
    return true;
}
