#include "shuffle.h"
#include "model.h"
#include <errno.h>
#include <stdlib.h>

static int reserve(bpfs_shuffle *shuffle, size_t count) {
    size_t wanted = shuffle->count + count;
    if (wanted <= shuffle->capacity) return 0;
    bpfs_event *stores = realloc(shuffle->stores, 2 * wanted * sizeof *stores);
    if (stores) shuffle->stores = stores;
    size_t *order = realloc(shuffle->order, 2 * wanted * sizeof *order);
    if (order) shuffle->order = order;
    if (!stores || !order) return errno = ENOMEM, -1;
    shuffle->capacity = 2 * wanted;
    return 0;
}

static int put(bpfs_carrier *carrier, uint64_t word, const uint64_t *values, size_t count) {
    bpfs_shuffle *shuffle = (bpfs_shuffle *)carrier;
    if (reserve(shuffle, count)) return -1;
    for (size_t i = 0; i < count; i++, shuffle->count++)
        shuffle->stores[shuffle->count] = (bpfs_event){(uint32_t)shuffle->count, word + i, values[i]};
    return 0;
}

/* By word, and then by when they came, which is their kind here. */
static int by_word(const void *a, const void *b) {
    const bpfs_event *x = a, *y = b;
    if (x->word != y->word) return x->word < y->word ? -1 : 1;
    return x->kind < y->kind ? -1 : x->kind > y->kind;
}

static void mix_order(bpfs_shuffle *shuffle) {
    for (size_t i = 0; i < shuffle->count; i++) shuffle->order[i] = i;
    for (size_t i = shuffle->count; i > 1; i--) {
        size_t j = draw(&shuffle->state, (uint32_t)i), it = shuffle->order[i - 1];
        shuffle->order[i - 1] = shuffle->order[j], shuffle->order[j] = it;
    }
}

static int let_through(bpfs_shuffle *shuffle, const bpfs_event *store) {
    if (shuffle->left == 0) {
        if (shuffle->end) shuffle->end();
        return errno = EINTR, -1;
    }
    shuffle->left--;
    return shuffle->target->put(shuffle->target, store->word, &store->value, 1);
}

/* Lets the stores through in the mixed order. When the turn of a store comes, the earliest one left for its word goes. */
static int let_all_through(bpfs_shuffle *shuffle) {
    if (shuffle->count == 0) return 0;
    qsort(shuffle->stores, shuffle->count, sizeof *shuffle->stores, by_word);
    mix_order(shuffle);
    for (size_t i = 0; i < shuffle->count; i++) {
        size_t first = shuffle->order[i];
        uint64_t word = shuffle->stores[first].word;
        while (first > 0 && shuffle->stores[first - 1].word == word) first--;
        while (shuffle->stores[first].kind == UINT32_MAX) first++;
        if (let_through(shuffle, &shuffle->stores[first])) return -1;
        shuffle->stores[first].kind = UINT32_MAX;
    }
    shuffle->count = 0;
    return 0;
}

static int settle(bpfs_carrier *carrier) {
    bpfs_shuffle *shuffle = (bpfs_shuffle *)carrier;
    return let_all_through(shuffle) || shuffle->target->settle(shuffle->target) ? -1 : 0;
}

static int barrier(bpfs_carrier *carrier) {
    bpfs_shuffle *shuffle = (bpfs_shuffle *)carrier;
    if (shuffle->careless) return 0;
    return let_all_through(shuffle) || shuffle->target->barrier(shuffle->target) ? -1 : 0;
}

void bpfs_shuffle_of(bpfs_shuffle *shuffle, bpfs_carrier *target, bool careless, uint64_t state) {
    *shuffle = (bpfs_shuffle){.carrier = {.put = put, .barrier = barrier, .settle = settle}, .target = target, .careless = careless, .state = state, .left = UINT64_MAX};
}

void bpfs_shuffle_close(bpfs_shuffle *shuffle) {
    free(shuffle->stores);
    free(shuffle->order);
    shuffle->stores = NULL, shuffle->order = NULL, shuffle->count = shuffle->capacity = 0;
}
