/* texts_test.c - a text for each result that bpfs.h names, and the version.
 *
 *     texts_test VERSION
 *
 * build/results.h, which the Makefile makes of bpfs.h, has a line RESULT(NAME) for each result.
 */
#include <bpfs.h>
#include <stdio.h>
#include <string.h>

static const struct {
    uint32_t number;
    const char *name;
} results[] = {
#define RESULT(name) {name, #name},
#include "results.h"
#undef RESULT
};

enum { COUNT = sizeof results / sizeof *results, LAST = 1000 };

/* Returns the place of a result in the array, or COUNT. */
static size_t place_of(uint32_t number) {
    size_t i = 0;
    while (i < COUNT && results[i].number != number) i++;
    return i;
}

int main(int argc, char **argv) {
    if (argc != 2) return 2;
    const char *unknown = bpfs_strerror(UINT32_MAX);
    int wrong = strcmp(bpfs_version(), argv[1]) != 0;
    if (wrong) fprintf(stderr, "texts_test: version %s, and %s was wanted\n", bpfs_version(), argv[1]);
    if (COUNT < 24) wrong = fprintf(stderr, "texts_test: only %d results\n", (int)COUNT) > 0;
    for (uint32_t number = 0; number < LAST; number++) {
        size_t at = place_of(number);
        const char *text = bpfs_strerror(number);
        if ((at == COUNT) == (strcmp(text, unknown) == 0) && *text) continue;
        wrong = fprintf(stderr, "texts_test: %u (%s) has the text \"%s\"\n", number, at == COUNT ? "no result" : results[at].name, text) > 0;
    }
    for (size_t i = 0; i < COUNT; i++) {
        for (size_t j = 0; j < i; j++) {
            if (strcmp(bpfs_strerror(results[i].number), bpfs_strerror(results[j].number))) continue;
            wrong = fprintf(stderr, "texts_test: %s and %s have one text\n", results[i].name, results[j].name) > 0;
        }
    }
    if (!wrong) printf("texts: %d results, version %s\n", (int)COUNT, bpfs_version());
    return wrong;
}
