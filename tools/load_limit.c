/* load_limit.c - how near `bpfs check` comes to what any program takes that reads an image.
 *
 *     cc -O2 -o load_limit tools/load_limit.c && ./load_limit BPFS IMAGE.. [-n TURNS]
 *
 * For each image a line of processor times in ms, the least of TURNS (9): of `BPFS check IMAGE`; of `cat IMAGE > /dev/null`; of a pass over words
 * that lie in memory already; and of touching as much memory as the image has, which a program pays that keeps it. Behind them is how many times the
 * sum of the second and third the first is, and of all three. The image should be in the page cache: the first turn brings it there.
 */
#define _GNU_SOURCE
#include <fcntl.h>
#include <stdint.h>
#include <stdio.h>
#include <stdlib.h>
#include <string.h>
#include <sys/mman.h>
#include <sys/resource.h>
#include <sys/stat.h>
#include <sys/wait.h>
#include <time.h>
#include <unistd.h>

enum { TURNS = 9, PIECE = 1 << 16, PAGE = 4096 };

static void fail(const char *what) {
    perror(what);
    exit(1);
}

static double seconds_of(struct timeval it) {
    return (double)it.tv_sec + 1e-6 * (double)it.tv_usec;
}

static double now(void) {
    struct timespec it;
    clock_gettime(CLOCK_PROCESS_CPUTIME_ID, &it);
    return (double)it.tv_sec + 1e-9 * (double)it.tv_nsec;
}

/* Processor time of a program, whose output goes to /dev/null. */
static double run(char *const *words) {
    pid_t child = fork();
    if (child < 0) fail("fork");
    if (child == 0) {
        int nowhere = open("/dev/null", O_WRONLY);
        if (nowhere < 0 || dup2(nowhere, 1) < 0) _exit(126);
        execvp(words[0], words);
        _exit(127);
    }
    struct rusage used;
    int status;
    if (wait4(child, &status, 0, &used) < 0) fail("wait4");
    if (!WIFEXITED(status) || WEXITSTATUS(status) > 1) {
        fprintf(stderr, "%s: status %d\n", words[0], status);
        exit(1);
    }
    return seconds_of(used.ru_utime) + seconds_of(used.ru_stime);
}

/* The first store to each page of new memory. The memory stays. */
static double touch(uint64_t **words, size_t size) {
    *words = mmap(NULL, size, PROT_READ | PROT_WRITE, MAP_PRIVATE | MAP_ANONYMOUS, -1, 0);
    if (*words == MAP_FAILED) fail("mmap");
    double start = now();
    for (size_t at = 0; at < size; at += PAGE) ((volatile char *)*words)[at] = 1;
    return now() - start;
}

static void read_all(const char *path, uint64_t *words, size_t size) {
    int file = open(path, O_RDONLY);
    if (file < 0) fail(path);
    for (size_t at = 0; at < size;) {
        ssize_t count = read(file, (char *)words + at, size - at < PIECE ? size - at : PIECE);
        if (count <= 0) fail(path);
        at += (size_t)count;
    }
    close(file);
}

static double pass(const uint64_t *words, size_t size) {
    double start = now();
    uint64_t sum = 0;
    for (size_t i = 0; i < size / 8; i++) sum += words[i];
    *(volatile uint64_t *)&sum = sum;
    return now() - start;
}

static double least(double a, double b) {
    return a < b ? a : b;
}

static void tell(char *program, char *path, int turns) {
    char *check[] = {program, "check", path, NULL}, *cat[] = {"cat", path, NULL};
    double times[4] = {1e9, 1e9, 1e9, 1e9};
    struct stat it;
    if (stat(path, &it) < 0) fail(path);
    size_t size = (size_t)it.st_size;
    run(cat);
    for (int turn = 0; turn < turns; turn++) {
        uint64_t *words;
        times[0] = least(times[0], run(check));
        times[1] = least(times[1], run(cat));
        times[3] = least(times[3], touch(&words, size));
        read_all(path, words, size);
        times[2] = least(times[2], pass(words, size));
        munmap(words, size);
    }
    const char *name = strrchr(path, '/');
    printf("| %s | %.1f | %.1f | %.1f | %.1f | %.2f | %.2f |\n", name ? name + 1 : path, 1e3 * times[0], 1e3 * times[1], 1e3 * times[2], 1e3 * times[3],
           times[0] / (times[1] + times[2]), times[0] / (times[1] + times[2] + times[3]));
    fflush(stdout);
}

int main(int count, char **words) {
    int turns = TURNS;
    if (count > 3 && !strcmp(words[count - 2], "-n")) turns = atoi(words[count - 1]), count -= 2;
    if (count < 3 || turns < 1) return fprintf(stderr, "usage: load_limit BPFS IMAGE.. [-n TURNS]\n"), 2;
    printf("| Image | check, ms | cat, ms | a pass, ms | new memory, ms | check : cat and pass | check : all three |\n|---|---|---|---|---|---|---|\n");
    for (int i = 2; i < count; i++) tell(words[1], words[i], turns);
    return 0;
}
