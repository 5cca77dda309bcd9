// link_test.cpp - each header, used from C++17: it compiles, and what it declares links.
//
//     link_test FOLDER
#include <bpfs.h>
#include <bpfs/carry.h>
#include "checker.h"
#include <bpfs/file.h>
#include <bpfs/follow.h>
#include "medium.h"
#include "model.h"
#ifdef HAS_PMEM
#include <bpfs/pmem.h>
#endif
#include <bpfs/redo.h>
#include "shuffle.h"
#include <bpfs/stream.h>
#include <cstdio>
#include <string>
#include <unistd.h>

static const uint8_t name[] = {'/', 'a'};

// Creates an image, makes a call, and carries it.
template <typename Medium, typename Create, typename Mount, typename Close>
static bool carries(const std::string &path, Create create, Mount mount, Close close) {
    Medium medium;
    bpfs fs = BPFS_CLOSED;
    bpfs_fault fault;
    bpfs_lack lack;
    if (create(&medium, path.c_str()) || mount(&fs, &medium, &fault)) return false;
    bool done = bpfs_create(&fs, name, sizeof name, &lack) == BPFS_OK && bpfs_carry(&fs, &medium.carrier) == 0;
    done = bpfs_close(&fs) == BPFS_OK && close(&medium) == 0 && done;
    return unlink(path.c_str()) == 0 && done;
}

// Functions of the headers that are for tests, and for followers: that they link is enough.
static const void *const linked[] = {
    (const void *)bpfs_check_carrier, (const void *)medium_clear,   (const void *)model_call,
    (const void *)bpfs_shuffle_of,    (const void *)bpfs_stream_of, (const void *)bpfs_follow,
};

int main(int argc, char **argv) {
    if (argc != 2) return 2;
    std::string path = std::string(argv[1]) + "/linked";
    auto create_file = [](bpfs_file *it, const char *at) { return bpfs_file_create(it, at, 16, 2, BPFS_FILE_WAITS); };
    auto create_redo = [](bpfs_redo *it, const char *at) { return bpfs_redo_create(it, at, 16, 2, BPFS_FILE_WAITS); };
    bool done = carries<bpfs_file>(path, create_file, bpfs_file_mount, bpfs_file_close);
    done = carries<bpfs_redo>(path, create_redo, bpfs_redo_mount, bpfs_redo_close) && done;
    unlink((path + "-redo").c_str());
#ifdef HAS_PMEM
    auto create_pmem = [](bpfs_pmem *it, const char *at) { return bpfs_pmem_create(it, at, 16, 2); };
    done = carries<bpfs_pmem>(path, create_pmem, bpfs_pmem_mount, bpfs_pmem_close) && done;
#endif
    for (const void *it : linked) done = it && done;
    std::puts(done ? "linked from C++17" : "a carrier fails from C++17");
    return done ? 0 : 1;
}
