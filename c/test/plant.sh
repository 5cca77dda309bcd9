#!/bin/sh
# Puts faults into copies of the carriers, one by one; a test has to find each. It runs in the folder of the Makefile.
#
#     plant.sh LIBRARY KIT FOLDER
set -u
library=$(realpath "$1") kit=$2 folder=$(mktemp -d "$3/bpfs-plant-XXXXXX")
work=$(mktemp -d)
trap 'rm -rf "$work" "$folder"' EXIT
found=0
objects='carry file redo stream follow model shuffle medium checker'
flags='-std=c11 -O1 -g -w -Iinclude -DBPFS_REDO_FULL=16384 -DBPFS_NO_STREAM'
libraries=$kit
if [ "${HAS_PMEM:-}" = yes ]; then
    objects="$objects pmem"
    flags="$flags -DHAS_PMEM"
    libraries="$kit -lpmem"
    PMEM_IS_PMEM_FORCE=1
    export PMEM_IS_PMEM_FORCE
fi

# The path of a file of which the name is given.
path_of() {
    for path in src/$1 test/$1 examples/$1 include/bpfs/$1; do [ ! -f "$path" ] || echo "$path"; done
}

compile() {
    case $1 in
    follower_main) ${CC:-cc} $flags -Dmain=follower_main -c examples/follower.c -o follower_main.o ;;
    *) ${CC:-cc} $flags -c "$(path_of "$1.c")" -o "$1.o" ;;
    esac
}

# The objects and options that a test is linked with.
parts_of() {
    simulated='carry.o file.o redo.o model.o medium.o checker.o'
    ordinary='carry.o file.o redo.o stream.o follow.o model.o shuffle.o'
    if [ "${HAS_PMEM:-}" = yes ]; then simulated="$simulated pmem.o" ordinary="$ordinary pmem.o"; fi
    case $1 in
    restart_test) echo "$simulated @test/medium.wrap" ;;
    stream_test) echo "$ordinary -Wl,--wrap=fsync" ;;
    follower_test) echo "follower_main.o $ordinary -Wl,--wrap=rename,--wrap=fsync,--wrap=fdatasync,--wrap=write" ;;
    follower_restart_test) echo "follower_main.o $simulated stream.o follow.o @test/medium.wrap" ;;
    *) echo "$ordinary" ;;
    esac
}

# plant FAULT FILE EDIT TEST ARGUMENTS..: after the edit of the file (by sed) the test has to fail
plant() {
    fault=$1 file=$(path_of "$2") planted=${2%.c} edit=$3 test=$4
    shift 4
    (
        cd "$work" || exit 3
        sed -i "$edit" "$file"
        cmp -s "$file" "$OLDPWD/$file" && echo "$fault: nothing is planted" && exit 3
        [ "$planted" = follower ] && planted=follower_main
        compile "$planted" || exit 3
        [ -f "$test.o" ] || compile "$test" || exit 3
        ${CC:-cc} "$test.o" $(parts_of "$test") "$library" $libraries -o "$test" || exit 3
        "./$test" "$@" > printed 2>&1
        case $? in
        1 | 142) echo "$fault: $(tail -1 printed)" ;; # 142: a test that waits in vain is ended by an alarm
        *) cat printed && echo "$fault: NOT FOUND" && exit 1 ;;
        esac
        cp "$OLDPWD/$file" "$file"
        compile "$planted"
    ) || exit 1
    found=$((found + 1))
}

# plant_header FAULT HEADER EDIT: after the edit of the header a C++ program has to fail to link
plant_header() {
    (
        header=$(path_of "$2")
        cd "$work" || exit 3
        sed -i "$3" "$header"
        cmp -s "$header" "$OLDPWD/$header" && echo "$1: nothing is planted" && exit 3
        printf '#include <bpfs/file.h>\nint main() { return bpfs_carry(nullptr, nullptr) + bpfs_file_open(nullptr, "", BPFS_FILE_WAITS); }\n' > it.cpp
        ${CXX:-c++} -std=c++17 -Iinclude it.cpp carry.o file.o "$library" "$kit" -o it 2> printed && echo "$1: NOT FOUND" && exit 1
        cp "$OLDPWD/$header" "$header"
        ${CXX:-c++} -std=c++17 -Iinclude it.cpp carry.o file.o "$library" "$kit" -o it || exit 3
        echo "$1: it does not link"
    ) || exit 1
    found=$((found + 1))
}

cp -r include src examples test "$work"
(cd "$work" && for object in $objects follower_main; do compile $object || exit 3; done) || exit 1
image=$folder/planted

# The loop of carry.c
plant 'a carrier forgets barriers' carry.c 's/if (run.kind == BPFS_BARRIER) return carrier->barrier(carrier);//' \
    kill_test "$image" 300 1 shuffled 20
plant 'a carrier passes over the second word of a run' carry.c 's/carrier->put(carrier, run.word, values, count)/carrier->put(carrier, run.word, values, count < 2 ? count : 1)/' \
    kill_test "$image" 300 1 ordered 20
plant 'a carrier goes on one event too far' carry.c 's/carrier->next += count;/carrier->next += count + (count > 1);/' \
    kill_test "$image" 300 1 ordered 20
plant 'a call is reported before it is carried' kill_test.c 's/t->report->begun = i + 1;/t->report->begun = t->report->durable = i + 1;/' \
    kill_test "$image" 300 1 ordered 20
rm -f "$work/kill_test.o"
plant 'a drain does not move the position of a carrier' carry.c \
    's/(size_t)(carrier->next - bpfs_drained(fs))/(size_t)carrier->next/; s/carrier->next < bpfs_drained(fs) ? fail(ESTALE) : 0/0/; s/carrier->next = bpfs_drained(fs)/carrier->next = 0/; s/^    bpfs_drain(fs);/    for (size_t i = 0; i < count; i++) carriers[i]->next = 0;\n&/' \
    restart_test file 1000 1
plant 'the events of any volume are carried' carry.c '/carrier->volume != bpfs_tag(fs)/d' restart_test file 1000 1
plant 'a carrier of which events were drained goes on' carry.c 's/carrier->next < bpfs_drained(fs) ? fail(ESTALE) : 0/0/' carriers_test "$folder"
plant 'a copy takes the notes of the image' carry.c 's/put_words(fs, carrier, 1, BPFS_REDO_WORD)/put_words(fs, carrier, 1, BPFS_BLOCK_WORDS)/' carriers_test "$folder"
plant_header 'a header is for C only' carry.h '/extern "C" {/d; /^#ifdef __cplusplus/,/^#endif/d'

# Image files
plant 'a barrier of a file waits for nothing' file.c 's/.barrier = settle, .settle/.barrier = nothing, .settle/; s/^static int open_and_lock/static int nothing(bpfs_carrier *carrier) { (void)carrier; return 0; }\n&/' \
    restart_test file 1000 1
plant 'a file is never synced' file.c 's/|| !file->owes/|| true/' restart_test file 1000 1
plant 'a file forgets that it owes a sync' file.c 's/^    file->owes = true;/    if (count > 1) file->owes = true;/' restart_test file 1000 1
plant 'what a killed process left is mounted and never synced' file.c \
    's/return sync_all(file, path) ? give_up(file) : 0;/return bpfs_sync_folder(path);/; s/if (bpfs_file_sync(file) || fstat/if (fstat/; s/, .owes = true//' restart_test file 3000 1
plant 'a file is carried to after a failed sync' file.c 's/errno = file->carrier.error = EIO/errno = EIO/' restart_test file 3000 1
plant 'a file is opened twice' file.c '/if (flock(/d' restart_test file 1000 1
plant 'opening makes a file' file.c 's/open_existing(file, path, O_RDWR, barrier)/open_existing(file, path, O_RDWR | O_CREAT, barrier)/' restart_test file 1000 1
plant 'a mount of an empty file leaves fault unset' file.c 's/return refuse_size(length, fault);/return BPFS_BAD_SIZE;/' restart_test file 1000 1
plant 'the folder of a new image is not synced' file.c 's/return code ? code : sync_all(file, path);/return code ? code : bpfs_file_sync(file);/' restart_test file 1000 1
plant 'the folder of an image that is opened is not synced' file.c 's/return sync_all(file, path) ? give_up(file) : 0;/return bpfs_file_sync(file) ? give_up(file) : 0;/' \
    restart_test file 10000 1
plant 'an image that needs its journal is opened without' file.c 's/return bpfs_needs_journal(word) ? .*/return 0;/' carriers_test "$folder"

# The journal
plant 'an entry is not waited for' redo.c 's/redo->count, 0) || sync_journal(redo)) return -1;/redo->count, 0)) return -1;/' restart_test redo 1000 1
plant 'a full half does not wait for the image' redo.c '/^static int make_room/,/^}/s/if (sync_image(redo)) return -1;//' restart_test redo 3000 1
plant 'a torn entry is applied' redo.c 's/sum_of(redo->entry, count) == redo->entry\[SUM\]/true/' restart_test redo 3000 1
plant 'the entry of a killed process is applied before it is durable' redo.c 's/if (redo->fd < 0 || sync_journal(redo)) return -1;/if (redo->fd < 0) return -1;/; s/^    if (sync_journal(redo)) return -1;//' \
    restart_test redo 10000 1
plant 'the halves are applied without a wait between' redo.c 's/goes_on \&\& (sync_image(redo) || /goes_on \&\& (/' restart_test redo 5000 2
plant 'an image gets no durable note' redo.c 's/write_note(redo, redo->last) || sync_image(redo)/write_note(redo, redo->last)/' restart_test redo 3000 1
plant 'the folder of a journal is not synced' redo.c 's/if (redo->image.barrier == BPFS_FILE_WAITS \&\& bpfs_sync_folder(redo->name)) return -1;//' restart_test redo 3000 1
plant 'a close drops the note of an image that is not synced' redo.c 's/if (sync_image(redo) || write_entry(redo, entry, HEAD, closing)/if (write_entry(redo, entry, HEAD, closing)/; s/if (write_note(redo, 0) || sync_image(redo)) return -1;/if (write_note(redo, 0)) return -1;/' \
    restart_test redo 3000 1
plant 'any journal is applied' redo.c 's/if (!it->any || (!it->has_note \&\& it->before != note)) return errno = ESTALE, -1;//; /other->number > it->number) return errno = ESTALE/d' carriers_test "$folder"
plant 'any journal is dropped' redo.c 's/return is_needed(redo, halves) ? errno = ESTALE, -1 : drop_journal(redo);/return drop_journal(redo);/' carriers_test "$folder"

plant 'a journal of an earlier version is passed over' redo.c 's/ \&\& head\[MAGIC\] != old_magic)/)/' carriers_test "$folder"
plant 'the place of an old run is read as a new one' redo.c 's/entry\[MAGIC\] == old_magic ? OLD_PLACE_BITS : PLACE_BITS/PLACE_BITS/' carriers_test "$folder"
plant 'a place in the journal has 32 bits' redo.c 's/= word | (uint64_t)count << PLACE_BITS/= (uint32_t)word | (uint64_t)count << PLACE_BITS/' large_test "$folder" 64
plant 'a place in a file has 32 bits' file.c 's/(off_t)word \* 8/(off_t)(uint32_t)word * 8/' large_test "$folder" 64

plant 'a mount forgets what was put and not settled' redo.c 's/^    if (commit(redo)) return -1; .*/    begin_entry(redo);/' carriers_test "$folder"

# Persistent memory
if [ "${HAS_PMEM:-}" = yes ]; then
    plant 'a line is not flushed at a barrier' pmem.c 's/^    flush_line(pmem);//' restart_test pmem 1000 1
    plant 'a line is not flushed where the next one begins' pmem.c 's/if (line_of(to) != pmem->line) flush_line(pmem);//' restart_test pmem 1000 1
    plant 'a barrier of persistent memory waits for nothing' pmem.c 's/^    pmem_drain();//' restart_test pmem 1000 1
    plant 'what a killed process left in caches is not flushed' pmem.c 's/^    pmem_persist(pmem->words, length);//' restart_test pmem 3000 1
    plant 'an image is mapped in another size' pmem.c 's/pmem_map_file(path, 0, 0, 0,/pmem_map_file(path, 8 * 4096, PMEM_FILE_CREATE, 0644,/' restart_test pmem 1000 1
    plant 'a mapped image is opened twice' file.c '/if (flock(/d' restart_test pmem 1000 1
fi

# Streams and followers
plant 'a place in a frame has 32 bits' stream.c 's/= word | (uint64_t)count << BPFS_PLACE_BITS/= (uint32_t)word | (uint64_t)count << BPFS_PLACE_BITS/' large_test "$folder" 64
plant 'a follower takes 32 bits of a place' follow.c 's/return run & ((1ull << BPFS_PLACE_BITS) - 1);/return (uint32_t)run;/' large_test "$folder" 64
plant 'two epochs are one frame' stream.c 's/    if (!payload) return 0;/    static int odd; if (!payload || (odd = !odd)) return 0;/' follow_test "$folder" 100 1
plant 'the sum of a frame is not looked at' follow.c 's/words\[2\] != bpfs_stream_sum(words, payload) || //' follow_test "$folder" 100 1
plant 'the number of a frame is not looked at' follow.c 's/ || words\[1\] > next//; s/} else if (words\[1\] == next) {/} else {/' follow_test "$folder" 100 1
plant 'the note is ahead' follow.c 's/BPFS_NOTE_WORD, &follower->number, 1/BPFS_NOTE_WORD, \&(uint64_t){follower->number + 1}, 1/' follow_test "$folder" 100 1
plant 'an answer in parts ends the stream' stream.c 's/^        if (n == 0) return any .*/        if (n >= 0 \&\& n < 8) return errno = EPIPE, -1;/' stream_test
plant 'any answer is taken' stream.c 's/^    if (number < stream->heard .*//' stream_test
plant 'a resumed follower syncs nothing' follow.c 's/fsync(fd) || fstat/fstat/' stream_test
plant 'a complete copy is deleted' follower.c 's/^    if (code || !is_copying) return code;//; s/^    int code = take_name_if_complete();/    int code = 0;/' follower_test "$folder"
plant 'no folder is synced' file.c 's/    int fd = open(folder, O_RDONLY | O_DIRECTORY | O_CLOEXEC);/    return 0;\n&/' follower_restart_test 400 1
plant 'a follower answers before it settles' follower.c 's/^    if (bpfs_follower_settle(&follower)) return.*//' follower_restart_test 400 1
echo "$found faults planted, all found"
