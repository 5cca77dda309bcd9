#define _GNU_SOURCE
#include "volume.h"
#include "times.h"
#include <errno.h>
#include <stdarg.h>
#include <stdio.h>
#include <string.h>
#include <syslog.h>

struct volume volume;

void report(const char *format, ...) {
    va_list values;
    va_start(values, format);
    if (volume.daemon) {
        vsyslog(LOG_DAEMON | LOG_ERR, format, values);
    } else {
        fputs("bpfs_fuse: ", stderr);
        vfprintf(stderr, format, values);
        fputc('\n', stderr);
    }
    va_end(values);
}

struct timespec volume_now(void) {
    struct timespec it;
    clock_gettime(CLOCK_MONOTONIC, &it);
    return it;
}

static struct timespec after_delay(struct timespec it) {
    long nanoseconds = it.tv_nsec + VOLUME_DELAY % 1000 * 1000000L;
    return (struct timespec){it.tv_sec + VOLUME_DELAY / 1000 + nanoseconds / 1000000000,
                             nanoseconds % 1000000000};
}

/* Whether a carrier can never go on. */
static bool is_lost(void) {
    for (size_t i = 0; i < volume.carrier_count; i++)
        if (volume.carriers[i]->error) return true;
    return false;
}

/* A failure that is not for good (no memory, a full disk) is tried again after the delay, and
 * reported once. */
static int carry_failed(int why) {
    volume.failed = is_lost();
    if (volume.failed)
        report("calls can't be saved, and changes are refused from now on: %s", strerror(why));
    else if (!volume.reported) report("calls can't be saved now: %s", strerror(why));
    volume.reported = true;
    volume.waits = !volume.failed;
    volume.due = after_delay(volume_now());
    return -1;
}

static int carry_log(void) {
    if (volume.failed) return -1;
    /* A read-only mount has no carriers, and no events. */
    if (volume.carrier_count && bpfs_carry_all(&volume.fs, volume.carriers, volume.carrier_count))
        return carry_failed(errno);
    volume.waits = volume.reported = false;
    return 0;
}

int volume_carry(void) {
    if (!volume.failed) times_store();
    return carry_log();
}

bool volume_has_room(void) {
    if (volume.failed) return false;
    return bpfs_event_count(&volume.fs) <= BPFS_LOG_ROOM || carry_log() == 0;
}

void volume_served(struct timespec began) {
    if (volume.waits || volume.failed || !(bpfs_event_count(&volume.fs) || times_wait())) return;
    volume.waits = true;
    volume.due = after_delay(began);
}

int volume_wait(void) {
    if (!volume.waits) return -1;
    struct timespec now = volume_now();
    long long left = (volume.due.tv_sec - now.tv_sec) * 1000LL +
                     (volume.due.tv_nsec - now.tv_nsec + 999999) / 1000000;
    return left < 0 ? 0 : (int)left;
}

void volume_carry_if_due(void) {
    if (volume_wait() == 0) volume_carry();
}
