/*
 * The board that controller.c runs on: flash is a struct, and messages and times are printed lines. Firmware has its own.
 */
#ifndef BOARD_H
#define BOARD_H

#include <inttypes.h>
#include <stdio.h>

#include "lists.h"
#include "timesync.h"

/* What flash holds, each where it is there. */
struct flash {
    struct {
        uint8_t there;
        uint64_t utc_us;
    } moment;
    struct {
        uint8_t there, fab_idx;
        uint64_t node_id;
        uint16_t endpoint;
    } source;
    struct {
        uint8_t there, bytes[TIMESYNC_RECORD_MAX];
        uint64_t len;
    } record;
};

/* Stores what a call was given or has copied out, or removes it from flash. */
static inline void write_flash(struct flash *flash, const struct flash *given, unsigned code)
{
    switch (code) {
    case TIMESYNC_STORE_RECORD:
        flash->record = given->record;
        puts("  store the record");
        break;
    case TIMESYNC_REMOVE_RECORD:
        flash->record.there = 0;
        puts("  remove the record");
        break;
    case TIMESYNC_STORE_MOMENT:
        flash->moment = given->moment;
        puts("  store the moment");
        break;
    case TIMESYNC_REMOVE_MOMENT:
        flash->moment.there = 0;
        puts("  remove the moment");
        break;
    case TIMESYNC_STORE_SOURCE:
        flash->source = given->source;
        puts("  store the source");
        break;
    case TIMESYNC_REMOVE_SOURCE:
        flash->source.there = 0;
        puts("  remove the source");
        break;
    }
}

/* What a look writes: what its events carry, and how long the timer sleeps. */
struct look {
    uint8_t name[TIMESYNC_NAME_MAX];
    int32_t offset;
    uint64_t named, name_len, dst_active, sleep, sleep_us;
};

/* Reports an attribute by Matter's number. */
static inline void report(unsigned attribute)
{
    static const char *const names[] = {"UTCTime", "Granularity", "TimeSource", "TrustedTimeSource", "DefaultNTP", "TimeZone", "DSTOffset"};
    printf("  report attribute %u, %s\n", attribute, names[attribute]);
}

/* Emits an event by Matter's number, with what it carries. */
static inline void emit(unsigned event, const struct look *look)
{
    static const char *const names[] = {"DSTTableEmpty", "DSTStatus", "TimeZoneStatus", "TimeFailure", "MissingTrustedTimeSource"};
    printf("  emit event %u, %s", event, names[event]);
    if (event == TIMESYNC_EVENT_TIME_ZONE_STATUS)
        printf(": offset %" PRId32 ", name %.*s", look->offset, (int)look->name_len, (const char *)look->name);
    if (event == TIMESYNC_EVENT_DST_STATUS)
        printf(": %s", look->dst_active ? "active" : "not active");
    puts("");
}

/* Prints a moment, whose days are those since 2000-01-01, or how long something takes. */
static inline void say(const char *what, uint64_t us, const char *more)
{
    printf("  %s %" PRIu64 " d %02" PRIu64 ":%02" PRIu64 ":%02" PRIu64 ".%06" PRIu64 "%s\n", what, us / DAY, us % DAY / HOUR,
           us % HOUR / MINUTE, us % MINUTE / SECOND, us % SECOND, more);
}

#endif
