/*
 * timesync.h: clock, time-zone lists, transition timer and time client of a Matter controller.
 *
 * Link with libcontroller.a, built for x86-64 Linux and the System V calling convention. It needs memcpy and memset from elsewhere. A call
 * that writes a record takes at most 2560 bytes of stack, any other at most 768; docs/PERFORMANCE.md has the figure of each.
 * examples/c/controller.c is a program to copy from.
 *
 * The idea. All state is one image: TIMESYNC_IMAGE_SIZE bytes of RAM that the caller lends to every call. Nothing is allocated, and nothing
 * is kept between two calls. A call takes numbers and bytes, and returns an answer and effects. It does not wait, send or store: the caller
 * carries the effects out.
 *
 * Boot, in this order. Where flash holds no moment, no trusted time source or no record, has_moment, has_source or there is 0. Where there
 * is no source to ask, answered is 0.
 *
 *     timesync_new(image, image_len, 1, 2, 2, build, period);
 *     timesync_load_clock(image, image_len, build, has_moment, moment, has_source, fab_idx, node_id, endpoint);
 *     timesync_load_lists(image, image_len, there, stored, stored_len);
 *     timesync_look(image, image_len, tick, ...);
 *     timesync_attempt(image, image_len, answered, ...);
 *
 *   A refused load changes nothing. The clock's is refused only for its source: load it again with has_source 0, so that the moment is not
 *   lost. Refused lists stay empty. Tell the administrator, who can send the source or the lists again.
 *
 * After each call carry out its effects in order, also where it was refused; there are at most four. Call timesync_look after
 * TIMESYNC_REPORT_UTC_TIME too: of the calls that set the clock only SetUTCTime wakes the timer.
 *
 * Arguments
 *   - A buffer is a pointer and a length, at any address. Of length 0, nothing of it is read or written. No pointer may be NULL.
 *   - What a call writes must not overlap anything else that it is given. The functions cannot notice it.
 *   - Two calls on one image must not run at the same time, unless both take it as const.
 *   - A mark (has_..., named, there, list_store, answered) is 0 for absent, else present. What belongs to an absent one is not looked at.
 *   - Moments are microseconds since the Matter epoch, 2000-01-01 UTC. Ticks are microseconds of the caller's monotonic counter, from any
 *     zero; a tick before that of the last setting counts as no time elapsed.
 *
 * Results
 *   - A reading returns 0 or the number of a refusal. Any other call has that number in the lowest byte, and its effects above it.
 *   - A call that is taken writes all its outputs. A value that can be missing has a mark beside it, 0 or 1, and is 0 where it is missing.
 *     What is copied stands at the front of its buffer, and the bytes past it stay.
 *   - A refusal leaves the image and all outputs as they were; SetDSTOffset refused with 2 or 3 is the one exception. Refusals are listed
 *     in the order of their tests.
 *   - An image is a buffer of at least TIMESYNC_IMAGE_SIZE bytes that begins with the magic, which timesync_new writes. Bytes past it stay.
 *     docs/IMAGE.md has the layout, and says how damaged bytes are read.
 *
 * Requests and records; numbers are little endian, offsets are seconds in two's complement
 *   zone     offset, 4 bytes; start, 8 bytes; 0 for no name, or 1, its length in one byte and its bytes, which are well-formed UTF-8
 *   window   offset, 4 bytes; start, 8 bytes; 0 for no end, or 1 and the end, 8 bytes
 *   section  a count in one byte, so many zones or windows, and nothing else; a request is one section
 *   record   a section of zones, then one of windows
 *
 *   Zones are accepted, up to the zone limit, where the first starts at 0, each other after the one before it, each offset lies from -43200
 *   to 50400 and no name is longer than 64 bytes. Windows are accepted, up to the window limit, where each starts before its own end, after
 *   the start before it and not before the end before it, and only the last may have no end.
 */
#ifndef TIMESYNC_H
#define TIMESYNC_H

#include <stddef.h>
#include <stdint.h>

#ifdef __cplusplus
extern "C" {
#endif

/* ---- Sizes in bytes; a buffer of so many is always long enough ---- */

#define TIMESYNC_IMAGE_SIZE 1136
#define TIMESYNC_NAME_MAX 64     /* the longest name of a zone */
#define TIMESYNC_RECORD_MAX 962  /* the longest record */
#define TIMESYNC_MOMENTS_MAX 328 /* the longest walk: 41 moments of 8 bytes on a damaged image; over accepted lists at most 40 */

/* ---- The largest limits, in entries ---- */

#define TIMESYNC_ZONES_MAX 8
#define TIMESYNC_WINDOWS_MAX 16

/* ---- Answers ---- */

#define TIMESYNC_OK 0                  /* the call was taken */
#define TIMESYNC_UNREADABLE 1          /* a request that cannot be read, or a number out of range */
#define TIMESYNC_CONSTRAINT_ERROR 2    /* an entry breaks a rule, or an index is past the list */
#define TIMESYNC_RESOURCE_EXHAUSTED 3  /* more entries than the limit */
#define TIMESYNC_INVALID_COMMAND 4     /* fabric index 0 */
#define TIMESYNC_COMMAND_NOT_FOUND 5   /* a command on the lists, without a list store */
#define TIMESYNC_ATTRIBUTE_NOT_FOUND 6 /* a reading of the lists, without a list store */
#define TIMESYNC_BAD_RECORD 7          /* a load of what cannot be read or taken here */
#define TIMESYNC_BAD_LIMITS 8          /* limits that are not allowed, or a buffer that is no image, a zeroed one for instance */
#define TIMESYNC_NO_SPACE 9            /* an output buffer is too short */

/* the answer, of what a call returned */
#define TIMESYNC_ANSWER(returned) ((unsigned)((uint64_t)(returned) & 0xFFu))

/* the effect with index i (0 to 6), of what a call returned; 0 where there is none */
#define TIMESYNC_EFFECT(returned, i) ((unsigned)(((uint64_t)(returned) >> (8u * ((unsigned)(i) + 1u))) & 0xFFu))

/* ---- Effects ---- */

#define TIMESYNC_REPORT 0x10u /* and the attribute's number: report that it changed */
#define TIMESYNC_EMIT 0x20u   /* and the event's number: emit it */

#define TIMESYNC_REPORT_UTC_TIME 0x10u
#define TIMESYNC_REPORT_GRANULARITY 0x11u
#define TIMESYNC_REPORT_TIME_SOURCE 0x12u
#define TIMESYNC_REPORT_TRUSTED_TIME_SOURCE 0x13u
#define TIMESYNC_REPORT_TIME_ZONE 0x15u
#define TIMESYNC_REPORT_DST_OFFSET 0x16u
#define TIMESYNC_EMIT_DST_TABLE_EMPTY 0x20u
#define TIMESYNC_EMIT_DST_STATUS 0x21u
#define TIMESYNC_EMIT_TIME_ZONE_STATUS 0x22u
#define TIMESYNC_EMIT_TIME_FAILURE 0x23u
#define TIMESYNC_EMIT_MISSING_TRUSTED_TIME_SOURCE 0x24u
#define TIMESYNC_WAKE_TIMER 0x30u   /* call timesync_look */
#define TIMESYNC_WAKE_CLIENT 0x31u  /* call timesync_source_changed */
#define TIMESYNC_STORE_RECORD 0x40u /* the one that was copied into out */
#define TIMESYNC_REMOVE_RECORD 0x41u
#define TIMESYNC_STORE_MOMENT 0x42u /* the one that the call was given */
#define TIMESYNC_REMOVE_MOMENT 0x43u
#define TIMESYNC_STORE_SOURCE 0x44u /* the one that the call was given, with its fabric index */
#define TIMESYNC_REMOVE_SOURCE 0x45u

/* ---- Matter's numbers ---- */

/* attributes that are reported */
#define TIMESYNC_ATTRIBUTE_UTC_TIME 0
#define TIMESYNC_ATTRIBUTE_GRANULARITY 1
#define TIMESYNC_ATTRIBUTE_TIME_SOURCE 2
#define TIMESYNC_ATTRIBUTE_TRUSTED_TIME_SOURCE 3
#define TIMESYNC_ATTRIBUTE_TIME_ZONE 5
#define TIMESYNC_ATTRIBUTE_DST_OFFSET 6

/* events */
#define TIMESYNC_EVENT_DST_TABLE_EMPTY 0
#define TIMESYNC_EVENT_DST_STATUS 1
#define TIMESYNC_EVENT_TIME_ZONE_STATUS 2
#define TIMESYNC_EVENT_TIME_FAILURE 3
#define TIMESYNC_EVENT_MISSING_TRUSTED_TIME_SOURCE 4

/* granularities */
#define TIMESYNC_GRANULARITY_NO_TIME 0
#define TIMESYNC_GRANULARITY_MINUTES 1
#define TIMESYNC_GRANULARITY_SECONDS 2
#define TIMESYNC_GRANULARITY_MILLISECONDS 3
#define TIMESYNC_GRANULARITY_MICROSECONDS 4

/* time sources */
#define TIMESYNC_SOURCE_NONE 0
#define TIMESYNC_SOURCE_UNKNOWN 1
#define TIMESYNC_SOURCE_ADMIN 2
#define TIMESYNC_SOURCE_NODE_TIME_CLUSTER 3
#define TIMESYNC_SOURCE_NON_MATTER_SNTP 4
#define TIMESYNC_SOURCE_NON_MATTER_NTP 5
#define TIMESYNC_SOURCE_MATTER_SNTP 6
#define TIMESYNC_SOURCE_MATTER_NTP 7
#define TIMESYNC_SOURCE_MIXED_NTP 8
#define TIMESYNC_SOURCE_NON_MATTER_SNTP_NTS 9
#define TIMESYNC_SOURCE_NON_MATTER_NTP_NTS 10
#define TIMESYNC_SOURCE_MATTER_SNTP_NTS 11
#define TIMESYNC_SOURCE_MATTER_NTP_NTS 12
#define TIMESYNC_SOURCE_MIXED_NTP_NTS 13
#define TIMESYNC_SOURCE_CLOUD_SOURCE 14
#define TIMESYNC_SOURCE_PTP 15
#define TIMESYNC_SOURCE_GNSS 16

/* TimeZoneDatabase: there is none */
#define TIMESYNC_DATABASE_NONE 2

/* ---- Sleeps of the timer and waits of the client ---- */

#define TIMESYNC_SLEEP_NEVER 0       /* without a list store: there is nothing to look at, ever */
#define TIMESYNC_SLEEP_UNTIL_WOKEN 1 /* until an effect wakes the timer */
#define TIMESYNC_SLEEP_AT_MOST 2     /* so many microseconds, or until an effect wakes the timer */

#define TIMESYNC_WAIT_ATTEMPT_NOW 0 /* make an attempt at once */
#define TIMESYNC_WAIT_FOR 1         /* make one after so many microseconds; an effect that wakes the client ends the wait */
#define TIMESYNC_WAIT_FOR_SOURCE 2  /* make none until an effect wakes the client */

/* ======== Boot ======== */

/* TIMESYNC_IMAGE_SIZE. */
uint64_t timesync_image_size(void);

/*
 * Makes an image in a buffer of any bytes. Where list_store is not 0 it has a list store of these limits, 1 to 8 zones and 1 to 16 windows;
 * else none, and the limits are not looked at. The lists are empty, the generation is 0, the clock is not set and its last known moment is
 * build (when the firmware was built), there is no trusted time source, and the client has this period, in microseconds, and is to attempt
 * at once. Nothing past the image is written. No effects.
 * Refuses: 8 (limits, or a buffer too short).
 */
uint64_t timesync_new(uint8_t *image, size_t image_len, uint8_t list_store, size_t zone_limit, size_t window_limit, uint64_t build,
                      uint64_t period);

/*
 * Loads the moment and the trusted time source, each where its mark is not 0. The clock is then not set, and its last known moment is the
 * stored one but not below build. No effects.
 * Refuses: 8, 7 (a source with fabric index 0).
 */
uint64_t timesync_load_clock(uint8_t *image, size_t image_len, uint64_t build, uint8_t has_moment, uint64_t moment, uint8_t has_source,
                             uint8_t fab_idx, uint64_t node_id, uint16_t endpoint);

/*
 * Loads both lists from the record; without a record or without a list store it is taken and does nothing. No change is counted. No
 * effects: the timer is not woken.
 * Refuses: 8, 7 (a record that cannot be read, one of no bytes too, or that the commands would refuse).
 */
uint64_t timesync_load_lists(uint8_t *image, size_t image_len, uint8_t there, const uint8_t *stored, size_t stored_len);

/* ======== Commands ======== */

/*
 * SetTrustedTimeSource, sent by the fabric fab_idx: the source is this node and endpoint where named is not 0, else there is none.
 * Effects: where it is different report TrustedTimeSource, emit MissingTrustedTimeSource if it was cleared, store or remove the source;
 * then always wake the client.
 * Refuses: 4 (fabric index 0, whatever the image is), 8.
 */
uint64_t timesync_set_trusted_time_source(uint8_t *image, size_t image_len, uint8_t fab_idx, uint8_t named, uint64_t node_id,
                                          uint16_t endpoint);

/*
 * SetUTCTime: sets the clock at a tick, with source Admin and with granularity one step lower, but not below Minutes. The request's own
 * source is tested and ignored. The moment is not stored.
 * The clock counts on from the tick, also where it is set to what it was set to before.
 * Effects: report UTCTime, Granularity, TimeSource; then, with a list store, wake the timer.
 * Refuses: 8, 1 (granularity above 4, or a source that is there and above 16).
 */
uint64_t timesync_set_utc_time(uint8_t *image, size_t image_len, uint64_t utc_us, uint8_t granularity, uint8_t has_source, uint8_t source,
                               uint64_t tick);

/*
 * SetTimeZone with a section of zones. Accepted, it replaces the zones, empties the windows and counts a change; the record to store is
 * copied into out, its length is *used, and the response's DSTOffsetRequired is true.
 * Effects if accepted: wake the timer, store the record, report TimeZone, report DSTOffset.
 * Refuses: 8, 5, 1 (no such section), entry by entry 3 (the entry past the limit) and 2, then 9.
 */
uint64_t timesync_set_time_zone(uint8_t *image, size_t image_len, const uint8_t *request, size_t request_len, uint8_t *out,
                                size_t out_len, uint64_t *used);

/*
 * SetDSTOffset with a section of windows. Accepted, it replaces the windows and counts a change; out and *used as above.
 * Effects if accepted: wake the timer, store the record, report DSTOffset.
 * Refuses: 8, 5, 1 (no such section), entry by entry 3 and 2, then 9.
 * After 2 and 3 the windows in the image are empty, a change is counted and the one effect is to wake the timer. All else stays, the record
 * in flash too: a later load brings the old windows back.
 */
uint64_t timesync_set_dst_offset(uint8_t *image, size_t image_len, const uint8_t *request, size_t request_len, uint8_t *out,
                                 size_t out_len, uint64_t *used);

/* ======== Factory reset ======== */

/*
 * Empties both lists and counts a change, even where they were empty. Effects: remove the record, wake the timer. Without a list store
 * nothing happens, with no effects. Refuses: 8.
 */
uint64_t timesync_reset_lists(uint8_t *image, size_t image_len);

/*
 * Makes the clock as new, at build and with no trusted time source. Effects: remove the moment, remove the source. Neither the timer nor
 * the client is woken. Refuses: 8.
 */
uint64_t timesync_reset_clock(uint8_t *image, size_t image_len, uint64_t build);

/* ======== The clock's own settings ======== */

/*
 * Sets the clock as timesync_set_utc_time does, but with this source and without waking the timer. *changed is 1 where moment, lowered
 * granularity or source are not those of the last setting, else 0; the moment that the clock reads by now does not count.
 * Effects, changed or not: report UTCTime, Granularity, TimeSource.
 * Refuses: 8, 1 (granularity above 4, or source above 16).
 */
uint64_t timesync_rtc_set_utc_time(uint8_t *image, size_t image_len, uint64_t utc_us, uint8_t granularity, uint8_t source, uint64_t tick,
                                   uint64_t *changed);

/* The same, with one effect more at the end, changed or not: store the moment utc_us where it is a day or more from the persisted one. */
uint64_t timesync_rtc_set_utc_time_persist(uint8_t *image, size_t image_len, uint64_t utc_us, uint8_t granularity, uint8_t source,
                                           uint64_t tick, uint64_t *changed);

/* ======== The timer ======== */

/*
 * A look at a tick. It compares what it sees with what the last look saw, and says which events are due and how long to sleep: *sleep is a
 * TIMESYNC_SLEEP_..., and *sleep_us the time of TIMESYNC_SLEEP_AT_MOST, else 0. Look again then, and whenever the timer is woken.
 * Effects, each where due: emit TimeZoneStatus, which carries *offset, *named, *name_len and the front of name; emit DSTStatus, which
 * carries *dst_active; emit DSTTableEmpty. Of an event that is not due these are 0, and name stays.
 * Without a list store the sleep is TIMESYNC_SLEEP_NEVER, else on a clock that is not set TIMESYNC_SLEEP_UNTIL_WOKEN. No event is then due,
 * and what the last look saw stays.
 * Refuses: 8, 9 (a name is to be emitted and name is too short): the timer has then not looked.
 */
uint64_t timesync_look(uint8_t *image, size_t image_len, uint64_t tick, uint8_t *name, size_t name_room, int32_t *offset, uint64_t *named,
                       uint64_t *name_len, uint64_t *dst_active, uint64_t *sleep, uint64_t *sleep_us);

/* ======== The client ======== */

/*
 * An attempt to get the time from the trusted time source, made at a tick once the exchange is over. answered is 0 where it failed; else it
 * brought a moment and a granularity, each where its mark is not 0. A missing granularity and one above 4 count as Seconds, Microseconds as
 * Milliseconds. A missing moment and NoTime bring no time. The clock's source is asked for now, not when the exchange was opened: without
 * one, what was brought is not looked at.
 * Effects of a time: those of timesync_rtc_set_utc_time_persist, which sets it with source NodeTimeCluster. Effects without one: emit
 * MissingTrustedTimeSource (no source, or a failed exchange), emit TimeFailure, each at most once in 3600 s of ticks. The timer is not
 * woken.
 * *wait is TIMESYNC_WAIT_FOR and *wait_us the time, or without a source TIMESYNC_WAIT_FOR_SOURCE and 0.
 * Refuses: 8.
 */
uint64_t timesync_attempt(uint8_t *image, size_t image_len, uint8_t answered, uint8_t has_utc, uint64_t utc_us, uint8_t has_granularity,
                          uint8_t granularity, uint64_t tick, uint64_t *wait, uint64_t *wait_us);

/*
 * The trusted time source was set or cleared: the retries start over. *wait is TIMESYNC_WAIT_ATTEMPT_NOW where there is a source, else
 * TIMESYNC_WAIT_FOR_SOURCE, and *wait_us is 0. Call it after each TIMESYNC_WAKE_CLIENT; during an exchange, after its attempt. No effects.
 * Refuses: 8.
 */
uint64_t timesync_source_changed(uint8_t *image, size_t image_len, uint64_t *wait, uint64_t *wait_us);

/* ======== Readings of the clock; they refuse with 8 ======== */

/* UTCTime at a tick: *reliable is 1 and *utc_us the moment; or null, where the clock is not set: 0 and the last known moment. */
uint64_t timesync_utc_time(const uint8_t *image, size_t image_len, uint64_t tick, uint64_t *reliable, uint64_t *utc_us);

/* Granularity; NoTime until the clock is set. */
uint64_t timesync_utc_time_granularity(const uint8_t *image, size_t image_len, uint64_t *value);

/* TimeSource; None until the clock is set. */
uint64_t timesync_utc_time_source(const uint8_t *image, size_t image_len, uint64_t *value);

/* TrustedTimeSource: *there is 1 and the source follows, or all four are 0. */
uint64_t timesync_trusted_time_source(const uint8_t *image, size_t image_len, uint64_t *there, uint64_t *fab_idx, uint64_t *node_id,
                                      uint64_t *endpoint);

/*
 * LocalTime at a tick: *there is 1 and *local_us is UTC plus the offsets of the zone and of the active window, held between 0 and the
 * largest 64-bit number. Between windows it is UTC plus the zone's offset. It is null, and both are 0, where the clock is not set or no
 * window is usable.
 * Refuses: 8, 6 (on a set clock; on one that is not set it is null).
 */
uint64_t timesync_local_time(const uint8_t *image, size_t image_len, uint64_t tick, uint64_t *there, uint64_t *local_us);

/* ======== Readings of the lists; they refuse with 8, 6 and then as said ======== */

/* TimeZone: how many zones are listed. An empty list shows one, so it is never 0. */
uint64_t timesync_time_zone_count(const uint8_t *image, size_t image_len, uint64_t *value);

/* DSTOffset: how many windows there are, run out or not. */
uint64_t timesync_dst_offset_count(const uint8_t *image, size_t image_len, uint64_t *value);

/* TimeZoneListMaxSize: the zone limit. */
uint64_t timesync_time_zone_list_max_size(const uint8_t *image, size_t image_len, uint64_t *value);

/* DSTOffsetListMaxSize: the window limit. */
uint64_t timesync_dst_offset_list_max_size(const uint8_t *image, size_t image_len, uint64_t *value);

/* TimeZoneDatabase: TIMESYNC_DATABASE_NONE. */
uint64_t timesync_time_zone_database(const uint8_t *image, size_t image_len, uint64_t *value);

/* How many changes of the lists were counted, in 32 bits; after the largest it starts over. */
uint64_t timesync_generation(const uint8_t *image, size_t image_len, uint64_t *value);

/* 1 where some window has no end or ends after the moment utc, started or not; else 0. */
uint64_t timesync_dst_usable(const uint8_t *image, size_t image_len, uint64_t utc, uint64_t *value);

/* 1 where there is no window at all, else 0. */
uint64_t timesync_dst_table_empty(const uint8_t *image, size_t image_len, uint64_t *value);

/*
 * TimeZone: the listed zone with this index; an empty list shows offset 0, start 0, no name. *named is 1 where it has a name, which can
 * have no bytes: it is copied into name, with no 0 behind it, and *name_len is its length. Refuses: 2 (no such zone), 9.
 */
uint64_t timesync_time_zone(const uint8_t *image, size_t image_len, size_t index, uint8_t *name, size_t name_room, int32_t *offset,
                            uint64_t *valid_at, uint64_t *named, uint64_t *name_len);

/* DSTOffset: the window with this index. *closed is 1 and *valid_until its end, or both are 0. Refuses: 2 (no such window). */
uint64_t timesync_dst_offset(const uint8_t *image, size_t image_len, size_t index, int32_t *offset, uint64_t *valid_starting,
                             uint64_t *closed, uint64_t *valid_until);

/* The zone that is active at the moment utc, the last that has started; without one offset 0, no name. The name as above. Refuses: 9. */
uint64_t timesync_active_time_zone(const uint8_t *image, size_t image_len, uint64_t utc, uint8_t *name, size_t name_room, int32_t *offset,
                                   uint64_t *named, uint64_t *name_len);

/* The offset of the window that is active at the moment utc: *there is 1 and *offset says it, or both are 0. */
uint64_t timesync_active_dst_offset(const uint8_t *image, size_t image_len, uint64_t utc, uint64_t *there, int32_t *offset);

/* The next transition, the smallest start or end after the moment utc: *there is 1 and *moment says it, or both are 0. */
uint64_t timesync_next_transition(const uint8_t *image, size_t image_len, uint64_t utc, uint64_t *there, uint64_t *moment);

/*
 * Walks from the moment start to the next transition until there is none. *steps + 1 moments are copied into moments, start first and
 * ascending, 8 bytes each, little endian. Over accepted lists there are at most zone limit + 2 * window limit - 1 steps. Refuses: 9.
 */
uint64_t timesync_walk(const uint8_t *image, size_t image_len, uint64_t start, uint8_t *moments, size_t moments_room, uint64_t *steps);

/* The record of both lists in out, and its length in *used. Refuses: 9. */
uint64_t timesync_record(const uint8_t *image, size_t image_len, uint8_t *out, size_t out_len, uint64_t *used);

#ifdef __cplusplus
}
#endif

#endif
