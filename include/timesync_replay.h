/*
 * timesync_replay.h: a whole history of calls on a new list store, for differential runs. Link with libreplay.a; firmware does not carry it.
 *
 * What timesync.h says of arguments, results, numbers and records holds here too. No image is needed, and nothing is kept between two calls.
 */
#ifndef TIMESYNC_REPLAY_H
#define TIMESYNC_REPLAY_H

#include <stddef.h>
#include <stdint.h>

#ifdef __cplusplus
extern "C" {
#endif

/*
 * Makes a list store of these limits, runs the calls of a history on it, walks from the moment start and looks up what holds at the moment
 * at. A history is calls one after the other: a kind (0 SetTimeZone, 1 SetDSTOffset, 2 load, 3 load without a record, 4 factory reset), and
 * for the first three a length in 4 bytes, little endian, and so many bytes. A call that the store refuses is part of the history, and no
 * refusal of this function.
 *   the walk    moments and *steps, as with timesync_walk
 *   at `at`     the active zone: *zone is its offset, *named whether it has a name, *name_used the name's length, and the name stands at the
 *               front of name; *active whether a window is active, and *window the offset of the first that is, or 0; *usable whether one is
 *               usable; *has_next whether there is a transition after at, and *next its moment, or 0
 *   the lists   out and *used, as with timesync_record, and the generation
 * Refuses, in this order, with 8 (limits), 1 (bytes that are not a history) and 9 (moments, name or out is too short). On a refusal
 * nothing is written.
 */
uint64_t timesync_replay(size_t zone_limit, size_t window_limit, const uint8_t *history, size_t history_len, uint64_t start, uint64_t at,
                         uint8_t *moments, size_t moments_len, uint64_t *steps, uint8_t *name, size_t name_len, int32_t *zone,
                         uint64_t *named, uint64_t *name_used, uint64_t *active, int32_t *window, uint64_t *usable, uint64_t *has_next,
                         uint64_t *next, uint8_t *out, size_t out_len, uint64_t *used, uint64_t *generation);

#ifdef __cplusplus
}
#endif

#endif
