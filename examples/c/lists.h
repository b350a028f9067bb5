/*
 * Requests and records as bytes. A section is a count in one byte and so many entries; a record is a section of zones, then one of windows.
 */
#ifndef LISTS_H
#define LISTS_H

#include <limits.h>
#include <stddef.h>
#include <stdint.h>
#include <string.h>

#define DAY UINT64_C(86400000000)
#define HOUR UINT64_C(3600000000)
#define MINUTE UINT64_C(60000000)
#define SECOND UINT64_C(1000000)

/* Each function writes at a place and answers the place behind what it wrote. */

/* So many bytes of a number, little endian. */
static inline size_t put(uint8_t *to, size_t at, uint64_t value, size_t bytes)
{
    for (size_t i = 0; i < bytes; i++)
        to[at + i] = (uint8_t)(value >> (CHAR_BIT * i));
    return at + bytes;
}

/* A zone; without a name where name is NULL. */
static inline size_t put_zone(uint8_t *to, size_t at, int32_t offset, uint64_t start, const char *name)
{
    at = put(to, at, (uint32_t)offset, sizeof offset);
    at = put(to, at, start, sizeof start);
    to[at++] = name != NULL;
    if (name != NULL) {
        size_t length = strlen(name);
        to[at++] = (uint8_t)length;
        memcpy(to + at, name, length);
        at += length;
    }
    return at;
}

/* A window; without an end where end is 0. */
static inline size_t put_window(uint8_t *to, size_t at, int32_t offset, uint64_t start, uint64_t end)
{
    at = put(to, at, (uint32_t)offset, sizeof offset);
    at = put(to, at, start, sizeof start);
    to[at++] = end != 0;
    return end != 0 ? put(to, at, end, sizeof end) : at;
}

#endif
