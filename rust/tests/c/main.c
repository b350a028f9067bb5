/*
 * A controller from C: makes an image, sends a list of zones and a list of windows, prints the active zone, LocalTime and the walk, and
 * calls every function of the header once. Returns 0 only where everything is as expected.
 */
#include <inttypes.h>
#include <stdio.h>
#include <string.h>

#include "lists.h"
#include "timesync.h"

static int failures = 0;

static void expect(int holds, const char *what, int line)
{
    if (!holds) {
        printf("line %d: %s\n", line, what);
        failures++;
    }
}

#define EXPECT(condition) expect((condition), #condition, __LINE__)

/* ---- what the calls are lent ---- */

static uint8_t image[TIMESYNC_IMAGE_SIZE];
#define IMAGE image, sizeof image

static uint8_t out[TIMESYNC_RECORD_MAX], stored[TIMESYNC_RECORD_MAX], moments[TIMESYNC_MOMENTS_MAX], request[512];
static uint8_t name[TIMESYNC_NAME_MAX + 1], nothing[1];
static uint64_t used, there, value, named, length, stored_length;
static int32_t offset;

static uint64_t moment_at(size_t index)
{
    uint64_t moment = 0;
    for (size_t i = 8; i-- > 0;)
        moment = moment << 8 | moments[8 * index + i];
    return moment;
}

/* the answer is the lowest byte of what a call returned, and effect i the byte above it with index i */
static void read_what_is_returned(void)
{
    const uint64_t returned = UINT64_C(0xF7E6D5C4B3A29180), all_bits = UINT64_MAX;
    const unsigned codes[] = {0x91, 0xA2, 0xB3, 0xC4, 0xD5, 0xE6, 0xF7};
    EXPECT(TIMESYNC_ANSWER(returned) == 0x80 && TIMESYNC_ANSWER(all_bits) == 0xFF);
    EXPECT(TIMESYNC_EFFECT(all_bits, 0) == 0xFF);
    for (size_t i = 0; i < 7; i++)
        EXPECT(TIMESYNC_EFFECT(returned, i) == codes[i]);
}

/* the effects of a call, in order, and no other */
static int asks_for(uint64_t returned, size_t count, const unsigned *codes)
{
    for (size_t i = 0; i < count; i++)
        if (TIMESYNC_EFFECT(returned, i) != codes[i])
            return 0;
    return TIMESYNC_EFFECT(returned, count) == 0;
}

/* ---- what a controller does, in order ---- */

static void make_image(void)
{
    EXPECT(timesync_image_size() == TIMESYNC_IMAGE_SIZE);
    /* a zeroed buffer is not an image, and one that is too short cannot become one */
    EXPECT(timesync_generation(IMAGE, &value) == TIMESYNC_BAD_LIMITS);
    EXPECT(timesync_new(image, sizeof image - 1, 1, 2, 2, 5 * DAY, 10 * MINUTE) == TIMESYNC_BAD_LIMITS);
    EXPECT(timesync_new(IMAGE, 1, 2, 3, 5 * DAY, 10 * MINUTE) == TIMESYNC_OK);
    EXPECT(timesync_generation(IMAGE, &value) == TIMESYNC_OK && value == 0);
    /* nor is one that has lost its magic */
    image[3] ^= 1;
    EXPECT(timesync_generation(IMAGE, &value) == TIMESYNC_BAD_LIMITS);
    image[3] ^= 1;
}

static void send_lists(void)
{
    request[0] = 2;
    size_t end = put_zone(request, 1, 3600, 0, "Europe/Berlin");
    end = put_zone(request, end, 7200, 30 * DAY, "Europe/Sofia");
    uint64_t returned = timesync_set_time_zone(IMAGE, request, end, out, sizeof out, &used);
    const unsigned zones_taken[] = {TIMESYNC_WAKE_TIMER, TIMESYNC_STORE_RECORD, TIMESYNC_REPORT_TIME_ZONE, TIMESYNC_REPORT_DST_OFFSET};
    EXPECT(TIMESYNC_ANSWER(returned) == TIMESYNC_OK);
    EXPECT(asks_for(returned, 4, zones_taken));
    EXPECT(used == end + 1);
    EXPECT(memcmp(out, request, end) == 0 && out[end] == 0);

    request[0] = 2;
    end = put_window(request, 1, 3600, 10 * DAY, 20 * DAY);
    end = put_window(request, end, 1800, 40 * DAY, 0);
    returned = timesync_set_dst_offset(IMAGE, request, end, out, sizeof out, &used);
    const unsigned windows_taken[] = {TIMESYNC_WAKE_TIMER, TIMESYNC_STORE_RECORD, TIMESYNC_REPORT_DST_OFFSET};
    EXPECT(TIMESYNC_ANSWER(returned) == TIMESYNC_OK);
    EXPECT(asks_for(returned, 3, windows_taken));
    memcpy(stored, out, sizeof stored);
    stored_length = used;
}

static void set_the_clock(void)
{
    EXPECT(timesync_local_time(IMAGE, 0, &there, &value) == 0 && there == 0 && value == 0);
    uint64_t returned = timesync_set_utc_time(IMAGE, 12 * DAY, TIMESYNC_GRANULARITY_MICROSECONDS, 0, 0, 1000);
    const unsigned utc_set[] = {TIMESYNC_REPORT_UTC_TIME, TIMESYNC_REPORT_GRANULARITY, TIMESYNC_REPORT_TIME_SOURCE, TIMESYNC_WAKE_TIMER};
    EXPECT(TIMESYNC_ANSWER(returned) == TIMESYNC_OK && asks_for(returned, 4, utc_set));
    EXPECT(timesync_utc_time(IMAGE, 1500, &there, &value) == 0 && there == 1 && value == 12 * DAY + 500);
    /* the same again, ten minutes later and then back at the first tick: the clock counts on from there, and is reported */
    returned = timesync_set_utc_time(IMAGE, 12 * DAY, TIMESYNC_GRANULARITY_MICROSECONDS, 0, 0, 1000 + 10 * MINUTE);
    EXPECT(TIMESYNC_ANSWER(returned) == TIMESYNC_OK && asks_for(returned, 4, utc_set));
    EXPECT(timesync_utc_time(IMAGE, 1000 + 10 * MINUTE, &there, &value) == 0 && there == 1 && value == 12 * DAY);
    returned = timesync_set_utc_time(IMAGE, 12 * DAY, TIMESYNC_GRANULARITY_MICROSECONDS, 0, 0, 1000);
    EXPECT(TIMESYNC_ANSWER(returned) == TIMESYNC_OK && asks_for(returned, 4, utc_set));
    EXPECT(timesync_utc_time(IMAGE, 1500, &there, &value) == 0 && there == 1 && value == 12 * DAY + 500);
    EXPECT(timesync_utc_time_granularity(IMAGE, &value) == 0 && value == TIMESYNC_GRANULARITY_MILLISECONDS);
    EXPECT(timesync_utc_time_source(IMAGE, &value) == 0 && value == TIMESYNC_SOURCE_ADMIN);
}

static void show_the_panel(void)
{
    uint64_t steps = 0;
    EXPECT(timesync_active_time_zone(IMAGE, 12 * DAY, name, TIMESYNC_NAME_MAX, &offset, &named, &length) == 0);
    EXPECT(offset == 3600 && named == 1 && length == 13 && memcmp(name, "Europe/Berlin", 13) == 0 && name[13] == 0);
    printf("zone %.*s\n", (int)length, (const char *)name);
    EXPECT(timesync_local_time(IMAGE, 1000, &there, &value) == 0);
    EXPECT(there == 1 && value == 12 * DAY + 2 * HOUR);
    printf("local time %" PRIu64 "\n", value);
    EXPECT(timesync_walk(IMAGE, 12 * DAY, moments, sizeof moments, &steps) == 0);
    const uint64_t walked[] = {12 * DAY, 20 * DAY, 30 * DAY, 40 * DAY};
    EXPECT(steps == 3);
    for (size_t i = 0; i <= steps && i < 4; i++) {
        EXPECT(moment_at(i) == walked[i]);
        printf("moment %" PRIu64 "\n", moment_at(i));
    }
}

static void read_the_lists(void)
{
    uint64_t closed = 0, until = 0;
    EXPECT(timesync_time_zone(IMAGE, 1, name, TIMESYNC_NAME_MAX, &offset, &value, &named, &length) == 0);
    EXPECT(offset == 7200 && value == 30 * DAY && named == 1 && length == 12);
    EXPECT(timesync_time_zone(IMAGE, 1, name, 11, &offset, &value, &named, &length) == TIMESYNC_NO_SPACE);
    EXPECT(timesync_time_zone(IMAGE, 2, nothing, 0, &offset, &value, &named, &length) == TIMESYNC_CONSTRAINT_ERROR);
    EXPECT(timesync_dst_offset(IMAGE, 1, &offset, &value, &closed, &until) == 0);
    EXPECT(offset == 1800 && value == 40 * DAY && closed == 0 && until == 0);
    EXPECT(timesync_dst_offset(IMAGE, 0, &offset, &value, &closed, &until) == 0);
    EXPECT(offset == 3600 && value == 10 * DAY && closed == 1 && until == 20 * DAY);
    EXPECT(timesync_active_dst_offset(IMAGE, 40 * DAY, &there, &offset) == 0 && there == 1 && offset == 1800);
    EXPECT(timesync_next_transition(IMAGE, 40 * DAY, &there, &value) == 0 && there == 0 && value == 0);
    EXPECT(timesync_time_zone_count(IMAGE, &value) == 0 && value == 2);
    EXPECT(timesync_dst_offset_count(IMAGE, &value) == 0 && value == 2);
    EXPECT(timesync_time_zone_list_max_size(IMAGE, &value) == 0 && value == 2);
    EXPECT(timesync_dst_offset_list_max_size(IMAGE, &value) == 0 && value == 3);
    EXPECT(timesync_time_zone_database(IMAGE, &value) == 0 && value == TIMESYNC_DATABASE_NONE);
    EXPECT(timesync_generation(IMAGE, &value) == 0 && value == 2);
    EXPECT(timesync_dst_usable(IMAGE, 50 * DAY, &value) == 0 && value == 1);
    EXPECT(timesync_dst_table_empty(IMAGE, &value) == 0 && value == 0);
    EXPECT(timesync_record(IMAGE, out, sizeof out, &used) == 0 && used == stored_length);
    EXPECT(memcmp(out, stored, stored_length) == 0);
}

/* an active window at the first look, and 8 days until it ends */
static void look(void)
{
    uint64_t active = 0, sleep = 0, sleep_us = 0;
    const unsigned due[] = {TIMESYNC_EMIT_DST_STATUS};
    uint64_t returned = timesync_look(IMAGE, 1000, name, sizeof name, &offset, &named, &length, &active, &sleep, &sleep_us);
    EXPECT(TIMESYNC_ANSWER(returned) == 0 && asks_for(returned, 1, due));
    EXPECT(active == 1 && named == 0 && length == 0 && offset == 0);
    EXPECT(sleep == TIMESYNC_SLEEP_AT_MOST && sleep_us == 8 * DAY + 100000);
}

/* a request that breaks a rule empties the windows and wakes the timer; the record brings them back */
static void refused_windows(void)
{
    request[0] = 1;
    size_t end = put_window(request, 1, 0, 5, 5);
    used = 77;
    uint64_t returned = timesync_set_dst_offset(IMAGE, request, end, out, sizeof out, &used);
    EXPECT(TIMESYNC_ANSWER(returned) == TIMESYNC_CONSTRAINT_ERROR && TIMESYNC_EFFECT(returned, 0) == TIMESYNC_WAKE_TIMER && used == 77);
    EXPECT(timesync_dst_table_empty(IMAGE, &value) == 0 && value == 1);
    EXPECT(timesync_load_lists(IMAGE, 1, stored, stored_length) == 0);
    EXPECT(timesync_dst_table_empty(IMAGE, &value) == 0 && value == 0);
    EXPECT(timesync_load_lists(IMAGE, 1, nothing, 0) == TIMESYNC_BAD_RECORD);
}

static void ask_another_node(void)
{
    uint64_t wait = 9, wait_us = 9, fabric = 0, node = 0, endpoint = 0;
    EXPECT(TIMESYNC_ANSWER(timesync_set_trusted_time_source(IMAGE, 0, 1, 7, 8)) == TIMESYNC_INVALID_COMMAND);
    uint64_t returned = timesync_set_trusted_time_source(IMAGE, 3, 1, UINT64_C(0x0102030405060708), 0x1234);
    const unsigned source_set[] = {TIMESYNC_REPORT_TRUSTED_TIME_SOURCE, TIMESYNC_STORE_SOURCE, TIMESYNC_WAKE_CLIENT};
    EXPECT(TIMESYNC_ANSWER(returned) == 0 && asks_for(returned, 3, source_set));
    EXPECT(timesync_trusted_time_source(IMAGE, &there, &fabric, &node, &endpoint) == 0);
    EXPECT(there == 1 && fabric == 3 && node == UINT64_C(0x0102030405060708) && endpoint == 0x1234);
    EXPECT(timesync_source_changed(IMAGE, &wait, &wait_us) == 0 && wait == TIMESYNC_WAIT_ATTEMPT_NOW && wait_us == 0);
    returned = timesync_attempt(IMAGE, 0, 0, 0, 0, 0, 2000, &wait, &wait_us);
    EXPECT(TIMESYNC_EFFECT(returned, 0) == TIMESYNC_EMIT_MISSING_TRUSTED_TIME_SOURCE);
    EXPECT(TIMESYNC_EFFECT(returned, 1) == TIMESYNC_EMIT_TIME_FAILURE);
    EXPECT(wait == TIMESYNC_WAIT_FOR && wait_us == MINUTE);
    returned = timesync_attempt(IMAGE, 1, 1, 13 * DAY, 1, TIMESYNC_GRANULARITY_MICROSECONDS, 3000, &wait, &wait_us);
    EXPECT(TIMESYNC_EFFECT(returned, 3) == TIMESYNC_STORE_MOMENT && wait == TIMESYNC_WAIT_FOR && wait_us == 10 * MINUTE);
    /* the same time once more: reported, counted on from its tick, and within a day of the stored one */
    returned = timesync_attempt(IMAGE, 1, 1, 13 * DAY, 1, TIMESYNC_GRANULARITY_MICROSECONDS, 3000 + 10 * MINUTE, &wait, &wait_us);
    const unsigned utc_set[] = {TIMESYNC_REPORT_UTC_TIME, TIMESYNC_REPORT_GRANULARITY, TIMESYNC_REPORT_TIME_SOURCE};
    EXPECT(TIMESYNC_ANSWER(returned) == TIMESYNC_OK && asks_for(returned, 3, utc_set));
    EXPECT(wait == TIMESYNC_WAIT_FOR && wait_us == 10 * MINUTE);
    EXPECT(timesync_utc_time(IMAGE, 3001 + 10 * MINUTE, &there, &value) == 0 && there == 1 && value == 13 * DAY + 1);
}

/* the clock's own settings, load and reset */
static void set_load_and_reset(void)
{
    uint64_t changed = 0;
    EXPECT(TIMESYNC_ANSWER(timesync_rtc_set_utc_time(IMAGE, DAY, 4, TIMESYNC_SOURCE_GNSS, 4000, &changed)) == 0);
    EXPECT(changed == 1);
    uint64_t returned = timesync_rtc_set_utc_time_persist(IMAGE, DAY, 5, TIMESYNC_SOURCE_GNSS, 1, &changed);
    EXPECT(returned == TIMESYNC_UNREADABLE && changed == 1);
    returned = timesync_rtc_set_utc_time_persist(IMAGE, DAY, 4, TIMESYNC_SOURCE_GNSS, 1, &changed);
    const unsigned set_and_stored[] = {TIMESYNC_REPORT_UTC_TIME, TIMESYNC_REPORT_GRANULARITY, TIMESYNC_REPORT_TIME_SOURCE,
                                       TIMESYNC_STORE_MOMENT};
    EXPECT(TIMESYNC_ANSWER(returned) == TIMESYNC_OK && asks_for(returned, 4, set_and_stored) && changed == 0);
    EXPECT(timesync_utc_time(IMAGE, 1, &there, &value) == 0 && there == 1 && value == DAY);
    EXPECT(timesync_load_clock(IMAGE, 6 * DAY, 1, DAY, 1, 9, 8, 7) == 0);
    EXPECT(timesync_utc_time(IMAGE, 9, &there, &value) == 0 && there == 0 && value == 6 * DAY);
    const unsigned clock_reset[] = {TIMESYNC_REMOVE_MOMENT, TIMESYNC_REMOVE_SOURCE};
    EXPECT(asks_for(timesync_reset_clock(IMAGE, 7 * DAY), 2, clock_reset));
    const unsigned lists_reset[] = {TIMESYNC_REMOVE_RECORD, TIMESYNC_WAKE_TIMER};
    EXPECT(asks_for(timesync_reset_lists(IMAGE), 2, lists_reset));
}

static void without_a_list_store(void)
{
    EXPECT(timesync_new(IMAGE, 0, 99, 99, 0, 0) == 0);
    uint64_t returned = timesync_set_time_zone(IMAGE, nothing, 1, out, sizeof out, &used);
    EXPECT(TIMESYNC_ANSWER(returned) == TIMESYNC_COMMAND_NOT_FOUND);
    EXPECT(timesync_generation(IMAGE, &value) == TIMESYNC_ATTRIBUTE_NOT_FOUND);
}

int main(void)
{
    read_what_is_returned();
    make_image();
    send_lists();
    set_the_clock();
    show_the_panel();
    read_the_lists();
    look();
    refused_windows();
    ask_another_node();
    set_load_and_reset();
    without_a_list_store();
    if (failures == 0)
        printf("as expected\n");
    return failures == 0 ? 0 : 1;
}
