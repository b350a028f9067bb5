/*
 * A controller to copy from: what to do after a call, the panel, the timer, the client, boot, commands and a restart. board.h is the board
 * that it runs on, and controller.txt what it prints.
 */
#include "board.h"
#include "lists.h"
#include "timesync.h"

#define BUILD (9700 * DAY) /* the moment the firmware was built, 2026-07-23 */
#define PERIOD HOUR        /* of the client: between two attempts that bring a time */
#define ZONE_LIMIT 2
#define WINDOW_LIMIT 2

static uint8_t image[TIMESYNC_IMAGE_SIZE];
static uint64_t tick; /* of a monotonic counter, in microseconds */
static struct flash flash;
/* what a call is given or has copied out, for the effects that store it */
static struct flash given = {.moment = {.there = 1},
                             .source = {.there = 1, .fab_idx = 1, .node_id = 7, .endpoint = 2},
                             .record = {.there = 1}};
static struct look seen; /* what the last look wrote */
static int timer_woken, client_woken;
static uint64_t node_says; /* the moment that an exchange with the trusted time source brings; 0 where it fails */

/* ---- After each call ---- */

/* does each effect, in order, whether the call was refused or not; a reading has none */
static void carry_out(uint64_t returned)
{
    if (TIMESYNC_ANSWER(returned) != TIMESYNC_OK)
        printf("  refused with %u\n", TIMESYNC_ANSWER(returned));
    for (unsigned i = 0; TIMESYNC_EFFECT(returned, i) != 0; i++) {
        unsigned code = TIMESYNC_EFFECT(returned, i);
        if (code < TIMESYNC_EMIT)
            report(code - TIMESYNC_REPORT);
        else if (code < TIMESYNC_WAKE_TIMER)
            emit(code - TIMESYNC_EMIT, &seen);
        else if (code == TIMESYNC_WAKE_CLIENT)
            client_woken = 1;
        else if (code != TIMESYNC_WAKE_TIMER)
            write_flash(&flash, &given, code);
        /* a clock that was set needs a look too, and an attempt does not wake the timer itself */
        if (code == TIMESYNC_WAKE_TIMER || code == TIMESYNC_REPORT_UTC_TIME)
            timer_woken = 1;
    }
}

/* ---- The panel ---- */

/* between windows there is a local time, and once they have run out there is none: a caretaker must never take one for the other */
static const char *window_state(uint64_t utc_us)
{
    uint64_t active = 0, usable = 0, none = 0;
    int32_t offset;
    carry_out(timesync_active_dst_offset(image, sizeof image, utc_us, &active, &offset));
    carry_out(timesync_dst_usable(image, sizeof image, utc_us, &usable));
    carry_out(timesync_dst_table_empty(image, sizeof image, &none));
    if (usable)
        return active ? ": inside a window" : ": between windows";
    return none ? ": no windows" : ": windows run out";
}

static void show_panel(void)
{
    uint64_t set = 0, utc_us = 0, there = 0, local_us = 0, zones = 0, windows = 0;
    carry_out(timesync_utc_time(image, sizeof image, tick, &set, &utc_us));
    carry_out(timesync_local_time(image, sizeof image, tick, &there, &local_us));
    carry_out(timesync_time_zone_count(image, sizeof image, &zones));
    carry_out(timesync_dst_offset_count(image, sizeof image, &windows));
    if (there)
        say("LocalTime", local_us, window_state(utc_us));
    else if (set)
        say("LocalTime null, UTC", utc_us, window_state(utc_us));
    else
        say("LocalTime null, UTC last known", utc_us, ": the clock is not set");
    printf("  zones listed: %" PRIu64 ", windows: %" PRIu64 "\n", zones, windows);
}

/* ---- The timer and the client ---- */

static void look(void)
{
    timer_woken = 0;
    carry_out(timesync_look(image, sizeof image, tick, seen.name, sizeof seen.name, &seen.offset, &seen.named, &seen.name_len,
                            &seen.dst_active, &seen.sleep, &seen.sleep_us));
    if (seen.sleep == TIMESYNC_SLEEP_AT_MOST)
        say("the timer sleeps", seen.sleep_us, "");
    else
        puts("  the timer sleeps until it is woken");
}

/* asks the trusted time source, where there is one */
static void attempt(void)
{
    uint64_t there = 0, fab_idx, node_id, endpoint, wait = TIMESYNC_WAIT_FOR_SOURCE, wait_us;
    carry_out(timesync_trusted_time_source(image, sizeof image, &there, &fab_idx, &node_id, &endpoint));
    if (there)
        printf("  ask fabric %" PRIu64 ", node %" PRIu64 ", endpoint %" PRIu64 "\n", fab_idx, node_id, endpoint);
    given.moment.utc_us = node_says;
    carry_out(timesync_attempt(image, sizeof image, there && node_says != 0, 1, node_says, 1, TIMESYNC_GRANULARITY_MILLISECONDS, tick,
                               &wait, &wait_us));
    if (wait == TIMESYNC_WAIT_FOR)
        say("the client waits", wait_us, "");
    else
        puts("  the client waits for a source");
}

/* what the tasks of the client and of the timer do once they are woken */
static void run_woken(void)
{
    uint64_t wait = TIMESYNC_WAIT_FOR_SOURCE, wait_us;
    if (client_woken)
        carry_out(timesync_source_changed(image, sizeof image, &wait, &wait_us));
    client_woken = 0;
    if (wait == TIMESYNC_WAIT_ATTEMPT_NOW)
        attempt();
    if (timer_woken)
        look();
    show_panel();
}

/* ---- Boot ---- */

static uint64_t load_clock(uint8_t has_source)
{
    return timesync_load_clock(image, sizeof image, BUILD, flash.moment.there, flash.moment.utc_us, has_source, flash.source.fab_idx,
                               flash.source.node_id, flash.source.endpoint);
}

static void boot(const char *what)
{
    puts(what);
    tick = 0;
    carry_out(timesync_new(image, sizeof image, 1, ZONE_LIMIT, WINDOW_LIMIT, BUILD, PERIOD));
    if (TIMESYNC_ANSWER(load_clock(flash.source.there)) == TIMESYNC_BAD_RECORD) {
        puts("  tell the administrator: the trusted time source cannot be loaded");
        carry_out(load_clock(0)); /* so that the moment is not lost */
    }
    uint64_t lists = timesync_load_lists(image, sizeof image, flash.record.there, flash.record.bytes, flash.record.len);
    if (TIMESYNC_ANSWER(lists) == TIMESYNC_BAD_RECORD)
        puts("  tell the administrator: the lists cannot be loaded, and are empty");
    look();
    attempt();
    run_woken();
}

/* ---- Commands: two zones, and a window for each of so many summers ---- */

#define HOUR_OFFSET 3600 /* an offset of one hour, in seconds */
#define SOFIA_START (20000 * DAY)
#define SUMMER_START (9948 * DAY + HOUR) /* 2027-03-28 */
#define SUMMER_LENGTH (217 * DAY)
#define SUMMER_PERIOD (364 * DAY)

static uint64_t set_zones(void)
{
    uint8_t request[TIMESYNC_RECORD_MAX] = {ZONE_LIMIT};
    size_t end = put_zone(request, 1, HOUR_OFFSET, 0, "Europe/Berlin");
    end = put_zone(request, end, 2 * HOUR_OFFSET, SOFIA_START, "Europe/Sofia");
    return timesync_set_time_zone(image, sizeof image, request, end, given.record.bytes, sizeof given.record.bytes, &given.record.len);
}

static uint64_t set_windows(uint8_t summers)
{
    uint8_t request[TIMESYNC_RECORD_MAX] = {summers};
    size_t end = 1;
    for (uint64_t start = SUMMER_START; start < SUMMER_START + summers * SUMMER_PERIOD; start += SUMMER_PERIOD)
        end = put_window(request, end, HOUR_OFFSET, start, start + SUMMER_LENGTH);
    return timesync_set_dst_offset(image, sizeof image, request, end, given.record.bytes, sizeof given.record.bytes, &given.record.len);
}

/* ---- From the first boot to a factory reset ---- */

#define INSTALLED (9921 * DAY + 7 * HOUR)   /* 2027-03-01 */
#define RESTARTED (10400 * DAY + 12 * HOUR) /* 2028-06-22, in the second summer */

/* what a call asks for, and what it wakes */
static void after(const char *what, uint64_t returned)
{
    puts(what);
    carry_out(returned);
    run_woken();
}

static void after_sleep(void)
{
    tick += seen.sleep_us;
    timer_woken = 1;
    after("the timer's sleep is over", TIMESYNC_OK);
}

/* the exchange brings a moment; 0 where it fails */
static void after_wait(uint64_t wait_us, uint64_t brought)
{
    puts("the client's wait is over");
    tick += wait_us;
    node_says = brought;
    attempt();
    run_woken();
}

int main(void)
{
    boot("boot from an empty flash");
    node_says = INSTALLED;
    after("SetTrustedTimeSource", timesync_set_trusted_time_source(image, sizeof image, given.source.fab_idx, 1, given.source.node_id,
                                                                   given.source.endpoint));
    after("SetUTCTime", timesync_set_utc_time(image, sizeof image, INSTALLED + MINUTE, TIMESYNC_GRANULARITY_MILLISECONDS, 0, 0, tick));
    after("SetTimeZone", set_zones());
    after("SetDSTOffset, two windows", set_windows(WINDOW_LIMIT));
    after_sleep(); /* until the first summer starts */
    after_sleep(); /* until it ends */
    after_wait(PERIOD, 0); /* the attempts in between are left out */
    after_wait(MINUTE, SUMMER_START + SUMMER_LENGTH + PERIOD + MINUTE);
    after("SetDSTOffset, three windows", set_windows(WINDOW_LIMIT + 1));
    node_says = RESTARTED;
    boot("restart: flash still has the two windows");
    after_sleep(); /* until the last summer ends */
    flash.source.fab_idx = 0;
    flash.record.bytes[0] = UINT8_MAX;
    boot("boot from a damaged flash");
    after("factory reset of the clock", timesync_reset_clock(image, sizeof image, BUILD));
    after("factory reset of the lists", timesync_reset_lists(image, sizeof image));
    boot("boot after a factory reset");
    return 0;
}
