/*
 * How many bytes of stack each entry point takes, at limits 8 and 16 with every entry in use. Each call runs on a painted stack of its own,
 * and what it has written over is counted: from the top, where its arguments on the stack stand, down to the lowest byte. Prints a line for
 * each entry point, the worst of its inputs, and returns 0 only where none takes more than it may and every call answers as expected.
 *
 * Nothing but the entry point runs on that stack, and what it calls is bound before anything is measured: each call is made once first. A
 * signal's frame on it could only make one figure larger, so the least of several runs counts; and a byte that a call overwrites with the
 * paint itself shows under the other paint.
 */
#include <stdio.h>
#include <string.h>

#include "lists.h"
#include "timesync.h"
#include "timesync_replay.h"

#define DEPTH 262144u /* of the painted stack */
#define RUNS 3

/* How much a call may take: one that writes a record, the replay, any other. */
#define MOST_RECORD 2560u
#define MOST_REPLAY 4096u
#define MOST_OTHER 768u

typedef void (*function)(void);

static uint8_t painted[DEPTH] __attribute__((aligned(16)));
static int failures = 0;

/* ---- a call on the painted stack ---- */

/* Calls a function with the first six numbers in their registers, on the stack whose top is given. */
static uint64_t call_on(const uint64_t *top, const uint64_t *six, function called)
{
    uint64_t returned;
    __asm__ volatile("movq %%rsp, %%rbx\n\t"
                     "movq %[top], %%rsp\n\t"
                     "movq 0(%[six]), %%rdi\n\t"
                     "movq 8(%[six]), %%rsi\n\t"
                     "movq 16(%[six]), %%rdx\n\t"
                     "movq 24(%[six]), %%rcx\n\t"
                     "movq 32(%[six]), %%r8\n\t"
                     "movq 40(%[six]), %%r9\n\t"
                     "call *%[called]\n\t"
                     "movq %%rbx, %%rsp"
                     : "=&a"(returned)
                     : [top] "r"(top), [six] "r"(six), [called] "r"(called)
                     : "rbx", "rcx", "rdx", "rsi", "rdi", "r8", "r9", "r10", "r11", "xmm0", "xmm1", "xmm2", "xmm3", "xmm4", "xmm5", "xmm6",
                       "xmm7", "xmm8", "xmm9", "xmm10", "xmm11", "xmm12", "xmm13", "xmm14", "xmm15", "memory", "cc");
    return returned;
}

/* The bytes that one call takes. The numbers past the sixth stand at the top, which lies at a multiple of 16. */
static size_t depth_of(function called, const uint64_t *numbers, size_t count, uint8_t paint, uint64_t *returned)
{
    size_t pushed = count > 6 ? count - 6 : 0, low = 0;
    uint64_t six[6] = {0};
    uint8_t *top = painted + DEPTH - 8 * (pushed + pushed % 2);
    memset(painted, paint, DEPTH);
    memcpy(six, numbers, 8 * (count < 6 ? count : 6));
    memcpy(top, numbers + (count - pushed), 8 * pushed);
    *returned = call_on((const uint64_t *)(const void *)top, six, called);
    while (low < DEPTH && painted[low] == paint)
        low++;
    return DEPTH - low;
}

/* ---- the figures ---- */

static struct figure {
    const char *name;
    size_t taken, most;
} figures[64];
static size_t figure_count = 0;

static struct figure *figure_of(const char *name, size_t most)
{
    for (size_t i = 0; i < figure_count; i++)
        if (strcmp(figures[i].name, name) == 0)
            return &figures[i];
    figures[figure_count].name = name;
    figures[figure_count].most = most;
    return &figures[figure_count++];
}

/* What every call works on: each starts from the same image. */
static uint8_t image[TIMESYNC_IMAGE_SIZE], start_image[TIMESYNC_IMAGE_SIZE];

static void measure(const char *name, size_t most, unsigned answer, function called, const uint64_t *numbers, size_t count)
{
    struct figure *figure = figure_of(name, most);
    uint64_t returned;
    for (int paint = 0; paint < 2; paint++) {
        size_t least = DEPTH;
        for (int run = 0; run <= RUNS; run++) {
            memcpy(image, start_image, sizeof image);
            size_t depth = depth_of(called, numbers, count, paint == 0 ? 0xA5 : 0x5A, &returned);
            /* the first run binds, and is not counted */
            if (run > 0 && depth < least)
                least = depth;
            if (TIMESYNC_ANSWER(returned) != answer) {
                printf("%s answers %u, and %u was expected\n", name, TIMESYNC_ANSWER(returned), answer);
                failures++;
                return;
            }
        }
        if (least > figure->taken)
            figure->taken = least;
    }
}

/* A call of an entry point with these arguments, which must answer so; P makes a number of a pointer. */
#define P(pointer) ((uint64_t)(uintptr_t)(pointer))
#define IMAGE P(image), sizeof image
#define MEASURE(name, most, answer, ...)                                                                                                    \
    do {                                                                                                                                    \
        const uint64_t numbers[] = {__VA_ARGS__};                                                                                           \
        measure(#name, most, answer, (function)timesync_##name, numbers, sizeof numbers / sizeof *numbers);                                 \
    } while (0)
#define ANY(name, answer, ...) MEASURE(name, MOST_OTHER, answer, __VA_ARGS__)
#define RECORDS(name, answer, ...) MEASURE(name, MOST_RECORD, answer, __VA_ARGS__)

static void expect(int holds, const char *what)
{
    if (!holds) {
        printf("%s\n", what);
        failures++;
    }
}

/* ---- lists with every entry in use ---- */

/* 64 bytes, characters of one to four bytes */
#define LONGEST "Zone/\xC3\x84\xC3\x96\xE2\x82\xAC\xF0\x9F\x95\x90/aaaaaaaaaaaaaaaaaaaaaaaaaaaaaaaaaaaaaaaaaaaaaaa"

/* 64 bytes, the last character alone is not ASCII */
#define LAST_WIDE "aaaaaaaaaaaaaaaaaaaaaaaaaaaaaaaaaaaaaaaaaaaaaaaaaaaaaaaaaaaaaa\xC3\x84"

static uint8_t zones[640], wide_zones[640], plain_zones[128], late_zones[640], more_zones[768], windows[400], open_windows[400],
    bad_windows[400], more_windows[400], record[TIMESYNC_RECORD_MAX], wide_record[TIMESYNC_RECORD_MAX], bad_record[TIMESYNC_RECORD_MAX];
static size_t zones_len, plain_len, late_len, more_zones_len, windows_len, open_len, bad_len, more_windows_len, record_len;

/* So many zones, a day apart; the last one starts as given, or in its turn where that is 0. */
static size_t make_zones(uint8_t *to, int count, const char *name, uint64_t last)
{
    size_t at = 1;
    to[0] = (uint8_t)count;
    for (int i = 0; i < count; i++)
        at = put_zone(to, at, 3600 * (i + 1), i == count - 1 && last != 0 ? last : (uint64_t)i * DAY, name);
    return at;
}

/* So many windows of half a day, a day apart; the end of the last one is 0 for none, or an end. */
static size_t make_windows(uint8_t *to, int count, int open, int bad)
{
    size_t at = 1;
    to[0] = (uint8_t)count;
    for (int i = 0; i < count; i++) {
        uint64_t start = (uint64_t)i * DAY + HOUR, end = start + DAY / 2;
        int last = i == count - 1;
        at = put_window(to, at, 3600, start, last && open ? 0 : last && bad ? start : end);
    }
    return at;
}

static void make_lists(void)
{
    expect(strlen(LONGEST) == TIMESYNC_NAME_MAX, "the longest name has another length");
    zones_len = make_zones(zones, 8, LONGEST, 0);
    expect(make_zones(wide_zones, 8, LAST_WIDE, 0) == zones_len, "a name of as many bytes makes another length");
    plain_len = make_zones(plain_zones, 8, NULL, 0);
    late_len = make_zones(late_zones, 8, LONGEST, 1);
    more_zones_len = make_zones(more_zones, 9, LONGEST, 0);
    windows_len = make_windows(windows, 16, 0, 0);
    open_len = make_windows(open_windows, 16, 1, 0);
    bad_len = make_windows(bad_windows, 16, 0, 1);
    more_windows_len = make_windows(more_windows, 17, 0, 0);
    memcpy(record, zones, zones_len);
    memcpy(record + zones_len, windows, windows_len);
    memcpy(wide_record, wide_zones, zones_len);
    memcpy(wide_record + zones_len, windows, windows_len);
    memcpy(bad_record, zones, zones_len);
    memcpy(bad_record + zones_len, bad_windows, bad_len);
    record_len = zones_len + windows_len;
    expect(bad_len == windows_len && record_len == TIMESYNC_RECORD_MAX, "the record is not the longest one");
}

/* ---- what a call is lent ---- */

static uint8_t out[TIMESYNC_RECORD_MAX], name[TIMESYNC_NAME_MAX], moments[TIMESYNC_MOMENTS_MAX], nothing[1];
static uint64_t a, b, c, d, e;
static int32_t offset;

/* The moment 0 at the tick 0; with lists, a trusted time source and a timer that looked before the first window began. */
static void start_from(int lists, int clock)
{
    uint64_t failed = timesync_new(start_image, sizeof start_image, (uint8_t)lists, 8, 16, 0, HOUR);
    if (lists) {
        failed |= TIMESYNC_ANSWER(timesync_set_time_zone(start_image, sizeof start_image, zones, zones_len, out, sizeof out, &a));
        failed |= TIMESYNC_ANSWER(timesync_set_dst_offset(start_image, sizeof start_image, windows, windows_len, out, sizeof out, &a));
    }
    if (clock) {
        failed |= TIMESYNC_ANSWER(timesync_set_trusted_time_source(start_image, sizeof start_image, 1, 1, 2, 3));
        failed |= TIMESYNC_ANSWER(timesync_set_utc_time(start_image, sizeof start_image, 0, 4, 0, 0, 0));
        failed |= TIMESYNC_ANSWER(
            timesync_look(start_image, sizeof start_image, 0, name, sizeof name, &offset, &a, &b, &c, &d, &e));
    }
    expect(failed == 0, "the image to start from is refused");
}

/* ---- the entry points, by the parts of the header ---- */

static void making(void)
{
    ANY(image_size, TIMESYNC_IMAGE_SIZE & 0xFF, 0);
    ANY(new, 0, IMAGE, 1, 8, 16, DAY, HOUR);
    ANY(new, 0, IMAGE, 0, 8, 16, DAY, HOUR);
    ANY(new, 8, IMAGE, 1, 9, 16, DAY, HOUR);
}

static void commands(void)
{
    ANY(set_utc_time, 0, IMAGE, DAY, 4, 1, 16, 5);
    ANY(set_utc_time, 0, IMAGE, 0, 4, 0, 0, 5);
    ANY(set_utc_time, 1, IMAGE, 0, 5, 0, 0, 5);
    ANY(set_trusted_time_source, 0, IMAGE, 1, 1, 2, 4);
    ANY(set_trusted_time_source, 0, IMAGE, 1, 1, 2, 3);
    ANY(set_trusted_time_source, 0, IMAGE, 1, 0, 2, 3);
    ANY(set_trusted_time_source, 4, IMAGE, 0, 0, 2, 3);
    RECORDS(set_time_zone, 0, IMAGE, P(zones), zones_len, P(out), sizeof out, P(&a));
    RECORDS(set_time_zone, 0, IMAGE, P(wide_zones), zones_len, P(out), sizeof out, P(&a));
    RECORDS(set_time_zone, 0, IMAGE, P(plain_zones), plain_len, P(out), sizeof out, P(&a));
    RECORDS(set_time_zone, 1, IMAGE, P(zones), zones_len - 1, P(out), sizeof out, P(&a));
    RECORDS(set_time_zone, 2, IMAGE, P(late_zones), late_len, P(out), sizeof out, P(&a));
    RECORDS(set_time_zone, 3, IMAGE, P(more_zones), more_zones_len, P(out), sizeof out, P(&a));
    RECORDS(set_time_zone, 9, IMAGE, P(zones), zones_len, P(out), zones_len, P(&a));
    RECORDS(set_dst_offset, 0, IMAGE, P(windows), windows_len, P(out), sizeof out, P(&a));
    RECORDS(set_dst_offset, 0, IMAGE, P(open_windows), open_len, P(out), sizeof out, P(&a));
    RECORDS(set_dst_offset, 1, IMAGE, P(windows), windows_len - 1, P(out), sizeof out, P(&a));
    RECORDS(set_dst_offset, 2, IMAGE, P(bad_windows), bad_len, P(out), sizeof out, P(&a));
    RECORDS(set_dst_offset, 3, IMAGE, P(more_windows), more_windows_len, P(out), sizeof out, P(&a));
    RECORDS(set_dst_offset, 9, IMAGE, P(windows), windows_len, P(out), record_len - 1, P(&a));
}

static void loads_and_settings(void)
{
    ANY(load_lists, 0, IMAGE, 1, P(record), record_len);
    ANY(load_lists, 0, IMAGE, 1, P(wide_record), record_len);
    ANY(load_lists, 0, IMAGE, 0, P(record), record_len);
    ANY(load_lists, 7, IMAGE, 1, P(record), record_len - 1);
    ANY(load_lists, 7, IMAGE, 1, P(bad_record), record_len);
    ANY(reset_lists, 0, IMAGE);
    ANY(load_clock, 0, IMAGE, DAY, 1, HOUR, 1, 1, 2, 3);
    ANY(load_clock, 0, IMAGE, DAY, 0, HOUR, 0, 0, 2, 3);
    ANY(load_clock, 7, IMAGE, DAY, 1, HOUR, 1, 0, 2, 3);
    ANY(reset_clock, 0, IMAGE, DAY);
    ANY(rtc_set_utc_time, 0, IMAGE, DAY, 4, 16, 5, P(&a));
    ANY(rtc_set_utc_time, 1, IMAGE, DAY, 4, 17, 5, P(&a));
    ANY(rtc_set_utc_time_persist, 0, IMAGE, 9 * DAY, 4, 16, 5, P(&a));
    ANY(rtc_set_utc_time_persist, 0, IMAGE, 0, 4, 2, 5, P(&a));
}

/* At ticks inside a window, between two and after the last. */
static const uint64_t ticks[] = {2 * HOUR, DAY, 15 * DAY + 2 * HOUR, 20 * DAY};

static void readings_of_the_clock(void)
{
    ANY(utc_time_granularity, 0, IMAGE, P(&a));
    ANY(utc_time_source, 0, IMAGE, P(&a));
    ANY(trusted_time_source, 0, IMAGE, P(&a), P(&b), P(&c), P(&d));
    for (size_t i = 0; i < 4; i++) {
        ANY(utc_time, 0, IMAGE, ticks[i], P(&a), P(&b));
        ANY(local_time, 0, IMAGE, ticks[i], P(&a), P(&b));
    }
}

static void readings_of_the_lists(void)
{
    ANY(time_zone_count, 0, IMAGE, P(&a));
    ANY(dst_offset_count, 0, IMAGE, P(&a));
    ANY(time_zone_list_max_size, 0, IMAGE, P(&a));
    ANY(dst_offset_list_max_size, 0, IMAGE, P(&a));
    ANY(time_zone_database, 0, IMAGE, P(&a));
    ANY(generation, 0, IMAGE, P(&a));
    ANY(dst_table_empty, 0, IMAGE, P(&a));
    ANY(time_zone, 0, IMAGE, 7, P(name), sizeof name, P(&offset), P(&a), P(&b), P(&c));
    ANY(time_zone, 2, IMAGE, 8, P(name), sizeof name, P(&offset), P(&a), P(&b), P(&c));
    ANY(time_zone, 9, IMAGE, 7, P(name), sizeof name - 1, P(&offset), P(&a), P(&b), P(&c));
    ANY(dst_offset, 0, IMAGE, 15, P(&offset), P(&a), P(&b), P(&c));
    ANY(dst_offset, 2, IMAGE, 16, P(&offset), P(&a), P(&b), P(&c));
    for (size_t i = 0; i < 4; i++) {
        ANY(dst_usable, 0, IMAGE, ticks[i], P(&a));
        ANY(active_time_zone, 0, IMAGE, ticks[i], P(name), sizeof name, P(&offset), P(&a), P(&b));
        ANY(active_dst_offset, 0, IMAGE, ticks[i], P(&a), P(&offset));
        ANY(next_transition, 0, IMAGE, ticks[i], P(&a), P(&b));
        ANY(walk, 0, IMAGE, ticks[i], P(moments), sizeof moments, P(&a));
    }
    ANY(active_time_zone, 9, IMAGE, 0, P(name), sizeof name - 1, P(&offset), P(&a), P(&b));
    ANY(walk, 0, IMAGE, 0, P(moments), sizeof moments, P(&a));
    ANY(walk, 9, IMAGE, 0, P(moments), 8, P(&a));
    RECORDS(record, 0, IMAGE, P(out), sizeof out, P(&a));
    RECORDS(record, 9, IMAGE, P(out), record_len - 1, P(&a));
}

static void steps(void)
{
    /* nothing due; DSTStatus; TimeZoneStatus; both; both and DSTTableEmpty; and a name without room */
    const uint64_t looks[] = {1, 2 * HOUR, DAY, DAY + 2 * HOUR, 20 * DAY};
    for (size_t i = 0; i < 5; i++)
        ANY(look, 0, IMAGE, looks[i], P(name), sizeof name, P(&offset), P(&a), P(&b), P(&c), P(&d), P(&e));
    ANY(look, 9, IMAGE, DAY, P(name), sizeof name - 1, P(&offset), P(&a), P(&b), P(&c), P(&d), P(&e));
    /* applied and stored, applied and equal, no time, failed */
    ANY(attempt, 0, IMAGE, 1, 1, 9 * DAY, 1, 4, 5, P(&a), P(&b));
    ANY(attempt, 0, IMAGE, 1, 1, 0, 0, 0, 5, P(&a), P(&b));
    ANY(attempt, 0, IMAGE, 1, 0, 0, 0, 0, 5, P(&a), P(&b));
    ANY(attempt, 0, IMAGE, 0, 0, 0, 0, 0, 5, P(&a), P(&b));
    ANY(source_changed, 0, IMAGE, P(&a), P(&b));
}

/* On a clock that is not set, and with no list store. */
static void on_little(void)
{
    ANY(utc_time, 0, IMAGE, 5, P(&a), P(&b));
    ANY(trusted_time_source, 0, IMAGE, P(&a), P(&b), P(&c), P(&d));
    ANY(local_time, 0, IMAGE, 5, P(&a), P(&b));
    ANY(set_utc_time, 0, IMAGE, DAY, 4, 0, 0, 5);
    ANY(look, 0, IMAGE, 5, P(name), sizeof name, P(&offset), P(&a), P(&b), P(&c), P(&d), P(&e));
    ANY(attempt, 0, IMAGE, 1, 1, DAY, 1, 4, 5, P(&a), P(&b));
    ANY(source_changed, 0, IMAGE, P(&a), P(&b));
}

/* A list of calls: both commands accepted and refused, a load, a load without a record, a reset, and both once more. */
static size_t make_history(uint8_t *to)
{
    const struct {
        uint8_t kind;
        const uint8_t *bytes;
        size_t length;
    } calls[] = {{0, wide_zones, zones_len}, {1, windows, windows_len}, {1, bad_windows, bad_len}, {0, late_zones, late_len},
                 {2, record, record_len},   {2, record, 5},            {0, zones, zones_len},     {1, windows, windows_len},
                 {2, record, record_len}};
    size_t at = 0;
    for (size_t i = 0; i < sizeof calls / sizeof *calls; i++) {
        to[at++] = calls[i].kind;
        at = put(to, at, calls[i].length, 4);
        memcpy(to + at, calls[i].bytes, calls[i].length);
        at += calls[i].length;
        to[at++] = 3;
        if (i == 5)
            to[at++] = 4;
    }
    return at;
}

static void replays(void)
{
    static uint8_t history[8192];
    static int32_t window;
    static uint64_t count, named, length, active, usable, has_next, next, used, generation;
    size_t end = make_history(history);
    for (size_t i = 0; i < 4; i++)
        MEASURE(replay, MOST_REPLAY, 0, 8, 16, P(history), end, 0, ticks[i], P(moments), sizeof moments, P(&count), P(name), sizeof name,
                P(&offset), P(&named), P(&length), P(&active), P(&window), P(&usable), P(&has_next), P(&next), P(out), sizeof out, P(&used),
                P(&generation));
    expect(count == 8 + 32 - 1 && used == record_len && generation == 6, "the replayed history leaves something else");
    MEASURE(replay, MOST_REPLAY, 9, 8, 16, P(history), end, 0, 0, P(moments), 8, P(&count), P(name), sizeof name, P(&offset), P(&named),
            P(&length), P(&active), P(&window), P(&usable), P(&has_next), P(&next), P(out), sizeof out, P(&used), P(&generation));
}

int main(void)
{
    make_lists();
    start_from(1, 1);
    making();
    commands();
    loads_and_settings();
    readings_of_the_clock();
    readings_of_the_lists();
    steps();
    start_from(1, 0);
    on_little();
    start_from(0, 0);
    on_little();
    RECORDS(set_time_zone, 5, IMAGE, P(nothing), 1, P(out), sizeof out, P(&a));
    RECORDS(set_dst_offset, 5, IMAGE, P(nothing), 1, P(out), sizeof out, P(&a));
    replays();
    for (size_t i = 0; i < figure_count; i++) {
        int over = figures[i].taken > figures[i].most;
        printf("%5zu  %s%s\n", figures[i].taken, figures[i].name, over ? "  (more than it may take)" : "");
        failures += over;
    }
    return failures == 0 ? 0 : 1;
}
