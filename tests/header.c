/*
 * Compares include/pillar.h with the archive: sizes and offsets with the pages
 * that it writes, numbers with what it answers and does. No offset is written
 * down here: it is right if a value that a call has set is found there. Prints
 * each difference; the exit status is 1 if there is one. tests/header builds
 * and runs it, as C99 and as C++11.
 */
#include "pillar.h"

#include <inttypes.h>
#include <stdio.h>
#include <string.h>

/* More bytes than a page has, so that lengths can be tried. */
enum { ROOM = 2048 };

static uint8_t page[ROOM];

/* What the latest call has stored. */
static uint8_t letter;

/* No byte: the built-in table. */
static const uint8_t no_table[1] = {0};

#define PAGE page, PILLAR_PAGE_SIZE
#define BUILT_IN no_table, 0
#define METER PAGE, BUILT_IN
#define COUNT_OF(array) (sizeof(array) / sizeof(array)[0])

static unsigned differences;

/* The number that a loop is at: a length, a log, a code, a kind. */
static uint32_t at;

static void same(int line, const char *what, uint32_t header, uint32_t core)
{
    if (header == core)
        return;
    if (++differences <= 20)
        printf("line %d, at %" PRIu32 ": %s: the header has %" PRIu32 ", the core %" PRIu32 "\n", line, at, what, header, core);
}

/* What the header says, and what the core does. */
#define SAME(header, core) same(__LINE__, #header, header, core)
#define ACCEPTED(call) same(__LINE__, #call, PILLAR_ACCEPTED, call)

/* A fresh meter: threshold 0, durations of one sample, clock 0. */
static void fresh(uint32_t control_mode)
{
    ACCEPTED(pillar_fresh(PAGE, control_mode, 0, 1, 1, 0));
}

/* ---- Sizes and offsets --------------------------------------------------- */

/* The shortest buffer that is written, the one length that is read, the first record that is whole. */
static void sizes(void)
{
    static const uint8_t zeros[ROOM] = {0};
    at = 0;
    while (at < ROOM && pillar_fresh(page, at, 0, 0, 1, 1, 0) == PILLAR_REFUSED_BUFFER)
        at++;
    SAME(PILLAR_PAGE_SIZE, at);
    fresh(0);
    for (at = 0; at <= ROOM; at++)
        SAME(at == PILLAR_PAGE_SIZE ? PILLAR_ACCEPTED : PILLAR_REFUSED_PAGE_LENGTH, pillar_check(page, at, BUILT_IN));

    at = 1;
    while (at < ROOM && pillar_replay(zeros, at, BUILT_IN, PAGE) == PILLAR_REFUSED_LIST_SHORT)
        at++;
    SAME(PILLAR_RECORD_SIZE, at);
}

struct area {
    const char *name;
    uint32_t offset;
    uint32_t length;
};

#define AREA(name) {#name, PILLAR_OFFSET_##name, PILLAR_LENGTH_##name}
#define LOG_AREA(log) {#log, PILLAR_OFFSET_LOG(log), PILLAR_LENGTH_LOG}

static const struct area areas[] = {
    AREA(CONTROL),
    AREA(LIMITER),
    AREA(CLOCK),
    AREA(ALARMS),
    AREA(ERRORS),
    LOG_AREA(PILLAR_LOG_STANDARD),
    LOG_AREA(PILLAR_LOG_FRAUD),
    LOG_AREA(PILLAR_LOG_DISCONNECT),
    AREA(EMERGENCY),
};

/* The directory of a page that the core has written; the areas fill the page behind it. */
static void areas_fill(const struct area *list, size_t count, uint32_t end, uint32_t size)
{
    for (size_t i = 0; i < count; i++) {
        uint32_t pair = pillar_get_number(page, i * PILLAR_PAIR_SIZE);
        same(__LINE__, list[i].name, list[i].offset, pair >> 16);
        same(__LINE__, list[i].name, list[i].length, pair & 0xffff);
        SAME(end, pair >> 16);
        end += pair & 0xffff;
    }
    SAME(size, end);
}

static void directory(void)
{
    fresh(0);
    SAME(PILLAR_AREAS, (uint32_t)COUNT_OF(areas));
    areas_fill(areas, COUNT_OF(areas), PILLAR_DIRECTORY_SIZE, PILLAR_PAGE_SIZE);
}

/* A field holds the value that the core has put there, and its function reads it. */
static void field(int line, const char *name, uint32_t offset, uint32_t length, uint32_t value, uint32_t read)
{
    uint32_t held = 0;
    for (uint32_t i = 0; i < length; i++)
        held = held << 8 | page[offset + i];
    same(line, name, held, value);
    same(line, name, read, value);
}

#define FIELD(name, value, read) field(__LINE__, #name, PILLAR_OFFSET_##name, PILLAR_LENGTH_##name, value, read)

static void put_number(uint8_t *bytes, uint32_t number)
{
    for (uint32_t i = 0; i < 4; i++)
        bytes[i] = (uint8_t)(number >> (24 - 8 * i));
}

static void put(uint32_t offset, uint32_t number)
{
    put_number(page + offset, number);
}

/* Every field with bytes of its own. */
static void fields(void)
{
    ACCEPTED(pillar_fresh(PAGE, PILLAR_CONTROL_MODE_5, 0x01020304, 0x010506, 0x010708, 0x090a0b0c));
    ACCEPTED(pillar_set_alarm_filter(METER, 0x11121314));
    ACCEPTED(pillar_set_error_filter(METER, 0x21222324));
    FIELD(CONTROL_MODE, PILLAR_CONTROL_MODE_5, pillar_get_control_mode(page));
    FIELD(CONTROL_STATE, PILLAR_CONTROL_STATE_CONNECTED, pillar_get_control_state(page));
    FIELD(OPENINGS, 0, pillar_get_openings(page));
    FIELD(THRESHOLD, 0x01020304, (uint32_t)pillar_get_threshold(page));
    FIELD(OVER_DURATION, 0x010506, pillar_get_over_duration(page));
    FIELD(UNDER_DURATION, 0x010708, pillar_get_under_duration(page));
    FIELD(EXCEEDED, 0, pillar_get_exceeded(page));
    FIELD(RUN, 0, pillar_get_run(page));
    FIELD(CLOCK, 0x090a0b0c, pillar_get_clock(page));
    FIELD(ALARM_REGISTER, 0, pillar_get_alarm_register(page));
    FIELD(ALARM_FILTER, 0x11121314, pillar_get_alarm_filter(page));
    FIELD(ALARM_COUNT, 0, pillar_get_alarm_count(page));
    FIELD(ERROR_REGISTER, 0, pillar_get_error_register(page));
    FIELD(ERROR_FILTER, 0x21222324, pillar_get_error_filter(page));

    ACCEPTED(pillar_set_control_mode(METER, PILLAR_CONTROL_MODE_6));
    ACCEPTED(pillar_set_limiter(METER, 0x7f414243, 0x015180, 0x014748));
    ACCEPTED(pillar_set_clock(METER, 0xf9fafbfc));
    FIELD(CONTROL_MODE, PILLAR_CONTROL_MODE_6, pillar_get_control_mode(page));
    FIELD(THRESHOLD, 0x7f414243, (uint32_t)pillar_get_threshold(page));
    FIELD(OVER_DURATION, 0x015180, pillar_get_over_duration(page));
    FIELD(UNDER_DURATION, 0x014748, pillar_get_under_duration(page));
    FIELD(CLOCK, 0xf9fafbfc, pillar_get_clock(page));

    /* A run of three bytes, and its end. */
    for (uint32_t i = 0; i < 0x010203; i++)
        ACCEPTED(pillar_sample(METER, 0x7f414244, &letter));
    FIELD(RUN, 0x010203, pillar_get_run(page));
    FIELD(CLOCK, 0xf9fafbfc + 0x010203, pillar_get_clock(page));
    for (uint32_t i = 0x010203; i < 0x015180; i++)
        ACCEPTED(pillar_sample(METER, 0x7f414244, &letter));
    FIELD(RUN, 0, pillar_get_run(page));
    FIELD(EXCEEDED, 1, pillar_get_exceeded(page));
    FIELD(OPENINGS, 1, pillar_get_openings(page));
    FIELD(CONTROL_STATE, PILLAR_CONTROL_STATE_READY_FOR_RECONNECTION, pillar_get_control_state(page));

    /* Where calls alone would take too long, or never come: the core goes on from a changed page. */
    fresh(PILLAR_CONTROL_MODE_1);
    put(PILLAR_OFFSET_OPENINGS, 0x00ffffff);
    put(PILLAR_OFFSET_ALARM_REGISTER, 0xffffffff);
    page[PILLAR_OFFSET_ALARM_COUNT] = 32;
    put(PILLAR_OFFSET_ERROR_REGISTER, 0xffffffff);
    ACCEPTED(pillar_remote_disconnect(METER, &letter));
    ACCEPTED(pillar_clear_alarms(METER, 0x01020304));
    ACCEPTED(pillar_clear_errors(METER, 0x11121314));
    FIELD(OPENINGS, 0x01000000, pillar_get_openings(page));
    FIELD(ALARM_REGISTER, 0xfefdfcfb, pillar_get_alarm_register(page));
    FIELD(ALARM_COUNT, 27, pillar_get_alarm_count(page));
    FIELD(ERROR_REGISTER, 0xeeedeceb, pillar_get_error_register(page));
}

/* ---- The logs ------------------------------------------------------------ */

static uint32_t clock_after(uint32_t settings)
{
    return 0x01020304 * (settings + 1);
}

/* Line n, from 0, of all that the settings of the clock below put into a log. */
static struct pillar_line line_owed(uint32_t log, uint32_t n)
{
    struct pillar_line owed = {clock_after(n + 1), 0};
    if (log == PILLAR_LOG_STANDARD) {
        owed.clock = clock_after((n + 1) / 2);
        owed.code = n % 2 == 0 ? PILLAR_LOGGED_CLOCK_ADJUSTED_OLD_DATE_TIME : PILLAR_LOGGED_CLOCK_ADJUSTED_NEW_DATE_TIME;
    } else if (log == PILLAR_LOG_FRAUD) {
        owed.code = n % 2 == 0 ? PILLAR_EVENT_TERMINAL_COVER_REMOVED : PILLAR_EVENT_METER_COVER_CLOSED;
    } else {
        owed.code = PILLAR_LOGGED_LIMITER_THRESHOLD_CHANGED;
    }
    return owed;
}

typedef uint8_t get_count(const uint8_t *page, uint32_t log);
typedef struct pillar_line get_line(const uint8_t *page, uint32_t log, uint32_t line);

/* A log after so many lines, as its functions read it: the newest, and nothing past them. */
static void log_holds(get_count *count_of, get_line *line_of, uint32_t log, uint32_t lines)
{
    uint32_t held = lines < PILLAR_LINES_PER_LOG ? lines : PILLAR_LINES_PER_LOG;
    SAME(count_of(page, log), held);
    for (uint32_t i = 0; i < PILLAR_LINES_PER_LOG + 2; i++) {
        struct pillar_line found = line_of(page, log, i);
        struct pillar_line owed = {0, 0};
        if (i < held)
            owed = line_owed(log, lines - held + i);
        SAME(found.clock, owed.clock);
        SAME(found.code, owed.code);
    }
}

static void logs(void)
{
    ACCEPTED(pillar_fresh(PAGE, PILLAR_CONTROL_MODE_1, 0, 1, 1, clock_after(0)));
    for (uint32_t settings = 1; settings < 3 * PILLAR_LINES_PER_LOG; settings++) {
        ACCEPTED(pillar_set_clock(METER, clock_after(settings)));
        ACCEPTED(pillar_report_event(METER, line_owed(PILLAR_LOG_FRAUD, settings - 1).code));
        ACCEPTED(pillar_set_limiter(METER, 0, 1, 1));
        log_holds(pillar_get_log_count, pillar_get_log_line, PILLAR_LOG_STANDARD, 2 * settings);
        log_holds(pillar_get_log_count, pillar_get_log_line, PILLAR_LOG_FRAUD, settings);
        log_holds(pillar_get_log_count, pillar_get_log_line, PILLAR_LOG_DISCONNECT, settings);
        log_holds(pillar_get_log_count, pillar_get_log_line, 0, 0);
        log_holds(pillar_get_log_count, pillar_get_log_line, PILLAR_LOGS + 1, 0);
    }

    /* Each log is cleared by its number, and no other number is one. */
    for (at = 0; at < 300; at++) {
        fresh(0);
        SAME(at - 1 < PILLAR_LOGS ? PILLAR_ACCEPTED : PILLAR_REFUSED_LOG, pillar_clear_log(METER, at));
        for (uint32_t log = 1; log <= PILLAR_LOGS; log++)
            SAME(pillar_get_log_count(page, log), log == at);
    }
}

/* The code of the latest line of a log. */
static uint32_t latest(uint32_t log)
{
    return pillar_get_log_line(page, log, pillar_get_log_count(page, log) - UINT32_C(1)).code;
}

/* ---- Events, codes and bits ---------------------------------------------- */

struct event {
    uint32_t code;
    uint32_t log;
    uint32_t alarms;
    uint32_t errors;
};

#define QUIET(name, log) {PILLAR_EVENT_##name, PILLAR_LOG_##log, 0, 0}
#define BOTH(name) {PILLAR_EVENT_##name, PILLAR_LOG_STANDARD, PILLAR_ALARM_##name, PILLAR_ERROR_##name}
#define FRAUD(name) {PILLAR_EVENT_##name, PILLAR_LOG_FRAUD, PILLAR_ALARM_FRAUD_ATTEMPT, 0}

static const struct event events[] = {
    QUIET(POWER_DOWN, STANDARD),
    QUIET(POWER_UP, STANDARD),
    QUIET(BATTERY_VOLTAGE_LOW, STANDARD),
    BOTH(CLOCK_INVALID),
    BOTH(REPLACE_BATTERY),
    BOTH(PROGRAM_MEMORY_ERROR),
    BOTH(RAM_ERROR),
    BOTH(NV_MEMORY_ERROR),
    BOTH(WATCHDOG_ERROR),
    BOTH(MEASUREMENT_SYSTEM_ERROR),
    FRAUD(TERMINAL_COVER_REMOVED),
    FRAUD(STRONG_DC_FIELD_DETECTED),
    FRAUD(METER_COVER_REMOVED),
    QUIET(TERMINAL_COVER_CLOSED, FRAUD),
    QUIET(NO_STRONG_DC_FIELD_ANYMORE, FRAUD),
    QUIET(METER_COVER_CLOSED, FRAUD),
    QUIET(ASSOCIATION_AUTHENTICATION_FAILURE, FRAUD),
    QUIET(DISCONNECT_RECONNECT_FAILURE, DISCONNECT),
};

static const struct event *event_of(uint32_t code)
{
    for (size_t i = 0; i < COUNT_OF(events); i++)
        if (events[i].code == code)
            return &events[i];
    return NULL;
}

/* Every code, and some that only their lowest byte would make one: what is named is taken, and does as its name says. */
static void reports(void)
{
    static uint8_t before[PILLAR_PAGE_SIZE];
    for (at = 0; at < 1024; at++) {
        const struct event *event = event_of(at);
        fresh(0);
        memcpy(before, page, sizeof before);
        SAME(event ? PILLAR_ACCEPTED : PILLAR_REFUSED_EVENT_CODE, pillar_report_event(METER, at));
        if (!event) {
            same(__LINE__, "whether a refusal changes the page", 0, memcmp(page, before, sizeof before) != 0);
            continue;
        }
        for (uint32_t log = 1; log <= PILLAR_LOGS; log++)
            SAME(event->log == log, pillar_get_log_count(page, log));
        SAME(at, latest(event->log));
        SAME(event->alarms, pillar_get_alarm_register(page));
        SAME(event->alarms != 0, pillar_get_alarm_count(page));
        SAME(event->errors, pillar_get_error_register(page));
    }
}

/* So many alarms stand, by the register and by the count; with another count the page is refused. */
static void alarms_stand(int line, uint32_t number)
{
    uint32_t standing = 0;
    for (uint32_t alarms = pillar_get_alarm_register(page); alarms != 0; alarms >>= 1)
        standing += alarms & 1;
    same(line, "alarms standing", standing, number);
    for (uint32_t count = 0; count < 256; count++) {
        page[PILLAR_OFFSET_ALARM_COUNT] = (uint8_t)count;
        same(line, "a count of alarms", count == number ? PILLAR_ACCEPTED : PILLAR_REFUSED_PAGE_UNSOUND, pillar_check(METER));
    }
    page[PILLAR_OFFSET_ALARM_COUNT] = (uint8_t)number;
}

#define ALARMS_STAND(number) FIELD(ALARM_COUNT, number, pillar_get_alarm_count(page)), alarms_stand(__LINE__, number)

/* Each alarm is counted once while it stands, hidden by the filter or not. */
static void alarm_count(void)
{
    const uint32_t all = UINT32_MAX;
    fresh(0);
    ALARMS_STAND(0);
    ACCEPTED(pillar_report_event(METER, PILLAR_EVENT_RAM_ERROR));
    ACCEPTED(pillar_report_event(METER, PILLAR_EVENT_RAM_ERROR));
    ALARMS_STAND(1);
    ACCEPTED(pillar_report_event(METER, PILLAR_EVENT_TERMINAL_COVER_REMOVED));
    ACCEPTED(pillar_report_event(METER, PILLAR_EVENT_METER_COVER_REMOVED));
    ALARMS_STAND(2);
    ACCEPTED(pillar_set_alarm_filter(METER, all));
    ALARMS_STAND(2);
    ACCEPTED(pillar_report_event(METER, PILLAR_EVENT_WATCHDOG_ERROR));
    ALARMS_STAND(2);
    ACCEPTED(pillar_set_alarm_filter(METER, 0));
    ACCEPTED(pillar_report_event(METER, PILLAR_EVENT_WATCHDOG_ERROR));
    ALARMS_STAND(3);
    ACCEPTED(pillar_clear_errors(METER, all));
    ALARMS_STAND(3);
    ACCEPTED(pillar_clear_alarms(METER, ~(PILLAR_ALARM_RAM_ERROR | PILLAR_ALARM_WATCHDOG_ERROR)));
    ALARMS_STAND(2);
    ACCEPTED(pillar_clear_alarms(METER, all));
    ALARMS_STAND(0);
}

struct logged {
    uint32_t code;
    uint32_t log;
};

static const struct logged logged[] = {
    {PILLAR_LOGGED_CLOCK_ADJUSTED_OLD_DATE_TIME, PILLAR_LOG_STANDARD},
    {PILLAR_LOGGED_CLOCK_ADJUSTED_NEW_DATE_TIME, PILLAR_LOG_STANDARD},
    {PILLAR_LOGGED_ERROR_REGISTER_CLEARED, PILLAR_LOG_STANDARD},
    {PILLAR_LOGGED_ALARM_REGISTER_CLEARED, PILLAR_LOG_STANDARD},
    {PILLAR_LOGGED_DISCONNECTER_READY_FOR_MANUAL_RECONNECTION, PILLAR_LOG_DISCONNECT},
    {PILLAR_LOGGED_MANUAL_DISCONNECTION, PILLAR_LOG_DISCONNECT},
    {PILLAR_LOGGED_MANUAL_CONNECTION, PILLAR_LOG_DISCONNECT},
    {PILLAR_LOGGED_REMOTE_DISCONNECTION, PILLAR_LOG_DISCONNECT},
    {PILLAR_LOGGED_REMOTE_CONNECTION, PILLAR_LOG_DISCONNECT},
    {PILLAR_LOGGED_LOCAL_DISCONNECTION, PILLAR_LOG_DISCONNECT},
    {PILLAR_LOGGED_LIMITER_THRESHOLD_EXCEEDED, PILLAR_LOG_DISCONNECT},
    {PILLAR_LOGGED_LIMITER_THRESHOLD_OK, PILLAR_LOG_DISCONNECT},
    {PILLAR_LOGGED_LIMITER_THRESHOLD_CHANGED, PILLAR_LOG_DISCONNECT},
    {PILLAR_LOGGED_LOCAL_RECONNECTION, PILLAR_LOG_DISCONNECT},
    {PILLAR_LOGGED_EVENT_LOG_CLEARED, PILLAR_LOG_STANDARD},
    {PILLAR_LOGGED_EVENT_LOG_CLEARED, PILLAR_LOG_FRAUD},
    {PILLAR_LOGGED_EVENT_LOG_CLEARED, PILLAR_LOG_DISCONNECT},
};

static bool has_name(uint32_t log, uint32_t code)
{
    const struct event *event = event_of(code);
    if (event && event->log == log)
        return true;
    for (size_t i = 0; i < COUNT_OF(logged); i++)
        if (logged[i].log == log && logged[i].code == code)
            return true;
    return false;
}

/* The codes that the core lets a log hold are those that have a name. */
static void codes(void)
{
    for (uint32_t log = 1; log <= PILLAR_LOGS; log++) {
        fresh(0);
        ACCEPTED(pillar_clear_log(METER, log));
        for (at = 0; at < 256; at++) {
            page[PILLAR_OFFSET_LINE_CODE(log, 0)] = (uint8_t)at;
            SAME(has_name(log, at) ? PILLAR_ACCEPTED : PILLAR_REFUSED_PAGE_UNSOUND, pillar_check(METER));
        }
    }
}

/* Each call that logs by itself. */
static void lines(void)
{
    fresh(PILLAR_CONTROL_MODE_2);
    ACCEPTED(pillar_clear_alarms(METER, 0));
    SAME(PILLAR_LOGGED_ALARM_REGISTER_CLEARED, latest(PILLAR_LOG_STANDARD));
    ACCEPTED(pillar_clear_errors(METER, 0));
    SAME(PILLAR_LOGGED_ERROR_REGISTER_CLEARED, latest(PILLAR_LOG_STANDARD));
    ACCEPTED(pillar_set_clock(METER, 7));
    SAME(PILLAR_LOGGED_CLOCK_ADJUSTED_OLD_DATE_TIME, pillar_get_log_line(page, PILLAR_LOG_STANDARD, 2).code);
    SAME(PILLAR_LOGGED_CLOCK_ADJUSTED_NEW_DATE_TIME, latest(PILLAR_LOG_STANDARD));
    ACCEPTED(pillar_remote_disconnect(METER, &letter));
    SAME(PILLAR_LOGGED_REMOTE_DISCONNECTION, latest(PILLAR_LOG_DISCONNECT));
    ACCEPTED(pillar_remote_reconnect(METER, &letter));
    SAME(PILLAR_LOGGED_REMOTE_CONNECTION, latest(PILLAR_LOG_DISCONNECT));
    ACCEPTED(pillar_manual_disconnect(METER, &letter));
    SAME(PILLAR_LOGGED_MANUAL_DISCONNECTION, latest(PILLAR_LOG_DISCONNECT));
    ACCEPTED(pillar_manual_reconnect(METER, &letter));
    SAME(PILLAR_LOGGED_MANUAL_CONNECTION, latest(PILLAR_LOG_DISCONNECT));
    ACCEPTED(pillar_set_limiter(METER, 0, 1, 1));
    SAME(PILLAR_LOGGED_LIMITER_THRESHOLD_CHANGED, latest(PILLAR_LOG_DISCONNECT));

    fresh(PILLAR_CONTROL_MODE_6);
    ACCEPTED(pillar_sample(METER, 1, &letter));
    SAME(PILLAR_LOGGED_LIMITER_THRESHOLD_EXCEEDED, pillar_get_log_line(page, PILLAR_LOG_DISCONNECT, 0).code);
    SAME(PILLAR_LOGGED_LOCAL_DISCONNECTION, latest(PILLAR_LOG_DISCONNECT));
    ACCEPTED(pillar_sample(METER, 0, &letter));
    SAME(PILLAR_LOGGED_LIMITER_THRESHOLD_OK, pillar_get_log_line(page, PILLAR_LOG_DISCONNECT, 2).code);
    SAME(PILLAR_LOGGED_LOCAL_RECONNECTION, latest(PILLAR_LOG_DISCONNECT));
    ACCEPTED(pillar_remote_disconnect(METER, &letter));
    ACCEPTED(pillar_remote_reconnect(METER, &letter));
    SAME(PILLAR_LOGGED_DISCONNECTER_READY_FOR_MANUAL_RECONNECTION, latest(PILLAR_LOG_DISCONNECT));
    for (uint32_t log = 1; log <= PILLAR_LOGS; log++) {
        ACCEPTED(pillar_clear_log(METER, log));
        SAME(PILLAR_LOGGED_EVENT_LOG_CLEARED, latest(log));
    }
}

/* ---- The event table ----------------------------------------------------- */

/* Room for more lines than a table may have. */
static uint8_t table[2 * 256 * PILLAR_TABLE_LINE_SIZE];

static void put_line(uint32_t line, uint32_t code, uint32_t log, uint32_t alarm_bit, uint32_t error_bit)
{
    uint8_t *at_line = table + line * PILLAR_TABLE_LINE_SIZE;
    at_line[0] = (uint8_t)code;
    at_line[1] = (uint8_t)log;
    at_line[2] = (uint8_t)alarm_bit;
    at_line[3] = (uint8_t)error_bit;
}

/* Codes from 70 on, none of them barred, in the fraud log and without a bit. */
static void put_lines(uint32_t lines)
{
    for (uint32_t i = 0; i < lines; i++)
        put_line(i, 70 + i, PILLAR_LOG_FRAUD, PILLAR_TABLE_NO_BIT, PILLAR_TABLE_NO_BIT);
}

/* The lengths that are taken: every whole number of lines up to the most. */
static void table_sizes(void)
{
    uint32_t shortest = 1;
    uint32_t longest = 0;
    put_lines(2 * PILLAR_TABLE_LINES);
    while (shortest < sizeof table && pillar_table(table, shortest) == PILLAR_REFUSED_TABLE_LENGTH)
        shortest++;
    SAME(PILLAR_TABLE_LINE_SIZE, shortest);
    for (at = 0; at <= 2 * PILLAR_TABLE_LINES * PILLAR_TABLE_LINE_SIZE; at++) {
        bool whole = at > 0 && at % PILLAR_TABLE_LINE_SIZE == 0 && at / PILLAR_TABLE_LINE_SIZE <= PILLAR_TABLE_LINES;
        uint32_t answer = pillar_table(table, at);
        SAME(whole ? PILLAR_ACCEPTED : PILLAR_REFUSED_TABLE_LENGTH, answer);
        if (answer == PILLAR_ACCEPTED)
            longest = at;
    }
    SAME(PILLAR_TABLE_LINES * PILLAR_TABLE_LINE_SIZE, longest);
}

static bool is_logged(uint32_t code)
{
    for (size_t i = 0; i < COUNT_OF(logged); i++)
        if (logged[i].code == code)
            return true;
    return false;
}

/* Each value of each byte of a line: the barred codes are those that the core logs by itself. */
static void table_lines(void)
{
    for (at = 0; at < 256; at++) {
        bool bit = at < 32 || at == PILLAR_TABLE_NO_BIT;
        put_line(0, at, PILLAR_LOG_FRAUD, 0, 31);
        SAME(is_logged(at) ? PILLAR_REFUSED_TABLE_CODE : PILLAR_ACCEPTED, pillar_table(table, PILLAR_TABLE_LINE_SIZE));
        put_line(0, 1, at, 0, 31);
        SAME(at - 1 < PILLAR_LOGS ? PILLAR_ACCEPTED : PILLAR_REFUSED_TABLE_LINE, pillar_table(table, PILLAR_TABLE_LINE_SIZE));
        put_line(0, 1, PILLAR_LOG_FRAUD, at, 31);
        SAME(bit ? PILLAR_ACCEPTED : PILLAR_REFUSED_TABLE_LINE, pillar_table(table, PILLAR_TABLE_LINE_SIZE));
        put_line(0, 1, PILLAR_LOG_FRAUD, 0, at);
        SAME(bit ? PILLAR_ACCEPTED : PILLAR_REFUSED_TABLE_LINE, pillar_table(table, PILLAR_TABLE_LINE_SIZE));

        put_lines(2);
        put_line(0, 128, PILLAR_LOG_FRAUD, 0, 31);
        put_line(1, at, PILLAR_LOG_FRAUD, 0, 31);
        SAME(at > 128 && !is_logged(at) ? PILLAR_ACCEPTED : PILLAR_REFUSED_TABLE_CODE, pillar_table(table, 2 * PILLAR_TABLE_LINE_SIZE));
    }
}

/* Codes that are events of this table alone, one that it has otherwise than the built-in one, and their log. */
static const struct event own_events[] = {
    {0, PILLAR_LOG_STANDARD, UINT32_C(1) << 31, 0},
    {PILLAR_EVENT_CLOCK_INVALID, PILLAR_LOG_DISCONNECT, UINT32_C(1) << 2, UINT32_C(1) << 3},
    {254, PILLAR_LOG_FRAUD, 0, UINT32_C(1) << 0},
};

enum { OWN_LINES = COUNT_OF(own_events) };

#define OWN PAGE, table, OWN_LINES * PILLAR_TABLE_LINE_SIZE

static void put_own_table(void)
{
    put_line(0, 0, PILLAR_LOG_STANDARD, 31, PILLAR_TABLE_NO_BIT);
    put_line(1, PILLAR_EVENT_CLOCK_INVALID, PILLAR_LOG_DISCONNECT, 2, 3);
    put_line(2, 254, PILLAR_LOG_FRAUD, PILLAR_TABLE_NO_BIT, 0);
}

static const struct event *own_event_of(uint32_t code)
{
    for (size_t i = 0; i < COUNT_OF(own_events); i++)
        if (own_events[i].code == code)
            return &own_events[i];
    return NULL;
}

/* Every code under the own table, as an event and in each log. */
static void own_table(void)
{
    put_own_table();
    ACCEPTED(pillar_table(table, OWN_LINES * PILLAR_TABLE_LINE_SIZE));
    for (at = 0; at < 1024; at++) {
        const struct event *event = own_event_of(at);
        fresh(0);
        SAME(event ? PILLAR_ACCEPTED : PILLAR_REFUSED_EVENT_CODE, pillar_report_event(OWN, at));
        if (!event)
            continue;
        SAME(at, latest(event->log));
        SAME(event->alarms, pillar_get_alarm_register(page));
        SAME(event->errors, pillar_get_error_register(page));
        ACCEPTED(pillar_check(OWN));
        SAME(PILLAR_REFUSED_PAGE_UNSOUND, pillar_check(METER));
    }
    for (uint32_t log = 1; log <= PILLAR_LOGS; log++) {
        fresh(0);
        ACCEPTED(pillar_clear_log(OWN, log));
        for (at = 0; at < 256; at++) {
            const struct event *event = own_event_of(at);
            bool good = event && event->log == log;
            for (size_t i = 0; i < COUNT_OF(logged); i++)
                good |= logged[i].log == log && logged[i].code == at;
            page[PILLAR_OFFSET_LINE_CODE(log, 0)] = (uint8_t)at;
            SAME(good ? PILLAR_ACCEPTED : PILLAR_REFUSED_PAGE_UNSOUND, pillar_check(OWN));
        }
    }
}

/* A list under the own table, and the calls by name under it. */
static void own_calls(void)
{
    static uint8_t list[2 * PILLAR_RECORD_SIZE];
    static uint8_t replayed[PILLAR_PAGE_SIZE];
    put_own_table();
    list[9 + 3] = list[13 + 3] = 1; /* both durations */
    list[PILLAR_RECORD_SIZE] = PILLAR_KIND_REPORT_EVENT;
    list[PILLAR_RECORD_SIZE + 4] = 254;
    fresh(0);
    ACCEPTED(pillar_report_event(OWN, 254));
    ACCEPTED(pillar_replay(list, sizeof list, table, OWN_LINES * PILLAR_TABLE_LINE_SIZE, replayed, sizeof replayed));
    SAME(0, (uint32_t)(memcmp(page, replayed, sizeof replayed) != 0));
    ACCEPTED(pillar_replay(list, sizeof list, BUILT_IN, replayed, sizeof replayed));
    SAME(1, (uint32_t)(memcmp(page, replayed, sizeof replayed) != 0));

    /* Each call by name has the table: under the built-in one the page is refused. */
    const uint16_t group = 7;
    ACCEPTED(pillar_set_control_mode(OWN, PILLAR_CONTROL_MODE_5));
    ACCEPTED(pillar_sample(OWN, 0, &letter));
    ACCEPTED(pillar_remote_disconnect(OWN, &letter));
    ACCEPTED(pillar_remote_reconnect(OWN, &letter));
    ACCEPTED(pillar_manual_reconnect(OWN, &letter));
    ACCEPTED(pillar_manual_disconnect(OWN, &letter));
    ACCEPTED(pillar_execute_script(OWN, PILLAR_SCRIPT_REMOTE_DISCONNECT, &letter));
    ACCEPTED(pillar_set_limiter(OWN, 0, 1, 1));
    ACCEPTED(pillar_report_event(OWN, PILLAR_EVENT_CLOCK_INVALID));
    SAME((UINT32_C(1) << 3) + 1, pillar_get_error_register(page));
    ACCEPTED(pillar_set_clock(OWN, 7)); /* clears error bit 0, whichever event has raised it */
    SAME(UINT32_C(1) << 3, pillar_get_error_register(page));
    ACCEPTED(pillar_set_alarm_filter(OWN, 0));
    ACCEPTED(pillar_set_error_filter(OWN, 0));
    ACCEPTED(pillar_clear_alarms(OWN, 0));
    ACCEPTED(pillar_clear_errors(OWN, 0));
    ACCEPTED(pillar_set_groups(OWN, &group, 1));
    ACCEPTED(pillar_set_profile(OWN, group, 0, 0, 1));
    ACCEPTED(pillar_clear_log(OWN, PILLAR_LOG_STANDARD));
    SAME(PILLAR_REFUSED_PAGE_UNSOUND, pillar_clear_log(METER, PILLAR_LOG_STANDARD));

    /* With bytes that are no good table the built-in one serves. */
    put_line(0, PILLAR_LOGGED_EVENT_LOG_CLEARED, PILLAR_LOG_STANDARD, 0, 0);
    SAME(PILLAR_REFUSED_PAGE_UNSOUND, pillar_check(OWN));
    fresh(0);
    ACCEPTED(pillar_report_event(OWN, PILLAR_EVENT_CLOCK_INVALID));
    SAME(PILLAR_ERROR_CLOCK_INVALID, pillar_get_error_register(page));
    SAME(PILLAR_REFUSED_EVENT_CODE, pillar_report_event(OWN, 254));
}

/* ---- The switch ---------------------------------------------------------- */

struct rule {
    uint32_t control_mode;
    uint32_t remote_reconnect_to;
    bool manual_disconnect;
    bool local_reconnect;
};

static const struct rule rules[] = {
    {PILLAR_CONTROL_MODE_1, PILLAR_CONTROL_STATE_READY_FOR_RECONNECTION, true, false},
    {PILLAR_CONTROL_MODE_2, PILLAR_CONTROL_STATE_CONNECTED, true, false},
    {PILLAR_CONTROL_MODE_3, PILLAR_CONTROL_STATE_READY_FOR_RECONNECTION, false, false},
    {PILLAR_CONTROL_MODE_4, PILLAR_CONTROL_STATE_CONNECTED, false, false},
    {PILLAR_CONTROL_MODE_5, PILLAR_CONTROL_STATE_READY_FOR_RECONNECTION, true, true},
    {PILLAR_CONTROL_MODE_6, PILLAR_CONTROL_STATE_READY_FOR_RECONNECTION, false, true},
};

static void stands(int line, uint32_t control_state)
{
    same(line, "control state", control_state, pillar_get_control_state(page));
    same(line, "supply", control_state == PILLAR_CONTROL_STATE_CONNECTED, pillar_supply_is_on(page));
}

#define STANDS(name) stands(__LINE__, PILLAR_CONTROL_STATE_##name)

/* What the header says of each control mode is what the core does in it. */
static void control_modes(void)
{
    for (size_t i = 0; i < COUNT_OF(rules); i++) {
        const struct rule *rule = &rules[i];
        fresh(rule->control_mode);
        STANDS(CONNECTED);
        ACCEPTED(pillar_execute_script(METER, PILLAR_SCRIPT_REMOTE_DISCONNECT, &letter));
        STANDS(DISCONNECTED);
        ACCEPTED(pillar_execute_script(METER, PILLAR_SCRIPT_REMOTE_RECONNECT, &letter));
        stands(__LINE__, rule->remote_reconnect_to);
        ACCEPTED(pillar_manual_reconnect(METER, &letter));
        STANDS(CONNECTED);
        SAME(rule->manual_disconnect ? PILLAR_ACCEPTED : PILLAR_REFUSED_MODE_RULE, pillar_manual_disconnect(METER, &letter));
        if (rule->manual_disconnect)
            STANDS(READY_FOR_RECONNECTION);
        ACCEPTED(pillar_manual_reconnect(METER, &letter));
        STANDS(CONNECTED);
        ACCEPTED(pillar_sample(METER, 1, &letter));
        STANDS(READY_FOR_RECONNECTION);
        ACCEPTED(pillar_sample(METER, 0, &letter));
        if (rule->local_reconnect)
            STANDS(CONNECTED);
        else
            STANDS(READY_FOR_RECONNECTION);
        ACCEPTED(pillar_set_control_mode(METER, PILLAR_CONTROL_MODE_NONE));
        STANDS(CONNECTED);
    }
    fresh(PILLAR_CONTROL_MODE_NONE);
    SAME(PILLAR_REFUSED_MODE_RULE, pillar_remote_disconnect(METER, &letter));
    SAME(PILLAR_REFUSED_MODE_RULE, pillar_remote_reconnect(METER, &letter));
    SAME(PILLAR_REFUSED_MODE_RULE, pillar_manual_disconnect(METER, &letter));
    SAME(PILLAR_REFUSED_MODE_RULE, pillar_manual_reconnect(METER, &letter));
    ACCEPTED(pillar_sample(METER, 1, &letter));
    STANDS(CONNECTED);
}

/* ---- The letters --------------------------------------------------------- */

/* A byte that no call stores. */
enum { UNSTORED = 255 };

/* Those of the table of the switch; the limiter's by a sample that makes it fire. */
enum request {
    REMOTE_DISCONNECT,
    REMOTE_RECONNECT,
    MANUAL_DISCONNECT,
    MANUAL_RECONNECT,
    LOCAL_DISCONNECT,
    LOCAL_RECONNECT,
    SCRIPT_DISCONNECT,
    SCRIPT_RECONNECT,
    REQUESTS
};

struct move {
    uint32_t letter;
    uint32_t request;
    uint32_t control_modes;
    uint32_t from;
    uint32_t to;
};

#define MODE(n) (UINT32_C(1) << PILLAR_CONTROL_MODE_##n)
#define MODES_1_TO_6 (MODE(1) | MODE(2) | MODE(3) | MODE(4) | MODE(5) | MODE(6))
#define MOVE(letter, request, control_modes, from, to) \
    {PILLAR_LETTER_##letter, request, control_modes, PILLAR_CONTROL_STATE_##from, PILLAR_CONTROL_STATE_##to}

static const struct move moves[] = {
    MOVE(A, REMOTE_RECONNECT, MODE(2) | MODE(4), DISCONNECTED, CONNECTED),
    MOVE(A, REMOTE_RECONNECT, MODE(2) | MODE(4), READY_FOR_RECONNECTION, CONNECTED),
    MOVE(B, REMOTE_DISCONNECT, MODES_1_TO_6, CONNECTED, DISCONNECTED),
    MOVE(C, REMOTE_DISCONNECT, MODES_1_TO_6, READY_FOR_RECONNECTION, DISCONNECTED),
    MOVE(D, REMOTE_RECONNECT, MODE(1) | MODE(3) | MODE(5) | MODE(6), DISCONNECTED, READY_FOR_RECONNECTION),
    MOVE(E, MANUAL_RECONNECT, MODES_1_TO_6, READY_FOR_RECONNECTION, CONNECTED),
    MOVE(F, MANUAL_DISCONNECT, MODE(1) | MODE(2) | MODE(5), CONNECTED, READY_FOR_RECONNECTION),
    MOVE(G, LOCAL_DISCONNECT, MODES_1_TO_6, CONNECTED, READY_FOR_RECONNECTION),
    MOVE(H, LOCAL_RECONNECT, MODE(5) | MODE(6), READY_FOR_RECONNECTION, CONNECTED),
};

static uint32_t answer_to(uint32_t request)
{
    switch (request) {
    case REMOTE_DISCONNECT:
        return pillar_remote_disconnect(METER, &letter);
    case REMOTE_RECONNECT:
        return pillar_remote_reconnect(METER, &letter);
    case MANUAL_DISCONNECT:
        return pillar_manual_disconnect(METER, &letter);
    case MANUAL_RECONNECT:
        return pillar_manual_reconnect(METER, &letter);
    case LOCAL_DISCONNECT:
        return pillar_sample(METER, 1, &letter);
    case LOCAL_RECONNECT:
        return pillar_sample(METER, 0, &letter);
    case SCRIPT_DISCONNECT:
        return pillar_execute_script(METER, PILLAR_SCRIPT_REMOTE_DISCONNECT, &letter);
    default:
        return pillar_execute_script(METER, PILLAR_SCRIPT_REMOTE_RECONNECT, &letter);
    }
}

/* The request that a script names. */
static uint32_t named_by(uint32_t request)
{
    if (request == SCRIPT_DISCONNECT)
        return REMOTE_DISCONNECT;
    return request == SCRIPT_RECONNECT ? (uint32_t)REMOTE_RECONNECT : request;
}

/* One request in a control mode and a control state: its answer, its letter and where the switch then stands. */
static void letter_of(uint32_t request, uint32_t control_mode, uint32_t control_state)
{
    bool local = request == LOCAL_DISCONNECT || request == LOCAL_RECONNECT;
    bool listed = false;
    uint32_t made = PILLAR_LETTER_NONE;
    uint32_t to = control_state;
    for (size_t i = 0; i < COUNT_OF(moves); i++) {
        const struct move *move = &moves[i];
        if (move->request != named_by(request) || (move->control_modes >> control_mode & 1) == 0)
            continue;
        listed = true;
        if (move->from == control_state) {
            made = move->letter;
            to = move->to;
        }
    }
    fresh(control_mode);
    page[PILLAR_OFFSET_CONTROL_STATE] = (uint8_t)control_state;
    page[PILLAR_OFFSET_EXCEEDED] = request == LOCAL_RECONNECT;
    letter = UNSTORED;
    SAME(listed || local ? PILLAR_ACCEPTED : PILLAR_REFUSED_MODE_RULE, answer_to(request));
    SAME(made, letter);
    stands(__LINE__, to);
}

/* Every request in every control mode and control state; in control mode 0 the switch is connected. */
static void requests(void)
{
    for (at = 0; at < REQUESTS; at++) {
        letter_of(at, PILLAR_CONTROL_MODE_NONE, PILLAR_CONTROL_STATE_CONNECTED);
        for (uint32_t mode = PILLAR_CONTROL_MODE_1; mode <= PILLAR_CONTROL_MODE_6; mode++)
            for (uint32_t state = 0; state < 3; state++)
                letter_of(at, mode, state);
    }
}

/* The other calls store none, control mode 0 among them, which here closes the switch. */
static void without_letter(void)
{
    for (at = PILLAR_KIND_SET_CONTROL_MODE; at <= PILLAR_KIND_CLEAR_LOG; at++) {
        uint32_t one = at != PILLAR_KIND_SET_CONTROL_MODE;
        fresh(PILLAR_CONTROL_MODE_1);
        ACCEPTED(pillar_remote_disconnect(METER, &letter));
        SAME(PILLAR_LETTER_B, letter);
        ACCEPTED(pillar_call(METER, at, one, 1, 1, 0, 0, &letter));
        SAME(PILLAR_LETTER_NONE, letter);
        stands(__LINE__, one ? PILLAR_CONTROL_STATE_DISCONNECTED : PILLAR_CONTROL_STATE_CONNECTED);
    }
    for (at = PILLAR_KIND_SET_GROUPS; at <= PILLAR_KIND_SET_PROFILE; at++) {
        letter = UNSTORED;
        ACCEPTED(pillar_call(METER, at, 1, 0x10000, 1, 1, 0, &letter));
        SAME(PILLAR_LETTER_NONE, letter);
    }
}

/* A call that is refused, whatever for, leaves none where a letter stood. */
static void letter_refused(int line, uint32_t refusal, uint32_t answer)
{
    same(line, "refusal", refusal, answer);
    same(line, "letter of a refused call", PILLAR_LETTER_NONE, letter);
    letter = PILLAR_LETTER_B;
}

#define LETTER_REFUSED(refusal, call) letter_refused(__LINE__, PILLAR_REFUSED_##refusal, call)

static void refused_letters(void)
{
    fresh(PILLAR_CONTROL_MODE_3);
    ACCEPTED(pillar_remote_disconnect(METER, &letter));
    SAME(PILLAR_LETTER_B, letter);
    LETTER_REFUSED(MODE_RULE, pillar_manual_disconnect(METER, &letter));
    LETTER_REFUSED(SCRIPT, pillar_execute_script(METER, 3, &letter));
    LETTER_REFUSED(CONTROL_MODE, pillar_call(METER, PILLAR_KIND_SET_CONTROL_MODE, 7, 0, 0, 0, 0, &letter));
    LETTER_REFUSED(KIND, pillar_call(METER, PILLAR_KIND_SET_PROFILE + 1, 0, 0, 0, 0, 0, &letter));
    LETTER_REFUSED(PAGE_LENGTH, pillar_remote_reconnect(page, PILLAR_PAGE_SIZE - 1, BUILT_IN, &letter));
    page[0] ^= 1;
    LETTER_REFUSED(PAGE_PAIRS, pillar_remote_reconnect(METER, &letter));
    page[0] ^= 1;
    page[PILLAR_OFFSET_CONTROL_STATE] = 3;
    LETTER_REFUSED(PAGE_UNSOUND, pillar_remote_reconnect(METER, &letter));
}

/* ---- The emergency profile and the groups -------------------------------- */

/* Ids that differ in each half; a list may hold one twice. */
static const uint16_t ids[] = {0xa1b2, 0xc3d4, 0xe5f6, 0x0708, 0x191a, 0xffff, 0, 0x0708, 0x2b2c};

/* So many of them, in their order, and nothing past them. */
static void groups_hold(uint32_t count)
{
    FIELD(GROUP_COUNT, count, pillar_get_group_count(page));
    for (uint32_t i = 0; i < PILLAR_GROUPS + 2; i++) {
        uint32_t owed = i < count ? ids[i] : 0;
        SAME(pillar_get_group_id(page, i), owed);
        if (i < PILLAR_GROUPS)
            field(__LINE__, "GROUP_ID", PILLAR_OFFSET_GROUP_ID(i), PILLAR_LENGTH_GROUP_ID, owed, pillar_get_group_id(page, i));
    }
}

static void groups(void)
{
    fresh(0);
    groups_hold(0);
    for (at = 0; at <= PILLAR_GROUPS; at++) {
        ACCEPTED(pillar_set_groups(METER, ids, at));
        groups_hold(at);
    }
    for (at = 0; at <= PILLAR_GROUPS; at++) {
        ACCEPTED(pillar_set_groups(METER, ids, PILLAR_GROUPS - at));
        groups_hold(PILLAR_GROUPS - at);
    }
    SAME(PILLAR_REFUSED_GROUP_COUNT, pillar_set_groups(METER, ids, PILLAR_GROUPS + 1));
    SAME(PILLAR_REFUSED_GROUP_COUNT, pillar_set_groups(METER, ids, 256));
    groups_hold(0);
}

struct profile {
    uint32_t id;
    uint32_t threshold;
    uint32_t activation_time;
    uint32_t duration;
};

/* The profile in this state, with so many samples left. */
static void profile_holds(int line, uint32_t state, struct profile profile, uint32_t left)
{
    same(line, "emergency state", pillar_get_emergency_state(page), state);
    FIELD(EMERGENCY_STATE, state, pillar_get_emergency_state(page));
    FIELD(EMERGENCY_PROFILE_ID, profile.id, pillar_get_emergency_profile_id(page));
    FIELD(EMERGENCY_THRESHOLD, profile.threshold, (uint32_t)pillar_get_emergency_threshold(page));
    FIELD(EMERGENCY_ACTIVATION_TIME, profile.activation_time, pillar_get_emergency_activation_time(page));
    FIELD(EMERGENCY_DURATION, profile.duration, pillar_get_emergency_duration(page));
    FIELD(EMERGENCY_SAMPLES_LEFT, left, pillar_get_emergency_samples_left(page));
    SAME((uint32_t)pillar_get_threshold_in_force(page),
         state == PILLAR_EMERGENCY_STATE_ACTIVE ? profile.threshold : (uint32_t)pillar_get_threshold(page));
}

#define PROFILE_HOLDS(name, profile, left) profile_holds(__LINE__, PILLAR_EMERGENCY_STATE_##name, profile, left)

/* A profile waits, governs its samples, and is gone; normal threshold and groups stay as they were. */
static void emergency(void)
{
    const struct profile none = {0, 0, 0, 0};
    const struct profile some = {0xa1b2, 0x01020304, 0x11121314, 0x010203};
    const struct profile other = {0x0708, 0x7fffffff, 0xfffffffe, 604800};
    ACCEPTED(pillar_fresh(PAGE, PILLAR_CONTROL_MODE_1, 0x05060708, 1, 1, 0x11121312));
    PROFILE_HOLDS(NONE, none, 0);
    SAME(PILLAR_REFUSED_GROUP_ID, pillar_set_profile(METER, 0, 0, 0, 1));
    ACCEPTED(pillar_set_groups(METER, ids, 4));
    SAME(PILLAR_REFUSED_GROUP_ID, pillar_set_profile(METER, 0x2b2c, 0, 0, 1));
    SAME(PILLAR_REFUSED_GROUP_ID, pillar_set_profile(METER, 0x10000 + some.id, 0, 0, 1));
    SAME(PILLAR_REFUSED_PROFILE, pillar_set_profile(METER, some.id, 0, 0, 0));
    SAME(PILLAR_REFUSED_PROFILE, pillar_set_profile(METER, some.id, 0, 0, 604801));
    SAME(PILLAR_REFUSED_PROFILE, pillar_set_profile(METER, some.id, -1, 0, 1));
    PROFILE_HOLDS(NONE, none, 0);

    ACCEPTED(pillar_set_profile(METER, other.id, INT32_MAX, other.activation_time, other.duration));
    PROFILE_HOLDS(WAITING, other, other.duration);
    ACCEPTED(pillar_set_profile(METER, some.id, (int32_t)some.threshold, some.activation_time, some.duration));
    PROFILE_HOLDS(WAITING, some, some.duration);
    ACCEPTED(pillar_sample(METER, 0, &letter));
    PROFILE_HOLDS(WAITING, some, some.duration);
    SAME(pillar_get_log_count(page, PILLAR_LOG_DISCONNECT), 0);
    for (at = 1; at < some.duration; at++) {
        ACCEPTED(pillar_sample(METER, 0, &letter));
        if (at == 1 || at == 2 || at > some.duration - 3)
            PROFILE_HOLDS(ACTIVE, some, some.duration - at);
    }
    SAME(PILLAR_LOGGED_LIMITER_THRESHOLD_CHANGED, latest(PILLAR_LOG_DISCONNECT));
    SAME(pillar_get_log_count(page, PILLAR_LOG_DISCONNECT), 1);
    ACCEPTED(pillar_sample(METER, 0, &letter));
    PROFILE_HOLDS(NONE, none, 0);
    SAME(pillar_get_log_count(page, PILLAR_LOG_DISCONNECT), 2);
    FIELD(THRESHOLD, 0x05060708, (uint32_t)pillar_get_threshold(page));
    groups_hold(4);
}

/* ---- Requests as DLMS bytes ---------------------------------------------- */

/* More bytes than an answer buffer must have, filled anew before each request. */
static uint8_t answer[2 * PILLAR_ANSWER_BUFFER_SIZE];
enum { FILL = 0x5a };

/* What a request answers into so many bytes, under the built-in table; behind the expected answer the buffer keeps its bytes. */
static uint32_t requested(const uint8_t *request, size_t length, uint32_t size, const uint8_t *expected, uint32_t expected_length)
{
    size_t answer_length = ROOM;
    memset(answer, FILL, sizeof answer);
    letter = UNSTORED;
    uint32_t number = pillar_request(METER, request, length, answer, size, &answer_length, &letter);
    SAME(expected_length, (uint32_t)answer_length);
    for (uint32_t i = 0; i < sizeof answer; i++)
        SAME(i < expected_length ? expected[i] : (uint32_t)FILL, answer[i]);
    return number;
}

/* A request that is answered: class and name, attribute or method, what follows it, the answer behind its first three bytes. */
struct exchange {
    uint8_t service;
    uint8_t object[8];
    uint8_t member;
    uint8_t behind[6];
    uint8_t behind_length;
    uint8_t answer[6];
    uint8_t answer_length;
};

#define CONTROL {0, 70, 0, 0, 96, 3, 10, 255}
#define LIMITER {0, 71, 0, 0, 17, 0, 0, 255}
#define ERRORS {0, 1, 0, 0, 97, 97, 0, 255}
#define ALARMS {0, 1, 0, 0, 97, 98, 0, 255}
#define ALARM_FILTER {0, 1, 0, 0, 97, 98, 10, 255}
enum { GET = 0xc0, SET = 0xc1, ACTION = 0xc3, TO_RESPONSE = 4 };

/* In this order on the meter below. */
static const struct exchange exchanges[] = {
    {GET, CONTROL, 2, {0}, 1, {0, 0x03, 1}, 3},
    {GET, CONTROL, 3, {0}, 1, {0, 0x16, PILLAR_CONTROL_STATE_CONNECTED}, 3},
    {GET, CONTROL, 4, {0}, 1, {0, 0x16, PILLAR_CONTROL_MODE_4}, 3},
    {GET, LIMITER, 4, {0}, 1, {0, 0x05, 1, 2, 3, 4}, 6},
    {GET, LIMITER, 6, {0}, 1, {0, 0x06, 0, 1, 5, 6}, 6},
    {GET, LIMITER, 7, {0}, 1, {0, 0x06, 0, 1, 7, 8}, 6},
    {GET, ERRORS, 2, {0}, 1, {0, 0x06, 0, 0, 0, PILLAR_ERROR_REPLACE_BATTERY | PILLAR_ERROR_CLOCK_INVALID}, 6},
    {GET, ALARMS, 2, {0}, 1, {0, 0x06, 0, 0, 0, PILLAR_ALARM_REPLACE_BATTERY}, 6},
    {GET, ALARM_FILTER, 2, {0}, 1, {0, 0x06, 0x11, 0x12, 0x13, 0x14}, 6},
    {GET, CONTROL, 1, {0}, 1, {1, PILLAR_ACCESS_OBJECT_UNDEFINED}, 2},
    {SET, CONTROL, 2, {0, 0x03, 1}, 3, {PILLAR_ACCESS_READ_WRITE_DENIED}, 1},
    {SET, CONTROL, 3, {0, 0x0f, 1}, 3, {PILLAR_ACCESS_TYPE_UNMATCHED}, 1},
    {SET, CONTROL, 5, {0, 0x16, 1}, 3, {PILLAR_ACCESS_OBJECT_UNDEFINED}, 1},
    {SET, CONTROL, 4, {0, 0x16, 7}, 3, {PILLAR_ACCESS_READ_WRITE_DENIED}, 1},
    {SET, LIMITER, 4, {0, 0x05, 0x80, 0, 0, 0}, 6, {PILLAR_ACCESS_READ_WRITE_DENIED}, 1},
    {SET, LIMITER, 6, {0, 0x06, 0, 0, 0, 9}, 6, {PILLAR_ACCESS_SUCCESS}, 1},
    {SET, ERRORS, 2, {0, 0x06, 0xff, 0xff, 0xff, 0xfe}, 6, {PILLAR_ACCESS_SUCCESS}, 1},
    {GET, ERRORS, 2, {0}, 1, {0, 0x06, 0, 0, 0, PILLAR_ERROR_REPLACE_BATTERY}, 6},
    {ACTION, CONTROL, 3, {0}, 1, {PILLAR_ACCESS_OBJECT_UNDEFINED, 0}, 2},
    {ACTION, CONTROL, 1, {0}, 1, {PILLAR_ACCESS_TYPE_UNMATCHED, 0}, 2},
    {ACTION, CONTROL, 1, {1, 0x0f, 0}, 3, {PILLAR_ACCESS_SUCCESS, 0}, 2},
};

static void dlms_requests(void)
{
    uint8_t request[19] = {GET, 1};
    ACCEPTED(pillar_fresh(PAGE, PILLAR_CONTROL_MODE_4, 0x01020304, 0x010506, 0x010708, 0));
    put(PILLAR_OFFSET_ALARM_REGISTER, PILLAR_ALARM_REPLACE_BATTERY);
    page[PILLAR_OFFSET_ALARM_COUNT] = 1;
    put(PILLAR_OFFSET_ALARM_FILTER, 0x11121314);
    put(PILLAR_OFFSET_ERROR_REGISTER, PILLAR_ERROR_REPLACE_BATTERY | PILLAR_ERROR_CLOCK_INVALID);
    for (at = 0; at < COUNT_OF(exchanges); at++) {
        const struct exchange *exchange = &exchanges[at];
        uint8_t expected[9] = {(uint8_t)(exchange->service + TO_RESPONSE), 1, (uint8_t)(0xc0 + at)};
        request[0] = exchange->service;
        request[2] = expected[2];
        memcpy(request + 3, exchange->object, 8);
        request[11] = exchange->member;
        memcpy(request + 12, exchange->behind, exchange->behind_length);
        memcpy(expected + 3, exchange->answer, exchange->answer_length);
        ACCEPTED(requested(request, 12U + exchange->behind_length, PILLAR_ANSWER_BUFFER_SIZE, expected, 3U + exchange->answer_length));
        SAME(exchange->service == ACTION && exchange->answer[0] == PILLAR_ACCESS_SUCCESS ? PILLAR_LETTER_B : PILLAR_LETTER_NONE, letter);
    }
    FIELD(OVER_DURATION, 9, pillar_get_over_duration(page));
    FIELD(UNDER_DURATION, 0x010708, pillar_get_under_duration(page));
    STANDS(DISCONNECTED);

    /* The least buffer, then the page, then the request; the last exchange is refused by its flag. */
    request[12] = 2;
    at = 0;
    while (at < sizeof answer && requested(request, 15, at, answer, 0) == PILLAR_REFUSED_ANSWER_BUFFER)
        at++;
    SAME(PILLAR_ANSWER_BUFFER_SIZE, at);
    SAME(PILLAR_REFUSED_REQUEST, requested(request, 15, at, answer, 0));
    SAME(PILLAR_LETTER_NONE, letter);
    page[PILLAR_OFFSET_CONTROL_STATE] = 3;
    SAME(PILLAR_REFUSED_PAGE_UNSOUND, requested(request, 15, at, answer, 0));
    page[0] ^= 1;
    SAME(PILLAR_REFUSED_PAGE_PAIRS, requested(request, 15, at, answer, 0));
    SAME(PILLAR_REFUSED_ANSWER_BUFFER, requested(request, 15, at - 1, answer, 0));
}

/* ---- Kinds and refusals -------------------------------------------------- */

static void kinds(void)
{
    static uint8_t record[PILLAR_RECORD_SIZE];
    for (at = 0; at < 300; at++) {
        bool known = at >= PILLAR_KIND_SAMPLE && at <= PILLAR_KIND_SET_PROFILE;
        letter = UNSTORED;
        SAME(known ? PILLAR_REFUSED_PAGE_LENGTH : PILLAR_REFUSED_KIND, pillar_call(page, 0, BUILT_IN, at, 0, 0, 0, 0, 0, &letter));
        SAME(PILLAR_LETTER_NONE, letter);
    }
    for (at = 0; at < 256; at++) {
        record[0] = (uint8_t)at;
        SAME(at == PILLAR_KIND_FRESH ? PILLAR_REFUSED_DURATION : PILLAR_REFUSED_LIST_BAD,
             pillar_replay(record, sizeof record, BUILT_IN, PAGE));
    }
}

/* The refusals that do not come up above; a power and a threshold keep their sign. */
static void refusals(void)
{
    fresh(PILLAR_CONTROL_MODE_1);
    SAME(PILLAR_REFUSED_LIST_EMPTY, pillar_replay(page, 0, BUILT_IN, PAGE));
    SAME(PILLAR_REFUSED_CONTROL_MODE, pillar_set_control_mode(METER, 7));
    SAME(PILLAR_REFUSED_CONTROL_MODE, pillar_set_control_mode(METER, 256));
    SAME(PILLAR_REFUSED_SCRIPT, pillar_execute_script(METER, 0, &letter));
    SAME(PILLAR_REFUSED_SCRIPT, pillar_execute_script(METER, 3, &letter));
    SAME(PILLAR_REFUSED_THRESHOLD, pillar_set_limiter(METER, -1, 1, 1));
    SAME(PILLAR_REFUSED_THRESHOLD, pillar_set_limiter(METER, INT32_MIN, 1, 1));
    SAME(PILLAR_REFUSED_DURATION, pillar_set_limiter(METER, 0, 0, 1));
    SAME(PILLAR_REFUSED_DURATION, pillar_set_limiter(METER, 0, 1, 86401));
    ACCEPTED(pillar_sample(METER, INT32_MIN, &letter));
    ACCEPTED(pillar_sample(METER, -1, &letter));
    STANDS(CONNECTED);
    ACCEPTED(pillar_sample(METER, INT32_MAX, &letter));
    STANDS(READY_FOR_RECONNECTION);

    page[0] ^= 1;
    SAME(PILLAR_REFUSED_PAGE_PAIRS, pillar_check(METER));
    page[0] ^= 1;
    page[PILLAR_OFFSET_CONTROL_STATE] = 3;
    SAME(PILLAR_REFUSED_PAGE_UNSOUND, pillar_check(METER));
}

/* ---- The three-phase meter ----------------------------------------------- */

#define PHASES page, THREE_PHASE_PAGE_SIZE
#define PHASES_METER PHASES, BUILT_IN
#define PHASES_OWN PHASES, table, OWN_LINES * PILLAR_TABLE_LINE_SIZE

/* A fresh meter: thresholds of its own for each line, durations of one sample, clock 0. */
static void phases_fresh(uint32_t control_mode)
{
    ACCEPTED(three_phase_fresh(PHASES, control_mode, 10, 20, 30, 40, 1, 1, 0));
}

/* The shortest buffer that is written, the one length that is read, the first record that is whole. */
static void phases_sizes(void)
{
    static const uint8_t zeros[ROOM] = {0};
    at = 0;
    while (at < ROOM && three_phase_fresh(page, at, 0, 0, 0, 0, 0, 1, 1, 0) == PILLAR_REFUSED_BUFFER)
        at++;
    SAME(THREE_PHASE_PAGE_SIZE, at);
    phases_fresh(0);
    for (at = 0; at <= ROOM; at++)
        SAME(at == THREE_PHASE_PAGE_SIZE ? PILLAR_ACCEPTED : PILLAR_REFUSED_PAGE_LENGTH, three_phase_check(page, at, BUILT_IN));

    at = 1;
    while (at < ROOM && three_phase_replay(zeros, at, BUILT_IN, PHASES) == PILLAR_REFUSED_LIST_SHORT)
        at++;
    SAME(THREE_PHASE_RECORD_SIZE, at);
}

#define PHASES_AREA(name) {#name, THREE_PHASE_OFFSET_##name, PILLAR_LENGTH_##name}
#define PHASES_LOG_AREA(log) {#log, THREE_PHASE_OFFSET_LOG(log), PILLAR_LENGTH_LOG}

static const struct area phases_areas[] = {
    PHASES_AREA(CONTROL),
    {"LIMITER", THREE_PHASE_OFFSET_LIMITER, THREE_PHASE_LENGTH_LIMITER},
    PHASES_AREA(CLOCK),
    PHASES_AREA(ALARMS),
    PHASES_AREA(ERRORS),
    PHASES_LOG_AREA(PILLAR_LOG_STANDARD),
    PHASES_LOG_AREA(PILLAR_LOG_FRAUD),
    PHASES_LOG_AREA(PILLAR_LOG_DISCONNECT),
};

static void phases_directory(void)
{
    phases_fresh(0);
    SAME(THREE_PHASE_AREAS, (uint32_t)COUNT_OF(phases_areas));
    areas_fill(phases_areas, COUNT_OF(phases_areas), THREE_PHASE_DIRECTORY_SIZE, THREE_PHASE_PAGE_SIZE);
}

#define PHASES_FIELD(name, value, read) field(__LINE__, #name, THREE_PHASE_OFFSET_##name, PILLAR_LENGTH_##name, value, read)

/* The three fields of a line of the limiter. */
static void line_holds(int source_line, uint32_t line, uint32_t threshold, uint32_t exceeded, uint32_t run)
{
    field(source_line, "THRESHOLD", THREE_PHASE_OFFSET_THRESHOLD(line), PILLAR_LENGTH_THRESHOLD, threshold, (uint32_t)three_phase_get_threshold(page, line));
    field(source_line, "EXCEEDED", THREE_PHASE_OFFSET_EXCEEDED(line), PILLAR_LENGTH_EXCEEDED, exceeded, three_phase_get_exceeded(page, line));
    field(source_line, "RUN", THREE_PHASE_OFFSET_RUN(line), PILLAR_LENGTH_RUN, run, three_phase_get_run(page, line));
}

#define LINE_HOLDS(name, threshold, exceeded, run) line_holds(__LINE__, THREE_PHASE_##name, threshold, exceeded, run)

static void samples_of(uint32_t times, int32_t l1, int32_t l2, int32_t l3)
{
    for (uint32_t i = 0; i < times; i++)
        ACCEPTED(three_phase_sample(PHASES_METER, l1, l2, l3, &letter));
}

/* Every field with bytes of its own. */
static void phases_fields(void)
{
    ACCEPTED(three_phase_fresh(PHASES, PILLAR_CONTROL_MODE_5, 0x01020304, 0x11121314, 0x21222324, 0x31323334, 0x010506, 0x010708, 0x090a0b0c));
    ACCEPTED(three_phase_set_alarm_filter(PHASES_METER, 0x41424344));
    ACCEPTED(three_phase_set_error_filter(PHASES_METER, 0x51525354));
    PHASES_FIELD(CONTROL_MODE, PILLAR_CONTROL_MODE_5, three_phase_get_control_mode(page));
    PHASES_FIELD(CONTROL_STATE, PILLAR_CONTROL_STATE_CONNECTED, three_phase_get_control_state(page));
    PHASES_FIELD(OPENINGS, 0, three_phase_get_openings(page));
    PHASES_FIELD(OVER_DURATION, 0x010506, three_phase_get_over_duration(page));
    PHASES_FIELD(UNDER_DURATION, 0x010708, three_phase_get_under_duration(page));
    LINE_HOLDS(L1, 0x01020304, 0, 0);
    LINE_HOLDS(L2, 0x11121314, 0, 0);
    LINE_HOLDS(L3, 0x21222324, 0, 0);
    LINE_HOLDS(SUM, 0x31323334, 0, 0);
    PHASES_FIELD(CLOCK, 0x090a0b0c, three_phase_get_clock(page));
    PHASES_FIELD(ALARM_REGISTER, 0, three_phase_get_alarm_register(page));
    PHASES_FIELD(ALARM_FILTER, 0x41424344, three_phase_get_alarm_filter(page));
    PHASES_FIELD(ALARM_COUNT, 0, three_phase_get_alarm_count(page));
    PHASES_FIELD(ERROR_REGISTER, 0, three_phase_get_error_register(page));
    PHASES_FIELD(ERROR_FILTER, 0x51525354, three_phase_get_error_filter(page));

    /* One line after the other begins to be over: each has a run of its own. */
    ACCEPTED(three_phase_set_control_mode(PHASES_METER, PILLAR_CONTROL_MODE_6));
    ACCEPTED(three_phase_set_limiter(PHASES_METER, 0x02030405, 0x03040506, 0x04050607, 0x7f414243, 0x015180, 0x014748));
    ACCEPTED(three_phase_set_clock(PHASES_METER, 0xf9fafbfc));
    samples_of(0x0101, 0x02030406, 0, 0);
    samples_of(0x0102, INT32_MAX, 0, 0);
    samples_of(0x0103, INT32_MAX, 0x03040507, 0);
    samples_of(5, INT32_MAX, 0x03040507, 0x04050608);
    PHASES_FIELD(CONTROL_MODE, PILLAR_CONTROL_MODE_6, three_phase_get_control_mode(page));
    PHASES_FIELD(OVER_DURATION, 0x015180, three_phase_get_over_duration(page));
    PHASES_FIELD(UNDER_DURATION, 0x014748, three_phase_get_under_duration(page));
    LINE_HOLDS(L1, 0x02030405, 0, 0x030b);
    LINE_HOLDS(L2, 0x03040506, 0, 0x0108);
    LINE_HOLDS(L3, 0x04050607, 0, 5);
    LINE_HOLDS(SUM, 0x7f414243, 0, 0x020a);
    PHASES_FIELD(CLOCK, 0xf9fafbfc + 0x030b, three_phase_get_clock(page));

    /* The core goes on from a changed page: runs of three bytes, and the end of one. */
    put(THREE_PHASE_OFFSET_RUN(THREE_PHASE_L1), 0x010203);
    put(THREE_PHASE_OFFSET_RUN(THREE_PHASE_L2), 0x010405);
    put(THREE_PHASE_OFFSET_RUN(THREE_PHASE_L3), 0x010607);
    put(THREE_PHASE_OFFSET_RUN(THREE_PHASE_SUM), 0x01517f);
    samples_of(1, INT32_MAX, 0x03040507, 0x04050608);
    LINE_HOLDS(L1, 0x02030405, 0, 0x010204);
    LINE_HOLDS(L2, 0x03040506, 0, 0x010406);
    LINE_HOLDS(L3, 0x04050607, 0, 0x010608);
    LINE_HOLDS(SUM, 0x7f414243, 1, 0);
    PHASES_FIELD(OPENINGS, 1, three_phase_get_openings(page));
    PHASES_FIELD(CONTROL_STATE, PILLAR_CONTROL_STATE_READY_FOR_RECONNECTION, three_phase_get_control_state(page));
    SAME(three_phase_supply_is_on(page), 0);

    phases_fresh(PILLAR_CONTROL_MODE_1);
    SAME(three_phase_supply_is_on(page), 1);
    put(THREE_PHASE_OFFSET_OPENINGS, 0x00ffffff);
    put(THREE_PHASE_OFFSET_ALARM_REGISTER, 0xffffffff);
    page[THREE_PHASE_OFFSET_ALARM_COUNT] = 32;
    put(THREE_PHASE_OFFSET_ERROR_REGISTER, 0xffffffff);
    ACCEPTED(three_phase_remote_disconnect(PHASES_METER, &letter));
    ACCEPTED(three_phase_clear_alarms(PHASES_METER, 0x01020304));
    ACCEPTED(three_phase_clear_errors(PHASES_METER, 0x11121314));
    PHASES_FIELD(OPENINGS, 0x01000000, three_phase_get_openings(page));
    PHASES_FIELD(ALARM_REGISTER, 0xfefdfcfb, three_phase_get_alarm_register(page));
    PHASES_FIELD(ALARM_COUNT, 27, three_phase_get_alarm_count(page));
    PHASES_FIELD(ERROR_REGISTER, 0xeeedeceb, three_phase_get_error_register(page));
}

/* What is not sound in a line of the limiter, on each of the four; nothing is read past them. */
static void phases_unsound(void)
{
    for (at = 0; at < THREE_PHASE_MONITORED_VALUES; at++) {
        phases_fresh(0);
        page[THREE_PHASE_OFFSET_EXCEEDED(at)] = 1;
        ACCEPTED(three_phase_check(PHASES_METER));
        page[THREE_PHASE_OFFSET_EXCEEDED(at)] = 2;
        SAME(PILLAR_REFUSED_PAGE_UNSOUND, three_phase_check(PHASES_METER));
        phases_fresh(0);
        put(THREE_PHASE_OFFSET_RUN(at), 1);
        SAME(PILLAR_REFUSED_PAGE_UNSOUND, three_phase_check(PHASES_METER));
        phases_fresh(0);
        put(THREE_PHASE_OFFSET_THRESHOLD(at), 0x80000000);
        SAME(PILLAR_REFUSED_PAGE_UNSOUND, three_phase_check(PHASES_METER));
    }
    memset(page, 0xff, sizeof page);
    SAME((uint32_t)three_phase_get_threshold(page, THREE_PHASE_MONITORED_VALUES), 0);
    SAME(three_phase_get_exceeded(page, THREE_PHASE_MONITORED_VALUES), 0);
    SAME(three_phase_get_run(page, THREE_PHASE_MONITORED_VALUES), 0);
}

static void phases_logs(void)
{
    ACCEPTED(three_phase_fresh(PHASES, PILLAR_CONTROL_MODE_1, 0, 0, 0, 0, 1, 1, clock_after(0)));
    for (uint32_t settings = 1; settings < 3 * PILLAR_LINES_PER_LOG; settings++) {
        ACCEPTED(three_phase_set_clock(PHASES_METER, clock_after(settings)));
        ACCEPTED(three_phase_report_event(PHASES_METER, line_owed(PILLAR_LOG_FRAUD, settings - 1).code));
        ACCEPTED(three_phase_set_limiter(PHASES_METER, 0, 0, 0, 0, 1, 1));
        log_holds(three_phase_get_log_count, three_phase_get_log_line, PILLAR_LOG_STANDARD, 2 * settings);
        log_holds(three_phase_get_log_count, three_phase_get_log_line, PILLAR_LOG_FRAUD, settings);
        log_holds(three_phase_get_log_count, three_phase_get_log_line, PILLAR_LOG_DISCONNECT, settings);
        log_holds(three_phase_get_log_count, three_phase_get_log_line, 0, 0);
        log_holds(three_phase_get_log_count, three_phase_get_log_line, PILLAR_LOGS + 1, 0);
    }
    for (at = 0; at < 300; at++) {
        phases_fresh(0);
        SAME(at - 1 < PILLAR_LOGS ? PILLAR_ACCEPTED : PILLAR_REFUSED_LOG, three_phase_clear_log(PHASES_METER, at));
        for (uint32_t log = 1; log <= PILLAR_LOGS; log++)
            SAME(three_phase_get_log_count(page, log), log == at);
    }
}

/* The code of a line of log 3, counted from 0. */
static uint32_t logged_at(uint32_t line)
{
    return three_phase_get_log_line(page, PILLAR_LOG_DISCONNECT, line).code;
}

/* Every code as an event and in each log, under the built-in table and the own one. */
static void phases_events(void)
{
    put_own_table();
    for (at = 0; at < 1024; at++) {
        for (int own = 0; own < 2; own++) {
            const struct event *event = own ? own_event_of(at) : event_of(at);
            phases_fresh(0);
            SAME(event ? PILLAR_ACCEPTED : PILLAR_REFUSED_EVENT_CODE,
                 own ? three_phase_report_event(PHASES_OWN, at) : three_phase_report_event(PHASES_METER, at));
            for (uint32_t log = 1; log <= PILLAR_LOGS; log++)
                SAME(event && event->log == log, three_phase_get_log_count(page, log));
            SAME(event ? at : 0, event ? three_phase_get_log_line(page, event->log, 0).code : UINT32_C(0));
            SAME(event ? event->alarms : 0, three_phase_get_alarm_register(page));
            SAME(event ? event->errors : 0, three_phase_get_error_register(page));
            SAME(event && event->alarms != 0, three_phase_get_alarm_count(page));
        }
    }
    for (uint32_t log = 1; log <= PILLAR_LOGS; log++) {
        phases_fresh(0);
        ACCEPTED(three_phase_clear_log(PHASES_METER, log));
        for (at = 0; at < 256; at++) {
            page[THREE_PHASE_OFFSET_LINE_CODE(log, 0)] = (uint8_t)at;
            SAME(has_name(log, at) ? PILLAR_ACCEPTED : PILLAR_REFUSED_PAGE_UNSOUND, three_phase_check(PHASES_METER));
        }
    }
}

/* Powers that are over on one line alone: on each phase, then on the sum. */
static const int32_t over_on[THREE_PHASE_MONITORED_VALUES][3] = {{11, 0, 0}, {0, 21, 0}, {0, 0, 31}, {10, 20, 11}};

/* Each line fires by its own threshold; the sum is never cut. */
static void phases_lines(void)
{
    for (at = 0; at < THREE_PHASE_MONITORED_VALUES; at++) {
        phases_fresh(PILLAR_CONTROL_MODE_6);
        samples_of(1, over_on[at][0], over_on[at][1], over_on[at][2]);
        SAME(PILLAR_LETTER_G, letter);
        for (uint32_t line = 0; line < THREE_PHASE_MONITORED_VALUES; line++)
            line_holds(__LINE__, line, 10 * (line + 1), line == at, 0);
        SAME(PILLAR_LOGGED_LIMITER_THRESHOLD_EXCEEDED, logged_at(0));
        SAME(PILLAR_LOGGED_LOCAL_DISCONNECTION, logged_at(1));
        samples_of(1, 10, 20, 10);
        SAME(PILLAR_LETTER_H, letter);
        SAME(PILLAR_LOGGED_LIMITER_THRESHOLD_OK, logged_at(2));
        SAME(PILLAR_LOGGED_LOCAL_RECONNECTION, logged_at(3));
        SAME(4, three_phase_get_log_count(page, PILLAR_LOG_DISCONNECT));
    }
    at = 0;
    ACCEPTED(three_phase_fresh(PHASES, PILLAR_CONTROL_MODE_6, INT32_MAX, INT32_MAX, INT32_MAX, INT32_MAX, 1, 1, 0));
    samples_of(1, INT32_MIN, INT32_MIN, INT32_MIN);
    samples_of(1, INT32_MIN, -1, 0);
    SAME(0, three_phase_get_log_count(page, PILLAR_LOG_DISCONNECT));
    samples_of(1, INT32_MAX, 1, 0);
    LINE_HOLDS(L1, INT32_MAX, 0, 0);
    LINE_HOLDS(SUM, INT32_MAX, 1, 0);
    samples_of(1, INT32_MAX, INT32_MAX, INT32_MAX);
    LINE_HOLDS(SUM, INT32_MAX, 1, 0);
}

/* Firings in line order, what is tried after them, the key and a setting on all lines. */
static void phases_firings(void)
{
    static const uint32_t owed[] = {
        PILLAR_LOGGED_LIMITER_THRESHOLD_EXCEEDED, PILLAR_LOGGED_LOCAL_DISCONNECTION,
        PILLAR_LOGGED_LIMITER_THRESHOLD_EXCEEDED, PILLAR_LOGGED_LIMITER_THRESHOLD_OK,
        PILLAR_LOGGED_LIMITER_THRESHOLD_EXCEEDED, PILLAR_LOGGED_LIMITER_THRESHOLD_EXCEEDED,
        PILLAR_LOGGED_LIMITER_THRESHOLD_OK, PILLAR_LOGGED_LIMITER_THRESHOLD_OK,
        PILLAR_LOGGED_LIMITER_THRESHOLD_OK, PILLAR_LOGGED_LOCAL_RECONNECTION,
    };
    phases_fresh(PILLAR_CONTROL_MODE_5);
    samples_of(1, 0, 21, 0);
    SAME(PILLAR_LETTER_G, letter);
    samples_of(1, 11, 0, 31);
    SAME(PILLAR_LETTER_NONE, letter);
    samples_of(1, 11, 0, 0);
    SAME(PILLAR_LETTER_NONE, letter);
    samples_of(1, 0, 0, 0);
    SAME(PILLAR_LETTER_H, letter);
    SAME((uint32_t)COUNT_OF(owed), three_phase_get_log_count(page, PILLAR_LOG_DISCONNECT));
    for (at = 0; at < COUNT_OF(owed); at++)
        SAME(owed[at], logged_at(at));

    ACCEPTED(three_phase_set_limiter(PHASES_METER, 10, 20, 30, 40, 1, 9));
    samples_of(1, 11, 21, 31);
    samples_of(3, 0, 0, 0);
    for (at = 0; at < THREE_PHASE_MONITORED_VALUES; at++)
        line_holds(__LINE__, at, 10 * (at + 1), 1, 3);
    ACCEPTED(three_phase_set_limiter(PHASES_METER, 11, 21, 31, 41, 9, 8));
    for (at = 0; at < THREE_PHASE_MONITORED_VALUES; at++)
        line_holds(__LINE__, at, 10 * (at + 1) + 1, 1, 0);
    SAME(17, three_phase_get_log_count(page, PILLAR_LOG_DISCONNECT));
    SAME(PILLAR_LOGGED_LIMITER_THRESHOLD_CHANGED, logged_at(16));
    samples_of(2, 0, 0, 0);
    ACCEPTED(three_phase_manual_reconnect(PHASES_METER, &letter));
    SAME(PILLAR_LETTER_E, letter);
    for (at = 0; at < THREE_PHASE_MONITORED_VALUES; at++)
        line_holds(__LINE__, at, 10 * (at + 1) + 1, 0, 0);
}

/* A call by its name, with as many of the numbers as it takes, under the own table. */
static uint32_t phases_call(uint32_t kind, const uint32_t *n)
{
    letter = PILLAR_LETTER_NONE;
    switch (kind) {
    case 1:
        return three_phase_sample(PHASES_OWN, (int32_t)n[0], (int32_t)n[1], (int32_t)n[2], &letter);
    case 2:
        return three_phase_remote_disconnect(PHASES_OWN, &letter);
    case 3:
        return three_phase_remote_reconnect(PHASES_OWN, &letter);
    case 4:
        return three_phase_manual_disconnect(PHASES_OWN, &letter);
    case 5:
        return three_phase_manual_reconnect(PHASES_OWN, &letter);
    case 6:
        return three_phase_set_control_mode(PHASES_OWN, n[0]);
    case 7:
        return three_phase_set_limiter(PHASES_OWN, (int32_t)n[0], (int32_t)n[1], (int32_t)n[2], (int32_t)n[3], n[4], n[5]);
    case 8:
        return three_phase_set_clock(PHASES_OWN, n[0]);
    case 9:
        return three_phase_report_event(PHASES_OWN, n[0]);
    case 10:
        return three_phase_set_alarm_filter(PHASES_OWN, n[0]);
    case 11:
        return three_phase_set_error_filter(PHASES_OWN, n[0]);
    case 12:
        return three_phase_clear_alarms(PHASES_OWN, n[0]);
    case 13:
        return three_phase_clear_errors(PHASES_OWN, n[0]);
    case 14:
        return three_phase_clear_log(PHASES_OWN, n[0]);
    default:
        return three_phase_execute_script(PHASES_OWN, n[0], &letter);
    }
}

/* Numbers that differ in each place, for every kind; each is accepted by some and refused by others. */
static const uint32_t numbers[][6] = {
    {11, 0, 0, 0, 1, 1},
    {0, 21, 0, 1, 2, 3},
    {0, 0, 31, 4, 86400, 6},
    {1, 2, 3, 4, 5, 86400},
    {2, 5, 7, 9, 11, 13},
    {3, 2, 1, 0xffffffff, 1, 1},
    {6, 1, 0xffffffff, 2, 0, 1},
    {7, 0xffffffff, 3, 2, 1, 0},
    {254, 6, 5, 4, 3, 2},
    {256, 0x102, 0x304, 0x506, 0x708, 0x90a},
    {257, 20, 30, 40, 86401, 1},
    {0xfffffffb, 1, 4, 9, 16, 25},
};

/* Each call by name, from each control state, is three_phase_call with its kind: the number, the letter and the page. */
static void phases_calls(void)
{
    static uint8_t before[ROOM], after[ROOM];
    put_own_table();
    for (at = 1; at <= 15; at++) {
        for (uint32_t i = 0; i < 6 * COUNT_OF(numbers); i++) {
            const uint32_t *n = numbers[i / 6];
            uint8_t named;
            phases_fresh(PILLAR_CONTROL_MODE_5);
            ACCEPTED(three_phase_report_event(PHASES_OWN, 254));
            ACCEPTED(three_phase_report_event(PHASES_OWN, 0));
            page[THREE_PHASE_OFFSET_CONTROL_STATE] = (uint8_t)(i % 3);
            page[THREE_PHASE_OFFSET_EXCEEDED(THREE_PHASE_L1)] = i % 6 >= 3;
            memcpy(before, page, sizeof page);
            uint32_t answer_named = phases_call(at, n);
            named = letter;
            memcpy(after, page, sizeof page);
            memcpy(page, before, sizeof page);
            letter = UNSTORED;
            SAME(answer_named, three_phase_call(PHASES_OWN, at, n[0], n[1], n[2], n[3], n[4], n[5], &letter));
            SAME(named, letter);
            same(__LINE__, "whether the page is another", 0, memcmp(page, after, sizeof page) != 0);
        }
    }
}

/* Every request, and a firing on a line, in every control mode and control state: as on the other meter. */
static void phases_requests(void)
{
    static uint8_t other[ROOM];
    static const uint32_t requested_kinds[][2] = {
        {PILLAR_KIND_REMOTE_DISCONNECT, 0}, {PILLAR_KIND_REMOTE_RECONNECT, 0}, {PILLAR_KIND_MANUAL_DISCONNECT, 0},
        {PILLAR_KIND_MANUAL_RECONNECT, 0}, {PILLAR_KIND_EXECUTE_SCRIPT, PILLAR_SCRIPT_REMOTE_DISCONNECT},
        {PILLAR_KIND_EXECUTE_SCRIPT, PILLAR_SCRIPT_REMOTE_RECONNECT}, {PILLAR_KIND_SAMPLE, 11}, {PILLAR_KIND_SAMPLE, 10},
        {PILLAR_KIND_SET_CONTROL_MODE, PILLAR_CONTROL_MODE_NONE},
    };
    for (uint32_t mode = PILLAR_CONTROL_MODE_NONE; mode <= PILLAR_CONTROL_MODE_6; mode++) {
        for (at = 0; at < 6 * COUNT_OF(requested_kinds); at++) {
            uint32_t kind = requested_kinds[at / 6][0];
            uint32_t n = requested_kinds[at / 6][1];
            uint8_t other_letter = UNSTORED;
            if (mode == PILLAR_CONTROL_MODE_NONE && at % 3 != PILLAR_CONTROL_STATE_CONNECTED)
                continue;
            ACCEPTED(pillar_fresh(other, PILLAR_PAGE_SIZE, mode, 10, 1, 1, 0));
            other[PILLAR_OFFSET_CONTROL_STATE] = (uint8_t)(at % 3);
            other[PILLAR_OFFSET_EXCEEDED] = at % 6 >= 3;
            phases_fresh(mode);
            page[THREE_PHASE_OFFSET_CONTROL_STATE] = (uint8_t)(at % 3);
            page[THREE_PHASE_OFFSET_EXCEEDED(THREE_PHASE_L1)] = at % 6 >= 3;
            letter = UNSTORED;
            SAME(pillar_call(other, PILLAR_PAGE_SIZE, BUILT_IN, kind, n, 0, 0, 0, 0, &other_letter),
                 three_phase_call(PHASES_METER, kind, n, 0, 0, 0, 0, 0, &letter));
            SAME(other_letter, letter);
            SAME(pillar_get_control_state(other), three_phase_get_control_state(page));
            SAME(pillar_supply_is_on(other), three_phase_supply_is_on(page));
            SAME(pillar_get_openings(other), three_phase_get_openings(page));
            for (uint32_t line = 0; line < 3; line++)
                SAME(pillar_get_log_line(other, PILLAR_LOG_DISCONNECT, line).code, logged_at(line));
        }
    }
}

/* A page of one meter is none of the other's, under its own length or the other's. */
static void phases_other_page(void)
{
    size_t answer_length;
    fresh(PILLAR_CONTROL_MODE_1);
    SAME(PILLAR_REFUSED_PAGE_LENGTH, three_phase_check(METER));
    SAME(PILLAR_REFUSED_PAGE_LENGTH, three_phase_remote_disconnect(METER, &letter));
    SAME(PILLAR_REFUSED_PAGE_PAIRS, three_phase_check(PHASES_METER));
    SAME(PILLAR_REFUSED_PAGE_PAIRS, three_phase_remote_disconnect(PHASES_METER, &letter));
    ACCEPTED(pillar_check(METER));
    phases_fresh(PILLAR_CONTROL_MODE_1);
    SAME(PILLAR_REFUSED_PAGE_LENGTH, pillar_check(PHASES_METER));
    SAME(PILLAR_REFUSED_PAGE_LENGTH, pillar_remote_disconnect(PHASES_METER, &letter));
    SAME(PILLAR_REFUSED_PAGE_LENGTH, pillar_request(PHASES_METER, page, 0, answer, sizeof answer, &answer_length, &letter));
    SAME(PILLAR_REFUSED_PAGE_PAIRS, pillar_check(METER));
    SAME(PILLAR_REFUSED_PAGE_PAIRS, pillar_remote_disconnect(METER, &letter));
    SAME(PILLAR_REFUSED_PAGE_PAIRS, pillar_request(METER, page, 0, answer, sizeof answer, &answer_length, &letter));
    ACCEPTED(three_phase_check(PHASES_METER));
}

/* The fifteen kinds, and no other: those of the groups and the profile are refused on a good page too. */
static void phases_kinds(void)
{
    static uint8_t before[ROOM];
    for (at = 0; at < 300; at++) {
        bool known = at >= PILLAR_KIND_SAMPLE && at <= PILLAR_KIND_EXECUTE_SCRIPT;
        letter = UNSTORED;
        SAME(known ? PILLAR_REFUSED_PAGE_LENGTH : PILLAR_REFUSED_KIND, three_phase_call(page, 0, BUILT_IN, at, 0, 0, 0, 0, 0, 0, &letter));
        SAME(PILLAR_LETTER_NONE, letter);
    }
    phases_fresh(PILLAR_CONTROL_MODE_1);
    memcpy(before, page, sizeof page);
    for (at = PILLAR_KIND_SET_GROUPS; at <= PILLAR_KIND_SET_PROFILE; at++) {
        LETTER_REFUSED(KIND, three_phase_call(PHASES_METER, at, 1, 0x10000, 1, 1, 0, 0, &letter));
        same(__LINE__, "whether a refusal changes the page", 0, memcmp(page, before, sizeof page) != 0);
    }
}

/* The refusals in their order; a refused call leaves no letter. */
static void phases_refusals(void)
{
    phases_fresh(PILLAR_CONTROL_MODE_3);
    SAME(PILLAR_REFUSED_CONTROL_MODE, three_phase_fresh(page, 0, 7, -1, 0, 0, 0, 0, 1, 0));
    SAME(PILLAR_REFUSED_THRESHOLD, three_phase_fresh(page, 0, 6, -1, 0, 0, 0, 0, 1, 0));
    SAME(PILLAR_REFUSED_THRESHOLD, three_phase_fresh(page, 0, 6, 0, -1, 0, 0, 0, 1, 0));
    SAME(PILLAR_REFUSED_THRESHOLD, three_phase_fresh(page, 0, 6, 0, 0, -1, 0, 1, 0, 0));
    SAME(PILLAR_REFUSED_THRESHOLD, three_phase_fresh(page, 0, 6, 0, 0, 0, INT32_MIN, 1, 0, 0));
    SAME(PILLAR_REFUSED_DURATION, three_phase_fresh(page, 0, 6, 0, 0, 0, 0, 0, 1, 0));
    SAME(PILLAR_REFUSED_DURATION, three_phase_fresh(page, 0, 6, 0, 0, 0, 0, 1, 86401, 0));
    SAME(PILLAR_REFUSED_BUFFER, three_phase_fresh(page, 0, 6, 0, 0, 0, 0, 1, 86400, 0));
    SAME(PILLAR_REFUSED_CONTROL_MODE, three_phase_set_control_mode(PHASES_METER, 256));
    SAME(PILLAR_REFUSED_THRESHOLD, three_phase_set_limiter(PHASES_METER, -1, 0, 0, 0, 0, 1));
    SAME(PILLAR_REFUSED_THRESHOLD, three_phase_set_limiter(PHASES_METER, 0, -1, 0, 0, 0, 1));
    SAME(PILLAR_REFUSED_THRESHOLD, three_phase_set_limiter(PHASES_METER, 0, 0, -1, 0, 1, 0));
    SAME(PILLAR_REFUSED_THRESHOLD, three_phase_set_limiter(PHASES_METER, 0, 0, 0, INT32_MIN, 1, 0));
    SAME(PILLAR_REFUSED_DURATION, three_phase_set_limiter(PHASES_METER, 0, 0, 0, 0, 86401, 1));
    SAME(PILLAR_REFUSED_DURATION, three_phase_set_limiter(PHASES_METER, 0, 0, 0, 0, 1, 0));
    SAME(PILLAR_REFUSED_LOG, three_phase_clear_log(PHASES_METER, 257));

    ACCEPTED(three_phase_remote_disconnect(PHASES_METER, &letter));
    SAME(PILLAR_LETTER_B, letter);
    LETTER_REFUSED(MODE_RULE, three_phase_manual_disconnect(PHASES_METER, &letter));
    LETTER_REFUSED(SCRIPT, three_phase_execute_script(PHASES_METER, 3, &letter));
    page[THREE_PHASE_OFFSET_CONTROL_STATE] = 3;
    LETTER_REFUSED(PAGE_UNSOUND, three_phase_execute_script(PHASES_METER, 3, &letter));
    page[0] ^= 1;
    LETTER_REFUSED(PAGE_PAIRS, three_phase_execute_script(PHASES_METER, 3, &letter));
    LETTER_REFUSED(PAGE_LENGTH, three_phase_execute_script(page, THREE_PHASE_PAGE_SIZE - 1, BUILT_IN, 3, &letter));
    LETTER_REFUSED(KIND, three_phase_call(page, THREE_PHASE_PAGE_SIZE - 1, BUILT_IN, PILLAR_KIND_FRESH, 3, 0, 0, 0, 0, 0, &letter));
}

/* Records of a list: the kind and eight numbers. */
static const uint32_t records[][9] = {
    {PILLAR_KIND_FRESH, PILLAR_CONTROL_MODE_5, 0x01020304, 0x05060708, 0x090a0b0c, 0x0d0e0f10, 0x010506, 0x010708, 0xf1f2f3f4},
    {PILLAR_KIND_SAMPLE, 0x01020305, 0xffffffff, 0x090a0b0d, 7, 7, 7, 7, 7},
    {PILLAR_KIND_FRESH, 1, 1, 1, 1, 1, 1, 1, 1},
    {PILLAR_KIND_SET_GROUPS, 1, 0x10000, 0, 0, 0, 0, 0, 0},
    {PILLAR_KIND_SET_PROFILE, 1, 1, 1, 1, 1, 1, 1, 1},
    {PILLAR_KIND_SET_LIMITER, 1, 2, 3, 4, 5, 6, 7, 8},
    {PILLAR_KIND_REPORT_EVENT, 254, 7, 7, 7, 7, 7, 7, 7},
    {PILLAR_KIND_EXECUTE_SCRIPT, 1, 7, 7, 7, 7, 7, 7, 7},
};

enum { RECORDS = COUNT_OF(records) };

/* A list leaves the page that its calls leave, under its table; its refusals in their order. */
static void phases_list(void)
{
    static uint8_t list[RECORDS * THREE_PHASE_RECORD_SIZE];
    static uint8_t called[ROOM], replayed[ROOM];
    put_own_table();
    for (uint32_t i = 0; i < RECORDS; i++) {
        uint8_t *record = list + i * THREE_PHASE_RECORD_SIZE;
        record[0] = (uint8_t)records[i][0];
        for (uint32_t j = 0; j < 32; j++)
            record[1 + j] = (uint8_t)(records[i][1 + j / 4] >> (24 - 8 * (j % 4)));
    }
    const uint32_t *first = records[0];
    memset(page, FILL, sizeof page);
    ACCEPTED(three_phase_fresh(page, sizeof page, first[1], (int32_t)first[2], (int32_t)first[3], (int32_t)first[4], (int32_t)first[5], first[6], first[7], first[8]));
    for (uint32_t i = 1; i < RECORDS; i++) {
        const uint32_t *n = records[i];
        bool known = n[0] >= PILLAR_KIND_SAMPLE && n[0] <= PILLAR_KIND_EXECUTE_SCRIPT;
        SAME(known ? PILLAR_ACCEPTED : PILLAR_REFUSED_KIND, three_phase_call(PHASES_OWN, n[0], n[1], n[2], n[3], n[4], n[5], n[6], &letter));
    }
    memcpy(called, page, sizeof page);
    memset(replayed, FILL, sizeof replayed);
    ACCEPTED(three_phase_replay(list, sizeof list, table, OWN_LINES * PILLAR_TABLE_LINE_SIZE, replayed, sizeof replayed));
    SAME(0, (uint32_t)(memcmp(called, replayed, sizeof called) != 0));
    ACCEPTED(three_phase_replay(list, sizeof list, BUILT_IN, replayed, sizeof replayed));
    SAME(1, (uint32_t)(memcmp(called, replayed, sizeof called) != 0));

    SAME(PILLAR_REFUSED_BUFFER, three_phase_replay(list, sizeof list, BUILT_IN, page, THREE_PHASE_PAGE_SIZE - 1));
    SAME(PILLAR_REFUSED_LIST_SHORT, three_phase_replay(list, sizeof list - 1, BUILT_IN, page, 0));
    put_number(list + 25, 0);
    SAME(PILLAR_REFUSED_DURATION, three_phase_replay(list, sizeof list - 1, BUILT_IN, page, 0));
    put_number(list + 17, 0xffffffff);
    SAME(PILLAR_REFUSED_THRESHOLD, three_phase_replay(list, sizeof list - 1, BUILT_IN, page, 0));
    put_number(list + 1, 7);
    SAME(PILLAR_REFUSED_CONTROL_MODE, three_phase_replay(list, sizeof list - 1, BUILT_IN, page, 0));
    for (at = 1; at < 256; at++) {
        list[0] = (uint8_t)at;
        SAME(PILLAR_REFUSED_LIST_BAD, three_phase_replay(list, sizeof list - 1, BUILT_IN, page, 0));
    }
    SAME(PILLAR_REFUSED_LIST_SHORT, three_phase_replay(list, THREE_PHASE_RECORD_SIZE - 1, BUILT_IN, page, 0));
    SAME(PILLAR_REFUSED_LIST_EMPTY, three_phase_replay(list, 0, BUILT_IN, page, 0));
    SAME(0, (uint32_t)(memcmp(called, page, sizeof page) != 0));
}

/* ---- Berths, energy and tariff ------------------------------------------- */

/* Whether numbers of more than 32 bits are the same. */
#define EQUAL(header, core) same(__LINE__, #core, 1, (header) == (core))

/* The most berths that are taken; the powers that a berth may have. */
static void berths(void)
{
    static struct column_berth column[PILLAR_BERTHS + 2];
    SAME(PILLAR_REFUSED_BERTH_COUNT, column_allot(0, column, 0));
    for (at = 1; at <= PILLAR_BERTHS; at++)
        ACCEPTED(column_allot(0, column, at));
    SAME(PILLAR_REFUSED_BERTH_COUNT, column_allot(0, column, PILLAR_BERTHS + 1));
    SAME(PILLAR_REFUSED_BERTH_POWER, column_allot(-1, column, 1));

    struct column_berth two[2] = {{6, 9, 8, -1}, {2, 7, -5, -1}};
    SAME(PILLAR_REFUSED_GUARANTEE_SUM, column_allot(7, two, 2));
    SAME((uint32_t)-1, (uint32_t)two[0].allotment);
    ACCEPTED(column_allot(8, two, 2));
    SAME(8, (uint32_t)two[0].allotment);
    SAME(0, (uint32_t)two[1].allotment);
    SAME(6, (uint32_t)two[0].guarantee);
    SAME(9, (uint32_t)two[0].cap);
    SAME(8, (uint32_t)two[0].demand);
    two[1].cap = 1;
    SAME(PILLAR_REFUSED_BERTH_POWER, column_allot(8, two, 2));
}

/* Each number of a day by its place; the most samples, remainders and joined watt-hours. */
static void energy(void)
{
    static int32_t samples[PILLAR_DAY_SAMPLES + 2];
    uint64_t day[5] = {0, 0, 0, 0, 0}, other[5] = {0, 0, 0, 0, 0};
    samples[0] = 2 * PILLAR_WATT_HOUR + 5;
    samples[1] = -3 * PILLAR_WATT_HOUR - 7;
    SAME(PILLAR_REFUSED_SAMPLE_COUNT, energy_of_day(samples, PILLAR_DAY_SAMPLES + 1, day));
    EQUAL(0, day[PILLAR_IMPORT_WATT_HOURS]);
    ACCEPTED(energy_of_day(samples, PILLAR_DAY_SAMPLES, day));
    EQUAL(2, day[PILLAR_IMPORT_WATT_HOURS]);
    EQUAL(5, day[PILLAR_IMPORT_WATT_SECONDS]);
    EQUAL(3, day[PILLAR_EXPORT_WATT_HOURS]);
    EQUAL(7, day[PILLAR_EXPORT_WATT_SECONDS]);

    other[PILLAR_IMPORT_WATT_SECONDS] = PILLAR_WATT_HOUR;
    SAME(PILLAR_REFUSED_REMAINDER, energy_join(day, other));
    other[PILLAR_IMPORT_WATT_SECONDS] = PILLAR_WATT_HOUR - 1;
    ACCEPTED(energy_join(day, other));
    EQUAL(3, day[PILLAR_IMPORT_WATT_HOURS]);
    EQUAL(4, day[PILLAR_IMPORT_WATT_SECONDS]);
    other[PILLAR_EXPORT_WATT_HOURS] = PILLAR_MOST_JOINED - 2;
    SAME(PILLAR_REFUSED_JOINED_ENERGY, energy_join(day, other));
    other[PILLAR_EXPORT_WATT_HOURS] = PILLAR_MOST_JOINED - 3;
    ACCEPTED(energy_join(day, other));
    EQUAL(PILLAR_MOST_JOINED, day[PILLAR_EXPORT_WATT_HOURS]);
}

/* The rates that are judged and charged; the most that a bill takes. */
static void tariff(void)
{
    uint32_t prices[PILLAR_RATES + 1], rest = PILLAR_KILOWATT_HOUR;
    uint64_t imports[2 * PILLAR_RATES + 2], cents = 77;
    for (at = 0; at <= PILLAR_RATES; at++) {
        prices[at] = at < PILLAR_RATES ? PILLAR_HIGHEST_PRICE : UINT32_MAX;
        imports[2 * at] = at < PILLAR_RATES ? PILLAR_MOST_BILLED : UINT64_MAX;
        imports[2 * at + 1] = at < PILLAR_RATES ? PILLAR_WATT_HOUR - 1 : UINT64_MAX;
    }
    SAME(PILLAR_REFUSED_REST, tariff_bill(prices, imports, &rest, &cents));
    SAME(PILLAR_KILOWATT_HOUR, rest);
    EQUAL(77, cents);
    for (at = 0; at < PILLAR_RATES; at++) {
        prices[at]++;
        SAME(PILLAR_REFUSED_PRICE, tariff_bill(prices, imports, &rest, &cents));
        prices[at]--;
    }
    rest--;
    for (at = 0; at < 2 * PILLAR_RATES; at++) {
        imports[at]++;
        SAME(PILLAR_REFUSED_IMPORT, tariff_bill(prices, imports, &rest, &cents));
        imports[at]--;
    }
    ACCEPTED(tariff_bill(prices, imports, &rest, &cents));
    EQUAL(UINT64_C(8589934595999), cents);
    SAME(3199999, rest);
}

int main(void)
{
    sizes();
    directory();
    fields();
    logs();
    reports();
    alarm_count();
    codes();
    lines();
    table_sizes();
    table_lines();
    own_table();
    own_calls();
    control_modes();
    requests();
    without_letter();
    refused_letters();
    groups();
    emergency();
    dlms_requests();
    kinds();
    refusals();
    phases_sizes();
    phases_directory();
    phases_fields();
    phases_unsound();
    phases_logs();
    phases_events();
    phases_lines();
    phases_firings();
    phases_calls();
    phases_requests();
    phases_other_page();
    phases_kinds();
    phases_refusals();
    phases_list();
    berths();
    energy();
    tariff();
    if (differences != 0)
        printf("differences: %u\n", differences);
    return differences != 0;
}
