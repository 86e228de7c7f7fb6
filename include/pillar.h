/*
 * The switching core of the pillar meter, as C and C++ see it: the archive is
 * target/staticlib/libpillar.a, for x86-64, made by `tools/archive pillar`. It
 * needs memcpy and memset, and nothing else. This header is C99 and C++11.
 *
 * A meter's state is its page of PILLAR_PAGE_SIZE bytes, which the caller
 * keeps, beside the event table that belongs to it ('The event table' below).
 * The core does no input or output. It keeps nothing between calls, allocates
 * nothing, and takes at most PILLAR_STACK bytes of stack, pillar_request at most
 * PILLAR_STACK_REQUEST. Two threads may call it at once on pages, letters and
 * answer buffers of their own; they may share a table.
 *
 * For a meter the archive has six functions: pillar_table, pillar_fresh,
 * pillar_call, pillar_replay, pillar_check and pillar_request; for the three-phase
 * meter, which has a page of its own, four ('The three-phase meter' below); for the
 * harbour's office four, at the end of this header. Each answers 0, or the number
 * of a refusal. On a refusal every byte of the page is as it was. Each of the six
 * is proved to answer and to write what crates/pillar/specs/Interface.antt says (of
 * pillar_table, crates/tables/specs/Bytes.antt; of pillar_replay,
 * crates/replay/specs/Replay.antt; of pillar_request,
 * crates/pillar/specs/Request.antt), and each of the four for the three-phase meter
 * what crates/phases_interface/specs/Interface.antt says (of three_phase_replay,
 * crates/phases_replay/specs/Replay.antt), for every length and every number. The rest
 * of this header, names, offsets and inline functions, is not proved: the gate
 * compares it with what the archive writes and answers (tests/header).
 *
 * The caller gives, for each pointer with a length, that many bytes that may be
 * read and, but for a const pointer, written. A `letter` is one byte that may be
 * written. The page, the table and the letter do not overlap. No pointer is null,
 * even if the length is 0, and a length is below 2^63.
 *
 * Names are those of DLMS and of 003, the Mx381 manual. Letters of moves are
 * those of document 01's table of the switch.
 */
#ifndef PILLAR_H
#define PILLAR_H

#include <stddef.h>
#include <stdint.h>
#ifndef __cplusplus
#include <stdbool.h>
#endif

#ifdef __cplusplus
extern "C" {
#endif

/*
 * The version of this interface: major, if a program that uses it or a page
 * that it has kept has to change; minor, if something is added; else patch. A
 * page bears no version: one that is laid out otherwise is refused by its
 * length or its pairs.
 */
#define PILLAR_VERSION_MAJOR 5
#define PILLAR_VERSION_MINOR 7
#define PILLAR_VERSION_PATCH 2
#define PILLAR_VERSION \
    (PILLAR_VERSION_MAJOR * 10000 + PILLAR_VERSION_MINOR * 100 + PILLAR_VERSION_PATCH)

/*
 * Bytes of stack that a call of a function takes at most, whatever it is given: the
 * arguments that lie there, the return address, and all that it needs below. No
 * proof covers them: tests/stack measures them on x86-64 with that machine's memcpy
 * and memset, and adds up the frames of the machine code. An inline function of this
 * header takes its own frame besides.
 */
#define PILLAR_STACK_REQUEST 9216 /* pillar_request */
#define PILLAR_STACK 4608         /* every other function of the archive */

/* ---- The page ------------------------------------------------------------
 *
 * A directory, one pair of offset and length for each area, then the areas;
 * all numbers are big-endian. Only the numbers down to PILLAR_LENGTH_GROUP_ID
 * are given: every area's length, every offset and the page's size follow.
 */
#define PILLAR_AREAS 9
#define PILLAR_PAIR_SIZE 4 /* offset 2, length 2 */
#define PILLAR_LOGS 3
#define PILLAR_LINES_PER_LOG 32
#define PILLAR_GROUPS 8 /* the most that can be set */

/* Control: how the switch stands. */
#define PILLAR_LENGTH_CONTROL_MODE 1
#define PILLAR_LENGTH_CONTROL_STATE 1
#define PILLAR_LENGTH_OPENINGS 4

/* Limiter. */
#define PILLAR_LENGTH_THRESHOLD 4
#define PILLAR_LENGTH_OVER_DURATION 4
#define PILLAR_LENGTH_UNDER_DURATION 4
#define PILLAR_LENGTH_EXCEEDED 1
#define PILLAR_LENGTH_RUN 4

/* Clock: an area of one field. */
#define PILLAR_LENGTH_CLOCK 4

/* Alarms, errors: a register and its filter each; behind those of the alarms, how many stand. */
#define PILLAR_LENGTH_ALARM_REGISTER 4
#define PILLAR_LENGTH_ALARM_FILTER 4
#define PILLAR_LENGTH_ALARM_COUNT 1
#define PILLAR_LENGTH_ERROR_REGISTER 4
#define PILLAR_LENGTH_ERROR_FILTER 4

/* A log: the count, then its lines, oldest first; lines past the count are zero. */
#define PILLAR_LENGTH_LOG_COUNT 1
#define PILLAR_LENGTH_LINE_CLOCK 4
#define PILLAR_LENGTH_LINE_CODE 1

/* Emergency profile, zero where there is none, and groups; ids past their count are zero. */
#define PILLAR_LENGTH_EMERGENCY_PROFILE_ID 2
#define PILLAR_LENGTH_EMERGENCY_THRESHOLD 4
#define PILLAR_LENGTH_EMERGENCY_ACTIVATION_TIME 4
#define PILLAR_LENGTH_EMERGENCY_DURATION 4
#define PILLAR_LENGTH_EMERGENCY_SAMPLES_LEFT 4
#define PILLAR_LENGTH_EMERGENCY_STATE 1
#define PILLAR_LENGTH_GROUP_COUNT 1
#define PILLAR_LENGTH_GROUP_ID 2

#define PILLAR_DIRECTORY_SIZE (PILLAR_AREAS * PILLAR_PAIR_SIZE)
#define PILLAR_LINE_SIZE (PILLAR_LENGTH_LINE_CLOCK + PILLAR_LENGTH_LINE_CODE)

#define PILLAR_LENGTH_CONTROL \
    (PILLAR_LENGTH_CONTROL_MODE + PILLAR_LENGTH_CONTROL_STATE + PILLAR_LENGTH_OPENINGS)
#define PILLAR_LENGTH_LIMITER \
    (PILLAR_LENGTH_THRESHOLD + PILLAR_LENGTH_OVER_DURATION + PILLAR_LENGTH_UNDER_DURATION \
     + PILLAR_LENGTH_EXCEEDED + PILLAR_LENGTH_RUN)
#define PILLAR_LENGTH_ALARMS \
    (PILLAR_LENGTH_ALARM_REGISTER + PILLAR_LENGTH_ALARM_FILTER + PILLAR_LENGTH_ALARM_COUNT)
#define PILLAR_LENGTH_ERRORS (PILLAR_LENGTH_ERROR_REGISTER + PILLAR_LENGTH_ERROR_FILTER)
#define PILLAR_LENGTH_LOG (PILLAR_LENGTH_LOG_COUNT + PILLAR_LINES_PER_LOG * PILLAR_LINE_SIZE)
#define PILLAR_LENGTH_EMERGENCY \
    (PILLAR_LENGTH_EMERGENCY_PROFILE_ID + PILLAR_LENGTH_EMERGENCY_THRESHOLD \
     + PILLAR_LENGTH_EMERGENCY_ACTIVATION_TIME + PILLAR_LENGTH_EMERGENCY_DURATION \
     + PILLAR_LENGTH_EMERGENCY_SAMPLES_LEFT + PILLAR_LENGTH_EMERGENCY_STATE \
     + PILLAR_LENGTH_GROUP_COUNT + PILLAR_GROUPS * PILLAR_LENGTH_GROUP_ID)

#define PILLAR_OFFSET_CONTROL PILLAR_DIRECTORY_SIZE
#define PILLAR_OFFSET_CONTROL_MODE PILLAR_OFFSET_CONTROL
#define PILLAR_OFFSET_CONTROL_STATE (PILLAR_OFFSET_CONTROL_MODE + PILLAR_LENGTH_CONTROL_MODE)
#define PILLAR_OFFSET_OPENINGS (PILLAR_OFFSET_CONTROL_STATE + PILLAR_LENGTH_CONTROL_STATE)

#define PILLAR_OFFSET_LIMITER (PILLAR_OFFSET_CONTROL + PILLAR_LENGTH_CONTROL)
#define PILLAR_OFFSET_THRESHOLD PILLAR_OFFSET_LIMITER
#define PILLAR_OFFSET_OVER_DURATION (PILLAR_OFFSET_THRESHOLD + PILLAR_LENGTH_THRESHOLD)
#define PILLAR_OFFSET_UNDER_DURATION (PILLAR_OFFSET_OVER_DURATION + PILLAR_LENGTH_OVER_DURATION)
#define PILLAR_OFFSET_EXCEEDED (PILLAR_OFFSET_UNDER_DURATION + PILLAR_LENGTH_UNDER_DURATION)
#define PILLAR_OFFSET_RUN (PILLAR_OFFSET_EXCEEDED + PILLAR_LENGTH_EXCEEDED)

#define PILLAR_OFFSET_CLOCK (PILLAR_OFFSET_LIMITER + PILLAR_LENGTH_LIMITER)

#define PILLAR_OFFSET_ALARMS (PILLAR_OFFSET_CLOCK + PILLAR_LENGTH_CLOCK)
#define PILLAR_OFFSET_ALARM_REGISTER PILLAR_OFFSET_ALARMS
#define PILLAR_OFFSET_ALARM_FILTER (PILLAR_OFFSET_ALARM_REGISTER + PILLAR_LENGTH_ALARM_REGISTER)
#define PILLAR_OFFSET_ALARM_COUNT (PILLAR_OFFSET_ALARM_FILTER + PILLAR_LENGTH_ALARM_FILTER)

#define PILLAR_OFFSET_ERRORS (PILLAR_OFFSET_ALARMS + PILLAR_LENGTH_ALARMS)
#define PILLAR_OFFSET_ERROR_REGISTER PILLAR_OFFSET_ERRORS
#define PILLAR_OFFSET_ERROR_FILTER (PILLAR_OFFSET_ERROR_REGISTER + PILLAR_LENGTH_ERROR_REGISTER)

/* The logs, each an area: `log` is one of enum pillar_log, `line` counts from 0. */
#define PILLAR_OFFSET_LOGS (PILLAR_OFFSET_ERRORS + PILLAR_LENGTH_ERRORS)
#define PILLAR_OFFSET_LOG(log) (PILLAR_OFFSET_LOGS + ((log) - 1) * PILLAR_LENGTH_LOG)
#define PILLAR_OFFSET_LOG_COUNT(log) PILLAR_OFFSET_LOG(log)
#define PILLAR_OFFSET_LINE_CLOCK(log, line) \
    (PILLAR_OFFSET_LOG_COUNT(log) + PILLAR_LENGTH_LOG_COUNT + (line) * PILLAR_LINE_SIZE)
#define PILLAR_OFFSET_LINE_CODE(log, line) \
    (PILLAR_OFFSET_LINE_CLOCK(log, line) + PILLAR_LENGTH_LINE_CLOCK)

/* `place` counts from 0. */
#define PILLAR_OFFSET_EMERGENCY (PILLAR_OFFSET_LOGS + PILLAR_LOGS * PILLAR_LENGTH_LOG)
#define PILLAR_OFFSET_EMERGENCY_PROFILE_ID PILLAR_OFFSET_EMERGENCY
#define PILLAR_OFFSET_EMERGENCY_THRESHOLD \
    (PILLAR_OFFSET_EMERGENCY_PROFILE_ID + PILLAR_LENGTH_EMERGENCY_PROFILE_ID)
#define PILLAR_OFFSET_EMERGENCY_ACTIVATION_TIME \
    (PILLAR_OFFSET_EMERGENCY_THRESHOLD + PILLAR_LENGTH_EMERGENCY_THRESHOLD)
#define PILLAR_OFFSET_EMERGENCY_DURATION \
    (PILLAR_OFFSET_EMERGENCY_ACTIVATION_TIME + PILLAR_LENGTH_EMERGENCY_ACTIVATION_TIME)
#define PILLAR_OFFSET_EMERGENCY_SAMPLES_LEFT \
    (PILLAR_OFFSET_EMERGENCY_DURATION + PILLAR_LENGTH_EMERGENCY_DURATION)
#define PILLAR_OFFSET_EMERGENCY_STATE \
    (PILLAR_OFFSET_EMERGENCY_SAMPLES_LEFT + PILLAR_LENGTH_EMERGENCY_SAMPLES_LEFT)
#define PILLAR_OFFSET_GROUP_COUNT (PILLAR_OFFSET_EMERGENCY_STATE + PILLAR_LENGTH_EMERGENCY_STATE)
#define PILLAR_OFFSET_GROUP_ID(place) \
    (PILLAR_OFFSET_GROUP_COUNT + PILLAR_LENGTH_GROUP_COUNT + (place) * PILLAR_LENGTH_GROUP_ID)

/* Bytes of a page, and of a record in the list that pillar_replay takes. */
#define PILLAR_PAGE_SIZE (PILLAR_OFFSET_EMERGENCY + PILLAR_LENGTH_EMERGENCY)
#define PILLAR_RECORD_SIZE 21

/* ---- The event table -----------------------------------------------------
 *
 * Which codes pillar_report_event takes, the log of each and the bits that it
 * sets. Each function that reads a page or runs a list takes the bytes of a
 * table: with length 0 the built-in one serves (enum pillar_event); else the
 * harbour's own, 1 to PILLAR_TABLE_LINES lines of PILLAR_TABLE_LINE_SIZE bytes:
 *
 *   code       rising from line to line; those of enum pillar_logged are barred
 *   log        one of enum pillar_log
 *   alarm bit  its place in the alarm register, 0 to 31, or PILLAR_TABLE_NO_BIT
 *   error bit  its place in the error register, likewise
 *
 * One table belongs to one page: keep the two together, under one checksum. The
 * codes in a page's logs are judged by the table, and an own table takes nothing
 * from the built-in one: a code that it does not list is refused. A new table
 * begins with a fresh page.
 *
 * No call refuses a table: with bytes that are no good table it does as with the
 * built-in one. So judge what was kept at power-up, before the first call:
 *
 *   pillar_table refuses the table: make no call on its page. With these bytes
 *   the built-in table would serve: a page whose logs hold another code would be
 *   refused (PILLAR_REFUSED_PAGE_UNSOUND), and on any other page events would
 *   get other logs and bits. Take the spare copy of the table. Without a good
 *   one keep the page for the centre, begin a fresh one under the built-in table
 *   (length 0), and tell the centre; report no event by the harbour's codes until
 *   a good table has come, which begins another fresh page.
 *
 *   pillar_check refuses the page under its table: the page is damaged, or the
 *   table is another page's. Take the spare copy of both. Without one begin a
 *   fresh page, and tell the centre.
 *
 * A fresh page says Connected and has no openings, logs or alarms: its account
 * begins anew, and the relay is not to follow it before the centre has said
 * whether there is to be supply. Neither test finds a good table in place of
 * another under which the page is sound, too: the checksum does.
 */
#define PILLAR_TABLE_LINE_SIZE 4
#define PILLAR_TABLE_LINES 64 /* the most */
#define PILLAR_TABLE_NO_BIT 255

/* ---- Numbers by name ----------------------------------------------------- */

/* The answers. Where several hold, a function stops at the first in its own order. */
enum pillar_answer {
    PILLAR_ACCEPTED = 0,
    PILLAR_REFUSED_CONTROL_MODE = 1,   /* fresh, set control mode: above 6 */
    PILLAR_REFUSED_MODE_RULE = 2,      /* a request, also by script: not in this control mode */
    PILLAR_REFUSED_SCRIPT = 3,         /* execute script: not 1 or 2 */
    PILLAR_REFUSED_THRESHOLD = 4,      /* fresh, set limiter: negative */
    PILLAR_REFUSED_DURATION = 5,       /* fresh, set limiter: not 1 to 86400 */
    PILLAR_REFUSED_EVENT_CODE = 6,     /* report event: not of the table */
    PILLAR_REFUSED_LOG = 7,            /* clear log: not 1 to 3 */
    PILLAR_REFUSED_BUFFER = 8,         /* writer: under the meter's page size */
    PILLAR_REFUSED_PAGE_LENGTH = 9,    /* reader: not the meter's page size */
    PILLAR_REFUSED_PAGE_PAIRS = 10,    /* reader: a pair of the directory differs */
    PILLAR_REFUSED_PAGE_UNSOUND = 11,  /* reader: what it holds would not be sound under the table */
    PILLAR_REFUSED_METER_UNSOUND = 12, /* never from C: the reader stops it with 11 */
    PILLAR_REFUSED_KIND = 13,          /* call: not 1 to 17, of a three-phase meter not 1 to 15 */
    PILLAR_REFUSED_GROUP_COUNT = 14,   /* set groups: above 8 */
    PILLAR_REFUSED_GROUP_ID = 15,      /* set profile: the id is not one of the groups' */
    PILLAR_REFUSED_PROFILE = 16,       /* set profile: threshold negative, or duration not 1 to 604800 */
    PILLAR_REFUSED_TABLE_LENGTH = 17,  /* table: not 1 to 64 whole lines */
    PILLAR_REFUSED_TABLE_CODE = 18,    /* table: code barred, or not above the line before */
    PILLAR_REFUSED_TABLE_LINE = 19,    /* table: log not 1 to 3, or a bit of 32 to 254 */
    PILLAR_REFUSED_REQUEST = 20,       /* request: the bytes are no whole request */
    PILLAR_REFUSED_ANSWER_BUFFER = 21, /* request: answer under PILLAR_ANSWER_BUFFER_SIZE bytes */
    PILLAR_REFUSED_BERTH_COUNT = 22,   /* allot: none, or above PILLAR_BERTHS */
    PILLAR_REFUSED_BERTH_POWER = 23,   /* allot: limit, guarantee or cap negative, or guarantee above cap */
    PILLAR_REFUSED_GUARANTEE_SUM = 24, /* allot: above the limit */
    PILLAR_REFUSED_SAMPLE_COUNT = 25,  /* energy of day: above PILLAR_DAY_SAMPLES */
    PILLAR_REFUSED_REMAINDER = 26,     /* join: watt-seconds not below PILLAR_WATT_HOUR */
    PILLAR_REFUSED_JOINED_ENERGY = 27, /* join: watt-hours above PILLAR_MOST_JOINED */
    PILLAR_REFUSED_PRICE = 28,         /* bill: above PILLAR_HIGHEST_PRICE */
    PILLAR_REFUSED_REST = 29,          /* bill: not below PILLAR_KILOWATT_HOUR */
    PILLAR_REFUSED_IMPORT = 30,        /* bill: above PILLAR_MOST_BILLED, or watt-seconds not below PILLAR_WATT_HOUR */
    PILLAR_REFUSED_LIST_EMPTY = 100,   /* replay: no byte */
    PILLAR_REFUSED_LIST_BAD = 101,     /* replay: the first record is not of kind 0 */
    PILLAR_REFUSED_LIST_SHORT = 102    /* replay: a record is cut short */
};

/* The kinds of calls, with the numbers that each takes; the others are ignored. */
enum pillar_kind {
    PILLAR_KIND_FRESH = 0,             /* only the first record of a list: see pillar_replay */
    PILLAR_KIND_SAMPLE = 1,            /* power in watts, two's complement */
    PILLAR_KIND_REMOTE_DISCONNECT = 2,
    PILLAR_KIND_REMOTE_RECONNECT = 3,
    PILLAR_KIND_MANUAL_DISCONNECT = 4,
    PILLAR_KIND_MANUAL_RECONNECT = 5,
    PILLAR_KIND_SET_CONTROL_MODE = 6,  /* control mode */
    PILLAR_KIND_SET_LIMITER = 7,       /* threshold in watts (as power), over and under duration */
    PILLAR_KIND_SET_CLOCK = 8,         /* seconds */
    PILLAR_KIND_REPORT_EVENT = 9,      /* code of the table */
    PILLAR_KIND_SET_ALARM_FILTER = 10, /* filter */
    PILLAR_KIND_SET_ERROR_FILTER = 11, /* filter */
    PILLAR_KIND_CLEAR_ALARMS = 12,     /* mask */
    PILLAR_KIND_CLEAR_ERRORS = 13,     /* mask */
    PILLAR_KIND_CLEAR_LOG = 14,        /* log */
    PILLAR_KIND_EXECUTE_SCRIPT = 15,   /* script */
    PILLAR_KIND_SET_GROUPS = 16,       /* count; ids, two to a number, the first in its high half */
    PILLAR_KIND_SET_PROFILE = 17       /* id, threshold (as power), activation time, duration */
};

/* Control state (003, 6.9.2). Supply flows only in PILLAR_CONTROL_STATE_CONNECTED. */
enum pillar_control_state {
    PILLAR_CONTROL_STATE_DISCONNECTED = 0,
    PILLAR_CONTROL_STATE_CONNECTED = 1,
    PILLAR_CONTROL_STATE_READY_FOR_RECONNECTION = 2
};

/*
 * Control mode (003, Table 56). In each but 0 the centre disconnects, the
 * limiter disconnects, and the key connects a switch that is ready.
 */
enum pillar_control_mode {
    PILLAR_CONTROL_MODE_NONE = 0, /* always connected: every request is refused */
    PILLAR_CONTROL_MODE_1 = 1,    /* remote reconnect to ready; the key disconnects */
    PILLAR_CONTROL_MODE_2 = 2,    /* remote reconnect to connected; the key disconnects */
    PILLAR_CONTROL_MODE_3 = 3,    /* remote reconnect to ready */
    PILLAR_CONTROL_MODE_4 = 4,    /* remote reconnect to connected */
    PILLAR_CONTROL_MODE_5 = 5,    /* as 1, and the limiter reconnects */
    PILLAR_CONTROL_MODE_6 = 6     /* as 3, and the limiter reconnects */
};

/*
 * The letter of the move that a call made, as its ASCII byte: each with its
 * control modes, and from where to where. g and h are the limiter's, made by a
 * sample; a script makes the move of the request that it names.
 */
enum pillar_letter {
    PILLAR_LETTER_NONE = 0, /* refused, nothing moved, or control mode 0 accepted */
    PILLAR_LETTER_A = 97,   /* 'a' remote reconnect, 2 and 4: disconnected or ready to connected */
    PILLAR_LETTER_B = 98,   /* 'b' remote disconnect, 1 to 6: connected to disconnected */
    PILLAR_LETTER_C = 99,   /* 'c' remote disconnect, 1 to 6: ready to disconnected */
    PILLAR_LETTER_D = 100,  /* 'd' remote reconnect, 1, 3, 5 and 6: disconnected to ready */
    PILLAR_LETTER_E = 101,  /* 'e' manual reconnect, 1 to 6: ready to connected */
    PILLAR_LETTER_F = 102,  /* 'f' manual disconnect, 1, 2 and 5: connected to ready */
    PILLAR_LETTER_G = 103,  /* 'g' local disconnect, 1 to 6: connected to ready */
    PILLAR_LETTER_H = 104   /* 'h' local reconnect, 5 and 6: ready to connected */
};

/* Whether there is an emergency profile. Only the threshold of an active one is in force. */
enum pillar_emergency_state {
    PILLAR_EMERGENCY_STATE_NONE = 0,
    PILLAR_EMERGENCY_STATE_WAITING = 1,
    PILLAR_EMERGENCY_STATE_ACTIVE = 2
};

enum pillar_script {
    PILLAR_SCRIPT_REMOTE_DISCONNECT = 1,
    PILLAR_SCRIPT_REMOTE_RECONNECT = 2
};

enum pillar_log {
    PILLAR_LOG_STANDARD = 1,
    PILLAR_LOG_FRAUD = 2,
    PILLAR_LOG_DISCONNECT = 3
};

/* The codes of the built-in table, log by log (003, Tables 44, 45 and 47). */
enum pillar_event {
    PILLAR_EVENT_POWER_DOWN = 1,
    PILLAR_EVENT_POWER_UP = 2,
    PILLAR_EVENT_CLOCK_INVALID = 6,
    PILLAR_EVENT_REPLACE_BATTERY = 7,
    PILLAR_EVENT_BATTERY_VOLTAGE_LOW = 8,
    PILLAR_EVENT_PROGRAM_MEMORY_ERROR = 12,
    PILLAR_EVENT_RAM_ERROR = 13,
    PILLAR_EVENT_NV_MEMORY_ERROR = 14, /* non-volatile */
    PILLAR_EVENT_WATCHDOG_ERROR = 15,
    PILLAR_EVENT_MEASUREMENT_SYSTEM_ERROR = 16,

    PILLAR_EVENT_TERMINAL_COVER_REMOVED = 40,
    PILLAR_EVENT_TERMINAL_COVER_CLOSED = 41,
    PILLAR_EVENT_STRONG_DC_FIELD_DETECTED = 42,
    PILLAR_EVENT_NO_STRONG_DC_FIELD_ANYMORE = 43,
    PILLAR_EVENT_METER_COVER_REMOVED = 44,
    PILLAR_EVENT_METER_COVER_CLOSED = 45,
    PILLAR_EVENT_ASSOCIATION_AUTHENTICATION_FAILURE = 46,

    PILLAR_EVENT_DISCONNECT_RECONNECT_FAILURE = 68
};

/* The codes that the core logs by itself, under any table: barred there, and refused as events. */
enum pillar_logged {
    PILLAR_LOGGED_CLOCK_ADJUSTED_OLD_DATE_TIME = 4, /* at the old clock */
    PILLAR_LOGGED_CLOCK_ADJUSTED_NEW_DATE_TIME = 5, /* at the new clock */
    PILLAR_LOGGED_ERROR_REGISTER_CLEARED = 10,
    PILLAR_LOGGED_ALARM_REGISTER_CLEARED = 11,

    PILLAR_LOGGED_DISCONNECTER_READY_FOR_MANUAL_RECONNECTION = 59,
    PILLAR_LOGGED_MANUAL_DISCONNECTION = 60,
    PILLAR_LOGGED_MANUAL_CONNECTION = 61,
    PILLAR_LOGGED_REMOTE_DISCONNECTION = 62,
    PILLAR_LOGGED_REMOTE_CONNECTION = 63,
    PILLAR_LOGGED_LOCAL_DISCONNECTION = 64,
    PILLAR_LOGGED_LIMITER_THRESHOLD_EXCEEDED = 65,
    PILLAR_LOGGED_LIMITER_THRESHOLD_OK = 66,
    PILLAR_LOGGED_LIMITER_THRESHOLD_CHANGED = 67,
    PILLAR_LOGGED_LOCAL_RECONNECTION = 69,

    PILLAR_LOGGED_EVENT_LOG_CLEARED = 255 /* in each log */
};

/* The alarm bits that built-in events set (003, Table 50); an own table may name others. */
#define PILLAR_ALARM_CLOCK_INVALID (UINT32_C(1) << 0)
#define PILLAR_ALARM_REPLACE_BATTERY (UINT32_C(1) << 1)
#define PILLAR_ALARM_PROGRAM_MEMORY_ERROR (UINT32_C(1) << 8)
#define PILLAR_ALARM_RAM_ERROR (UINT32_C(1) << 9)
#define PILLAR_ALARM_NV_MEMORY_ERROR (UINT32_C(1) << 10)
#define PILLAR_ALARM_MEASUREMENT_SYSTEM_ERROR (UINT32_C(1) << 11)
#define PILLAR_ALARM_WATCHDOG_ERROR (UINT32_C(1) << 12)
#define PILLAR_ALARM_FRAUD_ATTEMPT (UINT32_C(1) << 13)

/* The error bits that built-in events set (003, Table 53); an own table may name others. */
#define PILLAR_ERROR_CLOCK_INVALID (UINT32_C(1) << 0)
#define PILLAR_ERROR_REPLACE_BATTERY (UINT32_C(1) << 1)
#define PILLAR_ERROR_PROGRAM_MEMORY_ERROR (UINT32_C(1) << 8)
#define PILLAR_ERROR_RAM_ERROR (UINT32_C(1) << 9)
#define PILLAR_ERROR_NV_MEMORY_ERROR (UINT32_C(1) << 10)
#define PILLAR_ERROR_MEASUREMENT_SYSTEM_ERROR (UINT32_C(1) << 11)
#define PILLAR_ERROR_WATCHDOG_ERROR (UINT32_C(1) << 12)

/* ---- The functions of the archive ---------------------------------------- */

/*
 * Whether bytes are a good event table: PILLAR_REFUSED_TABLE_LENGTH; then by the
 * first faulty line .._TABLE_CODE, then .._TABLE_LINE. Without a byte it is the
 * first: the built-in table needs no test.
 */
uint32_t pillar_table(const uint8_t *table, size_t table_length);

/*
 * Writes the page of a fresh meter into the first PILLAR_PAGE_SIZE bytes; bytes
 * past them stay. Its logs are empty, so it is the same under every table.
 * Answers PILLAR_REFUSED_CONTROL_MODE, .._THRESHOLD, .._DURATION, then
 * .._BUFFER.
 */
uint32_t pillar_fresh(uint8_t *page, size_t length, uint32_t control_mode,
                      int32_t threshold, uint32_t over_duration,
                      uint32_t under_duration, uint32_t clock);

/*
 * One of the seventeen calls on the meter of a page, under the page's table; the
 * page is then that of the meter after the call. `kind` is one of enum
 * pillar_kind; 0 and any other is PILLAR_REFUSED_KIND, whatever the page holds.
 * Then it answers PILLAR_REFUSED_PAGE_LENGTH, .._PAGE_PAIRS, .._PAGE_UNSOUND,
 * then the refusals of the call. Each kind has an inline function below.
 *
 * Into *letter it stores the letter of the move that it made, one of enum
 * pillar_letter: always, so that a refused call leaves PILLAR_LETTER_NONE there.
 */
uint32_t pillar_call(uint8_t *page, size_t length, const uint8_t *table,
                     size_t table_length, uint32_t kind, uint32_t n1,
                     uint32_t n2, uint32_t n3, uint32_t n4, uint32_t n5,
                     uint8_t *letter);

/*
 * Runs a whole list of records of PILLAR_RECORD_SIZE bytes, all of it and the
 * page that it leaves under one table. A record is the kind, then five
 * big-endian numbers of 32 bits. The first is PILLAR_KIND_FRESH (control mode,
 * threshold, over duration, under duration, clock); the others are calls,
 * refused ones among them. Writes the page of the list's history into the first
 * PILLAR_PAGE_SIZE bytes of `page`; bytes past them stay. Answers
 * PILLAR_REFUSED_LIST_EMPTY, .._LIST_SHORT (the first record), .._LIST_BAD, the
 * refusals of fresh, .._LIST_SHORT (a later record), then .._BUFFER. The page
 * must overlap neither the records nor the table.
 */
uint32_t pillar_replay(const uint8_t *records, size_t records_length,
                       const uint8_t *table, size_t table_length,
                       uint8_t *page, size_t page_length);

/*
 * Whether pillar_call can read a page under a table: PILLAR_REFUSED_PAGE_LENGTH,
 * .._PAGE_PAIRS, .._PAGE_UNSOUND.
 */
uint32_t pillar_check(const uint8_t *page, size_t length, const uint8_t *table,
                      size_t table_length);

/* ---- Requests as DLMS bytes ----------------------------------------------
 *
 * The network centre's requests as it sends them (document 02, A9): the Green
 * Book's GET, SET and ACTION normal requests, unciphered, without selective
 * access. Covered are, as in the Blue Book:
 *
 *   class 70, 0-0:96.3.10.255: attribute 2 (boolean), 3 and 4 (enum), only 4
 *     writable; methods 1 (remote disconnect) and 2 (remote reconnect)
 *   class 71, 0-0:17.0.0.255: attribute 4, the normal threshold (double-long), 6
 *     and 7, over and under duration (double-long-unsigned)
 *   class 1, attribute 2 (double-long-unsigned): 0-0:97.97.0.255, the error
 *     register; 0-0:97.98.0.255, the alarm register; 0-0:97.98.10.255, the alarm
 *     filter
 */

/* The least bytes of an answer buffer. */
#define PILLAR_ANSWER_BUFFER_SIZE 32

/*
 * The result that an answer bears, the Green Book's Data-Access-Result or
 * Action-Result: the first of object-undefined, type-unmatched and
 * read-write-denied that holds, else success. A GET that reads has its data in
 * the result's place.
 */
enum pillar_access_result {
    PILLAR_ACCESS_SUCCESS = 0,
    PILLAR_ACCESS_READ_WRITE_DENIED = 3, /* not writable, or the named call is refused */
    PILLAR_ACCESS_OBJECT_UNDEFINED = 4,  /* no such object, attribute or method */
    PILLAR_ACCESS_TYPE_UNMATCHED = 12    /* data of another type, or a method without data */
};

/*
 * Answers a request on the meter of a page, under the page's table. The answer goes into the first bytes
 * of `answer`, *answer_length is how many, and *letter is the letter of the move
 * that the named call made, as pillar_call stores it. Both are always stored: 0
 * and PILLAR_LETTER_NONE where there is no answer or no move.
 *
 * It answers PILLAR_REFUSED_ANSWER_BUFFER, then PILLAR_REFUSED_PAGE_LENGTH,
 * .._PAGE_PAIRS, .._PAGE_UNSOUND, then PILLAR_REFUSED_REQUEST; else
 * PILLAR_ACCEPTED, whatever the result.
 *
 * A SET of an attribute of class 71 is pillar_set_limiter with the other two
 * kept; of the control mode, pillar_set_control_mode; of the alarm filter,
 * pillar_set_alarm_filter; of the errors or the alarms, pillar_clear_errors or
 * pillar_clear_alarms with the bits that are zero in the value. The page is
 * written only after a SET or an ACTION whose result is success. A refusal leaves
 * page and answer buffer as they were; the buffer's bytes past an answer always
 * stay.
 *
 * No two of page, answer, *answer_length and *letter overlap, nor does any of
 * them overlap the table or the request.
 */
uint32_t pillar_request(uint8_t *page, size_t length, const uint8_t *table,
                        size_t table_length, const uint8_t *request,
                        size_t request_length, uint8_t *answer,
                        size_t answer_size, size_t *answer_length,
                        uint8_t *letter);

/* ---- The seventeen calls by name -----------------------------------------
 *
 * Each is pillar_call with its kind, under the page's table, and answers as it
 * does. Numbers go over whole: a control mode of 256 is refused, and never taken
 * for 0. Those that can make a move with a letter (the sample, the requests, the
 * script) store it as pillar_call does; the others never make one, also where
 * control mode 0 closes the switch, and take no `letter`.
 */

/* One second's power in watts; export is negative. */
static inline uint32_t pillar_sample(uint8_t *page, size_t length, const uint8_t *table,
                                     size_t table_length, int32_t watts, uint8_t *letter)
{
    return pillar_call(page, length, table, table_length, PILLAR_KIND_SAMPLE, (uint32_t)watts, 0,
                       0, 0, 0, letter);
}

/* The network centre's requests. */
static inline uint32_t pillar_remote_disconnect(uint8_t *page, size_t length, const uint8_t *table,
                                                size_t table_length, uint8_t *letter)
{
    return pillar_call(page, length, table, table_length, PILLAR_KIND_REMOTE_DISCONNECT, 0, 0, 0,
                       0, 0, letter);
}

static inline uint32_t pillar_remote_reconnect(uint8_t *page, size_t length, const uint8_t *table,
                                               size_t table_length, uint8_t *letter)
{
    return pillar_call(page, length, table, table_length, PILLAR_KIND_REMOTE_RECONNECT, 0, 0, 0, 0,
                       0, letter);
}

/* The holder's, by the key. */
static inline uint32_t pillar_manual_disconnect(uint8_t *page, size_t length, const uint8_t *table,
                                                size_t table_length, uint8_t *letter)
{
    return pillar_call(page, length, table, table_length, PILLAR_KIND_MANUAL_DISCONNECT, 0, 0, 0,
                       0, 0, letter);
}

static inline uint32_t pillar_manual_reconnect(uint8_t *page, size_t length, const uint8_t *table,
                                               size_t table_length, uint8_t *letter)
{
    return pillar_call(page, length, table, table_length, PILLAR_KIND_MANUAL_RECONNECT, 0, 0, 0, 0,
                       0, letter);
}

static inline uint32_t pillar_set_control_mode(uint8_t *page, size_t length, const uint8_t *table,
                                               size_t table_length, uint32_t control_mode)
{
    uint8_t none;
    return pillar_call(page, length, table, table_length, PILLAR_KIND_SET_CONTROL_MODE,
                       control_mode, 0, 0, 0, 0, &none);
}

/*
 * The threshold in watts, 0 or more; both durations in samples, 1 to 86400. The
 * threshold of an active emergency profile stays in force.
 */
static inline uint32_t pillar_set_limiter(uint8_t *page, size_t length, const uint8_t *table,
                                          size_t table_length, int32_t threshold,
                                          uint32_t over_duration, uint32_t under_duration)
{
    uint8_t none;
    return pillar_call(page, length, table, table_length, PILLAR_KIND_SET_LIMITER,
                       (uint32_t)threshold, over_duration, under_duration, 0, 0, &none);
}

static inline uint32_t pillar_set_clock(uint8_t *page, size_t length, const uint8_t *table,
                                        size_t table_length, uint32_t seconds)
{
    uint8_t none;
    return pillar_call(page, length, table, table_length, PILLAR_KIND_SET_CLOCK, seconds, 0, 0, 0,
                       0, &none);
}

/* A code of the table: with the built-in one, of enum pillar_event. */
static inline uint32_t pillar_report_event(uint8_t *page, size_t length, const uint8_t *table,
                                           size_t table_length, uint32_t code)
{
    uint8_t none;
    return pillar_call(page, length, table, table_length, PILLAR_KIND_REPORT_EVENT, code, 0, 0, 0,
                       0, &none);
}

/* A one hides its bit from later events; bits that are set stay set. */
static inline uint32_t pillar_set_alarm_filter(uint8_t *page, size_t length, const uint8_t *table,
                                               size_t table_length, uint32_t filter)
{
    uint8_t none;
    return pillar_call(page, length, table, table_length, PILLAR_KIND_SET_ALARM_FILTER, filter, 0,
                       0, 0, 0, &none);
}

static inline uint32_t pillar_set_error_filter(uint8_t *page, size_t length, const uint8_t *table,
                                               size_t table_length, uint32_t filter)
{
    uint8_t none;
    return pillar_call(page, length, table, table_length, PILLAR_KIND_SET_ERROR_FILTER, filter, 0,
                       0, 0, 0, &none);
}

/* The ones of the mask are cleared. */
static inline uint32_t pillar_clear_alarms(uint8_t *page, size_t length, const uint8_t *table,
                                           size_t table_length, uint32_t mask)
{
    uint8_t none;
    return pillar_call(page, length, table, table_length, PILLAR_KIND_CLEAR_ALARMS, mask, 0, 0, 0,
                       0, &none);
}

static inline uint32_t pillar_clear_errors(uint8_t *page, size_t length, const uint8_t *table,
                                           size_t table_length, uint32_t mask)
{
    uint8_t none;
    return pillar_call(page, length, table, table_length, PILLAR_KIND_CLEAR_ERRORS, mask, 0, 0, 0,
                       0, &none);
}

/* The log then holds one line, PILLAR_LOGGED_EVENT_LOG_CLEARED. */
static inline uint32_t pillar_clear_log(uint8_t *page, size_t length, const uint8_t *table,
                                        size_t table_length, uint32_t log)
{
    uint8_t none;
    return pillar_call(page, length, table, table_length, PILLAR_KIND_CLEAR_LOG, log, 0, 0, 0, 0,
                       &none);
}

static inline uint32_t pillar_execute_script(uint8_t *page, size_t length, const uint8_t *table,
                                             size_t table_length, uint32_t script, uint8_t *letter)
{
    return pillar_call(page, length, table, table_length, PILLAR_KIND_EXECUTE_SCRIPT, script, 0, 0,
                       0, 0, letter);
}

/*
 * The ids of the groups, at most PILLAR_GROUPS: `ids` has `count` of them. They
 * replace those set before. An emergency profile stays, whether it waits or is
 * active. A count above PILLAR_GROUPS is PILLAR_REFUSED_GROUP_COUNT, and no more
 * than PILLAR_GROUPS ids are read.
 */
static inline uint32_t pillar_set_groups(uint8_t *page, size_t length, const uint8_t *table,
                                         size_t table_length, const uint16_t *ids, uint32_t count)
{
    uint8_t none;
    uint32_t n[PILLAR_GROUPS / 2] = {0};
    for (uint32_t i = 0; i < count && i < PILLAR_GROUPS; i++)
        n[i / 2] |= (uint32_t)ids[i] << (i % 2 == 0 ? 16 : 0);
    return pillar_call(page, length, table, table_length, PILLAR_KIND_SET_GROUPS, count, n[0],
                       n[1], n[2], n[3], &none);
}

/*
 * An emergency profile, which replaces any earlier one and waits. The first
 * sample whose clock has reached the activation time makes it active: from that
 * one on, its threshold in watts, 0 or more, is in force for as many samples as
 * the duration says, 1 to 604800. Over an active one the normal threshold is in
 * force again at once. The id is one of the groups', else it is
 * PILLAR_REFUSED_GROUP_ID; then PILLAR_REFUSED_PROFILE.
 */
static inline uint32_t pillar_set_profile(uint8_t *page, size_t length, const uint8_t *table,
                                          size_t table_length, uint32_t id, int32_t threshold,
                                          uint32_t activation_time, uint32_t duration)
{
    uint8_t none;
    return pillar_call(page, length, table, table_length, PILLAR_KIND_SET_PROFILE, id,
                       (uint32_t)threshold, activation_time, duration, 0, &none);
}

/* ---- Reading off a page --------------------------------------------------
 *
 * Each takes PILLAR_PAGE_SIZE bytes and does not test them: pillar_check does,
 * and a page that the core wrote and nobody changed since is a good one.
 */

/* A big-endian number of 32 bits. */
static inline uint32_t pillar_get_number(const uint8_t *page, size_t offset)
{
    return (uint32_t)page[offset] << 24 | (uint32_t)page[offset + 1] << 16
           | (uint32_t)page[offset + 2] << 8 | (uint32_t)page[offset + 3];
}

/* A big-endian id of 16 bits. */
static inline uint16_t pillar_get_id(const uint8_t *page, size_t offset)
{
    return (uint16_t)(page[offset] << 8 | page[offset + 1]);
}

/* One of enum pillar_control_mode. */
static inline uint8_t pillar_get_control_mode(const uint8_t *page)
{
    return page[PILLAR_OFFSET_CONTROL_MODE];
}

/* One of enum pillar_control_state. */
static inline uint8_t pillar_get_control_state(const uint8_t *page)
{
    return page[PILLAR_OFFSET_CONTROL_STATE];
}

static inline bool pillar_supply_is_on(const uint8_t *page)
{
    return pillar_get_control_state(page) == PILLAR_CONTROL_STATE_CONNECTED;
}

/* How often the switch has left the state Connected, held at 4294967295. */
static inline uint32_t pillar_get_openings(const uint8_t *page)
{
    return pillar_get_number(page, PILLAR_OFFSET_OPENINGS);
}

/* The limiter's normal threshold, in watts. */
static inline int32_t pillar_get_threshold(const uint8_t *page)
{
    return (int32_t)pillar_get_number(page, PILLAR_OFFSET_THRESHOLD);
}

/* Over and under duration, in samples. */
static inline uint32_t pillar_get_over_duration(const uint8_t *page)
{
    return pillar_get_number(page, PILLAR_OFFSET_OVER_DURATION);
}

static inline uint32_t pillar_get_under_duration(const uint8_t *page)
{
    return pillar_get_number(page, PILLAR_OFFSET_UNDER_DURATION);
}

/* Whether the limiter has fired over, and not under since, nor was armed again by the key. */
static inline bool pillar_get_exceeded(const uint8_t *page)
{
    return page[PILLAR_OFFSET_EXCEEDED] != 0;
}

/* The latest samples in a row that count towards the next firing. */
static inline uint32_t pillar_get_run(const uint8_t *page)
{
    return pillar_get_number(page, PILLAR_OFFSET_RUN);
}

/* In seconds, held at 4294967295. */
static inline uint32_t pillar_get_clock(const uint8_t *page)
{
    return pillar_get_number(page, PILLAR_OFFSET_CLOCK);
}

/* PILLAR_ALARM_.. bits. */
static inline uint32_t pillar_get_alarm_register(const uint8_t *page)
{
    return pillar_get_number(page, PILLAR_OFFSET_ALARM_REGISTER);
}

static inline uint32_t pillar_get_alarm_filter(const uint8_t *page)
{
    return pillar_get_number(page, PILLAR_OFFSET_ALARM_FILTER);
}

/*
 * How many alarms stand, 0 to 32: the bits that are one in the alarm register,
 * whatever the filter. A display reads it with one load, the byte at
 * PILLAR_OFFSET_ALARM_COUNT, and counts no bits.
 */
static inline uint8_t pillar_get_alarm_count(const uint8_t *page)
{
    return page[PILLAR_OFFSET_ALARM_COUNT];
}

/* PILLAR_ERROR_.. bits. */
static inline uint32_t pillar_get_error_register(const uint8_t *page)
{
    return pillar_get_number(page, PILLAR_OFFSET_ERROR_REGISTER);
}

static inline uint32_t pillar_get_error_filter(const uint8_t *page)
{
    return pillar_get_number(page, PILLAR_OFFSET_ERROR_FILTER);
}

/* The lines that a log holds; 0 for a number that is not of enum pillar_log. */
static inline uint8_t pillar_get_log_count(const uint8_t *page, uint32_t log)
{
    if (log - 1 >= PILLAR_LOGS)
        return 0;
    return page[PILLAR_OFFSET_LOG_COUNT(log)];
}

/* A line of a log. Its code is of the page's table or of enum pillar_logged. */
struct pillar_line {
    uint32_t clock;
    uint8_t code;
};

/* Line 0 is the oldest. Clock 0 and code 0 past the count, and where there is no such log. */
static inline struct pillar_line pillar_get_log_line(const uint8_t *page, uint32_t log,
                                                     uint32_t line)
{
    struct pillar_line found = {0, 0};
    if (log - 1 < PILLAR_LOGS && line < PILLAR_LINES_PER_LOG) {
        found.clock = pillar_get_number(page, PILLAR_OFFSET_LINE_CLOCK(log, line));
        found.code = page[PILLAR_OFFSET_LINE_CODE(log, line)];
    }
    return found;
}

/* One of enum pillar_emergency_state. */
static inline uint8_t pillar_get_emergency_state(const uint8_t *page)
{
    return page[PILLAR_OFFSET_EMERGENCY_STATE];
}

static inline uint16_t pillar_get_emergency_profile_id(const uint8_t *page)
{
    return pillar_get_id(page, PILLAR_OFFSET_EMERGENCY_PROFILE_ID);
}

/* In watts. */
static inline int32_t pillar_get_emergency_threshold(const uint8_t *page)
{
    return (int32_t)pillar_get_number(page, PILLAR_OFFSET_EMERGENCY_THRESHOLD);
}

/* In seconds, as the clock. */
static inline uint32_t pillar_get_emergency_activation_time(const uint8_t *page)
{
    return pillar_get_number(page, PILLAR_OFFSET_EMERGENCY_ACTIVATION_TIME);
}

/* In samples. */
static inline uint32_t pillar_get_emergency_duration(const uint8_t *page)
{
    return pillar_get_number(page, PILLAR_OFFSET_EMERGENCY_DURATION);
}

/* The samples that the profile has yet to govern. */
static inline uint32_t pillar_get_emergency_samples_left(const uint8_t *page)
{
    return pillar_get_number(page, PILLAR_OFFSET_EMERGENCY_SAMPLES_LEFT);
}

/* In watts: the threshold of an active emergency profile, else the normal one. */
static inline int32_t pillar_get_threshold_in_force(const uint8_t *page)
{
    if (pillar_get_emergency_state(page) == PILLAR_EMERGENCY_STATE_ACTIVE)
        return pillar_get_emergency_threshold(page);
    return pillar_get_threshold(page);
}

/* The groups that are set. */
static inline uint8_t pillar_get_group_count(const uint8_t *page)
{
    return page[PILLAR_OFFSET_GROUP_COUNT];
}

/* The id of a group, counted from 0; 0 past the count. */
static inline uint16_t pillar_get_group_id(const uint8_t *page, uint32_t place)
{
    if (place >= PILLAR_GROUPS)
        return 0;
    return pillar_get_id(page, PILLAR_OFFSET_GROUP_ID(place));
}

/* ---- The three-phase meter -----------------------------------------------
 *
 * A meter with three powers a second (document 02, A13). Its limiter has four
 * lines, the phases L1, L2 and L3 and their exact sum, in this order. Each has a
 * threshold, Exceeded and Run of its own; over and under duration are shared. A
 * sample judges every line by its own threshold, then logs, line by line,
 * PILLAR_LOGGED_LIMITER_THRESHOLD_EXCEEDED or .._THRESHOLD_OK for each that fires.
 * Only then the local disconnect is tried, once, if a line has fired over; the
 * local reconnect, once, if a line has fired under and no line is exceeded. The
 * key, if it connects, ends Exceeded on all four lines and sets each Run 0.
 *
 * Switch, clock, registers, logs and event table are as above, and so are the
 * numbers by name; with the table do as above, with three_phase_check in the
 * place of pillar_check. There is no emergency profile, and there are no groups:
 * PILLAR_KIND_SET_GROUPS and PILLAR_KIND_SET_PROFILE are PILLAR_REFUSED_KIND.
 * Requests as DLMS bytes are for the other meter alone.
 *
 * A page of one meter is never one of the other's: pillar_call, pillar_check and
 * pillar_request refuse THREE_PHASE_PAGE_SIZE bytes, three_phase_call and
 * three_phase_check PILLAR_PAGE_SIZE bytes, with PILLAR_REFUSED_PAGE_LENGTH; and
 * either refuses the other's bytes under its own length with .._PAGE_PAIRS.
 */

/* What the limiter watches: each phase and their sum. */
enum three_phase_monitored_value {
    THREE_PHASE_L1 = 0,
    THREE_PHASE_L2 = 1,
    THREE_PHASE_L3 = 2,
    THREE_PHASE_SUM = 3
};

/*
 * The page, 586 bytes: a directory, then the areas, as above, but without the
 * ninth; the limiter's is over duration, under duration, then threshold, Exceeded
 * and Run of each of them. Every field has the length that it has above.
 */
#define THREE_PHASE_AREAS 8
#define THREE_PHASE_MONITORED_VALUES 4

#define THREE_PHASE_DIRECTORY_SIZE (THREE_PHASE_AREAS * PILLAR_PAIR_SIZE)

#define THREE_PHASE_LENGTH_MONITORED_VALUE \
    (PILLAR_LENGTH_THRESHOLD + PILLAR_LENGTH_EXCEEDED + PILLAR_LENGTH_RUN)
#define THREE_PHASE_LENGTH_LIMITER \
    (PILLAR_LENGTH_OVER_DURATION + PILLAR_LENGTH_UNDER_DURATION \
     + THREE_PHASE_MONITORED_VALUES * THREE_PHASE_LENGTH_MONITORED_VALUE)

#define THREE_PHASE_OFFSET_CONTROL THREE_PHASE_DIRECTORY_SIZE
#define THREE_PHASE_OFFSET_CONTROL_MODE THREE_PHASE_OFFSET_CONTROL
#define THREE_PHASE_OFFSET_CONTROL_STATE \
    (THREE_PHASE_OFFSET_CONTROL_MODE + PILLAR_LENGTH_CONTROL_MODE)
#define THREE_PHASE_OFFSET_OPENINGS \
    (THREE_PHASE_OFFSET_CONTROL_STATE + PILLAR_LENGTH_CONTROL_STATE)

/* `value` is one of enum three_phase_monitored_value. */
#define THREE_PHASE_OFFSET_LIMITER (THREE_PHASE_OFFSET_CONTROL + PILLAR_LENGTH_CONTROL)
#define THREE_PHASE_OFFSET_OVER_DURATION THREE_PHASE_OFFSET_LIMITER
#define THREE_PHASE_OFFSET_UNDER_DURATION \
    (THREE_PHASE_OFFSET_OVER_DURATION + PILLAR_LENGTH_OVER_DURATION)
#define THREE_PHASE_OFFSET_MONITORED_VALUES \
    (THREE_PHASE_OFFSET_UNDER_DURATION + PILLAR_LENGTH_UNDER_DURATION)
#define THREE_PHASE_OFFSET_THRESHOLD(value) \
    (THREE_PHASE_OFFSET_MONITORED_VALUES + (value) * THREE_PHASE_LENGTH_MONITORED_VALUE)
#define THREE_PHASE_OFFSET_EXCEEDED(value) \
    (THREE_PHASE_OFFSET_THRESHOLD(value) + PILLAR_LENGTH_THRESHOLD)
#define THREE_PHASE_OFFSET_RUN(value) (THREE_PHASE_OFFSET_EXCEEDED(value) + PILLAR_LENGTH_EXCEEDED)

#define THREE_PHASE_OFFSET_CLOCK (THREE_PHASE_OFFSET_LIMITER + THREE_PHASE_LENGTH_LIMITER)

#define THREE_PHASE_OFFSET_ALARMS (THREE_PHASE_OFFSET_CLOCK + PILLAR_LENGTH_CLOCK)
#define THREE_PHASE_OFFSET_ALARM_REGISTER THREE_PHASE_OFFSET_ALARMS
#define THREE_PHASE_OFFSET_ALARM_FILTER \
    (THREE_PHASE_OFFSET_ALARM_REGISTER + PILLAR_LENGTH_ALARM_REGISTER)
#define THREE_PHASE_OFFSET_ALARM_COUNT \
    (THREE_PHASE_OFFSET_ALARM_FILTER + PILLAR_LENGTH_ALARM_FILTER)

#define THREE_PHASE_OFFSET_ERRORS (THREE_PHASE_OFFSET_ALARMS + PILLAR_LENGTH_ALARMS)
#define THREE_PHASE_OFFSET_ERROR_REGISTER THREE_PHASE_OFFSET_ERRORS
#define THREE_PHASE_OFFSET_ERROR_FILTER \
    (THREE_PHASE_OFFSET_ERROR_REGISTER + PILLAR_LENGTH_ERROR_REGISTER)

/* The logs, each an area: `log` is one of enum pillar_log, `line` one of its lines, from 0. */
#define THREE_PHASE_OFFSET_LOGS (THREE_PHASE_OFFSET_ERRORS + PILLAR_LENGTH_ERRORS)
#define THREE_PHASE_OFFSET_LOG(log) (THREE_PHASE_OFFSET_LOGS + ((log) - 1) * PILLAR_LENGTH_LOG)
#define THREE_PHASE_OFFSET_LOG_COUNT(log) THREE_PHASE_OFFSET_LOG(log)
#define THREE_PHASE_OFFSET_LINE_CLOCK(log, line) \
    (THREE_PHASE_OFFSET_LOG_COUNT(log) + PILLAR_LENGTH_LOG_COUNT + (line) * PILLAR_LINE_SIZE)
#define THREE_PHASE_OFFSET_LINE_CODE(log, line) \
    (THREE_PHASE_OFFSET_LINE_CLOCK(log, line) + PILLAR_LENGTH_LINE_CLOCK)

/* Bytes of a page, and of a record in the list that three_phase_replay takes. */
#define THREE_PHASE_PAGE_SIZE (THREE_PHASE_OFFSET_LOGS + PILLAR_LOGS * PILLAR_LENGTH_LOG)
#define THREE_PHASE_RECORD_SIZE 33

/*
 * Writes the page of a fresh meter into the first THREE_PHASE_PAGE_SIZE bytes;
 * bytes past them stay. The four numbers behind the control mode are thresholds,
 * in watts, line by line. Answers PILLAR_REFUSED_CONTROL_MODE, .._THRESHOLD (of
 * any line), .._DURATION, then .._BUFFER.
 */
uint32_t three_phase_fresh(uint8_t *page, size_t length, uint32_t control_mode,
                           int32_t l1, int32_t l2, int32_t l3, int32_t sum,
                           uint32_t over_duration, uint32_t under_duration,
                           uint32_t clock);

/*
 * One of the fifteen calls on the meter of a page, under the page's table; the
 * page is then that of the meter after the call. `kind` is one of enum
 * pillar_kind, but neither PILLAR_KIND_FRESH nor above PILLAR_KIND_EXECUTE_SCRIPT:
 * any other is PILLAR_REFUSED_KIND, whatever the page holds. Then it answers
 * PILLAR_REFUSED_PAGE_LENGTH, .._PAGE_PAIRS, .._PAGE_UNSOUND, then the refusals of
 * the call. The numbers are those of the kind, but PILLAR_KIND_SAMPLE has three
 * powers, PILLAR_KIND_SET_LIMITER four thresholds, over and under duration. Each
 * kind has an inline function below.
 *
 * Into *letter it stores the letter of the move that it made, as pillar_call does:
 * always.
 */
uint32_t three_phase_call(uint8_t *page, size_t length, const uint8_t *table,
                          size_t table_length, uint32_t kind, uint32_t n1,
                          uint32_t n2, uint32_t n3, uint32_t n4, uint32_t n5,
                          uint32_t n6, uint8_t *letter);

/*
 * Runs a whole list of records of THREE_PHASE_RECORD_SIZE bytes, all of it and the
 * page that it leaves under one table. A record, 33 bytes, is the kind, then eight
 * big-endian numbers of 32 bits; those that its kind does not take are ignored.
 * The first is PILLAR_KIND_FRESH (control mode, four thresholds, over duration,
 * under duration, clock); the others are calls, refused ones among them. Writes
 * the page of the list's history into the first THREE_PHASE_PAGE_SIZE bytes of
 * `page`; bytes past them stay. Answers PILLAR_REFUSED_LIST_EMPTY, .._LIST_SHORT
 * (the first record), .._LIST_BAD, the refusals of fresh, .._LIST_SHORT (a later
 * record), then .._BUFFER. The page must overlap neither the records nor the
 * table.
 */
uint32_t three_phase_replay(const uint8_t *records, size_t records_length,
                            const uint8_t *table, size_t table_length,
                            uint8_t *page, size_t page_length);

/*
 * Whether three_phase_call can read a page under a table:
 * PILLAR_REFUSED_PAGE_LENGTH, .._PAGE_PAIRS, .._PAGE_UNSOUND.
 */
uint32_t three_phase_check(const uint8_t *page, size_t length, const uint8_t *table,
                           size_t table_length);

/*
 * The fifteen calls by name: each is three_phase_call with its kind, and takes
 * numbers and `letter` as the function of the other meter does.
 */

/* One second's powers in watts; export is negative. Their sum is never cut. */
static inline uint32_t three_phase_sample(uint8_t *page, size_t length, const uint8_t *table,
                                          size_t table_length, int32_t l1, int32_t l2, int32_t l3,
                                          uint8_t *letter)
{
    return three_phase_call(page, length, table, table_length, PILLAR_KIND_SAMPLE, (uint32_t)l1,
                            (uint32_t)l2, (uint32_t)l3, 0, 0, 0, letter);
}

/* The network centre's requests. */
static inline uint32_t three_phase_remote_disconnect(uint8_t *page, size_t length,
                                                     const uint8_t *table, size_t table_length,
                                                     uint8_t *letter)
{
    return three_phase_call(page, length, table, table_length, PILLAR_KIND_REMOTE_DISCONNECT, 0, 0,
                            0, 0, 0, 0, letter);
}

static inline uint32_t three_phase_remote_reconnect(uint8_t *page, size_t length,
                                                    const uint8_t *table, size_t table_length,
                                                    uint8_t *letter)
{
    return three_phase_call(page, length, table, table_length, PILLAR_KIND_REMOTE_RECONNECT, 0, 0,
                            0, 0, 0, 0, letter);
}

/* The holder's, by the key. */
static inline uint32_t three_phase_manual_disconnect(uint8_t *page, size_t length,
                                                     const uint8_t *table, size_t table_length,
                                                     uint8_t *letter)
{
    return three_phase_call(page, length, table, table_length, PILLAR_KIND_MANUAL_DISCONNECT, 0, 0,
                            0, 0, 0, 0, letter);
}

static inline uint32_t three_phase_manual_reconnect(uint8_t *page, size_t length,
                                                    const uint8_t *table, size_t table_length,
                                                    uint8_t *letter)
{
    return three_phase_call(page, length, table, table_length, PILLAR_KIND_MANUAL_RECONNECT, 0, 0,
                            0, 0, 0, 0, letter);
}

static inline uint32_t three_phase_set_control_mode(uint8_t *page, size_t length,
                                                    const uint8_t *table, size_t table_length,
                                                    uint32_t control_mode)
{
    uint8_t none;
    return three_phase_call(page, length, table, table_length, PILLAR_KIND_SET_CONTROL_MODE,
                            control_mode, 0, 0, 0, 0, 0, &none);
}

/*
 * The thresholds in watts, 0 or more, line by line; both durations in samples, 1
 * to 86400. Each Run is then 0, every Exceeded stays, and one line is logged.
 */
static inline uint32_t three_phase_set_limiter(uint8_t *page, size_t length, const uint8_t *table,
                                               size_t table_length, int32_t l1, int32_t l2,
                                               int32_t l3, int32_t sum, uint32_t over_duration,
                                               uint32_t under_duration)
{
    uint8_t none;
    return three_phase_call(page, length, table, table_length, PILLAR_KIND_SET_LIMITER,
                            (uint32_t)l1, (uint32_t)l2, (uint32_t)l3, (uint32_t)sum, over_duration,
                            under_duration, &none);
}

static inline uint32_t three_phase_set_clock(uint8_t *page, size_t length, const uint8_t *table,
                                             size_t table_length, uint32_t seconds)
{
    uint8_t none;
    return three_phase_call(page, length, table, table_length, PILLAR_KIND_SET_CLOCK, seconds, 0, 0,
                            0, 0, 0, &none);
}

/* A code of the table: with the built-in one, of enum pillar_event. */
static inline uint32_t three_phase_report_event(uint8_t *page, size_t length, const uint8_t *table,
                                                size_t table_length, uint32_t code)
{
    uint8_t none;
    return three_phase_call(page, length, table, table_length, PILLAR_KIND_REPORT_EVENT, code, 0, 0,
                            0, 0, 0, &none);
}

/* A one hides its bit from later events; bits that are set stay set. */
static inline uint32_t three_phase_set_alarm_filter(uint8_t *page, size_t length,
                                                    const uint8_t *table, size_t table_length,
                                                    uint32_t filter)
{
    uint8_t none;
    return three_phase_call(page, length, table, table_length, PILLAR_KIND_SET_ALARM_FILTER, filter,
                            0, 0, 0, 0, 0, &none);
}

static inline uint32_t three_phase_set_error_filter(uint8_t *page, size_t length,
                                                    const uint8_t *table, size_t table_length,
                                                    uint32_t filter)
{
    uint8_t none;
    return three_phase_call(page, length, table, table_length, PILLAR_KIND_SET_ERROR_FILTER, filter,
                            0, 0, 0, 0, 0, &none);
}

/* The ones of the mask are cleared. */
static inline uint32_t three_phase_clear_alarms(uint8_t *page, size_t length, const uint8_t *table,
                                                size_t table_length, uint32_t mask)
{
    uint8_t none;
    return three_phase_call(page, length, table, table_length, PILLAR_KIND_CLEAR_ALARMS, mask, 0, 0,
                            0, 0, 0, &none);
}

static inline uint32_t three_phase_clear_errors(uint8_t *page, size_t length, const uint8_t *table,
                                                size_t table_length, uint32_t mask)
{
    uint8_t none;
    return three_phase_call(page, length, table, table_length, PILLAR_KIND_CLEAR_ERRORS, mask, 0, 0,
                            0, 0, 0, &none);
}

/* The log then holds one line, PILLAR_LOGGED_EVENT_LOG_CLEARED. */
static inline uint32_t three_phase_clear_log(uint8_t *page, size_t length, const uint8_t *table,
                                             size_t table_length, uint32_t log)
{
    uint8_t none;
    return three_phase_call(page, length, table, table_length, PILLAR_KIND_CLEAR_LOG, log, 0, 0, 0,
                            0, 0, &none);
}

static inline uint32_t three_phase_execute_script(uint8_t *page, size_t length,
                                                  const uint8_t *table, size_t table_length,
                                                  uint32_t script, uint8_t *letter)
{
    return three_phase_call(page, length, table, table_length, PILLAR_KIND_EXECUTE_SCRIPT, script,
                            0, 0, 0, 0, 0, letter);
}

/*
 * Reading off a page: each takes THREE_PHASE_PAGE_SIZE bytes and does not test
 * them; three_phase_check does.
 */

/* One of enum pillar_control_mode. */
static inline uint8_t three_phase_get_control_mode(const uint8_t *page)
{
    return page[THREE_PHASE_OFFSET_CONTROL_MODE];
}

/* One of enum pillar_control_state. */
static inline uint8_t three_phase_get_control_state(const uint8_t *page)
{
    return page[THREE_PHASE_OFFSET_CONTROL_STATE];
}

static inline bool three_phase_supply_is_on(const uint8_t *page)
{
    return three_phase_get_control_state(page) == PILLAR_CONTROL_STATE_CONNECTED;
}

/* How often the switch has left the state Connected, held at 4294967295. */
static inline uint32_t three_phase_get_openings(const uint8_t *page)
{
    return pillar_get_number(page, THREE_PHASE_OFFSET_OPENINGS);
}

/* Over and under duration of every line, in samples. */
static inline uint32_t three_phase_get_over_duration(const uint8_t *page)
{
    return pillar_get_number(page, THREE_PHASE_OFFSET_OVER_DURATION);
}

static inline uint32_t three_phase_get_under_duration(const uint8_t *page)
{
    return pillar_get_number(page, THREE_PHASE_OFFSET_UNDER_DURATION);
}

/* Of a monitored value, in watts; 0 for a number not of enum three_phase_monitored_value. */
static inline int32_t three_phase_get_threshold(const uint8_t *page, uint32_t value)
{
    if (value >= THREE_PHASE_MONITORED_VALUES)
        return 0;
    return (int32_t)pillar_get_number(page, THREE_PHASE_OFFSET_THRESHOLD(value));
}

/* Whether a monitored value has fired over, and not under since, nor was armed again by
   the key; false where there is no such value. */
static inline bool three_phase_get_exceeded(const uint8_t *page, uint32_t value)
{
    return value < THREE_PHASE_MONITORED_VALUES && page[THREE_PHASE_OFFSET_EXCEEDED(value)] != 0;
}

/* The latest samples in a row that count towards its next firing; 0 as above. */
static inline uint32_t three_phase_get_run(const uint8_t *page, uint32_t value)
{
    if (value >= THREE_PHASE_MONITORED_VALUES)
        return 0;
    return pillar_get_number(page, THREE_PHASE_OFFSET_RUN(value));
}

/* In seconds, held at 4294967295. */
static inline uint32_t three_phase_get_clock(const uint8_t *page)
{
    return pillar_get_number(page, THREE_PHASE_OFFSET_CLOCK);
}

/* PILLAR_ALARM_.. bits. */
static inline uint32_t three_phase_get_alarm_register(const uint8_t *page)
{
    return pillar_get_number(page, THREE_PHASE_OFFSET_ALARM_REGISTER);
}

static inline uint32_t three_phase_get_alarm_filter(const uint8_t *page)
{
    return pillar_get_number(page, THREE_PHASE_OFFSET_ALARM_FILTER);
}

/* How many alarms stand, 0 to 32, as pillar_get_alarm_count. */
static inline uint8_t three_phase_get_alarm_count(const uint8_t *page)
{
    return page[THREE_PHASE_OFFSET_ALARM_COUNT];
}

/* PILLAR_ERROR_.. bits. */
static inline uint32_t three_phase_get_error_register(const uint8_t *page)
{
    return pillar_get_number(page, THREE_PHASE_OFFSET_ERROR_REGISTER);
}

static inline uint32_t three_phase_get_error_filter(const uint8_t *page)
{
    return pillar_get_number(page, THREE_PHASE_OFFSET_ERROR_FILTER);
}

/* The lines that a log holds; 0 for a number that is not of enum pillar_log. */
static inline uint8_t three_phase_get_log_count(const uint8_t *page, uint32_t log)
{
    if (log - 1 >= PILLAR_LOGS)
        return 0;
    return page[THREE_PHASE_OFFSET_LOG_COUNT(log)];
}

/* Line 0 is the oldest. Clock 0 and code 0 past the count, and where there is no such log. */
static inline struct pillar_line three_phase_get_log_line(const uint8_t *page, uint32_t log,
                                                          uint32_t line)
{
    struct pillar_line found = {0, 0};
    if (log - 1 < PILLAR_LOGS && line < PILLAR_LINES_PER_LOG) {
        found.clock = pillar_get_number(page, THREE_PHASE_OFFSET_LINE_CLOCK(log, line));
        found.code = page[THREE_PHASE_OFFSET_LINE_CODE(log, line)];
    }
    return found;
}

/* ---- Berths, energy and tariff -------------------------------------------
 *
 * For the harbour's office (document 02, A10 to A12); none of it takes a page.
 * Each function answers PILLAR_ACCEPTED or one of 22 to 30: where several hold,
 * the lowest. On a refusal nothing is written. What each is proved to answer and
 * to write, for every number, is said in crates/berths/specs/Allotments.antt,
 * crates/energy/specs/Days.antt and Joins.antt, and crates/tariff/specs/Bills.antt;
 * how numbers lie behind the pointers, in crates/pillar/specs/Energy.antt and
 * Tariff.antt.
 *
 * What the pointers lend must not overlap.
 */
#define PILLAR_BERTHS 16 /* the most of a column */

/* In watts. */
struct column_berth {
    int32_t guarantee;
    int32_t cap;
    int32_t demand;    /* negative counts as 0 */
    int32_t allotment; /* what column_allot gives */
};

/*
 * Shares a column's limit among `count` berths. Each first gets the smaller of
 * its demand and its guarantee; what is left goes in list order, to each up to
 * the smaller of its demand and its cap. Only allotments are written; all
 * `count` berths are read, also where the count is refused. Answers
 * PILLAR_REFUSED_BERTH_COUNT, .._BERTH_POWER (of the limit and of every berth),
 * then .._GUARANTEE_SUM.
 */
uint32_t column_allot(int32_t limit, struct column_berth *berths, size_t count);

#define PILLAR_DAY_SAMPLES 86400
#define PILLAR_WATT_HOUR 3600                   /* watt-seconds */
#define PILLAR_MOST_JOINED (UINT64_C(1) << 53)  /* watt-hours */

/* The places of the energy of a day: whole watt-hours, and watt-seconds below PILLAR_WATT_HOUR. */
enum pillar_energy {
    PILLAR_IMPORT_WATT_HOURS = 0,
    PILLAR_IMPORT_WATT_SECONDS = 1,
    PILLAR_EXPORT_WATT_HOURS = 2,
    PILLAR_EXPORT_WATT_SECONDS = 3
};

/*
 * The energy of `count` samples of a second each, in watts, 0 to
 * PILLAR_DAY_SAMPLES of them; export is negative, and is never taken off
 * import. Answers PILLAR_REFUSED_SAMPLE_COUNT.
 */
uint32_t energy_of_day(const int32_t *samples, size_t count, uint64_t day[4]);

/*
 * Joins another day, or several that are joined, of the same berth or of
 * another: `day` is then the energy of all their samples together. Answers
 * PILLAR_REFUSED_REMAINDER (import and export of both), then .._JOINED_ENERGY
 * (import and export, with the watt-hour that two remainders make).
 */
uint32_t energy_join(uint64_t day[4], const uint64_t other[4]);

#define PILLAR_RATES 4
#define PILLAR_HIGHEST_PRICE 1000000            /* cents per kilowatt-hour */
#define PILLAR_KILOWATT_HOUR 3600000            /* watt-seconds */
#define PILLAR_MOST_BILLED (UINT64_C(1) << 31)  /* watt-hours at a rate */

/*
 * What the import at each rate costs: `prices` in cents per kilowatt-hour,
 * `imports` watt-hours and watt-seconds of the first rate, then of the next.
 * *cents is then the whole cents. *rest comes in as the rest of the bill before,
 * 0 for the first, and is then that for the next bill: a part of a cent, over
 * PILLAR_KILOWATT_HOUR. Answers PILLAR_REFUSED_PRICE (of every rate), .._REST,
 * then .._IMPORT (of every rate).
 */
uint32_t tariff_bill(const uint32_t prices[4], const uint64_t imports[8], uint32_t *rest,
                     uint64_t *cents);

#ifdef __cplusplus
}
#endif

#endif
