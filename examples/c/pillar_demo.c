/*
 * Document 01's worked example through the C interface, call by call and as
 * one list, the letters of its moves, what the page then holds, an emergency
 * profile, how many alarms stand, a harbour's own event table, and wrong input.
 *
 *   tools/archive pillar
 *   gcc -std=c99 -Wall -Wextra -pedantic -Iinclude -o target/pillar_demo examples/c/pillar_demo.c target/staticlib/libpillar.a
 */
#include "pillar.h"
#include "written.h"

#include <inttypes.h>
#include <stdio.h>
#include <string.h>

struct call {
    uint32_t kind;
    uint32_t number;
    uint8_t letter;
};

/*
 * Each with the letter that documents 01 and 02 give it. A negative power passes
 * as two's complement. The third sample is the second over 3000, and opens. The
 * manual reconnect ends Exceeded, so the samples not over end nothing. Script 3
 * and control mode 7 are refused, and in control mode 0 every request is; mode 0
 * itself connects without a letter.
 */
static const struct call calls[] = {
    {PILLAR_KIND_SAMPLE, 3000, PILLAR_LETTER_NONE},
    {PILLAR_KIND_SAMPLE, 3001, PILLAR_LETTER_NONE},
    {PILLAR_KIND_SAMPLE, 3001, PILLAR_LETTER_G},
    {PILLAR_KIND_MANUAL_RECONNECT, 0, PILLAR_LETTER_E},
    {PILLAR_KIND_SAMPLE, 0, PILLAR_LETTER_NONE},
    {PILLAR_KIND_SAMPLE, (uint32_t)-5, PILLAR_LETTER_NONE},
    {PILLAR_KIND_SAMPLE, 0, PILLAR_LETTER_NONE},
    {PILLAR_KIND_REMOTE_DISCONNECT, 0, PILLAR_LETTER_B},
    {PILLAR_KIND_MANUAL_RECONNECT, 0, PILLAR_LETTER_NONE},
    {PILLAR_KIND_EXECUTE_SCRIPT, 3, PILLAR_LETTER_NONE},
    {PILLAR_KIND_EXECUTE_SCRIPT, PILLAR_SCRIPT_REMOTE_RECONNECT, PILLAR_LETTER_D},
    {PILLAR_KIND_SET_CONTROL_MODE, 7, PILLAR_LETTER_NONE},
    {PILLAR_KIND_SET_CONTROL_MODE, PILLAR_CONTROL_MODE_NONE, PILLAR_LETTER_NONE},
    {PILLAR_KIND_REMOTE_DISCONNECT, 0, PILLAR_LETTER_NONE},
};

enum { CALLS = sizeof calls / sizeof calls[0] };

/* Document 01: 'Log 3 then: 65, 64, 61 at 1003; 66, 62, 59, 63 at 1006'; 02, A5: 'The 66 drops out'. */
static const struct pillar_line lines[] = {
    {1003, PILLAR_LOGGED_LIMITER_THRESHOLD_EXCEEDED},
    {1003, PILLAR_LOGGED_LOCAL_DISCONNECTION},
    {1003, PILLAR_LOGGED_MANUAL_CONNECTION},
    {1006, PILLAR_LOGGED_REMOTE_DISCONNECTION},
    {1006, PILLAR_LOGGED_DISCONNECTER_READY_FOR_MANUAL_RECONNECTION},
    {1006, PILLAR_LOGGED_REMOTE_CONNECTION},
};

enum { LINES = sizeof lines / sizeof lines[0] };

/* The table without a byte: the built-in one serves. */
static const uint8_t no_table[1] = {0};

#define BUILT_IN no_table, 0

/* The settings of the fresh meter. */
enum { THRESHOLD = 3000, OVER_DURATION = 2, UNDER_DURATION = 3, CLOCK = 1000 };

static void put_record(uint8_t *record, uint32_t kind, const uint32_t numbers[5])
{
    record[0] = (uint8_t)kind;
    for (int i = 0; i < 20; i++)
        record[1 + i] = (uint8_t)(numbers[i / 4] >> (24 - 8 * (i % 4)));
}

static void print_line(size_t position, uint32_t answer, const uint8_t *page)
{
    printf("%zu %" PRIu32 " %u %" PRIu32 "\n", position, answer, (unsigned)pillar_get_control_state(page), pillar_get_openings(page));
}

/* Whether each call left the letter of its move. */
static int lettered(const uint8_t *letters)
{
    int right = 1;
    printf("letters:");
    for (size_t i = 0; i < CALLS; i++) {
        printf(" %c", letters[i] == PILLAR_LETTER_NONE ? '-' : letters[i]);
        right &= letters[i] == calls[i].letter;
    }
    printf("\n");
    return right;
}

/* Whether the reader takes the page, and the same calls as one list leave the same. */
static int replayed(const uint8_t *page)
{
    static uint8_t list[(1 + CALLS) * PILLAR_RECORD_SIZE];
    const uint32_t settings[5] = {PILLAR_CONTROL_MODE_5, THRESHOLD, OVER_DURATION, UNDER_DURATION, CLOCK};
    put_record(list, PILLAR_KIND_FRESH, settings);
    for (size_t i = 0; i < CALLS; i++) {
        const uint32_t numbers[5] = {calls[i].number};
        put_record(list + (1 + i) * PILLAR_RECORD_SIZE, calls[i].kind, numbers);
    }
    uint8_t whole[PILLAR_PAGE_SIZE] = {0};
    uint32_t checked = pillar_check(page, PILLAR_PAGE_SIZE, BUILT_IN);
    uint32_t answer = pillar_replay(list, sizeof list, BUILT_IN, whole, sizeof whole);
    int same = memcmp(whole, page, PILLAR_PAGE_SIZE) == 0;
    printf("check of the page: %" PRIu32 "\n", checked);
    printf("the calls as one list: %" PRIu32 ", %s page\n", answer, same ? "the same" : "another");
    return checked == PILLAR_ACCEPTED && answer == PILLAR_ACCEPTED && same;
}

/* Whether the page holds what document 01 says of it. */
static int held(const uint8_t *page)
{
    uint32_t count = pillar_get_log_count(page, PILLAR_LOG_DISCONNECT);
    int right = pillar_supply_is_on(page) && count == LINES;
    printf("supply: %s\n", pillar_supply_is_on(page) ? "on" : "off");
    for (uint32_t i = 0; i < count; i++) {
        struct pillar_line line = pillar_get_log_line(page, PILLAR_LOG_DISCONNECT, i);
        printf("disconnect log: %u at %" PRIu32 "\n", (unsigned)line.code, line.clock);
        right &= i < LINES && line.clock == lines[i].clock && line.code == lines[i].code;
    }
    return right;
}

/*
 * Whether an emergency profile (document 02, A3) governs two samples: both are
 * over its threshold and not over the normal one, and the second opens.
 */
static int governed(void)
{
    static const uint16_t groups[] = {7, 9};
    static const uint8_t opened[] = {PILLAR_LETTER_NONE, PILLAR_LETTER_G, PILLAR_LETTER_NONE};
    static const int32_t in_force[] = {THRESHOLD / 2, THRESHOLD, THRESHOLD};
    uint8_t page[PILLAR_PAGE_SIZE] = {0};
    uint8_t letter;
    int right = pillar_fresh(page, sizeof page, PILLAR_CONTROL_MODE_5, THRESHOLD, OVER_DURATION, UNDER_DURATION, CLOCK) == PILLAR_ACCEPTED;
    right &= pillar_set_groups(page, sizeof page, BUILT_IN, groups, 2) == PILLAR_ACCEPTED;
    right &= pillar_set_profile(page, sizeof page, BUILT_IN, groups[1], THRESHOLD / 2, CLOCK + 1, 2) == PILLAR_ACCEPTED;
    right &= pillar_get_emergency_state(page) == PILLAR_EMERGENCY_STATE_WAITING;
    for (int i = 0; i < 3; i++) {
        right &= pillar_sample(page, sizeof page, BUILT_IN, THRESHOLD, &letter) == PILLAR_ACCEPTED;
        printf("emergency profile: threshold in force %" PRId32 ", samples left %" PRIu32 "\n", pillar_get_threshold_in_force(page), pillar_get_emergency_samples_left(page));
        right &= letter == opened[i] && pillar_get_threshold_in_force(page) == in_force[i];
    }
    return right && pillar_get_emergency_state(page) == PILLAR_EMERGENCY_STATE_NONE;
}

/*
 * Whether a display reads off the page how many alarms stand (document 02, A6): a
 * cover that is removed twice is one alarm, and a filter leaves what stands.
 */
static int displayed(void)
{
    uint8_t page[PILLAR_PAGE_SIZE] = {0};
    int right = pillar_fresh(page, sizeof page, PILLAR_CONTROL_MODE_5, THRESHOLD, OVER_DURATION, UNDER_DURATION, CLOCK) == PILLAR_ACCEPTED;
    right &= pillar_report_event(page, sizeof page, BUILT_IN, PILLAR_EVENT_REPLACE_BATTERY) == PILLAR_ACCEPTED;
    right &= pillar_report_event(page, sizeof page, BUILT_IN, PILLAR_EVENT_METER_COVER_REMOVED) == PILLAR_ACCEPTED;
    right &= pillar_report_event(page, sizeof page, BUILT_IN, PILLAR_EVENT_METER_COVER_REMOVED) == PILLAR_ACCEPTED;
    right &= pillar_set_alarm_filter(page, sizeof page, BUILT_IN, PILLAR_ALARM_FRAUD_ATTEMPT) == PILLAR_ACCEPTED;
    printf("alarms standing: %u\n", (unsigned)pillar_get_alarm_count(page));
    right &= pillar_get_alarm_count(page) == 2;
    right &= pillar_clear_alarms(page, sizeof page, BUILT_IN, PILLAR_ALARM_REPLACE_BATTERY) == PILLAR_ACCEPTED;
    printf("alarms standing: %u\n", (unsigned)pillar_get_alarm_count(page));
    return right && pillar_get_alarm_count(page) == 1;
}

/*
 * A harbour's own table (document 02, A8): code, log, alarm bit, error bit. The
 * cover of a berth raises alarm bit 13 as built in; a smoke detector raises bit
 * 20 of both registers.
 */
static const uint8_t harbour[] = {
    0, PILLAR_LOG_STANDARD, PILLAR_TABLE_NO_BIT, PILLAR_TABLE_NO_BIT,
    70, PILLAR_LOG_FRAUD, 13, PILLAR_TABLE_NO_BIT,
    200, PILLAR_LOG_STANDARD, 20, 20,
};

/*
 * Whether a page and its own table work together, and what happens where the
 * table is not kept: the tests at power-up find it.
 */
static int by_own_table(void)
{
    uint8_t page[PILLAR_PAGE_SIZE] = {0};
    uint8_t damaged[sizeof harbour];
    int right = pillar_table(harbour, sizeof harbour) == PILLAR_ACCEPTED;
    right &= pillar_fresh(page, sizeof page, PILLAR_CONTROL_MODE_5, THRESHOLD, OVER_DURATION, UNDER_DURATION, CLOCK) == PILLAR_ACCEPTED;
    right &= pillar_report_event(page, sizeof page, harbour, sizeof harbour, 70) == PILLAR_ACCEPTED;
    right &= pillar_report_event(page, sizeof page, harbour, sizeof harbour, 200) == PILLAR_ACCEPTED;
    right &= pillar_report_event(page, sizeof page, harbour, sizeof harbour, PILLAR_EVENT_RAM_ERROR) == PILLAR_REFUSED_EVENT_CODE;
    printf("own table: alarms 0x%08" PRIx32 ", errors 0x%08" PRIx32 "\n", pillar_get_alarm_register(page), pillar_get_error_register(page));
    right &= pillar_get_alarm_register(page) == 0x00102000 && pillar_get_error_register(page) == 0x00100000;
    right &= pillar_get_log_line(page, PILLAR_LOG_FRAUD, 0).code == 70 && pillar_get_log_line(page, PILLAR_LOG_STANDARD, 0).code == 200;

    /* A byte of the table is lost: its second code is not above the first. */
    memcpy(damaged, harbour, sizeof harbour);
    damaged[PILLAR_TABLE_LINE_SIZE] = 0;
    uint32_t judged = pillar_table(damaged, sizeof damaged);
    uint32_t kept = pillar_check(page, sizeof page, harbour, sizeof harbour);
    uint32_t lost = pillar_check(page, sizeof page, damaged, sizeof damaged);
    uint32_t built_in = pillar_check(page, sizeof page, BUILT_IN);
    printf("damaged table: %" PRIu32 "; the page under its table: %" PRIu32 ", under the damaged one: %" PRIu32 ", under the built-in one: %" PRIu32 "\n", judged, kept, lost, built_in);
    return right && judged == PILLAR_REFUSED_TABLE_CODE && kept == PILLAR_ACCEPTED && lost == PILLAR_REFUSED_PAGE_UNSOUND && built_in == PILLAR_REFUSED_PAGE_UNSOUND;
}

/* Whether a refusal came with this number and left the page as it was. */
static int refused(const char *what, uint32_t answer, uint32_t expected, const uint8_t *page, const uint8_t *before)
{
    int kept = memcmp(page, before, PILLAR_PAGE_SIZE) == 0;
    printf("%s: %" PRIu32 ", page %s\n", what, answer, kept ? "kept" : "changed");
    return answer == expected && kept;
}

int main(void)
{
    uint8_t page[PILLAR_PAGE_SIZE] = {0};
    uint8_t letters[CALLS];
    uint32_t answer = pillar_fresh(page, sizeof page, PILLAR_CONTROL_MODE_5, THRESHOLD, OVER_DURATION, UNDER_DURATION, CLOCK);
    print_line(1, answer, page);
    for (size_t i = 0; i < CALLS; i++) {
        answer = pillar_call(page, sizeof page, BUILT_IN, calls[i].kind, calls[i].number, 0, 0, 0, 0, &letters[i]);
        print_line(i + 2, answer, page);
    }

    int right = lettered(letters);
    right &= replayed(page);
    right &= held(page);
    right &= governed();
    right &= displayed();
    right &= by_own_table();

    uint8_t before[PILLAR_PAGE_SIZE];
    uint8_t letter;
    const uint8_t not_fresh[PILLAR_RECORD_SIZE] = {PILLAR_KIND_REMOTE_DISCONNECT};
    const uint32_t unknown = PILLAR_KIND_SET_PROFILE + 1;
    memcpy(before, page, sizeof page);
    right &= refused("fresh into a short buffer", pillar_fresh(page, sizeof page - 1, PILLAR_CONTROL_MODE_5, THRESHOLD, OVER_DURATION, UNDER_DURATION, CLOCK), PILLAR_REFUSED_BUFFER, page, before);
    right &= refused("a negative threshold", pillar_set_limiter(page, sizeof page, BUILT_IN, -1, OVER_DURATION, UNDER_DURATION), PILLAR_REFUSED_THRESHOLD, page, before);
    right &= refused("an event that is not listed", pillar_report_event(page, sizeof page, BUILT_IN, PILLAR_LOGGED_REMOTE_DISCONNECTION), PILLAR_REFUSED_EVENT_CODE, page, before);
    right &= refused("a profile of no group", pillar_set_profile(page, sizeof page, BUILT_IN, 9, THRESHOLD, CLOCK, 1), PILLAR_REFUSED_GROUP_ID, page, before);
    right &= refused("call on a short page", pillar_remote_disconnect(page, sizeof page - 1, BUILT_IN, &letter), PILLAR_REFUSED_PAGE_LENGTH, page, before);
    right &= refused("call of an unknown kind", pillar_call(page, sizeof page, BUILT_IN, unknown, 0, 0, 0, 0, 0, &letter), PILLAR_REFUSED_KIND, page, before);
    right &= refused("call of an unknown kind on a short page", pillar_call(page, sizeof page - 1, BUILT_IN, unknown, 0, 0, 0, 0, 0, &letter), PILLAR_REFUSED_KIND, page, before);
    right &= refused("list without a byte", pillar_replay(before, 0, BUILT_IN, page, sizeof page), PILLAR_REFUSED_LIST_EMPTY, page, before);
    right &= refused("list that does not begin with fresh", pillar_replay(not_fresh, sizeof not_fresh, BUILT_IN, page, sizeof page), PILLAR_REFUSED_LIST_BAD, page, before);

    /* A pair of the directory, then the control mode, then the count of alarms. */
    page[0] ^= 1;
    memcpy(before, page, sizeof page);
    right &= refused("call on a page with another pair", pillar_remote_disconnect(page, sizeof page, BUILT_IN, &letter), PILLAR_REFUSED_PAGE_PAIRS, page, before);
    page[0] ^= 1;
    page[PILLAR_OFFSET_CONTROL_MODE] = 7;
    memcpy(before, page, sizeof page);
    right &= refused("check of a page with control mode 7", pillar_check(page, sizeof page, BUILT_IN), PILLAR_REFUSED_PAGE_UNSOUND, page, before);
    page[PILLAR_OFFSET_CONTROL_MODE] = PILLAR_CONTROL_MODE_NONE;
    page[PILLAR_OFFSET_ALARM_COUNT] = 1;
    memcpy(before, page, sizeof page);
    right &= refused("check of a page that counts an alarm that does not stand", pillar_check(page, sizeof page, BUILT_IN), PILLAR_REFUSED_PAGE_UNSOUND, page, before);
    return all_written("pillar_demo") && right ? 0 : 1;
}
