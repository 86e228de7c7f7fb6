/*
 * A workshop berth with a three-phase meter through the C interface (document 02,
 * A13): what each sample answers, the letter of its move and where the switch then
 * stands, the lines of the limiter, log 3, the same calls as one list, and wrong
 * input. What it prints is compared with three_phase_demo.txt.
 *
 *   tools/archive pillar
 *   gcc -std=c99 -Wall -Wextra -pedantic -Iinclude -o target/three_phase_demo examples/c/three_phase_demo.c target/staticlib/libpillar.a
 */
#include "pillar.h"
#include "written.h"

#include <inttypes.h>
#include <stdio.h>
#include <string.h>

/* Length 0: the built-in event table. The pointer may not be null even so. */
static const uint8_t no_table[1] = {0};

#define BUILT_IN no_table, 0

/* The settings of the fresh meter, in control mode 5. */
enum { PHASE = 3000, SUM = 8000, OVER_DURATION = 2, UNDER_DURATION = 2, CLOCK = 1000 };

struct call {
    uint32_t kind;
    int32_t powers[3];
};

/*
 * The second sample is the second over on L1, on L2 and in sum: three lines fire,
 * and the switch opens once. At the fourth L1 and the sum fire under, but L2 is
 * still exceeded; at the sixth L2 fires under, too, and the switch closes: a power
 * at the threshold is not over. At the eighth L3 opens it while L1 has a run of 1.
 * The key closes it, ends Exceeded and sets Run 0 on all four lines, so that L1
 * needs two samples again.
 */
static const struct call calls[] = {
    {PILLAR_KIND_SAMPLE, {3500, 3500, 2000}},
    {PILLAR_KIND_SAMPLE, {3500, 3500, 2000}},
    {PILLAR_KIND_SAMPLE, {1000, 3500, -500}},
    {PILLAR_KIND_SAMPLE, {1000, 3500, -500}},
    {PILLAR_KIND_SAMPLE, {3000, 3000, 2000}},
    {PILLAR_KIND_SAMPLE, {3000, 3000, 2000}},
    {PILLAR_KIND_SAMPLE, {0, 0, 3500}},
    {PILLAR_KIND_SAMPLE, {3500, 0, 3500}},
    {PILLAR_KIND_MANUAL_RECONNECT, {0, 0, 0}},
    {PILLAR_KIND_SAMPLE, {3500, 0, 3500}},
    {PILLAR_KIND_SAMPLE, {3500, 0, 3500}},
};

enum { CALLS = sizeof calls / sizeof calls[0] };

static void print_answer(uint32_t answer, uint8_t letter, const uint8_t *page)
{
    printf("answer %" PRIu32 ", letter %c, switch %u\n", answer, letter == PILLAR_LETTER_NONE ? '-' : letter, (unsigned)three_phase_get_control_state(page));
}

static void print_lines(const uint8_t *page)
{
    static const char *const names[THREE_PHASE_MONITORED_VALUES] = {"L1", "L2", "L3", "sum"};
    for (uint32_t line = THREE_PHASE_L1; line < THREE_PHASE_MONITORED_VALUES; line++)
        printf("  %s: threshold %" PRId32 " W, %s, run %" PRIu32 "\n", names[line], three_phase_get_threshold(page, line), three_phase_get_exceeded(page, line) ? "exceeded" : "not exceeded", three_phase_get_run(page, line));
}

static uint32_t made(uint8_t *page, const struct call *call, uint8_t *letter)
{
    if (call->kind == PILLAR_KIND_MANUAL_RECONNECT) {
        printf("key: ");
        return three_phase_manual_reconnect(page, THREE_PHASE_PAGE_SIZE, BUILT_IN, letter);
    }
    printf("%" PRId32 ", %" PRId32 ", %" PRId32 " W: ", call->powers[0], call->powers[1], call->powers[2]);
    return three_phase_sample(page, THREE_PHASE_PAGE_SIZE, BUILT_IN, call->powers[0], call->powers[1], call->powers[2], letter);
}

static void print_log(const uint8_t *page)
{
    uint32_t count = three_phase_get_log_count(page, PILLAR_LOG_DISCONNECT);
    for (uint32_t i = 0; i < count; i++) {
        struct pillar_line line = three_phase_get_log_line(page, PILLAR_LOG_DISCONNECT, i);
        printf("disconnect log: %u at %" PRIu32 "\n", (unsigned)line.code, line.clock);
    }
}

static void put_record(uint8_t *record, uint32_t kind, const uint32_t numbers[8])
{
    record[0] = (uint8_t)kind;
    for (int i = 0; i < 32; i++)
        record[1 + i] = (uint8_t)(numbers[i / 4] >> (24 - 8 * (i % 4)));
}

/* The same calls as one list. */
static void print_list(const uint8_t *page)
{
    static uint8_t list[(1 + CALLS) * THREE_PHASE_RECORD_SIZE];
    const uint32_t settings[8] = {PILLAR_CONTROL_MODE_5, PHASE, PHASE, PHASE, SUM, OVER_DURATION, UNDER_DURATION, CLOCK};
    put_record(list, PILLAR_KIND_FRESH, settings);
    for (size_t i = 0; i < CALLS; i++) {
        const uint32_t numbers[8] = {(uint32_t)calls[i].powers[0], (uint32_t)calls[i].powers[1], (uint32_t)calls[i].powers[2]};
        put_record(list + (1 + i) * THREE_PHASE_RECORD_SIZE, calls[i].kind, numbers);
    }
    uint8_t whole[THREE_PHASE_PAGE_SIZE] = {0};
    uint32_t checked = three_phase_check(page, THREE_PHASE_PAGE_SIZE, BUILT_IN);
    uint32_t answer = three_phase_replay(list, sizeof list, BUILT_IN, whole, sizeof whole);
    printf("check of the page: %" PRIu32 "\n", checked);
    printf("the calls as one list: %" PRIu32 ", %s page\n", answer, memcmp(whole, page, sizeof whole) == 0 ? "the same" : "another");
}

/* A refusal leaves the page as it was. */
static void print_refusal(const char *what, uint32_t answer, const uint8_t *page, const uint8_t *before)
{
    printf("%s: %" PRIu32 ", page %s\n", what, answer, memcmp(page, before, THREE_PHASE_PAGE_SIZE) == 0 ? "kept" : "changed");
}

int main(void)
{
    uint8_t page[THREE_PHASE_PAGE_SIZE] = {0};
    uint8_t before[THREE_PHASE_PAGE_SIZE];
    uint8_t other[PILLAR_PAGE_SIZE] = {0};
    uint8_t letter = PILLAR_LETTER_NONE;
    uint32_t answer = three_phase_fresh(page, sizeof page, PILLAR_CONTROL_MODE_5, PHASE, PHASE, PHASE, SUM, OVER_DURATION, UNDER_DURATION, CLOCK);
    printf("fresh: ");
    print_answer(answer, letter, page);
    for (size_t i = 0; i < CALLS; i++) {
        answer = made(page, &calls[i], &letter);
        print_answer(answer, letter, page);
        if (letter != PILLAR_LETTER_NONE)
            print_lines(page);
    }
    printf("openings: %" PRIu32 ", supply: %s\n", three_phase_get_openings(page), three_phase_supply_is_on(page) ? "on" : "off");
    print_log(page);
    print_list(page);

    memcpy(before, page, sizeof page);
    if (pillar_fresh(other, sizeof other, PILLAR_CONTROL_MODE_5, PHASE, OVER_DURATION, UNDER_DURATION, CLOCK) != PILLAR_ACCEPTED)
        return 1;
    print_refusal("a negative threshold of the sum", three_phase_set_limiter(page, sizeof page, BUILT_IN, PHASE, PHASE, PHASE, -1, OVER_DURATION, UNDER_DURATION), page, before);
    print_refusal("an emergency profile", three_phase_call(page, sizeof page, BUILT_IN, PILLAR_KIND_SET_PROFILE, 7, PHASE, CLOCK, 1, 0, 0, &letter), page, before);
    print_refusal("a call of the other meter", pillar_sample(page, sizeof page, BUILT_IN, PHASE, &letter), page, before);
    printf("the other meter's page: %" PRIu32 "\n", three_phase_check(other, sizeof other, BUILT_IN));
    page[THREE_PHASE_OFFSET_EXCEEDED(THREE_PHASE_L2)] = 2;
    printf("a page whose L2 is neither exceeded nor not: %" PRIu32 "\n", three_phase_check(page, sizeof page, BUILT_IN));
    return all_written("three_phase_demo") ? 0 : 1;
}
