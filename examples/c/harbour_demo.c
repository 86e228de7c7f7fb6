/*
 * Berths of three columns, the energy of two days and four bills through the C
 * interface (document 02, A10 to A12), then wrong input. It prints what
 * tools/harbour prints for the same texts of tools/examples, in its words.
 *
 *   tools/archive pillar
 *   gcc -std=c99 -Wall -Wextra -pedantic -Iinclude -o target/harbour_demo examples/c/harbour_demo.c target/staticlib/libpillar.a
 */
#include "pillar.h"
#include "written.h"

#include <inttypes.h>
#include <stdio.h>
#include <string.h>

/* ---- Berths: harbour-berths.txt ------------------------------------------ */

static int allotted(unsigned place, int32_t limit, struct column_berth *berths, size_t count)
{
    uint32_t answer = column_allot(limit, berths, count);
    int32_t left = limit;
    printf("column %u: limit %" PRId32 " W\n", place, limit);
    for (size_t i = 0; i < count; i++) {
        printf("berth %zu: guarantee %" PRId32 " W, cap %" PRId32 " W, demand %" PRId32 " W, allotment %" PRId32 " W\n", i + 1, berths[i].guarantee, berths[i].cap, berths[i].demand, berths[i].allotment);
        left -= berths[i].allotment;
    }
    printf("allotted: %" PRId32 " W, %" PRId32 " W left\n", limit - left, left);
    return answer == PILLAR_ACCEPTED;
}

static int columns(void)
{
    struct column_berth first[] = {
        {6000, 16000, 12000, 0},
        {6000, 16000, 4000, 0},
        {6000, 9000, 20000, 0},
        {6000, 16000, 10000, 0},
        {0, 16000, -500, 0},
    };
    struct column_berth second[] = {{5000, 8000, 6000, 0}, {5000, 8000, 9000, 0}};
    int right = allotted(1, 30000, first, 5);
    right &= allotted(2, 20000, second, 2);
    return right & allotted(3, 10000, second, 2);
}

/* ---- Energy: harbour-samples.txt ----------------------------------------- */

static int32_t samples[PILLAR_DAY_SAMPLES + 1];

/* Appends so many samples of a power. */
static size_t append(size_t count, int32_t power, size_t times)
{
    for (size_t i = 0; i < times; i++)
        samples[count + i] = power;
    return count + times;
}

static void print_energy(const uint64_t *day)
{
    printf("import %" PRIu64 " Wh %" PRIu64 " Ws, export %" PRIu64 " Wh %" PRIu64 " Ws\n", day[PILLAR_IMPORT_WATT_HOURS], day[PILLAR_IMPORT_WATT_SECONDS], day[PILLAR_EXPORT_WATT_HOURS], day[PILLAR_EXPORT_WATT_SECONDS]);
}

/* The day's energy, which is joined to that of the days before. */
static int joined(unsigned place, size_t count, uint64_t *all)
{
    uint64_t day[4];
    uint32_t answer = energy_of_day(samples, count, day);
    if (answer != PILLAR_ACCEPTED)
        return 0;
    printf("day %u: %zu samples, ", place, count);
    print_energy(day);
    return energy_join(all, day) == PILLAR_ACCEPTED;
}

static int days(void)
{
    uint64_t all[4] = {0, 0, 0, 0};
    size_t count = append(0, 1000, 3599);
    count = append(count, -250, 100);
    count = append(count, INT32_MIN, 1);
    count = append(count, 7, 1);
    int right = joined(1, count, all);
    count = append(0, 2000, 1800);
    count = append(count, 993, 1);
    count = append(count, -100, 1);
    right &= joined(2, count, all);
    printf("joined: ");
    print_energy(all);
    return right;
}

/* ---- Tariff: harbour-bills.txt ------------------------------------------- */

static const uint32_t prices[PILLAR_RATES] = {25, 31, 18, 40};
static const uint64_t imports[2 * PILLAR_RATES] = {2000, 0, 500, 3599, 0, 0, 12345, 1};

static int bills(void)
{
    uint32_t rest = 0;
    uint64_t cents, sum = 0;
    for (unsigned place = 1; place <= 4; place++) {
        if (tariff_bill(prices, imports, &rest, &cents) != PILLAR_ACCEPTED)
            return 0;
        printf("bill %u: %" PRIu64 " cents, rest %" PRIu32 "\n", place, cents, rest);
        sum += cents;
    }
    printf("sum: %" PRIu64 " cents, rest %" PRIu32 "\n", sum, rest);
    return 1;
}

/* ---- Wrong input --------------------------------------------------------- */

/* Whether a refusal came with this number and left what was lent. */
static int refused(const char *what, uint32_t answer, uint32_t expected, int kept)
{
    printf("%s: %" PRIu32 ", %s\n", what, answer, kept ? "kept" : "changed");
    return answer == expected && kept;
}

static int wrong_berths(void)
{
    struct column_berth berths[PILLAR_BERTHS + 1], before[PILLAR_BERTHS + 1];
    for (int i = 0; i <= PILLAR_BERTHS; i++)
        berths[i] = (struct column_berth){10, 20, 30, -1};
    memcpy(before, berths, sizeof berths);
    uint32_t answer = column_allot(1000, berths, 0);
    int right = refused("no berth", answer, PILLAR_REFUSED_BERTH_COUNT, memcmp(before, berths, sizeof berths) == 0);
    answer = column_allot(-1, berths, PILLAR_BERTHS + 1);
    right &= refused("seventeen berths", answer, PILLAR_REFUSED_BERTH_COUNT, memcmp(before, berths, sizeof berths) == 0);
    answer = column_allot(-1, berths, 2);
    right &= refused("a negative limit", answer, PILLAR_REFUSED_BERTH_POWER, memcmp(before, berths, sizeof berths) == 0);
    answer = column_allot(19, berths, 2);
    right &= refused("guarantees above the limit", answer, PILLAR_REFUSED_GUARANTEE_SUM, memcmp(before, berths, sizeof berths) == 0);
    berths[1].guarantee = before[1].guarantee = 21;
    answer = column_allot(19, berths, 2);
    right &= refused("a guarantee above its cap", answer, PILLAR_REFUSED_BERTH_POWER, memcmp(before, berths, sizeof berths) == 0);
    return right;
}

static int wrong_energy(void)
{
    const uint64_t before[4] = {PILLAR_MOST_JOINED, 1800, 7, 3599};
    const uint64_t remainder[4] = {1, 0, 0, PILLAR_WATT_HOUR};
    const uint64_t carry[4] = {0, 1800, 0, 0};
    uint64_t day[4];
    memcpy(day, before, sizeof day);
    uint32_t answer = energy_of_day(samples, PILLAR_DAY_SAMPLES + 1, day);
    int right = refused("86401 samples", answer, PILLAR_REFUSED_SAMPLE_COUNT, memcmp(before, day, sizeof day) == 0);
    answer = energy_join(day, remainder);
    right &= refused("a remainder of 3600", answer, PILLAR_REFUSED_REMAINDER, memcmp(before, day, sizeof day) == 0);
    answer = energy_join(day, carry);
    right &= refused("joined watt-hours above 2^53 by the remainders", answer, PILLAR_REFUSED_JOINED_ENERGY, memcmp(before, day, sizeof day) == 0);
    return right;
}

static int wrong_bills(void)
{
    const uint32_t high[PILLAR_RATES] = {0, 0, 0, PILLAR_HIGHEST_PRICE + 1};
    const uint64_t much[2 * PILLAR_RATES] = {0, 0, 0, 0, 0, 0, PILLAR_MOST_BILLED + 1, 0};
    uint32_t rest = PILLAR_KILOWATT_HOUR;
    uint64_t cents = 77;
    uint32_t answer = tariff_bill(high, much, &rest, &cents);
    int right = refused("a price above 1000000", answer, PILLAR_REFUSED_PRICE, cents == 77 && rest == PILLAR_KILOWATT_HOUR);
    answer = tariff_bill(prices, much, &rest, &cents);
    right &= refused("a rest of 3600000", answer, PILLAR_REFUSED_REST, cents == 77 && rest == PILLAR_KILOWATT_HOUR);
    rest = 5;
    answer = tariff_bill(prices, much, &rest, &cents);
    right &= refused("watt-hours above 2^31", answer, PILLAR_REFUSED_IMPORT, cents == 77 && rest == 5);
    return right;
}

int main(void)
{
    int right = columns();
    right &= days();
    right &= bills();
    right &= wrong_berths();
    right &= wrong_energy();
    right &= wrong_bills();
    return all_written("harbour_demo") && right ? 0 : 1;
}
