/*
 * Measures the stack of the archive's functions for tests/stack. Each call is made on a
 * stack of its own that is painted before: what is no longer painted then, was taken.
 * It counts from where the caller stands: arguments that lie on the stack, what aligns
 * it, the return address, and all below. What the caller itself takes is measured by one
 * that calls nothing.
 *
 *   stack           prints the most that each function took: its name, the bytes
 *   stack BYTES     the same of a function with so many bytes of its own
 *
 * A line of the input is `t` and an event table, `o` and a list of records, or `h` and a
 * list of a three-phase meter, in hexadecimal digits. Each list runs at once and call by
 * call, under the table before it; the page that it leaves is then damaged at every byte,
 * and gets every request. Fresh meters, tables, random lists and what the harbour's
 * office gives are made here.
 */
#define _XOPEN_SOURCE 600
#include "pillar.h"

#include <stdio.h>
#include <stdlib.h>
#include <string.h>
#include <ucontext.h>

/* ---- The painted stack ---------------------------------------------------------------------- */

enum { STACK = 65536, CHUNK = 256, ROOM = 65536 };

/* At each pass another paint, so that no byte is taken for it, and another place to begin. */
static const struct {
    uint8_t paint;
    size_t shift;
} passes[] = {{0xa5, 0}, {0x5a, 16}, {0xa5, 32}, {0x5a, 48}};

static union {
    uint8_t bytes[STACK];
    long double aligned;
} stack;
static uint8_t painted[STACK];
static size_t pass, caller;
static ucontext_t outside, inside;
static void (*called)(void);

static void fail(const char *what)
{
    fprintf(stderr, "stack: %s\n", what);
    exit(1);
}

static void begin(void)
{
    called();
}

/* How many bytes at the end of the painted stack are no longer painted. */
static size_t unpainted(void)
{
    size_t at = 0;
    while (at < STACK && memcmp(stack.bytes + at, painted, CHUNK) == 0)
        at += CHUNK;
    while (at < STACK && stack.bytes[at] == passes[pass].paint)
        at++;
    if (at == 0)
        fail("a function took the whole stack");
    return STACK - at;
}

/* How many bytes a function took, with what called it. */
static size_t taken(void (*function)(void))
{
    memcpy(stack.bytes, painted, STACK);
    if (getcontext(&inside) != 0)
        fail("cannot make a stack");
    inside.uc_stack.ss_sp = stack.bytes;
    inside.uc_stack.ss_size = STACK - passes[pass].shift;
    inside.uc_link = &outside;
    called = function;
    makecontext(&inside, begin, 0);
    if (swapcontext(&outside, &inside) != 0)
        fail("cannot change over to the stack");
    return unpainted();
}

static void nothing(void)
{
}

/* ---- The functions -------------------------------------------------------------------------- */

/* Those of the archive, and those that it leaves to its user. */
#define FUNCTIONS(X) \
    X(pillar_table) X(pillar_fresh) X(pillar_call) X(pillar_replay) X(pillar_check) X(pillar_request) \
    X(three_phase_fresh) X(three_phase_call) X(three_phase_replay) X(three_phase_check) \
    X(column_allot) X(energy_of_day) X(energy_join) X(tariff_bill) X(memcpy) X(memset)

#define PLACE(name) AT_##name,
#define NAME(name) #name,

enum { FUNCTIONS(PLACE) COUNT };
static const char *const names[] = {FUNCTIONS(NAME)};
static size_t most[COUNT];

/* What the callers below give: they have no variable of their own. */
static uint8_t table[PILLAR_TABLE_LINES * PILLAR_TABLE_LINE_SIZE + 8], page[PILLAR_PAGE_SIZE + 1], letter;
static uint8_t records[ROOM], request[32], answer[PILLAR_ANSWER_BUFFER_SIZE];
static size_t table_length, length, records_length, request_length, answer_size, answer_length, count;
static uint32_t kind, n[8], result;
static struct column_berth berths[PILLAR_BERTHS + 1];
static int32_t limit, samples[PILLAR_DAY_SAMPLES + 1];
static uint64_t day[4], other[4], imports[8], cents;
static uint32_t prices[4], rest;

static void call_pillar_table(void)
{
    result = pillar_table(table, table_length);
}

static void call_pillar_fresh(void)
{
    result = pillar_fresh(page, length, n[0], (int32_t)n[1], n[2], n[3], n[4]);
}

static void call_pillar_call(void)
{
    result = pillar_call(page, length, table, table_length, kind, n[0], n[1], n[2], n[3], n[4], &letter);
}

static void call_pillar_replay(void)
{
    result = pillar_replay(records, records_length, table, table_length, page, length);
}

static void call_pillar_check(void)
{
    result = pillar_check(page, length, table, table_length);
}

static void call_pillar_request(void)
{
    result = pillar_request(page, length, table, table_length, request, request_length, answer, answer_size, &answer_length, &letter);
}

static void call_three_phase_fresh(void)
{
    result = three_phase_fresh(page, length, n[0], (int32_t)n[1], (int32_t)n[2], (int32_t)n[3], (int32_t)n[4], n[5], n[6], n[7]);
}

static void call_three_phase_call(void)
{
    result = three_phase_call(page, length, table, table_length, kind, n[0], n[1], n[2], n[3], n[4], n[5], &letter);
}

static void call_three_phase_replay(void)
{
    result = three_phase_replay(records, records_length, table, table_length, page, length);
}

static void call_three_phase_check(void)
{
    result = three_phase_check(page, length, table, table_length);
}

static void call_column_allot(void)
{
    result = column_allot(limit, berths, count);
}

static void call_energy_of_day(void)
{
    result = energy_of_day(samples, count, day);
}

static void call_energy_join(void)
{
    result = energy_join(day, other);
}

static void call_tariff_bill(void)
{
    result = tariff_bill(prices, imports, &rest, &cents);
}

static void call_memcpy(void)
{
    memcpy(page, records, count);
}

static void call_memset(void)
{
    memset(page, 0, count);
}

static void measure(int place, void (*function)(void))
{
    size_t bytes = taken(function) - caller;
    if (bytes > most[place])
        most[place] = bytes;
}

#define MEASURE(name) measure(AT_##name, call_##name)

/* ---- Numbers -------------------------------------------------------------------------------- */

static uint64_t seed;

static uint32_t drawn(uint32_t below)
{
    seed = seed * UINT64_C(6364136223846793005) + UINT64_C(1442695040888963407);
    return (uint32_t)(seed >> 33) % below;
}

/* At the ends of the ranges, and near them. */
static uint32_t number(void)
{
    static const uint32_t ends[] = {0, 1, 2, 3, 4, 5, 6, 7, 8, 9, 40, 86400, 86401, 604800, 604801, 0x7fffffff, 0x80000000, 0xffffffff};
    uint32_t place = drawn(2 * (uint32_t)(sizeof ends / sizeof *ends));
    return place < sizeof ends / sizeof *ends ? ends[place] : drawn(100);
}

static void put(uint8_t *at, uint32_t value)
{
    for (int i = 0; i < 4; i++)
        at[i] = (uint8_t)(value >> (24 - 8 * i));
}

static uint32_t taken_off(const uint8_t *at)
{
    return (uint32_t)at[0] << 24 | (uint32_t)at[1] << 16 | (uint32_t)at[2] << 8 | at[3];
}

/* ---- Tables, fresh meters and lists --------------------------------------------------------- */

/* So many lines, whose codes are no barred ones. */
static void make_table(size_t lines)
{
    for (size_t i = 0; i < lines; i++) {
        table[4 * i] = (uint8_t)(70 + 2 * i);
        table[4 * i + 1] = (uint8_t)(1 + i % 3);
        table[4 * i + 2] = i % 5 == 0 ? PILLAR_TABLE_NO_BIT : (uint8_t)(i % 32);
        table[4 * i + 3] = i % 7 == 0 ? PILLAR_TABLE_NO_BIT : (uint8_t)(i % 32);
    }
    table_length = 4 * lines;
}

static void tables(void)
{
    for (size_t lines = 0; lines <= PILLAR_TABLE_LINES + 1; lines++) {
        make_table(lines);
        MEASURE(pillar_table);
        for (size_t at = 0; at < 4 * lines; at++) {
            uint8_t before = table[at];
            table[at] = 33;
            MEASURE(pillar_table);
            table[at] = before;
        }
        table_length++;
        MEASURE(pillar_table);
    }
    table_length = 0;
}

static void fresh_meters(void)
{
    for (int i = 0; i < 2000; i++) {
        for (int place = 0; place < 8; place++)
            n[place] = number();
        length = PILLAR_PAGE_SIZE - (size_t)(i % 4 == 3);
        MEASURE(pillar_fresh);
        length = THREE_PHASE_PAGE_SIZE - (size_t)(i % 4 == 3);
        MEASURE(three_phase_fresh);
    }
}

/* Random calls behind a fresh meter of random settings that are accepted. */
static void make_list(size_t calls, size_t size, uint32_t kinds)
{
    memset(records, 0, size);
    put(records + 1, 1 + drawn(6));
    for (size_t at = 5; at < size; at += 4)
        put(records + at, 1 + drawn(3));
    for (size_t i = 1; i <= calls; i++) {
        records[i * size] = (uint8_t)(drawn(3) == 0 ? 1 : drawn(kinds + 2));
        for (size_t at = 1; at < size; at += 4)
            put(records + i * size + at, drawn(4) == 0 ? 70 + 2 * drawn(64) : number());
    }
    records_length = (calls + 1) * size;
}

static void read_record(size_t i, size_t size)
{
    kind = records[i * size];
    for (size_t at = 1; at < size; at += 4)
        n[(at - 1) / 4] = taken_off(records + i * size + at);
}

/* ---- Requests ------------------------------------------------------------------------------- */

static const uint8_t services[] = {0xc0, 0xc1, 0xc3, 0xc2};

/* Class and logical name. */
static const uint8_t objects[][8] = {
    {0, 70, 0, 0, 96, 3, 10, 255}, {0, 71, 0, 0, 17, 0, 0, 255}, {0, 1, 0, 0, 97, 97, 0, 255},
    {0, 1, 0, 0, 97, 98, 0, 255}, {0, 1, 0, 0, 97, 98, 10, 255}, {0, 3, 0, 0, 97, 98, 10, 255},
};

/* With its length in front: none; null, boolean, enum, numbers; an array, an octet string. */
static const uint8_t data[][8] = {
    {0}, {1, 0}, {2, 3, 1}, {2, 22, 4}, {2, 22, 7}, {2, 15, 0}, {5, 5, 0, 0, 12, 1}, {5, 5, 255, 0, 0, 0},
    {5, 6, 0, 0, 0, 2}, {5, 6, 255, 255, 255, 255}, {3, 18, 0, 1}, {3, 1, 1, 0}, {4, 9, 2, 1, 1},
};

static void make_request(size_t service, size_t object, int attribute, int flag, size_t of)
{
    request[0] = services[service];
    request[1] = 1;
    request[2] = 0xc1;
    memcpy(request + 3, objects[object], 8);
    request[11] = (uint8_t)attribute;
    request[12] = (uint8_t)flag;
    memcpy(request + 13, data[of] + 1, data[of][0]);
    request_length = 13 + (size_t)data[of][0];
}

/* Every request on a page; each that changes it is followed by the page as it was. */
static void requests(void)
{
    static uint8_t before[PILLAR_PAGE_SIZE];
    memcpy(before, page, sizeof before);
    answer_size = sizeof answer;
    for (size_t service = 0; service < sizeof services; service++)
        for (size_t object = 0; object < sizeof objects / sizeof *objects; object++)
            for (int attribute = 0; attribute < 9; attribute++)
                for (int flag = 0; flag < 2; flag++)
                    for (size_t of = 0; of < sizeof data / sizeof *data; of++) {
                        make_request(service, object, attribute, flag, of);
                        MEASURE(pillar_request);
                        memcpy(page, before, sizeof before);
                    }
    for (request_length = 0; request_length < 13; request_length++)
        MEASURE(pillar_request);
    answer_size--;
    MEASURE(pillar_request);
    answer_size++;
}

/* ---- A list, and the page that it leaves ---------------------------------------------------- */

/* A meter: what it is made of, and how its functions are measured. */
struct meter {
    size_t page, record;
    void (*fresh)(void), (*call)(void), (*replay)(void), (*check)(void);
    int at_fresh, at_call, at_replay, at_check;
};

static const struct meter one_phase = {
    PILLAR_PAGE_SIZE, PILLAR_RECORD_SIZE,
    call_pillar_fresh, call_pillar_call, call_pillar_replay, call_pillar_check,
    AT_pillar_fresh, AT_pillar_call, AT_pillar_replay, AT_pillar_check,
};

static const struct meter three_phase = {
    THREE_PHASE_PAGE_SIZE, THREE_PHASE_RECORD_SIZE,
    call_three_phase_fresh, call_three_phase_call, call_three_phase_replay, call_three_phase_check,
    AT_three_phase_fresh, AT_three_phase_call, AT_three_phase_replay, AT_three_phase_check,
};

/* The page damaged at each byte, and cut. */
static void damaged(const struct meter *meter)
{
    make_request(0, 0, 2, 0, 0);
    answer_size = sizeof answer;
    for (size_t at = 0; at < meter->page; at++) {
        page[at] ^= 0x81;
        measure(meter->at_check, meter->check);
        kind = 1;
        measure(meter->at_call, meter->call);
        if (meter == &one_phase)
            MEASURE(pillar_request);
        page[at] ^= 0x81;
    }
    length--;
    measure(meter->at_check, meter->check);
    measure(meter->at_call, meter->call);
    length++;
}

/* At once, a byte short, into a page a byte short; then call by call. */
static void list(const struct meter *meter)
{
    length = meter->page;
    measure(meter->at_replay, meter->replay);
    if (records_length < meter->record)
        return;
    records_length--;
    measure(meter->at_replay, meter->replay);
    records_length++;
    length--;
    measure(meter->at_replay, meter->replay);
    length++;
    read_record(0, meter->record);
    measure(meter->at_fresh, meter->fresh);
    if (result != PILLAR_ACCEPTED)
        return;
    for (size_t i = 1; i < records_length / meter->record; i++) {
        read_record(i, meter->record);
        measure(meter->at_call, meter->call);
    }
    measure(meter->at_check, meter->check);
    if (result != PILLAR_ACCEPTED)
        fail("a list leaves a page that is refused");
}

/* A list of the input. */
static void given(const struct meter *meter)
{
    list(meter);
    if (result == PILLAR_ACCEPTED)
        damaged(meter);
}

static void random_lists(void)
{
    for (int i = 0; i < 20; i++) {
        make_table(i % 2 == 0 ? 0 : 64);
        make_list(300, PILLAR_RECORD_SIZE, 17);
        list(&one_phase);
        requests();
        make_list(300, THREE_PHASE_RECORD_SIZE, 15);
        list(&three_phase);
    }
    table_length = 0;
}

/* ---- The harbour's office ------------------------------------------------------------------- */

static void columns(void)
{
    for (int i = 0; i < 2000; i++) {
        count = drawn(PILLAR_BERTHS + 2);
        limit = (int32_t)(i % 3 == 0 ? number() : 1000000);
        for (size_t berth = 0; berth < count; berth++) {
            berths[berth].guarantee = (int32_t)(i % 5 == 0 ? number() : drawn(50));
            berths[berth].cap = (int32_t)(i % 5 == 0 ? number() : 50 + drawn(50));
            berths[berth].demand = (int32_t)number();
        }
        MEASURE(column_allot);
    }
}

static void days(void)
{
    static const size_t counts[] = {0, 1, 2, 1000, PILLAR_DAY_SAMPLES, PILLAR_DAY_SAMPLES + 1};
    for (size_t i = 0; i <= PILLAR_DAY_SAMPLES; i++)
        samples[i] = (int32_t)number();
    for (size_t i = 0; i < sizeof counts / sizeof *counts; i++) {
        count = counts[i];
        MEASURE(energy_of_day);
        MEASURE(energy_join);
        memcpy(other, day, sizeof other);
    }
    for (int i = 0; i < 2000; i++) {
        for (int place = 0; place < 4; place++) {
            day[place] = place % 2 == 0 ? (uint64_t)number() << drawn(25) : drawn(i % 10 == 0 ? 3700 : 3600);
            other[place] = place % 2 == 0 ? (uint64_t)number() << drawn(25) : drawn(3600);
        }
        MEASURE(energy_join);
    }
}

static void bills(void)
{
    for (int i = 0; i < 2000; i++) {
        for (int rate = 0; rate < 4; rate++) {
            prices[rate] = i % 10 == 0 ? number() : drawn(PILLAR_HIGHEST_PRICE + 1);
            imports[2 * rate] = (uint64_t)number() >> (i % 10 == 1 ? 0 : 2);
            imports[2 * rate + 1] = drawn(i % 10 == 2 ? 3700 : 3600);
        }
        rest = i % 10 == 3 ? number() : drawn(PILLAR_KILOWATT_HOUR);
        MEASURE(tariff_bill);
    }
}

/* ---- What the archive leaves to its user ---------------------------------------------------- */

static void copies(void)
{
    for (count = 0; count <= sizeof page; count++) {
        MEASURE(memcpy);
        MEASURE(memset);
    }
}

/* ---- A function with so many bytes of its own ----------------------------------------------- */

static size_t own;

static uint32_t planted(void)
{
    volatile uint8_t bytes[own];
    bytes[0] = 1;
    return bytes[0];
}

static void call_planted(void)
{
    result = planted();
}

/* ---- The input ------------------------------------------------------------------------------ */

static int digit(char c)
{
    const char *digits = "0123456789abcdef";
    const char *found = c == '\0' ? NULL : strchr(digits, c);
    return found == NULL ? -1 : (int)(found - digits);
}

static size_t bytes_of(const char *line, uint8_t *bytes, size_t room)
{
    size_t found = 0;
    for (; digit(line[0]) >= 0 && digit(line[1]) >= 0; line += 2) {
        if (found == room)
            fail("a line is too long");
        bytes[found++] = (uint8_t)(digit(line[0]) << 4 | digit(line[1]));
    }
    return found;
}

static void begin_pass(size_t which)
{
    pass = which;
    seed = 1;
    memset(painted, passes[pass].paint, sizeof painted);
    caller = taken(nothing);
}

/* All that is made here, in each pass. */
static void made_here(void)
{
    tables();
    fresh_meters();
    random_lists();
    columns();
    days();
    bills();
    copies();
}

static void line_given(const char *line)
{
    if (line[0] == 't') {
        table_length = bytes_of(line + 1, table, sizeof table);
        return;
    }
    records_length = bytes_of(line + 1, records, sizeof records);
    given(line[0] == 'o' ? &one_phase : &three_phase);
}

static int ended(void)
{
    if (ferror(stdin) || fflush(stdout) != 0 || ferror(stdout))
        fail("cannot read or write");
    return 0;
}

int main(int argc, char **argv)
{
    static char line[2 * ROOM + 4];
    enum { PASSES = sizeof passes / sizeof *passes };
    if (argc == 2) {
        begin_pass(0);
        own = strtoul(argv[1], NULL, 10);
        printf("planted %zu\n", taken(call_planted) - caller);
        return ended();
    }
    for (size_t i = 0; i < PASSES; i++) {
        begin_pass(i);
        made_here();
    }
    for (size_t i = 0; fgets(line, sizeof line, stdin) != NULL; i++) {
        begin_pass(line[0] == 't' ? pass : i % PASSES);
        line_given(line);
    }
    for (size_t i = 0; i < COUNT; i++)
        printf("%s %zu\n", names[i], most[i]);
    return ended();
}
