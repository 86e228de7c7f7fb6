/*
 * Runs histories of a three-phase meter (document 02, A13) through the archive,
 * for tests/three_phase. A line of the input is `t` and the bytes of an event
 * table, perhaps none, or `r` and the records of a history of 33 bytes each,
 * both in hexadecimal digits. For each history it prints
 *
 *   1 0 -             for each record its position, the answer, the letter or `-`
 *   calls BYTES       the page after the calls one by one, or `none`
 *   replay 0 BYTES    the answer of the whole list, and its page or `none`
 *
 * With the word `refusals` it prints what differs from the numbers of lengths,
 * pairs and pages that are not sound, and how many it has compared.
 */
#include <inttypes.h>
#include <stdio.h>
#include <stdlib.h>
#include <string.h>

uint32_t three_phase_fresh(uint8_t *page, size_t page_len, uint32_t mode, int32_t l1, int32_t l2, int32_t l3,
                           int32_t sum, uint32_t over, uint32_t under, uint32_t clock);
uint32_t three_phase_call(uint8_t *page, size_t page_len, const uint8_t *table, size_t table_len, uint32_t kind,
                          uint32_t n1, uint32_t n2, uint32_t n3, uint32_t n4, uint32_t n5, uint32_t n6,
                          uint8_t *letter);
uint32_t three_phase_replay(const uint8_t *records, size_t records_len, const uint8_t *table, size_t table_len,
                            uint8_t *page, size_t page_len);
uint32_t three_phase_check(const uint8_t *page, size_t page_len, const uint8_t *table, size_t table_len);

enum { PAGE = 586, RECORD = 33, NUMBERS = 8, TABLE = 256, ROOM = 1 << 17, FILL = 0x5a };

static void fail(const char *what)
{
    fprintf(stderr, "three_phase: %s\n", what);
    exit(1);
}

static uint32_t number(const uint8_t *at)
{
    return (uint32_t)at[0] << 24 | (uint32_t)at[1] << 16 | (uint32_t)at[2] << 8 | at[3];
}

static void put(uint8_t *at, uint32_t value)
{
    for (int i = 0; i < 4; i++)
        at[i] = (uint8_t)(value >> (24 - 8 * i));
}

/* ---- A history ------------------------------------------------------------------------------ */

static uint8_t table[TABLE + 1];
static size_t table_length;

static void print_page(const uint8_t *page)
{
    for (int i = 0; i < PAGE; i++)
        printf("%02x", page[i]);
    printf("\n");
}

/* The byte behind the page has to stay, and on a refusal all of it. */
static void expect_kept(const uint8_t *page, int refused)
{
    for (size_t i = refused ? 0 : PAGE; i < PAGE + 1; i++)
        if (page[i] != FILL)
            fail("a byte that had to stay is another");
}

static uint32_t fresh(uint8_t *page, const uint32_t n[NUMBERS])
{
    return three_phase_fresh(page, PAGE + 1, n[0], (int32_t)n[1], (int32_t)n[2], (int32_t)n[3], (int32_t)n[4], n[5],
                             n[6], n[7]);
}

static uint32_t call(uint8_t *page, uint32_t kind, const uint32_t n[NUMBERS], uint8_t *letter)
{
    uint8_t before[PAGE];
    memcpy(before, page, PAGE);
    *letter = 255;
    uint32_t answer = three_phase_call(page, PAGE, table, table_length, kind, n[0], n[1], n[2], n[3], n[4], n[5],
                                       letter);
    if (*letter == 255)
        fail("no letter was stored");
    if (answer != 0 && memcmp(before, page, PAGE) != 0)
        fail("a refused call has changed the page");
    if (three_phase_check(page, PAGE, table, table_length) != 0)
        fail("the page after a call is not sound");
    return answer;
}

/* Every record by itself: whether fresh was accepted. */
static int one_by_one(uint8_t *page, const uint8_t *records, size_t count)
{
    for (size_t i = 0; i < count; i++) {
        const uint8_t *record = records + i * RECORD;
        uint32_t n[NUMBERS];
        uint8_t letter = 0;
        for (size_t j = 0; j < NUMBERS; j++)
            n[j] = number(record + 1 + 4 * j);
        uint32_t answer = i == 0 ? fresh(page, n) : call(page, record[0], n, &letter);
        printf("%zu %" PRIu32 " %c\n", i + 1, answer, letter == 0 ? '-' : letter);
        if (i == 0)
            expect_kept(page, answer != 0);
        if (i == 0 && answer != 0)
            return 0;
    }
    return 1;
}

static void history(const uint8_t *records, size_t length)
{
    uint8_t page[PAGE + 1];
    memset(page, FILL, sizeof page);
    int made = one_by_one(page, records, length / RECORD);
    printf("calls ");
    if (made)
        print_page(page);
    else
        printf("none\n");
    memset(page, FILL, sizeof page);
    uint32_t answer = three_phase_replay(records, length, table, table_length, page, sizeof page);
    expect_kept(page, answer != 0);
    printf("replay %" PRIu32 " ", answer);
    if (answer == 0)
        print_page(page);
    else
        printf("none\n");
}

/* ---- Refusals ------------------------------------------------------------------------------- */

static int compared, differ;

static void expect(const char *what, long place, uint32_t answer, uint32_t wanted)
{
    compared++;
    if (answer != wanted) {
        differ++;
        printf("%s (%ld): the archive answers %" PRIu32 ", not %" PRIu32 "\n", what, place, answer, wanted);
    }
}

/* A page of mode 5 with Over 2 and Under 3, as fresh makes it. */
static void sound_page(uint8_t *page)
{
    memset(page, FILL, PAGE + 1);
    expect("fresh", 0, three_phase_fresh(page, PAGE, 5, 10, 20, 30, 50, 2, 3, 500), 0);
}

/* What check and a call answer for a page; the call's own refusal, 1, comes last. */
static void expect_page(const char *what, long place, uint8_t *page, size_t length, uint32_t wanted)
{
    static const uint8_t none[1] = {0};
    uint8_t letter = 255, before[PAGE + 1];
    memcpy(before, page, sizeof before);
    expect(what, place, three_phase_check(page, length, none, 0), wanted);
    uint32_t answer = three_phase_call(page, length, none, 0, 6, 7, 0, 0, 0, 0, 0, &letter);
    expect(what, place, answer, wanted == 0 ? 1 : wanted);
    expect("letter of a refused call", place, letter, 0);
    expect("page of a refused call is kept", place, memcmp(before, page, sizeof before) == 0, 1);
}

static void lengths(void)
{
    static const uint8_t none[1] = {0};
    uint8_t page[PAGE + 1], letter = 255;
    const size_t others[] = {0, 1, PAGE - 1, PAGE + 1};
    sound_page(page);
    expect_page("a sound page", 0, page, PAGE, 0);
    page[0] ^= 1;
    for (size_t i = 0; i < sizeof others / sizeof *others; i++)
        expect_page("another length comes before the pairs", (long)others[i], page, others[i], 9);
    expect("fresh, buffer", PAGE - 1, three_phase_fresh(page, PAGE - 1, 5, 1, 1, 1, 1, 1, 1, 1), 8);
    expect("fresh, mode before buffer", 0, three_phase_fresh(page, 0, 7, -1, 1, 1, 1, 0, 1, 1), 1);
    expect("fresh, threshold before buffer", 0, three_phase_fresh(page, 0, 6, 1, 1, 1, -1, 0, 1, 1), 4);
    expect("fresh, duration before buffer", 0, three_phase_fresh(page, 0, 6, 1, 1, 1, 1, 1, 0, 1), 5);
    const uint32_t kinds[] = {0, 16, 17, 18, 255, 257, 0xffffffff};
    for (size_t i = 0; i < sizeof kinds / sizeof *kinds; i++) {
        letter = 255;
        uint32_t answer = three_phase_call(page, 0, none, 0, kinds[i], 1, 2, 3, 4, 5, 6, &letter);
        expect("the kind comes before the page", (long)kinds[i], answer, 13);
        expect("letter of no kind", (long)kinds[i], letter, 0);
    }
}

static void pairs(void)
{
    uint8_t page[PAGE + 1];
    for (int i = 0; i < 32; i++) {
        sound_page(page);
        page[i] ^= 1;
        page[32] = 7;
        expect_page("a pair differs, before what is not sound", i, page, PAGE, 10);
    }
}

static void not_sound(void)
{
    /* Place in the page, the four bytes from there. */
    static const struct { size_t at; uint32_t bytes; } wrong[] = {
        {32, 0x07010000}, {32, 0x05030000}, {32, 0x00020000}, {32, 0x00000000},     /* mode, switch */
        {38, 0}, {38, 86401}, {38, 0xffffffff}, {42, 0}, {42, 86401},               /* Over, Under */
        {86, 1}, {91, 1},                                                           /* count of alarm bits */
        {103, 0x21000000}, {264, 0x21000000}, {425, 0x21000000},                    /* counts of 33 */
        {104, 1}, {260, 1}, {421, 1}, {582, 1},                                     /* lines past the count */
    };
    uint8_t page[PAGE + 1];
    for (size_t i = 0; i < sizeof wrong / sizeof *wrong; i++) {
        sound_page(page);
        put(page + wrong[i].at, wrong[i].bytes);
        expect_page("a page that is not sound", (long)wrong[i].at, page, PAGE, 11);
    }
    for (size_t at = 46; at < 82; at += 9) {    /* threshold, Exceeded, Run of each line */
        static const struct { uint32_t threshold; uint8_t exceeded; uint32_t run, wanted; } lines[] = {
            {0x7fffffff, 0, 1, 0}, {0, 1, 2, 0}, {0x80000000, 0, 0, 11}, {0xffffffff, 0, 0, 11},
            {5, 2, 0, 11}, {5, 255, 0, 11}, {5, 0, 2, 11}, {5, 1, 3, 11}, {5, 0, 0xffffffff, 11},
        };
        for (size_t i = 0; i < sizeof lines / sizeof *lines; i++) {
            sound_page(page);
            put(page + at, lines[i].threshold);
            page[at + 4] = lines[i].exceeded;
            put(page + at + 5, lines[i].run);
            expect_page("a monitored value", (long)at, page, PAGE, lines[i].wanted);
        }
    }
}

/* A line of a code in each log, under the built-in table and under one that lists 70 for log 3. */
static void codes(void)
{
    static const uint8_t none[1] = {0}, own[] = {70, 3, 255, 255};
    static const struct { uint8_t code; uint32_t built_in[3], own[3]; } lines[] = {
        {6, {0, 11, 11}, {11, 11, 11}}, {40, {11, 0, 11}, {11, 11, 11}}, {68, {11, 11, 0}, {11, 11, 11}},
        {70, {11, 11, 11}, {11, 11, 0}}, {65, {11, 11, 0}, {11, 11, 0}}, {4, {0, 11, 11}, {0, 11, 11}},
        {255, {0, 0, 0}, {0, 0, 0}}, {0, {11, 11, 11}, {11, 11, 11}},
    };
    uint8_t page[PAGE + 1];
    for (size_t i = 0; i < sizeof lines / sizeof *lines; i++)
        for (size_t log = 0; log < 3; log++) {
            sound_page(page);
            page[103 + 161 * log] = 1;
            page[103 + 161 * log + 5] = lines[i].code;
            uint32_t answer = three_phase_check(page, PAGE, none, 0);
            expect("a code, built-in table", lines[i].code, answer, lines[i].built_in[log]);
            answer = three_phase_check(page, PAGE, own, sizeof own);
            expect("a code, own table", lines[i].code, answer, lines[i].own[log]);
        }
}

static void lists(void)
{
    static const uint8_t none[1] = {0};
    uint8_t records[2 * RECORD] = {0}, page[PAGE + 1];
    memset(page, FILL, sizeof page);
    put(records + 21, 1);       /* Over */
    put(records + 25, 1);       /* Under */
    records[RECORD] = 1;
    expect("no byte", 0, three_phase_replay(records, 0, none, 0, page, 0), 100);
    expect("the first record cut", 32, three_phase_replay(records, RECORD - 1, none, 0, page, 0), 102);
    expect("the first record cut, another kind", 1, three_phase_replay(records + RECORD, 1, none, 0, page, 0), 102);
    expect("the first record of another kind", 1, three_phase_replay(records + RECORD, RECORD, none, 0, page, 0), 101);
    expect("a later record cut", 34, three_phase_replay(records, RECORD + 1, none, 0, page, 0), 102);
    expect("a later record cut", 65, three_phase_replay(records, 2 * RECORD - 1, none, 0, page, PAGE), 102);
    expect("buffer", 585, three_phase_replay(records, 2 * RECORD, none, 0, page, PAGE - 1), 8);
    put(records + 25, 0);
    expect("Under before a later record cut", 34, three_phase_replay(records, RECORD + 1, none, 0, page, 0), 5);
    put(records + 17, 0xffffffff);
    expect("the sum's threshold before Under", 34, three_phase_replay(records, RECORD + 1, none, 0, page, 0), 4);
    put(records + 1, 7);
    expect("mode before the sum's threshold", 34, three_phase_replay(records, RECORD + 1, none, 0, page, 0), 1);
    expect_kept(page, 1);
}

/* ---- The input ------------------------------------------------------------------------------ */

static int digit(char c)
{
    const char *digits = "0123456789abcdef";
    const char *found = c == '\0' ? NULL : strchr(digits, c);
    return found == NULL ? -1 : (int)(found - digits);
}

static size_t bytes_of(const char *line, uint8_t *bytes, size_t room)
{
    size_t length = 0;
    for (; digit(line[0]) >= 0 && digit(line[1]) >= 0; line += 2) {
        if (length == room)
            fail("a line is too long");
        bytes[length++] = (uint8_t)(digit(line[0]) << 4 | digit(line[1]));
    }
    return length;
}

int main(int argc, char **argv)
{
    static char line[2 * ROOM + 4];
    static uint8_t records[ROOM];
    if (argc == 2 && strcmp(argv[1], "refusals") == 0) {
        lengths();
        pairs();
        not_sound();
        codes();
        lists();
        printf("%d answers, %d differ\n", compared, differ);
        return differ != 0;
    }
    while (fgets(line, sizeof line, stdin) != NULL) {
        if (line[0] == 't')
            table_length = bytes_of(line + 1, table, TABLE + 1);
        else
            history(records, bytes_of(line + 1, records, ROOM));
    }
    if (ferror(stdin) || fflush(stdout) != 0 || ferror(stdout))
        fail("cannot read or write");
    return 0;
}
