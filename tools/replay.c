/*
 * Runs a history on the proved archive, for tools/replay: records on standard
 * input, their listing on standard output, the page that they leave into a file.
 *
 *   replay one|three TABLE PAGE < RECORDS > LISTING
 *
 * A record is a kind and five big-endian numbers of 32 bits (document 01, 'The
 * bench program'), of a three-phase meter a kind and eight (document 02, A13).
 * TABLE has the bytes of the event table as hexadecimal digits, none for the
 * built-in one. PAGE is written if there is a page. Each record is a call of the
 * archive by itself, so that a history may be of any length.
 *
 * The listing is the bench program's. The exit status is what pillar_replay
 * would answer for the whole list: 0 if there is a page, else the number of the
 * refusal; FAILED if something else fails, which standard error names.
 */
#include "pillar.h"

#include <errno.h>
#include <inttypes.h>
#include <stdio.h>
#include <stdlib.h>
#include <string.h>

enum {
    FAILED = 200, /* no number of a refusal */
    NUMBERS = 8,  /* the most of a record */
    TABLE_SIZE = PILLAR_TABLE_LINES * PILLAR_TABLE_LINE_SIZE
};

static uint8_t table[TABLE_SIZE];
static size_t table_length;

static void fail(const char *what, const char *why)
{
    fprintf(stderr, "%s: %s\n", what, why);
    exit(FAILED);
}

/* ---- The two meters --------------------------------------------------------- */

struct meter {
    size_t record_size, page_size;
    uint32_t (*fresh)(uint8_t *page, const uint32_t *n);
    uint32_t (*call)(uint8_t *page, uint32_t kind, const uint32_t *n);
    uint8_t (*state)(const uint8_t *page);
    uint32_t (*openings)(const uint8_t *page);
    uint32_t refused[NUMBERS]; /* what a refused fresh returns: mode 0, threshold 0, durations 1, clock 0 */
};

static uint32_t fresh_one(uint8_t *page, const uint32_t *n)
{
    return pillar_fresh(page, PILLAR_PAGE_SIZE, n[0], (int32_t)n[1], n[2], n[3], n[4]);
}

static uint32_t call_one(uint8_t *page, uint32_t kind, const uint32_t *n)
{
    uint8_t letter;
    return pillar_call(page, PILLAR_PAGE_SIZE, table, table_length, kind, n[0], n[1], n[2], n[3], n[4], &letter);
}

static uint32_t fresh_three(uint8_t *page, const uint32_t *n)
{
    return three_phase_fresh(page, THREE_PHASE_PAGE_SIZE, n[0], (int32_t)n[1], (int32_t)n[2], (int32_t)n[3],
                             (int32_t)n[4], n[5], n[6], n[7]);
}

static uint32_t call_three(uint8_t *page, uint32_t kind, const uint32_t *n)
{
    uint8_t letter;
    return three_phase_call(page, THREE_PHASE_PAGE_SIZE, table, table_length, kind, n[0], n[1], n[2], n[3], n[4], n[5],
                            &letter);
}

static const struct meter one_phase = {
    PILLAR_RECORD_SIZE, PILLAR_PAGE_SIZE, fresh_one, call_one, pillar_get_control_state, pillar_get_openings,
    {0, 0, 1, 1, 0},
};

static const struct meter three_phases = {
    THREE_PHASE_RECORD_SIZE, THREE_PHASE_PAGE_SIZE, fresh_three, call_three, three_phase_get_control_state,
    three_phase_get_openings, {0, 0, 0, 0, 0, 1, 1, 0},
};

/* ---- The listing ------------------------------------------------------------ */

static void print_word(const char *word)
{
    if (printf("%s\n", word) < 0)
        fail("cannot write standard output", strerror(errno));
}

static void print_line(const struct meter *meter, uint64_t position, uint32_t answer, const uint8_t *page)
{
    if (printf("%" PRIu64 " %" PRIu32 " %u %" PRIu32 "\n", position, answer, (unsigned)meter->state(page),
               meter->openings(page)) < 0)
        fail("cannot write standard output", strerror(errno));
}

/* The bytes of the next record: fewer than it has if it is cut, none behind the last. */
static size_t next(const struct meter *meter, uint8_t *kind, uint32_t *n)
{
    uint8_t record[1 + 4 * NUMBERS];
    size_t got = fread(record, 1, meter->record_size, stdin);
    if (ferror(stdin))
        fail("cannot read the records", strerror(errno));
    if (got == meter->record_size) {
        *kind = record[0];
        for (size_t i = 0; i < (meter->record_size - 1) / 4; i++)
            n[i] = pillar_get_number(record, 1 + 4 * i);
    }
    return got;
}

/* Prints the listing, leaves the page, and answers as pillar_replay does. */
static uint32_t replay(const struct meter *meter, uint8_t *page)
{
    uint8_t kind = 0;
    uint32_t n[NUMBERS] = {0};
    size_t got = next(meter, &kind, n);
    if (got == 0)
        return PILLAR_REFUSED_LIST_EMPTY;
    if (got == meter->record_size && kind != PILLAR_KIND_FRESH) {
        print_word("bad");
        return PILLAR_REFUSED_LIST_BAD;
    }
    for (uint64_t position = 1; got == meter->record_size; position++) {
        uint32_t answer = position == 1 ? meter->fresh(page, n) : meter->call(page, kind, n);
        if (position == 1 && answer != PILLAR_ACCEPTED)
            meter->fresh(page, meter->refused);
        print_line(meter, position, answer, page);
        if (position == 1 && answer != PILLAR_ACCEPTED)
            return answer;
        got = next(meter, &kind, n);
    }
    if (got == 0)
        return PILLAR_ACCEPTED;
    print_word("short");
    return PILLAR_REFUSED_LIST_SHORT;
}

/* ---- The command ------------------------------------------------------------ */

static void read_table(const char *digits)
{
    size_t length = strlen(digits);
    if (length > 2 * TABLE_SIZE || length % 2 != 0 || strspn(digits, "0123456789abcdef") != length)
        fail("cannot read the table", "no bytes in hexadecimal digits, or too many");
    for (; table_length < length / 2; table_length++) {
        const char pair[3] = {digits[2 * table_length], digits[2 * table_length + 1], '\0'};
        table[table_length] = (uint8_t)strtoul(pair, NULL, 16);
    }
    if (table_length > 0 && pillar_table(table, table_length) != PILLAR_ACCEPTED)
        fail("cannot take the table", "the archive refuses it");
}

static void write_page(const char *path, const uint8_t *page, size_t size)
{
    FILE *file = fopen(path, "wb");
    if (file == NULL || fwrite(page, 1, size, file) != size || fclose(file) != 0)
        fail("cannot write the page", strerror(errno));
}

int main(int argc, char **argv)
{
    static uint8_t page[PILLAR_PAGE_SIZE];
    if (argc != 4 || (strcmp(argv[1], "one") != 0 && strcmp(argv[1], "three") != 0))
        fail("usage", "replay one|three TABLE PAGE < RECORDS > LISTING");
    const struct meter *meter = strcmp(argv[1], "one") == 0 ? &one_phase : &three_phases;
    read_table(argv[2]);
    uint32_t answer = replay(meter, page);
    if (fflush(stdout) != 0)
        fail("cannot write standard output", strerror(errno));
    if (answer == PILLAR_ACCEPTED)
        write_page(argv[3], page, meter->page_size);
    return (int)answer;
}
