/*
 * Gives requests to the archive for tests/encodings. A line of the input is `m`
 * and a list of records, of which the page is made, or `r` and a request, both in
 * hexadecimal digits. For each request it prints the number, the letter of the
 * move or `-`, and the answer in hexadecimal digits or `-`.
 */
#include "pillar.h"

#include <inttypes.h>
#include <stdio.h>
#include <string.h>

enum { ROOM = 8192, FILL = 0x5a };

static uint8_t page[PILLAR_PAGE_SIZE];

/* No byte: the built-in table. */
static const uint8_t no_table[1] = {0};

static int digit(char c)
{
    const char *digits = "0123456789abcdef";
    const char *found = c == '\0' ? NULL : strchr(digits, c);
    return found == NULL ? -1 : (int)(found - digits);
}

/* The bytes of a line behind its first letter. */
static size_t bytes_of(const char *line, uint8_t *bytes)
{
    size_t length = 0;
    while (digit(line[0]) >= 0 && digit(line[1]) >= 0 && length < ROOM) {
        bytes[length++] = (uint8_t)(digit(line[0]) << 4 | digit(line[1]));
        line += 2;
    }
    return length;
}

/* Whether the archive stored length and letter, and kept the bytes past the answer. */
static int request(const uint8_t *bytes, size_t length)
{
    uint8_t answer[PILLAR_ANSWER_BUFFER_SIZE + 1];
    size_t answer_length = ROOM;
    uint8_t letter = 255;
    memset(answer, FILL, sizeof answer);
    uint32_t number = pillar_request(page, sizeof page, no_table, 0, bytes, length, answer, sizeof answer, &answer_length, &letter);
    if (answer_length > sizeof answer || letter == 255)
        return 0;
    printf("%" PRIu32 " %c ", number, letter == PILLAR_LETTER_NONE ? '-' : letter);
    for (size_t i = 0; i < answer_length; i++)
        printf("%02x", answer[i]);
    printf(answer_length == 0 ? "-\n" : "\n");
    for (size_t i = answer_length; i < sizeof answer; i++)
        if (answer[i] != FILL)
            return 0;
    return 1;
}

int main(void)
{
    static char line[2 * ROOM + 4];
    static uint8_t bytes[ROOM];
    while (fgets(line, sizeof line, stdin) != NULL) {
        size_t length = bytes_of(line + 1, bytes);
        if (line[0] == 'm' && pillar_replay(bytes, length, no_table, 0, page, sizeof page) != PILLAR_ACCEPTED)
            return 1;
        if (line[0] == 'r' && !request(bytes, length))
            return 1;
    }
    if (ferror(stdin) || fflush(stdout) != 0 || ferror(stdout)) {
        fprintf(stderr, "encodings: cannot read or write\n");
        return 1;
    }
    return 0;
}
