/*
 * The network centre's requests as DLMS bytes, answered on a page through the C
 * interface (document 02, A9): what is read, what is set and refused, and a method
 * that moves the switch. Prints each answer in hexadecimal digits; what it prints
 * is compared with request_demo.txt.
 *
 *   tools/archive pillar
 *   gcc -std=c99 -Wall -Wextra -pedantic -Iinclude -o target/request_demo examples/c/request_demo.c target/staticlib/libpillar.a
 */
#include "pillar.h"
#include "written.h"

#include <inttypes.h>
#include <stdio.h>
#include <string.h>

/* Tag of the service, normal; invoke id; class and logical name; attribute or method, flag, data. */
#define GET 0xc0, 0x01
#define SET 0xc1, 0x01
#define ACTION 0xc3, 0x01
#define DISCONNECT_CONTROL 0x00, 0x46, 0x00, 0x00, 0x60, 0x03, 0x0a, 0xff
#define LIMITER 0x00, 0x47, 0x00, 0x00, 0x11, 0x00, 0x00, 0xff
#define ERROR_REGISTER 0x00, 0x01, 0x00, 0x00, 0x61, 0x61, 0x00, 0xff
#define ALARM_FILTER 0x00, 0x01, 0x00, 0x00, 0x61, 0x62, 0x0a, 0xff

struct request {
    const char *what;
    uint8_t bytes[18];
    size_t length;
};

static const struct request requests[] = {
    {"control mode", {GET, 0xc1, DISCONNECT_CONTROL, 0x04, 0x00}, 13},
    {"output state", {GET, 0xc2, DISCONNECT_CONTROL, 0x02, 0x00}, 13},
    {"normal threshold 3500", {SET, 0xc3, LIMITER, 0x04, 0x00, 0x05, 0x00, 0x00, 0x0d, 0xac}, 18},
    {"over duration 0", {SET, 0xc4, LIMITER, 0x06, 0x00, 0x06, 0x00, 0x00, 0x00, 0x00}, 18},
    {"error register, all bits cleared", {SET, 0xc5, ERROR_REGISTER, 0x02, 0x00, 0x06, 0x00, 0x00, 0x00, 0x00}, 18},
    {"alarm filter", {SET, 0xc6, ALARM_FILTER, 0x02, 0x00, 0x06, 0x00, 0x00, 0x20, 0x00}, 18},
    {"alarm filter", {GET, 0xc7, ALARM_FILTER, 0x02, 0x00}, 13},
    {"remote disconnect without data", {ACTION, 0xc8, DISCONNECT_CONTROL, 0x01, 0x00}, 13},
    {"remote disconnect", {ACTION, 0xc9, DISCONNECT_CONTROL, 0x01, 0x01, 0x0f, 0x00}, 15},
    {"output state", {GET, 0xca, DISCONNECT_CONTROL, 0x02, 0x00}, 13},
    {"remote reconnect", {ACTION, 0xcb, DISCONNECT_CONTROL, 0x02, 0x01, 0x0f, 0x00}, 15},
    {"logical name", {GET, 0xcc, DISCONNECT_CONTROL, 0x01, 0x00}, 13},
    {"a request that is cut", {GET, 0xcd, DISCONNECT_CONTROL, 0x02, 0x00}, 12},
};

enum { REQUESTS = sizeof requests / sizeof requests[0] };

/* Length 0: the built-in event table. The pointer may not be null even so. */
static const uint8_t no_table[1] = {0};

static void print_answer(uint32_t number, const uint8_t *answer, size_t length, uint8_t letter)
{
    if (number != PILLAR_ACCEPTED) {
        printf(" refused with %" PRIu32 "\n", number);
        return;
    }
    for (size_t i = 0; i < length; i++)
        printf(" %02x", answer[i]);
    if (letter != PILLAR_LETTER_NONE)
        printf(", letter %c", letter);
    printf("\n");
}

int main(void)
{
    uint8_t page[PILLAR_PAGE_SIZE] = {0};
    uint8_t answer[PILLAR_ANSWER_BUFFER_SIZE];
    size_t length;
    uint8_t letter;
    if (pillar_fresh(page, sizeof page, PILLAR_CONTROL_MODE_4, 3000, 2, 3, 1000) != PILLAR_ACCEPTED)
        return 1;
    for (int i = 0; i < REQUESTS; i++) {
        const struct request *request = &requests[i];
        uint32_t number = pillar_request(page, sizeof page, no_table, 0, request->bytes, request->length, answer, sizeof answer, &length, &letter);
        printf("%s:", request->what);
        print_answer(number, answer, length, letter);
    }

    /* A buffer that is too short is refused before all else, and keeps its bytes. */
    memset(answer, 0xee, sizeof answer);
    uint32_t number = pillar_request(page, sizeof page - 1, no_table, 0, requests[0].bytes, 0, answer, sizeof answer - 1, &length, &letter);
    printf("a buffer of %zu bytes:", sizeof answer - 1);
    print_answer(number, answer, length, letter);
    printf("its first byte: %02x, length of the answer: %zu\n", answer[0], length);

    printf("threshold: %" PRId32 "\n", pillar_get_threshold(page));
    printf("over and under duration: %" PRIu32 ", %" PRIu32 "\n", pillar_get_over_duration(page), pillar_get_under_duration(page));
    printf("openings: %" PRIu32 "\n", pillar_get_openings(page));
    printf("lines in the standard log: %u, in the disconnect log: %u\n", (unsigned)pillar_get_log_count(page, PILLAR_LOG_STANDARD), (unsigned)pillar_get_log_count(page, PILLAR_LOG_DISCONNECT));
    printf("supply: %s\n", pillar_supply_is_on(page) ? "on" : "off");
    return all_written("request_demo") ? 0 : 1;
}
