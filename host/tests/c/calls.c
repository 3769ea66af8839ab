/* Drives the entry points from C through goatminute.h. Answers 0 if every byte and number is as expected. */
#include "goatminute.h"

#include <stdio.h>
#include <string.h>

static int failed;

static void check(int ok, const char *what) {
    if (!ok) {
        printf("failed: %s\n", what);
        failed = 1;
    }
}

#define CHECK(condition) check((condition), #condition)

/* Steps through what a place holds and counts its items, containers entered. Answers the refusal that ends it. */
static uint8_t count_items(const uint8_t *stream, size_t length, size_t end, uint8_t parent, uint8_t depth, size_t position,
                           int *items) {
    uint64_t least = 0;
    for (;;) {
        uint64_t item[6];
        uint8_t answer = gm_read_item(stream, length, end, parent, least, depth, position, item, 6);
        uint64_t kind = item[3];
        if (answer != GM_ACCEPTED || kind == GM_NOTHING)
            return answer;
        if (kind >= 0xB0 && kind < 0xDF && kind != 0xBF && kind != 0xCF) {
            answer = count_items(stream, length, item[5], (uint8_t)kind, depth + 1, item[4], items);
            if (answer != GM_ACCEPTED)
                return answer;
        }
        if (kind >= 0x0F) {
            least = item[0];
            ++*items;
        }
        position = item[5];
    }
}

static void read_back(const uint8_t *stream, size_t length) {
    static const uint8_t cut[] = {0x82, 'o'};
    static const uint8_t symbol[] = {0x01, 0x00};
    static const uint8_t wrong[] = {0x20, 0xB2, 0x20, 0x12};
    static const uint8_t decimal[] = {0xC1, 0x1F, 0xBD};
    static const uint8_t timestamp[] = {0xBC, 0x0F, 0xEA, 0x83, 0x8E, 0x93, 0x9E, 0x80, 0xC3, 0x07};
    static const uint64_t fields[] = {1, 0, 60, 6, 2026, 3, 14, 19, 30, 0, 3, 9, 0};
    static const uint8_t early[] = {0xBC, 0x80, 0x8C, 0x9F, 0x97, 0x9E};
    uint64_t numbers[14];
    int items = 0;

    CHECK(count_items(stream, length, length, 0, 0, 0, &items) == GM_ACCEPTED);
    CHECK(items == 12);
    CHECK(gm_read_rest(stream, length, length, 0, 0, 0, 0, numbers, 1) == GM_ACCEPTED);
    CHECK(gm_read_item(stream, length, length, 0, 0, 0, length + 1, numbers, 6) == GM_PAST_THE_END);
    CHECK(gm_read_item(stream, length, length + 1, 0, 0, 0, 0, numbers, 6) == GM_PAST_THE_END);

    memset(numbers, 0xEE, sizeof numbers);
    CHECK(gm_read_item(stream, length, length, 0, 0, 0, 0, numbers, 6) == GM_ACCEPTED);
    CHECK(numbers[3] == GM_MARKER && numbers[5] == 4);
    CHECK(gm_read_item(stream, length, length, 0, 0, 0, 4, numbers, 6) == GM_ACCEPTED);
    CHECK(numbers[0] == 0 && numbers[1] == 7 && numbers[2] == 8 && numbers[3] == 0xDE && numbers[4] == 10 && numbers[5] == 48);
    CHECK(numbers[6] == UINT64_C(0xEEEEEEEEEEEEEEEE));
    CHECK(gm_read_item(stream, length, 48, 0xDE, 0, 1, 10, numbers, 6) == GM_ACCEPTED);
    CHECK(numbers[0] == 10 && numbers[1] == numbers[2] && numbers[3] == 0x53 && numbers[4] == 12 && numbers[5] == 15);
    CHECK(gm_read_item(stream, length, 48, 0xDE, 0, 1, 48, numbers, 6) == GM_ACCEPTED);
    CHECK(numbers[3] == GM_NOTHING);
    CHECK(gm_read_item(stream, length, length, 0, 0, 32, 4, numbers, 6) == GM_READ_TOO_DEEP);
    CHECK(gm_read_sid(stream + 7, 1, 0, numbers, 2) == GM_ACCEPTED);
    CHECK(numbers[0] == 20 && numbers[1] == 1);

    memset(numbers, 0xEE, sizeof numbers);
    CHECK(gm_read_item(stream, length, length, 0, 0, 0, 4, numbers, 0) == GM_ACCEPTED);
    CHECK(numbers[0] == UINT64_C(0xEEEEEEEEEEEEEEEE));
    CHECK(gm_read_item(stream, length, length, 0, 0, 0, 4, numbers, 2) == GM_ACCEPTED);
    CHECK(numbers[1] == 7 && numbers[2] == UINT64_C(0xEEEEEEEEEEEEEEEE));
    CHECK(gm_read_item(cut, sizeof cut, sizeof cut, 0, 0, 0, 0, numbers, 6) == GM_CUT_SHORT);
    CHECK(numbers[0] == 0 && numbers[1] == 7 && numbers[2] == UINT64_C(0xEEEEEEEEEEEEEEEE));
    CHECK(gm_read_rest(cut, sizeof cut, sizeof cut, 0, 0, 0, 0, numbers, 0) == GM_CUT_SHORT);

    CHECK(gm_read_rest(cut, sizeof cut, sizeof cut, 0, 0, 0, 0, numbers, 1) == GM_CUT_SHORT);
    CHECK(numbers[0] == 0);
    CHECK(gm_read_rest(wrong, sizeof wrong, sizeof wrong, 0, 0, 0, 0, numbers, 1) == GM_NOT_ION);
    CHECK(numbers[0] == 3);

    CHECK(gm_read_decimal(decimal, sizeof decimal, numbers, 3) == GM_ACCEPTED);
    CHECK(numbers[0] == 1 && numbers[1] == 1 && numbers[2] == 1);
    memset(numbers, 0xEE, sizeof numbers);
    CHECK(gm_read_timestamp(timestamp, sizeof timestamp, numbers, 14) == GM_ACCEPTED);
    CHECK(memcmp(numbers, fields, sizeof fields) == 0 && numbers[13] == UINT64_C(0xEEEEEEEEEEEEEEEE));
    CHECK(gm_read_timestamp(early, sizeof early, numbers, 12) == GM_ACCEPTED);
    CHECK(numbers[4] == 0 && numbers[12] == 0);
    CHECK(gm_read_timestamp(early, sizeof early, numbers, 13) == GM_ACCEPTED);
    CHECK(numbers[4] == 0 && numbers[12] == 1);
    CHECK(gm_read_timestamp(timestamp, 1, numbers, 13) == GM_NOT_ION);
    CHECK(gm_read_symbol(symbol, sizeof symbol, numbers, 1) == GM_ACCEPTED);
    CHECK(numbers[0] == 256);
}

/* A closing puts the numbers that its slice holds whole: six bytes, two members, four bytes moved, two of annotations and
 * two of body. A refused one puts none. */
static void close_into(size_t length) {
    static const uint8_t none[1];
    static const uint8_t sid[8] = {20};
    uint8_t state[GM_STATE_SIZE];
    uint8_t buf[16];
    uint8_t closed[16];
    uint8_t expected[sizeof closed];

    memset(closed, 0xEE, sizeof closed);
    memset(expected, 0xEE, sizeof expected);
    CHECK(gm_start(state, sizeof state, buf, sizeof buf) == GM_ACCEPTED);
    CHECK(gm_close(state, sizeof state, buf, sizeof buf, closed, length) == GM_MISPLACED);
    CHECK(memcmp(closed, expected, sizeof closed) == 0);
    CHECK(gm_open_list(state, sizeof state, buf, sizeof buf, sid, sizeof sid) == GM_ACCEPTED);
    CHECK(gm_write_bool(state, sizeof state, buf, sizeof buf, none, 0, 1) == GM_ACCEPTED);
    CHECK(gm_write_bool(state, sizeof state, buf, sizeof buf, none, 0, 1) == GM_ACCEPTED);
    CHECK(memcmp(state + 8 + 9, "\x02\x00\x00\x00", 4) == 0);
    state[8 + 9] = 3;
    CHECK(gm_close(state, sizeof state, buf, sizeof buf, closed, length) == GM_STATE_UNFIT);
    CHECK(memcmp(closed, expected, sizeof closed) == 0);
    state[8 + 9] = 2;
    CHECK(gm_close(state, sizeof state, buf, sizeof buf, closed, length) == GM_ACCEPTED);
    if (length >= 4)
        memcpy(expected, "\x06\x00\x00\x00", 4);
    if (length >= 8)
        memcpy(expected + 4, "\x02\x00\x00\x00", 4);
    if (length >= 12)
        memcpy(expected + 8, "\x04\x00\x00\x00", 4);
    CHECK(memcmp(closed, expected, sizeof closed) == 0);
    CHECK(gm_finished(state, sizeof state, buf, sizeof buf) == 10);
}

int main(void) {
    static uint8_t state[GM_STATE_SIZE];
    static uint8_t buf[96];
    static const size_t lengths[] = {0, 3, 4, 7, 8, 11, 12, 16};
    uint8_t closed[] = {1, 2, 3, 4, 5, 6, 7, 8, 9, 10, 11, 12, 13, 14};
    static const uint8_t none[1];
    static const uint8_t sid[8] = {20};
    static const uint8_t coefficient[] = {0x1F, 0xBD};
    static const uint8_t text[] = {'o', 'k'};
    static const uint8_t wrong[] = {0xFF};
    static const uint8_t expected[] = {
        0xE0, 0x01, 0x00, 0xEA, 0xEE, 0xAA, 0x81, 0x94, 0xDE, 0xA6, 0x8A, 0x53, 0xC1, 0x1F, 0xBD, 0x8B,
        0x11, 0x8C, 0x6A, 0xBC, 0x0F, 0xEA, 0x83, 0x8E, 0x93, 0x9E, 0x80, 0xC3, 0x07, 0x8D, 0x82, 0x6F,
        0x6B, 0x8E, 0xB7, 0x31, 0x05, 0x21, 0x07, 0x71, 0x1E, 0x0F, 0x8F, 0x44, 0x3F, 0xC0, 0x00, 0x00};

    memset(buf, 0xEE, sizeof buf);
    CHECK(gm_start(state, sizeof state, buf, sizeof buf) == GM_ACCEPTED);
    CHECK(gm_open_struct(state, sizeof state, buf, sizeof buf, sid, sizeof sid) == GM_ACCEPTED);
    CHECK(gm_write_bool(state, sizeof state, buf, sizeof buf, none, 0, 1) == GM_MISPLACED);
    CHECK(gm_field_name(state, sizeof state, buf, sizeof buf, 10) == GM_ACCEPTED);
    CHECK(gm_finished(state, sizeof state, buf, sizeof buf) == 0);
    CHECK(gm_write_decimal(state, sizeof state, buf, sizeof buf, none, 0, 0, coefficient, sizeof coefficient, -1) ==
          GM_ACCEPTED);
    CHECK(gm_field_name(state, sizeof state, buf, sizeof buf, 11) == GM_ACCEPTED);
    CHECK(gm_write_bool(state, sizeof state, buf, sizeof buf, none, 0, 1) == GM_ACCEPTED);
    CHECK(gm_field_name(state, sizeof state, buf, sizeof buf, 12) == GM_ACCEPTED);
    CHECK(gm_write_timestamp(state, sizeof state, buf, sizeof buf, none, 0, 4, 2026, 2, 30, 20, 0, 0, 1, 60, 1, 3, 7) ==
          GM_BAD_TIMESTAMP);
    CHECK(gm_write_timestamp(state, sizeof state, buf, sizeof buf, none, 0, 3, 1, 1, 1, 0, 30, 0, 1, 60, 0, 0, 0) ==
          GM_BAD_TIMESTAMP);
    CHECK(gm_write_timestamp(state, sizeof state, buf, sizeof buf, none, 0, 4, 2026, 3, 14, 20, 30, 0, 1, 60, 1, 3, 7) ==
          GM_ACCEPTED);
    CHECK(gm_field_name(state, sizeof state, buf, sizeof buf, 13) == GM_ACCEPTED);
    CHECK(gm_write_string(state, sizeof state, buf, sizeof buf, none, 0, wrong, sizeof wrong) == GM_NOT_UTF8);
    CHECK(gm_write_string(state, sizeof state, buf, sizeof buf, none, 0, text, sizeof text) == GM_ACCEPTED);
    CHECK(gm_field_name(state, sizeof state, buf, sizeof buf, 14) == GM_ACCEPTED);
    CHECK(gm_open_sexp(state, sizeof state, buf, sizeof buf, none, 0) == GM_ACCEPTED);
    CHECK(gm_write_blob(state, sizeof state, buf, sizeof buf, none, 0, text, sizeof text) == GM_ACCEPTED);
    CHECK(gm_abandon(state, sizeof state, buf, sizeof buf) == GM_ACCEPTED);
    CHECK(gm_field_name(state, sizeof state, buf, sizeof buf, 14) == GM_MISPLACED);
    CHECK(gm_open_list(state, sizeof state, buf, sizeof buf, none, 0) == GM_ACCEPTED);
    CHECK(gm_write_i64(state, sizeof state, buf, sizeof buf, none, 0, -5) == GM_ACCEPTED);
    CHECK(gm_write_int(state, sizeof state, buf, sizeof buf, none, 0, 1, none, 1) == GM_NEGATIVE_ZERO);
    CHECK(gm_write_int(state, sizeof state, buf, sizeof buf, none, 0, 0, (const uint8_t *)"\x07", 1) == GM_ACCEPTED);
    CHECK(gm_write_symbol(state, sizeof state, buf, sizeof buf, none, 0, 30) == GM_ACCEPTED);
    CHECK(gm_write_null(state, sizeof state, buf, sizeof buf, none, 0, 0) == GM_ACCEPTED);
    CHECK(gm_close(state, sizeof state, buf, sizeof buf, closed, 12) == GM_ACCEPTED);
    /* the header of a body of seven bytes takes one byte: the body moves */
    CHECK(memcmp(closed, "\x08\x00\x00\x00\x04\x00\x00\x00\x07\x00\x00\x00\x0D\x0E", sizeof closed) == 0);
    CHECK(gm_field_name(state, sizeof state, buf, sizeof buf, 15) == GM_ACCEPTED);
    CHECK(gm_close(state, sizeof state, buf, sizeof buf, closed, sizeof closed) == GM_MISPLACED);
    CHECK(memcmp(closed, "\x08\x00\x00\x00\x04\x00\x00\x00\x07\x00\x00\x00\x0D\x0E", sizeof closed) == 0);
    CHECK(gm_write_f64(state, sizeof state, buf, sizeof buf, none, 0, UINT64_C(0x3FF8000000000000)) == GM_ACCEPTED);
    CHECK(gm_empty(state, sizeof state, buf, sizeof buf) == GM_MISPLACED);
    CHECK(gm_close(state, sizeof state, buf, sizeof buf, closed, sizeof closed) == GM_ACCEPTED);
    /* both headers take the two bytes that were reserved: nothing moves */
    CHECK(memcmp(closed, "\x2C\x00\x00\x00\x06\x00\x00\x00\x00\x00\x00\x00\x0D\x0E", sizeof closed) == 0);
    CHECK(gm_finished(state, sizeof state, buf, sizeof buf) == sizeof expected);
    CHECK(memcmp(buf, expected, sizeof expected) == 0);
    read_back(expected, sizeof expected);
    CHECK(state[0] == sizeof expected && state[4] == 0 && state[5] == 0);
    CHECK(gm_empty(state, sizeof state, buf, sizeof buf) == GM_ACCEPTED);
    CHECK(memcmp(buf, expected, sizeof expected) == 0);
    CHECK(gm_write_f32(state, sizeof state, buf, sizeof buf, none, 0, UINT32_C(0x80000000)) == GM_ACCEPTED);
    CHECK(gm_write_clob(state, sizeof state, buf, sizeof buf, sid, sizeof sid, text, sizeof text) == GM_ACCEPTED);
    CHECK(gm_version_marker(state, sizeof state, buf, sizeof buf) == GM_ACCEPTED);
    CHECK(gm_write_bool(state, sizeof state, buf, sizeof buf, none, 0, 7) == GM_ACCEPTED);
    CHECK(gm_write_int(state, sizeof state, buf, sizeof buf, none, 0, 7, text, 1) == GM_ACCEPTED);
    CHECK(gm_finished(state, sizeof state, buf, sizeof buf) == 18);
    CHECK(memcmp(buf, "\x44\x80\x00\x00\x00\xE5\x81\x94\x92ok\xE0\x01\x00\xEA\x11\x31o", 18) == 0);
    CHECK(gm_open_list(state, sizeof state, buf, sizeof buf, sid, sizeof sid) == GM_ACCEPTED);
    CHECK(gm_close(state, sizeof state, buf, sizeof buf, closed, 3) == GM_ACCEPTED);
    CHECK(gm_open_list(state, sizeof state, buf, sizeof buf, none, 0) == GM_ACCEPTED);
    CHECK(gm_close(state, sizeof state, buf, sizeof buf, closed, 0) == GM_ACCEPTED);
    CHECK(gm_finished(state, sizeof state, buf, sizeof buf) == 23);
    CHECK(memcmp(buf + 18, "\xE3\x81\x94\xB0\xB0", 5) == 0);
    CHECK(gm_close(state, sizeof state, buf, sizeof buf, closed, sizeof closed) == GM_MISPLACED);
    CHECK(gm_close(state, sizeof state - 1, buf, sizeof buf, closed, sizeof closed) == GM_STATE_UNFIT);
    CHECK(memcmp(closed, "\x2C\x00\x00\x00\x06\x00\x00\x00\x00\x00\x00\x00\x0D\x0E", sizeof closed) == 0);
    for (size_t i = 0; i < sizeof lengths / sizeof *lengths; ++i)
        close_into(lengths[i]);
    CHECK(gm_start(state, sizeof state, buf, 3) == GM_NO_ROOM);
    return failed;
}
