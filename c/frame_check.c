/*
 * Checks, reads and writes good and bad frames, and compares the answers and
 * what the lent buffers hold afterwards. Exits with 1 if something differs.
 * To build and run it in the repository root:
 *
 *   tools/archives frame
 *   gcc -std=c11 -Wall -Wextra -Wpedantic -Wconversion -Werror \
 *       -o target/frame_check c/frame_check.c target/staticlib/libframe.a
 *   target/frame_check
 */
#include "drift.h"

#include <stdbool.h>
#include <stdio.h>
#include <string.h>

#define LONGEST_INPUT 40
#define MOST_CHANGES 4

/* What a lent buffer is filled with before a call. */
#define REST_BYTE 0xA5
#define REST_FIELD 0xA5A5

/* One byte of a frame that a case sets to another value. */
struct change {
    size_t position;
    uint8_t value;
};

struct test_case {
    const char *name;
    const uint8_t *frame;
    size_t length;
    size_t change_count;
    struct change changes[MOST_CHANGES];
    uint8_t expected;
};

/* P2 of document 01; the bytes that are not named are zero. */
static const uint8_t p2[LONGEST_INPUT] = {
    0x01, 0x00, 0x01, 0x01, 0x00, 0x03, 0x00, 0x5A,
    0x01, 0x00, 0x04, 0x01, 0x00, 0x03};

/* A beacon of sender 5 that has an entry of lane 0. */
static const uint8_t beacon[LONGEST_INPUT] = {
    0x02, 0x05, 0x00, 0x00, 0x00, 0x00, 0x00, 0x00,
    0x10, 0xFF, 0xFF};

/* A case on 32 bytes: its changes follow the expected answer. */
#define CASE(case_name, start, answer, count, ...)                         \
    {                                                                      \
        .name = (case_name), .frame = (start),                             \
        .length = DRIFT_FRAME_LENGTH, .change_count = (count),             \
        .changes = {__VA_ARGS__}, .expected = (answer)                     \
    }

/* A frame without changes, but of another length. */
#define LENGTH_CASE(case_name, start, count_of_bytes, answer)              \
    {                                                                      \
        .name = (case_name), .frame = (start), .length = (count_of_bytes), \
        .change_count = 0, .expected = (answer)                            \
    }

static const struct test_case cases[] = {
    LENGTH_CASE("P2", p2, 32, DRIFT_FRAME_GOOD),
    LENGTH_CASE("beacon", beacon, 32, DRIFT_FRAME_GOOD),
    CASE("P9: entry serial 0 stamp 1", p2, DRIFT_FRAME_GOOD, 1, {31, 1}),
    CASE("lane 7", p2, DRIFT_FRAME_GOOD, 1, {2, 7}),
    CASE("serial 16", p2, DRIFT_FRAME_GOOD, 1, {3, 16}),
    CASE("stamp 256", p2, DRIFT_FRAME_GOOD, 2, {4, 1}, {5, 0}),
    CASE("sender 7", p2, DRIFT_FRAME_GOOD, 1, {1, 7}),
    CASE("entry serial 16", p2, DRIFT_FRAME_GOOD, 2, {29, 16}, {31, 1}),

    LENGTH_CASE("31 bytes", p2, 31, DRIFT_NOT_32_BYTES),
    LENGTH_CASE("33 bytes", p2, 33, DRIFT_NOT_32_BYTES),
    LENGTH_CASE("0 bytes", p2, 0, DRIFT_NOT_32_BYTES),
    LENGTH_CASE("NULL with 0 bytes", NULL, 0, DRIFT_NOT_32_BYTES),

    CASE("kind 0", p2, DRIFT_BAD_KIND, 1, {0, 0}),
    CASE("kind 3", p2, DRIFT_BAD_KIND, 1, {0, 3}),
    CASE("beacon with byte 2", beacon, DRIFT_BAD_BEACON, 1, {2, 1}),
    CASE("beacon with byte 7", beacon, DRIFT_BAD_BEACON, 1, {7, 1}),
    CASE("lane 8", p2, DRIFT_BAD_ORDER, 1, {2, 8}),
    CASE("serial 0", p2, DRIFT_BAD_ORDER, 1, {3, 0}),
    CASE("serial 17", p2, DRIFT_BAD_ORDER, 1, {3, 17}),
    CASE("stamp 0", p2, DRIFT_BAD_ORDER, 1, {5, 0}),
    CASE("sender 8", p2, DRIFT_BAD_SENDER, 1, {1, 8}),
    CASE("beacon with sender 8", beacon, DRIFT_BAD_SENDER, 1, {1, 8}),
    CASE("P9: entry serial 1 stamp 0", p2, DRIFT_BAD_ENTRY, 1, {29, 1}),
    CASE("entry serial 17", p2, DRIFT_BAD_ENTRY, 2, {29, 17}, {31, 1}),
    CASE("beacon with entry serial 17", beacon, DRIFT_BAD_ENTRY, 1, {8, 17}),

    CASE("7, 9, 10 and 11 hold", p2, DRIFT_BAD_KIND, 4,
         {0, 3}, {2, 8}, {1, 8}, {29, 1}),
    CASE("8, 10 and 11 hold", beacon, DRIFT_BAD_BEACON, 3,
         {2, 8}, {1, 8}, {29, 1}),
    CASE("9, 10 and 11 hold", p2, DRIFT_BAD_ORDER, 3,
         {2, 8}, {1, 8}, {29, 1}),
    CASE("10 and 11 hold", p2, DRIFT_BAD_SENDER, 2, {1, 8}, {29, 1}),
};

/* One field of a good frame that a case sets to another number. */
struct field_case {
    const char *name;
    const uint8_t *frame;
    size_t place;
    uint16_t number;
    uint8_t expected;
};

/* A number over 255 in a field of one byte counts as 255. */
static const struct field_case field_cases[] = {
    {"stamp 65535", p2, DRIFT_FIELD_STAMP, 65535, DRIFT_FRAME_GOOD},
    {"word 65535", p2, DRIFT_FIELD_WORD, 65535, DRIFT_FRAME_GOOD},
    {"entry stamp 65535", p2, DRIFT_FIELD_ENTRY_STAMP(7), 65535,
     DRIFT_FRAME_GOOD},
    {"kind 257", p2, DRIFT_FIELD_KIND, 257, DRIFT_BAD_KIND},
    {"beacon with lane 256", beacon, DRIFT_FIELD_LANE, 256, DRIFT_BAD_BEACON},
    {"beacon with serial 256", beacon, DRIFT_FIELD_SERIAL, 256,
     DRIFT_BAD_BEACON},
    {"lane 256", p2, DRIFT_FIELD_LANE, 256, DRIFT_BAD_ORDER},
    {"serial 257", p2, DRIFT_FIELD_SERIAL, 257, DRIFT_BAD_ORDER},
    {"sender 256", p2, DRIFT_FIELD_SENDER, 256, DRIFT_BAD_SENDER},
    {"entry serial 257", p2, DRIFT_FIELD_ENTRY_SERIAL(0), 257,
     DRIFT_BAD_ENTRY},
    {"entry serial 65535", p2, DRIFT_FIELD_ENTRY_SERIAL(7), 65535,
     DRIFT_BAD_ENTRY},
};

static uint16_t pair(const uint8_t *bytes)
{
    return (uint16_t)(bytes[0] * 256u + bytes[1]);
}

/* The fields of 32 bytes, whatever they hold: the layout of document 01. */
static void fields_of(const uint8_t *bytes, uint16_t *fields)
{
    fields[DRIFT_FIELD_KIND] = bytes[0];
    fields[DRIFT_FIELD_SENDER] = bytes[1];
    fields[DRIFT_FIELD_LANE] = bytes[2];
    fields[DRIFT_FIELD_SERIAL] = bytes[3];
    fields[DRIFT_FIELD_STAMP] = pair(bytes + 4);
    fields[DRIFT_FIELD_WORD] = pair(bytes + 6);
    for (size_t lane = 0; lane < DRIFT_LANES; lane++) {
        const uint8_t *entry = bytes + 8 + 3 * lane;
        fields[DRIFT_FIELD_ENTRY_SERIAL(lane)] = entry[0];
        fields[DRIFT_FIELD_ENTRY_STAMP(lane)] = pair(entry + 1);
    }
}

/* Prints a case's line; true if all is as expected. */
static bool told(const char *name, unsigned expected, unsigned came,
                 bool as_expected)
{
    bool good = came == expected && as_expected;

    printf("%-28s expected %2u  came %2u%s\n", name, expected, came,
           good ? "" : "  WRONG");
    return good;
}

/* Whether bytes are read as expected, into fields that are else left alone. */
static bool reads(const uint8_t *bytes, size_t length, const uint16_t *fields,
                  uint8_t expected)
{
    uint16_t came[DRIFT_FRAME_FIELDS];
    bool same = true;
    uint8_t answer;

    for (size_t i = 0; i < DRIFT_FRAME_FIELDS; i++) {
        came[i] = REST_FIELD;
    }
    answer = drift_frame_read(bytes, length, came, DRIFT_FRAME_FIELDS);
    for (size_t i = 0; i < DRIFT_FRAME_FIELDS; i++) {
        same = same && came[i] == (expected == 0 ? fields[i] : REST_FIELD);
    }
    return answer == expected && same;
}

/* Whether fields are written as expected, into a buffer else left alone. */
static bool writes(const uint16_t *fields, const uint8_t *bytes, size_t length,
                   uint8_t expected)
{
    uint8_t came[LONGEST_INPUT];
    uint8_t rest[LONGEST_INPUT];
    uint8_t answer;

    memset(came, REST_BYTE, sizeof came);
    memset(rest, REST_BYTE, sizeof rest);
    if (expected == DRIFT_FRAME_GOOD) {
        memcpy(rest, bytes, DRIFT_FRAME_LENGTH);
    }
    answer = drift_frame_write(fields, DRIFT_FRAME_FIELDS,
                               length == 0 ? NULL : came, length);
    return answer == expected && memcmp(came, rest, sizeof came) == 0;
}

/* Checks, reads and writes the bytes of one case. */
static bool passes(const struct test_case *test)
{
    uint8_t before[LONGEST_INPUT] = {0};
    uint8_t bytes[LONGEST_INPUT];
    uint16_t fields[DRIFT_FRAME_FIELDS];
    const uint8_t *lent = test->frame == NULL ? NULL : bytes;
    uint8_t came;
    bool good;

    if (test->frame != NULL) {
        memcpy(before, test->frame, sizeof before);
    }
    for (size_t i = 0; i < test->change_count; i++) {
        before[test->changes[i].position] = test->changes[i].value;
    }
    memcpy(bytes, before, sizeof bytes);
    fields_of(before, fields);

    came = drift_frame_check(lent, test->length);
    good = reads(lent, test->length, fields, test->expected);
    good = writes(fields, before, test->length, test->expected) && good;
    good = memcmp(bytes, before, sizeof bytes) == 0 && good;
    return told(test->name, test->expected, came, good);
}

/* Writes the fields of one case, and reads what was written back. */
static bool passes_field(const struct field_case *test)
{
    uint8_t bytes[DRIFT_FRAME_LENGTH] = {0};
    uint16_t fields[DRIFT_FRAME_FIELDS];
    uint8_t came;
    bool good = true;

    fields_of(test->frame, fields);
    fields[test->place] = test->number;
    came = drift_frame_write(fields, DRIFT_FRAME_FIELDS, bytes, sizeof bytes);
    if (came == DRIFT_FRAME_GOOD) {
        good = reads(bytes, sizeof bytes, fields, DRIFT_FRAME_GOOD);
    }
    return told(test->name, test->expected, came, good);
}

/* Fields that are not 22 numbers, in a good frame's reading and writing. */
static bool passes_count(const char *name, size_t count)
{
    uint16_t fields[DRIFT_FRAME_FIELDS + 1] = {REST_FIELD};
    uint8_t bytes[DRIFT_FRAME_LENGTH] = {REST_BYTE};
    uint16_t *lent = count == 0 ? NULL : fields;
    uint8_t read = drift_frame_read(p2, DRIFT_FRAME_LENGTH, lent, count);
    uint8_t wrote = drift_frame_write(lent, count, bytes, sizeof bytes);

    return told(name, DRIFT_NOT_32_BYTES, read,
                wrote == DRIFT_NOT_32_BYTES && fields[0] == REST_FIELD &&
                    bytes[0] == REST_BYTE);
}

int main(void)
{
    size_t count = sizeof cases / sizeof cases[0];
    size_t field_count = sizeof field_cases / sizeof field_cases[0];
    size_t wrong = 0;

    for (size_t i = 0; i < count; i++) {
        wrong += !passes(&cases[i]);
    }
    for (size_t i = 0; i < field_count; i++) {
        wrong += !passes_field(&field_cases[i]);
    }
    wrong += !passes_count("21 fields", 21);
    wrong += !passes_count("23 fields", 23);
    wrong += !passes_count("NULL with 0 fields", 0);
    printf("%zu cases, %zu wrong\n", count + field_count + 3, wrong);
    return wrong == 0 ? 0 : 1;
}
