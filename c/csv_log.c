/*
 * A charging desk's program: writes a log as a CSV file, reads it back, reads a
 * file that a spreadsheet has quoted, and tries what is refused. Prints what
 * c/csv_log.out has, and exits with 1 if an answer or what was lent is not as it
 * should be. To build and run it in the repository root:
 *
 *   tools/archives csv
 *   gcc -std=c11 -Wall -Wextra -Wpedantic -Wconversion -Werror \
 *       -o target/csv_log c/csv_log.c target/staticlib/libcsv.a
 *   target/csv_log
 */
#include "drift.h"

#include <stdbool.h>
#include <stdio.h>
#include <string.h>

/* What the text and the row of numbers are filled with before a call. */
#define REST_BYTE 0xA5
#define REST_NUMBER 0xA5A5

/* Where a text and a log go; one more, to see that a longer one is refused. */
static uint8_t buffer[DRIFT_CSV_BUFFER + 1];
static uint16_t numbers[DRIFT_CSV_NUMBERS + 1];

/* A row's count; a string as a file, its bytes and their number. */
#define COUNT(row) (sizeof(row) / sizeof(row)[0])
#define TEXT(string) (const uint8_t *)(string), sizeof(string) - 1
#define HEADER "stamp,lane,word\r\n"

/* Says on standard error what is not as expected. */
static bool expect(bool fact, const char *what)
{
    if (!fact) {
        fprintf(stderr, "csv_log: not as expected: %s\n", what);
    }
    return fact;
}

static void fill(void)
{
    memset(buffer, REST_BYTE, sizeof buffer);
    memset(numbers, REST_BYTE, sizeof numbers);
}

/* Whether the buffer from a byte on, and the row from a number on, stayed. */
static bool stayed(size_t bytes, size_t first_number)
{
    bool same = true;

    for (size_t i = bytes; i < sizeof buffer; i++) {
        same = same && buffer[i] == REST_BYTE;
    }
    for (size_t i = first_number; i < COUNT(numbers); i++) {
        same = same && numbers[i] == REST_NUMBER;
    }
    return expect(same, "what must stay");
}

/* Shows a text, a record a line, CR and LF as in a string of C. */
static void show_text(size_t length)
{
    for (size_t i = 0; i < length; i++) {
        if (i == 0 || buffer[i - 1] == '\n') {
            printf("  ");
        }
        if (buffer[i] == '\r') {
            printf("\\r");
        } else if (buffer[i] == '\n') {
            printf("\\n\n");
        } else {
            putchar(buffer[i]);
        }
    }
}

/* Shows a log as `./run csv-read` prints it. */
static void show_log(size_t orders)
{
    printf("  (log");
    for (size_t i = 0; i < orders; i++) {
        printf(" (%u %u %u)", numbers[DRIFT_CSV_STAMP(i)],
               numbers[DRIFT_CSV_LANE(i)], numbers[DRIFT_CSV_WORD(i)]);
    }
    printf(")\n");
}

/* Writes a log into a text of this length. */
static bool writes(const char *what, const uint16_t *log, size_t count,
                   size_t length)
{
    uint32_t answer;

    fill();
    answer = drift_csv_write(log, count, buffer, DRIFT_CSV_BUFFER);
    if (DRIFT_CSV_REFUSAL(answer) != 0) {
        printf("write %s: refused %u\n", what, DRIFT_CSV_REFUSAL(answer));
        return expect(false, what);
    }
    printf("write %s: %u bytes\n", what, DRIFT_CSV_LENGTH(answer));
    return expect(DRIFT_CSV_LENGTH(answer) == length, "the length") &&
           stayed(length, 0);
}

/* Reads the text that was written back as the same log. */
static bool reads_back(const uint16_t *log, size_t count, size_t length)
{
    uint32_t answer = drift_csv_read(buffer, length, numbers, DRIFT_CSV_NUMBERS);

    printf("read back, orders: %u\n", DRIFT_CSV_ORDERS(answer));
    return expect(DRIFT_CSV_REFUSAL(answer) == 0, "the text is read") &&
           expect(drift_csv_first_bad(buffer, length) == 0, "none is bad") &&
           expect(DRIFT_CSV_ORDERS(answer) * 3u == count, "the orders") &&
           expect(count == 0 || memcmp(numbers, log, count * sizeof log[0]) == 0,
                  "the same log") &&
           stayed(length, count);
}

static bool write_and_read(const char *what, const uint16_t *log, size_t count,
                           size_t length)
{
    return writes(what, log, count, length) && reads_back(log, count, length);
}

/* Document 01's log at post 0. */
static bool show_both(void)
{
    static const uint16_t log[] = {1, 0, 417, 3, 1, 90};
    static const char text[] = HEADER "1,0,417\r\n3,1,90\r\n";
    const size_t length = sizeof text - 1;

    if (!writes("two orders", log, COUNT(log), length)) {
        return false;
    }
    show_text(length);
    if (!expect(memcmp(buffer, text, length) == 0, "the text") ||
        !reads_back(log, COUNT(log), length)) {
        return false;
    }
    show_log(2);
    return true;
}

/* 129 orders of all lanes in turn, with numbers of five digits. */
static uint16_t full_log[DRIFT_CSV_NUMBERS + 3];

static void fill_log(void)
{
    for (uint16_t i = 0; i < COUNT(full_log) / 3; i++) {
        full_log[DRIFT_CSV_STAMP(i)] = (uint16_t)(10000 + i / DRIFT_LANES);
        full_log[DRIFT_CSV_LANE(i)] = i % DRIFT_LANES;
        full_log[DRIFT_CSV_WORD(i)] = (uint16_t)(65535 - i);
    }
}

/* The shortest text, one whose length is 31, which is no refusal, and the
 * longest. */
static bool write_lengths(void)
{
    static const uint16_t order[] = {65535, 7, 4170};

    return write_and_read("no order", NULL, 0, 17) &&
           write_and_read("one order", order, COUNT(order), 31) &&
           write_and_read("128 orders", full_log, DRIFT_CSV_NUMBERS,
                          DRIFT_CSV_LONGEST_TEXT);
}

/* A spreadsheet may quote any field, and leave out the last CR LF. */
static bool read_quoted(void)
{
    uint32_t answer;

    fill();
    answer = drift_csv_read(TEXT("\"stamp\",\"lane\",\"word\"\r\n"
                                 "\"1\",\"0\",\"417\"\r\n"
                                 "3,1,\"90\""),
                            numbers, DRIFT_CSV_NUMBERS);
    printf("read a quoted file, orders: %u\n", DRIFT_CSV_ORDERS(answer));
    show_log(DRIFT_CSV_ORDERS(answer));
    return expect(DRIFT_CSV_REFUSAL(answer) == 0, "the quoted file is read") &&
           expect(DRIFT_CSV_ORDERS(answer) == 2, "two orders") &&
           stayed(0, 6);
}

/* What is refused by writing answers its number alone and writes nothing. */
static bool no_write(const char *what, const uint16_t *log, size_t count,
                     size_t length, uint32_t expected)
{
    uint32_t answer;

    fill();
    answer = drift_csv_write(log, count, length == 0 ? NULL : buffer, length);
    printf("write %s: refused %u\n", what, DRIFT_CSV_REFUSAL(answer));
    return expect(answer == expected, what) && stayed(0, 0);
}

static bool refused_writes(void)
{
    static const uint16_t log[] = {1, 0, 417, 3, 1, 90};
    static const uint16_t stamp_0[] = {0, 0, 417};
    static const uint16_t lane_8[] = {1, 8, 417};
    static const uint16_t falling[] = {3, 1, 90, 1, 0, 417};
    static const uint16_t equal[] = {1, 0, 417, 1, 0, 417};
    static const uint16_t falling_lane_8[] = {3, 1, 90, 1, 8, 417};
    static const uint16_t falling_then_lane_8[] = {3, 1, 90, 1, 0, 417, 4, 8, 5};
    static uint16_t lane_0[3 * 17];

    for (uint16_t i = 0; i < 17; i++) {
        lane_0[DRIFT_CSV_STAMP(i)] = (uint16_t)(i + 1);
    }
    return no_write("lane 8 to 2047 bytes", lane_8, 3, DRIFT_CSV_BUFFER - 1,
                    DRIFT_NOT_32_BYTES) &&
           no_write("to 2049 bytes", log, 6, DRIFT_CSV_BUFFER + 1, DRIFT_NOT_32_BYTES) &&
           no_write("to no buffer", log, 6, 0, DRIFT_NOT_32_BYTES) &&
           no_write("stamp 0", stamp_0, 3, DRIFT_CSV_BUFFER, DRIFT_CSV_BAD_FIELDS) &&
           no_write("lane 8", lane_8, 3, DRIFT_CSV_BUFFER, DRIFT_CSV_BAD_FIELDS) &&
           no_write("five numbers", log, 5, DRIFT_CSV_BUFFER, DRIFT_CSV_BAD_FIELDS) &&
           no_write("falling stamps", falling, 6, DRIFT_CSV_BUFFER, DRIFT_CSV_BAD_SEQUENCE) &&
           no_write("an order twice", equal, 6, DRIFT_CSV_BUFFER, DRIFT_CSV_BAD_SEQUENCE) &&
           no_write("a lane's 17th order", lane_0, COUNT(lane_0), DRIFT_CSV_BUFFER,
                    DRIFT_CSV_BAD_SEQUENCE) &&
           no_write("129 orders", full_log, COUNT(full_log), DRIFT_CSV_BUFFER,
                    DRIFT_CSV_BAD_SEQUENCE) &&
           no_write("a record bad by both", falling_lane_8, 6, DRIFT_CSV_BUFFER,
                    DRIFT_CSV_BAD_FIELDS) &&
           no_write("two bad records", falling_then_lane_8, 9, DRIFT_CSV_BUFFER,
                    DRIFT_CSV_BAD_SEQUENCE);
}

/* What is refused by reading answers its number alone and writes nothing. The
 * first bad record is told as (RECORD NUMBER), (0 0) where none is bad. */
static bool no_read(const char *what, const uint8_t *file, size_t length,
                    size_t count, uint32_t expected, uint32_t first_bad)
{
    uint32_t answer, bad;

    fill();
    answer = drift_csv_read(file, length, count == 0 ? NULL : numbers, count);
    bad = drift_csv_first_bad(file, length);
    printf("read %s: refused %u, first bad (%u %u)\n", what,
           DRIFT_CSV_REFUSAL(answer), DRIFT_CSV_RECORD(bad),
           DRIFT_CSV_REFUSAL(bad));
    return expect(answer == expected, what) &&
           expect(bad == first_bad, "the first bad record") && stayed(0, 0);
}

/* A file whose records are at fault: the record's refusal is the answer. */
static bool bad_record(const char *what, const uint8_t *file, size_t length,
                       uint32_t record, uint32_t refusal)
{
    return no_read(what, file, length, DRIFT_CSV_NUMBERS, refusal,
                   record << 8 | refusal);
}

static bool refused_reads(void)
{
    static uint8_t long_file[DRIFT_CSV_LONGEST_FILE + 1];

    memcpy(long_file, HEADER, sizeof HEADER - 1);
    return no_read("48001 bytes", long_file, sizeof long_file, DRIFT_CSV_NUMBERS,
                   DRIFT_SCRIPT_TOO_LONG, DRIFT_SCRIPT_TOO_LONG) &&
           no_read("48001 bytes into no row", long_file, sizeof long_file, 0,
                   DRIFT_SCRIPT_TOO_LONG, DRIFT_SCRIPT_TOO_LONG) &&
           no_read("into 383 numbers", TEXT(HEADER), DRIFT_CSV_NUMBERS - 1,
                   DRIFT_NOT_32_BYTES, 0) &&
           no_read("into 385 numbers", TEXT(HEADER), DRIFT_CSV_NUMBERS + 1,
                   DRIFT_NOT_32_BYTES, 0) &&
           no_read("into no row", TEXT(HEADER), 0, DRIFT_NOT_32_BYTES, 0) &&
           bad_record("48000 bytes", long_file, sizeof long_file - 1, 2, DRIFT_CSV_BAD_FIELDS) &&
           bad_record("an empty file", NULL, 0, 1, DRIFT_CSV_BAD_FIELDS) &&
           bad_record("LF line ends", TEXT("stamp,lane,word\n1,0,417\n"), 1,
                      DRIFT_CSV_BAD_FIELDS) &&
           bad_record("a blank line", TEXT(HEADER "1,0,417\r\n\r\n"), 3, DRIFT_CSV_BAD_FIELDS) &&
           bad_record("lane 8", TEXT(HEADER "1,0,417\r\n3,8,90\r\n"), 3, DRIFT_CSV_BAD_FIELDS) &&
           bad_record("falling stamps", TEXT(HEADER "3,1,90\r\n1,0,417\r\n"), 3,
                      DRIFT_CSV_BAD_SEQUENCE) &&
           bad_record("a record bad by both", TEXT(HEADER "3,1,90\r\n1,8,417\r\n"), 3,
                      DRIFT_CSV_BAD_FIELDS) &&
           bad_record("two bad records", TEXT(HEADER "3,1,90\r\n1,0,417\r\n4,8,5\r\n"), 3,
                      DRIFT_CSV_BAD_SEQUENCE);
}

int main(void)
{
    fill_log();
    bool good = show_both() && write_lengths() && read_quoted() &&
                refused_writes() && refused_reads() &&
                expect(fflush(stdout) == 0, "standard output");

    return good ? 0 : 1;
}
