/*
 * DRIFT for the charging desk: a delivery log written as a CSV file (RFC 4180)
 * and read back. Names of the refusals are in drift_answer.h and drift_frame.h.
 * Link with target/staticlib/libcsv.a. Included by drift.h.
 */
#ifndef DRIFT_CSV_H
#define DRIFT_CSV_H

#include "drift_answer.h"
#include "drift_frame.h"

#ifdef __cplusplus
extern "C" {
#endif

/* Number of bytes of the buffer that a log's text goes to (refusal 6). */
#define DRIFT_CSV_BUFFER 2048

/* Number of numbers that a file's log goes to: three for each of 128 orders
 * (refusal 6). */
#define DRIFT_CSV_NUMBERS 384

/* The longest file that is not refused, in bytes (refusal 1). */
#define DRIFT_CSV_LONGEST_FILE 48000

/* The longest text that is written, in bytes: a header of 17 and 128 records
 * of 15. */
#define DRIFT_CSV_LONGEST_TEXT 1937

/*
 * A log is a row of numbers, three an order: where those of the order with an
 * index, from 0, stand in it.
 */
#define DRIFT_CSV_STAMP(index) (3 * (index))
#define DRIFT_CSV_LANE(index) (3 * (index) + 1)
#define DRIFT_CSV_WORD(index) (3 * (index) + 2)

/*
 * The parts of an answer: the refusal's number, 0 where nothing is refused; and
 * the length of the text in bytes (drift_csv_write), how many orders the log
 * has (drift_csv_read), or the first bad record (drift_csv_first_bad). The last
 * three are the same bits: the function tells which. A length of 31 is therefore
 * no refusal 31; look at the refusal first.
 *
 *    1  DRIFT_SCRIPT_TOO_LONG: the file has over DRIFT_CSV_LONGEST_FILE bytes
 *    6  DRIFT_NOT_32_BYTES: the buffer has not DRIFT_CSV_BUFFER bytes, or the
 *       row for the log not DRIFT_CSV_NUMBERS numbers
 *   31  DRIFT_CSV_BAD_FIELDS: a record that is not three decimal fields within
 *       their ranges, or a header that differs
 *   32  DRIFT_CSV_BAD_SEQUENCE: a record that does not rise by stamp and then
 *       lane, a 129th order, or a lane's 17th
 */
#define DRIFT_CSV_REFUSAL(answer) ((uint8_t)(answer))
#define DRIFT_CSV_LENGTH(answer) ((uint16_t)((uint32_t)(answer) >> 8))
#define DRIFT_CSV_ORDERS(answer) ((uint16_t)((uint32_t)(answer) >> 8))
#define DRIFT_CSV_RECORD(answer) ((uint16_t)((uint32_t)(answer) >> 8))

/*
 * Writes a log as a CSV file: the header `stamp,lane,word`, one record an order,
 * CR LF after each, nothing quoted.
 *
 * If it is not refused the answer has the length of the text, which are the first
 * bytes of the buffer; the rest keeps its bytes. The longest text has
 * DRIFT_CSV_LONGEST_TEXT bytes, an empty log 17.
 *
 * A refusal leaves the whole buffer as it was, and the answer is its number
 * alone. Judged in this order: 6; then the first bad record decides, by 31, if
 * its stamp is 0 or its lane over 7, and then by 32. One or two numbers that are
 * left over at the end are a record that is bad by 31.
 *
 * numbers must point to count readable numbers, aligned as uint16_t is, and
 * buffer to length readable and writable bytes; the two do not overlap. With
 * count or length 0 its pointer may be NULL. No pointer is kept.
 *
 * For all three functions: they have no state, need no initialisation and no
 * heap, and may be called from any thread that has what it lends to itself
 * meanwhile. They use less than 1 KB of the caller's stack: have 2 KB free.
 */
uint32_t drift_csv_write(const uint16_t *numbers, size_t count,
                         uint8_t *buffer, size_t length);

/*
 * Reads a CSV file into a log. What drift_csv_write writes is read back as the
 * same numbers.
 *
 * If it is not refused the answer has the number of orders, whose numbers are
 * the first of the row; the rest keeps its numbers. Any field may be quoted, of
 * the header too, and the last CR LF may be missing. Nothing else is forgiven: a
 * record that ends with LF alone, a blank line, a space, a sign, a leading zero,
 * another separator or a byte order mark is 31.
 *
 * A refusal leaves all the numbers as they were, and the answer is its number
 * alone. Judged in this order: 1; 6; then the first bad record, the header among
 * them, decides, by 31 and then by 32. drift_csv_first_bad tells which it is.
 *
 * file must point to length readable bytes, and numbers to count readable and
 * writable numbers, aligned as uint16_t is; the two do not overlap. With length
 * or count 0 its pointer may be NULL. No pointer is kept.
 */
uint32_t drift_csv_read(const uint8_t *file, size_t length,
                        uint16_t *numbers, size_t count);

/*
 * Tells the first bad record of a file, and the refusal by which it is bad: 31
 * or 32. The header is record 1, the first order record 2.
 *
 * Returns 0 where no record is bad: drift_csv_read then reads the file. Of a file
 * over DRIFT_CSV_LONGEST_FILE bytes no record is judged: refusal 1, record 0.
 *
 * file must point to length readable bytes; with length 0 it may be NULL. The
 * pointer is not kept.
 */
uint32_t drift_csv_first_bad(const uint8_t *file, size_t length);

#ifdef __cplusplus
}
#endif

#endif
