/*
 * DRIFT for the radio firmware: a frame checked, read and written. Link with
 * target/staticlib/libframe.a. Included by drift.h.
 */
#ifndef DRIFT_FRAME_H
#define DRIFT_FRAME_H

#include <stddef.h>
#include <stdint.h>

#ifdef __cplusplus
extern "C" {
#endif

/* Number of bytes in a frame. */
#define DRIFT_FRAME_LENGTH 32

/* Byte 0 of a frame: its kind. */
enum drift_frame_kind {
    DRIFT_KIND_ORDER = 1,
    DRIFT_KIND_BEACON = 2
};

/* What the functions on frames answer: 0, or the number of the refusal. */
enum drift_frame_answer {
    /* The frame can be read, or was read or written. */
    DRIFT_FRAME_GOOD = 0,
    /* Frame, or the buffer for one, not 32 bytes. Of drift_csv_... what is lent
     * for a text or a log has another length than it must. */
    DRIFT_NOT_32_BYTES = 6,
    /* Kind neither 1 nor 2. */
    DRIFT_BAD_KIND = 7,
    /* Beacon with a nonzero byte in 2-7. */
    DRIFT_BAD_BEACON = 8,
    /* Order frame with lane over 7, serial 0 or over 16, or stamp 0. */
    DRIFT_BAD_ORDER = 9,
    /* Sender over 7. */
    DRIFT_BAD_SENDER = 10,
    /* An entry with serial over 16, or stamp 0 and serial not 0. */
    DRIFT_BAD_ENTRY = 11
};

/*
 * Tells whether the bytes of a received frame can be read.
 *
 * Returns 0 (DRIFT_FRAME_GOOD) if they can, else the number of the refusal,
 * 6 to 11 as in enum drift_frame_answer. If more than one refusal holds, the
 * lowest number is returned. No other value is returned.
 *
 * bytes must point to length readable bytes. With length 0 it may be NULL.
 * The function never writes to the bytes and does not keep the pointer.
 *
 * It has no state, needs no initialisation and no heap, and may be called from
 * any thread or interrupt handler. The x86-64 archive may use the vector (SSE)
 * registers, so an interrupt handler that calls it must save those.
 */
uint8_t drift_frame_check(const uint8_t *bytes, size_t length);

/* Number of fields of a frame. */
#define DRIFT_FRAME_FIELDS 22

/* Number of lanes; they are named 0 to 7. */
#define DRIFT_LANES 8

/* The places of the fields; those of the entry of a lane follow below. */
enum drift_frame_field {
    DRIFT_FIELD_KIND = 0,
    DRIFT_FIELD_SENDER = 1,
    DRIFT_FIELD_LANE = 2,
    DRIFT_FIELD_SERIAL = 3,
    DRIFT_FIELD_STAMP = 4,
    DRIFT_FIELD_WORD = 5
};

/* The places of the serial and the stamp in the entry of a lane, 0 to 7. */
#define DRIFT_FIELD_ENTRY_SERIAL(lane) (6 + 2 * (lane))
#define DRIFT_FIELD_ENTRY_STAMP(lane) (7 + 2 * (lane))

/*
 * Reads the bytes of a received frame into its fields.
 *
 * Returns 0 (DRIFT_FRAME_GOOD) and puts the frame's DRIFT_FRAME_FIELDS numbers
 * into fields, or returns what drift_frame_check returns for the bytes and
 * leaves the fields as they were. If fields_length is not DRIFT_FRAME_FIELDS
 * it returns DRIFT_NOT_32_BYTES: the fields are the buffer for a frame.
 *
 * bytes must point to length readable bytes, fields to fields_length readable
 * and writable numbers; the two do not overlap. With length 0 a pointer may be
 * NULL. No pointer is kept. For the rest it is as drift_frame_check.
 */
uint8_t drift_frame_read(const uint8_t *bytes, size_t length,
                         uint16_t *fields, size_t fields_length);

/*
 * Writes the frame that the fields make into a buffer.
 *
 * Returns 0 (DRIFT_FRAME_GOOD) and puts the frame's DRIFT_FRAME_LENGTH bytes
 * into buffer, or returns the number of the refusal, the lowest that holds,
 * and leaves the buffer as it was. If fields_length is not DRIFT_FRAME_FIELDS
 * or buffer_length not DRIFT_FRAME_LENGTH that is DRIFT_NOT_32_BYTES. A number
 * over 255 in a field of one byte (kind, sender, lane, a serial) counts as
 * 255, and so is refused.
 *
 * What drift_frame_read accepts is written back as the same bytes, and what
 * drift_frame_write writes is read back as the same fields.
 *
 * fields must point to fields_length readable numbers, buffer to buffer_length
 * readable and writable bytes; the two do not overlap. With length 0 a pointer
 * may be NULL. No pointer is kept. For the rest it is as drift_frame_check.
 */
uint8_t drift_frame_write(const uint16_t *fields, size_t fields_length,
                          uint8_t *buffer, size_t buffer_length);

#ifdef __cplusplus
}
#endif

#endif
