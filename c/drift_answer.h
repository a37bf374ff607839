/*
 * DRIFT for firmware and hosts: the answer of 64 bits that a step of a post run
 * singly and a script run to its state give, and the numbers of the refusals.
 * Needs no archive. Included by drift_csv.h, drift_post.h, drift_script.h and
 * drift.h.
 */
#ifndef DRIFT_ANSWER_H
#define DRIFT_ANSWER_H

#include <stdint.h>

/* What an order, a hearing or the last line of a script came to. */
enum drift_answer_code {
    /* The step was refused. */
    DRIFT_REFUSED = 0,
    DRIFT_ORDER_SENT = 1,
    /* The order heard was the next of its lane: it is kept and passed on. */
    DRIFT_TAKEN = 2,
    /* The order heard was taken before. */
    DRIFT_AGAIN = 3,
    /* An earlier order of that lane is still missing: this one is dropped. */
    DRIFT_EARLY = 4,
    DRIFT_BEACON_HEARD = 5,
    /* The codes from here on come of drift_script_state alone. */
    DRIFT_BEACON_SENT = 6,
    /* There was no step: the script is its yard line alone. */
    DRIFT_NO_STEP = 7,
    DRIFT_ROLL_CALL_RAN = 8,
    /* The script is refused, by 1 to 5: nothing ran. */
    DRIFT_SCRIPT_REFUSED = 9,
    /* The state has not DRIFT_STATE_CELLS cells, number 12: nothing ran. */
    DRIFT_STATE_REFUSED = 10
};

/*
 * The parts of an answer: the refusal's number or 0, a code of enum
 * drift_answer_code, how many orders joined the log, of an order that was sent
 * its serial and its stamp, of a roll call that ran the number of its single
 * steps, of a script that is refused the line, from 1, or 0 for refusal 1.
 * Steps and line are the same bits: the code tells which. Each part that an
 * answer has not is 0; with DRIFT_REFUSED that is all but the number. The orders
 * that joined are the last ones of the log.
 */
#define DRIFT_ANSWER_REFUSAL(answer) ((uint8_t)(answer))
#define DRIFT_ANSWER_CODE(answer) ((uint8_t)((uint64_t)(answer) >> 8))
#define DRIFT_ANSWER_DELIVERED(answer) ((uint8_t)((uint64_t)(answer) >> 16))
#define DRIFT_ANSWER_SERIAL(answer) ((uint8_t)((uint64_t)(answer) >> 24))
#define DRIFT_ANSWER_STAMP(answer) ((uint16_t)((uint64_t)(answer) >> 32))
#define DRIFT_ANSWER_STEPS(answer) ((uint16_t)((uint64_t)(answer) >> 48))
#define DRIFT_ANSWER_LINE(answer) ((uint16_t)((uint64_t)(answer) >> 48))

/* Refusals of scripts, of steps in a yard, of posts run singly and of CSV files,
 * beside 6 to 11 of enum drift_frame_answer. */
enum drift_refusal {
    /* Script over 48,000 bytes; a CSV file too. */
    DRIFT_SCRIPT_TOO_LONG = 1,
    /* A line that has none of the forms, or no line feed at the end. */
    DRIFT_BAD_FORM = 2,
    /* Line 1 not the yard form, a yard form on a later line, no posts, a lane
     * over 7 in it, or its lanes not rising. */
    DRIFT_BAD_YARD = 3,
    /* A step's lane over 7. */
    DRIFT_BAD_LANE = 4,
    /* A word over 65,535. */
    DRIFT_BAD_WORD = 5,
    /* A record with a number outside its range, a role at a lane without a
     * post, an own serial other than the last taken from its own lane, an
     * order missing up to the last serial taken or kept beyond it, or a log
     * that repeats an order or has one not taken. A state with another number
     * of cells. */
    DRIFT_BAD_RECORD = 12,
    /* Air not 65,536 bytes. */
    DRIFT_BAD_AIR = 13,
    /* Post not in the yard: its lane is not in the set of posts. */
    DRIFT_NOT_IN_YARD = 21,
    /* Order at a post that is no source. */
    DRIFT_NO_SOURCE = 22,
    /* That lane has sent 16. */
    DRIFT_LANE_HAS_SENT_16 = 23,
    /* Clock would pass 65,535. Only at a post run singly, and so 28 to 30. */
    DRIFT_CLOCK_WOULD_PASS = 24,
    /* Frame not on the air. Only in a yard, and so 27. */
    DRIFT_NOT_ON_AIR = 25,
    /* The post's own broadcast. */
    DRIFT_OWN_BROADCAST = 26,
    /* Beacons spent: for a beacon that post has sent 128, for a roll call some
     * source has. */
    DRIFT_BEACONS_SPENT = 27,
    /* Sender not in the yard, or the order or an entry belongs to a lane that
     * is no source. */
    DRIFT_STRANGE_FRAME = 28,
    /* An order to be taken whose stamp is not above that lane's last taken
     * one. */
    DRIFT_STAMP_NOT_ABOVE = 29,
    /* An order or an entry of the hearing post's lane has a serial above its
     * own, or such an entry has a stamp above its clock. */
    DRIFT_ABOVE_OWN = 30,
    /* A record of a CSV file, or of a log to be written as one, that is not
     * three decimal fields within their ranges, or a header that differs. */
    DRIFT_CSV_BAD_FIELDS = 31,
    /* Such a record that does not rise by stamp and then lane, a 129th order,
     * or a lane's 17th. */
    DRIFT_CSV_BAD_SEQUENCE = 32
};

#endif
