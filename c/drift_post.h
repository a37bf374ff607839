/*
 * DRIFT for firmware and hosts: one post, run singly. The caller owns its
 * record, lends it to every step and finds it brought up to date. Answers and
 * refusals are in drift_answer.h. Link with target/staticlib/liblent_post.a.
 * Included by drift.h.
 */
#ifndef DRIFT_POST_H
#define DRIFT_POST_H

#include "drift_answer.h"
#include "drift_frame.h"

#ifdef __cplusplus
extern "C" {
#endif

/* Number of bytes of a post's record. */
#define DRIFT_POST_LENGTH 928

/* Number of orders that all lanes together can send, each with serials 1 to 16;
 * number of stamps in the table, for each lane the serials 0 to 16. */
#define DRIFT_POST_ORDERS 128
#define DRIFT_POST_TABLE_LENGTH 136

/* The set that has one lane, 0 to 7. Sets are joined by |. */
#define DRIFT_POST_SET(lane) ((uint8_t)(1u << (lane)))

/* The place of a lane and a serial, 0 to 16, in the table. */
#define DRIFT_POST_TABLE_PLACE(lane, serial) (17 * (lane) + (serial))

/* The place of a lane's order with a serial, 1 to 16; and back from a place. */
#define DRIFT_POST_PLACE(lane, serial) (16 * (lane) + (serial) - 1)
#define DRIFT_POST_PLACE_LANE(place) ((place) / 16)
#define DRIFT_POST_PLACE_SERIAL(place) ((place) % 16 + 1)

/*
 * The record of a post. drift_post_fresh makes one; the caller may read, copy,
 * store and compare it byte by byte, and leaves changing it to the steps.
 * Numbers are in the machine's own byte order, unlike those of a frame.
 */
struct drift_post {
    /* The post's lane, 0 to 7. */
    uint8_t lane;
    /* Sets of lanes, bit i is lane i: those that have a post, the sources and
     * the destinations. The same at every post of the yard. */
    uint8_t posts;
    uint8_t sources;
    uint8_t dests;
    /* The logical clock; 0 before anything has happened, and always at a post
     * that is no source. */
    uint16_t clock;
    /* The own serial: how many orders this post has sent, up to 16. */
    uint8_t serial;
    /* The length of the log: how many orders are delivered, up to 128. */
    uint8_t logged;
    /* For each lane the last serial taken from it; 0 is none yet. */
    uint8_t last[DRIFT_LANES];
    /* The newest-stamp table, at DRIFT_POST_TABLE_PLACE; 0 is none. */
    uint16_t table[DRIFT_POST_TABLE_LENGTH];
    /* Stamp and word of each order taken, at DRIFT_POST_PLACE; else 0. */
    uint16_t stamps[DRIFT_POST_ORDERS];
    uint16_t words[DRIFT_POST_ORDERS];
    /* The places of the orders delivered, in the order of delivery: the first
     * `logged` of these bytes. The rest is 0. */
    uint8_t log[DRIFT_POST_ORDERS];
};

/* The archive relies on this layout: 928 bytes without a gap. */
#ifdef __cplusplus
#define DRIFT_POST_DEMAND(fact) static_assert(fact, "layout of a record")
#else
#define DRIFT_POST_DEMAND(fact) _Static_assert(fact, "layout of a record")
#endif
DRIFT_POST_DEMAND(sizeof(struct drift_post) == DRIFT_POST_LENGTH);
DRIFT_POST_DEMAND(offsetof(struct drift_post, lane) == 0);
DRIFT_POST_DEMAND(offsetof(struct drift_post, posts) == 1);
DRIFT_POST_DEMAND(offsetof(struct drift_post, sources) == 2);
DRIFT_POST_DEMAND(offsetof(struct drift_post, dests) == 3);
DRIFT_POST_DEMAND(offsetof(struct drift_post, clock) == 4);
DRIFT_POST_DEMAND(offsetof(struct drift_post, serial) == 6);
DRIFT_POST_DEMAND(offsetof(struct drift_post, logged) == 7);
DRIFT_POST_DEMAND(offsetof(struct drift_post, last) == 8);
DRIFT_POST_DEMAND(offsetof(struct drift_post, table) == 16);
DRIFT_POST_DEMAND(offsetof(struct drift_post, stamps) == 288);
DRIFT_POST_DEMAND(offsetof(struct drift_post, words) == 544);
DRIFT_POST_DEMAND(offsetof(struct drift_post, log) == 800);
#undef DRIFT_POST_DEMAND

/*
 * Makes a fresh post: clock 0, serial 0, nothing taken, nothing logged.
 *
 * lane is the post's own, 0 to 7; posts, sources and dests are the sets of the
 * yard, as DRIFT_POST_SET(0) | DRIFT_POST_SET(2).
 *
 * Returns 0 and fills the whole record, or returns the number of the refusal
 * and leaves the record as it was. Judged in this order: 12, if lane is over 7
 * or a role stands at a lane without a post; 21, if posts has not the lane.
 *
 * For all four functions: post must point to an initialised record, readable
 * and writable (drift_post_beacon only reads it), aligned as struct drift_post
 * is. Its content may be anything: 12 refuses the records named at
 * DRIFT_BAD_RECORD, and no steps from a fresh post lead to one. No pointer is
 * kept, and what the pointers point to does not overlap.
 *
 * They have no state, need no initialisation and no heap, and may be called
 * from any thread or interrupt handler that has the record and the buffer to
 * itself meanwhile. They use less than 7 KB of the caller's stack: have 8 KB free.
 * The x86-64 archive may use the vector (SSE) registers, so an interrupt
 * handler that calls one must save those.
 */
uint8_t drift_post_fresh(struct drift_post *post, uint8_t lane, uint8_t posts,
                         uint8_t sources, uint8_t dests);

/*
 * The post sends an order with a word, takes it, and delivers what is ready.
 *
 * If it is not refused the code is DRIFT_ORDER_SENT, the answer has the order's
 * serial, its stamp and the count delivered, the record is brought up to date,
 * and the buffer holds the DRIFT_FRAME_LENGTH bytes to broadcast.
 *
 * A refusal leaves record and buffer as they were. Judged in this order: 6, if
 * buffer_length is not DRIFT_FRAME_LENGTH; 12; 21; 22; 23; 24, if the clock is
 * 65,535.
 *
 * buffer must point to buffer_length readable and writable bytes; with length 0
 * it may be NULL. For post and the rest it is as drift_post_fresh.
 */
uint64_t drift_post_order(struct drift_post *post, uint16_t word,
                          uint8_t *buffer, size_t buffer_length);

/*
 * The post hears a received frame, and delivers what is ready.
 *
 * If it is not refused the code is DRIFT_TAKEN, DRIFT_AGAIN, DRIFT_EARLY or
 * DRIFT_BEACON_HEARD, the answer has the count delivered, which can be above 0
 * with each of these, and the record is brought up to date. After DRIFT_TAKEN
 * the buffer holds the DRIFT_FRAME_LENGTH bytes to broadcast: the order, passed
 * on. After each other answer it keeps its bytes.
 *
 * A refusal leaves record and buffer as they were. Judged in this order: 6, if
 * buffer_length is not DRIFT_FRAME_LENGTH; 6 to 11, as drift_frame_check judges
 * the frame; 12; 21; 24, if the post is a source and the order to be taken
 * would drive its clock past 65,535; 26; 28; 29; 30. An order is to be taken if
 * its serial is the last taken from its lane + 1.
 *
 * frame must point to frame_length readable bytes, which are never written, and
 * buffer to buffer_length readable and writable ones; with length 0 a pointer
 * may be NULL. For post and the rest it is as drift_post_fresh.
 */
uint64_t drift_post_hear(struct drift_post *post,
                         const uint8_t *frame, size_t frame_length,
                         uint8_t *buffer, size_t buffer_length);

/*
 * The post, of any role, sends a beacon: its newest entries without an order.
 * The record is never written.
 *
 * Returns 0, and the buffer holds the DRIFT_FRAME_LENGTH bytes to broadcast; or
 * returns the number of the refusal, and the buffer keeps its bytes. Judged in
 * this order: 6, if buffer_length is not DRIFT_FRAME_LENGTH; 12; 21.
 *
 * For the pointers and the rest it is as drift_post_order.
 */
uint8_t drift_post_beacon(const struct drift_post *post,
                          uint8_t *buffer, size_t buffer_length);

#ifdef __cplusplus
}
#endif

#endif
