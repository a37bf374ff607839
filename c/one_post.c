/*
 * Firmware of one post: it owns the post's record and lends it to every step.
 * Post 0 of document 01's yard sends an order, hears one of post 1, twice and
 * damaged, and sends a beacon. Prints what c/one_post.out has, and exits with 1
 * if an answer, the record or the buffer is not as it should be.
 * To build and run it in the repository root:
 *
 *   tools/archives lent_post
 *   gcc -std=c11 -Wall -Wextra -Wpedantic -Wconversion -Werror \
 *       -o target/one_post c/one_post.c target/staticlib/liblent_post.a
 *   target/one_post
 */
#include "drift.h"

#include <stdbool.h>
#include <stdio.h>
#include <string.h>

/* The yard (0 both) (1 source) (2 dest): the same sets at each of its posts. */
#define POSTS (DRIFT_POST_SET(0) | DRIFT_POST_SET(1) | DRIFT_POST_SET(2))
#define SOURCES (DRIFT_POST_SET(0) | DRIFT_POST_SET(1))
#define DESTS (DRIFT_POST_SET(0) | DRIFT_POST_SET(2))

/* What the post keeps between steps, and where a step puts its broadcast. */
static struct drift_post post;
static uint8_t buffer[DRIFT_FRAME_LENGTH];

/* Both as they were before a step that must leave them alone. */
static struct drift_post post_before;
static uint8_t buffer_before[DRIFT_FRAME_LENGTH];

/* Post 1 sends word 90 as its serial 1 at stamp 3. The rest is zero. */
static const uint8_t order_of_post_1[DRIFT_FRAME_LENGTH] = {
    1, 1, 1, 1, 0, 3, 0, 90, 1, 0, 1, 1, 0, 3};

/* What the post must then broadcast: P2 of document 01. */
static const uint8_t passed_on[DRIFT_FRAME_LENGTH] = {
    1, 0, 1, 1, 0, 3, 0, 90, 1, 0, 4, 1, 0, 3};

/* What the post must broadcast for its own order of word 417, and as beacon. */
static const uint8_t own_order[DRIFT_FRAME_LENGTH] = {
    1, 0, 0, 1, 0, 1, 1, 0xA1, 1, 0, 1};
static const uint8_t beacon[DRIFT_FRAME_LENGTH] = {
    2, 0, 0, 0, 0, 0, 0, 0, 1, 0, 4, 1, 0, 3};

/* Says on standard error what is not as expected. */
static bool expect(bool fact, const char *what)
{
    if (!fact) {
        fprintf(stderr, "one_post: not as expected: %s\n", what);
    }
    return fact;
}

/* Firmware would hand the buffer to its radio; this program prints it. */
static bool broadcast(const uint8_t *expected)
{
    printf("  broadcast");
    for (size_t i = 0; i < sizeof buffer; i++) {
        printf(" %02X", buffer[i]);
    }
    printf("\n");
    return expect(memcmp(buffer, expected, sizeof buffer) == 0, "broadcast");
}

static void remember(void)
{
    post_before = post;
    memcpy(buffer_before, buffer, sizeof buffer);
}

static bool buffer_stayed(void)
{
    bool same = memcmp(buffer, buffer_before, sizeof buffer) == 0;

    printf("  the buffer %s\n", same ? "keeps its bytes" : "was written");
    return expect(same, "the buffer");
}

/* A record has no gaps, so its bytes can be compared. */
static bool record_stayed(void)
{
    bool same = memcmp(&post, &post_before, sizeof post) == 0;

    printf("  the record %s\n", same ? "keeps its bytes" : "was written");
    return expect(same, "the record");
}

/* A fresh post, once. From then on the steps alone change the record. */
static bool start(void)
{
    uint8_t refusal = drift_post_fresh(&post, 0, POSTS, SOURCES, DESTS);

    if (refusal != 0) {
        printf("fresh: refused %u\n", refusal);
        return expect(false, "the fresh post");
    }
    printf("fresh: made\n");
    return true;
}

/* An order is always broadcast, unless it is refused. */
static bool send_order(void)
{
    uint64_t answer = drift_post_order(&post, 417, buffer, sizeof buffer);

    if (DRIFT_ANSWER_CODE(answer) == DRIFT_REFUSED) {
        printf("order: refused %u\n", DRIFT_ANSWER_REFUSAL(answer));
        return expect(false, "the order");
    }
    printf("order: sent, serial %u, stamp %u, delivered %u\n",
           DRIFT_ANSWER_SERIAL(answer), DRIFT_ANSWER_STAMP(answer),
           DRIFT_ANSWER_DELIVERED(answer));
    return expect(DRIFT_ANSWER_SERIAL(answer) == 1, "serial 1") &&
           expect(DRIFT_ANSWER_STAMP(answer) == 1, "stamp 1") &&
           expect(DRIFT_ANSWER_DELIVERED(answer) == 0, "none delivered") &&
           broadcast(own_order);
}

/* Hears a frame and prints the answer. Only after `taken` is there something to
 * broadcast; orders can be delivered with all four. */
static uint64_t hear(const uint8_t *frame, size_t length)
{
    uint64_t answer =
        drift_post_hear(&post, frame, length, buffer, sizeof buffer);
    unsigned delivered = DRIFT_ANSWER_DELIVERED(answer);

    switch (DRIFT_ANSWER_CODE(answer)) {
    case DRIFT_TAKEN:
        printf("hear: taken, delivered %u\n", delivered);
        break;
    case DRIFT_AGAIN:
        printf("hear: again, delivered %u\n", delivered);
        break;
    case DRIFT_EARLY:
        printf("hear: early, delivered %u\n", delivered);
        break;
    case DRIFT_BEACON_HEARD:
        printf("hear: beacon, delivered %u\n", delivered);
        break;
    default:
        printf("hear: refused %u\n", DRIFT_ANSWER_REFUSAL(answer));
        break;
    }
    return answer;
}

/* The order is taken and passed on. With what its frame tells of post 1 both
 * orders are ready: they join the log. */
static bool hear_order(void)
{
    uint64_t answer = hear(order_of_post_1, sizeof order_of_post_1);

    return expect(DRIFT_ANSWER_CODE(answer) == DRIFT_TAKEN, "taken") &&
           expect(DRIFT_ANSWER_DELIVERED(answer) == 2, "two delivered") &&
           broadcast(passed_on);
}

/* The same frame once more: there is nothing to pass on. */
static bool hear_again(void)
{
    uint64_t answer;

    remember();
    answer = hear(order_of_post_1, sizeof order_of_post_1);
    return expect(DRIFT_ANSWER_CODE(answer) == DRIFT_AGAIN, "again") &&
           expect(DRIFT_ANSWER_DELIVERED(answer) == 0, "none delivered") &&
           buffer_stayed();
}

/* The same frame with one bit of the serial damaged, 17 instead of 1. The
 * answer of a refusal is its number and nothing else. */
static bool hear_damaged(void)
{
    uint8_t damaged[DRIFT_FRAME_LENGTH];
    uint64_t answer;

    memcpy(damaged, order_of_post_1, sizeof damaged);
    damaged[3] ^= 0x10;
    remember();
    answer = hear(damaged, sizeof damaged);
    return expect(answer == DRIFT_BAD_ORDER, "the damaged frame's refusal") &&
           record_stayed() && buffer_stayed();
}

/* A record that claims an order that is not there. */
static bool lend_damaged_record(void)
{
    struct drift_post good = post;
    uint64_t answer;
    bool stayed;

    post.serial = 2;
    remember();
    answer = hear(order_of_post_1, sizeof order_of_post_1);
    stayed = record_stayed() && buffer_stayed();
    post = good;
    return expect(answer == DRIFT_BAD_RECORD, "the record's refusal") && stayed;
}

/* A beacon tells the other posts what this one knows of each lane. */
static bool send_beacon(void)
{
    uint8_t refusal = drift_post_beacon(&post, buffer, sizeof buffer);

    if (refusal != 0) {
        printf("beacon: refused %u\n", refusal);
        return expect(false, "the beacon");
    }
    printf("beacon: sent\n");
    return broadcast(beacon);
}

/* The post as document 01 prints it: log items are stamp, lane, word. */
static bool print_post(void)
{
    printf("(post %u (clock %u) (sent %u) (log", post.lane, post.clock,
           post.serial);
    for (size_t i = 0; i < post.logged; i++) {
        uint8_t place = post.log[i];

        printf(" (%u %d %u)", post.stamps[place], DRIFT_POST_PLACE_LANE(place),
               post.words[place]);
    }
    printf("))\n");
    return expect(post.clock == 4 && post.logged == 2, "the log") &&
           expect(fflush(stdout) == 0, "standard output");
}

int main(void)
{
    bool good = start() && send_order() && hear_order() && hear_again() &&
                hear_damaged() && lend_damaged_record() && send_beacon() &&
                print_post();

    return good ? 0 : 1;
}
