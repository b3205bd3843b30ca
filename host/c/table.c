/* A loader for the training table, whole: it asks, loads, and is done. Copy it, and give it your own carrier and
 * training in place of lossy.c. `loader` runs at every start, whatever came of the one before. */
#include "charkhavo.h"

#include <stdio.h>

#define START 0x40                 /* of the table, a byte address: the same in every life */
#define ROOM CHARKHAVO_TABLE_WORDS /* how many words there are for it from there on */

/* The carrier's. empty_line waits until nothing that was sent before can arrive any more, and throws away what came.
   receive_bytes waits for a datagram and returns how many bytes of it stand in the buffer, at most room; 0 if none
   came in time. */
extern void empty_line(void);
extern void send_bytes(const uint8_t *bytes, uint64_t length);
extern uint64_t receive_bytes(uint8_t *buffer, uint64_t room);

/* The training's: seven words of row 1, then of row 2, and so on. */
extern void train(uint32_t rows[CHARKHAVO_ROWS_WORDS]);

static uint32_t rows[CHARKHAVO_ROWS_WORDS];
static uint8_t message[CHARKHAVO_BYTES];
static uint8_t answer[CHARKHAVO_BYTES + 1]; /* one byte more: too long a one is seen as such */

/* Asks for the newest tag, until an answer is accepted. */
static CharkhavoSender ask(void) {
    CharkhavoDiscovery discovery = charkhavo_discovery();
    CharkhavoMoved moved;
    do {
        send_bytes(discovery.bytes, sizeof discovery.bytes);
        uint64_t length = receive_bytes(answer, sizeof answer);
        moved = charkhavo_discovered(answer, length);
    } while (moved.refusal.number != CHARKHAVO_ACCEPTED);
    return moved.sender;
}

/* Sends the message, until an answer to it is accepted. A refused answer, or none in time, changes nothing. */
static CharkhavoTableAttempt exchange(CharkhavoTableAttempt attempt, uint64_t length) {
    CharkhavoTableTaken taken;
    do {
        send_bytes(message, length);
        uint64_t answer_length = receive_bytes(answer, sizeof answer);
        taken = charkhavo_table_take(attempt, message, length, answer, answer_length, rows);
    } while (taken.refusal.number != CHARKHAVO_ACCEPTED);
    return taken.attempt;
}

/* Loads the table; 0, or the number of a refusal, which is a fault of this program. */
uint32_t loader(void) {
    uint32_t refusal = charkhavo_set_up(START, ROOM);
    if (refusal != CHARKHAVO_ACCEPTED) {
        return refusal;
    }
    train(rows);
    empty_line();
    CharkhavoTableAttempt attempt = charkhavo_attempt(ask());
    while (attempt.stage < CHARKHAVO_STAGE_DONE) {
        CharkhavoTableMade made = charkhavo_table_message(message, sizeof message, attempt, START, ROOM, rows);
        if (made.refusal != CHARKHAVO_ACCEPTED) {
            return made.refusal;
        }
        attempt = exchange(made.attempt, made.length);
    }
    if (attempt.stage == CHARKHAVO_STAGE_DONE) {
        printf("done\n");
    } else {
        printf("ended at row %u\n", (unsigned)attempt.row); /* 25: the mark */
    }
    return CHARKHAVO_ACCEPTED;
}
