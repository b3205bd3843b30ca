/* A loader that keeps up to four messages waiting, as firmware would: message and answer stand at the place of their
 * tag until the message has ended, each that waits is sent until its answer is accepted, and messages end in order of
 * tag. In place of a carrier there is a channel that loses, repeats and crosses what goes over it, with a controller at
 * its other end.
 *
 * Prints how many rounds a list of messages took one at a time and with four waiting; exits with 1 if anything
 * differs. */
#include "charkhavo.h"

#include <stdio.h>
#include <stdlib.h>
#include <string.h>

/* The carrier's: a datagram to the controller. */
static void transmit(const uint8_t *message, uint64_t length);

/* The application's: a message of the list, to build, and what has come of it. */
static uint64_t build(uint8_t *message, uint32_t tag, uint32_t number);
static void outcome(uint32_t number, const uint8_t *message, uint64_t length, const uint8_t *answer,
                    uint64_t answer_length);

/* An end that cannot go on. */
static void must(bool right, const char *what) {
    if (!right) {
        printf("  DIFFERS: %s\n", what);
        exit(1);
    }
}

/* ---- The loader. */

/* A message that waits, and its answer, which may come before an older one's. */
struct Place {
    uint8_t message[CHARKHAVO_BYTES], answer[CHARKHAVO_BYTES];
    uint64_t length, answer_length;
};

static struct Place places[CHARKHAVO_PLACES];
static CharkhavoSender sender;
static uint32_t finished; /* messages of the list that have ended; those that wait follow them */

static struct Place *place_of(uint32_t tag) {
    return &places[tag % CHARKHAVO_PLACES];
}

/* Offers messages of the list while fewer wait than may. */
static void offer_more(uint32_t list, uint32_t most) {
    while (finished + sender.waiting < list && sender.waiting < most) {
        uint32_t tag = (sender.next + sender.waiting) % UINT32_C(16);
        struct Place *place = place_of(tag);
        place->length = build(place->message, tag, finished + sender.waiting);
        CharkhavoMoved moved = charkhavo_offer(sender, place->message, place->length);
        must(moved.refusal.number == CHARKHAVO_ACCEPTED, "offering");
        sender = moved.sender;
    }
}

/* Sends every message that waits for its answer; of one that is answered sending is refused. */
static void send_all(void) {
    for (uint32_t k = 0; k < sender.waiting; k += 1) {
        const struct Place *place = place_of(sender.next + k);
        CharkhavoSending sending = charkhavo_send(sender, place->message, place->length);
        if (sending.refusal.number == CHARKHAVO_ACCEPTED) {
            transmit(place->message, sending.length);
        }
    }
}

/* Takes an answer, held against the message at the place of its tag; of the messages that it ends the outcomes are
   handed on, the oldest first. What is refused changes nothing: an old answer, or one that came before. */
static void take(const uint8_t *answer, uint64_t length) {
    uint32_t oldest = sender.next;
    struct Place *place = place_of(length == 0 ? oldest : answer[0] & UINT32_C(15));
    CharkhavoTaken taken = charkhavo_take(sender, place->message, place->length, answer, length);
    if (taken.refusal.number != CHARKHAVO_ACCEPTED) {
        return;
    }
    memcpy(place->answer, answer, length);
    place->answer_length = length;
    sender = taken.sender;
    for (uint32_t k = 0; k < taken.ended; k += 1) {
        place = place_of(oldest + k);
        outcome(finished, place->message, place->length, place->answer, place->answer_length);
        finished += 1;
    }
}

/* ---- The list: message n writes n + 1 to word n modulo 8, every third reads the word that the one before wrote. */

static uint64_t build(uint8_t *message, uint32_t tag, uint32_t number) {
    const uint64_t bytes = CHARKHAVO_BYTES;
    const uint32_t data[1] = {number + 1};
    const bool reads = number % 3 == 2;
    CharkhavoBuilding building = CHARKHAVO_NO_BUILDING;
    CharkhavoRefusal refusal = charkhavo_begin(message, bytes, &building, reads ? CHARKHAVO_READ : CHARKHAVO_WRITE,
                                               tag, false, false);
    must(refusal.number == CHARKHAVO_ACCEPTED, "beginning");
    refusal = charkhavo_add(message, bytes, &building, 4 * ((reads ? number - 1 : number) % 8), 0xF, 0, 1, data,
                            reads ? 0 : 1);
    must(refusal.number == CHARKHAVO_ACCEPTED, "adding");
    must(charkhavo_close(message, bytes, &building).number == CHARKHAVO_ACCEPTED, "closing");
    return 4 * building.words;
}

static void outcome(uint32_t number, const uint8_t *message, uint64_t length, const uint8_t *answer,
                    uint64_t answer_length) {
    must(charkhavo_status(message, length, answer, answer_length, 0) == CHARKHAVO_OK, "a command's status");
    CharkhavoPart part = charkhavo_read_data(message, length, answer, answer_length, 0);
    must(part.length == (number % 3 == 2 ? 4 : 0), "how much is read");
    must(part.length == 0 || answer[part.start] == number, "what the message before wrote");
}

/* ---- The channel and the controller: a datagram in so many is lost, and a request in so many comes twice; answers
   come back when all requests of a round have come, the last first. */

#define LOST 6
#define TWICE 5
#define ANSWERS 8

static uint32_t memory[8], stored[CHARKHAVO_STORED_WORDS];
static uint8_t kept[CHARKHAVO_KEPT_BYTES], output[CHARKHAVO_BYTES];
static CharkhavoTagRecord tags;
static struct Answer {
    uint8_t bytes[8];
    uint64_t length;
} answers[ANSWERS];
static uint32_t under_way;

/* Once in so many times, by xorshift. */
static bool once_in(uint32_t times) {
    static uint64_t state = UINT64_C(88172645463325252);
    state ^= state << 13;
    state ^= state >> 7;
    state ^= state << 17;
    return (uint32_t)(state >> 32) % times == 0;
}

static void transmit(const uint8_t *message, uint64_t length) {
    for (uint32_t times = once_in(LOST) ? 0 : once_in(TWICE) ? 2 : 1; times > 0; times -= 1) {
        CharkhavoSent sent = charkhavo_serve(memory, 8, kept, CHARKHAVO_KEPT_BYTES, stored, CHARKHAVO_STORED_WORDS,
                                             output, CHARKHAVO_BYTES, &tags, message, length);
        bool early = sent.refusal.number == CHARKHAVO_REFUSED_OUT_OF_STEP;
        must(early || sent.refusal.number == CHARKHAVO_ACCEPTED, "serving");
        if (!early && !once_in(LOST)) {
            struct Answer *answer = &answers[under_way];
            must(under_way < ANSWERS && sent.sent <= sizeof answer->bytes, "an answer's room");
            memcpy(answer->bytes, output, sent.sent);
            answer->length = sent.sent;
            under_way += 1;
        }
    }
}

static void answers_come(void) {
    while (under_way > 0) {
        under_way -= 1;
        take(answers[under_way].bytes, answers[under_way].length);
    }
}

/* Sends a list with so many waiting at most; gives the rounds that it took. */
static uint32_t play(uint32_t list, uint32_t most) {
    uint32_t rounds = 0;
    memset(memory, 0, sizeof memory);
    tags = (CharkhavoTagRecord){0};
    sender = charkhavo_fresh();
    finished = 0;
    while (finished < list) {
        offer_more(list, most);
        send_all();
        answers_come();
        rounds += 1;
    }
    must(sender.waiting == 0 && sender.next == list % 16 && tags.tag == (list - 1) % 16, "the records at the end");
    for (uint32_t number = list - 8; number < list; number += 1) {
        uint32_t wrote = number % 3 == 2 ? number - 8 : number;
        must(memory[number % 8] == wrote + 1, "memory at the end");
    }
    printf("%u messages, %u waiting at most: %u rounds\n", (unsigned)list, (unsigned)most, (unsigned)rounds);
    return rounds;
}

int main(void) {
    uint32_t one = play(120, 1), four = play(120, 4);
    must(2 * four < one, "four waiting take fewer rounds");
    printf("all in order\n");
    return 0;
}
