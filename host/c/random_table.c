/* The same random calls of the training table on every target: set-ups near their edges, attempts of any numbers, rows
 * that change, and answers true, failed at a row, altered, cut short. Prints how often each call gave each refusal, how
 * often an attempt ended with each number, and a hash of all that was given back and left: two targets agree if they
 * print the same. Exits with 1 if a refusal that a call can give, or a row's number, never came. */
#include "charkhavo.h"
#include "counted.h"

#define ROUNDS 100000

/* The calls that refuse, and the refusals of each; what came next where an answer was taken; the row at which the
   attempt then ended. */
enum Call { SET_UP, MESSAGE, TAKE, NEXT, ROW, CALLS };
static struct Counted calls[CALLS] = {
    {.name = "set_up", .numbers = {0, 40, 99}},
    {.name = "table_message", .numbers = {0, 21, 30, 36, 37, 40, 99}},
    {.name = "table_take", .numbers = {0, 30, 31, 32, 33, 34, 35, 37, 99}},
    {.name = "next", .numbers = {1, 2, 3, 4, 5, 99}},
    {.name = "row", .numbers = {1,  2,  3,  4,  5,  6,  7,  8,  9,  10, 11, 12, 13,
                                14, 15, 16, 17, 18, 19, 20, 21, 22, 23, 24, 25, 99}},
};

/* The controller, and the attempt with its message, the answer to it, and its rows. */
#define TABLE_MEMORY 256
static uint32_t memory[TABLE_MEMORY], stored[CHARKHAVO_STORED_WORDS];
static uint8_t kept[CHARKHAVO_KEPT_BYTES], output[CHARKHAVO_BYTES];
static CharkhavoTagRecord tags;
static CharkhavoTableAttempt attempt;
static uint8_t message[CHARKHAVO_BYTES], answer[CHARKHAVO_BYTES + 1];
static uint64_t length, answered;
static uint32_t rows[CHARKHAVO_ROWS_WORDS];
static uint64_t base; /* where the attempt's table starts, but seldom */

static void mix_attempt(CharkhavoTableAttempt left) {
    mix(left.sender.next);
    mix(left.sender.waiting);
    mix(left.sender.second);
    mix(left.sender.third);
    mix(left.sender.fourth);
    mix(left.stage);
    mix(left.row);
}

/* Serves a datagram; its answer is set aside. */
static void serve(const uint8_t *datagram, uint64_t bytes) {
    CharkhavoSent sent = charkhavo_serve(memory, TABLE_MEMORY, kept, CHARKHAVO_KEPT_BYTES, stored,
                                         CHARKHAVO_STORED_WORDS, output, CHARKHAVO_BYTES, &tags, datagram, bytes);
    mix(sent.refusal.number);
    answered = sent.sent;
    copy(answer, output, answered);
}

/* An attempt begins, with the sender that the answer to the fixed discovery makes, at a place inside memory. */
static void begin(void) {
    base = 4 * draw(TABLE_MEMORY - CHARKHAVO_TABLE_WORDS + 1);
    CharkhavoDiscovery discovery = charkhavo_discovery();
    serve(discovery.bytes, sizeof discovery.bytes);
    attempt = charkhavo_attempt(charkhavo_discovered(answer, answered).sender);
    mix_attempt(attempt);
}

/* A room: mostly the table's, or more; near both ends of what is allowed. */
static uint64_t draw_room(void) {
    static const uint64_t edges[] = {0, 192, UINT64_C(1) << 30, (UINT64_C(1) << 30) + 1, UINT64_C(1) << 62, UINT64_MAX};
    return once_in(12) ? edges[draw(6)] : once_in(2) ? 193 : 193 + draw(1000);
}

/* A start: mostly the attempt's own; else one near the last that the room allows, or no multiple of 4. */
static uint64_t draw_start(uint64_t room) {
    uint64_t last = (UINT64_C(1) << 32) - 4 * room;
    switch (draw(40)) {
    case 0: return last;
    case 1: return last + 4;
    case 2: return base + 1 + draw(3);
    case 3: return UINT64_MAX - 3;
    case 4: return base == 0 ? 4 : base - 4;
    default: return base;
    }
}

/* Makes the attempt's next message, which is served; an attempt whose message waits is refused, and that is served
   again. */
static void make(void) {
    uint64_t lent = CHARKHAVO_BYTES - (once_in(50) ? 1 : 0);
    uint64_t room = draw_room();
    uint64_t start = draw_start(room);
    uint32_t refusal = charkhavo_set_up(start, room);
    count(&calls[SET_UP], refusal);
    CharkhavoTableMade made = charkhavo_table_message(message, lent, attempt, start, room, rows);
    count(&calls[MESSAGE], made.refusal);
    mix(refusal);
    mix(made.refusal);
    mix(made.length);
    mix_attempt(made.attempt);
    if (made.refusal == CHARKHAVO_ACCEPTED) {
        length = made.length;
    }
    attempt = made.attempt;
    mix_bytes(message, length);
    serve(message, length);
}

/* The answer of a controller that failed at a row: what it answered before, and an Error or a Timeout. */
static void fail_at(uint32_t row) {
    uint64_t before = 4 * row * (UINT64_C(1) + (answer[2] == 8 ? 8 : 0));
    if (before < answered) {
        answer[before] = answer[0];
        answer[before + 1] = (uint8_t)(1 + draw(2));
        answer[before + 2] = 0;
        answer[before + 3] = 0x80;
        answered = before + 4;
    }
}

static void flip(uint8_t *byte) {
    *byte ^= (uint8_t)(1 << draw(8));
}

/* Alters an answer: a row fails, a bit of any byte or of the first header is another, or it is cut short. */
static void spoil(void) {
    switch (draw(8)) {
    case 0: flip(&answer[0]); break;
    case 1: flip(&answer[draw(4)]); break;
    case 2: answered = draw((uint32_t)answered + 1); break;
    case 3: answered = answered / 8 * 4; break;
    case 4: flip(&answer[draw((uint32_t)answered + 1)]); break;
    default: fail_at(draw(24)); break;
    }
}

static void take(void) {
    uint8_t before = attempt.stage;
    uint64_t bytes = once_in(50) ? length / 2 : length;
    CharkhavoTableTaken taken = charkhavo_table_take(attempt, message, bytes, answer, answered, rows);
    count(&calls[TAKE], taken.refusal.number);
    mix(taken.refusal.number);
    mix(taken.refusal.at);
    mix_attempt(taken.attempt);
    attempt = taken.attempt;
    if (taken.refusal.number == CHARKHAVO_ACCEPTED && before < CHARKHAVO_STAGE_DONE) {
        count(&calls[NEXT], attempt.stage);
        if (attempt.stage == CHARKHAVO_STAGE_ENDED) {
            count(&calls[ROW], attempt.row);
        }
    }
}

/* Alters the attempt's record: some that come of it are refused, until an attempt begins anew. */
static void alter(void) {
    switch (draw(6)) {
    case 0: attempt.sender.next = (uint8_t)draw(18); break;
    case 1: attempt.sender.waiting = (uint8_t)draw(7); break;
    case 2: attempt.sender.second = !attempt.sender.second; break;
    case 3: attempt.sender.fourth = !attempt.sender.fourth; break;
    case 4: attempt.row = (uint8_t)draw(256); break;
    default: attempt.stage = (uint8_t)draw(once_in(4) ? 256 : 6); break;
    }
}

static void play(uint32_t round) {
    if (once_in(30) || (attempt.stage >= CHARKHAVO_STAGE_DONE && once_in(2))) {
        begin();
    }
    if (once_in(10)) {
        rows[draw(CHARKHAVO_ROWS_WORDS)] += 1;
    }
    make();
    if (once_in(4)) {
        spoil();
    }
    take();
    if (once_in(20)) {
        alter();
    }
    if (once_in(300)) {
        tags = (CharkhavoTagRecord){0};
    }
    if (round % 64 == 0) {
        mix_bytes(message, CHARKHAVO_BYTES);
        mix_words(memory, TABLE_MEMORY);
    }
}

int main(void) {
    for (uint32_t k = 0; k < CHARKHAVO_ROWS_WORDS; k += 1) {
        rows[k] = draw(0xFFFFFFFF);
    }
    begin();
    for (uint32_t round = 0; round < ROUNDS; round += 1) {
        play(round);
    }
    return report(calls, CALLS, ROUNDS);
}
