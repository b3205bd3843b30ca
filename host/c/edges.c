/* What a C caller relies on, by hand: that a repeat with another body is refused, which repeats are
 * answered, where a refusal stands, what a refused building call leaves, what a refused call of the
 * training table leaves, and NULL of length 0.
 *
 * Exits with 1 if anything differs. */
#include "end.h"

/* A NOP of no words, tag 0. */
static const uint8_t nop[4] = {0x00, 0x00, 0x00, 0x80};

static void expect_at(CharkhavoRefusal refusal, uint32_t number, uint32_t at, const char *what) {
    expect(refusal.number == number && refusal.at == at, what);
}

static void expect_number(CharkhavoRefusal refusal, uint32_t number, const char *what) {
    expect_at(refusal, number, 0, what);
}

/* Whether two controllers are the same; the record has no gaps. */
static bool same_controller(const struct Controller *a, const struct Controller *b) {
    return memcmp(a->memory, b->memory, sizeof a->memory) == 0 &&
           memcmp(a->stored, b->stored, sizeof a->stored) == 0 &&
           memcmp(a->kept, b->kept, sizeof a->kept) == 0 &&
           memcmp(a->output, b->output, sizeof a->output) == 0 &&
           memcmp(&a->tags, &b->tags, sizeof a->tags) == 0;
}

/* A repeat has the bytes of the message that it repeats; with others it is refused, and nothing has
   changed. */
static void another_body(struct Controller *end) {
    static const uint8_t write[12] = {0x13, 0x0F, 1, 0x80, 8, 0, 0, 0, 7, 0, 0, 0};
    static struct Controller before;
    uint8_t other[sizeof write], first[4] = {0, 0, 0, 0x80};
    for (; first[0] < 3; first[0] += 1) {
        serve(end, first, sizeof first);
    }
    serve(end, write, sizeof write);
    expect(end->tags.held == 4 && end->tags.tag == 3, "the record");
    expect(end->tags.words[3] == 1 && end->tags.request[3] == 3, "the record's fourth place");
    expect(memcmp(end->kept + 3 * CHARKHAVO_BYTES, write, sizeof write) == 0, "the kept request");
    expect(end->stored[3 * CHARKHAVO_WORDS] == 0x80000033, "the stored answer");
    memcpy(other, write, sizeof write);
    other[11] = 1;
    before = *end;
    expect_number(served(end, other, sizeof other).refusal, CHARKHAVO_REFUSED_OTHER_BYTES,
                  "the same tag with another body");
    expect(same_controller(end, &before), "all as it was");
    expect(serve(end, write, sizeof write) == 4, "the message itself again");
}

/* The last four messages are answered again, each as it was; an older one, and one that comes before
   those that are missing, is out of step. */
static void four_held(struct Controller *end) {
    uint8_t read[8] = {0x20, 0, 1, 0x80, 8, 0, 0, 0};
    for (uint8_t tag = 4; tag < 9; tag += 1) {
        read[0] = (uint8_t)(0x20 | tag);
        end->memory[2] = tag;
        expect(serve(end, read, sizeof read) == 8, "a read");
    }
    for (uint8_t tag = 5; tag < 9; tag += 1) {
        read[0] = (uint8_t)(0x20 | tag);
        expect(serve(end, read, sizeof read) == 8, "one of the last four again");
        expect(word_at(end->output, 1) == tag, "what it read then");
    }
    read[0] = 0x24;
    expect_number(served(end, read, sizeof read).refusal, CHARKHAVO_REFUSED_OUT_OF_STEP, "the fifth-last");
    read[0] = 0x2A;
    expect_number(served(end, read, sizeof read).refusal, CHARKHAVO_REFUSED_OUT_OF_STEP, "an early one");
    start(end);
    read[0] = 0x21;
    expect_number(served(end, read, sizeof read).refusal, CHARKHAVO_REFUSED_OUT_OF_STEP,
                  "tag 1 to a fresh controller");
}

/* Two reads of one word, the second of another tag; and an answer to two whose second status is 3. */
static const uint8_t reads[16] = {0x20, 0, 1, 0, 0, 0, 0, 0, 0x21, 0, 1, 0x80, 4, 0, 0, 0};
static const uint8_t answer[12] = {0x30, 0, 1, 0, 7, 0, 0, 0, 0x30, 3, 0, 0x80};

/* Refusals at a later header, by each call that has them. */
static void later_headers(struct Controller *end) {
    uint8_t good[sizeof reads];
    memcpy(good, reads, sizeof reads);
    good[8] = 0x20;
    CharkhavoSender sender = charkhavo_fresh(), waiting = {0, 1, false, false, false};
    CharkhavoSent sent = served(end, reads, sizeof reads);
    expect_at(sent.refusal, CHARKHAVO_REFUSED_BYTE_0, 2, "serving another tag midway");
    CharkhavoRefusal refusal = charkhavo_refusal(good, 8);
    expect_at(refusal, CHARKHAVO_REFUSED_PAST_END, 2, "a request without its second read");
    CharkhavoMoved moved = charkhavo_offer(sender, reads, sizeof reads);
    expect_at(moved.refusal, CHARKHAVO_REFUSED_REQUEST, 2, "offering another tag midway");
    CharkhavoSending sending = charkhavo_send(waiting, reads, sizeof reads);
    expect_at(sending.refusal, CHARKHAVO_REFUSED_REQUEST, 2, "sending another tag midway");
    CharkhavoTaken taken = charkhavo_take(waiting, good, sizeof good, answer, sizeof answer);
    expect_at(taken.refusal, CHARKHAVO_REFUSED_ANSWER_HEADER, 2, "a second status 3");
    expect(taken.ended == 0 && waits(taken.sender, 0, 1), "the sender as it was");
    taken = charkhavo_take(waiting, good, sizeof good, answer, 8);
    expect_at(taken.refusal, CHARKHAVO_REFUSED_ANSWER_END, 2, "no second answer");
}

/* The controller with NULL, of length 0, for each buffer in turn. */
static void nothing_to_serve(struct Controller *end) {
    const size_t stored = CHARKHAVO_STORED_WORDS, kept = CHARKHAVO_KEPT_BYTES, bytes = CHARKHAVO_BYTES;
    CharkhavoSent sent = charkhavo_serve(NULL, 0, end->kept, kept, end->stored, stored, end->output,
                                         bytes, &end->tags, nop, 4);
    expect_number(sent.refusal, CHARKHAVO_REFUSED_LENT, "no memory");
    sent = charkhavo_serve(end->memory, 8, NULL, 0, end->stored, stored, end->output, bytes,
                           &end->tags, nop, 4);
    expect_number(sent.refusal, CHARKHAVO_REFUSED_LENT, "no kept requests");
    sent = charkhavo_serve(end->memory, 8, end->kept, kept, NULL, 0, end->output, bytes,
                           &end->tags, nop, 4);
    expect_number(sent.refusal, CHARKHAVO_REFUSED_LENT, "no stored answers");
    sent = charkhavo_serve(end->memory, 8, end->kept, kept, end->stored, stored, NULL, 0,
                           &end->tags, nop, 4);
    expect_number(sent.refusal, CHARKHAVO_REFUSED_LENT, "no output");
    sent = served(end, NULL, 0);
    expect_number(sent.refusal, CHARKHAVO_REFUSED_LENGTH, "no datagram");
}

/* The limits of the header are those of both libraries: what is one short of them is refused. */
static void one_short(struct Controller *end) {
    const size_t stored = CHARKHAVO_STORED_WORDS, kept = CHARKHAVO_KEPT_BYTES, bytes = CHARKHAVO_BYTES;
    CharkhavoSent sent = charkhavo_serve(end->memory, 8, end->kept, kept - 1, end->stored, stored,
                                         end->output, bytes, &end->tags, nop, 4);
    expect_number(sent.refusal, CHARKHAVO_REFUSED_LENT, "kept requests one byte short");
    sent = charkhavo_serve(end->memory, 8, end->kept, kept, end->stored, stored - 1, end->output,
                           bytes, &end->tags, nop, 4);
    expect_number(sent.refusal, CHARKHAVO_REFUSED_LENT, "stored answers one word short");
    sent = charkhavo_serve(end->memory, 8, end->kept, kept, end->stored, stored, end->output,
                           bytes - 1, &end->tags, nop, 4);
    expect_number(sent.refusal, CHARKHAVO_REFUSED_LENT, "an output one byte short");
    CharkhavoBuilding building = CHARKHAVO_NO_BUILDING;
    CharkhavoRefusal refusal =
        charkhavo_begin(end->output, bytes - 1, &building, CHARKHAVO_NOP, 0, false, false);
    expect_number(refusal, CHARKHAVO_REFUSED_BUILDING, "beginning one byte short");
}

/* Whether two records are the same, field by field. */
static bool same_building(CharkhavoBuilding a, CharkhavoBuilding b) {
    return a.kind == b.kind && a.tag == b.tag && a.wide == b.wide && a.discovery == b.discovery &&
           a.words == b.words && a.last == b.last && a.answer == b.answer && a.closed == b.closed;
}

/* A refused call leaves the record as it was; the one to start with serves only to begin. */
static void refused_building(void) {
    static uint8_t output[CHARKHAVO_BYTES];
    const uint64_t bytes = sizeof output;
    const uint32_t number = CHARKHAVO_REFUSED_BUILDING;
    const CharkhavoBuilding none = CHARKHAVO_NO_BUILDING;
    CharkhavoBuilding building = none;
    expect_number(charkhavo_begin(output, bytes, &building, CHARKHAVO_NOP, 16, true, true), number,
                  "beginning with tag 16");
    expect_number(charkhavo_add(output, bytes, &building, 0, 0, 0, 0, NULL, 0), number,
                  "adding with nothing begun");
    expect_number(charkhavo_close(output, bytes, &building), number, "closing with nothing begun");
    expect(same_building(building, none), "the record that nothing was begun in");
    must(charkhavo_begin(output, bytes, &building, CHARKHAVO_READ, 5, true, true), "a read");
    must(charkhavo_add(output, bytes, &building, 8, 0, 0, 2, NULL, 0), "a read of two words");
    const CharkhavoBuilding begun = {CHARKHAVO_READ, 5, true, true, 3, 0, 3, false};
    expect(same_building(building, begun), "the record of a read of two words");
    expect_number(charkhavo_begin(output, bytes, &building, CHARKHAVO_RESPONSE, 0, false, false),
                  number, "beginning a response");
    expect_number(charkhavo_add(output, bytes, &building, 8, 0, 0, 0, NULL, 0),
                  CHARKHAVO_REFUSED_ADDED_COUNT, "a read of no words");
    expect_number(charkhavo_close(output, bytes - 1, &building), number, "closing a byte short");
    expect(same_building(building, begun), "the record after three refused calls");
}

/* Building with NULL, of length 0, for outputs and payloads. */
static void nothing_to_build(void) {
    static uint8_t output[CHARKHAVO_BYTES];
    const uint64_t bytes = sizeof output;
    const uint32_t number = CHARKHAVO_REFUSED_BUILDING;
    CharkhavoBuilding building = CHARKHAVO_NO_BUILDING;
    expect_number(charkhavo_begin(NULL, 0, &building, CHARKHAVO_NOP, 0, false, false), number,
                  "beginning in no output");
    must(charkhavo_begin(output, bytes, &building, CHARKHAVO_READ, 0, false, false), "a read");
    must(charkhavo_add(output, bytes, &building, 0, 0, 0, 1, NULL, 0), "a read has no payload");
    must(charkhavo_begin(output, bytes, &building, CHARKHAVO_NOP, 0, false, false), "a NOP");
    must(charkhavo_add(output, bytes, &building, 0, 0, 0, 1, NULL, 0), "a NOP of no words");
    expect_number(charkhavo_add(NULL, 0, &building, 0, 0, 0, 1, NULL, 0), number,
                  "adding to no output");
    expect_number(charkhavo_close(NULL, 0, &building), number, "closing in no output");
}

/* Sending with NULL, of length 0, for messages and answers. */
static void nothing_to_send(void) {
    CharkhavoSender sender = charkhavo_fresh(), waiting = {0, 1, false, false, false};
    CharkhavoMoved moved = charkhavo_offer(sender, NULL, 0);
    expect_number(moved.refusal, CHARKHAVO_REFUSED_REQUEST, "offering nothing");
    CharkhavoSending sending = charkhavo_send(waiting, NULL, 0);
    expect_number(sending.refusal, CHARKHAVO_REFUSED_REQUEST, "sending nothing");
    CharkhavoTaken taken = charkhavo_take(waiting, NULL, 0, nop, 4);
    expect_number(taken.refusal, CHARKHAVO_REFUSED_REQUEST, "an answer to nothing");
    taken = charkhavo_take(waiting, nop, 4, NULL, 0);
    expect_number(taken.refusal, CHARKHAVO_REFUSED_ANSWER_LENGTH, "no answer");
    moved = charkhavo_discovered(NULL, 0);
    expect_number(moved.refusal, CHARKHAVO_REFUSED_ANSWER_LENGTH, "no answer to the discovery");
    expect_number(charkhavo_refusal(NULL, 0), CHARKHAVO_REFUSED_LENGTH, "no request");
    expect(charkhavo_count(NULL, 0, nop, 4) == 0, "no request to count");
    expect(charkhavo_count(nop, 4, NULL, 0) == 0, "no answer to count");
    expect(charkhavo_status(nop, 4, NULL, 0, 0) == CHARKHAVO_ABSENT, "no status");
    CharkhavoPart part = charkhavo_read_data(NULL, 0, NULL, 0, 0);
    expect(part.start == 0 && part.length == 0, "no read data of nothing");
}

/* Whether two attempts are the same, byte for byte: they have no gaps. */
static bool same_attempt(CharkhavoTableAttempt a, CharkhavoTableAttempt b) {
    return memcmp(&a, &b, sizeof a) == 0;
}

static void expect_set_up(uint64_t start, uint64_t room, uint32_t number, const char *what) {
    expect(charkhavo_set_up(start, room) == number, what);
}

/* The training table: its set-up from both sides; a refused call gives the attempt back as it came,
   what is not looked at too; NULL of length 0. */
static void refused_table(void) {
    static const uint32_t rows[CHARKHAVO_ROWS_WORDS];
    static uint8_t output[CHARKHAVO_BYTES];
    const uint64_t bytes = sizeof output, top = UINT64_C(1) << 32;
    expect_set_up(top - 772, 193, CHARKHAVO_ACCEPTED, "a table that ends at 2^32");
    expect_set_up(top - 768, 193, CHARKHAVO_REFUSED_SET_UP, "one that ends past it");
    expect_set_up(0, 192, CHARKHAVO_REFUSED_SET_UP, "a word too few");
    expect_set_up(2, 193, CHARKHAVO_REFUSED_SET_UP, "no multiple of 4");
    CharkhavoTableAttempt odd = {{5, 0, true, false, true}, CHARKHAVO_STAGE_MARK, 77}, ended = odd;
    ended.stage = 200;
    CharkhavoTableMade made = charkhavo_table_message(output, bytes, odd, 0, 192, rows);
    expect(made.refusal == CHARKHAVO_REFUSED_SET_UP && made.length == 0, "a message of no set-up");
    expect(same_attempt(made.attempt, odd), "the attempt as it was");
    made = charkhavo_table_message(output, bytes, ended, 0, 193, rows);
    expect(made.refusal == CHARKHAVO_REFUSED_NONE_WAITS, "a message of an attempt that has ended");
    expect(same_attempt(made.attempt, ended), "the ended attempt as it was");
    made = charkhavo_table_message(NULL, 0, odd, 0, 193, rows);
    expect(made.refusal == CHARKHAVO_REFUSED_BUILDING, "a message in no output");
    made = charkhavo_table_message(output, bytes, odd, 0, 193, rows);
    expect(made.refusal == CHARKHAVO_ACCEPTED && made.length == 12, "the mark's message");
    expect(word_at(output, 0) == 0x80010F15 && word_at(output, 1) == 768 && word_at(output, 2) == 24, "its words");
    const CharkhavoTableAttempt waiting = {{5, 1, false, false, false}, CHARKHAVO_STAGE_MARK, 0};
    expect(same_attempt(made.attempt, waiting), "it waits");
    CharkhavoTableTaken taken = charkhavo_table_take(waiting, output, 12, NULL, 0, rows);
    expect_number(taken.refusal, CHARKHAVO_REFUSED_ANSWER_LENGTH, "no answer in time");
    expect(same_attempt(taken.attempt, waiting), "it waits on");
    taken = charkhavo_table_take(odd, NULL, 0, nop, 4, rows);
    expect_number(taken.refusal, CHARKHAVO_REFUSED_NONE_WAITS, "an answer to nothing");
    expect(same_attempt(taken.attempt, odd), "the attempt as it was then");
}

int main(void) {
    static struct Controller end;
    start(&end);
    another_body(&end);
    four_held(&end);
    later_headers(&end);
    nothing_to_serve(&end);
    one_short(&end);
    refused_building();
    nothing_to_build();
    nothing_to_send();
    refused_table();
    printf(differences == 0 ? "all as expected\n" : "DIFFERENCES\n");
    return differences == 0 ? 0 : 1;
}
