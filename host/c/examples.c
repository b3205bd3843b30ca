/* The specification's three worked examples through both libraries, as firmware would run them: a
 * discovery NOP, a read and a write, built, served, and compared with the specification's words;
 * then the same three as a loader sends them, under its own tags, with an answer lost each time.
 * Also how the records are laid out. A loader with four messages waiting is in loader.c, one of the
 * training table in table.c.
 *
 * Prints the words sent and answered; exits with 1 if anything differs. */
#include "end.h"

#define LAYOUT(type, size) _Static_assert(sizeof(type) == (size), "the size of " #type)
#define PLACE(type, field, place) \
    _Static_assert(offsetof(type, field) == (place), #field " of " #type)

LAYOUT(CharkhavoRefusal, 8);
PLACE(CharkhavoRefusal, at, 4);
LAYOUT(CharkhavoTagRecord, 40);
PLACE(CharkhavoTagRecord, held, 0);
PLACE(CharkhavoTagRecord, tag, 4);
PLACE(CharkhavoTagRecord, words, 8);
PLACE(CharkhavoTagRecord, request, 24);
LAYOUT(CharkhavoSent, 16);
PLACE(CharkhavoSent, sent, 8);
LAYOUT(CharkhavoBuilding, 48);
PLACE(CharkhavoBuilding, kind, 0);
PLACE(CharkhavoBuilding, tag, 4);
PLACE(CharkhavoBuilding, wide, 8);
PLACE(CharkhavoBuilding, discovery, 9);
PLACE(CharkhavoBuilding, words, 16);
PLACE(CharkhavoBuilding, last, 24);
PLACE(CharkhavoBuilding, answer, 32);
PLACE(CharkhavoBuilding, closed, 40);
LAYOUT(CharkhavoDiscovery, 12);
LAYOUT(CharkhavoSender, 5);
PLACE(CharkhavoSender, waiting, 1);
PLACE(CharkhavoSender, second, 2);
PLACE(CharkhavoSender, third, 3);
PLACE(CharkhavoSender, fourth, 4);
LAYOUT(CharkhavoMoved, 16);
PLACE(CharkhavoMoved, sender, 8);
LAYOUT(CharkhavoTaken, 16);
PLACE(CharkhavoTaken, sender, 8);
PLACE(CharkhavoTaken, ended, 13);
LAYOUT(CharkhavoSending, 16);
PLACE(CharkhavoSending, length, 8);
LAYOUT(CharkhavoPart, 16);
PLACE(CharkhavoPart, length, 8);
LAYOUT(CharkhavoTableAttempt, 7);
PLACE(CharkhavoTableAttempt, stage, 5);
PLACE(CharkhavoTableAttempt, row, 6);
LAYOUT(CharkhavoTableMade, 16);
PLACE(CharkhavoTableMade, length, 4);
PLACE(CharkhavoTableMade, attempt, 8);
LAYOUT(CharkhavoTableTaken, 16);
PLACE(CharkhavoTableTaken, attempt, 8);

/* Prints a datagram's words and compares them. */
static void show(const char *who, const uint8_t *bytes, size_t length, const uint32_t *words,
                 size_t count) {
    bool same = length == 4 * count;
    printf("  %-10s", who);
    for (size_t place = 0; place < length / 4; place += 1) {
        printf(" %08X", (unsigned)word_at(bytes, place));
        same = same && word_at(bytes, place) == words[place];
    }
    printf("\n");
    expect(same, who);
}

/* A worked example: a command, and the words that go and come. */
struct Example {
    const char *name;
    uint32_t kind;
    uint64_t address;
    uint32_t first;
    uint64_t count;
    uint32_t data[1];
    size_t data_words;
    uint32_t request[3];
    size_t request_words;
    uint32_t answer[2];
    size_t answer_words;
};

/* The specification's words. Its completer advertises 8 bytes; ours 8,972 (0000230C), for document
   01 and request [6] decide there. */
static const struct Example examples[3] = {
    {"NOP", CHARKHAVO_NOP, 0, 0, 0, {4}, 1,
     {0x80010080, 0x00000004, 0}, 2, {0x800100B0, 0x0000230C}, 2},
    {"read", CHARKHAVO_READ, 0x10, 0, 1, {0}, 0,
     {0x800100A0, 0x00000010, 0}, 2, {0x800100B0, 0xF00DFACE}, 2},
    {"write", CHARKHAVO_WRITE, 0x4, 0xF, 0, {0xFEEDC0DE}, 1,
     {0x80010F90, 0x00000004, 0xFEEDC0DE}, 3, {0x800000B0, 0}, 1},
};

/* Builds an example's message; gives its length in bytes. */
static size_t build(uint8_t *output, const struct Example *example, uint32_t tag, bool discovery) {
    const uint64_t bytes = CHARKHAVO_BYTES;
    CharkhavoBuilding building = CHARKHAVO_NO_BUILDING;
    must(charkhavo_begin(output, bytes, &building, example->kind, tag, false, discovery),
         "beginning");
    must(charkhavo_add(output, bytes, &building, example->address, example->first, 0,
                       example->count, example->data, example->data_words),
         "adding");
    must(charkhavo_close(output, bytes, &building), "closing");
    return 4 * building.words;
}

/* As the specification has them: under the discovery bit, tag 0. */
static void as_specified(struct Controller *end, const struct Example *example) {
    uint8_t message[CHARKHAVO_BYTES];
    printf("%s under the discovery bit, as specified\n", example->name);
    size_t length = build(message, example, 0, true);
    show("sent", message, length, example->request, example->request_words);
    size_t sent = serve(end, message, length);
    show("answered", end->output, sent, example->answer, example->answer_words);
    expect(end->tags.held == 0, "a discovery leaves the record fresh");
}

/* An example's words with the discovery bit clear and another tag. */
static void retagged(uint32_t *to, const uint32_t *words, size_t count, uint32_t tag) {
    memcpy(to, words, count * sizeof *words);
    to[0] = (to[0] & ~UINT32_C(0x8F)) | tag;
}

/* As a loader sends them: offered, sent, served, the answer lost, sent again, taken. */
static CharkhavoSender as_sent(struct Controller *end, CharkhavoSender sender,
                               const struct Example *example) {
    uint8_t message[CHARKHAVO_BYTES];
    uint32_t request[3], answer[2];
    retagged(request, example->request, example->request_words, sender.next);
    retagged(answer, example->answer, example->answer_words, sender.next);
    printf("%s under tag %u\n", example->name, (unsigned)sender.next);
    size_t length = build(message, example, sender.next, false);
    expect(charkhavo_refusal(message, length).number == CHARKHAVO_ACCEPTED, "well-formed");
    CharkhavoMoved moved = charkhavo_offer(sender, message, length);
    must(moved.refusal, "offering");
    size_t sent = 0;
    for (int time = 0; time < 2; time += 1) {
        CharkhavoSending sending = charkhavo_send(moved.sender, message, length);
        must(sending.refusal, "sending");
        show("sent", message, sending.length, request, example->request_words);
        sent = serve(end, message, sending.length);
    }
    show("answered", end->output, sent, answer, example->answer_words);
    CharkhavoTaken taken = charkhavo_take(moved.sender, message, length, end->output, sent);
    must(taken.refusal, "taking the answer");
    expect(taken.ended == 1, "one message ended");
    expect(charkhavo_count(message, length, end->output, sent) == 1, "one command answered");
    expect(charkhavo_status(message, length, end->output, sent, 0) == CHARKHAVO_OK, "OK");
    expect(charkhavo_status(message, length, end->output, sent, 1) == CHARKHAVO_ABSENT, "absent");
    CharkhavoPart part = charkhavo_read_data(message, length, end->output, sent, 0);
    if (example->kind == CHARKHAVO_READ) {
        expect(part.start == 4 && part.length == 4, "where the read data stand");
        expect(word_at(end->output + part.start, 0) == 0xF00DFACE, "the read data");
    } else {
        expect(part.start == 0 && part.length == 0, "no read data");
    }
    return taken.sender;
}

/* The sender that the controller's answer to the fixed discovery makes. */
static CharkhavoSender discover(struct Controller *end) {
    static const uint32_t request[3] = {0x80020080, 0x0000230C, 0};
    static const uint32_t answer[3] = {0x800200B0, 0x0000230C, 0};
    CharkhavoDiscovery discovery = charkhavo_discovery();
    printf("the fixed discovery\n");
    show("sent", discovery.bytes, sizeof discovery.bytes, request, 3);
    size_t sent = serve(end, discovery.bytes, sizeof discovery.bytes);
    show("answered", end->output, sent, answer, 3);
    CharkhavoMoved moved = charkhavo_discovered(end->output, sent);
    must(moved.refusal, "the discovery's answer");
    expect(waits(charkhavo_fresh(), 0, 0) && waits(moved.sender, 0, 0), "a fresh pair");
    return moved.sender;
}

int main(void) {
    struct Controller end;
    start(&end);
    for (size_t k = 0; k < 3; k += 1) {
        as_specified(&end, &examples[k]);
    }
    expect(end.memory[1] == 0xFEEDC0DE, "memory after the write");
    start(&end);
    CharkhavoSender sender = discover(&end);
    for (size_t k = 0; k < 3; k += 1) {
        sender = as_sent(&end, sender, &examples[k]);
    }
    expect(end.memory[1] == 0xFEEDC0DE, "memory after the write");
    expect(end.tags.held == 3 && end.tags.tag == 2, "the controller's record at the end");
    expect(waits(sender, 3, 0), "the sender at the end");
    printf(differences == 0 ? "all as specified\n" : "DIFFERENCES\n");
    return differences == 0 ? 0 : 1;
}
