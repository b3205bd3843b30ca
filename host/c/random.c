/* The same random calls of both libraries on every target: messages drawn word by word or built, served, offered, sent
 * and answered, up to four at a time, whole and damaged, whatever is lent. Prints how often each call gave each
 * refusal, how often so many messages ended at once, and a hash of all that was given back and left: two targets agree
 * if they print the same. Exits with 1 if a refusal that a call can give, or a number of messages ended, never came. */
#include "charkhavo.h"
#include "counted.h"

#define ROUNDS 1000000

/* The calls that refuse, and the refusals of each; and how many messages an answer that is taken ended. */
enum Call { SERVE, REFUSAL, BEGIN, ADD, CLOSE, OFFER, SEND, TAKE, DISCOVERED, ENDED, CALLS };
static struct Counted calls[CALLS] = {
    {.name = "serve", .numbers = {0, 1, 2, 3, 4, 5, 6, 7, 8, 9, 10, 11, 12, 99}},
    {.name = "refusal", .numbers = {0, 2, 3, 4, 5, 6, 7, 8, 9, 10, 99}},
    {.name = "begin", .numbers = {0, 21, 99}},
    {.name = "add", .numbers = {0, 21, 22, 23, 24, 25, 26, 99}},
    {.name = "close", .numbers = {0, 21, 22, 99}},
    {.name = "offer", .numbers = {0, 31, 36, 37, 99}},
    {.name = "send", .numbers = {0, 30, 31, 37, 99}},
    {.name = "take", .numbers = {0, 30, 31, 32, 33, 34, 35, 37, 99}},
    {.name = "discovered", .numbers = {0, 32, 33, 34, 35, 38, 99}},
    {.name = "ended", .numbers = {0, 1, 2, 3, 4, 99}},
};

/* The two ends, and the message that comes to them. */
static uint32_t memory[MEMORY_WORDS], stored[CHARKHAVO_STORED_WORDS];
static uint8_t kept[CHARKHAVO_KEPT_BYTES], output[CHARKHAVO_BYTES];
static CharkhavoTagRecord tags;
static CharkhavoSender sender;
static uint8_t message[DRAWN_BYTES];
static uint64_t length;
static uint32_t payload[CHARKHAVO_WORDS];

/* The message that was last offered under a tag of each place, and the last answer of such a tag. */
static struct Place {
    uint8_t message[CHARKHAVO_BYTES], answer[CHARKHAVO_BYTES + 1];
    uint64_t length, answered;
} places[CHARKHAVO_PLACES];

/* The place of a tag, or of a message's byte 0. */
static struct Place *place_of(uint32_t tag) {
    return &places[tag % CHARKHAVO_PLACES];
}

static void note(enum Call call, CharkhavoRefusal refusal) {
    mix(refusal.number);
    mix(refusal.at);
    count(&calls[call], refusal.number);
}

/* A tag: mostly that which may be offered. */
static uint32_t draw_tag(void) {
    return once_in(6) ? draw(16) : (sender.next + sender.waiting) % UINT32_C(16);
}

static void mix_building(const CharkhavoBuilding *building) {
    mix(building->kind);
    mix(building->tag);
    mix(building->wide);
    mix(building->discovery);
    mix(building->words);
    mix(building->last);
    mix(building->answer);
    mix(building->closed);
}

/* Alters a building record: most that come of it no calls give. */
static void spoil(CharkhavoBuilding *building) {
    switch (draw(5)) {
    case 0: building->kind = draw(4); break;
    case 1: building->words = draw(CHARKHAVO_WORDS + 2); break;
    case 2: building->last = draw(4); break;
    case 3: building->answer += draw(3); break;
    default: building->closed = !building->closed; break;
    }
}

static void add(CharkhavoBuilding *building, uint64_t lent) {
    uint32_t count = draw_count(building->kind, 4096);
    uint32_t enables = draw_enables(count);
    uint64_t address = draw_address();
    uint64_t payload_length = once_in(20) ? 0 : count;
    if (payload_length > CHARKHAVO_WORDS) {
        payload_length = CHARKHAVO_WORDS;
    }
    note(ADD, charkhavo_add(message, lent, building, address, enables & 15, enables >> 4, count, payload,
                            payload_length));
    mix_building(building);
}

/* Builds a message. What is left of the one before stands behind it. */
static void build_message(void) {
    CharkhavoBuilding building = {0, 0, false, false, 0, 0, 0, false};
    uint64_t lent = CHARKHAVO_BYTES - (once_in(200) ? 1 : 0);
    uint32_t kind = draw_kind();
    uint32_t tag = draw_tag();
    uint32_t modes = draw_modes();
    if (once_in(60)) {
        tag = 16;
    }
    note(BEGIN, charkhavo_begin(message, lent, &building, kind, tag, (modes & 1) != 0, (modes & 2) != 0));
    mix_building(&building);
    for (uint32_t commands = draw(5); commands > 0; commands -= 1) {
        add(&building, lent);
    }
    if (once_in(50)) {
        spoil(&building);
    }
    for (uint32_t times = once_in(20) ? 2 : 1; times > 0; times -= 1) {
        note(CLOSE, charkhavo_close(message, lent, &building));
        mix_building(&building);
    }
    if (once_in(20)) {
        add(&building, lent);
    }
    length = building.words <= CHARKHAVO_WORDS ? 4 * building.words : 0;
    mix_bytes(message, length);
}

static void mix_tags(void) {
    mix(tags.held);
    mix(tags.tag);
    mix_words(tags.words, CHARKHAVO_PLACES);
    mix_words(tags.request, CHARKHAVO_PLACES);
}

/* A record that says anything. */
static void draw_tags(void) {
    tags.held = draw(CHARKHAVO_PLACES + 2);
    tags.tag = draw(18);
    for (uint32_t k = 0; k < CHARKHAVO_PLACES; k += 1) {
        tags.words[k] = draw(CHARKHAVO_WORDS + 2);
        tags.request[k] = draw(CHARKHAVO_WORDS + 2);
    }
}

/* Serves a datagram; an answer to it is set aside. A record that is refused gives way to the one before. */
static void serve(const uint8_t *datagram, uint64_t bytes, struct Place *place) {
    const CharkhavoTagRecord before = tags;
    uint64_t memory_length = once_in(200) ? 0 : MEMORY_WORDS;
    uint64_t stored_length = CHARKHAVO_STORED_WORDS - (once_in(200) ? 1 : 0);
    uint64_t kept_length = CHARKHAVO_KEPT_BYTES - (once_in(200) ? 1 : 0);
    uint64_t output_length = CHARKHAVO_BYTES - (once_in(200) ? 1 : 0);
    if (once_in(200)) {
        draw_tags();
    }
    CharkhavoSent sent = charkhavo_serve(memory, memory_length, kept, kept_length, stored, stored_length, output,
                                         output_length, &tags, datagram, bytes);
    note(SERVE, sent.refusal);
    mix(sent.sent);
    mix_bytes(output, sent.sent);
    mix_words(memory, MEMORY_WORDS);
    mix_tags();
    if (sent.sent > 0) {
        uint32_t number = datagram[0] % CHARKHAVO_PLACES;
        mix_bytes(kept + CHARKHAVO_BYTES * number, bytes);
        mix_words(stored + CHARKHAVO_WORDS * number, sent.sent / 4);
        place->answered = sent.sent;
        copy(place->answer, output, sent.sent);
    }
    if (sent.refusal.number == CHARKHAVO_REFUSED_LENT) {
        tags = before;
    }
}

/* Alters a bit of the message: of its first, its second, its last or any byte. */
static void alter(void) {
    uint32_t any = draw((uint32_t)length);
    uint64_t bytes[4] = {0, 1, length - 1, any};
    uint64_t byte = bytes[draw(4)];
    message[byte] ^= (uint8_t)(1 << draw(8));
}

/* Serves a message that was offered before, as it is, or altered, or another of its tag. */
static void serve_again(void) {
    const struct Place *place = &places[draw(CHARKHAVO_PLACES)];
    length = place->length;
    copy(message, place->message, length);
    if (once_in(6)) {
        length = draw_message(message, place->message[0] & UINT32_C(15));
    } else if (length > 1 && once_in(3)) {
        alter();
    }
    serve(message, length, place_of(message[0]));
}

/* Alters an answer: a bit of its first words, or its length. */
static void damage(struct Place *place) {
    if (once_in(2)) {
        uint32_t bit = draw(8 * 12);
        place->answer[bit / 8] ^= (uint8_t)(1 << bit % 8);
    } else if (once_in(2)) {
        place->answered = draw(sizeof place->answer + 1);
    } else {
        place->answered = place->answered / 4 * 4 + 4 * draw(3);
    }
    if (place->answered > sizeof place->answer) {
        place->answered = sizeof place->answer;
    }
}

static void mix_sender(CharkhavoSender left) {
    mix(left.next);
    mix(left.waiting);
    mix(left.second);
    mix(left.third);
    mix(left.fourth);
}

static void moved(enum Call call, CharkhavoMoved to) {
    note(call, to.refusal);
    mix_sender(to.sender);
}

/* Offers the message, which then stands at its place. */
static void offer(void) {
    CharkhavoMoved to = charkhavo_offer(sender, message, length);
    moved(OFFER, to);
    if (to.refusal.number == CHARKHAVO_ACCEPTED && !once_in(20)) {
        struct Place *place = place_of(message[0]);
        place->length = length;
        copy(place->message, message, length);
        sender = to.sender;
    }
}

/* Sends a message of some place and takes an answer of it; seldom that of another place. */
static void exchange(void) {
    const struct Place *place = &places[draw(CHARKHAVO_PLACES)];
    const struct Place *from = once_in(10) ? &places[draw(CHARKHAVO_PLACES)] : place;
    CharkhavoSending sending = charkhavo_send(sender, place->message, place->length);
    note(SEND, sending.refusal);
    mix(sending.length);
    CharkhavoTaken taken = charkhavo_take(sender, place->message, place->length, from->answer, from->answered);
    note(TAKE, taken.refusal);
    mix_sender(taken.sender);
    mix(taken.ended);
    sender = taken.sender;
    if (taken.refusal.number == CHARKHAVO_ACCEPTED) {
        count(&calls[ENDED], taken.ended);
    }
}

/* Alters the sender's record: some that come of it are refused, until it starts anew. */
static void alter_sender(void) {
    switch (draw(5)) {
    case 0: sender.next = (uint8_t)draw(18); break;
    case 1: sender.waiting = (uint8_t)draw(7); break;
    case 2: sender.second = !sender.second; break;
    case 3: sender.third = !sender.third; break;
    default: sender.fourth = !sender.fourth; break;
    }
}

/* What an answer tells of a message, mostly of its own. */
static void tell(void) {
    const struct Place *place = &places[draw(CHARKHAVO_PLACES)];
    const struct Place *from = once_in(10) ? &places[draw(CHARKHAVO_PLACES)] : place;
    uint64_t k = draw(5);
    CharkhavoPart part = charkhavo_read_data(place->message, place->length, from->answer, from->answered, k);
    mix(charkhavo_count(place->message, place->length, from->answer, from->answered));
    mix(charkhavo_status(place->message, place->length, from->answer, from->answered, k));
    mix(part.start);
    mix(part.length);
}

/* The sender may start anew from the answer to the fixed discovery. */
static void discover(void) {
    static struct Place apart;
    CharkhavoDiscovery discovery = charkhavo_discovery();
    mix_bytes(discovery.bytes, sizeof discovery.bytes);
    serve(discovery.bytes, sizeof discovery.bytes, &apart);
    if (once_in(2)) {
        damage(&apart);
    }
    CharkhavoMoved to = charkhavo_discovered(apart.answer, apart.answered);
    moved(DISCOVERED, to);
    bool full = sender.next > 15 || sender.waiting >= CHARKHAVO_PLACES;
    if (to.refusal.number == CHARKHAVO_ACCEPTED && (full || once_in(6))) {
        sender = to.sender;
    }
}

static void play(uint32_t round) {
    if (once_in(2)) {
        uint32_t tag = draw_tag();
        length = draw_message(message, tag);
    } else {
        build_message();
    }
    note(REFUSAL, charkhavo_refusal(message, length));
    offer();
    serve(message, length, place_of(message[0]));
    if (once_in(2)) {
        serve_again();
    }
    if (once_in(8)) {
        damage(&places[draw(CHARKHAVO_PLACES)]);
    }
    for (uint32_t times = draw(5); times > 0; times -= 1) {
        exchange();
    }
    tell();
    if (once_in(50)) {
        alter_sender();
    }
    if (once_in(500)) {
        tags = (CharkhavoTagRecord){0};
    }
    if (once_in(4)) {
        discover();
    }
    if (round % 256 == 0) {
        mix_bytes(output, CHARKHAVO_BYTES);
        mix_bytes(kept, CHARKHAVO_KEPT_BYTES);
        mix_bytes(message, CHARKHAVO_BYTES);
        mix_words(stored, CHARKHAVO_STORED_WORDS);
    }
}

int main(void) {
    for (uint32_t k = 0; k < CHARKHAVO_WORDS; k += 1) {
        payload[k] = draw(0xFFFFFFFF);
    }
    sender = charkhavo_fresh();
    for (uint32_t round = 0; round < ROUNDS; round += 1) {
        play(round);
    }
    return report(calls, CALLS, ROUNDS);
}
