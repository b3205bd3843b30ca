/* What random calls are made of, the same on every target: numbers drawn, a hash, and messages drawn word by word. */
#ifndef DRAWN_H
#define DRAWN_H

#include "charkhavo.h"

/* Words of the memory that addresses are drawn for. */
#define MEMORY_WORDS 64
#define LAST UINT32_C(0x80000000)

/* A number below another, by xorshift. Two draws never stand in one expression: C does not say which comes first. */
static inline uint32_t draw(uint32_t below) {
    static uint64_t state = UINT64_C(88172645463325252);
    state ^= state << 13;
    state ^= state >> 7;
    state ^= state << 17;
    return (uint32_t)(state >> 32) % below;
}

/* Once in so many times. */
static inline bool once_in(uint32_t times) {
    return draw(times) == 0;
}

static uint64_t hash = UINT64_C(14695981039346656037);

static inline void mix(uint64_t number) {
    hash = (hash ^ number) * UINT64_C(1099511628211);
    hash ^= hash >> 29;
}

static inline void mix_bytes(const uint8_t *bytes, uint64_t count) {
    for (uint64_t k = 0; k < count; k += 1) {
        mix(bytes[k]);
    }
}

static inline void mix_words(const uint32_t *words, uint64_t count) {
    for (uint64_t k = 0; k < count; k += 1) {
        mix(words[k]);
    }
}

static inline void copy(uint8_t *to, const uint8_t *from, uint64_t count) {
    for (uint64_t k = 0; k < count; k += 1) {
        to[k] = from[k];
    }
}

/* A message is drawn in a byte more than the limit. */
#define DRAWN_BYTES (CHARKHAVO_BYTES + 1)

static inline void put_word(uint8_t *message, uint64_t place, uint32_t word) {
    for (uint32_t k = 0; k < 4 && 4 * place + k < DRAWN_BYTES; k += 1) {
        message[4 * place + k] = (uint8_t)(word >> 8 * k);
    }
}

static inline uint32_t draw_kind(void) {
    return once_in(40) ? CHARKHAVO_RESPONSE : draw(3);
}

/* Bit 0: addresses of 64 bits; bit 1: discovery. */
static inline uint32_t draw_modes(void) {
    uint32_t wide = once_in(4) ? 1 : 0;
    return once_in(8) ? wide | 2 : wide;
}

/* How many data words: few, seldom too many. */
static inline uint32_t draw_count(uint32_t kind, uint32_t most) {
    if (kind == CHARKHAVO_NOP) {
        return once_in(20) ? draw(6) : draw(3);
    }
    return once_in(40) ? draw(most + 1) : 1 + draw(4);
}

/* Byte enables of the first and last word: mostly whole, else any. */
static inline uint32_t draw_enables(uint32_t count) {
    if (once_in(3)) {
        return draw(256);
    }
    return count == 1 ? 0x0F : 0xFF;
}

/* An address, mostly of memory; in the first 2^32 bytes but seldom. */
static inline uint64_t draw_address(void) {
    uint64_t address = 4 * draw(MEMORY_WORDS + 2);
    if (once_in(40)) {
        address += 1;
    }
    return once_in(40) ? address + (UINT64_C(1) << 32) : address;
}

/* Draws a command at a place in the message; gives the place behind it. */
static inline uint64_t draw_command(uint8_t *message, uint64_t place, uint32_t byte0, bool last) {
    uint32_t kind = byte0 >> 4 & 3;
    uint32_t count = draw_count(kind, 4095);
    uint32_t enables = draw_enables(count);
    uint32_t header = byte0 | enables << 8 | count << 16 | (last ? LAST : 0);
    if (once_in(60)) {
        header ^= UINT32_C(1) << draw(32);
    }
    put_word(message, place, header);
    place += 1;
    if (kind == CHARKHAVO_WRITE || kind == CHARKHAVO_READ) {
        uint64_t address = draw_address();
        put_word(message, place, (uint32_t)address);
        put_word(message, place + 1, (uint32_t)(address >> 32));
        place += (byte0 & 0x40) != 0 ? 2 : 1;
    }
    for (uint32_t k = 0; k < count && kind != CHARKHAVO_READ; k += 1) {
        put_word(message, place, draw(0xFFFFFFFF));
        place += 1;
    }
    return place;
}

/* Draws a message of a tag word by word; gives its length. */
static inline uint64_t draw_message(uint8_t *message, uint32_t tag) {
    uint32_t byte0 = tag;
    byte0 |= draw_kind() << 4;
    byte0 |= draw_modes() << 6;
    uint32_t commands = 1 + draw(4);
    uint64_t words = 0;
    for (uint32_t k = 1; k <= commands; k += 1) {
        words = draw_command(message, words, byte0, k == commands);
    }
    uint64_t length = 4 * words;
    if (once_in(30)) {
        length = draw(DRAWN_BYTES + 1);
    } else if (once_in(30)) {
        length -= 4 * draw(3);
    }
    return length < DRAWN_BYTES ? length : DRAWN_BYTES;
}

#endif
