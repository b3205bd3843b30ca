/* What the examples and the edges share: a controller with its buffers, and what is expected of it. */
#ifndef END_H
#define END_H

#include "charkhavo.h"

#include <stddef.h>
#include <stdio.h>
#include <stdlib.h>
#include <string.h>

static int differences = 0;

static inline void expect(bool right, const char *what) {
    if (!right) {
        printf("  DIFFERS: %s\n", what);
        differences += 1;
    }
}

/* An end that cannot go on. */
static inline void must(CharkhavoRefusal refusal, const char *what) {
    if (refusal.number != CHARKHAVO_ACCEPTED) {
        printf("  %s is refused %u at %u\n", what, (unsigned)refusal.number, (unsigned)refusal.at);
        exit(1);
    }
}

static inline uint32_t word_at(const uint8_t *bytes, size_t place) {
    const uint8_t *word = bytes + 4 * place;
    return word[0] | (uint32_t)word[1] << 8 | (uint32_t)word[2] << 16 | (uint32_t)word[3] << 24;
}

/* The controller: memory of 8 words, and what it keeps. */
struct Controller {
    uint32_t memory[8];
    uint32_t stored[CHARKHAVO_STORED_WORDS];
    uint8_t kept[CHARKHAVO_KEPT_BYTES];
    uint8_t output[CHARKHAVO_BYTES];
    CharkhavoTagRecord tags;
};

static inline void start(struct Controller *end) {
    memset(end, 0, sizeof *end);
    end->memory[4] = 0xF00DFACE;
}

static inline CharkhavoSent served(struct Controller *end, const uint8_t *datagram, size_t length) {
    return charkhavo_serve(end->memory, 8, end->kept, CHARKHAVO_KEPT_BYTES, end->stored,
                           CHARKHAVO_STORED_WORDS, end->output, CHARKHAVO_BYTES, &end->tags,
                           datagram, length);
}

static inline size_t serve(struct Controller *end, const uint8_t *datagram, size_t length) {
    CharkhavoSent sent = served(end, datagram, length);
    must(sent.refusal, "serving");
    return sent.sent;
}

/* Whether a sender has this next tag, so many waiting, and none of them answered. */
static inline bool waits(CharkhavoSender sender, uint32_t next, uint32_t waiting) {
    return sender.next == next && sender.waiting == waiting && !sender.second && !sender.third &&
           !sender.fourth;
}

#endif
