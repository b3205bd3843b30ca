/* The controller at the end of a line: reads what to serve and says what came of it, as the program bench_sheet does.
 *
 *     LABEL: 80010080 00000004     a datagram, in words, or in bytes of two digits
 *     memory                       memory anew: 8 zero words but word 4 = F00DFACE
 *     fresh                        the record anew
 *     tag 15 1 1                   the record: one tag held, and the words of its stored answer and kept request */
#include "charkhavo.h"
#include "console.h"

static uint32_t memory[8], stored[CHARKHAVO_STORED_WORDS];
static uint8_t kept[CHARKHAVO_KEPT_BYTES], output[CHARKHAVO_BYTES];
static CharkhavoTagRecord tags;
static char line[256];

/* Reads a line; false at the end, and where it is longer than any should be. */
static bool read_line(void) {
    for (uint32_t place = 0; place < sizeof line; place += 1) {
        int c = read_char();
        if (c < 0) {
            return false;
        }
        line[place] = c == '\n' ? 0 : (char)c;
        if (c == '\n') {
            return true;
        }
    }
    say("a line is too long\n");
    return false;
}

static uint32_t digit(char c) {
    return (uint32_t)(c <= '9' ? c - '0' : (c & ~0x20) - 'A' + 10);
}

/* Reads a number of a base and goes past it and the space behind it. */
static uint32_t read_number(const char **text, uint32_t base, uint32_t *digits) {
    uint32_t number = 0;
    *digits = 0;
    for (; **text != 0 && **text != ' '; *text += 1) {
        number = base * number + digit(**text);
        *digits += 1;
    }
    if (**text == ' ') {
        *text += 1;
    }
    return number;
}

/* Reads a datagram's words; gives its length in bytes. */
static uint64_t read_datagram(const char *text, uint8_t *datagram) {
    uint64_t length = 0;
    while (*text != 0) {
        uint32_t digits;
        uint32_t word = read_number(&text, 16, &digits);
        for (uint32_t k = 0; k < digits / 2; k += 1) {
            datagram[length] = (uint8_t)(word >> 8 * k);
            length += 1;
        }
    }
    return length;
}

static uint32_t word_at(uint64_t place) {
    const uint8_t *word = output + 4 * place;
    return word[0] | (uint32_t)word[1] << 8 | (uint32_t)word[2] << 16 | (uint32_t)word[3] << 24;
}

static void say_result(CharkhavoSent sent) {
    if (sent.refusal.number != CHARKHAVO_ACCEPTED) {
        say(": refused ");
        say_number(sent.refusal.number);
        say(" at ");
        say_number(sent.refusal.at);
        return;
    }
    say(": sent ");
    say_number((uint32_t)(sent.sent / 4));
    say(" words");
    for (uint64_t place = 0; place < sent.sent / 4; place += 1) {
        say(" ");
        say_word(word_at(place));
    }
}

static void say_state(void) {
    say("; memory");
    for (int k = 0; k < 8; k += 1) {
        say(" ");
        say_word(memory[k]);
    }
    if (tags.held == 0) {
        say("; fresh\n");
    } else {
        say("; tag ");
        say_number(tags.tag);
        say(", held ");
        say_number(tags.held);
        say("\n");
    }
}

/* Serves the datagram behind a label. */
static void serve(const char *text) {
    uint8_t datagram[sizeof line];
    uint64_t length = read_datagram(text, datagram);
    say(line);
    say_result(charkhavo_serve(memory, 8, kept, CHARKHAVO_KEPT_BYTES, stored, CHARKHAVO_STORED_WORDS, output,
                               CHARKHAVO_BYTES, &tags, datagram, length));
    say_state();
}

static void set_memory(void) {
    for (int k = 0; k < 8; k += 1) {
        memory[k] = 0;
    }
    memory[4] = 0xF00DFACE;
}

static void set_tag(const char *text) {
    uint32_t digits;
    tags = (CharkhavoTagRecord){0};
    tags.held = 1;
    tags.tag = read_number(&text, 10, &digits);
    uint32_t place = tags.tag % CHARKHAVO_PLACES;
    tags.words[place] = read_number(&text, 10, &digits);
    tags.request[place] = read_number(&text, 10, &digits);
}

int main(void) {
    while (read_line()) {
        char *end = line;
        while (*end != 0 && *end != ':') {
            end += 1;
        }
        if (*end == ':') {
            *end = 0;
            serve(end[1] == ' ' ? end + 2 : end + 1);
        } else if (line[0] == 'm') {
            set_memory();
        } else if (line[0] == 'f') {
            tags = (CharkhavoTagRecord){0};
        } else {
            set_tag(line + 4);
        }
    }
    return 0;
}
