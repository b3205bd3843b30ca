/* Characters in and out, for the programs that run with an operating system and without: console.c
 * has them by stdio, bare/board.c by a UART. */
#ifndef CONSOLE_H
#define CONSOLE_H

#include <stdint.h>

/* The next character; -1 at the end. */
int read_char(void);
void write_char(char c);

static inline void say(const char *text) {
    for (; *text != 0; text += 1) {
        write_char(*text);
    }
}

static inline void say_number(uint32_t number) {
    char digits[11] = "";
    int place = 10;
    do {
        place -= 1;
        digits[place] = (char)('0' + number % 10);
        number /= 10;
    } while (number != 0);
    say(digits + place);
}

/* A word as eight hexadecimal digits. */
static inline void say_word(uint32_t word) {
    for (int shift = 28; shift >= 0; shift -= 4) {
        write_char("0123456789abcdef"[word >> shift & 15]);
    }
}

#endif
