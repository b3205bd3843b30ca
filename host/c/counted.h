/* What random calls count and print: how often each call gave each refusal, or a number came, and the hash of all that
 * was given back and left. */
#ifndef COUNTED_H
#define COUNTED_H

#include "console.h"
#include "drawn.h"

/* A name, the numbers that must come under it, 99 behind them, and how often each came. */
struct Counted {
    const char *name;
    uint8_t numbers[27];
    uint32_t times[64];
};

static inline void count(struct Counted *counted, uint32_t number) {
    counted->times[number < 64 ? number : 63] += 1;
}

/* Says how often each number came; whether all did. */
static inline bool report_one(const struct Counted *counted) {
    bool all = true;
    say(counted->name);
    for (const uint8_t *number = counted->numbers; *number != 99; number += 1) {
        say(number == counted->numbers ? ": " : ", ");
        say_number(*number);
        say(" x ");
        say_number(counted->times[*number]);
        all = all && counted->times[*number] != 0;
    }
    say("\n");
    return all;
}

/* Says all of them, the rounds and the hash; 1 if a number never came. */
static inline int report(const struct Counted *counted, int many, uint32_t rounds) {
    bool all = true;
    for (int k = 0; k < many; k += 1) {
        all = report_one(&counted[k]) && all;
    }
    say_number(rounds);
    say(" rounds, hash ");
    say_word((uint32_t)(hash >> 32));
    say_word((uint32_t)hash);
    say(all ? "\n" : "\nNOT ALL CAME\n");
    return all ? 0 : 1;
}

#endif
