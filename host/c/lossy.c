/* In place of a carrier and a training, for table.c: a line that loses, repeats and crosses what goes over it, a
 * controller at its other end, and power that fails. main starts the loader again and again, and looks each time at
 * what stands in the controller's memory.
 *
 * Prints what came of each life; exits with 1 if the mark is 24 over rows that are not all of one life, or if a life
 * that is done does not find its own rows there. */
#include "charkhavo.h"

#include <setjmp.h>
#include <stdio.h>
#include <stdlib.h>
#include <string.h>

extern uint32_t loader(void);

static void must(bool right, const char *what) {
    if (!right) {
        printf("  DIFFERS: %s\n", what);
        exit(1);
    }
}

/* A number below another, by xorshift. */
static uint32_t draw(uint32_t below) {
    static uint64_t state = UINT64_C(88172645463325252);
    state ^= state << 13;
    state ^= state >> 7;
    state ^= state << 17;
    return (uint32_t)(state >> 32) % below;
}

/* ---- The controller. */

static uint32_t memory[256], memory_words = 256, stored[CHARKHAVO_STORED_WORDS];
static uint8_t kept[CHARKHAVO_KEPT_BYTES], output[CHARKHAVO_BYTES];
static CharkhavoTagRecord tags;

/* ---- The line: what is under way to the controller, and from it. Each datagram may be lost or come twice. */

struct Datagram {
    uint8_t bytes[1024];
    uint64_t length;
};
static struct Line {
    struct Datagram under_way[4];
    uint32_t many;
} requests, answers;

/* A datagram goes under way; once in four times, and if there are too many, it is lost. */
static void put(struct Line *line, const uint8_t *bytes, uint64_t length) {
    struct Datagram *datagram = &line->under_way[line->many];
    if (draw(4) != 0 && line->many < 4) {
        must(length <= sizeof datagram->bytes, "a datagram's room");
        memcpy(datagram->bytes, bytes, (size_t)length);
        datagram->length = length;
        line->many += 1;
    }
}

/* One of those under way comes, any of them, and once in three times stays under way; NULL if there is none. */
static const struct Datagram *come(struct Line *line) {
    static struct Datagram came;
    if (line->many == 0) {
        return NULL;
    }
    uint32_t which = draw(line->many);
    came = line->under_way[which];
    if (draw(3) != 0) {
        line->many -= 1;
        line->under_way[which] = line->under_way[line->many];
    }
    return &came;
}

/* One of the requests under way comes to the controller, and its answer goes under way. */
static void serve(void) {
    const struct Datagram *request = come(&requests);
    if (request != NULL) {
        CharkhavoSent sent =
            charkhavo_serve(memory, memory_words, kept, CHARKHAVO_KEPT_BYTES, stored, CHARKHAVO_STORED_WORDS, output,
                            CHARKHAVO_BYTES, &tags, request->bytes, request->length);
        must(sent.refusal.number == CHARKHAVO_ACCEPTED, "serving");
        put(&answers, output, sent.sent);
    }
}

/* ---- What table.c asks for. */

static jmp_buf power;
static uint32_t power_for; /* so many datagrams; then the power fails */
static uint32_t life;      /* of the loader, counted from 1 */

void empty_line(void) {
    requests.many = answers.many = 0;
}

void send_bytes(const uint8_t *bytes, uint64_t length) {
    if (power_for == 0) {
        longjmp(power, 1);
    }
    power_for -= 1;
    put(&requests, bytes, length);
}

uint64_t receive_bytes(uint8_t *buffer, uint64_t room) {
    for (uint32_t times = draw(3); times > 0; times -= 1) {
        serve();
    }
    const struct Datagram *answer = come(&answers);
    if (answer == NULL) {
        return 0;
    }
    uint64_t length = answer->length < room ? answer->length : room;
    memcpy(buffer, answer->bytes, (size_t)length);
    return length;
}

/* Word w of row r: the life, r and w side by side. */
static uint32_t trained(uint32_t of, uint32_t r, uint32_t w) {
    return of << 16 | r << 8 | w;
}

void train(uint32_t rows[CHARKHAVO_ROWS_WORDS]) {
    for (uint32_t k = 0; k < CHARKHAVO_ROWS_WORDS; k += 1) {
        rows[k] = trained(life, k / 7 + 1, k % 7 + 1);
    }
}

/* ---- What stands in memory. */

static const uint32_t *const table = &memory[0x40 / 4], *const mark = &memory[0x40 / 4 + 192];

/* Whether row r is that of this life, with its number. */
static bool is_row(uint32_t of, uint32_t r) {
    const uint32_t *row = &table[8 * (r - 1)];
    bool right = row[0] == r;
    for (uint32_t w = 1; w < 8; w += 1) {
        right = right && row[w] == trained(of, r, w);
    }
    return right;
}

/* The life whose rows all 24 are; 0 if they are not of one. */
static uint32_t whose(void) {
    uint32_t of = table[1] >> 16;
    for (uint32_t r = 1; r <= 24; r += 1) {
        of = is_row(of, r) ? of : 0;
    }
    return of;
}

/* Starts the loader, with power for so many datagrams; whether it came to its end. */
static bool run(uint32_t datagrams) {
    life += 1;
    power_for = datagrams;
    printf("life %u: ", (unsigned)life);
    if (setjmp(power) != 0) {
        printf("the power failed\n");
        return false;
    }
    must(loader() == CHARKHAVO_ACCEPTED, "the loader");
    return true;
}

/* Says what stands in memory; gives whether the mark is 24. */
static bool look(void) {
    uint32_t of = whose();
    must(*mark != 24 || of != 0, "24 over rows that are not all of one life");
    printf(of == 0 ? "  mark %u, rows not all of one life\n" : "  mark %u, all rows of life %u\n", (unsigned)*mark,
           (unsigned)of);
    return *mark == 24;
}

int main(void) {
    static const uint32_t datagrams[] = {1, 5, 8, 100, 2, 6, 7, 4, 8, 100};
    uint32_t torn = 0;
    for (uint32_t k = 0; k < 10; k += 1) {
        bool ended = run(datagrams[k]);
        bool whole = look();
        must(!ended || (whole && whose() == life), "a life that is done has its own rows there");
        must(ended == (datagrams[k] == 100), "power for 100 datagrams is enough");
        torn += whole ? 0 : 1;
        if (k % 3 == 2) {
            tags = (CharkhavoTagRecord){0}; /* the controller was reset too */
        }
    }
    must(torn >= 3, "lives that were cut short");
    memory_words = 100; /* too short for the mark: it cannot be cleared, and stays */
    must(run(100) && look(), "an attempt that ended");
    printf("all in order\n");
    return 0;
}
