/* The controller's main loop, whole but for the carrier: one datagram in, served, its answer out. */
#include "charkhavo.h"

#define MEMORY_WORDS 1024 /* 1 to CHARKHAVO_MEMORY_WORDS */

/* The carrier's. receive waits for a datagram and returns how many bytes of it stand in the buffer, at most room. */
extern uint64_t receive(uint8_t *datagram, uint64_t room);
extern void transmit(const uint8_t *answer, uint64_t length);
extern void refused(uint32_t number, uint32_t at);

static uint32_t memory[MEMORY_WORDS];
static uint32_t stored[CHARKHAVO_STORED_WORDS];         /* the stored answers, of the last four messages */
static uint8_t kept[CHARKHAVO_KEPT_BYTES];              /* the kept requests */
static uint8_t output[CHARKHAVO_BYTES];                 /* the answer to send */
static uint8_t datagram[CHARKHAVO_BYTES + 1];           /* one byte more: too long a one is seen as such, 2 */
static CharkhavoTagRecord tags = {0};                   /* fresh */

int main(void) {
    for (;;) {
        uint64_t length = receive(datagram, sizeof datagram);
        CharkhavoSent served = charkhavo_serve(memory, MEMORY_WORDS, kept, CHARKHAVO_KEPT_BYTES,
                                               stored, CHARKHAVO_STORED_WORDS, output, CHARKHAVO_BYTES,
                                               &tags, datagram, length);
        if (served.refusal.number == CHARKHAVO_ACCEPTED)
            transmit(output, served.sent);
        else
            refused(served.refusal.number, served.refusal.at); /* nothing has changed; nothing is sent */
    }
}
