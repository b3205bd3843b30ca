/* Charkhavo's two static libraries, for C11 and C++; lengths are 64 bits wide on every processor.
 *
 * libcontroller.a is the brake and hoist controller's end: one call for each datagram that
 * arrives, charkhavo_serve. libloader.a is the cold-start loader's end: all other calls, which
 * build messages, send up to four until their answers are accepted, and tell what these say; and,
 * above them, load the training table. Either may be linked without the other; from elsewhere they
 * need memmove alone, on 32-bit Arm also memcpy, memset and, on armv7a, a division
 * (host/README.md).
 *
 * Nothing over 16 bytes goes by value: a larger record is lent by pointer and changed in place.
 *
 * What a caller must keep:
 * - a pointer is valid for the length that follows it, and aligned for its type; of length 0 it
 *   may be any pointer, NULL too. A record's pointer is always valid, and so is that to the rows of
 *   a training table, all CHARKHAVO_ROWS_WORDS of them;
 * - a bool is 0 or 1;
 * - what a call may change (its pointer is not to const) overlaps nothing else that the same
 *   call is lent.
 *
 * Everything else is taken as it comes: any lengths, any numbers, any records, any bytes. What is
 * wrong is refused by its number, with the header word at fault where there is one, and a refused
 * call has changed nothing that it was lent.
 *
 * No call keeps a pointer, allocates, locks or waits, and there is no state but what is lent:
 * calls on different buffers may run at the same time.
 *
 * A word is 4 bytes, little-endian in messages. Words of memory, stored answers and payload are
 * the machine's own numbers; requests are kept as the bytes that came. */
#ifndef CHARKHAVO_H
#define CHARKHAVO_H

#include <stdbool.h>
#include <stdint.h>

#ifdef __cplusplus
extern "C" {
#endif

/* Limits. */

/* the most words of a message or an answer */
#define CHARKHAVO_WORDS 2243
/* the same in bytes: the most of a datagram, the least length of an output */
#define CHARKHAVO_BYTES (4 * CHARKHAVO_WORDS)
/* the most messages that a controller holds, and that wait at a sender. A message's place is its tag
   modulo this: up to four tags in a row have places of their own */
#define CHARKHAVO_PLACES 4
/* the least length of the stored answers, in words: that of place p stands from word
   CHARKHAVO_WORDS * p on */
#define CHARKHAVO_STORED_WORDS (CHARKHAVO_PLACES * CHARKHAVO_WORDS)
/* the least length of the kept requests, in bytes: that of place p stands from byte
   CHARKHAVO_BYTES * p on */
#define CHARKHAVO_KEPT_BYTES (CHARKHAVO_PLACES * CHARKHAVO_BYTES)
/* the most words of memory; the least is 1 */
#define CHARKHAVO_MEMORY_WORDS 16384
/* the words of a training table: 24 rows of 8, and the mark */
#define CHARKHAVO_TABLE_WORDS 193
/* those of them that the caller has: seven of each row */
#define CHARKHAVO_ROWS_WORDS 168

/* Kinds of a message: 0 NOP, 1 write, 2 read, 3 response. */

#define CHARKHAVO_NOP UINT32_C(0)
#define CHARKHAVO_WRITE UINT32_C(1)
#define CHARKHAVO_READ UINT32_C(2)
#define CHARKHAVO_RESPONSE UINT32_C(3)

/* How a command ended: 0 OK, 1 Timeout, 2 Error; 3 if it was not answered. */

#define CHARKHAVO_OK UINT32_C(0)
#define CHARKHAVO_TIMEOUT UINT32_C(1)
#define CHARKHAVO_ERROR UINT32_C(2)
#define CHARKHAVO_ABSENT UINT32_C(3)

/* Refusals. Above each stands when it is given. */

/* nothing is refused */
#define CHARKHAVO_ACCEPTED UINT32_C(0)

/* Turned away by the controller; of a request 2 to 10. */

/* memory, stored answers, kept requests or output has a forbidden length, or the record is not fresh
   and not (one to four held, newest tag 0 to 15, both lengths of each held 1 to CHARKHAVO_WORDS) */
#define CHARKHAVO_REFUSED_LENT UINT32_C(1)
/* 0 bytes, not a multiple of 4, or over CHARKHAVO_BYTES */
#define CHARKHAVO_REFUSED_LENGTH UINT32_C(2)
/* a header or body runs past the end */
#define CHARKHAVO_REFUSED_PAST_END UINT32_C(3)
/* byte 0 differs from the first header's */
#define CHARKHAVO_REFUSED_BYTE_0 UINT32_C(4)
/* kind 3 */
#define CHARKHAVO_REFUSED_KIND UINT32_C(5)
/* reserved bits set */
#define CHARKHAVO_REFUSED_RESERVED UINT32_C(6)
/* count not allowed */
#define CHARKHAVO_REFUSED_COUNT UINT32_C(7)
/* byte enables not allowed */
#define CHARKHAVO_REFUSED_ENABLES UINT32_C(8)
/* words follow the LAST command */
#define CHARKHAVO_REFUSED_AFTER_LAST UINT32_C(9)
/* the answer with all commands OK would pass CHARKHAVO_WORDS words */
#define CHARKHAVO_REFUSED_LONG_ANSWER UINT32_C(10)
/* out of step (discovery clear): the tag is neither held nor the next, which is 0 for a fresh
   record */
#define CHARKHAVO_REFUSED_OUT_OF_STEP UINT32_C(11)
/* a repeat whose bytes differ from the kept request of its tag */
#define CHARKHAVO_REFUSED_OTHER_BYTES UINT32_C(12)

/* Building a message; the lowest number first. */

/* short output, kind over 2, tag over 15 or a building record that no sequence of calls gives */
#define CHARKHAVO_REFUSED_BUILDING UINT32_C(21)
/* adding after closing, closing twice or closing with nothing added */
#define CHARKHAVO_REFUSED_CLOSING UINT32_C(22)
/* count */
#define CHARKHAVO_REFUSED_ADDED_COUNT UINT32_C(23)
/* enables */
#define CHARKHAVO_REFUSED_ADDED_ENABLES UINT32_C(24)
/* address of 2^32 or more in 32-bit mode */
#define CHARKHAVO_REFUSED_ADDED_ADDRESS UINT32_C(25)
/* request or all-OK answer would pass CHARKHAVO_WORDS words */
#define CHARKHAVO_REFUSED_NO_ROOM UINT32_C(26)

/* The sender. */

/* sending or taking an answer while none waits; a training table that is done or has ended has no
   message */
#define CHARKHAVO_REFUSED_NONE_WAITS UINT32_C(30)
/* request would be refused 2 to 10, has the discovery bit, or its tag is not (offering) the one after
   the newest, or (sending, taking) that of a waiting message not yet answered */
#define CHARKHAVO_REFUSED_REQUEST UINT32_C(31)
/* answer length 0, not a multiple of 4, or over CHARKHAVO_BYTES */
#define CHARKHAVO_REFUSED_ANSWER_LENGTH UINT32_C(32)
/* byte 0 is not the request's with kind 3 */
#define CHARKHAVO_REFUSED_ANSWER_BYTE_0 UINT32_C(33)
/* later byte 0 differs, reserved or bits 15:12 set, status 3 or more, or count wrong (nonzero
   status: count 0) */
#define CHARKHAVO_REFUSED_ANSWER_HEADER UINT32_C(34)
/* a header or body past the end, LAST missing or early, or words after it */
#define CHARKHAVO_REFUSED_ANSWER_END UINT32_C(35)
/* offering while four wait; of the training table, while one does */
#define CHARKHAVO_REFUSED_OFFERING UINT32_C(36)
/* sender record's next tag over 15, or more than four waiting */
#define CHARKHAVO_REFUSED_SENDER UINT32_C(37)
/* discovery status not OK, or word 1 has bits above 4 set, or bit 4 clear and a tag nonzero */
#define CHARKHAVO_REFUSED_DISCOVERY UINT32_C(38)

/* The training table. */

/* a set-up with room for fewer than 193 words, a start not a multiple of 4 or an end past 2^32 */
#define CHARKHAVO_REFUSED_SET_UP UINT32_C(40)

/* A refusal: its number, 0 where nothing is refused, and the index, from 0, of the header word that
   was looked at. 3 to 9 give it in the datagram, 31 in the request (0 for a request that would be
   refused 2 or 10, has the discovery bit or another tag), 33 to 35 in the answer; 9 and 35 for words
   after LAST give that of LAST; where no word stands, 3, 31 and 35 give the number of words. All
   others give 0. */
typedef struct CharkhavoRefusal {
    uint32_t number;
    uint32_t at;
} CharkhavoRefusal;

/* The controller: libcontroller.a. */

/* What the controller keeps between calls beside memory, stored answers and kept requests: it holds
   the last messages that were new, four at most. Their tags go back from the newest by one, modulo
   16. A place that is not held is not looked at; with none held (fresh) nothing else is. A
   controller starts with {0}. A record that was kept by firmware with another layout is none of
   these: after an update start both ends anew. */
typedef struct CharkhavoTagRecord {
    uint32_t held;                       /* how many, 0 (fresh) to CHARKHAVO_PLACES */
    uint32_t tag;                        /* of the newest, 0 to 15 */
    uint32_t words[CHARKHAVO_PLACES];    /* of each place's answer, 1 to CHARKHAVO_WORDS */
    uint32_t request[CHARKHAVO_PLACES];  /* words of each place's request, likewise */
} CharkhavoTagRecord;

/* What serving comes to: the first `sent` bytes of the output are to be sent, 0 with a refusal. */
typedef struct CharkhavoSent {
    CharkhavoRefusal refusal;
    uint64_t sent;
} CharkhavoSent;

/* Serves one datagram. A new message, whose tag is the one after the newest (0 if fresh), is carried
   out upon memory; it is then the newest held, its answer is stored and its bytes are kept at its
   place. A repeat, of any held tag, gets the answer stored at its place again. A discovery is carried
   out, and record, stored answers and kept requests stay. Refusals: 1, 2, then at each header 3 (no
   word there), 4 to 7, 3 (address words missing), 8, 3 (data missing), 9; then 10, 11, 12. Output
   bytes past those sent keep what they held, and so do, at that place, words past the new answer and
   bytes past the new request, and all other places. Lengths of memory, stored answers and payloads
   are in words, all others in bytes.

   `kept` holds the bytes of the held messages from call to call; a repeat has the same, else 12. It
   must be another buffer than `output`; both are uint8_t *, so no compiler tells them apart.

   Record, stored answers and kept requests belong together: over a reset keep all three or none,
   with a fresh record. After a reset within the call keep none. A controller that comes up fresh
   takes only tag 0: nothing sent before may arrive any more, and its loader starts anew too. */
CharkhavoSent charkhavo_serve(uint32_t *memory, uint64_t memory_length,
                              uint8_t *kept, uint64_t kept_length,
                              uint32_t *stored, uint64_t stored_length,
                              uint8_t *output, uint64_t output_length,
                              CharkhavoTagRecord *tags,
                              const uint8_t *datagram, uint64_t datagram_length);

/* The loader: libloader.a. */

/* The refusal of a request by any controller, 2 to 10 in the order that serving has; 0 if it is
   well-formed. */
CharkhavoRefusal charkhavo_refusal(const uint8_t *request, uint64_t request_length);

/* A message that is being built, in an output that the caller lends to each call. Closed, it is
   the first 4 * words bytes of that output. */
typedef struct CharkhavoBuilding {
    uint32_t kind;    /* of every command: NOP, write or read */
    uint32_t tag;     /* 0 to 15 */
    bool wide;        /* addresses of 64 bits; else of 32 */
    bool discovery;
    uint64_t words;   /* so far */
    uint64_t last;    /* the place of the last header, in words; 0 if none */
    uint64_t answer;  /* words of the all-OK answer so far */
    bool closed;
} CharkhavoBuilding;

/* The record to start with, before the first begin: adding and closing with it are 21. */
#define CHARKHAVO_NO_BUILDING {CHARKHAVO_RESPONSE, 0, false, false, 0, 0, 0, false}

/* The three building calls change the record that they are lent; a refused one leaves the record
   and the output as they were. The record's pointer is always valid, and the record overlaps
   neither output nor payload. */

/* Begins a message, whatever the record holds (its bools are 0 or 1 there too). The output is only
   measured. Refusal: 21. */
CharkhavoRefusal charkhavo_begin(const uint8_t *output, uint64_t output_length,
                                 CharkhavoBuilding *building,
                                 uint32_t kind, uint32_t tag, bool wide, bool discovery);

/* Adds a command behind those there are. What its kind has no use for is not looked at: the
   address is of writes and reads, first and last of writes, the count of reads, the payload of
   writes and NOPs, whose count is its length. First and last are the byte enables of the first and
   the last word; bit i covers byte i, and last is 0 with one word and only then. With two words at
   an address that is no multiple of 8, and with three words or more, they have no gap inside: first
   is F, E, C or 8 and last F, 7, 3 or 1. Refusals: 21 to 26, lowest first (NOPs skip 24 and 25,
   reads skip 24). Only the command's bytes of the output change. */
CharkhavoRefusal charkhavo_add(uint8_t *output, uint64_t output_length,
                               CharkhavoBuilding *building,
                               uint64_t address, uint32_t first, uint32_t last, uint64_t count,
                               const uint32_t *payload, uint64_t payload_length);

/* Closes the message. Refusals: 21, 22. Only the LAST bit of the last header changes. */
CharkhavoRefusal charkhavo_close(uint8_t *output, uint64_t output_length,
                                 CharkhavoBuilding *building);

/* The fixed discovery, which asks a controller for its newest tag. So a loader begins after a
   restart, its own or the controller's: throw away everything that was sent or received before, so
   that none of it arrives any more at either end (empty the line); send this until
   charkhavo_discovered accepts the answer to it (an answer that it refuses is dropped); and begin
   the list, with new tags, from its first message. */
typedef struct CharkhavoDiscovery {
    uint8_t bytes[12];
} CharkhavoDiscovery;

CharkhavoDiscovery charkhavo_discovery(void);

/* The sender. Up to four messages wait, their tags one after another. The sender keeps no bytes: a
   call is lent one message. Keep a message unchanged from its offer on, and its answer from its take
   on, until `ended` has counted it and you have asked its outcome; tag modulo 4 is a slot of its own
   for each that waits. A controller takes messages in order of tag only, so that one that arrives
   too early has to be sent again; a message that is answered before an older one waits on until that
   one ends, so that messages end in order of tag. */
typedef struct CharkhavoSender {
    uint8_t next;     /* the tag of the oldest that waits; where none waits, of the one to offer */
    uint8_t waiting;  /* how many wait, 0 to CHARKHAVO_PLACES */
    bool second;      /* whether the second oldest is answered; not looked at if it does not wait */
    bool third;       /* the same of the third */
    bool fourth;      /* the same of the fourth */
} CharkhavoSender;

/* What an offer or a discovery comes to: its refusal, and the sender to go on with. */
typedef struct CharkhavoMoved {
    CharkhavoRefusal refusal;
    CharkhavoSender sender;
} CharkhavoMoved;

/* What taking an answer comes to: the same, and how many messages ended, the oldest first. */
typedef struct CharkhavoTaken {
    CharkhavoRefusal refusal;
    CharkhavoSender sender;
    uint8_t ended;
} CharkhavoTaken;

/* The sender of a fresh pair: next tag 0, nothing waits. */
CharkhavoSender charkhavo_fresh(void);

/* The sender that an answer to the fixed discovery makes: its next tag is the newest held plus 1,
   modulo 16, or 0 if none is held. Refusals: 32, 33, then 34 and 35 at each header, 38, with a
   sender of next tag 16, which every later call refuses by 37.

   Give it only the answer to that very discovery, sent since the restart and before any message. The
   answer to somebody else's discovery that reads two words with tag 0, at an address of 32 bits,
   looks the same: a word of memory would be taken for a tag. So everybody else on the line, the
   laptop, sends discoveries with another tag than 0: their answers are refused, 33. */
CharkhavoMoved charkhavo_discovered(const uint8_t *answer, uint64_t answer_length);

/* Offers a message, which then waits; it has the tag after the newest that waits, next + waiting
   modulo 16. Refusals: 37, 36, 31, with the sender as it was. */
CharkhavoMoved charkhavo_offer(CharkhavoSender sender,
                               const uint8_t *message, uint64_t message_length);

/* What sending comes to: how many bytes go out, all of them the message's own; 0 with a refusal. */
typedef struct CharkhavoSending {
    CharkhavoRefusal refusal;
    uint64_t length;
} CharkhavoSending;

/* Whether this message, which waits and is not answered, may go out: any number of times, and the
   messages in any order. Refusals: 37, 30, 31. */
CharkhavoSending charkhavo_send(CharkhavoSender sender,
                                const uint8_t *message, uint64_t message_length);

/* Takes an answer to this message, which waits and is not answered: the one whose tag the answer
   has, bits 3:0 of its first byte, for 33 judges by the message lent. Accepted, also when a command
   failed, an answer to the oldest ends it and the answered ones right behind it, and the next tag
   is as many more, modulo 16; an answer to a younger one marks it, and none ends. Of each that
   ended the caller asks for the outcome, by its own message and answer. Refusals: 37, 30, 31, 32,
   33, then 34 and 35 at each header, with the sender as it was and none ended. */
CharkhavoTaken charkhavo_take(CharkhavoSender sender,
                              const uint8_t *message, uint64_t message_length,
                              const uint8_t *answer, uint64_t answer_length);

/* What an answer tells of its request. No sender is looked at, so these serve after the answer was
   taken too. Where 31 (its tag clause aside) to 35 would refuse, no command counts as answered.
   Commands are counted from 0, and k may be any number. */

/* How many commands were answered. */
uint64_t charkhavo_count(const uint8_t *request, uint64_t request_length,
                         const uint8_t *answer, uint64_t answer_length);

/* How command k ended: 0 OK, 1 Timeout, 2 Error; 3 if it was not answered. */
uint32_t charkhavo_status(const uint8_t *request, uint64_t request_length,
                          const uint8_t *answer, uint64_t answer_length, uint64_t k);

/* A part of the answer's bytes. */
typedef struct CharkhavoPart {
    uint64_t start;
    uint64_t length;
} CharkhavoPart;

/* Where in the answer the data of read k stand. Of length 0, at 0, if command k was not answered or
   is not an OK read. */
CharkhavoPart charkhavo_read_data(const uint8_t *request, uint64_t request_length,
                                  const uint8_t *answer, uint64_t answer_length, uint64_t k);

/* The training table: 24 rows of 8 words, then one word, the mark. The first word of a row is its
   number, 1 to 24, and the other seven are the caller's. Row r stands at byte start + 32 * (r - 1) of
   memory, the mark at start + 768. The mark is 24 where the table is complete: read the rows only then.

   An attempt loads it by four messages, one at a time: 0 to the mark; the rows; reads of all rows;
   and, only if every row came back as sent, all eight words, 24 to the mark. A command that failed
   (Timeout too), or a row that differs, ends the attempt with the row's number, the lowest first; 25
   if it was the mark's. The mark is then 0, or as it was if writing 0 failed. Nothing else ends an
   attempt: what is lost or refused is sent again.

   A loader makes one attempt in each of its lives, and sends nothing else: it asks charkhavo_set_up
   before it sends anything, empties the line, asks by the fixed discovery, and begins with the sender
   that it gets. To try again, whatever an attempt came to, it restarts. As long as the table has the
   same start in every life, nobody else writes its words, and the mark was not 24 before the first,
   the mark is 24 only while all 24 rows are those of one life; an attempt that is done finds its own
   rows there. host/c/table.c is such a loader, whole. */

/* What comes next: the message to be sent, or how the attempt came to its end. */

/* 0 to the mark */
#define CHARKHAVO_STAGE_CLEAR UINT8_C(0)
/* 24 writes, a row each */
#define CHARKHAVO_STAGE_ROWS UINT8_C(1)
/* 24 reads, a row each */
#define CHARKHAVO_STAGE_BACK UINT8_C(2)
/* 24 to the mark */
#define CHARKHAVO_STAGE_MARK UINT8_C(3)
/* every row came back as sent, and the mark is 24 */
#define CHARKHAVO_STAGE_DONE UINT8_C(4)
/* it failed, at `row`; any other number says so too */
#define CHARKHAVO_STAGE_ENDED UINT8_C(5)

typedef struct CharkhavoTableAttempt {
    CharkhavoSender sender;
    uint8_t stage;  /* what comes next */
    uint8_t row;    /* the row that it ended with, 1 to 24, 25 for the mark; 0 if it has not ended */
} CharkhavoTableAttempt;

/* What the next message comes to: the number of its refusal, its length in bytes, 0 with a refusal,
   and the attempt to go on with. */
typedef struct CharkhavoTableMade {
    uint32_t refusal;
    uint32_t length;
    CharkhavoTableAttempt attempt;
} CharkhavoTableMade;

/* What taking an answer comes to: its refusal, and the attempt to go on with. */
typedef struct CharkhavoTableTaken {
    CharkhavoRefusal refusal;
    CharkhavoTableAttempt attempt;
} CharkhavoTableTaken;

/* The refusal of a set-up, 40, or 0: the table's start, a byte address, and how many words there are
   for it from there on. They may end at 2^32, and not past it. */
uint32_t charkhavo_set_up(uint64_t start, uint64_t room);

/* The attempt that begins with a sender, the one that charkhavo_discovered gave. With one at which a
   message waits every later call refuses by 37 (a wrong set-up still by 40). */
CharkhavoTableAttempt charkhavo_attempt(CharkhavoSender sender);

/* Writes the attempt's next message into the output, under the sender's next tag, and offers it. It
   then waits: send its first `length` bytes, any number of times, until charkhavo_table_take has
   accepted an answer, and keep them unchanged until then. `rows` has the caller's words, seven of
   row 1, then seven of row 2 and so on. Start, room and rows are the same throughout an attempt.
   Refusals: 40; 37; 36 (a message waits); 30 (done or ended); 21 (an output shorter than
   CHARKHAVO_BYTES). Output bytes past the message keep what they held; with a refusal all do, and
   the attempt is as it was. */
CharkhavoTableMade charkhavo_table_message(uint8_t *output, uint64_t output_length,
                                           CharkhavoTableAttempt attempt,
                                           uint64_t start, uint64_t room,
                                           const uint32_t rows[CHARKHAVO_ROWS_WORDS]);

/* Takes an answer to the attempt's message, which waits. Lend it the very bytes that
   charkhavo_table_message gave, and the same rows. Accepted, the attempt goes on to its next
   message, is done, or has ended with the row's number. Refusals: those of charkhavo_take, with the
   attempt as it was: it waits on. An answer of no bytes, none having come in time, is one: 32. */
CharkhavoTableTaken charkhavo_table_take(CharkhavoTableAttempt attempt,
                                         const uint8_t *message, uint64_t message_length,
                                         const uint8_t *answer, uint64_t answer_length,
                                         const uint32_t rows[CHARKHAVO_ROWS_WORDS]);

#ifdef __cplusplus
}
#endif

#endif
