/* lubdranit.h: one shared, ordered list of test steps, edited in up to eight bays at once.
 *
 * A client (a bay's terminal) and the server each keep their end of the sheet in bytes that you lend: a static array of
 * LUB_CLIENT_BYTES or LUB_SERVER_BYTES. There is no other state, no allocation and no input or output. You carry the messages.
 *
 *     static uint8_t end[LUB_CLIENT_BYTES];
 *     static const uint8_t ranks[3] = {2, 3, 1};                client 3 goes first in a tie, then 1, then 2
 *     static const uint8_t steps[8] = {0, 0, 0, 101, 0, 0, 0, 102};
 *     uint8_t message[LUB_MESSAGE_BYTES];
 *     uint64_t answer;
 *
 *                                                               client 1 of 3, with the list 101 102
 *     lub_client_open(end, sizeof end, 3, 1, ranks, sizeof ranks, steps, sizeof steps);
 *     lub_client_insert(end, sizeof end, 1, 201);               step 201 at the front, shown at once
 *     lub_client_maker(end, 1);                                 1: client 1 put it there; 0 for a step of the opening list
 *     lub_client_total(end);                                    404: the seconds of the three steps
 *     lub_client_take_back(end, sizeof end);                    the list is 101 102 again; once more, and 201 is back
 *     answer = lub_client_send(end, sizeof end, 1, 1, message, sizeof message);
 *     if (lub_refusal(answer) == 0)
 *         carry(message, lub_count(answer));                    to the server, which takes it
 *     answer = lub_client_take(end, sizeof end, received, received_length);
 *     if (lub_refusal(answer) == LUB_REFUSED_GAP)
 *         wait_or_ask_again();
 *     else if (lub_applied(answer) != 0 && lub_applied(answer) != lub_arrived(answer))
 *         mark(lub_applied(answer));                            the edit landed elsewhere than its message put it
 *
 * Where packets are few, several messages go in one: lub_client_pack and lub_server_pack write all that a line owes, and the other end
 * takes the packet as a whole, or message by message:
 *
 *     uint8_t packet[LUB_PACKET_BYTES];
 *     answer = lub_client_pack(end, sizeof end, 1, packet, sizeof packet, 0);
 *     if (lub_count(answer) != 0)                               0: nothing is pending
 *         carry(packet, lub_count(answer));
 *     answer = lub_client_take_packet(end, sizeof end, received, received_length);
 *     lub_count(answer);                                        how many messages were taken, also if the next one was refused
 *
 * Every call returns one number: bits 0 to 7 are the refusal, 0 for none, and bits 8 to 23 a count or a length. If the call took one
 * edit, bits 24 to 39 are the position that arrived and bits 40 to 55 the position applied. If it took a message by its offset in a
 * packet, bits 56 to 63 are that message's length. All other bits are 0. A call that is refused changes no lent byte, neither of the end
 * nor of the buffer, and answers the refusal alone; but a packet that is refused at some message has had those before it taken, and
 * counts them. What each call does is proved; docs/PROMISES.md says what that covers. An end's bytes may be stored and lent again later:
 * the promise that all copies agree holds while each call gets the bytes that the last call on that end left.
 *
 * What a call is lent may not overlap, and no pointer is NULL, not even one with length 0. One call at a time on an end; two ends
 * share nothing.
 */
#ifndef LUBDRANIT_H
#define LUBDRANIT_H

#include <stddef.h>
#include <stdint.h>

#ifdef __cplusplus
extern "C" {
#endif

/* ---- limits and lengths */

#define LUB_LINES 8u            /* clients of a sheet */
#define LUB_INSERTS 48u         /* inserts that a client may make */
#define LUB_EDITS 400u          /* edits that a client may make */
#define LUB_PENDING 64u         /* pending edits of a line */
#define LUB_ITEMS 512u          /* items of a list */
#define LUB_INITIAL 128u        /* items at opening */

#define LUB_CLIENT_BYTES 4656u  /* a client's end */
#define LUB_SERVER_BYTES 10392u /* the server's end */
#define LUB_MESSAGE_BYTES 17u   /* the longest message: an insert has 17 bytes, a delete 12, an edit that became nothing 10 */
#define LUB_PACKET_BYTES 1400u  /* the longest packet that is taken */
#define LUB_PACKED_BYTES 1088u  /* the longest packet that is written: 64 inserts */
#define LUB_RUN_BYTES 262144u   /* room for any output of lub_run */

/* ---- refusals: the number of the question that said no, in the order in which a call asks them */

enum lub_refusal_number {
    LUB_OK = 0,
    LUB_REFUSED_OPENING = 1,       /* n, line, number of items, or a cut item */
    LUB_REFUSED_UNSOUND = 2,       /* the end's bytes are damaged */
    LUB_REFUSED_NO_MESSAGE = 3,    /* not exactly one message with its fields in range */
    LUB_REFUSED_MISDIRECTED = 4,   /* another direction, line, rank or maker */
    LUB_REFUSED_REPEAT = 5,        /* taken before: drop it */
    LUB_REFUSED_GAP = 6,           /* an earlier edit is missing */
    LUB_REFUSED_OVERTAKEN = 7,     /* its sender knew less than a message taken before: drop it */
    LUB_REFUSED_UNMADE = 8,        /* it acknowledges edits that were not made */
    LUB_REFUSED_POSITION = 9,      /* outside the list, or the list would pass 512 */
    LUB_REFUSED_INSERTS = 10,      /* 48 inserts were made */
    LUB_REFUSED_EDITS = 11,        /* 400 edits were made */
    LUB_REFUSED_PENDING = 12,      /* 64 edits are pending here, or at the server on another line */
    LUB_REFUSED_NOT_PENDING = 13,  /* that number is not pending */
    LUB_REFUSED_SHORT_BUFFER = 14, /* the message does not fit, or the first one of a packet */
    LUB_REFUSED_PACKET = 15,       /* a packet of no bytes, or of more than 1,400; asked after 2 */
    LUB_REFUSED_RANKS = 16,        /* the ranks are not 1 to n, each used once; asked after 1 */
    LUB_REFUSED_NOTHING = 17,      /* no edit was made yet, or what is to be taken back became nothing; asked after 2 */
    LUB_REFUSED_SHORT_END = 18     /* the end's lent bytes are shorter than its layout; asked before all others */
};

/* ---- a client
 * `end` is the client's end: LUB_CLIENT_BYTES lent bytes. More are fine; those behind the layout stay as they are. */

/* Opens the end of client `line` of n with the ranks of all lines and the opening list. `ranks` are exactly n bytes, line 1's first: 1 to
 * n, each used once. Where two clients insert at one place, the item of the smaller rank stands first. `items` are four bytes each, high
 * byte first. The bytes of `end` need not be set before. Refusals: 18 1 16. */
uint64_t lub_client_open(uint8_t *end, size_t end_length, uint8_t n, uint8_t line, const uint8_t *ranks, size_t ranks_length,
                         const uint8_t *items, size_t items_length);

/* Inserts an item before the one at `position`, which counts from 1; length + 1 appends. The edit is applied at once and pending
 * until the server has acknowledged it. Refusals: 18 2 9 10 11 12. */
uint64_t lub_client_insert(uint8_t *end, size_t end_length, uint16_t position, uint32_t item);

/* Deletes the item at `position`. Refusals: 18 2 9 11 12. */
uint64_t lub_client_delete(uint8_t *end, size_t end_length, uint16_t position);

/* Takes back the latest edit made here: an insert's item is deleted; a delete's item is inserted again, as a new step of this client. That is
 * an edit like any other, with a number of its own, which is to be sent, and it can itself be taken back. What is taken back has moved
 * with the edits taken meanwhile; if none was, items and order are as before the edit. Refusals: 18 2 17 9 10 11 12. 17: no edit was made
 * yet, or another client deleted the item. */
uint64_t lub_client_take_back(uint8_t *end, size_t end_length);

/* Writes the message of pending edit `number` in its present form into `out`, for the server. Counts the bytes written; LUB_MESSAGE_BYTES
 * are enough for any message. Changes no end, and may be repeated: a message that may be lost is sent again. `line` is the client's own.
 * Refusals: 18 2 4 13 14. */
uint64_t lub_client_send(const uint8_t *end, size_t end_length, uint8_t line, uint16_t number, uint8_t *out, size_t out_length);

/* Writes an acknowledgement of all edits taken into `out`, for the server: 5 bytes. Send one when no edit is waiting to go up, so that
 * the server can drop what it keeps. Counts the bytes written. Refusals: 18 2 4 14. */
uint64_t lub_client_acknowledge(const uint8_t *end, size_t end_length, uint8_t line, uint8_t *out, size_t out_length);

/* Takes one message of the server: an edit, which is applied, or an acknowledgement. Counts the pending edits that the edit was
 * transformed past, and tells where it arrived and where it was applied. Refusals: 18 2 3 4 5 6 7 8 9. 5 and 7 are normal on a lossy
 * line: drop the message. */
uint64_t lub_client_take(uint8_t *end, size_t end_length, const uint8_t *message, size_t message_length);

/* Writes a packet for the server: the messages of all pending edits in number order, end to end, into `out` from `offset` on, up to the
 * first that does not fit before the end of `out`. Counts the bytes written, at most LUB_PACKED_BYTES. The bytes before and behind them
 * stay: an acknowledgement may stand in front. Nothing pending writes nothing and is no refusal, at any offset, past the end too. Changes
 * no end, and may be repeated. `line` is the client's own. Refusals: 18 2 4 14. 14: something is pending, and the first message does not
 * fit. */
uint64_t lub_client_pack(const uint8_t *end, size_t end_length, uint8_t line, uint8_t *out, size_t out_length, size_t offset);

/* Takes a packet of the server: its messages one after another, up to the first that is refused. Answers that refusal, or 0, and counts
 * the messages taken, beside a refusal too; it has no positions. The end is as after those that were taken; if none was, no byte has
 * changed. Refusals: 18 2 15, then those of lub_client_take. 3: a message with fields out of range, a byte that is no message's first,
 * or a message that is cut off at the packet's end. 5: the packet, or its front, was taken before. */
uint64_t lub_client_take_packet(uint8_t *end, size_t end_length, const uint8_t *packet, size_t packet_length);

/* Takes the one message of a packet that begins at `offset`, 0 for the first, as lub_client_take does: to learn of each edit where it was
 * applied, or to pass over a message that is refused. lub_read tells how many bytes it has: the next one begins behind them. Refusals:
 * 18 2 15 3 4 5 6 7 8 9. 3: no message begins there, as at the packet's end and past it. A refusal changes no byte. */
uint64_t lub_client_take_at(uint8_t *end, size_t end_length, const uint8_t *packet, size_t packet_length, size_t offset);

/* ---- the server
 * `end` is the server's end: LUB_SERVER_BYTES lent bytes. */

/* Opens the server's end for n clients with the ranks and the opening list. Each client is opened with the same: other ranks at one end,
 * and the copies need not agree. Refusals: 18 1 16. */
uint64_t lub_server_open(uint8_t *end, size_t end_length, uint8_t n, const uint8_t *ranks, size_t ranks_length, const uint8_t *items,
                         size_t items_length);

/* Writes the message of edit `number` pending on `line` into `out`, for that line's client. It says which client made the edit, and
 * which of that client's edits it was. Counts the bytes written. Changes no end. Refusals: 18 2 4 13 14. */
uint64_t lub_server_send(const uint8_t *end, size_t end_length, uint8_t line, uint16_t number, uint8_t *out, size_t out_length);

/* Writes an acknowledgement of all edits taken on `line` into `out`, for its client. Counts the bytes written. Refusals: 18 2 4 14. */
uint64_t lub_server_acknowledge(const uint8_t *end, size_t end_length, uint8_t line, uint8_t *out, size_t out_length);

/* Takes one message of a client: an edit, which is applied and then pending on every other line, or an acknowledgement. Counts the
 * pending edits that the edit was transformed past, and tells where it arrived and where it was applied. Refusals: 18 2 3 4 5 6 7 8 9 10
 * 12. */
uint64_t lub_server_take(uint8_t *end, size_t end_length, const uint8_t *message, size_t message_length);

/* Writes a packet of the edits pending on `line` for its client, as lub_client_pack does. Counts the bytes written. Changes no end.
 * Refusals: 18 2 4 14. */
uint64_t lub_server_pack(const uint8_t *end, size_t end_length, uint8_t line, uint8_t *out, size_t out_length, size_t offset);

/* Takes a packet of a client, as lub_client_take_packet does; it may hold messages of several lines. Answers the first refusal, or 0, and
 * counts the messages taken. Refusals: 18 2 15, then those of lub_server_take. 12: the messages before it are taken; the bay sends the
 * rest again. */
uint64_t lub_server_take_packet(uint8_t *end, size_t end_length, const uint8_t *packet, size_t packet_length);

/* Takes the one message of a packet that begins at `offset`, as lub_server_take does; lub_read tells how many bytes it has. Refusals: 18 2
 * 15 3 4 5 6 7 8 9 10 12. A refusal changes no byte. */
uint64_t lub_server_take_at(uint8_t *end, size_t end_length, const uint8_t *packet, size_t packet_length, size_t offset);

/* ---- the lengths as the library has them, and the run program */

uint64_t lub_client_bytes(void);
uint64_t lub_server_bytes(void);

/* The run program in memory, with line numbers as ranks: reads a script of at most 65,536 bytes, writes what it prints, and returns how
 * many bytes that is. What does not fit is left out; LUB_RUN_BYTES always suffice. */
uint64_t lub_run(const uint8_t *input, size_t input_length, uint8_t *out, size_t out_length);

/* ---- an answer taken apart */

static inline unsigned lub_refusal(uint64_t answer) { return (unsigned)(answer & 0xff); }

static inline unsigned lub_count(uint64_t answer) { return (unsigned)(answer >> 8 & 0xffff); }

/* Of a taking: the position of the edit in its message, and the position at which it was applied here. Each pending edit that it passed
 * moved it up by one, down by one or not at all; or it was a delete whose item is gone, which arrives at a position and is applied at
 * none, 0. An edit that became nothing before has 0 for both, and so have a refusal, an acknowledgement, a whole packet and every call
 * but a taking. */
static inline unsigned lub_arrived(uint64_t answer) { return (unsigned)(answer >> 24 & 0xffff); }

static inline unsigned lub_applied(uint64_t answer) { return (unsigned)(answer >> 40 & 0xffff); }

/* Of a taking by an offset: how many bytes of the packet the message has; 0 at a refusal. */
static inline unsigned lub_read(uint64_t answer) { return (unsigned)(answer >> 56); }

/* ---- a packet taken apart */

/* How many bytes the message at an offset of a packet has, taken or refused: its first byte tells. What begins with no message's first
 * byte, or is cut off, has the rest of the packet; at its end and past it there is none, 0. */
static inline size_t lub_message_length(const uint8_t *packet, size_t packet_length, size_t offset) {
    size_t rest = offset < packet_length ? packet_length - offset : 0;
    unsigned kind = rest > 0 ? packet[offset] : 0;
    size_t length = kind == 4 ? 5 : kind == 5 ? 17 : kind == 7 ? 12 : kind == 8 ? 10 : rest;
    return length < rest ? length : rest;
}

/* ---- reading an end (docs/LAYOUT.md)
 * These ask nothing of the bytes: the end has to be one that the last call on it left. A position outside the list reads 0. */

static inline uint32_t lub_word(const uint8_t *end, size_t word) {
    const uint8_t *at = end + 4 * word;
    return (uint32_t)at[0] | (uint32_t)at[1] << 8 | (uint32_t)at[2] << 16 | (uint32_t)at[3] << 24;
}

/* The word of a position from 1 among those of the list that begin at word `first`. */
static inline uint32_t lub_place(const uint8_t *end, size_t first, unsigned position) {
    return position < 1 || position > LUB_ITEMS ? 0 : lub_word(end, first + position - 1);
}

/* The rank that a line from 1 to 8 was opened with; 0 past n. */
static inline unsigned lub_rank(const uint8_t *end, unsigned line) { return line < 1 || line > LUB_LINES ? 0 : end[12 + line - 1]; }

static inline unsigned lub_client_rank(const uint8_t *end, unsigned line) { return lub_rank(end, line); }

static inline unsigned lub_server_rank(const uint8_t *end, unsigned line) { return lub_rank(end, line); }

/* How many items the list has, the item at a position from 1, the line of the client that put it there and the number of that client's
 * edit. An item of the opening list has line 0 and its place in that list as number. */
static inline unsigned lub_client_length(const uint8_t *end) { return (unsigned)lub_word(end, 2); }

static inline uint32_t lub_client_item(const uint8_t *end, unsigned position) { return lub_place(end, 12, position); }

static inline unsigned lub_client_maker(const uint8_t *end, unsigned position) { return (unsigned)(lub_place(end, 652, position) >> 16); }

static inline unsigned lub_client_maker_number(const uint8_t *end, unsigned position) {
    return (unsigned)(lub_place(end, 652, position) & 0xffff);
}

/* The running time of the list: the seconds of its items together. An item's seconds are its low 12 bits; the other 20 are its code. */
static inline uint32_t lub_client_total(const uint8_t *end) { return lub_word(end, 9); }

/* Edits made here, edits taken, and how many of those made the server has acknowledged: numbers acked + 1 to made are pending. */
static inline unsigned lub_client_made(const uint8_t *end) { return (unsigned)lub_word(end, 5); }

static inline unsigned lub_client_taken(const uint8_t *end) { return (unsigned)lub_word(end, 6); }

static inline unsigned lub_client_acked(const uint8_t *end) { return (unsigned)lub_word(end, 7); }

static inline unsigned lub_server_length(const uint8_t *end) { return (unsigned)lub_word(end, 2); }

static inline uint32_t lub_server_item(const uint8_t *end, unsigned position) { return lub_place(end, 38, position); }

static inline unsigned lub_server_maker(const uint8_t *end, unsigned position) { return (unsigned)(lub_place(end, 1574, position) >> 16); }

static inline unsigned lub_server_maker_number(const uint8_t *end, unsigned position) {
    return (unsigned)(lub_place(end, 1574, position) & 0xffff);
}

static inline uint32_t lub_server_total(const uint8_t *end) { return lub_word(end, 37); }

/* Of a line from 1 to 8: edits made for it, edits taken on it, and how many of those made its client has acknowledged. */
static inline unsigned lub_server_count(const uint8_t *end, unsigned line, size_t which) {
    return line < 1 || line > LUB_LINES ? 0 : (unsigned)lub_word(end, 5 + 4 * ((size_t)line - 1) + which);
}

static inline unsigned lub_server_made(const uint8_t *end, unsigned line) { return lub_server_count(end, line, 0); }

static inline unsigned lub_server_taken(const uint8_t *end, unsigned line) { return lub_server_count(end, line, 1); }

static inline unsigned lub_server_acked(const uint8_t *end, unsigned line) { return lub_server_count(end, line, 2); }

#ifdef __cplusplus
}
#endif

#endif
