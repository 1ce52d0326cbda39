/* What docs/INTEGRATING.md says about a network that misbehaves and about stored bytes, tried with the exported calls. Prints what is
 * otherwise and returns 1, or prints how many statements hold. */
#include <stdio.h>
#include <string.h>

#include "lubdranit.h"

static unsigned held;
static unsigned failed;

static void holds(const char *what, int is) {
    held++;
    if (!is) {
        failed++;
        printf("does not hold: %s\n", what);
    }
}

/* ---- a sheet of one server and three bays; a message lies in `message` until the next one is written */

#define BAYS 3

static const uint8_t ranks[BAYS] = {1, 2, 3};
static const uint8_t opening[8] = {0, 0, 0, 10, 0, 0, 0, 20};
static uint8_t server[LUB_SERVER_BYTES];
static uint8_t bays[BAYS + 1][LUB_CLIENT_BYTES]; /* bay 1 is the first */
static uint8_t message[LUB_MESSAGE_BYTES];
static size_t length;

static void open_all(const uint8_t *items, size_t items_length) {
    unsigned bay;
    holds("the server opens", lub_server_open(server, sizeof server, BAYS, ranks, BAYS, items, items_length) == 0);
    for (bay = 1; bay <= BAYS; bay++)
        holds("a bay opens", lub_client_open(bays[bay], LUB_CLIENT_BYTES, BAYS, (uint8_t)bay, ranks, BAYS, items, items_length) == 0);
}

static unsigned insert(unsigned bay, unsigned position, uint32_t item) {
    return lub_refusal(lub_client_insert(bays[bay], LUB_CLIENT_BYTES, (uint16_t)position, item));
}

static unsigned delete_first(unsigned bay) { return lub_refusal(lub_client_delete(bays[bay], LUB_CLIENT_BYTES, 1)); }

static unsigned wrote(uint64_t answer) {
    length = lub_count(answer);
    return lub_refusal(answer);
}

static unsigned bay_sends(unsigned bay, unsigned number) {
    return wrote(lub_client_send(bays[bay], LUB_CLIENT_BYTES, (uint8_t)bay, (uint16_t)number, message, sizeof message));
}

static unsigned bay_acknowledges(unsigned bay) {
    return wrote(lub_client_acknowledge(bays[bay], LUB_CLIENT_BYTES, (uint8_t)bay, message, sizeof message));
}

static unsigned server_sends(unsigned bay, unsigned number) {
    return wrote(lub_server_send(server, sizeof server, (uint8_t)bay, (uint16_t)number, message, sizeof message));
}

static unsigned server_acknowledges(unsigned bay) {
    return wrote(lub_server_acknowledge(server, sizeof server, (uint8_t)bay, message, sizeof message));
}

static unsigned server_takes(void) { return lub_refusal(lub_server_take(server, sizeof server, message, length)); }

static unsigned bay_takes(unsigned bay) { return lub_refusal(lub_client_take(bays[bay], LUB_CLIENT_BYTES, message, length)); }

static unsigned up(unsigned bay, unsigned number) {
    holds("a bay writes its edit", bay_sends(bay, number) == 0);
    return server_takes();
}

static unsigned down(unsigned bay, unsigned number) {
    holds("the server writes an edit", server_sends(bay, number) == 0);
    return bay_takes(bay);
}

static int lists_equal(unsigned bay) {
    unsigned i;
    if (lub_client_length(bays[bay]) != lub_server_length(server))
        return 0;
    for (i = 1; i <= lub_server_length(server); i++)
        if (lub_client_item(bays[bay], i) != lub_server_item(server, i))
            return 0;
    return 1;
}

static int counts_equal(unsigned bay) {
    return lub_client_made(bays[bay]) == lub_server_taken(server, bay) && lub_client_taken(bays[bay]) == lub_server_made(server, bay);
}

/* ---- when to acknowledge */

/* The acknowledgement got lost: the edit comes again, is refused with 5, and only a further acknowledgement ends that. */
static void a_repeat_is_answered(void) {
    open_all(opening, sizeof opening);
    holds("bay 1 inserts", insert(1, 1, 101) == 0 && up(1, 1) == 0);
    holds("bay 2 takes it", down(2, 1) == 0);
    holds("it comes again: 5", down(2, 1) == LUB_REFUSED_REPEAT);
    holds("the server keeps it meanwhile", lub_server_acked(server, 2) == 0 && lub_server_made(server, 2) == 1);
    holds("an acknowledgement ends it", bay_acknowledges(2) == 0 && server_takes() == 0);
    holds("now it is not pending: 13", server_sends(2, 1) == LUB_REFUSED_NOT_PENDING);
}

/* An edit that is early is refused with 6 and taken when the missing one has come. */
static void a_gap_closes(void) {
    open_all(opening, sizeof opening);
    holds("bay 1 inserts two", insert(1, 1, 101) == 0 && insert(1, 1, 102) == 0);
    holds("the second comes first: 6", up(1, 2) == LUB_REFUSED_GAP);
    holds("then the first", up(1, 1) == 0);
    holds("and the second again", up(1, 2) == 0);
}

/* An edit that was written before a later acknowledgement and arrives behind it is refused with 7; written again, it is taken. */
static void overtaken(void) {
    uint8_t early[LUB_MESSAGE_BYTES];
    size_t early_length;
    open_all(opening, sizeof opening);
    holds("bay 2 inserts, and it goes up", insert(2, 1, 201) == 0 && up(2, 1) == 0);
    holds("bay 1 inserts and writes", insert(1, 1, 101) == 0 && bay_sends(1, 1) == 0);
    memcpy(early, message, sizeof early);
    early_length = length;
    holds("bay 1 takes bay 2's and acknowledges", down(1, 1) == 0 && bay_acknowledges(1) == 0 && server_takes() == 0);
    memcpy(message, early, sizeof early);
    length = early_length;
    holds("the early one: 7", server_takes() == LUB_REFUSED_OVERTAKEN);
    holds("written again", up(1, 1) == 0);
}

/* Bays 1 and 2 are 64 behind and send nothing but edits: the server refuses both for ever, since it reads nothing from a refused edit. */
static void two_full_lines(void) {
    unsigned i;
    open_all(opening, sizeof opening);
    for (i = 1; i <= LUB_PENDING; i++)
        holds("bay 3 edits", (i <= LUB_INSERTS ? insert(3, 1, 300 + i) : delete_first(3)) == 0 && up(3, i) == 0);
    holds("one more of bay 3 waits", server_acknowledges(3) == 0 && bay_takes(3) == 0 && delete_first(3) == 0);
    holds("12: two lines are full", up(3, 65) == LUB_REFUSED_PENDING);
    for (i = 1; i <= LUB_PENDING; i++)
        holds("bays 1 and 2 take all", down(1, i) == 0 && down(2, i) == 0);
    holds("bays 1 and 2 edit", insert(1, 1, 101) == 0 && insert(2, 1, 201) == 0);
    for (i = 1; i <= 3; i++)
        holds("neither is taken", up(1, 1) == LUB_REFUSED_PENDING && up(2, 1) == LUB_REFUSED_PENDING);
    holds("bay 2 acknowledges by itself", bay_acknowledges(2) == 0 && server_takes() == 0);
    holds("bay 1's is taken, then bay 2's", up(1, 1) == 0 && up(2, 1) == 0);
    holds("and bay 3's", up(3, 65) == 0);
}

/* A bay that is away stops the others: after 64 edits the server takes none. */
static void a_bay_away(void) {
    unsigned i;
    open_all(opening, sizeof opening);
    for (i = 1; i <= LUB_PENDING; i++) {
        holds("bay 1 edits", (i <= LUB_INSERTS ? insert(1, 1, 100 + i) : delete_first(1)) == 0 && up(1, i) == 0);
        holds("bay 2 follows", down(2, i) == 0 && bay_acknowledges(2) == 0 && server_takes() == 0);
    }
    holds("edit 65 at the bay itself: 12", delete_first(1) == LUB_REFUSED_PENDING);
    holds("after an acknowledgement it is made", server_acknowledges(1) == 0 && bay_takes(1) == 0 && delete_first(1) == 0);
    holds("bay 3 took nothing: 12", up(1, 65) == LUB_REFUSED_PENDING);
    holds("bay 2's too", insert(2, 1, 201) == 0 && up(2, 1) == LUB_REFUSED_PENDING);
}

/* ---- packets, each with an acknowledgement in front */

static uint8_t packet[LUB_PACKET_BYTES];
static size_t packet_length;

static void bay_packs(unsigned bay) {
    packet_length = lub_count(lub_client_acknowledge(bays[bay], LUB_CLIENT_BYTES, (uint8_t)bay, packet, sizeof packet));
    packet_length += lub_count(lub_client_pack(bays[bay], LUB_CLIENT_BYTES, (uint8_t)bay, packet, sizeof packet, packet_length));
}

static void server_packs(unsigned bay) {
    packet_length = lub_count(lub_server_acknowledge(server, sizeof server, (uint8_t)bay, packet, sizeof packet));
    packet_length += lub_count(lub_server_pack(server, sizeof server, (uint8_t)bay, packet, sizeof packet, packet_length));
}

static uint64_t server_takes_packet(void) { return lub_server_take_packet(server, sizeof server, packet, packet_length); }

static unsigned server_takes_at(size_t offset) {
    return lub_refusal(lub_server_take_at(server, sizeof server, packet, packet_length, offset));
}

static uint64_t bay_takes_packet(unsigned bay) { return lub_client_take_packet(bays[bay], LUB_CLIENT_BYTES, packet, packet_length); }

/* Takes the packet at a bay, or at the server, message by message, and goes on behind a repeat: the refusal that stopped it, or 0. */
static unsigned takes_what_is_new(unsigned bay) {
    size_t offset;
    for (offset = 0; offset < packet_length; offset += lub_message_length(packet, packet_length, offset)) {
        uint64_t answer = bay == 0 ? lub_server_take_at(server, sizeof server, packet, packet_length, offset)
                                   : lub_client_take_at(bays[bay], LUB_CLIENT_BYTES, packet, packet_length, offset);
        if (lub_refusal(answer) != 0 && lub_refusal(answer) != LUB_REFUSED_REPEAT)
            return lub_refusal(answer);
    }
    return 0;
}

/* A lost packet is written again, a repeated one changes nothing but that its acknowledgement is taken again. */
static void a_packet_lost_and_repeated(void) {
    uint8_t before[LUB_SERVER_BYTES];
    uint64_t answer;
    open_all(opening, sizeof opening);
    holds("bay 1 inserts two", insert(1, 1, 101) == 0 && insert(1, 1, 102) == 0);
    bay_packs(1);
    holds("lost; bay 1 inserts one more", insert(1, 1, 103) == 0);
    bay_packs(1);
    holds("the next packet has all three", packet_length == 5 + 3 * 17);
    answer = server_takes_packet();
    holds("four messages are taken", lub_refusal(answer) == 0 && lub_count(answer) == 4);
    memcpy(before, server, sizeof before);
    answer = server_takes_packet();
    holds("again: the acknowledgement, then 5", lub_refusal(answer) == LUB_REFUSED_REPEAT && lub_count(answer) == 1);
    holds("and nothing changed", memcmp(before, server, sizeof before) == 0);
}

/* The acknowledgement got lost, and the bay made one more edit: its packet begins with what was taken before. */
static void a_front_taken_before(void) {
    uint64_t answer;
    open_all(opening, sizeof opening);
    holds("bay 1 inserts two", insert(1, 1, 101) == 0 && insert(1, 1, 102) == 0);
    bay_packs(1);
    holds("they are taken", lub_count(server_takes_packet()) == 3);
    holds("the answer is lost; bay 1 inserts one more", insert(1, 1, 103) == 0);
    bay_packs(1);
    answer = server_takes_packet();
    holds("5 stops the packet", lub_refusal(answer) == LUB_REFUSED_REPEAT && lub_server_taken(server, 1) == 2);
    holds("message by message the new one is taken", takes_what_is_new(0) == 0 && lub_server_taken(server, 1) == 3);
    holds("bay 1 inserts one more", insert(1, 1, 104) == 0);
    server_packs(1);
    holds("or an acknowledgement arrives", lub_refusal(bay_takes_packet(1)) == 0);
    bay_packs(1);
    holds("and the next packet has the new one alone", packet_length == 5 + 17 && lub_refusal(server_takes_packet()) == 0);
    holds("all four are there", lub_server_taken(server, 1) == 4 && lists_equal(1));
}

/* A packet that a newer one has overtaken: 7 at its acknowledgement, and nothing of it is needed. */
static void a_packet_overtaken(void) {
    uint8_t early[LUB_PACKET_BYTES];
    size_t early_length;
    open_all(opening, sizeof opening);
    holds("bay 2 inserts, and it goes up", insert(2, 1, 201) == 0 && up(2, 1) == 0);
    holds("bay 1 inserts", insert(1, 1, 101) == 0);
    bay_packs(1);
    memcpy(early, packet, sizeof early);
    early_length = packet_length;
    server_packs(1);
    holds("bay 1 takes bay 2's", lub_refusal(bay_takes_packet(1)) == 0);
    bay_packs(1);
    holds("its newer packet is taken", lub_count(server_takes_packet()) == 2);
    memcpy(packet, early, sizeof early);
    packet_length = early_length;
    holds("the early one: 7", server_takes_packet() == LUB_REFUSED_OVERTAKEN);
    holds("its edit was taken: 5", server_takes_at(5) == LUB_REFUSED_REPEAT);
}

/* Another bay is 62 behind: of four edits in a packet two are taken, then 12, and behind it 6. The acknowledgement in front is taken whatever follows, so two
 * full lines do not wait for each other. */
static void a_packet_in_part(void) {
    uint64_t answer;
    unsigned i;
    open_all(opening, sizeof opening);
    for (i = 1; i <= LUB_PENDING - 2; i++)
        holds("bay 1 edits", (i <= LUB_INSERTS ? insert(1, 1, 100 + i) : delete_first(1)) == 0);
    bay_packs(1);
    holds("62 edits in one packet", lub_count(server_takes_packet()) == LUB_PENDING - 1);
    server_packs(1);
    holds("bay 1 is told", lub_refusal(bay_takes_packet(1)) == 0);
    for (i = 1; i <= 4; i++)
        holds("bay 1 deletes", delete_first(1) == 0);
    bay_packs(1);
    answer = server_takes_packet();
    holds("an acknowledgement and two edits, then 12", lub_refusal(answer) == LUB_REFUSED_PENDING && lub_count(answer) == 3);
    holds("and 6 behind it", server_takes_at(5 + 3 * 12) == LUB_REFUSED_GAP);
    server_packs(2);
    holds("bay 2 takes all", lub_count(bay_takes_packet(2)) == LUB_PENDING + 1);
    holds("and inserts", insert(2, 1, 201) == 0);
    bay_packs(2);
    answer = server_takes_packet();
    holds("bay 3 is full: 12, but its acknowledgement is taken", lub_refusal(answer) == LUB_REFUSED_PENDING && lub_count(answer) == 1);
    server_packs(3);
    holds("bay 3 takes all", lub_count(bay_takes_packet(3)) == LUB_PENDING + 1);
    bay_packs(3);
    holds("and acknowledges", lub_refusal(server_takes_packet()) == 0);
    bay_packs(1);
    holds("bay 1's third", server_takes_at(5 + 2 * 12) == 0 && lub_server_taken(server, 1) == LUB_PENDING + 1);
}

/* Packets alone. Four are under way: a new one takes the place of one of them, which is lost; any of them arrives, late or again. What pack
 * wrote never leaves a gap, and in the end all lists are equal. */
static void packets_alone(uint32_t random) {
    static struct {
        uint8_t bytes[LUB_PACKET_BYTES];
        size_t length;
        unsigned to;
    } under_way[4];
    unsigned turn, bay, refusal, to;
    memset(under_way, 0, sizeof under_way);
    open_all(opening, sizeof opening);
    for (turn = 1; turn <= 400; turn++) {
        random = random * 1664525u + 1013904223u;
        bay = 1 + (random >> 8) % BAYS;
        to = random >> 30 & 1 ? 0 : bay;
        if (turn <= 90)
            holds("a bay inserts", insert(bay, 1 + (random >> 12) % lub_client_length(bays[bay]), turn) == 0);
        if (to == 0)
            bay_packs(bay);
        else
            server_packs(bay);
        memcpy(under_way[turn % 4].bytes, packet, sizeof packet);
        under_way[turn % 4].length = packet_length;
        under_way[turn % 4].to = to;
        memcpy(packet, under_way[random >> 16 & 3].bytes, sizeof packet);
        packet_length = under_way[random >> 16 & 3].length;
        refusal = takes_what_is_new(under_way[random >> 16 & 3].to);
        holds("0 or 7, never 6", refusal == 0 || refusal == LUB_REFUSED_OVERTAKEN);
    }
    for (bay = 1; bay <= BAYS; bay++) {
        bay_packs(bay);
        holds("what is left goes up", takes_what_is_new(0) == 0);
    }
    for (bay = 1; bay <= BAYS; bay++) {
        server_packs(bay);
        holds("and comes down", takes_what_is_new(bay) == 0);
        holds("lists and counts are equal", lists_equal(bay) && counts_equal(bay));
    }
}

/* ---- where the user points */

/* Takes edit `number` at bay 1 and says where the item at `place` is then; 0 if it is gone. */
static unsigned follow(unsigned place, unsigned number) {
    unsigned before = lub_client_length(bays[1]), after, applied;
    holds("the server writes an edit", server_sends(1, number) == 0);
    applied = lub_applied(lub_client_take(bays[1], LUB_CLIENT_BYTES, message, length));
    after = lub_client_length(bays[1]);
    if (after > before)
        return applied <= place ? place + 1 : place;
    if (after < before)
        return applied == place ? 0 : applied < place ? place - 1 : place;
    return place;
}

/* The user of bay 1 points at item 20 while edits of bay 2 arrive, with one of bay 1 pending. */
static void the_place_pointed_at(void) {
    unsigned place = 2;
    open_all(opening, sizeof opening);
    holds("bay 1 inserts at the front", insert(1, 1, 101) == 0);
    place++;
    holds("bay 2 inserts at 2, before 20", insert(2, 2, 201) == 0 && up(2, 1) == 0);
    holds("and at the end", insert(2, 4, 202) == 0 && up(2, 2) == 0);
    holds("and deletes 10", delete_first(2) == 0 && up(2, 3) == 0);
    place = follow(place, 1);
    holds("20 moved up", place == 4 && lub_client_item(bays[1], place) == 20);
    place = follow(place, 2);
    holds("20 stayed", place == 4 && lub_client_item(bays[1], place) == 20);
    place = follow(place, 3);
    holds("20 moved down", place == 3 && lub_client_item(bays[1], place) == 20);
    holds("bay 2 deletes 201, then 20", delete_first(2) == 0 && up(2, 4) == 0 && delete_first(2) == 0 && up(2, 5) == 0);
    place = follow(place, 4);
    holds("20 moved down", place == 2 && lub_client_item(bays[1], place) == 20);
    holds("20 is gone", follow(place, 5) == 0);
}

/* ---- stored bytes */

/* Bytes from before an edit that was sent: 8 at first; once the bay makes another edit under that number, nothing tells, and the lists
 * differ with equal counts. */
static void rewound_behind_an_edit(void) {
    uint8_t old[LUB_CLIENT_BYTES];
    open_all(opening, sizeof opening);
    memcpy(old, bays[1], sizeof old);
    holds("bay 1 inserts, and it goes up", insert(1, 1, 101) == 0 && up(1, 1) == 0);
    memcpy(bays[1], old, sizeof old);
    holds("the acknowledgement: 8", server_acknowledges(1) == 0 && bay_takes(1) == LUB_REFUSED_UNMADE);
    holds("another edit, under the same number", insert(1, 3, 999) == 0);
    holds("the server takes it for a repeat: 5", up(1, 1) == LUB_REFUSED_REPEAT);
    holds("and its acknowledgement is taken", server_acknowledges(1) == 0 && bay_takes(1) == 0);
    holds("counts are equal and lists are not", counts_equal(1) && !lists_equal(1));
}

/* Bytes from before an edit that was acknowledged: the server has it no more, and everything that comes is 6. */
static void rewound_behind_an_acknowledgement(void) {
    uint8_t old[LUB_CLIENT_BYTES];
    open_all(opening, sizeof opening);
    holds("bay 2 inserts two", insert(2, 1, 201) == 0 && up(2, 1) == 0 && insert(2, 1, 202) == 0 && up(2, 2) == 0);
    memcpy(old, bays[1], sizeof old);
    holds("bay 1 takes one and acknowledges", down(1, 1) == 0 && bay_acknowledges(1) == 0 && server_takes() == 0);
    memcpy(bays[1], old, sizeof old);
    holds("the next: 6", down(1, 2) == LUB_REFUSED_GAP);
    holds("the one before is gone: 13", server_sends(1, 1) == LUB_REFUSED_NOT_PENDING);
    holds("the bay's acknowledgement: 7", bay_acknowledges(1) == 0 && server_takes() == LUB_REFUSED_OVERTAKEN);
}

/* Bytes from before calls of which nothing was sent: these calls never were, and all is well. */
static void stored_before_it_was_sent(void) {
    uint8_t stored[LUB_CLIENT_BYTES];
    open_all(opening, sizeof opening);
    holds("bay 2 inserts, and it goes up", insert(2, 1, 201) == 0 && up(2, 1) == 0);
    holds("bay 1 inserts", insert(1, 1, 101) == 0);
    memcpy(stored, bays[1], sizeof stored);
    holds("stored, then sent", up(1, 1) == 0);
    holds("an edit and a taking, not stored and not sent", insert(1, 1, 102) == 0 && down(1, 1) == 0);
    memcpy(bays[1], stored, sizeof stored);
    holds("the edit comes again, then the acknowledgement", down(1, 1) == 0 && server_acknowledges(1) == 0 && bay_takes(1) == 0);
    holds("counts and lists are equal", counts_equal(1) && lists_equal(1));
}

/* The byte in which the first item of a bay's list begins: where a change of it shows. */
static unsigned first_item(unsigned line) {
    uint32_t item = lub_client_item(bays[line], 1);
    unsigned at;
    for (at = 0; at < LUB_CLIENT_BYTES; at += 4) {
        bays[line][at + 3] ^= 1;
        if (lub_client_item(bays[line], 1) != item) {
            bays[line][at + 3] ^= 1;
            return at;
        }
        bays[line][at + 3] ^= 1;
    }
    return 0;
}

static void damaged(void) {
    uint8_t zeros[LUB_CLIENT_BYTES] = {0};
    unsigned at;
    open_all(opening, sizeof opening);
    holds("bytes that were never opened: 2",
          lub_refusal(lub_client_acknowledge(zeros, sizeof zeros, 1, message, sizeof message)) == LUB_REFUSED_UNSOUND);
    bays[1][LUB_CLIENT_BYTES - 1] = 1; /* behind the list, where zeros belong */
    holds("a damaged byte: 2, to an acknowledgement too", bay_acknowledges(1) == LUB_REFUSED_UNSOUND);
    at = first_item(2);
    bays[2][at + 3] ^= 1; /* the code of the first item */
    holds("a damaged code is another end, not 2", bay_acknowledges(2) == 0);
    bays[2][at] ^= 1; /* its seconds */
    holds("damaged seconds: 2, since the total is another", bay_acknowledges(2) == LUB_REFUSED_UNSOUND);
}

/* ---- two slots of flash, and power that goes at any byte of a write */

struct slot {
    uint8_t marked; /* written last, when the rest has been read back */
    uint32_t sequence;
    uint32_t sum; /* of the end; a product uses a better one */
    uint8_t end[LUB_CLIENT_BYTES];
};

static struct slot slots[2];
static unsigned latest;    /* the slot that was read or written last */
static unsigned long left; /* bytes that can be written before the power goes */

static uint32_t sum_of(const uint8_t *end) {
    uint32_t sum = 0;
    size_t i;
    for (i = 0; i < LUB_CLIENT_BYTES; i++)
        sum = sum * 31 + end[i];
    return sum;
}

static void burn(void *to, const void *from, size_t count) {
    size_t i;
    for (i = 0; i < count && left > 0; i++, left--)
        ((uint8_t *)to)[i] = ((const uint8_t *)from)[i];
}

/* Writes the other slot. Is it complete? If not, the power has gone. */
static int store(const uint8_t *end) {
    static const uint8_t no = 0, yes = 1;
    struct slot *slot = &slots[1 - latest];
    uint32_t sequence = slots[latest].sequence + 1, sum = sum_of(end);
    burn(&slot->marked, &no, 1);
    burn(&slot->sequence, &sequence, sizeof sequence);
    burn(slot->end, end, LUB_CLIENT_BYTES);
    burn(&slot->sum, &sum, sizeof sum);
    if (left == 0 || sum_of(slot->end) != slot->sum)
        return 0;
    burn(&slot->marked, &yes, 1);
    latest = 1 - latest;
    return slot->marked && left > 0;
}

/* Reads the marked slot with the highest number. */
static int load(uint8_t *end) {
    latest = slots[1].marked && (!slots[0].marked || slots[1].sequence > slots[0].sequence);
    memcpy(end, slots[latest].end, LUB_CLIENT_BYTES);
    return slots[latest].marked && sum_of(end) == slots[latest].sum;
}

/* Bay 1 and the server exchange all that they have; bay 1 stores before it sends. Is that done, or has the power gone? */
static int exchange(void) {
    while (lub_client_taken(bays[1]) < lub_server_made(server, 1))
        holds("an edit comes down", down(1, lub_client_taken(bays[1]) + 1) == 0);
    if (!store(bays[1]))
        return 0;
    holds("bay 1 acknowledges", bay_acknowledges(1) == 0 && server_takes() == 0);
    while (lub_server_taken(server, 1) < lub_client_made(bays[1]))
        holds("an edit goes up", up(1, lub_server_taken(server, 1) + 1) == 0);
    holds("the server acknowledges", server_acknowledges(1) == 0 && bay_takes(1) == 0);
    return 1;
}

/* Both bays edit, and the power goes once, after `cut` of the bytes that bay 1 writes. */
static void power_cuts(unsigned long cut) {
    unsigned round;
    memset(slots, 0, sizeof slots);
    latest = 0;
    left = 1000000;
    open_all(opening, sizeof opening);
    holds("stored before anything is sent", store(bays[1]));
    left = cut;
    for (round = 1; round <= 6; round++) {
        holds("both insert", insert(1, 1, 100 + round) == 0 && insert(2, 2, 200 + round) == 0 && up(2, round) == 0);
        if (!exchange()) {
            memset(bays[1], 0, LUB_CLIENT_BYTES);
            holds("a whole copy is there", load(bays[1]));
            left = 1000000;
        }
    }
    left = 1000000;
    holds("all is exchanged", exchange());
    while (lub_client_taken(bays[2]) < lub_server_made(server, 2))
        holds("bay 2 takes all", down(2, lub_client_taken(bays[2]) + 1) == 0);
    holds("lists and counts are equal", lists_equal(1) && counts_equal(1) && lists_equal(2) && counts_equal(2));
}

/* ---- opening again */

/* The server's list becomes the opening list of a new sheet. */
static void opened_again(void) {
    uint8_t items[4 * LUB_INITIAL], old[LUB_MESSAGE_BYTES];
    size_t old_length;
    unsigned i, count;
    open_all(opening, sizeof opening);
    holds("bay 1 inserts, and it goes up", insert(1, 1, 101) == 0 && up(1, 1) == 0);
    memcpy(old, message, sizeof old);
    old_length = length;
    count = lub_server_length(server);
    for (i = 0; i < count; i++) {
        uint32_t item = lub_server_item(server, i + 1);
        items[4 * i] = (uint8_t)(item >> 24);
        items[4 * i + 1] = (uint8_t)(item >> 16);
        items[4 * i + 2] = (uint8_t)(item >> 8);
        items[4 * i + 3] = (uint8_t)item;
    }
    open_all(items, 4 * count);
    for (i = 1; i <= BAYS; i++)
        holds("all have the list", count == 3 && counts_equal(i) && lists_equal(i));
    memcpy(message, old, sizeof old);
    length = old_length;
    holds("a packet of the old sheet would be taken", server_takes() == 0);
    holds("and bay 1's own first edit then is a repeat", insert(1, 1, 102) == 0 && up(1, 1) == LUB_REFUSED_REPEAT);
}

int main(void) {
    unsigned long cut;
    a_repeat_is_answered();
    a_gap_closes();
    overtaken();
    two_full_lines();
    a_bay_away();
    a_packet_lost_and_repeated();
    a_front_taken_before();
    a_packet_overtaken();
    a_packet_in_part();
    for (cut = 1; cut <= 50; cut++)
        packets_alone((uint32_t)cut);
    the_place_pointed_at();
    rewound_behind_an_edit();
    rewound_behind_an_acknowledgement();
    stored_before_it_was_sent();
    damaged();
    for (cut = 1; cut < 30000; cut += 97)
        power_cuts(cut);
    opened_again();
    if (failed == 0)
        printf("integrating: %u statements hold\n", held);
    return failed != 0;
}
