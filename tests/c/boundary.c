/* The exported calls from C: the marked cases of the rule book, its edges, ranks, origins, running times, the positions that a taking
 * reports, taking back, packets, and the refusals 1, 2, 3, 4, 14, 15, 16, 17 and 18, with every lent byte compared before and after. Prints
 * what differs and returns 1, or prints how many comparisons were made. */
#include <stdio.h>
#include <string.h>

#include "lubdranit.h"

static unsigned compared;
static unsigned wrong;

static void same(const char *what, uint64_t expected, uint64_t came) {
    compared++;
    if (expected != came) {
        wrong++;
        printf("%s: expected %llu, came %llu\n", what, (unsigned long long)expected, (unsigned long long)came);
    }
}

static void same_bytes(const char *what, const uint8_t *expected, const uint8_t *came, size_t length) {
    compared++;
    if (memcmp(expected, came, length) != 0) {
        wrong++;
        printf("%s: the bytes differ\n", what);
    }
}

/* ---- a sheet of one server and up to eight clients, each end with some bytes behind its layout that nothing may touch */

#define REST 16u
#define MARK 0xa5u
#define BUFFER 20u
#define PACKET (LUB_PACKET_BYTES + 11u)

static uint8_t server[LUB_SERVER_BYTES + REST];
static uint8_t clients[LUB_LINES][LUB_CLIENT_BYTES + REST];
static uint8_t out[BUFFER];
static uint8_t packet[PACKET];

/* The same before a call, to compare with what it leaves. */
static uint8_t server_before[sizeof server];
static uint8_t client_before[sizeof clients[0]];
static uint8_t out_before[BUFFER];
static uint8_t packet_before[PACKET];

static uint8_t *client(unsigned line) { return clients[line - 1]; }

static void put_items(uint8_t *bytes, const uint32_t *items, size_t count) {
    size_t i;
    for (i = 0; i < count; i++) {
        bytes[4 * i] = (uint8_t)(items[i] >> 24);
        bytes[4 * i + 1] = (uint8_t)(items[i] >> 16);
        bytes[4 * i + 2] = (uint8_t)(items[i] >> 8);
        bytes[4 * i + 3] = (uint8_t)items[i];
    }
}

/* Line numbers as ranks. */
static const uint8_t by_line[LUB_LINES + 1] = {1, 2, 3, 4, 5, 6, 7, 8, 9};

/* Opens all ends of a sheet of n. */
static void open_ranked(unsigned n, const uint8_t *ranks, const uint32_t *items, size_t count) {
    uint8_t bytes[4 * LUB_INITIAL];
    unsigned line;
    put_items(bytes, items, count);
    memset(server, MARK, sizeof server);
    memset(clients, MARK, sizeof clients);
    same("the server opens", 0, lub_server_open(server, sizeof server, (uint8_t)n, ranks, n, bytes, 4 * count));
    for (line = 1; line <= n; line++)
        same("a client opens", 0,
             lub_client_open(client(line), sizeof clients[0], (uint8_t)n, (uint8_t)line, ranks, n, bytes, 4 * count));
}

static void open_sheet(unsigned n, const uint32_t *items, size_t count) { open_ranked(n, by_line, items, count); }

static void rest_stays(const char *what) {
    uint8_t mark[REST];
    unsigned line;
    memset(mark, MARK, sizeof mark);
    same_bytes(what, mark, server + LUB_SERVER_BYTES, REST);
    for (line = 1; line <= LUB_LINES; line++)
        same_bytes(what, mark, client(line) + LUB_CLIENT_BYTES, REST);
}

/* Client `line` sends edit `number`, and the server takes it: the answer of the taking. */
static uint64_t taken_up(unsigned line, unsigned number) {
    uint64_t sent = lub_client_send(client(line), sizeof clients[0], (uint8_t)line, (uint16_t)number, out, sizeof out);
    same("an edit is sent up", 0, lub_refusal(sent));
    return lub_server_take(server, sizeof server, out, lub_count(sent));
}

static uint64_t taken_down(unsigned line, unsigned number) {
    uint64_t sent = lub_server_send(server, sizeof server, (uint8_t)line, (uint16_t)number, out, sizeof out);
    same("an edit is sent down", 0, lub_refusal(sent));
    return lub_client_take(client(line), sizeof clients[0], out, lub_count(sent));
}

/* The same: the refusal alone. */
static unsigned up(unsigned line, unsigned number) { return lub_refusal(taken_up(line, number)); }

static unsigned down(unsigned line, unsigned number) { return lub_refusal(taken_down(line, number)); }

/* An acknowledgement is sent and taken: the answer of the taking, which is 0 in all its bits. */
static uint64_t acknowledge_up(unsigned line) {
    uint64_t sent = lub_client_acknowledge(client(line), sizeof clients[0], (uint8_t)line, out, sizeof out);
    same("an acknowledgement is sent up", 5u << 8, sent);
    return lub_server_take(server, sizeof server, out, lub_count(sent));
}

static uint64_t acknowledge_down(unsigned line) {
    uint64_t sent = lub_server_acknowledge(server, sizeof server, (uint8_t)line, out, sizeof out);
    same("an acknowledgement is sent down", 5u << 8, sent);
    return lub_client_take(client(line), sizeof clients[0], out, lub_count(sent));
}

/* The answer of taking an edit: pending edits passed, the position that arrived, the position applied. */
static uint64_t edit_taken(unsigned passed, unsigned arrived, unsigned applied) {
    return (uint64_t)passed << 8 | (uint64_t)arrived << 24 | (uint64_t)applied << 40;
}

static uint64_t insert(unsigned line, unsigned position, uint32_t item) {
    return lub_client_insert(client(line), sizeof clients[0], (uint16_t)position, item);
}

static uint64_t delete_at(unsigned line, unsigned position) {
    return lub_client_delete(client(line), sizeof clients[0], (uint16_t)position);
}

static uint64_t take_back(unsigned line) { return lub_client_take_back(client(line), sizeof clients[0]); }

/* A place of a list: the item, the line of its maker and the number of that maker's edit. */
struct place {
    uint32_t item;
    unsigned maker;
    unsigned number;
};

/* The running time of places: the low 12 bits of each item. */
static uint32_t seconds(const struct place *places, unsigned count) {
    uint32_t total = 0;
    unsigned i;
    for (i = 0; i < count; i++)
        total += places[i].item & 0xfffu;
    return total;
}

/* The list with its running time, and zeros behind it. */
static void client_shows(const char *what, unsigned line, const struct place *places, unsigned count) {
    unsigned i;
    same(what, count, lub_client_length(client(line)));
    same(what, seconds(places, count), lub_client_total(client(line)));
    for (i = 0; i <= LUB_ITEMS; i++) {
        same(what, i < count ? places[i].item : 0, lub_client_item(client(line), i + 1));
        same(what, i < count ? places[i].maker : 0, lub_client_maker(client(line), i + 1));
        same(what, i < count ? places[i].number : 0, lub_client_maker_number(client(line), i + 1));
    }
}

static void server_shows(const char *what, const struct place *places, unsigned count) {
    unsigned i;
    same(what, count, lub_server_length(server));
    same(what, seconds(places, count), lub_server_total(server));
    for (i = 0; i <= LUB_ITEMS; i++) {
        same(what, i < count ? places[i].item : 0, lub_server_item(server, i + 1));
        same(what, i < count ? places[i].maker : 0, lub_server_maker(server, i + 1));
        same(what, i < count ? places[i].number : 0, lub_server_maker_number(server, i + 1));
    }
}

/* ---- marked cases */

static void p9_and_p10(void) {
    static const uint8_t p9[17] = {5, 1, 0, 0, 1, 0, 0, 0, 1, 0, 0, 0, 0x1e, 1, 1, 0, 1};
    static const uint8_t p10[5] = {4, 2, 1, 0, 3};
    uint64_t sent;
    unsigned i;
    open_sheet(2, NULL, 0);
    same("P9: the insert", 0, insert(1, 1, 30));
    memset(out, MARK, sizeof out);
    sent = lub_client_send(client(1), sizeof clients[0], 1, 1, out, sizeof out);
    same("P9: no refusal, 17 bytes", 17u << 8, sent);
    same_bytes("P9", p9, out, sizeof p9);
    same("P9: the byte behind stays", MARK, out[17]);
    for (i = 1; i <= 3; i++) {
        same("P10: an insert", 0, insert(2, 1, i));
        same("P10: it goes up", 0, up(2, i));
    }
    memset(out, MARK, sizeof out);
    sent = lub_server_acknowledge(server, sizeof server, 2, out, sizeof out);
    same("P10: no refusal, 5 bytes", 5u << 8, sent);
    same_bytes("P10", p10, out, sizeof p10);
    same("P10: the byte behind stays", MARK, out[5]);
}

static void p11(void) {
    static const char input[] = "lines 2 items 10 20\n1 ins 1 30\n2 del 2\n1 up 1\n2 up 1\n1 down 1\n2 down 1\n";
    static const char output[] = "0\n0\n0\n0\n0\n0\n0\nserver 30 10\nclient 1 30 10\nclient 2 30 10\n";
    static const uint32_t opening[2] = {10, 20};
    static const struct place both[2] = {{30, 1, 1}, {10, 0, 1}};
    static uint8_t printed[LUB_RUN_BYTES];
    uint64_t length = lub_run((const uint8_t *)input, sizeof input - 1, printed, sizeof printed);
    same("P11: bytes printed", sizeof output - 1, length);
    same_bytes("P11: printed", (const uint8_t *)output, printed, sizeof output - 1);
    open_sheet(2, opening, 2);
    same("P11: client 1 inserts", 0, insert(1, 1, 30));
    same("P11: client 2 deletes", 0, delete_at(2, 2));
    same("P11: up", edit_taken(0, 1, 1), taken_up(1, 1));
    same("P11: up, behind the insert", edit_taken(1, 2, 3), taken_up(2, 1));
    same("P11: down", edit_taken(0, 3, 3), taken_down(1, 1));
    same("P11: down", edit_taken(0, 1, 1), taken_down(2, 1));
    server_shows("P11: the server", both, 2);
    client_shows("P11: client 1", 1, both, 2);
    client_shows("P11: client 2", 2, both, 2);
    rest_stays("P11: bytes behind the layout");
}

static void p12(void) {
    static const uint32_t opening[3] = {10, 20, 30};
    static const struct place end[4] = {{40, 1, 2}, {50, 2, 1}, {20, 0, 2}, {30, 0, 3}};
    open_sheet(2, opening, 3);
    same("P12: client 1 deletes", 0, delete_at(1, 1));
    same("P12: client 1 inserts", 0, insert(1, 1, 40));
    same("P12: client 2 inserts", 0, insert(2, 2, 50));
    same("P12: client 2's goes up", edit_taken(0, 2, 2), taken_up(2, 1));
    same("P12: client 1's first goes up", edit_taken(1, 1, 1), taken_up(1, 1));
    same("P12: client 1's second goes up", edit_taken(1, 1, 1), taken_up(1, 2));
    same("P12: client 1 takes", edit_taken(0, 2, 2), taken_down(1, 1));
    same("P12: client 2 takes", edit_taken(0, 1, 1), taken_down(2, 1));
    same("P12: client 2 takes", edit_taken(0, 1, 1), taken_down(2, 2));
    server_shows("P12: the server", end, 4);
    client_shows("P12: client 1", 1, end, 4);
    client_shows("P12: client 2", 2, end, 4);
    same("P12: counts", 2, lub_client_made(client(1)));
    same("P12: counts", 1, lub_client_taken(client(1)));
    same("P12: counts", 2, lub_server_taken(server, 1));
    same("P12: counts", 1, lub_server_made(server, 1));
    same("P12: counts", 0, lub_server_acked(server, 1));
}

/* ---- ranks */

/* Client 5 has rank 1 and wins the tie against client 1, whichever of them the server takes first. */
static void lead_first(unsigned first, unsigned second) {
    static const uint8_t ranks[5] = {2, 3, 4, 5, 1};
    static const uint8_t message[17] = {5, 5, 0, 0, 1, 0, 0, 0, 2, 0, 0, 0, 50, 1, 5, 0, 1};
    static const uint32_t opening[2] = {10, 20};
    static const struct place both[4] = {{10, 0, 1}, {50, 5, 1}, {15, 1, 1}, {20, 0, 2}};
    unsigned line;
    open_ranked(5, ranks, opening, 2);
    for (line = 0; line <= LUB_LINES + 1; line++) {
        unsigned rank = line < 1 || line > 5 ? 0 : ranks[line - 1];
        same("a client's rank", rank, lub_client_rank(client(3), line));
        same("a server's rank", rank, lub_server_rank(server, line));
    }
    same("client 1 inserts", 0, insert(1, 2, 15));
    same("client 5 inserts at the same place", 0, insert(5, 2, 50));
    same("its message", 17u << 8, lub_client_send(client(5), sizeof clients[0], 5, 1, out, sizeof out));
    same_bytes("its message carries its rank", message, out, sizeof message);
    same("the first goes up", 0, up(first, 1));
    same("the second goes up", 0, up(second, 1));
    same("client 1 takes client 5's", 0, down(1, 1));
    same("client 5 takes client 1's", 0, down(5, 1));
    for (line = 2; line <= 4; line++) {
        same("another takes both", 0, down(line, 1));
        same("another takes both", 0, down(line, 2));
    }
    server_shows("the tie: the server", both, 4);
    for (line = 1; line <= 5; line++)
        client_shows("the tie: a client", line, both, 4);
    rest_stays("the tie: bytes behind the layout");
}

/* ---- edges */

static void remember(unsigned line) {
    memcpy(server_before, server, sizeof server);
    memcpy(client_before, client(line), sizeof client_before);
    memset(out, MARK, sizeof out);
    memcpy(out_before, out, sizeof out);
    memcpy(packet_before, packet, sizeof packet);
}

static void nothing_changed(const char *what, unsigned line) {
    same_bytes(what, server_before, server, sizeof server);
    same_bytes(what, client_before, client(line), sizeof client_before);
    same_bytes(what, out_before, out, sizeof out);
    same_bytes(what, packet_before, packet, sizeof packet);
}

static void refused(const char *what, unsigned line, unsigned refusal, uint64_t answer) {
    same(what, refusal, answer);
    nothing_changed(what, line);
}

/* All pending edits of client 1 go up and are acknowledged. */
static void settle(unsigned from, unsigned to) {
    unsigned number;
    for (number = from; number <= to; number++)
        same("an edit goes up", 0, up(1, number));
    same("it is acknowledged", 0, acknowledge_down(1));
}

static void positions(void) {
    static const uint32_t opening[2] = {10, 20};
    open_sheet(1, opening, 2);
    remember(1);
    refused("insert at 0", 1, LUB_REFUSED_POSITION, insert(1, 0, 5));
    refused("insert at length + 2", 1, LUB_REFUSED_POSITION, insert(1, 4, 5));
    refused("delete at length + 1", 1, LUB_REFUSED_POSITION, delete_at(1, 3));
    same("insert at length + 1", 0, insert(1, 3, 30));
}

static void forty_eight_inserts(void) {
    unsigned i;
    open_sheet(1, NULL, 0);
    for (i = 1; i <= LUB_INSERTS; i++)
        same("insert 1 to 48", 0, insert(1, 1, i));
    remember(1);
    refused("insert 49", 1, LUB_REFUSED_INSERTS, insert(1, 1, 49));
    settle(1, LUB_INSERTS);
    remember(1);
    refused("insert 49, all acknowledged", 1, LUB_REFUSED_INSERTS, insert(1, 1, 49));
}

static void sixty_four_pending(void) {
    static uint32_t opening[LUB_INITIAL];
    unsigned i;
    open_sheet(1, opening, LUB_INITIAL);
    for (i = 1; i <= LUB_PENDING; i++)
        same("64 pending", 0, delete_at(1, 1));
    remember(1);
    refused("65 pending", 1, LUB_REFUSED_PENDING, delete_at(1, 1));
    settle(1, LUB_PENDING);
    same("the 65th, all acknowledged", 0, delete_at(1, 1));
}

static void four_hundred_edits(void) {
    unsigned made = 0;
    unsigned round;
    static uint32_t opening[LUB_INITIAL];
    static uint8_t end[LUB_CLIENT_BYTES];
    open_sheet(1, opening, LUB_INITIAL);
    for (round = 0; round < 2; round++) {
        unsigned i;
        for (i = 1; i <= LUB_PENDING; i++)
            same("a delete", 0, delete_at(1, 1));
        settle(made + 1, made + LUB_PENDING);
        made += LUB_PENDING;
    }
    /* The counts are brought to 399 by hand, as a stored end might hold them: the list is then still one that question 2 lets be. */
    memcpy(end, client(1), sizeof end);
    end[20] = 399 & 255;
    end[21] = 399 >> 8;
    end[28] = 399 & 255;
    end[29] = 399 >> 8;
    same("edit 400", 0, lub_client_insert(end, sizeof end, 1, 7));
    memcpy(client(1), end, sizeof end);
    same("edit 400: its maker", 1, lub_client_maker(end, 1));
    same("edit 400: its number", 400, lub_client_maker_number(end, 1));
    remember(1);
    refused("edit 401", 1, LUB_REFUSED_EDITS, insert(1, 1, 8));
    refused("edit 401, a taking back", 1, LUB_REFUSED_EDITS, take_back(1));
}

/* Question 12 at the server, and seen at both of its edges. */
static void full_line(void) {
    static uint32_t opening[LUB_INITIAL];
    unsigned i;
    uint64_t sent;
    uint8_t old[LUB_MESSAGE_BYTES];
    size_t old_length;
    open_sheet(2, opening, LUB_INITIAL);
    sent = lub_client_acknowledge(client(2), sizeof clients[0], 2, old, sizeof old);
    old_length = lub_count(sent);
    for (i = 1; i <= LUB_PENDING; i++)
        same("a delete", 0, delete_at(1, 1));
    settle(1, LUB_PENDING);
    same("one more", 0, delete_at(1, 1));
    sent = lub_client_send(client(1), sizeof clients[0], 1, 65, out, sizeof out);
    {
        uint8_t message[LUB_MESSAGE_BYTES];
        size_t length = lub_count(sent);
        memcpy(message, out, length);
        remember(1);
        refused("line 2 is full", 1, LUB_REFUSED_PENDING, lub_server_take(server, sizeof server, message, length));
        same("client 2 takes one", 0, down(2, 1));
        same("and acknowledges it", 0, acknowledge_up(2));
        same("now it is taken", edit_taken(0, 1, 1), lub_server_take(server, sizeof server, message, length));
        remember(1);
        refused("a repeat", 1, LUB_REFUSED_REPEAT, lub_server_take(server, sizeof server, message, length));
    }
    remember(1);
    refused("seen one below acked", 1, LUB_REFUSED_OVERTAKEN, lub_server_take(server, sizeof server, old, old_length));
    same("seen equal to acked", 0, acknowledge_up(2));
    old[4] = (uint8_t)lub_server_made(server, 2);
    same("seen equal to made", 0, lub_server_take(server, sizeof server, old, old_length));
    old[4]++;
    remember(1);
    refused("seen one above made", 1, LUB_REFUSED_UNMADE, lub_server_take(server, sizeof server, old, old_length));
}

/* ---- the positions that a taking reports */

static void answers(void) {
    const uint64_t answer = 0x5a1234fedc876502u;
    same("bits 0 to 7", 0x02, lub_refusal(answer));
    same("bits 8 to 23", 0x8765, lub_count(answer));
    same("bits 24 to 39", 0xfedc, lub_arrived(answer));
    same("bits 40 to 55", 0x1234, lub_applied(answer));
    same("bits 56 to 63", 0x5a, lub_read(answer));
    same("of an edit taken", 3, lub_count(edit_taken(3, 511, 512)));
    same("of an edit taken", 511, lub_arrived(edit_taken(3, 511, 512)));
    same("of an edit taken", 512, lub_applied(edit_taken(3, 511, 512)));
}

/* Both clients delete one item: the other's delete is gone at client 2, and client 2's, written before, at the server. What client 1 then
 * takes is nothing. Repeats and early edits are refused without positions. */
static void gone(void) {
    static const uint32_t opening[3] = {10, 20, 30};
    static const struct place end[2] = {{10, 0, 1}, {30, 0, 3}};
    uint8_t message[LUB_MESSAGE_BYTES];
    size_t length;
    open_sheet(2, opening, 3);
    same("client 1 deletes", 0, delete_at(1, 2));
    same("client 2 deletes the same", 0, delete_at(2, 2));
    length = lub_count(lub_client_send(client(2), sizeof clients[0], 2, 1, message, sizeof message));
    same("the first arrives and stays", edit_taken(0, 2, 2), taken_up(1, 1));
    same("it is gone at client 2", edit_taken(1, 2, 0), taken_down(2, 1));
    same("the second is gone at the server", edit_taken(1, 2, 0), lub_server_take(server, sizeof server, message, length));
    same("nothing arrives", 0, taken_down(1, 1));
    server_shows("gone: the server", end, 2);
    client_shows("gone: client 1", 1, end, 2);
    client_shows("gone: client 2", 2, end, 2);
    remember(2);
    refused("a repeat", 2, LUB_REFUSED_REPEAT, lub_server_take(server, sizeof server, message, length));
    message[4] = 3;
    message[length - 1] = 3;
    refused("an early edit", 2, LUB_REFUSED_GAP, lub_server_take(server, sizeof server, message, length));
    message[4] = 2;
    message[length - 1] = 2;
    message[8] = 3;
    refused("past the list", 2, LUB_REFUSED_POSITION, lub_server_take(server, sizeof server, message, length));
    same("an acknowledgement", 0, acknowledge_up(2));
    same("an acknowledgement", 0, acknowledge_down(2));
}

/* A delete and an insert past two deletes and three inserts that are pending: down and up at client 1; at the server each by itself. */
static void moves(void) {
    static const uint32_t opening[9] = {1, 2, 3, 4, 5, 6, 7, 8, 9};
    uint8_t messages[5][LUB_MESSAGE_BYTES];
    size_t lengths[5];
    unsigned i;
    open_sheet(2, opening, 9);
    same("client 1 deletes", 0, delete_at(1, 1));
    same("client 1 deletes", 0, delete_at(1, 2));
    same("client 1 inserts", 0, insert(1, 1, 15));
    same("client 1 inserts", 0, insert(1, 1, 16));
    same("client 1 inserts", 0, insert(1, 4, 17));
    for (i = 0; i < 5; i++)
        lengths[i] = lub_count(lub_client_send(client(1), sizeof clients[0], 1, (uint16_t)(i + 1), messages[i], sizeof messages[i]));
    same("client 2 deletes", 0, delete_at(2, 8));
    same("client 2 inserts", 0, insert(2, 1, 18));
    same("its delete goes up", edit_taken(0, 8, 8), taken_up(2, 1));
    same("its insert goes up", edit_taken(0, 1, 1), taken_up(2, 2));
    same("the delete: down twice, up three times", edit_taken(5, 8, 9), taken_down(1, 1));
    same("the insert: up twice", edit_taken(5, 1, 3), taken_down(1, 2));
    same("client 1's: up behind the insert", edit_taken(2, 1, 2), lub_server_take(server, sizeof server, messages[0], lengths[0]));
    same("client 1's: up behind the insert", edit_taken(2, 2, 3), lub_server_take(server, sizeof server, messages[1], lengths[1]));
    same("client 1's: it goes first", edit_taken(2, 1, 1), lub_server_take(server, sizeof server, messages[2], lengths[2]));
    same("client 1's: it goes first", edit_taken(2, 1, 1), lub_server_take(server, sizeof server, messages[3], lengths[3]));
    same("client 1's: up behind the insert", edit_taken(2, 4, 5), lub_server_take(server, sizeof server, messages[4], lengths[4]));
    same("client 1's insert of 15", 15, lub_server_item(server, 2));
    same("client 2's insert of 18", 18, lub_server_item(server, 3));
    same("client 1's insert of 17", 17, lub_server_item(server, 5));
    for (i = 1; i <= lub_server_length(server); i++)
        same("the lists are one", lub_server_item(server, i), lub_client_item(client(1), i));
}

/* Positions that need more than 8 bits, up to 512: client 1's list is made that long by hand. Sixty-four deletes are pending at the front. */
static void far_positions(void) {
    static const unsigned at[6] = {512, 511, 257, 256, 255, 65};
    static uint8_t long_end[LUB_CLIENT_BYTES];
    uint8_t message[12] = {7, 1, 1, 0, 1, 0, 0, 0, 0, 2, 0, 1};
    unsigned i, passed;
    open_sheet(2, NULL, 0);
    client(1)[8] = 512 & 255;
    client(1)[9] = 512 >> 8;
    memcpy(long_end, client(1), sizeof long_end);
    for (i = 0; i < 6; i++) {
        memcpy(client(1), long_end, sizeof long_end);
        message[7] = (uint8_t)(at[i] >> 8);
        message[8] = (uint8_t)at[i];
        same("a delete far behind", edit_taken(0, at[i], at[i]), lub_client_take(client(1), sizeof clients[0], message, sizeof message));
        memcpy(client(1), long_end, sizeof long_end);
        for (passed = 1; passed <= LUB_PENDING; passed++)
            same("a delete at the front", 0, delete_at(1, 1));
        same("down 64 times", edit_taken(LUB_PENDING, at[i], at[i] - LUB_PENDING),
             lub_client_take(client(1), sizeof clients[0], message, sizeof message));
    }
}

/* ---- refusals that no order of calls brings about, or only here */

static void openings(void) {
    uint8_t items[4 * (LUB_INITIAL + 1)];
    uint8_t before[sizeof server];
    memset(items, 0, sizeof items);
    memset(server, MARK, sizeof server);
    memset(clients, MARK, sizeof clients);
    memset(before, MARK, sizeof before);
    same("128 items", 0, lub_server_open(server, sizeof server, 8, by_line, 8, items, 4 * LUB_INITIAL));
    same("128 items", 0, lub_client_open(client(8), sizeof clients[0], 8, 8, by_line, 8, items, 4 * LUB_INITIAL));
    memset(server, MARK, sizeof server);
    memset(clients, MARK, sizeof clients);
    same("n of 0", 1, lub_server_open(server, sizeof server, 0, by_line, 0, items, 0));
    same("n of 9", 1, lub_server_open(server, sizeof server, 9, by_line, 9, items, 0));
    same("129 items", 1, lub_server_open(server, sizeof server, 1, by_line, 1, items, sizeof items));
    same("a cut item", 1, lub_server_open(server, sizeof server, 1, by_line, 1, items, 7));
    same("n of 0", 1, lub_client_open(client(1), sizeof clients[0], 0, 0, by_line, 0, items, 0));
    same("line 0", 1, lub_client_open(client(1), sizeof clients[0], 2, 0, by_line, 2, items, 0));
    same("line n + 1", 1, lub_client_open(client(1), sizeof clients[0], 2, 3, by_line, 2, items, 0));
    same("129 items", 1, lub_client_open(client(1), sizeof clients[0], 2, 1, by_line, 2, items, sizeof items));
    same("a cut item", 1, lub_client_open(client(1), sizeof clients[0], 2, 1, by_line, 2, items, 1));
    same_bytes("a refused opening changes nothing", before, server, sizeof server);
    same_bytes("a refused opening changes nothing", before, client(1), sizeof clients[0]);
    items[0] = 1;
    items[3] = 2;
    same("an item, high byte first", 0, lub_client_open(client(1), sizeof clients[0], 1, 1, by_line, 1, items, 4));
    same("an item, high byte first", 0x01000002u, lub_client_item(client(1), 1));
}

/* Question 16, asked after 1 and 18: ranks that are not 1 to n, each used once. Every byte of both ends stays as it is. */
static void wrong_ranks(void) {
    static const struct {
        const char *what;
        uint8_t ranks[6];
        size_t length;
    } wrong_ones[] = {
        {"no ranks", {0}, 0},
        {"a rank too few", {1, 2, 3, 4}, 4},
        {"a rank too many", {1, 2, 3, 4, 5, 6}, 6},
        {"a zero too many", {1, 2, 3, 4, 5, 0}, 6},
        {"a rank of 0", {1, 2, 3, 4, 0}, 5},
        {"a rank of n + 1", {6, 2, 3, 4, 5}, 5},
        {"a rank of 255", {1, 2, 255, 4, 5}, 5},
        {"two ranks alike", {2, 3, 4, 5, 2}, 5},
        {"neighbours alike", {1, 2, 2, 4, 5}, 5},
        {"all alike", {1, 1, 1, 1, 1}, 5},
    };
    static uint8_t many[5 + 256] = {1, 2, 3, 4, 5};
    static uint8_t items[4 * (LUB_INITIAL + 1)];
    uint8_t *end = client(1);
    size_t i;
    open_sheet(2, NULL, 0);
    remember(1);
    for (i = 0; i < sizeof wrong_ones / sizeof wrong_ones[0]; i++) {
        const char *what = wrong_ones[i].what;
        const uint8_t *ranks = wrong_ones[i].ranks;
        size_t length = wrong_ones[i].length;
        refused(what, 1, LUB_REFUSED_RANKS, lub_server_open(server, sizeof server, 5, ranks, length, items, 8));
        refused(what, 1, LUB_REFUSED_RANKS, lub_client_open(end, sizeof clients[0], 5, 1, ranks, length, items, 8));
        refused(what, 1, 1, lub_server_open(server, sizeof server, 0, ranks, length, items, 8));
        refused(what, 1, 1, lub_server_open(server, sizeof server, 9, ranks, length, items, 8));
        refused(what, 1, 1, lub_server_open(server, sizeof server, 5, ranks, length, items, sizeof items));
        refused(what, 1, 1, lub_server_open(server, sizeof server, 5, ranks, length, items, 7));
        refused(what, 1, 1, lub_client_open(end, sizeof clients[0], 5, 0, ranks, length, items, 8));
        refused(what, 1, 1, lub_client_open(end, sizeof clients[0], 5, 6, ranks, length, items, 8));
        refused(what, 1, 1, lub_client_open(end, sizeof clients[0], 5, 1, ranks, length, items, sizeof items));
        refused(what, 1, 1, lub_client_open(end, sizeof clients[0], 5, 1, ranks, length, items, 3));
        refused(what, 1, 18, lub_server_open(server, LUB_SERVER_BYTES - 1, 5, ranks, length, items, 8));
        refused(what, 1, 18, lub_client_open(end, LUB_CLIENT_BYTES - 1, 5, 1, ranks, length, items, 8));
    }
    refused("n + 256 ranks", 1, LUB_REFUSED_RANKS, lub_server_open(server, sizeof server, 5, many, sizeof many, items, 8));
    refused("n + 256 ranks", 1, LUB_REFUSED_RANKS, lub_client_open(end, sizeof clients[0], 5, 1, many, sizeof many, items, 8));
    same("the first five of them", 0, lub_server_open(server, sizeof server, 5, many, 5, items, 8));
    same("the first five of them", 0, lub_client_open(end, sizeof clients[0], 5, 1, many, 5, items, 8));
}

/* Question 4 compares an insert's priority with ranks, of a sheet of three in which no rank is its line's number. */
static void other_ranks(void) {
    static const uint8_t ranks[3] = {2, 3, 1};
    uint8_t message[17] = {5, 1, 0, 0, 1, 0, 0, 0, 1, 0, 0, 0, 7, 0, 0, 0, 1};
    unsigned priority;
    unsigned line;
    for (line = 1; line <= 3; line++) {
        for (priority = 1; priority <= LUB_LINES; priority++) {
            unsigned own = ranks[line - 1];
            open_ranked(3, ranks, NULL, 0);
            message[1] = (uint8_t)line;
            message[13] = (uint8_t)priority;
            message[2] = 0;
            message[14] = (uint8_t)line;
            same("the rank of an insert going up", priority == own ? edit_taken(0, 1, 1) : LUB_REFUSED_MISDIRECTED,
                 lub_server_take(server, sizeof server, message, sizeof message));
            message[2] = 1;
            message[14] = (uint8_t)(line % 3 + 1);
            same("the rank of an insert coming down", priority <= 3 && priority != own ? edit_taken(0, 1, 1) : LUB_REFUSED_MISDIRECTED,
                 lub_client_take(client(line), sizeof clients[0], message, sizeof message));
        }
    }
}

/* Question 2 looks at each of the eight bytes of ranks: 1 to n, each once, zeros past n. */
static void damaged_ranks(void) {
    static const uint8_t ranks[5] = {2, 3, 4, 5, 1};
    size_t at;
    unsigned value;
    open_ranked(5, ranks, NULL, 0);
    for (at = 12; at < 12 + LUB_LINES; at++) {
        uint8_t right = at < 12 + 5 ? ranks[at - 12] : 0;
        same("a rank in a client's bytes", right, client(1)[at]);
        same("a rank in the server's bytes", right, server[at]);
        for (value = 0; value < 256; value++) {
            if (value == right)
                continue;
            client(1)[at] = (uint8_t)value;
            server[at] = (uint8_t)value;
            remember(1);
            refused("a client's rank damaged", 1, LUB_REFUSED_UNSOUND, insert(1, 1, 7));
            refused("a server's rank damaged", 1, LUB_REFUSED_UNSOUND, lub_server_acknowledge(server, sizeof server, 1, out, sizeof out));
            client(1)[at] = right;
            server[at] = right;
        }
    }
    same("as it was", 0, insert(1, 1, 7));
    /* the pending insert has rank 2: with the ranks of lines 1 and 2 exchanged it is another's */
    client(1)[12] = 3;
    client(1)[13] = 2;
    remember(1);
    refused("ranks exchanged", 1, LUB_REFUSED_UNSOUND, insert(1, 1, 8));
}

/* ---- origins */

static void opening_origins(void) {
    static uint32_t opening[LUB_INITIAL];
    static struct place places[LUB_INITIAL];
    unsigned i;
    for (i = 0; i < LUB_INITIAL; i++) {
        opening[i] = 7;
        places[i].item = 7;
        places[i].number = i + 1;
    }
    open_sheet(2, opening, LUB_INITIAL);
    server_shows("128 opening items", places, LUB_INITIAL);
    client_shows("128 opening items", 2, places, LUB_INITIAL);
    same("position 0", 0, lub_client_maker_number(client(2), 0) + lub_server_maker_number(server, 0));
}

/* A delete, an edit that became nothing and an insert, as the server sends them on: numbered on the line, with the makers' own numbers
 * behind. */
static void sent_on(void) {
    static const uint32_t opening[3] = {10, 20, 30};
    static const uint8_t first[12] = {7, 3, 1, 0, 1, 0, 0, 0, 1, 1, 0, 1};
    static const uint8_t second[10] = {8, 3, 1, 0, 2, 0, 0, 2, 0, 1};
    static const uint8_t third[17] = {5, 3, 1, 0, 3, 0, 0, 0, 1, 0, 0, 0, 40, 1, 1, 0, 2};
    static const uint8_t *const messages[3] = {first, second, third};
    static const size_t lengths[3] = {sizeof first, sizeof second, sizeof third};
    static const struct place end[3] = {{40, 1, 2}, {20, 0, 2}, {30, 0, 3}};
    unsigned i;
    open_sheet(3, opening, 3);
    same("client 1 deletes", 0, delete_at(1, 1));
    same("client 1 inserts", 0, insert(1, 1, 40));
    same("client 2 deletes the same", 0, delete_at(2, 1));
    same("up", 0, up(1, 1));
    same("up", 0, up(2, 1));
    same("up", 0, up(1, 2));
    for (i = 0; i < 3; i++) {
        remember(3);
        refused("a byte too few", 3, LUB_REFUSED_SHORT_BUFFER,
                lub_server_send(server, sizeof server, 3, (uint16_t)(i + 1), out, lengths[i] - 1));
        same("its length", (uint64_t)lengths[i] << 8, lub_server_send(server, sizeof server, 3, (uint16_t)(i + 1), out, sizeof out));
        same_bytes("an edit sent on", messages[i], out, lengths[i]);
        same("the byte behind stays", MARK, out[lengths[i]]);
        same("it is taken", 0, down(3, i + 1));
    }
    server_shows("sent on: the server", end, 3);
    client_shows("sent on: client 3", 3, end, 3);
}

/* The first edit of a line as an insert, a delete or nothing, in one direction; how many bytes it has. */
static size_t edit_message(uint8_t *message, unsigned kind, unsigned line, unsigned direction, unsigned maker, unsigned number) {
    static const uint8_t body[7] = {0, 1, 0, 0, 0, 7, 0};
    size_t length = kind == 5 ? 17 : kind == 7 ? 12 : 10;
    message[0] = (uint8_t)kind;
    message[1] = (uint8_t)line;
    message[2] = (uint8_t)direction;
    message[3] = 0;
    message[4] = 1;
    message[5] = 0;
    message[6] = 0;
    memcpy(message + 7, body, sizeof body);
    /* an insert has the rank of the line going up, and another's coming down */
    message[13] = (uint8_t)(direction == 0 ? line : line % 3 + 1);
    message[length - 3] = (uint8_t)maker;
    message[length - 2] = (uint8_t)(number >> 8);
    message[length - 1] = (uint8_t)number;
    return length;
}

/* Its answer where nothing is pending: it stands at position 1, unless it is nothing. */
static uint64_t message_taken(unsigned kind) { return kind == 5 || kind == 7 ? edit_taken(0, 1, 1) : 0; }

static int origin_in_range(unsigned maker, unsigned number) {
    return maker >= 1 && maker <= LUB_LINES && number >= 1 && number <= LUB_EDITS;
}

/* Going up, maker and number are the message's own line and number, 1; asked before 5. */
static void maker_up(unsigned kind, unsigned line, unsigned maker, unsigned number) {
    uint8_t message[LUB_MESSAGE_BYTES];
    size_t length = edit_message(message, kind, line, 0, maker, number);
    int own = maker == line && number == 1;
    remember(line);
    if (!own) {
        refused("the maker of an edit going up", line, origin_in_range(maker, number) ? 4 : 3,
                lub_server_take(server, sizeof server, message, length));
        return;
    }
    same("the sender's own edit", message_taken(kind), lub_server_take(server, sizeof server, message, length));
    length = edit_message(message, kind, line, 0, line, 2);
    remember(line);
    refused("4 comes before 5", line, LUB_REFUSED_MISDIRECTED, lub_server_take(server, sizeof server, message, length));
}

/* Coming down, the maker is another line of 1 to n; its number may be any. */
static void maker_down(unsigned n, unsigned kind, unsigned line, unsigned maker, unsigned number) {
    uint8_t message[LUB_MESSAGE_BYTES];
    size_t length = edit_message(message, kind, line, 1, maker, number);
    remember(line);
    if (!origin_in_range(maker, number) || maker > n || maker == line) {
        refused("the maker of an edit coming down", line, origin_in_range(maker, number) ? 4 : 3,
                lub_client_take(client(line), sizeof clients[0], message, length));
        return;
    }
    same("another's edit", message_taken(kind), lub_client_take(client(line), sizeof clients[0], message, length));
    if (kind == 5) {
        same("the maker on the list", maker, lub_client_maker(client(line), 1));
        same("its number on the list", number, lub_client_maker_number(client(line), 1));
    }
}

/* Questions 3 and 4 of every maker and of numbers at their edges, for every kind, up from each line of three and down to it. */
static void makers(void) {
    static const unsigned kinds[3] = {5, 7, 8};
    static const unsigned numbers[8] = {0, 1, 2, 257, 399, 400, 401, 65535};
    static const uint32_t opening[1] = {10};
    unsigned line, maker, i, k;
    for (line = 1; line <= 3; line++)
        for (k = 0; k < 3; k++)
            for (maker = 0; maker <= 10; maker++)
                for (i = 0; i < 8; i++) {
                    open_sheet(3, opening, 1);
                    maker_up(kinds[k], line, maker, numbers[i]);
                    maker_down(3, kinds[k], line, maker, numbers[i]);
                }
}

/* The kind byte alone fixes the length: of 256 kinds and all lengths, only the four that are messages are taken. */
static void kinds(void) {
    unsigned kind;
    size_t length;
    uint8_t message[BUFFER];
    uint8_t ack[5] = {4, 1, 0, 0, 0};
    for (kind = 0; kind < 256; kind++) {
        for (length = 0; length <= BUFFER; length++) {
            static const uint32_t opening[1] = {10};
            int right = (kind == 5 && length == 17) || (kind == 7 && length == 12) || (kind == 8 && length == 10) || (kind == 4 && length == 5);
            size_t shape = length == 12 || length == 9 ? 7 : length == 10 || length == 7 ? 8 : 5;
            open_sheet(1, opening, 1);
            memset(message, 0, sizeof message);
            edit_message(message, (unsigned)shape, 1, 0, 1, 1);
            if (length == 5)
                memcpy(message, ack, sizeof ack);
            message[0] = (uint8_t)kind;
            remember(1);
            if (right)
                same("a message", message_taken(kind), lub_server_take(server, sizeof server, message, length));
            else
                refused("no kind, or another length", 1, LUB_REFUSED_NO_MESSAGE, lub_server_take(server, sizeof server, message, length));
        }
    }
}

static void put_word(uint8_t *end, size_t word, uint32_t value) {
    end[4 * word] = (uint8_t)value;
    end[4 * word + 1] = (uint8_t)(value >> 8);
    end[4 * word + 2] = (uint8_t)(value >> 16);
    end[4 * word + 3] = (uint8_t)(value >> 24);
}

/* One word of the server's end with another value: whether question 2 lets it be. */
static void server_word(const char *what, size_t word, uint32_t value, unsigned refusal) {
    uint32_t right = lub_word(server, word);
    uint8_t message[LUB_MESSAGE_BYTES];
    put_word(server, word, value);
    remember(1);
    same(what, refusal, lub_refusal(lub_server_acknowledge(server, sizeof server, 2, message, sizeof message)));
    nothing_changed(what, 1);
    put_word(server, word, right);
}

static void client_word(const char *what, size_t word, uint32_t value, unsigned refusal) {
    uint32_t right = lub_word(client(1), word);
    uint8_t message[LUB_MESSAGE_BYTES];
    put_word(client(1), word, value);
    remember(1);
    same(what, refusal, lub_refusal(lub_client_acknowledge(client(1), sizeof clients[0], 1, message, sizeof message)));
    nothing_changed(what, 1);
    put_word(client(1), word, right);
}

#define ORIGIN(maker, number) ((uint32_t)(maker) << 16 | (uint32_t)(number))

/* Question 2 of origins: those of the server's pending edits, of nothings too; on the lists, zeros past the end. */
static void damaged_origins(void) {
    static const uint32_t opening[2] = {10, 20};
    const size_t line_2 = 2086 + LUB_PENDING;
    size_t slot;
    unsigned line;
    open_sheet(3, opening, 2);
    same("client 1 deletes", 0, delete_at(1, 1));
    same("client 3 deletes the same", 0, delete_at(3, 1));
    same("client 1 inserts", 0, insert(1, 1, 30));
    same("up", 0, up(1, 1));
    same("up", 0, up(3, 1));
    same("up", 0, up(1, 2));
    same("pending on line 2: the delete of client 1", ORIGIN(1, 1), lub_word(server, line_2));
    same("the nothing of client 3", ORIGIN(3, 1), lub_word(server, line_2 + 1));
    same("and the insert of client 1", ORIGIN(1, 2), lub_word(server, line_2 + 2));
    /* an insert's rank and its maker are not compared with each other */
    for (slot = 0; slot < 3; slot++) {
        server_word("maker 1", line_2 + slot, ORIGIN(1, 1), 0);
        server_word("maker 3, number 400", line_2 + slot, ORIGIN(3, 400), 0);
        server_word("no origin", line_2 + slot, 0, 2);
        server_word("maker 0", line_2 + slot, ORIGIN(0, 1), 2);
        server_word("the line's own maker", line_2 + slot, ORIGIN(2, 1), 2);
        server_word("maker n + 1", line_2 + slot, ORIGIN(4, 1), 2);
        server_word("maker 8", line_2 + slot, ORIGIN(8, 1), 2);
        server_word("maker 9", line_2 + slot, ORIGIN(9, 1), 2);
        server_word("maker 257", line_2 + slot, ORIGIN(257, 1), 2);
        server_word("number 0", line_2 + slot, ORIGIN(1, 0), 2);
        server_word("number 401", line_2 + slot, ORIGIN(1, 401), 2);
        server_word("number 65535", line_2 + slot, ORIGIN(1, 65535), 2);
        server_word("the top bit", line_2 + slot, 0x80000000u | ORIGIN(1, 1), 2);
    }
    for (slot = 3; slot < LUB_PENDING; slot++)
        server_word("an origin past the pending edits", line_2 + slot, ORIGIN(1, 1), 2);
    for (line = 4; line <= LUB_LINES; line++)
        server_word("an origin of a line past n", 2086 + LUB_PENDING * (size_t)(line - 1), ORIGIN(1, 1), 2);
    server_word("any origin on the list", 1574, 0xffffffffu, 0);
    client_word("any origin on the list", 652, 0xffffffffu, 0);
    for (slot = 2; slot < LUB_ITEMS; slot++) {
        server_word("an origin past the list's end", 1574 + slot, ORIGIN(0, slot + 1), 2);
        client_word("an origin past the list's end", 652 + slot, ORIGIN(0, slot + 1), 2);
    }
    same("as it was", 0, down(2, 1));
    same("client 2 acknowledges", 0, acknowledge_up(2));
    same("the second origin comes first", ORIGIN(3, 1), lub_word(server, line_2));
    same("then the third", ORIGIN(1, 2), lub_word(server, line_2 + 1));
    same("then zero", 0, lub_word(server, line_2 + 2));
    same("client 2 takes the second", 0, down(2, 2));
    same("and edits", 0, delete_at(2, 1));
    same("which says what it has seen", 0, up(2, 1));
    same("the third origin comes first", ORIGIN(1, 2), lub_word(server, line_2));
    same("then zero", 0, lub_word(server, line_2 + 1));
}

static void damaged(void) {
    static const uint32_t opening[2] = {10, 20};
    static const uint8_t junk[3] = {9, 9, 9};
    uint8_t first[LUB_MESSAGE_BYTES];
    uint64_t sent;
    size_t at;
    open_sheet(2, opening, 2);
    same("an insert", 0, insert(1, 1, 30));
    sent = lub_client_send(client(1), sizeof clients[0], 1, 1, first, sizeof first);
    same("a message", 17, lub_count(sent));
    remember(1);
    refused("junk at the server", 1, LUB_REFUSED_NO_MESSAGE, lub_server_take(server, sizeof server, junk, sizeof junk));
    refused("junk at a client", 1, LUB_REFUSED_NO_MESSAGE, lub_client_take(client(1), sizeof clients[0], junk, sizeof junk));
    refused("no bytes", 1, LUB_REFUSED_NO_MESSAGE, lub_client_take(client(1), sizeof clients[0], junk, 0));
    refused("a byte too many", 1, LUB_REFUSED_NO_MESSAGE, lub_server_take(server, sizeof server, out, sizeof out));
    refused("to the wrong end", 1, LUB_REFUSED_MISDIRECTED, lub_client_take(client(1), sizeof clients[0], first, sizeof first));
    refused("not pending", 1, LUB_REFUSED_NOT_PENDING, lub_client_send(client(1), sizeof clients[0], 1, 2, out, sizeof out));
    refused("another line", 1, LUB_REFUSED_MISDIRECTED, lub_client_send(client(1), sizeof clients[0], 2, 1, out, sizeof out));
    refused("a short buffer", 1, LUB_REFUSED_SHORT_BUFFER, lub_client_send(client(1), sizeof clients[0], 1, 1, out, 16));
    refused("a short buffer", 1, LUB_REFUSED_SHORT_BUFFER, lub_client_acknowledge(client(1), sizeof clients[0], 1, out, 4));
    refused("a short buffer", 1, LUB_REFUSED_SHORT_BUFFER, lub_server_acknowledge(server, sizeof server, 2, out, 4));
    /* every unused byte of the layout is looked at, and every number's high bytes */
    for (at = 0; at < LUB_CLIENT_BYTES; at++) {
        if (at % 4 < 2 && (at < 12 || (at >= 20 && at < 36)))
            continue; /* the low bytes of a number may make another sound end */
        if (at == 41)
            continue; /* the position of the inverse: another is sound too */
        if (at >= 48 && at < 60 && at % 4 > 0)
            continue; /* the codes of the list's three items may be anything; bit 7 of an item's first byte is among its seconds */
        if (at >= 2096 && at < 2100)
            continue; /* the pending place: another position is sound too */
        if (at >= 2352 && at < 2356)
            continue; /* the pending item */
        if (at >= 2608 && at < 2620)
            continue; /* nothing is asked of the three items' origins */
        client(1)[at] ^= 0x80;
        remember(1);
        refused("a damaged client", 1, LUB_REFUSED_UNSOUND, delete_at(1, 1));
        client(1)[at] ^= 0x80;
    }
    for (at = 0; at < LUB_SERVER_BYTES; at++) {
        if (at % 4 < 2 && (at < 12 || (at >= 20 && at < 148)))
            continue;
        if (at >= 152 && at < 160 && at % 4 > 0)
            continue;
        if (at >= 6296 && at < 6304)
            continue;
        server[at] ^= 0x80;
        remember(1);
        refused("a damaged server", 1, LUB_REFUSED_UNSOUND, lub_server_take(server, sizeof server, first, sizeof first));
        server[at] ^= 0x80;
    }
    same("as it was, it is taken", edit_taken(0, 1, 1), lub_server_take(server, sizeof server, first, sizeof first));
}

/* ---- running times */

/* The total of an end, 0 for the server's, is this number and the sum over the list that the end shows. */
static void total_is(const char *what, unsigned line, uint32_t expected) {
    unsigned length = line == 0 ? lub_server_length(server) : lub_client_length(client(line));
    uint32_t sum = 0;
    unsigned at;
    for (at = 1; at <= length; at++)
        sum += (line == 0 ? lub_server_item(server, at) : lub_client_item(client(line), at)) & 0xfffu;
    same(what, expected, line == 0 ? lub_server_total(server) : lub_client_total(client(line)));
    same(what, expected, sum);
}

/* Seconds of 4,095, 0, 1 and 4,094 under codes of all kinds. Both clients edit, and delete one item both. */
static void totals_made(void) {
    static const uint32_t opening[4] = {0x12345fffu, 0xfffff000u, 0x00000001u, 0xfffffffeu};
    unsigned line;
    open_sheet(2, opening, 4);
    for (line = 0; line <= 2; line++)
        total_is("after opening", line, 8190);
    same("client 1 inserts 4,095 s", 0, insert(1, 2, 0x80000fffu));
    total_is("an insert adds", 1, 12285);
    same("client 1 inserts 0 s", 0, insert(1, 6, 0x00001000u));
    total_is("a code adds nothing", 1, 12285);
    same("client 1 deletes 4,094 s", 0, delete_at(1, 5));
    total_is("a delete subtracts", 1, 8191);
    same("client 2 deletes 4,095 s", 0, delete_at(2, 1));
    total_is("a delete subtracts", 2, 4095);
    same("client 2 deletes 4,094 s", 0, delete_at(2, 3));
    total_is("a delete subtracts", 2, 1);
    same("client 2 inserts 2,048 s", 0, insert(2, 1, 0xabcde800u));
    total_is("an insert adds", 2, 2049);
}

/* They are taken: each end counts what it applies. */
static void totals_taken(void) {
    unsigned line, number;
    same("up: 4,095 s more", 0, up(1, 1));
    total_is("the server adds", 0, 12285);
    same("up: 4,095 s less", 0, up(2, 1));
    total_is("the server subtracts", 0, 8190);
    same("up: a code", 0, up(1, 2));
    same("up: 4,094 s less", 0, up(1, 3));
    total_is("the server subtracts", 0, 4096);
    same("up: gone", 0, up(2, 2));
    total_is("what is gone counts once", 0, 4096);
    same("up: 2,048 s more", 0, up(2, 3));
    total_is("the server adds", 0, 6144);
    same("down: 4,095 s less", 0, down(1, 1));
    total_is("client 1 subtracts", 1, 4096);
    same("down: nothing", 0, down(1, 2));
    total_is("nothing stays", 1, 4096);
    same("down: 2,048 s more", 0, down(1, 3));
    for (number = 1; number <= 3; number++)
        same("client 2 takes all", 0, down(2, number));
    same("client 1 acknowledges", 0, acknowledge_up(1));
    same("client 1 is acknowledged", 0, acknowledge_down(1));
    for (line = 0; line <= 2; line++)
        total_is("all agree", line, 6144);
}

/* Edit `number` of client `line` goes up, and all eight take and acknowledge it. */
static void spread(unsigned line, unsigned number) {
    unsigned other;
    same("an edit goes up", 0, up(line, number));
    for (other = 1; other <= LUB_LINES; other++) {
        if (other == line) {
            same("it is acknowledged", 0, acknowledge_down(line));
            continue;
        }
        same("another takes it", 0, down(other, lub_server_made(server, other)));
        same("and acknowledges", 0, acknowledge_up(other));
    }
}

/* 512 items of 4,095 seconds at all nine ends, and three of them deleted: in front, in the middle and behind. */
static void longest_total(void) {
    static const unsigned deleted[3] = {1, 256, 510};
    static uint32_t opening[LUB_INITIAL];
    unsigned line, i;
    for (i = 0; i < LUB_INITIAL; i++)
        opening[i] = 0xffffffffu;
    open_sheet(LUB_LINES, opening, LUB_INITIAL);
    for (line = 1; line <= LUB_LINES; line++)
        for (i = 1; i <= LUB_INSERTS; i++) {
            same("an insert", 0, insert(line, 3 * i, 0xffffffffu));
            spread(line, i);
        }
    for (line = 0; line <= LUB_LINES; line++)
        total_is("512 times 4,095 s", line, 2096640);
    remember(1);
    refused("an item too many", 1, LUB_REFUSED_POSITION, insert(1, 1, 1));
    for (i = 0; i < 3; i++) {
        same("a delete", 0, delete_at(8, deleted[i]));
        total_is("client 8 subtracts", 8, 4095 * (511 - i));
        spread(8, LUB_INSERTS + 1 + i);
    }
    for (line = 0; line <= LUB_LINES; line++)
        total_is("509 times 4,095 s", line, 2084355);
}

/* One word of an end with another value: every call but opening refuses it and changes nothing, whether it takes a message or none. */
static void client_refuses(const char *what, size_t word, uint32_t value, const uint8_t *message, size_t length) {
    uint32_t right = lub_word(client(1), word);
    put_word(client(1), word, value);
    remember(1);
    refused(what, 1, LUB_REFUSED_UNSOUND, insert(1, 1, 7));
    refused(what, 1, LUB_REFUSED_UNSOUND, delete_at(1, 1));
    refused(what, 1, LUB_REFUSED_UNSOUND, take_back(1));
    refused(what, 1, LUB_REFUSED_UNSOUND, lub_client_send(client(1), sizeof clients[0], 1, 1, out, sizeof out));
    refused(what, 1, LUB_REFUSED_UNSOUND, lub_client_acknowledge(client(1), sizeof clients[0], 1, out, sizeof out));
    refused(what, 1, LUB_REFUSED_UNSOUND, lub_client_take(client(1), sizeof clients[0], message, length));
    refused(what, 1, LUB_REFUSED_UNSOUND, lub_client_take(client(1), sizeof clients[0], message, 0));
    refused(what, 1, LUB_REFUSED_UNSOUND, lub_client_pack(client(1), sizeof clients[0], 1, packet, sizeof packet, 0));
    refused(what, 1, LUB_REFUSED_UNSOUND, lub_client_take_packet(client(1), sizeof clients[0], message, length));
    refused(what, 1, LUB_REFUSED_UNSOUND, lub_client_take_at(client(1), sizeof clients[0], message, length, 0));
    put_word(client(1), word, right);
}

static void server_refuses(const char *what, size_t word, uint32_t value, const uint8_t *message, size_t length) {
    uint32_t right = lub_word(server, word);
    put_word(server, word, value);
    remember(1);
    refused(what, 1, LUB_REFUSED_UNSOUND, lub_server_send(server, sizeof server, 1, 1, out, sizeof out));
    refused(what, 1, LUB_REFUSED_UNSOUND, lub_server_acknowledge(server, sizeof server, 1, out, sizeof out));
    refused(what, 1, LUB_REFUSED_UNSOUND, lub_server_take(server, sizeof server, message, length));
    refused(what, 1, LUB_REFUSED_UNSOUND, lub_server_take(server, sizeof server, message, 0));
    refused(what, 1, LUB_REFUSED_UNSOUND, lub_server_pack(server, sizeof server, 1, packet, sizeof packet, 0));
    refused(what, 1, LUB_REFUSED_UNSOUND, lub_server_take_packet(server, sizeof server, message, length));
    refused(what, 1, LUB_REFUSED_UNSOUND, lub_server_take_at(server, sizeof server, message, length, 0));
    put_word(server, word, right);
}

/* Question 2 of the total, word 9 of a client and word 37 of the server. Here they are 4,386 and 4,390. All other values of each of its four
 * bytes are refused, and one up and one down. */
static void every_other_total(const uint8_t *to_client, size_t down_length, const uint8_t *to_server, size_t up_length) {
    uint32_t change;
    unsigned byte;
    same("the total's word", 4386, lub_word(client(1), 9));
    same("the total's word", 4390, lub_word(server, 37));
    for (byte = 0; byte < 4; byte++)
        for (change = 1; change < 256; change++) {
            client_refuses("a byte of a client's total", 9, 4386u ^ change << 8 * byte, to_client, down_length);
            server_refuses("a byte of the server's total", 37, 4390u ^ change << 8 * byte, to_server, up_length);
        }
    client_refuses("one up", 9, 4387, to_client, down_length);
    client_refuses("one down", 9, 4385, to_client, down_length);
    server_refuses("one up", 37, 4391, to_server, up_length);
    server_refuses("one down", 37, 4389, to_server, up_length);
}

/* An item's seconds count and its code does not. An item and the total changed together make another sound end. */
static void damaged_totals(void) {
    static const uint32_t opening[2] = {0x00001ffeu, 0x70000123u};
    uint8_t to_server[LUB_MESSAGE_BYTES], to_client[LUB_MESSAGE_BYTES];
    size_t up_length, down_length;
    unsigned bit;
    open_sheet(2, opening, 2);
    same("client 2 inserts", 0, insert(2, 1, 5));
    same("up", 0, up(2, 1));
    same("client 1 inserts", 0, insert(1, 1, 0x00002001u));
    up_length = lub_count(lub_client_send(client(1), sizeof clients[0], 1, 1, to_server, sizeof to_server));
    down_length = lub_count(lub_server_send(server, sizeof server, 1, 1, to_client, sizeof to_client));
    total_is("client 1", 1, 4386);
    total_is("the server", 0, 4390);
    every_other_total(to_client, down_length, to_server, up_length);
    for (bit = 0; bit < 32; bit++) {
        client_word("an item's seconds and code", 13, lub_word(client(1), 13) ^ 1u << bit, bit < 12 ? LUB_REFUSED_UNSOUND : 0);
        server_word("an item's seconds and code", 39, lub_word(server, 39) ^ 1u << bit, bit < 12 ? LUB_REFUSED_UNSOUND : 0);
    }
    put_word(client(1), 9, 4387);
    put_word(client(1), 13, 0x00001fffu);
    put_word(server, 37, 4391);
    put_word(server, 39, 0x00001fffu);
    same("an item and the total", edit_taken(1, 1, 2), lub_client_take(client(1), sizeof clients[0], to_client, down_length));
    same("an item and the total", edit_taken(1, 1, 1), lub_server_take(server, sizeof server, to_server, up_length));
    total_is("a second more", 1, 4392);
    total_is("a second more", 0, 4392);
}

/* The total of an empty list is 0 alone. */
static void empty_total(void) {
    unsigned bit;
    open_sheet(2, NULL, 0);
    for (bit = 0; bit < 32; bit++) {
        client_word("no seconds", 9, 1u << bit, LUB_REFUSED_UNSOUND);
        server_word("no seconds", 37, 1u << bit, LUB_REFUSED_UNSOUND);
    }
    same("4,095 s", 0, insert(1, 1, 0xffffffffu));
    total_is("4,095 s", 1, 4095);
    same("and less", 0, delete_at(1, 1));
    total_is("none", 1, 0);
}

/* ---- taking back */

/* The inverse that a client stores: position, priority and item. */
static void inverse_is(const char *what, unsigned line, unsigned position, unsigned priority, uint32_t item) {
    same(what, position << 8 | priority, lub_word(client(line), 10));
    same(what, item, lub_word(client(line), 11));
}

/* An insert and a delete taken back, each again and again: every one is an edit of its own. Client 1 has rank 2. */
static void taken_back(void) {
    static const uint8_t ranks[2] = {2, 1};
    static const uint32_t opening[3] = {10, 20, 30};
    static const uint8_t put_back[17] = {5, 1, 0, 0, 6, 0, 0, 0, 2, 0, 0, 0, 20, 2, 1, 0, 6};
    struct place with[4] = {{10, 0, 1}, {40, 1, 1}, {20, 0, 2}, {30, 0, 3}};
    struct place without[3] = {{10, 0, 1}, {20, 0, 2}, {30, 0, 3}};
    static const struct place less[2] = {{10, 0, 1}, {30, 0, 3}};
    open_ranked(2, ranks, opening, 3);
    remember(1);
    refused("no edit was made", 1, LUB_REFUSED_NOTHING, take_back(1));
    inverse_is("nothing", 1, 0, 0, 0);
    same("client 1 inserts", 0, insert(1, 2, 40));
    inverse_is("it deletes that place", 1, 2, 0, 0);
    client_shows("inserted", 1, with, 4);
    same("taken back", 0, take_back(1));
    client_shows("as before the insert", 1, without, 3);
    inverse_is("it inserts the item again", 1, 2, 2, 40);
    same("taken back again", 0, take_back(1));
    with[1].number = 3;
    client_shows("inserted again, a new step", 1, with, 4);
    same("and again", 0, take_back(1));
    client_shows("as before the insert", 1, without, 3);
    same("four edits", 4, lub_client_made(client(1)));
    same("client 1 deletes", 0, delete_at(1, 2));
    inverse_is("it inserts the lost item", 1, 2, 2, 20);
    same("taken back", 0, take_back(1));
    without[1].maker = 1;
    without[1].number = 6;
    client_shows("items as before the delete, a new step", 1, without, 3);
    same("taken back again", 0, take_back(1));
    client_shows("deleted again", 1, less, 2);
    same("three inserts so far", 3, lub_word(client(1), 8));
    same("and again", 0, take_back(1));
    same("it counts as an insert", 4, lub_word(client(1), 8));
    same("eight edits", 8, lub_client_made(client(1)));
    same("a bad position", LUB_REFUSED_POSITION, insert(1, 9, 1));
    inverse_is("a refused edit leaves the inverse", 1, 2, 0, 0);
    same("edit 6 is an insert like any other", 17u << 8, lub_client_send(client(1), sizeof clients[0], 1, 6, out, sizeof out));
    same_bytes("with a number and an origin of its own", put_back, out, sizeof put_back);
    rest_stays("taken back: bytes behind the layout");
}

/* Client 1 deletes the second of three items. Client 2 inserts at its place, or deletes in front. Then client 1 takes its delete back. The
 * smaller rank stands first. */
static void taken_back_later(void) {
    static const uint8_t other_first[2] = {2, 1};
    static const uint32_t opening[3] = {10, 20, 30};
    static const struct place behind[4] = {{10, 0, 1}, {50, 2, 1}, {20, 1, 2}, {30, 0, 3}};
    static const struct place in_front[4] = {{10, 0, 1}, {20, 1, 2}, {50, 2, 1}, {30, 0, 3}};
    static const struct place alone[2] = {{20, 1, 2}, {30, 0, 3}};
    unsigned order, line;
    for (order = 0; order < 3; order++) {
        const struct place *end = order == 0 ? behind : order == 1 ? in_front : alone;
        unsigned count = order == 2 ? 2 : 4;
        open_ranked(2, order == 0 ? other_first : by_line, opening, 3);
        same("client 1 deletes", 0, delete_at(1, 2));
        same("client 2 edits", 0, order == 2 ? delete_at(2, 1) : insert(2, 2, 50));
        same("it goes up", 0, up(2, 1));
        same("client 1 takes it", 0, down(1, 1));
        same("an acknowledgement leaves the inverse", 0, acknowledge_down(1));
        same("client 1 takes its delete back", 0, take_back(1));
        client_shows("put back where it belongs", 1, end, count);
        same("both go up", 0, up(1, 1));
        same("both go up", 0, up(1, 2));
        same("client 2 takes both", 0, down(2, 1));
        same("client 2 takes both", 0, down(2, 2));
        server_shows("taken back: the server", end, count);
        for (line = 1; line <= 2; line++)
            client_shows("taken back: a client", line, end, count);
    }
}

/* The edit that arrives moves past two inserts at the front: the inverse goes past the form that is applied. */
static void taken_back_past_applied(void) {
    static const uint32_t opening[3] = {10, 20, 30};
    static const struct place end[6] = {{61, 1, 2}, {60, 1, 1}, {10, 0, 1}, {20, 1, 4}, {50, 2, 1}, {30, 0, 3}};
    open_sheet(2, opening, 3);
    same("client 1 inserts", 0, insert(1, 1, 60));
    same("client 1 inserts", 0, insert(1, 1, 61));
    same("client 1 deletes", 0, delete_at(1, 4));
    same("client 2 inserts", 0, insert(2, 3, 50));
    same("it goes up", 0, up(2, 1));
    same("it arrives at 3 and is applied at 4", edit_taken(3, 3, 4), taken_down(1, 1));
    inverse_is("client 1 goes first and stays", 1, 4, 1, 20);
    same("taken back", 0, take_back(1));
    client_shows("before the other's insert", 1, end, 6);
    same("a front insert of client 2", 0, insert(2, 1, 70));
    same("it goes up", 0, up(2, 2));
    same("it is applied behind the two", edit_taken(4, 1, 3), taken_down(1, 2));
    inverse_is("what deletes it moves up", 1, 5, 0, 0);
    same("taken back again", 0, take_back(1));
    same("its item is off the list", 50, lub_client_item(client(1), 5));
}

/* Client 2 deletes what client 1 inserted: nothing is left to take back, until the next edit. */
static void nothing_to_take_back(void) {
    static const uint32_t opening[2] = {10, 20};
    static const struct place end[2] = {{10, 1, 3}, {20, 0, 2}};
    open_sheet(2, opening, 2);
    same("client 1 inserts", 0, insert(1, 2, 40));
    same("it goes up", 0, up(1, 1));
    same("client 2 takes it", 0, down(2, 1));
    same("and deletes it", 0, delete_at(2, 2));
    same("which goes up", 0, up(2, 1));
    same("client 1 takes it", edit_taken(0, 2, 2), taken_down(1, 1));
    inverse_is("nothing", 1, 0, 0, 0);
    remember(1);
    refused("it became nothing", 1, LUB_REFUSED_NOTHING, take_back(1));
    refused("asked again", 1, LUB_REFUSED_NOTHING, take_back(1));
    same("client 1 deletes", 0, delete_at(1, 1));
    same("which is taken back", 0, take_back(1));
    client_shows("put back", 1, end, 2);
}

/* 9 to 12 of taking back, and 17 before them. Refused, no byte changes. */
static void taken_back_at_limits(void) {
    static uint32_t opening[LUB_INITIAL];
    unsigned i;
    open_sheet(1, opening, LUB_INITIAL);
    for (i = 1; i <= LUB_PENDING; i++)
        same("64 pending", 0, delete_at(1, 1));
    remember(1);
    refused("65 pending", 1, LUB_REFUSED_PENDING, take_back(1));
    refused("an edit elsewhere leaves the inverse", 1, LUB_REFUSED_PENDING, insert(1, 5, 7));
    put_word(client(1), 10, 0);
    put_word(client(1), 11, 0);
    remember(1);
    refused("17 before 12", 1, LUB_REFUSED_NOTHING, take_back(1));
    put_word(client(1), 10, 1u << 8 | 1);
    settle(1, LUB_PENDING);
    same("all acknowledged", 0, take_back(1));
    open_sheet(1, NULL, 0);
    for (i = 1; i <= LUB_INSERTS; i++)
        same("48 inserts", 0, insert(1, 1, i));
    same("a delete", 0, delete_at(1, 1));
    remember(1);
    refused("insert 49", 1, LUB_REFUSED_INSERTS, take_back(1));
    /* 47 items: a delete fits at 1 to 47, an insert at 1 to 48 */
    put_word(client(1), 10, 48u << 8);
    put_word(client(1), 11, 0);
    remember(1);
    refused("a delete past the list", 1, LUB_REFUSED_POSITION, take_back(1));
    put_word(client(1), 10, 49u << 8 | 1);
    remember(1);
    refused("9 before 10", 1, LUB_REFUSED_POSITION, take_back(1));
    put_word(client(1), 10, 47u << 8);
    same("a delete at the end", 0, take_back(1));
    same("46 items", 46, lub_client_length(client(1)));
}

/* An inverse at 512 by hand moves to 513, and no further: taking then asks 9. */
static void inverse_at_its_end(void) {
    static const uint8_t ranks[2] = {2, 1};
    static const uint32_t opening[2] = {10, 20};
    uint8_t message[17] = {5, 1, 1, 0, 1, 0, 0, 0, 1, 0, 0, 0, 7, 1, 2, 0, 1};
    unsigned priority;
    for (priority = 0; priority <= 2; priority += 2) {
        open_ranked(2, ranks, opening, 2);
        same("client 1 deletes", 0, delete_at(1, 1));
        put_word(client(1), 10, 512u << 8 | priority);
        put_word(client(1), 11, priority == 0 ? 0 : 9);
        message[4] = 1;
        same("an insert at the front", edit_taken(1, 1, 1), lub_client_take(client(1), sizeof clients[0], message, sizeof message));
        inverse_is("513", 1, 513, priority, priority == 0 ? 0 : 9);
        message[4] = 2;
        remember(1);
        refused("514", 1, LUB_REFUSED_POSITION, lub_client_take(client(1), sizeof clients[0], message, sizeof message));
        refused("past the list", 1, LUB_REFUSED_POSITION, take_back(1));
    }
}

/* Question 2 of an inverse at a client of rank 2 of three that has made an edit, or none. */
static unsigned inverse_refusal(uint32_t place, uint32_t item, int made) {
    uint32_t position = place >> 8, priority = place & 0xff;
    if (place == 0 && item == 0)
        return 0;
    if (!made || position < 1 || position > 513)
        return LUB_REFUSED_UNSOUND;
    return priority == 2 || (priority == 0 && item == 0) ? 0 : LUB_REFUSED_UNSOUND;
}

static void inverse_asked(uint32_t place, uint32_t item, int made) {
    uint32_t right = lub_word(client(1), 10), right_item = lub_word(client(1), 11);
    unsigned refusal = inverse_refusal(place, item, made);
    put_word(client(1), 10, place);
    put_word(client(1), 11, item);
    remember(1);
    if (refusal != 0) {
        refused("a damaged inverse", 1, refusal, take_back(1));
        refused("a damaged inverse", 1, refusal, insert(1, 1, 7));
        refused("a damaged inverse", 1, refusal, lub_client_take(client(1), sizeof clients[0], out, 0));
    } else if (place == 0)
        refused("nothing", 1, LUB_REFUSED_NOTHING, take_back(1));
    same("an inverse", refusal, lub_refusal(lub_client_acknowledge(client(1), sizeof clients[0], 1, out, sizeof out)));
    put_word(client(1), 10, right);
    put_word(client(1), 11, right_item);
}

/* Every value of each byte of both words, around a delete and an insert, and every edge of positions with every priority. */
static void damaged_inverses(void) {
    static const uint8_t ranks[3] = {2, 3, 1};
    static const uint32_t opening[3] = {10, 20, 30};
    static const uint32_t positions[9] = {0, 1, 2, 511, 512, 513, 514, 515, 65535};
    static const uint32_t places[3] = {0, 1u << 8, 2u << 8 | 2};
    uint32_t value, priority;
    unsigned byte, made, i;
    open_ranked(3, ranks, opening, 3);
    for (made = 0; made <= 1; made++) {
        for (i = 0; i < 3; i++)
            for (byte = 0; byte < 4; byte++)
                for (value = 0; value < 256; value++) {
                    inverse_asked((places[i] & ~(0xffu << 8 * byte)) | value << 8 * byte, 0, (int)made);
                    inverse_asked(places[i], value << 8 * byte, (int)made);
                }
        for (i = 0; i < 9; i++)
            for (priority = 0; priority <= 9; priority++) {
                inverse_asked(positions[i] << 8 | priority, 0, (int)made);
                inverse_asked(positions[i] << 8 | priority, 5, (int)made);
            }
        if (made == 0)
            same("an edit", 0, delete_at(1, 1));
    }
    inverse_is("as it was", 1, 1, 2, 10);
    same("and it is taken back", 0, take_back(1));
}

/* ---- packets */

/* The calls on packets at an end: 0 for the server's, else that client's. */
static uint64_t pack(unsigned end, unsigned line, uint8_t *to, size_t length, size_t offset) {
    if (end == 0)
        return lub_server_pack(server, sizeof server, (uint8_t)line, to, length, offset);
    return lub_client_pack(client(end), sizeof clients[0], (uint8_t)line, to, length, offset);
}

static uint64_t take(unsigned end, const uint8_t *message, size_t length) {
    return end == 0 ? lub_server_take(server, sizeof server, message, length)
                    : lub_client_take(client(end), sizeof clients[0], message, length);
}

static uint64_t take_packet(unsigned end, const uint8_t *bytes, size_t length) {
    return end == 0 ? lub_server_take_packet(server, sizeof server, bytes, length)
                    : lub_client_take_packet(client(end), sizeof clients[0], bytes, length);
}

static uint64_t take_at(unsigned end, const uint8_t *bytes, size_t length, size_t offset) {
    return end == 0 ? lub_server_take_at(server, sizeof server, bytes, length, offset)
                    : lub_client_take_at(client(end), sizeof clients[0], bytes, length, offset);
}

/* The answer of taking a packet: how many messages were taken, and the refusal of the next. */
static uint64_t packet_taken(unsigned count, unsigned refusal) { return (uint64_t)count << 8 | refusal; }

/* Line 1's client takes client 2's delete of an item that it has deleted as well: an insert, a delete and a nothing are then pending there.
 * Once the server has taken them, they are pending on line 2. An acknowledgement stands behind each three. */
static const uint8_t going_up[44] = {5, 1, 0, 0, 1, 0, 1, 0, 1, 0, 0, 0, 40, 1, 1, 0, 1, 7, 1, 0, 0, 2,
                                     0, 1, 0, 2, 1, 0, 2, 8, 1, 0, 0, 3, 0, 1, 1, 0, 3, 4, 1, 0, 0, 1};
static const uint8_t coming_down[44] = {5, 2, 1, 0, 1, 0, 1, 0, 1, 0, 0, 0, 40, 1, 1, 0, 1, 7, 2, 1, 0, 2,
                                        0, 1, 0, 2, 1, 0, 2, 8, 2, 1, 0, 3, 0, 1, 1, 0, 3, 4, 2, 1, 0, 1};

/* Where these messages begin, and where the last one ends. */
static const size_t begin[5] = {0, 17, 29, 39, 44};

/* Opens a sheet in which the three are pending, at client 1 or at the server for client 2. `packet` has marks alone. */
static void three_pending(unsigned from) {
    static const uint32_t opening[3] = {10, 20, 30};
    open_sheet(2, opening, 3);
    same("client 2 deletes", 0, delete_at(2, 2));
    same("client 1 inserts", 0, insert(1, 1, 40));
    same("client 1 deletes", 0, delete_at(1, 2));
    same("client 1 deletes what client 2 deleted", 0, delete_at(1, 2));
    same("client 2's goes up", 0, up(2, 1));
    same("client 1 takes it", 0, down(1, 1));
    if (from == 0)
        same("the three go up", packet_taken(3, 0), take_packet(0, going_up, 39));
    memset(packet, MARK, sizeof packet);
}

/* The three from every offset and into every room around their lengths: those that fit are written, and no other byte changes. */
static void rooms(unsigned from, unsigned line, const uint8_t *bytes) {
    static const size_t offsets[5] = {0, 1, 5, 30, 1300};
    size_t i, offset, room;
    unsigned fit;
    three_pending(from);
    for (i = 0; i < 5; i++) {
        offset = offsets[i];
        for (room = offset < 40 ? 0 : offset - 40; room <= offset + 41; room++) {
            memset(packet, MARK, sizeof packet);
            remember(1);
            for (fit = 0; fit < 3 && offset + begin[fit + 1] <= room; fit++)
                ;
            if (fit > 0)
                memcpy(packet_before + offset, bytes, begin[fit]);
            same("a packet written", fit > 0 ? (uint64_t)begin[fit] << 8 : LUB_REFUSED_SHORT_BUFFER,
                 pack(from, line, packet, room, offset));
            nothing_changed("a packet written, and nothing else", 1);
        }
    }
}

/* Offsets at the end, past it, small in 8, 16 or 32 bits, and up to the highest there is. */
static size_t far_offset(unsigned which, size_t length) {
    static const size_t high = (size_t)-1;
    switch (which) {
    case 0: return length;
    case 1: return length + 1;
    case 2: return 1u << 8;
    case 3: return (size_t)1 << 16;
    case 4: return (size_t)0xffffffffu;
    case 5: return high > 0xffffffffu ? (size_t)((uint64_t)1 << 32) : high;
    case 6: return high / 2 + 1;
    case 7: return high - LUB_PACKET_BYTES;
    case 8: return high - 16;
    case 9: return high - 1;
    default: return high;
    }
}

#define FAR_OFFSETS 11u

/* Something is pending and there is no room: 14. Nothing is pending: 0. No byte changes either way. */
static void far_offsets(unsigned from, unsigned line, unsigned other) {
    size_t room;
    unsigned i;
    three_pending(from);
    remember(1);
    for (i = 0; i < FAR_OFFSETS; i++)
        for (room = 0; room <= 60; room++) {
            size_t offset = far_offset(i, room);
            refused("no room", 1, LUB_REFUSED_SHORT_BUFFER, pack(from, line, packet, room, offset));
            refused("4 comes before 14", 1, LUB_REFUSED_MISDIRECTED, pack(from, other, packet, room, offset));
            refused("4 comes before 14", 1, LUB_REFUSED_MISDIRECTED, pack(from, 0, packet, room, offset));
            refused("4 comes before 14", 1, LUB_REFUSED_MISDIRECTED, pack(from, 255, packet, room, offset));
        }
    open_sheet(2, NULL, 0);
    remember(1);
    for (i = 0; i < FAR_OFFSETS; i++)
        for (room = 0; room <= 60; room += 20) {
            refused("nothing is pending", 1, 0, pack(from, line, packet, room, far_offset(i, room)));
            refused("nothing is pending", 1, 0, pack(from, line, packet, room, room / 2));
            refused("and another line", 1, LUB_REFUSED_MISDIRECTED, pack(from, other, packet, room, far_offset(i, room)));
        }
}

/* An end's bytes, to start from again. */
static uint8_t kept_end[sizeof server];

static uint8_t *end_of(unsigned end) { return end == 0 ? server : client(end); }

static size_t size_of(unsigned end) { return end == 0 ? sizeof server : sizeof clients[0]; }

/* The packet of three messages and an acknowledgement for an end, in `packet`; the end as it is before it takes them is kept. */
static void arriving(unsigned end) {
    three_pending(end == 0 ? 1 : 0);
    memcpy(packet, end == 0 ? going_up : coming_down, sizeof going_up);
    memcpy(kept_end, end_of(end), size_of(end));
}

static void start_again(unsigned end) { memcpy(end_of(end), kept_end, size_of(end)); }

/* The client whose bytes are compared beside the server's. */
static unsigned watched(unsigned end) { return end == 0 ? 1 : end; }

/* Cut at every byte: the whole messages are taken, then 3. The end is as after these messages one by one. */
static void cut_packets(unsigned end) {
    static uint8_t by_packet[sizeof server];
    size_t length;
    unsigned whole, i;
    arriving(end);
    for (length = 0; length <= begin[4]; length++) {
        for (whole = 0; whole < 4 && begin[whole + 1] <= length; whole++)
            ;
        start_again(end);
        remember(watched(end));
        same("a cut packet", length == 0 ? LUB_REFUSED_PACKET : packet_taken(whole, begin[whole] == length ? 0 : LUB_REFUSED_NO_MESSAGE),
             take_packet(end, packet, length));
        same_bytes("the packet stays", packet_before, packet, sizeof packet);
        memcpy(by_packet, end_of(end), size_of(end));
        start_again(end);
        for (i = 0; i < whole; i++)
            same("a message of it", 0, lub_refusal(take(end, packet + begin[i], begin[i + 1] - begin[i])));
        same_bytes("as message by message", by_packet, end_of(end), size_of(end));
        start_again(end);
        for (i = 0; i < whole; i++)
            same("a message by its offset", begin[i + 1] - begin[i], lub_read(take_at(end, packet, length, begin[i])));
        same_bytes("as by offsets", by_packet, end_of(end), size_of(end));
        if (length > 0)
            same("what is left of it", LUB_REFUSED_NO_MESSAGE, take_at(end, packet, length, begin[whole]));
        same_bytes("3 changes nothing", by_packet, end_of(end), size_of(end));
    }
}

/* What stands at every byte of the packet, at its end and past it, while none of its messages was taken. */
static void every_offset(unsigned end) {
    static const unsigned refusals[4] = {0, LUB_REFUSED_GAP, LUB_REFUSED_GAP, 0};
    size_t offset;
    unsigned i, message;
    arriving(end);
    for (offset = 0; offset <= begin[4] + 2; offset++) {
        for (message = 0; message < 4 && begin[message] != offset; message++)
            ;
        start_again(end);
        remember(watched(end));
        if (message == 4 || refusals[message] != 0)
            refused("an offset", watched(end), message == 4 ? LUB_REFUSED_NO_MESSAGE : refusals[message],
                    take_at(end, packet, begin[4], offset));
        else {
            size_t length = begin[message + 1] - offset;
            uint64_t alone = take(end, packet + offset, length);
            start_again(end);
            same("as by itself, and its length", alone | (uint64_t)length << 56, take_at(end, packet, begin[4], offset));
        }
    }
    start_again(end);
    remember(watched(end));
    for (i = 0; i < FAR_OFFSETS; i++)
        refused("past the packet's end", watched(end), LUB_REFUSED_NO_MESSAGE, take_at(end, packet, begin[4], far_offset(i, begin[4])));
    for (i = 0; i < 4; i++) {
        same("the messages in their order", begin[i + 1] - begin[i], lub_message_length(packet, begin[4], begin[i]));
        same("the messages in their order", begin[i + 1] - begin[i], lub_read(take_at(end, packet, begin[4], begin[i])));
    }
    remember(watched(end));
    refused("no message is left", watched(end), LUB_REFUSED_NO_MESSAGE, take_at(end, packet, begin[4], begin[4]));
    refused("the packet again", watched(end), LUB_REFUSED_REPEAT, take_packet(end, packet, begin[4]));
}

/* How long a message is, by its first byte. */
static void message_lengths(void) {
    unsigned kind;
    size_t rest;
    for (kind = 0; kind < 256; kind++)
        for (rest = 0; rest <= 20; rest++) {
            size_t length = kind == 4 ? 5 : kind == 5 ? 17 : kind == 7 ? 12 : kind == 8 ? 10 : rest;
            packet[3] = (uint8_t)kind;
            same("a message's length", length < rest ? length : rest, lub_message_length(packet, 3 + rest, 3));
        }
    same("past the end", 0, lub_message_length(packet, 3, 4));
    same("past the end", 0, lub_message_length(packet, 3, (size_t)-1));
}

/* A byte that is no kind takes the rest of the packet: what stands before it is taken, what stands behind it is not. */
static void unknown_kinds(unsigned end) {
    unsigned kind;
    arriving(end);
    memmove(packet, packet + 39, 5);
    for (kind = 0; kind < 256; kind++) {
        if (kind == 4 || kind == 5 || kind == 7 || kind == 8)
            continue;
        start_again(end);
        packet[5] = (uint8_t)kind;
        memcpy(packet + 6, end == 0 ? going_up : coming_down, 39);
        same("an acknowledgement, then no kind", packet_taken(1, LUB_REFUSED_NO_MESSAGE), take_packet(end, packet, 45));
        same("the acknowledgement alone", 0, end == 0 ? lub_server_taken(server, 1) : lub_client_taken(client(end)));
        remember(watched(end));
        refused("no kind", watched(end), LUB_REFUSED_NO_MESSAGE, take_packet(end, packet + 5, 40));
        refused("no kind", watched(end), LUB_REFUSED_NO_MESSAGE, take_at(end, packet, 45, 5));
    }
}

/* Question 15: 1 to 1,400 bytes, asked after 2. Acknowledgements may be repeated. */
static void packet_lengths(unsigned end) {
    static const size_t wrong_ones[6] = {0, 1401, 1405, 65536, 65536 + 5, 65536 + 1400};
    static uint8_t many[65536 + LUB_PACKET_BYTES];
    size_t at, i;
    arriving(end);
    for (at = 0; at < sizeof many; at++)
        many[at] = packet[39 + at % 5];
    same("1,400 bytes: 280 messages", packet_taken(280, 0), take_packet(end, many, 1400));
    same("1,395 bytes", packet_taken(279, 0), take_packet(end, many, 1395));
    same("1,399 bytes: the last is cut", packet_taken(279, LUB_REFUSED_NO_MESSAGE), take_packet(end, many, 1399));
    same("five bytes", packet_taken(1, 0), take_packet(end, many, 5));
    same("the last of 1,400 bytes", (uint64_t)5 << 56, take_at(end, many, 1400, 1395));
    remember(watched(end));
    refused("one byte", watched(end), LUB_REFUSED_NO_MESSAGE, take_packet(end, many, 1));
    refused("one byte", watched(end), LUB_REFUSED_NO_MESSAGE, take_at(end, many, 1, 0));
    for (i = 0; i < 6; i++) {
        refused("no packet's length", watched(end), LUB_REFUSED_PACKET, take_packet(end, many, wrong_ones[i]));
        refused("no packet's length", watched(end), LUB_REFUSED_PACKET, take_at(end, many, wrong_ones[i], 0));
        refused("15 comes before 3", watched(end), LUB_REFUSED_PACKET, take_at(end, many, wrong_ones[i], (size_t)-1));
    }
    end_of(end)[0] = 9; /* n: nine clients */
    memcpy(kept_end, end_of(end), size_of(end));
    for (i = 0; i < 6; i++) {
        same("2 comes before 15", LUB_REFUSED_UNSOUND, take_packet(end, many, wrong_ones[i]));
        same("2 comes before 15", LUB_REFUSED_UNSOUND, take_at(end, many, wrong_ones[i], 0));
    }
    same("2 comes before 3", LUB_REFUSED_UNSOUND, take_packet(end, many, 1));
    same("2 comes before 4 and 14", LUB_REFUSED_UNSOUND, pack(end, 9, packet, 0, 0));
    same_bytes("2 changes nothing", kept_end, end_of(end), size_of(end));
}

/* Messages of the packet behind each other in another order: which of them, and what is taken and refused. */
static void reordered(unsigned end, const char *order, unsigned taken, unsigned refusal) {
    static uint8_t by_packet[sizeof server];
    const uint8_t *bytes = end == 0 ? going_up : coming_down;
    size_t length = 0;
    unsigned i;
    arriving(end);
    for (i = 0; order[i] != 0; i++) {
        unsigned message = (unsigned)(order[i] - '1');
        memcpy(packet + length, bytes + begin[message], begin[message + 1] - begin[message]);
        length += begin[message + 1] - begin[message];
    }
    remember(watched(end));
    if (taken == 0) {
        refused(order, watched(end), refusal, take_packet(end, packet, length));
        return;
    }
    same(order, packet_taken(taken, refusal), take_packet(end, packet, length));
    memcpy(by_packet, end_of(end), size_of(end));
    start_again(end);
    for (i = 0; i < taken; i++) {
        unsigned message = (unsigned)(order[i] - '1');
        same(order, 0, lub_refusal(take(end, bytes + begin[message], begin[message + 1] - begin[message])));
    }
    same_bytes(order, by_packet, end_of(end), size_of(end));
    rest_stays("packets: bytes behind the layout");
}

/* What was taken before a refusal stays taken, and what stands behind it is not looked at. */
static void refused_in_the_middle(unsigned end) {
    reordered(end, "1234", 4, 0);
    reordered(end, "4123444", 7, 0);
    reordered(end, "21", 0, LUB_REFUSED_GAP);
    reordered(end, "3", 0, LUB_REFUSED_GAP);
    reordered(end, "132", 1, LUB_REFUSED_GAP);
    reordered(end, "1223", 2, LUB_REFUSED_REPEAT);
    reordered(end, "12312", 3, LUB_REFUSED_REPEAT);
    reordered(end, "4421", 2, LUB_REFUSED_GAP);
    reordered(end, "412341", 5, LUB_REFUSED_REPEAT);
    arriving(end);
    remember(watched(end));
    refused("a packet of the other direction", watched(end), LUB_REFUSED_MISDIRECTED,
            take_packet(end, end == 0 ? coming_down : going_up, sizeof going_up));
}

/* 62 edits are pending on line 2. Of three more of line 1 in one packet two are taken, then 12. */
static void full_in_the_middle(void) {
    static uint32_t opening[LUB_INITIAL];
    unsigned i;
    uint64_t written;
    open_sheet(2, opening, LUB_INITIAL);
    for (i = 1; i <= 62; i++)
        same("a delete", 0, delete_at(1, 1));
    written = pack(1, 1, packet, sizeof packet, 0);
    same("62 deletes", 62u * 12u << 8, written);
    same("all are taken", packet_taken(62, 0), take_packet(0, packet, lub_count(written)));
    same("and acknowledged", 0, acknowledge_down(1));
    for (i = 1; i <= 3; i++)
        same("a delete", 0, delete_at(1, 1));
    written = pack(1, 1, packet, sizeof packet, 0);
    same("three deletes", 36u << 8, written);
    same("line 2 is full", packet_taken(2, LUB_REFUSED_PENDING), take_packet(0, packet, lub_count(written)));
    same("64 are taken", 64, lub_server_taken(server, 1));
    same("client 2 takes them all", 64u * 12u << 8, pack(0, 2, packet, sizeof packet, 0));
    same("at once", packet_taken(64, 0), take_packet(2, packet, 64 * 12));
    same("and acknowledges", 0, acknowledge_up(2));
    same("the third goes up", 0, up(1, 65));
}

/* 64 inserts of two clients wait for a third: the longest packet. */
static void longest_packet(void) {
    unsigned line, i;
    size_t room;
    open_sheet(3, NULL, 0);
    for (i = 1; i <= 32; i++)
        for (line = 1; line <= 2; line++) {
            same("an insert", 0, insert(line, 1, 100 * line + i));
            same("it goes up", 0, up(line, i));
        }
    for (room = 0; room <= 20; room++) {
        size_t offset = sizeof packet - LUB_PACKED_BYTES + room;
        unsigned fit = room == 0 ? 64 : room <= 17 ? 63 : 62;
        memset(packet, MARK, sizeof packet);
        same("as many as fit", fit * 17u << 8, pack(0, 3, packet, sizeof packet, offset));
        same("the byte before stays", MARK, packet[offset - 1]);
        for (i = (unsigned)offset + 17 * fit; i < sizeof packet; i++)
            same("the bytes behind stay", MARK, packet[i]);
    }
    same("all of them", LUB_PACKED_BYTES << 8, pack(0, 3, packet, LUB_PACKED_BYTES, 0));
    same("a byte too few", (LUB_PACKED_BYTES - 17) << 8, pack(0, 3, packet, LUB_PACKED_BYTES - 1, 0));
    same("client 3 takes 64", packet_taken(64, 0), take_packet(3, packet, LUB_PACKED_BYTES));
    same("64 items", 64, lub_client_length(client(3)));
    for (i = 1; i <= 64; i++)
        same("the list is the server's", lub_server_item(server, i), lub_client_item(client(3), i));
}

/* Both clients edit; everything goes up and down in packets, each with an acknowledgement in front. The server's answer to client 1 gets
 * lost: its next packet begins with edits that were taken before. */
static void round_trip(void) {
    static const uint32_t opening[3] = {10, 20, 30};
    static const struct place end[5] = {{41, 1, 3}, {40, 1, 1}, {50, 2, 1}, {20, 0, 2}, {30, 0, 3}};
    size_t length, offset;
    uint64_t answer = 0;
    unsigned line;
    open_sheet(2, opening, 3);
    same("client 1 inserts", 0, insert(1, 1, 40));
    same("client 1 deletes", 0, delete_at(1, 2));
    same("client 2 inserts", 0, insert(2, 2, 50));
    for (line = 1; line <= 2; line++) {
        same("an acknowledgement", 5u << 8, lub_client_acknowledge(client(line), sizeof clients[0], (uint8_t)line, packet, sizeof packet));
        length = 5 + lub_count(pack(line, line, packet, sizeof packet, 5));
        same("a packet goes up", packet_taken(line == 1 ? 3 : 2, 0), take_packet(0, packet, length));
    }
    same("client 1 inserts once more", 0, insert(1, 1, 41));
    length = lub_count(pack(1, 1, packet, sizeof packet, 0));
    same("its packet has all three", 46, length);
    remember(1);
    refused("the first was taken before", 1, LUB_REFUSED_REPEAT, take_packet(0, packet, length));
    for (offset = 0; offset < length; offset += lub_message_length(packet, length, offset)) {
        answer = take_at(0, packet, length, offset);
        same("repeats are passed over", offset < 29 ? LUB_REFUSED_REPEAT : 0, lub_refusal(answer));
    }
    same("the new one arrived", edit_taken(1, 1, 1) | (uint64_t)17 << 56, answer);
    for (line = 1; line <= 2; line++) {
        same("an acknowledgement", 5u << 8, lub_server_acknowledge(server, sizeof server, (uint8_t)line, packet, sizeof packet));
        length = 5 + lub_count(pack(0, line, packet, sizeof packet, 5));
        same("a packet comes down", packet_taken(line == 1 ? 2 : 4, 0), take_packet(line, packet, length));
        remember(line);
        refused("nothing is pending any more", line, 0, pack(line, line, packet, sizeof packet, 0));
    }
    server_shows("round trip: the server", end, 5);
    client_shows("round trip: client 1", 1, end, 5);
    client_shows("round trip: client 2", 2, end, 5);
    rest_stays("round trip: bytes behind the layout");
}

/* The calls on packets one by one, at the server and at a client. */
static void packets(void) {
    unsigned end;
    message_lengths();
    rooms(1, 1, going_up);
    rooms(0, 2, coming_down);
    far_offsets(1, 1, 2);
    far_offsets(0, 2, 3);
    for (end = 0; end <= 2; end += 2) {
        cut_packets(end);
        every_offset(end);
        unknown_kinds(end);
        packet_lengths(end);
        refused_in_the_middle(end);
    }
    full_in_the_middle();
    longest_packet();
    round_trip();
}

static void short_ends(void) {
    uint8_t junk[1] = {0};
    open_sheet(1, NULL, 0);
    remember(1);
    refused("18: client open", 1, 18, lub_client_open(client(1), LUB_CLIENT_BYTES - 1, 0, 0, junk, 1, junk, 1));
    refused("18: client insert", 1, 18, lub_client_insert(client(1), LUB_CLIENT_BYTES - 1, 0, 0));
    refused("18: client delete", 1, 18, lub_client_delete(client(1), 0, 0));
    refused("18: client take back", 1, 18, lub_client_take_back(client(1), LUB_CLIENT_BYTES - 1));
    refused("18: client send", 1, 18, lub_client_send(client(1), LUB_CLIENT_BYTES - 1, 9, 0, out, 0));
    refused("18: client acknowledge", 1, 18, lub_client_acknowledge(client(1), LUB_CLIENT_BYTES - 1, 9, out, 0));
    refused("18: client take", 1, 18, lub_client_take(client(1), LUB_CLIENT_BYTES - 1, junk, 1));
    refused("18: client pack", 1, 18, lub_client_pack(client(1), LUB_CLIENT_BYTES - 1, 9, out, 0, 1));
    refused("18: client take packet", 1, 18, lub_client_take_packet(client(1), LUB_CLIENT_BYTES - 1, junk, 0));
    refused("18: client take at", 1, 18, lub_client_take_at(client(1), LUB_CLIENT_BYTES - 1, junk, 0, 1));
    refused("18: server open", 1, 18, lub_server_open(server, LUB_SERVER_BYTES - 1, 0, junk, 1, junk, 1));
    refused("18: server send", 1, 18, lub_server_send(server, LUB_SERVER_BYTES - 1, 9, 0, out, 0));
    refused("18: server acknowledge", 1, 18, lub_server_acknowledge(server, LUB_SERVER_BYTES - 1, 9, out, 0));
    refused("18: server take", 1, 18, lub_server_take(server, LUB_SERVER_BYTES - 1, junk, 1));
    refused("18: server pack", 1, 18, lub_server_pack(server, LUB_SERVER_BYTES - 1, 9, out, 0, 1));
    refused("18: server take packet", 1, 18, lub_server_take_packet(server, LUB_SERVER_BYTES - 1, junk, 0));
    refused("18: server take at", 1, 18, lub_server_take_at(server, LUB_SERVER_BYTES - 1, junk, 0, 1));
    same("exactly the layout is enough", 0, lub_client_insert(client(1), LUB_CLIENT_BYTES, 1, 1));
}

int main(void) {
    same("LUB_CLIENT_BYTES", LUB_CLIENT_BYTES, lub_client_bytes());
    same("LUB_SERVER_BYTES", LUB_SERVER_BYTES, lub_server_bytes());
    p9_and_p10();
    p11();
    p12();
    lead_first(1, 5);
    lead_first(5, 1);
    positions();
    forty_eight_inserts();
    sixty_four_pending();
    four_hundred_edits();
    full_line();
    answers();
    gone();
    moves();
    far_positions();
    openings();
    wrong_ranks();
    other_ranks();
    opening_origins();
    sent_on();
    makers();
    kinds();
    damaged();
    damaged_origins();
    damaged_ranks();
    totals_made();
    totals_taken();
    longest_total();
    damaged_totals();
    empty_total();
    taken_back();
    taken_back_later();
    taken_back_past_applied();
    nothing_to_take_back();
    taken_back_at_limits();
    inverse_at_its_end();
    damaged_inverses();
    packets();
    short_ends();
    printf("boundary: %u comparisons, %u wrong\n", compared, wrong);
    return wrong == 0 ? 0 : 1;
}
