/* How much stack each exported call takes. A thread gets a stack that is filled with a pattern; after the call, the lowest byte that differs
 * tells how far down the call went. Each call is made in several states of the ends, refused and not, and the deepest is printed.
 *
 * To measure on your own processor, keep the list of calls and fill a task's stack in the same way. */
#include <pthread.h>
#include <stdio.h>
#include <string.h>

#include "lubdranit.h"

#define STACK (256 * 1024)

static uint8_t stack[STACK] __attribute__((aligned(4096)));
static uint8_t *top; /* where the stack stood just before the call */

static uint8_t client[LUB_CLIENT_BYTES], other[LUB_CLIENT_BYTES], server[LUB_SERVER_BYTES];
static uint8_t message[LUB_MESSAGE_BYTES], items[4 * LUB_INITIAL], printed[LUB_RUN_BYTES];
static const uint8_t ranks[LUB_LINES] = {1, 2, 3, 4, 5, 6, 7, 8};
static size_t length; /* of the message */
static uint8_t packet[LUB_PACKET_BYTES];
static size_t packet_length;
static volatile uint64_t answer;
static const char script[] = "lines 8 items 10 20\n1 ins 1 30\n2 del 2\n1 up 1\n2 up 1\n1 down 1\n2 down 1\n3 ack\n3 told\n";

static void nothing(void) {}
static void client_open(void) { answer = lub_client_open(client, sizeof client, 8, 1, ranks, 8, items, sizeof items); }
static void client_insert(void) { answer = lub_client_insert(client, sizeof client, 1, 7); }
static void client_delete(void) { answer = lub_client_delete(client, sizeof client, 1); }
static void client_take_back(void) { answer = lub_client_take_back(client, sizeof client); }
static void client_send(void) { answer = lub_client_send(client, sizeof client, 1, 1, message, sizeof message); }
static void client_acknowledge(void) { answer = lub_client_acknowledge(client, sizeof client, 1, message, sizeof message); }
static void client_take(void) { answer = lub_client_take(client, sizeof client, message, length); }
static void client_pack(void) { answer = lub_client_pack(client, sizeof client, 1, packet, sizeof packet, 0); }
static void client_take_packet(void) { answer = lub_client_take_packet(client, sizeof client, packet, packet_length); }
static void client_take_at(void) { answer = lub_client_take_at(client, sizeof client, packet, packet_length, 0); }
static void server_open(void) { answer = lub_server_open(server, sizeof server, 8, ranks, 8, items, sizeof items); }
static void server_send(void) { answer = lub_server_send(server, sizeof server, 1, 1, message, sizeof message); }
static void server_acknowledge(void) { answer = lub_server_acknowledge(server, sizeof server, 1, message, sizeof message); }
static void server_take(void) { answer = lub_server_take(server, sizeof server, message, length); }
static void server_pack(void) { answer = lub_server_pack(server, sizeof server, 1, packet, sizeof packet, 0); }
static void server_take_packet(void) { answer = lub_server_take_packet(server, sizeof server, packet, packet_length); }
static void server_take_at(void) { answer = lub_server_take_at(server, sizeof server, packet, packet_length, 0); }
static void run(void) { answer = lub_run((const uint8_t *)script, sizeof script - 1, printed, sizeof printed); }

static const struct {
    const char *name;
    void (*call)(void);
} calls[] = {
    {"lub_client_open", client_open},
    {"lub_client_insert", client_insert},
    {"lub_client_delete", client_delete},
    {"lub_client_take_back", client_take_back},
    {"lub_client_send", client_send},
    {"lub_client_acknowledge", client_acknowledge},
    {"lub_client_take", client_take},
    {"lub_client_pack", client_pack},
    {"lub_client_take_packet", client_take_packet},
    {"lub_client_take_at", client_take_at},
    {"lub_server_open", server_open},
    {"lub_server_send", server_send},
    {"lub_server_acknowledge", server_acknowledge},
    {"lub_server_take", server_take},
    {"lub_server_pack", server_pack},
    {"lub_server_take_packet", server_take_packet},
    {"lub_server_take_at", server_take_at},
    {"lub_run", run},
    {"(an empty function)", nothing},
};

#define CALLS (sizeof calls / sizeof calls[0])

static size_t current, deepest[CALLS];

static void *thread(void *unused) {
    top = __builtin_frame_address(0);
    calls[current].call();
    return unused;
}

/* With a second pattern, for the case that the call writes the first one at its lowest byte. */
static void measure(size_t i, int pattern) {
    pthread_attr_t attributes;
    pthread_t id;
    uint8_t *low = stack;
    current = i;
    memset(stack, pattern, sizeof stack);
    pthread_attr_init(&attributes);
    pthread_attr_setstack(&attributes, stack, sizeof stack);
    if (pthread_create(&id, &attributes, thread, NULL) != 0)
        return;
    pthread_join(id, NULL);
    while (low < top && *low == pattern)
        low++;
    if ((size_t)(top - low) > deepest[i])
        deepest[i] = (size_t)(top - low);
}

/* Puts the ends into one of the states: bay 1 with so many pending edits, and a message of bay 2 or of the server that passes them, which is
 * also the first of a packet. */
static void prepare(unsigned pending, int up) {
    unsigned i;
    client_open();
    server_open();
    lub_client_open(other, sizeof other, 8, 2, ranks, 8, items, sizeof items);
    for (i = 1; i <= LUB_INSERTS; i++)
        lub_client_insert(other, sizeof other, 1, 9);
    for (i = 1; i <= pending; i++) {
        if (i % 2 == 1 && i <= 2 * LUB_INSERTS)
            client_insert();
        else
            client_delete();
        if (up) { /* these stand at the server, for bay 2's message to pass */
            length = lub_count(lub_client_send(client, sizeof client, 1, (uint16_t)i, message, sizeof message));
            server_take();
        }
    }
    length = lub_count(lub_client_send(other, sizeof other, 2, 1, message, sizeof message));
    packet_length = lub_count(lub_client_pack(other, sizeof other, 2, packet, sizeof packet, 0));
    if (!up) {
        server_take_packet();
        length = lub_count(lub_server_send(server, sizeof server, 1, 1, message, sizeof message));
        packet_length = lub_count(lub_server_pack(server, sizeof server, 1, packet, sizeof packet, 0));
    }
}

int main(void) {
    static const unsigned states[] = {0, 1, 8, 63, 64};
    size_t i, s;
    int way;
    for (i = 0; i < CALLS; i++) {
        for (s = 0; s < sizeof states / sizeof states[0]; s++)
            for (way = 0; way < 8; way++) {
                prepare(states[s], way & 1);
                if (way & 2) { /* damaged: question 2 says no */
                    client[sizeof client - 1] = 1;
                    server[sizeof server - 1] = 1;
                }
                measure(i, way & 4 ? 0xa5 : 0x5a);
            }
        printf("%-24s %6lu\n", calls[i].name, (unsigned long)deepest[i]);
    }
    return 0;
}
