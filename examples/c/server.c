/* The server of a sheet, over UDP on the loopback. Prints the port that it listens at. At SIGTERM or Ctrl-C it waits until
 * every bay has acknowledged every edit, prints its list and ends; at the second one it does not wait.
 *
 *     server [-r SEED] [-x PERCENT] [-t SECONDS]
 *
 * -x loses, repeats and reorders so many of the packets that it sends, by a rule that -r seeds. */
#include <stdio.h>

#include "common.h"
#include "lubdranit.h"

static uint8_t end[LUB_SERVER_BYTES];
static struct net net;

/* What the protocol does not keep: where a line's bay is, how far its pending edits were sent, and whether it waits for an answer. */
static struct {
    struct sockaddr_in bay; /* port 0: not heard of yet */
    unsigned sent;
    int owed;
} lines[LUB_LINES + 1]; /* line 1 is the first */

static long resend_at;

static void acknowledge(unsigned line) {
    uint8_t message[LUB_MESSAGE_BYTES];
    unsigned length = written(lub_server_acknowledge(end, sizeof end, (uint8_t)line, message, sizeof message));
    net_send(&net, &lines[line].bay, message, length);
    lines[line].owed = 0;
}

static void send_edit(unsigned line, unsigned number) {
    uint8_t message[LUB_MESSAGE_BYTES];
    unsigned length = written(lub_server_send(end, sizeof end, (uint8_t)line, (uint16_t)number, message, sizeof message));
    net_send(&net, &lines[line].bay, message, length);
    lines[line].owed = 0; /* an edit says as well how many were taken from that bay */
}

/* One packet with an acknowledgement and behind it all edits that the bay has not acknowledged. */
static void send_again(unsigned line) {
    uint8_t packet[PACKET];
    unsigned length = written(lub_server_acknowledge(end, sizeof end, (uint8_t)line, packet, sizeof packet));
    length += written(lub_server_pack(end, sizeof end, (uint8_t)line, packet, sizeof packet, length));
    net_send(&net, &lines[line].bay, packet, length);
    lines[line].sent = lub_server_made(end, line);
    lines[line].owed = 0;
}

/* Sends a bay the edits that it has not been sent, each by itself, or again all that it has not acknowledged; if there are none, what it
 * waits for. */
static void talk(unsigned line, int again) {
    unsigned acked = lub_server_acked(end, line), made = lub_server_made(end, line);
    unsigned *sent = &lines[line].sent;
    if (lines[line].bay.sin_port == 0)
        return;
    if (again && (acked != made || lines[line].owed))
        send_again(line);
    if (*sent < acked)
        *sent = acked;
    if (lines[line].owed && (*sent == made || *sent >= acked + WINDOW))
        acknowledge(line);
    while (*sent < made && *sent < acked + WINDOW)
        send_edit(line, ++*sent);
}

/* What to do when a bay's message was refused. Nothing changed, whatever the number. */
static void on_refusal(unsigned line, unsigned refusal) {
    switch (refusal) {
    case LUB_REFUSED_REPEAT: /* our acknowledgement got lost: answer again */
    case LUB_REFUSED_GAP:    /* one before it is missing: say how far we are, the bay sends it again */
        lines[line].owed = 1;
        break;
    case LUB_REFUSED_OVERTAKEN: /* old news */
    case LUB_REFUSED_PENDING:   /* another bay is behind by 64: the edit comes again when that one has caught up */
        break;
    case LUB_REFUSED_UNSOUND: /* our own bytes are damaged or too few */
    case LUB_REFUSED_SHORT_END:
        give_up("the server's end is damaged", refusal);
        break;
    default: /* 3 4 15: somebody else's packet. 8 9 10: from a bay that is not of this sheet, or that older bytes were put back into. */
        fprintf(stderr, "server: a packet for line %u was dropped (%u)\n", line, refusal);
    }
}

/* Takes the message at an offset of a packet: its refusal, or 0. */
static unsigned take_message(const struct sockaddr_in *from, const uint8_t *packet, size_t length, size_t offset) {
    unsigned line = offset + 1 < length && packet[offset + 1] <= LINES ? packet[offset + 1] : 0; /* byte 1 of every message is its line */
    unsigned before = lub_server_taken(end, line);
    uint64_t answer = lub_server_take_at(end, sizeof end, packet, length, offset);
    refusals[lub_refusal(answer)]++;
    if (lub_refusal(answer) != 0) {
        on_refusal(line, lub_refusal(answer));
        return lub_refusal(answer);
    }
    /* A bay that was started again has another port. Who may speak for a line, check here: the library does not know. */
    lines[line].bay = *from;
    if (lub_server_taken(end, line) != before) /* an edit. Answering acknowledgements as well would never end. */
        lines[line].owed = 1;
    return 0;
}

/* Takes a packet. Messages that were taken before may stand at its front: behind them it goes on. */
static void take(const struct sockaddr_in *from, const uint8_t *packet, size_t length) {
    size_t offset = 0;
    unsigned refusal;
    do {
        refusal = take_message(from, packet, length, offset);
        offset += lub_message_length(packet, length, offset);
    } while (offset < length && (refusal == 0 || refusal == LUB_REFUSED_REPEAT));
}

static void take_all(void) {
    struct sockaddr_in from;
    uint8_t packet[PACKET + 1]; /* one more: a packet that is too long must not be cut to one that is not */
    long length;
    while ((length = net_receive(&net, &from, packet, sizeof packet)) >= 0)
        take(&from, packet, (size_t)length);
}

/* Has every bay acknowledged every edit? */
static int all_quiet(void) {
    unsigned line;
    for (line = 1; line <= LINES; line++)
        if (lub_server_acked(end, line) != lub_server_made(end, line))
            return 0;
    return 1;
}

static void print_all(void) {
    unsigned i;
    printf("list");
    for (i = 1; i <= lub_server_length(end); i++)
        printf(" %u@%u.%u", (unsigned)lub_server_item(end, i), lub_server_maker(end, i), lub_server_maker_number(end, i));
    printf("\n");
    print_counts(&net);
}

int main(int count, char **words) {
    struct options set = begin_program(count, words);
    unsigned line;
    net_open(&net, set.seed, set.loss);
    if (lub_server_open(end, sizeof end, LINES, ranks, sizeof ranks, opening, sizeof opening) != 0)
        give_up("the sheet cannot be opened", 0);
    printf("port %u\n", net_port(&net));
    fflush(stdout);
    while (stopped == 0 || (stopped == 1 && !all_quiet())) {
        int again = now_ms() >= resend_at;
        if (again)
            resend_at = now_ms() + RESEND_MS;
        take_all();
        for (line = 1; line <= LINES; line++)
            talk(line, again);
        net_wait(&net, resend_at);
    }
    print_all();
    return 0;
}
