/* A bay's terminal, over UDP on the loopback: makes edits at random, says `done` when all are acknowledged, and goes on taking the others'
 * until SIGTERM or Ctrl-C. Then it prints its list and ends.
 *
 *     terminal -p PORT -l LINE [-e EDITS] [-d FOLDER] [-v] [-r SEED] [-x PERCENT] [-t SECONDS]
 *
 * With -d its end is kept in that folder, and it goes on from there when it is started again. -v tells of every edit that landed elsewhere
 * than its message put it. -r, -x and -t are the server's. */
#include <stdio.h>

#include "common.h"
#include "lubdranit.h"

static uint8_t end[LUB_CLIENT_BYTES];
static struct net net;
static struct sockaddr_in server;
static struct options set;

/* What the protocol does not keep. */
static unsigned sent;     /* pending edits up to this number were sent */
static int owed;          /* the server waits for an acknowledgement */
static int unsaved;       /* the end has changed since it was stored */
static unsigned left;     /* edits still to make */
static int only_deletes;  /* all inserts are made */
static long resend_at, edit_at;

/* Store, then send: what others have heard of must not be forgotten. */
static void save(void) {
    if (set.folder != NULL && unsaved)
        store_save(set.folder, end, sizeof end);
    unsaved = 0;
}

static void acknowledge(void) {
    uint8_t message[LUB_MESSAGE_BYTES];
    net_send(&net, &server, message, written(lub_client_acknowledge(end, sizeof end, (uint8_t)set.line, message, sizeof message)));
    owed = 0;
}

static void send_edit(unsigned number) {
    uint8_t message[LUB_MESSAGE_BYTES];
    net_send(&net, &server, message, written(lub_client_send(end, sizeof end, (uint8_t)set.line, (uint16_t)number, message, sizeof message)));
    owed = 0; /* an edit says as well how many were taken here */
}

/* One packet with an acknowledgement and behind it all edits that are not acknowledged, if there are any. The acknowledgement comes first: the
 * server reads nothing from an edit that it refuses, and with two bays 64 behind it refuses the edits of both until one acknowledges. Sent
 * now and then when all is quiet, it tells the server where this bay is. */
static void send_again(void) {
    uint8_t packet[PACKET];
    unsigned length = written(lub_client_acknowledge(end, sizeof end, (uint8_t)set.line, packet, sizeof packet));
    length += written(lub_client_pack(end, sizeof end, (uint8_t)set.line, packet, sizeof packet, length));
    net_send(&net, &server, packet, length);
    sent = lub_client_made(end);
    owed = 0;
}

/* Sends the edits that are new, each by itself, or again all that are not acknowledged. An acknowledgement goes by itself when no edit does. */
static void talk(int again) {
    unsigned acked = lub_client_acked(end), made = lub_client_made(end);
    save();
    if (again)
        send_again();
    if (sent < acked)
        sent = acked;
    if (owed && (sent == made || sent >= acked + WINDOW))
        acknowledge();
    while (sent < made && sent < acked + WINDOW)
        send_edit(++sent);
}

/* What to do when the server's message was refused. Nothing changed, whatever the number. */
static void on_refusal(unsigned refusal) {
    switch (refusal) {
    case LUB_REFUSED_REPEAT: /* our acknowledgement got lost: send it again */
    case LUB_REFUSED_GAP:    /* one before it is missing: say how far we are, the server sends it again */
        owed = 1;
        break;
    case LUB_REFUSED_OVERTAKEN: /* old news */
        break;
    case LUB_REFUSED_NO_MESSAGE: /* not from our server, though its address says so */
    case LUB_REFUSED_MISDIRECTED:
    case LUB_REFUSED_PACKET:
        fprintf(stderr, "terminal %u: a packet was dropped (%u)\n", set.line, refusal);
        break;
    default: /* 2 18: our bytes are damaged. 8 9: not the server of this sheet, or older bytes were put back, here or there. Do not go on. */
        give_up("a message cannot be taken", refusal);
    }
}

static void show_move(uint64_t answer) {
    if (!set.verbose || lub_arrived(answer) == lub_applied(answer))
        return;
    if (lub_applied(answer) == 0)
        printf("moved %u gone: this bay had deleted the same item\n", lub_arrived(answer));
    else
        printf("moved %u to %u, past %u edits of this bay\n", lub_arrived(answer), lub_applied(answer), lub_count(answer));
}

/* Takes the message at an offset of a packet: its refusal, or 0. */
static unsigned take_message(const uint8_t *packet, size_t length, size_t offset) {
    unsigned before = lub_client_taken(end);
    uint64_t answer = lub_client_take_at(end, sizeof end, packet, length, offset);
    refusals[lub_refusal(answer)]++;
    if (lub_refusal(answer) != 0) {
        on_refusal(lub_refusal(answer));
        return lub_refusal(answer);
    }
    unsaved = 1;
    if (lub_client_taken(end) != before) { /* an edit. Answering acknowledgements as well would never end. */
        owed = 1;
        show_move(answer);
    }
    return 0;
}

/* Takes a packet. Messages that were taken before may stand at its front: behind them it goes on. */
static void take(const uint8_t *packet, size_t length) {
    size_t offset = 0;
    unsigned refusal;
    do {
        refusal = take_message(packet, length, offset);
        offset += lub_message_length(packet, length, offset);
    } while (offset < length && (refusal == 0 || refusal == LUB_REFUSED_REPEAT));
}

static void take_all(void) {
    struct sockaddr_in from;
    uint8_t packet[PACKET + 1]; /* one more: a packet that is too long must not be cut to one that is not */
    long length;
    while ((length = net_receive(&net, &from, packet, sizeof packet)) >= 0)
        if (from.sin_port == server.sin_port && from.sin_addr.s_addr == server.sin_addr.s_addr)
            take(packet, (size_t)length);
}

/* Somebody at the bay: an insert or a delete somewhere; the longer the list, the more deletes. Items tell who made them: 312 is the edit of
 * bay 3 with number 12. */
static uint64_t make_edit(void) {
    unsigned length = lub_client_length(end);
    unsigned item = 100 * set.line + lub_client_made(end) + 1;
    if (!only_deletes && random_below(&net.random, 40) >= length)
        return lub_client_insert(end, sizeof end, (uint16_t)(1 + random_below(&net.random, length + 1)), item);
    return lub_client_delete(end, sizeof end, (uint16_t)(1 + random_below(&net.random, length + 1)));
}

static void edit(void) {
    unsigned refusal = lub_refusal(make_edit());
    refusals[refusal]++;
    switch (refusal) {
    case LUB_OK:
        unsaved = 1;
        left--;
        break;
    case LUB_REFUSED_POSITION: /* no such place: choose another. Without items and inserts there is none. */
        if (only_deletes && lub_client_length(end) == 0)
            left = 0;
        break;
    case LUB_REFUSED_INSERTS: only_deletes = 1; break;
    case LUB_REFUSED_EDITS: left = 0; break;
    case LUB_REFUSED_PENDING: break; /* the server is slow or away: try again later, or tell the user to wait */
    default: give_up("an edit cannot be made", refusal); /* 2 18: our bytes are damaged */
    }
    edit_at = now_ms() + random_below(&net.random, 20);
}

static void print_all(void) {
    unsigned i;
    printf("list");
    for (i = 1; i <= lub_client_length(end); i++)
        printf(" %u@%u.%u", (unsigned)lub_client_item(end, i), lub_client_maker(end, i), lub_client_maker_number(end, i));
    printf("\n");
    print_counts(&net);
}

/* Opens the end, or goes on with the one that is stored. */
static void begin(void) {
    if (set.folder != NULL && store_load(set.folder, end, sizeof end)) {
        left = set.edits > lub_client_made(end) ? set.edits - lub_client_made(end) : 0;
        return;
    }
    if (lub_client_open(end, sizeof end, LINES, (uint8_t)set.line, ranks, sizeof ranks, opening, sizeof opening) != 0)
        give_up("the sheet cannot be opened", set.line);
    unsaved = 1;
    left = set.edits;
}

static void run(void) {
    int said = 0;
    while (!stopped) {
        int again = now_ms() >= resend_at;
        if (again)
            resend_at = now_ms() + RESEND_MS;
        take_all();
        if (left > 0 && now_ms() >= edit_at)
            edit();
        talk(again);
        if (!said && left == 0 && lub_client_acked(end) == lub_client_made(end)) {
            said = 1;
            printf("done\n");
            fflush(stdout);
        }
        net_wait(&net, left > 0 && edit_at < resend_at ? edit_at : resend_at);
    }
}

int main(int count, char **words) {
    set = begin_program(count, words);
    net_open(&net, set.seed, set.loss);
    if (set.port == 0)
        give_up("-p and the server's port are missing", 0);
    server = net_address(set.port);
    begin();
    run();
    print_all();
    return 0;
}
