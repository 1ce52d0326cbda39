/* What both programs share: how the sheet is opened, packets over UDP on the loopback, bytes stored across a power loss, and their switches. */
#ifndef COMMON_H
#define COMMON_H

#include <netinet/in.h>
#include <signal.h>
#include <stddef.h>
#include <stdint.h>

/* ---- the sheet: every end has to be opened with the same. A bay that is opened otherwise shows another list. */

#define LINES 8
extern const uint8_t ranks[LINES];    /* bay 5 goes first where two insert at one place */
extern const uint8_t opening[6 * 4];  /* the list 10 20 30 40 50 60, four bytes each, high byte first */

/* ---- when to send: for the loopback. On your network a resend should wait for some round trips. */

#define RESEND_MS 25  /* what is not acknowledged by then is sent again, in one packet */
#define WINDOW 8     /* edits of a line that are sent one by one before that: behind a lost one all others come in vain */

/* ---- packets: one message each, or several end to end */

#define PACKET 1400   /* bytes of the longest */

struct net {
    int socket;
    uint64_t random;
    unsigned loss;               /* percent of the packets that get lost; of the rest so many are repeated, and so many held back */
    struct sockaddr_in held_to;  /* the one packet that is held back, its length, and how many others go first */
    uint8_t held[PACKET];
    size_t held_length;
    unsigned held_for;
    unsigned sent, lost, repeated, overtaken;
};

void net_open(struct net *net, uint64_t seed, unsigned loss);  /* at a free port of 127.0.0.1 */
struct sockaddr_in net_address(unsigned port);
unsigned net_port(const struct net *net);
void net_send(struct net *net, const struct sockaddr_in *to, const uint8_t *packet, size_t length);
long net_receive(struct net *net, struct sockaddr_in *from, uint8_t *packet, size_t room);  /* its length; -1: none is waiting */
void net_wait(const struct net *net, long until);                                           /* for a packet, a signal or that time */
long now_ms(void);
unsigned random_below(uint64_t *state, unsigned bound);

/* ---- an end in a folder of its own */

void store_save(const char *folder, const uint8_t *end, size_t length);
int store_load(const char *folder, uint8_t *end, size_t length);  /* 0: nothing is stored there */

/* ---- switches, stopping, counts */

struct options {
    unsigned port, line, edits, seed, loss, seconds;
    const char *folder;
    int verbose;
};

extern volatile sig_atomic_t stopped;  /* how often SIGTERM or Ctrl-C came */
extern unsigned refusals[256];         /* how often each number came, 0 too */

struct options begin_program(int count, char **words);  /* which ends by itself after -t seconds, whatever happens */
void give_up(const char *what, unsigned number);
unsigned written(uint64_t answer);  /* of a sending that nothing but a fault of this program or its memory refuses: the length */
void print_counts(const struct net *net);

#endif
