#include "common.h"

#include <fcntl.h>
#include <poll.h>
#include <stdio.h>
#include <stdlib.h>
#include <string.h>
#include <sys/socket.h>
#include <time.h>
#include <unistd.h>

#include "lubdranit.h"

const uint8_t ranks[LINES] = {2, 3, 4, 5, 1, 6, 7, 8};
const uint8_t opening[6 * 4] = {0, 0, 0, 10, 0, 0, 0, 20, 0, 0, 0, 30, 0, 0, 0, 40, 0, 0, 0, 50, 0, 0, 0, 60};

/* ---- switches, stopping, counts */

volatile sig_atomic_t stopped;
unsigned refusals[256];
static const char *program;

static void on_signal(int signal) {
    (void)signal;
    stopped++;
}

struct options begin_program(int count, char **words) {
    struct options set = {0, 0, 0, 1, 0, 60, NULL, 0};
    struct sigaction action;
    int letter;
    program = words[0];
    while ((letter = getopt(count, words, "p:l:e:d:vr:x:t:")) != -1) {
        switch (letter) {
        case 'p': set.port = (unsigned)atoi(optarg); break;
        case 'l': set.line = (unsigned)atoi(optarg); break;
        case 'e': set.edits = (unsigned)atoi(optarg); break;
        case 'd': set.folder = optarg; break;
        case 'v': set.verbose = 1; break;
        case 'r': set.seed = (unsigned)atoi(optarg); break;
        case 'x': set.loss = (unsigned)atoi(optarg); break;
        case 't': set.seconds = (unsigned)atoi(optarg); break;
        default: exit(2);
        }
    }
    memset(&action, 0, sizeof action);
    action.sa_handler = on_signal;
    sigaction(SIGTERM, &action, NULL);
    sigaction(SIGINT, &action, NULL);
    alarm(set.seconds); /* nobody catches this signal: it ends the program */
    return set;
}

void give_up(const char *what, unsigned number) {
    fprintf(stderr, "%s: %s (%u)\n", program, what, number);
    exit(1);
}

unsigned written(uint64_t answer) {
    if (lub_refusal(answer) != 0)
        give_up("a sending was refused", lub_refusal(answer));
    return lub_count(answer);
}

void print_counts(const struct net *net) {
    unsigned i;
    printf("count sent %u lost %u repeated %u overtaken %u", net->sent, net->lost, net->repeated, net->overtaken);
    for (i = 1; i < 256; i++)
        if (refusals[i] > 0)
            printf(" refused-%u %u", i, refusals[i]);
    printf("\n");
}

/* ---- packets */

long now_ms(void) {
    struct timespec now;
    clock_gettime(CLOCK_MONOTONIC, &now); /* a clock that nobody sets */
    return (long)now.tv_sec * 1000 + now.tv_nsec / 1000000;
}

unsigned random_below(uint64_t *state, unsigned bound) {
    *state = *state * 6364136223846793005u + 1442695040888963407u;
    return (unsigned)(*state >> 33) % bound;
}

struct sockaddr_in net_address(unsigned port) {
    struct sockaddr_in address;
    memset(&address, 0, sizeof address);
    address.sin_family = AF_INET;
    address.sin_port = htons((uint16_t)port);
    address.sin_addr.s_addr = htonl(INADDR_LOOPBACK);
    return address;
}

void net_open(struct net *net, uint64_t seed, unsigned loss) {
    struct sockaddr_in any = net_address(0);
    memset(net, 0, sizeof *net);
    net->random = seed;
    net->loss = loss;
    net->socket = socket(AF_INET, SOCK_DGRAM, 0);
    if (net->socket < 0 || bind(net->socket, (struct sockaddr *)&any, sizeof any) != 0)
        give_up("no socket", 0);
    fcntl(net->socket, F_SETFL, O_NONBLOCK);
}

unsigned net_port(const struct net *net) {
    struct sockaddr_in own = net_address(0);
    socklen_t length = sizeof own;
    getsockname(net->socket, (struct sockaddr *)&own, &length);
    return ntohs(own.sin_port);
}

static int by_chance(struct net *net) { return random_below(&net->random, 100) < net->loss; }

/* A packet that the system does not take is lost, like one on the way: it is sent again. */
static void put(struct net *net, const struct sockaddr_in *to, const uint8_t *packet, size_t length) {
    sendto(net->socket, packet, length, 0, (const struct sockaddr *)to, sizeof *to);
}

/* Keeps a packet back, to go out behind some of the next ones. */
static void hold(struct net *net, const struct sockaddr_in *to, const uint8_t *packet, size_t length) {
    net->held_to = *to;
    memcpy(net->held, packet, length);
    net->held_length = length;
    net->held_for = 2 + random_below(&net->random, 12); /* this call counts it once */
}

/* Sends a packet as a bad network would. Your program has one sendto here. */
void net_send(struct net *net, const struct sockaddr_in *to, const uint8_t *packet, size_t length) {
    net->sent++;
    if (by_chance(net)) {
        net->lost++;
    } else if (net->held_for == 0 && length <= sizeof net->held && by_chance(net)) {
        net->overtaken++;
        hold(net, to, packet, length);
    } else {
        put(net, to, packet, length);
        if (by_chance(net)) {
            net->repeated++;
            put(net, to, packet, length);
        }
    }
    if (net->held_for > 0 && --net->held_for == 0)
        put(net, &net->held_to, net->held, net->held_length);
}

long net_receive(struct net *net, struct sockaddr_in *from, uint8_t *packet, size_t room) {
    socklen_t length = sizeof *from;
    return (long)recvfrom(net->socket, packet, room, 0, (struct sockaddr *)from, &length);
}

void net_wait(const struct net *net, long until) {
    long left = until - now_ms();
    struct pollfd one;
    one.fd = net->socket;
    one.events = POLLIN;
    poll(&one, 1, left < 0 ? 0 : (int)left);
}

/* ---- an end in a folder of its own */

static const char *path_of(char *path, size_t room, const char *folder, const char *name) {
    if (snprintf(path, room, "%s/%s", folder, name) >= (int)room)
        give_up("the folder's name is too long", 0);
    return path;
}

static void flushed(int file, int fine) {
    if (file < 0 || !fine || fsync(file) != 0 || close(file) != 0)
        give_up("the end cannot be stored", 0);
}

/* A second copy is written and brought to the disk; then it takes the place of the first in one step. Whenever the power goes, one whole
 * copy is there. */
void store_save(const char *folder, const uint8_t *end, size_t length) {
    char first[512], second[512];
    int file = open(path_of(second, sizeof second, folder, "end.new"), O_WRONLY | O_CREAT | O_TRUNC, 0600);
    flushed(file, file >= 0 && write(file, end, length) == (ssize_t)length);
    if (rename(second, path_of(first, sizeof first, folder, "end")) != 0)
        give_up("the end cannot be stored", 0);
    flushed(open(folder, O_RDONLY), 1);
}

int store_load(const char *folder, uint8_t *end, size_t length) {
    char path[512];
    int file = open(path_of(path, sizeof path, folder, "end"), O_RDONLY);
    if (file < 0)
        return 0;
    if (read(file, end, length) != (ssize_t)length)
        give_up("the stored end is cut", 0);
    close(file);
    return 1;
}
