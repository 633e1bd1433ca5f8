/*
 * Sends logins to the server over UDP, as a router with many gauges would, and checks each answer with MD5 and HMAC-MD5 of its own
 * (bench/plain.c). It sends nothing twice: a login without an answer is lost.
 *
 *   client [-a] ADDRESS PORT SECRET LOGINS WINDOW ACCOUNTS [OLD [NEW]]
 *
 * WINDOW logins, 64 at most, are under way at a time. The accounts are gauge-0@mill and so on, their number ACCOUNTS; the password of account
 * i is OLD-i (`old` unless told otherwise). Every tenth login carries a wrong password and every tenth an unknown name: both must be rejected;
 * with -a all logins are right.
 * With NEW the server is expected to change its book under way: every second login is made with the password NEW-i, and the answers must be
 * those of the old book up to some login, then those of the new one; more logins follow, up to 20 times as many, while the new book is not
 * seen. `half` is printed when half of the logins are answered.
 */
#define _GNU_SOURCE
#include <arpa/inet.h>
#include <netinet/in.h>
#include <poll.h>
#include <stdio.h>
#include <stdlib.h>
#include <string.h>
#include <sys/socket.h>
#include <time.h>
#include <unistd.h>

#include "plain.h"

enum { WINDOW = 64, PATIENCE = 5000 };
enum { ACCEPT = 2, REJECT = 3 };

/* What a login was made with. */
enum kind { OLD, NEW, WRONG };

typedef struct {
    int waits;
    enum kind kind;
    uint8_t check[16], key[16];
} attempt;

static attempt attempts[WINDOW];
static const char *secret, *passwords[2] = { "old", NULL };
static unsigned long sent, answered, accepted, rejected, wrong, accounts;
static int changed;   /* an answer of the new book was seen */
static int all_right; /* no login is to be rejected */

/* The same at each run, for a test; a gauge's seeds come from a good random source. */
static void random_bytes(uint8_t bytes[16])
{
    static uint64_t state = 88172645463325252u;
    for (int i = 0; i < 16; i++) {
        state ^= state << 13;
        state ^= state >> 7;
        state ^= state << 17;
        bytes[i] = (uint8_t)(state >> 8);
    }
}

static void hmac(const char *key, const uint8_t *bytes, size_t length, uint8_t code[16])
{
    plain_hmac_md5((const uint8_t *)key, strlen(key), bytes, length, code);
}

static size_t object(uint8_t *message, size_t at, uint8_t type, const void *value, size_t length)
{
    message[at] = type;
    message[at + 1] = (uint8_t)(length + 2);
    memcpy(message + at + 2, value, length);
    return at + 2 + length;
}

/* Puts the HMAC-MD5 of the message with its Authenticator zero into the code. */
static void authenticator(uint8_t *message, size_t length, uint8_t code[16])
{
    uint8_t field[16];
    memcpy(field, message + 4, 16);
    memset(message + 4, 0, 16);
    hmac(secret, message, length, code);
    memcpy(message + 4, field, 16);
}

/* Makes the access request of an attempt; gives its length. */
static size_t make(attempt *a, int identifier, uint8_t *message)
{
    static const uint8_t position[12], type[2] = { 0, 2 };
    unsigned long account = sent % accounts, turn = all_right ? 0 : sent % 10;
    char name[40], password[40];
    uint8_t data[16], seed[16], code[16];

    a->kind = turn == 3 || turn == 8 ? WRONG : passwords[1] && sent % 2 ? NEW : OLD;
    snprintf(name, sizeof name, turn == 3 ? "stranger-%lu@mill" : "gauge-%lu@mill", account);
    snprintf(password, sizeof password, "%s-%lu", a->kind == WRONG ? "neither" : passwords[a->kind], account);
    random_bytes(data);
    random_bytes(seed);
    hmac(password, data, 16, a->check);
    hmac(password, seed, 16, a->key);

    memset(message, 0, 20);
    message[0] = 1;
    message[1] = (uint8_t)identifier;
    size_t length = object(message, 20, 1, name, strlen(name));
    length = object(message, length, 200, data, 16);
    length = object(message, length, 201, a->check, 16);
    length = object(message, length, 202, seed, 16);
    length = object(message, length, 205, type, 2);
    length = object(message, length, 204, position, 12);
    message[2] = (uint8_t)(length >> 8);
    message[3] = (uint8_t)length;
    authenticator(message, length, code);
    memcpy(message + 4, code, 16);
    a->waits = 1;
    sent++;
    return length;
}

/* Whether an accept holds the session key under the mask, and the check value. */
static int right_accept(const attempt *a, const uint8_t *message, size_t length)
{
    uint8_t mask[16];

    if (length != 56 || message[20] != 203 || message[21] != 18 || message[38] != 201 || message[39] != 18) return 0;
    if (memcmp(message + 40, a->check, 16)) return 0;
    hmac(secret, a->check, 16, mask);
    for (int i = 0; i < 16; i++)
        if ((message[22 + i] ^ mask[i]) != a->key[i]) return 0;
    return 1;
}

/* Whether the answer is that of the old book, or, once the change was seen, that of the new one. */
static int right_book(enum kind kind, int accept)
{
    if (kind == WRONG) return !accept;
    if (!passwords[1]) return accept;
    int by_new = (kind == NEW) == accept;
    if (by_new) changed = 1;
    return by_new == changed;
}

static int right(attempt *a, uint8_t *message, size_t length)
{
    uint8_t code[16];

    if (length < 20 || (size_t)(message[2] << 8 | message[3]) != length) return 0;
    authenticator(message, length, code);
    if (memcmp(code, message + 4, 16)) return 0;
    if (message[0] == ACCEPT) accepted++;
    else rejected++;
    if (message[0] == ACCEPT ? !right_accept(a, message, length) : message[0] != REJECT || length != 20) return 0;
    return right_book(a->kind, message[0] == ACCEPT);
}

static double now(void)
{
    struct timespec t;
    clock_gettime(CLOCK_MONOTONIC, &t);
    return (double)t.tv_sec + 1e-9 * (double)t.tv_nsec;
}

static int reached(const char *address, const char *port)
{
    struct sockaddr_in server = { .sin_family = AF_INET, .sin_port = htons((uint16_t)atoi(port)) };
    int s = socket(AF_INET, SOCK_DGRAM, 0);

    if (s < 0 || inet_pton(AF_INET, address, &server.sin_addr) != 1 || connect(s, (struct sockaddr *)&server, sizeof server)) {
        perror("the server cannot be reached");
        exit(2);
    }
    return s;
}

static void send_one(int s, int slot)
{
    uint8_t message[512];
    size_t length = make(&attempts[slot], slot, message);
    if (send(s, message, length, 0) != (ssize_t)length) perror("send");
}

/* Takes one answer; gives its slot, or -1 where it belongs to none. */
static int take_one(int s)
{
    uint8_t message[4096];
    ssize_t length = recv(s, message, sizeof message, 0);

    if (length < 2 || message[1] >= WINDOW || !attempts[message[1]].waits) {
        wrong++;
        return -1;
    }
    attempt *a = &attempts[message[1]];
    a->waits = 0;
    answered++;
    if (!right(a, message, (size_t)length)) wrong++;
    return message[1];
}

int main(int count, char **words)
{
    if (count > 1 && !strcmp(words[1], "-a")) all_right = 1, count--, words++;
    if (count < 7 || count > 9) {
        fprintf(stderr, "client [-a] ADDRESS PORT SECRET LOGINS WINDOW ACCOUNTS [OLD [NEW]]\n");
        return 2;
    }
    secret = words[3];
    unsigned long logins = strtoul(words[4], NULL, 10);
    int window = atoi(words[5]);
    accounts = strtoul(words[6], NULL, 10);
    if (count > 7) passwords[0] = words[7];
    if (count > 8) passwords[1] = words[8];
    if (window < 1 || window > WINDOW || accounts < 1) return 2;

    int s = reached(words[1], words[2]);
    struct pollfd waits = { .fd = s, .events = POLLIN };
    double start = now();
    unsigned long limit = logins;
    for (int slot = 0; slot < window && sent < logins; slot++) send_one(s, slot);
    while (answered < sent && poll(&waits, 1, PATIENCE) > 0) {
        int slot = take_one(s);
        if (slot < 0) continue;
        if (answered == logins / 2) {
            printf("half\n");
            fflush(stdout);
        }
        if (sent == limit && passwords[1] && !changed && limit < 20 * logins) limit += logins / 2 + 1;
        if (sent < limit) send_one(s, slot);
    }
    double took = now() - start;
    printf("sent %lu, accepted %lu, rejected %lu, lost %lu, answered wrongly %lu\n", sent, accepted, rejected, sent - answered, wrong);
    if (passwords[1]) printf("the new book was %s\n", changed ? "seen" : "not seen");
    printf("%.0f logins a second\n", (double)answered / took);
    return sent < limit || answered < sent || wrong > 0 || (passwords[1] && !changed);
}
