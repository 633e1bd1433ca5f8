/*
 * The login server over UDP: answers access requests of the routers in the mill's book.
 *
 *   server MILL VISITORS [PORT [ADDRESS]]     port 1812 and every address unless told otherwise
 *
 * SIGHUP reads both book files anew; a broken one is refused and the old one kept, each book by itself. SIGTERM and SIGINT end it, and it
 * prints how many requests were answered and how many refused, by number. A refused request gets no answer.
 */
#include <arpa/inet.h>
#include <errno.h>
#include <netinet/in.h>
#include <poll.h>
#include <signal.h>
#include <stdio.h>
#include <stdlib.h>
#include <string.h>
#include <sys/signalfd.h>
#include <sys/socket.h>
#include <unistd.h>

#include "mis.h"

typedef struct {
    const char *what, *path;
    uint8_t bytes[MIS_BOOK_MOST];
    size_t length;
} book;

static book mill = { .what = "the mill's book" }, visitors = { .what = "the visitors' book" };
static unsigned long counts[256];

/* Reads a book file; a book that cannot be read or is broken leaves the old one. */
static int take(book *old)
{
    static uint8_t bytes[MIS_BOOK_MOST + 1];
    const char *why = NULL;
    size_t length = 0;
    FILE *file = fopen(old->path, "rb");

    if (file) {
        length = fread(bytes, 1, sizeof bytes, file);
        if (ferror(file)) why = "cannot be read";
        fclose(file);
    } else {
        why = "cannot be opened";
    }
    if (!why && !mis_book_whole(bytes, length)) why = "is broken";
    if (why) {
        printf("%s %s: refused\n", old->what, why);
    } else {
        memcpy(old->bytes, bytes, length);
        old->length = length;
        printf("%s: %zu bytes taken\n", old->what, length);
    }
    fflush(stdout);
    return !why;
}

static void answer(int s)
{
    static uint8_t message[65536], out[MIS_OUT_LOGIN];
    struct sockaddr_in from;
    socklen_t size = sizeof from;
    uint8_t source[4];

    ssize_t length = recvfrom(s, message, sizeof message, MSG_DONTWAIT, (struct sockaddr *)&from, &size);
    if (length < 0 || size != sizeof from || from.sin_family != AF_INET) return;
    memcpy(source, &from.sin_addr, 4);
    uint32_t result = mis_server_login(mill.bytes, mill.length, visitors.bytes, visitors.length, source, message, (size_t)length, out, sizeof out);
    counts[mis_number(result)]++;
    if (mis_written(result) > 0 && sendto(s, out, mis_written(result), 0, (struct sockaddr *)&from, size) < 0) perror("sendto");
}

static int bound(const char *port, const char *address)
{
    struct sockaddr_in here = { .sin_family = AF_INET, .sin_addr.s_addr = htonl(INADDR_ANY) };
    int s = socket(AF_INET, SOCK_DGRAM, 0), room = 4 << 20;

    char *end;
    unsigned long number = strtoul(port, &end, 10);
    if (!*port || *end || number < 1 || number > 65535) {
        fprintf(stderr, "%s is no port\n", port);
        exit(2);
    }
    here.sin_port = htons((uint16_t)number);
    if (address && inet_pton(AF_INET, address, &here.sin_addr) != 1) {
        fprintf(stderr, "%s is no IPv4 address\n", address);
        exit(2);
    }
    if (s < 0 || bind(s, (struct sockaddr *)&here, sizeof here)) {
        perror("the port cannot be bound");
        exit(2);
    }
    setsockopt(s, SOL_SOCKET, SO_RCVBUF, &room, sizeof room); /* as much as the system allows */
    return s;
}

/* Signals are read like messages, so that a server that is never idle takes them too. Gives 0 where the server is to end. */
static int signalled(int signals)
{
    struct signalfd_siginfo signal;

    if (read(signals, &signal, sizeof signal) != sizeof signal) return 1;
    if (signal.ssi_signo != SIGHUP) return 0;
    take(&mill);
    take(&visitors);
    return 1;
}

static void serve(int s, int signals)
{
    struct pollfd waits[2] = { { .fd = signals, .events = POLLIN }, { .fd = s, .events = POLLIN } };

    for (;;) {
        if (poll(waits, 2, -1) < 0 && errno != EINTR) {
            perror("poll");
            exit(1);
        }
        if (waits[0].revents && !signalled(signals)) return;
        if (waits[1].revents) answer(s);
    }
}

/* The three signals, blocked and to be read instead. */
static int signals(void)
{
    sigset_t ours;

    sigemptyset(&ours);
    sigaddset(&ours, SIGHUP);
    sigaddset(&ours, SIGTERM);
    sigaddset(&ours, SIGINT);
    sigprocmask(SIG_BLOCK, &ours, NULL);
    return signalfd(-1, &ours, SFD_NONBLOCK);
}

int main(int count, char **words)
{
    if (count < 3 || count > 5) {
        fprintf(stderr, "server MILL VISITORS [PORT [ADDRESS]]\n");
        return 2;
    }
    mill.path = words[1];
    visitors.path = words[2];
    if (!take(&mill) || !take(&visitors)) return 2;
    int s = bound(count > 3 ? words[3] : "1812", count > 4 ? words[4] : NULL);
    int asked = signals();
    if (asked < 0) {
        perror("signalfd");
        return 2;
    }
    printf("ready\n");
    fflush(stdout);
    serve(s, asked);
    printf("answered: %lu\n", counts[MIS_DONE]);
    for (int i = 1; i < 256; i++)
        if (counts[i]) printf("refused with %d: %lu\n", i, counts[i]);
    return 0;
}
