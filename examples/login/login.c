/*
 * One login of a gauge through router and server over the boundary, then a terminating message. Each step prints its number, to whom the
 * message goes and its bytes. Here the parties stand in one program and hand each other the bytes; in a mill radio and network do.
 */
#include <stdio.h>
#include <stdlib.h>
#include <string.h>

#include "mis.h"

static const uint8_t router_address[6] = { 2, 0, 0, 0, 0, 1 }, gauge_address[6] = { 2, 0, 0, 0, 0, 9 };
static const uint8_t router_ipv4[4] = { 10, 0, 0, 1 };
static const uint8_t position[12] = { 0, 0x3d, 0x80, 0, 0, 0x17, 0x80, 0, 0, 12, 0, 4 };
static const uint8_t group[4] = { 0, 0, 0, 1 };
static const char secret[] = "hall three", password[] = "reel seven", account[] = "gauge-9@mill";

/* Everywhere but in an example the seed comes from a good random source, fresh for each call. */
static const uint8_t seed[16] = { 0, 1, 2, 3, 4, 5, 6, 7, 8, 9, 10, 11, 12, 13, 14, 15 };

/* The message under way, and the address it goes to. */
static uint8_t message[MIS_OUT_LOGIN], to[6];
static size_t length;

static void print_hex(const uint8_t *bytes, size_t count)
{
    for (size_t i = 0; i < count; i++) printf("%02x", bytes[i]);
}

/* Prints a step; what it wrote, if anything, is the message of the next. */
static void step(const char *what, uint32_t result, const uint8_t *out)
{
    printf("%s: %u", what, mis_number(result));
    if (mis_written(result) > 0) {
        length = mis_written(result);
        memcpy(message, out, length);
        printf(", to ");
        switch (mis_destination(result)) {
        case MIS_TO_EVERYONE: printf("everyone"); break;
        case MIS_TO_SERVER: printf("the server"); break;
        case MIS_TO_ADDRESS: print_hex(to, 6); break;
        default: printf("where the request came from");
        }
        printf(": ");
        print_hex(message, length);
    }
    printf("\n");
}

static size_t add(uint8_t *book, size_t at, const void *bytes, size_t count, int counted)
{
    if (counted) book[at++] = (uint8_t)count;
    memcpy(book + at, bytes, count);
    return at + count;
}

/* The mill's book: one router with its secret, one account with its password. */
static size_t make_book(uint8_t *book)
{
    size_t at = add(book, 0, "\0\1", 2, 0);
    at = add(book, at, router_ipv4, 4, 0);
    at = add(book, at, secret, strlen(secret), 1);
    at = add(book, at, "\0\1", 2, 0);
    at = add(book, at, account, strlen(account), 1);
    return add(book, at, password, strlen(password), 1);
}

static void set_up(uint8_t *router, uint8_t *gauge)
{
    step("the router is set up",
         mis_router_set_up(router, mis_router_size(), 100, 10, 60, 4, router_address, router_ipv4, (const uint8_t *)secret, strlen(secret),
                           position, 20, group, sizeof group),
         NULL);
    step("the gauge is set up",
         mis_node_set_up(gauge, mis_node_size(), 10, 50, (const uint8_t *)password, strlen(password), (const uint8_t *)account, strlen(account),
                         2, 4, gauge_address, router_address),
         NULL);
}

/* Opens a session: beacon, request, access request, accept, success. Then the gauge leaves. */
static void steps(uint8_t *router, uint8_t *gauge, const uint8_t *mill, size_t mill_length)
{
    static uint8_t out[MIS_OUT_LOGIN];
    static const uint8_t visitors[4]; /* no router and no account */
    const size_t r = mis_router_size(), g = mis_node_size();

    step("beacon from the router", mis_router_beacon(router, r, 1000, 1, out, sizeof out, to), out);
    step("request from the gauge", mis_node_hear(gauge, g, 1001, seed, message, length, out, sizeof out, to), out);
    step("access request from the router", mis_router_request(router, r, 1002, gauge_address, message, length, out, sizeof out, to), out);
    step("accept from the server", mis_server_login(mill, mill_length, visitors, sizeof visitors, router_ipv4, message, length, out, sizeof out),
         out);
    step("success from the router", mis_router_reply(router, r, 1003, message, length, out, sizeof out, to), out);
    step("the gauge opens", mis_node_success(gauge, g, 1004, message, length), NULL);
    printf("places taken: %llu, in number %u\n", (unsigned long long)mis_router_taken(router, r), mis_router_count(router, r));
    step("terminating message from the gauge", mis_node_leave(gauge, g, 1005, out, sizeof out, to), out);
    step("the router closes", mis_router_closed(router, r, 1006, gauge_address, message, length), NULL);
    step("the same once more", mis_router_closed(router, r, 1007, gauge_address, message, length), NULL);
}

int main(void)
{
    uint8_t mill[256], *router = malloc(mis_router_size()), *gauge = malloc(mis_node_size());

    if (!router || !gauge) return 2;
    size_t mill_length = make_book(mill);
    printf("the mill's book is whole: %d\n", mis_book_whole(mill, mill_length));
    set_up(router, gauge);
    steps(router, gauge, mill, mill_length);
    free(router);
    free(gauge);
    return 0;
}
