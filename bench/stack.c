// The most stack that each call uses. Each call runs on a stack of its own that was painted before; what is no longer painted was used.
#include <stdio.h>
#include <stdlib.h>
#include <string.h>
#include <ucontext.h>

#include "mis.h"

enum { STACK = 1 << 20, PAINT = 0xa5, NAME = 253, ROOM = 65536 };

static uint8_t stack[STACK] __attribute__((aligned(64)));
static ucontext_t caller, callee;

// The parties: the longest secret, password and account, 16 groups, and books of 65,536 bytes.
static uint8_t router[ROOM], node[ROOM], mill[ROOM], visitors[ROOM], secret[NAME], password[NAME], account[NAME], groups[MIS_GROUPS_MOST];
static const uint8_t router_address[6] = { 2, 0, 0, 0, 0, 1 }, node_address[6] = { 2, 0, 0, 0, 0, 9 }, ipv4[4] = { 10, 0, 0, 1 };
static const uint8_t position[12], seed[16];
static size_t router_size, node_size, mill_length, visitors_length;
static uint64_t ticks = 1000;

// The message of the next call, the last output, and the result.
static uint8_t message[MIS_OUT_LOGIN + 1], out[MIS_OUT_LOGIN], to[6], digest[16];
static size_t length;
static uint32_t result;

static void nothing(void) {}
static void md5(void) { mis_md5(message, length, digest); }
static void hmac_md5(void) { mis_hmac_md5(password, sizeof password, message, length, digest); }
static void router_set_up(void)
{
    result = mis_router_set_up(router, router_size, 1000, 10, 60, 4, router_address, ipv4, secret, sizeof secret, position, 20, groups,
                               sizeof groups);
}
static void router_beacon(void) { result = mis_router_beacon(router, router_size, ticks, 7, out, sizeof out, to); }
static void router_request(void)
{
    result = mis_router_request(router, router_size, ticks, node_address, message, length, out, sizeof out, to);
}
static void router_reply(void) { result = mis_router_reply(router, router_size, ticks, message, length, out, sizeof out, to); }
static void router_close(void) { result = mis_router_close(router, router_size, ticks, node_address, out, sizeof out, to); }
static void router_closed(void) { result = mis_router_closed(router, router_size, ticks, node_address, message, length); }
static void router_taken(void) { result = (uint32_t)mis_router_taken(router, router_size); }
static void router_count(void) { result = mis_router_count(router, router_size); }
static void node_set_up(void)
{
    result = mis_node_set_up(node, node_size, 10, 50, password, sizeof password, account, sizeof account, 2, 4, node_address, router_address);
}
static void node_hear(void) { result = mis_node_hear(node, node_size, ticks, seed, message, length, out, sizeof out, to); }
static void node_success(void) { result = mis_node_success(node, node_size, ticks, message, length); }
static void node_failure(void) { result = mis_node_failure(node, node_size, ticks, message, length); }
static void node_leave(void) { result = mis_node_leave(node, node_size, ticks, out, sizeof out, to); }
static void node_left(void) { result = mis_node_left(node, node_size, ticks, message, length); }
static void server_login(void)
{
    result = mis_server_login(mill, mill_length, visitors, visitors_length, ipv4, message, length, out, sizeof out);
}
static void book_whole(void) { result = mis_book_whole(mill, mill_length); }
static void reads(void) { result = mis_read(message, length); }
static void readauth(void) { result = mis_readauth(message, length); }

// What the readers of one kind hand out, and the writers take.
static uint64_t fields[MIS_BEACON_FIELDS];
static uint8_t place[12];
#define PART(at) message + fields[at], fields[(at) + 1]
#define DIGEST(at) message + fields[at]
static void read_beacon(void) { result = mis_read_beacon(message, length, fields, place); }
static void read_request(void) { result = mis_read_request(message, length, fields); }
static void read_success(void) { result = mis_read_success(message, length, fields); }
static void read_failure(void) { result = mis_read_failure(message, length, fields); }
static void read_terminating(void) { result = mis_read_terminating(message, length, fields); }
static void read_access_request(void) { result = mis_read_access_request(message, length, fields, place); }
static void read_accept(void) { result = mis_read_accept(message, length, fields); }
static void read_reject(void) { result = mis_read_reject(message, length, fields); }
static void write_beacon(void)
{
    result = mis_write_beacon(fields[MIS_BEACON_STAMP], PART(MIS_BEACON_GROUPS_AT), (uint16_t)fields[MIS_BEACON_SERIAL],
                              (uint16_t)fields[MIS_BEACON_INTERVAL], PART(MIS_BEACON_SECURITY_AT), PART(MIS_BEACON_NETWORKS_AT), true, position,
                              255, 1, true, 1, 2, 3, 255, out, sizeof out);
}
static void write_request(void)
{
    result = mis_write_request(false, fields[MIS_REQUEST_STAMP], PART(MIS_REQUEST_SECURITY_AT), DIGEST(MIS_REQUEST_CHECK_AT),
                               PART(MIS_REQUEST_ACCOUNT_AT), DIGEST(MIS_REQUEST_SEED_AT), PART(MIS_REQUEST_NETWORKS_AT), 1, out, sizeof out);
}
static void write_success(void)
{
    result = mis_write_success(false, fields[MIS_SUCCESS_STAMP], (uint16_t)fields[MIS_SUCCESS_LIFETIME], DIGEST(MIS_SUCCESS_CHECK_AT),
                               PART(MIS_SUCCESS_NETWORKS_AT), 1, 2, out, sizeof out);
}
static void write_failure(void)
{
    result = mis_write_failure(fields[MIS_FAILURE_STAMP], (uint16_t)fields[MIS_FAILURE_REASON], out, sizeof out);
}
static void write_terminating(void)
{
    result = mis_write_terminating(false, fields[MIS_TERMINATING_STAMP], DIGEST(MIS_TERMINATING_CHECK_AT), 1, out, sizeof out);
}
static void write_access_request(void)
{
    result = mis_write_access_request((uint8_t)fields[MIS_ACCESS_IDENTIFIER], PART(MIS_ACCESS_ACCOUNT_AT), DIGEST(MIS_ACCESS_DATA_AT),
                                      DIGEST(MIS_ACCESS_CHECK_AT), DIGEST(MIS_ACCESS_SEED_AT), (uint16_t)fields[MIS_ACCESS_SECURITY], place, 1, groups,
                                      0, groups, 0, true, groups, sizeof groups, out, sizeof out);
}
static void write_accept(void)
{
    result = mis_write_accept((uint8_t)fields[MIS_ACCEPT_IDENTIFIER], DIGEST(MIS_ACCEPT_KEY_AT), DIGEST(MIS_ACCEPT_CHECK_AT), groups, 0, out,
                              sizeof out);
}
static void write_reject(void) { result = mis_write_reject((uint8_t)fields[MIS_REJECT_IDENTIFIER], groups, 0, out, sizeof out); }

static struct {
    const char *name;
    void (*run)(void);
    size_t most;
} calls[] = {
    { "nothing", nothing, 0 },
    { "mis_md5", md5, 0 },
    { "mis_hmac_md5", hmac_md5, 0 },
    { "mis_router_set_up", router_set_up, 0 },
    { "mis_router_beacon", router_beacon, 0 },
    { "mis_router_request", router_request, 0 },
    { "mis_router_reply", router_reply, 0 },
    { "mis_router_close", router_close, 0 },
    { "mis_router_closed", router_closed, 0 },
    { "mis_router_taken", router_taken, 0 },
    { "mis_router_count", router_count, 0 },
    { "mis_node_set_up", node_set_up, 0 },
    { "mis_node_hear", node_hear, 0 },
    { "mis_node_success", node_success, 0 },
    { "mis_node_failure", node_failure, 0 },
    { "mis_node_leave", node_leave, 0 },
    { "mis_node_left", node_left, 0 },
    { "mis_server_login", server_login, 0 },
    { "mis_book_whole", book_whole, 0 },
    { "mis_read", reads, 0 },
    { "mis_readauth", readauth, 0 },
    { "mis_read_beacon", read_beacon, 0 },
    { "mis_read_request", read_request, 0 },
    { "mis_read_success", read_success, 0 },
    { "mis_read_failure", read_failure, 0 },
    { "mis_read_terminating", read_terminating, 0 },
    { "mis_read_access_request", read_access_request, 0 },
    { "mis_read_accept", read_accept, 0 },
    { "mis_read_reject", read_reject, 0 },
    { "mis_write_beacon", write_beacon, 0 },
    { "mis_write_request", write_request, 0 },
    { "mis_write_success", write_success, 0 },
    { "mis_write_failure", write_failure, 0 },
    { "mis_write_terminating", write_terminating, 0 },
    { "mis_write_access_request", write_access_request, 0 },
    { "mis_write_accept", write_accept, 0 },
    { "mis_write_reject", write_reject, 0 },
};
enum { CALLS = sizeof calls / sizeof *calls };

static void used(int i)
{
    size_t free = 0;

    memset(stack, PAINT, STACK);
    getcontext(&callee);
    callee.uc_stack.ss_sp = stack;
    callee.uc_stack.ss_size = STACK;
    callee.uc_link = &caller;
    makecontext(&callee, calls[i].run, 0);
    swapcontext(&caller, &callee);
    while (free < STACK && stack[free] == PAINT) free++;
    if (STACK - free > calls[i].most) calls[i].most = STACK - free;
}

// Runs a call that must hand back this number; what it wrote is the next one's message.
static void call(void (*run)(void), uint32_t number)
{
    for (int i = 0; i < CALLS; i++)
        if (calls[i].run == run) used(i);
    if (mis_number(result) != number) {
        printf("a call was answered with %u, not with %u\n", mis_number(result), number);
        exit(1);
    }
    if (mis_written(result) > 0) {
        length = mis_written(result);
        memcpy(message, out, length);
    }
    ticks++;
}

static size_t add(uint8_t *book, size_t at, const void *bytes, size_t count)
{
    book[at] = (uint8_t)count;
    memcpy(book + at + 1, bytes, count);
    return at + 1 + count;
}

// Accounts until the book has all its bytes; ours stands three before the mill's end.
static size_t make_book(uint8_t *book, int with_ours)
{
    size_t at = 0, count = 0, counted;

    book[at++] = 0, book[at++] = (uint8_t)with_ours;
    if (with_ours) {
        memcpy(book + at, ipv4, 4);
        at = add(book, at + 4, secret, sizeof secret);
    }
    counted = at;
    at += 2;
    for (; at + 2 * (1 + NAME) + 30 < ROOM; count++) {
        uint8_t name[4] = { (uint8_t)(count >> 8), (uint8_t)count, 'n', 'n' };
        at = add(book, add(book, at, name, 4), name, 4);
    }
    if (with_ours) at = add(book, add(book, at, account, NAME), password, NAME), count++;
    while (at < ROOM) {
        uint8_t name[NAME] = { (uint8_t)(count >> 8), (uint8_t)count, 'x' };
        size_t left = ROOM - at, size = left < 12 ? left - 4 : 4;
        at = add(book, add(book, at, name, 3 < size ? 3 : size - 1), name, left < 12 ? left - 2 - (3 < size ? 3 : size - 1) : 4);
        count++;
    }
    book[counted] = (uint8_t)(count >> 8), book[counted + 1] = (uint8_t)count;
    return at;
}

static uint8_t request[MIS_OUT_RADIO];
static size_t request_length;

// The message is read and written alone, and stays.
static void alone(void (*read)(void), void (*write)(void))
{
    static uint8_t kept[sizeof message];
    size_t kept_length = length;

    memcpy(kept, message, sizeof kept);
    call(read, 0);
    call(write, 0);
    length = kept_length;
    memcpy(message, kept, sizeof kept);
}

// The gauge's last request once more.
static void repeated(uint32_t number)
{
    length = request_length;
    memcpy(message, request, length);
    call(router_request, number);
}

// Its request is repeated while it waits and while its session is open.
static void one_login(void)
{
    call(router_beacon, 0);
    call(reads, 0);
    alone(read_beacon, write_beacon);
    call(node_hear, 0);
    call(reads, 0);
    alone(read_request, write_request);
    request_length = length;
    memcpy(request, message, length);
    call(router_request, 0);
    repeated(0);
    call(readauth, 0);
    alone(read_access_request, write_access_request);
    call(server_login, 0);
    call(readauth, 0);
    alone(read_accept, write_accept);
    call(router_reply, 0);
    call(reads, 0);
    alone(read_success, write_success);
    call(node_success, 0);
    repeated(0);
}

static int made(void)
{
    router_size = mis_router_size(), node_size = mis_node_size();
    memset(secret, 's', NAME), memset(password, 'p', NAME), memset(account, 'a', NAME);
    mill_length = make_book(mill, 1), visitors_length = make_book(visitors, 0);
    return mill_length == ROOM && visitors_length == ROOM && mis_book_whole(mill, mill_length) && mis_book_whole(visitors, visitors_length);
}

// A login that the server rejects, past the window of what went before: an old request, and the place is free again.
static void rejected(void)
{
    password[0] ^= 1;
    call(node_set_up, 0);
    ticks += 2000;
    repeated(MIS_STAMP_OLD);
    call(router_beacon, 0);
    call(node_hear, 0);
    call(router_request, 0);
    call(server_login, 0);
    alone(read_reject, write_reject);
    call(router_reply, 0);
    alone(read_failure, write_failure);
    call(node_failure, 0);
    call(node_failure, MIS_NOT_EXPECTED);
    call(router_request, MIS_OTHER_CODE);
}

int main(void)
{
    if (!made()) {
        printf("the books of %zu and %zu bytes are broken\n", mill_length, visitors_length);
        return 1;
    }
    call(nothing, 0);
    call(book_whole, 1);
    call(router_set_up, 0);
    call(node_set_up, 0);

    // a login that the node ends, one that the router ends, one that the server rejects
    one_login();
    call(router_taken, 1);
    call(router_count, 1);
    call(node_leave, 0);
    call(reads, 0);
    alone(read_terminating, write_terminating);
    call(router_closed, 0);
    one_login();
    call(router_close, 0);
    call(node_left, 0);
    rejected();
    length = sizeof message;
    call(md5, mis_number(result));
    call(hmac_md5, mis_number(result));
    for (int i = 1; i < CALLS; i++) printf("%-24s %6zu\n", calls[i].name, calls[i].most - calls[0].most);
    return 0;
}
