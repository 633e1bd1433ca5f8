// Times the proved server login and router request beside the second program's, by turns within one run, after seeing that all give the
// same bytes (the second program as it is, at logins, on every tenth request). Prints the least time of a call and the middle one of the turns' ratios, which a load that comes and goes moves least.
#include <stdio.h>
#include <stdlib.h>
#include <string.h>
#include <time.h>

#include "mis.h"
#include "plain.h"

// The second program (parties.rs): as it is, and with a quicker test of a book.
#define PARTIES(name) \
    uint32_t name##_login(const uint8_t *mill, size_t mill_length, const uint8_t *visitors, size_t visitors_length, const uint8_t source[4], \
                          const uint8_t *message, size_t length, uint8_t *out, size_t room); \
    size_t name##_router_size(void); \
    uint32_t name##_router_set_up(void *state, uint64_t window, uint64_t unit, uint64_t lifetime, uint64_t network, const uint8_t address[6], \
                                  const uint8_t *secret, size_t secret_length, const uint8_t position[12]); \
    uint32_t name##_router_request(void *state, uint64_t clock, const uint8_t from[6], const uint8_t *message, size_t length, uint8_t *out, \
                                   size_t room);
PARTIES(second)
PARTIES(quick)

enum { REQUESTS = 10000, BATCH = 100, MOST_ROUNDS = 100, ACCOUNTS = 200, LENGTH = 300, NODES = 64 };
#define WINDOW 1000000000

typedef struct {
    uint8_t bytes[512];
    size_t length;
} message;

static message *requests;
static uint8_t mill[65536], visitors[65536];
static size_t mill_length, visitors_length;
static uint8_t out[3][MIS_OUT_LOGIN];
static const uint8_t source[4] = { 10, 0, 0, 7 }, router[6] = { 2, 0, 0, 0, 0, 1 }, position[12];
static const uint8_t secret[16] = "router's secret";

// ---- messages

static void put(message *m, const void *bytes, size_t length)
{
    memcpy(m->bytes + m->length, bytes, length);
    m->length += length;
}

static void object(message *m, uint8_t type, const void *value, size_t length)
{
    uint8_t head[2] = { type, (uint8_t)(length + 2) };
    put(m, head, 2);
    put(m, value, length);
}

static void set_length(message *m)
{
    m->bytes[2] = (uint8_t)(m->length >> 8);
    m->bytes[3] = (uint8_t)m->length;
}

// Any bytes; the same at each run.
static void fill(uint8_t *bytes, size_t length)
{
    static uint64_t state = 88172645463325252u;
    for (size_t i = 0; i < length; i++) {
        state ^= state << 13;
        state ^= state >> 7;
        state ^= state << 17;
        bytes[i] = (uint8_t)state;
    }
}

static void name_of(unsigned account, uint8_t *name, size_t length)
{
    memset(name, 'x', length);
    name[0] = 'g';
    for (int i = 4; i > 0; i--, account /= 10)
        name[i] = (uint8_t)('0' + account % 10);
}

static void password_of(unsigned account, uint8_t password[16])
{
    name_of(account, password, 16);
    password[15] = 'p';
}

// The mill's book: one router and the accounts. The visitors' book is empty.
static void make_books(size_t name_length)
{
    uint8_t *p = mill;
    *p++ = 0, *p++ = 1;
    memcpy(p, source, 4), p += 4;
    *p++ = sizeof secret, memcpy(p, secret, sizeof secret), p += sizeof secret;
    *p++ = 0, *p++ = ACCOUNTS;
    for (unsigned i = 0; i < ACCOUNTS; i++) {
        *p++ = (uint8_t)name_length, name_of(i, p, name_length), p += name_length;
        *p++ = 16, password_of(i, p), p += 16;
    }
    mill_length = (size_t)(p - mill);
    visitors_length = 4;
}

// A right access request of LENGTH bytes; a proxy object fills what the name leaves.
static void access_request(message *m, unsigned number, size_t name_length)
{
    static const uint8_t type[2] = { 0, 2 };
    uint8_t head[20] = { 1, (uint8_t)(number % 64) }, name[253], password[16], data[16], check[16], seed[16], filler[253];

    name_of(number % ACCOUNTS, name, name_length);
    password_of(number % ACCOUNTS, password);
    fill(data, 16), fill(seed, 16), fill(filler, sizeof filler);
    plain_hmac_md5(password, 16, data, 16, check);
    m->length = 0;
    put(m, head, 20);
    object(m, 1, name, name_length);
    object(m, 200, data, 16);
    object(m, 201, check, 16);
    object(m, 202, seed, 16);
    object(m, 205, type, 2);
    object(m, 204, position, 12);
    if (m->length < LENGTH)
        object(m, 33, filler, LENGTH - m->length - 2);
    set_length(m);
    plain_hmac_md5(secret, sizeof secret, m->bytes, m->length, check);
    memcpy(m->bytes + 4, check, 16);
}

// A gauge's request; the router does not look into its check value.
static void radio_request(message *m, uint64_t stamp, size_t name_length)
{
    static const uint8_t type[2] = { 0, 2 }, network[2] = { 0, 4 };
    uint8_t head[4] = { 3 }, name[253], check[16], seed[16], stamped[8];

    for (int i = 0; i < 8; i++)
        stamped[i] = (uint8_t)(stamp >> 8 * (7 - i));
    name_of((unsigned)stamp % ACCOUNTS, name, name_length);
    fill(check, 16), fill(seed, 16);
    m->length = 0;
    put(m, head, 4);
    object(m, 2, stamped, 8);
    object(m, 18, type, 2);
    object(m, 5, check, 16);
    object(m, 6, name, name_length);
    object(m, 8, seed, 16);
    object(m, 21, network, 2);
    set_length(m);
}

// ---- the calls, each on request i

typedef uint32_t (*call)(int i, uint8_t *out);

static uint32_t proved_login(int i, uint8_t *out)
{
    return mis_server_login(mill, mill_length, visitors, visitors_length, source, requests[i].bytes, requests[i].length, out, MIS_OUT_LOGIN);
}

static uint32_t second_at(int i, uint8_t *out)
{
    return second_login(mill, mill_length, visitors, visitors_length, source, requests[i].bytes, requests[i].length, out, MIS_OUT_LOGIN);
}

static uint32_t quick_at(int i, uint8_t *out)
{
    return quick_login(mill, mill_length, visitors, visitors_length, source, requests[i].bytes, requests[i].length, out, MIS_OUT_LOGIN);
}

static uint8_t *proved_state;
static void *second_state, *quick_state;
static uint64_t clock_of(int i) { return (uint64_t)i + 1; }

static const uint8_t *node(int i)
{
    static uint8_t address[6] = { 2, 0, 0, 0, 1, 0 };
    address[5] = (uint8_t)(i % NODES);
    return address;
}

static uint32_t proved_request(int i, uint8_t *out)
{
    uint8_t to[6];
    return mis_router_request(proved_state, mis_router_size(), clock_of(i), node(i), requests[i].bytes, requests[i].length, out,
                              MIS_OUT_LOGIN, to);
}

static uint32_t second_request(int i, uint8_t *out)
{
    return second_router_request(second_state, clock_of(i), node(i), requests[i].bytes, requests[i].length, out, MIS_OUT_LOGIN);
}

static uint32_t quick_request(int i, uint8_t *out)
{
    return quick_router_request(quick_state, clock_of(i), node(i), requests[i].bytes, requests[i].length, out, MIS_OUT_LOGIN);
}

static void set_up_routers(void)
{
    uint32_t refused = mis_router_set_up(proved_state, mis_router_size(), WINDOW, 1, 1, 4, router, source, secret, sizeof secret, position, 1,
                                         out[0], 0);
    refused |= second_router_set_up(second_state, WINDOW, 1, 1, 4, router, secret, sizeof secret, position);
    refused |= quick_router_set_up(quick_state, WINDOW, 1, 1, 4, router, secret, sizeof secret, position);
    if (refused) {
        puts("a router was not set up");
        exit(1);
    }
}

// ---- comparing and timing

static void same(const char *what, int i, uint32_t proved, uint32_t other, const uint8_t *bytes)
{
    if (mis_number(proved) || mis_number(other) || mis_written(proved) == 0 || mis_written(proved) != mis_written(other) ||
        memcmp(out[0], bytes, mis_written(proved))) {
        printf("%s: the programs differ, or refuse, at request %d: %08x, %08x\n", what, i, proved, other);
        exit(1);
    }
}

static void agree(const char *what, const call calls[3], int each)
{
    for (int i = 0; i < REQUESTS; i++) {
        uint32_t proved = calls[0](i, out[0]);
        same(what, i, proved, calls[2](i, out[2]), out[2]);
        if (i % each == 0) same(what, i, proved, calls[1](i, out[1]), out[1]);
    }
}

static double seconds(call c, int from, uint8_t *out)
{
    struct timespec start, end;

    clock_gettime(CLOCK_MONOTONIC, &start);
    for (int i = from; i < from + BATCH; i++)
        c(i, out);
    clock_gettime(CLOCK_MONOTONIC, &end);
    return (double)(end.tv_sec - start.tv_sec) + 1e-9 * (double)(end.tv_nsec - start.tv_nsec);
}

static int order(const void *a, const void *b)
{
    double x = *(const double *)a, y = *(const double *)b;

    return (x > y) - (x < y);
}

// Each round goes through all requests; `begin` sets the states up anew before it. Of the second program as it is, which is slow with a
// book, one batch of `each` is enough.
static void timed(const char *what, const call calls[3], void (*begin)(void), int rounds, int each)
{
    static double ratios[3][REQUESTS];
    double best[3] = { 1e9, 1e9, 1e9 };
    int turns[3] = { 0, 0, 0 };

    if (begin) begin();
    agree(what, calls, each);
    for (int round = 0; round < rounds; round++) {
        if (begin) begin();
        for (int from = 0; from < REQUESTS; from += BATCH) {
            double took[3];
            for (int k = 0; k < 3; k++) {
                if (k == 1 && from / BATCH % each) continue;
                took[k] = seconds(calls[k], from, out[k]);
                if (took[k] < best[k]) best[k] = took[k];
                ratios[k][turns[k]++] = took[0] / took[k];
            }
        }
    }
    for (int k = 1; k < 3; k++) qsort(ratios[k], (size_t)turns[k], sizeof(double), order);
    printf("%s: proved %.2f us; the second program %.2f us, ratio %.2f; with a quicker book %.2f us, ratio %.2f\n", what, 1e6 * best[0] / BATCH,
           1e6 * best[1] / BATCH, ratios[1][turns[1] / 2], 1e6 * best[2] / BATCH, ratios[2][turns[2] / 2]);
    fflush(stdout);
}

static void *room(size_t size)
{
    void *p = NULL;
    if (posix_memalign(&p, 64, size)) exit(2);
    memset(p, 0, size);
    return p;
}

// The word is the number of rounds, 3 unless told otherwise.
int main(int count, char **words)
{
    int rounds = count > 1 ? atoi(words[1]) : 3;
    static const size_t names[] = { LENGTH - 94, 14 };
    static const call logins[3] = { proved_login, second_at, quick_at };

    if (rounds < 1 || rounds > MOST_ROUNDS) return 2;
    requests = room(REQUESTS * sizeof *requests);
    for (size_t k = 0; k < 2; k++) {
        char what[80];
        make_books(names[k]);
        for (unsigned i = 0; i < REQUESTS; i++)
            access_request(&requests[i], i, names[k]);
        snprintf(what, sizeof what, "login, requests of %zu bytes, names of %zu", requests[0].length, names[k]);
        timed(what, logins, NULL, rounds, 10);
    }
    static const call router_calls[3] = { proved_request, second_request, quick_request };
    proved_state = room(mis_router_size());
    second_state = room(second_router_size());
    quick_state = room(quick_router_size());
    for (size_t k = 0; k < 2; k++) {
        char what[80];
        for (unsigned i = 0; i < REQUESTS; i++)
            radio_request(&requests[i], i + 1, k ? 14 : LENGTH - 60);
        snprintf(what, sizeof what, "router request of %zu bytes", requests[0].length);
        timed(what, router_calls, set_up_routers, rounds, 1);
    }
    return 0;
}
