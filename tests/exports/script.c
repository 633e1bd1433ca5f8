/*
 * Reads the script of `replay` from standard input and makes its calls over the boundary: the second program's answers to the same script
 * are what it must print. `places` and `state` show what only the library knows: a line of theirs prints `unknown`. `read` and `readauth`
 * print number, code, S or Identifier and the fields by rising type, as the second program does; of types that repeat how many there are.
 *
 * Beside the answers it sees to it that a call leaves what it does not write: each buffer (of those that a writer reads, the runs of objects
 * alone) ends before a page that cannot be touched, so that reading or writing past it ends the program; bytes of an output past the message,
 * an address where none is told, and the buffer of a refused setup stay; a call on a state of a wrong size answers MIS_MISUSE and changes
 * nothing; a message that was read is written and read back as the same fields.
 */
#include <stdarg.h>
#include <stdio.h>
#include <stdlib.h>
#include <string.h>
#include <sys/mman.h>

#include "mis.h"

enum { LINE = 300000, NODES = 8, ROOM = 4096, PATTERN = 0xa5, PAGE = 4096 };

/* A buffer whose last byte stands before a page that cannot be touched. */
typedef struct {
    uint8_t *end;
    size_t most;
} guarded;

typedef struct {
    const uint8_t *bytes;
    size_t length;
} text;

static guarded outputs, states, texts[4], small[4], numbers;
static uint8_t *router, *nodes[NODES];
static text books[2];
static int lent;
static size_t room = ROOM;

static void fail(const char *what)
{
    fflush(stdout);
    fprintf(stderr, "over the boundary: %s\n", what);
    exit(1);
}

static guarded guard(size_t most)
{
    size_t size = (most + PAGE - 1) / PAGE * PAGE;
    uint8_t *p = mmap(NULL, size + PAGE, PROT_READ | PROT_WRITE, MAP_PRIVATE | MAP_ANONYMOUS, -1, 0);
    if (p == MAP_FAILED || mprotect(p + size, PAGE, PROT_NONE)) fail("no memory");
    return (guarded){ p + size, most };
}

/* ---- words of a line */

static char *rest; /* what is left of the line; NULL after its last word */

static char *word(void)
{
    char *w = rest;
    if (w) {
        rest = strchr(w, ' ');
        if (rest) *rest++ = 0;
    }
    return w;
}

static int number(uint64_t *value)
{
    const char *w = word();
    if (!w || !*w) return 0;
    for (*value = 0; *w; w++) {
        if (*w < '0' || *w > '9') return 0;
        if (__builtin_mul_overflow(*value, 10, value) || __builtin_add_overflow(*value, (uint64_t)(*w - '0'), value)) return 0;
    }
    return 1;
}

static int nibble(char c)
{
    if (c >= '0' && c <= '9') return c - '0';
    if (c >= 'a' && c <= 'f') return c - 'a' + 10;
    if (c >= 'A' && c <= 'F') return c - 'A' + 10;
    return -1;
}

/* A byte string, put at the end of a guarded buffer. */
static int string(guarded to, text *value)
{
    const char *w = word();
    if (!w || !*w) return 0;
    size_t digits = strcmp(w, "-") ? strlen(w) : 0;
    if (digits % 2 || digits / 2 > to.most) return 0;
    value->length = digits / 2;
    uint8_t *bytes = to.end - value->length;
    for (size_t i = 0; i < value->length; i++) {
        int high = nibble(w[2 * i]), low = nibble(w[2 * i + 1]);
        if (high < 0 || low < 0) return 0;
        bytes[i] = (uint8_t)(high << 4 | low);
    }
    value->bytes = bytes;
    return 1;
}

/* A byte string of this length. */
static int fixed(guarded to, size_t length, const uint8_t **value)
{
    text t;
    if (!string(to, &t) || t.length != length) return 0;
    *value = t.bytes;
    return 1;
}

static int ends(void) { return rest == NULL; }

/* ---- answers */

static void hex(const uint8_t *bytes, size_t length)
{
    if (length == 0) printf("-");
    for (size_t i = 0; i < length; i++) printf("%02x", bytes[i]);
}

static uint8_t *out, *to;

static uint8_t *outputs_for_call(void)
{
    memset(outputs.end - ROOM, PATTERN, ROOM);
    memset(small[3].end - 6, PATTERN, 6);
    out = outputs.end - room;
    to = small[3].end - 6;
    return out;
}

static int untouched(const uint8_t *bytes, size_t length)
{
    for (size_t i = 0; i < length; i++)
        if (bytes[i] != PATTERN) return 0;
    return 1;
}

/* The answer of a call that may write; `openly` is where a message without an address goes. */
static int answered(uint32_t result, uint32_t openly)
{
    size_t written = mis_written(result);
    uint32_t destination = mis_destination(result);

    if (written > room) fail("more bytes are told than the output has");
    if (!untouched(out + written, room - written)) fail("bytes past the message were written");
    if (destination != MIS_TO_ADDRESS && !untouched(to, 6)) fail("an address was written that is not told");
    if (destination != (written == 0 ? MIS_TO_NOBODY : destination == MIS_TO_ADDRESS ? destination : openly)) fail("a wrong destination");
    printf("%u ", mis_number(result));
    hex(out, written);
    printf(" ");
    hex(to, destination == MIS_TO_ADDRESS ? 6 : 0);
    printf("\n");
    return 1;
}

/* The answer of a call that writes nothing. */
static int silent(uint32_t result)
{
    if (result > 255) fail("a call that writes nothing tells of a message");
    printf("%u - -\n", result);
    return 1;
}

/* ---- states: a call works on a copy that stands before the page, and its bytes are kept afterwards */

static uint8_t *lend(const uint8_t *kept, size_t size)
{
    memcpy(states.end - size, kept, size);
    return states.end - size;
}

static void keep(uint8_t *kept, size_t size) { memcpy(kept, states.end - size, size); }

/* A call of each kind on a state that is too small and one that is too large by a byte. */
static void misuse(void)
{
    static const uint8_t zeros[MIS_DIGEST];
    size_t sizes[2] = { mis_router_size(), mis_node_size() };
    uint8_t *state = states.end - ROOM * 8, *kept = malloc(ROOM * 8);

    if (!kept) fail("no memory");
    for (size_t i = 0; i < ROOM * 8; i++) state[i] = kept[i] = (uint8_t)(i * 37);
    outputs_for_call();
    for (int off = -1; off <= 1; off += 2) {
        size_t r = sizes[0] + (size_t)off, n = sizes[1] + (size_t)off;
        uint32_t told[] = {
            mis_router_set_up(state, r, 1, 1, 1, 1, zeros, zeros, zeros, 1, zeros, 1, zeros, 0),
            mis_router_beacon(state, r, 1, 1, out, room, to),
            mis_router_request(state, r, 1, zeros, zeros, 4, out, room, to),
            mis_router_reply(state, r, 1, zeros, 4, out, room, to),
            mis_router_close(state, r, 1, zeros, out, room, to),
            mis_router_closed(state, r, 1, zeros, zeros, 4),
            mis_node_set_up(state, n, 1, 1, zeros, 1, zeros, 1, 2, 1, zeros, zeros),
            mis_node_hear(state, n, 1, zeros, zeros, 4, out, room, to),
            mis_node_success(state, n, 1, zeros, 4),
            mis_node_failure(state, n, 1, zeros, 4),
            mis_node_left(state, n, 1, zeros, 4),
            mis_node_leave(state, n, 1, out, room, to),
        };
        for (size_t i = 0; i < sizeof told / sizeof *told; i++)
            if (told[i] != MIS_MISUSE) fail("a state of a wrong size is taken");
        if (mis_router_taken(state, r) != 0 || mis_router_count(state, r) != 0) fail("a state of a wrong size is reported on");
    }
    if (memcmp(state, kept, ROOM * 8) || !untouched(out, room) || !untouched(to, 6)) fail("a state of a wrong size is changed");
    free(kept);
}

/* ---- the lines; each gives 0 where the line cannot be read */

static int set_up_router(void)
{
    uint64_t window, unit, lifetime, network, interval;
    const uint8_t *address, *ipv4, *position;
    text secret, groups;
    size_t size = mis_router_size();

    if (!number(&window) || !number(&unit) || !number(&lifetime) || !number(&network) || !fixed(small[0], 6, &address) ||
        !fixed(small[1], 4, &ipv4) || !string(texts[0], &secret) || !fixed(small[2], 12, &position) || !number(&interval) ||
        !string(texts[1], &groups) || groups.length % 4 || !ends())
        return 0;
    uint8_t *state = states.end - size;
    if (router) lend(router, size);
    else memset(state, PATTERN, size);
    uint32_t result = mis_router_set_up(state, size, window, unit, lifetime, network, address, ipv4, secret.bytes, secret.length, position,
                                        interval, groups.bytes, groups.length);
    if (result && !router && !untouched(state, size)) fail("a refused setup of a router changes the buffer");
    if (result == 0 && !router && !(router = malloc(size))) fail("no memory");
    if (router) keep(router, size);
    return silent(result);
}

static int node_number(uint64_t *i) { return number(i) && *i < NODES; }

static int set_up_node(void)
{
    uint64_t i, unit, patience, kind, network;
    const uint8_t *address, *at;
    text password, account;
    size_t size = mis_node_size();

    if (!node_number(&i) || !number(&unit) || !number(&patience) || !string(texts[0], &password) || !string(texts[1], &account) ||
        !number(&kind) || !number(&network) || !fixed(small[0], 6, &address) || !fixed(small[1], 6, &at) || !ends())
        return 0;
    uint8_t *state = states.end - size;
    if (nodes[i]) lend(nodes[i], size);
    else memset(state, PATTERN, size);
    uint32_t result = mis_node_set_up(state, size, unit, patience, password.bytes, password.length, account.bytes, account.length, kind, network,
                                      address, at);
    if (result && !nodes[i] && !untouched(state, size)) fail("a refused setup of a gauge changes the buffer");
    if (result == 0 && !nodes[i] && !(nodes[i] = malloc(size))) fail("no memory");
    if (nodes[i]) keep(nodes[i], size);
    return silent(result);
}

static int lend_books(void)
{
    text given[2];
    static guarded kept[2];

    if (!string(texts[0], &given[0]) || !string(texts[1], &given[1]) || !ends()) return 0;
    for (int i = 0; i < 2; i++) {
        if (!kept[i].end) kept[i] = guard(LINE);
        memcpy(kept[i].end - given[i].length, given[i].bytes, given[i].length);
        books[i] = (text){ kept[i].end - given[i].length, given[i].length };
    }
    lent = 1;
    return silent(0);
}

static int set_room(void)
{
    uint64_t wanted;
    if (!number(&wanted) || wanted > ROOM || !ends()) return 0;
    room = wanted;
    return silent(0);
}

static int beacon(void)
{
    uint64_t clock, serial;
    size_t size = mis_router_size();

    if (!number(&clock) || !number(&serial) || serial > 65535 || !ends() || !router) return 0;
    outputs_for_call();
    uint32_t result = mis_router_beacon(lend(router, size), size, clock, (uint16_t)serial, out, room, to);
    keep(router, size);
    return answered(result, MIS_TO_EVERYONE);
}

/* The arguments of a line on a gauge's message to the router. */
static int from_gauge(uint64_t *clock, const uint8_t **from, text *message)
{
    return number(clock) && fixed(small[0], 6, from) && string(texts[0], message) && ends() && router;
}

static int request(void)
{
    uint64_t clock;
    const uint8_t *from;
    text message;
    size_t size = mis_router_size();

    if (!from_gauge(&clock, &from, &message)) return 0;
    outputs_for_call();
    uint32_t result = mis_router_request(lend(router, size), size, clock, from, message.bytes, message.length, out, room, to);
    keep(router, size);
    return answered(result, MIS_TO_SERVER);
}

static int reply(void)
{
    uint64_t clock;
    text message;
    size_t size = mis_router_size();

    if (!number(&clock) || !string(texts[0], &message) || !ends() || !router) return 0;
    outputs_for_call();
    uint32_t result = mis_router_reply(lend(router, size), size, clock, message.bytes, message.length, out, room, to);
    keep(router, size);
    return answered(result, MIS_TO_ADDRESS);
}

static int close_session(void)
{
    uint64_t clock;
    const uint8_t *node;
    size_t size = mis_router_size();

    if (!number(&clock) || !fixed(small[0], 6, &node) || !ends() || !router) return 0;
    outputs_for_call();
    uint32_t result = mis_router_close(lend(router, size), size, clock, node, out, room, to);
    keep(router, size);
    return answered(result, MIS_TO_ADDRESS);
}

static int closed(void)
{
    uint64_t clock;
    const uint8_t *from;
    text message;
    size_t size = mis_router_size();

    if (!from_gauge(&clock, &from, &message)) return 0;
    uint32_t result = mis_router_closed(lend(router, size), size, clock, from, message.bytes, message.length);
    keep(router, size);
    return silent(result);
}

static int taken(void)
{
    size_t size = mis_router_size();

    if (!ends() || !router) return 0;
    const uint8_t *state = lend(router, size);
    printf("%llu %u\n", (unsigned long long)mis_router_taken(state, size), mis_router_count(state, size));
    if (memcmp(state, router, size)) fail("a report changes the state");
    return 1;
}

static int hear(void)
{
    uint64_t i, clock;
    const uint8_t *seed;
    text message;
    size_t size = mis_node_size();

    if (!node_number(&i) || !number(&clock) || !fixed(small[0], 16, &seed) || !string(texts[0], &message) || !ends() || !nodes[i]) return 0;
    outputs_for_call();
    uint32_t result = mis_node_hear(lend(nodes[i], size), size, clock, seed, message.bytes, message.length, out, room, to);
    keep(nodes[i], size);
    return answered(result, MIS_TO_ADDRESS);
}

static int node_takes(uint32_t (*call)(uint8_t *, size_t, uint64_t, const uint8_t *, size_t))
{
    uint64_t i, clock;
    text message;
    size_t size = mis_node_size();

    if (!node_number(&i) || !number(&clock) || !string(texts[0], &message) || !ends() || !nodes[i]) return 0;
    uint32_t result = call(lend(nodes[i], size), size, clock, message.bytes, message.length);
    keep(nodes[i], size);
    return silent(result);
}

static int success(void) { return node_takes(mis_node_success); }
static int failure(void) { return node_takes(mis_node_failure); }
static int left(void) { return node_takes(mis_node_left); }

static int leave(void)
{
    uint64_t i, clock;
    size_t size = mis_node_size();

    if (!node_number(&i) || !number(&clock) || !ends() || !nodes[i]) return 0;
    outputs_for_call();
    uint32_t result = mis_node_leave(lend(nodes[i], size), size, clock, out, room, to);
    keep(nodes[i], size);
    return answered(result, MIS_TO_ADDRESS);
}

static int login(void)
{
    const uint8_t *source;
    text message;

    if (!fixed(small[0], 4, &source) || !string(texts[0], &message) || !ends() || !lent) return 0;
    outputs_for_call();
    return answered(mis_server_login(books[0].bytes, books[0].length, books[1].bytes, books[1].length, source, message.bytes, message.length, out,
                                     room),
                    MIS_TO_NOBODY);
}

/* ---- reading and writing alone */

/* What a reader hands out; what stays has the pattern still. */
typedef struct {
    uint64_t numbers[MIS_BEACON_FIELDS];
    uint8_t position[12];
} fields;

typedef struct {
    int auth, code;
    size_t count; /* of the numbers */
} kind;

static const kind kinds[] = {
    { 0, 1, MIS_BEACON_FIELDS }, { 0, 3, MIS_REQUEST_FIELDS }, { 0, 4, MIS_SUCCESS_FIELDS }, { 0, 8, MIS_FAILURE_FIELDS },
    { 0, 9, MIS_TERMINATING_FIELDS }, { 1, 1, MIS_ACCESS_FIELDS }, { 1, 2, MIS_ACCEPT_FIELDS }, { 1, 3, MIS_REJECT_FIELDS },
};

static uint32_t read_kind(const kind *k, text m, uint64_t *n, uint8_t *position)
{
    switch (16 * k->auth + k->code) {
    case 1: return mis_read_beacon(m.bytes, m.length, n, position);
    case 3: return mis_read_request(m.bytes, m.length, n);
    case 4: return mis_read_success(m.bytes, m.length, n);
    case 8: return mis_read_failure(m.bytes, m.length, n);
    case 9: return mis_read_terminating(m.bytes, m.length, n);
    case 17: return mis_read_access_request(m.bytes, m.length, n, position);
    case 18: return mis_read_accept(m.bytes, m.length, n);
    default: return mis_read_reject(m.bytes, m.length, n);
    }
}

/* Reads with the numbers before the page, and sees to it that a refusal hands nothing out. */
static uint32_t handed(const kind *k, text m, fields *f)
{
    fields stays;
    size_t size = k->count * sizeof *f->numbers;
    uint64_t *n = (uint64_t *)(void *)(numbers.end - size);
    uint8_t *position = small[0].end - 12;

    memset(f, PATTERN, sizeof *f);
    memset(&stays, PATTERN, sizeof stays);
    memset(n, PATTERN, size);
    memset(position, PATTERN, 12);
    uint32_t told = read_kind(k, m, n, position);
    memcpy(f->numbers, n, size);
    memcpy(f->position, position, 12);
    if (told && memcmp(f, &stays, sizeof stays)) fail("a reader that refuses hands something out");
    return told;
}

/* What is printed of a message: its code, S or the Identifier, and the fields by rising type; of types that repeat how many there are. */
static char line_text[20000];
static size_t line_length;

static void say(const char *form, ...)
{
    va_list list;
    va_start(list, form);
    line_length += (size_t)vsnprintf(line_text + line_length, sizeof line_text - line_length, form, list);
    va_end(list);
    if (line_length >= sizeof line_text) fail("a line is too long");
}

static void say_bytes(int type, const uint8_t *bytes, size_t length)
{
    say(" %d=%s", type, length ? "" : "-");
    for (size_t i = 0; i < length; i++) say("%02x", bytes[i]);
}

static text part(text m, const uint64_t *n)
{
    if (n[0] > m.length || n[1] > m.length - n[0]) fail("a field outside of its message");
    return (text){ m.bytes + n[0], n[1] };
}

static void say_part(int type, text m, const uint64_t *n) { say_bytes(type, part(m, n).bytes, part(m, n).length); }

static void say_number(int type, int width, uint64_t n)
{
    if (n != MIS_NONE) say(" %d=%0*llx", type, 2 * width, (unsigned long long)n);
}

static void say_count(int type, uint64_t count)
{
    if (count) say(" %d:%llu", type, (unsigned long long)count);
}

static void say_beacon(text m, const fields *f)
{
    const uint64_t *n = f->numbers;

    say_number(2, 8, n[MIS_BEACON_STAMP]);
    if (n[MIS_BEACON_HAS_POSITION]) say_bytes(9, f->position, 12);
    say_number(10, 1, n[MIS_BEACON_LEFT]);
    say_number(11, 1, n[MIS_BEACON_FILTER]);
    say_part(14, m, n + MIS_BEACON_GROUPS_AT);
    say_number(16, 2, n[MIS_BEACON_SERIAL]);
    say_number(17, 2, n[MIS_BEACON_INTERVAL]);
    say_part(18, m, n + MIS_BEACON_SECURITY_AT);
    if (n[MIS_BEACON_HAS_UPLINK])
        say_number(19, 6, n[MIS_BEACON_UPLINK_LINE] << 32 | n[MIS_BEACON_UPLINK_UP] << 16 | n[MIS_BEACON_UPLINK_DOWN]);
    say_number(20, 1, n[MIS_BEACON_CHANNEL]);
    say_part(21, m, n + MIS_BEACON_NETWORKS_AT);
}

static void say_radio(int code, text m, const fields *f)
{
    const uint64_t *n = f->numbers;

    switch (code) {
    case 1: say_beacon(m, f); break;
    case 3:
        say_number(2, 8, n[MIS_REQUEST_STAMP]);
        say_number(3, 4, n[MIS_REQUEST_LOCAL]);
        say_part(5, m, n + MIS_REQUEST_CHECK_AT);
        say_part(6, m, n + MIS_REQUEST_ACCOUNT_AT);
        say_part(8, m, n + MIS_REQUEST_SEED_AT);
        say_part(18, m, n + MIS_REQUEST_SECURITY_AT);
        say_part(21, m, n + MIS_REQUEST_NETWORKS_AT);
        break;
    case 4:
        say_number(2, 8, n[MIS_SUCCESS_STAMP]);
        say_number(3, 4, n[MIS_SUCCESS_LOCAL]);
        say_number(4, 4, n[MIS_SUCCESS_REMOTE]);
        say_part(5, m, n + MIS_SUCCESS_CHECK_AT);
        say_number(15, 2, n[MIS_SUCCESS_LIFETIME]);
        say_part(21, m, n + MIS_SUCCESS_NETWORKS_AT);
        break;
    case 8: say_number(2, 8, n[MIS_FAILURE_STAMP]), say_number(13, 2, n[MIS_FAILURE_REASON]); break;
    default:
        say_number(2, 8, n[MIS_TERMINATING_STAMP]);
        say_part(5, m, n + MIS_TERMINATING_CHECK_AT);
        say_number(13, 2, n[MIS_TERMINATING_REASON]);
    }
}

static void say_login(int code, text m, const fields *f)
{
    const uint64_t *n = f->numbers;

    switch (code) {
    case 1:
        say_part(1, m, n + MIS_ACCESS_ACCOUNT_AT);
        say_number(4, 4, n[MIS_ACCESS_ROUTER]);
        say_count(33, n[MIS_ACCESS_PROXIES]);
        say_count(95, n[MIS_ACCESS_SIXES]);
        say_part(200, m, n + MIS_ACCESS_DATA_AT);
        say_part(201, m, n + MIS_ACCESS_CHECK_AT);
        say_part(202, m, n + MIS_ACCESS_SEED_AT);
        say_bytes(204, f->position, 12);
        say_number(205, 2, n[MIS_ACCESS_SECURITY]);
        if (n[MIS_ACCESS_HAS_GROUPS]) say_part(206, m, n + MIS_ACCESS_GROUPS_AT);
        break;
    case 2:
        say_count(33, n[MIS_ACCEPT_PROXIES]);
        say_part(201, m, n + MIS_ACCEPT_CHECK_AT);
        say_part(203, m, n + MIS_ACCEPT_KEY_AT);
        break;
    default: say_count(33, n[MIS_REJECT_PROXIES]);
    }
}

/* S is the first number of the kinds that have it, the Identifier that of all three; beacon and failure hand out no S. */
static void say_message(const kind *k, text m, const fields *f)
{
    int s = k->code == 1 || k->code == 8 ? m.bytes[1] >> 7 : (int)f->numbers[0];

    line_length = 0;
    say("0 %d %d", k->code, k->auth ? (int)f->numbers[0] : s);
    if (k->auth) say_login(k->code, m, f);
    else say_radio(k->code, m, f);
}

/* The objects of a type that repeats, one after the other; of 95 those that have its length. */
static text run(guarded to, text m, int type)
{
    size_t end = (size_t)m.bytes[2] << 8 | m.bytes[3], length = 0;

    for (size_t at = 20; at < end; at += m.bytes[at + 1])
        if (m.bytes[at] == type && (type != 95 || m.bytes[at + 1] == 18)) {
            memcpy(to.end - LINE + length, m.bytes + at, m.bytes[at + 1]);
            length += m.bytes[at + 1];
        }
    memmove(to.end - length, to.end - LINE, length);
    return (text){ to.end - length, length };
}

#define PART(at) part(m, n + (at)).bytes, part(m, n + (at)).length
#define DIGEST(at) part(m, n + (at)).bytes

static uint32_t write_kind(const kind *k, text m, const fields *f)
{
    const uint64_t *n = f->numbers;
    text proxies = { out, 0 }, sixes = { out, 0 };

    if (k->auth) proxies = run(texts[2], m, 33), sixes = run(texts[3], m, 95);
    switch (16 * k->auth + k->code) {
    case 1:
        return mis_write_beacon(n[MIS_BEACON_STAMP], PART(MIS_BEACON_GROUPS_AT), (uint16_t)n[MIS_BEACON_SERIAL], (uint16_t)n[MIS_BEACON_INTERVAL],
                                PART(MIS_BEACON_SECURITY_AT), PART(MIS_BEACON_NETWORKS_AT), n[MIS_BEACON_HAS_POSITION], f->position,
                                n[MIS_BEACON_LEFT], n[MIS_BEACON_FILTER], n[MIS_BEACON_HAS_UPLINK], (uint16_t)n[MIS_BEACON_UPLINK_LINE],
                                (uint16_t)n[MIS_BEACON_UPLINK_UP], (uint16_t)n[MIS_BEACON_UPLINK_DOWN], n[MIS_BEACON_CHANNEL], out, room);
    case 3:
        return mis_write_request(n[MIS_REQUEST_S], n[MIS_REQUEST_STAMP], PART(MIS_REQUEST_SECURITY_AT), DIGEST(MIS_REQUEST_CHECK_AT),
                                 PART(MIS_REQUEST_ACCOUNT_AT), DIGEST(MIS_REQUEST_SEED_AT), PART(MIS_REQUEST_NETWORKS_AT), n[MIS_REQUEST_LOCAL],
                                 out, room);
    case 4:
        return mis_write_success(n[MIS_SUCCESS_S], n[MIS_SUCCESS_STAMP], (uint16_t)n[MIS_SUCCESS_LIFETIME], DIGEST(MIS_SUCCESS_CHECK_AT),
                                 PART(MIS_SUCCESS_NETWORKS_AT), n[MIS_SUCCESS_LOCAL], n[MIS_SUCCESS_REMOTE], out, room);
    case 8: return mis_write_failure(n[MIS_FAILURE_STAMP], (uint16_t)n[MIS_FAILURE_REASON], out, room);
    case 9:
        return mis_write_terminating(n[MIS_TERMINATING_S], n[MIS_TERMINATING_STAMP], DIGEST(MIS_TERMINATING_CHECK_AT), n[MIS_TERMINATING_REASON],
                                     out, room);
    case 17:
        return mis_write_access_request((uint8_t)n[MIS_ACCESS_IDENTIFIER], PART(MIS_ACCESS_ACCOUNT_AT), DIGEST(MIS_ACCESS_DATA_AT),
                                        DIGEST(MIS_ACCESS_CHECK_AT), DIGEST(MIS_ACCESS_SEED_AT), (uint16_t)n[MIS_ACCESS_SECURITY], f->position,
                                        n[MIS_ACCESS_ROUTER], proxies.bytes, proxies.length, sixes.bytes, sixes.length, n[MIS_ACCESS_HAS_GROUPS],
                                        PART(MIS_ACCESS_GROUPS_AT), out, room);
    case 18:
        return mis_write_accept((uint8_t)n[MIS_ACCEPT_IDENTIFIER], DIGEST(MIS_ACCEPT_KEY_AT), DIGEST(MIS_ACCEPT_CHECK_AT), proxies.bytes,
                                proxies.length, out, room);
    default: return mis_write_reject((uint8_t)n[MIS_REJECT_IDENTIFIER], proxies.bytes, proxies.length, out, room);
    }
}

/* The fields of a message that was read are written, and read back as the same. */
static void written_again(const kind *k, text m, const fields *f)
{
    static char before[sizeof line_text];
    fields again;

    outputs_for_call();
    uint32_t result = write_kind(k, m, f);
    size_t length = mis_written(result);
    if (mis_destination(result) != MIS_TO_NOBODY || !untouched(out + length, room - length)) fail("a writer leaves something behind its message");
    if (room < (k->auth ? MIS_OUT_LOGIN : MIS_OUT_RADIO)) {
        if (result != MIS_SMALL_OUTPUT) fail("a writer takes a small output");
        return;
    }
    text made = { out, length };
    if (mis_number(result) || handed(k, made, &again)) fail("a message is not written again");
    say_message(k, m, f);
    strcpy(before, line_text);
    say_message(k, made, &again);
    /* beacon and failure are written with S 0 */
    if (k->auth || (k->code != 1 && k->code != 8) ? strcmp(before, line_text) : strcmp(before + 5, line_text + 5)) fail("other fields are read back");
}

static int read_alone(int auth)
{
    text m;
    fields f;
    const kind *found = NULL;
    fields found_fields;

    if (!string(texts[0], &m) || !ends()) return 0;
    uint32_t number = (auth ? mis_readauth : mis_read)(m.bytes, m.length);
    for (size_t i = 0; i < sizeof kinds / sizeof *kinds; i++) {
        if (kinds[i].auth != auth) continue;
        uint32_t told = handed(&kinds[i], m, &f);
        int ours = m.length > 0 && m.bytes[0] == kinds[i].code;
        if (told != (ours || number == MIS_SHORT_HEADER || number == MIS_BAD_LENGTH ? number : MIS_OTHER_CODE)) fail("two readers differ");
        if (told == 0) found = &kinds[i], found_fields = f;
    }
    if (!found) {
        printf("%u\n", number);
        return 1;
    }
    written_again(found, m, &found_fields);
    say_message(found, m, &found_fields);
    printf("%s\n", line_text);
    return 1;
}

static int read_radio(void) { return read_alone(0); }
static int read_login(void) { return read_alone(1); }

static int unknown(void)
{
    printf("unknown\n");
    return 1;
}

static const struct {
    const char *name;
    int (*run)(void);
} calls[] = {
    { "router", set_up_router }, { "node", set_up_node }, { "books", lend_books }, { "room", set_room }, { "beacon", beacon },
    { "request", request }, { "reply", reply }, { "close", close_session }, { "closed", closed }, { "taken", taken }, { "hear", hear },
    { "success", success }, { "failure", failure }, { "left", left }, { "leave", leave }, { "login", login }, { "read", read_radio },
    { "readauth", read_login }, { "places", unknown }, { "state", unknown },
};

static void answer(char *line)
{
    int read = 0;

    rest = line;
    const char *first = word();
    for (size_t i = 0; i < sizeof calls / sizeof *calls; i++)
        if (!strcmp(first, calls[i].name)) read = calls[i].run();
    if (!read) printf("error\n");
}

/* A line with a zero byte that is no comment, or any line over LINE bytes, cannot be read: `error`. */
int main(void)
{
    char *line = malloc(LINE + 2);
    size_t length = 0;
    int c;

    if (!line) fail("no memory");
    outputs = guard(ROOM);
    states = guard(ROOM * 8);
    numbers = guard(MIS_BEACON_FIELDS * sizeof(uint64_t));
    if (mis_router_size() > ROOM * 4 || mis_node_size() > ROOM * 4) fail("the states are larger than this program thinks");
    for (int i = 0; i < 4; i++) {
        texts[i] = guard(LINE);
        small[i] = guard(16);
    }
    misuse();
    do {
        c = getchar();
        if (c != '\n' && c != EOF) {
            if (length <= LINE) line[length] = (char)c;
            length++;
            continue;
        }
        if (length > LINE) {
            printf("error\n");
        } else if (length > 0) {
            line[length] = 0;
            if (line[0] != '#' && memchr(line, 0, length)) printf("error\n");
            else if (line[0] != '#') answer(line);
        }
        length = 0;
    } while (c != EOF);
    return fflush(stdout) != 0;
}
