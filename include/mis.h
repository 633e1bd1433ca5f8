/*
 * mis.h: the proved login code for gauges (nodes), base routers and the login server.
 *
 * Link with libmis.a (`rt lib` in crates/mis makes it, for x86-64). docs/BOUNDARY.md says how, and what is proved.
 *
 * What the caller must see to (nothing in a compiled archive can test it):
 *   - A byte string is a pointer and its length. The pointer is not NULL, also where the length is 0, and that many bytes are there.
 *   - An array parameter, as `address[6]`, has that many bytes.
 *   - Buffers that a call writes (state, out, to, digest, code, fields, position) overlap no other buffer of the same call.
 *   - One thread at a state at a time. Calls on different states, and those without a state, may run side by side.
 *   - A state's bytes belong to the library: keep them as they are, in memory that nobody else can read, since keys stand in them.
 *   - The seed of mis_node_hear is 16 fresh bytes of a good random source, never used before.
 *   - There is stack enough: docs/BENCH.md has the most that each call was measured to use.
 * Every message, clock, setting and book is welcome: a bad one gets a refusal, and nothing beyond the message is read. So is every content of a state of the
 * right size: what stands in it counts as it stands. Where a message cannot be written from it (an empty account, a position that no message can say: no
 * setup makes these), mis_node_hear and mis_router_request give MIS_OUT_OF_RANGE.
 */
#ifndef MIS_H
#define MIS_H

#include <stdbool.h>
#include <stddef.h>
#include <stdint.h>

#ifdef __cplusplus
extern "C" {
#endif

/* ---- Sizes ---- */

enum {
    MIS_ADDRESS = 6,            /* a link address */
    MIS_DIGEST = 16,            /* a digest, check value, key or seed */
    MIS_POSITION = 12,          /* latitude, longitude, two heights, as they stand in an object of a message */
    MIS_TEXT_MOST = 253,        /* the longest secret, password or account */
    MIS_GROUPS_MOST = 64,       /* 16 groups of 4 bytes */
    MIS_BOOK_MOST = 65536,      /* the longest book */
    MIS_OUT_RADIO = 1500,       /* output of a call that writes to the radio */
    MIS_OUT_LOGIN = 4096        /* output of mis_router_request, mis_server_login and the writers for the link between router and server */
};

/* ---- What a call hands back ---- */

/* The refusal number; 0 where the call was done. */
enum {
    MIS_DONE = 0,
    MIS_SHORT_HEADER = 1,       /* fewer bytes than a header has */
    MIS_BAD_LENGTH = 2,         /* Length is below the header, above the limit or above the bytes given */
    MIS_OTHER_CODE = 3,         /* this call takes no message of that Code */
    MIS_BROKEN_OBJECT = 4,      /* an object has no length byte, a Length below 2, or passes the message's end */
    MIS_MISSING_OBJECT = 5,     /* a mandatory object is not there */
    MIS_BAD_VALUE = 6,          /* a check value, seed, authentication data or key without 16 bytes, or an empty name */
    MIS_CLOCK_BACK = 7,         /* the clock is below the one of an earlier call; nothing has changed */
    MIS_OTHER_KEY = 8,          /* S is 1 in a request, success or terminating message */
    MIS_SECURITY_TYPE = 9,      /* not one security type, 2 or 3; at a gauge: its type is not in the beacon's list */
    MIS_NETWORK_NUMBER = 10,    /* our network number is not in the list */
    MIS_STAMP_AHEAD = 11,       /* the stamp is above the clock */
    MIS_STAMP_OLD = 12,         /* the stamp is further back than the window */
    MIS_STAMP_USED = 13,        /* the stamp is not above the last one (at a gauge: above all it used), and the message repeats none that is known */
    MIS_NO_PLACE = 14,          /* all 64 places are taken */
    MIS_NO_ATTEMPT = 15,        /* the reply fits no request that waits */
    MIS_WRONG_AUTHENTICATOR = 16,
    MIS_WRONG_CHECK = 17,       /* the check value is wrong */
    MIS_OUT_OF_RANGE = 18,      /* a setting, or a field to be written, is out of its range; nothing was made */
    MIS_BROKEN_BOOK = 19,       /* one of the two books is broken */
    MIS_SMALL_OUTPUT = 20,      /* the output has not the bytes that this call asks for; nothing has changed */
    MIS_NOT_EXPECTED = 21,      /* no such message is awaited in this state */
    MIS_UNKNOWN_ROUTER = 22,    /* the mill's book has no router with that IPv4 address */
    MIS_MISUSE = 255            /* the state buffer has not the library's size; nothing has changed */
};

/* Where to send what the call wrote. */
enum {
    MIS_TO_NOBODY = 0,          /* nothing was written, or the caller knows to whom: what mis_server_login and the writers wrote */
    MIS_TO_EVERYONE = 1,        /* all gauges in reach */
    MIS_TO_ADDRESS = 2,         /* the link address that was put into `to` */
    MIS_TO_SERVER = 3           /* the login server */
};

/*
 * Most calls hand back one number that says three things: the refusal, where to send, and how many bytes of `out` to send.
 * Some refusals write a message too (a failure to the gauge): send whatever was written, whatever the refusal.
 * Bytes of `out` after those written stay as they were, and so does `to` where the destination is no address.
 */
static inline uint32_t mis_number(uint32_t result) { return result & 255; }
static inline uint32_t mis_destination(uint32_t result) { return result >> 8 & 255; }
static inline size_t mis_written(uint32_t result) { return result >> 16; }

/* ---- Digests ---- */

/* MD5 (RFC 1321) of a message. */
void mis_md5(const uint8_t *message, size_t length, uint8_t digest[16]);

/* HMAC-MD5 (RFC 2104) of a message under a key of any length. */
void mis_hmac_md5(const uint8_t *key, size_t key_length, const uint8_t *message, size_t length, uint8_t code[16]);

/* ---- The base router ---- */

/* How many bytes a router's state has: what `state_size` must be in every call on a router. */
size_t mis_router_size(void);

/*
 * Sets a router up in the state buffer, with all 64 places free. Refuses with MIS_OUT_OF_RANGE, and then leaves the buffer as it was.
 *   window    ticks for which a gauge's request is fresh, 1 to 2^32-1
 *   unit      ticks in one unit of lifetime, 1 to 2^32-1
 *   lifetime  units for which a session stays open, 1 to 65,535
 *   network   the hall's network number, up to 65,535
 *   address   the router's link address; ipv4: the address by which the server knows it
 *   secret    shared with the server, 1 to 253 bytes
 *   position  where the router hangs
 *   interval  told in the beacon, up to 65,535
 *   groups    up to 16 groups of 4 bytes, told in the beacon
 */
uint32_t mis_router_set_up(uint8_t *state, size_t state_size, uint64_t window, uint64_t unit, uint64_t lifetime, uint64_t network,
                           const uint8_t address[6], const uint8_t ipv4[4], const uint8_t *secret, size_t secret_length,
                           const uint8_t position[12], uint64_t interval, const uint8_t *groups, size_t groups_length);

/* Writes the beacon for all gauges in reach, with the clock as its stamp. Output: MIS_OUT_RADIO bytes. */
uint32_t mis_router_beacon(uint8_t *state, size_t state_size, uint64_t clock, uint16_t serial, uint8_t *out, size_t out_size, uint8_t to[6]);

/*
 * A request from the gauge at link address `from`. Writes the access request for the server; or, for a request that is repeated while
 * its session is open, the same success once more. MIS_SECURITY_TYPE, MIS_NETWORK_NUMBER, MIS_STAMP_OLD and MIS_NO_PLACE write a
 * failure for the gauge. Output: MIS_OUT_LOGIN bytes.
 */
uint32_t mis_router_request(uint8_t *state, size_t state_size, uint64_t clock, const uint8_t from[6], const uint8_t *message, size_t length,
                            uint8_t *out, size_t out_size, uint8_t to[6]);

/*
 * The server's reply. An accept opens the gauge's session and writes the success for it; a reject ends the attempt and writes a
 * failure. Output: MIS_OUT_RADIO bytes.
 */
uint32_t mis_router_reply(uint8_t *state, size_t state_size, uint64_t clock, const uint8_t *message, size_t length, uint8_t *out,
                          size_t out_size, uint8_t to[6]);

/* Closes the session of the gauge at link address `node` and writes the terminating message for it. Output: MIS_OUT_RADIO bytes. */
uint32_t mis_router_close(uint8_t *state, size_t state_size, uint64_t clock, const uint8_t node[6], uint8_t *out, size_t out_size,
                          uint8_t to[6]);

/* A terminating message from the gauge at link address `from`: a right one closes its session. Writes nothing. */
uint32_t mis_router_closed(uint8_t *state, size_t state_size, uint64_t clock, const uint8_t from[6], const uint8_t *message, size_t length);

/* The taken places as one word, place 0 in the lowest bit. 0 where the state has not the library's size. */
uint64_t mis_router_taken(const uint8_t *state, size_t state_size);

/* How many places are taken: the ones in that word. */
uint32_t mis_router_count(const uint8_t *state, size_t state_size);

/* ---- The gauge ---- */

/* How many bytes a gauge's state has: what `state_size` must be in every call on a gauge. */
size_t mis_node_size(void);

/*
 * Sets a gauge up in the state buffer: neither waiting nor open. Refuses with MIS_OUT_OF_RANGE, and then leaves the buffer as it was.
 *   unit      ticks in one unit of lifetime, as at its router, 1 to 2^32-1
 *   patience  a request that waits is given up for a beacon more than this many ticks newer, 1 to 2^32-1
 *   password  known to this gauge and the server, 1 to 253 bytes
 *   account   its name in the server's book, 1 to 253 bytes
 *   kind      the security type it asks for, 2 or 3
 *   network   the hall's network number, up to 65,535
 *   address   its own link address; router: the router's
 */
uint32_t mis_node_set_up(uint8_t *state, size_t state_size, uint64_t unit, uint64_t patience, const uint8_t *password, size_t password_length,
                         const uint8_t *account, size_t account_length, uint64_t kind, uint64_t network, const uint8_t address[6],
                         const uint8_t router[6]);

/* A beacon. A gauge that wants a session writes its request for the router, with the seed. Output: MIS_OUT_RADIO bytes. */
uint32_t mis_node_hear(uint8_t *state, size_t state_size, uint64_t clock, const uint8_t seed[16], const uint8_t *message, size_t length,
                       uint8_t *out, size_t out_size, uint8_t to[6]);

/* A success: the right one opens the session that the gauge waits for; one with MIS_MISSING_OBJECT ends its waiting. Writes nothing. */
uint32_t mis_node_success(uint8_t *state, size_t state_size, uint64_t clock, const uint8_t *message, size_t length);

/* A failure with the stamp that the gauge waits on ends its waiting. Writes nothing. */
uint32_t mis_node_failure(uint8_t *state, size_t state_size, uint64_t clock, const uint8_t *message, size_t length);

/* Closes the gauge's session and writes the terminating message for the router. Output: MIS_OUT_RADIO bytes. */
uint32_t mis_node_leave(uint8_t *state, size_t state_size, uint64_t clock, uint8_t *out, size_t out_size, uint8_t to[6]);

/* A terminating message from the router: a right one closes the gauge's session. Writes nothing. */
uint32_t mis_node_left(uint8_t *state, size_t state_size, uint64_t clock, const uint8_t *message, size_t length);

/* ---- The login server ---- */

/*
 * An access request that came from the router at IPv4 address `source`. Writes the accept or the reject, which goes back where the request
 * came from (destination MIS_TO_NOBODY: the library knows no address for it). The mill's book has the routers' secrets; accounts are sought
 * in it first, then in the visitors' book. Each call tests both books anew. Output: MIS_OUT_LOGIN bytes.
 */
uint32_t mis_server_login(const uint8_t *mill, size_t mill_length, const uint8_t *visitors, size_t visitors_length, const uint8_t source[4],
                          const uint8_t *message, size_t length, uint8_t *out, size_t out_size);

/* Whether a book is whole: try a changed one before it takes the old one's place. */
bool mis_book_whole(const uint8_t *book, size_t length);

/* ---- Reading alone ---- */

/* Whether a message on the radio can be read, whichever of its five kinds it is: 0, or MIS_SHORT_HEADER to MIS_BAD_VALUE. */
uint32_t mis_read(const uint8_t *message, size_t length);

/* The same for a message between router and server. */
uint32_t mis_readauth(const uint8_t *message, size_t length);

/*
 * Readers of one kind of message each: 0, or MIS_SHORT_HEADER to MIS_BAD_VALUE (MIS_OTHER_CODE for another kind). The fields are put into
 * `fields`, one number each, at the places named beside the reader; after a refusal all that was lent stays. `fields` is aligned and overlaps
 * no other buffer. No check value and no Authenticator is tested.
 *   - A byte string of the message takes two places: its offset in the message (.._AT) and its length (.._LENGTH).
 *   - A number that the message does not have is MIS_NONE. A field that says yes or no is 1 or 0.
 *   - Numbers in a byte string (lists of types, networks, groups) are most significant byte first.
 */
#define MIS_NONE UINT64_MAX

/* A beacon. `position` gets its twelve bytes, or zeros where it has none. */
enum {
    MIS_BEACON_STAMP,
    MIS_BEACON_GROUPS_AT,           /* groups of 4 bytes */
    MIS_BEACON_GROUPS_LENGTH,
    MIS_BEACON_SERIAL,
    MIS_BEACON_INTERVAL,
    MIS_BEACON_SECURITY_AT,         /* security types of 2 bytes */
    MIS_BEACON_SECURITY_LENGTH,
    MIS_BEACON_NETWORKS_AT,         /* network numbers of 2 bytes */
    MIS_BEACON_NETWORKS_LENGTH,
    MIS_BEACON_HAS_POSITION,
    MIS_BEACON_LEFT,                /* addresses left, or MIS_NONE */
    MIS_BEACON_FILTER,              /* 0 or 1, or MIS_NONE */
    MIS_BEACON_HAS_UPLINK,
    MIS_BEACON_UPLINK_LINE,         /* the uplink's type of line, and kbps up and down; 0 where there is none */
    MIS_BEACON_UPLINK_UP,
    MIS_BEACON_UPLINK_DOWN,
    MIS_BEACON_CHANNEL,             /* or MIS_NONE */
    MIS_BEACON_FIELDS
};
uint32_t mis_read_beacon(const uint8_t *message, size_t length, uint64_t fields[MIS_BEACON_FIELDS], uint8_t position[12]);

/* A request. */
enum {
    MIS_REQUEST_S,                  /* the bit S, for key A (0) or B (1): 0 in every message of ours */
    MIS_REQUEST_STAMP,
    MIS_REQUEST_SECURITY_AT,
    MIS_REQUEST_SECURITY_LENGTH,
    MIS_REQUEST_CHECK_AT,           /* the check value, 16 bytes */
    MIS_REQUEST_CHECK_LENGTH,
    MIS_REQUEST_ACCOUNT_AT,         /* the gauge's name in the server's book */
    MIS_REQUEST_ACCOUNT_LENGTH,
    MIS_REQUEST_SEED_AT,            /* 16 bytes */
    MIS_REQUEST_SEED_LENGTH,
    MIS_REQUEST_NETWORKS_AT,
    MIS_REQUEST_NETWORKS_LENGTH,
    MIS_REQUEST_LOCAL,              /* the gauge's IPv4 address, or MIS_NONE */
    MIS_REQUEST_FIELDS
};
uint32_t mis_read_request(const uint8_t *message, size_t length, uint64_t fields[MIS_REQUEST_FIELDS]);

/* A success. */
enum {
    MIS_SUCCESS_S,
    MIS_SUCCESS_STAMP,
    MIS_SUCCESS_LIFETIME,           /* of the key, in units */
    MIS_SUCCESS_CHECK_AT,
    MIS_SUCCESS_CHECK_LENGTH,
    MIS_SUCCESS_NETWORKS_AT,
    MIS_SUCCESS_NETWORKS_LENGTH,
    MIS_SUCCESS_LOCAL,              /* an IPv4 address each, or MIS_NONE */
    MIS_SUCCESS_REMOTE,
    MIS_SUCCESS_FIELDS
};
uint32_t mis_read_success(const uint8_t *message, size_t length, uint64_t fields[MIS_SUCCESS_FIELDS]);

/* A failure. */
enum { MIS_FAILURE_STAMP, MIS_FAILURE_REASON, MIS_FAILURE_FIELDS };
uint32_t mis_read_failure(const uint8_t *message, size_t length, uint64_t fields[MIS_FAILURE_FIELDS]);

/* A terminating message. */
enum {
    MIS_TERMINATING_S,
    MIS_TERMINATING_STAMP,
    MIS_TERMINATING_CHECK_AT,
    MIS_TERMINATING_CHECK_LENGTH,
    MIS_TERMINATING_REASON,         /* or MIS_NONE */
    MIS_TERMINATING_FIELDS
};
uint32_t mis_read_terminating(const uint8_t *message, size_t length, uint64_t fields[MIS_TERMINATING_FIELDS]);

/* An access request. `position` gets the router's position. Of objects that may repeat it is told how many there are. */
enum {
    MIS_ACCESS_IDENTIFIER,
    MIS_ACCESS_ACCOUNT_AT,
    MIS_ACCESS_ACCOUNT_LENGTH,
    MIS_ACCESS_DATA_AT,             /* the authentication data, 16 bytes */
    MIS_ACCESS_DATA_LENGTH,
    MIS_ACCESS_CHECK_AT,
    MIS_ACCESS_CHECK_LENGTH,
    MIS_ACCESS_SEED_AT,
    MIS_ACCESS_SEED_LENGTH,
    MIS_ACCESS_SECURITY,            /* the security type */
    MIS_ACCESS_ROUTER,              /* the router's IPv4 address, or MIS_NONE */
    MIS_ACCESS_PROXIES,             /* how many proxy objects (33) */
    MIS_ACCESS_SIXES,               /* how many IPv6 addresses (95) */
    MIS_ACCESS_HAS_GROUPS,
    MIS_ACCESS_GROUPS_AT,           /* 0, and a length of 0, where there are none */
    MIS_ACCESS_GROUPS_LENGTH,
    MIS_ACCESS_FIELDS
};
uint32_t mis_read_access_request(const uint8_t *message, size_t length, uint64_t fields[MIS_ACCESS_FIELDS], uint8_t position[12]);

/* An accept. */
enum {
    MIS_ACCEPT_IDENTIFIER,
    MIS_ACCEPT_KEY_AT,              /* the session key under its mask, 16 bytes */
    MIS_ACCEPT_KEY_LENGTH,
    MIS_ACCEPT_CHECK_AT,
    MIS_ACCEPT_CHECK_LENGTH,
    MIS_ACCEPT_PROXIES,
    MIS_ACCEPT_FIELDS
};
uint32_t mis_read_accept(const uint8_t *message, size_t length, uint64_t fields[MIS_ACCEPT_FIELDS]);

/* A reject. */
enum { MIS_REJECT_IDENTIFIER, MIS_REJECT_PROXIES, MIS_REJECT_FIELDS };
uint32_t mis_read_reject(const uint8_t *message, size_t length, uint64_t fields[MIS_REJECT_FIELDS]);

/* ---- Writing alone ---- */

/*
 * Writers of one kind of message each (destination MIS_TO_NOBODY: the caller knows to whom). MIS_SMALL_OUTPUT first, then MIS_OUT_OF_RANGE: a
 * list that is not of whole elements, a byte string of over 253 bytes, an empty account, a number over its range, a run of proxies or sixes
 * that are not whole objects of their type, a message over its limit. Then nothing was written. They compute no check value and no
 * Authenticator: the caller's 16 bytes are written, and the Authenticator is zero.
 *   - A number that the message shall not have is MIS_NONE; a position, an uplink and groups count where the flag before them is true.
 *   - Output: MIS_OUT_RADIO bytes for the five kinds on the radio, MIS_OUT_LOGIN bytes for the three between router and server.
 */

/* A beacon. `left` up to 255, `filter` 0 or 1, `channel` up to 255, or MIS_NONE each. */
uint32_t mis_write_beacon(uint64_t stamp, const uint8_t *groups, size_t groups_length, uint16_t serial, uint16_t interval,
                          const uint8_t *security, size_t security_length, const uint8_t *networks, size_t networks_length, bool has_position,
                          const uint8_t position[12], uint64_t left, uint64_t filter, bool has_uplink, uint16_t line, uint16_t up,
                          uint16_t down, uint64_t channel, uint8_t *out, size_t out_size);

/* A request. `local` is an IPv4 address or MIS_NONE. */
uint32_t mis_write_request(bool s, uint64_t stamp, const uint8_t *security, size_t security_length, const uint8_t check[16],
                           const uint8_t *account, size_t account_length, const uint8_t seed[16], const uint8_t *networks,
                           size_t networks_length, uint64_t local, uint8_t *out, size_t out_size);

/* A success. `local` and `remote` are IPv4 addresses or MIS_NONE. */
uint32_t mis_write_success(bool s, uint64_t stamp, uint16_t lifetime, const uint8_t check[16], const uint8_t *networks, size_t networks_length,
                           uint64_t local, uint64_t remote, uint8_t *out, size_t out_size);

/* A failure. */
uint32_t mis_write_failure(uint64_t stamp, uint16_t reason, uint8_t *out, size_t out_size);

/* A terminating message. `reason` up to 65,535, or MIS_NONE. */
uint32_t mis_write_terminating(bool s, uint64_t stamp, const uint8_t check[16], uint64_t reason, uint8_t *out, size_t out_size);

/* An access request. `router` is an IPv4 address or MIS_NONE; `proxies` are whole objects 33 one after the other, `sixes` whole objects 95. */
uint32_t mis_write_access_request(uint8_t identifier, const uint8_t *account, size_t account_length, const uint8_t data[16],
                                  const uint8_t check[16], const uint8_t seed[16], uint16_t security, const uint8_t position[12],
                                  uint64_t router, const uint8_t *proxies, size_t proxies_length, const uint8_t *sixes, size_t sixes_length,
                                  bool has_groups, const uint8_t *groups, size_t groups_length, uint8_t *out, size_t out_size);

/* An accept; `key` as it goes over the link, under its mask. */
uint32_t mis_write_accept(uint8_t identifier, const uint8_t key[16], const uint8_t check[16], const uint8_t *proxies, size_t proxies_length,
                          uint8_t *out, size_t out_size);

/* A reject. */
uint32_t mis_write_reject(uint8_t identifier, const uint8_t *proxies, size_t proxies_length, uint8_t *out, size_t out_size);

#ifdef __cplusplus
}
#endif

#endif
