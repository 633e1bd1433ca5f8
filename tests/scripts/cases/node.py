"""The node's calls: hear, success, failure, leave, left."""

from cases.hall import NETWORK, ROUTER, Gauge, beacon, before_five, open_hall, seed, state
from wire import (
    BEACON,
    FAILURE,
    REQUEST,
    SUCCESS,
    TERMINATING,
    beacon_objects,
    check_value,
    failure,
    header,
    hexed,
    mac,
    md5,
    misp,
    number,
    obj,
    padded_filler,
    seal,
    stamp_object,
    success_objects,
    terminating_objects,
)

ONE, THREE = Gauge(0), Gauge(1, security_type=3)


def hear(now, gauge, of, message):
    return f"hear {gauge.index} {now} {hexed(of)} {hexed(message)}"


def arrives(call, now, gauge, message):
    return f"{call} {gauge.index} {now} {hexed(message)}"


def shown(script, gauge, *parts):
    script.shows(f"state {gauge.index}", state(*parts))


def ask(script, gauge, stamp, of, now):
    """A beacon that is answered."""
    script.sends(hear(now, gauge, of, beacon(stamp)), 0, gauge.request(stamp, of), ROUTER, "answered")


def log_in(script, gauge, stamp, of, now, lifetime=2):
    ask(script, gauge, stamp, of, now)
    script.sends(arrives("success", now, gauge, gauge.success(stamp, of, lifetime)), 0, b"", why="opened")


def fresh_nodes(script):
    open_hall(script, "Decision 12: a fresh node has used nothing, so stamp 0 is above all it used", [ONE, THREE])
    shown(script, ONE, 0)
    ask(script, ONE, 0, seed(1), 0)
    shown(script, ONE, 0, 0, 0)
    script.call(arrives("failure", 0, ONE, failure(0, 1)), 0)
    shown(script, ONE, 0, 0)
    script.call(hear(0, ONE, seed(2), beacon(0)), 13, "0 is used now")
    ask(script, ONE, 1, seed(2), 0)
    ask(script, THREE, 2**64 - 1, seed(3), 5)
    shown(script, THREE, 5, 2**64 - 1, 2**64 - 1)


def requests_written(script):
    open_hall(script, "What the node writes: 2, 18, 5, 6, 8, 21 under its password", [ONE, THREE])
    ask(script, ONE, 1000, seed(1), 7)
    ask(script, THREE, 1000, bytes(range(16)), 7)
    texts = [(b"a", b"p"), (b"a" * 253, b"p" * 253), (b"\x00", b"\x00"), (b"b", b"k" * 64), (b"b", b"k" * 65)]
    for index, (account, password) in enumerate(texts):
        gauge = Gauge(2 + index, account=account, password=password)
        script.call(gauge.line(), 0)
        ask(script, gauge, 1000, seed(9), 0)
        script.call(arrives("success", 0, gauge, gauge.success(1000, seed(9))), 0, "keys of each length")
        script.sends(f"leave {gauge.index} 0", 0, gauge.leaving(1000, seed(9)), ROUTER)


def hear_order(script):
    open_hall(script, "hear: 20, 7, 1 to 5, 21, 13, 9, 10", [ONE])
    objects = beacon_objects(1000)
    good = beacon(1000)
    script.call(arrives("failure", 500, ONE, b""), 1, "the clock is stored")
    script.call("room 1499", 0)
    script.call(hear(500, ONE, seed(1), good), 20)
    script.call(hear(499, ONE, seed(1), b""), 20, "20 is before 7")
    script.call(hear(600, ONE, seed(1), b""), 20, "and before 1")
    shown(script, ONE, 500)
    script.call("room 1500", 0)
    script.call(hear(499, ONE, seed(1), b""), 7, "7 is before 1")
    for given in (b"", good[:3]):
        script.call(hear(500, ONE, seed(1), given), 1)
    for length in (0, 3, len(good) + 1, 1501):
        script.call(hear(500, ONE, seed(1), header(BEACON, 0, length) + good[4:]), 2)
    script.call(hear(500, ONE, seed(1), header(REQUEST, 0, 3) + good[4:]), 2, "2 is before 3")
    for code in (0, 2, 3, 4, 8, 9, 255):
        script.call(hear(500, ONE, seed(1), misp(code, objects)), 3)
    script.call(hear(500, ONE, seed(1), misp(SUCCESS, [b"\x02"])), 3, "3 is before 4")
    script.call(hear(500, ONE, seed(1), misp(BEACON, objects + [b"\x0a"])), 4)
    script.call(hear(500, ONE, seed(1), misp(BEACON, [b"\x0a\x01"])), 4, "4 is before 5")
    for gone in range(6):
        script.call(
            hear(500, ONE, seed(1), misp(BEACON, objects[:gone] + objects[gone + 1 :])),
            5,
            f"without {objects[gone][0]}",
        )
    script.call(hear(500, ONE, seed(1), beacon(1000, types=())), 9, "an empty list")
    script.call(hear(500, ONE, seed(1), beacon(1000, types=(3,))), 9)
    script.call(hear(500, ONE, seed(1), beacon(1000, types=(3, 0x0200, 1))), 9)
    script.call(hear(500, ONE, seed(1), beacon(1000, types=(3,), networks=())), 9, "9 is before 10")
    for networks in ((), (0x86DD,), (0x0008,), (0x0801, 0x0008)):
        script.call(hear(500, ONE, seed(1), beacon(1000, networks=networks)), 10)
    shown(script, ONE, 500)
    script.note("Decision 34: a beacon refused with 9 or 10 uses no stamp")
    types, networks = (1, 3, 2), (0x86DD, NETWORK)
    heard = beacon(1000, types=types, networks=networks)
    script.sends(hear(500, ONE, seed(1), heard), 0, ONE.request(1000, seed(1)), ROUTER, "anywhere in the lists")
    script.call(hear(500, ONE, seed(2), misp(BEACON, objects[1:])), 5, "5 is before 21")
    for stamp in (1000, 999, 0, 1050):
        for lists in ({}, {"types": ()}, {"networks": ()}):
            script.call(hear(500, ONE, seed(2), beacon(stamp, **lists)), 21, "within P; 21 is before 13, 9 and 10")
    script.call(hear(500, ONE, seed(2), beacon(1051, types=(3,))), 9, "past P; 9 comes after")
    script.call(hear(500, ONE, seed(2), beacon(1051, networks=())), 10)
    shown(script, ONE, 500, 1000, 1000)
    script.call(arrives("failure", 500, ONE, failure(1000, 128)), 0)
    for stamp in (1000, 999, 0):
        for lists in ({}, {"types": ()}, {"networks": ()}):
            script.call(hear(500, ONE, seed(2), beacon(stamp, **lists)), 13, "13 is before 9 and 10")
    script.call(hear(500, ONE, seed(2), beacon(1001, types=(3,))), 9)
    ask(script, ONE, 1001, seed(2), 500)


def beacons_taken(script):
    open_hall(script, "hear: beacons with optional, foreign, repeated and padded objects; S and reserved bits", [ONE])
    base = beacon_objects(1000)
    variants = [
        [*base, obj(9, bytes(12)), obj(10, b"\x00"), obj(11, b"\x01"), obj(19, bytes(6)), obj(20, b"\x01")],
        [b"\x00", *base[::-1], obj(11, b"\x09"), obj(5), obj(6), obj(8), b"\x00\x00"],
        [*base, *beacon_objects(5, types=(), networks=())],
        [obj(2, b"\x01"), obj(18, b"\x01"), obj(21, b"\x01"), *base],
    ]
    for index, objects in enumerate(variants):
        for flags in (0, 0x80, 0xFF):
            script.call(ONE.line(), 0)
            line = hear(1, ONE, seed(index), misp(BEACON, objects, flags) + b"tail")
            script.sends(line, 0, ONE.request(1000, seed(index)), ROUTER, "no refusal 8 for a beacon")
    long = base + padded_filler(1500 - 4 - sum(map(len, base)))
    script.call(ONE.line(), 0)
    script.call(hear(1, ONE, seed(1), misp(BEACON, long)), 0, "1,500 bytes")
    for count in (17, 126):
        script.call(ONE.line(), 0)
        networks = (0x86DD,) * (count - 1) + (NETWORK,)
        script.call(hear(1, ONE, seed(1), beacon(1000, networks=networks)), 0, f"decision 1: {count} network numbers")


def patience(script):
    open_hall(script, "Decision 13: waiting ends by a beacon more than P above, never by the clock", [ONE])
    ask(script, ONE, 1000, seed(1), 100)
    script.call(hear(10**9, ONE, seed(2), beacon(1050)), 21, "P is 50: not above it, however late the clock")
    script.call(hear(10**9, ONE, seed(2), beacon(10)), 21, "a difference below zero counts as 0")
    shown(script, ONE, 10**9, 1000, 1000)
    ask(script, ONE, 1051, seed(2), 10**9)
    shown(script, ONE, 10**9, 1051, 1051)
    script.call(arrives("success", 10**9, ONE, ONE.success(1000, seed(1))), 21, "it waits on the newer stamp alone")
    script.call(arrives("failure", 10**9, ONE, failure(1000, 1)), 21)
    script.call(arrives("success", 10**9, ONE, ONE.success(1051, seed(1))), 17, "the newer seed's key")
    script.call(arrives("success", 10**9, ONE, ONE.success(1051, seed(2))), 0)
    open_hall(script, "The least patience and the most", [])
    script.call(ONE.line(patience=1), 0)
    ask(script, ONE, 1000, seed(1), 0)
    script.call(hear(0, ONE, seed(2), beacon(1001)), 21)
    ask(script, ONE, 1002, seed(2), 0)
    script.call(ONE.line(patience=2**32 - 1), 0)
    ask(script, ONE, 5, seed(1), 0)
    script.call(hear(0, ONE, seed(2), beacon(2**32 + 4)), 21)
    ask(script, ONE, 2**32 + 5, seed(2), 0)


def waiting_and_success(script):
    open_hall(script, "success: 7, 1 to 6, 8, 21, 17; all but 5 leave the node waiting", [ONE])
    ask(script, ONE, 1000, seed(1), 500)
    good = ONE.success(1000, seed(1))
    objects = success_objects(1000, 2)
    before_five(script, lambda clock, m: arrives("success", clock, ONE, m), 500, good, objects, SUCCESS, FAILURE, (0, 1, 3, 8, 9, 255), b"\x03")
    for length in (0, 15, 17):
        odd = [objects[0], objects[1], obj(5, bytes(length)), objects[3]]
        script.call(arrives("success", 500, ONE, misp(SUCCESS, odd)), 6)
        script.call(arrives("success", 500, ONE, misp(SUCCESS, odd, 0x80)), 6, "6 is before 8")
    script.call(arrives("success", 500, ONE, ONE.success(1000, seed(1), flags=0x80)), 8)
    script.call(arrives("success", 500, ONE, ONE.success(1, seed(1), flags=0x80)), 8, "8 is before 21")
    for stamp in (999, 1001, 0, 2**64 - 1):
        script.call(arrives("success", 500, ONE, ONE.success(stamp, seed(1))), 21, "another stamp")
        script.call(arrives("success", 500, ONE, misp(SUCCESS, success_objects(stamp, 2))), 21, "21 is before 17")
    script.call(arrives("success", 500, ONE, misp(SUCCESS, objects)), 17)
    script.call(arrives("success", 500, ONE, ONE.success(1000, seed(2))), 17, "another key")
    for why, sender, receiver in (
        ("addresses turned", ONE.address, ROUTER),
        ("another router", ONE.address, ONE.address),
        ("another node", ROUTER, ROUTER),
    ):
        sealed = seal(misp(SUCCESS, objects), ONE.key(seed(1)), sender, receiver)
        script.call(arrives("success", 500, ONE, sealed), 17, why)
    sealed = seal(misp(SUCCESS, objects), ONE.password, ROUTER, ONE.address)
    script.call(arrives("success", 500, ONE, sealed), 17, "under the password and not the session key")
    longer = misp(SUCCESS, [stamp_object(1000), obj(15, number(3, 2)), obj(5, check_value(good)), objects[3]])
    script.call(arrives("success", 500, ONE, longer), 17, "another lifetime")
    shown(script, ONE, 500, 1000, 1000)
    script.call(arrives("success", 510, ONE, good + b"tail"), 0, "bytes after Length")
    shown(script, ONE, 510, 1000, None, (ONE, 1000, seed(1), 510, 2))
    script.call(arrives("success", 510, ONE, good), 21, "it waits no more")
    script.call(arrives("success", 510, ONE, misp(SUCCESS, [])), 5, "an open node stays open")
    shown(script, ONE, 510, 1000, None, (ONE, 1000, seed(1), 510, 2))


def success_missing(script):
    good = success_objects(1000, 2)
    other = success_objects(77, 2)
    for objects, why in (
        (good[1:], "without a stamp"),
        (good[:1] + good[2:], "without a lifetime"),
        (good[:2] + good[3:], "without a check value"),
        (good[:3], "without network numbers"),
        (other[:3], "with another stamp"),
        ([], "without anything"),
        (good[:1] + [obj(15, b"\x02")] + good[2:], "with a lifetime of one byte"),
    ):
        open_hall(script, f"Decision 6: a success with refusal 5 ends waiting, {why}", [ONE])
        ask(script, ONE, 1000, seed(1), 500)
        script.call(arrives("success", 500, ONE, misp(SUCCESS, objects, 0x80)), 5)
        shown(script, ONE, 500, 1000)
        script.call(arrives("success", 500, ONE, ONE.success(1000, seed(1))), 21, "the good one comes too late")
        ask(script, ONE, 1001, seed(2), 500)
    for message, refusal in ((misp(FAILURE, []), 3), (misp(SUCCESS, [b"\x02"]), 4)):
        open_hall(script, f"A success with refusal {refusal} leaves waiting", [ONE])
        ask(script, ONE, 1000, seed(1), 500)
        script.call(arrives("success", 500, ONE, message), refusal)
        script.call(arrives("success", 499, ONE, misp(SUCCESS, [])), 7, "7 is before 5")
        shown(script, ONE, 500, 1000, 1000)
    open_hall(script, "Other calls with refusal 5 leave waiting", [ONE])
    ask(script, ONE, 1000, seed(1), 500)
    script.call(arrives("failure", 500, ONE, misp(FAILURE, [])), 5)
    script.call(arrives("left", 500, ONE, misp(TERMINATING, [])), 5)
    script.call(hear(500, ONE, seed(2), misp(BEACON, [])), 5)
    shown(script, ONE, 500, 1000, 1000)


def success_taken(script):
    base = success_objects(1000, 2)
    variants = [
        ("no network number of ours", success_objects(1000, 2, networks=(1,)), 2),
        ("no network number at all", success_objects(1000, 2, networks=()), 2),
        ("lifetime 0", success_objects(1000, 0), 0),
        ("lifetime 65,535", success_objects(1000, 65_535), 65_535),
        ("addresses, padding, others", [b"\x00", *base, obj(3, bytes(4)), obj(4, bytes(4)), obj(6), b"\x00"], 2),
        ("a second object 5 that is not zeroed", [*base, obj(5, bytes([0xDD]) * 16)], 2),
        ("first of each type", [*base, *success_objects(5, 9)], 2),
        ("wrong lengths first", [obj(2), obj(15, b"\x01"), obj(21, b"\x01"), *base[::-1]], 2),
    ]
    for why, objects, lifetime in variants:
        open_hall(script, f"Decision 14: a success opens with {why}", [ONE])
        ask(script, ONE, 1000, seed(1), 500)
        script.call(arrives("success", 510, ONE, ONE.success(1000, seed(1), flags=0x7F, objects=objects)), 0)
        shown(script, ONE, 510, 1000, None, (ONE, 1000, seed(1), 510, lifetime))


def failures(script):
    open_hall(script, "failure: 7, 1 to 5, 21; no 8 and no 17", [ONE])
    script.call(arrives("failure", 500, ONE, failure(1000, 1)), 21, "not waiting")
    ask(script, ONE, 1000, seed(1), 500)
    good = failure(1000, 128)
    script.call(arrives("failure", 499, ONE, b""), 7, "7 is before 1")
    for given in (b"", good[:3]):
        script.call(arrives("failure", 500, ONE, given), 1)
    for length in (3, 19, 1501):
        script.call(arrives("failure", 500, ONE, header(FAILURE, 0, length) + good[4:]), 2)
    script.call(arrives("failure", 500, ONE, header(SUCCESS, 0, 3) + good[4:]), 2, "2 is before 3")
    for code in (0, 1, 3, 4, 9, 255):
        script.call(arrives("failure", 500, ONE, misp(code, [good[4:]])), 3)
    script.call(arrives("failure", 500, ONE, misp(SUCCESS, [b"\x02"])), 3, "3 is before 4")
    script.call(arrives("failure", 500, ONE, misp(FAILURE, [good[4:], b"\x0d"])), 4)
    script.call(arrives("failure", 500, ONE, misp(FAILURE, [b"\x0d\x00"])), 4, "4 is before 5")
    for objects in ([], [stamp_object(1000)], [obj(13, b"\x00\x01")], [stamp_object(1000), obj(13, b"\x01")]):
        script.call(arrives("failure", 500, ONE, misp(FAILURE, objects)), 5)
    script.call(arrives("failure", 500, ONE, misp(FAILURE, [stamp_object(9)])), 5, "5 is before 21")
    for stamp in (999, 1001, 0):
        script.call(arrives("failure", 500, ONE, failure(stamp, 128)), 21, "another stamp")
    shown(script, ONE, 500, 1000, 1000)
    script.call(
        arrives("failure", 505, ONE, misp(FAILURE, [b"\x00", obj(5), good[4:], obj(2)], 0xFF) + b"tail"),
        0,
        "S is not looked at",
    )
    shown(script, ONE, 505, 1000)
    script.call(arrives("failure", 505, ONE, good), 21, "it waits no more")
    for index, reason in enumerate((0, 1, 127, 128, 129, 130, 255, 256, 65_535)):
        ask(script, ONE, 1001 + index, seed(1), 505)
        script.call(arrives("failure", 505, ONE, failure(1001 + index, reason)), 0, f"reason {reason}")
    script.note("A failure does not close an open session")
    log_in(script, ONE, 2000, seed(3), 505)
    script.call(arrives("failure", 505, ONE, failure(2000, 128)), 21)
    shown(script, ONE, 505, 2000, None, (ONE, 2000, seed(3), 505, 2))


def open_nodes(script):
    open_hall(script, "An open node: beacons are 21, whatever their stamp and lists", [ONE])
    log_in(script, ONE, 1000, seed(1), 500)
    for stamp in (0, 1000, 1001, 5000, 2**64 - 1):
        script.call(hear(500, ONE, seed(2), beacon(stamp)), 21)
        script.call(hear(500, ONE, seed(2), beacon(stamp, types=(), networks=())), 21, "21 is before 13, 9 and 10")
    script.note("It lapses like the router's session, by its own clock: L x U is 20")
    script.call(hear(520, ONE, seed(2), beacon(1001)), 21, "since 500: open at 520")
    script.call(hear(521, ONE, seed(2), beacon(1000)), 13, "gone at 521; used survives")
    shown(script, ONE, 521, 1000)
    log_in(script, ONE, 1001, seed(2), 521)
    script.call(arrives("failure", 542, ONE, b""), 1, "any call past 7 lapses")
    shown(script, ONE, 542, 1001)
    log_in(script, ONE, 1002, seed(3), 542)
    script.call(arrives("left", 541, ONE, b""), 7, "7 changes nothing")
    script.call("room 0", 0)
    script.call("leave 0 9999", 20, "nor does 20")
    shown(script, ONE, 542, 1002, None, (ONE, 1002, seed(3), 542, 2))
    script.call("room 4096", 0)
    script.call("leave 0 563", 21, "lapsed in this call")
    shown(script, ONE, 563, 1002)


def lifetimes(script):
    open_hall(script, "The node's lifetime comes from object 15, U from its setup, since from its clock", [])
    script.call(ONE.line(ticks=7), 0)
    log_in(script, ONE, 1000, seed(1), 300, lifetime=3)
    script.call("leave 0 299", 7)
    script.call(arrives("failure", 321, ONE, b""), 1)
    shown(script, ONE, 321, 1000, None, (ONE, 1000, seed(1), 300, 3))
    script.call(arrives("failure", 322, ONE, b""), 1)
    shown(script, ONE, 322, 1000)
    script.note("A session of lifetime 0 lapses once the clock has moved on")
    log_in(script, ONE, 1001, seed(2), 400, lifetime=0)
    script.call(arrives("failure", 400, ONE, b""), 1)
    shown(script, ONE, 400, 1001, None, (ONE, 1001, seed(2), 400, 0))
    script.call(arrives("failure", 401, ONE, b""), 1)
    shown(script, ONE, 401, 1001)
    script.note("The longest: 65,535 x (2^32 - 1)")
    over = 65_535 * (2**32 - 1)
    script.call(ONE.line(ticks=2**32 - 1), 0)
    log_in(script, ONE, 1000, seed(1), 9, lifetime=65_535)
    script.call(arrives("failure", 9 + over, ONE, b""), 1)
    shown(script, ONE, 9 + over, 1000, None, (ONE, 1000, seed(1), 9, 65_535))
    script.call(arrives("failure", 10 + over, ONE, b""), 1)
    shown(script, ONE, 10 + over, 1000)


def leaving(script):
    open_hall(script, "leave: 20, 7, 21", [ONE])
    script.call("leave 0 100", 21, "not open")
    ask(script, ONE, 1000, seed(1), 500)
    script.call("leave 0 500", 21, "waiting is not open")
    shown(script, ONE, 500, 1000, 1000)
    script.call("leave 0 499", 7, "7 is before 21")
    script.call("room 1499", 0)
    script.call("leave 0 500", 20, "20 is before 21")
    script.call("leave 0 499", 20, "20 is before 7")
    script.call("room 1500", 0)
    script.call(arrives("success", 510, ONE, ONE.success(1000, seed(1))), 0)
    script.sends("leave 0 530", 0, ONE.leaving(1000, seed(1)), ROUTER, "now - since is L x U")
    shown(script, ONE, 530, 1000)
    script.call("leave 0 530", 21, "closed")
    script.call(hear(530, ONE, seed(2), beacon(1000)), 13, "used survives")


def left_order(script):
    open_hall(script, "left: 7, 1 to 6, 8, 21, 17", [ONE, THREE])
    objects = terminating_objects(1000)
    script.call(arrives("left", 500, ONE, ONE.closing(1000, seed(1))), 21, "not open")
    ask(script, ONE, 1000, seed(1), 500)
    script.call(arrives("left", 500, ONE, ONE.closing(1000, seed(1))), 21, "waiting is not open")
    script.call(arrives("success", 500, ONE, ONE.success(1000, seed(1))), 0)
    good = ONE.closing(1000, seed(1))
    before_five(script, lambda clock, m: arrives("left", clock, ONE, m), 500, good, objects, TERMINATING, SUCCESS, (0, 1, 3, 4, 8, 255), b"\x0d")
    for gone in ([], objects[:1], objects[1:]):
        script.call(arrives("left", 500, ONE, misp(TERMINATING, gone)), 5)
    script.call(arrives("left", 500, ONE, misp(TERMINATING, [obj(5)])), 5, "5 is before 6")
    for length in (0, 15, 17):
        script.call(arrives("left", 500, ONE, misp(TERMINATING, [objects[0], obj(5, bytes(length))])), 6)
        script.call(
            arrives("left", 500, ONE, misp(TERMINATING, [objects[0], obj(5, bytes(length))], 0x80)),
            6,
            "6 is before 8",
        )
    script.call(arrives("left", 500, ONE, ONE.closing(1000, seed(1), flags=0x80)), 8)
    script.call(arrives("left", 500, ONE, ONE.closing(5, seed(1), flags=0x80)), 8, "8 is before 21")
    for stamp in (999, 1001, 0):
        script.call(arrives("left", 500, ONE, ONE.closing(stamp, seed(1))), 21, "another stamp")
        script.call(arrives("left", 500, ONE, misp(TERMINATING, terminating_objects(stamp))), 21, "21 is before 17")
    script.call(arrives("left", 500, ONE, misp(TERMINATING, objects)), 17)
    script.call(arrives("left", 500, ONE, ONE.leaving(1000, seed(1))), 17, "its own message coming back")
    script.call(arrives("left", 500, ONE, ONE.closing(1000, seed(2))), 17, "another key")
    addresses_first = mac(ONE.key(seed(1)), md5(ROUTER + ONE.address + misp(TERMINATING, objects)))
    script.call(arrives("left", 500, ONE, good[:16] + addresses_first), 17, "addresses first")
    shown(script, ONE, 500, 1000, None, (ONE, 1000, seed(1), 500, 2))
    reason = [b"\x00", objects[0], obj(13, b"\x00\x01"), objects[1], obj(5, bytes(16))]
    script.call(
        arrives("left", 520, ONE, ONE.closing(1000, seed(1), flags=0x7F, objects=reason) + b"tail"),
        0,
        "a reason, a second object 5",
    )
    shown(script, ONE, 520, 1000)
    script.call(arrives("left", 520, ONE, good), 21, "closed")


def older_sessions(script):
    open_hall(script, "A terminating message with an older session's stamp is 21, not 17", [ONE])
    log_in(script, ONE, 1000, seed(1), 500)
    script.sends("leave 0 501", 0, ONE.leaving(1000, seed(1)), ROUTER)
    log_in(script, ONE, 1001, seed(2), 502)
    script.call(arrives("left", 502, ONE, ONE.closing(1000, seed(1))), 21)
    script.call(arrives("success", 502, ONE, ONE.success(1000, seed(1))), 21)
    shown(script, ONE, 502, 1001, None, (ONE, 1001, seed(2), 502, 2))


def node_clocks(script):
    open_hall(script, "Decision 15: every node call stores the clock, after every refusal but 20 and 7", [ONE])
    ask(script, ONE, 1000, seed(1), 10)
    for now, line in (
        (11, hear(11, ONE, seed(2), beacon(1000))),
        (12, arrives("success", 12, ONE, ONE.success(1, seed(1)))),
        (13, arrives("failure", 13, ONE, failure(1, 1))),
        (14, arrives("left", 14, ONE, ONE.closing(1, seed(1)))),
        (15, "leave 0 15"),
        (18, arrives("success", 18, ONE, b"")),
        (19, arrives("failure", 19, ONE, b"")),
        (20, arrives("left", 20, ONE, b"")),
        (21, hear(21, ONE, seed(2), b"")),
    ):
        script.call(line, 1 if now >= 18 else 21)
        shown(script, ONE, now, 1000, 1000)
    for call in ("success", "failure", "left"):
        script.call(arrives(call, 20, ONE, b""), 7)
    script.call(hear(20, ONE, seed(2), b""), 7)
    script.call("leave 0 20", 7)
    shown(script, ONE, 21, 1000, 1000)
    script.call(arrives("failure", 21, ONE, failure(1000, 128)), 0)


def cases(script):
    for part in (
        fresh_nodes,
        requests_written,
        hear_order,
        beacons_taken,
        patience,
        waiting_and_success,
        success_missing,
        success_taken,
        failures,
        open_nodes,
        lifetimes,
        leaving,
        left_order,
        older_sessions,
        node_clocks,
    ):
        part(script)
