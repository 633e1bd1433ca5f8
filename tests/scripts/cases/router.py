"""The router's calls: beacon, request, reply, close, closed, taken."""

from cases.hall import GROUPS, NETWORK, ROUTER, SECRET, Gauge, beacon, before_five, open_hall, place, reject, router_line, seed
from wire import (
    ACCEPT,
    ACCESS_REQUEST,
    BEACON,
    REQUEST,
    SUCCESS,
    TERMINATING,
    ZEROS,
    accept_objects,
    beacon_objects,
    check_value,
    exclusive_or,
    failure,
    filler,
    header,
    hexed,
    mac,
    md5,
    misauth,
    misp,
    number,
    numbers,
    obj,
    padded_filler,
    request_objects,
    seal,
    stamp_object,
    success_objects,
    terminating_objects,
)

ONE, TWO, THREE = Gauge(0), Gauge(1, security_type=3), Gauge(2)
FORMAT, NO_SERVER, LACK, FAILED = 130, 1, 129, 128


def request(now, gauge, message):
    return f"request {now} {hexed(gauge.address)} {hexed(message)}"


def reply(now, message):
    return f"reply {now} {hexed(message)}"


def close(now, gauge):
    return f"close {now} {hexed(gauge.address)}"


def closed(now, gauge, message):
    return f"closed {now} {hexed(gauge.address)} {hexed(message)}"


def log_in(script, gauge, stamp, of, now=None, number=0, lifetime=2):
    """A request and its accept, both at this clock; gives the request."""
    now = stamp if now is None else now
    message = gauge.request(stamp, of)
    script.sends(request(now, gauge, message), 0, gauge.access(number, message, of), why="accepted")
    answer = gauge.success(stamp, of, lifetime)
    script.sends(reply(now, gauge.accept(number, message, of)), 0, answer, gauge.address, "opened")
    return message


def beacons(script):
    open_hall(script, "The router's beacon: 20, then 7; stamp, groups, serial, interval, types 2 and 3, network")
    script.sends("beacon 0 0", 0, beacon(0, 0), why="a fresh router's clock is 0")
    script.sends("beacon 1000 65535", 0, beacon(1000, 65_535))
    script.sends("beacon 1000 3", 0, beacon(1000, 3), why="the same clock again")
    script.call("beacon 999 4", 7)
    script.call("room 1499", 0)
    script.call("beacon 1001 4", 20)
    script.call("beacon 999 4", 20, "20 is before 7")
    script.call("room 1500", 0)
    script.sends("beacon 1000 5", 0, beacon(1000, 5), why="1,500 are enough, and 20 left the clock at 1000")
    script.sends("beacon 18446744073709551615 6", 0, beacon(2**64 - 1, 6), why="the last tick of all")
    script.call("beacon 18446744073709551614 6", 7)


def outputs(script):
    open_hall(
        script, "Decision 31: 20 is tested first, also where nothing would be written, and changes nothing", [ONE]
    )
    message = log_in(script, ONE, 1000, seed(1))
    held = place(0, ONE, 1000, session=(1000, message, seed(1), 1000))
    script.call("room 4095", 0)
    script.call(request(1500, ONE, b""), 20, "request needs 4,096 although the message is empty")
    script.call(request(999, ONE, b""), 20, "20 is before 7")
    script.call(close(1000, TWO), 21, "close needs 1,500")
    script.call("room 1499", 0)
    script.call(reply(1500, b""), 20)
    script.call(reply(999, b""), 20, "20 is before 7")
    script.call(close(1500, TWO), 20, "no session there, and yet 20")
    script.call(close(1500, ONE), 20)
    script.call(close(999, ONE), 20, "20 is before 7")
    script.shows("places", held)
    script.call("room 0", 0)
    script.call(closed(1000, ONE, b""), 1, "closed writes nothing and needs no output")
    script.call(closed(999, ONE, b""), 7)
    script.call(closed(1000, ONE, ONE.leaving(1000, seed(1))), 0)
    script.shows("places", place(0, ONE, 1000))
    script.call("room 4096", 0)
    second, third = ONE.request(1001, seed(2)), TWO.request(1001, seed(3))
    script.call(request(1001, ONE, second), 0)
    script.call(request(1001, TWO, third), 0)
    script.call("room 1500", 0)
    script.sends(
        reply(1001, ONE.accept(0, second, seed(2))), 0, ONE.success(1001, seed(2)), ONE.address, "reply needs 1,500"
    )
    script.sends(reply(1001, reject(1)), 0, failure(1001, FAILED), TWO.address)
    script.sends(close(1001, ONE), 0, ONE.closing(1001, seed(2)), ONE.address)


def clock_back(script):
    open_hall(
        script, "7 changes nothing, not even what has lapsed; every other refusal stores the clock and lapses", [ONE]
    )
    message = log_in(script, ONE, 1000, seed(1))
    held = place(0, ONE, 1000, session=(1000, message, seed(1), 1000))
    for line in ("beacon 999 0", request(999, ONE, message), reply(999, b""), close(999, ONE), closed(0, ONE, b"")):
        script.call(line, 7)
    script.shows("places", held)
    script.call("beacon 1020 0", 0, "L x U is 20: still open")
    script.shows("places", held)
    script.call(request(1021, ONE, b""), 1, "1 is after 7, so the clock is stored and the session lapses")
    script.shows("places", place(0, ONE, 1000))
    script.call("beacon 1020 0", 7)
    script.call(reply(1100, b""), 1, "now - last is W: the place stays")
    script.shows("places", place(0, ONE, 1000))
    script.call(close(1101, ONE), 21, "W + 1: it goes")
    script.shows("places")
    script.shows("taken", "0 0")


def request_reading(script):
    open_hall(script, "request: 7, 1 to 6, 8 to 10 in their order", [ONE])
    script.call("beacon 1000 1", 0)
    objects = request_objects(1000, ONE.account, seed(1), (2,))
    good = ONE.request(1000, seed(1))
    at = 1000
    script.call(request(999, ONE, b""), 7, "7 is before 1")
    for given in (b"", good[:1], good[:2], good[:3]):
        script.call(request(at, ONE, given), 1)
    for length in (0, 3, len(good) + 1, 1501, 65_535):
        script.call(request(at, ONE, header(REQUEST, 0, length) + good[4:]), 2, f"Length {length}")
    script.call(request(at, ONE, header(REQUEST, 0, 1501) + bytes(1497)), 2, "Length 1,501 of 1,501 bytes")
    script.call(request(at, ONE, header(TERMINATING, 0, 3) + good[4:]), 2, "2 is before 3")
    for code in (0, 1, 2, 4, 8, 9, 255):
        script.call(request(at, ONE, misp(code, objects)), 3, f"code {code}")
    script.call(request(at, ONE, misp(BEACON, [b"\x02"])), 3, "3 is before 4")
    for end in (b"\x02", b"\x07\x00", b"\xff\x01", b"\x07\x03"):
        script.call(request(at, ONE, misp(REQUEST, objects + [end])), 4)
    script.call(request(at, ONE, misp(REQUEST, objects[1:] + [b"\x07\x03"])), 4, "4 is before 5")
    for gone in range(6):
        missing = objects[:gone] + objects[gone + 1 :]
        script.call(request(at, ONE, misp(REQUEST, missing)), 5, f"without object {objects[gone][0]}")
    script.call(request(at, ONE, misp(REQUEST, objects[:-1] + [obj(21, b"\x08")])), 5, "a list of odd length is none")
    script.call(request(at, ONE, misp(REQUEST, [obj(5)] + objects[3:])), 5, "5 is before 6")
    for index, length in ((2, 0), (2, 15), (2, 17), (3, 0), (4, 0), (4, 15), (4, 17)):
        odd = objects[:index] + [obj(objects[index][0], bytes(length))] + objects[index + 1 :]
        script.call(request(at, ONE, misp(REQUEST, odd)), 6, f"object {odd[index][0]} of {length + 2}")
        script.call(request(at, ONE, misp(REQUEST, odd, flags=0x80)), 6, "6 is before 8")
    script.call(request(at, ONE, ONE.request(1000, seed(1), flags=0x80)), 8)
    script.call(request(at, ONE, ONE.request(1000, seed(1), types=(), flags=0x80)), 8, "8 is before 9")
    script.call(request(at, ONE, ONE.request(1000, seed(1), networks=(), flags=0xFF)), 8, "8 is before 10")
    script.call(request(at, ONE, ONE.request(2000, seed(1), flags=0x80)), 8, "8 is before 11")
    script.shows("taken", "0 0")
    passed = ONE.request(1000, seed(1), flags=0x7F)
    script.sends(request(at, ONE, passed), 0, ONE.access(0, passed, seed(1)), why="reserved bits are not checked")


def request_judging(script):
    open_hall(script, "request: 9, 10 and 12 send a failure, 11 is silent; none takes a place", [ONE])
    script.call("beacon 1000 1", 0)
    for types in ((), (2, 3), (2, 2), (1,), (0,), (4,), (0x0200,), (0x0302,), (0xFFFF,), (2,) * 126):
        for networks, stamp in (((NETWORK,), 1000), ((), 1000), ((NETWORK,), 5000), ((NETWORK,), 1)):
            message = ONE.request(stamp, seed(1), types=types, networks=networks)
            why = f"{types[:3]}; 9 is before 10, 11 and 12"
            script.sends(request(1000, ONE, message), 9, failure(stamp, FORMAT), ONE.address, why)
    for networks in ((), (0x86DD,), (0x0008,), (0x0801,), (1,) * 126):
        for stamp in (1000, 1001, 2**64 - 1, 899, 0):
            message = ONE.request(stamp, seed(1), networks=networks)
            why = f"{networks[:3]}; 10 is before 11 and 12"
            script.sends(request(1000, ONE, message), 10, failure(stamp, FORMAT), ONE.address, why)
    for stamp in (1001, 1002, 2**63, 2**64 - 1):
        script.sends(request(1000, ONE, ONE.request(stamp, seed(1))), 11, b"", why="stamp above the clock")
    for stamp in (899, 898, 1, 0):
        message = ONE.request(stamp, seed(1))
        script.sends(request(1000, ONE, message), 12, failure(stamp, NO_SERVER), ONE.address, "clock - stamp > W")
    script.shows("taken", "0 0")
    for index, stamp in enumerate((900, 1000)):
        gauge = (ONE, THREE)[index]
        message = gauge.request(stamp, seed(1))
        script.sends(request(1000, gauge, message), 0, gauge.access(index, message, seed(1)), why="example 8")
    for index, networks in enumerate(((1, NETWORK), (NETWORK, 0x86DD), (0x86DD,) * 125 + (NETWORK,))):
        gauge = Gauge(10 + index)
        message = gauge.request(1000, seed(2), networks=networks)
        script.call(request(1000, gauge, message), 0, "our number anywhere in the list")
    script.shows("taken", "31 5")


def requests_accepted(script):
    open_hall(script, "A request becomes its place's attempt; the access request is made of what arrived", [ONE, TWO])
    first = ONE.request(1000, seed(1))
    script.sends(request(1000, ONE, first), 0, ONE.access(0, first, seed(1)), why="place 0")
    second = TWO.request(990, seed(2))
    script.sends(request(1000, TWO, second), 0, TWO.access(1, second, seed(2)), why="type 3, place 1")
    script.shows("places", place(0, ONE, 1000, (1000, first)), place(1, TWO, 990, (990, second)))
    script.sends(request(1001, ONE, first), 0, ONE.access(0, first, seed(1)), why="a repeat while waiting")
    script.sends(request(1002, TWO, second), 0, TWO.access(1, second, seed(2)), why="a repeat while waiting")
    script.shows("places", place(0, ONE, 1000, (1000, first)), place(1, TWO, 990, (990, second)))
    script.call(request(1003, ONE, ONE.request(1000, seed(9))), 13, "same stamp, another check value")
    script.call(request(1003, ONE, ONE.request(999, seed(1))), 13, "a stamp below the last")
    script.call(request(1003, TWO, TWO.request(990, seed(1))), 13)
    third = ONE.request(1003, seed(3))
    script.sends(
        request(1003, ONE, third), 0, ONE.access(0, third, seed(3)), why="a newer request replaces the attempt"
    )
    script.call(request(1003, ONE, first), 13, "the older is no repeat any more")
    script.shows("places", place(0, ONE, 1003, (1003, third)), place(1, TWO, 990, (990, second)))
    script.shows("taken", "3 2")


def request_objects_taken(script):
    open_hall(
        script, "What the access request holds: first objects, the whole message in its data (decisions 9, 21)", [ONE]
    )
    base = request_objects(1000, ONE.account, seed(1), (2,))
    variants = [
        ("padding and foreign objects are data", [b"\x00\x00", obj(9, bytes(12)), *base, obj(200, b"x"), b"\x00"]),
        ("an IPv4 address is optional", [*base, obj(3, b"\x0a\x00\x00\x09")]),
        ("only the first object 5 is zeroed", [*base, obj(5, bytes([0xAA]) * 16), obj(5, b"odd")]),
        ("first of each type", [*base, *request_objects(1001, b"other", seed(8), (3,), (1,))]),
        ("wrong lengths first", [obj(2, b"\x05"), obj(18, b"\x00"), obj(21, b"\x00\x00\x00"), *base]),
        ("in the other order", base[::-1]),
    ]
    for index, (why, objects) in enumerate(variants):
        gauge = Gauge(20 + index, account=ONE.account)
        message = gauge.request(1000, seed(1), objects=objects)
        script.sends(request(1000, gauge, message), 0, gauge.access(index, message, seed(1)), why=why)
        script.sends(
            request(1000, gauge, message + b"tail"),
            0,
            gauge.access(index, message, seed(1)),
            why="bytes after Length",
        )
    gauge = Gauge(30, account=b"n" * 253)
    message = gauge.request(1000, seed(4))
    script.sends(request(1000, gauge, message), 0, gauge.access(6, message, seed(4)), why="the longest name")
    gauge = Gauge(31, account=b"n")
    message = gauge.request(1000, seed(5), types=(3,))
    script.sends(
        request(1000, gauge, message), 0, gauge.access(7, message, seed(5), 3), why="the shortest name, type 3"
    )
    long = base + padded_filler(1500 - 4 - sum(map(len, base)))
    gauge = Gauge(32, account=ONE.account)
    message = gauge.request(1000, seed(1), objects=long)
    assert len(message) == 1500
    script.sends(request(1000, gauge, message), 0, gauge.access(8, message, seed(1)), why="a request of 1,500 bytes")
    message = seal(misp(REQUEST, base), b"wrong password", ONE.address, ROUTER)
    script.call(request(1000, ONE, message), 0, "the router cannot tell a wrong check value")


def positions(script):
    for position in ("800000008000000080008000", "ffff0000ffff0000ffffffff", "000000000000000000000000"):
        open_hall(script, f"Object 204 is the router's position as it was set: {position}", [ONE])
        script.call(router_line(position=bytes.fromhex(position)), 0)
        message = ONE.request(5, seed(1))
        access = ONE.access(0, message, seed(1), position=bytes.fromhex(position))
        script.sends(request(5, ONE, message), 0, access)


def stamps(script):
    open_hall(script, "A stamp of 0, and a router whose clock is younger than W", [ONE, TWO])
    zero = ONE.request(0, seed(1))
    script.sends(request(0, ONE, zero), 0, ONE.access(0, zero, seed(1)), why="a new place takes any stamp")
    script.sends(request(100, ONE, zero), 0, ONE.access(0, zero, seed(1)), why="clock - stamp is W")
    script.sends(request(101, ONE, zero), 12, failure(0, NO_SERVER), ONE.address, "W + 1")
    script.shows("taken", "0 0")
    late = TWO.request(2**64 - 1, seed(2))
    script.sends(request(2**64 - 1, TWO, late), 0, TWO.access(0, late, seed(2)), why="the last stamp")
    script.shows("places", place(0, TWO, 2**64 - 1, (2**64 - 1, late)))


def full_router(script):
    open_hall(script, "14: no place for a new node; the lowest free place is taken", lifetime=30)
    gauges = [Gauge(number, account=b"g") for number in range(64)]
    for index, gauge in enumerate(gauges):
        message = gauge.request(1000 + index, seed(1))
        script.sends(request(1063, gauge, message), 0, gauge.access(index, message, seed(1)), why=f"place {index}")
    script.shows("taken", f"{2**64 - 1} 64")
    new = Gauge(64, account=b"g")
    message = new.request(1063, seed(1))
    script.sends(request(1063, new, message), 14, failure(1063, LACK), new.address, "none is free")
    script.sends(
        request(1063, new, new.request(900, seed(1))), 12, failure(900, NO_SERVER), new.address, "12 is before 14"
    )
    script.call(request(1063, new, new.request(1064, seed(1))), 11, "11 is before 14")
    script.sends(
        request(1063, new, new.request(1063, seed(1), types=())),
        9,
        failure(1063, FORMAT),
        new.address,
        "9 is before 14",
    )
    script.call(
        request(1063, gauges[5], gauges[5].request(1005, seed(2))), 13, "an address with a place meets 13, not 14"
    )
    again = gauges[5].request(1063, seed(2))
    script.sends(
        request(1063, gauges[5], again),
        0,
        gauges[5].access(5, again, seed(2)),
        why="and is taken although all are full",
    )
    script.sends(
        reply(1063, gauges[3].accept(3, gauges[3].request(1003, seed(1)), seed(1))),
        0,
        gauges[3].success(1003, seed(1), 30),
        gauges[3].address,
        "place 3 opens",
    )
    script.call("beacon 1102 0", 0, "places 0 and 1 lapse; 2 is W old")
    script.shows("taken", f"{2**64 - 4} 62")
    message = new.request(1102, seed(1))
    script.sends(request(1102, new, message), 0, new.access(0, message, seed(1)), why="the lowest free place")
    script.call("beacon 1106 0", 0, "2 and 4 lapse, 3 is open, 5 is young")
    script.shows("taken", f"{2**64 - 1 - 2 - 4 - 16} 61")
    for address, number in ((70, 1), (71, 2), (72, 4)):
        gauge = Gauge(address, account=b"g")
        message = gauge.request(1106, seed(1))
        script.sends(request(1106, gauge, message), 0, gauge.access(number, message, seed(1)), why=f"place {number}")
    script.shows("taken", f"{2**64 - 1} 64")
    last = gauges[63]
    script.call(reply(1106, last.accept(63, last.request(1063, seed(1)), seed(1))), 0, "Identifier 63")
    script.call(reply(1106, reject(62)), 0, "a reject leaves the place taken")
    script.shows("taken", f"{2**64 - 1} 64")
    script.call(close(1106, last), 0, "and so does a close")
    script.shows("taken", f"{2**64 - 1} 64")
    message = Gauge(80).request(1106, seed(1))
    script.sends(request(1106, Gauge(80), message), 14, failure(1106, LACK), Gauge(80).address)


def repeats_that_differ(script):
    open_hall(
        script,
        "Decision 9: a repeat is known by stamp and check value; the access request is made of what arrived",
        [ONE],
    )
    first = ONE.request(1000, seed(1))
    script.sends(request(1000, ONE, first), 0, ONE.access(0, first, seed(1)))
    check = check_value(first)
    other = misp(REQUEST, request_objects(1000, b"other", seed(2), (3,), (NETWORK,), check))
    access = Gauge(0, account=b"other").access(0, other, seed(2), 3)
    script.sends(request(1001, ONE, other), 0, access, why="another account, seed and type with the same two")
    script.sends(request(1001, ONE, first), 0, ONE.access(0, first, seed(1)), why="nothing of it was kept")
    script.sends(reply(1002, ONE.accept(0, first, seed(1))), 0, ONE.success(1000, seed(1)), ONE.address)
    script.sends(request(1003, ONE, other), 0, ONE.success(1000, seed(1)), ONE.address, "and while the session is open")
    script.shows("places", place(0, ONE, 1000, session=(1000, first, seed(1), 1002)))


def lengths_of_md5(script):
    open_hall(script, "Messages of each length: every way in which MD5 pads its last block")
    for length in range(1, 66):
        gauge = Gauge(length % 8, account=b"a" * length)
        script.call(gauge.line(), 0)
        message = gauge.request(1000 + length, seed(length))
        heard = f"hear {gauge.index} 0 {hexed(seed(length))} {hexed(beacon(1000 + length))}"
        script.sends(heard, 0, message, ROUTER, f"{len(message)} bytes")
        script.call(router_line(), 0)
        access = gauge.access(0, message, seed(length))
        script.sends(request(1000 + length, gauge, message), 0, access, why=f"{len(access)} bytes")


def reply_order(script):
    open_hall(script, "reply: 20, 7, 1, 2, 3, 15 (Identifier), 16, 4, 5, 6, 15 (object 201)", [ONE, TWO])
    message = ONE.request(1000, seed(1))
    script.sends(request(1000, ONE, message), 0, ONE.access(0, message, seed(1)))
    waiting = place(0, ONE, 1000, (1000, message))
    good = ONE.accept(0, message, seed(1))
    objects = accept_objects(ONE.key(seed(1)), check_value(message), SECRET)
    script.call(reply(999, b""), 7, "7 is before 1")
    for given in (b"", good[:1], good[:19]):
        script.call(reply(1000, given), 1)
    for length in (0, 19, len(good) + 1, 4097, 65_535):
        script.call(reply(1000, header(ACCEPT, 0, length) + good[4:]), 2, f"Length {length}")
    script.call(reply(1000, header(ACCEPT, 0, 4097) + bytes(4093)), 2, "4,097 bytes")
    script.call(reply(1000, header(ACCESS_REQUEST, 0, 19) + good[4:]), 2, "2 is before 3")
    for code in (0, 1, 4, 255):
        script.call(reply(1000, misauth(code, 0, objects, SECRET)), 3, f"code {code}")
        script.call(reply(1000, misauth(code, 64, objects, SECRET)), 3, "3 is before 15")
    for identifier in (1, 2, 63, 64, 65, 128, 192, 255):
        for code in (ACCEPT, 3):
            script.call(reply(1000, misauth(code, identifier, objects, SECRET)), 15, "Identifier of no attempt")
            script.call(reply(1000, misauth(code, identifier, objects, b"wrong")), 15, "Identifier; before 16")
    for code in (ACCEPT, 3):
        script.call(reply(1000, misauth(code, 0, objects, b"wrong")), 16)
        script.call(reply(1000, misauth(code, 0, objects, SECRET + b"\x01")), 16)
        script.call(reply(1000, misauth(code, 0, [b"\x02"], b"wrong")), 16, "16 is before 4")
        script.call(reply(1000, header(code, 0, 20) + ZEROS), 16, "an Authenticator of zeros")
        damaged = bytearray(misauth(code, 0, objects, SECRET))
        damaged[-1] ^= 1
        script.call(reply(1000, bytes(damaged)), 16, "the Authenticator covers every byte")
        for end in (b"\x21", b"\x00", b"\x21\x00", b"\xc9\x01", b"\x21\x03"):
            script.call(reply(1000, misauth(code, 0, objects + [end], SECRET)), 4)
    for gone in ([], objects[:1], objects[1:]):
        script.call(reply(1000, misauth(ACCEPT, 0, gone, SECRET)), 5)
    script.call(reply(1000, misauth(ACCEPT, 0, objects[:1] + [b"\x21\x03"], SECRET)), 4, "4 is before 5")
    script.call(reply(1000, misauth(ACCEPT, 0, [obj(203)], SECRET)), 5, "5 is before 6")
    for odd in ((203, 0), (203, 15), (203, 17), (201, 0), (201, 15), (201, 17)):
        changed = [obj(odd[0], bytes(odd[1])) if item[0] == odd[0] else item for item in objects]
        script.call(reply(1000, misauth(ACCEPT, 0, changed, SECRET)), 6, f"object {odd[0]} of {odd[1] + 2}")
        script.call(
            reply(1000, misauth(ACCEPT, 0, objects + [obj(odd[0], bytes(odd[1]))], SECRET)), 6, "the last counts"
        )
    wrong = accept_objects(ONE.key(seed(1)), ZEROS, SECRET)
    script.call(reply(1000, misauth(ACCEPT, 0, [obj(203), wrong[1]], SECRET)), 6, "6 is before 15")
    script.call(reply(1000, misauth(ACCEPT, 0, wrong, SECRET)), 15, "object 201 of another request")
    script.call(reply(1000, misauth(ACCEPT, 0, objects + [wrong[1]], SECRET)), 15, "object 201: the last counts")
    late = check_value(message)[:15] + bytes([check_value(message)[15] ^ 1])
    script.call(
        reply(1000, misauth(ACCEPT, 0, [objects[0], obj(201, late)], SECRET)),
        15,
        "object 201 differs in its last byte",
    )
    script.shows("places", waiting)
    script.sends(reply(1005, good + b"tail"), 0, ONE.success(1000, seed(1)), ONE.address, "bytes after Length")
    script.shows("places", place(0, ONE, 1000, session=(1000, message, seed(1), 1005)))
    script.call(reply(1005, good), 15, "Identifier of a place that waits no more")


def replies_taken(script):
    variants = [
        ("proxy and foreign objects", lambda it: [obj(33, b"x"), *it, obj(33), obj(0), obj(1), obj(202, b"odd")]),
        ("the last of each type", lambda it: [obj(203, b"odd"), obj(201, ZEROS), *it]),
        ("in the other order", lambda it: it[::-1]),
    ]
    for why, change in variants:
        open_hall(script, f"reply: {why}", [ONE])
        message = ONE.request(1000, seed(1))
        script.call(request(1000, ONE, message), 0)
        accept = misauth(ACCEPT, 0, change(accept_objects(ONE.key(seed(1)), check_value(message), SECRET)), SECRET)
        script.sends(reply(1001, accept), 0, ONE.success(1000, seed(1)), ONE.address)
    open_hall(script, "reply: a reject may hold objects, broken ones apart; a long one passes", [ONE])
    message = ONE.request(1000, seed(1))
    script.call(request(1000, ONE, message), 0)
    script.call(reply(1000, misauth(3, 0, [obj(201, ZEROS), b"\x00"], SECRET)), 4)
    longest = misauth(3, 0, filler(33, 4096 - 20), SECRET)
    assert len(longest) == 4096
    script.sends(reply(1000, longest), 0, failure(1000, FAILED), ONE.address, "4,096 bytes")
    open_hall(script, "reply: the key is object 203 XOR the HMAC of the check value under the secret", [ONE])
    message = ONE.request(1000, seed(1))
    script.call(request(1000, ONE, message), 0)
    mask = mac(SECRET, check_value(message))
    accept = misauth(
        ACCEPT, 0, [obj(203, exclusive_or(mask, b"sixteen byte key")), obj(201, check_value(message))], SECRET
    )
    success = seal(misp(SUCCESS, success_objects(1000, 2)), b"sixteen byte key", ROUTER, ONE.address)
    script.sends(reply(1000, accept), 0, success, ONE.address)


def rejects(script):
    open_hall(script, "A reject ends the attempt; the place keeps address, number and last stamp", [ONE, TWO])
    message = ONE.request(1000, seed(1))
    script.call(request(1000, ONE, message), 0)
    script.sends(reply(1010, reject(0)), 0, failure(1000, FAILED), ONE.address, "reason 128, the attempt's stamp")
    script.shows("places", place(0, ONE, 1000))
    script.call(request(1010, ONE, message), 13, "a repeat of what was rejected")
    script.call(reply(1010, reject(0)), 15, "Identifier of no attempt")
    script.call(reply(1010, ONE.accept(0, message, seed(1))), 15, "Identifier of no attempt")
    newer = ONE.request(1010, seed(2))
    script.sends(request(1010, ONE, newer), 0, ONE.access(0, newer, seed(2)), why="a newer stamp passes")
    script.note("Decision 11: a late reject ends the newer attempt on its place")
    script.sends(reply(1011, reject(0)), 0, failure(1010, FAILED), ONE.address, "the newer attempt's stamp")
    script.shows("places", place(0, ONE, 1010))


def late_accepts(script):
    open_hall(script, "A late accept is matched by object 201 too", [ONE])
    old = ONE.request(1000, seed(1))
    script.call(request(1000, ONE, old), 0)
    new = ONE.request(1005, seed(2))
    script.call(request(1005, ONE, new), 0)
    script.call(reply(1006, ONE.accept(0, old, seed(1))), 15, "object 201 of the older request")
    script.shows("places", place(0, ONE, 1005, (1005, new)))
    script.sends(reply(1007, ONE.accept(0, new, seed(2))), 0, ONE.success(1005, seed(2)), ONE.address)
    script.shows("places", place(0, ONE, 1005, session=(1005, new, seed(2), 1007)))


def repeats(script):
    open_hall(
        script,
        "Decision 10: repeats while a session is open, past W, and while a newer attempt waits",
        [ONE],
        lifetime=30,
    )
    first = log_in(script, ONE, 1000, seed(1), lifetime=30)
    success = ONE.success(1000, seed(1), 30)
    script.sends(request(1001, ONE, first), 0, success, ONE.address, "the same success bytes")
    script.call(request(1001, ONE, ONE.request(1000, seed(2))), 13, "the session's stamp with another check value")
    script.call(request(1001, ONE, ONE.request(999, seed(1))), 13)
    second = ONE.request(1010, seed(2))
    script.sends(
        request(1010, ONE, second), 0, ONE.access(0, second, seed(2)), why="a newer attempt; the session stays"
    )
    both = place(0, ONE, 1010, (1010, second), (1000, first, seed(1), 1000))
    script.shows("places", both)
    script.sends(request(1011, ONE, first), 0, success, ONE.address, "the session's request gets its success")
    script.sends(
        request(1012, ONE, second), 0, ONE.access(0, second, seed(2)), why="the attempt's gets the access request"
    )
    script.call(request(1012, ONE, ONE.request(1005, seed(3))), 13, "between the two")
    script.shows("places", both)
    script.sends(request(1100, ONE, first), 0, success, ONE.address, "clock - stamp is W")
    script.sends(
        request(1101, ONE, first),
        12,
        failure(1000, NO_SERVER),
        ONE.address,
        "past W: 12 although the session is open",
    )
    script.shows("places", both)
    script.call("beacon 1110 0", 0, "the attempt is W old")
    script.shows("places", both)
    script.call("beacon 1111 0", 0, "W + 1: it goes; the session keeps the place")
    script.shows("places", place(0, ONE, 1010, session=(1000, first, seed(1), 1000)))
    script.call("beacon 1300 0", 0, "L x U is 300: still open")
    script.shows("places", place(0, ONE, 1010, session=(1000, first, seed(1), 1000)))
    script.call("beacon 1301 0", 0, "session and place go together")
    script.shows("places")


def second_session(script):
    open_hall(script, "An accept while a session is open replaces it", [ONE], lifetime=30)
    log_in(script, ONE, 1000, seed(1), lifetime=30)
    second = log_in(script, ONE, 1050, seed(2), lifetime=30)
    script.shows("places", place(0, ONE, 1050, session=(1050, second, seed(2), 1050)))
    script.call(closed(1051, ONE, ONE.leaving(1000, seed(1))), 21, "the older session's stamp, right under its key")
    script.call(closed(1051, ONE, ONE.leaving(1000, seed(2))), 21, "21 is before 17, and no 17 either")
    script.call(closed(1051, ONE, ONE.leaving(1050, seed(1))), 17, "the older key")
    script.call(request(1051, ONE, ONE.request(1000, seed(1))), 13, "the older session's request is no repeat any more")
    script.call(closed(1051, ONE, ONE.leaving(1050, seed(2))), 0)


def closing_while_waiting(script):
    for how in ("close", "closed"):
        open_hall(script, f"Decision 8: {how} while a newer attempt waits", [ONE], lifetime=30)
        log_in(script, ONE, 1000, seed(1), lifetime=30)
        second = ONE.request(1010, seed(2))
        script.call(request(1010, ONE, second), 0)
        if how == "close":
            script.sends(close(1011, ONE), 0, ONE.closing(1000, seed(1)), ONE.address)
        else:
            script.call(closed(1011, ONE, ONE.leaving(1000, seed(1))), 0)
        script.shows("places", place(0, ONE, 1010, (1010, second)))
        script.sends(reply(1012, ONE.accept(0, second, seed(2))), 0, ONE.success(1010, seed(2), 30), ONE.address)


def closed_places(script):
    for how in ("close", "closed", "reject"):
        open_hall(script, f"A place that is free of its session by {how} is not free", [ONE, TWO])
        message = ONE.request(1000, seed(1))
        script.call(request(1000, ONE, message), 0)
        if how == "reject":
            script.call(reply(1001, reject(0)), 0)
        else:
            script.call(reply(1001, ONE.accept(0, message, seed(1))), 0)
            script.call(close(1002, ONE) if how == "close" else closed(1002, ONE, ONE.leaving(1000, seed(1))), 0)
        script.shows("places", place(0, ONE, 1000))
        script.call(request(1003, ONE, message), 13, "a repeat does not open again")
        other = TWO.request(1003, seed(2))
        script.sends(
            request(1003, TWO, other), 0, TWO.access(1, other, seed(2)), why="another node takes the next place"
        )
        script.call(close(1004, ONE), 21)
        script.call(closed(1004, ONE, ONE.leaving(1000, seed(1))), 21)
        script.call(request(1100, ONE, message), 13, "now - last is W")
        script.sends(request(1101, ONE, message), 12, failure(1000, NO_SERVER), ONE.address, "W + 1")
        script.shows("places", place(1, TWO, 1003, (1003, other)))
        again = ONE.request(1101, seed(1))
        script.sends(request(1101, ONE, again), 0, ONE.access(0, again, seed(1)), why="place 0 is free again")


def close_late(script):
    open_hall(
        script,
        "Decision 7: what has lapsed goes at the start of a call, so a close leaves an old place",
        [ONE],
        lifetime=30,
    )
    log_in(script, ONE, 1000, seed(1), lifetime=30)
    script.sends(
        close(1200, ONE), 0, ONE.closing(1000, seed(1)), ONE.address, "last is 200 old, the session keeps the place"
    )
    script.shows("places", place(0, ONE, 1000))
    script.shows("taken", "1 1")
    script.call("beacon 1200 0", 0, "the next call")
    script.shows("taken", "0 0")
    log_in(script, ONE, 1200, seed(2), lifetime=30)
    script.call(closed(1400, ONE, ONE.leaving(1200, seed(2))), 0)
    script.shows("taken", "1 1")
    script.call(close(1400, ONE), 21)
    script.shows("taken", "0 0")


def close_order(script):
    open_hall(script, "close: 20, 7, 21", [ONE, TWO])
    log_in(script, ONE, 1000, seed(1))
    script.call(close(999, TWO), 7, "7 is before 21")
    script.call(close(1000, TWO), 21, "no place")
    waiting = TWO.request(1000, seed(2))
    script.call(request(1000, TWO, waiting), 0)
    script.call(close(1000, TWO), 21, "a place without a session")
    script.call("room 1499", 0)
    script.call(close(1000, ONE), 20)
    script.call("room 1500", 0)
    script.sends(close(1020, ONE), 0, ONE.closing(1000, seed(1)), ONE.address, "now - since is L x U: open still")
    script.call(close(1020, ONE), 21, "closed")
    script.call("room 4096", 0)
    log_in(script, ONE, 1020, seed(3))
    script.call(close(1041, ONE), 21, "L x U + 1: lapsed")


def closed_order(script):
    open_hall(script, "closed: 7, 1 to 6, 8, 21, 17", [ONE, TWO])
    log_in(script, ONE, 1000, seed(1))
    good = ONE.leaving(1000, seed(1))
    objects = terminating_objects(1000)
    before_five(script, lambda clock, m: closed(clock, ONE, m), 1000, good, objects, TERMINATING, SUCCESS, (0, 1, 3, 4, 8, 255), b"\x0d")
    for gone in ([], objects[:1], objects[1:]):
        script.call(closed(1000, ONE, misp(TERMINATING, gone)), 5)
    script.call(closed(1000, ONE, misp(TERMINATING, [obj(5)])), 5, "5 is before 6")
    for length in (0, 15, 17):
        script.call(closed(1000, ONE, misp(TERMINATING, [objects[0], obj(5, bytes(length))])), 6)
        script.call(closed(1000, ONE, misp(TERMINATING, [objects[0], obj(5, bytes(length))], 0x80)), 6, "6 is before 8")
    script.call(closed(1000, ONE, ONE.leaving(1000, seed(1), flags=0x80)), 8)
    script.call(closed(1000, TWO, TWO.leaving(1000, seed(1), flags=0x80)), 8, "8 is before 21")
    script.call(closed(1000, TWO, good), 21, "no place")
    waiting = TWO.request(1000, seed(2))
    script.call(request(1000, TWO, waiting), 0)
    script.call(closed(1000, TWO, TWO.leaving(1000, seed(2))), 21, "an attempt is no session")
    for stamp in (999, 1001, 0, 2**64 - 1):
        script.call(closed(1000, ONE, ONE.leaving(stamp, seed(1))), 21, "another stamp")
        script.call(closed(1000, ONE, misp(TERMINATING, terminating_objects(stamp))), 21, "21 is before 17")
    script.call(closed(1000, ONE, misp(TERMINATING, objects)), 17)
    script.call(closed(1000, ONE, ONE.closing(1000, seed(1))), 17, "the addresses are turned by direction")
    script.call(closed(1000, ONE, ONE.leaving(1000, seed(2))), 17, "another key")
    for at in range(16):
        damaged = bytearray(good)
        damaged[16 + at] ^= 1
        script.call(closed(1000, ONE, bytes(damaged)), 17, f"byte {at} of the check value")
    addressed = seal(misp(TERMINATING, objects), ONE.key(seed(1)), TWO.address, ROUTER)
    script.call(closed(1000, ONE, addressed), 17, "another sender's address")
    script.call(
        closed(1000, ONE, misp(TERMINATING, [objects[0], obj(5, check_value(good)), obj(13, b"\x00\x01")])),
        17,
        "every byte is covered",
    )
    script.shows("taken", "3 2")
    script.call(closed(1020, ONE, good + b"tail"), 0, "now - since is L x U, bytes after Length")
    script.call(closed(1020, ONE, good), 21, "closed")


def closed_taken(script):
    variants = [
        ("a reason, padding, foreign objects", lambda base: [b"\x00", *base, obj(13, b"\x00\x01"), obj(6), b"\x00"]),
        ("a second object 5 is not zeroed", lambda base: [*base, obj(5, bytes([0xEE]) * 16)]),
        ("first of each type", lambda base: [*base, stamp_object(7), obj(5, b"odd")]),
        ("wrong lengths first", lambda base: [obj(2, b"\x01"), *base[::-1]]),
    ]
    for index, (why, change) in enumerate(variants):
        open_hall(script, f"closed: {why}", [ONE])
        log_in(script, ONE, 1000, seed(1))
        message = ONE.leaving(1000, seed(1), flags=0x7F if index else 0, objects=change(terminating_objects(1000)))
        script.sends(closed(1001, ONE, message), 0, b"")
        script.shows("places", place(0, ONE, 1000))


def check_values(script):
    open_hall(
        script,
        "What is joined for the check value: message, sender, receiver, and nothing of it zero but its value",
        [ONE],
    )
    log_in(script, ONE, 1000, seed(1))
    base = misp(TERMINATING, terminating_objects(1000))
    key = ONE.key(seed(1))
    zeroed = base[:14] + bytes(18) + base[32:]
    for why, text in (
        ("addresses first", ONE.address + ROUTER + base),
        ("receiver before sender", base + ROUTER + ONE.address),
        ("type and length zeroed too", zeroed + ONE.address + ROUTER),
        ("no addresses", base),
        ("sender alone", base + ONE.address),
    ):
        value = mac(key, md5(text))
        script.call(closed(1000, ONE, base[:16] + value + base[32:]), 17, why)
    value = mac(key, base + ONE.address + ROUTER)
    script.call(closed(1000, ONE, base[:16] + value), 17, "HMAC of the message and not of its MD5")
    tail = base + b"tail"
    value = mac(key, md5(tail + ONE.address + ROUTER))
    script.call(closed(1000, ONE, base[:16] + value + b"tail"), 17, "bytes after Length are not covered")
    script.call(closed(1000, ONE, base[:16] + mac(key, md5(base + ONE.address + ROUTER))), 0, "as the paper says")


def session_lapse(script):
    open_hall(script, "Example 9: L 2, U 10, since 50: open at 70, gone at 71", [ONE])
    message = log_in(script, ONE, 50, seed(1))
    script.call("beacon 70 0", 0)
    script.shows("places", place(0, ONE, 50, session=(50, message, seed(1), 50)))
    script.call("beacon 71 0", 0)
    script.shows("places", place(0, ONE, 50))
    script.call(request(71, ONE, message), 13, "L x U is below W: a repeat is 13 after the session lapsed")
    script.call(request(150, ONE, message), 13)
    script.call("beacon 151 0", 0)
    script.shows("places")
    open_hall(script, "since is the clock of the accept, not the stamp", [ONE], window=1000)
    message = ONE.request(100, seed(1))
    script.call(request(500, ONE, message), 0)
    script.sends(
        reply(1100, ONE.accept(0, message, seed(1))), 0, ONE.success(100, seed(1)), ONE.address, "the stamp is W old"
    )
    script.call("beacon 1120 0", 0)
    script.shows("places", place(0, ONE, 100, session=(100, message, seed(1), 1100)))
    script.call("beacon 1121 0", 0, "session and place go in one call")
    script.shows("places")
    open_hall(script, "The longest lifetime: 65,535 x (2^32 - 1) ticks", [ONE], lifetime=65_535, ticks=2**32 - 1)
    over = 65_535 * (2**32 - 1)
    message = log_in(script, ONE, 7, seed(1), lifetime=65_535)
    script.call(f"beacon {7 + over} 0", 0)
    script.shows("places", place(0, ONE, 7, session=(7, message, seed(1), 7)))
    script.call(f"beacon {8 + over} 0", 0)
    script.shows("places")


def attempt_lapse(script):
    open_hall(script, "An attempt lapses when now - stamp > W, and its place with it", [ONE, TWO])
    message = ONE.request(1000, seed(1))
    script.call(request(1050, ONE, message), 0)
    script.call("beacon 1100 0", 0)
    script.shows("places", place(0, ONE, 1000, (1000, message)))
    script.call(reply(1101, ONE.accept(0, message, seed(1))), 15, "Identifier of a place that lapsed in this call")
    script.shows("places")
    message = TWO.request(1101, seed(2))
    script.sends(request(1101, TWO, message), 0, TWO.access(0, message, seed(2)), why="another node has place 0 now")
    script.call(reply(1102, ONE.accept(0, ONE.request(1000, seed(1)), seed(1))), 15, "object 201 of the node before")
    script.sends(
        reply(1201, TWO.accept(0, message, seed(2))), 0, TWO.success(1101, seed(2)), TWO.address, "now - stamp is W"
    )
    open_hall(script, "The widest window", [ONE], window=2**32 - 1, lifetime=1, ticks=1)
    message = ONE.request(5, seed(1))
    script.call(request(2**32 + 4, ONE, message), 0, "now - stamp is W")
    script.shows("taken", "1 1")
    script.sends(request(2**32 + 5, ONE, message), 12, failure(5, NO_SERVER), ONE.address)
    script.shows("taken", "0 0")
    open_hall(script, "The narrowest window, and the shortest lifetime", [ONE], window=1, lifetime=1, ticks=1)
    message = log_in(script, ONE, 5, seed(1), now=6, lifetime=1)
    script.call("beacon 7 0", 0)
    script.shows("places", place(0, ONE, 5, session=(5, message, seed(1), 6)))
    script.call("beacon 8 0", 0)
    script.shows("places")


def attempt_outlives(script):
    open_hall(script, "An old session ends while a newer attempt waits: the place stays with its attempt", [ONE])
    first = log_in(script, ONE, 1000, seed(1))
    second = ONE.request(1015, seed(2))
    script.call(request(1015, ONE, second), 0)
    script.call("beacon 1020 0", 0)
    script.shows("places", place(0, ONE, 1015, (1015, second), (1000, first, seed(1), 1000)))
    script.call("beacon 1021 0", 0)
    script.shows("places", place(0, ONE, 1015, (1015, second)))
    script.call(request(1021, ONE, first), 13)
    script.sends(reply(1021, ONE.accept(0, second, seed(2))), 0, ONE.success(1015, seed(2)), ONE.address)
    open_hall(script, "Attempt, session and place go in one call", [ONE])
    first = log_in(script, ONE, 1000, seed(1))
    second = ONE.request(1015, seed(2))
    script.call(request(1015, ONE, second), 0)
    script.shows("places", place(0, ONE, 1015, (1015, second), (1000, first, seed(1), 1000)))
    script.call("beacon 1116 0", 0)
    script.shows("places")


def refused_requests_change_nothing(script):
    open_hall(script, "Refused requests leave last stamp, attempt and session alone", [ONE], lifetime=30)
    first = log_in(script, ONE, 1000, seed(1), lifetime=30)
    second = ONE.request(1010, seed(2))
    script.call(request(1010, ONE, second), 0)
    held = place(0, ONE, 1010, (1010, second), (1000, first, seed(1), 1000))
    for message, refusal in (
        (b"\x03", 1),
        (second[:-1], 2),
        (misp(BEACON, beacon_objects(1011, GROUPS)), 3),
        (misp(REQUEST, [b"\x02"]), 4),
        (misp(REQUEST, [stamp_object(1011)]), 5),
        (misp(REQUEST, request_objects(1011, b"", seed(3))), 6),
        (ONE.request(1011, seed(3), flags=0x80), 8),
        (ONE.request(1011, seed(3), types=(1,)), 9),
        (ONE.request(1011, seed(3), networks=(1,)), 10),
        (ONE.request(1012, seed(3)), 11),
        (ONE.request(910, seed(3)), 12),
        (ONE.request(1010, seed(3)), 13),
    ):
        script.call(request(1011, ONE, message), refusal)
        script.shows("places", held)


def networks_and_lists(script):
    open_hall(script, "Network numbers of two bytes, most significant first", [ONE], network=0x1234)
    for networks, expected in (((0x1234,), 0), ((0x3412,), 10), ((0x0012, 0x3400), 10), ((0, 0x1234), 0)):
        gauge = Gauge(40 + len(networks) + networks[0] % 7)
        script.call(request(1000, gauge, gauge.request(1000, seed(1), networks=networks)), expected)
    odd = request_objects(1000, b"g", seed(1))[:-1] + [obj(21, number(0x1234, 2) + b"\x00")]
    script.call(
        request(1000, ONE, misp(REQUEST, odd + [obj(21, numbers((0x1234,)))])), 0, "a list of 3 bytes is passed over"
    )


def cases(script):
    for part in (
        beacons,
        outputs,
        clock_back,
        request_reading,
        request_judging,
        requests_accepted,
        request_objects_taken,
        positions,
        stamps,
        full_router,
        repeats_that_differ,
        lengths_of_md5,
        reply_order,
        replies_taken,
        rejects,
        late_accepts,
        repeats,
        second_session,
        closing_while_waiting,
        closed_places,
        close_late,
        close_order,
        closed_order,
        closed_taken,
        check_values,
        session_lapse,
        attempt_lapse,
        attempt_outlives,
        refused_requests_change_nothing,
        networks_and_lists,
    ):
        part(script)
