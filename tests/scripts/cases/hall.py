"""The hall of the hand-made cases: one router, gauges, and the books, with what each would write."""

from wire import (
    ACCEPT,
    ACCESS_REQUEST,
    BEACON,
    FAILURE,
    REJECT,
    REQUEST,
    SUCCESS,
    TERMINATING,
    accept_objects,
    access_objects,
    authentication_data,
    beacon_objects,
    book,
    check_value,
    header,
    hexed,
    misauth,
    misp,
    number,
    request_objects,
    seal,
    session_key,
    success_objects,
    terminating_objects,
)

ROUTER = bytes.fromhex("020000000001")
IPV4 = bytes.fromhex("0a000001")
SECRET = b"hall secret"
POSITION = bytes.fromhex("00230000008b000000050002")
NETWORK = 0x0800
GROUPS = (7,)
INTERVAL = 30


def seed(n):
    return bytes([n]) * 16


class Gauge:
    """Node I: its settings, and the messages that it and the router exchange."""

    def __init__(self, index, security_type=2, password=None, account=None, address=None):
        self.index = index
        self.security_type = security_type
        self.address = address or bytes.fromhex("0200000001") + bytes([index])
        self.account = account or b"gauge%d" % index
        self.password = password or b"password %d" % index

    def line(self, ticks=10, patience=50):
        password, account = hexed(self.password), hexed(self.account)
        addresses = f"{hexed(self.address)} {hexed(ROUTER)}"
        return f"node {self.index} {ticks} {patience} {password} {account} {self.security_type} {NETWORK} {addresses}"

    def key(self, of):
        return session_key(self.password, of)

    def request(self, stamp, of, types=None, networks=(NETWORK,), flags=0, objects=None):
        """The request with this stamp and seed; its objects can be given instead."""
        types = (self.security_type,) if types is None else types
        objects = objects or request_objects(stamp, self.account, of, types, networks)
        return seal(misp(REQUEST, objects, flags), self.password, self.address, ROUTER)

    def success(self, stamp, of, lifetime=2, networks=(NETWORK,), flags=0, objects=None):
        objects = objects or success_objects(stamp, lifetime, networks)
        return seal(misp(SUCCESS, objects, flags), self.key(of), ROUTER, self.address)

    def leaving(self, stamp, of, flags=0, objects=None):
        """A terminating message from the node."""
        objects = objects or terminating_objects(stamp)
        return seal(misp(TERMINATING, objects, flags), self.key(of), self.address, ROUTER)

    def closing(self, stamp, of, flags=0, objects=None):
        """A terminating message from the router."""
        objects = objects or terminating_objects(stamp)
        return seal(misp(TERMINATING, objects, flags), self.key(of), ROUTER, self.address)

    def access(self, place, request, of, security_type=None, position=POSITION):
        """The access request that the router makes of a request."""
        data = authentication_data(request, self.address, ROUTER)
        security_type = security_type or self.security_type
        objects = access_objects(self.account, data, check_value(request), of, security_type, position)
        return misauth(ACCESS_REQUEST, place, objects, SECRET)

    def accept(self, place, request, of):
        return misauth(ACCEPT, place, accept_objects(self.key(of), check_value(request), SECRET), SECRET)


def reject(place):
    return misauth(REJECT, place, [], SECRET)


def beacon(stamp, serial=0, **changes):
    fields = dict(groups=GROUPS, interval=INTERVAL)
    fields.update(changes)
    return misp(BEACON, beacon_objects(stamp, serial=serial, **fields))


def router_line(
    window=100,
    ticks=10,
    lifetime=2,
    network=NETWORK,
    address=ROUTER,
    ipv4=IPV4,
    secret=SECRET,
    position=POSITION,
    interval=INTERVAL,
    groups=GROUPS,
):
    groups = b"".join(number(group, 4) for group in groups)
    parts = [hexed(part) for part in (address, ipv4, secret, position)]
    return " ".join(map(str, ["router", window, ticks, lifetime, network, *parts, interval, hexed(groups)]))


def mill_book(gauges):
    return book([(IPV4, SECRET)], [(gauge.account, gauge.password) for gauge in gauges])


EMPTY_BOOK = book([], [])


def open_hall(script, title, gauges=(), **settings):
    """Everything set up anew, so that a case stands by itself. W is 100, L x U is 20, P is 50 unless given."""
    script.title(title)
    script.call("room 4096", 0)
    script.call(router_line(**settings), 0)
    for gauge in gauges:
        script.call(gauge.line(), 0)
    script.call(f"books {hexed(mill_book(gauges))} {hexed(EMPTY_BOOK)}", 0)


def place(number, gauge, last, attempt=None, session=None):
    """The line that `places` prints: attempt is (stamp, request), session (stamp, request, seed, since)."""
    waiting = opened = "-"
    if attempt:
        waiting = f"{attempt[0]} {hexed(check_value(attempt[1]))}"
    if session:
        stamp, request, of, since = session
        opened = f"{stamp} {hexed(check_value(request))} {hexed(gauge.key(of))} {since}"
    return f"{number} {hexed(gauge.address)} {last} {waiting} {opened}"


def state(clock, used=None, waiting=None, session=None):
    """The line that `state` prints: session is (gauge, stamp, seed, since, lifetime)."""
    shown = [str(clock)] + ["-" if stamp is None else str(stamp) for stamp in (used, waiting)]
    if session:
        gauge, stamp, of, since, lifetime = session
        shown.append(f"{stamp} {hexed(gauge.key(of))} {since} {lifetime}")
    else:
        shown.append("-")
    return " ".join(shown)


def before_five(script, arrives, at, good, objects, code, other, codes, cut):
    """7 and 1 to 4 of a message, in their order. `arrives` makes the line of a clock and a message; `good` is the message with these objects.

    Its code with wrong Lengths, another code with a short one, codes that are refused, and an object cut short.
    """
    script.call(arrives(at - 1, b""), 7, "7 is before 1")
    for given in (b"", good[:3]):
        script.call(arrives(at, given), 1)
    for length in (3, len(good) + 1, 1501):
        script.call(arrives(at, header(code, 0, length) + good[4:]), 2)
    script.call(arrives(at, header(other, 0, 3) + good[4:]), 2, "2 is before 3")
    for another in codes:
        script.call(arrives(at, misp(another, objects)), 3)
    script.call(arrives(at, misp(FAILURE, [b"\x02"])), 3, "3 is before 4")
    script.call(arrives(at, misp(code, objects + [cut])), 4)
    script.call(arrives(at, misp(code, [cut + b"\x01"])), 4, "4 is before 5")
