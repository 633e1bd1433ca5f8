"""Whole logins over all three parties, each message handed on as it was written."""

from cases.hall import IPV4, ROUTER, Gauge, beacon, open_hall, place, reject, seed, state
from wire import failure, hexed

TWO, THREE = Gauge(0), Gauge(1, security_type=3)


def whole(script, gauge, number, stamp, of, offset=0):
    """Beacon, request, access request, accept, success: the node's clock runs ahead of the router's by the offset."""
    script.sends(f"beacon {stamp} 1", 0, beacon(stamp, 1))
    request = gauge.request(stamp, of)
    script.sends(f"hear {gauge.index} {stamp + offset} {hexed(of)} {hexed(beacon(stamp, 1))}", 0, request, ROUTER)
    access = gauge.access(number, request, of)
    script.sends(f"request {stamp + 1} {hexed(gauge.address)} {hexed(request)}", 0, access)
    accept = gauge.accept(number, request, of)
    script.sends(f"login {hexed(IPV4)} {hexed(access)}", 0, accept)
    success = gauge.success(stamp, of)
    script.sends(f"reply {stamp + 2} {hexed(accept)}", 0, success, gauge.address)
    script.sends(f"success {gauge.index} {stamp + offset + 3} {hexed(success)}", 0, b"")
    script.shows(
        f"state {gauge.index}", state(stamp + offset + 3, stamp, None, (gauge, stamp, of, stamp + offset + 3, 2))
    )
    return request


def two_nodes(script):
    open_hall(script, "Two whole logins, types 2 and 3; one is ended by its node, one by the router", [TWO, THREE])
    first = whole(script, TWO, 0, 1000, seed(1))
    second = whole(script, THREE, 1, 1005, seed(2), offset=50_000)
    script.shows(
        "places",
        place(0, TWO, 1000, session=(1000, first, seed(1), 1002)),
        place(1, THREE, 1005, session=(1005, second, seed(2), 1007)),
    )
    script.sends("leave 0 1010", 0, TWO.leaving(1000, seed(1)), ROUTER)
    script.sends(f"closed 1011 {hexed(TWO.address)} {hexed(TWO.leaving(1000, seed(1)))}", 0, b"")
    script.sends(f"close 1012 {hexed(THREE.address)}", 0, THREE.closing(1005, seed(2)), THREE.address)
    script.sends(f"left 1 51020 {hexed(THREE.closing(1005, seed(2)))}", 0, b"")
    script.shows("state 0", state(1010, 1000))
    script.shows("state 1", state(51_020, 1005))
    script.shows("places", place(0, TWO, 1000), place(1, THREE, 1005))
    script.note("and both again")
    whole(script, TWO, 0, 1020, seed(3))
    whole(script, THREE, 1, 1025, seed(4), offset=50_000)


def wrong_password(script):
    liar = Gauge(0, password=b"guess")
    open_hall(script, "A node with a wrong password is rejected, and tries again at the next beacon", [TWO])
    script.call(liar.line(), 0)
    request = liar.request(1000, seed(1))
    script.sends(f"hear 0 1000 {hexed(seed(1))} {hexed(beacon(1000))}", 0, request, ROUTER)
    access = liar.access(0, request, seed(1))
    script.sends(f"request 1000 {hexed(liar.address)} {hexed(request)}", 0, access)
    script.sends(f"login {hexed(IPV4)} {hexed(access)}", 0, reject(0))
    script.sends(f"reply 1001 {hexed(reject(0))}", 0, failure(1000, 128), liar.address)
    script.call(f"failure 0 1001 {hexed(failure(1000, 128))}", 0)
    script.shows("state 0", state(1001, 1000))
    script.sends(f"hear 0 1002 {hexed(seed(2))} {hexed(beacon(1001))}", 0, liar.request(1001, seed(2)), ROUTER)


def just_in_time(script):
    open_hall(
        script, "In time: request and accept find clock - stamp at W, the success arrives as the session ends", [TWO]
    )
    request = TWO.request(1000, seed(1))
    script.sends(f"hear 0 7 {hexed(seed(1))} {hexed(beacon(1000))}", 0, request, ROUTER)
    script.sends(f"request 1100 {hexed(TWO.address)} {hexed(request)}", 0, TWO.access(0, request, seed(1)))
    script.sends(f"reply 1100 {hexed(TWO.accept(0, request, seed(1)))}", 0, TWO.success(1000, seed(1)), TWO.address)
    script.call("beacon 1120 1", 0, "since 1100, L x U is 20")
    script.call(f"success 0 5000 {hexed(TWO.success(1000, seed(1)))}", 0, "waiting does not lapse by the node's clock")
    script.shows("places", place(0, TWO, 1000, session=(1000, request, seed(1), 1100)))
    script.shows("state 0", state(5000, 1000, None, (TWO, 1000, seed(1), 5000, 2)))


def cases(script):
    two_nodes(script)
    wrong_password(script)
    just_in_time(script)
