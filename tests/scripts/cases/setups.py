"""Settings in and out of their ranges (refusal 18)."""

from cases.hall import Gauge, beacon, open_hall, router_line
from wire import hexed

LEAST_TICKS, MOST_TICKS = 1, 2**32 - 1
# Out of range; some are inside it when cut to 32 or 16 bits.
TICKS_OUT = (0, MOST_TICKS + 1, MOST_TICKS + 2, 2**63, 2**64 - 1)
SIXTEEN_OUT = (65_536, 65_537, 65_538, 2**32, 2**32 + 2, 2**64 - 1)


def router(script):
    open_hall(script, "The router's settings")
    for setting in ("window", "ticks"):
        for value in (LEAST_TICKS, 2, MOST_TICKS):
            script.call_answered(router_line(**{setting: value}), "0 - -", f"{setting} {value}")
        for value in TICKS_OUT:
            script.call_answered(router_line(**{setting: value}), "18 - -", f"{setting} {value}")
    for setting, least in (("lifetime", 1), ("network", 0), ("interval", 0)):
        for value in (least, 1, 255, 256, 65_535):
            script.call(router_line(**{setting: value}), 0, f"{setting} {value}")
        for value in SIXTEEN_OUT:
            script.call(router_line(**{setting: value}), 18, f"{setting} {value}")
    script.call(router_line(lifetime=0), 18, "lifetime 0")
    for length in (0, 1, 63, 64, 65, 253, 254, 255, 256, 512):
        number = 0 if 1 <= length <= 253 else 18
        script.call(router_line(secret=b"s" * length), number, f"a secret of {length} bytes")
    for count, number in ((17, 18), (63, 18), (64, 18), (1024, 18), (15, 0), (16, 0)):
        script.call(router_line(groups=range(count)), number, f"{count} groups")
    script.sends("beacon 5 6", 0, beacon(5, 6, groups=range(16)), why="sixteen groups")
    script.call(router_line(groups=()), 0, "no group")
    script.sends("beacon 5 6", 0, beacon(5, 6, groups=()), why="the list is empty and yet there")
    script.call(router_line(interval=65_535, network=65_535), 0)
    script.sends("beacon 5 65535", 0, beacon(5, 65_535, interval=65_535, networks=(65_535,)), why="the largest numbers")
    for position in ("800000008000000080008000", "ffffffffffffffffffffffff", "000000000000000000000000"):
        script.call(router_line(position=bytes.fromhex(position)), 0, "any position")
    script.call(router_line(window=0, ticks=0, lifetime=0, secret=b""), 18, "all at once")


def node(script):
    open_hall(script, "The node's settings")
    good = Gauge(0)
    for setting in ("ticks", "patience"):
        for value in (LEAST_TICKS, MOST_TICKS):
            script.call_answered(good.line(**{setting: value}), "0 - -", f"{setting} {value}")
        for value in TICKS_OUT:
            script.call_answered(good.line(**{setting: value}), "18 - -", f"{setting} {value}")
    for value in (2, 3):
        script.call(Gauge(0, security_type=value).line(), 0, f"type {value}")
    for value in (0, 1, 4, 255, 258, 512, 65_538, 65_539, 2**32 + 2, 2**64 - 1):
        script.call(Gauge(0, security_type=value).line(), 18, f"type {value}")
    network = " 2048 "
    for value in (0, 65_535):
        script.call(good.line().replace(network, f" {value} "), 0, f"network {value}")
    for value in SIXTEEN_OUT:
        script.call(good.line().replace(network, f" {value} "), 18, f"network {value}")
    for length, number in ((1, 0), (253, 0), (254, 18), (255, 18), (256, 18), (257, 18)):
        script.call(Gauge(0, password=b"p" * length).line(), number, f"a password of {length} bytes")
        script.call(Gauge(0, account=b"a" * length).line(), number, f"an account of {length} bytes")
    for text in (good.password, good.account):
        script.call(good.line().replace(hexed(text), "-"), 18, "an empty one")


def cases(script):
    router(script)
    node(script)
