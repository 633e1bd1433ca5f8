"""The server's call and its books."""

from cases.hall import EMPTY_BOOK, IPV4, POSITION, SECRET, Gauge, mill_book, open_hall, seed
from wire import (
    ACCEPT,
    ACCESS_REQUEST,
    REJECT,
    ZEROS,
    accept_objects,
    access_objects,
    book,
    check_value,
    filler,
    header,
    hexed,
    mac,
    misauth,
    number,
    obj,
)

ONE = Gauge(0)
THREE = Gauge(1, security_type=3)


def login(message, ipv4=IPV4):
    return f"login {hexed(ipv4)} {hexed(message)}"


def lend(script, mill, visitors=EMPTY_BOOK):
    script.call_answered(f"books {hexed(mill)} {hexed(visitors)}", "0 - -")


def asked(gauge, identifier=5, of=seed(1), security_type=None):
    """An access request of this gauge, and the accept that it deserves."""
    request = gauge.request(1000, of)
    return gauge.access(identifier, request, of, security_type), gauge.accept(identifier, request, of)


def rejected(identifier, secret=SECRET):
    return misauth(REJECT, identifier, [], secret)


def login_order(script):
    open_hall(script, "login: 20, 19, 1, 2, 3, 22, 16, 4, 5, 6", [ONE])
    message, answer = asked(ONE)
    request = ONE.request(1000, seed(1))
    objects = access_objects(ONE.account, bytes(range(16)), check_value(request), seed(1), 2, POSITION)
    stranger = bytes.fromhex("0a000002")
    script.call("room 4095", 0)
    script.call(login(message), 20)
    lend(script, b"")
    script.call(login(b""), 20, "20 is before 19")
    script.call("room 4096", 0)
    script.call(login(b""), 19, "19 is before 1")
    script.call(login(message), 19)
    lend(script, mill_book([ONE]))
    for given in (b"", message[:1], message[:19]):
        script.call(login(given), 1)
    for length in (0, 19, len(message) + 1, 4097, 65_535):
        script.call(login(header(ACCESS_REQUEST, 5, length) + message[4:]), 2, f"Length {length}")
    script.call(login(header(ACCESS_REQUEST, 5, 4097) + bytes(4093)), 2, "4,097 bytes")
    script.call(login(header(ACCEPT, 5, 19) + message[4:]), 2, "2 is before 3")
    for code in (0, 2, 3, 4, 255):
        script.call(login(misauth(code, 5, objects, SECRET)), 3)
        script.call(login(misauth(code, 5, objects, SECRET), stranger), 3, "3 is before 22")
    script.call(login(message, stranger), 22)
    script.call(login(misauth(ACCESS_REQUEST, 5, objects, b"wrong"), stranger), 22, "22 is before 16")
    script.call(login(misauth(ACCESS_REQUEST, 5, objects, b"wrong")), 16)
    script.call(login(misauth(ACCESS_REQUEST, 5, [b"\x02"], b"wrong")), 16, "16 is before 4")
    script.call(login(message[:4] + ZEROS + message[20:]), 16, "an Authenticator of zeros")
    script.call(login(bytes([message[0], 6]) + message[2:]), 16, "the Identifier is covered")
    for at in (4, 19, 20, len(message) - 1):
        damaged = bytearray(message)
        damaged[at] ^= 1
        script.call(login(bytes(damaged)), 16, f"byte {at} damaged")
    for end in (b"\x21", b"\x00", b"\x00\x00", b"\x21\x01", b"\x21\x03"):
        script.call(login(misauth(ACCESS_REQUEST, 5, objects + [end], SECRET)), 4)
        script.call(login(misauth(ACCESS_REQUEST, 5, [end], SECRET)), 4, "4 is before 5")
    for gone in range(6):
        missing = objects[:gone] + objects[gone + 1 :]
        script.call(login(misauth(ACCESS_REQUEST, 5, missing, SECRET)), 5, f"without {objects[gone][0]}")
    for kind, length in ((205, 0), (205, 1), (205, 3), (204, 0), (204, 11), (204, 13)):
        odd = [obj(kind, bytes(length)) if item[0] == kind else item for item in objects]
        script.call(login(misauth(ACCESS_REQUEST, 5, odd, SECRET)), 5, f"{kind} of {length + 2} is passed over")
    script.call(login(misauth(ACCESS_REQUEST, 5, [obj(1), *objects[2:]], SECRET)), 5, "5 is before 6")
    for kind, length in ((1, 0), (200, 0), (200, 15), (200, 17), (201, 15), (201, 17), (202, 15), (202, 17)):
        odd = [obj(kind, bytes(length)) if item[0] == kind else item for item in objects]
        script.call(login(misauth(ACCESS_REQUEST, 5, odd, SECRET)), 6, f"{kind} of {length + 2}")
        script.call(
            login(misauth(ACCESS_REQUEST, 5, objects + [obj(kind, bytes(length))], SECRET)), 6, "the last counts"
        )
    script.sends(login(message), 0, answer)
    script.sends(login(message + b"tail"), 0, answer, why="bytes after Length")


def acceptance(script):
    open_hall(script, "The server accepts: account in a book, right check value, type 2 or 3", [ONE, THREE])
    for gauge in (ONE, THREE):
        for identifier in (0, 63, 64, 255):
            message, answer = asked(gauge, identifier)
            script.sends(login(message), 0, answer, why="the Identifier is echoed")
    for security_type in (0, 1, 4, 0x0200, 0x0300, 0x0302, 258, 65_535):
        objects = access_objects(ONE.account, ZEROS, mac(ONE.password, ZEROS), seed(1), security_type, POSITION)
        message = misauth(ACCESS_REQUEST, 5, objects, SECRET)
        script.sends(login(message), 0, rejected(5), why=f"decision 4: type {security_type}")
    for account in (b"gauge", b"gauge00", b"Gauge0", b"gauge0\x00", b"g", b"x" * 253):
        data, check = ZEROS, mac(ONE.password, ZEROS)
        objects = access_objects(account, data, check, seed(1), 2, POSITION)
        script.sends(
            login(misauth(ACCESS_REQUEST, 5, objects, SECRET)), 0, rejected(5), why=f"no account {account[:8]}"
        )
    for at in (0, 7, 15):
        check = bytearray(mac(ONE.password, ZEROS))
        check[at] ^= 0x80
        objects = access_objects(ONE.account, ZEROS, bytes(check), seed(1), 2, POSITION)
        script.sends(login(misauth(ACCESS_REQUEST, 5, objects, SECRET)), 0, rejected(5), why=f"byte {at} of the check value")
    data = bytes(range(16))
    for password in (ONE.password, THREE.password, ONE.password + b"0", b""):
        check = mac(password, data)
        objects = access_objects(ONE.account, data, check, seed(7), 3, POSITION)
        accept = misauth(ACCEPT, 9, accept_objects(ONE.key(seed(7)), check, SECRET), SECRET)
        answer = accept if password == ONE.password else rejected(9)
        script.sends(login(misauth(ACCESS_REQUEST, 9, objects, SECRET)), 0, answer, why="the data is taken as it is")
    check = mac(ONE.password + b"\x00", data)
    objects = access_objects(ONE.account, data, check, seed(7), 3, POSITION)
    answer = misauth(ACCEPT, 9, accept_objects(ONE.key(seed(7)), check, SECRET), SECRET)
    script.sends(
        login(misauth(ACCESS_REQUEST, 9, objects, SECRET)),
        0,
        answer,
        why="keys that differ in zeros at their end are one key",
    )


def requests_taken(script):
    open_hall(script, "login: the last of each type counts; optional, foreign and long messages", [ONE, THREE])
    data, of = bytes(range(16)), seed(3)
    check = mac(ONE.password, data)
    base = access_objects(ONE.account, data, check, of, 2, POSITION)
    other = access_objects(THREE.account, ZEROS, ZEROS, seed(4), 1, bytes(12))
    answer = misauth(ACCEPT, 1, accept_objects(ONE.key(of), check, SECRET), SECRET)
    variants = [
        ("the last of each", [*other, *base]),
        ("an earlier odd one", [obj(1), obj(200, b"x"), obj(201), obj(202, bytes(17)), *base]),
        ("a later one of a length that is passed over", [*base, obj(205, b"\x02"), obj(204, bytes(11)), obj(205)]),
        ("in the other order", base[::-1]),
        ("optional objects", [obj(4, IPV4), obj(33), obj(95, ZEROS), obj(206, bytes(4)), *base, obj(33), obj(95)]),
        ("foreign objects and type 0", [obj(0), obj(203, b"odd"), obj(5), obj(6), *base, obj(0, b"abc"), obj(255)]),
    ]
    for why, objects in variants:
        script.sends(login(misauth(ACCESS_REQUEST, 1, objects, SECRET)), 0, answer, why=why)
    script.sends(
        login(misauth(ACCESS_REQUEST, 1, [*base, *other], SECRET)),
        0,
        rejected(1),
        why="the last of each, the other way",
    )
    longest = misauth(ACCESS_REQUEST, 1, base + filler(33, 4096 - 20 - sum(map(len, base))), SECRET)
    assert len(longest) == 4096
    script.sends(login(longest), 0, answer, why="4,096 bytes")


def secrets(script):
    open_hall(script, "Router secrets come from the mill's book, by the IPv4 source address", [ONE])
    other, third = bytes.fromhex("0a000002"), bytes.fromhex("0a000003")
    mill = book([(other, b"other secret"), (IPV4, SECRET)], [(ONE.account, ONE.password)])
    visitors = book([(third, SECRET), (IPV4, b"visitors' secret"), (other, SECRET)], [])
    lend(script, mill, visitors)
    message, answer = asked(ONE)
    script.sends(login(message), 0, answer)
    script.call(login(message, other), 16, "that router has another secret")
    script.call(login(message, third), 22, "a router only in the visitors' book")
    script.call(login(message, bytes.fromhex("0100000a")), 22)
    script.call(login(message, bytes(4)), 22)
    request = ONE.request(1000, seed(1))
    objects = access_objects(b"stranger", ZEROS, check_value(request), seed(1), 2, POSITION)
    theirs = misauth(ACCESS_REQUEST, 5, objects, b"other secret")
    script.sends(login(theirs, other), 0, rejected(5, b"other secret"), why="the answer is under that router's secret")
    for length in (1, 63, 64, 65, 253):
        secret = b"s" * length
        lend(script, book([(IPV4, secret)], [(ONE.account, ONE.password)]))
        data = bytes(range(16))
        check = mac(ONE.password, data)
        request = misauth(ACCESS_REQUEST, 7, access_objects(ONE.account, data, check, seed(1), 2, POSITION), secret)
        answer = misauth(ACCEPT, 7, accept_objects(ONE.key(seed(1)), check, secret), secret)
        script.sends(login(request), 0, answer, why=f"a secret of {length} bytes")
    lend(script, book([], [(ONE.account, ONE.password)]))
    script.call(login(message), 22, "no router at all")


def with_password(account, password, secret=SECRET):
    """An access request that is right under this password, and its accept."""
    data = bytes(range(16))
    check = mac(password, data)
    request = misauth(ACCESS_REQUEST, 1, access_objects(account, data, check, seed(1), 2, POSITION), secret)
    return request, misauth(ACCEPT, 1, accept_objects(mac(password, seed(1)), check, secret), secret)


def two_books(script):
    open_hall(script, "The first account that matches ends the search of both books, the mill's first", [])
    mill = book([(IPV4, SECRET)], [(b"both", b"mill"), (b"mill only", b"one"), (b"last", b"l")])
    visitors = book([(IPV4, b"x")], [(b"visitor", b"two"), (b"both", b"visitors"), (b"v", b"three")])
    lend(script, mill, visitors)
    for account, password, taken in (
        (b"both", b"mill", True),
        (b"both", b"visitors", False),
        (b"mill only", b"one", True),
        (b"last", b"l", True),
        (b"visitor", b"two", True),
        (b"v", b"three", True),
        (b"visitor", b"one", False),
        (b"nobody", b"one", False),
        (b"one", b"mill only", False),
    ):
        message, accept = with_password(account, password)
        script.sends(
            login(message), 0, accept if taken else rejected(1), why=f"{account.decode()} with {password.decode()}"
        )
    lend(script, visitors, mill)
    message, _ = with_password(b"both", b"visitors")
    script.call(login(message), 16, "the books change places: another secret")
    message, accept = with_password(b"both", b"visitors", b"x")
    script.sends(login(message), 0, accept, why="and the other password")
    script.note("The search goes on in the visitors' book only where the mill's has no such account")
    lend(script, book([(IPV4, SECRET)], []), book([], [(b"both", b"visitors")]))
    message, accept = with_password(b"both", b"visitors")
    script.sends(login(message), 0, accept)


def broken_books(script):
    """Decision 37."""
    router, account = (IPV4, SECRET), (b"name", b"password")
    good = book([router], [account])
    other = bytes.fromhex("0a000009")
    message, accept = with_password(b"name", b"password")
    broken = [
        ("empty", b""),
        ("one byte", b"\x00"),
        ("one count", b"\x00\x00"),
        ("three bytes", b"\x00\x00\x00"),
        ("a byte after the last entry", good + b"\x00"),
        ("a router too many is promised", book([router], [account], router_count=2)),
        ("a router too few", book([router], [account], router_count=0)),
        ("an account too many", book([router], [account], account_count=2)),
        ("an account too few", book([router], [account], account_count=0)),
        ("counts of 65,535", book([router], [account], 65_535, 65_535)),
        ("an account count with its bytes turned", number(0, 2) + number(256, 2) + good[20:]),
        ("a secret of no bytes", book([(IPV4, b"")], [account])),
        ("a secret of 254 bytes", book([(IPV4, b"s" * 254)], [account])),
        ("a secret of 255 bytes", book([(IPV4, b"s" * 255)], [account])),
        ("a name of no bytes", book([router], [(b"", b"password")])),
        ("a name of 254 bytes", book([router], [(b"n" * 254, b"password")])),
        ("a password of no bytes", book([router], [(b"name", b"")])),
        ("a password of 254 bytes", book([router], [(b"name", b"p" * 254)])),
        ("a password of 255 bytes", book([router], [(b"name", b"p" * 255)])),
        ("a router twice", book([router, router], [account])),
        ("a router twice with two secrets", book([router, (other, b"o"), (IPV4, b"x")], [account])),
        ("a name twice", book([router], [account, account])),
        ("a name twice, far apart", book([router], [(b"name", b"p"), (b"a", b"1"), (b"b", b"2"), (b"name", b"q")])),
    ]
    broken += [(f"cut at {length}", good[:length]) for length in range(4, len(good))]
    open_hall(script, "Decision 37: either book broken is 19, each in every way", [])
    for why, book_ in broken:
        lend(script, book_, EMPTY_BOOK)
        script.call(login(message), 19, f"the mill's: {why}")
        lend(script, good, book_)
        script.call(login(message), 19, f"the visitors': {why}")
    lend(script, good)
    script.sends(login(message), 0, accept, why="and a good one again")


def odd_books(script):
    open_hall(script, "Books that are not broken", [])
    message, accept = with_password(b"name", b"password")
    other = bytes.fromhex("0a000009")
    router, account = (IPV4, SECRET), (b"name", b"password")
    for why, mill in (
        ("two routers with one secret", book([(other, SECRET), router], [account])),
        ("names that begin alike", book([router], [(b"nam", b"x"), (b"name1", b"x"), account])),
        ("one password for two", book([router], [account, (b"other", b"password")])),
        ("the longest of each", book([router, (other, b"s" * 253)], [(b"n" * 253, b"p" * 253), account])),
        ("a name that is another's password", book([router], [(b"password", b"name"), account])),
    ):
        lend(script, mill)
        script.sends(login(message), 0, accept, why=why)
    lend(script, book([router], [account]), book([router], [account]))
    script.sends(login(message), 0, accept, why="the same book twice: the two may share names and routers")
    lend(script, EMPTY_BOOK, EMPTY_BOOK)
    script.call(login(message), 22, "two empty books are whole")
    script.note("The longest name is found, and a name a byte longer does not exist in a message or a book")
    long = b"n" * 253
    lend(script, book([(IPV4, SECRET)], [(long, b"p" * 253)]))
    message, accept = with_password(long, b"p" * 253)
    script.sends(login(message), 0, accept)
    script.sends(login(with_password(long[1:], b"p" * 253)[0]), 0, rejected(1))


def large_books(script):
    open_hall(script, "Books of 65,536 bytes are read, one byte more is broken", [])
    accounts = [(b"%05d" % index + b"n" * 248, b"p" * 253) for index in range(128)]
    most = 65_536
    left = most - len(book([(IPV4, SECRET)], accounts))
    last = (b"last" + b"l" * 236, b"q" * (left - 2 - 240))
    full = book([(IPV4, SECRET)], accounts + [last])
    assert len(full) == most, len(full)
    over = book([(IPV4, SECRET)], accounts + [(last[0] + b"l", last[1])])
    first, accept = with_password(*accounts[0])
    lend(script, full, EMPTY_BOOK)
    script.sends(login(first), 0, accept, why="65,536 bytes")
    message, accept = with_password(*last)
    script.sends(login(message), 0, accept, why="its last account")
    lend(script, book([(IPV4, SECRET)], []), full)
    script.sends(login(message), 0, accept, why="as the visitors' book")
    lend(script, over, EMPTY_BOOK)
    script.call(login(first), 19, "65,537 bytes")
    lend(script, book([(IPV4, SECRET)], []), over)
    script.call(login(first), 19, "65,537 bytes as the visitors'")
    many = [(b"%x" % index, b"p") for index in range(1500)]
    routers = [(number(index, 4), b"s") for index in range(300)] + [(IPV4, SECRET)]
    lend(script, book(routers, many))
    message, accept = with_password(b"5db", b"p")
    script.sends(login(message), 0, accept, why="1,500 accounts, the last of them")
    lend(script, book(routers, many + [(b"0", b"p")]))
    script.call(login(message), 19, "the first name again after 1,499 others")
    lend(script, book(routers + [(bytes(4), b"s")], many))
    script.call(login(message), 19, "the first router again after 300 others")


def cases(script):
    for part in (login_order, acceptance, requests_taken, secrets, two_books, broken_books, odd_books, large_books):
        part(script)
