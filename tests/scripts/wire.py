"""Messages and books as bytes, made with the standard library's own MD5 and HMAC.

Nothing here refuses anything: a script needs messages that no party would write.
"""

import hashlib
import hmac

BEACON, REQUEST, SUCCESS, FAILURE, TERMINATING = 1, 3, 4, 8, 9
ACCESS_REQUEST, ACCEPT, REJECT = 1, 2, 3

ZEROS = bytes(16)


def md5(text):
    return hashlib.md5(text).digest()


def mac(key, text):
    return hmac.new(key, text, hashlib.md5).digest()


def number(value, width):
    return value.to_bytes(width, "big")


def hexed(data):
    return data.hex() or "-"


def obj(kind, value=b"", length=None):
    """One object; `length` overrides the true length byte."""
    return bytes([kind, len(value) + 2 if length is None else length]) + value


def filler(kind, left):
    """Objects of one type that have so many bytes, the last one shorter than the others."""
    return [obj(kind, bytes(253))] * (left // 255) + [obj(kind, bytes(left % 255 - 2))]


def padded_filler(left):
    """The same of MISP, with padding in the place of the last one."""
    return [obj(250, bytes(253))] * (left // 255) + [b"\x00"] * (left % 255)


def numbers(values, width=2):
    return b"".join(number(value, width) for value in values)


def stamp_object(stamp):
    return obj(2, number(stamp, 8))


def reason_object(reason):
    return obj(13, number(reason, 2))


def header(code, second, length):
    return bytes([code, second]) + number(length, 2)


def misp(code, objects, flags=0, length=None):
    """A MISP message; `length` overrides the true Length."""
    body = b"".join(objects)
    return header(code, flags, 4 + len(body) if length is None else length) + body


def walk(message, start, padding):
    """Offset, type and length of each object, as far as they are whole."""
    at = start
    while at < len(message):
        if padding and message[at] == 0:
            at += 1
            continue
        if at + 1 >= len(message) or message[at + 1] < 2 or at + message[at + 1] > len(message):
            return
        yield at, message[at], message[at + 1]
        at += message[at + 1]


def check_value_at(message):
    """Where the value of the first object 5 stands."""
    return next((at + 2 for at, kind, _ in walk(message, 4, True) if kind == 5), None)


def authentication_data(message, sender, receiver):
    """MD5 of the Length bytes with the check value zero, the sender's address, the receiver's."""
    at = check_value_at(message)
    message = message[: int.from_bytes(message[2:4], "big")]
    return md5(message[:at] + ZEROS + message[at + 16 :] + sender + receiver)


def seal(message, key, sender, receiver):
    """The message with the right check value in its first object 5."""
    at = check_value_at(message)
    value = mac(key, authentication_data(message, sender, receiver))
    return message[:at] + value + message[at + 16 :]


def check_value(message):
    at = check_value_at(message)
    return message[at : at + 16]


def session_key(password, seed):
    return mac(password, seed)


def exclusive_or(left, right):
    return bytes(a ^ b for a, b in zip(left, right))


def beacon_objects(stamp, groups=(), serial=0, interval=30, types=(2, 3), networks=(0x0800,)):
    return [
        stamp_object(stamp),
        obj(14, numbers(groups, 4)),
        obj(16, number(serial, 2)),
        obj(17, number(interval, 2)),
        obj(18, numbers(types)),
        obj(21, numbers(networks)),
    ]


def request_objects(stamp, account, seed, types=(2,), networks=(0x0800,), check=ZEROS):
    return [
        stamp_object(stamp),
        obj(18, numbers(types)),
        obj(5, check),
        obj(6, account),
        obj(8, seed),
        obj(21, numbers(networks)),
    ]


def success_objects(stamp, lifetime, networks=(0x0800,), check=ZEROS):
    return [stamp_object(stamp), obj(15, number(lifetime, 2)), obj(5, check), obj(21, numbers(networks))]


def failure(stamp, reason):
    return misp(FAILURE, [stamp_object(stamp), reason_object(reason)])


def terminating_objects(stamp, check=ZEROS):
    return [stamp_object(stamp), obj(5, check)]


def misauth(code, identifier, objects, secret, length=None):
    """A MISAUTH message with the right Authenticator; `length` overrides the true Length."""
    body = b"".join(objects)
    return authenticated(header(code, identifier, 20 + len(body) if length is None else length) + ZEROS + body, secret)


def authenticated(message, secret):
    counted = message[: int.from_bytes(message[2:4], "big")]
    return message[:4] + mac(secret, counted[:4] + ZEROS + counted[20:]) + message[20:]


def access_objects(account, data, check, seed, security_type, position):
    return [
        obj(1, account),
        obj(200, data),
        obj(201, check),
        obj(202, seed),
        obj(205, number(security_type, 2)),
        obj(204, position),
    ]


def accept_objects(key, check, secret):
    """Object 203 holds the session key XOR the HMAC of the check value under the secret."""
    return [obj(203, exclusive_or(key, mac(secret, check))), obj(201, check)]


def counted(text):
    """A byte string of a book after its length."""
    return bytes([len(text) & 0xFF]) + text


def book(routers, accounts, router_count=None, account_count=None, tail=b""):
    """A book from pairs; the counts can be made to lie."""
    first = b"".join(ipv4 + counted(secret) for ipv4, secret in routers)
    second = b"".join(counted(name) + counted(password) for name, password in accounts)
    router_count = len(routers) if router_count is None else router_count
    account_count = len(accounts) if account_count is None else account_count
    return number(router_count, 2) + first + number(account_count, 2) + second + tail
