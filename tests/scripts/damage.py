"""Ways to damage a message: at a byte, in a length, in its objects."""

from wire import header, number, obj, walk

MISP_TYPES = [2, 3, 4, 5, 6, 8, 9, 10, 11, 13, 14, 15, 16, 17, 18, 19, 20, 21]
MISAUTH_TYPES = [1, 4, 33, 95, 200, 201, 202, 203, 204, 205, 206]
# How many bytes the value of each type usually has.
USUAL = {2: 8, 3: 4, 4: 4, 5: 16, 6: 3, 8: 16, 9: 12, 10: 1, 11: 1, 13: 2, 14: 4, 15: 2, 16: 2, 17: 2, 18: 2}
USUAL.update({19: 6, 20: 1, 21: 2, 1: 3, 33: 2, 95: 16, 200: 16, 201: 16, 202: 16, 203: 16, 204: 12, 205: 2, 206: 4})


class Form:
    """Where the objects of a family begin, whether it has padding, its types."""

    def __init__(self, size, padding, types):
        self.size, self.padding, self.types = size, padding, types

    def objects(self, message):
        return [message[at : at + length] for at, _, length in walk(message, self.size, self.padding)]

    def join(self, message, objects):
        """The same header with these objects and their Length."""
        body = b"".join(objects)
        return message[:2] + number(self.size + len(body), 2) + message[4 : self.size] + body


MISP = Form(4, True, MISP_TYPES)
MISAUTH = Form(20, False, MISAUTH_TYPES)


def flipped(chance, message, form):
    at = chance.below(len(message))
    return message[:at] + bytes([message[at] ^ (1 << chance.below(8))]) + message[at + 1 :]


def overwritten(chance, message, form):
    at = chance.below(len(message))
    return message[:at] + chance.one([b"\x00", b"\x01", b"\x02", b"\xff", chance.bytes(1)]) + message[at + 1 :]


def cut(chance, message, form):
    return message[: chance.below(len(message))]


def cut_with_length(chance, message, form):
    """Cut in its objects, and the Length says so."""
    length = chance.between(min(form.size, len(message)), len(message))
    return (message[:2] + number(length, 2) + message[4:])[:length]


def longer(chance, message, form):
    return message + chance.bytes(chance.between(1, 5))


def another_length(chance, message, form):
    true = len(message)
    wrong = chance.one([true - 1, true + 1, 0, form.size - 1, form.size, 1500, 1501, 4096, 4097, chance.below(65_536)])
    return message[:2] + number(max(wrong, 0), 2) + message[4:]


def another_code(chance, message, form):
    return bytes([chance.one([0, 1, 2, 3, 4, 5, 8, 9, 255])]) + message[1:]


def another_second(chance, message, form):
    return message[:1] + chance.one([b"\x80", b"\x7f", b"\xff", chance.bytes(1)]) + message[2:]


def some_object(chance, form):
    """An object of any type, of its usual length or nearly."""
    kind = chance.one(form.types) if chance.often(70) else chance.below(256)
    length = USUAL.get(kind, chance.below(6))
    if chance.often(40):
        length = max(0, length + chance.one([-2, -1, 1, 2, 4]))
    if kind == 0 and form.padding:
        return b"\x00"
    return obj(kind, chance.bytes(length))


def with_objects(chance, message, form):
    """Foreign, repeated or odd objects put in, and padding."""
    objects = form.objects(message)
    for _ in range(chance.between(1, 3)):
        added = some_object(chance, form)
        if objects and chance.often(40):
            kind = chance.one(objects)[0]
            added = obj(kind, chance.bytes(max(0, USUAL.get(kind, 2) + chance.one([-1, 0, 0, 1]))))
        objects.insert(
            chance.between(0, len(objects)),
            b"\x00" * chance.between(1, 3) if form.padding and chance.often(25) else added,
        )
    return form.join(message, objects)


def without_object(chance, message, form):
    objects = form.objects(message)
    if objects:
        del objects[chance.below(len(objects))]
    return form.join(message, objects)


def reordered(chance, message, form):
    return form.join(message, chance.shuffled(form.objects(message)))


def odd_object(chance, message, form):
    """One object gets a value of another length, its length byte with it."""
    objects = form.objects(message)
    if not objects:
        return message
    at = chance.below(len(objects))
    value = objects[at][2:]
    value = chance.one([value[:-1], value + b"\x00", b"", value * 2, value + value[:4]])
    objects[at] = obj(objects[at][0], value[:253])
    return form.join(message, objects)


def odd_length_byte(chance, message, form):
    """One length byte lies, the Length stays."""
    starts = [at for at, _, _ in walk(message, form.size, form.padding)]
    if not starts:
        return message
    at = chance.one(starts) + 1
    lie = chance.one([0, 1, 2, max(message[at] - 1, 0), min(message[at] + 1, 255), 255])
    return message[:at] + bytes([lie]) + message[at + 1 :]


def broken_end(chance, message, form):
    return form.join(message, form.objects(message) + [chance.one([b"\x02", b"\x05\x00", b"\xfe\x01", b"\x06\x03"])])


# Some leave the message readable, and then a fresh seal brings it far.
WAYS = [
    (flipped, 4),
    (overwritten, 2),
    (cut, 2),
    (cut_with_length, 2),
    (longer, 2),
    (another_length, 2),
    (another_code, 1),
    (another_second, 2),
    (with_objects, 8),
    (without_object, 2),
    (reordered, 3),
    (odd_object, 3),
    (odd_length_byte, 2),
    (broken_end, 1),
]


def damaged(chance, message, form):
    return chance.weighted(WAYS)(chance, message, form) if message else message


def at_each_byte(chance, message):
    for at in range(len(message)):
        yield message[:at] + bytes([message[at] ^ (1 << chance.below(8))]) + message[at + 1 :]


def at_each_length(message, form):
    """Cut at each length; from the header on also with a Length that says so."""
    for length in range(len(message)):
        yield message[:length]
    for length in range(form.size, len(message)):
        yield header(message[0], message[1], length) + message[4:length]


def lengths_off(message, form):
    """The Length and each object's length byte off by one."""
    for wrong in (len(message) - 1, len(message) + 1):
        yield message[:2] + number(wrong, 2) + message[4:]
    for at, _, length in walk(message, form.size, form.padding):
        for wrong in (length - 1, length + 1):
            yield message[: at + 1] + bytes([wrong & 0xFF]) + message[at + 2 :]
