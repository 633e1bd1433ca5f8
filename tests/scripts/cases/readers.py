"""The bare readers: refusals 1 to 6, and the fields that they hand back."""

from wire import filler, header, hexed, misp, number, numbers, obj, reason_object, stamp_object

FIVE = number(5, 8)
MARK = bytes(range(0x10, 0x20))
OTHER = bytes(range(0x40, 0x50))

# A value for each type of MISP, of the length that the paper's table gives.
MISP_VALUES = {
    2: FIVE,
    3: b"\x0a\x00\x00\x03",
    4: b"\x0a\x00\x00\x04",
    5: MARK,
    6: b"name",
    8: OTHER,
    9: bytes.fromhex("00230000ffff000080000007"),
    10: b"\xfe",
    11: b"\x01",
    13: b"\x00\x80",
    14: numbers((1, 0xFFFFFFFF), 4),
    15: b"\x00\x3c",
    16: b"\xff\xff",
    17: b"\x00\x1e",
    18: numbers((2, 3)),
    19: b"\x00\x01\x00\x40\xff\xff",
    20: b"\x0d",
    21: numbers((0x0800, 0x86DD)),
}
MISP_KINDS = {
    1: ([2, 14, 16, 17, 18, 21], [9, 10, 11, 19, 20]),
    3: ([2, 18, 5, 6, 8, 21], [3]),
    4: ([2, 15, 5, 21], [3, 4]),
    8: ([2, 13], []),
    9: ([2, 5], [13]),
}
MISAUTH_VALUES = {
    1: b"name",
    4: b"\x0a\x00\x00\x01",
    33: b"proxy",
    95: bytes(range(16)),
    200: MARK,
    201: OTHER,
    202: bytes(reversed(MARK)),
    203: bytes(reversed(OTHER)),
    204: bytes.fromhex("00230000ffff000080000007"),
    205: b"\x00\x02",
    206: numbers((1, 2), 4),
}
MISAUTH_KINDS = {
    1: ([1, 200, 201, 202, 205, 204], [4, 33, 95, 206]),
    2: ([203, 201], [33]),
    3: ([], [33]),
}
ANY_LENGTH = {5, 6, 8, 1, 33, 200, 201, 202, 203}
SIXTEEN = {5, 8, 200, 201, 202, 203}
# Types for which there is a refusal 6: those, and the names.
SIZED = SIXTEEN | {6, 1}


class Family:
    """What the cases need of one protocol: its call, its header, its tables."""

    def __init__(self, call, size, most, values, kinds, padding):
        self.call, self.size, self.most = call, size, most
        self.values, self.kinds, self.padding = values, kinds, padding

    def message(self, code, objects, second=0, length=None):
        body = b"".join(objects)
        true = self.size + len(body)
        return header(code, second, true if length is None else length) + bytes(self.size - 4) + body

    def object(self, kind):
        return obj(kind, self.values[kind])

    def mandatory(self, code):
        return [self.object(kind) for kind in self.kinds[code][0]]

    def line(self, message):
        return f"{self.call} {hexed(message)}"

    def fields(self, code, second, pairs):
        shown = [f"{kind}={hexed(value)}" for kind, value in pairs]
        return " ".join(["0", str(code), str(second)] + shown)

    def mandatory_fields(self, code, second=0):
        return self.fields(code, second, [(kind, self.values[kind]) for kind in sorted(self.kinds[code][0])])


MISP = Family("read", 4, 1500, MISP_VALUES, MISP_KINDS, True)
MISAUTH = Family("readauth", 20, 4096, MISAUTH_VALUES, MISAUTH_KINDS, False)
FAMILIES = (MISP, MISAUTH)


def fits(kind, length):
    """Whether an object of this type may have a value of this length."""
    lists = {14: 4, 206: 4, 18: 2, 21: 2}
    if kind in lists:
        return length % lists[kind] == 0
    return kind in ANY_LENGTH or length == len({**MISP_VALUES, **MISAUTH_VALUES}[kind])


def examples(script):
    script.title("The paper's table of proved examples")
    f = "08000012020a00000000000000050d040001"
    taken = "0 8 0 2=0000000000000005 13=0001"
    script.call_answered(f"read {f}", taken, "1: F")
    script.call_answered(f"read {f}ffff", taken, "1: F and two more bytes")
    script.call_answered(f"read 08000013{f[8:]}", "2", "2: Length 0013")
    script.call_answered("read -", "1", "3: empty")
    script.call_answered("read 080000", "1", "3")
    script.call_answered("read 08000004", "5", "4")
    script.call_answered("read 0800000500", "5", "4: padding alone")
    script.call_answered("read 0800000502", "4", "5")
    script.call_answered("read 080000060201", "4", "5")
    script.call_answered(f"read 08000016{f[8:]}0d040002", taken, "6: the first reason counts")
    late = "08000015020a00000000000000050d03090d040002"
    script.call_answered(f"read {late}", "0 8 0 2=0000000000000005 13=0002", "7: the first of the right length")
    for latitude in ("00230000", "ffff0000", "80000000"):
        value = bytes.fromhex(latitude) + bytes(8)
        message = MISP.message(1, MISP.mandatory(1) + [obj(9, value)])
        fields = sorted([(kind, MISP_VALUES[kind]) for kind in MISP_KINDS[1][0]] + [(9, value)])
        script.call_answered(MISP.line(message), MISP.fields(1, 0, fields), "10: a latitude as on the wire")


def headers(script, family):
    script.title(f"{family.call}: headers, refusals 1 to 3")
    for given in range(family.size):
        script.call_answered(family.line(bytes([1]) * given), "1", f"{given} bytes are fewer than a header")
    for code in family.kinds:
        whole = family.message(code, family.mandatory(code))
        size = len(whole)
        for length in (0, 1, family.size - 1, size + 1, 256 + size, 0x8000 + size, 0xFFFF):
            script.call_answered(family.line(header(code, 0, length) + whole[4:]), "2", f"Length {length} of {size}")
        script.call_answered(family.line(whole[:-1]), "2" if size > family.size else "1", "a byte is missing")
        script.call_answered(family.line(whole + b"\xff\xff"), family.mandatory_fields(code), "bytes after Length")
        for length in (family.size, size - 1):
            if family.size <= length < size:
                short = header(code, 0, length) + whole[4:]
                expected = "5" if length == family.size else "4"
                script.call_answered(family.line(short), expected, f"Length {length} of {size}")
    for code in [code for code in (0, 2, 4, 5, 6, 7, 10, 0x81, 0xFF) if code not in family.kinds]:
        script.call_answered(family.line(family.message(code, [])), "3", f"code {code}")
        script.call_answered(family.line(family.message(code, [b"\x02"])), "3", "3 is before 4")
        script.call_answered(family.line(family.message(code, [], length=family.size - 1)), "2", "2 is before 3")


def longest(script, family):
    script.title(f"{family.call}: the longest message and one more")
    for code in family.kinds:
        if code not in (min(family.kinds), max(family.kinds)):
            continue
        objects = family.mandatory(code)
        left = family.most - family.size - sum(map(len, objects))
        exact = family.message(code, objects + filler(250, left))
        assert len(exact) == family.most
        script.call_answered(family.line(exact), family.mandatory_fields(code), f"{family.most} bytes")
        above = family.message(code, objects + filler(250, left + 1))
        script.call_answered(family.line(above), "2", f"{family.most + 1} bytes")


def fields(script, family):
    script.title(f"{family.call}: which fields are handed back")
    for code, (mandatory, optional) in family.kinds.items():
        every = sorted(mandatory + optional)
        expected = family.fields(code, 0, [(kind, family.values[kind]) for kind in every])
        objects = [family.object(kind) for kind in mandatory + optional]
        script.call_answered(family.line(family.message(code, objects)), expected, f"code {code}: all it may hold")
        script.call_answered(family.line(family.message(code, objects[::-1])), expected, "in the other order")
        foreign = [kind for kind in (1, 7, 12, 22, 94, 96, 199, 207, 255, *family.values) if kind not in every]
        around = [obj(kind, family.values.get(kind, b"\x00\x00\x00")) for kind in foreign]
        short = [obj(kind) for kind in foreign]
        script.call_answered(family.line(family.message(code, around + objects)), expected, "foreign objects first")
        script.call_answered(family.line(family.message(code, objects + short)), expected, "empty foreign objects last")
        expected = family.mandatory_fields(code)
        script.call_answered(family.line(family.message(code, family.mandatory(code))), expected, "the mandatory alone")


def second_byte(script):
    script.title("Byte 1: S is its top bit, the rest is not looked at; in MISAUTH it is the Identifier")
    for code in MISP_KINDS:
        for flags in (0x01, 0x7F, 0x80, 0xFF):
            message = MISP.message(code, MISP.mandatory(code), flags)
            script.call_answered(MISP.line(message), MISP.mandatory_fields(code, flags >> 7), f"flags {flags:02x}")
    for code in MISAUTH_KINDS:
        for identifier in (1, 63, 64, 128, 255):
            message = MISAUTH.message(code, MISAUTH.mandatory(code), identifier)
            script.call_answered(MISAUTH.line(message), MISAUTH.mandatory_fields(code, identifier))


def broken(script, family):
    script.title(f"{family.call}: broken objects, before anything is missing (4 is before 5 and 6)")
    for code in family.kinds:
        objects = family.mandatory(code)
        for end, why in (
            (b"\x02", "no length byte"),
            (b"\xfa", "no length byte, foreign"),
            (b"\x02\x00", "Length 0"),
            (b"\xfa\x01", "Length 1, foreign"),
            (b"\x02\x03", "past the end by one"),
            (b"\xfa\x0a" + bytes(7), "past the end by one, foreign"),
            (b"\x05\xff", "far past the end"),
        ):
            script.call_answered(family.line(family.message(code, objects + [end])), "4", f"last: {why}")
            script.call_answered(family.line(family.message(code, [end])), "4", f"alone: {why}")
        script.call_answered(family.line(family.message(code, [b"\x02\x00"] + objects)), "4", "first: Length 0")
        script.call_answered(family.line(family.message(code, [b"\x02\x01"] + objects)), "4", "first: Length 1")
        if objects:
            last = family.kinds[code][0][-1]
            long = obj(last, family.values[last], length=len(family.values[last]) + 3)
            script.call_answered(family.line(family.message(code, objects[:-1] + [long])), "4", "the last, by one")


def padding(script):
    script.title("Type 0: one byte of padding in MISP, an object like others in MISAUTH")
    for code in MISP_KINDS:
        spread = [b"\x00"] + [part for item in MISP.mandatory(code) for part in (item, b"\x00\x00\x00")]
        script.call_answered(MISP.line(MISP.message(code, spread)), MISP.mandatory_fields(code), "padding anywhere")
    for code in MISAUTH_KINDS:
        objects = MISAUTH.mandatory(code)
        for kind in (b"\x00\x02", b"\x00\x05abc"):
            message = MISAUTH.message(code, [kind] + objects + [kind])
            script.call_answered(MISAUTH.line(message), MISAUTH.mandatory_fields(code), "type 0 has a length byte")
        for kind in (b"\x00", b"\x00\x00", b"\x00\x01"):
            script.call_answered(MISAUTH.line(MISAUTH.message(code, objects + [kind])), "4", "and a broken one is 4")
            script.call_answered(MISAUTH.line(MISAUTH.message(code, [kind] + objects)), "4")


def missing(script, family):
    script.title(f"{family.call}: a mandatory object missing (5), or of a length that is passed over")
    for code, (mandatory, _) in family.kinds.items():
        for gone in mandatory:
            objects = [family.object(kind) for kind in mandatory if kind != gone]
            script.call_answered(family.line(family.message(code, objects)), "5", f"code {code} without {gone}")
            for length in (0, 1, 2, 3, 4, 5, 7, 8, 9, 11, 12, 13, 15, 16, 17):
                if fits(gone, length):
                    continue
                message = family.message(code, objects + [obj(gone, bytes(length))])
                script.call_answered(family.line(message), "5", f"code {code} with {gone} of {length + 2}")


def sizes(script, family):
    script.title(f"{family.call}: refusal 6 for the object that counts, where the message must hold it")
    for code, (mandatory, _) in family.kinds.items():
        for kind in [kind for kind in mandatory if kind in ANY_LENGTH]:
            others = [family.object(other) for other in mandatory if other != kind]
            lengths = (0, 1, 15, 17, 32, 253) if kind in SIXTEEN else (0,)
            for length in lengths:
                odd = obj(kind, bytes(length))
                good = family.object(kind)
                script.call_answered(family.line(family.message(code, others + [odd])), "6", f"{kind} of {length + 2}")
                counts = [odd, good] if family.padding else [good, odd]
                script.call_answered(
                    family.line(family.message(code, others + counts)), "6", "and a good one beside it"
                )
                turned = family.message(code, others + counts[::-1])
                script.call_answered(family.line(turned), family.mandatory_fields(code), "the good one counts")
            if others:
                gone = family.message(code, others[1:] + [obj(kind)])
                script.call_answered(family.line(gone), "5", "5 is before 6")
        foreign = [obj(kind) for kind in sorted(SIZED & set(family.values) - set(mandatory))]
        message = family.message(code, foreign + family.mandatory(code) + foreign)
        script.call_answered(family.line(message), family.mandatory_fields(code), "what it may not hold gives no 6")
    for length in (1, 252, 253):
        name = obj(6 if family is MISP else 1, bytes([0x61]) * length)
        code = 3 if family is MISP else 1
        kind = name[0]
        objects = [name if other == kind else family.object(other) for other in family.kinds[code][0]]
        answer = changed(family, code, {kind: name[2:]})
        script.call_answered(family.line(family.message(code, objects)), answer, f"a name of {length}")


def changed(family, code, changes):
    """The fields of a message whose values of these types are others."""
    kinds = sorted(set(family.kinds[code][0]) | set(changes))
    return family.fields(code, 0, [(kind, changes.get(kind, family.values.get(kind))) for kind in kinds])


def counting(script):
    script.title("Of several the first counts in MISP, the last in MISAUTH, if its length is right")
    for family in FAMILIES:
        for code, (mandatory, optional) in family.kinds.items():
            for kind in mandatory + optional:
                if kind in (33, 95):
                    continue
                value = family.values[kind]
                other = bytes([value[0] ^ 1]) + value[1:]
                wrong = obj(kind, value + b"\x01" * 3 if not fits(kind, len(value) + 3) else value + b"\x01" * 5)
                rest = [family.object(item) for item in mandatory if item != kind]
                both = [obj(kind, value), obj(kind, other)]
                taken = value if family is MISP else other
                answer = changed(family, code, {kind: taken})
                script.call_answered(
                    family.line(family.message(code, rest + both)), answer, f"code {code}, two of {kind}"
                )
                if fits(kind, len(wrong) - 2):
                    continue
                answer = changed(family, code, {kind: value})
                for order in ([wrong, obj(kind, value)], [obj(kind, value), wrong]):
                    message = family.message(code, order + rest)
                    script.call_answered(
                        family.line(message), answer, f"code {code}, a {kind} of a wrong length beside it"
                    )


def optional_lengths(script):
    script.title("An optional object of another length is passed over")
    for family in FAMILIES:
        for code, (_, optional) in family.kinds.items():
            for kind in optional:
                for length in (0, 1, 2, 3, 4, 5, 6, 7, 8, 11, 12, 13, 14, 15, 16, 17, 253):
                    value = bytes(length)
                    message = family.message(code, family.mandatory(code) + [obj(kind, value)])
                    changes = {kind: value} if fits(kind, length) else {}
                    script.call_answered(
                        family.line(message), changed(family, code, changes), f"{kind} of {length + 2}"
                    )


def decision_1(script):
    script.title("Decision 1: lists of any length that fits, none included")
    for count in (0, 1, 16, 17, 32, 33, 63):
        objects = [obj(14, bytes(4 * count)) if kind == 14 else MISP.object(kind) for kind in MISP_KINDS[1][0]]
        script.call_answered(
            MISP.line(MISP.message(1, objects)), changed(MISP, 1, {14: bytes(4 * count)}), f"{count} groups"
        )
    for kind in (18, 21):
        for count in (0, 1, 16, 17, 126):
            objects = [obj(kind, bytes(2 * count)) if item == kind else MISP.object(item) for item in MISP_KINDS[1][0]]
            answer = changed(MISP, 1, {kind: bytes(2 * count)})
            script.call_answered(MISP.line(MISP.message(1, objects)), answer, f"{kind} with {count} numbers")
        for length in (1, 3, 253):
            objects = [obj(kind, bytes(length)) if item == kind else MISP.object(item) for item in MISP_KINDS[1][0]]
            script.call_answered(MISP.line(MISP.message(1, objects)), "5", f"{kind} with {length} bytes is passed over")


def decision_2(script):
    script.title("Decision 2: object 11 with a value over 1 is passed over and is not the first")
    for values, taken in (
        ((2,), None),
        ((255,), None),
        ((128,), None),
        ((2, 0), 0),
        ((2, 1, 0), 1),
        ((0, 2), 0),
        ((1, 0), 1),
    ):
        message = MISP.message(1, [obj(11, bytes([value])) for value in values] + MISP.mandatory(1))
        changes = {} if taken is None else {11: bytes([taken])}
        script.call_answered(MISP.line(message), changed(MISP, 1, changes), f"filters {values}")


def decision_3(script):
    script.title("Decisions 3, 24, 25: objects 4, 95 and 206 of access requests, repeats of 33 and 95 in their order")
    basis = MISAUTH.mandatory(1)
    first, second = bytes(16), bytes([0xFF] * 16)
    repeats = [obj(33, b"one"), obj(95, second), obj(95, b"short"), obj(33), obj(95, first), obj(33, b"one")]
    spread = [item for pair in zip(basis, repeats) for item in pair]
    for objects in (spread, repeats + basis, basis + repeats):
        pairs = [(kind, MISAUTH_VALUES[kind]) for kind in sorted(MISAUTH_KINDS[1][0])]
        pairs[1:1] = [(33, b"one"), (33, b""), (33, b"one"), (95, second), (95, first)]
        script.call_answered(MISAUTH.line(MISAUTH.message(1, objects)), MISAUTH.fields(1, 0, pairs), "repeats")
    for code in (2, 3):
        message = MISAUTH.message(code, [obj(33, b"b")] + MISAUTH.mandatory(code) + [obj(95, first), obj(33, b"a")])
        pairs = [(33, b"b"), (33, b"a")] + [(kind, MISAUTH_VALUES[kind]) for kind in sorted(MISAUTH_KINDS[code][0])]
        script.call_answered(MISAUTH.line(message), MISAUTH.fields(code, 0, pairs), "a reply may hold 33 alone")
    message = MISAUTH.message(1, basis + [obj(206, bytes(8)), obj(206), obj(206, b"odd")])
    script.call_answered(MISAUTH.line(message), changed(MISAUTH, 1, {206: b""}), "an empty 206 counts")


def decision_23(script):
    script.title("Decision 23: code 0, and messages without objects")
    script.call_answered("read 00000004", "3", "no data messages")
    for code in MISP_KINDS:
        script.call_answered(MISP.line(misp(code, [])), "5", "no objects")
    script.call_answered(MISAUTH.line(MISAUTH.message(3, [])), "0 3 0", "a bare reject")
    for code in (1, 2):
        script.call_answered(MISAUTH.line(MISAUTH.message(code, [])), "5", "no objects")


def cut(script):
    script.title("A message cut in the middle of an object, its Length with it: 4, or 5 between objects")
    for family in FAMILIES:
        for code in family.kinds:
            whole = family.message(code, family.mandatory(code))
            ends, at = set(), family.size
            for item in family.mandatory(code):
                ends.add(at)
                at += len(item)
            for length in range(family.size, len(whole)):
                message = header(code, 0, length) + whole[4:length]
                expected = "5" if length in ends else "4"
                script.call_answered(family.line(message), expected, f"{length} of {len(whole)}")


def old_reader(script):
    script.title("A length byte too large never reaches beyond the message")
    script.call_answered(
        "read " + hexed(misp(8, [stamp_object(7), reason_object(1)])), "0 8 0 2=0000000000000007 13=0001"
    )
    script.call_answered(
        "read " + hexed(misp(8, [stamp_object(8), b"\x0d\x04\x00"])), "4", "not the byte of the message before"
    )
    script.call_answered(
        "read " + hexed(misp(8, [stamp_object(8), b"\x0d\x04\x00"]) + b"\x01"), "4", "nor bytes after Length"
    )


def cases(script):
    examples(script)
    for family in FAMILIES:
        for part in (headers, longest, fields, broken, missing, sizes):
            part(script, family)
    for part in (second_byte, padding, counting, optional_lengths, cut, old_reader):
        part(script)
    for part in (decision_1, decision_2, decision_3, decision_23):
        part(script)
