"""The script's own language: what can be read, what is an error, what changes nothing."""

from cases.hall import Gauge, open_hall, router_line, seed
from wire import hexed

ADDRESS = hexed(Gauge(0).address)
LONGEST = 300_000

# One readable line for each word, with its words apart.
GOOD = {
    "router": router_line().split(" "),
    "node": Gauge(0).line().split(" "),
    "books": ["books", "00000000", "00000000"],
    "beacon": ["beacon", "0", "0"],
    "request": ["request", "0", ADDRESS, "-"],
    "reply": ["reply", "0", "-"],
    "close": ["close", "0", ADDRESS],
    "closed": ["closed", "0", ADDRESS, "-"],
    "taken": ["taken"],
    "hear": ["hear", "0", "0", hexed(seed(1)), "-"],
    "success": ["success", "0", "0", "-"],
    "failure": ["failure", "0", "0", "-"],
    "leave": ["leave", "0", "0"],
    "left": ["left", "0", "0", "-"],
    "login": ["login", "0a000001", "-"],
    "places": ["places"],
    "state": ["state", "0"],
    "read": ["read", "-"],
    "readauth": ["readauth", "-"],
    "room": ["room", "4096"],
}
# Where words of these kinds stand in them.
NUMBERS = {"router": [1, 2, 3, 4, 9], "node": [1, 2, 3, 6, 7], "beacon": [1, 2], "request": [1], "reply": [1]}
NUMBERS.update({"close": [1], "closed": [1], "hear": [1, 2], "success": [1, 2], "failure": [1, 2], "room": [1]})
NUMBERS.update({"leave": [1, 2], "left": [1, 2], "state": [1]})
HEX = {"router": [5, 6, 7, 8, 10], "node": [4, 5, 8, 9], "books": [1, 2], "request": [2, 3], "reply": [2]}
HEX.update({"close": [2], "closed": [2, 3], "hear": [3, 4], "success": [3], "failure": [3], "left": [3]})
HEX.update({"login": [1, 2], "read": [1], "readauth": [1]})
FIXED = {"router": [5, 6, 8], "node": [8, 9], "request": [2], "close": [2], "closed": [2], "hear": [3], "login": [1]}


def absent(script):
    """Must stand first in a script: afterwards nothing is absent."""
    script.title("A call on what is absent is an error, also after a refused setup")
    for word in ("beacon", "request", "reply", "close", "closed", "taken", "places"):
        script.call(" ".join(GOOD[word]), "error", "no router")
    for word in ("hear", "success", "failure", "leave", "left", "state"):
        script.call(" ".join(GOOD[word]), "error", "no node 0")
    script.call(" ".join(GOOD["login"]), "error", "no books")
    script.call(router_line(window=0), 18)
    script.call("taken", "error", "a refused setup makes no router")
    script.call(Gauge(0, security_type=1).line(), 18)
    script.call("state 0", "error", "a refused setup makes no node")
    script.call(Gauge(7).line(), 0)
    script.shows("state 7", "0 - - -")
    script.call("state 0", "error", "node 7 is another")


def nothing_printed(script):
    script.title("Empty lines and comments print nothing")
    script.lines += ["", "", "#", "#comment", "# a comment with a carriage return\r", "#\ttab", "# \xe4"]
    script.call("room 4096", 0)


def changed(words, at, word):
    return " ".join(words[:at] + [word] + words[at + 1 :])


def unreadable(script):
    open_hall(script, "A line that cannot be read is an error and changes nothing", [Gauge(0)])
    for line in ("nothing", "ROUTER", "Taken", "-", "0", " ", "  ", "\r", "\t", "roo", "rooms 1", "room4096", "\xe4"):
        script.call(line, "error", "unknown word")
    for word, words in GOOD.items():
        line = " ".join(words)
        script.call(line + " ", "error", "a trailing space")
        script.call(" " + line, "error", "a leading space")
        script.call(line + "\r", "error", "a carriage return")
        script.call(line + " 0", "error", "too many words")
        script.call(line + " #", "error", "a comment has its own line")
        if len(words) > 1:
            script.call(" ".join(words[:-1]), "error", "too few words")
            script.call(line.replace(" ", "  ", 1), "error", "a double space")
            script.call(line.replace(" ", "\t", 1), "error", "a tab")
    for word, places in NUMBERS.items():
        for at in places:
            for bad in (f"{2**64}", "-1", "+1", "-", "0x1", "1a", "1.", f"{2**64:043}"):
                script.call(changed(GOOD[word], at, bad), "error", "no number of 64 bits")
    for word, places in HEX.items():
        for at in places:
            for bad in ("0", "0g", "g0", "0x00", "--", "00-", "é"):
                script.call(changed(GOOD[word], at, bad), "error", "no hex")
    for word, places in FIXED.items():
        for at in places:
            good = GOOD[word][at]
            for bad in ("-", good[:-2], good + "00"):
                script.call(changed(GOOD[word], at, bad), "error", "a byte string of the wrong length")
    for groups in ("00", "0000", "000000", "0000000000"):
        script.call(changed(GOOD["router"], 10, groups), "error", "groups are a multiple of 4 bytes")
    script.call("beacon 0 65536", "error", "SERIAL has 16 bits")
    for index in ("8", "9", "64", "256", "18446744073709551615"):
        for word in ("node", "hear", "success", "failure", "leave", "left", "state"):
            script.call(changed(GOOD[word], 1, index), "error", "nodes are 0 to 7")
    for room in ("4097", "65536", "4294967296", "18446744073709551615"):
        script.call(f"room {room}", "error", "4,096 is the most")
    script.shows("state 0", "0 - - -")
    script.shows("taken", "0 0")


def readable(script):
    gauge = Gauge(0)
    open_hall(script, "Leading zeros and both cases of hex are read; hex is printed in lower case", [gauge])
    script.call("beacon 0000000000000000000000000000000000000000005 00000000000000000000065535", 0)
    script.call("beacon 4 0", 7, "the clock was stored")
    script.call("room 00000000000000000000000000", 0, "no room is room")
    script.call("beacon 5 0", 20)
    script.call("room 00004096", 0)
    script.shows("state 00", "0 - - -")
    script.call(gauge.line().replace("node 0 ", "node 0000 "), 0)
    upper = router_line(groups=(0xABCDEF01,)).upper().replace("ROUTER", "router")
    script.call(upper, 0)
    script.call("beacon 18446744073709551615 1", 0, "the last tick")
    script.call_answered(
        "read 08000012020A000000000000ABCD0D0400fF", "0 8 0 2=000000000000abcd 13=00ff", "mixed case"
    )
    script.call("close 18446744073709551615 " + "AB" * 6, 21)


def setups_again(script):
    gauge = Gauge(0)
    open_hall(script, "A second setup that succeeds takes the first one's place, a refused one leaves it", [gauge])
    script.call("beacon 1000 1", 0)
    script.call(router_line(window=0), 18)
    script.call("beacon 999 1", 7, "the refused setup left the clock")
    script.call(router_line(), 0)
    script.call("beacon 999 1", 0, "the new router's clock is 0")
    script.call("leave 0 1000", 21)
    script.call(Gauge(0, security_type=4).line(), 18)
    script.shows("state 0", "1000 - - -")
    script.call(gauge.line(), 0)
    script.shows("state 0", "0 - - -")
    script.note("books of any kind are lent; they show at login")
    for books in ("- -", "00 ff", "00000000 -"):
        script.call_answered(f"books {books}", "0 - -")
        script.call("login 0a000001 -", 19, "a broken book")


def long_lines(script):
    open_hall(script, "Lines of 300,000 bytes are read, longer ones are errors, comment or not")
    longest = "room " + "1500".rjust(LONGEST - 5, "0")
    assert len(longest) == LONGEST
    script.call(longest, 0, "as long as a line may be")
    script.call("room 0" + longest[5:], "error", "a byte too long")
    script.call("beacon 0 0", 0, "the longest line gave room for 1,500 bytes, and the next is read from its start")
    script.call("#" + "x" * LONGEST, "error", "a comment that is too long")
    script.call("room 4096", 0)


def cases(script):
    absent(script)
    nothing_printed(script)
    unreadable(script)
    readable(script)
    setups_again(script)
    long_lines(script)
