"""One hall under a random script: its settings, its clocks, and the messages in the air."""

import damage
import wire
from wire import hexed, number

MOST_NODES = 8


class Node:
    """What the script knows of node I."""

    def __init__(self, index, chance, network):
        self.index = index
        self.address = bytes.fromhex("0200000001") + bytes([index])
        self.account = b"g%d" % index if chance.often(90) else chance.text(20)
        self.password = chance.text(6)
        self.security_type = chance.one([2, 2, 3])
        self.network = network
        self.patience = chance.one([1, 3, 10, 50])
        self.clock = chance.below(100)
        self.known = chance.often(92)
        self.session = None


class Flight:
    """A message in the air: the call that takes it, the node it is of, and the key that seals it."""

    def __init__(self, call, node, message, key=None):
        self.call, self.node, self.message, self.key = call, node, message, key


class World:
    def __init__(self, recorder, chance, nodes=None):
        self.recorder, self.chance = recorder, chance
        self.window = chance.one([1, 10, 30, 30, 100, 100, 300, 2**32 - 1])
        self.ticks = chance.one([1, 3, 10])
        self.lifetime = chance.one([1, 2, 5, 30, 30, 60])
        self.network = chance.one([0x0800, 0x0800, 0x86DD, 0])
        self.address = bytes.fromhex("020000000001")
        self.ipv4 = bytes.fromhex("0a000001")
        self.secret = chance.text(6)
        self.position = chance.bytes(12)
        self.clock = chance.one([0, 50, 1000, 2**40, 2**64 - 2000])
        count = nodes or chance.between(1, MOST_NODES)
        self.nodes = [Node(index, chance, self.network) for index in range(count)]
        self.still = False
        self.air = []
        self.anchors = []
        self.sessions = {}
        self.set_up()

    # Setting up

    def set_up(self):
        self.recorder.call("room 4096")
        self.set_up_router()
        for node in self.nodes:
            self.set_up_node(node)
        self.lend()

    def set_up_router(self):
        groups = b"".join(number(self.chance.below(9), 4) for _ in range(self.chance.one([0, 0, 0, 1, 3])))
        words = ["router", self.window, self.ticks, self.lifetime, self.network, hexed(self.address), hexed(self.ipv4)]
        words += [hexed(self.secret), hexed(self.position), self.chance.one([30, 100, 65_535]), hexed(groups)]
        self.sessions = {}
        return self.recorder.call(" ".join(map(str, words)))

    def set_up_node(self, node):
        words = ["node", node.index, self.ticks, node.patience, hexed(node.password), hexed(node.account)]
        words += [node.security_type, node.network, hexed(node.address), hexed(self.address)]
        node.session = None
        return self.recorder.call(" ".join(map(str, words)))

    def books(self):
        """The mill's book and the visitors'; some accounts stand in the second alone, or with another password."""
        mill, visitors = [], []
        for node in self.nodes:
            if node.known:
                (mill if node.index % 3 else visitors).append((node.account, node.password))
        if len(self.nodes) > 1 and self.nodes[1].account not in [name for name, _ in visitors]:
            visitors.append((self.nodes[1].account, b"older"))
        return wire.book([(self.ipv4, self.secret)], mill), wire.book([], visitors)

    def lend(self):
        mill, visitors = self.books()
        self.recorder.call(f"books {hexed(mill)} {hexed(visitors)}")

    # Clocks

    def anchor(self, *ticks):
        """Ticks at which something ends, or ends a tick later."""
        self.anchors = (self.anchors + [at + late for at in ticks for late in (0, 1)])[-40:]

    def pass_time(self):
        """The router's clock goes on: a little, or to where something ends."""
        if self.still:
            return
        ahead = sorted(at for at in self.anchors if at > self.clock)
        if ahead and self.chance.often(6):
            self.clock = ahead[self.chance.below(min(4, len(ahead)))]
        else:
            self.clock += self.chance.one([0, 0, 0, 0, 0, 1, 1, 2])
        self.clock = min(self.clock, 2**64 - 1)

    def pass_node_time(self, node):
        if self.still:
            return
        span = self.lifetime * self.ticks
        passed = self.chance.one([span, span + 1, 5] if self.chance.often(5) else [0, 0, 0, 1])
        node.clock = min(node.clock + passed, 2**64 - 1)

    def back(self, clock):
        """Now and then a clock that steps back, for one call."""
        return max(0, clock - self.chance.between(1, 9)) if self.chance.often(3) and not self.still else clock

    # Calls

    def beacon(self):
        self.pass_time()
        answer = self.recorder.call(f"beacon {self.back(self.clock)} {self.chance.below(65_536)}")
        if answer.message:
            self.anchor(self.clock + self.window)
            self.air += [Flight("hear", node, answer.message) for node in self.nodes if self.chance.often(60)]

    def likely(self, open_ones):
        """A node, most often one of these."""
        return self.chance.one(open_ones if open_ones and self.chance.often(80) else self.nodes)

    def close(self):
        node = self.likely([node for node in self.nodes if node.index in self.sessions])
        answer = self.recorder.call(f"close {self.back(self.clock)} {hexed(node.address)}")
        if answer.message:
            self.air.append(Flight("left", node, answer.message, self.sessions.get(node.index)))

    def leave(self):
        node = self.likely([node for node in self.nodes if node.session])
        answer = self.recorder.call(f"leave {node.index} {self.back(node.clock)}")
        if answer.message:
            self.air.append(Flight("closed", node, answer.message, node.session))

    def look(self):
        kind = self.chance.below(4)
        if kind == 0:
            self.recorder.places()
        elif kind == 1:
            self.recorder.call("taken")
        else:
            self.recorder.call(f"state {self.chance.one(self.nodes).index}")

    def deliver(self):
        """One message of the air arrives: late, out of order, twice, damaged or at another's call."""
        if not self.air:
            return self.beacon()
        self.air = self.air[-30:]
        at = self.chance.below(len(self.air)) if self.chance.often(30) else len(self.air) - 1
        flight = self.air[at] if self.chance.often(12) else self.air.pop(at)
        if self.chance.often(6):
            return None
        if self.chance.often(15):
            flight = self.damaged(flight)
        if self.chance.often(2):
            flight = self.misled(flight)
        return self.arrives(flight)

    def misled(self, flight):
        node = self.chance.one(self.nodes)
        call = self.chance.one(["hear", "request", "login", "reply", "success", "failure", "closed", "left"])
        return Flight(call, node, flight.message, flight.key)

    def arrives(self, flight):
        return getattr(self, "at_" + flight.call)(flight)

    def damaged(self, flight):
        form = self.form(flight)
        message = damage.damaged(self.chance, flight.message, form)
        if self.chance.often(75):
            message = self.sealed_anew(flight, message)
        return Flight(flight.call, flight.node, message, flight.key)

    @staticmethod
    def form(flight):
        return damage.MISAUTH if flight.call in ("login", "reply") else damage.MISP

    def sealed_anew(self, flight, message):
        """The check value or Authenticator that a damaged message would need, where it can still carry one."""
        if len(message) < self.form(flight).size:
            return message
        if flight.call in ("login", "reply"):
            return wire.authenticated(message, self.secret)
        key = flight.node.password if flight.call == "request" else flight.key
        at = wire.check_value_at(message)
        if key is None or at is None or at + 16 > len(message):
            return message
        ends = (flight.node.address, self.address)
        sender, receiver = ends if flight.call in ("request", "closed") else ends[::-1]
        return wire.seal(message, key, sender, receiver)

    def at_hear(self, flight):
        node, seed = flight.node, self.chance.bytes(16)
        self.pass_node_time(node)
        answer = self.recorder.call(f"hear {node.index} {self.back(node.clock)} {hexed(seed)} {hexed(flight.message)}")
        if answer.message:
            stamp = int.from_bytes(answer.message[6:14], "big")
            self.anchor(stamp + node.patience)
            self.air.append(Flight("request", node, answer.message, wire.session_key(node.password, seed)))
        return answer

    def at_request(self, flight):
        self.pass_time()
        node = flight.node
        answer = self.recorder.call(f"request {self.back(self.clock)} {hexed(node.address)} {hexed(flight.message)}")
        if answer.message and answer.to is None:
            self.air.append(Flight("login", node, answer.message, flight.key))
        elif answer.message:
            self.air.append(Flight(self.answered(answer), node, answer.message, self.sessions.get(node.index)))
        return answer

    @staticmethod
    def answered(answer):
        return "success" if answer.message[0] == wire.SUCCESS else "failure"

    def at_login(self, flight):
        answer = self.recorder.call(f"login {hexed(self.ipv4)} {hexed(flight.message)}")
        if answer.message:
            self.air.append(Flight("reply", flight.node, answer.message, flight.key))
        return answer

    def at_reply(self, flight):
        self.pass_time()
        answer = self.recorder.call(f"reply {self.back(self.clock)} {hexed(flight.message)}")
        if answer.message:
            if answer.message[0] == wire.SUCCESS:
                self.sessions[flight.node.index] = flight.key
                self.anchor(self.clock + self.lifetime * self.ticks)
            self.air.append(Flight(self.answered(answer), flight.node, answer.message, flight.key))
        return answer

    def at_success(self, flight):
        answer = self.at_node("success", flight)
        if answer.number == 0:
            flight.node.session = flight.key
        return answer

    def at_failure(self, flight):
        return self.at_node("failure", flight)

    def at_left(self, flight):
        return self.at_node("left", flight)

    def at_node(self, call, flight):
        node = flight.node
        self.pass_node_time(node)
        return self.recorder.call(f"{call} {node.index} {self.back(node.clock)} {hexed(flight.message)}")

    def at_closed(self, flight):
        self.pass_time()
        return self.recorder.call(
            f"closed {self.back(self.clock)} {hexed(flight.node.address)} {hexed(flight.message)}"
        )

    # A whole login without trouble, up to a message that is about to arrive

    def up_to(self, call, node):
        """The flight with which this call would be made next, all before it delivered in order."""
        self.air, self.still = [], True
        flight = Flight("hear", node, self.recorder.call(f"beacon {self.clock} 0").message)
        while flight and flight.call != call:
            self.arrives(flight)
            if flight.call == "success":
                self.air.append(self.ending(call, node, flight.key))
            flight = self.air.pop() if self.air else None
        return flight

    def ending(self, call, node, key):
        """A terminating message, from the node or from the router."""
        line = f"leave {node.index} {node.clock}" if call == "closed" else f"close {self.clock} {hexed(node.address)}"
        return Flight(call, node, self.recorder.call(line).message, key)
