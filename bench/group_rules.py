"""The rules of a group in plain Python, as far as a bench without faults needs them (docs/RUNTIME.md): submissions, Request, Entry, Body,
Order, Status and Accept, windows of 256 entries and purges at 192, and resets of a group at rest. Resilience 0. It is the peer of
`bench/group` and no part of the product."""
from collections import deque

WINDOW, KEPT_BEFORE_PURGE, SENT_AGAIN, BETWEEN_REPORTS, BY_REQUEST = 256, 192, 16, 64, 256


class Member:
    def __init__(self, nodes, me):
        self.nodes, self.me, self.base, self.window = nodes, me, 0, deque()
        self.accepted = self.applied = self.reported = 0
        self.pending, self.bodies, self.last, self.waiting = {}, {}, {}, deque()
        self.heard, self.sequencer = [0] * nodes, 0

    def length(self):
        return self.base + len(self.window)

    def leads(self):
        return self.me == self.sequencer

    def others(self, packet):
        return [(to, packet) for to in range(self.nodes) if to != self.me]

    def submit(self, message):
        self.pending[message[0]] = message
        if self.leads():
            return self.order(message, False) + self.finish()
        if message[2] <= BY_REQUEST:
            return [(self.sequencer, ("Request", self.applied, message))]
        self.bodies[message[0]] = message
        return self.others(("Body", self.applied, message))

    def stable(self):
        return min([self.applied if it == self.me else heard for it, heard in enumerate(self.heard)])

    def purge(self, stable):
        if len(self.window) >= KEPT_BEFORE_PURGE:
            to = min(stable, self.applied)
            while self.base < to:
                self.window.popleft()
                self.base += 1

    def order(self, message, by_name):
        process, call, _ = message
        if call <= self.last.get(process, -1):
            return []
        if len(self.window) == WINDOW:
            if all(it[:2] != message[:2] for it, _ in self.waiting):
                self.waiting.append((message, by_name))
            return []
        self.window.append(message)
        self.last[process] = call
        self.accepted = self.length()
        stable = self.stable()
        if by_name:
            return self.others(("Order", self.length(), process, call, self.accepted, stable))
        return self.others(("Entry", self.length(), self.accepted, stable, message))

    def finish(self):
        sends = []
        if self.leads():
            self.purge(self.stable())
            while self.waiting and len(self.window) < WINDOW:
                sends += self.order(*self.waiting.popleft())
        return sends

    def hears(self, sender, applied):
        if applied >= self.base:
            self.heard[sender] = max(self.heard[sender], applied)

    def accept(self, accepted, stable):
        self.accepted = max(self.accepted, min(accepted, self.length()))
        self.purge(stable)
        return []

    def take_entry(self, number, message, accepted, stable):
        if number == self.length() + 1:
            self.purge(stable)
            if len(self.window) < WINDOW:
                self.window.append(message)
                self.last[message[0]] = max(self.last.get(message[0], -1), message[1])
        return self.accept(accepted, stable)

    def receive(self, sender, packet):
        kind = packet[0]
        if self.leads():
            if kind in ("Request", "Body"):
                self.hears(sender, packet[1])
                return self.order(packet[2], kind == "Body") + self.finish()
            if kind == "Status":
                self.hears(sender, packet[2])
                again = [(sender, ("Accept", self.accepted, self.stable()))]
                return again + self.finish()
            return []
        if kind == "Body":
            kept = self.bodies.get(packet[2][0])
            if kept is None or kept[1] < packet[2][1]:
                self.bodies[packet[2][0]] = packet[2]
            return []
        if kind == "Entry":
            return self.take_entry(packet[1], packet[4], packet[2], packet[3])
        if kind == "Order":
            body = self.bodies.get(packet[2])
            if body is not None and body[1] == packet[3]:
                return self.take_entry(packet[1], body, packet[4], packet[5])
            return []
        if kind == "Accept":
            return self.accept(packet[1], packet[2])
        return []

    def note_applied(self, number):
        for place in range(self.applied, number):
            message = self.window[place - self.base]
            if self.pending.get(message[0], (None, None))[1] == message[1]:
                del self.pending[message[0]]
        self.applied = number
        if not self.leads() and number >= self.reported + BETWEEN_REPORTS:
            self.reported = number
            return [(self.sequencer, ("Status", self.length(), number))]
        return self.finish()


def reset(members, at):
    """A reset with this coordinator, of a group at rest: an invitation, an answer and a Result of each other member."""
    answers = [(it.applied, it.base, list(it.window)) for it in members]
    _, base, kept = answers[0]
    for it in members:
        it.sequencer, it.base, it.window = at, base, deque(kept)
        it.accepted, it.waiting = base + len(kept), deque()
        it.heard = [answer[0] for answer in answers] if it.me == at else [0] * it.nodes
        it.last = {**it.last, **{process: call for process, call, _ in kept}}
    return 3 * (len(members) - 1)


def run(nodes, messages, length, each=0):
    """How many packets arrive, and how many entries each member applies at least, with a reset after so many messages each."""
    members, packets = [Member(nodes, me) for me in range(nodes)], 0
    for call in range(messages):
        at = call % nodes
        posted = deque((at, *it) for it in members[at].submit((at, call, length)))
        turn = [at]
        while True:
            for me in turn:
                if members[me].applied < members[me].accepted:
                    posted.extend((me, *it) for it in members[me].note_applied(members[me].accepted))
            if not posted:
                break
            sender, to, packet = posted.popleft()
            packets += 1
            posted.extend((to, *it) for it in members[to].receive(sender, packet))
            turn = [to]
        if each and call % each == each - 1:
            packets += reset(members, (call // each + 1) % nodes)
    return packets, min(member.applied for member in members)
