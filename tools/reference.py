#!/usr/bin/env python3
"""The rules of a line, written independently of the product.

Reads a script on standard input and prints what the program prints for it, byte for byte. The classes can also be used
alone: a `Line` of four stores answers the twelve calls, each with a list of fields, or raises `Refused`.
"""

import sys

LAST_TICK = 10**12
WIDEST_SPREAD = 3_600_000
LIVE_LIMIT = 16
OPENED_LIMIT = 1_000_000
POST_LIMIT = 64
CELLS = 4

LARGEST_NUMBER = 2**64 - 1
LARGEST_ANGLE = 360
LINE_BYTES = 80
SCRIPT_BYTES = 65_536
SCRIPT_ITEMS, SCRIPT_ROWS, SCRIPT_SPREAD = 8, 64, 500


class Refused(Exception):
    """A call that was turned down; it has changed nothing."""

    def __init__(self, layer, number, detail):
        super().__init__(layer, number, detail)
        self.fields = ["no", layer, number, detail]


class Store:
    """For each item a row of versions (time, payload) with rising times, and at most one staged payload."""

    def __init__(self, items, rows):
        self.items, self.rows = items, rows
        self.versions = [[] for _ in range(items)]
        self.staged = {}

    def newest(self, item):
        return self.versions[item][-1] if self.versions[item] else None

    def has_row_for(self, item):
        used = sum(map(len, self.versions)) + len(self.staged)
        return item in self.staged or used < self.rows

    def stage(self, item, payload):
        self.staged[item] = payload

    def unstage(self, item):
        del self.staged[item]

    def install(self, item, time):
        newest = self.newest(item)
        assert newest is None or newest[0] < time, "an install is never refused"
        self.versions[item].append((time, self.staged.pop(item)))


class Cohort:
    """What a cell keeps of a transaction that joined it."""

    def __init__(self, start):
        self.state = "Active"
        self.start = start
        self.range = None  # the range voted, while Voted
        self.reads, self.writes = set(), set()


class Cell:
    def __init__(self, number, store, spread):
        self.number, self.store, self.spread = number, store, min(spread, WIDEST_SPREAD)
        self.clock = self.last = 0
        self.cohorts = {}

    def active(self, tx):
        cohort = self.cohorts.get(tx)
        if cohort is None or cohort.state != "Active":
            raise Refused("cell", 5, self.number)
        return cohort

    def join(self, tx):
        if tx in self.cohorts:
            raise Refused("cell", 5, self.number)
        self.cohorts[tx] = Cohort(self.clock)

    def may_use(self, tx, item, writing):
        cohort = self.active(tx)
        if item >= self.store.items:
            raise Refused("cell", 6, item)
        in_the_way = [
            other for other, held in self.cohorts.items()
            if other != tx
            and (item in held.writes or (writing and held.state == "Active" and item in held.reads))
        ]
        if in_the_way:
            raise Refused("cell", 7, min(in_the_way))
        return cohort

    def read(self, tx, item):
        cohort = self.may_use(tx, item, writing=False)
        cohort.reads.add(item)
        if item in cohort.writes:
            return self.store.staged[item]
        newest = self.store.newest(item)
        return None if newest is None else newest[1]

    def write(self, tx, item, payload):
        cohort = self.may_use(tx, item, writing=True)
        if not self.store.has_row_for(item):
            raise Refused("store", 8, item)
        cohort.writes.add(item)
        self.store.stage(item, payload)

    def vote(self, tx):
        """The range of an Active transaction, which is then Voted; or None for a no, and it is Out."""
        cohort = self.cohorts[tx]
        delays = [
            other.range[1] for number, other in self.cohorts.items()
            if number != tx and other.state == "Voted" and other.reads & cohort.writes
        ]
        conflict = 1 + max([self.last] + delays)
        earliest = max(conflict, cohort.start)
        latest = min(self.clock + self.spread, LAST_TICK)
        if earliest > latest:
            self.release(cohort, "Out")
            return None
        cohort.state, cohort.range = "Voted", (earliest, latest)
        return cohort.range

    def release(self, cohort, state):
        for item in cohort.writes & self.store.staged.keys():
            self.store.unstage(item)
        cohort.state, cohort.reads, cohort.writes = state, set(), set()

    def carry_out(self, tx, time):
        """Settles the transaction: committed at a time, or aborted with None. Nothing happens if it is Done."""
        cohort = self.cohorts[tx]
        if cohort.state == "Done":
            return
        if time is not None:
            assert cohort.state == "Voted" and cohort.range[0] <= time <= cohort.range[1]
            for item in sorted(cohort.writes):
                self.store.install(item, time)
            self.last = max(self.last, time)
        self.release(cohort, "Done")


class Transaction:
    """What the coordinator keeps of a live transaction."""

    def __init__(self):
        self.stage = "Open"
        self.time = None  # the commit time, once Decided; None there means abort
        self.joined, self.votes, self.acks = set(), {}, set()

    def fate(self):
        if self.stage != "Decided":
            return [self.stage.lower()]
        return ["abort"] if self.time is None else ["commit", self.time]


class Line:
    def __init__(self, stores, spreads):
        self.cells = [Cell(number, *parts) for number, parts in enumerate(zip(stores, spreads))]
        self.live, self.opened, self.post = {}, 0, []

    def transaction(self, tx):
        if tx not in self.live:
            raise Refused("line", 1, tx)
        return self.live[tx]

    def cell(self, number):
        if number >= CELLS:
            raise Refused("line", 2, number)
        return self.cells[number]

    def at_stage(self, tx, *stages):
        record = self.transaction(tx)
        if record.stage not in stages:
            raise Refused("line", 3, tx)
        return record

    def at_cell(self, tx, cell, *stages):
        """The record and the cell, with causes 1, 2 and 3 in this order."""
        self.transaction(tx)
        found = self.cell(cell)
        return self.at_stage(tx, *stages), found

    def room_for(self, count):
        missing = count - (POST_LIMIT - len(self.post))
        if missing > 0:
            raise Refused("line", 9, missing)

    def send(self, kind, tx, cells, body=None):
        self.post += [(kind, tx, cell, body) for cell in sorted(cells)]

    def message(self, place):
        if place >= len(self.post):
            raise Refused("line", 12, place)
        return self.post[place]

    def decide(self, tx, time):
        record = self.live[tx]
        record.stage, record.time = "Decided", time
        self.send("DECISION", tx, record.joined, time)

    # The twelve calls.

    def open(self):
        if len(self.live) >= LIVE_LIMIT:
            raise Refused("line", 10, LIVE_LIMIT)
        if self.opened >= OPENED_LIMIT:
            raise Refused("line", 11, OPENED_LIMIT)
        self.opened += 1
        self.live[self.opened] = Transaction()
        return [self.opened]

    def join(self, tx, cell):
        record, found = self.at_cell(tx, cell, "Open")
        found.join(tx)
        record.joined.add(cell)
        return []

    def read(self, tx, cell, item):
        _, found = self.at_cell(tx, cell, "Open", "Polling")
        payload = found.read(tx, item)
        return ["absent"] if payload is None else list(payload)

    def write(self, tx, cell, item, payload):
        _, found = self.at_cell(tx, cell, "Open", "Polling")
        found.write(tx, item, payload)
        return []

    def leave(self, tx, cell):
        _, found = self.at_cell(tx, cell, "Open", "Polling", "Decided")
        found.release(found.active(tx), "Out")
        return []

    def submit(self, tx):
        record = self.at_stage(tx, "Open")
        if not record.joined:
            raise Refused("line", 4, tx)
        self.room_for(len(record.joined))
        record.stage = "Polling"
        self.send("PREPARE", tx, record.joined)
        return [len(record.joined)]

    def give_up(self, tx):
        record = self.at_stage(tx, "Open", "Polling")
        self.room_for(len(record.joined))
        self.decide(tx, None)
        if not record.joined:
            del self.live[tx]
        return []

    def resend(self, tx):
        record = self.at_stage(tx, "Polling", "Decided")
        polling = record.stage == "Polling"
        missing = record.joined - (record.votes.keys() if polling else record.acks)
        self.room_for(len(missing))
        if polling:
            self.send("PREPARE", tx, missing)
        else:
            self.send("DECISION", tx, missing, record.time)
        return [len(missing)]

    def deliver(self, place):
        kind, tx, cell, body = self.message(place)
        if tx not in self.live:
            return ["stale"]
        act = {"PREPARE": self.on_prepare, "VOTE": self.on_vote, "DECISION": self.on_decision, "ACK": self.on_ack}
        return act[kind](tx, cell, body)

    def lose(self, place):
        self.message(place)
        del self.post[place]
        return []

    def clock(self, cell, time):
        found = self.cell(cell)
        if time > LAST_TICK:
            raise Refused("line", 13, time)
        found.clock = time
        return []

    def fate(self, tx):
        return self.transaction(tx).fate()

    # Deliveries of a live transaction's messages, by kind.

    def on_prepare(self, tx, cell, _):
        cohort = self.cells[cell].cohorts[tx]
        if cohort.state == "Done":
            return ["stale"]
        self.room_for(1)
        if cohort.state == "Active":
            self.cells[cell].vote(tx)
        vote = cohort.range if cohort.state == "Voted" else None
        self.send("VOTE", tx, [cell], vote)
        return ["out"] if vote is None else ["range", *vote]

    def on_vote(self, tx, cell, vote):
        record = self.live[tx]
        if record.stage == "Decided" or cell in record.votes:
            return ["stale"]
        votes = {**record.votes, cell: vote}
        if vote is not None and len(votes) < len(record.joined):
            record.votes = votes
            return ["noted"]
        self.room_for(len(record.joined))
        record.votes = votes
        self.decide(tx, None if vote is None else tally(votes.values()))
        return record.fate()

    def on_decision(self, tx, cell, time):
        self.room_for(1)
        self.cells[cell].carry_out(tx, time)
        self.send("ACK", tx, [cell])
        return ["done"]

    def on_ack(self, tx, cell, _):
        record = self.live[tx]
        if cell in record.acks:
            return ["stale"]
        record.acks.add(cell)
        if record.acks != record.joined:
            return ["noted"]
        del self.live[tx]
        for joined in record.joined:
            del self.cells[joined].cohorts[tx]
        return ["closed"]


def tally(ranges):
    """The first tick that lies in every range, or None."""
    ranges = list(ranges)
    time = max(earliest for earliest, _ in ranges)
    return time if time <= min(latest for _, latest in ranges) else None


def whole(text, largest):
    """A decimal number without leading zeros, or None."""
    digits = text != b"" and all(byte in b"0123456789" for byte in text)
    if not digits or (text[:1] == b"0" and text != b"0"):
        return None
    return int(text) if int(text) <= largest else None


def degrees(text):
    """A whole angle with a hyphen for minus, or None; -0 is none."""
    if not text.startswith(b"-"):
        return whole(text, LARGEST_ANGLE)
    size = whole(text[1:], LARGEST_ANGLE)
    return -size if size else None


class Script:
    """Answers script lines one after the other."""

    # The call's name, and how many numbers it takes; a write takes a payload besides.
    COMMANDS = {
        b"O": ("open", 0), b"J": ("join", 2), b"R": ("read", 3), b"W": ("write", 3), b"L": ("leave", 2),
        b"S": ("submit", 1), b"G": ("give_up", 1), b"A": ("resend", 1), b"D": ("deliver", 1), b"X": ("lose", 1),
        b"C": ("clock", 2), b"F": ("fate", 1),
    }

    def __init__(self):
        self.kind, self.count = None, 0
        stores = [Store(SCRIPT_ITEMS, SCRIPT_ROWS) for _ in range(CELLS)]
        self.line = Line(stores, [SCRIPT_SPREAD] * CELLS)

    def parse(self, text):
        """The call's name and arguments, or None for a malformed line."""
        words = text.split(b" ")
        if len(text) > LINE_BYTES or self.kind is None or words[0] not in self.COMMANDS:
            return None
        name, count = self.COMMANDS[words[0]]
        numbers = [whole(word, LARGEST_NUMBER) for word in words[1:1 + count]]
        rest = words[1 + count:]
        payload = tuple(degrees(word) if self.kind == b"pose" else whole(word, LARGEST_NUMBER) for word in rest)
        wanted = 0 if name != "write" else 4 if self.kind == b"pose" else 1
        if len(numbers) != count or len(payload) != wanted or None in numbers or None in payload:
            return None
        return name, numbers + ([payload] if wanted else [])

    def answer(self, text):
        """The fields printed for one line, given without its newline."""
        self.count += 1
        if self.kind is None and text in (b"K count", b"K pose"):
            self.kind = text[2:]
            return ["ok"]
        command = self.parse(text)
        if command is None:
            return ["no", "script", 14, self.count]
        name, arguments = command
        try:
            return ["ok", *getattr(self.line, name)(*arguments)]
        except Refused as refusal:
            return refusal.fields


def run(script):
    """What the program prints for a whole script, both as bytes."""
    if len(script) > SCRIPT_BYTES:
        return b"no script 15 %d\n" % SCRIPT_BYTES
    lines = script.split(b"\n")
    if lines[-1] == b"":
        lines.pop()
    session = Script()
    return b"".join(" ".join(map(str, session.answer(line))).encode() + b"\n" for line in lines)


if __name__ == "__main__":
    sys.stdout.buffer.write(run(sys.stdin.buffer.read()))
