"""A model of the store and of the recording program, written from the rules and independent of the code: see in_order(), arrive(), take(),
join() and forget(), which take a store's octets, and Joining, which joins a whole recording."""

from model import FIXED, VARINT, read

CELL = 1024
CELLS_MOST = 4096
CELLS = 32  # of the recording program, unless it is told otherwise
ROOM = 65536  # for a message that it joins
HELD, TAKEN = b"MS", b"MT"
CELL_MOST = 1022
PACKET_MOST = 32768
FIRST, CONTINUATION, LAST, UNSEGMENTED = 1, 0, 2, 3
COUNTERS = 1 << 32
STEPS_MOST = 4095
ENDED, UNMARKED, TORN = "the recording ends there", "no mark there", "a torn packet there"


class Refused(Exception):
    """A call stops here, with this number and what it tells."""

    def __init__(self, number, off=0, began=0):
        super().__init__(number)
        self.told = {"refusal": number, "off": off, "began": began}


# What stands in a cell: nothing (None), a segment, or the record of a message that was taken.


class Segment:
    """A segment: what it has of its packet, with what reading answered of that."""

    def __init__(self, a, packet):
        at = a["body"]["place"]
        counter_at = 27 + a["has_source"] + a["has_destination"]
        self.key = packet[:2] + packet[6:counter_at] + packet[counter_at + 4 : at]
        self.counter, self.flags, self.body, self.packet = a["counter"], a["flags"], packet[at:], packet

    def octets(self):
        return (HELD + self.packet).ljust(CELL, b"\0")


class Record:
    """A message that was taken: its key, and the counters of its first and its last segment."""

    def __init__(self, key, first, last):
        self.key, self.first, self.last = key, first, last

    def has(self, segment):
        """Whether a segment is of this message: of its key, with a counter from the first to the last, round the end too."""
        return self.key == segment.key and steps(self.first, segment.counter) <= steps(self.first, self.last)

    def octets(self):
        return (TAKEN + self.key + big(self.first) + big(self.last)).ljust(CELL, b"\0")


def big(counter):
    return counter.to_bytes(4, "big")


def steps(first, last):
    """How many counters one goes from one to another, forward."""
    return (last - first) % COUNTERS


def held(t, profile, row):
    """The segment of a cell after its mark; 16 if there is none."""
    size = 7 + int.from_bytes(row[6:8], "big")
    packet = row[2 : 2 + size]
    if size > CELL_MOST or any(row[2 + size :]):
        raise Refused(16)
    a = read(t, packet, profile)
    if a["refusal"] or a["flags"] == UNSEGMENTED:
        raise Refused(16)
    return Segment(a, packet)


def record(t, profile, row):
    """The record of a cell after its mark; 16 if there is none. Its header is read as that of a first segment, with a counter put in and all
    that follows in the cell for a body."""
    header = row[4:]
    at = 21 + (header[20] >> 7) + (header[20] >> 6 & 1)
    data = header[:at] + bytes(4) + header[at:]
    a = read(t, row[2:4] + b"\x40\0" + (len(data) - 1).to_bytes(2, "big") + data, profile)
    if a["refusal"]:
        raise Refused(16)
    end = 4 + a["H"]
    first, last = (int.from_bytes(row[place : place + 4], "big") for place in (end, end + 4))
    if not 1 <= steps(first, last) <= STEPS_MOST or any(row[end + 8 :]):
        raise Refused(16)
    return Record(row[2:end], first, last)


def cell(t, profile, row):
    """What stands in a cell; 16 if it is neither free nor held nor the record of a message."""
    if row[:2] == HELD:
        return held(t, profile, row)
    if row[:2] == TAKEN:
        return record(t, profile, row)
    if any(row):
        raise Refused(16)
    return None


class Store:
    """The cells of a store."""

    def __init__(self, cells):
        self.cells = cells

    def segments(self):
        return [one for one in self.cells if isinstance(one, Segment)]

    def records(self):
        return [one for one in self.cells if isinstance(one, Record)]

    def find(self, key, counter):
        for one in self.segments():
            if (one.key, one.counter) == (key, counter):
                return one
        return None

    def is_taken(self, segment):
        return any(one.has(segment) for one in self.records())

    def arrive(self, size, segment):
        """What a segment in a packet of some octets comes to; a new one goes to the lowest free cell."""
        if self.is_taken(segment):
            return "taken"
        if size > CELL_MOST:
            raise Refused(17)
        same = self.find(segment.key, segment.counter)
        if same is not None:
            if (same.flags, same.body) != (segment.flags, segment.body):
                raise Refused(18)
            return "held"
        if None not in self.cells:
            raise Refused(19)
        self.cells[self.cells.index(None)] = segment
        return "stored"

    def run(self, first):
        """The segments of the message that a first begins, if all are there."""
        run = [first]
        while run[-1].flags != LAST:
            after = self.find(first.key, (run[-1].counter + 1) % COUNTERS)
            if after is None or after.flags == FIRST or len(run) > STEPS_MOST:
                return None
            run.append(after)
        return run

    def complete(self):
        """The segments of the complete message with its first in the lowest cell; 20 if there is none."""
        for one in self.segments():
            run = self.run(one) if one.flags == FIRST else None
            if run:
                return run
        raise Refused(20)

    def take(self, room):
        """That message as it is written, and its segments; 21 if there is no such room. Its first's cell has the record then, its others are
        free."""
        run = self.complete()
        message = run[0].key + b"".join(one.body for one in run)
        if room < len(message):
            raise Refused(21)
        kept = Record(run[0].key, run[0].counter, run[-1].counter)
        self.cells = [kept if one is run[0] else None if one in run else one for one in self.cells]
        return message, run

    def forget(self, number):
        """The cell is free, if it has a record; else 31."""
        if not (0 <= number < len(self.cells) and isinstance(self.cells[number], Record)):
            raise Refused(31)
        self.cells[number] = None

    def lowest_record(self):
        """The number of the lowest cell with a record, if there is one."""
        return next((number for number, one in enumerate(self.cells) if isinstance(one, Record)), None)

    def octets(self):
        return b"".join(one.octets() if one else bytes(CELL) for one in self.cells)


# The calls, over octets. Each answers what the cases tell of it, and the lent buffers after it.


def opened(t, octets, profile):
    """The store of some octets: 15, or 16 if it is not in order."""
    if not 1 <= t <= 16 or profile not in (VARINT, FIXED):
        raise Refused(15)
    if len(octets) % CELL or not 1 <= len(octets) // CELL <= CELLS_MOST:
        raise Refused(16)
    store = Store([cell(t, profile, octets[at : at + CELL]) for at in range(0, len(octets), CELL)])
    there = [(one.key, one.counter) for one in store.segments()]
    if len(there) > len(set(there)) or any(map(store.is_taken, store.segments())):
        raise Refused(16)
    return store


def arrived(t, store, packet, profile):
    """What a packet comes to at a store in order, and what reading answers of it."""
    a = read(t, packet, profile)
    if a["refusal"]:
        raise Refused(a["refusal"], a["off"], a["began"])
    return "whole" if a["flags"] == UNSEGMENTED else store.arrive(len(packet), Segment(a, packet)), a


def in_order(t, octets, profile=VARINT):
    try:
        store = opened(t, octets, profile)
    except Refused as refused:
        return {"refusal": refused.told["refusal"], "cells": 0, "held": 0, "taken": 0}
    return {"refusal": 0, "cells": len(store.cells), "held": len(store.segments()), "taken": len(store.records())}


def arrive(t, octets, packet, profile=VARINT):
    try:
        store = opened(t, octets, profile)
        kind, _ = arrived(t, store, packet, profile)
    except Refused as refused:
        return refused.told | {"kind": ""}, octets
    return {"refusal": 0, "kind": kind, "off": 0, "began": 0}, store.octets()


def taken(run, message):
    """H, B and c of a message that was taken."""
    h = len(run[0].key) - 2
    return {"refusal": 0, "H": h, "B": len(message) - 2 - h, "c": run[0].counter}


def take(t, octets, out, profile=VARINT):
    try:
        store = opened(t, octets, profile)
        message, run = store.take(len(out))
    except Refused as refused:
        return {"refusal": refused.told["refusal"], "H": 0, "B": 0, "c": 0}, octets, out
    return taken(run, message), store.octets(), message + out[len(message) :]


def join(t, octets, packet, out, profile=VARINT):
    nothing = {"which": "", "place": 0, "length": 0, "H": 0, "B": 0, "c": 0}
    try:
        store = opened(t, octets, profile)
        kind, a = arrived(t, store, packet, profile)
    except Refused as refused:
        return nothing | refused.told, octets, out
    if kind == "whole":
        return nothing | {"refusal": 0, "which": "packet", "off": 0, "began": 0} | a["body"], octets, out
    try:
        message, run = store.take(len(out))
    except Refused as refused:
        return nothing | refused.told, store.octets(), out
    told = taken(run, message)
    place = {"which": "joined", "place": 2 + told["H"], "length": told["B"], "off": 0, "began": 0}
    return told | place, store.octets(), message + out[len(message) :]


def forget(t, octets, number, profile=VARINT):
    try:
        store = opened(t, octets, profile)
        store.forget(number)
    except Refused as refused:
        return {"refusal": refused.told["refusal"]}, octets
    return {"refusal": 0}, store.octets()


# Joining a recording.


class Joining:
    """The recording program (SPEC G-1 to G-7, G-19, G-20) over a whole recording: what it writes, and what it counts."""

    def __init__(self, stream, t=8, profile=VARINT, cells=CELLS):
        self.t, self.profile = t, profile
        self.store = Store([None] * cells)
        self.output = bytearray()
        self.seen = self.whole = self.joined = self.kept = self.late = self.forgot = self.passed = 0
        self.refused, self.began = {}, {}
        self.place = 0
        while self.step(stream[self.place :]):
            pass
        left = self.store.segments()
        self.segments, self.keys = len(left), len({one.key for one in left})

    def step(self, rest):
        """A mark and a packet, if they follow; where not, why it stops."""
        if rest[:2] != b"MP"[: len(rest)] or not rest:
            self.stop = UNMARKED if rest else ENDED
            return False
        size = 2 + int.from_bytes(rest[6:8], "big") + 7
        if len(rest) < size:
            self.stop = TORN
            return False
        self.packet(rest[2:size])
        self.place += size
        return True

    def packet(self, packet):
        """A packet is passed over as too long, or joined."""
        self.seen += 1
        if len(packet) > PACKET_MOST:
            self.passed += 1
            return
        try:
            kind = self.arrive(packet)
        except Refused as refused:
            self.refuse(**refused.told)
            return
        if kind == "whole":
            self.whole += 1
            self.write(packet[:2] + packet[6:])
            return
        try:
            self.write(self.store.take(ROOM)[0])
            self.joined += 1
        except Refused as refused:
            if refused.told["refusal"] != 20:
                self.refuse(**refused.told)
            elif kind == "taken":
                self.late += 1
            else:
                self.kept += 1

    def arrive(self, packet):
        """What a packet comes to. For want of a free cell the record in the lowest cell is forgotten, and it comes again, while there is one."""
        while True:
            try:
                return arrived(self.t, self.store, packet, self.profile)[0]
            except Refused as refused:
                number = self.store.lowest_record()
                if refused.told["refusal"] != 19 or number is None:
                    raise
                self.store.forget(number)
                self.forgot += 1

    def refuse(self, refusal, off, began):
        self.refused[refusal] = self.refused.get(refusal, 0) + 1
        if refusal == 6:
            self.began[began] = self.began.get(began, 0) + 1

    def most_began(self):
        """Where the unfinished field of most packets refused with 6 began, the lowest of several, and of how many."""
        return min(self.began.items(), key=lambda item: (-item[1], item[0]))

    def write(self, message):
        self.output += b"MM" + len(message).to_bytes(4, "big") + message
