"""Orlyukan for Python: reading, writing, cutting, storing and joining MAL messages in CCSDS Space Packets, salvaging damaged
recordings of them, reading and writing the survey office's PDUs, and carrying messages there and back.

The work is done by the proved library, a shared object: the one that the environment variable ORLYUKAN_LIB names, else the one in
target/native of the repository in which this file stands.

Each call answers an object whose `refusal` is 0, or a number of SPEC's table; then every other number is zero, but a
sender's two, which stay, and what a refusal of reading tells: `off`, beside 5 the octets that are missing and beside 27 those that
are left over, and `began`, beside 6 the place in the secondary header where the unfinished field began. `profile` says how lengths,
counts and priorities are written: 0 as Varints, 1 as four octets each; any other is refused by 15, as a `t` out of range is. `store`
and `out` are bytearrays, changed in place and by success alone (but see `join`). A header is an object or a dict; a sender is one of
`sequence_count` and `counter`. Octets are bytes or a bytearray. Numbers may be of any size: one that is negative or too wide is
refused and never cut off. A call that lends a bytearray must be over before another thread touches it.
"""

import ctypes
import functools
import operator
import os
import pathlib
import types

__all__ = [
    "after_packet",
    "after_segment",
    "arrive",
    "cut_count",
    "cut_packet",
    "forget",
    "in_order",
    "join",
    "join_recording",
    "next_sequence_count",
    "pdu_read",
    "pdu_write",
    "read",
    "salvage",
    "take",
    "to_message",
    "to_pdu",
    "view",
    "write",
]

_MOST = 2**64 - 1
_PARTS = 16
_KINDS = ("", "whole", "stored", "held", "taken")
_WHICH = ("", "packet", "joined")
_STOPS = ("", "ended", "unmarked", "torn")
_ENTRIES = ("skipped", "kept")

# The header's numbers and texts in the order in which C takes them.
_NUMBERS = (
    "packet_type apid sdu area service operation area_version error qos session secondary_apid qualifier transaction has_source"
    " has_destination has_priority has_timestamp has_zone has_session_name has_domain has_authentication source destination priority"
).split()
_READ = (
    "refusal packet_type apid flags sequence_count sdu area service operation area_version error qos session secondary_apid"
    " qualifier transaction has_source has_destination has_priority has_timestamp has_zone has_session_name has_domain"
    " has_authentication source destination counter priority"
).split()
_TEXTS = ("timestamp", "zone", "session_name", "domain")

# Those of a PDU.
_PDU_NUMBERS = (
    "sdu area service operation area_version error qos session transaction has_source has_destination has_priority has_timestamp"
    " has_zone has_session_name has_domain has_authentication encoding_id priority"
).split()
_PDU_TEXTS = ("source", "destination", *_TEXTS)


class Answer(types.SimpleNamespace):
    """What a call answers: plain attributes, also by name in brackets."""

    def __getitem__(self, name):
        return getattr(self, name)


# The shared object.


def _path():
    given = os.environ.get("ORLYUKAN_LIB")
    if given:
        return given
    folder = pathlib.Path(__file__).resolve().parent.parent.parent / "target" / "native"
    for name in ("liborlyukan.so", "libcapi.so"):
        if (folder / name).exists():
            return str(folder / name)
    raise OSError(f"no liborlyukan.so in {folder}: tests/native builds it, or ORLYUKAN_LIB names another")


@functools.lru_cache(maxsize=None)
def _call(name):
    """A call of the library. All of its numbers are 64 bits wide, and its lengths too."""
    call = getattr(_library(), "orl_" + name)
    call.restype = None
    return call


@functools.lru_cache(maxsize=None)
def _library():
    return ctypes.CDLL(_path())


# What is lent.


def _get(of, name):
    return of[name] if isinstance(of, dict) else getattr(of, name)


def _number(value):
    return ctypes.c_uint64(value)


def _fits(value):
    return 0 <= operator.index(value) <= _MOST


def _setting(value):
    """T or P. No number outside 64 bits is in range, and neither is 0, which is given in its place."""
    return _number(value if _fits(value) else 0)


def _settings(t, profile):
    """T and the profile. No profile outside 64 bits is one, and neither is the largest number, which is given in its place."""
    return (_setting(t), _number(profile if _fits(profile) else _MOST))


def _value(value):
    """A number of a field. None outside 64 bits is in range, and neither is the largest, which is given in its place."""
    return ctypes.c_uint64(value if _fits(value) else _MOST).value


def _size(value):
    """A number that has no width of its own: one that is too wide is larger than all that it is compared with."""
    return _number(min(operator.index(value), _MOST))


def _lent(octets):
    """Octets to be read: a pointer and a length."""
    octets = octets if isinstance(octets, bytes) else bytes(memoryview(octets))
    return (ctypes.c_char_p(octets), ctypes.c_size_t(len(octets)))


def _changed(buffer):
    """A bytearray to be changed in place: a pointer and a length."""
    if not isinstance(buffer, bytearray):
        raise TypeError("a store or an output is a bytearray")
    if not buffer:
        return (ctypes.byref(ctypes.c_uint64()), ctypes.c_size_t(0))
    return ((ctypes.c_ubyte * len(buffer)).from_buffer(buffer), ctypes.c_size_t(len(buffer)))


def _apart(store, out):
    if store is out:
        raise ValueError("the store and the output are one bytearray")


def _header(header, others, names=_NUMBERS, texts=_TEXTS):
    """The header as C takes it. If a number of it, or one of the others, is outside 64 bits, the first is out of range in its
    place: the refusal is 22 either way."""
    numbers = [_get(header, name) for name in names]
    lengths = list(_get(header, "domain_lengths"))
    if not all(map(_fits, [*numbers, *lengths, *others])):
        numbers = [_MOST] + [0] * (len(names) - 1)
        lengths = []
    words = [ctypes.byref((ctypes.c_uint64 * len(numbers))(*numbers))]
    for name in texts:
        words += _lent(_get(header, name))
    words += [(ctypes.c_uint64 * max(len(lengths), 1))(*lengths), ctypes.c_size_t(len(lengths))]
    return [*words, *_lent(_get(header, "authentication"))]


def _sender(sender):
    """Sequence count and counter."""
    return [_get(sender, "sequence_count"), _get(sender, "counter")]


def _lent_sender(given):
    """Those two as C takes them. If one is outside 64 bits, the sequence count is out of range in its place: 22 either way."""
    return ctypes.byref((ctypes.c_uint64 * 2)(*(given if all(map(_fits, given)) else [_MOST, 0])))


def _told_sender(refusal, moved, given):
    """The sender that a call answers. On a refusal its numbers stay as they were given, whatever they are."""
    sequence_count, counter = given if refusal else moved
    return Answer(sequence_count=sequence_count, counter=counter)


def _run(name, count, *words):
    """Calls with an answer of so many numbers: those numbers."""
    answer = (ctypes.c_uint64 * count)()
    _call(name)(*words, ctypes.byref(answer))
    return list(answer)


def _places(numbers):
    return [Answer(place=place, length=length) for place, length in zip(numbers[::2], numbers[1::2])]


# The running numbers.


def next_sequence_count(sequence_count):
    """The next sequence count: 0 comes after 16,383, and after any number from there up to 65,535. A larger one is refused by 22."""
    n = _run("next_sequence_count", 2, _number(sequence_count if _fits(sequence_count) else _MOST))
    return Answer(refusal=n[0], sequence_count=n[1])


def _after(name, sender):
    given = _sender(sender)
    n = _run(name, 3, _lent_sender(given))
    return Answer(refusal=n[0], sender=_told_sender(n[0], n[1:], given))


def after_packet(sender):
    """The sender after one unsegmented packet: its sequence count moves on, its counter stays."""
    return _after("after_packet", sender)


def after_segment(sender):
    """The sender after one segment: both numbers move on; 0 follows 4,294,967,295."""
    return _after("after_segment", sender)


# Reading, writing and cutting.


def read(t, packet, *, profile=0):
    """Reads one packet whose timestamp, if it has one, is of t octets: every value of its header, every place, H and the body.
    `withdrawn` is 1 if it has a network zone."""
    n = _run("read", 75, *_settings(t, profile), *_lent(packet))
    timestamp, zone, session_name = _places(n[28:34])
    parts = _places(n[35 : 35 + 2 * _PARTS])
    authentication = _places(n[67:69])[0]
    body = _places(n[70:72])[0]
    return Answer(
        **dict(zip(_READ, n)),
        timestamp=timestamp,
        zone=zone,
        session_name=session_name,
        domain_count=n[34],
        domain=parts,
        authentication=authentication,
        H=n[69],
        body=body,
        off=n[72],
        began=n[73],
        withdrawn=n[74],
    )


def write(t, header, flags, sequence_count, counter, body, out, *, profile=0):
    """Writes one packet over the front of out: the octets it took."""
    own = (flags, sequence_count, counter)
    words = _header(header, own)
    own = [value if _fits(value) else 0 for value in own]
    n = _run("write", 2, *_settings(t, profile), *words, *map(_number, own), *_lent(body), *_changed(out))
    return Answer(refusal=n[0], length=n[1])


def _cut(name, what, settings, p, header, sender, others, words):
    """One of the cutting calls."""
    given = _sender(sender)
    fields = _header(header, [*given, *others])
    n = _run(name, 4, *settings, _setting(p), *fields, *words(_lent_sender(given)))
    return Answer(refusal=n[0], **{what: n[1]}, sender=_told_sender(n[0], n[2:], given))


def cut_count(t, p, header, body_length, sender, *, profile=0):
    """How many packets of at most p octets a message takes, and the sender after it."""
    others = [min(operator.index(body_length), _MOST)]
    words = lambda held: [_size(max(others[0], 0)), held]
    return _cut("cut_count", "count", _settings(t, profile), p, header, sender, others, words)


def cut_packet(t, p, header, body, sender, i, out, *, profile=0):
    """Writes packet number i of a message over the front of out, by the sender's numbers before the message: the octets it took."""
    others = [min(operator.index(i), _MOST)]
    lent, changed = _lent(body), _changed(out)
    words = lambda held: [*lent, held, _size(max(others[0], 0)), *changed]
    return _cut("cut_packet", "length", _settings(t, profile), p, header, sender, others, words)


# The store.


def in_order(t, store, *, profile=0):
    """Whether a store is in order, and how many cells it has: 15 or 16 if it is not."""
    n = _run("in_order", 2, *_settings(t, profile), *_lent(store))
    return Answer(refusal=n[0], cells=n[1])


def arrive(t, store, packet, *, profile=0):
    """Takes a packet into the store: 'whole', 'stored', 'held', or 'taken' for a late repeat, a segment of a message that was taken."""
    n = _run("arrive", 4, *_settings(t, profile), *_changed(store), *_lent(packet))
    return Answer(refusal=n[0], kind=_KINDS[n[1]], off=n[2], began=n[3])


def take(t, store, out, *, profile=0):
    """Takes the complete message with its first in the lowest cell out of the store, into the front of out: the octets of its
    header and its body, and its first segment's counter. A record of it stays in that cell, by which late repeats of its segments are
    known."""
    _apart(store, out)
    n = _run("take", 4, *_settings(t, profile), *_changed(store), *_changed(out))
    return Answer(refusal=n[0], H=n[1], B=n[2], counter=n[3])


def forget(t, store, number, *, profile=0):
    """Forgets the record of a message that was taken, by the number of its cell from 0, which is free then: 31 if the cell has none."""
    n = _run("forget", 1, *_settings(t, profile), *_changed(store), _number(number if _fits(number) else _MOST))
    return Answer(refusal=n[0])


def join(t, store, packet, out, *, profile=0):
    """Arrival, and if the packet did not come whole, taking. Refused by 20 or 21 the store has changed by that arrival."""
    _apart(store, out)
    n = _run("join", 9, *_settings(t, profile), *_changed(store), *_lent(packet), *_changed(out))
    which = _WHICH[n[1]]
    return Answer(refusal=n[0], which=which, place=n[2], length=n[3], H=n[4], B=n[5], counter=n[6], off=n[7], began=n[8])


def view(packet, joined, which, place, length):
    """The octets that joining told of: a part of the packet or of the joined buffer, empty if it does not lie inside."""
    if not _fits(place) or not _fits(length):
        return b""
    number = _number(_WHICH.index(which))
    n = _run("view", 3, *_lent(packet), *_lent(joined), number, _number(place), _number(length))
    buffer = {"packet": packet, "joined": joined}.get(which, b"")
    return bytes(buffer[n[1] : n[1] + n[2]])


# A whole recording.


def join_recording(recording, out, *, t=8, profile=0):
    """Joins a recording into the front of out, which has at least as many octets (else 21), with 32 cells: the octets written, the place in
    the recording where it stopped, and why. 'ended' says that all of it was read; 'unmarked' that other octets than a mark follow;
    'torn' that a mark, or the packet after it, is not whole. If no cell is free, the record of a taken message in the lowest cell is
    forgotten."""
    n = _run("join_recording", 4, *_settings(t, profile), *_lent(recording), *_changed(out))
    return Answer(refusal=n[0], written=n[1], place=n[2], stop=_STOPS[n[3]])


# A damaged recording.


def salvage(t, file, begin, place, grant, free, *, profile=0):
    """Salvages a file from a state on, 0 and 0 at first, with at most grant places tested and free entries listed: the places tested, the
    entries ('kept', a mark and a packet that reads, or 'skipped'), the state for the next call, and whether the whole file is listed. It
    ends too before a place if fewer than two entries are free. However often it stops, the entries of all calls together are the same, and
    they cover the file. Refused by 40 if begin is above place, or place after the file's end."""
    length = len(memoryview(file))
    room = 3 * max(min(operator.index(free), length + 2), 0)  # more entries than octets are never listed
    state = [_number(value if _fits(value) else _MOST) for value in (begin, place)]
    numbers = (ctypes.c_uint64 * max(room, 1))()
    lent = (numbers, ctypes.c_size_t(room))
    n = _run("salvage", 6, *_settings(t, profile), *_lent(file), *state, _size(max(operator.index(grant), 0)), *lent)
    entries = [
        Answer(kind=_ENTRIES[numbers[k]], place=numbers[k + 1], length=numbers[k + 2]) for k in range(0, 3 * n[2], 3)
    ]
    return Answer(refusal=n[0], tested=n[1], entries=entries, begin=n[3], place=n[4], done=n[5] == 1)


# The survey office.


def pdu_read(pdu):
    """Reads one PDU of the MAL TCP/IP binding: every value of its header, every place, the variable length and the body. Source id and
    destination id are texts, told by their places."""
    n = _run("pdu_read", 70, *_lent(pdu))
    source, destination = _places(n[19:23])
    timestamp, zone, session_name = _places(n[24:30])
    return Answer(
        refusal=n[0],
        **dict(zip(_PDU_NUMBERS, n[1:19])),
        source=source,
        destination=destination,
        priority=n[23],
        timestamp=timestamp,
        zone=zone,
        session_name=session_name,
        domain_count=n[30],
        domain=_places(n[31 : 31 + 2 * _PARTS]),
        authentication=_places(n[63:65])[0],
        variable_length=n[65],
        body=_places(n[66:68])[0],
        off=n[68],
        began=n[69],
    )


def pdu_write(header, body, out):
    """Writes one PDU over the front of out: the octets it took, and those before the body."""
    words = _header(header, (), _PDU_NUMBERS, _PDU_TEXTS)
    n = _run("pdu_write", 3, *words, *_lent(body), *_changed(out))
    return Answer(refusal=n[0], length=n[1], header_length=n[2])


def to_pdu(t, message, encoding_id, out, *, profile=0):
    """Carries a message, in the form that taking writes, to the office: one PDU in the front of out, its length, and the octets before the
    body. The body is carried as it is; encoding_id says what it is."""
    n = _run("to_pdu", 4, *_settings(t, profile), *_lent(message), _number(_value(encoding_id)), *_changed(out))
    return Answer(refusal=n[0], length=n[1], header_length=n[2], began=n[3])


def to_message(t, pdu, lent, out, *, profile=0):
    """Carries a PDU back, with packet_type, apid, secondary_apid and qualifier of lent: the message in the front of out, H, B and the
    encoding id."""
    names = ("packet_type", "apid", "secondary_apid", "qualifier")
    route = (ctypes.c_uint64 * 4)(*[_value(_get(lent, name)) for name in names])
    n = _run("to_message", 6, *_settings(t, profile), *_lent(pdu), route, *_changed(out))
    return Answer(refusal=n[0], H=n[1], B=n[2], encoding_id=n[3], off=n[4], began=n[5])
