#!/usr/bin/env python3
"""cases.py VECTORS_DIR: writes what the crate vectors reads, and what it must print, beside its src/.

VECTORS_DIR holds a file CALL.jsonl for each call, and one folder a change request with files of the calls that it changed: the newest
file of a call counts (LANDED). A case is a line: the call's inputs and, under `expect`, its answer and the lent
buffers after it. The lines that must be printed are made from `expect`, never from the program. The form of a case and of a line
is told in crates/vectors/src/main.rt; a call is added by a row of CALLS.

To the cases of reading those of damaged() are added: figure 14 with each octet changed, cut and lengthened, its length field left or set
right, and packets whose last field is not whole; and those of fixed(), packets of the profile with four octets and of profiles that there
are not. Their answers are those of tests/model.py, which must agree with the file on every case of its own. To the cases of writing and
cutting are added figure 14 written, numbers one above what the type of their field holds, which are refused by 22 and never cut to the
width, and headers with a zone, alone and beside every other fault. To those of the view are added views of no buffer, to those of a
recording outputs just too short and just long enough. Where and why a recording stops is told by stop(), which knows marks and length
fields and nothing else. A run of salvaging is a case for each of its calls; to those of salvaging are added small files with lists of any
length, answered by the model, which must agree with the file too. A case of reading a PDU tells its texts as octets: where they stand follows
from their lengths, and the place beside 6 is that of tests/office.py, which must agree with the file on all else. To the cases of a PDU are
added those of figure 14's, damaged as a packet is, and numbers too wide. To those of the store are added records of taken messages, alone and
beside segments, answered by tests/store.py, which must agree with the files on every case of a store and of a recording.
"""

import itertools
import json
import pathlib
import sys

sys.dont_write_bytecode = True
import model
import office
import store as stores

CRATE = pathlib.Path(__file__).resolve().parent.parent / "crates" / "vectors"
# The change requests that have landed and have cases of their own, in the order in which they landed.
LANDED = ("T-01", "T-04", "T-12", "T-10", "T-09", "T-08", "T-02", "T-06")
MOST_IN_PAIR = 255
FIGURE_14 = bytes.fromhex("18 05 C0 00 00 14 00 00 01 00 02 00 03 01 20 06 00 07 00 00 00 00 00 00 00 09 00")


# Octets in the cases' files: hex, `xx*n` for a run, commas between.


def octets(text):
    """The octets that a text of the cases' files stands for."""
    made = bytearray()
    for piece in text.split(","):
        value, star, times = piece.partition("*")
        made += bytes.fromhex(value) * (int(times) if star else 1)
    return bytes(made)


def runs(s):
    """The octets as runs: an octet and how often it stands there."""
    for octet, group in itertools.groupby(s):
        yield octet, len(list(group))


# What the program reads.


def big(value, width):
    return value.to_bytes(width, "big")


def joined(parts):
    """Parts one after another, behind a table of where each begins and the last ends."""
    places = itertools.accumulate(map(len, parts), initial=4 * (len(parts) + 1))
    return b"".join(big(place, 4) for place in places) + b"".join(parts)


def packed(s):
    """The octets as pairs: how often, and which octet."""
    made = bytearray()
    for octet, times in runs(s):
        made += bytes([MOST_IN_PAIR, octet]) * (times // MOST_IN_PAIR)
        if times % MOST_IN_PAIR:
            made += bytes([times % MOST_IN_PAIR, octet])
    return bytes(made)


def numbered(numbers):
    """Numbers of 8 octets."""
    return b"".join(big(n, 8) for n in numbers)


def case(numbers, parts, store, out):
    """A whole case, behind its length."""
    made = joined([packed(joined([numbered(numbers), *parts])), packed(store), packed(out)])
    return big(len(made), 4) + made


# What the program prints.


def shown(s):
    """Octets as the program prints them."""
    return "".join(f"{octet:02x}" if times == 1 else f"{octet:02x}*{times}," for octet, times in runs(s))


def line(numbers, store=b"", out=b"", seen=""):
    """A line: the answer's numbers, what a view shows, then the lent buffers."""
    return "".join(f"{n} " for n in numbers) + seen + shown(store) + "|" + shown(out) + "\n"


# The calls: how the inputs of a case are given to the program, and which line it must print.


def part(p):
    return [p["place"], p["length"]]


def told(a):
    """What a refusal of reading tells: the octets missing or left over, and where the unfinished field began."""
    return [a["off"], a["began"]]


READ_NUMBERS = (
    "refusal packet_type apid flags seq sdu area service operation area_version error qos session secondary_apid qualifier "
    "transaction has_source has_destination has_priority has_timestamp has_zone has_session_name has_domain has_authentication "
    "source destination counter priority timestamp"
).split()


def read_line(row):
    """The line of an answer of reading; a timestamp is T octets long."""
    a = answer(row)
    numbers = [a[name] for name in READ_NUMBERS] + [row["T"] if a["has_timestamp"] else 0]
    numbers += part(a["zone"]) + part(a["session_name"]) + [a["domain_count"]]
    for p in a["domain"]:
        numbers += part(p)
    return line(numbers + part(a["authentication"]) + [a["H"]] + part(a["body"]) + told(a) + [a["withdrawn"]])


HEADER_NUMBERS = (
    "packet_type apid sdu area service operation area_version error qos session secondary_apid qualifier transaction has_source "
    "has_destination has_priority has_timestamp has_zone has_session_name has_domain has_authentication source destination priority"
).split()

TEXTS = "timestamp zone session_name domain authentication".split()


def sender(numbers):
    """A sender's numbers: sequence count and counter."""
    return [numbers["seq"], numbers["counter"]]


def header(row):
    """The parts of a header to write: its numbers, the sender's, and its texts, the domain's lengths behind the domain."""
    given = row["header"]
    numbers = [numbered(given[name] for name in HEADER_NUMBERS), numbered(sender(row["sender"]) if "sender" in row else [])]
    texts = [octets(given[name]) for name in TEXTS]
    return numbers + texts[:4] + [numbered(given["domain_lengths"])] + texts[4:]


def answer(row):
    return row["expect"]["answer"]


def profile(row):
    """A case that says no profile has Varints."""
    return row.get("profile", model.VARINT)


KINDS = ["", "whole", "stored", "held", "taken"]
TAKEN = "refusal H B c".split()
WHICH = ["", "packet", "joined"]


def join_line(row):
    """The line of an answer of joining."""
    a = answer(row)
    numbers = [a["refusal"], WHICH.index(a["which"])] + part(a) + [a["H"], a["B"], a["c"]] + told(a)
    return line(numbers, octets(row["expect"]["store"]), octets(row["expect"]["out"]))


def view_line(row):
    """The line of a view: the part's length, and the part itself."""
    part_seen = octets(answer(row)["part"])
    return line([len(part_seen)], seen=shown(part_seen) + " ")


STOPS = ["", "ended", "unmarked", "torn"]


def stop(stream):
    """Where a recording stops and why: it ends, no mark follows, or a mark or packet that is not whole."""
    at = 0
    while at < len(stream):
        if stream[at : at + 2] != b"MP"[: len(stream) - at]:
            return at, "unmarked"
        end = at + 2 + 7 + int.from_bytes(stream[at + 6 : at + 8], "big")
        if len(stream) < at + 8 or len(stream) < end:
            return at, "torn"
        at = end
    return at, "ended"


def recording_out(row):
    """The output of a recording: as long as the recording, or what the case says."""
    return bytes([0xA5]) * row.get("out_length", len(octets(row["stream"])))


def recording_line(row):
    """The line of a recording: the refusal, the octets written, where and why it stopped; all of the output."""
    out, refusal = recording_out(row), answer(row)["refusal"]
    if refusal:
        return line([refusal, 0, 0, 0], out=out)
    written = octets(row["expect"]["out"])
    place, why = stop(octets(row["stream"]))
    return line([0, len(written), place, STOPS.index(why)], out=written + out[len(written) :])


ENTRY_KINDS = ["skipped", "kept"]
UNTOUCHED = 77  # what stands in each number of a list before a call


def state(given):
    """Begin and place: a stretch is open from `open` on, if that is not null."""
    return [given["place"] if given["open"] is None else given["open"], given["place"]]


def lent(row):
    """How many numbers the list of a case has: three an entry."""
    return row["numbers"] if "numbers" in row else 3 * row["free"]


def salvage_line(row):
    """The line of an answer of salvaging: its numbers, then all of the list."""
    a = answer(row)
    flat = [n for kind, place, length in a["entries"] for n in (ENTRY_KINDS.index(kind), place, length)]
    flat += [UNTOUCHED] * (lent(row) - len(flat))
    return line([a["refusal"], a["tested"], len(a["entries"]), *state(a["state"]), int(a["done"]), *flat])


PDU_NUMBERS = (
    "sdu area service operation area_version error qos session transaction has_source has_destination has_priority has_timestamp "
    "has_zone has_session_name has_domain has_authentication encoding_id"
).split()
PDU_TEXTS = "source destination timestamp zone session_name authentication".split()


def pdu_values(given):
    """A PDU's header in a case, with its texts as octets."""
    return {name: octets(value) if isinstance(value, str) else value for name, value in given.items()}


def pdu_places(h):
    """Where the texts of a PDU stand, each with its length, by its header's values: the domain's parts too."""
    at, places = 23, {name: [0, 0] for name in PDU_TEXTS} | {"domain": []}
    for name in model.PRESENCE:
        if not h["has_" + name]:
            continue
        if name == "priority":
            at += len(office.varint(h[name]))
        elif name == "domain":
            at += len(office.varint(len(h["domain_lengths"])))
            for length in h["domain_lengths"]:
                at += 1 + len(office.varint(length))
                places[name].append([at, length])
                at += length
        else:
            at += 0 if name == "timestamp" else len(office.varint(len(h[name])))
            places[name] = [at, len(h[name])]
            at += len(h[name])
    return places


def pdu_model(pdu):
    """What tests/office.py says of a PDU, as a case's answer, and beside 6 the place."""
    nothing = {name: 0 for name in [*PDU_NUMBERS, "priority"]} | {name: b"" for name in [*PDU_TEXTS, "domain"]} | {"domain_lengths": []}
    try:
        h, at = office.pdu_read(pdu)
        return {"refusal": 0, "header": h, "variable_length": len(pdu) - 23, "body": {"place": at, "length": len(pdu) - at}, "off": 0}, 0
    except model.Refused as refused:
        a = {"refusal": refused.told["refusal"], "header": nothing, "variable_length": 0, "body": {"place": 0, "length": 0}}
        return a | {"off": refused.told["off"]}, refused.told["began"]


def pdu_read_line(row):
    """The line of an answer of reading a PDU."""
    a, h = answer(row), pdu_values(answer(row)["header"])
    places = pdu_places(h)
    numbers = [a["refusal"], *[h[name] for name in PDU_NUMBERS], *places["source"], *places["destination"], h["priority"]]
    numbers += places["timestamp"] + places["zone"] + places["session_name"] + [len(h["domain_lengths"])]
    numbers += sum(places["domain"] + [[0, 0]] * (model.PARTS - len(places["domain"])), []) + places["authentication"]
    return line(numbers + [a["variable_length"]] + part(a["body"]) + [a["off"], pdu_model(octets(row["pdu"]))[1]])


def pdu_parts(row):
    """The parts of a PDU to write."""
    h = pdu_values(row["header"])
    numbers = numbered([h[name] for name in [*PDU_NUMBERS, "priority"]])
    texts = [h[name] for name in ("source", "timestamp", "zone", "session_name", "domain")]
    return [numbers, *texts, numbered(h["domain_lengths"]), h["authentication"], octets(row["body"]), h["destination"]]


def nothing(row):
    return b""


def given_store(row):
    return octets(row["store"])


def given_out(row):
    return octets(row["out"])


class Call:
    """A call: its tag, the numbers and the parts of a case, the line that it must print, and the buffers that it is lent."""

    def __init__(self, tag, numbers, parts, expected, store=nothing, out=nothing):
        self.tag, self.numbers, self.parts, self.expected, self.store, self.out = tag, numbers, parts, expected, store, out

    def encoded(self, row):
        return case([self.tag, *self.numbers(row)], self.parts(row), self.store(row), self.out(row))


CALLS = {
    "varint_read": Call(
        1,
        lambda row: [row["at"]],
        lambda row: [octets(row["octets"])],
        lambda row: line([answer(row)["refusal"], answer(row)["value"], answer(row)["next"]]),
    ),
    "varint_write": Call(
        2,
        lambda row: [row["value"]],
        lambda row: [],
        lambda row: line([answer(row)["refusal"], answer(row)["length"]], out=octets(row["expect"]["out"])),
        out=given_out,
    ),
    "read": Call(
        3,
        lambda row: [row["T"], profile(row)],
        lambda row: [octets(row["packet"])],
        read_line,
    ),
    "write": Call(
        4,
        lambda row: [row["T"], profile(row), row["flags"], row["seq"], row["counter"]],
        lambda row: header(row) + [octets(row["body"])],
        lambda row: line([answer(row)["refusal"], answer(row)["length"]], out=octets(row["expect"]["out"])),
        out=given_out,
    ),
    "in_order": Call(
        7,
        lambda row: [row["T"], profile(row)],
        lambda row: [],
        lambda row: line([answer(row)["refusal"], 0 if answer(row)["refusal"] else len(given_store(row)) // 1024], given_store(row)),
        store=given_store,
    ),
    "arrive": Call(
        8,
        lambda row: [row["T"], profile(row)],
        lambda row: [octets(row["packet"])],
        lambda row: line(
            [answer(row)["refusal"], KINDS.index(answer(row)["kind"]), *told(answer(row))], octets(row["expect"]["store"])
        ),
        store=given_store,
    ),
    "take": Call(
        9,
        lambda row: [row["T"], profile(row)],
        lambda row: [],
        lambda row: line([answer(row)[name] for name in TAKEN], octets(row["expect"]["store"]), octets(row["expect"]["out"])),
        store=given_store,
        out=given_out,
    ),
    "join": Call(
        10,
        lambda row: [row["T"], profile(row)],
        lambda row: [octets(row["packet"])],
        join_line,
        store=given_store,
        out=given_out,
    ),
    "forget": Call(
        17,
        lambda row: [row["T"], profile(row), row["number"]],
        lambda row: [],
        lambda row: line([answer(row)["refusal"]], octets(row["expect"]["store"])),
        store=given_store,
    ),
    "view": Call(
        11,
        lambda row: [WHICH.index(row["which"]), row["place"], row["length"]],
        lambda row: [octets(row["packet"]), octets(row["joined"])],
        view_line,
    ),
    "program": Call(
        12,
        lambda row: [row.get("T", 8), profile(row)],
        lambda row: [octets(row["stream"])],
        recording_line,
        out=recording_out,
    ),
    "utf8": Call(
        13,
        lambda row: [],
        lambda row: [octets(row["text"])],
        lambda row: line([answer(row)["refusal"]]),
    ),
    "salvage": Call(
        14,
        lambda row: [row["T"], profile(row), *state(row["state"]), row["grant"], lent(row)],
        lambda row: [octets(row["file"])],
        salvage_line,
    ),
    "pdu_read": Call(
        15,
        lambda row: [],
        lambda row: [octets(row["pdu"])],
        pdu_read_line,
    ),
    "pdu_write": Call(
        16,
        lambda row: [],
        pdu_parts,
        lambda row: line([answer(row)[name] for name in ("refusal", "length", "header_length")], out=octets(row["expect"]["out"])),
        out=given_out,
    ),
    "count": Call(
        5,
        lambda row: [row["T"], profile(row), row["P"], row["body_length"]],
        header,
        lambda row: line([answer(row)["refusal"], answer(row)["count"]] + sender(answer(row)["sender"])),
    ),
    "packet": Call(
        6,
        lambda row: [row["T"], profile(row), row["P"], row["i"]],
        lambda row: header(row) + [octets(row["body"])],
        lambda row: line(
            [answer(row)["refusal"], answer(row)["length"]] + sender(answer(row)["sender"]), out=octets(row["expect"]["out"])
        ),
        out=given_out,
    ),
}


# Cases beyond those of the files.


def sized(packet):
    """The packet with its length field set right."""
    return packet[:4] + big(len(packet) - 7, 2) + packet[6:]


ENDS = {0x80: "", 0x40: "", 0x20: "ff7f", 0x10: "0102030405060708", 0x08: "0361", 0x04: "0361", 0x02: "0201016101036162", 0x01: "05616263"}


def unfinished(ends):
    """Figure 14 as it is and as a first, with one more presence flag and what may stand after it, each cut off after every octet from its
    seventh on."""
    for flags, (presence, end) in itertools.product((0xC0, 0x40), ends.items()):
        counter = b"" if flags == 0xC0 else big(7, 4)
        whole = FIGURE_14[:2] + bytes([flags]) + FIGURE_14[3:26] + bytes([presence]) + counter + bytes.fromhex(end)
        for size in range(7, len(whole) + 1):
            yield sized(whole[:size])


def damaged():
    """Figure 14 with each octet changed to every other value, cut and lengthened by one octet and by more; then unfinished()."""
    for at, octet in enumerate(FIGURE_14):
        for other in range(256):
            if other != octet:
                yield FIGURE_14[:at] + bytes([other]) + FIGURE_14[at + 1 :]
    for size in range(len(FIGURE_14)):
        yield FIGURE_14[:size]
    yield FIGURE_14 + b"\x00"
    yield FIGURE_14 + b"\xff"
    for longest in (bytes(65515), bytes(65516), bytes(70000)):
        yield FIGURE_14 + longest
    for size in range(6, 28):
        yield FIGURE_14[:4] + b"\xff\xff" + FIGURE_14[6:size]
    yield FIGURE_14[:4] + b"\xff\xff" + FIGURE_14[6:] + bytes(65516)
    yield from unfinished(ENDS)


FIXED_ENDS = {0x20: "ffffffff", 0x08: "0000000361c3a9", 0x04: "00000000", 0x02: "000000020100000001610100000002c3a9", 0x01: "00000003ff0061"}


def fixed():
    """Packets under the profile of four octets: those of unfinished(); the largest length in each field and the largest count; domains of 16
    and of 17 parts; an authentication id whose length stands at the header's end, and data that ends there."""
    yield from unfinished(FIXED_ENDS)
    front = FIGURE_14[:26]
    for presence, end in ((0x08, ""), (0x04, ""), (0x02, ""), (0x02, "0000000101"), (0x01, "")):
        for length in ("ffffffff", "80000000", "00010000", "000000ff"):
            yield sized(front + bytes([presence]) + bytes.fromhex(end + length) + b"abc")
    for count in (15, 16, 17, 256):
        yield sized(front + b"\x02" + big(count, 4) + bytes.fromhex("0100000000") * 16)
    for zone, rest in itertools.product(range(224, 234), range(8)):
        yield sized(front + b"\x09" + big(zone, 4) + bytes(zone) + big(1, 4)[:rest] + b"xyz"[: max(0, rest - 4)])


UNKNOWN = (2, 3, 255, 256, 1 << 32, 1 << 63, (1 << 64) - 1)


def read_rows():
    """The damaged packets as cases of reading, T 8, with the model's answers."""
    for packet in damaged():
        yield {"call": "read", "T": 8, "packet": packet.hex(), "expect": {"answer": model.read(8, packet)}}


def fixed_rows():
    """Those of the profile with four octets, read under it; the unfinished ones of either profile read under the other."""
    for profile, packets in ((model.FIXED, fixed()), (model.FIXED, unfinished(ENDS)), (model.VARINT, unfinished(FIXED_ENDS))):
        for packet in packets:
            told = {"answer": model.read(8, packet, profile)}
            yield {"T": 8, "profile": profile, "packet": packet.hex(), "expect": told}


def unknown_rows():
    """Each call under profiles that there are not: 15, and nothing has changed."""
    cell, figure = bytes(1024).hex(), FIGURE_14.hex()
    nothing_told = {"refusal": 15, "off": 0, "began": 0, "H": 0, "B": 0, "c": 0, "kind": "", "which": "", "place": 0, "length": 0}
    after = {"answer": nothing_told, "store": cell, "out": OUT_14}
    for profile in UNKNOWN:
        asked = {"T": 8, "profile": profile, "packet": figure, "store": cell, "out": OUT_14, "number": 0}
        yield CALLS["read"], asked | {"expect": {"answer": model.read(8, FIGURE_14, profile)}}
        yield CALLS["write"], write_row({"profile": profile}, 15)
        yield CALLS["write"], write_row({"profile": profile, "apid": 1 << 16}, 15)
        for call in ("count", "packet"):
            yield CALLS[call], cut_row({}, {"seq": 5, "counter": 7}, 32, 15) | {"profile": profile}
            yield CALLS[call], cut_row({}, {"seq": 1 << 16, "counter": 7}, 32, 15) | {"profile": profile}
        for call in ("in_order", "arrive", "take", "join", "forget"):
            yield CALLS[call], asked | {"expect": after}
        yield CALLS["program"], {"T": 8, "profile": profile, "stream": "4d50" + figure, "expect": {"answer": {"refusal": 15}}}


def first_pods():
    """A recording of the first pods: timestamps of 6 octets; priority, session name, domain and authentication id; a whole packet, then two
    messages of three segments each, between each other and with repeats."""
    text = big(3, 4) + b"one"
    end = big(1 << 31, 4) + b"123456" + text + big(2, 4) + (b"\x01" + text) * 2 + text
    packets = []
    for tile, at in enumerate((0, 2, 0, 3, 1, 1, 4, 5)):
        flags = 3 if tile == 0 else 1 if at // 2 == 0 else 2 if at // 2 == 2 else 0
        counter = b"" if tile == 0 else big(100 * (at % 2) + at // 2, 4)
        data = FIGURE_14[6:25] + bytes([9 + at % 2, 0x37]) + counter + end + b"body" + bytes([at])
        packets.append(FIGURE_14[:2] + big(flags << 14 | tile, 2) + big(len(data) - 1, 2) + data)
    return b"".join(b"MP" + packet for packet in packets)


def first_pods_rows():
    """That recording under its own settings, under others, and under such as are refused."""
    stream = first_pods()
    for t, profile in ((6, model.FIXED), (8, model.FIXED), (6, model.VARINT), (8, model.VARINT), (0, model.FIXED), (17, model.VARINT)):
        refusal = 0 if 1 <= t <= 16 else 15
        out = b"" if refusal else bytes(stores.Joining(stream, t, profile).output)
        told = {"answer": {"refusal": refusal}, "out": out.hex()}
        yield {"T": t, "profile": profile, "stream": stream.hex(), "expect": told}


HEADER_14 = {name: 0 for name in HEADER_NUMBERS} | {name: "" for name in TEXTS}
HEADER_14 |= {"packet_type": 1, "apid": 5, "area": 1, "service": 2, "operation": 3, "area_version": 1, "qos": 1}
HEADER_14 |= {"secondary_apid": 6, "qualifier": 7, "transaction": 9, "domain_lengths": []}

TOO_WIDE = (
    {name: 1 << 8 for name in "packet_type sdu error qos session".split()}
    | {name: 1 << 16 for name in "apid area_version secondary_apid source destination".split()}
    | {name: 1 << 32 for name in "area service operation qualifier".split()}
    | {name: 2 for name in HEADER_NUMBERS if name.startswith("has_")}
)
OUT_14 = "ff*28"


def write_row(changed, refusal):
    """Figure 14 written into 28 octets, with some values changed."""
    head = HEADER_14 | {name: value for name, value in changed.items() if name in HEADER_14}
    row = {"T": 8, "flags": 3, "seq": 0, "counter": 0, "body": "", "out": OUT_14, "header": head}
    row |= {name: value for name, value in changed.items() if name not in HEADER_14}
    written = FIGURE_14.hex() + "ff" if refusal == 0 else OUT_14
    return row | {"expect": {"answer": {"refusal": refusal, "length": 0 if refusal else 27}, "out": written}}


def wide_write_rows():
    for name, value in (TOO_WIDE | {"flags": 1 << 8, "seq": 1 << 16, "counter": 1 << 32}).items():
        yield write_row({name: value}, 22)
    yield write_row({"apid": 1 << 16, "T": 0}, 15)


def wide_cut_rows():
    """Figure 14's header and a body of 6 octets cut at P 32, with a number too wide; the sender is handed back as given."""
    for name, value in TOO_WIDE.items():
        yield cut_row({name: value}, {"seq": 5, "counter": 7}, 32, 22)
    yield cut_row({}, {"seq": 1 << 16, "counter": 7}, 32, 22)
    yield cut_row({}, {"seq": 5, "counter": 1 << 32}, 32, 22)
    yield cut_row({}, {"seq": 1 << 16, "counter": 7}, 26, 15)


def cut_row(changed, numbers, most, refusal):
    header = HEADER_14 | {name: value for name, value in changed.items() if name in HEADER_14}
    row = {"T": changed.get("T", 8), "P": most, "header": header, "sender": numbers, "body_length": 6, "body": "01*6", "i": 0}
    told = {"refusal": refusal, "count": 0, "length": 0, "sender": numbers}
    return row | {"out": OUT_14, "expect": {"answer": told, "out": OUT_14}}


# Headers with a zone, and what the writer and the cutter refuse them by: 30, unless 15 or 22 comes before it.
ZONE = {"has_zone": 1, "zone": "61"}
ZONES = [({"has_zone": 1, "zone": zone}, 30) for zone in ("", "61", "ff", "c3a9", "61*300", "61*65535")]
ZONES += [({"has_zone": 1, "zone": "61*65536"}, 22), ({"zone": "61"}, 22), ({"zone": "61*65536"}, 22)]
ZONES += [(ZONE | {name: value}, 22) for name, value in TOO_WIDE.items() if name != "has_zone"]
ZONES += [
    (ZONE | changed, refusal)
    for changed, refusal in (
        ({"T": 0}, 15),
        ({"T": 17}, 15),
        ({"apid": 2047}, 22),
        ({"source": 1}, 22),
        ({"session_name": "61"}, 22),
        ({"has_timestamp": 1, "timestamp": "00*7"}, 22),
        ({"has_domain": 1, "domain": "61", "domain_lengths": [2]}, 22),
        ({"domain_lengths": [0]}, 22),
        ({"has_authentication": 1, "authentication": "61*65536"}, 22),
        ({"has_domain": 1, "domain": "61*17", "domain_lengths": [1] * 17}, 30),
        ({"has_session_name": 1, "session_name": "ff"}, 30),
        ({"has_domain": 1, "domain": "c3a9", "domain_lengths": [1, 1]}, 30),
        ({"has_authentication": 1, "authentication": "61*300"}, 30),
    )
]


def withdrawn_rows():
    """A zone to write and to cut: alone, and beside every other fault."""
    own = [({"flags": 4}, 22), ({"seq": 16384}, 22), ({"counter": 1}, 22), ({"body": "01*65536"}, 30), ({"flags": 1}, 30), ({"out": ""}, 30)]
    for changed, refusal in ZONES + [(ZONE | changed, refusal) for changed, refusal in own]:
        row = write_row(changed, refusal)
        yield CALLS["write"], row | {"expect": row["expect"] | {"out": row["out"]}}
    start, last = ({"seq": 5, "counter": counter} for counter in (7, (1 << 32) - 1))
    rows = [cut_row(changed, start, 32, refusal) for changed, refusal in ZONES]
    rows += [cut_row(ZONE, {"seq": 16384, "counter": 7}, 32, 22), cut_row(ZONE, {"seq": 5, "counter": 1 << 32}, 32, 22)]
    rows += [cut_row(ZONE, start, most, refusal) for most, refusal in ((26, 15), (65543, 15), (27, 30), (65542, 30))]
    rows += [cut_row(ZONE, sender, 64, 30) | {"body": "01*38", "body_length": 38} for sender in (start, last)]
    rows += [cut_row(ZONE, start, 34, 30) | {"body": "01*4097", "body_length": 4097}]
    rows += [cut_row(ZONE, start, 64, 30) | {"body": "01*1048577", "body_length": 1048577}, cut_row(ZONE, start, 64, 30) | {"i": 9}]
    for row in rows:
        yield CALLS["count"], row
        yield CALLS["packet"], row


def varint_figures():
    """Figures 1 to 6: four numbers written and read, and two writings that are refused by 10."""
    for number, writing in ((127, "7f"), (128, "8001"), (300, "ac02"), (4294967295, "ffffffff0f")):
        long = len(writing) // 2
        told = {"answer": {"refusal": 0, "length": long}, "out": f"{writing},00*{6 - long}"}
        yield CALLS["varint_write"], {"value": number, "out": "00*6", "expect": told}
        yield CALLS["varint_read"], {"octets": writing, "at": 0, "expect": {"answer": {"refusal": 0, "value": number, "next": long}}}
    for writing in ("8000", "ffffffff1f"):
        yield CALLS["varint_read"], {"octets": writing, "at": 0, "expect": {"answer": {"refusal": 10, "value": 0, "next": 0}}}


def cutting_figures():
    """Figures 7 to 12, and the most segments: figure 14's header, H 21; the count of packets and the sender behind them, its numbers wrapping."""
    for most, body, start, refusal, count in (
        (64, 37, 0, 0, 1),
        (64, 38, 0, 0, 2),
        (64, 99, 0, 0, 3),
        (64, 100, 0, 0, 4),
        (31, 4, 0, 0, 1),
        (31, 5, 0, 24, 0),
        (64, 38, 4294967294, 0, 2),
        (64, 38, 4294967295, 0, 2),
        (32, 4096, 4294967295, 0, 4096),
        (32, 4097, 0, 29, 0),
    ):
        before = after = {"seq": 16383, "counter": start}
        if refusal == 0:
            last = start + count if count > 1 else start
            after = {"seq": (16383 + count) % 16384, "counter": last % (1 << 32)}
        row = {"T": 8, "P": most, "header": HEADER_14, "body_length": body, "body": f"5a*{body}"}
        told = {"refusal": refusal, "count": count, "sender": after}
        yield CALLS["count"], row | {"sender": before, "expect": {"answer": told}}


def view_rows():
    """Views of no buffer: an empty part, whatever place and length are."""
    for place, length in ((0, 0), (0, 1), (1, 0), (1, (1 << 64) - 1)):
        yield {"packet": "01", "joined": "0203", "which": "", "place": place, "length": length, "expect": {"answer": {"part": ""}}}


def segment(flags, count, counter, body):
    """A segment of figure 14's header, as it stands in a packet."""
    data = FIGURE_14[6:] + big(counter, 4) + body
    return FIGURE_14[:2] + big(flags << 14 | count, 2) + big(len(data) - 1, 2) + data


def taking_figure():
    """Figure 13: the message of figure 8, its last segment in the lower cell, is taken into 61 octets and more; into 60 it is not."""
    body = bytes(range(38))
    cells = [b"MS" + segment(2, 1, 8, body[33:]), b"", b"MS" + segment(1, 0, 7, body[:33])]
    store = b"".join(cell.ljust(1024, b"\0") for cell in cells)
    left = bytes(2048) + record(7, 8)
    written = FIGURE_14[:2] + FIGURE_14[6:] + body
    for long in (60, 61, 70):
        out = b"\xff" * long
        told = {"refusal": 21, "H": 0, "B": 0, "c": 0} if long < 61 else {"refusal": 0, "H": 21, "B": 38, "c": 7}
        after = {"store": store, "out": out} if long < 61 else {"store": left, "out": written + out[61:]}
        row = {"T": 8, "store": store.hex(), "out": out.hex()}
        yield CALLS["take"], row | {"expect": {"answer": told} | {name: s.hex() for name, s in after.items()}}


def record(first, last, head=FIGURE_14[6:]):
    """A cell with the record of a message of figure 14's header."""
    return (b"MT" + FIGURE_14[:2] + head + big(first, 4) + big(last, 4)).ljust(1024, b"\0")


def record_stores():
    """Records of figure 14's header: ranges of each length and round the end, beside segments outside and inside them; two records; longer
    headers; and octets changed."""
    top, free = (1 << 32) - 1, bytes(1024)
    for first, last in ((1, 3), (0, 1), (top, 0), (top - 1, 2), (7, 7 + 4095), (top, 4094), (2, 2), (3, 1), (0, 4096), (0, top), (top, 4095)):
        yield record(first, last)
        yield record(first, last) + free
        for counter in (first, last, (first - 1) % (1 << 32), (last + 1) % (1 << 32)):
            yield record(first, last) + (b"MS" + segment(0, 5, counter, b"x")).ljust(1024, b"\0") + free
    yield record(1, 4) + record(2, 9) + free
    yield record(1, 4) + record(1, 4)
    yield record(1, 4, FIGURE_14[6:25] + b"\x0a\0") + (b"MS" + segment(0, 5, 2, b"x")).ljust(1024, b"\0")
    for size in (250, 251, 252, 253, 254):
        yield record(1, 2, FIGURE_14[6:26] + b"\1" + bytes([(size - 23) % 128 + 128, (size - 23) // 128]) + bytes(size - 23)) + free
    for at in (0, 1, 2, 3, 4, 11, 23, 24, 25, 29, 33, 1023):
        for other in (0, 1, 2, 0x53, 0x54, 0x80, 0xFF):
            made = bytearray(record(1, 2))
            made[at] = other
            yield bytes(made) + free


def record_rows():
    """What each call on a store answers of these, by the model."""
    for octets_held in record_stores():
        row = {"T": 8, "store": octets_held.hex()}
        yield CALLS["in_order"], row | {"expect": {"answer": stores.in_order(8, octets_held)}}
        for number in (0, 1, 2, 3, 1 << 32, (1 << 64) - 1):
            told, after = stores.forget(8, octets_held, number)
            yield CALLS["forget"], row | {"number": number, "expect": {"answer": told, "store": after.hex()}}
        for flags, counter, body in ((1, 1, b"x"), (2, 2, b"late"), (0, 0, bytes(5000)), (1, 4, bytes(1000)), (0, (1 << 32) - 1, b"x")):
            packet = segment(flags, 9, counter, body)
            told, after = stores.arrive(8, octets_held, packet)
            yield CALLS["arrive"], row | {"packet": packet.hex(), "expect": {"answer": told, "store": after.hex()}}


def short_rows():
    """Figure 14 behind its mark: an output of one octet less refuses it, one of an octet more is left as it was behind the message."""
    stream, message = b"MP" + FIGURE_14, b"MM" + big(23, 4) + FIGURE_14[:2] + FIGURE_14[6:]
    for long, refusal in ((0, 21), (28, 21), (29, 0), (30, 0)):
        yield {"stream": stream.hex(), "out_length": long, "expect": {"answer": {"refusal": refusal}, "out": message.hex()}}


def run_rows(run):
    """The calls of a run of salvaging, each a case of its own."""
    told, at, listed = answer(run), {"place": 0, "open": None}, 0
    for (grant, free), each in zip(run["calls"], told["each"]):
        entries = told["entries"][listed : listed + each["listed"]]
        row = {"T": run["T"], "profile": profile(run), "file": run["file"], "state": at, "grant": grant, "free": free}
        yield row | {"expect": {"answer": each | {"refusal": 0, "entries": entries}}}
        at, listed = each["state"], listed + each["listed"]


def list_rows():
    """Small files from each state, with each grant and with lists of any length, three numbers an entry or not; T and profile out of range."""
    marked = b"MP" + FIGURE_14
    for file in (b"", b"a", b"MP", b"a" + marked + b"b", marked[:-1] + marked, marked + marked):
        ends = {place for place in (0, 1, 28, 29, 30, len(file), len(file) + 1) if place <= len(file) + 1}
        for place, opened in itertools.product(sorted(ends), (None, 0, 31)):
            for grant, numbers in itertools.product((0, 1, 2, 100), (0, 3, 5, 6, 11)):
                yield model_row(8, model.VARINT, file, {"place": place, "open": opened}, grant, numbers)
    for t in (0, 1, 16, 17, (1 << 64) - 1):
        yield model_row(t, model.VARINT, marked, {"place": 30, "open": None}, 0, 0)
    for profile in UNKNOWN:
        yield model_row(8, profile, marked, {"place": 30, "open": None}, 0, 0)


def model_row(t, profile, file, at, grant, numbers):
    """A case of salvaging with the model's answer."""
    told = model.salvage(t, file, *state(at), grant, numbers // 3, profile)
    told["state"] = {"place": told["place"], "open": told["begin"]}
    return {"T": t, "profile": profile, "file": file.hex(), "state": at, "grant": grant, "numbers": numbers, "expect": {"answer": told}}


def rows(vectors, call):
    """The cases of a call in its newest file."""
    files = [vectors / f"{call}.jsonl", *(vectors / request / f"{call}.jsonl" for request in LANDED)]
    with open([path for path in files if path.is_file()][-1], encoding="ascii") as file:
        for text in file:
            yield json.loads(text)


def check_model(row):
    """The model agrees with the file."""
    got = model.read(row["T"], octets(row["packet"]), profile(row))
    if got != {name: value for name, value in answer(row).items() if name in got}:
        sys.exit(f"cases.py: tests/model.py disagrees on T {row['T']}, packet {row['packet']}")


def check_stores(vectors):
    """The model agrees with the files of the store's calls and of a recording."""
    for row in rows(vectors, "program"):
        if stores.Joining(octets(row["stream"])).output != octets(row["expect"]["out"]):
            sys.exit(f"cases.py: tests/store.py disagrees on the recording {row['stream']}")
    for name, call in (("in_order", stores.in_order), ("arrive", stores.arrive), ("take", stores.take), ("join", stores.join), ("forget", stores.forget)):
        for row in rows(vectors, name):
            given = [octets(row[lent]) for lent in ("store", "packet", "out") if lent in row] + ([row["number"]] if name == "forget" else [])
            got = call(row["T"], *given, profile(row))
            buffers = [octets(row["expect"][lent]) for lent in ("store", "out") if lent in row["expect"]]
            if (got if name != "in_order" else (got,)) != (answer(row), *buffers):
                sys.exit(f"cases.py: tests/store.py disagrees on {name} of {row['store']}")


def check_salvage(row):
    """The model agrees with the file."""
    asked = (row["T"], octets(row["file"]), *state(row["state"]), row["grant"], row["free"], profile(row))
    got, said = model.salvage(*asked), answer(row)
    entries = [list(entry) for entry in got["entries"]]
    told = [got["refusal"], got["tested"], entries, got["begin"], got["place"], got["done"]]
    if told != [said["refusal"], said["tested"], said["entries"], *state(said["state"]), said["done"]]:
        sys.exit(f"cases.py: tests/model.py disagrees on salvaging {row}")


def check_pdu(row):
    """The model agrees with the file."""
    said = answer(row)
    if pdu_model(octets(row["pdu"]))[0] != said | {"header": pdu_values(said["header"])}:
        sys.exit(f"cases.py: tests/office.py disagrees on PDU {row['pdu']}")


def check_pdu_write(row):
    """The model agrees with the file."""
    out = octets(row["out"])
    told, after = pdu_written(pdu_values(row["header"]), octets(row["body"]), out)
    if [answer(row)[name] for name in told] != list(told.values()) or after != octets(row["expect"]["out"]):
        sys.exit(f"cases.py: tests/office.py disagrees on writing the PDU {row['header']}")


def pdu_written(h, body, out):
    """What tests/office.py says of writing a PDU, and the output after it."""
    try:
        length, header_length, after = office.pdu_write(h, body, out)
        return {"refusal": 0, "length": length, "header_length": header_length}, after
    except model.Refused as refused:
        return {"refusal": refused.told["refusal"], "length": 0, "header_length": 0}, out


PDU_14 = bytes.fromhex("20 00 01 00 02 00 03 01 10 00 00 00 00 00 00 00 09 00 05 00 00 00 00")
PDU_ENDS = ENDS | {0x80: "033235357a", 0x40: "0037", 0x10: "010203040506"}


def damaged_pdus():
    """Figure 14's PDU with each octet changed to every other value, cut, and lengthened; with one presence flag and what may stand after it,
    cut off after every octet, the variable length left or set right."""
    for at, octet in enumerate(PDU_14):
        for other in range(256):
            if other != octet:
                yield PDU_14[:at] + bytes([other]) + PDU_14[at + 1 :]
    for size in range(len(PDU_14)):
        yield PDU_14[:size]
    for presence, end in PDU_ENDS.items():
        whole = PDU_14[:17] + bytes([presence, 5]) + bytes(4) + bytes.fromhex(end)
        for size in range(23, len(whole) + 1):
            yield whole[:size]
            yield whole[:19] + big(size - 23, 4) + whole[23:size]


def pdu_read_rows():
    for pdu in damaged_pdus():
        yield {"pdu": pdu.hex(), "expect": {"answer": pdu_model(pdu)[0]}}


PDU_HEADER_14 = {name: 0 for name in [*PDU_NUMBERS, "priority"]} | {name: "" for name in [*PDU_TEXTS, "domain"]} | {"domain_lengths": []}
PDU_HEADER_14 |= {"area": 1, "service": 2, "operation": 3, "area_version": 1, "qos": 1, "transaction": 9, "encoding_id": 5}


def pdu_write_rows():
    """Figure 14's PDU written, and each number of its header at powers of two and the numbers just below them."""
    for name in [*PDU_NUMBERS, "priority"]:
        for value in sorted({(1 << bits) - less for bits in (1, 2, 3, 4, 5, 8, 16, 32, 64) for less in (0, 1)} - {1 << 64}):
            header = PDU_HEADER_14 | {name: value}
            told, after = pdu_written(pdu_values(header), b"tile", b"\xff" * 28)
            yield {"header": header, "body": b"tile".hex(), "out": "ff*28", "expect": {"answer": told, "out": after.hex()}}


def cases(vectors):
    """Every case: what it is counted under, its call and its row."""
    for name, call in CALLS.items():
        for row in rows(vectors, name):
            yield name, call, row
    for call, row in itertools.chain(varint_figures(), cutting_figures(), taking_figure()):
        yield "figures 1 to 13", call, row
    for row in read_rows():
        yield "figure 14 damaged", CALLS["read"], row
    for row in fixed_rows():
        yield "four octets", CALLS["read"], row
    for call, row in unknown_rows():
        yield "unknown profiles", call, row
    for row in first_pods_rows():
        yield "a recording of the first pods", CALLS["program"], row
    yield "figure 14 written", CALLS["write"], write_row({}, 0)
    for row in wide_write_rows():
        yield "numbers too wide", CALLS["write"], row
    for row in wide_cut_rows():
        yield "numbers too wide", CALLS["count"], row
        yield "numbers too wide", CALLS["packet"], row
    for call, row in withdrawn_rows():
        yield "zones to write", call, row
    for row in view_rows():
        yield "views of no buffer", CALLS["view"], row
    for call, row in record_rows():
        yield "records of taken messages", call, row
    for row in short_rows():
        yield "outputs for a recording", CALLS["program"], row
    for run in rows(vectors, "salvage_run"):
        for row in run_rows(run):
            yield "calls of salvage_run", CALLS["salvage"], row
    for row in list_rows():
        yield "lists for salvaging", CALLS["salvage"], row
    for row in pdu_read_rows():
        yield "figure 14's PDU damaged", CALLS["pdu_read"], row
    for row in pdu_write_rows():
        yield "figure 14's PDU written", CALLS["pdu_write"], row


def main(arguments):
    if len(arguments) != 1:
        sys.exit(__doc__)
    vectors = pathlib.Path(arguments[0])
    for row in rows(vectors, "read"):
        check_model(row)
    check_stores(vectors)
    for row in rows(vectors, "salvage"):
        check_salvage(row)
    for row in rows(vectors, "pdu_read"):
        check_pdu(row)
    for row in rows(vectors, "pdu_write"):
        check_pdu_write(row)
    stdin, stdout, counts = bytearray(), [], {}
    for name, call, row in cases(vectors):
        stdin.extend(call.encoded(row))
        stdout.append(call.expected(row))
        counts[name] = counts.get(name, 0) + 1
    (CRATE / "stdin").write_bytes(stdin)
    (CRATE / "stdout").write_text("".join(stdout), encoding="ascii")
    for name, count in counts.items():
        print(f"{name}: {count}")


if __name__ == "__main__":
    main(sys.argv[1:])
