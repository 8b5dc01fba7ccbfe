#!/usr/bin/env python3
"""recordings.py [VECTORS_DIR]: runs the programs themselves over many recordings, and compares what they write and say with the model.

First the cases of VECTORS_DIR/program.jsonl, each a whole recording and what it must give (VECTORS_DIR is ../shared/vectors beside this
repository unless it is named; where there is none, they are left out). Then MUTATED recordings made from the samples by a fixed seed:
octets changed, parts cut out, repeated, moved and put into another sample, packets resized and given other transaction ids. The
program must end by itself, in time, write what tests/store.py writes, and count what it counts. Then the salvaging program over
SALVAGED of these, with more torn places, some between longer stretches of noise than its window holds: its list must be the model's,
cover the recording exactly, and its packets must be the kept ones. The programs must have been built (`./orlyukan join`,
`./orlyukan salvage` and `./orlyukan to-office`).
"""

import functools
import multiprocessing
import os
import pathlib
import random
import shutil
import subprocess
import sys
import tempfile

sys.dont_write_bytecode = True
import cases
import model
import store as stores

ROOT = pathlib.Path(__file__).resolve().parent.parent
PROGRAM = ROOT / "target" / "bin" / "join_recording"
SALVAGER = ROOT / "target" / "bin" / "salvage_recording"
CARRIER = ROOT / "target" / "bin" / "carry_messages"
MUTATED = 10000
SALVAGED = 1000
WINDOW = 524288
SEED = 524
SECONDS = 20
AT_ONCE = 50
MOST_SHOWN = 5


def words(program=PROGRAM):
    """The words that run a program: on another processor than x86-64 under the Rattle kit's emulator."""
    machine = os.uname().machine
    if machine == "x86_64":
        return [program]
    kit = os.environ.get("RATTLE_HOME") or pathlib.Path(shutil.which("rt")).resolve().parent.parent
    tools = pathlib.Path(kit) / "on" / machine / "toolchain"
    return [tools / "bin" / "qemu-x86_64", tools / "lib" / "ld-linux-x86-64.so.2", "--library-path", tools / "lib", program]


STOPS = (stores.ENDED, stores.UNMARKED, stores.TORN)


def segment_lines(cells):
    """The line of each held cell: the lowest cell of its key, whose message it is of, and which segment it is."""
    held = [(number, cell) for number, cell in enumerate(cells) if isinstance(cell, stores.Segment)]
    for _, cell in held:
        key = cell.key
        lowest = next(number for number, other in held if other.key == key)
        ids = int.from_bytes(key[:2], "big")
        numbers = (lowest, ids >> 12 & 1, ids & 2047, key[2] & 31, int.from_bytes(key[14:22], "big"), cell.flags, cell.counter)
        yield "segment " + " ".join(map(str, numbers))


def findings(joining):
    """What the program must find in a recording, but for the octets that it read."""
    lines = [f"packets {joining.seen}", f"whole {joining.whole}", f"joined {joining.joined}", f"kept {joining.kept}"]
    lines += [f"long {joining.passed}", f"segments {joining.segments}", f"keys {joining.keys}", f"written {len(joining.output)}"]
    lines += [f"refused {sum(joining.refused.values())}", f"used {joining.place}", f"late {joining.late}", f"forgot {joining.forgot}"]
    lines += [f"refusal {number} {joining.refused[number]}" for number in sorted(joining.refused)]
    lines += ["began {} {}".format(*joining.most_began())] if joining.began else []
    return lines + [*segment_lines(joining.store.cells), f"stop {STOPS.index(joining.stop) + 1}", "done"]


def fault(stream):
    """What is wrong with the program's run over a recording; nothing where all is right."""
    try:
        ran = subprocess.run(words(), input=stream, capture_output=True, timeout=SECONDS, check=False)
    except subprocess.TimeoutExpired:
        return f"it did not end within {SECONDS} s"
    if ran.returncode != 0:
        return f"it ended with status {ran.returncode}"
    joining = stores.Joining(stream)
    if ran.stdout != joining.output:
        return "it wrote something else than the model"
    said = [line for line in ran.stderr.decode("ascii").splitlines() if not line.startswith("read ")]
    if said != findings(joining):
        return f"it found {said} where the model finds {findings(joining)}"
    return None


# Salvaging.

HEADER = "kind,place,length,apid,transaction,flags,counter\n"
FLAGS = {1: "first", 0: "continuation", 2: "last", 3: "unsegmented"}


@functools.lru_cache(maxsize=2)
def entries(stream):
    """The model's list of a recording."""
    return model.salvage(8, stream, 0, 0, len(stream), len(stream) + 2)["entries"]


def line(stream, kind, place, length):
    """An entry as the program lists it."""
    if kind == "skipped":
        return f"skipped,{place},{length},,,,\n"
    a = model.read(8, stream[place + 2 : place + length])
    counter = "" if a["flags"] == 3 else a["counter"]
    return f"kept,{place},{length},{a['apid']},{a['transaction']},{FLAGS[a['flags']]},{counter}\n"


def listed(stream):
    """The whole list of a recording, as text."""
    return HEADER + "".join(line(stream, *entry) for entry in entries(stream))


def kept(stream):
    """The kept packets, each after its mark, as a recording."""
    return b"".join(stream[place : place + length] for kind, place, length in entries(stream) if kind == "kept")


def covers(text, stream):
    """Whether the entries of a list stand one after another from the recording's beginning to its end."""
    at = 0
    for row in text.splitlines()[1:]:
        place, length = map(int, row.split(",")[1:3])
        if place != at or length < 1:
            return False
        at += length
    return at == len(stream)


def saved(stream):
    """What the program must find in a recording, but for the octets that it wrote and read."""
    found = entries(stream)
    lines = []
    for kind, count, octets in (("kept", "packets", "kept"), ("skipped", "stretches", "skipped")):
        lengths = [length for one, _, length in found if one == kind]
        lines += [f"{count} {len(lengths)}", f"{octets} {sum(lengths)}"]
    return [*lines, "stop 1", "done"]


def salvage_fault(stream):
    """What is wrong with a salvage of a recording: once for the list, once for the packets."""
    for list_to, packets_to, must in ((1, 0, listed(stream).encode()), (0, 1, kept(stream))):
        given = [*words(SALVAGER), "8", "0", str(list_to), str(packets_to), "0", "-"]
        try:
            ran = subprocess.run(given, input=stream, capture_output=True, timeout=SECONDS, check=False)
        except subprocess.TimeoutExpired:
            return f"it did not end within {SECONDS} s"
        if ran.returncode != 0:
            return f"it ended with status {ran.returncode}"
        if ran.stdout != must:
            return "it listed something else than the model" if list_to else "it wrote other packets than the model keeps"
        if list_to and not covers(ran.stdout.decode("ascii"), stream):
            return "its list does not cover the recording"
        said = [line for line in ran.stderr.decode("ascii").splitlines() if line.split()[0] not in ("listed", "written", "read")]
        if said != saved(stream):
            return f"it found {said} where the model finds {saved(stream)}"
    return None


def noise(pick, size):
    """Octets of any value, with marks among them."""
    return b"MP".join(pick.randbytes(size // 8) for _ in range(8))


def torn(samples):
    """Damaged recordings, with noise put in here and there. Each hundredth is longer than the window, and its noise than a packet."""
    pick = random.Random(SEED)
    for number, stream in enumerate(mutated(samples)):
        if number == SALVAGED:
            return
        for _ in range(pick.randrange(3)):
            at = pick.randrange(len(stream) + 1)
            stream = stream[:at] + noise(pick, pick.choice((8, 80, 800))) + stream[at:]
        if number % 100 == 0:
            stream = b"".join((stream, noise(pick, pick.randrange(3 * WINDOW)), stream, bytes(pick.randrange(WINDOW)), stream))
        yield stream


# Recordings.


def vectors(folder):
    """The whole recordings of the cases, each held to the output that its case gives."""
    for row in cases.rows(folder, "program"):
        stream, out = cases.octets(row["stream"]), cases.octets(row["expect"]["out"])
        if stores.Joining(stream).output != out:
            sys.exit("recordings.py: tests/store.py disagrees with a case of program.jsonl")
        yield stream


def changed(pick, stream, samples):
    """Some octets changed."""
    made = bytearray(stream)
    for _ in range(pick.choice((1, 1, 2, 8, 64))):
        made[pick.randrange(len(made))] = pick.choice((0, 0x4D, 0x50, 0xFF, pick.randrange(256)))
    return bytes(made)


def header_changed(pick, stream, samples):
    """An octet of a header changed: soon behind a mark."""
    marks = [at for at in range(len(stream) - 1) if stream[at : at + 2] == b"MP"]
    if not marks:
        return stream
    at = pick.choice(marks) + 2 + pick.randrange(40)
    return stream[:at] + bytes([pick.randrange(256)]) + stream[at + 1 :]


def cut(pick, stream, samples):
    """The end cut off."""
    return stream[: pick.randrange(len(stream) + 1)]


def without(pick, stream, samples):
    """A part taken out."""
    at = pick.randrange(len(stream))
    return stream[:at] + stream[at + pick.randrange(1, 1200) :]


def repeated(pick, stream, samples):
    """A part twice."""
    at = pick.randrange(len(stream))
    end = at + pick.randrange(1, 2400)
    return stream[:end] + stream[at:end] + stream[end:]


def pieces(stream):
    """The marks and packets of a recording."""
    at = 0
    while at + 8 <= len(stream):
        end = at + 2 + int.from_bytes(stream[at + 6 : at + 8], "big") + 7
        yield stream[at:end]
        at = end


def packets(samples):
    """The marks and packets of all samples."""
    return [piece for sample in samples for piece in pieces(sample)]


def shuffled(pick, stream, samples):
    """The packets of all samples in some order, some of them left out and some repeated."""
    return b"".join(pick.choices(packets(samples), k=pick.randrange(1, 60)))


def renumbered(pick, stream, samples):
    """Many packets, each with one of a few transaction ids, so that cells run out."""
    few = pick.randrange(2, 40)
    made = [piece[:27] + bytes([pick.randrange(few)]) + piece[28:] for piece in pick.choices(packets(samples), k=pick.randrange(40, 200))]
    return b"".join(made)


def resized(piece, long):
    """A mark and a packet cut or lengthened to some octets, with a length field that fits."""
    return piece[:6] + (long - 9).to_bytes(2, "big") + piece[8:long].ljust(long - 8, b"\0")


def inserted(pick, stream, samples):
    """A packet before the others: of another length, with an empty body, around the longest that is joined, or an idle one."""
    piece = pick.choice(packets(samples))
    made = pick.choice(
        (
            resized(piece, pick.randrange(9, 1100)),
            resized(piece, pick.choice((28, 29, 32, 33, 34))),
            resized(piece, 2 + 32768 + pick.randrange(-2, 3)),
            piece[:2] + b"\x1f\xff" + piece[4:],
        )
    )
    return made + stream


def spliced(pick, stream, samples):
    """A part of another sample put in."""
    other = pick.choice(samples)
    at, place = pick.randrange(len(other)), pick.randrange(len(stream))
    return stream[:place] + other[at : at + pick.randrange(1, 3000)] + stream[place:]


KINDS = (changed, header_changed, header_changed, cut, without, repeated, shuffled, renumbered, inserted, inserted, spliced)


def mutated(samples):
    """Recordings made from the samples, each by one to three changes."""
    pick = random.Random(SEED)
    for _ in range(MUTATED):
        stream = pick.choice(samples)
        for _ in range(pick.choice((1, 1, 2, 3))):
            stream = pick.choice(KINDS)(pick, stream, samples) or stream
        yield stream


def tried(judge, stream):
    """A recording, and what is wrong with it."""
    found = judge(stream)
    return (stream if found else b""), found


def run(name, streams, judge=fault):
    """Runs a program over recordings. How many were at fault."""
    count, faults = 0, 0
    with multiprocessing.Pool() as pool:
        for stream, found in pool.imap(functools.partial(tried, judge), streams, AT_ONCE):
            count += 1
            if found:
                faults += 1
                if faults <= MOST_SHOWN:
                    with tempfile.NamedTemporaryFile(prefix="orlyukan.", suffix=".rec", delete=False) as kept:
                        kept.write(stream)
                    print(f"{name} {count}, kept in {kept.name}: {found}")
    print(f"{name}: {count} run, {faults} at fault")
    return faults


def main(arguments):
    if len(arguments) > 1:
        sys.exit(__doc__)
    for program in (PROGRAM, SALVAGER):
        if not os.access(program, os.X_OK):
            sys.exit(f"recordings.py: there is no program {program}")
    folder = pathlib.Path(arguments[0]) if arguments else ROOT.parent / "shared" / "vectors"
    faults = 0
    if arguments or folder.is_dir():
        faults += run("cases of the program", list(vectors(folder)))
    samples = [(ROOT / "samples" / f"{name}.rec").read_bytes() for name in ("clean", "mixed", "torn")]
    faults += run("mutated recordings", mutated(samples))
    faults += run("salvaged recordings", torn(samples), salvage_fault)
    sys.exit(1 if faults else 0)


if __name__ == "__main__":
    main(sys.argv[1:])
