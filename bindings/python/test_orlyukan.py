"""The Python module over the cases with their answers; its names beside those of the C header; damaged recordings beside the model; and
what Python alone can give: numbers of any size, one buffer lent twice."""

import json
import os
import pathlib
import random
import re
import sys
import types
import unittest

sys.dont_write_bytecode = True
ROOT = pathlib.Path(__file__).resolve().parent.parent.parent
sys.path[:0] = [str(pathlib.Path(__file__).resolve().parent), str(ROOT / "tests")]
import model
import office
import orlyukan
import store as stores

VECTORS = pathlib.Path(os.environ.get("ORLYUKAN_VECTORS", ROOT.parent / "shared" / "vectors"))
FIGURE_14 = bytes.fromhex("18 05 C0 00 00 14 00 00 01 00 02 00 03 01 20 06 00 07 00 00 00 00 00 00 00 09 00")
HUGE = (-1, 2**64, 2**64 + 5, -(2**70), 2**200)
# The change requests that have landed and have cases of their own, in the order in which they landed.
LANDED = ("T-01", "T-04", "T-12", "T-10", "T-09", "T-08", "T-02", "T-06", "T-14")
# The cases' names for what the calls name otherwise.
NAMES = {"seq": "sequence_count", "c": "counter"}
PRESENCE = "source destination priority timestamp zone session_name domain authentication".split()


def octets(text):
    """The octets that a text of the cases stands for: hex, `xx*n` for a run, commas between."""
    made = bytearray()
    for piece in text.split(","):
        value, star, times = piece.partition("*")
        made += bytes.fromhex(value) * (int(times) if star else 1)
    return bytes(made)


def renamed(case):
    return {NAMES.get(name, name): value for name, value in case.items()}


def profile(case):
    """The keyword for a case's profile, if it says one."""
    return {"profile": case["profile"]} if "profile" in case else {}


def header(given):
    """A case's header with its texts as octets."""
    texts = ("timestamp", "zone", "session_name", "domain", "authentication")
    return {name: octets(value) if name in texts else value for name, value in given.items()}


def figure_14():
    """The header of figure 14."""
    values = {"packet_type": 1, "apid": 5, "sdu": 0, "area": 1, "service": 2, "operation": 3, "area_version": 1, "error": 0, "qos": 1}
    values |= {"session": 0, "secondary_apid": 6, "qualifier": 7, "transaction": 9, "source": 0, "destination": 0, "priority": 0}
    values |= {"has_" + name: 0 for name in PRESENCE}
    return values | {"timestamp": b"", "zone": b"", "session_name": b"", "domain": b"", "domain_lengths": [], "authentication": b""}


def pdu_values(given):
    """A PDU's header in a case with its texts as octets."""
    return {name: octets(value) if isinstance(value, str) else value for name, value in given.items()}


def plain_pdu():
    """The header of figure 14's PDU."""
    values = {name: 0 for name in orlyukan._PDU_NUMBERS} | {name: b"" for name in (*orlyukan._PDU_TEXTS, "authentication")}
    values |= {"area": 1, "service": 2, "operation": 3, "area_version": 1, "qos": 1, "transaction": 9, "encoding_id": 5}
    return values | {"domain_lengths": []}


def pdu_header(answer, pdu):
    """The values that an answer of reading a PDU tells, texts as octets."""
    text = lambda place: pdu[place.place :][: place.length]
    values = {name: answer[name] for name in orlyukan._PDU_NUMBERS}
    values |= {name: text(answer[name]) for name in (*orlyukan._PDU_TEXTS, "authentication") if name != "domain"}
    parts = answer.domain[: answer.domain_count]
    return values | {"domain": b"".join(map(text, parts)), "domain_lengths": [part.length for part in parts]}


def told(answer):
    """An answer as the cases write it."""
    if isinstance(answer, list):
        return [told(one) for one in answer]
    if isinstance(answer, types.SimpleNamespace):
        return {name: told(value) for name, value in vars(answer).items()}
    return answer


def begin_place(state):
    """A state of the cases as begin and place: a stretch is open from `open` on, if that is not null."""
    return state["place"] if state["open"] is None else state["open"], state["place"]


def entries(answer):
    return [[entry.kind, entry.place, entry.length] for entry in answer.entries]


class Cases(unittest.TestCase):
    """Every case of every call."""

    maxDiff = None

    def each(self, call, run):
        if not VECTORS.is_dir():
            self.skipTest(f"no folder {VECTORS} with cases")
        files = [VECTORS / request / f"{call}.jsonl" for request in LANDED]
        newest = [VECTORS / f"{call}.jsonl", *filter(pathlib.Path.is_file, files)][-1]
        with open(newest, encoding="utf-8") as lines:
            for line in lines:
                case = json.loads(line, object_hook=renamed)
                expect = case["expect"]
                answer, buffers = run(case)
                said = {name: value for name, value in expect["answer"].items() if name in answer}
                self.assertEqual(said["refusal"], answer["refusal"], line)
                self.assertEqual(said, answer, line)
                for name, buffer in buffers.items():
                    self.assertEqual(octets(expect[name]), bytes(buffer), line)

    def test_read(self):
        def run(case):
            answer = told(orlyukan.read(case["T"], octets(case["packet"]), **profile(case)))
            timestamp = answer["timestamp"]
            self.assertEqual(timestamp["length"], answer["has_timestamp"] * case["T"])
            return answer | {"timestamp": timestamp["place"]}, {}

        self.each("read", run)

    def test_once(self):
        """Runs without forgetting: each tile comes out at most once, in the order told. Of a run that does not meet the conditions nothing
        is asked."""

        def run(case):
            if case["expect"]["answer"]["unmet"]:
                return {"refusal": 0}, {}
            store = bytearray(1024 * case["cells"])
            tiles = [(tile["sender"]["counter"], octets(tile["body"])) for tile in case["tiles"]]
            handed = []
            for call, *given in case["events"]:
                out = bytearray(given[-1] if call != "arrive" else 0)
                if call == "arrive":
                    orlyukan.arrive(case["T"], store, octets(given[0]), **profile(case))
                    continue
                if call == "take":
                    answer = orlyukan.take(case["T"], store, out, **profile(case))
                else:
                    answer = orlyukan.join(case["T"], store, octets(given[0]), out, **profile(case))
                if answer.refusal == 0 and answer.B:
                    body = bytes(out[2 + answer.H:2 + answer.H + answer.B])
                    handed += [number for number, tile in enumerate(tiles) if tile == (answer.counter, body)]
            return {"refusal": 0, "out": handed}, {}

        self.each("once", run)

    def test_write(self):
        def run(case):
            out = bytearray(octets(case["out"]))
            values, own = header(case["header"]), (case["flags"], case["sequence_count"], case["counter"])
            return told(orlyukan.write(case["T"], values, *own, octets(case["body"]), out, **profile(case))), {"out": out}

        self.each("write", run)

    def test_count(self):
        def run(case):
            values = types.SimpleNamespace(**header(case["header"]))
            sender = types.SimpleNamespace(**case["sender"])
            return told(orlyukan.cut_count(case["T"], case["P"], values, case["body_length"], sender, **profile(case))), {}

        self.each("count", run)

    def test_packet(self):
        def run(case):
            out, values = bytearray(octets(case["out"])), header(case["header"])
            body = octets(case["body"])
            answer = orlyukan.cut_packet(case["T"], case["P"], values, body, case["sender"], case["i"], out, **profile(case))
            return told(answer), {"out": out}

        self.each("packet", run)

    def test_in_order(self):
        def run(case):
            return {"refusal": orlyukan.in_order(case["T"], octets(case["store"]), **profile(case)).refusal}, {}

        self.each("in_order", run)

    def test_arrive(self):
        def run(case):
            store = bytearray(octets(case["store"]))
            return told(orlyukan.arrive(case["T"], store, octets(case["packet"]), **profile(case))), {"store": store}

        self.each("arrive", run)

    def test_take(self):
        def run(case):
            store, out = bytearray(octets(case["store"])), bytearray(octets(case["out"]))
            return told(orlyukan.take(case["T"], store, out, **profile(case))), {"store": store, "out": out}

        self.each("take", run)

    def test_forget(self):
        def run(case):
            store = bytearray(octets(case["store"]))
            return told(orlyukan.forget(case["T"], store, case["number"], **profile(case))), {"store": store}

        self.each("forget", run)

    def test_join(self):
        def run(case):
            store, out = bytearray(octets(case["store"])), bytearray(octets(case["out"]))
            return told(orlyukan.join(case["T"], store, octets(case["packet"]), out, **profile(case))), {"store": store, "out": out}

        self.each("join", run)

    def test_view(self):
        def run(case):
            buffers = octets(case["packet"]), bytearray(octets(case["joined"]))
            part = orlyukan.view(*buffers, case["which"], case["place"], case["length"])
            self.assertEqual(octets(case["expect"]["answer"]["part"]), part)
            return {"refusal": 0}, {}

        self.each("view", run)

    def test_program(self):
        def run(case):
            recording = octets(case["stream"])
            out = bytearray(len(recording))
            answer = orlyukan.join_recording(recording, out)
            return {"refusal": answer.refusal}, {"out": out[: answer.written]}

        self.each("program", run)

    def test_pdu_read(self):
        def run(case):
            pdu = octets(case["pdu"])
            answer = orlyukan.pdu_read(pdu)
            self.assertEqual(pdu_values(case["expect"]["answer"]["header"]), pdu_header(answer, pdu))
            return {name: told(answer[name]) for name in ("refusal", "variable_length", "body", "off")}, {}

        self.each("pdu_read", run)

    def test_pdu_write(self):
        def run(case):
            out = bytearray(octets(case["out"]))
            return told(orlyukan.pdu_write(pdu_values(case["header"]), octets(case["body"]), out)), {"out": out}

        self.each("pdu_write", run)

    def test_to_pdu(self):
        def run(case):
            out = bytearray(octets(case["out"]))
            answer = orlyukan.to_pdu(case["T"], octets(case["message"]), case["encoding_id"], out, **profile(case))
            return told(answer), {"out": out}

        self.each("to_pdu", run)

    def test_to_message(self):
        def run(case):
            out = bytearray(octets(case["out"]))
            answer = told(orlyukan.to_message(case["T"], octets(case["pdu"]), case["lent"], out, **profile(case)))
            return {name: value for name, value in answer.items() if name != "began"}, {"out": out}

        self.each("to_message", run)

    def test_salvage(self):
        def run(case):
            state = begin_place(case["state"])
            answer = orlyukan.salvage(case["T"], octets(case["file"]), *state, case["grant"], case["free"], **profile(case))
            self.assertEqual((answer.begin, answer.place), begin_place(case["expect"]["answer"]["state"]))
            return {"refusal": answer.refusal, "tested": answer.tested, "entries": entries(answer), "done": answer.done}, {}

        self.each("salvage", run)

    def test_salvage_run(self):
        def run(case):
            file, state, listed, each = octets(case["file"]), (0, 0), [], []
            for grant, free in case["calls"]:
                answer = orlyukan.salvage(case["T"], file, *state, grant, free, **profile(case))
                state = answer.begin, answer.place
                opened = None if answer.begin == answer.place else answer.begin
                part = {"tested": answer.tested, "listed": len(answer.entries), "state": {"place": answer.place, "open": opened}}
                each.append(part | {"done": answer.done})
                listed += entries(answer)
            steps = sum(part["tested"] for part in each)
            return {"refusal": 0, "entries": listed, "steps": steps, "done": each[-1]["done"], "each": each}, {}

        self.each("salvage_run", run)


class Names(unittest.TestCase):
    """The calls of the C header, and the names of what they answer."""

    text = (ROOT / "include" / "orlyukan.h").read_text(encoding="utf-8")

    def fields(self, struct):
        body = re.search(rf"^struct orl_{struct} {{\n(.*?)^}};", self.text, re.MULTILINE | re.DOTALL)[1]
        return re.findall(r"^    [^;/]*?(\w+)(?:\[\d+\])?;", body, re.MULTILINE)

    def test_calls(self):
        calls = re.findall(r"^void orl_(\w+)\(", self.text, re.MULTILINE)
        self.assertEqual(sorted(orlyukan.__all__), sorted(calls))
        self.assertEqual(len(calls), 19)

    def test_answers(self):
        store, out, sender, head = bytearray(1024), bytearray(64), {"sequence_count": 7, "counter": 5}, figure_14()
        answers = {
            "next_sequence_count_answer": orlyukan.next_sequence_count(7),
            "read_answer": orlyukan.read(8, FIGURE_14),
            "write_answer": orlyukan.write(8, head, 3, 0, 0, b"", out),
            "after_answer": orlyukan.after_packet(sender),
            "cut_count_answer": orlyukan.cut_count(8, 64, head, 5, sender),
            "cut_packet_answer": orlyukan.cut_packet(8, 64, head, b"12345", sender, 0, out),
            "arrive_answer": orlyukan.arrive(8, store, FIGURE_14),
            "take_answer": orlyukan.take(8, store, out),
            "forget_answer": orlyukan.forget(8, store, 0),
            "join_answer": orlyukan.join(8, store, FIGURE_14, out),
            "in_order_answer": orlyukan.in_order(8, store),
            "join_recording_answer": orlyukan.join_recording(b"", out),
            "salvage_answer": orlyukan.salvage(8, b"", 0, 0, 0, 0),
            "pdu_read_answer": orlyukan.pdu_read(b""),
            "pdu_write_answer": orlyukan.pdu_write(plain_pdu(), b"", out),
            "to_pdu_answer": orlyukan.to_pdu(8, b"", 0, out),
            "to_message_answer": orlyukan.to_message(8, b"", dict.fromkeys(("packet_type", "apid", "secondary_apid", "qualifier"), 0), out),
        }
        for struct, answer in answers.items():
            self.assertEqual(list(vars(answer)), self.fields(struct), struct)
        self.assertEqual(list(vars(answers["read_answer"].body)), self.fields("place"))
        self.assertEqual(list(vars(answers["after_answer"].sender)), self.fields("sender"))
        self.assertEqual(orlyukan._NUMBERS, self.fields("header"))
        self.assertEqual(orlyukan._PDU_NUMBERS, self.fields("pdu_header"))

    def test_every_field(self):
        """One packet with every field but a zone, each of another value, written and read back, each compared by its name."""
        names = [name for name in self.fields("header") if not name.startswith("has_")]
        values = (1, 291, 17, 4370, 8482, 12594, 65, 0, 3, 2, 837, 20818, 2**63 + 9, 113, 114, 300)
        self.assertEqual(len(names), len(values))
        given = dict(zip(names, values)) | {"has_" + name: 1 for name in PRESENCE} | {"has_zone": 0}
        texts = {"timestamp": b"7octets", "zone": b"", "session_name": b"ses", "authentication": b"authn"}
        parts = [bytes([97 + k]) * (k + 1) for k in range(16)]
        domain = {"domain": b"".join(parts), "domain_lengths": [len(part) for part in parts]}
        out = bytearray(300)
        length = orlyukan.write(7, given | texts | domain, 1, 6699, 2172814212, b"tile", out).length
        answer = orlyukan.read(7, out[:length])
        own = {"refusal": 0, "flags": 1, "sequence_count": 6699, "counter": 2172814212, "domain_count": 16, "H": 211, "withdrawn": 0}
        for name, value in (given | own).items():
            self.assertEqual(answer[name], value, name)
        for name, text in (texts | {"body": b"tile"}).items():
            self.assertEqual(out[answer[name].place :][: answer[name].length], text, name)
        self.assertEqual([out[part.place :][: part.length] for part in answer.domain], parts)


class Office(unittest.TestCase):
    """Carrying to the office and back."""

    message = bytes.fromhex("18 05 00 00 01 00 02 00 03 01 20 06 00 07 00 00 00 00 00 00 00 09 00")
    pdu = bytes.fromhex("20 00 01 00 02 00 03 01 10 00 00 00 00 00 00 00 09 00 05 00 00 00 00")
    lent = {"packet_type": 1, "apid": 5, "secondary_apid": 6, "qualifier": 7}

    def test_figure_14(self):
        """Figure 14 there and back, with a body above what cutting takes."""
        for body in (b"", b"tile", bytes(3 * 2**20)):
            out, back = bytearray(23 + len(body)), bytearray(23 + len(body))
            answer = orlyukan.to_pdu(8, self.message + body, 5, out)
            self.assertEqual((answer.refusal, answer.length, answer.header_length), (0, 23 + len(body), 23))
            self.assertEqual(out, self.pdu[:19] + len(body).to_bytes(4, "big") + body)
            answer = orlyukan.to_message(8, out, self.lent, back)
            self.assertEqual((answer.refusal, answer.H, answer.B, answer.encoding_id), (0, 21, len(body), 5))
            self.assertEqual(back, self.message + body)

    def test_short_and_long(self):
        """PDUs of 0 to 23 octets, and variable lengths up to the largest on a slice that is short."""
        for length in range(23):
            self.assertEqual(orlyukan.to_message(8, self.pdu[:length], self.lent, bytearray(64)).refusal, 1)
        for length in (1, 2**31, 2**32 - 1):
            answer = orlyukan.to_message(8, self.pdu[:19] + length.to_bytes(4, "big"), self.lent, bytearray(64))
            self.assertEqual((answer.refusal, answer.off), (5, length))

    def test_ids(self):
        for text, refusal in ((b"0", 0), (b"255", 0), (b"", 33), (b"007", 33), (b"+1", 33), (b"256", 33), (b"1" * 100, 33), (b"maltcp://a", 33)):
            pdu = self.pdu[:17] + b"\x80\x05" + (len(text) + 1).to_bytes(4, "big") + bytes([len(text)]) + text
            self.assertEqual(orlyukan.to_message(8, pdu, self.lent, bytearray(64)).refusal, refusal, text)

    def damaged(self, chance, octets):
        """A few octets changed, put in or left out, or the end cut off."""
        made = bytearray(octets)
        for _ in range(chance.randint(0, 3)):
            at = chance.randint(0, len(made))
            put = [chance.choice((0, 1, 2, 48, 50, 128, 255))] if chance.random() < 0.7 else []
            made[at : at + chance.randint(0, 1)] = put
        return bytes(made[: chance.choice((len(made), len(made), chance.randint(0, len(made))))])

    def test_against_model(self):
        """Damaged messages and PDUs, the library beside the model; and what crossed comes back."""
        chance, crossed = random.Random(23), 0
        fields = bytes.fromhex("0c fd 0a 01 02 03 04 05 06 02 61 62 02 01 01 63 01 02 64 65 03 01 02 03") + b"tile"
        full = self.message[:-1] + b"\xf7" + fields
        for _ in range(4000):
            message, out = self.damaged(chance, chance.choice((self.message + b"tile", full))), bytearray(chance.choice((0, 40, 90)))
            t, profile, encoding_id = chance.choice((6, 6, 6, 8, 0)), chance.choice((0, 0, 0, 1)), chance.choice((0, 2, 255, 256))
            before = bytes(out)
            answer = orlyukan.to_pdu(t, message, encoding_id, out, profile=profile)
            try:
                length, header_length, after = office.to_pdu(t, message, encoding_id, before, profile)
                said = {"refusal": 0, "length": length, "header_length": header_length, "began": 0}
            except model.Refused as refused:
                said, after = {"refusal": refused.told["refusal"], "length": 0, "header_length": 0, "began": refused.told["began"]}, before
            self.assertEqual((told(answer), bytes(out)), (said, after), message.hex())
            pdu = self.damaged(chance, out[: answer.length]) if chance.random() < 0.5 else bytes(out[: answer.length])
            lent = self.lent
            if answer.refusal == 0 and pdu == out[: answer.length]:
                first, second = message[0] * 256 + message[1], message[10] * 256 + message[11]
                lent = {"packet_type": first >> 12 & 1, "apid": first & 2047, "secondary_apid": second & 2047}
                lent |= {"qualifier": message[12] * 256 + message[13]}
            back = bytearray(len(message) + 9)
            answer = orlyukan.to_message(t, pdu, lent, back, profile=profile)
            try:
                h, b, encoding, after = office.to_message(t, pdu, lent, bytes(len(back)), profile)
                said = {"refusal": 0, "H": h, "B": b, "encoding_id": encoding, "off": 0}
            except model.Refused as refused:
                said = {"refusal": refused.told["refusal"], "H": 0, "B": 0, "encoding_id": 0, "off": refused.told["off"]}
                after = bytes(len(back))
            self.assertEqual(({name: answer[name] for name in said}, bytes(back)), (said, after), pdu.hex())
            if lent is not self.lent and answer.refusal == 0:
                self.assertEqual(back[: len(message)], message)
                crossed += 1
        self.assertGreater(crossed, 100)

    def test_pdu_figure_14(self):
        """Figure 14's PDU read and written, with a body; every place beside the end of the fixed part."""
        for body in (b"", b"tile"):
            pdu, out = self.pdu[:19] + len(body).to_bytes(4, "big") + body, bytearray(b"\xff" * 30)
            answer = orlyukan.pdu_read(pdu)
            self.assertEqual(pdu_header(answer, pdu), plain_pdu())
            self.assertEqual((answer.refusal, answer.variable_length, told(answer.body)), (0, len(body), {"place": 23, "length": len(body)}))
            written = {"refusal": 0, "length": len(pdu), "header_length": 23}
            self.assertEqual(told(orlyukan.pdu_write(plain_pdu(), body, out)), written)
            self.assertEqual(out, pdu + b"\xff" * (30 - len(pdu)))

    def test_pdus_against_model(self):
        """Damaged PDUs read, the library beside the model; what was read is written, octet for octet."""
        chance, kept = random.Random(29), 0
        fields = bytes.fromhex("03 32 35 35 01 37 fd 0a 01 02 03 04 05 06 02 61 62 01 7a 02 01 01 63 01 02 64 65 03 01 02 03") + b"tile"
        full = self.pdu[:8] + b"\xf9" + self.pdu[9:17] + b"\xff\x05" + len(fields).to_bytes(4, "big") + fields
        for _ in range(4000):
            pdu = self.damaged(chance, chance.choice((full, full, self.pdu)))
            if chance.random() < 0.7 and len(pdu) > 23:
                pdu = pdu[:19] + (len(pdu) - 23).to_bytes(4, "big") + pdu[23:]
            answer, out = orlyukan.pdu_read(pdu), bytearray(len(pdu) + 1)
            try:
                said, at = office.pdu_read(pdu)
            except model.Refused as refused:
                told_by = {name: refused.told[name] for name in ("refusal", "off", "began")}
                self.assertEqual({name: answer[name] for name in told_by}, told_by, pdu.hex())
                self.assertFalse(any(pdu_header(answer, pdu).values()) or any(vars(answer.body).values()) or answer.variable_length)
                continue
            self.assertEqual((pdu_header(answer, pdu), told(answer.body)), (said, {"place": at, "length": len(pdu) - at}), pdu.hex())
            self.assertEqual((answer.refusal, answer.variable_length, answer.off, answer.began), (0, len(pdu) - 23, 0, 0))
            written = {"refusal": 0, "length": len(pdu), "header_length": at}
            self.assertEqual(told(orlyukan.pdu_write(said, pdu[at:], out)), written)
            self.assertEqual(out, pdu + b"\0")
            kept += 1
        self.assertGreater(kept, 500)

    def test_pdu_values(self):
        """Each number of a PDU's header one above the type of its field, and of any size: 22, and nothing is written."""
        for name in orlyukan._PDU_NUMBERS:
            for value in (*HUGE, 2**64 - 1, 2**32, 2**16, 2**8, 2):
                out = bytearray(64)
                values = plain_pdu() | {name: value}
                try:
                    if not all(0 <= number < 2**64 for number in values.values() if isinstance(number, int)):
                        raise model.Refused(22)
                    length, header_length, after = office.pdu_write(values, b"tile", bytes(64))
                    said = {"refusal": 0, "length": length, "header_length": header_length}
                except model.Refused as refused:
                    said, after = {"refusal": refused.told["refusal"], "length": 0, "header_length": 0}, bytes(64)
                self.assertEqual((told(orlyukan.pdu_write(values, b"tile", out)), bytes(out)), (said, after), (name, value))

    def test_huge(self):
        for huge in HUGE:
            self.assertEqual(orlyukan.pdu_write(plain_pdu() | {"domain_lengths": [huge]}, b"", bytearray(64)).refusal, 22)
            self.assertEqual(orlyukan.to_pdu(8, self.message, huge, bytearray(64)).refusal, 22)
            for name in self.lent:
                self.assertEqual(orlyukan.to_message(8, self.pdu, self.lent | {name: huge}, bytearray(64)).refusal, 22)


class Numbers(unittest.TestCase):
    """Numbers that no field and no 64 bits can hold are refused and never cut off."""

    sender = {"sequence_count": 7, "counter": 5}

    def test_figure_14(self):
        out = bytearray(b"\xff" * 28)
        self.assertEqual(told(orlyukan.write(8, figure_14(), 3, 0, 0, b"", out)), {"refusal": 0, "length": 27})
        self.assertEqual(bytes(out), FIGURE_14 + b"\xff")
        answer = orlyukan.read(8, bytearray(FIGURE_14))
        self.assertEqual((answer.refusal, answer.apid, answer["transaction"], answer.H, answer.body.place), (0, 5, 9, 21, 27))

    def test_text(self):
        """The session name and each domain part are UTF-8; the authentication id is octets of any value."""
        out = bytearray(64)
        for name in ("session_name", "authentication"):
            for text, refusal in (("\u20ac".encode(), 0), (b"", 0), (b"\xed\xa0\x80", 28), (b"\xff", 28)):
                values = figure_14() | {"has_" + name: 1, name: text}
                refusal = 0 if name == "authentication" else refusal
                self.assertEqual(orlyukan.write(8, values, 3, 0, 0, b"", out).refusal, refusal, (name, text))
                self.assertEqual(orlyukan.cut_count(8, 64, values, 5, self.sender).refusal, refusal, (name, text))
        for lengths, refusal in (([2], 0), ([1, 1], 28), ([0, 2, 0], 0)):
            values = figure_14() | {"has_domain": 1, "domain": b"\xc3\xa9", "domain_lengths": lengths}
            self.assertEqual(orlyukan.write(8, values, 3, 0, 0, b"", out).refusal, refusal, lengths)

    def test_withdrawn(self):
        """A zone is refused by 30, after 15 and 22 and before all else; what has one is read, and told so, stored and taken."""
        for changed, refusal in (
            *(({"zone": zone}, 30) for zone in (b"", b"north", b"\xff", bytes(65535))),
            *(({"zone": bytes(65536)}, 22), ({"zone": b"a", "has_zone": 0}, 22), ({"zone": b"a", "apid": 2047}, 22)),
            ({"zone": b"a", "has_domain": 1, "domain": b"\xff" * 17, "domain_lengths": [1] * 17}, 30),
        ):
            values, out = figure_14() | {"has_zone": 1} | changed, bytearray(64)
            self.assertEqual(told(orlyukan.write(8, values, 3, 0, 0, b"", out)), {"refusal": refusal, "length": 0})
            self.assertEqual(orlyukan.cut_count(8, 64, values, 5, self.sender).refusal, refusal)
            self.assertEqual(orlyukan.cut_packet(8, 64, values, b"12345", self.sender, 0, out).refusal, refusal)
            self.assertEqual(orlyukan.write(0, values, 3, 0, 0, b"", out).refusal, 15)
            self.assertEqual(out, bytes(64))
        header, body = FIGURE_14[6:26] + b"\x08", b"tile"
        store, out = bytearray(2048), bytearray(64)
        for flags, counter, part in ((0x40, 7, body[:3]), (0x80, 8, body[3:])):
            data = header + counter.to_bytes(4, "big") + b"\x05north" + part
            packet = FIGURE_14[:2] + bytes([flags, 0]) + (len(data) - 1).to_bytes(2, "big") + data
            answer = orlyukan.read(8, packet)
            self.assertEqual((answer.refusal, answer.has_zone, answer.withdrawn), (0, 1, 1))
            self.assertEqual(orlyukan.arrive(8, store, packet).kind, "stored")
            self.assertEqual((orlyukan.read(8, packet[:-1]).refusal, orlyukan.read(8, packet[:-1]).withdrawn), (5, 0))
        self.assertEqual(told(orlyukan.take(8, store, out)), {"refusal": 0, "H": 27, "B": 4, "counter": 7})
        self.assertEqual(out[:33], FIGURE_14[:2] + header + b"\x05north" + body)

    def test_next_sequence_count(self):
        for given, refusal, following in ((0, 0, 1), (16382, 0, 16383), (16383, 0, 0), (65535, 0, 0), (65536, 22, 0)):
            answer = orlyukan.next_sequence_count(given)
            self.assertEqual(told(answer), {"refusal": refusal, "sequence_count": following}, given)
        for huge in HUGE:
            self.assertEqual(told(orlyukan.next_sequence_count(huge)), {"refusal": 22, "sequence_count": 0}, huge)

    def test_after(self):
        last = 4294967295
        moves = (
            ((7, 300), (8, 300), (8, 301)),
            ((16383, last), (0, last), (0, 0)),
            ((65535, 0), (0, 0), (0, 1)),
            ((7, last - 1), (8, last - 1), (8, last)),
        )
        for given, packet, segment in moves:
            sender = dict(zip(("sequence_count", "counter"), given))
            for call, moved in ((orlyukan.after_packet, packet), (orlyukan.after_segment, segment)):
                for lent in (sender, types.SimpleNamespace(**sender), orlyukan.Answer(**sender)):
                    expected = dict(zip(("sequence_count", "counter"), moved))
                    self.assertEqual(told(call(lent)), {"refusal": 0, "sender": expected}, given)
        too_wide = [(number, 0) for number in (65536, *HUGE)]
        too_wide += [(7, number) for number in (last + 1, *HUGE)]
        for given in too_wide:
            sender = dict(zip(("sequence_count", "counter"), given))
            for call in (orlyukan.after_packet, orlyukan.after_segment):
                self.assertEqual(told(call(sender)), {"refusal": 22, "sender": sender})

    def test_settings(self):
        for huge in HUGE:
            self.assertEqual(orlyukan.read(huge, FIGURE_14).refusal, 15)
            self.assertEqual(orlyukan.write(huge, figure_14(), 3, 0, 0, b"", bytearray(30)).refusal, 15)
            self.assertEqual(orlyukan.arrive(huge, bytearray(1024), FIGURE_14).refusal, 15)
            self.assertEqual(orlyukan.take(huge, bytearray(1024), bytearray(30)).refusal, 15)
            self.assertEqual(orlyukan.forget(huge, bytearray(1024), 0).refusal, 15)
            self.assertEqual(orlyukan.join(huge, bytearray(1024), FIGURE_14, bytearray(30)).refusal, 15)
            self.assertEqual(orlyukan.in_order(huge, bytearray(1024)).refusal, 15)
            self.assertEqual(orlyukan.join_recording(b"", bytearray(), t=huge).refusal, 15)
            self.assertEqual(orlyukan.salvage(huge, b"a", 0, 0, 1, 2).refusal, 15)
            for t, p in ((huge, 64), (8, huge)):
                self.assertEqual(orlyukan.cut_count(t, p, figure_14(), 5, self.sender).refusal, 15)
                self.assertEqual(orlyukan.cut_packet(t, p, figure_14(), b"12345", self.sender, 0, bytearray(64)).refusal, 15)

    def test_profile(self):
        """A keyword, 0 if it is not given; from 2 on, and outside 64 bits, 15 in every call that takes it."""
        store, out, head = bytearray(1024), bytearray(64), figure_14()
        for unknown in (2, 3, 2**32, 2**64 - 1, *HUGE):
            for answer in (
                orlyukan.read(8, FIGURE_14, profile=unknown),
                orlyukan.write(8, head, 3, 0, 0, b"", out, profile=unknown),
                orlyukan.cut_count(8, 64, head, 5, self.sender, profile=unknown),
                orlyukan.cut_packet(8, 64, head, b"12345", self.sender, 0, out, profile=unknown),
                orlyukan.in_order(8, store, profile=unknown),
                orlyukan.arrive(8, store, FIGURE_14, profile=unknown),
                orlyukan.take(8, store, out, profile=unknown),
                orlyukan.forget(8, store, 0, profile=unknown),
                orlyukan.join(8, store, FIGURE_14, out, profile=unknown),
                orlyukan.join_recording(b"", out, profile=unknown),
                orlyukan.salvage(8, b"a", 0, 0, 1, 2, profile=unknown),
            ):
                self.assertEqual(answer.refusal, 15, unknown)
        domain = {"has_domain": 1, "domain": b"ab", "domain_lengths": [2]}
        for keyword, octets_of in (({}, "0101026162"), ({"profile": 0}, "0101026162"), ({"profile": 1}, "0000000101000000026162")):
            length = orlyukan.write(8, head | domain, 3, 0, 0, b"", out, **keyword).length
            self.assertEqual(out[27:length].hex(), octets_of)
            self.assertEqual(orlyukan.read(8, out[:length], **keyword).domain_count, 1)

    def test_fields(self):
        fields = [name for name, value in figure_14().items() if isinstance(value, int)]
        for name in [*fields, "domain_lengths"]:
            for huge in HUGE:
                values = figure_14()
                values[name] = [huge] if name == "domain_lengths" else huge
                out = bytearray(b"\xee" * 64)
                self.assertEqual(told(orlyukan.write(8, values, 3, 0, 0, b"", out)), {"refusal": 22, "length": 0}, name)
                self.assertEqual(orlyukan.write(0, values, 3, 0, 0, b"", out).refusal, 15, name)
                self.assertEqual(orlyukan.cut_count(8, 64, values, 5, self.sender).refusal, 22, name)
                self.assertEqual(orlyukan.cut_packet(8, 64, values, b"5", self.sender, 0, out).refusal, 22, name)
                self.assertEqual(out, b"\xee" * 64)

    def test_own_numbers(self):
        for huge in HUGE:
            for own in ((huge, 0, 0), (3, huge, 0), (1, 0, huge)):
                self.assertEqual(orlyukan.write(8, figure_14(), *own, b"1", bytearray(64)).refusal, 22)
            for sender in ((huge, 0), (0, huge), (huge, huge)):
                sender = dict(zip(("sequence_count", "counter"), sender))
                answer = orlyukan.cut_count(8, 64, figure_14(), 5, sender)
                self.assertEqual(told(answer), {"refusal": 22, "count": 0, "sender": sender})
                answer = orlyukan.cut_packet(8, 64, figure_14(), b"5", sender, 0, bytearray(64))
                self.assertEqual(told(answer), {"refusal": 22, "length": 0, "sender": sender})

    def test_lengths_and_places(self):
        for huge in HUGE:
            refusal = 22 if huge < 0 else 23
            self.assertEqual(orlyukan.cut_count(8, 64, figure_14(), huge, self.sender).refusal, refusal)
            refusal = 22 if huge < 0 else 26
            out = bytearray(64)
            self.assertEqual(orlyukan.cut_packet(8, 64, figure_14(), b"5", self.sender, huge, out).refusal, refusal)
            self.assertEqual(orlyukan.view(b"abc", b"", "packet", huge, 1), b"")
            self.assertEqual(orlyukan.view(b"abc", b"", "packet", 1, huge), b"")
        self.assertEqual(orlyukan.view(b"abc", b"", "packet", 1, 2), b"bc")

    def test_round_the_end(self):
        out = bytearray(64)
        given = {"sequence_count": 16383, "counter": 4294967295}
        for sender in (given, types.SimpleNamespace(**given)):
            answer = orlyukan.cut_count(8, 64, figure_14(), 38, sender)
            self.assertEqual(told(answer), {"refusal": 0, "count": 2, "sender": {"sequence_count": 1, "counter": 1}})
            for i, counter in ((0, 4294967295), (1, 0)):
                length = orlyukan.cut_packet(8, 64, figure_14(), bytes(38), sender, i, out).length
                self.assertEqual(orlyukan.read(8, bytes(out[:length])).counter, counter)

    def test_many_segments(self):
        out = bytearray(b"\xee" * 64)
        sender = {"sequence_count": 7, "counter": 4294967295}
        most = orlyukan.cut_count(8, 32, figure_14(), 4096, sender)
        self.assertEqual(told(most), {"refusal": 0, "count": 4096, "sender": {"sequence_count": 4103, "counter": 4095}})
        self.assertEqual(told(orlyukan.cut_count(8, 32, figure_14(), 4097, sender)), {"refusal": 29, "count": 0, "sender": sender})
        answer = orlyukan.cut_packet(8, 32, figure_14(), bytes(4097), sender, 0, out)
        self.assertEqual(told(answer), {"refusal": 29, "length": 0, "sender": sender})
        self.assertEqual(out, b"\xee" * 64)


class Told(unittest.TestCase):
    """What a refusal of reading tells, by each of the three calls that read: docs/DECISIONS.md, R13 to R17."""

    fixed = FIGURE_14[6:26]

    def tells(self, packet, refusal, off, began):
        store, out = bytearray(1024), bytearray(100)
        for answer in (orlyukan.read(8, packet), orlyukan.arrive(8, store, packet), orlyukan.join(8, store, packet, out)):
            self.assertEqual((answer.refusal, answer.off, answer.began), (refusal, off, began), packet.hex())

    def packet(self, data, flags=0xC0):
        return bytes([0x18, 0x05, flags, 0]) + (len(data) - 1).to_bytes(2, "big") + data

    def test_length(self):
        for size in range(6):
            self.tells(FIGURE_14[:size], 1, 0, 0)
        for size in range(6, 27):
            self.tells(FIGURE_14[:size], 5, 27 - size, 0)
        for more in (1, 2, 65515, 65516, 70000):
            self.tells(FIGURE_14 + bytes(more), 27, more, 0)
        self.tells(bytes.fromhex("1805C000FFFF"), 5, 65536, 0)

    def test_place(self):
        begins = [0, 1, 3, 5, 7, 8, 10, 12, 20]
        for size in range(1, 21):
            self.tells(self.packet(self.fixed[:size]), 6, 0, max(place for place in begins if place <= size))
        for presence, end, began in (
            *((0x01, "", 21), (0x01, "05616263", 21), (0x80, "", 21), (0x10, "01020304050607", 21), (0x20, "80", 21)),
            *((0x02, "", 21), (0x02, "80", 21), (0x02, "02", 22), (0x02, "0201", 22), (0x02, "02010561", 22), (0x02, "02010161", 25)),
            *((0x0C, "0261", 21), (0x0C, "0161", 23), (0x0C, "016103", 23)),
        ):
            self.tells(self.packet(self.fixed + bytes([presence]) + bytes.fromhex(end)), 6, 0, began)
        self.tells(self.packet(self.fixed + b"\x01" + b"\x05abc", 0x40), 6, 0, 25)
        self.tells(self.packet(self.fixed + b"\x01" + b"\x05ab", 0x40), 6, 0, 21)

    def test_nothing(self):
        self.tells(self.packet(self.fixed + b"\x01\xea\x01"), 12, 0, 0)
        self.tells(self.packet(b"\x20"), 7, 0, 0)
        held = b"MS" + self.packet(self.fixed + b"\x01\x05a", 0x40)
        store = bytearray(held.ljust(1024, b"\0"))
        answer = orlyukan.arrive(8, store, FIGURE_14[:20])
        self.assertEqual((answer.refusal, answer.off, answer.began), (16, 0, 0))


class Buffers(unittest.TestCase):
    """Lent buffers: changed in place, never one for two, never one that can't be changed."""

    def test_in_place(self):
        store, out = bytearray(2048), bytearray(100)
        body, sender = bytes(range(38)), {"sequence_count": 0, "counter": 3}
        for i, kind in ((0, "stored"), (0, "held"), (1, "stored")):
            packet = bytearray(64)
            size = orlyukan.cut_packet(8, 64, figure_14(), body, sender, i, packet).length
            self.assertEqual(told(orlyukan.arrive(8, store, packet[:size])), {"refusal": 0, "kind": kind, "off": 0, "began": 0})
        self.assertEqual(told(orlyukan.take(8, store, out)), {"refusal": 0, "H": 21, "B": 38, "counter": 3})
        self.assertEqual(out[23:61], body)
        self.assertEqual((store[:4], store[25:33], store[1024:]), (b"MT\x18\x05", b"\0\0\0\3\0\0\0\4", bytes(1024)))
        self.assertEqual(told(orlyukan.forget(8, store, 0)), {"refusal": 0})
        self.assertEqual(store, bytes(2048))

    def test_refused_words(self):
        same = bytearray(1024)
        with self.assertRaises(ValueError):
            orlyukan.take(8, same, same)
        with self.assertRaises(ValueError):
            orlyukan.join(8, same, FIGURE_14, same)
        with self.assertRaises(TypeError):
            orlyukan.arrive(8, bytes(1024), FIGURE_14)
        with self.assertRaises(TypeError):
            orlyukan.forget(8, bytes(1024), 0)
        with self.assertRaises(TypeError):
            orlyukan.read(8.0, FIGURE_14)
        with self.assertRaises(TypeError):
            orlyukan.read(8, 27)
        with self.assertRaises(TypeError):
            orlyukan.join_recording(b"MP", bytes(2))
        with self.assertRaises(TypeError):
            orlyukan.next_sequence_count(7.0)

    def test_empty(self):
        self.assertEqual(orlyukan.read(8, b"").refusal, 1)
        self.assertEqual(orlyukan.arrive(8, bytearray(), FIGURE_14).refusal, 16)
        self.assertEqual(orlyukan.join(8, bytearray(1024), FIGURE_14, bytearray()).which, "packet")
        self.assertEqual(orlyukan.view(b"", b"", "", 0, 0), b"")


class Late(unittest.TestCase):
    """Taken messages and their late repeats: docs/DECISIONS.md, S13 to S17, J1 and P5, each by its smallest input, the library beside the model."""

    head = FIGURE_14[6:]

    def segment(self, flags, counter, body=b"x"):
        data = self.head + counter.to_bytes(4, "big") + body
        return FIGURE_14[:2] + bytes([flags << 6, 0]) + (len(data) - 1).to_bytes(2, "big") + data

    def record(self, first, last, head=head):
        return (b"MT" + FIGURE_14[:2] + head + first.to_bytes(4, "big") + last.to_bytes(4, "big")).ljust(1024, b"\0")

    def cell(self, packet=b""):
        return (b"MS" + packet if packet else b"").ljust(1024, b"\0")

    def in_order(self, *cells):
        given = b"".join(cells)
        refusal = orlyukan.in_order(8, given).refusal
        self.assertEqual(refusal, stores.in_order(8, given)["refusal"])
        return refusal == 0

    def arrives(self, packet, *cells):
        given = b"".join(cells)
        after = bytearray(given)
        answer = told(orlyukan.arrive(8, after, packet))
        self.assertEqual((answer, bytes(after)), stores.arrive(8, given, packet))
        return answer["refusal"] or answer["kind"]

    def forgets(self, number, *cells):
        """What forgetting answers; on success all cells but this one are as they were."""
        given = bytearray(b"".join(cells))
        refusal = orlyukan.forget(8, given, number).refusal
        must = [bytes(1024) if refusal == 0 and k == number else cell for k, cell in enumerate(cells)]
        self.assertEqual(given, b"".join(must))
        return refusal

    def test_record(self):
        """The first's cell has the record, the other is free, and no cell beside them changes."""
        store = bytearray(self.cell(self.segment(2, 2)) + self.cell(self.segment(1, 1)) + self.cell())
        self.assertEqual(orlyukan.take(8, store, bytearray(100)).refusal, 0)
        self.assertEqual(store, self.cell() + self.record(1, 2) + self.cell())

    def test_whatever_the_body(self):
        record, free = self.record(1, 3), self.cell()
        for packet, must in (
            (self.segment(1, 1), "taken"),
            (self.segment(1, 2), "taken"),
            (self.segment(2, 3), "taken"),
            (self.segment(0, 0), "stored"),
            (self.segment(1, 4), "stored"),
            (self.segment(1, 1, bytes(5000)), "taken"),
            (self.segment(1, 4, bytes(5000)), 17),
            (self.segment(1, 1, b""), 14),
            (FIGURE_14, "whole"),
        ):
            self.assertEqual(self.arrives(packet, record, free), must, packet.hex())

    def test_full(self):
        """Taken comes before 19, and a cell with a record is not free."""
        self.assertEqual(self.arrives(self.segment(1, 2), self.record(1, 3)), "taken")
        self.assertEqual(self.arrives(self.segment(1, 4), self.record(1, 3)), 19)

    def test_joining(self):
        """After a late repeat another message that is complete comes out."""
        store = bytearray(self.record(1, 2) + self.cell(self.segment(1, 5, b"five")) + self.cell(self.segment(2, 6, b"six")))
        out = bytearray(100)
        answer = orlyukan.join(8, store, self.segment(1, 1), out)
        self.assertEqual((answer.refusal, answer.counter, answer.B), (0, 5, 7))
        self.assertEqual(store, self.record(1, 2) + self.record(5, 6) + self.cell())

    def test_order(self):
        top, other = 4294967295, self.head[:-2] + b"\x0a\0"
        for cells, must in (
            ((self.record(1, 2), self.record(1, 2)), True),
            ((self.record(1, 4), self.record(2, 9)), True),
            ((self.record(1, 3), self.cell(self.segment(0, 4))), True),
            ((self.record(1, 3), self.cell(self.segment(0, 0))), True),
            *(((self.record(1, 3), self.cell(self.segment(0, counter))), False) for counter in (1, 2, 3)),
            ((self.record(1, 3, other), self.cell(self.segment(0, 2))), True),
            ((self.record(top, 0),), True),
            ((self.record(top, 0), self.cell(self.segment(1, 0))), False),
            ((self.record(0, 4095),), True),
            ((self.record(0, 4096),), False),
            ((self.record(0, top),), False),
            ((self.record(2, 2),), False),
            ((self.record(2, 1),), False),
            ((self.record(1, 2)[:-1] + b"\1",), False),
            ((b"MT".ljust(1024, b"\0"),), False),
        ):
            self.assertEqual(self.in_order(*cells), must, b"".join(cells).hex())

    def test_header(self):
        """A record's header is judged with a counter: one of 252 octets passes, one of 253 does not. So is its identification."""
        for size, must in ((252, True), (253, False)):
            texts = size - 21 - 2
            head = self.head[:-1] + b"\1" + bytes([texts % 128 + 128, texts // 128]) + bytes(texts)
            self.assertEqual(self.in_order(self.record(1, 2, head)), must, size)
        for first in (b"\x38\5", b"\x10\5", b"\x1f\xff"):
            self.assertFalse(self.in_order(b"MT" + first + self.record(1, 2)[4:]))
        self.assertTrue(self.in_order(b"MT" + b"\x08\5" + self.record(1, 2)[4:]))

    def test_forgetting(self):
        cells = (self.record(1, 2), self.cell(), self.cell(self.segment(1, 7)))
        for number, must in ((0, 0), (1, 31), (2, 31), (3, 31), (2**32, 31), (2**64 - 1, 31), *((huge, 31) for huge in HUGE)):
            self.assertEqual(self.forgets(number, *cells), must, number)
        self.assertEqual(self.forgets(0, self.record(2, 1)), 16)

    def test_program(self):
        """Forty messages one after another come out. A late repeat of one whose record is forgotten makes a second one: in a full store that
        of a message that went out shortly before."""
        message = lambda n: b"".join(b"MP" + self.segment(flags, 2 * n + k, b"tile") for k, flags in enumerate((1, 2)))
        once = b"".join(map(message, range(40)))
        for more, count in ((b"", 40), (message(2), 40), (message(38), 41), (message(39), 40)):
            recording = once + more
            out = bytearray(len(recording))
            answer = orlyukan.join_recording(recording, out)
            self.assertEqual(out[: answer.written], stores.Joining(recording).output)
            self.assertEqual(answer.written, count * (6 + 2 + 21 + 8))


class Recordings(unittest.TestCase):
    """Where and why a recording stopped, so that one that is not whole is told from one that is."""

    begun = b"MP\x1f\xff" + FIGURE_14[2:] + b"MP" + FIGURE_14  # an idle packet, which is passed over, and figure 14
    message = bytes.fromhex("4D4D000000171805") + FIGURE_14[6:]

    def stops(self, more, stop):
        recording = self.begun + more
        out = bytearray(b"\xee" * (len(recording) + 1))
        for lent in (recording, bytearray(recording)):
            answer = orlyukan.join_recording(lent, out)
            self.assertEqual(told(answer), {"refusal": 0, "written": 29, "place": 58, "stop": stop}, more)
            self.assertEqual(out, self.message + b"\xee" * (len(out) - 29), more)
        short = bytearray(b"\xee" * (len(recording) - 1))
        refused = {"refusal": 21, "written": 0, "place": 0, "stop": ""}
        self.assertEqual(told(orlyukan.join_recording(recording, short)), refused, more)
        self.assertEqual(short, b"\xee" * len(short), more)

    def test_whole(self):
        self.stops(b"", "ended")
        answer = orlyukan.join_recording(b"", bytearray())
        self.assertEqual(told(answer), {"refusal": 0, "written": 0, "place": 0, "stop": "ended"})

    def test_first_pods(self):
        """Timestamps of 6 octets and a session name with a length of four: joined under these settings, refused under the usual ones."""
        data = FIGURE_14[6:26] + b"\x14" + b"sixoct" + b"\0\0\0\3podbody"
        recording = b"MP" + FIGURE_14[:4] + (len(data) - 1).to_bytes(2, "big") + data
        out = bytearray(len(recording))
        self.assertEqual(told(orlyukan.join_recording(recording, out, t=6, profile=1))["written"], len(recording))
        self.assertEqual(out, b"MM" + (2 + len(data)).to_bytes(4, "big") + FIGURE_14[:2] + data)
        for t, profile in ((8, 0), (6, 0), (8, 1)):
            answer = orlyukan.join_recording(recording, bytearray(len(recording)), t=t, profile=profile)
            self.assertEqual((answer.refusal, answer.stop), (0, "ended"))
        self.assertEqual(orlyukan.join_recording(recording, out, t=0).refusal, 15)

    def test_unmarked(self):
        for more in (b"x", b"MS", b"MM" + FIGURE_14):
            self.stops(more, "unmarked")

    def test_torn(self):
        for more in (b"M", b"MP", b"MP" + FIGURE_14[:5], b"MP" + FIGURE_14[:6], b"MP" + FIGURE_14[:-1]):
            self.stops(more, "torn")


class Torn(unittest.TestCase):
    """A thousand files torn by a seeded script: each call's whole answer beside the model's, and one list however often it stops."""

    files = 1000
    marked = b"MP" + FIGURE_14

    def setUp(self):
        self.chance = random.Random(9)

    def packet(self):
        """Figure 14 as it is or as a segment, with a body, after its mark."""
        flags, body = self.chance.choice((0xC0, 0x40, 0x00, 0x80)), self.chance.randbytes(self.chance.randrange(1, 60))
        data = FIGURE_14[6:] + (b"" if flags == 0xC0 else bytes(4)) + body
        return b"MP" + FIGURE_14[:2] + bytes([flags, 0]) + (len(data) - 1).to_bytes(2, "big") + data

    def torn(self):
        """A few packets; then octets changed, lost and put in, marks made, and the end cut off."""
        file = bytearray(b"".join(self.packet() for _ in range(self.chance.randrange(8))))
        for _ in range(self.chance.randrange(6)):
            at, long = self.chance.randrange(len(file) + 1), self.chance.randrange(30)
            noise = self.chance.choice((b"", b"M", b"MP", b"MP\x18\x05", self.chance.randbytes(long), bytes(300)))
            file[at : at + self.chance.choice((0, 0, 1, len(noise), long))] = noise
        return bytes(file[: len(file) - self.chance.choice((0, 0, 0, 1, 20))])

    def beside_model(self, file, state, grant, free):
        answer = orlyukan.salvage(8, file, *state, grant, free)
        expected = model.salvage(8, file, *state, grant, free)
        self.assertEqual(told(answer) | {"entries": entries(answer)}, expected | {"entries": list(map(list, expected["entries"]))}, file.hex())
        return answer

    def run_through(self, file, given):
        """Calls until one is done: their entries and the places that they tested."""
        state, listed, tested, done = (0, 0), [], 0, False
        while not done:
            answer = self.beside_model(file, state, *given())
            state, done = (answer.begin, answer.place), answer.done
            listed += entries(answer)
            tested += answer.tested
        return listed, tested

    def test_files(self):
        kept = skipped = 0
        for _ in range(self.files):
            file = self.torn()
            whole = self.run_through(file, lambda: (2**64 - 1, len(file) + 2))
            self.assertEqual(b"".join(file[place : place + length] for _, place, length in whole[0]), file)
            parts = self.run_through(file, lambda: (self.chance.randrange(90), self.chance.randrange(7)))
            self.assertEqual(whole, parts, file.hex())
            kept += sum(kind == "kept" for kind, _, _ in whole[0])
            skipped += sum(kind == "skipped" for kind, _, _ in whole[0])
        self.assertGreater(min(kept, skipped), self.files)

    def test_every_stop(self):
        """Small files: every place, every grant and every room."""
        for file in (b"", b"a", b"MPM", self.marked, self.marked[:-1], b"a" + self.marked + b"b", self.marked * 2 + b"MP"):
            for place in range(len(file) + 1):
                for grant in range(0, len(file) + 2 - place):
                    for free in range(5):
                        self.beside_model(file, (0, place), grant, free)
                        self.beside_model(file, (place, place), grant, free)
            once = self.run_through(file, lambda: (len(file), len(file) + 2))
            for grant in range(1, len(file) + 2):
                for free in range(2, 6):
                    self.assertEqual(once, self.run_through(file, lambda: (grant, free)), file.hex())

    def test_numbers(self):
        refused = {"refusal": 40, "tested": 0, "entries": [], "begin": 0, "place": 0, "done": False}
        for state in ((1, 0), (0, 4), (4, 4), *((huge, 0) for huge in HUGE), *((0, huge) for huge in HUGE), *((huge, huge) for huge in HUGE)):
            self.assertEqual(told(orlyukan.salvage(8, b"abc", *state, 5, 5)), refused, state)
        for huge in HUGE:
            answer = orlyukan.salvage(8, b"abc", 0, 0, huge, 5)
            self.assertEqual(answer.tested, 0 if huge < 0 else 3)
            answer = orlyukan.salvage(8, bytearray(b"abc"), 0, 0, 5, huge)
            self.assertEqual(entries(answer), [] if huge < 0 else [["skipped", 0, 3]])


if __name__ == "__main__":
    unittest.main()
