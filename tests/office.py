"""A model of the survey office's PDUs and of carrying a message there and back, written from the rules and independent of the code: see
pdu_read(), pdu_write(), to_pdu() and to_message()."""

import model
from model import PARTS, PRESENCE, Refused

FIXED = 23
TIMESTAMP = 6
TEXTS = ("source", "destination", "timestamp", "zone", "session_name", "domain", "authentication")
UTF8 = ("source", "destination", "zone", "session_name")
WIDTHS = {"sdu": 21, "area": 65535, "service": 65535, "operation": 65535, "area_version": 255, "error": 1, "qos": 7, "session": 15,
          "transaction": 2**64 - 1, "encoding_id": 255}


def is_text(octets):
    try:
        octets.decode("utf-8")
    except UnicodeDecodeError:
        return False
    return True


def varint(value):
    """The shortest Varint of a number."""
    octets = bytearray()
    while value > 127:
        octets.append(128 + value % 128)
        value //= 128
    octets.append(value)
    return bytes(octets)


def blob(octets):
    return varint(len(octets)) + octets


class Rest(model.Data):
    """The octets after the fixed part, walked from left to right. No limit but their end; only Varints."""

    def __init__(self, pdu):
        super().__init__(pdu, 0)
        self.at = self.began = FIXED

    def content(self, length):
        place = self.at
        if place + length > len(self.packet):
            raise Refused(6, began=self.began)
        self.at = place + length
        return place

    def taken(self, found):
        return self.packet[found["place"] : found["place"] + found["length"]]


def pdu_header(pdu):
    """The fixed part: 1, 7, 8, then 5 or 27."""
    if len(pdu) < FIXED:
        raise Refused(1)
    if pdu[0] >> 5 != 1:
        raise Refused(7)
    if pdu[0] & 31 > 21:
        raise Refused(8)
    said = FIXED + int.from_bytes(pdu[19:23], "big")
    if len(pdu) < said:
        raise Refused(5, off=said - len(pdu))
    if len(pdu) > said:
        raise Refused(27, off=len(pdu) - said)
    h = {"sdu": pdu[0] & 31, "area": int.from_bytes(pdu[1:3], "big"), "service": int.from_bytes(pdu[3:5], "big"),
         "operation": int.from_bytes(pdu[5:7], "big"), "area_version": pdu[7], "error": pdu[8] >> 7, "qos": pdu[8] >> 4 & 7,
         "session": pdu[8] & 15, "transaction": int.from_bytes(pdu[9:17], "big"), "encoding_id": pdu[18]}
    h |= {"has_" + name: pdu[17] >> (7 - k) & 1 for k, name in enumerate(PRESENCE)}
    return h


def pdu_texts(h, rest):
    """The fields that are there only if present, in their order; texts as octets."""
    h |= {name: b"" for name in TEXTS} | {"priority": 0, "domain_lengths": []}
    for name in ("source", "destination"):
        if h["has_" + name]:
            h[name] = rest.taken(rest.field().text())
    if h["has_priority"]:
        h["priority"] = rest.field().uinteger()
    if h["has_timestamp"]:
        place = rest.field().content(TIMESTAMP)
        h["timestamp"] = rest.packet[place : place + TIMESTAMP]
    for name in ("zone", "session_name"):
        if h["has_" + name]:
            h[name] = rest.taken(rest.field().text())
    if h["has_domain"]:
        domain = {"domain": [model.nowhere() for _ in range(PARTS)]}
        model.domain(domain, rest)
        parts = [rest.taken(part) for part in domain["domain"][: domain["domain_count"]]]
        h["domain"], h["domain_lengths"] = b"".join(parts), [len(part) for part in parts]
    if h["has_authentication"]:
        h["authentication"] = rest.taken(rest.field().blob())


def pdu_read(pdu):
    """The values of one PDU, or Refused."""
    h = pdu_header(pdu)
    rest = Rest(pdu)
    pdu_texts(h, rest)
    return h, rest.at


def parts_of(h):
    parts, at = [], 0
    for length in h["domain_lengths"]:
        parts.append(h["domain"][at : at + length])
        at += length
    return parts


def pdu_values(h):
    """22, 13, 28."""
    bad = any(h[name] > most for name, most in WIDTHS.items())
    bad |= any(h["has_" + name] > 1 for name in PRESENCE)
    bad |= any(h[name] and not h["has_" + name] for name in TEXTS)
    bad |= h["priority"] > (2**32 - 1 if h["has_priority"] else 0)
    bad |= bool(h["has_timestamp"]) and len(h["timestamp"]) != TIMESTAMP
    bad |= sum(h["domain_lengths"]) != len(h["domain"]) or bool(h["domain_lengths"]) and not h["has_domain"]
    if bad:
        raise Refused(22)
    if len(h["domain_lengths"]) > PARTS:
        raise Refused(13)
    if not all(is_text(text) for text in [h[name] for name in UTF8] + parts_of(h)):
        raise Refused(28)


def pdu_variable(h):
    """The optional fields of values that pass."""
    octets = b"".join(blob(h[name]) for name in ("source", "destination") if h["has_" + name])
    octets += varint(h["priority"]) if h["has_priority"] else b""
    octets += h["timestamp"]
    octets += b"".join(blob(h[name]) for name in ("zone", "session_name") if h["has_" + name])
    if h["has_domain"]:
        octets += varint(len(h["domain_lengths"])) + b"".join(b"\x01" + blob(part) for part in parts_of(h))
    return octets + (blob(h["authentication"]) if h["has_authentication"] else b"")


def pdu_octets(h, body):
    """The octets of values that pass, before the body, and with it; 23."""
    variable = pdu_variable(h)
    if len(variable) + len(body) > 2**32 - 1:
        raise Refused(23)
    flags = sum(h["has_" + name] << (7 - k) for k, name in enumerate(PRESENCE))
    fixed = bytes([32 + h["sdu"]]) + b"".join(h[name].to_bytes(2, "big") for name in ("area", "service", "operation"))
    fixed += bytes([h["area_version"], h["error"] * 128 + h["qos"] * 16 + h["session"]]) + h["transaction"].to_bytes(8, "big")
    fixed += bytes([flags, h["encoding_id"]]) + (len(variable) + len(body)).to_bytes(4, "big")
    return fixed + variable, fixed + variable + body


def laid(out, octets):
    if len(octets) > len(out):
        raise Refused(21)
    return octets + out[len(octets) :]


def pdu_write(h, body, out):
    """The lengths and the output afterwards, or Refused."""
    pdu_values(h)
    header, octets = pdu_octets(h, body)
    return len(octets), len(header), laid(out, octets)


def settings(t, profile):
    if not 1 <= t <= 16 or profile not in (0, 1):
        raise Refused(15)


def to_pdu(t, message, encoding_id, out, profile=0):
    """A message in the form that taking writes, as a PDU."""
    settings(t, profile)
    if encoding_id > 255:
        raise Refused(22)
    a, at = message_values(t, message, profile)
    text = lambda name: message[a[name]["place"] - 4 :][: a[name]["length"]]
    parts = [message[part["place"] - 4 :][: part["length"]] for part in a["domain"][: a["domain_count"]]]
    if a["has_timestamp"] and t != TIMESTAMP:
        raise Refused(34)
    h = {name: a[name] for name in WIDTHS if name != "encoding_id"} | {"has_" + name: a["has_" + name] for name in PRESENCE}
    h |= {name: str(a[name]).encode() if a["has_" + name] else b"" for name in ("source", "destination")}
    h |= {name: text(name) for name in ("zone", "session_name", "authentication")} | {"priority": a["priority"]}
    h |= {"domain": b"".join(parts), "domain_lengths": [len(part) for part in parts], "encoding_id": encoding_id}
    h["timestamp"] = message[a["timestamp"] - 4 :][:t] if a["has_timestamp"] else b""
    header, octets = pdu_octets(h, message[at:])
    return len(octets), len(header), laid(out, octets)


def message_values(t, message, profile):
    """The message as a packet without its sequence word and its length field, which it does not have: 1 to 4, then its fields."""
    if len(message) < 2:
        raise Refused(1)
    first = message[0] * 256 + message[1]
    for number, bad in ((2, first >> 13 != 0), (3, first >> 11 & 1 == 0), (4, first & 0x7FF == 2047)):
        if bad:
            raise Refused(number)
    packet = message[:2] + b"\xc0\x00\x00\x00" + message[2:]
    a = model.nothing() | {"packet_type": first >> 12 & 1, "apid": first & 0x7FF, "flags": 3}
    data = model.Data(packet, profile)
    model.fixed(a, data)
    model.optional(a, data, t)
    return a, data.at - 4


def number_of(text):
    """33 unless these are the digits of 0 to 255 without leading zeros."""
    for number in range(256):
        if text == str(number).encode():
            return number
    raise Refused(33)


def unsigned(profile, value):
    return value.to_bytes(4, "big") if profile else varint(value)


def to_message(t, pdu, lent, out, profile=0):
    """A PDU as a message in the form that taking writes; H, B, the encoding id, the output afterwards."""
    settings(t, profile)
    most = {"packet_type": 1, "apid": 2046, "secondary_apid": 2047, "qualifier": 65535}
    if any(lent[name] > top for name, top in most.items()):
        raise Refused(22)
    h, at = pdu_read(pdu)
    if h["qos"] > 3 or h["session"] > 2:
        raise Refused(35)
    ids = b"".join(bytes([number_of(h[name])]) for name in ("source", "destination") if h["has_" + name])
    if h["has_timestamp"] and t != TIMESTAMP:
        raise Refused(34)
    if h["has_zone"]:
        raise Refused(30)
    word = h["error"] * 32768 + h["qos"] * 8192 + h["session"] * 2048 + lent["secondary_apid"]
    flags = sum(h["has_" + name] << (7 - k) for k, name in enumerate(PRESENCE))
    header = bytes([h["sdu"]]) + b"".join(h[name].to_bytes(2, "big") for name in ("area", "service", "operation"))
    header += bytes([h["area_version"]]) + word.to_bytes(2, "big") + lent["qualifier"].to_bytes(2, "big")
    header += h["transaction"].to_bytes(8, "big") + bytes([flags]) + ids
    header += unsigned(profile, h["priority"]) if h["has_priority"] else b""
    header += h["timestamp"]
    header += unsigned(profile, len(h["session_name"])) + h["session_name"] if h["has_session_name"] else b""
    if h["has_domain"]:
        header += unsigned(profile, len(h["domain_lengths"]))
        header += b"".join(b"\x01" + unsigned(profile, len(part)) + part for part in parts_of(h))
    header += unsigned(profile, len(h["authentication"])) + h["authentication"] if h["has_authentication"] else b""
    if len(header) > 256:
        raise Refused(12)
    first = lent["packet_type"] * 4096 + 2048 + lent["apid"]
    body = pdu[at:]
    return len(header), len(body), h["encoding_id"], laid(out, first.to_bytes(2, "big") + header + body)
