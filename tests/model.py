"""A model of reading a packet and of salvaging a damaged recording, written from the rules and independent of the code: see read() and
salvage(). The store and joining a recording are in store.py, the survey office in office.py."""

PRESENCE = ("source", "destination", "priority", "timestamp", "zone", "session_name", "domain", "authentication")
HEADER_LIMIT = 256
PARTS = 16
VARINT, FIXED = 0, 1  # the profiles


class Refused(Exception):
    """Reading stops here, with this number; beside 5 and 27 the octets missing or left over, beside 6 where the field began."""

    def __init__(self, number, off=0, began=0):
        super().__init__(number)
        self.told = {"refusal": number, "off": off, "began": began}


class Data:
    """The data field, walked from left to right. Places count from the packet's first octet."""

    def __init__(self, packet, profile):
        self.packet, self.profile = packet, profile
        self.at = self.began = 6

    def field(self):
        """A field begins here."""
        self.began = self.at
        return self

    def content(self, length):
        """The whole content of a known length: tested for 12, then for 6. Its place."""
        place = self.at
        if place + length - 6 > HEADER_LIMIT:
            raise Refused(12)
        if place + length > len(self.packet):
            raise Refused(6, began=self.began - 6)
        self.at = place + length
        return place

    def octet(self):
        """An octet, a content of length 1."""
        return self.packet[self.content(1)]

    def number(self, octets):
        """A number, most significant octet first. Each octet is tested singly."""
        value = 0
        for _ in range(octets):
            value = value * 256 + self.octet()
        return value

    def varint(self):
        """An unsigned Varint of at most 32 bits: seven bits an octet, lowest group first. 10 as soon as an octet shows it."""
        value = 0
        for k in range(5):
            octet = self.octet()
            if k == 4 and octet > 15:
                raise Refused(10)
            if k > 0 and octet == 0:
                raise Refused(10)
            value += (octet % 128) * 128**k
            if octet < 128:
                return value
        raise AssertionError("a fifth octet of at most 15 is the last one")

    def uinteger(self):
        """A length, a count or a priority: a Varint, or four octets, which are one content."""
        if self.profile == VARINT:
            return self.varint()
        place = self.content(4)
        return int.from_bytes(self.packet[place : self.at], "big")

    def blob(self):
        """A length and that many octets of any value."""
        length = self.uinteger()
        return {"place": self.content(length), "length": length}

    def text(self):
        """The same, and they must be well-formed UTF-8."""
        found = self.blob()
        try:
            self.packet[found["place"] : self.at].decode("utf-8")
        except UnicodeDecodeError:
            raise Refused(28) from None
        return found


def nowhere():
    return {"place": 0, "length": 0}


def nothing():
    """Every answer zero."""
    answer = dict.fromkeys(
        ("refusal", "packet_type", "apid", "flags", "seq", "sdu", "area", "service", "operation", "area_version", "error",
         "qos", "session", "secondary_apid", "qualifier", "transaction"), 0)
    answer.update({"has_" + name: 0 for name in PRESENCE})
    answer.update(dict.fromkeys(("source", "destination", "counter", "priority", "timestamp"), 0))
    answer.update(zone=nowhere(), session_name=nowhere(), domain_count=0, domain=[nowhere() for _ in range(PARTS)],
                  authentication=nowhere(), H=0, body=nowhere(), off=0, began=0, withdrawn=0)
    return answer


def primary(a, packet):
    """The primary header: refusals 1 to 4, then 5 or 27."""
    if len(packet) < 6:
        raise Refused(1)
    first = packet[0] * 256 + packet[1]
    second = packet[2] * 256 + packet[3]
    length_field = packet[4] * 256 + packet[5]
    if first >> 13 != 0:
        raise Refused(2)
    if first >> 11 & 1 == 0:
        raise Refused(3)
    if first & 0x7FF == 2047:
        raise Refused(4)
    said = length_field + 7
    if len(packet) < said:
        raise Refused(5, off=said - len(packet))
    if len(packet) > said:
        raise Refused(27, off=len(packet) - said)
    a["packet_type"] = first >> 12 & 1
    a["apid"] = first & 0x7FF
    a["flags"] = second >> 14
    a["seq"] = second & 0x3FFF


def fixed(a, data):
    """The fixed part of the secondary header, an octet at a time: 7, 8 and 9 as soon as their octet is there. The secondary APID began
    in the octet that it shares with error, QoS level and session."""
    octet = data.field().octet()
    if octet >> 5 != 0:
        raise Refused(7)
    a["sdu"] = octet & 31
    if a["sdu"] > 21:
        raise Refused(8)
    a["area"] = data.field().number(2)
    a["service"] = data.field().number(2)
    a["operation"] = data.field().number(2)
    a["area_version"] = data.field().number(1)
    octet = data.field().octet()
    a["error"] = octet >> 7
    a["qos"] = octet >> 5 & 3
    a["session"] = octet >> 3 & 3
    if a["session"] == 3:
        raise Refused(9)
    a["secondary_apid"] = (octet & 7) * 256 + data.octet()
    a["qualifier"] = data.field().number(2)
    a["transaction"] = data.field().number(8)
    octet = data.field().octet()
    for k, name in enumerate(PRESENCE):
        a["has_" + name] = octet >> (7 - k) & 1


def domain(a, data):
    """The count, which may be too many as soon as it is known, then the parts: a presence octet of 1 and a text each."""
    count = data.field().uinteger()
    if count > PARTS:
        raise Refused(13)
    a["domain_count"] = count
    for k in range(count):
        if data.field().octet() != 1:
            raise Refused(11)
        a["domain"][k] = data.text()


def optional(a, data, t):
    """The fields that are there only if present, in their order."""
    if a["has_source"]:
        a["source"] = data.field().number(1)
    if a["has_destination"]:
        a["destination"] = data.field().number(1)
    if a["flags"] != 3:
        a["counter"] = data.field().number(4)
    if a["has_priority"]:
        a["priority"] = data.field().uinteger()
    if a["has_timestamp"]:
        a["timestamp"] = data.field().content(t)
    if a["has_zone"]:
        a["zone"] = data.field().text()
    if a["has_session_name"]:
        a["session_name"] = data.field().text()
    if a["has_domain"]:
        domain(a, data)
    if a["has_authentication"]:
        a["authentication"] = data.field().blob()


def read(t, packet, profile=VARINT):
    """The whole answer of reading these octets with a timestamp of t octets, under a profile. A refusal is its number, what it tells, and
    zeros."""
    a = nothing()
    try:
        if not 1 <= t <= 16 or profile not in (VARINT, FIXED):
            raise Refused(15)
        primary(a, packet)
        data = Data(packet, profile)
        fixed(a, data)
        optional(a, data, t)
        body = len(packet) - data.at
        if a["flags"] != 3 and body == 0:
            raise Refused(14)
    except Refused as refused:
        return nothing() | refused.told
    a["H"] = data.at - 6 - (4 if a["flags"] != 3 else 0)
    a["body"] = {"place": data.at, "length": body}
    a["withdrawn"] = a["has_zone"]
    return a


# Salvaging a damaged recording.


def kept(t, file, place, profile=VARINT):
    """The octets of a mark and a packet that reading accepts, if they stand at this place of the file; else 0."""
    if file[place : place + 2] != b"MP" or len(file) < place + 8:
        return 0
    size = 2 + 7 + int.from_bytes(file[place + 6 : place + 8], "big")
    if len(file) < place + size or read(t, file[place + 2 : place + size], profile)["refusal"]:
        return 0
    return size


def salvage(t, file, begin, place, grant, free, profile=VARINT):
    """One call from a state on: what it answers, each entry as its kind, its place and its length."""
    refusal = 15 if not 1 <= t <= 16 or profile not in (VARINT, FIXED) else 0 if begin <= place <= len(file) else 40
    if refusal:
        return {"refusal": refusal, "tested": 0, "entries": [], "begin": 0, "place": 0, "done": False}
    tested, entries = 0, []
    while place < len(file) and tested < grant and len(entries) + 2 <= free:
        tested += 1
        size = kept(t, file, place, profile)
        if size == 0:
            place += 1
            continue
        if begin < place:
            entries.append(("skipped", begin, place - begin))
        entries.append(("kept", place, size))
        begin = place = place + size
    if begin < place == len(file) and len(entries) < free:
        entries.append(("skipped", begin, place - begin))
        begin = place
    done = begin == place == len(file)
    return {"refusal": 0, "tested": tested, "entries": entries, "begin": begin, "place": place, "done": done}
