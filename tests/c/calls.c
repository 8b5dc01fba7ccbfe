/*
 * The calls as C and C++ see them, compared with SPEC's figures: each call, each field of its answer, and each number that
 * the header names. Compiled twice, as C11 and as C++17; `run` beside it does so.
 */
#include "expect.h"

static const uint8_t figure_14[27] = {0x18, 0x05, 0xC0, 0x00, 0x00, 0x14, 0x00, 0x00, 0x01, 0x00, 0x02, 0x00, 0x03, 0x01,
                                      0x20, 0x06, 0x00, 0x07, 0x00, 0x00, 0x00, 0x00, 0x00, 0x00, 0x00, 0x09, 0x00};

static const uint8_t none[1] = {0};
static const uint64_t no_lengths[1] = {0};

/* The header of figure 14. */
static struct orl_header header_14(void) {
    struct orl_header h;
    memset(&h, 0, sizeof h);
    h.packet_type = 1;
    h.apid = 5;
    h.area = 1;
    h.service = 2;
    h.operation = 3;
    h.area_version = 1;
    h.qos = 1;
    h.secondary_apid = 6;
    h.qualifier = 7;
    h.transaction = 9;
    return h;
}

static void reading(void) {
    struct orl_read_answer a;
    orl_read(8, ORL_VARINT, figure_14, 27, &a);
    expect("read", a.refusal, 0);
    expect("packet type", a.packet_type, 1);
    expect("APID", a.apid, 5);
    expect("flags", a.flags, 3);
    expect("sequence count", a.sequence_count, 0);
    expect("area", a.area, 1);
    expect("service", a.service, 2);
    expect("operation", a.operation, 3);
    expect("area version", a.area_version, 1);
    expect("QoS level", a.qos, 1);
    expect("secondary APID", a.secondary_apid, 6);
    expect("qualifier", a.qualifier, 7);
    expect("transaction id", a.transaction, 9);
    expect("H", a.H, 21);
    expect("body's place", a.body.place, 27);
    expect("body's length", a.body.length, 0);
    orl_read(0, ORL_VARINT, figure_14, 27, &a);
    expect("read with T 0", a.refusal, 15);
    expect("H of a refusal", a.H, 0);
    orl_read(UINT64_MAX, ORL_VARINT, figure_14, 27, &a);
    expect("read with the largest T", a.refusal, 15);
    orl_read(8, ORL_VARINT, none, 0, &a);
    expect("read nothing", a.refusal, 1);
}

/* A refusal of reading with what it tells. */
static void expect_told(const char *what, uint64_t refusal, uint64_t off, uint64_t began, const uint64_t want[3]) {
    expect(what, refusal, want[0]);
    expect(what, off, want[1]);
    expect(what, began, want[2]);
}

/* The same slice to reading, arrival and joining: what each refusal tells. */
static void told_of(const char *what, const uint8_t *packet, size_t length, uint64_t refusal, uint64_t off, uint64_t began) {
    static uint8_t store[1024];
    const uint64_t want[3] = {refusal, off, began};
    struct orl_read_answer r;
    struct orl_arrive_answer a;
    struct orl_join_answer j;
    uint8_t out[1];
    orl_read(8, ORL_VARINT, packet, length, &r);
    expect_told(what, r.refusal, r.off, r.began, want);
    orl_arrive(8, ORL_VARINT, store, sizeof store, packet, length, &a);
    expect_told(what, a.refusal, a.off, a.began, want);
    orl_join(8, ORL_VARINT, store, sizeof store, packet, length, out, 0, &j);
    expect_told(what, j.refusal, j.off, j.began, want);
}

/* Figure 14 with another end, and its length field set to what is left of it, or not. */
static void refusals(void) {
    uint8_t packet[31];
    memcpy(packet, figure_14, 27);
    memcpy(packet + 27, "\005abc", 4);
    told_of("one octet less", packet, 26, 5, 1, 0);
    told_of("one octet more", packet, 28, 27, 1, 0);
    packet[4] = packet[5] = 0xFF;
    told_of("65,536 octets less", packet, 6, 5, 65536, 0);
    told_of("five octets", packet, 5, 1, 0, 0);
    packet[4] = 0;
    packet[5] = 24;
    packet[26] = 0x01;
    told_of("an authentication id cut off", packet, 31, 6, 0, 21);
    packet[2] = 0x40;
    told_of("the same as a first", packet, 31, 6, 0, 25);
    packet[5] = 8;
    told_of("nine octets of the fixed part", packet, 15, 6, 0, 8);
}

static void write_14(const struct orl_header *h, uint64_t flags, uint64_t counter, uint8_t *out, size_t room,
                     struct orl_write_answer *a) {
    orl_write(8, ORL_VARINT, h, none, 0, none, 0, none, 0, none, 0, no_lengths, 0, none, 0, flags, 0, counter, none, 0, out, room, a);
}

static void writing(void) {
    struct orl_header h = header_14();
    struct orl_write_answer a;
    uint8_t out[28];
    memset(out, 0xEE, sizeof out);
    write_14(&h, 3, 0, out, 26, &a);
    expect("write to 26 octets", a.refusal, 21);
    expect("untouched", out[0], 0xEE);
    write_14(&h, 3, 0, out, 28, &a);
    expect("write", a.refusal, 0);
    expect("written", a.length, 27);
    expect_octets("figure 14", out, figure_14, 27);
    expect("after it", out[27], 0xEE);
    h.area = 65536;
    write_14(&h, 3, 0, out, 28, &a);
    expect("area 65,536", a.refusal, 22);
    h.area = UINT64_MAX;
    write_14(&h, 3, 0, out, 28, &a);
    expect("the largest area", a.refusal, 22);
    h.area = 1;
    h.has_source = 2;
    write_14(&h, 3, 0, out, 28, &a);
    expect("a flag of 2", a.refusal, 22);
    h.has_source = 0;
    write_14(&h, 1, 4294967296u, out, 28, &a);
    expect("counter 4,294,967,296", a.refusal, 22);
    expect("length of a refusal", a.length, 0);
}

/* Figure 14 with a zone, a session name, a domain of two parts or an authentication id of two octets: the refusal. */
static uint64_t text(int field, uint8_t first, uint8_t second, uint64_t part) {
    struct orl_header h = header_14();
    struct orl_write_answer a;
    uint8_t out[40];
    const uint8_t octets[2] = {first, second};
    const uint64_t lengths[2] = {part, 2 - part};
    const size_t n[4] = {field == 0 ? 2u : 0u, field == 1 ? 2u : 0u, field == 2 ? 2u : 0u, field == 3 ? 2u : 0u};
    h.has_zone = field == 0;
    h.has_session_name = field == 1;
    h.has_domain = field == 2;
    h.has_authentication = field == 3;
    orl_write(8, ORL_VARINT, &h, none, 0, octets, n[0], octets, n[1], octets, n[2], lengths, n[2], octets, n[3], 3, 0, 0, none, 0, out,
              sizeof out, &a);
    return a.refusal;
}

static void texts(void) {
    expect("a zone", text(0, 0xC3, 0xA9, 0), 30);
    expect("a zone that is no text", text(0, 0xC3, 0xC3, 0), 30);
    expect("a session name", text(1, 0x00, 0x7F, 0), 0);
    expect("a session name that is no text", text(1, 0x7F, 0x80, 0), 28);
    expect("a domain part of two octets", text(2, 0xC3, 0xA9, 2), 0);
    expect("the same in two parts", text(2, 0xC3, 0xA9, 1), 28);
    expect("an authentication id", text(3, 0xFF, 0x80, 0), 0);
}

/* Figure 14 with a zone of so many octets, written and cut: the refusal of all three calls. */
static void withdrawn(const char *what, uint64_t t, uint64_t apid, uint64_t has_zone, size_t length, size_t parts, uint64_t refusal) {
    static uint8_t octets[65536];
    static const uint64_t lengths[17] = {1, 1, 1, 1, 1, 1, 1, 1, 1, 1, 1, 1, 1, 1, 1, 1, 1};
    struct orl_header h = header_14();
    struct orl_sender s = sender(7, 300);
    struct orl_write_answer w;
    struct orl_cut_count_answer c;
    struct orl_cut_packet_answer p;
    uint8_t out[40];
    h.apid = apid;
    h.has_zone = has_zone;
    h.has_domain = parts > 0;
    memset(out, 0xEE, sizeof out);
    orl_write(t, ORL_VARINT, &h, none, 0, octets, length, none, 0, octets, parts, lengths, parts, none, 0, 3, 0, 0, none, 0, out, sizeof out, &w);
    expect(what, w.refusal, refusal);
    orl_cut_count(t, ORL_VARINT, 64, &h, none, 0, octets, length, none, 0, octets, parts, lengths, parts, none, 0, 5, &s, &c);
    expect(what, c.refusal, refusal);
    expect_sender(what, c.sender, s);
    orl_cut_packet(t, ORL_VARINT, 64, &h, none, 0, octets, length, none, 0, octets, parts, lengths, parts, none, 0, octets, 5, &s, 0, out, sizeof out,
                   &p);
    expect(what, p.refusal, refusal);
    expect_sender(what, p.sender, s);
    expect("untouched", out[0], 0xEE);
}

static void zones(void) {
    withdrawn("an empty zone", 8, 5, 1, 0, 0, 30);
    withdrawn("the longest zone", 8, 5, 1, 65535, 0, 30);
    withdrawn("a zone of one octet more", 8, 5, 1, 65536, 0, 22);
    withdrawn("an absent zone with text", 8, 5, 0, 1, 0, 22);
    withdrawn("a zone, T 0", 0, 5, 1, 1, 0, 15);
    withdrawn("a zone, APID 2047", 8, 2047, 1, 1, 0, 22);
    withdrawn("a zone, seventeen domain parts", 8, 5, 1, 1, 17, 30);
}

static void next_count(uint64_t sequence_count, uint64_t refusal, uint64_t next) {
    struct orl_next_sequence_count_answer n;
    orl_next_sequence_count(sequence_count, &n);
    expect("next sequence count, refusal", n.refusal, refusal);
    expect("next sequence count", n.sequence_count, next);
}

/* A sender after a packet and after a segment. */
static void after(struct orl_sender given, uint64_t refusal, struct orl_sender packet, struct orl_sender segment) {
    struct orl_after_answer a;
    orl_after_packet(&given, &a);
    expect("after a packet, refusal", a.refusal, refusal);
    expect_sender("after a packet", a.sender, packet);
    orl_after_segment(&given, &a);
    expect("after a segment, refusal", a.refusal, refusal);
    expect_sender("after a segment", a.sender, segment);
}

static void numbers(void) {
    next_count(0, 0, 1);
    next_count(16382, 0, 16383);
    next_count(16383, 0, 0);
    next_count(65535, 0, 0);
    next_count(65536, 22, 0);
    next_count(UINT64_MAX, 22, 0);
    after(sender(7, 300), 0, sender(8, 300), sender(8, 301));
    after(sender(16383, 4294967295u), 0, sender(0, 4294967295u), sender(0, 0));
    after(sender(7, 4294967296u), 22, sender(7, 4294967296u), sender(7, 4294967296u));
    after(sender(65536, 300), 22, sender(65536, 300), sender(65536, 300));
}

/* Figures 7 to 12: the count at P for a body of so many octets, from a counter. */
static void count(const char *what, uint64_t p, uint64_t body, uint64_t counter, uint64_t refusal, uint64_t packets) {
    struct orl_header h = header_14();
    struct orl_sender s = sender(7, counter);
    struct orl_cut_count_answer a;
    orl_cut_count(8, ORL_VARINT, p, &h, none, 0, none, 0, none, 0, none, 0, no_lengths, 0, none, 0, body, &s, &a);
    expect(what, a.refusal, refusal);
    expect(what, a.count, packets);
    expect(what, a.sender.sequence_count, refusal != 0 ? 7 : 7 + packets);
    expect(what, a.sender.counter, refusal != 0 || packets == 1 ? counter : (counter + packets) % 4294967296u);
}

static uint64_t packet(uint64_t i, uint8_t *out, size_t room, size_t *length) {
    struct orl_header h = header_14();
    struct orl_sender s = sender(7, 5);
    struct orl_cut_packet_answer a;
    uint8_t body[38];
    memset(body, 0x42, sizeof body);
    orl_cut_packet(8, ORL_VARINT, 64, &h, none, 0, none, 0, none, 0, none, 0, no_lengths, 0, none, 0, body, sizeof body, &s, i, out, room, &a);
    expect_sender("the sender stays", a.sender, s);
    *length = (size_t)a.length;
    return a.refusal;
}

static void cutting(void) {
    uint8_t out[64];
    size_t length = 0;
    count("figure 7", 64, 37, 5, 0, 1);
    count("figure 8", 64, 38, 5, 0, 2);
    count("figure 9", 64, 99, 5, 0, 3);
    count("figure 10", 64, 100, 5, 0, 4);
    count("figure 11, 4", 31, 4, 5, 0, 1);
    count("figure 11, 5", 31, 5, 5, 24, 0);
    count("figure 12, passes", 64, 38, 4294967294u, 0, 2);
    count("figure 12, round the end", 64, 38, 4294967295u, 0, 2);
    count("4,096 segments", 32, 4096, 4294967295u, 0, 4096);
    count("4,097 segments", 32, 4097, 5, 29, 0);
    count("P 26", 26, 1, 5, 15, 0);
    count("counter 4,294,967,296", 64, 37, 4294967296u, 22, 0);
    expect("packet 0", packet(0, out, 64, &length), 0);
    expect("its length", length, 64);
    expect("packet 1", packet(1, out, 64, &length), 0);
    expect("its length", length, 36);
    expect("packet 2", packet(2, out, 64, &length), 26);
    expect("packet 0 to 63 octets", packet(0, out, 63, &length), 21);
}

/* What forgetting a cell of a store of two answers. */
static uint64_t forget(uint8_t *store, uint64_t number) {
    struct orl_forget_answer f = {77};
    orl_forget(8, ORL_VARINT, store, 2048, number, &f);
    return f.refusal;
}

/* Figure 8's two packets through a store of two cells, and what comes out (figure 13). Its record knows them when they come again, until it
 * is forgotten. */
static void storing(void) {
    static const uint8_t record[] = {0x4D, 0x54, 0x18, 0x05}, counters[] = {0, 0, 0, 5, 0, 0, 0, 6};
    static uint8_t store[2048], zeros[2048];
    uint8_t first[64], last[64], out[61];
    size_t first_length = 0, last_length = 0;
    struct orl_arrive_answer a;
    struct orl_join_answer j;
    struct orl_in_order_answer o;
    packet(0, first, 64, &first_length);
    packet(1, last, 64, &last_length);
    orl_arrive(8, ORL_VARINT, store, sizeof store, last, last_length, &a);
    expect("the last arrives", a.refusal, 0);
    expect("stored", a.kind, ORL_STORED);
    orl_arrive(8, ORL_VARINT, store, sizeof store, last, last_length, &a);
    expect("held", a.kind, ORL_HELD);
    orl_arrive(8, ORL_VARINT, store, sizeof store, figure_14, 27, &a);
    expect("whole", a.kind, ORL_WHOLE);
    orl_join(8, ORL_VARINT, store, sizeof store, first, first_length, out, sizeof out, &j);
    expect("the first is joined", j.refusal, 0);
    expect("which", j.which, ORL_JOINED);
    expect("place", j.place, 23);
    expect("length", j.length, 38);
    expect("H", j.H, 21);
    expect("B", j.B, 38);
    expect("counter", j.counter, 5);
    expect_octets("packet identification", out, figure_14, 2);
    orl_in_order(8, ORL_VARINT, store, sizeof store, &o);
    expect("in order", o.refusal, 0);
    expect("cells", o.cells, 2);
    expect_octets("the last's cell is free", store, zeros, 1024);
    expect_octets("the first's has the record", store + 1024, record, 4);
    expect_octets("with the header", store + 1028, figure_14 + 6, 21);
    expect_octets("with both counters", store + 1049, counters, 8);
    expect_octets("and zeros", store + 1057, zeros, 991);
    orl_arrive(8, ORL_VARINT, store, sizeof store, last, last_length, &a);
    expect("the last comes late", a.refusal, 0);
    expect("taken", a.kind, ORL_TAKEN);
    orl_join(8, ORL_VARINT, store, sizeof store, first, first_length, out, sizeof out, &j);
    expect("the first comes late", j.refusal, 20);
    expect_octets("nothing is stored", store, zeros, 1024);
    expect("a free cell", forget(store, 0), 31);
    expect("no cell", forget(store, 2), 31);
    expect("no cell by far", forget(store, UINT64_MAX), 31);
    expect("a cell's number and 2 to the 32nd", forget(store, 4294967297u), 31);
    expect("the record", forget(store, 1), 0);
    expect_octets("all cells are free", store, zeros, 2048);
    expect("it is forgotten", forget(store, 1), 31);
    orl_arrive(8, ORL_VARINT, store, sizeof store, last, last_length, &a);
    expect("a new segment", a.kind, ORL_STORED);
    expect("a held cell", forget(store, 0), 31);
    store[1023] = 1;
    expect("not in order", forget(store, 0), 16);
}

/* A packet that comes whole: its body stands where it stood, and nothing is told of a message that was taken. */
static void joining_whole(void) {
    static uint8_t store[1024];
    struct orl_header h = header_14();
    struct orl_write_answer w;
    struct orl_join_answer j;
    uint8_t packet[40], out[1];
    orl_write(8, ORL_VARINT, &h, none, 0, none, 0, none, 0, none, 0, no_lengths, 0, none, 0, 3, 0, 0, figure_14, 4, packet, sizeof packet, &w);
    orl_join(8, ORL_VARINT, store, sizeof store, packet, (size_t)w.length, out, 0, &j);
    expect("a whole packet is joined", j.refusal, 0);
    expect("which", j.which, ORL_PACKET);
    expect("place", j.place, 27);
    expect("length", j.length, 4);
    expect("H", j.H, 0);
    expect("B", j.B, 0);
    expect("counter", j.counter, 0);
}

static void view(uint64_t which, uint64_t place, uint64_t length, uint64_t refusal, uint64_t at, uint64_t octets) {
    static const uint8_t packet[5] = {0}, joined[9] = {0};
    struct orl_view_answer v;
    orl_view(packet, sizeof packet, joined, sizeof joined, which, place, length, &v);
    expect("view, refusal", v.refusal, refusal);
    expect("view, place", v.place, at);
    expect("view, length", v.length, octets);
}

static void viewing(void) {
    view(ORL_PACKET, 1, 4, 0, 1, 4);
    view(ORL_PACKET, 2, 4, 0, 0, 0);
    view(ORL_JOINED, 2, 4, 0, 2, 4);
    view(ORL_JOINED, UINT64_MAX, 1, 0, 0, 0);
    view(ORL_NOTHING, 0, 1, 0, 0, 0);
    view(3, 1, 2, 22, 0, 0);
}

static void taking(void) {
    static uint8_t store[1024];
    uint8_t out[1];
    struct orl_take_answer t;
    orl_take(8, ORL_VARINT, store, sizeof store, out, sizeof out, &t);
    expect("nothing complete", t.refusal, 20);
    store[0] = 1;
    orl_take(8, ORL_VARINT, store, sizeof store, out, sizeof out, &t);
    expect("not in order", t.refusal, 16);
}

/* An idle packet, which is passed over, and figure 14, and then so many octets more. */
static void recorded(const char *what, const char *more, size_t octets, uint64_t stop) {
    static const uint8_t front[8] = {0x4D, 0x4D, 0x00, 0x00, 0x00, 0x17, 0x18, 0x05};
    uint8_t in[80], out[80];
    struct orl_join_recording_answer a;
    memset(out, 0xEE, sizeof out);
    memcpy(in, "MP", 2);
    memcpy(in + 2, figure_14, 27);
    in[2] |= 0x07;
    in[3] = 0xFF;
    memcpy(in + 29, "MP", 2);
    memcpy(in + 31, figure_14, 27);
    memcpy(in + 58, more, octets);
    orl_join_recording(8, ORL_VARINT, in, 58 + octets, out, 57 + octets, &a);
    expect(what, a.refusal, 21);
    expect(what, a.written, 0);
    expect(what, a.place, 0);
    expect(what, a.stop, 0);
    expect(what, out[0], 0xEE);
    orl_join_recording(8, ORL_VARINT, in, 58 + octets, out, 58 + octets, &a);
    expect(what, a.refusal, 0);
    expect(what, a.written, 29);
    expect(what, a.place, 58);
    expect(what, a.stop, stop);
    expect_octets("mark, length and identification", out, front, 8);
    expect_octets("header", out + 8, figure_14 + 6, 21);
    expect(what, out[29], 0xEE);
}

/* A domain of one part "ab" in four octets for each number; its count left a Varint is another packet. */
static void fixed(void) {
    static const uint8_t want[38] = {0x18, 0x05, 0xC0, 0, 0, 0x1F, 0, 0, 1, 0, 2, 0, 3, 1, 0x20, 6, 0, 7, 0,
                                     0,    0,    0,    0, 0, 0,    9, 2, 0, 0, 0, 1, 1, 0, 0, 0,    2, 'a', 'b'};
    static const uint8_t octets[2] = {'a', 'b'};
    const uint64_t two = 2;
    struct orl_header h = header_14();
    struct orl_write_answer w;
    struct orl_read_answer r;
    uint8_t out[38], store[1024] = {0};
    h.has_domain = 1;
    orl_write(8, ORL_FIXED, &h, none, 0, none, 0, none, 0, octets, 2, &two, 1, none, 0, 3, 0, 0, none, 0, out, sizeof out, &w);
    expect("written in four octets", w.refusal, 0);
    expect("its length", w.length, sizeof want);
    expect_octets("its octets", out, want, sizeof want);
    orl_read(8, ORL_FIXED, out, sizeof out, &r);
    expect("read in four octets", r.refusal, 0);
    expect("parts", r.domain_count, 1);
    expect("a part's place", r.domain[0].place, 36);
    expect("a part's length", r.domain[0].length, 2);
    orl_read(8, ORL_VARINT, out, sizeof out, &r);
    expect("the same read with Varints", r.refusal, 0);
    expect("no parts", r.domain_count, 0);
    out[30] = 17;
    orl_read(8, ORL_FIXED, out, sizeof out, &r);
    expect("seventeen parts", r.refusal, 13);
    memset(out + 27, 0xFF, 4);
    out[26] = 1;
    orl_read(8, ORL_FIXED, out, sizeof out, &r);
    expect("the largest length", r.refusal, 12);
    for (uint64_t profile = UINT64_MAX; profile > 1; profile /= 2) {
        struct orl_arrive_answer a;
        struct orl_take_answer t;
        struct orl_forget_answer f;
        struct orl_join_answer j;
        struct orl_in_order_answer o;
        struct orl_join_recording_answer m;
        struct orl_cut_count_answer c;
        struct orl_cut_packet_answer p;
        struct orl_sender s = sender(7, 5);
        orl_read(8, profile, figure_14, 27, &r);
        orl_write(8, profile, &h, none, 0, none, 0, none, 0, octets, 2, &two, 1, none, 0, 3, 0, 0, none, 0, out, sizeof out, &w);
        orl_cut_count(8, profile, 64, &h, none, 0, none, 0, none, 0, octets, 2, &two, 1, none, 0, 4, &s, &c);
        orl_cut_packet(8, profile, 64, &h, none, 0, none, 0, none, 0, octets, 2, &two, 1, none, 0, none, 0, &s, 0, out,
                       sizeof out, &p);
        orl_arrive(8, profile, store, sizeof store, figure_14, 27, &a);
        orl_take(8, profile, store, sizeof store, out, sizeof out, &t);
        orl_forget(8, profile, store, sizeof store, 0, &f);
        orl_join(8, profile, store, sizeof store, figure_14, 27, out, sizeof out, &j);
        orl_in_order(8, profile, store, sizeof store, &o);
        orl_join_recording(8, profile, none, 0, out, sizeof out, &m);
        const uint64_t refusals[10] = {r.refusal, w.refusal, c.refusal, p.refusal, a.refusal, t.refusal, f.refusal, j.refusal, o.refusal, m.refusal};
        for (int i = 0; i < 10; i++) expect("a profile that there is not", refusals[i], 15);
    }
}

static void recording(void) {
    recorded("a whole recording", "", 0, ORL_ENDED);
    recorded("an unmarked recording", "x", 1, ORL_UNMARKED);
    recorded("a recording with a store's mark", "MS\x18\x05\xC0", 5, ORL_UNMARKED);
    recorded("a recording torn in a mark", "M", 1, ORL_TORN);
    recorded("a recording torn after a mark", "MP", 2, ORL_TORN);
    recorded("a recording torn in a packet", "MP\x18\x05\xC0\x00\x00\x14\x00", 9, ORL_TORN);
}

/* An octet, figure 14 after its mark, another octet: listed at once, and with a stop before each entry. */
static void salvaging(void) {
    static const uint64_t whole[9] = {ORL_SKIPPED, 0, 1, ORL_KEPT, 1, 29, ORL_SKIPPED, 30, 1};
    uint8_t file[31];
    uint64_t list[13];
    struct orl_salvage_answer a;
    file[0] = 'a';
    memcpy(file + 1, "MP", 2);
    memcpy(file + 3, figure_14, 27);
    file[30] = 'b';
    for (size_t k = 0; k < 13; k++) list[k] = 77;
    orl_salvage(8, ORL_VARINT, file, 31, 0, 0, 3, list, 12, &a);
    expect("salvaged", a.refusal, 0);
    expect("places tested", a.tested, 3);
    expect("entries", a.entries, 3);
    expect("begin", a.begin, 31);
    expect("place", a.place, 31);
    expect("done", a.done, 1);
    expect("the list", memcmp(list, whole, sizeof whole) != 0, 0);
    expect("the rest of the list", list[9], 77);
    orl_salvage(8, ORL_VARINT, file, 31, 0, 0, 1, list, 12, &a);
    expect("one place tested", a.tested, 1);
    expect("nothing listed", a.entries, 0);
    expect("an open stretch", a.begin, 0);
    expect("the next place", a.place, 1);
    expect("not done", a.done, 0);
    orl_salvage(8, ORL_VARINT, file, 31, a.begin, a.place, 9, list, 8, &a);
    expect("the packet tested", a.tested, 1);
    expect("stretch and packet listed", a.entries, 2);
    expect("a full list", a.place, 30);
    expect("both entries", memcmp(list, whole, 6 * sizeof *whole) != 0, 0);
    orl_salvage(8, ORL_VARINT, file, 31, 2, 1, 9, list, 12, &a);
    expect("a stretch that begins after the place", a.refusal, 40);
    expect("nothing tested", a.tested, 0);
    orl_salvage(8, ORL_VARINT, file, 31, 0, 32, 9, list, 12, &a);
    expect("a place after the end", a.refusal, 40);
    orl_salvage(0, ORL_VARINT, file, 31, 2, 1, 9, list, 12, &a);
    expect("T first", a.refusal, 15);
}

/* Figure 14 as a message to the office and back; an id that is no digits, and lent values out of range. */
static void office(void) {
    static const uint8_t pdu[23] = {0x20, 0, 1, 0, 2, 0, 3, 1, 0x10, 0, 0, 0, 0, 0, 0, 0, 9, 0, 5, 0, 0, 0, 0};
    static const uint8_t zeros[27] = {0x20, 0, 1, 0, 2, 0, 3, 1, 0x10, 0, 0, 0, 0, 0, 0, 0, 9, 0x80, 5, 0, 0, 0, 4, 3, '0', '0', '7'};
    const struct orl_route route = {1, 5, 6, 7};
    const struct orl_route idle = {1, 2047, 6, 7};
    uint8_t message[23], out[24], back[24];
    struct orl_to_pdu_answer a;
    struct orl_to_message_answer b;
    memcpy(message, figure_14, 2);
    memcpy(message + 2, figure_14 + 6, 21);
    memset(out, 77, sizeof out);
    memset(back, 77, sizeof back);
    orl_to_pdu(8, ORL_VARINT, message, 23, 5, out, 24, &a);
    expect("carried to the office", a.refusal, 0);
    expect("the PDU's octets", a.length, 23);
    expect("those before the body", a.header_length, 23);
    expect("the PDU", memcmp(out, pdu, 23) != 0, 0);
    expect("the rest of the output", out[23], 77);
    orl_to_message(8, ORL_VARINT, out, 23, &route, back, 24, &b);
    expect("carried back", b.refusal, 0);
    expect("its H", b.H, 21);
    expect("its B", b.B, 0);
    expect("its encoding id", b.encoding_id, 5);
    expect("the message", memcmp(back, message, 23) != 0, 0);
    expect("the rest of that output", back[23], 77);
    orl_to_pdu(8, ORL_VARINT, message, 5, 5, out, 24, &a);
    expect("a message that ends", a.refusal, 6);
    expect("in the field that began", a.began, 3);
    orl_to_pdu(8, ORL_VARINT, message, 1, 256, out, 24, &a);
    expect("an encoding id too wide, before all that is read", a.refusal, 22);
    orl_to_message(8, ORL_VARINT, zeros, 27, &route, back, 24, &b);
    expect("leading zeros", b.refusal, 33);
    orl_to_message(8, ORL_VARINT, zeros, 26, &route, back, 24, &b);
    expect("a PDU that is too short", b.refusal, 5);
    expect("by so many octets", b.off, 1);
    orl_to_message(8, ORL_VARINT, zeros, 0, &idle, back, 24, &b);
    expect("the idle APID lent, before all that is read", b.refusal, 22);
}

/* Every field of a PDU, each of another value, read and written; then a PDU that ends, one that is too long, and a number too wide. */
static void pdus(void) {
    static const uint8_t pdu[] = {0x31, 0x11, 0x12, 0x21, 0x22, 0x31, 0x32, 0x41, 0xDB, 0x61, 0x62, 0x63, 0x64, 0x65, 0x66, 0x67, 0x68, 0xFF, 0x53,
                                  0,    0,    0,    37,   1,    '7',  2,    '8',  '9',  0xAC, 2,    1,    2,    3,    4,    5,    6,    2,    'z',
                                  'o',  3,    's',  'e',  's',  2,    1,    1,    'd',  1,    2,    'e',  'f',  4,    9,    8,    7,    6,    'b',
                                  'o',  'd',  'y'};
    static const uint64_t lengths[2] = {1, 2};
    struct orl_pdu_header h = {17, 0x1112, 0x2122, 0x3132, 0x41, 1, 5, 11, 0x6162636465666768u, 1, 1, 1, 1, 1, 1, 1, 1, 0x53, 300};
    uint8_t out[sizeof pdu + 1];
    struct orl_pdu_read_answer r;
    struct orl_pdu_write_answer w;
    memset(out, 77, sizeof out);
    orl_pdu_write(&h, pdu + 24, 1, pdu + 26, 2, pdu + 30, 6, pdu + 37, 2, pdu + 40, 3, (const uint8_t *)"def", 3, lengths, 2, pdu + 52, 4,
                  pdu + 56, 4, out, sizeof out, &w);
    expect("a PDU is written", w.refusal, 0);
    expect("its octets", w.length, sizeof pdu);
    expect("those before the body", w.header_length, 56);
    expect_octets("the PDU", out, pdu, sizeof pdu);
    expect("the rest of the output", out[sizeof pdu], 77);
    orl_pdu_read(pdu, sizeof pdu, &r);
    expect("a PDU is read", r.refusal, 0);
    expect("SDU type", r.sdu, 17);
    expect("area", r.area, 0x1112);
    expect("service", r.service, 0x2122);
    expect("operation", r.operation, 0x3132);
    expect("area version", r.area_version, 0x41);
    expect("error", r.error, 1);
    expect("QoS level", r.qos, 5);
    expect("session", r.session, 11);
    expect("transaction id", r.transaction, 0x6162636465666768u);
    expect("present", r.has_source & r.has_destination & r.has_priority & r.has_timestamp, 1);
    expect("present too", r.has_zone & r.has_session_name & r.has_domain & r.has_authentication, 1);
    expect("encoding id", r.encoding_id, 0x53);
    expect("source", r.source.place * 100 + r.source.length, 2401);
    expect("destination", r.destination.place * 100 + r.destination.length, 2602);
    expect("priority", r.priority, 300);
    expect("timestamp", r.timestamp.place * 100 + r.timestamp.length, 3006);
    expect("zone", r.zone.place * 100 + r.zone.length, 3702);
    expect("session name", r.session_name.place * 100 + r.session_name.length, 4003);
    expect("domain count", r.domain_count, 2);
    expect("first part", r.domain[0].place * 100 + r.domain[0].length, 4601);
    expect("second part", r.domain[1].place * 100 + r.domain[1].length, 4902);
    expect("no third part", r.domain[2].place + r.domain[2].length, 0);
    expect("authentication", r.authentication.place * 100 + r.authentication.length, 5204);
    expect("variable length", r.variable_length, 37);
    expect("body", r.body.place * 100 + r.body.length, 5604);
    orl_pdu_read(pdu, sizeof pdu - 1, &r);
    expect("a PDU that ends", r.refusal, 5);
    expect("by so many octets", r.off, 1);
    orl_pdu_read(out, sizeof out, &r);
    expect("a PDU that is too long", r.refusal, 27);
    expect("by so many", r.off, 1);
    memset(out, 77, sizeof out);
    h.area = 65536;
    orl_pdu_write(&h, pdu, 0, pdu, 0, pdu, 0, pdu, 0, pdu, 0, pdu, 0, lengths, 0, pdu, 0, pdu, 0, out, sizeof out, &w);
    expect("an area too wide", w.refusal, 22);
    expect("nothing is told", w.length + w.header_length, 0);
    h.area = (uint64_t)1 << 32;
    orl_pdu_write(&h, pdu, 0, pdu, 0, pdu, 0, pdu, 0, pdu, 0, pdu, 0, lengths, 0, pdu, 0, pdu, 0, out, sizeof out, &w);
    expect("an area that would be 0 if it were cut", w.refusal, 22);
    expect("nothing is written", out[0], 77);
}

int main(void) {
    reading();
    refusals();
    writing();
    texts();
    zones();
    numbers();
    cutting();
    storing();
    joining_whole();
    viewing();
    taking();
    recording();
    fixed();
    salvaging();
    office();
    pdus();
    return told("calls");
}
