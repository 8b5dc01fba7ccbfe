/*
 * One packet with every field, each of another value, written, cut, read, stored and taken: every field compared by its name, and
 * the octets with those that are laid here one by one. A field that has only two values is told from its neighbours by further
 * packets, each with one presence flag alone. A network zone is withdrawn: a message with one is laid by hand, and no call writes it.
 * Compiled and run as calls.c is.
 */
#include "expect.h"

#define T 7
#define PARTS 16
#define P 228      /* so that a segment with a zone carries four octets of body */
#define HEADER 214 /* octets of its secondary header without its counter */
#define ZONE 3     /* octets of the zone in it */
#define BODY 10    /* octets of the message's body, cut into 4, 4 and 2 */
#define COUNT 0x1A2B
#define COUNTER 0x81828384u

static const uint8_t timestamp[T] = {0x91, 0x92, 0x93, 0x94, 0x95, 0x96, 0x97};
static const uint8_t zone[2] = {0x79, 0x7A};
static const uint8_t session_name[3] = {0x75, 0x76, 0x77};
static const uint8_t authentication[5] = {0xD1, 0xD2, 0xD3, 0xD4, 0xD5};
static const uint8_t body[BODY] = {0xE0, 0xE1, 0xE2, 0xE3, 0xE4, 0xE5, 0xE6, 0xE7, 0xE8, 0xE9};

/* The domain: part k has k + 1 octets 0x30 + k. */
static uint8_t domain[PARTS * (PARTS + 1) / 2];
static uint64_t domain_lengths[PARTS];

static void fill_domain(void) {
    size_t at = 0;
    for (size_t k = 0; k < PARTS; k++) {
        memset(domain + at, (int)(0x30 + k), k + 1);
        domain_lengths[k] = k + 1;
        at += k + 1;
    }
}

#define TEXTS(zoned)                                                                                                           \
    timestamp, sizeof timestamp, zone, (zoned) ? sizeof zone : 0, session_name, sizeof session_name, domain, sizeof domain,    \
        domain_lengths, PARTS, authentication, sizeof authentication

/* The presence flags by their bits, source first. */
static void set_present(struct orl_header *h, unsigned octet) {
    h->has_source = octet >> 7 & 1;
    h->has_destination = octet >> 6 & 1;
    h->has_priority = octet >> 5 & 1;
    h->has_timestamp = octet >> 4 & 1;
    h->has_zone = octet >> 3 & 1;
    h->has_session_name = octet >> 2 & 1;
    h->has_domain = octet >> 1 & 1;
    h->has_authentication = octet & 1;
}

static void expect_present(const struct orl_read_answer *a, unsigned octet) {
    expect("has source", a->has_source, octet >> 7 & 1);
    expect("has destination", a->has_destination, octet >> 6 & 1);
    expect("has priority", a->has_priority, octet >> 5 & 1);
    expect("has timestamp", a->has_timestamp, octet >> 4 & 1);
    expect("has zone", a->has_zone, octet >> 3 & 1);
    expect("has session name", a->has_session_name, octet >> 2 & 1);
    expect("has domain", a->has_domain, octet >> 1 & 1);
    expect("has authentication", a->has_authentication, octet & 1);
}

/* The header: what stands in `front` below, with the zone or without. */
static struct orl_header every_header(int zoned) {
    struct orl_header h;
    memset(&h, 0, sizeof h);
    h.packet_type = 1;
    h.apid = 0x123;
    h.sdu = 17;
    h.area = 0x1112;
    h.service = 0x2122;
    h.operation = 0x3132;
    h.area_version = 0x41;
    h.error = 0;
    h.qos = 3;
    h.session = 2;
    h.secondary_apid = 0x345;
    h.qualifier = 0x5152;
    h.transaction = 0x6162636465666768u;
    set_present(&h, zoned ? 0xFF : 0xF7);
    h.source = 0x71;
    h.destination = 0x72;
    h.priority = 300;
    return h;
}

/* Segment i of the message with a zone or without, by hand: its octets. */
static size_t segment(unsigned i, int zoned, uint8_t *out) {
    static const uint8_t front[50] = {0x19, 0x23, 0x5A, 0x2B, 0x00, 0xDD, 0x11, 0x11, 0x12, 0x21, 0x22, 0x31, 0x32,
                                      0x41, 0x73, 0x45, 0x51, 0x52, 0x61, 0x62, 0x63, 0x64, 0x65, 0x66, 0x67, 0x68,
                                      0xFF, 0x71, 0x72, 0x81, 0x82, 0x83, 0x84, 0xAC, 0x02, 0x91, 0x92, 0x93, 0x94,
                                      0x95, 0x96, 0x97, 0x02, 0x79, 0x7A, 0x03, 0x75, 0x76, 0x77, 0x10};
    static const uint8_t flags[3] = {0x40, 0x00, 0x80};
    const size_t before = 42, after = sizeof front - before - ZONE, carried = i < 2 ? 4 : 2;
    size_t at = zoned ? before + ZONE : before;
    memcpy(out, front, before + ZONE);
    memcpy(out + at, front + before + ZONE, after);
    at += after;
    out[26] = zoned ? 0xFF : 0xF7;
    out[2] = (uint8_t)(flags[i] | 0x1A);
    out[3] = (uint8_t)(0x2B + i);
    out[5] = (uint8_t)(0xD9 + carried - (zoned ? 0 : ZONE));
    out[32] = (uint8_t)(0x84 + i);
    for (size_t k = 0; k < PARTS; k++) {
        out[at] = 1;
        out[at + 1] = (uint8_t)(k + 1);
        memset(out + at + 2, (int)(0x30 + k), k + 1);
        at += k + 3;
    }
    out[at] = sizeof authentication;
    memcpy(out + at + 1, authentication, sizeof authentication);
    at += 1 + sizeof authentication;
    memcpy(out + at, body + 4 * i, carried);
    return at + carried;
}

static void expect_place(const char *what, struct orl_place got, uint64_t place, uint64_t length) {
    expect(what, got.place, place);
    expect(what, got.length, length);
}

/* What reading tells of segment i, but for its presence flags. */
static void expect_segment(unsigned i, int zoned, const struct orl_read_answer *a) {
    static const uint64_t flags[3] = {1, 0, 2};
    const uint64_t less = zoned ? 0 : ZONE;
    expect("read", a->refusal, 0);
    expect("packet type", a->packet_type, 1);
    expect("APID", a->apid, 0x123);
    expect("flags", a->flags, flags[i]);
    expect("sequence count", a->sequence_count, COUNT + i);
    expect("SDU type", a->sdu, 17);
    expect("area", a->area, 0x1112);
    expect("service", a->service, 0x2122);
    expect("operation", a->operation, 0x3132);
    expect("area version", a->area_version, 0x41);
    expect("error", a->error, 0);
    expect("QoS level", a->qos, 3);
    expect("session", a->session, 2);
    expect("secondary APID", a->secondary_apid, 0x345);
    expect("qualifier", a->qualifier, 0x5152);
    expect("transaction id", a->transaction, 0x6162636465666768u);
    expect("source", a->source, 0x71);
    expect("destination", a->destination, 0x72);
    expect("counter", a->counter, COUNTER + i);
    expect("priority", a->priority, 300);
    expect_place("timestamp", a->timestamp, 35, T);
    expect_place("zone", a->zone, zoned ? 43 : 0, zoned ? 2 : 0);
    expect_place("session name", a->session_name, 46 - less, 3);
    expect("domain count", a->domain_count, PARTS);
    for (size_t k = 0; k < PARTS; k++) {
        expect_place("domain", a->domain[k], 52 - less + k * (k + 1) / 2 + 2 * k, k + 1);
    }
    expect_place("authentication", a->authentication, 219 - less, 5);
    expect("H", a->H, HEADER - less);
    expect_place("body", a->body, 224 - less, i < 2 ? 4 : 2);
    expect("withdrawn", a->withdrawn, zoned ? 1 : 0);
}

static void writing(void) {
    struct orl_header h = every_header(0);
    struct orl_write_answer a;
    uint8_t out[P], want[P];
    memset(out, 0xEE, sizeof out);
    memset(want, 0xEE, sizeof want);
    orl_write(T, ORL_VARINT, &h, TEXTS(0), 1, COUNT, COUNTER, body, 4, out, sizeof out, &a);
    expect("write", a.refusal, 0);
    expect("written", a.length, segment(0, 0, want));
    expect_octets("the packet", out, want, sizeof want);
    h = every_header(1);
    orl_write(T, ORL_VARINT, &h, TEXTS(1), 1, COUNT, COUNTER, body, 4, out, sizeof out, &a);
    expect("write a zone", a.refusal, 30);
    expect_octets("the packet stays", out, want, sizeof want);
}

/* Packet i of the message, cut, but by hand if it has a zone: read, and put into a store. */
static void cutting(unsigned i, int zoned, uint8_t *store, size_t store_length) {
    struct orl_header h = every_header(zoned);
    struct orl_sender s = sender(COUNT, COUNTER);
    struct orl_cut_packet_answer a;
    struct orl_read_answer r;
    struct orl_arrive_answer v;
    uint8_t out[P], want[P];
    size_t length = segment(i, zoned, want);
    orl_cut_packet(T, ORL_VARINT, zoned ? P : P - ZONE, &h, TEXTS(zoned), body, BODY, &s, i, out, sizeof out, &a);
    expect("cut", a.refusal, zoned ? 30 : 0);
    expect("its length", a.length, zoned ? 0 : length);
    expect_sender("the sender stays", a.sender, s);
    if (!zoned) {
        expect_octets("the packet", out, want, length);
    }
    orl_read(T, ORL_VARINT, want, length, &r);
    expect_segment(i, zoned, &r);
    expect_present(&r, zoned ? 0xFF : 0xF7);
    orl_arrive(T, ORL_VARINT, store, store_length, want, length, &v);
    expect("arrives", v.refusal, 0);
    expect("stored", v.kind, ORL_STORED);
}

/* The whole message through a store, with the zone or without. */
static void message(int zoned) {
    static uint8_t store[4096];
    const size_t header = zoned ? HEADER : HEADER - ZONE;
    struct orl_header h = every_header(zoned);
    struct orl_sender s = sender(COUNT, COUNTER);
    struct orl_cut_count_answer c;
    struct orl_take_answer t;
    uint8_t out[2 + HEADER + BODY], first[P];
    orl_cut_count(T, ORL_VARINT, zoned ? P : P - ZONE, &h, TEXTS(zoned), BODY, &s, &c);
    expect("cut", c.refusal, zoned ? 30 : 0);
    expect("count", c.count, zoned ? 0 : 3);
    expect_sender("the sender after it", c.sender, zoned ? s : sender(COUNT + 3, COUNTER + 3));
    for (unsigned i = 0; i < 3; i++) {
        cutting(i, zoned, store, sizeof store);
    }
    segment(0, zoned, first);
    orl_take(T, ORL_VARINT, store, sizeof store, out, sizeof out, &t);
    expect("taken", t.refusal, 0);
    expect("H", t.H, header);
    expect("B", t.B, BODY);
    expect("counter", t.counter, COUNTER);
    expect_octets("packet identification", out, first, 2);
    expect_octets("header before the counter", out + 2, first + 6, 23);
    expect_octets("header after the counter", out + 25, first + 33, header - 23);
    expect_octets("body", out + 2 + header, body, BODY);
}

/* A packet that was written without a zone gets one of one octet, by hand, after its fixed part: its length. */
static size_t with_zone(uint8_t *out, size_t length) {
    memmove(out + 29, out + 27, length - 27);
    out[5] = (uint8_t)(out[5] + 2);
    out[26] |= 8;
    out[27] = 1;
    out[28] = zone[0];
    return length + 2;
}

/* One optional field alone, of one octet, or of none for a domain; a telemetry packet that is an error. */
static void one_field(unsigned present) {
    struct orl_header h = every_header(0);
    struct orl_write_answer w;
    struct orl_read_answer r;
    uint8_t out[40];
    const uint64_t zoned = present >> 3 & 1;
    h.packet_type = 0;
    h.error = 1;
    set_present(&h, present & 0xF7);
    h.source = h.has_source * 0x71;
    h.destination = h.has_destination * 0x72;
    h.priority = h.has_priority * 0x73;
    orl_write(1, ORL_VARINT, &h, timestamp, (size_t)h.has_timestamp, zone, 0, session_name, (size_t)h.has_session_name, domain, 0, domain_lengths,
              0, authentication, (size_t)h.has_authentication, 3, COUNT, 0, body, 1, out, sizeof out, &w);
    expect("write", w.refusal, 0);
    if (zoned) {
        w.length = with_zone(out, (size_t)w.length);
    }
    expect("packet identification", out[0], 0x09);
    expect("error, QoS level and session", out[14], 0xF3);
    expect("presence", out[26], present);
    orl_read(1, ORL_VARINT, out, (size_t)w.length, &r);
    expect("read", r.refusal, 0);
    expect("packet type", r.packet_type, 0);
    expect("error", r.error, 1);
    expect("source", r.source, h.source);
    expect("destination", r.destination, h.destination);
    expect("priority", r.priority, h.priority);
    expect("no counter", r.counter, 0);
    expect_present(&r, present);
    expect_place("timestamp", r.timestamp, h.has_timestamp * 27, h.has_timestamp);
    expect_place("zone", r.zone, zoned * 28, zoned);
    expect("withdrawn", r.withdrawn, zoned);
    expect_place("session name", r.session_name, h.has_session_name * 28, h.has_session_name);
    expect("domain count", r.domain_count, 0);
    expect_place("authentication", r.authentication, h.has_authentication * 28, h.has_authentication);
}

int main(void) {
    fill_domain();
    writing();
    message(0);
    message(1);
    one_field(0);
    for (unsigned bit = 0; bit < 8; bit++) {
        one_field(1u << bit);
    }
    return told("fields");
}
