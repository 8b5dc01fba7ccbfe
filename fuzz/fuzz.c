/*
 * A target for a coverage-guided fuzzer over the calls for C. The first octet of an input chooses what is done with the rest. Every
 * buffer is just as long as it is said to be, so that the address sanitizer sees any octet outside. Beside that the answers are held
 * to what SPEC ties together: a packet or PDU that reads writes back to the octet, a message that is cut comes out of the store as it
 * went in, a refusal changes nothing, a recording gives the messages that joining gives one packet at a time, and kept and skipped
 * entries cover a damaged one, however often salvaging stops.
 */
#include <stdio.h>
#include <stdlib.h>
#include <string.h>

#include "../include/orlyukan.h"

#define CELL 1024
#define MOST 65542

static void hold(int test, const char *what) {
    if (!test) {
        fprintf(stderr, "does not hold: %s\n", what);
        abort();
    }
}

/* what is left of an input */
struct rest {
    const uint8_t *at;
    size_t left;
};

static uint64_t number(struct rest *in, size_t octets) {
    uint64_t n = 0;
    for (; octets > 0 && in->left > 0; octets--, in->at++, in->left--) n = n << 8 | *in->at;
    return n;
}

/* a copy of the next octets, or of as many as there are, in memory of just their length */
static uint8_t *octets(struct rest *in, size_t *length) {
    if (*length > in->left) *length = in->left;
    uint8_t *copy = malloc(*length ? *length : 1);
    memcpy(copy, in->at, *length);
    in->at += *length;
    in->left -= *length;
    return copy;
}

static uint8_t *like(const uint8_t *from, size_t length) {
    uint8_t *copy = malloc(length ? length : 1);
    memcpy(copy, from, length);
    return copy;
}

static int all_zero(const void *answer, size_t size) {
    const uint64_t *n = answer;
    for (size_t i = 1; i < size / 8; i++)
        if (n[i] != 0) return 0;
    return 1;
}

/* a header with the texts that it needs */
struct message {
    struct orl_header header;
    const uint8_t *text[5]; /* timestamp, zone, session name, domain, authentication id */
    size_t length[5];
    uint64_t parts[32];
    size_t part_count;
};

#define TEXTS(m)                                                                                                              \
    (m)->text[0], (m)->length[0], (m)->text[1], (m)->length[1], (m)->text[2], (m)->length[2], (m)->text[3], (m)->length[3],  \
        (m)->parts, (m)->part_count, (m)->text[4], (m)->length[4]

/* the values of a packet that was read, to be written again; its domain's text is gathered into the room given */
static void message_of(const uint8_t *packet, const struct orl_read_answer *r, uint8_t *room, struct message *m) {
    memcpy(&m->header, &r->packet_type, 2 * 8);
    memcpy(&m->header.sdu, &r->sdu, 21 * 8);
    m->header.priority = r->priority;
    const struct orl_place place[5] = {r->timestamp, r->zone, r->session_name, {0, 0}, r->authentication};
    for (int i = 0; i < 5; i++) {
        m->text[i] = packet + place[i].place;
        m->length[i] = place[i].length;
    }
    m->text[3] = room;
    m->part_count = r->domain_count;
    for (size_t i = 0; i < r->domain_count; i++) {
        memcpy(room + m->length[3], packet + r->domain[i].place, r->domain[i].length);
        m->length[3] += r->domain[i].length;
        m->parts[i] = r->domain[i].length;
    }
}

/* what a refusal of reading tells */
static void hold_told(const uint8_t *packet, size_t length, uint64_t refusal, uint64_t off, uint64_t began) {
    size_t said = length < 6 ? 0 : (packet[4] << 8 | packet[5]) + 7;
    hold(off == (refusal == 5 ? said - length : refusal == 27 ? length - said : 0), "5 and 27 tell the octets missing or left over");
    hold(refusal == 6 ? began <= length - 6 : began == 0, "6 tells a place in the secondary header");
}

static void reading(struct rest in) {
    uint64_t t = number(&in, 1), profile = t >> 6;
    t &= 63;
    size_t length = in.left;
    uint8_t *packet = octets(&in, &length);
    struct orl_read_answer r;
    memset(&r, 0xaa, sizeof r);
    orl_read(t, profile, packet, length, &r);
    hold(r.refusal <= 15 || r.refusal == 27 || r.refusal == 28, "reading gives 1 to 15, 27 or 28");
    hold(r.refusal != 10 || profile == ORL_VARINT, "10 is for Varints");
    hold_told(packet, length, r.refusal, r.off, r.began);
    if (r.refusal != 0) {
        hold(all_zero(&r, offsetof(struct orl_read_answer, off)) && r.withdrawn == 0, "a refused reading tells zeros");
    } else {
        struct message m = {0};
        uint8_t room[256], *out = malloc(length);
        struct orl_write_answer w;
        hold(r.body.place + r.body.length == length, "the body ends the packet");
        hold(r.withdrawn == r.has_zone, "a header with a zone is of the withdrawn kind");
        message_of(packet, &r, room, &m);
        orl_write(t, profile, &m.header, TEXTS(&m), r.flags, r.sequence_count, r.counter, packet + r.body.place, r.body.length, out, length,
                  &w);
        if (r.has_zone) {
            hold(w.refusal == 30 && w.length == 0, "a zone is withdrawn");
        } else {
            hold(w.refusal == 0 && w.length == length && memcmp(out, packet, length) == 0, "what reads writes back");
        }
        free(out);
    }
    free(packet);
}

/* numbers mostly of their width, now and then of any */
static void any_message(struct rest *in, struct message *m, uint8_t *held[5]) {
    static const uint8_t width[24] = {1, 2, 1, 2, 2, 2, 1, 1, 1, 1, 2, 2, 8, 0, 0, 0, 0, 0, 0, 0, 0, 1, 1, 4};
    uint64_t *n = &m->header.packet_type, present = number(in, 1), wide = number(in, 1);
    for (int i = 0; i < 24; i++) n[i] = number(in, width[i]);
    for (int i = 0; i < 8; i++) n[13 + i] = present >> (7 - i) & 1;
    if (wide % 8) n[17] = 0; /* a zone is withdrawn, and refused by 30 */
    n[0] &= 1, n[1] &= 2047, n[7] &= 1, n[8] &= 3, n[10] &= 2047;
    for (int i = 0; i < 3; i++) n[21 + i] *= n[13 + i];
    if (wide > 230) n[wide % 24] = number(in, 8);
    for (int i = 0; i < 5; i++) {
        m->length[i] = n[16 + i] ? number(in, 1) : 0;
        held[i] = octets(in, &m->length[i]);
        m->text[i] = held[i];
    }
    if (n[19] == 1) {
        m->part_count = number(in, 1) % 20;
        size_t left = m->length[3];
        for (size_t i = 0; i < m->part_count; i++) {
            m->parts[i] = i + 1 == m->part_count ? left : number(in, 1) % (left + 1);
            left -= m->parts[i];
        }
    }
}

/* cuts a message, puts its packets into a store, and takes it out again */
static void cutting(struct rest in) {
    struct message m = {0};
    uint8_t *held[5];
    uint64_t t = number(&in, 1), profile = t >> 6, p = number(&in, 2);
    t &= 63;
    struct orl_sender sender = {number(&in, 2), number(&in, 4)};
    any_message(&in, &m, held);
    m.length[0] = m.header.has_timestamp == 1 && m.length[0] > t ? t : m.length[0];
    size_t length = in.left;
    uint8_t *body = octets(&in, &length);
    struct orl_cut_count_answer c;
    orl_cut_count(t, profile, p, &m.header, TEXTS(&m), length, &sender, &c);
    hold(c.refusal == 0 || (c.count == 0 && memcmp(&c.sender, &sender, sizeof sender) == 0), "a refused count");
    uint8_t *store = calloc(64, CELL), *out = malloc(MOST), *joined = malloc(64 * CELL);
    for (uint64_t i = 0; i < c.count && i < 64; i++) {
        struct orl_cut_packet_answer w;
        struct orl_arrive_answer a;
        orl_cut_packet(t, profile, p, &m.header, TEXTS(&m), body, length, &sender, i, out, MOST, &w);
        hold(w.refusal == 0 && w.length <= p, "each packet of a count is written");
        orl_arrive(t, profile, store, 64 * CELL, out, w.length, &a);
        hold(a.refusal == 17 || (a.refusal == 0 && a.kind == (c.count == 1 ? ORL_WHOLE : ORL_STORED)), "each packet arrives");
        if (a.refusal == 17) c.count = 0;
    }
    if (c.count > 1 && c.count <= 64) {
        struct orl_take_answer k;
        orl_take(t, profile, store, 64 * CELL, joined, 64 * CELL, &k);
        hold(k.refusal == 0 && k.B == length && k.counter == sender.counter, "a message that was cut is complete");
        hold(memcmp(joined + 2 + k.H, body, length) == 0, "it comes out as it went in");
        struct orl_forget_answer f;
        orl_forget(t, profile, store, 64 * CELL, 0, &f);
        hold(f.refusal == 0, "its record is forgotten");
        hold(store[0] == 0 && memcmp(store, store + 1, 64 * CELL - 1) == 0, "its cells are free again");
    }
    for (int i = 0; i < 5; i++) free(held[i]);
    free(body), free(store), free(out), free(joined);
}

/* a store of any octets, mostly of cells with a mark and zeros at their end; a packet that arrives, and a taking */
static void storing(struct rest in, int joins) {
    uint64_t t = number(&in, 1), profile = t >> 6;
    t &= 63;
    size_t cells = number(&in, 1) % 6, size = cells * CELL;
    uint8_t *store = calloc(cells ? cells : 1, CELL);
    for (size_t i = 0; i < cells; i++) {
        size_t length = number(&in, 2) % 1100;
        uint8_t *held = octets(&in, &length);
        if (length > 0) memcpy(store + i * CELL, length % 2 ? "MS" : "MT", 2);
        memcpy(store + i * CELL + 2, held, length > CELL - 2 ? CELL - 2 : length);
        free(held);
    }
    size_t room = number(&in, 2), length = in.left;
    uint8_t *packet = octets(&in, &length), *out = calloc(room ? room : 1, 1);
    uint8_t *before = like(store, size), *out_before = like(out, room);
    struct orl_in_order_answer order;
    orl_in_order(t, profile, store, size, &order);
    if (joins) {
        struct orl_join_answer j;
        orl_join(t, profile, store, size, packet, length, out, room, &j);
        hold(j.refusal == 0 || memcmp(out, out_before, room) == 0, "a refused joining leaves the output");
        hold_told(packet, length, j.refusal, j.off, j.began);
        hold(j.refusal == 0 || j.refusal == 20 || j.refusal == 21 || memcmp(store, before, size) == 0,
             "a refused arrival leaves the store");
        hold(order.refusal == 0 || j.refusal == order.refusal, "15 and 16 come first");
    } else {
        struct orl_arrive_answer a;
        struct orl_take_answer k;
        orl_arrive(t, profile, store, size, packet, length, &a);
        hold_told(packet, length, a.refusal, a.off, a.began);
        hold(a.kind == ORL_STORED || memcmp(store, before, size) == 0, "only a stored segment changes the store");
        hold(order.refusal == 0 || a.refusal == order.refusal, "15 and 16 come first");
        orl_take(t, profile, store, size, out, room, &k);
        hold(k.refusal == 0 || memcmp(out, out_before, room) == 0, "a refused taking leaves the output");
        struct orl_forget_answer f;
        orl_forget(t, profile, store, size, length % 7, &f);
        hold(order.refusal == 0 || f.refusal == order.refusal, "15 and 16 come first");
    }
    uint64_t refusal = order.refusal;
    orl_in_order(t, profile, store, size, &order);
    hold(order.refusal == refusal, "a store in order stays so");
    free(store), free(packet), free(out), free(before), free(out_before);
}

/* a recording, by one call and one packet at a time */
static void recording(struct rest in) {
    size_t length = in.left, at = 0, written = 0;
    uint64_t profile = length % 2;
    uint8_t *octet = octets(&in, &length), *out = malloc(length + 1), *store = calloc(32, CELL), *joined = malloc(MOST);
    struct orl_join_recording_answer a;
    orl_join_recording(8, profile, octet, length, out, length, &a);
    hold(a.refusal == 0 && a.written <= length && a.place <= length, "a recording is not refused");
    while (length - at >= 8 && memcmp(octet + at, "MP", 2) == 0) {
        size_t size = (octet[at + 6] << 8 | octet[at + 7]) + 7;
        struct orl_join_answer j = {0};
        if (size > length - at - 2) break;
        if (size <= 32768) orl_join(8, profile, store, 32 * CELL, octet + at + 2, size, joined, MOST, &j);
        for (uint64_t i = 0; i < 32 && j.refusal == 19; i++) {
            struct orl_forget_answer f;
            orl_forget(8, profile, store, 32 * CELL, i, &f);
            if (f.refusal == 0) orl_join(8, profile, store, 32 * CELL, octet + at + 2, size, joined, MOST, &j);
        }
        if (size <= 32768 && j.refusal == 0) {
            size_t makes = j.which == ORL_PACKET ? size - 4 : 2 + j.H + j.B;
            if (j.which == ORL_PACKET) memcpy(joined, octet + at + 2, 2), memcpy(joined + 2, octet + at + 8, size - 6);
            uint8_t front[6] = {0x4d, 0x4d, makes >> 24, makes >> 16, makes >> 8, makes};
            hold(written + 6 + makes <= a.written, "no message is left out");
            hold(memcmp(out + written, front, 6) == 0 && memcmp(out + written + 6, joined, makes) == 0, "each message is the same");
            written += 6 + makes;
        }
        at += 2 + size;
    }
    hold(written == a.written && at == a.place, "nothing else is written, and it stops at the same place");
    free(octet), free(out), free(store), free(joined);
}

/* a damaged recording, salvaged by calls of any grants and rooms; what they list covers it, and what is kept reads */
static void salvaging(struct rest in) {
    uint64_t t = number(&in, 1), profile = t >> 6, grant = number(&in, 2), room = number(&in, 1) % 9, begin = 0, place = 0;
    size_t length = in.left, at = 0;
    uint8_t *file = octets(&in, &length);
    uint64_t *list = malloc(room * sizeof *list + 1);
    struct orl_salvage_answer a;
    do {
        orl_salvage(t, profile, file, length, begin, place, grant, list, room, &a);
        hold(a.refusal == 0 || (a.refusal == 15 && (t < 1 || t > 16 || profile > ORL_FIXED)), "a state of a run is not refused");
        hold(a.tested <= grant && 3 * a.entries <= room && a.begin <= a.place && a.place <= length, "no more than was granted");
        for (uint64_t k = 0; k < a.entries; k++) {
            uint64_t kind = list[3 * k], from = list[3 * k + 1], octet = list[3 * k + 2];
            struct orl_read_answer r;
            hold(kind <= 1 && from == at && octet > 0 && octet <= length - at, "entries stand one after another");
            if (kind == ORL_KEPT) {
                hold(octet > 2 && memcmp(file + from, "MP", 2) == 0, "a kept packet stands after a mark");
                orl_read(t, profile, file + from + 2, octet - 2, &r);
                hold(r.refusal == 0, "a kept packet reads");
            }
            at += octet;
        }
        if (a.refusal || (a.place == place && a.begin == begin)) break;
        begin = a.begin, place = a.place;
    } while (!a.done);
    hold(a.refusal || at == a.begin, "what is listed goes up to the open stretch");
    hold(!a.done || at == length, "what is done covers the file");
    free(file), free(list);
}

/* a PDU: what reads writes back, and a refusal tells what it may */
static void pdus(struct rest in) {
    size_t length = in.left, at = 0;
    uint8_t *pdu = octets(&in, &length), *out = malloc(length ? length : 1), *room = malloc(length ? length : 1);
    uint64_t said = length < 23 ? 0 : 23 + ((uint64_t)pdu[19] << 24 | (uint64_t)pdu[20] << 16 | (uint64_t)pdu[21] << 8 | pdu[22]), parts[16];
    struct orl_pdu_read_answer r;
    struct orl_pdu_write_answer w;
    struct orl_pdu_header h;
    memset(&r, 0xaa, sizeof r);
    orl_pdu_read(pdu, length, &r);
    hold(r.off == (r.refusal == 5 ? said - length : r.refusal == 27 ? length - said : 0), "5 and 27 tell the octets missing or left over");
    hold(r.refusal == 6 ? r.began >= 23 && r.began <= length : r.began == 0, "6 tells a place after the fixed part");
    if (r.refusal != 0) {
        hold(all_zero(&r, offsetof(struct orl_pdu_read_answer, off)), "a refused reading tells zeros");
    } else {
        hold(r.variable_length == length - 23 && r.body.place + r.body.length == length, "the body ends the PDU");
        memcpy(&h, &r.sdu, 18 * 8);
        h.priority = r.priority;
        for (size_t i = 0; i < r.domain_count; i++) {
            memcpy(room + at, pdu + r.domain[i].place, r.domain[i].length);
            at += r.domain[i].length;
            parts[i] = r.domain[i].length;
        }
        orl_pdu_write(&h, pdu + r.source.place, r.source.length, pdu + r.destination.place, r.destination.length, pdu + r.timestamp.place,
                      r.timestamp.length, pdu + r.zone.place, r.zone.length, pdu + r.session_name.place, r.session_name.length, room, at,
                      parts, r.domain_count, pdu + r.authentication.place, r.authentication.length, pdu + r.body.place, r.body.length, out,
                      length, &w);
        hold(w.refusal == 0 && w.length == length && w.header_length == r.body.place && memcmp(out, pdu, length) == 0, "what reads writes back");
    }
    free(pdu), free(out), free(room);
}

int LLVMFuzzerTestOneInput(const uint8_t *data, size_t size) {
    struct rest in = {data, size};
    switch (number(&in, 1) % 7) {
    case 0: reading(in); break;
    case 1: cutting(in); break;
    case 2: storing(in, 0); break;
    case 3: storing(in, 1); break;
    case 4: recording(in); break;
    case 5: salvaging(in); break;
    default: pdus(in); break;
    }
    return 0;
}
