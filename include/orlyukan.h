/*
 * Orlyukan for C and C++: reading, writing, cutting, storing and joining MAL messages in CCSDS Space Packets, salvaging damaged
 * recordings of them, reading and writing the survey office's PDUs, and carrying messages there and back.
 *
 * Link with libcapi.a, which `rt lib` in crates/capi writes for Linux on x86-64. The library keeps nothing between calls, allocates
 * nothing, reads and writes only the memory that it is lent, and always comes back.
 *
 * How every call is made
 *
 * - Every number is a uint64_t. A slice is a pointer and a length: octets, or for the lengths of domain parts and the list of
 *   orl_salvage uint64_t.
 * - The answer is the last parameter, a struct of uint64_t fields that the call fills whole. Its first field is the refusal: 0
 *   if the call did what was asked, else a number of the list below. On a refusal all other fields are 0, but for a sender's
 *   numbers, which are told back as they were given, and for off and began, which say more of 5, 27 and 6 (see below); and
 *   nothing that was lent has changed. (orl_join says when it is otherwise.)
 * - On success only what the call names has changed; the rest of a buffer is as it was.
 * - t is T, the octets of a timestamp that both sides agreed on, 1 to 16. profile says how lengths, counts and priorities are
 *   written: ORL_VARINT, or ORL_FIXED for four octets each, as the first pods have it. Any other value is refused by 15. What a
 *   store holds has one T and one profile; nothing in it says which, and to keep to them is the caller's part.
 * - A number too wide for its field is refused by 22 and never made narrower. If T, profile or P is out of range too, it is 15.
 *
 * What the caller alone must keep
 *
 * - Every pointer is valid for its length, or for its struct, throughout the call, and is not NULL. If the length is 0
 *   nothing is read or written through it, and it may point to anything, but not be NULL: "" or the address of any object will
 *   do.
 * - Memory that a call may write (store, out, list, answer) overlaps no other memory lent to the same call. Memory that is only read
 *   may.
 * - While a call runs, no other thread writes what was lent to it, and none reads what it may write: one thread at a time for a
 *   store. Calls on separate memory may run at the same time.
 * - There is stack enough: measured were 118 kilobytes for orl_join_recording, 48 for the calls on a store, 10 for the others.
 *
 * Refusals
 *
 *    1  the packet has fewer octets than a primary header
 *    2  packet version other than 0
 *    3  no secondary header
 *    4  the idle APID, 2047
 *    5  the slice is shorter than the packet's length field says: off octets are missing
 *    6  the packet ends inside its secondary header, in the field that began at place began
 *    7  binding version other than 0
 *    8  an SDU type above 21
 *    9  session 3
 *   10  a Varint that is not written in the shortest way, or has more than 32 bits; never under ORL_FIXED
 *   11  a domain part whose presence octet is not 1
 *   12  a secondary header of more than 256 octets, the counter included
 *   13  a domain of more than 16 parts
 *   14  a segment without a body
 *   15  T outside 1 to 16, a profile above 1, or P outside 27 to 65,542
 *   16  the store is not in order
 *   17  a segment of more than 1,022 octets does not go into a cell
 *   18  another segment with this key and counter is held, and it differs
 *   19  no cell is free
 *   20  no message is complete
 *   21  the output has too few octets
 *   22  a value to write that its field cannot have: too wide or out of range, the idle APID, given for a field that is absent, a
 *       timestamp that is not of T octets, a text above 65,535 octets, lengths of domain parts that do not add up to the domain
 *   23  orl_write: a packet above 65,542 octets; orl_cut_count and orl_cut_packet: a body above 1,048,576; orl_pdu_write and orl_to_pdu:
 *       more than 4,294,967,295 octets after the fixed part
 *   24  cutting is needed, and with this P a packet has no room for one octet of body
 *   26  there is no packet with this number
 *   27  the slice is longer than the packet's length field says: off octets are left over
 *   28  a network zone, session name or domain part, in a PDU also a source id or destination id, that is not well-formed UTF-8
 *   29  the message would have more than 4,096 segments
 *   30  a network zone to write, to cut or to carry back: it is withdrawn
 *   31  orl_forget: the number names no cell with the record of a message that was taken
 *   33  orl_to_message: a source id, then a destination id, that is not the decimal digits of 0 to 255 without leading zeros
 *   34  orl_to_pdu and orl_to_message: a timestamp, and T is not 6
 *   35  orl_to_message: a QoS level above 3 or a session above 2
 *   40  orl_salvage: a state that can not be one: begin above place, or place after the file's end
 *
 * If several apply, the answer is the one that comes first: reading 15, 1 to 4, 5 or 27, then as the header is read from left to
 * right, 14; writing 15, 22, 30, 13, 28, 23, 12, 14, 21; cutting 15, 22, 30, 13, 28, 23, 12, 24, 29, 26, 21; arrival 15, 16, those
 * of reading, 17, 18, 19; taking 15, 16, 20, 21; forgetting 15, 16, 31; carrying to the office 15, 22, 1 to 4, the header's, 34, 23, 21;
 * carrying back 15, 22, 1, 7, 8, 5 or 27, the PDU's fields, 35, 33, 34, 30, 12, 21; reading a PDU 1, 7, 8, 5 or 27, then its fields from
 * left to right; writing one 22, 13, 28, 23, 21.
 *
 * What 5, 27 and 6 tell, in the answers of reading, arrival and joining
 *
 * - off: beside 5 how many octets are missing, beside 27 how many are left over; else 0. With so many octets more, or fewer, the
 *   slice is as long as its length field says.
 * - began: beside 6 the place where the unfinished field began, counted from 0 at the first octet of the secondary header, the
 *   segment counter counted too; else 0. A field that shares an octet with others began in it. A length and its text are one
 *   field, so are the count of domain parts, and each part with its presence octet, length and text. If the packet ends between
 *   two fields, the unfinished one is the next.
 */
#ifndef ORLYUKAN_H
#define ORLYUKAN_H

#include <stddef.h>
#include <stdint.h>

#ifdef __cplusplus
extern "C" {
#endif

/* ---- numbers that several calls share ---- */

/* The profiles: how a priority, each length and a domain's count are written. */
#define ORL_VARINT 0 /* as a Varint */
#define ORL_FIXED 1  /* in four octets */

/* Where a content stands: its place, counted from the first octet of the packet, and its length. Both are 0 if it is absent. */
struct orl_place {
    uint64_t place;
    uint64_t length;
};

/*
 * A sender's running numbers: the sequence count of the next packet, and the counter of the next segment. After 16,383 and after
 * 4,294,967,295 comes 0. A sequence_count above 65,535 or a counter above 4,294,967,295 is refused by 22; cutting refuses a
 * sequence_count above 16,383 likewise.
 */
struct orl_sender {
    uint64_t sequence_count;
    uint64_t counter;
};

/*
 * A header to write: all values but the texts. A presence flag is 1 if its field is there, else 0; the value of an absent
 * field is 0 and its text is empty.
 */
struct orl_header {
    uint64_t packet_type;    /* 0 or 1 */
    uint64_t apid;           /* 0 to 2046 */
    uint64_t sdu;            /* SDU type, 0 to 21 */
    uint64_t area;           /* 16 bits */
    uint64_t service;        /* 16 bits */
    uint64_t operation;      /* 16 bits */
    uint64_t area_version;   /* 8 bits */
    uint64_t error;          /* 0 or 1 */
    uint64_t qos;            /* QoS level, 0 to 3 */
    uint64_t session;        /* 0 to 2 */
    uint64_t secondary_apid; /* 0 to 2047 */
    uint64_t qualifier;      /* of the secondary APID, 16 bits */
    uint64_t transaction;    /* transaction id, 64 bits */
    uint64_t has_source;
    uint64_t has_destination;
    uint64_t has_priority;
    uint64_t has_timestamp;
    uint64_t has_zone;
    uint64_t has_session_name;
    uint64_t has_domain;
    uint64_t has_authentication;
    uint64_t source;      /* source id, 8 bits */
    uint64_t destination; /* destination id, 8 bits */
    uint64_t priority;    /* 32 bits */
};

/*
 * The texts of a header, in every call that takes one: a timestamp of T octets; network zone, session name and authentication
 * id of at most 65,535 octets each; and the domain as one text, all its parts one after the other, beside domain_count lengths
 * of at most sixteen parts, which add up to domain_length. An absent domain has no length. Zone, session name and each domain
 * part by itself are well-formed UTF-8; the authentication id is octets of any value. A network zone is withdrawn: has_zone 1 is
 * refused by 30, also with an empty zone. Packets with a zone are read, stored and taken as all others.
 */

/* ---- the sequence count ---- */

struct orl_next_sequence_count_answer {
    uint64_t refusal;
    uint64_t sequence_count;
};

/* The next sequence count: 0 comes after 16,383, and after any number from there up to 65,535. A larger one is 22. */
void orl_next_sequence_count(uint64_t sequence_count, struct orl_next_sequence_count_answer *answer);

/* ---- reading ---- */

/*
 * What stands in a packet. Places count from the packet's first octet; the first domain_count of the sixteen places are those
 * of the domain's parts, in their order. H is the length of the secondary header without its segment counter.
 */
struct orl_read_answer {
    uint64_t refusal;
    uint64_t packet_type;
    uint64_t apid;
    uint64_t flags; /* sequence flags: 1 first, 0 continuation, 2 last, 3 unsegmented */
    uint64_t sequence_count;
    uint64_t sdu;
    uint64_t area;
    uint64_t service;
    uint64_t operation;
    uint64_t area_version;
    uint64_t error;
    uint64_t qos;
    uint64_t session;
    uint64_t secondary_apid;
    uint64_t qualifier;
    uint64_t transaction;
    uint64_t has_source;
    uint64_t has_destination;
    uint64_t has_priority;
    uint64_t has_timestamp;
    uint64_t has_zone;
    uint64_t has_session_name;
    uint64_t has_domain;
    uint64_t has_authentication;
    uint64_t source;
    uint64_t destination;
    uint64_t counter; /* segment counter, 0 if flags is 3 */
    uint64_t priority;
    struct orl_place timestamp;
    struct orl_place zone;
    struct orl_place session_name;
    uint64_t domain_count;
    struct orl_place domain[16];
    struct orl_place authentication;
    uint64_t H;
    struct orl_place body; /* of length 0 at the packet's end if it is empty */
    uint64_t off;          /* beside 5 and 27 */
    uint64_t began;        /* beside 6 */
    uint64_t withdrawn;    /* 1 if the packet has a network zone, present and withdrawn; else 0 */
};

/* Reads one whole packet. */
void orl_read(uint64_t t, uint64_t profile, const uint8_t *packet, size_t packet_length, struct orl_read_answer *answer);

/* ---- writing ---- */

struct orl_write_answer {
    uint64_t refusal;
    uint64_t length; /* octets written, from the first of out on */
};

/*
 * Writes one packet with the header, its texts, its own sequence flags (0 to 3), sequence count (0 to 16,383) and segment
 * counter (0 if flags is 3), and the body.
 */
void orl_write(uint64_t t, uint64_t profile, const struct orl_header *header, const uint8_t *timestamp, size_t timestamp_length,
               const uint8_t *zone, size_t zone_length, const uint8_t *session_name, size_t session_name_length,
               const uint8_t *domain, size_t domain_length, const uint64_t *domain_lengths, size_t domain_count,
               const uint8_t *authentication, size_t authentication_length, uint64_t flags, uint64_t sequence_count,
               uint64_t counter, const uint8_t *body, size_t body_length, uint8_t *out, size_t out_length,
               struct orl_write_answer *answer);

/* ---- a sender's numbers, and cutting ---- */

struct orl_after_answer {
    uint64_t refusal;
    struct orl_sender sender;
};

/* A sender after one unsegmented packet: its sequence count moves on, its counter stays. */
void orl_after_packet(const struct orl_sender *sender, struct orl_after_answer *answer);

/* A sender after one segment: both move on. */
void orl_after_segment(const struct orl_sender *sender, struct orl_after_answer *answer);

struct orl_cut_count_answer {
    uint64_t refusal;
    uint64_t count;           /* how many packets */
    struct orl_sender sender; /* as it is after the message; on a refusal as it was given */
};

/*
 * How many packets of at most p octets (27 to 65,542) a message with this header and a body of body_length octets is cut into:
 * one if it fits, else as few segments as can be. Only the body's length is asked for.
 */
void orl_cut_count(uint64_t t, uint64_t profile, uint64_t p, const struct orl_header *header, const uint8_t *timestamp,
                   size_t timestamp_length, const uint8_t *zone, size_t zone_length, const uint8_t *session_name, size_t session_name_length,
                   const uint8_t *domain, size_t domain_length, const uint64_t *domain_lengths, size_t domain_count,
                   const uint8_t *authentication, size_t authentication_length, uint64_t body_length,
                   const struct orl_sender *sender, struct orl_cut_count_answer *answer);

struct orl_cut_packet_answer {
    uint64_t refusal;
    uint64_t length;          /* octets written, from the first of out on */
    struct orl_sender sender; /* as it was given */
};

/*
 * Writes packet number i of that message, counted from 0. sender is the sender as it stood before the message, for every i, and
 * does not move.
 */
void orl_cut_packet(uint64_t t, uint64_t profile, uint64_t p, const struct orl_header *header, const uint8_t *timestamp,
                    size_t timestamp_length, const uint8_t *zone, size_t zone_length, const uint8_t *session_name, size_t session_name_length,
                    const uint8_t *domain, size_t domain_length, const uint64_t *domain_lengths, size_t domain_count,
                    const uint8_t *authentication, size_t authentication_length, const uint8_t *body, size_t body_length,
                    const struct orl_sender *sender, uint64_t i, uint8_t *out, size_t out_length,
                    struct orl_cut_packet_answer *answer);

/* ---- the store ---- */

/*
 * A store is memory of the caller's: 1 to 4,096 cells of 1,024 octets. All zeros is an empty one. Its contents belong to the
 * calls below; the caller keeps them between calls and may save and restore them. Each call tests first that the store is in
 * order. A cell is free, or holds a segment, or has the record of a message that was taken, by which late repeats of its segments
 * are known. A record keeps its cell until it is forgotten: without orl_forget, n cells hand out at most n messages.
 */

/* What an arrival comes to. */
#define ORL_WHOLE 1  /* an unsegmented packet: the store is not touched */
#define ORL_STORED 2 /* a new segment, now in the lowest free cell */
#define ORL_HELD 3   /* a segment that is held already: the store is not touched */
#define ORL_TAKEN 4  /* a segment of a message that was taken, whatever its body: the store is not touched */

struct orl_arrive_answer {
    uint64_t refusal;
    uint64_t kind;  /* one of the four above */
    uint64_t off;   /* beside 5 and 27 */
    uint64_t began; /* beside 6 */
};

/* A packet arrives at the store. */
void orl_arrive(uint64_t t, uint64_t profile, uint8_t *store, size_t store_length, const uint8_t *packet, size_t packet_length,
                struct orl_arrive_answer *answer);

struct orl_take_answer {
    uint64_t refusal;
    uint64_t H;       /* octets of the secondary header without its counter */
    uint64_t B;       /* octets of the body */
    uint64_t counter; /* the first segment's */
};

/*
 * Takes out of the store the complete message whose first segment lies in the lowest cell. Into out go the first two octets of
 * its packets, the H octets of the header, and the B octets of the body. The first's cell gets the record of the message, its other
 * cells become free.
 */
void orl_take(uint64_t t, uint64_t profile, uint8_t *store, size_t store_length, uint8_t *out, size_t out_length,
              struct orl_take_answer *answer);

struct orl_forget_answer {
    uint64_t refusal; /* 15, 16 or 31 */
};

/*
 * Forgets the record of a message that was taken: the cell with this number, counted from 0, becomes free. A repeat of one of the
 * message's segments is a new segment from then on. A number that is not below the count of cells, of any size, is 31.
 */
void orl_forget(uint64_t t, uint64_t profile, uint8_t *store, size_t store_length, uint64_t number, struct orl_forget_answer *answer);

/* Which buffer holds a body. */
#define ORL_NOTHING 0
#define ORL_PACKET 1 /* the packet as it arrived */
#define ORL_JOINED 2 /* the output */

struct orl_join_answer {
    uint64_t refusal;
    uint64_t which;
    uint64_t place;
    uint64_t length;
    uint64_t H; /* this and the next two as taking tells them; 0 for a packet that came whole */
    uint64_t B;
    uint64_t counter;
    uint64_t off;   /* beside 5 and 27 */
    uint64_t began; /* beside 6 */
};

/*
 * A packet arrives, and if it did not come whole, a message is taken out, also after ORL_HELD and ORL_TAKEN. If arrival refuses,
 * nothing has changed. If taking refuses (20 or 21), a segment that was stored stays in the store. For a packet that came whole, out is not touched and
 * may be empty.
 */
void orl_join(uint64_t t, uint64_t profile, uint8_t *store, size_t store_length, const uint8_t *packet, size_t packet_length,
              uint8_t *out, size_t out_length, struct orl_join_answer *answer);

struct orl_view_answer {
    uint64_t refusal;
    uint64_t place;
    uint64_t length;
};

/*
 * The part of the named buffer at a place: the place and the length as they were given if the part lies inside the buffer,
 * else 0 and 0, for an empty part. A which above 2 is refused by 22. Nothing is read but the two lengths.
 */
void orl_view(const uint8_t *packet, size_t packet_length, const uint8_t *joined, size_t joined_length, uint64_t which,
              uint64_t place, uint64_t length, struct orl_view_answer *answer);

struct orl_in_order_answer {
    uint64_t refusal; /* 15 or 16 */
    uint64_t cells;
};

/* Whether a store is in order, and how many cells it has. */
void orl_in_order(uint64_t t, uint64_t profile, const uint8_t *store, size_t store_length, struct orl_in_order_answer *answer);

/* ---- a whole recording ---- */

/* Why the joining of a recording stopped: after any but the first, octets from place on were not read. */
#define ORL_ENDED 1    /* the recording ends after a packet */
#define ORL_UNMARKED 2 /* other octets than the mark 4D 50 follow */
#define ORL_TORN 3     /* the mark, or the packet after it, is not whole */

struct orl_join_recording_answer {
    uint64_t refusal; /* 15; 21 if out is shorter than the recording; as long is always enough */
    uint64_t written; /* octets written, from the first of out on */
    uint64_t place;   /* the place in the recording where it stopped */
    uint64_t stop;    /* one of the three above */
};

/*
 * Joins a recording that is in hand whole, with a store of 32 cells of its own: packets, each after the mark 4D 50. For each
 * message out gets 4D 4D, a length of four octets, and what taking writes, and for a packet that came whole likewise. Refused
 * packets and those above 32,768 octets are passed over. If no cell is free, the record in the lowest cell that has one is forgotten,
 * and the packet is joined again. T 8 and ORL_VARINT are usual.
 */
void orl_join_recording(uint64_t t, uint64_t profile, const uint8_t *recording, size_t recording_length, uint8_t *out,
                        size_t out_length, struct orl_join_recording_answer *answer);

/* ---- a damaged recording ---- */

/* The kinds of an entry. */
#define ORL_SKIPPED 0 /* a stretch with no packet in it that reading accepts after the mark 4D 50 */
#define ORL_KEPT 1    /* the mark 4D 50 and a packet that reading accepts */

struct orl_salvage_answer {
    uint64_t refusal; /* 15 or 40 */
    uint64_t tested;  /* places tested, at most the grant */
    uint64_t entries; /* entries listed, three numbers each, from the first of list on: kind, place, length */
    uint64_t begin;   /* where the stretch begins that is still open; the place if none is */
    uint64_t place;   /* the next place */
    uint64_t done;    /* 1 if the whole file is listed */
};

/*
 * Salvages a recording with torn places. From the left: the mark 4D 50 with a packet after it that reading accepts within the file is
 * kept, and the next place is the one after them; any other place is passed over by one octet. What is passed over between two kept
 * packets is one skipped stretch, so that kept and skipped entries together cover the file, each octet once.
 *
 * Begin with 0 and 0; then give begin and place as the answer before told them, until it is done. A call tests at most grant places,
 * and ends too before a place if fewer than two entries are free in list, or at the file's end if none is free for a stretch that is
 * open there. That stretch goes over to the next call and is listed once: however often it stops, the list is the same. In one call
 * n packets need room for n + 1 entries at least, and room for one entry an octet of the file is always enough. list_length counts
 * numbers, three an entry.
 */
void orl_salvage(uint64_t t, uint64_t profile, const uint8_t *file, size_t file_length, uint64_t begin, uint64_t place,
                 uint64_t grant, uint64_t *list, size_t list_length, struct orl_salvage_answer *answer);

/* ---- the survey office ---- */

/*
 * What stands in a PDU of the MAL TCP/IP binding. Places count from the PDU's first octet; source id and destination id are texts. The first
 * domain_count of the sixteen places are those of the domain's parts, in their order.
 */
struct orl_pdu_read_answer {
    uint64_t refusal;
    uint64_t sdu;
    uint64_t area;
    uint64_t service;
    uint64_t operation;
    uint64_t area_version;
    uint64_t error;
    uint64_t qos;     /* 0 to 7 */
    uint64_t session; /* 0 to 15 */
    uint64_t transaction;
    uint64_t has_source;
    uint64_t has_destination;
    uint64_t has_priority;
    uint64_t has_timestamp;
    uint64_t has_zone;
    uint64_t has_session_name;
    uint64_t has_domain;
    uint64_t has_authentication;
    uint64_t encoding_id;
    struct orl_place source;
    struct orl_place destination;
    uint64_t priority;
    struct orl_place timestamp;
    struct orl_place zone;
    struct orl_place session_name;
    uint64_t domain_count;
    struct orl_place domain[16];
    struct orl_place authentication;
    uint64_t variable_length; /* the octets after the fixed part, 23 octets, as the PDU says */
    struct orl_place body;    /* of length 0 at the PDU's end if it is empty */
    uint64_t off;             /* beside 5 the octets missing, beside 27 those left over, by the variable length */
    uint64_t began;           /* beside 6 the place in the PDU where the unfinished field began */
};

/*
 * Reads one whole PDU. No T and no profile: a timestamp has six octets, and lengths, counts and priority are Varints. 1 is fewer than 23
 * octets, 7 a version number other than 1.
 */
void orl_pdu_read(const uint8_t *pdu, size_t pdu_length, struct orl_pdu_read_answer *answer);

/* A PDU's header to write: all values but the texts. Presence flags as in orl_header. */
struct orl_pdu_header {
    uint64_t sdu;          /* SDU type, 0 to 21 */
    uint64_t area;         /* 16 bits */
    uint64_t service;      /* 16 bits */
    uint64_t operation;    /* 16 bits */
    uint64_t area_version; /* 8 bits */
    uint64_t error;        /* 0 or 1 */
    uint64_t qos;          /* QoS level, 0 to 7 */
    uint64_t session;      /* 0 to 15 */
    uint64_t transaction;  /* transaction id, 64 bits */
    uint64_t has_source;
    uint64_t has_destination;
    uint64_t has_priority;
    uint64_t has_timestamp;
    uint64_t has_zone;
    uint64_t has_session_name;
    uint64_t has_domain;
    uint64_t has_authentication;
    uint64_t encoding_id; /* 8 bits */
    uint64_t priority;    /* 32 bits */
};

struct orl_pdu_write_answer {
    uint64_t refusal;       /* 22, 13, 28, 23 or 21 */
    uint64_t length;        /* octets written, from the first of out on */
    uint64_t header_length; /* those of them before the body */
};

/*
 * Writes one PDU with the header, its texts and the body. Source id and destination id are UTF-8 as well; a timestamp has six octets; no
 * text has another limit than 23, more than 4,294,967,295 octets after the fixed part. A network zone is written.
 */
void orl_pdu_write(const struct orl_pdu_header *header, const uint8_t *source, size_t source_length, const uint8_t *destination,
                   size_t destination_length, const uint8_t *timestamp, size_t timestamp_length, const uint8_t *zone, size_t zone_length,
                   const uint8_t *session_name, size_t session_name_length, const uint8_t *domain, size_t domain_length,
                   const uint64_t *domain_lengths, size_t domain_count, const uint8_t *authentication, size_t authentication_length,
                   const uint8_t *body, size_t body_length, uint8_t *out, size_t out_length, struct orl_pdu_write_answer *answer);

struct orl_to_pdu_answer {
    uint64_t refusal;       /* also 34 */
    uint64_t length;        /* octets written, from the first of out on */
    uint64_t header_length; /* those of them before the body */
    uint64_t began;         /* beside 6 the place where the unfinished field began, counted from 0 at the message's third octet */
};

/*
 * Carries a message, in the form that orl_take writes, to the office: writes one PDU of the MAL TCP/IP binding. An id is its decimal digits
 * there. Packet type, APIDs and qualifier have no field in it. The body is carried as it is, so that encoding_id, 0 to 255, has to say
 * what it is: 0 for four, two and eight octets a number, 1 for Varints, 2 for the split encoding.
 */
void orl_to_pdu(uint64_t t, uint64_t profile, const uint8_t *message, size_t message_length, uint64_t encoding_id, uint8_t *out,
                size_t out_length, struct orl_to_pdu_answer *answer);

/* What a PDU has no field for. */
struct orl_route {
    uint64_t packet_type;
    uint64_t apid;
    uint64_t secondary_apid;
    uint64_t qualifier;
};

struct orl_to_message_answer {
    uint64_t refusal;     /* also 33, 34 and 35 */
    uint64_t H;
    uint64_t B;
    uint64_t encoding_id; /* what the PDU says of its body */
    uint64_t off;         /* beside 5 the octets missing, beside 27 those left over, by the variable length */
    uint64_t began;       /* beside 6 the place in the PDU where the unfinished field began */
};

/*
 * Carries one PDU back: writes the message in the form that orl_take writes, with the values of route. A message that orl_to_pdu carried,
 * without a network zone, comes back octet for octet if its own values are lent.
 */
void orl_to_message(uint64_t t, uint64_t profile, const uint8_t *pdu, size_t pdu_length, const struct orl_route *route, uint8_t *out,
                    size_t out_length, struct orl_to_message_answer *answer);

#ifdef __cplusplus
}
#endif

#endif
