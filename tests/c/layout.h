/*
 * Where each field of each struct in orlyukan.h stands, counted in numbers of 64 bits from the first of the array that an export
 * takes or fills, and how many numbers it has. Checked when it is compiled, as C11 or as C++17; `swaps` beside it shows that no two
 * neighbours can change places. The arrays are those of crates/capi, and the definitions that are named below, in crates/flat and
 * the crates whose names begin so, say which number stands where.
 */
#ifndef LAYOUT_H
#define LAYOUT_H

#include <assert.h>

#include "orlyukan.h"

/* The first number of a field, and how many it has. */
#define FIELD(type, field, first, numbers)                                                                                     \
    static_assert(offsetof(struct type, field) == 8 * (first) && sizeof(((struct type *)0)->field) == 8 * (numbers),           \
                  #type "." #field " stands elsewhere")

/* How many numbers a struct has. */
#define WHOLE(type, numbers) static_assert(sizeof(struct type) == 8 * (numbers), #type " has another length")

/* place_numbers */
FIELD(orl_place, place, 0, 1);
FIELD(orl_place, length, 1, 1);
WHOLE(orl_place, 2);

/* sender_of, sender_numbers */
FIELD(orl_sender, sequence_count, 0, 1);
FIELD(orl_sender, counter, 1, 1);
WHOLE(orl_sender, 2);

/* header_of, present_of */
FIELD(orl_header, packet_type, 0, 1);
FIELD(orl_header, apid, 1, 1);
FIELD(orl_header, sdu, 2, 1);
FIELD(orl_header, area, 3, 1);
FIELD(orl_header, service, 4, 1);
FIELD(orl_header, operation, 5, 1);
FIELD(orl_header, area_version, 6, 1);
FIELD(orl_header, error, 7, 1);
FIELD(orl_header, qos, 8, 1);
FIELD(orl_header, session, 9, 1);
FIELD(orl_header, secondary_apid, 10, 1);
FIELD(orl_header, qualifier, 11, 1);
FIELD(orl_header, transaction, 12, 1);
FIELD(orl_header, has_source, 13, 1);
FIELD(orl_header, has_destination, 14, 1);
FIELD(orl_header, has_priority, 15, 1);
FIELD(orl_header, has_timestamp, 16, 1);
FIELD(orl_header, has_zone, 17, 1);
FIELD(orl_header, has_session_name, 18, 1);
FIELD(orl_header, has_domain, 19, 1);
FIELD(orl_header, has_authentication, 20, 1);
FIELD(orl_header, source, 21, 1);
FIELD(orl_header, destination, 22, 1);
FIELD(orl_header, priority, 23, 1);
WHOLE(orl_header, 24);

/* next_numbers */
FIELD(orl_next_sequence_count_answer, refusal, 0, 1);
FIELD(orl_next_sequence_count_answer, sequence_count, 1, 1);
WHOLE(orl_next_sequence_count_answer, 2);

/* read_numbers */
FIELD(orl_read_answer, refusal, 0, 1);
FIELD(orl_read_answer, packet_type, 1, 1);
FIELD(orl_read_answer, apid, 2, 1);
FIELD(orl_read_answer, flags, 3, 1);
FIELD(orl_read_answer, sequence_count, 4, 1);
FIELD(orl_read_answer, sdu, 5, 1);
FIELD(orl_read_answer, area, 6, 1);
FIELD(orl_read_answer, service, 7, 1);
FIELD(orl_read_answer, operation, 8, 1);
FIELD(orl_read_answer, area_version, 9, 1);
FIELD(orl_read_answer, error, 10, 1);
FIELD(orl_read_answer, qos, 11, 1);
FIELD(orl_read_answer, session, 12, 1);
FIELD(orl_read_answer, secondary_apid, 13, 1);
FIELD(orl_read_answer, qualifier, 14, 1);
FIELD(orl_read_answer, transaction, 15, 1);
FIELD(orl_read_answer, has_source, 16, 1);
FIELD(orl_read_answer, has_destination, 17, 1);
FIELD(orl_read_answer, has_priority, 18, 1);
FIELD(orl_read_answer, has_timestamp, 19, 1);
FIELD(orl_read_answer, has_zone, 20, 1);
FIELD(orl_read_answer, has_session_name, 21, 1);
FIELD(orl_read_answer, has_domain, 22, 1);
FIELD(orl_read_answer, has_authentication, 23, 1);
FIELD(orl_read_answer, source, 24, 1);
FIELD(orl_read_answer, destination, 25, 1);
FIELD(orl_read_answer, counter, 26, 1);
FIELD(orl_read_answer, priority, 27, 1);
FIELD(orl_read_answer, timestamp, 28, 2);
FIELD(orl_read_answer, zone, 30, 2);
FIELD(orl_read_answer, session_name, 32, 2);
FIELD(orl_read_answer, domain_count, 34, 1);
FIELD(orl_read_answer, domain, 35, 32);
FIELD(orl_read_answer, authentication, 67, 2);
FIELD(orl_read_answer, H, 69, 1);
FIELD(orl_read_answer, body, 70, 2);
FIELD(orl_read_answer, off, 72, 1);
FIELD(orl_read_answer, began, 73, 1);
FIELD(orl_read_answer, withdrawn, 74, 1);
WHOLE(orl_read_answer, 75);

/* write_numbers */
FIELD(orl_write_answer, refusal, 0, 1);
FIELD(orl_write_answer, length, 1, 1);
WHOLE(orl_write_answer, 2);

/* after_packet_numbers, after_segment_numbers */
FIELD(orl_after_answer, refusal, 0, 1);
FIELD(orl_after_answer, sender, 1, 2);
WHOLE(orl_after_answer, 3);

/* counted_numbers */
FIELD(orl_cut_count_answer, refusal, 0, 1);
FIELD(orl_cut_count_answer, count, 1, 1);
FIELD(orl_cut_count_answer, sender, 2, 2);
WHOLE(orl_cut_count_answer, 4);

/* cut_numbers */
FIELD(orl_cut_packet_answer, refusal, 0, 1);
FIELD(orl_cut_packet_answer, length, 1, 1);
FIELD(orl_cut_packet_answer, sender, 2, 2);
WHOLE(orl_cut_packet_answer, 4);

/* arrive_numbers */
FIELD(orl_arrive_answer, refusal, 0, 1);
FIELD(orl_arrive_answer, kind, 1, 1);
FIELD(orl_arrive_answer, off, 2, 1);
FIELD(orl_arrive_answer, began, 3, 1);
WHOLE(orl_arrive_answer, 4);

/* take_numbers */
FIELD(orl_take_answer, refusal, 0, 1);
FIELD(orl_take_answer, H, 1, 1);
FIELD(orl_take_answer, B, 2, 1);
FIELD(orl_take_answer, counter, 3, 1);
WHOLE(orl_take_answer, 4);

/* forget_numbers */
FIELD(orl_forget_answer, refusal, 0, 1);
WHOLE(orl_forget_answer, 1);

/* join_numbers */
FIELD(orl_join_answer, refusal, 0, 1);
FIELD(orl_join_answer, which, 1, 1);
FIELD(orl_join_answer, place, 2, 1);
FIELD(orl_join_answer, length, 3, 1);
FIELD(orl_join_answer, H, 4, 1);
FIELD(orl_join_answer, B, 5, 1);
FIELD(orl_join_answer, counter, 6, 1);
FIELD(orl_join_answer, off, 7, 1);
FIELD(orl_join_answer, began, 8, 1);
WHOLE(orl_join_answer, 9);

/* view_numbers */
FIELD(orl_view_answer, refusal, 0, 1);
FIELD(orl_view_answer, place, 1, 1);
FIELD(orl_view_answer, length, 2, 1);
WHOLE(orl_view_answer, 3);

/* order_numbers */
FIELD(orl_in_order_answer, refusal, 0, 1);
FIELD(orl_in_order_answer, cells, 1, 1);
WHOLE(orl_in_order_answer, 2);

/* recorded_numbers */
FIELD(orl_join_recording_answer, refusal, 0, 1);
FIELD(orl_join_recording_answer, written, 1, 1);
FIELD(orl_join_recording_answer, place, 2, 1);
FIELD(orl_join_recording_answer, stop, 3, 1);
WHOLE(orl_join_recording_answer, 4);

/* salvaged_numbers */
FIELD(orl_salvage_answer, refusal, 0, 1);
FIELD(orl_salvage_answer, tested, 1, 1);
FIELD(orl_salvage_answer, entries, 2, 1);
FIELD(orl_salvage_answer, begin, 3, 1);
FIELD(orl_salvage_answer, place, 4, 1);
FIELD(orl_salvage_answer, done, 5, 1);
WHOLE(orl_salvage_answer, 6);

/* read_numbers of a PDU */
FIELD(orl_pdu_read_answer, refusal, 0, 1);
FIELD(orl_pdu_read_answer, sdu, 1, 1);
FIELD(orl_pdu_read_answer, area, 2, 1);
FIELD(orl_pdu_read_answer, service, 3, 1);
FIELD(orl_pdu_read_answer, operation, 4, 1);
FIELD(orl_pdu_read_answer, area_version, 5, 1);
FIELD(orl_pdu_read_answer, error, 6, 1);
FIELD(orl_pdu_read_answer, qos, 7, 1);
FIELD(orl_pdu_read_answer, session, 8, 1);
FIELD(orl_pdu_read_answer, transaction, 9, 1);
FIELD(orl_pdu_read_answer, has_source, 10, 1);
FIELD(orl_pdu_read_answer, has_destination, 11, 1);
FIELD(orl_pdu_read_answer, has_priority, 12, 1);
FIELD(orl_pdu_read_answer, has_timestamp, 13, 1);
FIELD(orl_pdu_read_answer, has_zone, 14, 1);
FIELD(orl_pdu_read_answer, has_session_name, 15, 1);
FIELD(orl_pdu_read_answer, has_domain, 16, 1);
FIELD(orl_pdu_read_answer, has_authentication, 17, 1);
FIELD(orl_pdu_read_answer, encoding_id, 18, 1);
FIELD(orl_pdu_read_answer, source, 19, 2);
FIELD(orl_pdu_read_answer, destination, 21, 2);
FIELD(orl_pdu_read_answer, priority, 23, 1);
FIELD(orl_pdu_read_answer, timestamp, 24, 2);
FIELD(orl_pdu_read_answer, zone, 26, 2);
FIELD(orl_pdu_read_answer, session_name, 28, 2);
FIELD(orl_pdu_read_answer, domain_count, 30, 1);
FIELD(orl_pdu_read_answer, domain, 31, 32);
FIELD(orl_pdu_read_answer, authentication, 63, 2);
FIELD(orl_pdu_read_answer, variable_length, 65, 1);
FIELD(orl_pdu_read_answer, body, 66, 2);
FIELD(orl_pdu_read_answer, off, 68, 1);
FIELD(orl_pdu_read_answer, began, 69, 1);
WHOLE(orl_pdu_read_answer, 70);

/* values_of of a PDU */
FIELD(orl_pdu_header, sdu, 0, 1);
FIELD(orl_pdu_header, area, 1, 1);
FIELD(orl_pdu_header, service, 2, 1);
FIELD(orl_pdu_header, operation, 3, 1);
FIELD(orl_pdu_header, area_version, 4, 1);
FIELD(orl_pdu_header, error, 5, 1);
FIELD(orl_pdu_header, qos, 6, 1);
FIELD(orl_pdu_header, session, 7, 1);
FIELD(orl_pdu_header, transaction, 8, 1);
FIELD(orl_pdu_header, has_source, 9, 1);
FIELD(orl_pdu_header, has_destination, 10, 1);
FIELD(orl_pdu_header, has_priority, 11, 1);
FIELD(orl_pdu_header, has_timestamp, 12, 1);
FIELD(orl_pdu_header, has_zone, 13, 1);
FIELD(orl_pdu_header, has_session_name, 14, 1);
FIELD(orl_pdu_header, has_domain, 15, 1);
FIELD(orl_pdu_header, has_authentication, 16, 1);
FIELD(orl_pdu_header, encoding_id, 17, 1);
FIELD(orl_pdu_header, priority, 18, 1);
WHOLE(orl_pdu_header, 19);

/* write_numbers of a PDU */
FIELD(orl_pdu_write_answer, refusal, 0, 1);
FIELD(orl_pdu_write_answer, length, 1, 1);
FIELD(orl_pdu_write_answer, header_length, 2, 1);
WHOLE(orl_pdu_write_answer, 3);

/* written_numbers of the office */
FIELD(orl_to_pdu_answer, refusal, 0, 1);
FIELD(orl_to_pdu_answer, length, 1, 1);
FIELD(orl_to_pdu_answer, header_length, 2, 1);
FIELD(orl_to_pdu_answer, began, 3, 1);
WHOLE(orl_to_pdu_answer, 4);

/* route_of of the office */
FIELD(orl_route, packet_type, 0, 1);
FIELD(orl_route, apid, 1, 1);
FIELD(orl_route, secondary_apid, 2, 1);
FIELD(orl_route, qualifier, 3, 1);
WHOLE(orl_route, 4);

/* carried_numbers */
FIELD(orl_to_message_answer, refusal, 0, 1);
FIELD(orl_to_message_answer, H, 1, 1);
FIELD(orl_to_message_answer, B, 2, 1);
FIELD(orl_to_message_answer, encoding_id, 3, 1);
FIELD(orl_to_message_answer, off, 4, 1);
FIELD(orl_to_message_answer, began, 5, 1);
WHOLE(orl_to_message_answer, 6);

#undef FIELD
#undef WHOLE

#endif
