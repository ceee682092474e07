/* Checks that the header and the compiled library agree: the size of every struct and the place of every field,
 * each struct as the library fills it with values that differ from field to field, and every answer number.
 */
#include "scion_proto.h"

#include <stdio.h>
#include <string.h>

#define SIZE(type, size) _Static_assert(sizeof(type) == (size), "size of " #type)
#define AT(type, field, offset) _Static_assert(offsetof(type, field) == (offset), #type "." #field)

/* What every answer on a path begins with. */
#define PATH_FIRST(type) AT(type, answer, 0); AT(type, path, 8)

SIZE(size_t, 8);
SIZE(ScionAnswer, 2); AT(ScionAnswer, number, 0); AT(ScionAnswer, value, 1);
SIZE(ScionPath, 16); AT(ScionPath, current_info_field, 0); AT(ScionPath, current_hop_field, 1); AT(ScionPath, reserved, 2);
AT(ScionPath, segment_lengths, 3); AT(ScionPath, expiry, 8);
_Static_assert(_Alignof(ScionPath) == 8, "alignment of ScionPath");
SIZE(ScionPart, 16); AT(ScionPart, start, 0); AT(ScionPart, len, 8);
SIZE(ScionHost, 22); AT(ScionHost, kind, 0); AT(ScionHost, service, 2); AT(ScionHost, bytes, 4); AT(ScionHost, padding, 20);
SIZE(ScionPathAnswer, 24); PATH_FIRST(ScionPathAnswer);
SIZE(ScionPathRead, 32); PATH_FIRST(ScionPathRead); AT(ScionPathRead, length, 24);
SIZE(ScionWrittenPath, 32); PATH_FIRST(ScionWrittenPath); AT(ScionWrittenPath, length, 24);
SIZE(ScionInfoField, 40); PATH_FIRST(ScionInfoField); AT(ScionInfoField, start, 24); AT(ScionInfoField, flags, 32);
AT(ScionInfoField, reserved, 33); AT(ScionInfoField, accumulator, 34); AT(ScionInfoField, timestamp, 36);
SIZE(ScionHopField, 48); PATH_FIRST(ScionHopField); AT(ScionHopField, start, 24); AT(ScionHopField, flags, 32);
AT(ScionHopField, exp_time, 33); AT(ScionHopField, cons_ingress, 34); AT(ScionHopField, cons_egress, 36); AT(ScionHopField, mac, 38);
SIZE(ScionSegment, 56); PATH_FIRST(ScionSegment); AT(ScionSegment, info_field, 24); AT(ScionSegment, hop_fields, 40);
SIZE(ScionExpiry, 32); PATH_FIRST(ScionExpiry); AT(ScionExpiry, ms, 24);
SIZE(ScionTimeLeft, 32); PATH_FIRST(ScionTimeLeft); AT(ScionTimeLeft, ms, 24);
SIZE(ScionInterfaceCount, 32); PATH_FIRST(ScionInterfaceCount); AT(ScionInterfaceCount, count, 24);
SIZE(ScionInterface, 40); PATH_FIRST(ScionInterface); AT(ScionInterface, hop_field, 24); AT(ScionInterface, id, 32);
SIZE(ScionWalk, 40); PATH_FIRST(ScionWalk); AT(ScionWalk, moves, 24); AT(ScionWalk, arrived, 32);
SIZE(ScionPacket, 136); PATH_FIRST(ScionPacket); AT(ScionPacket, version, 24); AT(ScionPacket, traffic_class, 25);
AT(ScionPacket, next_header, 26); AT(ScionPacket, header_length_factor, 27); AT(ScionPacket, path_type, 28);
AT(ScionPacket, payload_length, 30); AT(ScionPacket, reserved, 32); AT(ScionPacket, flow_id, 36);
AT(ScionPacket, destination_ia, 40); AT(ScionPacket, source_ia, 48); AT(ScionPacket, destination, 56); AT(ScionPacket, source, 78);
AT(ScionPacket, path_part, 104); AT(ScionPacket, payload_part, 120);
SIZE(ScionCapture, 144); AT(ScionCapture, packet, 0); AT(ScionCapture, is_short, 136);
SIZE(ScionHeaders, 96); AT(ScionHeaders, version, 0); AT(ScionHeaders, traffic_class, 1); AT(ScionHeaders, next_header, 2);
AT(ScionHeaders, path_type, 3); AT(ScionHeaders, reserved, 4); AT(ScionHeaders, flow_id, 8);
AT(ScionHeaders, header_length_factor, 16); AT(ScionHeaders, payload_length, 24); AT(ScionHeaders, destination_ia, 32);
AT(ScionHeaders, source_ia, 40); AT(ScionHeaders, destination, 48); AT(ScionHeaders, source, 70);

static int failed;
#define CHECK(e) do { if (!(e)) { failed++; printf("line %d: %s\n", __LINE__, #e); } } while (0)

/* A path of these segment lengths and pointers, reserved bits 2A, with bytes that differ from place to place. */
static size_t build(uint8_t *b, unsigned s0, unsigned s1, unsigned s2, unsigned info, unsigned hop) {
    uint32_t word = info << 30 | hop << 24 | 0x2Au << 18 | s0 << 12 | s1 << 6 | s2;
    size_t infos = s2 ? 3 : s1 ? 2 : 1, len = 4 + 8 * infos + 12 * (s0 + s1 + s2);
    for (size_t i = 0; i < len; i++)
        b[i] = (uint8_t)(i < 4 ? word >> (24 - 8 * i) : 64 + i);
    for (size_t k = 0; k < infos; k++)
        b[4 + 8 * k] = 0xA5;
    return len;
}

/* Whether a record has these numbers. */
static bool is_record(ScionPath p, unsigned info, unsigned hop, unsigned reserved, unsigned s0, unsigned s1, unsigned s2, uint64_t ms) {
    return p.current_info_field == info && p.current_hop_field == hop && p.reserved == reserved && p.segment_lengths[0] == s0
        && p.segment_lengths[1] == s1 && p.segment_lengths[2] == s2 && p.expiry == ms;
}

/* Whether a record is all zero, as for other types and on a refusal. */
static bool is_zero(ScionPath p) {
    return is_record(p, 0, 0, 0, 0, 0, 0, 0);
}

/* When the path of segment lengths 1, 2, 3 expires: by its first hop field, which has the least timestamp. */
static const uint64_t first_expiry = 0x48494A4Bull * 1000 + 337500ull * (1 + 0x5D);

static bool ok(ScionAnswer a, ScionPath p, unsigned hop) {
    return a.number == 0 && a.value == 0 && is_record(p, 2, hop, 0x2A, 1, 2, 3, first_expiry);
}

static bool is_host(ScionHost h, unsigned kind, unsigned service, const uint8_t *bytes, size_t n, unsigned padding) {
    uint8_t all[16] = {0};
    memcpy(all, bytes, n);
    return h.kind == kind && h.service == service && memcmp(h.bytes, all, 16) == 0 && h.padding == padding;
}

/* Whether all of these bytes are EE. */
static bool are_ee(const uint8_t *bytes, size_t n) {
    for (size_t i = 0; i < n; i++)
        if (bytes[i] != 0xEE)
            return false;
    return true;
}

/* Interfaces of two segments of two hop fields: with peering on both, the link between them has two; with peering on one, there is no
 * such link. Hop field j has construction ingress 2j + 1 and construction egress 2j + 2. */
static void peering_interfaces(void) {
    static const uint16_t both[] = {1, 4, 3, 5, 6, 7}, one[] = {1, 4, 6, 7};
    uint8_t path[68] = {0x00, 0x00, 0x20, 0x80, [4] = 0x02, [12] = 0x03};
    for (uint8_t j = 0; j < 4; j++) {
        path[20 + 12 * j + 3] = (uint8_t)(2 * j + 1);
        path[20 + 12 * j + 5] = (uint8_t)(2 * j + 2);
    }
    ScionInterfaceCount count = scion_interfaces_count(1, path, sizeof path);
    CHECK(count.answer.number == 0 && count.count == 6);
    for (size_t i = 0; i < 6; i++) {
        ScionInterface found = scion_interface(1, path, sizeof path, i);
        CHECK(found.answer.number == 0 && found.hop_field == (i + 1) / 2 && found.id == both[i]);
    }
    ScionInterface none = scion_interface(1, path, sizeof path, 6);
    CHECK(none.answer.number == SCION_NO_SUCH_FIELD && is_zero(none.path) && none.hop_field == 0 && none.id == 0);
    CHECK(scion_interface(1, path, sizeof path, SIZE_MAX).answer.number == SCION_NO_SUCH_FIELD);
    path[12] = 0x01;
    count = scion_interfaces_count(1, path, sizeof path);
    CHECK(count.answer.number == 0 && count.count == 4);
    for (size_t i = 0; i < 4; i++) {
        ScionInterface found = scion_interface(1, path, sizeof path, i);
        CHECK(found.answer.number == 0 && found.hop_field == i && found.id == one[i]);
    }
    CHECK(scion_interface(1, path, sizeof path, 4).answer.number == SCION_NO_SUCH_FIELD);
}

/* The headers that write a packet again: every value as it was read. */
static ScionHeaders again(ScionPacket p) {
    return (ScionHeaders){
        .version = p.version, .traffic_class = p.traffic_class, .next_header = p.next_header, .path_type = p.path_type,
        .reserved = p.reserved, .flow_id = p.flow_id, .header_length_factor = p.header_length_factor,
        .payload_length = p.payload_length, .destination_ia = p.destination_ia, .source_ia = p.source_ia,
        .destination = p.destination, .source = p.source,
    };
}

/* A service's padding is read and written again; in a reply that is made anew it is zero. No other host has one. */
static void service_padding(void) {
    static const uint8_t none[16];
    uint8_t packet[38] = {0x07, 0x61, 0x23, 0x45, 0x11, 9, 0, 2, 0, 0x40, 0x5A, 0xA5, [12] = 1, [19] = 2, [20] = 3, [27] = 4,
        [28] = 0x00, 0x02, 0xBE, 0xEF, 10, 11, 12, 13, 14, 15};
    uint8_t dst[36];
    ScionPacket p = scion_read_packet(packet, sizeof packet);
    CHECK(p.answer.number == 0 && is_host(p.destination, 4, 2, none, 16, 0xBEEF) && is_host(p.source, 0, 0, packet + 32, 4, 0));
    CHECK(p.path_part.len == 0 && p.payload_part.start == 36);
    CHECK(scion_write_headers(again(p), NULL, 0, dst, 36).number == 0 && memcmp(dst, packet, 36) == 0);
    ScionHeaders reply = scion_new_headers(p.source_ia, p.source, p.destination_ia, p.destination, 0, 0, 0x11, 0, 1);
    CHECK(is_host(reply.source, 4, 2, none, 16, 0) && is_host(reply.destination, 0, 0, packet + 32, 4, 0));
    CHECK(scion_write_headers(reply, NULL, 0, dst, 36).number == 0 && memcmp(dst + 32, "\x00\x02\x00\x00", 4) == 0);
    memset(dst, 0xEE, sizeof dst);
    CHECK(scion_write_new_headers(p.source_ia, p.source, p.destination_ia, p.destination, 0, 0x11, 0, 1, NULL, 0, dst, 36).number == 0
        && memcmp(dst + 28, packet + 32, 4) == 0 && memcmp(dst + 32, "\x00\x02\x00\x00", 4) == 0);

    /* As the source, after an IPv4 host whose padding, 7 by hand, is not looked at. */
    p.source = p.destination;
    p.source.service = 0x8002;
    p.source.padding = 0x0001;
    p.destination = (ScionHost){.kind = SCION_HOST_IPV4, .bytes = {10, 11, 12, 13}, .padding = 7};
    CHECK(scion_write_headers(again(p), NULL, 0, dst, 36).number == 0 && memcmp(dst + 28, "\x0A\x0B\x0C\x0D\x80\x02\x00\x01", 8) == 0);
    memcpy(packet, dst, 36);
    p = scion_read_packet(packet, sizeof packet);
    CHECK(p.answer.number == 0 && is_host(p.destination, 0, 0, packet + 28, 4, 0) && is_host(p.source, 4, 0x8002, none, 16, 1));
}

/* A packet with fewer bytes than its headers say is refused, right after the factor; as a capture it is read, and short. */
static void short_capture(void) {
    uint8_t packet[40] = {0x07, 0x61, 0x23, 0x45, 0x11, 9, 0, 0, 0, 0, 0x5A, 0xA5, [12] = 1, [19] = 2, [20] = 3, [27] = 4,
        [28] = 6, 7, 8, 9, 10, 11, 12, 13, 14, 15, 16, 17};
    uint8_t dst[36];
    CHECK(scion_read_packet(packet, 36).answer.number == 0);
    ScionCapture c = scion_read_capture(packet, 36);
    CHECK(c.packet.answer.number == 0 && !c.is_short);
    packet[5] = 10;
    CHECK(scion_read_packet(packet, 36).answer.number == SCION_CUT_SHORT);
    c = scion_read_capture(packet, 36);
    ScionPacket p = c.packet;
    CHECK(c.is_short && p.answer.number == 0 && p.traffic_class == 0x76 && p.flow_id == 0x12345 && p.header_length_factor == 10
        && p.reserved == 0x5AA5 && is_host(p.destination, 0, 0, packet + 28, 4, 0) && is_host(p.source, 0, 0, packet + 32, 4, 0)
        && p.path_part.start == 36 && p.path_part.len == 0 && p.payload_part.start == 36 && p.payload_part.len == 0);
    CHECK(scion_write_headers(again(p), NULL, 0, dst, 36).number == 0 && memcmp(dst, packet, 36) == 0);

    /* Refused as a capture too, for another reason: not called short. */
    c = scion_read_capture(packet, 39);
    CHECK(c.packet.answer.number == SCION_LEFT_OVER_BYTES && !c.is_short && c.packet.header_length_factor == 0);
    CHECK(scion_read_packet(packet, 39).answer.number == SCION_CUT_SHORT);
    CHECK(scion_read_packet(packet, 40).answer.number == SCION_LEFT_OVER_BYTES);
    packet[5] = 8;
    CHECK(scion_read_packet(packet, 30).answer.number == SCION_FACTOR && scion_read_capture(packet, 30).packet.answer.value == 8);
    CHECK(scion_read_capture(NULL, 0).packet.answer.number == SCION_CUT_SHORT && !scion_read_capture(NULL, 0).is_short);
}

int main(void) {
    static uint8_t b[1000], path[1000], dst[2304];
    size_t len = build(path, 1, 2, 3, 2, 4);
    ScionAnswer a;

    /* The structs of the calls on paths. Info field 2 stands at 20, hop field 4 at 76, in segment 2. */
    ScionPathRead read = scion_read_path(1, path, sizeof path);
    CHECK(ok(read.answer, read.path, 4) && read.length == 100 && len == 100);
    ScionInfoField info = scion_info_field(1, path, len, 2);
    CHECK(ok(info.answer, info.path, 4) && info.start == 20 && info.flags == 0xA5 && info.reserved == 0x55
        && info.accumulator == 0x5657 && info.timestamp == 0x58595A5B);
    ScionHopField hop = scion_hop_field(1, path, len, 4);
    CHECK(ok(hop.answer, hop.path, 4) && hop.start == 76 && hop.flags == 0x8C && hop.exp_time == 0x8D
        && hop.cons_ingress == 0x8E8F && hop.cons_egress == 0x9091 && memcmp(hop.mac, path + 82, 6) == 0);
    ScionSegment segment = scion_segment(1, path, len, 2);
    CHECK(ok(segment.answer, segment.path, 4) && segment.info_field.start == 20 && segment.info_field.len == 8
        && segment.hop_fields.start == 64 && segment.hop_fields.len == 36);
    ScionExpiry expiry = scion_segment_expiry(1, path, len, 2);
    CHECK(ok(expiry.answer, expiry.path, 4) && expiry.ms == 0x58595A5Bull * 1000 + 337500ull * (1 + 0x81));
    expiry = scion_expiry(1, path, len);
    CHECK(ok(expiry.answer, expiry.path, 4) && expiry.ms == first_expiry);
    ScionTimeLeft left = scion_time_left(1, path, len, expiry.ms + 7);
    CHECK(ok(left.answer, left.path, 4) && left.ms == -7);
    ScionInterfaceCount count = scion_interfaces_count(1, path, len);
    CHECK(ok(count.answer, count.path, 4) && count.count == 6);
    ScionInterface interface = scion_interface(1, path, len, 3);
    CHECK(ok(interface.answer, interface.path, 4) && interface.hop_field == 4 && interface.id == 0x8E8F);
    peering_interfaces();
    memcpy(b, path, len);
    ScionPathAnswer moved = scion_move(1, b, len);
    CHECK(ok(moved.answer, moved.path, 5));
    memcpy(b, path, len);
    ScionWalk walk = scion_walk(1, b, len, SIZE_MAX);
    CHECK(ok(walk.answer, walk.path, 5) && walk.moves == 1 && walk.arrived);
    ScionPathAnswer alerted = scion_set_ingress_router_alert(1, b, len, 4, true);
    CHECK(ok(alerted.answer, alerted.path, 5) && b[76] == 0x8E);
    alerted = scion_set_egress_router_alert(1, b, len, 4, true);
    CHECK(ok(alerted.answer, alerted.path, 5) && b[76] == 0x8F);

    /* Copies and reversals: the path at the front of a longer destination, and no other byte; a byte after the path is no part of it. */
    memset(dst, 0xEE, sizeof dst);
    path[len] = 0x77;
    ScionWrittenPath copied = scion_copy_path(1, path, len + 1, dst, sizeof dst);
    CHECK(ok(copied.answer, copied.path, 4) && copied.length == len && memcmp(dst, path, len) == 0);
    CHECK(are_ee(dst + len, sizeof dst - len));
    memset(dst, 0xEE, sizeof dst);
    ScionWrittenPath reversed = scion_reverse_path(1, path, len + 1, dst, sizeof dst);
    CHECK(reversed.answer.number == 0 && is_record(reversed.path, 0, 0, 0, 3, 2, 1, first_expiry) && reversed.length == len);
    CHECK(dst[4] == 0xA4 && memcmp(dst + 28, path + 88, 12) == 0 && memcmp(dst + 88, path + 28, 12) == 0);
    CHECK(are_ee(dst + len, sizeof dst - len));
    CHECK(scion_copy_path(1, path, len, dst, len).length == len && scion_reverse_path(1, path, len, dst, len).length == len);
    memset(dst, 0xEE, sizeof dst);
    copied = scion_copy_path(1, path, len, dst, len - 1);
    CHECK(copied.answer.number == SCION_DESTINATION_SIZE && is_zero(copied.path) && copied.length == 0);
    reversed = scion_reverse_path(1, path, len, dst, len - 1);
    CHECK(reversed.answer.number == SCION_DESTINATION_SIZE && is_zero(reversed.path) && reversed.length == 0);
    CHECK(scion_copy_path(7, path, 3, dst, 2).answer.number == SCION_DESTINATION_SIZE);
    copied = scion_copy_path(SCION_PATH_EMPTY, path, len, dst, sizeof dst);
    CHECK(copied.answer.number == 0 && is_zero(copied.path) && copied.length == 0 && are_ee(dst, sizeof dst));
    reversed = scion_reverse_path(7, path, 3, dst, 5);
    CHECK(reversed.answer.number == 0 && is_zero(reversed.path) && reversed.length == 3 && memcmp(dst, path, 3) == 0
        && are_ee(dst + 3, sizeof dst - 3));

    /* The calls on a record: of one that was handed back, and of one made by hand, which comes back as it was given. */
    ScionPath made = {0xF1, 0xF2, 0xF3, {0xF4, 0xF5, 0xF6}, UINT64_MAX};
    CHECK(scion_record_expiry(read.path) == first_expiry && scion_record_expiry(made) == UINT64_MAX);
    left = scion_record_time_left(read.path, first_expiry + 7);
    CHECK(ok(left.answer, left.path, 4) && left.ms == -7);
    made.expiry = 338500;
    left = scion_record_time_left(made, 338501);
    CHECK(left.answer.number == 0 && left.ms == -1 && is_record(left.path, 0xF1, 0xF2, 0xF3, 0xF4, 0xF5, 0xF6, 338500));
    made.expiry = SCION_MAX_EXPIRY;
    CHECK(scion_record_time_left(made, 0).ms == (int64_t)SCION_MAX_EXPIRY);
    left = scion_record_time_left(made, SCION_MAX_NOW + 1);
    CHECK(left.answer.number == SCION_NUMBER_TOO_WIDE && left.ms == 0 && is_zero(left.path));
    made.expiry = SCION_MAX_EXPIRY + 1;
    left = scion_record_time_left(made, 0);
    CHECK(left.answer.number == SCION_NUMBER_TOO_WIDE && left.ms == 0 && is_zero(left.path));

    /* No expiry: the record of other types and of a refusal is all zero. */
    CHECK(is_zero(scion_read_path(SCION_PATH_EMPTY, path, len).path) && is_zero(scion_read_path(2, path, len).path));
    CHECK(is_zero(scion_read_path(1, path, len - 1).path) && is_zero(scion_hop_field(1, path, len, 6).path));
    CHECK(is_zero(scion_copy_path(2, path, len, dst, len).path) && is_zero(scion_reverse_path(2, path, len, dst, len).path));

    /* Headers: an IPv6 destination, a service as source. They are written, and read back as a packet. */
    ScionHost to = {SCION_HOST_IPV6, 0, {1, 2, 3, 4, 5, 6, 7, 8, 9, 10, 11, 12, 13, 14, 15, 16}, 0};
    ScionHost from = {SCION_HOST_SERVICE, 0xABCD, {0}, 0};
    ScionHeaders h = scion_new_headers(0x1112131415161718, to, 0x2122232425262728, from, 1, len, 0x31, 0x32, 0x33343);
    CHECK(h.version == 0 && h.traffic_class == 0 && h.reserved == 0 && h.next_header == 0x31 && h.path_type == 1
        && h.flow_id == 0x33343 && h.header_length_factor == 37 && h.payload_length == 0x32
        && h.destination_ia == 0x1112131415161718 && h.source_ia == 0x2122232425262728 && is_host(h.destination, 3, 0, to.bytes, 16, 0)
        && is_host(h.source, 4, 0xABCD, from.bytes, 16, 0) && scion_headers_length(h, len) == 148);
    a = scion_write_new_headers(0x1112131415161718, to, 0x2122232425262728, from, 1, 0x31, 0x32, 0x33343, path, len, dst, 148);
    CHECK(a.number == 0 && scion_write_headers(h, path, len, b, 148).number == 0 && memcmp(dst, b, 148) == 0);
    h.traffic_class = 0x41;
    h.reserved = 0x4243;
    h.source.padding = 0x4445;
    a = scion_write_headers(h, path, len, b, 148);
    CHECK(a.number == 0 && a.value == 0 && memcmp(b + 48, path, len) == 0);
    ScionPacket p = scion_read_packet(b, 200);
    CHECK(ok(p.answer, p.path, 4) && p.version == 0 && p.traffic_class == 0x41 && p.next_header == 0x31 && p.header_length_factor == 37
        && p.path_type == 1 && p.payload_length == 0x32 && p.reserved == 0x4243 && p.flow_id == 0x33343
        && p.destination_ia == 0x1112131415161718 && p.source_ia == 0x2122232425262728 && is_host(p.destination, 3, 0, to.bytes, 16, 0)
        && is_host(p.source, 4, 0xABCD, from.bytes, 16, 0x4445) && p.path_part.start == 48 && p.path_part.len == len
        && p.payload_part.start == 148 && p.payload_part.len == 0x32);
    CHECK(scion_write_headers(again(p), b + 48, len, dst, 148).number == 0 && memcmp(dst, b, 148) == 0);
    service_padding();
    short_capture();
    h.version = 5;
    CHECK(scion_write_headers(h, path, len, b, 148).number == 0 && b[0] == 0x54);
    a = scion_read_packet(b, 200).answer;
    CHECK(a.number == SCION_VERSION && a.value == 5);
    b[0] = 4;
    b[5] = 8;
    a = scion_read_packet(b, 200).answer;
    CHECK(a.number == SCION_FACTOR && a.value == 8);
    b[5] = 38;
    CHECK(scion_read_packet(b, 210).answer.number == SCION_LEFT_OVER_BYTES);

    /* The answers of the calls on paths. */
    CHECK(scion_read_path(1, path, len - 1).answer.number == SCION_CUT_SHORT);
    build(b, 0, 1, 0, 0, 0);
    CHECK(scion_read_path(1, b, sizeof b).answer.number == SCION_SEGMENT_LENGTHS);
    build(b, 2, 0, 0, 1, 0);
    CHECK(scion_read_path(1, b, sizeof b).answer.number == SCION_INFO_POINTER);
    build(b, 2, 1, 0, 0, 2);
    CHECK(scion_read_path(1, b, sizeof b).answer.number == SCION_HOP_POINTER);
    CHECK(scion_hop_field(1, path, len, 6).answer.number == SCION_NO_SUCH_FIELD);
    CHECK(scion_expiry(SCION_PATH_EMPTY, path, len).answer.number == SCION_NO_SUCH_FIELD);
    CHECK(scion_copy_path(1, path, len, dst, len - 1).answer.number == SCION_DESTINATION_SIZE);
    CHECK(scion_time_left(1, path, len, 9000000000001).answer.number == SCION_NUMBER_TOO_WIDE);
    len = build(b, 33, 32, 0, 0, 0);
    CHECK(scion_move(1, b, len).answer.number == SCION_TOO_MANY_HOP_FIELDS);
    len = build(b, 1, 1, 0, 0, 0);
    b[4] = 0xA7;
    CHECK(scion_move(1, b, len).answer.number == SCION_PEERING);
    len = build(b, 2, 0, 0, 0, 1);
    CHECK(scion_move(1, b, len).answer.number == SCION_AT_LAST_HOP_FIELD);

    /* The answers of the writer. */
    h = scion_new_headers(1, to, 2, from, 2, 20, 0, 0, 0);
    CHECK(scion_write_headers(h, path, 20, dst, 67).number == SCION_DESTINATION_SIZE);
    h.payload_length = 65536;
    CHECK(scion_write_headers(h, path, 20, dst, 68).number == SCION_PAYLOAD_TOO_LARGE);
    h.header_length_factor = 256;
    CHECK(scion_write_headers(h, path, 20, dst, 68).number == SCION_HEADER_TOO_LARGE);
    h.header_length_factor = 0;
    a = scion_write_headers(h, path, 20, dst, 68);
    CHECK(a.number == SCION_FACTOR && a.value == 0);
    h.source.kind = 16;
    CHECK(scion_write_headers(h, path, 20, dst, 68).number == SCION_NUMBER_TOO_WIDE);

    /* NULL with length 0: no byte is looked at, and none is written. */
    CHECK(scion_read_packet(NULL, 0).answer.number == SCION_CUT_SHORT);
    for (unsigned type = 0; type < 3; type++) {
        unsigned first = type == 1 ? SCION_CUT_SHORT : 0, then = type == 1 ? SCION_CUT_SHORT : SCION_NO_SUCH_FIELD;
        CHECK(scion_read_path((uint8_t)type, NULL, 0).answer.number == first);
        CHECK(scion_info_field((uint8_t)type, NULL, 0, 0).answer.number == then);
        CHECK(scion_hop_field((uint8_t)type, NULL, 0, 0).answer.number == then);
        CHECK(scion_segment((uint8_t)type, NULL, 0, 0).answer.number == then);
        CHECK(scion_segment_expiry((uint8_t)type, NULL, 0, 0).answer.number == then);
        CHECK(scion_expiry((uint8_t)type, NULL, 0).answer.number == then);
        CHECK(scion_time_left((uint8_t)type, NULL, 0, 0).answer.number == then);
        CHECK(scion_interfaces_count((uint8_t)type, NULL, 0).answer.number == then);
        CHECK(scion_interface((uint8_t)type, NULL, 0, 0).answer.number == then);
        CHECK(scion_set_ingress_router_alert((uint8_t)type, NULL, 0, 0, true).answer.number == then);
        CHECK(scion_set_egress_router_alert((uint8_t)type, NULL, 0, 0, true).answer.number == then);
        CHECK(scion_move((uint8_t)type, NULL, 0).answer.number == then);
        CHECK(scion_walk((uint8_t)type, NULL, 0, 1).answer.number == then);
        CHECK(scion_copy_path((uint8_t)type, NULL, 0, NULL, 0).answer.number == first);
        CHECK(scion_reverse_path((uint8_t)type, NULL, 0, NULL, 0).answer.number == first);
    }
    CHECK(scion_copy_path(1, path, 100, NULL, 0).answer.number == SCION_DESTINATION_SIZE);
    CHECK(scion_reverse_path(1, path, 100, NULL, 0).answer.number == SCION_DESTINATION_SIZE);
    h = scion_new_headers(1, to, 2, from, 0, 0, 0, 0, 0);
    CHECK(scion_write_headers(h, NULL, 0, dst, 48).number == 0 && scion_write_headers(h, NULL, 0, NULL, 0).number == SCION_DESTINATION_SIZE);
    CHECK(scion_write_new_headers(1, to, 2, from, 0, 0, 0, 0, NULL, 0, dst, 48).number == 0);

    /* The constants: a network's two numbers, and the bits of flags. */
    CHECK(SCION_ISD(0x0001FF0000000110) == 1 && SCION_AS(0x0001FF0000000110) == 0xFF0000000110
        && SCION_IA(1, 0xFF0000000110) == 0x0001FF0000000110);
    CHECK(scion_time_left(1, path, 100, SCION_MAX_NOW).answer.number == SCION_ACCEPTED
        && scion_time_left(1, path, 100, SCION_MAX_NOW + 1).answer.number == SCION_NUMBER_TOO_WIDE);
    len = build(b, 1, 0, 0, 0, 0);
    CHECK(scion_set_ingress_router_alert(1, b, len, 0, true).answer.number == 0
        && (scion_hop_field(1, b, len, 0).flags & SCION_HOP_INGRESS_ALERT) != 0);
    CHECK(scion_set_ingress_router_alert(1, b, len, 0, false).answer.number == 0
        && (scion_hop_field(1, b, len, 0).flags & SCION_HOP_INGRESS_ALERT) == 0);
    b[4] = SCION_INFO_CONSTRUCTION_DIRECTION;
    CHECK(scion_info_field(1, b, len, 0).flags == SCION_INFO_CONSTRUCTION_DIRECTION);

    if (failed == 0)
        printf("layout: the header and the library agree\n");
    return failed != 0;
}
