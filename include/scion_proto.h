/* SCION headers for a ground station: the calls of the static library libscion_proto.a.
 *
 * A SCION packet is a common header, an address header, a path and a payload. The sender chooses the path: up to three segments,
 * each an info field and a run of hop fields, one for each network (AS) on the way and two where segments meet. A hop field names
 * the interfaces by which the packet enters and leaves that network, until when they may be used, and a code (MAC) by which the
 * network's router knows its own hop field. Two pointers in the path say which info field and which hop field the packet has come to.
 *
 * Every call on a packet or a path reads it first and answers with a number: 0 is accepted, 1 to 15 are refusals, below. A refusal
 * hands back zeros in every other field (2 and 3 also their value) and changes no lent byte. Any type byte, index, size and contents
 * will do. The two calls on a record, scion_record_expiry and scion_record_time_left, take it alone and look at no bytes.
 *
 * What is asked of the caller is memory, and nothing else:
 * - `bytes` points to `len` bytes that can be read, and written where it isn't const; so do `path` and `dst`. NULL with length 0
 *   will do.
 * - BUFFERS MUST NOT OVERLAP: in a call with a source and a destination, no byte may be in both. A path can't be reversed in place:
 *   such a call may answer 0 and leave a wrong path.
 * The calls keep nothing between them and share nothing, so threads may call at the same time on bytes that none of them changes.
 *
 * Numbers in structs are the machine's own; on the wire they are big-endian, which the library sees to. `start` of a field or part
 * counts from the first byte of what was handed to that call: the packet for scion_read_packet and scion_read_capture, the path for
 * all others.
 */
#ifndef SCION_PROTO_H
#define SCION_PROTO_H

#include <stdbool.h>
#include <stddef.h>
#include <stdint.h>

/* Raised whenever a struct or a call changes. Header and archive have to be of one commit; examples/layout.c checks that they agree. */
#define SCION_PROTO_VERSION 6

#ifdef __cplusplus
extern "C" {
#endif

/* The answers. */
enum {
    SCION_ACCEPTED = 0,
    SCION_CUT_SHORT = 1,            /* too few bytes; of a packet, fewer than 4 * header_length_factor among others */
    SCION_VERSION = 2,              /* version not 0; value: the version */
    SCION_FACTOR = 3,               /* header length factor under 9 (read) or 0 (written); value: the factor */
    SCION_SEGMENT_LENGTHS = 4,      /* first length 0, or a length after a 0 */
    SCION_INFO_POINTER = 5,         /* info pointer not under the number of info fields */
    SCION_HOP_POINTER = 6,          /* hop pointer not under the number of hop fields, or in another segment */
    SCION_LEFT_OVER_BYTES = 7,      /* bytes between the path and the end of the header */
    SCION_NO_SUCH_FIELD = 8,        /* no such info field, segment, hop field or interface, or not a standard path */
    SCION_DESTINATION_SIZE = 9,     /* destination not of the exact size; shorter than the path where it is copied or reversed */
    SCION_NUMBER_TOO_WIDE = 10,     /* a number wider than its field, or a time above SCION_MAX_NOW or SCION_MAX_EXPIRY */
    SCION_PAYLOAD_TOO_LARGE = 11,   /* payload above 65,535 bytes */
    SCION_HEADER_TOO_LARGE = 12,    /* header length factor above 255 */
    SCION_TOO_MANY_HOP_FIELDS = 13, /* more than 64 hop fields */
    SCION_PEERING = 14,             /* peering set, but not on both of exactly two segments */
    SCION_AT_LAST_HOP_FIELD = 15    /* a single move at the last hop field */
};

/* Path types: any other byte is an opaque path, all the bytes given. Calls on fields, times, interfaces and moves are for standard
 * paths; they answer 8 for every other type. */
enum { SCION_PATH_EMPTY = 0, SCION_PATH_STANDARD = 1 };

/* Host kinds: any other of 0 to 15 is an opaque host of 4 * (kind % 4 + 1) bytes. */
enum { SCION_HOST_IPV4 = 0, SCION_HOST_IPV6 = 3, SCION_HOST_SERVICE = 4 };

/* Numbers of services; SCION_SERVICE_MULTICAST may be added to one. */
enum {
    SCION_SERVICE_DAEMON = 0x0001,
    SCION_SERVICE_CONTROL = 0x0002,
    SCION_SERVICE_WILDCARD = 0x0010,
    SCION_SERVICE_MULTICAST = 0x8000,
    SCION_SERVICE_NONE = 0xFFFF
};

/* Bits of `flags`: of an info field, and of a hop field. Alerts, like cons_ingress and cons_egress, are named as in construction
 * direction. */
enum { SCION_INFO_CONSTRUCTION_DIRECTION = 0x01, SCION_INFO_PEERING = 0x02 };
enum { SCION_HOP_EGRESS_ALERT = 0x01, SCION_HOP_INGRESS_ALERT = 0x02 };

/* The latest `now` that is taken: ms since 1970, the year 2255. */
#define SCION_MAX_NOW UINT64_C(9000000000000)

/* The latest expiry that a path can have: ms since 1970, the year 2106. */
#define SCION_MAX_EXPIRY UINT64_C(4295053695000)

/* A network's number (IA): the ISD in the high 16 bits, the AS in the low 48. */
#define SCION_ISD(ia) ((uint16_t)((uint64_t)(ia) >> 48))
#define SCION_AS(ia) ((uint64_t)(ia) & UINT64_C(0xFFFFFFFFFFFF))
#define SCION_IA(isd, as) ((uint64_t)(isd) << 48 | SCION_AS(as))

/* An answer's number, and with 2 the version, with 3 the factor; else 0. */
typedef struct {
    uint8_t number;
    uint8_t value;
} ScionAnswer;

/* The record of a standard path as the call leaves it, of the path written where it is copied or reversed; all zero for other types
 * and on a refusal. The pointers count info fields and hop fields from 0. Segment k has segment_lengths[k] hop fields, 0 where there
 * is no such segment; hop fields count through all segments. A packet has arrived when current_hop_field is the last.
 *
 * `expiry` is when the path expires, in ms since 1970: the least of its hop fields', from 337,500 to SCION_MAX_EXPIRY. An `expiry` of
 * 0 IS NO EXPIRY, and not a path that expired in 1970: there is no standard path here, for the path is of another type or the call
 * was refused. Look at the answer and the path type before you use it.
 *
 * A record tells of the bytes as the call left them. One that was kept says nothing about bytes that were changed since by other
 * means: read those again. */
typedef struct {
    uint8_t current_info_field;
    uint8_t current_hop_field;
    uint8_t reserved;
    uint8_t segment_lengths[3];
    uint64_t expiry;
} ScionPath;

/* A part of the caller's bytes: `len` bytes from `start` on. */
typedef struct {
    size_t start;
    size_t len;
} ScionPart;

/* A host: a service's number and no bytes, or the first 4 * (kind % 4 + 1) of `bytes` as they are on the wire, the others zero.
 * `padding` is the number in the two bytes that follow a service's number on the wire. Any other host has none: it is read as 0, and
 * not looked at when it is written. The field stands last, so that {kind, service, {bytes}} leaves it 0. */
typedef struct {
    uint8_t kind;
    uint16_t service;
    uint8_t bytes[16];
    uint16_t padding;
} ScionHost;

typedef struct {
    ScionAnswer answer;
    ScionPath path;
} ScionPathAnswer;

typedef struct {
    ScionAnswer answer;
    ScionPath path;
    size_t length;
} ScionPathRead;

/* A path that was written: the first `length` bytes of the destination, 0 for an empty path and on a refusal. */
typedef struct {
    ScionAnswer answer;
    ScionPath path;
    size_t length;
} ScionWrittenPath;

/* An info field and where it starts; `timestamp` in seconds since 1970. */
typedef struct {
    ScionAnswer answer;
    ScionPath path;
    size_t start;
    uint8_t flags;
    uint8_t reserved;
    uint16_t accumulator;
    uint32_t timestamp;
} ScionInfoField;

/* A hop field and where it starts. It expires 337,500 * (1 + exp_time) ms after its info field's timestamp: 5 min 37.5 s to 24 h.
 * cons_ingress and cons_egress are the interfaces in construction direction; where the info field's direction bit is clear, the
 * packet enters by cons_egress and leaves by cons_ingress. 0 is no interface. */
typedef struct {
    ScionAnswer answer;
    ScionPath path;
    size_t start;
    uint8_t flags;
    uint8_t exp_time;
    uint16_t cons_ingress;
    uint16_t cons_egress;
    uint8_t mac[6];
} ScionHopField;

/* Where a segment's info field and its hop fields lie in the path's bytes. */
typedef struct {
    ScionAnswer answer;
    ScionPath path;
    ScionPart info_field;
    ScionPart hop_fields;
} ScionSegment;

/* An expiry in ms since 1970. */
typedef struct {
    ScionAnswer answer;
    ScionPath path;
    uint64_t ms;
} ScionExpiry;

/* Expiry less now, in ms; below zero once the path has expired. */
typedef struct {
    ScionAnswer answer;
    ScionPath path;
    int64_t ms;
} ScionTimeLeft;

typedef struct {
    ScionAnswer answer;
    ScionPath path;
    size_t count;
} ScionInterfaceCount;

/* An interface, 0 for none, and the hop field that it belongs to. */
typedef struct {
    ScionAnswer answer;
    ScionPath path;
    size_t hop_field;
    uint16_t id;
} ScionInterface;

/* How many moves a walk made, and whether it stands at the last hop field. */
typedef struct {
    ScionAnswer answer;
    ScionPath path;
    size_t moves;
    bool arrived;
} ScionWalk;

/* A packet that was split: every value of its headers, and where its path and its payload lie in its bytes. The headers are
 * 4 * header_length_factor bytes long (in a short capture what there is of them), traffic_class has 8 bits, flow_id 20. */
typedef struct {
    ScionAnswer answer;
    ScionPath path;
    uint8_t version;
    uint8_t traffic_class;
    uint8_t next_header;
    uint8_t header_length_factor;
    uint8_t path_type;
    uint16_t payload_length;
    uint16_t reserved;
    uint32_t flow_id;
    uint64_t destination_ia;
    uint64_t source_ia;
    ScionHost destination;
    ScionHost source;
    ScionPart path_part;
    ScionPart payload_part;
} ScionPacket;

/* A capture that was split, and whether it is short: whether it has fewer than 4 * header_length_factor bytes. Of a short one the
 * addresses are whole, and so is a standard path; an opaque path is what there is of it, and there is no payload. A capture that was
 * refused is not called short. */
typedef struct {
    ScionPacket packet;
    bool is_short;
} ScionCapture;

/* The headers to be written; `scion_new_headers` fills in what follows from the rest. */
typedef struct {
    uint8_t version;
    uint8_t traffic_class;
    uint8_t next_header;
    uint8_t path_type;
    uint16_t reserved;
    uint32_t flow_id;
    size_t header_length_factor;
    size_t payload_length;
    uint64_t destination_ia;
    uint64_t source_ia;
    ScionHost destination;
    ScionHost source;
} ScionHeaders;

/* Reading. Bytes after a packet's payload, and after a standard path, are no part of it; `length` is the path's own.
 *
 * A station reads with scion_read_packet. It refuses a packet of fewer than 4 * header_length_factor bytes with 1, directly after
 * the factor: before its addresses and its path are looked at. scion_read_capture is for packets on file, short ones among them: it
 * answers as if there were no such test, and says whether the packet is short. Where scion_read_packet accepts, both answer the
 * same. */
ScionPacket scion_read_packet(const uint8_t *bytes, size_t len);
ScionCapture scion_read_capture(const uint8_t *bytes, size_t len);
ScionPathRead scion_read_path(uint8_t path_type, const uint8_t *bytes, size_t len);

/* Views of a standard path. `index` counts info fields, hop fields, segments or interfaces from 0; 8 where there is none.
 * A segment's expiry is the least of its hop fields', a path's the least of its segments'. `now` is in ms since 1970, at most
 * SCION_MAX_NOW. Interfaces come in the order of travel: an even index is the one by which the packet leaves a network, the odd one
 * after it that by which it enters the next. Every link of the path is among them: those inside a segment and, where the path has two
 * segments and peering is set on both, the one between the segments; other segments meet inside one network, without a link. */
ScionInfoField scion_info_field(uint8_t path_type, const uint8_t *bytes, size_t len, size_t index);
ScionHopField scion_hop_field(uint8_t path_type, const uint8_t *bytes, size_t len, size_t index);
ScionSegment scion_segment(uint8_t path_type, const uint8_t *bytes, size_t len, size_t index);
ScionExpiry scion_segment_expiry(uint8_t path_type, const uint8_t *bytes, size_t len, size_t index);
ScionExpiry scion_expiry(uint8_t path_type, const uint8_t *bytes, size_t len);
ScionTimeLeft scion_time_left(uint8_t path_type, const uint8_t *bytes, size_t len, uint64_t now);
ScionInterfaceCount scion_interfaces_count(uint8_t path_type, const uint8_t *bytes, size_t len);
ScionInterface scion_interface(uint8_t path_type, const uint8_t *bytes, size_t len, size_t index);

/* Times of a record, by the `expiry` stored in it; no bytes are looked at. scion_record_expiry hands over that number, whatever it
 * is. scion_record_time_left hands over that number less `now`, and the record given as its `path`; it answers 10 where the number is
 * above SCION_MAX_EXPIRY or `now` above SCION_MAX_NOW, and has no other refusal. For a standard path's record both agree with
 * scion_expiry and scion_time_left of the bytes as the call that handed the record back left them.
 * - 0 is taken as a number here, and gives 0 less `now`: rule out the records of no standard path first, as said at ScionPath.
 * - Any record may be given. For one that was made or changed by hand this is arithmetic and nothing else: it stands for no path. */
uint64_t scion_record_expiry(ScionPath path);
ScionTimeLeft scion_record_time_left(ScionPath path, uint64_t now);

/* Changes to a path in place. An alert flag of hop field `index` is set or cleared. A move takes the path one hop field on as the
 * routers in between do; 15 where the packet has arrived. A walk makes moves until the packet has arrived, or `limit` of them. Both
 * answer 13 and 14 where these hold. None of these calls changes when the path expires. */
ScionPathAnswer scion_set_ingress_router_alert(uint8_t path_type, uint8_t *bytes, size_t len, size_t index, bool on);
ScionPathAnswer scion_set_egress_router_alert(uint8_t path_type, uint8_t *bytes, size_t len, size_t index, bool on);
ScionPathAnswer scion_move(uint8_t path_type, uint8_t *bytes, size_t len);
ScionWalk scion_walk(uint8_t path_type, uint8_t *bytes, size_t len, size_t limit);

/* A path copied, or reversed, to the front of a destination of at least its length (ScionPathRead's `length`; all bytes of an opaque
 * path); 9 for a shorter one. A fixed buffer will do: 2,304 bytes have room for every standard path, which has 2,296 at most. The
 * answer's `length` says how many bytes of the destination are the path now: hand on these, and not the whole buffer. The bytes
 * behind them stay as they are. An empty path writes nothing, and its destination may have any size. The reply's path is the reverse
 * of the path of a packet that has arrived: walk a copy to its end first where it has not. It expires when the path does. bytes and
 * dst must not overlap. */
ScionWrittenPath scion_copy_path(uint8_t path_type, const uint8_t *bytes, size_t len, uint8_t *dst, size_t dst_len);
ScionWrittenPath scion_reverse_path(uint8_t path_type, const uint8_t *bytes, size_t len, uint8_t *dst, size_t dst_len);

/* Writing: the headers of a path of `path_len` bytes with version, traffic class, reserved and both paddings 0, whatever padding the
 * hosts have, and the factor that follows from the lengths; how many bytes they take with a path, SIZE_MAX where no number can say it;
 * and the bytes themselves, path included, into a destination of that size. With the factor that follows from the lengths, more than
 * 1,023 bytes get 12. flow_id has 20 bits. A path of type 0 adds no bytes; the bytes of any other are written as given, unread. path
 * and dst must not overlap.
 *
 * A packet that was read is written again byte for byte: hand over every value of its ScionPacket as it is, factor, reserved and the
 * hosts' padding too, with the bytes of path_part as the path, into payload_part.start bytes: those before its payload. */
ScionHeaders scion_new_headers(uint64_t destination_ia, ScionHost destination, uint64_t source_ia, ScionHost source,
                               uint8_t path_type, size_t path_len, uint8_t next_header, size_t payload_length, uint32_t flow_id);
size_t scion_headers_length(ScionHeaders headers, size_t path_len);
ScionAnswer scion_write_headers(ScionHeaders headers, const uint8_t *path, size_t path_len, uint8_t *dst, size_t dst_len);

/* The headers that `scion_new_headers` makes for the path, written in one call. path and dst must not overlap. */
ScionAnswer scion_write_new_headers(uint64_t destination_ia, ScionHost destination, uint64_t source_ia, ScionHost source,
                                    uint8_t path_type, uint8_t next_header, size_t payload_length, uint32_t flow_id,
                                    const uint8_t *path, size_t path_len, uint8_t *dst, size_t dst_len);

#ifdef __cplusplus
}
#endif

#endif
