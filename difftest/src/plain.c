/* What the benchmark's times are held to: seven calls of scion_proto.h in plain C, by document 01's rules.
 * The benchmark holds their answers to the library's before it times them. */
#include "scion_proto.h"

#include <string.h>

enum { META = 4, INFO_FIELD = 8, HOP_FIELD = 12, COMMON = 12, NETWORKS = 16 };

static uint16_t get16(const uint8_t *at) {
    return (uint16_t)(at[0] << 8 | at[1]);
}

static uint32_t get32(const uint8_t *at) {
    return (uint32_t)get16(at) << 16 | get16(at + 2);
}

static uint64_t get64(const uint8_t *at) {
    return (uint64_t)get32(at) << 32 | get32(at + 4);
}

static void put16(uint8_t *at, uint16_t number) {
    at[0] = (uint8_t)(number >> 8);
    at[1] = (uint8_t)number;
}

static void put32(uint8_t *at, uint32_t number) {
    put16(at, (uint16_t)(number >> 16));
    put16(at + 2, (uint16_t)number);
}

static void put64(uint8_t *at, uint64_t number) {
    put32(at, (uint32_t)(number >> 32));
    put32(at + 4, (uint32_t)number);
}

static size_t info_fields_of(ScionPath path) {
    return 1u + (path.segment_lengths[1] != 0) + (path.segment_lengths[2] != 0);
}

static size_t hop_fields_of(ScionPath path) {
    return (size_t)path.segment_lengths[0] + path.segment_lengths[1] + path.segment_lengths[2];
}

/* The record in a meta header, unchecked, and without an expiry. */
static inline ScionPath record_of(const uint8_t *bytes) {
    uint32_t word = get32(bytes);
    return (ScionPath){word >> 30, word >> 24 & 63, word >> 18 & 63, {word >> 12 & 63, word >> 6 & 63, word & 63}, 0};
}

/* What reading a standard path answers: lengths, info pointer, hop pointer, bytes. */
static inline uint8_t check_standard(ScionPath path, size_t len) {
    unsigned s0 = path.segment_lengths[0], s1 = path.segment_lengths[1], s2 = path.segment_lengths[2];
    unsigned hop = path.current_hop_field;
    if (s0 == 0 || (s1 == 0 && s2 != 0)) {
        return SCION_SEGMENT_LENGTHS;
    }
    if (path.current_info_field >= info_fields_of(path)) {
        return SCION_INFO_POINTER;
    }
    if (hop >= s0 + s1 + s2 || path.current_info_field != (hop >= s0) + (hop >= s0 + s1)) {
        return SCION_HOP_POINTER;
    }
    return len < META + INFO_FIELD * info_fields_of(path) + HOP_FIELD * hop_fields_of(path) ? SCION_CUT_SHORT : SCION_ACCEPTED;
}

/* When a path expires whose fields are there: by the least expiry byte of each segment. */
static inline uint64_t least_expiry(ScionPath path, const uint8_t *bytes) {
    size_t info_fields = info_fields_of(path);
    const uint8_t *info_field = bytes + META;
    const uint8_t *hop_field = info_field + INFO_FIELD * info_fields;
    uint64_t least = UINT64_MAX;
    for (size_t k = 0; k < info_fields; k++) {
        uint8_t least_byte = UINT8_MAX;
        for (size_t h = 0; h < path.segment_lengths[k]; h++) {
            if (hop_field[1] < least_byte) {
                least_byte = hop_field[1];
            }
            hop_field += HOP_FIELD;
        }
        uint64_t ms = 1000 * (uint64_t)get32(info_field + 4) + 337500 * (1 + (uint64_t)least_byte);
        if (ms < least) {
            least = ms;
        }
        info_field += INFO_FIELD;
    }
    return least;
}

ScionPathRead plain_read_path(uint8_t path_type, const uint8_t *bytes, size_t len) {
    if (path_type != SCION_PATH_STANDARD) {
        return (ScionPathRead){.length = path_type == SCION_PATH_EMPTY ? 0 : len};
    }
    if (len < META) {
        return (ScionPathRead){.answer.number = SCION_CUT_SHORT};
    }
    ScionPath path = record_of(bytes);
    uint8_t number = check_standard(path, len);
    if (number != SCION_ACCEPTED) {
        return (ScionPathRead){.answer.number = number};
    }
    path.expiry = least_expiry(path, bytes);
    return (ScionPathRead){.path = path, .length = META + INFO_FIELD * info_fields_of(path) + HOP_FIELD * hop_fields_of(path)};
}

ScionExpiry plain_expiry(uint8_t path_type, const uint8_t *bytes, size_t len) {
    if (path_type != SCION_PATH_STANDARD) {
        return (ScionExpiry){.answer.number = SCION_NO_SUCH_FIELD};
    }
    ScionPathRead read = plain_read_path(path_type, bytes, len);
    if (read.answer.number != SCION_ACCEPTED) {
        return (ScionExpiry){.answer = read.answer};
    }
    return (ScionExpiry){.path = read.path, .ms = read.path.expiry};
}

uint64_t plain_record_expiry(ScionPath path) {
    return path.expiry;
}

/* The record of a path turned: at its start, its lengths in the other order, its expiry the same. */
static ScionPath turned_record(ScionPath path, size_t info_fields) {
    uint8_t s0 = path.segment_lengths[0], s1 = path.segment_lengths[1], s2 = path.segment_lengths[2];
    switch (info_fields) {
    case 1:
        return (ScionPath){.segment_lengths = {s0, 0, 0}, .expiry = path.expiry};
    case 2:
        return (ScionPath){.segment_lengths = {s1, s0, 0}, .expiry = path.expiry};
    default:
        return (ScionPath){.segment_lengths = {s2, s1, s0}, .expiry = path.expiry};
    }
}

ScionWrittenPath plain_reverse_path(uint8_t path_type, const uint8_t *bytes, size_t len, uint8_t *dst, size_t dst_len) {
    ScionPathRead read = plain_read_path(path_type, bytes, len);
    if (read.answer.number != SCION_ACCEPTED) {
        return (ScionWrittenPath){.answer = read.answer};
    }
    if (dst_len < read.length) {
        return (ScionWrittenPath){.answer.number = SCION_DESTINATION_SIZE};
    }
    if (path_type != SCION_PATH_STANDARD) {
        memcpy(dst, bytes, read.length);
        return (ScionWrittenPath){.length = read.length};
    }
    size_t info_fields = info_fields_of(read.path), hop_fields = hop_fields_of(read.path);
    ScionPath turned = turned_record(read.path, info_fields);
    const uint8_t *lengths = turned.segment_lengths;
    put32(dst, (uint32_t)lengths[0] << 12 | (uint32_t)lengths[1] << 6 | lengths[2]);
    dst += META;
    for (size_t k = info_fields; k > 0; k--) {
        memcpy(dst, bytes + META + INFO_FIELD * (k - 1), INFO_FIELD);
        dst[0] ^= 1;
        dst += INFO_FIELD;
    }
    const uint8_t *hop_field = bytes + read.length;
    for (size_t h = 0; h < hop_fields; h++) {
        hop_field -= HOP_FIELD;
        memcpy(dst, hop_field, HOP_FIELD);
        dst += HOP_FIELD;
    }
    return (ScionWrittenPath){.path = turned, .length = read.length};
}

static size_t host_length(uint8_t kind) {
    return 4 * (kind % 4 + 1u);
}

/* A host of a kind, whose bytes are there. */
static ScionHost read_host(uint8_t kind, const uint8_t *at) {
    ScionHost host = {.kind = kind};
    if (kind == SCION_HOST_SERVICE) {
        host.service = get16(at);
        host.padding = get16(at + 2);
    } else {
        memcpy(host.bytes, at, host_length(kind));
    }
    return host;
}

static ScionPacket refused_packet(uint8_t number) {
    return (ScionPacket){.answer.number = number};
}

/* What reading a packet answers up to the factor test. */
static inline ScionAnswer check_common(const uint8_t *bytes, size_t len) {
    if (len == 0) {
        return (ScionAnswer){SCION_CUT_SHORT, 0};
    }
    if (bytes[0] >> 4 != 0) {
        return (ScionAnswer){SCION_VERSION, bytes[0] >> 4};
    }
    if (len < COMMON) {
        return (ScionAnswer){SCION_CUT_SHORT, 0};
    }
    if (bytes[5] < 9) {
        return (ScionAnswer){SCION_FACTOR, bytes[5]};
    }
    return (ScionAnswer){SCION_ACCEPTED, 0};
}

static inline bool is_short(const uint8_t *bytes, size_t len) {
    return len < 4 * (size_t)bytes[5];
}

/* A packet whose common header is past the factor test. It is part of both readings, so that neither pays for a call. */
static inline __attribute__((always_inline)) ScionPacket read_rest(const uint8_t *bytes, size_t len) {
    uint8_t factor = bytes[5];
    size_t header_end = 4 * (size_t)factor < len ? 4 * (size_t)factor : len;
    uint8_t destination_kind = bytes[9] >> 4, source_kind = bytes[9] & 15;
    size_t source_at = COMMON + NETWORKS + host_length(destination_kind);
    size_t path_at = source_at + host_length(source_kind);
    if (header_end < path_at) {
        return refused_packet(SCION_CUT_SHORT);
    }
    uint8_t path_type = bytes[8];
    ScionPathRead path = plain_read_path(path_type, bytes + path_at, header_end - path_at);
    if (path.answer.number != SCION_ACCEPTED) {
        return refused_packet(path.answer.number);
    }
    if (path_at + path.length != header_end) {
        return refused_packet(SCION_LEFT_OVER_BYTES);
    }
    uint16_t payload_length = get16(bytes + 6);
    if (len - header_end < payload_length) {
        return refused_packet(SCION_CUT_SHORT);
    }
    uint32_t first = get32(bytes);
    return (ScionPacket){
        .path = path.path,
        .traffic_class = (uint8_t)(first >> 20),
        .next_header = bytes[4],
        .header_length_factor = factor,
        .path_type = path_type,
        .payload_length = payload_length,
        .reserved = get16(bytes + 10),
        .flow_id = first & 0xfffff,
        .destination_ia = get64(bytes + COMMON),
        .source_ia = get64(bytes + COMMON + 8),
        .destination = read_host(destination_kind, bytes + COMMON + NETWORKS),
        .source = read_host(source_kind, bytes + source_at),
        .path_part = {path_at, path.length},
        .payload_part = {header_end, payload_length},
    };
}

ScionPacket plain_read_packet(const uint8_t *bytes, size_t len) {
    ScionAnswer answer = check_common(bytes, len);
    if (answer.number != SCION_ACCEPTED) {
        return (ScionPacket){.answer = answer};
    }
    if (is_short(bytes, len)) {
        return refused_packet(SCION_CUT_SHORT);
    }
    return read_rest(bytes, len);
}

ScionCapture plain_read_capture(const uint8_t *bytes, size_t len) {
    ScionAnswer answer = check_common(bytes, len);
    if (answer.number != SCION_ACCEPTED) {
        return (ScionCapture){.packet.answer = answer};
    }
    ScionPacket packet = read_rest(bytes, len);
    if (packet.answer.number != SCION_ACCEPTED) {
        return (ScionCapture){.packet.answer = packet.answer};
    }
    return (ScionCapture){packet, is_short(bytes, len)};
}

/* Writes a host of new headers, a service with zero padding; where it ends. */
static uint8_t *put_host(uint8_t *at, const ScionHost *host) {
    if (host->kind == SCION_HOST_SERVICE) {
        put32(at, (uint32_t)host->service << 16);
    } else {
        memcpy(at, host->bytes, host_length(host->kind));
    }
    return at + host_length(host->kind);
}

ScionAnswer plain_write_new_headers(uint64_t destination_ia, ScionHost destination, uint64_t source_ia, ScionHost source,
                                    uint8_t path_type, uint8_t next_header, size_t payload_length, uint32_t flow_id,
                                    const uint8_t *path, size_t path_len, uint8_t *dst, size_t dst_len) {
    if (flow_id > 0xfffff || destination.kind > 15 || source.kind > 15) {
        return (ScionAnswer){SCION_NUMBER_TOO_WIDE, 0};
    }
    size_t written_path = path_type == SCION_PATH_EMPTY ? 0 : path_len;
    size_t length = COMMON + NETWORKS + host_length(destination.kind) + host_length(source.kind) + written_path;
    if (length / 4 > 255) {
        return (ScionAnswer){SCION_HEADER_TOO_LARGE, 0};
    }
    if (payload_length > 65535) {
        return (ScionAnswer){SCION_PAYLOAD_TOO_LARGE, 0};
    }
    if (dst_len != length) {
        return (ScionAnswer){SCION_DESTINATION_SIZE, 0};
    }
    put32(dst, flow_id);
    dst[4] = next_header;
    dst[5] = (uint8_t)(length / 4);
    put16(dst + 6, (uint16_t)payload_length);
    dst[8] = path_type;
    dst[9] = (uint8_t)(destination.kind << 4 | source.kind);
    put16(dst + 10, 0);
    put64(dst + COMMON, destination_ia);
    put64(dst + COMMON + 8, source_ia);
    uint8_t *at = put_host(dst + COMMON + NETWORKS, &destination);
    at = put_host(at, &source);
    memcpy(at, path, written_path);
    return (ScionAnswer){SCION_ACCEPTED, 0};
}
