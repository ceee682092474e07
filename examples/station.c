/* A ground station: it reads a packet, decides whether it trusts the packet's path, and moves the packet on or answers it.
 *
 *     station NOW [FILE]
 *
 * NOW is the time in ms since 1970. The packet comes from FILE, or from standard input. The status is 0 where the packet is moved on
 * or answered, 1 where it is refused, 2 where the command is wrong or the file can't be read.
 */
#include "scion_proto.h"

#include <errno.h>
#include <stdio.h>
#include <stdlib.h>
#include <string.h>

/* The interfaces that a path may use, how long the flight takes in ms, and what is answered. */
static const uint16_t listed[] = {1, 2, 3, 4, 5, 7};
static const int64_t flight = 60000;
static const uint8_t payload[4] = {'h', 'e', 'r', 'e'};

/* Headers, and so the path in them, have at most 4 * 255 bytes; a payload has at most 65,535. The radio driver lends buffers of one
 * size, whatever is put there. */
enum { HEADERS = 1020, PACKET = HEADERS + 65535, DRIVER_BUFFER = 2304 };

static const char *const meaning[] = {
    "accepted",
    "too few bytes",
    "a version that is not 0",
    "a header length factor that can't be",
    "wrong segment lengths",
    "the info pointer points to no info field",
    "the hop pointer points outside its segment",
    "bytes are left over after the path",
    "no such field, or not a standard path",
    "the destination has the wrong size",
    "a number is too large for its field, or the time too late",
    "the payload is too large",
    "the headers are too large",
    "more than 64 hop fields",
    "peering is not set on both of two segments",
    "already at the last hop field",
};

/* Ends the program where a call was refused. */
static void accept(const char *what, ScionAnswer answer) {
    if (answer.number == SCION_ACCEPTED)
        return;
    printf("%s refused: %u, %s", what, answer.number, meaning[answer.number]);
    if (answer.number == SCION_VERSION || answer.number == SCION_FACTOR)
        printf(" (%u)", answer.value);
    printf("\n");
    exit(1);
}

/* Ends the program where the command is wrong. */
static void usage(const char *why) {
    fprintf(stderr, "station: %s\nusage: station NOW [FILE], NOW in ms since 1970\n", why);
    exit(2);
}

static bool is_listed(uint16_t id) {
    for (size_t i = 0; i < sizeof listed / sizeof listed[0]; i++)
        if (listed[i] == id)
            return true;
    return false;
}

/* Every interface on the path must be listed. */
static void check_interfaces(uint8_t type, const uint8_t *path, size_t len) {
    ScionInterfaceCount interfaces = scion_interfaces_count(type, path, len);
    accept("interfaces", interfaces.answer);
    for (size_t i = 0; i < interfaces.count; i++) {
        ScionInterface found = scion_interface(type, path, len, i);
        accept("interface", found.answer);
        if (!is_listed(found.id)) {
            printf("interface %u of hop field %zu is not listed\n", found.id, found.hop_field);
            exit(1);
        }
    }
    printf("interfaces: all %zu are listed\n", interfaces.count);
}

/* The path must outlive the flight. When it expires stands in the packet's record: no byte is read again. */
static void check_time(ScionPath path, uint64_t now) {
    ScionTimeLeft left = scion_record_time_left(path, now);
    accept("time left", left.answer);
    if (left.ms <= flight) {
        printf("the path has %lld ms left, the flight takes %lld\n", (long long)left.ms, (long long)flight);
        exit(1);
    }
    printf("time left: %lld ms\n", (long long)left.ms);
}

/* Whether a packet with this path has arrived: the hop pointer is at the last hop field. */
static bool has_arrived(ScionPath path) {
    const uint8_t *lengths = path.segment_lengths;
    return path.current_hop_field + 1 == lengths[0] + lengths[1] + lengths[2];
}

/* The answer to a packet that has arrived: the same path back, from its destination to its source. The path is the front of the
 * driver's buffer, as many bytes as the call says, and that front is what is sent. */
static void reply_to(const ScionPacket *packet, const uint8_t *path) {
    static uint8_t buffer[DRIVER_BUFFER], reply[HEADERS + sizeof payload];
    ScionWrittenPath turned = scion_reverse_path(packet->path_type, path, packet->path_part.len, buffer, sizeof buffer);
    accept("reply's path", turned.answer);
    ScionHeaders headers = scion_new_headers(packet->source_ia, packet->source, packet->destination_ia, packet->destination,
                                             packet->path_type, turned.length, packet->next_header, sizeof payload, packet->flow_id);
    size_t len = scion_headers_length(headers, turned.length);
    accept("reply", scion_write_headers(headers, buffer, turned.length, reply, len));
    memcpy(reply + len, payload, sizeof payload);
    printf("reply:");
    for (size_t i = 0; i < len + sizeof payload; i++)
        printf(" %02X", reply[i]);
    printf("\n");
}

int main(int argc, char **argv) {
    static uint8_t bytes[PACKET + 1];

    if (argc != 2 && argc != 3)
        usage("one or two words are wanted");
    char *end;
    errno = 0;
    uint64_t now = strtoull(argv[1], &end, 10);
    if (argv[1][0] < '0' || argv[1][0] > '9' || *end != 0 || errno != 0)
        usage("NOW is not a number");
    FILE *file = argc == 3 ? fopen(argv[2], "rb") : stdin;
    size_t len = file == NULL ? 0 : fread(bytes, 1, sizeof bytes, file);
    if (file == NULL || ferror(file)) {
        perror(argc == 3 ? argv[2] : "standard input");
        return 2;
    }
    if (len > PACKET) {
        fprintf(stderr, "station: more bytes than a packet has\n");
        return 2;
    }

    /* The packet: its headers as values, its path and its payload as parts of the bytes. */
    ScionPacket packet = scion_read_packet(bytes, len);
    accept("packet", packet.answer);
    uint8_t type = packet.path_type;
    uint8_t *path = bytes + packet.path_part.start;
    size_t path_len = packet.path_part.len;
    printf("packet: %zu bytes of path, %zu bytes of payload\n", path_len, packet.payload_part.len);

    /* An empty path stays inside one network: there is nothing to check and nothing to move. */
    if (type == SCION_PATH_EMPTY) {
        reply_to(&packet, path);
        return 0;
    }
    /* Only a standard path has interfaces and an expiry: the record of any other is zero, and its 0 is no expiry. */
    if (type != SCION_PATH_STANDARD) {
        printf("path refused: type %u is not a standard path, and has no expiry\n", type);
        return 1;
    }
    check_interfaces(type, path, path_len);
    check_time(packet.path, now);

    if (has_arrived(packet.path)) {
        reply_to(&packet, path);
        return 0;
    }

    /* It is on its way: one move, in the packet's own bytes, as it leaves for the next hop field. */
    ScionPathAnswer moved = scion_move(type, path, path_len);
    accept("move", moved.answer);
    printf("moved on: info field %u, hop field %u\n", moved.path.current_info_field, moved.path.current_hop_field);
    return 0;
}
