/*
 * Reads datagrams from standard input, one a line in hexadecimal, and prints of each its header, the
 * values of its extensions, and whether a receiver takes it. Each SSRC has a receiver of its own. Lines
 * `map ID URI` before the first datagram say which extension an id means. It prints what the program rtp_lines does:
 * a mid and a stream id with an underscore for each character that isn't a letter or a digit, as `cam_1` for a mid
 * `cam-1`, and the first 16 characters of a mid and 8 of a stream id. To compare one with that of an SDP take the
 * element's data (rtpw_last_element, rtpw_is_token).
 */
#include "getline.h"
#include "utf8.h"

#include <rtp_wire.h>

#include <inttypes.h>
#include <stdio.h>
#include <stdlib.h>
#include <string.h>

static rtpw_map map;

typedef struct {
    uint32_t ssrc;
    rtpw_receiver receiver;
} stream;

/* How long a line of so many bytes is without its end: a line feed, and a carriage return before that. */
static size_t len_of(const char *line, size_t len) {
    if (len != 0 && line[len - 1] == '\n') {
        len -= len >= 2 && line[len - 2] == '\r' ? 2 : 1;
    }
    return len;
}

/* Whether the line maps an id, of one to three digits, which is done. */
static int is_map_line(const char *line, size_t len) {
    if (strncmp(line, "map ", 4) != 0) {
        return 0;
    }
    size_t digits = strspn(line + 4, "0123456789");
    if (digits == 0 || digits > 3 || line[4 + digits] != ' ') {
        return 0;
    }
    unsigned long id = strtoul(line + 4, NULL, 10);
    const uint8_t *uri = (const uint8_t *)line + 4 + digits + 1;
    size_t uri_len = len - 4 - digits - 1;
    if (id == 0 || id > 255 || uri_len == 0 || !is_utf8(uri, uri_len)) {
        return 0;
    }
    if (rtpw_map_set(&map, (uint8_t)id, rtpw_kind_of_uri(uri, uri_len)) != RTPW_OK) {
        rtpw_map_remove(&map, (uint8_t)id); /* a URI that isn't known: no value is read of its elements */
    }
    return 1;
}

/* How many bytes the line spells, which then stand at its beginning; -1 where it isn't hexadecimal. */
static long bytes_of(char *line, size_t len) {
    if (len % 2 != 0 || strspn(line, "0123456789abcdefABCDEF") != len) {
        return -1;
    }
    for (size_t i = 0; i < len / 2; i++) {
        char pair[3] = {line[2 * i], line[2 * i + 1], '\0'};
        line[i] = (char)strtoul(pair, NULL, 16);
    }
    return (long)(len / 2);
}

/* The receiver of the source. Of zeros it starts at the rollover count 0, as the program rtp_lines has it: from 1 on,
 * by rtpw_receiver_start, a packet from before the first one has a number too. NULL where there is no memory for one
 * more. */
static rtpw_receiver *receiver_of(uint32_t ssrc) {
    static stream *streams;
    static size_t count;
    for (size_t i = 0; i < count; i++) {
        if (streams[i].ssrc == ssrc) {
            return &streams[i].receiver;
        }
    }
    stream *grown = realloc(streams, (count + 1) * sizeof *streams);
    if (grown == NULL) {
        return NULL;
    }
    streams = grown;
    memset(&streams[count], 0, sizeof *streams);
    streams[count].ssrc = ssrc;
    return &streams[count++].receiver;
}

static const char *yes_or_no(int flag) {
    return flag ? "yes" : "no";
}

static void print_header(unsigned long packet_count, const rtpw_header *header) {
    printf("packet %lu: pt %u seq %u ts %" PRIu32 " ssrc %" PRIu32, packet_count, header->payload_type,
           header->sequence_number, header->timestamp, header->ssrc);
    printf(" marker %s padding %s extension %s csrc %u header %zu", yes_or_no(header->marker),
           yes_or_no(header->has_padding), yes_or_no(header->has_extension), header->csrc_count, header->header_len);
}

static void print_values(const rtpw_values *values) {
    if (values->has_mid) {
        printf(" mid %s", values->mid);
    }
    if (values->has_rid) {
        printf(" rid %s", values->rid);
    }
    if (values->has_repaired_rid) {
        printf(" repaired %s", values->repaired_rid);
    }
    if (values->has_audio_level) {
        printf(" level %d", values->audio_level);
    }
    if (values->has_voice_activity) {
        printf(" voice %s", yes_or_no(values->voice_activity));
    }
    if (values->has_send_time) {
        printf(" send %" PRIu64, values->send_time);
    }
    if (values->has_transport_number) {
        printf(" transport %u", values->transport_number);
    }
    putchar('\n');
}

/* Prints the two lines of a datagram: 0, or 3 where there is no memory. */
static int print_packet(unsigned long count, const uint8_t *datagram, size_t len) {
    rtpw_header header;
    uint64_t number;
    int32_t status = rtpw_parse(datagram, len, &map, &header);
    if (status != RTPW_OK) {
        printf("packet %lu: unreadable\nverdict %lu: unreadable\n", count, count);
        return 0;
    }
    print_header(count, &header);
    print_values(&header.values);
    rtpw_receiver *receiver = receiver_of(header.ssrc);
    if (receiver == NULL) {
        return 3;
    }
    if (rtpw_receiver_receive(receiver, header.sequence_number, &number) == RTPW_OK) {
        printf("verdict %lu: taken %" PRIu64 "\n", count, number);
    } else {
        printf("verdict %lu: refused\n", count);
    }
    return 0;
}

int main(void) {
    static char *line;
    size_t room = 0;
    ssize_t read;
    unsigned long packets = 0, lines = 0;
    while ((read = getline(&line, &room, stdin)) > 0) {
        size_t line_len = len_of(line, (size_t)read);
        lines++;
        if (packets == 0 && is_map_line(line, line_len)) {
            continue;
        }
        long len = bytes_of(line, line_len);
        if (len < 0) {
            printf("line %lu: neither a map line nor hex\n", lines);
            return 2;
        }
        int status = print_packet(++packets, (const uint8_t *)line, (size_t)len);
        if (status != 0) {
            return status;
        }
    }
    return ferror(stdin) || fflush(stdout) != 0;
}
