/*
 * Sends the packets of a stream on to a subscriber: reads datagrams, one a line in hexadecimal, and prints
 * them under the SSRC and the numbers of the new stream, with its ids of extensions, and with the time at
 * which they go. Of what the subscriber's map has not, here the mid, nothing goes on. An extension that the
 * library doesn't know, urn:example:seat, has one number in both maps, and its elements go on.
 *
 * usage: forward SSRC OFFSET SECONDS < lines
 *        OFFSET is added to each sequence number; the first packet goes at SECONDS, each other one 20
 *        milliseconds after the one before it
 */
#include "getline.h"
#include <rtp_wire.h>

#include <stdio.h>
#include <stdlib.h>
#include <string.h>

enum { SEAT = RTPW_KIND_OWN }; /* urn:example:seat */
static const rtpw_map PUBLISHER = {.kind = {[3] = RTPW_KIND_MID, [4] = RTPW_KIND_ABS_SEND_TIME, [6] = SEAT}};
static const rtpw_map SUBSCRIBER = {.kind = {[1] = RTPW_KIND_AUDIO_LEVEL, [2] = RTPW_KIND_ABS_SEND_TIME, [5] = SEAT}};

/* Gives the packet its new ids and its send time where it lies; false where it can't go on. */
static bool forward(uint8_t *datagram, size_t len, const rtpw_new_ids *ids, uint64_t microseconds) {
    uint32_t time = (uint32_t)(microseconds % 64000000 * 262144 / 1000000); /* in units of 2^-18 seconds */
    uint8_t bytes[3];
    size_t bytes_len;
    if (rtpw_renumber(datagram, len, ids) != RTPW_OK ||
        rtpw_write_send_time(time, bytes, sizeof bytes, &bytes_len) != RTPW_OK) {
        return false;
    }
    int32_t status = rtpw_set_element(datagram, len, 2, bytes, bytes_len);
    return status == RTPW_OK || status == RTPW_NONE; /* it has none */
}

/* How many bytes the line spells, which then stand at its beginning; 0 where it isn't hexadecimal. */
static size_t bytes_of(char *line) {
    size_t len = strspn(line, "0123456789abcdefABCDEF");
    for (size_t i = 0; i < len / 2; i++) {
        char pair[3] = {line[2 * i], line[2 * i + 1], '\0'};
        line[i] = (char)strtoul(pair, NULL, 16);
    }
    const char *end = line + len;
    bool ends = strcmp(end, "\n") == 0 || strcmp(end, "\r\n") == 0 || *end == '\0';
    return len % 2 == 0 && ends ? len / 2 : 0;
}

int main(int argc, char **argv) {
    static char *line;
    size_t room = 0;
    ssize_t read;
    rtpw_new_ids ids;
    rtpw_whole_packet packet;
    rtpw_new_ids_between(&PUBLISHER, &SUBSCRIBER, &ids);
    uint64_t microseconds = argc == 4 ? strtoull(argv[3], NULL, 10) * 1000000 : 0;
    while (argc == 4 && (read = getline(&line, &room, stdin)) > 0) {
        uint8_t *datagram = (uint8_t *)line;
        size_t len = strlen(line) == (size_t)read ? bytes_of(line) : 0; /* a zero byte is no digit */
        if (rtpw_read(datagram, len, &PUBLISHER, &packet) != RTPW_OK) {
            continue; /* RTPW_RTCP too, which goes to who answers it */
        }
        uint16_t number = (uint16_t)(packet.header.sequence_number + strtol(argv[2], NULL, 10));
        if (forward(datagram, len, &ids, microseconds) &&
            rtpw_set_ssrc(datagram, len, (uint32_t)strtoul(argv[1], NULL, 10)) == RTPW_OK &&
            rtpw_set_sequence_number(datagram, len, number) == RTPW_OK) {
            for (size_t i = 0; i < len; i++) {
                printf("%02X", datagram[i]);
            }
            putchar('\n');
            microseconds += 20000;
        }
    }
    return argc != 4 ? 2 : ferror(stdin) || fflush(stdout) != 0;
}
