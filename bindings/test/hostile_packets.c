/* rtpw_is_rtcp, rtpw_packet_parse, rtpw_read_fixed_part */
#include "hostile.h"

#include "../c/rtp_wire.h"
#include "walk.h"

void packet_told(const uint8_t *bytes, size_t len, const walked *it, rtpw_packet *packet) {
    size_t payload_len = len - it->header_len;
    size_t padding = 0;
    packet->has_padding = bytes[0] / 32 % 2;
    if (packet->has_padding != 0) {
        /* with no payload there is no count, and nothing to take off */
        padding = payload_len == 0 ? 0 : bytes[len - 1];
    }
    packet->padding_fits = padding <= payload_len;
    packet->payload_at = it->header_len;
    packet->payload_len = payload_len;
    packet->unpadded_len = packet->padding_fits ? payload_len - padding : 0;
    packet->body_at = it->body_at;
    packet->body_len = it->body_len;
    packet->block_form = (uint8_t)it->form;
    packet->block_profile = (uint16_t)it->profile;
    packet->csrc_count = (uint8_t)it->csrc_count;
    packet->marker = bytes[1] / 128;
    packet->payload_type = bytes[1] % 128;
    packet->sequence_number = (uint16_t)(bytes[2] * 256u + bytes[3]);
    packet->timestamp = (uint32_t)bytes[4] << 24 | (uint32_t)bytes[5] << 16 | (uint32_t)bytes[6] << 8 | bytes[7];
    packet->ssrc = (uint32_t)bytes[8] << 24 | (uint32_t)bytes[9] << 16 | (uint32_t)bytes[10] << 8 | bytes[11];
}

#ifndef MODULE_ALONE /* JavaScript's module exports no such call */
/* The fixed part and the layout say the same of the packet; of bytes that are none nothing. */
static void fixed_part_told(const uint8_t *bytes, size_t len, int32_t cause, const rtpw_packet *packet) {
    static memory parts, layouts;
    if (parts.size == 0) {
        parts = memory_of(sizeof(rtpw_fixed_part));
        layouts = memory_of(sizeof(rtpw_layout));
    }
    rtpw_fixed_part *fixed = block_in(&parts, sizeof *fixed), no_part;
    rtpw_layout *layout = block_in(&layouts, sizeof *layout), no_layout;
    fill(fixed, sizeof *fixed);
    fill(layout, sizeof *layout);
    memcpy(&no_part, fixed, sizeof no_part);
    memcpy(&no_layout, layout, sizeof no_layout);
    CHECK(rtpw_read_fixed_part(bytes, len, fixed, layout) == cause);
    if (cause != 0) {
        CHECK(memcmp(fixed, &no_part, sizeof no_part) == 0 && memcmp(layout, &no_layout, sizeof no_layout) == 0);
        return;
    }
    CHECK(fixed->version == 2 && fixed->has_padding == packet->has_padding && fixed->marker == packet->marker);
    CHECK(fixed->has_extension == (packet->block_form != RTPW_NO_BLOCK) && fixed->payload_type == packet->payload_type);
    CHECK(fixed->sequence_number == packet->sequence_number && fixed->timestamp == packet->timestamp);
    CHECK(fixed->ssrc == packet->ssrc && layout->payload_at == packet->payload_at);
    CHECK(layout->unpadded_len == packet->unpadded_len && layout->body_at == packet->body_at);
    CHECK(layout->block_profile == packet->block_profile && layout->block_form == packet->block_form);
    CHECK(layout->csrc_count == packet->csrc_count && layout->padding_fits == packet->padding_fits);
}
#endif

void packets_round(void) {
    static memory datagrams, packets;
    static uint8_t copy[LONGEST];
    if (packets.size == 0) {
        datagrams = memory_of(LONGEST);
        packets = memory_of(sizeof(rtpw_packet));
    }
    size_t len = random_len();
    uint8_t *bytes = block_in(&datagrams, len);
    random_packet(bytes, len);
    memcpy(copy, bytes, len);
    rtpw_packet *packet = block_in(&packets, sizeof *packet), expected;
    fill(packet, sizeof *packet);
    memcpy(&expected, packet, sizeof expected);

    walked it = walk(copy, len);
    if (it.cause == 0) {
        packet_told(copy, len, &it, &expected);
    }
    CHECK(rtpw_is_rtcp(bytes, len) == (len >= 2 && copy[0] / 64 == 2 && copy[1] >= 192 && copy[1] < 224));
    CHECK(rtpw_packet_parse(bytes, len, packet) == it.cause);
    CHECK(memcmp(packet, &expected, it.cause == 0 ? PACKET_BYTES : sizeof expected) == 0);
#ifndef MODULE_ALONE
    fixed_part_told(bytes, len, it.cause, &expected);
#endif
    CHECK(memcmp(bytes, copy, len) == 0);
}
