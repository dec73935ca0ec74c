/* What sfu.h says. */
#include "sfu.h"

#include <string.h>

/* Prepares the group for packets whose blocks have each form, into which these elements are put. One of another form
 * has no elements, and stays. */
static bool prepare(sfu_group *group, const rtpw_element *elements, size_t count) {
    bool is_prepared = true;
    for (uint8_t form = RTPW_NO_BLOCK; form <= RTPW_OTHER_FORM; form++) {
        uint8_t allowed = group->terms.wide || form == RTPW_TWO_BYTE_FORM ? RTPW_ANY_FORM : RTPW_ONE_BYTE_FORM;
        is_prepared &= rtpw_prepare_group(&group->terms.ids, elements, form == RTPW_OTHER_FORM ? 0 : count, allowed,
                                          &group->prepared[form]) == RTPW_OK;
    }
    return is_prepared;
}

bool sfu_add(sfu *sfu, const rtpw_map *sender, const sfu_peer *peer) {
    static const uint8_t KINDS[] = {RTPW_KIND_MID, RTPW_KIND_TRANSPORT_NUMBER, RTPW_KIND_ABS_SEND_TIME};
    size_t mid_len = strlen(peer->mid) + 1, element_count = 0; /* with the stream's digit */
    const size_t lens[] = {mid_len, 2, 3};
    rtpw_element elements[SFU_PUTS] = {{0}}; /* those that are put into each packet */
    if (sfu->route_count == SFU_RECEIVERS || mid_len > SFU_LONGEST_MID) {
        return false;
    }
    sfu_group *group = sfu->groups, *added = group + sfu->group_count;
    *added = (sfu_group){0};
    rtpw_new_ids_between(sender, &peer->map, &added->terms.ids);
    for (size_t i = 0; i < SFU_PUTS; i++) {
        uint8_t id = added->terms.id[i] = rtpw_id_of(&peer->map, KINDS[i]);
        if (id != 0) {
            elements[element_count++] = (rtpw_element){.id = id, .data_len = lens[i]};
        }
    }
    added->terms.mid_len = added->terms.id[SFU_MID] == 0 ? 0 : (uint8_t)mid_len;
    added->terms.wide = added->terms.mid_len > 16;
    for (unsigned id = 15; id <= 255; id++) { /* those that only the two-byte form can carry */
        added->terms.wide |= rtpw_map_get(&peer->map, (uint8_t)id) != RTPW_KIND_NONE;
    }
    while (memcmp(&group->terms, &added->terms, sizeof added->terms) != 0) {
        group++;
    }
    if (group == added && !prepare(added, elements, element_count)) {
        return false;
    }
    sfu->group_count += group == added;
    group->receivers[group->receiver_count++] = sfu->route_count;
    memcpy(sfu->data[sfu->route_count], peer->mid, mid_len);
    sfu->routes[sfu->route_count++] = (sfu_route){.peer = *peer};
    return true;
}

/* The stream's place; as many as there are, where there is no room for one more. */
static size_t stream_of(sfu *sfu, uint32_t ssrc) {
    size_t at = 0;
    while (at < sfu->stream_count && sfu->streams[at].ssrc != ssrc) {
        at++;
    }
    if (at == sfu->stream_count && at < SFU_STREAMS) {
        sfu->streams[sfu->stream_count++] = (sfu_stream){.ssrc = ssrc};
    }
    return at;
}

/* A packet on its way. */
typedef struct {
    const uint8_t *buf;
    const rtpw_datagram *datagram; /* in this buffer */
    size_t stream;
    uint32_t time; /* 24 bits, in units of 2^-18 seconds */
} passing;

/* What a receiver gets: fields, and data: the mid of the stream, the next number of the transport, and the time. */
static rtpw_routed_header header_for(sfu *sfu, size_t receiver, const sfu_terms *terms, const passing *it) {
    sfu_route *route = &sfu->routes[receiver];
    uint8_t *data = sfu->data[receiver] + terms->mid_len;
    rtpw_routed_header header = {.data_at = receiver * SFU_DATA};
    header.fields.has_ssrc = header.fields.has_sequence_number = header.clears_padding = 1;
    header.fields.ssrc = route->peer.first_ssrc + (uint32_t)it->stream;
    header.fields.sequence_number = (uint16_t)(it->datagram->packet.sequence_number + route->peer.number_offset);
    if (terms->mid_len != 0) {
        data[-1] = (uint8_t)"0123456789ABCDEF"[it->stream];
    }
    if (terms->id[SFU_TRANSPORT_NUMBER] != 0 && it->datagram->packet.block_form != RTPW_OTHER_FORM) {
        uint16_t number = route->transport_number++;
        *data++ = (uint8_t)(number >> 8), *data++ = (uint8_t)number;
    }
    data[0] = (uint8_t)(it->time >> 16), data[1] = (uint8_t)(it->time >> 8), data[2] = (uint8_t)it->time;
    return header;
}

/* Sends the packet to a group. A one-byte block can't carry ids above 14: so it becomes a two-byte one first. */
static void send_to(sfu *sfu, const sfu_group *group, const passing *it, sfu_output *out) {
    uint8_t common[SFU_HEADER], wide[SFU_HEADER];
    const rtpw_packet *packet = &it->datagram->packet;
    uint8_t form = packet->block_form;
    size_t len = packet->payload_at;
    const uint8_t *datagram = it->buf + it->datagram->at, *header = datagram;
    rtpw_routed_header receivers[SFU_RECEIVERS];
    rtpw_template made = {0};
    if (group->terms.wide && form == RTPW_ONE_BYTE_FORM && len <= sizeof wide) {
        header = memcpy(wide, header, len);
        len = rtpw_change_form(wide, sizeof wide, &len, RTPW_TWO_BYTE_FORM) == RTPW_OK ? len : 0;
    }
    int32_t status = rtpw_make_from_group(&group->prepared[form], header, len, common, sizeof common, &made);
    for (size_t i = 0; i < group->receiver_count; i++) {
        receivers[i] = header_for(sfu, group->receivers[i], &group->terms, it);
    }
    uint8_t *headers = out->headers + out->headers_len;
    if (status == RTPW_OK) {
        status = rtpw_write_headers(&made, common, sizeof common, sfu->data[0], sizeof sfu->data, receivers,
                                    group->receiver_count, headers, sizeof out->headers - out->headers_len);
    }
    for (size_t i = 0; i < group->receiver_count; i++) {
        if (status != RTPW_OK || receivers[i].status != RTPW_OK) {
            sfu->counts.unsent++;
            continue;
        }
        sfu->counts.sent++;
        out->headers_len += receivers[i].len;
        out->packets[out->count++] = (sfu_packet){group->receivers[i], headers + receivers[i].at, receivers[i].len,
                                                  datagram + packet->payload_at, packet->unpadded_len};
    }
}

/* Whether it is a packet of RTP, with padding that fits. */
static bool is_packet(const rtpw_datagram *it) {
    return it->status == RTPW_OK && !it->is_rtcp && it->packet.padding_fits;
}

/* Judges the packet of a datagram, and returns where it is counted what became of it. */
static unsigned long *count_of(sfu *sfu, const rtpw_datagram *datagram, size_t stream) {
    if (!is_packet(datagram)) {
        return datagram->is_rtcp ? &sfu->counts.rtcp : &sfu->counts.unreadable;
    }
    if (stream == SFU_STREAMS) {
        return &sfu->counts.strangers;
    }
    sfu_stream *from = &sfu->streams[stream];
    uint16_t sequence_number = datagram->packet.sequence_number;
    uint64_t number;
    int32_t status = rtpw_wide_restarting_receive(&from->receiver, from->words, SFU_WORDS, sequence_number, &number);
    if (status == RTPW_OK || status == RTPW_RESTARTED) {
        return &sfu->counts.taken;
    }
    uint64_t highest = from->receiver.highest, below = highest - rtpw_extend_u16(highest, sequence_number);
    return below < 64 * SFU_WORDS ? &sfu->counts.replays : &sfu->counts.late;
}

void sfu_receive(sfu *sfu, const uint8_t *buf, size_t size, rtpw_datagram *datagrams, size_t count,
                 uint64_t microseconds, sfu_output *out) {
    out->count = out->headers_len = 0;
    rtpw_packet_parse_many(buf, size, datagrams, count);
    for (size_t i = 0; i < count; i++) {
        size_t stream = is_packet(&datagrams[i]) ? stream_of(sfu, datagrams[i].packet.ssrc) : SFU_STREAMS;
        passing it = {buf, &datagrams[i], stream, (uint32_t)(microseconds % 64000000 * 262144 / 1000000)};
        unsigned long *counted = count_of(sfu, &datagrams[i], stream);
        ++*counted;
        for (size_t group = 0; counted == &sfu->counts.taken && group < sfu->group_count; group++) {
            send_to(sfu, &sfu->groups[group], &it, out);
        }
    }
}
