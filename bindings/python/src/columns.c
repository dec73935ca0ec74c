/* Many packets in two calls, and each field and value of them in a column of its own: what Python would take from a
 * struct after the other takes it longer than reading them does. */
#include "rtp_wire.h"

#include <string.h>

/* So many structs lie on the stack at once: less than a page of 4,096 bytes, since for more a compiler for Windows calls a
 * function of its own. */
enum { AT_ONCE = 12 };

/* A column: of each datagram the bytes that stand there in its struct. Those of the first one are put there, and those
 * of each other one so many bytes behind the one before. */
typedef struct {
    size_t offset;
    size_t size;
    uint8_t *to;
    size_t stride;
} column;

static uint8_t *cell(const column *it, size_t row) {
    return it->to + row * it->stride;
}

/* Puts what stands in so many structs of this size into the column, from a row on. */
static void put(const column *it, const void *structs, size_t struct_size, size_t row, size_t count) {
    const uint8_t *from = (const uint8_t *)structs + it->offset;
    uint8_t *to = cell(it, row);
    for (size_t i = 0; i < count; i++, from += struct_size, to += it->stride) {
        switch (it->size) {
        case 1: *to = *from; break;
        case 2: memcpy(to, from, 2); break;
        case 4: memcpy(to, from, 4); break;
        case 8: memcpy(to, from, 8); break;
        default: memcpy(to, from, it->size);
        }
    }
}

static void put_fields(const uint8_t *buf, size_t size, const uint64_t *at, const uint64_t *len, size_t row,
                       size_t count, const column *columns, size_t column_count, const column *is_rtp) {
    rtpw_datagram datagrams[AT_ONCE] = {{0}};
    for (size_t i = 0; i < count; i++) {
        datagrams[i].at = at[row + i];
        datagrams[i].len = len[row + i];
    }
    rtpw_packet_parse_many(buf, size, datagrams, count);
    for (size_t i = 0; i < count; i++) {
        rtpw_datagram *it = &datagrams[i];
        *cell(is_rtp, row + i) = it->status == RTPW_OK && !it->is_rtcp;
        if (it->status == RTPW_OK) {
            it->packet.payload_at += it->at; /* from the buffer's first byte on */
        }
    }
    for (size_t i = 0; i < column_count; i++) {
        put(&columns[i], datagrams, sizeof *datagrams, row, count);
    }
}

static void put_values(const uint8_t *buf, size_t size, const rtpw_map *map, const uint64_t *at, const uint64_t *len,
                       size_t row, size_t count, const column *columns, size_t column_count) {
    rtpw_whole_datagram datagrams[AT_ONCE];
    for (size_t i = 0; i < count; i++) {
        datagrams[i].at = at[row + i];
        datagrams[i].len = len[row + i];
    }
    rtpw_read_many(buf, size, map, datagrams, count);
    for (size_t i = 0; i < count; i++) {
        if (datagrams[i].status != RTPW_OK) {
            memset(&datagrams[i].packet, 0, sizeof datagrams[i].packet);
        }
    }
    for (size_t i = 0; i < column_count; i++) {
        put(&columns[i], datagrams, sizeof *datagrams, row, count);
    }
}

/* Reads the datagrams of the buffer at these places: of each what the columns are for, and whether it is a packet and
 * not RTCP. The fields are columns of rtpw_datagram, payload_at counted from the buffer's first byte, and the values
 * of rtpw_whole_datagram. Of one that is no packet, and so has a status, the fields and values are 0, and so are the
 * values of RTCP. */
void columns_parse(const uint8_t *buf, size_t size, const rtpw_map *map, const uint64_t *at, const uint64_t *len,
                   size_t count, const column *fields, size_t field_count, const column *values, size_t value_count,
                   const column *is_rtp) {
    for (size_t row = 0; row < count; row += AT_ONCE) {
        size_t rows = count - row < AT_ONCE ? count - row : AT_ONCE;
        put_fields(buf, size, at, len, row, rows, fields, field_count, is_rtp);
        if (value_count != 0) {
            put_values(buf, size, map, at, len, row, rows, values, value_count);
        }
    }
}

/* Has the packets judged in order, each by the receiver at its index, where it is one. Of each that is taken the
 * number is written, and else 0; and the verdict: 0 where it isn't judged, 1 where it is taken, 2 where refused. */
void columns_receive(rtpw_receiver *receivers, size_t receiver_count, const uint64_t *indices,
                     const column *sequence_numbers, const column *is_rtp, size_t count, const column *numbers,
                     const column *verdicts) {
    for (size_t row = 0; row < count; row += AT_ONCE) {
        size_t rows = count - row < AT_ONCE ? count - row : AT_ONCE;
        rtpw_arrival arrivals[AT_ONCE];
        for (size_t i = 0; i < rows; i++) {
            arrivals[i].receiver = *cell(is_rtp, row + i) ? indices[row + i] : SIZE_MAX;
            arrivals[i].number = 0;
            memcpy(&arrivals[i].sequence_number, cell(sequence_numbers, row + i), 2);
        }
        rtpw_receive_many(receivers, receiver_count, arrivals, rows);
        for (size_t i = 0; i < rows; i++) {
            const rtpw_arrival *it = &arrivals[i];
            memcpy(cell(numbers, row + i), &it->number, 8);
            *cell(verdicts, row + i) = it->status == RTPW_OK ? 1 : it->status == RTPW_REFUSED ? 2 : 0;
        }
    }
}
