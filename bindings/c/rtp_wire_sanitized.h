/* Made by bindings/described/make of rtp_wire.h and bindings/described/sanitized.h.in. */
/*
 * rtp_wire_sanitized.h: the calls of rtp_wire.h for a program that is built with -fsanitize=address, memory or thread.
 *
 * The library is an assembly text, which no sanitizer looks into. So here each call first tests the memory that it is
 * given, all of it (AddressSanitizer), and that what it reads was set (MemorySanitizer). What it has written counts as
 * set then, and bytes that it has moved count as set where they were before. ThreadSanitizer is told what is read and
 * what is written, so that two threads with one receiver, map or packet are reported where one of them changes it.
 * rtp_wire.h includes this file where it lies beside it and one of the three is on: don't include it yourself. What is
 * reported is the call, with a line of this file above it in the stack.
 *
 * Each call that takes a pointer has a function of its own here, which tests what is given, calls it, and tells what it
 * has written; a #define leads from its name to that.
 */
#ifndef RTPW_SANITIZED_H
#define RTPW_SANITIZED_H

#if defined(__SANITIZE_ADDRESS__)
#define RTPW_SANITIZER_ADDRESS
#elif defined(__SANITIZE_THREAD__)
#define RTPW_SANITIZER_THREAD
#elif defined(__has_feature)
#if __has_feature(address_sanitizer)
#define RTPW_SANITIZER_ADDRESS
#elif __has_feature(memory_sanitizer)
#define RTPW_SANITIZER_MEMORY
#elif __has_feature(thread_sanitizer)
#define RTPW_SANITIZER_THREAD
#endif
#endif
#ifdef RTPW_SANITIZER_ADDRESS
#include <sanitizer/asan_interface.h>
#endif
#ifdef RTPW_SANITIZER_MEMORY
#include <sanitizer/msan_interface.h>
#endif
#ifdef RTPW_SANITIZER_THREAD
/* What a compiler calls for a struct that is copied; no header file of gcc or clang declares them. */
void __tsan_read_range(void *at, unsigned long size);
void __tsan_write_range(void *at, unsigned long size);
#endif

/* In C++ too these are the casts of C. */
#ifdef __cplusplus
#pragma GCC diagnostic push
#pragma GCC diagnostic ignored "-Wold-style-cast"
#endif

static inline size_t rtpw_sanitizer_least(size_t one, size_t other) {
    return one < other ? one : other;
}

/* ---- Memory ---- */

/* These bytes are the caller's to give, whatever they hold: they need not be set. Where they lie is a number here,
 * since gcc takes a const pointer for a promise to read. */
#define RTPW_SANITIZER_ROOM(at, size) rtpw_sanitizer_room((uintptr_t)(at), size)
static inline void rtpw_sanitizer_room(uintptr_t at, size_t size) {
#ifdef RTPW_SANITIZER_ADDRESS
    const void *outside = __asan_region_is_poisoned((void *)at, size);
    if (outside != NULL) {
        (void)*(const volatile char *)outside; /* this is reported */
    }
#else
    (void)at;
    (void)size;
#endif
}

/* These bytes are read. */
static inline void rtpw_sanitizer_reads(const void *at, size_t size) {
    RTPW_SANITIZER_ROOM(at, size);
#if defined(RTPW_SANITIZER_MEMORY)
    __msan_check_mem_is_initialized(at, size);
#elif defined(RTPW_SANITIZER_THREAD)
    __tsan_read_range((void *)(uintptr_t)at, size);
#endif
}

/* These bytes may be others now, and count as set where they did. */
static inline void rtpw_sanitizer_changed(const void *at, size_t size) {
#ifdef RTPW_SANITIZER_THREAD
    __tsan_write_range((void *)(uintptr_t)at, size);
#else
    (void)at;
    (void)size;
#endif
}

/* These bytes were written. */
static inline void rtpw_sanitizer_wrote(const void *at, size_t size) {
    rtpw_sanitizer_changed(at, size);
#ifdef RTPW_SANITIZER_MEMORY
    __msan_unpoison(at, size);
#endif
}

/* These bits of a byte were written, and have this value; the others count as set where they did. */
static inline void rtpw_sanitizer_wrote_bits(uint8_t *at, uint8_t bits, uint8_t value) {
    rtpw_sanitizer_changed(at, 1);
#ifdef RTPW_SANITIZER_MEMORY
    *at = (uint8_t)((*at & ~bits) | (value & bits)); /* what it is already */
#else
    (void)bits;
    (void)value;
#endif
}

/* ---- Packets ---- */

/* Where the block begins of a packet, of whose header so many bytes are there; without one there the header ends. */
static inline size_t rtpw_sanitizer_block_at(const uint8_t *datagram, size_t header_len) {
    return header_len < RTPW_CSRC_AT
               ? header_len
               : rtpw_sanitizer_least(RTPW_CSRC_AT + 4 * (size_t)(datagram[0] & 15), header_len);
}

/* The length of the header, or what is there of it. Of a packet each call reads its first byte, and where X is set
 * how long the block is. */
static inline size_t rtpw_sanitizer_packet_header_len(const uint8_t *datagram, size_t len) {
    size_t at;
    RTPW_SANITIZER_ROOM(datagram, len);
    if (len < RTPW_CSRC_AT) {
        return 0;
    }
    rtpw_sanitizer_reads(datagram, 1);
    if (datagram[0] >> 6 != 2) {
        return 1;
    }
    at = rtpw_sanitizer_block_at(datagram, len);
    if ((datagram[0] & 16) != 0 && len - at >= 4) {
        rtpw_sanitizer_reads(datagram + at + 2, 2);
        at += 4 + 4 * (((size_t)datagram[at + 2] << 8) + datagram[at + 3]);
    }
    return rtpw_sanitizer_least(at, len);
}

/* Of a packet's bytes from one place up to another the first ones are read, at most so many. */
static inline void rtpw_sanitizer_first(const uint8_t *datagram, size_t at, size_t end, size_t count) {
    if (at < end) { rtpw_sanitizer_reads(datagram + at, rtpw_sanitizer_least(end - at, count)); }
}

/* The length of the packet's padding is read where P is set and there is a payload. */
static inline void rtpw_sanitizer_packet_padding(const uint8_t *datagram, size_t len) {
    size_t header_len = rtpw_sanitizer_packet_header_len(datagram, len);
    if (header_len >= RTPW_CSRC_AT && header_len < len && (datagram[0] & 32) != 0) {
        rtpw_sanitizer_reads(datagram + len - 1, 1);
    }
}

/* The fixed part and the first bytes of the block are read. */
static inline void rtpw_sanitizer_packet_fields(const uint8_t *datagram, size_t len) {
    size_t header_len = rtpw_sanitizer_packet_header_len(datagram, len);
    rtpw_sanitizer_first(datagram, 0, header_len, RTPW_CSRC_AT);
    rtpw_sanitizer_first(datagram, rtpw_sanitizer_block_at(datagram, header_len), header_len, 4);
    rtpw_sanitizer_packet_padding(datagram, len);
}

/* The whole header is read. */
static inline void rtpw_sanitizer_packet_header(const uint8_t *datagram, size_t len) {
    rtpw_sanitizer_reads(datagram, rtpw_sanitizer_packet_header_len(datagram, len));
}

/* Of RTCP the first two bytes are read, and else the whole header and the length of the padding. */
static inline void rtpw_sanitizer_packet_whole(const uint8_t *datagram, size_t len) {
    RTPW_SANITIZER_ROOM(datagram, len);
    rtpw_sanitizer_reads(datagram, len < 2 ? 0 : 2);
    if (!rtpw_is_rtcp(datagram, len)) {
        rtpw_sanitizer_packet_header(datagram, len);
        rtpw_sanitizer_packet_padding(datagram, len);
    }
}

/* The block's elements are read. */
static inline void rtpw_sanitizer_packet_block(const uint8_t *datagram, size_t len) {
    size_t header_len = rtpw_sanitizer_packet_header_len(datagram, len);
    rtpw_sanitizer_first(datagram, rtpw_sanitizer_block_at(datagram, header_len), header_len, header_len);
}

/* The number that the payload of a retransmission begins with is read. */
static inline void rtpw_sanitizer_packet_number(const uint8_t *datagram, size_t len) {
    rtpw_sanitizer_first(datagram, rtpw_sanitizer_packet_header_len(datagram, len), len, 2);
}

/* The block's elements were changed where they lie. */
static inline void rtpw_sanitizer_wrote_block(const uint8_t *datagram, size_t len) {
    size_t header_len = rtpw_sanitizer_packet_header_len(datagram, len);
    size_t at = rtpw_sanitizer_block_at(datagram, header_len);
    if (at < header_len) { rtpw_sanitizer_wrote(datagram + at, header_len - at); }
}

/* A packet before it is changed: where its header and it end, and, for MemorySanitizer, bytes that count as set where
 * its payload does. The library moves the payload as it likes, also by memmove, which moves what counts as set too. */
typedef struct {
    size_t header_len;
    size_t len;
    uint8_t *payload;
} rtpw_sanitizer_before;

/* A packet in a buffer with room behind it: where its parts lie is read. */
static inline rtpw_sanitizer_before rtpw_sanitizer_front(const uint8_t *buf, size_t size, const size_t *len) {
    rtpw_sanitizer_before before;
    RTPW_SANITIZER_ROOM(buf, size);
    rtpw_sanitizer_reads(len, sizeof *len);
    before.len = *len <= size ? *len : 0; /* else it isn't looked at */
    before.header_len = rtpw_sanitizer_packet_header_len(buf, before.len);
    before.payload = NULL;
#ifdef RTPW_SANITIZER_MEMORY
    before.payload = (uint8_t *)__builtin_malloc(before.len - before.header_len + 1);
    if (before.payload != NULL && before.len != 0) {
        __msan_copy_shadow(before.payload, buf + before.header_len, before.len - before.header_len);
    }
#endif
    return before;
}

/* The payload's bytes from `skipped` on lie here now. */
static inline void rtpw_sanitizer_moved(uint8_t *buf, size_t to, size_t size, rtpw_sanitizer_before before,
                                        size_t skipped) {
#ifdef RTPW_SANITIZER_MEMORY
    if (before.payload != NULL) { __msan_copy_shadow(buf + to, before.payload + skipped, size); }
#endif
#ifdef RTPW_SANITIZER_THREAD
    if (to != before.header_len + skipped) { __tsan_read_range(buf + before.header_len + skipped, size); }
#endif
    if (to != before.header_len + skipped) { rtpw_sanitizer_changed(buf + to, size); }
}

static inline void rtpw_sanitizer_forget(rtpw_sanitizer_before before) {
#ifdef RTPW_SANITIZER_MEMORY
    __builtin_free(before.payload);
#else
    (void)before;
#endif
}

/* The block of a packet was made anew, or taken off, and the payload moved. */
static inline void rtpw_sanitizer_rebuilt(uint8_t *buf, const size_t *len, rtpw_sanitizer_before before) {
    size_t size = before.len - before.header_len, to = *len - size, at = rtpw_sanitizer_block_at(buf, to);
    rtpw_sanitizer_wrote(len, sizeof *len);
    rtpw_sanitizer_changed(buf, 1); /* X */
    rtpw_sanitizer_wrote(buf + at, to - at);
    rtpw_sanitizer_moved(buf, to, size, before, 0);
    /* What lies behind a packet that is shorter may be anything. */
    if (*len < before.len) { rtpw_sanitizer_changed(buf + *len, before.len - *len); }
}

/* The packet has another SSRC, payload type and number now, P is clear, and its ids were changed where they lie. So
 * many bytes of the number that it had were put in front of its payload, or so many were taken off there. */
static inline void rtpw_sanitizer_readdressed(uint8_t *buf, const size_t *len, uint8_t payload_type,
                                              rtpw_sanitizer_before before, size_t put, size_t taken) {
    size_t to = before.header_len + put;
    rtpw_sanitizer_wrote(len, sizeof *len);
    rtpw_sanitizer_changed(buf, 1);
    rtpw_sanitizer_wrote_bits(buf + 1, 0x7f, payload_type);
    rtpw_sanitizer_wrote(buf + 8, 4);
    rtpw_sanitizer_wrote_block(buf, before.header_len);
    rtpw_sanitizer_moved(buf, to, *len - to, before, taken);
    rtpw_sanitizer_changed(buf + before.header_len, put);
#ifdef RTPW_SANITIZER_MEMORY
    __msan_copy_shadow(buf + before.header_len, buf + 2, put);
#endif
    rtpw_sanitizer_wrote(buf + 2, 2);
}

/* ---- Structs: the fields that count; what fills a struct up, and what isn't looked at, need not be set ---- */

static inline void rtpw_sanitizer_text(const char *text, size_t size) {
    size_t i = 0;
    do {
        rtpw_sanitizer_reads(text + i, 1);
    } while (text[i++] != 0 && i < size);
}

static inline void rtpw_sanitizer_fields(const rtpw_fields *it) {
    RTPW_SANITIZER_ROOM(it, sizeof *it);
    rtpw_sanitizer_reads(&it->has_timestamp, 5); /* up to has_marker */
    if (it->has_timestamp) { rtpw_sanitizer_reads(&it->timestamp, sizeof it->timestamp); }
    if (it->has_ssrc) { rtpw_sanitizer_reads(&it->ssrc, sizeof it->ssrc); }
    if (it->has_sequence_number) { rtpw_sanitizer_reads(&it->sequence_number, sizeof it->sequence_number); }
    if (it->has_payload_type) { rtpw_sanitizer_reads(&it->payload_type, sizeof it->payload_type); }
    if (it->has_marker) { rtpw_sanitizer_reads(&it->marker, sizeof it->marker); }
}

static inline void rtpw_sanitizer_element(const rtpw_element *it) {
    RTPW_SANITIZER_ROOM(it, sizeof *it);
    rtpw_sanitizer_reads(&it->data_at, 16); /* up to data_len */
    rtpw_sanitizer_reads(&it->id, sizeof it->id);
}

static inline void rtpw_sanitizer_element_but_data_at(const rtpw_element *it) {
    RTPW_SANITIZER_ROOM(it, sizeof *it);
    rtpw_sanitizer_reads(&it->data_len, sizeof it->data_len);
    rtpw_sanitizer_reads(&it->id, sizeof it->id);
}

static inline void rtpw_sanitizer_map(const rtpw_map *it) {
    RTPW_SANITIZER_ROOM(it, sizeof *it);
    rtpw_sanitizer_reads(it->kind + 1, 255);
}

static inline void rtpw_sanitizer_time(const rtpw_time *it) {
    RTPW_SANITIZER_ROOM(it, sizeof *it);
    rtpw_sanitizer_reads(&it->ticks, 12); /* up to hertz */
}

static inline void rtpw_sanitizer_values(const rtpw_values *it) {
    RTPW_SANITIZER_ROOM(it, sizeof *it);
    rtpw_sanitizer_reads(&it->has_send_time, 16); /* up to has_repaired_rid */
    if (it->has_send_time) { rtpw_sanitizer_reads(&it->send_time, sizeof it->send_time); }
    if (it->has_capture_time) { rtpw_sanitizer_reads(&it->capture_time, sizeof it->capture_time); }
    if (it->has_capture_offset) { rtpw_sanitizer_reads(&it->capture_offset, sizeof it->capture_offset); }
    if (it->has_transmission_offset) {
        rtpw_sanitizer_reads(&it->transmission_offset, sizeof it->transmission_offset);
    }
    if (it->has_frame_marking) { rtpw_sanitizer_reads(&it->frame_marking, sizeof it->frame_marking); }
    if (it->has_transport_number) { rtpw_sanitizer_reads(&it->transport_number, sizeof it->transport_number); }
    if (it->has_video_orientation) { rtpw_sanitizer_reads(&it->video_orientation, sizeof it->video_orientation); }
    if (it->has_video_content_type) {
        rtpw_sanitizer_reads(&it->video_content_type, sizeof it->video_content_type);
    }
    if (it->has_audio_level) { rtpw_sanitizer_reads(&it->audio_level, sizeof it->audio_level); }
    if (it->has_voice_activity) { rtpw_sanitizer_reads(&it->voice_activity, sizeof it->voice_activity); }
    if (it->has_playout_delay_min) { rtpw_sanitizer_time(&it->playout_delay_min); }
    if (it->has_playout_delay_max) { rtpw_sanitizer_time(&it->playout_delay_max); }
    if (it->has_video_timing) { rtpw_sanitizer_reads(&it->encode_start, 9); /* up to timing_flags */ }
    if (it->has_mid) { rtpw_sanitizer_text(it->mid, sizeof it->mid); }
    if (it->has_rid) { rtpw_sanitizer_text(it->rid, sizeof it->rid); }
    if (it->has_repaired_rid) { rtpw_sanitizer_text(it->repaired_rid, sizeof it->repaired_rid); }
}

static inline void rtpw_sanitizer_header(const rtpw_header *it) {
    RTPW_SANITIZER_ROOM(it, sizeof *it);
    rtpw_sanitizer_reads(&it->timestamp, 8); /* up to ssrc */
    rtpw_sanitizer_reads(&it->sequence_number, 7); /* up to has_extension */
    rtpw_sanitizer_reads(it->csrc, sizeof *it->csrc * rtpw_sanitizer_least(it->csrc_count, 15));
    rtpw_sanitizer_values(&it->values);
}

static inline void rtpw_sanitizer_header_but_has_extension_values(const rtpw_header *it) {
    RTPW_SANITIZER_ROOM(it, sizeof *it);
    rtpw_sanitizer_reads(&it->timestamp, 8); /* up to ssrc */
    rtpw_sanitizer_reads(&it->sequence_number, 6); /* up to has_padding */
    rtpw_sanitizer_reads(it->csrc, sizeof *it->csrc * rtpw_sanitizer_least(it->csrc_count, 15));
}

static inline void rtpw_sanitizer_layer(const rtpw_layer *it) {
    RTPW_SANITIZER_ROOM(it, sizeof *it);
    rtpw_sanitizer_reads(&it->has_resolution, 2); /* up to rates */
    rtpw_sanitizer_reads(it->kbps, sizeof *it->kbps * rtpw_sanitizer_least(it->rates, 4));
    if (it->has_resolution) { rtpw_sanitizer_reads(&it->width, 5); /* up to framerate */ }
}

static inline void rtpw_sanitizer_stream(const rtpw_stream *it) {
    RTPW_SANITIZER_ROOM(it, sizeof *it);
    rtpw_sanitizer_reads(&it->count, sizeof it->count);
    for (size_t i = 0; i < rtpw_sanitizer_least(it->count, 4); i++) { rtpw_sanitizer_layer(&it->layers[i]); }
}

static inline void rtpw_sanitizer_layers(const rtpw_layers *it) {
    RTPW_SANITIZER_ROOM(it, sizeof *it);
    rtpw_sanitizer_reads(&it->count, 2); /* up to current */
    for (size_t i = 0; i < rtpw_sanitizer_least(it->count, 4); i++) { rtpw_sanitizer_stream(&it->streams[i]); }
}

static inline void rtpw_sanitizer_frame_marking(const rtpw_frame_marking *it) {
    RTPW_SANITIZER_ROOM(it, sizeof *it);
    rtpw_sanitizer_reads(&it->start, 5); /* up to has_layers */
    if (it->has_layers) {
        rtpw_sanitizer_reads(&it->base_layer_sync, 4); /* up to has_tl0_pic_idx */
        if (it->has_tl0_pic_idx) { rtpw_sanitizer_reads(&it->tl0_pic_idx, sizeof it->tl0_pic_idx); }
    }
}

static inline void rtpw_sanitizer_orientation(const rtpw_orientation *it) {
    RTPW_SANITIZER_ROOM(it, sizeof *it);
    rtpw_sanitizer_reads(&it->turn, 4); /* up to flip */
}

static inline void rtpw_sanitizer_timing(const rtpw_timing *it) {
    RTPW_SANITIZER_ROOM(it, sizeof *it);
    rtpw_sanitizer_reads(&it->encode_start, 12); /* up to network2 */
    rtpw_sanitizer_reads(&it->has_flags, sizeof it->has_flags);
    if (it->has_flags) { rtpw_sanitizer_reads(&it->flags, sizeof it->flags); }
}

static inline void rtpw_sanitizer_transport_number(const rtpw_transport_number *it) {
    RTPW_SANITIZER_ROOM(it, sizeof *it);
    rtpw_sanitizer_reads(&it->number, sizeof it->number);
    rtpw_sanitizer_reads(&it->has_request, sizeof it->has_request);
    if (it->has_request) {
        rtpw_sanitizer_reads(&it->packets, sizeof it->packets);
        rtpw_sanitizer_reads(&it->timestamps, sizeof it->timestamps);
    }
}

static inline void rtpw_sanitizer_chromaticity(const rtpw_chromaticity *it) {
    RTPW_SANITIZER_ROOM(it, sizeof *it);
    rtpw_sanitizer_reads(&it->x, 4); /* up to y */
}

static inline void rtpw_sanitizer_hdr_metadata(const rtpw_hdr_metadata *it) {
    RTPW_SANITIZER_ROOM(it, sizeof *it);
    rtpw_sanitizer_reads(&it->luminance_max, 4); /* up to luminance_min */
    rtpw_sanitizer_reads(&it->max_content_light_level, 4); /* up to max_frame_average_light_level */
    rtpw_sanitizer_chromaticity(&it->red);
    rtpw_sanitizer_chromaticity(&it->green);
    rtpw_sanitizer_chromaticity(&it->blue);
    rtpw_sanitizer_chromaticity(&it->white);
}

static inline void rtpw_sanitizer_color_space(const rtpw_color_space *it) {
    RTPW_SANITIZER_ROOM(it, sizeof *it);
    rtpw_sanitizer_reads(&it->primaries, 7); /* up to has_hdr */
    if (it->has_hdr) { rtpw_sanitizer_hdr_metadata(&it->hdr); }
}

static inline void rtpw_sanitizer_dependency_descriptor(const rtpw_dependency_descriptor *it) {
    RTPW_SANITIZER_ROOM(it, sizeof *it);
    rtpw_sanitizer_reads(&it->frame_number, 5); /* up to template_id */
}

static inline void rtpw_sanitizer_new_ids(const rtpw_new_ids *it) {
    RTPW_SANITIZER_ROOM(it, sizeof *it);
    rtpw_sanitizer_reads(it->id + 1, 255);
}

static inline void rtpw_sanitizer_receiver(const rtpw_receiver *it) {
    RTPW_SANITIZER_ROOM(it, sizeof *it);
    rtpw_sanitizer_reads(&it->highest, sizeof it->highest);
    rtpw_sanitizer_reads(&it->started, sizeof it->started);
    if (it->started) { rtpw_sanitizer_reads(&it->recorded_low, 16); /* up to recorded_high */ }
}

static inline void rtpw_sanitizer_wide_receiver(const rtpw_wide_receiver *it) {
    RTPW_SANITIZER_ROOM(it, sizeof *it);
    rtpw_sanitizer_reads(&it->highest, 9); /* up to started */
}

static inline void rtpw_sanitizer_restarting_receiver(const rtpw_restarting_receiver *it) {
    RTPW_SANITIZER_ROOM(it, sizeof *it);
    rtpw_sanitizer_reads(&it->max_dropout, sizeof it->max_dropout);
    rtpw_sanitizer_reads(&it->min_sequential, 3); /* up to started */
    if (it->in_row) { rtpw_sanitizer_reads(&it->next, sizeof it->next); }
    if (it->started) { rtpw_sanitizer_reads(&it->highest, 24); /* up to words */ }
}

static inline void rtpw_sanitizer_reception(const rtpw_reception *it) {
    RTPW_SANITIZER_ROOM(it, sizeof *it);
    rtpw_sanitizer_reads(&it->first, 52); /* up to transit */
}

static inline void rtpw_sanitizer_report(const rtpw_report *it) {
    RTPW_SANITIZER_ROOM(it, sizeof *it);
    rtpw_sanitizer_reads(&it->fraction_lost, sizeof it->fraction_lost);
    rtpw_sanitizer_reads(&it->cumulative_lost, 12); /* up to jitter */
}

static inline void rtpw_sanitizer_wide_restarting_receiver(const rtpw_wide_restarting_receiver *it) {
    RTPW_SANITIZER_ROOM(it, sizeof *it);
    rtpw_sanitizer_reads(&it->max_dropout, 4); /* up to max_misorder */
    rtpw_sanitizer_reads(&it->min_sequential, 3); /* up to started */
    if (it->in_row) { rtpw_sanitizer_reads(&it->next, sizeof it->next); }
    if (it->started) { rtpw_sanitizer_reads(&it->highest, sizeof it->highest); }
}

static inline void rtpw_sanitizer_whole_datagram(const rtpw_whole_datagram *it) {
    RTPW_SANITIZER_ROOM(it, sizeof *it);
    rtpw_sanitizer_reads(&it->at, 16); /* up to len */
}

static inline void rtpw_sanitizer_wrote_whole_datagram(const rtpw_whole_datagram *it) {
    rtpw_sanitizer_wrote(&it->status, sizeof it->status);
    if (it->status == RTPW_OK) { rtpw_sanitizer_wrote(&it->packet, sizeof it->packet); }
}

static inline void rtpw_sanitizer_datagram(const rtpw_datagram *it) {
    RTPW_SANITIZER_ROOM(it, sizeof *it);
    rtpw_sanitizer_reads(&it->at, 16); /* up to len */
}

static inline void rtpw_sanitizer_wrote_datagram(const rtpw_datagram *it) {
    rtpw_sanitizer_wrote(&it->status, 5); /* up to is_rtcp */
    if (it->status == RTPW_OK) { rtpw_sanitizer_wrote(&it->packet, sizeof it->packet); }
}

static inline void rtpw_sanitizer_datagram_header(const rtpw_datagram_header *it) {
    RTPW_SANITIZER_ROOM(it, sizeof *it);
    rtpw_sanitizer_reads(&it->at, 16); /* up to len */
}

static inline void rtpw_sanitizer_wrote_datagram_header(const rtpw_datagram_header *it) {
    rtpw_sanitizer_wrote(&it->status, 5); /* up to is_rtcp */
    if (it->status == RTPW_OK) { rtpw_sanitizer_wrote(&it->header, sizeof it->header); }
}

static inline void rtpw_sanitizer_arrival(const rtpw_arrival *it) {
    RTPW_SANITIZER_ROOM(it, sizeof *it);
    rtpw_sanitizer_reads(&it->receiver, sizeof it->receiver);
    rtpw_sanitizer_reads(&it->sequence_number, sizeof it->sequence_number);
}

static inline void rtpw_sanitizer_wrote_arrival(const rtpw_arrival *it) {
    rtpw_sanitizer_wrote(&it->status, sizeof it->status);
    if (it->status == RTPW_OK) { rtpw_sanitizer_wrote(&it->number, sizeof it->number); }
}

static inline void rtpw_sanitizer_template(const rtpw_template *it) {
    RTPW_SANITIZER_ROOM(it, sizeof *it);
    rtpw_sanitizer_reads(&it->header_len, sizeof it->header_len);
    rtpw_sanitizer_reads(&it->data_total, 3); /* up to count */
    rtpw_sanitizer_reads(it->data_at, sizeof *it->data_at * rtpw_sanitizer_least(it->count, 16));
    rtpw_sanitizer_reads(it->data_len, sizeof *it->data_len * rtpw_sanitizer_least(it->count, 16));
}

static inline void rtpw_sanitizer_group(const rtpw_group *it) {
    RTPW_SANITIZER_ROOM(it, sizeof *it);
    rtpw_sanitizer_reads(&it->new_ids, 549); /* up to one_byte */
}

static inline void rtpw_sanitizer_routed_header(const rtpw_routed_header *it) {
    RTPW_SANITIZER_ROOM(it, sizeof *it);
    rtpw_sanitizer_reads(&it->data_at, sizeof it->data_at);
    rtpw_sanitizer_reads(&it->is_retransmission, 2); /* up to clears_padding */
    rtpw_sanitizer_fields(&it->fields);
    if (it->is_retransmission) { rtpw_sanitizer_reads(&it->original_number, sizeof it->original_number); }
}

static inline void rtpw_sanitizer_wrote_routed_header(const rtpw_routed_header *it) {
    rtpw_sanitizer_wrote(&it->at, sizeof it->at);
    rtpw_sanitizer_wrote(&it->status, 8); /* up to len */
}

static inline void rtpw_sanitizer_fixed_part_but_version_has_extension(const rtpw_fixed_part *it) {
    RTPW_SANITIZER_ROOM(it, sizeof *it);
    rtpw_sanitizer_reads(&it->has_padding, sizeof it->has_padding);
    rtpw_sanitizer_reads(&it->marker, 2); /* up to payload_type */
    rtpw_sanitizer_reads(&it->sequence_number, 10); /* up to ssrc */
}

static inline void rtpw_sanitizer_data_element_but_own(const rtpw_data_element *it) {
    RTPW_SANITIZER_ROOM(it, sizeof *it);
    rtpw_sanitizer_reads(&it->id, sizeof it->id);
    rtpw_sanitizer_reads(&it->data_len, sizeof it->data_len);
    rtpw_sanitizer_reads(it->data, it->data_len);
}

static inline void rtpw_sanitizer_set_fields(uint8_t *datagram, const rtpw_fields *fields) {
    if (fields->has_payload_type) { rtpw_sanitizer_wrote_bits(datagram + 1, 0x7f, fields->payload_type); }
    if (fields->has_marker) { rtpw_sanitizer_wrote_bits(datagram + 1, 0x80, fields->marker ? 0x80 : 0); }
    if (fields->has_sequence_number) { rtpw_sanitizer_wrote(datagram + 2, 2); }
    if (fields->has_timestamp) { rtpw_sanitizer_wrote(datagram + 4, 4); }
    if (fields->has_ssrc) { rtpw_sanitizer_wrote(datagram + 8, 4); }
}

/* ---- Many at once ---- */

/* The bytes that a struct names by their place are read, where they are within the data. */
static inline void rtpw_sanitizer_part(const uint8_t *data, size_t size, size_t at, size_t len) {
    if (at < size && len <= size - at) { rtpw_sanitizer_reads(data + at, len); }
}

/* Whether a datagram is within the buffer and has the two bytes by which RTCP is told, which are read. */
static inline bool rtpw_sanitizer_has_datagram(const uint8_t *buf, size_t size, size_t at, size_t len) {
    bool is_there = at <= size && len <= size - at && len >= 2;
    if (is_there) { rtpw_sanitizer_reads(buf + at, 2); }
    return is_there;
}

/* Of each receiver what is given was read, and its data where they lie in the data; its header was written. */
static inline void rtpw_sanitizer_routed(const rtpw_template *made, const uint8_t *data, size_t data_len,
                                         const rtpw_routed_header *receivers, size_t count, uint8_t *buf) {
    for (size_t i = 0; i < count; i++) {
        rtpw_sanitizer_routed_header(&receivers[i]);
        rtpw_sanitizer_part(data, data_len, receivers[i].data_at, made->data_total);
        rtpw_sanitizer_wrote_routed_header(&receivers[i]);
        if (receivers[i].status == RTPW_OK) { rtpw_sanitizer_wrote(buf + receivers[i].at, receivers[i].len); }
    }
}

/* So many elements have been found, for which the bytes from the offset on were looked at. */
static inline void rtpw_sanitizer_walked(const uint8_t *body, size_t body_len, size_t at, const rtpw_element *elements,
                                         size_t count, size_t found) {
    rtpw_sanitizer_reads(body + at, (found == count ? elements[count - 1].end : body_len) - at);
}

/* ---- The calls ---- */

static inline bool rtpw_sanitized_is_rtcp(const uint8_t *datagram, size_t len) {
    bool status;
    RTPW_SANITIZER_ROOM(datagram, len);
    if (len >= 2) { rtpw_sanitizer_reads(datagram, 2); }
    status = rtpw_is_rtcp(datagram, len);
    return status;
}
#define rtpw_is_rtcp rtpw_sanitized_is_rtcp
RTPW_CHECKED static inline int32_t rtpw_sanitized_packet_parse(const uint8_t *datagram, size_t len,
        rtpw_packet *packet) {
    int32_t status;
    rtpw_sanitizer_packet_fields(datagram, len);
    RTPW_SANITIZER_ROOM(packet, sizeof *packet);
    status = rtpw_packet_parse(datagram, len, packet);
    if (status == RTPW_OK) { rtpw_sanitizer_wrote(packet, sizeof *packet); }
    return status;
}
#define rtpw_packet_parse rtpw_sanitized_packet_parse
RTPW_CHECKED static inline int32_t rtpw_sanitized_set_marker(uint8_t *datagram, size_t len, bool marker) {
    int32_t status;
    rtpw_sanitizer_packet_header_len(datagram, len);
    status = rtpw_set_marker(datagram, len, marker);
    if (status == RTPW_OK) { rtpw_sanitizer_wrote_bits(datagram + 1, 0x80, marker ? 0x80 : 0); }
    return status;
}
#define rtpw_set_marker rtpw_sanitized_set_marker
RTPW_CHECKED static inline int32_t rtpw_sanitized_set_payload_type(uint8_t *datagram, size_t len,
        uint8_t payload_type) {
    int32_t status;
    rtpw_sanitizer_packet_header_len(datagram, len);
    status = rtpw_set_payload_type(datagram, len, payload_type);
    if (status == RTPW_OK) { rtpw_sanitizer_wrote_bits(datagram + 1, 0x7f, payload_type); }
    return status;
}
#define rtpw_set_payload_type rtpw_sanitized_set_payload_type
RTPW_CHECKED static inline int32_t rtpw_sanitized_set_sequence_number(uint8_t *datagram, size_t len,
        uint16_t number) {
    int32_t status;
    rtpw_sanitizer_packet_header_len(datagram, len);
    status = rtpw_set_sequence_number(datagram, len, number);
    if (status == RTPW_OK) { rtpw_sanitizer_wrote(datagram + 2, 2); }
    return status;
}
#define rtpw_set_sequence_number rtpw_sanitized_set_sequence_number
RTPW_CHECKED static inline int32_t rtpw_sanitized_set_timestamp(uint8_t *datagram, size_t len, uint32_t timestamp) {
    int32_t status;
    rtpw_sanitizer_packet_header_len(datagram, len);
    status = rtpw_set_timestamp(datagram, len, timestamp);
    if (status == RTPW_OK) { rtpw_sanitizer_wrote(datagram + 4, 4); }
    return status;
}
#define rtpw_set_timestamp rtpw_sanitized_set_timestamp
RTPW_CHECKED static inline int32_t rtpw_sanitized_set_ssrc(uint8_t *datagram, size_t len, uint32_t ssrc) {
    int32_t status;
    rtpw_sanitizer_packet_header_len(datagram, len);
    status = rtpw_set_ssrc(datagram, len, ssrc);
    if (status == RTPW_OK) { rtpw_sanitizer_wrote(datagram + 8, 4); }
    return status;
}
#define rtpw_set_ssrc rtpw_sanitized_set_ssrc
RTPW_CHECKED static inline int32_t rtpw_sanitized_set_fields(uint8_t *datagram, size_t len,
        const rtpw_fields *fields) {
    int32_t status;
    rtpw_sanitizer_packet_header_len(datagram, len);
    rtpw_sanitizer_fields(fields);
    status = rtpw_set_fields(datagram, len, fields);
    if (status == RTPW_OK) { rtpw_sanitizer_set_fields(datagram, fields); }
    return status;
}
#define rtpw_set_fields rtpw_sanitized_set_fields
RTPW_CHECKED static inline int32_t rtpw_sanitized_set_csrc(uint8_t *datagram, size_t len, size_t index,
        uint32_t source) {
    int32_t status;
    rtpw_sanitizer_packet_header_len(datagram, len);
    status = rtpw_set_csrc(datagram, len, index, source);
    if (status == RTPW_OK) { rtpw_sanitizer_wrote(datagram + RTPW_CSRC_AT + 4 * index, 4); }
    return status;
}
#define rtpw_set_csrc rtpw_sanitized_set_csrc
RTPW_CHECKED static inline int32_t rtpw_sanitized_set_element(uint8_t *datagram, size_t len, uint8_t id,
        const uint8_t *data, size_t data_len) {
    int32_t status;
    rtpw_sanitizer_packet_block(datagram, len);
    rtpw_sanitizer_reads(data, data_len);
    status = rtpw_set_element(datagram, len, id, data, data_len);
    if (status == RTPW_OK) { rtpw_sanitizer_wrote_block(datagram, len); }
    return status;
}
#define rtpw_set_element rtpw_sanitized_set_element
RTPW_CHECKED static inline int32_t rtpw_sanitized_remove_element(uint8_t *datagram, size_t len, uint8_t id) {
    int32_t status;
    rtpw_sanitizer_packet_block(datagram, len);
    status = rtpw_remove_element(datagram, len, id);
    if (status == RTPW_OK) { rtpw_sanitizer_wrote_block(datagram, len); }
    return status;
}
#define rtpw_remove_element rtpw_sanitized_remove_element
RTPW_CHECKED static inline int32_t rtpw_sanitized_set_padding(uint8_t *datagram, size_t len, bool has_padding) {
    int32_t status;
    rtpw_sanitizer_packet_header_len(datagram, len);
    status = rtpw_set_padding(datagram, len, has_padding);
    if (status == RTPW_OK) { rtpw_sanitizer_wrote(datagram, 1); }
    return status;
}
#define rtpw_set_padding rtpw_sanitized_set_padding
RTPW_CHECKED static inline int32_t rtpw_sanitized_remove_padding(uint8_t *datagram, size_t len, size_t *new_len) {
    int32_t status;
    rtpw_sanitizer_packet_padding(datagram, len);
    RTPW_SANITIZER_ROOM(new_len, sizeof *new_len);
    status = rtpw_remove_padding(datagram, len, new_len);
    if (status == RTPW_OK) { rtpw_sanitizer_wrote(new_len, sizeof *new_len); }
    if (status == RTPW_OK) { rtpw_sanitizer_wrote(datagram, 1); }
    return status;
}
#define rtpw_remove_padding rtpw_sanitized_remove_padding
RTPW_CHECKED static inline int32_t rtpw_sanitized_put_element(uint8_t *buf, size_t size, size_t *len, uint8_t id,
        const uint8_t *data, size_t data_len, uint8_t allowed) {
    int32_t status;
    rtpw_sanitizer_before before = rtpw_sanitizer_front(buf, size, len);
    rtpw_sanitizer_packet_block(buf, before.len);
    rtpw_sanitizer_reads(data, data_len);
    status = rtpw_put_element(buf, size, len, id, data, data_len, allowed);
    if (status == RTPW_OK) { rtpw_sanitizer_rebuilt(buf, len, before); }
    rtpw_sanitizer_forget(before);
    return status;
}
#define rtpw_put_element rtpw_sanitized_put_element
RTPW_CHECKED static inline int32_t rtpw_sanitized_add_element(uint8_t *buf, size_t size, size_t *len, uint8_t id,
        const uint8_t *data, size_t data_len, uint8_t allowed) {
    int32_t status;
    rtpw_sanitizer_before before = rtpw_sanitizer_front(buf, size, len);
    rtpw_sanitizer_packet_block(buf, before.len);
    rtpw_sanitizer_reads(data, data_len);
    status = rtpw_add_element(buf, size, len, id, data, data_len, allowed);
    if (status == RTPW_OK) { rtpw_sanitizer_rebuilt(buf, len, before); }
    rtpw_sanitizer_forget(before);
    return status;
}
#define rtpw_add_element rtpw_sanitized_add_element
RTPW_CHECKED static inline int32_t rtpw_sanitized_compact(uint8_t *buf, size_t size, size_t *len) {
    int32_t status;
    rtpw_sanitizer_before before = rtpw_sanitizer_front(buf, size, len);
    rtpw_sanitizer_packet_block(buf, before.len);
    status = rtpw_compact(buf, size, len);
    if (status == RTPW_OK) { rtpw_sanitizer_rebuilt(buf, len, before); }
    rtpw_sanitizer_forget(before);
    return status;
}
#define rtpw_compact rtpw_sanitized_compact
RTPW_CHECKED static inline int32_t rtpw_sanitized_change_form(uint8_t *buf, size_t size, size_t *len,
        uint8_t form) {
    int32_t status;
    rtpw_sanitizer_before before = rtpw_sanitizer_front(buf, size, len);
    rtpw_sanitizer_packet_block(buf, before.len);
    status = rtpw_change_form(buf, size, len, form);
    if (status == RTPW_OK) { rtpw_sanitizer_rebuilt(buf, len, before); }
    rtpw_sanitizer_forget(before);
    return status;
}
#define rtpw_change_form rtpw_sanitized_change_form
RTPW_CHECKED static inline int32_t rtpw_sanitized_remove_block(uint8_t *buf, size_t size, size_t *len) {
    int32_t status;
    rtpw_sanitizer_before before = rtpw_sanitizer_front(buf, size, len);
    status = rtpw_remove_block(buf, size, len);
    if (status == RTPW_OK) { rtpw_sanitizer_rebuilt(buf, len, before); }
    rtpw_sanitizer_forget(before);
    return status;
}
#define rtpw_remove_block rtpw_sanitized_remove_block
RTPW_CHECKED static inline int32_t rtpw_sanitized_put_block(uint8_t *buf, size_t size, size_t *len,
        uint16_t profile, const uint8_t *body, size_t body_len) {
    int32_t status;
    rtpw_sanitizer_before before = rtpw_sanitizer_front(buf, size, len);
    rtpw_sanitizer_reads(body, body_len);
    status = rtpw_put_block(buf, size, len, profile, body, body_len);
    if (status == RTPW_OK) { rtpw_sanitizer_rebuilt(buf, len, before); }
    rtpw_sanitizer_forget(before);
    return status;
}
#define rtpw_put_block rtpw_sanitized_put_block
RTPW_CHECKED static inline int32_t rtpw_sanitized_next_element(const uint8_t *body, size_t body_len, uint8_t form,
        size_t at, rtpw_element *element) {
    int32_t status;
    RTPW_SANITIZER_ROOM(element, sizeof *element);
    RTPW_SANITIZER_ROOM(body, body_len);
    status = rtpw_next_element(body, body_len, form, at, element);
    if (status == RTPW_OK) { rtpw_sanitizer_wrote(element, sizeof *element); }
    if (at < body_len) { rtpw_sanitizer_reads(body + at, (status == RTPW_OK ? element->data_at : body_len) - at); }
    return status;
}
#define rtpw_next_element rtpw_sanitized_next_element
static inline size_t rtpw_sanitized_next_elements(const uint8_t *body, size_t body_len, uint8_t form, size_t at,
        rtpw_element *elements, size_t count) {
    size_t status;
    RTPW_SANITIZER_ROOM(elements, count * sizeof *elements);
    RTPW_SANITIZER_ROOM(body, body_len);
    status = rtpw_next_elements(body, body_len, form, at, elements, count);
    rtpw_sanitizer_wrote(elements, status * sizeof *elements);
    if (at < body_len && count != 0) { rtpw_sanitizer_walked(body, body_len, at, elements, count, status); }
    return status;
}
#define rtpw_next_elements rtpw_sanitized_next_elements
RTPW_CHECKED static inline int32_t rtpw_sanitized_last_element(const uint8_t *body, size_t body_len, uint8_t form,
        uint8_t id, rtpw_element *element) {
    int32_t status;
    rtpw_sanitizer_reads(body, body_len);
    RTPW_SANITIZER_ROOM(element, sizeof *element);
    status = rtpw_last_element(body, body_len, form, id, element);
    if (status == RTPW_OK) { rtpw_sanitizer_wrote(element, sizeof *element); }
    return status;
}
#define rtpw_last_element rtpw_sanitized_last_element
static inline uint8_t rtpw_sanitized_kind_of_uri(const uint8_t *uri, size_t len) {
    uint8_t status;
    rtpw_sanitizer_reads(uri, len);
    status = rtpw_kind_of_uri(uri, len);
    return status;
}
#define rtpw_kind_of_uri rtpw_sanitized_kind_of_uri
RTPW_CHECKED static inline int32_t rtpw_sanitized_uri_of_kind(uint8_t kind, uint8_t *buf, size_t size,
        size_t *len) {
    int32_t status;
    RTPW_SANITIZER_ROOM(buf, size);
    RTPW_SANITIZER_ROOM(len, sizeof *len);
    status = rtpw_uri_of_kind(kind, buf, size, len);
    if (status == RTPW_OK) { rtpw_sanitizer_wrote(len, sizeof *len); }
    if (status == RTPW_OK) { rtpw_sanitizer_wrote(buf, *len); }
    return status;
}
#define rtpw_uri_of_kind rtpw_sanitized_uri_of_kind
RTPW_CHECKED static inline int32_t rtpw_sanitized_map_set(rtpw_map *map, uint8_t id, uint8_t kind) {
    int32_t status;
    RTPW_SANITIZER_ROOM(map, sizeof *map);
    status = rtpw_map_set(map, id, kind);
    if (status == RTPW_OK) { rtpw_sanitizer_wrote((uint8_t *)map + id, 1); }
    return status;
}
#define rtpw_map_set rtpw_sanitized_map_set
static inline void rtpw_sanitized_map_remove(rtpw_map *map, uint8_t id) {
    RTPW_SANITIZER_ROOM(map, sizeof *map);
    rtpw_map_remove(map, id);
    rtpw_sanitizer_wrote((uint8_t *)map + id, id != 0);
}
#define rtpw_map_remove rtpw_sanitized_map_remove
static inline uint8_t rtpw_sanitized_map_get(const rtpw_map *map, uint8_t id) {
    uint8_t status;
    RTPW_SANITIZER_ROOM(map, sizeof *map);
    rtpw_sanitizer_reads((const uint8_t *)map + id, id != 0);
    status = rtpw_map_get(map, id);
    return status;
}
#define rtpw_map_get rtpw_sanitized_map_get
static inline uint8_t rtpw_sanitized_id_of(const rtpw_map *map, uint8_t kind) {
    uint8_t status;
    rtpw_sanitizer_map(map);
    status = rtpw_id_of(map, kind);
    return status;
}
#define rtpw_id_of rtpw_sanitized_id_of
static inline void rtpw_sanitized_map_standard(rtpw_map *map) {
    RTPW_SANITIZER_ROOM(map, sizeof *map);
    rtpw_map_standard(map);
    rtpw_sanitizer_wrote(map, sizeof *map);
}
#define rtpw_map_standard rtpw_sanitized_map_standard
RTPW_CHECKED static inline int32_t rtpw_sanitized_values_read(const uint8_t *body, size_t body_len, uint8_t form,
        const rtpw_map *map, rtpw_values *values) {
    int32_t status;
    rtpw_sanitizer_reads(body, body_len);
    rtpw_sanitizer_map(map);
    RTPW_SANITIZER_ROOM(values, sizeof *values);
    status = rtpw_values_read(body, body_len, form, map, values);
    if (status == RTPW_OK) { rtpw_sanitizer_wrote(values, sizeof *values); }
    return status;
}
#define rtpw_values_read rtpw_sanitized_values_read
RTPW_CHECKED static inline int32_t rtpw_sanitized_data_of(uint8_t kind, const rtpw_values *values, uint8_t *buf,
        size_t size, size_t *len) {
    int32_t status;
    rtpw_sanitizer_values(values);
    RTPW_SANITIZER_ROOM(buf, size);
    RTPW_SANITIZER_ROOM(len, sizeof *len);
    status = rtpw_data_of(kind, values, buf, size, len);
    if (status == RTPW_OK) { rtpw_sanitizer_wrote(len, sizeof *len); }
    if (status == RTPW_OK) { rtpw_sanitizer_wrote(buf, *len); }
    return status;
}
#define rtpw_data_of rtpw_sanitized_data_of
RTPW_CHECKED static inline int32_t rtpw_sanitized_read(const uint8_t *datagram, size_t len, const rtpw_map *map,
        rtpw_whole_packet *packet) {
    int32_t status;
    rtpw_sanitizer_packet_whole(datagram, len);
    rtpw_sanitizer_map(map);
    RTPW_SANITIZER_ROOM(packet, sizeof *packet);
    status = rtpw_read(datagram, len, map, packet);
    if (status == RTPW_OK) { rtpw_sanitizer_wrote(packet, sizeof *packet); }
    return status;
}
#define rtpw_read rtpw_sanitized_read
RTPW_CHECKED static inline int32_t rtpw_sanitized_parse(const uint8_t *datagram, size_t len, const rtpw_map *map,
        rtpw_header *header) {
    int32_t status;
    rtpw_sanitizer_packet_header(datagram, len);
    rtpw_sanitizer_map(map);
    RTPW_SANITIZER_ROOM(header, sizeof *header);
    status = rtpw_parse(datagram, len, map, header);
    if (status == RTPW_OK) { rtpw_sanitizer_wrote(header, sizeof *header); }
    return status;
}
#define rtpw_parse rtpw_sanitized_parse
RTPW_CHECKED static inline int32_t rtpw_sanitized_parse_layers(const uint8_t *datagram, size_t len,
        const rtpw_map *map, rtpw_header *header, rtpw_layers *layers) {
    int32_t status;
    rtpw_sanitizer_packet_header(datagram, len);
    rtpw_sanitizer_map(map);
    RTPW_SANITIZER_ROOM(header, sizeof *header);
    RTPW_SANITIZER_ROOM(layers, sizeof *layers);
    status = rtpw_parse_layers(datagram, len, map, header, layers);
    if (status == RTPW_OK) { rtpw_sanitizer_wrote(header, sizeof *header); }
    if (status == RTPW_OK) { rtpw_sanitizer_wrote(layers, sizeof *layers); }
    return status;
}
#define rtpw_parse_layers rtpw_sanitized_parse_layers
RTPW_CHECKED static inline int32_t rtpw_sanitized_wire_len(const rtpw_map *map, const rtpw_header *header,
        size_t *len) {
    int32_t status;
    RTPW_SANITIZER_ROOM(map, sizeof *map);
    rtpw_sanitizer_header(header);
    RTPW_SANITIZER_ROOM(len, sizeof *len);
    if (header->has_extension) { rtpw_sanitizer_map(map); }
    status = rtpw_wire_len(map, header, len);
    if (status == RTPW_OK) { rtpw_sanitizer_wrote(len, sizeof *len); }
    return status;
}
#define rtpw_wire_len rtpw_sanitized_wire_len
RTPW_CHECKED static inline int32_t rtpw_sanitized_write(const rtpw_map *map, const rtpw_header *header,
        uint8_t *buf, size_t size, size_t *len) {
    int32_t status;
    RTPW_SANITIZER_ROOM(map, sizeof *map);
    rtpw_sanitizer_header(header);
    RTPW_SANITIZER_ROOM(buf, size);
    RTPW_SANITIZER_ROOM(len, sizeof *len);
    if (header->has_extension) { rtpw_sanitizer_map(map); }
    status = rtpw_write(map, header, buf, size, len);
    if (status == RTPW_OK) { rtpw_sanitizer_wrote(len, sizeof *len); }
    if (status == RTPW_OK) { rtpw_sanitizer_wrote(buf, *len); }
    return status;
}
#define rtpw_write rtpw_sanitized_write
RTPW_CHECKED static inline int32_t rtpw_sanitized_wire_len_layers(const rtpw_map *map, const rtpw_header *header,
        const rtpw_layers *layers, size_t *len) {
    int32_t status;
    RTPW_SANITIZER_ROOM(map, sizeof *map);
    rtpw_sanitizer_header(header);
    rtpw_sanitizer_layers(layers);
    RTPW_SANITIZER_ROOM(len, sizeof *len);
    if (header->has_extension) { rtpw_sanitizer_map(map); }
    status = rtpw_wire_len_layers(map, header, layers, len);
    if (status == RTPW_OK) { rtpw_sanitizer_wrote(len, sizeof *len); }
    return status;
}
#define rtpw_wire_len_layers rtpw_sanitized_wire_len_layers
RTPW_CHECKED static inline int32_t rtpw_sanitized_write_layers(const rtpw_map *map, const rtpw_header *header,
        const rtpw_layers *layers, uint8_t *buf, size_t size, size_t *len) {
    int32_t status;
    RTPW_SANITIZER_ROOM(map, sizeof *map);
    rtpw_sanitizer_header(header);
    rtpw_sanitizer_layers(layers);
    RTPW_SANITIZER_ROOM(buf, size);
    RTPW_SANITIZER_ROOM(len, sizeof *len);
    if (header->has_extension) { rtpw_sanitizer_map(map); }
    status = rtpw_write_layers(map, header, layers, buf, size, len);
    if (status == RTPW_OK) { rtpw_sanitizer_wrote(len, sizeof *len); }
    if (status == RTPW_OK) { rtpw_sanitizer_wrote(buf, *len); }
    return status;
}
#define rtpw_write_layers rtpw_sanitized_write_layers
RTPW_CHECKED static inline int32_t rtpw_sanitized_left_out(const rtpw_map *map, const rtpw_header *header,
        uint32_t *kinds) {
    int32_t status;
    RTPW_SANITIZER_ROOM(map, sizeof *map);
    rtpw_sanitizer_header(header);
    RTPW_SANITIZER_ROOM(kinds, sizeof *kinds);
    if (header->has_extension) { rtpw_sanitizer_map(map); }
    status = rtpw_left_out(map, header, kinds);
    if (status == RTPW_OK) { rtpw_sanitizer_wrote(kinds, sizeof *kinds); }
    return status;
}
#define rtpw_left_out rtpw_sanitized_left_out
RTPW_CHECKED static inline int32_t rtpw_sanitized_left_out_layers(const rtpw_map *map, const rtpw_header *header,
        const rtpw_layers *layers, uint32_t *kinds) {
    int32_t status;
    RTPW_SANITIZER_ROOM(map, sizeof *map);
    rtpw_sanitizer_header(header);
    rtpw_sanitizer_layers(layers);
    RTPW_SANITIZER_ROOM(kinds, sizeof *kinds);
    if (header->has_extension) { rtpw_sanitizer_map(map); }
    status = rtpw_left_out_layers(map, header, layers, kinds);
    if (status == RTPW_OK) { rtpw_sanitizer_wrote(kinds, sizeof *kinds); }
    return status;
}
#define rtpw_left_out_layers rtpw_sanitized_left_out_layers
RTPW_CHECKED static inline int32_t rtpw_sanitized_write_with(const rtpw_header *header, const uint8_t *data,
        size_t data_len, const rtpw_element *elements, size_t count, uint8_t *buf, size_t size, size_t *len) {
    int32_t status;
    rtpw_sanitizer_header_but_has_extension_values(header);
    RTPW_SANITIZER_ROOM(data, data_len);
    RTPW_SANITIZER_ROOM(elements, count * sizeof *elements);
    for (size_t i = 0; i < count; i++) { rtpw_sanitizer_element(&elements[i]); }
    RTPW_SANITIZER_ROOM(buf, size);
    RTPW_SANITIZER_ROOM(len, sizeof *len);
    for (size_t i = 0; i < count; i++) {
        rtpw_sanitizer_part(data, data_len, elements[i].data_at, elements[i].data_len);
    }
    status = rtpw_write_with(header, data, data_len, elements, count, buf, size, len);
    if (status == RTPW_OK) { rtpw_sanitizer_wrote(len, sizeof *len); }
    if (status == RTPW_OK) { rtpw_sanitizer_wrote(buf, *len); }
    return status;
}
#define rtpw_write_with rtpw_sanitized_write_with
RTPW_CHECKED static inline int32_t rtpw_sanitized_write_with_form(const rtpw_header *header, const uint8_t *data,
        size_t data_len, const rtpw_element *elements, size_t count, uint8_t form, uint8_t *buf, size_t size,
        size_t *len) {
    int32_t status;
    rtpw_sanitizer_header_but_has_extension_values(header);
    RTPW_SANITIZER_ROOM(data, data_len);
    RTPW_SANITIZER_ROOM(elements, count * sizeof *elements);
    for (size_t i = 0; i < count; i++) { rtpw_sanitizer_element(&elements[i]); }
    RTPW_SANITIZER_ROOM(buf, size);
    RTPW_SANITIZER_ROOM(len, sizeof *len);
    for (size_t i = 0; i < count; i++) {
        rtpw_sanitizer_part(data, data_len, elements[i].data_at, elements[i].data_len);
    }
    status = rtpw_write_with_form(header, data, data_len, elements, count, form, buf, size, len);
    if (status == RTPW_OK) { rtpw_sanitizer_wrote(len, sizeof *len); }
    if (status == RTPW_OK) { rtpw_sanitizer_wrote(buf, *len); }
    return status;
}
#define rtpw_write_with_form rtpw_sanitized_write_with_form
RTPW_CHECKED static inline int32_t rtpw_sanitized_write_elements(const uint8_t *data, size_t data_len,
        const rtpw_element *elements, size_t count, uint8_t form, uint8_t *buf, size_t size, size_t *len) {
    int32_t status;
    RTPW_SANITIZER_ROOM(data, data_len);
    RTPW_SANITIZER_ROOM(elements, count * sizeof *elements);
    for (size_t i = 0; i < count; i++) { rtpw_sanitizer_element(&elements[i]); }
    RTPW_SANITIZER_ROOM(buf, size);
    RTPW_SANITIZER_ROOM(len, sizeof *len);
    for (size_t i = 0; i < count; i++) {
        rtpw_sanitizer_part(data, data_len, elements[i].data_at, elements[i].data_len);
    }
    status = rtpw_write_elements(data, data_len, elements, count, form, buf, size, len);
    if (status == RTPW_OK) { rtpw_sanitizer_wrote(len, sizeof *len); }
    if (status == RTPW_OK) { rtpw_sanitizer_wrote(buf, *len); }
    return status;
}
#define rtpw_write_elements rtpw_sanitized_write_elements
RTPW_CHECKED static inline int32_t rtpw_sanitized_read_send_time(const uint8_t *data, size_t data_len,
        uint32_t *units) {
    int32_t status;
    RTPW_SANITIZER_ROOM(data, data_len);
    RTPW_SANITIZER_ROOM(units, sizeof *units);
    if (data_len == 3) { rtpw_sanitizer_reads(data, data_len); }
    status = rtpw_read_send_time(data, data_len, units);
    if (status == RTPW_OK) { rtpw_sanitizer_wrote(units, sizeof *units); }
    return status;
}
#define rtpw_read_send_time rtpw_sanitized_read_send_time
RTPW_CHECKED static inline int32_t rtpw_sanitized_write_send_time(uint32_t units, uint8_t *buf, size_t size,
        size_t *len) {
    int32_t status;
    RTPW_SANITIZER_ROOM(buf, size);
    RTPW_SANITIZER_ROOM(len, sizeof *len);
    status = rtpw_write_send_time(units, buf, size, len);
    if (status == RTPW_OK) { rtpw_sanitizer_wrote(len, sizeof *len); }
    if (status == RTPW_OK) { rtpw_sanitizer_wrote(buf, *len); }
    return status;
}
#define rtpw_write_send_time rtpw_sanitized_write_send_time
RTPW_CHECKED static inline int32_t rtpw_sanitized_read_transmission_offset(const uint8_t *data, size_t data_len,
        int32_t *offset) {
    int32_t status;
    RTPW_SANITIZER_ROOM(data, data_len);
    RTPW_SANITIZER_ROOM(offset, sizeof *offset);
    if (data_len == 3) { rtpw_sanitizer_reads(data, data_len); }
    status = rtpw_read_transmission_offset(data, data_len, offset);
    if (status == RTPW_OK) { rtpw_sanitizer_wrote(offset, sizeof *offset); }
    return status;
}
#define rtpw_read_transmission_offset rtpw_sanitized_read_transmission_offset
RTPW_CHECKED static inline int32_t rtpw_sanitized_write_transmission_offset(int32_t offset, uint8_t *buf,
        size_t size, size_t *len) {
    int32_t status;
    RTPW_SANITIZER_ROOM(buf, size);
    RTPW_SANITIZER_ROOM(len, sizeof *len);
    status = rtpw_write_transmission_offset(offset, buf, size, len);
    if (status == RTPW_OK) { rtpw_sanitizer_wrote(len, sizeof *len); }
    if (status == RTPW_OK) { rtpw_sanitizer_wrote(buf, *len); }
    return status;
}
#define rtpw_write_transmission_offset rtpw_sanitized_write_transmission_offset
RTPW_CHECKED static inline int32_t rtpw_sanitized_read_frame_marking(const uint8_t *data, size_t data_len,
        rtpw_frame_marking *marking) {
    int32_t status;
    RTPW_SANITIZER_ROOM(data, data_len);
    RTPW_SANITIZER_ROOM(marking, sizeof *marking);
    if (data_len <= 3) { rtpw_sanitizer_reads(data, data_len); }
    status = rtpw_read_frame_marking(data, data_len, marking);
    if (status == RTPW_OK) { rtpw_sanitizer_wrote(marking, sizeof *marking); }
    return status;
}
#define rtpw_read_frame_marking rtpw_sanitized_read_frame_marking
RTPW_CHECKED static inline int32_t rtpw_sanitized_write_frame_marking(const rtpw_frame_marking *marking,
        uint8_t *buf, size_t size, size_t *len) {
    int32_t status;
    rtpw_sanitizer_frame_marking(marking);
    RTPW_SANITIZER_ROOM(buf, size);
    RTPW_SANITIZER_ROOM(len, sizeof *len);
    status = rtpw_write_frame_marking(marking, buf, size, len);
    if (status == RTPW_OK) { rtpw_sanitizer_wrote(len, sizeof *len); }
    if (status == RTPW_OK) { rtpw_sanitizer_wrote(buf, *len); }
    return status;
}
#define rtpw_write_frame_marking rtpw_sanitized_write_frame_marking
RTPW_CHECKED static inline int32_t rtpw_sanitized_read_orientation(const uint8_t *data, size_t data_len,
        rtpw_orientation *orientation) {
    int32_t status;
    RTPW_SANITIZER_ROOM(data, data_len);
    RTPW_SANITIZER_ROOM(orientation, sizeof *orientation);
    if (data_len == 1) { rtpw_sanitizer_reads(data, data_len); }
    status = rtpw_read_orientation(data, data_len, orientation);
    if (status == RTPW_OK) { rtpw_sanitizer_wrote(orientation, sizeof *orientation); }
    return status;
}
#define rtpw_read_orientation rtpw_sanitized_read_orientation
RTPW_CHECKED static inline int32_t rtpw_sanitized_write_orientation(const rtpw_orientation *orientation,
        uint8_t *buf, size_t size, size_t *len) {
    int32_t status;
    rtpw_sanitizer_orientation(orientation);
    RTPW_SANITIZER_ROOM(buf, size);
    RTPW_SANITIZER_ROOM(len, sizeof *len);
    status = rtpw_write_orientation(orientation, buf, size, len);
    if (status == RTPW_OK) { rtpw_sanitizer_wrote(len, sizeof *len); }
    if (status == RTPW_OK) { rtpw_sanitizer_wrote(buf, *len); }
    return status;
}
#define rtpw_write_orientation rtpw_sanitized_write_orientation
static inline bool rtpw_sanitized_is_token(const uint8_t *data, size_t data_len) {
    bool status;
    RTPW_SANITIZER_ROOM(data, data_len);
    if (data_len <= 255) { rtpw_sanitizer_reads(data, data_len); }
    status = rtpw_is_token(data, data_len);
    return status;
}
#define rtpw_is_token rtpw_sanitized_is_token
static inline bool rtpw_sanitized_is_stream_id(const uint8_t *data, size_t data_len) {
    bool status;
    RTPW_SANITIZER_ROOM(data, data_len);
    if (data_len <= 255) { rtpw_sanitizer_reads(data, data_len); }
    status = rtpw_is_stream_id(data, data_len);
    return status;
}
#define rtpw_is_stream_id rtpw_sanitized_is_stream_id
RTPW_CHECKED static inline int32_t rtpw_sanitized_read_timing(const uint8_t *data, size_t data_len,
        rtpw_timing *timing) {
    int32_t status;
    RTPW_SANITIZER_ROOM(data, data_len);
    RTPW_SANITIZER_ROOM(timing, sizeof *timing);
    if (data_len == 12 || data_len == 13) { rtpw_sanitizer_reads(data, data_len); }
    status = rtpw_read_timing(data, data_len, timing);
    if (status == RTPW_OK) { rtpw_sanitizer_wrote(timing, sizeof *timing); }
    return status;
}
#define rtpw_read_timing rtpw_sanitized_read_timing
RTPW_CHECKED static inline int32_t rtpw_sanitized_write_timing(const rtpw_timing *timing, uint8_t *buf, size_t size,
        size_t *len) {
    int32_t status;
    rtpw_sanitizer_timing(timing);
    RTPW_SANITIZER_ROOM(buf, size);
    RTPW_SANITIZER_ROOM(len, sizeof *len);
    status = rtpw_write_timing(timing, buf, size, len);
    if (status == RTPW_OK) { rtpw_sanitizer_wrote(len, sizeof *len); }
    if (status == RTPW_OK) { rtpw_sanitizer_wrote(buf, *len); }
    return status;
}
#define rtpw_write_timing rtpw_sanitized_write_timing
RTPW_CHECKED static inline int32_t rtpw_sanitized_read_transport_number(const uint8_t *data, size_t data_len,
        rtpw_transport_number *number) {
    int32_t status;
    RTPW_SANITIZER_ROOM(data, data_len);
    RTPW_SANITIZER_ROOM(number, sizeof *number);
    if (data_len == 2 || data_len == 4) { rtpw_sanitizer_reads(data, data_len); }
    status = rtpw_read_transport_number(data, data_len, number);
    if (status == RTPW_OK) { rtpw_sanitizer_wrote(number, sizeof *number); }
    return status;
}
#define rtpw_read_transport_number rtpw_sanitized_read_transport_number
RTPW_CHECKED static inline int32_t rtpw_sanitized_write_transport_number(const rtpw_transport_number *number,
        uint8_t *buf, size_t size, size_t *len) {
    int32_t status;
    rtpw_sanitizer_transport_number(number);
    RTPW_SANITIZER_ROOM(buf, size);
    RTPW_SANITIZER_ROOM(len, sizeof *len);
    status = rtpw_write_transport_number(number, buf, size, len);
    if (status == RTPW_OK) { rtpw_sanitizer_wrote(len, sizeof *len); }
    if (status == RTPW_OK) { rtpw_sanitizer_wrote(buf, *len); }
    return status;
}
#define rtpw_write_transport_number rtpw_sanitized_write_transport_number
RTPW_CHECKED static inline int32_t rtpw_sanitized_read_mixer_level(const uint8_t *data, size_t data_len,
        size_t csrc_count, size_t index, int8_t *level) {
    int32_t status;
    RTPW_SANITIZER_ROOM(data, data_len);
    RTPW_SANITIZER_ROOM(level, sizeof *level);
    if (index < csrc_count && index < data_len) { rtpw_sanitizer_reads(data + index, 1); }
    status = rtpw_read_mixer_level(data, data_len, csrc_count, index, level);
    if (status == RTPW_OK) { rtpw_sanitizer_wrote(level, sizeof *level); }
    return status;
}
#define rtpw_read_mixer_level rtpw_sanitized_read_mixer_level
RTPW_CHECKED static inline int32_t rtpw_sanitized_write_mixer_levels(const int8_t *levels, size_t count,
        uint8_t *buf, size_t size, size_t *len) {
    int32_t status;
    RTPW_SANITIZER_ROOM(levels, count);
    RTPW_SANITIZER_ROOM(buf, size);
    RTPW_SANITIZER_ROOM(len, sizeof *len);
    if (count <= 15) { rtpw_sanitizer_reads(levels, count); }
    status = rtpw_write_mixer_levels(levels, count, buf, size, len);
    if (status == RTPW_OK) { rtpw_sanitizer_wrote(len, sizeof *len); }
    if (status == RTPW_OK) { rtpw_sanitizer_wrote(buf, *len); }
    return status;
}
#define rtpw_write_mixer_levels rtpw_sanitized_write_mixer_levels
RTPW_CHECKED static inline int32_t rtpw_sanitized_read_ntp_64(const uint8_t *data, size_t data_len,
        uint64_t *time) {
    int32_t status;
    RTPW_SANITIZER_ROOM(data, data_len);
    RTPW_SANITIZER_ROOM(time, sizeof *time);
    if (data_len == 8) { rtpw_sanitizer_reads(data, data_len); }
    status = rtpw_read_ntp_64(data, data_len, time);
    if (status == RTPW_OK) { rtpw_sanitizer_wrote(time, sizeof *time); }
    return status;
}
#define rtpw_read_ntp_64 rtpw_sanitized_read_ntp_64
RTPW_CHECKED static inline int32_t rtpw_sanitized_write_ntp_64(uint64_t time, uint8_t *buf, size_t size,
        size_t *len) {
    int32_t status;
    RTPW_SANITIZER_ROOM(buf, size);
    RTPW_SANITIZER_ROOM(len, sizeof *len);
    status = rtpw_write_ntp_64(time, buf, size, len);
    if (status == RTPW_OK) { rtpw_sanitizer_wrote(len, sizeof *len); }
    if (status == RTPW_OK) { rtpw_sanitizer_wrote(buf, *len); }
    return status;
}
#define rtpw_write_ntp_64 rtpw_sanitized_write_ntp_64
RTPW_CHECKED static inline int32_t rtpw_sanitized_read_ntp_56(const uint8_t *data, size_t data_len,
        uint64_t *time) {
    int32_t status;
    RTPW_SANITIZER_ROOM(data, data_len);
    RTPW_SANITIZER_ROOM(time, sizeof *time);
    if (data_len == 7) { rtpw_sanitizer_reads(data, data_len); }
    status = rtpw_read_ntp_56(data, data_len, time);
    if (status == RTPW_OK) { rtpw_sanitizer_wrote(time, sizeof *time); }
    return status;
}
#define rtpw_read_ntp_56 rtpw_sanitized_read_ntp_56
RTPW_CHECKED static inline int32_t rtpw_sanitized_write_ntp_56(uint64_t time, uint8_t *buf, size_t size,
        size_t *len) {
    int32_t status;
    RTPW_SANITIZER_ROOM(buf, size);
    RTPW_SANITIZER_ROOM(len, sizeof *len);
    status = rtpw_write_ntp_56(time, buf, size, len);
    if (status == RTPW_OK) { rtpw_sanitizer_wrote(len, sizeof *len); }
    if (status == RTPW_OK) { rtpw_sanitizer_wrote(buf, *len); }
    return status;
}
#define rtpw_write_ntp_56 rtpw_sanitized_write_ntp_56
RTPW_CHECKED static inline int32_t rtpw_sanitized_read_color_space(const uint8_t *data, size_t data_len,
        rtpw_color_space *space) {
    int32_t status;
    RTPW_SANITIZER_ROOM(data, data_len);
    RTPW_SANITIZER_ROOM(space, sizeof *space);
    if (data_len == 4 || data_len == 28) { rtpw_sanitizer_reads(data, data_len); }
    status = rtpw_read_color_space(data, data_len, space);
    if (status == RTPW_OK) { rtpw_sanitizer_wrote(space, sizeof *space); }
    return status;
}
#define rtpw_read_color_space rtpw_sanitized_read_color_space
RTPW_CHECKED static inline int32_t rtpw_sanitized_write_color_space(const rtpw_color_space *space, uint8_t *buf,
        size_t size, size_t *len) {
    int32_t status;
    rtpw_sanitizer_color_space(space);
    RTPW_SANITIZER_ROOM(buf, size);
    RTPW_SANITIZER_ROOM(len, sizeof *len);
    status = rtpw_write_color_space(space, buf, size, len);
    if (status == RTPW_OK) { rtpw_sanitizer_wrote(len, sizeof *len); }
    if (status == RTPW_OK) { rtpw_sanitizer_wrote(buf, *len); }
    return status;
}
#define rtpw_write_color_space rtpw_sanitized_write_color_space
RTPW_CHECKED static inline int32_t rtpw_sanitized_read_dependency_descriptor(const uint8_t *data, size_t data_len,
        rtpw_dependency_descriptor *descriptor) {
    int32_t status;
    RTPW_SANITIZER_ROOM(data, data_len);
    RTPW_SANITIZER_ROOM(descriptor, sizeof *descriptor);
    if (data_len >= 3) { rtpw_sanitizer_reads(data, 3); }
    status = rtpw_read_dependency_descriptor(data, data_len, descriptor);
    if (status == RTPW_OK) { rtpw_sanitizer_wrote(descriptor, sizeof *descriptor); }
    return status;
}
#define rtpw_read_dependency_descriptor rtpw_sanitized_read_dependency_descriptor
RTPW_CHECKED static inline int32_t
        rtpw_sanitized_write_dependency_descriptor(const rtpw_dependency_descriptor *descriptor, uint8_t *buf,
        size_t size, size_t *len) {
    int32_t status;
    rtpw_sanitizer_dependency_descriptor(descriptor);
    RTPW_SANITIZER_ROOM(buf, size);
    RTPW_SANITIZER_ROOM(len, sizeof *len);
    status = rtpw_write_dependency_descriptor(descriptor, buf, size, len);
    if (status == RTPW_OK) { rtpw_sanitizer_wrote(len, sizeof *len); }
    if (status == RTPW_OK) { rtpw_sanitizer_wrote(buf, *len); }
    return status;
}
#define rtpw_write_dependency_descriptor rtpw_sanitized_write_dependency_descriptor
static inline bool rtpw_sanitized_has_structure(const uint8_t *data, size_t data_len) {
    bool status;
    RTPW_SANITIZER_ROOM(data, data_len);
    if (data_len > 3) { rtpw_sanitizer_reads(data + 3, 1); }
    status = rtpw_has_structure(data, data_len);
    return status;
}
#define rtpw_has_structure rtpw_sanitized_has_structure
static inline void rtpw_sanitized_new_ids_between(const rtpw_map *from, const rtpw_map *to, rtpw_new_ids *ids) {
    rtpw_sanitizer_map(from);
    rtpw_sanitizer_map(to);
    RTPW_SANITIZER_ROOM(ids, sizeof *ids);
    rtpw_new_ids_between(from, to, ids);
    rtpw_sanitizer_wrote(ids, sizeof *ids);
}
#define rtpw_new_ids_between rtpw_sanitized_new_ids_between
RTPW_CHECKED static inline int32_t rtpw_sanitized_renumber(uint8_t *datagram, size_t len, const rtpw_new_ids *ids) {
    int32_t status;
    rtpw_sanitizer_packet_block(datagram, len);
    rtpw_sanitizer_new_ids(ids);
    status = rtpw_renumber(datagram, len, ids);
    if (status == RTPW_OK) { rtpw_sanitizer_wrote_block(datagram, len); }
    return status;
}
#define rtpw_renumber rtpw_sanitized_renumber
RTPW_CHECKED static inline int32_t rtpw_sanitized_pad(uint8_t *datagram, size_t size, size_t header_len,
        uint8_t pad_len, size_t block_size, size_t *count) {
    int32_t status;
    RTPW_SANITIZER_ROOM(datagram, size);
    RTPW_SANITIZER_ROOM(count, sizeof *count);
    if (pad_len != 0 && header_len != 0 && size != 0) { rtpw_sanitizer_reads(datagram, 1); }
    status = rtpw_pad(datagram, size, header_len, pad_len, block_size, count);
    if (status == RTPW_OK) { rtpw_sanitizer_wrote(count, sizeof *count); }
    if (status == RTPW_OK) {
        if (*count != 0) { rtpw_sanitizer_changed(datagram, 1); rtpw_sanitizer_wrote(datagram + header_len, *count); }
    }
    return status;
}
#define rtpw_pad rtpw_sanitized_pad
RTPW_CHECKED static inline int32_t rtpw_sanitized_read_original(const uint8_t *payload, size_t len,
        uint16_t *number) {
    int32_t status;
    RTPW_SANITIZER_ROOM(payload, len);
    RTPW_SANITIZER_ROOM(number, sizeof *number);
    if (len >= 2) { rtpw_sanitizer_reads(payload, 2); }
    status = rtpw_read_original(payload, len, number);
    if (status == RTPW_OK) { rtpw_sanitizer_wrote(number, sizeof *number); }
    return status;
}
#define rtpw_read_original rtpw_sanitized_read_original
RTPW_CHECKED static inline int32_t rtpw_sanitized_write_original(uint8_t *payload, size_t size, uint64_t number) {
    int32_t status;
    RTPW_SANITIZER_ROOM(payload, size);
    status = rtpw_write_original(payload, size, number);
    if (status == RTPW_OK) { rtpw_sanitizer_wrote(payload, 2); }
    return status;
}
#define rtpw_write_original rtpw_sanitized_write_original
static inline void rtpw_sanitized_new_ids_to_retransmission(const rtpw_map *map, rtpw_new_ids *ids) {
    rtpw_sanitizer_map(map);
    RTPW_SANITIZER_ROOM(ids, sizeof *ids);
    rtpw_new_ids_to_retransmission(map, ids);
    rtpw_sanitizer_wrote(ids, sizeof *ids);
}
#define rtpw_new_ids_to_retransmission rtpw_sanitized_new_ids_to_retransmission
static inline void rtpw_sanitized_new_ids_from_retransmission(const rtpw_map *map, rtpw_new_ids *ids) {
    rtpw_sanitizer_map(map);
    RTPW_SANITIZER_ROOM(ids, sizeof *ids);
    rtpw_new_ids_from_retransmission(map, ids);
    rtpw_sanitizer_wrote(ids, sizeof *ids);
}
#define rtpw_new_ids_from_retransmission rtpw_sanitized_new_ids_from_retransmission
RTPW_CHECKED static inline int32_t rtpw_sanitized_to_retransmission(uint8_t *buf, size_t size, size_t *len,
        uint32_t ssrc, uint8_t payload_type, uint16_t number, const rtpw_new_ids *ids) {
    int32_t status;
    rtpw_sanitizer_before before = rtpw_sanitizer_front(buf, size, len);
    rtpw_sanitizer_packet_block(buf, before.len);
    rtpw_sanitizer_packet_padding(buf, before.len);
    rtpw_sanitizer_new_ids(ids);
    status = rtpw_to_retransmission(buf, size, len, ssrc, payload_type, number, ids);
    if (status == RTPW_OK) { rtpw_sanitizer_readdressed(buf, len, payload_type, before, 2, 0); }
    rtpw_sanitizer_forget(before);
    return status;
}
#define rtpw_to_retransmission rtpw_sanitized_to_retransmission
RTPW_CHECKED static inline int32_t rtpw_sanitized_from_retransmission(uint8_t *buf, size_t size, size_t *len,
        uint32_t ssrc, uint8_t payload_type, const rtpw_new_ids *ids) {
    int32_t status;
    rtpw_sanitizer_before before = rtpw_sanitizer_front(buf, size, len);
    rtpw_sanitizer_packet_block(buf, before.len);
    rtpw_sanitizer_packet_padding(buf, before.len);
    rtpw_sanitizer_packet_number(buf, before.len);
    rtpw_sanitizer_new_ids(ids);
    status = rtpw_from_retransmission(buf, size, len, ssrc, payload_type, ids);
    if (status == RTPW_OK) { rtpw_sanitizer_readdressed(buf, len, payload_type, before, 0, 2); }
    rtpw_sanitizer_forget(before);
    return status;
}
#define rtpw_from_retransmission rtpw_sanitized_from_retransmission
RTPW_CHECKED static inline int32_t rtpw_sanitized_receiver_start(rtpw_receiver *receiver, uint64_t rollover_count) {
    int32_t status;
    RTPW_SANITIZER_ROOM(receiver, sizeof *receiver);
    status = rtpw_receiver_start(receiver, rollover_count);
    if (status == RTPW_OK) { rtpw_sanitizer_wrote(receiver, sizeof *receiver); }
    return status;
}
#define rtpw_receiver_start rtpw_sanitized_receiver_start
static inline uint64_t rtpw_sanitized_receiver_number_of(const rtpw_receiver *receiver, uint16_t sequence_number) {
    uint64_t status;
    rtpw_sanitizer_receiver(receiver);
    status = rtpw_receiver_number_of(receiver, sequence_number);
    return status;
}
#define rtpw_receiver_number_of rtpw_sanitized_receiver_number_of
static inline bool rtpw_sanitized_receiver_accepts(const rtpw_receiver *receiver, uint64_t number) {
    bool status;
    rtpw_sanitizer_receiver(receiver);
    status = rtpw_receiver_accepts(receiver, number);
    return status;
}
#define rtpw_receiver_accepts rtpw_sanitized_receiver_accepts
static inline void rtpw_sanitized_receiver_record(rtpw_receiver *receiver, uint64_t number) {
    rtpw_sanitizer_receiver(receiver);
    rtpw_receiver_record(receiver, number);
    rtpw_sanitizer_wrote(receiver, sizeof *receiver);
}
#define rtpw_receiver_record rtpw_sanitized_receiver_record
RTPW_CHECKED static inline int32_t rtpw_sanitized_receiver_receive(rtpw_receiver *receiver,
        uint16_t sequence_number, uint64_t *number) {
    int32_t status;
    rtpw_sanitizer_receiver(receiver);
    RTPW_SANITIZER_ROOM(number, sizeof *number);
    status = rtpw_receiver_receive(receiver, sequence_number, number);
    if (status == RTPW_OK) { rtpw_sanitizer_wrote(receiver, sizeof *receiver); }
    if (status == RTPW_OK) { rtpw_sanitizer_wrote(number, sizeof *number); }
    return status;
}
#define rtpw_receiver_receive rtpw_sanitized_receiver_receive
static inline uint8_t rtpw_sanitized_receiver_standing_of(const rtpw_receiver *receiver, uint64_t number) {
    uint8_t status;
    rtpw_sanitizer_receiver(receiver);
    status = rtpw_receiver_standing_of(receiver, number);
    return status;
}
#define rtpw_receiver_standing_of rtpw_sanitized_receiver_standing_of
RTPW_CHECKED static inline int32_t rtpw_sanitized_wide_receiver_start(rtpw_wide_receiver *receiver,
        uint64_t rollover_count) {
    int32_t status;
    RTPW_SANITIZER_ROOM(receiver, sizeof *receiver);
    status = rtpw_wide_receiver_start(receiver, rollover_count);
    if (status == RTPW_OK) { rtpw_sanitizer_wrote(receiver, sizeof *receiver); }
    return status;
}
#define rtpw_wide_receiver_start rtpw_sanitized_wide_receiver_start
static inline uint64_t rtpw_sanitized_wide_receiver_number_of(const rtpw_wide_receiver *receiver,
        uint16_t sequence_number) {
    uint64_t status;
    rtpw_sanitizer_wide_receiver(receiver);
    status = rtpw_wide_receiver_number_of(receiver, sequence_number);
    return status;
}
#define rtpw_wide_receiver_number_of rtpw_sanitized_wide_receiver_number_of
static inline bool rtpw_sanitized_wide_receiver_accepts(const rtpw_wide_receiver *receiver, const uint64_t *words,
        size_t count, uint64_t number) {
    bool status;
    rtpw_sanitizer_wide_receiver(receiver);
    RTPW_SANITIZER_ROOM(words, count * sizeof *words);
    if (receiver->started && count <= 512) { rtpw_sanitizer_reads(words, count * sizeof *words); }
    status = rtpw_wide_receiver_accepts(receiver, words, count, number);
    return status;
}
#define rtpw_wide_receiver_accepts rtpw_sanitized_wide_receiver_accepts
RTPW_CHECKED static inline int32_t rtpw_sanitized_wide_receiver_record(rtpw_wide_receiver *receiver,
        uint64_t *words, size_t count, uint64_t number) {
    int32_t status;
    rtpw_sanitizer_wide_receiver(receiver);
    RTPW_SANITIZER_ROOM(words, count * sizeof *words);
    if (receiver->started && count <= 512) { rtpw_sanitizer_reads(words, count * sizeof *words); }
    status = rtpw_wide_receiver_record(receiver, words, count, number);
    if (status == RTPW_OK) { rtpw_sanitizer_wrote(receiver, sizeof *receiver); }
    if (status == RTPW_OK) { rtpw_sanitizer_wrote(words, count * sizeof *words); }
    return status;
}
#define rtpw_wide_receiver_record rtpw_sanitized_wide_receiver_record
RTPW_CHECKED static inline int32_t rtpw_sanitized_wide_receiver_receive(rtpw_wide_receiver *receiver,
        uint64_t *words, size_t count, uint16_t sequence_number, uint64_t *number) {
    int32_t status;
    rtpw_sanitizer_wide_receiver(receiver);
    RTPW_SANITIZER_ROOM(words, count * sizeof *words);
    RTPW_SANITIZER_ROOM(number, sizeof *number);
    if (receiver->started && count <= 512) { rtpw_sanitizer_reads(words, count * sizeof *words); }
    status = rtpw_wide_receiver_receive(receiver, words, count, sequence_number, number);
    if (status == RTPW_OK) { rtpw_sanitizer_wrote(receiver, sizeof *receiver); }
    if (status == RTPW_OK) { rtpw_sanitizer_wrote(number, sizeof *number); }
    if (status == RTPW_OK) { rtpw_sanitizer_wrote(words, count * sizeof *words); }
    return status;
}
#define rtpw_wide_receiver_receive rtpw_sanitized_wide_receiver_receive
static inline uint8_t rtpw_sanitized_wide_receiver_standing_of(const rtpw_wide_receiver *receiver,
        const uint64_t *words, size_t count, uint64_t number) {
    uint8_t status;
    rtpw_sanitizer_wide_receiver(receiver);
    RTPW_SANITIZER_ROOM(words, count * sizeof *words);
    if (receiver->started && count <= 512) { rtpw_sanitizer_reads(words, count * sizeof *words); }
    status = rtpw_wide_receiver_standing_of(receiver, words, count, number);
    return status;
}
#define rtpw_wide_receiver_standing_of rtpw_sanitized_wide_receiver_standing_of
RTPW_CHECKED static inline int32_t rtpw_sanitized_restarting_receive(rtpw_restarting_receiver *receiver,
        uint16_t sequence_number, uint64_t *number) {
    int32_t status;
    rtpw_sanitizer_restarting_receiver(receiver);
    RTPW_SANITIZER_ROOM(number, sizeof *number);
    status = rtpw_restarting_receive(receiver, sequence_number, number);
    if (status == RTPW_OK || status == RTPW_RESTARTED || status == RTPW_REFUSED) {
        rtpw_sanitizer_wrote(receiver, sizeof *receiver);
    }
    if (status == RTPW_OK || status == RTPW_RESTARTED) { rtpw_sanitizer_wrote(number, sizeof *number); }
    return status;
}
#define rtpw_restarting_receive rtpw_sanitized_restarting_receive
static inline void rtpw_sanitized_reception_record(rtpw_reception *reception, uint64_t number, uint32_t timestamp,
        uint32_t arrival) {
    rtpw_sanitizer_reception(reception);
    rtpw_reception_record(reception, number, timestamp, arrival);
    rtpw_sanitizer_wrote(reception, sizeof *reception);
}
#define rtpw_reception_record rtpw_sanitized_reception_record
RTPW_CHECKED static inline int32_t rtpw_sanitized_reception_report(rtpw_reception *reception, rtpw_report *report) {
    int32_t status;
    rtpw_sanitizer_reception(reception);
    RTPW_SANITIZER_ROOM(report, sizeof *report);
    status = rtpw_reception_report(reception, report);
    if (status == RTPW_OK) { rtpw_sanitizer_wrote(reception, sizeof *reception); }
    if (status == RTPW_OK) { rtpw_sanitizer_wrote(report, sizeof *report); }
    return status;
}
#define rtpw_reception_report rtpw_sanitized_reception_report
RTPW_CHECKED static inline int32_t rtpw_sanitized_write_report(const rtpw_report *report, uint32_t ssrc,
        uint32_t last_report, uint32_t delay, uint8_t *buf, size_t size, size_t *len) {
    int32_t status;
    rtpw_sanitizer_report(report);
    RTPW_SANITIZER_ROOM(buf, size);
    RTPW_SANITIZER_ROOM(len, sizeof *len);
    status = rtpw_write_report(report, ssrc, last_report, delay, buf, size, len);
    if (status == RTPW_OK) { rtpw_sanitizer_wrote(len, sizeof *len); }
    if (status == RTPW_OK) { rtpw_sanitizer_wrote(buf, *len); }
    return status;
}
#define rtpw_write_report rtpw_sanitized_write_report
RTPW_CHECKED static inline int32_t rtpw_sanitized_wide_restarting_receive(rtpw_wide_restarting_receiver *receiver,
        uint64_t *words, size_t count, uint16_t sequence_number, uint64_t *number) {
    int32_t status;
    RTPW_SANITIZER_ROOM(receiver, sizeof *receiver);
    RTPW_SANITIZER_ROOM(words, count * sizeof *words);
    RTPW_SANITIZER_ROOM(number, sizeof *number);
    if (count != 0 && count <= 512) { rtpw_sanitizer_wide_restarting_receiver(receiver); }
    if (count != 0 && count <= 512 && receiver->started) { rtpw_sanitizer_reads(words, count * sizeof *words); }
    status = rtpw_wide_restarting_receive(receiver, words, count, sequence_number, number);
    if (status == RTPW_OK || status == RTPW_RESTARTED || status == RTPW_REFUSED) {
        rtpw_sanitizer_wrote(receiver, sizeof *receiver);
    }
    if (status == RTPW_OK || status == RTPW_RESTARTED) { rtpw_sanitizer_wrote(number, sizeof *number); }
    if (status == RTPW_OK || status == RTPW_RESTARTED) { rtpw_sanitizer_wrote(words, count * sizeof *words); }
    return status;
}
#define rtpw_wide_restarting_receive rtpw_sanitized_wide_restarting_receive
static inline void rtpw_sanitized_read_many(const uint8_t *buf, size_t size, const rtpw_map *map,
        rtpw_whole_datagram *datagrams, size_t count) {
    RTPW_SANITIZER_ROOM(buf, size);
    RTPW_SANITIZER_ROOM(map, sizeof *map);
    RTPW_SANITIZER_ROOM(datagrams, count * sizeof *datagrams);
    for (size_t i = 0; i < count; i++) { rtpw_sanitizer_whole_datagram(&datagrams[i]); }
    for (size_t i = 0; i < count; i++) {
        if (rtpw_sanitizer_has_datagram(buf, size, datagrams[i].at, datagrams[i].len)) {
            rtpw_sanitizer_packet_whole(buf + datagrams[i].at, datagrams[i].len);
        }
    }
    if (count != 0) { rtpw_sanitizer_map(map); }
    rtpw_read_many(buf, size, map, datagrams, count);
    for (size_t i = 0; i < count; i++) { rtpw_sanitizer_wrote_whole_datagram(&datagrams[i]); }
}
#define rtpw_read_many rtpw_sanitized_read_many
static inline void rtpw_sanitized_packet_parse_many(const uint8_t *buf, size_t size, rtpw_datagram *datagrams,
        size_t count) {
    RTPW_SANITIZER_ROOM(buf, size);
    RTPW_SANITIZER_ROOM(datagrams, count * sizeof *datagrams);
    for (size_t i = 0; i < count; i++) { rtpw_sanitizer_datagram(&datagrams[i]); }
    for (size_t i = 0; i < count; i++) {
        if (rtpw_sanitizer_has_datagram(buf, size, datagrams[i].at, datagrams[i].len)) {
            rtpw_sanitizer_packet_fields(buf + datagrams[i].at, datagrams[i].len);
        }
    }
    rtpw_packet_parse_many(buf, size, datagrams, count);
    for (size_t i = 0; i < count; i++) { rtpw_sanitizer_wrote_datagram(&datagrams[i]); }
}
#define rtpw_packet_parse_many rtpw_sanitized_packet_parse_many
static inline void rtpw_sanitized_parse_many(const uint8_t *buf, size_t size, const rtpw_map *map,
        rtpw_datagram_header *datagrams, size_t count) {
    RTPW_SANITIZER_ROOM(buf, size);
    RTPW_SANITIZER_ROOM(map, sizeof *map);
    RTPW_SANITIZER_ROOM(datagrams, count * sizeof *datagrams);
    for (size_t i = 0; i < count; i++) { rtpw_sanitizer_datagram_header(&datagrams[i]); }
    for (size_t i = 0; i < count; i++) {
        if (rtpw_sanitizer_has_datagram(buf, size, datagrams[i].at, datagrams[i].len)) {
            rtpw_sanitizer_packet_header(buf + datagrams[i].at, datagrams[i].len);
        }
    }
    if (count != 0) { rtpw_sanitizer_map(map); }
    rtpw_parse_many(buf, size, map, datagrams, count);
    for (size_t i = 0; i < count; i++) { rtpw_sanitizer_wrote_datagram_header(&datagrams[i]); }
}
#define rtpw_parse_many rtpw_sanitized_parse_many
static inline void rtpw_sanitized_receive_many(rtpw_receiver *receivers, size_t receiver_count,
        rtpw_arrival *arrivals, size_t count) {
    RTPW_SANITIZER_ROOM(receivers, receiver_count * sizeof *receivers);
    RTPW_SANITIZER_ROOM(arrivals, count * sizeof *arrivals);
    for (size_t i = 0; i < count; i++) { rtpw_sanitizer_arrival(&arrivals[i]); }
    for (size_t i = 0; i < count; i++) {
        if (arrivals[i].receiver < receiver_count) { rtpw_sanitizer_receiver(&receivers[arrivals[i].receiver]); }
    }
    rtpw_receive_many(receivers, receiver_count, arrivals, count);
    for (size_t i = 0; i < count; i++) { rtpw_sanitizer_wrote_arrival(&arrivals[i]); }
    for (size_t i = 0; i < count; i++) {
        if (arrivals[i].status == RTPW_OK) {
            rtpw_sanitizer_wrote(&receivers[arrivals[i].receiver], sizeof *receivers);
        }
    }
}
#define rtpw_receive_many rtpw_sanitized_receive_many
RTPW_CHECKED static inline int32_t rtpw_sanitized_make_template(const uint8_t *datagram, size_t len,
        const rtpw_new_ids *ids, const uint8_t *data, size_t data_len, const rtpw_element *elements, size_t count,
        uint8_t allowed, uint8_t *buf, size_t size, rtpw_template *made) {
    int32_t status;
    rtpw_sanitizer_packet_header(datagram, len);
    rtpw_sanitizer_new_ids(ids);
    RTPW_SANITIZER_ROOM(data, data_len);
    RTPW_SANITIZER_ROOM(elements, count * sizeof *elements);
    for (size_t i = 0; i < count; i++) { rtpw_sanitizer_element(&elements[i]); }
    RTPW_SANITIZER_ROOM(buf, size);
    RTPW_SANITIZER_ROOM(made, sizeof *made);
    for (size_t i = 0; i < count; i++) {
        rtpw_sanitizer_part(data, data_len, elements[i].data_at, elements[i].data_len);
    }
    status = rtpw_make_template(datagram, len, ids, data, data_len, elements, count, allowed, buf, size, made);
    if (status == RTPW_OK) { rtpw_sanitizer_wrote(made, sizeof *made); }
    rtpw_sanitizer_changed(buf, size); if (status == RTPW_OK) { rtpw_sanitizer_wrote(buf, made->header_len); }
    return status;
}
#define rtpw_make_template rtpw_sanitized_make_template
RTPW_CHECKED static inline int32_t rtpw_sanitized_prepare_group(const rtpw_new_ids *ids,
        const rtpw_element *elements, size_t count, uint8_t allowed, rtpw_group *group) {
    int32_t status;
    rtpw_sanitizer_new_ids(ids);
    RTPW_SANITIZER_ROOM(elements, count * sizeof *elements);
    for (size_t i = 0; i < count; i++) { rtpw_sanitizer_element_but_data_at(&elements[i]); }
    RTPW_SANITIZER_ROOM(group, sizeof *group);
    status = rtpw_prepare_group(ids, elements, count, allowed, group);
    if (status == RTPW_OK) { rtpw_sanitizer_wrote(group, sizeof *group); }
    return status;
}
#define rtpw_prepare_group rtpw_sanitized_prepare_group
RTPW_CHECKED static inline int32_t rtpw_sanitized_make_from_group(const rtpw_group *group, const uint8_t *datagram,
        size_t len, uint8_t *buf, size_t size, rtpw_template *made) {
    int32_t status;
    rtpw_sanitizer_group(group);
    rtpw_sanitizer_packet_header(datagram, len);
    RTPW_SANITIZER_ROOM(buf, size);
    RTPW_SANITIZER_ROOM(made, sizeof *made);
    status = rtpw_make_from_group(group, datagram, len, buf, size, made);
    if (status == RTPW_OK) { rtpw_sanitizer_wrote(made, sizeof *made); }
    rtpw_sanitizer_changed(buf, size); if (status == RTPW_OK) { rtpw_sanitizer_wrote(buf, made->header_len); }
    return status;
}
#define rtpw_make_from_group rtpw_sanitized_make_from_group
RTPW_CHECKED static inline int32_t rtpw_sanitized_write_headers(const rtpw_template *made, const uint8_t *header,
        size_t header_size, const uint8_t *data, size_t data_len, rtpw_routed_header *receivers, size_t count,
        uint8_t *buf, size_t size) {
    int32_t status;
    rtpw_sanitizer_template(made);
    RTPW_SANITIZER_ROOM(header, header_size);
    RTPW_SANITIZER_ROOM(buf, size);
    if (made->header_len <= header_size) { rtpw_sanitizer_reads(header, made->header_len); }
    RTPW_SANITIZER_ROOM(data, data_len);
    RTPW_SANITIZER_ROOM(receivers, count * sizeof *receivers);
    status = rtpw_write_headers(made, header, header_size, data, data_len, receivers, count, buf, size);
    if (status == RTPW_OK) { rtpw_sanitizer_routed(made, data, data_len, receivers, count, buf); }
    return status;
}
#define rtpw_write_headers rtpw_sanitized_write_headers
RTPW_CHECKED static inline int32_t rtpw_sanitized_read_fixed_part(const uint8_t *datagram, size_t len,
        rtpw_fixed_part *fixed, rtpw_layout *layout) {
    int32_t status;
    rtpw_sanitizer_packet_fields(datagram, len);
    RTPW_SANITIZER_ROOM(fixed, sizeof *fixed);
    RTPW_SANITIZER_ROOM(layout, sizeof *layout);
    status = rtpw_read_fixed_part(datagram, len, fixed, layout);
    if (status == RTPW_OK) { rtpw_sanitizer_wrote(fixed, sizeof *fixed); }
    if (status == RTPW_OK) { rtpw_sanitizer_wrote(layout, sizeof *layout); }
    return status;
}
#define rtpw_read_fixed_part rtpw_sanitized_read_fixed_part
RTPW_CHECKED static inline int32_t rtpw_sanitized_write_fixed_part(const rtpw_fixed_part *fixed, uint8_t *buf,
        size_t size) {
    int32_t status;
    rtpw_sanitizer_fixed_part_but_version_has_extension(fixed);
    RTPW_SANITIZER_ROOM(buf, size);
    status = rtpw_write_fixed_part(fixed, buf, size);
    if (status == RTPW_OK) { rtpw_sanitizer_wrote(buf, 12); }
    return status;
}
#define rtpw_write_fixed_part rtpw_sanitized_write_fixed_part
RTPW_CHECKED static inline int32_t rtpw_sanitized_write_data_elements(const rtpw_fixed_part *fixed,
        const rtpw_data_element *elements, size_t count, uint8_t form, uint8_t *buf, size_t size, size_t *len) {
    int32_t status;
    rtpw_sanitizer_fixed_part_but_version_has_extension(fixed);
    RTPW_SANITIZER_ROOM(elements, count * sizeof *elements);
    for (size_t i = 0; i < count; i++) { rtpw_sanitizer_data_element_but_own(&elements[i]); }
    RTPW_SANITIZER_ROOM(buf, size);
    RTPW_SANITIZER_ROOM(len, sizeof *len);
    status = rtpw_write_data_elements(fixed, elements, count, form, buf, size, len);
    if (status == RTPW_OK) { rtpw_sanitizer_wrote(len, sizeof *len); }
    if (status == RTPW_OK) { rtpw_sanitizer_wrote(buf, *len); }
    return status;
}
#define rtpw_write_data_elements rtpw_sanitized_write_data_elements

#undef RTPW_SANITIZER_ROOM
#undef RTPW_SANITIZER_ADDRESS
#undef RTPW_SANITIZER_MEMORY
#undef RTPW_SANITIZER_THREAD

#ifdef __cplusplus
#pragma GCC diagnostic pop
#endif

#endif
