/*
 * rtp_wire.h: RTP packets where they lie in memory (RFC 3550, 5.1; RFC 8285).
 *
 * The functions are those of the library rtp-wire, each proved: what is said here of results and
 * outputs holds for every input. Two things are written in C, and tested: rtpw_status_text, and the comparison that
 * stands in front of seven functions of elements and blocks, which refuses data that lie in the buffer.
 *
 * What a server takes first, each with when; the others stand below, by their subjects:
 *
 *     rtpw_map_set                  for each line a=extmap of a peer's SDP: what the id means, the kind that
 *     rtpw_kind_of_uri                its URI names
 *     rtpw_new_ids_between          for two peers: the ids that elements get on the way from one to the other
 *     rtpw_read                     for each datagram: its header and where its parts lie, or that it is RTCP
 *     rtpw_is_rtcp                    where RTCP is sorted out before: whether the datagram is that
 *     rtpw_next_element             for its elements one by one, also those that no value is of
 *     rtpw_wide_restarting_receive  where nothing is authenticated: its number, or that it came before or the
 *                                     sender has started again
 *     rtpw_receiver_start           with SRTP: for each SSRC, then for each of its packets
 *     rtpw_receiver_number_of         its number,
 *     rtpw_receiver_accepts           whether that is worth authenticating,
 *     rtpw_receiver_record            and that it is authentic
 *     rtpw_set_fields               for a packet that goes on to one peer, where it lies: its fields,
 *     rtpw_renumber                   its ids,
 *     rtpw_set_element                the data of an element,
 *     rtpw_remove_element             or an element less
 *     rtpw_put_element              and with room behind it: an element that it may not have
 *     rtpw_prepare_group            for all peers that a stream goes to, then for each packet
 *     rtpw_make_from_group            what they have in common,
 *     rtpw_write_headers              and the header for each
 *     rtpw_write                    for a header of one's own, with values
 *
 *     rtpw_map map = {{0}}; // what the ids of a peer mean
 *     if (rtpw_map_set(&map, 1, rtpw_kind_of_uri((const uint8_t *)uri, strlen(uri))) != RTPW_OK) {
 *         return unknown(uri); // it gets a kind of your own (rtpw_map)
 *     }
 *     rtpw_wide_restarting_receiver receiver = {0}; // of one SSRC, with a window of 64 * 16 numbers
 *     uint64_t words[16] = {0};
 *     ..
 *     rtpw_whole_packet packet;
 *     uint64_t number;
 *     int32_t status = rtpw_read(datagram, len, &map, &packet);
 *     if (status == RTPW_RTCP) { // which comes to the same port
 *         return control(datagram, len);
 *     }
 *     if (status != RTPW_OK || !packet.padding_fits) {
 *         return drop(datagram, len); // no packet, or padding longer than its payload
 *     }
 *     status = rtpw_wide_restarting_receive(&receiver, words, 16, packet.header.sequence_number, &number);
 *     if (status == RTPW_RESTARTED) {
 *         begin_anew(packet.header.ssrc); // and go on: the packet is taken
 *     } else if (status != RTPW_OK) {
 *         return drop(datagram, len); // it came before, is too old, or far from the stream
 *     }
 *     if (packet.header.values.has_audio_level) {
 *         show(packet.header.ssrc, packet.header.values.audio_level);
 *     }
 *     deliver(number, packet.header.timestamp, datagram + packet.header.header_len, packet.unpadded_len);
 *
 * Each function may be called with any values, and returns. It keeps no pointer, has no state of its
 * own and takes no memory but that of the stack. Calls on several threads at once are safe as long as
 * nothing that one of them writes is read or written by another. A program that is built with -fsanitize=thread is told
 * where that isn't so.
 *
 * The caller owes what C asks anyway, and marks of the parameters say (below):
 *   - a pointer is to as much memory as is said, and aligned for its type: NULL may stand only where its RTPW_COUNT is
 *     0 (that this is as a buffer of no bytes is tested, not proved);
 *   - what is written, RTPW_OUT or RTPW_INOUT, overlaps nothing else that is passed. Of data and a body that are
 *     RTPW_MAY_OVERLAP this is looked at: where one of their bytes lies in that buffer, as those of another element of
 *     the same packet do, the status is RTPW_BAD_FIELD and nothing is written. Copy such data first: an element has at
 *     most 255 bytes. Of structs, arrays of structs or numbers, and lengths it isn't looked at: they must not lie in a
 *     buffer, nor in one another.
 *
 * The number of a packet is its extended sequence number: the 16 bits that its header has, and above these how often
 * they rolled over. What an extension is for is its kind, and a struct is found in an array by its place, from 0 on.
 *
 * A buffer is a pointer and then its size in bytes. Integers are in the byte order of the machine: what stands in a
 * packet in network byte order is turned. Outputs are written whole where the status is RTPW_OK, and else not at all,
 * unless they are RTPW_WRITTEN_IF others; what rtpw_make_template and rtpw_make_from_group leave in their buffer then
 * may be anything. The calls for many at once return nothing, and write a status beside each; so does
 * rtpw_write_headers, which returns one too.
 *
 * Where a call has several faults, the status is that of the first of these:
 *   1. an argument is out of its range whatever the buffers hold, or data lie in the buffer: RTPW_BAD_FIELD, and from
 *      the functions that say so RTPW_BAD_ID or RTPW_LONG_BLOCK;
 *   2. the buffer holds no packet, or the form of its block has to be known and isn't: one of the causes 1 to 6;
 *   3. what is named isn't there, or the packet or an element doesn't allow it: RTPW_NONE, or RTPW_BAD_FIELD, and from
 *      the functions that say so RTPW_LONG_ID, RTPW_FORM_NOT_ALLOWED or RTPW_LONG_BLOCK;
 *   4. there is no room: RTPW_SHORT_BUFFER.
 * rtpw_make_template stands for several calls, one after another: there the first of these that refuses tells its own.
 * rtpw_read and rtpw_read_many tell RTCP before 2: RTPW_RTCP.
 */
#ifndef RTPW_H
#define RTPW_H

#include <stdbool.h>
#include <stddef.h>
#include <stdint.h>

/* The module for WebAssembly takes memories of 32 bits by a call of its own for each of these. */
#if defined(SIZE_MAX) && SIZE_MAX < 0xFFFFFFFFFFFFFFFF && !defined(__wasm__)
#error "rtp_wire.h is for systems of 64 bits: in the proofs a size has 64 bits, and the library has no text for others"
#endif

#ifdef __cplusplus
extern "C" {
#endif

/* Before a function whose status has to be looked at; empty where the compiler has no word for that. */
#if defined(__cplusplus) && __cplusplus >= 201703L
#define RTPW_CHECKED [[nodiscard]]
#elif defined(__STDC_VERSION__) && __STDC_VERSION__ >= 202311L
#define RTPW_CHECKED [[nodiscard]]
#elif defined(__GNUC__)
#define RTPW_CHECKED __attribute__((warn_unused_result))
#else
#define RTPW_CHECKED
#endif

/* Marks, which are empty for a compiler. What reads this file as a description gives them a meaning: the tables of the
 * packages for other languages are made from it. A pointer to const is to what is read, and any other has one of the
 * first two marks; it is to one thing where no count is marked.
 *
 *     RTPW_OUT                 it is written where the status is RTPW_OK, or where there is none; what it held isn't
 *                              looked at. Of a buffer with a size the first *len bytes are, where `len` is marked too
 *     RTPW_INOUT               it is read, and written likewise
 *     RTPW_COUNT(count)        it is to so many: NULL is allowed where they are 0
 *     RTPW_MAY_OVERLAP(buffer) it may lie in this buffer, and then the status is RTPW_BAD_FIELD
 *     RTPW_WRITTEN_IF(..)      it is written at these statuses, and not at RTPW_OK alone; RTPW_ANY_STATUS is each
 *     RTPW_TELLS(fields..)     of a field: these others of the struct are looked at only where it isn't 0, as the field
 *                              `x` is beside one that is named `has_x`
 *     RTPW_RANGE(low, high)    of a field: what is written, and what is taken where it is looked at
 *     RTPW_PACKET(parts..)     it holds a packet, of which these are read: header_len, how long its header is, as
 *                              always; `fields`, the fixed part, the first four bytes of the block and the length of
 *                              the padding; `header`, all of it; `whole`, that and the length of the padding; `block`,
 *                              the elements, which are what is written then; `padding`, its length; `number`, the two
 *                              bytes that the payload begins with
 *     RTPW_PART(at, size)      of it only these bytes are read, and of a packet and of what is written only these are
 *                              written; of a field that is an array: they alone are looked at
 *     RTPW_READ_IF(condition)  its bytes are read only where this holds
 *     RTPW_EACH(structs)       only what these structs name is looked at: of a buffer the `len` bytes at `at` that each
 *                              of them says, or the `data_len` bytes at `data_at`; of an array, as `receivers`, the one
 *                              whose index each has in a field, as `receiver`, and that is written where the status
 *                              beside the index is RTPW_OK
 *     RTPW_BUT(fields..)       of structs: all but these fields are looked at
 *     RTPW_KIND(uri, ..)       the URI of a kind of extension in SDP, and each field of rtpw_values that is of it
 *
 * RTPW_COUNT of an array in a struct: only so many of it are looked at. RTPW_OUT of a field: it is written, at the
 * status beside it that is RTPW_OK or by RTPW_WRITTEN_IF, and needs no value where the struct is read. */
#ifndef RTPW_OUT
#define RTPW_OUT
#define RTPW_INOUT
#define RTPW_COUNT(count)
#define RTPW_MAY_OVERLAP(buffer)
#define RTPW_WRITTEN_IF(...)
#define RTPW_TELLS(...)
#define RTPW_RANGE(low, high)
#define RTPW_KIND(...)
#define RTPW_PACKET(...)
#define RTPW_PART(at, size)
#define RTPW_READ_IF(condition)
#define RTPW_EACH(structs)
#define RTPW_BUT(...)
#endif

/* The version of this header file: as text, and as the number that rtpw_version returns of its library. One that ends
 * in -dev is no release, and has the number of the release that it becomes. */
#define RTPW_VERSION "1.1.0-dev"
#define RTPW_VERSION_NUMBER 65792

/* The version of the library that is linked: 65,536 times its major number, 256 times the minor one, and the patch. A
 * program that loads a shared library tells by it that this is no older than its header file. */
uint32_t rtpw_version(void);

/* ---- Statuses ---- */

/* What a function returns as an int32_t. Those from 1 to 6 are the causes for which bytes are no RTP packet, in
 * the order in which they are looked for: the first that applies is returned. RTPW_UNKNOWN_FORM is one for rtpw_parse,
 * rtpw_parse_layers and rtpw_parse_many alone, which have to know the form; rtpw_put_element, rtpw_add_element,
 * rtpw_change_form and rtpw_make_template return it after the others, for a packet whose block has another form. */
enum {
    RTPW_OK = 0,                /* the call did what it is for */
    RTPW_CUT_FIXED_PART = 1,    /* fewer than the twelve bytes that every header has */
    RTPW_OTHER_VERSION = 2,     /* another version than 2 */
    RTPW_CUT_SOURCES = 3,       /* the CSRC list is cut short */
    RTPW_CUT_BLOCK_HEADER = 4,  /* X is set, and the first four bytes of the block are cut short */
    RTPW_UNKNOWN_FORM = 5,      /* the block's form is neither 0xBEDE nor 0x1000 to 0x100F */
    RTPW_CUT_BLOCK = 6,         /* the block is longer than what is left */
    RTPW_SHORT_BUFFER = 8,      /* a buffer is too short */
    RTPW_BAD_FIELD = 9,         /* an argument is out of its range, or data are none of the value that is read */
    RTPW_REFUSED = 10,          /* a replay, or too old to tell */
    RTPW_NONE = 11,             /* there is no such element */
    RTPW_RESTARTED = 12,        /* a packet is taken, as with RTPW_OK, and is the first one after its sender has started
                                 * again: whoever drops what isn't RTPW_OK drops it */
    RTPW_BAD_ID = 13,           /* the id is 0, which is padding's */
    RTPW_FORM_NOT_ALLOWED = 14, /* the block has, or an element needs, a form that isn't allowed */
    RTPW_LONG_BLOCK = 15,       /* the block would have more than 65,535 words */
    RTPW_LONG_ID = 16,          /* an id is above 14, which the one-byte form can't carry */
    RTPW_RTCP = 17              /* the datagram is RTCP, and no packet of RTP: rtpw_read and rtpw_read_many tell it, and
                                 * who answers it gets it */
};

/* What a status says, in words. */
static inline const char *rtpw_status_text(int32_t status) {
    switch (status) {
    case RTPW_OK: return "done";
    case RTPW_CUT_FIXED_PART: return "fewer than twelve bytes";
    case RTPW_OTHER_VERSION: return "another version than 2";
    case RTPW_CUT_SOURCES: return "the CSRC list is cut short";
    case RTPW_CUT_BLOCK_HEADER: return "the header of the extension block is cut short";
    case RTPW_UNKNOWN_FORM: return "a header extension of an unknown form";
    case RTPW_CUT_BLOCK: return "the extension block is cut short";
    case RTPW_SHORT_BUFFER: return "a buffer is too short";
    case RTPW_BAD_FIELD: return "an argument is out of its range";
    case RTPW_REFUSED: return "a replay, or too old to tell";
    case RTPW_NONE: return "no such element";
    case RTPW_RESTARTED: return "taken, and the sender has started again";
    case RTPW_BAD_ID: return "the id 0, which no element has";
    case RTPW_FORM_NOT_ALLOWED: return "a form of the extension block that isn't allowed";
    case RTPW_LONG_BLOCK: return "an extension block of more than 65,535 words";
    case RTPW_LONG_ID: return "an id above 14, which the one-byte form can't carry";
    case RTPW_RTCP: return "a packet of RTCP";
    default: return "no status of this library";
    }
}

/* ---- A packet where it lies ---- */

enum {
    RTPW_NO_BLOCK = 0,      /* X is clear */
    RTPW_ONE_BYTE_FORM = 1, /* 0xBEDE */
    RTPW_TWO_BYTE_FORM = 2, /* 0x1000 to 0x100F */
    RTPW_OTHER_FORM = 3     /* any other 16 bits, as ONVIF's 0xABAC, and 0xC0DE and 0xC2DE of Cryptex (RFC 9335) */
};

/* Where the CSRC list begins in each packet: four bytes for each source, the high one first. */
#define RTPW_CSRC_AT 12

/* What the header says, and where the parts of the packet lie, in bytes from the packet's first one.
 * 64 bytes. */
typedef struct {
    size_t payload_at;   /* where the payload begins: the length of the header, 12 to 262,216 */
    size_t payload_len;  /* of the payload with any padding: payload_at + payload_len is the packet's length */
    size_t unpadded_len; /* of the payload without its padding (with SRTP decrypt first); 0 where padding_fits is 0 */
    size_t body_at;     /* where the body of the extension block begins, after the four bytes of its header; without one
                           payload_at */
    size_t body_len;    /* of the body, which ends where the payload begins; 0 without a block */
    uint32_t timestamp; /* in ticks of the payload's clock */
    uint32_t ssrc;      /* the stream's source */
    uint16_t sequence_number; /* the low 16 bits of the packet's number */
    uint8_t payload_type;     /* 0 to 127 */
    uint8_t csrc_count;       /* 0 to 15 */
    uint8_t marker;           /* M: 0 or 1 */
    uint8_t has_padding;      /* P: 0 or 1 */
    uint8_t padding_fits; /* 0 where P is set and the payload's last byte counts more bytes than there are, and else 1:
                           * a last byte of 0 takes nothing away, and neither does P of an empty payload */
    uint8_t block_form; /* RTPW_ONE_BYTE_FORM, RTPW_TWO_BYTE_FORM or RTPW_OTHER_FORM; RTPW_NO_BLOCK where X is clear */
    uint16_t block_profile; /* the 16 bits that the block begins with; 0 without one */
} rtpw_packet;

/* Whether a datagram on a port that RTP and RTCP share is RTCP (RFC 5761, 4): it has version 2, and its
 * second byte, the RTCP packet type, is 192 to 223. It comes before rtpw_packet_parse and rtpw_parse, which
 * would take a receiver report for RTP: as RTP that byte is M and a payload type of 64 to 95, which a stream
 * on such a port must not have; rtpw_read looks itself. False of fewer than two bytes; no other byte is looked at, and
 * two or three are enough, though no RTCP packet has fewer than four. */
bool rtpw_is_rtcp(RTPW_COUNT(len) RTPW_PART(0, 2) RTPW_READ_IF(len >= 2) const uint8_t *datagram, size_t len);

/* Reads the header of the packet in the buffer, for who looks at none of its values: rtpw_read tells these and RTCP
 * too. RTPW_OK, or the first cause for which it holds none. A block of another form than the two has a body, and no
 * elements: none are found in it, and none can be put into it. With Cryptex decrypt first: the contributing sources are
 * encrypted too. */
RTPW_CHECKED int32_t rtpw_packet_parse(RTPW_COUNT(len) RTPW_PACKET(fields) const uint8_t *datagram, size_t len,
                                       RTPW_OUT rtpw_packet *packet);

/* ---- A packet, changed where it lies ---- */

/* Each changes the part of the packet in the buffer that it names, and no other byte. RTPW_OK, or the
 * first cause for which the buffer holds no packet; rtpw_set_payload_type and rtpw_set_fields also
 * RTPW_BAD_FIELD, before all else, where the payload type is above 127. Where it isn't RTPW_OK nothing changes.
 *
 * The header alone is enough for each of them (rtpw_remove_padding aside) and for rtpw_renumber: its payload_at bytes
 * are a packet without a payload, and what they become is, with the payload behind it, what the whole packet would
 * become. So a server copies and changes only the header for each receiver, and sends it before the one payload
 * (writev). Several fields are set together by rtpw_set_fields, and several headers are written together by
 * rtpw_write_headers. */
RTPW_CHECKED int32_t rtpw_set_marker(RTPW_INOUT RTPW_COUNT(len) RTPW_PACKET(header_len) uint8_t *datagram, size_t len,
                                     bool marker);
RTPW_CHECKED int32_t rtpw_set_payload_type(RTPW_INOUT RTPW_COUNT(len) RTPW_PACKET(header_len) uint8_t *datagram,
                                           size_t len, uint8_t payload_type);
RTPW_CHECKED int32_t rtpw_set_sequence_number(RTPW_INOUT RTPW_COUNT(len) RTPW_PACKET(header_len) RTPW_PART(2, 2)
                                                  uint8_t *datagram, size_t len, uint16_t number);
RTPW_CHECKED int32_t rtpw_set_timestamp(RTPW_INOUT RTPW_COUNT(len) RTPW_PACKET(header_len) RTPW_PART(4, 4)
                                            uint8_t *datagram, size_t len, uint32_t timestamp);
RTPW_CHECKED int32_t rtpw_set_ssrc(RTPW_INOUT RTPW_COUNT(len) RTPW_PACKET(header_len) RTPW_PART(8, 4) uint8_t *datagram,
                                   size_t len, uint32_t ssrc);

/* Fields to be set together: each where its has_ isn't 0, and what stands beside one that is 0 isn't
 * looked at. 20 bytes. */
typedef struct {
    uint32_t timestamp;
    uint32_t ssrc;
    uint16_t sequence_number;
    RTPW_RANGE(0, 127)
    uint8_t payload_type;
    uint8_t marker; /* M counts as set where it isn't 0 */
    uint8_t has_timestamp;
    uint8_t has_ssrc;
    uint8_t has_sequence_number;
    uint8_t has_payload_type;
    uint8_t has_marker;
} rtpw_fields;

/* Sets all of them after one look at the packet. RTPW_BAD_FIELD where there is a payload
 * type above 127.
 *
 *     rtpw_fields fields = {0};
 *     fields.has_sequence_number = fields.has_ssrc = 1;
 *     fields.sequence_number = route->next++;
 *     fields.ssrc = route->ssrc;
 *     int32_t status = rtpw_set_fields(datagram, len, &fields);
 */
RTPW_CHECKED int32_t rtpw_set_fields(RTPW_INOUT RTPW_COUNT(len) RTPW_PACKET(header_len) uint8_t *datagram, size_t len,
                                     const rtpw_fields *fields);

/* The contributing source at this place, counted from 0, as where a mixer's sources get other SSRCs. RTPW_NONE where
 * the list has no such place. */
RTPW_CHECKED int32_t rtpw_set_csrc(RTPW_INOUT RTPW_COUNT(len) RTPW_PACKET(header_len)
                                       RTPW_PART(RTPW_CSRC_AT + 4 * index, 4) uint8_t *datagram, size_t len,
                                   size_t index, uint32_t source);

/* Gives the last element of this id these data. RTPW_BAD_FIELD, before all else, where one of them lies in the
 * datagram; RTPW_NONE where the packet has no element of the id, or its last one has another number of bytes. Where
 * rtpw_id_of returned 0 don't call it: padding of the one-byte form that has length bits (RFC 8285, 4.2) is told,
 * found, set and removed as an element of the id 0, though none is put or written. */
RTPW_CHECKED int32_t rtpw_set_element(RTPW_INOUT RTPW_COUNT(len) RTPW_PACKET(block) uint8_t *datagram, size_t len,
                                      uint8_t id, RTPW_COUNT(data_len) RTPW_MAY_OVERLAP(datagram) const uint8_t *data,
                                      size_t data_len);
/* Makes each element of this id padding. RTPW_NONE where the packet has none. */
RTPW_CHECKED int32_t rtpw_remove_element(RTPW_INOUT RTPW_COUNT(len) RTPW_PACKET(block) uint8_t *datagram, size_t len,
                                         uint8_t id);

/* Sets or clears P, and no other bit: the padding is the caller's to write (rtpw_pad), or to keep. */
RTPW_CHECKED int32_t rtpw_set_padding(RTPW_INOUT RTPW_COUNT(len) RTPW_PACKET(header_len) RTPW_PART(0, 1)
                                          uint8_t *datagram, size_t len, bool has_padding);
/* Takes the padding off: clears P, and writes how many bytes the packet then has, which are its first ones;
 * where P is clear, all of them. RTPW_BAD_FIELD where padding_fits is 0. With SRTP decrypt first. */
RTPW_CHECKED int32_t rtpw_remove_padding(RTPW_INOUT RTPW_COUNT(len) RTPW_PACKET(padding) RTPW_PART(0, 1)
                                             uint8_t *datagram, size_t len, RTPW_OUT size_t *new_len);

/* ---- A packet that grows where it lies, and one that is made short ---- */

/* Each takes a buffer of `size` bytes, at whose front a packet of *len bytes lies, and writes its new length
 * there. A header alone is enough, as above. Where the status isn't RTPW_OK nothing changes. */

/* Where it is said which forms are allowed: both. */
enum { RTPW_ANY_FORM = 0 };

/* Puts an element, of an id from 1 on with at most 255 bytes of data, into the packet: it then has exactly one
 * of this id, in place of the last one of the id or as the last of all. The other elements stay, in order,
 * and all other parts too, as do the low four bits of a profile 0x1000 to 0x100F (a block that gets the two-byte form
 * here has 0x1000); without a block the packet gets one. Where the element is the only one of its id and has as
 * many bytes, no element has the id 0, and the block keeps its form, only these bytes change. Else the block is made
 * anew: its padding is used up, and then the payload moves by whole words; a body never becomes shorter (rtpw_compact).
 * What is made anew has no element of the id 0, which is padding's: behind one of the one-byte form with length bits a
 * receiver that follows RFC 8285, 4.2, reads nothing. What stands where reading ends, an element that is cut short or
 * what follows the id 15, is no element, and goes too. What lies behind the packet's new end stays.
 *
 * A one-byte block that can't carry the element becomes a two-byte one, where the forms that are allowed let
 * it: RTPW_ANY_FORM; RTPW_ONE_BYTE_FORM alone, as for a peer that hasn't agreed to both in one stream (RFC 8285,
 * 4.1.2), which refuses each packet whose block has the two-byte form, whatever stands there; or RTPW_TWO_BYTE_FORM
 * alone, which the block then gets, also where the element would only change.
 *
 *     uint8_t bytes[1500];
 *     memcpy(bytes, datagram, len);
 *     int32_t status = rtpw_put_element(bytes, sizeof bytes, &len, id, mid, strlen(mid), RTPW_ANY_FORM);
 *
 * RTPW_OK; RTPW_BAD_FIELD, before all else, where one of the data lies in the `size` bytes of the buffer, as those of
 * another element of the packet do: copy them first; or where `allowed` is none of the three, or *len is past the
 * buffer; RTPW_BAD_ID where the id is 0; RTPW_BAD_FIELD where there are more than 255 bytes of data; the first cause
 * for which the bytes are no packet; RTPW_UNKNOWN_FORM where the block is of RTPW_OTHER_FORM; RTPW_LONG_ID where the id
 * is above 14 and RTPW_ONE_BYTE_FORM alone is allowed, whatever the block and the data are; RTPW_FORM_NOT_ALLOWED where
 * else it has or needs a form that isn't allowed (RTPW_ONE_BYTE_FORM alone: it has RTPW_TWO_BYTE_FORM, or the element
 * has no data or more than 16 bytes of them); RTPW_LONG_BLOCK where it would have more than 65,535 words;
 * RTPW_SHORT_BUFFER. */
RTPW_CHECKED int32_t rtpw_put_element(RTPW_INOUT RTPW_COUNT(size) RTPW_PACKET(block) uint8_t *buf, size_t size,
                                      RTPW_INOUT size_t *len, uint8_t id,
                                      RTPW_COUNT(data_len) RTPW_MAY_OVERLAP(buf) const uint8_t *data, size_t data_len,
                                      uint8_t allowed);

/* Puts an element behind all others, and those of its id stay: an id may have several, of which the last one counts
 * (rtpw_last_element). The id, the data, the forms that are allowed, the form that the block gets, the room that is
 * used and the statuses are as for rtpw_put_element. The block is always made anew: elements of the id 0, which is
 * padding's, go, and so does what stands where reading ends.
 *
 *     uint8_t bytes[21] = {0x90, 96, 0, 5, 0, 0, 0, 100, 0, 0, 0, 44, 0xBE, 0xDE, 0, 1, 0x10, 0xAA, 0, 0, 1};
 *     uint8_t second = 0xBB;
 *     size_t len = sizeof bytes;
 *     int32_t status = rtpw_add_element(bytes, sizeof bytes, &len, 1, &second, 1, RTPW_ANY_FORM);
 *     // the body of the block is 10 AA 10 BB
 */
RTPW_CHECKED int32_t rtpw_add_element(RTPW_INOUT RTPW_COUNT(size) RTPW_PACKET(block) uint8_t *buf, size_t size,
                                      RTPW_INOUT size_t *len, uint8_t id,
                                      RTPW_COUNT(data_len) RTPW_MAY_OVERLAP(buf) const uint8_t *data, size_t data_len,
                                      uint8_t allowed);

/* Makes the packet as short as its elements allow: these stand in a row, without those of the id 0, which is padding's,
 * the body is filled up to whole words, and the payload moves to the front; what stands where reading ends goes. So
 * rtpw_remove_element and then this gives bytes back; what is then behind the packet, up to its old end, may be
 * anything. A block without elements becomes one of no words, and X stays set; a block of RTPW_OTHER_FORM stays as it
 * is. RTPW_OK; RTPW_BAD_FIELD where *len is past the buffer; or the first cause for which the bytes are no packet. */
RTPW_CHECKED int32_t rtpw_compact(RTPW_INOUT RTPW_COUNT(size) RTPW_PACKET(block) uint8_t *buf, size_t size,
                                  RTPW_INOUT size_t *len);

/* Makes a block of the other form one of this form, RTPW_ONE_BYTE_FORM or RTPW_TWO_BYTE_FORM. Its elements stay, in
 * order, and all other parts of the packet too; the payload moves where the body has to grow, and a body never becomes
 * shorter (rtpw_compact). Elements of the id 0, which is padding's, go, and so does what stands where reading ends; the
 * low four bits of the new profile 0x1000 are 0. A block that has the form, and a packet without a block, stay as
 * they are. What lies behind the packet's new end stays. In the two-byte form elements may have ids above 14, as new
 * ones by rtpw_renumber, no data, and more than 16 bytes:
 *
 *     int32_t status = rtpw_change_form(bytes, sizeof bytes, &len, RTPW_TWO_BYTE_FORM);
 *     if (status == RTPW_OK) {
 *         status = rtpw_renumber(bytes, len, &ids);
 *     }
 *
 * RTPW_OK; RTPW_BAD_FIELD, before all else, where the form is none of the two, or *len is past the buffer; the first
 * cause for which the bytes are no packet; RTPW_UNKNOWN_FORM where the block is of RTPW_OTHER_FORM; RTPW_LONG_ID where
 * an element has an id above 14, which the one-byte form can't carry; RTPW_FORM_NOT_ALLOWED where none has, and one has
 * no data or more than 16 bytes of them, which it can't either; RTPW_LONG_BLOCK where the block would have more than
 * 65,535 words; RTPW_SHORT_BUFFER. */
RTPW_CHECKED int32_t rtpw_change_form(RTPW_INOUT RTPW_COUNT(size) RTPW_PACKET(block) uint8_t *buf, size_t size,
                                      RTPW_INOUT size_t *len, uint8_t form);

/* Takes the block off, of whatever form, and clears X: the payload moves to the end of the CSRC list. Without a block
 * nothing changes. What lies behind the packet's new end stays. So the block of no words goes that rtpw_remove_element
 * and rtpw_compact leave:
 *
 *     int32_t status = rtpw_packet_parse(bytes, len, &packet);
 *     if (status == RTPW_OK && packet.body_len == 0 && packet.block_form != RTPW_OTHER_FORM) { // not that of Cryptex
 *         status = rtpw_remove_block(bytes, sizeof bytes, &len);
 *     }
 *
 * RTPW_OK; RTPW_BAD_FIELD where *len is past the buffer; or the first cause for which the bytes are no packet. */
RTPW_CHECKED int32_t rtpw_remove_block(RTPW_INOUT RTPW_COUNT(size) RTPW_PACKET(header_len) uint8_t *buf, size_t size,
                                       RTPW_INOUT size_t *len);

/* Gives the packet a block that begins with these 16 bits, which a profile defines (RFC 3550, 5.3.1), and has this
 * body, in place of the block that is there: X is set, and the payload moves. What the body holds isn't looked at: of
 * 0xBEDE and 0x1000 to 0x100F it is read as elements. What lies behind the packet's new end stays.
 *
 *     const uint8_t body[12] = {0}; // of ONVIF: an NTP time, flags, a number, and the rest of the last word
 *     int32_t status = rtpw_put_block(bytes, sizeof bytes, &len, 0xABAC, body, sizeof body);
 *
 * RTPW_OK; RTPW_BAD_FIELD, before all else, where a byte of the body lies in the `size` bytes of the buffer, *len is
 * past the buffer, or the body is no whole number of words of four bytes; RTPW_LONG_BLOCK where it has more than 65,535
 * words; the first cause for which the bytes are no packet; RTPW_SHORT_BUFFER. */
RTPW_CHECKED int32_t rtpw_put_block(RTPW_INOUT RTPW_COUNT(size) RTPW_PACKET(header_len) uint8_t *buf, size_t size,
                                    RTPW_INOUT size_t *len, uint16_t profile,
                                    RTPW_COUNT(body_len) RTPW_MAY_OVERLAP(buf) const uint8_t *body, size_t body_len);

/* ---- The elements of a block ---- */

/* Where an element lies, in bytes from the first one of the block's body. 32 bytes. */
typedef struct {
    size_t data_at;  /* where its data begin */
    size_t data_len; /* 0 to 255 */
    RTPW_OUT
    size_t end;      /* where its data end */
    uint8_t id;      /* 0 to 14 in the one-byte form, where 0 is padding's with length bits; 1 to 255 in the other */
} rtpw_element;

/* The first element from an offset on. RTPW_OK; RTPW_NONE where reading ends before an element;
 * RTPW_BAD_FIELD where the form is none of the two, or the offset is past the body's end.
 *
 *     const uint8_t *body = datagram + packet.body_at;
 *     rtpw_element element = {0};
 *     while (rtpw_next_element(body, packet.body_len, packet.block_form, element.end, &element) == RTPW_OK) {
 *         look(element.id, body + element.data_at, element.data_len);
 *     }
 */
RTPW_CHECKED int32_t rtpw_next_element(RTPW_COUNT(body_len) const uint8_t *body, size_t body_len, uint8_t form,
                                       size_t at, RTPW_OUT rtpw_element *element);
/* The elements from an offset on, in order, as rtpw_next_element tells them one by one: as many as there is room for,
 * in one call where all of them are wanted. Returns how many they are. Where there is room for more, reading ends
 * behind them; else it goes on at the `end` of the last one. There are none where the form is none of the two, or the
 * offset is past the body's end. What is behind them stays.
 *
 *     rtpw_element elements[16];
 *     size_t count = rtpw_next_elements(body, packet.body_len, packet.block_form, 0, elements, 16);
 */
size_t rtpw_next_elements(RTPW_COUNT(body_len) const uint8_t *body, size_t body_len, uint8_t form, size_t at,
                          RTPW_OUT RTPW_COUNT(count) rtpw_element *elements, size_t count);
/* The last element of an id, which is the one that counts. RTPW_OK; RTPW_NONE where no element has the
 * id; RTPW_BAD_FIELD where the form is none of the two. */
RTPW_CHECKED int32_t rtpw_last_element(RTPW_COUNT(body_len) const uint8_t *body, size_t body_len, uint8_t form,
                                       uint8_t id, RTPW_OUT rtpw_element *element);

/* ---- The values of a block ---- */

/* The kinds of extension of this library, and from RTPW_KIND_OWN to 255 those of your own. Those to 15 have a field
 * of rtpw_values, but for the color space. Those from 16 to 20, and your own, have none: their elements are read and
 * written by their data, of 16 to 20 by the calls that are named here, and go from one map to another
 * (rtpw_new_ids_between). Beside each its URI in SDP. */
enum {
    RTPW_KIND_NONE = 0,
    RTPW_KIND_ABS_SEND_TIME = 1 RTPW_KIND("http://www.webrtc.org/experiments/rtp-hdrext/abs-send-time", send_time),
    RTPW_KIND_ABS_CAPTURE_TIME = 2
        RTPW_KIND("http://www.webrtc.org/experiments/rtp-hdrext/abs-capture-time", capture_time, capture_offset),
    RTPW_KIND_AUDIO_LEVEL = 3 /* RFC 6464 */
        RTPW_KIND("urn:ietf:params:rtp-hdrext:ssrc-audio-level", audio_level, voice_activity),
    RTPW_KIND_TRANSMISSION_OFFSET = 4 /* RFC 5450 */
        RTPW_KIND("urn:ietf:params:rtp-hdrext:toffset", transmission_offset),
    RTPW_KIND_VIDEO_ORIENTATION = 5 /* 3GPP TS 26.114 */
        RTPW_KIND("urn:3gpp:video-orientation", video_orientation),
    RTPW_KIND_TRANSPORT_NUMBER = 6
        RTPW_KIND("http://www.ietf.org/id/draft-holmer-rmcat-transport-wide-cc-extensions-01", transport_number),
    RTPW_KIND_PLAYOUT_DELAY = 7
        RTPW_KIND("http://www.webrtc.org/experiments/rtp-hdrext/playout-delay", playout_delay_min, playout_delay_max),
    RTPW_KIND_VIDEO_CONTENT_TYPE = 8
        RTPW_KIND("http://www.webrtc.org/experiments/rtp-hdrext/video-content-type", video_content_type),
    RTPW_KIND_VIDEO_TIMING = 9 RTPW_KIND("http://www.webrtc.org/experiments/rtp-hdrext/video-timing", video_timing),
    RTPW_KIND_RID = 10 RTPW_KIND("urn:ietf:params:rtp-hdrext:sdes:rtp-stream-id", rid), /* RFC 8852 */
    RTPW_KIND_REPAIRED_RID = 11 /* RFC 8852 */
        RTPW_KIND("urn:ietf:params:rtp-hdrext:sdes:repaired-rtp-stream-id", repaired_rid),
    RTPW_KIND_MID = 12 RTPW_KIND("urn:ietf:params:rtp-hdrext:sdes:mid", mid), /* RFC 9143 */
    RTPW_KIND_FRAME_MARKING = 13 /* the draft's, of four bytes; that of RFC 9626, of one to three, is
                                  * urn:ietf:params:rtp-hdrext:framemarking, which is no kind here: give it one of
                                  * yours, and take rtpw_read_frame_marking */
        RTPW_KIND("http://tools.ietf.org/html/draft-ietf-avtext-framemarking-07", frame_marking),
    RTPW_KIND_COLOR_SPACE = 14 RTPW_KIND("http://www.webrtc.org/experiments/rtp-hdrext/color-space"),
    RTPW_KIND_LAYERS = 15 RTPW_KIND("http://www.webrtc.org/experiments/rtp-hdrext/video-layers-allocation00", layers),
    RTPW_KIND_MIXER_LEVELS = 16 /* of the contributing sources (RFC 6465): rtpw_read_mixer_level */
        RTPW_KIND("urn:ietf:params:rtp-hdrext:csrc-audio-level"),
    RTPW_KIND_TRANSPORT_NUMBER_2 = 17 /* with what feedback it asks for: rtpw_read_transport_number */
        RTPW_KIND("http://www.webrtc.org/experiments/rtp-hdrext/transport-wide-cc-02"),
    RTPW_KIND_DEPENDENCY_DESCRIPTOR = 18 /* of AV1: rtpw_read_dependency_descriptor */
        RTPW_KIND("https://aomediacodec.github.io/av1-rtp-spec/#dependency-descriptor-rtp-header-extension"),
    RTPW_KIND_NTP_64 = 19 RTPW_KIND("urn:ietf:params:rtp-hdrext:ntp-64"), /* RFC 6051: rtpw_read_ntp_64 */
    RTPW_KIND_NTP_56 = 20 RTPW_KIND("urn:ietf:params:rtp-hdrext:ntp-56"), /* RFC 6051: rtpw_read_ntp_56 */
    RTPW_KIND_OWN = 128
};

/* kind[id] is the kind that the id means; one from 21 to 127 means none, and kind[0] isn't looked at.
 * What reads and writes values passes over the ids of kinds without a field as over those that mean none. It may be
 * filled by hand, copied, stored, and shared as static const:
 *
 *     rtpw_map map = {{0}};
 *     map.kind[3] = RTPW_KIND_AUDIO_LEVEL;
 *
 * Or from the lines of an SDP, `a=extmap:ID URI` (RFC 8285, 5 and 6). A URI that this library doesn't know gets a kind
 * of yours, the same in the maps of all peers of a call: so its elements go on from one to the other. Without a kind
 * they become padding (rtpw_renumber), though both peers agreed on them. Where a URI may stand several times, as
 * urn:ietf:params:rtp-hdrext:encrypt before the one that it encrypts (RFC 6904) or one with attributes, let `uri` be
 * all that stands behind the id: else both ids mean one kind, and rtpw_new_ids_between makes one of them. `uris` is
 * kept for the call:
 *
 *     uint8_t kind = rtpw_kind_of_uri((const uint8_t *)uri, strlen(uri));
 *     for (int own = RTPW_KIND_OWN; kind == RTPW_KIND_NONE && own < 256; own++) {
 *         if (uris[own] == NULL) {
 *             uris[own] = strdup(uri); // of POSIX and C23
 *         }
 *         if (uris[own] != NULL && strcmp(uris[own], uri) == 0) {
 *             kind = (uint8_t)own;
 *         }
 *     }
 *     if (rtpw_map_set(&map, id, kind) != RTPW_OK) {
 *         return refuse(id); // an id that is none, or more than 128 URIs that aren't known
 *     }
 */
typedef struct {
    RTPW_PART(1, 255)
    uint8_t kind[256];
} rtpw_map;

/* The kind whose URI these bytes are, letter for letter, 1 to 20; RTPW_KIND_NONE where it is that of none, as for
 * those of your own kinds, and where it is misspelled. The URI is the bytes alone, without a zero behind them. */
uint8_t rtpw_kind_of_uri(RTPW_COUNT(len) const uint8_t *uri, size_t len);
/* Writes the URI that names the kind in SDP, as an answer says it, to the front of the buffer: at most 87 bytes
 * (RTPW_URI_SIZE, which a minor version may raise), and no zero behind them. RTPW_OK, and *len is how many; RTPW_NONE
 * where it is no kind of this library, as RTPW_KIND_NONE and those of your own; RTPW_SHORT_BUFFER.
 *
 *     uint8_t uri[RTPW_URI_SIZE];
 *     size_t uri_len;
 *     if (rtpw_uri_of_kind(kind, uri, sizeof uri, &uri_len) == RTPW_OK) {
 *         printf("a=extmap:%d %.*s\r\n", id, (int)uri_len, (const char *)uri);
 *     }
 */
#define RTPW_URI_SIZE 87
RTPW_CHECKED int32_t rtpw_uri_of_kind(uint8_t kind, RTPW_OUT RTPW_COUNT(size) uint8_t *buf, size_t size,
                                      RTPW_OUT size_t *len);
/* The id means the kind from now on. RTPW_OK, or RTPW_BAD_FIELD where the id is 0, or the kind is RTPW_KIND_NONE, which
 * rtpw_kind_of_uri returns of a URI that it doesn't know, or one of 21 to 127; then nothing changes. */
RTPW_CHECKED int32_t rtpw_map_set(RTPW_INOUT RTPW_PART(id, 1) rtpw_map *map, uint8_t id, uint8_t kind);
/* The id means nothing from now on, as where a peer's next SDP hasn't its line: kind[id] becomes 0. */
void rtpw_map_remove(RTPW_INOUT RTPW_PART(id, id != 0) rtpw_map *map, uint8_t id);
/* The kind that the id of an element means; RTPW_KIND_NONE where it means none. */
uint8_t rtpw_map_get(RTPW_PART(id, id != 0) const rtpw_map *map, uint8_t id);
/* The lowest id that means the kind, under which an element of it is put or looked for; 0 where none does, as for
 * RTPW_KIND_NONE and 21 to 127. */
uint8_t rtpw_id_of(const rtpw_map *map, uint8_t kind);
/* The map of the usual ids, for peers that agree on none, whatever it was: 1 audio level, 2 send time, 3 transport
 * number, 4 mid, 10 rid, 11 repaired rid, 13 video orientation; RTPW_KIND_NONE at each other index, 0 too. */
void rtpw_map_standard(RTPW_OUT rtpw_map *map);

/* A time: ticks / hertz seconds. 16 bytes. */
typedef struct {
    uint64_t ticks;
    uint32_t hertz; /* ticks of a second: 100 where the time was read */
} rtpw_time;

/* The values of a block's elements. Each has_ is 1 where the value is there; as read, one that is absent
 * is 0. The texts are letters, digits and underscores, and a zero ends them: as read each other character, a zero byte
 * too, is an underscore, and what is too long is cut, so compare with the SDP's text changed likewise, or look at the
 * element's data (rtpw_is_token): a text that has another length than these, or another character, isn't the peer's.
 * Data that aren't UTF-8 are not well-formed for a text, and give none. Some values have str0m's readings and not those
 * of their standards: the call that has these stands beside each. 136 bytes. */
typedef struct {
    uint64_t send_time;     /* microseconds, modulo 64 seconds: the whole ones, so that nearly all of the 2^24 times
                             * lose one unit where they are read and written; exact: rtpw_read_send_time */
    uint64_t capture_time;  /* an NTP timestamp, 32.32 */
    int64_t capture_offset; /* the capturer's clock is ahead by these seconds, 32.32 */
    rtpw_time playout_delay_min;  /* the receiver may hold the frame for so long at least */
    rtpw_time playout_delay_max;  /* and for so long at most */
    uint32_t transmission_offset; /* ticks of the stream's clock; an element of four bytes, where RFC 5450 has three:
                                   * rtpw_read_transmission_offset */
    uint32_t frame_marking;       /* the first four bytes, where RFC 9626 has one to three: rtpw_read_frame_marking */
    uint16_t transport_number;    /* over all streams of the transport; with a request: rtpw_read_transport_number */
    uint16_t video_orientation;   /* how the receiver has to turn the picture, counter-clockwise: 0, 90, 180 or 270;
                                   * with camera and flip: rtpw_read_orientation */
    uint16_t encode_start;        /* video timing (of 12 or 13 bytes, with all times: rtpw_read_timing), in
                                   * milliseconds after the frame's capture: its encoding began, */
    uint16_t encode_finish;       /* and ended, */
    uint16_t packetize_complete;  /* its last packet was made, */
    uint16_t last_left_pacer;     /* and left the pacer */
    uint8_t timing_flags;         /* why these were sent: bit 0 a timer, bit 1 a large frame */
    uint8_t video_content_type;   /* 0 unspecified, 1 a screen */
    RTPW_RANGE(-127, 0)
    int8_t audio_level;           /* dB relative to the overload point */
    uint8_t voice_activity;       /* 0 or 1 */
    char mid[17];                 /* the media section (RFC 9143), up to 16 characters; as it lies: rtpw_is_token */
    char rid[9];                  /* the stream (RFC 8852), up to 8 characters, where the RFC has up to 255; as it lies:
                                   * rtpw_is_stream_id */
    char repaired_rid[9];         /* the stream that this one repairs, the same */
    uint8_t has_send_time;
    uint8_t has_capture_time;
    uint8_t has_capture_offset;
    uint8_t has_transmission_offset;
    uint8_t has_frame_marking;
    uint8_t has_transport_number;
    uint8_t has_video_orientation;
    uint8_t has_video_content_type;
    uint8_t has_audio_level;
    uint8_t has_voice_activity;
    uint8_t has_playout_delay_min;
    uint8_t has_playout_delay_max;
    RTPW_TELLS(encode_start, encode_finish, packetize_complete, last_left_pacer, timing_flags)
    uint8_t has_video_timing; /* the four times and timing_flags */
    uint8_t has_mid;
    uint8_t has_rid;
    uint8_t has_repaired_rid;
    RTPW_OUT
    uint8_t has_layers; /* a layer allocation: rtpw_parse_layers tells it, and rtpw_write_layers writes it */
} rtpw_values;

/* The values that the elements of a body give under the map, where rtpw_packet_parse has told the body and they are
 * wanted after all (rtpw_read tells both): for each kind those of the last element whose id means it and whose data are
 * well-formed for it. RTPW_OK; RTPW_BAD_FIELD where the form is none of the two. */
RTPW_CHECKED int32_t rtpw_values_read(RTPW_COUNT(body_len) const uint8_t *body, size_t body_len, uint8_t form,
                                      const rtpw_map *map, RTPW_OUT rtpw_values *values);

/* Writes the data that an element of the kind has for these values, as rtpw_write would, to the front of the
 * buffer; bytes after them stay. So one value is set where it lies:
 *
 *     uint8_t data[3];
 *     size_t data_len;
 *     if (rtpw_data_of(RTPW_KIND_ABS_SEND_TIME, &values, data, sizeof data, &data_len) == RTPW_OK) {
 *         uint8_t id = rtpw_id_of(&map, RTPW_KIND_ABS_SEND_TIME);
 *         status = id == 0 ? RTPW_NONE : rtpw_set_element(datagram, len, id, data, data_len);
 *     }
 *
 * RTPW_OK; RTPW_BAD_FIELD where the kind is RTPW_KIND_NONE or one of 21 to 127, or a value that is there,
 * of this kind or not, is one for which rtpw_write returns it; RTPW_NONE where a value that the kind needs
 * isn't there, and always for RTPW_KIND_COLOR_SPACE, RTPW_KIND_LAYERS, those from 16 to 20 and kinds of your own;
 * RTPW_SHORT_BUFFER. */
RTPW_CHECKED int32_t rtpw_data_of(uint8_t kind, const rtpw_values *values, RTPW_OUT RTPW_COUNT(size) uint8_t *buf,
                                  size_t size, RTPW_OUT size_t *len);

/* ---- A header, read and written ---- */

/* The header of a packet, with the values of its block. 224 bytes. */
typedef struct {
    RTPW_OUT
    size_t header_len;        /* of the header that was read: the payload begins there; nothing is written of it */
    uint32_t timestamp;       /* in ticks of the payload's clock */
    uint32_t ssrc;            /* the stream's source */
    RTPW_COUNT(csrc_count)
    uint32_t csrc[15];        /* the contributing sources, csrc_count of them; as read the others are 0 */
    uint16_t sequence_number; /* the low 16 bits of the packet's number */
    RTPW_RANGE(0, 127)
    uint8_t payload_type;
    RTPW_RANGE(0, 15)
    uint8_t csrc_count;
    uint8_t marker;           /* M: 0 or 1 */
    uint8_t has_padding;   /* P: 0 or 1. As written only with padding behind the payload (rtpw_pad): where one that was
                            * read is written for a payload without its padding clear it, or each peer takes the
                            * payload's last bytes for padding */
    uint8_t has_extension; /* X: 0 or 1, whether there is a block. As written of a header that was read: a block of
                            * another form isn't here, and an empty one is written unless it is cleared */
    rtpw_values values;    /* of the block: none where there is none */
} rtpw_header;

/* A packet of RTP: its header, and where its parts lie, in bytes from the packet's first one. The payload begins at
 * header.header_len; with its padding it is the rest of the datagram. 256 bytes. */
typedef struct {
    rtpw_header header;     /* with the values of the block: none where there is no block, or one of RTPW_OTHER_FORM */
    size_t unpadded_len;    /* of the payload without its padding, the media (with SRTP decrypt first); 0 where
                             * padding_fits is 0 */
    size_t body_at;         /* where the body of the extension block begins, after the four bytes of its header; without
                             * one header.header_len */
    size_t body_len;        /* of the body, which ends where the payload begins; 0 without a block */
    uint16_t block_profile; /* the 16 bits that the block begins with; 0 without one */
    uint8_t block_form;     /* RTPW_ONE_BYTE_FORM, RTPW_TWO_BYTE_FORM or RTPW_OTHER_FORM; RTPW_NO_BLOCK where X is
                             * clear */
    uint8_t padding_fits;   /* 0 where P is set and the payload's last byte counts more bytes than there are, else 1 */
} rtpw_whole_packet;

/* Reads the packet of RTP that the datagram is, with the values of its block under the map: in one call what
 * rtpw_is_rtcp, rtpw_packet_parse and rtpw_parse tell. The example at the head of this file begins with it.
 *
 * RTPW_RTCP, before all else, where rtpw_is_rtcp is true, however few bytes there are: it isn't lost, nor taken for
 * RTP. A stream of RTP that has a payload type of 64 to 95, which must have a port of its own, is read by
 * rtpw_packet_parse and rtpw_parse. RTPW_OK of a packet, whatever the form of its block is: one of ONVIF or Cryptex has
 * its place, its profile and no values. Else the first of the causes for which the datagram is none: never
 * RTPW_UNKNOWN_FORM.
 *
 * What is played or stored is unpadded_len bytes. Where padding_fits is 0 drop the packet, but with SRTP not before it
 * is decrypted: until then the last byte, by which unpadded_len and padding_fits go, is another. Its header is told as
 * it is, so read it, decrypt its payload, and read it again. With Cryptex decrypt first, as for rtpw_packet_parse.
 * Who sends the payload on without its padding clears P (rtpw_set_padding, clears_padding of rtpw_routed_header), or
 * the receiver takes the last bytes of the media for padding; with it the payload has len - header.header_len bytes. */
RTPW_CHECKED int32_t rtpw_read(RTPW_COUNT(len) RTPW_PACKET(whole) const uint8_t *datagram, size_t len,
                               const rtpw_map *map, RTPW_OUT rtpw_whole_packet *packet);

/* Reads the header alone that the bytes begin with, and the values of its block under the map, and on a port with RTCP
 * after rtpw_is_rtcp. Nothing after the header is looked at: where has_padding is 1 the payload that begins at
 * header_len ends with padding, which rtpw_read tells. RTPW_OK, or the first cause for which there is none, where
 * RTPW_UNKNOWN_FORM comes before RTPW_CUT_BLOCK: a receiver that takes such packets calls rtpw_read. */
RTPW_CHECKED int32_t rtpw_parse(RTPW_COUNT(len) RTPW_PACKET(header) const uint8_t *datagram, size_t len,
                                const rtpw_map *map, RTPW_OUT rtpw_header *header);

/* A spatial layer. 40 bytes. */
typedef struct {
    RTPW_COUNT(rates)
    uint64_t kbps[4];  /* of each temporal layer with those below it, in kilobits per second; after the last as read
                        * 0, and as written not looked at */
    uint16_t width;    /* in pixels, 1 to 65,535; 0 where has_resolution is 0 */
    uint16_t height;   /* the same */
    uint8_t framerate; /* at most so many frames per second; 0 where has_resolution is 0 */
    RTPW_TELLS(width, height, framerate)
    uint8_t has_resolution; /* 0 or 1 */
    uint8_t rates;          /* how many temporal layers there are, 0 to 4: 0 where the layer isn't active */
} rtpw_layer;

/* A simulcast stream: its spatial layers by rising resolution; after the last as read all zeros, and as written not
 * looked at. 168 bytes. */
typedef struct {
    RTPW_COUNT(count)
    rtpw_layer layers[4];
    uint8_t count; /* 0 to 4 */
} rtpw_stream;

/* Which simulcast streams and layers a sender of video keeps active (video-layers-allocation00): as read all
 * zeros after the last stream, and as written not looked at there. 680 bytes. */
typedef struct {
    RTPW_COUNT(count)
    rtpw_stream streams[4];
    uint8_t count;   /* 0 to 4; 0 where nothing is sent */
    uint8_t current; /* which of the streams the packet is of, from 0 */
} rtpw_layers;

/* As rtpw_parse, and the layer allocation where values.has_layers is 1; else *layers becomes all zeros. */
RTPW_CHECKED int32_t rtpw_parse_layers(RTPW_COUNT(len) RTPW_PACKET(header) const uint8_t *datagram, size_t len,
                                       const rtpw_map *map, RTPW_OUT rtpw_header *header, RTPW_OUT rtpw_layers *layers);

/* How many bytes rtpw_write writes, and so how much room it wants: a multiple of 4, 12 to 4,668. RTPW_OK;
 * RTPW_BAD_FIELD as rtpw_write. */
RTPW_CHECKED int32_t rtpw_wire_len(RTPW_READ_IF(header->has_extension) const rtpw_map *map, const rtpw_header *header,
                                   RTPW_OUT size_t *len);

/* Writes the header to the front of the buffer; bytes after it stay. Where has_extension isn't 0 there is
 * a block: by rising id an element for each mapped id whose value is there (its has_ isn't 0), in the
 * one-byte form unless an id above 14 or RTPW_KIND_LAYERS is mapped or a text that it writes is empty.
 * An audio level takes has_voice_activity too, a playout delay both its times, and a capture offset
 * a capture time; a layer allocation isn't written (rtpw_write_layers). Where a value is there and isn't written, as
 * one without an id or all without has_extension, the status doesn't say so: rtpw_left_out tells it. Of a time the
 * whole ticks are written of 2^-18 seconds (send time, modulo 64 seconds) or of 1/100 second (playout delay, modulo
 * 4,096). Flags count as set where they aren't 0. Where has_padding isn't 0 P is set, and the padding is the caller's
 * to write behind the payload.
 *
 * RTPW_OK; RTPW_BAD_FIELD where payload_type is above 127, csrc_count above 15, or of the values that are
 * there, mapped or not and also where has_extension is 0, a text has another character than letters, digits
 * and underscores before its first zero or has no zero, an orientation is none of the four, an audio level is above 0
 * or below -127, or a time has 0 hertz; RTPW_SHORT_BUFFER where only the buffer is too short.
 *
 *     rtpw_header header = {0};
 *     header.payload_type = 111;
 *     header.sequence_number = (uint16_t)number;
 *     header.ssrc = ssrc;
 *     header.has_extension = 1;
 *     header.values.has_mid = 1;
 *     strcpy(header.values.mid, "audio");
 *     uint8_t packet[1500];
 *     size_t header_len;
 *     if (rtpw_write(&map, &header, packet, sizeof packet, &header_len) == RTPW_OK) {
 *         put_payload(packet + header_len, sizeof packet - header_len);
 *     }
 */
RTPW_CHECKED int32_t rtpw_write(RTPW_READ_IF(header->has_extension) const rtpw_map *map, const rtpw_header *header,
                                RTPW_OUT RTPW_COUNT(size) uint8_t *buf, size_t size, RTPW_OUT size_t *len);

/* As rtpw_wire_len and rtpw_write, with these layers, whatever has_layers holds: an element of them for each id
 * that means RTPW_KIND_LAYERS. So what rtpw_parse_layers read is written again. A stream is written without the
 * layers at its end that aren't active. Where three streams have masks of their own, the half of a byte that is
 * left after the third has all four bits set, where the description of video-layers-allocation00 has zeros; readers
 * don't look there. At most 65,612 bytes.
 *
 * RTPW_BAD_FIELD also where no element can carry the layers, mapped or not: a count or `rates` is above 4;
 * `current` is above 3, or above 0 without a stream; a rate is 2^63 or more; a width or height that is there is 0;
 * there is a resolution of a layer that isn't active, or behind an active layer without one; or they take more
 * than 255 bytes.
 *
 *     rtpw_layers layers = {0};
 *     layers.count = layers.streams[0].count = 1;
 *     layers.streams[0].layers[0].rates = 1;
 *     layers.streams[0].layers[0].kbps[0] = 300;
 *     status = rtpw_write_layers(&map, &header, &layers, packet, sizeof packet, &header_len);
 */
RTPW_CHECKED int32_t rtpw_wire_len_layers(RTPW_READ_IF(header->has_extension) const rtpw_map *map,
                                          const rtpw_header *header, const rtpw_layers *layers, RTPW_OUT size_t *len);
RTPW_CHECKED int32_t rtpw_write_layers(RTPW_READ_IF(header->has_extension) const rtpw_map *map,
                                       const rtpw_header *header, const rtpw_layers *layers,
                                       RTPW_OUT RTPW_COUNT(size) uint8_t *buf, size_t size, RTPW_OUT size_t *len);

/* Which kinds rtpw_write leaves out, and rtpw_write_layers with these layers: those of which a value is there (a has_
 * isn't 0; the layers that are given are there, whatever has_layers holds) and no element that is written carries it.
 * Each is the bit 1 << kind of *kinds, as 1 << RTPW_KIND_MID, and no other bit is set: 0 where all that is there is
 * written. Where has_extension is 0 they are all that are there; else those that no id means; an audio level without
 * has_voice_activity, and the other way round; one of two playout delays; a capture offset without its time; and with
 * rtpw_left_out RTPW_KIND_LAYERS where has_layers isn't 0. RTPW_OK; RTPW_BAD_FIELD as rtpw_write and rtpw_write_layers.
 *
 *     uint32_t kinds;
 *     if (rtpw_left_out(&map, &header, &kinds) == RTPW_OK && kinds != 0) {
 *         return complain(kinds); // has_extension isn't set, say, or the peer's map has no such kind
 *     }
 */
RTPW_CHECKED int32_t rtpw_left_out(RTPW_READ_IF(header->has_extension) const rtpw_map *map, const rtpw_header *header,
                                   RTPW_OUT uint32_t *kinds);
RTPW_CHECKED int32_t rtpw_left_out_layers(RTPW_READ_IF(header->has_extension) const rtpw_map *map,
                                          const rtpw_header *header, const rtpw_layers *layers,
                                          RTPW_OUT uint32_t *kinds);

/* As rtpw_write, with a block of these elements, whatever has_extension and the values hold. The data of each
 * are the data_len bytes at data_at of `data`: those that rtpw_next_element told of a body, say. What
 * `end` holds isn't looked at; data_at is, also of an element of no bytes. The block is in the one-byte
 * form where that can carry each element (ids 1 to 14, 1 to 16 bytes), and else in the two-byte form (ids
 * 1 to 255, 0 to 255 bytes).
 *
 * RTPW_OK; RTPW_BAD_FIELD where payload_type is above 127, csrc_count above 15, or an element has the id
 * 0, more than 255 bytes, or its data_at + data_len is past the end of the data, or all of them take more
 * than the 262,140 bytes of a block, or one of the data_len bytes of `data`, whether an element has it or not, lies in
 * the `size` bytes of the buffer: the data of a packet are written into another buffer, or copied first;
 * RTPW_SHORT_BUFFER where the buffer alone is at fault. */
RTPW_CHECKED int32_t rtpw_write_with(RTPW_BUT(has_extension, values) const rtpw_header *header,
                                     RTPW_COUNT(data_len) RTPW_MAY_OVERLAP(buf) RTPW_EACH(elements) const uint8_t *data,
                                     size_t data_len, RTPW_COUNT(count) const rtpw_element *elements, size_t count,
                                     RTPW_OUT RTPW_COUNT(size) uint8_t *buf, size_t size, RTPW_OUT size_t *len);

/* The same in one form alone, for a peer that hasn't agreed to both forms in one stream (RFC 8285, 4.1.2):
 * RTPW_ONE_BYTE_FORM or RTPW_TWO_BYTE_FORM; with 0, which is RTPW_NO_BLOCK, as rtpw_write_with. RTPW_BAD_FIELD
 * also where the form is another number or can't carry an element. */
RTPW_CHECKED int32_t rtpw_write_with_form(RTPW_BUT(has_extension, values) const rtpw_header *header,
                                          RTPW_COUNT(data_len) RTPW_MAY_OVERLAP(buf) RTPW_EACH(elements)
                                              const uint8_t *data, size_t data_len,
                                          RTPW_COUNT(count) const rtpw_element *elements, size_t count, uint8_t form,
                                          RTPW_OUT RTPW_COUNT(size) uint8_t *buf, size_t size, RTPW_OUT size_t *len);

/* Writes elements, one after the other, as a block's body has them, to the front of the buffer: with zeros up to a
 * whole word behind them they are a body for rtpw_put_block. Bytes after them stay. RTPW_OK; RTPW_BAD_FIELD where the
 * form is none of the two or can't carry one of them, data_at + data_len of one is past the end of the data, or one of
 * the data, as with rtpw_write_with, lies in the buffer; RTPW_SHORT_BUFFER where the buffer alone is at fault. */
RTPW_CHECKED int32_t rtpw_write_elements(RTPW_COUNT(data_len) RTPW_MAY_OVERLAP(buf) RTPW_EACH(elements)
                                             const uint8_t *data, size_t data_len,
                                         RTPW_COUNT(count) const rtpw_element *elements, size_t count, uint8_t form,
                                         RTPW_OUT RTPW_COUNT(size) uint8_t *buf, size_t size, RTPW_OUT size_t *len);

/* ---- A header in less ---- */

/* For a program that keeps headers in structs of its own, and reads or writes one for each packet: the fixed part in 16
 * bytes, and elements with pointers to their data, so that nothing of them is copied before. Contributing sources are
 * read at RTPW_CSRC_AT, and written by rtpw_write_with. */

/* The fixed part (RFC 3550, 5.1) but for how many contributing sources there are. A flag is told as 0 or 1, and counts as
 * set where it isn't 0. 16 bytes. */
typedef struct {
    uint8_t version;       /* told: 2. Where it is written it isn't looked at */
    uint8_t has_padding;   /* P */
    uint8_t has_extension; /* told: X. Where it is written it isn't looked at */
    uint8_t marker;        /* M */
    uint8_t payload_type;  /* 0 to 127 */
    uint16_t sequence_number;
    uint32_t timestamp;
    uint32_t ssrc;
} rtpw_fixed_part;

/* Where the other parts of a packet lie. Each field is as in rtpw_packet; the body of the block ends where the payload
 * begins. 32 bytes. */
typedef struct {
    size_t payload_at;
    size_t unpadded_len;
    size_t body_at;
    uint16_t block_profile;
    uint8_t block_form;
    uint8_t csrc_count;
    uint8_t padding_fits;
} rtpw_layout;

/* An element and where its data lie, as its writer has them. 32 bytes. */
typedef struct {
    uint8_t id;
    RTPW_COUNT(data_len)
    const uint8_t *data;
    size_t data_len;
    size_t own; /* the caller's own: it isn't looked at */
} rtpw_data_element;

/* Reads what rtpw_packet_parse reads of the packet in the buffer, into these two. The statuses are those of that. */
RTPW_CHECKED int32_t rtpw_read_fixed_part(RTPW_COUNT(len) RTPW_PACKET(fields) const uint8_t *datagram, size_t len,
                                          RTPW_OUT rtpw_fixed_part *fixed, RTPW_OUT rtpw_layout *layout);

/* Writes a header that is this fixed part alone, without contributing sources and block, to the front of the buffer: 12
 * bytes. RTPW_OK; RTPW_BAD_FIELD where payload_type is above 127, and else RTPW_SHORT_BUFFER where the buffer has fewer. */
RTPW_CHECKED int32_t rtpw_write_fixed_part(RTPW_BUT(version, has_extension) const rtpw_fixed_part *fixed,
                                           RTPW_OUT RTPW_COUNT(size) RTPW_PART(0, 12) uint8_t *buf, size_t size);

/* Writes this fixed part, without contributing sources, and behind it a block of these elements in this form,
 * RTPW_ONE_BYTE_FORM or RTPW_TWO_BYTE_FORM, which are those of rtpw_write_with_form. None of their data may lie in the
 * buffer, and this isn't looked at.
 *
 * RTPW_OK; RTPW_BAD_FIELD where payload_type is above 127, the form is none of the two or can't carry an element, or all
 * of them take more than the 262,140 bytes of a block; RTPW_SHORT_BUFFER where the buffer alone is at fault.
 *
 *     rtpw_data_element elements[] = {{1, &level, 1, 0}, {4, mid, mid_len, 0}};
 *     status = rtpw_write_data_elements(&fixed, elements, 2, RTPW_ONE_BYTE_FORM, packet, sizeof packet, &header_len);
 */
RTPW_CHECKED int32_t rtpw_write_data_elements(RTPW_BUT(version, has_extension) const rtpw_fixed_part *fixed,
                                              RTPW_COUNT(count) RTPW_BUT(own) const rtpw_data_element *elements,
                                              size_t count, uint8_t form, RTPW_OUT RTPW_COUNT(size) uint8_t *buf,
                                              size_t size, RTPW_OUT size_t *len);

/* ---- Values as the standards lay them out ---- */

/* The data of one element, as its standard has them, read and written: of kinds for which rtpw_values reads something
 * else, or nothing. What is read is where rtpw_element tells that an element's data lie, and what is written is for
 * rtpw_put_element, rtpw_set_element and rtpw_write_elements. The id of each but RFC 9626's frame marking is that of a
 * kind (rtpw_id_of); that one gets a kind of your own. Integers in the data are big-endian.
 *
 * rtpw_read_..: RTPW_OK; RTPW_BAD_FIELD where the data aren't well-formed for the value, and then nothing is written.
 * What an absent part leaves is 0.
 *
 * rtpw_write_..: writes the data to the front of the buffer, and how many bytes they are; what lies behind them stays.
 * RTPW_OK; RTPW_BAD_FIELD where a field is out of its range, whatever the room is; RTPW_SHORT_BUFFER where only the
 * room is too short. Where it isn't RTPW_OK nothing is written. Flags count as set where they aren't 0, and what stands
 * beside a has_ of 0 isn't looked at.
 *
 *     uint8_t data[3];
 *     size_t data_len;
 *     int32_t status = rtpw_write_transmission_offset(-90, data, sizeof data, &data_len);
 *     if (status == RTPW_OK) {
 *         status = rtpw_put_element(datagram, size, &len, toffset_id, data, data_len, RTPW_ANY_FORM);
 *     }
 *     ...
 *     rtpw_element element;
 *     const uint8_t *body = datagram + packet.body_at;
 *     int32_t offset;
 *     if (rtpw_last_element(body, packet.body_len, packet.block_form, toffset_id, &element) == RTPW_OK
 *         && rtpw_read_transmission_offset(body + element.data_at, element.data_len, &offset) == RTPW_OK) {
 *         sent_at(packet.timestamp + (uint32_t)offset);
 *     }
 */

/* The send time (http://www.webrtc.org/experiments/rtp-hdrext/abs-send-time) as it lies: 24 bits, in units of 2^-18
 * seconds, modulo 64 seconds. Three bytes. RTPW_BAD_FIELD of any other number, and of one of 2^24 or more that is
 * written. rtpw_values has whole microseconds: who sends a time on as it came, or reckons with it, takes these calls.
 */
RTPW_CHECKED int32_t rtpw_read_send_time(RTPW_COUNT(data_len) RTPW_READ_IF(data_len == 3) const uint8_t *data,
                                         size_t data_len, RTPW_OUT uint32_t *units);
RTPW_CHECKED int32_t rtpw_write_send_time(uint32_t units, RTPW_OUT RTPW_COUNT(size) uint8_t *buf, size_t size,
                                          RTPW_OUT size_t *len);
/* The time, in units of 2^-32 seconds, whose low 38 bits are the low 24 of `units` and then 14 zeros, and that is
 * nearest to `around`, modulo 2^64; of two that are equally near the later one. Where `around` is the time at which the
 * packet arrived, of a clock that is less than 32 seconds off the sender's, it is the time at which that sent it:
 *
 *     uint64_t sent = rtpw_extend_send_time(0xE0000000C0000000, 0xFFFFFF); // 0xDFFFFFFFFFFFC000
 */
uint64_t rtpw_extend_send_time(uint64_t around, uint32_t units);

/* The transmission time offset (RFC 5450, 3): how long after the time of its timestamp the packet was sent, in ticks of
 * the stream's clock, -8,388,608 to 8,388,607; another is RTPW_BAD_FIELD. Three bytes, with a sign.
 * rtpw_values has str0m's, four bytes without a sign, which only str0m takes: for any other peer take these calls. */
RTPW_CHECKED int32_t rtpw_read_transmission_offset(RTPW_COUNT(data_len) RTPW_READ_IF(data_len == 3) const uint8_t *data,
                                                   size_t data_len, RTPW_OUT int32_t *offset);
RTPW_CHECKED int32_t rtpw_write_transmission_offset(int32_t offset, RTPW_OUT RTPW_COUNT(size) uint8_t *buf, size_t size,
                                                    RTPW_OUT size_t *len);

/* What a packet is to its frame, and the frame to its stream (RFC 9626, 3). 10 bytes. */
typedef struct {
    uint8_t start;           /* the packet is the first of its frame: 0 or 1, as each of these flags */
    uint8_t end;             /* it is the last of its frame */
    uint8_t independent;     /* the frame can be decoded without any frame before it */
    uint8_t discardable;     /* no other frame needs this one */
    RTPW_TELLS(base_layer_sync, temporal_id, layer_id, has_tl0_pic_idx)
    uint8_t has_layers;      /* the stream has layers; the next three are of it */
    uint8_t base_layer_sync; /* the frame depends on the base temporal layer alone; by RFC 9626 0 where temporal_id is,
                              * which isn't looked at: it is read as it lies, and written as it is given */
    RTPW_RANGE(0, 7)
    uint8_t temporal_id;     /* the temporal layer; 0 is the base layer */
    uint8_t layer_id;        /* the spatial and quality layer, by the numbers of its codec */
    uint8_t has_tl0_pic_idx; /* the next one is sent; without layers it isn't looked at */
    uint8_t tl0_pic_idx;     /* the running number of the frame of the base temporal layer */
} rtpw_frame_marking;

/* One byte without layers, whose low four bits aren't looked at as they are read; two with layers, and three with
 * tl0_pic_idx. RTPW_BAD_FIELD where there are none or more than three, and of a temporal_id above 7 that is written.
 * rtpw_values has str0m's number of four bytes, which is no RFC 9626 marking: for any other peer take these calls. */
RTPW_CHECKED int32_t rtpw_read_frame_marking(RTPW_COUNT(data_len) RTPW_READ_IF(data_len <= 3) const uint8_t *data,
                                             size_t data_len, RTPW_OUT rtpw_frame_marking *marking);
RTPW_CHECKED int32_t rtpw_write_frame_marking(const rtpw_frame_marking *marking, RTPW_OUT RTPW_COUNT(size) uint8_t *buf,
                                              size_t size, RTPW_OUT size_t *len);

/* Which way a camera faces. */
enum {
    RTPW_CAMERA_FRONT = 0, /* towards the user */
    RTPW_CAMERA_BACK = 1   /* away from the user */
};

/* How a picture was taken, and is to be shown (3GPP TS 26.114, 7.4.5). 4 bytes. */
typedef struct {
    uint16_t turn;  /* how the receiver has to turn the picture, counter-clockwise: 0, 90, 180 or 270 */
    RTPW_RANGE(0, 1)
    uint8_t camera; /* RTPW_CAMERA_FRONT or RTPW_CAMERA_BACK */
    uint8_t flip;   /* the picture is mirrored, left for right, as it is sent, before the receiver turns it: 0 or 1 */
} rtpw_orientation;

/* One byte; its high four bits aren't looked at, and are written as 0. RTPW_BAD_FIELD of any other number of bytes, and
 * of another turn or camera that is written.
 * rtpw_values has the turn alone, and writes zeros for camera and flip: whoever shows the picture takes these calls. */
RTPW_CHECKED int32_t rtpw_read_orientation(RTPW_COUNT(data_len) RTPW_READ_IF(data_len == 1) const uint8_t *data,
                                           size_t data_len, RTPW_OUT rtpw_orientation *orientation);
RTPW_CHECKED int32_t rtpw_write_orientation(const rtpw_orientation *orientation, RTPW_OUT RTPW_COUNT(size) uint8_t *buf,
                                            size_t size, RTPW_OUT size_t *len);

/* Whether the data are a token of SDP (RFC 8866, 9) of 1 to 255 characters, as a mid is (RFC 5888, 4): then they are
 * the text itself, to be compared with the SDP's byte by byte, and written as they are. The texts of rtpw_values have
 * an underscore for each other character than letters and digits, and are cut: for ids that the peer chose take the
 * data. */
bool rtpw_is_token(RTPW_COUNT(data_len) RTPW_READ_IF(data_len <= 255) const uint8_t *data, size_t data_len);
/* Whether the data are 1 to 255 letters and digits of ASCII, as a stream id and a repaired one have to be where they
 * are sent (RFC 8852, 3). In SDP `a=rid` also allows - and _ (RFC 8851, 10): a stream whose id has one can't be told by
 * it, so choose one without. To compare what came with the SDP's text rtpw_is_token is enough. */
bool rtpw_is_stream_id(RTPW_COUNT(data_len) RTPW_READ_IF(data_len <= 255) const uint8_t *data, size_t data_len);

/* When a frame passed each step on its way, in milliseconds after its capture (WebRTC's video-timing). 14 bytes. */
typedef struct {
    uint16_t encode_start;       /* its encoding began */
    uint16_t encode_finish;      /* its encoding ended */
    uint16_t packetize_complete; /* its last packet was made */
    uint16_t last_left_pacer;    /* its last packet left the pacer */
    uint16_t network;            /* a time that a server on the way fills in; what it means is the application's */
    uint16_t network2;           /* another such time */
    uint8_t flags;     /* why the times were sent: bit 0 a timer, bit 1 a large frame; of 255, which libwebrtc has
                        * for times that aren't valid, the times mean nothing */
    uint8_t has_flags; /* 0 in the older form, which has no flags */
} rtpw_timing;

/* 13 bytes, or 12 without flags; of any other number RTPW_BAD_FIELD. No field is out of range as it is written.
 * rtpw_values takes the first of 12 bytes for flags, and has neither network time (it writes zeros): where a peer sends
 * the older form, or a server fills these in, take these calls. */
RTPW_CHECKED int32_t rtpw_read_timing(RTPW_COUNT(data_len) RTPW_READ_IF(data_len == 12 || data_len == 13)
                                          const uint8_t *data, size_t data_len, RTPW_OUT rtpw_timing *timing);
RTPW_CHECKED int32_t rtpw_write_timing(const rtpw_timing *timing, RTPW_OUT RTPW_COUNT(size) uint8_t *buf, size_t size,
                                       RTPW_OUT size_t *len);

/* The packet's number on its transport, and what feedback it asks for
 * (http://www.webrtc.org/experiments/rtp-hdrext/transport-wide-cc-02). 6 bytes. */
typedef struct {
    uint16_t number;  /* the packet's number, over all streams of the transport */
    RTPW_RANGE(0, 32767)
    uint16_t packets; /* for how many packets the feedback is to be, of which this one is the last; 0 asks for none */
    RTPW_TELLS(packets, timestamps)
    uint8_t has_request; /* four bytes: the sender asks for feedback with this packet, and `packets` and `timestamps`
                          * are of that */
    uint8_t timestamps;  /* the feedback is to have the times at which the packets arrived: 0 or 1 */
} rtpw_transport_number;

/* Two bytes, or four with a request; of any other number RTPW_BAD_FIELD, and as written of a request for more than
 * 32,767 packets. Each element that is read is written byte for byte. rtpw_values has the number alone, of the draft's
 * older URI, where feedback is on all packets: for feedback on request take these calls. */
RTPW_CHECKED int32_t rtpw_read_transport_number(RTPW_COUNT(data_len) RTPW_READ_IF(data_len == 2 || data_len == 4)
                                                    const uint8_t *data, size_t data_len,
                                                RTPW_OUT rtpw_transport_number *number);
RTPW_CHECKED int32_t rtpw_write_transport_number(const rtpw_transport_number *number,
                                                 RTPW_OUT RTPW_COUNT(size) uint8_t *buf, size_t size,
                                                 RTPW_OUT size_t *len);

/* The audio level of the contributing source at this index of the packet's list of csrc_count, in decibels relative to
 * the overload point, -127 (silence) to 0 (RFC 6465, 4: mixer to client). A byte for each, whose high bit isn't looked
 * at; what stands behind the last source's isn't either. RTPW_BAD_FIELD where the packet hasn't that source, or the
 * data no byte for it; a csrc_count above 15, which no packet has, and data of any length are taken. rtpw_values has
 * none of these. */
RTPW_CHECKED int32_t rtpw_read_mixer_level(RTPW_COUNT(data_len) RTPW_PART(index, 1)
                                               RTPW_READ_IF(index < csrc_count && index < data_len) const uint8_t *data,
                                           size_t data_len, size_t csrc_count, size_t index, RTPW_OUT int8_t *level);
/* The levels of a packet's sources, in their order. RTPW_BAD_FIELD of more than 15, which no packet has, and of a level
 * above 0 or below -127. Of none the data are empty, which the two-byte form alone carries. */
RTPW_CHECKED int32_t rtpw_write_mixer_levels(RTPW_COUNT(count) RTPW_READ_IF(count <= 15) const int8_t *levels,
                                             size_t count, RTPW_OUT RTPW_COUNT(size) uint8_t *buf, size_t size,
                                             RTPW_OUT size_t *len);

/* NTP timestamps (RFC 6051, 3.3), in units of 2^-32 seconds: of 64 bits in eight bytes, since 1900, and the low 56 of
 * them in seven. RTPW_BAD_FIELD of any other number of bytes; each time can be written, and of 56 the high eight bits
 * aren't looked at. rtpw_values has none of these: its capture_time is the value of another extension. */
RTPW_CHECKED int32_t rtpw_read_ntp_64(RTPW_COUNT(data_len) RTPW_READ_IF(data_len == 8) const uint8_t *data,
                                      size_t data_len, RTPW_OUT uint64_t *time);
RTPW_CHECKED int32_t rtpw_write_ntp_64(uint64_t time, RTPW_OUT RTPW_COUNT(size) uint8_t *buf, size_t size,
                                       RTPW_OUT size_t *len);
RTPW_CHECKED int32_t rtpw_read_ntp_56(RTPW_COUNT(data_len) RTPW_READ_IF(data_len == 7) const uint8_t *data,
                                      size_t data_len, RTPW_OUT uint64_t *time);
RTPW_CHECKED int32_t rtpw_write_ntp_56(uint64_t time, RTPW_OUT RTPW_COUNT(size) uint8_t *buf, size_t size,
                                       RTPW_OUT size_t *len);
/* The timestamp of 64 bits that ends in the low 56 bits of `low` and is nearest to `around`, modulo 2^64; of two that
 * are equally near the later one. Where `around` is less than 97 days off, as the time at which the packet arrived, it
 * is the time that the sender meant. */
uint64_t rtpw_extend_ntp_56(uint64_t around, uint64_t low);

/* Which numbers stand for the colors of a video. */
enum {
    RTPW_RANGE_UNKNOWN = 0,
    RTPW_RANGE_LIMITED = 1, /* as in broadcasting, 16 to 235 where there are 8 bits */
    RTPW_RANGE_FULL = 2,    /* all numbers */
    RTPW_RANGE_DERIVED = 3  /* by the transfer and matrix code points */
};

/* Where the chroma samples lie in one direction. */
enum {
    RTPW_SITING_UNSPECIFIED = 0,
    RTPW_SITING_COLLOCATED = 1, /* on the luma samples */
    RTPW_SITING_HALF = 2        /* half way between two of them */
};

/* A point of the CIE 1931 chromaticity diagram, in 0.00002. 4 bytes. */
typedef struct {
    uint16_t x;
    uint16_t y;
} rtpw_chromaticity;

/* The screen on which a video of high dynamic range was made, and its light (SMPTE ST 2086, CTA-861.3). 24 bytes. */
typedef struct {
    uint16_t luminance_max; /* of the screen, in cd/m^2 */
    uint16_t luminance_min; /* in 0.0001 cd/m^2 */
    rtpw_chromaticity red;
    rtpw_chromaticity green;
    rtpw_chromaticity blue;
    rtpw_chromaticity white;
    uint16_t max_content_light_level;       /* of a pixel, in cd/m^2 */
    uint16_t max_frame_average_light_level; /* the greatest mean of a frame, in cd/m^2 */
} rtpw_hdr_metadata;

/* The color space of a video (WebRTC's color-space). 32 bytes. */
typedef struct {
    rtpw_hdr_metadata hdr; /* all zeros as read where has_hdr is 0 */
    uint8_t primaries;     /* the color primaries, a code point of H.273, 8.1 */
    uint8_t transfer;      /* the transfer characteristics, a code point of H.273, 8.2 */
    uint8_t matrix;        /* the matrix coefficients, a code point of H.273, 8.3 */
    RTPW_RANGE(0, 3)
    uint8_t range;         /* RTPW_RANGE_UNKNOWN to RTPW_RANGE_DERIVED */
    RTPW_RANGE(0, 2)
    uint8_t horizontal;    /* from left to right: RTPW_SITING_UNSPECIFIED to RTPW_SITING_HALF */
    RTPW_RANGE(0, 2)
    uint8_t vertical;      /* from top to bottom, the same */
    uint8_t has_hdr;       /* 0 or 1 */
} rtpw_color_space;

/* Four bytes, or 28 with HDR metadata, for which an element needs the two-byte form. RTPW_BAD_FIELD of any other number
 * of bytes, and of a siting of 3; the high two bits of the fourth byte aren't looked at, and are written as 0. As
 * written RTPW_BAD_FIELD of another range or siting than those above. All other numbers are read and written. libwebrtc
 * passes over an element with a code point that H.273 reserves, as the primaries 0 or 3, or with HDR metadata beyond
 * 20,000 cd/m^2 (luminance_min beyond 5), or with a chromaticity above 1. rtpw_values has none: RTPW_KIND_COLOR_SPACE
 * can be mapped, and is neither read nor written with the values. */
RTPW_CHECKED int32_t rtpw_read_color_space(RTPW_COUNT(data_len) RTPW_READ_IF(data_len == 4 || data_len == 28)
                                               const uint8_t *data, size_t data_len, RTPW_OUT rtpw_color_space *space);
RTPW_CHECKED int32_t rtpw_write_color_space(const rtpw_color_space *space, RTPW_OUT RTPW_COUNT(size) uint8_t *buf,
                                            size_t size, RTPW_OUT size_t *len);

/* The fields of a dependency descriptor that each packet has (AV1's RTP payload format, A.8). 6 bytes. */
typedef struct {
    uint16_t frame_number;  /* the number of the frame, which rolls over */
    uint8_t start_of_frame; /* the packet is the first of its frame: 0 or 1 */
    uint8_t end_of_frame;   /* it is the last of its frame: 0 or 1 */
    RTPW_RANGE(0, 63)
    uint8_t template_id;    /* the template that the frame's dependencies are like */
} rtpw_dependency_descriptor;

/* The first three bytes; RTPW_BAD_FIELD of fewer. What follows them needs the structure that the sender sent before,
 * and isn't looked at: hand it on as it is. Written are the three bytes alone, which are a whole descriptor;
 * RTPW_BAD_FIELD of a template_id above 63. rtpw_values has none of these. */
RTPW_CHECKED int32_t rtpw_read_dependency_descriptor(RTPW_COUNT(data_len) RTPW_PART(0, 3) RTPW_READ_IF(data_len >= 3)
                                                         const uint8_t *data, size_t data_len,
                                                     RTPW_OUT rtpw_dependency_descriptor *descriptor);
RTPW_CHECKED int32_t rtpw_write_dependency_descriptor(const rtpw_dependency_descriptor *descriptor,
                                                      RTPW_OUT RTPW_COUNT(size) uint8_t *buf, size_t size,
                                                      RTPW_OUT size_t *len);
/* Whether a descriptor brings a template dependency structure, as that of the first packet of a key frame does: the
 * first bit of its fourth byte is set, if it has one. */
bool rtpw_has_structure(RTPW_COUNT(data_len) RTPW_PART(3, 1) RTPW_READ_IF(data_len > 3) const uint8_t *data,
                        size_t data_len);

/* ---- From one map to another ---- */

/* id[i] is the id that elements of the id i get, and 0 where they get none; id[0] isn't looked at. As a
 * map it may be filled by hand, copied, stored and shared. */
typedef struct {
    RTPW_PART(1, 255)
    uint8_t id[256];
} rtpw_new_ids;

/* For each id of a kind in `from`, your own kinds too, its lowest id in `to`, and 0 for all others and at
 * index 0. So elements of an extension that has no kind here go on if both maps give it one kind of your
 * own. Make it once for two streams:
 *
 *     rtpw_new_ids_between(&publisher.map, &subscriber.map, &route.ids);
 *     route.ids.id[rtpw_id_of(&publisher.map, RTPW_KIND_TRANSPORT_NUMBER)] = 0; // it is of one transport alone
 *     ...
 *     int32_t status = rtpw_renumber(datagram, len, &route.ids); // for each packet
 */
void rtpw_new_ids_between(const rtpw_map *from, const rtpw_map *to, RTPW_OUT rtpw_new_ids *ids);
/* Gives each element of the packet in the buffer its new id, and makes one that gets none padding; no
 * other byte changes. A packet without elements stays as it is. RTPW_OK; RTPW_LONG_ID where an element would
 * get an id above 14 in the one-byte form, which can't carry it; or the first cause for which the buffer holds
 * no packet. Where it isn't RTPW_OK nothing changes. */
RTPW_CHECKED int32_t rtpw_renumber(RTPW_INOUT RTPW_COUNT(len) RTPW_PACKET(block) uint8_t *datagram, size_t len,
                                   const rtpw_new_ids *ids);

/* ---- Padding and retransmissions ---- */

/* Makes a packet of padding alone after its header: sets P, and writes the padding from header_len on,
 * zeros and in the last byte their count: pad_len rounded up to whole blocks, at most 240 bytes, which are whole blocks
 * of 16 bytes, and not of each size. With a pad_len of 0 nothing changes, no room is wanted, and the count is 0. To
 * pad a packet with a payload, pass the end of the payload without its padding as header_len. Whether the buffer holds
 * a packet isn't looked at: with a header_len of 0 the padding takes the place of the first byte, and no P is set.
 * RTPW_OK;
 * RTPW_BAD_FIELD where block_size is 0, whatever pad_len is; RTPW_SHORT_BUFFER where size is below header_len
 * and the padding. The packet then has header_len + *count bytes. */
RTPW_CHECKED int32_t rtpw_pad(RTPW_INOUT RTPW_COUNT(size) RTPW_PART(0, 1)
                                  RTPW_READ_IF(pad_len != 0 && header_len != 0 && size != 0) uint8_t *datagram,
                              size_t size, size_t header_len, uint8_t pad_len, size_t block_size,
                              RTPW_OUT size_t *count);

/* The original sequence number that the payload of a retransmission packet begins with (RFC 4588, 4), before the
 * original payload: read, or the low 16 bits of it written, for who makes the rest of the packet without
 * rtpw_to_retransmission and rtpw_from_retransmission. RTPW_OK, or RTPW_SHORT_BUFFER where there are fewer than two
 * bytes. */
RTPW_CHECKED int32_t rtpw_read_original(RTPW_COUNT(len) RTPW_PART(0, 2) RTPW_READ_IF(len >= 2) const uint8_t *payload,
                                        size_t len, RTPW_OUT uint16_t *number);
RTPW_CHECKED int32_t rtpw_write_original(RTPW_OUT RTPW_COUNT(size) RTPW_PART(0, 2) uint8_t *payload, size_t size,
                                         uint64_t number);

/* The new ids of elements where packets become retransmissions, and on the way back (RFC 8852, 3). Where the
 * map has both RTPW_KIND_RID and RTPW_KIND_REPAIRED_RID, an id of the first becomes the lowest id of the
 * second, and the ids of the second get none, so that one element tells the stream; back it is the other way
 * round. Every other id keeps itself, also one that means no kind, and so does each where the map hasn't both;
 * 0 at index 0. Make them once for a map. */
void rtpw_new_ids_to_retransmission(const rtpw_map *map, RTPW_OUT rtpw_new_ids *ids);
void rtpw_new_ids_from_retransmission(const rtpw_map *map, RTPW_OUT rtpw_new_ids *ids);
/* Makes the packet in the first *len bytes of the buffer a retransmission (RFC 4588, 4): with this SSRC, payload
 * type and number of its own, the elements under their new ids, and as payload the original number in two bytes
 * and the original payload without its padding. P becomes clear, and all else stays, M and the timestamp too. *len
 * becomes its length, two bytes more than the packet has without its padding; bytes behind it stay. The payload
 * moves within the buffer; `len` and `ids` must not lie there.
 *
 * RTPW_OK; or the first that applies: RTPW_BAD_FIELD where payload_type is above 127 or *len is above size; the first
 * cause for which there is no packet; RTPW_BAD_FIELD where padding_fits is 0; RTPW_LONG_ID where an element would get
 * an id above 14 in the one-byte form; RTPW_SHORT_BUFFER where only room for the two bytes lacks. Where it isn't
 * RTPW_OK nothing changes.
 *
 *     uint8_t datagram[1500];
 *     size_t len = stored_packet(datagram, sizeof datagram - 2);
 *     status = rtpw_to_retransmission(datagram, sizeof datagram, &len, rtx->ssrc, rtx->payload_type, rtx->next, &ids);
 *     if (status == RTPW_OK) {
 *         rtx->next++;
 *         send_again(datagram, len);
 *     }
 */
RTPW_CHECKED int32_t rtpw_to_retransmission(RTPW_INOUT RTPW_COUNT(size) RTPW_PACKET(block, padding) uint8_t *buf,
                                            size_t size, RTPW_INOUT size_t *len, uint32_t ssrc, uint8_t payload_type,
                                            uint16_t number, const rtpw_new_ids *ids);
/* Makes the retransmission in the first *len bytes of the buffer the packet that it repeats: with this SSRC and
 * payload type, the original number, the elements under their new ids, and as payload what follows that number,
 * without padding. P becomes clear, and all else stays. *len becomes its length, two bytes less than the
 * retransmission has without its padding; bytes behind it stay.
 *
 * RTPW_OK; or the first that applies: RTPW_BAD_FIELD where payload_type is above 127 or *len is above size; the first
 * cause for which there is no packet; RTPW_BAD_FIELD where padding_fits is 0; RTPW_NONE where the payload without its
 * padding has fewer than the two bytes of a number; RTPW_LONG_ID where an element would get an id above 14 in the
 * one-byte form. Where it isn't RTPW_OK nothing changes. */
RTPW_CHECKED int32_t rtpw_from_retransmission(RTPW_INOUT RTPW_COUNT(size) RTPW_PACKET(block, padding, number)
                                                  uint8_t *buf, size_t size, RTPW_INOUT size_t *len, uint32_t ssrc,
                                              uint8_t payload_type, const rtpw_new_ids *ids);

/* ---- The numbers of a stream ---- */

/* The receive state of one stream, a replay window of 128 numbers (RFC 3711, 3.3.1 and 3.3.2). 32
 * bytes of plain memory, of which each value is a state: it may be copied and stored. Start it by
 * rtpw_receiver_start, where nothing is authenticated at the rollover count 1: a packet from before the
 * first one then has a number too.
 *
 *     rtpw_receiver receiver;
 *     if (rtpw_receiver_start(&receiver, 1) != RTPW_OK) {
 *         return; // not at a count below 2^48
 *     }
 *     int32_t status = rtpw_receiver_receive(&receiver, packet.sequence_number, &number);
 *
 * {0} has taken nothing yet either, and its first packet has the rollover count 0. It is for SRTP, where a
 * stream's packet indices begin there. Without authentication 65,533 after 5 gets a number near 2^64, and once
 * that is taken nearly all later ones are refused.
 *
 * The fields are told as the functions write them. As these read them, each `started` but 0 counts as 1, and
 * where started the highest number as taken, whatever bit 0 of recorded_low is; where not, of the numbers
 * only those bits of `highest` count that are above the low 16. A bit for a number below 0 is 0 unless the
 * caller set it.
 *
 * SRTP: number_of, accepts, authenticate the packet, record; a forged packet then changes nothing.
 * Where nothing is authenticated one stray packet far ahead is taken, and shuts out all that come behind it, as a
 * sender's restart may: rtpw_wide_restarting_receiver refuses the one and tells the other. */
typedef struct {
    uint64_t highest;       /* the highest number taken; before that, 65,536 times the first packet's rollover count */
    uint64_t recorded_low;  /* bit i: whether highest - i is taken, and so bit 0 is set; 0 before that */
    uint64_t recorded_high; /* bit i: whether highest - 64 - i is taken; 0 before that */
    RTPW_TELLS(recorded_low, recorded_high)
    uint8_t started;        /* 0 where nothing is taken yet, and then 1 */
} rtpw_receiver;

/* Nothing is taken yet, and the first packet has this rollover count: `highest` becomes 65,536 times the
 * count, and all else 0, whatever it was. RTPW_OK, or RTPW_BAD_FIELD where the count is 2^48 or more.
 * With a count of 1 or more a packet from before the first one has a number too, and with 0 one near 2^64. */
RTPW_CHECKED int32_t rtpw_receiver_start(RTPW_OUT rtpw_receiver *receiver, uint64_t rollover_count);
/* The extended sequence number: the nearest to the highest taken that ends in these 16 bits; of the
 * first packet the one with the rollover count of the start. Its low 48 bits are SRTP's packet index. */
uint64_t rtpw_receiver_number_of(const rtpw_receiver *receiver, uint16_t sequence_number);
/* Whether the number may be taken: nothing is taken yet, or it is above the highest taken, or less
 * than 128 below it and not taken. */
bool rtpw_receiver_accepts(const rtpw_receiver *receiver, uint64_t number);
/* Records that the number is taken. One that isn't accepted changes nothing, except that `started` and
 * bit 0 of recorded_low become 1 where they weren't. */
void rtpw_receiver_record(RTPW_INOUT rtpw_receiver *receiver, uint64_t number);
/* RTPW_OK, and the number is written and recorded; or RTPW_REFUSED where it may not be taken. */
RTPW_CHECKED int32_t rtpw_receiver_receive(RTPW_INOUT rtpw_receiver *receiver, uint16_t sequence_number,
                                           RTPW_OUT uint64_t *number);

/* The standing of a number: what is known of it, and why it isn't accepted. */
enum {
    RTPW_NEW = 0,      /* it may be taken */
    RTPW_TAKEN = 1,    /* it is in the window and was taken: the packet is a replay */
    RTPW_TOO_OLD = 2,  /* it is behind the window, which doesn't tell any more whether it was taken */
    RTPW_NO_WINDOW = 3 /* of a wide receiver alone: count is 0 or above 512 */
};

/* RTPW_NEW where rtpw_receiver_accepts is true, and else RTPW_TAKEN or RTPW_TOO_OLD. A packet that was refused changed
 * nothing, so it can be asked afterwards:
 *
 *     if (status == RTPW_REFUSED) {
 *         uint64_t number = rtpw_receiver_number_of(&receiver, packet.sequence_number);
 *         late += rtpw_receiver_standing_of(&receiver, number) == RTPW_TOO_OLD;
 *     }
 */
uint8_t rtpw_receiver_standing_of(const rtpw_receiver *receiver, uint64_t number);

/* The receive state of one stream with a window of another size: 64 numbers for each of 1 to 512 words, which
 * are the caller's array beside it. Choose it so that the window is longer than a packet can be late: at 30
 * Mbit/s 128 numbers are 43 ms; libwebrtc has 1,024, which are 16 words.
 *
 *     rtpw_wide_receiver receiver;
 *     uint64_t words[16];
 *     if (rtpw_wide_receiver_start(&receiver, 1) != RTPW_OK) {
 *         return; // not at a count below 2^48
 *     }
 *     int32_t status = rtpw_wide_receiver_receive(&receiver, words, 16, packet.sequence_number, &number);
 *
 * 16 bytes of plain memory, of which each value is a state, with whatever words: these are written with the
 * first number that is taken, and not read before. Each `started` but 0 counts as 1, and where started the
 * highest number as taken, whatever its bit is. Pass the same words at each call, and as many: another count is
 * another state.
 *
 * The calls are those of rtpw_receiver. Where count is 0 or above 512 they are refused: RTPW_BAD_FIELD, not
 * accepted, and RTPW_NO_WINDOW. */
typedef struct {
    uint64_t highest; /* the highest number taken; before that, 65,536 times the first packet's rollover count */
    uint8_t started;  /* 0 where nothing is taken yet, and then 1 */
} rtpw_wide_receiver;

/* Where started, bit n % 64 of words[n / 64 % count] is whether the number n is taken, for the highest number and
 * each less than 64 * count below it. The bits that numbers below 0 would have are 0 unless the caller set them, and
 * are cleared before a number that has the same bit is judged. */

RTPW_CHECKED int32_t rtpw_wide_receiver_start(RTPW_OUT rtpw_wide_receiver *receiver, uint64_t rollover_count);
uint64_t rtpw_wide_receiver_number_of(const rtpw_wide_receiver *receiver, uint16_t sequence_number);
/* Less than 64 * count below the highest number taken, where rtpw_receiver_accepts says 128. */
bool rtpw_wide_receiver_accepts(const rtpw_wide_receiver *receiver,
                                RTPW_COUNT(count) RTPW_READ_IF(receiver->started && count <= 512) const uint64_t *words,
                                size_t count, uint64_t number);
/* RTPW_OK, and the number is recorded; or RTPW_REFUSED where it isn't accepted. */
RTPW_CHECKED int32_t rtpw_wide_receiver_record(RTPW_INOUT rtpw_wide_receiver *receiver,
                                               RTPW_INOUT RTPW_COUNT(count)
                                                   RTPW_READ_IF(receiver->started && count <= 512) uint64_t *words,
                                               size_t count, uint64_t number);
RTPW_CHECKED int32_t rtpw_wide_receiver_receive(RTPW_INOUT rtpw_wide_receiver *receiver,
                                                RTPW_INOUT RTPW_COUNT(count)
                                                    RTPW_READ_IF(receiver->started && count <= 512) uint64_t *words,
                                                size_t count, uint16_t sequence_number, RTPW_OUT uint64_t *number);
uint8_t rtpw_wide_receiver_standing_of(const rtpw_wide_receiver *receiver,
                                       RTPW_COUNT(count) RTPW_READ_IF(receiver->started && count <= 512)
                                           const uint64_t *words, size_t count, uint64_t number);

/* The receive state of one stream that isn't authenticated and whose sender may start again under the same SSRC
 * (RFC 3550, appendix A.1). Not for SRTP: there a packet that isn't authentic must change nothing, and a sender
 * that starts again would use the numbers of its key anew.
 *
 * A packet is of the stream where its number is less than max_dropout above the highest one taken, or less than
 * 128 below it: it is judged by the window, as by rtpw_receiver. Any other is outside of the stream, and is
 * refused; but where the very next packet of the source has the number after it and is outside of the stream too,
 * the sender has started again. That second packet is taken as the first one of a new epoch, with a new window:
 * what hangs on numbers begins anew.
 *
 * The number of a packet has the low 16 bits that its header has. The first one of all has the rollover count 1,
 * and the first one of each later epoch 2 more than the highest number before it: so all numbers of an epoch are
 * above those of the epochs before it, and a packet from before the first one of an epoch has a number too. Where
 * 2^64 leaves no such number the packet is refused.
 *
 * Nor for packets that may come 128 numbers late, as retransmissions under the stream's own SSRC do: two of them in a
 * row look as if the sender had started again, and copies of what was taken are then taken again. Take
 * rtpw_wide_restarting_receiver for these.
 *
 * 32 bytes of plain memory, of which each value is a state. {0} has taken nothing yet, with the RFC's MAX_DROPOUT of
 * 3,000. The other two bounds are not the RFC's: MAX_MISORDER is the window's 128, where it has 100, and a
 * min_sequential of 0 takes a source with its first packet, where its MIN_SEQUENTIAL is 2. Set max_dropout and
 * min_sequential where others are wanted; rtpw_wide_restarting_receiver has all three. Each `started` but 0 counts as
 * 1, and where started the highest number as taken, whatever its bit is. */
typedef struct {
    uint64_t highest;     /* the highest number taken in the epoch; before that it isn't looked at */
    uint64_t words[2];    /* bit n % 64 of words[n / 64 % 2]: whether the number n is taken in the epoch */
    uint16_t max_dropout; /* 0 stands for 3,000 */
    uint16_t next; /* the 16 bits after those of the last packet outside of the stream, and so after the first one
                    * that is taken */
    uint8_t min_sequential; /* a new source's first packet is taken with the last of so many in a row, each with the
                             * number after that of the one before; 0 is as 1 */
    RTPW_TELLS(next)
    uint8_t in_row;         /* how many packets outside of the stream came last in such a row, at most 255: 1 after one
                             * that has another number than `next` said; before any is taken all are outside */
    RTPW_TELLS(highest, words)
    uint8_t started;        /* 0 where nothing is taken yet, and then 1 */
} rtpw_restarting_receiver;

/* Judges the next packet of the source. RTPW_OK, or RTPW_RESTARTED where it begins another epoch than the first:
 * it is taken, and its number written. RTPW_REFUSED where it is a replay or outside of the stream: the number isn't
 * written, and what is taken stays as it was; a `started` above 1 becomes 1, and then the bit of `highest` is set.
 *
 *     uint64_t number;
 *     int32_t status = rtpw_restarting_receive(&receiver, packet.sequence_number, &number);
 *     if (status == RTPW_RESTARTED) {
 *         begin_anew(); // and go on: the packet is taken
 *     } else if (status != RTPW_OK) {
 *         return drop(status);
 *     }
 */
RTPW_CHECKED int32_t rtpw_restarting_receive(RTPW_INOUT RTPW_WRITTEN_IF(RTPW_OK, RTPW_RESTARTED, RTPW_REFUSED)
                                                 rtpw_restarting_receiver *receiver,
                                             uint16_t sequence_number,
                                             RTPW_OUT RTPW_WRITTEN_IF(RTPW_OK, RTPW_RESTARTED) uint64_t *number);

/* Statistics of the packets that came from one source, by which its receiver reports what it got (RFC 3550, 6.4.1,
 * A.3 and A.8):
 *
 *     status = rtpw_wide_restarting_receive(&receiver, words, 16, header->sequence_number, &number);
 *     if (status == RTPW_RESTARTED) {
 *         memset(&reception, 0, sizeof reception); // and begin anew
 *     }
 *     if (receiver.in_row == 0) { // it is of the stream, taken or not
 *         number = rtpw_extend_u16(receiver.highest, header->sequence_number);
 *         rtpw_reception_record(&reception, number, header->timestamp, now);
 *     }
 *
 * Record each packet of the source, those that are late and duplicates too, whether the receiver takes it or
 * refuses it: they count as received, so that the loss may be negative. With SRTP record it once it is authentic, by
 * rtpw_receiver_number_of.
 * Packets are expected from the first one's number on, even where one with a lower number comes later: once one came
 * these are highest - first + 1.
 *
 * 56 bytes of plain memory. {0} has recorded nothing yet. Each value may be passed, but what is reported of one that
 * these calls don't leave means nothing. A count of packets past 64 bits stays at 2^64 - 1. */
typedef struct {
    uint64_t first;           /* the extended sequence number of the first packet */
    uint64_t highest;         /* the highest extended sequence number of a packet */
    uint64_t received;        /* how many packets came; 0 where none did yet */
    uint64_t received_before; /* how many had come at the last report */
    uint64_t expected_before; /* how many were expected at the last report */
    uint64_t scaled_jitter;   /* sixteen times the jitter */
    uint32_t transit;         /* the arrival less the timestamp of the packet that came last, modulo 2^32 */
} rtpw_reception;

/* What a report block says of a source, but for its SSRC and the times of the last sender report: 16 bytes. */
typedef struct {
    uint8_t fraction_lost;     /* of the packets expected since the last report, in 256ths, rounded down; 0 where the
                                * loss is negative */
    int32_t cumulative_lost;   /* the packets expected less those received, since the first one: -8,388,608 to
                                * 8,388,607, and one of these two where it is beyond them */
    uint32_t extended_highest; /* the highest sequence number, and in the high 16 bits how often they rolled over
                                * since the first packet */
    uint32_t jitter;           /* in ticks of the timestamp's clock */
} rtpw_report;

/* Records a packet that came, by its extended sequence number, its timestamp and the time of its arrival: in ticks of
 * the timestamp's clock, from any moment on, modulo 2^32. */
void rtpw_reception_record(RTPW_INOUT rtpw_reception *reception, uint64_t number, uint32_t timestamp, uint32_t arrival);

/* Reports on the packets that were recorded, and begins the interval of the next report. RTPW_NONE where none was
 * counted since the last report, since no report on the source is owed then (6.4): so always once 2^64 - 1 were
 * reported on, where the count ends. */
RTPW_CHECKED int32_t rtpw_reception_report(RTPW_INOUT rtpw_reception *reception, RTPW_OUT rtpw_report *report);

/* Writes the report block on this source to the front of the buffer, and that it has 24 bytes (6.4.1). last_report is
 * LSR, the middle 32 bits of the NTP time of the last sender report, and delay is DLSR, the time since it came in
 * units of 1/65,536 s: both 0 where none came yet. A cumulative_lost that 24 bits can't carry is written as the
 * nearest that they can. */
RTPW_CHECKED int32_t rtpw_write_report(const rtpw_report *report, uint32_t ssrc, uint32_t last_report, uint32_t delay,
                                       RTPW_OUT RTPW_COUNT(size) uint8_t *buf, size_t size, RTPW_OUT size_t *len);

/* The same with a window of another size, 64 numbers for each of 1 to 512 words, as rtpw_wide_receiver has it, and
 * with a bound for late packets apart from the window's size: a packet is of the stream where its number is less than
 * max_dropout above the highest one taken, or less than max_misorder below it. What is of the stream and behind the
 * window is too old to tell, and is refused; two of those in a row are no restart.
 *
 *     rtpw_wide_restarting_receiver receiver = {0};
 *     uint64_t words[16];
 *     int32_t status = rtpw_wide_restarting_receive(&receiver, words, 16, packet.sequence_number, &number);
 *
 * Choose the window longer than a packet can be late, so that retransmissions are taken, and max_misorder so that none
 * comes later still. A sender that starts again with a number that is less than max_misorder below the highest one, or
 * less than max_dropout above it, isn't seen: until its packets pass the highest number they are judged as late ones,
 * and refused where their numbers were taken or are too old to tell.
 *
 * 24 bytes of plain memory, of which each value is a state, with whatever words: these are written with the first
 * number that is taken, and not read before. {0} has taken nothing yet, with bounds that are safe where packets are
 * sent again: max_dropout is the RFC's 3,000, max_misorder 3,000 too, or the size of the window where that is more, and
 * no packet of a source is lost. RFC 3550, A.1, has a MAX_MISORDER of 100 and a MIN_SEQUENTIAL of 2. Pass the same
 * words at each call, and as many. Each `started` but 0 counts as 1, and where started the highest number as taken,
 * whatever its bit is. */
typedef struct {
    uint64_t highest;      /* the highest number taken in the epoch; before that it isn't looked at */
    uint16_t max_dropout;  /* 0 stands for 3,000 */
    uint16_t max_misorder; /* 0 stands for 3,000, or for 64 * count where that is more */
    uint16_t next; /* the 16 bits after those of the last packet outside of the stream, and so after the first one
                    * that is taken */
    uint8_t min_sequential; /* a new source's first packet is taken with the last of so many in a row, each with the
                             * number after that of the one before; 0 is as 1 */
    RTPW_TELLS(next)
    uint8_t in_row;         /* how many packets outside of the stream came last in such a row, at most 255: 1 after one
                             * that has another number than `next` said; before any is taken all are outside */
    RTPW_TELLS(highest)
    uint8_t started;        /* 0 where nothing is taken yet, and then 1 */
} rtpw_wide_restarting_receiver;

/* Judges the next packet of the source, as rtpw_restarting_receive does, but that at RTPW_REFUSED `started` stays as it
 * is; RTPW_BAD_FIELD where count is 0 or above 512, and then nothing is written. Where started, bit n % 64 of words[n /
 * 64 % count] is whether the number n is taken. */
RTPW_CHECKED int32_t rtpw_wide_restarting_receive(RTPW_INOUT RTPW_WRITTEN_IF(RTPW_OK, RTPW_RESTARTED, RTPW_REFUSED)
                                                      RTPW_READ_IF(count != 0 && count <= 512)
                                                      rtpw_wide_restarting_receiver *receiver,
                                                  RTPW_INOUT RTPW_COUNT(count) RTPW_WRITTEN_IF(RTPW_OK, RTPW_RESTARTED)
                                                      RTPW_READ_IF(count != 0 && count <= 512 && receiver->started)
                                                      uint64_t *words, size_t count, uint16_t sequence_number,
                                                  RTPW_OUT RTPW_WRITTEN_IF(RTPW_OK, RTPW_RESTARTED) uint64_t *number);

/* For what rolls over and has no receiver, as the number of a frame, a picture's id or a timestamp: the number nearest
 * to the previous one, modulo 2^64, that ends in these 8, 15, 16 or 32 bits. Where two are equally near it is the one
 * with the rollover count of the previous one. The sixteenth bit of what is extended as 15 bits isn't looked at. Begin
 * with the first number and one rollover, 2^16 more for 16 bits: from 0 on a number in the upper half of the range gets
 * one near 2^64. */
uint64_t rtpw_extend_u8(uint64_t previous, uint8_t number);
uint64_t rtpw_extend_u15(uint64_t previous, uint16_t number);
uint64_t rtpw_extend_u16(uint64_t previous, uint16_t number);
uint64_t rtpw_extend_u32(uint64_t previous, uint32_t number);

/* ---- Many at once ---- */

/* Several datagrams in one call, as they lie in one buffer: one that recvmmsg filled, a ring, a capture. Each is
 * named by its place and its length, and what is told of it is what the calls for one tell of it alone: one that is
 * no packet, or isn't within the buffer, spoils no other. They may be in any order, overlap one another, and be named
 * twice: they are only read. The array of structs is written, and lies neither in the buffer nor in the map. A count
 * of 0 does nothing, and how many there are isn't limited.
 *
 *     enum { COUNT = 32, ROOM = 1500 };
 *     static uint8_t buf[COUNT * ROOM]; // msgs[i].msg_hdr.msg_iov is buf + i * ROOM and ROOM
 *     rtpw_whole_datagram datagrams[COUNT];
 *     int count = recvmmsg(socket, msgs, COUNT, MSG_WAITFORONE, NULL);
 *     for (int i = 0; i < count; i++) {
 *         datagrams[i].at = (size_t)i * ROOM;
 *         datagrams[i].len = msgs[i].msg_len;
 *     }
 *     rtpw_read_many(buf, sizeof buf, &map, datagrams, (size_t)(count < 0 ? 0 : count));
 *     for (int i = 0; i < count; i++) {
 *         const rtpw_whole_datagram *it = &datagrams[i];
 *         const rtpw_header *header = &it->packet.header;
 *         if (it->status == RTPW_RTCP) {
 *             control(buf + it->at, it->len);
 *         } else if (it->status == RTPW_OK && it->packet.padding_fits) {
 *             deliver(header->ssrc, buf + it->at + header->header_len, it->packet.unpadded_len);
 *         }
 *     }
 */

/* One of several datagrams in a buffer: where it lies is given, what it says is written. 280 bytes. */
typedef struct {
    size_t at;                /* given: where it begins in the buffer, in bytes */
    size_t len;               /* given: how many bytes it has */
    RTPW_OUT
    rtpw_whole_packet packet; /* what rtpw_read writes of it, counted from its own first byte; else as it was */
    RTPW_OUT RTPW_WRITTEN_IF(RTPW_ANY_STATUS)
    int32_t status;           /* what rtpw_read returns of it; RTPW_BAD_FIELD where it isn't within the buffer */
} rtpw_whole_datagram;

/* The same without the values, for who doesn't look at them. 88 bytes. */
typedef struct {
    size_t at;          /* given: where it begins in the buffer, in bytes */
    size_t len;         /* given: how many bytes it has */
    RTPW_OUT
    rtpw_packet packet; /* what rtpw_packet_parse writes of it, counted from its own first byte; else as it was */
    RTPW_OUT RTPW_WRITTEN_IF(RTPW_ANY_STATUS)
    int32_t status;     /* what rtpw_packet_parse returns of it; RTPW_BAD_FIELD where it isn't within the buffer */
    RTPW_OUT RTPW_WRITTEN_IF(RTPW_ANY_STATUS)
    uint8_t is_rtcp;    /* what rtpw_is_rtcp returns of it: 0 or 1; 0 where it isn't within the buffer */
} rtpw_datagram;

/* The same with the header alone and its values, as rtpw_parse tells them. 248 bytes. */
typedef struct {
    size_t at;
    size_t len;
    RTPW_OUT
    rtpw_header header; /* what rtpw_parse writes of it; else as it was. The payload begins header.header_len bytes
                         * behind `at` */
    RTPW_OUT RTPW_WRITTEN_IF(RTPW_ANY_STATUS)
    int32_t status;     /* what rtpw_parse returns of it; RTPW_BAD_FIELD where it isn't within the buffer */
    RTPW_OUT RTPW_WRITTEN_IF(RTPW_ANY_STATUS)
    uint8_t is_rtcp;
} rtpw_datagram_header;

/* Reads each of the datagrams. It is within the buffer where `at` is at most size, and len at most size - at: no sum is
 * cut. rtpw_packet_parse_many and rtpw_parse_many read RTCP too, as rtpw_packet_parse reads it: look at is_rtcp first
 * where it comes to the same port. Of packets with values take rtpw_read_many: rtpw_parse_many tells neither where the
 * padding begins nor a packet whose block is of another form. */
void rtpw_read_many(RTPW_COUNT(size) RTPW_PACKET(whole) RTPW_EACH(datagrams) const uint8_t *buf, size_t size,
                    RTPW_READ_IF(count != 0) const rtpw_map *map,
                    RTPW_INOUT RTPW_COUNT(count) rtpw_whole_datagram *datagrams, size_t count);
void rtpw_packet_parse_many(RTPW_COUNT(size) RTPW_PACKET(fields) RTPW_EACH(datagrams) const uint8_t *buf, size_t size,
                            RTPW_INOUT RTPW_COUNT(count) rtpw_datagram *datagrams, size_t count);
void rtpw_parse_many(RTPW_COUNT(size) RTPW_PACKET(header) RTPW_EACH(datagrams) const uint8_t *buf, size_t size,
                     RTPW_READ_IF(count != 0) const rtpw_map *map,
                     RTPW_INOUT RTPW_COUNT(count) rtpw_datagram_header *datagrams, size_t count);

/* A sequence number for one of several receivers. 24 bytes. */
typedef struct {
    size_t receiver;          /* given: its place in the receivers */
    RTPW_OUT
    uint64_t number;          /* what rtpw_receiver_receive writes: the extended sequence number; else as it was */
    uint16_t sequence_number; /* given */
    RTPW_OUT RTPW_WRITTEN_IF(RTPW_ANY_STATUS)
    int32_t status;           /* what rtpw_receiver_receive returns: RTPW_OK or RTPW_REFUSED; RTPW_BAD_FIELD where there
                               * is no such receiver */
} rtpw_arrival;

/* Takes each of the sequence numbers in the receiver at its place, the first one first: each is judged by what its
 * receiver has taken before, also in this call. One that is refused, or has no receiver, stops none after it. The
 * receivers and the arrivals are two arrays that don't overlap. As rtpw_receiver_receive it is for streams that aren't
 * authenticated, or whose packets are known to be authentic. */
void rtpw_receive_many(RTPW_INOUT RTPW_COUNT(receiver_count) RTPW_EACH(arrivals) rtpw_receiver *receivers,
                       size_t receiver_count, RTPW_INOUT RTPW_COUNT(count) rtpw_arrival *arrivals, size_t count);

/* ---- One packet to all its receivers ---- */

/* Each receiver of a packet gets a header of its own before the one payload, which stays where it lies (writev; RFC
 * 7667, 3.7). Receivers that have in common the new ids, the elements that are put into the packet, and how many bytes
 * of data each of these has, are a group: one header is made for the group, and each receiver gets a copy of it with
 * fields and data of its own. That is what rtpw_set_fields, rtpw_renumber, rtpw_put_element for each element and
 * rtpw_compact make of a copy of the packet's header, one after another; before rtpw_renumber, where that would return
 * RTPW_LONG_ID, rtpw_change_form makes the block one of the two-byte form, if that is allowed.
 *
 *     const uint8_t packet[] = {0x90, 96, 0, 5, 0, 0, 0, 100, 0, 0, 0, 44, 0xBE, 0xDE, 0, 1, 0x10, 0xAA, 0, 0};
 *     rtpw_new_ids ids = {{0}};
 *     ids.id[1] = 3;
 *     const uint8_t numbers[] = {0, 7, 0, 8};         // a transport number for each receiver,
 *     const rtpw_element element = {0, 2, 0, 4};      // two bytes of the id 4
 *     uint8_t header[304];
 *     rtpw_template made;
 *     int32_t status = rtpw_make_template(packet, sizeof packet, &ids, numbers, sizeof numbers, &element, 1,
 *                                         RTPW_ANY_FORM, header, sizeof header, &made);
 *     if (status != RTPW_OK) {
 *         return drop(status);
 *     } // made.header_len is 24, and made.data_at[0] is 19
 *     rtpw_routed_header receivers[2] = {{0}};
 *     for (size_t i = 0; i < 2; i++) {
 *         receivers[i].data_at = i * made.data_total;
 *         receivers[i].fields.has_ssrc = 1;
 *         receivers[i].fields.ssrc = ssrc[i]; // 45 and 46
 *     }
 *     uint8_t headers[2 * 306]; // made.header_len + 2 for each is enough
 *     status = rtpw_write_headers(&made, header, sizeof header, numbers, sizeof numbers, receivers, 2, headers,
 *                                 sizeof headers);
 *     for (size_t i = 0; i < 2; i++) {
 *         if (status == RTPW_OK && receivers[i].status == RTPW_OK) {
 *             send_to(i, headers + receivers[i].at, receivers[i].len, packet + payload_at, payload_len);
 *         }
 *     }
 *     // the second is 90 60 00 05 00 00 00 64 00 00 00 2E BE DE 00 02 30 AA 41 00 08 00 00 00, and lies at 24
 *
 * A receiver may get the packet as a retransmission (RFC 4588, 4): set is_retransmission and original_number, and as
 * its fields the SSRC, the payload type and the number of its stream of retransmissions, and the timestamp and the
 * marker that it got the packet with, where these were its own. P is then clear, and behind the header stands the
 * original number, in two bytes: what rtpw_to_retransmission makes of what the receiver got, where each id keeps
 * itself. Where a stream id has to become a repaired one (RFC 8852, 3) the retransmissions are a group of their own,
 * with such new ids. Send behind it the payload without its padding: unpadded_len bytes from payload_at on
 * (rtpw_packet); where padding_fits is 0 send none, since the payload isn't looked at here. The second one with the
 * SSRC 47, the payload type 97, the number 9 and the original number 5:
 *
 *     // 90 61 00 09 00 00 00 64 00 00 00 2F BE DE 00 02 30 AA 41 00 08 00 00 00 00 05
 *
 * P of any other header is the packet's: send behind it the payload with its padding, payload_len bytes. To send it
 * without, unpadded_len bytes, set clears_padding: where P stays set the receiver takes the last bytes of the media for
 * padding.
 */

/* A group's header: how long it is, and where in it the data of the group's elements lie, in their order. 88 bytes. */
typedef struct {
    uint32_t header_len;  /* of the header that was made, and of each that is written, without the number behind that of
                           * a retransmission: 12 to 262,216 */
    RTPW_COUNT(count)
    uint32_t data_at[16]; /* where the data of each element begin, in bytes from the header's first one; after the last
                           * as made 0, and as given not looked at */
    uint16_t data_total;  /* how many bytes of data each receiver brings: the sum of data_len, 0 to 4,080 */
    uint8_t count;        /* how many elements there are: 0 to 16 */
    RTPW_COUNT(count)
    uint8_t data_len[16]; /* how many bytes of data each has, 0 to 255; after the last as data_at */
} rtpw_template;

/* Makes the header that the packet gets for a group, at the front of the buffer, and tells of it in *made: for a group
 * of one packet, where one of many is prepared once (rtpw_prepare_group, rtpw_make_from_group). Each element of the
 * packet gets its new id, and one that gets none goes (rtpw_renumber); before that a block of the one-byte form gets
 * the two-byte form, where a new id is above 14 and that form is allowed (rtpw_change_form). Then the elements that are
 * given are put into it, in their order (rtpw_put_element; `allowed` is as there), each named as in
 * rtpw_write_elements: at most 16, of ids of their own. Where none is put, and no new id asks for another form, the
 * block keeps its form, allowed or not. Only the packet's header is looked at. A buffer of twice the packet's header
 * and 264 bytes for each element has room.
 *
 * RTPW_OK; RTPW_BAD_FIELD, before all else, where `allowed` is none of the three, count is above 16, or data_at +
 * data_len of an element is above the length of `data`; the first cause for which the bytes are no packet;
 * RTPW_BAD_FIELD where two of the elements have one id; and then what the first of those calls returns that refuses:
 * RTPW_SHORT_BUFFER where the packet's header has no room; RTPW_LONG_ID where an element gets a new id above 14, the
 * packet's form is the one-byte form, and RTPW_ONE_BYTE_FORM alone is allowed; RTPW_LONG_BLOCK or RTPW_SHORT_BUFFER
 * where all of the packet's own elements, also those that then go, have no room in the two-byte form that a new id asks
 * for; and of the elements in turn, as rtpw_put_element, RTPW_BAD_ID, RTPW_BAD_FIELD of more than 255 bytes of data,
 * RTPW_UNKNOWN_FORM, RTPW_LONG_ID, RTPW_FORM_NOT_ALLOWED, RTPW_LONG_BLOCK or RTPW_SHORT_BUFFER. Where it isn't RTPW_OK
 * *made is as it was, but the buffer may hold anything; so may what lies behind the header where it is. */
RTPW_CHECKED int32_t rtpw_make_template(RTPW_COUNT(len) RTPW_PACKET(header) const uint8_t *datagram, size_t len,
                                        const rtpw_new_ids *ids,
                                        RTPW_COUNT(data_len) RTPW_EACH(elements) const uint8_t *data, size_t data_len,
                                        RTPW_COUNT(count) const rtpw_element *elements, size_t count, uint8_t allowed,
                                        RTPW_OUT RTPW_COUNT(size) RTPW_WRITTEN_IF(RTPW_ANY_STATUS) uint8_t *buf,
                                        size_t size, RTPW_OUT rtpw_template *made);

/* What the receivers of a group have in common, as rtpw_prepare_group makes it of new ids, elements and a form: it is
 * kept beside the group as long as these stay, and isn't changed by hand. 550 bytes. */
typedef struct {
    uint8_t new_ids[256];     /* the new id of each id, and 0 where it has none, as at index 0 */
    uint8_t numbers[256];     /* the place of the element of each id, counted from 1, and 0 where none has it */
    uint8_t element_ids[16];  /* the id of each element that is put */
    uint8_t data_lens[16];    /* how many bytes of data each has */
    uint16_t data_total;      /* how many bytes of data each receiver brings: their sum, 0 to 4,080 */
    uint8_t count;            /* how many elements there are: 0 to 16 */
    uint8_t allowed;          /* which form the block may get: RTPW_ANY_FORM, or RTPW_ONE_BYTE_FORM or
                               * RTPW_TWO_BYTE_FORM alone */
    uint8_t one_byte;         /* not 0 where the one-byte form can carry each element */
} rtpw_group;

/* Checks and tables what receivers have in common, once for all packets: the new ids of a packet's elements, the
 * elements that are put into it, and the form that its block may get (`allowed`, as in rtpw_put_element). Of an element
 * its id and data_len are looked at, and not where its data lie: each receiver brings its own. So a server prepares a
 * group when a session's ids are agreed on, and for each packet calls rtpw_make_from_group and rtpw_write_headers.
 * Where no element is put and no new id asks for another form, the block keeps its form, allowed or not
 * (rtpw_make_template): a peer that hasn't agreed to a form has to be looked after by rtpw_change_form.
 *
 *     const rtpw_element element = {0, 2, 0, 4};      // two bytes of the id 4
 *     rtpw_group group;
 *     int32_t status = rtpw_prepare_group(&ids, &element, 1, RTPW_ANY_FORM, &group);      // once
 *     ..
 *     status = rtpw_make_from_group(&group, packet, sizeof packet, header, sizeof header, &made);    // for each packet
 *
 * RTPW_OK; RTPW_BAD_FIELD where `allowed` is none of the three, count is above 16, an element has more than 255 bytes
 * of data, or two have one id; or RTPW_BAD_ID where one has the id 0. Where it isn't RTPW_OK *group is as it was. */
RTPW_CHECKED int32_t rtpw_prepare_group(const rtpw_new_ids *ids,
                                        RTPW_COUNT(count) RTPW_BUT(data_at) const rtpw_element *elements, size_t count,
                                        uint8_t allowed, RTPW_OUT rtpw_group *group);

/* Makes the header that the packet gets for a group that was prepared, at the front of the buffer, and tells of it in
 * *made: byte for byte what rtpw_make_template makes with the new ids, the elements and the form of the group, where
 * the elements' data are zeros. In their place rtpw_write_headers puts each receiver's.
 *
 * RTPW_OK; RTPW_BAD_FIELD, before all else, where *group is none that rtpw_prepare_group makes; and then what
 * rtpw_make_template returns. Where it isn't RTPW_OK *made is as it was, but the buffer may hold anything; so may what
 * lies behind the header where it is. */
RTPW_CHECKED int32_t rtpw_make_from_group(const rtpw_group *group,
                                          RTPW_COUNT(len) RTPW_PACKET(header) const uint8_t *datagram, size_t len,
                                          RTPW_OUT RTPW_COUNT(size) RTPW_WRITTEN_IF(RTPW_ANY_STATUS) uint8_t *buf,
                                          size_t size, RTPW_OUT rtpw_template *made);

/* One of the receivers of a group, and the header that it gets. 48 bytes. */
typedef struct {
    size_t data_at;     /* given: where its data begin, in bytes from the first one of the data:
                         * made->data_total bytes, those of the group's elements one after another in their
                         * order */
    RTPW_OUT RTPW_WRITTEN_IF(RTPW_ANY_STATUS)
    size_t at;          /* written: where its header begins in the buffer: behind that of the receiver before it */
    rtpw_fields fields; /* given: its fields, as rtpw_set_fields takes them; the others are the packet's */
    uint16_t original_number;  /* given, where it is a retransmission: the number that the receiver got the packet
                                * with */
    RTPW_TELLS(original_number)
    uint8_t is_retransmission; /* given: where it isn't 0, the header is that of a retransmission, with the original
                                * number behind it */
    uint8_t clears_padding; /* given: where it isn't 0 P is clear, as it always is for a retransmission: for a payload
                             * that is sent without its padding */
    RTPW_OUT RTPW_WRITTEN_IF(RTPW_ANY_STATUS)
    int32_t status;         /* written: RTPW_OK; RTPW_BAD_FIELD where there is a payload type above 127, or data_at +
                             * made->data_total is above the length of the data; RTPW_SHORT_BUFFER where its header,
                             * or the number behind it, would reach past the buffer */
    RTPW_OUT RTPW_WRITTEN_IF(RTPW_ANY_STATUS)
    uint32_t len;           /* written: how many bytes its header has, with the number behind that of a retransmission;
                             * 0 where it isn't RTPW_OK */
} rtpw_routed_header;

/* Writes the headers of receivers of the group, made->header_len bytes each, and two more of a retransmission, with
 * what rtpw_make_template has made: *made, and the header at the front of `header`, of which nothing behind that is
 * looked at. With the payload behind it each is the packet that goes to the receiver; of a retransmission the payload
 * without its padding. They are written in the order of the array, one after another from the buffer's first byte on:
 * each begins where the one before it ends, and so none overlaps another. One that isn't RTPW_OK takes no bytes, and
 * spoils no other: its len is 0, and its at that of the one after it. Bytes behind the last one stay. How many there
 * are isn't limited, and a count of 0 writes nothing.
 *
 * RTPW_OK, whatever the statuses of the receivers are. RTPW_BAD_FIELD where *made can't be of this header: its count is
 * above 16, header_len above header_size, data_at + data_len of an element above header_len, or data_total isn't how
 * many they are; then the first cause for which the first header_len bytes are no packet; then RTPW_BAD_FIELD where
 * they have a payload. More isn't looked at: where rtpw_make_template didn't make it, the data are written where it
 * says, within the header, after the fields and so over them; where P is cleared that comes last. Where it isn't
 * RTPW_OK nothing is written, and no status either. */
RTPW_CHECKED int32_t rtpw_write_headers(const rtpw_template *made,
                                        RTPW_COUNT(header_size) RTPW_PART(0, made->header_len)
                                            RTPW_READ_IF(made->header_len <= header_size) const uint8_t *header,
                                        size_t header_size, RTPW_COUNT(data_len) const uint8_t *data, size_t data_len,
                                        RTPW_INOUT RTPW_COUNT(count) rtpw_routed_header *receivers, size_t count,
                                        RTPW_OUT RTPW_COUNT(size) uint8_t *buf, size_t size);

/* In a program that is built with -fsanitize=address, memory or thread the calls test what they are given, and tell
 * what they read and write, where rtp_wire_sanitized.h lies beside this file: the library itself is built without. */
#if defined(__SANITIZE_ADDRESS__) || defined(__SANITIZE_THREAD__)
#define RTPW_IS_SANITIZED
#elif defined(__has_feature)
#if __has_feature(address_sanitizer) || __has_feature(memory_sanitizer) || __has_feature(thread_sanitizer)
#define RTPW_IS_SANITIZED
#endif
#endif
#if defined(RTPW_IS_SANITIZED) && defined(__has_include)
#if __has_include("rtp_wire_sanitized.h")
#include "rtp_wire_sanitized.h"
#endif
#endif

#ifdef __cplusplus
}
#endif
#endif
