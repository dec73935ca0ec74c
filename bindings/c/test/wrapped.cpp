// The calls of rtp_wire.hpp, each once, beside what was worked out by hand.
#include "../rtp_wire.hpp"

#include <algorithm>
#include <array>
#include <cstdio>
#include <cstdlib>
#include <new>
#include <vector>

// MemorySanitizer wants a library for C++ that is built with it: of std::string it takes what is set for unset.
#ifdef __has_feature
#if __has_feature(memory_sanitizer)
#define STRINGS_LOOK_UNSET 1
#endif
#endif
#ifndef STRINGS_LOOK_UNSET
#define STRINGS_LOOK_UNSET 0
#endif

#define CHECK(holds) \
    do { \
        if (!(holds)) { \
            std::printf("%s:%d: %s\n", __FILE__, __LINE__, #holds); \
            std::exit(1); \
        } \
    } while (0)

namespace {

using rtpw::status;

// One source, a level of -10 dB with voice as the element 3, and a payload of two bytes with one of padding.
const std::vector<std::uint8_t> datagram = {0xb1, 111, 1,    2,    0, 0, 3,    4,    0, 0, 0, 44, 0, 0,
                                            0,    9,   0xbe, 0xde, 0, 1, 0x30, 0x8a, 0, 0, 7, 8,  1};

rtpw_map level_is_3() {
    rtpw_map map{};
    CHECK(rtpw::map_set(map, 3, RTPW_KIND_AUDIO_LEVEL) == status::ok);
    return map;
}

bool same(rtpw::bytes one, std::initializer_list<int> other) {
    std::size_t i = 0;
    for (const int it : other) {
        if (i == one.size() || one[i++] != it) {
            return false;
        }
    }
    return i == one.size();
}

void reads() {
    const std::uint8_t report[] = {0x80, 200};
    CHECK(rtpw::is_rtcp(report) && !rtpw::is_rtcp(datagram) && !rtpw::is_rtcp({}));
    const auto packet = rtpw::packet_parse(datagram);
    CHECK(packet && packet.status() == status::ok);
    CHECK(packet->sequence_number == 258 && packet->timestamp == 772 && (*packet).ssrc == 44);
    CHECK(rtpw::csrc(datagram, 0) == 9);
    CHECK(same(rtpw::payload(datagram, *packet), {7, 8, 1}));
    CHECK(same(rtpw::unpadded_payload(datagram, *packet), {7, 8}));
    CHECK(same(rtpw::body(datagram, *packet), {0x30, 0x8a, 0, 0}));
    int count = 0;
    for (const rtpw::element &it : rtpw::elements(datagram, *packet)) {
        CHECK(it.id == 3 && same(it.data, {0x8a}));
        count++;
    }
    CHECK(count == 1);
    const auto data = rtpw::data_of_element(datagram, *packet, 3);
    CHECK(data && same(*data, {0x8a}));
    CHECK(!rtpw::data_of_element(datagram, *packet, 4));
    CHECK(!rtpw::token(datagram, *packet, 3) && !rtpw::token(datagram, *packet, 4));
    CHECK((*rtpw::last_element(rtpw::body(datagram, *packet), RTPW_ONE_BYTE_FORM, 3)).data_at == 1);
    CHECK(rtpw::next_element(rtpw::body(datagram, *packet), RTPW_ONE_BYTE_FORM, 2).status() == status::none);

    const auto whole = rtpw::read(datagram, level_is_3());
    CHECK(whole && whole->header.ssrc == 44 && whole->header.values.audio_level == -10 && whole->padding_fits == 1);
    CHECK(same(rtpw::unpadded_payload(datagram, *whole), {7, 8}));
    CHECK(same(rtpw::body(datagram, *whole), {0x30, 0x8a, 0, 0}));
    for (const rtpw::element &it : rtpw::elements(datagram, *whole)) {
        CHECK(it.id == 3 && same(it.data, {0x8a}));
        count++;
    }
    CHECK(count == 2);
    const rtpw::elements elements(datagram, *whole);
    CHECK(std::count_if(elements.begin(), elements.end(), [](const rtpw::element &it) { return it.id == 3; }) == 1);
    const auto again = rtpw::data_of_element(datagram, *whole, 3);
    CHECK(again && same(*again, {0x8a}) && !rtpw::data_of_element(datagram, *whole, 4));
    CHECK(!rtpw::token(datagram, *whole, 3) && !rtpw::token(datagram, *whole, 4));
    const auto rtcp = rtpw::read(report, level_is_3());
    CHECK(!rtcp && rtcp.status() == status::rtcp && rtpw::status_text(rtcp.status()) == "a packet of RTCP");
    CHECK(rtpw::read({datagram.data(), 11}, level_is_3()).status() == status::cut_fixed_part);

    const auto cut = rtpw::packet_parse({datagram.data(), 11});
    CHECK(!cut && cut.status() == status::cut_fixed_part && cut->ssrc == 0);
    CHECK(rtpw::status_text(cut.status()) == "fewer than twelve bytes");

    const auto header = rtpw::parse(datagram, level_is_3());
    CHECK(header && header->header_len == 24 && header->values.audio_level == -10 && header->values.voice_activity);
    CHECK(!rtpw::mid(header->values) && !rtpw::rid(header->values) && !rtpw::repaired_rid(header->values));
    const auto values = rtpw::values_read(rtpw::body(datagram, *packet), RTPW_ONE_BYTE_FORM, level_is_3());
    CHECK(values && values->has_audio_level && !values->has_mid);
}

void changes() {
    auto bytes = datagram;
    CHECK(rtpw::set_marker(bytes, true) == status::ok && bytes[1] == 0xef);
    CHECK(rtpw::set_payload_type(bytes, 96) == status::ok && bytes[1] == 0xe0);
    CHECK(rtpw::set_payload_type(bytes, 128) == status::bad_field);
    CHECK(rtpw::set_sequence_number(bytes, 772) == status::ok && bytes[2] == 3 && bytes[3] == 4);
    CHECK(rtpw::set_timestamp(bytes, 5) == status::ok && bytes[7] == 5);
    CHECK(rtpw::set_ssrc(bytes, 45) == status::ok && bytes[11] == 45);
    CHECK(rtpw::set_csrc(bytes, 0, 10) == status::ok && bytes[15] == 10);
    CHECK(rtpw::set_csrc(bytes, 1, 10) == status::none);
    CHECK(rtpw::set_padding(bytes, false) == status::ok && bytes[0] == 0x91);
    rtpw_fields fields{};
    fields.has_ssrc = 1;
    fields.ssrc = 46;
    CHECK(rtpw::set_fields(bytes, fields) == status::ok && bytes[11] == 46 && bytes[7] == 5);
    const std::uint8_t level[] = {0x8b};
    CHECK(rtpw::set_element(bytes, 3, level) == status::ok && bytes[21] == 0x8b);
    CHECK(rtpw::set_element(bytes, 4, level) == status::none);
    CHECK(rtpw::remove_element(bytes, 3) == status::ok && bytes[20] == 0 && bytes[21] == 0);

    bytes = datagram;
    const auto len = rtpw::remove_padding(bytes);
    CHECK(len && *len == 26 && bytes[0] == 0x91);
    const rtpw_new_ids ids = rtpw::new_ids_between(level_is_3(), rtpw::map_standard());
    CHECK(ids.id[3] == 1);
    CHECK(rtpw::renumber(bytes, ids) == status::ok && bytes[20] == 0x10);
}

void grows() {
    std::array<std::uint8_t, 64> buf{};
    std::size_t len = datagram.size();
    std::memcpy(buf.data(), datagram.data(), len);
    const std::array<std::uint8_t, 2> data = {1, 2};
    // Five bytes of elements, and so one word more.
    CHECK(rtpw::put_element(buf, len, 5, data) == status::ok && len == 31);
    CHECK(same({buf.data() + 20, 11}, {0x30, 0x8a, 0x51, 1, 2, 0, 0, 0, 7, 8, 1}));
    const auto packet = rtpw::packet_parse({buf.data(), len});
    std::size_t ids = 0;
    for (const rtpw::element &it : rtpw::elements({buf.data(), len}, *packet)) {
        ids = 10 * ids + it.id;
        CHECK(it.id == 3 || same(it.data, {1, 2}));
    }
    CHECK(ids == 35);
    CHECK(rtpw::put_element(buf, len, 15, data, RTPW_ONE_BYTE_FORM) == status::long_id);
    CHECK(rtpw::put_element(buf, len, 0, data) == status::bad_id);
    CHECK(rtpw::remove_element({buf.data(), len}, 5) == status::ok);
    CHECK(rtpw::compact(buf, len) == status::ok && len == 27);
    CHECK(same({buf.data(), len},
               {0xb1, 111, 1, 2, 0, 0, 3, 4, 0, 0, 0, 44, 0, 0, 0, 9, 0xbe, 0xde, 0, 1, 0x30, 0x8a, 0, 0, 7, 8, 1}));

    const rtpw_map map = level_is_3();
    CHECK(rtpw::to_retransmission(buf, len, 99, 97, 7, rtpw::new_ids_to_retransmission(map)) == status::ok);
    CHECK(len == 28 && buf[0] == 0x91 && buf[1] == 97 && buf[3] == 7 && buf[11] == 99);
    CHECK(same({buf.data() + 24, 4}, {1, 2, 7, 8}));
    CHECK(rtpw::from_retransmission(buf, len, 44, 111, rtpw::new_ids_from_retransmission(map)) == status::ok);
    CHECK(len == 26 && buf[3] == 2 && buf[11] == 44);

    std::uint8_t pads[16] = {0x80};
    const auto count = rtpw::pad(pads, 12, 3, 4);
    CHECK(count && *count == 4 && pads[0] == 0xa0 && same({pads + 12, 4}, {0, 0, 0, 4}));
    CHECK(rtpw::pad(pads, 13, 3, 4).status() == status::short_buffer);
    CHECK(rtpw::write_original(pads, 65538) == status::ok && pads[0] == 0 && pads[1] == 2);
    CHECK(*rtpw::read_original(pads) == 2);
    CHECK(rtpw::read_original({pads, 1}).status() == status::short_buffer);
}

// The block is made anew, taken off, and put there again.
void blocks() {
    std::array<std::uint8_t, 64> buf{};
    std::size_t len = datagram.size();
    std::memcpy(buf.data(), datagram.data(), len);
    const std::uint8_t level[] = {0x8b};
    CHECK(rtpw::add_element(buf, len, 3, level) == status::ok && len == 27);
    CHECK(same({buf.data() + 16, 8}, {0xbe, 0xde, 0, 1, 0x30, 0x8a, 0x30, 0x8b}));
    CHECK(rtpw::add_element(buf, len, 15, level, RTPW_ONE_BYTE_FORM) == status::long_id);
    CHECK(rtpw::add_element(buf, len, 0, level) == status::bad_id && len == 27);
    CHECK(rtpw::change_form(buf, len, RTPW_TWO_BYTE_FORM) == status::ok && len == 31);
    CHECK(same({buf.data() + 16, 12}, {0x10, 0, 0, 2, 3, 1, 0x8a, 3, 1, 0x8b, 0, 0}));
    CHECK(rtpw::change_form(buf, len, RTPW_OTHER_FORM) == status::bad_field);
    CHECK(rtpw::remove_block(buf, len) == status::ok && len == 19);
    CHECK(same({buf.data(), len}, {0xa1, 111, 1, 2, 0, 0, 3, 4, 0, 0, 0, 44, 0, 0, 0, 9, 7, 8, 1}));
    const std::array<std::uint8_t, 4> body = {1, 2, 3, 4};
    CHECK(rtpw::put_block(buf, len, 0xabac, body) == status::ok && len == 27 && buf[0] == 0xb1);
    CHECK(same({buf.data() + 16, 11}, {0xab, 0xac, 0, 1, 1, 2, 3, 4, 7, 8, 1}));
    CHECK(rtpw::put_block(buf, len, 0xabac, {body.data(), 3}) == status::bad_field);
    const std::vector<std::uint8_t> long_body(262144);
    CHECK(rtpw::put_block(buf, len, 0xabac, long_body) == status::long_block);
    CHECK(rtpw::status_text(status::long_block) == "an extension block of more than 65,535 words");
}

void writes() {
    const rtpw_map map = rtpw::map_standard();
    CHECK(rtpw::map_get(map, 4) == RTPW_KIND_MID && rtpw::id_of(map, RTPW_KIND_AUDIO_LEVEL) == 1);
    CHECK(rtpw::kind_of_uri("urn:ietf:params:rtp-hdrext:sdes:mid") == RTPW_KIND_MID);
    CHECK(rtpw::kind_of_uri("urn:ietf:params:rtp-hdrext:sdes:mi") == RTPW_KIND_NONE);
    std::uint8_t uri[RTPW_URI_SIZE];
    CHECK(*rtpw::uri_of_kind(RTPW_KIND_MID, uri) == "urn:ietf:params:rtp-hdrext:sdes:mid");
    CHECK(rtpw::uri_of_kind(RTPW_KIND_MID, {uri, 34}).status() == status::short_buffer);
    CHECK(*rtpw::uri_of_kind(16, uri) == "urn:ietf:params:rtp-hdrext:csrc-audio-level");
    CHECK(rtpw::uri_of_kind(21, uri).status() == status::none);
    rtpw_map changed = map;
    CHECK(rtpw::map_set(changed, 0, RTPW_KIND_MID) == status::bad_field);

    rtpw_header header{};
    CHECK(rtpw::header_with(header.values).has_extension == 0);
    CHECK(rtpw::set_mid(header.values, "microphone") == status::ok);
    CHECK(*rtpw::left_out(map, header) == 1u << RTPW_KIND_MID);
    header = rtpw::header_with(header.values);
    CHECK(header.has_extension == 1 && *rtpw::left_out(map, header) == 0);
    CHECK(rtpw::set_mid(header.values, "audio") == status::ok);
    CHECK(rtpw::set_mid(header.values, "seventeen_letters") == status::bad_field);
    CHECK(rtpw::set_mid(header.values, std::string_view("a\0b", 3)) == status::bad_field);
    CHECK(rtpw::mid(header.values) == "audio");
    std::uint8_t buf[128];
    const auto len = rtpw::write(map, header, buf);
    CHECK(rtpw::token({buf, *len}, *rtpw::packet_parse({buf, *len}), 4) == "audio");
    CHECK(len && *len == 24 && *rtpw::wire_len(map, header) == 24);
    CHECK(same({buf + 12, 12}, {0xbe, 0xde, 0, 2, 0x44, 'a', 'u', 'd', 'i', 'o', 0, 0}));
    CHECK(rtpw::write(map, header, {buf, 23}).status() == status::short_buffer);
    const auto data = rtpw::data_of(RTPW_KIND_MID, header.values, buf);
    CHECK(data && same({buf, *data}, {'a', 'u', 'd', 'i', 'o'}));
    CHECK(rtpw::data_of(RTPW_KIND_RID, header.values, buf).status() == status::none);
    CHECK(rtpw::set_rid(header.values, "12345678") == status::ok && rtpw::rid(header.values) == "12345678");
    CHECK(rtpw::set_rid(header.values, "123456789") == status::bad_field);
    CHECK(rtpw::set_repaired_rid(header.values, "b") == status::ok && rtpw::repaired_rid(header.values) == "b");

    CHECK(rtpw::map_set(changed, 15, RTPW_KIND_LAYERS) == status::ok);
    rtpw_layers layers{};
    layers.count = layers.streams[0].count = layers.streams[0].layers[0].rates = 1;
    layers.streams[0].layers[0].kbps[0] = 300;
    const auto with_layers = rtpw::write_layers(changed, header, layers, buf);
    CHECK(with_layers && *with_layers == *rtpw::wire_len_layers(changed, header, layers));
    CHECK(*rtpw::left_out_layers(changed, header, layers) == *rtpw::left_out(changed, header));
    CHECK(*rtpw::left_out_layers(map, header, layers) == (*rtpw::left_out(map, header) | 1u << RTPW_KIND_LAYERS));
    rtpw_layers read;
    CHECK((*rtpw::parse_layers({buf, *with_layers}, changed, read)).values.has_layers);
    CHECK(read.count == 1 && read.streams[0].layers[0].kbps[0] == 300);

    const std::uint8_t level[] = {9};
    const rtpw_element chosen[] = {{0, 1, 1, 3}};
    CHECK(*rtpw::write_with(header, level, chosen, 1, buf) == 20);
    CHECK(same({buf + 12, 8}, {0xbe, 0xde, 0, 1, 0x30, 9, 0, 0}));
    CHECK(*rtpw::write_with(header, level, chosen, 1, buf, RTPW_TWO_BYTE_FORM) == 20);
    CHECK(same({buf + 12, 8}, {0x10, 0, 0, 1, 3, 1, 9, 0}));
    const rtpw_element above[] = {{0, 1, 1, 20}}; // above 14, so the form is chosen where none is named
    CHECK(*rtpw::write_with(header, level, above, 1, buf) == 20);
    CHECK(same({buf + 12, 8}, {0x10, 0, 0, 1, 20, 1, 9, 0}));
    CHECK(*rtpw::write_elements(level, chosen, 1, RTPW_ONE_BYTE_FORM, buf) == 2 && same({buf, 2}, {0x30, 9}));
    rtpw_fixed_part fixed = {2, 0, 0, 1, 96, 5, 6, 7};
    rtpw_layout layout;
    const rtpw_data_element pointed[] = {{3, level, 1, 0}};
    CHECK(rtpw::write_fixed_part(fixed, buf) == rtpw::status::ok && buf[0] == 0x80 && buf[1] == 0xE0);
    CHECK(*rtpw::write_data_elements(fixed, pointed, RTPW_ONE_BYTE_FORM, buf) == 20 && buf[16] == 0x30 && buf[17] == 9);
    CHECK((*rtpw::read_fixed_part(buf, layout)).ssrc == 7 && layout.payload_at == 20 && layout.body_at == 16);
}

void receives() {
    auto started = rtpw::receiver_start(1);
    CHECK(started && rtpw::receiver_start(std::uint64_t{1} << 48).status() == status::bad_field);
    rtpw_receiver receiver = *started;
    CHECK(*rtpw::receiver_receive(receiver, 5) == 65541);
    CHECK(rtpw::receiver_receive(receiver, 5).status() == status::refused);
    CHECK(rtpw::receiver_number_of(receiver, 65535) == 65535 && rtpw::receiver_accepts(receiver, 65535));
    rtpw::receiver_record(receiver, 65535);
    CHECK(!rtpw::receiver_accepts(receiver, 65535));
    CHECK(rtpw::receiver_standing_of(receiver, 65535) == rtpw::standing::taken);
    CHECK(rtpw::receiver_standing_of(receiver, 65414) == rtpw::standing::unseen);
    CHECK(rtpw::receiver_standing_of(receiver, 65413) == rtpw::standing::too_old);

    auto wide = *rtpw::wide_receiver<16>::starting_at(7);
    CHECK(wide.number_of(5) == 7 * 65536 + 5 && wide.words[15] == 0);
    CHECK(wide.start(1) == status::ok && *wide.receive(5) == 65541 && wide.number_of(4) == 65540);
    CHECK(wide.record(65541 - 1023) == status::ok && !wide.accepts(65541 - 1023) && !wide.accepts(65541 - 1024));
    CHECK(wide.accepts(65541 - 1022));
    CHECK(wide.standing_of(65541 - 1022) == rtpw::standing::unseen && wide.standing_of(65541) == rtpw::standing::taken);
    CHECK(wide.standing_of(65541 - 1024) == rtpw::standing::too_old);

    rtpw_restarting_receiver restarting{};
    CHECK(*rtpw::restarting_receive(restarting, 5) == 65541);
    CHECK(rtpw::restarting_receive(restarting, 30000).status() == status::refused);
    const auto again = rtpw::restarting_receive(restarting, 30001);
    CHECK(again && again.status() == status::restarted && *again == 3 * 65536 + 30001);

    // A quarter of four is lost; the two later transit times are 16 ticks from the ones before.
    rtpw_reception reception{};
    CHECK(rtpw::reception_report(reception).status() == status::none);
    rtpw::reception_record(reception, 65541, 0, 1000);
    rtpw::reception_record(reception, 65542, 3000, 4016);
    rtpw::reception_record(reception, 65544, 9000, 10000);
    const auto report = rtpw::reception_report(reception);
    CHECK(report->fraction_lost == 64 && report->cumulative_lost == 1);
    CHECK(report->extended_highest == 8 && report->jitter == 1);
    std::uint8_t block[24];
    CHECK(*rtpw::write_report({64, -2, 65544, 1}, 44, 0x12345678, 65536, block) == 24);
    CHECK(same(block, {0, 0, 0, 44, 64, 0xff, 0xff, 0xfe, 0, 1, 0, 8, 0, 0, 0, 1, 0x12, 0x34, 0x56, 0x78, 0, 1, 0, 0}));
    CHECK(rtpw::write_report(*report, 44, 0, 0, {block, 23}).status() == status::short_buffer);

    rtpw_wide_restarting_receiver patient{};
    std::uint64_t words[16];
    CHECK(*rtpw::wide_restarting_receive(patient, words, 1999) == 67535);
    CHECK(*rtpw::wide_restarting_receive(patient, words, 1800) == 67336);
    CHECK(*rtpw::wide_restarting_receive(patient, words, 1801) == 67337);
    CHECK(rtpw::wide_restarting_receive(patient, words, 1801).status() == status::refused);
    patient.max_misorder = 100;
    CHECK(rtpw::wide_restarting_receive(patient, words, 1800).status() == status::refused);
    const auto restarted = rtpw::wide_restarting_receive(patient, words, 1801);
    CHECK(restarted && restarted.status() == status::restarted && *restarted == 3 * 65536 + 1801);

    CHECK(rtpw::extend_u8(255, 0) == 256 && rtpw::extend_u15(32767, 0) == 32768);
    CHECK(rtpw::extend_u16(65535, 0) == 65536 && rtpw::extend_u32(0xffffffff, 0) == std::uint64_t{1} << 32);
    CHECK(rtpw::version() == RTPW_VERSION_NUMBER);
}

void standards() {
    std::uint8_t buf[40];
    const std::uint8_t offset[] = {0xff, 0xff, 0xfe};
    CHECK(*rtpw::read_transmission_offset(offset) == -2);
    CHECK(rtpw::read_transmission_offset({offset, 2}).status() == status::bad_field);
    CHECK(*rtpw::write_transmission_offset(258, buf) == 3 && same({buf, 3}, {0, 1, 2}));
    CHECK(rtpw::write_transmission_offset(8388608, buf).status() == status::bad_field);
    CHECK(rtpw::write_transmission_offset(258, {buf, 2}).status() == status::short_buffer);

    // S, E, I, D, B and three bits of TID; LID; TL0PICIDX.
    const std::uint8_t marked[] = {0x5d, 9, 33};
    rtpw_frame_marking marking = *rtpw::read_frame_marking(marked);
    CHECK(marking.start == 0 && marking.end == 1 && marking.independent == 0 && marking.discardable == 1);
    CHECK(marking.has_layers == 1 && marking.base_layer_sync == 1 && marking.temporal_id == 5);
    CHECK(marking.layer_id == 9 && marking.has_tl0_pic_idx == 1 && marking.tl0_pic_idx == 33);
    marking.start = 1;
    marking.has_tl0_pic_idx = 0;
    CHECK(*rtpw::write_frame_marking(marking, buf) == 2 && same({buf, 2}, {0xdd, 9}));
    marking.temporal_id = 8;
    CHECK(rtpw::write_frame_marking(marking, buf).status() == status::bad_field);

    // C, F and two bits of the rotation.
    const std::uint8_t turned[] = {0x0d};
    const auto orientation = rtpw::read_orientation(turned);
    CHECK(orientation->turn == 270 && orientation->camera == RTPW_CAMERA_BACK && orientation->flip == 1);
    CHECK(*rtpw::write_orientation({90, RTPW_CAMERA_FRONT, 1}, buf) == 1 && buf[0] == 7);
    CHECK(rtpw::write_orientation({45, RTPW_CAMERA_FRONT, 1}, buf).status() == status::bad_field);

    const std::uint8_t text[] = {'c', '-', '1', ' '};
    CHECK(rtpw::is_token({text, 3}) && !rtpw::is_token(text) && !rtpw::is_token({}));
    CHECK(rtpw::is_stream_id({text, 1}) && !rtpw::is_stream_id({text, 2}) && !rtpw::is_stream_id({}));

    // 2 seconds and a quarter are 9 * 2^16 units; at 64 seconds and 2^-18 they begin anew.
    const std::uint8_t sent[] = {9, 0, 0, 1};
    CHECK(*rtpw::read_send_time({sent, 3}) == 0x090000 && *rtpw::read_send_time({sent + 1, 3}) == 1);
    CHECK(rtpw::read_send_time(sent).status() == status::bad_field);
    CHECK(*rtpw::write_send_time(0xfedcba, buf) == 3 && same({buf, 3}, {0xfe, 0xdc, 0xba}));
    CHECK(rtpw::write_send_time(0x1000000, buf).status() == status::bad_field);
    CHECK(rtpw::extend_send_time(0xe0000000c0000000, 0xffffff) == 0xdfffffffffffc000);

    const std::uint8_t times[] = {1, 0, 2, 0, 3, 1, 4, 0, 5, 0, 6, 0, 7};
    rtpw_timing timing = *rtpw::read_timing(times);
    CHECK(timing.flags == 1 && timing.has_flags == 1 && timing.encode_start == 2 && timing.encode_finish == 3);
    CHECK(timing.packetize_complete == 260 && timing.last_left_pacer == 5);
    CHECK(timing.network == 6 && timing.network2 == 7);
    CHECK(!(*rtpw::read_timing({times + 1, 12})).has_flags);
    timing.has_flags = 0;
    CHECK(*rtpw::write_timing(timing, buf) == 12 && same({buf, 12}, {0, 2, 0, 3, 1, 4, 0, 5, 0, 6, 0, 7}));

    const std::uint8_t requested[] = {1, 2, 0x80, 5};
    const auto number = rtpw::read_transport_number(requested);
    CHECK(number->number == 258 && number->has_request == 1 && number->timestamps == 1 && number->packets == 5);
    CHECK(!(*rtpw::read_transport_number({requested, 2})).has_request);
    CHECK(*rtpw::write_transport_number({772, 6, 1, 0}, buf) == 4 && same({buf, 4}, {3, 4, 0, 6}));
    CHECK(*rtpw::write_transport_number({772, 0, 1, 1}, buf) == 4 && same({buf, 4}, {3, 4, 0x80, 0}));
    CHECK(rtpw::write_transport_number({772, 32768, 1, 0}, buf).status() == status::bad_field);

    // Of two sources; the third byte is padding.
    const std::uint8_t mixed[] = {0x8a, 5, 0};
    CHECK(*rtpw::read_mixer_level(mixed, 2, 0) == -10 && *rtpw::read_mixer_level(mixed, 2, 1) == -5);
    CHECK(rtpw::read_mixer_level(mixed, 2, 2).status() == status::bad_field);
    const std::vector<std::int8_t> levels = {-1, -20, 0};
    CHECK(*rtpw::write_mixer_levels(levels, buf) == 3 && same({buf, 3}, {1, 20, 0}));
    CHECK(*rtpw::write_mixer_levels({levels.data(), 2}, buf) == 2 && *rtpw::write_mixer_levels({}, buf) == 0);
    const std::vector<std::int8_t> of_16(16);
    CHECK(rtpw::write_mixer_levels(of_16, buf).status() == status::bad_field);

    const std::uint8_t time[] = {1, 2, 3, 4, 5, 6, 7, 8};
    CHECK(*rtpw::read_ntp_64(time) == 0x0102030405060708);
    CHECK(*rtpw::read_ntp_56({time + 1, 7}) == 0x02030405060708);
    CHECK(rtpw::read_ntp_64({time, 7}).status() == status::bad_field);
    CHECK(rtpw::read_ntp_56(time).status() == status::bad_field);
    CHECK(*rtpw::write_ntp_64(0x1112131415161718, buf) == 8);
    CHECK(same({buf, 8}, {0x11, 0x12, 0x13, 0x14, 0x15, 0x16, 0x17, 0x18}));
    CHECK(*rtpw::write_ntp_56(0x2122232425262728, buf) == 7);
    CHECK(same({buf, 7}, {0x22, 0x23, 0x24, 0x25, 0x26, 0x27, 0x28}));
    CHECK(rtpw::extend_ntp_56(0x01fffffffffffffe, 3) == 0x0200000000000003);

    // Two bits each of the range and of where the chroma samples lie, from left to right and from top to bottom.
    const std::uint8_t colors[] = {9, 16, 10, 0x16};
    rtpw_color_space space = *rtpw::read_color_space(colors);
    CHECK(space.primaries == 9 && space.transfer == 16 && space.matrix == 10 && space.range == RTPW_RANGE_LIMITED);
    CHECK(space.horizontal == RTPW_SITING_COLLOCATED && space.vertical == RTPW_SITING_HALF && space.has_hdr == 0);
    space.has_hdr = 1;
    space.hdr = {1, 2, {3, 4}, {5, 6}, {7, 8}, {9, 10}, 11, 12};
    CHECK(*rtpw::write_color_space(space, buf) == 28);
    CHECK(same({buf, 4}, {9, 16, 10, 0x16}));
    CHECK(same({buf + 4, 24}, {0, 1, 0, 2, 0, 3, 0, 4, 0, 5, 0, 6, 0, 7, 0, 8, 0, 9, 0, 10, 0, 11, 0, 12}));
    const auto hdr = rtpw::read_color_space({buf, 28});
    CHECK(hdr->has_hdr == 1 && std::memcmp(&hdr->hdr, &space.hdr, sizeof space.hdr) == 0);

    // Start, end and six bits of the template; the number.
    const std::uint8_t described[] = {0x45, 1, 2, 0x80};
    const auto descriptor = rtpw::read_dependency_descriptor(described);
    CHECK(descriptor->start_of_frame == 0 && descriptor->end_of_frame == 1);
    CHECK(descriptor->template_id == 5 && descriptor->frame_number == 258);
    CHECK(rtpw::has_structure(described) && !rtpw::has_structure({described, 3}));
    CHECK(*rtpw::write_dependency_descriptor({772, 1, 0, 6}, buf) == 3 && same({buf, 3}, {0x86, 3, 4}));
    CHECK(rtpw::write_dependency_descriptor({772, 1, 0, 64}, buf).status() == status::bad_field);
}

// A packet, RTCP behind it, and one that ends a byte behind the buffer.
void many() {
    std::vector<std::uint8_t> buf = datagram;
    buf.insert(buf.end(), {0x80, 200});
    std::array<rtpw_datagram, 3> packets{};
    packets[0].len = 27;
    packets[1].at = 27;
    packets[2].at = 28;
    packets[1].len = packets[2].len = 2;
    rtpw::packet_parse_many(buf, packets);
    CHECK(status(packets[0].status) == status::ok && packets[0].is_rtcp == 0 && packets[0].packet.ssrc == 44);
    const auto first = rtpw::bytes(buf).subspan(packets[0].at, packets[0].len);
    CHECK(same(rtpw::unpadded_payload(first, packets[0].packet), {7, 8}));
    CHECK(status(packets[1].status) == status::cut_fixed_part && packets[1].is_rtcp == 1);
    CHECK(status(packets[2].status) == status::bad_field && packets[2].is_rtcp == 0);

    std::vector<rtpw_whole_datagram> wholes(4);
    wholes[0].len = 27;
    wholes[1].at = 27;
    wholes[2].at = 28;
    wholes[1].len = wholes[2].len = wholes[3].len = 2;
    rtpw::read_many(buf, level_is_3(), {wholes.data(), 3});
    CHECK(status(wholes[0].status) == status::ok && wholes[0].packet.header.values.audio_level == -10);
    CHECK(same(rtpw::unpadded_payload(first, wholes[0].packet), {7, 8}));
    CHECK(status(wholes[1].status) == status::rtcp && status(wholes[2].status) == status::bad_field);
    CHECK(wholes[3].status == 0 && wholes[3].packet.header.header_len == 0); // it isn't passed

    std::vector<rtpw_datagram_header> headers(3);
    headers[0].at = 27;
    headers[0].len = 2;
    headers[1].len = headers[2].len = 27;
    rtpw::parse_many(buf, level_is_3(), {headers.data(), 2});
    CHECK(status(headers[0].status) == status::cut_fixed_part && headers[0].is_rtcp == 1);
    CHECK(status(headers[1].status) == status::ok && headers[1].header.header_len == 24);
    CHECK(headers[1].header.values.audio_level == -10);
    CHECK(headers[2].header.header_len == 0); // it isn't passed

    rtpw_receiver receivers[2] = {{}, *rtpw::receiver_start(2)};
    std::array<rtpw_arrival, 4> arrivals = {{{0, 0, 5, 0}, {1, 0, 6, 0}, {0, 0, 5, 0}, {2, 0, 7, 0}}};
    rtpw::receive_many(receivers, arrivals);
    CHECK(status(arrivals[0].status) == status::ok && arrivals[0].number == 5);
    CHECK(status(arrivals[1].status) == status::ok && arrivals[1].number == 131078);
    CHECK(status(arrivals[2].status) == status::refused && status(arrivals[3].status) == status::bad_field);
    CHECK(receivers[0].highest == 5 && receivers[1].highest == 131078);
}

// Two receivers of one group: two bytes of the id 4 for each.
void routes() {
    std::vector<std::uint8_t> packet = {0x90, 96, 0, 5, 0, 0, 0, 100, 0, 0, 0, 44, 0xBE, 0xDE, 0, 1, 0x10, 0xAA, 0, 0};
    rtpw_new_ids ids{};
    ids.id[1] = 3;
    const std::array<std::uint8_t, 4> data = {0, 7, 0, 8};
    const rtpw_element elements[] = {{0, 2, 0, 4}};
    std::uint8_t header[304];
    const auto made = rtpw::make_template(packet, ids, data, elements, header);
    CHECK(made && made->header_len == 24 && made->data_at[0] == 19);
    CHECK(rtpw::make_template(packet, ids, data, elements, {header, 19}).status() == status::short_buffer);
    std::array<rtpw_routed_header, 2> receivers{};
    receivers[1].data_at = 2;
    receivers[1].fields.has_ssrc = 1;
    receivers[1].fields.ssrc = 46;
    std::uint8_t headers[48];
    CHECK((*rtpw::make_template(packet, ids, data, elements, header, RTPW_TWO_BYTE_FORM)).data_at[0] == 21);
    CHECK(same({header + 12, 12}, {0x10, 0, 0, 2, 3, 1, 0xAA, 4, 2, 0, 7, 0}));
    CHECK(rtpw::make_template(packet, ids, data, elements, header).status() == status::ok);
    CHECK(rtpw::write_headers(*made, header, data, receivers, headers) == status::ok);
    CHECK(same({headers + 24, 24},
               {0x90, 96, 0, 5, 0, 0, 0, 100, 0, 0, 0, 46, 0xBE, 0xDE, 0, 2, 0x30, 0xAA, 0x41, 0, 8, 0, 0, 0}));
    CHECK(same({headers, 24},
               {0x90, 96, 0, 5, 0, 0, 0, 100, 0, 0, 0, 44, 0xBE, 0xDE, 0, 2, 0x30, 0xAA, 0x41, 0, 7, 0, 0, 0}));
    CHECK(status(receivers[0].status) == status::ok && receivers[0].at == 0 && receivers[0].len == 24);
    CHECK(status(receivers[1].status) == status::ok && receivers[1].at == 24 && receivers[1].len == 24);
    CHECK(rtpw::write_headers(*made, {header, 23}, data, receivers, headers) == status::bad_field);

    // Prepared once, the group needs no data: the header that is made from it has zeros where each receiver's come.
    const auto group = rtpw::prepare_group(ids, elements);
    CHECK(group && group->count == 1 && group->data_total == 2 && group->new_ids[1] == 3 && group->allowed == 0);
    std::uint8_t prepared[24];
    const auto from_group = rtpw::make_from_group(*group, packet, prepared);
    CHECK(from_group && std::memcmp(&*from_group, &*made, offsetof(rtpw_template, data_len) + sizeof made->data_len) == 0);
    CHECK(
        same(prepared, {0x90, 96, 0, 5, 0, 0, 0, 100, 0, 0, 0, 44, 0xBE, 0xDE, 0, 2, 0x30, 0xAA, 0x41, 0, 0, 0, 0, 0}));
    std::uint8_t routed[48];
    CHECK(rtpw::write_headers(*from_group, prepared, data, receivers, routed) == status::ok);
    CHECK(std::memcmp(routed, headers, sizeof routed) == 0);
    const auto two_byte = rtpw::prepare_group(ids, elements, RTPW_TWO_BYTE_FORM);
    CHECK((*rtpw::make_from_group(*two_byte, packet, header)).data_at[0] == 21);
    CHECK(rtpw::make_from_group(*group, packet, {prepared, 19}).status() == status::short_buffer);
    rtpw_group wrong = *group;
    wrong.count = 17;
    CHECK(rtpw::make_from_group(wrong, packet, prepared).status() == status::bad_field);
    CHECK(rtpw::prepare_group(ids, elements, 3).status() == status::bad_field);
    const rtpw_element none[] = {{0, 2, 0, 0}};
    CHECK(rtpw::prepare_group(ids, none).status() == status::bad_id);

    // The first gets a retransmission (RFC 4588, 4) of the packet 0x0102, and for its number there are two bytes more.
    receivers[0].fields.has_sequence_number = 1;
    receivers[0].fields.sequence_number = 9;
    receivers[0].original_number = 0x0102;
    receivers[0].is_retransmission = 1;
    std::array<std::uint8_t, 50> both{};
    packet[0] |= 0x20; // P, which stays in the other one
    CHECK(rtpw::make_template(packet, ids, data, elements, header).status() == status::ok);
    CHECK(rtpw::write_headers(*made, header, data, receivers, both) == status::ok);
    CHECK(same({both.data(), 27}, {0x90, 96, 0,    9,    0,    0, 0, 100, 0, 0, 0, 44, 0xBE, 0xDE,
                                   0,    2,  0x30, 0xAA, 0x41, 0, 7, 0,   0, 0, 1, 2,  0xB0}));
    CHECK(receivers[0].at == 0 && receivers[0].len == 26 && receivers[1].at == 26 && receivers[1].len == 24);
    receivers[1].clears_padding = 1;
    CHECK(rtpw::write_headers(*made, header, data, receivers, both) == status::ok && both[26] == 0x90);
    // Where the first one has no room, the other one begins at the front.
    CHECK(rtpw::write_headers(*made, header, data, receivers, {both.data(), 25}) == status::ok);
    CHECK(status(receivers[0].status) == status::short_buffer && receivers[0].len == 0 && receivers[1].at == 0);
    CHECK(status(receivers[1].status) == status::ok && both[11] == 46);
}

// What a call doesn't write is zeros, whatever stood in the memory; and so is what it wrote before it was refused.
void zeros() {
    using parsed = rtpw::result<rtpw_packet>;
    alignas(parsed) unsigned char room[sizeof(parsed)];
    const rtpw_packet none{};
    std::memset(room, 0xee, sizeof room);
    const parsed *it = new (room) parsed(rtpw::packet_parse({datagram.data(), 11}));
    CHECK(!*it && it->status() == status::cut_fixed_part && std::memcmp(&**it, &none, sizeof none) == 0);
    std::memset(room, 0xee, sizeof room);
    it = new (room) parsed([](rtpw_packet *packet) {
        packet->ssrc = 44;
        return std::int32_t{RTPW_REFUSED};
    });
    CHECK(!*it && it->status() == status::refused && (*it)->ssrc == 0 && (*it)->payload_at == 0);
    using number = rtpw::result<std::uint64_t>;
    alignas(number) unsigned char place[sizeof(number)];
    std::memset(place, 0xee, sizeof place);
    rtpw_receiver receiver = *rtpw::receiver_start(1);
    CHECK(*rtpw::receiver_receive(receiver, 7) == 65543);
    const number *refused = new (place) number(rtpw::receiver_receive(receiver, 7));
    CHECK(!*refused && refused->status() == status::refused && **refused == 0);
}

// Each number of a status is that of C, with its text.
void statuses() {
    const std::int32_t numbers[] = {0, 1, 2, 3, 4, 5, 6, 8, 9, 10, 11, 12, 13, 14, 15, 16};
    const status all[] = {status::ok,
                          status::cut_fixed_part,
                          status::other_version,
                          status::cut_sources,
                          status::cut_block_header,
                          status::unknown_form,
                          status::cut_block,
                          status::short_buffer,
                          status::bad_field,
                          status::refused,
                          status::none,
                          status::restarted,
                          status::bad_id,
                          status::form_not_allowed,
                          status::long_block,
                          status::long_id};
    for (std::size_t i = 0; i < sizeof numbers / sizeof *numbers; i++) {
        CHECK(static_cast<std::int32_t>(all[i]) == numbers[i]);
        CHECK(rtpw::status_text(all[i]) == rtpw_status_text(numbers[i]));
        const rtpw::result<int> it([&](int *value) { return *value = 7, numbers[i]; });
        const bool is_there = numbers[i] == RTPW_OK || numbers[i] == RTPW_RESTARTED;
        CHECK(it.status() == all[i] && static_cast<bool>(it) == is_there && *it == (is_there ? 7 : 0));
    }
}

// Two bytes of elements: one without data, and the last of two of the id 20, in a packet with two sources.
void elements_at_their_ends() {
    const std::vector<std::uint8_t> packet_of_two = {0x92, 0, 0, 5, 0,    0,    0,    1,    0,    0, 0, 44,
                                                     1,    2, 3, 4, 0xa5, 0xb6, 0xc7, 0xd8, 0x10, 0, 0, 3,
                                                     20,   1, 9, 7, 0,    20,   1,    8,    0,    0, 0, 0};
    const auto packet = *rtpw::packet_parse(packet_of_two);
    CHECK(rtpw::csrc(packet_of_two, 0) == 0x01020304 && rtpw::csrc(packet_of_two, 1) == 0xa5b6c7d8);
    const auto empty = rtpw::data_of_element(packet_of_two, packet, 7);
    CHECK(empty && empty->size() == 0);
    CHECK(same(*rtpw::data_of_element(packet_of_two, packet, 20), {8}));
    CHECK(!rtpw::data_of_element(packet_of_two, packet, 9));
    auto longer = packet_of_two;
    longer[25] = 6; // the first element's data are the six bytes behind its length
    CHECK(same(*rtpw::data_of_element(longer, *rtpw::packet_parse(longer), 20), {9, 7, 0, 20, 1, 8}));
    std::size_t ids = 0, bytes = 0;
    for (const rtpw::element &it : rtpw::elements(packet_of_two, packet)) {
        ids = 100 * ids + it.id;
        bytes = 10 * bytes + (it.data.size() == 0 ? 0 : it.data[0]);
    }
    CHECK(ids == 200720 && bytes == 908);
    CHECK(rtpw::payload(packet_of_two, packet).empty() && rtpw::unpadded_payload(packet_of_two, packet).empty());
    // No element of no block, and of one of another form.
    auto other = packet_of_two;
    other[20] = 0xab;
    std::vector<std::uint8_t> none(packet_of_two.begin(), packet_of_two.begin() + 20);
    none[0] = 0x82;
    for (const auto &it : {other, none}) {
        const auto of = *rtpw::packet_parse(it);
        CHECK(!rtpw::data_of_element(it, of, 20));
        for (const rtpw::element &found : rtpw::elements(it, of)) {
            CHECK(found.id == 0 && false);
        }
        CHECK(rtpw::body(it, of).size() == (it.size() == 20 ? 0 : 12));
    }
    // Padding that is longer than the payload: none of it is told.
    auto padded = datagram;
    padded.back() = 4;
    const auto of = *rtpw::packet_parse(padded);
    CHECK(!of.padding_fits && rtpw::unpadded_payload(padded, of).empty() && rtpw::payload(padded, of).size() == 3);
}

// Where no form is named both are allowed, and where one is, that alone.
void forms() {
    std::array<std::uint8_t, 64> buf{};
    const std::array<std::uint8_t, 1> data = {0x8b};
    for (const bool adds : {false, true}) {
        const auto call = adds ? rtpw::add_element : rtpw::put_element;
        std::size_t len = datagram.size();
        std::memcpy(buf.data(), datagram.data(), len);
        CHECK(call(buf, len, 20, data, RTPW_ONE_BYTE_FORM) == status::long_id && len == 27);
        CHECK(call(buf, len, 14, {}, RTPW_ONE_BYTE_FORM) == status::form_not_allowed && len == 27);
        CHECK((adds ? rtpw::add_element(buf, len, 20, data) : rtpw::put_element(buf, len, 20, data)) == status::ok);
        CHECK(len == 31 && same({buf.data() + 16, 12}, {0x10, 0, 0, 2, 3, 1, 0x8a, 20, 1, 0x8b, 0, 0}));
        len = datagram.size();
        std::memcpy(buf.data(), datagram.data(), len);
        CHECK((adds ? rtpw::add_element(buf, len, 5, data) : rtpw::put_element(buf, len, 5, data)) == status::ok);
        CHECK(len == 27 && same({buf.data() + 16, 8}, {0xbe, 0xde, 0, 1, 0x30, 0x8a, 0x50, 0x8b}));
        CHECK(call(buf, len, 6, data, RTPW_TWO_BYTE_FORM) == status::ok && len == 35);
        CHECK(same({buf.data() + 16, 16}, {0x10, 0, 0, 3, 3, 1, 0x8a, 5, 1, 0x8b, 6, 1, 0x8b, 0, 0, 0}));
        CHECK(rtpw::change_form(buf, len, RTPW_ONE_BYTE_FORM) == status::ok && len == 35);
        CHECK(same({buf.data() + 16, 16}, {0xbe, 0xde, 0, 3, 0x30, 0x8a, 0x50, 0x8b, 0x60, 0x8b, 0, 0, 0, 0, 0, 0}));
        CHECK(rtpw::compact({buf.data(), 34}, len) == status::bad_field);
        CHECK(rtpw::remove_block({buf.data(), 34}, len) == status::bad_field && len == 35);
    }
    const rtpw_element chosen[] = {{0, 1, 1, 3}};
    for (const std::uint8_t form : std::initializer_list<std::uint8_t>{RTPW_NO_BLOCK, RTPW_OTHER_FORM, 4, 255}) {
        CHECK(rtpw::write_elements(data, chosen, 1, form, buf).status() == status::bad_field);
    }
    CHECK(*rtpw::write_elements(data, chosen, 1, RTPW_TWO_BYTE_FORM, buf) == 3 && same({buf.data(), 3}, {3, 1, 0x8b}));
    CHECK(rtpw::write_with({}, data, chosen, 1, buf, RTPW_OTHER_FORM).status() == status::bad_field);
    // Data that lie in the buffer are refused.
    std::size_t len = datagram.size();
    std::memcpy(buf.data(), datagram.data(), len);
    const rtpw::bytes inside(buf.data() + 20, 4);
    CHECK(rtpw::put_element(buf, len, 5, inside) == status::bad_field);
    CHECK(rtpw::add_element(buf, len, 5, inside) == status::bad_field);
    CHECK(rtpw::put_block(buf, len, 0xabac, inside) == status::bad_field);
    CHECK(rtpw::set_element({buf.data(), len}, 3, {buf.data() + 21, 1}) == status::bad_field);
    CHECK(len == 27 && std::memcmp(buf.data(), datagram.data(), len) == 0);
}

// Each field alone, as it is set and as it is cleared.
void each_field() {
    auto bytes = datagram;
    CHECK(rtpw::set_marker(bytes, true) == status::ok && bytes[1] == 0xef);
    CHECK(rtpw::set_marker(bytes, false) == status::ok && bytes[1] == 0x6f);
    CHECK(rtpw::set_padding(bytes, false) == status::ok && bytes[0] == 0x91);
    CHECK(rtpw::set_padding(bytes, true) == status::ok && bytes[0] == 0xb1);
    CHECK(rtpw::set_timestamp(bytes, 0x81828384) == status::ok &&
          same({bytes.data() + 4, 4}, {0x81, 0x82, 0x83, 0x84}));
    CHECK(rtpw::set_ssrc(bytes, 0x91929394) == status::ok && same({bytes.data() + 8, 4}, {0x91, 0x92, 0x93, 0x94}));
    CHECK(rtpw::set_csrc(bytes, 0, 0xa1a2a3a4) == status::ok && rtpw::csrc(bytes, 0) == 0xa1a2a3a4);
    CHECK(rtpw::set_csrc(bytes, std::size_t{1} << 32, 1) == status::none);
    CHECK(rtpw::remove_element(bytes, 9) == status::none &&
          rtpw::set_ssrc({bytes.data(), 11}, 1) == status::cut_fixed_part);
}

// From one map to another, both ways: the id of a rid becomes that of a repaired one, and back.
void ids() {
    rtpw_map map{};
    CHECK(rtpw::map_set(map, 5, RTPW_KIND_RID) == status::ok &&
          rtpw::map_set(map, 6, RTPW_KIND_REPAIRED_RID) == status::ok);
    const rtpw_new_ids there = rtpw::new_ids_to_retransmission(map), back = rtpw::new_ids_from_retransmission(map);
    CHECK(there.id[5] == 6 && there.id[6] == 0 && there.id[7] == 7);
    CHECK(back.id[6] == 5 && back.id[5] == 0 && back.id[7] == 7);
    const rtpw_new_ids between = rtpw::new_ids_between(map, level_is_3());
    CHECK(between.id[5] == 0 && between.id[3] == 0 && rtpw::new_ids_between(map, map).id[6] == 6);
    CHECK(rtpw::id_of(map, RTPW_KIND_MID) == 0 && rtpw::id_of(map, RTPW_KIND_REPAIRED_RID) == 6);
    CHECK(rtpw::map_get(map, 7) == RTPW_KIND_NONE && rtpw::map_set(map, 5, 21) == status::bad_field);
    CHECK(rtpw::map_set(map, 5, RTPW_KIND_NONE) == status::bad_field && rtpw::map_get(map, 5) == RTPW_KIND_RID);
    CHECK(rtpw::map_set(map, 5, RTPW_KIND_NTP_56) == status::ok && rtpw::map_get(map, 5) == RTPW_KIND_NTP_56);
    rtpw::map_remove(map, 5);
    CHECK(rtpw::map_get(map, 5) == RTPW_KIND_NONE && rtpw::map_get(map, 6) == RTPW_KIND_REPAIRED_RID);
}

// A header has a block for values that can't be written too, and each text has a place and a length of its own.
void headers_with_values() {
    rtpw_values values{};
    values.has_video_orientation = 1;
    values.video_orientation = 45;
    CHECK(rtpw::left_out({}, rtpw::header_with(values)).status() == status::bad_field);
    CHECK(rtpw::header_with(values).has_extension == 1);
    values.has_video_orientation = 0;
    CHECK(rtpw::header_with(values).has_extension == 0);
    values.has_layers = 1;
    CHECK(rtpw::header_with(values).has_extension == 1);

    values = {};
    CHECK(rtpw::set_mid(values, "sixteen_letters_") == status::ok && rtpw::mid(values) == "sixteen_letters_");
    CHECK(!rtpw::rid(values) && !rtpw::repaired_rid(values));
    CHECK(rtpw::set_rid(values, "12345678") == status::ok && !rtpw::repaired_rid(values));
    CHECK(rtpw::set_repaired_rid(values, "ABCDEFGH") == status::ok);
    CHECK(rtpw::mid(values) == "sixteen_letters_" && rtpw::rid(values) == "12345678" &&
          rtpw::repaired_rid(values) == "ABCDEFGH");
    CHECK(rtpw::set_repaired_rid(values, "ABCDEFGHI") == status::bad_field && rtpw::repaired_rid(values) == "ABCDEFGH");
    CHECK(rtpw::set_mid(values, "") == status::ok && rtpw::mid(values) == "" &&
          rtpw::set_mid(values, "b") == status::ok);
    rtpw_values fresh{};
    CHECK(rtpw::set_mid(fresh, "b") == status::ok && std::memcmp(fresh.mid, values.mid, sizeof fresh.mid) == 0);
}

// The room of a window is all of its words, and their count is 1 to 512.
void windows() {
    auto two = *rtpw::wide_receiver<2>::starting_at(0);
    CHECK(two.start(std::uint64_t{1} << 48) == status::bad_field && two.start(3) == status::ok);
    CHECK(two.number_of(5) == 3 * 65536 + 5 && *two.receive(5) == 3 * 65536 + 5);
    CHECK(two.record(3 * 65536 + 5 - 127) == status::ok && two.record(3 * 65536 + 5 - 128) == status::refused);
    CHECK(two.receive(5).status() == status::refused);
    rtpw_wide_restarting_receiver receiver{};
    std::uint64_t words[513]{};
    CHECK(rtpw::wide_restarting_receive(receiver, {words, 0}, 5).status() == status::bad_field);
    CHECK(rtpw::wide_restarting_receive(receiver, words, 5).status() == status::bad_field);
    CHECK(*rtpw::wide_restarting_receive(receiver, {words, 512}, 40000) == 105536);
    CHECK(*rtpw::wide_restarting_receive(receiver, {words, 512}, 7233) == 72769); // 32,767 below
    CHECK(rtpw::extend_u8(256, 255) == 255 && rtpw::extend_u15(32768, 0xffff) == 32767);
    CHECK(rtpw::extend_u16(65536, 65535) == 65535 &&
          rtpw::extend_u32(std::uint64_t{1} << 32, 0xffffffff) == 0xffffffff);
}

// No bit of a number is lost on the way to C.
void bits_of_numbers() {
    std::array<std::uint8_t, 700> buf{};
    CHECK(rtpw::write_original(buf, 0x12345) == status::ok && same({buf.data(), 2}, {0x23, 0x45}));
    CHECK(*rtpw::read_original(buf) == 0x2345);
    const std::array<std::int8_t, 2> levels = {-10, -5};
    CHECK(*rtpw::write_mixer_levels(levels, buf) == 2);
    for (const std::size_t index : {std::size_t{2}, std::size_t{256}, std::size_t{1} << 16, std::size_t{1} << 32}) {
        CHECK(rtpw::read_mixer_level(buf, 2, index).status() == status::bad_field);
        CHECK(*rtpw::read_mixer_level(buf, index, 1) == -5);
    }
    // Behind 600 bytes, 43 of padding in blocks of 50.
    buf = {0x80};
    CHECK(*rtpw::pad(buf, 600, 43, 50) == 50 && buf[649] == 50 && buf[600] == 0 && buf[0] == 0xa0);
    CHECK(rtpw::pad(buf, std::size_t{1} << 32, 1, 1).status() == status::short_buffer);
    CHECK(*rtpw::pad(buf, 600, 0, std::size_t{1} << 32) == 0);

    // The element 3 of the two-byte form: in the other form these bytes are one of the id 0.
    const std::uint8_t body[] = {3, 1, 0x8a, 0};
    const auto values = rtpw::values_read(body, RTPW_TWO_BYTE_FORM, level_is_3());
    CHECK(values && values->has_audio_level && values->audio_level == -10);
    CHECK(!(*rtpw::values_read(body, RTPW_ONE_BYTE_FORM, level_is_3())).has_audio_level);
    CHECK(rtpw::values_read(body, RTPW_OTHER_FORM, level_is_3()).status() == status::bad_field);
    CHECK((*rtpw::next_element(body, RTPW_TWO_BYTE_FORM, 0)).end == 3);
    CHECK(rtpw::next_element(body, RTPW_TWO_BYTE_FORM, 3).status() == status::none);
    rtpw_element elements[2];
    CHECK(rtpw::next_elements(body, RTPW_TWO_BYTE_FORM, 0, elements) == 1 && elements[0].end == 3);
    CHECK((*rtpw::last_element(body, RTPW_TWO_BYTE_FORM, 3)).data_at == 2);

    const std::uint64_t count = 0x8765'4321'0fed;
    rtpw_receiver receiver = *rtpw::receiver_start(count);
    const std::uint64_t first = count << 16 | 0xcba9;
    CHECK(rtpw::receiver_number_of(receiver, 0xcba9) == first && *rtpw::receiver_receive(receiver, 0xcba9) == first);
    CHECK(!rtpw::receiver_accepts(receiver, first) && rtpw::receiver_accepts(receiver, first - 1));
    CHECK(!rtpw::receiver_accepts(receiver, first ^ std::uint64_t{1} << 63));
    CHECK(rtpw::receiver_standing_of(receiver, first ^ std::uint64_t{1} << 63) == rtpw::standing::too_old);
    rtpw::receiver_record(receiver, first + 1);
    CHECK(receiver.highest == first + 1);

    // Transit times of 2^31 and 2^31 + 16 ticks; 2^32 packets were due.
    rtpw_reception reception{};
    rtpw::reception_record(reception, first, 0x80000000, 0);
    rtpw::reception_record(reception, first + 0xffffffff, 0x80010000, 0x10010);
    const auto report = rtpw::reception_report(reception);
    CHECK(report->jitter == 1 && report->cumulative_lost == 8388607 && report->fraction_lost == 255);
    std::uint8_t block[24];
    CHECK(*rtpw::write_report({1, -8388608, 0x81828384, 0x91929394}, 0xa1a2a3a4, 0xb1b2b3b4, 0xc1c2c3c4, block) == 24);
    CHECK(same({block, 12}, {0xa1, 0xa2, 0xa3, 0xa4, 1, 0x80, 0, 0, 0x81, 0x82, 0x83, 0x84}));
    CHECK(same({block + 12, 12}, {0x91, 0x92, 0x93, 0x94, 0xb1, 0xb2, 0xb3, 0xb4, 0xc1, 0xc2, 0xc3, 0xc4}));

    std::size_t len = datagram.size();
    std::memcpy(buf.data(), datagram.data(), len);
    const rtpw_new_ids none{};
    CHECK(rtpw::to_retransmission(buf, len, 0xd1d2d3d4, 127, 0xe1e2, none) == status::ok);
    CHECK(same({buf.data(), 12}, {0x91, 127, 0xe1, 0xe2, 0, 0, 3, 4, 0xd1, 0xd2, 0xd3, 0xd4}));
    CHECK(rtpw::from_retransmission(buf, len, 0xf1f2f3f4, 126, none) == status::ok);
    CHECK(same({buf.data(), 12}, {0x91, 126, 1, 2, 0, 0, 3, 4, 0xf1, 0xf2, 0xf3, 0xf4}));
}

// URIs that the library doesn't know have the same numbers in each map, and their elements go on.
void own_uris() {
    rtpw::own_uris uris;
    rtpw::uri_map publisher, subscriber;
    CHECK(uris.set(publisher, 1, "urn:example:one") == status::ok);
    CHECK(uris.set(publisher, 2, "urn:ietf:params:rtp-hdrext:sdes:mid") == status::ok);
    CHECK(uris.set(publisher, 3, "urn:example:two") == status::ok);
    CHECK(uris.set(subscriber, 7, "urn:example:two") == status::ok);
    CHECK(uris.set(subscriber, 8, "urn:example:one") == status::ok);
    CHECK(publisher.kind[1] == RTPW_KIND_OWN && publisher.kind[2] == RTPW_KIND_MID && publisher.kind[3] == 129);
    const rtpw_new_ids between = rtpw::new_ids_between(publisher, subscriber);
    CHECK(between.id[1] == 8 && between.id[2] == 0 && between.id[3] == 7);
    CHECK((uris.unknown() == std::vector<std::string>{"urn:example:one", "urn:example:two"}));
    CHECK(uris.kind_of("urn:example:two") == 129 && uris.kind_of("urn:example:three") == RTPW_KIND_NONE);
    CHECK(uris.kind_of("urn:3gpp:video-orientation") == RTPW_KIND_VIDEO_ORIENTATION);
    CHECK(uris.set(publisher, 0, "urn:example:three") == status::bad_field && uris.unknown().size() == 2);
    for (int i = 2; i < 128; i++) {
        CHECK(uris.set(publisher, 4, std::to_string(i)) == status::ok && publisher.kind[4] == RTPW_KIND_OWN + i);
    }
    CHECK(uris.set(publisher, 5, "128") == status::bad_field && publisher.kind[5] == RTPW_KIND_NONE);
    CHECK(uris.set(publisher, 5, "127") == status::ok && publisher.kind[5] == 255);
}

// The new ids of the ids 1 to 4.
template <class From, class To> std::vector<int> new_ids(const From &from, const To &to) {
    const rtpw_new_ids ids = rtpw::new_ids_between(from, to);
    return {ids.id[1], ids.id[2], ids.id[3], ids.id[4]};
}

// Numbers of two tables aren't taken for the same: between their maps only what is known goes on.
void two_tables_of_uris() {
    using ids = std::vector<int>;
    const char *mid = "urn:ietf:params:rtp-hdrext:sdes:mid";
    rtpw::own_uris one, other;
    rtpw::uri_map from, to, known, standard{rtpw::map_standard()};
    CHECK(one.set(from, 1, "urn:a") == status::ok && one.set(from, 2, mid) == status::ok &&
          one.set(from, 3, "urn:b") == status::ok);
    CHECK(one.set(to, 0, "urn:a") == status::bad_field && other.set(to, 4, "urn:b") == status::ok &&
          other.set(to, 5, mid) == status::ok);
    CHECK(from.kind[1] == 128 && to.kind[4] == 128); // of two URIs
    CHECK(new_ids(from, to) == (ids{0, 5, 0, 0}) && new_ids(to, from) == (ids{0, 0, 0, 0}));
    CHECK(new_ids(from, from) == (ids{1, 2, 3, 0}) && from.kind[3] == 129);
    // A map has numbers of one table.
    CHECK(one.set(to, 9, "urn:b") == status::bad_field && one.set(to, 4, "urn:x") == status::bad_field);
    CHECK(one.set(to, 9, mid) == status::ok && to.kind[4] == 128 && to.kind[9] == RTPW_KIND_MID &&
          one.unknown().size() == 2);
    CHECK(other.set(to, 10, "urn:x") == status::ok && to.kind[10] == 129);
    // What is known is of any table, and so is what was chosen by hand.
    CHECK(one.set(known, 6, mid) == status::ok && other.set(known, 7, "urn:b") == status::ok);
    CHECK(new_ids(to, known) == (ids{0, 0, 0, 7}) && new_ids(from, known) == (ids{0, 6, 0, 0}));
    CHECK(new_ids(from, standard) == (ids{0, 4, 0, 0}) && one.set(standard, 9, "urn:a") == status::ok);
    CHECK(new_ids(from, standard) == (ids{9, 4, 0, 0}) && new_ids(to, standard) == (ids{0, 0, 0, 0}));
    rtpw_map by_hand{};
    CHECK(rtpw::map_set(by_hand, 8, 128) == status::ok);
    CHECK(new_ids(from, by_hand) == (ids{8, 0, 0, 0}) && new_ids(to, by_hand) == (ids{0, 0, 0, 8}));
    const rtpw::uri_map chosen(by_hand);
    CHECK(new_ids(from, chosen) == (ids{8, 0, 0, 0}) && new_ids(to, chosen) == (ids{0, 0, 0, 8}));
    // What is moved is the same table, and what is left is another one.
    rtpw::own_uris moved = std::move(one);
    rtpw::uri_map again, left, after;
    CHECK(moved.set(again, 12, "urn:b") == status::ok && again.kind[12] == 129 &&
          new_ids(from, again) == (ids{0, 0, 12, 0}));
    CHECK(one.set(left, 14, "urn:z") == status::ok && left.kind[14] == 128 && new_ids(from, left) == (ids{0, 0, 0, 0}));
    other = std::move(moved);
    CHECK(other.set(again, 13, "urn:a") == status::ok && new_ids(from, again) == (ids{13, 0, 12, 0}));
    CHECK(moved.set(after, 14, "urn:z") == status::ok && after.kind[14] == 128 &&
          new_ids(from, after) == (ids{0, 0, 0, 0}));
}

// Spans are made of what has values, and of none.
void spans() {
    const std::vector<std::uint8_t> values = {1, 2, 3};
    const rtpw::bytes all = values;
    CHECK(all.size() == 3 && !all.empty() && all[2] == 3 && all.data() == values.data());
    CHECK(all.end() - all.begin() == 3 && *all.begin() == 1);
    CHECK(same(all.subspan(1, 2), {2, 3}) && same(all.subspan(0, 1), {1}) && all.subspan(3, 0).empty());
    const rtpw::bytes none;
    CHECK(none.empty() && none.size() == 0 && none.data() == nullptr && none.begin() == none.end());
    CHECK(none.subspan(0, 0).data() == nullptr);
}

} // namespace

int main() {
    reads();
    changes();
    grows();
    blocks();
    writes();
    receives();
    standards();
    many();
    routes();
    zeros();
    statuses();
    elements_at_their_ends();
    forms();
    each_field();
    ids();
    headers_with_values();
    windows();
    bits_of_numbers();
    if (!STRINGS_LOOK_UNSET) {
        own_uris();
        two_tables_of_uris();
    }
    spans();
}
