// What peers.c tests, by the calls of rtp_wire.hpp: ids that differ in one character, values of the standards beside
// those of a header, elements of the id 0, packets from before the first one, and the URIs of an answer. The expected
// values are worked out by hand from RFC 3550, RFC 5450, RFC 8285, 4.2 and 4.3, RFC 9626 and 3GPP TS 26.114, 7.4.5.
#include "../rtp_wire.hpp"

#include <array>
#include <cstdio>
#include <cstdlib>
#include <cstring>
#include <type_traits>
#include <vector>

#define CHECK(holds) \
    do { \
        if (!(holds)) { \
            std::printf("%s:%d: %s\n", __FILE__, __LINE__, #holds); \
            std::exit(1); \
        } \
    } while (0)

namespace {

using rtpw::status;

// V=2; PT=96; 5; 100; 44; and the same with X
const std::vector<std::uint8_t> without = {0x80, 0x60, 0, 5, 0, 0, 0, 100, 0, 0, 0, 44};
const std::vector<std::uint8_t> with = {0x90, 0x60, 0, 5, 0, 0, 0, 100, 0, 0, 0, 44};

std::vector<std::uint8_t> joined(std::vector<std::uint8_t> one, std::initializer_list<std::uint8_t> other) {
    one.insert(one.end(), other);
    return one;
}

rtpw_map one_is(std::uint8_t kind) {
    rtpw_map map{};
    CHECK(rtpw::map_set(map, 1, kind) == status::ok);
    return map;
}

rtpw::bytes bytes_of(std::string_view text) {
    return {reinterpret_cast<const std::uint8_t *>(text.data()), text.size()};
}

// A text of values differs from the one that lies there where that isn't kept.
void ids_are_told_apart() {
    struct row {
        std::string_view lies, read;
        bool is_token;
    };
    for (const row &it : {row{"cam_1", "cam_1", true}, row{"cam-1", "cam_1", true}, row{"cam.1", "cam_1", true},
                          row{"abcdefghijklmnopq", "abcdefghijklmnop", true}, row{"cam 1", "cam_1", false}}) {
        auto buf = without;
        std::size_t len = buf.size();
        buf.resize(64);
        CHECK(rtpw::put_element(buf, len, 1, bytes_of(it.lies)) == status::ok);
        buf.resize(len);
        const auto packet = rtpw::packet_parse(buf);
        const auto header = rtpw::parse(buf, one_is(RTPW_KIND_MID));
        const auto token = rtpw::token(buf, *packet, 1);
        CHECK(rtpw::mid(header->values) == it.read);
        CHECK(token.has_value() == it.is_token && (!token || *token == it.lies));
        CHECK(!token || (token == rtpw::mid(header->values)) == (it.lies == it.read));
        CHECK(!rtpw::token(buf, *packet, 2));
    }
    const auto none = rtpw::packet_parse(without);
    CHECK(none && !rtpw::token(without, *none, 1));
}

// Of an element of three bytes a header has neither an offset nor a marking.
void elements_of_the_standards() {
    rtpw_map map = one_is(RTPW_KIND_TRANSMISSION_OFFSET);
    CHECK(rtpw::map_set(map, 2, RTPW_KIND_FRAME_MARKING) == status::ok);
    const auto datagram = joined(with, {0xBE, 0xDE, 0, 2, 0x12, 0xFF, 0xFF, 0xA6, 0x22, 0xA9, 2, 7});
    const auto header = rtpw::parse(datagram, map);
    CHECK(header && !header->values.has_transmission_offset && !header->values.has_frame_marking);
    const auto packet = rtpw::packet_parse(datagram);
    CHECK(*rtpw::read_transmission_offset(*rtpw::data_of_element(datagram, *packet, 1)) == -90);
    const auto marking = rtpw::read_frame_marking(*rtpw::data_of_element(datagram, *packet, 2));
    CHECK(marking->start && !marking->end && marking->independent && !marking->discardable);
    CHECK(marking->base_layer_sync && marking->temporal_id == 1 && marking->layer_id == 2 && marking->tl0_pic_idx == 7);

    auto buf = joined(with, {0xBE, 0xDE, 0, 1, 0x10, 0x0D, 0, 0});
    const auto turned = rtpw::parse(buf, one_is(RTPW_KIND_VIDEO_ORIENTATION));
    std::array<std::uint8_t, 20> again{};
    CHECK(*rtpw::write(one_is(RTPW_KIND_VIDEO_ORIENTATION), *turned, again) == 20 && again[17] == 0x01);
    const auto orientation = rtpw::read_orientation({buf.data() + 17, 1});
    CHECK(orientation->turn == 270 && orientation->camera == RTPW_CAMERA_BACK && orientation->flip == 1);
    std::uint8_t data[1];
    CHECK(*rtpw::write_orientation(*orientation, data) == 1);
    CHECK(rtpw::set_element(again, 1, data) == status::ok && std::memcmp(again.data(), buf.data(), 20) == 0);
}

// From the rollover count 0 the second packet has a number near 2^64, and no later one is taken; from 1 all are.
void packets_from_before_the_first() {
    static_assert(!std::is_default_constructible_v<rtpw::wide_receiver<2>>, "a rollover count is asked for");
    auto narrow = *rtpw::receiver_start(0);
    auto wide = *rtpw::wide_receiver<2>::starting_at(0);
    const std::uint64_t near_the_end = UINT64_MAX - 2;
    CHECK(*rtpw::receiver_receive(narrow, 5) == 5 && *wide.receive(5) == 5);
    CHECK(*rtpw::receiver_receive(narrow, 65533) == near_the_end && *wide.receive(65533) == near_the_end);
    CHECK(rtpw::receiver_receive(narrow, 6).status() == status::refused && wide.receive(6).status() == status::refused);
    CHECK(rtpw::receiver_receive(narrow, 7).status() == status::refused && wide.receive(7).status() == status::refused);

    narrow = *rtpw::receiver_start(1);
    const auto started = rtpw::wide_receiver<2>::starting_at(1);
    CHECK(started && started->state.highest == 65536 && started->state.started == 0);
    wide = *started;
    const std::uint64_t numbers[] = {65541, 65533, 65542, 65543};
    const std::uint16_t low[] = {5, 65533, 6, 7};
    for (int i = 0; i < 4; i++) {
        CHECK(*rtpw::receiver_receive(narrow, low[i]) == numbers[i] && *wide.receive(low[i]) == numbers[i]);
    }
    const auto too_high = rtpw::wide_receiver<2>::starting_at(std::uint64_t{1} << 48);
    CHECK(!too_high && too_high.status() == status::bad_field && too_high->state.highest == 0);
}

// An element of the id 0 with length bits goes, and none is written.
void elements_of_the_id_0() {
    const std::uint8_t data[] = {0xCC, 0xDD};
    auto buf = joined(with, {0xBE, 0xDE, 0, 2, 0x01, 0xAA, 0xBB, 0, 0x10, 0x77, 0, 0, 9});
    std::size_t len = buf.size();
    CHECK(rtpw::put_element(buf, len, 1, {data, 1}) == status::ok && len == 25);
    CHECK(buf == joined(with, {0xBE, 0xDE, 0, 2, 0x10, 0xCC, 0, 0, 0, 0, 0, 0, 9}));
    buf = joined(with, {0xBE, 0xDE, 0, 2, 0x01, 0xAA, 0xBB, 0, 0x10, 0x77, 0, 0, 9});
    CHECK(rtpw::compact(buf, len) == status::ok && len == 21);
    buf.resize(len);
    CHECK(buf == joined(with, {0xBE, 0xDE, 0, 1, 0x10, 0x77, 0, 0, 9}));

    const rtpw_element elements[] = {{0, 1, 1, 1}, {1, 1, 2, 0}};
    std::uint8_t written[32];
    CHECK(rtpw::write_with(rtpw_header{}, data, elements, 2, written).status() == status::bad_field);
    CHECK(rtpw::write_elements(data, elements + 1, 1, RTPW_TWO_BYTE_FORM, written).status() == status::bad_field);
    CHECK(*rtpw::write_with(rtpw_header{}, data, elements, 1, written) == 20);
}

// A one-byte block takes ids above 14 once its form is changed, and a block without elements is taken off.
void blocks_are_changed() {
    auto buf = joined(with, {0xBE, 0xDE, 0, 1, 0x10, 0xAA, 0x20, 0xBB, 9});
    std::size_t len = buf.size();
    buf.resize(25);
    rtpw_new_ids ids{};
    ids.id[1] = 200;
    ids.id[2] = 15;
    CHECK(rtpw::renumber({buf.data(), len}, ids) == status::long_id);
    CHECK(rtpw::change_form(buf, len, RTPW_TWO_BYTE_FORM) == status::ok && len == 25);
    CHECK(rtpw::renumber(buf, ids) == status::ok);
    CHECK(buf == joined(with, {0x10, 0, 0, 2, 200, 1, 0xAA, 15, 1, 0xBB, 0, 0, 9}));
    CHECK(rtpw::remove_element(buf, 200) == status::ok && rtpw::remove_element(buf, 15) == status::ok);
    CHECK(rtpw::compact(buf, len) == status::ok && len == 17 && (*rtpw::packet_parse({buf.data(), len})).body_len == 0);
    CHECK(rtpw::remove_block(buf, len) == status::ok && len == 13);
    buf.resize(len);
    CHECK(buf == joined(without, {9}));
}

void kinds_have_uris() {
    std::uint8_t uri[RTPW_URI_SIZE];
    for (std::uint8_t kind = RTPW_KIND_ABS_SEND_TIME; kind <= RTPW_KIND_NTP_56; kind++) {
        const auto told = rtpw::uri_of_kind(kind, uri);
        CHECK(told && rtpw::kind_of_uri(*told) == kind);
    }
    CHECK(rtpw::uri_of_kind(RTPW_KIND_NONE, uri).status() == status::none);
    CHECK(rtpw::uri_of_kind(RTPW_KIND_OWN, uri).status() == status::none);
}

// One of four that were expected is lost; a duplicate makes up for it.
void packets_are_reported() {
    rtpw_reception reception{};
    rtpw::reception_record(reception, 65541, 0, 0);
    rtpw::reception_record(reception, 65544, 0, 0);
    rtpw::reception_record(reception, 65540, 0, 0);
    CHECK(reception.highest - reception.first + 1 == 4);
    const auto first = rtpw::reception_report(reception);
    CHECK(first->cumulative_lost == 1 && first->fraction_lost == 64 && first->extended_highest == 8);
    rtpw::reception_record(reception, 65544, 0, 0);
    const auto second = rtpw::reception_report(reception);
    CHECK(second->cumulative_lost == 0 && second->fraction_lost == 0 && second->jitter == 0);
}

} // namespace

int main() {
    ids_are_told_apart();
    elements_of_the_standards();
    packets_from_before_the_first();
    elements_of_the_id_0();
    blocks_are_changed();
    kinds_have_uris();
    packets_are_reported();
}
