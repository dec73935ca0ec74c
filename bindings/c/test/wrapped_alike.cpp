// Each call of rtp_wire.hpp beside that of C which it is for, of numbers at the ends of their types, of rooms of each size
// and of random bytes.
#include "../rtp_wire.hpp"

#include <array>
#include <cstddef>
#include <cstdio>
#include <cstdlib>
#include <vector>

#define CHECK(holds) \
    do { \
        if (!(holds)) { \
            std::printf("%s:%d: %s\n", __FILE__, __LINE__, #holds); \
            std::exit(1); \
        } \
    } while (0)

namespace {

using rtpw::status;

std::uint64_t drawn = 88172645463325252;
std::uint64_t draw() {
    drawn ^= drawn << 13;
    drawn ^= drawn >> 7;
    return drawn ^= drawn << 17;
}
std::size_t below(std::size_t most) {
    return static_cast<std::size_t>(draw() % most);
}
// A number near a power of two, or any.
std::uint64_t number() {
    const std::uint64_t power = std::uint64_t{1} << below(64);
    return below(3) == 0 ? draw() : below(2) == 0 ? power - below(3) : power + below(3);
}

template <class Value> void alike(const rtpw::result<Value> &it, std::int32_t status, const Value &value) {
    const bool is_there = status == RTPW_OK || status == RTPW_RESTARTED;
    CHECK(static_cast<std::int32_t>(it.status()) == status && *it == (is_there ? value : Value{}));
}
// Both change a copy of the packet and its length, and of how many bytes of the room there are is told.
template <class One, class Other>
void alike_in(const std::vector<std::uint8_t> &packet, std::size_t room, std::size_t len, const One &one,
              const Other &other) {
    std::vector<std::uint8_t> its = packet, others = packet;
    its.resize(room);
    others.resize(room);
    std::size_t its_len = len, others_len = len;
    const status is = one(rtpw::buffer(its), its_len);
    CHECK(static_cast<std::int32_t>(is) == other(others.data(), others.size(), &others_len));
    CHECK(its == others && its_len == others_len);
}
// Both write to a room of so many bytes.
template <class One, class Other> void alike_written(std::size_t room, const One &one, const Other &other) {
    std::vector<std::uint8_t> its(room, 0xee), others(room, 0xee);
    std::size_t len = 0;
    const rtpw::result<std::size_t> is = one(rtpw::buffer(its));
    const std::int32_t status = other(others.data(), others.size(), &len);
    alike(is, status, len);
    CHECK(its == others);
}

// A packet of each form, with elements and a payload of random lengths.
std::vector<std::uint8_t> any_packet() {
    std::vector<std::uint8_t> it = {0x80, 96, 1, 2, 3, 4, 5, 6, 7, 8, 9, 10};
    const std::size_t sources = below(3), words = below(4) == 0 ? 100 : below(6), form = below(4);
    it[0] = static_cast<std::uint8_t>(0x80 | sources | (form == 0 ? 0 : 0x10) | (below(3) == 0 ? 0x20 : 0));
    it.resize(12 + 4 * sources, 9);
    if (form != 0) {
        const std::uint8_t profiles[][2] = {{0xbe, 0xde}, {0x10, 0}, {0xab, 0xac}};
        it.insert(it.end(), profiles[form - 1], profiles[form - 1] + 2);
        it.insert(it.end(), {static_cast<std::uint8_t>(words >> 8), static_cast<std::uint8_t>(words)});
        for (std::size_t i = 0; i < 4 * words; i++) {
            it.push_back(i % 4 == 0 ? static_cast<std::uint8_t>(form == 1 ? 0x12 + 16 * below(14) : 1 + below(255))
                                    : static_cast<std::uint8_t>(i % 4 == 1 && form == 2 ? 2 : draw()));
        }
    }
    it.resize(it.size() + below(20), 3);
    return it;
}

void alike_packets() {
    const auto it = any_packet();
    const std::size_t size = it.size(), room = size + (below(2) == 0 ? 300 : below(12));
    const std::size_t len = below(8) == 0 ? static_cast<std::size_t>(number()) : below(8) == 0 ? below(size) : size;
    const auto id = static_cast<std::uint8_t>(draw()),
               form = static_cast<std::uint8_t>(below(8) == 0 ? draw() : below(4));
    const std::vector<std::uint8_t> data(below(4) == 0 ? 250 + below(8) : below(20), 7);
    const auto u8 = static_cast<std::uint8_t>(number());
    const auto u16 = static_cast<std::uint16_t>(number());
    const auto u32 = static_cast<std::uint32_t>(number()), other32 = static_cast<std::uint32_t>(number());
    const std::size_t at = static_cast<std::size_t>(number());
    rtpw_new_ids ids;
    for (auto &id_of : ids.id) {
        id_of = static_cast<std::uint8_t>(below(3) == 0 ? draw() : below(15));
    }
    using rtpw::buffer;
    alike_in(
        it, room, len, [&](buffer to, std::size_t &of) { return rtpw::put_element(to, of, id, data, form); },
        [&](std::uint8_t *to, std::size_t n, std::size_t *of) {
            return rtpw_put_element(to, n, of, id, data.data(), data.size(), form);
        });
    alike_in(
        it, room, len, [&](buffer to, std::size_t &of) { return rtpw::add_element(to, of, id, data, form); },
        [&](std::uint8_t *to, std::size_t n, std::size_t *of) {
            return rtpw_add_element(to, n, of, id, data.data(), data.size(), form);
        });
    alike_in(
        it, room, len, [&](buffer to, std::size_t &of) { return rtpw::change_form(to, of, form); },
        [&](std::uint8_t *to, std::size_t n, std::size_t *of) { return rtpw_change_form(to, n, of, form); });
    alike_in(
        it, room, len, [&](buffer to, std::size_t &of) { return rtpw::put_block(to, of, u16, data); },
        [&](std::uint8_t *to, std::size_t n, std::size_t *of) {
            return rtpw_put_block(to, n, of, u16, data.data(), data.size());
        });
    alike_in(
        it, room, len, [&](buffer to, std::size_t &of) { return rtpw::remove_block(to, of); }, rtpw_remove_block);
    alike_in(
        it, room, len, [&](buffer to, std::size_t &of) { return rtpw::compact(to, of); }, rtpw_compact);
    alike_in(
        it, room, len, [&](buffer to, std::size_t &of) { return rtpw::to_retransmission(to, of, u32, u8, u16, ids); },
        [&](std::uint8_t *to, std::size_t n, std::size_t *of) {
            return rtpw_to_retransmission(to, n, of, u32, u8, u16, &ids);
        });
    alike_in(
        it, room, len, [&](buffer to, std::size_t &of) { return rtpw::from_retransmission(to, of, u32, u8, ids); },
        [&](std::uint8_t *to, std::size_t n, std::size_t *of) {
            return rtpw_from_retransmission(to, n, of, u32, u8, &ids);
        });
#define ALIKE(cpp, c) \
    alike_in( \
        it, size, 0, [&](buffer to, std::size_t &) { return rtpw::cpp; }, \
        [&](std::uint8_t *to_data, std::size_t to_size, std::size_t *) { return ::c; })
    ALIKE(set_marker(to, u8 & 1), rtpw_set_marker(to_data, to_size, u8 & 1));
    ALIKE(set_padding(to, u8 & 1), rtpw_set_padding(to_data, to_size, u8 & 1));
    ALIKE(set_payload_type(to, u8), rtpw_set_payload_type(to_data, to_size, u8));
    ALIKE(set_sequence_number(to, u16), rtpw_set_sequence_number(to_data, to_size, u16));
    ALIKE(set_timestamp(to, u32), rtpw_set_timestamp(to_data, to_size, u32));
    ALIKE(set_ssrc(to, u32), rtpw_set_ssrc(to_data, to_size, u32));
    ALIKE(set_csrc(to, at, u32), rtpw_set_csrc(to_data, to_size, at, u32));
    ALIKE(set_csrc(to, id & 3, u32), rtpw_set_csrc(to_data, to_size, id & 3, u32));
    const std::array<std::uint8_t, 3> three = {7, 8, 9};
    ALIKE(set_element(to, id & 15, three), rtpw_set_element(to_data, to_size, id & 15, three.data(), 3));
    ALIKE(remove_element(to, id & 15), rtpw_remove_element(to_data, to_size, id & 15));
    ALIKE(renumber(to, ids), rtpw_renumber(to_data, to_size, &ids));
    ALIKE(write_original(to, at), rtpw_write_original(to_data, to_size, at));
#undef ALIKE
    alike_written(
        room, [&](buffer to) { return rtpw::pad(to, at, u8, other32); },
        [&](std::uint8_t *to, std::size_t n, std::size_t *count) { return rtpw_pad(to, n, at, u8, other32, count); });
    alike_written(
        room, [&](buffer to) { return rtpw::pad(to, 0, u8, at); },
        [&](std::uint8_t *to, std::size_t n, std::size_t *count) { return rtpw_pad(to, n, 0, u8, at, count); });
    // Elements from an offset on, and the last ones of an id.
    const auto packet = rtpw::packet_parse(it);
    rtpw_packet parts{};
    CHECK(static_cast<std::int32_t>(packet.status()) == rtpw_packet_parse(it.data(), it.size(), &parts));
    if (packet) {
        const rtpw::bytes body = rtpw::body(it, *packet);
        rtpw_element found{};
        for (const std::size_t from : {below(body.size() + 2), at}) {
            const auto next = rtpw::next_element(body, form, from);
            CHECK(static_cast<std::int32_t>(next.status()) ==
                  rtpw_next_element(body.data(), body.size(), form, from, &found));
            CHECK(!next || (next->data_at == found.data_at && next->end == found.end && next->id == found.id));
        }
        const auto last = rtpw::last_element(body, form, id);
        CHECK(static_cast<std::int32_t>(last.status()) ==
              rtpw_last_element(body.data(), body.size(), form, id, &found));
        CHECK(!last || (last->data_at == found.data_at && last->data_len == found.data_len && last->end == found.end));
    }
}

void alike_numbers() {
    const std::uint64_t one = number(), other = below(2) == 0 ? one ^ number() : number();
    const auto u8 = static_cast<std::uint8_t>(other);
    const auto u16 = static_cast<std::uint16_t>(other);
    const auto u32 = static_cast<std::uint32_t>(other), time = static_cast<std::uint32_t>(number());
    CHECK(rtpw::extend_u8(one, u8) == rtpw_extend_u8(one, u8) &&
          rtpw::extend_u15(one, u16) == rtpw_extend_u15(one, u16));
    CHECK(rtpw::extend_u16(one, u16) == rtpw_extend_u16(one, u16) &&
          rtpw::extend_u32(one, u32) == rtpw_extend_u32(one, u32));
    CHECK(rtpw::extend_ntp_56(one, other) == rtpw_extend_ntp_56(one, other));
    CHECK(rtpw::extend_send_time(one, u32) == rtpw_extend_send_time(one, u32));
    rtpw_receiver receiver{}, its;
    alike(rtpw::result<std::int32_t>([&](std::int32_t *it) { return *it = 1, rtpw_receiver_start(&receiver, one); }),
          static_cast<std::int32_t>(rtpw::receiver_start(one).status()), std::int32_t{1});
    auto wide = *rtpw::wide_receiver<20>::starting_at(0);
    rtpw_wide_receiver state{};
    std::uint64_t words[20]{};
    CHECK(static_cast<std::int32_t>(wide.start(one >> 16)) == rtpw_wide_receiver_start(&state, one >> 16));
    CHECK(rtpw_receiver_start(&receiver, one >> 16) == RTPW_OK);
    its = *rtpw::receiver_start(one >> 16);
    std::uint64_t taken = 0;
    for (int i = 0; i < 40; i++) {
        const auto low = static_cast<std::uint16_t>(i < 30 ? one + 70 * below(20) : draw());
        std::int32_t is = rtpw_receiver_receive(&receiver, low, &taken);
        alike(rtpw::receiver_receive(its, low), is, taken);
        is = rtpw_wide_receiver_receive(&state, words, 20, low, &taken);
        alike(wide.receive(low), is, taken);
        const std::uint64_t asked = below(2) == 0 ? state.highest - below(1400) : other;
        CHECK(rtpw::receiver_number_of(its, low) == rtpw_receiver_number_of(&receiver, low));
        CHECK(rtpw::receiver_accepts(its, asked) == rtpw_receiver_accepts(&receiver, asked));
        CHECK(static_cast<std::uint8_t>(rtpw::receiver_standing_of(its, asked)) ==
              rtpw_receiver_standing_of(&receiver, asked));
        CHECK(wide.number_of(low) == rtpw_wide_receiver_number_of(&state, low));
        CHECK(wide.accepts(asked) == rtpw_wide_receiver_accepts(&state, words, 20, asked));
        CHECK(static_cast<std::uint8_t>(wide.standing_of(asked)) ==
              rtpw_wide_receiver_standing_of(&state, words, 20, asked));
        if (asked < state.highest + 2000) {
            CHECK(static_cast<std::int32_t>(wide.record(asked)) == rtpw_wide_receiver_record(&state, words, 20, asked));
            rtpw::receiver_record(its, asked);
            rtpw_receiver_record(&receiver, asked);
        }
        CHECK(std::memcmp(wide.words, words, sizeof words) == 0 && wide.state.highest == state.highest);
        CHECK(its.highest == receiver.highest && its.recorded_low == receiver.recorded_low);
        CHECK(its.recorded_high == receiver.recorded_high);
    }
    rtpw_reception reception{}, others{};
    for (int i = 0; i < 4; i++) {
        const std::uint64_t which = i == 0 ? one : one + (number() & 0xffffffff);
        rtpw::reception_record(reception, which, u32, time + static_cast<std::uint32_t>(i));
        rtpw_reception_record(&others, which, u32, time + static_cast<std::uint32_t>(i));
        CHECK(reception.scaled_jitter == others.scaled_jitter && reception.transit == others.transit);
        CHECK(reception.highest == others.highest && reception.first == others.first);
    }
    rtpw_report report{u8, static_cast<std::int32_t>(time), u32, static_cast<std::uint32_t>(one)};
    alike_written(
        20 + below(8), [&](rtpw::buffer to) { return rtpw::write_report(report, time, u32, u16, to); },
        [&](std::uint8_t *to, std::size_t n, std::size_t *len) {
            return rtpw_write_report(&report, time, u32, u16, to, n, len);
        });
}

void alike_values() {
    const std::uint64_t time = number();
    const auto u16 = static_cast<std::uint16_t>(time);
    const auto u8 = static_cast<std::uint8_t>(below(6));
    const auto flag = static_cast<std::uint8_t>(below(2));
    std::vector<std::uint8_t> data(below(30));
    for (auto &it : data) {
        it = static_cast<std::uint8_t>(below(2) == 0 ? draw() : 'a' + below(26));
    }
    const std::uint8_t *bytes = data.data();
    const std::size_t size = data.size();
    using rtpw::buffer;
#define WRITTEN(name, value, passed) \
    alike_written( \
        below(32), [&](buffer to) { return rtpw::write_##name(value, to); }, \
        [&](std::uint8_t *to, std::size_t n, std::size_t *len) { return rtpw_write_##name(passed, to, n, len); })
    WRITTEN(send_time, static_cast<std::uint32_t>(time), static_cast<std::uint32_t>(time));
    WRITTEN(send_time, u16, u16);
    WRITTEN(transmission_offset, static_cast<std::int32_t>(time), static_cast<std::int32_t>(time));
    WRITTEN(ntp_64, time, time);
    WRITTEN(ntp_56, time, time);
    const rtpw_frame_marking marking = {flag, 1, 0, flag, 1, 1, u8, 200, flag, 201};
    WRITTEN(frame_marking, marking, &marking);
    const rtpw_orientation orientation = {static_cast<std::uint16_t>(90 * below(5)), flag, flag};
    WRITTEN(orientation, orientation, &orientation);
    const rtpw_timing timing = {u16, 2, 3, 4, 5, u16, 7, flag};
    WRITTEN(timing, timing, &timing);
    const rtpw_transport_number transport = {u16, u16, flag, 1};
    WRITTEN(transport_number, transport, &transport);
    const rtpw_color_space space = {{u16, 1, {2, 3}, {4, 5}, {6, 7}, {8, 9}, 10, 11}, 1, 2, 3, u8, u8, 2, flag};
    WRITTEN(color_space, space, &space);
    const rtpw_dependency_descriptor descriptor = {u16, flag, 1, static_cast<std::uint8_t>(12 * u8)};
    WRITTEN(dependency_descriptor, descriptor, &descriptor);
#undef WRITTEN
    const std::vector<std::int8_t> levels(below(20), static_cast<std::int8_t>(-below(128)));
    alike_written(
        below(24), [&](buffer to) { return rtpw::write_mixer_levels(levels, to); },
        [&](std::uint8_t *to, std::size_t n, std::size_t *len) {
            return rtpw_write_mixer_levels(levels.data(), levels.size(), to, n, len);
        });
    std::int32_t offset = 0;
    std::uint64_t read = 0;
    std::int8_t level = 0;
    std::uint16_t original = 0;
    const std::size_t count = static_cast<std::size_t>(number()),
                      index = below(3) == 0 ? static_cast<std::size_t>(number()) : below(16);
    std::uint32_t units = 0;
    std::int32_t is = rtpw_read_send_time(bytes, size, &units);
    alike(rtpw::read_send_time(data), is, units);
    is = rtpw_read_transmission_offset(bytes, size, &offset);
    alike(rtpw::read_transmission_offset(data), is, offset);
    is = rtpw_read_ntp_64(bytes, size, &read);
    alike(rtpw::read_ntp_64(data), is, read);
    is = rtpw_read_ntp_56(bytes, size, &read);
    alike(rtpw::read_ntp_56(data), is, read);
    is = rtpw_read_mixer_level(bytes, size, count, index, &level);
    alike(rtpw::read_mixer_level(data, count, index), is, level);
    is = rtpw_read_original(bytes, size, &original);
    alike(rtpw::read_original(data), is, original);
    CHECK(rtpw::is_stream_id(data) == rtpw_is_stream_id(bytes, size));
    CHECK(rtpw::is_token(data) == rtpw_is_token(bytes, size) &&
          rtpw::has_structure(data) == rtpw_has_structure(bytes, size));
    CHECK(rtpw::is_rtcp(data) == rtpw_is_rtcp(bytes, size));

    // A header with some values, under a map of some kinds; and the URI of each, whole, cut and too long.
    rtpw_map map{};
    for (auto &it : map.kind) {
        it = static_cast<std::uint8_t>(below(20) == 0 ? below(16) : 0);
    }
    rtpw_header header{};
    header.has_extension = flag;
    header.payload_type = static_cast<std::uint8_t>(below(130));
    header.values.has_mid = header.values.has_send_time = header.values.has_audio_level = flag;
    header.values.mid[0] = 'a';
    rtpw_layers layers{};
    layers.count = layers.streams[0].count = layers.streams[0].layers[0].rates = 1;
    layers.streams[0].layers[0].kbps[0] = time;
    const std::size_t room = below(300);
    const auto kind = static_cast<std::uint8_t>(below(23));
    alike_written(
        room, [&](buffer to) { return rtpw::write(map, header, to); },
        [&](std::uint8_t *to, std::size_t n, std::size_t *len) { return rtpw_write(&map, &header, to, n, len); });
    alike_written(
        room, [&](buffer to) { return rtpw::write_layers(map, header, layers, to); },
        [&](std::uint8_t *to, std::size_t n, std::size_t *len) {
            return rtpw_write_layers(&map, &header, &layers, to, n, len);
        });
    alike_written(
        0, [&](buffer) { return rtpw::wire_len(map, header); },
        [&](std::uint8_t *, std::size_t, std::size_t *len) { return rtpw_wire_len(&map, &header, len); });
    alike_written(
        0, [&](buffer) { return rtpw::wire_len_layers(map, header, layers); },
        [&](std::uint8_t *, std::size_t, std::size_t *len) {
            return rtpw_wire_len_layers(&map, &header, &layers, len);
        });
    alike_written(
        below(20), [&](buffer to) { return rtpw::data_of(kind, header.values, to); },
        [&](std::uint8_t *to, std::size_t n, std::size_t *len) {
            return rtpw_data_of(kind, &header.values, to, n, len);
        });
    const rtpw_element chosen[] = {
        {0, below(20), 0, u8}, {1, 2, 0, 9}, {number() & 3, 1, 0, static_cast<std::uint8_t>(draw())}};
    const std::size_t some = below(4);
    alike_written(
        room, [&](buffer to) { return rtpw::write_with(header, data, chosen, some, to, u8); },
        [&](std::uint8_t *to, std::size_t n, std::size_t *len) {
            return rtpw_write_with_form(&header, bytes, size, chosen, some, u8, to, n, len);
        });
    alike_written(
        room, [&](buffer to) { return rtpw::write_elements(data, chosen, some, u8, to); },
        [&](std::uint8_t *to, std::size_t n, std::size_t *len) {
            return rtpw_write_elements(bytes, size, chosen, some, u8, to, n, len);
        });
    std::uint32_t kinds = 0;
    is = rtpw_left_out(&map, &header, &kinds);
    alike(rtpw::left_out(map, header), is, kinds);
    is = rtpw_left_out_layers(&map, &header, &layers, &kinds);
    alike(rtpw::left_out_layers(map, header, layers), is, kinds);
    std::uint8_t uri[RTPW_URI_SIZE + 200] = {0};
    std::size_t len = 0;
    const std::size_t of = below(2) == 0 ? below(80) : RTPW_URI_SIZE;
    is = rtpw_uri_of_kind(kind, uri, of, &len);
    alike(rtpw::uri_of_kind(kind, {uri, of}), is, std::string_view(reinterpret_cast<const char *>(uri), len));
    for (const std::size_t n : {len, len - (len != 0), len + 1, len + 64, len + 128}) {
        const std::string_view text(reinterpret_cast<const char *>(uri), n);
        CHECK(rtpw::kind_of_uri(text) == rtpw_kind_of_uri(uri, n));
    }
    const auto id = static_cast<std::uint8_t>(draw()), any = static_cast<std::uint8_t>(draw());
    rtpw_map one = map, other = map;
    CHECK(static_cast<std::int32_t>(rtpw::map_set(one, id, any)) == rtpw_map_set(&other, id, any));
    CHECK(std::memcmp(&one, &other, sizeof one) == 0 && rtpw::map_get(one, id) == rtpw_map_get(&other, id));
    CHECK(rtpw::id_of(one, any) == rtpw_id_of(&other, any));
    rtpw::map_remove(one, id);
    rtpw_map_remove(&other, id);
    CHECK(std::memcmp(&one, &other, sizeof one) == 0);
    const rtpw_new_ids ids[] = {rtpw::new_ids_between(map, one), rtpw::new_ids_to_retransmission(one),
                                rtpw::new_ids_from_retransmission(one)};
    rtpw_new_ids others[3];
    rtpw_new_ids_between(&map, &one, &others[0]);
    rtpw_new_ids_to_retransmission(&one, &others[1]);
    rtpw_new_ids_from_retransmission(&one, &others[2]);
    CHECK(std::memcmp(ids, others, sizeof ids) == 0);
}

// As many as a count of 16 bits can't tell, and a body of as many words as a block may have.
void alike_many() {
    const std::size_t count = 65536 + 300;
    const std::vector<std::uint8_t> buf(2 * count, 0x80);
    std::vector<rtpw_datagram> packets(count);
    std::vector<rtpw_datagram_header> headers(count);
    std::vector<rtpw_whole_datagram> wholes(count);
    std::vector<rtpw_arrival> arrivals(count);
    std::vector<rtpw_receiver> receivers(count);
    for (std::size_t i = 0; i < count; i++) {
        packets[i].at = headers[i].at = wholes[i].at = 2 * i;
        packets[i].len = headers[i].len = wholes[i].len = i % 2 == 0 ? 2 : 12;
        arrivals[i].receiver = i;
        arrivals[i].sequence_number = static_cast<std::uint16_t>(i);
        packets[i].status = headers[i].status = wholes[i].status = arrivals[i].status = 77;
    }
    rtpw::packet_parse_many(buf, packets);
    rtpw::parse_many(buf, rtpw::map_standard(), headers);
    rtpw::read_many(buf, rtpw::map_standard(), wholes);
    rtpw::receive_many(receivers, arrivals);
    for (std::size_t i = 0; i < count; i++) {
        const auto alone = i % 2 == 0                 ? status::cut_fixed_part
                           : 2 * i + 12 <= buf.size() ? status::ok
                                                      : status::bad_field;
        CHECK(status(packets[i].status) == alone && status(headers[i].status) == alone);
        CHECK(status(wholes[i].status) == alone);
        CHECK(arrivals[i].status == RTPW_OK && arrivals[i].number == (i & 0xffff) &&
              receivers[i].highest == (i & 0xffff));
    }
    std::vector<std::uint8_t> packet(12 + 4 + 4 * 65535), body(4 * 65535, 5);
    packet[0] = 0x80;
    std::size_t len = 12;
    CHECK(rtpw::put_block(packet, len, 0xabac, body) == status::ok && len == packet.size());
    CHECK(packet[14] == 0xff && packet[15] == 0xff && packet.back() == 5);
    const auto parsed = rtpw::packet_parse(packet);
    CHECK(parsed && parsed->body_len == body.size() && rtpw::payload(packet, *parsed).empty());
    CHECK(rtpw::remove_block(packet, len) == status::ok && len == 12);
    for (const std::size_t size : {std::size_t{4} << 16, std::size_t{1} << 20, std::size_t{1} << 24}) {
        body.resize(size);
        CHECK(rtpw::put_block(packet, len, 0xabac, body) == status::long_block && len == 12);
    }
}

// A header for a group, of which what is there can change with each argument, and those of three receivers.
void alike_routes() {
    const auto packet = any_packet();
    rtpw_new_ids ids{};
    for (std::uint8_t &id : ids.id) {
        id = static_cast<std::uint8_t>(below(16));
    }
    std::array<rtpw_element, 3> elements{};
    std::array<std::uint8_t, 40> data{};
    for (rtpw_element &it : elements) {
        it.id = static_cast<std::uint8_t>(below(18));
        it.data_at = below(30);
        it.data_len = below(13);
    }
    for (std::uint8_t &it : data) {
        it = static_cast<std::uint8_t>(draw());
    }
    const std::size_t count = below(4), room = below(8) == 0 ? below(200) : 600;
    const std::uint8_t allowed = static_cast<std::uint8_t>(below(4));
    std::vector<std::uint8_t> its(room, 0xee), others(room, 0xee);
    rtpw_template other{};
    const auto made = rtpw::make_template(packet, ids, data, {elements.data(), count}, its, allowed);
    const std::int32_t is = rtpw_make_template(packet.data(), packet.size(), &ids, data.data(), data.size(),
                                               elements.data(), count, allowed, others.data(), room, &other);
    const std::size_t fields = offsetof(rtpw_template, data_len) + sizeof other.data_len; // a byte behind them is none's
    CHECK(static_cast<std::int32_t>(made.status()) == is && std::memcmp(&*made, &other, fields) == 0);
    CHECK(its == others);
    rtpw_group other_group{};
    const auto group = rtpw::prepare_group(ids, {elements.data(), count}, allowed);
    const std::int32_t group_is = rtpw_prepare_group(&ids, elements.data(), count, allowed, &other_group);
    const std::size_t numbers = offsetof(rtpw_group, one_byte) + 1; // a byte behind them is none's
    CHECK(static_cast<std::int32_t>(group.status()) == group_is && std::memcmp(&*group, &other_group, numbers) == 0);
    std::vector<std::uint8_t> from_it(room, 0xee), from_other(room, 0xee);
    rtpw_template other_made{};
    const auto from_group = rtpw::make_from_group(*group, packet, from_it);
    const std::int32_t from_is = rtpw_make_from_group(&other_group, packet.data(), packet.size(), from_other.data(), room, &other_made);
    CHECK(static_cast<std::int32_t>(from_group.status()) == from_is && std::memcmp(&*from_group, &other_made, fields) == 0);
    CHECK(from_it == from_other);
    if (allowed == RTPW_ANY_FORM && room == 600) { // no form is named
        std::vector<std::uint8_t> of_any(room, 0xee);
        const auto any = rtpw::make_template(packet, ids, data, {elements.data(), count}, of_any);
        CHECK(any.status() == made.status() && of_any == its);
    }

    std::array<rtpw_routed_header, 3> receivers{};
    for (rtpw_routed_header &it : receivers) {
        it.data_at = below(40);
        it.fields.ssrc = static_cast<std::uint32_t>(draw());
        it.fields.payload_type = static_cast<std::uint8_t>(below(140));
        it.fields.has_ssrc = it.fields.has_payload_type = static_cast<std::uint8_t>(below(2));
        it.original_number = static_cast<std::uint16_t>(draw());
        it.is_retransmission = static_cast<std::uint8_t>(below(3) == 0 ? draw() : 0);
        it.clears_padding = static_cast<std::uint8_t>(below(2));
        it.status = 77;
    }
    auto their_receivers = receivers;
    std::vector<std::uint8_t> headers(500, 0xee), their_headers(500, 0xee);
    const std::size_t len = below(8) == 0 ? below(room + 1) : room;
    const status written = rtpw::write_headers(other, {its.data(), len}, data, receivers, headers);
    CHECK(static_cast<std::int32_t>(written) ==
          rtpw_write_headers(&other, others.data(), len, data.data(), data.size(), their_receivers.data(), 3,
                             their_headers.data(), 500));
    CHECK(headers == their_headers);
    for (std::size_t i = 0; i < 3; i++) {
        CHECK(receivers[i].status == their_receivers[i].status);
        CHECK(receivers[i].at == their_receivers[i].at && receivers[i].len == their_receivers[i].len);
    }
}

} // namespace

int main() {
    for (int i = 0; i < 2000; i++) {
        alike_packets();
        alike_numbers();
        alike_values();
        alike_routes();
    }
    alike_many();
}
