// What a compiler has to refuse of rtp_wire.hpp, as errors: -D REFUSED=1 to the last is one each, and 0 is none. Each
// has beside it what is taken.
#include "../rtp_wire.hpp"

#include <array>
#include <vector>

std::vector<std::uint8_t> datagram();
rtpw::buffer lent();
struct mine : rtpw_receiver {
    std::uint64_t more;
};
struct my_element : rtpw_element {
    std::uint64_t more;
};

void taken(std::vector<std::uint8_t> &kept, const rtpw_map &map, std::vector<rtpw_receiver> &receivers,
           rtpw::span<rtpw_arrival> arrivals, const rtpw_element *elements, std::array<std::uint8_t, 40> &room) {
    const auto header = rtpw::parse(datagram(), map);
    const auto mid = rtpw::mid(header->values);
    const auto ssrc = (*rtpw::packet_parse(datagram())).ssrc;
    const auto packet = rtpw::packet_parse(kept);
    const auto payload = rtpw::unpadded_payload(rtpw::bytes(kept), *packet);
    const auto text = rtpw::token({kept.data(), kept.size()}, *packet, 1);
    const auto whole = rtpw::read(kept, map);
    (void)rtpw::payload({kept.data(), kept.size()}, *packet), (void)rtpw::body(kept, *whole);
    (void)rtpw::unpadded_payload(rtpw::bytes(kept), *whole), (void)rtpw::data_of_element(kept, *whole, 1);
    (void)rtpw::set_ssrc(lent(), ssrc);
    (void)rtpw::set_ssrc({kept.data(), kept.size()}, payload[0]);
    (void)rtpw::set_ssrc(kept, mid && text);
    rtpw::receive_many(receivers, arrivals);
    rtpw::receive_many({receivers.data(), 1}, arrivals);
    (void)rtpw::write_elements(kept, elements, 1, RTPW_ONE_BYTE_FORM, room);
    (void)rtpw::write_elements(kept, nullptr, 0, RTPW_ONE_BYTE_FORM, room);
    for (const rtpw::element &it : rtpw::elements(kept, *packet)) {
        (void)it;
    }
    rtpw::own_uris uris, moved = std::move(uris);
    rtpw::uri_map named(map);
    (void)moved.set(named, 1, "urn:x");
}

void refused(std::vector<std::uint8_t> &kept, const rtpw_map &map, const rtpw_packet &packet,
             const rtpw_whole_packet &whole, std::vector<mine> &derived, rtpw::span<rtpw_arrival> arrivals, const my_element *elements) {
    (void)kept, (void)map, (void)packet, (void)whole, (void)derived, (void)arrivals, (void)elements;
#if REFUSED == 1 // the text is gone
    (void)rtpw::mid((*rtpw::parse(kept, map)).values);
#elif REFUSED == 2
    (void)rtpw::rid((*rtpw::parse(kept, map)).values);
#elif REFUSED == 3
    (void)rtpw::repaired_rid((*rtpw::parse(kept, map)).values);
#elif REFUSED == 4
    (void)rtpw::mid(rtpw::parse(kept, map)->values);
#elif REFUSED == 5 // and so are the bytes
    (void)rtpw::payload(datagram(), packet);
#elif REFUSED == 6
    (void)rtpw::unpadded_payload(datagram(), packet);
#elif REFUSED == 7
    (void)rtpw::body(datagram(), packet);
#elif REFUSED == 8
    (void)rtpw::elements(datagram(), packet);
#elif REFUSED == 9
    (void)rtpw::data_of_element(datagram(), packet, 1);
#elif REFUSED == 10
    (void)rtpw::token(datagram(), packet, 1);
#elif REFUSED == 11 // what is written is gone
    (void)rtpw::set_ssrc(datagram(), 3);
#elif REFUSED == 12
    (void)rtpw::set_ssrc(std::array<std::uint8_t, 12>{}, 3);
#elif REFUSED == 13 // the second one isn't where the library looks for it
    rtpw::receive_many(derived, arrivals);
#elif REFUSED == 14
    rtpw::receive_many({derived.data(), derived.size()}, arrivals);
#elif REFUSED == 15
    (void)rtpw::write_elements(kept, elements, 2, RTPW_ONE_BYTE_FORM, kept);
#elif REFUSED == 16
    (void)rtpw::write_with({}, kept, elements, 2, kept);
#elif REFUSED == 17 // the bytes are gone here too
    (void)rtpw::payload(datagram(), whole);
#elif REFUSED == 18
    (void)rtpw::unpadded_payload(datagram(), whole);
#elif REFUSED == 19
    (void)rtpw::elements(datagram(), whole);
#elif REFUSED == 20 // and what tells where they lie is a packet
    (void)rtpw::body(kept, map);
#elif REFUSED == 21 // the text of a result that isn't kept
    (void)rtpw::mid((*rtpw::read(kept, map)).header.values);
#elif REFUSED == 22 // both would give one number to two URIs
    const rtpw::own_uris uris, copied = uris;
#elif REFUSED == 23 // nothing says of whom the numbers are
    rtpw::own_uris uris;
    rtpw_map plain = map;
    (void)uris.set(plain, 1, "urn:x");
#endif
}
