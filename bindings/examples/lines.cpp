// Reads datagrams from standard input, one a line in hexadecimal, and prints of each its header, the
// values of its extensions, and whether a receiver takes it. Each SSRC has a receiver of its own. Lines
// `map ID URI` before the first datagram say which extension an id means. It prints what the program rtp_lines does:
// a mid and a stream id with an underscore for each character that isn't a letter or a digit, as `cam_1` for a mid
// `cam-1`, and the first 16 characters of a mid and 8 of a stream id. To compare one with that of an SDP take
// rtpw::token of rtp_wire.hpp, the element's text as it lies.
#include "utf8.h"

#include <rtp_wire.h>

#include <cstdint>
#include <cstdio>
#include <iostream>
#include <map>
#include <string>
#include <vector>

namespace {

// Whether the line maps an id, of one to three digits, which is done.
bool map_line(const std::string &line, rtpw_map &map) {
    const std::size_t end = line.find_first_not_of("0123456789", 4);
    if (line.compare(0, 4, "map ") != 0 || end == std::string::npos || end == 4 || end > 7 || line[end] != ' ') {
        return false;
    }
    const unsigned long id = std::stoul(line.substr(4, end - 4));
    const std::string uri = line.substr(end + 1);
    const auto *bytes = reinterpret_cast<const std::uint8_t *>(uri.data());
    if (id == 0 || id > 255 || uri.empty() || !is_utf8(bytes, uri.size())) {
        return false;
    }
    if (rtpw_map_set(&map, static_cast<std::uint8_t>(id), rtpw_kind_of_uri(bytes, uri.size())) != RTPW_OK) {
        // A URI that isn't known: no value is read of its elements.
        rtpw_map_remove(&map, static_cast<std::uint8_t>(id));
    }
    return true;
}

// The bytes that the text spells, and whether it is hexadecimal.
bool bytes_of(const std::string &text, std::vector<std::uint8_t> &bytes) {
    bytes.clear();
    if (text.size() % 2 != 0 || text.find_first_not_of("0123456789abcdefABCDEF") != std::string::npos) {
        return false;
    }
    for (std::size_t i = 0; i < text.size(); i += 2) {
        bytes.push_back(static_cast<std::uint8_t>(std::stoul(text.substr(i, 2), nullptr, 16)));
    }
    bytes.reserve(1); // an address, also where there is no byte
    return true;
}

const char *yes_or_no(bool flag) {
    return flag ? "yes" : "no";
}

void print_header(unsigned long count, const rtpw_header &header) {
    std::cout << "packet " << count << ": pt " << unsigned(header.payload_type) << " seq " << header.sequence_number
              << " ts " << header.timestamp << " ssrc " << header.ssrc << " marker " << yes_or_no(header.marker != 0)
              << " padding " << yes_or_no(header.has_padding != 0) << " extension "
              << yes_or_no(header.has_extension != 0) << " csrc " << unsigned(header.csrc_count) << " header "
              << header.header_len;
}

void print_values(const rtpw_values &values) {
    if (values.has_mid) {
        std::cout << " mid " << values.mid;
    }
    if (values.has_rid) {
        std::cout << " rid " << values.rid;
    }
    if (values.has_repaired_rid) {
        std::cout << " repaired " << values.repaired_rid;
    }
    if (values.has_audio_level) {
        std::cout << " level " << int(values.audio_level);
    }
    if (values.has_voice_activity) {
        std::cout << " voice " << yes_or_no(values.voice_activity != 0);
    }
    if (values.has_send_time) {
        std::cout << " send " << values.send_time;
    }
    if (values.has_transport_number) {
        std::cout << " transport " << values.transport_number;
    }
    std::cout << '\n';
}

void print_verdict(unsigned long count, rtpw_receiver &receiver, std::uint16_t sequence_number) {
    std::uint64_t number;
    if (rtpw_receiver_receive(&receiver, sequence_number, &number) == RTPW_OK) {
        std::cout << "verdict " << count << ": taken " << number << '\n';
    } else {
        std::cout << "verdict " << count << ": refused\n";
    }
}

} // namespace

int main() {
    rtpw_map map = {};
    // Of zeros a receiver starts at the rollover count 0, as the program rtp_lines has it: from 1 on, by
    // rtpw_receiver_start, a packet from before the first one has a number too.
    std::map<std::uint32_t, rtpw_receiver> receivers;
    std::vector<std::uint8_t> datagram;
    std::string line;
    unsigned long packets = 0, lines = 0;
    while (std::getline(std::cin, line)) {
        lines++;
        if (!line.empty() && line.back() == '\r' && !std::cin.eof()) { // before a line feed
            line.pop_back();
        }
        if (packets == 0 && map_line(line, map)) {
            continue;
        }
        if (!bytes_of(line, datagram)) {
            std::cout << "line " << lines << ": neither a map line nor hex\n";
            return 2;
        }
        packets++;
        rtpw_header header;
        if (rtpw_parse(datagram.data(), datagram.size(), &map, &header) != RTPW_OK) {
            std::cout << "packet " << packets << ": unreadable\nverdict " << packets << ": unreadable\n";
            continue;
        }
        print_header(packets, header);
        print_values(header.values);
        print_verdict(packets, receivers[header.ssrc], header.sequence_number);
    }
    return std::ferror(stdin) || !std::cout.flush(); // std::cin takes what can't be read for the end
}
