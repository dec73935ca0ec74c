/* Made by bindings/described/make of rtp_wire.h and bindings/described/rtp_wire.hpp.in. */
/*
 * rtp_wire.hpp: the calls of rtp_wire.h in C++17, and nothing more to link.
 *
 * Each has the name that it has in C behind rtpw_, does what is said there, and is called with what C++ has for it:
 * bytes are a pointer and a length (in C++20 std::span), and so are a buffer and several structs; a text is a
 * std::string_view; and what a call writes is what it returns, beside its status. A result or a status that isn't
 * looked at is a warning. The structs are those of rtp_wire.h. Nothing here throws, keeps a pointer or takes memory,
 * but for own_uris, which keeps the URIs that it is given.
 *
 * A view of what is gone after the statement, as rtpw::mid((*rtpw::parse(datagram, map)).values), mostly doesn't
 * compile, and neither does writing into it; through -> it is a warning, and through a span that is made of it none. Of
 * a result that isn't kept take a copy, (*rtpw::packet_parse(datagram)).ssrc.
 *
 *     const auto packet = rtpw::read({datagram, len}, map);
 *     if (packet.status() == rtpw::status::rtcp) { // which comes to the same port
 *         return control({datagram, len});
 *     }
 *     if (!packet || !packet->padding_fits) {
 *         return drop({datagram, len}); // no packet, or malformed padding
 *     }
 *     if (const auto mid = rtpw::mid(packet->header.values)) {
 *         route(*mid);
 *     }
 *     deliver(packet->header.ssrc, rtpw::unpadded_payload({datagram, len}, *packet));
 */
#ifndef RTPW_HPP
#define RTPW_HPP

#include <algorithm>
#include <atomic>
#include <cstddef>
#include <cstdint>
#include <cstring>
#include <iterator>
#include <optional>
#include <string>
#include <string_view>
#include <type_traits>
#include <utility>
#include <vector>
#if __cplusplus >= 202002L
#include <span>
#endif

#include "rtp_wire.h"

/* What is returned may point into this argument: where that is gone, the compiler says so, if it has the attribute. */
#define RTPW_BOUND
#ifdef __has_cpp_attribute
#if __has_cpp_attribute(clang::lifetimebound)
#undef RTPW_BOUND
#define RTPW_BOUND [[clang::lifetimebound]]
#endif
#endif

namespace rtpw {

/* ---- Bytes, statuses and results ---- */

namespace detail {
template <class Values, class = void> struct is_view : std::false_type {};
template <class Values> struct is_view<Values, std::void_t<typename Values::element_type>> : std::true_type {};
/* A container that is gone after the statement, as a vector that a function returns; a span is none. */
template <class Values>
constexpr bool is_gone = !std::is_lvalue_reference_v<Values> && !is_view<std::remove_cv_t<Values>>::value;
template <class Values> using gone = std::enable_if_t<is_gone<Values>>;
/* An array of the one is an array of the other, but for const: not so of a struct and one that is derived from it. */
template <class Given, class Value> constexpr bool is_array_of = std::is_convertible_v<Given (*)[], Value (*)[]>;
template <class Given, class Value>
using derived = std::enable_if_t<std::is_convertible_v<Given *, Value *> && !is_array_of<Given, Value>>;
} // namespace detail

#if __cplusplus >= 202002L
template <class Value> using span = std::span<Value>;
#else
/* A pointer to values, and how many there are: from both, or from what has data() and size(), as std::vector. */
template <class Value> class span {
  public:
    using element_type = Value;
    constexpr span() noexcept = default;
    constexpr span(Value *data, std::size_t size) noexcept : data_(data), size_(size) {}
    template <std::size_t count> constexpr span(Value (&array)[count]) noexcept : data_(array), size_(count) {}
    template <class Values, class Given = std::remove_pointer_t<decltype(std::declval<Values &>().data())>,
              class = std::enable_if_t<detail::is_array_of<Given, Value> &&
                                       (std::is_const_v<Value> || !detail::is_gone<Values>)>>
    constexpr span(Values &&it) noexcept : data_(it.data()), size_(it.size()) {}
    template <class Given, class = detail::derived<Given, Value>> span(Given *, std::size_t) = delete;
    constexpr Value *data() const noexcept { return data_; }
    constexpr std::size_t size() const noexcept { return size_; }
    constexpr bool empty() const noexcept { return size_ == 0; }
    constexpr Value *begin() const noexcept { return data_; }
    constexpr Value *end() const noexcept { return size_ == 0 ? data_ : data_ + size_; }
    constexpr Value &operator[](std::size_t at) const noexcept { return data_[at]; }
    constexpr span subspan(std::size_t at, std::size_t count) const noexcept {
        return {at == 0 ? data_ : data_ + at, count};
    }

  private:
    Value *data_ = nullptr;
    std::size_t size_ = 0;
};
#endif
using bytes = span<const std::uint8_t>;
using buffer = span<std::uint8_t>;

/* A status of rtp_wire.h. */
enum class [[nodiscard]] status : std::int32_t {
    ok = RTPW_OK,
    cut_fixed_part = RTPW_CUT_FIXED_PART,
    other_version = RTPW_OTHER_VERSION,
    cut_sources = RTPW_CUT_SOURCES,
    cut_block_header = RTPW_CUT_BLOCK_HEADER,
    unknown_form = RTPW_UNKNOWN_FORM,
    cut_block = RTPW_CUT_BLOCK,
    short_buffer = RTPW_SHORT_BUFFER,
    bad_field = RTPW_BAD_FIELD,
    refused = RTPW_REFUSED,
    none = RTPW_NONE,
    restarted = RTPW_RESTARTED,
    bad_id = RTPW_BAD_ID,
    form_not_allowed = RTPW_FORM_NOT_ALLOWED,
    long_block = RTPW_LONG_BLOCK,
    long_id = RTPW_LONG_ID,
    rtcp = RTPW_RTCP
};

inline std::string_view status_text(status it) noexcept { return ::rtpw_status_text(static_cast<std::int32_t>(it)); }

/* What a call wrote, where its status is ok or restarted; else zeros. */
template <class Value> class [[nodiscard]] result {
  public:
    template <class Call>
    explicit result(const Call &call) noexcept : status_(static_cast<rtpw::status>(call(&value_))) {
        if (!*this) {
            value_ = Value{};
        }
    }
    explicit operator bool() const noexcept {
        return status_ == rtpw::status::ok || status_ == rtpw::status::restarted;
    }
    rtpw::status status() const noexcept { return status_; }
    const Value &operator*() const &noexcept RTPW_BOUND { return value_; }
    Value operator*() const &&noexcept { return value_; }
    const Value *operator->() const &noexcept RTPW_BOUND { return &value_; }
    [[deprecated("the result is gone after the statement: keep it, or take a copy of its value by *")]] const Value *
    operator->() const &&noexcept RTPW_BOUND { return &value_; }

  private:
    Value value_;
    rtpw::status status_;
};

/* Why a number isn't accepted. */
enum class standing : std::uint8_t { unseen = RTPW_NEW, taken = RTPW_TAKEN, too_old = RTPW_TOO_OLD };

/* What a call of C writes is what is returned here: a struct, a number, or how many bytes the packet has then, are
 * written to the front of the buffer, or would be. Data and a body of which a byte lies in the buffer that is written
 * are refused: bad_field. Of a packet at the front of a buffer `len` becomes its new length. Of many what is told of
 * each stands in its struct, the status too: rtpw::status(it.status). */

inline std::uint32_t version() noexcept {
    return ::rtpw_version();
}

/* ---- A packet where it lies ---- */

inline bool is_rtcp(bytes datagram) noexcept {
    return ::rtpw_is_rtcp(datagram.data(), datagram.size());
}
inline result<rtpw_packet> packet_parse(bytes datagram) noexcept {
    return result<rtpw_packet>([&](rtpw_packet *it) {
        return ::rtpw_packet_parse(datagram.data(), datagram.size(), it);
    });
}

/* ---- A packet, changed where it lies ---- */

inline status set_marker(buffer datagram, bool marker) noexcept {
    return status(::rtpw_set_marker(datagram.data(), datagram.size(), marker));
}
inline status set_payload_type(buffer datagram, std::uint8_t payload_type) noexcept {
    return status(::rtpw_set_payload_type(datagram.data(), datagram.size(), payload_type));
}
inline status set_sequence_number(buffer datagram, std::uint16_t number) noexcept {
    return status(::rtpw_set_sequence_number(datagram.data(), datagram.size(), number));
}
inline status set_timestamp(buffer datagram, std::uint32_t timestamp) noexcept {
    return status(::rtpw_set_timestamp(datagram.data(), datagram.size(), timestamp));
}
inline status set_ssrc(buffer datagram, std::uint32_t ssrc) noexcept {
    return status(::rtpw_set_ssrc(datagram.data(), datagram.size(), ssrc));
}
inline status set_fields(buffer datagram, const rtpw_fields &fields) noexcept {
    return status(::rtpw_set_fields(datagram.data(), datagram.size(), &fields));
}
inline status set_csrc(buffer datagram, std::size_t index, std::uint32_t source) noexcept {
    return status(::rtpw_set_csrc(datagram.data(), datagram.size(), index, source));
}
inline status set_element(buffer datagram, std::uint8_t id, bytes data) noexcept {
    return status(::rtpw_set_element(datagram.data(), datagram.size(), id, data.data(), data.size()));
}
inline status remove_element(buffer datagram, std::uint8_t id) noexcept {
    return status(::rtpw_remove_element(datagram.data(), datagram.size(), id));
}
inline status set_padding(buffer datagram, bool has_padding) noexcept {
    return status(::rtpw_set_padding(datagram.data(), datagram.size(), has_padding));
}
inline result<std::size_t> remove_padding(buffer datagram) noexcept {
    return result<std::size_t>([&](std::size_t *it) {
        return ::rtpw_remove_padding(datagram.data(), datagram.size(), it);
    });
}

/* ---- A packet that grows where it lies, and one that is made short ---- */

inline status put_element(buffer buf, std::size_t &len, std::uint8_t id, bytes data,
        std::uint8_t allowed = RTPW_ANY_FORM) noexcept {
    return status(::rtpw_put_element(buf.data(), buf.size(), &len, id, data.data(), data.size(), allowed));
}
inline status add_element(buffer buf, std::size_t &len, std::uint8_t id, bytes data,
        std::uint8_t allowed = RTPW_ANY_FORM) noexcept {
    return status(::rtpw_add_element(buf.data(), buf.size(), &len, id, data.data(), data.size(), allowed));
}
inline status compact(buffer buf, std::size_t &len) noexcept {
    return status(::rtpw_compact(buf.data(), buf.size(), &len));
}
inline status change_form(buffer buf, std::size_t &len, std::uint8_t form) noexcept {
    return status(::rtpw_change_form(buf.data(), buf.size(), &len, form));
}
inline status remove_block(buffer buf, std::size_t &len) noexcept {
    return status(::rtpw_remove_block(buf.data(), buf.size(), &len));
}
inline status put_block(buffer buf, std::size_t &len, std::uint16_t profile, bytes body) noexcept {
    return status(::rtpw_put_block(buf.data(), buf.size(), &len, profile, body.data(), body.size()));
}

/* ---- The elements of a block ---- */

inline result<rtpw_element> next_element(bytes body, std::uint8_t form, std::size_t at) noexcept {
    return result<rtpw_element>([&](rtpw_element *it) {
        return ::rtpw_next_element(body.data(), body.size(), form, at, it);
    });
}
inline std::size_t next_elements(bytes body, std::uint8_t form, std::size_t at, span<rtpw_element> elements)
        noexcept {
    return ::rtpw_next_elements(body.data(), body.size(), form, at, elements.data(), elements.size());
}
inline result<rtpw_element> last_element(bytes body, std::uint8_t form, std::uint8_t id) noexcept {
    return result<rtpw_element>([&](rtpw_element *it) {
        return ::rtpw_last_element(body.data(), body.size(), form, id, it);
    });
}

/* ---- The values of a block ---- */

inline status map_set(rtpw_map &map, std::uint8_t id, std::uint8_t kind) noexcept {
    return status(::rtpw_map_set(&map, id, kind));
}
inline void map_remove(rtpw_map &map, std::uint8_t id) noexcept {
    ::rtpw_map_remove(&map, id);
}
inline std::uint8_t map_get(const rtpw_map &map, std::uint8_t id) noexcept {
    return ::rtpw_map_get(&map, id);
}
inline std::uint8_t id_of(const rtpw_map &map, std::uint8_t kind) noexcept {
    return ::rtpw_id_of(&map, kind);
}
inline rtpw_map map_standard() noexcept {
    rtpw_map map;
    ::rtpw_map_standard(&map);
    return map;
}
inline result<rtpw_values> values_read(bytes body, std::uint8_t form, const rtpw_map &map) noexcept {
    return result<rtpw_values>([&](rtpw_values *it) {
        return ::rtpw_values_read(body.data(), body.size(), form, &map, it);
    });
}
inline result<std::size_t> data_of(std::uint8_t kind, const rtpw_values &values, buffer buf) noexcept {
    return result<std::size_t>([&](std::size_t *it) {
        return ::rtpw_data_of(kind, &values, buf.data(), buf.size(), it);
    });
}

/* ---- A header, read and written ---- */

inline result<rtpw_whole_packet> read(bytes datagram, const rtpw_map &map) noexcept {
    return result<rtpw_whole_packet>([&](rtpw_whole_packet *it) {
        return ::rtpw_read(datagram.data(), datagram.size(), &map, it);
    });
}
inline result<rtpw_header> parse(bytes datagram, const rtpw_map &map) noexcept {
    return result<rtpw_header>([&](rtpw_header *it) {
        return ::rtpw_parse(datagram.data(), datagram.size(), &map, it);
    });
}
inline result<rtpw_header> parse_layers(bytes datagram, const rtpw_map &map, rtpw_layers &layers) noexcept {
    return result<rtpw_header>([&](rtpw_header *it) {
        return ::rtpw_parse_layers(datagram.data(), datagram.size(), &map, it, &layers);
    });
}
inline result<std::size_t> wire_len(const rtpw_map &map, const rtpw_header &header) noexcept {
    return result<std::size_t>([&](std::size_t *it) { return ::rtpw_wire_len(&map, &header, it); });
}
inline result<std::size_t> write(const rtpw_map &map, const rtpw_header &header, buffer buf) noexcept {
    return result<std::size_t>([&](std::size_t *it) {
        return ::rtpw_write(&map, &header, buf.data(), buf.size(), it);
    });
}
inline result<std::size_t> wire_len_layers(const rtpw_map &map, const rtpw_header &header,
        const rtpw_layers &layers) noexcept {
    return result<std::size_t>([&](std::size_t *it) { return ::rtpw_wire_len_layers(&map, &header, &layers, it); });
}
inline result<std::size_t> write_layers(const rtpw_map &map, const rtpw_header &header, const rtpw_layers &layers,
        buffer buf) noexcept {
    return result<std::size_t>([&](std::size_t *it) {
        return ::rtpw_write_layers(&map, &header, &layers, buf.data(), buf.size(), it);
    });
}
inline result<std::uint32_t> left_out(const rtpw_map &map, const rtpw_header &header) noexcept {
    return result<std::uint32_t>([&](std::uint32_t *it) { return ::rtpw_left_out(&map, &header, it); });
}
inline result<std::uint32_t> left_out_layers(const rtpw_map &map, const rtpw_header &header,
        const rtpw_layers &layers) noexcept {
    return result<std::uint32_t>([&](std::uint32_t *it) {
        return ::rtpw_left_out_layers(&map, &header, &layers, it);
    });
}
inline result<std::size_t> write_with(const rtpw_header &header, bytes data, span<const rtpw_element> elements,
        buffer buf) noexcept {
    return result<std::size_t>([&](std::size_t *it) {
        return ::rtpw_write_with(&header, data.data(), data.size(), elements.data(), elements.size(), buf.data(),
            buf.size(), it);
    });
}

/* ---- A header in less ---- */

inline result<rtpw_fixed_part> read_fixed_part(bytes datagram, rtpw_layout &layout) noexcept {
    return result<rtpw_fixed_part>([&](rtpw_fixed_part *it) {
        return ::rtpw_read_fixed_part(datagram.data(), datagram.size(), it, &layout);
    });
}
inline status write_fixed_part(const rtpw_fixed_part &fixed, buffer buf) noexcept {
    return status(::rtpw_write_fixed_part(&fixed, buf.data(), buf.size()));
}
inline result<std::size_t> write_data_elements(const rtpw_fixed_part &fixed, span<const rtpw_data_element> elements,
        std::uint8_t form, buffer buf) noexcept {
    return result<std::size_t>([&](std::size_t *it) {
        return ::rtpw_write_data_elements(&fixed, elements.data(), elements.size(), form, buf.data(), buf.size(),
            it);
    });
}

/* ---- Values as the standards lay them out ---- */

inline result<std::uint32_t> read_send_time(bytes data) noexcept {
    return result<std::uint32_t>([&](std::uint32_t *it) {
        return ::rtpw_read_send_time(data.data(), data.size(), it);
    });
}
inline result<std::size_t> write_send_time(std::uint32_t units, buffer buf) noexcept {
    return result<std::size_t>([&](std::size_t *it) {
        return ::rtpw_write_send_time(units, buf.data(), buf.size(), it);
    });
}
inline std::uint64_t extend_send_time(std::uint64_t around, std::uint32_t units) noexcept {
    return ::rtpw_extend_send_time(around, units);
}
inline result<std::int32_t> read_transmission_offset(bytes data) noexcept {
    return result<std::int32_t>([&](std::int32_t *it) {
        return ::rtpw_read_transmission_offset(data.data(), data.size(), it);
    });
}
inline result<std::size_t> write_transmission_offset(std::int32_t offset, buffer buf) noexcept {
    return result<std::size_t>([&](std::size_t *it) {
        return ::rtpw_write_transmission_offset(offset, buf.data(), buf.size(), it);
    });
}
inline result<rtpw_frame_marking> read_frame_marking(bytes data) noexcept {
    return result<rtpw_frame_marking>([&](rtpw_frame_marking *it) {
        return ::rtpw_read_frame_marking(data.data(), data.size(), it);
    });
}
inline result<std::size_t> write_frame_marking(const rtpw_frame_marking &marking, buffer buf) noexcept {
    return result<std::size_t>([&](std::size_t *it) {
        return ::rtpw_write_frame_marking(&marking, buf.data(), buf.size(), it);
    });
}
inline result<rtpw_orientation> read_orientation(bytes data) noexcept {
    return result<rtpw_orientation>([&](rtpw_orientation *it) {
        return ::rtpw_read_orientation(data.data(), data.size(), it);
    });
}
inline result<std::size_t> write_orientation(const rtpw_orientation &orientation, buffer buf) noexcept {
    return result<std::size_t>([&](std::size_t *it) {
        return ::rtpw_write_orientation(&orientation, buf.data(), buf.size(), it);
    });
}
inline bool is_token(bytes data) noexcept {
    return ::rtpw_is_token(data.data(), data.size());
}
inline bool is_stream_id(bytes data) noexcept {
    return ::rtpw_is_stream_id(data.data(), data.size());
}
inline result<rtpw_timing> read_timing(bytes data) noexcept {
    return result<rtpw_timing>([&](rtpw_timing *it) { return ::rtpw_read_timing(data.data(), data.size(), it); });
}
inline result<std::size_t> write_timing(const rtpw_timing &timing, buffer buf) noexcept {
    return result<std::size_t>([&](std::size_t *it) {
        return ::rtpw_write_timing(&timing, buf.data(), buf.size(), it);
    });
}
inline result<rtpw_transport_number> read_transport_number(bytes data) noexcept {
    return result<rtpw_transport_number>([&](rtpw_transport_number *it) {
        return ::rtpw_read_transport_number(data.data(), data.size(), it);
    });
}
inline result<std::size_t> write_transport_number(const rtpw_transport_number &number, buffer buf) noexcept {
    return result<std::size_t>([&](std::size_t *it) {
        return ::rtpw_write_transport_number(&number, buf.data(), buf.size(), it);
    });
}
inline result<std::int8_t> read_mixer_level(bytes data, std::size_t csrc_count, std::size_t index) noexcept {
    return result<std::int8_t>([&](std::int8_t *it) {
        return ::rtpw_read_mixer_level(data.data(), data.size(), csrc_count, index, it);
    });
}
inline result<std::size_t> write_mixer_levels(span<const std::int8_t> levels, buffer buf) noexcept {
    return result<std::size_t>([&](std::size_t *it) {
        return ::rtpw_write_mixer_levels(levels.data(), levels.size(), buf.data(), buf.size(), it);
    });
}
inline result<std::uint64_t> read_ntp_64(bytes data) noexcept {
    return result<std::uint64_t>([&](std::uint64_t *it) {
        return ::rtpw_read_ntp_64(data.data(), data.size(), it);
    });
}
inline result<std::size_t> write_ntp_64(std::uint64_t time, buffer buf) noexcept {
    return result<std::size_t>([&](std::size_t *it) {
        return ::rtpw_write_ntp_64(time, buf.data(), buf.size(), it);
    });
}
inline result<std::uint64_t> read_ntp_56(bytes data) noexcept {
    return result<std::uint64_t>([&](std::uint64_t *it) {
        return ::rtpw_read_ntp_56(data.data(), data.size(), it);
    });
}
inline result<std::size_t> write_ntp_56(std::uint64_t time, buffer buf) noexcept {
    return result<std::size_t>([&](std::size_t *it) {
        return ::rtpw_write_ntp_56(time, buf.data(), buf.size(), it);
    });
}
inline std::uint64_t extend_ntp_56(std::uint64_t around, std::uint64_t low) noexcept {
    return ::rtpw_extend_ntp_56(around, low);
}
inline result<rtpw_color_space> read_color_space(bytes data) noexcept {
    return result<rtpw_color_space>([&](rtpw_color_space *it) {
        return ::rtpw_read_color_space(data.data(), data.size(), it);
    });
}
inline result<std::size_t> write_color_space(const rtpw_color_space &space, buffer buf) noexcept {
    return result<std::size_t>([&](std::size_t *it) {
        return ::rtpw_write_color_space(&space, buf.data(), buf.size(), it);
    });
}
inline result<rtpw_dependency_descriptor> read_dependency_descriptor(bytes data) noexcept {
    return result<rtpw_dependency_descriptor>([&](rtpw_dependency_descriptor *it) {
        return ::rtpw_read_dependency_descriptor(data.data(), data.size(), it);
    });
}
inline result<std::size_t> write_dependency_descriptor(const rtpw_dependency_descriptor &descriptor, buffer buf)
        noexcept {
    return result<std::size_t>([&](std::size_t *it) {
        return ::rtpw_write_dependency_descriptor(&descriptor, buf.data(), buf.size(), it);
    });
}
inline bool has_structure(bytes data) noexcept {
    return ::rtpw_has_structure(data.data(), data.size());
}

/* ---- From one map to another ---- */

inline rtpw_new_ids new_ids_between(const rtpw_map &from, const rtpw_map &to) noexcept {
    rtpw_new_ids ids;
    ::rtpw_new_ids_between(&from, &to, &ids);
    return ids;
}
inline status renumber(buffer datagram, const rtpw_new_ids &ids) noexcept {
    return status(::rtpw_renumber(datagram.data(), datagram.size(), &ids));
}

/* ---- Padding and retransmissions ---- */

inline result<std::size_t> pad(buffer datagram, std::size_t header_len, std::uint8_t pad_len,
        std::size_t block_size) noexcept {
    return result<std::size_t>([&](std::size_t *it) {
        return ::rtpw_pad(datagram.data(), datagram.size(), header_len, pad_len, block_size, it);
    });
}
inline result<std::uint16_t> read_original(bytes payload) noexcept {
    return result<std::uint16_t>([&](std::uint16_t *it) {
        return ::rtpw_read_original(payload.data(), payload.size(), it);
    });
}
inline status write_original(buffer payload, std::uint64_t number) noexcept {
    return status(::rtpw_write_original(payload.data(), payload.size(), number));
}
inline rtpw_new_ids new_ids_to_retransmission(const rtpw_map &map) noexcept {
    rtpw_new_ids ids;
    ::rtpw_new_ids_to_retransmission(&map, &ids);
    return ids;
}
inline rtpw_new_ids new_ids_from_retransmission(const rtpw_map &map) noexcept {
    rtpw_new_ids ids;
    ::rtpw_new_ids_from_retransmission(&map, &ids);
    return ids;
}
inline status to_retransmission(buffer buf, std::size_t &len, std::uint32_t ssrc, std::uint8_t payload_type,
        std::uint16_t number, const rtpw_new_ids &ids) noexcept {
    return status(::rtpw_to_retransmission(buf.data(), buf.size(), &len, ssrc, payload_type, number, &ids));
}
inline status from_retransmission(buffer buf, std::size_t &len, std::uint32_t ssrc, std::uint8_t payload_type,
        const rtpw_new_ids &ids) noexcept {
    return status(::rtpw_from_retransmission(buf.data(), buf.size(), &len, ssrc, payload_type, &ids));
}

/* ---- The numbers of a stream ---- */

inline result<rtpw_receiver> receiver_start(std::uint64_t rollover_count) noexcept {
    return result<rtpw_receiver>([&](rtpw_receiver *it) { return ::rtpw_receiver_start(it, rollover_count); });
}
inline std::uint64_t receiver_number_of(const rtpw_receiver &receiver, std::uint16_t sequence_number) noexcept {
    return ::rtpw_receiver_number_of(&receiver, sequence_number);
}
inline bool receiver_accepts(const rtpw_receiver &receiver, std::uint64_t number) noexcept {
    return ::rtpw_receiver_accepts(&receiver, number);
}
inline void receiver_record(rtpw_receiver &receiver, std::uint64_t number) noexcept {
    ::rtpw_receiver_record(&receiver, number);
}
inline result<std::uint64_t> receiver_receive(rtpw_receiver &receiver, std::uint16_t sequence_number) noexcept {
    return result<std::uint64_t>([&](std::uint64_t *it) {
        return ::rtpw_receiver_receive(&receiver, sequence_number, it);
    });
}
inline standing receiver_standing_of(const rtpw_receiver &receiver, std::uint64_t number) noexcept {
    return standing(::rtpw_receiver_standing_of(&receiver, number));
}
inline result<std::uint64_t> restarting_receive(rtpw_restarting_receiver &receiver, std::uint16_t sequence_number)
        noexcept {
    return result<std::uint64_t>([&](std::uint64_t *it) {
        return ::rtpw_restarting_receive(&receiver, sequence_number, it);
    });
}
inline void reception_record(rtpw_reception &reception, std::uint64_t number, std::uint32_t timestamp,
        std::uint32_t arrival) noexcept {
    ::rtpw_reception_record(&reception, number, timestamp, arrival);
}
inline result<rtpw_report> reception_report(rtpw_reception &reception) noexcept {
    return result<rtpw_report>([&](rtpw_report *it) { return ::rtpw_reception_report(&reception, it); });
}
inline result<std::size_t> write_report(const rtpw_report &report, std::uint32_t ssrc, std::uint32_t last_report,
        std::uint32_t delay, buffer buf) noexcept {
    return result<std::size_t>([&](std::size_t *it) {
        return ::rtpw_write_report(&report, ssrc, last_report, delay, buf.data(), buf.size(), it);
    });
}
inline result<std::uint64_t> wide_restarting_receive(rtpw_wide_restarting_receiver &receiver,
        span<std::uint64_t> words, std::uint16_t sequence_number) noexcept {
    return result<std::uint64_t>([&](std::uint64_t *it) {
        return ::rtpw_wide_restarting_receive(&receiver, words.data(), words.size(), sequence_number, it);
    });
}
inline std::uint64_t extend_u8(std::uint64_t previous, std::uint8_t number) noexcept {
    return ::rtpw_extend_u8(previous, number);
}
inline std::uint64_t extend_u15(std::uint64_t previous, std::uint16_t number) noexcept {
    return ::rtpw_extend_u15(previous, number);
}
inline std::uint64_t extend_u16(std::uint64_t previous, std::uint16_t number) noexcept {
    return ::rtpw_extend_u16(previous, number);
}
inline std::uint64_t extend_u32(std::uint64_t previous, std::uint32_t number) noexcept {
    return ::rtpw_extend_u32(previous, number);
}

/* ---- Many at once ---- */

inline void read_many(bytes buf, const rtpw_map &map, span<rtpw_whole_datagram> datagrams) noexcept {
    ::rtpw_read_many(buf.data(), buf.size(), &map, datagrams.data(), datagrams.size());
}
inline void packet_parse_many(bytes buf, span<rtpw_datagram> datagrams) noexcept {
    ::rtpw_packet_parse_many(buf.data(), buf.size(), datagrams.data(), datagrams.size());
}
inline void parse_many(bytes buf, const rtpw_map &map, span<rtpw_datagram_header> datagrams) noexcept {
    ::rtpw_parse_many(buf.data(), buf.size(), &map, datagrams.data(), datagrams.size());
}
inline void receive_many(span<rtpw_receiver> receivers, span<rtpw_arrival> arrivals) noexcept {
    ::rtpw_receive_many(receivers.data(), receivers.size(), arrivals.data(), arrivals.size());
}

/* ---- One packet to all its receivers ---- */

inline result<rtpw_template> make_template(bytes datagram, const rtpw_new_ids &ids, bytes data,
        span<const rtpw_element> elements, buffer buf, std::uint8_t allowed = RTPW_ANY_FORM) noexcept {
    return result<rtpw_template>([&](rtpw_template *it) {
        return ::rtpw_make_template(datagram.data(), datagram.size(), &ids, data.data(), data.size(),
            elements.data(), elements.size(), allowed, buf.data(), buf.size(), it);
    });
}
inline result<rtpw_group> prepare_group(const rtpw_new_ids &ids, span<const rtpw_element> elements,
        std::uint8_t allowed = RTPW_ANY_FORM) noexcept {
    return result<rtpw_group>([&](rtpw_group *it) {
        return ::rtpw_prepare_group(&ids, elements.data(), elements.size(), allowed, it);
    });
}
inline result<rtpw_template> make_from_group(const rtpw_group &group, bytes datagram, buffer buf) noexcept {
    return result<rtpw_template>([&](rtpw_template *it) {
        return ::rtpw_make_from_group(&group, datagram.data(), datagram.size(), buf.data(), buf.size(), it);
    });
}
inline status write_headers(const rtpw_template &made, bytes header, bytes data, span<rtpw_routed_header> receivers,
        buffer buf) noexcept {
    return status(::rtpw_write_headers(&made, header.data(), header.size(), data.data(), data.size(),
            receivers.data(), receivers.size(), buf.data(), buf.size()));
}

/* ---- Of C++ alone: the parts of a packet ---- */

namespace detail {
/* Both structs that tell a packet say where its parts lie. */
inline std::size_t payload_at(const rtpw_packet &packet) noexcept { return packet.payload_at; }
inline std::size_t payload_at(const rtpw_whole_packet &packet) noexcept { return packet.header.header_len; }
template <class Packet> using told = decltype(payload_at(std::declval<const Packet &>()));
} // namespace detail

/* The parts of the datagram that was read: the payload with its padding and without, and the body of the block. Of what
 * read tells, the payload with its padding is the rest of the datagram, from header.header_len on. */
inline bytes payload(bytes datagram, const rtpw_packet &packet) noexcept {
    return datagram.subspan(packet.payload_at, packet.payload_len);
}
template <class Packet, class = detail::told<Packet>>
bytes unpadded_payload(bytes datagram, const Packet &packet) noexcept {
    return datagram.subspan(detail::payload_at(packet), packet.unpadded_len);
}
template <class Packet, class = detail::told<Packet>> bytes body(bytes datagram, const Packet &packet) noexcept {
    return datagram.subspan(packet.body_at, packet.body_len);
}
template <class Bytes, class Packet, class = detail::gone<Bytes>> bytes payload(Bytes &&, const Packet &) = delete;
template <class Bytes, class Packet, class = detail::gone<Bytes>>
bytes unpadded_payload(Bytes &&, const Packet &) = delete;
template <class Bytes, class Packet, class = detail::gone<Bytes>> bytes body(Bytes &&, const Packet &) = delete;
/* The contributing source at a place below packet.csrc_count. */
inline std::uint32_t csrc(bytes datagram, std::size_t index) noexcept {
    const std::uint8_t *it = datagram.data() + RTPW_CSRC_AT + 4 * index;
    return std::uint32_t{it[0]} << 24 | std::uint32_t{it[1]} << 16 | std::uint32_t{it[2]} << 8 | it[3];
}

/* ---- Of C++ alone: the elements of a block ---- */

/* An element, and its data where they lie. */
struct element {
    std::uint8_t id;
    bytes data;
};

/* The elements of a packet, for `for`; none where its block has another form, or it has none. */
class elements {
  public:
    template <class Packet, class = detail::told<Packet>>
    elements(bytes datagram, const Packet &packet) noexcept
        : body_(body(datagram, packet)), form_(packet.block_form) {}
    template <class Bytes, class Packet, class = detail::gone<Bytes>> elements(Bytes &&, const Packet &) = delete;

    class iterator {
      public:
        using iterator_category = std::input_iterator_tag;
        using value_type = element;
        using difference_type = std::ptrdiff_t;
        using pointer = const element *;
        using reference = element;
        element operator*() const noexcept { return {at_->id, body_.subspan(at_->data_at, at_->data_len)}; }
        iterator &operator++() noexcept {
            at_ = next_element(body_, form_, at_->end);
            return *this;
        }
        iterator operator++(int) noexcept {
            const iterator before = *this;
            ++*this;
            return before;
        }
        /* There are more; only end() is compared with. */
        bool operator!=(const iterator &) const noexcept { return static_cast<bool>(at_); }
        bool operator==(const iterator &) const noexcept { return !at_; }

      private:
        friend class elements;
        iterator(bytes body, std::uint8_t form) noexcept : body_(body), form_(form), at_(next_element(body, form, 0)) {}
        bytes body_;
        std::uint8_t form_;
        result<rtpw_element> at_;
    };
    iterator begin() const noexcept { return {body_, form_}; }
    iterator end() const noexcept { return {bytes(), RTPW_NO_BLOCK}; }

  private:
    bytes body_;
    std::uint8_t form_;
};

/* The data of the last element of an id, which is the one that counts. */
template <class Packet, class = detail::told<Packet>>
std::optional<bytes> data_of_element(bytes datagram, const Packet &packet, std::uint8_t id) noexcept {
    const auto it = last_element(body(datagram, packet), packet.block_form, id);
    return it ? std::optional(body(datagram, packet).subspan(it->data_at, it->data_len)) : std::nullopt;
}
/* The text of that element as it lies, to be compared with the SDP's, where its data are a token. mid() and its like
 * have another text where they don't keep one of its characters, or its length. */
template <class Packet, class = detail::told<Packet>>
std::optional<std::string_view> token(bytes datagram, const Packet &packet, std::uint8_t id) noexcept {
    const auto data = data_of_element(datagram, packet, id);
    if (!data || !is_token(*data)) {
        return std::nullopt;
    }
    return std::string_view(reinterpret_cast<const char *>(data->data()), data->size());
}
template <class Bytes, class Packet, class = detail::gone<Bytes>>
std::optional<bytes> data_of_element(Bytes &&, const Packet &, std::uint8_t) = delete;
template <class Bytes, class Packet, class = detail::gone<Bytes>>
std::optional<std::string_view> token(Bytes &&, const Packet &, std::uint8_t) = delete;

/* ---- Of C++ alone: URIs, maps and texts ---- */

inline std::uint8_t kind_of_uri(std::string_view uri) noexcept {
    return ::rtpw_kind_of_uri(reinterpret_cast<const std::uint8_t *>(uri.data()), uri.size());
}
/* The URI is written to the buffer, for which RTPW_URI_SIZE bytes are enough, and returned as it lies there. */
inline result<std::string_view> uri_of_kind(std::uint8_t kind, buffer buf) noexcept {
    return result<std::string_view>([&](std::string_view *it) {
        std::size_t len = 0;
        const std::int32_t status = ::rtpw_uri_of_kind(kind, buf.data(), buf.size(), &len);
        *it = {reinterpret_cast<const char *>(buf.data()), len};
        return status;
    });
}

/* A map, and which own_uris gave the kinds of one's own in it: so those of two aren't taken for the same
 * (new_ids_between). */
class uri_map : public rtpw_map {
  public:
    uri_map() noexcept : rtpw_map{} {}
    explicit uri_map(const rtpw_map &map) noexcept : rtpw_map(map) {}

  private:
    friend class own_uris;
    friend rtpw_new_ids new_ids_between(const uri_map &, const uri_map &) noexcept;
    std::uint64_t table_ = 0;
};

/* Kinds of one's own for URIs that the library doesn't know, the same for the same URI in all maps that are made with
 * it: so the elements of an extension go on where both peers have it, whatever it is. Keep one for a call. It takes
 * memory, which may throw.
 *
 *     rtpw::own_uris uris;
 *     for (const auto &[id, uri] : offer.extmap) { // a=extmap:ID URI
 *         if (uris.set(publisher.map, id, uri) != rtpw::status::ok) { // an rtpw::uri_map
 *             return refuse(id);
 *         }
 *     }
 *     for (const std::string &uri : uris.unknown()) {
 *         log("no value is read of", uri); // or it is misspelled
 *     }
 */
class own_uris {
  public:
    own_uris() noexcept = default;
    own_uris(const own_uris &) = delete; // the URIs that come to a copy may be others
    own_uris &operator=(const own_uris &) = delete;
    own_uris(own_uris &&other) noexcept
        : unknown_(std::exchange(other.unknown_, {})), table_(std::exchange(other.table_, 0)) {}
    own_uris &operator=(own_uris &&other) noexcept {
        unknown_ = std::exchange(other.unknown_, {});
        table_ = std::exchange(other.table_, 0);
        return *this;
    }

    /* The id means from now on what the URI names. bad_field, and nothing changes, where the id is 0, the URI is one
     * too many that the library doesn't know (128 have kinds), or it isn't known and the map has kinds of another
     * own_uris. */
    status set(uri_map &map, std::uint8_t id, std::string_view uri) {
        std::uint8_t kind = kind_of(uri);
        const bool is_known = kind != RTPW_KIND_NONE && kind < RTPW_KIND_OWN;
        if (!is_known && map.table_ != 0 && map.table_ != table_) {
            return status::bad_field;
        }
        if (kind == RTPW_KIND_NONE && id != 0 && unknown_.size() < 256 - RTPW_KIND_OWN) {
            unknown_.emplace_back(uri);
            kind = kind_of(uri);
        }
        const status set = map_set(map, id, kind);
        if (set == status::ok && !is_known) {
            map.table_ = table();
        }
        return set;
    }
    /* The kind of the library, or one's own where the URI was set; else RTPW_KIND_NONE. */
    std::uint8_t kind_of(std::string_view uri) const noexcept {
        std::uint8_t kind = rtpw::kind_of_uri(uri);
        for (std::size_t i = 0; kind == RTPW_KIND_NONE && i < unknown_.size(); i++) {
            kind = unknown_[i] == uri ? static_cast<std::uint8_t>(RTPW_KIND_OWN + i) : kind;
        }
        return kind;
    }
    /* The URIs that the library doesn't know, by their kinds: that of RTPW_KIND_OWN first. */
    const std::vector<std::string> &unknown() const &noexcept RTPW_BOUND { return unknown_; }
    std::vector<std::string> unknown() &&noexcept { return std::move(unknown_); }

  private:
    /* What the maps are told from those of others by. */
    std::uint64_t table() noexcept {
        static std::atomic<std::uint64_t> tables{0};
        if (table_ == 0) {
            table_ = ++tables;
        }
        return table_;
    }
    std::vector<std::string> unknown_;
    std::uint64_t table_ = 0;
};

/* The texts of values, where they are there. One that is set is refused, bad_field, where it is too long (16
 * characters, or 8) or has a zero: then nothing changes. Its other characters are judged where it is written. */
namespace detail {
template <std::size_t size> status set_text(char (&text)[size], std::uint8_t &has, std::string_view to) noexcept {
    if (to.size() >= size || to.find('\0') != std::string_view::npos) {
        return status::bad_field;
    }
    std::memset(text, 0, size);
    to.copy(text, to.size());
    has = 1;
    return status::ok;
}
} // namespace detail
inline std::optional<std::string_view> mid(const rtpw_values &values RTPW_BOUND) noexcept {
    return values.has_mid ? std::optional<std::string_view>(values.mid) : std::nullopt;
}
std::optional<std::string_view> mid(const rtpw_values &&) = delete;
inline status set_mid(rtpw_values &values, std::string_view to) noexcept {
    return detail::set_text(values.mid, values.has_mid, to);
}
inline std::optional<std::string_view> rid(const rtpw_values &values RTPW_BOUND) noexcept {
    return values.has_rid ? std::optional<std::string_view>(values.rid) : std::nullopt;
}
std::optional<std::string_view> rid(const rtpw_values &&) = delete;
inline status set_rid(rtpw_values &values, std::string_view to) noexcept {
    return detail::set_text(values.rid, values.has_rid, to);
}
inline std::optional<std::string_view> repaired_rid(const rtpw_values &values RTPW_BOUND) noexcept {
    return values.has_repaired_rid ? std::optional<std::string_view>(values.repaired_rid) : std::nullopt;
}
std::optional<std::string_view> repaired_rid(const rtpw_values &&) = delete;
inline status set_repaired_rid(rtpw_values &values, std::string_view to) noexcept {
    return detail::set_text(values.repaired_rid, values.has_repaired_rid, to);
}

/* ---- Of C++ alone: a header, written ---- */

/* A header with these values, all else 0: has_extension is set exactly where one of them is there. */
inline rtpw_header header_with(const rtpw_values &values) noexcept {
    rtpw_header it{};
    it.values = values;
    const auto there = left_out(rtpw_map{}, it); // without a block, all that are there
    it.has_extension = there && *there == 0 ? 0 : 1;
    return it;
}
/* With `count` elements; `form` is RTPW_ONE_BYTE_FORM or RTPW_TWO_BYTE_FORM alone, or either. */
inline result<std::size_t> write_with(const rtpw_header &header, bytes data, const rtpw_element *elements,
                                      std::size_t count, buffer buf, std::uint8_t form = RTPW_NO_BLOCK) noexcept {
    return result<std::size_t>([&](std::size_t *it) {
        return ::rtpw_write_with_form(&header, data.data(), data.size(), elements, count, form, buf.data(), buf.size(),
                                      it);
    });
}
inline result<std::size_t> write_elements(bytes data, const rtpw_element *elements, std::size_t count,
                                          std::uint8_t form, buffer buf) noexcept {
    return result<std::size_t>([&](std::size_t *it) {
        return ::rtpw_write_elements(data.data(), data.size(), elements, count, form, buf.data(), buf.size(), it);
    });
}
template <class Element, class = detail::derived<Element, const rtpw_element>>
result<std::size_t> write_with(const rtpw_header &, bytes, Element *, std::size_t, buffer,
                               std::uint8_t = RTPW_NO_BLOCK) = delete;
template <class Element, class = detail::derived<Element, const rtpw_element>>
result<std::size_t> write_elements(bytes, Element *, std::size_t, std::uint8_t, buffer) = delete;

/* ---- Of C++ alone: from one map to another ---- */

/* Kinds of one's own that two own_uris gave are no common ones: of such maps their ids get none. */
inline rtpw_new_ids new_ids_between(const uri_map &from, const uri_map &to) noexcept {
    rtpw_map common = from;
    if (from.table_ != 0 && to.table_ != 0 && from.table_ != to.table_) {
        const auto is_own = [](std::uint8_t kind) { return kind >= RTPW_KIND_OWN; };
        std::replace_if(std::begin(common.kind), std::end(common.kind), is_own, std::uint8_t{RTPW_KIND_NONE});
    }
    return new_ids_between(common, static_cast<const rtpw_map &>(to));
}

/* ---- Of C++ alone: a window of any size ---- */

/* A receiver with a window of 64 numbers for each of 1 to 512 words, made at a rollover count: 1 where nothing is
 * authenticated, so that a packet from before the first one has a number too, and with SRTP the one that was signalled,
 * or 0. */
template <std::size_t count> class wide_receiver {
    static_assert(count >= 1 && count <= 512, "a window has 1 to 512 words");
    friend class result<wide_receiver>;
    wide_receiver() noexcept = default;

  public:
    /* The status is bad_field where the rollover count is 2^48 or more. */
    static result<wide_receiver> starting_at(std::uint64_t rollover_count) noexcept {
        return result<wide_receiver>(
            [&](wide_receiver *it) { return ::rtpw_wide_receiver_start(&it->state, rollover_count); });
    }
    status start(std::uint64_t rollover_count) noexcept {
        return status(::rtpw_wide_receiver_start(&state, rollover_count));
    }
    std::uint64_t number_of(std::uint16_t sequence_number) const noexcept {
        return ::rtpw_wide_receiver_number_of(&state, sequence_number);
    }
    bool accepts(std::uint64_t number) const noexcept {
        return ::rtpw_wide_receiver_accepts(&state, words, count, number);
    }
    status record(std::uint64_t number) noexcept {
        return status(::rtpw_wide_receiver_record(&state, words, count, number));
    }
    result<std::uint64_t> receive(std::uint16_t sequence_number) noexcept {
        return result<std::uint64_t>([&](std::uint64_t *it) {
            return ::rtpw_wide_receiver_receive(&state, words, count, sequence_number, it);
        });
    }
    standing standing_of(std::uint64_t number) const noexcept {
        return standing(::rtpw_wide_receiver_standing_of(&state, words, count, number));
    }

    rtpw_wide_receiver state{};
    std::uint64_t words[count]{};
};

} // namespace rtpw

#undef RTPW_BOUND

#endif
