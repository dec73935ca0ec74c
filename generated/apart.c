/*
 * What stands in front of the seven functions of the library for C that write where the data which they read may lie.
 * Each refuses data of which a byte lies in the buffer, and else goes on to the proved function, which takes for
 * granted that there is no such byte. It isn't proved: where a slice lies can't be told in the language of what is. The
 * script generated/make compiles it into the texts (generated/anew.sh).
 */

/* An address, a size, or a smaller number, as it comes in a register or in its place on the stack: what isn't looked at
 * here is passed on with all its bits. */
typedef __UINTPTR_TYPE__ word;

enum { BAD_FIELD = 9 }; /* RTPW_BAD_FIELD */

/* Whether a byte of the data is one of the buffer. Memory ends at the last address at most, so no sum is cut. Data that
 * end before the buffer begins cost one comparison, and those that begin behind its end two. */
static inline _Bool share(word data, word data_len, word buf, word size) {
    if (__builtin_expect(data + data_len <= buf, 1)) {
        return 0;
    }
    return __builtin_expect(buf + size > data, 0) && data_len != 0 && size != 0;
}

/* A function of these arguments, among them `data`, `data_len`, `buf` and `size`, in front of the proved one. */
#define APART(name, arguments, passed) \
    __attribute__((visibility("hidden"))) int rtp_proved_##name arguments; \
    int rtpw_##name arguments; \
    int rtpw_##name arguments { \
        return share(data, data_len, buf, size) ? BAD_FIELD : rtp_proved_##name passed; \
    }

APART(set_element, (word buf, word size, word id, word data, word data_len), (buf, size, id, data, data_len))
APART(put_element, (word buf, word size, word len, word id, word data, word data_len, word allowed),
      (buf, size, len, id, data, data_len, allowed))
APART(add_element, (word buf, word size, word len, word id, word data, word data_len, word allowed),
      (buf, size, len, id, data, data_len, allowed))
APART(put_block, (word buf, word size, word len, word profile, word data, word data_len),
      (buf, size, len, profile, data, data_len))
APART(write_with, (word header, word data, word data_len, word elements, word count, word buf, word size, word len),
      (header, data, data_len, elements, count, buf, size, len))
APART(write_with_form,
      (word header, word data, word data_len, word elements, word count, word form, word buf, word size, word len),
      (header, data, data_len, elements, count, form, buf, size, len))
APART(write_elements, (word data, word data_len, word elements, word count, word form, word buf, word size, word len),
      (data, data_len, elements, count, form, buf, size, len))
