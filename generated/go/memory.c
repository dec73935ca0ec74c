/*
 * memcpy, memmove and memset for the text of the package for Go, which has no library for C beside it. Plain code, not
 * proved: generated/go/make compiles it into that text.
 */
typedef __UINTPTR_TYPE__ word;
typedef unsigned char byte;
typedef __UINT64_TYPE__ eight __attribute__((aligned(1), may_alias));
typedef __UINT32_TYPE__ four __attribute__((aligned(1), may_alias));
typedef __UINT16_TYPE__ two __attribute__((aligned(1), may_alias));
typedef __UINT64_TYPE__ pair __attribute__((vector_size(16), aligned(1), may_alias));

#define LOAD(type, at) (*(const type *)(at))
#define STORE(type, at, value) (*(type *)(at) = (value))

void *memmove(void *to, const void *from, word len) {
    byte *t = to;
    const byte *f = from;
    if (len <= 16) {
        if (len >= 8) {
            eight a = LOAD(eight, f), z = LOAD(eight, f + len - 8);
            STORE(eight, t, a);
            STORE(eight, t + len - 8, z);
        } else if (len >= 4) {
            four a = LOAD(four, f), z = LOAD(four, f + len - 4);
            STORE(four, t, a);
            STORE(four, t + len - 4, z);
        } else if (len >= 2) {
            two a = LOAD(two, f), z = LOAD(two, f + len - 2);
            STORE(two, t, a);
            STORE(two, t + len - 2, z);
        } else if (len != 0) {
            *t = *f;
        }
        return to;
    }
    pair first = LOAD(pair, f), last = LOAD(pair, f + len - 16);
    if (len > 32) {
        pair second = LOAD(pair, f + 16), before = LOAD(pair, f + len - 32);
        if ((word)t - (word)f >= len) {
            for (word at = 32; at < len - 32; at += 32) {
                pair a = LOAD(pair, f + at), b = LOAD(pair, f + at + 16);
                STORE(pair, t + at, a);
                STORE(pair, t + at + 16, b);
            }
        } else {
            for (word at = len - 32; at > 32; at -= 32) {
                pair a = LOAD(pair, f + at - 32), b = LOAD(pair, f + at - 16);
                STORE(pair, t + at - 32, a);
                STORE(pair, t + at - 16, b);
            }
        }
        STORE(pair, t + 16, second);
        STORE(pair, t + len - 32, before);
    }
    STORE(pair, t, first);
    STORE(pair, t + len - 16, last);
    return to;
}

void *memcpy(void *to, const void *from, word len) {
    return memmove(to, from, len);
}

void *memset(void *to, int value, word len) {
    byte *t = to;
    __UINT64_TYPE__ all = 0x0101010101010101u * (byte)value;
    if (len < 16) {
        if (len >= 8) {
            STORE(eight, t, all);
            STORE(eight, t + len - 8, all);
        } else if (len >= 4) {
            STORE(four, t, (four)all);
            STORE(four, t + len - 4, (four)all);
        } else if (len >= 2) {
            STORE(two, t, (two)all);
            STORE(two, t + len - 2, (two)all);
        } else if (len != 0) {
            *t = (byte)all;
        }
        return to;
    }
    pair both = {all, all};
    STORE(pair, t, both);
    STORE(pair, t + len - 16, both);
    if (len > 32) {
        STORE(pair, t + 16, both);
        STORE(pair, t + len - 32, both);
        for (word at = 32; at < len - 32; at += 64) {
            STORE(pair, t + at, both);
            STORE(pair, t + at + 16, both);
            if (at + 32 < len - 32) {
                STORE(pair, t + at + 32, both);
                STORE(pair, t + at + 48, both);
            }
        }
    }
    return to;
}
