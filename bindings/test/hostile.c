/*
 * Calls every function of the library with random bytes and structs, in blocks of exactly their
 * length between pages that may not be touched, and compares each output with that of walk.h, of
 * walk_values.h, of walk_growing.h, or of the test's own writer. A call that is refused must change nothing, and no
 * call may change what it isn't to.
 *
 * usage: hostile SEED ROUNDS [malloc]      with `malloc`: blocks of malloc, for a memory checker
 */
#include "hostile.h"

#include "walk.h"

uint64_t round_number;
uint64_t random_state;
bool uses_malloc;

size_t random_len(void) {
    uint64_t kind = random_u64() % 8192;
    size_t bound = kind == 0 ? LONGEST : kind < 64 ? 2000 : kind < 4096 ? 300 : 60;
    return random_below(bound + 1);
}

uint8_t random_id(void) {
    return (uint8_t)(random_u64() % 4 == 0 ? random_u64() : random_u64() % 5);
}

/* Characters of one to four bytes in UTF-8, the first and the last of each length, and bytes that are none. */
static void random_text(uint8_t *text, size_t len) {
    static const char *const characters[] = {
        "a", "Z", "0", "9", "_", "-", " ", "/", ":", "@", "[", "`", "{", "\x7F", "\xC2\x80", "\xDF\xBF",
        "\xE0\xA0\x80", "\xED\x9F\xBF", "\xEE\x80\x80", "\xEF\xBF\xBF", "\xF0\x90\x80\x80",
        "\xF4\x8F\xBF\xBF", "\xC1\xBF", "\xE0\x9F\xBF", "\xED\xA0\x80", "\xF0\x8F\xBF\xBF",
        "\xF4\x90\x80\x80", "\x80", "\xFF",
    };
    const size_t all = sizeof characters / sizeof *characters, plain = 14, good = 22;
    for (size_t at = 0; at < len;) {
        uint64_t x = random_u64();
        const char *it = characters[random_below(x % 64 == 0 ? all : x % 8 == 0 ? good : plain)];
        for (size_t i = 0; it[i] != '\0' && at < len; i++) {
            text[at++] = (uint8_t)it[i];
        }
    }
}

void random_body(uint8_t *body, size_t len, int form) {
    fill(body, len);
    uint64_t kind = random_u64() % 16;
    if (kind < 2) {
        return;
    }
    if (kind == 2) {
        memset(body, 0xFF, len); /* the greatest values */
    } else if (kind < 6) {
        random_text(body, len);
    }
    for (size_t at = 0; at < len;) {
        uint64_t x = random_u64();
        if (x % 8 == 0) {
            body[at++] = 0;
            continue;
        }
        size_t data_len = x / 8 % (form == 1 ? 16 : x % 64 == 1 ? 256 : 24);
        body[at] = form == 1 ? (uint8_t)(random_id() * 16u + data_len) : random_id();
        if (form == 2 && at + 1 < len) {
            body[at + 1] = (uint8_t)data_len;
        }
        at += data_len + 2; /* in the one-byte form the header counts one byte less */
    }
}

/* A block at the end of the bytes, mostly one that fits, and mostly of one of the two forms. */
static void random_block(uint8_t *bytes, size_t len) {
    static const unsigned others[] = {0xABAC, 0xC0DE, 0xC2DE, 0xBEDF, 0x0FFF, 0x1010, 0, 0xFFFF};
    size_t at = 12 + bytes[0] % 16 * 4u;
    if (len < at + 4) {
        return;
    }
    uint64_t x = random_u64();
    int form = x % 2 == 0 ? 1 : 2;
    unsigned profile = form == 1 ? 0xBEDE : 0x1000 + (unsigned)(x / 8 % 16);
    size_t words = (len - at - 4) / 4;
    words = x / 128 % 16 == 0 ? words + 1 : random_below(words + 1);
    if (x / 131072 % 16 == 0) {
        profile = others[x / 2097152 % 8];
    }
    if (x / 4096 % 32 != 0) {
        bytes[at] = (uint8_t)(profile / 256);
        bytes[at + 1] = (uint8_t)profile;
    }
    if (words <= 65535) {
        bytes[at + 2] = (uint8_t)(words / 256);
        bytes[at + 3] = (uint8_t)words;
        size_t room = len - at - 4;
        random_body(bytes + at + 4, words * 4 < room ? words * 4 : room, form);
    }
}

void random_packet(uint8_t *bytes, size_t len) {
    fill(bytes, len);
    uint64_t x = random_u64();
    if (len == 0 || x % 16 == 0) {
        return;
    }
    unsigned csrc_count = x / 16 % 4 == 0 ? x / 64 % 16 : x / 64 % 2;
    bytes[0] = (uint8_t)(0x80 | (x / 1024 % 4 << 4) | csrc_count);
    if (x / 4096 % 2 == 0) {
        bytes[len - 1] = (uint8_t)(x / 8192 % 8);
    }
    if ((bytes[0] & 0x10) != 0) {
        random_block(bytes, len);
    }
}

int main(int argc, char **argv) {
    CHECK(argc >= 3);
    uint64_t seed = strtoull(argv[1], NULL, 10), rounds = strtoull(argv[2], NULL, 10);
    uses_malloc = argc > 3;
    for (round_number = 0; round_number < rounds; round_number++) {
        random_state = seed + round_number * 0x2545F4914F6CDD1Du;
        every_round();
    }
    printf("hostile: %llu rounds, seed %llu\n", (unsigned long long)rounds, (unsigned long long)seed);
    return 0;
}
