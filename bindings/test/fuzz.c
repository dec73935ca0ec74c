/*
 * For a fuzzer: calls every function of the library with the input, by the parts of the program `hostile`. Each
 * buffer is a block of exactly its length beside a page that may not be touched, and each output is compared with
 * that of walk.h, of walk_values.h, of walk_growing.h, or of the test's own writer: what differs aborts.
 *
 * The input is a datagram. Its last eight bytes choose what else is passed: maps, values, fields, numbers.
 * The library is assembly, in which a fuzzer counts no branches; those of what is compared are as many.
 *
 * libFuzzer calls LLVMFuzzerTestOneInput. With -D FUZZ_MAIN it is a program, for AFL++ or to run an input again:
 *
 * usage: fuzz [FILE..]      each file is an input, or else standard input is
 */
#include "hostile.h"

#include "walk.h"

uint64_t round_number;
uint64_t random_state;
bool uses_malloc;

static const uint8_t *input;
static size_t input_len;

size_t random_len(void) {
    return input_len;
}

void random_packet(uint8_t *bytes, size_t len) {
    for (size_t i = 0; i < len; i++) {
        bytes[i] = input[i];
    }
}

/* The elements of the packet, and then the rest of it; of bytes that are no packet, as they are. */
void random_body(uint8_t *body, size_t len, int form) {
    size_t at = walk(input, len).body_at;
    (void)form;
    for (size_t i = 0; i < len; i++) {
        body[i] = input[(at + i) % len];
    }
}

uint8_t random_id(void) {
    uint8_t byte = input_len == 0 ? 0 : input[random_below(input_len)];
    return random_u64() % 2 == 0 ? byte : byte / 16;
}

int LLVMFuzzerTestOneInput(const uint8_t *bytes, size_t len);
int LLVMFuzzerTestOneInput(const uint8_t *bytes, size_t len) {
    input = bytes;
    input_len = len < LONGEST ? len : LONGEST;
    random_state = 0;
    for (size_t i = input_len < 8 ? 0 : input_len - 8; i < input_len; i++) {
        random_state = random_state * 256 + input[i];
    }
    every_round();
    return 0;
}

#ifdef FUZZ_MAIN
static void run(FILE *file) {
    static uint8_t bytes[LONGEST];
    CHECK(file != NULL);
    size_t len = fread(bytes, 1, sizeof bytes, file);
    CHECK(ferror(file) == 0);
    LLVMFuzzerTestOneInput(bytes, len);
}

int main(int argc, char **argv) {
    for (int i = 1; i < argc; i++) {
        FILE *file = fopen(argv[i], "rb");
        run(file);
        fclose(file);
    }
    if (argc == 1) {
        run(stdin);
    }
    return 0;
}
#endif
