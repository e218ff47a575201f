/*
 * Every answer of the library once, as docs/C-INTERFACE.md shows them: the call, the number, and what its parts say.
 *
 *     cc -o answers answers.c $(pkg-config --cflags --libs mode_s)
 */
#include <inttypes.h>
#include <mode_s.h>
#include <stdio.h>
#include <string.h>

/* The number in hexadecimal digits, the answer, and the parts that it has. */
static void show(uint64_t number) {
    uint32_t answer = mode_s_answer(number);
    printf("  %016" PRIX64 "  %s", number, mode_s_answer_name(answer));
    if (answer == MODE_S_REFUSED) printf(" %" PRIu32, mode_s_refusal(number));
    if (answer == MODE_S_NOT_OURS) printf(" %06" PRIX32, mode_s_address(number));
    if (answer == MODE_S_DENSE) printf(", window %" PRIu32, mode_s_window(number));
    if (answer == MODE_S_CORRECTED) {
        printf(", window %" PRIu32 ", bits %" PRIu32 ", %s", mode_s_window(number), mode_s_bits(number),
               mode_s_mark(number) == MODE_S_SOLE ? "sole" : "several");
    }
    putchar('\n');
}

/* The bytes that pairs of digits write. */
static size_t bytes_of(const char *digits, uint8_t *bytes) {
    size_t length = strlen(digits) / 2;
    for (size_t i = 0; i < length; i++) {
        unsigned byte = 0;
        if (sscanf(digits + 2 * i, "%2X", &byte) == 1) bytes[i] = (uint8_t)byte;
    }
    return length;
}

static void seal_reply(const char *digits, uint32_t word) {
    uint8_t message[14];
    size_t length = bytes_of(digits, message);
    printf("mode_s_seal_reply %s, %06" PRIX32 "\n", digits, word);
    show(mode_s_seal_reply(message, length, word));
}

static void seal_interrogation(const char *digits, uint32_t address) {
    uint8_t message[14];
    size_t length = bytes_of(digits, message);
    printf("mode_s_seal_interrogation %s, %06" PRIX32 "\n", digits, address);
    show(mode_s_seal_interrogation(message, length, address));
}

static void receive(uint32_t own, const char *digits) {
    uint8_t message[14];
    size_t length = bytes_of(digits, message);
    printf("mode_s_receive %06" PRIX32 ", %s\n", own, digits);
    show(mode_s_receive(own, message, length));
}

static void correct(const char *digits, const char *marks, uint32_t word, uint32_t limit) {
    uint8_t message[14], confidence[14];
    size_t length = bytes_of(digits, message), confidence_length = bytes_of(marks, confidence);
    printf("mode_s_correct %s, %s, %06" PRIX32 ", %" PRIu32 "\n", digits, marks, word, limit);
    show(mode_s_correct(message, length, confidence, confidence_length, word, limit));
}

static void remainders(const char *digits, size_t count) {
    uint8_t replies[28];
    uint32_t words[2] = {0, 0};
    size_t length = bytes_of(digits, replies);
    printf("mode_s_remainders %s, %zu\n", digits, count);
    uint64_t number = mode_s_remainders(replies, length, words, count);
    if (mode_s_answer(number) != MODE_S_DIVIDED) {
        show(number);
        return;
    }
    printf("  %016" PRIX64 "  %s", number, mode_s_answer_name(mode_s_answer(number)));
    for (size_t i = 0; i < count; i++) printf(" %06" PRIX32, words[i]);
    putchar('\n');
}

int main(void) {
    uint8_t message[7] = {0};
    seal_reply("00008000000000", 0x123456);
    seal_interrogation("00000000000000", 0x000002);
    receive(0x000002, "00000000000003");
    receive(0x000002, "580000004A430A");
    receive(0x123456, "00000000000003");
    receive(0x123456, "00000000AAAC07");
    receive(0x000002, "A800000000000000000000A1B948");
    correct("00008000EB2472", "00000000000000", 0x123456, 24);
    correct("00000000EB2472", "00008000000000", 0x123456, 0);
    correct("00000001000000", "00000001FFF409", 0x000000, 14);
    correct("00000000EB2472", "00004000000000", 0x123456, 24);
    correct("00000000EB2472", "00008000000000", 0x123456, 24);
    correct("00000001000000", "00000001FFF409", 0x000000, 15);
    correct("A800089D8094E33A6004E4B8A523", "0000000000000000000000000001", 0x4953D4, 12);
    remainders("8D4840D6202CC371C32CE0576098", 1);
    remainders("8D4840D6202CC371C32CE05760988D4840D6202CC371C32CE0576099", 2);
    seal_reply("000000000000", 0x123456);
    correct("00000000EB2472", "0000800000000000000000000000", 0x123456, 24);
    seal_reply("00008000000000", 0x1000000);
    correct("00000000EB2472", "00008000000000", 0x123456, 25);
    seal_interrogation("80000000000000", 0x000002);
    receive(0xFFFFFF, "00000000000003");
    puts("mode_s_receive 000002, null pointer, length 0");
    show(mode_s_receive(0x000002, NULL, 0));
    puts("mode_s_correct 00000000000000, null pointer, length 0, 000000, 0");
    show(mode_s_correct(message, sizeof message, NULL, 0, 0x000000, 0));
    remainders("8D4840D6202CC371C32CE0576098", 2);
    return fflush(stdout) == 0 ? 0 : 1;
}
