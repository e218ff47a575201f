/*
 * A display program as its makers would write it: reads replies from standard input, one a line, has each corrected, and prints
 * what came of it. The lines and the columns are those of `sift`:
 *
 *     MESSAGE CONFIDENCE WORD LIMIT
 *     line answer window bits mark message
 *
 * With the library installed:
 *
 *     cc -o display display.c $(pkg-config --cflags --libs mode_s)
 *     ./display < recording.txt
 *
 * It ends with 1 where standard input could not be read or standard output not be written.
 */
#include <mode_s.h>
#include <stdbool.h>
#include <stdio.h>

/* Bytes of a message, and of the longest well-formed line. */
enum { MOST_BYTES = 14, LONGEST = 2 * 28 + 6 + 2 + 3 };

struct line {
    char text[LONGEST + 1];
    size_t length; /* LONGEST + 1 where the line is longer */
};

struct request {
    uint8_t message[MOST_BYTES];
    size_t length;
    uint8_t confidence[MOST_BYTES];
    size_t confidence_length;
    uint32_t word;
    uint32_t limit;
};

/* The next line without its line feed; false where there is none. */
static bool read_line(struct line *line) {
    int c = getchar();
    if (c == EOF) return false;
    line->length = 0;
    for (; c != EOF && c != '\n'; c = getchar()) {
        if (line->length <= LONGEST) line->text[line->length++] = (char)c;
    }
    return true;
}

/* The value of a digit, or 16. */
static uint32_t digit(char c) {
    if ('0' <= c && c <= '9') return (uint32_t)(c - '0');
    if ('A' <= c && c <= 'F') return (uint32_t)(c - 'A') + 10;
    return 16;
}

/* The number that `least` to `most` digits of a base write at *at; *at is then behind them. */
static bool read_number(const struct line *line, size_t *at, uint32_t base, size_t least, size_t most, uint32_t *number) {
    size_t start = *at;
    *number = 0;
    while (*at < line->length && *at - start < most && digit(line->text[*at]) < base) {
        *number = *number * base + digit(line->text[(*at)++]);
    }
    return *at - start >= least;
}

/* 1 to 14 bytes, two digits each; *at is then behind them. */
static bool read_bytes(const struct line *line, size_t *at, uint8_t *bytes, size_t *length) {
    uint32_t byte;
    for (*length = 0; *length < MOST_BYTES && *at < line->length && digit(line->text[*at]) < 16; (*length)++) {
        if (!read_number(line, at, 16, 2, 2, &byte)) return false;
        bytes[*length] = (uint8_t)byte;
    }
    return *length > 0;
}

static bool read_space(const struct line *line, size_t *at) { return *at < line->length && line->text[(*at)++] == ' '; }

/* Whether a line is well formed, and what it asks for. */
static bool read_request(const struct line *line, struct request *request) {
    size_t at = 0;
    return read_bytes(line, &at, request->message, &request->length) && read_space(line, &at) &&
           read_bytes(line, &at, request->confidence, &request->confidence_length) && read_space(line, &at) &&
           read_number(line, &at, 16, 6, 6, &request->word) && read_space(line, &at) &&
           read_number(line, &at, 10, 1, 2, &request->limit) && at == line->length;
}

/* sift writes 'no fit' as one word. */
static const char *word_of(uint32_t answer) { return answer == MODE_S_NO_FIT ? "nofit" : mode_s_answer_name(answer); }

/* Window, bits and mark, with - for what an answer lacks; a refusal stands in the first column. */
static void print_parts(uint64_t number) {
    switch (mode_s_answer(number)) {
    case MODE_S_REFUSED: printf("%lu - -", (unsigned long)mode_s_refusal(number)); break;
    case MODE_S_DENSE: printf("%lu - -", (unsigned long)mode_s_window(number)); break;
    case MODE_S_CORRECTED:
        printf("%lu %lu %s", (unsigned long)mode_s_window(number), (unsigned long)mode_s_bits(number),
               mode_s_mark(number) == MODE_S_SOLE ? "sole" : "several");
        break;
    default: printf("- - -"); break;
    }
}

static void answer(unsigned long place, struct request *request) {
    uint64_t number = mode_s_correct(request->message, request->length, request->confidence, request->confidence_length,
                                     request->word, request->limit);
    printf("%lu %s ", place, word_of(mode_s_answer(number)));
    print_parts(number);
    putchar(' ');
    for (size_t i = 0; i < request->length; i++) printf("%02X", request->message[i]);
    putchar('\n');
}

int main(void) {
    struct line line;
    struct request request;
    puts("line answer window bits mark message");
    for (unsigned long place = 1; read_line(&line); place++) {
        if (read_request(&line, &request)) {
            answer(place, &request);
        } else {
            printf("%lu malformed - - - -\n", place);
        }
    }
    if (ferror(stdin)) {
        fputs("display: standard input could not be read\n", stderr);
        return 1;
    }
    if (fflush(stdout) != 0 || ferror(stdout)) {
        fputs("display: standard output could not be written\n", stderr);
        return 1;
    }
    return 0;
}
