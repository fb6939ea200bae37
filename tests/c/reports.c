/* The report on received words. */
#include "check.h"

#include <string.h>

static const SaltTpsWord word = {2, 1, 3, 2, 0xAB};

/* The line of a word, without its newline. */
static void put_digits(uint8_t *line) {
    uint8_t bits[SALT_TPS_WORD_BITS];
    CHECK(salt_tps_word_pack(word, bits, sizeof bits).number == SALT_ACCEPTED);
    for (size_t i = 0; i < SALT_LINE_DIGITS; i++) {
        line[i] = (uint8_t)"0123456789abcdef"[8 * bits[4 * i] + 4 * bits[4 * i + 1] + 2 * bits[4 * i + 2] + bits[4 * i + 3]];
    }
}

/* Whether an output begins with a text, of as many bytes as answered, and is unchanged behind it. */
static int begins_with(const Lent *out, SaltCounted answer, const char *text) {
    return answer.number == SALT_ACCEPTED && answer.count == strlen(text) && memcmp(out->at, text, answer.count) == 0 && unchanged_from(out, answer.count);
}

/* Lines that are read. */
static void lines_read(void) {
    uint8_t line[SALT_LINE_DIGITS];
    put_digits(line);
    SaltUnpacked read = salt_read_line(line, sizeof line);
    CHECK(read.number == SALT_ACCEPTED && memcmp(&read.word, &word, sizeof word) == 0 && read.mended == 0 && read.first == SALT_NO_PLACE);
    CHECK(salt_read_line(line, sizeof line - 1).number == SALT_BAD_LINE);
    line[3] = 'A';
    read = salt_read_line(line, sizeof line);
    CHECK(read.number == SALT_BAD_LINE && read.word.cell_id == 0);
    memset(line, '0', sizeof line);
    line[16] = '1';
    read = salt_read_line(line, sizeof line);
    CHECK(read.number == SALT_ACCEPTED && read.mended == 1 && read.first == 66 && read.second == SALT_NO_PLACE);
    line[15] = '8';
    line[16] = '9';
    CHECK(salt_read_line(line, sizeof line).number == SALT_NO_WORD);
}

/* Lines that are written: a word, a refusal, and codes that stand for nothing. */
static void lines_written(void) {
    const SaltUnpacked said = {0, word, 1, 9, SALT_NO_PLACE}, many = {0, word, UINT8_MAX, 0, 0}, refused = {SALT_NO_WORD, {0, 3, 5, 4, 0}, 2, 3, 4};
    const SaltUnpacked reserved[3] = {{0, {0, 3, 0, 0, 0}, 0, 0, 0}, {0, {0, 0, 5, 0, 0}, 0, 0, 0}, {0, {0, 0, 0, 4, 0}, 0, 0, 0}};
    Lent out = lend(SALT_LINE_ROOM, 1);
    for (size_t i = 0; i < 3; i++) {
        SaltCounted answer = salt_put_line(1, reserved[i], out.at, out.length);
        CHECK(answer.number == SALT_RESERVED && answer.count == 0 && unchanged_from(&out, 0));
        CHECK(salt_put_line(1, reserved[i], out.at, out.length - 1).number == SALT_OUTPUT_SHORT);
    }
    CHECK(begins_with(&out, salt_put_line(7, refused, out.at, out.length), "7 refused 4\n"));
    CHECK(begins_with(&out, salt_put_line(7, many, out.at, out.length), "7 2 16 5/6 1/8 ab 2\n"));
    CHECK(begins_with(&out, salt_put_line(UINT64_MAX, said, out.at, out.length), "18446744073709551615 2 16 5/6 1/8 ab 1\n"));
    CHECK(begins_with(&out, salt_put_heading(out.at, out.length), "line frame points rate guard cell mended\n"));
    give_back(&out);
}

typedef SaltReaderFed (*Feed)(SaltReader reader, const uint8_t *part, size_t part_length, uint8_t *out, size_t out_length);
typedef SaltCounted (*Close)(SaltReader reader, uint8_t *out, size_t out_length);

/* A whole input in parts of one size, by either decoder: a word, an empty line, a line of 18 digits, and an open line. */
static void in_parts(size_t size, Feed feed, Close end) {
    uint8_t input[SALT_LINE_DIGITS + 23];
    memset(input, '0', sizeof input);
    put_digits(input);
    input[17] = input[18] = input[37] = '\n';
    uint8_t text[200], out[sizeof input * SALT_LINE_ROOM];
    size_t at = 0, count = 0;
    SaltReader reader = salt_reader_new();
    while (at < sizeof input) {
        size_t length = sizeof input - at < size ? sizeof input - at : size;
        SaltReaderFed refused = feed(reader, input + at, length, out, SALT_LINE_ROOM * length - 1);
        CHECK(refused.answer.number == SALT_OUTPUT_SHORT && refused.answer.count == 0 && refused.reader.count == reader.count);
        SaltReaderFed fed = feed(refused.reader, input + at, length, out, SALT_LINE_ROOM * length);
        CHECK(fed.answer.number == SALT_ACCEPTED);
        memcpy(text + count, out, fed.answer.count);
        reader = fed.reader;
        count += fed.answer.count;
        at += length;
    }
    CHECK(reader.lines == 3 && reader.refused == 2 && reader.count == 2);
    SaltCounted closed = end(reader, text + count, SALT_CLOSE_ROOM);
    static const char whole[] = "1 2 16 5/6 1/8 ab 0\n2 refused 9\n3 refused 9\n4 refused 9\nread 4 refused 3\n";
    CHECK(closed.number == SALT_ACCEPTED && count + closed.count == strlen(whole) && memcmp(text, whole, strlen(whole)) == 0);
}

void test_reports(void) {
    lines_read();
    lines_written();
    for (size_t size = 1; size <= SALT_LINE_DIGITS + 23; size++) {
        in_parts(size, salt_reader_feed, salt_reader_close);
        in_parts(size, salt_reader_feed_slow, salt_reader_close_slow);
    }
}
