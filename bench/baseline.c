/* SPDX-License-Identifier: Apache-2.0 */
/* The least work on the text of a plan on standard input: reads it in pieces, finds its lines, decodes the digits of an `image`
 * line into one buffer, and reads the numbers of other lines. Prints a sum of what it read. bench/plans.py compares the program
 * hll_merge with it. */
#include <stdint.h>
#include <stdio.h>
#include <stdlib.h>
#include <string.h>
#include <unistd.h>

enum { PIECE = 65536, NO_DIGIT = 16 };

/* Bytes that grow. */
typedef struct bytes {
    unsigned char *at;
    size_t len, room;
} bytes;

static uint8_t digit_of[256];

static void ensure(bytes *held, size_t room)
{
    if (held->room >= room)
        return;
    held->room = room > 2 * held->room ? room : 2 * held->room;
    held->at = realloc(held->at, held->room);
    if (!held->at) {
        perror("baseline");
        exit(1);
    }
}

static void append(bytes *held, const unsigned char *at, size_t len)
{
    if (len == 0)
        return;
    ensure(held, held->len + len);
    memcpy(held->at + held->len, at, len);
    held->len += len;
}

static void fill_digits(void)
{
    memset(digit_of, NO_DIGIT, sizeof digit_of);
    for (int i = 0; i < 16; i++) {
        digit_of[(unsigned char)"0123456789abcdef"[i]] = (uint8_t)i;
        digit_of[(unsigned char)"0123456789ABCDEF"[i]] = (uint8_t)i;
    }
}

/* Decodes hexadecimal digits, and returns the last byte: 0 if there is none, or if a byte is no digit. */
static uint64_t last_byte(bytes *image, const unsigned char *word, size_t len)
{
    size_t size = len / 2;
    uint8_t seen = 0;
    ensure(image, size);
    for (size_t i = 0; i < size; i++) {
        uint8_t high = digit_of[word[2 * i]], low = digit_of[word[2 * i + 1]];
        seen |= high | low;
        image->at[i] = (unsigned char)(high << 4 | (low & 15));
    }
    return size == 0 || seen & NO_DIGIT ? 0 : image->at[size - 1];
}

static uint64_t sum_of_numbers(const unsigned char *line, size_t len)
{
    uint64_t sum = 0, number = 0;
    for (size_t i = 0; i < len; i++) {
        unsigned value = line[i] - (unsigned)'0';
        if (value < 10) {
            number = 10 * number + value;
        } else {
            sum += number;
            number = 0;
        }
    }
    return sum + number;
}

static uint64_t sum_of_line(bytes *image, const unsigned char *line, size_t len)
{
    static const char start[] = "image ";
    size_t before = sizeof start - 1;
    if (len >= before && memcmp(line, start, before) == 0 && !memchr(line + before, ' ', len - before))
        return last_byte(image, line + before, len - before);
    return sum_of_numbers(line, len);
}

/* The sum over the lines that end in a piece. The bytes after the last LF are then pending. */
static uint64_t sum_of_piece(bytes *pending, bytes *image, const unsigned char *piece, size_t len)
{
    const unsigned char *stop = piece + len, *end;
    uint64_t sum = 0;
    while ((end = memchr(piece, '\n', (size_t)(stop - piece))) != NULL) {
        if (pending->len == 0) {
            sum += sum_of_line(image, piece, (size_t)(end - piece));
        } else {
            append(pending, piece, (size_t)(end - piece));
            sum += sum_of_line(image, pending->at, pending->len);
            pending->len = 0;
        }
        piece = end + 1;
    }
    append(pending, piece, (size_t)(stop - piece));
    return sum;
}

int main(void)
{
    static unsigned char piece[PIECE];
    bytes pending = {0}, image = {0};
    uint64_t sum = 0;
    ssize_t got;
    fill_digits();
    while ((got = read(STDIN_FILENO, piece, sizeof piece)) > 0)
        sum += sum_of_piece(&pending, &image, piece, (size_t)got);
    if (got < 0) {
        perror("baseline");
        return 1;
    }
    printf("%llu\n", (unsigned long long)sum);
    free(pending.at);
    free(image.at);
    return 0;
}
