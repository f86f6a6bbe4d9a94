/* SPDX-License-Identifier: Apache-2.0 */
/* Each call that writes an image, into a buffer that is too short, exact and too long, for images of each stage and
 * width at lg_k 12, and of registers at lg_k 21. */
#include "test.h"

/* What a byte of the buffer is before a call. */
static uint8_t before(size_t i)
{
    return (uint8_t)(i * 7 + 3);
}

static void prepare(uint8_t *buffer, size_t len)
{
    size_t i;
    for (i = 0; i < len; i++)
        buffer[i] = before(i);
}

static int is_unchanged(const uint8_t *buffer, size_t from, size_t to)
{
    size_t i;
    for (i = from; i < to; i++)
        if (buffer[i] != before(i))
            return 0;
    return 1;
}

/* A call in a buffer of so much room: all is as before where that is less than what is needed, else what is after the
 * image. */
static void test_room(const struct writer *writer, bytes image, bytes wanted, size_t room)
{
    size_t len = wanted.len + 64, size = 4711;
    uint8_t *buffer = with_room(len).at;
    hll_status status;
    prepare(buffer, len);
    status = writer->call(image.at, image.len, buffer, room, &size);
    CHECK(size == wanted.len, "%s: %d needed, not %d", writer->name, (int)wanted.len, (int)size);
    if (room < wanted.len) {
        CHECK(status == HLL_BUFFER, "%s: %s for room of %d", writer->name, hll_reason(status), (int)room);
        CHECK(is_unchanged(buffer, 0, len), "%s wrote into a buffer that is too small", writer->name);
    } else {
        CHECK(status == HLL_OK, "%s: %s for room of %d", writer->name, hll_reason(status), (int)room);
        CHECK(memcmp(buffer, wanted.at, wanted.len) == 0, "%s: other bytes", writer->name);
        CHECK(is_unchanged(buffer, wanted.len, len), "%s wrote after the image", writer->name);
    }
    free(buffer);
}

static void test_writer(const struct writer *writer, bytes image)
{
    bytes wanted = with_room(HLL_IMAGE_MAX(21));
    hll_status status = writer->call(image.at, image.len, wanted.at, wanted.len, &wanted.len);
    CHECK(status == HLL_OK, "%s: %s", writer->name, hll_reason(status));
    if (status == HLL_OK) {
        size_t rooms[6] = {0, 1, wanted.len / 2, wanted.len - 1, wanted.len, wanted.len + 5}, i;
        CHECK(hll_image_check(wanted.at, wanted.len) == HLL_OK, "%s wrote no image", writer->name);
        for (i = 0; i < 6; i++)
            test_room(writer, image, wanted, rooms[i]);
    }
    free(wanted.at);
}

/* The buffer overlaps the image, which hll.h forbids. What it says of this holds: with out == image the result is right, and
 * elsewhere no byte outside the buffer changes. */
static void test_overlap(const struct writer *writer, bytes image)
{
    static const int shifts[] = {0, 1, -1, 8, -8, 39, -39, 100, -100};
    size_t most = HLL_IMAGE_MAX(12), len = 2 * most + 400, i;
    bytes wanted = with_room(most), place = with_room(len);
    need(image.len <= most, "an image of lg_k 12");
    need(writer->call(image.at, image.len, wanted.at, most, &wanted.len) == HLL_OK, writer->name);
    for (i = 0; i < sizeof shifts / sizeof *shifts; i++) {
        size_t at = 200, out = (size_t)(200 + shifts[i]), size = 0, j;
        hll_status status;
        prepare(place.at, len);
        memcpy(place.at + at, image.at, image.len);
        status = writer->call(place.at + at, image.len, place.at + out, most, &size);
        if (shifts[i] == 0)
            CHECK(status == HLL_OK && size == wanted.len && memcmp(place.at + out, wanted.at, size) == 0, "%s in place",
                  writer->name);
        for (j = 0; j < len; j++)
            if ((j < out || out + most <= j) &&
                place.at[j] != (at <= j && j < at + image.len ? image.at[j - at] : before(j)))
                break;
        CHECK(j == len, "%s wrote outside its buffer, which is %d bytes from the image", writer->name, shifts[i]);
    }
    free(wanted.at);
    free(place.at);
}

/* An image of registers of 4 bits that all may be exceptions but one, the most that HLL_IMAGE_MAX speaks of. */
static void test_exceptions(uint8_t lg_k)
{
    size_t registers = (size_t)1 << lg_k, size = 0, i;
    bytes eight = with_room(40 + registers), four = with_room(HLL_IMAGE_MAX(lg_k));
    memset(eight.at, 0, eight.len);
    memcpy(eight.at, "\12\1\7\0\0\20\0\12", 8);
    eight.at[3] = lg_k;
    for (i = 1; i < registers; i++)
        eight.at[40 + i] = 15 + i % 49;
    CHECK(hll_image_convert(eight.at, eight.len, 4, four.at, four.len, &size) == HLL_OK, "lg_k %d", lg_k);
    CHECK(size == 40 + registers / 2 + 4 * (registers - 1) && size <= HLL_IMAGE_MAX(lg_k), "%d bytes", (int)size);
    free(eight.at);
    free(four.at);
}

int main(int argc, char **argv)
{
    int small = argc > 1 && strcmp(argv[1], "small") == 0;
    size_t stage, i;
    unsigned width;
    for (width = 4; width <= 8; width += 2) {
        for (stage = 0; stage < 3; stage++) {
            bytes image = image_of_values(12, (uint8_t)width, 7, values_of_stage[stage]);
            for (i = 0; i < WRITERS; i++) {
                test_writer(&writers[i], image);
                test_overlap(&writers[i], image);
            }
            free(image.at);
        }
        if (!small) {
            bytes image = image_of_values(21, (uint8_t)width, 7, 400000);
            CHECK(image.len >= 40 + ((size_t)1 << 20), "lg_k 21 is no longer a set");
            for (i = 0; i < WRITERS; i++)
                test_writer(&writers[i], image);
            free(image.at);
        }
    }
    for (i = 4; i <= (small ? 12 : 21); i++)
        test_exceptions((uint8_t)i);
    return finish("buffers of every room, each call");
}
