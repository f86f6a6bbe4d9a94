// SPDX-License-Identifier: Apache-2.0
// Values that the cases of tests/behaviour can't write, arguments that are refused, equality and text, and objects that were
// moved from.
#include "test.hpp"

#include <algorithm>
#include <array>
#include <limits>
#include <sstream>

using hll::sketch;
using hll::union_;

// The coupon that a sketch keeps of one value.
template <class Value> static uint32_t coupon_of(Value value)
{
    sketch one(10);
    one.update(value);
    const image_bytes image = one.serialize();
    need(image.size() == 12, "an image of one coupon");
    return uint32_t(image[8]) | uint32_t(image[9]) << 8 | uint32_t(image[10]) << 16 | uint32_t(image[11]) << 24;
}

static uint32_t coupon_of_number(uint64_t number)
{
    std::string bytes;
    append_number(bytes, number);
    return hll_coupon(reinterpret_cast<const uint8_t *>(bytes.data()), 8);
}

// What the cases of tests/behaviour can't write: other NaNs, and no bytes at all.
static void test_odd_values()
{
    const uint64_t one_nan = UINT64_C(0x7ff8000000000000), odd_nan = UINT64_C(0xfff0000000000001);
    double odd;
    std::memcpy(&odd, &odd_nan, sizeof odd);
    CHECK(coupon_of(odd) == coupon_of_number(one_nan) &&
          coupon_of(-std::numeric_limits<float>::quiet_NaN()) == coupon_of(odd));
    CHECK(coupon_of(-0.0f) == coupon_of_number(0));
    sketch one(10), other(10);
    one.update(nullptr, 0);
    other.update("");
    CHECK(one == other && one.estimate() > 0.99);
}

// Many values at once are those values one by one.
template <class Value> static void test_many(const std::vector<Value> &values)
{
    sketch one(11), many(11);
    for (const Value &value : values)
        one.update(value);
    many.update_many(values);
    many.update_many(values.data(), 0);
    CHECK(one == many);
}

static void test_all_many()
{
    test_many(std::vector<uint64_t>{1, 2, 3, ~UINT64_C(0)});
    test_many(std::vector<int8_t>{-1, 0, 1});
    test_many(std::vector<uint16_t>{1, 65535});
    test_many(std::vector<float>{-0.0f, 1.5f, std::numeric_limits<float>::quiet_NaN()});
    test_many(std::vector<std::string>(1000, "again"));
    std::vector<double> reals;
    for (int i = 0; i < 3000; i++)
        reals.push_back(i / 7.0);
    test_many(reals);
    sketch arrays(12), plain_values(12);
    arrays.update_many(std::array<int, 3>{{5, 6, 7}});
    arrays.update_many(std::vector<std::vector<uint8_t>>{{1, 2}, {}});
    for (int i = 5; i < 8; i++)
        plain_values.update(i);
    plain_values.update("\1\2", 2);
    plain_values.update("");
    CHECK(arrays == plain_values);
}

// Texts by pointers, and lists in braces.
static void test_lists()
{
    sketch one(12), other(12);
    one.update_many({1, 2, 3});
    one.update_many({"ann", "bob"});
    one.update_many(std::vector<const char *>{"ann", ""});
    for (int i = 1; i < 4; i++)
        other.update(i);
    for (const char *text : {"ann", "bob", ""})
        other.update(text);
    CHECK(one == other);
    CHECK(throws<std::invalid_argument>(
        [&] {
            one.update_many({"eve", static_cast<const char *>(nullptr)});
        },
        "values[1] is a null pointer"));
    CHECK(one == other);
}

// Images in strings, after room for a header, and of another width.
static void test_images()
{
    for (const int n : {0, 5, 100, 5000})
        for (const hll::width width : widths) {
            sketch one(12, width);
            for (int i = 0; i < n; i++)
                one.update(i);
            const image_bytes image = one.serialize(), after = one.serialize_after(5);
            CHECK(after.size() == image.size() + 5 && std::equal(image.begin(), image.end(), after.begin() + 5));
            CHECK(std::count(after.begin(), after.begin() + 5, 0) == 5 && one.serialize_after(0) == image);
            CHECK(sketch::deserialize(std::string(image.begin(), image.end())) == one);
            CHECK(sketch::deserialize(std::vector<char>(image.begin(), image.end())) == one);
            CHECK(one.serialized_size() == image.size() && image.size() <= sketch::max_serialized_size(12, width));
            for (const hll::width other : widths) {
                const sketch converted(one, other);
                CHECK(converted.width() == other && converted.serialize() == one.serialize(other));
                CHECK(one.serialize_after(3, other).size() == one.serialized_size(other) + 3);
            }
        }
    CHECK(throws<std::invalid_argument>([] { sketch::max_serialized_size(22, hll::width::hll_8); }, "4 to 21"));
    for (const size_t room : {SIZE_MAX, SIZE_MAX - 7, SIZE_MAX / 2}) // with the size of the image that is beyond all sizes
        CHECK(throws<std::invalid_argument>([=] { sketch(12).serialize_after(room); }, std::to_string(room).c_str()));
}

// The updatable form of an image, which other programs write: all buckets, and the coupons in the first of them.
static image_bytes updatable(image_bytes image)
{
    const hll_head head = hll::detail::head_of(image.data(), image.size());
    if (head.stage == HLL_REGISTERS || (head.flags & HLL_EMPTY) != 0)
        return image;
    image[5] = static_cast<uint8_t>(image[5] & ~8);
    image.resize(head.stage == HLL_LIST ? 40 : 12 + (size_t(4) << image[4]));
    return image;
}

// Several sketches one after another in a stream, compact and updatable, are read one by one.
static void test_streams()
{
    std::stringstream stream;
    std::vector<sketch> written;
    for (const int n : {0, 1, 7, 8, 100, 384, 385, 20000})
        for (const hll::width width : widths)
            for (const bool is_compact : {true, false}) {
                sketch one(12, width);
                for (int i = 0; i < n; i++)
                    one.update(i);
                const image_bytes image = is_compact ? one.serialize() : updatable(one.serialize());
                CHECK(hll::detail::head_of(image.data(), image.size()).size == image.size());
                stream.write(reinterpret_cast<const char *>(image.data()), static_cast<std::streamsize>(image.size()));
                written.push_back(one);
            }
    for (const sketch &one : written)
        CHECK(sketch::deserialize(stream) == one);
    CHECK(stream.peek() == std::char_traits<char>::eof());
    CHECK(throws<hll::image_error>([&] { sketch::deserialize(stream); }, "these 0 bytes"));
}

// A stream that ends inside an image, and streams that take nothing.
static void test_broken_streams()
{
    for (const int n : {0, 3, 100, 5000}) {
        sketch one(12);
        for (int i = 0; i < n; i++)
            one.update(i);
        const image_bytes image = one.serialize();
        for (size_t size = 0; size < image.size(); size += 1 + size / 50) {
            std::istringstream cut(std::string(image.begin(), image.begin() + static_cast<std::ptrdiff_t>(size)));
            try {
                sketch::deserialize(cut);
                CHECK(false);
            } catch (const hll::image_error &error) {
                CHECK(error.status() == HLL_TRUNCATED);
            }
        }
        std::ostringstream closed;
        closed.setstate(std::ios_base::badbit);
        CHECK(throws<std::ios_base::failure>([&] { one.serialize(closed); }, "did not take"));
    }
    std::istringstream none(std::string(100, 'x'));
    CHECK(throws<hll::image_error>([&] { sketch::deserialize(none); }, "family"));
}

// From a stream an image is what it is from bytes: exceptions in a large table, which is legal, and heads with faults, after
// which nothing is read.
static void test_heads_of_streams()
{
    image_bytes image(48 + (size_t(4) << 22));
    image[0] = 10, image[1] = 1, image[2] = 7, image[3] = 4, image[4] = 22, image[7] = 2;
    image[32] = 15, image[36] = 1, image[40] = 15, image[51] = 20 << 2; // slot 0 is 20, in the first of 2^22 buckets
    std::stringstream stream(std::string(image.begin(), image.end()));
    CHECK(sketch::deserialize(stream) == sketch::deserialize(image));
    image[4] = 27;
    const image_bytes heads[] = {image_bytes(image.begin(), image.begin() + 40),
                                 {2, 1, 7, 12, 3, 8, 255, 0},
                                 {3, 1, 7, 12, 9, 8, 0, 9, 255, 255, 255, 255}};
    const hll_status statuses[] = {HLL_LG_ARR, HLL_COUNT, HLL_COUNT};
    for (size_t i = 0; i < 3; i++) {
        std::stringstream with_more(std::string(heads[i].begin(), heads[i].end()) + "more");
        std::string rest;
        try {
            sketch::deserialize(with_more);
            CHECK(false);
        } catch (const hll::image_error &error) {
            CHECK(error.status() == statuses[i]);
        }
        with_more >> rest;
        CHECK(rest == "more");
    }
}

// What isn't used can be freed.
static void test_memory()
{
    sketch one(12);
    CHECK(one.memory_size() == 0);
    one.shrink_to_fit();
    for (int i = 0; i < 300; i++)
        one.update(i);
    const image_bytes image = one.serialize();
    const size_t before = one.memory_size();
    one.shrink_to_fit();
    CHECK(one.memory_size() <= 40 + 4 * 300 && one.memory_size() <= before && one.serialize() == image);
    for (int i = 0; i < 5000; i++)
        one.update(i);
    one.shrink_to_fit();
    CHECK(one.memory_size() == 40 + 4096);
}

static void test_arguments()
{
    CHECK(throws<std::invalid_argument>([=] { union_ none(0); }, "4 to 21"));
    CHECK(hll::width_of(4) == hll::width::hll_4 && hll::bits_of(hll::width::hll_6) == 6);
    sketch one(12);
    one.update(1);
    const sketch before = one;
    for (unsigned deviations : {0u, 4u, ~0u}) {
        CHECK(throws<std::invalid_argument>([&] { one.lower_bound(deviations); }, "1, 2 or 3"));
        CHECK(throws<std::invalid_argument>([&] { one.upper_bound(deviations); }, "1, 2 or 3"));
    }
    const uint32_t coupons[] = {1u << 26, 63u << 26 | 5};
    CHECK(throws<std::invalid_argument>([&] { one.update_coupons(nullptr, 3); }, "null pointer"));
    CHECK(throws<std::invalid_argument>([&] { one.update(static_cast<const char *>(nullptr)); }, "null pointer"));
    CHECK(throws<std::invalid_argument>([&] { one.update(nullptr, 7); }, "size of 7"));
    CHECK(throws<std::invalid_argument>([&] { one.update_many(static_cast<const int *>(nullptr), 7); }, "null pointer"));
    CHECK(throws<std::invalid_argument>([&] { sketch::deserialize(nullptr, 7); }, "null pointer"));
    CHECK(throws<std::invalid_argument>([&] { union_(12).update_image(nullptr, 7); }, "null pointer"));
    CHECK(throws<std::invalid_argument>([&] { union_(12).update_images(nullptr, 7); }, "null pointer"));
    const hll_bytes none = {nullptr, 7};
    CHECK(throws<std::invalid_argument>([&] { union_(12).update_images(&none, 1); }, "size of 7"));
    CHECK(throws<std::invalid_argument>([&] { union_().update_images(&none, 1); }, "size of 7"));
    CHECK(one == before);
    one.update_coupons(coupons, 2);
    one.update_coupons(nullptr, 0);
    CHECK(one != before && one.estimate() > 2.99);
}

static void test_empty()
{
    for (unsigned lg_k = 4; lg_k <= 21; lg_k++)
        for (const hll::width width : widths) {
            const image_bytes image = plain_new(lg_k, hll::bits_of(width));
            sketch none(lg_k, width);
            CHECK(none.is_empty() && none.lg_k() == lg_k && none.width() == width && none.estimate() == 0);
            CHECK(none.serialize() == image && sketch::deserialize(none.serialize()) == none);
            CHECK(same_estimation(none.estimation(), plain_estimation(image)));
            none.update(1);
            CHECK(!none.is_empty());
            none.reset();
            CHECK(none.is_empty() && none == sketch(lg_k, width));
        }
    CHECK(union_().lg_max_k() == 0 && union_(13).lg_max_k() == 13);
    CHECK(union_(13).is_empty() && union_(13).lg_k() == 13);
    CHECK(union_(13).result(hll::width::hll_6) == sketch(13, hll::width::hll_6));
}

// What is declared without arguments is an empty sketch.
static void life_zero()
{
    sketch none;
    union_ all;
    CHECK(none.is_empty() && none.lg_k() == 12 && none.width() == hll::width::hll_8 && none == sketch(12));
    CHECK(all.is_empty() && all.result() == none);
}

// A copy has the same values, and neither changes with the other.
static void life_copied()
{
    for (const int n : {0, 5, 100, 5000}) {
        sketch one(12);
        for (int i = 0; i < n; i++)
            one.update(i);
        const image_bytes image = one.serialize();
        sketch copy = one, assigned;
        assigned = one;
        CHECK(copy == one && assigned == one);
        for (int i = 1; i < 500; i++)
            copy.update(i / 8.0);
        CHECK(copy != one && one.serialize() == image && assigned == one);
        one.reset();
        CHECK(assigned.serialize() == image && !copy.is_empty());
    }
}

static void test_equality()
{
    sketch a(12), b(12), six(12, hll::width::hll_6), other(11);
    for (int i = 0; i < 100; i++) {
        a.update(i);
        b.update(99 - i);
        six.update(i);
        other.update(i);
    }
    CHECK(a == b && !(a != b) && a != six && a != other && sketch(12) != sketch(11));
    CHECK(a.serialize(hll::width::hll_6) == six.serialize() && a.estimate() == six.estimate());
    b.update(100);
    CHECK(a != b);
    swap(a, b);
    CHECK(a.estimate() > b.estimate());
    swap(a, six);
    CHECK(a.width() == hll::width::hll_6 && six.width() == hll::width::hll_8 &&
          a.serialize(hll::width::hll_8) == b.serialize());
    std::ostringstream text;
    text << b;
    CHECK(text.str() == b.to_string());
    CHECK(b.to_string() ==
          "sketch of lg_k 12, 8 bits a register: about 100 distinct values, with 95% certainty 100 to 101");
}

static void life_moved()
{
    const hll::width four = hll::width::hll_4;
    sketch one(9, four);
    for (int i = 0; i < 1000; i++)
        one.update(i);
    const sketch before = one;
    sketch two = std::move(one);
    CHECK(two == before && one == sketch(9, four)); // NOLINT: that is what is tested
    one.update(5);
    CHECK(one.estimate() > 0.99 && two == before);
    one = std::move(two);
    CHECK(one == before && two.is_empty() && two.lg_k() == 9);
    two.update_many(std::vector<int>(700, 1));
    sketch &same = two;
    two = same;
    CHECK(two.estimate() < 1.01);
    two = std::move(same);
    CHECK(two.lg_k() == 9);
    std::vector<sketch> many(3, before);
    many.emplace_back(before);
    many.insert(many.begin(), sketch(4));
    CHECK(many[0] == sketch(4) && many[4] == before);
    union_ all;
    all.update(before);
    union_ moved = std::move(all);
    CHECK(moved.result(four) == before && all.is_empty() && all.lg_k() == 12 && moved.lg_k() == 9); // NOLINT
    all.update(sketch(moved.result()));
    CHECK(all.result(four) == before);
    sketch result = all.result(four);
    result.reset();
    CHECK(result == sketch(9, four)); // and not at the lg_k with which the union began
    CHECK(std::is_nothrow_move_constructible<sketch>::value && std::is_nothrow_move_assignable<sketch>::value);
    CHECK(std::is_nothrow_move_constructible<union_>::value && std::is_nothrow_move_assignable<union_>::value);
}

int main()
{
    test_odd_values();
    test_all_many();
    test_lists();
    test_images();
    test_streams();
    test_heads_of_streams();
    test_broken_streams();
    test_memory();
    test_arguments();
    test_empty();
    test_equality();
    life_zero();
    life_moved();
    life_copied();
    return counts();
}
