// SPDX-License-Identifier: Apache-2.0
// Ranges, iterators, spans and std::format, as a program writes them.
#include "test.hpp"

#include <array>
#include <forward_list>
#include <iterator>
#include <list>
#include <set>
#include <sstream>
// Older clang does not know the views of libstdc++.
#if defined(__cpp_lib_ranges) && (!defined(__clang__) || __clang_major__ > 15)
#include <ranges>
#define HAS_VIEWS
#endif

using hll::sketch;
using hll::union_;

// The sketch of values that are added one by one.
template <class Values> static sketch one_by_one(const Values &values)
{
    sketch one(12);
    for (const auto &value : values)
        one.update(value);
    return one;
}

// Values of a range and between two iterators are the same values one by one: in a sketch and in a union whose lg_k is open.
template <class Values> static void test_range(Values values)
{
    const sketch wanted = one_by_one(values);
    sketch range(12), between(12), constant(12), moved(12);
    range.update_many(values);
    between.update_many(std::begin(values), std::end(values));
    constant.update_many(static_cast<const Values &>(values));
    union_ open;
    open.update_many(values);
    CHECK(range == wanted && between == wanted && constant == wanted && open.result() == wanted);
    moved.update_many(std::move(values));
    CHECK(moved == wanted);
}

static void test_ranges()
{
    for (const int n : {0, 5, 256, 257, 5000}) {
        std::vector<int> numbers;
        std::vector<std::string> names;
        for (int i = 0; i < n; i++) {
            numbers.push_back(i);
            names.push_back(std::to_string(i));
        }
        test_range(numbers);
        test_range(names);
        test_range(std::list<int>(numbers.begin(), numbers.end()));
        test_range(std::forward_list<double>(numbers.begin(), numbers.end()));
        test_range(std::set<std::string>(names.begin(), names.end()));
    }
    test_range(std::vector<bool>{true, false, true});
    test_range(std::list<const char *>{"ann", "bob", ""});
    const int three[] = {5, 6, 7};
    sketch array(12);
    array.update_many(three);
    CHECK(array == one_by_one(std::array<int, 3>{{5, 6, 7}}));
}

// Values that come once, and a range that ends by an exception: then nothing was added.
static void test_all_or_none()
{
    std::istringstream words("ann bob eve");
    sketch read(12);
    read.update_many(std::istream_iterator<std::string>(words), std::istream_iterator<std::string>());
    CHECK(read == one_by_one(std::vector<std::string>{"ann", "bob", "eve"}));
    std::vector<std::string> names;
    for (int i = 0; i < 2000; i++)
        names.push_back(std::to_string(i));
    for (const int n : {0, 5000}) { // with registers, and without
        sketch one(12);
        for (int i = 0; i < n; i++)
            one.update(i);
        const sketch before = one;
        std::vector<const char *> texts;
        for (const std::string &name : names)
            texts.push_back(name.c_str());
        texts[1500] = nullptr;
        const std::list<const char *> list(texts.begin(), texts.end());
        CHECK(throws<std::invalid_argument>([&] { one.update_many(texts); }, "values[1500] is a null pointer") &&
              one == before);
        CHECK(throws<std::invalid_argument>([&] { one.update_many(list); }, "values[1500] is a null pointer") &&
              one == before);
    }
}

// Images of any range: a list, and a set of strings.
static void test_images()
{
    const sketch one = one_by_one(std::vector<int>{1, 2}), other = one_by_one(std::vector<int>{3});
    const image_bytes images[] = {one.serialize(), other.serialize()};
    std::list<std::string> texts;
    for (const image_bytes &image : images)
        texts.push_back(std::string(image.begin(), image.end()));
    union_ braces, array, list;
    braces.update_images({one.serialize(), other.serialize()});
    array.update_images(images);
    list.update_images(texts);
    CHECK(braces.result() == one_by_one(std::vector<int>{1, 2, 3}));
    CHECK(array.result() == braces.result() && list.result() == braces.result());
    texts.back() += "more";
    CHECK(throws<hll::image_error>([&] { list.update_images(texts); }, "images[1]: "));
}

#ifdef __cpp_lib_span
static void test_spans()
{
    const std::string text = "ann";
    const std::span<const char> chars(text);
    sketch bytes(12), texts(12);
    bytes.update(std::as_bytes(chars));
    texts.update(chars);
    CHECK(bytes == one_by_one(std::vector<std::string>{text}) && texts == bytes);
    bytes.update(std::span<const std::byte>());
    CHECK(bytes == one_by_one(std::vector<std::string>{text, ""}));
    const std::vector<int> numbers{1, 2, 3};
    test_range(std::span<const int>(numbers));

    image_bytes image = bytes.serialize();
    const std::span<const uint8_t> whole(image);
    CHECK(sketch::deserialize(whole) == bytes && sketch::deserialize(std::as_bytes(std::span(image))) == bytes);
    union_ one, many;
    one.update_image(whole);
    many.update_images(std::vector<std::span<const std::byte>>{std::as_bytes(whole)});
    CHECK(one.result() == bytes && many.result() == bytes);
    image.push_back(0);
    const std::span<const uint8_t> more(image);
    CHECK(throws<hll::image_error>([&] { sketch::deserialize(more); }, "(trailing)"));
    CHECK(throws<hll::image_error>([&] { one.update_image(more); }, "(trailing)"));
}
#endif

#ifdef HAS_VIEWS
static void test_views()
{
    sketch numbers(12), squares(12), odd(12);
    numbers.update_many(std::views::iota(0, 5000));
    squares.update_many(std::views::iota(0, 300) | std::views::transform([](int i) { return std::to_string(i * i); }));
    odd.update_many(std::views::iota(0, 300) | std::views::filter([](int i) { return i % 2 == 1; }));
    std::vector<int> all, some;
    std::vector<std::string> texts;
    for (int i = 0; i < 5000; i++)
        all.push_back(i);
    for (int i = 0; i < 300; i++) {
        texts.push_back(std::to_string(i * i));
        if (i % 2 == 1)
            some.push_back(i);
    }
    CHECK(numbers == one_by_one(all) && squares == one_by_one(texts) && odd == one_by_one(some));
}
#endif

#ifdef __cpp_lib_format
static void test_format()
{
    const sketch one = one_by_one(std::vector<std::string>{"ann", "bob"});
    CHECK(std::format("{}", one) == one.to_string());
    CHECK(std::format("{:>150}", one).size() == 150);
}
#endif

int main()
{
    test_ranges();
    test_all_or_none();
    test_images();
#ifdef __cpp_lib_span
    test_spans();
#endif
#ifdef HAS_VIEWS
    test_views();
#endif
#ifdef __cpp_lib_format
    test_format();
#endif
    return counts();
}
