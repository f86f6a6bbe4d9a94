// SPDX-License-Identifier: Apache-2.0
// What else programs in the names of datasketches-cpp use: handlers of its exceptions, classes with an allocator, constants.
#include <hll/datasketches.hpp>

#include <memory>
#include <sstream>
#include <string>
#include <vector>

#include "test.hpp"

using datasketches::hll_sketch;
using datasketches::hll_union;

// Returns the exception that a program in those names catches, or "none".
template <class Call> static std::string caught(Call call)
{
    try {
        call();
    } catch (const std::invalid_argument &) {
        return "invalid_argument";
    } catch (const std::out_of_range &) {
        return "out_of_range";
    } catch (const std::runtime_error &) {
        return "runtime_error";
    } catch (...) {
        return "another";
    }
    return "none";
}

static std::vector<uint8_t> image()
{
    hll_sketch sketch(11);
    for (int i = 0; i < 1000; i++)
        sketch.update(i);
    return sketch.serialize_compact();
}

static void test_arguments()
{
    CHECK(caught([] { hll_sketch(3); }) == "invalid_argument");
    CHECK(caught([] { hll_sketch(22); }) == "invalid_argument");
    CHECK(caught([] { hll_union(22); }) == "invalid_argument");
    CHECK(caught([] { hll_sketch(11).get_upper_bound(4); }) == "invalid_argument");
}

static void test_images()
{
    const std::vector<uint8_t> whole = image();
    const auto of = [](const std::vector<uint8_t> &bytes) {
        return caught([&] { hll_sketch::deserialize(bytes.data(), bytes.size()); });
    };
    const auto from_stream = [](const std::vector<uint8_t> &bytes) {
        std::istringstream in(std::string(bytes.begin(), bytes.end()));
        return caught([&] { hll_sketch::deserialize(in); });
    };
    CHECK(of(whole) == "none");
    CHECK(from_stream(whole) == "none");
    for (const size_t i : std::vector<size_t>{0, 1, 2, 3, 7}) {
        std::vector<uint8_t> broken = whole;
        broken[i] = 0xff;
        CHECK(of(broken) == "invalid_argument");
        CHECK(from_stream(broken) == "invalid_argument");
    }
    for (const size_t size : {size_t(0), size_t(7), size_t(39), whole.size() - 1}) {
        const std::vector<uint8_t> cut(whole.begin(), whole.begin() + static_cast<std::ptrdiff_t>(size));
        CHECK(of(cut) == "out_of_range");
        CHECK(from_stream(cut) == "runtime_error");
    }
    std::vector<uint8_t> longer = whole;
    longer.push_back(0);
    CHECK(of(longer) == "none");
    CHECK(caught([&] { hll_sketch::deserialize_exact(longer.data(), longer.size()); }) == "invalid_argument");
}

static void test_allocators()
{
    using allocator = std::allocator<uint8_t>;
    static_assert(datasketches::hll_constants::MIN_LOG_K == 4 && datasketches::hll_constants::MAX_LOG_K == 21, "");
    datasketches::hll_sketch_alloc<allocator> sketch(12, datasketches::HLL_6, false, allocator());
    sketch.update(1);
    datasketches::hll_union_alloc<allocator> all(12, allocator());
    all.update(sketch);
    all.update("ann");
    CHECK(sketch.get_target_type() == datasketches::HLL_6);
    const std::vector<uint8_t> bytes = all.get_result().serialize_compact();
    CHECK(hll_sketch::deserialize(bytes.data(), bytes.size(), allocator()).serialize_compact() == bytes);
    std::istringstream in(std::string(bytes.begin(), bytes.end()));
    CHECK(hll_sketch::deserialize(in, allocator()).serialize_compact() == bytes);
    CHECK(bytes.size() == 16);
}

int main()
{
    test_arguments();
    test_images();
    test_allocators();
    return counts();
}
