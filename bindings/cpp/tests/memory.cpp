// SPDX-License-Identifier: Apache-2.0
// Each allocation fails in turn, and the objects are as they were; and const members write to nothing that they read. Link it
// with -Wl,--wrap=malloc,--wrap=realloc,--wrap=free.
#include "test.hpp"

#include <algorithm>
#include <list>
#include <numeric>
#include <sys/mman.h>

using hll::sketch;
using hll::union_;

static const int own = HLL_COUNTER_COUPONS; // the coupons for which an object has room

// ---- allocations that fail, or are put where they can be made read-only

static thread_local size_t fails_at; // this allocation fails, from 1 on; 0: none
static thread_local size_t largest;  // of all allocations
static thread_local bool into_pages;
static constexpr size_t pages_size = size_t(1) << 20;
static uint8_t *pages;
static size_t pages_used;

static bool fails()
{
    return fails_at != 0 && --fails_at == 0;
}

extern "C" {
void *__real_malloc(size_t size);
void *__real_realloc(void *memory, size_t size);
void __real_free(void *memory);
void *__wrap_malloc(size_t size);
void *__wrap_realloc(void *memory, size_t size);
void __wrap_free(void *memory);

void *__wrap_malloc(size_t size)
{
    largest = std::max(largest, size);
    if (into_pages && size <= pages_size - pages_used) {
        void *found = pages + pages_used;
        pages_used += (size + 15) / 16 * 16;
        return found;
    }
    return fails() ? nullptr : __real_malloc(size);
}

// (No memory in the pages is resized.)
void *__wrap_realloc(void *memory, size_t size)
{
    if (memory == nullptr)
        return __wrap_malloc(size);
    largest = std::max(largest, size);
    return fails() ? nullptr : __real_realloc(memory, size);
}

void __wrap_free(void *memory)
{
    const uint8_t *at = static_cast<uint8_t *>(memory);
    if (pages == nullptr || at < pages || pages + pages_size <= at)
        __real_free(memory);
}
}

void *operator new(size_t size)
{
    void *found = malloc(size != 0 ? size : 1);
    if (found == nullptr)
        throw std::bad_alloc();
    return found;
}

void operator delete(void *memory) noexcept
{
    __wrap_free(memory);
}

void operator delete(void *memory, size_t) noexcept
{
    __wrap_free(memory);
}

// Begins and makes a call with each of its allocations refused in turn, until none is. Returns how many there are.
template <class Begin, class Call, class Unchanged>
static size_t refuse_each(Begin begin, Call call, Unchanged is_unchanged)
{
    for (size_t at = 1;; at++) {
        begin();
        bool is_refused = false;
        fails_at = at;
        try {
            call();
        } catch (const std::bad_alloc &) {
            is_refused = true;
        }
        const bool was_reached = fails_at == 0;
        fails_at = 0;
        CHECK(!is_refused || was_reached);
        if (!was_reached)
            return at - 1;
        if (is_refused)
            CHECK(is_unchanged());
    }
}

static const hll::width four = hll::width::hll_4, six = hll::width::hll_6, eight = hll::width::hll_8;

static sketch filled(unsigned lg_k, hll::width width, int from, int n)
{
    sketch made(lg_k, width);
    for (int i = from; i < from + n; i++)
        made.update(i);
    return made;
}

static const int sizes[] = {0, 9, 300, 5000};

// ---- each change

static void test_changes(int size)
{
    const sketch start = filled(12, four, 0, size);
    const image_bytes before = start.serialize();
    std::vector<int> values(2000);
    std::vector<uint32_t> coupons;
    for (int i = 0; i < 2000; i++) {
        values[static_cast<size_t>(i)] = 100000 + i;
        coupons.push_back(1u << 26 | static_cast<uint32_t>(i));
    }
    sketch one;
    const auto begin = [&] { one = start; };
    const auto is_unchanged = [&] { return one.serialize() == before; };
    CHECK(refuse_each(
              begin, [&] { one.update(-1); }, is_unchanged) == 0 ||
          size > 15);
    for (size_t n : {size_t(200), size_t(257), size_t(600), size_t(2000)}) {
        const size_t many = refuse_each(begin, [&] { one.update_many(values.data(), n); }, is_unchanged);
        CHECK(size == 5000 ? many == 0 : many >= 1);
    }
    refuse_each(begin, [&] { one.update_coupons(coupons.data(), coupons.size()); }, is_unchanged);
    CHECK(one.estimate() > 1900);
    CHECK(refuse_each(
              begin, [&] { one = filled(9, eight, 0, own); }, is_unchanged) == 0);
    CHECK(refuse_each(
              begin, [&] { one = filled(9, eight, 0, own + 1); }, is_unchanged) >= 1);
}

// More values than one call adds, into a sketch that would grow several times meanwhile.
static void test_batches()
{
    std::vector<int> values(5000);
    for (int &value : values)
        value = static_cast<int>(&value - values.data());
    const sketch start = filled(14, eight, -3, 3);
    sketch one;
    const auto begin = [&] { one = start; };
    CHECK(refuse_each(begin, [&] { one.update_many(values); }, [&] { return one == start; }) >= 1);
    CHECK(one == filled(14, eight, -3, 5003));
    const std::list<int> list(values.begin(), values.end());
    CHECK(refuse_each(
              begin, [&] { one.update_many(list); }, [&] { return one == start; }) >= 2);
    CHECK(one == filled(14, eight, -3, 5003));
}

static void test_reads(int size)
{
    const sketch one = filled(12, four, 0, size);
    const image_bytes before = one.serialize();
    const auto begin = [] {};
    const auto is_unchanged = [&] { return one.serialize() == before; };
    CHECK(refuse_each(
              begin, [&] { sketch copy = one; }, is_unchanged) == (size <= own ? 0 : 1));
    CHECK(refuse_each(
              begin, [&] { one.estimate(); }, is_unchanged) == 0);
    CHECK(refuse_each(begin, [&] { one.serialize(); }, is_unchanged) >= 2);
    CHECK(refuse_each(begin, [&] { one.to_string(); }, is_unchanged) >= 1);
    CHECK(refuse_each(
              begin, [&] { one.serialized_size(); }, is_unchanged) >= 1);
    CHECK(refuse_each(
              begin, [&] { sketch other(one, six); }, is_unchanged) == (size <= own ? 0 : 1));
    sketch smaller = one;
    smaller.update(-5);
    const image_bytes larger = smaller.serialize();
    refuse_each(
        begin, [&] { smaller.shrink_to_fit(); }, [&] { return smaller.serialize() == larger; });
    CHECK(smaller.serialize() == larger && smaller.memory_size() <= (size == 5000 ? 4136 : 40 + 4 * (size_t(size) + 1)));
    CHECK(refuse_each(begin, [&] { sketch::deserialize(before); }, is_unchanged) >= (size <= own ? 0u : 1u));
}

static void test_unions(int size)
{
    union_ start(12);
    start.update(filled(12, eight, 0, size));
    const image_bytes before = start.result().serialize();
    for (int n : {3, 300, 5000}) {
        const sketch other = filled(12, six, 1000000, n);
        const image_bytes image = other.serialize();
        const image_bytes wanted = plain_union(12, 8, {before, image});
        union_ all;
        sketch given;
        const auto begin = [&] {
            all = start;
            given = other;
        };
        const auto is_unchanged = [&] { return all.result().serialize() == before && given == other; };
        refuse_each(
            begin, [&] { all.update(other); }, is_unchanged);
        CHECK(all.result().serialize() == wanted);
        refuse_each(begin, [&] { all.update_image(image); }, is_unchanged);
        CHECK(all.result().serialize() == wanted);
        CHECK(refuse_each(begin, [&] { all.update_images({image, image}); }, is_unchanged) >= 1);
        CHECK(all.result().serialize() == wanted);
        refuse_each(begin, [&] { all.update(std::move(given)); }, is_unchanged);
        CHECK(all.result().serialize() == wanted);
    }
}

// A few hundred values take a few kilobytes at every lg_k, also where they are added at once.
static void test_room()
{
    std::vector<int> values(1000);
    for (int &value : values)
        value = static_cast<int>(&value - values.data());
    for (unsigned lg_k : {16u, 21u}) {
        sketch one(lg_k);
        largest = 0;
        one.update_many(values);
        for (int value : values)
            one.update(-value);
        CHECK(largest >= 8000 && largest < 20000);
    }
    largest = 0;
    sketch many[1000];
    for (sketch &one : many)
        one.update(1);
    CHECK(largest == 0 && sizeof(sketch) <= 128 && many[0].memory_size() == 0);
}

// The memory of a sketch is what hll.hpp says at its head.
static void test_memory_size()
{
    sketch one(12);
    bool is_right = sizeof one == 128 && sizeof(union_) == 128;
    for (size_t n = 0; n <= 2000 && is_right; n++) {
        const size_t room = one.memory_size(), coupons = 40 + 4 * n;
        is_right = n <= HLL_COUNTER_COUPONS ? room == 0
                   : n <= 384               ? room >= coupons && room <= coupons + coupons / 2 + 32
                                            : room == 40 + 4096;
        if (!is_right)
            std::printf("%zu values: %zu bytes\n", n, room);
        sketch shrunk = one;
        shrunk.shrink_to_fit();
        is_right &= shrunk == one && shrunk.memory_size() <= (n <= HLL_COUNTER_COUPONS ? 0 : n <= 384 ? coupons : 40 + 4096);
        one.update(n);
    }
    CHECK(is_right);
    sketch many(12);
    std::vector<uint64_t> values(10000, 7);
    many.update_many(values); // after each of these the room that was reserved is freed
    CHECK(many.memory_size() == 0);
    std::iota(values.begin(), values.end(), uint64_t(0));
    many.update_many(values);
    CHECK(many.memory_size() == 40 + 4096);
    for (unsigned lg_k = 4; lg_k <= 14; lg_k++) {
        union_ all(lg_k);
        for (int part = 0; part < 40; part++) { // 10, 20, .. 400 values
            all.update(filled(lg_k, six, 1000 * part, 1000 * part + 10 * (part + 1)));
            CHECK(all.memory_size() <= 40 + std::max(size_t(1) << lg_k, 4 * (size_t(3) << lg_k) / 32));
        }
        const size_t registers = 40 + (size_t(1) << lg_k);
        CHECK(all.memory_size() == (registers <= 40 + 4 * own ? 0 : registers)); // at lg_k 4 and 5 they are in the object
    }
}

// ---- const members

template <class Object, class Read> static void read_where_nothing_can_be_written(const Object &given, Read read)
{
    pages_used = 0;
    into_pages = true;
    const Object &one = *new Object(given); // also what is in the object itself
    into_pages = false;
    CHECK(pages_used > 0 && mprotect(pages, pages_size, PROT_READ) == 0);
    read(one); // a write ends the program
    CHECK(mprotect(pages, pages_size, PROT_READ | PROT_WRITE) == 0);
}

static void test_const_members()
{
    void *mapped = mmap(nullptr, pages_size, PROT_READ | PROT_WRITE, MAP_PRIVATE | MAP_ANONYMOUS, -1, 0);
    need(mapped != MAP_FAILED, "mmap");
    pages = static_cast<uint8_t *>(mapped);
    for (int size : {9, 300, 5000}) {
        const sketch given = filled(12, six, 0, size);
        const image_bytes image = given.serialize();
        read_where_nothing_can_be_written(given, [&](const sketch &one) {
            CHECK(one.serialize() == image && one.serialize(four).size() >= 8 && one == given && !one.is_empty());
            CHECK(one.estimate() == given.estimate() && one.upper_bound(1) >= one.lower_bound(1));
            CHECK(one.to_string() == given.to_string() && one.lg_k() == 12 && one.width() == six);
            union_ all(12);
            all.update(one);
            CHECK(all.result(six) == given && sketch(one) == given);
        });
        union_ all(12);
        all.update(given);
        read_where_nothing_can_be_written(all, [&](const union_ &one) {
            CHECK(one.result(six) == given && one.estimate() == given.estimate() && one.lg_max_k() == 12 &&
                  !one.is_empty());
        });
    }
}

int main()
{
    for (int size : sizes) {
        test_changes(size);
        test_reads(size);
        test_unions(size);
    }
    test_batches();
    test_room();
    test_memory_size();
    test_const_members();
    return counts();
}
