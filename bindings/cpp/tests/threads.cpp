// SPDX-License-Identifier: Apache-2.0
// Threads call const members of one sketch and of one union at once, with sorted coupons and with others. Also built with
// gcc's check for races. Link it with -pthread.
#include "test.hpp"

#include <functional>
#include <thread>

using hll::sketch;
using hll::union_;

static const size_t readers = 4, times = 40;

static void add(sketch &to, uint64_t from, uint64_t until)
{
    for (; from < until; from++)
        to.update(from);
}

// Calls in several threads at once, each many times. All calls have to return true.
static void read_at_once(const std::function<bool()> &call)
{
    size_t right[readers] = {};
    std::vector<std::thread> threads;
    for (size_t &mine : right)
        threads.emplace_back([&mine, &call] {
            for (size_t i = 0; i < times; i++)
                mine += call();
        });
    for (std::thread &thread : threads)
        thread.join();
    for (size_t mine : right)
        CHECK(mine == times);
}

static void test_size(uint64_t n, bool is_union_of_two)
{
    const hll::width six = hll::width::hll_6;
    sketch filled(12, six), other(12, six), both(12, six);
    add(filled, 0, n);
    add(other, n / 2, 2 * n);
    add(both, 0, 2 * n);
    union_ merged(12);
    merged.update(filled);
    if (is_union_of_two)
        merged.update(other);
    const sketch &given = filled, &whole = is_union_of_two ? both : filled;
    const union_ &all = merged;

    const image_bytes image = sketch(given).serialize(), image_of_all = sketch(whole).serialize();
    const double estimate = sketch(given).estimate(), estimate_of_all = union_(all).estimate();
    read_at_once([&] {
        union_ sum(12);
        sum.update(given);
        sum.update(other);
        return given.serialize() == image && given.estimate() == estimate && sketch(given) == given &&
               sum.result(six) == both && given.lg_k() == 12 && given.is_empty() == (n == 0) &&
               given.serialized_size() == image.size();
    });
    read_at_once([&] {
        return all.result(six).serialize() == image_of_all && all.estimate() == estimate_of_all &&
               union_(all).result(six) == whole && all.is_empty() == (n == 0);
    });
    CHECK(given.serialize() == image && all.result(six) == whole);
}

int main()
{
    for (unsigned n : {0u, 1u, 7u, 16u, 17u, 20u, 100u, 300u, 380u, 390u, 500u, 5000u}) {
        test_size(n, false);
        test_size(n, true);
    }
    return counts();
}
