// SPDX-License-Identifier: Apache-2.0
// Random walks beside plain calls of hll.h, byte for byte; unions of all forms; and bytes of attackers. walks [WALKS]
#include "test.hpp"

#include <random>
#include <sstream>

using hll::sketch;
using hll::union_;

static std::mt19937 randomness(1);

static unsigned below(unsigned n)
{
    return static_cast<unsigned>(randomness() % n);
}

static hll::width some_width()
{
    return widths[below(3)];
}

// A sketch, and the image of the same values by plain calls.
struct pair {
    sketch made;
    image_bytes image;

    pair(unsigned lg_k, hll::width width) : made(lg_k, width), image(plain_new(lg_k, hll::bits_of(width))) {}

    void expect_same() const
    {
        CHECK(made.serialize() == image);
        CHECK(made.lg_k() == image[3] &&
              hll::bits_of(made.width()) == hll::detail::head_of(image.data(), image.size()).width);
        const hll_estimation wanted = plain_estimation(image);
        CHECK(same_estimation(made.estimation(), wanted) && made.estimate() == wanted.estimate);
        const unsigned deviations = 1 + below(3);
        CHECK(made.lower_bound(deviations) == wanted.lower[deviations - 1]);
        CHECK(made.upper_bound(deviations) == wanted.upper[deviations - 1]);
        CHECK(made.is_empty() == (wanted.estimate == 0));
    }
};

// ---- one sketch

static void add_one_by_one(pair &p)
{
    std::string bytes;
    std::vector<size_t> ends;
    for (unsigned n = 1 + below(30), from = below(3000); n > 0; n--) {
        p.made.update(uint64_t(from + n));
        append_number(bytes, from + n);
        ends.push_back(bytes.size());
    }
    p.image = plain_add(p.image, bytes, ends);
}

static void add_many(pair &p)
{
    static const unsigned most[] = {10, 300, 3000};
    std::vector<int32_t> values(below(most[below(3)]));
    const unsigned from = below(5000), distinct = 1 + below(4000);
    std::string bytes;
    std::vector<size_t> ends;
    for (size_t i = 0; i < values.size(); i++) {
        values[i] = static_cast<int32_t>(from + i % distinct) - 1000;
        append_number(bytes, static_cast<uint64_t>(values[i]));
        ends.push_back(bytes.size());
    }
    p.made.update_many(values);
    p.image = plain_add(p.image, bytes, ends);
}

static void add_texts(pair &p)
{
    std::vector<std::string> values(below(600));
    std::string bytes;
    std::vector<size_t> ends;
    for (std::string &value : values) {
        value = std::string(below(40), static_cast<char>('a' + below(26)));
        bytes += value;
        ends.push_back(bytes.size());
    }
    p.made.update_many(values);
    p.image = plain_add(p.image, bytes, ends);
}

static void add_coupons(pair &p)
{
    std::vector<uint32_t> coupons(below(20));
    for (uint32_t &coupon : coupons) {
        coupon = (1 + below(63)) << 26 | below(1u << 26);
        p.image = plain_add_coupon(p.image, coupon);
    }
    p.made.update_coupons(coupons.data(), coupons.size());
}

static void read_again(pair &p)
{
    const hll::width width = some_width();
    std::stringstream stream;
    switch (below(4)) {
    case 0:
        p.made = sketch::deserialize(p.made.serialize(width));
        break;
    case 1:
        p.made = sketch(p.made, width);
        break;
    case 2:
        p.made.serialize(stream, width);
        p.made = sketch::deserialize(stream);
        break;
    default:
        p.made.shrink_to_fit();
        p.made = sketch(std::move(p.made), width);
    }
    p.image = plain_convert(p.image, hll::bits_of(width));
    CHECK(p.made.serialized_size() == p.image.size());
}

static void step(pair &p)
{
    static void (*const steps[])(pair &) = {add_one_by_one, add_many, add_texts, add_coupons, read_again};
    steps[below(5)](p);
}

static void walk()
{
    std::vector<pair> pairs;
    for (int i = 0; i < 4; i++)
        pairs.emplace_back(4 + below(11), some_width());
    for (int i = 0; i < 24; i++) {
        pair &one = pairs[below(4)], &other = pairs[below(4)];
        switch (below(6)) {
        case 0:
            one = other;
            break;
        case 1:
            std::swap(one, other);
            break;
        default:
            step(one);
        }
        for (const pair &p : pairs) // all of them: copies are independent
            p.expect_same();
    }
}

// ---- unions

static void update_in_some_way(union_ &all, const pair &p)
{
    switch (below(4)) {
    case 0:
        all.update(p.made);
        break;
    case 1:
        all.update(sketch(p.made));
        break;
    case 2:
        all.update_image(p.made.serialize());
        break;
    default:
        image_bytes followed = p.image;
        followed.insert(followed.end(), 9, 0xff);
        all.update(sketch::deserialize_first(followed.data(), followed.size()));
    }
}

// All images at once, and refused ones among them.
static void update_at_once(union_ all, const std::vector<image_bytes> &images, const sketch &wanted)
{
    const sketch before = all.result();
    std::vector<image_bytes> bad(images);
    const size_t at = below(static_cast<unsigned>(images.size()));
    bad[at].resize(7);
    std::vector<image_bytes> more(images);
    more[at].push_back(0);
    for (const std::vector<image_bytes> &one : {bad, more})
        try {
            all.update_images(one);
            CHECK(false);
        } catch (const hll::image_error &error) {
            CHECK(error.index() == at && error.status() == (one == bad ? HLL_TRUNCATED : HLL_TRAILING));
            CHECK(std::string(error.what())
                      .find("images[" + std::to_string(at) + "]: these " + std::to_string(one[at].size()) +
                            " bytes are not the image") == 0);
        }
    CHECK(all.result() == before);
    all.update_images(images);
    CHECK(all.result() == wanted);
    all.update_images(nullptr, 0);
    CHECK(all.result() == wanted);
}

static pair some_sketch(unsigned lg_k)
{
    pair made(lg_k, some_width());
    for (unsigned n = below(4); n > 0; n--)
        step(made);
    return made;
}

// Under a bound, or of one lg_k where lg_max_k is 0.
static void walk_union(unsigned lg_max_k)
{
    const unsigned one_lg_k = 4 + below(11), bound = lg_max_k ? lg_max_k : one_lg_k;
    union_ all = lg_max_k ? union_(lg_max_k) : union_();
    std::vector<image_bytes> images;
    bool has_values = false;
    for (int i = 0; i < 12; i++) {
        const pair p = some_sketch(lg_max_k ? 4 + below(11) : one_lg_k);
        has_values = has_values || !p.made.is_empty();
        images.push_back(p.image);
        update_in_some_way(all, p);
        if (has_values && below(3) == 0) { // values too: those of an image at the bound
            const uint64_t value = randomness();
            std::string bytes;
            append_number(bytes, value);
            all.update(value);
            images.push_back(plain_add(plain_new(bound, 8), bytes, {8}));
        }
        const hll::width width = some_width();
        if (!lg_max_k && !has_values)
            continue; // an empty union without a bound has no lg_k yet
        const image_bytes wanted = plain_union(bound, hll::bits_of(width), images);
        const sketch result = all.result(width);
        CHECK(result.serialize() == wanted && result.width() == width && all.lg_k() == wanted[3]);
        CHECK(same_estimation(all.estimation(), plain_estimation(wanted)) && all.lg_max_k() == lg_max_k);
    }
    update_at_once(lg_max_k ? union_(lg_max_k) : union_(), images, all.result());
    update_at_once(all, images, all.result());
    const union_ copy = all;
    all.reset();
    CHECK(all.is_empty() && all.lg_k() == (lg_max_k ? lg_max_k : 12));
    CHECK(copy.result().serialize() == plain_union(bound, 8, images) || (!lg_max_k && !has_values));
}

static void test_other_lg_k()
{
    sketch fine(14), coarse(10);
    for (int i = 0; i < 5000; i++)
        fine.update(i);
    coarse.update(1);
    union_ all;
    all.update(sketch(8)); // empty
    all.update(fine);
    const image_bytes before = all.result().serialize(), image = coarse.serialize();
    try {
        all.update_image(image);
        CHECK(false);
    } catch (const hll::lg_k_error &error) {
        CHECK(error.lg_k() == 14 && error.other_lg_k() == 10);
        CHECK(std::string(error.what()) ==
              "the union has lg_k 14 and the sketch lg_k 10: to merge both at the smaller lg_k, give "
              "the union a bound, as in hll::union_(14)");
    }
    CHECK(throws<hll::lg_k_error>([&] { all.update_images({before, image}); }, "lg_k 10"));
    CHECK(throws<hll::lg_k_error>([&] { all.update(coarse); }, "lg_k 10"));
    CHECK(throws<hll::lg_k_error>([&] { all.update(sketch(coarse)); }, "lg_k 14"));
    all.update(sketch(8));
    CHECK(all.result().serialize() == before && all.result() == fine);
    union_ bounded(14);
    bounded.update(fine);
    bounded.update(coarse);
    CHECK(bounded.result().serialize() == plain_union(14, 8, {fine.serialize(), image}));
    union_ values;
    values.update(7);
    CHECK(values.lg_k() == 12 && throws<hll::lg_k_error>([&] { values.update(fine); }));
}

// ---- bytes of attackers

static std::vector<image_bytes> honest_images()
{
    std::vector<image_bytes> images;
    for (unsigned lg_k : {4u, 8u, 12u})
        for (const hll::width width : widths) {
            sketch one(lg_k, width);
            for (int n = 0; n < 1000; n++) {
                one.update(n);
                if (n == 3 || n == 40 || n == 999)
                    images.push_back(one.serialize());
            }
        }
    return images;
}

// Bytes are read as plain calls read them, or refused for the same reason; and then nothing has changed.
static void expect_as_plain(const image_bytes &bytes, size_t size, union_ &all)
{
    hll_status status = hll_image_check(bytes.data(), size);
    if (status == HLL_OK && hll::detail::trailing({bytes.data(), size}) != 0)
        status = HLL_TRAILING;
    const image_bytes before = all.result().serialize();
    if (status == HLL_OK) {
        const image_bytes exact(bytes.begin(), bytes.begin() + static_cast<std::ptrdiff_t>(size));
        const sketch read = sketch::deserialize(exact);
        CHECK(read.serialize() == plain_union(read.lg_k(), hll::bits_of(read.width()), {exact}));
        union_ one(12);
        one.update_image(exact);
        CHECK(one.result().serialize() == plain_union(12, 8, {exact}));
        return;
    }
    auto refuses = [&](const hll::image_error &error) {
        CHECK(error.status() == status && std::string(error.reason()) == hll_reason(status));
        CHECK(std::string(error.what()).find("these " + std::to_string(size) + " bytes") == 0);
    };
    try {
        sketch::deserialize(bytes.data(), size);
        CHECK(false);
    } catch (const hll::image_error &error) {
        refuses(error);
    }
    try {
        all.update_image(bytes.data(), size);
        CHECK(false);
    } catch (const hll::image_error &error) {
        refuses(error);
    }
    CHECK(all.result().serialize() == before);
}

static void test_attackers(unsigned times)
{
    union_ all(12);
    for (int i = 0; i < 20; i++)
        all.update(i);
    const std::vector<image_bytes> images = honest_images();
    for (const image_bytes &image : images)
        for (size_t size = 0; size <= std::min<size_t>(image.size(), 100); size++)
            expect_as_plain(image_bytes(image.begin(), image.begin() + static_cast<std::ptrdiff_t>(size)), size, all);
    for (unsigned i = 0; i < times; i++) {
        image_bytes changed = images[below(static_cast<unsigned>(images.size()))];
        const unsigned size = static_cast<unsigned>(changed.size());
        for (unsigned n = 1 + below(3); n > 0; n--)
            changed[below(2) ? below(8) : below(size)] = static_cast<uint8_t>(randomness());
        if (below(4) == 0)
            changed.resize(1 + below(size));
        changed.shrink_to_fit();
        expect_as_plain(changed, changed.size(), all);
    }
    const image_bytes large = sketch(21).serialize();
    CHECK(hll::is_small(images[0].data(), images[0].size()) && !hll::is_small(large.data(), large.size()));
    CHECK(hll::is_small(large.data(), large.size(), 21) && !hll::is_small(large.data(), large.size(), 21, 7));
    CHECK(hll::is_small(nullptr, 0)); // quick to reject
}

int main(int argc, char **argv)
{
    const unsigned walks = argc > 1 ? static_cast<unsigned>(std::atoi(argv[1])) : 100;
    for (unsigned i = 0; i < walks; i++) {
        walk();
        walk_union(4 + below(11));
        walk_union(0);
    }
    test_other_lg_k();
    test_attackers(100 * walks);
    return counts();
}
