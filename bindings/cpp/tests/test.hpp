// SPDX-License-Identifier: Apache-2.0
// For the tests of hll.hpp: checks that are counted, and the same sketches by plain calls of hll.h.
#ifndef TEST_HPP
#define TEST_HPP

#include <hll.hpp>

#include <cstdio>
#include <cstdlib>

using image_bytes = std::vector<uint8_t>;

static const hll::width widths[] = {hll::width::hll_4, hll::width::hll_6, hll::width::hll_8};

static size_t passed, failed;

#define CHECK(what) test_check((what), __FILE__, __LINE__, #what)

static inline void test_check(bool is_right, const char *file, int line, const char *what)
{
    (is_right ? passed : failed)++;
    if (!is_right && failed < 20)
        std::printf("%s:%d: %s\n", file, line, what);
}

// What a test needs to go on at all.
static inline void need(bool is_right, const char *what)
{
    if (!is_right) {
        std::printf("a plain call failed: %s\n", what);
        std::exit(2);
    }
}

static inline int counts()
{
    std::printf("%zu passed, %zu failed\n", passed, failed);
    return failed == 0 && passed > 0 ? 0 : 1;
}

// Whether a call throws exactly this error; text: what its message has to contain.
template <class Error, class Call> static bool throws(Call call, const char *text = "")
{
    try {
        call();
    } catch (const Error &error) {
        if (std::strstr(error.what(), text) != nullptr)
            return true;
        std::printf("the message is: %s\n", error.what());
    }
    return false;
}

// ---- the same by plain calls

template <class Call> static image_bytes plain(size_t room, const char *name, Call call)
{
    image_bytes out(room);
    size_t size = 0;
    need(call(out.data(), out.size(), &size) == HLL_OK, name);
    out.resize(size);
    return out;
}

static inline image_bytes plain_new(unsigned lg_k, unsigned width)
{
    return plain(HLL_IMAGE_MAX(lg_k), "hll_image_new", [=](uint8_t *out, size_t room, size_t *size) {
        return hll_image_new(lg_k, width, out, room, size);
    });
}

static inline image_bytes plain_add(const image_bytes &image, const std::string &values,
                                    const std::vector<size_t> &ends)
{
    return plain(HLL_IMAGE_MAX(image[3]), "hll_image_add", [&](uint8_t *out, size_t room, size_t *size) {
        return hll_image_add(image.data(), image.size(), reinterpret_cast<const uint8_t *>(values.data()),
                             values.size(), ends.data(), ends.size(), out, room, size);
    });
}

static inline image_bytes plain_add_coupon(const image_bytes &image, uint32_t coupon)
{
    return plain(HLL_IMAGE_MAX(image[3]), "hll_image_add_coupon", [&](uint8_t *out, size_t room, size_t *size) {
        return hll_image_add_coupon(image.data(), image.size(), HLL_COUPON_SLOT(coupon), HLL_COUPON_VALUE(coupon), out,
                                    room, size);
    });
}

static inline image_bytes plain_union(unsigned lg_max_k, unsigned width, const std::vector<image_bytes> &images)
{
    std::vector<hll_bytes> parts;
    for (const image_bytes &image : images)
        parts.push_back({image.data(), image.size()});
    return plain(HLL_IMAGE_MAX(lg_max_k), "hll_images_unionv", [&](uint8_t *out, size_t room, size_t *size) {
        size_t at;
        return hll_images_unionv(lg_max_k, width, parts.data(), parts.size(), out, room, size, &at);
    });
}

static inline image_bytes plain_convert(const image_bytes &image, unsigned width)
{
    return plain(HLL_IMAGE_MAX(image[3]), "hll_image_convert", [&](uint8_t *out, size_t room, size_t *size) {
        return hll_image_convert(image.data(), image.size(), width, out, room, size);
    });
}

static inline hll_estimation plain_estimation(const image_bytes &image)
{
    hll_estimation found;
    need(hll_estimate(image.data(), image.size(), &found) == HLL_OK, "hll_estimate");
    return found;
}

// The eight bytes of an integer, after those that are there.
static inline void append_number(std::string &bytes, uint64_t number)
{
    for (int i = 0; i < 8; i++)
        bytes += static_cast<char>(number >> (8 * i));
}

static inline bool same_estimation(const hll_estimation &a, const hll_estimation &b)
{
    return std::memcmp(&a, &b, sizeof a) == 0;
}

#endif
