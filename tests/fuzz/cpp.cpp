// SPDX-License-Identifier: Apache-2.0
// The header for C++ over the images of the target, next to counters of C, which counters.c compares with the plain model.
extern "C" {
#include "fuzz.h"
}
#include <hll.hpp>

#include <sstream>

namespace {

using bytes = std::vector<uint8_t>;

constexpr size_t most_room = SIZE_MAX / 2; // before an image: no memory has so much

// Returns the status for what a function throws.
template <class Call> hll_status status_of(Call call)
{
    try {
        call();
        return HLL_OK;
    } catch (const hll::image_error &why) {
        return why.status();
    } catch (const hll::lg_k_error &) {
        return HLL_OTHER_LG_K;
    } catch (const std::bad_alloc &) {
        return HLL_MEMORY;
    } catch (const std::invalid_argument &) {
        return HLL_ARGUMENT;
    }
}

// Compares the bytes that a function returns, or what it throws, with what is wanted. From one request on, the library's allocations
// fail. Then the function throws, and has freed what it allocated.
template <class Call> void expect(const char *name, size_t fail_from, hll_status status, const bytes &wanted, Call call)
{
    bytes made;
    heap.fail_from = fail_from;
    begin();
    const hll_status found = status_of([&] { made = call(); });
    heap.fail_from = 0;
    CHECK(heap.live == heap.kept, "%s kept memory: %zu pieces, before %zu", name, heap.live, heap.kept);
    if (heap.failed && found == HLL_MEMORY)
        return;
    CHECK(found == status, "%s: %s in place of %s", name, hll_reason(found), hll_reason(status));
    CHECK(found != HLL_OK || made == wanted, "%s: %zu bytes, by C %zu", name, made.size(), wanted.size());
}

// Returns the status of bytes that have to be one image.
hll_status status_of_image(const held &h)
{
    size_t more = 0;
    hll_image_trailing(h.at, h.len, &more);
    if (h.reason != HLL_OK)
        return static_cast<hll_status>(h.reason);
    return more != 0 ? HLL_TRAILING : HLL_OK;
}

// A counter of C.
struct by_c {
    hll_counter counter;
    hll_status status;

    explicit by_c(unsigned lg_k) : counter(), status(hll_counter_init(&counter, lg_k, nullptr, nullptr)) {}
    by_c(const by_c &) = delete;
    by_c &operator=(const by_c &) = delete;
    ~by_c() { hll_counter_free(&counter); }

    void join(const uint8_t *image, size_t len)
    {
        if (status == HLL_OK)
            status = hll_counter_join(&counter, image, len);
    }

    void add(const batch &values)
    {
        if (status == HLL_OK)
            status = hll_counter_add_many(&counter, values.values, values.len, values.ends, values.n);
    }

    hll_state_summary summary() const
    {
        hll_state_summary said = {};
        hll_counter_info(&counter, &said, sizeof said);
        return said;
    }

    bytes image(unsigned width)
    {
        size_t size = 0;
        bytes out(HLL_IMAGE_MAX(summary().lg_k));
        if (status == HLL_OK)
            status = hll_counter_image(&counter, width, out.data(), out.size(), &size);
        out.resize(size);
        return out;
    }
};

// A sketch of an image, to which values are added.
void on_sketch(const held &h, const record *r, unsigned width, size_t fail_from)
{
    batch values = batch_of(r);
    const size_t n = values.is_argument ? 0 : values.n;
    const hll_status status = status_of_image(h);
    bytes wanted;
    if (status == HLL_OK) {
        by_c plain(h.x.lg_k);
        plain.join(h.at, h.len);
        if (n > 0)
            plain.add(values);
        wanted = plain.image(width);
    }
    expect("deserialize", fail_from, status, wanted, [&] {
        hll::sketch made = hll::sketch::deserialize(h.at, h.len);
        for (size_t i = 0, first = 0; i < n; first = values.ends[i++])
            made.update(values.values + first, values.ends[i] - first);
        const hll::sketch other(made);
        CHECK(heap.fail_from != 0 || other == made, "a copy is another sketch, %zu values", n);
        return other.serialize(hll::width_of(width));
    });
    free_batch(&values);
}

// Room before an image, of any number of bytes.
void on_room(const held &h, const record *r, unsigned width)
{
    size_t room = 0;
    for (size_t i = 0; i < r->len && i < sizeof room; i++)
        room |= static_cast<size_t>(r->bytes[i]) << 8 * i;
    if (room < most_room - HLL_IMAGE_MAX(21))
        room %= 65536;
    if (status_of_image(h) != HLL_OK)
        return;
    const hll::sketch made = hll::sketch::deserialize(h.at, h.len);
    bytes wanted = made.serialize(hll::width_of(width));
    if (room < 65536)
        wanted.insert(wanted.begin(), room, 0);
    if (room >= 65536 && room <= most_room) // whether so much is an argument or no memory is not said
        return;
    expect("serialize_after", 0, room < 65536 ? HLL_OK : HLL_ARGUMENT, wanted,
           [&] { return made.serialize_after(room, hll::width_of(width)); });
}

// A stream with two images, one after the other.
void on_stream(const held &first, const held &second, size_t fail_from)
{
    bytes all(first.at, first.at + first.len), wanted;
    all.insert(all.end(), second.at, second.at + second.len);
    hll_status status = HLL_OK;
    for (size_t at = 0; at < all.size() && status == HLL_OK;) {
        hll_head head = {};
        hll_image_head(all.data() + at, all.size() - at, &head, sizeof head);
        status = head.fault;
        if (status == HLL_OK && head.size > all.size() - at)
            status = HLL_TRUNCATED;
        if (status != HLL_OK)
            break;
        by_c plain(head.lg_k);
        plain.join(all.data() + at, static_cast<size_t>(head.size));
        const bytes image = plain.image(head.width);
        status = plain.status;
        wanted.insert(wanted.end(), image.begin(), image.end());
        at += static_cast<size_t>(head.size);
    }
    std::istringstream in(std::string(all.begin(), all.end()));
    expect("deserialize of a stream", fail_from, status, wanted, [&] {
        bytes made;
        while (in.peek() != EOF) {
            const bytes image = hll::sketch::deserialize(in).serialize();
            made.insert(made.end(), image.begin(), image.end());
        }
        return made;
    });
}

// A union of two images, under a bound, or (0) of one lg_k.
void on_two(const held &first, const held &second, unsigned lg_max_k, unsigned width, size_t fail_from)
{
    const hll_bytes images[] = {{first.at, first.len}, {second.at, second.len}};
    hll_status status = status_of_image(first);
    bytes wanted;
    if (status == HLL_OK)
        status = status_of_image(second);
    if (status == HLL_OK) {
        by_c plain(lg_max_k);
        for (const hll_bytes &image : images)
            plain.join(image.bytes, image.len);
        status = plain.status;
        if (status == HLL_OK && plain.summary().is_open) // C++ decides the lg_k then, and C does not
            return;
        wanted = plain.image(width);
    }
    expect("update_images", fail_from, status, wanted, [&] {
        hll::union_ both = lg_max_k == 0 ? hll::union_() : hll::union_(lg_max_k);
        both.update_images(images, 2);
        return both.result(hll::width_of(width)).serialize();
    });
}

} // namespace

/* Calls of the header for C++. */
void on_cpp(world *w, const record *r)
{
    const held &first = w->images[r->a % IMAGES], &second = w->images[r->a / IMAGES % IMAGES];
    const unsigned width = 4 + 2 * (r->b % 3u), lg_max_k = r->c % 16 == 15 ? 0 : 4 + r->c % 11u;
    const size_t fail_from = heap.fail_from;
    heap.fail_from = 0;
    if (!is_heavy(r, first.len > 3 ? first.at[3] : 0) && !is_heavy(r, second.len > 3 ? second.at[3] : 0)) {
        switch (r->b / 3 % 4) {
        case 0:
            on_sketch(first, r, width, fail_from);
            break;
        case 1:
            on_room(first, r, width);
            break;
        case 2:
            on_stream(first, second, fail_from);
            break;
        default:
            on_two(first, second, lg_max_k, width, fail_from);
        }
    }
    heap.fail_from = fail_from;
}
