// SPDX-License-Identifier: Apache-2.0
// Times hll.hpp at lg_k 12 next to the same calls of hll.h in a loop in C, and next to one plain call over all the same
// values or images: medians of the processor time of 31 turns, in nanoseconds a value or an image. From this folder:
//
//     make -C ../c && g++ -std=c++11 -O2 -I../c -I. -o bench bench.cpp ../c/build/libhll.a && ./bench
#include <hll.hpp>
#include <hll_state.h>

#include <cstdio>
#include <cstdlib>
#include <ctime>

static const int turns = 31;

static double now()
{
    timespec time;
    clock_gettime(CLOCK_THREAD_CPUTIME_ID, &time);
    return double(time.tv_sec) * 1e9 + double(time.tv_nsec);
}

static double median(std::vector<double> of)
{
    std::sort(of.begin(), of.end());
    return of[of.size() / 2];
}

template <class Here, class Loop, class Plain>
static void row(const std::string &name, double per, Here here, Loop loop, Plain plain)
{
    std::vector<double> times[3], to_loop, to_plain;
    for (int turn = 0; turn < turns + 2; turn++) {
        double at[4] = {now()};
        here();
        at[1] = now();
        loop();
        at[2] = now();
        plain();
        at[3] = now();
        if (turn < 2) // they warm up
            continue;
        for (int i = 0; i < 3; i++)
            times[i].push_back((at[i + 1] - at[i]) / per);
        to_loop.push_back(times[0].back() / times[1].back());
        to_plain.push_back(times[0].back() / times[2].back());
    }
    std::printf("| %s | %.1f | %.1f | %.2f | %.1f | %.2f |\n", name.c_str(), median(times[0]), median(times[1]),
                median(to_loop), median(times[2]), median(to_plain));
}

static void need(hll_status status)
{
    if (status != HLL_OK) {
        std::printf("a plain call failed: %s\n", hll_message(status));
        std::exit(1);
    }
}

// Values of eight bytes with their ends.
struct values {
    std::vector<uint64_t> at;
    std::vector<size_t> ends;

    explicit values(size_t n)
    {
        for (size_t i = 0; i < n; i++) {
            at.push_back(1000000 + i);
            ends.push_back(8 * (i + 1));
        }
    }
    const uint8_t *bytes() const { return reinterpret_cast<const uint8_t *>(at.data()); }
};

// A state in memory of malloc, which grows as hll.h says.
struct c_state {
    size_t room, size;
    void *at;

    c_state() : room(HLL_STATE_NEW), size(0), at(std::malloc(room)) { need(hll_state_new(12, at, room)); }
    ~c_state() { std::free(at); }
    c_state(const c_state &) = delete;
    c_state &operator=(const c_state &) = delete;

    void add(uint64_t value)
    {
        while (hll_state_add_value(at, room, &size, reinterpret_cast<const uint8_t *>(&value), 8) == HLL_BUFFER)
            at = std::realloc(at, room = size);
    }
    void add_all(const values &some, size_t n)
    {
        while (hll_state_add(at, room, &size, some.bytes(), 8 * n, some.ends.data(), n) == HLL_BUFFER)
            at = std::realloc(at, room = size);
    }
    void add_coupons(const values &some, size_t n)
    {
        uint32_t coupons[256];
        for (size_t i = 0; i < n; i += 256) {
            const size_t batch = std::min<size_t>(256, n - i);
            need(hll_coupons_fixed(some.bytes() + 8 * i, 8 * batch, 8, coupons, 256));
            while (hll_state_add_coupons(at, room, &size, coupons, batch) == HLL_BUFFER)
                at = std::realloc(at, room = size);
        }
    }
    void join(const std::vector<uint8_t> &image)
    {
        while (hll_state_join(12, at, room, &size, image.data(), image.size()) == HLL_BUFFER)
            at = std::realloc(at, room = size);
    }
    void join(c_state &other)
    {
        while (hll_state_join_state(12, at, room, &size, other.at, other.room) == HLL_BUFFER)
            at = std::realloc(at, room = size);
    }
};

static void time_new_sketches(const values &some, size_t n)
{
    const size_t times = some.at.size() / n;
    const double per = double(n * times);
    const std::string name = "a new sketch of " + std::to_string(n) + " values: ";
    const auto each = [=](void (*one)(const values &, size_t), const values &of) {
        for (size_t t = 0; t < times; t++)
            one(of, n);
    };
    const auto plain = [&] { each([](const values &of, size_t k) { c_state().add_all(of, k); }, some); };
    row(name + "`update`", per,
        [&] {
            each([](const values &of, size_t k) {
                hll::sketch one;
                for (size_t i = 0; i < k; i++)
                    one.update(of.at[i]);
            }, some);
        },
        [&] {
            each([](const values &of, size_t k) {
                c_state one;
                for (size_t i = 0; i < k; i++)
                    one.add(of.at[i]);
            }, some);
        },
        plain);
    row(name + "`update_many`", per,
        [&] { each([](const values &of, size_t k) { hll::sketch().update_many(of.at.data(), k); }, some); },
        [&] { each([](const values &of, size_t k) { c_state().add_coupons(of, k); }, some); }, plain);
}

static void time_registers(const values &some)
{
    const size_t n = some.at.size();
    c_state state;
    state.add_all(some, n);
    hll::sketch one;
    one.update_many(some.at);
    const auto plain = [&] { state.add_all(some, n); };
    row("registers: `update`", double(n), [&] { for (uint64_t value : some.at) one.update(value); },
        [&] { for (uint64_t value : some.at) state.add(value); }, plain);
    row(
        "registers: `update_many`", double(n), [&] { one.update_many(some.at); }, [&] { state.add_coupons(some, n); },
        plain);
}

// Reads, next to reads of a state of which no copy is made.
static void time_reads(const char *name, size_t n)
{
    const values some(n);
    std::vector<uint8_t> out(HLL_IMAGE_MAX(12));
    size_t size;
    c_state state;
    state.add_all(some, n);
    hll::sketch one;
    one.update_many(some.at);
    hll_estimation found;
    double sum = 0;
    const auto estimate = [&] { for (int i = 0; i < 100; i++) need(hll_state_estimate(state.at, state.room, &found)); };
    const auto image = [&] {
        for (int i = 0; i < 100; i++)
            need(hll_state_image(state.at, state.room, 8, out.data(), out.size(), &size));
    };
    row(
        std::string(name) + ": `estimate`", 100,
        [&] {
            for (int i = 0; i < 100; i++)
                sum += one.estimate();
        },
        estimate, estimate);
    row(
        std::string(name) + ": `serialize`", 100,
        [&] {
            for (int i = 0; i < 100; i++)
                sum += double(one.serialize().size());
        },
        image, image);
    if (sum == 0)
        std::puts("none");
}

static void time_unions(size_t n, hll::width width)
{
    std::vector<hll::sketch> sketches;
    std::vector<std::vector<uint8_t>> images;
    std::vector<hll_bytes> parts;
    std::vector<uint8_t> out(HLL_IMAGE_MAX(12));
    std::vector<c_state> states(1000);
    size_t size, failed;
    for (uint64_t i = 0; i < 1000; i++) {
        sketches.emplace_back(12u, width);
        for (uint64_t j = 0; j < n; j++)
            sketches.back().update(i << 32 | j);
        images.push_back(sketches.back().serialize());
        states[i].join(images.back());
    }
    for (const auto &image : images)
        parts.push_back({image.data(), image.size()});
    const std::string name = "1,000 of " + std::to_string(n) + " values, " + std::to_string(hll::bits_of(width)) +
                             " bits: ";
    const auto plain = [&] {
        need(hll_images_unionv(12, 8, parts.data(), parts.size(), out.data(), out.size(), &size, &failed));
    };
    const auto loop = [&](bool over_images) {
        c_state all;
        for (size_t i = 0; i < 1000; i++)
            over_images ? all.join(images[i]) : all.join(states[i]);
        need(hll_state_image(all.at, all.room, 8, out.data(), out.size(), &size));
    };
    row(name + "`update_image`", 1000,
        [&] {
            hll::union_ all(12);
            for (const auto &image : images)
                all.update_image(image);
            all.result().serialize();
        },
        [&] { loop(true); }, plain);
    row(name + "`update_images`", 1000,
        [&] {
            hll::union_ all(12);
            all.update_images(images);
            all.result().serialize();
        },
        [&] { loop(true); }, plain);
    row(name + "`update` of sketches", 1000,
        [&] {
            hll::union_ all(12);
            for (const hll::sketch &one : sketches)
                all.update(one);
            all.result().serialize();
        },
        [&] { loop(false); }, plain);
}

int main()
{
    const values some(20000);
    std::puts("| operation | hll.hpp | loop in C | ratio | one call | ratio |\n|---|---|---|---|---|---|");
    time_registers(some);
    for (size_t n : {size_t(7), size_t(20), size_t(300), size_t(20000)})
        time_new_sketches(some, n);
    time_reads("20 values", 20);
    time_reads("300 values", 300);
    time_reads("registers", 20000);
    for (const hll::width width : {hll::width::hll_8, hll::width::hll_6, hll::width::hll_4})
        time_unions(20480, width);
    time_unions(20, hll::width::hll_8);
    time_unions(300, hll::width::hll_8);
}
