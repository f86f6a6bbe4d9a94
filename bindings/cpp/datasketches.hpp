// SPDX-License-Identifier: Apache-2.0
// The names, defaults and rules of datasketches-cpp for the sketches of hll.hpp, so a program that was written for that
// library compiles after one line has changed:
//
//     #include <hll/datasketches.hpp>      // for #include <hll.hpp> of datasketches-cpp
//
// Written from the published headers of that library, which was not run. What differs is in bindings/cpp/README.md,
// "Coming from datasketches-cpp". New programs use hll::sketch and hll::union_ of hll.hpp.
#ifndef HLL_DATASKETCHES_HPP
#define HLL_DATASKETCHES_HPP

#include "hll.hpp"

namespace datasketches {

/// The width of the registers in an image.
enum target_hll_type { HLL_4, HLL_6, HLL_8 };

/// The least and the greatest lg_k.
namespace hll_constants {
constexpr uint8_t MIN_LOG_K = 4;
constexpr uint8_t MAX_LOG_K = 21;
} // namespace hll_constants

namespace detail {

inline hll::width width_of(target_hll_type type)
{
    return hll::width_of(4 + 2 * static_cast<unsigned>(type));
}

/// Calls a reader, and throws what datasketches-cpp throws for an image that it rejects: Ended if the image ends early, and
/// otherwise std::invalid_argument.
template <class Ended, class Read> auto read_or_throw(Read read) -> decltype(read())
{
    try {
        return read();
    } catch (const hll::image_error &e) {
        if (e.status() == HLL_TRUNCATED)
            throw Ended(e.what());
        throw std::invalid_argument(e.what());
    }
}

/// Adds values to a sketch or a union, by the rules of datasketches-cpp: an unsigned integer of less than 64 bits counts
/// as the signed integer of its size, and an empty string and a null pointer are no values.
template <class Counter> class values {
  public:
    void update(uint64_t value) { counter_.update(value); }
    void update(int64_t value) { counter_.update(value); }
    void update(uint32_t value) { counter_.update(static_cast<int32_t>(value)); }
    void update(int32_t value) { counter_.update(value); }
    void update(uint16_t value) { counter_.update(static_cast<int16_t>(value)); }
    void update(int16_t value) { counter_.update(value); }
    void update(uint8_t value) { counter_.update(static_cast<int8_t>(value)); }
    void update(int8_t value) { counter_.update(value); }
    void update(double value) { counter_.update(value); }
    void update(float value) { counter_.update(value); }
    void update(const std::string &value) { update(value.data(), value.size()); }
    void update(const void *data, size_t length)
    {
        if (data != nullptr && length != 0)
            counter_.update(data, length);
    }

    double get_estimate() const { return counter_.estimate(); }
    double get_composite_estimate() const { return counter_.estimate(); }
    double get_lower_bound(uint8_t num_std_dev) const { return counter_.lower_bound(num_std_dev); }
    double get_upper_bound(uint8_t num_std_dev) const { return counter_.upper_bound(num_std_dev); }
    uint8_t get_lg_config_k() const { return static_cast<uint8_t>(counter_.lg_k()); }
    bool is_empty() const { return counter_.is_empty(); }
    bool is_compact() const { return false; }
    bool is_estimation_mode() const { return true; }
    void reset() { counter_.reset(); }

    /// Returns the relative error at a number of standard deviations, below 0 for an upper bound. It is that of this
    /// library's estimates, which are the same whether or not sketches were merged.
    static double get_rel_err(bool upper_bound, bool /* unioned */, uint8_t lg_config_k, uint8_t num_std_dev)
    {
        const double error = num_std_dev * 1.04 / std::sqrt(std::pow(2.0, lg_config_k));
        return upper_bound ? -error : error;
    }

  protected:
    explicit values(Counter given) : counter_(std::move(given)) {}
    Counter counter_;
};

} // namespace detail

/// Counts distinct values. Members throw what those of hll::sketch throw, unless they say otherwise.
class hll_sketch : public detail::values<hll::sketch> {
  public:
    using vector_bytes = std::vector<uint8_t>;

    explicit hll_sketch(uint8_t lg_config_k, target_hll_type type = HLL_4, bool /* start_full_size */ = false)
        : values(hll::sketch(lg_config_k, detail::width_of(type)))
    {
    }
    /// The allocator is not used: memory comes from malloc.
    template <class A>
    hll_sketch(uint8_t lg_config_k, target_hll_type type, bool start_full_size, const A & /* allocator */)
        : hll_sketch(lg_config_k, type, start_full_size)
    {
    }
    hll_sketch(const hll_sketch &other, target_hll_type type) : values(hll::sketch(other.counter_, detail::width_of(type)))
    {
    }

    /// The sketch of hll.hpp with the same values, and back.
    explicit hll_sketch(hll::sketch given) : values(std::move(given)) {}
    const hll::sketch &get() const noexcept { return counter_; }

    /// Reads the image with which the bytes begin, as datasketches-cpp does; deserialize_exact throws if bytes follow it.
    /// Throws std::out_of_range if the image ends early, or std::invalid_argument.
    static hll_sketch deserialize(const void *bytes, size_t length)
    {
        return hll_sketch(
            detail::read_or_throw<std::out_of_range>([=] { return hll::sketch::deserialize_first(bytes, length); }));
    }
    template <class A> static hll_sketch deserialize(const void *bytes, size_t length, const A & /* allocator */)
    {
        return deserialize(bytes, length);
    }
    static hll_sketch deserialize_exact(const void *bytes, size_t length)
    {
        return hll_sketch(
            detail::read_or_throw<std::out_of_range>([=] { return hll::sketch::deserialize(bytes, length); }));
    }

    /// Reads the next image. Throws std::runtime_error if the stream ends or fails within it, or std::invalid_argument.
    static hll_sketch deserialize(std::istream &in)
    {
        return hll_sketch(detail::read_or_throw<std::runtime_error>([&] { return hll::sketch::deserialize(in); }));
    }
    template <class A> static hll_sketch deserialize(std::istream &in, const A & /* allocator */)
    {
        return deserialize(in);
    }

    /// Return or write the compact image, which each library reads where it reads an updatable one.
    vector_bytes serialize_compact(unsigned header_size_bytes = 0) const
    {
        return counter_.serialize_after(header_size_bytes);
    }
    vector_bytes serialize_updatable() const { return counter_.serialize(); }
    void serialize_compact(std::ostream &out) const { counter_.serialize(out); }
    void serialize_updatable(std::ostream &out) const { counter_.serialize(out); }

    target_hll_type get_target_type() const
    {
        return static_cast<target_hll_type>((hll::bits_of(counter_.width()) - 4) / 2);
    }
    uint32_t get_compact_serialization_bytes() const { return static_cast<uint32_t>(counter_.serialized_size()); }
    uint32_t get_updatable_serialization_bytes() const { return static_cast<uint32_t>(counter_.serialized_size()); }
    static uint32_t get_max_updatable_serialization_bytes(uint8_t lg_k, target_hll_type type)
    {
        return static_cast<uint32_t>(hll::sketch::max_serialized_size(lg_k, detail::width_of(type)));
    }

    /// Returns one line of text. The arguments choose nothing here.
    std::string to_string(bool /* summary */ = true, bool /* detail */ = false, bool /* aux_detail */ = false,
                          bool /* all */ = false) const
    {
        return counter_.to_string();
    }
};

/// Merges sketches and values.
class hll_union : public detail::values<hll::union_> {
  public:
    explicit hll_union(uint8_t lg_max_k) : values(hll::union_(lg_max_k)) {}

    /// The allocator is not used: memory comes from malloc.
    template <class A> hll_union(uint8_t lg_max_k, const A & /* allocator */) : hll_union(lg_max_k) {}

    using values::update;
    void update(const hll_sketch &sketch) { counter_.update(sketch.get()); }

    hll_sketch get_result(target_hll_type type = HLL_4) const
    {
        return hll_sketch(counter_.result(detail::width_of(type)));
    }
    target_hll_type get_target_type() const { return HLL_8; }

    /// The union of hll.hpp with the same values.
    const hll::union_ &get() const noexcept { return counter_; }
};

/// With an allocator, they are the same classes.
template <class A> using hll_sketch_alloc = hll_sketch;
template <class A> using hll_union_alloc = hll_union;

} // namespace datasketches

#endif
