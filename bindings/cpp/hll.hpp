// SPDX-License-Identifier: Apache-2.0
// HyperLogLog sketches as C++ values, over the calls of hll.h. C++11, one header; link the program with libhll.
//
//     hll::sketch monday;                                      // lg_k 12, a standard error of 1.6 %
//     monday.update("ann");
//     monday.update(42);
//     std::vector<uint8_t> image = monday.serialize();         // for a file, or a column of a table
//
//     hll::union_ week;                                        // merges sketches of one lg_k; union_(12) those of any
//     week.update(monday);
//     week.update_image(image.data(), image.size());
//     std::cout << week.estimate() << " distinct values\n";
//
// Memory. A sketch and a union own their memory and free it. The object itself has 128 bytes, and holds up to 14 values,
// or fewer if they repeat.
// With more it allocates 40 bytes and four for each value, and up to half as much again and 32. Registers have one byte each and
// 40 bytes, at every width. While a call makes registers of coupons there is room for both
// (docs/CHOOSING.md, "Memory"). memory_size() returns the bytes that are allocated, and shrink_to_fit() frees those that
// are not used. Copies are independent. A sketch that was moved from is empty, and can be used again.
//
// Exceptions. After an exception the object is as it was before the call.
//     hll::image_error         the bytes are not the image of a sketch; status() and reason() say why. A stream that
//                              ends inside an image is HLL_TRUNCATED
//     hll::lg_k_error          a union without a bound was given a sketch of another lg_k
//     std::invalid_argument    an argument is out of range
//     std::bad_alloc           an allocation failed
//     std::logic_error         other code has overwritten the memory of the object, or the library that the program
//                              runs with has another version than the header
//     std::ios_base::failure   an image could not be written to a stream
//
// Threads. Several threads can call const members of one object at once, as with a container of the standard library.
// While one thread calls another member, no other thread may use the object. A const member reads a copy of coupons that
// aren't sorted: at 300 values an estimate takes 4 microseconds, and 1 if the coupons are sorted already (bench.cpp).
// Sorting at each update would cost more, because sketches are updated more often than they are read. Registers and sorted
// coupons are read where they are, and an estimate of them allocates nothing.
#ifndef HLL_HPP
#define HLL_HPP

#include "hll.h"

#include <algorithm>
#include <cmath>
#include <cstddef>
#include <cstdint>
#include <cstring>
#include <initializer_list>
#include <istream>
#include <iterator>
#include <new>
#include <ostream>
#include <sstream>
#include <stdexcept>
#include <string>
#include <type_traits>
#include <utility>
#include <vector>
#if __cplusplus >= 201703L
#include <string_view>
#endif
#if __cplusplus >= 202002L
#include <version>
#endif
#ifdef __cpp_lib_span
#include <span>
#endif
#ifdef __cpp_lib_format
#include <format>
#endif

namespace hll {

/// The number of bits of a register in an image. It changes the size of images, and nothing else: what is counted and
/// the memory of a sketch are the same at each width.
enum class width : uint8_t { hll_4 = 4, hll_6 = 6, hll_8 = 8 };

/// Returns the width of this number of bits. Throws std::invalid_argument for another number than 4, 6 and 8.
inline width width_of(unsigned bits)
{
    if (bits != 4 && bits != 6 && bits != 8)
        throw std::invalid_argument("the width is " + std::to_string(bits) + " bits; it must be 4, 6 or 8");
    return static_cast<width>(bits);
}

/// Returns the number of bits of a width: 4, 6 or 8.
constexpr unsigned bits_of(width given)
{
    return static_cast<unsigned>(given);
}

/// The bytes are not the image of a sketch, or more than one image.
class image_error : public std::runtime_error {
  public:
    /// `more` of the `size` bytes follow an image, if the status is HLL_TRAILING.
    image_error(hll_status status, size_t size, size_t more = 0) : image_error(status, size, more, 0, "") {}

    /// One of several images; `index` is its number, from 0.
    static image_error at(size_t index, hll_status status, size_t size, size_t more = 0)
    {
        return image_error(status, size, more, index, "images[" + std::to_string(index) + "]: ");
    }

    /// Returns the first check that the bytes fail, HLL_TRUNCATED to HLL_REGISTER, or HLL_TRAILING.
    hll_status status() const noexcept { return status_; }

    /// Returns the status as one word: "truncated", "family" and so on.
    const char *reason() const noexcept { return hll_reason(status_); }

    /// Returns the number of the image among several, from 0.
    size_t index() const noexcept { return index_; }

  private:
    image_error(hll_status status, size_t size, size_t more, size_t index, const std::string &which)
        : std::runtime_error(
              which + "these " + std::to_string(size) + " bytes are not the image of a sketch: " +
              (more == 0 ? hll_message(status) : "They begin with one of " + std::to_string(size - more) + " bytes.") +
              " (" + hll_reason(status) + ")"),
          status_(status), index_(index)
    {
    }

    hll_status status_;
    size_t index_;
};

/// A union without a bound got a sketch of another lg_k.
class lg_k_error : public std::runtime_error {
  public:
    lg_k_error(unsigned lg_k, unsigned other, const std::string &which = "")
        : std::runtime_error(which + "the union has lg_k " + std::to_string(lg_k) + " and the sketch lg_k " +
                             std::to_string(other) +
                             ": to merge both at the smaller lg_k, give the union a bound, as in hll::union_(" +
                             std::to_string(lg_k) + ")"),
          lg_k_(lg_k), other_(other)
    {
    }

    /// Returns the lg_k of the union.
    unsigned lg_k() const noexcept { return lg_k_; }

    /// Returns the lg_k of the sketch that was to be merged.
    unsigned other_lg_k() const noexcept { return other_; }

  private:
    unsigned lg_k_, other_;
};

/// Returns whether an untrusted image is quick to read, or to reject: it has at most `most` bytes, and an lg_k of at most
/// `lg_k` or a fault in its header. The defaults accept every ordinary image of lg_k 12 (docs/OPERATING.md, "Images from
/// others").
inline bool is_small(const void *image, size_t size, unsigned lg_k = 12, size_t most = 8192)
{
    return hll_is_small(static_cast<const uint8_t *>(image), size, lg_k, most) != 0;
}

namespace detail {

constexpr unsigned default_lg_k = 12;
constexpr size_t most_before = SIZE_MAX / 2 - HLL_IMAGE_MAX(21); // so the room before an image and the image are a size
constexpr size_t batch = 256; // values that are hashed before their coupons are added

inline unsigned checked_lg_k(unsigned lg_k)
{
    if (lg_k < 4 || lg_k > 21)
        throw std::invalid_argument("lg_k is " + std::to_string(lg_k) + "; it must be 4 to 21");
    return lg_k;
}

inline const uint8_t *checked_bytes(const void *bytes, size_t size)
{
    if (bytes == nullptr && size != 0)
        throw std::invalid_argument("a null pointer was given with a size of " + std::to_string(size));
    return static_cast<const uint8_t *>(bytes);
}

/// Returns whether a status means that an image was rejected.
inline bool is_refusal(hll_status status)
{
    return status >= HLL_TRUNCATED && status <= HLL_REGISTER;
}

/// Throws the exception for a status of a call on a state, or nothing for HLL_OK.
inline void check(hll_status status)
{
    if (status == HLL_MEMORY)
        throw std::bad_alloc();
    if (status != HLL_OK) // bytes that other code has overwritten
        throw std::logic_error(std::string("the memory of a sketch is damaged: ") + hll_message(status));
}

/// Throws if the library has another version than hll.h had when the program was compiled. Before 1.0 the first two of
/// its three numbers have to be the same.
inline void check_version()
{
    static const bool is_same = hll_version() / 1000 == HLL_VERSION_NUMBER / 1000;
    if (!is_same)
        throw std::logic_error("the program was compiled with the hll.h of version " + std::to_string(HLL_VERSION_MAJOR) +
                               "." + std::to_string(HLL_VERSION_MINOR) + ", and runs with libhll " +
                               std::to_string(hll_version() / 1000000) + "." + std::to_string(hll_version() / 1000 % 1000) +
                               ": compile it again");
}

/// Reads from a stream until there are `size` bytes, in blocks, so a wrong size takes no more memory than there are
/// bytes.
inline void read_up_to(std::istream &in, std::vector<uint8_t> &bytes, size_t size)
{
    constexpr size_t block = 65536;
    while (bytes.size() < size) {
        const size_t had = bytes.size(), some = std::min(size - had, +block);
        bytes.resize(had + some);
        in.read(reinterpret_cast<char *>(bytes.data() + had), static_cast<std::streamsize>(some));
        const size_t got = static_cast<size_t>(in.gcount());
        if (got < some)
            throw image_error(HLL_TRUNCATED, had + got);
    }
}

/// Returns what the header of an image and the counts after it say.
inline hll_head head_of(const uint8_t *image, size_t size)
{
    hll_head head = {};
    check(hll_image_head(image, size, &head, sizeof head));
    return head;
}

/// Returns how many bytes follow an image.
inline size_t trailing(const hll_bytes &image)
{
    size_t more = 0;
    check(hll_image_trailing(image.bytes, image.len, &more));
    return more;
}

/// Returns where the bytes of an image in a container are. A temporary container is rejected, because its bytes end with it.
template <class Container> hll_bytes image_in(const Container &image)
{
    static_assert(sizeof *image.data() == 1, "an image is a container of bytes");
    return {reinterpret_cast<const uint8_t *>(image.data()), image.size()};
}
template <class Container> hll_bytes image_in(const Container &&image) = delete;

/// Throws image_error for the first of n images that is none, or that is followed by bytes, if bytes follow one.
inline void check_whole(const hll_bytes *images, size_t n)
{
    if (std::all_of(images, images + n, [](const hll_bytes &image) { return trailing(image) == 0; }))
        return;
    for (size_t i = 0; i < n; i++) {
        const size_t more = trailing(images[i]);
        hll_status status = hll_image_check(images[i].bytes, images[i].len);
        if (status == HLL_OK && more != 0)
            status = HLL_TRAILING;
        if (is_refusal(status) || status == HLL_TRAILING)
            throw n == 1 ? image_error(status, images[i].len, more) : image_error::at(i, status, images[i].len, more);
        check(status);
    }
}

/// Reads the bytes of the image that comes next in a stream: all that its head announces, and no more. Throws image_error if
/// the head has a fault.
inline std::vector<uint8_t> next_image(std::istream &in)
{
    std::vector<uint8_t> image;
    hll_head head = {};
    for (const size_t size : {size_t(8), size_t(12), size_t(40)}) { // what the head of a list, a set and registers takes
        read_up_to(in, image, size);
        head = head_of(image.data(), image.size());
        if (head.fault != HLL_TRUNCATED)
            break;
    }
    if (head.fault != HLL_OK)
        throw image_error(head.fault, image.size());
    read_up_to(in, image, static_cast<size_t>(head.size));
    return image;
}

/// Writes bytes to a stream.
inline void put(std::ostream &out, const std::vector<uint8_t> &bytes)
{
    out.write(reinterpret_cast<const char *>(bytes.data()), static_cast<std::streamsize>(bytes.size()));
    if (!out)
        throw std::ios_base::failure("a stream did not take the " + std::to_string(bytes.size()) + " bytes of an image");
}

/// Owns a counter (hll.h, "counters") whose memory is from malloc.
class state {
  public:
    /// Makes an empty sketch. lg_k is 4 to 21, or 0: then it is open.
    explicit state(unsigned lg_k) { check(hll_counter_init(&counter_, checked_version(lg_k), nullptr, nullptr)); }

    /// Copies the sketch of another state, to a state of its present lg_k.
    static state of(const state &other)
    {
        state made(other.lg_k());
        check(made.join(other));
        return made;
    }

    state(const state &other) : state(other.counter_.lg_max_k) { check(hll_counter_copy(&counter_, &other.counter_)); }
    state(state &&other) noexcept : counter_(other.counter_)
    {
        hll_counter_init(&other.counter_, counter_.lg_max_k, nullptr, nullptr);
    }
    ~state() { hll_counter_free(&counter_); }
    state &operator=(state other) noexcept
    {
        swap(other);
        return *this;
    }

    void swap(state &other) noexcept { std::swap(counter_, other.counter_); }
    void clear() noexcept { hll_counter_free(&counter_); }

    /// Returns the lg_k. While it is open, that is the default, or the greatest of the empty sketches that were merged.
    unsigned lg_k() const noexcept
    {
        const hll_state_summary said = summary();
        return said.is_open ? std::max<unsigned>(default_lg_k, said.lg_k) : said.lg_k;
    }
    bool is_open() const noexcept { return summary().is_open != 0; }
    bool is_empty() const noexcept { return summary().is_empty != 0; }
    bool has_registers() const noexcept { return summary().stage == HLL_REGISTERS; }

    hll_status add(const uint8_t *value, size_t len) { return hll_counter_add(&counter_, value, len); }
    hll_status add(const uint32_t *coupons, size_t n) { return hll_counter_add_coupons(&counter_, coupons, n); }

    /// Grows to the most room that the sketch can need, so no later call needs more.
    hll_status reserve() { return hll_counter_reserve(&counter_); }

    hll_status join(const uint8_t *image, size_t len) { return hll_counter_join(&counter_, image, len); }
    hll_status join(const state &other) { return hll_counter_join_counter(&counter_, &other.counter_); }

    /// Sorts the coupons, so that reading copies nothing.
    hll_status settle() { return hll_counter_settle(&counter_); }

    hll_estimation estimation() const
    {
        hll_estimation found;
        check(hll_counter_estimate(&counter_, &found));
        return found;
    }

    /// Returns the image after `before` bytes, which are 0.
    std::vector<uint8_t> image(width given, size_t before = 0) const
    {
        if (before > most_before)
            throw std::invalid_argument("the room before an image is " + std::to_string(before) +
                                        " bytes; it must be at most " + std::to_string(most_before));
        const hll_state_summary said = summary();
        // enough, unless 4-bit registers have many exceptions
        size_t size = std::min<size_t>(static_cast<size_t>(said.size), HLL_IMAGE_ROOM(said.lg_k, 8));
        std::vector<uint8_t> out(before + size);
        hll_status status = image_in(out.data() + before, size, given);
        if (status == HLL_BUFFER) {
            out.resize(before + size);
            status = image_in(out.data() + before, size, given);
        }
        check(status);
        out.resize(before + size);
        out.shrink_to_fit();
        return out;
    }

    /// Returns the size of the image.
    size_t image_size(width given) const
    {
        size_t size = 0;
        const hll_status status = image_in(nullptr, size, given);
        if (status != HLL_BUFFER) // which is what no room gives
            check(status);
        return size;
    }

    /// Returns the bytes that are allocated.
    size_t room() const noexcept { return counter_.room; }

    /// Frees the bytes that the sketch doesn't use. Coupons that are too many for a set become registers before.
    void shrink() noexcept
    {
        if (room() > size_t(1) << lg_k())
            hll_counter_settle(&counter_);
        hll_counter_shrink(&counter_);
    }

  private:
    hll_counter counter_;

    hll_state_summary summary() const noexcept
    {
        hll_state_summary said = {};
        hll_counter_info(&counter_, &said, sizeof said);
        return said;
    }

    /// Writes the image into `size` bytes, and sets the number to the size of the image.
    hll_status image_in(uint8_t *out, size_t &size, width given) const
    {
        return hll_counter_image(&counter_, bits_of(given), out, size, &size);
    }

    static unsigned checked_version(unsigned lg_k)
    {
        check_version();
        return lg_k;
    }
};

/// Returns the number whose eight bytes are hashed for an integer: the integer, widened to 64 bits.
template <class Integer> typename std::enable_if<std::is_integral<Integer>::value, uint64_t>::type hashed_as(Integer value)
{
    static_assert(sizeof value <= 8, "integers have at most 64 bits");
    return static_cast<uint64_t>(value);
}

/// Returns the number whose eight bytes are hashed for a real number: the bits of its binary64, with -0.0 as 0.0 and
/// one pattern for every NaN.
template <class Real> typename std::enable_if<std::is_floating_point<Real>::value, uint64_t>::type hashed_as(Real value)
{
    static_assert(sizeof value <= 8, "a long double has to be converted to double first");
    uint64_t bits = 0;
    const double wide = static_cast<double>(value);
    if (std::isnan(wide))
        bits = UINT64_C(0x7ff8000000000000);
    else if (wide < 0 || wide > 0)
        std::memcpy(&bits, &wide, sizeof bits);
    return bits;
}

#if defined(__BYTE_ORDER__) && __BYTE_ORDER__ == __ORDER_LITTLE_ENDIAN__
constexpr bool is_little_endian = true;
#else
constexpr bool is_little_endian = false; // or not known
#endif

inline void put_little_endian(uint64_t number, uint8_t *bytes)
{
    if (is_little_endian) { // one store, as eight of a byte would hold up the hash that reads them together
        std::memcpy(bytes, &number, sizeof number);
        return;
    }
    for (int i = 0; i < 8; i++)
        bytes[i] = static_cast<uint8_t>(number >> (8 * i));
}

/// Returns whether the bytes of a value in memory are the bytes that are hashed.
template <class Value> constexpr bool is_hashed_in_place()
{
    return is_little_endian && std::is_integral<Value>::value && sizeof(Value) == 8;
}

/// Writes the coupons of the numbers from values[first] on: n of them, at most `batch`.
template <class Number>
typename std::enable_if<std::is_arithmetic<Number>::value>::type hash_batch(const Number *values, size_t first, size_t n,
                                                                            uint32_t *coupons)
{
    if (is_hashed_in_place<Number>())
        return check(hll_coupons_fixed(reinterpret_cast<const uint8_t *>(values + first), 8 * n, 8, coupons, n));
    uint8_t bytes[8 * batch];
    for (size_t i = 0; i < n; i++)
        put_little_endian(hashed_as(values[first + i]), bytes + 8 * i);
    check(hll_coupons_fixed(bytes, 8 * n, 8, coupons, n));
}

inline size_t length_of(const char *text)
{
    if (text == nullptr)
        throw std::invalid_argument("the string is a null pointer");
    return std::strlen(text);
}

/// Returns the coupon of values[at]: of a number, a string, or another container of bytes.
template <class Number>
typename std::enable_if<std::is_arithmetic<Number>::value, uint32_t>::type coupon_of(Number value, size_t)
{
    uint8_t bytes[8];
    put_little_endian(hashed_as(value), bytes);
    return hll_coupon(bytes, sizeof bytes);
}
inline uint32_t coupon_of(const char *text, size_t at)
{
    if (text == nullptr)
        throw std::invalid_argument("values[" + std::to_string(at) + "] is a null pointer");
    return hll_coupon(reinterpret_cast<const uint8_t *>(text), std::strlen(text));
}
template <class Text>
typename std::enable_if<std::is_class<Text>::value, uint32_t>::type coupon_of(const Text &text, size_t)
{
    return hll_coupon(reinterpret_cast<const uint8_t *>(text.data()), text.size());
}

/// Writes the coupons of the strings or other containers of bytes from values[first] on: n of them, at most `batch`.
template <class Text>
typename std::enable_if<!std::is_arithmetic<Text>::value>::type hash_batch(const Text *values, size_t first, size_t n,
                                                                           uint32_t *coupons)
{
    for (size_t i = 0; i < n; i++)
        coupons[i] = coupon_of(values[first + i], first + i);
}

/// The type of the values of an iterator.
#ifdef __cpp_lib_ranges
template <class Iterator> using value_of = std::iter_value_t<Iterator>;
#else
template <class Iterator> using value_of = typename std::iterator_traits<Iterator>::value_type;
#endif

/// Whether the bytes of a type are those of a value, in a span of them.
template <class Byte>
struct is_byte : std::integral_constant<bool, std::is_same<Byte, uint8_t>::value || std::is_same<Byte, char>::value> {
};
#if __cplusplus >= 201703L
template <> struct is_byte<std::byte> : std::true_type {
};
#endif

/// Whether update_many adds values of a type: numbers, strings, or other containers of bytes. Characters are one string.
template <class Value, class = void> struct is_counted : std::is_arithmetic<Value> {
};
template <> struct is_counted<char> : std::false_type {
};
template <> struct is_counted<const char *> : std::true_type {
};
template <> struct is_counted<char *> : std::true_type {
};
template <class Text>
struct is_counted<Text, decltype(static_cast<void>(*std::declval<const Text &>().data()),
                                 static_cast<void>(std::declval<const Text &>().size()))>
    : std::integral_constant<bool, sizeof *std::declval<const Text &>().data() == 1> {
};

/// Says at compile time why values of a type are not counted.
template <class Value> void explain()
{
    static_assert(!std::is_same<Value, char>::value,
                  "characters are one string, which update adds; numbers of 8 bits are int8_t or uint8_t");
    static_assert(std::is_same<Value, char>::value || is_counted<Value>::value,
                  "values are numbers, strings, or containers of bytes; a sketch is merged by update of a union");
}

/// What update_many was given: a container whose values are contiguous, another range, or neither.
struct contiguous {};
struct range {};
struct no_range {};
template <class Given>
auto kind_of(Given &given, int, int)
    -> decltype(static_cast<void>(*given.data()), static_cast<void>(given.size()), contiguous());
template <class Given>
auto kind_of(Given &given, long, int) -> decltype(static_cast<void>(std::begin(given) != std::end(given)), range());
template <class Given> no_range kind_of(Given &given, long, long);

template <class Value> void hash_all(const Value *values, size_t n, uint32_t *coupons)
{
    for (size_t done = 0; done < n; done += batch)
        hash_batch(values, done, std::min(batch, n - done), coupons + done);
}

/// The members that sketches and unions have in common.
class counter {
  public:
    /// Adds a number. An integer counts by its eight bytes, widened to 64 bits, and `true` counts as 1. A float or a
    /// double counts by the eight bytes of the double (docs/FORMAT.md, "What values are hashed as").
    template <class Number> typename std::enable_if<std::is_arithmetic<Number>::value>::type update(Number value)
    {
        uint8_t bytes[8];
        put_little_endian(hashed_as(value), bytes);
        update(bytes, sizeof bytes);
    }

    /// Adds a string: its bytes, which should be UTF-8. The empty string is a value like any other, and a `char` is a string
    /// of one character.
    void update(const std::string &value) { update(value.data(), value.size()); }
    void update(char value) { update(&value, 1); }
    void update(const char *value) { update(value, length_of(value)); }
    void update(std::nullptr_t) = delete; // a null pointer is no value
#if __cplusplus >= 201703L
    void update(std::string_view value)
    {
        update(value.data(), value.size());
    }
#endif

#ifdef __cpp_lib_span
    /// Adds the bytes of a span as one value: a span of std::byte, uint8_t or char.
    template <class Byte, size_t Extent>
    typename std::enable_if<is_byte<typename std::remove_cv<Byte>::type>::value>::type update(std::span<Byte, Extent> value)
    {
        update(value.data(), value.size());
    }
#endif

    /// Adds `size` bytes as one value. A null pointer is allowed if the size is 0.
    void update(const void *value, size_t size)
    {
        const uint8_t *bytes = checked_bytes(value, size);
        const hll_status status = state_.add(bytes, size);
        if (status != HLL_OK)
            checked(status, [=](counter &decided) { decided.update(value, size); });
    }

    /// Adds n values, all or none: numbers, strings, or containers of bytes. Takes about half the time of adding them
    /// one by one.
    template <class Value> void update_many(const Value *values, size_t n)
    {
        add_many(values, n, std::integral_constant<bool, is_counted<Value>::value>());
    }

    /// Adds the values of a container or another range, or of a list in braces, all or none. Values that are contiguous, as
    /// in std::vector, std::array and std::span, are added as above; others in the time of adding them one by one, to a copy
    /// that then takes the place of the sketch. A string is one value: update adds it.
    template <class Range> void update_many(Range &&values)
    {
        add_range(values, decltype(kind_of(values, 0, 0))());
    }
    template <class Value> void update_many(std::initializer_list<Value> values)
    {
        update_many(values.begin(), values.size());
    }

    /// Adds the values from one iterator up to another, all or none, as those of a range.
    template <class Iterator, class End>
    typename std::enable_if<!std::is_arithmetic<End>::value>::type update_many(Iterator from, End to)
    {
        add_between(from, to, std::integral_constant<bool, is_counted<value_of<Iterator>>::value>());
    }

    /// Adds n raw coupons, as hll_coupon returns them.
    void update_coupons(const uint32_t *coupons, size_t n)
    {
        checked_bytes(coupons, n);
        const uint32_t *found = std::find_if(coupons, coupons + n, [](uint32_t one) { return HLL_COUPON_VALUE(one) == 0; });
        if (found != coupons + n)
            throw std::invalid_argument("coupons[" + std::to_string(found - coupons) + "] is " + std::to_string(*found) +
                                        ", whose value is 0; the value of a coupon is 1 to 63");
        add(coupons, n);
    }

    /// Returns the estimated number of distinct values.
    double estimate() const
    {
        return estimation().estimate;
    }

    /// Return the bounds at 1, 2 or 3 standard deviations. The true number is between them in at least about 68, 95 and 99.7
    /// of 100 cases (docs/NUMBERS.md, "Estimates").
    double lower_bound(unsigned deviations) const
    {
        return estimation().lower[index_of(deviations)];
    }
    double upper_bound(unsigned deviations) const
    {
        return estimation().upper[index_of(deviations)];
    }

    /// Returns the estimate with all its bounds, in less time than two of the calls above.
    hll_estimation estimation() const
    {
        return state_.estimation();
    }

    unsigned lg_k() const noexcept
    {
        return state_.lg_k();
    }
    bool is_empty() const noexcept
    {
        return state_.is_empty();
    }

    /// Removes all values, and frees the memory.
    void reset() noexcept
    {
        state_.clear();
    }

    /// Returns the bytes that are allocated, in addition to the object itself.
    size_t memory_size() const noexcept
    {
        return state_.room();
    }

    /// Frees the bytes that are allocated and not used.
    void shrink_to_fit()
    {
        state_.shrink();
    }

  protected:
    explicit counter(state given) noexcept : state_(std::move(given)) {}
    state state_;

  private:
    template <class Container> void add_range(Container &values, contiguous)
    {
        update_many(values.data(), values.size());
    }
    template <class Range> void add_range(Range &values, range)
    {
        update_many(std::begin(values), std::end(values));
    }
    template <class Given> void add_range(Given &, no_range)
    {
        static_assert(sizeof(Given) == 0, "update_many adds the values of a range; update adds one value");
    }

    template <class Value> void add_many(const Value *, size_t, std::false_type)
    {
        explain<Value>();
    }
    template <class Iterator, class End> void add_between(Iterator, End, std::false_type)
    {
        explain<value_of<Iterator>>();
    }

    template <class Value> void add_many(const Value *values, size_t n, std::true_type)
    {
        checked_bytes(values, n);
        if (std::is_pointer<Value>::value) // to texts, of which one may be null after others
            return update_many(values, values + n);
        uint32_t coupons[batch];
        const bool reserves = n > batch && !state_.has_registers();
        if (reserves) {
            if (n <= (size_t(1) << lg_k()) / 4) // their coupons take no more than registers
                return update_at_once(values, n);
            const hll_status status = state_.reserve(); // so no batch fails with bad_alloc after others were added
            if (status != HLL_OK)
                return checked(status, [=](counter &decided) { decided.update_many(values, n); });
        }
        for (size_t done = 0; done < n; done += batch) {
            const size_t some = std::min(batch, n - done);
            hash_batch(values, done, some, coupons);
            add(coupons, some);
        }
        if (reserves)
            state_.shrink();
    }

    template <class Iterator, class End> void add_between(Iterator from, End to, std::true_type)
    {
        counter copy{state(state_)};
        uint32_t coupons[batch];
        for (size_t done = 0, some; from != to; done += some) {
            for (some = 0; some < batch && from != to; ++some, ++from) {
                const value_of<Iterator> &value = *from;
                coupons[some] = coupon_of(value, done + some);
            }
            copy.add(coupons, some);
        }
        state_.swap(copy.state_);
    }

    void add(const uint32_t *coupons, size_t n)
    {
        const hll_status status = state_.add(coupons, n);
        if (status != HLL_OK)
            checked(status, [=](counter &decided) { decided.add(coupons, n); });
    }

    /// Adds values where a status says that it can't be done: if the lg_k is open, they decide it.
    template <class Add> void checked(hll_status status, Add add_to)
    {
        if (status != HLL_ARGUMENT || !state_.is_open())
            return check(status);
        counter decided{state(lg_k())};
        add_to(decided);
        check(state_.join(decided.state_));
    }

    /// Adds the coupons of all values by one call.
    template <class Value> void update_at_once(const Value *values, size_t n)
    {
        std::vector<uint32_t> coupons(n);
        hash_all(values, n, coupons.data());
        add(coupons.data(), n);
    }

    static size_t index_of(unsigned deviations)
    {
        if (deviations < 1 || deviations > 3)
            throw std::invalid_argument("bounds are at 1, 2 or 3 standard deviations, not " + std::to_string(deviations));
        return deviations - 1;
    }
};

} // namespace detail

/// Counts distinct values. <hll/datasketches.hpp> has this class and the next under the names of datasketches-cpp.
class sketch : public detail::counter {
  public:
    /// Makes an empty sketch of 2^lg_k registers; lg_k is 4 to 21. The width is that of its images.
    explicit sketch(unsigned lg_k = detail::default_lg_k, hll::width width = hll::width::hll_8)
        : counter(detail::state(detail::checked_lg_k(lg_k))), width_(width)
    {
    }

    /// Copies a sketch, with another width.
    sketch(const sketch &other, hll::width width) : counter(other.state_), width_(width) {}

    /// Returns the sketch of an image, which is checked whole. Throws image_error if bytes follow it, too. If the bytes are
    /// untrusted, call is_small first.
    static sketch deserialize(const void *image, size_t size)
    {
        const hll_bytes whole = {detail::checked_bytes(image, size), size};
        detail::check_whole(&whole, 1);
        return deserialize_first(image, size);
    }

    /// Returns the sketch of the image with which the bytes begin. Those after it are not read.
    static sketch deserialize_first(const void *image, size_t size)
    {
        const uint8_t *bytes = detail::checked_bytes(image, size);
        const hll_head head = detail::head_of(bytes, size);
        sketch made(head.lg_k ? head.lg_k : detail::default_lg_k,
                    width_of(head.width ? head.width : 8)); // if the header is wrong, join returns the reason
        const hll_status status = made.state_.join(bytes, size);
        if (detail::is_refusal(status))
            throw image_error(status, size);
        detail::check(status);
        return made;
    }
    static sketch deserialize(const std::vector<uint8_t> &image) { return deserialize(image.data(), image.size()); }
    static sketch deserialize(const std::vector<char> &image) { return deserialize(image.data(), image.size()); }
    static sketch deserialize(const std::string &image) { return deserialize(image.data(), image.size()); }
    static sketch deserialize(const char *) = delete; // its length is not known: deserialize(image, size)
#ifdef __cpp_lib_span
    template <class Byte, size_t Extent>
    static typename std::enable_if<detail::is_byte<typename std::remove_cv<Byte>::type>::value, sketch>::type
    deserialize(std::span<Byte, Extent> image)
    {
        return deserialize(image.data(), image.size());
    }
#endif

    /// Reads the image that comes next in a stream, and leaves the stream after it, so several sketches can follow each
    /// other: `while (in.peek() != EOF) sketches.push_back(hll::sketch::deserialize(in));`.
    static sketch deserialize(std::istream &in) { return deserialize(detail::next_image(in)); }

    /// Returns the image, at the width of the sketch or at the width given. It is compact.
    std::vector<uint8_t> serialize() const { return serialize(width_); }
    std::vector<uint8_t> serialize(hll::width width) const { return state_.image(width); }

    /// A number would be a width to some readers, and room before the image to others: write
    /// serialize(hll::width::hll_8), or serialize_after(8).
    template <class Number>
    typename std::enable_if<std::is_arithmetic<Number>::value, std::vector<uint8_t>>::type
        serialize(Number) const = delete; // serialize(hll::width::hll_8) or serialize_after(8)?

    /// Returns the image after `room` bytes, which are 0, for a header of the caller's. Throws std::invalid_argument if the
    /// room and an image would be no size.
    std::vector<uint8_t> serialize_after(size_t room) const { return serialize_after(room, width_); }
    std::vector<uint8_t> serialize_after(size_t room, hll::width width) const { return state_.image(width, room); }

    /// Writes the image to a stream.
    void serialize(std::ostream &out) const { serialize(out, width_); }
    void serialize(std::ostream &out, hll::width width) const { detail::put(out, state_.image(width)); }

    /// Returns the size of the image, in the time of writing it.
    size_t serialized_size() const { return serialized_size(width_); }
    size_t serialized_size(hll::width width) const { return state_.image_size(width); }

    /// Returns the size of the largest image of an lg_k.
    static size_t max_serialized_size(unsigned lg_k, hll::width width)
    {
        return HLL_IMAGE_ROOM(detail::checked_lg_k(lg_k), bits_of(width));
    }

    hll::width width() const noexcept { return width_; }

    void swap(sketch &other) noexcept
    {
        state_.swap(other.state_);
        std::swap(width_, other.width_);
    }

    std::string to_string() const
    {
        const hll_estimation found = estimation();
        std::ostringstream text;
        text.precision(15);
        text << "sketch of lg_k " << lg_k() << ", " << bits_of(width_) << " bits a register: about "
             << std::round(found.estimate) << " distinct values, with 95% certainty " << std::floor(found.lower[1])
             << " to " << std::ceil(found.upper[1]);
        return text.str();
    }

  private:
    friend class union_;
    sketch(detail::state given, hll::width width) noexcept : counter(std::move(given)), width_(width) {}

    hll::width width_;
};

/// Returns whether both sketches have the same image.
inline bool operator==(const sketch &a, const sketch &b)
{
    return a.lg_k() == b.lg_k() && a.width() == b.width() && a.serialize() == b.serialize();
}
inline bool operator!=(const sketch &a, const sketch &b)
{
    return !(a == b);
}
inline void swap(sketch &a, sketch &b) noexcept
{
    a.swap(b);
}
inline std::ostream &operator<<(std::ostream &out, const sketch &given)
{
    return out << given.to_string();
}

/// Merges sketches, images and values.
class union_ : public detail::counter {
  public:
    /// Makes a union that merges sketches of every lg_k. Its lg_k is lg_max_k, 4 to 21, or the smallest lg_k of the
    /// merged sketches with registers, if that is smaller.
    explicit union_(unsigned lg_max_k)
        : counter(detail::state(detail::checked_lg_k(lg_max_k))), lg_max_k_(static_cast<uint8_t>(lg_max_k))
    {
    }

    /// Makes a union without a bound. It takes the lg_k of the first sketch that is not empty, and throws lg_k_error
    /// for a sketch of another lg_k. If a value is added first, its lg_k is 12.
    union_() : counter(detail::state(0)), lg_max_k_(0) {}

    using counter::update;

    /// Merges a sketch. A sketch that is passed by std::move is merged without a copy, and keeps its values.
    void update(const sketch &other) { joined(state_.join(other.state_), other.lg_k()); }
    void update(sketch &&other)
    {
        detail::check(other.state_.settle());
        update(other);
    }

    /// Merges an image without making a sketch of it. Throws image_error if bytes follow it, too. If the bytes are untrusted,
    /// call is_small first.
    void update_image(const void *image, size_t size)
    {
        const uint8_t *bytes = detail::checked_bytes(image, size);
        const hll_bytes whole = {bytes, size};
        detail::check_whole(&whole, 1);
        joined(state_.join(bytes, size), detail::head_of(bytes, size).lg_k, size);
    }
    void update_image(const std::vector<uint8_t> &image) { update_image(image.data(), image.size()); }
#ifdef __cpp_lib_span
    template <class Byte, size_t Extent>
    typename std::enable_if<detail::is_byte<typename std::remove_cv<Byte>::type>::value>::type
    update_image(std::span<Byte, Extent> image)
    {
        update_image(image.data(), image.size());
    }
#endif

    /// Merges n images, all or none, in less time than one by one. If an image is rejected, the image_error has the
    /// index of the first such image.
    void update_images(const hll_bytes *images, size_t n)
    {
        detail::checked_bytes(images, n);
        for (size_t i = 0; i < n; i++)
            detail::checked_bytes(images[i].bytes, images[i].len);
        detail::check_whole(images, n);
        if (lg_max_k_ == 0)
            return update_in_turn(images, n);
        std::vector<uint8_t> merged(HLL_IMAGE_ROOM(lg_max_k_, 8));
        size_t size = 0, failed = 0;
        const hll_status status = hll_images_unionv(lg_max_k_, 8, images, n, merged.data(), merged.size(), &size, &failed);
        if (detail::is_refusal(status))
            throw image_error::at(failed, status, images[failed].len);
        detail::check(status);
        update_image(merged.data(), size);
    }

    /// Merges the images of a range, all or none: containers or spans of bytes that are in the range. A view that makes them
    /// doesn't compile.
    template <class Images>
    auto update_images(const Images &images) -> decltype(static_cast<void>(detail::image_in(*std::begin(images))))
    {
        std::vector<hll_bytes> parts;
        for (const auto &image : images)
            parts.push_back(detail::image_in(image));
        update_images(parts.data(), parts.size());
    }
    void update_images(std::initializer_list<std::vector<uint8_t>> images)
    {
        update_images<std::initializer_list<std::vector<uint8_t>>>(images);
    }

    /// Returns the union as a sketch.
    sketch result(hll::width width = hll::width::hll_8) const { return sketch(detail::state::of(state_), width); }

    /// Returns the bound, or 0 if there is none.
    unsigned lg_max_k() const noexcept { return lg_max_k_; }

    void swap(union_ &other) noexcept
    {
        state_.swap(other.state_);
        std::swap(lg_max_k_, other.lg_max_k_);
    }

  private:
    /// Merges images of one lg_k, one by one.
    void update_in_turn(const hll_bytes *images, size_t n)
    {
        union_ copy(*this);
        for (size_t i = 0; i < n; i++) {
            const hll_status status = copy.state_.join(images[i].bytes, images[i].len);
            if (detail::is_refusal(status))
                throw image_error::at(i, status, images[i].len);
            copy.joined(status, detail::head_of(images[i].bytes, images[i].len).lg_k, 0,
                        "images[" + std::to_string(i) + "]: ");
        }
        swap(copy);
    }

    void joined(hll_status status, unsigned other_lg_k, size_t size = 0, const std::string &which = "") const
    {
        if (detail::is_refusal(status))
            throw image_error(status, size);
        if (status == HLL_OTHER_LG_K)
            throw lg_k_error(lg_k(), other_lg_k, which);
        detail::check(status);
    }

    uint8_t lg_max_k_;
};

inline void swap(union_ &a, union_ &b) noexcept
{
    a.swap(b);
}

} // namespace hll

#ifdef __cpp_lib_format
/// Writes what to_string returns, with the options of a string: std::format("{:>120}", sketch).
template <> struct std::formatter<hll::sketch> : std::formatter<std::string> {
    template <class Context> auto format(const hll::sketch &given, Context &context) const
    {
        return std::formatter<std::string>::format(given.to_string(), context);
    }
};
#endif

#endif
