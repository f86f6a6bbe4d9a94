// SPDX-License-Identifier: Apache-2.0
// Answers the cases of tests/behaviour, which cases.py writes to standard input and whose answers it compares.
#include "test.hpp"

#include "../datasketches.hpp"

#include <functional>
#include <iostream>
#include <iterator>
#include <set>
#include <sstream>

using hll::sketch;
using hll::union_;

// What each of several ways in makes, as digits, or why it makes nothing: all results, if they differ. Of one image the reason is enough.
static std::string made_by(const std::vector<std::function<image_bytes()>> &ways, bool is_image = false)
{
    std::set<std::string> found;
    for (const auto &way : ways)
        try {
            std::string digits;
            for (const uint8_t byte : way())
                (digits += "0123456789abcdef"[byte >> 4]) += "0123456789abcdef"[byte & 15];
            found.insert(digits);
        } catch (const hll::image_error &error) {
            found.insert(std::string("rejected: ") + (is_image ? error.reason() : error.what()));
        } catch (const std::exception &error) {
            found.insert(std::string("rejected: ") + error.what());
        }
    std::string all;
    for (const std::string &one : found)
        all += (all.empty() ? "" : " or ") + one;
    return all;
}

template <class Value> static image_bytes image_with(const Value &value)
{
    sketch one(12);
    one.update(value);
    return one.serialize();
}

// The coupon that a sketch keeps of a value, by each type that has the value.
template <class... Value> static std::string kept(const Value &...value)
{
    const std::string image = made_by({[&] { return image_with(value); }...});
    return image.size() == 24 ? image.substr(22, 2) + image.substr(20, 2) + image.substr(18, 2) + image.substr(16, 2)
                              : image;
}

static std::string of_integer(const std::string &digits)
{
    const uint64_t bits = digits[0] == '-' ? uint64_t(std::stoll(digits)) : std::stoull(digits);
    const int64_t number = int64_t(bits);
    if (number == int8_t(number))
        return kept(number, int8_t(number), int16_t(number), int32_t(number));
    if (number == uint8_t(number))
        return kept(bits, number, uint8_t(number), uint16_t(number), uint32_t(number));
    return number == int32_t(number) ? kept(number, int32_t(number)) : digits[0] == '-' ? kept(number) : kept(bits);
}

static image_bytes merged(unsigned lg_max_k, unsigned width, const std::vector<image_bytes> &images)
{
    union_ all = lg_max_k == 0 ? union_() : union_(lg_max_k);
    all.update_images(images);
    return width == 0 ? all.result().serialize() : all.result(hll::width_of(width)).serialize();
}

static std::string of_image(const std::string &text, bool is_whole)
{
    const image_bytes image(text.begin(), text.end());
    const hll_head head = hll::detail::head_of(image.data(), image.size());
    if (is_whole)
        return made_by(
            {[&] { return sketch::deserialize(image).serialize(); },
             [&] { return datasketches::hll_sketch::deserialize_exact(text.data(), text.size()).serialize_compact(); },
#ifdef __cpp_lib_span
             [&] { return sketch::deserialize(std::span<const uint8_t>(image)).serialize(); },
#endif
             [&] { return merged(0, head.width, {image}); }, [&] { return merged(head.lg_k, head.width, {image}); }},
            true);
    return made_by({[&] { return sketch::deserialize_first(image.data(), image.size()).serialize(); },
                    [&] { return datasketches::hll_sketch::deserialize(text.data(), text.size()).serialize_compact(); },
                    [&] {
                        std::istringstream in(text);
                        return sketch::deserialize(in).serialize();
                    }},
                   true);
}

static std::string bytes_of(const std::string &digits)
{
    std::string bytes;
    for (size_t at = 0; at < digits.size(); at += 2)
        bytes += char(std::stoi(digits.substr(at, 2), nullptr, 16));
    return bytes;
}

static std::string answer(const std::string &call, const std::string &given, const std::vector<std::string> &fields)
{
    if (call == "text" || call == "bytes") {
        const std::string text = bytes_of(given);
#if __cplusplus >= 201703L
        const std::string_view view(text);
#else
        const std::string &view = text;
#endif
        return text.find('\0') == std::string::npos ? kept(text, view, text.c_str()) : kept(text, view);
    }
    if (call == "integer")
        return of_integer(given);
    if (call == "real" || call == "single") {
        const double number = std::strtod(given.c_str(), nullptr); // (std::stod rejects 5e-324)
        const float narrow = std::strtof(given.c_str(), nullptr);
        return call == "single" ? kept(narrow) : double(narrow) == number ? kept(number, narrow) : kept(number);
    }
    if (call == "boolean" || call == "character")
        return call == "boolean" ? kept(given == "true") : kept(given[0]);
    if (call == "whole" || call == "first")
        return of_image(bytes_of(given), call == "whole");
    std::vector<image_bytes> images;
    std::vector<uint32_t> coupons;
    for (size_t i = call == "union" ? 2 : 0; i < fields.size(); i++) {
        const std::string bytes = call == "union" ? bytes_of(fields[i]) : "";
        images.emplace_back(bytes.begin(), bytes.end());
        coupons.push_back(uint32_t(std::strtoul(fields[i].c_str(), nullptr, 16)));
    }
    const auto number = [&](size_t i) { return unsigned(std::stoul(fields[i])); };
    if (call == "union")
        return made_by({[&] { return merged(number(0), number(1), images); }});
    if (call == "many") // a null pointer is a text that is missing
        return made_by({[&] {
            std::vector<const char *> texts;
            for (const std::string &field : fields)
                texts.push_back(field == "null" ? nullptr : field.c_str());
            sketch one(12);
            one.update_many(texts);
            return one.serialize();
        }});
    if (call == "new")
        return made_by({[&] { return sketch(number(0), hll::width_of(number(1))).serialize(); }});
    return call != "coupons" ? "the call is not known" : made_by({[&] {
        sketch one(12);
        one.update_coupons(coupons.data(), coupons.size());
        return one.serialize();
    }});
}

int main()
{
    for (std::string line; std::getline(std::cin, line);) {
        const size_t tab = line.find('\t');
        std::istringstream words(line.substr(tab + 1));
        std::vector<std::string> fields{std::istream_iterator<std::string>(words), std::istream_iterator<std::string>()};
        std::cout << answer(line.substr(0, tab), line.substr(tab + 1), fields) << "\n";
    }
    return 0;
}
