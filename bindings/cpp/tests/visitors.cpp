// SPDX-License-Identifier: Apache-2.0
// Counts the users and addresses of pages in shards, and saves them: what visitors_datasketches.cpp does.
#include <hll/hll.hpp>

#include <cstdio>
#include <map>
#include <sstream>
#include <string>
#include <thread>
#include <unordered_map>
#include <vector>

using hll::sketch;
using hll::union_;
using hll::width;

// The three sketches of a page.
struct Visits {
    sketch users, addresses, seconds;
    Visits() : users(12, width::hll_4), addresses(12, width::hll_4), seconds(10, width::hll_4) {}
};

using Shard = std::unordered_map<std::string, Visits>;
using Pages = std::map<std::string, union_>;

// Lines of a log that a shard has, made up: every fifth has no user.
static void fill(Shard &shard, unsigned from, unsigned to)
{
    for (unsigned i = from; i < to; i++) {
        Visits &visits = shard["page" + std::to_string(i % 7)];
        if (i % 5 != 0)
            visits.users.update("user" + std::to_string(i % 3000));
        visits.addresses.update(static_cast<int32_t>(0xc0a80000u + i % 9000));
        visits.seconds.update(0.25 * (i % 500));
    }
}

static std::vector<Shard> count()
{
    std::vector<Shard> shards(4);
    std::vector<std::thread> threads;
    for (unsigned i = 0; i < 4; i++)
        threads.emplace_back(fill, std::ref(shards[i]), 4000 * i, 4000 * i + 5000);
    for (std::thread &thread : threads)
        thread.join();
    return shards;
}

// Returns the users and addresses of each page in all shards.
static Pages merged(const std::vector<Shard> &shards)
{
    Pages pages;
    for (const Shard &shard : shards)
        for (const auto &entry : shard) {
            union_ &all = pages.emplace(entry.first, union_(11)).first->second;
            all.update(entry.second.users);
            all.update(entry.second.addresses);
        }
    return pages;
}

static void print(const std::string &name, const sketch &counted)
{
    const auto found = counted.estimation();
    std::printf("%s: %.3f, at most %.3f, %u bytes\n", name.c_str(), found.estimate, found.upper[1],
                static_cast<unsigned>(counted.serialized_size()));
}

// Writes the pages one after the other.
static void save(const Pages &pages, std::ostream &out)
{
    for (const auto &page : pages) {
        const sketch counted = page.second.result(width::hll_4);
        print(page.first, counted);
        counted.serialize(out);
    }
}

// Returns the union of the pages that were saved.
static union_ total(std::istream &in)
{
    union_ all(12);
    while (in.peek() != std::char_traits<char>::eof())
        all.update(sketch::deserialize(in));
    return all;
}

// Reads a sketch from a frame with a name before its image.
static sketch from_frame(const sketch &counted)
{
    const std::string name = "METRICS1";
    std::vector<uint8_t> frame = counted.serialize_after(8);
    for (size_t i = 0; i < name.size(); i++)
        frame[i] = static_cast<uint8_t>(name[i]);
    std::printf("a frame of %u bytes\n", static_cast<unsigned>(frame.size()));
    return sketch::deserialize(frame.data() + name.size(), frame.size() - name.size());
}

// Reads bytes that were damaged or cut on their way.
static const char *read(std::vector<uint8_t> bytes, size_t size, uint8_t version)
{
    bytes[1] = version;
    try {
        sketch::deserialize(bytes.data(), size);
    } catch (const hll::image_error &) {
        return "damaged";
    }
    return "read";
}

int main()
{
    const std::vector<Shard> shards = count();
    std::stringstream file;
    file.exceptions(std::ios::failbit | std::ios::badbit);
    save(merged(shards), file);
    union_ all = total(file);
    all.update("a user who came later");
    print("pages", all.result(width::hll_4));
    print("in 8 bits", all.result(width::hll_8));
    std::printf("at an lg_k of %d\n", static_cast<int>(all.lg_k()));

    sketch seconds = from_frame(shards[0].at("page1").seconds);
    print("seconds", seconds);
    const std::vector<uint8_t> bytes = seconds.serialize();
    std::printf("%s, %s, %s\n", read(bytes, bytes.size(), 1), read(bytes, bytes.size(), 2), read(bytes, 7, 1));
    seconds.reset();
    std::printf("%d\n", seconds.is_empty());
    seconds.update(uint64_t(7));
    seconds.update(int16_t(-7));
    seconds.update("text", 4);
    print("seconds", seconds);
    return 0;
}
