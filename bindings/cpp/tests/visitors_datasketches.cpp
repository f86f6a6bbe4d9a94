// SPDX-License-Identifier: Apache-2.0
// Counts the users and addresses of pages in shards, and saves them, in the names of datasketches-cpp. The tests change the line of
// its include as the README says, and no other. visitors.cpp does the same by hll.hpp.
#include <hll.hpp>

#include <cstdio>
#include <map>
#include <sstream>
#include <stdexcept>
#include <string>
#include <thread>
#include <unordered_map>
#include <vector>

using datasketches::hll_sketch;
using datasketches::hll_union;

// The three sketches of a page.
struct Visits {
    hll_sketch users, addresses, seconds;
    Visits() : users(12), addresses(12), seconds(10) {}
};

using Shard = std::unordered_map<std::string, Visits>;
using Pages = std::map<std::string, hll_union>;

// Lines of a log that a shard has, made up: every fifth has no user.
static void fill(Shard &shard, unsigned from, unsigned to)
{
    for (unsigned i = from; i < to; i++) {
        Visits &visits = shard["page" + std::to_string(i % 7)];
        visits.users.update(i % 5 == 0 ? std::string() : "user" + std::to_string(i % 3000));
        visits.addresses.update(0xc0a80000u + i % 9000);
        visits.seconds.update(0.25 * (i % 500));
    }
}

static std::vector<Shard> count()
{
    std::vector<Shard> shards(4);
    std::vector<std::thread> threads;
    for (unsigned i = 0; i < 4; i++)
        threads.emplace_back(fill, std::ref(shards[i]), 4000 * i, 4000 * i + 5000);
    for (std::thread &thread : threads)
        thread.join();
    return shards;
}

// Returns the users and addresses of each page in all shards.
static Pages merged(const std::vector<Shard> &shards)
{
    Pages pages;
    for (const Shard &shard : shards)
        for (const auto &entry : shard) {
            hll_union &all = pages.emplace(entry.first, hll_union(11)).first->second;
            all.update(entry.second.users);
            all.update(hll_sketch(entry.second.addresses));
        }
    return pages;
}

static void print(const std::string &name, const hll_sketch &sketch)
{
    std::printf("%s: %.3f, at most %.3f, %u bytes\n", name.c_str(), sketch.get_estimate(), sketch.get_upper_bound(2),
                static_cast<unsigned>(sketch.get_compact_serialization_bytes()));
}

// Writes the pages one after the other, in the two forms in turn.
static void save(const Pages &pages, std::ostream &out)
{
    bool is_updatable = false;
    for (const auto &page : pages) {
        const hll_sketch sketch = page.second.get_result();
        print(page.first, sketch);
        is_updatable = !is_updatable;
        if (is_updatable)
            sketch.serialize_updatable(out);
        else
            sketch.serialize_compact(out);
    }
}

// Returns the union of the pages that were saved.
static hll_union total(std::istream &in)
{
    hll_union all(12);
    while (in.peek() != std::char_traits<char>::eof())
        all.update(hll_sketch::deserialize(in));
    return all;
}

// Reads a sketch from a frame with a name before its image.
static hll_sketch from_frame(const hll_sketch &sketch)
{
    const std::string name = "METRICS1";
    std::vector<uint8_t> frame = sketch.serialize_compact(8);
    for (size_t i = 0; i < name.size(); i++)
        frame[i] = static_cast<uint8_t>(name[i]);
    std::printf("a frame of %u bytes\n", static_cast<unsigned>(frame.size()));
    return hll_sketch::deserialize(frame.data() + name.size(), frame.size() - name.size());
}

// Reads bytes that were damaged or cut on their way.
static const char *read(std::vector<uint8_t> bytes, size_t size, uint8_t version)
{
    bytes[1] = version;
    try {
        hll_sketch::deserialize(bytes.data(), size);
    } catch (const std::invalid_argument &) {
        return "damaged";
    } catch (const std::out_of_range &) {
        return "damaged";
    }
    return "read";
}

int main()
{
    const std::vector<Shard> shards = count();
    std::stringstream file;
    file.exceptions(std::ios::failbit | std::ios::badbit);
    save(merged(shards), file);
    hll_union all = total(file);
    all.update("a user who came later");
    print("pages", all.get_result());
    print("in 8 bits", hll_sketch(all.get_result(), datasketches::HLL_8));
    std::printf("at an lg_k of %d\n", all.get_lg_config_k());

    hll_sketch seconds = from_frame(shards[0].at("page1").seconds);
    print("seconds", seconds);
    const std::vector<uint8_t> bytes = seconds.serialize_compact();
    std::printf("%s, %s, %s\n", read(bytes, bytes.size(), 1), read(bytes, bytes.size(), 2), read(bytes, 7, 1));
    seconds.reset();
    std::printf("%d\n", seconds.is_empty());
    seconds.update(uint64_t(7));
    seconds.update(int16_t(-7));
    seconds.update("text", 4);
    print("seconds", seconds);
    return 0;
}
