// SPDX-License-Identifier: Apache-2.0
// Counts the distinct lines of files, of each file and of all together. The sketch of a file is kept as NAME.hll, and
// is read the next time in place of the file.
//     c++ -o example example.cpp $(pkg-config --cflags --libs hll)
//     ./example FILE..
#include <hll.hpp>

#include <fstream>
#include <iomanip>
#include <iostream>
#include <iterator>

using bytes = std::vector<uint8_t>;

// The sketch in a file that was kept.
static hll::sketch read_sketch(std::ifstream &file, const std::string &name)
{
    const bytes image((std::istreambuf_iterator<char>(file)), std::istreambuf_iterator<char>());
    if (!hll::is_small(image.data(), image.size())) // others could have put a slow image there
        throw std::runtime_error(name + ": it is empty, or larger than sketches of lg_k 12 are");
    try {
        return hll::sketch::deserialize(image);
    } catch (const hll::image_error &error) {
        throw std::runtime_error(name + ": " + error.what());
    }
}

static hll::sketch sketch_of(const std::string &name)
{
    const std::string kept = name + ".hll";
    std::ifstream stored(kept, std::ios::binary);
    if (stored)
        return read_sketch(stored, kept);
    std::ifstream file(name);
    if (!file)
        throw std::runtime_error(name + ": it can't be read");
    hll::sketch sketch;
    for (std::string line; std::getline(file, line);)
        sketch.update(line);
    const bytes image = sketch.serialize();
    std::ofstream out(kept, std::ios::binary);
    if (!out.write(reinterpret_cast<const char *>(image.data()), static_cast<std::streamsize>(image.size())).flush())
        throw std::runtime_error(kept + ": it can't be written");
    return sketch;
}

static void print(const std::string &name, const hll_estimation &found)
{
    std::cout << std::fixed << std::setprecision(0) << std::setw(10) << found.estimate << "  (" << found.lower[1]
              << " to " << found.upper[1] << ")  " << name << '\n';
}

int main(int argc, char **argv)
{
    hll::union_ all(12);
    int failed = 0;
    for (int i = 1; i < argc; i++) {
        try {
            hll::sketch sketch = sketch_of(argv[i]);
            print(argv[i], sketch.estimation());
            all.update(std::move(sketch));
        } catch (const std::exception &error) {
            std::cerr << error.what() << '\n';
            failed = 1;
        }
    }
    print("all", all.estimation());
    return failed;
}
