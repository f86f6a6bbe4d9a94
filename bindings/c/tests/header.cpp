// SPDX-License-Identifier: Apache-2.0
// The header as C++, and a call of the library from it.
#include "../hll.h"

#include <cstdio>
#include <vector>

int main()
{
    std::vector<uint8_t> out(HLL_IMAGE_MAX(10));
    size_t size = 0;
    hll_status status = hll_image_new(10, 8, out.data(), out.size(), &size);
    bool passed = status == HLL_OK && size == 8 && hll_reason(status)[0] == 'o';
    std::printf("a call from C++: %d passed, %d failed\n", passed ? 1 : 0, passed ? 0 : 1);
    return passed ? 0 : 1;
}
