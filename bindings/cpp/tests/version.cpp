// SPDX-License-Identifier: Apache-2.0
// A library of another version is noticed when a sketch is made. This file gives hll_version another name, and defines it.
#define hll_version other_version
#include "test.hpp"

extern "C" uint32_t other_version(void)
{
    return 1003000;
}

int main()
{
    const char *message = "compiled with the hll.h of version 0.2, and runs with libhll 1.3: compile it again";
    CHECK(throws<std::logic_error>([] { hll::sketch(); }, message));
    CHECK(throws<std::logic_error>([] { hll::union_(12); }, message));
    return counts();
}
