/* SPDX-License-Identifier: Apache-2.0 */
/* Sizes, alignments and byte order are those of x86-64 on Linux, for which the library was proved. It compiles only if they are. */
#include "../hll.h"

#define HOLDS(name, is) typedef char name##_holds[(is) ? 1 : -1]
#define ALIGNED(name, type, to)      \
    struct name##_after_a_byte {     \
        char byte;                   \
        type after;                  \
    };                               \
    HOLDS(name##_align, offsetof(struct name##_after_a_byte, after) == (to))
#define IS(name, type, bytes, to)              \
    HOLDS(name##_size, sizeof(type) == (bytes)); \
    ALIGNED(name, type, to)
#define AT(type, member, offset) HOLDS(type##_##member, offsetof(type, member) == (offset))

HOLDS(byte_order, __BYTE_ORDER__ == __ORDER_LITTLE_ENDIAN__);
IS(pointer, void *, 8, 8);
IS(function, hll_allocator, 8, 8);
IS(size, size_t, 8, 8);
IS(u64, uint64_t, 8, 8);
IS(u32, uint32_t, 4, 4);
IS(i32, int32_t, 4, 4);
IS(whole, unsigned, 4, 4);
IS(real, double, 8, 8);
IS(status, hll_status, 1, 1);

IS(info, hll_info, 64, 8);
AT(hll_info, zeros, 8);
AT(hll_info, units_high, 16);
AT(hll_info, units_low, 24);
AT(hll_info, hip, 32);
AT(hll_info, kxq0, 40);
AT(hll_info, kxq1, 48);
AT(hll_info, lg_k, 56);
AT(hll_info, width, 57);
AT(hll_info, stage, 58);
AT(hll_info, is_empty, 59);
AT(hll_info, out_of_order, 60);
AT(hll_info, has_hip, 61);

IS(summary, hll_state_summary, 16, 8);
AT(hll_state_summary, lg_k, 8);
AT(hll_state_summary, width, 9);
AT(hll_state_summary, stage, 10);
AT(hll_state_summary, is_empty, 11);
AT(hll_state_summary, is_open, 12);

IS(histogram, hll_histogram, 512, 8);
IS(estimation, hll_estimation, 64, 8);
AT(hll_estimation, relative_standard_error, 8);
AT(hll_estimation, lower, 16);
AT(hll_estimation, upper, 40);
IS(bytes, hll_bytes, 16, 8);
AT(hll_bytes, len, 8);

IS(counter, hll_counter, 120, 8);
AT(hll_counter, context, 8);
AT(hll_counter, room, 16);
AT(hll_counter, lg_max_k, 20);
AT(hll_counter, has_spare_room, 21);
AT(hll_counter, is_reserved, 22);
AT(hll_counter, at, 24);
