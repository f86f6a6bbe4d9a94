/* SPDX-License-Identifier: Apache-2.0 */
/* Splits whole lines, and adds them to a counter of libhll. */
#include "lines.h"
#include <string.h>

uint32_t lines_version(void)
{
    return LINES_VERSION;
}

int lines_is_missing(const lines_rules *rules, const uint8_t *value, size_t size)
{
    size_t begin = 0;
    for (size_t i = 0; i < rules->missing_count; i++) {
        size_t end = rules->missing_ends[i];
        if (end - begin == size && memcmp(rules->missing + begin, value, size) == 0)
            return 1;
        begin = end;
    }
    return 0;
}

hll_status lines_add(lines_call add, hll_counter *counter, const uint8_t *bytes, size_t len, const lines_rules *rules,
                     lines_sums *sums)
{
    const uint8_t *line = bytes, *end = bytes + len, *found;
    memset(sums, 0, sizeof *sums);
    do {
        found = memchr(line, '\n', (size_t)(end - line));
        size_t size = (size_t)((found != NULL ? found : end) - line);
        hll_status status = HLL_OK;
        sums->lines++;
        sums->is_left = size > rules->longest;
        if (sums->is_left)
            return HLL_OK;
        sums->ending_in_cr += size > 0 && line[size - 1] == '\r';
        if (rules->missing_count > 0 && lines_is_missing(rules, line, size))
            sums->missing++;
        else
            status = add(counter, line, size);
        if (status != HLL_OK)
            return status;
        line = found != NULL ? found + 1 : end;
    } while (found != NULL);
    return HLL_OK;
}
