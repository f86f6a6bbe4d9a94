#!/usr/bin/env python3
# SPDX-License-Identifier: Apache-2.0
"""Prints expected.h: estimates of histograms and of numbers of coupons, by the formulas of docs/NUMBERS.md in
decimal numbers of 60 digits. With --check it compares them with the file."""
import pathlib
import sys
from decimal import Decimal, getcontext
from math import factorial

getcontext().prec = 60
FILE = pathlib.Path(__file__).resolve().parent / "expected.h"
LN2, ONE, HALF = Decimal(2).ln(), Decimal(1), Decimal("0.5")
SLOTS = Decimal(2) ** 26
TINY = Decimal(10) ** -58
PI = Decimal("3.14159265358979323846264338327950288419716939937510582097494")

# Histograms by lg_k: how many registers have which value. Each formula has rows in which its part is not small.
HISTOGRAMS = [
    (4, {0: 16}),
    (4, {0: 15, 1: 1}),
    (4, {0: 8, 1: 4, 2: 3, 5: 1}),
    (4, {0: 5, 1: 6, 2: 3, 4: 2}),
    (4, {0: 1, 1: 10, 3: 5}),
    (4, {1: 16}),
    (4, {3: 6, 4: 6, 7: 4}),
    (4, {40: 8, 41: 8}),
    (4, {61: 9, 62: 7}),
    (4, {62: 8, 63: 8}),
    (4, {62: 1, 63: 15}),
    (4, {0: 1, 63: 15}),
    (4, {63: 16}),
    (8, {0: 200, 1: 30, 2: 20, 4: 6}),
    (8, {2: 100, 3: 100, 5: 50, 9: 6}),
    (12, {0: 4095, 1: 1}),
    (12, {0: 4000, 1: 50, 2: 40, 20: 6}),
    (12, {0: 600, 1: 1200, 2: 1000, 3: 700, 4: 400, 9: 196}),
    (12, {5: 1000, 6: 1500, 7: 1000, 8: 500, 20: 96}),
]

# Numbers of coupons by lg_k. Each bound has the two between which it takes its first step: the upper ones of 3, 2 and 1
# deviations from 738, 3,044 and 8,340 coupons on, the lower ones of 1, 2 and 3 from 27,228, 39,032 and 51,585 on.
STEPS = [738, 3044, 8340, 27228, 39032, 51585]
COUPONS = [(12, count) for count in (0, 1, 2, 3, 8, 20)] + [(14, 1500)]
COUPONS += [(21, count - before) for count in STEPS for before in (1, 0)]
COUPONS += [(21, count) for count in (8200, 98304, 150000, 196608, 262143)]


# ---- the formulas


def series(term):
    """The sum of term(1), term(2), .. down to the last digit; None where it has no end."""
    total = Decimal(0)
    for i in range(1, 2000):
        more = term(i)
        total += more
        if abs(more) <= abs(total) * TINY:
            return total
    return None


def sigma(x):
    return x + (series(lambda i: x ** (2**i) * 2 ** (i - 1)) if x else 0)


def estimate_of(counts, m):
    """That of Ertl, divided by 1 + e / m; None where it is infinite."""
    z = sum(Decimal(count) / Decimal(2) ** value for value, count in counts.items() if value > 0)
    z += m * sigma(counts.get(0, 0) / m)
    e = HALF + Decimal("0.58") * (1 - counts.get(0, 0) / m) ** 2
    return m * m / (2 * LN2 * z * (1 + e / m)) if counts.get(63) != m else None


def few_of(n, m):
    return 1 / (1 + n / m / 4) if n is not None else Decimal(0)


def error_of(n, m):
    limit = (3 * LN2 - 1) * (1 + 2 / m)
    few = few_of(n, m)
    part = few * (Decimal("0.19") + few * (Decimal("1.84") - Decimal("1.03") * few))
    return ((limit - (limit - HALF) * part) / m).sqrt()


def expected_coupons(n):
    total, term = n, n
    for j in range(2, 12):
        term *= -(n - j + 1) / j / SLOTS
        total += term / (2**j - 1)
    return total


def values_of(coupons):
    """The n of which so many coupons are expected."""
    low, high = Decimal(coupons), Decimal(coupons) * 2
    for _ in range(190):
        middle = (low + high) / 2
        low, high = (middle, high) if expected_coupons(middle) < coupons else (low, middle)
    return low if coupons else Decimal(0)


# ---- the rows


def half_step(seen, m):
    """By how much bounds move outwards."""
    blur = seen**5 / m**4
    return min(ONE, (3 - blur) / 2) * m / (m - seen) / 2 if blur < 3 else Decimal(0)


def bounds_of(n, seen, m):
    """The lower bounds at 1, 2 and 3 deviations, and the upper ones."""
    few = few_of(n, m)
    root = error_of(n, m) / 3 * (1 - Decimal("0.74") * (1 - few) / m)
    middle = 1 + (Decimal("0.226") + few**2 * (Decimal("0.15") - Decimal("0.36") * few**2)) / m
    skew = 1 / (18 * n) + Decimal("0.01") / m
    step = half_step(seen, m)
    low = [middle + (d * d - 1) * min(skew, root / 6) - d * root for d in (1, 2, 3)]
    high = [middle + (d * d - 1) * skew + d * root for d in (1, 2, 3)]
    return [max(n * x**3 - step, seen) for x in low] + [n * x**3 + step for x in high]


def of_histogram(lg_k, counts):
    m = Decimal(2) ** lg_k
    seen = m - counts.get(0, 0)
    assert sum(counts.values()) == m
    if not seen:
        return 8 * [Decimal(0)]
    n = estimate_of(counts, m)
    if n is None:
        return [None, error_of(n, m), *6 * [None]]
    n = max(n, seen)
    return [n, error_of(n, m), *bounds_of(n, seen, m)]


def share_of_more(deviations):
    """How often what is normally distributed is so many deviations above its mean, or more: erfc(d / sqrt(2)) / 2."""
    x = deviations / Decimal(2).sqrt()
    odd = series(lambda i: (-1) ** (i + 1) * x ** (2 * i - 1) / (2 * i - 1) / factorial(i - 1))
    return HALF - odd / PI.sqrt()


def losses_up_to(n, lost):
    """How often n values lose so many at most, by Poisson's distribution."""
    mean = n - expected_coupons(n)
    return (-mean).exp() * (1 + sum(mean**i / factorial(i) for i in range(1, lost + 1)))


def first(is_so):
    """The least number that is so; all above it are, too."""
    low, high = -1, 1024
    while high - low > 1:
        middle = (low + high) // 2
        low, high = (low, middle) if is_so(middle) else (middle, high)
    return high


def of_coupons(count):
    n = values_of(count)
    error = ((n - 1) / n / 6 / SLOTS).sqrt() if n > 1 else Decimal(0)
    tails = [share_of_more(d) for d in (1, 2, 3)]
    lower = [count + first(lambda lost: losses_up_to(Decimal(count + lost), lost) >= tail) for tail in tails]
    above = [count + first(lambda lost: 1 - losses_up_to(Decimal(count + lost), lost - 1) < tail) for tail in tails]
    return [n, error, *lower, *(max(n, Decimal(values - 1)) for values in above)]


def number(x):
    return "HUGE_VAL" if x is None else repr(float(x))


def row(front, numbers):
    first, second, *bounds = map(number, numbers)
    lines = [f"    {{{front},", f"     {{{first}, {second},"]
    lines.append(f"      {{{', '.join(bounds[:3])}}},")
    lines.append(f"      {{{', '.join(bounds[3:])}}}}}}},")
    return "\n".join(lines)


def text():
    lines = ["/* SPDX-License-Identifier: Apache-2.0 */", "/* Printed by expected.py. */", "/* clang-format off */", ""]
    lines.append("static const struct histogram_row histogram_rows[] = {")
    for lg_k, counts in HISTOGRAMS:
        runs = ", ".join(f"{{{value}, {count}}}" for value, count in counts.items())
        lines.append(row(f"{lg_k}, {{{runs}}}", of_histogram(lg_k, counts)))
    lines += ["};", "", "static const struct coupons_row coupons_rows[] = {"]
    lines += [row(f"{lg_k}, {count}", of_coupons(count)) for lg_k, count in COUPONS]
    return "\n".join([*lines, "};", ""])


def main():
    if "--check" not in sys.argv:
        print(text(), end="")
        return 0
    is_same = FILE.read_text() == text()
    print("expected.h is", "right" if is_same else "not what expected.py prints")
    return not is_same


if __name__ == "__main__":
    sys.exit(main())
