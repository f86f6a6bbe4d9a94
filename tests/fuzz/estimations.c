/* SPDX-License-Identifier: Apache-2.0 */
/* Estimates and bounds by the formulas of docs/NUMBERS.md, "Estimates". */
#include "fuzz.h"

#include <math.h>
#include <stdlib.h>

static int is_near(double found, double wanted)
{
    return found == wanted || fabs(found - wanted) <= 1e-9 * fabs(wanted) + 1e-9;
}

/* Returns the estimate of Ertl's improved raw estimator without the correction for registers of 63, or the number of registers
 * above 0. */
static double estimate_of_registers(const plain *x)
{
    double m = ldexp(1.0, (int)x->lg_k), zeros = 0, sum = 0, sigma = 0, power, e, estimate;
    size_t k = (size_t)1 << x->lg_k, i;
    for (i = 0; i < k; i++) {
        zeros += x->registers[i] == 0;
        sum += x->registers[i] == 0 ? 0.0 : ldexp(1.0, -(int)x->registers[i]);
    }
    if (zeros == m)
        return 0;
    power = zeros / m;
    sigma = power;
    for (i = 0; i < 64; i++) {
        power *= power;
        sigma += power * ldexp(1.0, (int)i);
    }
    e = 0.5 + 0.58 * (1 - zeros / m) * (1 - zeros / m);
    estimate = m * m / (2 * log(2.0) * (m * sigma + sum) * (1 + e / m));
    return estimate < m - zeros ? m - zeros : estimate;
}

/* The number of distinct coupons that so many values have on average. */
static double coupons_of_values(double n)
{
    double term = n, sum = n;
    int j;
    for (j = 2; j <= 6; j++) {
        term *= -(n - (j - 1)) / j / 67108864.0;
        sum += term / (ldexp(1.0, j) - 1);
    }
    return sum;
}

static void check_order(const hll_estimation *found, double least)
{
    int d;
    for (d = 0; d < 3; d++) {
        double inner_lower = d == 0 ? found->estimate : found->lower[d - 1];
        double inner_upper = d == 0 ? found->estimate : found->upper[d - 1];
        CHECK(least <= found->lower[d] && found->lower[d] <= inner_lower, "lower bound %d is %g", d + 1, found->lower[d]);
        CHECK(inner_upper <= found->upper[d], "upper bound %d is %g", d + 1, found->upper[d]);
    }
}

/* By how much bounds move outwards: half of what one more register above 0 adds. */
static double half_step(double m, double seen)
{
    double blur = pow(seen, 5) / pow(m, 4);
    return blur < 3 ? fmin(1, (3 - blur) / 2) * m / (m - seen) / 2 : 0;
}

static void check_bounds(double m, double seen, const hll_estimation *found)
{
    double n = found->estimate, few = 1 / (1 + n / m / 4), limit = (3 * log(2.0) - 1) * (1 + 2 / m);
    double error = sqrt((limit - (limit - 0.5) * (0.19 * few + 1.84 * few * few - 1.03 * pow(few, 3))) / m);
    double root = error / 3 * (1 - 0.74 * (1 - few) / m), skew = 1 / (18 * n) + 0.01 / m, step = half_step(m, seen);
    double middle = 1 + (0.226 + 0.15 * few * few - 0.36 * pow(few, 4)) / m;
    int d;
    CHECK(is_near(found->relative_standard_error, error), "error %g in place of %g", found->relative_standard_error, error);
    for (d = 1; d <= 3; d++) {
        double low = n * pow(middle + (d * d - 1) * fmin(skew, root / 6) - d * root, 3) - step;
        double high = n * pow(middle + (d * d - 1) * skew + d * root, 3) + step;
        CHECK(is_near(found->lower[d - 1], fmax(low, seen)) && is_near(found->upper[d - 1], high),
              "bounds %d are %g and %g", d, found->lower[d - 1], found->upper[d - 1]);
    }
}

static void check_registers(const plain *x, const hll_estimation *found)
{
    double m = ldexp(1.0, (int)x->lg_k), wanted = estimate_of_registers(x), seen = 0;
    size_t k = (size_t)1 << x->lg_k, i, most = 0;
    for (i = 0; i < k; i++) {
        seen += x->registers[i] != 0;
        most += x->registers[i] == 63;
    }
    if (most == k) {
        CHECK(isinf(found->estimate), "%g, of registers that are all 63", found->estimate);
        return;
    }
    CHECK(is_near(found->estimate, wanted), "%.17g in place of %.17g", found->estimate, wanted);
    check_order(found, seen);
    if (seen != 0)
        check_bounds(m, seen, found);
}

void check_estimation(const plain *x, const hll_estimation *found)
{
    if (x->size == 0) {
        check_registers(x, found);
        return;
    }
    CHECK(fabs(coupons_of_values(found->estimate) - (double)x->n) <= 1e-6 * (double)x->n, "%zu coupons are %g values", x->n,
          found->estimate);
    check_order(found, (double)x->n);
}
