/* SPDX-License-Identifier: Apache-2.0 */
/*
 * Bounds of estimates, estimates from coupons, and the version. This is plain C, not proved. docs/NUMBERS.md says where the
 * formulas come from, and how accurate they are. The estimate from registers comes from a proved call.
 */
#include "hll_state.h"

/* Where a processor can multiply and add with one rounding, compilers use that, and bounds would have other bits than elsewhere. */
#if defined(__clang__)
#pragma STDC FP_CONTRACT OFF
#elif defined(__GNUC__)
#pragma GCC optimize("fp-contract=off")
#endif

/* What a proved call returns. */
struct estimate {
    uint64_t bits;      /* for registers, the estimate as the bits of a double; for coupons 0 */
    uint64_t registers; /* the number of registers; for coupons 0 */
    uint64_t seen;      /* the number of registers above 0, or the number of coupons */
};

/* Declares the proved calls that are wrapped, which have the prefix proved_ here. */
#define CALL(type, name, parameters, arguments)
#define WRAPPED(type, name, parameters, arguments) type proved_##name parameters;
#include "proved_calls.h"

/* The relative variance of one register: 3 ln 2 - 1. */
#define REGISTER_VARIANCE 1.07944154167983593

/* Divided by the square root of the number of registers, this is the relative standard error of a HIP estimate: the square
 * root of ln 2. */
#define HIP_ERROR 0.83255461115769776

/* The exponent of 1.0 in the bits of a double, where the exponent has the bits from 52 on. */
#define EXPONENT_OF_1 ((uint64_t)1023)

/* The number of slots: each of 2^26 slots has the same probability. */
#define SLOTS 67108864.0

/* A double and its bits. */
union word {
    uint64_t bits;
    double number;
};

/* Returns a number that is at least the square root of x and at most 1.0607 of it: its bits are half of those of x, so its
 * exponent is half of that of x. */
static double near_square_root(double x)
{
    union word word;
    word.number = x;
    word.bits = word.bits / 2 + (EXPONENT_OF_1 << 51);
    return word.number;
}

/* Returns the square root of a number from 0 to 1, by Newton's method from above. */
static double square_root(double x)
{
    double root, before;
    if (x <= 0.0)
        return 0.0;
    root = near_square_root(x);
    do {
        before = root;
        root = 0.5 * (root + x / root);
    } while (root < before);
    return before;
}

/* ---- from registers ---- */

/* Returns a number from 1, for few values, to 0, for many. What is fitted to measurements below depends on it. */
static double fewness(double estimate, double registers)
{
    return 1.0 / (1.0 + estimate / registers / 4.0);
}

/* Returns the relative standard error of an estimate from n registers: sqrt(0.5 / n) for few values, 1.04 / sqrt(n) for
 * many, and a little more if registers are few. Between, it is fitted to measurements. */
static double error_of_registers(double few, double registers)
{
    double limit = REGISTER_VARIANCE * (1.0 + 2.0 / registers);
    double part = few * (0.19 + few * (1.84 - 1.03 * few));
    return square_root((limit - (limit - 0.5) * part) / registers);
}

/* ---- from coupons ---- */

/* Returns the expected number of distinct coupons of n values. Coupons of value v have probability 2^-v at each slot, so j
 * values share a coupon with probability 1 / ((2^j - 1) * SLOTS^(j - 1)). */
static double expected_coupons(double values)
{
    double sum = values, term = values, power = 2.0;
    int j;
    for (j = 2; j <= 8; j++) {
        power += power;
        term *= -(values - (double)(j - 1)) / (double)j / SLOTS;
        sum += term / (power - 1.0);
    }
    return sum;
}

/* The most steps to an estimate of coupons. Numbers of coupons up to 300,000 take six. */
#define STEPS 16

/* Returns the number of values that are expected to have n coupons. A step adds the coupons that are missing, until that
 * changes nothing. */
static double estimate_of_coupons(double coupons)
{
    double values = coupons, before;
    int step = 0;
    do {
        before = values;
        values += coupons - expected_coupons(values);
    } while (values != before && ++step < STEPS);
    return values;
}

/* Returns its relative standard error: the number of lost values is the number of pairs that share a coupon, whose standard
 * deviation is its square root. */
static double error_of_coupons(double values)
{
    return values > 1.0 ? square_root((values - 1.0) / values / 6.0 / SLOTS) : 0.0;
}

/* If more values than this share a coupon with another value, their number is treated as normally distributed. No list or
 * set has that many coupons. */
#define MANY_LOST 300.0

/* Returns the relative standard error of an estimate if many values are lost: the standard deviation of their number is at
 * most its square root, and one more coupon stands for more than one value. */
static double error_of_many_coupons(double values)
{
    double coupons = expected_coupons(values);
    return square_root((values - coupons) / values / values) / (expected_coupons(values + 1.0) - coupons);
}

/* ---- bounds ---- */

#define DEVIATIONS 3

static double at_least(double least, double x)
{
    return x < least ? least : x;
}

/* The probability that a normally distributed number is more than 1, 2 or 3 standard deviations above its mean. */
static const double tails[DEVIATIONS] = {0.15865525393145705, 0.022750131948179207, 0.0013498980316300945};

/* Returns an estimate with its bounds. At least `least` values were certainly counted. The bounds are the numbers that the
 * estimate is 1, 2 or 3 standard deviations above and below. */
static hll_estimation with_bounds(double estimate, double error, double least)
{
    hll_estimation found;
    int d;
    found.estimate = at_least(least, estimate);
    found.relative_standard_error = error;
    for (d = 1; d <= DEVIATIONS; d++) {
        found.lower[d - 1] = at_least(least, found.estimate / (1.0 + d * error));
        found.upper[d - 1] = found.estimate / (1.0 - d * error);
    }
    return found;
}

/* Where most registers are 0, an estimate depends on little but how many are 0, so it goes in steps: one more register above 0 adds
 * registers / zeros. Returns half a step, by which bounds move outwards. The values of the registers above 0 blur the steps, and the
 * result falls to 0 while they scatter the estimate by 0.24 to 0.42 of a step. */
static double half_step(double registers, double seen)
{
    double share = seen / registers, blur = seen * share * share * share * share;
    double part = blur < 1.0 ? 1.0 : 1.5 - 0.5 * blur;
    return blur < 3.0 ? part * registers / (registers - seen) / 2.0 : 0.0;
}

/* Sets the bounds of an estimate from registers, of which `seen` are above 0. The cube root of the number of values divided by the
 * estimate is nearly normally distributed: for many values the inverse of the estimate nearly has a Gamma distribution, to which
 * Wilson and Hilferty's formula applies. `skew` is what remains. It is most for few values, where the number of values that share a
 * register with others nearly has a Poisson distribution. The constants are fitted to measurements. */
static void bound_by_registers(hll_estimation *found, double few, double registers, double seen)
{
    double root = found->relative_standard_error / 3.0 * (1.0 - 0.74 * (1.0 - few) / registers);
    double middle = 1.0 + (0.226 + few * few * (0.15 - 0.36 * few * few)) / registers;
    double skew = 1.0 / 18.0 / found->estimate + 0.01 / registers;
    double less = skew < root / 6.0 ? skew : root / 6.0; /* so that lower bounds are lower at more deviations */
    double outwards = half_step(registers, seen);
    int d;
    for (d = 1; d <= DEVIATIONS; d++) {
        double low = middle + (d * d - 1) * less - d * root, high = middle + (d * d - 1) * skew + d * root;
        found->lower[d - 1] = at_least(seen, found->estimate * low * low * low - outwards);
        found->upper[d - 1] = found->estimate * high * high * high + outwards;
    }
}

/* The probability that a number is at most, and at least, a given number. */
struct shares {
    double at_most, at_least;
};

/* Returns that of the Poisson distribution, in which the number i has a probability in proportion to mean^i / i!. */
static struct shares shares_of_poisson(double mean, int many)
{
    struct shares found = {0.0, 0.0};
    double term = 1.0, sum = 0.0;
    int i;
    for (i = 0; i <= many || sum + term != sum; i++) {
        sum += term;
        if (i <= many)
            found.at_most += term;
        if (i >= many)
            found.at_least += term;
        term *= mean / (double)(i + 1);
    }
    found.at_most /= sum;
    found.at_least /= sum;
    return found;
}

/* Sets the bounds of an estimate from coupons. Values are lost if they share a coupon. Such pairs are rare, so the number of
 * lost values has a Poisson distribution. A number of values is below the bounds if it would lose that few with a smaller
 * probability than the tail, and above them if it would lose that many with a smaller probability. */
static void bound_by_losses(hll_estimation *found, double coupons)
{
    struct shares shares;
    int lost = 0, d;
    for (d = 0; d < DEVIATIONS; d++)
        found->lower[d] = coupons;
    do {
        double values = coupons + lost;
        shares = shares_of_poisson(values - expected_coupons(values), lost);
        for (d = 0; d < DEVIATIONS; d++) {
            if (shares.at_most < tails[d])
                found->lower[d] = values + 1.0;
            if (shares.at_least >= tails[d])
                found->upper[d] = values < found->estimate ? found->estimate : values;
        }
        lost++;
    } while (shares.at_least >= tails[DEVIATIONS - 1]);
}

/* Returns the double that has these bits. */
static double number_of_bits(uint64_t bits)
{
    union word word;
    word.bits = bits;
    return word.number;
}

/* Returns the estimation of registers, from the result of a proved call. */
static hll_estimation estimation_of_registers(const struct estimate *found)
{
    double registers = (double)found->registers, seen = (double)found->seen, few;
    hll_estimation estimation = {0.0, 0.0, {0.0, 0.0, 0.0}, {0.0, 0.0, 0.0}};
    if (found->seen == 0)
        return estimation;
    estimation.estimate = at_least(seen, number_of_bits(found->bits));
    few = fewness(estimation.estimate, registers);
    estimation.relative_standard_error = error_of_registers(few, registers);
    bound_by_registers(&estimation, few, registers, seen);
    return estimation;
}

/* Returns the estimation of a list or a set of n coupons. */
static hll_estimation estimation_of_coupons(uint64_t coupons)
{
    double estimate = estimate_of_coupons((double)coupons);
    hll_estimation found;
    if (estimate - (double)coupons > MANY_LOST)
        return with_bounds(estimate, error_of_many_coupons(estimate), (double)coupons);
    found = with_bounds(estimate, error_of_coupons(estimate), (double)coupons);
    bound_by_losses(&found, (double)coupons);
    return found;
}

/* Sets the estimation of registers or coupons, if a call found one. */
static hll_status put_estimation(hll_status status, const struct estimate *found, hll_estimation *estimation)
{
    if (status == HLL_OK)
        *estimation = found->registers ? estimation_of_registers(found) : estimation_of_coupons(found->seen);
    return status;
}

hll_status hll_estimate(const uint8_t *image, size_t len, hll_estimation *estimation)
{
    struct estimate found;
    return put_estimation(proved_hll_estimate(image, len, &found), &found, estimation);
}

hll_status hll_state_estimate(void *state, size_t room, hll_estimation *estimation)
{
    struct estimate found;
    return put_estimation(proved_hll_state_estimate(state, room / 4, &found), &found, estimation);
}

hll_status hll_state_settled_estimate(const void *state, size_t room, hll_estimation *estimation)
{
    struct estimate found;
    return put_estimation(proved_hll_state_settled_estimate(state, room / 4, &found), &found, estimation);
}

hll_status hll_registers_estimate(const uint8_t *registers, size_t count, hll_estimation *estimation)
{
    struct estimate found;
    hll_status status = proved_hll_registers_estimate(registers, count, &found);
    if (status == HLL_OK)
        *estimation = estimation_of_registers(&found);
    return status;
}

hll_status hll_histogram_estimate(const hll_histogram *histogram, hll_estimation *estimation)
{
    struct estimate found;
    hll_status status = proved_hll_histogram_estimate(histogram, &found);
    if (status == HLL_OK)
        *estimation = estimation_of_registers(&found);
    return status;
}

hll_status hll_hip_estimate(const uint8_t *image, size_t len, hll_estimation *estimation)
{
    hll_info info;
    double registers;
    hll_status status = hll_image_info(image, len, &info, sizeof info);
    if (status != HLL_OK)
        return status;
    if (!info.has_hip)
        return HLL_ARGUMENT;
    registers = (double)((uint32_t)1 << info.lg_k);
    *estimation = with_bounds(number_of_bits(info.hip), HIP_ERROR * square_root(1.0 / registers), registers - (double)info.zeros);
    return HLL_OK;
}

uint32_t hll_version(void)
{
    return HLL_VERSION_NUMBER;
}
