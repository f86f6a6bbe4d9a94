# SPDX-License-Identifier: Apache-2.0
"""The hash of values and their coupons, by docs/FORMAT.md, "The hash", alone."""
import struct

MASK = 2**64 - 1
SEED = 9001


def rotated(x, n):
    return (x << n | x >> (64 - n)) & MASK


def mixed(x):
    x = (x ^ x >> 33) * 0xff51afd7ed558ccd & MASK
    x = (x ^ x >> 33) * 0xc4ceb9fe1a85ec53 & MASK
    return x ^ x >> 33


def hash_of(value, seed=SEED):
    """MurmurHash3, x64, 128 bits: both halves of the hash of bytes."""
    c1, c2 = 0x87c37b91114253d5, 0x4cf5ad432745937f
    h1 = h2 = seed

    def first(k):
        return rotated(k * c1 & MASK, 31) * c2 & MASK

    def second(k):
        return rotated(k * c2 & MASK, 33) * c1 & MASK

    full = len(value) // 16 * 16
    for k1, k2 in struct.iter_unpack("<QQ", value[:full]):
        h1 = ((rotated(h1 ^ first(k1), 27) + h2) * 5 + 0x52dce729) & MASK
        h2 = ((rotated(h2 ^ second(k2), 31) + h1) * 5 + 0x38495ab5) & MASK
    k1, k2 = struct.unpack("<QQ", value[full:].ljust(16, b"\0"))
    h1, h2 = h1 ^ first(k1) ^ len(value), h2 ^ second(k2) ^ len(value)
    h1 = (h1 + h2) & MASK
    h2 = (h2 + h1) & MASK
    h1, h2 = mixed(h1), mixed(h2)
    h1 = (h1 + h2) & MASK
    return h1, (h2 + h1) & MASK


def coupon_of(value):
    """The coupon of bytes, as its raw coupon."""
    low, high = hash_of(value)
    return (min(64 - high.bit_length(), 62) + 1) << 26 | low % 2**26
