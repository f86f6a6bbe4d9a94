// SPDX-License-Identifier: Apache-2.0
// What Node imports: the classes of hll.cjs, so that a program that also requires the package has them once.
import hll from "./hll.cjs";

export const { Sketch, Union, Registers, fault, isSmall, headOf, sizeOf, infoOf, histogramOf, hipOf, agree, couponOf, version, load } = hll;
export const { HllError, MESSAGES, REASONS, Real, TrapError } = hll;
