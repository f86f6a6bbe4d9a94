// SPDX-License-Identifier: Apache-2.0
// What a program imports that has hll.wasm in its own way: `load` alone, which loads nothing before it is called.
export { HllError, MESSAGES, REASONS, Real, TrapError, load } from "./core.mjs";
