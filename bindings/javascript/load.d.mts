// SPDX-License-Identifier: Apache-2.0
import type { Module, Source } from "./hll.mjs";

export { HllError, MESSAGES, REASONS, Real, TrapError } from "./hll.mjs";
export type { Bytes, Estimation, Head, Info, Module, Reason, Registers, Sketch, Source, Stage, Union, Value, Width } from "./hll.mjs";

/**
 * Returns the classes and functions over a new instance, with a memory of its own. Throws TypeError for what can't be a source, and
 * Error if a Response has a status of failure, or if the source is not hll.wasm of this version.
 */
export function load(source: Source): Promise<Module>;
