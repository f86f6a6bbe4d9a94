// SPDX-License-Identifier: Apache-2.0
// What browsers, and bundlers for them, import. hll.wasm is fetched from next to this file.
import { HllError, MESSAGES, REASONS, Real, TrapError, compiledOf, load as loadFrom } from "./core.mjs";

const compiled = await compiledOf(fetch(new URL("./hll.wasm", import.meta.url)));

export const load = (source = compiled) => loadFrom(source);
export const { Sketch, Union, Registers, fault, isSmall, headOf, sizeOf, infoOf, histogramOf, hipOf, agree, couponOf, version } = await load();
export { HllError, MESSAGES, REASONS, Real, TrapError };
