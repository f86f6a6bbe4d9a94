// SPDX-License-Identifier: Apache-2.0

//go:build !linux || !(amd64 || arm64) || !cgo

package hll

// The package calls C code that was compiled for Linux on x86-64 and 64-bit ARM. Where that can't be built, the name says so in the
// compiler's error.
var _ = hll_needs_linux_on_amd64_or_arm64_and_cgo_with_CGO_ENABLED_1_and_a_C_compiler
