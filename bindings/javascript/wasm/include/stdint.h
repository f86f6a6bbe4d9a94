/* SPDX-License-Identifier: Apache-2.0 */
#ifndef STDINT_H
#define STDINT_H
typedef __INT32_TYPE__ int32_t;
typedef __UINT8_TYPE__ uint8_t;
typedef __UINT32_TYPE__ uint32_t;
typedef __UINT64_TYPE__ uint64_t;
typedef __UINTPTR_TYPE__ uintptr_t;
#define UINT32_C(number) number##U
#define UINT64_C(number) number##UL
#endif
