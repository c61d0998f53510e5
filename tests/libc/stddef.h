/* Of C's own header, what the tests and include/quabnester.h use. The kit has a C library and a compiler but none of C's headers, so
 * .ci/host compiles with those of this folder, on every machine; with a compiler that has its own they aren't needed. */
#ifndef LIBC_STDDEF_H
#define LIBC_STDDEF_H
typedef __SIZE_TYPE__ size_t;
#ifdef __cplusplus
#define NULL 0
#else
#define NULL ((void *)0)
#endif
#endif
