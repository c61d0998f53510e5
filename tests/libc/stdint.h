/* Of C's own header, what is used here: see stddef.h. */
#ifndef LIBC_STDINT_H
#define LIBC_STDINT_H
typedef __UINT8_TYPE__ uint8_t;
typedef __UINT32_TYPE__ uint32_t;
typedef __UINT64_TYPE__ uint64_t;
#define UINT32_MAX 4294967295u
#define UINT64_MAX 18446744073709551615u
#endif
