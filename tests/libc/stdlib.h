/* Of C's own header, what is used here: see stddef.h. */
#ifndef LIBC_STDLIB_H
#define LIBC_STDLIB_H
#include <stddef.h>
void *malloc(size_t bytes);
void free(void *block);
void exit(int status);
#endif
