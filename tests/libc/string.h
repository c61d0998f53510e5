/* Of C's own header, what is used here: see stddef.h. */
#ifndef LIBC_STRING_H
#define LIBC_STRING_H
#include <stddef.h>
void *memcpy(void *to, const void *from, size_t bytes);
int memcmp(const void *a, const void *b, size_t bytes);
char *strchr(const char *text, int byte);
int strcmp(const char *a, const char *b);
size_t strlen(const char *text);
#endif
