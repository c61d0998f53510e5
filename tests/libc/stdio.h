/* Of C's own header, what is used here: see stddef.h. */
#ifndef LIBC_STDIO_H
#define LIBC_STDIO_H
#include <stddef.h>
typedef struct _IO_FILE FILE;
int printf(const char *form, ...);
int snprintf(char *text, size_t bytes, const char *form, ...);
FILE *fopen(const char *name, const char *mode);
size_t fread(void *block, size_t bytes, size_t count, FILE *file);
int fclose(FILE *file);
int fflush(FILE *file);
#endif
