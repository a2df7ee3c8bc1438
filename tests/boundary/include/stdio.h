#ifndef STDIO_H
#define STDIO_H
#include <stddef.h>
typedef struct library_file FILE;
extern FILE *stdout, *stderr;
FILE *fopen(const char *name, const char *mode);
int fclose(FILE *file);
int ferror(FILE *file);
int fflush(FILE *file);
size_t fread(void *to, size_t width, size_t count, FILE *file);
size_t fwrite(const void *from, size_t width, size_t count, FILE *file);
int fprintf(FILE *file, const char *form, ...);
int printf(const char *form, ...);
int sprintf(char *to, const char *form, ...);
#endif
