#ifndef STDLIB_H
#define STDLIB_H
#include <stddef.h>
void *malloc(size_t length);
void *realloc(void *old, size_t length);
void free(void *old);
void exit(int status) __attribute__((noreturn));
#endif
