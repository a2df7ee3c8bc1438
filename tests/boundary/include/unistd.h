#ifndef UNISTD_H
#define UNISTD_H
#include <stddef.h>
long read(int file, void *to, size_t length);
long write(int file, const void *from, size_t length);
long lseek(int file, long by, int from);
int fdatasync(int file);
#endif
