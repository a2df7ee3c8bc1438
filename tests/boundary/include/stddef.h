/* These few headers stand in for those of a C library: the kit has the library itself, and none of its headers. */
#ifndef STDDEF_H
#define STDDEF_H
typedef __SIZE_TYPE__ size_t;
#define NULL ((void *)0)
#endif
