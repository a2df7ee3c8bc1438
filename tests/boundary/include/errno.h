#ifndef ERRNO_H
#define ERRNO_H
int *__errno_location(void);
#define errno (*__errno_location())
#define EINTR 4
#define EAGAIN 11
#define EISDIR 21
#endif
