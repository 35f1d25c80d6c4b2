#ifndef UNISTD_H
#define UNISTD_H
#include <stddef.h>
typedef __PTRDIFF_TYPE__ ssize_t;
ssize_t read(int file, void *to, size_t size);
#endif
