#ifndef STDLIB_H
#define STDLIB_H
#include <stddef.h>
_Noreturn void exit(int status);
void *malloc(size_t size);
void free(void *block);
unsigned long long strtoull(const char *restrict text, char **restrict end, int base);
#endif
