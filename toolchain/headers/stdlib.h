#ifndef HEADERS_STDLIB_H
#define HEADERS_STDLIB_H
#include <stddef.h>
void *malloc(size_t size);
void *calloc(size_t count, size_t size);
void free(void *block);
_Noreturn void exit(int status);
unsigned long long strtoull(const char *text, char **end, int base);
#endif
