#ifndef HEADERS_STRING_H
#define HEADERS_STRING_H
#include <stddef.h>
void *memcpy(void *to, const void *from, size_t len);
void *memset(void *to, int byte, size_t len);
int memcmp(const void *a, const void *b, size_t len);
size_t strlen(const char *text);
char *strstr(const char *text, const char *part);
#endif
