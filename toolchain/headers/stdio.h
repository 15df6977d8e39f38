#ifndef HEADERS_STDIO_H
#define HEADERS_STDIO_H
#include <stddef.h>
typedef struct c_file FILE;
extern FILE *stdin, *stdout, *stderr;
#define EOF (-1)
int getc(FILE *file);
int putchar(int c);
int fflush(FILE *file);
int printf(const char *form, ...) __attribute__((format(printf, 1, 2)));
int fprintf(FILE *file, const char *form, ...) __attribute__((format(printf, 2, 3)));
#endif
