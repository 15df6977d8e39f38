/* These headers have the few C library names that host/ and compare/ use, by the C ABI of x86-64 Linux: the toolchain has the library alone. */
#ifndef HEADERS_STDDEF_H
#define HEADERS_STDDEF_H
typedef __SIZE_TYPE__ size_t;
#define NULL ((void *)0)
#endif
