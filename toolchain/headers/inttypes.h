#ifndef HEADERS_INTTYPES_H
#define HEADERS_INTTYPES_H
#include <stdint.h>
#define PRIu32 "u"
#define PRIX32 "X"
#define PRIu64 "lu"
#define PRIX64 "lX"
#endif
