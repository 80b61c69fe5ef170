#ifndef STRING_H
#define STRING_H
#include <stddef.h>
void *memchr(const void *in, int c, size_t size);
int memcmp(const void *one, const void *other, size_t size);
void *memcpy(void *to, const void *from, size_t size);
void *memset(void *to, int c, size_t size);
size_t strlen(const char *text);
#endif
