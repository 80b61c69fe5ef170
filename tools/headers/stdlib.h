#ifndef STDLIB_H
#define STDLIB_H
#include <stddef.h>
void *malloc(size_t size);
void *calloc(size_t count, size_t size);
void *realloc(void *old, size_t size);
void exit(int status) __attribute__((noreturn));
unsigned long strtoul(const char *text, char **end, int base);
#endif
