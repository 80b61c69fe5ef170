/* A few declarations of the C library for x86-64 Linux, as far as the C programs here need them. Machines of other kinds have no such headers, and the
 * kit's compiler brings none; tools/build-c uses these everywhere. */
#ifndef STDDEF_H
#define STDDEF_H
typedef __SIZE_TYPE__ size_t;
#define NULL ((void *)0)
#define offsetof(type, member) __builtin_offsetof(type, member)
#endif
