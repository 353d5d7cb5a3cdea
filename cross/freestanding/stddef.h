/* Defines what bumivondra.h needs of stddef.h, since the kit's clang comes without headers. */
#ifndef BV_STDDEF_H
#define BV_STDDEF_H
typedef __SIZE_TYPE__ size_t;
#define NULL ((void *)0)
#define offsetof(type, member) __builtin_offsetof(type, member)
#endif
