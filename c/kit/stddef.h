/* The kit's compiler has no headers. These have what c/ and bench/ use of each, for x86-64 Linux. */
#ifndef KIT_STDDEF_H
#define KIT_STDDEF_H

typedef __SIZE_TYPE__ size_t;

#define NULL ((void *)0)
#define offsetof(type, member) __builtin_offsetof(type, member)

#endif
