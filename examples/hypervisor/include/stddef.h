/* The kit's compiler comes without headers: here is what elsterkabel.h and the hypervisor use of this one. */
#ifndef STDDEF_H
#define STDDEF_H

typedef __SIZE_TYPE__ size_t;

#define NULL ((void *)0)
#define offsetof(type, member) __builtin_offsetof(type, member)

#endif
