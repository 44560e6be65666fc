/* The kit's compiler comes without headers: here is what elsterkabel.h and the hypervisor use of this one. */
#ifndef STDINT_H
#define STDINT_H

typedef __INT32_TYPE__ int32_t;
typedef __INT64_TYPE__ int64_t;
typedef __UINT8_TYPE__ uint8_t;
typedef __UINT32_TYPE__ uint32_t;
typedef __UINT64_TYPE__ uint64_t;

#define UINT64_MAX __UINT64_MAX__

#endif
