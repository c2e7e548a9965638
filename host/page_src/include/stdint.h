#ifndef PAGE_STDINT_H
#define PAGE_STDINT_H
typedef unsigned char uint8_t;
typedef int int32_t;
typedef unsigned uint32_t;
typedef unsigned long long uint64_t;
typedef __UINTPTR_TYPE__ uintptr_t;
#define PTRDIFF_MAX __PTRDIFF_MAX__ /* of 4 bytes: no slice is longer */
#endif
