/* C's headers for wasm32, as far as host/ needs them. A pointer has 4 bytes there, but the proved code's usize keeps its 8: so has size_t, which stands for it in rapid.h. */
#ifndef PAGE_STDDEF_H
#define PAGE_STDDEF_H
#define NULL ((void *)0)
#define offsetof(type, member) __builtin_offsetof(type, member)
typedef unsigned long long size_t;
#endif
