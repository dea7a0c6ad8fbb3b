/* The toolchain's clang comes without the headers that a compiler brings of itself, so this folder has those that the C library's header
 * files and daunsrevit.h include. A header of the C library that asks for one name of them gets all. */
#ifndef TESTS_STDDEF_H
#define TESTS_STDDEF_H

typedef __SIZE_TYPE__ size_t;
typedef __PTRDIFF_TYPE__ ptrdiff_t;
#ifdef __cplusplus
#define NULL __null
#else
typedef __WCHAR_TYPE__ wchar_t;
#define NULL ((void *)0)
#endif
#define offsetof(type, member) __builtin_offsetof(type, member)

#endif
