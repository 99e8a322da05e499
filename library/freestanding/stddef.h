/* What twin.h uses of C99's, for library/entry.c: the kit's clang comes without headers. */
typedef __SIZE_TYPE__ size_t;
#define NULL ((void *)0)
