/* C99's, for library/entry.c: the kit's clang comes without headers. */
#define bool _Bool
#define true 1
#define false 0
