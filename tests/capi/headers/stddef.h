/* Of <stddef.h>, what the C interface needs, for the kit's clang, which comes without headers. x86-64 Linux only. */
#ifndef THAWHAZEL_TEST_STDDEF_H
#define THAWHAZEL_TEST_STDDEF_H
typedef __SIZE_TYPE__ size_t;
#endif
