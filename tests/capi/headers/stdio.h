/* Of <stdio.h>, what the example needs, for the kit's clang, which comes without headers. x86-64 Linux only. */
#ifndef THAWHAZEL_TEST_STDIO_H
#define THAWHAZEL_TEST_STDIO_H
int printf(const char *format, ...) __attribute__((format(printf, 1, 2)));
#endif
