/* Of <stdint.h>, what the C interface needs, for the kit's clang, which comes without headers. x86-64 Linux only. */
#ifndef THAWHAZEL_TEST_STDINT_H
#define THAWHAZEL_TEST_STDINT_H
typedef __UINT8_TYPE__ uint8_t;
typedef __UINT16_TYPE__ uint16_t;
typedef __UINT32_TYPE__ uint32_t;
#endif
