/* Plain C judges of the same observable behaviour as thawhazel_judge, to compare times with. */
#ifndef PLAIN_H
#define PLAIN_H
#include <stddef.h>
#include <stdint.h>

/* Arguments (log, pointers, selectors, variables, numbers, status, tally, answer, each with its length), returned kind, and what stands
 * in every buffer afterwards: as of thawhazel_judge in include/thawhazel.h. */
typedef uint32_t Judge(const uint8_t *, size_t, uint16_t *, size_t, uint16_t *, size_t, uint32_t *, size_t, uint32_t *, size_t,
                       uint8_t *, size_t, uint32_t *, size_t, uint32_t *, size_t);

/* It works on the caller's buffers in place. */
Judge plain_judge;

/* It hands the board from command to command by value, as document 01 asks it of the proved judge. */
Judge by_value_judge;
#endif
