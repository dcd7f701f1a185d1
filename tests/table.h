/* Cases A to N of document 01 and one with the longest answer, with their clashing parts, as bytes in hexadecimal. */
#ifndef TABLE_H
#define TABLE_H

#include <stddef.h>
#include <stdint.h>

struct example {
    const char *name;
    const char *question; /* in hexadecimal, with spaces between the bytes */
    const char *answer;
    const char *part;     /* the clashing part */
    const char *indexes;  /* of its statements in the question */
};

enum { EXAMPLES = 15 };
extern const struct example examples[EXAMPLES];

/* Reads bytes in hexadecimal into a buffer that is long enough; gives their count. */
size_t from_hex(const char *text, uint8_t *bytes);

#endif
