/* Written by hand from document 01's table: classes / masks become the fields 41 and 42. */
#include "table.h"

#include <stdlib.h>

#define IMPOSSIBLE "40 00 01 00  7F 00 00"

/*
 * Eight elements, no two the same, all in s0; and four sets s1 to s4, none of them empty, that share
 * nothing with s0 or with each other: twelve terms in twelve classes.
 */
#define APART(a, b) "11 00 02 0" #a " 0" #b "  "
#define IN_S0(a) "12 00 02 0" #a " 00  "
#define NOT_EMPTY(x) "21 00 02 0" #x " 05  "
#define DISJOINT(x, y) "31 00 03 05 0" #x " 0" #y "  "
#define TWELVE_CLASSES                                                                              \
    "01 00 02 08 06  22 00 01 05  " NOT_EMPTY(1) NOT_EMPTY(2) NOT_EMPTY(3) NOT_EMPTY(4)             \
    DISJOINT(0, 1) DISJOINT(0, 2) DISJOINT(0, 3) DISJOINT(0, 4)                                     \
    DISJOINT(1, 2) DISJOINT(1, 3) DISJOINT(1, 4) DISJOINT(2, 3) DISJOINT(2, 4) DISJOINT(3, 4)       \
    IN_S0(0) IN_S0(1) IN_S0(2) IN_S0(3) IN_S0(4) IN_S0(5) IN_S0(6) IN_S0(7)                         \
    APART(0, 1) APART(0, 2) APART(0, 3) APART(0, 4) APART(0, 5) APART(0, 6) APART(0, 7)             \
    APART(1, 2) APART(1, 3) APART(1, 4) APART(1, 5) APART(1, 6) APART(1, 7)                         \
    APART(2, 3) APART(2, 4) APART(2, 5) APART(2, 6) APART(2, 7)                                     \
    APART(3, 4) APART(3, 5) APART(3, 6) APART(3, 7) APART(4, 5) APART(4, 6) APART(4, 7)             \
    APART(5, 6) APART(5, 7) APART(6, 7) "7F 00 00"

/*
 * The clashing part of a possible case is its names and the end. Each impossible case is its own
 * clashing part, for none of its statements can be left out:
 *   C  either statement alone holds in some assignment;
 *   D  without s0 = {e0} let s0 be {e1}, without s1 = {e1} let s1 be {e0}; without s0 = s1 the two sets
 *      may differ, and without e0 != e1 the two elements may be one;
 *   J  s0 = s0 without s0 makes s0 empty, which is fine by itself, as is e0 in s0;
 *   K  nothing is left;
 *   M  if s3, s4, s5, s6 or s7 isn't made by its statement, it may be any set, and one can be taken
 *      with which s4 and s7 differ; without s4 != s7 all sets may be empty.
 */
const struct example examples[EXAMPLES] = {
    {"A", "01 00 02 00 00  7F 00 00",
     "40 00 01 01  41 00 00  42 00 00  7F 00 00",
     "01 00 02 00 00  7F 00 00", ""},
    {"B", "01 00 02 02 00  11 00 02 00 01  7F 00 00",
     "40 00 01 01  41 00 02 00 01  42 00 04 00 00 00 00  7F 00 00",
     "01 00 02 02 00  7F 00 00", ""},
    {"C", "01 00 02 02 00  11 00 02 00 01  10 00 02 00 01  7F 00 00",
     IMPOSSIBLE,
     "01 00 02 02 00  11 00 02 00 01  10 00 02 00 01  7F 00 00", "00 01"},
    {"D", "01 00 02 02 02  23 00 02 00 00  23 00 02 01 01  20 00 02 00 01  11 00 02 00 01  7F 00 00",
     IMPOSSIBLE,
     "01 00 02 02 02  23 00 02 00 00  23 00 02 01 01  20 00 02 00 01  11 00 02 00 01  7F 00 00", "00 01 02 03"},
    {"E", "01 00 02 00 02  21 00 02 00 01  7F 00 00",
     "40 00 01 01  41 00 01 00  42 00 02 00 01  7F 00 00",
     "01 00 02 00 02  7F 00 00", ""},
    {"F", "01 00 02 01 03  30 00 03 02 00 01  12 00 02 00 02  13 00 02 00 00  7F 00 00",
     "40 00 01 01  41 00 01 00  42 00 02 00 06  7F 00 00",
     "01 00 02 01 03  7F 00 00", ""},
    {"G", "01 00 02 00 03  31 00 03 02 00 01  21 00 02 02 00  7F 00 00",
     "40 00 01 01  41 00 01 00  42 00 02 00 01  7F 00 00",
     "01 00 02 00 03  7F 00 00", ""},
    {"H", "01 00 02 01 02  23 00 02 00 00  22 00 01 01  21 00 02 00 01  7F 00 00",
     "40 00 01 01  41 00 02 00 00  42 00 02 00 01  7F 00 00",
     "01 00 02 01 02  7F 00 00", ""},
    {"I", "01 00 02 01 02  23 00 02 00 00  21 00 02 00 01  12 00 02 00 01  7F 00 00",
     "40 00 01 01  41 00 02 00 01  42 00 04 00 03 00 02  7F 00 00",
     "01 00 02 01 02  7F 00 00", ""},
    {"J", "01 00 02 01 01  32 00 03 00 00 00  12 00 02 00 00  7F 00 00",
     IMPOSSIBLE,
     "01 00 02 01 01  32 00 03 00 00 00  12 00 02 00 00  7F 00 00", "00 01"},
    {"K", "01 00 02 00 01  21 00 02 00 00  7F 00 00",
     IMPOSSIBLE,
     "01 00 02 00 01  21 00 02 00 00  7F 00 00", "00"},
    {"L", "01 00 02 00 03  21 00 02 00 01  21 00 02 01 02  21 00 02 00 02  7F 00 00",
     "40 00 01 01  41 00 03 00 00 01  42 00 04 00 02 00 01  7F 00 00",
     "01 00 02 00 03  7F 00 00", ""},
    {"M", "01 00 02 00 08  30 00 03 03 01 02  32 00 03 04 00 03  32 00 03 05 00 01  32 00 03 06 00 02"
          "  31 00 03 07 05 06  21 00 02 04 07  7F 00 00",
     IMPOSSIBLE,
     "01 00 02 00 08  30 00 03 03 01 02  32 00 03 04 00 03  32 00 03 05 00 01  32 00 03 06 00 02"
     "  31 00 03 07 05 06  21 00 02 04 07  7F 00 00", "00 01 02 03 04 05"},
    {"N", "01 00 02 02 03  23 00 02 00 00  23 00 02 01 01  30 00 03 02 00 01  21 00 02 02 00  7F 00 00",
     "40 00 01 01  41 00 03 00 01 01  42 00 04 00 05 00 06  7F 00 00",
     "01 00 02 02 03  7F 00 00", ""},
    {"with twelve classes", TWELVE_CLASSES,
     "40 00 01 01  41 00 0C 00 01 02 03 04 05 06 07 08 09 0A 0B"
     "  42 00 18 00 01 00 01 00 01 00 01 00 01 00 01 00 01 00 01 00 02 00 04 00 08 00 10  7F 00 00",
     "01 00 02 08 06  7F 00 00", ""},
};

size_t from_hex(const char *text, uint8_t *bytes)
{
    size_t count = 0;
    for (;;) {
        char *end;
        unsigned long byte = strtoul(text, &end, 16);
        if (end == text)
            return count;
        bytes[count++] = (uint8_t)byte;
        text = end;
    }
}
