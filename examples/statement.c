#include "statement.h"

#include "sayfudhoum.h"

#include <stdio.h>

/* The body stands behind the tag and the two bytes of the length. Element names come first among the terms. */
void print_statement(const uint8_t *field, const struct words *words)
{
    const uint8_t *body = field + 3;
    const char *const *elements = words->terms, *const *sets = words->sets;
    switch (field[0]) {
    case SAYFUDHOUM_TAG_ELEMENTS_EQUAL:
        printf("%s = %s", elements[body[0]], elements[body[1]]);
        break;
    case SAYFUDHOUM_TAG_ELEMENTS_DIFFER:
        printf("%s != %s", elements[body[0]], elements[body[1]]);
        break;
    case SAYFUDHOUM_TAG_IN:
        printf("%s is in %s", elements[body[0]], sets[body[1]]);
        break;
    case SAYFUDHOUM_TAG_NOT_IN:
        printf("%s is not in %s", elements[body[0]], sets[body[1]]);
        break;
    case SAYFUDHOUM_TAG_SETS_EQUAL:
        printf("%s = %s", sets[body[0]], sets[body[1]]);
        break;
    case SAYFUDHOUM_TAG_SETS_DIFFER:
        printf("%s != %s", sets[body[0]], sets[body[1]]);
        break;
    case SAYFUDHOUM_TAG_EMPTY:
        printf("%s is empty", sets[body[0]]);
        break;
    case SAYFUDHOUM_TAG_SINGLE:
        printf("%s = {%s}", sets[body[0]], elements[body[1]]);
        break;
    case SAYFUDHOUM_TAG_UNION:
        printf("%s is the union of %s and %s", sets[body[0]], sets[body[1]], sets[body[2]]);
        break;
    case SAYFUDHOUM_TAG_INTERSECTION:
        printf("%s is the intersection of %s and %s", sets[body[0]], sets[body[1]], sets[body[2]]);
        break;
    case SAYFUDHOUM_TAG_DIFFERENCE:
        printf("%s is %s without %s", sets[body[0]], sets[body[1]], sets[body[2]]);
        break;
    }
}
