#include "models.h"

#include <string.h>

/* The number of classes, the first of the class numbers, and the body of field 42 as it stands. */
size_t model_in(const uint8_t *answer, unsigned elements, uint8_t *model)
{
    if (answer[3] == 0)
        return 0;
    const uint8_t *classes = answer + 7, *masks = classes + answer[6] + 3;
    size_t count = masks[-1];
    model[0] = (uint8_t)(count / 2);
    memcpy(model + 1, classes, elements);
    memcpy(model + 1 + elements, masks, count);
    return 1 + elements + count;
}

/* Parts of the domain, each with a bit for each element: {a} for each element name a, and each set. */
struct parts {
    unsigned single[8], set[16];
};

/* A name whose element is not in the domain gets the empty part; and a set that isn't declared may get another one. */
static void turn_around(const uint8_t *elements, unsigned names, const uint8_t *masks, unsigned size,
                        struct parts *parts)
{
    memset(parts, 0, sizeof *parts);
    for (unsigned element = 0; element < size; element++) {
        unsigned mask = masks[2 * element] * 256u + masks[2 * element + 1];
        for (unsigned a = 0; a < names; a++)
            parts->single[a] |= (elements[a] == element ? 1u : 0u) << element;
        for (unsigned x = 0; x < 16; x++)
            parts->set[x] |= (mask >> x & 1) << element;
    }
}

/* Takes a model apart; gives whether it is one. */
static int take_apart(const struct question *question, const uint8_t *model, size_t length, struct parts *parts)
{
    if (length == 0 || model[0] > 12 || length != 1u + question->elements + 2u * model[0])
        return 0;
    turn_around(model + 1, question->elements, model + 1 + question->elements, model[0], parts);
    for (unsigned a = 0; a < question->elements; a++)
        if (parts->single[a] == 0)
            return 0;
    for (unsigned x = question->sets; x < 16; x++)
        if (parts->set[x] != 0)
            return 0;
    return 1;
}

static int holds(const struct statement *statement, const struct parts *parts)
{
    const uint8_t *name = statement->names;
    const unsigned *e = parts->single, *s = parts->set;
    switch (statement->tag) {
    case 0x10: return e[name[0]] == e[name[1]];
    case 0x11: return e[name[0]] != e[name[1]];
    case 0x12: return (e[name[0]] & ~s[name[1]]) == 0;
    case 0x13: return (e[name[0]] & s[name[1]]) == 0;
    case 0x20: return s[name[0]] == s[name[1]];
    case 0x21: return s[name[0]] != s[name[1]];
    case 0x22: return s[name[0]] == 0;
    case 0x23: return s[name[0]] == e[name[1]];
    case 0x30: return s[name[0]] == (s[name[1]] | s[name[2]]);
    case 0x31: return s[name[0]] == (s[name[1]] & s[name[2]]);
    default: return s[name[0]] == (s[name[1]] & ~s[name[2]]);
    }
}

uint64_t judge_model(const struct question *question, const uint8_t *model, size_t length)
{
    struct parts parts;
    if (!take_apart(question, model, length, &parts))
        return 11;
    for (size_t i = 0; i < question->count; i++)
        if (!holds(&question->statements[i], &parts))
            return i * 256;
    return 64 * 256;
}
