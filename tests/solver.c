#include "solver.h"

#include <string.h>

/* The fields of an answer stand where their lengths say; nothing else is accepted. */
int read_answer(const uint8_t *bytes, size_t length, const struct question *question, struct model *model)
{
    static const uint8_t end[] = {0x7F, 0, 0};
    static const uint8_t impossible[] = {0x40, 0, 1, 0, 0x7F, 0, 0};
    static const uint8_t possible[] = {0x40, 0, 1, 1, 0x41, 0};
    size_t terms = question->terms;
    if (length == sizeof impossible && memcmp(bytes, impossible, length) == 0)
        return 0;
    if (length < 13 + terms || memcmp(bytes, possible, sizeof possible) != 0 || bytes[6] != terms)
        return -1;

    memset(model, 0, sizeof *model);
    for (size_t term = 0; term < terms; term++) {
        model->classes[term] = bytes[7 + term];
        if (model->classes[term] > model->size)
            return -1;
        if (model->classes[term] == model->size)
            model->size++;
    }
    const uint8_t *field = bytes + 7 + terms;
    if (length != 13 + terms + 2 * model->size || field[0] != 0x42 || field[1] != 0 || field[2] != 2 * model->size)
        return -1;
    for (size_t class = 0; class < model->size; class++) {
        model->masks[class] = field[3 + 2 * class] * 256u + field[4 + 2 * class];
        if (model->masks[class] >> question->sets != 0)
            return -1;
    }
    return memcmp(field + 3 + 2 * model->size, end, sizeof end) == 0 ? 1 : -1;
}

/* Puts a field behind what is there, but for its body; gives the place of the body. */
static uint8_t *head(uint8_t *to, uint8_t tag, size_t length)
{
    *to++ = tag;
    *to++ = 0;
    *to++ = (uint8_t)length;
    return to;
}

size_t write_answer(const struct question *question, const struct model *model, uint8_t *bytes)
{
    uint8_t *to = head(bytes, 0x40, 1);
    *to++ = 1;
    to = head(to, 0x41, question->terms);
    for (size_t term = 0; term < question->terms; term++)
        *to++ = (uint8_t)model->classes[term];
    to = head(to, 0x42, 2 * model->size);
    for (size_t class = 0; class < model->size; class++) {
        *to++ = (uint8_t)(model->masks[class] / 256);
        *to++ = (uint8_t)(model->masks[class] % 256);
    }
    return (size_t)(head(to, 0x7F, 0) - bytes);
}

static unsigned bit(unsigned mask, uint8_t set)
{
    return (mask >> set) & 1;
}

/* Whether a statement holds as far as this class and its mask go; x != y, whether it is seen there. */
static int holds_at(const struct statement *statement, const unsigned *classes, unsigned class, unsigned mask)
{
    uint8_t first = statement->names[0], second = statement->names[1], third = statement->names[2];
    switch (statement->tag) {
    case 0x10: return classes[first] == classes[second];
    case 0x11: return classes[first] != classes[second];
    case 0x12: return classes[first] != class || bit(mask, second) == 1;
    case 0x13: return classes[first] != class || bit(mask, second) == 0;
    case 0x20: return bit(mask, first) == bit(mask, second);
    case 0x21: return bit(mask, first) != bit(mask, second);
    case 0x22: return bit(mask, first) == 0;
    case 0x23: return (bit(mask, first) == 1) == (classes[second] == class);
    case 0x30: return bit(mask, first) == (bit(mask, second) | bit(mask, third));
    case 0x31: return bit(mask, first) == (bit(mask, second) & bit(mask, third));
    default: return bit(mask, first) == (bit(mask, second) & ~bit(mask, third));
    }
}

/* x != y holds if it is seen at some class, every other statement if it holds at each. */
static int holds(const struct statement *statement, const struct model *model)
{
    unsigned good = 0;
    for (unsigned class = 0; class < model->size; class++)
        if (holds_at(statement, model->classes, class, model->masks[class]))
            good++;
    return statement->tag == 0x21 ? good > 0 : good == model->size;
}

int meets(const struct question *question, const struct model *model)
{
    for (size_t i = 0; i < question->count; i++)
        if (!holds(&question->statements[i], model))
            return 0;
    return 1;
}

/* Whether the class may have the mask; here x != y is asked of the class of its own witness, and no other. */
static int fits(const struct question *question, const unsigned *classes, unsigned class, unsigned mask)
{
    unsigned witness = question->elements;
    for (size_t i = 0; i < question->count; i++) {
        const struct statement *statement = &question->statements[i];
        int asked = statement->tag != 0x21 || classes[witness++] == class;
        if (asked && !holds_at(statement, classes, class, mask))
            return 0;
    }
    return 1;
}

/* Gives each class its smallest mask: 1, or 0 if a class has none. */
static int give_masks(const struct question *question, struct model *model)
{
    for (unsigned class = 0; class < model->size; class++) {
        unsigned mask = 0;
        while (!fits(question, model->classes, class, mask))
            if (++mask >> question->sets != 0)
                return 0;
        model->masks[class] = mask;
    }
    return 1;
}

/* The first arrangement that begins like this one, and has masks. */
static int arrange(const struct question *question, struct model *model, unsigned placed)
{
    if (placed == question->terms)
        return give_masks(question, model);
    unsigned size = model->size;
    for (unsigned class = 0; class <= size; class++) {
        model->classes[placed] = class;
        model->size = class == size ? size + 1 : size;
        if (arrange(question, model, placed + 1))
            return 1;
    }
    model->size = size;
    return 0;
}

int first_model(const struct question *question, struct model *model)
{
    memset(model, 0, sizeof *model);
    return arrange(question, model, 0);
}

int same_model(const struct question *question, const struct model *one, const struct model *other)
{
    return memcmp(one->classes, other->classes, question->terms * sizeof one->classes[0]) == 0
        && memcmp(one->masks, other->masks, one->size * sizeof one->masks[0]) == 0;
}
