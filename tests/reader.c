#include "reader.h"

#include <string.h>

const char *body_of(uint8_t tag)
{
    switch (tag) {
    case 0x01: return "cc";
    case 0x10: case 0x11: return "ee";
    case 0x12: case 0x13: return "es";
    case 0x20: case 0x21: return "ss";
    case 0x22: return "s";
    case 0x23: return "se";
    case 0x30: case 0x31: case 0x32: return "sss";
    case 0x7F: return "";
    default: return NULL;
    }
}

/* The refusal of the field's frame, or 0: the order is 1 (head), 2, 3, 4, 1 (body). */
static unsigned frame(const uint8_t *field, size_t left, int first)
{
    if (left < 3)
        return 1;
    if (body_of(field[0]) == NULL)
        return 2;
    if ((field[0] == 0x01) != first)
        return 3;
    size_t body = field[1] * 256u + field[2];
    if (body != strlen(body_of(field[0])))
        return 4;
    return left - 3 < body ? 1 : 0;
}

/* The refusal of the names E and S, or 0. */
static unsigned declare(const uint8_t *body, struct question *question)
{
    if (body[0] > 8 || body[1] > 16)
        return 5;
    question->elements = question->terms = body[0];
    question->sets = body[1];
    return 0;
}

/* The refusal of a statement whose frame is sound, or 0: the order is 7, 6, 8. */
static unsigned state(const uint8_t *field, struct question *question)
{
    const char *sorts = body_of(field[0]);
    if (question->count == 64)
        return 7;
    for (size_t i = 0; sorts[i] != '\0'; i++)
        if (field[3 + i] >= (sorts[i] == 'e' ? question->elements : question->sets))
            return 6;
    if (field[0] == 0x21 && question->terms++ == 12)
        return 8;
    struct statement *statement = &question->statements[question->count++];
    statement->tag = field[0];
    memcpy(statement->names, field + 3, strlen(sorts));
    return 0;
}

uint64_t read_question(const uint8_t *bytes, size_t length, struct question *question)
{
    size_t place = 0;
    memset(question, 0, sizeof *question);
    for (;;) {
        const uint8_t *field = bytes + place;
        unsigned refusal = frame(field, length - place, place == 0);
        if (refusal == 0 && field[0] == 0x7F) {
            place += 3;
            return place == length ? 0 : place * 256 + 9;
        }
        if (refusal == 0)
            refusal = place == 0 ? declare(field + 3, question) : state(field, question);
        if (refusal != 0)
            return place * 256 + refusal;
        place += 3u + field[2];
    }
}
