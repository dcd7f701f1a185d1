#include "finder.h"

#include <string.h>

/* The field with the names, before the first statement. */
enum { NAMES_LENGTH = 5 };

/* No field of a question has a body of 256 bytes or more. */
static size_t field_length(const uint8_t *field)
{
    return 3u + field[2];
}

size_t statements_of(const uint8_t *question)
{
    size_t count = 0;
    for (const uint8_t *field = question + NAMES_LENGTH; field[0] != 0x7F; field += field_length(field))
        count++;
    return count;
}

size_t write_kept(const uint8_t *question, const uint8_t *kept, uint8_t *file)
{
    static const uint8_t end[] = {0x7F, 0, 0};
    uint8_t *to = file;
    memcpy(to, question, NAMES_LENGTH);
    to += NAMES_LENGTH;
    for (const uint8_t *field = question + NAMES_LENGTH; field[0] != 0x7F; field += field_length(field))
        if (*kept++) {
            memcpy(to, field, field_length(field));
            to += field_length(field);
        }
    memcpy(to, end, sizeof end);
    return (size_t)(to - file) + sizeof end;
}

static int impossible(const uint8_t *question, const uint8_t *kept)
{
    uint8_t file[SAYFUDHOUM_MAX_QUESTION_LENGTH];
    return sayfudhoum_verdict(file, write_kept(question, kept, file)) == 0;
}

void find_clash(const uint8_t *question, size_t length, struct clash *clash)
{
    uint8_t kept[SAYFUDHOUM_MAX_STATEMENTS] = {0};
    size_t count = statements_of(question);
    if (sayfudhoum_verdict(question, length) == 0) {
        memset(kept, 1, count);
        for (size_t index = 0; index < count; index++) {
            kept[index] = 0;
            kept[index] = !impossible(question, kept);
        }
    }
    clash->lengths[FOR_PART] = write_kept(question, kept, clash->bytes[FOR_PART]);
    size_t found = 0;
    for (size_t index = 0; index < count; index++)
        if (kept[index])
            clash->bytes[FOR_INDEXES][found++] = (uint8_t)index;
    clash->lengths[FOR_INDEXES] = found;
}
