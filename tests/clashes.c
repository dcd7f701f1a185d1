#include "clashes.h"

#include <string.h>

const size_t longest_rooms[CLASH_BUFFERS] = {
    [FOR_ANSWER] = SAYFUDHOUM_MAX_ANSWER_LENGTH,
    [FOR_PART] = SAYFUDHOUM_MAX_QUESTION_LENGTH,
    [FOR_INDEXES] = SAYFUDHOUM_MAX_STATEMENTS,
};

void example_clash(const struct example *example, struct clash *clash)
{
    clash->lengths[FOR_ANSWER] = from_hex(example->answer, clash->bytes[FOR_ANSWER]);
    clash->lengths[FOR_PART] = from_hex(example->part, clash->bytes[FOR_PART]);
    clash->lengths[FOR_INDEXES] = from_hex(example->indexes, clash->bytes[FOR_INDEXES]);
}

/* As the interface says it, and not by the header's functions, which take it apart. */
static uint64_t number_of(const struct clash *clash)
{
    return 256 * (clash->lengths[FOR_PART] + 65536 * clash->lengths[FOR_INDEXES]
                  + 16777216 * clash->lengths[FOR_ANSWER]);
}

/* Lends the three buffers, and calls. */
static uint64_t call(const uint8_t *question, size_t length, const size_t *rooms, enum edge edge, uint8_t **lent)
{
    for (int buffer = 0; buffer < CLASH_BUFFERS; buffer++)
        lent[buffer] = lend_buffer((enum buffer)buffer, rooms[buffer], edge);
    return sayfudhoum_clash(question, length, lent[FOR_PART], rooms[FOR_PART], lent[FOR_INDEXES],
                            rooms[FOR_INDEXES], lent[FOR_ANSWER], rooms[FOR_ANSWER]);
}

int leaves(const uint8_t *question, size_t length, const size_t *rooms, enum edge edge, const struct clash *clash)
{
    uint8_t *lent[CLASH_BUFFERS];
    if (call(question, length, rooms, edge, lent) != number_of(clash))
        return 0;
    for (int buffer = 0; buffer < CLASH_BUFFERS; buffer++)
        if (memcmp(lent[buffer], clash->bytes[buffer], clash->lengths[buffer]) != 0
            || !untouched_after((enum buffer)buffer, clash->lengths[buffer]))
            return 0;
    return 1;
}

int refuses(const uint8_t *question, size_t length, const size_t *rooms, enum edge edge, uint64_t refusal)
{
    uint8_t *lent[CLASH_BUFFERS];
    if (call(question, length, rooms, edge, lent) != refusal)
        return 0;
    for (int buffer = 0; buffer < CLASH_BUFFERS; buffer++)
        if (!untouched_after((enum buffer)buffer, 0))
            return 0;
    return 1;
}

int refuses_short(const uint8_t *question, size_t length, enum edge edge, const struct clash *clash)
{
    for (int buffer = 0; buffer < CLASH_BUFFERS; buffer++) {
        size_t rooms[CLASH_BUFFERS];
        memcpy(rooms, clash->lengths, sizeof rooms);
        if (rooms[buffer]-- > 0 && !refuses(question, length, rooms, edge, SAYFUDHOUM_BUFFER_TOO_SHORT))
            return 0;
    }
    return 1;
}
