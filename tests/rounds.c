#include "rounds.h"

#include <stdio.h>
#include <string.h>

static uint64_t call(const struct input *input, enum buffer buffer, uint8_t *lent, size_t room)
{
    if (buffer == FOR_CLAUSES)
        return sayfudhoum_clauses(input->question, input->question_length, lent, room);
    return sayfudhoum_solved(input->question, input->question_length, input->lines, input->lines_length, lent, room);
}

int gives(const struct input *input, enum buffer buffer, size_t room, enum edge edge, const struct due *due)
{
    uint8_t *lent = lend_buffer(buffer, room, edge);
    uint64_t number = call(input, buffer, lent, room);
    if (room < due->count)
        return number == SAYFUDHOUM_BUFFER_TOO_SHORT && untouched_after(buffer, 0);
    return number == due->number && memcmp(lent, due->bytes, due->count) == 0 && untouched_after(buffer, due->count);
}

int gives_in_rooms(const struct input *input, enum buffer buffer, const struct due *due)
{
    size_t longest = buffer == FOR_CLAUSES ? SAYFUDHOUM_MAX_CLAUSES_LENGTH : SAYFUDHOUM_MAX_ANSWER_LENGTH;
    const size_t rooms[] = {0, due->count == 0 ? 0 : due->count - 1, due->count, due->count + 1, due->count + 100, longest};
    for (size_t i = 0; i < sizeof rooms / sizeof rooms[0]; i++)
        if (!gives(input, buffer, rooms[i], BEHIND_PAGE, due) || !gives(input, buffer, rooms[i], BEFORE_PAGE, due)) {
            printf("wrong with a buffer of %zu bytes\n", rooms[i]);
            return 0;
        }
    return 1;
}
