/*
 * Cases A to N, and the longest answer, as answers and as verdicts; clash.c has their clashing parts. The
 * buffer is exactly long enough, or longer, and the bytes past the answer keep their values; or it is
 * too short, and the call is refused by 10 and writes nothing.
 */
#include "sayfudhoum.h"
#include "slices.h"
#include "table.h"

#include <stdio.h>
#include <string.h>

struct files {
    uint8_t question[SAYFUDHOUM_MAX_QUESTION_LENGTH], answer[SAYFUDHOUM_MAX_ANSWER_LENGTH];
    size_t question_length, answer_length;
};

/* Whether the answer comes out in a buffer of this length. */
static int answers(const struct files *files, size_t buffer_length, enum edge edge)
{
    const uint8_t *question = lend_question(files->question, files->question_length);
    uint8_t *buffer = lend_buffer(FOR_ANSWER, buffer_length, edge);
    uint64_t result = sayfudhoum_answer(question, files->question_length, buffer, buffer_length);
    return result == files->answer_length * 256 && memcmp(buffer, files->answer, files->answer_length) == 0
        && untouched_after(FOR_ANSWER, files->answer_length);
}

/* Whether a buffer of this length is refused by 10, at 0, and left as it is. */
static int too_short(const struct files *files, size_t buffer_length, enum edge edge)
{
    const uint8_t *question = lend_question(files->question, files->question_length);
    uint8_t *buffer = lend_buffer(FOR_ANSWER, buffer_length, edge);
    return sayfudhoum_answer(question, files->question_length, buffer, buffer_length) == 0x0A
        && untouched_after(FOR_ANSWER, 0);
}

static int verdict(const struct files *files)
{
    const uint8_t *question = lend_question(files->question, files->question_length);
    return sayfudhoum_verdict(question, files->question_length) == files->answer[3] * UINT64_C(256);
}

/* Every length of the buffer, up to one that is longer than any answer. */
static int all_buffers(const struct files *files)
{
    for (size_t length = 0; length <= 2 * SAYFUDHOUM_MAX_ANSWER_LENGTH; length++)
        for (int edge = BEHIND_PAGE; edge <= BEFORE_PAGE; edge++)
            if (!(length < files->answer_length ? too_short(files, length, (enum edge)edge)
                                                : answers(files, length, (enum edge)edge))) {
                printf("wrong with a buffer of %zu bytes\n", length);
                return 0;
            }
    return 1;
}

int main(void)
{
    int failed = 0;
    for (size_t i = 0; i < EXAMPLES; i++) {
        struct files files;
        files.question_length = from_hex(examples[i].question, files.question);
        files.answer_length = from_hex(examples[i].answer, files.answer);
        if (!verdict(&files) || !all_buffers(&files)) {
            printf("case %s failed\n", examples[i].name);
            failed = 1;
        }
    }
    return failed;
}
