/* The edges of document 01, and refusals in the order in which they come: all worked out by hand. */
#include "clashes.h"
#include "rounds.h"
#include "sayfudhoum.h"
#include "slices.h"
#include "table.h"

#include <stdio.h>
#include <string.h>

#define NAMES_8_16 "01 00 02 08 10 "
#define DIFFER "21 00 02 00 01 "
#define FOUR_DIFFER DIFFER DIFFER DIFFER DIFFER
#define END "7F 00 00"

/* A statement that holds always, ten of them and sixty. */
#define IDLE "20 00 02 00 00 "
#define IDLE_10 IDLE IDLE IDLE IDLE IDLE IDLE IDLE IDLE IDLE IDLE
#define IDLE_60 IDLE_10 IDLE_10 IDLE_10 IDLE_10 IDLE_10 IDLE_10
#define IDLE_64 IDLE_60 IDLE IDLE IDLE IDLE

/* The same with the longest statements. */
#define LONG "30 00 03 00 00 00 "
#define LONG_8 LONG LONG LONG LONG LONG LONG LONG LONG
#define LONG_64 LONG_8 LONG_8 LONG_8 LONG_8 LONG_8 LONG_8 LONG_8 LONG_8

static const struct edge_case {
    const char *what;
    const char *question;
    unsigned refusal;
    size_t place;
} edge_cases[] = {
    {"E=8 with four tag 21", NAMES_8_16 FOUR_DIFFER END, 0, 0},
    {"a fifth", NAMES_8_16 FOUR_DIFFER DIFFER END, 8, 25},
    {"a fifth with a name that is not declared", NAMES_8_16 FOUR_DIFFER "21 00 02 00 10 " END, 6, 25},
    {"E=0 with twelve tag 21", "01 00 02 00 02 " FOUR_DIFFER FOUR_DIFFER FOUR_DIFFER END, 0, 0},
    {"a thirteenth", "01 00 02 00 02 " FOUR_DIFFER FOUR_DIFFER FOUR_DIFFER DIFFER END, 8, 65},
    {"the longest file", NAMES_8_16 LONG_64 END, 0, 0},
    {"the longest file and a statement more", NAMES_8_16 LONG_64 LONG END, 7, 389},
    {"64 statements", NAMES_8_16 IDLE_64 END, 0, 0},
    {"the 65th", NAMES_8_16 IDLE_64 IDLE END, 7, 325},
    {"the 65th with a name that is not declared", NAMES_8_16 IDLE_64 "22 00 01 10 " END, 7, 325},
    {"the 65th with a wrong length", NAMES_8_16 IDLE_64 "22 00 02 00 00 " END, 4, 325},
    {"the 65th cut short", NAMES_8_16 IDLE_64 "20 00 02 00", 1, 325},
    {"the 65th unknown", NAMES_8_16 IDLE_64 "40 00 01 00 " END, 2, 325},
    {"the 65th tag 21, a fifth one", NAMES_8_16 FOUR_DIFFER IDLE_60 DIFFER END, 7, 325},
    {"bytes after 64 statements and the end", NAMES_8_16 IDLE_64 END " 7F", 9, 328},
    {"empty input", "", 1, 0},
    {"two bytes", "01 00", 1, 0},
    {"7F alone", END, 3, 0},
    {"a statement first", "10 00 02 00 00 " END, 3, 0},
    {"an unknown tag first", "40 00 01 01 " END, 2, 0},
    {"tag 44", NAMES_8_16 "44 00 03 01 00 00 " END, 2, 5},
    {"01 again", NAMES_8_16 "01 00 02 00 00 " END, 3, 5},
    {"01 again, with a wrong length", NAMES_8_16 "01 00 03 00 00 00 " END, 3, 5},
    {"01 with a wrong length", "01 00 03 00 00 00 " END, 4, 0},
    {"01 with a length of 258", "01 01 02 00 00 " END, 4, 0},
    {"01 cut short", "01 00 02 08", 1, 0},
    {"S=17", "01 00 02 00 11 " END, 5, 0},
    {"S=16", "01 00 02 00 10 " END, 0, 0},
    {"E=9", "01 00 02 09 00 " END, 5, 0},
    {"E=9, and nothing after it", "01 00 02 09 00", 5, 0},
    {"no 7F", "01 00 02 00 00", 1, 5},
    {"no 7F after a statement", NAMES_8_16 IDLE, 1, 10},
    {"half a head", "01 00 02 00 00 7F 00", 1, 5},
    {"7F with a body", "01 00 02 00 00 7F 00 01 00", 4, 5},
    {"one byte more", "01 00 02 00 00 " END " 00", 9, 8},
    {"case I and a byte more", "01 00 02 01 02 23 00 02 00 00 21 00 02 00 01 12 00 02 00 01 7F 00 00 7F", 9, 23},
    {"e0 where E=0", "01 00 02 00 10 12 00 02 00 00 " END, 6, 5},
    {"s0 where S=0", "01 00 02 08 00 12 00 02 00 00 " END, 6, 5},
    {"e8 where E=8", NAMES_8_16 IDLE "10 00 02 00 08 " END, 6, 10},
    {"s16 where S=16", NAMES_8_16 IDLE "32 00 03 0F 0F 10 " END, 6, 10},
    {"x = {a} with the set's number for a", NAMES_8_16 "23 00 02 08 08 " END, 6, 5},
    {"x = {a} with the highest names", NAMES_8_16 "23 00 02 0F 07 " END, 0, 0},
    {"a in x with the highest names", NAMES_8_16 "12 00 02 07 0F " END, 0, 0},
};

/* The round through a solver: the question's refusal comes before that of bad lines and before 10. */
static int refuses_round(const uint8_t *question, size_t length, uint64_t refusal)
{
    static const uint8_t bad_line[] = {'x', '\n'};
    const struct input input = {question, length, lend_lines(bad_line, sizeof bad_line), sizeof bad_line};
    const struct due due = {refusal, bad_line, 0};
    return gives_in_rooms(&input, FOR_CLAUSES, &due) && gives_in_rooms(&input, FOR_ANSWER, &due);
}

/*
 * A model of one element in no set, cut off after each byte. The question's refusal comes before that of a bad
 * model; of a question that is accepted, the model is judged in the one length that it has with E names.
 */
static int judges_prefixes(const uint8_t *question, size_t length, uint64_t refusal)
{
    static const uint8_t model[1 + SAYFUDHOUM_MAX_ELEMENTS + 2] = {1};
    for (size_t count = 0; count <= sizeof model; count++) {
        uint64_t number = sayfudhoum_judge(question, length, lend_model(model, count), count);
        int whole = refusal == 0 && count == 3u + question[3];
        if (whole ? sayfudhoum_refusal(number) != 0 : number != (refusal != 0 ? refusal : SAYFUDHOUM_BAD_MODEL))
            return 0;
    }
    return 1;
}

/* All functions refuse it so, or none does. A refused question is never refused by 10, and nothing is written. */
static int as_expected(const struct edge_case *edge_case)
{
    uint8_t bytes[SAYFUDHOUM_MAX_QUESTION_LENGTH + 6];
    size_t length = from_hex(edge_case->question, bytes);
    const uint8_t *question = lend_question(bytes, length);
    uint64_t verdict = sayfudhoum_verdict(question, length);
    static const size_t no_rooms[CLASH_BUFFERS] = {0};
    if (edge_case->refusal == 0)
        return sayfudhoum_refusal(verdict) == 0
            && refuses(question, length, no_rooms, BEFORE_PAGE, SAYFUDHOUM_BUFFER_TOO_SHORT)
            && judges_prefixes(question, length, 0);
    if (sayfudhoum_refusal(verdict) != edge_case->refusal || sayfudhoum_rest(verdict) != edge_case->place)
        return 0;
    for (size_t room = 0; room <= SAYFUDHOUM_MAX_ANSWER_LENGTH; room++) {
        uint8_t *buffer = lend_buffer(FOR_ANSWER, room, BEFORE_PAGE);
        if (sayfudhoum_answer(question, length, buffer, room) != verdict || !untouched_after(FOR_ANSWER, 0))
            return 0;
    }
    return refuses(question, length, no_rooms, BEFORE_PAGE, verdict)
        && refuses(question, length, longest_rooms, BEFORE_PAGE, verdict)
        && refuses_round(question, length, verdict) && judges_prefixes(question, length, verdict);
}

int main(void)
{
    int failed = 0;
    for (size_t i = 0; i < sizeof edge_cases / sizeof edge_cases[0]; i++)
        if (!as_expected(&edge_cases[i])) {
            printf("%s: not as expected\n", edge_cases[i].what);
            failed = 1;
        }
    return failed;
}
