/*
 * The header by itself, first and twice, as C99 and as C++11: its constants are the numbers of documents
 * 01 and 02, all six functions link, and a result comes apart.
 */
#include "sayfudhoum.h"
#include "sayfudhoum.h"

/* Each line fails to compile if its constant is another number, or no constant. */
#define SAME(name, number) typedef char same_##name[SAYFUDHOUM_##name == (number) ? 1 : -1]

SAME(MAX_ELEMENTS, 8);
SAME(MAX_SETS, 16);
SAME(MAX_STATEMENTS, 64);
SAME(MAX_TERMS, 12);
SAME(MAX_QUESTION_LENGTH, 5 + 64 * 6 + 3);
SAME(MAX_ANSWER_LENGTH, 4 + (3 + 12) + (3 + 24) + 3);
/* The first line, "p cnf 259 5076", and as many clauses of the longest kind, "-259 -259 -259 0": of triples, pairs, rows. */
SAME(MAX_CLAUSES_LENGTH, 15 + (3 * 220 + 2 * 66 * 16 + 3 * 768) * 17);
SAME(MAX_MODEL_LENGTH, 1 + 8 + 2 * 12);
SAME(ALL_HOLD, 64);
SAME(TAG_NAMES, 1);
SAME(TAG_ELEMENTS_EQUAL, 16);
SAME(TAG_ELEMENTS_DIFFER, 17);
SAME(TAG_IN, 18);
SAME(TAG_NOT_IN, 19);
SAME(TAG_SETS_EQUAL, 32);
SAME(TAG_SETS_DIFFER, 33);
SAME(TAG_EMPTY, 34);
SAME(TAG_SINGLE, 35);
SAME(TAG_UNION, 48);
SAME(TAG_INTERSECTION, 49);
SAME(TAG_DIFFERENCE, 50);
SAME(TAG_VERDICT, 64);
SAME(TAG_CLASSES, 65);
SAME(TAG_MASKS, 66);
SAME(TAG_REFUSAL, 68);
SAME(TAG_END, 127);
SAME(DATA_ENDS, 1);
SAME(TAG_UNKNOWN, 2);
SAME(TAG_OUT_OF_PLACE, 3);
SAME(WRONG_LENGTH, 4);
SAME(TOO_MANY_NAMES, 5);
SAME(NAME_NOT_DECLARED, 6);
SAME(TOO_MANY_STATEMENTS, 7);
SAME(TOO_MANY_TERMS, 8);
SAME(BYTES_AFTER_END, 9);
SAME(BUFFER_TOO_SHORT, 10);
SAME(BAD_MODEL, 11);
SAME(BAD_ROW, 12);
SAME(BAD_LINES, 13);
SAME(MODEL_FAILS, 14);

/* A result of sayfudhoum_clash comes apart into its three counts. */
static int counts(uint64_t result, size_t part, size_t indexes, size_t answer)
{
    return sayfudhoum_part_length(result) == part && sayfudhoum_index_count(result) == indexes
        && sayfudhoum_clash_answer_length(result) == answer;
}

/*
 * The numbers are worked out by hand, 256 times the rest. Case C, its own part: 18 + 2^16 * 2 + 2^24 * 7.
 * Each count at its limit: 392 + 2^16 * 64 + 2^24 * 49. No indexes: 8 + 2^24 * 13. And every bit in use,
 * where no count may take a bit of another.
 */
static int counts_come_apart(void)
{
    return counts(UINT64_C(30098330112), 18, 2, 7) && counts(UINT64_C(211527239680), 392, 64, 49)
        && counts(UINT64_C(55834576896), 8, 0, 13) && counts(UINT64_MAX, 65535, 255, 4294967295u);
}

/* Case C, e0 != e1 and e0 = e1, is impossible, and both statements are needed: the first of the numbers above. */
static int clashes(void)
{
    static const uint8_t question[] = {SAYFUDHOUM_TAG_NAMES,           0, 2, 2, 0,
                                       SAYFUDHOUM_TAG_ELEMENTS_DIFFER, 0, 2, 0, 1,
                                       SAYFUDHOUM_TAG_ELEMENTS_EQUAL,  0, 2, 0, 1,
                                       SAYFUDHOUM_TAG_END,             0, 0};
    uint8_t part[SAYFUDHOUM_MAX_QUESTION_LENGTH], indexes[SAYFUDHOUM_MAX_STATEMENTS];
    uint8_t answer[SAYFUDHOUM_MAX_ANSWER_LENGTH];
    return sayfudhoum_clash(question, sizeof question, part, sizeof part, indexes, sizeof indexes,
                            answer, sizeof answer) == UINT64_C(30098330112)
        && indexes[0] == 0 && indexes[1] == 1;
}

/* e0 != e0: the spare variable and its denial; its value is no model, and what a solver says of it is its word. */
static int goes_round(void)
{
    static const uint8_t question[] = {SAYFUDHOUM_TAG_NAMES,           0, 2, 1, 0,
                                       SAYFUDHOUM_TAG_ELEMENTS_DIFFER, 0, 2, 0, 0,
                                       SAYFUDHOUM_TAG_END,             0, 0};
    static const uint8_t model[] = {'s', ' ', 'S', 'A', 'T', 'I', 'S', 'F', 'I', 'A', 'B', 'L', 'E', '\n', 'v', ' ', '1',
                                    ' ', '0', '\n'};
    static const uint8_t none[] = {'s', ' ', 'U', 'N', 'S', 'A', 'T', 'I', 'S', 'F', 'I', 'A', 'B', 'L', 'E', '\n'};
    static uint8_t clauses[SAYFUDHOUM_MAX_CLAUSES_LENGTH];
    uint8_t answer[SAYFUDHOUM_MAX_ANSWER_LENGTH];
    return sayfudhoum_clauses(question, sizeof question, clauses, sizeof clauses) == 256 * 19
        && sayfudhoum_solved(question, sizeof question, none, sizeof none, answer, sizeof answer) == 0
        && sayfudhoum_solved(question, sizeof question, model, sizeof model, answer, sizeof answer)
               == SAYFUDHOUM_MODEL_FAILS
        && sayfudhoum_solved(question, sizeof question, model, 18, answer, sizeof answer)
               == 256 * 14 + SAYFUDHOUM_BAD_LINES;
}

/* e0 = e0 and e0 in s0: in one model the element is in s0, in the other it isn't, so that statement 1 fails. */
static int judges(void)
{
    static const uint8_t question[] = {SAYFUDHOUM_TAG_NAMES,          0, 2, 1, 1,
                                       SAYFUDHOUM_TAG_ELEMENTS_EQUAL, 0, 2, 0, 0,
                                       SAYFUDHOUM_TAG_IN,             0, 2, 0, 0,
                                       SAYFUDHOUM_TAG_END,            0, 0};
    static const uint8_t in[] = {1, 0, 0, 1}, out[] = {1, 0, 0, 0};
    uint64_t result = sayfudhoum_judge(question, sizeof question, in, sizeof in);
    if (result != 256 * 64 || sayfudhoum_refusal(result) != 0 || sayfudhoum_rest(result) != SAYFUDHOUM_ALL_HOLD)
        return 0;
    result = sayfudhoum_judge(question, sizeof question, out, sizeof out);
    return result == 256 && sayfudhoum_refusal(result) == 0 && sayfudhoum_rest(result) == 1
        && sayfudhoum_judge(question, sizeof question, in, sizeof in - 1) == SAYFUDHOUM_BAD_MODEL;
}

int main(void)
{
    if (!counts_come_apart() || !clashes() || !goes_round() || !judges())
        return 1;

    /* Case A, where nothing is declared or stated: possible, and its answer has 13 bytes. */
    static const uint8_t question[] = {SAYFUDHOUM_TAG_NAMES, 0, 2, 0, 0, SAYFUDHOUM_TAG_END, 0, 0};
    uint8_t answer[SAYFUDHOUM_MAX_ANSWER_LENGTH];
    uint64_t result = sayfudhoum_answer(question, sizeof question, answer, sizeof answer);
    if (sayfudhoum_refusal(result) != 0 || sayfudhoum_rest(result) != 13)
        return 1;
    if (sayfudhoum_verdict(question, sizeof question) != 256)
        return 1;

    /* A result with every bit in use: the largest place and the largest refusal number. */
    if (sayfudhoum_refusal(UINT64_MAX) != 255 || sayfudhoum_rest(UINT64_MAX) != UINT64_MAX / 256)
        return 1;

    /* Without its last byte the file ends within the field at 5. */
    result = sayfudhoum_verdict(question, sizeof question - 1);
    return sayfudhoum_refusal(result) == SAYFUDHOUM_DATA_ENDS && sayfudhoum_rest(result) == 5 ? 0 : 1;
}
