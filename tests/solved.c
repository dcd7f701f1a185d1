/*
 * A solver's lines read back: lines written by hand, each with its number and place; the solver's word that
 * there is no model; and what cadical printed for seven questions, which stands in tests/cadical. The
 * buffer is empty, too short, just long enough or longer. bad_lines.c has damaged lines and lying models.
 */
#include "files.h"
#include "lines.h"
#include "rounds.h"
#include "table.h"

#include <stdio.h>
#include <stdlib.h>
#include <string.h>

/* Case I has six variables: 1 for its two terms, 2 to 5 for their sets, and 6. Its first model and more of what is due. */
#define CASE_I "01 00 02 01 02  23 00 02 00 00  21 00 02 00 01  12 00 02 00 01  7F 00 00"
#define ANSWER_I "40 00 01 01  41 00 02 00 01  42 00 04 00 03 00 02  7F 00 00"
#define S "s SATISFIABLE\n"    /* 14 bytes */
#define U "s UNSATISFIABLE\n"  /* 16 bytes */
#define V "v -1 2 3 -4 5 -6 0\n" /* 19 bytes */
#define GOOD S V

#define LINES(text) text, sizeof text - 1
static const struct {
    const char *lines;
    size_t length;
    unsigned refusal; /* or 0, and then the model is case I's first */
    size_t place;
} by_hand[] = {
    {LINES(GOOD), 0, 0},
    {LINES(S "v -1 2 3 -4 5 6 0\n"), 0, 0},
    {LINES(S "v 6 5 -4 3 2 -1 0\n"), 0, 0},
    {LINES(S "v -1 2 3 -4 5 -6\nv 0\n"), 0, 0},
    {LINES(S "v -1\nv 2\nv 3\nv -4\nv 5\nv -6\nv 0\n"), 0, 0},
    {LINES(S "v 3 -4\nv -6 5\nv -1 2 0\n"), 0, 0},
    {LINES("c\nc one\n" S "c two\nv -1 2 3\nc v 7\nc\nv -4 5 -6 0\nc s UNSATISFIABLE\nc\n"), 0, 0},
    {LINES("cs SATISFIABLE\ncadical\nc\r\nc \t\x01\x80\xFF\nc\0\n" S V), 0, 0},

    /* Nothing, or not all that is due: the place is the end. */
    {LINES(""), 13, 0},
    {LINES("c\n"), 13, 2},
    {LINES(S), 13, 14},
    {LINES(S "c\n"), 13, 16},
    {LINES(S "v -1 2 3 -4 5 -6\n"), 13, 31},
    {LINES(S "v -1 2 3\nv -4 5\n"), 13, 30},
    {LINES(S "v -1 2 3 -4 5 -6\nc 0\n"), 13, 35},

    /* A last line without 0A can't stand, whatever it is. */
    {LINES("s"), 13, 0},
    {LINES("s SATISFIABLE"), 13, 0},
    {LINES("s UNSATISFIABLE"), 13, 0},
    {LINES("c"), 13, 0},
    {LINES(S "v -1 2 3 -4 5 -6 0"), 13, 14},
    {LINES(S "v -1 2 3 -4 5 -6\nv 0"), 13, 31},
    {LINES(GOOD "c"), 13, 33},
    {LINES(U "c the end"), 13, 16},
    {LINES(GOOD "\r"), 13, 33},

    /* The first line. */
    {LINES("\n" GOOD), 13, 0},
    {LINES("c\n\n" GOOD), 13, 2},
    {LINES(V), 13, 0},
    {LINES(V S), 13, 0},
    {LINES("s SATISFIABLE \n" V), 13, 0},
    {LINES(" s SATISFIABLE\n" V), 13, 0},
    {LINES("s  SATISFIABLE\n" V), 13, 0},
    {LINES("s\tSATISFIABLE\n" V), 13, 0},
    {LINES("s SATISFIABLE\r\n" V), 13, 0},
    {LINES("s SATISFIABLE\0\n" V), 13, 0},
    {LINES("s SATISFIABL\n" V), 13, 0},
    {LINES("s SATISFIABLES\n" V), 13, 0},
    {LINES("s satisfiable\n" V), 13, 0},
    {LINES("S SATISFIABLE\n" V), 13, 0},
    {LINES("sSATISFIABLE\n" V), 13, 0},
    {LINES("SATISFIABLE\n" V), 13, 0},
    {LINES("SAT\n-1 2 3 -4 5 -6 0\n"), 13, 0},
    {LINES("s UNKNOWN\n"), 13, 0},
    {LINES("s UNSATISFIABLE \n"), 13, 0},
    {LINES("s UNSATISFIABL\n"), 13, 0},
    {LINES("s\n"), 13, 0},
    {LINES("p cnf 6 10\n"), 13, 0},
    {LINES("c\nC\n" GOOD), 13, 2},

    /* What stands behind it. */
    {LINES(S GOOD), 13, 14},
    {LINES(S U), 13, 14},
    {LINES(S "\n" V), 13, 14},
    {LINES(S "w -1 2 3 -4 5 -6 0\n"), 13, 14},
    {LINES(S "V -1 2 3 -4 5 -6 0\n"), 13, 14},
    {LINES(S "vv -1 2 3 -4 5 -6 0\n"), 13, 14},
    {LINES(S "v-1 2 3 -4 5 -6 0\n"), 13, 14},
    {LINES(S "-1 2 3 -4 5 -6 0\n"), 13, 14},
    {LINES(S "v\n" V), 13, 14},
    {LINES(S "v \n" V), 13, 14},
    {LINES(S "v -1 2 3\nv\nv -4 5 -6 0\n"), 13, 23},
    {LINES(S "v -1 2 3\n\nv -4 5 -6 0\n"), 13, 23},
    {LINES(S "v -1 2 3\n v -4 5 -6 0\n"), 13, 23},
    {LINES(S "v -1 2 3\ns SATISFIABLE\nv -4 5 -6 0\n"), 13, 23},

    /* Behind the 0 and behind s UNSATISFIABLE there may be comments and nothing else. */
    {LINES(GOOD "v 0\n"), 13, 33},
    {LINES(GOOD "v 1\n"), 13, 33},
    {LINES(GOOD "\n"), 13, 33},
    {LINES(GOOD GOOD), 13, 33},
    {LINES(GOOD "c\n" U), 13, 35},
    {LINES(U U), 13, 16},
    {LINES(U V), 13, 16},
    {LINES(U "v 0\n"), 13, 16},
    {LINES(U "\n"), 13, 16},
    {LINES(U "c\nx\n"), 13, 18},
    {LINES(S "v -1 2 3 -4 5 -6 0 0\n"), 13, 14},
    {LINES(S "v -1 2 3 -4 5 -6 0 1\n"), 13, 14},

    /* Every variable once, and last a 0. */
    {LINES(S "v 0\n"), 13, 14},
    {LINES(S "v 0 -1 2 3 -4 5 -6\n"), 13, 14},
    {LINES(S "v -1 2 3 -4 5 0\n"), 13, 14},
    {LINES(S "v 2 3 -4 5 -6 0\n"), 13, 14},
    {LINES(S "v -1 2 3\nv -4 5 0\n"), 13, 23},
    {LINES(S "v -1 2 3\nv 0\nv -4 5 -6 0\n"), 13, 23},
    {LINES(S "v -1 2 3 -4 5 5 -6 0\n"), 13, 14},
    {LINES(S "v -1 2 3 -4 5 -5 -6 0\n"), 13, 14},
    {LINES(S "v -1 2 3 -4 5\nv -6 1 0\n"), 13, 28},
    {LINES(S "v -1 2 3 -4 5 -6 7 0\n"), 13, 14},
    {LINES(S "v -1 2 3 -4 5 -6 -7 0\n"), 13, 14},
    {LINES(S "v -1 2 3 -4 5 -6\nv 259 0\n"), 13, 31},

    /* Numbers that are too large, some of which are a variable's, or 0, in fewer bits. */
    {LINES(S "v -1 2 3 -4 5 262 0\n"), 13, 14},
    {LINES(S "v -257 2 3 -4 5 -6 0\n"), 13, 14},
    {LINES(S "v -1 65538 3 -4 5 -6 0\n"), 13, 14},
    {LINES(S "v -1 4294967298 3 -4 5 -6 0\n"), 13, 14},
    {LINES(S "v -1 18446744073709551618 3 -4 5 -6 0\n"), 13, 14},
    {LINES(S "v -1 2 3 -4 5 -6 18446744073709551616\n"), 13, 14},
    {LINES(S "v -1 2 3 -4 5 -6 4294967296\n"), 13, 14},
    {LINES(S "v -1 2 3 -4 5 -6 256\n"), 13, 14},
    {LINES(S "v -1 340282366920938463463374607431768211458 3 -4 5 -6 0\n"), 13, 14},

    /* Numbers are written in one way only. */
    {LINES(S "v -1 2 3 -4 5 -6 -0\n"), 13, 14},
    {LINES(S "v -1 2 3 -4 5 -6 +0\n"), 13, 14},
    {LINES(S "v -1 2 3 -4 5 -6 00\n"), 13, 14},
    {LINES(S "v -1 +2 3 -4 5 -6 0\n"), 13, 14},
    {LINES(S "v -1 02 3 -4 5 -6 0\n"), 13, 14},
    {LINES(S "v -01 2 3 -4 5 -6 0\n"), 13, 14},
    {LINES(S "v --1 2 3 -4 5 -6 0\n"), 13, 14},
    {LINES(S "v - 1 2 3 -4 5 -6 0\n"), 13, 14},
    {LINES(S "v 1- 2 3 -4 5 -6 0\n"), 13, 14},
    {LINES(S "v -1 2 3 -4 5 -6 0.\n"), 13, 14},
    {LINES(S "v -1 2 3 -4 5 -6 0x0\n"), 13, 14},
    {LINES(S "v -1 x 3 -4 5 -6 0\n"), 13, 14},
    {LINES(S "v -1 2 3 c -4 5 -6 0\n"), 13, 14},
    {LINES(S "v -1 2 / -4 5 -6 0\n"), 13, 14},
    {LINES(S "v -1 2 : -4 5 -6 0\n"), 13, 14},
    {LINES(S "v -1 2 \xB3 -4 5 -6 0\n"), 13, 14},

    /* One space before each number, and none behind the last. */
    {LINES(S "v  -1 2 3 -4 5 -6 0\n"), 13, 14},
    {LINES(S "v -1 2  3 -4 5 -6 0\n"), 13, 14},
    {LINES(S "v -1 2 3 -4 5 -6 0 \n"), 13, 14},
    {LINES(S "v -1 2 3 \nv -4 5 -6 0\n"), 13, 14},
    {LINES(S "v\t-1 2 3 -4 5 -6 0\n"), 13, 14},
    {LINES(S "v -1\t2 3 -4 5 -6 0\n"), 13, 14},
    {LINES(S "v -1 2 3 -4 5 -6 0\t\n"), 13, 14},
    {LINES(S "v -1 2 3 -4 5 -6 0\r\n"), 13, 14},
    {LINES(S "v -1 2 3 -4 5 -6 0\0\n"), 13, 14},
    {LINES(S "v -1 2\0" "3 -4 5 -6 0\n"), 13, 14},
    {LINES(S "v -1 2,3 -4 5 -6 0\n"), 13, 14},

    /* Models that fail: the witness is e0, which is in both sets; e0 isn't in s1; it isn't in s0; the witness is in both. */
    {LINES(S "v 1 2 3 -4 5 -6 0\n"), 14, 0},
    {LINES(S "v -1 2 -3 -4 5 -6 0\n"), 14, 0},
    {LINES(S "v -1 -2 3 -4 5 -6 0\n"), 14, 0},
    {LINES(S "v -1 2 3 4 5 -6 0\n"), 14, 0},
    {LINES(S "v -1 2 3 -4 -5 -6 0\n"), 14, 0},
};

/* Whether lines give this number and answer, also by the second reader. */
static int as_due(const struct file *question, const uint8_t *lines, size_t length, const struct due *due)
{
    struct question asked;
    uint8_t answer[SAYFUDHOUM_MAX_ANSWER_LENGTH];
    const struct input input = {lend_question(question->bytes, question->length), question->length,
                                lend_lines(lines, length), length};
    return gives_in_rooms(&input, FOR_ANSWER, due) && read_question(question->bytes, question->length, &asked) == 0
        && solve(&asked, lines, length, answer) == due->number && memcmp(answer, due->bytes, due->count) == 0;
}

/* What is due if nothing is refused: this answer, in hexadecimal, or 0 and no answer. */
static struct due due_answer(const char *text)
{
    static uint8_t answer[SAYFUDHOUM_MAX_ANSWER_LENGTH];
    size_t length = from_hex(text, answer);
    const struct due due = {length * 256, answer, length};
    return due;
}

static int try_by_hand(void)
{
    int failed = 0;
    struct file question;
    question.length = from_hex(CASE_I, question.bytes);
    for (size_t i = 0; i < sizeof by_hand / sizeof by_hand[0]; i++) {
        struct due due = due_answer(by_hand[i].refusal == 0 ? ANSWER_I : "");
        if (by_hand[i].refusal != 0)
            due.number = by_hand[i].place * 256 + by_hand[i].refusal;
        if (!as_due(&question, (const uint8_t *)by_hand[i].lines, by_hand[i].length, &due)) {
            printf("not as expected:\n%.*s\n", (int)by_hand[i].length, by_hand[i].lines);
            failed = 1;
        }
    }
    return failed;
}

/* The solver's word: 0 is given and nothing is written, be the question possible or not. */
static int try_unsatisfiable(void)
{
    static const char *const texts[] = {U, "c\n" U, U "c\n", "c a\nc b\n" U "c c\nc\n"};
    const struct due due = due_answer("");
    int failed = 0;
    for (size_t i = 0; i < EXAMPLES; i++)
        for (size_t j = 0; j < sizeof texts / sizeof texts[0]; j++) {
            struct file question;
            question.length = from_hex(examples[i].question, question.bytes);
            failed |= !as_due(&question, (const uint8_t *)texts[j], strlen(texts[j]), &due);
        }
    if (failed)
        printf("s UNSATISFIABLE gives something else\n");
    return failed;
}

/* What cadical printed, comments and all. The models are read off by hand, and some are not the first ones. */
static const struct {
    const char *file, *question; /* or NULL, and then the heavy question of that number */
    size_t heavy;
    const char *answer; /* none if the solver says unsatisfiable */
} stored[] = {
    {"tests/cadical/case_a.txt", "01 00 02 00 00  7F 00 00", 0, "40 00 01 01  41 00 00  42 00 00  7F 00 00"},
    {"tests/cadical/case_i.txt", CASE_I, 0, ANSWER_I},
    {"tests/cadical/case_k.txt", "01 00 02 00 01  21 00 02 00 00  7F 00 00", 0, ""},
    {"tests/cadical/case_l.txt", "01 00 02 00 03  21 00 02 00 01  21 00 02 01 02  21 00 02 00 02  7F 00 00", 0,
     "40 00 01 01  41 00 03 00 01 02  42 00 06 00 02 00 04 00 04  7F 00 00"},
    {"tests/cadical/one_class.txt", NULL, 5,
     "40 00 01 01  41 00 0C 00 00 00 00 00 00 00 00 00 00 00 00  42 00 02 FF F5  7F 00 00"},
    {"tests/cadical/singles.txt", NULL, 6,
     "40 00 01 01  41 00 0C 00 01 02 03 04 05 06 07 00 01 02 03"
     "  42 00 10 00 01 00 02 00 04 00 08 00 10 00 20 00 40 00 80  7F 00 00"},
    {"tests/cadical/twelve_classes.txt", NULL, 7,
     "40 00 01 01  41 00 0C 00 01 02 03 04 05 06 07 08 09 0A 0B"
     "  42 00 18 00 01 00 01 00 01 00 01 00 01 00 01 00 01 00 01 00 02 00 04 00 08 00 10  7F 00 00"},
};

static size_t read_file(const char *name, uint8_t *bytes, size_t room)
{
    FILE *file = fopen(name, "rb");
    if (file == NULL) {
        perror(name);
        exit(2);
    }
    size_t length = fread(bytes, 1, room, file);
    fclose(file);
    return length;
}

static int try_stored(void)
{
    static uint8_t lines[LONGEST_TEXT];
    int failed = 0;
    for (size_t i = 0; i < sizeof stored / sizeof stored[0]; i++) {
        struct file question;
        if (stored[i].question == NULL)
            heavy_file(stored[i].heavy, &question);
        else
            question.length = from_hex(stored[i].question, question.bytes);
        const struct due due = due_answer(stored[i].answer);
        if (!as_due(&question, lines, read_file(stored[i].file, lines, sizeof lines), &due)) {
            printf("%s: not as expected\n", stored[i].file);
            failed = 1;
        }
    }
    return failed;
}

int main(void)
{
    int failed = try_by_hand();
    failed |= try_unsatisfiable();
    failed |= try_stored();
    return failed;
}
