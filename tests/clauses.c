/*
 * The clauses of a question. Texts worked out by hand; cases A to N, the heavy questions and drawn ones
 * byte by byte beside a second writer, in buffers that are too short, just long enough or longer; and the
 * longest text that there is, beside the header's constant.
 */
#include "dimacs.h"
#include "files.h"
#include "rounds.h"
#include "table.h"

#include <stdio.h>
#include <stdlib.h>
#include <string.h>

static const struct {
    const char *name, *question, *text;
} by_hand[] = {
    /* Nothing is declared or stated: the spare, and no clause. */
    {"A", "01 00 02 00 00  7F 00 00", "p cnf 1 0\n"},

    /* Sixteen sets and no term are the same. */
    {"no terms", "01 00 02 00 10  30 00 03 00 01 02  7F 00 00", "p cnf 1 0\n"},

    /*
     * Case I: the terms are e0 and the witness of s0 != s1. 1: they are the same; 2, 3: e0 is in s0, s1;
     * 4, 5: the witness is; 6: the spare. Then s0 = {e0} for e0 itself and for the witness, s0 != s1 for the
     * witness, e0 in s1.
     */
    {"I", "01 00 02 01 02  23 00 02 00 00  21 00 02 00 01  12 00 02 00 01  7F 00 00",
     "p cnf 6 10\n"
     "-1 -2 4 0\n-1 -4 2 0\n-1 -3 5 0\n-1 -5 3 0\n"
     "2 0\n-4 1 0\n4 -1 0\n"
     "4 5 0\n-4 -5 0\n"
     "3 0\n"},

    /* e0 != e0: the spare and its denial. */
    {"a term that isn't itself", "01 00 02 01 00  11 00 02 00 00  7F 00 00", "p cnf 1 2\n1 0\n-1 0\n"},

    /* e1 = e1, e1 != e1, e0 = e1, e1 != e0: nothing; the spare and its denial; the one variable of the pair, twice. */
    {"pairs in both orders", "01 00 02 02 01  10 00 02 01 01  11 00 02 01 01  10 00 02 00 01  11 00 02 01 00  7F 00 00",
     "p cnf 4 6\n-1 -2 3 0\n-1 -3 2 0\n4 0\n-4 0\n1 0\n-1 0\n"},

    /* s0 = {e0}, s0 = {e1}: of each, the row of the named element is one literal. */
    {"x = {a}", "01 00 02 02 01  23 00 02 00 00  23 00 02 00 01  7F 00 00",
     "p cnf 4 8\n-1 -2 3 0\n-1 -3 2 0\n2 0\n-3 1 0\n3 -1 0\n-2 1 0\n2 -1 0\n3 0\n"},

    /* Four elements: the pairs 01, 02, 03, 12, 13, 23 are 1 to 6, the triples 012, 013, 023, 123. */
    {"triples", "01 00 02 04 00  7F 00 00",
     "p cnf 7 12\n"
     "-1 -4 2 0\n-1 -2 4 0\n-2 -4 1 0\n"
     "-1 -5 3 0\n-1 -3 5 0\n-3 -5 1 0\n"
     "-2 -6 3 0\n-2 -3 6 0\n-3 -6 2 0\n"
     "-4 -6 5 0\n-4 -5 6 0\n-5 -6 4 0\n"},

    /* Two elements and two sets: for the pair, first s0, then s1. The sets of e0 are 2, 3, those of e1 4, 5. */
    {"a pair and each set", "01 00 02 02 02  12 00 02 01 00  13 00 02 00 01  7F 00 00",
     "p cnf 6 6\n-1 -2 4 0\n-1 -4 2 0\n-1 -3 5 0\n-1 -5 3 0\n4 0\n-3 0\n"},

    /* One element, so no pair; every kind of row about sets, the last with nothing simplified: s0 = s1 union s1. */
    {"every kind", "01 00 02 01 03  12 00 02 00 01  13 00 02 00 02  20 00 02 01 02  22 00 01 00  23 00 02 02 00"
                   "  30 00 03 00 01 02  31 00 03 00 01 02  32 00 03 00 01 02  30 00 03 00 01 01  7F 00 00",
     "p cnf 4 18\n2 0\n-3 0\n-2 3 0\n2 -3 0\n-1 0\n3 0\n"
     "-1 2 3 0\n1 -2 0\n1 -3 0\n"
     "-1 2 0\n-1 3 0\n1 -2 -3 0\n"
     "-1 2 0\n-1 -3 0\n1 -2 3 0\n"
     "-1 2 2 0\n1 -2 0\n1 -2 0\n"},

    /* Two witnesses, of s0 != s1 and s1 != s1, behind no element: each has its own row. */
    {"witnesses", "01 00 02 00 02  21 00 02 00 01  21 00 02 01 01  7F 00 00",
     "p cnf 6 8\n-1 -2 4 0\n-1 -4 2 0\n-1 -3 5 0\n-1 -5 3 0\n2 3 0\n-2 -3 0\n5 5 0\n-5 -5 0\n"},
};

static int try_by_hand(void)
{
    int failed = 0;
    for (size_t i = 0; i < sizeof by_hand / sizeof by_hand[0]; i++) {
        uint8_t bytes[SAYFUDHOUM_MAX_QUESTION_LENGTH];
        size_t length = from_hex(by_hand[i].question, bytes), count = strlen(by_hand[i].text);
        const struct input input = {lend_question(bytes, length), length, NULL, 0};
        const struct due due = {count * 256, (const uint8_t *)by_hand[i].text, count};
        if (!gives_in_rooms(&input, FOR_CLAUSES, &due)) {
            printf("%s failed\n", by_hand[i].name);
            failed = 1;
        }
    }
    return failed;
}

/* Questions beside the second writer. */
enum { DRAWN = 1000 };
static unsigned long written, refused;
static size_t longest;

/* A question that is drawn may be refused, for too many witnesses; then its clauses are too. */
static void try_question(const struct file *file)
{
    static struct text text;
    struct question question;
    const struct input input = {lend_question(file->bytes, file->length), file->length, NULL, 0};
    struct due due = {read_question(file->bytes, file->length, &question), NULL, 0};
    text.length = 0;
    if (due.number == 0) {
        write_dimacs(&question, &text);
        due.number = text.length * 256;
        written++;
    } else {
        refused++;
    }
    due.bytes = text.bytes;
    due.count = text.length;
    expect_of(gives_in_rooms(&input, FOR_CLAUSES, &due), "other clauses than the second writer's", file);
    expect_of(text.length <= SAYFUDHOUM_MAX_CLAUSES_LENGTH, "longer than the header says", file);
    if (text.length > longest)
        longest = text.length;
}

static void try_questions(void)
{
    struct file file;
    for (size_t i = 0; i < EXAMPLES; i++) {
        file.length = from_hex(examples[i].question, file.bytes);
        try_question(&file);
    }
    try_files(DRAWN, try_question);
}

/*
 * As long as can be: twelve terms and sixteen sets, so that four statements at least are x != y; and all
 * others of a kind that gives three clauses with four minuses for each term, on sets whose variables have
 * three digits from the third term on. For the first two terms no set's variable has.
 */
enum { LONGEST = 65599 };
static int try_longest(void)
{
    struct file file = {{0}, 0};
    put_field(&file, 0x01, 2, 8, 16, 0);
    for (uint8_t i = 0; i < 4; i++)
        put_field(&file, 0x21, 2, 14, 15, 0);
    for (uint8_t i = 4; i < 64; i++)
        put_field(&file, i % 2 == 0 ? 0x31 : 0x32, 3, 13, 14, 15);
    put_field(&file, 0x7F, 0, 0, 0, 0);
    longest = 0;
    try_question(&file);
    printf("the longest text has %zu bytes, and the header leaves %d\n", longest, SAYFUDHOUM_MAX_CLAUSES_LENGTH);
    return longest != LONGEST;
}

int main(void)
{
    int failed = try_by_hand();
    try_questions();
    if (longest > LONGEST)
        failed = 1;
    printf("%lu texts as the second writer writes them, up to %zu bytes; %lu questions refused\n", written, longest,
           refused);
    return failed | try_longest();
}
