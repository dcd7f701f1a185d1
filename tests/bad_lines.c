/*
 * Damaged lines and lying models beside a second reader: good lines cut off after each byte, with each byte
 * changed, dropped and doubled; models with each literal turned; and for small questions every assignment
 * of truth values, of which those that satisfy the clauses must never be refused.
 */
#include "files.h"
#include "lines.h"
#include "rounds.h"
#include "table.h"

#include <stdio.h>
#include <stdlib.h>
#include <string.h>

/* The lines that are being tried, beside the question that is lent. */
static struct question asked;
static struct input input;
static unsigned long tried, answered, said_unsatisfiable, bad_lines, failing_models;

/* Ends the test with the question and the lines that failed. */
static void expect(int as_it_should_be, const char *otherwise)
{
    if (as_it_should_be)
        return;
    printf("%s, with this question of %zu bytes:\n", otherwise, input.question_length);
    for (size_t i = 0; i < input.question_length; i++)
        printf(" %02X", input.question[i]);
    printf("\nand these lines of %zu bytes:\n", input.lines_length);
    fwrite(input.lines, 1, input.lines_length, stdout);
    exit(1);
}

/* Lends a question that the reader accepts. */
static void ask(const uint8_t *bytes, size_t length)
{
    input.question = lend_question(bytes, length);
    input.question_length = length;
    input.lines = NULL;
    input.lines_length = 0;
    expect(read_question(bytes, length, &asked) == 0, "the tests' own reader refuses");
}

static void ask_hex(const char *text)
{
    uint8_t bytes[SAYFUDHOUM_MAX_QUESTION_LENGTH];
    ask(bytes, from_hex(text, bytes));
}

static void count(uint64_t number)
{
    tried++;
    if (sayfudhoum_refusal(number) == SAYFUDHOUM_BAD_LINES)
        bad_lines++;
    else if (sayfudhoum_refusal(number) == SAYFUDHOUM_MODEL_FAILS)
        failing_models++;
    else if (number == 0)
        said_unsatisfiable++;
    else
        answered++;
}

/* Edges take turns, and lengths of the buffer: never too short, just long enough, one byte too short. */
static void try_lines(const uint8_t *bytes, size_t length)
{
    uint8_t answer[SAYFUDHOUM_MAX_ANSWER_LENGTH];
    struct due due = {solve(&asked, bytes, length, answer), answer, 0};
    due.count = sayfudhoum_refusal(due.number) == 0 ? sayfudhoum_rest(due.number) : 0;
    input.lines = lend_lines(bytes, length);
    input.lines_length = length;
    enum edge edge = tried % 2 == 0 ? BEFORE_PAGE : BEHIND_PAGE;
    expect(gives(&input, FOR_ANSWER, sizeof answer, edge, &due), "not what the second reader says");
    expect(gives(&input, FOR_ANSWER, due.count, edge, &due), "wrong in just enough room");
    if (due.count > 0)
        expect(gives(&input, FOR_ANSWER, due.count - 1, edge, &due), "wrong in too little room");
    expect(memcmp(input.lines, bytes, length) == 0, "the lines were written");
    count(due.number);
}

/* The lines cut off after each byte. */
static void try_prefixes(const struct text *lines)
{
    for (size_t length = 0; length <= lines->length; length++)
        try_lines(lines->bytes, length);
}

/* The bytes that stand in lines, and neighbours of them; after them come all others, where everything is tried. */
static const uint8_t near_bytes[] = "0123456789 -+\n\rcsvSUE\t:/.\0";

static void try_changed(const struct text *lines, int all)
{
    static struct text changed;
    size_t values = all ? 256 : sizeof near_bytes;
    changed = *lines;
    for (size_t place = 0; place < lines->length; place++) {
        for (size_t i = 0; i < values; i++) {
            changed.bytes[place] = all ? (uint8_t)i : near_bytes[i];
            try_lines(changed.bytes, changed.length);
        }
        changed.bytes[place] = lines->bytes[place];
    }
}

/* Each byte dropped, doubled, and in each other's place with the next. */
static void try_moved(const struct text *lines)
{
    static struct text moved;
    for (size_t place = 0; place < lines->length; place++) {
        const uint8_t *rest = lines->bytes + place;
        size_t behind = lines->length - place;
        moved = *lines;
        memcpy(moved.bytes + place, rest + 1, behind - 1);
        try_lines(moved.bytes, lines->length - 1);
        memcpy(moved.bytes + place + 1, rest, behind);
        moved.bytes[place] = rest[0];
        try_lines(moved.bytes, lines->length + 1);
        if (behind > 1) {
            moved = *lines;
            moved.bytes[place] = rest[1];
            moved.bytes[place + 1] = rest[0];
            try_lines(moved.bytes, lines->length);
        }
    }
}

/* The answer to the question, and the values of its first model; their result, or 0 if it has none. */
static uint64_t first_values(uint8_t answer[SAYFUDHOUM_MAX_ANSWER_LENGTH], struct values *values)
{
    struct model model;
    uint64_t result = sayfudhoum_answer(input.question, input.question_length, answer, SAYFUDHOUM_MAX_ANSWER_LENGTH);
    if (read_answer(answer, sayfudhoum_rest(result), &asked, &model) != 1)
        return 0;
    values_of(&asked, &model, values);
    return result;
}

/* The lines of a question's first model with so many numbers on a line, and comments if they are wanted. */
static int first_lines(unsigned on_a_line, const char *comment, struct text *lines)
{
    static struct text said;
    uint8_t answer[SAYFUDHOUM_MAX_ANSWER_LENGTH];
    struct values values;
    if (first_values(answer, &values) == 0)
        return 0;
    write_lines(&values, variables_of(&asked), on_a_line, &said);
    lines->length = 0;
    put_characters(lines, comment);
    for (size_t i = 0; i < said.length; i++) {
        lines->bytes[lines->length++] = said.bytes[i];
        if (said.bytes[i] == '\n')
            put_characters(lines, comment);
    }
    return 1;
}

static void try_damaged(void)
{
    static struct text lines;
    for (size_t i = 0; i < EXAMPLES; i++) {
        ask_hex(examples[i].question);
        for (unsigned on_a_line = 1; on_a_line <= 300; on_a_line *= 7) {
            int small = asked.terms <= 3;
            if (!first_lines(on_a_line, on_a_line == 7 ? "c v 0\n" : "", &lines))
                continue;
            try_prefixes(&lines);
            try_changed(&lines, small && on_a_line == 7);
            try_moved(&lines);
        }
    }
}

/*
 * Every literal of a model turned, one at a time, and two drawn ones: 14, or an answer where it does no harm.
 * The first model's own lines are answered by the first answer.
 */
static void try_turned(void)
{
    static struct text lines;
    uint8_t answer[SAYFUDHOUM_MAX_ANSWER_LENGTH];
    struct values values;
    uint64_t result = first_values(answer, &values);
    if (result == 0)
        return;
    unsigned variables = variables_of(&asked);
    write_lines(&values, variables, 12, &lines);
    try_lines(lines.bytes, lines.length);
    const struct due due = {result, answer, sayfudhoum_rest(result)};
    expect(gives_in_rooms(&input, FOR_ANSWER, &due), "the first model's lines give another answer");
    for (unsigned variable = 1; variable <= variables; variable++) {
        struct values turned = values;
        turned.of[variable] *= -1;
        write_lines(&turned, variables, variable, &lines);
        try_lines(lines.bytes, lines.length);
        turned.of[1 + random_below(variables < 256 ? variables : 256)] *= -1;
        write_lines(&turned, variables, 12, &lines);
        try_lines(lines.bytes, lines.length);
    }
}

/* Whether an assignment, a bit for each variable, satisfies the clauses of a text that the library wrote. */
static int satisfies(unsigned long assignment, const char *clauses)
{
    const char *line = strchr(clauses, '\n') + 1;
    int good = 0;
    while (*line != '\0') {
        char *end;
        long literal = strtol(line, &end, 10);
        if (literal == 0) {
            if (!good)
                return 0;
            good = 0;
        } else if (((assignment >> (labs(literal) - 1)) & 1) == (literal > 0)) {
            good = 1;
        }
        line = *end == '\n' ? end + 1 : end;
    }
    return 1;
}

/*
 * Every assignment, of a question that has few variables. One that satisfies the clauses must be answered,
 * and there is one exactly if the question is possible.
 */
enum { FEW_VARIABLES = 12 };
static unsigned long satisfying, small_questions;
static void try_all_assignments(void)
{
    static char clauses[SAYFUDHOUM_MAX_CLAUSES_LENGTH + 1];
    static struct text lines;
    unsigned variables = variables_of(&asked);
    if (variables > FEW_VARIABLES)
        return;
    uint64_t written = sayfudhoum_clauses(input.question, input.question_length, (uint8_t *)clauses, sizeof clauses - 1);
    clauses[sayfudhoum_rest(written)] = '\0';
    unsigned long found = 0;
    for (unsigned long assignment = 0; assignment >> variables == 0; assignment++) {
        struct values values = {1, {0}};
        for (unsigned variable = 1; variable <= variables; variable++)
            values.of[variable] = ((assignment >> (variable - 1)) & 1) == 1 ? 1 : -1;
        write_lines(&values, variables, 5, &lines);
        unsigned long before = answered;
        try_lines(lines.bytes, lines.length);
        if (satisfies(assignment, clauses)) {
            expect(answered == before + 1, "a model that satisfies the clauses was refused");
            found++;
        }
    }
    int possible = sayfudhoum_verdict(input.question, input.question_length) == 256;
    expect((found > 0) == possible, "the clauses can be satisfied and the question is impossible, or the other way round");
    satisfying += found;
    small_questions++;
}

#define S "s SATISFIABLE\n"

/* Lines put together at random from words that mostly fit. */
static void draw_lines(struct text *lines)
{
    static const char *const words[] = {"v", "\n", " ", " 0", " -0", "c", "s SATISFIABLE\n", "s UNSATISFIABLE\n", "\nv"};
    unsigned variables = variables_of(&asked);
    lines->length = 0;
    put_characters(lines, random_below(16) == 0 ? "" : S);
    put_characters(lines, random_below(16) == 0 ? "" : "v");
    for (unsigned variable = 1; variable <= variables; variable++) {
        if (random_below(64) == 0)
            put_characters(lines, words[random_below(sizeof words / sizeof words[0])]);
        if (random_below(8) == 0)
            put_characters(lines, "\nv");
        put_characters(lines, random_below(2) == 0 ? " " : " -");
        put_number(lines, random_below(128) == 0 ? random_below(variables < 250 ? variables + 3 : 250) : variable);
    }
    put_characters(lines, random_below(16) == 0 ? "" : " 0");
    put_characters(lines, random_below(16) == 0 ? "" : "\n");
    if (random_below(4) == 0)
        put_characters(lines, words[random_below(sizeof words / sizeof words[0])]);
}

/* Each case with few variables; and three elements, two of which are the same, or one in a set and not the others. */
static void try_small(void)
{
    static const char *const questions[] = {
        "01 00 02 03 01  10 00 02 01 02  7F 00 00",
        "01 00 02 03 01  10 00 02 00 02  11 00 02 00 01  7F 00 00",
        "01 00 02 03 02  10 00 02 02 00  23 00 02 01 01  7F 00 00",
        "01 00 02 04 00  10 00 02 00 03  10 00 02 01 02  11 00 02 03 01  7F 00 00",
    };
    for (size_t i = 0; i < EXAMPLES; i++) {
        ask_hex(examples[i].question);
        try_all_assignments();
    }
    for (size_t i = 0; i < sizeof questions / sizeof questions[0]; i++) {
        ask_hex(questions[i]);
        try_all_assignments();
    }
}

enum { DRAWN = 300, DRAWN_LINES = 30 };
static void try_drawn(void)
{
    static struct text lines;
    struct file file;
    for (size_t i = 0; i < DRAWN; i++) {
        random_file(&file);
        if (read_question(file.bytes, file.length, &asked) != 0)
            continue;
        ask(file.bytes, file.length);
        try_turned();
        try_all_assignments();
        for (size_t j = 0; j < DRAWN_LINES; j++) {
            draw_lines(&lines);
            try_lines(lines.bytes, lines.length);
        }
    }
    for (size_t i = 0; i < HEAVY_FILES; i++) {
        heavy_file(i, &file);
        ask(file.bytes, file.length);
        try_turned();
    }
}

/* Case I, and lines that say its first model. */
#define CASE_I "01 00 02 01 02  23 00 02 00 00  21 00 02 00 01  12 00 02 00 01  7F 00 00"
#define GOOD S "v -1 2 3 -4 5 -6 0\n"

/* Long lines and many: comments, digits, spaces, ends of lines, before and behind what is good. */
static void try_long(void)
{
    static struct text lines;
    static const char *const fronts[] = {"", "c", S, S "v", S "v -1", GOOD "c", "s UNSATISFIABLE\nc"};
    static const char *const ends[] = {"", "\n", "\n" GOOD, "\nc"};
    static const char fills[] = "c\n 01-vs";
    ask_hex(CASE_I);
    for (size_t front = 0; front < sizeof fronts / sizeof fronts[0]; front++)
        for (size_t fill = 0; fill < sizeof fills - 1; fill++)
            for (size_t end = 0; end < sizeof ends / sizeof ends[0]; end++) {
                lines.length = 0;
                put_characters(&lines, fronts[front]);
                memset(lines.bytes + lines.length, fills[fill], 100000);
                lines.length += 100000;
                put_characters(&lines, ends[end]);
                try_lines(lines.bytes, lines.length);
            }
}

int main(void)
{
    try_damaged();
    try_small();
    try_drawn();
    try_long();
    printf("%lu texts: %lu answered, %lu said unsatisfiable, %lu refused by 13, %lu by 14\n", tried, answered,
           said_unsatisfiable, bad_lines, failing_models);
    printf("every assignment of %lu small questions, of which %lu satisfy the clauses\n", small_questions, satisfying);
    return 0;
}
