#include "dimacs.h"

#include <string.h>

/* Of T terms, term 0 has T - 1 pairs with a later one, term 1 has T - 2, and so on. */
unsigned pair_variable(const struct question *question, unsigned one, unsigned other)
{
    unsigned low = one < other ? one : other, high = one < other ? other : one;
    return low * (2 * question->terms - low - 1) / 2 + high - low;
}

static unsigned pairs_of(const struct question *question)
{
    return question->terms == 0 ? 0 : question->terms * (question->terms - 1) / 2;
}

unsigned in_variable(const struct question *question, unsigned term, unsigned set)
{
    return pairs_of(question) + term * question->sets + set + 1;
}

unsigned variables_of(const struct question *question)
{
    return pairs_of(question) + question->terms * question->sets + 1;
}

static void put_character(struct text *text, char character)
{
    text->bytes[text->length++] = (uint8_t)character;
}

void put_characters(struct text *text, const char *characters)
{
    while (*characters != '\0')
        put_character(text, *characters++);
}

void put_number(struct text *text, unsigned number)
{
    for (unsigned unit = 1000; unit > 0; unit /= 10)
        if (number >= unit || unit == 1)
            put_character(text, (char)('0' + number / unit % 10));
}

/* Clauses as document 02 has them, with p, q and r for variables: "(-p q)(p -q)". Gives how many there are. */
static unsigned put_clauses(struct text *text, const char *pattern, unsigned p, unsigned q, unsigned r)
{
    unsigned count = 0;
    for (; *pattern != '\0'; pattern++)
        switch (*pattern) {
        case '(': break;
        case 'p': put_number(text, p); break;
        case 'q': put_number(text, q); break;
        case 'r': put_number(text, r); break;
        case ')':
            put_characters(text, " 0\n");
            count++;
            break;
        default: put_character(text, *pattern); break;
        }
    return count;
}

/* For each triple b, c, d upward, with p, q, r for bc, cd, bd. */
static unsigned put_triples(struct text *text, const struct question *question)
{
    unsigned count = 0;
    for (unsigned b = 0; b < question->terms; b++)
        for (unsigned c = b + 1; c < question->terms; c++)
            for (unsigned d = c + 1; d < question->terms; d++)
                count += put_clauses(text, "(-p -q r)(-p -r q)(-r -q p)", pair_variable(question, b, c),
                                     pair_variable(question, c, d), pair_variable(question, b, d));
    return count;
}

/* For each pair c, d, then each set, with p, q for c, d in it and r for cd. */
static unsigned put_pairs(struct text *text, const struct question *question)
{
    unsigned count = 0;
    for (unsigned c = 0; c < question->terms; c++)
        for (unsigned d = c + 1; d < question->terms; d++)
            for (unsigned x = 0; x < question->sets; x++)
                count += put_clauses(text, "(-r -p q)(-r -q p)", in_variable(question, c, x),
                                     in_variable(question, d, x), pair_variable(question, c, d));
    return count;
}

/* A row for a term about up to three sets: kinds 3, 4, 5, 7, 8 and 9, by the tag from which it comes. */
static unsigned put_set_row(struct text *text, const struct question *question, const struct statement *statement,
                            unsigned term)
{
    unsigned p = in_variable(question, term, statement->names[0]);
    unsigned q = in_variable(question, term, statement->names[1]);
    unsigned r = in_variable(question, term, statement->names[2]);
    switch (statement->tag) {
    case 0x20: return put_clauses(text, "(-p q)(p -q)", p, q, r);
    case 0x21: return put_clauses(text, "(p q)(-p -q)", p, q, r);
    case 0x22: return put_clauses(text, "(-p)", p, q, r);
    case 0x30: return put_clauses(text, "(-p q r)(p -q)(p -r)", p, q, r);
    case 0x31: return put_clauses(text, "(-p q)(-p r)(p -q -r)", p, q, r);
    default: return put_clauses(text, "(-p q)(-p -r)(p -q r)", p, q, r);
    }
}

/* A row of kind 6: the term is in x exactly if it is the same as the named one. */
static unsigned put_single_row(struct text *text, const struct question *question, const struct statement *statement,
                               unsigned term)
{
    unsigned p = in_variable(question, term, statement->names[0]), named = statement->names[1];
    if (term == named)
        return put_clauses(text, "(p)", p, 0, 0);
    return put_clauses(text, "(-p q)(p -q)", p, pair_variable(question, term, named), 0);
}

/* The row of a = b or a != b. Where a is b there is no pair: nothing, or the spare variable and its denial. */
static unsigned put_pair_row(struct text *text, const struct question *question, const struct statement *statement)
{
    unsigned a = statement->names[0], b = statement->names[1];
    const char *pattern = statement->tag == 0x10 ? "(p)" : "(-p)";
    if (a != b)
        return put_clauses(text, pattern, pair_variable(question, a, b), 0, 0);
    return statement->tag == 0x10 ? 0 : put_clauses(text, "(p)(-p)", variables_of(question), 0, 0);
}

/* The rows of a statement, of which some are for each term; a witness is the term of the one x != y that it is for. */
static unsigned put_rows(struct text *text, const struct question *question, const struct statement *statement,
                         unsigned witness)
{
    unsigned count = 0, a = statement->names[0];
    switch (statement->tag) {
    case 0x10: case 0x11: return put_pair_row(text, question, statement);
    case 0x12: return put_clauses(text, "(p)", in_variable(question, a, statement->names[1]), 0, 0);
    case 0x13: return put_clauses(text, "(-p)", in_variable(question, a, statement->names[1]), 0, 0);
    case 0x21: return put_set_row(text, question, statement, witness);
    }
    for (unsigned term = 0; term < question->terms; term++)
        count += statement->tag == 0x23 ? put_single_row(text, question, statement, term)
                                        : put_set_row(text, question, statement, term);
    return count;
}

void write_dimacs(const struct question *question, struct text *text)
{
    static struct text clauses;
    clauses.length = 0;
    unsigned count = put_triples(&clauses, question);
    count += put_pairs(&clauses, question);
    unsigned witness = question->elements;
    for (size_t i = 0; i < question->count; i++) {
        count += put_rows(&clauses, question, &question->statements[i], witness);
        if (question->statements[i].tag == 0x21)
            witness++;
    }
    text->length = 0;
    put_characters(text, "p cnf ");
    put_number(text, variables_of(question));
    put_character(text, ' ');
    put_number(text, count);
    put_character(text, '\n');
    memcpy(text->bytes + text->length, clauses.bytes, clauses.length);
    text->length += clauses.length;
}
