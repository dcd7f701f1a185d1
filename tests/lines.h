/*
 * A second reader of a solver's lines, for the tests: written from document 02 alone. A number is read by
 * strtol and has to print as it stands; the model is judged as solver.h does it.
 */
#ifndef LINES_H
#define LINES_H

#include "dimacs.h"
#include "solver.h"

/* What lines say: of each variable, by its number, 1 true, -1 false, 0 nothing. */
struct values {
    int satisfiable;
    int of[MOST_VARIABLES + 1];
};

/* Reads lines about so many variables. Gives 0, or the refusal: 13 and 256 times its place. */
uint64_t read_lines(const uint8_t *bytes, size_t length, unsigned variables, struct values *values);

/* The model that values say: a term joins the class of the lowest earlier term that it is the same as. */
void model_said(const struct question *question, const struct values *values, struct model *model);

/* The values that a model says, with the spare variable false. */
void values_of(const struct question *question, const struct model *model, struct values *values);

/* Writes the lines that say these values, with so many numbers on each line. */
void write_lines(const struct values *values, unsigned variables, unsigned on_a_line, struct text *text);

/*
 * What sayfudhoum_solved has to give for a question that the reader accepts, with room for any answer: the
 * number, and the bytes of the answer, if there is one.
 */
uint64_t solve(const struct question *question, const uint8_t *lines, size_t length, uint8_t *answer);

#endif
