/* What an answer means, for the tests: written from document 01 alone, by trying everything. */
#ifndef SOLVER_H
#define SOLVER_H

#include "reader.h"

/* An arrangement with a mask for each class. */
struct model {
    unsigned classes[12]; /* of each term */
    unsigned size;        /* how many classes there are */
    unsigned masks[12];   /* of each class */
};

/* Reads an answer file to this question: 1 possible, with its model, 0 impossible, -1 no such file. */
int read_answer(const uint8_t *bytes, size_t length, const struct question *question, struct model *model);

/* Writes the answer file that says possible, with this model; gives its length. */
size_t write_answer(const struct question *question, const struct model *model, uint8_t *bytes);

/* Whether every statement holds in the model. Witnesses play no part in it. */
int meets(const struct question *question, const struct model *model);

/* The first model, by trying every arrangement and every mask: 1, or 0 if there is none. For small questions. */
int first_model(const struct question *question, struct model *model);

int same_model(const struct question *question, const struct model *one, const struct model *other);

#endif
