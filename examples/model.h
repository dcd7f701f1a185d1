/* The model in an answer that says "possible": where its parts stand, and printing it in words. */
#ifndef MODEL_H
#define MODEL_H

#include <stddef.h>
#include <stdint.h>

struct model {
    size_t terms;           /* T: the element names, then a witness for each statement x != y */
    const uint8_t *classes; /* for each term the domain element that it is */
    size_t size;            /* n: the domain elements are 0 to n - 1 */
    const uint8_t *masks;   /* for each domain element two bytes, high byte first; bit x is set x */
};

/* What the model's parts are called. */
struct words {
    const char *element;      /* a domain element */
    const char *const *terms; /* a name for each term */
    const char *const *sets;  /* a name for each set */
    size_t set_count;
};

/* The model in an answer of sayfudhoum_answer, whose fourth byte is the verdict 1. */
struct model model_of(const uint8_t *answer);

/* Prints a line for each domain element: which terms it is, which sets it is in. */
void print_model(const struct model *model, const struct words *words);

#endif
