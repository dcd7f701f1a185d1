#include "model.h"

#include <stdio.h>

/*
 * The answer is 40 00 01 v, 41 00 T and T class numbers, 42 00 2n and 2n bytes of masks, 7F 00 00.
 * Lengths are at most 24, so their low byte is all of them.
 */
struct model model_of(const uint8_t *answer)
{
    struct model model;
    model.terms = answer[6];
    model.classes = answer + 7;
    const uint8_t *masks = model.classes + model.terms;
    model.size = masks[2] / 2u;
    model.masks = masks + 3;
    return model;
}

static int is_in(const struct model *model, size_t element, size_t set)
{
    const uint8_t *mask = model->masks + 2 * element;
    unsigned bits = mask[0] * 256u + mask[1];
    return (bits >> set) % 2 == 1;
}

static void print_terms(const struct model *model, size_t element, const struct words *words)
{
    const char *between = " is ";
    for (size_t term = 0; term < model->terms; term++)
        if (model->classes[term] == element) {
            printf("%s%s", between, words->terms[term]);
            between = ", ";
        }
}

static void print_sets(const struct model *model, size_t element, const struct words *words)
{
    const char *between = "; its sets: ";
    for (size_t set = 0; set < words->set_count; set++)
        if (is_in(model, element, set)) {
            printf("%s%s", between, words->sets[set]);
            between = ", ";
        }
}

void print_model(const struct model *model, const struct words *words)
{
    for (size_t element = 0; element < model->size; element++) {
        printf("  %s %zu", words->element, element);
        print_terms(model, element, words);
        print_sets(model, element, words);
        printf("\n");
    }
}
