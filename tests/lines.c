#include "lines.h"

#include <stdio.h>
#include <stdlib.h>
#include <string.h>

/* What was read so far, which decides what may follow. */
enum stage { NOTHING, MODEL_BEGUN, MODEL_ENDED, UNSATISFIABLE };

struct reading {
    enum stage stage;
    unsigned variables, unsaid; /* how many there are, and how many have no value yet */
    struct values *values;
};

/* One number of a `v` line; gives whether it can stand there. */
static int take_number(struct reading *reading, long number)
{
    long variable = labs(number);
    if (reading->stage != MODEL_BEGUN || variable > (long)reading->variables)
        return 0;
    if (number == 0) {
        reading->stage = MODEL_ENDED;
        return reading->unsaid == 0;
    }
    if (reading->values->of[variable] != 0)
        return 0;
    reading->values->of[variable] = number > 0 ? 1 : -1;
    reading->unsaid--;
    return 1;
}

/* The numbers of a `v` line, behind the v: each has to print, behind a space, as it stands. */
static int take_numbers(struct reading *reading, const char *line)
{
    do {
        char printed[32], *end;
        long number = strtol(line, &end, 10);
        int count = snprintf(printed, sizeof printed, " %ld", number);
        if (number < -9999 || number > 9999 || strncmp(line, printed, (size_t)count) != 0 || end != line + count
            || !take_number(reading, number))
            return 0;
        line = end;
    } while (*line != '\0');
    return 1;
}

/* One line without its end; gives whether it can stand where it stands. */
static int take_line(struct reading *reading, const char *line)
{
    if (line[0] == 'c')
        return 1;
    switch (reading->stage) {
    case NOTHING:
        reading->values->satisfiable = strcmp(line, "s SATISFIABLE") == 0;
        reading->stage = reading->values->satisfiable ? MODEL_BEGUN : UNSATISFIABLE;
        return reading->values->satisfiable || strcmp(line, "s UNSATISFIABLE") == 0;
    case MODEL_BEGUN:
        return line[0] == 'v' && take_numbers(reading, line + 1);
    default:
        return 0;
    }
}

/* A line is copied so that a zero stands behind it. A zero in it can stand in a comment only. */
static int take_bytes(struct reading *reading, const uint8_t *bytes, size_t length)
{
    static char line[LONGEST_TEXT + 1];
    memcpy(line, bytes, length);
    line[length] = '\0';
    return (strlen(line) == length || line[0] == 'c') && take_line(reading, line);
}

uint64_t read_lines(const uint8_t *bytes, size_t length, unsigned variables, struct values *values)
{
    struct reading reading = {NOTHING, variables, variables, values};
    memset(values, 0, sizeof *values);
    size_t place = 0;
    while (place < length) {
        size_t end = place;
        while (end < length && bytes[end] != '\n')
            end++;
        if (end == length || !take_bytes(&reading, bytes + place, end - place))
            return place * 256 + 13;
        place = end + 1;
    }
    return reading.stage == MODEL_ENDED || reading.stage == UNSATISFIABLE ? 0 : length * 256 + 13;
}

void model_said(const struct question *question, const struct values *values, struct model *model)
{
    memset(model, 0, sizeof *model);
    for (unsigned term = 0; term < question->terms; term++) {
        unsigned same = 0;
        while (same < term && values->of[pair_variable(question, same, term)] != 1)
            same++;
        model->classes[term] = same < term ? model->classes[same] : model->size;
        if (same < term)
            continue;
        for (unsigned set = 0; set < question->sets; set++)
            if (values->of[in_variable(question, term, set)] == 1)
                model->masks[model->size] |= 1u << set;
        model->size++;
    }
}

void values_of(const struct question *question, const struct model *model, struct values *values)
{
    memset(values, 0, sizeof *values);
    values->satisfiable = 1;
    for (unsigned d = 0; d < question->terms; d++) {
        for (unsigned c = 0; c < d; c++)
            values->of[pair_variable(question, c, d)] = model->classes[c] == model->classes[d] ? 1 : -1;
        for (unsigned x = 0; x < question->sets; x++)
            values->of[in_variable(question, d, x)] = model->masks[model->classes[d]] >> x & 1 ? 1 : -1;
    }
    values->of[variables_of(question)] = -1;
}

void write_lines(const struct values *values, unsigned variables, unsigned on_a_line, struct text *text)
{
    text->length = 0;
    put_characters(text, "s SATISFIABLE\n");
    for (unsigned i = 0; i <= variables; i++) {
        unsigned variable = i == variables ? 0 : i + 1;
        put_characters(text, i % on_a_line == 0 ? "v " : " ");
        put_characters(text, values->of[variable] < 0 ? "-" : "");
        put_number(text, variable);
        put_characters(text, i == variables || (i + 1) % on_a_line == 0 ? "\n" : "");
    }
}

uint64_t solve(const struct question *question, const uint8_t *lines, size_t length, uint8_t *answer)
{
    struct values values;
    struct model model;
    uint64_t refusal = read_lines(lines, length, variables_of(question), &values);
    if (refusal != 0 || !values.satisfiable)
        return refusal;
    model_said(question, &values, &model);
    return meets(question, &model) ? write_answer(question, &model, answer) * 256 : 14;
}
