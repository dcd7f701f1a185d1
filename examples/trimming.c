/*
 * A question from the field: can a trimming step leave a knot?
 *
 * Where two arms of an offset line cross, at least one of them runs over covered ground, and is due to
 * be cut. Wanted: after the step not both arms are kept. The property is stated denied, so
 * "impossible" means that no pass can break it.
 *
 * Two versions of the step are decided. They differ in one tag, that of the statement which makes the
 * book of cut segments from those that are due and those that are barred. Of the right one, the
 * statements that make it right are printed, of the wrong one a model that shows how it goes wrong.
 */
#include "model.h"
#include "sayfudhoum.h"
#include "statement.h"

#include <stdio.h>
#include <string.h>

/* The segments with a name, and for printing the witness that something is due. */
enum { LEFT_ARM, RIGHT_ARM, ELEMENTS };
static const char *const terms[] = {"the left arm", "the right arm", "one that is due"};

/* The sets of segments: the books, and what the step makes on its way from one book to the next. */
enum { KEPT_BEFORE, COVERED, BARRED, LEFT, RIGHT, CROSSING, DUE, NOTHING, CUT, KEPT_AFTER, SETS };
static const char *const sets[] = {"kept before", "covered", "barred",  "left", "right",
                                   "crossing",    "due",     "nothing", "cut",  "kept after"};

static const struct words words = {"segment", terms, sets, SETS};

struct question {
    uint8_t bytes[SAYFUDHOUM_MAX_QUESTION_LENGTH];
    size_t length;
};

/* Puts a field behind the last one: its tag, the length in two bytes, the body. */
static void put(struct question *question, uint8_t tag, const uint8_t *body, uint8_t length)
{
    uint8_t *field = question->bytes + question->length;
    field[0] = tag;
    field[1] = 0;
    field[2] = length;
    memcpy(field + 3, body, length);
    question->length += 3u + length;
}

#define BODY(...) ((const uint8_t[]){__VA_ARGS__})
#define PUT(tag, ...) put(q, tag, BODY(__VA_ARGS__), sizeof BODY(__VA_ARGS__))
#define STATE(kind, ...) PUT(SAYFUDHOUM_TAG_##kind, __VA_ARGS__)

/* The step, which makes up CUT from DUE and BARRED by the tag cut_by, and the denied property. */
static void put_step(struct question *q, uint8_t cut_by)
{
    STATE(NAMES, ELEMENTS, SETS);
    STATE(ELEMENTS_DIFFER, LEFT_ARM, RIGHT_ARM);     /* the arms are two segments */
    STATE(SINGLE, LEFT, LEFT_ARM);                   /* left = {left arm} */
    STATE(SINGLE, RIGHT, RIGHT_ARM);                 /* right = {right arm} */
    STATE(UNION, CROSSING, LEFT, RIGHT);             /* these two cross */
    STATE(INTERSECTION, DUE, CROSSING, COVERED);     /* what runs over covered ground is due */
    STATE(EMPTY, NOTHING);                           /* nothing is the empty set, */
    STATE(SETS_DIFFER, DUE, NOTHING);                /* and due is not: one arm at least is in it */
    PUT(cut_by, CUT, DUE, BARRED);                   /* the book of cut segments */
    STATE(DIFFERENCE, KEPT_AFTER, KEPT_BEFORE, CUT); /* the book of kept segments */
    STATE(IN, LEFT_ARM, KEPT_AFTER);                 /* denied: the left arm stays kept, */
    STATE(IN, RIGHT_ARM, KEPT_AFTER);                /* and so does the right arm */
    put(q, SAYFUDHOUM_TAG_END, BODY(0), 0);
}

/* Prints the statements of a clashing part, each behind its index in the question. */
static void print_part(const uint8_t *part, const uint8_t *indexes, size_t count)
{
    const uint8_t *field = part + 5; /* behind the names */
    for (size_t i = 0; i < count; i++) {
        printf("  %2u: ", indexes[i]);
        print_statement(field, &words);
        printf("\n");
        field += 3 + field[2];
    }
}

/* One call gives both: of an impossible question the clashing part, of a possible one the model in its answer. */
static int decide(const char *step, uint8_t cut_by)
{
    struct question question = {{0}, 0};
    put_step(&question, cut_by);

    uint8_t part[SAYFUDHOUM_MAX_QUESTION_LENGTH], indexes[SAYFUDHOUM_MAX_STATEMENTS];
    uint8_t answer[SAYFUDHOUM_MAX_ANSWER_LENGTH];
    uint64_t result = sayfudhoum_clash(question.bytes, question.length, part, sizeof part,
                                       indexes, sizeof indexes, answer, sizeof answer);
    if (sayfudhoum_refusal(result) != 0) {
        printf("%s: refused by %u at %zu\n", step, sayfudhoum_refusal(result), sayfudhoum_rest(result));
        return 1;
    }
    if (answer[3] == 0) {
        printf("%s: right. That both arms stay kept is impossible.\n", step);
        printf("These of its statements clash, and none of them can be left out:\n");
        print_part(part, indexes, sayfudhoum_index_count(result));
    } else {
        struct model model = model_of(answer);
        printf("%s: wrong. Both arms stay kept here:\n", step);
        print_model(&model, &words);
    }
    return 0;
}

int main(void)
{
    return decide("Cut what is due and what is barred", SAYFUDHOUM_TAG_UNION)
        || decide("Cut what is due and not barred", SAYFUDHOUM_TAG_DIFFERENCE);
}
