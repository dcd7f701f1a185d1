/*
 * Damaged files through all six functions. The question ends at a page that can't be read, each
 * buffer stands between two, and the bytes beside it are looked at. Refusals and places are compared
 * with the tests' own reader. Of what is accepted, the answer must be an answer file with the verdict
 * of the other call and a model that meets every statement; of small questions, the first model. The
 * clashing part must be that of the tests' own finder, with the same answer, and the clauses those of the
 * tests' own writer. The lines that say the answer's model must be read back as that answer. In that model all
 * statements must hold, and with a bit turned it must be judged as the tests' own judge does it.
 *
 *   bad_input [N]    tries every Nth file, 1 if it is left out, and prints how many there were
 */
#include "clashes.h"
#include "damage.h"
#include "files.h"
#include "finder.h"
#include "judging.h"
#include "lines.h"
#include "models.h"
#include "reader.h"
#include "rounds.h"
#include "sayfudhoum.h"
#include "slices.h"
#include "solver.h"
#include "table.h"

#include <stdio.h>
#include <stdlib.h>
#include <string.h>

static unsigned long every = 1, made, tried, refused, possible, impossible, compared;

/* The file that is being tried, as it is lent. */
static const uint8_t *question;
static size_t length;

/* Ends the test with the file that failed, in hexadecimal. */
static void expect(int fine, const char *otherwise)
{
    if (fine)
        return;
    printf("%s, with this file of %zu bytes:\n", otherwise, length);
    for (size_t i = 0; i < length; i++)
        printf(" %02X", question[i]);
    printf("\n");
    exit(1);
}

/* Edges take turns, so that each kind of call is tried at both. */
static enum edge next_edge(void)
{
    static unsigned turn;
    return turn++ % 2 == 0 ? BEFORE_PAGE : BEHIND_PAGE;
}

static uint8_t *next_buffer(size_t room)
{
    return lend_buffer(FOR_ANSWER, room, next_edge());
}

/* The question's refusal comes whatever the buffers' lengths are, and the buffers stay as they were. */
static void try_refused(uint64_t refusal)
{
    size_t rooms[CLASH_BUFFERS];
    for (int each = 0; each < CLASH_BUFFERS; each++)
        rooms[each] = tried % (longest_rooms[each] + 1);
    uint8_t *buffer = next_buffer(rooms[FOR_ANSWER]);
    uint64_t result = sayfudhoum_answer(question, length, buffer, rooms[FOR_ANSWER]);
    expect(result == refusal, "sayfudhoum_answer refused by another number or at another place");
    expect(untouched_after(FOR_ANSWER, 0), "sayfudhoum_answer refused and wrote");
    expect(refuses(question, length, rooms, next_edge(), refusal), "sayfudhoum_clash refused otherwise, or wrote");

    static const uint8_t lines[] = "s UNSATISFIABLE\nx";
    size_t some = tried % sizeof lines; /* of the lines, which can be good or bad */
    const struct input input = {question, length, lend_lines(lines, some), some};
    const struct due due = {refusal, lines, 0};
    expect(gives(&input, FOR_CLAUSES, tried % 1000, next_edge(), &due), "sayfudhoum_clauses refused otherwise, or wrote");
    expect(gives(&input, FOR_ANSWER, rooms[FOR_ANSWER], next_edge(), &due), "sayfudhoum_solved refused otherwise, or wrote");

    static const uint8_t model[1 + SAYFUDHOUM_MAX_ELEMENTS + 2] = {1};
    size_t part = tried % (sizeof model + 1); /* of the model, which is good if it fits the number of names */
    expect(judges(question, length, model, part, refusal), "sayfudhoum_judge refused otherwise, or wrote");
}

/* A model must meet every statement. Where everything can be tried, the answer must be the first model. */
static void judge(const struct question *asked, int said, const struct model *model)
{
    struct model first;
    if (said)
        expect(meets(asked, model), "the model fails a statement");
    if (asked->terms > 4 || asked->sets > 4)
        return;
    expect(first_model(asked, &first) == said, "the verdict is wrong");
    expect(!said || same_model(asked, &first, model), "the model is not the first");
    compared++;
}

/* The answer once more, in a buffer that is just long enough, and in one that is a byte too short. */
static void try_rooms(const uint8_t *answer, size_t count)
{
    uint8_t *buffer = next_buffer(count);
    uint64_t result = sayfudhoum_answer(question, length, buffer, count);
    expect(result == count * 256 && memcmp(buffer, answer, count) == 0, "another answer in a buffer of its length");
    expect(untouched_after(FOR_ANSWER, count), "a byte beside the buffer was written");

    buffer = next_buffer(count - 1);
    result = sayfudhoum_answer(question, length, buffer, count - 1);
    expect(result == SAYFUDHOUM_BUFFER_TOO_SHORT, "a buffer too short was not refused by 10");
    expect(untouched_after(FOR_ANSWER, 0), "a buffer too short was written");
}

/* The clashing part, with this answer, in buffers that are long enough, just so, and a byte too short. */
static void try_clash(const uint8_t *answer, size_t count)
{
    struct clash clash;
    find_clash(question, length, &clash);
    memcpy(clash.bytes[FOR_ANSWER], answer, count);
    clash.lengths[FOR_ANSWER] = count;
    expect(leaves(question, length, longest_rooms, next_edge(), &clash), "another clashing part than the tests find");
    expect(leaves(question, length, clash.lengths, next_edge(), &clash), "another clashing part in just enough room");
    expect(refuses_short(question, length, next_edge(), &clash), "a clash in too little room was not refused by 10");
}

/* The clauses, in buffers that are just long enough, longer, and a byte too short. */
static void try_clauses(const struct question *asked)
{
    static struct text text;
    write_dimacs(asked, &text);
    const struct input input = {question, length, NULL, 0};
    const struct due due = {text.length * 256, text.bytes, text.length};
    for (size_t room = text.length - 1; room <= text.length + 1; room++)
        expect(gives(&input, FOR_CLAUSES, room, next_edge(), &due), "other clauses than the tests write");
}

/* The lines that say a model, in such buffers for the answer, which has to be this one. */
static void try_lines(const struct question *asked, const struct model *model, const uint8_t *answer, size_t count)
{
    static struct text text;
    struct values values;
    values_of(asked, model, &values);
    write_lines(&values, variables_of(asked), 1 + (unsigned)(tried % 20), &text);
    const struct input input = {question, length, lend_lines(text.bytes, text.length), text.length};
    const struct due due = {count * 256, answer, count};
    for (size_t room = count - 1; room <= count + 1; room++)
        expect(gives(&input, FOR_ANSWER, room, next_edge(), &due), "another answer to the answer's own lines");
}

/* The answer's own model, in which all statements must hold, and then with a bit turned. */
static void try_own_model(const struct question *asked, const uint8_t *answer)
{
    uint8_t model[SAYFUDHOUM_MAX_MODEL_LENGTH];
    size_t count = model_in(answer, asked->elements, model);
    expect(judges(question, length, model, count, ALL_HOLD), "the answer's own model fails, or was written");
    size_t bit = tried % (8 * count);
    model[bit / 8] ^= (uint8_t)(1u << bit % 8);
    uint64_t due = judge_model(asked, model, count);
    expect(judges(question, length, model, count, due), "with a bit turned, not what the second judge says");
}

/* One element that is in no set: a model in which a statement of an impossible question fails, as in any other. */
static void try_failing_model(const struct question *asked)
{
    static const uint8_t model[SAYFUDHOUM_MAX_MODEL_LENGTH] = {1};
    size_t count = 3 + asked->elements;
    uint64_t due = judge_model(asked, model, count);
    expect(due != ALL_HOLD, "impossible, and all statements hold");
    expect(judges(question, length, model, count, due), "not the statement that fails by the second judge");
}

static void try_accepted(const struct question *asked, uint64_t verdict)
{
    uint8_t answer[SAYFUDHOUM_MAX_ANSWER_LENGTH];
    uint8_t *buffer = next_buffer(sizeof answer);
    uint64_t result = sayfudhoum_answer(question, length, buffer, sizeof answer);
    size_t count = sayfudhoum_rest(result);
    expect(sayfudhoum_refusal(result) == 0 && count <= sizeof answer, "sayfudhoum_answer refused a sound question");
    expect(untouched_after(FOR_ANSWER, count), "a byte past the answer was written");
    memcpy(answer, buffer, count);

    struct model model;
    int said = read_answer(answer, count, asked, &model);
    expect(said >= 0, "what was written is no answer file");
    expect(verdict == (said ? 256 : 0), "answer and verdict differ");
    judge(asked, said, &model);
    try_rooms(answer, count);
    try_clash(answer, count);
    try_clauses(asked);
    if (said) {
        try_lines(asked, &model, answer, count);
        try_own_model(asked, answer);
        possible++;
    } else {
        try_failing_model(asked);
        impossible++;
    }
}

static void try_question(const uint8_t *bytes, size_t count)
{
    struct question asked;
    if (made++ % every != 0)
        return;
    question = lend_question(bytes, count);
    length = count;
    tried++;
    uint64_t refusal = read_question(question, length, &asked);
    uint64_t verdict = sayfudhoum_verdict(question, length);
    if (refusal == 0) {
        try_accepted(&asked, verdict);
    } else {
        expect(verdict == refusal, "sayfudhoum_verdict refused by another number or at another place");
        try_refused(refusal);
        refused++;
    }
    expect(memcmp(question, bytes, length) == 0, "the question was written");
}

/* All examples are damaged in the ways that are cheap, some of them, short ones, in all ways. */
static void try_examples(void)
{
    for (size_t i = 0; i < EXAMPLES; i++) {
        struct file file;
        file.length = from_hex(examples[i].question, file.bytes);
        change_length(&file, try_question);
        change_order(&file, try_question);
        if (strchr("DFHILMN", examples[i].name[0]) != NULL)
            change_bytes(&file, try_question);
        if (strchr("AIN", examples[i].name[0]) != NULL) {
            put_in_fields(&file, try_question);
            change_bodies(&file, try_question);
        }
    }
}

static void try_heavy_files(void)
{
    for (size_t i = 0; i < HEAVY_FILES; i++) {
        struct file file;
        heavy_file(i, &file);
        change_length(&file, try_question);
        change_bits(&file, try_question);
    }
}

/* More statements than may be, more witnesses, and more bytes than any question has. */
static void try_long_files(void)
{
    for (uint8_t statements = 63; statements <= 65; statements++)
        fill_up(0x20, statements, try_question);
    for (uint8_t witnesses = 9; witnesses <= 11; witnesses++)
        fill_up(0x21, witnesses, try_question);
    static uint8_t bytes[LONGEST_SLICE];
    for (int value = 0; value < 256; value++) {
        memset(bytes, value, sizeof bytes);
        try_question(bytes, sizeof bytes);
    }
}

int main(int argc, char **argv)
{
    if (argc > 1)
        every = strtoul(argv[1], NULL, 10);
    try_examples();
    try_heavy_files();
    try_long_files();
    draw_files(20000, try_question);
    printf("%lu files: %lu refused, %lu possible, %lu impossible; %lu compared with every arrangement\n",
           tried, refused, possible, impossible, compared);
    return 0;
}
