/*
 * How much stack the six functions touch. Each is called in a thread whose stack was painted, and then
 * the lowest byte that has lost its paint is looked for. The header promises how much it is at most. The lines
 * that are read back are those of the question's first model, or `s UNSATISFIABLE` if it has none. The model
 * that is judged is the first one, or one element that is in no set.
 *   A judge that kept a list of some set on the stack can't be told by a contract, since it gives the same. This
 * test holds the stack of the call to its figure instead, and to what reading the question takes: to judge takes no
 * more. For that a byte is put behind the question, which is refused when all of it was read and nothing was judged.
 */
#define _POSIX_C_SOURCE 200809L /* pthread_attr_setstack */
#include "files.h"
#include "lines.h"
#include "models.h"
#include "sayfudhoum.h"
#include "table.h"

#include <pthread.h>
#include <stdio.h>
#include <stdlib.h>
#include <string.h>

enum { STACK = 128 * 1024, PAINT = 0xC3, RANDOM_FILES = 300 };

/* The bytes that are promised at most. */
enum function { ANSWER, VERDICT, CLASH, CLAUSES, SOLVED, JUDGE, FUNCTIONS };
static const struct {
    const char *name;
    size_t promised;
} functions[FUNCTIONS] = {
    [ANSWER] = {"sayfudhoum_answer", 32 * 1024},
    [VERDICT] = {"sayfudhoum_verdict", 32 * 1024},
    [CLASH] = {"sayfudhoum_clash", 32 * 1024},
    [CLAUSES] = {"sayfudhoum_clauses", 32 * 1024},
    [SOLVED] = {"sayfudhoum_solved", 32 * 1024},
    [JUDGE] = {"sayfudhoum_judge", 2 * 1024},
};

/* What is not on the stack that is measured. */
static uint8_t part[SAYFUDHOUM_MAX_QUESTION_LENGTH], indexes[SAYFUDHOUM_MAX_STATEMENTS];
static uint8_t clauses[SAYFUDHOUM_MAX_CLAUSES_LENGTH];
static struct text lines;
static uint8_t judged[SAYFUDHOUM_MAX_MODEL_LENGTH];
static size_t judged_length;

struct call {
    enum function function;
    const struct file *file;
    uintptr_t top; /* the caller's place on the stack */
};

static void *run(void *argument)
{
    struct call *call = argument;
    uint8_t answer[SAYFUDHOUM_MAX_ANSWER_LENGTH];
    call->top = (uintptr_t)answer;
    switch (call->function) {
    case ANSWER:
        sayfudhoum_answer(call->file->bytes, call->file->length, answer, sizeof answer);
        break;
    case VERDICT:
        sayfudhoum_verdict(call->file->bytes, call->file->length);
        break;
    case CLASH:
        sayfudhoum_clash(call->file->bytes, call->file->length, part, sizeof part, indexes, sizeof indexes,
                         answer, sizeof answer);
        break;
    case CLAUSES:
        sayfudhoum_clauses(call->file->bytes, call->file->length, clauses, sizeof clauses);
        break;
    case SOLVED:
        sayfudhoum_solved(call->file->bytes, call->file->length, lines.bytes, lines.length, answer, sizeof answer);
        break;
    default:
        sayfudhoum_judge(call->file->bytes, call->file->length, judged, judged_length);
        break;
    }
    return NULL;
}

/* The bytes between the caller's place and the lowest byte that was touched. */
static size_t touched(enum function function, const struct file *file)
{
    static uint8_t *stack;
    if (stack == NULL)
        stack = malloc(STACK);
    struct call call = {function, file, 0};
    pthread_attr_t attributes;
    pthread_t thread;
    if (stack == NULL || pthread_attr_init(&attributes) != 0
        || pthread_attr_setstack(&attributes, stack, STACK) != 0)
        exit(2);
    memset(stack, PAINT, STACK);
    if (pthread_create(&thread, &attributes, run, &call) != 0)
        exit(2);
    pthread_join(thread, NULL);
    pthread_attr_destroy(&attributes);

    size_t lowest = 0;
    while (stack[lowest] == PAINT)
        lowest++;
    return call.top - (uintptr_t)(stack + lowest);
}

/* The lines of the first model, or those that say that there is none. A question that is refused has either. */
static void make_lines(const struct file *file, const uint8_t *answer, size_t length)
{
    struct question question;
    struct model model;
    struct values values;
    lines.length = 0;
    if (read_question(file->bytes, file->length, &question) != 0
        || read_answer(answer, length, &question, &model) != 1) {
        put_characters(&lines, "s UNSATISFIABLE\n");
        return;
    }
    values_of(&question, &model, &values);
    write_lines(&values, variables_of(&question), 12, &lines);
}

/* The answer's model, or a good one that there is for every question. */
static void make_model(const struct file *file, const uint8_t *answer, int possible)
{
    uint8_t elements = file->bytes[3];
    memset(judged, 0, sizeof judged);
    judged[0] = 1;
    judged_length = possible ? model_in(answer, elements, judged) : 3u + elements;
}

static size_t most[FUNCTIONS], reading;

static void keep_most(size_t *so_far, size_t bytes)
{
    if (bytes > *so_far)
        *so_far = bytes;
}

static void measure(const struct file *file)
{
    uint8_t answer[SAYFUDHOUM_MAX_ANSWER_LENGTH];
    uint64_t result = sayfudhoum_answer(file->bytes, file->length, answer, sizeof answer);
    make_lines(file, answer, sayfudhoum_rest(result));
    make_model(file, answer, sayfudhoum_refusal(result) == 0 && sayfudhoum_rest(result) > 7);
    for (int function = 0; function < FUNCTIONS; function++)
        keep_most(&most[function], touched((enum function)function, file));
    struct file longer = *file;
    longer.bytes[longer.length++] = 0;
    keep_most(&reading, touched(JUDGE, &longer));
}

int main(void)
{
    struct file file;
    for (size_t i = 0; i < HEAVY_FILES; i++) {
        heavy_file(i, &file);
        measure(&file);
    }
    for (size_t i = 0; i < EXAMPLES; i++) {
        file.length = from_hex(examples[i].question, file.bytes);
        measure(&file);
    }
    for (size_t i = 0; i < RANDOM_FILES; i++) {
        random_file(&file);
        measure(&file);
    }
    int failed = most[JUDGE] > reading;
    printf("bytes of stack:");
    for (int function = 0; function < FUNCTIONS; function++) {
        printf("%s %s %zu", function == 0 ? "" : ",", functions[function].name, most[function]);
        failed |= most[function] > functions[function].promised;
    }
    printf(", of which reading takes %zu\n", reading);
    return failed;
}
