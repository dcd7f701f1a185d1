/*
 * Sayfudhoum: can these statements about elements and sets all hold?
 *
 * A question declares E element names and S set names and states up to 64 flat statements about
 * them, of eleven kinds. Its answer is "impossible" (no assignment over any finite domain meets the
 * statements) or "possible" with the first model. Both are files of bytes; docs/FORMAT.md has the
 * format, docs/C.md a guide, and examples/ two programs. Of an impossible question, the clashing part
 * can be had: statements that can't all hold, of which none can be left out. For an outside solver, a
 * question can be had as clauses in DIMACS form, and the lines that the solver prints can be read back.
 * A model from whatever maker can be judged: which statement of a question is the first to fail in it.
 *
 * For all six functions:
 * - They are total: any bytes of any length may be handed in. What is wrong is refused by a number.
 * - They allocate nothing, keep no state and write nothing but what is said below. Several threads
 *   may call them at the same time, with buffers of their own.
 * - A call needs at most 32 KiB of stack, whatever the question (measured: 29,332 bytes);
 *   sayfudhoum_judge needs at most 2 KiB (measured: 1,176 bytes).
 * - A slice is a pointer and the length behind it: the question, a solver's lines and a model, which are
 *   read, or a buffer, which is lent to be written. A pointer must not be null, and the bytes of its slice
 *   must be there: in what is read as many that can be read, and in each buffer as many that can be
 *   written, as its length says. A length may be 0; the pointer must not be null even then.
 * - No two slices may overlap, and nobody else may write to any of them during the call.
 *
 * The library is for x86-64 Linux, and links with no other library. C99 or C++11.
 */
#ifndef SAYFUDHOUM_H
#define SAYFUDHOUM_H

#include <stddef.h>
#include <stdint.h>

#ifdef __cplusplus
extern "C" {
#endif

/* Limits of a question. */
#define SAYFUDHOUM_MAX_ELEMENTS 8    /* element names, E */
#define SAYFUDHOUM_MAX_SETS 16       /* set names, S */
#define SAYFUDHOUM_MAX_STATEMENTS 64 /* statements */
#define SAYFUDHOUM_MAX_TERMS 12      /* element names and statements x != y together, T */

/*
 * The longest question file, the longest answer, and a length that no text of clauses passes: a buffer of
 * so many bytes is never too short, for a clashing part, for an answer and for clauses. For indexes it is
 * a buffer of SAYFUDHOUM_MAX_STATEMENTS bytes.
 */
#define SAYFUDHOUM_MAX_QUESTION_LENGTH 392
#define SAYFUDHOUM_MAX_ANSWER_LENGTH 49
#define SAYFUDHOUM_MAX_CLAUSES_LENGTH 86307

/* The longest model that can be good: its size, an element for each name, and two bytes for each of its elements. */
#define SAYFUDHOUM_MAX_MODEL_LENGTH 33

/* The rest of what sayfudhoum_judge gives where all statements hold; every index of a statement is below it. */
#define SAYFUDHOUM_ALL_HOLD 64

/*
 * Tags. A field is its tag, the length of its body in two bytes with the high byte first, and the
 * body, in which each name is one byte. a and b are element names, x, y and z set names.
 */
#define SAYFUDHOUM_TAG_NAMES 0x01           /* E S, the first field of a question */
#define SAYFUDHOUM_TAG_ELEMENTS_EQUAL 0x10  /* a b: a = b */
#define SAYFUDHOUM_TAG_ELEMENTS_DIFFER 0x11 /* a b: a != b */
#define SAYFUDHOUM_TAG_IN 0x12              /* a x: a in x */
#define SAYFUDHOUM_TAG_NOT_IN 0x13          /* a x: a not in x */
#define SAYFUDHOUM_TAG_SETS_EQUAL 0x20      /* x y: x = y */
#define SAYFUDHOUM_TAG_SETS_DIFFER 0x21     /* x y: x != y */
#define SAYFUDHOUM_TAG_EMPTY 0x22           /* x: x empty */
#define SAYFUDHOUM_TAG_SINGLE 0x23          /* x a: x = {a} */
#define SAYFUDHOUM_TAG_UNION 0x30           /* x y z: x is the union of y and z */
#define SAYFUDHOUM_TAG_INTERSECTION 0x31    /* x y z: x is the intersection of y and z */
#define SAYFUDHOUM_TAG_DIFFERENCE 0x32      /* x y z: x is y without z */
#define SAYFUDHOUM_TAG_VERDICT 0x40         /* 1 possible, 0 impossible; the first field of an answer */
#define SAYFUDHOUM_TAG_CLASSES 0x41         /* a class number for each of the T terms */
#define SAYFUDHOUM_TAG_MASKS 0x42           /* two bytes for each class, high byte first: bit x is set x */
#define SAYFUDHOUM_TAG_REFUSAL 0x44         /* what the program decide writes of a refused question */
#define SAYFUDHOUM_TAG_END 0x7F             /* no body, the last field of every file */

/*
 * Refusal numbers. A file is read from left to right, and the first thing that is wrong is told. In
 * one field they come in the order 1 (the field's head of three bytes), 2, 3, 4, 1 (its body), then
 * 5 for the names, 7, 6, 8 for a statement; behind the end 9. The place is that of the field's first
 * byte, counted from 0 (for 1 where no byte is left, the length of the data), for 9 that of the first
 * extra byte, for 10 it is 0. A solver's lines are read after the question: then come 13, 14 and, always
 * last, 10. For 13 the place is where in the lines the first line begins that can't stand there, or their
 * length if more lines were due; for 14 it is 0. A model is looked at after the question: then comes 11,
 * with the place 0.
 */
#define SAYFUDHOUM_DATA_ENDS 1           /* the data ends within a field or before the end field */
#define SAYFUDHOUM_TAG_UNKNOWN 2         /* a question file doesn't know the tag */
#define SAYFUDHOUM_TAG_OUT_OF_PLACE 3    /* the names not first, or again */
#define SAYFUDHOUM_WRONG_LENGTH 4        /* the length is not that of the tag */
#define SAYFUDHOUM_TOO_MANY_NAMES 5      /* E above 8, or S above 16 */
#define SAYFUDHOUM_NAME_NOT_DECLARED 6   /* a name not below E, or S */
#define SAYFUDHOUM_TOO_MANY_STATEMENTS 7 /* the 65th statement */
#define SAYFUDHOUM_TOO_MANY_TERMS 8      /* this statement x != y would make T more than 12 */
#define SAYFUDHOUM_BYTES_AFTER_END 9     /* bytes follow the end field */
#define SAYFUDHOUM_BUFFER_TOO_SHORT 10   /* a buffer is shorter than what this very call has to write */
/* The next comes from sayfudhoum_judge alone. */
#define SAYFUDHOUM_BAD_MODEL 11 /* a bad model was handed in */
/* The next is the project's, but no function below ever gives it. */
#define SAYFUDHOUM_BAD_ROW 12 /* a bad row was handed in */
/* The last two come from sayfudhoum_solved alone. */
#define SAYFUDHOUM_BAD_LINES 13   /* the solver's lines are not of the form that is read */
#define SAYFUDHOUM_MODEL_FAILS 14 /* the model that the lines say fails a statement of the question */

/*
 * Decides the question in question[0 .. question_length - 1] and writes its answer to the start of
 * answer.
 *
 * Result: one number; take it apart by sayfudhoum_refusal and sayfudhoum_rest.
 *   lowest byte 0: decided. The rest is the count of bytes written: 7 if impossible; if possible
 *     13 + T + 2n, where n is the number of classes, at most T; so at most 49.
 *   lowest byte 1 to 9: the question is refused by this number. The rest is the place.
 *   lowest byte 10: the question was decided, and answer_length is less than the length of this very
 *     answer. The rest is 0. It comes last: a refused question is never refused by 10.
 *
 * Written: if decided, the answer, and nothing behind it: the bytes of the buffer past the answer
 * keep their values. If refused, nothing: the whole buffer keeps its values. The question is only
 * read, and nothing outside the two slices is touched.
 */
uint64_t sayfudhoum_answer(const uint8_t *question, size_t question_length,
                           uint8_t *answer, size_t answer_length);

/*
 * Decides the question in question[0 .. question_length - 1] and writes nothing.
 *
 * Result: one number, as above.
 *   lowest byte 0: decided. The rest is 1 if possible, 0 if impossible. So 0 is impossible, 256
 *     possible, and every other number a refusal.
 *   lowest byte 1 to 9: the question is refused by this number, at the place that is the rest; the
 *     same as sayfudhoum_answer would give.
 */
uint64_t sayfudhoum_verdict(const uint8_t *question, size_t question_length);

/*
 * Decides the question in question[0 .. question_length - 1], and writes its clashing part, the old
 * indexes of the part's statements, and the question's answer, each to the start of its buffer.
 *
 * The clashing part of an impossible question: from index 0 upward, a statement is dropped for good if
 * what remains without it is still impossible. So the part is impossible, and without any one of its
 * statements it is possible. A possible question has an empty part.
 *   part     a question file with the E and S of the question and the statements of the part in their
 *            order; for a possible question 01 00 02 E S 7F 00 00
 *   indexes  one byte for each statement of the part: its index in the question, counted from 0. They
 *            rise; for a possible question there are none
 *   answer   the bytes that sayfudhoum_answer writes for the question
 *
 * Result: one number; take it apart by sayfudhoum_refusal, and if that is 0 by sayfudhoum_part_length,
 * sayfudhoum_index_count and sayfudhoum_clash_answer_length.
 *   lowest byte 0: decided. The rest is the count of bytes in the part, plus 2^16 times the count of
 *     indexes, plus 2^24 times the count of bytes in the answer. The answer has 7 bytes exactly if the
 *     question is impossible.
 *   lowest byte 1 to 9: the question is refused by this number, at the place that is the rest; the
 *     same as sayfudhoum_answer would give.
 *   lowest byte 10: the question was decided, and one buffer or more is shorter than what this very
 *     call has to write into it. The rest is 0. It comes last.
 *
 * Written: if decided, these three, and nothing behind them: the bytes of each buffer past what is
 * written keep their values. If refused, nothing: all three buffers keep their values, also those that
 * would have been long enough. The question is only read, and nothing outside the four slices is
 * touched.
 */
uint64_t sayfudhoum_clash(const uint8_t *question, size_t question_length,
                          uint8_t *part, size_t part_length,
                          uint8_t *indexes, size_t indexes_length,
                          uint8_t *answer, size_t answer_length);

/*
 * Writes the clauses of the question in question[0 .. question_length - 1] to the start of clauses, as
 * DIMACS text for an outside solver. They can be satisfied exactly if the question is possible; nothing
 * is decided here.
 *   The T terms are the element names and then the witnesses of the statements x != y. The variables,
 *   from 1: for each pair of terms, that they are the same (those of term 0 first, the other term upward,
 *   then those of term 1, and so on); for each term and set, that it is in it (term 0 first, sets upward);
 *   and one spare, which is the last. The first line is "p cnf", variables, clauses; then each clause is
 *   a line: its literals and 0, with one space between. Every line ends with 0A. docs/FORMAT.md has the
 *   clauses and an example.
 *
 * Result: one number; take it apart by sayfudhoum_refusal and sayfudhoum_rest.
 *   lowest byte 0: written. The rest is the count of bytes written, 10 at least ("p cnf 1 0") and
 *     SAYFUDHOUM_MAX_CLAUSES_LENGTH at most.
 *   lowest byte 1 to 9: the question is refused by this number, at the place that is the rest; the
 *     same as sayfudhoum_answer would give.
 *   lowest byte 10: clauses_length is less than the length of this very text. The rest is 0. It comes
 *     last.
 *
 * Written: if not refused, the text, with no zero byte behind it: the bytes of the buffer past the text
 * keep their values. If refused, nothing: the whole buffer keeps its values. The question is only read,
 * and nothing outside the two slices is touched.
 */
uint64_t sayfudhoum_clauses(const uint8_t *question, size_t question_length,
                            uint8_t *clauses, size_t clauses_length);

/*
 * Reads back what a solver printed about the clauses of the question in question[0 .. question_length - 1]:
 * lines[0 .. lines_length - 1]. If they say a model, it is judged, statement by statement, and written as
 * an answer to the start of answer. Nothing is decided here, and the solver is not believed.
 *   Lines that start with "c" are passed over, wherever they stand. The others are "s SATISFIABLE", then
 *   "v" lines of at least one number each, which together hold every variable once, in any order, with a
 *   minus if it is false, and last a 0; or "s UNSATISFIABLE" alone. Before each number stands one space,
 *   and no zero or plus in front of it. Every line ends with 0A, the last one and comments too.
 *
 * Result: one number; take it apart by sayfudhoum_refusal and sayfudhoum_rest.
 *   lowest byte 0, rest above 0: the lines say a model, and it meets every statement, so the question is
 *     possible. The rest is the count of bytes written, 13 + T + 2n, where n is the number of classes.
 *   lowest byte 0, rest 0: the solver says that the clauses can't be satisfied. That is its word only, and
 *     never this library's "impossible": nothing was checked, and nothing is written. Ask
 *     sayfudhoum_verdict.
 *   lowest byte 1 to 9: the question is refused by this number, at the place that is the rest; the
 *     same as sayfudhoum_answer would give. The lines were not looked at.
 *   lowest byte 13: the lines are not of this form. The rest is the place in them where the first line
 *     begins that can't stand there, or lines_length if each can and more were due. It is told modulo
 *     2^56; lines that are longer fit no machine.
 *   lowest byte 14: the lines are of this form, but the model fails a statement: it doesn't satisfy the
 *     clauses, or belongs to another question. The rest is 0.
 *   lowest byte 10: the model passed, and answer_length is less than the length of this very answer. The
 *     rest is 0. It comes last.
 *
 * Written: if the rest is above 0 and nothing is refused, the answer: a possible one with the solver's
 * model, which need not be the first, so it can differ from what sayfudhoum_answer writes. The bytes of
 * the buffer past it keep their values. Else nothing: the whole buffer keeps its values. The question and
 * the lines are only read, and nothing outside the three slices is touched.
 */
uint64_t sayfudhoum_solved(const uint8_t *question, size_t question_length,
                           const uint8_t *lines, size_t lines_length,
                           uint8_t *answer, size_t answer_length);

/*
 * Judges the model in model[0 .. model_length - 1] by the question in question[0 .. question_length - 1]:
 * each statement in order, whoever made the model. Nothing is decided here, and nothing is written.
 *   A model is its size n in one byte; then for each of the E element names one byte, its element, below n;
 *   then for each of the n elements two bytes, high byte first, its mask: bit x is set if the element is in
 *   set x. So it has 1 + E + 2n bytes. Two names may have one element, and an element need have no name.
 *   With n = 0, which is good only where E = 0, there is no element: a statement x != y fails, and every other
 *   holds. The model of a possible answer is the number of its classes, its first E class numbers, and the
 *   body of its field 42 as it stands.
 *
 * Result: one number; take it apart by sayfudhoum_refusal and sayfudhoum_rest.
 *   lowest byte 0, rest SAYFUDHOUM_ALL_HOLD, 64: the model is an assignment, and every statement holds in it.
 *     So the question is possible.
 *   lowest byte 0, rest below 64: the index of the first statement that fails, counted from 0: those before
 *     it hold, and it does not. Another model may still do.
 *   lowest byte 1 to 9: the question is refused by this number, at the place that is the rest; the
 *     same as sayfudhoum_answer would give. The model was not looked at.
 *   lowest byte 11: the model is bad. Its length is not that of its n (an empty one has no n), n is above
 *     12, an element is not below n, or a mask has a bit at or above S. The rest is 0.
 *
 * The question and the model are only read, and nothing outside the two slices is touched. No list of any set
 * is kept, and a statement takes at most one look at each element of the model.
 */
uint64_t sayfudhoum_judge(const uint8_t *question, size_t question_length,
                          const uint8_t *model, size_t model_length);

/* The refusal number in a result, or 0 if nothing was refused. */
static inline unsigned sayfudhoum_refusal(uint64_t result) { return result & 0xFF; }

/* The rest of a result: the place if refused, else a count of bytes, the verdict, three counts, or an index. */
static inline size_t sayfudhoum_rest(uint64_t result) { return result >> 8; }

/* Of a result of sayfudhoum_clash that is not refused: the bytes of the part, the indexes, the bytes of the answer. */
static inline size_t sayfudhoum_part_length(uint64_t result) { return (result >> 8) & 0xFFFF; }
static inline size_t sayfudhoum_index_count(uint64_t result) { return (result >> 24) & 0xFF; }
static inline size_t sayfudhoum_clash_answer_length(uint64_t result) { return result >> 32; }

#ifdef __cplusplus
}
#endif

#endif
