/*
 * Models judged. By hand: each kind of statement where it holds and where it fails, the first of several that
 * fail, and each way in which a model is bad. Beside a second judge: every model of a few shapes, models of
 * every length, the models of answers with each bit turned, and drawn ones. Both slices end at pages that
 * can't be read, and stay as they are.
 */
#include "files.h"
#include "judging.h"
#include "models.h"
#include "table.h"

#include <stdio.h>
#include <string.h>

#define FAILS(index) (256 * (index))
#define END "7F 00 00"

/* Three elements, of which e0 and e1 are the first two. s0 and s4 have the first, s1 the others, s2 all, s3 none. */
#define NAMES "01 00 02 02 05  "
#define THREE "03 00 01  00 15  00 06  00 06"
#define STATED(statements) NAMES statements "  " END, THREE

/* One element, which has both names and is in s0. */
#define BOTH(statements) "01 00 02 02 01  " statements "  " END, "01 00 00  00 01"

/* No statement about so many names. */
#define NOTHING(elements, sets) "01 00 02 " elements " " sets "  " END

/* s0 = {e0}, s0 != s1, e0 in s1. */
#define CASE_I "01 00 02 01 02  23 00 02 00 00  21 00 02 00 01  12 00 02 00 01  " END

/* Eight elements in no set, and sixty-three statements that hold always. */
#define EIGHT "00 00  00 00  00 00  00 00  00 00  00 00  00 00  00 00  "
#define IDLE "20 00 02 00 00  "
#define IDLE_9 IDLE IDLE IDLE IDLE IDLE IDLE IDLE IDLE IDLE
#define IDLE_63 IDLE_9 IDLE_9 IDLE_9 IDLE_9 IDLE_9 IDLE_9 IDLE_9

static const struct {
    const char *what, *question, *model;
    uint64_t due;
} by_hand[] = {
    /* Each kind; some fail at one element only, the first or the last. */
    {"e1 = e1", STATED("10 00 02 01 01"), ALL_HOLD},
    {"e0 = e1", STATED("10 00 02 00 01"), FAILS(0)},
    {"e0 != e1", STATED("11 00 02 00 01"), ALL_HOLD},
    {"e1 != e1", STATED("11 00 02 01 01"), FAILS(0)},
    {"e0 in s0", STATED("12 00 02 00 00"), ALL_HOLD},
    {"e1 in s0", STATED("12 00 02 01 00"), FAILS(0)},
    {"e1 not in s0", STATED("13 00 02 01 00"), ALL_HOLD},
    {"e1 not in s1", STATED("13 00 02 01 01"), FAILS(0)},
    {"s0 = s4", STATED("20 00 02 00 04"), ALL_HOLD},
    {"s1 = s2", STATED("20 00 02 01 02"), FAILS(0)},
    {"s2 = s1", STATED("20 00 02 02 01"), FAILS(0)},
    {"s1 != s2", STATED("21 00 02 01 02"), ALL_HOLD},
    {"s0 != s4", STATED("21 00 02 00 04"), FAILS(0)},
    {"s3 empty", STATED("22 00 01 03"), ALL_HOLD},
    {"s1 empty", STATED("22 00 01 01"), FAILS(0)},
    {"s0 = {e0}", STATED("23 00 02 00 00"), ALL_HOLD},
    {"s0 = {e1}", STATED("23 00 02 00 01"), FAILS(0)},
    {"s1 = {e1}, where the third element is in s1 too", STATED("23 00 02 01 01"), FAILS(0)},
    {"s3 = {e0}, where s3 is empty", STATED("23 00 02 03 00"), FAILS(0)},
    {"s2 = s0 union s1", STATED("30 00 03 02 00 01"), ALL_HOLD},
    {"s2 = s2 union s1", STATED("30 00 03 02 02 01"), ALL_HOLD},
    {"s2 = s3 union s1", STATED("30 00 03 02 03 01"), FAILS(0)},
    {"s1 = s0 union s1", STATED("30 00 03 01 00 01"), FAILS(0)},
    {"s3 = s0 intersection s1", STATED("31 00 03 03 00 01"), ALL_HOLD},
    {"s1 = s2 intersection s1", STATED("31 00 03 01 02 01"), ALL_HOLD},
    {"s2 = s2 intersection s0", STATED("31 00 03 02 02 00"), FAILS(0)},
    {"s3 = s2 intersection s0", STATED("31 00 03 03 02 00"), FAILS(0)},
    {"s0 = s2 without s1", STATED("32 00 03 00 02 01"), ALL_HOLD},
    {"s3 = s0 without s2", STATED("32 00 03 03 00 02"), ALL_HOLD},
    {"s3 = s2 without s0", STATED("32 00 03 03 02 00"), FAILS(0)},
    {"s2 = s2 without s1", STATED("32 00 03 02 02 01"), FAILS(0)},

    /* Two elements in the same sets are two; and two names of one element. */
    {"e0 = e1, two elements", "01 00 02 02 01  10 00 02 00 01  " END, "02 00 01  00 01  00 01", FAILS(0)},
    {"e0 != e1, two elements", "01 00 02 02 01  11 00 02 00 01  " END, "02 00 01  00 01  00 01", ALL_HOLD},
    {"e0 = e1, one element", BOTH("10 00 02 00 01"), ALL_HOLD},
    {"e0 != e1, one element", BOTH("11 00 02 00 01"), FAILS(0)},
    {"s0 = {e0}, e1 in s0, s0 = {e1}", BOTH("23 00 02 00 00  12 00 02 01 00  23 00 02 00 01"), ALL_HOLD},

    /* The first that fails is told. */
    {"all of three", STATED("22 00 01 00  22 00 01 01  22 00 01 02"), FAILS(0)},
    {"the second and the last", STATED("22 00 01 03  10 00 02 00 01  20 00 02 00 04  22 00 01 00"), FAILS(1)},
    {"64 that hold", STATED(IDLE_63 IDLE), ALL_HOLD},
    {"63 that hold", STATED(IDLE_63), ALL_HOLD},
    {"the first of 64", STATED("22 00 01 00  " IDLE_63), FAILS(0)},
    {"the last of 64", STATED(IDLE_63 "22 00 01 00"), FAILS(63)},

    /* No element: x != y fails, and everything else about sets holds. With a name there is no such model. */
    {"no element, no name", NOTHING("00", "00"), "00", ALL_HOLD},
    {"no element, five kinds that hold",
     "01 00 02 00 03  20 00 02 00 01  22 00 01 00  30 00 03 00 01 02  31 00 03 00 01 02  32 00 03 00 01 02  " END, "00",
     ALL_HOLD},
    {"no element, s0 != s1", "01 00 02 00 02  22 00 01 00  21 00 02 00 01  " END, "00", FAILS(1)},
    {"no element, no name, and a byte more", NOTHING("00", "00"), "00 00", BAD_MODEL},
    {"no element and a name", NOTHING("01", "00"), "00", BAD_MODEL},
    {"no element and a name for it", NOTHING("01", "00"), "00 00", BAD_MODEL},

    /* Twelve elements, of which the last alone is in s0; and a thirteenth. */
    {"s0 != s1 of twelve", "01 00 02 00 02  21 00 02 00 01  " END, "0C " EIGHT "00 00 00 00 00 00 00 01", ALL_HOLD},
    {"s0 empty of twelve", "01 00 02 00 02  22 00 01 00  " END, "0C " EIGHT "00 00 00 00 00 00 00 01", FAILS(0)},
    {"s0 = {e7} of twelve", "01 00 02 08 01  23 00 02 00 07  " END,
     "0C 00 00 00 00 00 00 00 0B " EIGHT "00 00 00 00 00 00 00 01", ALL_HOLD},
    {"thirteen", NOTHING("00", "02"), "0D " EIGHT "00 00 00 00 00 00 00 00 00 00", BAD_MODEL},
    {"thirteen in the length of twelve", NOTHING("00", "02"), "0D " EIGHT "00 00 00 00 00 00 00 00", BAD_MODEL},
    {"twelve in the length of thirteen", NOTHING("00", "02"), "0C " EIGHT "00 00 00 00 00 00 00 00 00 00", BAD_MODEL},

    /* An element is below n. */
    {"the last of two", NOTHING("01", "00"), "02 01  00 00  00 00", ALL_HOLD},
    {"the third of two", NOTHING("01", "00"), "02 02  00 00  00 00", BAD_MODEL},
    {"the 256th of two", NOTHING("01", "00"), "02 FF  00 00  00 00", BAD_MODEL},
    {"the first name wrong", NOTHING("02", "00"), "02 02 01  00 00  00 00", BAD_MODEL},
    {"the last name wrong", NOTHING("02", "00"), "02 01 02  00 00  00 00", BAD_MODEL},

    /* A mask has bits for declared sets only, and its high byte stands first. */
    {"bit 0 of no set", NOTHING("00", "00"), "01 00 01", BAD_MODEL},
    {"bit 15 of no set", NOTHING("00", "00"), "01 80 00", BAD_MODEL},
    {"no bit of no set", NOTHING("00", "00"), "01 00 00", ALL_HOLD},
    {"bit 7 of eight sets", NOTHING("00", "08"), "01 00 80", ALL_HOLD},
    {"bit 8 of eight sets", NOTHING("00", "08"), "01 01 00", BAD_MODEL},
    {"bit 8 of nine sets", NOTHING("00", "09"), "01 01 00", ALL_HOLD},
    {"bit 14 of fifteen sets", NOTHING("00", "0F"), "01 40 00", ALL_HOLD},
    {"bit 15 of fifteen sets", NOTHING("00", "0F"), "01 80 00", BAD_MODEL},
    {"bit 15 of sixteen sets", NOTHING("00", "10"), "01 80 00", ALL_HOLD},
    {"all bits of sixteen sets", NOTHING("00", "10"), "01 FF FF", ALL_HOLD},
    {"a bit too many in the last mask", NOTHING("00", "01"), "03 00 01  00 00  00 02", BAD_MODEL},
    {"e0 in s15", "01 00 02 01 10  12 00 02 00 0F  13 00 02 00 07  " END, "01 00  80 00", ALL_HOLD},
    {"e0 in s7", "01 00 02 01 10  12 00 02 00 07  13 00 02 00 0F  " END, "01 00  00 80", ALL_HOLD},
    {"e7 in s15", "01 00 02 08 10  23 00 02 0F 07  12 00 02 07 0F  13 00 02 06 0F  " END,
     "02 00 00 00 00 00 00 00 01  7F FF  80 00", ALL_HOLD},

    /* The table of docs/FORMAT.md, beside case I. */
    {"the model of case I", CASE_I, "02 00  00 03  00 02", ALL_HOLD},
    {"case I without the second element", CASE_I, "01 00  00 03", FAILS(1)},
    {"case I with e0 the second element", CASE_I, "02 01  00 03  00 02", FAILS(0)},
    {"case I with e0 not in s1", CASE_I, "02 00  00 01  00 02", FAILS(2)},
    {"case I with a third element", CASE_I, "03 00  00 03  00 02  00 00", ALL_HOLD},
    {"case I and no model", CASE_I, "", BAD_MODEL},
    {"case I and n = 0", CASE_I, "00", BAD_MODEL},
    {"case I with e0 a third element of two", CASE_I, "02 02  00 03  00 02", BAD_MODEL},
    {"case I with s2", CASE_I, "02 00  00 03  00 04", BAD_MODEL},
    {"case I and a byte too few", CASE_I, "02 00  00 03  00", BAD_MODEL},
    {"case I and a byte too many", CASE_I, "02 00  00 03  00 02  00", BAD_MODEL},

    /* The length is that of n. */
    {"one element", NOTHING("01", "01"), "01 00  00 01", ALL_HOLD},
    {"nothing at all", NOTHING("01", "01"), "", BAD_MODEL},
    {"nothing at all, no name", NOTHING("00", "00"), "", BAD_MODEL},
    {"n alone", NOTHING("01", "01"), "01", BAD_MODEL},
    {"no mask", NOTHING("01", "01"), "01 00", BAD_MODEL},
    {"half a mask", NOTHING("01", "01"), "01 00  00", BAD_MODEL},
    {"half a mask more", NOTHING("01", "01"), "01 00  00 01  00", BAD_MODEL},
    {"a mask more", NOTHING("01", "01"), "01 00  00 01  00 00", BAD_MODEL},
    {"n one more", NOTHING("01", "01"), "02 00  00 01", BAD_MODEL},
    {"n one less", NOTHING("01", "01"), "01 00  00 01  00 01", BAD_MODEL},
    {"an element more", NOTHING("01", "01"), "01 00 00  00 01", BAD_MODEL},
    {"a size of 255 alone", NOTHING("00", "00"), "FF", BAD_MODEL},

    /* A bad model is never judged, though the first statement would fail. */
    {"a wrong element behind e0 != e0", "01 00 02 02 01  11 00 02 00 00  " END, "01 00 01  00 00", BAD_MODEL},
    {"a wrong mask behind e0 != e0", "01 00 02 01 01  11 00 02 00 00  " END, "02 00  00 00  00 02", BAD_MODEL},

    /* The question's refusal comes first, at its place, be the model good or bad. */
    {"no question, no model", "", "", 1},
    {"7F alone, no model", END, "", 3},
    {"7F alone, a model", END, "00", 3},
    {"a byte more, a model", NOTHING("00", "00") " 00", "00", 256 * 8 + 9},
    {"a byte more, thirteen elements", NOTHING("00", "00") " 00", "0D", 256 * 8 + 9},
    {"e1 not declared, a model", "01 00 02 01 00  11 00 02 00 00  10 00 02 00 01  " END, "01 00  00 00", 256 * 10 + 6},
    {"e1 not declared, no model", "01 00 02 01 00  11 00 02 00 00  10 00 02 00 01  " END, "", 256 * 10 + 6},
};

/* The question that is asked, as it is lent, and as the tests' own reader has it, or refuses it. */
static struct file file;
static const uint8_t *question;
static struct question asked;
static uint64_t refusal;

static void ask(const struct file *next)
{
    file = *next;
    question = lend_question(file.bytes, file.length);
    refusal = read_question(file.bytes, file.length, &asked);
}

static void ask_hex(const char *text)
{
    struct file next;
    next.length = from_hex(text, next.bytes);
    ask(&next);
}

static void ask_about(uint8_t elements, uint8_t sets, const struct statement *statements, size_t count)
{
    struct file next = {{0}, 0};
    put_field(&next, 0x01, 2, elements, sets, 0);
    for (size_t i = 0; i < count; i++) {
        const uint8_t *names = statements[i].names;
        put_field(&next, statements[i].tag, (uint8_t)strlen(body_of(statements[i].tag)), names[0], names[1], names[2]);
    }
    put_field(&next, 0x7F, 0, 0, 0, 0);
    ask(&next);
}

/* Ends the test with the question and the model that failed. */
static void expect(int as_it_should_be, const char *what, const char *otherwise, const uint8_t *model, size_t length)
{
    if (as_it_should_be)
        return;
    printf("%s: a model of %zu bytes:\n", what, length);
    for (size_t i = 0; i < length && i < 2 * SAYFUDHOUM_MAX_MODEL_LENGTH; i++)
        printf(" %02X", model[i]);
    printf("\n");
    expect_of(0, otherwise, &file);
}

static unsigned long judged, held, failing, bad, refused;

static void tally(uint64_t due)
{
    judged++;
    if (due == ALL_HOLD)
        held++;
    else if (due == BAD_MODEL)
        bad++;
    else if (sayfudhoum_refusal(due) == 0)
        failing++;
    else
        refused++;
}

/* The question's own refusal comes first. */
static uint64_t second_number(const uint8_t *model, size_t length)
{
    return refusal != 0 ? refusal : judge_model(&asked, model, length);
}

/* What is due of the library. */
static void try_number(const char *what, const uint8_t *model, size_t length, uint64_t due)
{
    int fine = judges(question, file.length, model, length, due);
    expect(fine, what, "another number, or the model was written", model, length);
    expect(memcmp(question, file.bytes, file.length) == 0, what, "the question was written", model, length);
    tally(due);
}

/* What is worked out by hand or plain to see is due of the second judge too. */
static void try_due(const char *what, const uint8_t *model, size_t length, uint64_t due)
{
    expect(second_number(model, length) == due, what, "the second judge gives another number", model, length);
    try_number(what, model, length, due);
}

/* What the second judge gives is due, and given back. */
static uint64_t try_model(const uint8_t *model, size_t length)
{
    uint64_t due = second_number(model, length);
    try_number("beside the second judge", model, length, due);
    return due;
}

static void try_by_hand(void)
{
    for (size_t i = 0; i < sizeof by_hand / sizeof by_hand[0]; i++) {
        uint8_t model[2 * SAYFUDHOUM_MAX_MODEL_LENGTH];
        ask_hex(by_hand[i].question);
        try_due(by_hand[i].what, model, from_hex(by_hand[i].model, model), by_hand[i].due);
    }
}

/* Each index, in two ways: from there on every statement fails, or just that one. */
static void try_indexes(void)
{
    static const struct statement holds = {0x20, {0, 0, 0}}, fails = {0x22, {0, 0, 0}};
    static const uint8_t model[] = {1, 0, 1};
    for (size_t index = 0; index <= 64; index++) {
        struct statement statements[64];
        for (size_t i = 0; i < 64; i++)
            statements[i] = i < index ? holds : fails;
        ask_about(0, 1, statements, 64);
        try_due("the first to fail", model, sizeof model, FAILS(index));
        for (size_t i = index + 1; i < 64; i++)
            statements[i] = holds;
        ask_about(0, 1, statements, 64);
        try_due("one to fail", model, sizeof model, FAILS(index));
    }
}

/* Each n with zeros behind it, in its own length and in others, of which some are the same in 8 or 16 bits. */
static void try_sizes(void)
{
    static const size_t other[] = {1, 2, 256, 65536};
    static uint8_t model[1 + 8 + 2 * 255 + 65536];
    for (uint8_t elements = 0; elements <= 8; elements++) {
        ask_about(elements, 16, NULL, 0);
        for (unsigned size = 0; size < 256; size++) {
            size_t length = 1u + elements + 2 * size;
            int good = size <= 12 && (size > 0 || elements == 0);
            model[0] = (uint8_t)size;
            try_due("a size", model, length, good ? ALL_HOLD : BAD_MODEL);
            for (size_t i = 0; i < sizeof other / sizeof other[0]; i++) {
                try_due("a longer slice", model, length + other[i], BAD_MODEL);
                if (length >= other[i])
                    try_due("a shorter slice", model, length - other[i], BAD_MODEL);
            }
        }
    }
}

/* Each element for each name, beside others that are the last one that can be. */
static void try_elements(void)
{
    ask_about(8, 0, NULL, 0);
    for (unsigned size = 1; size <= 12; size++)
        for (unsigned name = 0; name < 8; name++)
            for (unsigned element = 0; element < 256; element++) {
                uint8_t model[SAYFUDHOUM_MAX_MODEL_LENGTH] = {(uint8_t)size};
                memset(model + 1, (int)size - 1, 8);
                model[1 + name] = (uint8_t)element;
                try_due("an element", model, 9 + 2 * size, element < size ? ALL_HOLD : BAD_MODEL);
            }
}

/* Each bit of each mask, beside others that have all bits that they can have. */
static void try_masks(void)
{
    for (uint8_t sets = 0; sets <= 16; sets++) {
        unsigned declared = (1u << sets) - 1;
        ask_about(0, sets, NULL, 0);
        for (unsigned element = 0; element < 12; element++)
            for (unsigned bit = 0; bit < 16; bit++) {
                uint8_t model[1 + 2 * 12] = {12};
                for (unsigned i = 0; i < 12; i++) {
                    unsigned mask = i == element ? 1u << bit : declared;
                    model[1 + 2 * i] = (uint8_t)(mask >> 8);
                    model[2 + 2 * i] = (uint8_t)mask;
                }
                try_due("a bit", model, sizeof model, bit < sets ? ALL_HOLD : BAD_MODEL);
            }
    }
}

/* Every statement about so many names; gives how many there are. */
enum { MOST_STATEMENTS = 128 };
static size_t every_statement(uint8_t elements, uint8_t sets, struct statement *statements)
{
    size_t count = 0;
    for (unsigned tag = 0x10; tag <= 0x32; tag++) {
        const char *sorts = body_of((uint8_t)tag);
        size_t names = sorts == NULL ? 0 : strlen(sorts);
        uint8_t bounds[3] = {1, 1, 1};
        for (size_t i = 0; i < names; i++)
            bounds[i] = sorts[i] == 'e' ? elements : sets;
        for (uint8_t first = 0; names > 0 && first < bounds[0]; first++)
            for (uint8_t second = 0; second < bounds[1]; second++)
                for (uint8_t third = 0; third < bounds[2]; third++)
                    statements[count++] = (struct statement){(uint8_t)tag, {first, second, third}};
    }
    return count;
}

/* The next model of this n, or 0: an element goes up to n and a mask to 2 to the S, so that each can be bad. */
static int next_model(uint8_t *model)
{
    for (unsigned i = 0; i < asked.elements + model[0]; i++) {
        int names_element = i < asked.elements;
        uint8_t *digit = names_element ? &model[1 + i] : &model[2 + 2 * i - asked.elements];
        if (*digit < (names_element ? model[0] : 1u << asked.sets)) {
            ++*digit;
            return 1;
        }
        *digit = 0;
    }
    return 0;
}

static void try_every_model(uint8_t largest)
{
    for (uint8_t size = 0; size <= largest; size++) {
        uint8_t model[SAYFUDHOUM_MAX_MODEL_LENGTH] = {size};
        do {
            try_model(model, 1u + asked.elements + 2u * size);
        } while (next_model(model));
    }
}

/* Each statement by itself. */
static void try_each(uint8_t elements, uint8_t sets)
{
    struct statement all[MOST_STATEMENTS];
    size_t count = every_statement(elements, sets, all);
    for (size_t i = 0; i < count; i++) {
        ask_about(elements, sets, &all[i], 1);
        try_every_model(3);
    }
}

/* Each two of them in both orders, and all of them, from each one on. */
static void try_several(uint8_t elements, uint8_t sets)
{
    struct statement all[2 * MOST_STATEMENTS];
    size_t count = every_statement(elements, sets, all);
    memcpy(all + count, all, count * sizeof all[0]);
    for (size_t i = 0; i < count; i++) {
        ask_about(elements, sets, &all[i], count);
        try_every_model(2);
        for (size_t j = 0; j < count; j++) {
            const struct statement two[] = {all[i], all[j]};
            ask_about(elements, sets, two, 2);
            try_every_model(2);
        }
    }
}

static void try_shapes(void)
{
    try_each(0, 3);
    try_each(1, 3);
    try_each(2, 2);
    try_several(1, 2);
    try_several(2, 2);
}

/* Behind n come elements and masks, most of them good, up to this length: more or fewer than a model of that n has. */
enum { DRAWN_LENGTH = 60 };
static void draw_model(uint8_t size, uint8_t *model)
{
    const unsigned declared = (1u << asked.sets) - 1;
    model[0] = size;
    for (size_t i = 1; i < DRAWN_LENGTH; i++) {
        unsigned drawn = random_below(256);
        if (random_below(64) == 0)
            model[i] = (uint8_t)drawn;
        else if (i <= asked.elements)
            model[i] = (uint8_t)(size == 0 ? drawn : drawn % size);
        else
            model[i] = (uint8_t)(drawn & ((i - asked.elements) % 2 == 1 ? declared >> 8 : declared));
    }
}

/* The first and the last name are the same element, and the first and the last set differ, if there are any. */
static void ask_of_last(uint8_t elements, uint8_t sets)
{
    const struct statement statements[] = {{0x10, {0, (uint8_t)(elements - 1), 0}},
                                           {0x21, {0, (uint8_t)(sets - 1), 0}}};
    size_t from = elements > 0 ? 0 : 1, to = sets > 0 ? 2 : 1;
    ask_about(elements, sets, statements + from, to - from);
}

/* Every E and S, with models of every length, and with an n that fits it or doesn't. */
static void try_lengths(void)
{
    static const uint8_t sizes[] = {0,  1,  2,  3,  4,  5,  6,  7,  8,  9,   10,  11,  12,
                                    13, 14, 15, 16, 17, 18, 19, 20, 127, 128, 129, 254, 255};
    for (unsigned names = 0; names < 9 * 17; names++) {
        ask_of_last((uint8_t)(names / 17), (uint8_t)(names % 17));
        for (size_t i = 0; i < sizeof sizes; i++)
            for (size_t length = 0; length <= DRAWN_LENGTH; length++) {
                uint8_t model[DRAWN_LENGTH];
                draw_model(sizes[i], model);
                try_model(model, length);
            }
    }
}

/* A model of an answer: every statement holds in it. With one bit turned, the second judge says what is due. */
static void try_answered(const uint8_t *answer)
{
    uint8_t model[SAYFUDHOUM_MAX_MODEL_LENGTH];
    size_t length = model_in(answer, asked.elements, model);
    try_due("the model of an answer", model, length, ALL_HOLD);
    for (size_t bit = 0; bit < 8 * length; bit++) {
        model[bit / 8] ^= (uint8_t)(1u << bit % 8);
        try_model(model, length);
        model[bit / 8] ^= (uint8_t)(1u << bit % 8);
    }
}

/* Drawn models in their own length. In none of them all statements of an impossible question hold. */
static void try_drawn(size_t count, int possible)
{
    while (count-- > 0) {
        uint8_t model[DRAWN_LENGTH];
        draw_model(random_below(13), model);
        size_t length = 1u + asked.elements + 2u * model[0];
        expect(try_model(model, length) != ALL_HOLD || possible, "impossible", "every statement holds", model, length);
    }
}

/* Cases A to N, by the answers that were worked out by hand. */
static void try_examples(void)
{
    for (size_t i = 0; i < EXAMPLES; i++) {
        uint8_t answer[SAYFUDHOUM_MAX_ANSWER_LENGTH];
        size_t length = from_hex(examples[i].answer, answer);
        ask_hex(examples[i].question);
        if (length > 7)
            try_answered(answer);
        try_drawn(2000, length > 7);
    }
}

/* A drawn question may be refused, for too many witnesses. */
static void try_question(const struct file *drawn)
{
    uint8_t answer[SAYFUDHOUM_MAX_ANSWER_LENGTH];
    ask(drawn);
    uint64_t result = sayfudhoum_answer(question, file.length, answer, sizeof answer);
    int possible = sayfudhoum_refusal(result) == 0 && sayfudhoum_rest(result) > 7;
    if (possible)
        try_answered(answer);
    try_drawn(20, possible);
}

enum { DRAWN = 1000, LEAST = 10000 };
int main(void)
{
    try_by_hand();
    try_indexes();
    try_sizes();
    try_elements();
    try_masks();
    try_shapes();
    try_lengths();
    try_examples();
    try_files(DRAWN, try_question);
    printf("%lu models judged: in %lu all statements hold, in %lu one fails, %lu are bad, %lu beside a bad question\n",
           judged, held, failing, bad, refused);
    if (held < LEAST || failing < LEAST || bad < LEAST) {
        printf("too few of a kind\n");
        return 1;
    }
    return 0;
}
