/*
 * The clashing part. Cases worked out by hand, with buffers that are too short, just long enough or
 * longer, in all combinations; the trimming step of the README with idle statements between its own;
 * and drawn questions beside a second finder, with the promise itself tried: the part is impossible,
 * without any one of its statements it is possible, and it is its own clashing part.
 */
#include "clashes.h"
#include "files.h"
#include "finder.h"

#include <stdio.h>
#include <stdlib.h>
#include <string.h>

#define IMPOSSIBLE "40 00 01 00  7F 00 00"

/* Statements that hold always: seven, and forty-seven. */
#define IDLE "30 00 03 00 00 00  "
#define IDLE_7 IDLE IDLE IDLE IDLE IDLE IDLE IDLE
#define IDLE_47 IDLE_7 IDLE_7 IDLE_7 IDLE_7 IDLE_7 IDLE_7 IDLE IDLE IDLE IDLE IDLE

/* y in x, as x = x union y, in two hexadecimal digits each. */
#define PART_OF(y, x) "30 00 03 " #x " " #x " " #y "  "

/* e0 in s0, each set in the next one, and e0 not in the last: without any one of them, the rest can hold. */
#define CHAIN                                                                                       \
    "12 00 02 00 00  " PART_OF(00, 01) PART_OF(01, 02) PART_OF(02, 03) PART_OF(03, 04)              \
    PART_OF(04, 05) PART_OF(05, 06) PART_OF(06, 07) PART_OF(07, 08) PART_OF(08, 09)                 \
    PART_OF(09, 0A) PART_OF(0A, 0B) PART_OF(0B, 0C) PART_OF(0C, 0D) PART_OF(0D, 0E)                 \
    PART_OF(0E, 0F) "13 00 02 00 0F  "

static const struct example by_hand[] = {
    /*
     * e0 in s0, s0 = s0, e0 = e1, e1 not in s0, e0 not in s0. The first must stay: without it all sets may
     * be empty. s0 = s0 says nothing. The next two go, as the last clashes with the first; so it stays.
     */
    {"in two ways", "01 00 02 02 01  12 00 02 00 00  20 00 02 00 00  10 00 02 00 01  13 00 02 01 00  13 00 02 00 00"
                    "  7F 00 00",
     IMPOSSIBLE, "01 00 02 02 01  12 00 02 00 00  13 00 02 00 00  7F 00 00", "00 04"},

    /* Case C twice: the first two go, as the last two clash. */
    {"C twice", "01 00 02 02 00  11 00 02 00 01  10 00 02 00 01  11 00 02 00 01  10 00 02 00 01  7F 00 00",
     IMPOSSIBLE, "01 00 02 02 00  11 00 02 00 01  10 00 02 00 01  7F 00 00", "02 03"},

    /* s0 != s0 three times: each of them clashes by itself, and only the last is left. */
    {"K three times", "01 00 02 00 01  21 00 02 00 00  21 00 02 00 00  21 00 02 00 00  7F 00 00",
     IMPOSSIBLE, "01 00 02 00 01  21 00 02 00 00  7F 00 00", "02"},

    /* s0 != s0, e0 != e0: the same with two kinds of statements. */
    {"two that clash alone", "01 00 02 01 01  21 00 02 00 00  11 00 02 00 00  7F 00 00",
     IMPOSSIBLE, "01 00 02 01 01  11 00 02 00 00  7F 00 00", "01"},

    /*
     * e0 = e2, e0 = e1, e1 = e2, e0 != e2. The first goes, since the second and third say it too. So
     * the part has three statements, though the first and the last would do: it need not be the shortest.
     */
    {"not the shortest", "01 00 02 03 00  10 00 02 00 02  10 00 02 00 01  10 00 02 01 02  11 00 02 00 02  7F 00 00",
     IMPOSSIBLE, "01 00 02 03 00  10 00 02 00 01  10 00 02 01 02  11 00 02 00 02  7F 00 00", "01 02 03"},

    /* e0 = e1, e1 = e2, e0 = e2, e0 != e2: the other way round, and both of the first two go. */
    {"the shortest", "01 00 02 03 00  10 00 02 00 01  10 00 02 01 02  10 00 02 00 02  11 00 02 00 02  7F 00 00",
     IMPOSSIBLE, "01 00 02 03 00  10 00 02 00 02  11 00 02 00 02  7F 00 00", "02 03"},

    /* s1 != s2, s2 != s3, s3 != s4, s0 != s0: three witnesses go, and all names stay declared. */
    {"with fewer witnesses", "01 00 02 08 10  21 00 02 01 02  21 00 02 02 03  21 00 02 03 04  21 00 02 00 00  7F 00 00",
     IMPOSSIBLE, "01 00 02 08 10  21 00 02 00 00  7F 00 00", "03"},

    /* e0 in s1 and e0 not in s1, with statements of every length before, between and behind that say nothing of s1. */
    {"with others around", "01 00 02 01 02  22 00 01 00  12 00 02 00 01  " IDLE "10 00 02 00 00  13 00 02 00 01"
                           "  20 00 02 00 00  7F 00 00",
     IMPOSSIBLE, "01 00 02 01 02  12 00 02 00 01  13 00 02 00 01  7F 00 00", "01 04"},

    /* A part with many statements, by itself, and as the end and as the beginning of 64. */
    {"a chain", "01 00 02 01 10  " CHAIN "7F 00 00",
     IMPOSSIBLE, "01 00 02 01 10  " CHAIN "7F 00 00", "00 01 02 03 04 05 06 07 08 09 0A 0B 0C 0D 0E 0F 10"},
    {"64 statements, a chain last", "01 00 02 01 10  " IDLE_47 CHAIN "7F 00 00",
     IMPOSSIBLE, "01 00 02 01 10  " CHAIN "7F 00 00", "2F 30 31 32 33 34 35 36 37 38 39 3A 3B 3C 3D 3E 3F"},
    {"64 that say nothing", "01 00 02 01 10  " IDLE_47 IDLE_7 IDLE_7 IDLE IDLE IDLE "7F 00 00",
     "40 00 01 01  41 00 01 00  42 00 02 00 00  7F 00 00", "01 00 02 01 10  7F 00 00", ""},
    {"64 statements, a chain first", "01 00 02 01 10  " CHAIN IDLE_47 "7F 00 00",
     IMPOSSIBLE, "01 00 02 01 10  " CHAIN "7F 00 00", "00 01 02 03 04 05 06 07 08 09 0A 0B 0C 0D 0E 0F 10"},
};

/* How long a buffer is, of what is needed in it. */
enum room { NONE, ONE_SHORT, EXACT, ONE_MORE, LONGEST, TWICE_LONGEST, ROOMS };

static size_t room_for(enum room room, size_t needed, size_t longest)
{
    switch (room) {
    case NONE: return 0;
    case ONE_SHORT: return needed == 0 ? 0 : needed - 1;
    case EXACT: return needed;
    case ONE_MORE: return needed + 1;
    case LONGEST: return longest;
    default: return 2 * longest;
    }
}

/* Whether the call does what it has to, with buffers of these lengths: it is refused if any one is too short. */
static int fine(const uint8_t *question, size_t length, const size_t *rooms, enum edge edge, const struct clash *clash)
{
    for (int buffer = 0; buffer < CLASH_BUFFERS; buffer++)
        if (rooms[buffer] < clash->lengths[buffer])
            return refuses(question, length, rooms, edge, SAYFUDHOUM_BUFFER_TOO_SHORT);
    return leaves(question, length, rooms, edge, clash);
}

/* Every combination of lengths, at both edges. */
static int all_rooms(const uint8_t *question, size_t length, const struct clash *clash)
{
    for (int choice = 0; choice < ROOMS * ROOMS * ROOMS; choice++) {
        size_t rooms[CLASH_BUFFERS];
        int left = choice;
        for (int buffer = 0; buffer < CLASH_BUFFERS; buffer++) {
            rooms[buffer] = room_for((enum room)(left % ROOMS), clash->lengths[buffer], longest_rooms[buffer]);
            left /= ROOMS;
        }
        if (!fine(question, length, rooms, BEHIND_PAGE, clash) || !fine(question, length, rooms, BEFORE_PAGE, clash)) {
            printf("wrong with buffers of %zu, %zu and %zu bytes\n", rooms[FOR_PART], rooms[FOR_INDEXES],
                   rooms[FOR_ANSWER]);
            return 0;
        }
    }
    return 1;
}

static int try_by_hand(const struct example *all, size_t count)
{
    int failed = 0;
    for (size_t i = 0; i < count; i++) {
        uint8_t bytes[SAYFUDHOUM_MAX_QUESTION_LENGTH];
        size_t length = from_hex(all[i].question, bytes);
        struct clash clash;
        example_clash(&all[i], &clash);
        if (!all_rooms(lend_question(bytes, length), length, &clash)) {
            printf("case %s failed\n", all[i].name);
            failed = 1;
        }
    }
    return failed;
}

/*
 * The right step of examples/trimming.c, with the names as they are numbered there. All but the first
 * statement are its clashing part. The first says that the arms are two segments; but one segment that
 * is both arms would have to be cut and kept all the same. Without any other the rest can hold:
 *   1, 2, 3  left, right or crossing can hold a third segment, which is due in place of an arm;
 *   4        a third segment can be due that doesn't cross;
 *   5, 6     nothing need be due;
 *   7        what is due need not be cut;
 *   8        what is cut can be kept;
 *   9, 10    that arm can be the one which is due, and it need not be kept.
 */
enum { STEP = 11, NEEDED_FROM = 1, ADDED = 10, MIXTURES = 1000 };
static const char *const step_names = "01 00 02 02 0A";
static const char *const step[STEP] = {
    "11 00 02 00 01",    /* left arm != right arm */
    "23 00 02 03 00",    /* left = {left arm} */
    "23 00 02 04 01",    /* right = {right arm} */
    "30 00 03 05 03 04", /* crossing = left union right */
    "31 00 03 06 05 01", /* due = crossing intersection covered */
    "22 00 01 07",       /* nothing empty */
    "21 00 02 06 07",    /* due != nothing */
    "30 00 03 08 06 02", /* cut = due union barred */
    "32 00 03 09 00 08", /* kept after = kept before without cut */
    "12 00 02 00 09",    /* left arm in kept after */
    "12 00 02 01 09",    /* right arm in kept after */
};

static void put_hex(struct file *file, const char *text)
{
    file->length += from_hex(text, file->bytes + file->length);
}

/* A statement that holds always, of one of four kinds, on names of the step. */
static void put_idle(struct file *file)
{
    uint8_t a = random_below(2), x = random_below(10);
    switch (random_below(4)) {
    case 0: put_field(file, 0x10, 2, a, a, 0); break;
    case 1: put_field(file, 0x20, 2, x, x, 0); break;
    case 2: put_field(file, 0x30, 3, x, x, x); break;
    default: put_field(file, 0x31, 3, x, x, x); break;
    }
}

/* The step with so many idle statements at drawn places between its own, and where its own stand then. */
static void mix(size_t idle, struct file *file, uint8_t *places)
{
    size_t put = 0;
    file->length = 0;
    put_hex(file, step_names);
    for (uint8_t place = 0; put < STEP || idle > 0; place++)
        if (random_below(STEP - put + idle) < idle) {
            put_idle(file);
            idle--;
        } else {
            put_hex(file, step[put]);
            places[put++] = place;
        }
    put_hex(file, "7F 00 00");
}

/* The part is the same with any idle statements, and the indexes say where its statements stand. */
static int try_step(size_t idle)
{
    struct file question, part = {{0}, 0};
    struct clash clash;
    uint8_t places[STEP];
    mix(idle, &question, places);

    put_hex(&part, step_names);
    for (size_t i = NEEDED_FROM; i < STEP; i++)
        put_hex(&part, step[i]);
    put_hex(&part, "7F 00 00");
    memcpy(clash.bytes[FOR_PART], part.bytes, part.length);
    clash.lengths[FOR_PART] = part.length;
    memcpy(clash.bytes[FOR_INDEXES], places + NEEDED_FROM, STEP - NEEDED_FROM);
    clash.lengths[FOR_INDEXES] = STEP - NEEDED_FROM;
    clash.lengths[FOR_ANSWER] = from_hex(IMPOSSIBLE, clash.bytes[FOR_ANSWER]);
    return leaves(lend_question(question.bytes, question.length), question.length, longest_rooms, BEFORE_PAGE, &clash);
}

static int try_steps(void)
{
    int failed = !try_step(0);
    for (size_t i = 0; i < MIXTURES; i++)
        failed |= !try_step(ADDED);
    if (failed)
        printf("the trimming step has another clashing part\n");
    return failed;
}

/* Drawn questions. */
enum { DRAWN = 3000, LEAST_IMPOSSIBLE = 3000 };
static unsigned long impossible, possible, stated, dropped, longest;

/* Whether the part is impossible, and without any one of its statements possible. */
static int none_can_go(const uint8_t *part, size_t length, size_t statements)
{
    if (sayfudhoum_verdict(part, length) != 0)
        return 0;
    for (size_t left_out = 0; left_out < statements; left_out++) {
        uint8_t kept[SAYFUDHOUM_MAX_STATEMENTS], rest[SAYFUDHOUM_MAX_QUESTION_LENGTH];
        memset(kept, 1, statements);
        kept[left_out] = 0;
        if (sayfudhoum_verdict(rest, write_kept(part, kept, rest)) != 256)
            return 0;
    }
    return 1;
}

/* Whether the part, as a question, has itself as its part, with the indexes 0, 1, 2 and so on. */
static int is_its_own(const struct clash *clash)
{
    struct clash again = *clash;
    for (size_t i = 0; i < again.lengths[FOR_INDEXES]; i++)
        again.bytes[FOR_INDEXES][i] = (uint8_t)i;
    const uint8_t *question = lend_question(clash->bytes[FOR_PART], clash->lengths[FOR_PART]);
    return leaves(question, clash->lengths[FOR_PART], longest_rooms, BEHIND_PAGE, &again);
}

static void try_impossible(const struct file *file, const struct clash *clash)
{
    size_t count = clash->lengths[FOR_INDEXES], all = statements_of(file->bytes);
    expect_of(none_can_go(clash->bytes[FOR_PART], clash->lengths[FOR_PART], count), "no clashing part", file);
    expect_of(is_its_own(clash), "the part's part is another", file);
    impossible++;
    stated += all;
    dropped += all - count;
    if (count > longest)
        longest = count;
}

/* A question that is drawn may be refused, for too many witnesses; then this call refuses it too. */
static void try_question(const struct file *file)
{
    const uint8_t *question = lend_question(file->bytes, file->length);
    struct clash clash;
    uint64_t result = sayfudhoum_answer(question, file->length, clash.bytes[FOR_ANSWER], longest_rooms[FOR_ANSWER]);
    if (sayfudhoum_refusal(result) != 0) {
        expect_of(refuses(question, file->length, longest_rooms, BEFORE_PAGE, result), "not refused so", file);
        return;
    }
    clash.lengths[FOR_ANSWER] = sayfudhoum_rest(result);
    find_clash(question, file->length, &clash);
    expect_of(leaves(question, file->length, longest_rooms, BEFORE_PAGE, &clash), "the two finders differ", file);
    expect_of(leaves(question, file->length, clash.lengths, BEHIND_PAGE, &clash), "wrong in just enough room", file);
    expect_of(refuses_short(question, file->length, BEFORE_PAGE, &clash), "wrong in too little room", file);
    if (clash.bytes[FOR_ANSWER][3] == 0)
        try_impossible(file, &clash);
    else
        possible++;
}

int main(void)
{
    int failed = try_by_hand(examples, EXAMPLES) | try_by_hand(by_hand, sizeof by_hand / sizeof by_hand[0]);
    failed |= try_steps();
    try_files(DRAWN, try_question);
    printf("%lu impossible questions, with %lu of %lu statements dropped and %lu in the longest part; %lu possible\n",
           impossible, dropped, stated, longest, possible);
    if (impossible < LEAST_IMPOSSIBLE) {
        printf("too few are impossible\n");
        failed = 1;
    }
    return failed;
}
