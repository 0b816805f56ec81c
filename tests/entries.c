/* Every entry of credits.h, called through libcredits.a: cases worked out by hand from documents 01 and 02, buffers of each length
 * in turn, slices of no bytes, and random books, sheets and sessions. Prints each difference with its line, then one line of
 * counts; status 1 where anything differed. ./test builds and runs it. An argument is another seed for the random part. */
#include "entries.h"
#include <stdio.h>
#include <stdlib.h>
#include <string.h>

/* The notation itself, against the bytes of README.md's example. */
static void notation(void)
{
    const uint8_t state[] = { 3, 1, 1, 19, 0, 2, 0, 2, 1, 21, 0, 2, 0, 4, 3, 23, 0, 17, 0, 'N', '1', 'r', 'd',
                              5, 0, 0, 0, 0, 0, 0, 0, 0, 0, 0, 0, 0, 0, 0, 0, 0 };
    const uint8_t input[] = { 2, 7, 1, 13, 0, 1, 0, 10, 2, 14, 0, 0, 0, '3' };
    sheet s = sheet_of("1:N1 2:rd 4#5/0"), i = sheet_of("7:3 10!");
    number_is(AT, "a state's length", s.len, sizeof state);
    bytes_are(AT, "a state", s.bytes, state, sizeof state);
    number_is(AT, "an input's length", i.len, sizeof input);
    bytes_are(AT, "an input", i.bytes, input, sizeof input);
}

/* ---- amounts */

static credits_given read_text(const char *text)
{
    return credits_amount_read((const uint8_t *)text, strlen(text));
}

static void reading(void)
{
    static const struct { const char *at, *text; uint8_t number; const char *amount; } cases[] = {
        { AT, "0", 0, "0/0" },
        { AT, "7", 0, "7/0" },
        { AT, "007", 0, "7/0" },
        { AT, "18446744073709551616", 0, "H/0" },
        { AT, MOST, 0, "M/0" },
        { AT, ABOVE, 10, NULL },
        { AT, "000000000000000000000000000000000000001", 0, "1/0" },  /* 39 bytes */
        { AT, "0000000000000000000000000000000000000001", 10, NULL }, /* 40 */
        { AT, "999999999999999999999999999999999999999", 10, NULL },
        { AT, "", 10, NULL },
        { AT, "1.5", 10, NULL },
        { AT, "1e3", 10, NULL },
        { AT, "+1", 10, NULL },
        { AT, "1 ", 10, NULL },
        { AT, "1/", 10, NULL }, /* the byte before 0 */
        { AT, "1:", 10, NULL }, /* the byte behind 9 */
    };
    for (size_t k = 0; k < COUNT(cases); k++)
        given_is(cases[k].at, read_text(cases[k].text), cases[k].number, amount_of(cases[k].amount));
    given_is(AT, credits_amount_read((const uint8_t *)"1\0002", 3), 10, zero);
}

static void comparing(void)
{
    static const struct { const char *at, *a, *b; uint8_t order; } cases[] = {
        { AT, "10/1", "1/0", 1 },
        { AT, "1200/3", "12/1", 1 },
        { AT, "0/255", "0/0", 1 },
        { AT, "M/0", "M/0", 1 },
        { AT, "1/0", "11/1", 0 },
        { AT, "11/1", "1/0", 2 },
        { AT, "M/0", "0/1", 2 },
        { AT, "M/255", "M/254", 0 },
        { AT, "0/0", "1/255", 0 },
        { AT, "1/255", "0/0", 2 },
        { AT, "M/38", "3/0", 2 },
        { AT, "M/38", "4/0", 0 },
        { AT, "H/0", "18446744073709551615/0", 2 },
    };
    for (size_t k = 0; k < COUNT(cases); k++) {
        uint8_t order = credits_amount_compare(amount_of(cases[k].a), amount_of(cases[k].b));
        counted(0);
        number_is(cases[k].at, "order", order, cases[k].order);
    }
}

static void adding(void)
{
    static const struct { const char *at, *a, *b; uint8_t number; const char *sum; } cases[] = {
        { AT, "2/0", "3/0", 0, "5/0" },
        { AT, "1/0", "5/1", 0, "15/1" },
        { AT, "12/1", "1/0", 0, "22/1" },
        { AT, "18446744073709551615/0", "1/0", 0, "H/0" },
        { AT, "M/0", "0/0", 0, "M/0" },
        { AT, "M/0", "1/0", 17, NULL },
        { AT, "M/0", "0/1", 17, NULL }, /* rescaled it leaves 128 bits */
        { AT, "0/1", "M/0", 17, NULL },
        { AT, "5/200", "0/0", 0, "5/200" }, /* zero rescales to every scale */
        { AT, "0/255", "0/0", 0, "0/255" },
    };
    for (size_t k = 0; k < COUNT(cases); k++)
        given_is(cases[k].at, credits_amount_add(amount_of(cases[k].a), amount_of(cases[k].b)), cases[k].number,
                 amount_of(cases[k].sum));
}

static void subtracting(void)
{
    static const struct { const char *at, *a, *b; uint8_t number; const char *difference; } cases[] = {
        { AT, "15/1", "1/0", 0, "5/1" },
        { AT, "5/0", "50/1", 0, "0/1" },
        { AT, "H/0", "1/0", 0, "18446744073709551615/0" },
        { AT, "M/0", "M/0", 0, "0/0" },
        { AT, "1/0", "15/1", 18, NULL },
        { AT, "4/0", "5/0", 18, NULL },
        { AT, "M/0", "0/1", 18, NULL }, /* rescaled it leaves 128 bits */
        { AT, "0/0", "0/7", 0, "0/7" },
    };
    for (size_t k = 0; k < COUNT(cases); k++)
        given_is(cases[k].at, credits_amount_sub(amount_of(cases[k].a), amount_of(cases[k].b)), cases[k].number,
                 amount_of(cases[k].difference));
}

static void printing(void)
{
    static const struct { const char *at, *amount, *text; } cases[] = {
        { AT, "1200/3", "1.2" },
        { AT, "5/3", "0.005" },
        { AT, "0/255", "0" },
        { AT, "0/0", "0" },
        { AT, "10/1", "1" },
        { AT, "100/0", "100" },
        { AT, "M/0", MOST },
        { AT, "M/39", "0." MOST },
        { AT, "H/19", "1.8446744073709551616" },
    };
    char longest[258] = "0.";
    for (size_t k = 0; k < COUNT(cases); k++)
        text_is(cases[k].at, credits_amount_text(amount_of(cases[k].amount)), cases[k].text);
    memset(longest + 2, '0', 254);
    longest[256] = '1';
    text_is(AT, credits_amount_text(amount_of("1/255")), longest);
}

/* ---- check */

#define STACK "1:N1 2:rd 3#5/0"
#define BALANCE "1:N1 2:rd 4#5/0"
#define METER "1:N1 5#5/0 6#9/0"
#define FIFTY "1234567890123456789012345678901234567890123456789." /* a point in the fiftieth byte */

typedef struct {
    const char *at;
    uint8_t profile, operation;
    const char *state, *input;
    uint8_t number, detail;
    const char *available, *requested;
} check_case;

#define ANSWERS(profile, operation, state, input, number, detail) \
    { AT, profile, operation, state, input, number, detail, NULL, NULL }
#define FALLS_SHORT(profile, operation, state, input, available, requested) \
    { AT, profile, operation, state, input, SHORT, 0, available, requested }

static const check_case checks[] = {
    /* stack */
    ANSWERS(1, 1, NULL, "1:N1 2:rd 3:5", 0, 0),
    ANSWERS(1, 1, STACK, "1:N1 2:rd 3:5", 5, 0),
    ANSWERS(1, 1, NULL, "2:rd 3:5", 7, 1),
    ANSWERS(1, 1, NULL, "1! 2:rd 3:5", 8, 1),
    ANSWERS(1, 1, NULL, "1: 2:rd 3:5", 9, 1),
    ANSWERS(1, 1, NULL, "1:N1 3:5", 7, 2),
    ANSWERS(1, 1, NULL, "1:N1 2:rd", 7, 3),
    ANSWERS(1, 1, NULL, "1:N1 2:rd 3:", 10, 3),
    ANSWERS(1, 1, NULL, "1:N1 2:rd 3!", 10, 3),
    ANSWERS(1, 1, NULL, "1:N1 2:rd 3:" ABOVE, 10, 3),
    ANSWERS(1, 1, NULL, "1:N1 2:rd 3:" FIFTY, 11, 3),
    ANSWERS(1, 1, NULL, "1*256 2*256 3:5", 0, 0),
    ANSWERS(1, 1, NULL, "1*257 2:rd 3:5", 2, 0),
    ANSWERS(1, 2, STACK, "3:0", 0, 0),
    ANSWERS(1, 2, METER, "3:1", 0, 0), /* not checked for kind */
    ANSWERS(1, 2, NULL, "3:1", 6, 0),
    ANSWERS(1, 3, STACK, "3:5", 0, 0),
    FALLS_SHORT(1, 3, STACK, "3:6", "5/0", "6/0"),
    ANSWERS(1, 3, STACK, "3:0", 14, 0),
    ANSWERS(1, 3, BALANCE, "3:1", 12, 3),
    ANSWERS(1, 3, BALANCE, "", 12, 3), /* the state's field before the input's */
    ANSWERS(1, 4, STACK, "3:1", 0, 0),
    ANSWERS(1, 5, STACK, "3:5 8:N2", 0, 0),
    ANSWERS(1, 5, METER, "3:5", 7, 8), /* to_subject before the state's field */
    ANSWERS(1, 5, METER, "3:5 8:N2", 12, 3),
    ANSWERS(1, 5, STACK, "3:5 8!", 8, 8),
    ANSWERS(1, 5, STACK, "3:5 8:", 9, 8),
    FALLS_SHORT(1, 6, STACK, "3:6", "5/0", "6/0"),
    ANSWERS(1, 7, STACK, "3:1", 0, 0),
    ANSWERS(1, 7, STACK, "3:0", 14, 0),
    ANSWERS(1, 8, STACK, "", 0, 0),
    ANSWERS(1, 9, STACK, "3:0", 0, 0),
    ANSWERS(1, 9, STACK, "", 7, 3),
    /* balance */
    ANSWERS(2, 11, NULL, "1:N1 2:rd 4:5", 0, 0),
    ANSWERS(2, 12, BALANCE, "7:5 10:boss", 0, 0),
    ANSWERS(2, 12, BALANCE, "7:5", 7, 10),
    ANSWERS(2, 12, BALANCE, "7:0 10:boss", 14, 0),
    ANSWERS(2, 12, STACK, "7:0 10:boss", 12, 4),
    ANSWERS(2, 12, STACK, "10:boss", 7, 7),
    ANSWERS(2, 13, BALANCE, "7:1", 0, 0),
    ANSWERS(2, 13, BALANCE, "7:0", 14, 0),
    ANSWERS(2, 13, BALANCE, "7:1e3", 11, 7),
    ANSWERS(2, 13, BALANCE, "7:2E1", 11, 7),
    FALLS_SHORT(2, 14, BALANCE, "7:6", "5/0", "6/0"),
    ANSWERS(2, 15, BALANCE, "7:5 8:N2", 0, 0),
    ANSWERS(2, 15, BALANCE, "7:5", 7, 8),
    ANSWERS(2, 16, BALANCE, "7:5", 0, 0),
    ANSWERS(2, 17, BALANCE, "7:1", 0, 0),
    ANSWERS(2, 18, "1:N1 2:rd 4#15/1", "7:1", 0, 0),
    FALLS_SHORT(2, 18, "1:N1 2:rd 4#15/1", "7:2", "15/1", "2/0"),
    FALLS_SHORT(2, 18, "1:N1 2:rd 4#H/0", "7:" MOST, "H/0", "M/0"),
    ANSWERS(2, 19, BALANCE, "7:5 10:boss", 0, 0),
    ANSWERS(2, 19, BALANCE, "7:5 10:", 9, 10),
    ANSWERS(2, 20, BALANCE, "7:5 9:kr", 0, 0),
    ANSWERS(2, 20, BALANCE, "7:5", 7, 9),
    /* meter */
    ANSWERS(3, 21, NULL, "1:N1 5:5 6:5", 0, 0),
    ANSWERS(3, 21, NULL, "1:N1 5:6 6:5", 16, 0),
    ANSWERS(3, 21, METER, "1:N1 5:5 6:5", 5, 0),
    ANSWERS(3, 22, METER, "7:5", 0, 0),
    FALLS_SHORT(3, 22, METER, "7:6", "5/0", "6/0"),
    ANSWERS(3, 22, BALANCE, "7:5", 12, 5),
    ANSWERS(3, 23, METER, "", 0, 0),
    ANSWERS(3, 23, STACK, "", 12, 5),
    ANSWERS(3, 24, METER, "6:3", 0, 0),
    ANSWERS(3, 24, METER, "", 7, 6),
    ANSWERS(3, 25, METER, "", 0, 0),
    ANSWERS(3, 26, METER, "", 0, 0),
    ANSWERS(3, 26, NULL, "", 6, 0),
    /* what every call tests first: 1, 2, 3, 4 */
    ANSWERS(0, 0, "1:N1", NULL, 1, 1),
    ANSWERS(0, 0, "", NULL, 1, 1), /* the single byte 0 is no state */
    ANSWERS(0, 0, BALANCE, NULL, 2, 0),
    ANSWERS(0, 0, BALANCE, "11:x", 2, 0),
    ANSWERS(0, 0, BALANCE, "2:x 1:x", 2, 0),
    ANSWERS(0, 0, BALANCE, "7#5/0", 2, 0),
    ANSWERS(0, 0, BALANCE, "", 3, 0),
    ANSWERS(4, 18, BALANCE, "7:5", 3, 0),
    ANSWERS(1, 0, NULL, "", 4, 0),
    ANSWERS(1, 10, NULL, "", 4, 0),
    ANSWERS(1, 11, NULL, "", 4, 0),
    ANSWERS(2, 9, NULL, "", 4, 0),
    ANSWERS(2, 21, NULL, "", 4, 0),
    ANSWERS(3, 27, NULL, "", 4, 0),
};

static void checking(void)
{
    for (size_t k = 0; k < COUNT(checks); k++) {
        const check_case *c = &checks[k];
        sheet state = sheet_of(c->state), input = sheet_of(c->input);
        credits_answer want = refused(c->number, c->detail);
        want.available = amount_of(c->available);
        want.requested = amount_of(c->requested);
        answer_is(c->at, credits_check(c->profile, c->operation, state.bytes, state.len, input.bytes, input.len), want);
    }
}

/* ---- apply and credit, in buffers of each length */

typedef struct {
    const char *at;
    uint8_t profile, operation; /* credit: no profile */
    const char *state, *destination, *input;
    uint8_t number, detail;
    const char *next; /* the state written, where accepted */
} write_case;

static credits_answer written(const write_case *c, uint8_t *out, size_t room)
{
    sheet state = sheet_of(c->state), destination = sheet_of(c->destination), input = sheet_of(c->input);
    if (c->profile)
        return credits_apply(c->profile, c->operation, state.bytes, state.len, input.bytes, input.len, out, room);
    return credits_credit(c->operation, state.bytes, state.len, destination.bytes, destination.len, input.bytes, input.len,
                          out, room);
}

static credits_answer checked_and_written(const write_case *c, uint8_t *out, size_t room)
{
    sheet state = sheet_of(c->state), input = sheet_of(c->input);
    return credits_check_then_apply(c->profile, c->operation, state.bytes, state.len, input.bytes, input.len, out, room);
}

/* From no byte to three more than are needed. Any other refusal comes before 20, whatever the length. */
static void in_each_length(const write_case *c, credits_answer (*call)(const write_case *, uint8_t *, size_t))
{
    sheet next = sheet_of(c->next);
    size_t most = c->number ? 64 : next.len + 3;
    for (size_t room = 0; room <= most; room++) {
        uint8_t space[GUARD + 600 + GUARD];
        int fits = c->number == 0 && room >= next.len;
        credits_answer want = fits ? accepted(next.len) : c->number ? refused(c->number, c->detail) : refused(NARROW, 0);
        patterned(space, sizeof space);
        answer_is(c->at, call(c, space + GUARD, room), want);
        only_written(c->at, space, sizeof space, next.bytes, fits ? next.len : 0);
    }
}

#define WRITES(profile, operation, state, input, next) { AT, profile, operation, state, NULL, input, 0, 0, next }
#define REFUSES(profile, operation, state, input, number, detail) \
    { AT, profile, operation, state, NULL, input, number, detail, NULL }
#define PAYS(operation, source, destination, input, next) { AT, 0, operation, source, destination, input, 0, 0, next }
#define PAYS_NOT(operation, source, destination, input, number, detail) \
    { AT, 0, operation, source, destination, input, number, detail, NULL }

static const write_case applies[] = {
    /* stack */
    WRITES(1, 1, NULL, "1:N1 2:rd 3:5", STACK),
    WRITES(1, 1, METER, "1:N1 2:rd 3:5", STACK), /* the old state is not looked at */
    REFUSES(1, 1, "", "1:N1 2:rd 3:5", 1, 1),    /* but it is judged */
    REFUSES(2, 11, "", "1:N1 2:rd 4:5", 1, 1),
    REFUSES(3, 21, "", "1:N1 5:5 6:5", 1, 1),
    WRITES(1, 1, NULL, "1*256 2*256 3:" MOST, "1*256 2*256 3#M/0"), /* the longest: 548 bytes */
    WRITES(1, 2, STACK, "3:4", "1:N1 2:rd 3#9/0"),
    REFUSES(1, 2, METER, "3:4", 12, 2),
    REFUSES(1, 2, BALANCE, "3:4", 12, 3),
    REFUSES(1, 2, NULL, "3:4", 6, 0),
    REFUSES(1, 2, "1: 2:rd 3#5/0", "3:4", 13, 1),
    REFUSES(1, 2, "1:N1 2: 3#5/0", "3:4", 13, 2),
    REFUSES(1, 2, "1:N1 2:rd 3#M/0", "3:1", 17, 0),
    WRITES(1, 3, STACK, "3:2", "1:N1 2:rd 3#3/0"),
    REFUSES(1, 3, STACK, "3:6", 18, 0), /* no 15 in apply */
    WRITES(1, 4, "1:N1 2:rd 3#15/1", "3:1", "1:N1 2:rd 3#5/1"),
    WRITES(1, 5, STACK, "3:5 8:N2", "1:N1 2:rd 3#0/0"),
    REFUSES(1, 5, METER, "3:5", 7, 8),
    WRITES(1, 6, STACK, "3:1", "1:N1 2:rd 3#4/0"),
    WRITES(1, 7, STACK, "3:1", "1:N1 2:rd 3#6/0"),
    WRITES(1, 8, STACK, "", "1:N1 2:rd 3#0/0"),
    WRITES(1, 8, BALANCE, "", "1:N1 2:rd 3#0/0"), /* stops after unit */
    WRITES(1, 9, BALANCE, "3:7", "1:N1 2:rd 3#7/0"), /* reads no st quantity */
    /* balance */
    WRITES(2, 11, BALANCE, "1:N2 2:kr 4:8", "1:N2 2:kr 4#8/0"),
    WRITES(2, 12, BALANCE, "7:5", "1:N1 2:rd 4#10/0"), /* no authorized_by in apply */
    WRITES(2, 13, BALANCE, "7:0", BALANCE),
    WRITES(2, 14, BALANCE, "7:5", "1:N1 2:rd 4#0/0"),
    WRITES(2, 15, BALANCE, "7:5 8:N2", "1:N1 2:rd 4#0/0"),
    WRITES(2, 16, BALANCE, "7:1", "1:N1 2:rd 4#4/0"),
    WRITES(2, 17, BALANCE, "7:1", "1:N1 2:rd 4#6/0"),
    REFUSES(2, 18, BALANCE, "7:6", 18, 0),
    WRITES(2, 19, BALANCE, "7:1", "1:N1 2:rd 4#4/0"),
    WRITES(2, 20, BALANCE, "7:2 9:kr", "1:N1 2:kr 4#3/0"),
    WRITES(2, 20, "1:N1 2: 4#5/0", "7:2 9:kr", "1:N1 2:kr 4#3/0"), /* the old unit is not read */
    REFUSES(2, 13, BALANCE, "", 7, 7),
    REFUSES(2, 13, BALANCE, "7!", 10, 7),
    REFUSES(2, 13, BALANCE, "7:1.5", 11, 7),
    /* meter */
    WRITES(3, 21, NULL, "1:N1 5:6 6:5", "1:N1 5#6/0 6#5/0"), /* no 16 in apply */
    WRITES(3, 22, METER, "7:2", "1:N1 5#3/0 6#9/0"),
    REFUSES(3, 22, STACK, "7:2", 12, 6),
    WRITES(3, 23, METER, "", "1:N1 5#9/0 6#9/0"),
    WRITES(3, 23, "1:N1 5#5/3 6#9/2", "", "1:N1 5#9/2 6#9/2"), /* the scale too */
    WRITES(3, 24, METER, "6:3", "1:N1 5#3/0 6#3/0"),
    WRITES(3, 24, METER, "6:7", "1:N1 5#5/0 6#7/0"),
    WRITES(3, 24, "1:N1 5#50/1 6#9/0", "6:5", "1:N1 5#50/1 6#5/0"), /* a tie keeps its scale */
    REFUSES(3, 24, STACK, "6:7", 12, 5),
    WRITES(3, 25, "1:N1 5#5/3 6#9/2", "", "1:N1 5#0/0 6#9/2"),
    WRITES(3, 26, METER, "", "1:N1 5#0/0 6#9/0"),
    /* 1, 2, 3, 4 */
    REFUSES(4, 0, "1:N1", NULL, 1, 1),
    REFUSES(4, 0, STACK, NULL, 2, 0),
    REFUSES(4, 0, STACK, "", 3, 0),
    REFUSES(3, 20, STACK, "", 4, 0),
};

static const write_case payments[] = {
    PAYS(15, BALANCE, NULL, "7:5 8:N2", "1:N2 2:rd 4#5/0"),
    PAYS(15, BALANCE, "1:N9 2:kr 4#2/0", "7:5 8:N2", "1:N2 2:rd 4#7/0"),
    PAYS(15, STACK, NULL, "7:5 8:N2", "1:N2 2:rd 4#5/0"), /* of the source only the unit is read */
    PAYS(5, STACK, NULL, "3:5 8:N2", "1:N2 2:rd 3#5/0"),
    PAYS(5, STACK, "1:N2 2:rd 3#15/1", "3:5 8:N2", "1:N2 2:rd 3#65/1"),
    PAYS(5, "1:N1 2*256 3#5/0", "1: 2: 3#M/9", "3:0 8*256", "1*256 2*256 3#M/9"),
    PAYS_NOT(14, BALANCE, NULL, "7:5 8:N2", 19, 0),
    PAYS_NOT(15, NULL, NULL, "7:5 8:N2", 6, 0),
    PAYS_NOT(14, NULL, NULL, "7:5 8:N2", 19, 0), /* 19 before 6 */
    PAYS_NOT(15, NULL, NULL, "7:5", 6, 0),       /* 6 before to_subject */
    PAYS_NOT(5, NULL, NULL, "3:5", 6, 0),
    PAYS_NOT(14, "", "", NULL, 1, 1),            /* the source first */
    PAYS_NOT(14, BALANCE, "", NULL, 1, 2),
    PAYS_NOT(14, BALANCE, NULL, NULL, 2, 0),
    PAYS_NOT(15, METER, NULL, "7:5", 7, 8),
    PAYS_NOT(15, METER, NULL, "7:5 8!", 8, 8),
    PAYS_NOT(15, METER, NULL, "7:5 8:", 9, 8),
    PAYS_NOT(15, METER, NULL, "8:N2", 12, 2),
    PAYS_NOT(15, "1:N1 2: 4#5/0", NULL, "8:N2", 13, 2),
    PAYS_NOT(15, BALANCE, STACK, "3:5 8:N2", 7, 7),
    PAYS_NOT(15, BALANCE, STACK, "7:5 8:N2", 12, 4),
    PAYS_NOT(5, STACK, BALANCE, "3:5 8:N2", 12, 3),
    PAYS_NOT(15, BALANCE, NULL, "7:1e3 8:N2", 11, 7),
    PAYS_NOT(15, BALANCE, NULL, "7:x 8:N2", 10, 7),
    PAYS_NOT(15, BALANCE, "1:N2 2:rd 4#M/0", "7:1 8:N2", 17, 0),
};

/* Both in one: each operation that takes, at scales 0 and 1, and what check refuses and apply alone would write. */
static const write_case checked[] = {
    WRITES(1, 3, STACK, "3:2", "1:N1 2:rd 3#3/0"),
    WRITES(1, 4, "1:N1 2:rd 3#15/1", "3:1", "1:N1 2:rd 3#5/1"),
    WRITES(1, 5, STACK, "3:5 8:N2", "1:N1 2:rd 3#0/0"),
    WRITES(1, 6, STACK, "3:1", "1:N1 2:rd 3#4/0"),
    WRITES(2, 14, BALANCE, "7:5", "1:N1 2:rd 4#0/0"),
    WRITES(2, 15, BALANCE, "7:5 8:N2", "1:N1 2:rd 4#0/0"),
    WRITES(2, 16, BALANCE, "7:1", "1:N1 2:rd 4#4/0"),
    WRITES(2, 18, "1:N1 2:rd 4#12/1", "7:1", "1:N1 2:rd 4#2/1"),
    WRITES(2, 19, BALANCE, "7:1 10:boss", "1:N1 2:rd 4#4/0"),
    WRITES(2, 20, "1:N1 2: 4#5/0", "7:2 9:kr", "1:N1 2:kr 4#3/0"), /* no unit is needed */
    WRITES(3, 22, "1:N1 5#12/1 6#9/0", "7:1", "1:N1 5#2/1 6#9/0"),
    REFUSES(1, 3, STACK, "3:0", 14, 0),
    REFUSES(2, 14, BALANCE, "7:0", 14, 0),
    REFUSES(2, 19, BALANCE, "7:1", 7, 10),
    REFUSES(1, 1, METER, "1:N1 2:rd 3:5", 5, 0),
    REFUSES(3, 21, NULL, "1:N1 5:6 6:5", 16, 0),
    REFUSES(2, 14, "1:N1 2: 4#5/0", "7:1", 13, 2), /* check does not ask for these, and promises nothing here */
    REFUSES(2, 14, "1: 2:rd 4#5/0", "7:1", 13, 1),
    REFUSES(3, 22, "1: 5#5/0 6#9/0", "7:1", 13, 1),
    REFUSES(4, 0, "1:N1", NULL, 1, 1),
    REFUSES(4, 0, STACK, NULL, 2, 0),
    REFUSES(4, 0, STACK, "", 3, 0),
    REFUSES(3, 20, STACK, "", 4, 0),
};

static void writing(void)
{
    static const write_case more = REFUSES(2, 18, "1:N1 2:rd 4#15/1", "7:2", SHORT, 0);
    credits_answer want = refused(SHORT, 0);
    uint8_t space[600], before[600];
    for (size_t k = 0; k < COUNT(applies); k++)
        in_each_length(&applies[k], written);
    for (size_t k = 0; k < COUNT(payments); k++)
        in_each_length(&payments[k], written);
    for (size_t k = 0; k < COUNT(checked); k++)
        in_each_length(&checked[k], checked_and_written);
    want.available = amount_of("15/1");
    want.requested = amount_of("2/0");
    patterned(space, sizeof space);
    memcpy(before, space, sizeof space);
    answer_is(more.at, checked_and_written(&more, space, sizeof space), want);
    bytes_are(more.at, "the output", space, before, sizeof space);
}

/* ---- the book */

static void starting(void)
{
    static const struct { const char *at, *unit; uint8_t number; } cases[] = {
        { AT, "rd", 0 },
        { AT, "", 9 },
        { AT, "12345678901234567890123456789012", 0 },
        { AT, "123456789012345678901234567890123", 27 },
    };
    for (size_t k = 0; k < COUNT(cases); k++) {
        credits_started got = credits_book_start((const uint8_t *)cases[k].unit, strlen(cases[k].unit));
        credits_book want = no_book;
        if (cases[k].number == 0)
            want.unit = name_of(cases[k].unit);
        answer_is(cases[k].at, got.answer, refused(cases[k].number, cases[k].number ? 2 : 0));
        book_is(cases[k].at, &got.book, &want);
    }
    counted(0);
    number_is(AT, "a book's size", credits_book_size(), sizeof(credits_book));
}

/* A step, its answer and, where it is accepted, the balances (NULL: a closed place) and the transfers that it leaves. A balance is
 * `4/0`, and `4/0+2/0` with 2 reserved; of a place that was opened again it is `N3 4/0`, behind its subject. */
typedef struct {
    const char *at;
    step s;
    const char *input;
    uint8_t number, detail;
    const char *available, *requested;
    const char *balances[3];
    struct { uint8_t from, to; const char *amount; } way[2]; /* no amount: not under way */
} step_case;

static const char *const subjects[] = { "N1", "N2", "GW" };

static credits_place place_of(const char *subject, const char *words)
{
    credits_place x = no_book.places[0];
    const char *space = strchr(words, ' '), *plus = strchr(words, '+');
    size_t len = space ? (size_t)(space - words) : strlen(subject);
    memcpy(x.subject.bytes, space ? words : subject, len);
    x.subject.len = (uint8_t)len;
    x.balance = amount_of(space ? space + 1 : words);
    x.reserved = amount_of(plus ? plus + 1 : NULL);
    return x;
}

/* The book of unit rd that a case leaves. */
static credits_book book_after(const step_case *c)
{
    credits_book b = no_book;
    b.unit = name_of("rd");
    for (int p = 0; p < 3; p++)
        if (c->balances[p]) {
            b.opened |= (uint16_t)(1u << p);
            b.places[p] = place_of(subjects[p], c->balances[p]);
        }
    for (int t = 0; t < 2; t++)
        if (c->way[t].amount) {
            b.pending |= (uint8_t)(1u << t);
            b.transfers[t].from = c->way[t].from;
            b.transfers[t].to = c->way[t].to;
            b.transfers[t].amount = amount_of(c->way[t].amount);
        }
    return b;
}

#define NO_WAY { { 0, 0, NULL }, { 0, 0, NULL } }
#define WAY_0 { { 0, 1, "4/0" }, { 0, 0, NULL } }
#define WAYS { { 0, 1, "4/0" }, { 1, 0, "3/0" } }
#define WAY_1 { { 0, 0, NULL }, { 1, 0, "3/0" } }
#define NOTHING { { 0, 1, "0/0" }, { 0, 0, NULL } }
#define WAY_OUT { { 0, 0, NULL }, { 1, 2, "2/0" } }
#define WAY_BACK { { 2, 1, "4/0" }, { 0, 0, NULL } }

#define REFUSED(kind, a, b, t, input, number, detail) \
    { AT, { kind, a, b, t }, input, number, detail, NULL, NULL, { NULL }, NO_WAY }
#define STEP_SHORT(kind, a, b, t, input, available, requested) \
    { AT, { kind, a, b, t }, input, SHORT, 0, available, requested, { NULL }, NO_WAY }
#define DONE(kind, a, b, t, input, first, second, third, way) \
    { AT, { kind, a, b, t }, input, 0, 0, NULL, NULL, { first, second, third }, way }

/* One book, step by step. */
static const step_case steps[] = {
    DONE(OPEN, 0, 0, 0, "1:N1 2:rd 4:10", "10/0", NULL, NULL, NO_WAY),
    REFUSED(OPEN, 16, 0, 0, NULL, 22, 0),
    REFUSED(OPEN, 0, 0, 0, NULL, 5, 0),
    REFUSED(OPEN, 1, 0, 0, NULL, 2, 0),
    REFUSED(OPEN, 1, 0, 0, "2:rd 4:5", 7, 1),
    REFUSED(OPEN, 1, 0, 0, "1:N2 2! 4:5", 8, 2),
    REFUSED(OPEN, 1, 0, 0, "1: 2:rd 4:5", 9, 1),
    REFUSED(OPEN, 1, 0, 0, "1*33 2:kr 4:x", 10, 4),
    REFUSED(OPEN, 1, 0, 0, "1*33 2:kr 4:.5", 11, 4),
    REFUSED(OPEN, 1, 0, 0, "1*33 2:kr 4:" MOST, 26, 0),
    REFUSED(OPEN, 1, 0, 0, "1*33 2:rd 4:" MOST, 27, 1),
    REFUSED(OPEN, 1, 0, 0, "1:N2 2:rd 4:" MOST, 25, 0),
    DONE(OPEN, 1, 0, 0, "1:N2 2:rd 4:5", "10/0", "5/0", NULL, NO_WAY),
    DONE(OPEN, 2, 0, 0, "1:GW 2:rd 4:0", "10/0", "5/0", "0/0", NO_WAY),
    REFUSED(BEGIN, 16, 16, 8, NULL, 22, 0),
    REFUSED(BEGIN, 0, 1, 8, NULL, 22, 0),
    REFUSED(BEGIN, 0, 0, 0, NULL, 24, 0),
    REFUSED(BEGIN, 0, 3, 0, NULL, 6, 0),
    REFUSED(BEGIN, 3, 0, 0, NULL, 6, 0),
    REFUSED(BEGIN, 0, 1, 0, NULL, 2, 0),
    REFUSED(BEGIN, 0, 1, 0, "8:N2", 7, 7),
    REFUSED(BEGIN, 0, 1, 0, "7!", 10, 7),
    REFUSED(BEGIN, 0, 1, 0, "7:1e0", 11, 7),
    REFUSED(BEGIN, 0, 1, 0, "7:0", 14, 0),
    STEP_SHORT(BEGIN, 0, 1, 0, "7:11", "10/0", "11/0"),
    DONE(BEGIN, 0, 1, 0, "7:4 8!", "6/0", "5/0", "0/0", WAY_0), /* to_subject is ignored */
    REFUSED(BEGIN, 1, 0, 0, NULL, 21, 0),
    STEP_SHORT(BEGIN, 1, 0, 1, "7:6", "5/0", "6/0"), /* not there yet */
    DONE(BEGIN, 1, 0, 1, "7:3", "6/0", "2/0", "0/0", WAYS),
    REFUSED(ACT, 16, 12, 0, NULL, 22, 0),
    REFUSED(ACT, 3, 0, 0, NULL, 6, 0),
    REFUSED(ACT, 2, 0, 0, NULL, 2, 0),
    REFUSED(ACT, 2, 15, 0, "7:1 8:N1", 4, 0),
    REFUSED(ACT, 2, 12, 0, "7:7", 7, 10),
    REFUSED(ACT, 2, 12, 0, "7:7 10!", 8, 10),
    REFUSED(ACT, 2, 12, 0, "7:7 10:", 9, 10),
    DONE(ACT, 2, 12, 0, "7:7 10:b", "6/0", "2/0", "7/0", WAYS),
    DONE(ACT, 2, 13, 0, "7:1", "6/0", "2/0", "8/0", WAYS),
    REFUSED(ACT, 2, 13, 0, "7:0", 14, 0),
    REFUSED(ACT, 2, 13, 0, "7:" MOST, 25, 0),
    DONE(ACT, 2, 14, 0, "7:1", "6/0", "2/0", "7/0", WAYS),
    DONE(ACT, 2, 16, 0, "7:1", "6/0", "2/0", "6/0+1/0", WAYS),
    DONE(ACT, 2, 17, 0, "7:1", "6/0", "2/0", "7/0", WAYS),
    DONE(ACT, 2, 18, 0, "7:1", "6/0", "2/0", "6/0", WAYS),
    STEP_SHORT(ACT, 2, 18, 0, "7:7", "6/0", "7/0"),
    REFUSED(ACT, 2, 19, 0, "7:6", 7, 10),
    DONE(ACT, 2, 19, 0, "7:6 10:b", "6/0", "2/0", "0/0", WAYS),
    REFUSED(FINISH, 0, 0, 8, NULL, 22, 0),
    REFUSED(FINISH, 0, 0, 2, NULL, 23, 0),
    REFUSED(CANCEL, 0, 0, 8, NULL, 22, 0),
    REFUSED(CANCEL, 0, 0, 2, NULL, 23, 0),
    DONE(FINISH, 0, 0, 0, NULL, "6/0", "6/0", "0/0", WAY_1),
    REFUSED(FINISH, 0, 0, 0, NULL, 23, 0),
    DONE(FINISH, 0, 0, 1, NULL, "9/0", "6/0", "0/0", NO_WAY),
    REFUSED(CANCEL, 0, 0, 1, NULL, 23, 0), /* it has arrived */
    DONE(BEGIN, 0, 1, 0, "7:4", "5/0", "6/0", "0/0", WAY_0),
    DONE(BEGIN, 1, 0, 1, "7:3", "5/0", "3/0", "0/0", WAYS),
    STEP_SHORT(ACT, 0, 18, 0, "7:6", "5/0", "6/0"),
    DONE(CANCEL, 0, 0, 0, NULL, "9/0", "3/0", "0/0", WAY_1), /* back at its source, and the other stays under way */
    REFUSED(CANCEL, 0, 0, 0, NULL, 23, 0),
    REFUSED(FINISH, 0, 0, 0, NULL, 23, 0),
    DONE(ACT, 0, 18, 0, "7:6", "3/0", "3/0", "0/0", WAY_1),
    DONE(CANCEL, 0, 0, 1, NULL, "3/0", "6/0", "0/0", NO_WAY),
    DONE(BEGIN, 1, 0, 1, "7:3", "3/0", "3/0", "0/0", WAY_1), /* the number is free again */
    DONE(FINISH, 0, 0, 1, NULL, "6/0", "3/0", "0/0", NO_WAY),
    REFUSED(CLOSE, 16, 0, 0, NULL, 22, 0),
    REFUSED(CLOSE, 255, 0, 0, NULL, 22, 0),
    REFUSED(CLOSE, 3, 0, 0, NULL, 6, 0),
    REFUSED(CLOSE, 0, 0, 0, NULL, 29, 0),
    DONE(BEGIN, 1, 2, 1, "7:2", "6/0", "1/0", "0/0", WAY_OUT),
    REFUSED(CLOSE, 1, 0, 0, NULL, 29, 0), /* before 30 */
    REFUSED(CLOSE, 2, 0, 0, NULL, 30, 0), /* at the destination's end */
    DONE(ACT, 1, 18, 0, "7:1", "6/0", "0/0", "0/0", WAY_OUT),
    REFUSED(CLOSE, 1, 0, 0, NULL, 30, 0), /* at the source's end */
    DONE(ACT, 2, 13, 0, "7:1", "6/0", "0/0", "1/0", WAY_OUT),
    REFUSED(CLOSE, 2, 0, 0, NULL, 29, 0), /* before 30 */
    DONE(ACT, 2, 18, 0, "7:1", "6/0", "0/0", "0/0", WAY_OUT),
    DONE(ACT, 0, 18, 0, "7:6", "0/0", "0/0", "0/0", WAY_OUT),
    DONE(CLOSE, 0, 0, 0, NULL, NULL, "0/0", "0/0", WAY_OUT), /* what is under way names others */
    REFUSED(CLOSE, 0, 0, 0, NULL, 6, 0),
    REFUSED(ACT, 0, 13, 0, "7:1", 6, 0),
    REFUSED(BEGIN, 1, 0, 0, "7:1", 6, 0),
    DONE(CANCEL, 0, 0, 1, NULL, NULL, "2/0", "0/0", NO_WAY),
    DONE(CLOSE, 2, 0, 0, NULL, NULL, "2/0", NULL, NO_WAY), /* what named it is not under way any more */
    DONE(OPEN, 2, 0, 0, "1:N3 2:rd 4:4", NULL, "2/0", "N3 4/0", NO_WAY), /* under another subject */
    DONE(BEGIN, 2, 1, 0, "7:4", NULL, "2/0", "N3 0/0", WAY_BACK),
    REFUSED(CLOSE, 2, 0, 0, NULL, 30, 0),
    DONE(FINISH, 0, 0, 0, NULL, NULL, "6/0", "N3 0/0", NO_WAY),
    DONE(CLOSE, 2, 0, 0, NULL, NULL, "6/0", NULL, NO_WAY),
    DONE(OPEN, 0, 0, 0, "1:N3 2:rd 4:0", "N3 0/0", "6/0", NULL, NO_WAY),
};

/* Another: what a place has reserved. */
static const step_case reserves[] = {
    DONE(OPEN, 0, 0, 0, "1:N1 2:rd 4:8", "8/0", NULL, NULL, NO_WAY),
    DONE(OPEN, 1, 0, 0, "1:N2 2:rd 4:6", "8/0", "6/0", NULL, NO_WAY),
    REFUSED(ACT, 0, 16, 0, "8:N2", 7, 7),
    REFUSED(ACT, 0, 16, 0, "7:0", 14, 0),
    STEP_SHORT(ACT, 0, 16, 0, "7:9", "8/0", "9/0"),
    REFUSED(ACT, 16, 17, 0, NULL, 22, 0),
    REFUSED(ACT, 2, 17, 0, NULL, 6, 0),
    REFUSED(ACT, 0, 17, 0, NULL, 2, 0),
    REFUSED(ACT, 0, 17, 0, "8:N2", 7, 7),
    REFUSED(ACT, 0, 17, 0, "7!", 10, 7),
    REFUSED(ACT, 0, 17, 0, "7:1e0", 11, 7),
    REFUSED(ACT, 0, 17, 0, "7:0", 14, 0),
    REFUSED(ACT, 0, 17, 0, "7:1", 31, 0), /* after its check */
    DONE(ACT, 0, 16, 0, "7:3", "5/0+3/0", "6/0", NULL, NO_WAY),
    STEP_SHORT(ACT, 0, 16, 0, "7:6", "5/0", "6/0"), /* what is reserved is held no more */
    STEP_SHORT(ACT, 0, 18, 0, "7:6", "5/0", "6/0"),
    STEP_SHORT(BEGIN, 0, 1, 0, "7:6", "5/0", "6/0"),
    REFUSED(ACT, 0, 17, 0, "7:4", 31, 0),
    REFUSED(ACT, 1, 17, 0, "7:1", 31, 0), /* another place has */
    DONE(ACT, 1, 16, 0, "7:2", "5/0+3/0", "4/0+2/0", NULL, NO_WAY),
    DONE(ACT, 0, 12, 0, "7:1 10:b", "6/0+3/0", "4/0+2/0", NULL, NO_WAY), /* the others leave it */
    DONE(ACT, 0, 13, 0, "7:2", "8/0+3/0", "4/0+2/0", NULL, NO_WAY),
    DONE(ACT, 0, 14, 0, "7:1", "7/0+3/0", "4/0+2/0", NULL, NO_WAY),
    DONE(ACT, 0, 18, 0, "7:1", "6/0+3/0", "4/0+2/0", NULL, NO_WAY),
    DONE(ACT, 0, 19, 0, "7:1 10:b", "5/0+3/0", "4/0+2/0", NULL, NO_WAY),
    DONE(BEGIN, 0, 1, 0, "7:4", "1/0+3/0", "4/0+2/0", NULL, WAY_0),
    DONE(BEGIN, 1, 0, 1, "7:3", "1/0+3/0", "1/0+2/0", NULL, WAYS),
    DONE(FINISH, 0, 0, 0, NULL, "1/0+3/0", "5/0+2/0", NULL, WAY_1),
    DONE(CANCEL, 0, 0, 1, NULL, "1/0+3/0", "8/0+2/0", NULL, NO_WAY),
    DONE(ACT, 1, 17, 0, "7:1", "1/0+3/0", "9/0+1/0", NULL, NO_WAY),
    DONE(ACT, 1, 17, 0, "7:1", "1/0+3/0", "10/0", NULL, NO_WAY),
    REFUSED(ACT, 1, 17, 0, "7:1", 31, 0),
    DONE(ACT, 0, 16, 0, "7:1", "0/0+4/0", "10/0", NULL, NO_WAY),
    REFUSED(CLOSE, 0, 0, 0, NULL, 29, 0), /* nothing but what is reserved */
    DONE(BEGIN, 1, 0, 1, "7:3", "0/0+4/0", "7/0", NULL, WAY_1),
    REFUSED(CLOSE, 0, 0, 0, NULL, 29, 0), /* before 30 */
    DONE(ACT, 0, 17, 0, "7:4", "4/0", "7/0", NULL, WAY_1),
    DONE(ACT, 0, 18, 0, "7:4", "0/0", "7/0", NULL, WAY_1),
    REFUSED(CLOSE, 0, 0, 0, NULL, 30, 0),
    DONE(CANCEL, 0, 0, 1, NULL, "0/0", "10/0", NULL, NO_WAY),
    DONE(CLOSE, 0, 0, 0, NULL, NULL, "10/0", NULL, NO_WAY),
    DONE(OPEN, 0, 0, 0, "1:N3 2:rd 4:5", "N3 5/0", "10/0", NULL, NO_WAY),
    REFUSED(ACT, 0, 17, 0, "7:1", 31, 0),
};

#define LOW "18446744073709551615" /* 2^64 - 1 */

/* Another: reserved amounts of two words, and a book that is full of them. */
static const step_case fills[] = {
    DONE(OPEN, 0, 0, 0, "1:N1 2:rd 4:18446744073709551616", "H/0", NULL, NULL, NO_WAY),
    DONE(OPEN, 1, 0, 0, "1:N2 2:rd 4:0", "H/0", "0/0", NULL, NO_WAY),
    DONE(ACT, 0, 16, 0, "7:1", LOW "/0+1/0", "0/0", NULL, NO_WAY),
    DONE(ACT, 0, 16, 0, "7:" LOW, "0/0+H/0", "0/0", NULL, NO_WAY),
    REFUSED(ACT, 0, 17, 0, "7:18446744073709551617", 31, 0),
    DONE(ACT, 0, 17, 0, "7:1", "1/0+" LOW "/0", "0/0", NULL, NO_WAY),
    REFUSED(ACT, 0, 17, 0, "7:18446744073709551616", 31, 0), /* its lower word is 0 */
    DONE(ACT, 0, 17, 0, "7:" LOW, "H/0", "0/0", NULL, NO_WAY),
    DONE(ACT, 0, 18, 0, "7:18446744073709551616", "0/0", "0/0", NULL, NO_WAY),
    DONE(ACT, 0, 13, 0, "7:" MOST, "M/0", "0/0", NULL, NO_WAY),
    DONE(ACT, 0, 16, 0, "7:" MOST, "0/0+M/0", "0/0", NULL, NO_WAY), /* no more is issued */
    STEP_SHORT(ACT, 0, 16, 0, "7:1", "0/0", "1/0"),
    REFUSED(OPEN, 2, 0, 0, "1:GW 2:rd 4:1", 25, 0),
    REFUSED(ACT, 0, 13, 0, "7:1", 25, 0),
    REFUSED(ACT, 1, 12, 0, "7:1 10:b", 25, 0),
    REFUSED(ACT, 1, 13, 0, "7:1", 25, 0),
    REFUSED(ACT, 1, 17, 0, "7:1", 31, 0),
    DONE(OPEN, 2, 0, 0, "1:GW 2:rd 4:0", "0/0+M/0", "0/0", "0/0", NO_WAY),
    DONE(ACT, 0, 17, 0, "7:" MOST, "M/0", "0/0", "0/0", NO_WAY), /* nor here */
    REFUSED(ACT, 0, 17, 0, "7:" MOST, 31, 0),
};

static void stepping(const step_case *cases, size_t n)
{
    credits_book book = credits_book_start((const uint8_t *)"rd", 2).book, after = book, before;
    for (size_t k = 0; k < n; k++) {
        const step_case *c = &cases[k];
        sheet input = sheet_of(c->input);
        credits_answer want = refused(c->number, c->detail);
        want.available = amount_of(c->available);
        want.requested = amount_of(c->requested);
        if (c->number == 0)
            after = book_after(c);
        memcpy(&before, &book, sizeof book);
        answer_is(c->at, taken(&book, c->s, input.bytes, input.len), want);
        book_is(c->at, &book, &after);
        if (c->number)
            bytes_are(c->at, "a book after a refusal", &book, &before, sizeof book);
    }
}

/* A full book, N1 with 2^128 - 1 and a transfer of nothing under way from N1 to N2, with one byte of it altered: 28, or
 * what finish and cancel of another transfer, and close of a closed place, answer on a sound book. */
static void judging(void)
{
    enum { UNBORN = 6, IDLE = 23 };
    static const struct { const char *at; size_t offset; uint8_t value, number; } cases[] = {
        { AT, offsetof(credits_book, pending), 1, IDLE },
        { AT, offsetof(credits_book, unit.len), 0, BAD_BOOK },
        { AT, offsetof(credits_book, unit.len), 32, IDLE },
        { AT, offsetof(credits_book, unit.len), 33, BAD_BOOK },
        { AT, offsetof(credits_book, places[1].subject.len), 0, BAD_BOOK },
        { AT, offsetof(credits_book, places[1].subject.len), 32, IDLE },
        { AT, offsetof(credits_book, places[1].subject.len), 33, BAD_BOOK },
        { AT, offsetof(credits_book, places[2].subject.len), 33, IDLE }, /* closed */
        { AT, offsetof(credits_book, places[1].balance.scale), 1, BAD_BOOK },
        { AT, offsetof(credits_book, places[15].balance.scale), 1, BAD_BOOK },  /* closed */
        { AT, offsetof(credits_book, places[1].reserved.scale), 1, BAD_BOOK },
        { AT, offsetof(credits_book, places[15].reserved.scale), 1, BAD_BOOK }, /* closed */
        { AT, offsetof(credits_book, transfers[0].amount.scale), 1, BAD_BOOK },
        { AT, offsetof(credits_book, transfers[7].amount.scale), 1, BAD_BOOK }, /* not under way */
        { AT, offsetof(credits_book, transfers[0].from), 2, BAD_BOOK },
        { AT, offsetof(credits_book, transfers[0].to), 16, BAD_BOOK },
        { AT, offsetof(credits_book, transfers[0].to), 0, IDLE },  /* begin would say 24, 28 does not ask */
        { AT, offsetof(credits_book, transfers[7].to), 16, IDLE }, /* not under way */
        { AT, offsetof(credits_book, places[1].balance.mantissa.lo), 1, BAD_BOOK },
        { AT, offsetof(credits_book, places[2].balance.mantissa.lo), 1, IDLE }, /* closed */
        { AT, offsetof(credits_book, places[1].reserved.mantissa.lo), 1, BAD_BOOK },
        { AT, offsetof(credits_book, places[2].reserved.mantissa.lo), 1, IDLE }, /* closed */
        { AT, offsetof(credits_book, transfers[0].amount.mantissa.lo), 1, BAD_BOOK },
        { AT, offsetof(credits_book, transfers[7].amount.mantissa.lo), 1, IDLE }, /* not under way */
    };
    static const step_case full = DONE(BEGIN, 0, 1, 0, NULL, "M/0", "0/0", NULL, NOTHING);
    for (size_t k = 0; k < COUNT(cases); k++) {
        credits_book b = book_after(&full), before;
        ((uint8_t *)&b)[cases[k].offset] = cases[k].value;
        before = b;
        answer_is(cases[k].at, credits_book_finish(&b, 5), refused(cases[k].number, 0));
        answer_is(cases[k].at, credits_book_cancel(&b, 5), refused(cases[k].number, 0));
        answer_is(cases[k].at, credits_book_close(&b, 2), refused(cases[k].number == IDLE ? UNBORN : BAD_BOOK, 0));
        book_is(cases[k].at, &b, &before);
    }
}

/* Every amount that a book stores: balances, reserved amounts, and what transfers carry. */
enum { STORED = 16 + 16 + 8 };

static credits_amount *stored(credits_book *b, int i)
{
    return i < 16 ? &b->places[i].balance : i < 32 ? &b->places[i - 16].reserved : &b->transfers[i - 32].amount;
}

/* 28 looks at the scale of each, where nothing is open or under way and where all is; and then any two may be 2^128 - 1 together, and not
 * one more. In a sound book place 16 is off the book. */
static void totalling(void)
{
    enum { OFF_THE_BOOK = 22 };
    const credits_uint128 half = { (uint64_t)1 << 63, 0 }, less = { half.hi - 1, UINT64_MAX };
    credits_book none = no_book, all;
    none.unit = name_of("rd");
    all = none;
    all.opened = UINT16_MAX;
    all.pending = UINT8_MAX;
    for (int p = 0; p < 16; p++)
        all.places[p].subject = name_of("N1");
    for (int i = 0; i < STORED; i++) {
        credits_book b = none;
        stored(&b, i)->scale = 1;
        answer_is(AT, credits_book_close(&b, 16), refused(BAD_BOOK, 0));
        b = all;
        stored(&b, i)->scale = 255;
        answer_is(AT, credits_book_close(&b, 16), refused(BAD_BOOK, 0));
        for (int j = 0; j < i; j++) {
            b = all;
            stored(&b, i)->mantissa = half;
            stored(&b, j)->mantissa = less;
            answer_is(AT, credits_book_close(&b, 16), refused(OFF_THE_BOOK, 0));
            stored(&b, j)->mantissa = half;
            answer_is(AT, credits_book_close(&b, 16), refused(BAD_BOOK, 0));
        }
    }
}

/* An open writes the whole record of a closed place, which may hold anything but a scale. */
static void reopening(void)
{
    sheet create = sheet_of("1:N1 2:rd 4:5");
    credits_book b = credits_book_start((const uint8_t *)"rd", 2).book, want = b;
    b.places[2] = place_of("stale", "7/0+M/0");
    want.opened = 4;
    want.places[2] = place_of("N1", "5/0");
    answer_is(AT, credits_book_open(&b, 2, create.bytes, create.len), refused(0, 0));
    book_is(AT, &b, &want);
}

/* Each transfer in turn names GW, at either end, while the others are under way and name N1 alone: GW is awaited where that one is under
 * way too, and else it is closed. */
static void awaiting(void)
{
    static const step_case empty = DONE(OPEN, 2, 0, 0, NULL, "0/0", "0/0", "0/0", NO_WAY);
    for (int k = 0; k < 8 * 2 * 2; k++) {
        int t = k / 4, at_source = k / 2 % 2, under_way = k % 2;
        credits_book b = book_after(&empty), want;
        b.pending = (uint8_t)(under_way ? 255 : 255 & ~(1u << t));
        b.transfers[t].from = at_source ? 2 : 1;
        b.transfers[t].to = at_source ? 1 : 2;
        want = b;
        if (!under_way) {
            want.opened = 3;
            want.places[2] = no_book.places[2];
        }
        answer_is(AT, credits_book_close(&b, 2), refused(under_way ? AWAITED : 0, 0));
        book_is(AT, &b, &want);
    }
}

/* ---- sessions */

static void add_step(session *s, uint8_t kind, uint8_t a, uint8_t b, uint8_t t, const char *words)
{
    step x = { kind, a, b, t };
    sheet body = sheet_of(words);
    add_entry(s, x, body.bytes, body.len);
}

static void add_start(session *s, const char *unit)
{
    step x = { START, 0, 0, 0 };
    add_entry(s, x, (const uint8_t *)unit, strlen(unit));
}

/* Document 01's session. */
static void worked_session(session *s)
{
    begin_session(s, 6);
    add_start(s, "rd");
    add_step(s, OPEN, 0, 0, 0, "1:N1 2:rd 4:5");
    add_step(s, OPEN, 1, 0, 0, "1:N2 2:rd 4:0");
    add_step(s, BEGIN, 0, 1, 0, "7:5");
    add_step(s, BEGIN, 1, 0, 1, "7:5");
    add_step(s, FINISH, 0, 0, 0, NULL);
}

static const char worked_listing[] = "1 0 0\n2 0 0\n3 0 0\n4 15 0\n5 0 0\nplace 0 0 0\nplace 1 5 0\nheld 2 way 0 total 5\n";

/* 255 steps of a book that ends full: fifteen places opened, the rest refused. */
static void long_session(session *s)
{
    begin_session(s, 256);
    add_start(s, "rd");
    for (int k = 0; k < 255; k++)
        add_step(s, OPEN, (uint8_t)(k % 15), 0, 0, "1:N1 2:rd 4:20");
}

/* The listing in buffers of each length: nothing is written until all of it fits. */
static void listing_in_each_length(const char *at, const session *s, const char *text)
{
    size_t len = strlen(text);
    for (size_t room = 0; room <= len + 3; room++) {
        uint8_t space[8192];
        size_t n = GUARD + room + GUARD, wanted = room < len ? 0 : len;
        patterned(space, n);
        calls++;
        number_is(at, "a listing's length", credits_session_listing(s->bytes, s->len, space + GUARD, room), wanted);
        only_written(at, space, n, (const uint8_t *)text, wanted);
    }
}

static void run_of_bad(const char *at, const session *s)
{
    credits_run run = credits_session_run(s->bytes, s->len);
    run_is_bad(at, &run);
}

/* The answers, with zeros behind them, and the book. */
static void run_is(const char *at, const session *s, const credits_step *answers, size_t count, const credits_book *book)
{
    credits_run run = credits_session_run(s->bytes, s->len);
    counted(run.number);
    number_is(at, "number", run.number, 0);
    number_is(at, "count", run.count, count);
    bytes_are(at, "the steps", run.steps, answers, sizeof run.steps);
    book_is(at, &run.book, book);
}

static void running(void)
{
    static const credits_step worked_steps[255] = { { 0, 0 }, { 0, 0 }, { 0, 0 }, { SHORT, 0 }, { 0, 0 } };
    static session s;
    credits_book want = no_book;
    want.unit = name_of("rd");
    want.opened = 3;
    want.places[0].subject = name_of("N1");
    want.places[1].subject = name_of("N2");
    want.places[1].balance = amount_of("5/0");
    worked_session(&s);
    run_is(AT, &s, worked_steps, 5, &want);
    s.bytes[s.len++] = 0; /* a byte behind the last body */
    run_of_bad(AT, &s);
    begin_session(&s, 1);
    add_start(&s, "");
    run_of_bad(AT, &s);
}

static void listing(void)
{
    static session s;
    char text[CREDITS_LISTING_MAX + 1] = "";
    size_t n = 0;
    worked_session(&s);
    listing_in_each_length(AT, &s, worked_listing);
    s.len--;
    listing_in_each_length(AT, &s, "bad session\n");
    long_session(&s);
    for (int k = 1; k <= 255; k++)
        n += (size_t)sprintf(text + n, "%d %d 0\n", k, k > 15 ? 5 : 0);
    for (int p = 0; p < 15; p++)
        n += (size_t)sprintf(text + n, "place %d 20 0\n", p);
    sprintf(text + n, "held 15 way 0 total 300\n");
    listing_in_each_length(AT, &s, text);
}

/* The listing shows open places only. A close with b, with t or with a body is no entry. */
static void closing(void)
{
    static session s;
    for (uint8_t k = 0; k < 4; k++) {
        step close = { CLOSE, 0, k == 1, k == 2 };
        begin_session(&s, 5);
        add_start(&s, "rd");
        add_step(&s, OPEN, 0, 0, 0, "1:N1 2:rd 4:0");
        add_step(&s, OPEN, 1, 0, 0, "1:N2 2:rd 4:5");
        add_entry(&s, close, (const uint8_t *)"x", k == 3);
        add_step(&s, CLOSE, 1, 0, 0, NULL);
        if (k > 0)
            run_of_bad(AT, &s);
        else
            listing_in_each_length(AT, &s, "1 0 0\n2 0 0\n3 0 0\n4 29 0\nplace 1 5 0\nheld 1 way 0 total 5\n");
    }
}

/* What is reserved stands behind the balance; and the total that a run carries has it: what was spent may be credited again, up to
 * 2^128 - 1, after a reserve and a release, and no more. */
static void reserving(void)
{
    static const credits_step answers[255] = { { 0, 0 }, { 0, 0 }, { 0, 0 }, { NOT_RESERVED, 0 }, { 0, 0 },
                                               { 0, 0 }, { 0, 0 }, { 25, 0 }, { 29, 0 } };
    static session s;
    credits_book want = no_book;
    want.unit = name_of("rd");
    want.opened = 3;
    want.places[0] = place_of("N1", "0/0+2/0");
    want.places[1] = place_of("N2", "M/0");
    want.places[1].balance.mantissa.lo -= 2;
    begin_session(&s, 10);
    add_start(&s, "rd");
    add_step(&s, OPEN, 0, 0, 0, "1:N1 2:rd 4:8");
    add_step(&s, OPEN, 1, 0, 0, "1:N2 2:rd 4:5");
    add_step(&s, ACT, 0, 16, 0, "7:3");
    add_step(&s, ACT, 0, 17, 0, "7:4");
    add_step(&s, ACT, 0, 17, 0, "7:1");
    add_step(&s, ACT, 0, 18, 0, "7:6");
    add_step(&s, ACT, 1, 13, 0, "7:340282366920938463463374607431768211448");
    add_step(&s, ACT, 1, 13, 0, "7:1");
    add_step(&s, CLOSE, 0, 0, 0, NULL);
    run_is(AT, &s, answers, 9, &want);
    listing_in_each_length(AT, &s, "1 0 0\n2 0 0\n3 0 0\n4 31 0\n5 0 0\n6 0 0\n7 0 0\n8 25 0\n9 29 0\nplace 0 0 2\n"
                                   "place 1 340282366920938463463374607431768211453 0\nheld 2 way 0 total " MOST "\n");
    begin_session(&s, 4);
    add_start(&s, "rd");
    add_step(&s, OPEN, 15, 0, 0, "1:N1 2:rd 4:" MOST);
    add_step(&s, ACT, 15, 16, 0, "7:" MOST);
    add_step(&s, OPEN, 0, 0, 0, "1:N2 2:rd 4:1");
    listing_in_each_length(AT, &s, "1 0 0\n2 0 0\n3 25 0\nplace 15 0 " MOST "\nheld 1 way 0 total " MOST "\n");
}

/* ---- slices of no bytes: NULL will do */

static void without_bytes(void)
{
    sheet create = sheet_of("1:N1 2:rd 4:5"), state = sheet_of(BALANCE), pay = sheet_of("7:5 8:N2");
    credits_started none = credits_book_start(NULL, 0);
    credits_run run = credits_session_run(NULL, 0);
    uint8_t out[12];
    given_is(AT, credits_amount_read(NULL, 0), 10, zero);
    answer_is(AT, credits_check(2, 11, NULL, 0, create.bytes, create.len), refused(0, 0));
    answer_is(AT, credits_check(2, 11, NULL, 0, NULL, 0), refused(2, 0));
    answer_is(AT, credits_apply(2, 11, NULL, 0, NULL, 0, NULL, 0), refused(2, 0));
    answer_is(AT, credits_apply(2, 11, NULL, 0, create.bytes, create.len, NULL, 0), refused(NARROW, 0));
    answer_is(AT, credits_check_then_apply(2, 11, NULL, 0, NULL, 0, NULL, 0), refused(2, 0));
    answer_is(AT, credits_check_then_apply(2, 11, NULL, 0, create.bytes, create.len, NULL, 0), refused(NARROW, 0));
    answer_is(AT, credits_credit(15, NULL, 0, NULL, 0, NULL, 0, NULL, 0), refused(2, 0));
    answer_is(AT, credits_credit(15, state.bytes, state.len, NULL, 0, pay.bytes, pay.len, NULL, 0), refused(NARROW, 0));
    answer_is(AT, none.answer, refused(9, 2));
    book_is(AT, &none.book, &no_book);
    run_is_bad(AT, &run);
    calls += 2;
    number_is(AT, "a listing's length", credits_session_listing(NULL, 0, out, sizeof out), 12);
    bytes_are(AT, "the listing", out, "bad session\n", 12);
    number_is(AT, "a listing's length", credits_session_listing(NULL, 0, NULL, 0), 0);
}

static void steps_without_bytes(void)
{
    sheet create = sheet_of("1:N1 2:rd 4:5");
    credits_book book = credits_book_start((const uint8_t *)"rd", 2).book, before;
    answer_is(AT, credits_book_open(&book, 0, NULL, 0), refused(2, 0));
    answer_is(AT, credits_book_open(&book, 0, create.bytes, create.len), refused(0, 0));
    answer_is(AT, credits_book_open(&book, 1, create.bytes, create.len), refused(0, 0));
    before = book;
    answer_is(AT, credits_book_act(&book, 0, 13, NULL, 0), refused(2, 0));
    answer_is(AT, credits_book_begin(&book, 0, 1, 0, NULL, 0), refused(2, 0));
    book_is(AT, &book, &before);
}

int main(int argc, char **argv)
{
    uint64_t seed = argc > 1 ? strtoull(argv[1], NULL, 10) : 1;
    unsigned long by_hand;
    notation();
    reading();
    comparing();
    adding();
    subtracting();
    printing();
    checking();
    writing();
    starting();
    stepping(steps, COUNT(steps));
    stepping(reserves, COUNT(reserves));
    stepping(fills, COUNT(fills));
    judging();
    totalling();
    reopening();
    awaiting();
    running();
    listing();
    closing();
    reserving();
    without_bytes();
    steps_without_bytes();
    by_hand = calls;
    random_calls(seed);
    printf("every entry through C: %lu calls with known answers, %lu random ones; %lu refusals; %lu wrong\n", by_hand,
           calls - by_hand, refusals, failures);
    return failures != 0;
}
