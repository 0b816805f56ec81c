/* Random calls. Whatever the bytes are, an entry answers with a number that the documents have for that call; a refusal
 * alters nothing; torn sheets, bad books and bad sessions are refused as such, and no others are; an accepted step alters
 * its own part of the book and conserves the total; a session's run is its steps one by one, and its listing says the same. */
#include "entries.h"
#include <stdio.h>
#include <string.h>

enum { TURNS = 120000, POOL = 32 };

/* ---- chance (splitmix64) */

static uint64_t chance;

static uint64_t any64(void)
{
    uint64_t x = chance += 0x9E3779B97F4A7C15u;
    x = (x ^ x >> 30) * 0xBF58476D1CE4E5B9u;
    x = (x ^ x >> 27) * 0x94D049BB133111EBu;
    return x ^ x >> 31;
}

static uint32_t below(uint32_t n)
{
    return (uint32_t)(any64() >> 32) % n;
}

static int one_in(uint32_t n)
{
    return below(n) == 0;
}

/* Mostly below `most`, now and then any byte. */
static uint8_t some(uint32_t most)
{
    return (uint8_t)below(one_in(16) ? 256 : most);
}

static void noise(void *to, size_t n)
{
    uint8_t *bytes = to;
    for (size_t i = 0; i < n; i++)
        bytes[i] = (uint8_t)any64();
}

/* Draws twice, so in two statements: within one, C leaves open which call comes first, and a seed would not repeat. */
static void flip_a_bit(uint8_t *bytes, size_t n)
{
    uint32_t at = below((uint32_t)n);
    bytes[at] ^= (uint8_t)(1u << below(8));
}

/* ---- which numbers a call may answer, and with which details: bit d for detail d */

#define D(n) (1u << (n))
#define NONE D(0)
#define AMOUNTS (D(3) | D(4) | D(5) | D(6) | D(7))

static const char *const kinds[KINDS] = { "start",  "open",  "act",   "begin", "finish",
                                          "cancel", "close", "check", "apply", "both",  "credit" };

static const uint16_t details[KINDS][NUMBERS] = {
    [START] = { [0] = NONE, [9] = D(2), [27] = D(2) },
    [OPEN] = { [0] = NONE, [2] = NONE, [5] = NONE, [7] = D(1) | D(2) | D(4), [8] = D(1) | D(2), [9] = D(1) | D(2),
               [10] = D(4), [11] = D(4), [22] = NONE, [25] = NONE, [26] = NONE, [27] = D(1), [28] = NONE },
    [ACT] = { [0] = NONE, [2] = NONE, [4] = NONE, [6] = NONE, [7] = D(7) | D(10), [8] = D(10), [9] = D(10), [10] = D(7),
              [11] = D(7), [14] = NONE, [15] = NONE, [22] = NONE, [25] = NONE, [28] = NONE, [31] = NONE },
    [BEGIN] = { [0] = NONE, [2] = NONE, [6] = NONE, [7] = D(7), [10] = D(7), [11] = D(7), [14] = NONE, [15] = NONE,
                [21] = NONE, [22] = NONE, [24] = NONE, [28] = NONE },
    [FINISH] = { [0] = NONE, [22] = NONE, [23] = NONE, [28] = NONE },
    [CANCEL] = { [0] = NONE, [22] = NONE, [23] = NONE, [28] = NONE },
    [CLOSE] = { [0] = NONE, [6] = NONE, [22] = NONE, [28] = NONE, [29] = NONE, [30] = NONE },
    [CHECK] = { [0] = NONE, [1] = D(1), [2] = NONE, [3] = NONE, [4] = NONE, [5] = NONE, [6] = NONE,
                [7] = D(1) | D(2) | AMOUNTS | D(8) | D(9) | D(10), [8] = D(1) | D(2) | D(8) | D(9) | D(10),
                [9] = D(1) | D(2) | D(8) | D(9) | D(10), [10] = AMOUNTS, [11] = AMOUNTS, [12] = D(3) | D(4) | D(5),
                [14] = NONE, [15] = NONE, [16] = NONE },
    [APPLY] = { [0] = NONE, [1] = D(1), [2] = NONE, [3] = NONE, [4] = NONE, [6] = NONE,
                [7] = D(1) | D(2) | AMOUNTS | D(8) | D(9), [8] = D(1) | D(2) | D(8) | D(9),
                [9] = D(1) | D(2) | D(8) | D(9), [10] = AMOUNTS, [11] = AMOUNTS,
                [12] = D(2) | D(3) | D(4) | D(5) | D(6), [13] = D(1) | D(2), [17] = NONE, [18] = NONE, [20] = NONE },
    /* what check answers, and where it accepts, of apply what check does not ask for */
    [BOTH] = { [0] = NONE, [1] = D(1), [2] = NONE, [3] = NONE, [4] = NONE, [5] = NONE, [6] = NONE,
               [7] = D(1) | D(2) | AMOUNTS | D(8) | D(9) | D(10), [8] = D(1) | D(2) | D(8) | D(9) | D(10),
               [9] = D(1) | D(2) | D(8) | D(9) | D(10), [10] = AMOUNTS, [11] = AMOUNTS,
               [12] = D(2) | D(3) | D(4) | D(5) | D(6), [13] = D(1) | D(2), [14] = NONE, [15] = NONE, [16] = NONE,
               [17] = NONE, [20] = NONE },
    [CREDIT] = { [0] = NONE, [1] = D(1) | D(2), [2] = NONE, [6] = NONE, [7] = D(3) | D(7) | D(8), [8] = D(8), [9] = D(8),
                 [10] = D(3) | D(7), [11] = D(3) | D(7), [12] = D(2) | D(3) | D(4), [13] = D(2), [17] = NONE,
                 [19] = NONE, [20] = NONE },
};

static uint16_t seen[KINDS][NUMBERS];

static void number_fits(const char *at, int kind, uint8_t number, uint8_t detail)
{
    if (number >= NUMBERS || detail > 15 || !(details[kind][number] >> detail & 1))
        differs(at, "%s answered %u with detail %u", kinds[kind], number, detail);
    else
        seen[kind][number] |= (uint16_t)D(detail);
}

/* What holds of every answer of that kind of call. */
static void answer_fits(const char *at, int kind, credits_answer a)
{
    counted(a.number);
    number_fits(at, kind, a.number, a.detail);
    if (a.number == SHORT) {
        number_is(at, "the order of available and requested", credits_amount_compare(a.available, a.requested), 0);
    } else {
        amount_is(at, "available", a.available, zero);
        amount_is(at, "requested", a.requested, zero);
    }
    if (a.number != 0 || (kind != APPLY && kind != BOTH && kind != CREDIT))
        number_is(at, "length", a.length, 0);
}

/* Each of these numbers was met, with each detail: else the calls are not as random as they should be. */
static void all_seen(void)
{
    for (int k = 0; k < KINDS; k++)
        for (int n = 0; n < NUMBERS; n++)
            if (seen[k][n] != details[k][n])
                differs(AT, "%s: number %d came with details %#x, not with %#x", kinds[k], n, seen[k][n], details[k][n]);
}

/* ---- random amounts, sheets and states */

static credits_amount any_amount(void)
{
    static const uint64_t small[] = { 0, 1, 5, 10, 50, 100, 120, 1200, 1000000000 };
    static const uint8_t scales[] = { 0, 0, 0, 1, 2, 3, 9, 38, 255 };
    credits_amount a = zero;
    a.scale = one_in(8) ? (uint8_t)any64() : scales[below(COUNT(scales))];
    a.mantissa.lo = one_in(4) ? any64() : small[below(COUNT(small))];
    if (one_in(8))
        a.mantissa.hi = any64();
    if (one_in(2))
        a.mantissa.hi >>= below(64);
    if (one_in(16))
        a.mantissa.hi = a.mantissa.lo = UINT64_MAX;
    return a;
}

/* A text as a field of that name may have; odd ones among them. */
static field any_field(uint8_t name)
{
    static const char *const subjects[] = { "N1", "N2", "pier 7" };
    static const char *const units[] = { "rd", "rd", "rd", "rd", "rd", "kr" };
    static const char *const amounts[] = { "0", "1", "1", "2", "2", "3", "5", "007", MOST, ABOVE, "1.5", "1e3", "2E1",
                                           "-1" };
    static const size_t lengths[] = { 32, 33, 256, 257 };
    field f = { name, TEXT, 0, { 0 } };
    const char *text = subjects[below(COUNT(subjects))];
    if (name == 2 || name == 9)
        text = units[below(COUNT(units))];
    else if (name >= 3 && name <= 7)
        text = amounts[below(COUNT(amounts))];
    switch (below(24)) {
    case 0:
        f.kind = OTHER;
        break;
    case 1: /* an empty text */
        break;
    case 2:
        f.len = lengths[below(COUNT(lengths))];
        noise(f.body, f.len);
        break;
    default:
        f.len = strlen(text);
        memcpy(f.body, text, f.len);
    }
    return f;
}

static void damage(uint8_t *bytes, size_t *len)
{
    switch (below(4)) {
    case 0:
        if (*len)
            flip_a_bit(bytes, *len);
        break;
    case 1: /* cut */
        *len = below((uint32_t)*len + 1);
        break;
    case 2: /* longer */
        noise(bytes + (*len)++, 1);
        break;
    default: /* any bytes */
        *len = below(40);
        noise(bytes, *len);
    }
}

static sheet any_input(void)
{
    field fields[10];
    size_t n = 0;
    sheet s;
    for (uint8_t name = 1; name <= 10; name++)
        if (!one_in(4))
            fields[n++] = any_field(name);
    s = laid_out(fields, n);
    if (one_in(12))
        damage(s.bytes, &s.len);
    return s;
}

static const uint8_t forms[3][3] = { { 1, 2, 3 }, { 1, 2, 4 }, { 1, 5, 6 } }; /* the names of a stack, a balance, a meter */

static sheet any_state(void)
{
    const uint8_t *form = forms[below(3)];
    field fields[3];
    sheet s;
    for (int k = 0; k < 3; k++) {
        fields[k] = any_field(form[k]);
        fields[k].kind = TEXT; /* a state has no value that is no string */
        if (form[k] > 2)
            put_amount(&fields[k], any_amount());
    }
    s = laid_out(fields, 3);
    if (one_in(12))
        damage(s.bytes, &s.len);
    if (one_in(12))
        s.len = 0;
    return s;
}

static const uint8_t first_of[] = { 0, 1, 11, 21 }, count_of[] = { 27, 9, 10, 6 }; /* a profile's operations */

static uint8_t any_operation(uint8_t profile)
{
    int known = profile <= 3 && !one_in(16);
    return (uint8_t)(known ? first_of[profile] + below(count_of[profile]) : below(256));
}

/* ---- what document 01 says of a sheet's bytes */

static size_t get16(const uint8_t *at)
{
    return at[0] | (size_t)at[1] << 8;
}

static int length_fits(uint8_t kind, size_t len)
{
    return (kind == TEXT && len <= 256) || (kind == OTHER && len == 0) || (kind == AMOUNT && len == 17);
}

/* Names rise, bodies follow each other from the table to the end, and each is of its kind. */
static int is_laid_out(const sheet *s)
{
    size_t n = s->bytes[0], end = 1 + 6 * n;
    if (s->len < 1 || s->len < end)
        return 0;
    for (size_t k = 0; k < n; k++) {
        const uint8_t *entry = s->bytes + 1 + 6 * k;
        if ((k && entry[0] <= entry[-6]) || get16(entry + 2) != end || !length_fits(entry[1], get16(entry + 4)))
            return 0;
        end += get16(entry + 4);
    }
    return end == s->len;
}

static int is_input(const sheet *s)
{
    if (!is_laid_out(s))
        return 0;
    for (size_t k = 0; k < s->bytes[0]; k++) {
        const uint8_t *entry = s->bytes + 1 + 6 * k;
        if (entry[0] < 1 || entry[0] > 10 || entry[1] == AMOUNT)
            return 0;
    }
    return 1;
}

static int has_fields(const sheet *s, const uint8_t *names, const uint8_t *field_kinds)
{
    for (size_t k = 0; k < 3; k++)
        if (s->bytes[1 + 6 * k] != names[k] || s->bytes[2 + 6 * k] != field_kinds[k])
            return 0;
    return 1;
}

/* A stack, a balance or a meter; no bytes are an absent state. */
static int is_state(const sheet *s)
{
    static const uint8_t holding[] = { TEXT, TEXT, AMOUNT }, meter[] = { TEXT, AMOUNT, AMOUNT };
    if (s->len == 0)
        return 1;
    return is_laid_out(s) && s->bytes[0] == 3 &&
           (has_fields(s, forms[0], holding) || has_fields(s, forms[1], holding) || has_fields(s, forms[2], meter));
}

/* The first of 1 to 4 that refuses a call of check or apply; 0 where none does. */
static uint8_t first_refusal(uint8_t profile, uint8_t operation, const sheet *state, const sheet *input)
{
    if (!is_state(state))
        return 1;
    if (!is_input(input))
        return 2;
    if (profile < 1 || profile > 3)
        return 3;
    return operation < first_of[profile] || operation >= first_of[profile] + count_of[profile] ? 4 : 0;
}

static void first_refusal_is(const char *at, credits_answer a, uint8_t want)
{
    number_is(at, "what of 1 to 4 was answered", a.number <= 4 ? a.number : 0, want);
}

/* ---- amounts */

static void random_amounts(void)
{
    credits_amount a = any_amount(), b = any_amount();
    credits_given sum = credits_amount_add(a, b), difference = credits_amount_sub(a, b), back;
    credits_text one = credits_amount_text(a), other = credits_amount_text(b);
    uint8_t order = credits_amount_compare(a, b);
    int one_text = one.len == other.len && memcmp(one.bytes, other.bytes, one.len) == 0;
    calls += 4;
    number_is(AT, "an order", order < 3, 1);
    number_is(AT, "the order backwards", credits_amount_compare(b, a), 2u - order);
    number_is(AT, "whether the texts are one", one_text, order == 1);
    given_is(AT, sum, sum.number ? 17 : 0, sum.number ? zero : sum.amount);
    given_is(AT, credits_amount_add(b, a), sum.number, sum.amount);
    given_is(AT, difference, difference.number ? 18 : 0, difference.number ? zero : difference.amount);
    if (order == 0)
        number_is(AT, "the less minus the greater", difference.number, 18);
    if (sum.number == 0) {
        back = credits_amount_sub(sum.amount, b);
        number_is(AT, "a sum less b", back.number, 0);
        number_is(AT, "a sum less b, beside a", credits_amount_compare(back.amount, a), 1);
    }
    if (difference.number == 0) {
        back = credits_amount_add(difference.amount, b);
        number_is(AT, "a difference and b", back.number, 0);
        number_is(AT, "a difference and b, beside a", credits_amount_compare(back.amount, a), 1);
    }
}

/* Digits, mostly. A number that is read prints as its text without leading zeros. */
static void random_reading(void)
{
    char text[48];
    size_t len = below(43), first = 0;
    int whole = len >= 1 && len <= 39;
    credits_given got;
    for (size_t i = 0; i < len; i++)
        text[i] = (char)('0' + (one_in(3) ? 0 : below(10)));
    if (len && one_in(4)) {
        text[len / 2] = ".eE+- /:"[below(8)];
        whole = 0;
    }
    if (one_in(16)) {
        strcpy(text, one_in(2) ? MOST : ABOVE);
        len = strlen(text);
        whole = 1;
    }
    text[len] = 0;
    while (first + 1 < len && text[first] == '0')
        first++;
    if (len - first == 39 && strcmp(text + first, MOST) > 0)
        whole = 0;
    got = credits_amount_read((const uint8_t *)text, len);
    given_is(AT, got, whole ? 0 : 10, whole ? got.amount : zero);
    if (whole) {
        number_is(AT, "the scale of a number that is read", got.amount.scale, 0);
        text_is(AT, credits_amount_text(got.amount), text + first);
    }
}

/* ---- check, apply, both in one, credit */

static void random_check(void)
{
    sheet state = any_state(), input = any_input();
    uint8_t profile = some(4), operation = any_operation(profile);
    credits_answer a = credits_check(profile, operation, state.bytes, state.len, input.bytes, input.len);
    answer_fits(AT, CHECK, a);
    first_refusal_is(AT, a, first_refusal(profile, operation, &state, &input));
}

/* One call of apply, of both in one, or of credit, as kind says; the same again with another buffer is the same call. */
typedef struct { int kind; uint8_t profile, operation; sheet state, destination, input; } writing;

static credits_answer write_into(const writing *w, uint8_t *out, size_t room)
{
    if (w->kind == APPLY)
        return credits_apply(w->profile, w->operation, w->state.bytes, w->state.len, w->input.bytes, w->input.len, out,
                             room);
    if (w->kind == BOTH)
        return credits_check_then_apply(w->profile, w->operation, w->state.bytes, w->state.len, w->input.bytes,
                                        w->input.len, out, room);
    return credits_credit(w->operation, w->state.bytes, w->state.len, w->destination.bytes, w->destination.len,
                          w->input.bytes, w->input.len, out, room);
}

/* Into a buffer that is long enough for every state, then into one of a random length. What was written is a state. */
static void random_writing(void)
{
    enum { ROOM = 600, ANY_STATE = 26 /* meter.expire asks for a state and for nothing else */ };
    static writing w, before;
    static const uint8_t nothing[] = { 0 };
    uint8_t whole[GUARD + ROOM + GUARD], part[GUARD + ROOM + GUARD];
    credits_answer a, b;
    size_t room;
    w.kind = (int[]){ APPLY, BOTH, CREDIT }[below(3)];
    w.profile = some(4);
    w.operation = w.kind != CREDIT ? any_operation(w.profile) : one_in(8) ? some(27) : one_in(2) ? 5 : 15;
    w.state = any_state();
    w.destination = any_state();
    w.input = any_input();
    memcpy(&before, &w, sizeof w);
    patterned(whole, sizeof whole);
    patterned(part, sizeof part);

    a = write_into(&w, whole + GUARD, ROOM);
    answer_fits(AT, w.kind, a);
    if (w.kind != CREDIT)
        first_refusal_is(AT, a, first_refusal(w.profile, w.operation, &w.state, &w.input));
    else
        first_refusal_is(AT, a, !is_state(&w.state) || !is_state(&w.destination) ? 1 : !is_input(&w.input) ? 2 : 0);
    only_written(AT, whole, sizeof whole, whole + GUARD, a.length);
    if (a.number == 0)
        answer_is(AT, credits_check(3, ANY_STATE, whole + GUARD, a.length, nothing, 1), accepted(0));

    room = below(a.length + 4u);
    b = write_into(&w, part + GUARD, room);
    answer_is(AT, b, a.number == 0 && room < a.length ? refused(NARROW, 0) : a);
    number_fits(AT, w.kind, b.number, b.detail);
    only_written(AT, part, sizeof part, whole + GUARD, b.length);
    bytes_are(AT, "what was lent to be read", &w, &before, sizeof w);
}

/* ---- document 02's request 4: an accepted check of an operation that takes is a promise */

static const struct { uint8_t profile, operation; } takes[] = { { 1, 3 },  { 1, 4 },  { 1, 5 },  { 1, 6 },
                                                                { 2, 14 }, { 2, 15 }, { 2, 16 }, { 2, 18 },
                                                                { 2, 19 }, { 2, 20 }, { 3, 22 } };
static uint32_t kept[COUNT(takes)];

static const uint8_t *body_of(const sheet *s, size_t k, size_t *len)
{
    const uint8_t *entry = s->bytes + 1 + 6 * k;
    *len = get16(entry + 4);
    return s->bytes + get16(entry + 2);
}

static credits_amount amount_in(const sheet *s, size_t k)
{
    size_t len;
    const uint8_t *at = body_of(s, k, &len);
    credits_amount a = zero;
    for (int i = 7; i >= 0; i--) {
        a.mantissa.lo = a.mantissa.lo << 8 | at[i];
        a.mantissa.hi = a.mantissa.hi << 8 | at[8 + i];
    }
    a.scale = at[16];
    return a;
}

/* What a sound input asks for under that name: 7 where it is absent, 11 and 10 where it is no whole number. */
static credits_given asked_in(const sheet *input, uint8_t name)
{
    credits_given refusal = { 7, 0, { { 0, 0 }, 0 } };
    for (size_t k = 0; k < input->bytes[0]; k++)
        if (input->bytes[1 + 6 * k] == name) {
            size_t len;
            const uint8_t *text = body_of(input, k, &len);
            refusal.number = 11;
            for (size_t i = 0; i < len; i++)
                if (memchr(".eE", text[i], 3))
                    return refusal;
            return credits_amount_read(text, len);
        }
    return refusal;
}

/* Apply keeps it, and so do both in one: what was written is of the kind, and what is left and what was asked for are what was held. */
static void random_promise(void)
{
    uint32_t n = below(COUNT(takes));
    uint8_t profile = takes[n].profile, operation = takes[n].operation;
    size_t third = profile == 3 ? 1 : 2, len, unit;
    sheet state = any_state(), input = any_input(), left, again;
    credits_answer a, b;
    credits_given asked, sum;
    if (credits_check(profile, operation, state.bytes, state.len, input.bytes, input.len).number != 0)
        return;
    body_of(&state, 0, &len);
    body_of(&state, 1, &unit);
    if (len == 0 || (unit == 0 && operation != 20)) /* a meter's second body is an amount */
        return;
    kept[n]++;
    a = credits_apply(profile, operation, state.bytes, state.len, input.bytes, input.len, left.bytes, CREDITS_SHEET_MAX);
    b = credits_check_then_apply(profile, operation, state.bytes, state.len, input.bytes, input.len, again.bytes, a.length);
    left.len = a.length;
    answer_is(AT, a, accepted(left.len));
    answer_is(AT, b, a);
    bytes_are(AT, "what both in one wrote", again.bytes, left.bytes, a.length);
    number_is(AT, "whether the state is of the kind", is_state(&left) && left.bytes[1 + 6 * third] == forms[profile - 1][third], 1);
    asked = asked_in(&input, profile == 1 ? 3 : 7);
    sum = credits_amount_add(amount_in(&left, third), asked.amount);
    number_is(AT, "whether what is left and what was asked for have a sum", sum.number, 0);
    number_is(AT, "whether the two are what was held", credits_amount_compare(sum.amount, amount_in(&state, third)), 1);
}

/* ---- books */

/* Adds to the sum; whether that leaves 128 bits. */
static int add_to(credits_uint128 *sum, credits_uint128 x)
{
    uint64_t lo = sum->lo + x.lo, carry = lo < x.lo, hi = sum->hi + x.hi + carry;
    int over = hi < x.hi || (hi == x.hi && sum->hi != 0);
    sum->hi = hi;
    sum->lo = lo;
    return over;
}

/* Takes from what is no less. */
static void take_from(credits_uint128 *sum, credits_uint128 x)
{
    sum->hi -= x.hi + (sum->lo < x.lo);
    sum->lo -= x.lo;
}

/* What the open places hold and have reserved, and what is under way; whether they leave 128 bits. */
static int total_over(const credits_book *b, credits_uint128 *total)
{
    int over = 0;
    total->hi = total->lo = 0;
    for (int p = 0; p < 16; p++)
        if (b->opened >> p & 1) {
            over |= add_to(total, b->places[p].balance.mantissa);
            over |= add_to(total, b->places[p].reserved.mantissa);
        }
    for (int t = 0; t < 8; t++)
        if (b->pending >> t & 1)
            over |= add_to(total, b->transfers[t].amount.mantissa);
    return over;
}

static int bad_name(credits_name n)
{
    return n.len == 0 || n.len > 32;
}

static int is_open(const credits_book *b, uint8_t place)
{
    return place < 16 && (b->opened >> place & 1);
}

/* Document 01's 28. */
static int is_bad(const credits_book *b)
{
    credits_uint128 total;
    int bad = total_over(b, &total) || bad_name(b->unit);
    for (int p = 0; p < 16; p++) {
        const credits_place *x = &b->places[p];
        bad |= x->balance.scale != 0 || x->reserved.scale != 0 || (is_open(b, (uint8_t)p) && bad_name(x->subject));
    }
    for (int t = 0; t < 8; t++) {
        const credits_transfer *x = &b->transfers[t];
        bad |= x->amount.scale != 0 || ((b->pending >> t & 1) && !(is_open(b, x->from) && is_open(b, x->to)));
    }
    return bad;
}

/* What a close of that place answers: document 02's requests 2 and 5, behind 28. */
static uint8_t close_number(const credits_book *b, uint8_t place)
{
    if (is_bad(b))
        return BAD_BOOK;
    if (place > 15)
        return 22;
    if (!is_open(b, place))
        return 6;
    if (!same_amount(b->places[place].balance, zero) || !same_amount(b->places[place].reserved, zero))
        return 29;
    for (int t = 0; t < 8; t++)
        if ((b->pending >> t & 1) && (b->transfers[t].from == place || b->transfers[t].to == place))
            return AWAITED;
    return 0;
}

/* What a reserve or a release answers: document 01's check, and then document 02's request 5. */
static uint8_t moving_number(const credits_book *b, step s, const sheet *input)
{
    credits_given asked;
    if (is_bad(b))
        return BAD_BOOK;
    if (s.a > 15)
        return 22;
    if (!is_open(b, s.a))
        return 6;
    if (!is_input(input))
        return 2;
    asked = asked_in(input, 7);
    if (asked.number)
        return asked.number;
    if (same_amount(asked.amount, zero))
        return 14;
    if (s.b == 16)
        return credits_amount_compare(b->places[s.a].balance, asked.amount) == CREDITS_LESS ? SHORT : 0;
    return credits_amount_compare(b->places[s.a].reserved, asked.amount) == CREDITS_LESS ? NOT_RESERVED : 0;
}

/* Noise made sound, with empty places for closes: whatever 28 does not look at stays noise. */
static void tame(credits_book *b)
{
    b->unit = name_of("rd");
    for (int p = 0; p < 16; p++) {
        b->places[p].subject.len = (uint8_t)(1 + below(32));
        b->places[p].balance.scale = b->places[p].reserved.scale = 0;
        b->places[p].balance.mantissa.hi >>= 6 + below(58);
        b->places[p].reserved.mantissa.hi >>= 6 + below(58);
        if (one_in(4))
            b->places[p].balance = zero;
        if (one_in(2))
            b->places[p].reserved = zero;
    }
    for (int t = 0; t < 8; t++) {
        credits_transfer *x = &b->transfers[t];
        x->amount.scale = 0;
        x->amount.mantissa.hi >>= 6 + below(58);
        if (!is_open(b, x->from & 15) || !is_open(b, x->to & 15))
            b->pending &= (uint8_t)~D(t);
        x->from &= 15;
        x->to &= 15;
    }
}

/* These have a transfer, and neither a sheet nor a place. */
static int is_end(uint8_t kind)
{
    return kind == FINISH || kind == CANCEL;
}

/* Of a step, its sheet; of a start, its unit. */
static int has_body(uint8_t kind)
{
    return !is_end(kind) && kind != CLOSE;
}

static step any_step(void)
{
    static const uint8_t operations[] = { 12, 13, 14, 16, 17, 18, 19 };
    step s = { (uint8_t)(OPEN + below(6)), 0, 0, 0 };
    if (!is_end(s.kind))
        s.a = some(5);
    if (s.kind == ACT)
        s.b = one_in(8) ? (uint8_t)any64() : operations[below(COUNT(operations))];
    if (s.kind == BEGIN)
        s.b = some(5);
    if (s.kind == BEGIN || is_end(s.kind))
        s.t = some(4);
    return s;
}

/* A book as its callers hold it, between guards. */
typedef struct { uint8_t before[GUARD]; credits_book book; uint8_t behind[GUARD]; } lent;

/* What an accepted step leaves: a sound book that differs in the step's own part alone, by what was asked for. The total moves by what is
 * issued and taken, which reserve and release do not. */
static void left_by(step s, const sheet *input, const credits_book *before, const credits_book *after)
{
    credits_book want = *before;
    credits_place *place = &want.places[s.a & 15];
    credits_amount was = zero, is = zero;
    credits_uint128 asked = has_body(s.kind) ? asked_in(input, s.kind == OPEN ? 4 : 7).amount.mantissa : zero.mantissa;
    const credits_transfer *carried = &before->transfers[s.t & 7];
    uint8_t lands = (s.kind == CANCEL ? carried->from : carried->to) & 15;
    int is_issued = s.kind == OPEN || (s.kind == ACT && (s.b == 12 || s.b == 13));
    int is_taken = s.kind == ACT && (s.b == 14 || s.b == 18 || s.b == 19);
    switch (s.kind) {
    case OPEN:
        want.opened |= (uint16_t)D(s.a);
        *place = no_book.places[0];
        place->subject = after->places[s.a].subject;
        place->balance.mantissa = asked;
        break;
    case ACT:
        if (s.b == 16)
            add_to(&place->reserved.mantissa, asked);
        if (s.b == 17)
            take_from(&place->reserved.mantissa, asked);
        if (is_issued || s.b == 17)
            add_to(&place->balance.mantissa, asked);
        else
            take_from(&place->balance.mantissa, asked);
        break;
    case BEGIN:
        want.pending |= (uint8_t)D(s.t);
        take_from(&place->balance.mantissa, asked);
        want.transfers[s.t].from = s.a;
        want.transfers[s.t].to = s.b;
        want.transfers[s.t].amount.mantissa = asked;
        break;
    case CLOSE:
        want.opened &= (uint16_t)~D(s.a);
        *place = no_book.places[0];
        break;
    default: /* finish or cancel */
        want.pending &= (uint8_t)~D(s.t);
        add_to(&want.places[lands].balance.mantissa, carried->amount.mantissa);
        want.transfers[s.t] = no_book.transfers[0];
    }
    book_is(AT, after, &want);
    number_is(AT, "whether a step made a bad book", is_bad(after), 0);
    if (s.kind == ACT || s.kind == BEGIN)
        number_is(AT, "whether nothing was asked for", asked.hi == 0 && asked.lo == 0, 0);
    total_over(before, &was.mantissa);
    if (is_issued)
        add_to(&was.mantissa, asked);
    if (is_taken)
        take_from(&was.mantissa, asked);
    total_over(after, &is.mantissa);
    amount_is(AT, "the total", is, was);
}

/* A step on a lent book. A refusal leaves every byte of it, padding too. */
static void random_step(lent *l)
{
    static lent before;
    step s = any_step();
    sheet input = any_input();
    credits_answer a;
    patterned(l->before, GUARD);
    patterned(l->behind, GUARD);
    memcpy(&before, l, sizeof before);
    a = taken(&l->book, s, input.bytes, input.len);
    answer_fits(AT, s.kind, a);
    number_is(AT, "whether it is 28", a.number == BAD_BOOK, is_bad(&before.book));
    bytes_are(AT, "the guard before a book", l->before, before.before, GUARD);
    bytes_are(AT, "the guard behind a book", l->behind, before.behind, GUARD);
    if (a.number)
        bytes_are(AT, "a book after a refusal", &l->book, &before.book, sizeof l->book);
    else if (!has_body(s.kind) || is_input(&input))
        left_by(s, &input, &before.book, &l->book);
    if (a.number == SHORT)
        amount_is(AT, "available", a.available, before.book.places[s.a].balance);
    if (s.kind == CLOSE)
        number_is(AT, "the number for this close", a.number, close_number(&before.book, s.a));
    if (s.kind == ACT && (s.b == 16 || s.b == 17)) {
        number_is(AT, "the number for this reserve or release", a.number, moving_number(&before.book, s, &input));
        number_is(AT, "its detail", a.detail, a.number == 7 || a.number == 10 || a.number == 11 ? 7 : 0);
    }
    if (has_body(s.kind) && (a.number == 0 || a.number == 2))
        number_is(AT, "the number for this sheet", a.number, is_input(&input) ? 0 : 2);
}

static lent pool[POOL]; /* books that steps led to, and still do */

static void random_books(void)
{
    static lent l;
    lent *kept = &pool[below(POOL)];
    if (one_in(64))
        kept->book = credits_book_start((const uint8_t *)"rd", 2).book;
    random_step(kept);

    memcpy(&l, kept, sizeof l);
    if (one_in(2))
        noise(&l.book, sizeof l.book);
    if (one_in(2))
        tame(&l.book);
    if (one_in(2))
        noise((uint8_t *)&l.book + below(sizeof l.book), 1);
    random_step(&l);
}

static void random_start(void)
{
    uint8_t unit[48];
    size_t len = below(one_in(2) ? 3 : sizeof unit);
    credits_started got;
    credits_book want = no_book;
    noise(unit, sizeof unit);
    got = credits_book_start(unit, len);
    answer_fits(AT, START, got.answer);
    number_is(AT, "number", got.answer.number, len == 0 ? 9 : len > 32 ? 27 : 0);
    if (got.answer.number == 0) {
        memcpy(want.unit.bytes, unit, len);
        want.unit.len = (uint8_t)len;
    }
    book_is(AT, &got.book, &want);
}

/* ---- sessions */

/* Sound layouts, a few too long or with a unit that no start takes. */
static void any_session(session *s)
{
    size_t n = 1 + (one_in(200) ? 240 + below(18) : below(12));
    size_t unit = one_in(32) ? (one_in(2) ? 0 : 33) : 2;
    const step start = { START, 0, 0, 0 }, finish = { FINISH, 0, 0, 0 };
    begin_session(s, n);
    add_entry(s, start, (const uint8_t *)"rdrdrdrdrdrdrdrdrdrdrdrdrdrdrdrdr", unit);
    while (s->entries < n) {
        sheet body = any_input();
        step x = any_step();
        if (s->entries < 4 && !one_in(8)) { /* so that later steps find something, and closes an empty place */
            const step open = { OPEN, (uint8_t)s->entries, 0, 0 };
            x = open;
            body = sheet_of(one_in(3) ? "1:N1 2:rd 4:0" : "1:N1 2:rd 4:100");
        }
        if (s->len > 30000) /* the space of a session is nearly full */
            x = finish;
        add_entry(s, x, body.bytes, has_body(x.kind) ? body.len : 0);
    }
}

/* Its layout as the documents have it, and a start that is accepted. */
static int is_good(const session *s)
{
    static const uint8_t used[] = { 0, D(1), D(1) | D(2), D(1) | D(2) | D(3), D(3), D(3), D(1) }; /* of a kind's a, b, t */
    size_t n = get16(s->bytes), end = 2 + 8 * n;
    if (s->len < 2 || s->len > 16384 || n < 1 || n > 256 || end > s->len)
        return 0;
    for (size_t k = 0; k < n; k++) {
        const uint8_t *entry = s->bytes + 2 + 8 * k;
        size_t len = get16(entry + 6);
        if (entry[0] > CLOSE || (entry[0] == START) != (k == 0) || get16(entry + 4) != end || (!has_body(entry[0]) && len))
            return 0;
        for (int f = 1; f <= 3; f++)
            if (entry[f] && !(used[entry[0]] >> f & 1))
                return 0;
        end += len;
    }
    return end == s->len && get16(s->bytes + 8) >= 1 && get16(s->bytes + 8) <= 32;
}

/* The run of a good session is its steps one by one on a lent book. */
static void run_is_its_steps(const session *s, const credits_run *run)
{
    static const credits_step none[255];
    size_t count = get16(s->bytes) - 1;
    credits_book book = credits_book_start(s->bytes + get16(s->bytes + 6), get16(s->bytes + 8)).book;
    counted(run->number);
    number_is(AT, "number", run->number, 0);
    number_is(AT, "count", run->count, count);
    for (size_t k = 0; k < count; k++) {
        const uint8_t *entry = s->bytes + 2 + 8 * (k + 1);
        step x = { entry[0], entry[1], entry[2], entry[3] };
        credits_answer a = taken(&book, x, s->bytes + get16(entry + 4), get16(entry + 6));
        answer_fits(AT, x.kind, a);
        number_is(AT, "a step's number", run->steps[k].number, a.number);
        number_is(AT, "a step's detail", run->steps[k].detail, a.detail);
    }
    bytes_are(AT, "the steps behind the last", run->steps + count, none, sizeof none - count * sizeof *none);
    book_is(AT, &run->book, &book);
}

static size_t put_number(char *text, credits_uint128 n, char behind)
{
    credits_amount a = { n, 0 };
    credits_text t = credits_amount_text(a);
    memcpy(text, t.bytes, t.len);
    text[t.len] = behind;
    return t.len + 1u;
}

static unsigned ones(unsigned set)
{
    return set ? (set & 1) + ones(set >> 1) : 0;
}

/* The listing that documents 01 and 02 have for a run. */
static size_t listed(const credits_run *run, char *text)
{
    const credits_book *b = &run->book;
    credits_uint128 total;
    size_t n = 0;
    if (run->number)
        return (size_t)sprintf(text, "bad session\n");
    for (int k = 0; k < run->count; k++)
        n += (size_t)sprintf(text + n, "%d %u %u\n", k + 1, run->steps[k].number, run->steps[k].detail);
    for (int p = 0; p < 16; p++)
        if (is_open(b, (uint8_t)p)) {
            n += (size_t)sprintf(text + n, "place %d ", p);
            n += put_number(text + n, b->places[p].balance.mantissa, ' ');
            n += put_number(text + n, b->places[p].reserved.mantissa, '\n');
        }
    total_over(b, &total);
    n += (size_t)sprintf(text + n, "held %u way %u total ", ones(b->opened), ones(b->pending));
    return n + put_number(text + n, total, '\n');
}

/* The listing in a buffer that is always enough, and in one of a random length. */
static void listing_is(const session *s, const char *text, size_t len)
{
    uint8_t space[GUARD + CREDITS_LISTING_MAX + GUARD];
    size_t room = below((uint32_t)len + 2), wanted = room < len ? 0 : len;
    calls += 2;
    patterned(space, sizeof space);
    number_is(AT, "a listing's length", credits_session_listing(s->bytes, s->len, space + GUARD, CREDITS_LISTING_MAX), len);
    only_written(AT, space, sizeof space, (const uint8_t *)text, len);
    patterned(space, sizeof space);
    number_is(AT, "a listing's length", credits_session_listing(s->bytes, s->len, space + GUARD, room), wanted);
    only_written(AT, space, sizeof space, (const uint8_t *)text, wanted);
}

static void random_sessions(void)
{
    static session s;
    char text[8192];
    credits_run run;
    any_session(&s);
    if (one_in(4))
        flip_a_bit(s.bytes, 2 + 8 * s.entries); /* of the table */
    else if (one_in(4))
        damage(s.bytes, &s.len);
    run = credits_session_run(s.bytes, s.len);
    if (is_good(&s))
        run_is_its_steps(&s, &run);
    else
        run_is_bad(AT, &run);
    listing_is(&s, text, listed(&run, text));
}

void random_calls(uint64_t seed)
{
    chance = seed;
    for (int k = 0; k < POOL; k++)
        pool[k].book = credits_book_start((const uint8_t *)"rd", 2).book;
    for (int k = 0; k < TURNS; k++) {
        random_amounts();
        random_reading();
        random_check();
        random_writing();
        random_promise();
        random_books();
        random_start();
        if (k % 8 == 0)
            random_sessions();
    }
    all_seen();
    for (size_t n = 0; n < COUNT(takes); n++)
        if (kept[n] == 0)
            differs(AT, "no check of operation %u was accepted and kept", takes[n].operation);
}
