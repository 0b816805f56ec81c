/* The gateway acts on a check alone and applies later: an accepted check is a promise, of the state that was checked. Then what the
 * promise asks for, and both calls in one, which write nothing where check refuses. */
#include <credits.h>
#include <credits_sheet.h>
#include <stdio.h>
#include <string.h>

typedef struct { uint8_t bytes[CREDITS_SHEET_MAX]; uint64_t len; } state;
typedef struct { uint8_t bytes[CREDITS_INPUT_MAX]; uint64_t len; } input;

static state balance_of(const char *unit, credits_amount balance)
{
    const credits_field fields[] = { credits_field_text(CREDITS_FIELD_SUBJECT, "N1"),
                                     credits_field_text(CREDITS_FIELD_UNIT, unit),
                                     credits_field_amount(CREDITS_FIELD_BALANCE, balance) };
    state s;
    s.len = credits_build_state(s.bytes, sizeof s.bytes, fields, CREDITS_COUNT(fields));
    return s;
}

static input request(uint64_t amount)
{
    const credits_field fields[] = { credits_field_whole(CREDITS_FIELD_AMOUNT, amount) };
    input i;
    i.len = credits_build_input(i.bytes, sizeof i.bytes, fields, CREDITS_COUNT(fields));
    return i;
}

/* A balance is the last 17 bytes of its sheet, the lowest first. */
static credits_amount held_in(const state *s)
{
    credits_amount a = { { 0, 0 }, 0 };
    const uint8_t *at = s->bytes + s->len - 17;
    for (int k = 7; k >= 0; k--) {
        a.mantissa.lo = a.mantissa.lo << 8 | at[k];
        a.mantissa.hi = a.mantissa.hi << 8 | at[8 + k];
    }
    a.scale = at[16];
    return a;
}

static credits_answer check(const state *s, const input *i)
{
    return credits_check(CREDITS_PROFILE_BALANCE, CREDITS_BALANCE_SPEND, s->bytes, s->len, i->bytes, i->len);
}

static credits_answer apply(const state *s, const input *i, state *next)
{
    credits_answer a = credits_apply(CREDITS_PROFILE_BALANCE, CREDITS_BALANCE_SPEND, s->bytes, s->len, i->bytes, i->len,
                                     next->bytes, sizeof next->bytes);
    next->len = a.length;
    return a;
}

static void print_answer(const char *what, credits_answer a)
{
    printf("%-28s %u %s, detail %u\n", what, a.number, credits_word(a.number), a.detail);
}

static void print_amount(const char *what, credits_amount a)
{
    credits_text text = credits_amount_text(a);
    printf("%-28s %.*s\n", what, text.len, (const char *)text.bytes);
}

int main(void)
{
    const credits_amount one_and_a_fifth = { { 0, 12 }, 1 };
    state node = balance_of("rd", one_and_a_fifth), unnamed = balance_of("", one_and_a_fifth), next = { { 0 }, 0 };
    state other = next;
    input one = request(1), two = request(2);
    uint8_t out[CREDITS_SHEET_MAX] = { 0 }, untouched[CREDITS_SHEET_MAX] = { 0 };

    print_answer("check of 1 of 1.2", check(&node, &one));
    printf("the reading is sold\n");
    print_answer("apply, later", apply(&node, &one, &next));
    print_amount("left", held_in(&next));
    print_amount("left and 1", credits_amount_add(held_in(&next), credits_amount_read((const uint8_t *)"1", 1).amount).amount);

    /* What is left is another state, which needs a check of its own: the first one promised nothing of it. */
    print_answer("apply again, unchecked", apply(&next, &one, &other));
    print_answer("check of 1 of 0.2", check(&next, &one));

    /* Why the unit may not be empty. */
    print_answer("check, no unit", check(&unnamed, &one));
    print_answer("apply, no unit", apply(&unnamed, &one, &other));

    print_answer("both in one, of 2",
                 credits_check_then_apply(CREDITS_PROFILE_BALANCE, CREDITS_BALANCE_SPEND, node.bytes, node.len, two.bytes,
                                          two.len, out, sizeof out));
    printf("%-28s %s\n", "its output", memcmp(out, untouched, sizeof out) ? "written" : "as it was");
    print_answer("both in one, of 1",
                 credits_check_then_apply(CREDITS_PROFILE_BALANCE, CREDITS_BALANCE_SPEND, node.bytes, node.len, one.bytes,
                                          one.len, out, sizeof out));
    return 0;
}
