/* Charges readings to a node's balance: check before each reading, apply after it; then hands over what no sender
 * should send, and prints the refusals. tools/link-examples builds it with the headers and the library alone. */
#include <credits.h>
#include <credits_sheet.h>
#include <stdio.h>
#include <stdlib.h>

typedef struct { uint8_t bytes[CREDITS_INPUT_MAX]; uint64_t len; } sheet; /* a state is shorter than the longest input */

static sheet input_of(const credits_field *fields, uint64_t count)
{
    sheet s;
    s.len = credits_build_input(s.bytes, sizeof s.bytes, fields, count);
    if (s.len == 0) {
        fprintf(stderr, "the fields make no sheet\n");
        exit(1);
    }
    return s;
}

static sheet amount_sheet(const char *amount)
{
    const credits_field fields[] = { credits_field_text(CREDITS_FIELD_AMOUNT, amount) };
    return input_of(fields, CREDITS_COUNT(fields));
}

static void print_answer(const char *what, credits_answer a)
{
    credits_text available = credits_amount_text(a.available), requested = credits_amount_text(a.requested);
    printf("%-28s %u %s, detail %u, length %u", what, a.number, credits_word(a.number), a.detail, a.length);
    if (a.number == CREDITS_SHORT)
        printf(", available %.*s, requested %.*s", available.len, (const char *)available.bytes, requested.len,
               (const char *)requested.bytes);
    printf("\n");
}

/* One charged reading: firmware asks first, and keeps the next state only where it was written. */
static void charge(sheet *state, const char *amount)
{
    sheet input = amount_sheet(amount), next;
    credits_answer a = credits_check(CREDITS_PROFILE_BALANCE, CREDITS_BALANCE_SPEND, state->bytes, state->len, input.bytes,
                                     input.len);
    print_answer("check", a);
    if (a.number != CREDITS_ACCEPTED)
        return;
    a = credits_apply(CREDITS_PROFILE_BALANCE, CREDITS_BALANCE_SPEND, state->bytes, state->len, input.bytes, input.len,
                      next.bytes, sizeof next.bytes);
    print_answer("apply", a);
    if (a.number == CREDITS_ACCEPTED) {
        next.len = a.length;
        *state = next;
    }
}

static credits_answer spend(const uint8_t *state, uint64_t state_len, const uint8_t *input, uint64_t input_len)
{
    return credits_check(CREDITS_PROFILE_BALANCE, CREDITS_BALANCE_SPEND, state, state_len, input, input_len);
}

int main(void)
{
    const credits_field node[] = { credits_field_text(CREDITS_FIELD_SUBJECT, "N1"),
                                   credits_field_text(CREDITS_FIELD_UNIT, "rd"),
                                   credits_field_whole(CREDITS_FIELD_BALANCE, 5) };
    sheet create = input_of(node, CREDITS_COUNT(node)), state, one = amount_sheet("1");
    credits_answer a = credits_apply(CREDITS_PROFILE_BALANCE, CREDITS_BALANCE_CREATE, NULL, 0, create.bytes, create.len,
                                     state.bytes, sizeof state.bytes);
    print_answer("create N1 with 5", a);
    state.len = a.length;

    charge(&state, "3");
    charge(&state, "3"); /* 2 are left */
    charge(&state, "1e3");

    uint8_t noise[64], zeros[CREDITS_SHEET_MAX] = { 0 };
    for (unsigned i = 0; i < sizeof noise; i++)
        noise[i] = (uint8_t)(i * 37 + 11); /* any bytes will do */
    print_answer("a byte short", spend(state.bytes, state.len - 1, one.bytes, one.len));
    print_answer("random bytes", spend(noise, sizeof noise, one.bytes, one.len));
    print_answer("NULL as state", spend(NULL, 0, one.bytes, one.len));
    print_answer("NULL as input", spend(state.bytes, state.len, NULL, 0));
    print_answer("a full buffer of zeros", spend(zeros, sizeof zeros, one.bytes, one.len));
    a = credits_apply(CREDITS_PROFILE_BALANCE, CREDITS_BALANCE_SPEND, state.bytes, state.len, one.bytes, one.len, zeros,
                      state.len - 1);
    print_answer("a buffer one byte short", a);
    return 0;
}
